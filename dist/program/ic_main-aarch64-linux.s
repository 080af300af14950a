/* The command program: numbered objects and collections at the command line, for Linux on aarch64.
   logic=proved functions=6 axioms=13 target=aarch64-unknown-linux-gnu threads=_exit,abort,free,malloc,pthread_attr_destroy,pthread_attr_init,pthread_attr_setguardsize,pthread_attr_setstacksize,pthread_create,pthread_detach,pthread_join,pthread_self,sched_yield,syscall main=Threads+Wait may-wait=2 sum=dac8208d650f15bf native=nat,char,string logic-built=trusted libraries-built=trusted statements=trusted incremental=trusted
   Licensed under Apache 2.0 or MIT. Made by tools/build-library: do not edit. */
	.section	.rodata.cst16,"aM",@progbits,16
	.p2align	4, 0x0
.LCPI0_0:
	.xword	0
	.xword	8192
.LCPI0_1:
	.xword	1
	.xword	0
.LCPI0_2:
	.xword	9223372036854775807
	.xword	0
.LCPI0_3:
	.xword	3
	.xword	0
.LCPI0_4:
	.xword	0
	.xword	65536
.LCPI0_5:
	.byte	0
	.byte	1
	.byte	2
	.byte	3
	.byte	4
	.byte	5
	.byte	6
	.byte	7
	.byte	8
	.byte	9
	.byte	10
	.byte	11
	.byte	12
	.byte	13
	.byte	14
	.byte	15
.LCPI0_6:
	.byte	16
	.byte	17
	.byte	18
	.byte	19
	.byte	20
	.byte	21
	.byte	22
	.byte	23
	.byte	24
	.byte	25
	.byte	26
	.byte	27
	.byte	28
	.byte	29
	.byte	30
	.byte	31
.LCPI0_8:
	.byte	1
	.byte	2
	.byte	4
	.byte	8
	.byte	16
	.byte	32
	.byte	64
	.byte	128
	.byte	1
	.byte	2
	.byte	4
	.byte	8
	.byte	16
	.byte	32
	.byte	64
	.byte	128
	.section	.rodata.cst8,"aM",@progbits,8
	.p2align	3, 0x0
.LCPI0_7:
	.byte	32
	.byte	33
	.byte	34
	.byte	35
	.byte	36
	.byte	37
	.byte	38
	.byte	39
	.section	.text.ic_main.run.fd625e2fe7ce0436,"ax",@progbits
	.p2align	2
	.type	ic_main.run.fd625e2fe7ce0436,@function
ic_main.run.fd625e2fe7ce0436:
	stp	x29, x30, [sp, #-96]!
	stp	x28, x27, [sp, #16]
	mov	x29, sp
	stp	x26, x25, [sp, #32]
	stp	x24, x23, [sp, #48]
	stp	x22, x21, [sp, #64]
	stp	x20, x19, [sp, #80]
	sub	sp, sp, #3072
	str	xzr, [sp]
	sub	sp, sp, #3072
	str	xzr, [sp]
	sub	sp, sp, #2832
	movi	v0.2d, #0000000000000000
	mov	x22, x1
	mov	x19, x0
	add	x27, sp, #2, lsl #12
	add	x0, sp, #160
	mov	w1, wzr
	mov	w2, #8256
	str	xzr, [sp]
	add	x27, x27, #288
	str	xzr, [sp, #8464]
	str	q0, [sp, #8448]
	str	q0, [sp, #8432]
	str	q0, [sp, #8416]
	bl	memset
	movi	v0.2d, #0000000000000000
	mov	x26, xzr
	sub	x21, x29, #24
	mov	w20, #1
	stp	xzr, xzr, [x29, #-192]
	stur	xzr, [x29, #-176]
	stp	x21, xzr, [x29, #-160]
	stp	q0, q0, [sp, #128]
	stur	xzr, [x29, #-144]
.LBB0_1:
	movi	v0.2d, #0000000000000000
	add	x1, sp, #2, lsl #12
	mov	x0, x20
	add	x1, x1, #400
	mov	w2, #32
	str	q0, [sp, #8608]
	str	q0, [sp, #8592]
	bl	rattle_arg
	mov	w8, #36
	cmn	x0, #1
	mov	w9, #22
	csel	w8, w9, w8, eq
	mov	x23, x0
	csel	w0, wzr, w8, gt
	bl	rattle_set_errno
	bl	rattle_errno
	cbnz	w0, .LBB0_26
	bic	x8, x23, x23, asr #63
	mov	w9, #32
	add	x1, sp, #2, lsl #12
	sub	x0, x29, #192
	add	x1, x1, #400
	cmp	x8, #32
	csel	x2, x8, x9, lt
	bl	core.str.utf8.from_utf8
	ldrb	w8, [x27, #304]
	cbnz	w8, .LBB0_38
	ldp	x25, x23, [x29, #-184]
	cbz	x23, .LBB0_11
	tbnz	x23, #63, .LBB0_30
	mov	x0, x23
	mov	w1, #1
	bl	rattle_alloc
	tbz	w0, #0, .LBB0_30
	mov	x24, x1
	sub	x9, x1, x25
	cmp	x9, x23
	b.hs	.LBB0_12
.LBB0_7:
	cmp	x23, #8
	mov	x8, xzr
	b.lo	.LBB0_20
	cmp	x9, #32
	b.lo	.LBB0_20
	cmp	x23, #32
	b.hs	.LBB0_13
	mov	x8, xzr
	b	.LBB0_17
.LBB0_11:
	sub	x24, x29, #24
	sub	x9, x24, x25
	cmp	x9, x23
	b.lo	.LBB0_7
.LBB0_12:
	mov	x0, x24
	mov	x1, x25
	mov	x2, x23
	bl	memmove
	b	.LBB0_22
.LBB0_13:
	and	x9, x23, #0x18
	and	x8, x23, #0xffffffffffffffe0
	add	x10, x25, #16
	add	x11, x24, #16
	and	x12, x23, #0xffffffffffffffe0
.LBB0_14:
	ldp	q0, q1, [x10, #-16]
	subs	x12, x12, #32
	add	x10, x10, #32
	stp	q0, q1, [x11, #-16]
	add	x11, x11, #32
	b.ne	.LBB0_14
	cmp	x23, x8
	b.eq	.LBB0_22
	cbz	x9, .LBB0_20
.LBB0_17:
	mov	x11, x8
	and	x8, x23, #0xfffffffffffffff8
	sub	x9, x11, x8
	add	x10, x25, x11
	add	x11, x24, x11
.LBB0_18:
	ldr	d0, [x10], #8
	adds	x9, x9, #8
	str	d0, [x11], #8
	b.ne	.LBB0_18
	cmp	x23, x8
	b.eq	.LBB0_22
.LBB0_20:
	sub	x9, x23, x8
	add	x10, x25, x8
	add	x8, x24, x8
.LBB0_21:
	ldrb	w11, [x10], #1
	subs	x9, x9, #1
	strb	w11, [x8], #1
	b.ne	.LBB0_21
.LBB0_22:
	ldur	x8, [x29, #-144]
	cmp	x8, x26
	b.eq	.LBB0_24
.LBB0_23:
	mov	w8, #24
	add	x20, x20, #1
	madd	x8, x26, x8, x21
	add	x26, x26, #1
	cmn	x20, #1
	stp	x24, x23, [x8]
	str	x23, [x8, #16]
	stur	x26, [x29, #-152]
	b.ne	.LBB0_1
	b	.LBB0_29
.LBB0_24:
	sub	x0, x29, #160
	bl	std_alloc.vec.Vec.grow_amortized.2f1185c89873501e
	cbz	w0, .LBB0_246
	ldp	x21, x26, [x29, #-160]
	b	.LBB0_23
.LBB0_26:
	cmp	w0, #36
	b.ne	.LBB0_29
	mov	w0, #24
	mov	w1, #8
	bl	rattle_alloc
	tbz	w0, #0, .LBB0_40
	mov	x25, x1
	mov	w20, wzr
	sub	x8, x29, #24
	mov	w28, #1
	stp	xzr, xzr, [x1, #8]
	str	x8, [x1]
	ldur	x23, [x29, #-144]
	cbnz	x26, .LBB0_41
	b	.LBB0_50
.LBB0_29:
	ldur	x25, [x29, #-160]
	ldur	x24, [x29, #-144]
	mov	x28, x26
	b	.LBB0_54
.LBB0_30:
	ldur	x20, [x29, #-144]
	cbz	x26, .LBB0_35
	add	x22, x21, #16
	b	.LBB0_33
.LBB0_32:
	subs	x26, x26, #1
	add	x22, x22, #24
	b.eq	.LBB0_35
.LBB0_33:
	ldr	x8, [x22]
	cbz	x8, .LBB0_32
	ldur	x0, [x22, #-16]
	bl	rattle_dealloc
	b	.LBB0_32
.LBB0_35:
	cbz	x20, .LBB0_53
	mov	x0, x21
.LBB0_37:
	bl	rattle_dealloc
	b	.LBB0_53
.LBB0_38:
	mov	w0, #24
	mov	w1, #8
	bl	rattle_alloc
	tbz	w0, #0, .LBB0_45
	mov	x25, x1
	mov	w20, wzr
	sub	x8, x29, #24
	mov	w28, #1
	stp	xzr, xzr, [x1, #8]
	str	x8, [x1]
	ldur	x23, [x29, #-144]
	cbnz	x26, .LBB0_46
	b	.LBB0_50
.LBB0_40:
	mov	x25, xzr
	mov	x28, xzr
	mov	w20, #1
	ldur	x23, [x29, #-144]
	cbz	x26, .LBB0_50
.LBB0_41:
	add	x24, x21, #16
	b	.LBB0_43
.LBB0_42:
	subs	x26, x26, #1
	add	x24, x24, #24
	b.eq	.LBB0_50
.LBB0_43:
	ldr	x8, [x24]
	cbz	x8, .LBB0_42
	ldur	x0, [x24, #-16]
	bl	rattle_dealloc
	b	.LBB0_42
.LBB0_45:
	mov	x25, xzr
	mov	x28, xzr
	mov	w20, #1
	ldur	x23, [x29, #-144]
	cbz	x26, .LBB0_50
.LBB0_46:
	add	x24, x21, #16
	b	.LBB0_48
.LBB0_47:
	subs	x26, x26, #1
	add	x24, x24, #24
	b.eq	.LBB0_50
.LBB0_48:
	ldr	x8, [x24]
	cbz	x8, .LBB0_47
	ldur	x0, [x24, #-16]
	bl	rattle_dealloc
	b	.LBB0_47
.LBB0_50:
	cbz	x23, .LBB0_52
	mov	x0, x21
	bl	rattle_dealloc
.LBB0_52:
	mov	x24, x28
	cbz	w20, .LBB0_54
.LBB0_53:
	movi	v0.2d, #0000000000000000
	mov	w8, #1
	mov	w9, #9729
	strh	w8, [x19]
	strh	w9, [x19, #8]
	stur	q0, [x19, #10]
	stur	q0, [x19, #26]
	stur	q0, [x19, #42]
	stur	q0, [x19, #58]
	stur	q0, [x19, #74]
	str	xzr, [x19, #88]
	b	.LBB0_276
.LBB0_54:
	mov	w0, wzr
	mov	x1, xzr
	mov	w2, #1
	bl	lseek
	mov	x23, x0
	mov	w0, #65536
	mov	w1, #1
	bl	rattle_alloc
	tbz	w0, #0, .LBB0_191
	mov	x21, x1
	mvn	x8, x23
	mov	x0, x1
	mov	w1, wzr
	mov	w2, #65536
	str	x24, [sp, #120]
	lsr	x23, x8, #63
	mov	w24, #65536
	bl	memset
	add	x0, sp, #160
	mov	w1, wzr
	mov	w2, #8208
	add	x20, sp, #160
	bl	memset
	movi	v1.2d, #0000000000000000
	dup	v0.2d, x24
	mov	w0, #8192
	mov	w1, #1
	str	x23, [sp, #8368]
	str	x21, [sp, #8376]
	str	q0, [sp, #8384]
	str	q1, [sp, #8400]
	bl	rattle_alloc
	tbz	w0, #0, .LBB0_199
	adrp	x8, .LCPI0_0
	ldr	x24, [sp, #120]
	cmp	x28, #3
	ldr	q0, [x8, :lo12:.LCPI0_0]
	stp	x22, x1, [sp, #128]
	str	xzr, [sp, #8520]
	str	q0, [sp, #144]
	str	xzr, [sp, #8504]
	str	xzr, [sp, #8512]
	str	xzr, [sp, #8480]
	str	xzr, [sp, #8496]
	str	xzr, [sp, #8488]
	str	x25, [sp, #72]
	b.eq	.LBB0_205
	cbnz	x28, .LBB0_236
	movi	v0.2d, #0000000000000000
	mov	w0, #65536
	mov	w1, #1
	mov	w24, #1
	str	q0, [sp, #8544]
	str	q0, [sp, #8528]
	bl	rattle_alloc
	tbz	w0, #0, .LBB0_241
	movi	v0.2d, #0000000000000000
	adrp	x9, .LCPI0_4
	sub	x8, x29, #24
	ldr	x17, [sp, #8400]
	ldr	x25, [sp, #8408]
	mov	x24, xzr
	mov	x23, xzr
	str	x8, [sp, #8592]
	str	x8, [sp, #8640]
	stur	q0, [x27, #120]
	stur	q0, [x27, #136]
	ldr	q0, [x9, :lo12:.LCPI0_4]
	mov	w9, #8240
	str	x8, [sp, #8664]
	str	x8, [sp, #8688]
	str	x8, [sp, #8560]
	add	x8, x20, x9
	str	xzr, [sp, #8632]
	str	xzr, [sp, #8648]
	str	xzr, [sp, #8656]
	str	xzr, [sp, #8680]
	str	xzr, [sp, #8672]
	str	xzr, [sp, #8696]
	str	xzr, [sp, #8704]
	str	x1, [sp, #8712]
	str	q0, [sp, #8720]
	str	xzr, [sp, #8736]
	str	xzr, [sp, #8568]
	str	x8, [sp, #56]
	str	xzr, [sp, #8576]
.LBB0_60:
	movi	v0.2d, #0000000000000000
	cmp	x17, x25
	str	x23, [sp, #80]
	stp	q0, q0, [x29, #-224]
	b.lo	.LBB0_69
	ldr	x8, [sp, #8360]
	ldr	x22, [sp, #8384]
	ldr	x9, [sp, #56]
	subs	x8, x8, x24
	stp	xzr, xzr, [x9]
	b.ne	.LBB0_64
	mov	w0, wzr
	mov	x1, x21
	mov	x2, x22
	bl	read
	tbnz	x0, #63, .LBB0_124
	cmp	x0, x22
	csel	x25, x0, x22, lo
	b	.LBB0_68
.LBB0_64:
	add	x9, sp, #160
	cmp	x22, x8
	mov	x0, x21
	add	x1, x9, x24
	csel	x25, x22, x8, lo
	sub	x8, x21, x1
	mov	x2, x25
	cmp	x8, x25
	b.hs	.LBB0_66
	bl	memcpy
	b	.LBB0_67
.LBB0_66:
	bl	memmove
.LBB0_67:
	add	x24, x25, x24
	str	x24, [sp, #8352]
.LBB0_68:
	ldr	x17, [sp, #8400]
	ldr	x21, [sp, #8376]
	str	x25, [sp, #8408]
.LBB0_69:
	subs	x22, x25, x17
	stp	x25, x17, [sp, #104]
	b.eq	.LBB0_76
	movi	v0.2d, #0000000000000000
	ldr	x18, [sp, #8568]
	add	x23, x21, x17
	adrp	x0, .LCPI0_8
	stp	q0, q0, [x29, #-192]
	stp	q0, q0, [x29, #-160]
	cbz	x18, .LBB0_75
	cmp	x22, #31
	b.hi	.LBB0_78
	mov	x26, xzr
.LBB0_73:
	ldrb	w8, [x23, x26]
	cmp	w8, #10
	b.eq	.LBB0_116
	add	x26, x26, #1
	cmp	x22, x26
	b.ne	.LBB0_73
.LBB0_75:
	mov	x26, x22
	cmp	x22, #32
	mov	x8, x26
	b.hs	.LBB0_145
	b	.LBB0_153
.LBB0_76:
	ldr	x2, [sp, #8560]
	ldr	x3, [sp, #8568]
	add	x1, sp, #2, lsl #12
	sub	x0, x29, #224
	add	x1, x1, #400
	add	x4, sp, #128
	bl	ic_program.session.Session.answer_lines.61c60e3f83b1098c
	ldrb	w8, [x27, #272]
	cbz	w8, .LBB0_123
	ldur	x23, [x29, #-200]
	ldrb	w25, [x27, #288]
	mov	w20, wzr
	ldrb	w26, [x27, #280]
	mov	w22, wzr
	b	.LBB0_182
.LBB0_78:
	add	x11, x21, x17
	mov	x12, xzr
	add	x8, x21, x25
	sub	x9, x22, #64
	add	x10, x11, #96
	add	x11, x11, #160
.LBB0_79:
	sub	x13, x22, x12
	cmp	x13, #191
	b.ls	.LBB0_86
	movi	v0.16b, #10
	add	x13, x23, x12
	add	x14, x12, #64
	ldp	q1, q2, [x13]
	ldp	q3, q4, [x13, #32]
	cmeq	v2.16b, v2.16b, v0.16b
	cmeq	v1.16b, v1.16b, v0.16b
	cmeq	v4.16b, v4.16b, v0.16b
	cmeq	v3.16b, v3.16b, v0.16b
	ldr	q0, [x0, :lo12:.LCPI0_8]
	and	v1.16b, v1.16b, v0.16b
	and	v2.16b, v2.16b, v0.16b
	and	v3.16b, v3.16b, v0.16b
	and	v4.16b, v4.16b, v0.16b
	addp	v1.16b, v1.16b, v2.16b
	addp	v2.16b, v3.16b, v4.16b
	addp	v1.16b, v1.16b, v2.16b
	addp	v1.16b, v1.16b, v1.16b
	fmov	x15, d1
	cbnz	x15, .LBB0_109
	sub	x15, x22, x14
	cmp	x15, #128
	b.lo	.LBB0_95
	add	x13, x12, #192
	add	x12, x11, x12
.LBB0_83:
	movi	v17.16b, #10
	ldp	q6, q5, [x12, #-96]
	ldp	q16, q18, [x12, #-64]
	ldp	q2, q1, [x12, #-32]
	ldp	q3, q4, [x12], #128
	cmeq	v6.16b, v6.16b, v17.16b
	cmeq	v7.16b, v5.16b, v17.16b
	cmeq	v5.16b, v18.16b, v17.16b
	cmeq	v18.16b, v1.16b, v17.16b
	cmeq	v16.16b, v16.16b, v17.16b
	cmeq	v20.16b, v2.16b, v17.16b
	cmeq	v19.16b, v4.16b, v17.16b
	cmeq	v17.16b, v3.16b, v17.16b
	orr	v18.16b, v18.16b, v19.16b
	orr	v17.16b, v20.16b, v17.16b
	orr	v19.16b, v7.16b, v5.16b
	orr	v20.16b, v6.16b, v16.16b
	orr	v18.16b, v19.16b, v18.16b
	orr	v17.16b, v20.16b, v17.16b
	and	v18.16b, v18.16b, v0.16b
	and	v17.16b, v17.16b, v0.16b
	addp	v17.16b, v17.16b, v18.16b
	addp	v17.16b, v17.16b, v17.16b
	addp	v17.16b, v17.16b, v17.16b
	fmov	w14, s17
	cbnz	w14, .LBB0_112
	sub	x15, x15, #128
	add	x13, x13, #128
	cmp	x15, #127
	b.hi	.LBB0_83
	sub	x12, x13, #128
	b	.LBB0_96
.LBB0_86:
	cmp	x13, #64
	b.lo	.LBB0_102
.LBB0_87:
	movi	v0.16b, #10
	add	x14, x23, x12
	ldp	q1, q2, [x14]
	ldp	q4, q3, [x14, #32]
	cmeq	v5.16b, v1.16b, v0.16b
	cmeq	v6.16b, v2.16b, v0.16b
	cmeq	v7.16b, v4.16b, v0.16b
	cmeq	v0.16b, v3.16b, v0.16b
	orr	v6.16b, v6.16b, v0.16b
	orr	v5.16b, v5.16b, v7.16b
	ldr	q0, [x0, :lo12:.LCPI0_8]
	and	v5.16b, v5.16b, v0.16b
	and	v6.16b, v6.16b, v0.16b
	addp	v5.16b, v5.16b, v6.16b
	addp	v5.16b, v5.16b, v5.16b
	addp	v5.16b, v5.16b, v5.16b
	fmov	w14, s5
	cbnz	w14, .LBB0_89
	sub	x13, x13, #64
	add	x12, x12, #64
	cmp	x13, #63
	b.hi	.LBB0_87
	b	.LBB0_102
.LBB0_89:
	cmp	x13, #64
	b.lo	.LBB0_102
.LBB0_90:
	movi	v5.16b, #10
	cmeq	v1.16b, v1.16b, v5.16b
	cmeq	v2.16b, v2.16b, v5.16b
	cmeq	v3.16b, v3.16b, v5.16b
	cmeq	v4.16b, v4.16b, v5.16b
	and	v1.16b, v1.16b, v0.16b
	and	v2.16b, v2.16b, v0.16b
	and	v3.16b, v3.16b, v0.16b
	and	v4.16b, v4.16b, v0.16b
	addp	v1.16b, v1.16b, v2.16b
	addp	v2.16b, v4.16b, v3.16b
	addp	v1.16b, v1.16b, v2.16b
	addp	v1.16b, v1.16b, v1.16b
	fmov	x15, d1
	cbnz	x15, .LBB0_115
	sub	x13, x9, x12
	neg	x14, x12
	add	x12, x10, x12
.LBB0_92:
	subs	x15, x13, #64
	b.lo	.LBB0_101
	movi	v5.16b, #10
	ldp	q1, q2, [x12, #-32]
	ldp	q4, q3, [x12], #64
	sub	x14, x14, #64
	mov	x13, x15
	cmeq	v6.16b, v1.16b, v5.16b
	cmeq	v7.16b, v2.16b, v5.16b
	cmeq	v16.16b, v4.16b, v5.16b
	cmeq	v5.16b, v3.16b, v5.16b
	orr	v6.16b, v6.16b, v16.16b
	orr	v5.16b, v7.16b, v5.16b
	and	v6.16b, v6.16b, v0.16b
	and	v5.16b, v5.16b, v0.16b
	addp	v5.16b, v6.16b, v5.16b
	addp	v5.16b, v5.16b, v5.16b
	addp	v5.16b, v5.16b, v5.16b
	fmov	w16, s5
	cbz	w16, .LBB0_92
	neg	x12, x14
	b	.LBB0_90
.LBB0_95:
	mov	x12, x14
.LBB0_96:
	cmp	x15, #32
	b.lo	.LBB0_100
	sub	x13, x22, x12
.LBB0_98:
	movi	v1.16b, #10
	add	x14, x23, x12
	ldp	q2, q3, [x14]
	cmeq	v3.16b, v3.16b, v1.16b
	cmeq	v1.16b, v2.16b, v1.16b
	and	v1.16b, v1.16b, v0.16b
	and	v2.16b, v3.16b, v0.16b
	addp	v1.16b, v1.16b, v2.16b
	addp	v1.16b, v1.16b, v1.16b
	addp	v1.16b, v1.16b, v1.16b
	fmov	w15, s1
	cbnz	w15, .LBB0_108
	sub	x13, x13, #32
	add	x12, x12, #32
	cmp	x13, #31
	b.hi	.LBB0_98
.LBB0_100:
	movi	v1.16b, #10
	ldp	q2, q3, [x8, #-32]
	cmeq	v3.16b, v3.16b, v1.16b
	cmeq	v1.16b, v2.16b, v1.16b
	and	v1.16b, v1.16b, v0.16b
	and	v0.16b, v3.16b, v0.16b
	addp	v0.16b, v1.16b, v0.16b
	b	.LBB0_107
.LBB0_101:
	mov	w12, #64
	sub	x12, x12, x14
.LBB0_102:
	cmp	x13, #32
	b.lo	.LBB0_106
	sub	x13, x22, x12
.LBB0_104:
	movi	v0.16b, #10
	add	x14, x23, x12
	ldp	q1, q2, [x14]
	cmeq	v2.16b, v2.16b, v0.16b
	cmeq	v0.16b, v1.16b, v0.16b
	ldr	q1, [x0, :lo12:.LCPI0_8]
	and	v0.16b, v0.16b, v1.16b
	and	v1.16b, v2.16b, v1.16b
	addp	v0.16b, v0.16b, v1.16b
	addp	v0.16b, v0.16b, v0.16b
	addp	v0.16b, v0.16b, v0.16b
	fmov	w15, s0
	cbnz	w15, .LBB0_108
	sub	x13, x13, #32
	add	x12, x12, #32
	cmp	x13, #31
	b.hi	.LBB0_104
.LBB0_106:
	movi	v0.16b, #10
	ldp	q1, q2, [x8, #-32]
	cmeq	v2.16b, v2.16b, v0.16b
	cmeq	v0.16b, v1.16b, v0.16b
	ldr	q1, [x0, :lo12:.LCPI0_8]
	and	v0.16b, v0.16b, v1.16b
	and	v1.16b, v2.16b, v1.16b
	addp	v0.16b, v0.16b, v1.16b
.LBB0_107:
	addp	v0.16b, v0.16b, v0.16b
	sub	x14, x12, x22
	add	x14, x14, #32
	addp	v0.16b, v0.16b, v0.16b
	fmov	w13, s0
	lsr	x15, x13, x14
	mov	x13, x22
	mov	x14, x13
	cbnz	x15, .LBB0_109
	b	.LBB0_111
.LBB0_108:
	add	x14, x12, #32
.LBB0_109:
	rbit	x13, x15
	clz	x13, x13
	add	x26, x13, x12
	ldrb	w16, [x23, x26]
	cmp	w16, #10
	b.eq	.LBB0_116
	mov	w16, #1
	lsl	x13, x16, x13
	bics	x15, x15, x13
	b.ne	.LBB0_109
.LBB0_111:
	cmp	x14, x22
	mov	x12, x14
	b.lo	.LBB0_79
	b	.LBB0_75
.LBB0_112:
	and	v6.16b, v6.16b, v0.16b
	and	v7.16b, v7.16b, v0.16b
	sub	x14, x13, #64
	and	v16.16b, v16.16b, v0.16b
	and	v5.16b, v5.16b, v0.16b
	addp	v6.16b, v6.16b, v7.16b
	addp	v5.16b, v16.16b, v5.16b
	addp	v5.16b, v6.16b, v5.16b
	addp	v5.16b, v5.16b, v5.16b
	fmov	x15, d5
	cbz	x15, .LBB0_114
	sub	x12, x13, #128
	b	.LBB0_109
.LBB0_114:
	movi	v5.16b, #10
	cmeq	v2.16b, v2.16b, v5.16b
	cmeq	v1.16b, v1.16b, v5.16b
	cmeq	v4.16b, v4.16b, v5.16b
	cmeq	v3.16b, v3.16b, v5.16b
	and	v2.16b, v2.16b, v0.16b
	and	v1.16b, v1.16b, v0.16b
	and	v3.16b, v3.16b, v0.16b
	and	v0.16b, v4.16b, v0.16b
	addp	v1.16b, v2.16b, v1.16b
	addp	v0.16b, v3.16b, v0.16b
	addp	v0.16b, v1.16b, v0.16b
	addp	v0.16b, v0.16b, v0.16b
	fmov	x15, d0
	mov	x12, x14
	mov	x14, x13
	cbnz	x15, .LBB0_109
	b	.LBB0_111
.LBB0_115:
	add	x14, x12, #64
	b	.LBB0_109
.LBB0_116:
	ldr	x20, [sp, #8576]
	str	x24, [sp, #64]
	add	x24, x26, #1
	sub	x8, x20, x18
	cmp	x24, x8
	b.hi	.LBB0_137
	ldr	x25, [sp, #8560]
	add	x8, x25, x18
	sub	x8, x8, x23
	cmp	x8, x24
	b.hs	.LBB0_139
.LBB0_118:
	cmp	x24, #8
	b.lo	.LBB0_120
	add	x8, x18, x25
	add	x9, x17, x21
	sub	x8, x8, x9
	cmp	x8, #32
	b.hs	.LBB0_128
.LBB0_120:
	mov	x8, xzr
.LBB0_121:
	sub	x9, x26, x8
	add	x10, x8, x17
	add	x11, x8, x18
	add	x8, x9, #1
	add	x9, x21, x10
	add	x10, x25, x11
.LBB0_122:
	ldrb	w11, [x9], #1
	subs	x8, x8, #1
	strb	w11, [x10], #1
	b.ne	.LBB0_122
	b	.LBB0_140
.LBB0_123:
	mov	w22, wzr
	mov	w26, wzr
	mov	w25, wzr
	mov	x23, xzr
	mov	w20, #1
	b	.LBB0_182
.LBB0_124:
	bl	rattle_errno
	mov	w1, w0
	sub	x0, x29, #160
	sub	x20, x29, #160
	bl	std_io.io.error.Error.from_raw_os_error
	adrp	x9, .LCPI0_5
	ldur	x8, [x29, #-160]
	adrp	x10, .LCPI0_6
	ldr	q0, [x9, :lo12:.LCPI0_5]
	adrp	x9, .LCPI0_7
	ldr	q1, [x10, :lo12:.LCPI0_6]
	ldr	d2, [x9, :lo12:.LCPI0_7]
	ubfx	w9, w8, #8, #8
	mov	w10, #40
	stp	q0, q1, [x29, #-160]
	cmp	w9, #41
	stur	d2, [x29, #-128]
	strb	w10, [x27, #376]
	b.hs	.LBB0_127
	ubfx	x8, x8, #8, #6
	ldrb	w8, [x20, x8]
	cmp	w8, #35
	b.ne	.LBB0_127
	stp	xzr, xzr, [sp, #104]
	mov	w26, wzr
	mov	w25, wzr
	mov	x23, xzr
	mov	w20, #1
	mov	w22, #1
	b	.LBB0_182
.LBB0_127:
	ldr	x23, [sp, #8736]
	mov	w20, wzr
	mov	w22, wzr
	mov	w26, #1
	mov	w25, #1
	stp	xzr, xzr, [sp, #104]
	b	.LBB0_182
.LBB0_128:
	cmp	x24, #32
	b.hs	.LBB0_130
	mov	x8, xzr
	b	.LBB0_134
.LBB0_130:
	add	x10, x21, x17
	add	x11, x25, x18
	and	x9, x24, #0x18
	and	x8, x24, #0xffffffffffffffe0
	add	x10, x10, #16
	add	x11, x11, #16
	and	x12, x24, #0xffffffffffffffe0
.LBB0_131:
	ldp	q0, q1, [x10, #-16]
	subs	x12, x12, #32
	add	x10, x10, #32
	stp	q0, q1, [x11, #-16]
	add	x11, x11, #32
	b.ne	.LBB0_131
	cmp	x24, x8
	b.eq	.LBB0_140
	cbz	x9, .LBB0_121
.LBB0_134:
	mov	x9, x8
	and	x8, x24, #0xfffffffffffffff8
	add	x10, x17, x9
	add	x11, x18, x9
	sub	x9, x9, x8
	add	x10, x21, x10
	add	x11, x25, x11
.LBB0_135:
	ldr	d0, [x10], #8
	adds	x9, x9, #8
	str	d0, [x11], #8
	b.ne	.LBB0_135
	cmp	x24, x8
	b.eq	.LBB0_140
	b	.LBB0_121
.LBB0_137:
	add	x0, sp, #2, lsl #12
	add	x1, x26, #1
	add	x0, x0, #368
	bl	std_alloc.vec.Vec.grow_amortized.3f7cc1ad5d64d7d7
	cbz	w0, .LBB0_189
	ldr	x18, [sp, #8568]
	ldr	x20, [sp, #8576]
	ldr	x17, [sp, #112]
	ldr	x25, [sp, #8560]
	add	x8, x25, x18
	sub	x8, x8, x23
	cmp	x8, x24
	b.lo	.LBB0_118
.LBB0_139:
	add	x0, x25, x18
	add	x1, x21, x17
	mov	x2, x24
	mov	x26, x18
	bl	memmove
	mov	x18, x26
.LBB0_140:
	add	x26, x18, x24
	add	x1, sp, #2, lsl #12
	sub	x0, x29, #160
	add	x1, x1, #400
	add	x4, sp, #128
	mov	x2, x25
	mov	x3, x26
	str	x26, [sp, #8568]
	str	x20, [sp, #8576]
	bl	ic_program.session.Session.answer_lines.61c60e3f83b1098c
	cbz	x26, .LBB0_142
	str	xzr, [sp, #8568]
.LBB0_142:
	ldrb	w8, [x27, #336]
	adrp	x0, .LCPI0_8
	cbz	w8, .LBB0_144
	ldur	x23, [x29, #-136]
	ldrb	w25, [x27, #352]
	ldrb	w26, [x27, #344]
	ldr	x24, [sp, #64]
	b	.LBB0_161
.LBB0_144:
	add	x23, x23, x24
	sub	x26, x22, x24
	ldr	x24, [sp, #64]
	mov	x18, xzr
	cmp	x26, #32
	mov	x8, x26
	b.lo	.LBB0_153
.LBB0_145:
	sub	x9, x23, #64
	mov	x8, x26
.LBB0_146:
	sub	x10, x8, #32
	movi	v0.16b, #10
	add	x11, x23, x10
	ldp	q1, q2, [x11]
	cmeq	v2.16b, v2.16b, v0.16b
	cmeq	v1.16b, v1.16b, v0.16b
	ldr	q0, [x0, :lo12:.LCPI0_8]
	and	v1.16b, v1.16b, v0.16b
	and	v2.16b, v2.16b, v0.16b
	addp	v1.16b, v1.16b, v2.16b
	addp	v1.16b, v1.16b, v1.16b
	addp	v1.16b, v1.16b, v1.16b
	fmov	w11, s1
	cbz	w11, .LBB0_149
.LBB0_147:
	clz	x12, x11
	eor	x12, x12, #0x3f
	add	x13, x12, x10
	ldrb	w14, [x23, x13]
	cmp	w14, #10
	b.eq	.LBB0_157
	mov	w13, #1
	lsl	x12, x13, x12
	bics	x11, x11, x12
	b.ne	.LBB0_147
.LBB0_149:
	add	x11, x9, x8
.LBB0_150:
	mov	x8, x10
	subs	x10, x10, #128
	b.lo	.LBB0_152
	movi	v1.16b, #10
	ldp	q2, q3, [x11, #-96]
	ldp	q4, q5, [x11, #-64]
	ldp	q6, q7, [x11, #-32]
	ldp	q16, q17, [x11], #-128
	cmeq	v3.16b, v3.16b, v1.16b
	cmeq	v2.16b, v2.16b, v1.16b
	cmeq	v5.16b, v5.16b, v1.16b
	cmeq	v4.16b, v4.16b, v1.16b
	cmeq	v7.16b, v7.16b, v1.16b
	cmeq	v6.16b, v6.16b, v1.16b
	cmeq	v17.16b, v17.16b, v1.16b
	cmeq	v1.16b, v16.16b, v1.16b
	orr	v3.16b, v3.16b, v5.16b
	orr	v2.16b, v2.16b, v4.16b
	orr	v1.16b, v6.16b, v1.16b
	orr	v4.16b, v7.16b, v17.16b
	orr	v3.16b, v3.16b, v4.16b
	orr	v1.16b, v2.16b, v1.16b
	and	v1.16b, v1.16b, v0.16b
	and	v2.16b, v3.16b, v0.16b
	addp	v1.16b, v1.16b, v2.16b
	addp	v1.16b, v1.16b, v1.16b
	addp	v1.16b, v1.16b, v1.16b
	fmov	w12, s1
	cbz	w12, .LBB0_150
.LBB0_152:
	cmp	x8, #31
	b.hi	.LBB0_146
.LBB0_153:
	sub	x9, x23, #1
.LBB0_154:
	cbz	x8, .LBB0_158
	ldrb	w11, [x9, x8]
	sub	x10, x8, #1
	mov	x8, x10
	cmp	w11, #10
	b.ne	.LBB0_154
	mov	x20, x18
	add	x25, x10, #1
	b	.LBB0_159
.LBB0_157:
	mov	x20, x18
	add	x25, x13, #1
	b	.LBB0_159
.LBB0_158:
	mov	x20, x18
	mov	x25, xzr
.LBB0_159:
	add	x1, sp, #2, lsl #12
	sub	x0, x29, #192
	add	x4, sp, #128
	add	x1, x1, #400
	mov	x2, x23
	mov	x3, x25
	bl	ic_program.session.Session.answer_lines.61c60e3f83b1098c
	ldrb	w8, [x27, #304]
	cbz	w8, .LBB0_162
	ldur	x23, [x29, #-168]
	ldrb	w25, [x27, #320]
	ldrb	w26, [x27, #312]
.LBB0_161:
	mov	w20, wzr
	mov	w22, wzr
	b	.LBB0_182
.LBB0_162:
	ldr	x15, [sp, #8576]
	str	x24, [sp, #64]
	sub	x24, x26, x25
	mov	x14, x20
	sub	x8, x15, x20
	cmp	x24, x8
	b.hi	.LBB0_178
	ldr	x8, [sp, #8560]
	add	x1, x23, x25
	add	x0, x8, x14
	sub	x9, x0, x1
	cmp	x9, x24
	b.hs	.LBB0_180
.LBB0_164:
	cmp	x24, #8
	b.lo	.LBB0_166
	add	x9, x14, x8
	add	x10, x25, x23
	sub	x9, x9, x10
	cmp	x9, #32
	b.hs	.LBB0_169
.LBB0_166:
	mov	x9, xzr
.LBB0_167:
	add	x10, x9, x25
	add	x11, x9, x14
	sub	x9, x10, x26
	add	x10, x23, x10
	add	x8, x8, x11
.LBB0_168:
	ldrb	w11, [x10], #1
	adds	x9, x9, #1
	strb	w11, [x8], #1
	b.lo	.LBB0_168
	b	.LBB0_181
.LBB0_169:
	cmp	x24, #32
	b.hs	.LBB0_171
	mov	x9, xzr
	b	.LBB0_175
.LBB0_171:
	add	x11, x23, x25
	add	x12, x8, x14
	and	x10, x24, #0x18
	and	x9, x24, #0xffffffffffffffe0
	add	x11, x11, #16
	add	x12, x12, #16
	and	x13, x24, #0xffffffffffffffe0
.LBB0_172:
	ldp	q0, q1, [x11, #-16]
	subs	x13, x13, #32
	add	x11, x11, #32
	stp	q0, q1, [x12, #-16]
	add	x12, x12, #32
	b.ne	.LBB0_172
	cmp	x24, x9
	b.eq	.LBB0_181
	cbz	x10, .LBB0_167
.LBB0_175:
	mov	x10, x9
	and	x9, x24, #0xfffffffffffffff8
	add	x11, x10, x25
	add	x12, x14, x10
	sub	x10, x10, x9
	add	x11, x23, x11
	add	x12, x8, x12
.LBB0_176:
	ldr	d0, [x11], #8
	adds	x10, x10, #8
	str	d0, [x12], #8
	b.ne	.LBB0_176
	cmp	x24, x9
	b.eq	.LBB0_181
	b	.LBB0_167
.LBB0_178:
	add	x0, sp, #2, lsl #12
	sub	x1, x26, x25
	add	x0, x0, #368
	bl	std_alloc.vec.Vec.grow_amortized.3f7cc1ad5d64d7d7
	cbz	w0, .LBB0_190
	ldr	x14, [sp, #8568]
	ldr	x15, [sp, #8576]
	ldr	x8, [sp, #8560]
	add	x1, x23, x25
	add	x0, x8, x14
	sub	x9, x0, x1
	cmp	x9, x24
	b.lo	.LBB0_164
.LBB0_180:
	mov	x2, x24
	mov	x20, x14
	mov	x23, x15
	bl	memmove
	mov	x15, x23
	mov	x14, x20
.LBB0_181:
	ldr	x9, [sp, #8408]
	ldr	x8, [sp, #8400]
	add	x10, x14, x24
	ldr	x24, [sp, #64]
	mov	w26, wzr
	mov	w25, wzr
	str	x9, [sp, #104]
	sub	x9, x9, x8
	mov	x23, xzr
	cmp	x22, x9
	str	x10, [sp, #8568]
	mov	w20, #1
	csel	x9, x22, x9, lo
	str	x15, [sp, #8576]
	mov	w22, #1
	add	x8, x9, x8
	str	x8, [sp, #112]
	str	x8, [sp, #8400]
.LBB0_182:
	ldr	x2, [sp, #8712]
	ldr	x3, [sp, #8720]
	sub	x0, x29, #160
	add	x1, sp, #128
	stp	xzr, xzr, [x29, #-160]
	stur	xzr, [x29, #-144]
	bl	ic_program.writing.write_whole.40d1f5182270a21e
	ldr	x8, [sp, #8720]
	cbz	x8, .LBB0_184
	str	xzr, [sp, #8720]
.LBB0_184:
	ldrb	w8, [x27, #336]
	cbnz	w8, .LBB0_277
	tbz	w20, #0, .LBB0_293
	cbz	w22, .LBB0_295
	movi	v0.2d, #0000000000000000
	sub	x0, x29, #160
	add	x1, sp, #128
	stp	q0, q0, [x29, #-160]
	stp	q0, q0, [x29, #-128]
	stp	q0, q0, [x29, #-96]
	bl	std.io.buffered.BufWriter.flush_buf.3e795ebea2bd6aa3
	ldrb	w8, [x27, #336]
	ldr	x23, [sp, #80]
	cbnz	w8, .LBB0_311
	ldp	x25, x17, [sp, #104]
	add	x23, x23, #1
	cmn	x23, #1
	b.ne	.LBB0_60
	b	.LBB0_313
.LBB0_189:
	ldr	x24, [sp, #64]
	mov	x23, xzr
	mov	w25, #3
	mov	w26, #1
	b	.LBB0_161
.LBB0_190:
	ldr	x24, [sp, #64]
	mov	w20, wzr
	mov	w22, wzr
	mov	x23, xzr
	mov	w25, #3
	mov	w26, #1
	b	.LBB0_182
.LBB0_191:
	movi	v0.2d, #0000000000000000
	str	xzr, [sp, #8464]
	str	q0, [sp, #8448]
	str	q0, [sp, #8432]
	str	q0, [sp, #8416]
	cbz	x28, .LBB0_196
	add	x20, x25, #16
	b	.LBB0_194
.LBB0_193:
	subs	x28, x28, #1
	add	x20, x20, #24
	b.eq	.LBB0_196
.LBB0_194:
	ldr	x8, [x20]
	cbz	x8, .LBB0_193
	ldur	x0, [x20, #-16]
	bl	rattle_dealloc
	b	.LBB0_193
.LBB0_196:
	cbz	x24, .LBB0_198
.LBB0_197:
	mov	x0, x25
	bl	rattle_dealloc
.LBB0_198:
	ldr	q0, [sp, #8416]
	mov	w8, #1
	ldr	q1, [sp, #8432]
	strh	w8, [x19]
	mov	w8, #9729
	stur	q0, [x19, #40]
	ldr	q0, [sp, #8448]
	strh	w8, [x19, #8]
	ldr	x8, [sp, #8464]
	stur	xzr, [x19, #10]
	stur	xzr, [x19, #26]
	stur	xzr, [x19, #18]
	stur	q1, [x19, #56]
	str	xzr, [x19, #32]
	stur	q0, [x19, #72]
	b	.LBB0_275
.LBB0_199:
	movi	v0.2d, #0000000000000000
	mov	x0, x21
	str	xzr, [sp, #8464]
	str	q0, [sp, #8448]
	str	q0, [sp, #8432]
	str	q0, [sp, #8416]
	bl	rattle_dealloc
	ldr	x21, [sp, #120]
	cbz	x28, .LBB0_204
	add	x20, x25, #16
	b	.LBB0_202
.LBB0_201:
	subs	x28, x28, #1
	add	x20, x20, #24
	b.eq	.LBB0_204
.LBB0_202:
	ldr	x8, [x20]
	cbz	x8, .LBB0_201
	ldur	x0, [x20, #-16]
	bl	rattle_dealloc
	b	.LBB0_201
.LBB0_204:
	cbnz	x21, .LBB0_197
	b	.LBB0_198
.LBB0_205:
	ldr	x8, [x25, #8]
	cmp	x8, #7
	b.ne	.LBB0_236
	ldr	x8, [x25]
	ldr	w9, [x8]
	ldur	w8, [x8, #3]
	orr	x8, x9, x8, lsl #32
	mov	x9, #28535
	movk	x9, #27506, lsl #16
	movk	x9, #25963, lsl #32
	movk	x9, #29554, lsl #48
	cmp	x8, x9
	b.ne	.LBB0_236
	ldr	x9, [x25, #32]
	cbz	x9, .LBB0_236
	ldr	x12, [x25, #24]
	mov	x8, #-7378697629483820647
	mov	x11, xzr
	mov	x10, xzr
	eor	x8, x8, #0x8000000000000003
.LBB0_209:
	ldrb	w13, [x12, x10]
	sub	w13, w13, #48
	cmp	w13, #9
	b.hi	.LBB0_214
	cmp	x11, x8
	b.hs	.LBB0_236
	add	x11, x11, x11, lsl #2
	and	x13, x13, #0xff
	lsl	x11, x11, #1
	cmn	x13, x11
	b.hs	.LBB0_236
	add	x10, x10, #1
	add	x11, x11, x13
	cmp	x9, x10
	b.ne	.LBB0_209
	mov	x10, x9
.LBB0_214:
	sub	x12, x10, #1
	cmp	x12, #20
	cset	w12, lo
	cmp	x10, x9
	cset	w9, eq
	ands	w9, w9, w12
	csel	x21, x11, xzr, ne
	cmp	w9, #1
	b.ne	.LBB0_236
	ldr	x9, [x25, #56]
	cbz	x9, .LBB0_236
	ldr	x12, [x25, #48]
	mov	x10, xzr
	mov	x11, xzr
.LBB0_217:
	ldrb	w13, [x12, x11]
	sub	w13, w13, #48
	cmp	w13, #9
	b.hi	.LBB0_222
	cmp	x10, x8
	b.hs	.LBB0_236
	add	x10, x10, x10, lsl #2
	and	x13, x13, #0xff
	lsl	x10, x10, #1
	cmn	x13, x10
	b.hs	.LBB0_236
	add	x11, x11, #1
	add	x10, x10, x13
	cmp	x9, x11
	b.ne	.LBB0_217
	mov	x11, x9
.LBB0_222:
	sub	x8, x11, #1
	cmp	x8, #20
	cset	w8, lo
	cmp	x11, x9
	cset	w9, eq
	ands	w8, w9, w8
	csel	x26, x10, xzr, ne
	cmp	w8, #1
	b.ne	.LBB0_236
	sub	x8, x21, #65
	cmn	x8, #64
	b.lo	.LBB0_236
	mov	w8, #16960
	movk	w8, #15, lsl #16
	cmp	x26, x8
	b.hi	.LBB0_236
	movi	v0.2d, #0000000000000000
	lsl	x22, x26, #3
	mov	w1, #8
	str	xzr, [sp, #8536]
	add	x0, x22, #8
	str	xzr, [sp, #8528]
	str	xzr, [sp, #8544]
	str	xzr, [sp, #8656]
	str	q0, [sp, #8640]
	str	q0, [sp, #8624]
	str	q0, [sp, #8608]
	str	q0, [sp, #8592]
	bl	rattle_alloc
	tbz	w0, #0, .LBB0_233
	mov	x24, x1
	cbz	x26, .LBB0_228
	mov	x0, x24
	mov	w1, wzr
	mov	x2, x22
	bl	memset
.LBB0_228:
	add	x20, x26, #1
	mov	w1, #8
	str	xzr, [x24, x26, lsl #3]
	lsl	x0, x20, #3
	bl	rattle_alloc
	tbz	w0, #0, .LBB0_231
	mov	x22, x1
	mov	x0, xzr
	mov	w1, #1
	bl	rattle_alloc
	tbnz	w0, #0, .LBB0_378
	mov	x0, x22
	bl	rattle_dealloc
.LBB0_231:
	mov	x0, x24
.LBB0_232:
	bl	rattle_dealloc
	ldr	x25, [sp, #72]
.LBB0_233:
	adrp	x8, .Lstatic.0
	ldrb	w8, [x8, :lo12:.Lstatic.0]
	ldr	x24, [sp, #120]
	cbnz	w8, .LBB0_670
	mov	x8, xzr
	mov	w9, #3
	mov	w20, #1
	adrp	x10, .Lstatic.0
	ldrb	w10, [x10, :lo12:.Lstatic.0]
	cbnz	w10, .LBB0_670
.LBB0_235:
	cmp	w20, #0
	mov	w21, wzr
	csel	w23, wzr, w9, eq
	csel	x22, xzr, x8, eq
	b	.LBB0_237
.LBB0_236:
	add	x0, sp, #2, lsl #12
	adrp	x2, .Lstatic.90
	add	x2, x2, :lo12:.Lstatic.90
	add	x0, x0, #400
	add	x1, sp, #128
	mov	w3, #14
	str	xzr, [sp, #8600]
	str	xzr, [sp, #8592]
	str	xzr, [sp, #8608]
	bl	ic_program.writing.write_whole.40d1f5182270a21e
	ldrb	w20, [x27, #112]
	ldrb	w8, [x27, #120]
	ldr	x9, [sp, #8608]
	cmp	w20, #0
	cset	w21, eq
	csel	w23, wzr, w8, eq
	csel	x22, xzr, x9, eq
.LBB0_237:
	movi	v0.2d, #0000000000000000
	add	x0, sp, #2, lsl #12
	add	x1, sp, #128
	add	x0, x0, #400
	str	q0, [sp, #8672]
	str	q0, [sp, #8656]
	str	q0, [sp, #8640]
	str	q0, [sp, #8624]
	str	q0, [sp, #8608]
	str	q0, [sp, #8592]
	bl	std.io.buffered.BufWriter.flush_buf.3e795ebea2bd6aa3
	ldrb	w8, [x27, #112]
	cbz	w8, .LBB0_257
	cbnz	w20, .LBB0_257
	adrp	x8, .LCPI0_5
	adrp	x9, .LCPI0_6
	adrp	x10, .LCPI0_7
	ldr	q0, [x8, :lo12:.LCPI0_5]
	ldrb	w8, [x27, #121]
	ldr	q1, [x9, :lo12:.LCPI0_6]
	ldr	d2, [x10, :lo12:.LCPI0_7]
	mov	w9, #40
	mov	w21, wzr
	cmp	w8, #41
	mov	x22, xzr
	str	q0, [sp, #8592]
	str	q1, [sp, #8608]
	str	d2, [sp, #8624]
	strb	w9, [x27, #152]
	b.hs	.LBB0_255
	add	x9, sp, #2, lsl #12
	add	x9, x9, #400
	ldrb	w8, [x9, x8]
	and	w8, w8, #0xff
	cmp	w8, #38
	mov	w8, #2
	cinc	w23, w8, eq
	b	.LBB0_256
.LBB0_241:
	mov	w20, wzr
	mov	x23, xzr
	mov	w25, #3
.LBB0_242:
	movi	v0.2d, #0000000000000000
	add	x0, sp, #2, lsl #12
	add	x1, sp, #128
	add	x0, x0, #400
	str	q0, [sp, #8672]
	str	q0, [sp, #8656]
	str	q0, [sp, #8640]
	str	q0, [sp, #8624]
	str	q0, [sp, #8608]
	str	q0, [sp, #8592]
	bl	std.io.buffered.BufWriter.flush_buf.3e795ebea2bd6aa3
	ldrb	w8, [x27, #112]
	cbz	w8, .LBB0_260
	cbnz	w24, .LBB0_260
	adrp	x8, .LCPI0_5
	adrp	x9, .LCPI0_6
	adrp	x10, .LCPI0_7
	ldr	q0, [x8, :lo12:.LCPI0_5]
	ldrb	w8, [x27, #121]
	ldr	q1, [x9, :lo12:.LCPI0_6]
	ldr	d2, [x10, :lo12:.LCPI0_7]
	mov	w9, #40
	mov	w20, wzr
	cmp	w8, #41
	mov	x23, xzr
	str	q0, [sp, #8592]
	str	q1, [sp, #8608]
	str	d2, [sp, #8624]
	strb	w9, [x27, #152]
	b.hs	.LBB0_258
	add	x9, sp, #2, lsl #12
	add	x9, x9, #400
	ldrb	w8, [x9, x8]
	and	w8, w8, #0xff
	cmp	w8, #38
	mov	w8, #2
	cinc	w25, w8, eq
	b	.LBB0_259
.LBB0_246:
	cbz	x23, .LBB0_248
	mov	x0, x24
	bl	rattle_dealloc
.LBB0_248:
	ldp	x20, x21, [x29, #-160]
	ldur	x22, [x29, #-144]
	cbz	x21, .LBB0_253
	add	x23, x20, #16
	b	.LBB0_251
.LBB0_250:
	subs	x21, x21, #1
	add	x23, x23, #24
	b.eq	.LBB0_253
.LBB0_251:
	ldr	x8, [x23]
	cbz	x8, .LBB0_250
	ldur	x0, [x23, #-16]
	bl	rattle_dealloc
	b	.LBB0_250
.LBB0_253:
	cbz	x22, .LBB0_53
	mov	x0, x20
	b	.LBB0_37
.LBB0_255:
	mov	w23, #2
.LBB0_256:
	mov	w20, #1
.LBB0_257:
	add	x0, sp, #2, lsl #12
	and	x8, x23, #0xff
	strb	w20, [x27]
	add	x0, x0, #288
	strb	w21, [x27, #1]
	str	x8, [sp, #8488]
	str	x22, [sp, #8496]
	bl	ic_program.program.status_of.4e9da720f7635e46
	and	w20, w0, #0xff
	adrp	x8, .Lstatic.0
	ldrb	w8, [x8, :lo12:.Lstatic.0]
	cbz	w8, .LBB0_261
	b	.LBB0_670
.LBB0_258:
	mov	w25, #2
.LBB0_259:
	mov	w24, #1
.LBB0_260:
	add	x0, sp, #2, lsl #12
	mov	w8, w25
	strb	w24, [x27, #24]
	add	x0, x0, #312
	strb	w20, [x27, #25]
	str	x8, [sp, #8512]
	str	x23, [sp, #8520]
	bl	ic_program.program.status_of.4e9da720f7635e46
	ldr	x25, [sp, #72]
	ldr	x24, [sp, #120]
	and	w20, w0, #0xff
	adrp	x8, .Lstatic.0
	ldrb	w8, [x8, :lo12:.Lstatic.0]
	cbnz	w8, .LBB0_670
.LBB0_261:
	ldp	q0, q1, [sp, #128]
	add	x0, sp, #2, lsl #12
	add	x0, x0, #400
	sub	x1, x29, #160
	stp	q0, q1, [x29, #-160]
	bl	std.io.buffered.BufWriter.flush_buf.3e795ebea2bd6aa3
	ldur	x8, [x29, #-136]
	cbz	x8, .LBB0_263
	ldur	x0, [x29, #-152]
	bl	rattle_dealloc
.LBB0_263:
	ldr	x8, [sp, #8352]
	ldr	x9, [sp, #8360]
	subs	x1, x8, x9
	b.eq	.LBB0_265
	mov	w0, wzr
	mov	w2, #1
	bl	lseek
.LBB0_265:
	ldr	x8, [sp, #8392]
	cbz	x8, .LBB0_267
	ldr	x0, [sp, #8376]
	bl	rattle_dealloc
.LBB0_267:
	cbz	x28, .LBB0_272
	add	x21, x25, #16
	b	.LBB0_270
.LBB0_269:
	subs	x28, x28, #1
	add	x21, x21, #24
	b.eq	.LBB0_272
.LBB0_270:
	ldr	x8, [x21]
	cbz	x8, .LBB0_269
	ldur	x0, [x21, #-16]
	bl	rattle_dealloc
	b	.LBB0_269
.LBB0_272:
	cbz	x24, .LBB0_274
	mov	x0, x25
	bl	rattle_dealloc
.LBB0_274:
	movi	v0.2d, #0000000000000000
	ldr	q1, [sp, #8416]
	ldr	q2, [sp, #8432]
	ldr	x8, [sp, #8464]
	strb	wzr, [x19]
	stur	q1, [x19, #40]
	ldr	q1, [sp, #8448]
	strb	w20, [x19, #1]
	stur	q0, [x19, #8]
	stur	q0, [x19, #24]
	stur	q2, [x19, #56]
	stur	q1, [x19, #72]
.LBB0_275:
	str	x8, [x19, #88]
.LBB0_276:
	add	sp, sp, #2, lsl #12
	add	sp, sp, #784
	ldp	x20, x19, [sp, #80]
	ldp	x22, x21, [sp, #64]
	ldp	x24, x23, [sp, #48]
	ldp	x26, x25, [sp, #32]
	ldp	x28, x27, [sp, #16]
	ldp	x29, x30, [sp], #96
	ret
.LBB0_277:
	ldr	x8, [sp, #8576]
	ldrb	w25, [x27, #344]
	ldur	x23, [x29, #-144]
	cbz	x8, .LBB0_279
	ldr	x0, [sp, #8560]
	bl	rattle_dealloc
.LBB0_279:
	ldr	x0, [sp, #8592]
	ldr	x8, [sp, #8608]
	ldur	q0, [x27, #152]
	ldur	q1, [x27, #168]
	ldr	x22, [sp, #8664]
	ldr	x26, [sp, #8680]
	ldr	x21, [sp, #8688]
	ldr	x24, [sp, #8696]
	ldr	x20, [sp, #8704]
	str	q0, [sp, #8528]
	str	q1, [sp, #8544]
	cbz	x8, .LBB0_281
	bl	rattle_dealloc
.LBB0_281:
	add	x8, sp, #2, lsl #12
	add	x8, x8, #336
	orr	x0, x8, #0x8
	bl	std_alloc.vec.Vec.drop.3580eecdd8931e03
	cbz	x26, .LBB0_283
	mov	x0, x22
	bl	rattle_dealloc
.LBB0_283:
	cbz	x24, .LBB0_288
	add	x22, x21, #16
	b	.LBB0_286
.LBB0_285:
	subs	x24, x24, #1
	add	x22, x22, #24
	b.eq	.LBB0_288
.LBB0_286:
	ldr	x8, [x22]
	cbz	x8, .LBB0_285
	ldur	x0, [x22, #-16]
	bl	rattle_dealloc
	b	.LBB0_285
.LBB0_288:
	cbz	x20, .LBB0_290
	mov	x0, x21
	bl	rattle_dealloc
.LBB0_290:
	ldr	x8, [sp, #8728]
	cbz	x8, .LBB0_292
	ldr	x0, [sp, #8712]
	bl	rattle_dealloc
.LBB0_292:
	mov	w20, wzr
	mov	w24, #1
	b	.LBB0_242
.LBB0_293:
	cbz	w26, .LBB0_346
	mov	w20, wzr
	mov	w24, #1
	b	.LBB0_362
.LBB0_295:
	ldr	x8, [sp, #8576]
	cbz	x8, .LBB0_297
	ldr	x0, [sp, #8560]
	bl	rattle_dealloc
.LBB0_297:
	ldr	x0, [sp, #8592]
	ldr	x8, [sp, #8608]
	ldur	q0, [x27, #152]
	ldur	q1, [x27, #168]
	ldr	x22, [sp, #8664]
	ldr	x24, [sp, #8680]
	ldr	x21, [sp, #8688]
	ldr	x23, [sp, #8696]
	ldr	x20, [sp, #8704]
	str	q0, [sp, #8528]
	str	q1, [sp, #8544]
	cbz	x8, .LBB0_299
	bl	rattle_dealloc
.LBB0_299:
	add	x8, sp, #2, lsl #12
	add	x8, x8, #336
	orr	x0, x8, #0x8
	bl	std_alloc.vec.Vec.drop.3580eecdd8931e03
	cbz	x24, .LBB0_301
	mov	x0, x22
	bl	rattle_dealloc
.LBB0_301:
	cbz	x23, .LBB0_306
	add	x22, x21, #16
	b	.LBB0_304
.LBB0_303:
	subs	x23, x23, #1
	add	x22, x22, #24
	b.eq	.LBB0_306
.LBB0_304:
	ldr	x8, [x22]
	cbz	x8, .LBB0_303
	ldur	x0, [x22, #-16]
	bl	rattle_dealloc
	b	.LBB0_303
.LBB0_306:
	cbz	x20, .LBB0_308
	mov	x0, x21
	bl	rattle_dealloc
.LBB0_308:
	ldr	x8, [sp, #8728]
	cbz	x8, .LBB0_310
	ldr	x0, [sp, #8712]
	bl	rattle_dealloc
.LBB0_310:
	mov	w24, wzr
	mov	w20, wzr
	mov	w25, wzr
	mov	x23, xzr
	b	.LBB0_242
.LBB0_311:
	adrp	x8, .LCPI0_5
	adrp	x9, .LCPI0_6
	adrp	x10, .LCPI0_7
	ldr	q0, [x8, :lo12:.LCPI0_5]
	ldrb	w8, [x27, #345]
	ldr	q1, [x9, :lo12:.LCPI0_6]
	ldr	d2, [x10, :lo12:.LCPI0_7]
	mov	w9, #40
	cmp	x8, #41
	stp	q0, q1, [x29, #-160]
	stur	d2, [x29, #-128]
	strb	w9, [x27, #376]
	b.hs	.LBB0_329
	sub	x9, x29, #160
	ldrb	w8, [x9, x8]
	and	w8, w8, #0xff
	cmp	w8, #38
	mov	w8, #2
	cinc	w25, w8, eq
	b	.LBB0_330
.LBB0_313:
	ldr	x8, [sp, #8576]
	ldr	x23, [sp, #8736]
	cbz	x8, .LBB0_315
	ldr	x0, [sp, #8560]
	bl	rattle_dealloc
.LBB0_315:
	ldr	x0, [sp, #8592]
	ldr	x8, [sp, #8608]
	ldur	q0, [x27, #152]
	ldur	q1, [x27, #168]
	ldr	x22, [sp, #8664]
	ldr	x25, [sp, #8680]
	ldr	x21, [sp, #8688]
	ldr	x24, [sp, #8696]
	ldr	x20, [sp, #8704]
	str	q0, [sp, #8528]
	str	q1, [sp, #8544]
	cbz	x8, .LBB0_317
	bl	rattle_dealloc
.LBB0_317:
	add	x8, sp, #2, lsl #12
	add	x8, x8, #336
	orr	x0, x8, #0x8
	bl	std_alloc.vec.Vec.drop.3580eecdd8931e03
	cbz	x25, .LBB0_319
	mov	x0, x22
	bl	rattle_dealloc
.LBB0_319:
	cbz	x24, .LBB0_324
	add	x22, x21, #16
	b	.LBB0_322
.LBB0_321:
	subs	x24, x24, #1
	add	x22, x22, #24
	b.eq	.LBB0_324
.LBB0_322:
	ldr	x8, [x22]
	cbz	x8, .LBB0_321
	ldur	x0, [x22, #-16]
	bl	rattle_dealloc
	b	.LBB0_321
.LBB0_324:
	cbz	x20, .LBB0_326
	mov	x0, x21
	bl	rattle_dealloc
.LBB0_326:
	ldr	x8, [sp, #8728]
	cbz	x8, .LBB0_328
	ldr	x0, [sp, #8712]
	bl	rattle_dealloc
.LBB0_328:
	mov	w20, wzr
	mov	w24, #1
	mov	w25, #1
	b	.LBB0_242
.LBB0_329:
	mov	w25, #2
.LBB0_330:
	ldr	x8, [sp, #8576]
	cbz	x8, .LBB0_332
	ldr	x0, [sp, #8560]
	bl	rattle_dealloc
.LBB0_332:
	ldr	x0, [sp, #8592]
	ldr	x8, [sp, #8608]
	ldur	q0, [x27, #152]
	ldur	q1, [x27, #168]
	ldr	x22, [sp, #8664]
	ldr	x24, [sp, #8680]
	ldr	x21, [sp, #8688]
	ldr	x23, [sp, #8696]
	ldr	x20, [sp, #8704]
	str	q0, [sp, #8528]
	str	q1, [sp, #8544]
	cbz	x8, .LBB0_334
	bl	rattle_dealloc
.LBB0_334:
	add	x8, sp, #2, lsl #12
	add	x8, x8, #336
	orr	x0, x8, #0x8
	bl	std_alloc.vec.Vec.drop.3580eecdd8931e03
	cbz	x24, .LBB0_336
	mov	x0, x22
	bl	rattle_dealloc
.LBB0_336:
	cbz	x23, .LBB0_341
	add	x22, x21, #16
	b	.LBB0_339
.LBB0_338:
	subs	x23, x23, #1
	add	x22, x22, #24
	b.eq	.LBB0_341
.LBB0_339:
	ldr	x8, [x22]
	cbz	x8, .LBB0_338
	ldur	x0, [x22, #-16]
	bl	rattle_dealloc
	b	.LBB0_338
.LBB0_341:
	cbz	x20, .LBB0_343
	mov	x0, x21
	bl	rattle_dealloc
.LBB0_343:
	ldr	x8, [sp, #8728]
	cbz	x8, .LBB0_345
	ldr	x0, [sp, #8712]
	bl	rattle_dealloc
.LBB0_345:
	mov	w20, wzr
	mov	x23, xzr
	mov	w24, #1
	b	.LBB0_242
.LBB0_346:
	ldr	x20, [sp, #8736]
	adrp	x2, .Lstatic.85
	add	x2, x2, :lo12:.Lstatic.85
	sub	x0, x29, #224
	add	x1, sp, #128
	mov	w3, #5
	stp	xzr, xzr, [x29, #-184]
	stur	xzr, [x29, #-192]
	stp	xzr, xzr, [x29, #-216]
	stur	xzr, [x29, #-224]
	bl	ic_program.writing.write_whole.40d1f5182270a21e
	ldrb	w8, [x27, #272]
	cbnz	w8, .LBB0_360
	movi	v0.2d, #0000000000000000
	lsr	x8, x20, #4
	stur	xzr, [x29, #-128]
	cmp	x8, #625
	adrp	x8, .Lstatic.39
	add	x8, x8, :lo12:.Lstatic.39
	stp	q0, q0, [x29, #-160]
	b.lo	.LBB0_351
	mov	x9, xzr
.LBB0_349:
	mov	x11, #22859
	mov	x10, x20
	mov	w13, #5243
	movk	x11, #14470, lsl #16
	mov	w14, #57599
	movk	x11, #50646, lsl #32
	movk	w14, #1525, lsl #16
	movk	x11, #13421, lsl #48
	cmp	x20, x14
	umulh	x11, x20, x11
	lsr	x20, x11, #11
	mov	w11, #10000
	msub	w11, w20, w11, w10
	ubfx	w12, w11, #2, #14
	mul	w12, w12, w13
	mov	w13, #100
	lsr	w12, w12, #17
	msub	w11, w12, w13, w11
	sub	x13, x29, #160
	ldrh	w12, [x8, w12, uxtw #1]
	add	x13, x13, x9
	sub	x9, x9, #4
	strh	w12, [x13, #36]
	and	x11, x11, #0xffff
	ldrh	w11, [x8, x11, lsl #1]
	strh	w11, [x13, #38]
	b.hi	.LBB0_349
	add	x9, x9, #40
	b	.LBB0_352
.LBB0_351:
	mov	w9, #40
.LBB0_352:
	cmp	x20, #99
	b.hi	.LBB0_355
	cmp	x20, #9
	b.hi	.LBB0_357
	sub	x9, x9, #1
	sub	x8, x29, #160
	orr	w10, w20, #0x30
	strb	w10, [x8, x9]
	b	.LBB0_359
.LBB0_355:
	ubfx	w10, w20, #2, #14
	mov	w11, #5243
	cmp	x20, #999
	mul	w10, w10, w11
	mov	w11, #100
	lsr	w10, w10, #17
	msub	w11, w10, w11, w20
	and	x11, x11, #0xffff
	ldrh	w12, [x8, x11, lsl #1]
	sub	x11, x29, #160
	add	x13, x11, x9
	sturh	w12, [x13, #-2]
	b.hi	.LBB0_358
	sub	x9, x9, #3
	orr	w8, w10, #0x30
	strb	w8, [x11, x9]
	b	.LBB0_359
.LBB0_357:
	sub	x9, x9, #2
	ldrh	w8, [x8, x20, lsl #1]
	sub	x10, x29, #160
	strh	w8, [x10, x9]
	b	.LBB0_359
.LBB0_358:
	sub	x9, x9, #4
	ldrh	w8, [x8, w10, uxtw #1]
	strh	w8, [x11, x9]
.LBB0_359:
	mov	w8, #40
	sub	x10, x29, #160
	sub	x0, x29, #224
	sub	x3, x8, x9
	add	x1, sp, #128
	add	x2, x10, x9
	bl	ic_program.writing.write_whole.40d1f5182270a21e
	ldrb	w8, [x27, #272]
	cbz	w8, .LBB0_377
.LBB0_360:
	ldur	x8, [x29, #-208]
	ldrb	w9, [x27, #280]
	mov	w24, #1
.LBB0_361:
	cmp	w24, #0
	cset	w20, eq
	csel	w25, wzr, w9, eq
	csel	x23, xzr, x8, eq
.LBB0_362:
	ldr	x8, [sp, #8576]
	cbz	x8, .LBB0_364
	ldr	x0, [sp, #8560]
	bl	rattle_dealloc
.LBB0_364:
	ldr	x9, [sp, #8664]
	ldr	x0, [sp, #8592]
	ldr	x8, [sp, #8608]
	ldur	q0, [x27, #152]
	ldur	q1, [x27, #168]
	ldr	x21, [sp, #8680]
	str	x9, [sp, #104]
	ldr	x22, [sp, #8688]
	ldr	x26, [sp, #8696]
	ldr	x9, [sp, #8704]
	str	q0, [sp, #8528]
	str	q1, [sp, #8544]
	str	x9, [sp, #112]
	cbz	x8, .LBB0_366
	bl	rattle_dealloc
.LBB0_366:
	add	x8, sp, #2, lsl #12
	add	x8, x8, #336
	orr	x0, x8, #0x8
	bl	std_alloc.vec.Vec.drop.3580eecdd8931e03
	cbz	x21, .LBB0_368
	ldr	x0, [sp, #104]
	bl	rattle_dealloc
.LBB0_368:
	mov	x21, x22
	cbz	x26, .LBB0_373
	add	x22, x21, #16
	b	.LBB0_371
.LBB0_370:
	subs	x26, x26, #1
	add	x22, x22, #24
	b.eq	.LBB0_373
.LBB0_371:
	ldr	x8, [x22]
	cbz	x8, .LBB0_370
	ldur	x0, [x22, #-16]
	bl	rattle_dealloc
	b	.LBB0_370
.LBB0_373:
	ldr	x8, [sp, #112]
	cbz	x8, .LBB0_375
	mov	x0, x21
	bl	rattle_dealloc
.LBB0_375:
	ldr	x8, [sp, #8728]
	cbz	x8, .LBB0_242
	ldr	x0, [sp, #8712]
	bl	rattle_dealloc
	b	.LBB0_242
.LBB0_377:
	adrp	x2, .Lstatic.86
	add	x2, x2, :lo12:.Lstatic.86
	sub	x0, x29, #192
	add	x1, sp, #128
	mov	w3, #13
	bl	ic_program.writing.write_whole.40d1f5182270a21e
	ldrb	w24, [x27, #304]
	ldrb	w9, [x27, #312]
	ldur	x8, [x29, #-176]
	b	.LBB0_361
.LBB0_378:
	mov	x23, x1
	cmp	x26, #3
	mov	x8, xzr
	b.lo	.LBB0_383
	sub	x9, x22, x24
	cmp	x9, #32
	b.lo	.LBB0_383
	add	x9, x26, #1
	add	x10, x22, #16
	add	x11, x24, #16
	and	x8, x9, #0x1ffffc
	and	x12, x9, #0x1ffffc
.LBB0_381:
	ldp	q0, q1, [x11, #-16]
	subs	x12, x12, #4
	add	x11, x11, #32
	stp	q0, q1, [x10, #-16]
	add	x10, x10, #32
	b.ne	.LBB0_381
	cmp	x9, x8
	b.eq	.LBB0_385
.LBB0_383:
	lsl	x10, x8, #3
	sub	x8, x26, x8
	add	x8, x8, #1
	add	x9, x22, x10
	add	x10, x24, x10
.LBB0_384:
	ldr	x11, [x10], #8
	subs	x8, x8, #1
	str	x11, [x9], #8
	b.ne	.LBB0_384
.LBB0_385:
	mov	x0, x24
	bl	rattle_dealloc
	sub	x8, x29, #24
	sub	x0, x29, #160
	mov	x1, x21
	stp	xzr, xzr, [x29, #-152]
	stur	x8, [x29, #-160]
	bl	std_alloc.vec.Vec.grow_amortized.475ef6a323907ad9
	cbz	w0, .LBB0_389
.LBB0_386:
	//APP
	//NO_APP
	subs	x21, x21, #1
	ldar	xzr, [x22]
	//APP
	//NO_APP
	ldur	x8, [x29, #-152]
	add	x25, x8, #1
	stur	x25, [x29, #-152]
	b.ne	.LBB0_386
	ldur	x8, [x29, #-144]
	str	x22, [sp, #8592]
	str	x20, [sp, #8608]
	str	x8, [sp, #80]
	ldur	x8, [x29, #-160]
	str	x22, [sp, #8624]
	mov	x22, xzr
	str	x20, [sp, #8632]
	sub	x20, x29, #24
	str	x23, [sp, #8600]
	str	xzr, [sp, #8616]
	str	x23, [sp, #8640]
	str	xzr, [sp, #8648]
	str	x26, [sp, #8656]
	str	x8, [sp, #64]
	stp	xzr, xzr, [x29, #-152]
	stur	x20, [x29, #-160]
	cbz	x26, .LBB0_403
	mov	x21, xzr
	sub	x8, x29, #24
	mov	w23, #8
	b	.LBB0_395
.LBB0_389:
	ldur	x8, [x29, #-144]
	cbz	x8, .LBB0_391
	ldur	x0, [x29, #-160]
	bl	rattle_dealloc
.LBB0_391:
	mov	x0, x22
	bl	rattle_dealloc
	mov	x0, x23
	b	.LBB0_232
.LBB0_392:
	ldp	x8, x22, [x29, #-160]
.LBB0_393:
	str	x23, [x8, x22, lsl #3]
	add	x22, x22, #1
	stur	x22, [x29, #-152]
.LBB0_394:
	add	x21, x21, #1
	add	x23, x23, #8
	cmp	x26, x21
	b.eq	.LBB0_402
.LBB0_395:
	lsr	x9, x21, #32
	cbnz	x9, .LBB0_394
	ldur	x9, [x29, #-144]
	cmp	x9, x22
	b.ne	.LBB0_393
	sub	x0, x29, #160
	bl	std_alloc.vec.Vec.grow_amortized.34b4ac368a9081d8
	cbnz	w0, .LBB0_392
	ldur	x8, [x29, #-144]
	cbz	x8, .LBB0_400
	ldur	x0, [x29, #-160]
	bl	rattle_dealloc
.LBB0_400:
	ldr	x8, [sp, #80]
	cbz	x8, .LBB0_650
	ldr	x0, [sp, #64]
	b	.LBB0_649
.LBB0_402:
	ldur	x8, [x29, #-144]
	ldur	x9, [x29, #-160]
	cmp	x8, #0
	str	x9, [sp, #112]
	cset	w8, eq
	str	w8, [sp, #20]
	b	.LBB0_404
.LBB0_403:
	mov	w8, #1
	str	w8, [sp, #20]
	sub	x8, x29, #24
	str	x8, [sp, #112]
.LBB0_404:
	stp	x20, xzr, [x29, #-192]
	mov	x20, xzr
	stur	xzr, [x29, #-176]
	cbz	x25, .LBB0_422
	sub	x8, x29, #24
	str	x8, [sp, #104]
	b	.LBB0_408
.LBB0_406:
	adrp	x9, .LCPI0_1
	add	x21, x8, #1
	ldr	q0, [x9, :lo12:.LCPI0_1]
	str	q0, [x23, x8, lsl #4]
	ldur	x24, [x29, #-144]
	ldur	x8, [x29, #-176]
	stp	xzr, xzr, [x29, #-160]
	cmp	x8, x20
	b.eq	.LBB0_411
.LBB0_407:
	ldr	x8, [sp, #104]
	add	x9, sp, #2, lsl #12
	sub	x25, x25, #1
	add	x9, x9, #400
	add	x8, x8, x20, lsl #6
	add	x20, x20, #1
	str	x9, [x8]
	ldr	x9, [sp, #112]
	stp	x23, x21, [x8, #24]
	stp	x9, x22, [x8, #8]
	str	x24, [x8, #40]
	ldur	q0, [x29, #-160]
	str	q0, [x8, #48]
	stur	x20, [x29, #-184]
	cbz	x25, .LBB0_422
.LBB0_408:
	ldr	x24, [sp, #8656]
	sub	x8, x29, #24
	stur	x8, [x29, #-160]
	mov	x8, #4294967296
	cmp	x24, x8
	sub	x8, x29, #160
	stp	xzr, xzr, [x8, #8]
	b.hi	.LBB0_599
	cbnz	x24, .LBB0_413
	mov	x21, xzr
	sub	x23, x29, #24
	ldur	x8, [x29, #-176]
	stp	xzr, xzr, [x29, #-160]
	cmp	x8, x20
	b.ne	.LBB0_407
.LBB0_411:
	sub	x0, x29, #192
	bl	std_alloc.vec.Vec.grow_amortized.97d0d6792c3fe7f4
	cbz	w0, .LBB0_606
	ldp	x8, x20, [x29, #-192]
	str	x8, [sp, #104]
	b	.LBB0_407
.LBB0_413:
	sub	x0, x29, #160
	mov	x1, x24
	bl	std_alloc.vec.Vec.grow_amortized.aefd41eb74c3dbca
	cbz	w0, .LBB0_597
	ldp	x23, x8, [x29, #-160]
	subs	x9, x24, #1
	b.eq	.LBB0_406
	cmp	x24, #5
	b.hs	.LBB0_417
	mov	w10, #1
	b	.LBB0_420
.LBB0_417:
	add	x12, x23, x8, lsl #4
	and	x11, x9, #0xfffffffffffffffc
	and	x13, x9, #0xfffffffffffffffc
	add	x8, x8, x11
	orr	x10, x11, #0x1
	add	x12, x12, #32
.LBB0_418:
	adrp	x14, .LCPI0_1
	subs	x13, x13, #4
	ldr	q0, [x14, :lo12:.LCPI0_1]
	stp	q0, q0, [x12, #-32]
	stp	q0, q0, [x12], #64
	b.ne	.LBB0_418
	cmp	x9, x11
	b.eq	.LBB0_406
.LBB0_420:
	sub	x9, x24, x10
.LBB0_421:
	adrp	x10, .LCPI0_1
	subs	x9, x9, #1
	ldr	q0, [x10, :lo12:.LCPI0_1]
	str	q0, [x23, x8, lsl #4]
	add	x8, x8, #1
	b.ne	.LBB0_421
	b	.LBB0_406
.LBB0_422:
	ldr	x8, [sp, #80]
	cbz	x8, .LBB0_424
	ldr	x0, [sp, #64]
	bl	rattle_dealloc
.LBB0_424:
	ldur	x8, [x29, #-192]
	sub	x9, x29, #24
	mov	x22, xzr
	stp	x9, xzr, [x29, #-192]
	str	x8, [sp, #48]
	ldur	x8, [x29, #-176]
	stur	xzr, [x29, #-176]
	str	x8, [sp, #8]
	adrp	x8, .LCPI0_1
	ldr	q0, [x8, :lo12:.LCPI0_1]
	sub	x8, x29, #24
	str	x8, [sp, #80]
	sub	x8, x29, #64
	orr	x8, x8, #0x8
	stur	q0, [x29, #-64]
	str	x8, [sp, #40]
	cbz	x20, .LBB0_440
	ldr	x8, [sp, #48]
	sub	x21, x20, #1
	str	xzr, [sp, #104]
	add	x23, x8, #104
.LBB0_426:
	ldr	x9, [sp, #104]
	ldr	x8, [sp, #48]
	add	x22, x22, #1
	add	x8, x8, x9, lsl #6
	stp	x20, x9, [sp, #24]
	add	x9, x9, #1
	str	x9, [sp, #104]
	sub	x20, x20, #1
	ldp	x9, x24, [x8, #24]
	ldr	x10, [x8]
	ldur	q0, [x8, #8]
	ldr	q1, [x8, #48]
	ldr	x8, [x8, #40]
	stp	x10, x9, [sp, #56]
	str	x8, [sp, #80]
	stur	q0, [x29, #-224]
	str	q1, [sp, #8560]
.LBB0_427:
	//APP
	//NO_APP
	sub	x8, x29, #64
	mov	x9, #9223372036854775806
	ldar	x8, [x8]
	//APP
	//NO_APP
	cmp	x8, x9
	b.hi	.LBB0_474
	//APP
	//NO_APP
	add	x9, x8, #1
.LBB0_429:
	sub	x10, x29, #64
	ldaxr	x11, [x10]
	cmp	x11, x8
	b.ne	.LBB0_431
	stlxr	w11, x9, [x10]
	cbz	w11, .LBB0_432
	b	.LBB0_429
.LBB0_431:
	clrex
	//APP
	//NO_APP
	b	.LBB0_427
.LBB0_432:
	//APP
	//NO_APP
	mov	w0, #104
	bl	malloc
	cbz	x0, .LBB0_470
	ldr	x8, [sp, #64]
	ldur	q0, [x29, #-224]
	mov	x25, x0
	stp	x8, x24, [x0, #40]
	ldr	x8, [sp, #80]
	stur	q0, [x0, #24]
	ldr	q0, [sp, #8560]
	str	x8, [x0, #56]
	adrp	x8, .Lstatic.80
	add	x8, x8, :lo12:.Lstatic.80
	str	q0, [x0, #64]
	movi	v0.2d, #0000000000000000
	stp	x22, x8, [x0, #80]
	sub	x8, x29, #64
	str	x8, [x0, #96]
	ldr	x8, [sp, #56]
	stp	xzr, x8, [x0, #8]
	sub	x0, x29, #160
	stp	q0, q0, [x29, #-160]
	stp	q0, q0, [x29, #-128]
	bl	pthread_attr_init
	cbnz	w0, .LBB0_469
	sub	x0, x29, #160
	mov	w1, #65536
	bl	pthread_attr_setguardsize
	cbnz	w0, .LBB0_468
	adrp	x2, core.scope.entry.5a45c0bf2caea352.thread.called.by.C.0
	add	x2, x2, :lo12:core.scope.entry.5a45c0bf2caea352.thread.called.by.C.0
	sub	x1, x29, #160
	mov	x0, x25
	mov	x3, x25
	bl	pthread_create
	mov	w22, w0
	sub	x0, x29, #160
	bl	pthread_attr_destroy
	cbnz	w22, .LBB0_469
	ldp	x8, x9, [x29, #-184]
	cmp	x9, x8
	b.eq	.LBB0_438
.LBB0_437:
	ldur	x9, [x29, #-192]
	add	x22, x8, #1
	sub	x21, x21, #1
	add	x23, x23, #64
	str	x9, [sp, #80]
	str	x25, [x9, x8, lsl #3]
	stur	x22, [x29, #-184]
	cbnz	x20, .LBB0_426
	b	.LBB0_440
.LBB0_438:
	sub	x0, x29, #192
	bl	std_alloc.vec.Vec.grow_amortized.34b4ac368a9081d8
	cbz	w0, .LBB0_655
	ldur	x8, [x29, #-184]
	b	.LBB0_437
.LBB0_440:
	ldr	x8, [sp, #8]
	cbz	x8, .LBB0_442
	ldr	x0, [sp, #48]
	bl	rattle_dealloc
.LBB0_442:
	ldur	x8, [x29, #-176]
	stp	xzr, xzr, [x29, #-152]
	stur	xzr, [x29, #-160]
	str	x8, [sp, #64]
	stp	xzr, xzr, [x29, #-48]
	cbz	x22, .LBB0_449
	mov	x8, #3689348814741910323
	movk	x8, #819, lsl #48
	cmp	x22, x8
	b.hi	.LBB0_446
	add	x8, x22, x22, lsl #2
	mov	w1, #8
	lsl	x0, x8, #3
	bl	rattle_alloc
	tbz	w0, #0, .LBB0_446
	ldr	x21, [sp, #80]
	stp	x1, xzr, [x29, #-160]
	stur	x22, [x29, #-144]
	b	.LBB0_459
.LBB0_446:
	adrp	x8, .Lstatic.0
	ldrb	w8, [x8, :lo12:.Lstatic.0]
	cbnz	w8, .LBB0_670
	ldr	x8, [sp, #80]
	sub	x0, x29, #160
	stp	x8, x22, [x29, #-160]
	ldr	x8, [sp, #64]
	stur	x8, [x29, #-144]
	bl	std_alloc.vec.Vec.drop.f70b3562b761e113
	adrp	x8, .Lstatic.0
	ldrb	w8, [x8, :lo12:.Lstatic.0]
	cbnz	w8, .LBB0_670
	adrp	x8, .Lstatic.0
	ldrb	w8, [x8, :lo12:.Lstatic.0]
	cbz	w8, .LBB0_481
	b	.LBB0_670
.LBB0_449:
	sub	x8, x29, #24
	str	xzr, [sp, #104]
	str	x8, [sp, #32]
.LBB0_450:
	adrp	x8, .Lstatic.0
	ldrb	w8, [x8, :lo12:.Lstatic.0]
	cbnz	w8, .LBB0_670
	adrp	x8, .Lstatic.0
	ldrb	w8, [x8, :lo12:.Lstatic.0]
	cbnz	w8, .LBB0_670
	ldr	x8, [sp, #64]
	cbz	x8, .LBB0_454
	ldr	x0, [sp, #80]
	bl	rattle_dealloc
.LBB0_454:
	adrp	x8, .Lstatic.0
	ldrb	w8, [x8, :lo12:.Lstatic.0]
	cbnz	w8, .LBB0_670
	ldur	x8, [x29, #-144]
	str	x8, [sp, #24]
	adrp	x8, .Lstatic.0
	ldrb	w8, [x8, :lo12:.Lstatic.0]
	cbnz	w8, .LBB0_670
	mov	w20, #1
	b	.LBB0_483
.LBB0_457:
	ldur	x8, [x29, #-152]
.LBB0_458:
	mov	w9, #40
	ldur	x10, [x29, #-160]
	ldur	q0, [x29, #-48]
	madd	x9, x8, x9, x10
	sub	x22, x22, #1
	add	x8, x8, #1
	str	x10, [sp, #32]
	str	x8, [sp, #104]
	stp	x25, x24, [x9]
	str	x20, [x9, #16]
	stur	q0, [x9, #24]
	stur	x8, [x29, #-152]
	cbz	x22, .LBB0_450
.LBB0_459:
	ldr	x23, [x21], #8
	mov	x1, xzr
	str	xzr, [sp, #8568]
	ldr	x0, [x23]
	str	xzr, [sp, #8560]
	stp	xzr, xzr, [x29, #-224]
	bl	pthread_join
	adrp	x8, .Lstatic.0
	ldrb	w8, [x8, :lo12:.Lstatic.0]
	cbnz	w8, .LBB0_670
	cbnz	w0, .LBB0_669
	add	x8, x23, #8
	//APP
	//NO_APP
	ldar	x8, [x8]
	//APP
	//NO_APP
	cmp	x8, #1
	b.ne	.LBB0_669
	ldur	q0, [x23, #40]
	ldp	x25, x24, [x23, #16]
	ldr	x20, [x23, #32]
	mov	x0, x23
	stur	q0, [x29, #-224]
	bl	free
	ldur	q0, [x29, #-224]
	adrp	x8, .Lstatic.0
	str	q0, [sp, #8560]
	ldrb	w8, [x8, :lo12:.Lstatic.0]
	cbnz	w8, .LBB0_670
	ldr	q0, [sp, #8560]
	adrp	x8, .Lstatic.0
	stur	q0, [x29, #-48]
	ldrb	w8, [x8, :lo12:.Lstatic.0]
	cbnz	w8, .LBB0_670
	ldp	x8, x9, [x29, #-152]
	cmp	x9, x8
	b.ne	.LBB0_458
	sub	x0, x29, #160
	bl	std_alloc.vec.Vec.grow_amortized.cc81737fef4b42c4
	cbnz	w0, .LBB0_457
	cbz	x20, .LBB0_670
	mov	x0, x25
	bl	rattle_dealloc
	brk	#0x1
.LBB0_468:
	sub	x0, x29, #160
	bl	pthread_attr_destroy
.LBB0_469:
	mov	x0, x25
	bl	free
.LBB0_470:
	//APP
	//NO_APP
.LBB0_471:
	sub	x8, x29, #64
	ldaxr	x9, [x8]
	subs	x9, x9, #1
	stlxr	w10, x9, [x8]
	cbnz	w10, .LBB0_471
	//APP
	//NO_APP
	b.ne	.LBB0_474
	orr	x8, x8, #0x8
	mov	w9, #1
	//APP
	//NO_APP
	stlr	x9, [x8]
	mov	w0, #98
	mov	w2, #129
	//APP
	//NO_APP
	mov	w3, #1
	mov	x4, xzr
	ldr	x1, [sp, #40]
	bl	syscall
.LBB0_474:
	ldr	x8, [sp, #80]
	cbz	x8, .LBB0_476
	ldr	x0, [sp, #64]
	bl	rattle_dealloc
.LBB0_476:
	cbz	x20, .LBB0_478
	ldp	x9, x8, [sp, #24]
	add	x8, x9, x8
	ldr	x9, [sp, #104]
	cmp	x9, x8
	b.lo	.LBB0_500
.LBB0_478:
	ldr	x8, [sp, #8]
	cbz	x8, .LBB0_480
	ldr	x0, [sp, #48]
	bl	rattle_dealloc
.LBB0_480:
	sub	x0, x29, #192
	bl	std_alloc.vec.Vec.drop.f70b3562b761e113
.LBB0_481:
	adrp	x8, .Lstatic.0
	ldrb	w8, [x8, :lo12:.Lstatic.0]
	cbnz	w8, .LBB0_670
	mov	w20, wzr
	stp	xzr, xzr, [sp, #24]
	str	xzr, [sp, #104]
.LBB0_483:
	adrp	x8, .Lstatic.0
	ldrb	w8, [x8, :lo12:.Lstatic.0]
	cbnz	w8, .LBB0_670
	adrp	x8, .Lstatic.0
	ldrb	w8, [x8, :lo12:.Lstatic.0]
	cbnz	w8, .LBB0_670
	//APP
	//NO_APP
.LBB0_486:
	sub	x8, x29, #64
	ldaxr	x9, [x8]
	subs	x9, x9, #1
	stlxr	w10, x9, [x8]
	cbnz	w10, .LBB0_486
	//APP
	//NO_APP
	b.ne	.LBB0_489
	orr	x8, x8, #0x8
	mov	w9, #1
	//APP
	//NO_APP
	stlr	x9, [x8]
	mov	w0, #98
	mov	w2, #129
	//APP
	//NO_APP
	mov	w3, #1
	mov	x4, xzr
	ldr	x1, [sp, #40]
	bl	syscall
.LBB0_489:
	adrp	x8, .LCPI0_2
	ldr	x1, [sp, #40]
	sub	x4, x29, #160
	ldr	q0, [x8, :lo12:.LCPI0_2]
	mov	w0, #98
	mov	w2, #128
	mov	x3, xzr
	str	q0, [sp, #80]
	stur	q0, [x29, #-160]
	bl	syscall
	adrp	x8, .Lstatic.0
	ldrb	w8, [x8, :lo12:.Lstatic.0]
	cbnz	w8, .LBB0_670
	adrp	x8, .Lstatic.0
	ldrb	w8, [x8, :lo12:.Lstatic.0]
	cbnz	w8, .LBB0_670
	ldr	q0, [sp, #80]
	ldr	x1, [sp, #40]
	sub	x4, x29, #160
	mov	w0, #98
	mov	w2, #128
	mov	x3, xzr
	stur	q0, [x29, #-160]
	bl	syscall
	adrp	x8, .Lstatic.0
	ldrb	w8, [x8, :lo12:.Lstatic.0]
	cbnz	w8, .LBB0_670
	adrp	x8, .Lstatic.0
	ldrb	w8, [x8, :lo12:.Lstatic.0]
	cbnz	w8, .LBB0_670
.LBB0_493:
	sub	x8, x29, #64
	//APP
	//NO_APP
	orr	x8, x8, #0x8
	ldar	x8, [x8]
	//APP
	//NO_APP
	cbz	x8, .LBB0_498
.LBB0_494:
	//APP
	//NO_APP
.LBB0_495:
	ldr	x9, [sp, #40]
	ldaxr	x9, [x9]
	cmp	x9, x8
	b.ne	.LBB0_497
	ldr	x10, [sp, #40]
	stlxr	w9, xzr, [x10]
	cbz	w9, .LBB0_502
	b	.LBB0_495
.LBB0_497:
	clrex
	//APP
	//NO_APP
	sub	x8, x29, #64
	//APP
	//NO_APP
	orr	x8, x8, #0x8
	ldar	x8, [x8]
	//APP
	//NO_APP
	cbnz	x8, .LBB0_494
.LBB0_498:
	bl	sched_yield
	adrp	x8, .Lstatic.0
	ldrb	w8, [x8, :lo12:.Lstatic.0]
	cbz	w8, .LBB0_493
	b	.LBB0_670
.LBB0_499:
	subs	x21, x21, #1
	add	x23, x23, #64
	b.eq	.LBB0_478
.LBB0_500:
	ldr	x8, [x23]
	cbz	x8, .LBB0_499
	ldur	x0, [x23, #-16]
	bl	rattle_dealloc
	b	.LBB0_499
.LBB0_502:
	//APP
	//NO_APP
	adrp	x8, .Lstatic.0
	ldrb	w8, [x8, :lo12:.Lstatic.0]
	cbnz	w8, .LBB0_670
	adrp	x8, .Lstatic.0
	ldrb	w8, [x8, :lo12:.Lstatic.0]
	cbnz	w8, .LBB0_670
	adrp	x8, .Lstatic.0
	ldrb	w8, [x8, :lo12:.Lstatic.0]
	cbnz	w8, .LBB0_670
	adrp	x8, .Lstatic.0
	ldrb	w8, [x8, :lo12:.Lstatic.0]
	cbnz	w8, .LBB0_670
	adrp	x8, .Lstatic.0
	ldrb	w8, [x8, :lo12:.Lstatic.0]
	cbnz	w8, .LBB0_670
	cbz	w20, .LBB0_647
	ldr	x8, [sp, #104]
	sub	x22, x29, #24
	stp	xzr, xzr, [x29, #-184]
	stur	x22, [x29, #-192]
	stp	xzr, xzr, [x29, #-216]
	stur	x22, [x29, #-224]
	cbz	x8, .LBB0_527
	ldr	x8, [sp, #104]
	str	xzr, [sp, #64]
	sub	x8, x8, #1
	str	x8, [sp, #80]
	ldr	x8, [sp, #32]
	add	x23, x8, #56
.LBB0_510:
	ldr	x10, [sp, #64]
	mov	w8, #40
	ldr	x9, [sp, #32]
	sub	x24, x29, #24
	madd	x8, x10, x8, x9
	sub	x9, x29, #160
	ldr	x22, [x8]
	ldp	x20, x25, [x8, #16]
	add	x8, x10, #1
	stur	x24, [x29, #-160]
	str	x8, [sp, #48]
	ldr	x8, [sp, #104]
	stp	xzr, xzr, [x9, #8]
	sub	x8, x8, #1
	str	x8, [sp, #56]
	cbz	x25, .LBB0_517
	mov	x21, xzr
	sub	x8, x29, #24
	b	.LBB0_514
.LBB0_512:
	ldp	x8, x21, [x29, #-160]
.LBB0_513:
	str	x25, [x8, x21, lsl #3]
	add	x21, x21, #1
	add	x9, x22, x25, lsl #1
	stur	x21, [x29, #-152]
	ldur	x25, [x9, #-16]
	cbz	x25, .LBB0_516
.LBB0_514:
	ldur	x9, [x29, #-144]
	cmp	x9, x21
	b.ne	.LBB0_513
	sub	x0, x29, #160
	bl	std_alloc.vec.Vec.grow_amortized.34b4ac368a9081d8
	cbnz	w0, .LBB0_512
	b	.LBB0_535
.LBB0_516:
	ldur	x24, [x29, #-160]
	ldur	x8, [x29, #-144]
	str	x8, [sp, #40]
	b	.LBB0_518
.LBB0_517:
	str	xzr, [sp, #40]
	mov	x21, xzr
.LBB0_518:
	cbz	x20, .LBB0_520
	mov	x0, x22
	bl	rattle_dealloc
.LBB0_520:
	ldp	x9, x8, [x29, #-184]
	cmp	x8, x9
	b.eq	.LBB0_523
	ldp	x8, x10, [x29, #-216]
	add	x25, x9, #1
	stur	x25, [x29, #-184]
	cmp	x10, x8
	b.eq	.LBB0_525
.LBB0_522:
	mov	w9, #24
	ldur	x22, [x29, #-224]
	add	x20, x8, #1
	madd	x9, x8, x9, x22
	ldr	x8, [sp, #80]
	add	x23, x23, #40
	stur	x20, [x29, #-216]
	sub	x8, x8, #1
	str	x8, [sp, #80]
	ldr	x8, [sp, #40]
	str	x8, [x9, #16]
	ldr	x8, [sp, #48]
	stp	x24, x21, [x9]
	str	x8, [sp, #64]
	ldr	x8, [sp, #56]
	str	x8, [sp, #104]
	cbnz	x8, .LBB0_510
	b	.LBB0_528
.LBB0_523:
	sub	x0, x29, #192
	bl	std_alloc.vec.Vec.grow_amortized.1ced78ec54a54abc
	cbz	w0, .LBB0_617
	ldur	x9, [x29, #-184]
	ldp	x8, x10, [x29, #-216]
	add	x25, x9, #1
	stur	x25, [x29, #-184]
	cmp	x10, x8
	b.ne	.LBB0_522
.LBB0_525:
	sub	x0, x29, #224
	bl	std_alloc.vec.Vec.grow_amortized.2f1185c89873501e
	cbz	w0, .LBB0_631
	ldur	x8, [x29, #-216]
	b	.LBB0_522
.LBB0_527:
	mov	x20, xzr
	mov	x25, xzr
.LBB0_528:
	ldr	x8, [sp, #24]
	cbz	x8, .LBB0_530
	ldr	x0, [sp, #32]
	bl	rattle_dealloc
	ldp	x22, x20, [x29, #-224]
	ldur	x25, [x29, #-184]
.LBB0_530:
	ldur	x10, [x29, #-208]
	ldr	x9, [sp, #8592]
	ldur	x0, [x29, #-192]
	ldur	x8, [x29, #-176]
	str	x10, [sp, #104]
	//APP
	//NO_APP
	ldar	xzr, [x9]
	//APP
	//NO_APP
	cbz	x25, .LBB0_551
	mov	x9, x25
.LBB0_532:
	ldr	x10, [sp, #8592]
	//APP
	//NO_APP
	subs	x9, x9, #1
	ldar	xzr, [x10]
	//APP
	//NO_APP
	ldr	x10, [sp, #8592]
	//APP
	//NO_APP
	ldar	xzr, [x10]
	//APP
	//NO_APP
	b.ne	.LBB0_532
	ldr	x9, [sp, #8592]
	//APP
	//NO_APP
	ldar	xzr, [x9]
	//APP
	//NO_APP
.LBB0_534:
	ldr	x9, [sp, #8592]
	//APP
	//NO_APP
	subs	x25, x25, #1
	ldar	xzr, [x9]
	//APP
	//NO_APP
	ldr	x9, [sp, #8592]
	//APP
	//NO_APP
	ldar	xzr, [x9]
	//APP
	//NO_APP
	b.ne	.LBB0_534
	b	.LBB0_552
.LBB0_535:
	ldur	x8, [x29, #-144]
	cbz	x8, .LBB0_537
	ldur	x0, [x29, #-160]
	bl	rattle_dealloc
.LBB0_537:
	cbz	x20, .LBB0_539
	mov	x0, x22
	bl	rattle_dealloc
.LBB0_539:
	ldr	x8, [sp, #56]
	cbz	x8, .LBB0_541
	ldr	x8, [sp, #104]
	ldr	x9, [sp, #64]
	add	x8, x8, x9
	ldr	x9, [sp, #48]
	cmp	x9, x8
	b.lo	.LBB0_549
.LBB0_541:
	ldr	x8, [sp, #24]
	cbz	x8, .LBB0_543
	ldr	x0, [sp, #32]
	bl	rattle_dealloc
.LBB0_543:
	ldp	x22, x20, [x29, #-224]
	ldur	x21, [x29, #-208]
	cbz	x20, .LBB0_642
	add	x23, x22, #16
	b	.LBB0_546
.LBB0_545:
	subs	x20, x20, #1
	add	x23, x23, #24
	b.eq	.LBB0_642
.LBB0_546:
	ldr	x8, [x23]
	cbz	x8, .LBB0_545
	ldur	x0, [x23, #-16]
	bl	rattle_dealloc
	b	.LBB0_545
.LBB0_548:
	ldr	x8, [sp, #80]
	add	x23, x23, #40
	subs	x8, x8, #1
	str	x8, [sp, #80]
	b.eq	.LBB0_541
.LBB0_549:
	ldr	x8, [x23]
	cbz	x8, .LBB0_548
	ldur	x0, [x23, #-16]
	bl	rattle_dealloc
	b	.LBB0_548
.LBB0_551:
	ldr	x9, [sp, #8592]
	//APP
	//NO_APP
	ldar	xzr, [x9]
	//APP
	//NO_APP
.LBB0_552:
	cbz	x8, .LBB0_554
	bl	rattle_dealloc
.LBB0_554:
	ldr	w8, [sp, #20]
	tbnz	w8, #0, .LBB0_556
	ldr	x0, [sp, #112]
	bl	rattle_dealloc
.LBB0_556:
	adrp	x8, .Lstatic.0
	ldrb	w8, [x8, :lo12:.Lstatic.0]
	cbnz	w8, .LBB0_670
	ldr	x0, [sp, #8624]
	ldr	x21, [sp, #8640]
	bl	rattle_dealloc
	mov	x0, x21
	bl	rattle_dealloc
	adrp	x8, .Lstatic.0
	ldrb	w8, [x8, :lo12:.Lstatic.0]
	cbnz	w8, .LBB0_670
	mov	x21, xzr
	sub	x8, x29, #24
	add	x25, x22, #8
	str	xzr, [sp, #8608]
	str	x8, [sp, #8592]
	str	xzr, [sp, #8600]
.LBB0_559:
	cmp	x20, x21
	b.eq	.LBB0_562
	ldp	x23, x24, [x25, #-8]
	add	x21, x21, #1
	add	x0, sp, #2, lsl #12
	adrp	x1, .Lstatic.89
	add	x1, x1, :lo12:.Lstatic.89
	adrp	x4, .Lstatic.82
	add	x4, x4, :lo12:.Lstatic.82
	add	x0, x0, #400
	mov	w2, #7
	mov	x3, x21
	mov	w5, #1
	bl	ic_program.answers.push_numbered.714b863a58920bda
	and	w8, w0, #0xff
	tbnz	w8, #0, .LBB0_576
	add	x0, sp, #2, lsl #12
	adrp	x3, .Lstatic.38
	add	x3, x3, :lo12:.Lstatic.38
	add	x0, x0, #400
	mov	x1, x23
	mov	x2, x24
	mov	w4, #1
	add	x25, x25, #24
	bl	ic_program.answers.push_items.714b863a58920bda
	tst	w0, #0xff
	b.eq	.LBB0_559
	b	.LBB0_576
.LBB0_562:
	mov	x3, xzr
	cbz	x26, .LBB0_575
	cbz	x20, .LBB0_575
	mov	x8, xzr
	mov	x3, xzr
	b	.LBB0_566
.LBB0_565:
	cmp	x9, #1
	add	x8, x8, #1
	cinc	x3, x3, hi
	cmp	x8, x26
	b.eq	.LBB0_575
.LBB0_566:
	mov	x9, xzr
	mov	x10, xzr
	b	.LBB0_569
.LBB0_567:
	add	x9, x9, #1
.LBB0_568:
	add	x10, x10, #1
	cmp	x10, x20
	b.eq	.LBB0_565
.LBB0_569:
	mov	w11, #24
	madd	x11, x10, x11, x22
	ldr	x12, [x11, #8]
	cbz	x12, .LBB0_568
	ldr	x11, [x11]
	mov	x13, xzr
	b	.LBB0_572
.LBB0_571:
	cmp	x13, x14
	mov	x12, x14
	b.hs	.LBB0_568
.LBB0_572:
	sub	x14, x12, x13
	add	x14, x13, x14, lsr #1
	ldr	x15, [x11, x14, lsl #3]
	lsr	x15, x15, #3
	sub	x15, x15, #1
	cmp	x15, x8
	b.eq	.LBB0_567
	b.hs	.LBB0_571
	add	x13, x14, #1
	mov	x14, x12
	b	.LBB0_571
.LBB0_575:
	add	x0, sp, #2, lsl #12
	adrp	x1, .Lstatic.88
	add	x1, x1, :lo12:.Lstatic.88
	adrp	x4, .Lstatic.38
	add	x4, x4, :lo12:.Lstatic.38
	add	x0, x0, #400
	mov	w2, #8
	mov	w5, #1
	bl	ic_program.answers.push_numbered.714b863a58920bda
	tst	w0, #0xff
	b.eq	.LBB0_586
.LBB0_576:
	ldr	x8, [sp, #8608]
	cbz	x8, .LBB0_578
	ldr	x0, [sp, #8592]
	bl	rattle_dealloc
.LBB0_578:
	adrp	x8, .LCPI0_3
	mov	w9, #1
	ldr	q0, [x8, :lo12:.LCPI0_3]
	strb	w9, [x27, #48]
	stur	q0, [x27, #56]
	cbz	x20, .LBB0_583
	add	x21, x22, #16
	b	.LBB0_581
.LBB0_580:
	subs	x20, x20, #1
	add	x21, x21, #24
	b.eq	.LBB0_583
.LBB0_581:
	ldr	x8, [x21]
	cbz	x8, .LBB0_580
	ldur	x0, [x21, #-16]
	bl	rattle_dealloc
	b	.LBB0_580
.LBB0_583:
	ldr	x8, [sp, #104]
	cbz	x8, .LBB0_585
	mov	x0, x22
	bl	rattle_dealloc
	ldrb	w9, [x27, #56]
	mov	x8, xzr
	mov	w20, #1
	b	.LBB0_596
.LBB0_585:
	mov	w9, #3
	mov	w20, #1
	b	.LBB0_596
.LBB0_586:
	ldr	x21, [sp, #8592]
	ldr	x3, [sp, #8600]
	add	x0, sp, #2, lsl #12
	ldr	x23, [sp, #8608]
	add	x0, x0, #336
	add	x1, sp, #128
	mov	x2, x21
	bl	ic_program.writing.write_whole.40d1f5182270a21e
	cbz	x23, .LBB0_588
	mov	x0, x21
	bl	rattle_dealloc
.LBB0_588:
	cbz	x20, .LBB0_593
	add	x21, x22, #16
	b	.LBB0_591
.LBB0_590:
	subs	x20, x20, #1
	add	x21, x21, #24
	b.eq	.LBB0_593
.LBB0_591:
	ldr	x8, [x21]
	cbz	x8, .LBB0_590
	ldur	x0, [x21, #-16]
	bl	rattle_dealloc
	b	.LBB0_590
.LBB0_593:
	ldr	x8, [sp, #104]
	cbz	x8, .LBB0_595
	mov	x0, x22
	bl	rattle_dealloc
.LBB0_595:
	ldrb	w20, [x27, #48]
	ldrb	w9, [x27, #56]
	ldr	x8, [sp, #8544]
.LBB0_596:
	ldr	x25, [sp, #72]
	ldr	x24, [sp, #120]
	adrp	x10, .Lstatic.0
	ldrb	w10, [x10, :lo12:.Lstatic.0]
	cbz	w10, .LBB0_235
	b	.LBB0_670
.LBB0_597:
	ldur	x8, [x29, #-144]
	cbz	x8, .LBB0_599
	ldur	x0, [x29, #-160]
	bl	rattle_dealloc
.LBB0_599:
	ldr	x8, [sp, #80]
	cbz	x8, .LBB0_601
	ldr	x0, [sp, #64]
	bl	rattle_dealloc
.LBB0_601:
	ldur	x22, [x29, #-192]
	ldur	x21, [x29, #-176]
	cbz	x20, .LBB0_615
	add	x23, x22, #40
	b	.LBB0_604
.LBB0_603:
	subs	x20, x20, #1
	add	x23, x23, #64
	b.eq	.LBB0_615
.LBB0_604:
	ldr	x8, [x23]
	cbz	x8, .LBB0_603
	ldur	x0, [x23, #-16]
	bl	rattle_dealloc
	b	.LBB0_603
.LBB0_606:
	cbz	x24, .LBB0_608
	mov	x0, x23
	bl	rattle_dealloc
.LBB0_608:
	ldr	x8, [sp, #80]
	cbz	x8, .LBB0_610
	ldr	x0, [sp, #64]
	bl	rattle_dealloc
.LBB0_610:
	ldp	x22, x20, [x29, #-192]
	ldur	x21, [x29, #-176]
	cbz	x20, .LBB0_615
	add	x23, x22, #40
	b	.LBB0_613
.LBB0_612:
	subs	x20, x20, #1
	add	x23, x23, #64
	b.eq	.LBB0_615
.LBB0_613:
	ldr	x8, [x23]
	cbz	x8, .LBB0_612
	ldur	x0, [x23, #-16]
	bl	rattle_dealloc
	b	.LBB0_612
.LBB0_615:
	cbz	x21, .LBB0_647
	mov	x0, x22
	b	.LBB0_646
.LBB0_617:
	ldr	x8, [sp, #40]
	cbz	x8, .LBB0_619
	mov	x0, x24
	bl	rattle_dealloc
.LBB0_619:
	ldr	x8, [sp, #56]
	cbz	x8, .LBB0_621
	ldr	x8, [sp, #104]
	ldr	x9, [sp, #64]
	add	x8, x8, x9
	ldr	x9, [sp, #48]
	cmp	x9, x8
	b.lo	.LBB0_629
.LBB0_621:
	ldr	x8, [sp, #24]
	cbz	x8, .LBB0_623
	ldr	x0, [sp, #32]
	bl	rattle_dealloc
.LBB0_623:
	ldp	x22, x20, [x29, #-224]
	ldur	x21, [x29, #-208]
	cbz	x20, .LBB0_642
	add	x23, x22, #16
	b	.LBB0_626
.LBB0_625:
	subs	x20, x20, #1
	add	x23, x23, #24
	b.eq	.LBB0_642
.LBB0_626:
	ldr	x8, [x23]
	cbz	x8, .LBB0_625
	ldur	x0, [x23, #-16]
	bl	rattle_dealloc
	b	.LBB0_625
.LBB0_628:
	ldr	x8, [sp, #80]
	add	x23, x23, #40
	subs	x8, x8, #1
	str	x8, [sp, #80]
	b.eq	.LBB0_621
.LBB0_629:
	ldr	x8, [x23]
	cbz	x8, .LBB0_628
	ldur	x0, [x23, #-16]
	bl	rattle_dealloc
	b	.LBB0_628
.LBB0_631:
	ldr	x8, [sp, #40]
	cbz	x8, .LBB0_633
	mov	x0, x24
	bl	rattle_dealloc
.LBB0_633:
	ldr	x8, [sp, #56]
	cbz	x8, .LBB0_635
	ldr	x8, [sp, #104]
	ldr	x9, [sp, #64]
	add	x8, x8, x9
	ldr	x9, [sp, #48]
	cmp	x9, x8
	b.lo	.LBB0_653
.LBB0_635:
	ldr	x8, [sp, #24]
	cbz	x8, .LBB0_637
	ldr	x0, [sp, #32]
	bl	rattle_dealloc
.LBB0_637:
	ldp	x22, x20, [x29, #-224]
	ldur	x21, [x29, #-208]
	cbz	x20, .LBB0_642
	add	x23, x22, #16
	b	.LBB0_640
.LBB0_639:
	subs	x20, x20, #1
	add	x23, x23, #24
	b.eq	.LBB0_642
.LBB0_640:
	ldr	x8, [x23]
	cbz	x8, .LBB0_639
	ldur	x0, [x23, #-16]
	bl	rattle_dealloc
	b	.LBB0_639
.LBB0_642:
	cbz	x21, .LBB0_644
	mov	x0, x22
	bl	rattle_dealloc
.LBB0_644:
	ldur	x8, [x29, #-176]
	cbz	x8, .LBB0_647
	ldur	x0, [x29, #-192]
.LBB0_646:
	bl	rattle_dealloc
.LBB0_647:
	ldr	w8, [sp, #20]
	tbnz	w8, #0, .LBB0_650
	ldr	x0, [sp, #112]
.LBB0_649:
	bl	rattle_dealloc
.LBB0_650:
	adrp	x8, .Lstatic.0
	ldrb	w8, [x8, :lo12:.Lstatic.0]
	cbnz	w8, .LBB0_670
	ldr	x0, [sp, #8624]
	ldr	x21, [sp, #8640]
	bl	rattle_dealloc
	mov	x0, x21
	b	.LBB0_232
.LBB0_652:
	ldr	x8, [sp, #80]
	add	x23, x23, #40
	subs	x8, x8, #1
	str	x8, [sp, #80]
	b.eq	.LBB0_635
.LBB0_653:
	ldr	x8, [x23]
	cbz	x8, .LBB0_652
	ldur	x0, [x23, #-16]
	bl	rattle_dealloc
	b	.LBB0_652
.LBB0_655:
	//APP
	//NO_APP
	add	x9, x25, #8
.LBB0_656:
	ldaxr	x8, [x9]
	mov	w10, #1
	stlxr	w11, x10, [x9]
	cbnz	w11, .LBB0_656
	//APP
	//NO_APP
	cbz	x8, .LBB0_660
	ldr	x0, [x25]
	mov	x1, xzr
	bl	pthread_join
	adrp	x8, .Lstatic.0
	ldrb	w8, [x8, :lo12:.Lstatic.0]
	cbnz	w8, .LBB0_670
	mov	x0, x25
	bl	free
.LBB0_660:
	adrp	x8, .Lstatic.0
	ldrb	w8, [x8, :lo12:.Lstatic.0]
	cbnz	w8, .LBB0_670
	adrp	x8, .Lstatic.0
	ldrb	w8, [x8, :lo12:.Lstatic.0]
	cbnz	w8, .LBB0_670
	adrp	x8, .Lstatic.0
	ldrb	w8, [x8, :lo12:.Lstatic.0]
	cbnz	w8, .LBB0_670
	adrp	x8, .Lstatic.0
	ldrb	w8, [x8, :lo12:.Lstatic.0]
	cbnz	w8, .LBB0_670
	cbz	x20, .LBB0_478
	ldp	x9, x8, [sp, #24]
	add	x8, x9, x8
	ldr	x9, [sp, #104]
	cmp	x9, x8
	b.lo	.LBB0_667
	b	.LBB0_478
.LBB0_666:
	subs	x21, x21, #1
	add	x23, x23, #64
	b.eq	.LBB0_478
.LBB0_667:
	ldr	x8, [x23]
	cbz	x8, .LBB0_666
	ldur	x0, [x23, #-16]
	bl	rattle_dealloc
	b	.LBB0_666
.LBB0_669:
	bl	abort
	adrp	x8, .Lstatic.0
	ldrb	wzr, [x8, :lo12:.Lstatic.0]
.LBB0_670:
	brk	#0x1
.Lfunc_end0:
	.size	ic_main.run.fd625e2fe7ce0436, .Lfunc_end0-ic_main.run.fd625e2fe7ce0436
	.section	.text.core.str.utf8.from_utf8,"ax",@progbits
	.p2align	2
	.type	core.str.utf8.from_utf8,@function
core.str.utf8.from_utf8:
	sub	sp, sp, #64
	stp	x22, x21, [sp, #32]
	mov	x21, x1
	stp	x20, x19, [sp, #48]
	mov	x20, x2
	mov	x19, x0
	stp	x29, x30, [sp, #16]
	add	x29, sp, #16
	cbz	x2, .LBB1_51
	mov	x9, xzr
	sub	x22, x20, #8
	b	.LBB1_6
.LBB1_2:
	and	w11, w11, #0xff
	tbnz	w11, #7, .LBB1_23
.LBB1_3:
	mov	w12, #1
.LBB1_4:
	add	x8, x12, x9
.LBB1_5:
	cmp	x8, x20
	mov	x9, x8
	b.hs	.LBB1_51
.LBB1_6:
	add	x8, x21, x9
	sub	x10, x20, x9
	ldrsb	w11, [x8]
	cmp	x10, #2
	b.lo	.LBB1_2
	tbnz	w11, #31, .LBB1_2
	ldrsb	w11, [x8, #1]
	tbnz	w11, #31, .LBB1_3
	cmp	x10, #7
	stp	x21, x20, [sp]
	b.hi	.LBB1_28
	ldrsb	w8, [x21, x9]
	tbnz	w8, #31, .LBB1_43
	add	x8, x9, #1
	cmp	x8, x20
	b.eq	.LBB1_51
	ldrsb	w10, [x21, x8]
	tbnz	w10, #31, .LBB1_5
	add	x8, x9, #2
	cmp	x8, x20
	b.eq	.LBB1_51
	ldrsb	w10, [x21, x8]
	tbnz	w10, #31, .LBB1_5
	add	x8, x9, #3
	cmp	x8, x20
	b.eq	.LBB1_51
	ldrsb	w10, [x21, x8]
	tbnz	w10, #31, .LBB1_5
	add	x8, x9, #4
	cmp	x8, x20
	b.eq	.LBB1_51
	ldrsb	w10, [x21, x8]
	tbnz	w10, #31, .LBB1_5
	add	x8, x9, #5
	cmp	x8, x20
	b.eq	.LBB1_51
	ldrsb	w10, [x21, x8]
	tbnz	w10, #31, .LBB1_5
	add	x8, x9, #6
	cmp	x8, x20
	b.eq	.LBB1_51
	ldrsb	w9, [x21, x8]
	tbnz	w9, #31, .LBB1_5
	b	.LBB1_51
.LBB1_23:
	cmp	w11, #194
	b.lo	.LBB1_59
	cmp	w11, #223
	b.hi	.LBB1_36
	cmp	x10, #2
	b.lo	.LBB1_58
	ldrsb	w12, [x8, #1]
	cmn	w12, #65
	b.gt	.LBB1_55
	mov	w12, #2
	b	.LBB1_4
.LBB1_28:
	ldr	x8, [x8]
	mov	w10, #8
	ands	x8, x8, #0x8080808080808080
	rbit	x8, x8
	clz	x8, x8
	lsr	x8, x8, #3
	csel	x8, x10, x8, eq
	add	x8, x8, x9
	add	x9, x9, #8
	cmp	x8, x9
	b.lo	.LBB1_5
	sub	x9, x20, x8
	cmp	x9, #32
	b.lo	.LBB1_32
.LBB1_30:
	add	x9, x21, x8
	ldp	q1, q0, [x9]
	orr	v0.16b, v1.16b, v0.16b
	ext	v1.16b, v0.16b, v0.16b, #8
	orr	v0.8b, v0.8b, v1.8b
	fmov	x9, d0
	tst	x9, #0x8080808080808080
	b.ne	.LBB1_32
	mov	x0, sp
	add	x1, x8, #32
	mov	x2, x20
	bl	core.slice.words.skip_far.52f9edcae2f82f51
	sub	x9, x20, x0
	mov	x8, x0
	cmp	x9, #31
	b.hi	.LBB1_30
.LBB1_32:
	sub	x9, x20, x8
.LBB1_33:
	cmp	x9, #9
	b.lo	.LBB1_50
	ldr	x10, [x21, x8]
	mov	w11, #8
	sub	x9, x9, #8
	ands	x10, x10, #0x8080808080808080
	rbit	x10, x10
	clz	x10, x10
	lsr	x10, x10, #3
	csel	x10, x11, x10, eq
	add	x11, x10, x8
	add	x8, x8, #8
	cmp	x11, x8
	b.hs	.LBB1_33
	add	x8, x10, x8
	sub	x8, x8, #8
	b	.LBB1_5
.LBB1_36:
	cmp	w11, #239
	b.hi	.LBB1_44
	cmp	x10, #3
	b.lo	.LBB1_53
	ldrsb	w12, [x8, #1]
	cmn	w12, #65
	b.gt	.LBB1_55
	ldrsb	w13, [x8, #2]
	cmn	w13, #65
	b.gt	.LBB1_55
	and	w13, w12, #0xff
	mov	w14, #-14464
	add	w13, w13, w11, lsl #6
	add	w13, w13, w14
	cmp	w13, #32
	b.lo	.LBB1_55
	cmp	w13, #896
	mov	w12, #3
	csel	x14, xzr, x12, lo
	cmp	w13, #864
	b.lo	.LBB1_4
	mov	x12, x14
	b	.LBB1_49
.LBB1_43:
	mov	x8, x9
	b	.LBB1_5
.LBB1_44:
	cmp	x10, #4
	b.lo	.LBB1_52
	ldrsb	w12, [x8, #1]
	cmn	w12, #65
	b.gt	.LBB1_52
	ldrsb	w13, [x8, #2]
	cmn	w13, #65
	b.gt	.LBB1_52
	ldrsb	w13, [x8, #3]
	cmn	w13, #65
	b.gt	.LBB1_52
	and	w12, w12, #0xff
	mov	w13, #-15488
	add	w12, w12, w11, lsl #6
	add	w13, w12, w13
	mov	w12, #4
	cmp	w13, #272
	csel	x12, x12, xzr, lo
	cmp	w13, #16
	b.lo	.LBB1_52
.LBB1_49:
	cbnz	x12, .LBB1_4
	b	.LBB1_52
.LBB1_50:
	ldr	x8, [x21, x22]
	mov	w9, #8
	ands	x8, x8, #0x8080808080808080
	rbit	x8, x8
	clz	x8, x8
	lsr	x8, x8, #3
	csel	x8, x9, x8, eq
	add	x8, x8, x22
	b	.LBB1_5
.LBB1_51:
	stp	xzr, x21, [x19]
	str	x20, [x19, #16]
	ldp	x20, x19, [sp, #48]
	ldp	x22, x21, [sp, #32]
	ldp	x29, x30, [sp, #16]
	add	sp, sp, #64
	ret
.LBB1_52:
	cmp	w11, #244
	b.hi	.LBB1_59
.LBB1_53:
	cmp	x10, #2
	b.lo	.LBB1_58
	ldrb	w12, [x8, #1]
.LBB1_55:
	cmp	w11, #240
	mov	w13, #-128
	mov	w14, #-112
	mov	w15, #-96
	csel	w13, w14, w13, eq
	cmp	w11, #224
	mov	w14, #-65
	csel	w13, w15, w13, eq
	mov	w15, #-113
	cmp	w11, #244
	and	w16, w13, #0xf0
	csel	w13, w15, w14, eq
	cmp	w11, #237
	mov	w11, #-97
	csel	w13, w11, w13, eq
	cmp	w16, w12, uxtb
	mov	w11, #257
	b.hi	.LBB1_60
	and	w12, w12, #0xff
	cmp	w12, w13, uxtb
	b.hi	.LBB1_60
	cmp	x10, #2
	b.ne	.LBB1_61
.LBB1_58:
	mov	x11, xzr
	b	.LBB1_60
.LBB1_59:
	mov	w11, #257
.LBB1_60:
	mov	w8, #1
	str	x11, [x19, #16]
	stp	x8, x9, [x19]
	ldp	x20, x19, [sp, #48]
	ldp	x22, x21, [sp, #32]
	ldp	x29, x30, [sp, #16]
	add	sp, sp, #64
	ret
.LBB1_61:
	ldrsb	w8, [x8, #2]
	cmn	w8, #65
	b.gt	.LBB1_63
	cmp	x10, #3
	mov	w8, #769
	csel	x11, x8, xzr, hi
	b	.LBB1_60
.LBB1_63:
	mov	w11, #513
	b	.LBB1_60
.Lfunc_end1:
	.size	core.str.utf8.from_utf8, .Lfunc_end1-core.str.utf8.from_utf8
	.section	.text.core.slice.words.skip_far.52f9edcae2f82f51,"ax",@progbits
	.p2align	2
	.type	core.slice.words.skip_far.52f9edcae2f82f51,@function
core.slice.words.skip_far.52f9edcae2f82f51:
	sub	x8, x2, x1
	cmp	x8, #64
	b.lo	.LBB2_4
	ldr	x9, [x0]
.LBB2_2:
	add	x10, x9, x1
	ldp	q0, q1, [x10, #32]
	ldp	q2, q3, [x10]
	orr	v1.16b, v3.16b, v1.16b
	orr	v0.16b, v2.16b, v0.16b
	orr	v0.16b, v0.16b, v1.16b
	ext	v1.16b, v0.16b, v0.16b, #8
	orr	v0.8b, v0.8b, v1.8b
	fmov	x10, d0
	tst	x10, #0x8080808080808080
	b.ne	.LBB2_4
	sub	x8, x8, #64
	add	x1, x1, #64
	cmp	x8, #63
	b.hi	.LBB2_2
.LBB2_4:
	mov	x0, x1
	ret
.Lfunc_end2:
	.size	core.slice.words.skip_far.52f9edcae2f82f51, .Lfunc_end2-core.slice.words.skip_far.52f9edcae2f82f51
	.section	.text.std_io.io.error.Error.from_raw_os_error,"ax",@progbits
	.p2align	2
	.type	std_io.io.error.Error.from_raw_os_error,@function
std_io.io.error.Error.from_raw_os_error:
	tbnz	w1, #31, .LBB3_4
	sub	w8, w1, #1
	cmp	w8, #121
	b.hi	.LBB3_4
	adrp	x9, .LJTI3_0
	add	x9, x9, :lo12:.LJTI3_0
	adr	x10, .LBB3_3
	ldrb	w11, [x9, x8]
	add	x10, x10, x11, lsl #2
	mov	w8, #1
	br	x10
.LBB3_3:
	mov	w8, #36
	b	.LBB3_5
.LBB3_4:
	mov	w8, #41
.LBB3_5:
	movi	v0.2d, #0000000000000000
	strb	wzr, [x0]
	strb	w8, [x0, #1]
	strh	wzr, [x0, #2]
	str	w1, [x0, #4]
	stur	q0, [x0, #8]
	stur	q0, [x0, #24]
	stur	q0, [x0, #40]
	stur	q0, [x0, #56]
	stur	q0, [x0, #72]
	ret
.LBB3_6:
	mov	w8, #4
	b	.LBB3_5
.LBB3_7:
	mov	w8, #7
	b	.LBB3_5
.LBB3_8:
	mov	w8, #26
	b	.LBB3_5
.LBB3_9:
	mov	w8, #39
	b	.LBB3_5
.LBB3_10:
	mov	w8, #9
	b	.LBB3_5
.LBB3_11:
	mov	w8, #8
	b	.LBB3_5
.LBB3_12:
	mov	w8, #30
	b	.LBB3_5
.LBB3_13:
	mov	w8, #25
	b	.LBB3_5
.LBB3_14:
	mov	w8, #32
	b	.LBB3_5
.LBB3_15:
	mov	w8, #33
	b	.LBB3_5
.LBB3_16:
	mov	w8, #22
	b	.LBB3_5
.LBB3_17:
	mov	w8, #31
	b	.LBB3_5
.LBB3_18:
	mov	w8, #29
	b	.LBB3_5
.LBB3_19:
	mov	w8, #18
	b	.LBB3_5
.LBB3_20:
	mov	w8, #10
	b	.LBB3_5
.LBB3_21:
	mov	w8, #28
	b	.LBB3_5
.LBB3_22:
	mov	w8, #14
	b	.LBB3_5
.LBB3_23:
	mov	w8, #12
	b	.LBB3_5
.LBB3_24:
	mov	w8, #5
	b	.LBB3_5
.LBB3_25:
	mov	w8, #3
	b	.LBB3_5
.LBB3_26:
	mov	w8, wzr
	b	.LBB3_5
.LBB3_27:
	mov	w8, #13
	b	.LBB3_5
.LBB3_28:
	mov	w8, #38
	b	.LBB3_5
.LBB3_29:
	mov	w8, #11
	b	.LBB3_5
.LBB3_30:
	mov	w8, #35
	b	.LBB3_5
.LBB3_31:
	mov	w8, #34
	b	.LBB3_5
.LBB3_32:
	mov	w8, #20
	b	.LBB3_5
.LBB3_33:
	mov	w8, #15
	b	.LBB3_5
.LBB3_34:
	mov	w8, #19
	b	.LBB3_5
.LBB3_35:
	mov	w8, #16
	b	.LBB3_5
.LBB3_36:
	mov	w8, #6
	b	.LBB3_5
.LBB3_37:
	mov	w8, #27
	b	.LBB3_5
.LBB3_38:
	mov	w8, #24
	b	.LBB3_5
.LBB3_39:
	mov	w8, #2
	b	.LBB3_5
.LBB3_40:
	mov	w8, #17
	b	.LBB3_5
.Lfunc_end3:
	.size	std_io.io.error.Error.from_raw_os_error, .Lfunc_end3-std_io.io.error.Error.from_raw_os_error
	.section	.rodata.std_io.io.error.Error.from_raw_os_error,"a",@progbits
.LJTI3_0:
	.byte	(.LBB3_5-.LBB3_3)>>2
	.byte	(.LBB3_26-.LBB3_3)>>2
	.byte	(.LBB3_4-.LBB3_3)>>2
	.byte	(.LBB3_30-.LBB3_3)>>2
	.byte	(.LBB3_4-.LBB3_3)>>2
	.byte	(.LBB3_4-.LBB3_3)>>2
	.byte	(.LBB3_31-.LBB3_3)>>2
	.byte	(.LBB3_4-.LBB3_3)>>2
	.byte	(.LBB3_4-.LBB3_3)>>2
	.byte	(.LBB3_4-.LBB3_3)>>2
	.byte	(.LBB3_27-.LBB3_3)>>2
	.byte	(.LBB3_28-.LBB3_3)>>2
	.byte	(.LBB3_5-.LBB3_3)>>2
	.byte	(.LBB3_4-.LBB3_3)>>2
	.byte	(.LBB3_4-.LBB3_3)>>2
	.byte	(.LBB3_21-.LBB3_3)>>2
	.byte	(.LBB3_23-.LBB3_3)>>2
	.byte	(.LBB3_17-.LBB3_3)>>2
	.byte	(.LBB3_4-.LBB3_3)>>2
	.byte	(.LBB3_22-.LBB3_3)>>2
	.byte	(.LBB3_33-.LBB3_3)>>2
	.byte	(.LBB3_32-.LBB3_3)>>2
	.byte	(.LBB3_4-.LBB3_3)>>2
	.byte	(.LBB3_4-.LBB3_3)>>2
	.byte	(.LBB3_4-.LBB3_3)>>2
	.byte	(.LBB3_18-.LBB3_3)>>2
	.byte	(.LBB3_37-.LBB3_3)>>2
	.byte	(.LBB3_38-.LBB3_3)>>2
	.byte	(.LBB3_13-.LBB3_3)>>2
	.byte	(.LBB3_40-.LBB3_3)>>2
	.byte	(.LBB3_14-.LBB3_3)>>2
	.byte	(.LBB3_29-.LBB3_3)>>2
	.byte	(.LBB3_4-.LBB3_3)>>2
	.byte	(.LBB3_4-.LBB3_3)>>2
	.byte	(.LBB3_12-.LBB3_3)>>2
	.byte	(.LBB3_15-.LBB3_3)>>2
	.byte	(.LBB3_4-.LBB3_3)>>2
	.byte	(.LBB3_3-.LBB3_3)>>2
	.byte	(.LBB3_35-.LBB3_3)>>2
	.byte	(.LBB3_19-.LBB3_3)>>2
	.byte	(.LBB3_4-.LBB3_3)>>2
	.byte	(.LBB3_4-.LBB3_3)>>2
	.byte	(.LBB3_4-.LBB3_3)>>2
	.byte	(.LBB3_4-.LBB3_3)>>2
	.byte	(.LBB3_4-.LBB3_3)>>2
	.byte	(.LBB3_4-.LBB3_3)>>2
	.byte	(.LBB3_4-.LBB3_3)>>2
	.byte	(.LBB3_4-.LBB3_3)>>2
	.byte	(.LBB3_4-.LBB3_3)>>2
	.byte	(.LBB3_4-.LBB3_3)>>2
	.byte	(.LBB3_4-.LBB3_3)>>2
	.byte	(.LBB3_4-.LBB3_3)>>2
	.byte	(.LBB3_4-.LBB3_3)>>2
	.byte	(.LBB3_4-.LBB3_3)>>2
	.byte	(.LBB3_4-.LBB3_3)>>2
	.byte	(.LBB3_4-.LBB3_3)>>2
	.byte	(.LBB3_4-.LBB3_3)>>2
	.byte	(.LBB3_4-.LBB3_3)>>2
	.byte	(.LBB3_4-.LBB3_3)>>2
	.byte	(.LBB3_4-.LBB3_3)>>2
	.byte	(.LBB3_4-.LBB3_3)>>2
	.byte	(.LBB3_4-.LBB3_3)>>2
	.byte	(.LBB3_4-.LBB3_3)>>2
	.byte	(.LBB3_4-.LBB3_3)>>2
	.byte	(.LBB3_4-.LBB3_3)>>2
	.byte	(.LBB3_4-.LBB3_3)>>2
	.byte	(.LBB3_4-.LBB3_3)>>2
	.byte	(.LBB3_4-.LBB3_3)>>2
	.byte	(.LBB3_4-.LBB3_3)>>2
	.byte	(.LBB3_4-.LBB3_3)>>2
	.byte	(.LBB3_4-.LBB3_3)>>2
	.byte	(.LBB3_4-.LBB3_3)>>2
	.byte	(.LBB3_4-.LBB3_3)>>2
	.byte	(.LBB3_4-.LBB3_3)>>2
	.byte	(.LBB3_4-.LBB3_3)>>2
	.byte	(.LBB3_4-.LBB3_3)>>2
	.byte	(.LBB3_4-.LBB3_3)>>2
	.byte	(.LBB3_4-.LBB3_3)>>2
	.byte	(.LBB3_4-.LBB3_3)>>2
	.byte	(.LBB3_4-.LBB3_3)>>2
	.byte	(.LBB3_4-.LBB3_3)>>2
	.byte	(.LBB3_4-.LBB3_3)>>2
	.byte	(.LBB3_4-.LBB3_3)>>2
	.byte	(.LBB3_4-.LBB3_3)>>2
	.byte	(.LBB3_4-.LBB3_3)>>2
	.byte	(.LBB3_4-.LBB3_3)>>2
	.byte	(.LBB3_4-.LBB3_3)>>2
	.byte	(.LBB3_4-.LBB3_3)>>2
	.byte	(.LBB3_4-.LBB3_3)>>2
	.byte	(.LBB3_4-.LBB3_3)>>2
	.byte	(.LBB3_4-.LBB3_3)>>2
	.byte	(.LBB3_4-.LBB3_3)>>2
	.byte	(.LBB3_4-.LBB3_3)>>2
	.byte	(.LBB3_4-.LBB3_3)>>2
	.byte	(.LBB3_3-.LBB3_3)>>2
	.byte	(.LBB3_4-.LBB3_3)>>2
	.byte	(.LBB3_4-.LBB3_3)>>2
	.byte	(.LBB3_11-.LBB3_3)>>2
	.byte	(.LBB3_10-.LBB3_3)>>2
	.byte	(.LBB3_20-.LBB3_3)>>2
	.byte	(.LBB3_24-.LBB3_3)>>2
	.byte	(.LBB3_4-.LBB3_3)>>2
	.byte	(.LBB3_36-.LBB3_3)>>2
	.byte	(.LBB3_25-.LBB3_3)>>2
	.byte	(.LBB3_4-.LBB3_3)>>2
	.byte	(.LBB3_4-.LBB3_3)>>2
	.byte	(.LBB3_7-.LBB3_3)>>2
	.byte	(.LBB3_4-.LBB3_3)>>2
	.byte	(.LBB3_4-.LBB3_3)>>2
	.byte	(.LBB3_16-.LBB3_3)>>2
	.byte	(.LBB3_39-.LBB3_3)>>2
	.byte	(.LBB3_4-.LBB3_3)>>2
	.byte	(.LBB3_6-.LBB3_3)>>2
	.byte	(.LBB3_4-.LBB3_3)>>2
	.byte	(.LBB3_9-.LBB3_3)>>2
	.byte	(.LBB3_34-.LBB3_3)>>2
	.byte	(.LBB3_4-.LBB3_3)>>2
	.byte	(.LBB3_4-.LBB3_3)>>2
	.byte	(.LBB3_4-.LBB3_3)>>2
	.byte	(.LBB3_4-.LBB3_3)>>2
	.byte	(.LBB3_4-.LBB3_3)>>2
	.byte	(.LBB3_8-.LBB3_3)>>2
	.section	.rodata.cst8,"aM",@progbits,8
	.p2align	3, 0x0
.LCPI4_0:
	.byte	111
	.byte	98
	.byte	106
	.byte	101
	.zero	1
	.zero	1
	.zero	1
	.zero	1
	.section	.text.ic_program.session.Session.answer_lines.61c60e3f83b1098c,"ax",@progbits
	.p2align	2
	.type	ic_program.session.Session.answer_lines.61c60e3f83b1098c,@function
ic_program.session.Session.answer_lines.61c60e3f83b1098c:
	sub	sp, sp, #176
	stp	x29, x30, [sp, #80]
	add	x29, sp, #80
	stp	x28, x27, [sp, #96]
	stp	x26, x25, [sp, #112]
	stp	x24, x23, [sp, #128]
	stp	x22, x21, [sp, #144]
	stp	x20, x19, [sp, #160]
	stp	x4, x0, [sp]
	cbz	x3, .LBB4_655
	mov	x22, x3
	mov	x23, x2
	mov	x20, x1
.LBB4_2:
	movi	v0.2d, #0000000000000000
	ldr	x8, [x20, #144]
	cmn	x8, #1
	stp	q0, q0, [sp, #16]
	b.eq	.LBB4_656
	add	x8, x8, #1
	subs	x24, x22, #8
	stp	xzr, xzr, [x29, #-32]
	str	x8, [x20, #144]
	b.lo	.LBB4_609
	mov	x8, #4736
	ldr	x10, [x23]
	movk	x8, #55707, lsl #16
	movk	x8, #61133, lsl #32
	movk	x8, #18070, lsl #48
	mul	x8, x10, x8
	lsr	x8, x8, #60
	cmp	x8, #15
	b.hi	.LBB4_609
	adrp	x9, .LJTI4_0
	add	x9, x9, :lo12:.LJTI4_0
	adr	x11, .LBB4_6
	ldrh	w12, [x9, x8, lsl #1]
	add	x11, x11, x12, lsl #2
	br	x11
.LBB4_6:
	mov	x8, #29184
	movk	x8, #28005, lsl #16
	movk	x8, #30319, lsl #32
	movk	x8, #8293, lsl #48
	cmp	x8, x10, lsl #8
	b.ne	.LBB4_609
	sub	x8, x22, #7
	add	x9, x23, #7
	cmp	x8, #5
	b.lo	.LBB4_155
	mov	w11, #-48
	add	x10, x11, x10, lsr #56
	and	w11, w10, #0xff
	cmp	w11, #9
	b.hi	.LBB4_155
	ldrb	w11, [x23, #8]
	and	x24, x10, #0xff
	sub	w12, w11, #48
	cmp	w12, #9
	b.hi	.LBB4_130
	ldrb	w10, [x23, #9]
	sub	w11, w10, #48
	and	x10, x12, #0xff
	cmp	w11, #9
	b.hi	.LBB4_131
	ldrb	w12, [x23, #10]
	and	x11, x11, #0xff
	sub	w12, w12, #48
	cmp	w12, #10
	b.hs	.LBB4_143
	ldrb	w13, [x23, #11]
	sub	w13, w13, #48
	cmp	w13, #10
	b.lo	.LBB4_155
	mov	w13, #10
	umaddl	x10, w24, w13, x10
	umaddl	x10, w10, w13, x11
	and	x11, x12, #0xff
	umaddl	x24, w10, w13, x11
	mov	w10, #4
	add	x0, x9, x10
	ldrb	w9, [x0]
	cmp	w9, #32
	b.ne	.LBB4_144
	b	.LBB4_145
.LBB4_14:
	subs	x25, x22, #10
	b.lo	.LBB4_609
	mov	x8, #30064
	movk	x8, #26739, lsl #16
	movk	x8, #25183, lsl #32
	movk	x8, #25441, lsl #48
	cmp	x10, x8
	b.ne	.LBB4_609
	mov	x9, #26739
	ldur	x8, [x23, #2]
	movk	x9, #25183, lsl #16
	movk	x9, #25441, lsl #32
	movk	x9, #8299, lsl #48
	cmp	x8, x9
	b.ne	.LBB4_609
	cmp	x25, #5
	add	x8, x23, #10
	b.lo	.LBB4_221
	ldrb	w9, [x8]
	sub	w9, w9, #48
	cmp	w9, #9
	b.hi	.LBB4_221
	ldrb	w10, [x23, #11]
	and	x24, x9, #0xff
	sub	w11, w10, #48
	cmp	w11, #9
	b.hi	.LBB4_134
	ldrb	w9, [x23, #12]
	sub	w10, w9, #48
	and	x9, x11, #0xff
	cmp	w10, #9
	b.hi	.LBB4_164
	ldrb	w11, [x23, #13]
	and	x10, x10, #0xff
	sub	w11, w11, #48
	cmp	w11, #10
	b.hs	.LBB4_209
	ldrb	w12, [x23, #14]
	sub	w12, w12, #48
	cmp	w12, #10
	b.lo	.LBB4_221
	mov	w12, #10
	umaddl	x9, w24, w12, x9
	umaddl	x9, w9, w12, x10
	and	x10, x11, #0xff
	umaddl	x24, w9, w12, x10
	mov	w9, #4
	add	x0, x8, x9
	ldrb	w8, [x0]
	cmp	w8, #32
	b.ne	.LBB4_210
	b	.LBB4_211
.LBB4_24:
	cmp	x22, #8
	b.eq	.LBB4_609
	mov	x8, #28528
	movk	x8, #24432, lsl #16
	movk	x8, #24930, lsl #32
	movk	x8, #27491, lsl #48
	cmp	x10, x8
	b.ne	.LBB4_609
	mov	x9, #26739
	ldur	x8, [x23, #1]
	movk	x9, #25183, lsl #16
	movk	x9, #25441, lsl #32
	movk	x9, #8299, lsl #48
	add	x9, x9, #2044
	cmp	x8, x9
	b.ne	.LBB4_609
	sub	x8, x22, #9
	add	x9, x23, #9
	cmp	x8, #5
	b.lo	.LBB4_236
	ldrb	w10, [x9]
	sub	w10, w10, #48
	cmp	w10, #9
	b.hi	.LBB4_236
	ldrb	w11, [x23, #10]
	and	x24, x10, #0xff
	sub	w12, w11, #48
	cmp	w12, #9
	b.hi	.LBB4_135
	ldrb	w10, [x23, #11]
	sub	w11, w10, #48
	and	x10, x12, #0xff
	cmp	w11, #9
	b.hi	.LBB4_165
	ldrb	w12, [x23, #12]
	and	x11, x11, #0xff
	sub	w12, w12, #48
	cmp	w12, #10
	b.hs	.LBB4_225
	ldrb	w13, [x23, #13]
	sub	w13, w13, #48
	cmp	w13, #10
	b.lo	.LBB4_236
	mov	w13, #10
	umaddl	x10, w24, w13, x10
	umaddl	x10, w10, w13, x11
	and	x11, x12, #0xff
	umaddl	x24, w10, w13, x11
	mov	w10, #4
	add	x0, x9, x10
	ldrb	w9, [x0]
	cmp	w9, #32
	b.ne	.LBB4_226
	b	.LBB4_227
.LBB4_34:
	subs	x25, x22, #14
	b.lo	.LBB4_609
	mov	x8, #28265
	movk	x8, #25971, lsl #16
	movk	x8, #29810, lsl #32
	movk	x8, #25183, lsl #48
	cmp	x10, x8
	b.ne	.LBB4_609
	mov	x9, #25183
	ldur	x8, [x23, #6]
	movk	x9, #26213, lsl #16
	movk	x9, #29295, lsl #32
	movk	x9, #8293, lsl #48
	cmp	x8, x9
	b.ne	.LBB4_609
	cmp	x25, #5
	add	x8, x23, #14
	b.lo	.LBB4_253
	ldrb	w9, [x8]
	sub	w9, w9, #48
	cmp	w9, #9
	b.hi	.LBB4_253
	ldrb	w10, [x23, #15]
	and	x24, x9, #0xff
	sub	w11, w10, #48
	cmp	w11, #9
	b.hi	.LBB4_136
	ldrb	w9, [x23, #16]
	sub	w10, w9, #48
	and	x9, x11, #0xff
	cmp	w10, #9
	b.hi	.LBB4_166
	ldrb	w11, [x23, #17]
	and	x10, x10, #0xff
	sub	w11, w11, #48
	cmp	w11, #10
	b.hs	.LBB4_241
	ldrb	w12, [x23, #18]
	sub	w12, w12, #48
	cmp	w12, #10
	b.lo	.LBB4_253
	mov	w12, #10
	umaddl	x9, w24, w12, x9
	umaddl	x9, w9, w12, x10
	and	x10, x11, #0xff
	umaddl	x24, w9, w12, x10
	mov	w9, #4
	add	x0, x8, x9
	ldrb	w8, [x0]
	cmp	w8, #32
	b.ne	.LBB4_242
	b	.LBB4_243
.LBB4_44:
	subs	x25, x22, #13
	b.lo	.LBB4_609
	mov	x8, #28265
	movk	x8, #25971, lsl #16
	movk	x8, #29810, lsl #32
	movk	x8, #24927, lsl #48
	cmp	x10, x8
	b.ne	.LBB4_609
	mov	x9, #24436
	ldur	x8, [x23, #5]
	movk	x9, #26209, lsl #16
	movk	x9, #25972, lsl #32
	movk	x9, #8306, lsl #48
	cmp	x8, x9
	b.ne	.LBB4_609
	cmp	x25, #5
	add	x8, x23, #13
	b.lo	.LBB4_269
	ldrb	w9, [x8]
	sub	w9, w9, #48
	cmp	w9, #9
	b.hi	.LBB4_269
	ldrb	w10, [x23, #14]
	and	x24, x9, #0xff
	sub	w11, w10, #48
	cmp	w11, #9
	b.hi	.LBB4_137
	ldrb	w9, [x23, #15]
	sub	w10, w9, #48
	and	x9, x11, #0xff
	cmp	w10, #9
	b.hi	.LBB4_167
	ldrb	w11, [x23, #16]
	and	x10, x10, #0xff
	sub	w11, w11, #48
	cmp	w11, #10
	b.hs	.LBB4_257
	ldrb	w12, [x23, #17]
	sub	w12, w12, #48
	cmp	w12, #10
	b.lo	.LBB4_269
	mov	w12, #10
	umaddl	x9, w24, w12, x9
	umaddl	x9, w9, w12, x10
	and	x10, x11, #0xff
	umaddl	x24, w9, w12, x10
	mov	w9, #4
	add	x0, x8, x9
	ldrb	w8, [x0]
	cmp	w8, #32
	b.ne	.LBB4_258
	b	.LBB4_259
.LBB4_54:
	subs	x25, x22, #11
	b.lo	.LBB4_609
	mov	x8, #30064
	movk	x8, #26739, lsl #16
	movk	x8, #26207, lsl #32
	movk	x8, #28530, lsl #48
	cmp	x10, x8
	b.ne	.LBB4_609
	mov	x9, #24424
	ldur	x8, [x23, #3]
	movk	x9, #29286, lsl #16
	movk	x9, #28271, lsl #32
	movk	x9, #8308, lsl #48
	cmp	x8, x9
	b.ne	.LBB4_609
	cmp	x25, #5
	add	x8, x23, #11
	b.lo	.LBB4_285
	ldrb	w9, [x8]
	sub	w9, w9, #48
	cmp	w9, #9
	b.hi	.LBB4_285
	ldrb	w10, [x23, #12]
	and	x24, x9, #0xff
	sub	w11, w10, #48
	cmp	w11, #9
	b.hi	.LBB4_138
	ldrb	w9, [x23, #13]
	sub	w10, w9, #48
	and	x9, x11, #0xff
	cmp	w10, #9
	b.hi	.LBB4_168
	ldrb	w11, [x23, #14]
	and	x10, x10, #0xff
	sub	w11, w11, #48
	cmp	w11, #10
	b.hs	.LBB4_273
	ldrb	w12, [x23, #15]
	sub	w12, w12, #48
	cmp	w12, #10
	b.lo	.LBB4_285
	mov	w12, #10
	umaddl	x9, w24, w12, x9
	umaddl	x9, w9, w12, x10
	and	x10, x11, #0xff
	umaddl	x24, w9, w12, x10
	mov	w9, #4
	add	x0, x8, x9
	ldrb	w8, [x0]
	cmp	w8, #32
	b.ne	.LBB4_274
	b	.LBB4_275
.LBB4_64:
	subs	x25, x22, #10
	b.lo	.LBB4_609
	mov	x8, #28525
	movk	x8, #25974, lsl #16
	movk	x8, #28767, lsl #32
	movk	x8, #25970, lsl #48
	cmp	x10, x8
	b.ne	.LBB4_609
	mov	x9, #25974
	ldur	x8, [x23, #2]
	movk	x9, #28767, lsl #16
	movk	x9, #25970, lsl #32
	movk	x9, #8310, lsl #48
	cmp	x8, x9
	b.ne	.LBB4_609
	cmp	x25, #5
	add	x8, x23, #10
	b.lo	.LBB4_296
	ldrb	w9, [x8]
	sub	w9, w9, #48
	cmp	w9, #9
	b.hi	.LBB4_296
	ldrb	w10, [x23, #11]
	and	x24, x9, #0xff
	sub	w11, w10, #48
	cmp	w11, #9
	b.hi	.LBB4_139
	ldrb	w9, [x23, #12]
	sub	w10, w9, #48
	and	x9, x11, #0xff
	cmp	w10, #9
	b.hi	.LBB4_169
	ldrb	w11, [x23, #13]
	and	x10, x10, #0xff
	sub	w11, w11, #48
	cmp	w11, #10
	b.hs	.LBB4_289
	ldrb	w12, [x23, #14]
	sub	w12, w12, #48
	cmp	w12, #10
	b.lo	.LBB4_296
	mov	w12, #10
	umaddl	x9, w24, w12, x9
	umaddl	x9, w9, w12, x10
	and	x10, x11, #0xff
	umaddl	x24, w9, w12, x10
	mov	w9, #4
	add	x0, x8, x9
	ldrb	w8, [x0]
	cmp	w8, #32
	b.ne	.LBB4_290
	b	.LBB4_291
.LBB4_74:
	subs	x25, x22, #12
	b.lo	.LBB4_609
	mov	x8, #25970
	movk	x8, #28525, lsl #16
	movk	x8, #25974, lsl #32
	movk	x8, #28255, lsl #48
	cmp	x10, x8
	b.ne	.LBB4_609
	mov	x9, #25974
	ldur	x8, [x23, #4]
	movk	x9, #28255, lsl #16
	movk	x9, #30821, lsl #32
	movk	x9, #8308, lsl #48
	cmp	x8, x9
	b.ne	.LBB4_609
	cmp	x25, #5
	add	x8, x23, #12
	b.lo	.LBB4_308
	ldrb	w9, [x8]
	sub	w9, w9, #48
	cmp	w9, #9
	b.hi	.LBB4_308
	ldrb	w10, [x23, #13]
	and	x24, x9, #0xff
	sub	w11, w10, #48
	cmp	w11, #9
	b.hi	.LBB4_140
	ldrb	w9, [x23, #14]
	sub	w10, w9, #48
	and	x9, x11, #0xff
	cmp	w10, #9
	b.hi	.LBB4_170
	ldrb	w11, [x23, #15]
	and	x10, x10, #0xff
	sub	w11, w11, #48
	cmp	w11, #10
	b.hs	.LBB4_301
	ldrb	w12, [x23, #16]
	sub	w12, w12, #48
	cmp	w12, #10
	b.lo	.LBB4_308
	mov	w12, #10
	umaddl	x9, w24, w12, x9
	umaddl	x9, w9, w12, x10
	and	x10, x11, #0xff
	umaddl	x24, w9, w12, x10
	mov	w9, #4
	add	x0, x8, x9
	ldrb	w8, [x0]
	cmp	w8, #32
	b.ne	.LBB4_302
	b	.LBB4_303
.LBB4_84:
	subs	x25, x22, #10
	b.lo	.LBB4_609
	mov	x8, #28525
	movk	x8, #25974, lsl #16
	movk	x8, #28255, lsl #32
	movk	x8, #30821, lsl #48
	cmp	x10, x8
	b.ne	.LBB4_609
	mov	x9, #25974
	ldur	x8, [x23, #2]
	movk	x9, #28255, lsl #16
	movk	x9, #30821, lsl #32
	movk	x9, #8308, lsl #48
	cmp	x8, x9
	b.ne	.LBB4_609
	cmp	x25, #5
	add	x8, x23, #10
	b.lo	.LBB4_325
	ldrb	w9, [x8]
	sub	w9, w9, #48
	cmp	w9, #9
	b.hi	.LBB4_325
	ldrb	w10, [x23, #11]
	and	x24, x9, #0xff
	sub	w11, w10, #48
	cmp	w11, #9
	b.hi	.LBB4_141
	ldrb	w9, [x23, #12]
	sub	w10, w9, #48
	and	x9, x11, #0xff
	cmp	w10, #9
	b.hi	.LBB4_171
	ldrb	w11, [x23, #13]
	and	x10, x10, #0xff
	sub	w11, w11, #48
	cmp	w11, #10
	b.hs	.LBB4_313
	ldrb	w12, [x23, #14]
	sub	w12, w12, #48
	cmp	w12, #10
	b.lo	.LBB4_325
	mov	w12, #10
	umaddl	x9, w24, w12, x9
	umaddl	x9, w9, w12, x10
	and	x10, x11, #0xff
	umaddl	x24, w9, w12, x10
	mov	w9, #4
	add	x0, x8, x9
	ldrb	w8, [x0]
	cmp	w8, #32
	b.ne	.LBB4_314
	b	.LBB4_315
.LBB4_94:
	mov	x8, #30051
	movk	x8, #29298, lsl #16
	movk	x8, #28261, lsl #32
	movk	x8, #8308, lsl #48
	cmp	x10, x8
	b.ne	.LBB4_609
	cmp	x24, #5
	add	x8, x23, #8
	b.lo	.LBB4_184
	ldrb	w9, [x8]
	sub	w9, w9, #48
	cmp	w9, #9
	b.hi	.LBB4_184
	ldrb	w10, [x23, #9]
	and	x25, x9, #0xff
	sub	w11, w10, #48
	cmp	w11, #9
	b.hi	.LBB4_132
	ldrb	w9, [x23, #10]
	sub	w10, w9, #48
	and	x9, x11, #0xff
	cmp	w10, #9
	b.hi	.LBB4_162
	ldrb	w11, [x23, #11]
	and	x10, x10, #0xff
	sub	w11, w11, #48
	cmp	w11, #10
	b.hs	.LBB4_176
	ldrb	w12, [x23, #12]
	sub	w12, w12, #48
	cmp	w12, #10
	b.lo	.LBB4_184
	mov	w12, #10
	umaddl	x9, w25, w12, x9
	umaddl	x9, w9, w12, x10
	and	x10, x11, #0xff
	umaddl	x25, w9, w12, x10
	mov	w9, #4
	add	x0, x8, x9
	ldrb	w8, [x0]
	cmp	w8, #32
	b.ne	.LBB4_177
	b	.LBB4_178
.LBB4_102:
	subs	x25, x22, #13
	b.lo	.LBB4_609
	mov	x28, #25970
	mov	x27, #25955
	movk	x28, #27760, lsl #16
	movk	x27, #30559, lsl #16
	movk	x28, #25441, lsl #32
	movk	x27, #29801, lsl #32
	movk	x28, #24421, lsl #48
	movk	x27, #8296, lsl #48
	cmp	x10, x28
	b.ne	.LBB4_485
	ldur	x8, [x23, #5]
	cmp	x8, x27
	b.ne	.LBB4_485
	cmp	x25, #5
	add	x8, x23, #13
	b.lo	.LBB4_461
	ldrb	w9, [x8]
	sub	w9, w9, #48
	cmp	w9, #9
	b.hi	.LBB4_461
	ldrb	w10, [x23, #14]
	and	x24, x9, #0xff
	sub	w11, w10, #48
	cmp	w11, #9
	b.hi	.LBB4_192
	ldrb	w9, [x23, #15]
	sub	w10, w9, #48
	and	x9, x11, #0xff
	cmp	w10, #9
	b.hi	.LBB4_434
	ldrb	w11, [x23, #16]
	and	x10, x10, #0xff
	sub	w11, w11, #48
	cmp	w11, #10
	b.hs	.LBB4_449
	ldrb	w12, [x23, #17]
	sub	w12, w12, #48
	cmp	w12, #10
	b.lo	.LBB4_461
	mov	w12, #10
	umaddl	x9, w24, w12, x9
	umaddl	x9, w9, w12, x10
	and	x10, x11, #0xff
	umaddl	x24, w9, w12, x10
	mov	w9, #4
	add	x0, x8, x9
	ldrb	w8, [x0]
	cmp	w8, #32
	b.ne	.LBB4_450
	b	.LBB4_451
.LBB4_112:
	mov	x8, #28519
	movk	x8, #28255, lsl #16
	movk	x8, #27765, lsl #32
	movk	x8, #8300, lsl #48
	cmp	x10, x8
	b.ne	.LBB4_609
	cmp	x24, #5
	add	x8, x23, #8
	b.lo	.LBB4_201
	ldrb	w9, [x8]
	sub	w9, w9, #48
	cmp	w9, #9
	b.hi	.LBB4_201
	ldrb	w10, [x23, #9]
	and	x25, x9, #0xff
	sub	w11, w10, #48
	cmp	w11, #9
	b.hi	.LBB4_133
	ldrb	w9, [x23, #10]
	sub	w10, w9, #48
	and	x9, x11, #0xff
	cmp	w10, #9
	b.hi	.LBB4_163
	ldrb	w11, [x23, #11]
	and	x10, x10, #0xff
	sub	w11, w11, #48
	cmp	w11, #10
	b.hs	.LBB4_193
	ldrb	w12, [x23, #12]
	sub	w12, w12, #48
	cmp	w12, #10
	b.lo	.LBB4_201
	mov	w12, #10
	umaddl	x9, w25, w12, x9
	umaddl	x9, w9, w12, x10
	and	x10, x11, #0xff
	umaddl	x25, w9, w12, x10
	mov	w9, #4
	add	x0, x8, x9
	ldrb	w8, [x0]
	cmp	w8, #32
	b.ne	.LBB4_194
	b	.LBB4_195
.LBB4_120:
	subs	x25, x22, #10
	b.lo	.LBB4_609
	mov	x8, #28528
	movk	x8, #24432, lsl #16
	movk	x8, #29286, lsl #32
	movk	x8, #28271, lsl #48
	cmp	x10, x8
	b.ne	.LBB4_609
	mov	x9, #24424
	ldur	x8, [x23, #2]
	movk	x9, #29286, lsl #16
	movk	x9, #28271, lsl #32
	movk	x9, #8308, lsl #48
	add	x9, x9, #8
	cmp	x8, x9
	b.ne	.LBB4_609
	cmp	x25, #5
	add	x8, x23, #10
	b.lo	.LBB4_342
	ldrb	w9, [x8]
	sub	w9, w9, #48
	cmp	w9, #9
	b.hi	.LBB4_342
	ldrb	w10, [x23, #11]
	and	x24, x9, #0xff
	sub	w11, w10, #48
	cmp	w11, #9
	b.hi	.LBB4_142
	ldrb	w9, [x23, #12]
	sub	w10, w9, #48
	and	x9, x11, #0xff
	cmp	w10, #9
	b.hi	.LBB4_172
	ldrb	w11, [x23, #13]
	and	x10, x10, #0xff
	sub	w11, w11, #48
	cmp	w11, #10
	b.hs	.LBB4_334
	ldrb	w12, [x23, #14]
	sub	w12, w12, #48
	cmp	w12, #10
	b.lo	.LBB4_342
	mov	w12, #10
	umaddl	x9, w24, w12, x9
	umaddl	x9, w9, w12, x10
	and	x10, x11, #0xff
	umaddl	x24, w9, w12, x10
	mov	w9, #4
	add	x0, x8, x9
	ldrb	w8, [x0]
	cmp	w8, #32
	b.ne	.LBB4_335
	b	.LBB4_336
.LBB4_130:
	mov	w10, #1
	add	x0, x9, x10
	ldrb	w9, [x0]
	cmp	w9, #32
	b.ne	.LBB4_144
	b	.LBB4_145
.LBB4_131:
	mov	w11, #10
	umaddl	x24, w24, w11, x10
	mov	w10, #2
	add	x0, x9, x10
	ldrb	w9, [x0]
	cmp	w9, #32
	b.ne	.LBB4_144
	b	.LBB4_145
.LBB4_132:
	mov	w9, #1
	add	x0, x8, x9
	ldrb	w8, [x0]
	cmp	w8, #32
	b.ne	.LBB4_177
	b	.LBB4_178
.LBB4_133:
	mov	w9, #1
	add	x0, x8, x9
	ldrb	w8, [x0]
	cmp	w8, #32
	b.ne	.LBB4_194
	b	.LBB4_195
.LBB4_134:
	mov	w9, #1
	add	x0, x8, x9
	ldrb	w8, [x0]
	cmp	w8, #32
	b.ne	.LBB4_210
	b	.LBB4_211
.LBB4_135:
	mov	w10, #1
	add	x0, x9, x10
	ldrb	w9, [x0]
	cmp	w9, #32
	b.ne	.LBB4_226
	b	.LBB4_227
.LBB4_136:
	mov	w9, #1
	add	x0, x8, x9
	ldrb	w8, [x0]
	cmp	w8, #32
	b.ne	.LBB4_242
	b	.LBB4_243
.LBB4_137:
	mov	w9, #1
	add	x0, x8, x9
	ldrb	w8, [x0]
	cmp	w8, #32
	b.ne	.LBB4_258
	b	.LBB4_259
.LBB4_138:
	mov	w9, #1
	add	x0, x8, x9
	ldrb	w8, [x0]
	cmp	w8, #32
	b.ne	.LBB4_274
	b	.LBB4_275
.LBB4_139:
	mov	w9, #1
	add	x0, x8, x9
	ldrb	w8, [x0]
	cmp	w8, #32
	b.ne	.LBB4_290
	b	.LBB4_291
.LBB4_140:
	mov	w9, #1
	add	x0, x8, x9
	ldrb	w8, [x0]
	cmp	w8, #32
	b.ne	.LBB4_302
	b	.LBB4_303
.LBB4_141:
	mov	w9, #1
	add	x0, x8, x9
	ldrb	w8, [x0]
	cmp	w8, #32
	b.ne	.LBB4_314
	b	.LBB4_315
.LBB4_142:
	mov	w9, #1
	add	x0, x8, x9
	ldrb	w8, [x0]
	cmp	w8, #32
	b.ne	.LBB4_335
	b	.LBB4_336
.LBB4_143:
	mov	w12, #10
	umaddl	x10, w24, w12, x10
	umaddl	x24, w10, w12, x11
	mov	w10, #3
	add	x0, x9, x10
	ldrb	w9, [x0]
	cmp	w9, #32
	b.eq	.LBB4_145
.LBB4_144:
	cmp	w9, #10
	b.ne	.LBB4_155
.LBB4_145:
	sub	x25, x8, x10
	cmp	w9, #10
	b.ne	.LBB4_158
.LBB4_146:
	sub	x27, x25, #1
	ldr	x8, [x20, #80]
	cmp	x8, x24
	b.ls	.LBB4_629
.LBB4_147:
	ldr	x8, [x20, #72]
	add	x9, x8, x24, lsl #3
	ldr	w8, [x9, #4]
	cmn	w8, #1
	b.eq	.LBB4_629
	ldr	w11, [x9]
	mov	w9, #24
	ldr	x10, [x20, #96]
	mov	w12, #48
	umull	x9, w11, w9
	ldr	x9, [x10, x9]
	umaddl	x9, w8, w12, x9
	ldr	x8, [x20, #48]
	umaddl	x8, w11, w12, x8
	ldrb	w10, [x9, #8]
	cmp	w10, #1
	b.gt	.LBB4_160
	cbz	w10, .LBB4_307
	ldrb	w10, [x8]
	cmp	w10, #2
	b.ne	.LBB4_667
	ldr	x1, [x9, #32]
	cbz	x1, .LBB4_435
	lsr	x10, x1, #2
	ldr	x14, [x8, #16]
	ldrb	w15, [x8, #8]
	add	x11, x10, x1, lsr #3
	lsl	x10, x1, #1
	cmp	w15, #0
	lsl	x11, x11, #3
	add	x12, x14, x10
	sub	x12, x12, #8
	add	x13, x14, x11
	csel	x16, x10, x11, eq
	sub	x13, x13, #24
	csel	x12, x12, x13, eq
	ldr	x13, [x12]
	add	x12, x14, x16
	ldur	x12, [x12, #-16]
	cbz	x13, .LBB4_436
	cbz	w15, .LBB4_530
	lsr	x15, x13, #3
	mov	w16, #24
	madd	x14, x15, x16, x14
	b	.LBB4_531
.LBB4_155:
	add	x0, x23, #7
	sub	x1, x22, #7
	bl	ic_program.argument.any_number
	tbz	w0, #0, .LBB4_609
	mov	x24, x1
	add	x0, x23, #7
	sub	x1, x22, #7
	bl	ic_program.text.after_word
	mov	x25, x1
	cbz	x1, .LBB4_158
	ldrb	w9, [x0]
	cmp	w9, #10
	b.eq	.LBB4_146
.LBB4_158:
	mov	x1, x25
	bl	ic_program.text.other_line
	tbz	w0, #0, .LBB4_609
	sub	x27, x25, x1
	ldr	x8, [x20, #80]
	cmp	x8, x24
	b.hi	.LBB4_147
	b	.LBB4_629
.LBB4_160:
	cmp	w10, #2
	b.ne	.LBB4_173
	add	x0, x9, #16
	add	x2, x9, #32
	mov	x1, x8
	bl	ic_chain.edits.LinkListBidirectional.remove_at.d62ae654698fb858
	and	w8, w0, #0xff
	b	.LBB4_574
.LBB4_162:
	mov	w10, #10
	umaddl	x25, w25, w10, x9
	mov	w9, #2
	add	x0, x8, x9
	ldrb	w8, [x0]
	cmp	w8, #32
	b.ne	.LBB4_177
	b	.LBB4_178
.LBB4_163:
	mov	w10, #10
	umaddl	x25, w25, w10, x9
	mov	w9, #2
	add	x0, x8, x9
	ldrb	w8, [x0]
	cmp	w8, #32
	b.ne	.LBB4_194
	b	.LBB4_195
.LBB4_164:
	mov	w10, #10
	umaddl	x24, w24, w10, x9
	mov	w9, #2
	add	x0, x8, x9
	ldrb	w8, [x0]
	cmp	w8, #32
	b.ne	.LBB4_210
	b	.LBB4_211
.LBB4_165:
	mov	w11, #10
	umaddl	x24, w24, w11, x10
	mov	w10, #2
	add	x0, x9, x10
	ldrb	w9, [x0]
	cmp	w9, #32
	b.ne	.LBB4_226
	b	.LBB4_227
.LBB4_166:
	mov	w10, #10
	umaddl	x24, w24, w10, x9
	mov	w9, #2
	add	x0, x8, x9
	ldrb	w8, [x0]
	cmp	w8, #32
	b.ne	.LBB4_242
	b	.LBB4_243
.LBB4_167:
	mov	w10, #10
	umaddl	x24, w24, w10, x9
	mov	w9, #2
	add	x0, x8, x9
	ldrb	w8, [x0]
	cmp	w8, #32
	b.ne	.LBB4_258
	b	.LBB4_259
.LBB4_168:
	mov	w10, #10
	umaddl	x24, w24, w10, x9
	mov	w9, #2
	add	x0, x8, x9
	ldrb	w8, [x0]
	cmp	w8, #32
	b.ne	.LBB4_274
	b	.LBB4_275
.LBB4_169:
	mov	w10, #10
	umaddl	x24, w24, w10, x9
	mov	w9, #2
	add	x0, x8, x9
	ldrb	w8, [x0]
	cmp	w8, #32
	b.ne	.LBB4_290
	b	.LBB4_291
.LBB4_170:
	mov	w10, #10
	umaddl	x24, w24, w10, x9
	mov	w9, #2
	add	x0, x8, x9
	ldrb	w8, [x0]
	cmp	w8, #32
	b.ne	.LBB4_302
	b	.LBB4_303
.LBB4_171:
	mov	w10, #10
	umaddl	x24, w24, w10, x9
	mov	w9, #2
	add	x0, x8, x9
	ldrb	w8, [x0]
	cmp	w8, #32
	b.ne	.LBB4_314
	b	.LBB4_315
.LBB4_172:
	mov	w10, #10
	umaddl	x24, w24, w10, x9
	mov	w9, #2
	add	x0, x8, x9
	ldrb	w8, [x0]
	cmp	w8, #32
	b.ne	.LBB4_335
	b	.LBB4_336
.LBB4_173:
	ldrb	w10, [x8]
	cmp	w10, #2
	b.ne	.LBB4_667
	ldrb	w10, [x8, #8]
	cmp	w10, #1
	b.ne	.LBB4_667
	add	x0, x9, #16
	add	x1, x8, #16
	add	x2, x9, #24
	bl	ic_rbtree.edits.RBTreeBidirectional.remove_at.b002bc248359831b
	and	w8, w0, #0xff
	b	.LBB4_574
.LBB4_176:
	mov	w11, #10
	umaddl	x9, w25, w11, x9
	umaddl	x25, w9, w11, x10
	mov	w9, #3
	add	x0, x8, x9
	ldrb	w8, [x0]
	cmp	w8, #32
	b.eq	.LBB4_178
.LBB4_177:
	cmp	w8, #10
	b.ne	.LBB4_184
.LBB4_178:
	sub	x24, x24, x9
	cmp	w8, #10
	b.ne	.LBB4_187
.LBB4_179:
	sub	x27, x24, #1
	ldr	x8, [x20, #80]
	cmp	x8, x25
	b.ls	.LBB4_629
.LBB4_180:
	ldr	x8, [x20, #72]
	add	x9, x8, x25, lsl #3
	ldr	w8, [x9, #4]
	cmn	w8, #1
	b.eq	.LBB4_629
	ldr	w9, [x9]
	mov	w10, #24
	mov	w11, #48
	umull	x9, w9, w10
	ldr	x10, [x20, #96]
	ldr	x9, [x10, x9]
	umaddl	x8, w8, w11, x9
	ldrb	w9, [x8, #8]
	cmp	w9, #1
	b.gt	.LBB4_189
	cbz	w9, .LBB4_190
.LBB4_183:
	add	x8, x8, #32
	b	.LBB4_191
.LBB4_184:
	add	x0, x23, #8
	mov	x1, x24
	bl	ic_program.argument.any_number
	tbz	w0, #0, .LBB4_609
	mov	x25, x1
	add	x0, x23, #8
	mov	x1, x24
	bl	ic_program.text.after_word
	mov	x24, x1
	cbz	x1, .LBB4_187
	ldrb	w8, [x0]
	cmp	w8, #10
	b.eq	.LBB4_179
.LBB4_187:
	mov	x1, x24
	bl	ic_program.text.other_line
	tbz	w0, #0, .LBB4_609
	sub	x27, x24, x1
	ldr	x8, [x20, #80]
	cmp	x8, x25
	b.hi	.LBB4_180
	b	.LBB4_629
.LBB4_189:
	cmp	w9, #2
	b.eq	.LBB4_183
.LBB4_190:
	add	x8, x8, #24
.LBB4_191:
	ldr	x1, [x8]
	ldur	x25, [x20, #128]
	cmp	x1, #0
	cset	w9, eq
	subs	x8, x22, x27
	csel	x24, xzr, x8, lo
	cbnz	x1, .LBB4_320
	b	.LBB4_575
.LBB4_192:
	mov	w9, #1
	add	x0, x8, x9
	ldrb	w8, [x0]
	cmp	w8, #32
	b.ne	.LBB4_450
	b	.LBB4_451
.LBB4_193:
	mov	w11, #10
	umaddl	x9, w25, w11, x9
	umaddl	x25, w9, w11, x10
	mov	w9, #3
	add	x0, x8, x9
	ldrb	w8, [x0]
	cmp	w8, #32
	b.eq	.LBB4_195
.LBB4_194:
	cmp	w8, #10
	b.ne	.LBB4_201
.LBB4_195:
	sub	x24, x24, x9
	cmp	w8, #10
	b.ne	.LBB4_204
.LBB4_196:
	sub	x27, x24, #1
	ldr	x8, [x20, #80]
	cmp	x8, x25
	b.ls	.LBB4_206
.LBB4_197:
	ldr	x8, [x20, #72]
	add	x9, x8, x25, lsl #3
	ldr	w8, [x9, #4]
	cmn	w8, #1
	b.eq	.LBB4_206
	ldr	w9, [x9]
	mov	w10, #24
	mov	w11, #48
	umull	x9, w9, w10
	ldr	x10, [x20, #96]
	ldr	x9, [x10, x9]
	umaddl	x9, w8, w11, x9
	ldrb	w8, [x9, #8]
	cmp	w8, #1
	b.gt	.LBB4_207
	cbz	w8, .LBB4_423
	mov	w8, wzr
	str	xzr, [x9, #32]
	lsl	w9, wzr, #1
	subs	x10, x22, x27
	ldur	x25, [x20, #128]
	csel	x24, xzr, x10, lo
	cbnz	w9, .LBB4_631
	b	.LBB4_480
.LBB4_201:
	add	x0, x23, #8
	mov	x1, x24
	bl	ic_program.argument.any_number
	tbz	w0, #0, .LBB4_609
	mov	x25, x1
	add	x0, x23, #8
	mov	x1, x24
	bl	ic_program.text.after_word
	mov	x24, x1
	cbz	x1, .LBB4_204
	ldrb	w8, [x0]
	cmp	w8, #10
	b.eq	.LBB4_196
.LBB4_204:
	mov	x1, x24
	bl	ic_program.text.other_line
	tbz	w0, #0, .LBB4_609
	sub	x27, x24, x1
	ldr	x8, [x20, #80]
	cmp	x8, x25
	b.hi	.LBB4_197
.LBB4_206:
	mov	w8, #1
	lsl	w9, w8, #1
	subs	x10, x22, x27
	ldur	x25, [x20, #128]
	csel	x24, xzr, x10, lo
	cbnz	w9, .LBB4_631
	b	.LBB4_480
.LBB4_207:
	cmp	w8, #2
	b.ne	.LBB4_422
	mov	w8, wzr
	stp	xzr, xzr, [x9, #32]
	lsl	w9, wzr, #1
	subs	x10, x22, x27
	ldur	x25, [x20, #128]
	csel	x24, xzr, x10, lo
	cbnz	w9, .LBB4_631
	b	.LBB4_480
.LBB4_209:
	mov	w11, #10
	umaddl	x9, w24, w11, x9
	umaddl	x24, w9, w11, x10
	mov	w9, #3
	add	x0, x8, x9
	ldrb	w8, [x0]
	cmp	w8, #32
	b.eq	.LBB4_211
.LBB4_210:
	cmp	w8, #10
	b.ne	.LBB4_221
.LBB4_211:
	sub	x1, x25, x9
	cmp	w8, #32
	b.ne	.LBB4_224
.LBB4_212:
	add	x25, x0, #1
	sub	x26, x1, #1
	cmp	x26, #5
	b.lo	.LBB4_361
.LBB4_213:
	ldrb	w8, [x25]
	sub	w9, w8, #48
	cmp	w9, #9
	b.hi	.LBB4_361
	ldrb	w8, [x25, #1]
	and	x9, x9, #0xff
	sub	w10, w8, #48
	cmp	w10, #9
	b.hi	.LBB4_219
	ldrb	w8, [x25, #2]
	and	x10, x10, #0xff
	sub	w11, w8, #48
	cmp	w11, #9
	b.hi	.LBB4_220
	ldrb	w8, [x25, #3]
	and	x11, x11, #0xff
	sub	w12, w8, #48
	cmp	w12, #10
	b.hs	.LBB4_350
	ldrb	w8, [x25, #4]
	sub	w13, w8, #48
	cmp	w13, #10
	b.lo	.LBB4_361
	mov	w13, #10
	umaddl	x9, w9, w13, x10
	and	x10, x12, #0xff
	umaddl	x9, w9, w13, x11
	umaddl	x9, w9, w13, x10
	mov	w10, #4
	cmp	w8, #32
	b.ne	.LBB4_351
	b	.LBB4_352
.LBB4_219:
	mov	w10, #1
	cmp	w8, #32
	b.ne	.LBB4_351
	b	.LBB4_352
.LBB4_220:
	mov	w11, #10
	umaddl	x9, w9, w11, x10
	mov	w10, #2
	cmp	w8, #32
	b.ne	.LBB4_351
	b	.LBB4_352
.LBB4_221:
	add	x0, x23, #10
	mov	x1, x25
	bl	ic_program.argument.any_number
	tbz	w0, #0, .LBB4_609
	mov	x24, x1
	add	x0, x23, #10
	mov	x1, x25
	bl	ic_program.text.after_word
	cbz	x1, .LBB4_224
	ldrb	w8, [x0]
	cmp	w8, #32
	b.eq	.LBB4_212
.LBB4_224:
	bl	ic_program.text.without_space
	mov	x25, x0
	mov	x26, x1
	cmp	x1, #5
	b.hs	.LBB4_213
	b	.LBB4_361
.LBB4_225:
	mov	w12, #10
	umaddl	x10, w24, w12, x10
	umaddl	x24, w10, w12, x11
	mov	w10, #3
	add	x0, x9, x10
	ldrb	w9, [x0]
	cmp	w9, #32
	b.eq	.LBB4_227
.LBB4_226:
	cmp	w9, #10
	b.ne	.LBB4_236
.LBB4_227:
	sub	x25, x8, x10
	cmp	w9, #10
	b.ne	.LBB4_239
.LBB4_228:
	sub	x27, x25, #1
	ldr	x8, [x20, #80]
	cmp	x8, x24
	b.ls	.LBB4_629
.LBB4_229:
	ldr	x8, [x20, #72]
	add	x9, x8, x24, lsl #3
	ldr	w8, [x9, #4]
	cmn	w8, #1
	b.eq	.LBB4_629
	ldr	w9, [x9]
	mov	w10, #24
	ldr	x12, [x20, #96]
	umull	x11, w9, w10
	mov	w10, #48
	ldr	x11, [x12, x11]
	umaddl	x8, w8, w10, x11
	ldrb	w11, [x8, #8]
	sub	w12, w11, #1
	cmp	w12, #1
	b.hi	.LBB4_307
	ldr	x12, [x20, #48]
	umaddl	x9, w9, w10, x12
	cmp	w11, #2
	b.ne	.LBB4_424
	ldr	x10, [x8, #24]
	cbz	x10, .LBB4_465
	ldrb	w11, [x9]
	cmp	w11, #2
	b.eq	.LBB4_559
	ldr	x12, [x9, #8]
	cmp	w11, #1
	add	x11, x12, x10
	ldur	x11, [x11, #-8]
	cbz	x11, .LBB4_589
	add	x12, x12, x11
	ldur	x13, [x12, #-8]
	eor	x13, x13, x10
	stur	x13, [x12, #-8]
	b	.LBB4_590
.LBB4_236:
	add	x0, x23, #9
	sub	x1, x22, #9
	bl	ic_program.argument.any_number
	tbz	w0, #0, .LBB4_609
	mov	x24, x1
	add	x0, x23, #9
	sub	x1, x22, #9
	bl	ic_program.text.after_word
	mov	x25, x1
	cbz	x1, .LBB4_239
	ldrb	w9, [x0]
	cmp	w9, #10
	b.eq	.LBB4_228
.LBB4_239:
	mov	x1, x25
	bl	ic_program.text.other_line
	tbz	w0, #0, .LBB4_609
	sub	x27, x25, x1
	ldr	x8, [x20, #80]
	cmp	x8, x24
	b.hi	.LBB4_229
	b	.LBB4_629
.LBB4_241:
	mov	w11, #10
	umaddl	x9, w24, w11, x9
	umaddl	x24, w9, w11, x10
	mov	w9, #3
	add	x0, x8, x9
	ldrb	w8, [x0]
	cmp	w8, #32
	b.eq	.LBB4_243
.LBB4_242:
	cmp	w8, #10
	b.ne	.LBB4_253
.LBB4_243:
	sub	x1, x25, x9
	cmp	w8, #32
	b.ne	.LBB4_256
.LBB4_244:
	add	x25, x0, #1
	sub	x26, x1, #1
	cmp	x26, #5
	b.lo	.LBB4_379
.LBB4_245:
	ldrb	w8, [x25]
	sub	w9, w8, #48
	cmp	w9, #9
	b.hi	.LBB4_379
	ldrb	w8, [x25, #1]
	and	x9, x9, #0xff
	sub	w10, w8, #48
	cmp	w10, #9
	b.hi	.LBB4_251
	ldrb	w8, [x25, #2]
	and	x10, x10, #0xff
	sub	w11, w8, #48
	cmp	w11, #9
	b.hi	.LBB4_252
	ldrb	w8, [x25, #3]
	and	x11, x11, #0xff
	sub	w12, w8, #48
	cmp	w12, #10
	b.hs	.LBB4_367
	ldrb	w8, [x25, #4]
	sub	w13, w8, #48
	cmp	w13, #10
	b.lo	.LBB4_379
	mov	w13, #10
	umaddl	x9, w9, w13, x10
	and	x10, x12, #0xff
	umaddl	x9, w9, w13, x11
	umaddl	x9, w9, w13, x10
	mov	w10, #4
	cmp	w8, #32
	b.ne	.LBB4_368
	b	.LBB4_369
.LBB4_251:
	mov	w10, #1
	cmp	w8, #32
	b.ne	.LBB4_368
	b	.LBB4_369
.LBB4_252:
	mov	w11, #10
	umaddl	x9, w9, w11, x10
	mov	w10, #2
	cmp	w8, #32
	b.ne	.LBB4_368
	b	.LBB4_369
.LBB4_253:
	add	x0, x23, #14
	mov	x1, x25
	bl	ic_program.argument.any_number
	tbz	w0, #0, .LBB4_609
	mov	x24, x1
	add	x0, x23, #14
	mov	x1, x25
	bl	ic_program.text.after_word
	cbz	x1, .LBB4_256
	ldrb	w8, [x0]
	cmp	w8, #32
	b.eq	.LBB4_244
.LBB4_256:
	bl	ic_program.text.without_space
	mov	x25, x0
	mov	x26, x1
	cmp	x1, #5
	b.hs	.LBB4_245
	b	.LBB4_379
.LBB4_257:
	mov	w11, #10
	umaddl	x9, w24, w11, x9
	umaddl	x24, w9, w11, x10
	mov	w9, #3
	add	x0, x8, x9
	ldrb	w8, [x0]
	cmp	w8, #32
	b.eq	.LBB4_259
.LBB4_258:
	cmp	w8, #10
	b.ne	.LBB4_269
.LBB4_259:
	sub	x1, x25, x9
	cmp	w8, #32
	b.ne	.LBB4_272
.LBB4_260:
	add	x25, x0, #1
	sub	x26, x1, #1
	cmp	x26, #5
	b.lo	.LBB4_398
.LBB4_261:
	ldrb	w8, [x25]
	sub	w9, w8, #48
	cmp	w9, #9
	b.hi	.LBB4_398
	ldrb	w8, [x25, #1]
	and	x9, x9, #0xff
	sub	w10, w8, #48
	cmp	w10, #9
	b.hi	.LBB4_267
	ldrb	w8, [x25, #2]
	and	x10, x10, #0xff
	sub	w11, w8, #48
	cmp	w11, #9
	b.hi	.LBB4_268
	ldrb	w8, [x25, #3]
	and	x11, x11, #0xff
	sub	w12, w8, #48
	cmp	w12, #10
	b.hs	.LBB4_385
	ldrb	w8, [x25, #4]
	sub	w13, w8, #48
	cmp	w13, #10
	b.lo	.LBB4_398
	mov	w13, #10
	umaddl	x9, w9, w13, x10
	and	x10, x12, #0xff
	umaddl	x9, w9, w13, x11
	umaddl	x9, w9, w13, x10
	mov	w10, #4
	cmp	w8, #32
	b.ne	.LBB4_386
	b	.LBB4_387
.LBB4_267:
	mov	w10, #1
	cmp	w8, #32
	b.ne	.LBB4_386
	b	.LBB4_387
.LBB4_268:
	mov	w11, #10
	umaddl	x9, w9, w11, x10
	mov	w10, #2
	cmp	w8, #32
	b.ne	.LBB4_386
	b	.LBB4_387
.LBB4_269:
	add	x0, x23, #13
	mov	x1, x25
	bl	ic_program.argument.any_number
	tbz	w0, #0, .LBB4_609
	mov	x24, x1
	add	x0, x23, #13
	mov	x1, x25
	bl	ic_program.text.after_word
	cbz	x1, .LBB4_272
	ldrb	w8, [x0]
	cmp	w8, #32
	b.eq	.LBB4_260
.LBB4_272:
	bl	ic_program.text.without_space
	mov	x25, x0
	mov	x26, x1
	cmp	x1, #5
	b.hs	.LBB4_261
	b	.LBB4_398
.LBB4_273:
	mov	w11, #10
	umaddl	x9, w24, w11, x9
	umaddl	x24, w9, w11, x10
	mov	w9, #3
	add	x0, x8, x9
	ldrb	w8, [x0]
	cmp	w8, #32
	b.eq	.LBB4_275
.LBB4_274:
	cmp	w8, #10
	b.ne	.LBB4_285
.LBB4_275:
	sub	x1, x25, x9
	cmp	w8, #32
	b.ne	.LBB4_288
.LBB4_276:
	add	x25, x0, #1
	sub	x26, x1, #1
	cmp	x26, #5
	b.lo	.LBB4_416
.LBB4_277:
	ldrb	w8, [x25]
	sub	w9, w8, #48
	cmp	w9, #9
	b.hi	.LBB4_416
	ldrb	w8, [x25, #1]
	and	x9, x9, #0xff
	sub	w10, w8, #48
	cmp	w10, #9
	b.hi	.LBB4_283
	ldrb	w8, [x25, #2]
	and	x10, x10, #0xff
	sub	w11, w8, #48
	cmp	w11, #9
	b.hi	.LBB4_284
	ldrb	w8, [x25, #3]
	and	x11, x11, #0xff
	sub	w12, w8, #48
	cmp	w12, #10
	b.hs	.LBB4_404
	ldrb	w8, [x25, #4]
	sub	w13, w8, #48
	cmp	w13, #10
	b.lo	.LBB4_416
	mov	w13, #10
	umaddl	x9, w9, w13, x10
	and	x10, x12, #0xff
	umaddl	x9, w9, w13, x11
	umaddl	x9, w9, w13, x10
	mov	w10, #4
	cmp	w8, #32
	b.ne	.LBB4_405
	b	.LBB4_406
.LBB4_283:
	mov	w10, #1
	cmp	w8, #32
	b.ne	.LBB4_405
	b	.LBB4_406
.LBB4_284:
	mov	w11, #10
	umaddl	x9, w9, w11, x10
	mov	w10, #2
	cmp	w8, #32
	b.ne	.LBB4_405
	b	.LBB4_406
.LBB4_285:
	add	x0, x23, #11
	mov	x1, x25
	bl	ic_program.argument.any_number
	tbz	w0, #0, .LBB4_609
	mov	x24, x1
	add	x0, x23, #11
	mov	x1, x25
	bl	ic_program.text.after_word
	cbz	x1, .LBB4_288
	ldrb	w8, [x0]
	cmp	w8, #32
	b.eq	.LBB4_276
.LBB4_288:
	bl	ic_program.text.without_space
	mov	x25, x0
	mov	x26, x1
	cmp	x1, #5
	b.hs	.LBB4_277
	b	.LBB4_416
.LBB4_289:
	mov	w11, #10
	umaddl	x9, w24, w11, x9
	umaddl	x24, w9, w11, x10
	mov	w9, #3
	add	x0, x8, x9
	ldrb	w8, [x0]
	cmp	w8, #32
	b.eq	.LBB4_291
.LBB4_290:
	cmp	w8, #10
	b.ne	.LBB4_296
.LBB4_291:
	sub	x25, x25, x9
	cmp	w8, #10
	b.ne	.LBB4_299
.LBB4_292:
	sub	x27, x25, #1
	ldr	x8, [x20, #80]
	cmp	x8, x24
	b.ls	.LBB4_629
.LBB4_293:
	ldr	x8, [x20, #72]
	add	x8, x8, x24, lsl #3
	ldr	w9, [x8, #4]
	cmn	w9, #1
	b.eq	.LBB4_629
	ldr	w8, [x8]
	mov	w10, #24
	ldr	x11, [x20, #96]
	mov	w12, #48
	umull	x10, w8, w10
	ldr	x10, [x11, x10]
	umaddl	x0, w9, w12, x10
	ldrb	w9, [x0, #8]!
	cbz	w9, .LBB4_307
	mov	w9, #48
	ldr	x10, [x20, #48]
	umaddl	x1, w8, w9, x10
	bl	ic_any_collection.any_collection.AnyCollection.move_prev.87ed5b954c3afc77
	b	.LBB4_319
.LBB4_296:
	add	x0, x23, #10
	mov	x1, x25
	bl	ic_program.argument.any_number
	tbz	w0, #0, .LBB4_609
	mov	x24, x1
	add	x0, x23, #10
	mov	x1, x25
	bl	ic_program.text.after_word
	mov	x25, x1
	cbz	x1, .LBB4_299
	ldrb	w8, [x0]
	cmp	w8, #10
	b.eq	.LBB4_292
.LBB4_299:
	mov	x1, x25
	bl	ic_program.text.other_line
	tbz	w0, #0, .LBB4_609
	sub	x27, x25, x1
	ldr	x8, [x20, #80]
	cmp	x8, x24
	b.hi	.LBB4_293
	b	.LBB4_629
.LBB4_301:
	mov	w11, #10
	umaddl	x9, w24, w11, x9
	umaddl	x24, w9, w11, x10
	mov	w9, #3
	add	x0, x8, x9
	ldrb	w8, [x0]
	cmp	w8, #32
	b.eq	.LBB4_303
.LBB4_302:
	cmp	w8, #10
	b.ne	.LBB4_308
.LBB4_303:
	sub	x25, x25, x9
	cmp	w8, #10
	b.ne	.LBB4_311
.LBB4_304:
	sub	x27, x25, #1
	ldr	x8, [x20, #80]
	cmp	x8, x24
	b.ls	.LBB4_629
.LBB4_305:
	ldr	x8, [x20, #72]
	add	x8, x8, x24, lsl #3
	ldr	w9, [x8, #4]
	cmn	w9, #1
	b.eq	.LBB4_629
	ldr	w8, [x8]
	mov	w10, #24
	ldr	x11, [x20, #96]
	mov	w12, #48
	umull	x10, w8, w10
	ldr	x10, [x11, x10]
	umaddl	x19, w9, w12, x10
	ldrb	w9, [x19, #8]
	cbz	w9, .LBB4_349
.LBB4_307:
	mov	w8, #3
	mov	w9, #2
	subs	x10, x22, x27
	ldur	x25, [x20, #128]
	csel	x24, xzr, x10, lo
	cbnz	w9, .LBB4_631
	b	.LBB4_480
.LBB4_308:
	add	x0, x23, #12
	mov	x1, x25
	bl	ic_program.argument.any_number
	tbz	w0, #0, .LBB4_609
	mov	x24, x1
	add	x0, x23, #12
	mov	x1, x25
	bl	ic_program.text.after_word
	mov	x25, x1
	cbz	x1, .LBB4_311
	ldrb	w8, [x0]
	cmp	w8, #10
	b.eq	.LBB4_304
.LBB4_311:
	mov	x1, x25
	bl	ic_program.text.other_line
	tbz	w0, #0, .LBB4_609
	sub	x27, x25, x1
	ldr	x8, [x20, #80]
	cmp	x8, x24
	b.hi	.LBB4_305
	b	.LBB4_629
.LBB4_313:
	mov	w11, #10
	umaddl	x9, w24, w11, x9
	umaddl	x24, w9, w11, x10
	mov	w9, #3
	add	x0, x8, x9
	ldrb	w8, [x0]
	cmp	w8, #32
	b.eq	.LBB4_315
.LBB4_314:
	cmp	w8, #10
	b.ne	.LBB4_325
.LBB4_315:
	sub	x25, x25, x9
	cmp	w8, #10
	b.ne	.LBB4_328
.LBB4_316:
	sub	x27, x25, #1
	ldr	x8, [x20, #80]
	cmp	x8, x24
	b.ls	.LBB4_629
.LBB4_317:
	ldr	x8, [x20, #72]
	add	x9, x8, x24, lsl #3
	ldr	w8, [x9, #4]
	cmn	w8, #1
	b.eq	.LBB4_629
	ldr	w9, [x9]
	mov	w10, #24
	ldr	x12, [x20, #96]
	mov	w11, #48
	ldr	x13, [x20, #48]
	umull	x10, w9, w10
	umaddl	x1, w9, w11, x13
	ldr	x9, [x12, x10]
	umaddl	x8, w8, w11, x9
	add	x0, x8, #8
	bl	ic_any_collection.any_collection.AnyCollection.move_next.87ed5b954c3afc77
.LBB4_319:
	subs	x8, x22, x27
	and	w9, w0, #0xff
	ldr	x25, [x20, #128]
	csel	x24, xzr, x8, lo
	cmp	w9, #1
	cset	w9, ne
	b.ne	.LBB4_575
.LBB4_320:
	lsr	x8, x1, #3
	cmp	x8, #1000
	sub	x3, x8, #1
	b.hi	.LBB4_522
.LBB4_321:
	and	w8, w3, #0xffff
	mov	w9, #52429
	mov	w26, #10
	mul	w9, w8, w9
	cmp	x1, #88
	lsr	w8, w9, #19
	msub	w10, w8, w26, w3
	orr	w27, w10, #0x30
	b.hs	.LBB4_323
	mov	w28, wzr
	mov	w21, #9
	mov	w19, w27
	mov	w27, wzr
	b	.LBB4_331
.LBB4_323:
	ubfx	w9, w9, #19, #8
	mov	w10, #205
	cmp	x1, #808
	mul	w9, w9, w10
	lsr	w9, w9, #11
	msub	w8, w9, w26, w8
	orr	w26, w8, #0x30
	b.hs	.LBB4_330
	mov	w28, wzr
	mov	w21, #10
	mov	w19, w26
	mov	w26, w27
	mov	w27, #10
	b	.LBB4_331
.LBB4_325:
	add	x0, x23, #10
	mov	x1, x25
	bl	ic_program.argument.any_number
	tbz	w0, #0, .LBB4_609
	mov	x24, x1
	add	x0, x23, #10
	mov	x1, x25
	bl	ic_program.text.after_word
	mov	x25, x1
	cbz	x1, .LBB4_328
	ldrb	w8, [x0]
	cmp	w8, #10
	b.eq	.LBB4_316
.LBB4_328:
	mov	x1, x25
	bl	ic_program.text.other_line
	tbz	w0, #0, .LBB4_609
	sub	x27, x25, x1
	ldr	x8, [x20, #80]
	cmp	x8, x24
	b.hi	.LBB4_317
	b	.LBB4_629
.LBB4_330:
	ubfx	w8, w3, #2, #14
	mov	w9, #5243
	mov	w28, #10
	mov	w21, #11
	mul	w8, w8, w9
	lsr	w8, w8, #17
	orr	w19, w8, #0x30
.LBB4_331:
	ldr	x8, [x20, #136]
	sub	x9, x8, x25
	cmp	x9, #10
	mov	x9, x25
	b.ls	.LBB4_447
.LBB4_332:
	ldr	x10, [x20, #120]
	adrp	x11, .LCPI4_0
	mov	w12, #29795
	ldr	d0, [x11, :lo12:.LCPI4_0]
	add	x11, x10, x9
	strh	w12, [x11, #4]
	mov	w12, #32
	str	s0, [x11]
	strb	w12, [x11, #6]
	strb	w19, [x11, #7]
	strb	w26, [x11, #8]
	strb	w27, [x11, #9]
	strb	w28, [x11, #10]
	add	x11, x9, #11
	add	x9, x21, x25
	cmp	x11, x9
	str	x8, [x20, #136]
	mov	w8, wzr
	stp	x10, x11, [x20, #120]
	b.ls	.LBB4_523
	stur	x9, [x20, #128]
	cbz	w8, .LBB4_636
	b	.LBB4_661
.LBB4_334:
	mov	w11, #10
	umaddl	x9, w24, w11, x9
	umaddl	x24, w9, w11, x10
	mov	w9, #3
	add	x0, x8, x9
	ldrb	w8, [x0]
	cmp	w8, #32
	b.eq	.LBB4_336
.LBB4_335:
	cmp	w8, #10
	b.ne	.LBB4_342
.LBB4_336:
	sub	x25, x25, x9
	cmp	w8, #10
	b.ne	.LBB4_345
.LBB4_337:
	sub	x27, x25, #1
	ldr	x8, [x20, #80]
	cmp	x8, x24
	b.ls	.LBB4_629
.LBB4_338:
	ldr	x8, [x20, #72]
	add	x9, x8, x24, lsl #3
	ldr	w8, [x9, #4]
	cmn	w8, #1
	b.eq	.LBB4_629
	ldr	w9, [x9]
	mov	w10, #24
	ldr	x11, [x20, #96]
	mov	w12, #48
	umull	x10, w9, w10
	ldr	x10, [x11, x10]
	umaddl	x24, w8, w12, x10
	ldr	x10, [x20, #48]
	umaddl	x1, w9, w12, x10
	ldrb	w8, [x24, #8]
	cmp	w8, #1
	b.gt	.LBB4_347
	cbnz	w8, .LBB4_429
	add	x0, x24, #16
	sub	x2, x29, #16
	stur	xzr, [x29, #-16]
	bl	ic_chain.edits.LinkListForwardOnly.remove_next_at.927dec3b43ebc9b0
	ldur	x8, [x29, #-16]
	str	x8, [x24, #24]
	b	.LBB4_573
.LBB4_342:
	add	x0, x23, #10
	mov	x1, x25
	bl	ic_program.argument.any_number
	tbz	w0, #0, .LBB4_609
	mov	x24, x1
	add	x0, x23, #10
	mov	x1, x25
	bl	ic_program.text.after_word
	mov	x25, x1
	cbz	x1, .LBB4_345
	ldrb	w8, [x0]
	cmp	w8, #10
	b.eq	.LBB4_337
.LBB4_345:
	mov	x1, x25
	bl	ic_program.text.other_line
	tbz	w0, #0, .LBB4_609
	sub	x27, x25, x1
	ldr	x8, [x20, #80]
	cmp	x8, x24
	b.hi	.LBB4_338
	b	.LBB4_629
.LBB4_347:
	cmp	w8, #2
	b.ne	.LBB4_630
	add	x0, x24, #16
	bl	ic_chain.list.LinkList.pop_front.06e6478965f9faac
	tst	w0, #0x1
	stp	xzr, xzr, [x24, #32]
	csel	x1, x1, xzr, ne
	b	.LBB4_573
.LBB4_349:
	mov	w9, #48
	ldr	x10, [x20, #48]
	add	x0, x19, #16
	umaddl	x1, w8, w9, x10
	ldr	x8, [x19, #24]
	sub	x2, x29, #16
	stur	x8, [x29, #-16]
	bl	ic_chain.edits.LinkListForwardOnly.remove_next_at.927dec3b43ebc9b0
	ldur	x8, [x29, #-16]
	and	w9, w0, #0xff
	str	x8, [x19, #24]
	subs	x8, x22, x27
	ldr	x25, [x20, #128]
	csel	x24, xzr, x8, lo
	cmp	w9, #1
	cset	w9, ne
	b.ne	.LBB4_575
	b	.LBB4_320
.LBB4_350:
	mov	w12, #10
	umaddl	x9, w9, w12, x10
	mov	w10, #3
	umaddl	x9, w9, w12, x11
	cmp	w8, #32
	b.eq	.LBB4_352
.LBB4_351:
	cmp	w8, #10
	b.ne	.LBB4_361
.LBB4_352:
	lsl	x9, x9, #3
	add	x0, x25, x10
	sub	x26, x26, x10
	add	x25, x9, #8
	cmp	w8, #10
	b.ne	.LBB4_365
.LBB4_353:
	sub	x27, x26, #1
	ldr	x8, [x20, #80]
	cmp	x8, x24
	b.ls	.LBB4_629
.LBB4_354:
	ldr	x8, [x20, #72]
	add	x9, x8, x24, lsl #3
	ldr	w8, [x9, #4]
	cmn	w8, #1
	b.eq	.LBB4_629
	lsr	x10, x25, #3
	ldr	x11, [x20, #8]
	sub	x10, x10, #1
	cmp	x10, x11
	b.hs	.LBB4_479
	ldr	x11, [x20]
	lsl	x10, x10, #4
	ldrb	w10, [x11, x10]
	cmp	w10, #1
	b.ne	.LBB4_479
	ldr	w9, [x9]
	mov	w10, #24
	ldr	x12, [x20, #96]
	umull	x11, w9, w10
	mov	w10, #48
	ldr	x11, [x12, x11]
	umaddl	x19, w8, w10, x11
	ldrb	w8, [x19, #8]
	sub	w11, w8, #1
	cmp	w11, #1
	b.hi	.LBB4_307
	ldr	x11, [x20, #48]
	umaddl	x1, w9, w10, x11
	cmp	w8, #2
	b.ne	.LBB4_541
	ldr	x3, [x19, #24]
	add	x0, x19, #16
	mov	x4, x25
	mov	w5, wzr
	mov	x6, xzr
	cmp	x3, #0
	cset	w2, ne
	bl	ic_chain.list.LinkList.insert_between.06e6478965f9faac
	cbz	w0, .LBB4_623
	mov	w9, wzr
	mov	w8, wzr
	stp	xzr, xzr, [x19, #32]
	subs	x10, x22, x27
	ldur	x25, [x20, #128]
	csel	x24, xzr, x10, lo
	b	.LBB4_480
.LBB4_361:
	mov	x0, x25
	mov	x1, x26
	bl	ic_program.argument.any_number
	tbz	w0, #0, .LBB4_609
	mov	x27, x1
	mov	x0, x25
	mov	x1, x26
	bl	ic_program.text.after_word
	lsr	x8, x27, #32
	cbnz	x8, .LBB4_609
	lsl	x8, x27, #3
	mov	x26, x1
	add	x25, x8, #8
	cbz	x1, .LBB4_365
	ldrb	w8, [x0]
	cmp	w8, #10
	b.eq	.LBB4_353
.LBB4_365:
	mov	x1, x26
	bl	ic_program.text.other_line
	tbz	w0, #0, .LBB4_609
	sub	x27, x26, x1
	ldr	x8, [x20, #80]
	cmp	x8, x24
	b.hi	.LBB4_354
	b	.LBB4_629
.LBB4_367:
	mov	w12, #10
	umaddl	x9, w9, w12, x10
	mov	w10, #3
	umaddl	x9, w9, w12, x11
	cmp	w8, #32
	b.eq	.LBB4_369
.LBB4_368:
	cmp	w8, #10
	b.ne	.LBB4_379
.LBB4_369:
	lsl	x9, x9, #3
	add	x0, x25, x10
	sub	x26, x26, x10
	add	x25, x9, #8
	cmp	w8, #10
	b.ne	.LBB4_383
.LBB4_370:
	sub	x27, x26, #1
	ldr	x8, [x20, #80]
	cmp	x8, x24
	b.ls	.LBB4_629
.LBB4_371:
	ldr	x8, [x20, #72]
	add	x9, x8, x24, lsl #3
	ldr	w8, [x9, #4]
	cmn	w8, #1
	b.eq	.LBB4_629
	lsr	x10, x25, #3
	ldr	x11, [x20, #8]
	sub	x10, x10, #1
	cmp	x10, x11
	b.hs	.LBB4_479
	ldr	x11, [x20]
	lsl	x10, x10, #4
	ldrb	w10, [x11, x10]
	cmp	w10, #1
	b.ne	.LBB4_479
	ldr	w9, [x9]
	mov	w10, #24
	ldr	x11, [x20, #96]
	mov	w12, #48
	umull	x10, w9, w10
	ldr	x10, [x11, x10]
	umaddl	x21, w8, w12, x10
	ldr	x10, [x20, #48]
	umaddl	x1, w9, w12, x10
	ldrb	w8, [x21, #8]
	cmp	w8, #1
	b.gt	.LBB4_438
	cbz	w8, .LBB4_307
	ldrb	w8, [x1], #8
	cmp	w8, #2
	b.ne	.LBB4_667
	ldr	x24, [x21, #32]
	add	x0, x21, #16
	mov	x3, x25
	mov	x2, x24
	bl	ic_chain.edits.LinkListBidirectional.insert_before_at.10cc405e52586c83
	cbz	w0, .LBB4_623
	mov	w9, wzr
	mov	w8, wzr
	str	x24, [x21, #32]
	subs	x10, x22, x27
	ldur	x25, [x20, #128]
	csel	x24, xzr, x10, lo
	b	.LBB4_480
.LBB4_379:
	mov	x0, x25
	mov	x1, x26
	bl	ic_program.argument.any_number
	tbz	w0, #0, .LBB4_609
	mov	x27, x1
	mov	x0, x25
	mov	x1, x26
	bl	ic_program.text.after_word
	lsr	x8, x27, #32
	cbnz	x8, .LBB4_609
	lsl	x8, x27, #3
	mov	x26, x1
	add	x25, x8, #8
	cbz	x1, .LBB4_383
	ldrb	w8, [x0]
	cmp	w8, #10
	b.eq	.LBB4_370
.LBB4_383:
	mov	x1, x26
	bl	ic_program.text.other_line
	tbz	w0, #0, .LBB4_609
	sub	x27, x26, x1
	ldr	x8, [x20, #80]
	cmp	x8, x24
	b.hi	.LBB4_371
	b	.LBB4_629
.LBB4_385:
	mov	w12, #10
	umaddl	x9, w9, w12, x10
	mov	w10, #3
	umaddl	x9, w9, w12, x11
	cmp	w8, #32
	b.eq	.LBB4_387
.LBB4_386:
	cmp	w8, #10
	b.ne	.LBB4_398
.LBB4_387:
	lsl	x9, x9, #3
	add	x0, x25, x10
	sub	x26, x26, x10
	add	x25, x9, #8
	cmp	w8, #10
	b.ne	.LBB4_402
.LBB4_388:
	sub	x27, x26, #1
	ldr	x8, [x20, #80]
	cmp	x8, x24
	b.ls	.LBB4_629
.LBB4_389:
	ldr	x8, [x20, #72]
	add	x10, x8, x24, lsl #3
	ldr	w8, [x10, #4]
	cmn	w8, #1
	b.eq	.LBB4_629
	lsr	x9, x25, #3
	ldr	x12, [x20, #8]
	sub	x11, x9, #1
	cmp	x11, x12
	b.hs	.LBB4_479
	ldr	x12, [x20]
	lsl	x11, x11, #4
	ldrb	w11, [x12, x11]
	cmp	w11, #1
	b.ne	.LBB4_479
	ldr	w10, [x10]
	mov	w11, #24
	ldr	x12, [x20, #96]
	mov	w13, #48
	umull	x11, w10, w11
	ldr	x11, [x12, x11]
	umaddl	x26, w8, w13, x11
	ldr	x11, [x20, #48]
	umaddl	x1, w10, w13, x11
	ldrb	w8, [x26, #8]
	cmp	w8, #1
	b.gt	.LBB4_441
	cbnz	w8, .LBB4_548
	ldr	x10, [x26, #24]
	ldrb	w12, [x1]
	cbz	x10, .LBB4_581
	cmp	w12, #2
	add	x8, x1, #8
	b.eq	.LBB4_607
	cmp	w12, #1
	ldr	x9, [x8]
	add	x11, x9, x10
	ldur	x11, [x11, #-8]
	b	.LBB4_584
.LBB4_398:
	mov	x0, x25
	mov	x1, x26
	bl	ic_program.argument.any_number
	tbz	w0, #0, .LBB4_609
	mov	x27, x1
	mov	x0, x25
	mov	x1, x26
	bl	ic_program.text.after_word
	lsr	x8, x27, #32
	cbnz	x8, .LBB4_609
	lsl	x8, x27, #3
	mov	x26, x1
	add	x25, x8, #8
	cbz	x1, .LBB4_402
	ldrb	w8, [x0]
	cmp	w8, #10
	b.eq	.LBB4_388
.LBB4_402:
	mov	x1, x26
	bl	ic_program.text.other_line
	tbz	w0, #0, .LBB4_609
	sub	x27, x26, x1
	ldr	x8, [x20, #80]
	cmp	x8, x24
	b.hi	.LBB4_389
	b	.LBB4_629
.LBB4_404:
	mov	w12, #10
	umaddl	x9, w9, w12, x10
	mov	w10, #3
	umaddl	x9, w9, w12, x11
	cmp	w8, #32
	b.eq	.LBB4_406
.LBB4_405:
	cmp	w8, #10
	b.ne	.LBB4_416
.LBB4_406:
	lsl	x9, x9, #3
	add	x0, x25, x10
	sub	x26, x26, x10
	add	x25, x9, #8
	cmp	w8, #10
	b.ne	.LBB4_420
.LBB4_407:
	sub	x27, x26, #1
	ldr	x8, [x20, #80]
	cmp	x8, x24
	b.ls	.LBB4_629
.LBB4_408:
	ldr	x8, [x20, #72]
	add	x10, x8, x24, lsl #3
	ldr	w8, [x10, #4]
	cmn	w8, #1
	b.eq	.LBB4_629
	lsr	x9, x25, #3
	ldr	x12, [x20, #8]
	sub	x11, x9, #1
	cmp	x11, x12
	b.hs	.LBB4_479
	ldr	x12, [x20]
	lsl	x11, x11, #4
	ldrb	w11, [x12, x11]
	cmp	w11, #1
	b.ne	.LBB4_479
	ldr	w10, [x10]
	mov	w11, #24
	ldr	x12, [x20, #96]
	mov	w13, #48
	umull	x11, w10, w11
	ldr	x11, [x12, x11]
	umaddl	x24, w8, w13, x11
	ldr	x11, [x20, #48]
	umaddl	x1, w10, w13, x11
	ldrb	w8, [x24, #8]
	cmp	w8, #1
	b.gt	.LBB4_444
	cbnz	w8, .LBB4_555
	ldrb	w10, [x1]
	ldr	x8, [x24, #16]
	cmp	w10, #2
	b.eq	.LBB4_598
	cmp	w10, #1
	ldr	x9, [x1, #8]
	add	x9, x9, x25
	ldur	x10, [x9, #-8]
	cmp	x10, #1
	b.ne	.LBB4_623
	stur	x8, [x9, #-8]
	b	.LBB4_622
.LBB4_416:
	mov	x0, x25
	mov	x1, x26
	bl	ic_program.argument.any_number
	tbz	w0, #0, .LBB4_609
	mov	x27, x1
	mov	x0, x25
	mov	x1, x26
	bl	ic_program.text.after_word
	lsr	x8, x27, #32
	cbnz	x8, .LBB4_609
	lsl	x8, x27, #3
	mov	x26, x1
	add	x25, x8, #8
	cbz	x1, .LBB4_420
	ldrb	w8, [x0]
	cmp	w8, #10
	b.eq	.LBB4_407
.LBB4_420:
	mov	x1, x26
	bl	ic_program.text.other_line
	tbz	w0, #0, .LBB4_609
	sub	x27, x26, x1
	ldr	x8, [x20, #80]
	cmp	x8, x24
	b.hi	.LBB4_408
	b	.LBB4_629
.LBB4_422:
	mov	w8, wzr
.LBB4_423:
	str	xzr, [x9, #24]
	lsl	w9, w8, #1
	subs	x10, x22, x27
	ldur	x25, [x20, #128]
	csel	x24, xzr, x10, lo
	cbnz	w9, .LBB4_631
	b	.LBB4_480
.LBB4_424:
	ldrb	w10, [x9]
	cmp	w10, #2
	b.ne	.LBB4_667
	ldr	x10, [x8, #24]
	cbz	x10, .LBB4_466
	lsr	x11, x10, #2
	ldr	x14, [x9, #16]
	ldrb	w15, [x9, #8]
	add	x12, x11, x10, lsr #3
	lsl	x11, x10, #1
	cmp	w15, #0
	lsl	x12, x12, #3
	add	x13, x14, x11
	sub	x13, x13, #8
	add	x16, x14, x12
	sub	x16, x16, #24
	csel	x13, x13, x16, eq
	ldr	x13, [x13]
	cbz	x13, .LBB4_539
	cbz	w15, .LBB4_562
	lsr	x15, x13, #3
	mov	w16, #24
	madd	x14, x15, x16, x14
	b	.LBB4_563
.LBB4_429:
	ldrb	w8, [x1]
	cmp	w8, #2
	b.ne	.LBB4_667
	ldr	x8, [x24, #16]
	cbz	x8, .LBB4_467
	lsr	x9, x8, #2
	ldrb	w11, [x1, #8]
	ldr	x12, [x1, #16]
	add	x10, x9, x8, lsr #3
	lsl	x9, x8, #1
	cmp	w11, #0
	lsl	x10, x10, #3
	csel	x11, x9, x10, eq
	add	x11, x12, x11
	ldur	x11, [x11, #-16]
	str	x11, [x24, #16]
	cbz	x11, .LBB4_540
	ldrb	w13, [x1, #8]
	ldr	x12, [x1, #16]
	cbz	w13, .LBB4_568
	lsr	x11, x11, #3
	mov	w13, #24
	madd	x11, x11, x13, x12
	stur	xzr, [x11, #-24]
	b	.LBB4_569
.LBB4_434:
	mov	w10, #10
	umaddl	x24, w24, w10, x9
	mov	w9, #2
	add	x0, x8, x9
	ldrb	w8, [x0]
	cmp	w8, #32
	b.ne	.LBB4_450
	b	.LBB4_451
.LBB4_435:
	and	w8, wzr, #0xff
	b	.LBB4_574
.LBB4_436:
	str	x12, [x9, #16]
	cbnz	x12, .LBB4_532
.LBB4_437:
	str	x13, [x9, #24]
	b	.LBB4_535
.LBB4_438:
	cmp	w8, #2
	b.ne	.LBB4_544
	ldp	x24, x26, [x21, #32]
	add	x0, x21, #16
	mov	x4, x25
	mov	x2, x24
	mov	x3, x26
	bl	ic_chain.edits.LinkListBidirectional.insert_before_at.d62ae654698fb858
	cbz	w0, .LBB4_623
	mov	w9, wzr
	mov	w8, wzr
	stp	x24, x26, [x21, #32]
	subs	x10, x22, x27
	ldur	x25, [x20, #128]
	csel	x24, xzr, x10, lo
	b	.LBB4_480
.LBB4_441:
	cmp	w8, #2
	b.ne	.LBB4_551
	ldr	q0, [x26, #32]
	add	x0, x26, #16
	sub	x2, x29, #16
	mov	x3, x25
	stur	q0, [x29, #-16]
	bl	ic_chain.edits.LinkListCursorOps.insert_after_at.0649bf66f9d3822c
	tbz	w0, #0, .LBB4_623
	ldur	q0, [x29, #-16]
	mov	w9, wzr
	mov	w8, wzr
	str	q0, [x26, #32]
	subs	x10, x22, x27
	ldur	x25, [x20, #128]
	csel	x24, xzr, x10, lo
	b	.LBB4_480
.LBB4_444:
	cmp	w8, #2
	b.ne	.LBB4_630
	add	x0, x24, #16
	sub	x2, x29, #16
	mov	x3, x25
	stp	xzr, xzr, [x29, #-16]
	bl	ic_chain.edits.LinkListCursorOps.insert_after_at.0649bf66f9d3822c
	tbz	w0, #0, .LBB4_623
	ldur	q0, [x29, #-16]
	mov	w9, wzr
	mov	w8, wzr
	str	q0, [x24, #32]
	subs	x10, x22, x27
	ldur	x25, [x20, #128]
	csel	x24, xzr, x10, lo
	b	.LBB4_480
.LBB4_447:
	add	x0, x20, #120
	mov	w1, #11
	bl	std_alloc.vec.Vec.grow_amortized.3f7cc1ad5d64d7d7
	cbz	w0, .LBB4_558
	ldp	x9, x8, [x20, #128]
	b	.LBB4_332
.LBB4_449:
	mov	w11, #10
	umaddl	x9, w24, w11, x9
	umaddl	x24, w9, w11, x10
	mov	w9, #3
	add	x0, x8, x9
	ldrb	w8, [x0]
	cmp	w8, #32
	b.eq	.LBB4_451
.LBB4_450:
	cmp	w8, #10
	b.ne	.LBB4_461
.LBB4_451:
	sub	x1, x25, x9
	cmp	w8, #32
	b.ne	.LBB4_464
.LBB4_452:
	add	x25, x0, #1
	sub	x26, x1, #1
	cmp	x26, #5
	b.lo	.LBB4_484
.LBB4_453:
	ldrb	w8, [x25]
	sub	w9, w8, #48
	cmp	w9, #9
	b.hi	.LBB4_484
	ldrb	w8, [x25, #1]
	and	x9, x9, #0xff
	sub	w10, w8, #48
	cmp	w10, #9
	b.hi	.LBB4_459
	ldrb	w8, [x25, #2]
	and	x10, x10, #0xff
	sub	w11, w8, #48
	cmp	w11, #9
	b.hi	.LBB4_460
	ldrb	w8, [x25, #3]
	and	x11, x11, #0xff
	sub	w12, w8, #48
	cmp	w12, #10
	b.hs	.LBB4_468
	ldrb	w8, [x25, #4]
	sub	w13, w8, #48
	cmp	w13, #10
	b.lo	.LBB4_484
	mov	w13, #10
	umaddl	x9, w9, w13, x10
	and	x10, x12, #0xff
	umaddl	x9, w9, w13, x11
	umaddl	x9, w9, w13, x10
	mov	w10, #4
	cmp	w8, #32
	b.ne	.LBB4_469
	b	.LBB4_470
.LBB4_459:
	mov	w10, #1
	cmp	w8, #32
	b.ne	.LBB4_469
	b	.LBB4_470
.LBB4_460:
	mov	w11, #10
	umaddl	x9, w9, w11, x10
	mov	w10, #2
	cmp	w8, #32
	b.ne	.LBB4_469
	b	.LBB4_470
.LBB4_461:
	add	x0, x23, #13
	mov	x1, x25
	bl	ic_program.argument.any_number
	tbz	w0, #0, .LBB4_485
	mov	x24, x1
	add	x0, x23, #13
	mov	x1, x25
	bl	ic_program.text.after_word
	cbz	x1, .LBB4_464
	ldrb	w8, [x0]
	cmp	w8, #32
	b.eq	.LBB4_452
.LBB4_464:
	bl	ic_program.text.without_space
	mov	x25, x0
	mov	x26, x1
	cmp	x1, #5
	b.hs	.LBB4_453
	b	.LBB4_484
.LBB4_465:
	mov	w11, wzr
	b	.LBB4_595
.LBB4_466:
	mov	w11, wzr
	b	.LBB4_567
.LBB4_467:
	mov	w0, wzr
	b	.LBB4_572
.LBB4_468:
	mov	w12, #10
	umaddl	x9, w9, w12, x10
	mov	w10, #3
	umaddl	x9, w9, w12, x11
	cmp	w8, #32
	b.eq	.LBB4_470
.LBB4_469:
	cmp	w8, #10
	b.ne	.LBB4_484
.LBB4_470:
	lsl	x9, x9, #3
	add	x0, x25, x10
	sub	x26, x26, x10
	add	x25, x9, #8
	cmp	w8, #10
	b.ne	.LBB4_627
.LBB4_471:
	sub	x27, x26, #1
	ldr	x8, [x20, #80]
	cmp	x8, x24
	b.ls	.LBB4_629
.LBB4_472:
	ldr	x8, [x20, #72]
	add	x10, x8, x24, lsl #3
	ldr	w8, [x10, #4]
	cmn	w8, #1
	b.eq	.LBB4_629
	lsr	x9, x25, #3
	ldr	x12, [x20, #8]
	sub	x11, x9, #1
	cmp	x11, x12
	b.hs	.LBB4_479
	ldr	x12, [x20]
	lsl	x11, x11, #4
	ldrb	w11, [x12, x11]
	cmp	w11, #1
	b.ne	.LBB4_479
	ldr	w11, [x10]
	mov	w10, #24
	ldr	x12, [x20, #96]
	mov	w13, #48
	umull	x10, w11, w10
	ldr	x10, [x12, x10]
	umaddl	x2, w8, w13, x10
	ldr	x8, [x20, #48]
	umaddl	x8, w11, w13, x8
	ldrb	w10, [x2, #8]
	cmp	w10, #1
	b.gt	.LBB4_576
	cbz	w10, .LBB4_307
	ldrb	w9, [x8]
	cmp	w9, #2
	b.ne	.LBB4_667
	ldr	x19, [x2, #32]!
	sub	x0, x2, #16
	add	x1, x8, #8
	mov	x3, x25
	bl	ic_chain.edits.LinkListBidirectional.replace_at.10cc405e52586c83
	b	.LBB4_578
.LBB4_479:
	mov	w9, #2
	mov	w8, #2
	subs	x10, x22, x27
	ldur	x25, [x20, #128]
	csel	x24, xzr, x10, lo
	cbnz	w9, .LBB4_631
.LBB4_480:
	adrp	x27, .Lstatic.21
	add	x27, x27, :lo12:.Lstatic.21
	mov	w26, #3
	ldr	x8, [x20, #136]
	sub	x9, x8, x25
	cmp	x9, #31
	mov	x9, x25
	b.hi	.LBB4_633
.LBB4_481:
	add	x0, x20, #120
	mov	w1, #32
	bl	std_alloc.vec.Vec.grow_amortized.3f7cc1ad5d64d7d7
	ldur	x9, [x20, #128]
	cbz	w0, .LBB4_662
	ldr	x8, [x20, #136]
	ldur	x10, [x20, #120]
	stp	xzr, xzr, [x20, #128]
	add	x11, x10, x9
	sub	x12, x11, x27
	cmp	x12, #31
	b.ls	.LBB4_634
.LBB4_483:
	ldp	q1, q0, [x27]
	stp	q1, q0, [x11]
	add	x11, x9, #32
	add	x9, x26, x25
	str	x8, [x20, #136]
	cmp	x11, x9
	stp	x10, x11, [x20, #120]
	b.ls	.LBB4_636
	b	.LBB4_635
.LBB4_484:
	mov	x0, x25
	mov	x1, x26
	bl	ic_program.argument.any_number
	tbnz	w0, #0, .LBB4_624
.LBB4_485:
	subs	x24, x22, #18
	b.lo	.LBB4_609
	mov	x9, #25966
	ldr	x8, [x23, #8]
	movk	x9, #29816, lsl #16
	movk	x9, #30559, lsl #32
	movk	x9, #29801, lsl #48
	cmp	x8, x9
	b.ne	.LBB4_609
	ldr	x8, [x23]
	cmp	x8, x28
	b.ne	.LBB4_609
	ldur	x8, [x23, #10]
	add	x9, x27, #3861
	cmp	x8, x9
	b.ne	.LBB4_609
	cmp	x24, #5
	add	x8, x23, #18
	b.lo	.LBB4_510
	ldrb	w9, [x8]
	sub	w9, w9, #48
	cmp	w9, #9
	b.hi	.LBB4_510
	ldrb	w10, [x23, #19]
	and	x2, x9, #0xff
	sub	w11, w10, #48
	cmp	w11, #9
	b.hi	.LBB4_496
	ldrb	w9, [x23, #20]
	sub	w10, w9, #48
	and	x9, x11, #0xff
	cmp	w10, #9
	b.hi	.LBB4_497
	ldrb	w11, [x23, #21]
	and	x10, x10, #0xff
	sub	w11, w11, #48
	cmp	w11, #10
	b.hs	.LBB4_498
	ldrb	w12, [x23, #22]
	sub	w12, w12, #48
	cmp	w12, #10
	b.lo	.LBB4_510
	mov	w12, #10
	umaddl	x9, w2, w12, x9
	umaddl	x9, w9, w12, x10
	and	x10, x11, #0xff
	umaddl	x2, w9, w12, x10
	mov	w9, #4
	add	x0, x8, x9
	ldrb	w8, [x0]
	cmp	w8, #32
	b.ne	.LBB4_499
	b	.LBB4_500
.LBB4_496:
	mov	w9, #1
	add	x0, x8, x9
	ldrb	w8, [x0]
	cmp	w8, #32
	b.ne	.LBB4_499
	b	.LBB4_500
.LBB4_497:
	mov	w10, #10
	umaddl	x2, w2, w10, x9
	mov	w9, #2
	add	x0, x8, x9
	ldrb	w8, [x0]
	cmp	w8, #32
	b.ne	.LBB4_499
	b	.LBB4_500
.LBB4_498:
	mov	w11, #10
	umaddl	x9, w2, w11, x9
	umaddl	x2, w9, w11, x10
	mov	w9, #3
	add	x0, x8, x9
	ldrb	w8, [x0]
	cmp	w8, #32
	b.eq	.LBB4_500
.LBB4_499:
	cmp	w8, #10
	b.ne	.LBB4_510
.LBB4_500:
	sub	x1, x24, x9
	cmp	w8, #32
	b.ne	.LBB4_513
.LBB4_501:
	add	x24, x0, #1
	sub	x25, x1, #1
	cmp	x25, #5
	b.lo	.LBB4_524
.LBB4_502:
	ldrb	w8, [x24]
	sub	w9, w8, #48
	cmp	w9, #9
	b.hi	.LBB4_524
	ldrb	w8, [x24, #1]
	and	x9, x9, #0xff
	sub	w10, w8, #48
	cmp	w10, #9
	b.hi	.LBB4_508
	ldrb	w8, [x24, #2]
	and	x10, x10, #0xff
	sub	w11, w8, #48
	cmp	w11, #9
	b.hi	.LBB4_509
	ldrb	w8, [x24, #3]
	and	x11, x11, #0xff
	sub	w12, w8, #48
	cmp	w12, #10
	b.hs	.LBB4_515
	ldrb	w8, [x24, #4]
	sub	w13, w8, #48
	cmp	w13, #10
	b.lo	.LBB4_524
	mov	w13, #10
	umaddl	x9, w9, w13, x10
	and	x10, x12, #0xff
	umaddl	x9, w9, w13, x11
	umaddl	x9, w9, w13, x10
	mov	w10, #4
	cmp	w8, #32
	b.ne	.LBB4_516
	b	.LBB4_517
.LBB4_508:
	mov	w10, #1
	cmp	w8, #32
	b.ne	.LBB4_516
	b	.LBB4_517
.LBB4_509:
	mov	w11, #10
	umaddl	x9, w9, w11, x10
	mov	w10, #2
	cmp	w8, #32
	b.ne	.LBB4_516
	b	.LBB4_517
.LBB4_510:
	add	x0, x23, #18
	mov	x1, x24
	bl	ic_program.argument.any_number
	tbz	w0, #0, .LBB4_609
	mov	x26, x1
	add	x0, x23, #18
	mov	x1, x24
	bl	ic_program.text.after_word
	cbz	x1, .LBB4_514
	ldrb	w8, [x0]
	mov	x2, x26
	cmp	w8, #32
	b.eq	.LBB4_501
.LBB4_513:
	mov	x26, x2
.LBB4_514:
	bl	ic_program.text.without_space
	mov	x24, x0
	mov	x25, x1
	mov	x2, x26
	cmp	x1, #5
	b.hs	.LBB4_502
	b	.LBB4_524
.LBB4_515:
	mov	w12, #10
	umaddl	x9, w9, w12, x10
	mov	w10, #3
	umaddl	x9, w9, w12, x11
	cmp	w8, #32
	b.eq	.LBB4_517
.LBB4_516:
	cmp	w8, #10
	b.ne	.LBB4_524
.LBB4_517:
	lsl	x9, x9, #3
	add	x0, x24, x10
	sub	x24, x25, x10
	add	x3, x9, #8
	cmp	w8, #10
	b.ne	.LBB4_528
.LBB4_518:
	sub	x24, x24, #1
.LBB4_519:
	sub	x0, x29, #32
	mov	x1, x20
	bl	ic_world.world.World.replace_next_with.27dc223f7d016e2e
	ldurb	w8, [x29, #-32]
	subs	x9, x22, x24
	ldr	x25, [x20, #128]
	csel	x24, xzr, x9, lo
	cbz	w8, .LBB4_521
	ldurb	w8, [x29, #-31]
	mov	w9, #2
	cbnz	w9, .LBB4_631
	b	.LBB4_480
.LBB4_521:
	ldur	x1, [x29, #-24]
	lsr	x8, x1, #3
	cmp	x8, #1000
	sub	x3, x8, #1
	b.ls	.LBB4_321
.LBB4_522:
	adrp	x1, .Lstatic.37
	add	x1, x1, :lo12:.Lstatic.37
	adrp	x4, .Lstatic.38
	add	x4, x4, :lo12:.Lstatic.38
	add	x0, x20, #120
	mov	w2, #7
	mov	w5, #1
	bl	ic_program.answers.push_numbered.714b863a58920bda
	and	w8, w0, #0xff
.LBB4_523:
	cbz	w8, .LBB4_636
	b	.LBB4_661
.LBB4_524:
	mov	x0, x24
	mov	x1, x25
	mov	x19, x2
	bl	ic_program.argument.any_number
	tbz	w0, #0, .LBB4_609
	mov	x26, x1
	mov	x0, x24
	mov	x1, x25
	bl	ic_program.text.after_word
	lsr	x8, x26, #32
	cbnz	x8, .LBB4_609
	lsl	x8, x26, #3
	mov	x24, x1
	add	x3, x8, #8
	cbz	x1, .LBB4_608
	ldrb	w8, [x0]
	mov	x2, x19
	cmp	w8, #10
	b.eq	.LBB4_518
.LBB4_528:
	mov	x21, x3
	mov	x19, x2
	mov	x1, x24
	bl	ic_program.text.other_line
	tbz	w0, #0, .LBB4_609
.LBB4_529:
	sub	x24, x24, x1
	mov	x2, x19
	mov	x3, x21
	b	.LBB4_519
.LBB4_530:
	add	x14, x14, x13, lsl #1
.LBB4_531:
	stur	x12, [x14, #-16]
	cbz	x12, .LBB4_437
.LBB4_532:
	ldrb	w15, [x8, #8]
	ldr	x14, [x8, #16]
	cbz	w15, .LBB4_534
	lsr	x15, x12, #3
	mov	w16, #24
	madd	x14, x15, x16, x14
	stur	x13, [x14, #-24]
	b	.LBB4_535
.LBB4_534:
	add	x14, x14, x12, lsl #1
	stur	x13, [x14, #-8]
.LBB4_535:
	ldrb	w13, [x8, #8]
	ldr	x8, [x8, #16]
	cbz	w13, .LBB4_537
	add	x8, x8, x11
	stur	xzr, [x8, #-8]
	b	.LBB4_538
.LBB4_537:
	add	x8, x8, x10
	mov	w10, #1
	stur	x10, [x8, #-16]
.LBB4_538:
	mov	w0, #1
	str	x12, [x9, #32]
	and	w8, w0, #0xff
	b	.LBB4_574
.LBB4_539:
	str	xzr, [x8, #16]
	b	.LBB4_564
.LBB4_540:
	str	xzr, [x24, #24]
	b	.LBB4_569
.LBB4_541:
	ldrb	w8, [x1], #8
	cmp	w8, #2
	b.ne	.LBB4_667
	add	x0, x19, #16
	mov	x2, xzr
	mov	x3, x25
	bl	ic_chain.edits.LinkListBidirectional.insert_before_at.10cc405e52586c83
	cbz	w0, .LBB4_623
	mov	w9, wzr
	mov	w8, wzr
	str	xzr, [x19, #32]
	subs	x10, x22, x27
	ldur	x25, [x20, #128]
	csel	x24, xzr, x10, lo
	b	.LBB4_480
.LBB4_544:
	ldrb	w8, [x1]
	cmp	w8, #2
	b.ne	.LBB4_667
	ldrb	w8, [x1, #8]
	cmp	w8, #1
	b.ne	.LBB4_667
	ldr	x24, [x21, #24]
	add	x0, x21, #16
	add	x1, x1, #16
	mov	x3, x25
	mov	x2, x24
	bl	ic_rbtree.edits.RBTreeBidirectional.insert_before_at.b002bc248359831b
	cbz	w0, .LBB4_623
	mov	w9, wzr
	mov	w8, wzr
	str	x24, [x21, #24]
	subs	x10, x22, x27
	ldur	x25, [x20, #128]
	csel	x24, xzr, x10, lo
	b	.LBB4_480
.LBB4_548:
	ldrb	w8, [x1], #8
	cmp	w8, #2
	b.ne	.LBB4_667
	ldr	x8, [x26, #32]
	add	x0, x26, #16
	sub	x2, x29, #16
	mov	x3, x25
	stur	x8, [x29, #-16]
	bl	ic_chain.edits.LinkListCursorOps.insert_after_at.ff97facb44bf5e09
	cbz	w0, .LBB4_623
	ldur	x10, [x29, #-16]
	mov	w9, wzr
	mov	w8, wzr
	str	x10, [x26, #32]
	subs	x10, x22, x27
	ldur	x25, [x20, #128]
	csel	x24, xzr, x10, lo
	b	.LBB4_480
.LBB4_551:
	ldrb	w8, [x1]
	cmp	w8, #2
	b.ne	.LBB4_667
	ldrb	w8, [x1, #8]
	cmp	w8, #1
	b.ne	.LBB4_667
	ldr	x24, [x26, #24]
	add	x0, x26, #16
	add	x1, x1, #16
	mov	x3, x25
	mov	x2, x24
	bl	ic_rbtree.edits.RBTreeCursorOps.insert_after_at.b002bc248359831b
	cbz	w0, .LBB4_623
	mov	w9, wzr
	mov	w8, wzr
	str	x24, [x26, #24]
	subs	x10, x22, x27
	ldur	x25, [x20, #128]
	csel	x24, xzr, x10, lo
	b	.LBB4_480
.LBB4_555:
	ldrb	w8, [x1], #8
	cmp	w8, #2
	b.ne	.LBB4_667
	add	x0, x24, #16
	sub	x2, x29, #16
	mov	x3, x25
	stur	xzr, [x29, #-16]
	bl	ic_chain.edits.LinkListCursorOps.insert_after_at.ff97facb44bf5e09
	cbz	w0, .LBB4_623
	ldur	x10, [x29, #-16]
	mov	w9, wzr
	mov	w8, wzr
	str	x10, [x24, #32]
	subs	x10, x22, x27
	ldur	x25, [x20, #128]
	csel	x24, xzr, x10, lo
	b	.LBB4_480
.LBB4_558:
	mov	w8, #1
	cbz	w8, .LBB4_636
	b	.LBB4_661
.LBB4_559:
	ldrb	w11, [x9, #8]
	ldr	x12, [x9, #16]
	cbz	w11, .LBB4_586
	lsr	x11, x10, #3
	mov	w13, #24
	madd	x11, x11, x13, x12
	ldur	x11, [x11, #-16]
	cbz	x11, .LBB4_589
	lsr	x13, x11, #3
	mov	w14, #24
	madd	x12, x13, x14, x12
	b	.LBB4_588
.LBB4_562:
	add	x14, x14, x13, lsl #1
.LBB4_563:
	stur	xzr, [x14, #-16]
.LBB4_564:
	str	x13, [x8, #24]
	ldrb	w13, [x9, #8]
	ldr	x9, [x9, #16]
	cbz	w13, .LBB4_566
	add	x9, x9, x12
	mov	w11, #1
	stur	xzr, [x9, #-8]
	b	.LBB4_567
.LBB4_566:
	add	x9, x9, x11
	mov	w11, #1
	stur	x11, [x9, #-16]
.LBB4_567:
	cmp	w11, #0
	stur	xzr, [x8, #32]
	b	.LBB4_596
.LBB4_568:
	add	x11, x12, x11, lsl #1
	stur	xzr, [x11, #-8]
.LBB4_569:
	ldrb	w12, [x1, #8]
	ldr	x11, [x1, #16]
	cbz	w12, .LBB4_571
	add	x9, x11, x10
	mov	w0, #1
	stur	xzr, [x9, #-8]
	b	.LBB4_572
.LBB4_571:
	add	x9, x11, x9
	mov	w0, #1
	stur	x0, [x9, #-16]
.LBB4_572:
	cmp	w0, #0
	str	xzr, [x24, #32]
	csel	x1, x8, xzr, ne
.LBB4_573:
	and	w8, w0, #0xff
.LBB4_574:
	subs	x9, x22, x27
	ldur	x25, [x20, #128]
	csel	x24, xzr, x9, lo
	cmp	w8, #1
	cset	w9, ne
	b.eq	.LBB4_320
.LBB4_575:
	mov	w8, wzr
	cbnz	w9, .LBB4_631
	b	.LBB4_480
.LBB4_576:
	cmp	w10, #2
	b.ne	.LBB4_601
	ldr	x19, [x2, #32]!
	sub	x0, x2, #16
	mov	x1, x8
	mov	x3, x25
	bl	ic_chain.edits.LinkListBidirectional.replace_at.d62ae654698fb858
.LBB4_578:
	mov	x1, x19
	cbz	x19, .LBB4_580
	tbnz	w0, #0, .LBB4_654
.LBB4_580:
	cmp	x1, #0
	mov	w8, #6
	mov	w9, #9
	csel	w8, w9, w8, ne
	mov	w9, #2
	subs	x10, x22, x27
	ldur	x25, [x20, #128]
	csel	x24, xzr, x10, lo
	cbnz	w9, .LBB4_631
	b	.LBB4_480
.LBB4_581:
	ldr	x11, [x26, #16]
	cmp	w12, #2
	add	x8, x1, #8
	b.eq	.LBB4_610
	cmp	w12, #1
	ldr	x9, [x8]
.LBB4_584:
	add	x9, x9, x25
	ldur	x12, [x9, #-8]
	cmp	x12, #1
	b.ne	.LBB4_623
	stur	x11, [x9, #-8]
	b	.LBB4_616
.LBB4_586:
	add	x11, x12, x10, lsl #1
	ldur	x11, [x11, #-16]
	cbz	x11, .LBB4_589
	add	x12, x12, x11, lsl #1
.LBB4_588:
	ldur	x13, [x12, #-16]
	eor	x13, x13, x10
	stur	x13, [x12, #-16]
	b	.LBB4_590
.LBB4_589:
	mov	x11, xzr
	str	xzr, [x8, #16]
.LBB4_590:
	str	x11, [x8, #24]
	ldrb	w11, [x9]
	cmp	w11, #2
	b.eq	.LBB4_593
	ldr	x9, [x9, #8]
	cmp	w11, #1
	mov	w11, #1
	add	x9, x9, x10
	stur	x11, [x9, #-8]
.LBB4_592:
	b	.LBB4_595
.LBB4_593:
	ldrb	w11, [x9, #8]
	ldr	x9, [x9, #16]
	cbz	w11, .LBB4_597
	lsr	x11, x10, #3
	mov	w12, #24
	madd	x9, x11, x12, x9
	mov	w11, #1
	stur	xzr, [x9, #-8]
.LBB4_595:
	cmp	w11, #0
	stp	xzr, xzr, [x8, #32]
.LBB4_596:
	csel	x1, x10, xzr, ne
	cmp	w11, #0
	ldur	x25, [x20, #128]
	cset	w9, eq
	subs	x8, x22, x27
	csel	x24, xzr, x8, lo
	cbz	w11, .LBB4_575
	b	.LBB4_320
.LBB4_597:
	add	x9, x9, x10, lsl #1
	mov	w11, #1
	stur	x11, [x9, #-16]
	b	.LBB4_592
.LBB4_598:
	ldrb	w11, [x1, #8]
	ldr	x10, [x1, #16]
	cbz	w11, .LBB4_620
	mov	w11, #24
	madd	x9, x9, x11, x10
	ldurb	w10, [x9, #-8]
	tbnz	w10, #1, .LBB4_623
	mov	w10, #3
	stur	x10, [x9, #-8]
	b	.LBB4_621
.LBB4_601:
	ldrb	w10, [x8]
	cmp	w10, #2
	b.ne	.LBB4_667
	ldrb	w10, [x8, #8]
	cmp	w10, #1
	b.ne	.LBB4_667
	ldr	x1, [x2, #24]
	cbz	x1, .LBB4_642
	add	x9, x9, x9, lsl #1
	ldr	x10, [x8, #16]
	lsl	x9, x9, #3
	add	x10, x10, x9
	ldurb	w11, [x10, #-8]
	tbnz	w11, #1, .LBB4_623
	lsr	x11, x1, #2
	mov	w12, #3
	stur	x12, [x10, #-8]
	add	x11, x11, x1, lsr #3
	ldr	x14, [x8, #16]
	lsl	x10, x11, #3
	add	x12, x14, x10
	ldur	x13, [x12, #-24]
	ldp	x12, x11, [x12, #-16]
	cmp	x11, #8
	b.hs	.LBB4_646
	str	x25, [x2, #16]
	b	.LBB4_649
.LBB4_607:
	lsr	x11, x10, #2
	ldrb	w13, [x1, #8]
	lsl	x14, x10, #1
	ldr	x12, [x1, #16]
	add	x11, x11, x10, lsr #3
	cmp	w13, #0
	lsl	x11, x11, #3
	csel	x11, x14, x11, eq
	add	x11, x12, x11
	ldur	x11, [x11, #-16]
	b	.LBB4_611
.LBB4_608:
	mov	x21, x3
	mov	x1, x24
	bl	ic_program.text.other_line
	tbnz	w0, #0, .LBB4_529
.LBB4_609:
	add	x0, sp, #16
	mov	x1, x20
	mov	x2, x23
	mov	x3, x22
	bl	ic_program.session.Session.answer_other.40a73cb1e87492e9
	ldrb	w8, [sp, #16]
	ldr	x24, [sp, #24]
	cbz	w8, .LBB4_636
	b	.LBB4_660
.LBB4_610:
	ldrb	w13, [x1, #8]
	ldr	x12, [x1, #16]
.LBB4_611:
	cbz	w13, .LBB4_614
	mov	w13, #24
	madd	x9, x9, x13, x12
	ldurb	w12, [x9, #-8]
	tbnz	w12, #1, .LBB4_623
	mov	w12, #3
	stur	x12, [x9, #-8]
	b	.LBB4_615
.LBB4_614:
	add	x9, x12, x25, lsl #1
	ldur	x12, [x9, #-16]
	cmp	x12, #1
	b.ne	.LBB4_623
.LBB4_615:
	stur	x11, [x9, #-16]
.LBB4_616:
	cbz	x10, .LBB4_619
	ldrb	w9, [x1]
	cmp	w9, #2
	b.eq	.LBB4_640
	ldr	x8, [x8]
	cmp	w9, #1
	add	x8, x8, x10
	stur	x25, [x8, #-8]
	b	.LBB4_645
.LBB4_619:
	str	x25, [x26, #16]
	b	.LBB4_645
.LBB4_620:
	add	x9, x10, x25, lsl #1
	ldur	x10, [x9, #-16]
	cmp	x10, #1
	b.ne	.LBB4_623
.LBB4_621:
	stur	x8, [x9, #-16]
.LBB4_622:
	mov	w9, wzr
	mov	w8, wzr
	stp	x25, xzr, [x24, #16]
	subs	x10, x22, x27
	ldur	x25, [x20, #128]
	csel	x24, xzr, x10, lo
	b	.LBB4_480
.LBB4_623:
	mov	w8, #9
	mov	w9, #2
	subs	x10, x22, x27
	ldur	x25, [x20, #128]
	csel	x24, xzr, x10, lo
	cbnz	w9, .LBB4_631
	b	.LBB4_480
.LBB4_624:
	mov	x0, x25
	mov	x19, x1
	mov	x1, x26
	bl	ic_program.text.after_word
	lsr	x8, x19, #32
	cbnz	x8, .LBB4_485
	lsl	x8, x19, #3
	mov	x26, x1
	add	x25, x8, #8
	cbz	x1, .LBB4_627
	ldrb	w8, [x0]
	cmp	w8, #10
	b.eq	.LBB4_471
.LBB4_627:
	mov	x1, x26
	bl	ic_program.text.other_line
	tbz	w0, #0, .LBB4_485
	sub	x27, x26, x1
	ldr	x8, [x20, #80]
	cmp	x8, x24
	b.hi	.LBB4_472
.LBB4_629:
	mov	w8, #1
.LBB4_630:
	mov	w9, #2
	subs	x10, x22, x27
	ldur	x25, [x20, #128]
	csel	x24, xzr, x10, lo
	cbz	w9, .LBB4_480
.LBB4_631:
	cmp	w9, #2
	b.ne	.LBB4_638
	adrp	x9, .Lswitch.table.ic_program.session.Session.call.40a73cb1e87492e9..668
	add	x9, x9, :lo12:.Lswitch.table.ic_program.session.Session.call.40a73cb1e87492e9..668
	ldr	x27, [x9, w8, uxtw #3]
	adrp	x9, .Lswitch.table.ic_program.session.Session.call.40a73cb1e87492e9
	add	x9, x9, :lo12:.Lswitch.table.ic_program.session.Session.call.40a73cb1e87492e9
	ldr	x26, [x9, w8, uxtw #3]
	ldr	x8, [x20, #136]
	sub	x9, x8, x25
	cmp	x9, #31
	mov	x9, x25
	b.ls	.LBB4_481
.LBB4_633:
	ldur	x10, [x20, #120]
	stp	xzr, xzr, [x20, #128]
	add	x11, x10, x9
	sub	x12, x11, x27
	cmp	x12, #31
	b.hi	.LBB4_483
.LBB4_634:
	ldrb	w12, [x27]
	strb	w12, [x11]
	ldrb	w12, [x27, #1]
	strb	w12, [x11, #1]
	ldrb	w12, [x27, #2]
	strb	w12, [x11, #2]
	ldrb	w12, [x27, #3]
	strb	w12, [x11, #3]
	ldrb	w12, [x27, #4]
	strb	w12, [x11, #4]
	ldrb	w12, [x27, #5]
	strb	w12, [x11, #5]
	ldrb	w12, [x27, #6]
	strb	w12, [x11, #6]
	ldrb	w12, [x27, #7]
	strb	w12, [x11, #7]
	ldrb	w12, [x27, #8]
	strb	w12, [x11, #8]
	ldrb	w12, [x27, #9]
	strb	w12, [x11, #9]
	ldrb	w12, [x27, #10]
	strb	w12, [x11, #10]
	ldrb	w12, [x27, #11]
	strb	w12, [x11, #11]
	ldrb	w12, [x27, #12]
	strb	w12, [x11, #12]
	ldrb	w12, [x27, #13]
	strb	w12, [x11, #13]
	ldrb	w12, [x27, #14]
	strb	w12, [x11, #14]
	ldrb	w12, [x27, #15]
	strb	w12, [x11, #15]
	ldrb	w12, [x27, #16]
	strb	w12, [x11, #16]
	ldrb	w12, [x27, #17]
	strb	w12, [x11, #17]
	ldrb	w12, [x27, #18]
	strb	w12, [x11, #18]
	ldrb	w12, [x27, #19]
	strb	w12, [x11, #19]
	ldrb	w12, [x27, #20]
	strb	w12, [x11, #20]
	ldrb	w12, [x27, #21]
	strb	w12, [x11, #21]
	ldrb	w12, [x27, #22]
	strb	w12, [x11, #22]
	ldrb	w12, [x27, #23]
	strb	w12, [x11, #23]
	ldrb	w12, [x27, #24]
	strb	w12, [x11, #24]
	ldrb	w12, [x27, #25]
	strb	w12, [x11, #25]
	ldrb	w12, [x27, #26]
	strb	w12, [x11, #26]
	ldrb	w12, [x27, #27]
	strb	w12, [x11, #27]
	ldrb	w12, [x27, #28]
	strb	w12, [x11, #28]
	ldrb	w12, [x27, #29]
	strb	w12, [x11, #29]
	ldrb	w12, [x27, #30]
	strb	w12, [x11, #30]
	ldrb	w12, [x27, #31]
	strb	w12, [x11, #31]
	add	x11, x9, #32
	add	x9, x26, x25
	str	x8, [x20, #136]
	cmp	x11, x9
	stp	x10, x11, [x20, #120]
	b.ls	.LBB4_636
.LBB4_635:
	stur	x9, [x20, #128]
.LBB4_636:
	movi	v0.2d, #0000000000000000
	ldur	x8, [x20, #128]
	cmp	x8, #16, lsl #12
	stp	q0, q0, [sp, #16]
	b.hi	.LBB4_639
.LBB4_637:
	subs	x22, x22, x24
	add	x23, x23, x24
	b.ne	.LBB4_2
	b	.LBB4_655
.LBB4_638:
	adrp	x27, .Lstatic.22
	add	x27, x27, :lo12:.Lstatic.22
	mov	w26, #5
	ldr	x8, [x20, #136]
	sub	x9, x8, x25
	cmp	x9, #31
	mov	x9, x25
	b.hi	.LBB4_633
	b	.LBB4_481
.LBB4_639:
	ldr	x2, [sp]
	add	x0, sp, #16
	mov	x1, x20
	bl	ic_program.session.Session.write_some.61c60e3f83b1098c
	ldrb	w8, [sp, #16]
	cbz	w8, .LBB4_637
	b	.LBB4_664
.LBB4_640:
	ldrb	w9, [x1, #8]
	ldr	x8, [x1, #16]
	cbz	w9, .LBB4_643
	lsr	x9, x10, #3
	mov	w11, #24
	madd	x8, x9, x11, x8
	b	.LBB4_644
.LBB4_642:
	mov	w8, #6
	mov	w9, #2
	subs	x10, x22, x27
	ldur	x25, [x20, #128]
	csel	x24, xzr, x10, lo
	cbnz	w9, .LBB4_631
	b	.LBB4_480
.LBB4_643:
	add	x8, x8, x10, lsl #1
.LBB4_644:
	stur	x25, [x8, #-16]
.LBB4_645:
	mov	w9, wzr
	mov	w8, wzr
	str	x10, [x26, #24]
	subs	x10, x22, x27
	ldur	x25, [x20, #128]
	csel	x24, xzr, x10, lo
	b	.LBB4_480
.LBB4_646:
	lsr	x15, x11, #3
	mov	w16, #24
	madd	x14, x15, x16, x14
	ldur	x15, [x14, #-24]
	cmp	x15, x1
	b.ne	.LBB4_648
	stur	x25, [x14, #-24]
	b	.LBB4_649
.LBB4_648:
	stur	x25, [x14, #-16]
.LBB4_649:
	cbz	x13, .LBB4_651
	lsr	x14, x13, #3
	mov	w15, #24
	ldr	x16, [x8, #16]
	madd	x14, x14, x15, x16
	ldur	x15, [x14, #-8]
	and	x15, x15, #0x7
	orr	x15, x15, x25
	stur	x15, [x14, #-8]
.LBB4_651:
	cbz	x12, .LBB4_653
	lsr	x14, x12, #3
	mov	w15, #24
	ldr	x16, [x8, #16]
	madd	x14, x14, x15, x16
	ldur	x15, [x14, #-8]
	and	x15, x15, #0x7
	orr	x15, x15, x25
	stur	x15, [x14, #-8]
.LBB4_653:
	ldr	x14, [x8, #16]
	and	x11, x11, #0xfffffffffffffff9
	orr	x11, x11, #0x2
	add	x14, x14, x9
	stur	x13, [x14, #-24]
	ldr	x13, [x8, #16]
	add	x13, x13, x9
	stur	x12, [x13, #-16]
	ldr	x12, [x8, #16]
	add	x9, x12, x9
	stur	x11, [x9, #-8]
	ldr	x8, [x8, #16]
	add	x8, x8, x10
	stur	xzr, [x8, #-8]
	str	x25, [x2, #24]
.LBB4_654:
	subs	x8, x22, x27
	ldur	x25, [x20, #128]
	csel	x24, xzr, x8, lo
	lsr	x8, x1, #3
	cmp	x8, #1000
	sub	x3, x8, #1
	b.ls	.LBB4_321
	b	.LBB4_522
.LBB4_655:
	ldr	x8, [sp, #8]
	strb	wzr, [x8]
	stp	xzr, xzr, [x8, #16]
	str	xzr, [x8, #8]
	b	.LBB4_659
.LBB4_656:
	mov	w9, #1
.LBB4_657:
	mov	w10, #1
.LBB4_658:
	ldr	x12, [sp, #8]
	mov	w11, #1
	strb	w11, [x12]
	stp	x10, x9, [x12, #8]
	str	x8, [x12, #24]
.LBB4_659:
	ldp	x20, x19, [sp, #160]
	ldp	x22, x21, [sp, #144]
	ldp	x24, x23, [sp, #128]
	ldp	x26, x25, [sp, #112]
	ldp	x28, x27, [sp, #96]
	ldp	x29, x30, [sp, #80]
	add	sp, sp, #176
	ret
.LBB4_660:
	ldrb	w9, [sp, #32]
	ldr	x8, [sp, #40]
	and	x10, x24, #0xff
	b	.LBB4_658
.LBB4_661:
	ldur	x9, [x20, #128]
.LBB4_662:
	cmp	x9, x25
	b.ls	.LBB4_665
	mov	x8, xzr
	stur	x25, [x20, #128]
	b	.LBB4_666
.LBB4_664:
	ldr	x11, [sp, #8]
	mov	w9, #1
	ldrb	w8, [sp, #24]
	ldrb	w10, [sp, #32]
	strb	w9, [x11]
	ldr	x9, [sp, #40]
	stp	x8, x10, [x11, #8]
	str	x9, [x11, #24]
	b	.LBB4_659
.LBB4_665:
	mov	x8, xzr
.LBB4_666:
	mov	w9, #3
	b	.LBB4_657
.LBB4_667:
	brk	#0x1
.Lfunc_end4:
	.size	ic_program.session.Session.answer_lines.61c60e3f83b1098c, .Lfunc_end4-ic_program.session.Session.answer_lines.61c60e3f83b1098c
	.section	.rodata.ic_program.session.Session.answer_lines.61c60e3f83b1098c,"a",@progbits
	.p2align	1, 0x0
.LJTI4_0:
	.hword	(.LBB4_54-.LBB4_6)>>2
	.hword	(.LBB4_64-.LBB4_6)>>2
	.hword	(.LBB4_94-.LBB4_6)>>2
	.hword	(.LBB4_6-.LBB4_6)>>2
	.hword	(.LBB4_74-.LBB4_6)>>2
	.hword	(.LBB4_34-.LBB4_6)>>2
	.hword	(.LBB4_14-.LBB4_6)>>2
	.hword	(.LBB4_84-.LBB4_6)>>2
	.hword	(.LBB4_102-.LBB4_6)>>2
	.hword	(.LBB4_112-.LBB4_6)>>2
	.hword	(.LBB4_609-.LBB4_6)>>2
	.hword	(.LBB4_6-.LBB4_6)>>2
	.hword	(.LBB4_609-.LBB4_6)>>2
	.hword	(.LBB4_44-.LBB4_6)>>2
	.hword	(.LBB4_24-.LBB4_6)>>2
	.hword	(.LBB4_120-.LBB4_6)>>2
	.section	.text.unlikely.ic_program.argument.any_number,"ax",@progbits
	.p2align	2
	.type	ic_program.argument.any_number,@function
ic_program.argument.any_number:
	sub	sp, sp, #48
	movi	v0.2d, #0000000000000000
	mov	x2, x1
	mov	x1, x0
	mov	x0, sp
	stp	x29, x30, [sp, #32]
	add	x29, sp, #32
	stp	q0, q0, [sp]
	bl	ic_program.text.first_word
	ldr	x8, [sp, #8]
	cbz	x8, .LBB5_8
	ldr	x11, [sp]
	mov	x9, xzr
	mov	x10, xzr
.LBB5_2:
	ldrb	w12, [x11, x10]
	sub	w12, w12, #48
	cmp	w12, #9
	b.hi	.LBB5_7
	mov	x13, #-7378697629483820647
	movk	x13, #6553, lsl #48
	cmp	x9, x13
	b.hi	.LBB5_8
	add	x9, x9, x9, lsl #2
	and	x12, x12, #0xff
	lsl	x9, x9, #1
	cmn	x12, x9
	b.hs	.LBB5_8
	add	x10, x10, #1
	add	x9, x9, x12
	cmp	x8, x10
	b.ne	.LBB5_2
	mov	x10, x8
.LBB5_7:
	sub	x11, x10, #1
	cmp	x11, #20
	cset	w11, lo
	cmp	x10, x8
	cset	w8, eq
	ands	w0, w8, w11
	csel	x1, x9, xzr, ne
	ldp	x29, x30, [sp, #32]
	add	sp, sp, #48
	ret
.LBB5_8:
	mov	w0, wzr
	mov	x1, xzr
	ldp	x29, x30, [sp, #32]
	add	sp, sp, #48
	ret
.Lfunc_end5:
	.size	ic_program.argument.any_number, .Lfunc_end5-ic_program.argument.any_number
	.section	.text.unlikely.ic_program.text.first_word,"ax",@progbits
	.p2align	2
	.type	ic_program.text.first_word,@function
ic_program.text.first_word:
	stp	x29, x30, [sp, #-32]!
	str	x19, [sp, #16]
	mov	x29, sp
	cbz	x2, .LBB6_2
	ldrb	w8, [x1]
	cmp	w8, #32
	b.eq	.LBB6_12
.LBB6_2:
	cbz	x2, .LBB6_13
.LBB6_3:
	mov	x9, xzr
	mov	x8, xzr
.LBB6_4:
	ldrb	w10, [x1, x8]
	cmp	w10, #32
	b.eq	.LBB6_14
	add	x11, x2, x9
	cmp	x11, #1
	b.eq	.LBB6_9
	cbz	x11, .LBB6_11
	cmp	w10, #13
	b.ne	.LBB6_9
	add	x10, x1, x8
	ldrb	w10, [x10, #1]
.LBB6_9:
	cmp	w10, #10
	b.eq	.LBB6_14
	add	x8, x8, #1
	sub	x9, x9, #1
	cmp	x2, x8
	b.ne	.LBB6_4
.LBB6_11:
	mov	x8, x2
	b	.LBB6_14
.LBB6_12:
	mov	x19, x0
	mov	x0, x1
	mov	x1, x2
	bl	ic_program.text.without_more_spaces
	mov	x8, x0
	mov	x0, x19
	mov	x2, x1
	mov	x1, x8
	cbnz	x2, .LBB6_3
.LBB6_13:
	mov	x8, xzr
.LBB6_14:
	stp	x1, x8, [x0]
	add	x9, x1, x8
	sub	x8, x2, x8
	ldr	x19, [sp, #16]
	stp	x9, x8, [x0, #16]
	ldp	x29, x30, [sp], #32
	ret
.Lfunc_end6:
	.size	ic_program.text.first_word, .Lfunc_end6-ic_program.text.first_word
	.section	.text.unlikely.ic_program.text.without_more_spaces,"ax",@progbits
	.p2align	2
	.type	ic_program.text.without_more_spaces,@function
ic_program.text.without_more_spaces:
	mov	x8, x0
	add	x0, x0, x1
.LBB7_1:
	ldrb	w9, [x8]
	cmp	w9, #32
	b.ne	.LBB7_4
	subs	x1, x1, #1
	add	x8, x8, #1
	b.ne	.LBB7_1
	ret
.LBB7_4:
	mov	x0, x8
	ret
.Lfunc_end7:
	.size	ic_program.text.without_more_spaces, .Lfunc_end7-ic_program.text.without_more_spaces
	.section	.text.unlikely.ic_program.text.after_word,"ax",@progbits
	.p2align	2
	.type	ic_program.text.after_word,@function
ic_program.text.after_word:
	sub	sp, sp, #48
	movi	v0.2d, #0000000000000000
	mov	x2, x1
	mov	x1, x0
	mov	x0, sp
	stp	x29, x30, [sp, #32]
	add	x29, sp, #32
	stp	q0, q0, [sp]
	bl	ic_program.text.first_word
	ldp	x0, x1, [sp, #16]
	ldp	x29, x30, [sp, #32]
	add	sp, sp, #48
	ret
.Lfunc_end8:
	.size	ic_program.text.after_word, .Lfunc_end8-ic_program.text.after_word
	.section	.text.unlikely.ic_program.text.without_space,"ax",@progbits
	.p2align	2
	.type	ic_program.text.without_space,@function
ic_program.text.without_space:
	ret
.Lfunc_end9:
	.size	ic_program.text.without_space, .Lfunc_end9-ic_program.text.without_space
	.section	.text.unlikely.ic_program.text.other_line,"ax",@progbits
	.p2align	2
	.type	ic_program.text.other_line,@function
ic_program.text.other_line:
	stp	x29, x30, [sp, #-32]!
	str	x19, [sp, #16]
	mov	x29, sp
	cbz	x1, .LBB10_2
	ldrb	w8, [x0]
	cmp	w8, #32
	b.eq	.LBB10_10
.LBB10_2:
	mov	x8, x1
	cbz	x1, .LBB10_11
.LBB10_3:
	subs	x9, x8, #1
	b.ne	.LBB10_5
	ldrb	w8, [x0]
	cmp	w8, #10
	b.ne	.LBB10_9
	b	.LBB10_12
.LBB10_5:
	ldrb	w10, [x0]
	cmp	w10, #10
	b.eq	.LBB10_12
	cmp	w10, #13
	b.ne	.LBB10_9
	ldrb	w9, [x0, #1]
	cmp	w9, #10
	b.ne	.LBB10_9
	sub	x9, x8, #2
	subs	x8, x1, x9
	mov	w0, #1
	csel	x1, xzr, x8, lo
	ldr	x19, [sp, #16]
	ldp	x29, x30, [sp], #32
	ret
.LBB10_9:
	mov	w0, wzr
	mov	x1, xzr
	ldr	x19, [sp, #16]
	ldp	x29, x30, [sp], #32
	ret
.LBB10_10:
	mov	x19, x1
	bl	ic_program.text.without_more_spaces
	mov	x8, x1
	mov	x1, x19
	cbnz	x8, .LBB10_3
.LBB10_11:
	mov	x9, x8
.LBB10_12:
	subs	x8, x1, x9
	mov	w0, #1
	csel	x1, xzr, x8, lo
	ldr	x19, [sp, #16]
	ldp	x29, x30, [sp], #32
	ret
.Lfunc_end10:
	.size	ic_program.text.other_line, .Lfunc_end10-ic_program.text.other_line
	.section	.text.ic_chain.edits.LinkListCursorOps.insert_after_at.2407d86d2fd71c01,"ax",@progbits
	.p2align	2
	.type	ic_chain.edits.LinkListCursorOps.insert_after_at.2407d86d2fd71c01,@function
ic_chain.edits.LinkListCursorOps.insert_after_at.2407d86d2fd71c01:
	ldr	x8, [x2]
	ldrb	w11, [x1]
	cbz	x8, .LBB11_4
	cmp	w11, #2
	b.eq	.LBB11_7
	mov	x9, x1
	cmp	w11, #1
	b.ne	.LBB11_11
	ldr	x10, [x9, #8]!
	add	x10, x10, x8
	ldur	x10, [x10, #-8]
	b	.LBB11_6
.LBB11_4:
	ldr	x10, [x0]
	cmp	w11, #2
	add	x9, x1, #8
	b.eq	.LBB11_8
	cmp	w11, #1
	b.ne	.LBB11_12
.LBB11_6:
	ldr	x11, [x9]
	add	x11, x11, x3
	ldur	x12, [x11, #-8]
	cmp	x12, #1
	b.eq	.LBB11_13
	b	.LBB11_19
.LBB11_7:
	lsr	x10, x8, #2
	mov	x9, x1
	lsl	x12, x8, #1
	ldrb	w11, [x9, #8]!
	ldr	x13, [x9, #8]
	add	x10, x10, x8, lsr #3
	cmp	w11, #0
	lsl	x10, x10, #3
	csel	x10, x12, x10, eq
	add	x10, x13, x10
	ldur	x10, [x10, #-16]
.LBB11_8:
	ldrb	w12, [x1, #8]
	ldr	x11, [x1, #16]
	cbz	w12, .LBB11_16
	lsr	x12, x3, #3
	mov	w13, #24
	madd	x11, x12, x13, x11
	ldurb	w12, [x11, #-8]
	tbnz	w12, #1, .LBB11_19
	mov	w12, #3
	stur	x12, [x11, #-8]
	b	.LBB11_17
.LBB11_11:
	ldr	x10, [x9, #8]!
	add	x10, x10, x8
	ldur	x10, [x10, #-8]
.LBB11_12:
	ldr	x11, [x9]
	add	x11, x11, x3
	ldur	x12, [x11, #-8]
	cmp	x12, #1
	b.ne	.LBB11_19
.LBB11_13:
	stur	x10, [x11, #-8]
	cbz	x8, .LBB11_18
.LBB11_14:
	ldrb	w10, [x1]
	cmp	w10, #2
	b.eq	.LBB11_20
	ldr	x9, [x9]
	cmp	w10, #1
	add	x9, x9, x8
	stur	x3, [x9, #-8]
	mov	w0, #1
	str	x8, [x2]
	ret
.LBB11_16:
	add	x11, x11, x3, lsl #1
	ldur	x12, [x11, #-16]
	cmp	x12, #1
	b.ne	.LBB11_19
.LBB11_17:
	stur	x10, [x11, #-16]
	cbnz	x8, .LBB11_14
.LBB11_18:
	str	x3, [x0]
	mov	w0, #1
	str	x8, [x2]
	ret
.LBB11_19:
	mov	w0, wzr
	ret
.LBB11_20:
	ldrb	w10, [x1, #8]
	ldr	x9, [x1, #16]
	cbz	w10, .LBB11_22
	lsr	x10, x8, #3
	mov	w11, #24
	madd	x9, x10, x11, x9
	stur	x3, [x9, #-16]
	mov	w0, #1
	str	x8, [x2]
	ret
.LBB11_22:
	add	x9, x9, x8, lsl #1
	stur	x3, [x9, #-16]
	mov	w0, #1
	str	x8, [x2]
	ret
.Lfunc_end11:
	.size	ic_chain.edits.LinkListCursorOps.insert_after_at.2407d86d2fd71c01, .Lfunc_end11-ic_chain.edits.LinkListCursorOps.insert_after_at.2407d86d2fd71c01
	.section	.text.ic_chain.edits.LinkListCursorOps.insert_after_at.ff97facb44bf5e09,"ax",@progbits
	.p2align	2
	.type	ic_chain.edits.LinkListCursorOps.insert_after_at.ff97facb44bf5e09,@function
ic_chain.edits.LinkListCursorOps.insert_after_at.ff97facb44bf5e09:
	ldr	x8, [x2]
	ldrb	w11, [x1]
	mov	x9, x0
	ldr	x10, [x1, #8]
	cbz	x8, .LBB12_2
	lsr	x9, x8, #2
	lsl	x12, x8, #1
	cmp	w11, #0
	add	x9, x9, x8, lsr #3
	lsl	x9, x9, #3
	csel	x9, x12, x9, eq
	add	x9, x10, x9
	sub	x9, x9, #16
.LBB12_2:
	ldr	x9, [x9]
	cbz	w11, .LBB12_9
	lsr	x11, x3, #3
	mov	w12, #24
	madd	x10, x11, x12, x10
	ldurb	w11, [x10, #-8]
	tbnz	w11, #1, .LBB12_13
	mov	w11, #3
	stur	x8, [x10, #-24]
	stp	x9, x11, [x10, #-16]
	cbz	x8, .LBB12_11
.LBB12_5:
	ldrb	w11, [x1]
	ldr	x10, [x1, #8]
	cbz	w11, .LBB12_14
	lsr	x11, x8, #3
	mov	w12, #24
	madd	x10, x11, x12, x10
	stur	x3, [x10, #-16]
	cbz	x9, .LBB12_12
.LBB12_7:
	ldrb	w11, [x1]
	ldr	x10, [x1, #8]
	cbz	w11, .LBB12_15
	lsr	x9, x9, #3
	mov	w11, #24
	madd	x9, x9, x11, x10
	stur	x3, [x9, #-24]
	mov	w0, #1
	str	x8, [x2]
	ret
.LBB12_9:
	add	x10, x10, x3, lsl #1
	ldur	x11, [x10, #-16]
	cmp	x11, #1
	b.ne	.LBB12_13
	stp	x9, x8, [x10, #-16]
	cbnz	x8, .LBB12_5
.LBB12_11:
	str	x3, [x0]
	cbnz	x9, .LBB12_7
.LBB12_12:
	str	x3, [x0, #8]
	mov	w0, #1
	str	x8, [x2]
	ret
.LBB12_13:
	mov	w0, wzr
	ret
.LBB12_14:
	add	x10, x10, x8, lsl #1
	stur	x3, [x10, #-16]
	cbnz	x9, .LBB12_7
	b	.LBB12_12
.LBB12_15:
	add	x9, x10, x9, lsl #1
	stur	x3, [x9, #-8]
	mov	w0, #1
	str	x8, [x2]
	ret
.Lfunc_end12:
	.size	ic_chain.edits.LinkListCursorOps.insert_after_at.ff97facb44bf5e09, .Lfunc_end12-ic_chain.edits.LinkListCursorOps.insert_after_at.ff97facb44bf5e09
	.section	.text.ic_chain.edits.LinkListBidirectional.insert_before_at.10cc405e52586c83,"ax",@progbits
	.p2align	2
	.type	ic_chain.edits.LinkListBidirectional.insert_before_at.10cc405e52586c83,@function
ic_chain.edits.LinkListBidirectional.insert_before_at.10cc405e52586c83:
	cbz	x2, .LBB13_8
	lsr	x8, x2, #3
	mov	w10, #24
	ldr	x9, [x1, #8]
	madd	x8, x8, x10, x9
	ldrb	w10, [x1]
	add	x11, x9, x2, lsl #1
	sub	x11, x11, #8
	cmp	w10, #0
	sub	x8, x8, #24
	csel	x8, x11, x8, eq
	ldr	x8, [x8]
	cbz	w10, .LBB13_9
.LBB13_2:
	lsr	x10, x3, #3
	mov	w11, #24
	madd	x9, x10, x11, x9
	ldurb	w10, [x9, #-8]
	tbnz	w10, #1, .LBB13_13
	mov	w10, #3
	stur	x8, [x9, #-24]
	stp	x2, x10, [x9, #-16]
	cbz	x8, .LBB13_11
.LBB13_4:
	ldrb	w10, [x1]
	ldr	x9, [x1, #8]
	cbz	w10, .LBB13_14
	lsr	x8, x8, #3
	mov	w10, #24
	madd	x8, x8, x10, x9
	stur	x3, [x8, #-16]
	cbz	x2, .LBB13_12
.LBB13_6:
	ldrb	w9, [x1]
	ldr	x8, [x1, #8]
	cbz	w9, .LBB13_15
	lsr	x9, x2, #3
	mov	w10, #24
	mov	w0, #1
	madd	x8, x9, x10, x8
	stur	x3, [x8, #-24]
	ret
.LBB13_8:
	ldrb	w10, [x1]
	ldr	x9, [x1, #8]
	add	x8, x0, #8
	ldr	x8, [x8]
	cbnz	w10, .LBB13_2
.LBB13_9:
	add	x9, x9, x3, lsl #1
	ldur	x10, [x9, #-16]
	cmp	x10, #1
	b.ne	.LBB13_13
	stp	x2, x8, [x9, #-16]
	cbnz	x8, .LBB13_4
.LBB13_11:
	str	x3, [x0]
	cbnz	x2, .LBB13_6
.LBB13_12:
	str	x3, [x0, #8]
	mov	w0, #1
	ret
.LBB13_13:
	mov	w0, wzr
	ret
.LBB13_14:
	add	x8, x9, x8, lsl #1
	stur	x3, [x8, #-16]
	cbnz	x2, .LBB13_6
	b	.LBB13_12
.LBB13_15:
	add	x8, x8, x2, lsl #1
	mov	w0, #1
	stur	x3, [x8, #-8]
	ret
.Lfunc_end13:
	.size	ic_chain.edits.LinkListBidirectional.insert_before_at.10cc405e52586c83, .Lfunc_end13-ic_chain.edits.LinkListBidirectional.insert_before_at.10cc405e52586c83
	.section	.text.ic_chain.edits.LinkListCursorOps.insert_after_at.0649bf66f9d3822c,"ax",@progbits
	.p2align	2
	.type	ic_chain.edits.LinkListCursorOps.insert_after_at.0649bf66f9d3822c,@function
ic_chain.edits.LinkListCursorOps.insert_after_at.0649bf66f9d3822c:
	stp	x29, x30, [sp, #-48]!
	str	x21, [sp, #16]
	ldr	x21, [x2]
	mov	x29, sp
	stp	x20, x19, [sp, #32]
	mov	x20, x3
	mov	x19, x2
	cmp	x21, #0
	cset	w2, ne
	cbz	x21, .LBB14_4
	ldr	x8, [x19, #8]
	cmp	x8, x21
	eor	x6, x8, x21
	cset	w5, ne
	mov	x3, x21
	mov	x4, x20
	bl	ic_chain.list.LinkList.insert_between.06e6478965f9faac
	tbz	w0, #0, .LBB14_3
.LBB14_2:
	eor	x8, x21, x20
	stp	x21, x8, [x19]
.LBB14_3:
	ldp	x20, x19, [sp, #32]
	ldr	x21, [sp, #16]
	ldp	x29, x30, [sp], #48
	ret
.LBB14_4:
	ldr	x6, [x0]
	cmp	x6, #0
	cset	w5, ne
	mov	x3, x21
	mov	x4, x20
	bl	ic_chain.list.LinkList.insert_between.06e6478965f9faac
	tbnz	w0, #0, .LBB14_2
	b	.LBB14_3
.Lfunc_end14:
	.size	ic_chain.edits.LinkListCursorOps.insert_after_at.0649bf66f9d3822c, .Lfunc_end14-ic_chain.edits.LinkListCursorOps.insert_after_at.0649bf66f9d3822c
	.section	.text.ic_chain.list.LinkList.insert_between.06e6478965f9faac,"ax",@progbits
	.p2align	2
	.type	ic_chain.list.LinkList.insert_between.06e6478965f9faac,@function
ic_chain.list.LinkList.insert_between.06e6478965f9faac:
	ldrb	w8, [x1]
	cmp	w8, #2
	b.eq	.LBB15_5
	cmp	w8, #1
	ldr	x8, [x1, #8]
	add	x8, x8, x4
	ldur	x9, [x8, #-8]
	cmp	x9, #1
	b.ne	.LBB15_13
	tst	w2, #0xff
	csel	x9, xzr, x3, eq
	tst	w5, #0xff
	csel	x10, xzr, x6, eq
	eor	x9, x10, x9
	stur	x9, [x8, #-8]
	tbz	w2, #0, .LBB15_10
.LBB15_3:
	ldrb	w8, [x1]
	cmp	w8, #2
	b.eq	.LBB15_14
	cmp	w8, #1
	ldr	x8, [x1, #8]
	tst	w5, #0xff
	add	x8, x8, x3
	csel	x10, xzr, x6, eq
	ldur	x9, [x8, #-8]
	eor	x10, x10, x4
	eor	x9, x10, x9
	stur	x9, [x8, #-8]
	tbnz	w5, #0, .LBB15_11
	b	.LBB15_20
.LBB15_5:
	ldrb	w9, [x1, #8]
	ldr	x8, [x1, #16]
	cbz	w9, .LBB15_8
	lsr	x9, x4, #3
	mov	w10, #24
	madd	x8, x9, x10, x8
	ldurb	w9, [x8, #-8]
	tbnz	w9, #1, .LBB15_13
	tst	w2, #0xff
	mov	w11, #3
	csel	x9, xzr, x3, eq
	tst	w5, #0xff
	csel	x10, xzr, x6, eq
	eor	x9, x10, x9
	stp	x9, x11, [x8, #-16]
	tbnz	w2, #0, .LBB15_3
	b	.LBB15_10
.LBB15_8:
	add	x8, x8, x4, lsl #1
	ldur	x9, [x8, #-16]
	cmp	x9, #1
	b.ne	.LBB15_13
	tst	w2, #0xff
	csel	x9, xzr, x3, eq
	tst	w5, #0xff
	csel	x10, xzr, x6, eq
	eor	x9, x10, x9
	stur	x9, [x8, #-16]
	tbnz	w2, #0, .LBB15_3
.LBB15_10:
	str	x4, [x0]
	tbz	w5, #0, .LBB15_20
.LBB15_11:
	ldrb	w8, [x1]
	cmp	w8, #2
	b.eq	.LBB15_16
	cmp	w8, #1
	ldr	x8, [x1, #8]
	mov	w0, #1
	tst	w2, #0xff
	add	x8, x8, x6
	csel	x10, xzr, x3, eq
	ldur	x9, [x8, #-8]
	eor	x10, x10, x4
	eor	x9, x10, x9
	stur	x9, [x8, #-8]
	ret
.LBB15_13:
	mov	w0, wzr
	ret
.LBB15_14:
	ldrb	w9, [x1, #8]
	ldr	x8, [x1, #16]
	cbz	w9, .LBB15_18
	lsr	x9, x3, #3
	mov	w10, #24
	madd	x8, x9, x10, x8
	b	.LBB15_19
.LBB15_16:
	ldrb	w9, [x1, #8]
	ldr	x8, [x1, #16]
	cbz	w9, .LBB15_21
	lsr	x9, x6, #3
	mov	w10, #24
	madd	x8, x9, x10, x8
	b	.LBB15_22
.LBB15_18:
	add	x8, x8, x3, lsl #1
.LBB15_19:
	tst	w5, #0xff
	ldur	x9, [x8, #-16]
	csel	x10, xzr, x6, eq
	eor	x10, x10, x4
	eor	x9, x10, x9
	stur	x9, [x8, #-16]
	tbnz	w5, #0, .LBB15_11
.LBB15_20:
	str	x4, [x0, #8]
	mov	w0, #1
	ret
.LBB15_21:
	add	x8, x8, x6, lsl #1
.LBB15_22:
	tst	w2, #0xff
	ldur	x9, [x8, #-16]
	mov	w0, #1
	csel	x10, xzr, x3, eq
	eor	x10, x10, x4
	eor	x9, x10, x9
	stur	x9, [x8, #-16]
	ret
.Lfunc_end15:
	.size	ic_chain.list.LinkList.insert_between.06e6478965f9faac, .Lfunc_end15-ic_chain.list.LinkList.insert_between.06e6478965f9faac
	.section	.text.ic_chain.edits.LinkListBidirectional.insert_before_at.d62ae654698fb858,"ax",@progbits
	.p2align	2
	.type	ic_chain.edits.LinkListBidirectional.insert_before_at.d62ae654698fb858,@function
ic_chain.edits.LinkListBidirectional.insert_before_at.d62ae654698fb858:
	mov	x6, x2
	cbz	x2, .LBB16_3
	ldrb	w9, [x1]
	eor	x8, x3, x6
	cmp	w9, #2
	b.eq	.LBB16_4
	cmp	w9, #1
	ldr	x9, [x1, #8]
	add	x9, x9, x6
	sub	x9, x9, #8
	b	.LBB16_5
.LBB16_3:
	ldr	x3, [x0, #8]
	cmp	x3, #0
	b	.LBB16_6
.LBB16_4:
	lsr	x9, x6, #3
	mov	w10, #24
	ldr	x11, [x1, #16]
	madd	x9, x9, x10, x11
	ldrb	w10, [x1, #8]
	add	x11, x11, x6, lsl #1
	sub	x11, x11, #16
	cmp	w10, #0
	sub	x9, x9, #16
	csel	x9, x9, x11, ne
.LBB16_5:
	ldr	x9, [x9]
	cmp	x9, x8
	eor	x3, x9, x8
.LBB16_6:
	cset	w2, ne
	stp	x29, x30, [sp, #-16]!
	cmp	x6, #0
	mov	x29, sp
	cset	w5, ne
	bl	ic_chain.list.LinkList.insert_between.06e6478965f9faac
	ldp	x29, x30, [sp], #16
	ret
.Lfunc_end16:
	.size	ic_chain.edits.LinkListBidirectional.insert_before_at.d62ae654698fb858, .Lfunc_end16-ic_chain.edits.LinkListBidirectional.insert_before_at.d62ae654698fb858
	.section	.text.ic_rbtree.edits.RBTreeCursorOps.insert_after_at.b002bc248359831b,"ax",@progbits
	.p2align	2
	.type	ic_rbtree.edits.RBTreeCursorOps.insert_after_at.b002bc248359831b,@function
ic_rbtree.edits.RBTreeCursorOps.insert_after_at.b002bc248359831b:
	mov	x5, x3
	mov	x3, x2
	mov	x8, x1
	mov	x1, x0
	mov	x9, x0
	cbz	x2, .LBB17_2
	lsr	x9, x3, #3
	mov	w10, #24
	ldr	x11, [x8]
	madd	x9, x9, x10, x11
	sub	x9, x9, #16
.LBB17_2:
	stp	x29, x30, [sp, #-16]!
	ldr	x9, [x9]
	mov	x29, sp
	cbz	x9, .LBB17_6
	ldr	x10, [x8]
	sub	x10, x10, #24
.LBB17_4:
	mov	x3, x9
	lsr	x9, x9, #3
	mov	w11, #24
	mul	x9, x9, x11
	ldr	x9, [x10, x9]
	cbnz	x9, .LBB17_4
	mov	w4, wzr
	mov	w2, #1
	mov	x0, x8
	bl	ic_rbtree.linking.insert.bca35351c984244a
	ldp	x29, x30, [sp], #16
	ret
.LBB17_6:
	cmp	x3, #0
	mov	w4, #1
	cset	w2, ne
	mov	x0, x8
	bl	ic_rbtree.linking.insert.bca35351c984244a
	ldp	x29, x30, [sp], #16
	ret
.Lfunc_end17:
	.size	ic_rbtree.edits.RBTreeCursorOps.insert_after_at.b002bc248359831b, .Lfunc_end17-ic_rbtree.edits.RBTreeCursorOps.insert_after_at.b002bc248359831b
	.section	.text.ic_rbtree.linking.insert.bca35351c984244a,"ax",@progbits
	.p2align	2
	.type	ic_rbtree.linking.insert.bca35351c984244a,@function
ic_rbtree.linking.insert.bca35351c984244a:
	lsr	x8, x5, #2
	ldr	x10, [x0]
	add	x8, x8, x5, lsr #3
	lsl	x9, x8, #3
	add	x10, x10, x9
	ldur	x8, [x10, #-8]
	tbnz	w8, #1, .LBB18_5
	mov	w11, #3
	tst	w2, #0xff
	stur	x11, [x10, #-8]
	ldr	x10, [x0]
	add	x10, x10, x9
	stur	xzr, [x10, #-24]
	ldr	x10, [x0]
	add	x10, x10, x9
	stur	xzr, [x10, #-16]
	ldr	x10, [x0]
	add	x9, x10, x9
	b.eq	.LBB18_4
	orr	x10, x3, #0x2
	lsr	x11, x3, #3
	tst	w4, #0xff
	stur	x10, [x9, #-8]
	mov	w9, #24
	ldr	x10, [x0]
	madd	x9, x11, x9, x10
	b.eq	.LBB18_6
	stur	x5, [x9, #-16]
	b	.LBB18_7
.LBB18_4:
	mov	w10, #3
	stur	x10, [x9, #-8]
	str	x5, [x1]
.LBB18_5:
	tst	x8, #0x2
	cset	w0, eq
	ret
.LBB18_6:
	stur	x5, [x9, #-24]
.LBB18_7:
	mov	w10, wzr
	mov	w12, #67
	b	.LBB18_9
.LBB18_8:
	orr	x11, x16, #0x1
	ldur	x13, [x17, #-8]
	mov	x5, x9
	stur	x11, [x14, #-8]
	ldr	x11, [x0]
	cmp	x13, #8
	add	x11, x11, x18
	ldur	x14, [x11, #-8]
	orr	x14, x14, #0x1
	stur	x14, [x11, #-8]
	ldr	x11, [x0]
	add	x10, x11, x10
	ldur	x11, [x10, #-8]
	and	x11, x11, #0xfffffffffffffffe
	cinc	x11, x11, lo
	stur	x11, [x10, #-8]
	mov	w10, #24
	ldr	x11, [x0]
	madd	x10, x15, x10, x11
	ldur	x10, [x10, #-8]
	ands	x3, x10, #0xfffffffffffffff8
	cset	w10, eq
	subs	w12, w12, #1
	b.eq	.LBB18_5
.LBB18_9:
	tbnz	w10, #0, .LBB18_5
	lsr	x9, x3, #2
	ldr	x13, [x0]
	add	x9, x9, x3, lsr #3
	lsl	x11, x9, #3
	add	x14, x13, x11
	ldur	x16, [x14, #-8]
	tbnz	w16, #0, .LBB18_5
	ands	x9, x16, #0xfffffffffffffff8
	b.eq	.LBB18_5
	lsr	x15, x16, #3
	add	x10, x15, x15, lsl #1
	lsl	x10, x10, #3
	add	x17, x13, x10
	ldur	x18, [x17, #-24]
	cmp	x18, x3
	b.ne	.LBB18_15
	ldur	x18, [x17, #-16]
	cbz	x18, .LBB18_22
	lsr	x2, x18, #2
	add	x18, x2, x18, lsr #3
	lsl	x18, x18, #3
	add	x2, x13, x18
	ldur	w2, [x2, #-8]
	tbz	w2, #0, .LBB18_8
	b	.LBB18_22
.LBB18_15:
	cbz	x18, .LBB18_17
	lsr	x2, x18, #2
	add	x18, x2, x18, lsr #3
	lsl	x18, x18, #3
	add	x2, x13, x18
	ldur	w2, [x2, #-8]
	tbz	w2, #0, .LBB18_8
.LBB18_17:
	ldur	x12, [x14, #-24]
	cmp	x12, x5
	b.ne	.LBB18_24
	lsr	x12, x5, #2
	add	x12, x12, x5, lsr #3
	lsl	x12, x12, #3
	add	x13, x13, x12
	ldur	x13, [x13, #-16]
	stur	x13, [x14, #-24]
	cbz	x13, .LBB18_20
	lsr	x13, x13, #3
	mov	w14, #24
	ldr	x15, [x0]
	madd	x13, x13, x14, x15
	ldur	x14, [x13, #-8]
	and	x14, x14, #0x7
	orr	x14, x14, x3
	stur	x14, [x13, #-8]
.LBB18_20:
	ldr	x13, [x0]
	orr	x14, x9, #0x2
	add	x13, x13, x12
	stur	x14, [x13, #-8]
	ldr	x13, [x0]
	add	x13, x13, x10
	ldur	x14, [x13, #-24]
	cmp	x14, x3
	b.ne	.LBB18_29
	stur	x5, [x13, #-24]
	b	.LBB18_30
.LBB18_22:
	ldur	x12, [x14, #-24]
	cmp	x12, x5
	b.ne	.LBB18_25
	mov	x12, x11
	mov	x5, x3
	b	.LBB18_41
.LBB18_24:
	mov	x12, x11
	mov	x5, x3
	b	.LBB18_31
.LBB18_25:
	lsr	x12, x5, #2
	add	x12, x12, x5, lsr #3
	lsl	x12, x12, #3
	add	x13, x13, x12
	ldur	x13, [x13, #-24]
	stur	x13, [x14, #-16]
	cbz	x13, .LBB18_27
	lsr	x13, x13, #3
	mov	w14, #24
	ldr	x15, [x0]
	madd	x13, x13, x14, x15
	ldur	x14, [x13, #-8]
	and	x14, x14, #0x7
	orr	x14, x14, x3
	stur	x14, [x13, #-8]
.LBB18_27:
	ldr	x13, [x0]
	orr	x14, x9, #0x2
	add	x13, x13, x12
	stur	x14, [x13, #-8]
	ldr	x13, [x0]
	add	x13, x13, x10
	ldur	x14, [x13, #-24]
	cmp	x14, x3
	b.ne	.LBB18_39
	stur	x5, [x13, #-24]
	b	.LBB18_40
.LBB18_29:
	stur	x5, [x13, #-16]
.LBB18_30:
	ldr	x13, [x0]
	add	x13, x13, x12
	stur	x3, [x13, #-16]
	ldr	x13, [x0]
	add	x11, x13, x11
	orr	x13, x5, #0x2
	stur	x13, [x11, #-8]
	ldr	x13, [x0]
.LBB18_31:
	add	x11, x13, x12
	add	x15, x13, x10
	ldur	x14, [x11, #-24]
	ldur	x11, [x15, #-8]
	and	x13, x11, #0xfffffffffffffff8
	stur	x14, [x15, #-16]
	cbz	x14, .LBB18_33
	lsr	x14, x14, #3
	mov	w15, #24
	ldr	x16, [x0]
	madd	x14, x14, x15, x16
	ldur	x15, [x14, #-8]
	and	x15, x15, #0x7
	orr	x15, x15, x9
	stur	x15, [x14, #-8]
.LBB18_33:
	ldr	x14, [x0]
	orr	x15, x13, #0x3
	add	x14, x14, x12
	stur	x15, [x14, #-8]
	cbz	x13, .LBB18_36
	lsr	x11, x11, #3
	mov	w13, #24
	ldr	x14, [x0]
	madd	x11, x11, x13, x14
	ldur	x13, [x11, #-24]
	cmp	x13, x9
	b.ne	.LBB18_37
	stur	x5, [x11, #-24]
	b	.LBB18_38
.LBB18_36:
	str	x5, [x1]
	b	.LBB18_38
.LBB18_37:
	stur	x5, [x11, #-16]
.LBB18_38:
	ldr	x11, [x0]
	add	x11, x11, x12
	stur	x9, [x11, #-24]
	b	.LBB18_49
.LBB18_39:
	stur	x5, [x13, #-16]
.LBB18_40:
	ldr	x13, [x0]
	add	x13, x13, x12
	stur	x3, [x13, #-24]
	ldr	x13, [x0]
	add	x11, x13, x11
	orr	x13, x5, #0x2
	stur	x13, [x11, #-8]
	ldr	x13, [x0]
.LBB18_41:
	add	x11, x13, x12
	add	x15, x13, x10
	ldur	x14, [x11, #-16]
	ldur	x11, [x15, #-8]
	and	x13, x11, #0xfffffffffffffff8
	stur	x14, [x15, #-24]
	cbz	x14, .LBB18_43
	lsr	x14, x14, #3
	mov	w15, #24
	ldr	x16, [x0]
	madd	x14, x14, x15, x16
	ldur	x15, [x14, #-8]
	and	x15, x15, #0x7
	orr	x15, x15, x9
	stur	x15, [x14, #-8]
.LBB18_43:
	ldr	x14, [x0]
	orr	x15, x13, #0x3
	add	x14, x14, x12
	stur	x15, [x14, #-8]
	cbz	x13, .LBB18_46
	lsr	x11, x11, #3
	mov	w13, #24
	ldr	x14, [x0]
	madd	x11, x11, x13, x14
	ldur	x13, [x11, #-24]
	cmp	x13, x9
	b.ne	.LBB18_47
	stur	x5, [x11, #-24]
	b	.LBB18_48
.LBB18_46:
	str	x5, [x1]
	b	.LBB18_48
.LBB18_47:
	stur	x5, [x11, #-16]
.LBB18_48:
	ldr	x11, [x0]
	add	x11, x11, x12
	stur	x9, [x11, #-16]
.LBB18_49:
	ldr	x9, [x0]
	add	x9, x9, x10
	orr	x10, x5, #0x2
	stur	x10, [x9, #-8]
	tst	x8, #0x2
	cset	w0, eq
	ret
.Lfunc_end18:
	.size	ic_rbtree.linking.insert.bca35351c984244a, .Lfunc_end18-ic_rbtree.linking.insert.bca35351c984244a
	.section	.text.ic_rbtree.edits.RBTreeBidirectional.insert_before_at.b002bc248359831b,"ax",@progbits
	.p2align	2
	.type	ic_rbtree.edits.RBTreeBidirectional.insert_before_at.b002bc248359831b,@function
ic_rbtree.edits.RBTreeBidirectional.insert_before_at.b002bc248359831b:
	mov	x5, x3
	mov	x3, x2
	mov	x8, x1
	mov	x1, x0
	mov	x9, x0
	cbz	x2, .LBB19_2
	lsr	x9, x3, #3
	mov	w10, #24
	ldr	x11, [x8]
	madd	x9, x9, x10, x11
	sub	x9, x9, #24
.LBB19_2:
	stp	x29, x30, [sp, #-16]!
	ldr	x9, [x9]
	mov	x29, sp
	cbz	x9, .LBB19_6
	ldr	x10, [x8]
	sub	x10, x10, #16
.LBB19_4:
	mov	x3, x9
	lsr	x9, x9, #3
	mov	w11, #24
	mul	x9, x9, x11
	ldr	x9, [x10, x9]
	cbnz	x9, .LBB19_4
	mov	w2, #1
	mov	w4, #1
	mov	x0, x8
	bl	ic_rbtree.linking.insert.bca35351c984244a
	ldp	x29, x30, [sp], #16
	ret
.LBB19_6:
	cmp	x3, #0
	mov	w4, wzr
	cset	w2, ne
	mov	x0, x8
	bl	ic_rbtree.linking.insert.bca35351c984244a
	ldp	x29, x30, [sp], #16
	ret
.Lfunc_end19:
	.size	ic_rbtree.edits.RBTreeBidirectional.insert_before_at.b002bc248359831b, .Lfunc_end19-ic_rbtree.edits.RBTreeBidirectional.insert_before_at.b002bc248359831b
	.section	.text.ic_chain.edits.LinkListForwardOnly.remove_next_at.927dec3b43ebc9b0,"ax",@progbits
	.p2align	2
	.type	ic_chain.edits.LinkListForwardOnly.remove_next_at.927dec3b43ebc9b0,@function
ic_chain.edits.LinkListForwardOnly.remove_next_at.927dec3b43ebc9b0:
	ldr	x9, [x2]
	mov	x8, x0
	cbz	x9, .LBB20_3
	ldrb	w8, [x1]
	cmp	w8, #2
	b.eq	.LBB20_6
	cmp	w8, #1
	ldr	x8, [x1, #8]
	add	x8, x8, x9
	sub	x8, x8, #8
.LBB20_3:
	ldr	x8, [x8]
	cbz	x8, .LBB20_15
.LBB20_4:
	ldrb	w10, [x1]
	cmp	w10, #2
	b.eq	.LBB20_8
	ldr	x11, [x1, #8]
	cmp	w10, #1
	add	x12, x11, x8
	and	w11, w11, #0xff
	sub	x12, x12, #8
	ldr	x12, [x12]
	cbnz	x9, .LBB20_10
	b	.LBB20_17
.LBB20_6:
	ldrb	w10, [x1, #8]
	ldr	x8, [x1, #16]
	cbz	w10, .LBB20_14
	lsr	x10, x9, #3
	mov	w11, #24
	madd	x8, x10, x11, x8
	sub	x8, x8, #16
	ldr	x8, [x8]
	cbnz	x8, .LBB20_4
	b	.LBB20_15
.LBB20_8:
	ldrb	w11, [x1, #8]
	ldr	x12, [x1, #16]
	cbz	w11, .LBB20_16
	lsr	x11, x8, #3
	mov	w13, #24
	madd	x11, x11, x13, x12
	sub	x12, x11, #16
	mov	w11, #1
	ldr	x12, [x12]
	cbz	x9, .LBB20_17
.LBB20_10:
	cmp	w10, #2
	b.eq	.LBB20_12
	cmp	w10, #1
	ldr	x10, [x1, #8]
	add	x10, x10, x9
	stur	x12, [x10, #-8]
	ldrb	w10, [x1]
	cmp	w10, #2
	b.ne	.LBB20_18
	b	.LBB20_20
.LBB20_12:
	ldr	x10, [x1, #16]
	cbz	w11, .LBB20_19
	lsr	x11, x9, #3
	mov	w13, #24
	madd	x10, x11, x13, x10
	stur	x12, [x10, #-16]
	ldrb	w10, [x1]
	cmp	w10, #2
	b.ne	.LBB20_18
	b	.LBB20_20
.LBB20_14:
	add	x8, x8, x9, lsl #1
	sub	x8, x8, #16
	ldr	x8, [x8]
	cbnz	x8, .LBB20_4
.LBB20_15:
	mov	w0, wzr
	mov	x1, x8
	ret
.LBB20_16:
	add	x12, x12, x8, lsl #1
	sub	x12, x12, #16
	ldr	x12, [x12]
	cbnz	x9, .LBB20_10
.LBB20_17:
	str	x12, [x0]
	ldrb	w10, [x1]
	cmp	w10, #2
	b.eq	.LBB20_20
.LBB20_18:
	cmp	w10, #1
	ldr	x10, [x1, #8]
	mov	w11, #1
	add	x10, x10, x8
	stur	x11, [x10, #-8]
	mov	w0, #1
	mov	x1, x8
	str	x9, [x2]
	ret
.LBB20_19:
	add	x10, x10, x9, lsl #1
	stur	x12, [x10, #-16]
	ldrb	w10, [x1]
	cmp	w10, #2
	b.ne	.LBB20_18
.LBB20_20:
	ldrb	w11, [x1, #8]
	ldr	x10, [x1, #16]
	cbz	w11, .LBB20_22
	lsr	x11, x8, #3
	mov	w12, #24
	madd	x10, x11, x12, x10
	stur	xzr, [x10, #-8]
	mov	w0, #1
	mov	x1, x8
	str	x9, [x2]
	ret
.LBB20_22:
	add	x10, x10, x8, lsl #1
	mov	w11, #1
	stur	x11, [x10, #-16]
	mov	w0, #1
	mov	x1, x8
	str	x9, [x2]
	ret
.Lfunc_end20:
	.size	ic_chain.edits.LinkListForwardOnly.remove_next_at.927dec3b43ebc9b0, .Lfunc_end20-ic_chain.edits.LinkListForwardOnly.remove_next_at.927dec3b43ebc9b0
	.section	.text.ic_chain.list.LinkList.pop_front.c73f69cf4880bdd9,"ax",@progbits
	.p2align	2
	.type	ic_chain.list.LinkList.pop_front.c73f69cf4880bdd9,@function
ic_chain.list.LinkList.pop_front.c73f69cf4880bdd9:
	ldr	x8, [x0]
	cbz	x8, .LBB21_4
	lsr	x9, x8, #2
	ldrb	w11, [x1]
	ldr	x12, [x1, #8]
	add	x10, x9, x8, lsr #3
	lsl	x9, x8, #1
	cmp	w11, #0
	lsl	x10, x10, #3
	csel	x11, x9, x10, eq
	add	x11, x12, x11
	ldur	x11, [x11, #-16]
	str	x11, [x0]
	cbz	x11, .LBB21_5
	ldrb	w13, [x1]
	ldr	x12, [x1, #8]
	cbz	w13, .LBB21_7
	lsr	x11, x11, #3
	mov	w13, #24
	madd	x11, x11, x13, x12
	stur	xzr, [x11, #-24]
	ldrb	w12, [x1]
	ldr	x11, [x1, #8]
	cbnz	w12, .LBB21_6
	b	.LBB21_8
.LBB21_4:
	mov	w0, wzr
	mov	x1, x8
	ret
.LBB21_5:
	str	xzr, [x0, #8]
	ldrb	w12, [x1]
	ldr	x11, [x1, #8]
	cbz	w12, .LBB21_8
.LBB21_6:
	add	x9, x11, x10
	mov	w0, #1
	mov	x1, x8
	stur	xzr, [x9, #-8]
	ret
.LBB21_7:
	add	x11, x12, x11, lsl #1
	stur	xzr, [x11, #-8]
	ldrb	w12, [x1]
	ldr	x11, [x1, #8]
	cbnz	w12, .LBB21_6
.LBB21_8:
	add	x9, x11, x9
	mov	w0, #1
	mov	x1, x8
	stur	x0, [x9, #-16]
	ret
.Lfunc_end21:
	.size	ic_chain.list.LinkList.pop_front.c73f69cf4880bdd9, .Lfunc_end21-ic_chain.list.LinkList.pop_front.c73f69cf4880bdd9
	.section	.text.ic_chain.list.LinkList.pop_back.ec8c7c940301e4bd,"ax",@progbits
	.p2align	2
	.type	ic_chain.list.LinkList.pop_back.ec8c7c940301e4bd,@function
ic_chain.list.LinkList.pop_back.ec8c7c940301e4bd:
	ldr	x8, [x0, #8]
	cbz	x8, .LBB22_4
	lsr	x9, x8, #2
	ldr	x12, [x1, #8]
	ldrb	w13, [x1]
	add	x10, x9, x8, lsr #3
	lsl	x9, x8, #1
	cmp	w13, #0
	lsl	x10, x10, #3
	add	x11, x12, x9
	sub	x11, x11, #8
	add	x14, x12, x10
	sub	x14, x14, #24
	csel	x11, x11, x14, eq
	ldr	x11, [x11]
	cbz	x11, .LBB22_5
	cbz	w13, .LBB22_7
	lsr	x13, x11, #3
	mov	w14, #24
	madd	x12, x13, x14, x12
	stur	xzr, [x12, #-16]
	str	x11, [x0, #8]
	ldrb	w12, [x1]
	ldr	x11, [x1, #8]
	cbnz	w12, .LBB22_6
	b	.LBB22_8
.LBB22_4:
	mov	w0, wzr
	mov	x1, x8
	ret
.LBB22_5:
	stp	xzr, x11, [x0]
	ldrb	w12, [x1]
	ldr	x11, [x1, #8]
	cbz	w12, .LBB22_8
.LBB22_6:
	add	x9, x11, x10
	mov	w0, #1
	mov	x1, x8
	stur	xzr, [x9, #-8]
	ret
.LBB22_7:
	add	x12, x12, x11, lsl #1
	stur	xzr, [x12, #-16]
	str	x11, [x0, #8]
	ldrb	w12, [x1]
	ldr	x11, [x1, #8]
	cbnz	w12, .LBB22_6
.LBB22_8:
	add	x9, x11, x9
	mov	w0, #1
	mov	x1, x8
	stur	x0, [x9, #-16]
	ret
.Lfunc_end22:
	.size	ic_chain.list.LinkList.pop_back.ec8c7c940301e4bd, .Lfunc_end22-ic_chain.list.LinkList.pop_back.ec8c7c940301e4bd
	.section	.text.ic_chain.edits.LinkListBidirectional.remove_at.10cc405e52586c83,"ax",@progbits
	.p2align	2
	.type	ic_chain.edits.LinkListBidirectional.remove_at.10cc405e52586c83,@function
ic_chain.edits.LinkListBidirectional.remove_at.10cc405e52586c83:
	mov	x8, x1
	ldr	x1, [x2]
	cbz	x1, .LBB23_6
	lsr	x9, x1, #2
	ldr	x13, [x8, #8]
	ldrb	w14, [x8]
	add	x10, x9, x1, lsr #3
	lsl	x9, x1, #1
	cmp	w14, #0
	lsl	x10, x10, #3
	add	x11, x13, x9
	sub	x11, x11, #8
	add	x12, x13, x10
	csel	x15, x9, x10, eq
	sub	x12, x12, #24
	csel	x11, x11, x12, eq
	ldr	x12, [x11]
	add	x11, x13, x15
	ldur	x11, [x11, #-16]
	cbz	x12, .LBB23_7
	cbz	w14, .LBB23_10
	lsr	x14, x12, #3
	mov	w15, #24
	madd	x13, x14, x15, x13
	stur	x11, [x13, #-16]
	cbz	x11, .LBB23_8
.LBB23_4:
	ldrb	w14, [x8]
	ldr	x13, [x8, #8]
	cbz	w14, .LBB23_11
	lsr	x14, x11, #3
	mov	w15, #24
	madd	x13, x14, x15, x13
	stur	x12, [x13, #-24]
	ldrb	w12, [x8]
	ldr	x8, [x8, #8]
	cbnz	w12, .LBB23_9
	b	.LBB23_12
.LBB23_6:
	mov	w0, wzr
	ret
.LBB23_7:
	str	x11, [x0]
	cbnz	x11, .LBB23_4
.LBB23_8:
	str	x12, [x0, #8]
	ldrb	w12, [x8]
	ldr	x8, [x8, #8]
	cbz	w12, .LBB23_12
.LBB23_9:
	add	x8, x8, x10
	stur	xzr, [x8, #-8]
	mov	w0, #1
	str	x11, [x2]
	ret
.LBB23_10:
	add	x13, x13, x12, lsl #1
	stur	x11, [x13, #-16]
	cbnz	x11, .LBB23_4
	b	.LBB23_8
.LBB23_11:
	add	x13, x13, x11, lsl #1
	stur	x12, [x13, #-8]
	ldrb	w12, [x8]
	ldr	x8, [x8, #8]
	cbnz	w12, .LBB23_9
.LBB23_12:
	add	x8, x8, x9
	mov	w9, #1
	stur	x9, [x8, #-16]
	mov	w0, #1
	str	x11, [x2]
	ret
.Lfunc_end23:
	.size	ic_chain.edits.LinkListBidirectional.remove_at.10cc405e52586c83, .Lfunc_end23-ic_chain.edits.LinkListBidirectional.remove_at.10cc405e52586c83
	.section	.text.ic_chain.list.LinkList.pop_front.06e6478965f9faac,"ax",@progbits
	.p2align	2
	.type	ic_chain.list.LinkList.pop_front.06e6478965f9faac,@function
ic_chain.list.LinkList.pop_front.06e6478965f9faac:
	ldr	x8, [x0]
	cbz	x8, .LBB24_5
	ldrb	w9, [x1]
	cmp	w9, #2
	b.eq	.LBB24_6
	cmp	w9, #1
	ldr	x9, [x1, #8]
	add	x9, x9, x8
	ldur	x9, [x9, #-8]
	str	x9, [x0]
	cbz	x9, .LBB24_11
.LBB24_3:
	ldrb	w10, [x1]
	cmp	w10, #2
	b.eq	.LBB24_8
	cmp	w10, #1
	ldr	x10, [x1, #8]
	add	x9, x10, x9
	ldur	x10, [x9, #-8]
	eor	x10, x10, x8
	stur	x10, [x9, #-8]
	ldrb	w9, [x1]
	cmp	w9, #2
	b.ne	.LBB24_12
	b	.LBB24_17
.LBB24_5:
	mov	w0, wzr
	mov	x1, x8
	ret
.LBB24_6:
	ldrb	w10, [x1, #8]
	ldr	x9, [x1, #16]
	cbz	w10, .LBB24_10
	lsr	x10, x8, #3
	mov	w11, #24
	madd	x9, x10, x11, x9
	ldur	x9, [x9, #-16]
	str	x9, [x0]
	cbnz	x9, .LBB24_3
	b	.LBB24_11
.LBB24_8:
	ldrb	w11, [x1, #8]
	ldr	x10, [x1, #16]
	cbz	w11, .LBB24_15
	lsr	x9, x9, #3
	mov	w11, #24
	madd	x9, x9, x11, x10
	b	.LBB24_16
.LBB24_10:
	add	x9, x9, x8, lsl #1
	ldur	x9, [x9, #-16]
	str	x9, [x0]
	cbnz	x9, .LBB24_3
.LBB24_11:
	str	xzr, [x0, #8]
	ldrb	w9, [x1]
	cmp	w9, #2
	b.eq	.LBB24_17
.LBB24_12:
	cmp	w9, #1
	b.ne	.LBB24_14
	ldr	x9, [x1, #8]
	mov	w0, #1
	mov	x1, x8
	add	x9, x9, x8
	stur	x0, [x9, #-8]
	ret
.LBB24_14:
	ldr	x9, [x1, #8]
	mov	w0, #1
	mov	x1, x8
	add	x9, x9, x8
	stur	x0, [x9, #-8]
	ret
.LBB24_15:
	add	x9, x10, x9, lsl #1
.LBB24_16:
	ldur	x10, [x9, #-16]
	eor	x10, x10, x8
	stur	x10, [x9, #-16]
	ldrb	w9, [x1]
	cmp	w9, #2
	b.ne	.LBB24_12
.LBB24_17:
	ldrb	w10, [x1, #8]
	ldr	x9, [x1, #16]
	cbz	w10, .LBB24_19
	lsr	x10, x8, #3
	mov	w11, #24
	mov	w0, #1
	mov	x1, x8
	madd	x9, x10, x11, x9
	stur	xzr, [x9, #-8]
	ret
.LBB24_19:
	add	x9, x9, x8, lsl #1
	mov	w0, #1
	mov	x1, x8
	stur	x0, [x9, #-16]
	ret
.Lfunc_end24:
	.size	ic_chain.list.LinkList.pop_front.06e6478965f9faac, .Lfunc_end24-ic_chain.list.LinkList.pop_front.06e6478965f9faac
	.section	.text.ic_chain.list.LinkList.pop_back.7fb09df028d12790,"ax",@progbits
	.p2align	2
	.type	ic_chain.list.LinkList.pop_back.7fb09df028d12790,@function
ic_chain.list.LinkList.pop_back.7fb09df028d12790:
	ldr	x8, [x0, #8]
	cbz	x8, .LBB25_4
	ldrb	w9, [x1]
	cmp	w9, #2
	b.eq	.LBB25_5
	ldr	x10, [x1, #8]
	cmp	w9, #1
	add	x9, x10, x8
	ldur	x9, [x9, #-8]
	cbz	x9, .LBB25_13
	add	x10, x10, x9
	ldur	x11, [x10, #-8]
	eor	x11, x11, x8
	stur	x11, [x10, #-8]
	str	x9, [x0, #8]
	ldrb	w9, [x1]
	cmp	w9, #2
	b.ne	.LBB25_14
	b	.LBB25_11
.LBB25_4:
	mov	w0, wzr
	mov	x1, x8
	ret
.LBB25_5:
	ldrb	w9, [x1, #8]
	ldr	x10, [x1, #16]
	cbz	w9, .LBB25_8
	lsr	x9, x8, #3
	mov	w11, #24
	madd	x9, x9, x11, x10
	ldur	x9, [x9, #-16]
	cbz	x9, .LBB25_13
	lsr	x11, x9, #3
	mov	w12, #24
	madd	x10, x11, x12, x10
	b	.LBB25_10
.LBB25_8:
	add	x9, x10, x8, lsl #1
	ldur	x9, [x9, #-16]
	cbz	x9, .LBB25_13
	add	x10, x10, x9, lsl #1
.LBB25_10:
	ldur	x11, [x10, #-16]
	eor	x11, x11, x8
	stur	x11, [x10, #-16]
	str	x9, [x0, #8]
	ldrb	w9, [x1]
	cmp	w9, #2
	b.ne	.LBB25_14
.LBB25_11:
	ldrb	w10, [x1, #8]
	ldr	x9, [x1, #16]
	cbz	w10, .LBB25_17
	lsr	x10, x8, #3
	mov	w11, #24
	mov	w0, #1
	mov	x1, x8
	madd	x9, x10, x11, x9
	stur	xzr, [x9, #-8]
	ret
.LBB25_13:
	stp	xzr, xzr, [x0]
	ldrb	w9, [x1]
	cmp	w9, #2
	b.eq	.LBB25_11
.LBB25_14:
	cmp	w9, #1
	b.ne	.LBB25_16
	ldr	x9, [x1, #8]
	mov	w0, #1
	mov	x1, x8
	add	x9, x9, x8
	stur	x0, [x9, #-8]
	ret
.LBB25_16:
	ldr	x9, [x1, #8]
	mov	w0, #1
	mov	x1, x8
	add	x9, x9, x8
	stur	x0, [x9, #-8]
	ret
.LBB25_17:
	add	x9, x9, x8, lsl #1
	mov	w0, #1
	mov	x1, x8
	stur	x0, [x9, #-16]
	ret
.Lfunc_end25:
	.size	ic_chain.list.LinkList.pop_back.7fb09df028d12790, .Lfunc_end25-ic_chain.list.LinkList.pop_back.7fb09df028d12790
	.section	.text.ic_chain.edits.LinkListBidirectional.remove_at.d62ae654698fb858,"ax",@progbits
	.p2align	2
	.type	ic_chain.edits.LinkListBidirectional.remove_at.d62ae654698fb858,@function
ic_chain.edits.LinkListBidirectional.remove_at.d62ae654698fb858:
	mov	x8, x1
	ldr	x1, [x2]
	cbz	x1, .LBB26_3
	ldrb	w11, [x8]
	ldr	x12, [x2, #8]
	cmp	w11, #2
	eor	x9, x12, x1
	b.eq	.LBB26_4
	ldr	x13, [x8, #8]
	cmp	w11, #1
	add	x10, x13, x1
	and	w13, w13, #0xff
	sub	x10, x10, #8
	ldr	x10, [x10]
	cmp	x10, x9
	eor	x10, x10, x9
	b.eq	.LBB26_6
	b	.LBB26_9
.LBB26_3:
	mov	w0, wzr
	ret
.LBB26_4:
	ldrb	w13, [x8, #8]
	ldr	x10, [x8, #16]
	cbz	w13, .LBB26_8
	lsr	x13, x1, #3
	mov	w14, #24
	madd	x10, x13, x14, x10
	mov	w13, #1
	sub	x10, x10, #16
	ldr	x10, [x10]
	cmp	x10, x9
	eor	x10, x10, x9
	b.ne	.LBB26_9
.LBB26_6:
	mov	x13, xzr
	mov	w11, wzr
	cmp	x12, x1
	str	x9, [x0]
	b.ne	.LBB26_15
.LBB26_7:
	mov	w12, wzr
	str	x13, [x0, #8]
	ldrb	w13, [x8]
	cmp	w13, #2
	b.ne	.LBB26_17
	b	.LBB26_22
.LBB26_8:
	add	x10, x10, x1, lsl #1
	sub	x10, x10, #16
	ldr	x10, [x10]
	cmp	x10, x9
	eor	x10, x10, x9
	b.eq	.LBB26_6
.LBB26_9:
	cmp	w11, #2
	b.eq	.LBB26_11
	cmp	w11, #1
	ldr	x11, [x8, #8]
	cmp	x12, x1
	add	x11, x11, x10
	ldur	x13, [x11, #-8]
	eor	x13, x12, x13
	stur	x13, [x11, #-8]
	mov	w11, #1
	mov	x13, x10
	b.eq	.LBB26_7
	b	.LBB26_15
.LBB26_11:
	ldr	x11, [x8, #16]
	cbz	w13, .LBB26_13
	lsr	x13, x10, #3
	mov	w14, #24
	madd	x11, x13, x14, x11
	b	.LBB26_14
.LBB26_13:
	add	x11, x11, x10, lsl #1
.LBB26_14:
	ldur	x13, [x11, #-16]
	cmp	x12, x1
	eor	x13, x12, x13
	stur	x13, [x11, #-16]
	mov	w11, #1
	mov	x13, x10
	b.eq	.LBB26_7
.LBB26_15:
	ldrb	w12, [x8]
	cmp	w12, #2
	b.eq	.LBB26_18
	cmp	w12, #1
	ldr	x12, [x8, #8]
	eor	x13, x1, x13
	add	x12, x12, x9
	ldur	x14, [x12, #-8]
	eor	x13, x13, x14
	stur	x13, [x12, #-8]
	mov	w12, #1
	ldrb	w13, [x8]
	cmp	w13, #2
	b.eq	.LBB26_22
.LBB26_17:
	cmp	w13, #1
	ldr	x13, [x8, #8]
	mov	w14, #1
	add	x13, x13, x1
	stur	x14, [x13, #-8]
	cbnz	w12, .LBB26_24
	b	.LBB26_29
.LBB26_18:
	ldrb	w14, [x8, #8]
	ldr	x12, [x8, #16]
	cbz	w14, .LBB26_20
	lsr	x14, x9, #3
	mov	w15, #24
	madd	x12, x14, x15, x12
	b	.LBB26_21
.LBB26_20:
	add	x12, x12, x9, lsl #1
.LBB26_21:
	ldur	x14, [x12, #-16]
	eor	x13, x1, x13
	eor	x13, x13, x14
	stur	x13, [x12, #-16]
	mov	w12, #1
	ldrb	w13, [x8]
	cmp	w13, #2
	b.ne	.LBB26_17
.LBB26_22:
	ldrb	w14, [x8, #8]
	ldr	x13, [x8, #16]
	cbz	w14, .LBB26_28
	lsr	x14, x1, #3
	mov	w15, #24
	madd	x13, x14, x15, x13
	stur	xzr, [x13, #-8]
	cbz	w12, .LBB26_29
.LBB26_24:
	ldrb	w12, [x8]
	cmp	w12, #2
	b.eq	.LBB26_26
	ldr	x8, [x8, #8]
	cmp	w12, #1
	add	x8, x8, x9
	ldur	x8, [x8, #-8]
	b	.LBB26_32
.LBB26_26:
	ldrb	w12, [x8, #8]
	ldr	x8, [x8, #16]
	cbz	w12, .LBB26_30
	lsr	x12, x9, #3
	mov	w13, #24
	madd	x8, x12, x13, x8
	b	.LBB26_31
.LBB26_28:
	add	x13, x13, x1, lsl #1
	mov	w14, #1
	stur	x14, [x13, #-16]
	cbnz	w12, .LBB26_24
.LBB26_29:
	mov	w0, #1
	stp	xzr, xzr, [x2]
	ret
.LBB26_30:
	add	x8, x8, x9, lsl #1
.LBB26_31:
	ldur	x8, [x8, #-16]
.LBB26_32:
	cmp	w11, #0
	csel	x10, xzr, x10, eq
	eor	x8, x8, x10
	eor	x8, x8, x9
	mov	w0, #1
	stp	x9, x8, [x2]
	ret
.Lfunc_end26:
	.size	ic_chain.edits.LinkListBidirectional.remove_at.d62ae654698fb858, .Lfunc_end26-ic_chain.edits.LinkListBidirectional.remove_at.d62ae654698fb858
	.section	.text.ic_rbtree.edits.RBTreeBidirectional.remove_at.b002bc248359831b,"ax",@progbits
	.p2align	2
	.type	ic_rbtree.edits.RBTreeBidirectional.remove_at.b002bc248359831b,@function
ic_rbtree.edits.RBTreeBidirectional.remove_at.b002bc248359831b:
	mov	x8, x1
	ldr	x1, [x2]
	cbz	x1, .LBB27_4
	lsr	x9, x1, #2
	ldr	x10, [x8]
	add	x9, x9, x1, lsr #3
	lsl	x9, x9, #3
	add	x11, x10, x9
	ldur	x12, [x11, #-16]
	cbz	x12, .LBB27_5
	sub	x10, x10, #24
.LBB27_3:
	mov	x11, x12
	lsr	x12, x12, #3
	mov	w13, #24
	mul	x12, x12, x13
	ldr	x12, [x10, x12]
	cbnz	x12, .LBB27_3
	b	.LBB27_8
.LBB27_4:
	mov	w0, wzr
	ret
.LBB27_5:
	sub	x12, x10, #16
	mov	x13, x1
	mov	x14, x9
.LBB27_6:
	add	x11, x10, x14
	ldur	x14, [x11, #-8]
	ands	x11, x14, #0xfffffffffffffff8
	b.eq	.LBB27_8
	lsr	x14, x14, #3
	add	x14, x14, x14, lsl #1
	lsl	x14, x14, #3
	ldr	x15, [x12, x14]
	cmp	x15, x13
	mov	x13, x11
	b.eq	.LBB27_6
.LBB27_8:
	str	x11, [x2]
	ldr	x14, [x8]
	add	x10, x14, x9
	ldp	x11, x15, [x10, #-24]
	cbz	x11, .LBB27_18
	cbz	x15, .LBB27_17
	mov	w11, #67
.LBB27_11:
	lsr	x10, x15, #2
	add	x10, x10, x15, lsr #3
	lsl	x13, x10, #3
	add	x10, x14, x13
	ldur	x12, [x10, #-24]
	cbz	x12, .LBB27_24
	subs	w11, w11, #1
	mov	x15, x12
	b.ne	.LBB27_11
	lsr	x10, x12, #2
	add	x10, x10, x12, lsr #3
	lsl	x13, x10, #3
	add	x10, x14, x13
	ldur	x16, [x10, #-24]
	cbz	x16, .LBB27_25
	ldur	x15, [x10, #-8]
	ands	x10, x15, #0xfffffffffffffff8
	cset	w11, ne
	cbz	x10, .LBB27_26
.LBB27_15:
	lsr	x17, x15, #3
	mov	w18, #24
	madd	x17, x17, x18, x14
	ldur	x14, [x17, #-24]
	cmp	x14, x12
	b.ne	.LBB27_34
	mov	w14, wzr
	stur	x16, [x17, #-24]
	cbnz	x16, .LBB27_27
	b	.LBB27_28
.LBB27_17:
	mov	x15, x11
.LBB27_18:
	ldur	x12, [x10, #-8]
	ands	x10, x12, #0xfffffffffffffff8
	cset	w11, ne
	cbz	x10, .LBB27_21
	lsr	x13, x12, #3
	mov	w16, #24
	madd	x13, x13, x16, x14
	ldur	x14, [x13, #-24]
	cmp	x14, x1
	b.ne	.LBB27_31
	mov	w14, wzr
	stur	x15, [x13, #-24]
	cbnz	x15, .LBB27_22
	b	.LBB27_32
.LBB27_21:
	mov	w14, wzr
	str	x15, [x0]
	cbz	x15, .LBB27_32
.LBB27_22:
	lsr	x11, x15, #3
	mov	w12, #24
	ldr	x13, [x8]
	orr	x10, x10, #0x3
	madd	x11, x11, x12, x13
	stur	x10, [x11, #-8]
.LBB27_23:
	ldr	x8, [x8]
	mov	w0, #1
	add	x8, x8, x9
	stur	xzr, [x8, #-8]
	ret
.LBB27_24:
	mov	x12, x15
.LBB27_25:
	ldp	x16, x15, [x10, #-16]
	ands	x10, x15, #0xfffffffffffffff8
	cset	w11, ne
	cbnz	x10, .LBB27_15
.LBB27_26:
	mov	w14, wzr
	str	x16, [x0]
	cbz	x16, .LBB27_28
.LBB27_27:
	lsr	x16, x16, #3
	mov	w17, #24
	ldr	x18, [x8]
	mov	w15, wzr
	madd	x16, x16, x17, x18
	orr	x17, x10, #0x3
	stur	x17, [x16, #-8]
.LBB27_28:
	cmp	x12, x1
	b.eq	.LBB27_33
	ldr	x2, [x8]
	add	x17, x2, x9
	ldur	x18, [x17, #-24]
	ldp	x17, x16, [x17, #-16]
	cmp	x16, #8
	b.hs	.LBB27_35
	str	x12, [x0]
	b	.LBB27_38
.LBB27_31:
	stur	x15, [x13, #-16]
	mov	w14, #1
	cbnz	x15, .LBB27_22
.LBB27_32:
	mov	w15, w12
.LBB27_33:
	tbnz	w15, #0, .LBB27_43
	b	.LBB27_23
.LBB27_34:
	stur	x16, [x17, #-16]
	mov	w14, #1
	cbnz	x16, .LBB27_27
	b	.LBB27_28
.LBB27_35:
	lsr	x3, x16, #3
	mov	w4, #24
	madd	x2, x3, x4, x2
	ldur	x3, [x2, #-24]
	cmp	x3, x1
	b.ne	.LBB27_37
	stur	x12, [x2, #-24]
	b	.LBB27_38
.LBB27_37:
	stur	x12, [x2, #-16]
.LBB27_38:
	cbz	x18, .LBB27_40
	lsr	x2, x18, #3
	mov	w3, #24
	ldr	x4, [x8]
	madd	x2, x2, x3, x4
	ldur	x3, [x2, #-8]
	and	x3, x3, #0x7
	orr	x3, x3, x12
	stur	x3, [x2, #-8]
.LBB27_40:
	cbz	x17, .LBB27_42
	lsr	x2, x17, #3
	mov	w3, #24
	ldr	x4, [x8]
	madd	x2, x2, x3, x4
	ldur	x3, [x2, #-8]
	and	x3, x3, #0x7
	orr	x3, x3, x12
	stur	x3, [x2, #-8]
.LBB27_42:
	ldr	x2, [x8]
	and	x16, x16, #0xfffffffffffffff9
	cmp	x10, x1
	orr	x16, x16, #0x2
	csel	x10, x12, x10, eq
	add	x2, x2, x13
	stur	x18, [x2, #-24]
	ldr	x18, [x8]
	add	x18, x18, x13
	stur	x17, [x18, #-16]
	ldr	x17, [x8]
	add	x13, x17, x13
	stur	x16, [x13, #-8]
	tbz	w15, #0, .LBB27_23
.LBB27_43:
	cbz	w11, .LBB27_23
	ldr	x12, [x8]
	mov	w13, #67
.LBB27_45:
	lsr	x11, x10, #2
	add	x11, x11, x10, lsr #3
	lsl	x11, x11, #3
	add	x16, x12, x11
	tbz	w14, #0, .LBB27_53
	ldur	x14, [x16, #-24]
	cbz	x14, .LBB27_23
	lsr	x15, x14, #2
	add	x15, x15, x14, lsr #3
	lsl	x15, x15, #3
	add	x17, x12, x15
	ldur	w18, [x17, #-8]
	tbnz	w18, #0, .LBB27_65
	ldur	x17, [x17, #-16]
	ldur	x12, [x16, #-8]
	stur	x17, [x16, #-24]
	cbz	x17, .LBB27_50
	lsr	x16, x17, #3
	mov	w17, #24
	ldr	x18, [x8]
	madd	x16, x16, x17, x18
	ldur	x17, [x16, #-8]
	and	x17, x17, #0x7
	orr	x17, x17, x10
	stur	x17, [x16, #-8]
.LBB27_50:
	ldr	x16, [x8]
	and	x17, x12, #0xfffffffffffffff8
	orr	x18, x17, #0x3
	add	x16, x16, x15
	stur	x18, [x16, #-8]
	cbz	x17, .LBB27_60
	lsr	x12, x12, #3
	mov	w16, #24
	ldr	x17, [x8]
	madd	x12, x12, x16, x17
	ldur	x16, [x12, #-24]
	cmp	x16, x10
	b.ne	.LBB27_62
	stur	x14, [x12, #-24]
	b	.LBB27_63
.LBB27_53:
	ldur	x14, [x16, #-16]
	cbz	x14, .LBB27_23
	lsr	x15, x14, #2
	add	x15, x15, x14, lsr #3
	lsl	x15, x15, #3
	add	x17, x12, x15
	ldur	w18, [x17, #-8]
	tbnz	w18, #0, .LBB27_73
	ldur	x17, [x17, #-24]
	ldur	x12, [x16, #-8]
	stur	x17, [x16, #-16]
	cbz	x17, .LBB27_57
	lsr	x16, x17, #3
	mov	w17, #24
	ldr	x18, [x8]
	madd	x16, x16, x17, x18
	ldur	x17, [x16, #-8]
	and	x17, x17, #0x7
	orr	x17, x17, x10
	stur	x17, [x16, #-8]
.LBB27_57:
	ldr	x16, [x8]
	and	x17, x12, #0xfffffffffffffff8
	orr	x18, x17, #0x3
	add	x16, x16, x15
	stur	x18, [x16, #-8]
	cbz	x17, .LBB27_61
	lsr	x12, x12, #3
	mov	w16, #24
	ldr	x17, [x8]
	madd	x12, x12, x16, x17
	ldur	x16, [x12, #-24]
	cmp	x16, x10
	b.ne	.LBB27_70
	stur	x14, [x12, #-24]
	b	.LBB27_71
.LBB27_60:
	str	x14, [x0]
	b	.LBB27_63
.LBB27_61:
	str	x14, [x0]
	b	.LBB27_71
.LBB27_62:
	stur	x14, [x12, #-16]
.LBB27_63:
	ldr	x12, [x8]
	orr	x14, x14, #0x2
	add	x12, x12, x15
	stur	x10, [x12, #-16]
	ldr	x12, [x8]
	add	x12, x12, x11
	stur	x14, [x12, #-8]
	ldr	x12, [x8]
	add	x14, x12, x11
	ldur	x14, [x14, #-24]
	cbz	x14, .LBB27_23
	lsr	x15, x14, #2
	add	x15, x15, x14, lsr #3
	lsl	x15, x15, #3
.LBB27_65:
	add	x18, x12, x15
	ldur	x2, [x18, #-24]
	cbz	x2, .LBB27_67
	lsr	x16, x2, #3
	mov	w17, #24
	madd	x16, x16, x17, x12
	ldur	x16, [x16, #-8]
	tbz	w16, #0, .LBB27_91
.LBB27_67:
	ldur	x16, [x18, #-16]
	cbz	x16, .LBB27_69
	lsr	x17, x16, #2
	add	x17, x17, x16, lsr #3
	lsl	x17, x17, #3
	add	x3, x12, x17
	ldur	w3, [x3, #-8]
	tbz	w3, #0, .LBB27_89
.LBB27_69:
	ldur	x12, [x18, #-8]
	and	x12, x12, #0xfffffffffffffffe
	stur	x12, [x18, #-8]
	b	.LBB27_78
.LBB27_70:
	stur	x14, [x12, #-16]
.LBB27_71:
	ldr	x12, [x8]
	orr	x14, x14, #0x2
	add	x12, x12, x15
	stur	x10, [x12, #-24]
	ldr	x12, [x8]
	add	x12, x12, x11
	stur	x14, [x12, #-8]
	ldr	x12, [x8]
	add	x14, x12, x11
	ldur	x14, [x14, #-16]
	cbz	x14, .LBB27_23
	lsr	x15, x14, #2
	add	x15, x15, x14, lsr #3
	lsl	x15, x15, #3
.LBB27_73:
	add	x2, x12, x15
	ldur	x16, [x2, #-24]
	cbz	x16, .LBB27_75
	lsr	x17, x16, #2
	add	x17, x17, x16, lsr #3
	lsl	x17, x17, #3
	add	x4, x12, x17
	ldur	w18, [x4, #-8]
	tbz	w18, #0, .LBB27_82
.LBB27_75:
	ldur	x16, [x2, #-16]
	cbz	x16, .LBB27_77
	lsr	x17, x16, #2
	add	x16, x17, x16, lsr #3
	lsl	x18, x16, #3
	add	x16, x12, x18
	ldur	x3, [x16, #-8]
	tbz	w3, #0, .LBB27_115
.LBB27_77:
	ldur	x12, [x2, #-8]
	and	x12, x12, #0xfffffffffffffffe
	stur	x12, [x2, #-8]
.LBB27_78:
	ldr	x12, [x8]
	add	x14, x12, x11
	ldur	x11, [x14, #-8]
	tbz	w11, #0, .LBB27_81
	ands	x15, x11, #0xfffffffffffffff8
	b.eq	.LBB27_23
	lsr	x11, x11, #3
	mov	w14, #24
	madd	x11, x11, x14, x12
	ldur	x11, [x11, #-24]
	cmp	x11, x10
	mov	x10, x15
	cset	w14, ne
	subs	w13, w13, #1
	b.ne	.LBB27_45
	b	.LBB27_23
.LBB27_81:
	orr	x10, x11, #0x1
	stur	x10, [x14, #-8]
	ldr	x8, [x8]
	mov	w0, #1
	add	x8, x8, x9
	stur	xzr, [x8, #-8]
	ret
.LBB27_82:
	ldur	x13, [x2, #-16]
	cbz	x13, .LBB27_84
	lsr	x18, x13, #2
	add	x13, x18, x13, lsr #3
	lsl	x18, x13, #3
	add	x13, x12, x18
	ldur	x3, [x13, #-8]
	tbz	w3, #0, .LBB27_115
.LBB27_84:
	ldur	x12, [x2, #-8]
	ldur	x18, [x4, #-16]
	and	x13, x12, #0xfffffffffffffff8
	stur	x18, [x2, #-24]
	cbz	x18, .LBB27_86
	lsr	x18, x18, #3
	mov	w2, #24
	ldr	x3, [x8]
	madd	x18, x18, x2, x3
	ldur	x2, [x18, #-8]
	and	x2, x2, #0x7
	orr	x2, x2, x14
	stur	x2, [x18, #-8]
.LBB27_86:
	ldr	x18, [x8]
	orr	x2, x13, #0x3
	add	x18, x18, x17
	stur	x2, [x18, #-8]
	cbz	x13, .LBB27_111
	lsr	x12, x12, #3
	mov	w13, #24
	ldr	x18, [x8]
	madd	x12, x12, x13, x18
	ldur	x13, [x12, #-24]
	cmp	x13, x14
	b.ne	.LBB27_112
	stur	x16, [x12, #-24]
	b	.LBB27_113
.LBB27_89:
	cbz	x2, .LBB27_94
	lsr	x13, x2, #3
	mov	w16, #24
	madd	x13, x13, x16, x12
	ldur	x16, [x13, #-8]
.LBB27_91:
	tbz	w16, #0, .LBB27_99
	ldur	x16, [x18, #-16]
	cbz	x16, .LBB27_23
	lsr	x13, x16, #2
	add	x13, x13, x16, lsr #3
	lsl	x17, x13, #3
.LBB27_94:
	add	x12, x12, x17
	ldur	x2, [x12, #-24]
	ldur	x12, [x18, #-8]
	and	x13, x12, #0xfffffffffffffff8
	stur	x2, [x18, #-16]
	cbz	x2, .LBB27_96
	lsr	x18, x2, #3
	mov	w2, #24
	ldr	x3, [x8]
	madd	x18, x18, x2, x3
	ldur	x2, [x18, #-8]
	and	x2, x2, #0x7
	orr	x2, x2, x14
	stur	x2, [x18, #-8]
.LBB27_96:
	ldr	x18, [x8]
	orr	x2, x13, #0x3
	add	x18, x18, x17
	stur	x2, [x18, #-8]
	cbz	x13, .LBB27_100
	lsr	x12, x12, #3
	mov	w13, #24
	ldr	x18, [x8]
	madd	x12, x12, x13, x18
	ldur	x13, [x12, #-24]
	cmp	x13, x14
	b.ne	.LBB27_101
	stur	x16, [x12, #-24]
	b	.LBB27_102
.LBB27_99:
	mov	x16, x14
	mov	x17, x15
	b	.LBB27_103
.LBB27_100:
	str	x16, [x0]
	b	.LBB27_102
.LBB27_101:
	stur	x16, [x12, #-16]
.LBB27_102:
	ldr	x12, [x8]
	orr	x13, x16, #0x2
	add	x12, x12, x17
	stur	x14, [x12, #-24]
	ldr	x12, [x8]
	add	x12, x12, x15
	stur	x13, [x12, #-8]
	ldr	x12, [x8]
	add	x13, x12, x17
	ldur	x2, [x13, #-24]
	cbz	x2, .LBB27_23
.LBB27_103:
	lsr	x13, x2, #3
	mov	w14, #24
	madd	x13, x13, x14, x12
	add	x12, x12, x11
	ldur	x18, [x12, #-8]
	ldur	x14, [x13, #-8]
	orr	x14, x14, #0x1
	stur	x14, [x13, #-8]
	and	x14, x18, #0x1
	ldr	x12, [x8]
	add	x2, x12, x11
	add	x13, x12, x17
	ldur	x12, [x2, #-8]
	ldur	x15, [x13, #-16]
	and	x13, x12, #0xfffffffffffffff8
	stur	x15, [x2, #-24]
	cbz	x15, .LBB27_105
	lsr	x15, x15, #3
	mov	w18, #24
	ldr	x2, [x8]
	madd	x15, x15, x18, x2
	ldur	x18, [x15, #-8]
	and	x18, x18, #0x7
	orr	x18, x18, x10
	stur	x18, [x15, #-8]
.LBB27_105:
	ldr	x15, [x8]
	orr	x14, x14, x13
	orr	x14, x14, #0x2
	add	x15, x15, x17
	stur	x14, [x15, #-8]
	cbz	x13, .LBB27_108
	lsr	x12, x12, #3
	mov	w13, #24
	ldr	x14, [x8]
	madd	x12, x12, x13, x14
	ldur	x13, [x12, #-24]
	cmp	x13, x10
	b.ne	.LBB27_109
	stur	x16, [x12, #-24]
	b	.LBB27_110
.LBB27_108:
	str	x16, [x0]
	b	.LBB27_110
.LBB27_109:
	stur	x16, [x12, #-16]
.LBB27_110:
	ldr	x12, [x8]
	add	x12, x12, x17
	stur	x10, [x12, #-16]
	ldr	x10, [x8]
	add	x10, x10, x11
	orr	x11, x16, #0x3
	stur	x11, [x10, #-8]
	ldr	x8, [x8]
	mov	w0, #1
	add	x8, x8, x9
	stur	xzr, [x8, #-8]
	ret
.LBB27_111:
	str	x16, [x0]
	b	.LBB27_113
.LBB27_112:
	stur	x16, [x12, #-16]
.LBB27_113:
	ldr	x12, [x8]
	orr	x13, x16, #0x2
	add	x12, x12, x17
	stur	x14, [x12, #-16]
	ldr	x12, [x8]
	add	x12, x12, x15
	stur	x13, [x12, #-8]
	ldr	x12, [x8]
	add	x13, x12, x17
	ldur	x13, [x13, #-16]
	cbz	x13, .LBB27_23
	lsr	x14, x13, #2
	mov	x15, x17
	add	x13, x14, x13, lsr #3
	mov	x14, x16
	lsl	x18, x13, #3
	add	x13, x12, x18
	ldur	x3, [x13, #-8]
.LBB27_115:
	add	x13, x12, x11
	add	x12, x12, x18
	orr	x16, x3, #0x1
	ldur	x13, [x13, #-8]
	stur	x16, [x12, #-8]
	ldr	x12, [x8]
	add	x18, x12, x11
	add	x16, x12, x15
	ldur	x12, [x18, #-8]
	ldur	x17, [x16, #-24]
	and	x16, x13, #0x1
	and	x13, x12, #0xfffffffffffffff8
	stur	x17, [x18, #-16]
	cbz	x17, .LBB27_117
	lsr	x17, x17, #3
	mov	w18, #24
	ldr	x2, [x8]
	madd	x17, x17, x18, x2
	ldur	x18, [x17, #-8]
	and	x18, x18, #0x7
	orr	x18, x18, x10
	stur	x18, [x17, #-8]
.LBB27_117:
	ldr	x17, [x8]
	orr	x16, x16, x13
	orr	x16, x16, #0x2
	add	x17, x17, x15
	stur	x16, [x17, #-8]
	cbz	x13, .LBB27_120
	lsr	x12, x12, #3
	mov	w13, #24
	ldr	x16, [x8]
	madd	x12, x12, x13, x16
	ldur	x13, [x12, #-24]
	cmp	x13, x10
	b.ne	.LBB27_121
	stur	x14, [x12, #-24]
	b	.LBB27_122
.LBB27_120:
	str	x14, [x0]
	b	.LBB27_122
.LBB27_121:
	stur	x14, [x12, #-16]
.LBB27_122:
	ldr	x12, [x8]
	add	x12, x12, x15
	stur	x10, [x12, #-24]
	ldr	x10, [x8]
	add	x10, x10, x11
	orr	x11, x14, #0x3
	stur	x11, [x10, #-8]
	ldr	x8, [x8]
	mov	w0, #1
	add	x8, x8, x9
	stur	xzr, [x8, #-8]
	ret
.Lfunc_end27:
	.size	ic_rbtree.edits.RBTreeBidirectional.remove_at.b002bc248359831b, .Lfunc_end27-ic_rbtree.edits.RBTreeBidirectional.remove_at.b002bc248359831b
	.section	.text.unlikely.ic_rbtree.steps.end_from_null.9168104deb0006b5,"ax",@progbits
	.p2align	2
	.type	ic_rbtree.steps.end_from_null.9168104deb0006b5,@function
ic_rbtree.steps.end_from_null.9168104deb0006b5:
	and	w8, w1, #0xff
	cmp	w8, #1
	b.ne	.LBB28_4
	ldr	x8, [x0]
	tst	w3, #0x1
	mov	x9, #-24
	mov	x10, #-16
	csel	x9, x10, x9, ne
	add	x8, x8, x9
.LBB28_2:
	lsr	x9, x2, #3
	mov	w10, #24
	mov	x1, x2
	mul	x9, x9, x10
	ldr	x2, [x8, x9]
	cbnz	x2, .LBB28_2
	mov	w0, #1
	ret
.LBB28_4:
	mov	x1, xzr
	mov	w0, wzr
	ret
.Lfunc_end28:
	.size	ic_rbtree.steps.end_from_null.9168104deb0006b5, .Lfunc_end28-ic_rbtree.steps.end_from_null.9168104deb0006b5
	.section	.text.ic_any_collection.any_collection.AnyCollection.move_next.87ed5b954c3afc77,"ax",@progbits
	.p2align	2
	.type	ic_any_collection.any_collection.AnyCollection.move_next.87ed5b954c3afc77,@function
ic_any_collection.any_collection.AnyCollection.move_next.87ed5b954c3afc77:
	stp	x29, x30, [sp, #-32]!
	ldrb	w8, [x0]
	stp	x20, x19, [sp, #16]
	mov	x29, sp
	cmp	w8, #1
	b.gt	.LBB29_5
	cbnz	w8, .LBB29_9
	ldr	x8, [x0, #16]
	cbz	x8, .LBB29_33
	ldrb	w9, [x1]
	cmp	w9, #2
	b.eq	.LBB29_24
	cmp	w9, #1
	ldr	x9, [x1, #8]
	add	x8, x9, x8
	ldr	x1, [x8, #-8]!
	str	x1, [x0, #16]
	ldp	x20, x19, [sp, #16]
	cmp	x1, #0
	cset	w0, ne
	ldp	x29, x30, [sp], #32
	ret
.LBB29_5:
	cmp	w8, #2
	b.ne	.LBB29_12
	ldr	x10, [x0, #24]
	cbz	x10, .LBB29_34
	ldr	x8, [x0, #32]
	cmp	x8, x10
	b.ne	.LBB29_19
	mov	x1, xzr
	stp	xzr, xzr, [x0, #24]
	ldp	x20, x19, [sp, #16]
	cmp	x1, #0
	cset	w0, ne
	ldp	x29, x30, [sp], #32
	ret
.LBB29_9:
	ldrb	w8, [x1]
	cmp	w8, #2
	b.ne	.LBB29_45
	ldr	x8, [x0, #24]
	cbz	x8, .LBB29_37
	lsr	x9, x8, #2
	ldrb	w10, [x1, #8]
	ldr	x11, [x1, #16]
	add	x9, x9, x8, lsr #3
	lsl	x8, x8, #1
	cmp	w10, #0
	lsl	x9, x9, #3
	csel	x8, x8, x9, eq
	add	x8, x11, x8
	ldur	x1, [x8, #-16]
	str	x1, [x0, #24]
	ldp	x20, x19, [sp, #16]
	cmp	x1, #0
	cset	w0, ne
	ldp	x29, x30, [sp], #32
	ret
.LBB29_12:
	ldrb	w8, [x1]
	cmp	w8, #2
	b.ne	.LBB29_45
	ldrb	w8, [x1, #8]
	cmp	w8, #1
	b.ne	.LBB29_45
	ldr	x8, [x0, #16]
	cbz	x8, .LBB29_38
	lsr	x9, x8, #2
	add	x10, x9, x8, lsr #3
	ldr	x9, [x1, #16]
	lsl	x11, x10, #3
	add	x10, x9, x11
	ldur	x10, [x10, #-16]
	cbz	x10, .LBB29_21
	sub	x8, x9, #24
.LBB29_17:
	lsr	x9, x10, #3
	mov	x1, x10
	mov	w10, #24
	mul	x9, x9, x10
	ldr	x10, [x8, x9]
	cbnz	x10, .LBB29_17
.LBB29_18:
	str	x1, [x0, #16]
	ldp	x20, x19, [sp, #16]
	cmp	x1, #0
	cset	w0, ne
	ldp	x29, x30, [sp], #32
	ret
.LBB29_19:
	ldrb	w11, [x1]
	mov	x9, x1
	eor	x1, x8, x10
	cmp	w11, #2
	b.eq	.LBB29_26
	ldr	x9, [x9, #8]
	cmp	w11, #1
	add	x9, x9, x1
	sub	x9, x9, #8
	b	.LBB29_32
.LBB29_21:
	sub	x10, x9, #16
.LBB29_22:
	add	x11, x9, x11
	ldur	x11, [x11, #-8]
	ands	x1, x11, #0xfffffffffffffff8
	b.eq	.LBB29_18
	lsr	x11, x11, #3
	add	x11, x11, x11, lsl #1
	lsl	x11, x11, #3
	ldr	x12, [x10, x11]
	cmp	x12, x8
	mov	x8, x1
	b.eq	.LBB29_22
	b	.LBB29_18
.LBB29_24:
	ldrb	w10, [x1, #8]
	ldr	x9, [x1, #16]
	cbz	w10, .LBB29_28
	lsr	x8, x8, #3
	mov	w10, #24
	madd	x8, x8, x10, x9
	b	.LBB29_29
.LBB29_26:
	ldrb	w10, [x9, #8]
	ldr	x9, [x9, #16]
	cbz	w10, .LBB29_30
	lsr	x10, x1, #3
	mov	w11, #24
	madd	x9, x10, x11, x9
	b	.LBB29_31
.LBB29_28:
	add	x8, x9, x8, lsl #1
.LBB29_29:
	ldr	x1, [x8, #-16]!
	str	x1, [x0, #16]
	ldp	x20, x19, [sp, #16]
	cmp	x1, #0
	cset	w0, ne
	ldp	x29, x30, [sp], #32
	ret
.LBB29_30:
	add	x9, x9, x1, lsl #1
.LBB29_31:
	sub	x9, x9, #16
.LBB29_32:
	ldr	x9, [x9]
	eor	x8, x9, x8
	stp	x1, x8, [x0, #24]
	ldp	x20, x19, [sp, #16]
	cmp	x1, #0
	cset	w0, ne
	ldp	x29, x30, [sp], #32
	ret
.LBB29_33:
	ldr	x8, [x0, #8]
	mov	x19, x0
	mov	x0, x8
	bl	ic_chain.list.LinkList.head_from_null.634a9fa49d0f2abe
	tst	w0, #0x1
	csel	x1, x1, xzr, ne
	str	x1, [x19, #16]
	ldp	x20, x19, [sp, #16]
	cmp	x1, #0
	cset	w0, ne
	ldp	x29, x30, [sp], #32
	ret
.LBB29_34:
	mov	x19, x0
	ldr	x0, [x0, #8]
	mov	x20, x1
	bl	ic_chain.list.LinkList.head_from_null.634a9fa49d0f2abe
	tbz	w0, #0, .LBB29_39
	ldrb	w8, [x20]
	cmp	w8, #2
	b.eq	.LBB29_40
	cmp	w8, #1
	ldr	x8, [x20, #8]
	mov	x0, x19
	add	x8, x8, x1
	sub	x8, x8, #8
	b	.LBB29_44
.LBB29_37:
	ldr	x8, [x0, #8]
	mov	x19, x0
	mov	x0, x8
	bl	ic_chain.list.LinkList.head_from_null.634a9fa49d0f2abe
	tst	w0, #0x1
	csel	x1, x1, xzr, ne
	str	x1, [x19, #24]
	ldp	x20, x19, [sp, #16]
	cmp	x1, #0
	cset	w0, ne
	ldp	x29, x30, [sp], #32
	ret
.LBB29_38:
	ldr	x2, [x0, #8]
	mov	x19, x0
	add	x0, x1, #16
	mov	w3, wzr
	cmp	x2, #0
	cset	w8, ne
	mov	w1, w8
	bl	ic_rbtree.steps.end_from_null.9168104deb0006b5
	mov	w8, w0
	tst	w8, #0xff
	csel	x1, xzr, x1, eq
	str	x1, [x19, #16]
	ldp	x20, x19, [sp, #16]
	cmp	x1, #0
	cset	w0, ne
	ldp	x29, x30, [sp], #32
	ret
.LBB29_39:
	mov	x1, xzr
	stp	xzr, xzr, [x19, #24]
	ldp	x20, x19, [sp, #16]
	cmp	x1, #0
	cset	w0, ne
	ldp	x29, x30, [sp], #32
	ret
.LBB29_40:
	ldrb	w9, [x20, #8]
	ldr	x8, [x20, #16]
	mov	x0, x19
	cbz	w9, .LBB29_42
	lsr	x9, x1, #3
	mov	w10, #24
	madd	x8, x9, x10, x8
	b	.LBB29_43
.LBB29_42:
	add	x8, x8, x1, lsl #1
.LBB29_43:
	sub	x8, x8, #16
.LBB29_44:
	ldr	x8, [x8]
	eor	x8, x8, x1
	stp	x1, x8, [x0, #24]
	ldp	x20, x19, [sp, #16]
	cmp	x1, #0
	cset	w0, ne
	ldp	x29, x30, [sp], #32
	ret
.LBB29_45:
	brk	#0x1
.Lfunc_end29:
	.size	ic_any_collection.any_collection.AnyCollection.move_next.87ed5b954c3afc77, .Lfunc_end29-ic_any_collection.any_collection.AnyCollection.move_next.87ed5b954c3afc77
	.section	.text.unlikely.ic_chain.list.LinkList.head_from_null.634a9fa49d0f2abe,"ax",@progbits
	.p2align	2
	.type	ic_chain.list.LinkList.head_from_null.634a9fa49d0f2abe,@function
ic_chain.list.LinkList.head_from_null.634a9fa49d0f2abe:
	cmp	x0, #0
	mov	x1, x0
	cset	w0, ne
	ret
.Lfunc_end30:
	.size	ic_chain.list.LinkList.head_from_null.634a9fa49d0f2abe, .Lfunc_end30-ic_chain.list.LinkList.head_from_null.634a9fa49d0f2abe
	.section	.text.ic_any_collection.any_collection.AnyCollection.move_prev.87ed5b954c3afc77,"ax",@progbits
	.p2align	2
	.type	ic_any_collection.any_collection.AnyCollection.move_prev.87ed5b954c3afc77,@function
ic_any_collection.any_collection.AnyCollection.move_prev.87ed5b954c3afc77:
	stp	x29, x30, [sp, #-32]!
	ldrb	w8, [x0]
	str	x19, [sp, #16]
	mov	x29, sp
	cmp	w8, #1
	b.le	.LBB31_5
	cmp	w8, #2
	b.ne	.LBB31_9
	ldr	x8, [x0, #24]
	cbz	x8, .LBB31_24
	ldrb	w10, [x1]
	ldr	x9, [x0, #32]
	cmp	w10, #2
	b.eq	.LBB31_19
	cmp	w10, #1
	ldr	x10, [x1, #8]
	add	x10, x10, x8
	sub	x10, x10, #8
	b	.LBB31_23
.LBB31_5:
	b.ne	.LBB31_27
	ldrb	w8, [x1]
	cmp	w8, #2
	b.ne	.LBB31_27
	ldr	x8, [x0, #24]
	cbz	x8, .LBB31_25
	lsr	x9, x8, #3
	mov	w10, #24
	ldr	x11, [x1, #16]
	madd	x9, x9, x10, x11
	ldrb	w10, [x1, #8]
	add	x8, x11, x8, lsl #1
	sub	x8, x8, #8
	cmp	w10, #0
	sub	x9, x9, #24
	csel	x8, x8, x9, eq
	ldr	x1, [x8]
	str	x1, [x0, #24]
	cmp	x1, #0
	ldr	x19, [sp, #16]
	cset	w0, ne
	ldp	x29, x30, [sp], #32
	ret
.LBB31_9:
	ldrb	w8, [x1]
	cmp	w8, #2
	b.ne	.LBB31_27
	ldrb	w8, [x1, #8]
	cmp	w8, #1
	b.ne	.LBB31_27
	ldr	x8, [x0, #16]
	cbz	x8, .LBB31_26
	lsr	x9, x8, #2
	add	x10, x9, x8, lsr #3
	ldr	x9, [x1, #16]
	lsl	x11, x10, #3
	add	x10, x9, x11
	ldur	x10, [x10, #-24]
	cbz	x10, .LBB31_16
	sub	x8, x9, #16
.LBB31_14:
	lsr	x9, x10, #3
	mov	x1, x10
	mov	w10, #24
	mul	x9, x9, x10
	ldr	x10, [x8, x9]
	cbnz	x10, .LBB31_14
.LBB31_15:
	str	x1, [x0, #16]
	cmp	x1, #0
	ldr	x19, [sp, #16]
	cset	w0, ne
	ldp	x29, x30, [sp], #32
	ret
.LBB31_16:
	sub	x10, x9, #24
.LBB31_17:
	add	x11, x9, x11
	ldur	x11, [x11, #-8]
	ands	x1, x11, #0xfffffffffffffff8
	b.eq	.LBB31_15
	lsr	x11, x11, #3
	add	x11, x11, x11, lsl #1
	lsl	x11, x11, #3
	ldr	x12, [x10, x11]
	cmp	x12, x8
	mov	x8, x1
	b.eq	.LBB31_17
	b	.LBB31_15
.LBB31_19:
	ldrb	w11, [x1, #8]
	ldr	x10, [x1, #16]
	cbz	w11, .LBB31_21
	lsr	x11, x8, #3
	mov	w12, #24
	madd	x10, x11, x12, x10
	b	.LBB31_22
.LBB31_21:
	add	x10, x10, x8, lsl #1
.LBB31_22:
	sub	x10, x10, #16
.LBB31_23:
	ldr	x10, [x10]
	eor	x9, x10, x9
	eor	x1, x9, x8
	stp	x1, x9, [x0, #24]
	cmp	x1, #0
	ldr	x19, [sp, #16]
	cset	w0, ne
	ldp	x29, x30, [sp], #32
	ret
.LBB31_24:
	ldr	x8, [x0, #16]
	mov	x19, x0
	mov	x0, x8
	bl	ic_chain.list.LinkList.head_from_null.634a9fa49d0f2abe
	mov	w8, w0
	tst	w8, #0xff
	csel	x1, xzr, x1, eq
	stp	x1, x1, [x19, #24]
	cmp	x1, #0
	ldr	x19, [sp, #16]
	cset	w0, ne
	ldp	x29, x30, [sp], #32
	ret
.LBB31_25:
	ldr	x8, [x0, #16]
	mov	x19, x0
	mov	x0, x8
	bl	ic_chain.list.LinkList.head_from_null.634a9fa49d0f2abe
	tst	w0, #0xff
	csel	x1, xzr, x1, eq
	str	x1, [x19, #24]
	cmp	x1, #0
	ldr	x19, [sp, #16]
	cset	w0, ne
	ldp	x29, x30, [sp], #32
	ret
.LBB31_26:
	ldr	x2, [x0, #8]
	mov	x19, x0
	add	x0, x1, #16
	mov	w3, #1
	cmp	x2, #0
	cset	w8, ne
	mov	w1, w8
	bl	ic_rbtree.steps.end_from_null.9168104deb0006b5
	mov	w8, w0
	tst	w8, #0xff
	csel	x1, xzr, x1, eq
	str	x1, [x19, #16]
	cmp	x1, #0
	ldr	x19, [sp, #16]
	cset	w0, ne
	ldp	x29, x30, [sp], #32
	ret
.LBB31_27:
	brk	#0x1
.Lfunc_end31:
	.size	ic_any_collection.any_collection.AnyCollection.move_prev.87ed5b954c3afc77, .Lfunc_end31-ic_any_collection.any_collection.AnyCollection.move_prev.87ed5b954c3afc77
	.section	.text.ic_world.calls.seek.SeekCollectionCall.is_placed.345c281869c73935,"ax",@progbits
	.p2align	2
	.type	ic_world.calls.seek.SeekCollectionCall.is_placed.345c281869c73935,@function
ic_world.calls.seek.SeekCollectionCall.is_placed.345c281869c73935:
	ldrb	w8, [x0]
	cbz	w8, .LBB32_9
	cmp	w8, #2
	b.ne	.LBB32_7
	ldr	x8, [x0, #8]
	ldr	x9, [x1, #8]
	lsr	x8, x8, #3
	sub	x10, x8, #1
	cmp	x10, x9
	b.hs	.LBB32_10
	ldr	x8, [x1]
	lsl	x10, x10, #4
	ldrb	w10, [x8, x10]
	cmp	w10, #1
	b.ne	.LBB32_10
	ldrb	w10, [x0, #16]
	cbz	w10, .LBB32_9
	ldr	x10, [x0, #24]
	lsr	x10, x10, #3
	sub	x10, x10, #1
	cmp	x10, x9
	b.hs	.LBB32_10
	lsl	x9, x10, #4
	ldrb	w8, [x8, x9]
	cmp	w8, #1
	b.ne	.LBB32_10
	b	.LBB32_9
.LBB32_7:
	ldr	x8, [x0, #8]
	ldr	x9, [x1, #8]
	lsr	x8, x8, #3
	sub	x8, x8, #1
	cmp	x8, x9
	b.hs	.LBB32_10
	ldr	x9, [x1]
	lsl	x8, x8, #4
	ldrb	w8, [x9, x8]
	cmp	w8, #1
	b.ne	.LBB32_10
.LBB32_9:
	mov	w0, #1
	ret
.LBB32_10:
	mov	w0, wzr
	ret
.Lfunc_end32:
	.size	ic_world.calls.seek.SeekCollectionCall.is_placed.345c281869c73935, .Lfunc_end32-ic_world.calls.seek.SeekCollectionCall.is_placed.345c281869c73935
	.section	.text.ic_any_collection.any_collection.AnyCollection.go_null.i64,"ax",@progbits
	.p2align	2
	.type	ic_any_collection.any_collection.AnyCollection.go_null.i64,@function
ic_any_collection.any_collection.AnyCollection.go_null.i64:
	ldrb	w8, [x0]
	cmp	w8, #1
	b.gt	.LBB33_3
	cbz	w8, .LBB33_5
	str	xzr, [x0, #24]
	ret
.LBB33_3:
	cmp	w8, #2
	b.ne	.LBB33_5
	stp	xzr, xzr, [x0, #24]
	ret
.LBB33_5:
	str	xzr, [x0, #16]
	ret
.Lfunc_end33:
	.size	ic_any_collection.any_collection.AnyCollection.go_null.i64, .Lfunc_end33-ic_any_collection.any_collection.AnyCollection.go_null.i64
	.section	.text.ic_world.calls.seek.seek_on.87ed5b954c3afc77,"ax",@progbits
	.p2align	2
	.type	ic_world.calls.seek.seek_on.87ed5b954c3afc77,@function
ic_world.calls.seek.seek_on.87ed5b954c3afc77:
	stp	x29, x30, [sp, #-64]!
	stp	x22, x21, [sp, #32]
	ldrb	w21, [x1]
	mov	x29, sp
	stp	x20, x19, [sp, #48]
	mov	x19, x2
	mov	x20, x0
	cmp	w21, #2
	str	x23, [sp, #16]
	b.eq	.LBB34_3
	ldr	x8, [x1, #8]
	cmp	w21, #1
	add	x9, x8, x19
	ldur	x9, [x9, #-8]
	cmp	x9, #1
	b.eq	.LBB34_12
	and	w0, w8, #0xff
	b	.LBB34_8
.LBB34_3:
	ldrb	w9, [x1, #8]
	ldr	x8, [x1, #16]
	cbz	w9, .LBB34_6
	lsr	x9, x19, #3
	mov	w10, #24
	mov	w0, #1
	madd	x8, x9, x10, x8
	ldurb	w8, [x8, #-8]
	tbnz	w8, #1, .LBB34_8
	mov	w1, #7
	ldp	x20, x19, [sp, #48]
	ldr	x23, [sp, #16]
	ldp	x22, x21, [sp, #32]
	ldp	x29, x30, [sp], #64
	ret
.LBB34_6:
	add	x8, x8, x19, lsl #1
	ldur	x8, [x8, #-16]
	cmp	x8, #1
	b.eq	.LBB34_12
	mov	w0, wzr
.LBB34_8:
	mov	w22, w0
	mov	x0, x20
	mov	x2, x19
	mov	x23, x1
	bl	ic_any_collection.any_collection.AnyCollection.contains.87ed5b954c3afc77
	cbz	w0, .LBB34_12
	ldrb	w8, [x20]
	cmp	w8, #1
	b.gt	.LBB34_13
	cbz	w8, .LBB34_16
	mov	w1, wzr
	mov	w0, wzr
	str	x19, [x20, #24]
	ldp	x20, x19, [sp, #48]
	ldr	x23, [sp, #16]
	ldp	x22, x21, [sp, #32]
	ldp	x29, x30, [sp], #64
	ret
.LBB34_12:
	mov	w0, #1
	mov	w1, #7
	ldp	x20, x19, [sp, #48]
	ldr	x23, [sp, #16]
	ldp	x22, x21, [sp, #32]
	ldp	x29, x30, [sp], #64
	ret
.LBB34_13:
	cmp	w8, #2
	b.ne	.LBB34_16
	cmp	w21, #2
	b.eq	.LBB34_17
	ldr	x8, [x23, #8]
	cmp	w21, #1
	add	x8, x8, x19
	sub	x8, x8, #8
	b	.LBB34_21
.LBB34_16:
	mov	w1, wzr
	mov	w0, wzr
	str	x19, [x20, #16]
	ldp	x20, x19, [sp, #48]
	ldr	x23, [sp, #16]
	ldp	x22, x21, [sp, #32]
	ldp	x29, x30, [sp], #64
	ret
.LBB34_17:
	ldr	x8, [x23, #16]
	cbz	w22, .LBB34_19
	lsr	x9, x19, #3
	mov	w10, #24
	madd	x8, x9, x10, x8
	b	.LBB34_20
.LBB34_19:
	add	x8, x8, x19, lsl #1
.LBB34_20:
	sub	x8, x8, #16
.LBB34_21:
	ldr	x8, [x8]
	mov	w1, wzr
	mov	w0, wzr
	eor	x8, x8, x19
	stp	x19, x8, [x20, #24]
	ldp	x20, x19, [sp, #48]
	ldr	x23, [sp, #16]
	ldp	x22, x21, [sp, #32]
	ldp	x29, x30, [sp], #64
	ret
.Lfunc_end34:
	.size	ic_world.calls.seek.seek_on.87ed5b954c3afc77, .Lfunc_end34-ic_world.calls.seek.seek_on.87ed5b954c3afc77
	.section	.text.ic_any_collection.any_collection.AnyCollection.contains.87ed5b954c3afc77,"ax",@progbits
	.p2align	2
	.type	ic_any_collection.any_collection.AnyCollection.contains.87ed5b954c3afc77,@function
ic_any_collection.any_collection.AnyCollection.contains.87ed5b954c3afc77:
	ldrb	w9, [x0]
	mov	x8, x0
	cmp	w9, #1
	b.gt	.LBB35_8
	cbnz	w9, .LBB35_15
	ldr	x8, [x8, #8]
	cmp	x8, #0
	cset	w0, ne
	cmp	x8, x2
	b.eq	.LBB35_48
	cbz	x8, .LBB35_48
	ldrb	w9, [x1]
	cmp	w9, #2
	b.eq	.LBB35_36
	cmp	w9, #1
	b.ne	.LBB35_42
	ldr	x9, [x1, #8]
.LBB35_7:
	add	x8, x9, x8
	ldur	x8, [x8, #-8]
	cmp	x8, #0
	cset	w0, ne
	cmp	x8, x2
	ccmp	x8, #0, #4, ne
	b.ne	.LBB35_7
	b	.LBB35_48
.LBB35_8:
	cmp	w9, #2
	b.ne	.LBB35_21
	ldr	x8, [x8, #8]
	cmp	x8, #0
	cset	w0, ne
	cmp	x8, x2
	b.eq	.LBB35_48
	cbz	x8, .LBB35_48
	ldrb	w9, [x1]
	cmp	w9, #2
	b.eq	.LBB35_39
	cmp	w9, #1
	b.ne	.LBB35_44
	ldr	x9, [x1, #8]
	mov	x10, xzr
.LBB35_14:
	add	x11, x9, x8
	ldur	x11, [x11, #-8]
	eor	x12, x11, x10
	cmp	x11, x10
	mov	x10, x8
	cset	w0, ne
	ccmp	x12, x2, #4, ne
	mov	x8, x12
	b.ne	.LBB35_14
	b	.LBB35_48
.LBB35_15:
	ldrb	w9, [x1]
	cmp	w9, #2
	b.ne	.LBB35_49
	ldr	x8, [x8, #8]
	cmp	x8, #0
	cset	w0, ne
	cmp	x8, x2
	b.eq	.LBB35_48
	cbz	x8, .LBB35_48
	ldrb	w10, [x1, #8]
	ldr	x9, [x1, #16]
	cbz	w10, .LBB35_20
.LBB35_19:
	lsr	x8, x8, #3
	mov	w10, #24
	madd	x8, x8, x10, x9
	ldur	x8, [x8, #-16]
	cmp	x8, #0
	cset	w0, ne
	cmp	x8, x2
	ccmp	x8, #0, #4, ne
	b.ne	.LBB35_19
	b	.LBB35_48
.LBB35_20:
	add	x8, x9, x8, lsl #1
	ldur	x8, [x8, #-16]
	cmp	x8, #0
	cset	w0, ne
	cmp	x8, x2
	ccmp	x8, #0, #4, ne
	b.ne	.LBB35_20
	b	.LBB35_48
.LBB35_21:
	ldrb	w9, [x1]
	cmp	w9, #2
	b.ne	.LBB35_49
	ldrb	w9, [x1, #8]
	cmp	w9, #1
	b.ne	.LBB35_49
	lsr	x10, x2, #3
	mov	w11, #24
	ldr	x9, [x1, #16]
	madd	x10, x10, x11, x9
	ldur	x13, [x10, #-8]
	tbnz	w13, #1, .LBB35_25
.LBB35_24:
	mov	w0, wzr
	ret
.LBB35_25:
	ands	x14, x13, #0xfffffffffffffff8
	b.eq	.LBB35_34
	ldr	x10, [x1, #24]
	mov	x11, xzr
	b	.LBB35_29
.LBB35_27:
	cmp	x11, #64
	b.hi	.LBB35_24
.LBB35_28:
	lsr	x13, x12, #3
	mov	w14, #24
	add	x11, x11, #1
	mov	x2, x12
	madd	x13, x13, x14, x9
	ldur	x13, [x13, #-8]
	ands	x14, x13, #0xfffffffffffffff8
	b.eq	.LBB35_35
.LBB35_29:
	lsr	x13, x13, #3
	sub	x12, x13, #1
	cmp	x10, x12
	b.ls	.LBB35_24
	mov	x12, x14
	mov	w14, #24
	madd	x13, x13, x14, x9
	ldurb	w14, [x13, #-8]
	tbz	w14, #1, .LBB35_24
	ldur	x14, [x13, #-24]
	cmp	x14, x2
	b.eq	.LBB35_27
	ldur	x13, [x13, #-16]
	mov	w0, wzr
	cmp	x13, x2
	b.ne	.LBB35_48
	cmp	x11, #65
	b.lo	.LBB35_28
	b	.LBB35_48
.LBB35_34:
	mov	x12, x2
.LBB35_35:
	ldr	x8, [x8, #8]
	cmp	x8, x12
	cset	w0, eq
	ret
.LBB35_36:
	ldrb	w10, [x1, #8]
	ldr	x9, [x1, #16]
	cbz	w10, .LBB35_38
.LBB35_37:
	lsr	x8, x8, #3
	mov	w10, #24
	madd	x8, x8, x10, x9
	ldur	x8, [x8, #-16]
	cmp	x8, #0
	cset	w0, ne
	cmp	x8, x2
	ccmp	x8, #0, #4, ne
	b.ne	.LBB35_37
	b	.LBB35_48
.LBB35_38:
	add	x8, x9, x8, lsl #1
	ldur	x8, [x8, #-16]
	cmp	x8, #0
	cset	w0, ne
	cmp	x8, x2
	ccmp	x8, #0, #4, ne
	b.ne	.LBB35_38
	b	.LBB35_48
.LBB35_39:
	ldrb	w10, [x1, #8]
	ldr	x9, [x1, #16]
	cbz	w10, .LBB35_46
	mov	x10, xzr
.LBB35_41:
	lsr	x11, x8, #3
	mov	w12, #24
	madd	x11, x11, x12, x9
	ldur	x11, [x11, #-16]
	eor	x12, x11, x10
	cmp	x11, x10
	mov	x10, x8
	cset	w0, ne
	ccmp	x12, x2, #4, ne
	mov	x8, x12
	b.ne	.LBB35_41
	b	.LBB35_48
.LBB35_42:
	ldr	x9, [x1, #8]
.LBB35_43:
	add	x8, x9, x8
	ldur	x8, [x8, #-8]
	cmp	x8, #0
	cset	w0, ne
	cmp	x8, x2
	ccmp	x8, #0, #4, ne
	b.ne	.LBB35_43
	b	.LBB35_48
.LBB35_44:
	ldr	x9, [x1, #8]
	mov	x10, xzr
.LBB35_45:
	add	x11, x9, x8
	ldur	x11, [x11, #-8]
	eor	x12, x11, x10
	cmp	x11, x10
	mov	x10, x8
	cset	w0, ne
	ccmp	x12, x2, #4, ne
	mov	x8, x12
	b.ne	.LBB35_45
	b	.LBB35_48
.LBB35_46:
	mov	x10, xzr
.LBB35_47:
	add	x11, x9, x8, lsl #1
	ldur	x11, [x11, #-16]
	eor	x12, x11, x10
	cmp	x11, x10
	mov	x10, x8
	cset	w0, ne
	ccmp	x12, x2, #4, ne
	mov	x8, x12
	b.ne	.LBB35_47
.LBB35_48:
	ret
.LBB35_49:
	brk	#0x1
.Lfunc_end35:
	.size	ic_any_collection.any_collection.AnyCollection.contains.87ed5b954c3afc77, .Lfunc_end35-ic_any_collection.any_collection.AnyCollection.contains.87ed5b954c3afc77
	.section	.text.ic_world.calls.seek.seek_with.87ed5b954c3afc77,"ax",@progbits
	.p2align	2
	.type	ic_world.calls.seek.seek_with.87ed5b954c3afc77,@function
ic_world.calls.seek.seek_with.87ed5b954c3afc77:
	sub	sp, sp, #112
	stp	x24, x23, [sp, #64]
	ldrb	w24, [x1]
	stp	x22, x21, [sp, #80]
	mov	x21, x1
	stp	x20, x19, [sp, #96]
	mov	x19, x3
	cmp	w24, #2
	mov	x20, x0
	stp	x29, x30, [sp, #16]
	add	x29, sp, #16
	stp	x28, x27, [sp, #32]
	stp	x26, x25, [sp, #48]
	b.eq	.LBB36_3
	ldr	x8, [x21, #8]
	cmp	w24, #1
	add	x9, x8, x19
	ldur	x9, [x9, #-8]
	cmp	x9, #1
	b.eq	.LBB36_27
	and	w25, w8, #0xff
	ldrb	w26, [x20]
	cmp	w26, #1
	b.gt	.LBB36_6
	b	.LBB36_7
.LBB36_3:
	ldrb	w25, [x21, #8]
	ldr	x8, [x21, #16]
	cbz	w25, .LBB36_8
	lsr	x9, x19, #3
	mov	w10, #24
	madd	x8, x9, x10, x8
	ldurb	w8, [x8, #-8]
	tbz	w8, #1, .LBB36_27
	ldrb	w26, [x20]
	cmp	w26, #1
	b.le	.LBB36_7
.LBB36_6:
	cmp	w26, #2
	b.ne	.LBB36_10
.LBB36_7:
	ldr	x8, [x20, #8]
	cbnz	x8, .LBB36_15
	b	.LBB36_27
.LBB36_8:
	add	x8, x8, x19, lsl #1
	ldur	x8, [x8, #-16]
	cmp	x8, #1
	b.eq	.LBB36_27
	mov	w25, wzr
	ldrb	w26, [x20]
	cmp	w26, #1
	b.gt	.LBB36_6
	b	.LBB36_7
.LBB36_10:
	cmp	w24, #2
	b.ne	.LBB36_43
	cmp	w25, #1
	b.ne	.LBB36_43
	ldr	x10, [x20, #8]
	cbz	x10, .LBB36_27
	ldr	x8, [x21, #16]
	sub	x9, x8, #24
.LBB36_14:
	mov	x8, x10
	lsr	x10, x10, #3
	mov	w11, #24
	mul	x10, x10, x11
	ldr	x10, [x9, x10]
	cbnz	x10, .LBB36_14
.LBB36_15:
	cmp	x8, x19
	b.ne	.LBB36_23
	mov	x3, xzr
	mov	w8, wzr
	and	w9, w2, #0xff
	cmp	w9, #1
	b.ne	.LBB36_31
.LBB36_17:
	mov	x1, x3
	tst	w4, #0xff
	b.eq	.LBB36_32
.LBB36_18:
	and	w8, w8, #0xff
	cmp	w8, #1
	b.ne	.LBB36_33
	cmp	x5, x1
	b.ne	.LBB36_33
.LBB36_20:
	cmp	w26, #1
	b.gt	.LBB36_34
	cbz	w26, .LBB36_37
	mov	w1, wzr
	mov	w22, wzr
	str	x19, [x20, #24]
	b	.LBB36_29
.LBB36_23:
	stur	w2, [x29, #-4]
	mov	w28, w4
	mov	x0, x20
	mov	x1, x21
	mov	w2, wzr
	mov	x4, x8
	mov	x3, xzr
	mov	x27, x5
	mov	x22, x8
	bl	ic_any_collection.any_collection.AnyCollection.after.87ed5b954c3afc77
	and	w8, w0, #0xff
	cmp	w8, #1
	b.ne	.LBB36_27
	mov	x3, x22
.LBB36_25:
	cmp	x1, x19
	b.eq	.LBB36_30
	mov	x23, x1
	mov	x0, x20
	mov	x1, x21
	mov	w2, #1
	mov	x4, x23
	mov	w22, #1
	bl	ic_any_collection.any_collection.AnyCollection.after.87ed5b954c3afc77
	and	w8, w0, #0xff
	mov	x3, x23
	cmp	w8, #1
	b.eq	.LBB36_25
	b	.LBB36_28
.LBB36_27:
	mov	w22, #1
.LBB36_28:
	mov	w1, #7
.LBB36_29:
	mov	w0, w22
	ldp	x20, x19, [sp, #96]
	ldp	x22, x21, [sp, #80]
	ldp	x24, x23, [sp, #64]
	ldp	x26, x25, [sp, #48]
	ldp	x28, x27, [sp, #32]
	ldp	x29, x30, [sp, #16]
	add	sp, sp, #112
	ret
.LBB36_30:
	ldur	w2, [x29, #-4]
	mov	w8, #1
	mov	x5, x27
	mov	w4, w28
	and	w9, w2, #0xff
	cmp	w9, #1
	b.eq	.LBB36_17
.LBB36_31:
	mov	x0, x20
	mov	x1, x21
	mov	w2, w8
	mov	w23, w4
	mov	x4, x19
	mov	x22, x3
	mov	x27, x5
	bl	ic_any_collection.any_collection.AnyCollection.after.87ed5b954c3afc77
	mov	x3, x22
	mov	x5, x27
	mov	w8, w0
	tst	w23, #0xff
	b.ne	.LBB36_18
.LBB36_32:
	tst	w8, #0xff
	b.eq	.LBB36_20
.LBB36_33:
	mov	w22, #1
	mov	w1, #8
	b	.LBB36_29
.LBB36_34:
	cmp	w26, #2
	b.ne	.LBB36_37
	cmp	w24, #2
	b.eq	.LBB36_38
	ldr	x8, [x21, #8]
	cmp	w24, #1
	add	x8, x8, x19
	sub	x8, x8, #8
	b	.LBB36_42
.LBB36_37:
	mov	w1, wzr
	mov	w22, wzr
	str	x19, [x20, #16]
	b	.LBB36_29
.LBB36_38:
	ldr	x8, [x21, #16]
	cbz	w25, .LBB36_40
	lsr	x9, x19, #3
	mov	w10, #24
	madd	x8, x9, x10, x8
	b	.LBB36_41
.LBB36_40:
	add	x8, x8, x19, lsl #1
.LBB36_41:
	sub	x8, x8, #16
.LBB36_42:
	ldr	x8, [x8]
	eor	x9, x19, x3
	mov	w1, wzr
	mov	w22, wzr
	eor	x8, x9, x8
	stp	x19, x8, [x20, #24]
	b	.LBB36_29
.LBB36_43:
	brk	#0x1
.Lfunc_end36:
	.size	ic_world.calls.seek.seek_with.87ed5b954c3afc77, .Lfunc_end36-ic_world.calls.seek.seek_with.87ed5b954c3afc77
	.section	.text.ic_any_collection.any_collection.AnyCollection.after.87ed5b954c3afc77,"ax",@progbits
	.p2align	2
	.type	ic_any_collection.any_collection.AnyCollection.after.87ed5b954c3afc77,@function
ic_any_collection.any_collection.AnyCollection.after.87ed5b954c3afc77:
	stp	x29, x30, [sp, #-16]!
	ldrb	w8, [x0]
	mov	x29, sp
	cmp	w8, #1
	b.gt	.LBB37_6
	cbnz	w8, .LBB37_9
	cbz	x4, .LBB37_27
	ldrb	w8, [x1]
	cmp	w8, #2
	b.eq	.LBB37_23
	cmp	w8, #1
	ldr	x8, [x1, #8]
	add	x8, x8, x4
	ldr	x1, [x8, #-8]!
.LBB37_5:
	cmp	x1, #0
	cset	w0, ne
	ldp	x29, x30, [sp], #16
	ret
.LBB37_6:
	cmp	w8, #2
	b.ne	.LBB37_12
	ldrb	w8, [x1]
	cmp	w8, #2
	b.eq	.LBB37_21
	cmp	w8, #1
	ldr	x8, [x1, #8]
	add	x8, x8, x4
	ldur	x8, [x8, #-8]
	b	.LBB37_26
.LBB37_9:
	ldrb	w8, [x1]
	cmp	w8, #2
	b.ne	.LBB37_29
	cbz	x4, .LBB37_27
	lsr	x8, x4, #2
	ldrb	w9, [x1, #8]
	lsl	x10, x4, #1
	ldr	x11, [x1, #16]
	add	x8, x8, x4, lsr #3
	cmp	w9, #0
	lsl	x8, x8, #3
	csel	x8, x10, x8, eq
	add	x8, x11, x8
	ldur	x1, [x8, #-16]
	cmp	x1, #0
	cset	w0, ne
	ldp	x29, x30, [sp], #16
	ret
.LBB37_12:
	ldrb	w8, [x1]
	cmp	w8, #2
	b.ne	.LBB37_29
	ldrb	w8, [x1, #8]
	cmp	w8, #1
	b.ne	.LBB37_29
	cbz	x4, .LBB37_28
	lsr	x8, x4, #2
	add	x9, x8, x4, lsr #3
	ldr	x8, [x1, #16]
	lsl	x10, x9, #3
	add	x9, x8, x10
	ldur	x9, [x9, #-16]
	cbz	x9, .LBB37_18
	sub	x8, x8, #24
.LBB37_17:
	mov	x1, x9
	lsr	x9, x9, #3
	mov	w10, #24
	mul	x9, x9, x10
	ldr	x9, [x8, x9]
	cbnz	x9, .LBB37_17
	b	.LBB37_5
.LBB37_18:
	sub	x9, x8, #16
.LBB37_19:
	add	x10, x8, x10
	ldur	x10, [x10, #-8]
	ands	x1, x10, #0xfffffffffffffff8
	b.eq	.LBB37_5
	lsr	x10, x10, #3
	add	x10, x10, x10, lsl #1
	lsl	x10, x10, #3
	ldr	x11, [x9, x10]
	cmp	x11, x4
	mov	x4, x1
	b.eq	.LBB37_19
	b	.LBB37_5
.LBB37_21:
	ldrb	w9, [x1, #8]
	ldr	x8, [x1, #16]
	cbz	w9, .LBB37_24
	lsr	x9, x4, #3
	mov	w10, #24
	madd	x8, x9, x10, x8
	b	.LBB37_25
.LBB37_23:
	lsr	x8, x4, #3
	mov	w9, #24
	ldr	x10, [x1, #16]
	madd	x8, x8, x9, x10
	ldrb	w9, [x1, #8]
	add	x10, x10, x4, lsl #1
	sub	x10, x10, #16
	cmp	w9, #0
	sub	x8, x8, #16
	csel	x8, x8, x10, ne
	ldr	x1, [x8]
	cmp	x1, #0
	cset	w0, ne
	ldp	x29, x30, [sp], #16
	ret
.LBB37_24:
	add	x8, x8, x4, lsl #1
.LBB37_25:
	ldur	x8, [x8, #-16]
.LBB37_26:
	tst	w2, #0xff
	csel	x9, xzr, x3, eq
	eor	x1, x8, x9
	cmp	x1, #0
	cset	w0, ne
	ldp	x29, x30, [sp], #16
	ret
.LBB37_27:
	ldr	x0, [x0, #8]
	bl	ic_chain.list.LinkList.head_from_null.634a9fa49d0f2abe
	tst	w0, #0x1
	csel	x1, x1, xzr, ne
	cmp	x1, #0
	cset	w0, ne
	ldp	x29, x30, [sp], #16
	ret
.LBB37_28:
	ldr	x2, [x0, #8]
	add	x0, x1, #16
	mov	w3, wzr
	cmp	x2, #0
	cset	w8, ne
	mov	w1, w8
	bl	ic_rbtree.steps.end_from_null.9168104deb0006b5
	tst	w0, #0xff
	csel	x1, xzr, x1, eq
	cmp	x1, #0
	cset	w0, ne
	ldp	x29, x30, [sp], #16
	ret
.LBB37_29:
	brk	#0x1
.Lfunc_end37:
	.size	ic_any_collection.any_collection.AnyCollection.after.87ed5b954c3afc77, .Lfunc_end37-ic_any_collection.any_collection.AnyCollection.after.87ed5b954c3afc77
	.section	.text.ic_chain.edits.LinkListForwardOnly.replace_next_at.927dec3b43ebc9b0,"ax",@progbits
	.p2align	2
	.type	ic_chain.edits.LinkListForwardOnly.replace_next_at.927dec3b43ebc9b0,@function
ic_chain.edits.LinkListForwardOnly.replace_next_at.927dec3b43ebc9b0:
	ldr	x8, [x3]
	mov	x9, x1
	cbz	x8, .LBB38_3
	ldrb	w9, [x2]
	cmp	w9, #2
	b.eq	.LBB38_8
	cmp	w9, #1
	ldr	x9, [x2, #8]
	add	x9, x9, x8
	sub	x9, x9, #8
.LBB38_3:
	ldr	x9, [x9]
	cmp	x9, #0
	cset	w10, ne
	cbz	x9, .LBB38_16
.LBB38_4:
	ldrb	w11, [x2]
	cbz	w11, .LBB38_6
	cmp	w11, #1
	b.ne	.LBB38_10
.LBB38_6:
	ldr	x11, [x2, #8]
	add	x12, x11, x4
	ldur	x13, [x12, #-8]
	cmp	x13, #1
	b.ne	.LBB38_20
	add	x11, x11, x9
	ldur	x11, [x11, #-8]
	stur	xzr, [x12, #-8]
	cbnz	x8, .LBB38_13
	b	.LBB38_19
.LBB38_8:
	ldrb	w10, [x2, #8]
	ldr	x9, [x2, #16]
	cbz	w10, .LBB38_15
	lsr	x10, x8, #3
	mov	w11, #24
	madd	x9, x10, x11, x9
	sub	x9, x9, #16
	ldr	x9, [x9]
	cmp	x9, #0
	cset	w10, ne
	cbnz	x9, .LBB38_4
	b	.LBB38_16
.LBB38_10:
	lsr	x11, x9, #2
	ldrb	w13, [x2, #8]
	lsl	x14, x9, #1
	ldr	x12, [x2, #16]
	add	x11, x11, x9, lsr #3
	cmp	w13, #0
	lsl	x11, x11, #3
	csel	x11, x14, x11, eq
	add	x11, x12, x11
	ldur	x11, [x11, #-16]
	cbz	w13, .LBB38_17
	lsr	x13, x4, #3
	mov	w14, #24
	madd	x12, x13, x14, x12
	ldurb	w13, [x12, #-8]
	tbnz	w13, #1, .LBB38_20
	mov	w13, #3
	stur	x13, [x12, #-8]
	cbz	x8, .LBB38_19
.LBB38_13:
	ldrb	w12, [x2]
	cmp	w12, #2
	b.eq	.LBB38_21
	cmp	w12, #1
	ldr	x12, [x2, #8]
	add	x12, x12, x8
	stur	x4, [x12, #-8]
	ldrb	w12, [x2]
	cmp	w12, #2
	b.ne	.LBB38_23
	b	.LBB38_26
.LBB38_15:
	add	x9, x9, x8, lsl #1
	sub	x9, x9, #16
	ldr	x9, [x9]
	cmp	x9, #0
	cset	w10, ne
	cbnz	x9, .LBB38_4
.LBB38_16:
	stp	xzr, xzr, [x0]
	strb	wzr, [x0, #16]
	ret
.LBB38_17:
	add	x12, x12, x4, lsl #1
	ldur	x13, [x12, #-16]
	cmp	x13, #1
	b.ne	.LBB38_20
	stur	xzr, [x12, #-16]
	cbnz	x8, .LBB38_13
.LBB38_19:
	str	x4, [x1]
	ldrb	w12, [x2]
	cmp	w12, #2
	b.ne	.LBB38_23
	b	.LBB38_26
.LBB38_20:
	stp	x10, x9, [x0]
	strb	wzr, [x0, #16]
	ret
.LBB38_21:
	ldrb	w13, [x2, #8]
	ldr	x12, [x2, #16]
	cbz	w13, .LBB38_25
	lsr	x13, x8, #3
	mov	w14, #24
	madd	x12, x13, x14, x12
	stur	x4, [x12, #-16]
	ldrb	w12, [x2]
	cmp	w12, #2
	b.eq	.LBB38_26
.LBB38_23:
	cmp	w12, #1
	ldr	x12, [x2, #8]
	add	x12, x12, x4
	stur	x11, [x12, #-8]
	ldrb	w11, [x2]
	cmp	w11, #2
	b.eq	.LBB38_29
.LBB38_24:
	cmp	w11, #1
	ldr	x11, [x2, #8]
	mov	w12, #1
	add	x11, x11, x9
	stur	x12, [x11, #-8]
	str	x8, [x3]
	mov	w8, #1
	stp	x10, x9, [x0]
	strb	w8, [x0, #16]
	ret
.LBB38_25:
	add	x12, x12, x8, lsl #1
	stur	x4, [x12, #-16]
	ldrb	w12, [x2]
	cmp	w12, #2
	b.ne	.LBB38_23
.LBB38_26:
	ldrb	w13, [x2, #8]
	ldr	x12, [x2, #16]
	cbz	w13, .LBB38_28
	lsr	x13, x4, #3
	mov	w14, #24
	madd	x12, x13, x14, x12
	stur	x11, [x12, #-16]
	ldrb	w11, [x2]
	cmp	w11, #2
	b.ne	.LBB38_24
	b	.LBB38_29
.LBB38_28:
	add	x12, x12, x4, lsl #1
	stur	x11, [x12, #-16]
	ldrb	w11, [x2]
	cmp	w11, #2
	b.ne	.LBB38_24
.LBB38_29:
	ldrb	w12, [x2, #8]
	ldr	x11, [x2, #16]
	cbz	w12, .LBB38_31
	lsr	x12, x9, #3
	mov	w13, #24
	madd	x11, x12, x13, x11
	stur	xzr, [x11, #-8]
	str	x8, [x3]
	mov	w8, #1
	stp	x10, x9, [x0]
	strb	w8, [x0, #16]
	ret
.LBB38_31:
	add	x11, x11, x9, lsl #1
	mov	w12, #1
	stur	x12, [x11, #-16]
	str	x8, [x3]
	mov	w8, #1
	stp	x10, x9, [x0]
	strb	w8, [x0, #16]
	ret
.Lfunc_end38:
	.size	ic_chain.edits.LinkListForwardOnly.replace_next_at.927dec3b43ebc9b0, .Lfunc_end38-ic_chain.edits.LinkListForwardOnly.replace_next_at.927dec3b43ebc9b0
	.section	.text.ic_chain.edits.LinkListBidirectional.replace_at.10cc405e52586c83,"ax",@progbits
	.p2align	2
	.type	ic_chain.edits.LinkListBidirectional.replace_at.10cc405e52586c83,@function
ic_chain.edits.LinkListBidirectional.replace_at.10cc405e52586c83:
	ldr	x8, [x2]
	cbz	x8, .LBB39_11
	lsr	x9, x8, #2
	ldrb	w13, [x1]
	ldr	x12, [x1, #8]
	add	x9, x9, x8, lsr #3
	lsl	x8, x8, #1
	cmp	w13, #0
	lsl	x9, x9, #3
	add	x10, x12, x8
	sub	x10, x10, #8
	add	x11, x12, x9
	csel	x14, x8, x9, eq
	sub	x11, x11, #24
	add	x14, x12, x14
	csel	x10, x10, x11, eq
	ldr	x11, [x10]
	ldur	x10, [x14, #-16]
	cbz	w13, .LBB39_6
	lsr	x13, x3, #3
	mov	w14, #24
	madd	x12, x13, x14, x12
	ldurb	w13, [x12, #-8]
	tbnz	w13, #1, .LBB39_11
	mov	w13, #3
	stur	x13, [x12, #-8]
	cbz	x11, .LBB39_8
.LBB39_4:
	ldrb	w13, [x1]
	ldr	x12, [x1, #8]
	cbz	w13, .LBB39_12
	lsr	x13, x11, #3
	mov	w14, #24
	madd	x12, x13, x14, x12
	stur	x3, [x12, #-16]
	cbnz	x10, .LBB39_9
	b	.LBB39_13
.LBB39_6:
	add	x12, x12, x3, lsl #1
	ldur	x13, [x12, #-16]
	cmp	x13, #1
	b.ne	.LBB39_11
	stur	xzr, [x12, #-16]
	cbnz	x11, .LBB39_4
.LBB39_8:
	str	x3, [x0]
	cbz	x10, .LBB39_13
.LBB39_9:
	ldrb	w13, [x1]
	ldr	x12, [x1, #8]
	cbz	w13, .LBB39_17
	lsr	x13, x10, #3
	mov	w14, #24
	madd	x12, x13, x14, x12
	stur	x3, [x12, #-24]
	ldrb	w13, [x1]
	ldr	x12, [x1, #8]
	cbnz	w13, .LBB39_14
	b	.LBB39_18
.LBB39_11:
	mov	w0, wzr
	ret
.LBB39_12:
	add	x12, x12, x11, lsl #1
	stur	x3, [x12, #-16]
	cbnz	x10, .LBB39_9
.LBB39_13:
	str	x3, [x0, #8]
	ldrb	w13, [x1]
	ldr	x12, [x1, #8]
	cbz	w13, .LBB39_18
.LBB39_14:
	lsr	x13, x3, #3
	mov	w14, #24
	madd	x12, x13, x14, x12
	stur	x11, [x12, #-24]
	ldrb	w12, [x1]
	ldr	x11, [x1, #8]
	cbz	w12, .LBB39_19
.LBB39_15:
	lsr	x12, x3, #3
	mov	w13, #24
	madd	x11, x12, x13, x11
	stur	x10, [x11, #-16]
	ldrb	w11, [x1]
	ldr	x10, [x1, #8]
	cbz	w11, .LBB39_20
.LBB39_16:
	add	x8, x10, x9
	stur	xzr, [x8, #-8]
	mov	w0, #1
	str	x3, [x2]
	ret
.LBB39_17:
	add	x12, x12, x10, lsl #1
	stur	x3, [x12, #-8]
	ldrb	w13, [x1]
	ldr	x12, [x1, #8]
	cbnz	w13, .LBB39_14
.LBB39_18:
	add	x12, x12, x3, lsl #1
	stur	x11, [x12, #-8]
	ldrb	w12, [x1]
	ldr	x11, [x1, #8]
	cbnz	w12, .LBB39_15
.LBB39_19:
	add	x11, x11, x3, lsl #1
	stur	x10, [x11, #-16]
	ldrb	w11, [x1]
	ldr	x10, [x1, #8]
	cbnz	w11, .LBB39_16
.LBB39_20:
	add	x8, x10, x8
	mov	w9, #1
	stur	x9, [x8, #-16]
	mov	w0, #1
	str	x3, [x2]
	ret
.Lfunc_end39:
	.size	ic_chain.edits.LinkListBidirectional.replace_at.10cc405e52586c83, .Lfunc_end39-ic_chain.edits.LinkListBidirectional.replace_at.10cc405e52586c83
	.section	.text.ic_chain.edits.LinkListBidirectional.replace_at.d62ae654698fb858,"ax",@progbits
	.p2align	2
	.type	ic_chain.edits.LinkListBidirectional.replace_at.d62ae654698fb858,@function
ic_chain.edits.LinkListBidirectional.replace_at.d62ae654698fb858:
	ldr	x9, [x2]
	cbz	x9, .LBB40_18
	ldr	x11, [x2, #8]
	ldrb	w10, [x1]
	eor	x8, x11, x9
	cbz	w10, .LBB40_3
	cmp	w10, #1
	b.ne	.LBB40_7
.LBB40_3:
	ldr	x10, [x1, #8]
	add	x12, x10, x3
	ldur	x13, [x12, #-8]
	cmp	x13, #1
	b.ne	.LBB40_18
	add	x10, x10, x9
	cmp	x11, x9
	ldur	x10, [x10, #-8]
	cset	w11, eq
	stur	xzr, [x12, #-8]
	cmp	x10, x8
	b.ne	.LBB40_10
.LBB40_5:
	str	x3, [x0]
	tbz	w11, #0, .LBB40_12
.LBB40_6:
	str	x3, [x0, #8]
	ldrb	w11, [x1]
	cmp	w11, #2
	b.ne	.LBB40_14
	b	.LBB40_26
.LBB40_7:
	lsr	x10, x9, #2
	ldrb	w13, [x1, #8]
	lsl	x14, x9, #1
	ldr	x12, [x1, #16]
	add	x10, x10, x9, lsr #3
	cmp	w13, #0
	lsl	x10, x10, #3
	csel	x10, x14, x10, eq
	cmp	x11, x9
	add	x10, x12, x10
	cset	w11, eq
	ldur	x10, [x10, #-16]
	cbz	w13, .LBB40_16
	lsr	x13, x3, #3
	mov	w14, #24
	madd	x12, x13, x14, x12
	ldurb	w13, [x12, #-8]
	tbnz	w13, #1, .LBB40_18
	mov	w13, #3
	cmp	x10, x8
	stur	x13, [x12, #-8]
	b.eq	.LBB40_5
.LBB40_10:
	ldrb	w13, [x1]
	eor	x12, x10, x8
	cmp	w13, #2
	b.eq	.LBB40_19
	cmp	w13, #1
	ldr	x13, [x1, #8]
	eor	x14, x3, x9
	add	x12, x13, x12
	ldur	x13, [x12, #-8]
	eor	x13, x14, x13
	stur	x13, [x12, #-8]
	tbnz	w11, #0, .LBB40_6
.LBB40_12:
	ldrb	w11, [x1]
	cmp	w11, #2
	b.eq	.LBB40_21
	cmp	w11, #1
	ldr	x11, [x1, #8]
	eor	x13, x3, x9
	add	x11, x11, x8
	ldur	x12, [x11, #-8]
	eor	x12, x13, x12
	stur	x12, [x11, #-8]
	ldrb	w11, [x1]
	cmp	w11, #2
	b.eq	.LBB40_26
.LBB40_14:
	cmp	w11, #1
	ldr	x11, [x1, #8]
	add	x11, x11, x3
	stur	x10, [x11, #-8]
	ldrb	w10, [x1]
	cmp	w10, #2
	b.eq	.LBB40_29
.LBB40_15:
	cmp	w10, #1
	ldr	x10, [x1, #8]
	add	x9, x10, x9
	mov	w10, #1
	stur	x10, [x9, #-8]
	eor	x8, x8, x3
	mov	w0, #1
	stp	x3, x8, [x2]
	ret
.LBB40_16:
	add	x12, x12, x3, lsl #1
	ldur	x13, [x12, #-16]
	cmp	x13, #1
	b.ne	.LBB40_18
	cmp	x10, x8
	stur	xzr, [x12, #-16]
	b.eq	.LBB40_5
	b	.LBB40_10
.LBB40_18:
	mov	w0, wzr
	ret
.LBB40_19:
	ldrb	w14, [x1, #8]
	ldr	x13, [x1, #16]
	cbz	w14, .LBB40_23
	lsr	x12, x12, #3
	mov	w14, #24
	madd	x12, x12, x14, x13
	ldur	x13, [x12, #-16]
	eor	x14, x3, x9
	eor	x13, x14, x13
	stur	x13, [x12, #-16]
	tbnz	w11, #0, .LBB40_6
	b	.LBB40_12
.LBB40_21:
	ldrb	w12, [x1, #8]
	ldr	x11, [x1, #16]
	cbz	w12, .LBB40_24
	lsr	x12, x8, #3
	mov	w13, #24
	madd	x11, x12, x13, x11
	b	.LBB40_25
.LBB40_23:
	add	x12, x13, x12, lsl #1
	ldur	x13, [x12, #-16]
	eor	x14, x3, x9
	eor	x13, x14, x13
	stur	x13, [x12, #-16]
	tbnz	w11, #0, .LBB40_6
	b	.LBB40_12
.LBB40_24:
	add	x11, x11, x8, lsl #1
.LBB40_25:
	ldur	x12, [x11, #-16]
	eor	x13, x3, x9
	eor	x12, x13, x12
	stur	x12, [x11, #-16]
	ldrb	w11, [x1]
	cmp	w11, #2
	b.ne	.LBB40_14
.LBB40_26:
	ldrb	w12, [x1, #8]
	ldr	x11, [x1, #16]
	cbz	w12, .LBB40_28
	lsr	x12, x3, #3
	mov	w13, #24
	madd	x11, x12, x13, x11
	stur	x10, [x11, #-16]
	ldrb	w10, [x1]
	cmp	w10, #2
	b.ne	.LBB40_15
	b	.LBB40_29
.LBB40_28:
	add	x11, x11, x3, lsl #1
	stur	x10, [x11, #-16]
	ldrb	w10, [x1]
	cmp	w10, #2
	b.ne	.LBB40_15
.LBB40_29:
	ldrb	w11, [x1, #8]
	ldr	x10, [x1, #16]
	cbz	w11, .LBB40_31
	lsr	x9, x9, #3
	mov	w11, #24
	madd	x9, x9, x11, x10
	stur	xzr, [x9, #-8]
	eor	x8, x8, x3
	mov	w0, #1
	stp	x3, x8, [x2]
	ret
.LBB40_31:
	add	x9, x10, x9, lsl #1
	mov	w10, #1
	stur	x10, [x9, #-16]
	eor	x8, x8, x3
	mov	w0, #1
	stp	x3, x8, [x2]
	ret
.Lfunc_end40:
	.size	ic_chain.edits.LinkListBidirectional.replace_at.d62ae654698fb858, .Lfunc_end40-ic_chain.edits.LinkListBidirectional.replace_at.d62ae654698fb858
	.section	.text.ic_rbtree.edits.RBTreeBidirectional.replace_at.b002bc248359831b,"ax",@progbits
	.p2align	2
	.type	ic_rbtree.edits.RBTreeBidirectional.replace_at.b002bc248359831b,@function
ic_rbtree.edits.RBTreeBidirectional.replace_at.b002bc248359831b:
	ldr	x13, [x2]
	cbz	x13, .LBB41_4
	lsr	x8, x3, #2
	ldr	x9, [x1]
	add	x8, x8, x3, lsr #3
	lsl	x8, x8, #3
	add	x9, x9, x8
	ldurb	w10, [x9, #-8]
	tbnz	w10, #1, .LBB41_4
	lsr	x10, x13, #2
	mov	w11, #3
	stur	x11, [x9, #-8]
	add	x10, x10, x13, lsr #3
	ldr	x14, [x1]
	lsl	x9, x10, #3
	add	x11, x14, x9
	ldur	x12, [x11, #-24]
	ldp	x11, x10, [x11, #-16]
	cmp	x10, #8
	b.hs	.LBB41_5
	str	x3, [x0]
	cbnz	x12, .LBB41_8
	b	.LBB41_9
.LBB41_4:
	mov	w0, wzr
	ret
.LBB41_5:
	lsr	x15, x10, #3
	mov	w16, #24
	madd	x14, x15, x16, x14
	ldur	x15, [x14, #-24]
	cmp	x15, x13
	b.ne	.LBB41_7
	stur	x3, [x14, #-24]
	cbnz	x12, .LBB41_8
	b	.LBB41_9
.LBB41_7:
	stur	x3, [x14, #-16]
	cbz	x12, .LBB41_9
.LBB41_8:
	lsr	x13, x12, #3
	mov	w14, #24
	ldr	x15, [x1]
	madd	x13, x13, x14, x15
	ldur	x14, [x13, #-8]
	and	x14, x14, #0x7
	orr	x14, x14, x3
	stur	x14, [x13, #-8]
.LBB41_9:
	cbz	x11, .LBB41_11
	lsr	x13, x11, #3
	mov	w14, #24
	ldr	x15, [x1]
	madd	x13, x13, x14, x15
	ldur	x14, [x13, #-8]
	and	x14, x14, #0x7
	orr	x14, x14, x3
	stur	x14, [x13, #-8]
.LBB41_11:
	ldr	x13, [x1]
	and	x10, x10, #0xfffffffffffffff9
	mov	w0, #1
	orr	x10, x10, #0x2
	add	x13, x13, x8
	stur	x12, [x13, #-24]
	ldr	x12, [x1]
	add	x12, x12, x8
	stur	x11, [x12, #-16]
	ldr	x11, [x1]
	add	x8, x11, x8
	stur	x10, [x8, #-8]
	ldr	x8, [x1]
	add	x8, x8, x9
	stur	xzr, [x8, #-8]
	str	x3, [x2]
	ret
.Lfunc_end41:
	.size	ic_rbtree.edits.RBTreeBidirectional.replace_at.b002bc248359831b, .Lfunc_end41-ic_rbtree.edits.RBTreeBidirectional.replace_at.b002bc248359831b
	.section	.text.ic_world.world.World.replace_next_with.27dc223f7d016e2e,"ax",@progbits
	.p2align	2
	.type	ic_world.world.World.replace_next_with.27dc223f7d016e2e,@function
ic_world.world.World.replace_next_with.27dc223f7d016e2e:
	ldr	x8, [x1, #80]
	cmp	x8, x2
	b.ls	.LBB42_6
	sub	sp, sp, #64
	ldr	x8, [x1, #72]
	stp	x29, x30, [sp, #32]
	add	x29, sp, #32
	str	x19, [sp, #48]
	add	x9, x8, x2, lsl #3
	ldr	w8, [x9, #4]
	cmn	w8, #1
	b.eq	.LBB42_8
	lsr	x10, x3, #3
	ldr	x11, [x1, #8]
	mov	x4, x3
	sub	x10, x10, #1
	cmp	x10, x11
	b.hs	.LBB42_7
	ldr	x11, [x1]
	lsl	x10, x10, #4
	ldrb	w10, [x11, x10]
	cmp	w10, #1
	b.ne	.LBB42_7
	ldr	w9, [x9]
	mov	w10, #24
	ldr	x11, [x1, #96]
	mov	w12, #48
	umull	x10, w9, w10
	ldr	x10, [x11, x10]
	umaddl	x8, w8, w12, x10
	ldrb	w10, [x8, #8]
	cbz	w10, .LBB42_10
	mov	x8, xzr
	mov	w10, #3
	mov	w9, #1
	b	.LBB42_9
.LBB42_6:
	mov	w9, #1
	mov	w10, #1
	strb	w9, [x0]
	strb	w10, [x0, #1]
	str	xzr, [x0, #8]
	ret
.LBB42_7:
	mov	x8, xzr
	mov	w10, #2
	mov	w9, #1
	b	.LBB42_9
.LBB42_8:
	mov	x8, xzr
	mov	w9, #1
	mov	w10, #1
.LBB42_9:
	ldp	x29, x30, [sp, #32]
	ldr	x19, [sp, #48]
	add	sp, sp, #64
	strb	w9, [x0]
	strb	w10, [x0, #1]
	str	x8, [x0, #8]
	ret
.LBB42_10:
	mov	w10, #48
	ldr	x11, [x1, #48]
	mov	x19, x0
	umaddl	x2, w9, w10, x11
	add	x0, sp, #8
	add	x1, x8, #16
	add	x3, x8, #24
	stp	xzr, xzr, [sp, #8]
	str	xzr, [sp, #24]
	bl	ic_chain.edits.LinkListForwardOnly.replace_next_at.927dec3b43ebc9b0
	ldrb	w8, [sp, #8]
	cmp	w8, #1
	b.ne	.LBB42_13
	ldrb	w8, [sp, #24]
	mov	x0, x19
	tbz	w8, #0, .LBB42_14
	ldr	x8, [sp, #16]
	mov	w9, wzr
	mov	w10, wzr
	b	.LBB42_9
.LBB42_13:
	mov	x8, xzr
	mov	w10, #6
	mov	w9, #1
	mov	x0, x19
	b	.LBB42_9
.LBB42_14:
	mov	x8, xzr
	mov	w10, #9
	mov	w9, #1
	b	.LBB42_9
.Lfunc_end42:
	.size	ic_world.world.World.replace_next_with.27dc223f7d016e2e, .Lfunc_end42-ic_world.world.World.replace_next_with.27dc223f7d016e2e
	.section	.text.unlikely.std_alloc.vec.Vec.grow_amortized.3f7cc1ad5d64d7d7,"ax",@progbits
	.p2align	2
	.type	std_alloc.vec.Vec.grow_amortized.3f7cc1ad5d64d7d7,@function
std_alloc.vec.Vec.grow_amortized.3f7cc1ad5d64d7d7:
	ldr	x8, [x0, #8]
	cmn	x8, x1
	b.lo	.LBB43_2
	mov	w0, wzr
	ret
.LBB43_2:
	stp	x29, x30, [sp, #-32]!
	ldr	x10, [x0, #16]
	add	x9, x8, x1
	mov	w11, #8
	cmp	x9, #8
	stp	x20, x19, [sp, #16]
	mov	x29, sp
	lsl	x12, x10, #1
	csel	x11, x9, x11, hi
	lsr	x13, x10, #62
	cmp	x11, x12
	csel	x9, x11, x12, hi
	cmp	x13, #0
	csel	x19, x9, x11, eq
	tbnz	x19, #63, .LBB43_7
	cbz	x10, .LBB43_6
	mov	x20, x0
	ldr	x0, [x0]
	mov	x1, x8
	mov	x2, x19
	mov	w3, #1
	bl	rattle_realloc
	tbz	w0, #0, .LBB43_7
.LBB43_5:
	mov	w0, #1
	str	x1, [x20]
	str	x19, [x20, #16]
	ldp	x20, x19, [sp, #16]
	ldp	x29, x30, [sp], #32
	ret
.LBB43_6:
	mov	x20, x0
	mov	x0, x9
	mov	w1, #1
	bl	rattle_alloc
	tbnz	w0, #0, .LBB43_5
.LBB43_7:
	mov	w0, wzr
	ldp	x20, x19, [sp, #16]
	ldp	x29, x30, [sp], #32
	ret
.Lfunc_end43:
	.size	std_alloc.vec.Vec.grow_amortized.3f7cc1ad5d64d7d7, .Lfunc_end43-std_alloc.vec.Vec.grow_amortized.3f7cc1ad5d64d7d7
	.section	.text.ic_program.answers.push_numbered.714b863a58920bda,"ax",@progbits
	.p2align	2
	.type	ic_program.answers.push_numbered.714b863a58920bda,@function
ic_program.answers.push_numbered.714b863a58920bda:
	sub	sp, sp, #144
	stp	x24, x23, [sp, #96]
	mov	x24, x0
	ldp	x8, x23, [x24, #8]!
	stp	x22, x21, [sp, #112]
	mov	x21, x5
	mov	x22, x3
	stp	x20, x19, [sp, #128]
	mov	x20, x4
	mov	x19, x0
	sub	x9, x23, x8
	stp	x29, x30, [sp, #48]
	add	x29, sp, #48
	cmp	x2, x9
	str	x27, [sp, #64]
	stp	x26, x25, [sp, #80]
	b.hi	.LBB44_35
.LBB44_1:
	ldr	x25, [x19]
	add	x26, x8, x2
	stp	xzr, xzr, [x24]
	add	x0, x25, x8
	sub	x9, x0, x1
	cmp	x9, x2
	b.hs	.LBB44_7
	cmp	x2, #4
	b.lo	.LBB44_4
	add	x9, x8, x25
	sub	x9, x9, x1
	cmp	x9, #16
	b.hs	.LBB44_28
.LBB44_4:
	mov	x9, xzr
.LBB44_5:
	add	x10, x9, x8
	sub	x8, x2, x9
	add	x9, x1, x9
	add	x10, x25, x10
.LBB44_6:
	ldrb	w11, [x9], #1
	subs	x8, x8, #1
	strb	w11, [x10], #1
	b.ne	.LBB44_6
	b	.LBB44_8
.LBB44_7:
	bl	memmove
.LBB44_8:
	movi	v0.2d, #0000000000000000
	lsr	x8, x22, #4
	stp	x25, x26, [x19]
	str	x23, [x19, #16]
	cmp	x8, #625
	adrp	x8, .Lstatic.39
	add	x8, x8, :lo12:.Lstatic.39
	str	xzr, [sp, #32]
	stp	q0, q0, [sp]
	b.lo	.LBB44_14
	mov	x9, xzr
.LBB44_10:
	mov	x11, #22859
	mov	x10, x22
	mov	w13, #5243
	movk	x11, #14470, lsl #16
	mov	w14, #57599
	movk	x11, #50646, lsl #32
	movk	w14, #1525, lsl #16
	movk	x11, #13421, lsl #48
	cmp	x22, x14
	umulh	x11, x22, x11
	lsr	x22, x11, #11
	mov	w11, #10000
	msub	w11, w22, w11, w10
	ubfx	w12, w11, #2, #14
	mul	w12, w12, w13
	mov	w13, #100
	lsr	w12, w12, #17
	msub	w11, w12, w13, w11
	mov	x13, sp
	ldrh	w12, [x8, w12, uxtw #1]
	add	x13, x13, x9
	sub	x9, x9, #4
	strh	w12, [x13, #36]
	and	x11, x11, #0xffff
	ldrh	w11, [x8, x11, lsl #1]
	strh	w11, [x13, #38]
	b.hi	.LBB44_10
	add	x9, x9, #40
	cmp	x22, #99
	b.ls	.LBB44_15
.LBB44_12:
	ubfx	w10, w22, #2, #14
	mov	w11, #5243
	cmp	x22, #999
	mul	w10, w10, w11
	mov	w11, #100
	lsr	w10, w10, #17
	msub	w11, w10, w11, w22
	and	x11, x11, #0xffff
	ldrh	w12, [x8, x11, lsl #1]
	mov	x11, sp
	add	x13, x11, x9
	sturh	w12, [x13, #-2]
	b.hi	.LBB44_17
	sub	x27, x9, #3
	orr	w8, w10, #0x30
	strb	w8, [x11, x27]
	mov	w8, #40
	sub	x2, x8, x27
	sub	x8, x23, x26
	cmp	x2, x8
	b.ls	.LBB44_19
	b	.LBB44_37
.LBB44_14:
	mov	w9, #40
	cmp	x22, #99
	b.hi	.LBB44_12
.LBB44_15:
	cmp	x22, #9
	b.hi	.LBB44_18
	sub	x27, x9, #1
	mov	x8, sp
	orr	w9, w22, #0x30
	strb	w9, [x8, x27]
	mov	w8, #40
	sub	x2, x8, x27
	sub	x8, x23, x26
	cmp	x2, x8
	b.ls	.LBB44_19
	b	.LBB44_37
.LBB44_17:
	sub	x27, x9, #4
	ldrh	w8, [x8, w10, uxtw #1]
	strh	w8, [x11, x27]
	mov	w8, #40
	sub	x2, x8, x27
	sub	x8, x23, x26
	cmp	x2, x8
	b.ls	.LBB44_19
	b	.LBB44_37
.LBB44_18:
	sub	x27, x9, #2
	ldrh	w8, [x8, x22, lsl #1]
	mov	x9, sp
	strh	w8, [x9, x27]
	mov	w8, #40
	sub	x2, x8, x27
	sub	x8, x23, x26
	cmp	x2, x8
	b.hi	.LBB44_37
.LBB44_19:
	mov	x8, sp
	add	x0, x25, x26
	add	x22, x26, x2
	add	x1, x8, x27
	bl	memcpy
	sub	x8, x23, x22
	stp	x25, x22, [x19]
	cmp	x21, x8
	str	x23, [x19, #16]
	b.hi	.LBB44_39
	add	x0, x25, x22
	add	x22, x22, x21
	stp	xzr, xzr, [x24]
	sub	x8, x0, x20
	cmp	x8, x21
	b.hs	.LBB44_41
.LBB44_21:
	ldrb	w8, [x20]
	cmp	x21, #1
	strb	w8, [x0]
	b.eq	.LBB44_42
	ldrb	w8, [x20, #1]
	cmp	x21, #2
	strb	w8, [x0, #1]
	b.eq	.LBB44_42
	ldrb	w8, [x20, #2]
	cmp	x21, #3
	strb	w8, [x0, #2]
	b.eq	.LBB44_42
	ldrb	w8, [x20, #3]
	cmp	x21, #4
	strb	w8, [x0, #3]
	b.eq	.LBB44_42
	ldrb	w8, [x20, #4]
	cmp	x21, #5
	strb	w8, [x0, #4]
	b.eq	.LBB44_42
	ldrb	w8, [x20, #5]
	cmp	x21, #6
	strb	w8, [x0, #5]
	b.eq	.LBB44_42
	ldrb	w8, [x20, #6]
	strb	w8, [x0, #6]
	b	.LBB44_42
.LBB44_28:
	cmp	x2, #16
	b.hs	.LBB44_30
	mov	x9, xzr
	b	.LBB44_32
.LBB44_30:
	and	x9, x2, #0x10
	ldr	q0, [x1]
	cmp	x2, x9
	str	q0, [x0]
	b.eq	.LBB44_8
	tst	x2, #0xc
	b.eq	.LBB44_5
.LBB44_32:
	mov	x11, x9
	and	x9, x2, #0x1c
	add	x12, x8, x11
	sub	x10, x11, x9
	add	x11, x1, x11
	add	x12, x25, x12
.LBB44_33:
	ldr	w13, [x11], #4
	adds	x10, x10, #4
	str	w13, [x12], #4
	b.ne	.LBB44_33
	cmp	x2, x9
	b.eq	.LBB44_8
	b	.LBB44_5
.LBB44_35:
	mov	x25, x1
	mov	x0, x19
	mov	x1, x2
	mov	x26, x2
	bl	std_alloc.vec.Vec.grow_amortized.3f7cc1ad5d64d7d7
	cbz	w0, .LBB44_44
	ldp	x8, x23, [x19, #8]
	mov	x2, x26
	mov	x1, x25
	b	.LBB44_1
.LBB44_37:
	mov	x0, x19
	mov	x1, x2
	mov	x22, x2
	bl	std_alloc.vec.Vec.grow_amortized.3f7cc1ad5d64d7d7
	cbz	w0, .LBB44_44
	ldp	x26, x23, [x19, #8]
	mov	x2, x22
	ldr	x25, [x19]
	b	.LBB44_19
.LBB44_39:
	mov	x0, x19
	mov	x1, x21
	bl	std_alloc.vec.Vec.grow_amortized.3f7cc1ad5d64d7d7
	cbz	w0, .LBB44_44
	ldp	x22, x23, [x19, #8]
	ldr	x25, [x19]
	add	x0, x25, x22
	add	x22, x22, x21
	stp	xzr, xzr, [x24]
	sub	x8, x0, x20
	cmp	x8, x21
	b.lo	.LBB44_21
.LBB44_41:
	mov	x1, x20
	mov	x2, x21
	bl	memmove
.LBB44_42:
	mov	w0, wzr
	stp	x25, x22, [x19]
	str	x23, [x19, #16]
.LBB44_43:
	ldp	x20, x19, [sp, #128]
	ldr	x27, [sp, #64]
	ldp	x22, x21, [sp, #112]
	ldp	x24, x23, [sp, #96]
	ldp	x26, x25, [sp, #80]
	ldp	x29, x30, [sp, #48]
	add	sp, sp, #144
	ret
.LBB44_44:
	mov	w0, #1
	b	.LBB44_43
.Lfunc_end44:
	.size	ic_program.answers.push_numbered.714b863a58920bda, .Lfunc_end44-ic_program.answers.push_numbered.714b863a58920bda
	.section	.text.unlikely.ic_program.session.Session.answer_other.40a73cb1e87492e9,"ax",@progbits
	.p2align	2
	.type	ic_program.session.Session.answer_other.40a73cb1e87492e9,@function
ic_program.session.Session.answer_other.40a73cb1e87492e9:
	sub	sp, sp, #272
	movi	v0.2d, #0000000000000000
	stp	x29, x30, [sp, #208]
	add	x29, sp, #208
	stp	x22, x21, [sp, #240]
	mov	x22, x2
	mov	x21, x3
	stp	x20, x19, [sp, #256]
	mov	x20, x1
	mov	x19, x0
	add	x0, sp, #64
	mov	x1, x2
	mov	x2, x3
	stp	x28, x23, [sp, #224]
	stur	xzr, [x29, #-56]
	stp	q0, q0, [sp, #32]
	stp	q0, q0, [sp, #64]
	stp	q0, q0, [sp, #96]
	str	q0, [sp, #128]
	bl	ic_program.line.Line.first_of
	ldr	x9, [sp, #136]
	ldrb	w8, [sp, #64]
	subs	x9, x21, x9
	csel	x23, xzr, x9, lo
	cbnz	w8, .LBB45_3
	mov	x9, x8
	mov	x10, x8
.LBB45_2:
	stp	x8, x23, [x19]
	stp	x9, x10, [x19, #16]
	ldp	x20, x19, [sp, #256]
	ldp	x22, x21, [sp, #240]
	ldp	x28, x23, [sp, #224]
	ldp	x29, x30, [sp, #208]
	add	sp, sp, #272
	ret
.LBB45_3:
	cmp	w8, #2
	b.ne	.LBB45_5
	ldr	x3, [x20, #144]
	add	x0, sp, #8
	mov	x1, x22
	mov	x2, x21
	bl	ic_program.session.stop_at
	ldrb	w23, [sp, #8]
	ldrb	w9, [sp, #16]
	mov	w8, #1
	ldr	x10, [sp, #24]
	b	.LBB45_2
.LBB45_5:
	ldp	q0, q1, [sp, #80]
	sub	x8, x29, #56
	ldrh	w9, [sp, #72]
	ldr	q2, [sp, #112]
	add	x0, sp, #32
	sub	x2, x29, #56
	mov	x1, x20
	sturh	w9, [x29, #-56]
	stur	q0, [x8, #8]
	stur	q1, [x8, #24]
	stur	q2, [x8, #40]
	bl	ic_program.session.Session.call.40a73cb1e87492e9
	ldrb	w8, [sp, #32]
	cbz	w8, .LBB45_7
	ldrb	w8, [sp, #40]
	mov	w9, #1
	ldrb	w10, [sp, #48]
	stp	x9, x8, [x19]
	ldr	x9, [sp, #56]
	stp	x10, x9, [x19, #16]
	ldp	x20, x19, [sp, #256]
	ldp	x22, x21, [sp, #240]
	ldp	x28, x23, [sp, #224]
	ldp	x29, x30, [sp, #208]
	add	sp, sp, #272
	ret
.LBB45_7:
	mov	x8, xzr
	mov	x9, xzr
	mov	x10, xzr
	b	.LBB45_2
.Lfunc_end45:
	.size	ic_program.session.Session.answer_other.40a73cb1e87492e9, .Lfunc_end45-ic_program.session.Session.answer_other.40a73cb1e87492e9
	.section	.text.unlikely.ic_program.line.Line.first_of,"ax",@progbits
	.p2align	2
	.type	ic_program.line.Line.first_of,@function
ic_program.line.Line.first_of:
	sub	sp, sp, #224
	stp	x29, x30, [sp, #160]
	add	x29, sp, #160
	stp	x24, x23, [sp, #176]
	stp	x22, x21, [sp, #192]
	stp	x20, x19, [sp, #208]
	cbz	x2, .LBB46_4
	ldrb	w8, [x1]
	cmp	w8, #10
	b.ne	.LBB46_5
	add	x8, x1, #1
	sub	x9, x2, #1
.LBB46_3:
	movi	v0.2d, #0000000000000000
	stp	x8, x9, [x0, #64]
	stp	q0, q0, [x0]
	stp	q0, q0, [x0, #32]
	ldp	x20, x19, [sp, #208]
	ldp	x22, x21, [sp, #192]
	ldp	x24, x23, [sp, #176]
	ldp	x29, x30, [sp, #160]
	add	sp, sp, #224
	ret
.LBB46_4:
	mov	x22, x0
	mov	x21, x1
	mov	x0, x1
	mov	x1, x2
	mov	x20, x2
	bl	ic_program.text.other_line
	tbnz	w0, #0, .LBB46_6
	b	.LBB46_9
.LBB46_5:
	mov	x22, x0
	mov	x21, x1
	mov	x0, x1
	mov	x1, x2
	mov	x20, x2
	bl	ic_program.text.other_line
	tbz	w0, #0, .LBB46_7
.LBB46_6:
	mov	x0, x22
	add	x8, x21, x1
	sub	x9, x20, x1
	b	.LBB46_3
.LBB46_7:
	ldrb	w8, [x21]
	cmp	w8, #32
	b.ne	.LBB46_9
	mov	x0, x21
	mov	x1, x20
	bl	ic_program.text.without_more_spaces
	mov	x23, x20
	mov	x19, x0
	mov	x20, x1
	b	.LBB46_10
.LBB46_9:
	mov	x19, x21
	mov	x23, x20
.LBB46_10:
	mov	x24, x21
	cmp	x20, #8
	b.lo	.LBB46_12
	mov	x9, #57055
	ldr	x8, [x19]
	movk	x9, #57054, lsl #16
	movk	x9, #57054, lsl #32
	movk	x9, #57054, lsl #48
	add	x9, x8, x9
	bic	x9, x9, x8
	and	x9, x9, #0x8080808080808080
	sub	x9, x9, #1
	and	x8, x9, x8
	mov	x9, #48367
	movk	x9, #36653, lsl #16
	movk	x9, #62937, lsl #32
	movk	x9, #14825, lsl #48
	mul	x8, x8, x9
	lsr	x1, x8, #58
	b	.LBB46_13
.LBB46_12:
	mov	w1, #64
.LBB46_13:
	add	x0, sp, #80
	mov	x2, x19
	mov	x3, x20
	bl	ic_program.line.call_at
	ldrb	w8, [sp, #80]
	cmp	w8, #1
	b.ne	.LBB46_16
	ldrh	w8, [sp, #88]
	ldp	q0, q1, [sp, #96]
	mov	w9, #1
	stur	wzr, [x22, #10]
	str	x9, [x22]
	strh	w8, [x22, #8]
	ldp	x8, x9, [sp, #144]
	stp	q0, q1, [x22, #16]
	ldr	q0, [sp, #128]
.LBB46_15:
	strh	wzr, [x22, #14]
	str	q0, [x22, #48]
	stp	x8, x9, [x22, #64]
	ldp	x20, x19, [sp, #208]
	ldp	x22, x21, [sp, #192]
	ldp	x24, x23, [sp, #176]
	ldp	x29, x30, [sp, #160]
	add	sp, sp, #224
	ret
.LBB46_16:
	mov	x21, xzr
.LBB46_17:
	mov	x0, sp
	mov	x1, x21
	mov	x2, x19
	mov	x3, x20
	bl	ic_program.line.call_at
	ldrb	w8, [sp]
	cmp	w8, #1
	b.eq	.LBB46_20
	add	x21, x21, #1
	cmp	x21, #64
	b.ne	.LBB46_17
	movi	v0.2d, #0000000000000000
	mov	w8, #2
	stp	xzr, x24, [x22, #56]
	str	x8, [x22]
	str	x23, [x22, #72]
	stur	q0, [x22, #8]
	stur	q0, [x22, #24]
	stur	q0, [x22, #40]
	ldp	x20, x19, [sp, #208]
	ldp	x22, x21, [sp, #192]
	ldp	x24, x23, [sp, #176]
	ldp	x29, x30, [sp, #160]
	add	sp, sp, #224
	ret
.LBB46_20:
	ldrh	w8, [sp, #8]
	ldp	q0, q1, [sp, #16]
	mov	w9, #1
	stur	wzr, [x22, #10]
	str	x9, [x22]
	strh	w8, [x22, #8]
	ldp	x8, x9, [sp, #64]
	stp	q0, q1, [x22, #16]
	ldr	q0, [sp, #48]
	b	.LBB46_15
.Lfunc_end46:
	.size	ic_program.line.Line.first_of, .Lfunc_end46-ic_program.line.Line.first_of
	.section	.text.unlikely.ic_program.line.call_at,"ax",@progbits
	.p2align	2
	.type	ic_program.line.call_at,@function
ic_program.line.call_at:
	sub	sp, sp, #208
	stp	x29, x30, [sp, #112]
	add	x29, sp, #112
	cmp	x1, #63
	str	x27, [sp, #128]
	stp	x26, x25, [sp, #144]
	stp	x24, x23, [sp, #160]
	stp	x22, x21, [sp, #176]
	stp	x20, x19, [sp, #192]
	strh	wzr, [x29, #28]
	str	wzr, [x29, #24]
	str	wzr, [sp, #8]
	strh	wzr, [sp, #12]
	b.hi	.LBB47_270
	adrp	x8, .LJTI47_0
	add	x8, x8, :lo12:.LJTI47_0
	adr	x9, .LBB47_2
	ldrh	w10, [x8, x1, lsl #1]
	add	x9, x9, x10, lsl #2
	br	x9
.LBB47_2:
	subs	x20, x3, #6
	b.lo	.LBB47_1287
	ldr	w8, [x2]
	mov	w9, #27747
	movk	w9, #24933, lsl #16
	cmp	w8, w9
	b.ne	.LBB47_1287
	ldur	w8, [x2, #2]
	mov	w9, #24933
	movk	w9, #8306, lsl #16
	cmp	w8, w9
	b.ne	.LBB47_1287
	cmp	x20, #5
	add	x21, x2, #6
	b.lo	.LBB47_608
	ldrb	w8, [x21]
	sub	w8, w8, #48
	cmp	w8, #9
	b.hi	.LBB47_608
	ldrb	w9, [x2, #7]
	and	x19, x8, #0xff
	sub	w10, w9, #48
	cmp	w10, #9
	b.hi	.LBB47_411
	ldrb	w8, [x2, #8]
	sub	w9, w8, #48
	and	x8, x10, #0xff
	cmp	w9, #9
	b.hi	.LBB47_444
	ldrb	w10, [x2, #9]
	and	x9, x9, #0xff
	sub	w10, w10, #48
	cmp	w10, #10
	b.hs	.LBB47_602
	ldrb	w11, [x2, #10]
	sub	w11, w11, #48
	cmp	w11, #10
	b.lo	.LBB47_608
	mov	w11, #10
	umaddl	x8, w19, w11, x8
	umaddl	x8, w8, w11, x9
	and	x9, x10, #0xff
	umaddl	x19, w8, w11, x9
	mov	w8, #4
	b	.LBB47_603
.LBB47_12:
	subs	x20, x3, #5
	b.lo	.LBB47_1287
	ldr	w8, [x2]
	mov	w9, #26739
	movk	w9, #30575, lsl #16
	cmp	w8, w9
	b.ne	.LBB47_1287
	ldur	w8, [x2, #1]
	mov	w9, #28520
	movk	w9, #8311, lsl #16
	cmp	w8, w9
	b.ne	.LBB47_1287
	cmp	x20, #5
	add	x21, x2, #5
	b.lo	.LBB47_480
	ldrb	w8, [x21]
	sub	w8, w8, #48
	cmp	w8, #9
	b.hi	.LBB47_480
	ldrb	w9, [x2, #6]
	and	x19, x8, #0xff
	sub	w10, w9, #48
	cmp	w10, #9
	b.hi	.LBB47_402
	ldrb	w8, [x2, #7]
	sub	w9, w8, #48
	and	x8, x10, #0xff
	cmp	w9, #9
	b.hi	.LBB47_424
	ldrb	w10, [x2, #8]
	and	x9, x9, #0xff
	sub	w10, w10, #48
	cmp	w10, #10
	b.hs	.LBB47_474
	ldrb	w11, [x2, #9]
	sub	w11, w11, #48
	cmp	w11, #10
	b.lo	.LBB47_480
	mov	w11, #10
	umaddl	x8, w19, w11, x8
	umaddl	x8, w8, w11, x9
	and	x9, x10, #0xff
	umaddl	x19, w8, w11, x9
	mov	w8, #4
	b	.LBB47_475
.LBB47_22:
	movi	v0.2d, #0000000000000000
	subs	x20, x3, #6
	stur	xzr, [x29, #-16]
	str	xzr, [sp, #48]
	stp	q0, q0, [x29, #-48]
	stp	q0, q0, [sp, #16]
	b.lo	.LBB47_1288
	ldr	w8, [x2]
	mov	w9, #24946
	movk	w9, #26478, lsl #16
	cmp	w8, w9
	b.ne	.LBB47_1288
	mov	w9, #25441
	ldur	w8, [x2, #2]
	movk	w9, #8293, lsl #16
	add	w9, w9, #1037
	cmp	w8, w9
	b.ne	.LBB47_1288
	mov	x25, x0
	cmp	x20, #5
	add	x21, x2, #6
	b.lo	.LBB47_1211
	ldrb	w8, [x21]
	sub	w8, w8, #48
	cmp	w8, #9
	b.hi	.LBB47_1211
	ldrb	w9, [x2, #7]
	and	x19, x8, #0xff
	sub	w10, w9, #48
	cmp	w10, #9
	b.hi	.LBB47_960
	ldrb	w8, [x2, #8]
	sub	w9, w8, #48
	and	x8, x10, #0xff
	cmp	w9, #9
	b.hi	.LBB47_1127
	ldrb	w10, [x2, #9]
	mov	x11, x2
	and	x9, x9, #0xff
	sub	w10, w10, #48
	cmp	w10, #10
	b.hs	.LBB47_1206
	ldrb	w11, [x11, #10]
	sub	w11, w11, #48
	cmp	w11, #10
	b.lo	.LBB47_1211
	mov	w11, #10
	umaddl	x8, w19, w11, x8
	umaddl	x8, w8, w11, x9
	and	x9, x10, #0xff
	umaddl	x19, w8, w11, x9
	mov	w8, #4
	b	.LBB47_1207
.LBB47_32:
	subs	x20, x3, #5
	b.lo	.LBB47_1287
	ldr	w8, [x2]
	mov	w9, #26982
	movk	w9, #25710, lsl #16
	cmp	w8, w9
	b.ne	.LBB47_1287
	mov	w9, #27749
	ldur	w8, [x2, #1]
	movk	w9, #8292, lsl #16
	add	w9, w9, #516
	cmp	w8, w9
	b.ne	.LBB47_1287
	cmp	x20, #5
	add	x21, x2, #5
	b.lo	.LBB47_499
	ldrb	w8, [x21]
	sub	w8, w8, #48
	cmp	w8, #9
	b.hi	.LBB47_499
	ldrb	w9, [x2, #6]
	and	x19, x8, #0xff
	sub	w10, w9, #48
	cmp	w10, #9
	b.hi	.LBB47_403
	ldrb	w8, [x2, #7]
	sub	w9, w8, #48
	and	x8, x10, #0xff
	cmp	w9, #9
	b.hi	.LBB47_425
	ldrb	w10, [x2, #8]
	and	x9, x9, #0xff
	sub	w10, w10, #48
	cmp	w10, #10
	b.hs	.LBB47_486
	ldrb	w11, [x2, #9]
	sub	w11, w11, #48
	cmp	w11, #10
	b.lo	.LBB47_499
	mov	w11, #10
	umaddl	x8, w19, w11, x8
	umaddl	x8, w8, w11, x9
	and	x9, x10, #0xff
	umaddl	x19, w8, w11, x9
	mov	w9, #4
	b	.LBB47_487
.LBB47_42:
	subs	x20, x3, #8
	b.lo	.LBB47_1287
	mov	x9, #25970
	ldr	x8, [x2]
	movk	x9, #25974, lsl #16
	movk	x9, #29554, lsl #32
	movk	x9, #8293, lsl #48
	cmp	x8, x9
	b.ne	.LBB47_1287
	cmp	x20, #5
	add	x21, x2, #8
	b.lo	.LBB47_432
	ldrb	w8, [x21]
	sub	w8, w8, #48
	cmp	w8, #9
	b.hi	.LBB47_432
	ldrb	w9, [x2, #9]
	and	x19, x8, #0xff
	sub	w10, w9, #48
	cmp	w10, #9
	b.hi	.LBB47_282
	ldrb	w8, [x2, #10]
	sub	w9, w8, #48
	and	x8, x10, #0xff
	cmp	w9, #9
	b.hi	.LBB47_404
	ldrb	w10, [x2, #11]
	and	x9, x9, #0xff
	sub	w10, w10, #48
	cmp	w10, #10
	b.hs	.LBB47_426
	ldrb	w11, [x2, #12]
	sub	w11, w11, #48
	cmp	w11, #10
	b.lo	.LBB47_432
	mov	w11, #10
	umaddl	x8, w19, w11, x8
	umaddl	x8, w8, w11, x9
	and	x9, x10, #0xff
	umaddl	x19, w8, w11, x9
	mov	w8, #4
	b	.LBB47_427
.LBB47_51:
	subs	x19, x3, #14
	b.lo	.LBB47_1287
	mov	x9, #25970
	ldr	x8, [x2]
	movk	x9, #28525, lsl #16
	movk	x9, #25974, lsl #32
	movk	x9, #28511, lsl #48
	cmp	x8, x9
	b.ne	.LBB47_1287
	mov	x9, #28511
	ldur	x8, [x2, #6]
	movk	x9, #27234, lsl #16
	movk	x9, #25445, lsl #32
	movk	x9, #8308, lsl #48
	cmp	x8, x9
	b.ne	.LBB47_1287
	cmp	x19, #5
	add	x20, x2, #14
	b.lo	.LBB47_510
	ldrb	w8, [x20]
	sub	w8, w8, #48
	cmp	w8, #9
	b.hi	.LBB47_510
	ldrb	w9, [x2, #15]
	and	x8, x8, #0xff
	sub	w9, w9, #48
	cmp	w9, #9
	b.hi	.LBB47_405
	ldrb	w10, [x2, #16]
	and	x9, x9, #0xff
	sub	w10, w10, #48
	cmp	w10, #9
	b.hi	.LBB47_438
	ldrb	w11, [x2, #17]
	and	x10, x10, #0xff
	sub	w11, w11, #48
	cmp	w11, #10
	b.hs	.LBB47_504
	ldrb	w12, [x2, #18]
	sub	w12, w12, #48
	cmp	w12, #10
	b.lo	.LBB47_510
	mov	w12, #10
	umaddl	x8, w8, w12, x9
	and	x9, x11, #0xff
	umaddl	x8, w8, w12, x10
	umaddl	x8, w8, w12, x9
	mov	w9, #4
	b	.LBB47_505
.LBB47_61:
	subs	x8, x3, #6
	b.lo	.LBB47_1287
	ldr	w9, [x2]
	mov	w10, #26982
	movk	w10, #27749, lsl #16
	cmp	w9, w10
	b.ne	.LBB47_1287
	ldur	w9, [x2, #2]
	mov	w10, #27749
	movk	w10, #8292, lsl #16
	cmp	w9, w10
	b.ne	.LBB47_1287
	mov	x21, x0
	sub	x0, x29, #48
	add	x1, x2, #6
	mov	x2, x8
	bl	ic_program.argument.KindArgument.read
	ldurb	w8, [x29, #-48]
	mov	x0, x21
	cmp	w8, #1
	b.ne	.LBB47_1287
	ldp	x20, x19, [x29, #-32]
	ldurb	w23, [x29, #-40]
	cbz	x19, .LBB47_1203
	ldrb	w8, [x20]
	cmp	w8, #10
	b.ne	.LBB47_1203
	add	x8, x20, #1
	sub	x9, x19, #1
.LBB47_68:
	mov	x19, xzr
	mov	x21, xzr
	mov	x20, xzr
	mov	x22, xzr
	mov	x13, xzr
	mov	x12, xzr
	str	wzr, [x29, #24]
	mov	w10, #4
	mov	w11, #1
	strh	wzr, [x29, #28]
	b	.LBB47_1202
.LBB47_69:
	subs	x20, x3, #5
	b.lo	.LBB47_1287
	ldr	w8, [x2]
	mov	w9, #28783
	movk	w9, #28261, lsl #16
	cmp	w8, w9
	b.ne	.LBB47_1287
	ldur	w8, [x2, #1]
	mov	w9, #25968
	movk	w9, #8302, lsl #16
	cmp	w8, w9
	b.ne	.LBB47_1287
	mov	x24, x0
	cmp	x20, #5
	add	x21, x2, #5
	b.lo	.LBB47_1224
	ldrb	w8, [x21]
	sub	w8, w8, #48
	cmp	w8, #9
	b.hi	.LBB47_1224
	ldrb	w9, [x2, #6]
	and	x19, x8, #0xff
	sub	w10, w9, #48
	cmp	w10, #9
	b.hi	.LBB47_961
	ldrb	w8, [x2, #7]
	sub	w9, w8, #48
	and	x8, x10, #0xff
	cmp	w9, #9
	b.hi	.LBB47_1128
	ldrb	w10, [x2, #8]
	mov	x11, x2
	and	x9, x9, #0xff
	sub	w10, w10, #48
	cmp	w10, #10
	b.hs	.LBB47_1219
	ldrb	w11, [x11, #9]
	sub	w11, w11, #48
	cmp	w11, #10
	b.lo	.LBB47_1224
	mov	w11, #10
	umaddl	x8, w19, w11, x8
	umaddl	x8, w8, w11, x9
	and	x9, x10, #0xff
	umaddl	x19, w8, w11, x9
	mov	w8, #4
	b	.LBB47_1220
.LBB47_79:
	subs	x20, x3, #6
	b.lo	.LBB47_1287
	ldr	w8, [x2]
	mov	w9, #27760
	movk	w9, #25441, lsl #16
	cmp	w8, w9
	b.ne	.LBB47_1287
	ldur	w8, [x2, #2]
	mov	w9, #25441
	movk	w9, #8293, lsl #16
	cmp	w8, w9
	b.ne	.LBB47_1287
	cmp	x20, #5
	add	x21, x2, #6
	b.lo	.LBB47_523
	ldrb	w8, [x21]
	sub	w8, w8, #48
	cmp	w8, #9
	b.hi	.LBB47_523
	ldrb	w9, [x2, #7]
	and	x19, x8, #0xff
	sub	w10, w9, #48
	cmp	w10, #9
	b.hi	.LBB47_406
	ldrb	w8, [x2, #8]
	sub	w9, w8, #48
	and	x8, x10, #0xff
	cmp	w9, #9
	b.hi	.LBB47_439
	ldrb	w10, [x2, #9]
	and	x9, x9, #0xff
	sub	w10, w10, #48
	cmp	w10, #10
	b.hs	.LBB47_517
	ldrb	w11, [x2, #10]
	sub	w11, w11, #48
	cmp	w11, #10
	b.lo	.LBB47_523
	mov	w11, #10
	umaddl	x8, w19, w11, x8
	umaddl	x8, w8, w11, x9
	and	x9, x10, #0xff
	umaddl	x19, w8, w11, x9
	mov	w8, #4
	b	.LBB47_518
.LBB47_89:
	subs	x19, x3, #10
	b.lo	.LBB47_1287
	mov	x9, #25971
	ldr	x8, [x2]
	movk	x9, #24436, lsl #16
	movk	x9, #24950, lsl #32
	movk	x9, #30060, lsl #48
	cmp	x8, x9
	b.ne	.LBB47_1287
	mov	x9, #24436
	ldur	x8, [x2, #2]
	movk	x9, #24950, lsl #16
	movk	x9, #30060, lsl #32
	movk	x9, #8293, lsl #48
	cmp	x8, x9
	b.ne	.LBB47_1287
	cmp	x19, #5
	add	x20, x2, #10
	b.lo	.LBB47_542
	ldrb	w8, [x20]
	sub	w8, w8, #48
	cmp	w8, #9
	b.hi	.LBB47_542
	ldrb	w9, [x2, #11]
	sub	w11, w9, #48
	and	x9, x8, #0xff
	cmp	w11, #9
	b.hi	.LBB47_407
	ldrb	w8, [x2, #12]
	sub	w10, w8, #48
	and	x8, x11, #0xff
	cmp	w10, #9
	b.hi	.LBB47_440
	ldrb	w11, [x2, #13]
	and	x10, x10, #0xff
	sub	w11, w11, #48
	cmp	w11, #10
	b.hs	.LBB47_529
	ldrb	w12, [x2, #14]
	sub	w12, w12, #48
	cmp	w12, #10
	b.lo	.LBB47_542
	mov	w12, #10
	umaddl	x8, w9, w12, x8
	and	x9, x11, #0xff
	umaddl	x8, w8, w12, x10
	mov	w10, #4
	umaddl	x9, w8, w12, x9
	b	.LBB47_530
.LBB47_99:
	subs	x20, x3, #14
	b.lo	.LBB47_1287
	mov	x9, #30051
	ldr	x8, [x2]
	movk	x9, #29554, lsl #16
	movk	x9, #29295, lsl #32
	movk	x9, #26975, lsl #48
	cmp	x8, x9
	b.ne	.LBB47_1287
	mov	x9, #26975
	ldur	x8, [x2, #6]
	movk	x9, #29550, lsl #16
	movk	x9, #29285, lsl #32
	movk	x9, #8308, lsl #48
	cmp	x8, x9
	b.ne	.LBB47_1287
	cmp	x20, #5
	add	x21, x2, #14
	b.lo	.LBB47_561
	ldrb	w8, [x21]
	sub	w8, w8, #48
	cmp	w8, #9
	b.hi	.LBB47_561
	ldrb	w9, [x2, #15]
	and	x19, x8, #0xff
	sub	w10, w9, #48
	cmp	w10, #9
	b.hi	.LBB47_408
	ldrb	w8, [x2, #16]
	sub	w9, w8, #48
	and	x8, x10, #0xff
	cmp	w9, #9
	b.hi	.LBB47_441
	ldrb	w10, [x2, #17]
	and	x9, x9, #0xff
	sub	w10, w10, #48
	cmp	w10, #10
	b.hs	.LBB47_548
	ldrb	w11, [x2, #18]
	sub	w11, w11, #48
	cmp	w11, #10
	b.lo	.LBB47_561
	mov	w11, #10
	umaddl	x8, w19, w11, x8
	umaddl	x8, w8, w11, x9
	and	x9, x10, #0xff
	umaddl	x19, w8, w11, x9
	mov	w9, #4
	b	.LBB47_549
.LBB47_109:
	subs	x20, x3, #14
	b.lo	.LBB47_1287
	mov	x9, #28787
	ldr	x8, [x2]
	movk	x9, #26988, lsl #16
	movk	x9, #25955, lsl #32
	movk	x9, #25183, lsl #48
	cmp	x8, x9
	b.ne	.LBB47_1287
	mov	x9, #25183
	ldur	x8, [x2, #6]
	movk	x9, #26213, lsl #16
	movk	x9, #29295, lsl #32
	movk	x9, #8293, lsl #48
	cmp	x8, x9
	b.ne	.LBB47_1287
	cmp	x20, #5
	add	x21, x2, #14
	b.lo	.LBB47_579
	ldrb	w8, [x21]
	sub	w8, w8, #48
	cmp	w8, #9
	b.hi	.LBB47_579
	ldrb	w9, [x2, #15]
	and	x19, x8, #0xff
	sub	w10, w9, #48
	cmp	w10, #9
	b.hi	.LBB47_409
	ldrb	w8, [x2, #16]
	sub	w9, w8, #48
	and	x8, x10, #0xff
	cmp	w9, #9
	b.hi	.LBB47_442
	ldrb	w10, [x2, #17]
	and	x9, x9, #0xff
	sub	w10, w10, #48
	cmp	w10, #10
	b.hs	.LBB47_566
	ldrb	w11, [x2, #18]
	sub	w11, w11, #48
	cmp	w11, #10
	b.lo	.LBB47_579
	mov	w11, #10
	umaddl	x8, w19, w11, x8
	umaddl	x8, w8, w11, x9
	and	x9, x10, #0xff
	umaddl	x19, w8, w11, x9
	mov	w9, #4
	b	.LBB47_567
.LBB47_119:
	subs	x20, x3, #10
	b.lo	.LBB47_1287
	mov	x9, #29545
	ldr	x8, [x2]
	movk	x9, #27743, lsl #16
	movk	x9, #28265, lsl #32
	movk	x9, #25963, lsl #48
	cmp	x8, x9
	b.ne	.LBB47_1287
	mov	x9, #27743
	ldur	x8, [x2, #2]
	movk	x9, #28265, lsl #16
	movk	x9, #25963, lsl #32
	movk	x9, #8292, lsl #48
	cmp	x8, x9
	b.ne	.LBB47_1287
	cmp	x20, #5
	add	x21, x2, #10
	b.lo	.LBB47_597
	ldrb	w8, [x21]
	sub	w8, w8, #48
	cmp	w8, #9
	b.hi	.LBB47_597
	ldrb	w9, [x2, #11]
	and	x19, x8, #0xff
	sub	w10, w9, #48
	cmp	w10, #9
	b.hi	.LBB47_410
	ldrb	w8, [x2, #12]
	sub	w9, w8, #48
	and	x8, x10, #0xff
	cmp	w9, #9
	b.hi	.LBB47_443
	ldrb	w10, [x2, #13]
	and	x9, x9, #0xff
	sub	w10, w10, #48
	cmp	w10, #10
	b.hs	.LBB47_584
	ldrb	w11, [x2, #14]
	sub	w11, w11, #48
	cmp	w11, #10
	b.lo	.LBB47_597
	mov	w11, #10
	umaddl	x8, w19, w11, x8
	umaddl	x8, w8, w11, x9
	and	x9, x10, #0xff
	umaddl	x19, w8, w11, x9
	mov	w9, #4
	b	.LBB47_585
.LBB47_129:
	movi	v0.2d, #0000000000000000
	subs	x20, x3, #12
	stur	xzr, [x29, #-16]
	stp	q0, q0, [x29, #-48]
	b.lo	.LBB47_1288
	mov	x9, #28789
	ldr	x8, [x2]
	movk	x9, #25968, lsl #16
	movk	x9, #24434, lsl #32
	movk	x9, #28514, lsl #48
	cmp	x8, x9
	b.ne	.LBB47_1288
	mov	x9, #24434
	ldur	x8, [x2, #4]
	movk	x9, #28514, lsl #16
	movk	x9, #28277, lsl #32
	movk	x9, #8292, lsl #48
	cmp	x8, x9
	b.ne	.LBB47_1288
	mov	x24, x0
	cmp	x20, #5
	add	x21, x2, #12
	b.lo	.LBB47_1238
	ldrb	w8, [x21]
	sub	w8, w8, #48
	cmp	w8, #9
	b.hi	.LBB47_1238
	ldrb	w9, [x2, #13]
	and	x19, x8, #0xff
	sub	w10, w9, #48
	cmp	w10, #9
	b.hi	.LBB47_962
	ldrb	w8, [x2, #14]
	sub	w9, w8, #48
	and	x8, x10, #0xff
	cmp	w9, #9
	b.hi	.LBB47_1129
	ldrb	w10, [x2, #15]
	mov	x11, x2
	and	x9, x9, #0xff
	sub	w10, w10, #48
	cmp	w10, #10
	b.hs	.LBB47_1233
	ldrb	w11, [x11, #16]
	sub	w11, w11, #48
	cmp	w11, #10
	b.lo	.LBB47_1238
	mov	w11, #10
	umaddl	x8, w19, w11, x8
	umaddl	x8, w8, w11, x9
	and	x9, x10, #0xff
	umaddl	x19, w8, w11, x9
	mov	w8, #4
	b	.LBB47_1234
.LBB47_139:
	subs	x20, x3, #6
	b.lo	.LBB47_1287
	ldr	w8, [x2]
	mov	w9, #28261
	movk	w9, #29300, lsl #16
	cmp	w8, w9
	b.ne	.LBB47_1287
	ldur	w8, [x2, #2]
	mov	w9, #29300
	movk	w9, #8313, lsl #16
	cmp	w8, w9
	b.ne	.LBB47_1287
	cmp	x20, #5
	add	x21, x2, #6
	b.lo	.LBB47_627
	ldrb	w8, [x21]
	sub	w8, w8, #48
	cmp	w8, #9
	b.hi	.LBB47_627
	ldrb	w9, [x2, #7]
	and	x19, x8, #0xff
	sub	w10, w9, #48
	cmp	w10, #9
	b.hi	.LBB47_412
	ldrb	w8, [x2, #8]
	sub	w9, w8, #48
	and	x8, x10, #0xff
	cmp	w9, #9
	b.hi	.LBB47_445
	ldrb	w10, [x2, #9]
	and	x9, x9, #0xff
	sub	w10, w10, #48
	cmp	w10, #10
	b.hs	.LBB47_614
	ldrb	w11, [x2, #10]
	sub	w11, w11, #48
	cmp	w11, #10
	b.lo	.LBB47_627
	mov	w11, #10
	umaddl	x8, w19, w11, x8
	umaddl	x8, w8, w11, x9
	and	x9, x10, #0xff
	umaddl	x19, w8, w11, x9
	mov	w9, #4
	b	.LBB47_615
.LBB47_149:
	subs	x20, x3, #5
	b.lo	.LBB47_1287
	ldr	w8, [x2]
	mov	w9, #24948
	movk	w9, #25963, lsl #16
	cmp	w8, w9
	b.ne	.LBB47_1287
	mov	w9, #25441
	ldur	w8, [x2, #1]
	movk	w9, #8293, lsl #16
	orr	w9, w9, #0x800
	cmp	w8, w9
	b.ne	.LBB47_1287
	cmp	x20, #5
	add	x21, x2, #5
	b.lo	.LBB47_638
	ldrb	w8, [x21]
	sub	w8, w8, #48
	cmp	w8, #9
	b.hi	.LBB47_638
	ldrb	w9, [x2, #6]
	and	x19, x8, #0xff
	sub	w10, w9, #48
	cmp	w10, #9
	b.hi	.LBB47_413
	ldrb	w8, [x2, #7]
	sub	w9, w8, #48
	and	x8, x10, #0xff
	cmp	w9, #9
	b.hi	.LBB47_446
	ldrb	w10, [x2, #8]
	and	x9, x9, #0xff
	sub	w10, w10, #48
	cmp	w10, #10
	b.hs	.LBB47_632
	ldrb	w11, [x2, #9]
	sub	w11, w11, #48
	cmp	w11, #10
	b.lo	.LBB47_638
	mov	w11, #10
	umaddl	x8, w19, w11, x8
	umaddl	x8, w8, w11, x9
	and	x9, x10, #0xff
	umaddl	x19, w8, w11, x9
	mov	w8, #4
	b	.LBB47_633
.LBB47_159:
	subs	x20, x3, #13
	b.lo	.LBB47_1287
	mov	x9, #28787
	ldr	x8, [x2]
	movk	x9, #26988, lsl #16
	movk	x9, #25955, lsl #32
	movk	x9, #24927, lsl #48
	cmp	x8, x9
	b.ne	.LBB47_1287
	mov	x9, #24436
	ldur	x8, [x2, #5]
	movk	x9, #26209, lsl #16
	movk	x9, #25972, lsl #32
	movk	x9, #8306, lsl #48
	sub	x9, x9, #15
	cmp	x8, x9
	b.ne	.LBB47_1287
	cmp	x20, #5
	add	x21, x2, #13
	b.lo	.LBB47_657
	ldrb	w8, [x21]
	sub	w8, w8, #48
	cmp	w8, #9
	b.hi	.LBB47_657
	ldrb	w9, [x2, #14]
	and	x19, x8, #0xff
	sub	w10, w9, #48
	cmp	w10, #9
	b.hi	.LBB47_414
	ldrb	w8, [x2, #15]
	sub	w9, w8, #48
	and	x8, x10, #0xff
	cmp	w9, #9
	b.hi	.LBB47_447
	ldrb	w10, [x2, #16]
	and	x9, x9, #0xff
	sub	w10, w10, #48
	cmp	w10, #10
	b.hs	.LBB47_644
	ldrb	w11, [x2, #17]
	sub	w11, w11, #48
	cmp	w11, #10
	b.lo	.LBB47_657
	mov	w11, #10
	umaddl	x8, w19, w11, x8
	umaddl	x8, w8, w11, x9
	and	x9, x10, #0xff
	umaddl	x19, w8, w11, x9
	mov	w9, #4
	b	.LBB47_645
.LBB47_169:
	subs	x20, x3, #11
	b.lo	.LBB47_1287
	mov	x9, #24934
	ldr	x8, [x2]
	movk	x9, #29811, lsl #16
	movk	x9, #25439, lsl #32
	movk	x9, #25964, lsl #48
	cmp	x8, x9
	b.ne	.LBB47_1287
	mov	x9, #24436
	ldur	x8, [x2, #3]
	movk	x9, #27747, lsl #16
	movk	x9, #24933, lsl #32
	movk	x9, #8306, lsl #48
	cmp	x8, x9
	b.ne	.LBB47_1287
	cmp	x20, #5
	add	x21, x2, #11
	b.lo	.LBB47_668
	ldrb	w8, [x21]
	sub	w8, w8, #48
	cmp	w8, #9
	b.hi	.LBB47_668
	ldrb	w9, [x2, #12]
	and	x19, x8, #0xff
	sub	w10, w9, #48
	cmp	w10, #9
	b.hi	.LBB47_415
	ldrb	w8, [x2, #13]
	sub	w9, w8, #48
	and	x8, x10, #0xff
	cmp	w9, #9
	b.hi	.LBB47_448
	ldrb	w10, [x2, #14]
	and	x9, x9, #0xff
	sub	w10, w10, #48
	cmp	w10, #10
	b.hs	.LBB47_662
	ldrb	w11, [x2, #15]
	sub	w11, w11, #48
	cmp	w11, #10
	b.lo	.LBB47_668
	mov	w11, #10
	umaddl	x8, w19, w11, x8
	umaddl	x8, w8, w11, x9
	and	x9, x10, #0xff
	umaddl	x19, w8, w11, x9
	mov	w8, #4
	b	.LBB47_663
.LBB47_179:
	subs	x20, x3, #13
	b.lo	.LBB47_1287
	mov	x9, #28518
	ldr	x8, [x2]
	movk	x9, #25458, lsl #16
	movk	x9, #24421, lsl #32
	movk	x9, #28277, lsl #48
	cmp	x8, x9
	b.ne	.LBB47_1287
	mov	x9, #30047
	ldur	x8, [x2, #5]
	movk	x9, #27758, lsl #16
	movk	x9, #28265, lsl #32
	movk	x9, #8299, lsl #48
	cmp	x8, x9
	b.ne	.LBB47_1287
	cmp	x20, #5
	add	x21, x2, #13
	b.lo	.LBB47_687
	ldrb	w8, [x21]
	sub	w8, w8, #48
	cmp	w8, #9
	b.hi	.LBB47_687
	ldrb	w9, [x2, #14]
	and	x19, x8, #0xff
	sub	w10, w9, #48
	cmp	w10, #9
	b.hi	.LBB47_416
	ldrb	w8, [x2, #15]
	sub	w9, w8, #48
	and	x8, x10, #0xff
	cmp	w9, #9
	b.hi	.LBB47_449
	ldrb	w10, [x2, #16]
	and	x9, x9, #0xff
	sub	w10, w10, #48
	cmp	w10, #10
	b.hs	.LBB47_674
	ldrb	w11, [x2, #17]
	sub	w11, w11, #48
	cmp	w11, #10
	b.lo	.LBB47_687
	mov	w11, #10
	umaddl	x8, w19, w11, x8
	umaddl	x8, w8, w11, x9
	and	x9, x10, #0xff
	umaddl	x19, w8, w11, x9
	mov	w9, #4
	b	.LBB47_675
.LBB47_189:
	subs	x20, x3, #5
	b.lo	.LBB47_1287
	ldr	w8, [x2]
	mov	w9, #25971
	movk	w9, #27493, lsl #16
	cmp	w8, w9
	b.ne	.LBB47_1287
	ldur	w8, [x2, #1]
	mov	w9, #25957
	movk	w9, #8299, lsl #16
	cmp	w8, w9
	b.ne	.LBB47_1287
	cmp	x20, #5
	add	x21, x2, #5
	b.lo	.LBB47_705
	ldrb	w8, [x21]
	sub	w8, w8, #48
	cmp	w8, #9
	b.hi	.LBB47_705
	ldrb	w9, [x2, #6]
	and	x19, x8, #0xff
	sub	w10, w9, #48
	cmp	w10, #9
	b.hi	.LBB47_417
	ldrb	w8, [x2, #7]
	sub	w9, w8, #48
	and	x8, x10, #0xff
	cmp	w9, #9
	b.hi	.LBB47_450
	ldrb	w10, [x2, #8]
	and	x9, x9, #0xff
	sub	w10, w10, #48
	cmp	w10, #10
	b.hs	.LBB47_692
	ldrb	w11, [x2, #9]
	sub	w11, w11, #48
	cmp	w11, #10
	b.lo	.LBB47_705
	mov	w11, #10
	umaddl	x8, w19, w11, x8
	umaddl	x8, w8, w11, x9
	and	x9, x10, #0xff
	umaddl	x19, w8, w11, x9
	mov	w9, #4
	b	.LBB47_693
.LBB47_199:
	subs	x20, x3, #8
	b.lo	.LBB47_1287
	mov	x9, #26980
	ldr	x8, [x2]
	movk	x9, #28787, lsl #16
	movk	x9, #29551, lsl #32
	movk	x9, #8293, lsl #48
	cmp	x8, x9
	b.ne	.LBB47_1287
	cmp	x20, #5
	add	x21, x2, #8
	b.lo	.LBB47_457
	ldrb	w8, [x21]
	sub	w8, w8, #48
	cmp	w8, #9
	b.hi	.LBB47_457
	ldrb	w9, [x2, #9]
	and	x19, x8, #0xff
	sub	w10, w9, #48
	cmp	w10, #9
	b.hi	.LBB47_283
	ldrb	w8, [x2, #10]
	sub	w9, w8, #48
	and	x8, x10, #0xff
	cmp	w9, #9
	b.hi	.LBB47_418
	ldrb	w10, [x2, #11]
	and	x9, x9, #0xff
	sub	w10, w10, #48
	cmp	w10, #10
	b.hs	.LBB47_451
	ldrb	w11, [x2, #12]
	sub	w11, w11, #48
	cmp	w11, #10
	b.lo	.LBB47_457
	mov	w11, #10
	umaddl	x8, w19, w11, x8
	umaddl	x8, w8, w11, x9
	and	x9, x10, #0xff
	umaddl	x19, w8, w11, x9
	mov	w8, #4
	b	.LBB47_452
.LBB47_208:
	subs	x20, x3, #10
	b.lo	.LBB47_1287
	mov	x9, #26739
	ldr	x8, [x2]
	movk	x9, #30575, lsl #16
	movk	x9, #25183, lsl #32
	movk	x9, #25441, lsl #48
	cmp	x8, x9
	b.ne	.LBB47_1287
	mov	x9, #26739
	ldur	x8, [x2, #2]
	movk	x9, #25183, lsl #16
	movk	x9, #25441, lsl #32
	movk	x9, #8299, lsl #48
	add	x9, x9, #3836
	cmp	x8, x9
	b.ne	.LBB47_1287
	cmp	x20, #5
	add	x21, x2, #10
	b.lo	.LBB47_716
	ldrb	w8, [x21]
	sub	w8, w8, #48
	cmp	w8, #9
	b.hi	.LBB47_716
	ldrb	w9, [x2, #11]
	and	x19, x8, #0xff
	sub	w10, w9, #48
	cmp	w10, #9
	b.hi	.LBB47_419
	ldrb	w8, [x2, #12]
	sub	w9, w8, #48
	and	x8, x10, #0xff
	cmp	w9, #9
	b.hi	.LBB47_463
	ldrb	w10, [x2, #13]
	and	x9, x9, #0xff
	sub	w10, w10, #48
	cmp	w10, #10
	b.hs	.LBB47_710
	ldrb	w11, [x2, #14]
	sub	w11, w11, #48
	cmp	w11, #10
	b.lo	.LBB47_716
	mov	w11, #10
	umaddl	x8, w19, w11, x8
	umaddl	x8, w8, w11, x9
	and	x9, x10, #0xff
	umaddl	x19, w8, w11, x9
	mov	w8, #4
	b	.LBB47_711
.LBB47_218:
	movi	v0.2d, #0000000000000000
	subs	x20, x3, #15
	stur	xzr, [x29, #-16]
	stp	q0, q0, [x29, #-48]
	b.lo	.LBB47_1287
	mov	x25, #25971
	ldr	x8, [x2]
	movk	x25, #27493, lsl #16
	movk	x25, #30559, lsl #32
	movk	x25, #29801, lsl #48
	cmp	x8, x25
	b.ne	.LBB47_1287
	mov	x9, #25974
	ldur	x8, [x2, #7]
	movk	x9, #28767, lsl #16
	movk	x9, #25970, lsl #32
	movk	x9, #8310, lsl #48
	add	x9, x9, #766
	cmp	x8, x9
	b.eq	.LBB47_467
.LBB47_221:
	movi	v0.2d, #0000000000000000
	ldr	x8, [x2]
	stur	xzr, [x29, #-16]
	cmp	x8, x25
	stp	q0, q0, [x29, #-48]
	b.ne	.LBB47_1287
	mov	x9, #25974
	ldur	x8, [x2, #7]
	movk	x9, #28255, lsl #16
	movk	x9, #30821, lsl #32
	movk	x9, #8308, lsl #48
	add	x9, x9, #766
	cmp	x8, x9
	b.ne	.LBB47_1287
	mov	x24, x0
	cmp	x20, #5
	add	x21, x2, #15
	b.lo	.LBB47_1286
	ldrb	w8, [x21]
	sub	w8, w8, #48
	cmp	w8, #9
	b.hi	.LBB47_1286
	ldrb	w10, [x2, #16]
	and	x19, x8, #0xff
	sub	w11, w10, #48
	cmp	w11, #9
	b.hi	.LBB47_1132
	ldrb	w8, [x2, #17]
	mov	x9, x2
	sub	w10, w8, #48
	and	x8, x11, #0xff
	cmp	w10, #9
	b.hi	.LBB47_1278
	ldrb	w11, [x9, #18]
	and	x10, x10, #0xff
	sub	w11, w11, #48
	cmp	w11, #10
	b.hs	.LBB47_1281
	ldrb	w9, [x9, #19]
	sub	w9, w9, #48
	cmp	w9, #10
	b.lo	.LBB47_1286
	mov	w9, #10
	umaddl	x8, w19, w9, x8
	umaddl	x8, w8, w9, x10
	and	x10, x11, #0xff
	umaddl	x19, w8, w9, x10
	mov	w8, #4
	b	.LBB47_1282
.LBB47_230:
	movi	v0.2d, #0000000000000000
	subs	x20, x3, #12
	stur	xzr, [x29, #-16]
	stp	q0, q0, [x29, #-48]
	b.lo	.LBB47_1288
	mov	x9, #28524
	ldr	x8, [x2]
	movk	x9, #25975, lsl #16
	movk	x9, #24434, lsl #32
	movk	x9, #28514, lsl #48
	cmp	x8, x9
	b.ne	.LBB47_1288
	mov	x9, #24434
	ldur	x8, [x2, #4]
	movk	x9, #28514, lsl #16
	movk	x9, #28277, lsl #32
	movk	x9, #8292, lsl #48
	cmp	x8, x9
	b.ne	.LBB47_1288
	mov	x24, x0
	cmp	x20, #5
	add	x21, x2, #12
	b.lo	.LBB47_1268
	ldrb	w8, [x21]
	sub	w8, w8, #48
	cmp	w8, #9
	b.hi	.LBB47_1268
	ldrb	w9, [x2, #13]
	and	x19, x8, #0xff
	sub	w10, w9, #48
	cmp	w10, #9
	b.hi	.LBB47_964
	ldrb	w8, [x2, #14]
	sub	w9, w8, #48
	and	x8, x10, #0xff
	cmp	w9, #9
	b.hi	.LBB47_1131
	ldrb	w10, [x2, #15]
	mov	x11, x2
	and	x9, x9, #0xff
	sub	w10, w10, #48
	cmp	w10, #10
	b.hs	.LBB47_1263
	ldrb	w11, [x11, #16]
	sub	w11, w11, #48
	cmp	w11, #10
	b.lo	.LBB47_1268
	mov	w11, #10
	umaddl	x8, w19, w11, x8
	umaddl	x8, w8, w11, x9
	and	x9, x10, #0xff
	umaddl	x19, w8, w11, x9
	mov	w8, #4
	b	.LBB47_1264
.LBB47_240:
	subs	x20, x3, #7
	b.lo	.LBB47_1287
	ldr	w8, [x2]
	mov	w9, #28265
	movk	w9, #25971, lsl #16
	cmp	w8, w9
	b.ne	.LBB47_1287
	ldur	w8, [x2, #3]
	mov	w9, #29285
	movk	w9, #8308, lsl #16
	cmp	w8, w9
	b.ne	.LBB47_1287
	cmp	x20, #5
	add	x21, x2, #7
	b.lo	.LBB47_735
	ldrb	w8, [x21]
	sub	w8, w8, #48
	cmp	w8, #9
	b.hi	.LBB47_735
	ldrb	w9, [x2, #8]
	and	x19, x8, #0xff
	sub	w10, w9, #48
	cmp	w10, #9
	b.hi	.LBB47_420
	ldrb	w8, [x2, #9]
	sub	w9, w8, #48
	and	x8, x10, #0xff
	cmp	w9, #9
	b.hi	.LBB47_464
	ldrb	w10, [x2, #10]
	and	x9, x9, #0xff
	sub	w10, w10, #48
	cmp	w10, #10
	b.hs	.LBB47_722
	ldrb	w11, [x2, #11]
	sub	w11, w11, #48
	cmp	w11, #10
	b.lo	.LBB47_735
	mov	w11, #10
	umaddl	x8, w19, w11, x8
	umaddl	x8, w8, w11, x9
	and	x9, x10, #0xff
	umaddl	x19, w8, w11, x9
	mov	w9, #4
	b	.LBB47_723
.LBB47_250:
	subs	x20, x3, #13
	b.lo	.LBB47_1287
	mov	x9, #28787
	ldr	x8, [x2]
	movk	x9, #26988, lsl #16
	movk	x9, #24436, lsl #32
	movk	x9, #25954, lsl #48
	cmp	x8, x9
	b.ne	.LBB47_1287
	mov	x9, #25183
	ldur	x8, [x2, #5]
	movk	x9, #26213, lsl #16
	movk	x9, #29295, lsl #32
	movk	x9, #8293, lsl #48
	cmp	x8, x9
	b.ne	.LBB47_1287
	cmp	x20, #5
	add	x21, x2, #13
	b.lo	.LBB47_746
	ldrb	w8, [x21]
	sub	w8, w8, #48
	cmp	w8, #9
	b.hi	.LBB47_746
	ldrb	w9, [x2, #14]
	and	x19, x8, #0xff
	sub	w10, w9, #48
	cmp	w10, #9
	b.hi	.LBB47_421
	ldrb	w8, [x2, #15]
	sub	w9, w8, #48
	and	x8, x10, #0xff
	cmp	w9, #9
	b.hi	.LBB47_465
	ldrb	w10, [x2, #16]
	and	x9, x9, #0xff
	sub	w10, w10, #48
	cmp	w10, #10
	b.hs	.LBB47_740
	ldrb	w11, [x2, #17]
	sub	w11, w11, #48
	cmp	w11, #10
	b.lo	.LBB47_746
	mov	w11, #10
	umaddl	x8, w19, w11, x8
	umaddl	x8, w8, w11, x9
	and	x9, x10, #0xff
	umaddl	x19, w8, w11, x9
	mov	w8, #4
	b	.LBB47_741
.LBB47_260:
	subs	x20, x3, #12
	b.lo	.LBB47_1287
	mov	x9, #28787
	ldr	x8, [x2]
	movk	x9, #26988, lsl #16
	movk	x9, #24436, lsl #32
	movk	x9, #26209, lsl #48
	cmp	x8, x9
	b.ne	.LBB47_1287
	mov	x9, #24436
	ldur	x8, [x2, #4]
	movk	x9, #26209, lsl #16
	movk	x9, #25972, lsl #32
	movk	x9, #8306, lsl #48
	cmp	x8, x9
	b.ne	.LBB47_1287
	cmp	x20, #5
	add	x21, x2, #12
	b.lo	.LBB47_758
	ldrb	w8, [x21]
	sub	w8, w8, #48
	cmp	w8, #9
	b.hi	.LBB47_758
	ldrb	w9, [x2, #13]
	and	x19, x8, #0xff
	sub	w10, w9, #48
	cmp	w10, #9
	b.hi	.LBB47_422
	ldrb	w8, [x2, #14]
	sub	w9, w8, #48
	and	x8, x10, #0xff
	cmp	w9, #9
	b.hi	.LBB47_466
	ldrb	w10, [x2, #15]
	and	x9, x9, #0xff
	sub	w10, w10, #48
	cmp	w10, #10
	b.hs	.LBB47_752
	ldrb	w11, [x2, #16]
	sub	w11, w11, #48
	cmp	w11, #10
	b.lo	.LBB47_758
	mov	w11, #10
	umaddl	x8, w19, w11, x8
	umaddl	x8, w8, w11, x9
	and	x9, x10, #0xff
	umaddl	x19, w8, w11, x9
	mov	w8, #4
	b	.LBB47_753
.LBB47_270:
	sub	x9, x1, #6
	mov	w10, wzr
	mov	x8, xzr
	cmp	x9, #55
	stur	wzr, [x29, #-48]
	sturh	wzr, [x29, #-44]
	str	wzr, [sp, #16]
	strh	wzr, [sp, #20]
	b.hi	.LBB47_423
	adrp	x11, .LJTI47_1
	add	x11, x11, :lo12:.LJTI47_1
	mov	x20, x8
	adr	x12, .LBB47_272
	ldrh	w13, [x11, x9, lsl #1]
	add	x12, x12, x13, lsl #2
	mov	x9, x8
	mov	x21, x8
	mov	x19, x8
	mov	x11, x8
	br	x12
.LBB47_272:
	subs	x20, x3, #10
	b.lo	.LBB47_1200
	mov	x9, #28528
	ldr	x8, [x2]
	movk	x9, #24432, lsl #16
	movk	x9, #29286, lsl #32
	movk	x9, #28271, lsl #48
	cmp	x8, x9
	b.ne	.LBB47_1200
	mov	x9, #24424
	ldur	x8, [x2, #2]
	movk	x9, #29286, lsl #16
	movk	x9, #28271, lsl #32
	movk	x9, #8308, lsl #48
	add	x9, x9, #8
	cmp	x8, x9
	b.ne	.LBB47_1200
	cmp	x20, #5
	add	x21, x2, #10
	b.lo	.LBB47_1025
	ldrb	w8, [x21]
	sub	w8, w8, #48
	cmp	w8, #9
	b.hi	.LBB47_1025
	ldrb	w9, [x2, #11]
	and	x19, x8, #0xff
	sub	w10, w9, #48
	cmp	w10, #9
	b.hi	.LBB47_918
	ldrb	w8, [x2, #12]
	sub	w9, w8, #48
	and	x8, x10, #0xff
	cmp	w9, #9
	b.hi	.LBB47_953
	ldrb	w10, [x2, #13]
	and	x9, x9, #0xff
	sub	w10, w10, #48
	cmp	w10, #10
	b.hs	.LBB47_1019
	ldrb	w11, [x2, #14]
	sub	w11, w11, #48
	cmp	w11, #10
	b.lo	.LBB47_1025
	mov	w11, #10
	umaddl	x8, w19, w11, x8
	umaddl	x8, w8, w11, x9
	and	x9, x10, #0xff
	umaddl	x19, w8, w11, x9
	mov	w8, #4
	b	.LBB47_1020
.LBB47_282:
	mov	w8, #1
	b	.LBB47_427
.LBB47_283:
	mov	w8, #1
	b	.LBB47_452
.LBB47_284:
	subs	x20, x3, #8
	b.lo	.LBB47_1200
	mov	x9, #28519
	ldr	x8, [x2]
	movk	x9, #28255, lsl #16
	movk	x9, #27765, lsl #32
	movk	x9, #8300, lsl #48
	cmp	x8, x9
	b.ne	.LBB47_1200
	cmp	x20, #5
	add	x21, x2, #8
	b.lo	.LBB47_931
	ldrb	w8, [x21]
	sub	w8, w8, #48
	cmp	w8, #9
	b.hi	.LBB47_931
	ldrb	w9, [x2, #9]
	and	x19, x8, #0xff
	sub	w10, w9, #48
	cmp	w10, #9
	b.hi	.LBB47_910
	ldrb	w8, [x2, #10]
	sub	w9, w8, #48
	and	x8, x10, #0xff
	cmp	w9, #9
	b.hi	.LBB47_912
	ldrb	w10, [x2, #11]
	and	x9, x9, #0xff
	sub	w10, w10, #48
	cmp	w10, #10
	b.hs	.LBB47_925
	ldrb	w11, [x2, #12]
	sub	w11, w11, #48
	cmp	w11, #10
	b.lo	.LBB47_931
	mov	w11, #10
	umaddl	x8, w19, w11, x8
	umaddl	x8, w8, w11, x9
	and	x9, x10, #0xff
	umaddl	x19, w8, w11, x9
	mov	w8, #4
	b	.LBB47_926
.LBB47_293:
	subs	x20, x3, #13
	b.lo	.LBB47_1200
	mov	x24, #25970
	ldr	x8, [x2]
	movk	x24, #27760, lsl #16
	movk	x24, #25441, lsl #32
	movk	x24, #24421, lsl #48
	cmp	x8, x24
	b.ne	.LBB47_1143
	mov	x9, #25955
	ldur	x8, [x2, #5]
	movk	x9, #30559, lsl #16
	movk	x9, #29801, lsl #32
	movk	x9, #8296, lsl #48
	cmp	x8, x9
	b.ne	.LBB47_1143
	cmp	x20, #5
	add	x8, x2, #13
	b.lo	.LBB47_978
	ldrb	w9, [x8]
	sub	w9, w9, #48
	cmp	w9, #9
	b.hi	.LBB47_978
	ldrb	w10, [x2, #14]
	and	x19, x9, #0xff
	sub	w11, w10, #48
	cmp	w11, #9
	b.hi	.LBB47_913
	ldrb	w9, [x2, #15]
	sub	w10, w9, #48
	and	x9, x11, #0xff
	cmp	w10, #9
	b.hi	.LBB47_937
	ldrb	w11, [x2, #16]
	and	x10, x10, #0xff
	sub	w11, w11, #48
	cmp	w11, #10
	b.hs	.LBB47_965
	ldrb	w12, [x2, #17]
	sub	w12, w12, #48
	cmp	w12, #10
	b.lo	.LBB47_978
	mov	w13, #10
	umaddl	x9, w19, w13, x9
	umaddl	x9, w9, w13, x10
	and	x10, x11, #0xff
	umaddl	x19, w9, w13, x10
	mov	w9, #4
	b	.LBB47_966
.LBB47_303:
	subs	x20, x3, #12
	b.lo	.LBB47_1200
	mov	x9, #25970
	ldr	x8, [x2]
	movk	x9, #28525, lsl #16
	movk	x9, #25974, lsl #32
	movk	x9, #28255, lsl #48
	cmp	x8, x9
	b.ne	.LBB47_1200
	mov	x9, #25974
	ldur	x8, [x2, #4]
	movk	x9, #28255, lsl #16
	movk	x9, #30821, lsl #32
	movk	x9, #8308, lsl #48
	cmp	x8, x9
	b.ne	.LBB47_1200
	cmp	x20, #5
	add	x21, x2, #12
	b.lo	.LBB47_989
	ldrb	w8, [x21]
	sub	w8, w8, #48
	cmp	w8, #9
	b.hi	.LBB47_989
	ldrb	w9, [x2, #13]
	and	x19, x8, #0xff
	sub	w10, w9, #48
	cmp	w10, #9
	b.hi	.LBB47_914
	ldrb	w8, [x2, #14]
	sub	w9, w8, #48
	and	x8, x10, #0xff
	cmp	w9, #9
	b.hi	.LBB47_938
	ldrb	w10, [x2, #15]
	and	x9, x9, #0xff
	sub	w10, w10, #48
	cmp	w10, #10
	b.hs	.LBB47_983
	ldrb	w11, [x2, #16]
	sub	w11, w11, #48
	cmp	w11, #10
	b.lo	.LBB47_989
	mov	w12, #10
	umaddl	x8, w19, w12, x8
	umaddl	x8, w8, w12, x9
	and	x9, x10, #0xff
	umaddl	x19, w8, w12, x9
	mov	w8, #4
	b	.LBB47_984
.LBB47_313:
	subs	x20, x3, #10
	b.lo	.LBB47_1200
	mov	x9, #28525
	ldr	x8, [x2]
	movk	x9, #25974, lsl #16
	movk	x9, #28255, lsl #32
	movk	x9, #30821, lsl #48
	cmp	x8, x9
	b.ne	.LBB47_1200
	mov	x9, #25974
	ldur	x8, [x2, #2]
	movk	x9, #28255, lsl #16
	movk	x9, #30821, lsl #32
	movk	x9, #8308, lsl #48
	cmp	x8, x9
	b.ne	.LBB47_1200
	cmp	x20, #5
	add	x21, x2, #10
	b.lo	.LBB47_1001
	ldrb	w8, [x21]
	sub	w8, w8, #48
	cmp	w8, #9
	b.hi	.LBB47_1001
	ldrb	w9, [x2, #11]
	and	x19, x8, #0xff
	sub	w10, w9, #48
	cmp	w10, #9
	b.hi	.LBB47_915
	ldrb	w8, [x2, #12]
	sub	w9, w8, #48
	and	x8, x10, #0xff
	cmp	w9, #9
	b.hi	.LBB47_939
	ldrb	w10, [x2, #13]
	and	x9, x9, #0xff
	sub	w10, w10, #48
	cmp	w10, #10
	b.hs	.LBB47_995
	ldrb	w11, [x2, #14]
	sub	w11, w11, #48
	cmp	w11, #10
	b.lo	.LBB47_1001
	mov	w11, #10
	umaddl	x8, w19, w11, x8
	umaddl	x8, w8, w11, x9
	and	x9, x10, #0xff
	umaddl	x19, w8, w11, x9
	mov	w8, #4
	b	.LBB47_996
.LBB47_323:
	subs	x20, x3, #10
	b.lo	.LBB47_1200
	mov	x9, #28525
	ldr	x8, [x2]
	movk	x9, #25974, lsl #16
	movk	x9, #28767, lsl #32
	movk	x9, #25970, lsl #48
	cmp	x8, x9
	b.ne	.LBB47_1200
	mov	x9, #25974
	ldur	x8, [x2, #2]
	movk	x9, #28767, lsl #16
	movk	x9, #25970, lsl #32
	movk	x9, #8310, lsl #48
	cmp	x8, x9
	b.ne	.LBB47_1200
	cmp	x20, #5
	add	x21, x2, #10
	b.lo	.LBB47_1013
	ldrb	w8, [x21]
	sub	w8, w8, #48
	cmp	w8, #9
	b.hi	.LBB47_1013
	ldrb	w9, [x2, #11]
	and	x19, x8, #0xff
	sub	w10, w9, #48
	cmp	w10, #9
	b.hi	.LBB47_916
	ldrb	w8, [x2, #12]
	sub	w9, w8, #48
	and	x8, x10, #0xff
	cmp	w9, #9
	b.hi	.LBB47_940
	ldrb	w10, [x2, #13]
	and	x9, x9, #0xff
	sub	w10, w10, #48
	cmp	w10, #10
	b.hs	.LBB47_1007
	ldrb	w11, [x2, #14]
	sub	w11, w11, #48
	cmp	w11, #10
	b.lo	.LBB47_1013
	mov	w11, #10
	umaddl	x8, w19, w11, x8
	umaddl	x8, w8, w11, x9
	and	x9, x10, #0xff
	umaddl	x19, w8, w11, x9
	mov	w8, #4
	b	.LBB47_1008
.LBB47_333:
	subs	x20, x3, #8
	b.lo	.LBB47_1200
	mov	x9, #30051
	ldr	x8, [x2]
	movk	x9, #29298, lsl #16
	movk	x9, #28261, lsl #32
	movk	x9, #8308, lsl #48
	cmp	x8, x9
	b.ne	.LBB47_1200
	cmp	x20, #5
	add	x21, x2, #8
	b.lo	.LBB47_947
	ldrb	w8, [x21]
	sub	w8, w8, #48
	cmp	w8, #9
	b.hi	.LBB47_947
	ldrb	w9, [x2, #9]
	and	x19, x8, #0xff
	sub	w10, w9, #48
	cmp	w10, #9
	b.hi	.LBB47_911
	ldrb	w8, [x2, #10]
	sub	w9, w8, #48
	and	x8, x10, #0xff
	cmp	w9, #9
	b.hi	.LBB47_917
	ldrb	w10, [x2, #11]
	and	x9, x9, #0xff
	sub	w10, w10, #48
	cmp	w10, #10
	b.hs	.LBB47_941
	ldrb	w11, [x2, #12]
	sub	w11, w11, #48
	cmp	w11, #10
	b.lo	.LBB47_947
	mov	w11, #10
	umaddl	x8, w19, w11, x8
	umaddl	x8, w8, w11, x9
	and	x9, x10, #0xff
	umaddl	x19, w8, w11, x9
	mov	w8, #4
	b	.LBB47_942
.LBB47_342:
	subs	x20, x3, #11
	b.lo	.LBB47_1200
	mov	x9, #30064
	ldr	x8, [x2]
	movk	x9, #26739, lsl #16
	movk	x9, #26207, lsl #32
	movk	x9, #28530, lsl #48
	cmp	x8, x9
	b.ne	.LBB47_1200
	mov	x9, #24424
	ldur	x8, [x2, #3]
	movk	x9, #29286, lsl #16
	movk	x9, #28271, lsl #32
	movk	x9, #8308, lsl #48
	cmp	x8, x9
	b.ne	.LBB47_1200
	cmp	x20, #5
	add	x21, x2, #11
	b.lo	.LBB47_1044
	ldrb	w8, [x21]
	sub	w8, w8, #48
	cmp	w8, #9
	b.hi	.LBB47_1044
	ldrb	w9, [x2, #12]
	and	x19, x8, #0xff
	sub	w10, w9, #48
	cmp	w10, #9
	b.hi	.LBB47_919
	ldrb	w8, [x2, #13]
	sub	w9, w8, #48
	and	x8, x10, #0xff
	cmp	w9, #9
	b.hi	.LBB47_954
	ldrb	w10, [x2, #14]
	and	x9, x9, #0xff
	sub	w10, w10, #48
	cmp	w10, #10
	b.hs	.LBB47_1031
	ldrb	w11, [x2, #15]
	sub	w11, w11, #48
	cmp	w11, #10
	b.lo	.LBB47_1044
	mov	w11, #10
	umaddl	x8, w19, w11, x8
	umaddl	x8, w8, w11, x9
	and	x9, x10, #0xff
	umaddl	x19, w8, w11, x9
	mov	w9, #4
	b	.LBB47_1032
.LBB47_352:
	subs	x20, x3, #9
	b.lo	.LBB47_1200
	mov	x9, #28528
	ldr	x8, [x2]
	movk	x9, #24432, lsl #16
	movk	x9, #24930, lsl #32
	movk	x9, #27491, lsl #48
	cmp	x8, x9
	b.ne	.LBB47_1200
	mov	x9, #26739
	ldur	x8, [x2, #1]
	movk	x9, #25183, lsl #16
	movk	x9, #25441, lsl #32
	movk	x9, #8299, lsl #48
	add	x9, x9, #2044
	cmp	x8, x9
	b.ne	.LBB47_1200
	cmp	x20, #5
	add	x21, x2, #9
	b.lo	.LBB47_1055
	ldrb	w8, [x21]
	sub	w8, w8, #48
	cmp	w8, #9
	b.hi	.LBB47_1055
	ldrb	w9, [x2, #10]
	and	x19, x8, #0xff
	sub	w10, w9, #48
	cmp	w10, #9
	b.hi	.LBB47_920
	ldrb	w8, [x2, #11]
	sub	w9, w8, #48
	and	x8, x10, #0xff
	cmp	w9, #9
	b.hi	.LBB47_955
	ldrb	w10, [x2, #12]
	and	x9, x9, #0xff
	sub	w10, w10, #48
	cmp	w10, #10
	b.hs	.LBB47_1049
	ldrb	w11, [x2, #13]
	sub	w11, w11, #48
	cmp	w11, #10
	b.lo	.LBB47_1055
	mov	w11, #10
	umaddl	x8, w19, w11, x8
	umaddl	x8, w8, w11, x9
	and	x9, x10, #0xff
	umaddl	x19, w8, w11, x9
	mov	w8, #4
	b	.LBB47_1050
.LBB47_362:
	subs	x20, x3, #14
	b.lo	.LBB47_1200
	mov	x9, #28265
	ldr	x8, [x2]
	movk	x9, #25971, lsl #16
	movk	x9, #29810, lsl #32
	movk	x9, #25183, lsl #48
	cmp	x8, x9
	b.ne	.LBB47_1200
	mov	x9, #25183
	ldur	x8, [x2, #6]
	movk	x9, #26213, lsl #16
	movk	x9, #29295, lsl #32
	movk	x9, #8293, lsl #48
	cmp	x8, x9
	b.ne	.LBB47_1200
	cmp	x20, #5
	add	x21, x2, #14
	b.lo	.LBB47_1074
	ldrb	w8, [x21]
	sub	w8, w8, #48
	cmp	w8, #9
	b.hi	.LBB47_1074
	ldrb	w9, [x2, #15]
	and	x19, x8, #0xff
	sub	w10, w9, #48
	cmp	w10, #9
	b.hi	.LBB47_921
	ldrb	w8, [x2, #16]
	sub	w9, w8, #48
	and	x8, x10, #0xff
	cmp	w9, #9
	b.hi	.LBB47_956
	ldrb	w10, [x2, #17]
	and	x9, x9, #0xff
	sub	w10, w10, #48
	cmp	w10, #10
	b.hs	.LBB47_1061
	ldrb	w11, [x2, #18]
	sub	w11, w11, #48
	cmp	w11, #10
	b.lo	.LBB47_1074
	mov	w12, #10
	umaddl	x8, w19, w12, x8
	umaddl	x8, w8, w12, x9
	and	x9, x10, #0xff
	umaddl	x19, w8, w12, x9
	mov	w9, #4
	b	.LBB47_1062
.LBB47_372:
	subs	x20, x3, #13
	b.lo	.LBB47_1200
	mov	x9, #28265
	ldr	x8, [x2]
	movk	x9, #25971, lsl #16
	movk	x9, #29810, lsl #32
	movk	x9, #24927, lsl #48
	cmp	x8, x9
	b.ne	.LBB47_1200
	mov	x9, #24436
	ldur	x8, [x2, #5]
	movk	x9, #26209, lsl #16
	movk	x9, #25972, lsl #32
	movk	x9, #8306, lsl #48
	cmp	x8, x9
	b.ne	.LBB47_1200
	cmp	x20, #5
	add	x21, x2, #13
	b.lo	.LBB47_1092
	ldrb	w8, [x21]
	sub	w8, w8, #48
	cmp	w8, #9
	b.hi	.LBB47_1092
	ldrb	w9, [x2, #14]
	and	x19, x8, #0xff
	sub	w10, w9, #48
	cmp	w10, #9
	b.hi	.LBB47_922
	ldrb	w8, [x2, #15]
	sub	w9, w8, #48
	and	x8, x10, #0xff
	cmp	w9, #9
	b.hi	.LBB47_957
	ldrb	w10, [x2, #16]
	and	x9, x9, #0xff
	sub	w10, w10, #48
	cmp	w10, #10
	b.hs	.LBB47_1079
	ldrb	w11, [x2, #17]
	sub	w11, w11, #48
	cmp	w11, #10
	b.lo	.LBB47_1092
	mov	w11, #10
	umaddl	x8, w19, w11, x8
	umaddl	x8, w8, w11, x9
	and	x9, x10, #0xff
	umaddl	x19, w8, w11, x9
	mov	w9, #4
	b	.LBB47_1080
.LBB47_382:
	subs	x20, x3, #7
	b.lo	.LBB47_1200
	ldr	w8, [x2]
	mov	w9, #25970
	movk	w9, #28525, lsl #16
	cmp	w8, w9
	b.ne	.LBB47_1200
	ldur	w8, [x2, #3]
	mov	w9, #30319
	movk	w9, #8293, lsl #16
	cmp	w8, w9
	b.ne	.LBB47_1200
	cmp	x20, #5
	add	x21, x2, #7
	b.lo	.LBB47_1103
	ldrb	w8, [x21]
	sub	w8, w8, #48
	cmp	w8, #9
	b.hi	.LBB47_1103
	ldrb	w9, [x2, #8]
	and	x19, x8, #0xff
	sub	w10, w9, #48
	cmp	w10, #9
	b.hi	.LBB47_923
	ldrb	w8, [x2, #9]
	sub	w9, w8, #48
	and	x8, x10, #0xff
	cmp	w9, #9
	b.hi	.LBB47_958
	ldrb	w10, [x2, #10]
	and	x9, x9, #0xff
	sub	w10, w10, #48
	cmp	w10, #10
	b.hs	.LBB47_1097
	ldrb	w11, [x2, #11]
	sub	w11, w11, #48
	cmp	w11, #10
	b.lo	.LBB47_1103
	mov	w12, #10
	umaddl	x8, w19, w12, x8
	umaddl	x8, w8, w12, x9
	and	x9, x10, #0xff
	umaddl	x19, w8, w12, x9
	mov	w8, #4
	b	.LBB47_1098
.LBB47_392:
	subs	x20, x3, #10
	b.lo	.LBB47_1200
	mov	x9, #30064
	ldr	x8, [x2]
	movk	x9, #26739, lsl #16
	movk	x9, #25183, lsl #32
	movk	x9, #25441, lsl #48
	cmp	x8, x9
	b.ne	.LBB47_1200
	mov	x9, #26739
	ldur	x8, [x2, #2]
	movk	x9, #25183, lsl #16
	movk	x9, #25441, lsl #32
	movk	x9, #8299, lsl #48
	cmp	x8, x9
	b.ne	.LBB47_1200
	cmp	x20, #5
	add	x21, x2, #10
	b.lo	.LBB47_1122
	ldrb	w8, [x21]
	sub	w8, w8, #48
	cmp	w8, #9
	b.hi	.LBB47_1122
	ldrb	w9, [x2, #11]
	and	x19, x8, #0xff
	sub	w10, w9, #48
	cmp	w10, #9
	b.hi	.LBB47_924
	ldrb	w8, [x2, #12]
	sub	w9, w8, #48
	and	x8, x10, #0xff
	cmp	w9, #9
	b.hi	.LBB47_959
	ldrb	w10, [x2, #13]
	and	x9, x9, #0xff
	sub	w10, w10, #48
	cmp	w10, #10
	b.hs	.LBB47_1109
	ldrb	w11, [x2, #14]
	sub	w11, w11, #48
	cmp	w11, #10
	b.lo	.LBB47_1122
	mov	w11, #10
	umaddl	x8, w19, w11, x8
	umaddl	x8, w8, w11, x9
	and	x9, x10, #0xff
	umaddl	x19, w8, w11, x9
	mov	w9, #4
	b	.LBB47_1110
.LBB47_402:
	mov	w8, #1
	b	.LBB47_475
.LBB47_403:
	mov	w9, #1
	b	.LBB47_487
.LBB47_404:
	mov	w9, #10
	umaddl	x19, w19, w9, x8
	mov	w8, #2
	b	.LBB47_427
.LBB47_405:
	mov	w9, #1
	b	.LBB47_505
.LBB47_406:
	mov	w8, #1
	b	.LBB47_518
.LBB47_407:
	mov	w10, #1
	b	.LBB47_530
.LBB47_408:
	mov	w9, #1
	b	.LBB47_549
.LBB47_409:
	mov	w9, #1
	b	.LBB47_567
.LBB47_410:
	mov	w9, #1
	b	.LBB47_585
.LBB47_411:
	mov	w8, #1
	b	.LBB47_603
.LBB47_412:
	mov	w9, #1
	b	.LBB47_615
.LBB47_413:
	mov	w8, #1
	b	.LBB47_633
.LBB47_414:
	mov	w9, #1
	b	.LBB47_645
.LBB47_415:
	mov	w8, #1
	b	.LBB47_663
.LBB47_416:
	mov	w9, #1
	b	.LBB47_675
.LBB47_417:
	mov	w9, #1
	b	.LBB47_693
.LBB47_418:
	mov	w9, #10
	umaddl	x19, w19, w9, x8
	mov	w8, #2
	b	.LBB47_452
.LBB47_419:
	mov	w8, #1
	b	.LBB47_711
.LBB47_420:
	mov	w9, #1
	b	.LBB47_723
.LBB47_421:
	mov	w8, #1
	b	.LBB47_741
.LBB47_422:
	mov	w8, #1
	b	.LBB47_753
.LBB47_423:
	mov	x9, x8
	mov	x20, x8
	mov	x21, x8
	mov	x19, x8
	mov	x11, x8
	b	.LBB47_1141
.LBB47_424:
	mov	w9, #10
	umaddl	x19, w19, w9, x8
	mov	w8, #2
	b	.LBB47_475
.LBB47_425:
	mov	w9, #10
	umaddl	x19, w19, w9, x8
	mov	w9, #2
	b	.LBB47_487
.LBB47_426:
	mov	w10, #10
	umaddl	x8, w19, w10, x8
	umaddl	x19, w8, w10, x9
	mov	w8, #3
.LBB47_427:
	add	x22, x21, x8
	ldrb	w9, [x22]
	cmp	w9, #32
	b.eq	.LBB47_429
	cmp	w9, #10
	b.ne	.LBB47_432
.LBB47_429:
	sub	x20, x20, x8
	cmp	w9, #10
	b.ne	.LBB47_435
.LBB47_430:
	add	x8, x22, #1
	sub	x9, x20, #1
.LBB47_431:
	mov	w10, wzr
	mov	w23, wzr
	mov	x20, xzr
	mov	x22, xzr
	mov	x13, xzr
	mov	x12, xzr
	strh	wzr, [x29, #28]
	mov	w21, #261
	mov	w11, #1
	str	wzr, [x29, #24]
	b	.LBB47_1202
.LBB47_432:
	mov	x23, x0
	mov	x0, x21
	mov	x1, x20
	bl	ic_program.argument.any_number
	mov	w8, w0
	mov	x0, x23
	tbz	w8, #0, .LBB47_1287
	mov	x19, x1
	mov	x0, x21
	mov	x1, x20
	bl	ic_program.text.after_word
	mov	x20, x1
	mov	x22, x0
	cbz	x1, .LBB47_436
	ldrb	w9, [x22]
	mov	x0, x23
	cmp	w9, #10
	b.eq	.LBB47_430
.LBB47_435:
	mov	x23, x0
.LBB47_436:
	mov	x0, x22
	mov	x1, x20
	bl	ic_program.text.other_line
	mov	w8, w0
	mov	x0, x23
	tbz	w8, #0, .LBB47_1287
	add	x8, x22, x1
	sub	x9, x20, x1
	b	.LBB47_431
.LBB47_438:
	mov	w10, #10
	umaddl	x8, w8, w10, x9
	mov	w9, #2
	b	.LBB47_505
.LBB47_439:
	mov	w9, #10
	umaddl	x19, w19, w9, x8
	mov	w8, #2
	b	.LBB47_518
.LBB47_440:
	mov	w10, #10
	umaddl	x9, w9, w10, x8
	mov	w10, #2
	b	.LBB47_530
.LBB47_441:
	mov	w9, #10
	umaddl	x19, w19, w9, x8
	mov	w9, #2
	b	.LBB47_549
.LBB47_442:
	mov	w9, #10
	umaddl	x19, w19, w9, x8
	mov	w9, #2
	b	.LBB47_567
.LBB47_443:
	mov	w9, #10
	umaddl	x19, w19, w9, x8
	mov	w9, #2
	b	.LBB47_585
.LBB47_444:
	mov	w9, #10
	umaddl	x19, w19, w9, x8
	mov	w8, #2
	b	.LBB47_603
.LBB47_445:
	mov	w9, #10
	umaddl	x19, w19, w9, x8
	mov	w9, #2
	b	.LBB47_615
.LBB47_446:
	mov	w9, #10
	umaddl	x19, w19, w9, x8
	mov	w8, #2
	b	.LBB47_633
.LBB47_447:
	mov	w9, #10
	umaddl	x19, w19, w9, x8
	mov	w9, #2
	b	.LBB47_645
.LBB47_448:
	mov	w9, #10
	umaddl	x19, w19, w9, x8
	mov	w8, #2
	b	.LBB47_663
.LBB47_449:
	mov	w9, #10
	umaddl	x19, w19, w9, x8
	mov	w9, #2
	b	.LBB47_675
.LBB47_450:
	mov	w9, #10
	umaddl	x19, w19, w9, x8
	mov	w9, #2
	b	.LBB47_693
.LBB47_451:
	mov	w10, #10
	umaddl	x8, w19, w10, x8
	umaddl	x19, w8, w10, x9
	mov	w8, #3
.LBB47_452:
	add	x22, x21, x8
	ldrb	w9, [x22]
	cmp	w9, #32
	b.eq	.LBB47_454
	cmp	w9, #10
	b.ne	.LBB47_457
.LBB47_454:
	sub	x20, x20, x8
	cmp	w9, #10
	b.ne	.LBB47_460
.LBB47_455:
	add	x8, x22, #1
	sub	x9, x20, #1
.LBB47_456:
	mov	w23, wzr
	mov	x21, xzr
	mov	x20, xzr
	mov	x22, xzr
	mov	x13, xzr
	mov	x12, xzr
	strh	wzr, [x29, #28]
	mov	w10, #6
	mov	w11, #1
	str	wzr, [x29, #24]
	b	.LBB47_1202
.LBB47_457:
	mov	x23, x0
	mov	x0, x21
	mov	x1, x20
	bl	ic_program.argument.any_number
	mov	w8, w0
	mov	x0, x23
	tbz	w8, #0, .LBB47_1287
	mov	x19, x1
	mov	x0, x21
	mov	x1, x20
	bl	ic_program.text.after_word
	mov	x20, x1
	mov	x22, x0
	cbz	x1, .LBB47_461
	ldrb	w9, [x22]
	mov	x0, x23
	cmp	w9, #10
	b.eq	.LBB47_455
.LBB47_460:
	mov	x23, x0
.LBB47_461:
	mov	x0, x22
	mov	x1, x20
	bl	ic_program.text.other_line
	mov	w8, w0
	mov	x0, x23
	tbz	w8, #0, .LBB47_1287
	add	x8, x22, x1
	sub	x9, x20, x1
	b	.LBB47_456
.LBB47_463:
	mov	w9, #10
	umaddl	x19, w19, w9, x8
	mov	w8, #2
	b	.LBB47_711
.LBB47_464:
	mov	w9, #10
	umaddl	x19, w19, w9, x8
	mov	w9, #2
	b	.LBB47_723
.LBB47_465:
	mov	w9, #10
	umaddl	x19, w19, w9, x8
	mov	w8, #2
	b	.LBB47_741
.LBB47_466:
	mov	w9, #10
	umaddl	x19, w19, w9, x8
	mov	w8, #2
	b	.LBB47_753
.LBB47_467:
	mov	x24, x0
	cmp	x20, #5
	add	x8, x2, #15
	b.lo	.LBB47_1252
	ldrb	w9, [x8]
	sub	w9, w9, #48
	cmp	w9, #9
	b.hi	.LBB47_1252
	ldrb	w10, [x2, #16]
	and	x19, x9, #0xff
	sub	w11, w10, #48
	cmp	w11, #9
	b.hi	.LBB47_963
	ldrb	w9, [x2, #17]
	sub	w10, w9, #48
	and	x9, x11, #0xff
	cmp	w10, #9
	b.hi	.LBB47_1130
	ldrb	w12, [x2, #18]
	mov	x11, x2
	and	x10, x10, #0xff
	sub	w12, w12, #48
	cmp	w12, #10
	b.hs	.LBB47_1247
	mov	x2, x11
	ldrb	w11, [x11, #19]
	sub	w11, w11, #48
	cmp	w11, #10
	b.lo	.LBB47_1252
	mov	w11, #10
	umaddl	x9, w19, w11, x9
	umaddl	x9, w9, w11, x10
	and	x10, x12, #0xff
	umaddl	x19, w9, w11, x10
	mov	w9, #4
	b	.LBB47_1248
.LBB47_474:
	mov	w10, #10
	umaddl	x8, w19, w10, x8
	umaddl	x19, w8, w10, x9
	mov	w8, #3
.LBB47_475:
	add	x22, x21, x8
	ldrb	w9, [x22]
	cmp	w9, #32
	b.eq	.LBB47_477
	cmp	w9, #10
	b.ne	.LBB47_480
.LBB47_477:
	sub	x20, x20, x8
	cmp	w9, #10
	b.ne	.LBB47_483
.LBB47_478:
	add	x8, x22, #1
	sub	x9, x20, #1
.LBB47_479:
	mov	w23, wzr
	mov	x21, xzr
	mov	x20, xzr
	mov	x22, xzr
	mov	x13, xzr
	mov	x12, xzr
	strh	wzr, [x29, #28]
	mov	w10, #9
	mov	w11, #1
	str	wzr, [x29, #24]
	b	.LBB47_1202
.LBB47_480:
	mov	x23, x0
	mov	x0, x21
	mov	x1, x20
	bl	ic_program.argument.any_number
	mov	w8, w0
	mov	x0, x23
	tbz	w8, #0, .LBB47_1287
	mov	x19, x1
	mov	x0, x21
	mov	x1, x20
	bl	ic_program.text.after_word
	mov	x20, x1
	mov	x22, x0
	cbz	x1, .LBB47_484
	ldrb	w9, [x22]
	mov	x0, x23
	cmp	w9, #10
	b.eq	.LBB47_478
.LBB47_483:
	mov	x23, x0
.LBB47_484:
	mov	x0, x22
	mov	x1, x20
	bl	ic_program.text.other_line
	mov	w8, w0
	mov	x0, x23
	tbz	w8, #0, .LBB47_1287
	add	x8, x22, x1
	sub	x9, x20, x1
	b	.LBB47_479
.LBB47_486:
	mov	w10, #10
	umaddl	x8, w19, w10, x8
	umaddl	x19, w8, w10, x9
	mov	w9, #3
.LBB47_487:
	add	x8, x21, x9
	ldrb	w10, [x8]
	cmp	w10, #32
	b.eq	.LBB47_489
	cmp	w10, #10
	b.ne	.LBB47_499
.LBB47_489:
	sub	x1, x20, x9
	cmp	w10, #32
	b.ne	.LBB47_502
.LBB47_490:
	add	x21, x8, #1
	sub	x20, x1, #1
	cmp	x20, #5
	b.lo	.LBB47_770
.LBB47_491:
	ldrb	w8, [x21]
	sub	w9, w8, #48
	cmp	w9, #9
	b.hi	.LBB47_770
	ldrb	w8, [x21, #1]
	and	x22, x9, #0xff
	sub	w11, w8, #48
	cmp	w11, #9
	b.hi	.LBB47_497
	ldrb	w8, [x21, #2]
	and	x9, x11, #0xff
	sub	w10, w8, #48
	cmp	w10, #9
	b.hi	.LBB47_498
	ldrb	w8, [x21, #3]
	and	x10, x10, #0xff
	sub	w11, w8, #48
	cmp	w11, #10
	b.hs	.LBB47_764
	ldrb	w8, [x21, #4]
	sub	w12, w8, #48
	cmp	w12, #10
	b.lo	.LBB47_770
	mov	w12, #10
	umaddl	x9, w22, w12, x9
	umaddl	x9, w9, w12, x10
	and	x10, x11, #0xff
	umaddl	x22, w9, w12, x10
	mov	w9, #4
	b	.LBB47_765
.LBB47_497:
	mov	w9, #1
	b	.LBB47_765
.LBB47_498:
	mov	w10, #10
	umaddl	x22, w22, w10, x9
	mov	w9, #2
	b	.LBB47_765
.LBB47_499:
	mov	x22, x0
	mov	x0, x21
	mov	x1, x20
	bl	ic_program.argument.any_number
	mov	w8, w0
	mov	x0, x22
	tbz	w8, #0, .LBB47_1287
	mov	x19, x1
	mov	x0, x21
	mov	x1, x20
	bl	ic_program.text.after_word
	mov	x8, x0
	cbz	x1, .LBB47_503
	ldrb	w10, [x8]
	mov	x0, x22
	cmp	w10, #32
	b.eq	.LBB47_490
.LBB47_502:
	mov	x22, x0
.LBB47_503:
	mov	x0, x8
	bl	ic_program.text.without_space
	mov	x21, x0
	mov	x20, x1
	mov	x0, x22
	cmp	x1, #5
	b.hs	.LBB47_491
	b	.LBB47_770
.LBB47_504:
	mov	w11, #10
	umaddl	x8, w8, w11, x9
	mov	w9, #3
	umaddl	x8, w8, w11, x10
.LBB47_505:
	add	x21, x20, x9
	ldrb	w10, [x21]
	cmp	w10, #32
	b.eq	.LBB47_507
	cmp	w10, #10
	b.ne	.LBB47_510
.LBB47_507:
	lsl	x8, x8, #3
	sub	x20, x19, x9
	add	x19, x8, #8
	ldrb	w8, [x21]
	cmp	w8, #10
	b.ne	.LBB47_514
.LBB47_508:
	add	x8, x21, #1
	sub	x9, x20, #1
.LBB47_509:
	mov	w23, wzr
	mov	x21, xzr
	mov	x20, xzr
	mov	x22, xzr
	mov	x13, xzr
	mov	x12, xzr
	strh	wzr, [x29, #28]
	mov	w10, #2
	mov	w11, #1
	str	wzr, [x29, #24]
	b	.LBB47_1202
.LBB47_510:
	mov	x22, x0
	mov	x0, x20
	mov	x1, x19
	bl	ic_program.argument.any_number
	mov	w8, w0
	mov	x0, x22
	tbz	w8, #0, .LBB47_1287
	mov	x0, x20
	mov	x23, x1
	mov	x1, x19
	bl	ic_program.text.after_word
	lsr	x8, x23, #32
	mov	x21, x0
	mov	x0, x22
	cbnz	x8, .LBB47_1287
	lsl	x8, x23, #3
	mov	x20, x1
	add	x19, x8, #8
	cbz	x1, .LBB47_515
	mov	x0, x22
	ldrb	w8, [x21]
	cmp	w8, #10
	b.eq	.LBB47_508
.LBB47_514:
	mov	x22, x0
.LBB47_515:
	mov	x0, x21
	mov	x1, x20
	bl	ic_program.text.other_line
	mov	w8, w0
	mov	x0, x22
	tbz	w8, #0, .LBB47_1287
	add	x8, x21, x1
	sub	x9, x20, x1
	b	.LBB47_509
.LBB47_517:
	mov	w10, #10
	umaddl	x8, w19, w10, x8
	umaddl	x19, w8, w10, x9
	mov	w8, #3
.LBB47_518:
	add	x22, x21, x8
	ldrb	w9, [x22]
	cmp	w9, #32
	b.eq	.LBB47_520
	cmp	w9, #10
	b.ne	.LBB47_523
.LBB47_520:
	sub	x20, x20, x8
	cmp	w9, #10
	b.ne	.LBB47_526
.LBB47_521:
	add	x8, x22, #1
	sub	x9, x20, #1
.LBB47_522:
	mov	w23, wzr
	mov	x21, xzr
	mov	x20, xzr
	mov	x22, xzr
	mov	x13, xzr
	mov	x12, xzr
	strh	wzr, [x29, #28]
	mov	w11, #1
	mov	w10, #1
	str	wzr, [x29, #24]
	b	.LBB47_1202
.LBB47_523:
	mov	x23, x0
	mov	x0, x21
	mov	x1, x20
	bl	ic_program.argument.any_number
	mov	w8, w0
	mov	x0, x23
	tbz	w8, #0, .LBB47_1287
	mov	x19, x1
	mov	x0, x21
	mov	x1, x20
	bl	ic_program.text.after_word
	mov	x20, x1
	mov	x22, x0
	cbz	x1, .LBB47_527
	ldrb	w9, [x22]
	mov	x0, x23
	cmp	w9, #10
	b.eq	.LBB47_521
.LBB47_526:
	mov	x23, x0
.LBB47_527:
	mov	x0, x22
	mov	x1, x20
	bl	ic_program.text.other_line
	mov	w8, w0
	mov	x0, x23
	tbz	w8, #0, .LBB47_1287
	add	x8, x22, x1
	sub	x9, x20, x1
	b	.LBB47_522
.LBB47_529:
	mov	w11, #10
	umaddl	x8, w9, w11, x8
	umaddl	x9, w8, w11, x10
	mov	w10, #3
.LBB47_530:
	add	x8, x20, x10
	ldrb	w11, [x8]
	cmp	w11, #32
	b.eq	.LBB47_532
	cmp	w11, #10
	b.ne	.LBB47_542
.LBB47_532:
	lsl	x9, x9, #3
	sub	x1, x19, x10
	add	x19, x9, #8
	ldrb	w9, [x8]
	cmp	w9, #32
	b.ne	.LBB47_546
.LBB47_533:
	add	x22, x8, #1
	sub	x20, x1, #1
	cmp	x20, #5
	b.lo	.LBB47_890
.LBB47_534:
	ldrb	w8, [x22]
	sub	w9, w8, #48
	cmp	w9, #9
	b.hi	.LBB47_890
	ldrb	w8, [x22, #1]
	and	x21, x9, #0xff
	sub	w11, w8, #48
	cmp	w11, #9
	b.hi	.LBB47_540
	ldrb	w8, [x22, #2]
	and	x9, x11, #0xff
	sub	w10, w8, #48
	cmp	w10, #9
	b.hi	.LBB47_541
	ldrb	w8, [x22, #3]
	and	x10, x10, #0xff
	sub	w11, w8, #48
	cmp	w11, #10
	b.hs	.LBB47_884
	ldrb	w8, [x22, #4]
	sub	w12, w8, #48
	cmp	w12, #10
	b.lo	.LBB47_890
	mov	w12, #10
	umaddl	x9, w21, w12, x9
	umaddl	x9, w9, w12, x10
	and	x10, x11, #0xff
	umaddl	x21, w9, w12, x10
	mov	w9, #4
	b	.LBB47_885
.LBB47_540:
	mov	w9, #1
	b	.LBB47_885
.LBB47_541:
	mov	w10, #10
	umaddl	x21, w21, w10, x9
	mov	w9, #2
	b	.LBB47_885
.LBB47_542:
	mov	x23, x0
	mov	x0, x20
	mov	x1, x19
	bl	ic_program.argument.any_number
	mov	w8, w0
	mov	x0, x23
	tbz	w8, #0, .LBB47_1287
	mov	x21, x1
	mov	x0, x20
	mov	x1, x19
	bl	ic_program.text.after_word
	lsr	x9, x21, #32
	mov	x8, x0
	mov	x0, x23
	cbnz	x9, .LBB47_1287
	lsl	x9, x21, #3
	add	x19, x9, #8
	cbz	x1, .LBB47_547
	mov	x0, x23
	ldrb	w9, [x8]
	cmp	w9, #32
	b.eq	.LBB47_533
.LBB47_546:
	mov	x23, x0
.LBB47_547:
	mov	x0, x8
	bl	ic_program.text.without_space
	mov	x22, x0
	mov	x20, x1
	mov	x0, x23
	cmp	x1, #5
	b.hs	.LBB47_534
	b	.LBB47_890
.LBB47_548:
	mov	w10, #10
	umaddl	x8, w19, w10, x8
	umaddl	x19, w8, w10, x9
	mov	w9, #3
.LBB47_549:
	add	x8, x21, x9
	ldrb	w10, [x8]
	cmp	w10, #32
	b.eq	.LBB47_551
	cmp	w10, #10
	b.ne	.LBB47_561
.LBB47_551:
	sub	x1, x20, x9
	cmp	w10, #32
	b.ne	.LBB47_564
.LBB47_552:
	add	x20, x8, #1
	sub	x21, x1, #1
	cmp	x21, #5
	b.lo	.LBB47_782
.LBB47_553:
	ldrb	w8, [x20]
	sub	w8, w8, #48
	cmp	w8, #9
	b.hi	.LBB47_782
	ldrb	w9, [x20, #1]
	and	x8, x8, #0xff
	sub	w10, w9, #48
	cmp	w10, #9
	b.hi	.LBB47_559
	ldrb	w9, [x20, #2]
	and	x10, x10, #0xff
	sub	w11, w9, #48
	cmp	w11, #9
	b.hi	.LBB47_560
	ldrb	w9, [x20, #3]
	and	x11, x11, #0xff
	sub	w12, w9, #48
	cmp	w12, #10
	b.hs	.LBB47_776
	ldrb	w9, [x20, #4]
	sub	w13, w9, #48
	cmp	w13, #10
	b.lo	.LBB47_782
	mov	w13, #10
	umaddl	x8, w8, w13, x10
	and	x10, x12, #0xff
	umaddl	x8, w8, w13, x11
	umaddl	x8, w8, w13, x10
	mov	w10, #4
	b	.LBB47_777
.LBB47_559:
	mov	w10, #1
	b	.LBB47_777
.LBB47_560:
	mov	w11, #10
	umaddl	x8, w8, w11, x10
	mov	w10, #2
	b	.LBB47_777
.LBB47_561:
	mov	x22, x0
	mov	x0, x21
	mov	x1, x20
	bl	ic_program.argument.any_number
	mov	w8, w0
	mov	x0, x22
	tbz	w8, #0, .LBB47_1287
	mov	x19, x1
	mov	x0, x21
	mov	x1, x20
	bl	ic_program.text.after_word
	mov	x8, x0
	cbz	x1, .LBB47_565
	ldrb	w10, [x8]
	mov	x0, x22
	cmp	w10, #32
	b.eq	.LBB47_552
.LBB47_564:
	mov	x22, x0
.LBB47_565:
	mov	x0, x8
	bl	ic_program.text.without_space
	mov	x20, x0
	mov	x21, x1
	mov	x0, x22
	cmp	x1, #5
	b.hs	.LBB47_553
	b	.LBB47_782
.LBB47_566:
	mov	w10, #10
	umaddl	x8, w19, w10, x8
	umaddl	x19, w8, w10, x9
	mov	w9, #3
.LBB47_567:
	add	x8, x21, x9
	ldrb	w10, [x8]
	cmp	w10, #32
	b.eq	.LBB47_569
	cmp	w10, #10
	b.ne	.LBB47_579
.LBB47_569:
	sub	x1, x20, x9
	cmp	w10, #32
	b.ne	.LBB47_582
.LBB47_570:
	add	x22, x8, #1
	sub	x20, x1, #1
	cmp	x20, #5
	b.lo	.LBB47_795
.LBB47_571:
	ldrb	w8, [x22]
	sub	w9, w8, #48
	cmp	w9, #9
	b.hi	.LBB47_795
	ldrb	w8, [x22, #1]
	and	x21, x9, #0xff
	sub	w11, w8, #48
	cmp	w11, #9
	b.hi	.LBB47_577
	ldrb	w8, [x22, #2]
	and	x9, x11, #0xff
	sub	w10, w8, #48
	cmp	w10, #9
	b.hi	.LBB47_578
	ldrb	w8, [x22, #3]
	and	x10, x10, #0xff
	sub	w11, w8, #48
	cmp	w11, #10
	b.hs	.LBB47_789
	ldrb	w8, [x22, #4]
	sub	w12, w8, #48
	cmp	w12, #10
	b.lo	.LBB47_795
	mov	w12, #10
	umaddl	x9, w21, w12, x9
	umaddl	x9, w9, w12, x10
	and	x10, x11, #0xff
	umaddl	x21, w9, w12, x10
	mov	w9, #4
	b	.LBB47_790
.LBB47_577:
	mov	w9, #1
	b	.LBB47_790
.LBB47_578:
	mov	w10, #10
	umaddl	x21, w21, w10, x9
	mov	w9, #2
	b	.LBB47_790
.LBB47_579:
	mov	x23, x0
	mov	x0, x21
	mov	x1, x20
	bl	ic_program.argument.any_number
	mov	w8, w0
	mov	x0, x23
	tbz	w8, #0, .LBB47_1287
	mov	x19, x1
	mov	x0, x21
	mov	x1, x20
	bl	ic_program.text.after_word
	mov	x8, x0
	cbz	x1, .LBB47_583
	ldrb	w10, [x8]
	mov	x0, x23
	cmp	w10, #32
	b.eq	.LBB47_570
.LBB47_582:
	mov	x23, x0
.LBB47_583:
	mov	x0, x8
	bl	ic_program.text.without_space
	mov	x22, x0
	mov	x20, x1
	mov	x0, x23
	cmp	x1, #5
	b.hs	.LBB47_571
	b	.LBB47_795
.LBB47_584:
	mov	w10, #10
	umaddl	x8, w19, w10, x8
	umaddl	x19, w8, w10, x9
	mov	w9, #3
.LBB47_585:
	add	x8, x21, x9
	ldrb	w10, [x8]
	cmp	w10, #32
	b.eq	.LBB47_587
	cmp	w10, #10
	b.ne	.LBB47_597
.LBB47_587:
	sub	x1, x20, x9
	cmp	w10, #32
	b.ne	.LBB47_600
.LBB47_588:
	add	x20, x8, #1
	sub	x21, x1, #1
	cmp	x21, #5
	b.lo	.LBB47_807
.LBB47_589:
	ldrb	w8, [x20]
	sub	w8, w8, #48
	cmp	w8, #9
	b.hi	.LBB47_807
	ldrb	w9, [x20, #1]
	and	x8, x8, #0xff
	sub	w10, w9, #48
	cmp	w10, #9
	b.hi	.LBB47_595
	ldrb	w9, [x20, #2]
	and	x10, x10, #0xff
	sub	w11, w9, #48
	cmp	w11, #9
	b.hi	.LBB47_596
	ldrb	w9, [x20, #3]
	and	x11, x11, #0xff
	sub	w12, w9, #48
	cmp	w12, #10
	b.hs	.LBB47_801
	ldrb	w9, [x20, #4]
	sub	w13, w9, #48
	cmp	w13, #10
	b.lo	.LBB47_807
	mov	w13, #10
	umaddl	x8, w8, w13, x10
	and	x10, x12, #0xff
	umaddl	x8, w8, w13, x11
	umaddl	x8, w8, w13, x10
	mov	w10, #4
	b	.LBB47_802
.LBB47_595:
	mov	w10, #1
	b	.LBB47_802
.LBB47_596:
	mov	w11, #10
	umaddl	x8, w8, w11, x10
	mov	w10, #2
	b	.LBB47_802
.LBB47_597:
	mov	x22, x0
	mov	x0, x21
	mov	x1, x20
	bl	ic_program.argument.any_number
	mov	w8, w0
	mov	x0, x22
	tbz	w8, #0, .LBB47_1287
	mov	x19, x1
	mov	x0, x21
	mov	x1, x20
	bl	ic_program.text.after_word
	mov	x8, x0
	cbz	x1, .LBB47_601
	ldrb	w10, [x8]
	mov	x0, x22
	cmp	w10, #32
	b.eq	.LBB47_588
.LBB47_600:
	mov	x22, x0
.LBB47_601:
	mov	x0, x8
	bl	ic_program.text.without_space
	mov	x20, x0
	mov	x21, x1
	mov	x0, x22
	cmp	x1, #5
	b.hs	.LBB47_589
	b	.LBB47_807
.LBB47_602:
	mov	w10, #10
	umaddl	x8, w19, w10, x8
	umaddl	x19, w8, w10, x9
	mov	w8, #3
.LBB47_603:
	add	x22, x21, x8
	ldrb	w9, [x22]
	cmp	w9, #32
	b.eq	.LBB47_605
	cmp	w9, #10
	b.ne	.LBB47_608
.LBB47_605:
	sub	x20, x20, x8
	cmp	w9, #10
	b.ne	.LBB47_611
.LBB47_606:
	add	x8, x22, #1
	sub	x9, x20, #1
.LBB47_607:
	mov	w10, wzr
	mov	w23, wzr
	mov	x20, xzr
	mov	x22, xzr
	mov	x13, xzr
	mov	x12, xzr
	strh	wzr, [x29, #28]
	mov	w21, #5
	mov	w11, #1
	str	wzr, [x29, #24]
	b	.LBB47_1202
.LBB47_608:
	mov	x23, x0
	mov	x0, x21
	mov	x1, x20
	bl	ic_program.argument.any_number
	mov	w8, w0
	mov	x0, x23
	tbz	w8, #0, .LBB47_1287
	mov	x19, x1
	mov	x0, x21
	mov	x1, x20
	bl	ic_program.text.after_word
	mov	x20, x1
	mov	x22, x0
	cbz	x1, .LBB47_612
	ldrb	w9, [x22]
	mov	x0, x23
	cmp	w9, #10
	b.eq	.LBB47_606
.LBB47_611:
	mov	x23, x0
.LBB47_612:
	mov	x0, x22
	mov	x1, x20
	bl	ic_program.text.other_line
	mov	w8, w0
	mov	x0, x23
	tbz	w8, #0, .LBB47_1287
	add	x8, x22, x1
	sub	x9, x20, x1
	b	.LBB47_607
.LBB47_614:
	mov	w10, #10
	umaddl	x8, w19, w10, x8
	umaddl	x19, w8, w10, x9
	mov	w9, #3
.LBB47_615:
	add	x8, x21, x9
	ldrb	w10, [x8]
	cmp	w10, #32
	b.eq	.LBB47_617
	cmp	w10, #10
	b.ne	.LBB47_627
.LBB47_617:
	sub	x1, x20, x9
	cmp	w10, #32
	b.ne	.LBB47_630
.LBB47_618:
	add	x22, x8, #1
	sub	x21, x1, #1
	cmp	x21, #5
	b.lo	.LBB47_827
.LBB47_619:
	ldrb	w8, [x22]
	sub	w8, w8, #48
	cmp	w8, #9
	b.hi	.LBB47_827
	ldrb	w9, [x22, #1]
	and	x20, x8, #0xff
	sub	w11, w9, #48
	cmp	w11, #9
	b.hi	.LBB47_625
	ldrb	w9, [x22, #2]
	and	x8, x11, #0xff
	sub	w10, w9, #48
	cmp	w10, #9
	b.hi	.LBB47_626
	ldrb	w9, [x22, #3]
	and	x10, x10, #0xff
	sub	w11, w9, #48
	cmp	w11, #10
	b.hs	.LBB47_814
	ldrb	w9, [x22, #4]
	sub	w12, w9, #48
	cmp	w12, #10
	b.lo	.LBB47_827
	mov	w12, #10
	umaddl	x8, w20, w12, x8
	umaddl	x8, w8, w12, x10
	and	x10, x11, #0xff
	umaddl	x20, w8, w12, x10
	mov	w10, #4
	b	.LBB47_815
.LBB47_625:
	mov	w10, #1
	b	.LBB47_815
.LBB47_626:
	mov	w10, #10
	umaddl	x20, w20, w10, x8
	mov	w10, #2
	b	.LBB47_815
.LBB47_627:
	mov	x23, x0
	mov	x0, x21
	mov	x1, x20
	bl	ic_program.argument.any_number
	mov	w8, w0
	mov	x0, x23
	tbz	w8, #0, .LBB47_1287
	mov	x19, x1
	mov	x0, x21
	mov	x1, x20
	bl	ic_program.text.after_word
	mov	x8, x0
	cbz	x1, .LBB47_631
	ldrb	w10, [x8]
	mov	x0, x23
	cmp	w10, #32
	b.eq	.LBB47_618
.LBB47_630:
	mov	x23, x0
.LBB47_631:
	mov	x0, x8
	bl	ic_program.text.without_space
	mov	x22, x0
	mov	x21, x1
	mov	x0, x23
	cmp	x1, #5
	b.hs	.LBB47_619
	b	.LBB47_827
.LBB47_632:
	mov	w10, #10
	umaddl	x8, w19, w10, x8
	umaddl	x19, w8, w10, x9
	mov	w8, #3
.LBB47_633:
	add	x22, x21, x8
	ldrb	w9, [x22]
	cmp	w9, #32
	b.eq	.LBB47_635
	cmp	w9, #10
	b.ne	.LBB47_638
.LBB47_635:
	sub	x20, x20, x8
	cmp	w9, #10
	b.ne	.LBB47_641
.LBB47_636:
	add	x8, x22, #1
	sub	x9, x20, #1
.LBB47_637:
	mov	w23, wzr
	mov	x21, xzr
	mov	x20, xzr
	mov	x22, xzr
	mov	x13, xzr
	mov	x12, xzr
	strh	wzr, [x29, #28]
	mov	w10, #8
	mov	w11, #1
	str	wzr, [x29, #24]
	b	.LBB47_1202
.LBB47_638:
	mov	x23, x0
	mov	x0, x21
	mov	x1, x20
	bl	ic_program.argument.any_number
	mov	w8, w0
	mov	x0, x23
	tbz	w8, #0, .LBB47_1287
	mov	x19, x1
	mov	x0, x21
	mov	x1, x20
	bl	ic_program.text.after_word
	mov	x20, x1
	mov	x22, x0
	cbz	x1, .LBB47_642
	ldrb	w9, [x22]
	mov	x0, x23
	cmp	w9, #10
	b.eq	.LBB47_636
.LBB47_641:
	mov	x23, x0
.LBB47_642:
	mov	x0, x22
	mov	x1, x20
	bl	ic_program.text.other_line
	mov	w8, w0
	mov	x0, x23
	tbz	w8, #0, .LBB47_1287
	add	x8, x22, x1
	sub	x9, x20, x1
	b	.LBB47_637
.LBB47_644:
	mov	w10, #10
	umaddl	x8, w19, w10, x8
	umaddl	x19, w8, w10, x9
	mov	w9, #3
.LBB47_645:
	add	x8, x21, x9
	ldrb	w10, [x8]
	cmp	w10, #32
	b.eq	.LBB47_647
	cmp	w10, #10
	b.ne	.LBB47_657
.LBB47_647:
	sub	x1, x20, x9
	cmp	w10, #32
	b.ne	.LBB47_660
.LBB47_648:
	add	x22, x8, #1
	sub	x20, x1, #1
	cmp	x20, #5
	b.lo	.LBB47_838
.LBB47_649:
	ldrb	w8, [x22]
	sub	w9, w8, #48
	cmp	w9, #9
	b.hi	.LBB47_838
	ldrb	w8, [x22, #1]
	and	x21, x9, #0xff
	sub	w11, w8, #48
	cmp	w11, #9
	b.hi	.LBB47_655
	ldrb	w8, [x22, #2]
	and	x9, x11, #0xff
	sub	w10, w8, #48
	cmp	w10, #9
	b.hi	.LBB47_656
	ldrb	w8, [x22, #3]
	and	x10, x10, #0xff
	sub	w11, w8, #48
	cmp	w11, #10
	b.hs	.LBB47_832
	ldrb	w8, [x22, #4]
	sub	w12, w8, #48
	cmp	w12, #10
	b.lo	.LBB47_838
	mov	w12, #10
	umaddl	x9, w21, w12, x9
	umaddl	x9, w9, w12, x10
	and	x10, x11, #0xff
	umaddl	x21, w9, w12, x10
	mov	w9, #4
	b	.LBB47_833
.LBB47_655:
	mov	w9, #1
	b	.LBB47_833
.LBB47_656:
	mov	w10, #10
	umaddl	x21, w21, w10, x9
	mov	w9, #2
	b	.LBB47_833
.LBB47_657:
	mov	x23, x0
	mov	x0, x21
	mov	x1, x20
	bl	ic_program.argument.any_number
	mov	w8, w0
	mov	x0, x23
	tbz	w8, #0, .LBB47_1287
	mov	x19, x1
	mov	x0, x21
	mov	x1, x20
	bl	ic_program.text.after_word
	mov	x8, x0
	cbz	x1, .LBB47_661
	ldrb	w10, [x8]
	mov	x0, x23
	cmp	w10, #32
	b.eq	.LBB47_648
.LBB47_660:
	mov	x23, x0
.LBB47_661:
	mov	x0, x8
	bl	ic_program.text.without_space
	mov	x22, x0
	mov	x20, x1
	mov	x0, x23
	cmp	x1, #5
	b.hs	.LBB47_649
	b	.LBB47_838
.LBB47_662:
	mov	w10, #10
	umaddl	x8, w19, w10, x8
	umaddl	x19, w8, w10, x9
	mov	w8, #3
.LBB47_663:
	add	x22, x21, x8
	ldrb	w9, [x22]
	cmp	w9, #32
	b.eq	.LBB47_665
	cmp	w9, #10
	b.ne	.LBB47_668
.LBB47_665:
	sub	x20, x20, x8
	cmp	w9, #10
	b.ne	.LBB47_671
.LBB47_666:
	add	x8, x22, #1
	sub	x9, x20, #1
.LBB47_667:
	mov	w23, wzr
	mov	x21, xzr
	mov	x20, xzr
	mov	x22, xzr
	mov	x13, xzr
	mov	x12, xzr
	strh	wzr, [x29, #28]
	mov	w10, #7
	mov	w11, #1
	str	wzr, [x29, #24]
	b	.LBB47_1202
.LBB47_668:
	mov	x23, x0
	mov	x0, x21
	mov	x1, x20
	bl	ic_program.argument.any_number
	mov	w8, w0
	mov	x0, x23
	tbz	w8, #0, .LBB47_1287
	mov	x19, x1
	mov	x0, x21
	mov	x1, x20
	bl	ic_program.text.after_word
	mov	x20, x1
	mov	x22, x0
	cbz	x1, .LBB47_672
	ldrb	w9, [x22]
	mov	x0, x23
	cmp	w9, #10
	b.eq	.LBB47_666
.LBB47_671:
	mov	x23, x0
.LBB47_672:
	mov	x0, x22
	mov	x1, x20
	bl	ic_program.text.other_line
	mov	w8, w0
	mov	x0, x23
	tbz	w8, #0, .LBB47_1287
	add	x8, x22, x1
	sub	x9, x20, x1
	b	.LBB47_667
.LBB47_674:
	mov	w10, #10
	umaddl	x8, w19, w10, x8
	umaddl	x19, w8, w10, x9
	mov	w9, #3
.LBB47_675:
	add	x8, x21, x9
	ldrb	w10, [x8]
	cmp	w10, #32
	b.eq	.LBB47_677
	cmp	w10, #10
	b.ne	.LBB47_687
.LBB47_677:
	sub	x1, x20, x9
	cmp	w10, #32
	b.ne	.LBB47_690
.LBB47_678:
	add	x20, x8, #1
	sub	x21, x1, #1
	cmp	x21, #5
	b.lo	.LBB47_850
.LBB47_679:
	ldrb	w8, [x20]
	sub	w8, w8, #48
	cmp	w8, #9
	b.hi	.LBB47_850
	ldrb	w9, [x20, #1]
	and	x8, x8, #0xff
	sub	w10, w9, #48
	cmp	w10, #9
	b.hi	.LBB47_685
	ldrb	w9, [x20, #2]
	and	x10, x10, #0xff
	sub	w11, w9, #48
	cmp	w11, #9
	b.hi	.LBB47_686
	ldrb	w9, [x20, #3]
	and	x11, x11, #0xff
	sub	w12, w9, #48
	cmp	w12, #10
	b.hs	.LBB47_844
	ldrb	w9, [x20, #4]
	sub	w13, w9, #48
	cmp	w13, #10
	b.lo	.LBB47_850
	mov	w13, #10
	umaddl	x8, w8, w13, x10
	and	x10, x12, #0xff
	umaddl	x8, w8, w13, x11
	umaddl	x8, w8, w13, x10
	mov	w10, #4
	b	.LBB47_845
.LBB47_685:
	mov	w10, #1
	b	.LBB47_845
.LBB47_686:
	mov	w11, #10
	umaddl	x8, w8, w11, x10
	mov	w10, #2
	b	.LBB47_845
.LBB47_687:
	mov	x22, x0
	mov	x0, x21
	mov	x1, x20
	bl	ic_program.argument.any_number
	mov	w8, w0
	mov	x0, x22
	tbz	w8, #0, .LBB47_1287
	mov	x19, x1
	mov	x0, x21
	mov	x1, x20
	bl	ic_program.text.after_word
	mov	x8, x0
	cbz	x1, .LBB47_691
	ldrb	w10, [x8]
	mov	x0, x22
	cmp	w10, #32
	b.eq	.LBB47_678
.LBB47_690:
	mov	x22, x0
.LBB47_691:
	mov	x0, x8
	bl	ic_program.text.without_space
	mov	x20, x0
	mov	x21, x1
	mov	x0, x22
	cmp	x1, #5
	b.hs	.LBB47_679
	b	.LBB47_850
.LBB47_692:
	mov	w10, #10
	umaddl	x8, w19, w10, x8
	umaddl	x19, w8, w10, x9
	mov	w9, #3
.LBB47_693:
	add	x8, x21, x9
	ldrb	w10, [x8]
	cmp	w10, #32
	b.eq	.LBB47_695
	cmp	w10, #10
	b.ne	.LBB47_705
.LBB47_695:
	sub	x1, x20, x9
	cmp	w10, #32
	b.ne	.LBB47_708
.LBB47_696:
	add	x20, x8, #1
	sub	x21, x1, #1
	cmp	x21, #5
	b.lo	.LBB47_864
.LBB47_697:
	ldrb	w8, [x20]
	sub	w8, w8, #48
	cmp	w8, #9
	b.hi	.LBB47_864
	ldrb	w9, [x20, #1]
	and	x8, x8, #0xff
	sub	w10, w9, #48
	cmp	w10, #9
	b.hi	.LBB47_703
	ldrb	w9, [x20, #2]
	and	x10, x10, #0xff
	sub	w11, w9, #48
	cmp	w11, #9
	b.hi	.LBB47_704
	ldrb	w9, [x20, #3]
	and	x11, x11, #0xff
	sub	w12, w9, #48
	cmp	w12, #10
	b.hs	.LBB47_857
	ldrb	w9, [x20, #4]
	sub	w13, w9, #48
	cmp	w13, #10
	b.lo	.LBB47_864
	mov	w13, #10
	umaddl	x8, w8, w13, x10
	and	x10, x12, #0xff
	umaddl	x8, w8, w13, x11
	umaddl	x8, w8, w13, x10
	mov	w10, #4
	b	.LBB47_858
.LBB47_703:
	mov	w10, #1
	b	.LBB47_858
.LBB47_704:
	mov	w11, #10
	umaddl	x8, w8, w11, x10
	mov	w10, #2
	b	.LBB47_858
.LBB47_705:
	mov	x22, x0
	mov	x0, x21
	mov	x1, x20
	bl	ic_program.argument.any_number
	mov	w8, w0
	mov	x0, x22
	tbz	w8, #0, .LBB47_1287
	mov	x19, x1
	mov	x0, x21
	mov	x1, x20
	bl	ic_program.text.after_word
	mov	x8, x0
	cbz	x1, .LBB47_709
	ldrb	w10, [x8]
	mov	x0, x22
	cmp	w10, #32
	b.eq	.LBB47_696
.LBB47_708:
	mov	x22, x0
.LBB47_709:
	mov	x0, x8
	bl	ic_program.text.without_space
	mov	x20, x0
	mov	x21, x1
	mov	x0, x22
	cmp	x1, #5
	b.hs	.LBB47_697
	b	.LBB47_864
.LBB47_710:
	mov	w10, #10
	umaddl	x8, w19, w10, x8
	umaddl	x19, w8, w10, x9
	mov	w8, #3
.LBB47_711:
	add	x22, x21, x8
	ldrb	w9, [x22]
	cmp	w9, #32
	b.eq	.LBB47_713
	cmp	w9, #10
	b.ne	.LBB47_716
.LBB47_713:
	sub	x20, x20, x8
	cmp	w9, #10
	b.ne	.LBB47_719
.LBB47_714:
	add	x8, x22, #1
	sub	x9, x20, #1
.LBB47_715:
	mov	w23, wzr
	mov	x21, xzr
	mov	x20, xzr
	mov	x22, xzr
	mov	x13, xzr
	mov	x12, xzr
	strh	wzr, [x29, #28]
	mov	w10, #10
	mov	w11, #1
	str	wzr, [x29, #24]
	b	.LBB47_1202
.LBB47_716:
	mov	x23, x0
	mov	x0, x21
	mov	x1, x20
	bl	ic_program.argument.any_number
	mov	w8, w0
	mov	x0, x23
	tbz	w8, #0, .LBB47_1287
	mov	x19, x1
	mov	x0, x21
	mov	x1, x20
	bl	ic_program.text.after_word
	mov	x20, x1
	mov	x22, x0
	cbz	x1, .LBB47_720
	ldrb	w9, [x22]
	mov	x0, x23
	cmp	w9, #10
	b.eq	.LBB47_714
.LBB47_719:
	mov	x23, x0
.LBB47_720:
	mov	x0, x22
	mov	x1, x20
	bl	ic_program.text.other_line
	mov	w8, w0
	mov	x0, x23
	tbz	w8, #0, .LBB47_1287
	add	x8, x22, x1
	sub	x9, x20, x1
	b	.LBB47_715
.LBB47_722:
	mov	w10, #10
	umaddl	x8, w19, w10, x8
	umaddl	x19, w8, w10, x9
	mov	w9, #3
.LBB47_723:
	add	x8, x21, x9
	ldrb	w10, [x8]
	cmp	w10, #32
	b.eq	.LBB47_725
	cmp	w10, #10
	b.ne	.LBB47_735
.LBB47_725:
	sub	x1, x20, x9
	cmp	w10, #32
	b.ne	.LBB47_738
.LBB47_726:
	add	x20, x8, #1
	sub	x21, x1, #1
	cmp	x21, #5
	b.lo	.LBB47_877
.LBB47_727:
	ldrb	w8, [x20]
	sub	w8, w8, #48
	cmp	w8, #9
	b.hi	.LBB47_877
	ldrb	w9, [x20, #1]
	and	x8, x8, #0xff
	sub	w10, w9, #48
	cmp	w10, #9
	b.hi	.LBB47_733
	ldrb	w9, [x20, #2]
	and	x10, x10, #0xff
	sub	w11, w9, #48
	cmp	w11, #9
	b.hi	.LBB47_734
	ldrb	w9, [x20, #3]
	and	x11, x11, #0xff
	sub	w12, w9, #48
	cmp	w12, #10
	b.hs	.LBB47_871
	ldrb	w9, [x20, #4]
	sub	w13, w9, #48
	cmp	w13, #10
	b.lo	.LBB47_877
	mov	w13, #10
	umaddl	x8, w8, w13, x10
	and	x10, x12, #0xff
	umaddl	x8, w8, w13, x11
	umaddl	x8, w8, w13, x10
	mov	w10, #4
	b	.LBB47_872
.LBB47_733:
	mov	w10, #1
	b	.LBB47_872
.LBB47_734:
	mov	w11, #10
	umaddl	x8, w8, w11, x10
	mov	w10, #2
	b	.LBB47_872
.LBB47_735:
	mov	x22, x0
	mov	x0, x21
	mov	x1, x20
	bl	ic_program.argument.any_number
	mov	w8, w0
	mov	x0, x22
	tbz	w8, #0, .LBB47_1287
	mov	x19, x1
	mov	x0, x21
	mov	x1, x20
	bl	ic_program.text.after_word
	mov	x8, x0
	cbz	x1, .LBB47_739
	ldrb	w10, [x8]
	mov	x0, x22
	cmp	w10, #32
	b.eq	.LBB47_726
.LBB47_738:
	mov	x22, x0
.LBB47_739:
	mov	x0, x8
	bl	ic_program.text.without_space
	mov	x20, x0
	mov	x21, x1
	mov	x0, x22
	cmp	x1, #5
	b.hs	.LBB47_727
	b	.LBB47_877
.LBB47_740:
	mov	w10, #10
	umaddl	x8, w19, w10, x8
	umaddl	x19, w8, w10, x9
	mov	w8, #3
.LBB47_741:
	add	x22, x21, x8
	ldrb	w9, [x22]
	cmp	w9, #32
	b.eq	.LBB47_743
	cmp	w9, #10
	b.ne	.LBB47_746
.LBB47_743:
	sub	x20, x20, x8
	cmp	w9, #10
	b.ne	.LBB47_749
.LBB47_744:
	add	x8, x22, #1
	sub	x9, x20, #1
.LBB47_745:
	mov	w23, wzr
	mov	x21, xzr
	mov	x20, xzr
	mov	x22, xzr
	mov	x13, xzr
	mov	x12, xzr
	strh	wzr, [x29, #28]
	mov	w10, #15
	mov	w11, #1
	str	wzr, [x29, #24]
	b	.LBB47_1202
.LBB47_746:
	mov	x23, x0
	mov	x0, x21
	mov	x1, x20
	bl	ic_program.argument.any_number
	mov	w8, w0
	mov	x0, x23
	tbz	w8, #0, .LBB47_1287
	mov	x19, x1
	mov	x0, x21
	mov	x1, x20
	bl	ic_program.text.after_word
	mov	x20, x1
	mov	x22, x0
	cbz	x1, .LBB47_750
	ldrb	w9, [x22]
	mov	x0, x23
	cmp	w9, #10
	b.eq	.LBB47_744
.LBB47_749:
	mov	x23, x0
.LBB47_750:
	mov	x0, x22
	mov	x1, x20
	bl	ic_program.text.other_line
	mov	w8, w0
	mov	x0, x23
	tbz	w8, #0, .LBB47_1287
	add	x8, x22, x1
	sub	x9, x20, x1
	b	.LBB47_745
.LBB47_752:
	mov	w10, #10
	umaddl	x8, w19, w10, x8
	umaddl	x19, w8, w10, x9
	mov	w8, #3
.LBB47_753:
	add	x22, x21, x8
	ldrb	w9, [x22]
	cmp	w9, #32
	b.eq	.LBB47_755
	cmp	w9, #10
	b.ne	.LBB47_758
.LBB47_755:
	sub	x20, x20, x8
	cmp	w9, #10
	b.ne	.LBB47_761
.LBB47_756:
	add	x8, x22, #1
	sub	x9, x20, #1
.LBB47_757:
	mov	w23, wzr
	mov	x21, xzr
	mov	x20, xzr
	mov	x22, xzr
	mov	x13, xzr
	mov	x12, xzr
	strh	wzr, [x29, #28]
	mov	w10, #14
	mov	w11, #1
	str	wzr, [x29, #24]
	b	.LBB47_1202
.LBB47_758:
	mov	x23, x0
	mov	x0, x21
	mov	x1, x20
	bl	ic_program.argument.any_number
	mov	w8, w0
	mov	x0, x23
	tbz	w8, #0, .LBB47_1287
	mov	x19, x1
	mov	x0, x21
	mov	x1, x20
	bl	ic_program.text.after_word
	mov	x20, x1
	mov	x22, x0
	cbz	x1, .LBB47_762
	ldrb	w9, [x22]
	mov	x0, x23
	cmp	w9, #10
	b.eq	.LBB47_756
.LBB47_761:
	mov	x23, x0
.LBB47_762:
	mov	x0, x22
	mov	x1, x20
	bl	ic_program.text.other_line
	mov	w8, w0
	mov	x0, x23
	tbz	w8, #0, .LBB47_1287
	add	x8, x22, x1
	sub	x9, x20, x1
	b	.LBB47_757
.LBB47_764:
	mov	w11, #10
	umaddl	x9, w22, w11, x9
	umaddl	x22, w9, w11, x10
	mov	w9, #3
.LBB47_765:
	cmp	w8, #32
	b.eq	.LBB47_767
	cmp	w8, #10
	b.ne	.LBB47_770
.LBB47_767:
	add	x21, x21, x9
	sub	x20, x20, x9
	cmp	w8, #10
	b.ne	.LBB47_773
.LBB47_768:
	add	x8, x21, #1
	sub	x9, x20, #1
.LBB47_769:
	mov	w10, wzr
	mov	w23, wzr
	mov	x20, xzr
	mov	x13, xzr
	mov	x12, xzr
	strh	wzr, [x29, #28]
	str	wzr, [x29, #24]
	mov	w21, #6
	b	.LBB47_902
.LBB47_770:
	mov	x23, x0
	mov	x0, x21
	mov	x1, x20
	bl	ic_program.argument.any_number
	mov	w8, w0
	mov	x0, x23
	tbz	w8, #0, .LBB47_1287
	mov	x22, x1
	mov	x0, x21
	mov	x1, x20
	bl	ic_program.text.after_word
	mov	x20, x1
	mov	x21, x0
	cbz	x1, .LBB47_774
	ldrb	w8, [x21]
	mov	x0, x23
	cmp	w8, #10
	b.eq	.LBB47_768
.LBB47_773:
	mov	x23, x0
.LBB47_774:
	mov	x0, x21
	mov	x1, x20
	bl	ic_program.text.other_line
	mov	w8, w0
	mov	x0, x23
	tbz	w8, #0, .LBB47_1287
	add	x8, x21, x1
	sub	x9, x20, x1
	b	.LBB47_769
.LBB47_776:
	mov	w12, #10
	umaddl	x8, w8, w12, x10
	mov	w10, #3
	umaddl	x8, w8, w12, x11
.LBB47_777:
	cmp	w9, #32
	b.eq	.LBB47_779
	cmp	w9, #10
	b.ne	.LBB47_782
.LBB47_779:
	lsl	x8, x8, #3
	add	x20, x20, x10
	sub	x21, x21, x10
	add	x22, x8, #8
	ldrb	w8, [x20]
	cmp	w8, #10
	b.ne	.LBB47_786
.LBB47_780:
	add	x8, x20, #1
	sub	x9, x21, #1
.LBB47_781:
	mov	w10, wzr
	mov	w23, wzr
	mov	x13, xzr
	mov	x12, xzr
	strh	wzr, [x29, #28]
	mov	w21, #7
	b	.LBB47_863
.LBB47_782:
	mov	x23, x0
	mov	x0, x20
	mov	x1, x21
	bl	ic_program.argument.any_number
	mov	w8, w0
	mov	x0, x23
	tbz	w8, #0, .LBB47_1287
	mov	x0, x20
	mov	x22, x1
	mov	x1, x21
	bl	ic_program.text.after_word
	lsr	x8, x22, #32
	mov	x20, x0
	mov	x0, x23
	cbnz	x8, .LBB47_1287
	lsl	x8, x22, #3
	mov	x21, x1
	add	x22, x8, #8
	cbz	x1, .LBB47_787
	mov	x0, x23
	ldrb	w8, [x20]
	cmp	w8, #10
	b.eq	.LBB47_780
.LBB47_786:
	mov	x23, x0
.LBB47_787:
	mov	x0, x20
	mov	x1, x21
	bl	ic_program.text.other_line
	mov	w8, w0
	mov	x0, x23
	tbz	w8, #0, .LBB47_1287
	add	x8, x20, x1
	sub	x9, x21, x1
	b	.LBB47_781
.LBB47_789:
	mov	w11, #10
	umaddl	x9, w21, w11, x9
	umaddl	x21, w9, w11, x10
	mov	w9, #3
.LBB47_790:
	cmp	w8, #32
	b.eq	.LBB47_792
	cmp	w8, #10
	b.ne	.LBB47_795
.LBB47_792:
	add	x22, x22, x9
	sub	x20, x20, x9
	cmp	w8, #10
	b.ne	.LBB47_798
.LBB47_793:
	add	x8, x22, #1
	sub	x9, x20, #1
.LBB47_794:
	mov	w23, wzr
	mov	x20, xzr
	mov	x22, xzr
	mov	x13, xzr
	mov	x12, xzr
	strh	wzr, [x29, #28]
	str	wzr, [x29, #24]
	mov	w10, #13
	b	.LBB47_902
.LBB47_795:
	mov	x23, x0
	mov	x0, x22
	mov	x1, x20
	bl	ic_program.argument.any_number
	mov	w8, w0
	mov	x0, x23
	tbz	w8, #0, .LBB47_1287
	mov	x21, x1
	mov	x0, x22
	mov	x1, x20
	bl	ic_program.text.after_word
	mov	x20, x1
	mov	x22, x0
	cbz	x1, .LBB47_799
	ldrb	w8, [x22]
	mov	x0, x23
	cmp	w8, #10
	b.eq	.LBB47_793
.LBB47_798:
	mov	x23, x0
.LBB47_799:
	mov	x0, x22
	mov	x1, x20
	bl	ic_program.text.other_line
	mov	w8, w0
	mov	x0, x23
	tbz	w8, #0, .LBB47_1287
	add	x8, x22, x1
	sub	x9, x20, x1
	b	.LBB47_794
.LBB47_801:
	mov	w12, #10
	umaddl	x8, w8, w12, x10
	mov	w10, #3
	umaddl	x8, w8, w12, x11
.LBB47_802:
	cmp	w9, #32
	b.eq	.LBB47_804
	cmp	w9, #10
	b.ne	.LBB47_807
.LBB47_804:
	lsl	x8, x8, #3
	add	x20, x20, x10
	sub	x22, x21, x10
	add	x21, x8, #8
	ldrb	w8, [x20]
	cmp	w8, #10
	b.ne	.LBB47_811
.LBB47_805:
	add	x8, x20, #1
	sub	x9, x22, #1
.LBB47_806:
	mov	w23, wzr
	mov	x20, xzr
	mov	x22, xzr
	mov	x13, xzr
	mov	x12, xzr
	strh	wzr, [x29, #28]
	str	wzr, [x29, #24]
	mov	w10, #17
	b	.LBB47_902
.LBB47_807:
	mov	x23, x0
	mov	x0, x20
	mov	x1, x21
	bl	ic_program.argument.any_number
	mov	w8, w0
	mov	x0, x23
	tbz	w8, #0, .LBB47_1287
	mov	x0, x20
	mov	x24, x1
	mov	x1, x21
	bl	ic_program.text.after_word
	lsr	x8, x24, #32
	mov	x20, x0
	mov	x0, x23
	cbnz	x8, .LBB47_1287
	lsl	x8, x24, #3
	mov	x22, x1
	add	x21, x8, #8
	cbz	x1, .LBB47_812
	mov	x0, x23
	ldrb	w8, [x20]
	cmp	w8, #10
	b.eq	.LBB47_805
.LBB47_811:
	mov	x23, x0
.LBB47_812:
	mov	x0, x20
	mov	x1, x22
	bl	ic_program.text.other_line
	mov	w8, w0
	mov	x0, x23
	tbz	w8, #0, .LBB47_1287
	add	x8, x20, x1
	sub	x9, x22, x1
	b	.LBB47_806
.LBB47_814:
	mov	w11, #10
	umaddl	x8, w20, w11, x8
	umaddl	x20, w8, w11, x10
	mov	w10, #3
.LBB47_815:
	cmp	w9, #32
	b.eq	.LBB47_817
	cmp	w9, #10
	b.ne	.LBB47_827
.LBB47_817:
	add	x8, x22, x10
	sub	x1, x21, x10
	cmp	w9, #32
	b.ne	.LBB47_830
.LBB47_818:
	add	x21, x8, #1
	sub	x22, x1, #1
	cmp	x22, #5
	b.lo	.LBB47_903
.LBB47_819:
	ldrb	w8, [x21]
	sub	w8, w8, #48
	cmp	w8, #9
	b.hi	.LBB47_903
	ldrb	w9, [x21, #1]
	and	x8, x8, #0xff
	sub	w10, w9, #48
	cmp	w10, #9
	b.hi	.LBB47_825
	ldrb	w9, [x21, #2]
	and	x10, x10, #0xff
	sub	w11, w9, #48
	cmp	w11, #9
	b.hi	.LBB47_826
	ldrb	w9, [x21, #3]
	and	x11, x11, #0xff
	sub	w12, w9, #48
	cmp	w12, #10
	b.hs	.LBB47_896
	ldrb	w9, [x21, #4]
	sub	w13, w9, #48
	cmp	w13, #10
	b.lo	.LBB47_903
	mov	w13, #10
	umaddl	x8, w8, w13, x10
	and	x10, x12, #0xff
	umaddl	x8, w8, w13, x11
	umaddl	x8, w8, w13, x10
	mov	w10, #4
	b	.LBB47_897
.LBB47_825:
	mov	w10, #1
	b	.LBB47_897
.LBB47_826:
	mov	w11, #10
	umaddl	x8, w8, w11, x10
	mov	w10, #2
	b	.LBB47_897
.LBB47_827:
	mov	x23, x0
	mov	x0, x22
	mov	x1, x21
	bl	ic_program.argument.any_number
	mov	w8, w0
	mov	x0, x23
	tbz	w8, #0, .LBB47_1287
	mov	x20, x1
	mov	x0, x22
	mov	x1, x21
	bl	ic_program.text.after_word
	mov	x8, x0
	cbz	x1, .LBB47_831
	ldrb	w9, [x8]
	mov	x0, x23
	cmp	w9, #32
	b.eq	.LBB47_818
.LBB47_830:
	mov	x23, x0
.LBB47_831:
	mov	x0, x8
	bl	ic_program.text.without_space
	mov	x21, x0
	mov	x22, x1
	mov	x0, x23
	cmp	x1, #5
	b.hs	.LBB47_819
	b	.LBB47_903
.LBB47_832:
	mov	w11, #10
	umaddl	x9, w21, w11, x9
	umaddl	x21, w9, w11, x10
	mov	w9, #3
.LBB47_833:
	cmp	w8, #32
	b.eq	.LBB47_835
	cmp	w8, #10
	b.ne	.LBB47_838
.LBB47_835:
	add	x22, x22, x9
	sub	x20, x20, x9
	cmp	w8, #10
	b.ne	.LBB47_841
.LBB47_836:
	add	x8, x22, #1
	sub	x9, x20, #1
.LBB47_837:
	mov	w23, wzr
	mov	x20, xzr
	mov	x22, xzr
	mov	x13, xzr
	mov	x12, xzr
	strh	wzr, [x29, #28]
	str	wzr, [x29, #24]
	mov	w10, #12
	b	.LBB47_902
.LBB47_838:
	mov	x23, x0
	mov	x0, x22
	mov	x1, x20
	bl	ic_program.argument.any_number
	mov	w8, w0
	mov	x0, x23
	tbz	w8, #0, .LBB47_1287
	mov	x21, x1
	mov	x0, x22
	mov	x1, x20
	bl	ic_program.text.after_word
	mov	x20, x1
	mov	x22, x0
	cbz	x1, .LBB47_842
	ldrb	w8, [x22]
	mov	x0, x23
	cmp	w8, #10
	b.eq	.LBB47_836
.LBB47_841:
	mov	x23, x0
.LBB47_842:
	mov	x0, x22
	mov	x1, x20
	bl	ic_program.text.other_line
	mov	w8, w0
	mov	x0, x23
	tbz	w8, #0, .LBB47_1287
	add	x8, x22, x1
	sub	x9, x20, x1
	b	.LBB47_837
.LBB47_844:
	mov	w12, #10
	umaddl	x8, w8, w12, x10
	mov	w10, #3
	umaddl	x8, w8, w12, x11
.LBB47_845:
	cmp	w9, #32
	b.eq	.LBB47_847
	cmp	w9, #10
	b.ne	.LBB47_850
.LBB47_847:
	lsl	x8, x8, #3
	add	x20, x20, x10
	sub	x22, x21, x10
	add	x21, x8, #8
	ldrb	w8, [x20]
	cmp	w8, #10
	b.ne	.LBB47_854
.LBB47_848:
	add	x8, x20, #1
	sub	x9, x22, #1
.LBB47_849:
	mov	w23, wzr
	mov	x20, xzr
	mov	x22, xzr
	mov	x13, xzr
	mov	x12, xzr
	strh	wzr, [x29, #28]
	str	wzr, [x29, #24]
	mov	w10, #18
	b	.LBB47_902
.LBB47_850:
	mov	x23, x0
	mov	x0, x20
	mov	x1, x21
	bl	ic_program.argument.any_number
	mov	w8, w0
	mov	x0, x23
	tbz	w8, #0, .LBB47_1287
	mov	x0, x20
	mov	x24, x1
	mov	x1, x21
	bl	ic_program.text.after_word
	lsr	x8, x24, #32
	mov	x20, x0
	mov	x0, x23
	cbnz	x8, .LBB47_1287
	lsl	x8, x24, #3
	mov	x22, x1
	add	x21, x8, #8
	cbz	x1, .LBB47_855
	mov	x0, x23
	ldrb	w8, [x20]
	cmp	w8, #10
	b.eq	.LBB47_848
.LBB47_854:
	mov	x23, x0
.LBB47_855:
	mov	x0, x20
	mov	x1, x22
	bl	ic_program.text.other_line
	mov	w8, w0
	mov	x0, x23
	tbz	w8, #0, .LBB47_1287
	add	x8, x20, x1
	sub	x9, x22, x1
	b	.LBB47_849
.LBB47_857:
	mov	w12, #10
	umaddl	x8, w8, w12, x10
	mov	w10, #3
	umaddl	x8, w8, w12, x11
.LBB47_858:
	cmp	w9, #32
	b.eq	.LBB47_860
	cmp	w9, #10
	b.ne	.LBB47_864
.LBB47_860:
	lsl	x8, x8, #3
	add	x20, x20, x10
	sub	x21, x21, x10
	add	x22, x8, #8
	ldrb	w8, [x20]
	cmp	w8, #10
	b.ne	.LBB47_868
.LBB47_861:
	add	x8, x20, #1
	sub	x9, x21, #1
.LBB47_862:
	mov	w10, wzr
	mov	w23, wzr
	mov	x13, xzr
	mov	x12, xzr
	mov	w21, #4
	strh	wzr, [x29, #28]
.LBB47_863:
	str	wzr, [x29, #24]
	mov	w11, #1
	mov	w20, #1
	b	.LBB47_1202
.LBB47_864:
	mov	x23, x0
	mov	x0, x20
	mov	x1, x21
	bl	ic_program.argument.any_number
	mov	w8, w0
	mov	x0, x23
	tbz	w8, #0, .LBB47_1287
	mov	x0, x20
	mov	x22, x1
	mov	x1, x21
	bl	ic_program.text.after_word
	lsr	x8, x22, #32
	mov	x20, x0
	mov	x0, x23
	cbnz	x8, .LBB47_1287
	lsl	x8, x22, #3
	mov	x21, x1
	add	x22, x8, #8
	cbz	x1, .LBB47_869
	mov	x0, x23
	ldrb	w8, [x20]
	cmp	w8, #10
	b.eq	.LBB47_861
.LBB47_868:
	mov	x23, x0
.LBB47_869:
	mov	x0, x20
	mov	x1, x21
	bl	ic_program.text.other_line
	mov	w8, w0
	mov	x0, x23
	tbz	w8, #0, .LBB47_1287
	add	x8, x20, x1
	sub	x9, x21, x1
	b	.LBB47_862
.LBB47_871:
	mov	w12, #10
	umaddl	x8, w8, w12, x10
	mov	w10, #3
	umaddl	x8, w8, w12, x11
.LBB47_872:
	cmp	w9, #32
	b.eq	.LBB47_874
	cmp	w9, #10
	b.ne	.LBB47_877
.LBB47_874:
	lsl	x8, x8, #3
	add	x20, x20, x10
	sub	x21, x21, x10
	add	x22, x8, #8
	ldrb	w8, [x20]
	cmp	w8, #10
	b.ne	.LBB47_881
.LBB47_875:
	add	x8, x20, #1
	sub	x9, x21, #1
.LBB47_876:
	mov	w10, wzr
	mov	w23, wzr
	mov	x20, xzr
	mov	x13, xzr
	mov	x12, xzr
	strh	wzr, [x29, #28]
	str	wzr, [x29, #24]
	mov	w21, #7
	b	.LBB47_902
.LBB47_877:
	mov	x23, x0
	mov	x0, x20
	mov	x1, x21
	bl	ic_program.argument.any_number
	mov	w8, w0
	mov	x0, x23
	tbz	w8, #0, .LBB47_1287
	mov	x0, x20
	mov	x22, x1
	mov	x1, x21
	bl	ic_program.text.after_word
	lsr	x8, x22, #32
	mov	x20, x0
	mov	x0, x23
	cbnz	x8, .LBB47_1287
	lsl	x8, x22, #3
	mov	x21, x1
	add	x22, x8, #8
	cbz	x1, .LBB47_882
	mov	x0, x23
	ldrb	w8, [x20]
	cmp	w8, #10
	b.eq	.LBB47_875
.LBB47_881:
	mov	x23, x0
.LBB47_882:
	mov	x0, x20
	mov	x1, x21
	bl	ic_program.text.other_line
	mov	w8, w0
	mov	x0, x23
	tbz	w8, #0, .LBB47_1287
	add	x8, x20, x1
	sub	x9, x21, x1
	b	.LBB47_876
.LBB47_884:
	mov	w11, #10
	umaddl	x9, w21, w11, x9
	umaddl	x21, w9, w11, x10
	mov	w9, #3
.LBB47_885:
	cmp	w8, #32
	b.eq	.LBB47_887
	cmp	w8, #10
	b.ne	.LBB47_890
.LBB47_887:
	add	x22, x22, x9
	sub	x20, x20, x9
	cmp	w8, #10
	b.ne	.LBB47_893
.LBB47_888:
	add	x8, x22, #1
	sub	x9, x20, #1
.LBB47_889:
	mov	w23, wzr
	mov	x20, xzr
	mov	x22, xzr
	mov	x13, xzr
	mov	x12, xzr
	strh	wzr, [x29, #28]
	str	wzr, [x29, #24]
	mov	w10, #3
	b	.LBB47_902
.LBB47_890:
	mov	x23, x0
	mov	x0, x22
	mov	x1, x20
	bl	ic_program.argument.any_number
	mov	w8, w0
	mov	x0, x23
	tbz	w8, #0, .LBB47_1287
	mov	x21, x1
	mov	x0, x22
	mov	x1, x20
	bl	ic_program.text.after_word
	mov	x20, x1
	mov	x22, x0
	cbz	x1, .LBB47_894
	ldrb	w8, [x22]
	mov	x0, x23
	cmp	w8, #10
	b.eq	.LBB47_888
.LBB47_893:
	mov	x23, x0
.LBB47_894:
	mov	x0, x22
	mov	x1, x20
	bl	ic_program.text.other_line
	mov	w8, w0
	mov	x0, x23
	tbz	w8, #0, .LBB47_1287
	add	x8, x22, x1
	sub	x9, x20, x1
	b	.LBB47_889
.LBB47_896:
	mov	w12, #10
	umaddl	x8, w8, w12, x10
	mov	w10, #3
	umaddl	x8, w8, w12, x11
.LBB47_897:
	cmp	w9, #32
	b.eq	.LBB47_899
	cmp	w9, #10
	b.ne	.LBB47_903
.LBB47_899:
	lsl	x8, x8, #3
	add	x21, x21, x10
	sub	x23, x22, x10
	add	x22, x8, #8
	ldrb	w8, [x21]
	cmp	w8, #10
	b.ne	.LBB47_907
.LBB47_900:
	add	x8, x21, #1
	sub	x9, x23, #1
.LBB47_901:
	mov	w10, wzr
	mov	w23, wzr
	mov	x13, xzr
	mov	x12, xzr
	strh	wzr, [x29, #28]
	mov	w21, #8
	str	wzr, [x29, #24]
.LBB47_902:
	mov	w11, #1
	b	.LBB47_1202
.LBB47_903:
	mov	x24, x0
	mov	x0, x21
	mov	x1, x22
	bl	ic_program.argument.any_number
	mov	w8, w0
	mov	x0, x24
	tbz	w8, #0, .LBB47_1287
	mov	x0, x21
	mov	x25, x1
	mov	x1, x22
	bl	ic_program.text.after_word
	lsr	x8, x25, #32
	mov	x21, x0
	mov	x0, x24
	cbnz	x8, .LBB47_1287
	lsl	x8, x25, #3
	mov	x23, x1
	add	x22, x8, #8
	cbz	x1, .LBB47_908
	mov	x0, x24
	ldrb	w8, [x21]
	cmp	w8, #10
	b.eq	.LBB47_900
.LBB47_907:
	mov	x24, x0
.LBB47_908:
	mov	x0, x21
	mov	x1, x23
	bl	ic_program.text.other_line
	mov	w8, w0
	mov	x0, x24
	tbz	w8, #0, .LBB47_1287
	add	x8, x21, x1
	sub	x9, x23, x1
	b	.LBB47_901
.LBB47_910:
	mov	w8, #1
	b	.LBB47_926
.LBB47_911:
	mov	w8, #1
	b	.LBB47_942
.LBB47_912:
	mov	w9, #10
	umaddl	x19, w19, w9, x8
	mov	w8, #2
	b	.LBB47_926
.LBB47_913:
	mov	w9, #1
	b	.LBB47_966
.LBB47_914:
	mov	w8, #1
	b	.LBB47_984
.LBB47_915:
	mov	w8, #1
	b	.LBB47_996
.LBB47_916:
	mov	w8, #1
	b	.LBB47_1008
.LBB47_917:
	mov	w9, #10
	umaddl	x19, w19, w9, x8
	mov	w8, #2
	b	.LBB47_942
.LBB47_918:
	mov	w8, #1
	b	.LBB47_1020
.LBB47_919:
	mov	w9, #1
	b	.LBB47_1032
.LBB47_920:
	mov	w8, #1
	b	.LBB47_1050
.LBB47_921:
	mov	w9, #1
	b	.LBB47_1062
.LBB47_922:
	mov	w9, #1
	b	.LBB47_1080
.LBB47_923:
	mov	w8, #1
	b	.LBB47_1098
.LBB47_924:
	mov	w9, #1
	b	.LBB47_1110
.LBB47_925:
	mov	w10, #10
	umaddl	x8, w19, w10, x8
	umaddl	x19, w8, w10, x9
	mov	w8, #3
.LBB47_926:
	add	x22, x21, x8
	ldrb	w9, [x22]
	cmp	w9, #32
	b.eq	.LBB47_928
	cmp	w9, #10
	b.ne	.LBB47_931
.LBB47_928:
	sub	x20, x20, x8
	cmp	w9, #10
	b.ne	.LBB47_934
.LBB47_929:
	add	x8, x22, #1
	sub	x9, x20, #1
.LBB47_930:
	mov	x20, xzr
	mov	w10, wzr
	sturh	wzr, [x29, #-44]
	mov	w11, #1
	stur	wzr, [x29, #-48]
	mov	w21, #4
	b	.LBB47_1141
.LBB47_931:
	mov	x23, x0
	mov	x0, x21
	mov	x1, x20
	bl	ic_program.argument.any_number
	mov	w8, w0
	mov	x0, x23
	tbz	w8, #0, .LBB47_1200
	mov	x19, x1
	mov	x0, x21
	mov	x1, x20
	bl	ic_program.text.after_word
	mov	x20, x1
	mov	x22, x0
	cbz	x1, .LBB47_935
	ldrb	w9, [x22]
	mov	x0, x23
	cmp	w9, #10
	b.eq	.LBB47_929
.LBB47_934:
	mov	x23, x0
.LBB47_935:
	mov	x0, x22
	mov	x1, x20
	bl	ic_program.text.other_line
	mov	w8, w0
	mov	x0, x23
	tbz	w8, #0, .LBB47_1200
	add	x8, x22, x1
	sub	x9, x20, x1
	b	.LBB47_930
.LBB47_937:
	mov	w11, #10
	umaddl	x19, w19, w11, x9
	mov	w9, #2
	b	.LBB47_966
.LBB47_938:
	mov	w10, #10
	umaddl	x19, w19, w10, x8
	mov	w8, #2
	b	.LBB47_984
.LBB47_939:
	mov	w9, #10
	umaddl	x19, w19, w9, x8
	mov	w8, #2
	b	.LBB47_996
.LBB47_940:
	mov	w9, #10
	umaddl	x19, w19, w9, x8
	mov	w8, #2
	b	.LBB47_1008
.LBB47_941:
	mov	w10, #10
	umaddl	x8, w19, w10, x8
	umaddl	x19, w8, w10, x9
	mov	w8, #3
.LBB47_942:
	add	x22, x21, x8
	ldrb	w9, [x22]
	cmp	w9, #32
	b.eq	.LBB47_944
	cmp	w9, #10
	b.ne	.LBB47_947
.LBB47_944:
	sub	x20, x20, x8
	cmp	w9, #10
	b.ne	.LBB47_950
.LBB47_945:
	add	x8, x22, #1
	sub	x9, x20, #1
.LBB47_946:
	mov	x20, xzr
	mov	x21, xzr
	sturh	wzr, [x29, #-44]
	mov	w10, #11
	stur	wzr, [x29, #-48]
	b	.LBB47_1140
.LBB47_947:
	mov	x23, x0
	mov	x0, x21
	mov	x1, x20
	bl	ic_program.argument.any_number
	mov	w8, w0
	mov	x0, x23
	tbz	w8, #0, .LBB47_1200
	mov	x19, x1
	mov	x0, x21
	mov	x1, x20
	bl	ic_program.text.after_word
	mov	x20, x1
	mov	x22, x0
	cbz	x1, .LBB47_951
	ldrb	w9, [x22]
	mov	x0, x23
	cmp	w9, #10
	b.eq	.LBB47_945
.LBB47_950:
	mov	x23, x0
.LBB47_951:
	mov	x0, x22
	mov	x1, x20
	bl	ic_program.text.other_line
	mov	w8, w0
	mov	x0, x23
	tbz	w8, #0, .LBB47_1200
	add	x8, x22, x1
	sub	x9, x20, x1
	b	.LBB47_946
.LBB47_953:
	mov	w9, #10
	umaddl	x19, w19, w9, x8
	mov	w8, #2
	b	.LBB47_1020
.LBB47_954:
	mov	w9, #10
	umaddl	x19, w19, w9, x8
	mov	w9, #2
	b	.LBB47_1032
.LBB47_955:
	mov	w9, #10
	umaddl	x19, w19, w9, x8
	mov	w8, #2
	b	.LBB47_1050
.LBB47_956:
	mov	w9, #10
	umaddl	x19, w19, w9, x8
	mov	w9, #2
	b	.LBB47_1062
.LBB47_957:
	mov	w9, #10
	umaddl	x19, w19, w9, x8
	mov	w9, #2
	b	.LBB47_1080
.LBB47_958:
	mov	w10, #10
	umaddl	x19, w19, w10, x8
	mov	w8, #2
	b	.LBB47_1098
.LBB47_959:
	mov	w9, #10
	umaddl	x19, w19, w9, x8
	mov	w9, #2
	b	.LBB47_1110
.LBB47_960:
	mov	w8, #1
	b	.LBB47_1207
.LBB47_961:
	mov	w8, #1
	b	.LBB47_1220
.LBB47_962:
	mov	w8, #1
	b	.LBB47_1234
.LBB47_963:
	mov	w9, #1
	b	.LBB47_1248
.LBB47_964:
	mov	w8, #1
	b	.LBB47_1264
.LBB47_965:
	mov	w12, #10
	umaddl	x9, w19, w12, x9
	umaddl	x19, w9, w12, x10
	mov	w9, #3
.LBB47_966:
	add	x8, x8, x9
	ldrb	w10, [x8]
	cmp	w10, #32
	b.eq	.LBB47_968
	cmp	w10, #10
	b.ne	.LBB47_978
.LBB47_968:
	sub	x1, x20, x9
	cmp	w10, #32
	b.ne	.LBB47_981
.LBB47_969:
	add	x20, x8, #1
	sub	x21, x1, #1
	cmp	x21, #5
	b.lo	.LBB47_1142
.LBB47_970:
	ldrb	w8, [x20]
	sub	w9, w8, #48
	cmp	w9, #9
	b.hi	.LBB47_1142
	ldrb	w8, [x20, #1]
	and	x9, x9, #0xff
	sub	w10, w8, #48
	cmp	w10, #9
	b.hi	.LBB47_976
	ldrb	w8, [x20, #2]
	and	x10, x10, #0xff
	sub	w11, w8, #48
	cmp	w11, #9
	b.hi	.LBB47_977
	ldrb	w8, [x20, #3]
	and	x11, x11, #0xff
	sub	w12, w8, #48
	cmp	w12, #10
	b.hs	.LBB47_1133
	ldrb	w8, [x20, #4]
	sub	w13, w8, #48
	cmp	w13, #10
	b.lo	.LBB47_1142
	mov	w13, #10
	umaddl	x9, w9, w13, x10
	and	x10, x12, #0xff
	umaddl	x9, w9, w13, x11
	umaddl	x9, w9, w13, x10
	mov	w10, #4
	b	.LBB47_1134
.LBB47_976:
	mov	w10, #1
	b	.LBB47_1134
.LBB47_977:
	mov	w11, #10
	umaddl	x9, w9, w11, x10
	mov	w10, #2
	b	.LBB47_1134
.LBB47_978:
	mov	x22, x0
	add	x0, x2, #13
	mov	x1, x20
	mov	x25, x2
	mov	x23, x3
	bl	ic_program.argument.any_number
	mov	x3, x23
	mov	x2, x25
	mov	w8, w0
	mov	x0, x22
	tbz	w8, #0, .LBB47_1143
	mov	x19, x1
	add	x0, x2, #13
	mov	x1, x20
	bl	ic_program.text.after_word
	mov	x8, x0
	cbz	x1, .LBB47_982
	ldrb	w10, [x8]
	mov	x0, x22
	mov	x2, x25
	mov	x3, x23
	cmp	w10, #32
	b.eq	.LBB47_969
.LBB47_981:
	mov	x23, x3
	mov	x25, x2
	mov	x22, x0
.LBB47_982:
	mov	x0, x8
	bl	ic_program.text.without_space
	mov	x20, x0
	mov	x21, x1
	mov	x0, x22
	mov	x2, x25
	mov	x3, x23
	cmp	x1, #5
	b.hs	.LBB47_970
	b	.LBB47_1142
.LBB47_983:
	mov	w11, #10
	umaddl	x8, w19, w11, x8
	umaddl	x19, w8, w11, x9
	mov	w8, #3
.LBB47_984:
	add	x22, x21, x8
	ldrb	w9, [x22]
	cmp	w9, #32
	b.eq	.LBB47_986
	cmp	w9, #10
	b.ne	.LBB47_989
.LBB47_986:
	sub	x20, x20, x8
	cmp	w9, #10
	b.ne	.LBB47_992
.LBB47_987:
	add	x8, x22, #1
	sub	x9, x20, #1
.LBB47_988:
	mov	x20, xzr
	mov	w10, wzr
	sturh	wzr, [x29, #-44]
	mov	w11, #1
	stur	wzr, [x29, #-48]
	mov	w21, #769
	b	.LBB47_1141
.LBB47_989:
	mov	x23, x0
	mov	x0, x21
	mov	x1, x20
	bl	ic_program.argument.any_number
	mov	w8, w0
	mov	x0, x23
	tbz	w8, #0, .LBB47_1200
	mov	x19, x1
	mov	x0, x21
	mov	x1, x20
	bl	ic_program.text.after_word
	mov	x20, x1
	mov	x22, x0
	cbz	x1, .LBB47_993
	ldrb	w9, [x22]
	mov	x0, x23
	cmp	w9, #10
	b.eq	.LBB47_987
.LBB47_992:
	mov	x23, x0
.LBB47_993:
	mov	x0, x22
	mov	x1, x20
	bl	ic_program.text.other_line
	mov	w8, w0
	mov	x0, x23
	tbz	w8, #0, .LBB47_1200
	add	x8, x22, x1
	sub	x9, x20, x1
	b	.LBB47_988
.LBB47_995:
	mov	w10, #10
	umaddl	x8, w19, w10, x8
	umaddl	x19, w8, w10, x9
	mov	w8, #3
.LBB47_996:
	add	x22, x21, x8
	ldrb	w9, [x22]
	cmp	w9, #32
	b.eq	.LBB47_998
	cmp	w9, #10
	b.ne	.LBB47_1001
.LBB47_998:
	sub	x20, x20, x8
	cmp	w9, #10
	b.ne	.LBB47_1004
.LBB47_999:
	add	x8, x22, #1
	sub	x9, x20, #1
.LBB47_1000:
	mov	x20, xzr
	mov	w10, wzr
	sturh	wzr, [x29, #-44]
	mov	w11, #1
	stur	wzr, [x29, #-48]
	mov	w21, #3
	b	.LBB47_1141
.LBB47_1001:
	mov	x23, x0
	mov	x0, x21
	mov	x1, x20
	bl	ic_program.argument.any_number
	mov	w8, w0
	mov	x0, x23
	tbz	w8, #0, .LBB47_1200
	mov	x19, x1
	mov	x0, x21
	mov	x1, x20
	bl	ic_program.text.after_word
	mov	x20, x1
	mov	x22, x0
	cbz	x1, .LBB47_1005
	ldrb	w9, [x22]
	mov	x0, x23
	cmp	w9, #10
	b.eq	.LBB47_999
.LBB47_1004:
	mov	x23, x0
.LBB47_1005:
	mov	x0, x22
	mov	x1, x20
	bl	ic_program.text.other_line
	mov	w8, w0
	mov	x0, x23
	tbz	w8, #0, .LBB47_1200
	add	x8, x22, x1
	sub	x9, x20, x1
	b	.LBB47_1000
.LBB47_1007:
	mov	w10, #10
	umaddl	x8, w19, w10, x8
	umaddl	x19, w8, w10, x9
	mov	w8, #3
.LBB47_1008:
	add	x22, x21, x8
	ldrb	w9, [x22]
	cmp	w9, #32
	b.eq	.LBB47_1010
	cmp	w9, #10
	b.ne	.LBB47_1013
.LBB47_1010:
	sub	x20, x20, x8
	cmp	w9, #10
	b.ne	.LBB47_1016
.LBB47_1011:
	add	x8, x22, #1
	sub	x9, x20, #1
.LBB47_1012:
	mov	x20, xzr
	mov	w10, wzr
	sturh	wzr, [x29, #-44]
	mov	w11, #1
	stur	wzr, [x29, #-48]
	mov	w21, #259
	b	.LBB47_1141
.LBB47_1013:
	mov	x23, x0
	mov	x0, x21
	mov	x1, x20
	bl	ic_program.argument.any_number
	mov	w8, w0
	mov	x0, x23
	tbz	w8, #0, .LBB47_1200
	mov	x19, x1
	mov	x0, x21
	mov	x1, x20
	bl	ic_program.text.after_word
	mov	x20, x1
	mov	x22, x0
	cbz	x1, .LBB47_1017
	ldrb	w9, [x22]
	mov	x0, x23
	cmp	w9, #10
	b.eq	.LBB47_1011
.LBB47_1016:
	mov	x23, x0
.LBB47_1017:
	mov	x0, x22
	mov	x1, x20
	bl	ic_program.text.other_line
	mov	w8, w0
	mov	x0, x23
	tbz	w8, #0, .LBB47_1200
	add	x8, x22, x1
	sub	x9, x20, x1
	b	.LBB47_1012
.LBB47_1019:
	mov	w10, #10
	umaddl	x8, w19, w10, x8
	umaddl	x19, w8, w10, x9
	mov	w8, #3
.LBB47_1020:
	add	x22, x21, x8
	ldrb	w9, [x22]
	cmp	w9, #32
	b.eq	.LBB47_1022
	cmp	w9, #10
	b.ne	.LBB47_1025
.LBB47_1022:
	sub	x20, x20, x8
	cmp	w9, #10
	b.ne	.LBB47_1028
.LBB47_1023:
	add	x8, x22, #1
	sub	x9, x20, #1
.LBB47_1024:
	mov	x20, xzr
	mov	w10, wzr
	sturh	wzr, [x29, #-44]
	mov	w21, #1
	stur	wzr, [x29, #-48]
	b	.LBB47_1140
.LBB47_1025:
	mov	x23, x0
	mov	x0, x21
	mov	x1, x20
	bl	ic_program.argument.any_number
	mov	w8, w0
	mov	x0, x23
	tbz	w8, #0, .LBB47_1200
	mov	x19, x1
	mov	x0, x21
	mov	x1, x20
	bl	ic_program.text.after_word
	mov	x20, x1
	mov	x22, x0
	cbz	x1, .LBB47_1029
	ldrb	w9, [x22]
	mov	x0, x23
	cmp	w9, #10
	b.eq	.LBB47_1023
.LBB47_1028:
	mov	x23, x0
.LBB47_1029:
	mov	x0, x22
	mov	x1, x20
	bl	ic_program.text.other_line
	mov	w8, w0
	mov	x0, x23
	tbz	w8, #0, .LBB47_1200
	add	x8, x22, x1
	sub	x9, x20, x1
	b	.LBB47_1024
.LBB47_1031:
	mov	w10, #10
	umaddl	x8, w19, w10, x8
	umaddl	x19, w8, w10, x9
	mov	w9, #3
.LBB47_1032:
	add	x8, x21, x9
	ldrb	w10, [x8]
	cmp	w10, #32
	b.eq	.LBB47_1034
	cmp	w10, #10
	b.ne	.LBB47_1044
.LBB47_1034:
	sub	x1, x20, x9
	cmp	w10, #32
	b.ne	.LBB47_1047
.LBB47_1035:
	add	x20, x8, #1
	sub	x21, x1, #1
	cmp	x21, #5
	b.lo	.LBB47_1160
.LBB47_1036:
	ldrb	w8, [x20]
	sub	w9, w8, #48
	cmp	w9, #9
	b.hi	.LBB47_1160
	ldrb	w8, [x20, #1]
	and	x9, x9, #0xff
	sub	w10, w8, #48
	cmp	w10, #9
	b.hi	.LBB47_1042
	ldrb	w8, [x20, #2]
	and	x10, x10, #0xff
	sub	w11, w8, #48
	cmp	w11, #9
	b.hi	.LBB47_1043
	ldrb	w8, [x20, #3]
	and	x11, x11, #0xff
	sub	w12, w8, #48
	cmp	w12, #10
	b.hs	.LBB47_1154
	ldrb	w8, [x20, #4]
	sub	w13, w8, #48
	cmp	w13, #10
	b.lo	.LBB47_1160
	mov	w13, #10
	umaddl	x9, w9, w13, x10
	and	x10, x12, #0xff
	umaddl	x9, w9, w13, x11
	umaddl	x9, w9, w13, x10
	mov	w10, #4
	b	.LBB47_1155
.LBB47_1042:
	mov	w10, #1
	b	.LBB47_1155
.LBB47_1043:
	mov	w11, #10
	umaddl	x9, w9, w11, x10
	mov	w10, #2
	b	.LBB47_1155
.LBB47_1044:
	mov	x22, x0
	mov	x0, x21
	mov	x1, x20
	bl	ic_program.argument.any_number
	mov	w8, w0
	mov	x0, x22
	tbz	w8, #0, .LBB47_1200
	mov	x19, x1
	mov	x0, x21
	mov	x1, x20
	bl	ic_program.text.after_word
	mov	x8, x0
	cbz	x1, .LBB47_1048
	ldrb	w10, [x8]
	mov	x0, x22
	cmp	w10, #32
	b.eq	.LBB47_1035
.LBB47_1047:
	mov	x22, x0
.LBB47_1048:
	mov	x0, x8
	bl	ic_program.text.without_space
	mov	x20, x0
	mov	x21, x1
	mov	x0, x22
	cmp	x1, #5
	b.hs	.LBB47_1036
	b	.LBB47_1160
.LBB47_1049:
	mov	w10, #10
	umaddl	x8, w19, w10, x8
	umaddl	x19, w8, w10, x9
	mov	w8, #3
.LBB47_1050:
	add	x22, x21, x8
	ldrb	w9, [x22]
	cmp	w9, #32
	b.eq	.LBB47_1052
	cmp	w9, #10
	b.ne	.LBB47_1055
.LBB47_1052:
	sub	x20, x20, x8
	cmp	w9, #10
	b.ne	.LBB47_1058
.LBB47_1053:
	add	x8, x22, #1
	sub	x9, x20, #1
.LBB47_1054:
	mov	x20, xzr
	mov	w10, wzr
	sturh	wzr, [x29, #-44]
	mov	w11, #1
	stur	wzr, [x29, #-48]
	mov	w21, #257
	b	.LBB47_1141
.LBB47_1055:
	mov	x23, x0
	mov	x0, x21
	mov	x1, x20
	bl	ic_program.argument.any_number
	mov	w8, w0
	mov	x0, x23
	tbz	w8, #0, .LBB47_1200
	mov	x19, x1
	mov	x0, x21
	mov	x1, x20
	bl	ic_program.text.after_word
	mov	x20, x1
	mov	x22, x0
	cbz	x1, .LBB47_1059
	ldrb	w9, [x22]
	mov	x0, x23
	cmp	w9, #10
	b.eq	.LBB47_1053
.LBB47_1058:
	mov	x23, x0
.LBB47_1059:
	mov	x0, x22
	mov	x1, x20
	bl	ic_program.text.other_line
	mov	w8, w0
	mov	x0, x23
	tbz	w8, #0, .LBB47_1200
	add	x8, x22, x1
	sub	x9, x20, x1
	b	.LBB47_1054
.LBB47_1061:
	mov	w11, #10
	umaddl	x8, w19, w11, x8
	umaddl	x19, w8, w11, x9
	mov	w9, #3
.LBB47_1062:
	add	x8, x21, x9
	ldrb	w10, [x8]
	cmp	w10, #32
	b.eq	.LBB47_1064
	cmp	w10, #10
	b.ne	.LBB47_1074
.LBB47_1064:
	sub	x1, x20, x9
	cmp	w10, #32
	b.ne	.LBB47_1077
.LBB47_1065:
	add	x20, x8, #1
	sub	x21, x1, #1
	cmp	x21, #5
	b.lo	.LBB47_1173
.LBB47_1066:
	ldrb	w8, [x20]
	sub	w9, w8, #48
	cmp	w9, #9
	b.hi	.LBB47_1173
	ldrb	w8, [x20, #1]
	and	x9, x9, #0xff
	sub	w10, w8, #48
	cmp	w10, #9
	b.hi	.LBB47_1072
	ldrb	w8, [x20, #2]
	and	x10, x10, #0xff
	sub	w11, w8, #48
	cmp	w11, #9
	b.hi	.LBB47_1073
	ldrb	w8, [x20, #3]
	and	x11, x11, #0xff
	sub	w12, w8, #48
	cmp	w12, #10
	b.hs	.LBB47_1167
	ldrb	w8, [x20, #4]
	sub	w13, w8, #48
	cmp	w13, #10
	b.lo	.LBB47_1173
	mov	w13, #10
	umaddl	x9, w9, w13, x10
	and	x10, x12, #0xff
	umaddl	x9, w9, w13, x11
	umaddl	x9, w9, w13, x10
	mov	w10, #4
	b	.LBB47_1168
.LBB47_1072:
	mov	w10, #1
	b	.LBB47_1168
.LBB47_1073:
	mov	w11, #10
	umaddl	x9, w9, w11, x10
	mov	w10, #2
	b	.LBB47_1168
.LBB47_1074:
	mov	x22, x0
	mov	x0, x21
	mov	x1, x20
	bl	ic_program.argument.any_number
	mov	w8, w0
	mov	x0, x22
	tbz	w8, #0, .LBB47_1200
	mov	x19, x1
	mov	x0, x21
	mov	x1, x20
	bl	ic_program.text.after_word
	mov	x8, x0
	cbz	x1, .LBB47_1078
	ldrb	w10, [x8]
	mov	x0, x22
	cmp	w10, #32
	b.eq	.LBB47_1065
.LBB47_1077:
	mov	x22, x0
.LBB47_1078:
	mov	x0, x8
	bl	ic_program.text.without_space
	mov	x20, x0
	mov	x21, x1
	mov	x0, x22
	cmp	x1, #5
	b.hs	.LBB47_1066
	b	.LBB47_1173
.LBB47_1079:
	mov	w10, #10
	umaddl	x8, w19, w10, x8
	umaddl	x19, w8, w10, x9
	mov	w9, #3
.LBB47_1080:
	add	x8, x21, x9
	ldrb	w10, [x8]
	cmp	w10, #32
	b.eq	.LBB47_1082
	cmp	w10, #10
	b.ne	.LBB47_1092
.LBB47_1082:
	sub	x1, x20, x9
	cmp	w10, #32
	b.ne	.LBB47_1095
.LBB47_1083:
	add	x20, x8, #1
	sub	x21, x1, #1
	cmp	x21, #5
	b.lo	.LBB47_1186
.LBB47_1084:
	ldrb	w8, [x20]
	sub	w9, w8, #48
	cmp	w9, #9
	b.hi	.LBB47_1186
	ldrb	w8, [x20, #1]
	and	x9, x9, #0xff
	sub	w10, w8, #48
	cmp	w10, #9
	b.hi	.LBB47_1090
	ldrb	w8, [x20, #2]
	and	x10, x10, #0xff
	sub	w11, w8, #48
	cmp	w11, #9
	b.hi	.LBB47_1091
	ldrb	w8, [x20, #3]
	and	x11, x11, #0xff
	sub	w12, w8, #48
	cmp	w12, #10
	b.hs	.LBB47_1180
	ldrb	w8, [x20, #4]
	sub	w13, w8, #48
	cmp	w13, #10
	b.lo	.LBB47_1186
	mov	w13, #10
	umaddl	x9, w9, w13, x10
	and	x10, x12, #0xff
	umaddl	x9, w9, w13, x11
	umaddl	x9, w9, w13, x10
	mov	w10, #4
	b	.LBB47_1181
.LBB47_1090:
	mov	w10, #1
	b	.LBB47_1181
.LBB47_1091:
	mov	w11, #10
	umaddl	x9, w9, w11, x10
	mov	w10, #2
	b	.LBB47_1181
.LBB47_1092:
	mov	x22, x0
	mov	x0, x21
	mov	x1, x20
	bl	ic_program.argument.any_number
	mov	w8, w0
	mov	x0, x22
	tbz	w8, #0, .LBB47_1200
	mov	x19, x1
	mov	x0, x21
	mov	x1, x20
	bl	ic_program.text.after_word
	mov	x8, x0
	cbz	x1, .LBB47_1096
	ldrb	w10, [x8]
	mov	x0, x22
	cmp	w10, #32
	b.eq	.LBB47_1083
.LBB47_1095:
	mov	x22, x0
.LBB47_1096:
	mov	x0, x8
	bl	ic_program.text.without_space
	mov	x20, x0
	mov	x21, x1
	mov	x0, x22
	cmp	x1, #5
	b.hs	.LBB47_1084
	b	.LBB47_1186
.LBB47_1097:
	mov	w11, #10
	umaddl	x8, w19, w11, x8
	umaddl	x19, w8, w11, x9
	mov	w8, #3
.LBB47_1098:
	add	x22, x21, x8
	ldrb	w9, [x22]
	cmp	w9, #32
	b.eq	.LBB47_1100
	cmp	w9, #10
	b.ne	.LBB47_1103
.LBB47_1100:
	sub	x20, x20, x8
	cmp	w9, #10
	b.ne	.LBB47_1106
.LBB47_1101:
	add	x8, x22, #1
	sub	x9, x20, #1
.LBB47_1102:
	mov	x20, xzr
	mov	w10, wzr
	sturh	wzr, [x29, #-44]
	mov	w11, #1
	stur	wzr, [x29, #-48]
	mov	w21, #513
	b	.LBB47_1141
.LBB47_1103:
	mov	x23, x0
	mov	x0, x21
	mov	x1, x20
	bl	ic_program.argument.any_number
	mov	w8, w0
	mov	x0, x23
	tbz	w8, #0, .LBB47_1200
	mov	x19, x1
	mov	x0, x21
	mov	x1, x20
	bl	ic_program.text.after_word
	mov	x20, x1
	mov	x22, x0
	cbz	x1, .LBB47_1107
	ldrb	w9, [x22]
	mov	x0, x23
	cmp	w9, #10
	b.eq	.LBB47_1101
.LBB47_1106:
	mov	x23, x0
.LBB47_1107:
	mov	x0, x22
	mov	x1, x20
	bl	ic_program.text.other_line
	mov	w8, w0
	mov	x0, x23
	tbz	w8, #0, .LBB47_1200
	add	x8, x22, x1
	sub	x9, x20, x1
	b	.LBB47_1102
.LBB47_1109:
	mov	w10, #10
	umaddl	x8, w19, w10, x8
	umaddl	x19, w8, w10, x9
	mov	w9, #3
.LBB47_1110:
	add	x8, x21, x9
	ldrb	w10, [x8]
	cmp	w10, #32
	b.eq	.LBB47_1112
	cmp	w10, #10
	b.ne	.LBB47_1122
.LBB47_1112:
	sub	x1, x20, x9
	cmp	w10, #32
	b.ne	.LBB47_1125
.LBB47_1113:
	add	x20, x8, #1
	sub	x21, x1, #1
	cmp	x21, #5
	b.lo	.LBB47_1199
.LBB47_1114:
	ldrb	w8, [x20]
	sub	w9, w8, #48
	cmp	w9, #9
	b.hi	.LBB47_1199
	ldrb	w8, [x20, #1]
	and	x9, x9, #0xff
	sub	w10, w8, #48
	cmp	w10, #9
	b.hi	.LBB47_1120
	ldrb	w8, [x20, #2]
	and	x10, x10, #0xff
	sub	w11, w8, #48
	cmp	w11, #9
	b.hi	.LBB47_1121
	ldrb	w8, [x20, #3]
	and	x11, x11, #0xff
	sub	w12, w8, #48
	cmp	w12, #10
	b.hs	.LBB47_1193
	ldrb	w8, [x20, #4]
	sub	w13, w8, #48
	cmp	w13, #10
	b.lo	.LBB47_1199
	mov	w13, #10
	umaddl	x9, w9, w13, x10
	and	x10, x12, #0xff
	umaddl	x9, w9, w13, x11
	umaddl	x9, w9, w13, x10
	mov	w10, #4
	b	.LBB47_1194
.LBB47_1120:
	mov	w10, #1
	b	.LBB47_1194
.LBB47_1121:
	mov	w11, #10
	umaddl	x9, w9, w11, x10
	mov	w10, #2
	b	.LBB47_1194
.LBB47_1122:
	mov	x22, x0
	mov	x0, x21
	mov	x1, x20
	bl	ic_program.argument.any_number
	mov	w8, w0
	mov	x0, x22
	tbz	w8, #0, .LBB47_1200
	mov	x19, x1
	mov	x0, x21
	mov	x1, x20
	bl	ic_program.text.after_word
	mov	x8, x0
	cbz	x1, .LBB47_1126
	ldrb	w10, [x8]
	mov	x0, x22
	cmp	w10, #32
	b.eq	.LBB47_1113
.LBB47_1125:
	mov	x22, x0
.LBB47_1126:
	mov	x0, x8
	bl	ic_program.text.without_space
	mov	x20, x0
	mov	x21, x1
	mov	x0, x22
	cmp	x1, #5
	b.hs	.LBB47_1114
	b	.LBB47_1199
.LBB47_1127:
	mov	w9, #10
	umaddl	x19, w19, w9, x8
	mov	w8, #2
	b	.LBB47_1207
.LBB47_1128:
	mov	w9, #10
	umaddl	x19, w19, w9, x8
	mov	w8, #2
	b	.LBB47_1220
.LBB47_1129:
	mov	w9, #10
	umaddl	x19, w19, w9, x8
	mov	w8, #2
	b	.LBB47_1234
.LBB47_1130:
	mov	w10, #10
	umaddl	x19, w19, w10, x9
	mov	w9, #2
	b	.LBB47_1248
.LBB47_1131:
	mov	w9, #10
	umaddl	x19, w19, w9, x8
	mov	w8, #2
	b	.LBB47_1264
.LBB47_1132:
	mov	w8, #1
	b	.LBB47_1282
.LBB47_1133:
	mov	w12, #10
	umaddl	x9, w9, w12, x10
	mov	w10, #3
	umaddl	x9, w9, w12, x11
.LBB47_1134:
	cmp	w8, #32
	b.eq	.LBB47_1136
	cmp	w8, #10
	b.ne	.LBB47_1142
.LBB47_1136:
	lsl	x9, x9, #3
	add	x22, x20, x10
	sub	x21, x21, x10
	add	x20, x9, #8
	cmp	w8, #10
	b.ne	.LBB47_1362
.LBB47_1137:
	add	x8, x22, #1
	sub	x9, x21, #1
.LBB47_1138:
	strh	wzr, [sp, #20]
	mov	w21, #514
.LBB47_1139:
	str	wzr, [sp, #16]
	ldrh	w12, [sp, #20]
	mov	w10, wzr
	stur	wzr, [x29, #-48]
	sturh	w12, [x29, #-44]
.LBB47_1140:
	mov	w11, #1
.LBB47_1141:
	ldur	w12, [x29, #-48]
	ldurh	w13, [x29, #-44]
	str	w12, [x29, #24]
	strh	w13, [x29, #28]
	b	.LBB47_1201
.LBB47_1142:
	mov	x25, x0
	mov	x0, x20
	mov	x1, x21
	mov	x27, x2
	mov	x26, x3
	bl	ic_program.argument.any_number
	mov	x3, x26
	mov	x2, x27
	mov	w8, w0
	mov	x0, x25
	tbnz	w8, #0, .LBB47_1359
.LBB47_1143:
	subs	x20, x3, #18
	b.lo	.LBB47_1200
	mov	x9, #25966
	ldr	x8, [x2, #8]
	movk	x9, #29816, lsl #16
	movk	x9, #30559, lsl #32
	movk	x9, #29801, lsl #48
	cmp	x8, x9
	b.ne	.LBB47_1200
	ldr	x8, [x2]
	cmp	x8, x24
	b.ne	.LBB47_1200
	mov	x9, #25955
	ldur	x8, [x2, #10]
	movk	x9, #30559, lsl #16
	movk	x9, #29801, lsl #32
	movk	x9, #8296, lsl #48
	add	x9, x9, #3861
	cmp	x8, x9
	b.ne	.LBB47_1200
	mov	x24, x0
	cmp	x20, #5
	add	x21, x2, #18
	b.lo	.LBB47_1313
	ldrb	w8, [x21]
	sub	w8, w8, #48
	cmp	w8, #9
	b.hi	.LBB47_1313
	ldrb	w10, [x2, #19]
	and	x19, x8, #0xff
	sub	w11, w10, #48
	cmp	w11, #9
	b.hi	.LBB47_1205
	ldrb	w8, [x2, #20]
	mov	x9, x2
	sub	w10, w8, #48
	and	x8, x11, #0xff
	cmp	w10, #9
	b.hi	.LBB47_1279
	ldrb	w11, [x9, #21]
	and	x10, x10, #0xff
	sub	w11, w11, #48
	cmp	w11, #10
	b.hs	.LBB47_1300
	ldrb	w9, [x9, #22]
	sub	w9, w9, #48
	cmp	w9, #10
	b.lo	.LBB47_1313
	mov	w12, #10
	and	x9, x11, #0xff
	umaddl	x8, w19, w12, x8
	umaddl	x8, w8, w12, x10
	umaddl	x19, w8, w12, x9
	mov	w8, #4
	b	.LBB47_1301
.LBB47_1154:
	mov	w12, #10
	umaddl	x9, w9, w12, x10
	mov	w10, #3
	umaddl	x9, w9, w12, x11
.LBB47_1155:
	cmp	w8, #32
	b.eq	.LBB47_1157
	cmp	w8, #10
	b.ne	.LBB47_1160
.LBB47_1157:
	lsl	x9, x9, #3
	add	x22, x20, x10
	sub	x21, x21, x10
	add	x20, x9, #8
	cmp	w8, #10
	b.ne	.LBB47_1164
.LBB47_1158:
	add	x8, x22, #1
	sub	x9, x21, #1
.LBB47_1159:
	mov	x21, xzr
	mov	w10, wzr
	sturh	wzr, [x29, #-44]
	mov	w11, #1
	stur	wzr, [x29, #-48]
	b	.LBB47_1141
.LBB47_1160:
	mov	x24, x0
	mov	x0, x20
	mov	x1, x21
	bl	ic_program.argument.any_number
	mov	w8, w0
	mov	x0, x24
	tbz	w8, #0, .LBB47_1200
	mov	x23, x1
	mov	x0, x20
	mov	x1, x21
	bl	ic_program.text.after_word
	lsr	x8, x23, #32
	mov	x22, x0
	mov	x0, x24
	cbnz	x8, .LBB47_1200
	lsl	x8, x23, #3
	mov	x21, x1
	add	x20, x8, #8
	cbz	x1, .LBB47_1165
	ldrb	w8, [x22]
	mov	x0, x24
	cmp	w8, #10
	b.eq	.LBB47_1158
.LBB47_1164:
	mov	x24, x0
.LBB47_1165:
	mov	x0, x22
	mov	x1, x21
	bl	ic_program.text.other_line
	mov	w8, w0
	mov	x0, x24
	tbz	w8, #0, .LBB47_1200
	add	x8, x22, x1
	sub	x9, x21, x1
	b	.LBB47_1159
.LBB47_1167:
	mov	w12, #10
	umaddl	x9, w9, w12, x10
	mov	w10, #3
	umaddl	x9, w9, w12, x11
.LBB47_1168:
	cmp	w8, #32
	b.eq	.LBB47_1170
	cmp	w8, #10
	b.ne	.LBB47_1173
.LBB47_1170:
	lsl	x9, x9, #3
	add	x22, x20, x10
	sub	x21, x21, x10
	add	x20, x9, #8
	cmp	w8, #10
	b.ne	.LBB47_1177
.LBB47_1171:
	add	x8, x22, #1
	sub	x9, x21, #1
.LBB47_1172:
	mov	w10, wzr
	sturh	wzr, [x29, #-44]
	mov	w11, #1
	mov	w21, #512
	stur	wzr, [x29, #-48]
	b	.LBB47_1141
.LBB47_1173:
	mov	x24, x0
	mov	x0, x20
	mov	x1, x21
	bl	ic_program.argument.any_number
	mov	w8, w0
	mov	x0, x24
	tbz	w8, #0, .LBB47_1200
	mov	x23, x1
	mov	x0, x20
	mov	x1, x21
	bl	ic_program.text.after_word
	lsr	x8, x23, #32
	mov	x22, x0
	mov	x0, x24
	cbnz	x8, .LBB47_1200
	lsl	x8, x23, #3
	mov	x21, x1
	add	x20, x8, #8
	cbz	x1, .LBB47_1178
	ldrb	w8, [x22]
	mov	x0, x24
	cmp	w8, #10
	b.eq	.LBB47_1171
.LBB47_1177:
	mov	x24, x0
.LBB47_1178:
	mov	x0, x22
	mov	x1, x21
	bl	ic_program.text.other_line
	mov	w8, w0
	mov	x0, x24
	tbz	w8, #0, .LBB47_1200
	add	x8, x22, x1
	sub	x9, x21, x1
	b	.LBB47_1172
.LBB47_1180:
	mov	w12, #10
	umaddl	x9, w9, w12, x10
	mov	w10, #3
	umaddl	x9, w9, w12, x11
.LBB47_1181:
	cmp	w8, #32
	b.eq	.LBB47_1183
	cmp	w8, #10
	b.ne	.LBB47_1186
.LBB47_1183:
	lsl	x9, x9, #3
	add	x22, x20, x10
	sub	x21, x21, x10
	add	x20, x9, #8
	cmp	w8, #10
	b.ne	.LBB47_1190
.LBB47_1184:
	add	x8, x22, #1
	sub	x9, x21, #1
.LBB47_1185:
	mov	w10, wzr
	sturh	wzr, [x29, #-44]
	mov	w11, #1
	mov	w21, #768
	stur	wzr, [x29, #-48]
	b	.LBB47_1141
.LBB47_1186:
	mov	x24, x0
	mov	x0, x20
	mov	x1, x21
	bl	ic_program.argument.any_number
	mov	w8, w0
	mov	x0, x24
	tbz	w8, #0, .LBB47_1200
	mov	x23, x1
	mov	x0, x20
	mov	x1, x21
	bl	ic_program.text.after_word
	lsr	x8, x23, #32
	mov	x22, x0
	mov	x0, x24
	cbnz	x8, .LBB47_1200
	lsl	x8, x23, #3
	mov	x21, x1
	add	x20, x8, #8
	cbz	x1, .LBB47_1191
	ldrb	w8, [x22]
	mov	x0, x24
	cmp	w8, #10
	b.eq	.LBB47_1184
.LBB47_1190:
	mov	x24, x0
.LBB47_1191:
	mov	x0, x22
	mov	x1, x21
	bl	ic_program.text.other_line
	mov	w8, w0
	mov	x0, x24
	tbz	w8, #0, .LBB47_1200
	add	x8, x22, x1
	sub	x9, x21, x1
	b	.LBB47_1185
.LBB47_1193:
	mov	w12, #10
	umaddl	x9, w9, w12, x10
	mov	w10, #3
	umaddl	x9, w9, w12, x11
.LBB47_1194:
	cmp	w8, #32
	b.eq	.LBB47_1196
	cmp	w8, #10
	b.ne	.LBB47_1199
.LBB47_1196:
	lsl	x9, x9, #3
	add	x22, x20, x10
	sub	x21, x21, x10
	add	x20, x9, #8
	cmp	w8, #10
	b.ne	.LBB47_1368
.LBB47_1197:
	add	x8, x22, #1
	sub	x9, x21, #1
.LBB47_1198:
	mov	w10, wzr
	sturh	wzr, [x29, #-44]
	mov	w11, #1
	mov	w21, #256
	stur	wzr, [x29, #-48]
	b	.LBB47_1141
.LBB47_1199:
	mov	x24, x0
	mov	x0, x20
	mov	x1, x21
	bl	ic_program.argument.any_number
	mov	w8, w0
	mov	x0, x24
	tbnz	w8, #0, .LBB47_1365
.LBB47_1200:
	mov	x11, xzr
	mov	w10, wzr
	mov	x19, xzr
	mov	x21, xzr
	mov	x20, xzr
	mov	x8, xzr
	mov	x9, xzr
	strh	wzr, [x29, #28]
	str	wzr, [x29, #24]
.LBB47_1201:
	mov	w23, wzr
	mov	x22, xzr
	mov	x13, xzr
	mov	x12, xzr
.LBB47_1202:
	str	x11, [x0]
	ldrh	w11, [x29, #28]
	strb	w10, [x0, #8]
	ldr	w10, [x29, #24]
	strb	w23, [x0, #9]
	stur	w10, [x0, #10]
	strh	w11, [x0, #14]
	stp	x19, x21, [x0, #16]
	stp	x20, x22, [x0, #32]
	stp	x13, x12, [x0, #48]
	stp	x8, x9, [x0, #64]
	b	.LBB47_1289
.LBB47_1203:
	mov	x0, x20
	mov	x1, x19
	bl	ic_program.text.other_line
	mov	w8, w0
	mov	x0, x21
	tbz	w8, #0, .LBB47_1287
	add	x8, x20, x1
	sub	x9, x19, x1
	b	.LBB47_68
.LBB47_1205:
	mov	w8, #1
	b	.LBB47_1301
.LBB47_1206:
	mov	w10, #10
	umaddl	x8, w19, w10, x8
	umaddl	x19, w8, w10, x9
	mov	w8, #3
.LBB47_1207:
	add	x0, x21, x8
	ldrb	w9, [x0]
	cmp	w9, #32
	b.eq	.LBB47_1209
	cmp	w9, #10
	b.ne	.LBB47_1211
.LBB47_1209:
	sub	x1, x20, x8
	cmp	w9, #32
	b.ne	.LBB47_1214
.LBB47_1210:
	add	x8, x0, #1
	sub	x2, x1, #1
	b	.LBB47_1215
.LBB47_1211:
	mov	x0, x21
	mov	x1, x20
	bl	ic_program.argument.any_number
	movi	v0.2d, #0000000000000000
	mov	w8, w0
	mov	x0, x25
	tbz	w8, #0, .LBB47_1288
	mov	x19, x1
	mov	x0, x21
	mov	x1, x20
	bl	ic_program.text.after_word
	cbz	x1, .LBB47_1214
	ldrb	w9, [x0]
	cmp	w9, #32
	b.eq	.LBB47_1210
.LBB47_1214:
	bl	ic_program.text.without_space
	mov	x8, x0
	mov	x2, x1
.LBB47_1215:
	sub	x0, x29, #48
	mov	x1, x8
	bl	ic_program.argument.BoundU64Argument.read
	movi	v0.2d, #0000000000000000
	ldurb	w8, [x29, #-48]
	mov	x0, x25
	cmp	w8, #1
	b.ne	.LBB47_1288
	ldp	x0, x1, [x29, #-24]
	ldurb	w21, [x29, #-40]
	ldur	x20, [x29, #-32]
	cbz	x1, .LBB47_1337
	ldrb	w8, [x0]
	cmp	w8, #32
	b.ne	.LBB47_1337
	add	x8, x0, #1
	sub	x2, x1, #1
	b	.LBB47_1338
.LBB47_1219:
	mov	w10, #10
	umaddl	x8, w19, w10, x8
	umaddl	x19, w8, w10, x9
	mov	w8, #3
.LBB47_1220:
	add	x0, x21, x8
	ldrb	w9, [x0]
	cmp	w9, #32
	b.eq	.LBB47_1222
	cmp	w9, #10
	b.ne	.LBB47_1224
.LBB47_1222:
	sub	x1, x20, x8
	cmp	w9, #32
	b.ne	.LBB47_1227
.LBB47_1223:
	add	x8, x0, #1
	sub	x2, x1, #1
	b	.LBB47_1228
.LBB47_1224:
	mov	x0, x21
	mov	x1, x20
	bl	ic_program.argument.any_number
	mov	w8, w0
	mov	x0, x24
	tbz	w8, #0, .LBB47_1287
	mov	x19, x1
	mov	x0, x21
	mov	x1, x20
	bl	ic_program.text.after_word
	cbz	x1, .LBB47_1227
	ldrb	w9, [x0]
	cmp	w9, #32
	b.eq	.LBB47_1223
.LBB47_1227:
	bl	ic_program.text.without_space
	mov	x8, x0
	mov	x2, x1
.LBB47_1228:
	sub	x0, x29, #48
	mov	x1, x8
	bl	ic_program.argument.KindArgument.read
	ldurb	w8, [x29, #-48]
	mov	x0, x24
	cmp	w8, #1
	b.ne	.LBB47_1287
	ldp	x22, x20, [x29, #-32]
	ldurb	w21, [x29, #-40]
	cbz	x20, .LBB47_1331
	ldrb	w8, [x22]
	cmp	w8, #10
	b.ne	.LBB47_1331
	add	x8, x22, #1
	sub	x9, x20, #1
.LBB47_1232:
	mov	w23, wzr
	mov	x20, xzr
	mov	x22, xzr
	mov	x13, xzr
	mov	x12, xzr
	str	wzr, [x29, #24]
	strh	wzr, [x29, #28]
	mov	w10, #5
	mov	w11, #1
	mov	x0, x24
	b	.LBB47_1202
.LBB47_1233:
	mov	w10, #10
	umaddl	x8, w19, w10, x8
	umaddl	x19, w8, w10, x9
	mov	w8, #3
.LBB47_1234:
	add	x0, x21, x8
	ldrb	w9, [x0]
	cmp	w9, #32
	b.eq	.LBB47_1236
	cmp	w9, #10
	b.ne	.LBB47_1238
.LBB47_1236:
	sub	x1, x20, x8
	cmp	w9, #32
	b.ne	.LBB47_1241
.LBB47_1237:
	add	x8, x0, #1
	sub	x2, x1, #1
	b	.LBB47_1242
.LBB47_1238:
	mov	x0, x21
	mov	x1, x20
	bl	ic_program.argument.any_number
	movi	v0.2d, #0000000000000000
	mov	w8, w0
	mov	x0, x24
	tbz	w8, #0, .LBB47_1288
	mov	x19, x1
	mov	x0, x21
	mov	x1, x20
	bl	ic_program.text.after_word
	cbz	x1, .LBB47_1241
	ldrb	w9, [x0]
	cmp	w9, #32
	b.eq	.LBB47_1237
.LBB47_1241:
	bl	ic_program.text.without_space
	mov	x8, x0
	mov	x2, x1
.LBB47_1242:
	sub	x0, x29, #48
	mov	x1, x8
	bl	ic_program.argument.BoundU64Argument.read
	movi	v0.2d, #0000000000000000
	ldurb	w8, [x29, #-48]
	mov	x0, x24
	cmp	w8, #1
	b.ne	.LBB47_1288
	ldp	x21, x20, [x29, #-24]
	ldurb	w22, [x29, #-40]
	ldur	x25, [x29, #-32]
	cbz	x20, .LBB47_1333
	ldrb	w8, [x21]
	cmp	w8, #10
	b.ne	.LBB47_1333
	add	x8, x21, #1
	sub	x9, x20, #1
.LBB47_1246:
	mov	w10, wzr
	mov	w23, wzr
	mov	x12, xzr
	str	wzr, [x29, #24]
	mov	w20, #2
	mov	w21, #6
	strh	wzr, [x29, #28]
	mov	w11, #1
	b	.LBB47_1277
.LBB47_1247:
	mov	w12, #10
	mov	x2, x11
	umaddl	x9, w19, w12, x9
	umaddl	x19, w9, w12, x10
	mov	w9, #3
.LBB47_1248:
	add	x0, x8, x9
	ldrb	w8, [x0]
	cmp	w8, #32
	b.eq	.LBB47_1250
	cmp	w8, #10
	b.ne	.LBB47_1252
.LBB47_1250:
	mov	x26, x2
	sub	x1, x20, x9
	cmp	w8, #32
	b.ne	.LBB47_1255
.LBB47_1251:
	add	x21, x0, #1
	sub	x22, x1, #1
	b	.LBB47_1256
.LBB47_1252:
	add	x0, x2, #15
	mov	x1, x20
	mov	x26, x2
	bl	ic_program.argument.any_number
	mov	x2, x26
	mov	w8, w0
	mov	x0, x24
	tbz	w8, #0, .LBB47_221
	mov	x19, x1
	add	x0, x2, #15
	mov	x1, x20
	bl	ic_program.text.after_word
	cbz	x1, .LBB47_1255
	ldrb	w8, [x0]
	cmp	w8, #32
	b.eq	.LBB47_1251
.LBB47_1255:
	bl	ic_program.text.without_space
	mov	x21, x0
	mov	x22, x1
.LBB47_1256:
	cmp	x22, #5
	b.lo	.LBB47_1349
	ldrb	w8, [x21]
	sub	w8, w8, #48
	cmp	w8, #9
	b.hi	.LBB47_1349
	ldrb	w9, [x21, #1]
	and	x8, x8, #0xff
	sub	w10, w9, #48
	cmp	w10, #9
	b.hi	.LBB47_1280
	ldrb	w9, [x21, #2]
	and	x10, x10, #0xff
	sub	w11, w9, #48
	cmp	w11, #9
	b.hi	.LBB47_1317
	ldrb	w9, [x21, #3]
	and	x11, x11, #0xff
	sub	w12, w9, #48
	cmp	w12, #10
	b.hs	.LBB47_1343
	ldrb	w9, [x21, #4]
	sub	w13, w9, #48
	cmp	w13, #10
	b.lo	.LBB47_1349
	mov	w13, #10
	umaddl	x8, w8, w13, x10
	and	x10, x12, #0xff
	umaddl	x8, w8, w13, x11
	umaddl	x8, w8, w13, x10
	mov	w10, #4
	b	.LBB47_1344
.LBB47_1263:
	mov	w10, #10
	umaddl	x8, w19, w10, x8
	umaddl	x19, w8, w10, x9
	mov	w8, #3
.LBB47_1264:
	add	x0, x21, x8
	ldrb	w9, [x0]
	cmp	w9, #32
	b.eq	.LBB47_1266
	cmp	w9, #10
	b.ne	.LBB47_1268
.LBB47_1266:
	sub	x1, x20, x8
	cmp	w9, #32
	b.ne	.LBB47_1271
.LBB47_1267:
	add	x8, x0, #1
	sub	x2, x1, #1
	b	.LBB47_1272
.LBB47_1268:
	mov	x0, x21
	mov	x1, x20
	bl	ic_program.argument.any_number
	movi	v0.2d, #0000000000000000
	mov	w8, w0
	mov	x0, x24
	tbz	w8, #0, .LBB47_1288
	mov	x19, x1
	mov	x0, x21
	mov	x1, x20
	bl	ic_program.text.after_word
	cbz	x1, .LBB47_1271
	ldrb	w9, [x0]
	cmp	w9, #32
	b.eq	.LBB47_1267
.LBB47_1271:
	bl	ic_program.text.without_space
	mov	x8, x0
	mov	x2, x1
.LBB47_1272:
	sub	x0, x29, #48
	mov	x1, x8
	bl	ic_program.argument.BoundU64Argument.read
	movi	v0.2d, #0000000000000000
	ldurb	w8, [x29, #-48]
	mov	x0, x24
	cmp	w8, #1
	b.ne	.LBB47_1288
	ldp	x21, x20, [x29, #-24]
	ldurb	w22, [x29, #-40]
	ldur	x25, [x29, #-32]
	cbz	x20, .LBB47_1335
	ldrb	w8, [x21]
	cmp	w8, #10
	b.ne	.LBB47_1335
	add	x8, x21, #1
	sub	x9, x20, #1
.LBB47_1276:
	mov	w10, wzr
	mov	w23, wzr
	mov	x12, xzr
	mov	w21, #6
	mov	w11, #1
	mov	w20, #1
	str	wzr, [x29, #24]
	strh	wzr, [x29, #28]
.LBB47_1277:
	mov	x0, x24
	mov	x13, x25
	b	.LBB47_1202
.LBB47_1278:
	mov	w9, #10
	umaddl	x19, w19, w9, x8
	mov	w8, #2
	b	.LBB47_1282
.LBB47_1279:
	mov	w10, #10
	umaddl	x19, w19, w10, x8
	mov	w8, #2
	b	.LBB47_1301
.LBB47_1280:
	mov	w10, #1
	b	.LBB47_1344
.LBB47_1281:
	mov	w9, #10
	umaddl	x8, w19, w9, x8
	umaddl	x19, w8, w9, x10
	mov	w8, #3
.LBB47_1282:
	add	x0, x21, x8
	ldrb	w9, [x0]
	cmp	w9, #32
	b.eq	.LBB47_1284
	cmp	w9, #10
	b.ne	.LBB47_1286
.LBB47_1284:
	sub	x1, x20, x8
	cmp	w9, #32
	b.ne	.LBB47_1292
.LBB47_1285:
	add	x20, x0, #1
	sub	x21, x1, #1
	b	.LBB47_1293
.LBB47_1286:
	mov	x0, x21
	mov	x1, x20
	bl	ic_program.argument.any_number
	mov	w8, w0
	mov	x0, x24
	tbnz	w8, #0, .LBB47_1290
.LBB47_1287:
	movi	v0.2d, #0000000000000000
.LBB47_1288:
	stp	q0, q0, [x0, #16]
	stp	q0, q0, [x0, #48]
	str	q0, [x0]
.LBB47_1289:
	ldp	x20, x19, [sp, #192]
	ldr	x27, [sp, #128]
	ldp	x22, x21, [sp, #176]
	ldp	x24, x23, [sp, #160]
	ldp	x26, x25, [sp, #144]
	ldp	x29, x30, [sp, #112]
	add	sp, sp, #208
	ret
.LBB47_1290:
	mov	x19, x1
	mov	x0, x21
	mov	x1, x20
	bl	ic_program.text.after_word
	cbz	x1, .LBB47_1292
	ldrb	w9, [x0]
	cmp	w9, #32
	b.eq	.LBB47_1285
.LBB47_1292:
	bl	ic_program.text.without_space
	mov	x20, x0
	mov	x21, x1
.LBB47_1293:
	cmp	x21, #5
	b.lo	.LBB47_1377
	ldrb	w8, [x20]
	sub	w8, w8, #48
	cmp	w8, #9
	b.hi	.LBB47_1377
	ldrb	w9, [x20, #1]
	and	x8, x8, #0xff
	sub	w10, w9, #48
	cmp	w10, #9
	b.hi	.LBB47_1318
	ldrb	w9, [x20, #2]
	and	x10, x10, #0xff
	sub	w11, w9, #48
	cmp	w11, #9
	b.hi	.LBB47_1358
	ldrb	w9, [x20, #3]
	and	x11, x11, #0xff
	sub	w12, w9, #48
	cmp	w12, #10
	b.hs	.LBB47_1371
	ldrb	w9, [x20, #4]
	sub	w13, w9, #48
	cmp	w13, #10
	b.lo	.LBB47_1377
	mov	w13, #10
	umaddl	x8, w8, w13, x10
	and	x10, x12, #0xff
	umaddl	x8, w8, w13, x11
	umaddl	x8, w8, w13, x10
	mov	w10, #4
	b	.LBB47_1372
.LBB47_1300:
	mov	w11, #10
	umaddl	x8, w19, w11, x8
	umaddl	x19, w8, w11, x10
	mov	w8, #3
.LBB47_1301:
	add	x0, x21, x8
	ldrb	w9, [x0]
	cmp	w9, #32
	b.eq	.LBB47_1303
	cmp	w9, #10
	b.ne	.LBB47_1313
.LBB47_1303:
	sub	x1, x20, x8
	cmp	w9, #32
	b.ne	.LBB47_1316
.LBB47_1304:
	add	x20, x0, #1
	sub	x21, x1, #1
	cmp	x21, #5
	b.lo	.LBB47_1325
.LBB47_1305:
	ldrb	w8, [x20]
	sub	w9, w8, #48
	cmp	w9, #9
	b.hi	.LBB47_1325
	ldrb	w8, [x20, #1]
	and	x9, x9, #0xff
	sub	w10, w8, #48
	cmp	w10, #9
	b.hi	.LBB47_1311
	ldrb	w8, [x20, #2]
	and	x10, x10, #0xff
	sub	w11, w8, #48
	cmp	w11, #9
	b.hi	.LBB47_1312
	ldrb	w8, [x20, #3]
	and	x11, x11, #0xff
	sub	w12, w8, #48
	cmp	w12, #10
	b.hs	.LBB47_1319
	ldrb	w8, [x20, #4]
	sub	w13, w8, #48
	cmp	w13, #10
	b.lo	.LBB47_1325
	mov	w13, #10
	umaddl	x9, w9, w13, x10
	and	x10, x12, #0xff
	umaddl	x9, w9, w13, x11
	umaddl	x9, w9, w13, x10
	mov	w10, #4
	b	.LBB47_1320
.LBB47_1311:
	mov	w10, #1
	b	.LBB47_1320
.LBB47_1312:
	mov	w11, #10
	umaddl	x9, w9, w11, x10
	mov	w10, #2
	b	.LBB47_1320
.LBB47_1313:
	mov	x0, x21
	mov	x1, x20
	bl	ic_program.argument.any_number
	mov	w8, w0
	mov	x0, x24
	tbz	w8, #0, .LBB47_1200
	mov	x19, x1
	mov	x0, x21
	mov	x1, x20
	bl	ic_program.text.after_word
	cbz	x1, .LBB47_1316
	ldrb	w9, [x0]
	cmp	w9, #32
	b.eq	.LBB47_1304
.LBB47_1316:
	bl	ic_program.text.without_space
	mov	x20, x0
	mov	x21, x1
	cmp	x1, #5
	b.hs	.LBB47_1305
	b	.LBB47_1325
.LBB47_1317:
	mov	w11, #10
	umaddl	x8, w8, w11, x10
	mov	w10, #2
	b	.LBB47_1344
.LBB47_1318:
	mov	w10, #1
	b	.LBB47_1372
.LBB47_1319:
	mov	w12, #10
	umaddl	x9, w9, w12, x10
	mov	w10, #3
	umaddl	x9, w9, w12, x11
.LBB47_1320:
	cmp	w8, #32
	b.eq	.LBB47_1322
	cmp	w8, #10
	b.ne	.LBB47_1325
.LBB47_1322:
	lsl	x9, x9, #3
	add	x22, x20, x10
	sub	x21, x21, x10
	add	x20, x9, #8
	cmp	w8, #10
	b.ne	.LBB47_1329
.LBB47_1323:
	add	x8, x22, #1
	sub	x9, x21, #1
.LBB47_1324:
	mov	w21, #770
	mov	x0, x24
	strh	wzr, [sp, #20]
	b	.LBB47_1139
.LBB47_1325:
	mov	x0, x20
	mov	x1, x21
	bl	ic_program.argument.any_number
	mov	w8, w0
	mov	x0, x24
	tbz	w8, #0, .LBB47_1200
	mov	x23, x1
	mov	x0, x20
	mov	x1, x21
	bl	ic_program.text.after_word
	lsr	x8, x23, #32
	mov	x22, x0
	mov	x0, x24
	cbnz	x8, .LBB47_1200
	lsl	x8, x23, #3
	mov	x21, x1
	add	x20, x8, #8
	cbz	x1, .LBB47_1329
	ldrb	w8, [x22]
	cmp	w8, #10
	b.eq	.LBB47_1323
.LBB47_1329:
	mov	x0, x22
	mov	x1, x21
	bl	ic_program.text.other_line
	mov	w8, w0
	mov	x0, x24
	tbz	w8, #0, .LBB47_1200
	add	x8, x22, x1
	sub	x9, x21, x1
	b	.LBB47_1324
.LBB47_1331:
	mov	x0, x22
	mov	x1, x20
	bl	ic_program.text.other_line
	mov	w8, w0
	mov	x0, x24
	tbz	w8, #0, .LBB47_1287
	add	x8, x22, x1
	sub	x9, x20, x1
	b	.LBB47_1232
.LBB47_1333:
	mov	x0, x21
	mov	x1, x20
	bl	ic_program.text.other_line
	movi	v0.2d, #0000000000000000
	mov	w8, w0
	mov	x0, x24
	tbz	w8, #0, .LBB47_1288
	add	x8, x21, x1
	sub	x9, x20, x1
	b	.LBB47_1246
.LBB47_1335:
	mov	x0, x21
	mov	x1, x20
	bl	ic_program.text.other_line
	movi	v0.2d, #0000000000000000
	mov	w8, w0
	mov	x0, x24
	tbz	w8, #0, .LBB47_1288
	add	x8, x21, x1
	sub	x9, x20, x1
	b	.LBB47_1276
.LBB47_1337:
	bl	ic_program.text.without_space
	mov	x8, x0
	mov	x2, x1
.LBB47_1338:
	add	x0, sp, #16
	mov	x1, x8
	bl	ic_program.argument.BoundU64Argument.read
	movi	v0.2d, #0000000000000000
	ldrb	w8, [sp, #16]
	mov	x0, x25
	cmp	w8, #1
	b.ne	.LBB47_1288
	ldp	x24, x23, [sp, #40]
	ldrb	w22, [sp, #24]
	ldr	x26, [sp, #32]
	cbz	x23, .LBB47_1391
	ldrb	w8, [x24]
	cmp	w8, #10
	b.ne	.LBB47_1391
	add	x8, x24, #1
	sub	x9, x23, #1
.LBB47_1342:
	mov	w23, wzr
	mov	x12, xzr
	str	wzr, [x29, #24]
	mov	w10, #16
	strh	wzr, [x29, #28]
	mov	w11, #1
	mov	x0, x25
	mov	x13, x26
	b	.LBB47_1202
.LBB47_1343:
	mov	w12, #10
	umaddl	x8, w8, w12, x10
	mov	w10, #3
	umaddl	x8, w8, w12, x11
.LBB47_1344:
	cmp	w9, #32
	b.eq	.LBB47_1346
	cmp	w9, #10
	b.ne	.LBB47_1349
.LBB47_1346:
	lsl	x9, x8, #3
	add	x8, x21, x10
	sub	x1, x22, x10
	add	x22, x9, #8
.LBB47_1347:
	ldrb	w9, [x8]
	cmp	w9, #32
	b.ne	.LBB47_1352
	add	x8, x8, #1
	sub	x2, x1, #1
	b	.LBB47_1353
.LBB47_1349:
	mov	x0, x21
	mov	x1, x22
	bl	ic_program.argument.any_number
	mov	w8, w0
	mov	x0, x24
	mov	x2, x26
	tbz	w8, #0, .LBB47_221
	mov	x23, x1
	mov	x0, x21
	mov	x1, x22
	mov	x26, x2
	bl	ic_program.text.after_word
	lsr	x9, x23, #32
	mov	x2, x26
	mov	x8, x0
	mov	x0, x24
	cbnz	x9, .LBB47_221
	lsl	x9, x23, #3
	add	x22, x9, #8
	cbnz	x1, .LBB47_1347
.LBB47_1352:
	mov	x0, x8
	bl	ic_program.text.without_space
	mov	x8, x0
	mov	x2, x1
.LBB47_1353:
	sub	x0, x29, #48
	mov	x1, x8
	bl	ic_program.argument.OptionPlaceArgument.read
	ldurb	w8, [x29, #-48]
	mov	x0, x24
	mov	x2, x26
	cmp	w8, #1
	b.ne	.LBB47_221
	ldp	x23, x21, [x29, #-24]
	mov	x26, x2
	ldurb	w27, [x29, #-40]
	ldur	x8, [x29, #-32]
	str	x8, [sp]
	cbz	x21, .LBB47_1387
	ldrb	w8, [x23]
	cmp	w8, #10
	b.ne	.LBB47_1387
	add	x8, x23, #1
	sub	x9, x21, #1
.LBB47_1357:
	str	wzr, [sp, #8]
	mov	w20, #258
	b	.LBB47_1386
.LBB47_1358:
	mov	w11, #10
	umaddl	x8, w8, w11, x10
	mov	w10, #2
	b	.LBB47_1372
.LBB47_1359:
	mov	x23, x1
	mov	x0, x20
	mov	x1, x21
	bl	ic_program.text.after_word
	lsr	x8, x23, #32
	mov	x3, x26
	mov	x2, x27
	mov	x22, x0
	mov	x0, x25
	cbnz	x8, .LBB47_1143
	lsl	x8, x23, #3
	mov	x21, x1
	add	x20, x8, #8
	cbz	x1, .LBB47_1363
	ldrb	w8, [x22]
	mov	x0, x25
	mov	x2, x27
	mov	x3, x26
	cmp	w8, #10
	b.eq	.LBB47_1137
.LBB47_1362:
	mov	x26, x3
	mov	x27, x2
	mov	x25, x0
.LBB47_1363:
	mov	x0, x22
	mov	x1, x21
	bl	ic_program.text.other_line
	mov	w8, w0
	mov	x0, x25
	mov	x2, x27
	mov	x3, x26
	tbz	w8, #0, .LBB47_1143
	add	x8, x22, x1
	sub	x9, x21, x1
	b	.LBB47_1138
.LBB47_1365:
	mov	x23, x1
	mov	x0, x20
	mov	x1, x21
	bl	ic_program.text.after_word
	lsr	x8, x23, #32
	mov	x22, x0
	mov	x0, x24
	cbnz	x8, .LBB47_1200
	lsl	x8, x23, #3
	mov	x21, x1
	add	x20, x8, #8
	cbz	x1, .LBB47_1369
	ldrb	w8, [x22]
	mov	x0, x24
	cmp	w8, #10
	b.eq	.LBB47_1197
.LBB47_1368:
	mov	x24, x0
.LBB47_1369:
	mov	x0, x22
	mov	x1, x21
	bl	ic_program.text.other_line
	mov	w8, w0
	mov	x0, x24
	tbz	w8, #0, .LBB47_1200
	add	x8, x22, x1
	sub	x9, x21, x1
	b	.LBB47_1198
.LBB47_1371:
	mov	w12, #10
	umaddl	x8, w8, w12, x10
	mov	w10, #3
	umaddl	x8, w8, w12, x11
.LBB47_1372:
	cmp	w9, #32
	b.eq	.LBB47_1374
	cmp	w9, #10
	b.ne	.LBB47_1377
.LBB47_1374:
	lsl	x9, x8, #3
	add	x8, x20, x10
	sub	x1, x21, x10
	add	x22, x9, #8
.LBB47_1375:
	ldrb	w9, [x8]
	cmp	w9, #32
	b.ne	.LBB47_1380
	add	x8, x8, #1
	sub	x2, x1, #1
	b	.LBB47_1381
.LBB47_1377:
	mov	x0, x20
	mov	x1, x21
	bl	ic_program.argument.any_number
	mov	w8, w0
	mov	x0, x24
	tbz	w8, #0, .LBB47_1287
	mov	x22, x1
	mov	x0, x20
	mov	x1, x21
	bl	ic_program.text.after_word
	lsr	x9, x22, #32
	mov	x8, x0
	mov	x0, x24
	cbnz	x9, .LBB47_1287
	lsl	x9, x22, #3
	add	x22, x9, #8
	cbnz	x1, .LBB47_1375
.LBB47_1380:
	mov	x0, x8
	bl	ic_program.text.without_space
	mov	x8, x0
	mov	x2, x1
.LBB47_1381:
	sub	x0, x29, #48
	mov	x1, x8
	bl	ic_program.argument.OptionPlaceArgument.read
	ldurb	w8, [x29, #-48]
	mov	x0, x24
	cmp	w8, #1
	b.ne	.LBB47_1287
	ldp	x21, x20, [x29, #-24]
	ldurb	w27, [x29, #-40]
	ldur	x8, [x29, #-32]
	str	x8, [sp]
	cbz	x20, .LBB47_1389
	ldrb	w8, [x21]
	cmp	w8, #10
	b.ne	.LBB47_1389
	add	x8, x21, #1
	sub	x9, x20, #1
.LBB47_1385:
	mov	w20, #2
	str	wzr, [sp, #8]
.LBB47_1386:
	ldr	w11, [sp, #8]
	and	w12, wzr, #0xffff
	strh	wzr, [sp, #12]
	strh	w12, [x29, #28]
	ldr	x12, [sp]
	mov	w10, wzr
	mov	w23, wzr
	mov	w13, w27
	str	w11, [x29, #24]
	mov	w21, #4
	mov	w11, #1
	mov	x0, x24
	b	.LBB47_1202
.LBB47_1387:
	mov	x0, x23
	mov	x1, x21
	bl	ic_program.text.other_line
	mov	w8, w0
	mov	x0, x24
	mov	x2, x26
	tbz	w8, #0, .LBB47_221
	add	x8, x23, x1
	sub	x9, x21, x1
	b	.LBB47_1357
.LBB47_1389:
	mov	x0, x21
	mov	x1, x20
	bl	ic_program.text.other_line
	mov	w8, w0
	mov	x0, x24
	tbz	w8, #0, .LBB47_1287
	add	x8, x21, x1
	sub	x9, x20, x1
	b	.LBB47_1385
.LBB47_1391:
	mov	x0, x24
	mov	x1, x23
	bl	ic_program.text.other_line
	movi	v0.2d, #0000000000000000
	mov	w8, w0
	mov	x0, x25
	tbz	w8, #0, .LBB47_1288
	add	x8, x24, x1
	sub	x9, x23, x1
	b	.LBB47_1342
.Lfunc_end47:
	.size	ic_program.line.call_at, .Lfunc_end47-ic_program.line.call_at
	.section	.rodata.unlikely.ic_program.line.call_at,"a",@progbits
	.p2align	1, 0x0
.LJTI47_0:
	.hword	(.LBB47_2-.LBB47_2)>>2
	.hword	(.LBB47_270-.LBB47_2)>>2
	.hword	(.LBB47_270-.LBB47_2)>>2
	.hword	(.LBB47_139-.LBB47_2)>>2
	.hword	(.LBB47_270-.LBB47_2)>>2
	.hword	(.LBB47_270-.LBB47_2)>>2
	.hword	(.LBB47_270-.LBB47_2)>>2
	.hword	(.LBB47_99-.LBB47_2)>>2
	.hword	(.LBB47_270-.LBB47_2)>>2
	.hword	(.LBB47_189-.LBB47_2)>>2
	.hword	(.LBB47_270-.LBB47_2)>>2
	.hword	(.LBB47_270-.LBB47_2)>>2
	.hword	(.LBB47_270-.LBB47_2)>>2
	.hword	(.LBB47_270-.LBB47_2)>>2
	.hword	(.LBB47_270-.LBB47_2)>>2
	.hword	(.LBB47_199-.LBB47_2)>>2
	.hword	(.LBB47_270-.LBB47_2)>>2
	.hword	(.LBB47_270-.LBB47_2)>>2
	.hword	(.LBB47_270-.LBB47_2)>>2
	.hword	(.LBB47_270-.LBB47_2)>>2
	.hword	(.LBB47_270-.LBB47_2)>>2
	.hword	(.LBB47_270-.LBB47_2)>>2
	.hword	(.LBB47_109-.LBB47_2)>>2
	.hword	(.LBB47_270-.LBB47_2)>>2
	.hword	(.LBB47_149-.LBB47_2)>>2
	.hword	(.LBB47_270-.LBB47_2)>>2
	.hword	(.LBB47_159-.LBB47_2)>>2
	.hword	(.LBB47_218-.LBB47_2)>>2
	.hword	(.LBB47_208-.LBB47_2)>>2
	.hword	(.LBB47_61-.LBB47_2)>>2
	.hword	(.LBB47_270-.LBB47_2)>>2
	.hword	(.LBB47_270-.LBB47_2)>>2
	.hword	(.LBB47_119-.LBB47_2)>>2
	.hword	(.LBB47_270-.LBB47_2)>>2
	.hword	(.LBB47_79-.LBB47_2)>>2
	.hword	(.LBB47_32-.LBB47_2)>>2
	.hword	(.LBB47_169-.LBB47_2)>>2
	.hword	(.LBB47_270-.LBB47_2)>>2
	.hword	(.LBB47_270-.LBB47_2)>>2
	.hword	(.LBB47_270-.LBB47_2)>>2
	.hword	(.LBB47_179-.LBB47_2)>>2
	.hword	(.LBB47_270-.LBB47_2)>>2
	.hword	(.LBB47_240-.LBB47_2)>>2
	.hword	(.LBB47_230-.LBB47_2)>>2
	.hword	(.LBB47_12-.LBB47_2)>>2
	.hword	(.LBB47_270-.LBB47_2)>>2
	.hword	(.LBB47_89-.LBB47_2)>>2
	.hword	(.LBB47_270-.LBB47_2)>>2
	.hword	(.LBB47_270-.LBB47_2)>>2
	.hword	(.LBB47_270-.LBB47_2)>>2
	.hword	(.LBB47_250-.LBB47_2)>>2
	.hword	(.LBB47_270-.LBB47_2)>>2
	.hword	(.LBB47_22-.LBB47_2)>>2
	.hword	(.LBB47_270-.LBB47_2)>>2
	.hword	(.LBB47_69-.LBB47_2)>>2
	.hword	(.LBB47_270-.LBB47_2)>>2
	.hword	(.LBB47_51-.LBB47_2)>>2
	.hword	(.LBB47_270-.LBB47_2)>>2
	.hword	(.LBB47_129-.LBB47_2)>>2
	.hword	(.LBB47_270-.LBB47_2)>>2
	.hword	(.LBB47_270-.LBB47_2)>>2
	.hword	(.LBB47_270-.LBB47_2)>>2
	.hword	(.LBB47_42-.LBB47_2)>>2
	.hword	(.LBB47_260-.LBB47_2)>>2
	.p2align	1, 0x0
.LJTI47_1:
	.hword	(.LBB47_272-.LBB47_272)>>2
	.hword	(.LBB47_1141-.LBB47_272)>>2
	.hword	(.LBB47_1141-.LBB47_272)>>2
	.hword	(.LBB47_1141-.LBB47_272)>>2
	.hword	(.LBB47_1141-.LBB47_272)>>2
	.hword	(.LBB47_352-.LBB47_272)>>2
	.hword	(.LBB47_1141-.LBB47_272)>>2
	.hword	(.LBB47_342-.LBB47_272)>>2
	.hword	(.LBB47_1141-.LBB47_272)>>2
	.hword	(.LBB47_1141-.LBB47_272)>>2
	.hword	(.LBB47_1141-.LBB47_272)>>2
	.hword	(.LBB47_1141-.LBB47_272)>>2
	.hword	(.LBB47_1141-.LBB47_272)>>2
	.hword	(.LBB47_1141-.LBB47_272)>>2
	.hword	(.LBB47_333-.LBB47_272)>>2
	.hword	(.LBB47_1141-.LBB47_272)>>2
	.hword	(.LBB47_1141-.LBB47_272)>>2
	.hword	(.LBB47_1141-.LBB47_272)>>2
	.hword	(.LBB47_1141-.LBB47_272)>>2
	.hword	(.LBB47_1141-.LBB47_272)>>2
	.hword	(.LBB47_1141-.LBB47_272)>>2
	.hword	(.LBB47_1141-.LBB47_272)>>2
	.hword	(.LBB47_1141-.LBB47_272)>>2
	.hword	(.LBB47_1141-.LBB47_272)>>2
	.hword	(.LBB47_1141-.LBB47_272)>>2
	.hword	(.LBB47_1141-.LBB47_272)>>2
	.hword	(.LBB47_1141-.LBB47_272)>>2
	.hword	(.LBB47_1141-.LBB47_272)>>2
	.hword	(.LBB47_1141-.LBB47_272)>>2
	.hword	(.LBB47_1141-.LBB47_272)>>2
	.hword	(.LBB47_1141-.LBB47_272)>>2
	.hword	(.LBB47_1141-.LBB47_272)>>2
	.hword	(.LBB47_293-.LBB47_272)>>2
	.hword	(.LBB47_313-.LBB47_272)>>2
	.hword	(.LBB47_1141-.LBB47_272)>>2
	.hword	(.LBB47_362-.LBB47_272)>>2
	.hword	(.LBB47_1141-.LBB47_272)>>2
	.hword	(.LBB47_1141-.LBB47_272)>>2
	.hword	(.LBB47_1141-.LBB47_272)>>2
	.hword	(.LBB47_372-.LBB47_272)>>2
	.hword	(.LBB47_1141-.LBB47_272)>>2
	.hword	(.LBB47_392-.LBB47_272)>>2
	.hword	(.LBB47_382-.LBB47_272)>>2
	.hword	(.LBB47_284-.LBB47_272)>>2
	.hword	(.LBB47_1141-.LBB47_272)>>2
	.hword	(.LBB47_1141-.LBB47_272)>>2
	.hword	(.LBB47_1141-.LBB47_272)>>2
	.hword	(.LBB47_323-.LBB47_272)>>2
	.hword	(.LBB47_1141-.LBB47_272)>>2
	.hword	(.LBB47_1141-.LBB47_272)>>2
	.hword	(.LBB47_1141-.LBB47_272)>>2
	.hword	(.LBB47_1141-.LBB47_272)>>2
	.hword	(.LBB47_1141-.LBB47_272)>>2
	.hword	(.LBB47_1141-.LBB47_272)>>2
	.hword	(.LBB47_1141-.LBB47_272)>>2
	.hword	(.LBB47_303-.LBB47_272)>>2
	.section	.text.unlikely.ic_program.argument.KindArgument.read,"ax",@progbits
	.p2align	2
	.type	ic_program.argument.KindArgument.read,@function
ic_program.argument.KindArgument.read:
	sub	sp, sp, #80
	movi	v0.2d, #0000000000000000
	str	x19, [sp, #64]
	mov	x19, x0
	add	x0, sp, #16
	stp	x29, x30, [sp, #48]
	add	x29, sp, #48
	stp	q0, q0, [sp, #16]
	bl	ic_program.text.first_word
	ldr	x9, [sp, #24]
	cmp	x9, #3
	b.hs	.LBB48_2
.LBB48_1:
	movi	v0.2d, #0000000000000000
	stp	q0, q0, [x19]
	ldp	x29, x30, [sp, #48]
	ldr	x19, [sp, #64]
	add	sp, sp, #80
	ret
.LBB48_2:
	ldr	x8, [sp, #16]
	b.ne	.LBB48_8
	ldrb	w9, [x8]
	cmp	w9, #120
	b.ne	.LBB48_1
	ldrb	w9, [x8, #1]
	cmp	w9, #111
	b.ne	.LBB48_1
	ldrb	w8, [x8, #2]
	cmp	w8, #114
	b.ne	.LBB48_1
	mov	w8, #2
.LBB48_7:
	ldur	x9, [sp, #33]
	ldr	x11, [sp, #40]
	ldrb	w10, [sp, #32]
	strb	w8, [x19, #8]
	mov	w8, #1
	str	x9, [sp]
	lsl	x9, x10, #56
	stur	x11, [sp, #7]
	str	x8, [x19]
	ldr	x8, [sp]
	stur	x9, [x19, #9]
	stur	x8, [x19, #17]
	str	x11, [x19, #24]
	ldp	x29, x30, [sp, #48]
	ldr	x19, [sp, #64]
	add	sp, sp, #80
	ret
.LBB48_8:
	cmp	x9, #4
	b.hi	.LBB48_14
	ldrb	w9, [x8]
	cmp	w9, #116
	b.ne	.LBB48_1
	ldrb	w9, [x8, #1]
	cmp	w9, #114
	b.ne	.LBB48_1
	ldrb	w9, [x8, #2]
	cmp	w9, #101
	b.ne	.LBB48_1
	ldrb	w8, [x8, #3]
	cmp	w8, #101
	b.ne	.LBB48_1
	mov	w8, #3
	b	.LBB48_7
.LBB48_14:
	cmp	x9, #5
	b.eq	.LBB48_1
	cmp	x9, #6
	b.hi	.LBB48_1
	ldrb	w9, [x8]
	cmp	w9, #100
	b.eq	.LBB48_24
	cmp	w9, #115
	b.ne	.LBB48_1
	ldrb	w9, [x8, #1]
	cmp	w9, #105
	b.ne	.LBB48_1
	ldrb	w9, [x8, #2]
	cmp	w9, #110
	b.ne	.LBB48_1
	ldrb	w9, [x8, #3]
	cmp	w9, #103
	b.ne	.LBB48_1
	ldrb	w9, [x8, #4]
	cmp	w9, #108
	b.ne	.LBB48_1
	ldrb	w8, [x8, #5]
	cmp	w8, #121
	b.ne	.LBB48_1
	mov	w8, wzr
	b	.LBB48_7
.LBB48_24:
	ldrb	w9, [x8, #1]
	cmp	w9, #111
	b.ne	.LBB48_1
	ldrb	w9, [x8, #2]
	cmp	w9, #117
	b.ne	.LBB48_1
	ldrb	w9, [x8, #3]
	cmp	w9, #98
	b.ne	.LBB48_1
	ldrb	w9, [x8, #4]
	cmp	w9, #108
	b.ne	.LBB48_1
	ldrb	w8, [x8, #5]
	cmp	w8, #121
	b.ne	.LBB48_1
	mov	w8, #1
	b	.LBB48_7
.Lfunc_end48:
	.size	ic_program.argument.KindArgument.read, .Lfunc_end48-ic_program.argument.KindArgument.read
	.section	.text.unlikely.ic_program.argument.OptionPlaceArgument.read,"ax",@progbits
	.p2align	2
	.type	ic_program.argument.OptionPlaceArgument.read,@function
ic_program.argument.OptionPlaceArgument.read:
	sub	sp, sp, #64
	movi	v0.2d, #0000000000000000
	stp	x20, x19, [sp, #48]
	mov	x19, x0
	mov	x0, sp
	stp	x29, x30, [sp, #32]
	add	x29, sp, #32
	mov	x20, sp
	stp	q0, q0, [sp]
	bl	ic_program.text.first_word
	ldr	x8, [sp, #8]
	cbz	x8, .LBB49_15
	ldr	x9, [sp]
	cmp	x8, #4
	b.ne	.LBB49_7
	ldrb	w10, [x9]
	cmp	w10, #110
	b.ne	.LBB49_7
	ldrb	w10, [x9, #1]
	cmp	w10, #111
	b.ne	.LBB49_7
	ldrb	w10, [x9, #2]
	cmp	w10, #110
	b.ne	.LBB49_7
	ldrb	w10, [x9, #3]
	cmp	w10, #101
	b.ne	.LBB49_7
	mov	x8, xzr
	mov	x9, xzr
	b	.LBB49_17
.LBB49_7:
	mov	x11, xzr
	mov	x10, xzr
.LBB49_8:
	ldrb	w12, [x9, x10]
	sub	w12, w12, #48
	cmp	w12, #9
	b.hi	.LBB49_13
	mov	x13, #-7378697629483820647
	movk	x13, #6553, lsl #48
	cmp	x11, x13
	b.hi	.LBB49_15
	add	x11, x11, x11, lsl #2
	and	x12, x12, #0xff
	lsl	x11, x11, #1
	cmn	x12, x11
	b.hs	.LBB49_15
	add	x10, x10, #1
	add	x11, x11, x12
	cmp	x8, x10
	b.ne	.LBB49_8
	mov	x10, x8
.LBB49_13:
	sub	x9, x10, #1
	cmp	x9, #19
	ccmp	x10, x8, #0, ls
	b.ne	.LBB49_15
	cmp	x9, #20
	csel	x8, x11, xzr, lo
	lsr	x9, x8, #32
	cbz	x9, .LBB49_16
.LBB49_15:
	movi	v0.2d, #0000000000000000
	str	xzr, [x19, #32]
	stp	q0, q0, [x19]
	ldp	x20, x19, [sp, #48]
	ldp	x29, x30, [sp, #32]
	add	sp, sp, #64
	ret
.LBB49_16:
	lsl	x8, x8, #3
	mov	w9, #1
	add	x8, x8, #8
.LBB49_17:
	ldur	q0, [x20, #16]
	mov	w10, #1
	str	x8, [x19, #16]
	stp	x10, x9, [x19]
	stur	q0, [x19, #24]
	ldp	x20, x19, [sp, #48]
	ldp	x29, x30, [sp, #32]
	add	sp, sp, #64
	ret
.Lfunc_end49:
	.size	ic_program.argument.OptionPlaceArgument.read, .Lfunc_end49-ic_program.argument.OptionPlaceArgument.read
	.section	.rodata.cst8,"aM",@progbits,8
	.p2align	3, 0x0
.LCPI50_0:
	.byte	105
	.byte	110
	.byte	99
	.byte	108
	.byte	117
	.byte	100
	.byte	101
	.byte	100
.LCPI50_1:
	.byte	1
	.byte	2
	.byte	4
	.byte	8
	.byte	16
	.byte	32
	.byte	64
	.byte	128
.LCPI50_2:
	.byte	101
	.byte	120
	.zero	1
	.zero	1
	.zero	1
	.zero	1
	.zero	1
	.zero	1
	.section	.text.unlikely.ic_program.argument.BoundU64Argument.read,"ax",@progbits
	.p2align	2
	.type	ic_program.argument.BoundU64Argument.read,@function
ic_program.argument.BoundU64Argument.read:
	sub	sp, sp, #64
	movi	v0.2d, #0000000000000000
	stp	x20, x19, [sp, #48]
	mov	x19, x0
	mov	x0, sp
	stp	x29, x30, [sp, #32]
	add	x29, sp, #32
	mov	x20, sp
	stp	q0, q0, [sp]
	bl	ic_program.text.first_word
	ldr	x10, [sp, #8]
	subs	x8, x10, #9
	b.hs	.LBB50_2
.LBB50_1:
	movi	v0.2d, #0000000000000000
	str	xzr, [x19, #32]
	stp	q0, q0, [x19]
	ldp	x20, x19, [sp, #48]
	ldp	x29, x30, [sp, #32]
	add	sp, sp, #64
	ret
.LBB50_2:
	ldr	x9, [sp]
	movi	v1.2d, #0000000000000000
	adrp	x12, .LCPI50_0
	ldr	d2, [x12, :lo12:.LCPI50_0]
	adrp	x12, .LCPI50_1
	ldrb	w11, [x9, #8]
	ldr	d0, [x9], #9
	ldr	d4, [x12, :lo12:.LCPI50_1]
	cmp	w11, #58
	cmeq	v2.8b, v0.8b, v2.8b
	cset	w13, ne
	mov	v1.b[2], w13
	orn	v1.8b, v1.8b, v2.8b
	shl	v3.8b, v1.8b, #7
	cmlt	v3.8b, v3.8b, #0
	and	v4.8b, v3.8b, v4.8b
	umaxv	b3, v3.8b
	addv	b4, v4.8b
	fmov	w13, s3
	fmov	w12, s4
	tst	w12, #0xff
	csel	x12, x8, xzr, eq
	tbz	w13, #0, .LBB50_8
	adrp	x12, .LCPI50_2
	mvn	v2.8b, v2.8b
	dup	v1.8b, v1.b[2]
	ldr	d3, [x12, :lo12:.LCPI50_2]
	cmeq	v3.8b, v0.8b, v3.8b
	dup	v5.8b, v2.b[3]
	dup	v6.8b, v2.b[4]
	dup	v7.8b, v2.b[5]
	dup	v16.8b, v2.b[6]
	dup	v2.8b, v2.b[7]
	mvn	v4.8b, v3.8b
	dup	v4.8b, v4.b[1]
	orr	v4.8b, v4.8b, v5.8b
	orr	v5.8b, v6.8b, v7.8b
	orr	v1.8b, v4.8b, v1.8b
	orr	v4.8b, v5.8b, v16.8b
	orr	v1.8b, v1.8b, v4.8b
	orr	v1.8b, v1.8b, v2.8b
	orn	v1.8b, v1.8b, v3.8b
	umov	w12, v1.b[0]
	ands	w13, w12, #0x1
	csel	x12, xzr, x8, ne
	cbz	w13, .LBB50_17
	mov	x9, #28277
	fmov	x8, d0
	movk	x9, #28514, lsl #16
	movk	x9, #28277, lsl #32
	movk	x9, #25956, lsl #48
	cmp	x8, x9
	b.ne	.LBB50_1
	cmp	w11, #100
	b.ne	.LBB50_1
	cmp	x10, #9
	b.ne	.LBB50_1
	mov	x8, xzr
	mov	w9, #2
	b	.LBB50_27
.LBB50_8:
	cbz	x8, .LBB50_1
	mov	x13, #-7378697629483820647
	mov	x11, xzr
	mov	x10, xzr
	eor	x13, x13, #0x8000000000000003
.LBB50_10:
	ldrb	w14, [x9, x10]
	sub	w14, w14, #48
	cmp	w14, #9
	b.hi	.LBB50_15
	cmp	x11, x13
	b.hs	.LBB50_1
	add	x11, x11, x11, lsl #2
	and	x14, x14, #0xff
	lsl	x11, x11, #1
	cmn	x14, x11
	b.hs	.LBB50_1
	add	x10, x10, #1
	add	x11, x11, x14
	cmp	x12, x10
	b.ne	.LBB50_10
	mov	x10, x8
.LBB50_15:
	sub	x8, x10, #1
	cmp	x8, #19
	ccmp	x10, x12, #0, ls
	b.ne	.LBB50_1
	cmp	x8, #20
	mov	x9, xzr
	b	.LBB50_26
.LBB50_17:
	cbz	x8, .LBB50_1
	mov	x13, #-7378697629483820647
	mov	x11, xzr
	mov	x10, xzr
	eor	x13, x13, #0x8000000000000003
.LBB50_19:
	ldrb	w14, [x9, x10]
	sub	w14, w14, #48
	cmp	w14, #9
	b.hi	.LBB50_24
	cmp	x11, x13
	b.hs	.LBB50_1
	add	x11, x11, x11, lsl #2
	and	x14, x14, #0xff
	lsl	x11, x11, #1
	cmn	x14, x11
	b.hs	.LBB50_1
	add	x10, x10, #1
	add	x11, x11, x14
	cmp	x12, x10
	b.ne	.LBB50_19
	mov	x10, x8
.LBB50_24:
	sub	x8, x10, #1
	cmp	x8, #19
	ccmp	x10, x12, #0, ls
	b.ne	.LBB50_1
	cmp	x8, #20
	mov	w9, #1
.LBB50_26:
	csel	x8, x11, xzr, lo
.LBB50_27:
	ldur	q0, [x20, #16]
	mov	w10, #1
	str	x8, [x19, #16]
	stp	x10, x9, [x19]
	stur	q0, [x19, #24]
	ldp	x20, x19, [sp, #48]
	ldp	x29, x30, [sp, #32]
	add	sp, sp, #64
	ret
.Lfunc_end50:
	.size	ic_program.argument.BoundU64Argument.read, .Lfunc_end50-ic_program.argument.BoundU64Argument.read
	.section	.rodata.cst8,"aM",@progbits,8
	.p2align	3, 0x0
.LCPI51_0:
	.byte	111
	.byte	98
	.byte	106
	.byte	101
	.zero	1
	.zero	1
	.zero	1
	.zero	1
.LCPI51_1:
	.byte	117
	.byte	110
	.byte	108
	.byte	105
	.byte	110
	.byte	107
	.byte	101
	.byte	100
.LCPI51_2:
	.byte	108
	.byte	105
	.byte	110
	.byte	107
	.zero	1
	.zero	1
	.zero	1
	.zero	1
.LCPI51_3:
	.byte	110
	.byte	111
	.byte	110
	.byte	101
	.zero	1
	.zero	1
	.zero	1
	.zero	1
.LCPI51_4:
	.word	1
	.word	3
	.section	.text.unlikely.ic_program.session.Session.call.40a73cb1e87492e9,"ax",@progbits
	.p2align	2
	.type	ic_program.session.Session.call.40a73cb1e87492e9,@function
ic_program.session.Session.call.40a73cb1e87492e9:
	sub	sp, sp, #256
	mov	x8, x2
	stp	x24, x23, [sp, #208]
	adrp	x10, .LJTI51_0
	add	x10, x10, :lo12:.LJTI51_0
	stp	x22, x21, [sp, #224]
	ldrb	w9, [x2]
	ldp	x24, x23, [x2, #16]
	stp	x29, x30, [sp, #160]
	ldp	x22, x21, [x2, #32]
	add	x29, sp, #160
	stp	x28, x27, [sp, #176]
	ldr	x2, [x2, #8]
	stp	x26, x25, [sp, #192]
	ldr	x25, [x8, #48]
	and	w26, w24, #0xff
	stp	x20, x19, [sp, #240]
	adr	x11, .LBB51_1
	ldrh	w12, [x10, x9, lsl #1]
	add	x11, x11, x12, lsl #2
	and	w27, w22, #0xff
	mov	x20, x1
	mov	x19, x0
	br	x11
.LBB51_1:
	movi	v0.2d, #0000000000000000
	ubfx	w9, w24, #8, #8
	cmp	w26, #3
	stp	xzr, xzr, [sp, #64]
	stp	xzr, xzr, [sp, #48]
	str	xzr, [sp, #40]
	stp	q0, q0, [sp, #80]
	b.le	.LBB51_101
	cmp	w26, #5
	b.le	.LBB51_139
	cmp	w26, #6
	b.eq	.LBB51_179
	cmp	w26, #7
	b.ne	.LBB51_195
	ldr	x8, [x20, #80]
	stp	xzr, xzr, [x29, #-48]
	cmp	x8, x2
	b.ls	.LBB51_202
	ldr	x8, [x20, #72]
	add	x9, x8, x2, lsl #3
	ldr	w8, [x9, #4]
	cmn	w8, #1
	b.eq	.LBB51_202
	lsr	x11, x22, #3
	ldp	x10, x12, [x20]
	ldr	w9, [x9]
	and	w13, w23, #0xff
	sub	x11, x11, #1
	cmp	x11, x12
	b.hs	.LBB51_211
	lsl	x11, x11, #4
	ldrb	w10, [x10, x11]
	cmp	w10, #1
	b.ne	.LBB51_211
	mov	w10, #24
	ldr	x12, [x20, #96]
	mov	w11, #48
	umull	x10, w9, w10
	ldr	x13, [x20, #48]
	sub	x0, x29, #48
	umaddl	x4, w9, w11, x13
	mov	w1, w23
	mov	x2, x22
	mov	x5, x20
	ldr	x9, [x12, x10]
	umaddl	x8, w8, w11, x9
	add	x3, x8, #8
	bl	ic_world.calls.insertion.InsertionCollectionCall.run.345c281869c73935
	ldurb	w8, [x29, #-48]
	cbnz	w8, .LBB51_182
	ldur	x22, [x29, #-40]
	mov	w1, wzr
	mov	x2, xzr
	mov	x21, xzr
	mov	w9, #8
	b	.LBB51_214
.LBB51_11:
	ldr	x8, [x20, #80]
	cmp	x8, x2
	b.ls	.LBB51_96
	ldr	x8, [x20, #72]
	add	x9, x8, x2, lsl #3
	ldr	w8, [x9, #4]
	cmn	w8, #1
	b.eq	.LBB51_96
	ldr	w9, [x9]
	mov	w10, #24
	ldr	x12, [x20, #96]
	umull	x11, w9, w10
	mov	w10, #48
	ldr	x11, [x12, x11]
	umaddl	x8, w8, w10, x11
	ldrb	w11, [x8, #8]
	cmp	w11, #3
	b.ne	.LBB51_163
	ldr	x11, [x20, #48]
	umaddl	x16, w9, w10, x11
	ldrb	w9, [x16]
	cmp	w9, #2
	b.ne	.LBB51_498
	ldrb	w9, [x16, #8]
	cmp	w9, #1
	b.ne	.LBB51_498
	ldr	x9, [x8, #16]
	cmp	w26, #2
	b.eq	.LBB51_248
	cmp	w26, #1
	b.ne	.LBB51_252
	cbz	x9, .LBB51_256
	ldr	x10, [x16, #16]
	ldr	x11, [x20]
	mov	x22, xzr
	mov	x8, xzr
	mov	x12, x9
.LBB51_20:
	lsr	x13, x12, #3
	mov	w14, #24
	add	x22, x22, #1
	madd	x14, x13, x14, x10
	add	x13, x11, x12, lsl #1
	ldur	x15, [x13, #-8]
	cmp	x15, x23
	ldp	x13, x14, [x14, #-24]
	csel	x8, x12, x8, hi
	csel	x12, x13, x14, hi
	cbnz	x12, .LBB51_20
	b	.LBB51_255
.LBB51_21:
	sub	x0, x29, #48
	mov	x1, x20
	mov	w3, #1
	stp	xzr, xzr, [x29, #-48]
	bl	ic_world.world.World.hand_out.27dc223f7d016e2e
	ldurb	w8, [x29, #-48]
	cbz	w8, .LBB51_41
.LBB51_22:
	ldurb	w1, [x29, #-47]
	b	.LBB51_164
.LBB51_23:
	ldr	x8, [x20, #80]
	cmp	x8, x2
	b.ls	.LBB51_96
	ldr	x8, [x20, #72]
	add	x9, x8, x2, lsl #3
	ldr	w8, [x9, #4]
	cmn	w8, #1
	b.eq	.LBB51_96
	ldr	w9, [x9]
	mov	w10, #24
	mov	w11, #48
	umull	x9, w9, w10
	ldr	x10, [x20, #96]
	ldr	x9, [x10, x9]
	umaddl	x8, w8, w11, x9
	ldrb	w9, [x8, #8]
	cmp	w9, #1
	b.gt	.LBB51_173
	cbz	w9, .LBB51_174
.LBB51_27:
	add	x8, x8, #32
	b	.LBB51_175
.LBB51_28:
	ldrb	w8, [x8, #1]
	ldr	x1, [x20, #40]
	cmp	w8, #1
	b.gt	.LBB51_98
	cbnz	w8, .LBB51_120
	mov	x8, xzr
	mov	x10, xzr
	sub	x9, x29, #8
	b	.LBB51_123
.LBB51_31:
	mov	x0, x20
	mov	x1, x2
	mov	x2, x24
	mov	w3, wzr
	bl	ic_world.world.World.splice.27dc223f7d016e2e
	tbnz	w0, #0, .LBB51_164
	b	.LBB51_390
.LBB51_32:
	movi	v0.2d, #0000000000000000
	ldr	x8, [x20, #80]
	cmp	x8, x2
	stp	q0, q0, [x29, #-48]
	b.ls	.LBB51_96
	ldr	x8, [x20, #72]
	add	x9, x8, x2, lsl #3
	ldr	w8, [x9, #4]
	cmn	w8, #1
	b.eq	.LBB51_96
	ldr	w9, [x9]
	mov	w10, #24
	ldr	x11, [x20, #96]
	mov	w12, #48
	sub	x0, x29, #48
	umull	x10, w9, w10
	ldr	x10, [x11, x10]
	umaddl	x8, w8, w12, x10
	ldr	x10, [x20, #48]
	umaddl	x2, w9, w12, x10
	add	x1, x8, #8
	bl	ic_any_collection.any_collection.AnyCollection.listed.0c0338d7a6570a46
	ldurb	w8, [x29, #-48]
	cbnz	w8, .LBB51_150
	ldp	x22, x2, [x29, #-40]
	ldur	x21, [x29, #-24]
	b	.LBB51_488
.LBB51_36:
	lsr	x11, x2, #3
	ldr	x9, [x20, #8]
	sub	x8, x11, #1
	cmp	x8, x9
	b.hs	.LBB51_88
	ldr	x9, [x20]
	add	x9, x9, x8, lsl #4
	ldrb	w10, [x9]
	cmp	w10, #1
	b.ne	.LBB51_88
	ldr	x10, [x20, #56]
	cbz	x10, .LBB51_152
	add	x11, x11, x11, lsl #1
	ldr	x13, [x20, #48]
	lsl	x12, x2, #1
	lsl	x11, x11, #3
	add	x13, x13, #8
	b	.LBB51_114
.LBB51_40:
	sub	x0, x29, #48
	mov	x1, x20
	mov	w3, #2
	stp	xzr, xzr, [x29, #-48]
	bl	ic_world.world.World.hand_out.27dc223f7d016e2e
	ldurb	w8, [x29, #-48]
	cbnz	w8, .LBB51_22
.LBB51_41:
	ldur	x22, [x29, #-40]
.LBB51_42:
	mov	x25, x20
	lsr	x27, x22, #8
	mov	x21, xzr
	ldr	x26, [x25, #128]!
.LBB51_43:
	mov	w3, w22
	adrp	x1, .Lstatic.74
	add	x1, x1, :lo12:.Lstatic.74
	bfi	x3, x27, #8, #56
	adrp	x4, .Lstatic.38
	add	x4, x4, :lo12:.Lstatic.38
	add	x0, x20, #120
	mov	w2, #11
	mov	w5, #1
	bl	ic_program.answers.push_numbered.714b863a58920bda
	mov	w23, #4
	b	.LBB51_490
.LBB51_44:
	lsr	x8, x2, #3
	ldr	x9, [x20, #8]
	sub	x8, x8, #1
	cmp	x8, x9
	b.hs	.LBB51_88
	ldr	x9, [x20]
	add	x8, x9, x8, lsl #4
	ldrb	w9, [x8]
	cmp	w9, #1
	b.ne	.LBB51_88
	str	x24, [x8, #8]
	b	.LBB51_390
.LBB51_47:
	ldr	x8, [x20, #80]
	cmp	x8, x2
	b.ls	.LBB51_80
	ldr	x8, [x20, #72]
	mov	w1, #1
	add	x10, x8, x2, lsl #3
	ldr	w8, [x10, #4]
	cmn	w8, #1
	b.eq	.LBB51_151
	ldr	w10, [x10]
	mov	w11, #24
	ldr	x12, [x20, #96]
	mov	w13, #48
	movi	v0.2d, #0000000000000000
	mov	w9, wzr
	umull	x11, w10, w11
	ldr	x11, [x12, x11]
	umaddl	x8, w8, w13, x11
	ldrb	w11, [x8, #8]
	stp	q0, q0, [x8, #16]
	str	x11, [x8, #8]
	ldr	x8, [x20, #48]
	umaddl	x8, w10, w13, x8
	strb	w1, [x8, #40]
	mov	w1, wzr
	b	.LBB51_81
.LBB51_50:
	ldr	x8, [x20, #32]
	lsr	x9, x8, #32
	cbnz	x9, .LBB51_100
	ldr	x24, [x20, #56]
	mov	x23, x2
	add	x21, x8, #1
	cbz	x24, .LBB51_55
	ldr	x22, [x20, #48]
.LBB51_53:
	mov	x0, x22
	mov	x1, x21
	bl	ic_any_collection.any_table.AnyTable.cover.f9617c8b158e2be4
	tst	w0, #0xff
	b.ne	.LBB51_150
	subs	x24, x24, #1
	add	x22, x22, #48
	b.ne	.LBB51_53
.LBB51_55:
	ldr	x10, [x20, #40]
	ldp	x8, x9, [x20, #16]
	cmp	x21, x10
	csel	x10, x21, x10, hi
	cmp	x8, x9
	str	x10, [x20, #40]
	b.ne	.LBB51_57
	ldr	x9, [x20, #8]
	sub	x10, x8, x9
	mov	x9, x8
	cmn	x10, #1
	b.ne	.LBB51_353
.LBB51_57:
	ldp	x11, x10, [x20]
	add	x12, x9, #1
	ldr	x8, [x20, #32]
	str	x12, [x20, #24]
	add	x9, x11, x8, lsl #4
	cmp	x8, x10
	b.ne	.LBB51_153
	mov	w10, #1
	stp	x10, x23, [x9]
	add	x10, x8, #1
	str	x10, [x20, #8]
	b	.LBB51_154
.LBB51_59:
	ldr	x8, [x20, #56]
	cmp	x8, x2
	b.ls	.LBB51_89
	lsr	x8, x24, #3
	ldr	x10, [x20, #8]
	sub	x9, x8, #1
	cmp	x9, x10
	b.hs	.LBB51_88
	ldr	x10, [x20]
	lsl	x9, x9, #4
	ldrb	w9, [x10, x9]
	cmp	w9, #1
	b.ne	.LBB51_88
	mov	w9, #48
	ldr	x10, [x20, #48]
	madd	x9, x2, x9, x10
	ldrb	w10, [x9]
	cmp	w10, #2
	b.eq	.LBB51_296
	ldr	x8, [x9, #8]
	cmp	w10, #1
	mov	x21, xzr
	mov	w22, wzr
	mov	x27, xzr
	mov	x25, x20
	add	x8, x8, x24
	ldur	x9, [x8, #-8]
	ldr	x26, [x25, #128]!
	mov	x23, x25
	ldr	x8, [x23, #8]!
	cmp	x9, #1
	sub	x9, x8, x26
	b.eq	.LBB51_227
.LBB51_64:
	cmp	x9, #6
	b.ls	.LBB51_347
.LBB51_65:
	ldur	x9, [x20, #120]
	adrp	x10, .Lstatic.72
	add	x10, x10, :lo12:.Lstatic.72
	add	x11, x9, x26
	sub	x10, x11, x10
	cmp	x10, #6
	add	x10, x26, #7
	b.hi	.LBB51_209
	adrp	x12, .LCPI51_2
	mov	w13, #25701
	ldr	d0, [x12, :lo12:.LCPI51_2]
	mov	w12, #10
	strh	w13, [x11, #4]
	strb	w12, [x11, #6]
	str	s0, [x11]
	b	.LBB51_247
.LBB51_67:
	ldr	x8, [x20, #56]
	stp	xzr, xzr, [sp, #80]
	cmp	x8, x2
	b.ls	.LBB51_89
	mov	w8, #48
	ldr	x9, [x20, #48]
	madd	x9, x2, x8, x9
	ldrb	w8, [x9]
	cbz	w8, .LBB51_156
	cmp	w8, #2
	b.ne	.LBB51_155
	ldrb	w8, [x9, #8]
	cmp	w8, #0
	mov	w8, #3
	csinc	w8, w8, wzr, ne
	b	.LBB51_156
.LBB51_71:
	mov	x0, x20
	mov	x1, x2
	mov	x2, x24
	mov	w3, #1
	bl	ic_world.world.World.splice.27dc223f7d016e2e
	tbnz	w0, #0, .LBB51_164
	b	.LBB51_390
.LBB51_72:
	ldr	x8, [x20, #80]
	cmp	x8, x2
	b.ls	.LBB51_80
	ldr	x8, [x20, #72]
	lsl	x21, x2, #3
	add	x9, x8, x21
	ldr	w8, [x9, #4]
	cmn	w8, #1
	b.eq	.LBB51_80
	ldr	w9, [x9]
	mov	w10, #24
	ldr	x12, [x20, #96]
	mov	w11, #48
	ldr	x13, [x20, #48]
	mov	x22, x2
	umull	x10, w9, w10
	umaddl	x1, w9, w11, x13
	ldr	x9, [x12, x10]
	umaddl	x8, w8, w11, x9
	add	x0, x8, #8
	bl	ic_any_collection.any_collection.AnyCollection.unlink_all.87ed5b954c3afc77
	ldr	x8, [x20, #80]
	cmp	x8, x22
	b.ls	.LBB51_147
	ldr	x8, [x20, #72]
	add	x9, x8, x21
	ldr	w8, [x9, #4]
	cmn	w8, #1
	b.eq	.LBB51_147
	ldr	w10, [x9]
	mov	w9, #24
	ldr	x11, [x20, #96]
	umaddl	x11, w10, w9, x11
	ldr	x9, [x11, #8]
	cbz	x9, .LBB51_498
	sub	x13, x9, #1
	mov	w9, #48
	ldr	x12, [x11]
	madd	x9, x13, x9, x12
	str	x13, [x11, #8]
	cmp	x13, x8
	ldr	x11, [x9]
	b.ls	.LBB51_79
	ldr	q0, [x9, #32]
	mov	w13, #48
	umaddl	x12, w8, w13, x12
	ldrb	w13, [x9, #8]
	stur	q0, [x29, #-48]
	ldr	q1, [x9, #16]
	stp	x11, x13, [x12]
	stp	q1, q0, [x12, #16]
.LBB51_79:
	ldr	x12, [x20, #72]
	mov	w1, wzr
	mov	w9, wzr
	add	x11, x12, x11, lsl #3
	stp	w10, w8, [x11]
	mov	w10, #-1
	ldr	x8, [x20, #72]
	add	x8, x8, x21
	str	w10, [x8, #4]
	b	.LBB51_81
.LBB51_80:
	mov	w9, #11
	mov	w1, #1
.LBB51_81:
	mov	x2, xzr
	mov	x21, xzr
	mov	x22, xzr
	b	.LBB51_214
.LBB51_82:
	ldr	x8, [x20, #56]
	cmp	x8, x2
	b.ls	.LBB51_89
	lsr	x23, x24, #3
	ldr	x9, [x20, #8]
	sub	x8, x23, #1
	cmp	x8, x9
	b.hs	.LBB51_88
	ldr	x9, [x20]
	lsl	x8, x8, #4
	ldrb	w8, [x9, x8]
	cmp	w8, #1
	b.ne	.LBB51_88
	mov	w8, #48
	ldr	x9, [x20, #48]
	madd	x21, x2, x8, x9
	ldrb	w25, [x21]
	cmp	w25, #2
	b.eq	.LBB51_298
	ldr	x8, [x21, #8]
	cmp	w25, #1
	add	x9, x8, x24
	ldur	x9, [x9, #-8]
	cmp	x9, #1
	b.eq	.LBB51_336
	and	w26, w8, #0xff
	b	.LBB51_328
.LBB51_88:
	mov	w1, #2
	b	.LBB51_164
.LBB51_89:
	mov	w1, wzr
	b	.LBB51_164
.LBB51_90:
	movi	v0.2d, #0000000000000000
	ldr	x8, [x20, #80]
	cmp	x8, x2
	stp	q0, q0, [x29, #-48]
	b.ls	.LBB51_96
	ldr	x8, [x20, #72]
	add	x8, x8, x2, lsl #3
	ldr	w9, [x8, #4]
	cmn	w9, #1
	b.eq	.LBB51_96
	ldr	w8, [x8]
	mov	w10, #24
	ldr	x11, [x20, #96]
	mov	w12, #48
	umull	x10, w8, w10
	ldr	x10, [x11, x10]
	umaddl	x1, w9, w12, x10
	ldrb	w9, [x1, #8]!
	cbz	w9, .LBB51_163
	mov	w9, #48
	ldr	x10, [x20, #48]
	sub	x0, x29, #48
	umaddl	x2, w8, w9, x10
	bl	ic_any_collection.any_collection.AnyCollection.listed.0c0338d7a6570a46
	ldurb	w8, [x29, #-48]
	cbnz	w8, .LBB51_150
	ldp	x22, x2, [x29, #-40]
	ldur	x21, [x29, #-24]
	cmp	x2, #15
	b.ls	.LBB51_301
	lsr	x8, x2, #1
	mov	x0, x22
	mov	x23, x2
	sub	x9, x2, x8
	mov	x2, x8
	add	x1, x22, x9, lsl #3
	bl	core.slice.edits.mirror.27.ic_unsafe_ref.place.Place
	mov	x2, x23
	b	.LBB51_488
.LBB51_96:
	mov	w1, #1
	b	.LBB51_164
.LBB51_97:
	sub	x0, x29, #48
	mov	x1, x20
	mov	w3, wzr
	stp	xzr, xzr, [x29, #-48]
	bl	ic_world.world.World.hand_out.27dc223f7d016e2e
	ldurb	w8, [x29, #-48]
	cbnz	w8, .LBB51_22
	b	.LBB51_41
.LBB51_98:
	cmp	w8, #2
	b.ne	.LBB51_121
	mov	x8, xzr
	sub	x9, x29, #8
	mov	w10, #1
	b	.LBB51_123
.LBB51_100:
	mov	w1, #12
	b	.LBB51_164
.LBB51_101:
	cmp	w26, #1
	b.gt	.LBB51_129
	cbnz	w26, .LBB51_183
	ldr	x8, [x20, #80]
	cmp	x8, x2
	b.ls	.LBB51_208
	ldr	x8, [x20, #72]
	add	x10, x8, x2, lsl #3
	ldr	w8, [x10, #4]
	cmn	w8, #1
	b.eq	.LBB51_208
	lsr	x11, x23, #3
	ldr	x12, [x20, #8]
	sub	x11, x11, #1
	cmp	x11, x12
	b.hs	.LBB51_210
	ldr	x12, [x20]
	lsl	x11, x11, #4
	ldrb	w11, [x12, x11]
	cmp	w11, #1
	b.ne	.LBB51_210
	ldr	w10, [x10]
	mov	w11, #24
	ldr	x12, [x20, #96]
	mov	w13, #48
	cmp	w9, #1
	umull	x11, w10, w11
	ldr	x11, [x12, x11]
	umaddl	x26, w8, w13, x11
	ldr	x8, [x20, #48]
	umaddl	x1, w10, w13, x8
	ldrb	w21, [x26, #8]
	b.gt	.LBB51_378
	cbnz	w9, .LBB51_404
	cmp	w21, #1
	b.gt	.LBB51_434
	cbnz	w21, .LBB51_420
	mov	x8, xzr
	add	x24, x26, #24
	b	.LBB51_470
.LBB51_112:
	add	x14, x14, x12
	ldur	x14, [x14, #-16]
	cmp	x14, #1
	b.ne	.LBB51_119
.LBB51_113:
	subs	x10, x10, #1
	add	x13, x13, #48
	b.eq	.LBB51_152
.LBB51_114:
	ldurb	w14, [x13, #-8]
	cmp	w14, #2
	b.eq	.LBB51_117
	cmp	w14, #1
	ldr	x14, [x13]
	add	x14, x14, x2
	ldur	x14, [x14, #-8]
	cmp	x14, #1
	b.eq	.LBB51_113
	b	.LBB51_119
.LBB51_117:
	ldrb	w15, [x13]
	ldr	x14, [x13, #8]
	cbz	w15, .LBB51_112
	add	x14, x14, x11
	ldurb	w14, [x14, #-8]
	tbz	w14, #1, .LBB51_113
.LBB51_119:
	mov	w1, #11
	b	.LBB51_164
.LBB51_120:
	mov	x9, xzr
	sub	x8, x29, #8
	b	.LBB51_122
.LBB51_121:
	sub	x8, x29, #8
	mov	w9, #1
.LBB51_122:
	mov	w10, #2
.LBB51_123:
	sub	x0, x29, #48
	stp	x10, x9, [x29, #-48]
	stp	xzr, xzr, [x29, #-24]
	stur	x8, [x29, #-32]
	bl	ic_any_collection.any_table.AnyTable.cover.f9617c8b158e2be4
	ldurb	w24, [x29, #-48]
	tst	w0, #0xff
	b.eq	.LBB51_127
	cmp	w24, #2
	b.eq	.LBB51_148
	ldur	x8, [x29, #-24]
	cmp	w24, #1
	cbz	x8, .LBB51_150
	ldur	x0, [x29, #-40]
	b	.LBB51_149
.LBB51_127:
	ldp	x28, x8, [x20, #56]
	ldp	x22, x23, [x29, #-40]
	ldp	x25, x26, [x29, #-24]
	cmp	x8, x28
	mov	x8, x28
	b.eq	.LBB51_310
.LBB51_128:
	mov	w9, #48
	ldr	x10, [x20, #48]
	lsr	x27, x28, #8
	madd	x9, x8, x9, x10
	mov	x21, xzr
	add	x8, x8, #1
	stp	x24, x22, [x9]
	mov	w22, w28
	stp	x23, x25, [x9, #16]
	mov	x25, x20
	str	x26, [x9, #32]
	strb	wzr, [x9, #40]
	ldr	x26, [x25, #128]!
	stur	x8, [x25, #-72]
	b	.LBB51_221
.LBB51_129:
	cmp	w26, #2
	b.ne	.LBB51_190
	ldr	x8, [x20, #80]
	cmp	x8, x2
	b.ls	.LBB51_208
	ldr	x8, [x20, #72]
	add	x10, x8, x2, lsl #3
	ldr	w8, [x10, #4]
	cmn	w8, #1
	b.eq	.LBB51_208
	lsr	x11, x23, #3
	ldr	x12, [x20, #8]
	sub	x11, x11, #1
	cmp	x11, x12
	b.hs	.LBB51_210
	ldr	x12, [x20]
	lsl	x11, x11, #4
	ldrb	w11, [x12, x11]
	cmp	w11, #1
	b.ne	.LBB51_210
	and	w11, w9, #0xfe
	cmp	w11, #2
	b.ne	.LBB51_413
	ldr	w10, [x10]
	mov	w11, #24
	ldr	x12, [x20, #96]
	mov	w13, #48
	cmp	w9, #3
	umull	x11, w10, w11
	ldr	x11, [x12, x11]
	umaddl	x2, w8, w13, x11
	ldr	x8, [x20, #48]
	umaddl	x8, w10, w13, x8
	ldrb	w10, [x2, #8]
	b.ne	.LBB51_409
	cbnz	w10, .LBB51_413
	sub	x0, x29, #48
	add	x1, x2, #16
	add	x3, x2, #24
	mov	x2, x8
	mov	x4, x23
	stp	xzr, xzr, [x29, #-48]
	stur	xzr, [x29, #-32]
	bl	ic_chain.edits.LinkListForwardOnly.replace_next_at.927dec3b43ebc9b0
	ldurb	w8, [x29, #-48]
	cmp	w8, #1
	b.ne	.LBB51_467
	ldur	x22, [x29, #-40]
	ldurb	w0, [x29, #-32]
	b	.LBB51_465
.LBB51_139:
	cmp	w26, #4
	b.ne	.LBB51_203
	ldr	x8, [x20, #80]
	lsr	x24, x23, #8
	and	x9, x21, #0xff
	strb	w23, [sp, #80]
	cmp	x8, x2
	strb	w24, [sp, #81]
	stp	x22, x9, [sp, #88]
	str	x25, [sp, #104]
	b.ls	.LBB51_208
	ldr	x8, [x20, #72]
	add	x8, x8, x2, lsl #3
	ldr	w26, [x8, #4]
	cmn	w26, #1
	b.eq	.LBB51_208
	ldr	w27, [x8]
	add	x0, sp, #80
	mov	x1, x20
	bl	ic_world.calls.seek.SeekCollectionCall.is_placed.345c281869c73935
	cbz	w0, .LBB51_210
	mov	w8, #24
	ldr	x10, [x20, #96]
	mov	w9, #48
	umull	x8, w27, w8
	ldr	x11, [x20, #48]
	umaddl	x1, w27, w9, x11
	ldr	x8, [x10, x8]
	umaddl	x8, w26, w9, x8
	and	w9, w23, #0xff
	cmp	w9, #2
	b.eq	.LBB51_368
	cmp	w9, #1
	b.ne	.LBB51_371
	ldurb	w9, [x8, #8]
	cmp	w9, #2
	b.eq	.LBB51_413
	add	x0, x8, #8
	mov	x2, x22
	bl	ic_world.calls.seek.seek_on.87ed5b954c3afc77
	b	.LBB51_370
.LBB51_147:
	mov	w1, wzr
	mov	w9, wzr
	b	.LBB51_81
.LBB51_148:
	ldur	x0, [x29, #-32]
	ldur	x8, [x29, #-16]
	ldurb	w9, [x29, #-40]
	cbz	x8, .LBB51_150
.LBB51_149:
	bl	rattle_dealloc
.LBB51_150:
	mov	w1, #13
	b	.LBB51_164
.LBB51_151:
	mov	w9, #11
	b	.LBB51_81
.LBB51_152:
	ldr	x10, [x20, #32]
	stp	xzr, x10, [x9]
	ldr	x9, [x20, #24]
	sub	x9, x9, #1
	stp	x9, x8, [x20, #24]
	b	.LBB51_390
.LBB51_153:
	ldrb	w11, [x9]
	ldr	x10, [x9, #8]
	mov	w12, #1
	stp	x12, x23, [x9]
	cbnz	w11, .LBB51_498
.LBB51_154:
	lsl	x8, x8, #3
	str	x10, [x20, #32]
	add	x22, x8, #8
	b	.LBB51_176
.LBB51_155:
	mov	w8, #2
.LBB51_156:
	cmp	w26, #1
	b.gt	.LBB51_159
	cbz	w26, .LBB51_161
	tbnz	w8, #0, .LBB51_161
	b	.LBB51_163
.LBB51_159:
	cmp	w26, #2
	b.eq	.LBB51_161
	cmp	w8, #3
	b.ne	.LBB51_163
.LBB51_161:
	movi	v0.2d, #0000000000000000
	and	x8, x24, #0xff
	add	x0, sp, #80
	add	x1, x20, #72
	sub	x3, x29, #48
	stur	x8, [x29, #-48]
	stur	q0, [x29, #-40]
	stur	q0, [x29, #-24]
	bl	ic_world.collections_by_number.CollectionsByNumber.push.372c0babcfdcaee8
	ldrb	w8, [sp, #80]
	cbz	w8, .LBB51_177
	ldrb	w1, [sp, #81]
	b	.LBB51_164
.LBB51_163:
	mov	w1, #3
.LBB51_164:
	mov	x25, x20
	mov	x27, xzr
	mov	w22, wzr
	ldr	x26, [x25, #128]!
	mov	x21, xzr
.LBB51_165:
	ldr	x8, [x20, #136]
	ubfiz	x9, x1, #3, #8
	adrp	x10, .Lswitch.table.ic_program.session.Session.call.40a73cb1e87492e9
	add	x10, x10, :lo12:.Lswitch.table.ic_program.session.Session.call.40a73cb1e87492e9
	adrp	x11, .Lswitch.table.ic_program.session.Session.call.40a73cb1e87492e9..668
	add	x11, x11, :lo12:.Lswitch.table.ic_program.session.Session.call.40a73cb1e87492e9..668
	sub	x12, x8, x26
	ldr	x23, [x10, x9]
	ldr	x24, [x11, x9]
	cmp	x12, #31
	mov	x10, x26
	b.ls	.LBB51_170
.LBB51_166:
	ldur	x9, [x20, #120]
	stp	xzr, xzr, [x25]
	add	x11, x9, x10
	add	x10, x10, #32
	sub	x12, x11, x24
	cmp	x12, #31
	b.hi	.LBB51_168
	ldrb	w12, [x24]
	strb	w12, [x11]
	ldrb	w12, [x24, #1]
	strb	w12, [x11, #1]
	ldrb	w12, [x24, #2]
	strb	w12, [x11, #2]
	ldrb	w12, [x24, #3]
	strb	w12, [x11, #3]
	ldrb	w12, [x24, #4]
	strb	w12, [x11, #4]
	ldrb	w12, [x24, #5]
	strb	w12, [x11, #5]
	ldrb	w12, [x24, #6]
	strb	w12, [x11, #6]
	ldrb	w12, [x24, #7]
	strb	w12, [x11, #7]
	ldrb	w12, [x24, #8]
	strb	w12, [x11, #8]
	ldrb	w12, [x24, #9]
	strb	w12, [x11, #9]
	ldrb	w12, [x24, #10]
	strb	w12, [x11, #10]
	ldrb	w12, [x24, #11]
	strb	w12, [x11, #11]
	ldrb	w12, [x24, #12]
	strb	w12, [x11, #12]
	ldrb	w12, [x24, #13]
	strb	w12, [x11, #13]
	ldrb	w12, [x24, #14]
	strb	w12, [x11, #14]
	ldrb	w12, [x24, #15]
	strb	w12, [x11, #15]
	ldrb	w12, [x24, #16]
	strb	w12, [x11, #16]
	ldrb	w12, [x24, #17]
	strb	w12, [x11, #17]
	ldrb	w12, [x24, #18]
	strb	w12, [x11, #18]
	ldrb	w12, [x24, #19]
	strb	w12, [x11, #19]
	ldrb	w12, [x24, #20]
	strb	w12, [x11, #20]
	ldrb	w12, [x24, #21]
	strb	w12, [x11, #21]
	ldrb	w12, [x24, #22]
	strb	w12, [x11, #22]
	ldrb	w12, [x24, #23]
	strb	w12, [x11, #23]
	ldrb	w12, [x24, #24]
	strb	w12, [x11, #24]
	ldrb	w12, [x24, #25]
	strb	w12, [x11, #25]
	ldrb	w12, [x24, #26]
	strb	w12, [x11, #26]
	ldrb	w12, [x24, #27]
	strb	w12, [x11, #27]
	ldrb	w12, [x24, #28]
	strb	w12, [x11, #28]
	ldrb	w12, [x24, #29]
	strb	w12, [x11, #29]
	ldrb	w12, [x24, #30]
	strb	w12, [x11, #30]
	ldrb	w12, [x24, #31]
	strb	w12, [x11, #31]
	add	x11, x23, x26
	stp	x9, x10, [x20, #120]
	cmp	x10, x11
	str	x8, [x20, #136]
	b.hi	.LBB51_169
	b	.LBB51_244
.LBB51_168:
	ldp	q1, q0, [x24]
	stp	q1, q0, [x11]
	add	x11, x23, x26
	stp	x9, x10, [x20, #120]
	cmp	x10, x11
	str	x8, [x20, #136]
	b.ls	.LBB51_244
.LBB51_169:
	mov	w24, wzr
	movi	v1.2d, #0000000000000000
	str	x11, [x25]
	b	.LBB51_497
.LBB51_170:
	add	x0, x20, #120
	mov	w1, #32
	bl	std_alloc.vec.Vec.grow_amortized.3f7cc1ad5d64d7d7
	cbz	w0, .LBB51_172
	ldp	x10, x8, [x20, #128]
	b	.LBB51_166
.LBB51_172:
	mov	w23, #11
	b	.LBB51_491
.LBB51_173:
	cmp	w9, #2
	b.eq	.LBB51_27
.LBB51_174:
	add	x8, x8, #24
.LBB51_175:
	ldr	x22, [x8]
	cbz	x22, .LBB51_178
.LBB51_176:
	mov	x25, x20
	lsr	x27, x22, #8
	mov	x21, xzr
	ldr	x26, [x25, #128]!
	b	.LBB51_218
.LBB51_177:
	ldr	x22, [sp, #88]
	b	.LBB51_42
.LBB51_178:
	mov	x25, x20
	mov	x27, xzr
	mov	x21, xzr
	ldr	x26, [x25, #128]!
	b	.LBB51_215
.LBB51_179:
	ldr	x9, [x20, #80]
	and	x8, x23, #0xff
	stp	x22, x21, [sp, #64]
	str	x8, [sp, #56]
	cmp	x9, x2
	stp	q0, q0, [x29, #-48]
	b.ls	.LBB51_208
	ldr	x8, [x20, #72]
	add	x9, x8, x2, lsl #3
	ldr	w8, [x9, #4]
	cmn	w8, #1
	b.eq	.LBB51_208
	ldr	w9, [x9]
	mov	w10, #24
	ldr	x12, [x20, #96]
	mov	w11, #48
	ldr	x13, [x20, #48]
	sub	x0, x29, #48
	umull	x10, w9, w10
	add	x1, sp, #56
	mov	x4, x20
	umaddl	x3, w9, w11, x13
	ldr	x9, [x12, x10]
	umaddl	x8, w8, w11, x9
	add	x2, x8, #8
	bl	ic_world.calls.search.SearchKeyCollectionCall.run.345c281869c73935
	ldurb	w8, [x29, #-48]
	cbz	w8, .LBB51_338
.LBB51_182:
	ldurb	w1, [x29, #-47]
	mov	x22, xzr
	mov	x2, xzr
	mov	x21, xzr
	b	.LBB51_213
.LBB51_183:
	ldr	x8, [x20, #80]
	cmp	x8, x2
	b.ls	.LBB51_208
	ldr	x8, [x20, #72]
	add	x10, x8, x2, lsl #3
	ldr	w8, [x10, #4]
	cmn	w8, #1
	b.eq	.LBB51_208
	ldr	w10, [x10]
	mov	w11, #24
	ldr	x12, [x20, #96]
	mov	w13, #48
	cmp	w9, #1
	umull	x11, w10, w11
	ldr	x11, [x12, x11]
	umaddl	x22, w8, w13, x11
	ldr	x8, [x20, #48]
	umaddl	x1, w10, w13, x8
	ldrb	w21, [x22, #8]
	b.gt	.LBB51_321
	cbnz	w9, .LBB51_358
	cmp	w21, #1
	b.gt	.LBB51_381
	cbnz	w21, .LBB51_364
	mov	x8, xzr
	b	.LBB51_363
.LBB51_190:
	ldr	x8, [x20, #80]
	cmp	x8, x2
	b.ls	.LBB51_208
	ldr	x8, [x20, #72]
	add	x10, x8, x2, lsl #3
	ldr	w8, [x10, #4]
	cmn	w8, #1
	b.eq	.LBB51_208
	ldr	w10, [x10]
	mov	w11, #24
	ldr	x13, [x20, #96]
	mov	w12, #48
	ldr	x14, [x20, #48]
	umull	x11, w10, w11
	umaddl	x1, w10, w12, x14
	ldr	x10, [x13, x11]
	umaddl	x8, w8, w12, x10
	cbz	w9, .LBB51_339
	ldurb	w9, [x8, #8]
	cbz	w9, .LBB51_413
	add	x0, x8, #8
	bl	ic_any_collection.any_collection.AnyCollection.move_prev.87ed5b954c3afc77
	b	.LBB51_340
.LBB51_195:
	ldr	x8, [x20, #80]
	stp	x23, x22, [sp, #40]
	stur	xzr, [x29, #-16]
	cmp	x8, x2
	stp	q0, q0, [x29, #-48]
	b.ls	.LBB51_202
	ldr	x8, [x20, #72]
	add	x9, x8, x2, lsl #3
	ldr	w8, [x9, #4]
	cmn	w8, #1
	b.eq	.LBB51_202
	lsr	x10, x22, #3
	ldr	x11, [x20, #8]
	sub	x10, x10, #1
	cmp	x10, x11
	b.hs	.LBB51_211
	ldr	x11, [x20]
	lsl	x10, x10, #4
	ldrb	w10, [x11, x10]
	cmp	w10, #1
	b.ne	.LBB51_211
	ldr	w9, [x9]
	mov	w10, #24
	ldr	x12, [x20, #96]
	mov	w11, #48
	ldr	x13, [x20, #48]
	sub	x0, x29, #48
	umull	x10, w9, w10
	add	x1, sp, #40
	mov	x4, x20
	umaddl	x3, w9, w11, x13
	ldr	x9, [x12, x10]
	umaddl	x8, w8, w11, x9
	add	x2, x8, #8
	bl	ic_world.calls.insertion.EntryAtKeyCollectionCall.run.345c281869c73935
	ldurb	w8, [x29, #-48]
	cbnz	w8, .LBB51_182
	ldurb	w8, [x29, #-40]
	cmp	w8, #1
	b.ne	.LBB51_485
	ldp	x22, x2, [x29, #-24]
	mov	x21, xzr
	ldurb	w1, [x29, #-32]
	mov	w9, #10
	b	.LBB51_214
.LBB51_202:
	mov	w1, #1
	b	.LBB51_212
.LBB51_203:
	ldr	x8, [x20, #80]
	cmp	x8, x2
	b.ls	.LBB51_208
	ldr	x8, [x20, #72]
	add	x10, x8, x2, lsl #3
	ldr	w8, [x10, #4]
	cmn	w8, #1
	b.eq	.LBB51_208
	ldr	w10, [x10]
	mov	w11, #24
	ldr	x12, [x20, #96]
	mov	w13, #48
	umull	x11, w10, w11
	ldr	x11, [x12, x11]
	umaddl	x8, w8, w13, x11
	cbz	w9, .LBB51_342
	ldurb	w9, [x8, #8]
	cmp	w9, #2
	b.ne	.LBB51_413
	ldr	q0, [x8, #16]
	mov	w9, wzr
	mov	w1, wzr
	mov	x22, xzr
	mov	x2, xzr
	mov	x21, xzr
	ext	v0.16b, v0.16b, v0.16b, #8
	stp	xzr, xzr, [x8, #32]
	str	q0, [x8, #16]
	b	.LBB51_214
.LBB51_208:
	mov	x22, xzr
	mov	x2, xzr
	mov	x21, xzr
	mov	w1, #1
	b	.LBB51_213
.LBB51_209:
	mov	w12, #25963
	mov	w13, #26988
	movk	w12, #2660, lsl #16
	movk	w13, #27502, lsl #16
	stur	w12, [x11, #3]
	str	w13, [x11]
	b	.LBB51_247
.LBB51_210:
	mov	x22, xzr
	mov	x2, xzr
	mov	x21, xzr
	mov	w1, #2
	b	.LBB51_213
.LBB51_211:
	mov	w1, #2
.LBB51_212:
	mov	x22, xzr
	mov	x2, xzr
	mov	x21, xzr
.LBB51_213:
	mov	w9, #11
.LBB51_214:
	mov	x25, x20
	mov	w8, w9
	adrp	x9, .LJTI51_1
	add	x9, x9, :lo12:.LJTI51_1
	ldr	x26, [x25, #128]!
	adr	x10, .LBB51_43
	ldrh	w11, [x9, x8, lsl #1]
	add	x10, x10, x11, lsl #2
	lsr	x27, x22, #8
	mov	x23, xzr
	mov	x24, xzr
	br	x10
.LBB51_215:
	ldr	x8, [x20, #136]
	sub	x9, x8, x26
	cmp	x9, #4
	b.ls	.LBB51_312
.LBB51_216:
	ldur	x9, [x20, #120]
	adrp	x10, .Lstatic.71
	add	x10, x10, :lo12:.Lstatic.71
	add	x11, x9, x26
	sub	x10, x11, x10
	cmp	x10, #4
	add	x10, x26, #5
	b.hi	.LBB51_235
	adrp	x12, .LCPI51_3
	ldr	d0, [x12, :lo12:.LCPI51_3]
	mov	w12, #10
	strb	w12, [x11, #4]
	str	s0, [x11]
	b	.LBB51_395
.LBB51_218:
	mov	w8, w22
	bfi	x8, x27, #8, #56
	lsr	x9, x8, #3
	cmp	x9, #1000
	sub	x3, x9, #1
	b.hi	.LBB51_222
	and	w9, w3, #0xffff
	mov	w10, #52429
	mov	w23, #10
	mul	w10, w9, w10
	cmp	x8, #88
	lsr	w9, w10, #19
	msub	w11, w9, w23, w3
	orr	w24, w11, #0x30
	b.hs	.LBB51_233
	mov	w13, wzr
	mov	w14, #9
	mov	w28, w24
	mov	w24, wzr
	b	.LBB51_241
.LBB51_221:
	mov	w3, w22
	adrp	x1, .Lstatic.43
	add	x1, x1, :lo12:.Lstatic.43
	bfi	x3, x27, #8, #56
	adrp	x4, .Lstatic.38
	add	x4, x4, :lo12:.Lstatic.38
	add	x0, x20, #120
	mov	w2, #6
	mov	w5, #1
	bl	ic_program.answers.push_numbered.714b863a58920bda
	mov	w23, #3
	b	.LBB51_490
.LBB51_222:
	adrp	x1, .Lstatic.37
	add	x1, x1, :lo12:.Lstatic.37
	adrp	x4, .Lstatic.38
	add	x4, x4, :lo12:.Lstatic.38
	add	x0, x20, #120
	mov	w2, #7
	mov	w5, #1
	bl	ic_program.answers.push_numbered.714b863a58920bda
	mov	w23, #2
	b	.LBB51_490
.LBB51_223:
	tst	w22, #0xff
	b.eq	.LBB51_245
	lsr	x8, x2, #3
	adrp	x1, .Lstatic.37
	add	x1, x1, :lo12:.Lstatic.37
	adrp	x4, .Lstatic.79
	add	x4, x4, :lo12:.Lstatic.79
	add	x0, x20, #120
	sub	x3, x8, #1
	mov	w2, #7
	mov	w5, #7
	mov	w23, #7
	bl	ic_program.answers.push_numbered.714b863a58920bda
	and	w8, w0, #0xff
	tbnz	w8, #0, .LBB51_491
	adrp	x1, .Lstatic.80
	add	x1, x1, :lo12:.Lstatic.80
	adrp	x4, .Lstatic.38
	add	x4, x4, :lo12:.Lstatic.38
	add	x0, x20, #120
	mov	x2, xzr
	mov	x3, x21
	mov	w5, #1
	bl	ic_program.answers.push_numbered.714b863a58920bda
	mov	w23, #7
	b	.LBB51_490
.LBB51_226:
	mov	x23, x20
	ldr	x8, [x23, #136]!
	sub	x9, x8, x26
	tbnz	w1, #0, .LBB51_64
.LBB51_227:
	cmp	x9, #8
	b.ls	.LBB51_349
.LBB51_228:
	ldur	x9, [x20, #120]
	adrp	x12, .Lstatic.73
	add	x12, x12, :lo12:.Lstatic.73
	add	x11, x9, x26
	sub	x10, x11, x12
	cmp	x10, #8
	add	x10, x26, #9
	b.hi	.LBB51_246
	adrp	x12, .LCPI51_1
	ldr	d0, [x12, :lo12:.LCPI51_1]
	mov	w12, #10
	strb	w12, [x11, #8]
	str	d0, [x11]
	b	.LBB51_247
.LBB51_230:
	lsr	x8, x22, #3
	mov	x23, x2
	sub	x3, x8, #1
	tbz	w1, #0, .LBB51_236
	adrp	x1, .Lstatic.77
	add	x1, x1, :lo12:.Lstatic.77
	b	.LBB51_237
.LBB51_232:
	adrp	x1, .Lstatic.76
	add	x1, x1, :lo12:.Lstatic.76
	adrp	x4, .Lstatic.38
	add	x4, x4, :lo12:.Lstatic.38
	add	x0, x20, #120
	mov	w2, #9
	mov	x3, x22
	mov	w5, #1
	bl	ic_program.answers.push_numbered.714b863a58920bda
	mov	w23, #8
	b	.LBB51_490
.LBB51_233:
	ubfx	w10, w10, #19, #8
	mov	w11, #205
	cmp	x8, #808
	mul	w10, w10, w11
	lsr	w10, w10, #11
	msub	w9, w10, w23, w9
	orr	w23, w9, #0x30
	b.hs	.LBB51_240
	mov	w13, wzr
	mov	w14, #10
	mov	w28, w23
	mov	w23, w24
	mov	w24, #10
	b	.LBB51_241
.LBB51_235:
	mov	w13, #28526
	mov	w12, #10
	movk	w13, #25966, lsl #16
	strb	w12, [x11, #4]
	str	w13, [x11]
	b	.LBB51_395
.LBB51_236:
	adrp	x1, .Lstatic.78
	add	x1, x1, :lo12:.Lstatic.78
.LBB51_237:
	adrp	x4, .Lstatic.79
	add	x4, x4, :lo12:.Lstatic.79
	add	x0, x20, #120
	mov	w2, #16
	mov	w5, #7
	bl	ic_program.answers.push_numbered.714b863a58920bda
	and	w8, w0, #0xff
	tbz	w8, #0, .LBB51_239
	mov	w23, #10
	b	.LBB51_491
.LBB51_239:
	adrp	x1, .Lstatic.80
	add	x1, x1, :lo12:.Lstatic.80
	adrp	x4, .Lstatic.38
	add	x4, x4, :lo12:.Lstatic.38
	add	x0, x20, #120
	mov	x2, xzr
	mov	x3, x23
	mov	w5, #1
	bl	ic_program.answers.push_numbered.714b863a58920bda
	mov	w23, #10
	b	.LBB51_490
.LBB51_240:
	ubfx	w8, w3, #2, #14
	mov	w9, #5243
	mov	w13, #10
	mov	w14, #11
	mul	w8, w8, w9
	lsr	w8, w8, #17
	orr	w28, w8, #0x30
.LBB51_241:
	ldr	x8, [x20, #136]
	sub	x9, x8, x26
	cmp	x9, #10
	mov	x9, x26
	b.ls	.LBB51_308
.LBB51_242:
	ldr	x10, [x20, #120]
	adrp	x11, .LCPI51_0
	mov	w12, #29795
	ldr	d0, [x11, :lo12:.LCPI51_0]
	add	x11, x10, x9
	strh	w12, [x11, #4]
	mov	w12, #32
	str	s0, [x11]
	strb	w12, [x11, #6]
	strb	w28, [x11, #7]
	strb	w23, [x11, #8]
	strb	w24, [x11, #9]
	strb	w13, [x11, #10]
	add	x11, x9, #11
	add	x9, x14, x26
	cmp	x11, x9
	stp	x10, x11, [x20, #120]
	str	x8, [x20, #136]
	b.ls	.LBB51_244
	mov	w24, wzr
	movi	v1.2d, #0000000000000000
	str	x9, [x25]
	b	.LBB51_497
.LBB51_244:
	movi	v1.2d, #0000000000000000
	mov	w24, wzr
	b	.LBB51_497
.LBB51_245:
	adrp	x1, .Lstatic.75
	add	x1, x1, :lo12:.Lstatic.75
	adrp	x4, .Lstatic.38
	add	x4, x4, :lo12:.Lstatic.38
	add	x0, x20, #120
	mov	w2, #11
	mov	x3, x21
	mov	w5, #1
	bl	ic_program.answers.push_numbered.714b863a58920bda
	mov	w22, wzr
	mov	w23, #7
	b	.LBB51_490
.LBB51_246:
	ldr	x12, [x12]
	mov	w13, #10
	strb	w13, [x11, #8]
	str	x12, [x11]
.LBB51_247:
	mov	w24, wzr
	movi	v1.2d, #0000000000000000
	stur	x9, [x20, #120]
	str	x10, [x25]
	str	x8, [x23]
	b	.LBB51_497
.LBB51_248:
	cbz	x9, .LBB51_256
	ldr	x8, [x16, #16]
	mov	x10, x9
	sub	x8, x8, #24
.LBB51_250:
	mov	x24, x10
	lsr	x10, x10, #3
	mov	w11, #24
	mul	x10, x10, x11
	ldr	x10, [x8, x10]
	cbnz	x10, .LBB51_250
	mov	x22, xzr
	b	.LBB51_257
.LBB51_252:
	cbz	x9, .LBB51_256
	ldr	x10, [x16, #16]
	ldr	x11, [x20]
	mov	x22, xzr
	mov	x8, xzr
	mov	x12, x9
.LBB51_254:
	lsr	x13, x12, #3
	mov	w14, #24
	add	x22, x22, #1
	madd	x14, x13, x14, x10
	add	x13, x11, x12, lsl #1
	ldur	x15, [x13, #-8]
	cmp	x15, x23
	ldp	x13, x14, [x14, #-24]
	csel	x8, x8, x12, lo
	csel	x12, x14, x13, lo
	cbnz	x12, .LBB51_254
.LBB51_255:
	cmp	x14, #0
	ccmp	x13, #0, #4, ne
	csel	x24, xzr, x8, ne
	b	.LBB51_257
.LBB51_256:
	mov	x22, xzr
	mov	x24, xzr
.LBB51_257:
	cmp	w27, #2
	b.eq	.LBB51_262
	cmp	w27, #1
	b.ne	.LBB51_266
	mov	x23, xzr
	cbz	x9, .LBB51_315
	ldr	x8, [x16, #16]
	ldr	x10, [x20]
	mov	x11, xzr
.LBB51_261:
	lsr	x12, x9, #3
	mov	w13, #24
	add	x23, x23, #1
	madd	x13, x12, x13, x8
	add	x12, x10, x9, lsl #1
	ldur	x14, [x12, #-8]
	cmp	x14, x21
	ldp	x12, x13, [x13, #-24]
	csel	x11, x9, x11, lo
	csel	x9, x13, x12, lo
	cbnz	x9, .LBB51_261
	b	.LBB51_269
.LBB51_262:
	cbz	x9, .LBB51_314
	ldr	x8, [x16, #16]
	sub	x10, x8, #16
.LBB51_264:
	mov	x21, x9
	lsr	x9, x9, #3
	mov	w11, #24
	mul	x9, x9, x11
	ldr	x9, [x10, x9]
	cbnz	x9, .LBB51_264
	mov	x23, xzr
	b	.LBB51_270
.LBB51_266:
	mov	x23, xzr
	cbz	x9, .LBB51_315
	ldr	x8, [x16, #16]
	ldr	x10, [x20]
	mov	x11, xzr
.LBB51_268:
	lsr	x12, x9, #3
	mov	w13, #24
	add	x23, x23, #1
	madd	x13, x12, x13, x8
	add	x12, x10, x9, lsl #1
	ldur	x14, [x12, #-8]
	cmp	x14, x21
	ldp	x12, x13, [x13, #-24]
	csel	x11, x11, x9, hi
	csel	x9, x12, x13, hi
	cbnz	x9, .LBB51_268
.LBB51_269:
	cmp	x13, #0
	ccmp	x12, #0, #4, ne
	csel	x21, xzr, x11, ne
.LBB51_270:
	cbz	x24, .LBB51_315
	cbz	x21, .LBB51_315
	ldr	x9, [x20]
	add	x10, x9, x24, lsl #1
	add	x9, x9, x21, lsl #1
	ldur	x9, [x9, #-8]
	ldur	x10, [x10, #-8]
	cmp	x9, x10
	b.lo	.LBB51_315
	mov	x2, xzr
	sub	x9, x29, #8
	mov	w14, #1
	mov	x25, x24
	stp	xzr, xzr, [x29, #-40]
	stur	x9, [x29, #-48]
	str	x16, [sp, #8]
	b	.LBB51_275
.LBB51_274:
	mov	x24, x10
	tbnz	w28, #0, .LBB51_307
.LBB51_275:
	cmp	w14, #0
	csel	x10, xzr, x21, eq
	cmp	x10, x25
	b.ne	.LBB51_277
	mov	x25, xzr
	mov	w14, wzr
	mov	x21, xzr
	mov	w28, #1
	b	.LBB51_286
.LBB51_277:
	lsr	x10, x25, #2
	add	x10, x10, x25, lsr #3
	lsl	x11, x10, #3
	add	x10, x8, x11
	ldur	x10, [x10, #-16]
	cbz	x10, .LBB51_281
	sub	x8, x8, #24
.LBB51_279:
	mov	x25, x10
	lsr	x10, x10, #3
	mov	w11, #24
	mul	x10, x10, x11
	ldr	x10, [x8, x10]
	cbnz	x10, .LBB51_279
	mov	w28, wzr
	b	.LBB51_286
.LBB51_281:
	sub	x10, x8, #16
.LBB51_282:
	add	x11, x8, x11
	ldur	x11, [x11, #-8]
	ands	x12, x11, #0xfffffffffffffff8
	cset	w28, eq
	cbz	x12, .LBB51_285
	lsr	x11, x11, #3
	add	x11, x11, x11, lsl #1
	lsl	x11, x11, #3
	ldr	x13, [x10, x11]
	cmp	x13, x25
	mov	x25, x12
	b.eq	.LBB51_282
	mov	x25, x12
	b	.LBB51_286
.LBB51_285:
	mov	x25, xzr
.LBB51_286:
	cbz	x24, .LBB51_498
	ldur	x8, [x29, #-32]
	cmp	x8, x2
	b.eq	.LBB51_294
.LBB51_288:
	lsr	x8, x24, #2
	str	x24, [x9, x2, lsl #3]
	add	x2, x2, #1
	stur	x2, [x29, #-40]
	add	x10, x8, x24, lsr #3
	ldr	x8, [x16, #16]
	lsl	x12, x10, #3
	add	x10, x8, x12
	ldur	x13, [x10, #-16]
	cbz	x13, .LBB51_291
	sub	x11, x8, #24
.LBB51_290:
	lsr	x12, x13, #3
	mov	x10, x13
	mov	w13, #24
	mul	x12, x12, x13
	ldr	x13, [x11, x12]
	cbnz	x13, .LBB51_290
	b	.LBB51_274
.LBB51_291:
	sub	x11, x8, #16
.LBB51_292:
	add	x10, x8, x12
	ldur	x12, [x10, #-8]
	ands	x10, x12, #0xfffffffffffffff8
	b.eq	.LBB51_274
	lsr	x12, x12, #3
	add	x12, x12, x12, lsl #1
	lsl	x12, x12, #3
	ldr	x13, [x11, x12]
	cmp	x13, x24
	mov	x24, x10
	b.eq	.LBB51_292
	b	.LBB51_274
.LBB51_294:
	sub	x0, x29, #48
	str	w14, [sp, #16]
	bl	std_alloc.vec.Vec.grow_amortized.34b4ac368a9081d8
	cbz	w0, .LBB51_432
	ldp	x9, x2, [x29, #-48]
	ldr	x16, [sp, #8]
	ldr	w14, [sp, #16]
	b	.LBB51_288
.LBB51_296:
	ldrb	w10, [x9, #8]
	ldr	x9, [x9, #16]
	mov	x21, xzr
	mov	w22, wzr
	mov	x27, xzr
	cbz	w10, .LBB51_325
	mov	w10, #24
	mov	x25, x20
	madd	x9, x8, x10, x9
	ldr	x26, [x25, #128]!
	mov	x23, x25
	ldr	x8, [x23, #8]!
	ldurb	w10, [x9, #-8]
	sub	x9, x8, x26
	tbnz	w10, #1, .LBB51_64
	b	.LBB51_227
.LBB51_298:
	ldrb	w9, [x21, #8]
	ldr	x8, [x21, #16]
	cbz	w9, .LBB51_326
	add	x9, x23, x23, lsl #1
	lsl	x9, x9, #3
	add	x10, x8, x9
	ldurb	w10, [x10, #-8]
	tbz	w10, #1, .LBB51_357
	mov	w26, #1
	b	.LBB51_328
.LBB51_301:
	subs	x9, x2, #2
	b.lo	.LBB51_488
	lsr	x8, x9, #1
	subs	x10, x2, #1
	b.eq	.LBB51_304
	ldr	x11, [x22, x10, lsl #3]
	ldr	x12, [x22]
	str	x11, [x22]
	str	x12, [x22, x10, lsl #3]
.LBB51_304:
	cbz	x8, .LBB51_488
	cmp	x9, #1
	b.ls	.LBB51_373
	ldr	x10, [x22, x9, lsl #3]
	ldr	x11, [x22, #8]
	str	x10, [x22, #8]
	str	x11, [x22, x9, lsl #3]
	b	.LBB51_375
.LBB51_307:
	ldur	x8, [x29, #-48]
	ldur	x21, [x29, #-32]
	b	.LBB51_316
.LBB51_308:
	add	x0, x20, #120
	mov	w1, #11
	str	x14, [sp, #8]
	str	w13, [sp, #16]
	bl	std_alloc.vec.Vec.grow_amortized.3f7cc1ad5d64d7d7
	cbz	w0, .LBB51_343
	ldp	x9, x8, [x20, #128]
	ldr	w13, [sp, #16]
	ldr	x14, [sp, #8]
	b	.LBB51_242
.LBB51_310:
	add	x0, x20, #48
	bl	std_alloc.vec.Vec.grow_amortized.240d24d5d7197e22
	cbz	w0, .LBB51_344
	ldr	x8, [x20, #56]
	b	.LBB51_128
.LBB51_312:
	add	x0, x20, #120
	mov	w1, #5
	bl	std_alloc.vec.Vec.grow_amortized.3f7cc1ad5d64d7d7
	cbz	w0, .LBB51_352
	ldp	x26, x8, [x20, #128]
	b	.LBB51_216
.LBB51_314:
	mov	x23, xzr
.LBB51_315:
	mov	x21, xzr
	mov	x2, xzr
	sub	x8, x29, #8
.LBB51_316:
	cmp	w26, #2
	mov	x25, x20
	csel	x24, xzr, x22, eq
	cmp	w27, #2
	lsr	x27, x8, #8
	ldr	x26, [x25, #128]!
	csel	x23, xzr, x23, eq
	mov	w22, w8
.LBB51_317:
	mov	w1, w22
	adrp	x3, .Lstatic.79
	add	x3, x3, :lo12:.Lstatic.79
	bfi	x1, x27, #8, #56
	add	x0, x20, #120
	mov	w4, #7
	bl	ic_program.answers.push_items.714b863a58920bda
	and	w8, w0, #0xff
	tbnz	w8, #0, .LBB51_319
	adrp	x1, .Lstatic.80
	add	x1, x1, :lo12:.Lstatic.80
	adrp	x4, .Lstatic.82
	add	x4, x4, :lo12:.Lstatic.82
	add	x0, x20, #120
	mov	x2, xzr
	mov	x3, x24
	mov	w5, #1
	bl	ic_program.answers.push_numbered.714b863a58920bda
	and	w8, w0, #0xff
	tbz	w8, #0, .LBB51_320
.LBB51_319:
	mov	w23, #9
	b	.LBB51_491
.LBB51_320:
	adrp	x1, .Lstatic.80
	add	x1, x1, :lo12:.Lstatic.80
	adrp	x4, .Lstatic.38
	add	x4, x4, :lo12:.Lstatic.38
	add	x0, x20, #120
	mov	x2, xzr
	mov	x3, x23
	mov	w5, #1
	bl	ic_program.answers.push_numbered.714b863a58920bda
	mov	w23, #9
	b	.LBB51_490
.LBB51_321:
	cmp	w9, #2
	b.ne	.LBB51_361
	cmp	w21, #1
	b.gt	.LBB51_384
	cbnz	w21, .LBB51_364
.LBB51_324:
	mov	w1, #3
	mov	w9, #11
	mov	x22, x21
	mov	x2, x21
	b	.LBB51_214
.LBB51_325:
	add	x8, x9, x24, lsl #1
	mov	x25, x20
	ldur	x9, [x8, #-16]
	ldr	x26, [x25, #128]!
	mov	x23, x25
	ldr	x8, [x23, #8]!
	cmp	x9, #1
	sub	x9, x8, x26
	b.eq	.LBB51_227
	b	.LBB51_64
.LBB51_326:
	lsl	x9, x24, #1
	add	x10, x8, x9
	ldur	x10, [x10, #-16]
	cmp	x10, #1
	b.eq	.LBB51_389
	mov	w26, wzr
.LBB51_328:
	ldrb	w8, [x21, #40]
	cmp	w8, #1
	b.ne	.LBB51_337
	ldr	x8, [x20, #104]
	cmp	x8, x2
	b.ls	.LBB51_334
	mov	w8, #24
	ldr	x9, [x20, #96]
	madd	x8, x2, x8, x9
	ldr	x27, [x8, #8]
	cbz	x27, .LBB51_334
	ldr	x8, [x8]
	sub	x22, x8, #40
.LBB51_332:
	add	x22, x22, #48
	mov	x1, x21
	mov	x2, x24
	mov	x0, x22
	bl	ic_any_collection.any_collection.AnyCollection.contains.87ed5b954c3afc77
	tbnz	w0, #0, .LBB51_337
	sub	x27, x27, #1
	cbnz	x27, .LBB51_332
.LBB51_334:
	cmp	w25, #2
	b.eq	.LBB51_355
	ldr	x8, [x21, #8]
	cmp	w25, #1
.LBB51_336:
	add	x8, x8, x24
	mov	w9, #1
	stur	x9, [x8, #-8]
	b	.LBB51_390
.LBB51_337:
	mov	w1, #10
	b	.LBB51_164
.LBB51_338:
	ldp	x2, x21, [x29, #-32]
	mov	w1, wzr
	ldurb	w22, [x29, #-40]
	mov	w9, #7
	b	.LBB51_214
.LBB51_339:
	add	x0, x8, #8
	bl	ic_any_collection.any_collection.AnyCollection.move_next.87ed5b954c3afc77
.LBB51_340:
	mov	x8, x1
.LBB51_341:
	and	w9, w0, #0xff
	mov	w1, wzr
	mov	x2, xzr
	cmp	w9, #1
	mov	w9, #1
	mov	x21, xzr
	cinc	w9, w9, eq
	csel	x22, x8, xzr, eq
	b	.LBB51_214
.LBB51_342:
	mov	w9, #48
	ldr	x11, [x20, #48]
	add	x0, x8, #8
	umaddl	x1, w10, w9, x11
	bl	ic_any_collection.any_collection.AnyCollection.unlink_all.87ed5b954c3afc77
	b	.LBB51_372
.LBB51_343:
	mov	w23, #2
	b	.LBB51_491
.LBB51_344:
	cmp	w24, #2
	b.eq	.LBB51_386
	cmp	w24, #1
	cbz	x25, .LBB51_150
	mov	x0, x22
	b	.LBB51_149
.LBB51_347:
	add	x0, x20, #120
	mov	w1, #7
	bl	std_alloc.vec.Vec.grow_amortized.3f7cc1ad5d64d7d7
	cbz	w0, .LBB51_351
	ldr	x26, [x25]
	ldr	x8, [x23]
	b	.LBB51_65
.LBB51_349:
	add	x0, x20, #120
	mov	w1, #9
	bl	std_alloc.vec.Vec.grow_amortized.3f7cc1ad5d64d7d7
	cbz	w0, .LBB51_351
	ldr	x26, [x25]
	ldr	x8, [x23]
	b	.LBB51_228
.LBB51_351:
	mov	w23, #6
	b	.LBB51_491
.LBB51_352:
	mov	w23, #1
	b	.LBB51_491
.LBB51_353:
	add	x1, x10, #1
	mov	x0, x20
	bl	std_alloc.vec.Vec.grow_amortized.88ac1d64e9c54581
	cbz	w0, .LBB51_150
	ldr	x9, [x20, #24]
	b	.LBB51_57
.LBB51_355:
	ldr	x8, [x21, #16]
	cbz	w26, .LBB51_388
	add	x9, x23, x23, lsl #1
	lsl	x9, x9, #3
.LBB51_357:
	add	x8, x8, x9
	stur	xzr, [x8, #-8]
	b	.LBB51_390
.LBB51_358:
	sub	w8, w21, #1
	and	w8, w8, #0xff
	cmp	w8, #2
	b.hs	.LBB51_413
	cmp	w21, #2
	b.ne	.LBB51_364
	add	x0, x22, #16
	bl	ic_chain.list.LinkList.pop_back.7fb09df028d12790
	b	.LBB51_383
.LBB51_361:
	cbnz	w21, .LBB51_413
	ldr	x8, [x22, #24]
.LBB51_363:
	add	x0, x22, #16
	sub	x2, x29, #48
	stur	x8, [x29, #-48]
	bl	ic_chain.edits.LinkListForwardOnly.remove_next_at.927dec3b43ebc9b0
	ldur	x9, [x29, #-48]
	mov	x8, x1
	str	x9, [x22, #24]
	b	.LBB51_341
.LBB51_364:
	ldrb	w8, [x1], #8
	cmp	w8, #2
	b.ne	.LBB51_498
	add	x0, x22, #16
	cmp	w9, #2
	b.eq	.LBB51_417
	cmp	w9, #1
	b.ne	.LBB51_418
	bl	ic_chain.list.LinkList.pop_back.ec8c7c940301e4bd
	b	.LBB51_419
.LBB51_368:
	ldurb	w9, [x8, #8]
	cmp	w9, #2
	b.ne	.LBB51_413
	add	x0, x8, #8
	mov	w2, w24
	mov	x3, x22
	mov	w4, w21
	mov	x5, x25
	bl	ic_world.calls.seek.seek_with.87ed5b954c3afc77
.LBB51_370:
	tbnz	w0, #0, .LBB51_212
	b	.LBB51_372
.LBB51_371:
	add	x0, x8, #8
	bl	ic_any_collection.any_collection.AnyCollection.go_null.i64
.LBB51_372:
	mov	w9, wzr
	mov	w1, wzr
	mov	x22, xzr
	mov	x2, xzr
	mov	x21, xzr
	b	.LBB51_214
.LBB51_373:
	cbnz	x9, .LBB51_375
	ldp	x10, x9, [x22]
	stp	x9, x10, [x22]
.LBB51_375:
	cmp	x8, #1
	b.eq	.LBB51_488
	sub	x9, x2, #3
	cmp	x9, #2
	b.ls	.LBB51_399
	ldr	x10, [x22, x9, lsl #3]
	ldr	x11, [x22, #16]
	str	x10, [x22, #16]
	str	x11, [x22, x9, lsl #3]
	b	.LBB51_401
.LBB51_378:
	cmp	w9, #2
	b.ne	.LBB51_405
	cmp	w21, #1
	b.gt	.LBB51_436
	cbz	w21, .LBB51_324
	b	.LBB51_420
.LBB51_381:
	cmp	w21, #2
	b.ne	.LBB51_435
	add	x0, x22, #16
	bl	ic_chain.list.LinkList.pop_front.06e6478965f9faac
.LBB51_383:
	tst	w0, #0x1
	stp	xzr, xzr, [x22, #32]
	csel	x8, x1, xzr, ne
	b	.LBB51_341
.LBB51_384:
	cmp	w21, #2
	b.ne	.LBB51_414
	add	x0, x22, #16
	add	x2, x22, #32
	bl	ic_chain.edits.LinkListBidirectional.remove_at.d62ae654698fb858
	b	.LBB51_340
.LBB51_386:
	tst	x22, #0xff
	cbz	x26, .LBB51_150
	mov	x0, x23
	b	.LBB51_149
.LBB51_388:
	lsl	x9, x24, #1
.LBB51_389:
	add	x8, x8, x9
	mov	w9, #1
	stur	x9, [x8, #-16]
.LBB51_390:
	mov	x25, x20
	mov	x27, xzr
	mov	w22, wzr
	ldr	x26, [x25, #128]!
	mov	x21, xzr
.LBB51_391:
	ldr	x8, [x20, #136]
	sub	x9, x8, x26
	cmp	x9, #2
	b.ls	.LBB51_396
.LBB51_392:
	ldur	x9, [x20, #120]
	adrp	x10, .Lstatic.70
	add	x10, x10, :lo12:.Lstatic.70
	add	x11, x9, x26
	sub	x10, x11, x10
	cmp	x10, #2
	add	x10, x26, #3
	b.hi	.LBB51_394
	mov	w12, #27503
	mov	w13, #10
	strh	w12, [x11]
	strb	w13, [x11, #2]
	b	.LBB51_395
.LBB51_394:
	mov	w12, #10
	mov	w13, #27503
	strb	w12, [x11, #2]
	strh	w13, [x11]
.LBB51_395:
	mov	w24, wzr
	movi	v1.2d, #0000000000000000
	stp	x9, x10, [x20, #120]
	str	x8, [x20, #136]
	b	.LBB51_497
.LBB51_396:
	add	x0, x20, #120
	mov	w1, #3
	bl	std_alloc.vec.Vec.grow_amortized.3f7cc1ad5d64d7d7
	cbz	w0, .LBB51_398
	ldp	x26, x8, [x20, #128]
	b	.LBB51_392
.LBB51_398:
	mov	w23, wzr
	b	.LBB51_491
.LBB51_399:
	b.eq	.LBB51_401
	ldr	x10, [x22, x9, lsl #3]
	ldr	x11, [x22, #16]
	str	x11, [x22, x9, lsl #3]
	str	x10, [x22, #16]
.LBB51_401:
	cmp	x8, #2
	b.eq	.LBB51_488
	sub	x9, x2, #4
	cmp	x9, #3
	b.ls	.LBB51_427
	ldr	x10, [x22, x9, lsl #3]
	ldr	x11, [x22, #24]
	str	x10, [x22, #24]
	str	x11, [x22, x9, lsl #3]
	b	.LBB51_429
.LBB51_404:
	sub	w8, w21, #1
	and	w8, w8, #0xff
	cmp	w8, #1
	b.hi	.LBB51_413
.LBB51_405:
	cmp	w21, #1
	b.gt	.LBB51_424
	cbnz	w21, .LBB51_420
	cmp	w9, #2
	add	x24, x26, #24
	b.hs	.LBB51_469
	mov	x8, xzr
	b	.LBB51_470
.LBB51_409:
	cbz	w10, .LBB51_413
	cmp	w10, #3
	b.eq	.LBB51_460
	cmp	w10, #2
	b.ne	.LBB51_463
	ldr	x22, [x2, #32]!
	sub	x0, x2, #16
	mov	x1, x8
	mov	x3, x23
	bl	ic_chain.edits.LinkListBidirectional.replace_at.d62ae654698fb858
	cbnz	x22, .LBB51_465
	b	.LBB51_468
.LBB51_413:
	mov	x22, xzr
	mov	x2, xzr
	mov	x21, xzr
	mov	w1, #3
	b	.LBB51_213
.LBB51_414:
	ldrb	w8, [x1]
	cmp	w8, #2
	b.ne	.LBB51_498
	ldrb	w8, [x1, #8]
	cmp	w8, #1
	b.ne	.LBB51_498
	add	x0, x22, #16
	add	x1, x1, #16
	add	x2, x22, #24
	bl	ic_rbtree.edits.RBTreeBidirectional.remove_at.b002bc248359831b
	b	.LBB51_340
.LBB51_417:
	add	x2, x22, #32
	bl	ic_chain.edits.LinkListBidirectional.remove_at.10cc405e52586c83
	b	.LBB51_340
.LBB51_418:
	bl	ic_chain.list.LinkList.pop_front.c73f69cf4880bdd9
.LBB51_419:
	tst	w0, #0x1
	stur	xzr, [x22, #32]
	csel	x8, x1, xzr, ne
	b	.LBB51_341
.LBB51_420:
	ldrb	w8, [x1]
	cmp	w8, #2
	b.ne	.LBB51_498
	sub	w8, w9, #3
	cmn	w8, #3
	b.hi	.LBB51_441
	cmp	w9, #2
	b.hs	.LBB51_454
	mov	x8, xzr
	b	.LBB51_455
.LBB51_424:
	cmp	w21, #2
	b.ne	.LBB51_437
	sub	w8, w9, #3
	add	x0, x26, #16
	cmn	w8, #3
	b.hi	.LBB51_472
	ldp	x8, x9, [x26, #32]
	b	.LBB51_451
.LBB51_427:
	b.eq	.LBB51_429
	ldr	x10, [x22, x9, lsl #3]
	ldr	x11, [x22, #24]
	str	x11, [x22, x9, lsl #3]
	str	x10, [x22, #24]
.LBB51_429:
	cmp	x8, #3
	b.eq	.LBB51_488
	sub	x10, x2, #5
	mov	x9, x2
	cmp	x10, #4
	b.ls	.LBB51_443
	ldr	x11, [x22, x10, lsl #3]
	ldr	x12, [x22, #32]
	str	x11, [x22, #32]
	str	x12, [x22, x10, lsl #3]
	b	.LBB51_445
.LBB51_432:
	ldur	x8, [x29, #-32]
	cbz	x8, .LBB51_150
	ldur	x0, [x29, #-48]
	b	.LBB51_149
.LBB51_434:
	cmp	w21, #3
	b.ne	.LBB51_450
.LBB51_435:
	mov	x22, xzr
	mov	x2, xzr
	mov	w9, #11
	mov	w1, w21
	mov	x21, xzr
	b	.LBB51_214
.LBB51_436:
	cmp	w21, #3
	b.ne	.LBB51_453
.LBB51_437:
	ldrb	w8, [x1]
	cmp	w8, #2
	b.ne	.LBB51_498
	ldrb	w8, [x1, #8]
	cmp	w8, #1
	b.ne	.LBB51_498
	sub	w8, w9, #3
	cmn	w8, #3
	b.hi	.LBB51_448
	ldr	x24, [x26, #24]
	add	x0, x26, #16
	add	x1, x1, #16
	mov	x3, x23
	mov	x2, x24
	bl	ic_rbtree.edits.RBTreeCursorOps.insert_after_at.b002bc248359831b
	cbnz	w0, .LBB51_484
	b	.LBB51_485
.LBB51_441:
	cmp	w9, #2
	b.hs	.LBB51_457
	mov	x24, xzr
	b	.LBB51_458
.LBB51_443:
	b.eq	.LBB51_445
	ldr	x11, [x22, x10, lsl #3]
	ldr	x12, [x22, #32]
	str	x12, [x22, x10, lsl #3]
	str	x11, [x22, #32]
.LBB51_445:
	cmp	x8, #4
	mov	x2, x9
	b.eq	.LBB51_488
	sub	x10, x2, #6
	cmp	x10, #5
	b.ls	.LBB51_477
	ldr	x11, [x22, x10, lsl #3]
	ldr	x12, [x22, #40]
	str	x11, [x22, #40]
	str	x12, [x22, x10, lsl #3]
	b	.LBB51_479
.LBB51_448:
	cmp	w9, #2
	b.hs	.LBB51_482
	mov	x24, xzr
	b	.LBB51_483
.LBB51_450:
	mov	x8, xzr
	mov	x9, xzr
	add	x0, x26, #16
.LBB51_451:
	sub	x2, x29, #48
	mov	x3, x23
	stp	x8, x9, [x29, #-48]
	bl	ic_chain.edits.LinkListCursorOps.insert_after_at.0649bf66f9d3822c
	cbz	w0, .LBB51_485
	ldp	x8, x10, [x29, #-48]
	mov	w9, wzr
	mov	w1, wzr
	mov	x22, xzr
	mov	x2, xzr
	mov	x21, xzr
	stp	x8, x10, [x26, #32]
	b	.LBB51_214
.LBB51_453:
	add	x0, x26, #16
	b	.LBB51_474
.LBB51_454:
	ldr	x8, [x26, #32]
.LBB51_455:
	add	x0, x26, #16
	add	x1, x1, #8
	sub	x2, x29, #48
	mov	x3, x23
	stur	x8, [x29, #-48]
	bl	ic_chain.edits.LinkListCursorOps.insert_after_at.ff97facb44bf5e09
	cbz	w0, .LBB51_485
	ldur	x8, [x29, #-48]
	mov	w9, wzr
	mov	w1, wzr
	mov	x22, xzr
	mov	x2, xzr
	mov	x21, xzr
	str	x8, [x26, #32]
	b	.LBB51_214
.LBB51_457:
	ldr	x24, [x26, #32]
.LBB51_458:
	add	x0, x26, #16
	add	x1, x1, #8
	mov	x2, x24
	mov	x3, x23
	bl	ic_chain.edits.LinkListBidirectional.insert_before_at.10cc405e52586c83
	cbz	w0, .LBB51_485
	mov	w9, wzr
	mov	w1, wzr
	mov	x22, xzr
	mov	x2, xzr
	mov	x21, xzr
	str	x24, [x26, #32]
	b	.LBB51_214
.LBB51_460:
	ldrb	w9, [x8]
	cmp	w9, #2
	b.ne	.LBB51_498
	ldrb	w9, [x8, #8]
	cmp	w9, #1
	b.ne	.LBB51_498
	ldur	x22, [x2, #24]
	add	x0, x2, #16
	add	x1, x8, #16
	add	x2, x2, #24
	mov	x3, x23
	bl	ic_rbtree.edits.RBTreeBidirectional.replace_at.b002bc248359831b
	cbnz	x22, .LBB51_465
	b	.LBB51_468
.LBB51_463:
	ldrb	w9, [x8]
	cmp	w9, #2
	b.ne	.LBB51_498
	ldr	x22, [x2, #32]!
	sub	x0, x2, #16
	add	x1, x8, #8
	mov	x3, x23
	bl	ic_chain.edits.LinkListBidirectional.replace_at.10cc405e52586c83
	cbz	x22, .LBB51_468
.LBB51_465:
	tbz	w0, #0, .LBB51_485
	mov	w1, wzr
	mov	x2, xzr
	mov	x21, xzr
	mov	w9, #2
	b	.LBB51_214
.LBB51_467:
	mov	x22, xzr
.LBB51_468:
	mov	x2, xzr
	mov	x21, xzr
	mov	w1, #6
	b	.LBB51_213
.LBB51_469:
	ldr	x8, [x24]
.LBB51_470:
	add	x0, x26, #16
	sub	x2, x29, #48
	mov	x3, x23
	stur	x8, [x29, #-48]
	bl	ic_chain.edits.LinkListCursorOps.insert_after_at.2407d86d2fd71c01
	cbz	w0, .LBB51_485
	ldur	x8, [x29, #-48]
	mov	w9, wzr
	mov	w1, wzr
	mov	x22, xzr
	mov	x2, xzr
	mov	x21, xzr
	str	x8, [x24]
	b	.LBB51_214
.LBB51_472:
	cmp	w9, #2
	b.hs	.LBB51_474
	mov	x24, xzr
	mov	x25, xzr
	b	.LBB51_475
.LBB51_474:
	ldp	x24, x25, [x26, #32]
.LBB51_475:
	mov	x2, x24
	mov	x3, x25
	mov	x4, x23
	bl	ic_chain.edits.LinkListBidirectional.insert_before_at.d62ae654698fb858
	cbz	w0, .LBB51_485
	mov	w9, wzr
	mov	w1, wzr
	mov	x22, xzr
	mov	x2, xzr
	mov	x21, xzr
	stp	x24, x25, [x26, #32]
	b	.LBB51_214
.LBB51_477:
	b.eq	.LBB51_479
	ldr	x11, [x22, x10, lsl #3]
	ldr	x12, [x22, #40]
	str	x12, [x22, x10, lsl #3]
	str	x11, [x22, #40]
.LBB51_479:
	cmp	x8, #5
	mov	x2, x9
	b.eq	.LBB51_488
	sub	x8, x2, #7
	cmp	x8, #6
	b.ls	.LBB51_486
	ldr	x10, [x22, x8, lsl #3]
	ldr	x11, [x22, #48]
	mov	x2, x9
	str	x10, [x22, #48]
	str	x11, [x22, x8, lsl #3]
	b	.LBB51_488
.LBB51_482:
	ldr	x24, [x26, #24]
.LBB51_483:
	add	x0, x26, #16
	add	x1, x1, #16
	mov	x2, x24
	mov	x3, x23
	bl	ic_rbtree.edits.RBTreeBidirectional.insert_before_at.b002bc248359831b
	cbz	w0, .LBB51_485
.LBB51_484:
	mov	w9, wzr
	mov	w1, wzr
	mov	x22, xzr
	mov	x2, xzr
	mov	x21, xzr
	str	x24, [x26, #24]
	b	.LBB51_214
.LBB51_485:
	mov	x22, xzr
	mov	x2, xzr
	mov	x21, xzr
	mov	w1, #9
	b	.LBB51_213
.LBB51_486:
	mov	x2, x9
	b.eq	.LBB51_488
	ldr	x9, [x22, x8, lsl #3]
	ldr	x10, [x22, #48]
	str	x10, [x22, x8, lsl #3]
	str	x9, [x22, #48]
.LBB51_488:
	mov	x25, x20
	lsr	x27, x22, #8
	ldr	x26, [x25, #128]!
.LBB51_489:
	mov	w1, w22
	adrp	x3, .Lstatic.38
	add	x3, x3, :lo12:.Lstatic.38
	bfi	x1, x27, #8, #56
	add	x0, x20, #120
	mov	w4, #1
	bl	ic_program.answers.push_items.714b863a58920bda
	mov	w23, #5
.LBB51_490:
	and	w8, w0, #0xff
	cbz	w8, .LBB51_494
.LBB51_491:
	ldr	x8, [x25]
	adrp	x9, .LCPI51_4
	ldr	d1, [x9, :lo12:.LCPI51_4]
	cmp	x8, x26
	b.ls	.LBB51_493
	str	x26, [x25]
.LBB51_493:
	mov	w24, #1
	mov	w8, #1
	mov	w9, #3551
	lsl	w8, w8, w23
	tst	w8, w9
	b.ne	.LBB51_497
	b	.LBB51_495
.LBB51_494:
	movi	v1.2d, #0000000000000000
	mov	w24, wzr
	mov	w8, #1
	mov	w9, #3551
	lsl	w8, w8, w23
	tst	w8, w9
	b.ne	.LBB51_497
.LBB51_495:
	cmp	w23, #5
	cbz	x21, .LBB51_497
	str	q1, [sp, #16]
	bfi	x22, x27, #8, #56
	mov	x0, x22
	bl	rattle_dealloc
	ldr	q1, [sp, #16]
.LBB51_497:
	movi	d0, #0x0000ff000000ff
	strb	w24, [x19]
	str	xzr, [x19, #24]
	ldp	x22, x21, [sp, #224]
	ldp	x24, x23, [sp, #208]
	ldp	x26, x25, [sp, #192]
	and	v0.8b, v1.8b, v0.8b
	ldp	x28, x27, [sp, #176]
	ldp	x29, x30, [sp, #160]
	ushll	v0.2d, v0.2s, #0
	stur	q0, [x19, #8]
	ldp	x20, x19, [sp, #240]
	add	sp, sp, #256
	ret
.LBB51_498:
	brk	#0x1
.Lfunc_end51:
	.size	ic_program.session.Session.call.40a73cb1e87492e9, .Lfunc_end51-ic_program.session.Session.call.40a73cb1e87492e9
	.section	.rodata.unlikely.ic_program.session.Session.call.40a73cb1e87492e9,"a",@progbits
	.p2align	1, 0x0
.LJTI51_0:
	.hword	(.LBB51_1-.LBB51_1)>>2
	.hword	(.LBB51_50-.LBB51_1)>>2
	.hword	(.LBB51_36-.LBB51_1)>>2
	.hword	(.LBB51_44-.LBB51_1)>>2
	.hword	(.LBB51_28-.LBB51_1)>>2
	.hword	(.LBB51_67-.LBB51_1)>>2
	.hword	(.LBB51_72-.LBB51_1)>>2
	.hword	(.LBB51_47-.LBB51_1)>>2
	.hword	(.LBB51_97-.LBB51_1)>>2
	.hword	(.LBB51_32-.LBB51_1)>>2
	.hword	(.LBB51_90-.LBB51_1)>>2
	.hword	(.LBB51_23-.LBB51_1)>>2
	.hword	(.LBB51_31-.LBB51_1)>>2
	.hword	(.LBB51_71-.LBB51_1)>>2
	.hword	(.LBB51_21-.LBB51_1)>>2
	.hword	(.LBB51_40-.LBB51_1)>>2
	.hword	(.LBB51_11-.LBB51_1)>>2
	.hword	(.LBB51_59-.LBB51_1)>>2
	.hword	(.LBB51_82-.LBB51_1)>>2
	.p2align	1, 0x0
.LJTI51_1:
	.hword	(.LBB51_391-.LBB51_43)>>2
	.hword	(.LBB51_215-.LBB51_43)>>2
	.hword	(.LBB51_218-.LBB51_43)>>2
	.hword	(.LBB51_221-.LBB51_43)>>2
	.hword	(.LBB51_43-.LBB51_43)>>2
	.hword	(.LBB51_489-.LBB51_43)>>2
	.hword	(.LBB51_226-.LBB51_43)>>2
	.hword	(.LBB51_223-.LBB51_43)>>2
	.hword	(.LBB51_232-.LBB51_43)>>2
	.hword	(.LBB51_317-.LBB51_43)>>2
	.hword	(.LBB51_230-.LBB51_43)>>2
	.hword	(.LBB51_165-.LBB51_43)>>2
	.section	.text.ic_any_collection.any_collection.AnyCollection.unlink_all.87ed5b954c3afc77,"ax",@progbits
	.p2align	2
	.type	ic_any_collection.any_collection.AnyCollection.unlink_all.87ed5b954c3afc77,@function
ic_any_collection.any_collection.AnyCollection.unlink_all.87ed5b954c3afc77:
	movi	v0.2d, #0000000000000000
	ldrb	w9, [x0]
	ldr	x8, [x0, #8]
	cmp	w9, #1
	str	x9, [x0]
	stur	q0, [x0, #24]
	stur	q0, [x0, #8]
	b.gt	.LBB52_9
	cbnz	w9, .LBB52_19
	cbnz	x8, .LBB52_4
	b	.LBB52_39
.LBB52_3:
	ldr	x9, [x1, #8]
	mov	w10, #1
	add	x9, x9, x8
	ldur	x8, [x9, #-8]
	stur	x10, [x9, #-8]
	cbz	x8, .LBB52_39
.LBB52_4:
	ldrb	w9, [x1]
	cbz	w9, .LBB52_3
	cmp	w9, #1
	b.eq	.LBB52_3
	lsr	x9, x8, #2
	ldrb	w12, [x1, #8]
	lsl	x11, x8, #1
	ldr	x10, [x1, #16]
	add	x9, x9, x8, lsr #3
	cmp	w12, #0
	lsl	x9, x9, #3
	csel	x8, x11, x9, eq
	add	x8, x10, x8
	ldur	x8, [x8, #-16]
	cbz	w12, .LBB52_8
	add	x9, x10, x9
	stur	xzr, [x9, #-8]
	cbnz	x8, .LBB52_4
	b	.LBB52_39
.LBB52_8:
	add	x9, x10, x11
	mov	w10, #1
	stur	x10, [x9, #-16]
	cbnz	x8, .LBB52_4
	b	.LBB52_39
.LBB52_9:
	cmp	w9, #2
	b.ne	.LBB52_24
	cbz	x8, .LBB52_39
	mov	x9, xzr
	b	.LBB52_14
.LBB52_12:
	ldr	x8, [x1, #8]
	mov	w12, #1
	add	x11, x8, x9
	ldur	x8, [x11, #-8]
	stur	x12, [x11, #-8]
.LBB52_13:
	cmp	x8, x10
	eor	x8, x8, x10
	b.eq	.LBB52_39
.LBB52_14:
	ldrb	w11, [x1]
	mov	x10, x9
	mov	x9, x8
	cbz	w11, .LBB52_12
	cmp	w11, #1
	b.eq	.LBB52_12
	lsr	x8, x9, #2
	ldrb	w14, [x1, #8]
	lsl	x13, x9, #1
	ldr	x12, [x1, #16]
	add	x8, x8, x9, lsr #3
	cmp	w14, #0
	lsl	x11, x8, #3
	csel	x8, x13, x11, eq
	add	x8, x12, x8
	ldur	x8, [x8, #-16]
	cbz	w14, .LBB52_18
	add	x11, x12, x11
	stur	xzr, [x11, #-8]
	b	.LBB52_13
.LBB52_18:
	add	x11, x12, x13
	mov	w12, #1
	stur	x12, [x11, #-16]
	b	.LBB52_13
.LBB52_19:
	ldrb	w9, [x1]
	cmp	w9, #2
	b.ne	.LBB52_40
	cbnz	x8, .LBB52_22
	b	.LBB52_39
.LBB52_21:
	add	x9, x10, x9
	mov	w10, #1
	stur	x10, [x9, #-16]
	cbz	x8, .LBB52_39
.LBB52_22:
	lsr	x9, x8, #2
	ldrb	w12, [x1, #8]
	add	x10, x9, x8, lsr #3
	lsl	x9, x8, #1
	cmp	w12, #0
	lsl	x11, x10, #3
	ldr	x10, [x1, #16]
	csel	x8, x9, x11, eq
	add	x8, x10, x8
	ldur	x8, [x8, #-16]
	cbz	w12, .LBB52_21
	add	x9, x10, x11
	stur	xzr, [x9, #-8]
	cbnz	x8, .LBB52_22
	b	.LBB52_39
.LBB52_24:
	ldrb	w9, [x1]
	cmp	w9, #2
	b.ne	.LBB52_40
	ldrb	w9, [x1, #8]
	cmp	w9, #1
	b.ne	.LBB52_40
	cbz	x8, .LBB52_39
	ldr	x10, [x1, #16]
	mov	x12, x8
	sub	x11, x10, #24
.LBB52_28:
	mov	x9, x12
	lsr	x12, x12, #3
	mov	w13, #24
	mul	x12, x12, x13
	ldr	x12, [x11, x12]
	cbnz	x12, .LBB52_28
	sub	x10, x10, #16
.LBB52_30:
	lsr	x8, x8, #3
	mov	w11, #24
	mul	x8, x8, x11
	ldr	x8, [x10, x8]
	cbnz	x8, .LBB52_30
	b	.LBB52_32
.LBB52_31:
	add	x8, x10, x8
	stur	xzr, [x8, #-8]
	cbz	x9, .LBB52_39
.LBB52_32:
	lsr	x8, x9, #2
	ldr	x10, [x1, #16]
	add	x8, x8, x9, lsr #3
	lsl	x8, x8, #3
	add	x9, x10, x8
	ldp	x11, x12, [x9, #-16]
	and	x9, x12, #0xfffffffffffffff8
	cbz	x11, .LBB52_34
	lsr	x13, x11, #3
	mov	w14, #24
	madd	x10, x13, x14, x10
	ldur	x13, [x10, #-8]
	and	x13, x13, #0x7
	orr	x13, x13, x9
	stur	x13, [x10, #-8]
	ldr	x10, [x1, #16]
.LBB52_34:
	cbz	x9, .LBB52_36
	lsr	x12, x12, #3
	mov	w13, #24
	madd	x10, x12, x13, x10
	stur	x11, [x10, #-24]
	ldr	x10, [x1, #16]
.LBB52_36:
	cbz	x11, .LBB52_31
	sub	x12, x10, #24
.LBB52_38:
	mov	x9, x11
	lsr	x11, x11, #3
	mov	w13, #24
	mul	x11, x11, x13
	ldr	x11, [x12, x11]
	cbnz	x11, .LBB52_38
	b	.LBB52_31
.LBB52_39:
	ret
.LBB52_40:
	brk	#0x1
.Lfunc_end52:
	.size	ic_any_collection.any_collection.AnyCollection.unlink_all.87ed5b954c3afc77, .Lfunc_end52-ic_any_collection.any_collection.AnyCollection.unlink_all.87ed5b954c3afc77
	.section	.text.ic_world.calls.search.SearchKeyCollectionCall.run.345c281869c73935,"ax",@progbits
	.p2align	2
	.type	ic_world.calls.search.SearchKeyCollectionCall.run.345c281869c73935,@function
ic_world.calls.search.SearchKeyCollectionCall.run.345c281869c73935:
	ldrb	w8, [x2]
	cmp	w8, #3
	b.ne	.LBB53_5
	ldrb	w8, [x1]
	cmp	w8, #2
	b.eq	.LBB53_6
	cmp	w8, #1
	b.ne	.LBB53_8
	ldrb	w9, [x1, #8]
	cmp	w9, #2
	b.eq	.LBB53_17
	add	x8, x1, #16
	cmp	w9, #1
	ldrb	w10, [x3]
	cmp	w10, #2
	b.eq	.LBB53_18
	b	.LBB53_53
.LBB53_5:
	mov	w8, #769
	stp	xzr, xzr, [x0, #16]
	strh	w8, [x0]
	str	xzr, [x0, #8]
	ret
.LBB53_6:
	ldrb	w9, [x1, #8]
	cmp	w9, #2
	b.eq	.LBB53_24
	add	x8, x1, #16
	cmp	w9, #1
	ldrb	w10, [x3]
	cmp	w10, #2
	b.eq	.LBB53_25
	b	.LBB53_53
.LBB53_8:
	ldrb	w8, [x3]
	cmp	w8, #2
	b.ne	.LBB53_53
	ldrb	w8, [x3, #8]
	cmp	w8, #1
	b.ne	.LBB53_53
	ldr	x10, [x2, #8]
	cbz	x10, .LBB53_15
	ldr	x11, [x3, #16]
	ldr	x12, [x4]
	mov	x9, xzr
	ldr	x13, [x1, #8]
	mov	x8, xzr
	mov	x14, xzr
.LBB53_12:
	lsr	x15, x10, #3
	mov	w16, #24
	add	x9, x9, #1
	madd	x16, x15, x16, x11
	add	x15, x12, x10, lsl #1
	ldur	x17, [x15, #-8]
	cmp	x17, x13
	ldp	x15, x16, [x16, #-24]
	csel	x8, x10, x8, eq
	csel	x14, x14, x10, lo
	csel	x10, x16, x15, lo
	cbnz	x10, .LBB53_12
	cmp	x15, #0
	ccmp	x16, #0, #4, ne
	ccmp	x14, #0, #4, eq
	ccmp	x8, x14, #0, ne
	b.ne	.LBB53_16
	mov	w11, #1
	str	x8, [x2, #16]
	and	x10, x11, #0xff
	strh	wzr, [x0]
	stp	x10, x8, [x0, #8]
	str	x9, [x0, #24]
	ret
.LBB53_15:
	mov	x9, xzr
.LBB53_16:
	mov	w11, wzr
	str	xzr, [x2, #16]
	and	x10, x11, #0xff
	strh	wzr, [x0]
	stp	x10, xzr, [x0, #8]
	str	x9, [x0, #24]
	ret
.LBB53_17:
	mov	x8, xzr
	ldrb	w10, [x3]
	cmp	w10, #2
	b.ne	.LBB53_53
.LBB53_18:
	ldrb	w10, [x3, #8]
	cmp	w10, #1
	b.ne	.LBB53_53
	ldr	x11, [x2, #8]
	cmp	w9, #2
	b.eq	.LBB53_31
	cmp	w9, #1
	b.ne	.LBB53_38
	cbz	x11, .LBB53_49
	ldr	x12, [x3, #16]
	ldr	x13, [x4]
	mov	x10, xzr
	ldr	x14, [x8]
	mov	x8, xzr
.LBB53_23:
	lsr	x15, x11, #3
	mov	w16, #24
	add	x10, x10, #1
	madd	x16, x15, x16, x12
	add	x15, x13, x11, lsl #1
	ldur	x17, [x15, #-8]
	cmp	x17, x14
	ldp	x15, x16, [x16, #-24]
	csel	x8, x11, x8, hi
	csel	x11, x15, x16, hi
	cbnz	x11, .LBB53_23
	b	.LBB53_41
.LBB53_24:
	mov	x8, xzr
	ldrb	w10, [x3]
	cmp	w10, #2
	b.ne	.LBB53_53
.LBB53_25:
	ldrb	w10, [x3, #8]
	cmp	w10, #1
	b.ne	.LBB53_53
	ldr	x11, [x2, #8]
	cmp	w9, #2
	b.eq	.LBB53_34
	cmp	w9, #1
	b.ne	.LBB53_44
	cbz	x11, .LBB53_49
	ldr	x12, [x3, #16]
	ldr	x13, [x4]
	mov	x10, xzr
	ldr	x14, [x8]
	mov	x8, xzr
.LBB53_30:
	lsr	x15, x11, #3
	mov	w16, #24
	add	x10, x10, #1
	madd	x16, x15, x16, x12
	add	x15, x13, x11, lsl #1
	ldur	x17, [x15, #-8]
	cmp	x17, x14
	ldp	x15, x16, [x16, #-24]
	csel	x8, x11, x8, lo
	csel	x11, x16, x15, lo
	cbnz	x11, .LBB53_30
	b	.LBB53_47
.LBB53_31:
	cbz	x11, .LBB53_49
	ldr	x8, [x3, #16]
	sub	x10, x8, #24
.LBB53_33:
	mov	x8, x11
	lsr	x11, x11, #3
	mov	w12, #24
	mul	x11, x11, x12
	ldr	x11, [x10, x11]
	cbnz	x11, .LBB53_33
	b	.LBB53_37
.LBB53_34:
	cbz	x11, .LBB53_49
	ldr	x8, [x3, #16]
	sub	x10, x8, #16
.LBB53_36:
	mov	x8, x11
	lsr	x11, x11, #3
	mov	w12, #24
	mul	x11, x11, x12
	ldr	x11, [x10, x11]
	cbnz	x11, .LBB53_36
.LBB53_37:
	mov	x10, xzr
	mov	w11, #1
	b	.LBB53_43
.LBB53_38:
	cbz	x11, .LBB53_49
	ldr	x12, [x3, #16]
	ldr	x13, [x4]
	mov	x10, xzr
	ldr	x14, [x8]
	mov	x8, xzr
.LBB53_40:
	lsr	x15, x11, #3
	mov	w16, #24
	add	x10, x10, #1
	madd	x16, x15, x16, x12
	add	x15, x13, x11, lsl #1
	ldur	x17, [x15, #-8]
	cmp	x17, x14
	ldp	x15, x16, [x16, #-24]
	csel	x8, x8, x11, lo
	csel	x11, x16, x15, lo
	cbnz	x11, .LBB53_40
.LBB53_41:
	cmp	x15, #0
	ccmp	x16, #0, #4, ne
	b.ne	.LBB53_48
.LBB53_42:
	cmp	x8, #0
	cset	w11, ne
	cbz	x8, .LBB53_51
.LBB53_43:
	str	x8, [x2, #16]
	b	.LBB53_52
.LBB53_44:
	cbz	x11, .LBB53_49
	ldr	x12, [x3, #16]
	ldr	x13, [x4]
	mov	x10, xzr
	ldr	x14, [x8]
	mov	x8, xzr
.LBB53_46:
	lsr	x15, x11, #3
	mov	w16, #24
	add	x10, x10, #1
	madd	x16, x15, x16, x12
	add	x15, x13, x11, lsl #1
	ldur	x17, [x15, #-8]
	cmp	x17, x14
	ldp	x15, x16, [x16, #-24]
	csel	x8, x8, x11, hi
	csel	x11, x15, x16, hi
	cbnz	x11, .LBB53_46
.LBB53_47:
	cmp	x15, #0
	ccmp	x16, #0, #4, ne
	b.eq	.LBB53_42
.LBB53_48:
	mov	w11, wzr
	b	.LBB53_50
.LBB53_49:
	mov	x10, xzr
.LBB53_50:
	mov	x8, xzr
.LBB53_51:
	str	xzr, [x2, #16]
.LBB53_52:
	cmp	w9, #2
	csel	x9, xzr, x10, eq
	and	x10, x11, #0xff
	strh	wzr, [x0]
	stp	x10, x8, [x0, #8]
	str	x9, [x0, #24]
	ret
.LBB53_53:
	brk	#0x1
.Lfunc_end53:
	.size	ic_world.calls.search.SearchKeyCollectionCall.run.345c281869c73935, .Lfunc_end53-ic_world.calls.search.SearchKeyCollectionCall.run.345c281869c73935
	.section	.text.ic_world.calls.insertion.InsertionCollectionCall.run.345c281869c73935,"ax",@progbits
	.p2align	2
	.type	ic_world.calls.insertion.InsertionCollectionCall.run.345c281869c73935,@function
ic_world.calls.insertion.InsertionCollectionCall.run.345c281869c73935:
	sub	sp, sp, #80
	ldrb	w8, [x3]
	stp	x20, x19, [sp, #64]
	mov	x19, x0
	stp	x29, x30, [sp, #32]
	add	x29, sp, #32
	cmp	w8, #3
	str	x21, [sp, #48]
	b.ne	.LBB54_7
	lsr	x9, x2, #3
	ldp	x8, x10, [x5]
	mov	x20, x2
	and	w11, w1, #0xff
	sub	x9, x9, #1
	cmp	x9, x10
	cbz	w11, .LBB54_8
	b.hs	.LBB54_17
	add	x8, x8, x9, lsl #4
	ldrb	w9, [x8], #8
	cmp	w9, #1
	b.ne	.LBB54_17
	ldrb	w9, [x4]
	stp	x8, xzr, [sp]
	cmp	w9, #2
	b.ne	.LBB54_17
	ldrb	w8, [x4, #8]
	cmp	w8, #1
	b.ne	.LBB54_17
	add	x0, x3, #8
	add	x1, x4, #16
	mov	x3, sp
	mov	x2, x5
	mov	x4, x20
	bl	ic_any_collection.keyed.put_in_order.3645171cb10708cf
	ldr	x9, [sp, #8]
	cmp	w0, #0
	mov	w8, #9
	csel	w8, wzr, w8, ne
	b	.LBB54_16
.LBB54_7:
	mov	w8, #769
	str	xzr, [x19, #8]
	strh	w8, [x19]
	ldp	x20, x19, [sp, #64]
	ldr	x21, [sp, #48]
	ldp	x29, x30, [sp, #32]
	add	sp, sp, #80
	ret
.LBB54_8:
	b.hs	.LBB54_17
	add	x8, x8, x9, lsl #4
	ldrb	w9, [x8], #8
	cmp	w9, #1
	b.ne	.LBB54_17
	ldrb	w9, [x4]
	stp	x8, xzr, [sp, #16]
	cmp	w9, #2
	b.ne	.LBB54_17
	ldrb	w8, [x4, #8]
	cmp	w8, #1
	b.ne	.LBB54_17
	mov	x21, x3
	add	x0, x3, #8
	add	x1, x4, #16
	add	x3, sp, #16
	mov	x2, x5
	mov	x4, x20
	bl	ic_any_collection.keyed.put_in_order.3645171cb10708cf
	cbz	w0, .LBB54_14
	mov	w8, wzr
	str	x20, [x21, #16]
	b	.LBB54_15
.LBB54_14:
	mov	w8, #9
.LBB54_15:
	ldr	x9, [sp, #24]
	cmp	w0, #0
.LBB54_16:
	csel	x9, x9, xzr, ne
	eor	w10, w0, #0x1
	strb	w8, [x19, #1]
	strb	w10, [x19]
	str	x9, [x19, #8]
	ldp	x20, x19, [sp, #64]
	ldr	x21, [sp, #48]
	ldp	x29, x30, [sp, #32]
	add	sp, sp, #80
	ret
.LBB54_17:
	brk	#0x1
.Lfunc_end54:
	.size	ic_world.calls.insertion.InsertionCollectionCall.run.345c281869c73935, .Lfunc_end54-ic_world.calls.insertion.InsertionCollectionCall.run.345c281869c73935
	.section	.text.ic_any_collection.keyed.put_in_order.3645171cb10708cf,"ax",@progbits
	.p2align	2
	.type	ic_any_collection.keyed.put_in_order.3645171cb10708cf,@function
ic_any_collection.keyed.put_in_order.3645171cb10708cf:
	lsr	x8, x4, #2
	ldr	x10, [x1]
	add	x8, x8, x4, lsr #3
	lsl	x9, x8, #3
	add	x10, x10, x9
	ldur	x8, [x10, #-8]
	tbnz	w8, #1, .LBB55_8
	mov	w11, #3
	stur	x11, [x10, #-8]
	ldr	x16, [x0]
	cbz	x16, .LBB55_7
	ldp	x11, x10, [x3]
	add	x13, x10, #1
.LBB55_3:
	lsr	x10, x16, #2
	ldr	x14, [x1]
	ldr	x15, [x2]
	mov	x12, x16
	add	x10, x10, x16, lsr #3
	add	x15, x15, x16, lsl #1
	lsl	x10, x10, #3
	add	x14, x14, x10
	ldp	x17, x18, [x14, #-24]
	str	x13, [x3, #8]
	ldur	x14, [x15, #-8]
	ldr	x15, [x11]
	add	x13, x13, #1
	cmp	x14, x15
	csel	x16, x17, x18, hi
	cbnz	x16, .LBB55_3
	cmp	x17, #0
	ccmp	x18, #0, #4, ne
	b.ne	.LBB55_7
	ldr	x11, [x1]
	cmp	x14, x15
	add	x11, x11, x9
	stur	xzr, [x11, #-24]
	ldr	x11, [x1]
	add	x11, x11, x9
	stur	xzr, [x11, #-16]
	ldr	x11, [x1]
	add	x9, x11, x9
	orr	x11, x12, #0x2
	stur	x11, [x9, #-8]
	ldr	x9, [x1]
	add	x9, x9, x10
	b.ls	.LBB55_9
	stur	x4, [x9, #-24]
	b	.LBB55_10
.LBB55_7:
	ldr	x10, [x1]
	mov	w11, #3
	add	x10, x10, x9
	stur	xzr, [x10, #-24]
	ldr	x10, [x1]
	add	x10, x10, x9
	stur	xzr, [x10, #-16]
	ldr	x10, [x1]
	add	x9, x10, x9
	stur	x11, [x9, #-8]
	str	x4, [x0]
.LBB55_8:
	tst	x8, #0x2
	cset	w0, eq
	ret
.LBB55_9:
	stur	x4, [x9, #-16]
.LBB55_10:
	mov	w10, wzr
	mov	w13, #67
	b	.LBB55_12
.LBB55_11:
	orr	x11, x16, #0x1
	ldur	x12, [x17, #-8]
	mov	x4, x9
	stur	x11, [x15, #-8]
	ldr	x11, [x1]
	cmp	x12, #8
	add	x11, x11, x18
	ldur	x14, [x11, #-8]
	orr	x14, x14, #0x1
	stur	x14, [x11, #-8]
	ldr	x11, [x1]
	add	x11, x11, x10
	ldur	x14, [x11, #-8]
	and	x12, x14, #0xfffffffffffffffe
	cinc	x12, x12, lo
	stur	x12, [x11, #-8]
	ldr	x11, [x1]
	add	x10, x11, x10
	ldur	x10, [x10, #-8]
	ands	x12, x10, #0xfffffffffffffff8
	cset	w10, eq
	subs	w13, w13, #1
	b.eq	.LBB55_8
.LBB55_12:
	tbnz	w10, #0, .LBB55_8
	lsr	x9, x12, #2
	ldr	x14, [x1]
	add	x9, x9, x12, lsr #3
	lsl	x11, x9, #3
	add	x15, x14, x11
	ldur	x16, [x15, #-8]
	tbnz	w16, #0, .LBB55_8
	ands	x9, x16, #0xfffffffffffffff8
	b.eq	.LBB55_8
	lsr	x10, x16, #3
	add	x10, x10, x10, lsl #1
	lsl	x10, x10, #3
	add	x17, x14, x10
	ldur	x18, [x17, #-24]
	cmp	x18, x12
	b.ne	.LBB55_18
	ldur	x18, [x17, #-16]
	cbz	x18, .LBB55_25
	lsr	x2, x18, #2
	add	x18, x2, x18, lsr #3
	lsl	x18, x18, #3
	add	x2, x14, x18
	ldur	w2, [x2, #-8]
	tbz	w2, #0, .LBB55_11
	b	.LBB55_25
.LBB55_18:
	cbz	x18, .LBB55_20
	lsr	x2, x18, #2
	add	x18, x2, x18, lsr #3
	lsl	x18, x18, #3
	add	x2, x14, x18
	ldur	w2, [x2, #-8]
	tbz	w2, #0, .LBB55_11
.LBB55_20:
	ldur	x16, [x15, #-24]
	cmp	x16, x4
	b.ne	.LBB55_27
	lsr	x13, x4, #2
	add	x13, x13, x4, lsr #3
	lsl	x13, x13, #3
	add	x14, x14, x13
	ldur	x14, [x14, #-16]
	stur	x14, [x15, #-24]
	cbz	x14, .LBB55_23
	lsr	x14, x14, #3
	mov	w15, #24
	ldr	x16, [x1]
	madd	x14, x14, x15, x16
	ldur	x15, [x14, #-8]
	and	x15, x15, #0x7
	orr	x15, x15, x12
	stur	x15, [x14, #-8]
.LBB55_23:
	ldr	x14, [x1]
	orr	x15, x9, #0x2
	add	x14, x14, x13
	stur	x15, [x14, #-8]
	ldr	x14, [x1]
	add	x14, x14, x10
	ldur	x15, [x14, #-24]
	cmp	x15, x12
	b.ne	.LBB55_32
	stur	x4, [x14, #-24]
	b	.LBB55_33
.LBB55_25:
	ldur	x13, [x15, #-24]
	cmp	x13, x4
	b.ne	.LBB55_28
	mov	x4, x12
	b	.LBB55_44
.LBB55_27:
	mov	x4, x12
	b	.LBB55_34
.LBB55_28:
	lsr	x13, x4, #2
	add	x13, x13, x4, lsr #3
	lsl	x13, x13, #3
	add	x14, x14, x13
	ldur	x14, [x14, #-24]
	stur	x14, [x15, #-16]
	cbz	x14, .LBB55_30
	lsr	x14, x14, #3
	mov	w15, #24
	ldr	x16, [x1]
	madd	x14, x14, x15, x16
	ldur	x15, [x14, #-8]
	and	x15, x15, #0x7
	orr	x15, x15, x12
	stur	x15, [x14, #-8]
.LBB55_30:
	ldr	x14, [x1]
	orr	x15, x9, #0x2
	add	x14, x14, x13
	stur	x15, [x14, #-8]
	ldr	x14, [x1]
	add	x14, x14, x10
	ldur	x15, [x14, #-24]
	cmp	x15, x12
	b.ne	.LBB55_42
	stur	x4, [x14, #-24]
	b	.LBB55_43
.LBB55_32:
	stur	x4, [x14, #-16]
.LBB55_33:
	ldr	x14, [x1]
	add	x14, x14, x13
	stur	x12, [x14, #-16]
	ldr	x12, [x1]
	add	x11, x12, x11
	orr	x12, x4, #0x2
	stur	x12, [x11, #-8]
	ldr	x14, [x1]
	add	x11, x14, x13
	ldur	x16, [x11, #-24]
	mov	x11, x13
.LBB55_34:
	add	x14, x14, x10
	ldur	x12, [x14, #-8]
	stur	x16, [x14, #-16]
	and	x13, x12, #0xfffffffffffffff8
	cbz	x16, .LBB55_36
	lsr	x14, x16, #3
	mov	w15, #24
	ldr	x16, [x1]
	madd	x14, x14, x15, x16
	ldur	x15, [x14, #-8]
	and	x15, x15, #0x7
	orr	x15, x15, x9
	stur	x15, [x14, #-8]
.LBB55_36:
	ldr	x14, [x1]
	orr	x15, x13, #0x3
	add	x14, x14, x11
	stur	x15, [x14, #-8]
	cbz	x13, .LBB55_39
	lsr	x12, x12, #3
	mov	w13, #24
	ldr	x14, [x1]
	madd	x12, x12, x13, x14
	ldur	x13, [x12, #-24]
	cmp	x13, x9
	b.ne	.LBB55_40
	stur	x4, [x12, #-24]
	b	.LBB55_41
.LBB55_39:
	str	x4, [x0]
	b	.LBB55_41
.LBB55_40:
	stur	x4, [x12, #-16]
.LBB55_41:
	ldr	x12, [x1]
	add	x11, x12, x11
	stur	x9, [x11, #-24]
	b	.LBB55_52
.LBB55_42:
	stur	x4, [x14, #-16]
.LBB55_43:
	ldr	x14, [x1]
	add	x14, x14, x13
	stur	x12, [x14, #-24]
	ldr	x12, [x1]
	add	x11, x12, x11
	orr	x12, x4, #0x2
	stur	x12, [x11, #-8]
	mov	x11, x13
	ldr	x14, [x1]
.LBB55_44:
	add	x12, x14, x11
	add	x15, x14, x10
	ldur	x14, [x12, #-16]
	ldur	x12, [x15, #-8]
	and	x13, x12, #0xfffffffffffffff8
	stur	x14, [x15, #-24]
	cbz	x14, .LBB55_46
	lsr	x14, x14, #3
	mov	w15, #24
	ldr	x16, [x1]
	madd	x14, x14, x15, x16
	ldur	x15, [x14, #-8]
	and	x15, x15, #0x7
	orr	x15, x15, x9
	stur	x15, [x14, #-8]
.LBB55_46:
	ldr	x14, [x1]
	orr	x15, x13, #0x3
	add	x14, x14, x11
	stur	x15, [x14, #-8]
	cbz	x13, .LBB55_49
	lsr	x12, x12, #3
	mov	w13, #24
	ldr	x14, [x1]
	madd	x12, x12, x13, x14
	ldur	x13, [x12, #-24]
	cmp	x13, x9
	b.ne	.LBB55_50
	stur	x4, [x12, #-24]
	b	.LBB55_51
.LBB55_49:
	str	x4, [x0]
	b	.LBB55_51
.LBB55_50:
	stur	x4, [x12, #-16]
.LBB55_51:
	ldr	x12, [x1]
	add	x11, x12, x11
	stur	x9, [x11, #-16]
.LBB55_52:
	ldr	x9, [x1]
	add	x9, x9, x10
	orr	x10, x4, #0x2
	stur	x10, [x9, #-8]
	tst	x8, #0x2
	cset	w0, eq
	ret
.Lfunc_end55:
	.size	ic_any_collection.keyed.put_in_order.3645171cb10708cf, .Lfunc_end55-ic_any_collection.keyed.put_in_order.3645171cb10708cf
	.section	.text.ic_world.calls.insertion.EntryAtKeyCollectionCall.run.345c281869c73935,"ax",@progbits
	.p2align	2
	.type	ic_world.calls.insertion.EntryAtKeyCollectionCall.run.345c281869c73935,@function
ic_world.calls.insertion.EntryAtKeyCollectionCall.run.345c281869c73935:
	sub	sp, sp, #64
	ldrb	w8, [x2]
	stp	x20, x19, [sp, #48]
	mov	x19, x0
	stp	x29, x30, [sp, #16]
	add	x29, sp, #16
	cmp	w8, #3
	stp	x22, x21, [sp, #32]
	b.ne	.LBB56_10
	ldrb	w8, [x3]
	cmp	w8, #2
	b.ne	.LBB56_17
	ldrb	w8, [x3, #8]
	cmp	w8, #1
	b.ne	.LBB56_17
	ldur	x14, [x2, #8]
	ldr	x20, [x1, #8]
	mov	x21, xzr
	cbz	x14, .LBB56_11
	ldur	x12, [x3, #16]
	ldr	x13, [x4]
	mov	x9, xzr
	ldr	x10, [x1]
	mov	x11, xzr
.LBB56_5:
	mov	x8, x14
	lsr	x14, x14, #3
	mov	w15, #24
	add	x21, x21, #1
	madd	x14, x14, x15, x12
	add	x15, x13, x8, lsl #1
	ldur	x15, [x15, #-8]
	cmp	x15, x10
	ldp	x16, x17, [x14, #-24]
	csel	x9, x8, x9, eq
	csel	x11, x11, x8, lo
	csel	x14, x17, x16, lo
	cbnz	x14, .LBB56_5
	cmp	x16, #0
	ccmp	x17, #0, #4, ne
	b.ne	.LBB56_11
	cmp	x15, x10
	cset	w4, lo
	cbz	x11, .LBB56_12
	cmp	x9, x11
	b.ne	.LBB56_12
	mov	w8, #1
	b	.LBB56_14
.LBB56_10:
	movi	v0.2d, #0000000000000000
	mov	w8, #769
	strh	w8, [x19]
	stur	q0, [x19, #8]
	stur	q0, [x19, #24]
	ldp	x20, x19, [sp, #48]
	ldp	x22, x21, [sp, #32]
	ldp	x29, x30, [sp, #16]
	add	sp, sp, #64
	ret
.LBB56_11:
	mov	w4, wzr
	mov	x8, xzr
.LBB56_12:
	cmp	x8, #0
	add	x0, x3, #16
	mov	x22, x2
	cset	w9, ne
	add	x1, x2, #8
	mov	x3, x8
	mov	w2, w9
	mov	x5, x20
	bl	ic_rbtree.linking.insert.bca35351c984244a
	cbz	w0, .LBB56_15
	mov	w8, wzr
	mov	x9, x20
	mov	x2, x22
.LBB56_14:
	str	x9, [x2, #16]
	mov	w10, #1
	str	wzr, [sp, #8]
	stur	wzr, [sp, #11]
	b	.LBB56_16
.LBB56_15:
	mov	x10, xzr
	mov	x9, xzr
	mov	w8, wzr
	mov	x21, xzr
	stur	wzr, [sp, #11]
	str	wzr, [sp, #8]
.LBB56_16:
	str	x10, [x19, #8]
	ldr	w10, [sp, #8]
	strb	w8, [x19, #16]
	ldur	w8, [sp, #11]
	strh	wzr, [x19]
	stur	w10, [x19, #17]
	str	w8, [x19, #20]
	stp	x9, x21, [x19, #24]
	ldp	x20, x19, [sp, #48]
	ldp	x22, x21, [sp, #32]
	ldp	x29, x30, [sp, #16]
	add	sp, sp, #64
	ret
.LBB56_17:
	brk	#0x1
.Lfunc_end56:
	.size	ic_world.calls.insertion.EntryAtKeyCollectionCall.run.345c281869c73935, .Lfunc_end56-ic_world.calls.insertion.EntryAtKeyCollectionCall.run.345c281869c73935
	.section	.rodata.cst16,"aM",@progbits,16
	.p2align	4, 0x0
.LCPI57_0:
	.xword	1
	.xword	0
	.section	.text.ic_any_collection.any_table.AnyTable.cover.f9617c8b158e2be4,"ax",@progbits
	.p2align	2
	.type	ic_any_collection.any_table.AnyTable.cover.f9617c8b158e2be4,@function
ic_any_collection.any_table.AnyTable.cover.f9617c8b158e2be4:
	stp	x29, x30, [sp, #-48]!
	ldrb	w8, [x0]
	str	x21, [sp, #16]
	mov	x29, sp
	stp	x20, x19, [sp, #32]
	cmp	w8, #2
	b.eq	.LBB57_8
	cmp	w8, #1
	b.ne	.LBB57_16
	mov	x8, #4294967296
	cmp	x1, x8
	b.hi	.LBB57_25
	ldr	x19, [x0, #16]
	subs	x8, x1, x19
	b.ls	.LBB57_23
	ldr	x9, [x0, #24]
	sub	x9, x9, x19
	cmp	x8, x9
	mov	x9, x19
	b.hi	.LBB57_32
	add	x8, x19, #1
	cmp	x8, x1
	b.hs	.LBB57_22
.LBB57_6:
	mvn	x8, x19
	add	x8, x8, x1
.LBB57_7:
	ldr	x10, [x0, #8]
	subs	x8, x8, #1
	mov	w11, #1
	str	x11, [x10, x9, lsl #3]
	add	x9, x9, #1
	b.ne	.LBB57_7
	b	.LBB57_22
.LBB57_8:
	ldrb	w8, [x0, #8]
	cbz	w8, .LBB57_24
	mov	x8, #4294967296
	cmp	x1, x8
	b.hi	.LBB57_25
	ldr	x19, [x0, #24]
	subs	x8, x1, x19
	b.ls	.LBB57_23
	ldr	x9, [x0, #32]
	sub	x9, x9, x19
	cmp	x8, x9
	mov	x9, x19
	b.hi	.LBB57_36
	add	x8, x19, #1
	cmp	x8, x1
	b.hs	.LBB57_15
.LBB57_13:
	add	x8, x9, x9, lsl #1
	mvn	x11, x19
	add	x9, x9, x1
	add	x10, x11, x1
	add	x9, x11, x9
	lsl	x8, x8, #3
.LBB57_14:
	ldr	x11, [x0, #16]
	subs	x10, x10, #1
	add	x11, x11, x8
	add	x8, x8, #24
	stp	xzr, xzr, [x11]
	str	xzr, [x11, #16]
	b.ne	.LBB57_14
.LBB57_15:
	mov	w10, #24
	ldr	x11, [x0, #16]
	madd	x10, x9, x10, x11
	add	x9, x9, #1
	stp	xzr, xzr, [x10]
	str	xzr, [x10, #16]
	str	x9, [x0, #24]
	mov	w0, wzr
	ldp	x20, x19, [sp, #32]
	ldr	x21, [sp, #16]
	ldp	x29, x30, [sp], #48
	ret
.LBB57_16:
	mov	x8, #4294967296
	cmp	x1, x8
	b.hi	.LBB57_25
	ldr	x19, [x0, #16]
	subs	x8, x1, x19
	b.ls	.LBB57_23
	ldr	x9, [x0, #24]
	sub	x9, x9, x19
	cmp	x8, x9
	mov	x9, x19
	b.hi	.LBB57_34
	add	x8, x19, #1
	cmp	x8, x1
	b.hs	.LBB57_22
.LBB57_20:
	mvn	x8, x19
	add	x8, x8, x1
.LBB57_21:
	ldr	x10, [x0, #8]
	subs	x8, x8, #1
	mov	w11, #1
	str	x11, [x10, x9, lsl #3]
	add	x9, x9, #1
	b.ne	.LBB57_21
.LBB57_22:
	ldr	x10, [x0, #8]
	add	x12, x9, #1
	mov	w11, #1
	str	x11, [x10, x9, lsl #3]
	str	x12, [x0, #16]
.LBB57_23:
	mov	w0, wzr
	ldp	x20, x19, [sp, #32]
	ldr	x21, [sp, #16]
	ldp	x29, x30, [sp], #48
	ret
.LBB57_24:
	mov	x8, #4294967296
	cmp	x1, x8
	b.ls	.LBB57_26
.LBB57_25:
	mov	w0, #1
	ldp	x20, x19, [sp, #32]
	ldr	x21, [sp, #16]
	ldp	x29, x30, [sp], #48
	ret
.LBB57_26:
	ldr	x19, [x0, #24]
	subs	x8, x1, x19
	b.ls	.LBB57_23
	ldr	x9, [x0, #32]
	sub	x9, x9, x19
	cmp	x8, x9
	mov	x9, x19
	b.hi	.LBB57_38
	add	x8, x19, #1
	cmp	x8, x1
	adrp	x8, .LCPI57_0
	b.hs	.LBB57_31
.LBB57_29:
	mvn	x10, x19
	add	x10, x10, x1
.LBB57_30:
	ldr	x11, [x0, #16]
	ldr	q0, [x8, :lo12:.LCPI57_0]
	subs	x10, x10, #1
	str	q0, [x11, x9, lsl #4]
	add	x9, x9, #1
	b.ne	.LBB57_30
.LBB57_31:
	ldr	x11, [x0, #16]
	ldr	q0, [x8, :lo12:.LCPI57_0]
	add	x8, x9, #1
	str	q0, [x11, x9, lsl #4]
	str	x8, [x0, #24]
	mov	w0, wzr
	ldp	x20, x19, [sp, #32]
	ldr	x21, [sp, #16]
	ldp	x29, x30, [sp], #48
	ret
.LBB57_32:
	mov	x20, x1
	mov	x21, x0
	add	x0, x0, #8
	mov	x1, x8
	bl	std_alloc.vec.Vec.grow_amortized.032cdd4970ee9421
	cbz	w0, .LBB57_25
	ldr	x9, [x21, #16]
	mov	x0, x21
	mov	x1, x20
	add	x8, x19, #1
	cmp	x8, x20
	b.lo	.LBB57_6
	b	.LBB57_22
.LBB57_34:
	mov	x20, x1
	mov	x21, x0
	add	x0, x0, #8
	mov	x1, x8
	bl	std_alloc.vec.Vec.grow_amortized.032cdd4970ee9421
	cbz	w0, .LBB57_25
	ldr	x9, [x21, #16]
	mov	x0, x21
	mov	x1, x20
	add	x8, x19, #1
	cmp	x8, x20
	b.lo	.LBB57_20
	b	.LBB57_22
.LBB57_36:
	mov	x20, x1
	mov	x21, x0
	add	x0, x0, #16
	mov	x1, x8
	bl	std_alloc.vec.Vec.grow_amortized.d8bec769fe813ba4
	cbz	w0, .LBB57_25
	ldr	x9, [x21, #24]
	mov	x0, x21
	mov	x1, x20
	add	x8, x19, #1
	cmp	x8, x20
	b.lo	.LBB57_13
	b	.LBB57_15
.LBB57_38:
	mov	x20, x1
	mov	x21, x0
	add	x0, x0, #16
	mov	x1, x8
	bl	std_alloc.vec.Vec.grow_amortized.5d4e4d27b606016f
	cbz	w0, .LBB57_25
	ldr	x9, [x21, #24]
	mov	x0, x21
	mov	x1, x20
	add	x8, x19, #1
	cmp	x8, x20
	adrp	x8, .LCPI57_0
	b.lo	.LBB57_29
	b	.LBB57_31
.Lfunc_end57:
	.size	ic_any_collection.any_table.AnyTable.cover.f9617c8b158e2be4, .Lfunc_end57-ic_any_collection.any_table.AnyTable.cover.f9617c8b158e2be4
	.section	.text.unlikely.std_alloc.vec.Vec.grow_amortized.032cdd4970ee9421,"ax",@progbits
	.p2align	2
	.type	std_alloc.vec.Vec.grow_amortized.032cdd4970ee9421,@function
std_alloc.vec.Vec.grow_amortized.032cdd4970ee9421:
	ldr	x8, [x0, #8]
	cmn	x8, x1
	b.lo	.LBB58_2
	mov	w0, wzr
	ret
.LBB58_2:
	stp	x29, x30, [sp, #-32]!
	ldr	x9, [x0, #16]
	add	x10, x8, x1
	mov	w11, #4
	cmp	x10, #4
	stp	x20, x19, [sp, #16]
	mov	x29, sp
	lsl	x12, x9, #1
	csel	x11, x10, x11, hi
	lsr	x13, x9, #62
	cmp	x11, x12
	csel	x10, x11, x12, hi
	cmp	x13, #0
	csel	x19, x10, x11, eq
	lsr	x11, x19, #60
	cbnz	x11, .LBB58_7
	cbz	x9, .LBB58_6
	mov	x20, x0
	ldr	x0, [x0]
	lsl	x1, x8, #3
	lsl	x2, x19, #3
	mov	w3, #8
	bl	rattle_realloc
	tbz	w0, #0, .LBB58_7
.LBB58_5:
	mov	w0, #1
	str	x1, [x20]
	str	x19, [x20, #16]
	ldp	x20, x19, [sp, #16]
	ldp	x29, x30, [sp], #32
	ret
.LBB58_6:
	mov	x20, x0
	lsl	x0, x10, #3
	mov	w1, #8
	bl	rattle_alloc
	tbnz	w0, #0, .LBB58_5
.LBB58_7:
	mov	w0, wzr
	ldp	x20, x19, [sp, #16]
	ldp	x29, x30, [sp], #32
	ret
.Lfunc_end58:
	.size	std_alloc.vec.Vec.grow_amortized.032cdd4970ee9421, .Lfunc_end58-std_alloc.vec.Vec.grow_amortized.032cdd4970ee9421
	.section	.text.unlikely.std_alloc.vec.Vec.grow_amortized.5d4e4d27b606016f,"ax",@progbits
	.p2align	2
	.type	std_alloc.vec.Vec.grow_amortized.5d4e4d27b606016f,@function
std_alloc.vec.Vec.grow_amortized.5d4e4d27b606016f:
	ldr	x8, [x0, #8]
	cmn	x8, x1
	b.lo	.LBB59_2
	mov	w0, wzr
	ret
.LBB59_2:
	stp	x29, x30, [sp, #-32]!
	ldr	x9, [x0, #16]
	add	x10, x8, x1
	mov	w11, #4
	cmp	x10, #4
	stp	x20, x19, [sp, #16]
	mov	x29, sp
	lsl	x12, x9, #1
	csel	x11, x10, x11, hi
	lsr	x13, x9, #62
	cmp	x11, x12
	csel	x10, x11, x12, hi
	cmp	x13, #0
	csel	x19, x10, x11, eq
	lsr	x11, x19, #59
	cbnz	x11, .LBB59_7
	cbz	x9, .LBB59_6
	mov	x20, x0
	ldr	x0, [x0]
	lsl	x1, x8, #4
	lsl	x2, x19, #4
	mov	w3, #8
	bl	rattle_realloc
	tbz	w0, #0, .LBB59_7
.LBB59_5:
	mov	w0, #1
	str	x1, [x20]
	str	x19, [x20, #16]
	ldp	x20, x19, [sp, #16]
	ldp	x29, x30, [sp], #32
	ret
.LBB59_6:
	mov	x20, x0
	lsl	x0, x10, #4
	mov	w1, #8
	bl	rattle_alloc
	tbnz	w0, #0, .LBB59_5
.LBB59_7:
	mov	w0, wzr
	ldp	x20, x19, [sp, #16]
	ldp	x29, x30, [sp], #32
	ret
.Lfunc_end59:
	.size	std_alloc.vec.Vec.grow_amortized.5d4e4d27b606016f, .Lfunc_end59-std_alloc.vec.Vec.grow_amortized.5d4e4d27b606016f
	.section	.text.unlikely.std_alloc.vec.Vec.grow_amortized.d8bec769fe813ba4,"ax",@progbits
	.p2align	2
	.type	std_alloc.vec.Vec.grow_amortized.d8bec769fe813ba4,@function
std_alloc.vec.Vec.grow_amortized.d8bec769fe813ba4:
	ldr	x8, [x0, #8]
	cmn	x8, x1
	b.lo	.LBB60_2
	mov	w0, wzr
	ret
.LBB60_2:
	stp	x29, x30, [sp, #-32]!
	ldr	x9, [x0, #16]
	add	x10, x8, x1
	mov	w11, #4
	cmp	x10, #4
	stp	x20, x19, [sp, #16]
	mov	x29, sp
	lsl	x12, x9, #1
	csel	x11, x10, x11, hi
	lsr	x13, x9, #62
	cmp	x11, x12
	csel	x10, x11, x12, hi
	cmp	x13, #0
	csel	x19, x10, x11, eq
	mov	x11, #6148914691236517205
	movk	x11, #1365, lsl #48
	cmp	x19, x11
	b.hi	.LBB60_7
	cbz	x9, .LBB60_6
	add	x8, x8, x8, lsl #1
	add	x9, x19, x19, lsl #1
	mov	x20, x0
	ldr	x0, [x0]
	mov	w3, #8
	lsl	x1, x8, #3
	lsl	x2, x9, #3
	bl	rattle_realloc
	tbz	w0, #0, .LBB60_7
.LBB60_5:
	mov	w0, #1
	str	x1, [x20]
	str	x19, [x20, #16]
	ldp	x20, x19, [sp, #16]
	ldp	x29, x30, [sp], #32
	ret
.LBB60_6:
	add	x8, x10, x10, lsl #1
	mov	x20, x0
	mov	w1, #8
	lsl	x0, x8, #3
	bl	rattle_alloc
	tbnz	w0, #0, .LBB60_5
.LBB60_7:
	mov	w0, wzr
	ldp	x20, x19, [sp, #16]
	ldp	x29, x30, [sp], #32
	ret
.Lfunc_end60:
	.size	std_alloc.vec.Vec.grow_amortized.d8bec769fe813ba4, .Lfunc_end60-std_alloc.vec.Vec.grow_amortized.d8bec769fe813ba4
	.section	.text.unlikely.std_alloc.vec.Vec.grow_amortized.88ac1d64e9c54581,"ax",@progbits
	.p2align	2
	.type	std_alloc.vec.Vec.grow_amortized.88ac1d64e9c54581,@function
std_alloc.vec.Vec.grow_amortized.88ac1d64e9c54581:
	ldr	x8, [x0, #8]
	cmn	x8, x1
	b.lo	.LBB61_2
	mov	w0, wzr
	ret
.LBB61_2:
	stp	x29, x30, [sp, #-32]!
	ldr	x9, [x0, #16]
	add	x10, x8, x1
	mov	w11, #4
	cmp	x10, #4
	stp	x20, x19, [sp, #16]
	mov	x29, sp
	lsl	x12, x9, #1
	csel	x11, x10, x11, hi
	lsr	x13, x9, #62
	cmp	x11, x12
	csel	x10, x11, x12, hi
	cmp	x13, #0
	csel	x19, x10, x11, eq
	lsr	x11, x19, #59
	cbnz	x11, .LBB61_7
	cbz	x9, .LBB61_6
	mov	x20, x0
	ldr	x0, [x0]
	lsl	x1, x8, #4
	lsl	x2, x19, #4
	mov	w3, #8
	bl	rattle_realloc
	tbz	w0, #0, .LBB61_7
.LBB61_5:
	mov	w0, #1
	str	x1, [x20]
	str	x19, [x20, #16]
	ldp	x20, x19, [sp, #16]
	ldp	x29, x30, [sp], #32
	ret
.LBB61_6:
	mov	x20, x0
	lsl	x0, x10, #4
	mov	w1, #8
	bl	rattle_alloc
	tbnz	w0, #0, .LBB61_5
.LBB61_7:
	mov	w0, wzr
	ldp	x20, x19, [sp, #16]
	ldp	x29, x30, [sp], #32
	ret
.Lfunc_end61:
	.size	std_alloc.vec.Vec.grow_amortized.88ac1d64e9c54581, .Lfunc_end61-std_alloc.vec.Vec.grow_amortized.88ac1d64e9c54581
	.section	.text.unlikely.std_alloc.vec.Vec.grow_amortized.240d24d5d7197e22,"ax",@progbits
	.p2align	2
	.type	std_alloc.vec.Vec.grow_amortized.240d24d5d7197e22,@function
std_alloc.vec.Vec.grow_amortized.240d24d5d7197e22:
	ldr	x8, [x0, #8]
	cmn	x8, #1
	b.eq	.LBB62_5
	stp	x29, x30, [sp, #-32]!
	ldr	x9, [x0, #16]
	cmp	x8, #3
	mov	w10, #3
	csel	x11, x8, x10, hi
	stp	x20, x19, [sp, #16]
	mov	x29, sp
	lsl	x10, x9, #1
	add	x12, x11, #1
	lsr	x13, x9, #62
	cmp	x12, x10
	csinc	x10, x10, x11, ls
	cmp	x13, #0
	csinc	x19, x10, x11, eq
	mov	x11, #-6148914691236517206
	movk	x11, #682, lsl #48
	cmp	x19, x11
	b.hi	.LBB62_7
	cbz	x9, .LBB62_6
	add	x8, x8, x8, lsl #1
	add	x9, x19, x19, lsl #1
	mov	x20, x0
	ldr	x0, [x0]
	mov	w3, #8
	lsl	x1, x8, #4
	lsl	x2, x9, #4
	bl	rattle_realloc
	tbz	w0, #0, .LBB62_7
.LBB62_4:
	mov	w0, #1
	str	x1, [x20]
	str	x19, [x20, #16]
	ldp	x20, x19, [sp, #16]
	ldp	x29, x30, [sp], #32
	ret
.LBB62_5:
	mov	w0, wzr
	ret
.LBB62_6:
	add	x8, x10, x10, lsl #1
	mov	x20, x0
	mov	w1, #8
	lsl	x0, x8, #4
	bl	rattle_alloc
	tbnz	w0, #0, .LBB62_4
.LBB62_7:
	mov	w0, wzr
	ldp	x20, x19, [sp, #16]
	ldp	x29, x30, [sp], #32
	ret
.Lfunc_end62:
	.size	std_alloc.vec.Vec.grow_amortized.240d24d5d7197e22, .Lfunc_end62-std_alloc.vec.Vec.grow_amortized.240d24d5d7197e22
	.section	.text.ic_world.world.World.splice.27dc223f7d016e2e,"ax",@progbits
	.p2align	2
	.type	ic_world.world.World.splice.27dc223f7d016e2e,@function
ic_world.world.World.splice.27dc223f7d016e2e:
	sub	sp, sp, #80
	ldr	x11, [x0, #80]
	stp	x29, x30, [sp, #16]
	add	x29, sp, #16
	stp	x24, x23, [sp, #32]
	cmp	x11, x1
	stp	x22, x21, [sp, #48]
	stp	x20, x19, [sp, #64]
	b.ls	.LBB63_6
	ldr	x12, [x0, #72]
	lsl	x8, x1, #3
	add	x9, x12, x8
	ldr	w10, [x9, #4]
	cmn	w10, #1
	b.eq	.LBB63_6
	cmp	x11, x2
	b.ls	.LBB63_6
	add	x11, x12, x2, lsl #3
	ldr	w14, [x11, #4]
	cmn	w14, #1
	b.eq	.LBB63_6
	ldr	w9, [x9]
	mov	w15, #24
	ldr	w13, [x11]
	mov	w16, #24
	ldr	x17, [x0, #96]
	mov	x11, x0
	umull	x15, w9, w15
	mov	w18, #48
	mov	w0, #48
	umull	x16, w13, w16
	mov	x12, x1
	ldr	x15, [x17, x15]
	umaddl	x10, w10, w18, x15
	ldr	x15, [x17, x16]
	umaddl	x14, w14, w0, x15
	ldrb	w15, [x10, #8]
	ldrb	w10, [x14, #8]
	cbz	w3, .LBB63_8
	sub	w16, w15, #1
	mov	w0, #1
	mov	w1, #3
	cmp	w16, #1
	b.ls	.LBB63_9
	b	.LBB63_7
.LBB63_6:
	mov	w0, #1
	mov	w1, #1
.LBB63_7:
	ldp	x20, x19, [sp, #64]
	ldp	x22, x21, [sp, #48]
	ldp	x24, x23, [sp, #32]
	ldp	x29, x30, [sp, #16]
	add	sp, sp, #80
	ret
.LBB63_8:
	cmp	w15, #3
	mov	w0, #1
	mov	w1, #3
	b.eq	.LBB63_7
.LBB63_9:
	cmp	w15, w10
	b.ne	.LBB63_7
	cmp	x12, x2
	b.ne	.LBB63_12
	mov	w1, #4
	ldp	x20, x19, [sp, #64]
	ldp	x22, x21, [sp, #48]
	ldp	x24, x23, [sp, #32]
	ldp	x29, x30, [sp, #16]
	add	sp, sp, #80
	ret
.LBB63_12:
	cmp	w9, w13
	cset	w0, ne
	b.eq	.LBB63_14
	mov	w1, #5
	ldp	x20, x19, [sp, #64]
	ldp	x22, x21, [sp, #48]
	ldp	x24, x23, [sp, #32]
	ldp	x29, x30, [sp, #16]
	add	sp, sp, #80
	ret
.LBB63_14:
	movi	v0.2d, #0000000000000000
	str	x10, [x14, #8]
	mov	w13, #24
	ldp	x4, x6, [x14, #16]
	cmp	w10, #1
	stp	q0, q0, [x14, #16]
	ldr	x12, [x11, #72]
	ldr	x14, [x11, #96]
	ldr	x11, [x11, #48]
	add	x8, x12, x8
	ldp	w12, w8, [x8]
	umull	x12, w12, w13
	mov	w13, #48
	umaddl	x1, w9, w13, x11
	ldr	x9, [x14, x12]
	umaddl	x22, w8, w13, x9
	cbz	w3, .LBB63_21
	b.gt	.LBB63_27
	b.ne	.LBB63_129
	ldrb	w8, [x22, #8]
	cmp	w8, #1
	b.ne	.LBB63_69
	ldrb	w8, [x1]
	cmp	w8, #2
	b.ne	.LBB63_129
	ldr	x8, [x22, #32]
	cbz	x8, .LBB63_43
	lsr	x9, x8, #3
	mov	w10, #24
	ldr	x11, [x1, #16]
	madd	x9, x9, x10, x11
	ldrb	w10, [x1, #8]
	add	x11, x11, x8, lsl #1
	sub	x11, x11, #8
	cmp	w10, #0
	sub	x9, x9, #24
	csel	x9, x11, x9, eq
	b	.LBB63_44
.LBB63_21:
	b.gt	.LBB63_32
	cbnz	w10, .LBB63_36
	ldrb	w8, [x22, #8]
	cbnz	w8, .LBB63_69
	ldr	x8, [x22, #24]
	add	x10, x22, #16
	add	x9, x22, #16
	cbz	x8, .LBB63_94
	ldrb	w9, [x1]
	cmp	w9, #2
	b.eq	.LBB63_72
	cmp	w9, #1
	ldr	x9, [x1, #8]
	add	x9, x9, x8
	sub	x9, x9, #8
	b	.LBB63_94
.LBB63_27:
	cmp	w10, #2
	b.ne	.LBB63_129
	ldrb	w8, [x22, #8]
	cmp	w8, #2
	b.ne	.LBB63_69
	ldr	x8, [x22, #32]
	cbz	x8, .LBB63_42
	ldrb	w10, [x1]
	ldr	x9, [x22, #40]
	cmp	w10, #2
	eor	x9, x9, x8
	b.eq	.LBB63_54
	cmp	w10, #1
	ldr	x10, [x1, #8]
	add	x10, x10, x8
	sub	x10, x10, #8
	b	.LBB63_87
.LBB63_32:
	cmp	w10, #2
	b.ne	.LBB63_129
	ldrb	w8, [x22, #8]
	cmp	w8, #2
	b.ne	.LBB63_69
	ldr	x19, [x22, #32]
	cbz	x19, .LBB63_48
	ldr	x8, [x22, #40]
	mov	w23, w0
	cmp	x8, x19
	eor	x24, x8, x19
	b	.LBB63_49
.LBB63_36:
	ldrb	w8, [x22, #8]
	cmp	w8, #1
	b.ne	.LBB63_69
	ldrb	w8, [x1]
	cmp	w8, #2
	b.ne	.LBB63_129
	ldr	x8, [x22, #32]
	cbz	x8, .LBB63_50
	lsr	x9, x8, #2
	ldrb	w13, [x1, #8]
	lsl	x11, x8, #1
	add	x9, x9, x8, lsr #3
	cmp	w13, #0
	lsl	x12, x9, #3
	csel	x9, x11, x12, eq
	cmp	x6, #0
	cset	w10, eq
	cbz	x4, .LBB63_91
	ldr	x14, [x1, #16]
	add	x9, x14, x9
	ldur	x9, [x9, #-16]
	cbz	w13, .LBB63_74
	add	x11, x14, x12
	b	.LBB63_75
.LBB63_42:
	ldr	x3, [x22, #24]
	mov	w19, w0
	cmp	x3, #0
	b	.LBB63_88
.LBB63_43:
	add	x9, x22, #24
.LBB63_44:
	cbz	x4, .LBB63_69
	ldr	x9, [x9]
	cbz	x9, .LBB63_53
	ldrb	w11, [x1, #8]
	ldr	x10, [x1, #16]
	cbz	w11, .LBB63_56
	lsr	x11, x9, #3
	mov	w12, #24
	madd	x10, x11, x12, x10
	b	.LBB63_57
.LBB63_48:
	ldur	x24, [x22, #16]
	mov	w23, w0
	cmp	x24, #0
.LBB63_49:
	cset	w20, ne
	cmp	x19, #0
	add	x0, x22, #16
	cset	w2, ne
	cmp	x6, #0
	mov	x3, x19
	cset	w5, ne
	mov	w7, w20
	mov	x21, x4
	str	x24, [sp]
	bl	ic_chain.list.LinkList.splice_between.06e6478965f9faac
	cmp	w20, #0
	mov	w1, wzr
	mov	w0, w23
	csel	x8, x24, xzr, ne
	cmp	x21, #0
	csel	x8, x8, x21, eq
	eor	x8, x8, x19
	stp	x19, x8, [x22, #32]
	ldp	x20, x19, [sp, #64]
	ldp	x22, x21, [sp, #48]
	ldp	x24, x23, [sp, #32]
	ldp	x29, x30, [sp, #16]
	add	sp, sp, #80
	ret
.LBB63_50:
	cbz	x4, .LBB63_91
	ldr	x9, [x22, #16]
	cmp	x6, #0
	str	x4, [x22, #16]
	cset	w10, eq
	cbnz	x9, .LBB63_76
.LBB63_52:
	mov	x9, xzr
	str	x6, [x22, #24]
	b	.LBB63_79
.LBB63_53:
	str	x4, [x22, #16]
	b	.LBB63_58
.LBB63_54:
	ldrb	w11, [x1, #8]
	ldr	x10, [x1, #16]
	cbz	w11, .LBB63_85
	lsr	x11, x8, #3
	mov	w12, #24
	madd	x10, x11, x12, x10
	b	.LBB63_86
.LBB63_56:
	add	x10, x10, x9, lsl #1
.LBB63_57:
	stur	x4, [x10, #-16]
.LBB63_58:
	cbz	x8, .LBB63_61
	ldrb	w11, [x1, #8]
	ldr	x10, [x1, #16]
	cbz	w11, .LBB63_62
	lsr	x11, x8, #3
	mov	w12, #24
	madd	x10, x11, x12, x10
	stur	x6, [x10, #-24]
	b	.LBB63_63
.LBB63_61:
	str	x6, [x22, #24]
	b	.LBB63_63
.LBB63_62:
	add	x10, x10, x8, lsl #1
	stur	x6, [x10, #-8]
.LBB63_63:
	ldrb	w11, [x1, #8]
	ldr	x10, [x1, #16]
	cbz	w11, .LBB63_65
	lsr	x11, x4, #3
	mov	w12, #24
	madd	x10, x11, x12, x10
	stur	x9, [x10, #-24]
	b	.LBB63_66
.LBB63_65:
	add	x10, x10, x4, lsl #1
	stur	x9, [x10, #-8]
.LBB63_66:
	cbz	x6, .LBB63_69
	ldrb	w10, [x1, #8]
	ldr	x9, [x1, #16]
	mov	w1, wzr
	cbz	w10, .LBB63_70
	lsr	x10, x6, #3
	mov	w11, #24
	madd	x9, x10, x11, x9
	b	.LBB63_71
.LBB63_69:
	mov	w1, wzr
	ldp	x20, x19, [sp, #64]
	ldp	x22, x21, [sp, #48]
	ldp	x24, x23, [sp, #32]
	ldp	x29, x30, [sp, #16]
	add	sp, sp, #80
	ret
.LBB63_70:
	add	x9, x9, x6, lsl #1
.LBB63_71:
	stur	x8, [x9, #-16]
	ldp	x20, x19, [sp, #64]
	ldp	x22, x21, [sp, #48]
	ldp	x24, x23, [sp, #32]
	ldp	x29, x30, [sp, #16]
	add	sp, sp, #80
	ret
.LBB63_72:
	ldrb	w11, [x1, #8]
	ldr	x9, [x1, #16]
	cbz	w11, .LBB63_92
	lsr	x11, x8, #3
	mov	w12, #24
	madd	x9, x11, x12, x9
	b	.LBB63_93
.LBB63_74:
	add	x11, x14, x11
.LBB63_75:
	stur	x4, [x11, #-16]
	cbz	x9, .LBB63_52
.LBB63_76:
	ldrb	w12, [x1, #8]
	ldr	x11, [x1, #16]
	cbz	w12, .LBB63_78
	lsr	x12, x9, #3
	mov	w13, #24
	madd	x11, x12, x13, x11
	stur	x6, [x11, #-24]
	b	.LBB63_79
.LBB63_78:
	add	x11, x11, x9, lsl #1
	stur	x6, [x11, #-8]
.LBB63_79:
	ldrb	w12, [x1, #8]
	ldr	x11, [x1, #16]
	cbz	w12, .LBB63_81
	lsr	x12, x4, #3
	mov	w13, #24
	madd	x11, x12, x13, x11
	stur	x8, [x11, #-24]
	b	.LBB63_82
.LBB63_81:
	add	x11, x11, x4, lsl #1
	stur	x8, [x11, #-8]
.LBB63_82:
	tbnz	w10, #0, .LBB63_91
	ldrb	w11, [x1, #8]
	ldr	x10, [x1, #16]
	cbz	w11, .LBB63_89
	lsr	x11, x6, #3
	mov	w12, #24
	madd	x10, x11, x12, x10
	b	.LBB63_90
.LBB63_85:
	add	x10, x10, x8, lsl #1
.LBB63_86:
	sub	x10, x10, #16
.LBB63_87:
	ldr	x10, [x10]
	mov	w19, w0
	cmp	x10, x9
	eor	x3, x10, x9
.LBB63_88:
	cset	w2, ne
	cmp	x8, #0
	add	x0, x22, #16
	cset	w7, ne
	cmp	x6, #0
	str	x8, [sp]
	cset	w5, ne
	bl	ic_chain.list.LinkList.splice_between.06e6478965f9faac
	mov	w1, wzr
	mov	w0, w19
	ldp	x20, x19, [sp, #64]
	ldp	x22, x21, [sp, #48]
	ldp	x24, x23, [sp, #32]
	ldp	x29, x30, [sp, #16]
	add	sp, sp, #80
	ret
.LBB63_89:
	add	x10, x10, x6, lsl #1
.LBB63_90:
	stur	x9, [x10, #-16]
.LBB63_91:
	mov	w1, wzr
	str	x8, [x22, #32]
	ldp	x20, x19, [sp, #64]
	ldp	x22, x21, [sp, #48]
	ldp	x24, x23, [sp, #32]
	ldp	x29, x30, [sp, #16]
	add	sp, sp, #80
	ret
.LBB63_92:
	add	x9, x9, x8, lsl #1
.LBB63_93:
	sub	x9, x9, #16
.LBB63_94:
	ldr	x9, [x9]
	cmp	x4, #0
	ccmp	x9, #0, #4, ne
	cset	w11, ne
	b.eq	.LBB63_97
	ldrb	w13, [x1]
	cmp	w13, #2
	b.eq	.LBB63_99
	ldr	x14, [x1, #8]
	cmp	w13, #1
	add	x12, x14, x4
	and	w15, w14, #0xff
	sub	x12, x12, #8
	b	.LBB63_103
.LBB63_97:
	cbz	x4, .LBB63_128
	mov	x12, xzr
	b	.LBB63_113
.LBB63_99:
	ldrb	w14, [x1, #8]
	ldr	x12, [x1, #16]
	cbz	w14, .LBB63_101
	lsr	x14, x4, #3
	mov	w15, #24
	madd	x12, x14, x15, x12
	mov	w15, #1
	b	.LBB63_102
.LBB63_101:
	add	x12, x12, x4, lsl #1
	mov	w15, wzr
.LBB63_102:
	sub	x12, x12, #16
.LBB63_103:
	ldr	x14, [x12]
	mov	x12, x4
	cbz	x14, .LBB63_113
	cmp	w13, #2
	b.eq	.LBB63_108
	cmp	w13, #1
	b.ne	.LBB63_111
	ldr	x13, [x1, #8]
.LBB63_107:
	mov	x12, x14
	add	x14, x13, x14
	ldur	x14, [x14, #-8]
	cbnz	x14, .LBB63_107
	b	.LBB63_113
.LBB63_108:
	ldr	x13, [x1, #16]
	cbz	w15, .LBB63_110
.LBB63_109:
	mov	x12, x14
	lsr	x14, x14, #3
	mov	w15, #24
	madd	x14, x14, x15, x13
	ldur	x14, [x14, #-16]
	cbnz	x14, .LBB63_109
	b	.LBB63_113
.LBB63_110:
	mov	x12, x14
	add	x14, x13, x14, lsl #1
	ldur	x14, [x14, #-16]
	cbnz	x14, .LBB63_110
	b	.LBB63_113
.LBB63_111:
	ldr	x13, [x1, #8]
.LBB63_112:
	mov	x12, x14
	add	x14, x13, x14
	ldur	x14, [x14, #-8]
	cbnz	x14, .LBB63_112
.LBB63_113:
	cbz	x8, .LBB63_116
	ldrb	w10, [x1]
	cmp	w10, #2
	b.eq	.LBB63_117
	cmp	w10, #1
	ldr	x10, [x1, #8]
	add	x10, x10, x8
	stur	x4, [x10, #-8]
	b	.LBB63_121
.LBB63_116:
	str	x4, [x10]
	b	.LBB63_121
.LBB63_117:
	ldrb	w13, [x1, #8]
	ldr	x10, [x1, #16]
	cbz	w13, .LBB63_119
	lsr	x13, x8, #3
	mov	w14, #24
	madd	x10, x13, x14, x10
	b	.LBB63_120
.LBB63_119:
	add	x10, x10, x8, lsl #1
.LBB63_120:
	stur	x4, [x10, #-16]
.LBB63_121:
	cbz	w11, .LBB63_128
	ldrb	w10, [x1]
	cmp	w10, #2
	b.eq	.LBB63_124
	cmp	w10, #1
	ldr	x10, [x1, #8]
	add	x10, x10, x12
	stur	x9, [x10, #-8]
	b	.LBB63_128
.LBB63_124:
	ldrb	w11, [x1, #8]
	ldr	x10, [x1, #16]
	cbz	w11, .LBB63_126
	lsr	x11, x12, #3
	mov	w12, #24
	madd	x10, x11, x12, x10
	b	.LBB63_127
.LBB63_126:
	add	x10, x10, x12, lsl #1
.LBB63_127:
	stur	x9, [x10, #-16]
.LBB63_128:
	mov	w1, wzr
	str	x8, [x22, #24]
	ldp	x20, x19, [sp, #64]
	ldp	x22, x21, [sp, #48]
	ldp	x24, x23, [sp, #32]
	ldp	x29, x30, [sp, #16]
	add	sp, sp, #80
	ret
.LBB63_129:
	brk	#0x1
.Lfunc_end63:
	.size	ic_world.world.World.splice.27dc223f7d016e2e, .Lfunc_end63-ic_world.world.World.splice.27dc223f7d016e2e
	.section	.text.ic_chain.list.LinkList.splice_between.06e6478965f9faac,"ax",@progbits
	.p2align	2
	.type	ic_chain.list.LinkList.splice_between.06e6478965f9faac,@function
ic_chain.list.LinkList.splice_between.06e6478965f9faac:
	cbz	x4, .LBB64_15
	ldr	x8, [sp]
	tbz	w2, #0, .LBB64_4
	ldrb	w9, [x1]
	cmp	w9, #2
	b.eq	.LBB64_7
	cmp	w9, #1
	ldr	x9, [x1, #8]
	tst	w7, #0xff
	add	x9, x9, x3
	csel	x11, xzr, x8, eq
	ldur	x10, [x9, #-8]
	eor	x11, x11, x4
	eor	x10, x11, x10
	stur	x10, [x9, #-8]
	tbnz	w7, #0, .LBB64_5
	b	.LBB64_13
.LBB64_4:
	str	x4, [x0]
	tbz	w7, #0, .LBB64_13
.LBB64_5:
	ldrb	w9, [x1]
	cmp	w9, #2
	b.eq	.LBB64_9
	cmp	w9, #1
	ldr	x9, [x1, #8]
	tst	w2, #0xff
	add	x9, x9, x8
	csel	x10, xzr, x3, eq
	tst	w5, #0xff
	ldur	x11, [x9, #-8]
	csel	x12, xzr, x6, eq
	eor	x10, x12, x10
	eor	x10, x10, x11
	stur	x10, [x9, #-8]
	ldrb	w9, [x1]
	cmp	w9, #2
	b.ne	.LBB64_14
	b	.LBB64_18
.LBB64_7:
	ldrb	w10, [x1, #8]
	ldr	x9, [x1, #16]
	cbz	w10, .LBB64_11
	lsr	x10, x3, #3
	mov	w11, #24
	madd	x9, x10, x11, x9
	b	.LBB64_12
.LBB64_9:
	ldrb	w10, [x1, #8]
	ldr	x9, [x1, #16]
	cbz	w10, .LBB64_16
	lsr	x10, x8, #3
	mov	w11, #24
	madd	x9, x10, x11, x9
	b	.LBB64_17
.LBB64_11:
	add	x9, x9, x3, lsl #1
.LBB64_12:
	tst	w7, #0xff
	ldur	x10, [x9, #-16]
	csel	x11, xzr, x8, eq
	eor	x11, x11, x4
	eor	x10, x11, x10
	stur	x10, [x9, #-16]
	tbnz	w7, #0, .LBB64_5
.LBB64_13:
	tst	w5, #0xff
	csel	x9, xzr, x6, eq
	str	x9, [x0, #8]
	ldrb	w9, [x1]
	cmp	w9, #2
	b.eq	.LBB64_18
.LBB64_14:
	cmp	w9, #1
	ldr	x9, [x1, #8]
	tst	w2, #0xff
	add	x9, x9, x4
	csel	x11, xzr, x3, eq
	ldur	x10, [x9, #-8]
	eor	x10, x10, x11
	stur	x10, [x9, #-8]
	tbnz	w5, #0, .LBB64_22
.LBB64_15:
	ret
.LBB64_16:
	add	x9, x9, x8, lsl #1
.LBB64_17:
	tst	w2, #0xff
	ldur	x11, [x9, #-16]
	csel	x10, xzr, x3, eq
	tst	w5, #0xff
	csel	x12, xzr, x6, eq
	eor	x10, x12, x10
	eor	x10, x10, x11
	stur	x10, [x9, #-16]
	ldrb	w9, [x1]
	cmp	w9, #2
	b.ne	.LBB64_14
.LBB64_18:
	ldrb	w10, [x1, #8]
	ldr	x9, [x1, #16]
	cbz	w10, .LBB64_20
	lsr	x10, x4, #3
	mov	w11, #24
	madd	x9, x10, x11, x9
	b	.LBB64_21
.LBB64_20:
	add	x9, x9, x4, lsl #1
.LBB64_21:
	ldur	x10, [x9, #-16]
	tst	w2, #0xff
	csel	x11, xzr, x3, eq
	eor	x10, x10, x11
	stur	x10, [x9, #-16]
	tbz	w5, #0, .LBB64_15
.LBB64_22:
	ldrb	w9, [x1]
	cmp	w9, #2
	b.eq	.LBB64_24
	cmp	w9, #1
	ldr	x9, [x1, #8]
	tst	w7, #0xff
	add	x9, x9, x6
	csel	x8, xzr, x8, eq
	ldur	x10, [x9, #-8]
	eor	x8, x10, x8
	stur	x8, [x9, #-8]
	ret
.LBB64_24:
	ldrb	w10, [x1, #8]
	ldr	x9, [x1, #16]
	cbz	w10, .LBB64_26
	lsr	x10, x6, #3
	mov	w11, #24
	madd	x9, x10, x11, x9
	ldur	x10, [x9, #-16]
	tst	w7, #0xff
	csel	x8, xzr, x8, eq
	eor	x8, x10, x8
	stur	x8, [x9, #-16]
	ret
.LBB64_26:
	add	x9, x9, x6, lsl #1
	ldur	x10, [x9, #-16]
	tst	w7, #0xff
	csel	x8, xzr, x8, eq
	eor	x8, x10, x8
	stur	x8, [x9, #-16]
	ret
.Lfunc_end64:
	.size	ic_chain.list.LinkList.splice_between.06e6478965f9faac, .Lfunc_end64-ic_chain.list.LinkList.splice_between.06e6478965f9faac
	.section	.text.ic_world.collections_by_number.CollectionsByNumber.push.372c0babcfdcaee8,"ax",@progbits
	.p2align	2
	.type	ic_world.collections_by_number.CollectionsByNumber.push.372c0babcfdcaee8,@function
ic_world.collections_by_number.CollectionsByNumber.push.372c0babcfdcaee8:
	sub	sp, sp, #112
	stp	x24, x23, [sp, #64]
	ldp	x23, x8, [x1, #8]
	stp	x26, x25, [sp, #48]
	ldrb	w26, [x3]
	ldur	q0, [x3, #24]
	stp	x22, x21, [sp, #80]
	mov	x21, x2
	ldp	x24, x25, [x3, #8]
	cmp	x8, x23
	stp	x20, x19, [sp, #96]
	mov	x20, x1
	mov	x19, x0
	stp	x29, x30, [sp, #16]
	add	x29, sp, #16
	str	x27, [sp, #32]
	str	q0, [sp]
	b.eq	.LBB65_14
	lsr	x8, x21, #32
	cbnz	x8, .LBB65_4
.LBB65_2:
	ldr	x8, [x20, #32]
	cmp	x8, x21
	b.ls	.LBB65_6
.LBB65_3:
	mov	w8, #24
	ldr	x9, [x20, #24]
	madd	x22, x21, x8, x9
	mov	w8, #-2
	ldr	x27, [x22, #8]
	cmp	x27, x8
	b.ls	.LBB65_9
.LBB65_4:
	mov	w8, #3329
	str	xzr, [x19, #8]
	strh	w8, [x19]
	b	.LBB65_13
.LBB65_5:
	mov	w9, #24
	ldr	x10, [x20, #24]
	madd	x9, x8, x9, x10
	add	x8, x8, #1
	add	x10, x29, #24
	cmp	x8, x21
	stp	x10, xzr, [x9]
	str	xzr, [x9, #16]
	str	x8, [x20, #32]
	b.hi	.LBB65_3
.LBB65_6:
	ldr	x9, [x20, #40]
	cmp	x9, x8
	b.ne	.LBB65_5
	add	x0, x20, #24
	bl	std_alloc.vec.Vec.grow_amortized.6fd0d92cc040f46a
	cbz	w0, .LBB65_4
	ldr	x8, [x20, #32]
	b	.LBB65_5
.LBB65_9:
	ldr	x8, [x22, #16]
	cmp	x8, x27
	mov	x8, x27
	b.eq	.LBB65_16
.LBB65_10:
	mov	w9, #48
	ldr	x10, [x22]
	ldr	q0, [sp]
	madd	x9, x8, x9, x10
	add	x8, x8, #1
	stp	x23, x26, [x9]
	stp	x24, x25, [x9, #16]
	str	q0, [x9, #32]
	str	x8, [x22, #8]
	ldp	x8, x9, [x20, #8]
	cmp	x9, x8
	b.eq	.LBB65_18
.LBB65_11:
	ldr	x9, [x20]
	orr	x10, x21, x27, lsl #32
	add	x11, x8, #1
	str	x10, [x9, x8, lsl #3]
	str	x11, [x20, #8]
.LBB65_12:
	strh	wzr, [x19]
	str	x23, [x19, #8]
.LBB65_13:
	ldp	x20, x19, [sp, #96]
	ldr	x27, [sp, #32]
	ldp	x22, x21, [sp, #80]
	ldp	x24, x23, [sp, #64]
	ldp	x26, x25, [sp, #48]
	ldp	x29, x30, [sp, #16]
	add	sp, sp, #112
	ret
.LBB65_14:
	mov	x0, x20
	bl	std_alloc.vec.Vec.grow_amortized.6531aa12c3697aad
	cbz	w0, .LBB65_4
	ldr	x23, [x20, #8]
	lsr	x8, x21, #32
	cbz	x8, .LBB65_2
	b	.LBB65_4
.LBB65_16:
	mov	x0, x22
	bl	std_alloc.vec.Vec.grow_amortized.240d24d5d7197e22
	cbz	w0, .LBB65_4
	ldr	x8, [x22, #8]
	b	.LBB65_10
.LBB65_18:
	mov	x0, x20
	bl	std_alloc.vec.Vec.grow_amortized.6531aa12c3697aad
	cbz	w0, .LBB65_12
	ldr	x8, [x20, #8]
	b	.LBB65_11
.Lfunc_end65:
	.size	ic_world.collections_by_number.CollectionsByNumber.push.372c0babcfdcaee8, .Lfunc_end65-ic_world.collections_by_number.CollectionsByNumber.push.372c0babcfdcaee8
	.section	.text.unlikely.std_alloc.vec.Vec.grow_amortized.6531aa12c3697aad,"ax",@progbits
	.p2align	2
	.type	std_alloc.vec.Vec.grow_amortized.6531aa12c3697aad,@function
std_alloc.vec.Vec.grow_amortized.6531aa12c3697aad:
	ldr	x8, [x0, #8]
	cmn	x8, #1
	b.eq	.LBB66_5
	stp	x29, x30, [sp, #-32]!
	ldr	x9, [x0, #16]
	cmp	x8, #3
	mov	w10, #3
	csel	x11, x8, x10, hi
	stp	x20, x19, [sp, #16]
	mov	x29, sp
	lsl	x10, x9, #1
	add	x12, x11, #1
	lsr	x13, x9, #62
	cmp	x12, x10
	csinc	x10, x10, x11, ls
	cmp	x13, #0
	csinc	x19, x10, x11, eq
	lsr	x11, x19, #60
	cbnz	x11, .LBB66_7
	cbz	x9, .LBB66_6
	mov	x20, x0
	ldr	x0, [x0]
	lsl	x1, x8, #3
	lsl	x2, x19, #3
	mov	w3, #4
	bl	rattle_realloc
	tbz	w0, #0, .LBB66_7
.LBB66_4:
	mov	w0, #1
	str	x1, [x20]
	str	x19, [x20, #16]
	ldp	x20, x19, [sp, #16]
	ldp	x29, x30, [sp], #32
	ret
.LBB66_5:
	mov	w0, wzr
	ret
.LBB66_6:
	mov	x20, x0
	lsl	x0, x10, #3
	mov	w1, #4
	bl	rattle_alloc
	tbnz	w0, #0, .LBB66_4
.LBB66_7:
	mov	w0, wzr
	ldp	x20, x19, [sp, #16]
	ldp	x29, x30, [sp], #32
	ret
.Lfunc_end66:
	.size	std_alloc.vec.Vec.grow_amortized.6531aa12c3697aad, .Lfunc_end66-std_alloc.vec.Vec.grow_amortized.6531aa12c3697aad
	.section	.text.unlikely.std_alloc.vec.Vec.grow_amortized.6fd0d92cc040f46a,"ax",@progbits
	.p2align	2
	.type	std_alloc.vec.Vec.grow_amortized.6fd0d92cc040f46a,@function
std_alloc.vec.Vec.grow_amortized.6fd0d92cc040f46a:
	ldr	x8, [x0, #8]
	cmn	x8, #1
	b.eq	.LBB67_5
	stp	x29, x30, [sp, #-32]!
	ldr	x9, [x0, #16]
	cmp	x8, #3
	mov	w10, #3
	csel	x11, x8, x10, hi
	stp	x20, x19, [sp, #16]
	mov	x29, sp
	lsl	x10, x9, #1
	add	x12, x11, #1
	lsr	x13, x9, #62
	cmp	x12, x10
	csinc	x10, x10, x11, ls
	cmp	x13, #0
	csinc	x19, x10, x11, eq
	mov	x11, #6148914691236517205
	movk	x11, #1365, lsl #48
	cmp	x19, x11
	b.hi	.LBB67_7
	cbz	x9, .LBB67_6
	add	x8, x8, x8, lsl #1
	add	x9, x19, x19, lsl #1
	mov	x20, x0
	ldr	x0, [x0]
	mov	w3, #8
	lsl	x1, x8, #3
	lsl	x2, x9, #3
	bl	rattle_realloc
	tbz	w0, #0, .LBB67_7
.LBB67_4:
	mov	w0, #1
	str	x1, [x20]
	str	x19, [x20, #16]
	ldp	x20, x19, [sp, #16]
	ldp	x29, x30, [sp], #32
	ret
.LBB67_5:
	mov	w0, wzr
	ret
.LBB67_6:
	add	x8, x10, x10, lsl #1
	mov	x20, x0
	mov	w1, #8
	lsl	x0, x8, #3
	bl	rattle_alloc
	tbnz	w0, #0, .LBB67_4
.LBB67_7:
	mov	w0, wzr
	ldp	x20, x19, [sp, #16]
	ldp	x29, x30, [sp], #32
	ret
.Lfunc_end67:
	.size	std_alloc.vec.Vec.grow_amortized.6fd0d92cc040f46a, .Lfunc_end67-std_alloc.vec.Vec.grow_amortized.6fd0d92cc040f46a
	.section	.text.ic_world.world.World.hand_out.27dc223f7d016e2e,"ax",@progbits
	.p2align	2
	.type	ic_world.world.World.hand_out.27dc223f7d016e2e,@function
ic_world.world.World.hand_out.27dc223f7d016e2e:
	sub	sp, sp, #144
	ldr	x8, [x1, #80]
	stp	x29, x30, [sp, #64]
	add	x29, sp, #64
	str	x25, [sp, #80]
	cmp	x8, x2
	stp	x24, x23, [sp, #96]
	stp	x22, x21, [sp, #112]
	stp	x20, x19, [sp, #128]
	stp	xzr, xzr, [x29, #-16]
	b.ls	.LBB68_6
	ldur	x8, [x1, #72]
	lsl	x21, x2, #3
	add	x9, x8, x21
	ldr	w8, [x9, #4]
	cmn	w8, #1
	b.eq	.LBB68_6
	ldr	w19, [x9]
	mov	w9, #24
	ldr	x10, [x1, #96]
	mov	w11, #48
	umull	x9, w19, w9
	ldr	x9, [x10, x9]
	umaddl	x8, w8, w11, x9
	ands	w9, w3, #0xff
	ldrb	w8, [x8, #8]
	b.eq	.LBB68_9
	cmp	w9, #1
	b.ne	.LBB68_8
	cmp	w8, #3
	b.ne	.LBB68_9
.LBB68_5:
	mov	w8, #769
	b	.LBB68_7
.LBB68_6:
	mov	w8, #257
.LBB68_7:
	strh	w8, [x0]
	str	xzr, [x0, #8]
	b	.LBB68_81
.LBB68_8:
	sub	w9, w8, #1
	cmp	w9, #2
	b.hs	.LBB68_5
.LBB68_9:
	movi	v0.2d, #0000000000000000
	mov	w22, w3
	mov	x24, x0
	sub	x0, x29, #16
	mov	x25, x1
	add	x1, x1, #72
	add	x3, sp, #8
	mov	x2, x19
	str	x8, [sp, #8]
	stp	q0, q0, [sp, #16]
	bl	ic_world.collections_by_number.CollectionsByNumber.push.372c0babcfdcaee8
	ldurb	w20, [x29, #-16]
	cmp	w20, #1
	b.ne	.LBB68_11
	ldurb	w11, [x29, #-15]
	mov	x21, xzr
	mov	x10, x24
	b	.LBB68_80
.LBB68_11:
	ldr	x8, [x25, #72]
	mov	w11, #24
	mov	w12, #48
	mov	x9, x25
	add	x8, x8, x21
	ldur	x21, [x29, #-8]
	ldp	w10, w8, [x8]
	umull	x10, w10, w11
	ldr	x11, [x25, #96]
	ldr	x10, [x11, x10]
	umaddl	x23, w8, w12, x10
	ldr	x8, [x25, #48]
	umaddl	x1, w19, w12, x8
	and	w8, w22, #0xff
	cmp	w8, #2
	ldrb	w22, [x23, #8]
	b.eq	.LBB68_19
	cmp	w8, #1
	mov	x10, x24
	b.ne	.LBB68_24
	cmp	w22, #1
	b.gt	.LBB68_34
	cbnz	w22, .LBB68_37
	ldr	x11, [x23, #24]
	cbz	x11, .LBB68_47
	ldrb	w8, [x1]
	cbz	w8, .LBB68_18
	cmp	w8, #1
	b.ne	.LBB68_69
.LBB68_18:
	ldr	x8, [x1, #8]
	add	x8, x8, x11
	ldur	x0, [x8, #-8]
	stur	xzr, [x8, #-8]
	b	.LBB68_78
.LBB68_19:
	cmp	w22, #1
	b.gt	.LBB68_27
	b.ne	.LBB68_82
	ldrb	w8, [x1]
	cmp	w8, #2
	b.ne	.LBB68_82
	ldr	x11, [x23, #32]
	mov	x10, x24
	lsr	x12, x11, #3
	cbz	x11, .LBB68_42
	mov	w8, #24
	ldr	x13, [x1, #16]
	ldrb	w14, [x1, #8]
	madd	x8, x12, x8, x13
	add	x13, x13, x11, lsl #1
	cmp	w14, #0
	sub	x13, x13, #8
	sub	x8, x8, #24
	csel	x8, x13, x8, eq
	b	.LBB68_43
.LBB68_24:
	movi	v1.2d, #0000000000000000
	ldp	x0, x8, [x23, #16]
	ldr	q0, [x23, #32]
	cmp	w22, #1
	str	x22, [x23, #8]
	stp	q1, q1, [x23, #16]
	b.gt	.LBB68_31
	cbz	w22, .LBB68_33
	mov	v0.d[0], xzr
	b	.LBB68_79
.LBB68_27:
	cmp	w22, #2
	b.ne	.LBB68_82
	ldr	x5, [x23, #32]
	cbz	x5, .LBB68_41
	ldrb	w9, [x1]
	ldr	x8, [x23, #40]
	cmp	w9, #2
	eor	x8, x8, x5
	b.eq	.LBB68_60
	cmp	w9, #1
	ldr	x9, [x1, #8]
	add	x9, x9, x5
	sub	x9, x9, #8
	b	.LBB68_73
.LBB68_31:
	cmp	w22, #2
	b.ne	.LBB68_33
	movi	v0.2d, #0000000000000000
	b	.LBB68_79
.LBB68_33:
	mov	x8, xzr
	b	.LBB68_79
.LBB68_34:
	cmp	w22, #2
	b.ne	.LBB68_82
	ldr	x19, [x23, #32]
	cbz	x19, .LBB68_48
	ldr	x8, [x23, #40]
	cmp	x8, x19
	eor	x5, x8, x19
	b	.LBB68_49
.LBB68_37:
	ldrb	w8, [x1]
	cmp	w8, #2
	b.ne	.LBB68_82
	ldr	x11, [x23, #32]
	cbz	x11, .LBB68_50
	lsr	x8, x11, #2
	ldrb	w15, [x1, #8]
	lsl	x12, x11, #1
	ldr	x13, [x1, #16]
	add	x8, x8, x11, lsr #3
	cmp	w15, #0
	lsl	x14, x8, #3
	csel	x8, x12, x14, eq
	add	x8, x13, x8
	ldur	x0, [x8, #-16]
	add	x8, x23, #24
	cbz	w15, .LBB68_62
	add	x12, x13, x14
	b	.LBB68_63
.LBB68_41:
	ldr	x3, [x23, #24]
	cmp	x3, #0
	b	.LBB68_74
.LBB68_42:
	add	x8, x23, #24
.LBB68_43:
	ldr	x8, [x8]
	cbz	x8, .LBB68_46
	ldrb	w14, [x1, #8]
	ldr	x13, [x1, #16]
	cbz	w14, .LBB68_52
	lsr	x14, x8, #3
	mov	w15, #24
	madd	x13, x14, x15, x13
	b	.LBB68_53
.LBB68_46:
	str	xzr, [x23, #16]
	b	.LBB68_54
.LBB68_47:
	ldr	x0, [x23, #16]
	str	xzr, [x23, #16]
	b	.LBB68_78
.LBB68_48:
	ldur	x5, [x23, #16]
	cmp	x5, #0
.LBB68_49:
	cset	w4, ne
	cmp	x19, #0
	add	x0, x23, #16
	cset	w2, ne
	mov	x3, x19
	bl	ic_chain.list.LinkList.split_between.06e6478965f9faac
	movi	v0.2d, #0000000000000000
	mov	x8, x1
	stp	x19, x19, [x23, #32]
	b	.LBB68_75
.LBB68_50:
	ldr	x0, [x23, #16]
	str	xzr, [x23, #16]
	cbnz	x0, .LBB68_64
	add	x8, x23, #24
	b	.LBB68_66
.LBB68_52:
	add	x13, x13, x8, lsl #1
.LBB68_53:
	stur	xzr, [x13, #-16]
.LBB68_54:
	cbz	x11, .LBB68_57
	ldrb	w14, [x1, #8]
	ldr	x13, [x1, #16]
	cbz	w14, .LBB68_58
	mov	w14, #24
	madd	x12, x12, x14, x13
	stur	xzr, [x12, #-24]
	b	.LBB68_59
.LBB68_57:
	str	xzr, [x23, #24]
	b	.LBB68_59
.LBB68_58:
	add	x12, x13, x11, lsl #1
	stur	xzr, [x12, #-8]
.LBB68_59:
	ldr	x0, [x23, #16]
	movi	v0.2d, #0000000000000000
	str	x11, [x23, #16]
	b	.LBB68_79
.LBB68_60:
	ldrb	w10, [x1, #8]
	ldr	x9, [x1, #16]
	cbz	w10, .LBB68_71
	lsr	x10, x5, #3
	mov	w11, #24
	madd	x9, x10, x11, x9
	b	.LBB68_72
.LBB68_62:
	add	x12, x13, x12
.LBB68_63:
	stur	xzr, [x12, #-16]
	cbz	x0, .LBB68_66
.LBB68_64:
	ldrb	w12, [x1, #8]
	ldr	x8, [x1, #16]
	cbz	w12, .LBB68_67
	lsr	x12, x0, #3
	mov	w13, #24
	madd	x8, x12, x13, x8
	stur	xzr, [x8, #-24]
	b	.LBB68_68
.LBB68_66:
	mov	x0, xzr
	str	xzr, [x8]
	b	.LBB68_68
.LBB68_67:
	add	x8, x8, x0, lsl #1
	stur	xzr, [x8, #-8]
.LBB68_68:
	ldr	x8, [x23, #24]
	movi	v0.2d, #0000000000000000
	stp	x11, x11, [x23, #24]
	b	.LBB68_79
.LBB68_69:
	ldrb	w12, [x1, #8]
	ldr	x8, [x1, #16]
	cbz	w12, .LBB68_76
	lsr	x12, x11, #3
	mov	w13, #24
	madd	x8, x12, x13, x8
	b	.LBB68_77
.LBB68_71:
	add	x9, x9, x5, lsl #1
.LBB68_72:
	sub	x9, x9, #16
.LBB68_73:
	ldr	x9, [x9]
	cmp	x9, x8
	eor	x3, x9, x8
.LBB68_74:
	cset	w2, ne
	cmp	x5, #0
	add	x0, x23, #16
	cset	w4, ne
	bl	ic_chain.list.LinkList.split_between.06e6478965f9faac
	mov	x9, x0
	ldp	x0, x8, [x23, #16]
	movi	v0.2d, #0000000000000000
	stp	x9, x1, [x23, #16]
.LBB68_75:
	mov	x10, x24
	mov	x9, x25
	b	.LBB68_79
.LBB68_76:
	add	x8, x8, x11, lsl #1
.LBB68_77:
	ldur	x0, [x8, #-16]
	stur	xzr, [x8, #-16]
.LBB68_78:
	mov	x8, xzr
	movi	v0.2d, #0000000000000000
	str	x11, [x23, #24]
.LBB68_79:
	ldr	x12, [x9, #72]
	mov	w14, #24
	ldr	x9, [x9, #96]
	mov	w11, wzr
	add	x12, x12, x21, lsl #3
	ldp	w13, w12, [x12]
	umull	x13, w13, w14
	mov	w14, #48
	ldr	x9, [x9, x13]
	umaddl	x9, w12, w14, x9
	stp	x22, x0, [x9, #8]
	str	x8, [x9, #24]
	str	q0, [x9, #32]
.LBB68_80:
	strb	w20, [x10]
	strb	w11, [x10, #1]
	str	x21, [x10, #8]
.LBB68_81:
	ldp	x20, x19, [sp, #128]
	ldr	x25, [sp, #80]
	ldp	x22, x21, [sp, #112]
	ldp	x24, x23, [sp, #96]
	ldp	x29, x30, [sp, #64]
	add	sp, sp, #144
	ret
.LBB68_82:
	brk	#0x1
.Lfunc_end68:
	.size	ic_world.world.World.hand_out.27dc223f7d016e2e, .Lfunc_end68-ic_world.world.World.hand_out.27dc223f7d016e2e
	.section	.text.ic_chain.list.LinkList.split_between.06e6478965f9faac,"ax",@progbits
	.p2align	2
	.type	ic_chain.list.LinkList.split_between.06e6478965f9faac,@function
ic_chain.list.LinkList.split_between.06e6478965f9faac:
	mov	x8, x0
	tbz	w2, #0, .LBB69_3
	ldrb	w9, [x1]
	cmp	w9, #2
	b.eq	.LBB69_6
	cmp	w9, #1
	ldr	x9, [x1, #8]
	tst	w4, #0xff
	add	x9, x9, x3
	csel	x11, xzr, x5, eq
	ldur	x10, [x9, #-8]
	eor	x10, x10, x11
	stur	x10, [x9, #-8]
	tbnz	w4, #0, .LBB69_4
	b	.LBB69_12
.LBB69_3:
	str	xzr, [x8]
	tbz	w4, #0, .LBB69_12
.LBB69_4:
	ldrb	w9, [x1]
	cmp	w9, #2
	b.eq	.LBB69_8
	cmp	w9, #1
	ldr	x9, [x1, #8]
	tst	w2, #0xff
	add	x9, x9, x5
	csel	x11, xzr, x3, eq
	ldur	x10, [x9, #-8]
	eor	x10, x10, x11
	stur	x10, [x9, #-8]
	b	.LBB69_15
.LBB69_6:
	ldrb	w10, [x1, #8]
	ldr	x9, [x1, #16]
	cbz	w10, .LBB69_10
	lsr	x10, x3, #3
	mov	w11, #24
	madd	x9, x10, x11, x9
	b	.LBB69_11
.LBB69_8:
	ldrb	w10, [x1, #8]
	ldr	x9, [x1, #16]
	cbz	w10, .LBB69_13
	lsr	x10, x5, #3
	mov	w11, #24
	madd	x9, x10, x11, x9
	b	.LBB69_14
.LBB69_10:
	add	x9, x9, x3, lsl #1
.LBB69_11:
	ldur	x10, [x9, #-16]
	tst	w4, #0xff
	csel	x11, xzr, x5, eq
	eor	x10, x10, x11
	stur	x10, [x9, #-16]
	tbnz	w4, #0, .LBB69_4
.LBB69_12:
	str	xzr, [x8, #8]
	b	.LBB69_15
.LBB69_13:
	add	x9, x9, x5, lsl #1
.LBB69_14:
	ldur	x10, [x9, #-16]
	tst	w2, #0xff
	csel	x11, xzr, x3, eq
	eor	x10, x10, x11
	stur	x10, [x9, #-16]
.LBB69_15:
	tst	w4, #0xff
	ldr	x1, [x8, #8]
	csel	x0, xzr, x5, eq
	tst	w2, #0xff
	csel	x9, xzr, x3, eq
	str	x9, [x8, #8]
	ret
.Lfunc_end69:
	.size	ic_chain.list.LinkList.split_between.06e6478965f9faac, .Lfunc_end69-ic_chain.list.LinkList.split_between.06e6478965f9faac
	.section	.text.ic_any_collection.any_collection.AnyCollection.listed.0c0338d7a6570a46,"ax",@progbits
	.p2align	2
	.type	ic_any_collection.any_collection.AnyCollection.listed.0c0338d7a6570a46,@function
ic_any_collection.any_collection.AnyCollection.listed.0c0338d7a6570a46:
	sub	sp, sp, #112
	ldrb	w8, [x1]
	stp	x29, x30, [sp, #32]
	add	x29, sp, #32
	stp	x22, x21, [sp, #80]
	mov	x21, x1
	add	x9, x29, #24
	stp	x20, x19, [sp, #96]
	mov	x20, x2
	mov	x19, x0
	cmp	w8, #1
	str	x25, [sp, #48]
	stp	x24, x23, [sp, #64]
	stp	xzr, xzr, [sp, #16]
	str	x9, [sp, #8]
	b.le	.LBB70_2
	cmp	w8, #2
	b.ne	.LBB70_3
.LBB70_2:
	ldr	x22, [x21, #8]
	cbnz	x22, .LBB70_8
	b	.LBB70_16
.LBB70_3:
	ldrb	w8, [x20]
	cmp	w8, #2
	b.ne	.LBB70_23
	ldrb	w8, [x20, #8]
	cmp	w8, #1
	b.ne	.LBB70_23
	ldr	x8, [x21, #8]
	cbz	x8, .LBB70_16
	ldr	x9, [x20, #16]
	sub	x9, x9, #24
.LBB70_7:
	mov	x22, x8
	lsr	x8, x8, #3
	mov	w10, #24
	mul	x8, x8, x10
	ldr	x8, [x9, x8]
	cbnz	x8, .LBB70_7
.LBB70_8:
	ldp	x8, x9, [sp, #16]
	cmp	x9, x8
	b.eq	.LBB70_18
	add	x23, x29, #24
.LBB70_10:
	add	x24, x8, #1
	mov	x0, x21
	mov	x1, x20
	mov	w2, wzr
	mov	x3, xzr
	mov	x4, x22
	str	x22, [x23, x8, lsl #3]
	str	x24, [sp, #16]
	bl	ic_any_collection.any_collection.AnyCollection.after.87ed5b954c3afc77
	and	w8, w0, #0xff
	cmp	w8, #1
	b.ne	.LBB70_16
	mov	x3, x22
	b	.LBB70_13
.LBB70_12:
	mov	x22, x1
	str	x1, [x23, x24, lsl #3]
	add	x24, x24, #1
	mov	x0, x21
	mov	x1, x20
	mov	w2, #1
	mov	x4, x22
	str	x24, [sp, #16]
	bl	ic_any_collection.any_collection.AnyCollection.after.87ed5b954c3afc77
	and	w8, w0, #0xff
	mov	x3, x22
	cmp	w8, #1
	b.ne	.LBB70_16
.LBB70_13:
	ldr	x8, [sp, #24]
	cmp	x8, x24
	b.ne	.LBB70_12
	add	x0, sp, #8
	mov	x22, x1
	mov	x25, x3
	bl	std_alloc.vec.Vec.grow_amortized.34b4ac368a9081d8
	cbz	w0, .LBB70_20
	ldp	x23, x24, [sp, #8]
	mov	x3, x25
	mov	x1, x22
	b	.LBB70_12
.LBB70_16:
	ldur	q0, [sp, #8]
	ldr	x8, [sp, #24]
	strb	wzr, [x19]
	stur	q0, [x19, #8]
	str	x8, [x19, #24]
.LBB70_17:
	ldp	x20, x19, [sp, #96]
	ldr	x25, [sp, #48]
	ldp	x22, x21, [sp, #80]
	ldp	x24, x23, [sp, #64]
	ldp	x29, x30, [sp, #32]
	add	sp, sp, #112
	ret
.LBB70_18:
	add	x0, sp, #8
	bl	std_alloc.vec.Vec.grow_amortized.34b4ac368a9081d8
	cbz	w0, .LBB70_20
	ldp	x23, x8, [sp, #8]
	b	.LBB70_10
.LBB70_20:
	ldr	x8, [sp, #24]
	cbz	x8, .LBB70_22
	ldr	x0, [sp, #8]
	bl	rattle_dealloc
.LBB70_22:
	mov	w8, #1
	stp	xzr, xzr, [x19, #16]
	strb	w8, [x19]
	str	xzr, [x19, #8]
	b	.LBB70_17
.LBB70_23:
	brk	#0x1
.Lfunc_end70:
	.size	ic_any_collection.any_collection.AnyCollection.listed.0c0338d7a6570a46, .Lfunc_end70-ic_any_collection.any_collection.AnyCollection.listed.0c0338d7a6570a46
	.section	.text.core.slice.edits.mirror.27.ic_unsafe_ref.place.Place,"ax",@progbits
	.p2align	2
	.type	core.slice.edits.mirror.27.ic_unsafe_ref.place.Place,@function
core.slice.edits.mirror.27.ic_unsafe_ref.place.Place:
	lsl	x8, x2, #3
	add	x9, x1, x8
	add	x8, x0, x8
	cmp	x0, x9
	ccmp	x1, x8, #2, lo
	b.lo	.LBB71_4
	add	x9, x1, x2, lsl #3
	and	x8, x2, #0x7ffffffffffffffe
	mov	x10, x0
	and	x11, x2, #0x7ffffffffffffffe
	sub	x9, x9, #16
.LBB71_2:
	ldr	q0, [x9]
	ldr	q1, [x10]
	subs	x11, x11, #2
	ext	v0.16b, v0.16b, v0.16b, #8
	ext	v1.16b, v1.16b, v1.16b, #8
	str	q0, [x10], #16
	str	q1, [x9], #-16
	b.ne	.LBB71_2
	cmp	x2, x8
	b.ne	.LBB71_5
	b	.LBB71_7
.LBB71_4:
	mov	x8, xzr
.LBB71_5:
	add	x9, x0, x8, lsl #3
	sub	x8, x2, x8
	sub	x10, x1, #8
.LBB71_6:
	ldr	x11, [x10, x8, lsl #3]
	ldr	x12, [x9]
	str	x11, [x9], #8
	str	x12, [x10, x8, lsl #3]
	subs	x8, x8, #1
	b.ne	.LBB71_6
.LBB71_7:
	ret
.Lfunc_end71:
	.size	core.slice.edits.mirror.27.ic_unsafe_ref.place.Place, .Lfunc_end71-core.slice.edits.mirror.27.ic_unsafe_ref.place.Place
	.section	.rodata.cst8,"aM",@progbits,8
	.p2align	3, 0x0
.LCPI72_0:
	.byte	105
	.byte	116
	.byte	101
	.byte	109
	.zero	1
	.zero	1
	.zero	1
	.zero	1
	.section	.text.ic_program.answers.push_items.714b863a58920bda,"ax",@progbits
	.p2align	2
	.type	ic_program.answers.push_items.714b863a58920bda,@function
ic_program.answers.push_items.714b863a58920bda:
	stp	x29, x30, [sp, #-80]!
	stp	x26, x25, [sp, #16]
	mov	x25, x0
	mov	x29, sp
	ldp	x8, x26, [x25, #8]!
	stp	x24, x23, [sp, #32]
	mov	x23, x1
	stp	x22, x21, [sp, #48]
	mov	x21, x4
	mov	x22, x2
	sub	x9, x26, x8
	stp	x20, x19, [sp, #64]
	mov	x20, x3
	mov	x19, x0
	cmp	x9, #4
	b.ls	.LBB72_19
.LBB72_1:
	ldr	x9, [x19]
	adrp	x11, .Lstatic.81
	add	x11, x11, :lo12:.Lstatic.81
	add	x10, x9, x8
	add	x8, x8, #5
	sub	x11, x10, x11
	cmp	x11, #4
	b.hi	.LBB72_3
	adrp	x11, .LCPI72_0
	ldr	d0, [x11, :lo12:.LCPI72_0]
	mov	w11, #115
	strb	w11, [x10, #4]
	str	s0, [x10]
	stp	x9, x8, [x19]
	str	x26, [x19, #16]
	cbnz	x22, .LBB72_4
	b	.LBB72_7
.LBB72_3:
	mov	w12, #29801
	mov	w11, #115
	movk	w12, #28005, lsl #16
	strb	w11, [x10, #4]
	str	w12, [x10]
	stp	x9, x8, [x19]
	str	x26, [x19, #16]
	cbz	x22, .LBB72_7
.LBB72_4:
	ldr	x8, [x23], #8
	adrp	x1, .Lstatic.82
	add	x1, x1, :lo12:.Lstatic.82
	adrp	x4, .Lstatic.80
	add	x4, x4, :lo12:.Lstatic.80
	lsr	x8, x8, #3
	mov	x0, x19
	mov	w2, #1
	mov	x5, xzr
	mov	w24, #1
	sub	x3, x8, #1
	bl	ic_program.answers.push_numbered.714b863a58920bda
	and	w8, w0, #0xff
	tbnz	w8, #0, .LBB72_18
	subs	x22, x22, #1
	b.ne	.LBB72_4
	ldp	x8, x26, [x19, #8]
.LBB72_7:
	sub	x9, x26, x8
	cmp	x21, x9
	b.hi	.LBB72_21
.LBB72_8:
	ldr	x22, [x19]
	add	x23, x8, x21
	stp	xzr, xzr, [x25]
	add	x0, x22, x8
	sub	x9, x0, x20
	cmp	x9, x21
	b.hs	.LBB72_16
	ldrb	w8, [x20]
	cmp	x21, #1
	strb	w8, [x0]
	b.eq	.LBB72_17
	ldrb	w8, [x20, #1]
	cmp	x21, #2
	strb	w8, [x0, #1]
	b.eq	.LBB72_17
	ldrb	w8, [x20, #2]
	cmp	x21, #3
	strb	w8, [x0, #2]
	b.eq	.LBB72_17
	ldrb	w8, [x20, #3]
	cmp	x21, #4
	strb	w8, [x0, #3]
	b.eq	.LBB72_17
	ldrb	w8, [x20, #4]
	cmp	x21, #5
	strb	w8, [x0, #4]
	b.eq	.LBB72_17
	ldrb	w8, [x20, #5]
	cmp	x21, #6
	strb	w8, [x0, #5]
	b.eq	.LBB72_17
	ldrb	w8, [x20, #6]
	strb	w8, [x0, #6]
	b	.LBB72_17
.LBB72_16:
	mov	x1, x20
	mov	x2, x21
	bl	memmove
.LBB72_17:
	mov	w24, wzr
	stp	x22, x23, [x19]
	str	x26, [x19, #16]
.LBB72_18:
	mov	w0, w24
	ldp	x20, x19, [sp, #64]
	ldp	x22, x21, [sp, #48]
	ldp	x24, x23, [sp, #32]
	ldp	x26, x25, [sp, #16]
	ldp	x29, x30, [sp], #80
	ret
.LBB72_19:
	mov	x0, x19
	mov	w1, #5
	bl	std_alloc.vec.Vec.grow_amortized.3f7cc1ad5d64d7d7
	cbz	w0, .LBB72_23
	ldp	x8, x26, [x19, #8]
	b	.LBB72_1
.LBB72_21:
	mov	x0, x19
	mov	x1, x21
	bl	std_alloc.vec.Vec.grow_amortized.3f7cc1ad5d64d7d7
	cbz	w0, .LBB72_23
	ldp	x8, x26, [x19, #8]
	b	.LBB72_8
.LBB72_23:
	mov	w24, #1
	b	.LBB72_18
.Lfunc_end72:
	.size	ic_program.answers.push_items.714b863a58920bda, .Lfunc_end72-ic_program.answers.push_items.714b863a58920bda
	.section	.text.unlikely.ic_program.session.stop_at,"ax",@progbits
	.p2align	2
	.type	ic_program.session.stop_at,@function
ic_program.session.stop_at:
	sub	sp, sp, #64
	stp	x20, x19, [sp, #48]
	mov	x20, x0
	mov	x0, x1
	mov	x1, x2
	stp	x29, x30, [sp, #32]
	add	x29, sp, #32
	mov	x19, x3
	stp	xzr, xzr, [sp, #8]
	str	xzr, [sp, #24]
	bl	ic_program.text.first_line
	mov	x2, x0
	mov	x3, x1
	add	x0, sp, #8
	mov	x1, x2
	mov	x2, x3
	bl	core.str.utf8.from_utf8
	ldrb	w8, [sp, #8]
	ldp	x29, x30, [sp, #32]
	cmp	x8, #0
	stp	x8, xzr, [x20]
	csel	x8, xzr, x19, eq
	str	x8, [x20, #16]
	ldp	x20, x19, [sp, #48]
	add	sp, sp, #64
	ret
.Lfunc_end73:
	.size	ic_program.session.stop_at, .Lfunc_end73-ic_program.session.stop_at
	.section	.text.unlikely.ic_program.text.first_line,"ax",@progbits
	.p2align	2
	.type	ic_program.text.first_line,@function
ic_program.text.first_line:
	cbz	x1, .LBB74_10
	mov	x9, xzr
	mov	x8, xzr
	b	.LBB74_4
.LBB74_2:
	ldrb	w10, [x0, x8]
	cmp	w10, #10
	b.eq	.LBB74_9
.LBB74_3:
	add	x8, x8, #1
	sub	x9, x9, #1
	cmp	x1, x8
	b.eq	.LBB74_10
.LBB74_4:
	add	x10, x1, x9
	cmp	x10, #1
	b.eq	.LBB74_2
	cbz	x10, .LBB74_10
	ldrb	w10, [x0, x8]
	cmp	w10, #13
	b.eq	.LBB74_8
	cmp	w10, #10
	b.ne	.LBB74_3
	b	.LBB74_9
.LBB74_8:
	add	x10, x0, x8
	ldrb	w10, [x10, #1]
	cmp	w10, #10
	b.ne	.LBB74_3
.LBB74_9:
	mov	x1, x8
	ret
.LBB74_10:
	ret
.Lfunc_end74:
	.size	ic_program.text.first_line, .Lfunc_end74-ic_program.text.first_line
	.section	.text.unlikely.ic_program.session.Session.write_some.61c60e3f83b1098c,"ax",@progbits
	.p2align	2
	.type	ic_program.session.Session.write_some.61c60e3f83b1098c,@function
ic_program.session.Session.write_some.61c60e3f83b1098c:
	sub	sp, sp, #64
	mov	x8, x2
	ldp	x2, x3, [x1, #120]
	stp	x20, x19, [sp, #48]
	mov	x20, x1
	mov	x19, x0
	add	x0, sp, #8
	mov	x1, x8
	stp	x29, x30, [sp, #32]
	add	x29, sp, #32
	stp	xzr, xzr, [sp, #8]
	str	xzr, [sp, #24]
	bl	ic_program.writing.write_whole.40d1f5182270a21e
	ldr	x8, [x20, #128]
	cbz	x8, .LBB75_2
	str	xzr, [x20, #128]
.LBB75_2:
	ldrb	w8, [sp, #8]
	ldrb	w9, [sp, #16]
	ldr	x10, [sp, #24]
	ldp	x29, x30, [sp, #32]
	cmp	x8, #0
	strb	w8, [x19]
	csel	w9, wzr, w9, eq
	and	x9, x9, #0xff
	stp	x8, x9, [x19, #8]
	csel	x8, xzr, x10, eq
	str	x8, [x19, #24]
	ldp	x20, x19, [sp, #48]
	add	sp, sp, #64
	ret
.Lfunc_end75:
	.size	ic_program.session.Session.write_some.61c60e3f83b1098c, .Lfunc_end75-ic_program.session.Session.write_some.61c60e3f83b1098c
	.section	.rodata.cst16,"aM",@progbits,16
	.p2align	4, 0x0
.LCPI76_0:
	.byte	0
	.byte	1
	.byte	2
	.byte	3
	.byte	4
	.byte	5
	.byte	6
	.byte	7
	.byte	8
	.byte	9
	.byte	10
	.byte	11
	.byte	12
	.byte	13
	.byte	14
	.byte	15
.LCPI76_1:
	.byte	16
	.byte	17
	.byte	18
	.byte	19
	.byte	20
	.byte	21
	.byte	22
	.byte	23
	.byte	24
	.byte	25
	.byte	26
	.byte	27
	.byte	28
	.byte	29
	.byte	30
	.byte	31
.LCPI76_3:
	.xword	2
	.xword	0
	.section	.rodata.cst8,"aM",@progbits,8
	.p2align	3, 0x0
.LCPI76_2:
	.byte	32
	.byte	33
	.byte	34
	.byte	35
	.byte	36
	.byte	37
	.byte	38
	.byte	39
	.section	.text.ic_program.writing.write_whole.40d1f5182270a21e,"ax",@progbits
	.p2align	2
	.type	ic_program.writing.write_whole.40d1f5182270a21e,@function
ic_program.writing.write_whole.40d1f5182270a21e:
	sub	sp, sp, #176
	stp	x24, x23, [sp, #128]
	mov	x23, xzr
	stp	x22, x21, [sp, #144]
	mov	x21, x2
	mov	x22, x1
	stp	x20, x19, [sp, #160]
	mov	x20, x3
	mov	x19, x0
	stp	x29, x30, [sp, #96]
	add	x29, sp, #96
	stp	x26, x25, [sp, #112]
.LBB76_1:
	cbz	x20, .LBB76_26
	ldp	x25, x24, [x22, #16]
	movi	v0.2d, #0000000000000000
	sub	x8, x24, x25
	cmp	x20, x8
	stp	q0, q0, [sp]
	stp	q0, q0, [sp, #32]
	stp	q0, q0, [sp, #64]
	b.hs	.LBB76_22
	ldr	x26, [x22, #8]
	stp	xzr, xzr, [x22, #16]
	add	x8, x26, x25
	sub	x8, x8, x21
	cmp	x8, x20
	b.hs	.LBB76_9
	cmp	x20, #8
	b.lo	.LBB76_6
	add	x8, x25, x26
	sub	x8, x8, x21
	cmp	x8, #32
	b.hs	.LBB76_13
.LBB76_6:
	mov	x8, xzr
.LBB76_7:
	add	x10, x8, x25
	sub	x9, x20, x8
	add	x8, x21, x8
	add	x10, x26, x10
.LBB76_8:
	ldrb	w11, [x8], #1
	subs	x9, x9, #1
	strb	w11, [x10], #1
	b.ne	.LBB76_8
	b	.LBB76_10
.LBB76_9:
	add	x0, x26, x25
	mov	x1, x21
	mov	x2, x20
	bl	memmove
.LBB76_10:
	add	x8, x25, x20
	lsr	x9, x20, #8
	str	x24, [x22, #24]
	stp	x26, x8, [x22, #8]
	mov	x8, x20
	bfi	x8, x9, #8, #8
	cbz	x8, .LBB76_30
.LBB76_11:
	add	x21, x21, x8
	sub	x20, x20, x8
.LBB76_12:
	add	x23, x23, #1
	cmn	x23, #1
	b.ne	.LBB76_1
	b	.LBB76_27
.LBB76_13:
	cmp	x20, #32
	b.hs	.LBB76_15
	mov	x8, xzr
	b	.LBB76_19
.LBB76_15:
	add	x11, x26, x25
	and	x9, x20, #0x18
	and	x8, x20, #0xffffffffffffffe0
	add	x10, x21, #16
	add	x11, x11, #16
	and	x12, x20, #0xffffffffffffffe0
.LBB76_16:
	ldp	q0, q1, [x10, #-16]
	subs	x12, x12, #32
	add	x10, x10, #32
	stp	q0, q1, [x11, #-16]
	add	x11, x11, #32
	b.ne	.LBB76_16
	cmp	x20, x8
	b.eq	.LBB76_10
	cbz	x9, .LBB76_7
.LBB76_19:
	mov	x10, x8
	and	x8, x20, #0xfffffffffffffff8
	add	x11, x10, x25
	sub	x9, x10, x8
	add	x10, x21, x10
	add	x11, x26, x11
.LBB76_20:
	ldr	d0, [x10], #8
	adds	x9, x9, #8
	str	d0, [x11], #8
	b.ne	.LBB76_20
	cmp	x20, x8
	b.eq	.LBB76_10
	b	.LBB76_7
.LBB76_22:
	mov	x0, sp
	mov	x1, x22
	mov	x2, x21
	mov	x3, x20
	bl	std.io.buffered.BufWriter.write_cold.3e795ebea2bd6aa3
	ldrb	w9, [sp]
	ldr	x8, [sp, #8]
	cbz	w9, .LBB76_25
	adrp	x9, .LCPI76_0
	adrp	x10, .LCPI76_1
	ldr	q0, [x9, :lo12:.LCPI76_0]
	adrp	x9, .LCPI76_2
	ldr	q1, [x10, :lo12:.LCPI76_1]
	ubfx	w10, w8, #8, #8
	ldr	d2, [x9, :lo12:.LCPI76_2]
	mov	w9, #40
	stp	q0, q1, [sp]
	cmp	w10, #41
	str	d2, [sp, #32]
	strb	w9, [sp, #40]
	b.hs	.LBB76_28
	ubfx	x9, x8, #8, #6
	mov	x10, sp
	ldrb	w9, [x10, x9]
	cmp	w9, #35
	b.eq	.LBB76_12
	b	.LBB76_28
.LBB76_25:
	lsr	x9, x8, #8
	bfi	x8, x9, #8, #8
	cbnz	x8, .LBB76_11
	b	.LBB76_30
.LBB76_26:
	strb	wzr, [x19]
	stp	xzr, xzr, [x19, #8]
	b	.LBB76_32
.LBB76_27:
	adrp	x8, .LCPI76_3
	mov	w9, #1
	ldr	q0, [x8, :lo12:.LCPI76_3]
	strb	w9, [x19]
	stur	q0, [x19, #8]
	b	.LBB76_32
.LBB76_28:
	ubfx	w9, w8, #8, #8
	mov	w10, #40
	stp	q0, q1, [sp]
	str	d2, [sp, #32]
	cmp	w9, #41
	strb	w10, [sp, #40]
	b.hs	.LBB76_30
	ubfx	x8, x8, #8, #6
	mov	x9, sp
	ldrb	w8, [x9, x8]
	and	w8, w8, #0xff
	cmp	w8, #38
	mov	w8, #2
	cinc	x8, x8, eq
	b	.LBB76_31
.LBB76_30:
	mov	w8, #2
.LBB76_31:
	mov	w9, #1
	stp	x8, xzr, [x19, #8]
	strb	w9, [x19]
.LBB76_32:
	ldp	x20, x19, [sp, #160]
	ldp	x22, x21, [sp, #144]
	ldp	x24, x23, [sp, #128]
	ldp	x26, x25, [sp, #112]
	ldp	x29, x30, [sp, #96]
	add	sp, sp, #176
	ret
.Lfunc_end76:
	.size	ic_program.writing.write_whole.40d1f5182270a21e, .Lfunc_end76-ic_program.writing.write_whole.40d1f5182270a21e
	.section	.text.unlikely.std.io.buffered.BufWriter.write_cold.3e795ebea2bd6aa3,"ax",@progbits
	.p2align	2
	.type	std.io.buffered.BufWriter.write_cold.3e795ebea2bd6aa3,@function
std.io.buffered.BufWriter.write_cold.3e795ebea2bd6aa3:
	sub	sp, sp, #432
	movi	v0.2d, #0000000000000000
	stp	x22, x21, [sp, #400]
	ldr	x22, [x1, #24]
	stp	x20, x19, [sp, #416]
	mov	x20, x3
	mov	x21, x2
	mov	x19, x0
	cmp	x22, x3
	stp	x29, x30, [sp, #352]
	stp	x28, x25, [sp, #368]
	add	x29, sp, #352
	stp	x24, x23, [sp, #384]
	stp	q0, q0, [sp, #80]
	stp	q0, q0, [sp, #112]
	stp	q0, q0, [sp, #144]
	b.ls	.LBB77_4
	mov	x25, x1
	stp	q0, q0, [x29, #-96]
	ldr	x8, [x25, #16]!
	stp	q0, q0, [x29, #-64]
	stp	q0, q0, [x29, #-32]
	sub	x9, x22, x8
	cmp	x9, x20
	b.hs	.LBB77_9
	sub	x0, x29, #96
	mov	x23, x1
	bl	std.io.buffered.BufWriter.flush_buf.3e795ebea2bd6aa3
	ldurb	w8, [x29, #-96]
	cbz	w8, .LBB77_8
	ldp	q0, q1, [x29, #-64]
	mov	w8, #1
	ldp	q2, q4, [x29, #-32]
	ldur	q3, [x29, #-80]
	ldur	x9, [x29, #-88]
	stp	q0, q1, [sp, #16]
	stp	q2, q4, [sp, #48]
	str	q3, [sp]
	stp	x8, x9, [x19]
	str	q4, [x19, #80]
	stp	q3, q0, [x19, #16]
	stp	q1, q2, [x19, #48]
	b	.LBB77_19
.LBB77_4:
	add	x0, sp, #80
	bl	std.io.buffered.BufWriter.flush_buf.3e795ebea2bd6aa3
	ldrb	w8, [sp, #80]
	cbz	w8, .LBB77_6
	ldp	q0, q1, [sp, #128]
	mov	w9, #1
	ldr	x8, [sp, #88]
	stp	q0, q1, [x19, #48]
	ldr	q0, [sp, #160]
	stp	x9, x8, [x19]
	str	q0, [x19, #80]
	ldp	q0, q2, [sp, #96]
	stp	q0, q2, [x19, #16]
	b	.LBB77_19
.LBB77_6:
	movi	v0.2d, #0000000000000000
	mov	w0, #1
	mov	x1, x21
	mov	x2, x20
	stp	q0, q0, [sp, #192]
	stp	q0, q0, [sp, #224]
	str	q0, [sp, #176]
	bl	write
	tbnz	x0, #63, .LBB77_17
	cmp	x0, x20
	mov	x9, xzr
	csel	x8, x0, x20, lo
	b	.LBB77_18
.LBB77_8:
	ldp	x8, x22, [x23, #16]
	mov	x1, x23
	sub	x9, x22, x8
	cmp	x20, x9
	b.hi	.LBB77_29
.LBB77_9:
	ldr	x23, [x1, #8]
	add	x24, x8, x20
	stp	xzr, xzr, [x25]
	add	x0, x23, x8
	sub	x9, x0, x21
	cmp	x9, x20
	b.hs	.LBB77_15
	cmp	x20, #8
	b.lo	.LBB77_12
	add	x9, x8, x23
	sub	x9, x9, x21
	cmp	x9, #32
	b.hs	.LBB77_20
.LBB77_12:
	mov	x9, xzr
.LBB77_13:
	add	x10, x9, x8
	sub	x8, x20, x9
	add	x9, x21, x9
	add	x10, x23, x10
.LBB77_14:
	ldrb	w11, [x9], #1
	subs	x8, x8, #1
	strb	w11, [x10], #1
	b.ne	.LBB77_14
	b	.LBB77_16
.LBB77_15:
	mov	x25, x1
	mov	x1, x21
	mov	x2, x20
	bl	memmove
	mov	x1, x25
.LBB77_16:
	movi	v0.2d, #0000000000000000
	stp	x23, x24, [x1, #8]
	str	x22, [x1, #24]
	stp	xzr, x20, [x19]
	stp	q0, q0, [x19, #16]
	stp	q0, q0, [x19, #48]
	str	q0, [x19, #80]
	b	.LBB77_19
.LBB77_17:
	sub	x20, x29, #96
	bl	rattle_errno
	mov	w1, w0
	sub	x0, x29, #96
	bl	std_io.io.error.Error.from_raw_os_error
	ldur	q0, [x20, #24]
	ldur	q1, [x20, #40]
	mov	w9, #1
	ldur	q2, [x20, #56]
	ldur	q3, [x20, #8]
	ldur	x8, [x29, #-96]
	stp	q0, q1, [sp, #192]
	ldur	q0, [x20, #72]
	str	q3, [sp, #176]
	stp	q2, q0, [sp, #224]
.LBB77_18:
	ldp	q0, q1, [sp, #208]
	ldr	q2, [sp, #240]
	stp	x9, x8, [x19]
	str	q2, [x19, #80]
	stp	q0, q1, [x19, #48]
	ldp	q1, q0, [sp, #176]
	stp	q1, q0, [x19, #16]
.LBB77_19:
	ldp	x20, x19, [sp, #416]
	ldp	x22, x21, [sp, #400]
	ldp	x24, x23, [sp, #384]
	ldp	x28, x25, [sp, #368]
	ldp	x29, x30, [sp, #352]
	add	sp, sp, #432
	ret
.LBB77_20:
	cmp	x20, #32
	b.hs	.LBB77_22
	mov	x9, xzr
	b	.LBB77_26
.LBB77_22:
	add	x12, x8, x23
	and	x10, x20, #0x18
	and	x9, x20, #0xffffffffffffffe0
	add	x11, x21, #16
	add	x12, x12, #16
	and	x13, x20, #0xffffffffffffffe0
.LBB77_23:
	ldp	q0, q1, [x11, #-16]
	subs	x13, x13, #32
	add	x11, x11, #32
	stp	q0, q1, [x12, #-16]
	add	x12, x12, #32
	b.ne	.LBB77_23
	cmp	x20, x9
	b.eq	.LBB77_16
	cbz	x10, .LBB77_13
.LBB77_26:
	mov	x11, x9
	and	x9, x20, #0xfffffffffffffff8
	add	x12, x8, x11
	sub	x10, x11, x9
	add	x11, x21, x11
	add	x12, x23, x12
.LBB77_27:
	ldr	d0, [x11], #8
	adds	x10, x10, #8
	str	d0, [x12], #8
	b.ne	.LBB77_27
	cmp	x20, x9
	b.eq	.LBB77_16
	b	.LBB77_13
.LBB77_29:
	add	x0, x1, #8
	mov	x1, x20
	bl	std_alloc.vec.Vec.grow_amortized.3f7cc1ad5d64d7d7
	cbz	w0, .LBB77_31
	ldp	x8, x22, [x23, #16]
	mov	x1, x23
	b	.LBB77_9
.LBB77_31:
	brk	#0x1
.Lfunc_end77:
	.size	std.io.buffered.BufWriter.write_cold.3e795ebea2bd6aa3, .Lfunc_end77-std.io.buffered.BufWriter.write_cold.3e795ebea2bd6aa3
	.section	.rodata.cst16,"aM",@progbits,16
	.p2align	4, 0x0
.LCPI78_0:
	.xword	8386094071426675301
	.xword	3327647950551527009
.LCPI78_1:
	.xword	2334399978102268015
	.xword	7378714103803897972
.LCPI78_2:
	.xword	2168578
	.xword	8367798494427701606
.LCPI78_3:
	.byte	0
	.byte	1
	.byte	2
	.byte	3
	.byte	4
	.byte	5
	.byte	6
	.byte	7
	.byte	8
	.byte	9
	.byte	10
	.byte	11
	.byte	12
	.byte	13
	.byte	14
	.byte	15
.LCPI78_4:
	.byte	16
	.byte	17
	.byte	18
	.byte	19
	.byte	20
	.byte	21
	.byte	22
	.byte	23
	.byte	24
	.byte	25
	.byte	26
	.byte	27
	.byte	28
	.byte	29
	.byte	30
	.byte	31
	.section	.rodata.cst8,"aM",@progbits,8
	.p2align	3, 0x0
.LCPI78_5:
	.byte	32
	.byte	33
	.byte	34
	.byte	35
	.byte	36
	.byte	37
	.byte	38
	.byte	39
	.section	.text.std.io.buffered.BufWriter.flush_buf.3e795ebea2bd6aa3,"ax",@progbits
	.p2align	2
	.type	std.io.buffered.BufWriter.flush_buf.3e795ebea2bd6aa3,@function
std.io.buffered.BufWriter.flush_buf.3e795ebea2bd6aa3:
	sub	sp, sp, #288
	stp	x24, x23, [sp, #240]
	ldr	x23, [x1, #16]
	stp	x22, x21, [sp, #256]
	mov	x21, xzr
	stp	x20, x19, [sp, #272]
	mov	x20, x1
	mov	x19, x0
	stp	x29, x30, [sp, #192]
	add	x29, sp, #192
	stp	x28, x27, [sp, #208]
	stp	x26, x25, [sp, #224]
	cbz	x23, .LBB78_9
	ldr	x24, [x20, #8]
	add	x22, sp, #96
.LBB78_2:
	mov	x26, xzr
	sub	x25, x23, x21
.LBB78_3:
	adds	x26, x26, #1
	b.hs	.LBB78_11
	add	x1, x24, x21
	sub	x2, x23, x21
	mov	w0, #1
	bl	write
	tbz	x0, #63, .LBB78_7
	bl	rattle_errno
	mov	w1, w0
	add	x0, sp, #96
	add	x27, sp, #96
	bl	std_io.io.error.Error.from_raw_os_error
	ldur	q0, [x22, #56]
	ldur	q1, [x22, #72]
	adrp	x8, .LCPI78_3
	ldr	x9, [sp, #96]
	ldr	q3, [x8, :lo12:.LCPI78_3]
	adrp	x8, .LCPI78_4
	stp	q0, q1, [sp, #64]
	ldp	q0, q1, [sp, #96]
	ubfx	w10, w9, #8, #8
	ldr	q4, [x8, :lo12:.LCPI78_4]
	adrp	x8, .LCPI78_5
	ldr	q2, [sp, #128]
	ldr	d5, [x8, :lo12:.LCPI78_5]
	mov	w11, #40
	ldr	x8, [sp, #144]
	cmp	w10, #41
	stp	q3, q4, [sp, #96]
	str	d5, [sp, #128]
	strb	w11, [sp, #136]
	b.hs	.LBB78_10
	ubfx	x9, x9, #8, #6
	ldrb	w9, [x27, x9]
	cmp	w9, #35
	b.eq	.LBB78_3
	b	.LBB78_10
.LBB78_7:
	cmp	x0, x25
	csel	x8, x0, x25, lo
	cbz	x8, .LBB78_30
	add	x21, x8, x21
	cmp	x21, x23
	b.lo	.LBB78_2
.LBB78_9:
	movi	v0.2d, #0000000000000000
	mov	w9, wzr
	mov	x8, xzr
	movi	v1.2d, #0000000000000000
	movi	v2.2d, #0000000000000000
	stp	q0, q0, [sp]
	ldr	x11, [x20, #16]
	subs	x10, x11, x21
	b.ne	.LBB78_13
	b	.LBB78_27
.LBB78_10:
	ldp	q3, q4, [sp, #64]
	b	.LBB78_12
.LBB78_11:
	adrp	x2, .Lstatic.84
	add	x2, x2, :lo12:.Lstatic.84
	add	x0, sp, #96
	mov	w1, #22
	mov	w3, #43
	bl	std_io.io.error.Error.from_static_message
	ldp	q0, q1, [sp, #96]
	ldur	q3, [x22, #56]
	ldur	q4, [x22, #72]
	ldr	q2, [sp, #128]
	ldr	x8, [sp, #144]
.LBB78_12:
	stp	q3, q4, [sp, #32]
	ldp	q3, q4, [sp, #32]
	stp	q3, q4, [sp]
	mov	w9, #1
	ldr	x11, [x20, #16]
	subs	x10, x11, x21
	b.eq	.LBB78_27
.LBB78_13:
	ldr	x12, [x20, #8]
	cmp	x10, #8
	mov	x13, xzr
	b.lo	.LBB78_24
	add	x14, x21, #31
	cmp	x14, #32
	b.lo	.LBB78_24
	cmp	x10, #32
	b.hs	.LBB78_17
	mov	x13, xzr
	b	.LBB78_21
.LBB78_17:
	and	x14, x10, #0x18
	and	x13, x10, #0xffffffffffffffe0
	mov	x15, x12
	and	x16, x10, #0xffffffffffffffe0
.LBB78_18:
	add	x17, x15, x21
	subs	x16, x16, #32
	ldp	q3, q4, [x17]
	stp	q3, q4, [x15], #32
	b.ne	.LBB78_18
	cmp	x10, x13
	b.eq	.LBB78_26
	cbz	x14, .LBB78_24
.LBB78_21:
	mov	x15, x13
	and	x13, x10, #0xfffffffffffffff8
	sub	x14, x15, x13
	add	x15, x12, x15
.LBB78_22:
	ldr	d3, [x15, x21]
	adds	x14, x14, #8
	str	d3, [x15], #8
	b.ne	.LBB78_22
	cmp	x10, x13
	b.eq	.LBB78_26
.LBB78_24:
	sub	x11, x11, x13
	add	x12, x12, x13
	sub	x11, x11, x21
.LBB78_25:
	ldrb	w13, [x12, x21]
	subs	x11, x11, #1
	strb	w13, [x12], #1
	b.ne	.LBB78_25
.LBB78_26:
	ldr	x21, [x20, #16]
.LBB78_27:
	cmp	x21, x10
	b.ls	.LBB78_29
	str	x10, [x20, #16]
.LBB78_29:
	stur	q0, [x19, #8]
	ldp	x22, x21, [sp, #256]
	stur	q1, [x19, #24]
	ldp	q0, q1, [sp]
	strb	w9, [x19]
	ldp	x24, x23, [sp, #240]
	stur	q2, [x19, #40]
	ldp	x26, x25, [sp, #224]
	str	x8, [x19, #56]
	ldp	x28, x27, [sp, #208]
	stp	q0, q1, [x19, #64]
	ldp	x20, x19, [sp, #272]
	ldp	x29, x30, [sp, #192]
	add	sp, sp, #288
	ret
.LBB78_30:
	movi	v3.16b, #46
	adrp	x8, .LCPI78_0
	adrp	x9, .LCPI78_1
	adrp	x10, .LCPI78_2
	ldr	q2, [x8, :lo12:.LCPI78_0]
	ldr	q1, [x9, :lo12:.LCPI78_1]
	ldr	q0, [x10, :lo12:.LCPI78_2]
	mov	x8, #1012762419733073422
	orr	x8, x8, #0x2222222222222222
	stp	q3, q3, [sp]
	mov	w9, #1
	ldr	x11, [x20, #16]
	subs	x10, x11, x21
	b.ne	.LBB78_13
	b	.LBB78_27
.Lfunc_end78:
	.size	std.io.buffered.BufWriter.flush_buf.3e795ebea2bd6aa3, .Lfunc_end78-std.io.buffered.BufWriter.flush_buf.3e795ebea2bd6aa3
	.section	.text.std_io.io.error.Error.from_static_message,"ax",@progbits
	.p2align	2
	.type	std_io.io.error.Error.from_static_message,@function
std_io.io.error.Error.from_static_message:
	sub	sp, sp, #192
	ldr	x8, [x2]
	cmp	x3, #15
	stp	x28, x27, [sp, #112]
	stp	x26, x25, [sp, #128]
	stp	x30, x8, [sp, #96]
	ldr	w8, [x2, #8]
	stp	x24, x23, [sp, #144]
	str	x8, [sp, #64]
	ldrb	w8, [x2, #12]
	stp	x22, x21, [sp, #160]
	str	x8, [sp, #56]
	ldrb	w8, [x2, #13]
	stp	x20, x19, [sp, #176]
	str	x8, [sp, #72]
	ldrb	w8, [x2, #14]
	str	w1, [sp, #92]
	str	x8, [sp, #80]
	b.ne	.LBB79_2
	mov	x17, #12947848928690176
	mov	x14, #197568495616
	mov	w15, #46
	mov	x22, #50577534877696
	mov	x2, #3314649325744685056
	mov	w16, #3014656
	mov	w25, #771751936
	mov	w21, #11776
	mov	w8, #11776
	mov	x9, #3314649325744685056
	mov	x11, #50577534877696
	mov	w12, #771751936
	mov	w20, #11776
	mov	x7, #3314649325744685056
	mov	x6, #50577534877696
	mov	w4, #771751936
	mov	w18, #11776
	mov	x13, #3314649325744685056
	b	.LBB79_6
.LBB79_2:
	ldrb	w8, [x2, #15]
	cmp	x3, #17
	lsl	x13, x8, #56
	b.lo	.LBB79_5
	ldrb	w15, [x2, #16]
	cmp	x3, #17
	b.ne	.LBB79_16
	mov	w5, #46
	mov	x17, #12947848928690176
	mov	x14, #197568495616
	mov	x22, #50577534877696
	mov	x2, #3314649325744685056
	mov	w16, #3014656
	mov	w25, #771751936
	mov	w21, #11776
	mov	w8, #11776
	mov	x9, #3314649325744685056
	mov	x11, #50577534877696
	mov	w12, #771751936
	mov	w20, #11776
	mov	x7, #3314649325744685056
	mov	x6, #50577534877696
	mov	w4, #771751936
	mov	w18, #11776
	b	.LBB79_7
.LBB79_5:
	mov	x17, #12947848928690176
	mov	x14, #197568495616
	mov	w15, #46
	mov	x22, #50577534877696
	mov	x2, #3314649325744685056
	mov	w16, #3014656
	mov	w25, #771751936
	mov	w21, #11776
	mov	w8, #11776
	mov	x9, #3314649325744685056
	mov	x11, #50577534877696
	mov	w12, #771751936
	mov	w20, #11776
	mov	x7, #3314649325744685056
	mov	x6, #50577534877696
	mov	w4, #771751936
	mov	w18, #11776
.LBB79_6:
	mov	w5, #46
.LBB79_7:
	mov	w19, #3014656
.LBB79_8:
	mov	x30, #197568495616
.LBB79_9:
	mov	x28, #12947848928690176
.LBB79_10:
	mov	w10, #46
.LBB79_11:
	mov	w23, #3014656
.LBB79_12:
	mov	x24, #197568495616
.LBB79_13:
	mov	x26, #12947848928690176
.LBB79_14:
	mov	w27, #46
	mov	w1, #3014656
.LBB79_15:
	orr	x2, x22, x2
	orr	x8, x25, x8
	mov	w10, w10
	orr	x2, x2, x8
	orr	x10, x10, x23
	orr	x9, x11, x9
	orr	x10, x2, x10
	orr	x11, x12, x20
	mov	w15, w15
	ldp	x2, x12, [sp, #56]
	orr	x15, x15, x16
	mov	w5, w5
	orr	x9, x9, x11
	orr	x11, x6, x7
	orr	x18, x4, x18
	orr	x14, x14, x17
	orr	x12, x12, x2, lsl #32
	mov	w2, #2
	orr	x11, x11, x18
	strb	w2, [x0]
	ldp	x2, x16, [sp, #72]
	orr	x11, x11, x15
	orr	x11, x11, x14
	movi	v0.16b, #46
	orr	x1, x21, x1
	orr	x12, x12, x2, lsl #40
	ldr	w2, [sp, #92]
	mov	w8, w27
	orr	x8, x1, x8
	orr	x1, x24, x26
	strb	w3, [x0, #2]
	orr	x12, x12, x16, lsl #48
	strb	w2, [x0, #1]
	orr	x2, x5, x19
	orr	x9, x9, x2
	ldp	x20, x19, [sp, #176]
	orr	x12, x12, x13
	ldr	x13, [sp, #104]
	orr	x10, x10, x1
	ldp	x22, x21, [sp, #160]
	strb	wzr, [x0, #3]
	stp	x13, x12, [x0, #8]
	orr	x13, x30, x28
	ldr	x30, [sp, #96]
	orr	x9, x9, x13
	ldp	x24, x23, [sp, #144]
	stp	x11, x9, [x0, #24]
	mov	x11, #771751936
	movk	x11, #11822, lsl #32
	ldp	x26, x25, [sp, #128]
	movk	x11, #11822, lsl #48
	ldp	x28, x27, [sp, #112]
	orr	x8, x8, x11
	str	wzr, [x0, #4]
	stp	x10, x8, [x0, #40]
	stur	q0, [x0, #56]
	stur	q0, [x0, #72]
	add	sp, sp, #192
	ret
.LBB79_16:
	ldrb	w8, [x2, #17]
	cmp	x3, #19
	lsl	x18, x8, #8
	b.lo	.LBB79_19
	ldrb	w8, [x2, #18]
	cmp	x3, #19
	lsl	x16, x8, #16
	b.ne	.LBB79_20
	mov	w5, #46
	mov	x17, #12947848928690176
	mov	x14, #197568495616
	mov	x22, #50577534877696
	mov	x2, #3314649325744685056
	mov	w19, #3014656
	mov	w25, #771751936
	mov	w21, #11776
	mov	w8, #11776
	mov	x9, #3314649325744685056
	mov	x11, #50577534877696
	mov	w12, #771751936
	mov	w20, #11776
	mov	x7, #3314649325744685056
	mov	x6, #50577534877696
	mov	w4, #771751936
	b	.LBB79_8
.LBB79_19:
	mov	w5, #46
	mov	x17, #12947848928690176
	mov	x14, #197568495616
	mov	x22, #50577534877696
	mov	x2, #3314649325744685056
	mov	w16, #3014656
	mov	w25, #771751936
	mov	w21, #11776
	mov	w8, #11776
	mov	x9, #3314649325744685056
	mov	x11, #50577534877696
	mov	w12, #771751936
	mov	w20, #11776
	mov	x7, #3314649325744685056
	mov	x6, #50577534877696
	mov	w4, #771751936
	b	.LBB79_7
.LBB79_20:
	ldrb	w8, [x2, #19]
	cmp	x3, #21
	lsl	x4, x8, #24
	b.lo	.LBB79_23
	ldrb	w8, [x2, #20]
	cmp	x3, #21
	lsl	x14, x8, #32
	b.ne	.LBB79_24
	mov	x30, #197568495616
	mov	w5, #46
	mov	x17, #12947848928690176
	mov	x22, #50577534877696
	mov	x2, #3314649325744685056
	mov	w19, #3014656
	mov	w25, #771751936
	mov	w21, #11776
	mov	w8, #11776
	mov	x9, #3314649325744685056
	mov	x11, #50577534877696
	mov	w12, #771751936
	mov	w20, #11776
	mov	x7, #3314649325744685056
	mov	x6, #50577534877696
	b	.LBB79_9
.LBB79_23:
	mov	w5, #46
	mov	x17, #12947848928690176
	mov	x14, #197568495616
	mov	x22, #50577534877696
	mov	x2, #3314649325744685056
	mov	w19, #3014656
	mov	w25, #771751936
	mov	w21, #11776
	mov	w8, #11776
	mov	x9, #3314649325744685056
	mov	x11, #50577534877696
	mov	w12, #771751936
	mov	w20, #11776
	mov	x7, #3314649325744685056
	mov	x6, #50577534877696
	b	.LBB79_8
.LBB79_24:
	ldrb	w8, [x2, #21]
	cmp	x3, #23
	lsl	x6, x8, #40
	b.lo	.LBB79_27
	ldrb	w8, [x2, #22]
	cmp	x3, #23
	lsl	x17, x8, #48
	b.ne	.LBB79_28
	mov	x28, #12947848928690176
	mov	x30, #197568495616
	mov	w5, #46
	mov	x22, #50577534877696
	mov	x2, #3314649325744685056
	mov	w19, #3014656
	mov	w25, #771751936
	mov	w21, #11776
	mov	w8, #11776
	mov	x9, #3314649325744685056
	mov	x11, #50577534877696
	mov	w12, #771751936
	mov	w20, #11776
	mov	x7, #3314649325744685056
	b	.LBB79_10
.LBB79_27:
	mov	x30, #197568495616
	mov	w5, #46
	mov	x17, #12947848928690176
	mov	x22, #50577534877696
	mov	x2, #3314649325744685056
	mov	w19, #3014656
	mov	w25, #771751936
	mov	w21, #11776
	mov	w8, #11776
	mov	x9, #3314649325744685056
	mov	x11, #50577534877696
	mov	w12, #771751936
	mov	w20, #11776
	mov	x7, #3314649325744685056
	b	.LBB79_9
.LBB79_28:
	ldrb	w8, [x2, #23]
	cmp	x3, #25
	lsl	x7, x8, #56
	b.lo	.LBB79_31
	ldrb	w5, [x2, #24]
	cmp	x3, #25
	b.ne	.LBB79_32
	mov	w10, #46
	mov	x28, #12947848928690176
	mov	x30, #197568495616
	mov	x22, #50577534877696
	mov	x2, #3314649325744685056
	mov	w19, #3014656
	mov	w25, #771751936
	mov	w21, #11776
	mov	w8, #11776
	mov	x9, #3314649325744685056
	mov	x11, #50577534877696
	mov	w12, #771751936
	mov	w20, #11776
	b	.LBB79_11
.LBB79_31:
	mov	x28, #12947848928690176
	mov	x30, #197568495616
	mov	w5, #46
	mov	x22, #50577534877696
	mov	x2, #3314649325744685056
	mov	w19, #3014656
	mov	w25, #771751936
	mov	w21, #11776
	mov	w8, #11776
	mov	x9, #3314649325744685056
	mov	x11, #50577534877696
	mov	w12, #771751936
	mov	w20, #11776
	b	.LBB79_10
.LBB79_32:
	ldrb	w8, [x2, #25]
	cmp	x3, #27
	lsl	x20, x8, #8
	b.lo	.LBB79_35
	ldrb	w8, [x2, #26]
	cmp	x3, #27
	lsl	x19, x8, #16
	b.ne	.LBB79_36
	mov	w10, #46
	mov	x28, #12947848928690176
	mov	x30, #197568495616
	mov	x22, #50577534877696
	mov	x2, #3314649325744685056
	mov	w23, #3014656
	mov	w25, #771751936
	mov	w21, #11776
	mov	w8, #11776
	mov	x9, #3314649325744685056
	mov	x11, #50577534877696
	mov	w12, #771751936
	b	.LBB79_12
.LBB79_35:
	mov	w10, #46
	mov	x28, #12947848928690176
	mov	x30, #197568495616
	mov	x22, #50577534877696
	mov	x2, #3314649325744685056
	mov	w19, #3014656
	mov	w25, #771751936
	mov	w21, #11776
	mov	w8, #11776
	mov	x9, #3314649325744685056
	mov	x11, #50577534877696
	mov	w12, #771751936
	b	.LBB79_11
.LBB79_36:
	ldrb	w8, [x2, #27]
	cmp	x3, #29
	lsl	x8, x8, #24
	str	x8, [sp, #48]
	b.lo	.LBB79_39
	ldrb	w8, [x2, #28]
	cmp	x3, #29
	lsl	x8, x8, #32
	str	x8, [sp, #40]
	b.ne	.LBB79_40
	ldp	x30, x12, [sp, #40]
	mov	x24, #197568495616
	mov	w10, #46
	mov	x28, #12947848928690176
	mov	x22, #50577534877696
	mov	x2, #3314649325744685056
	mov	w23, #3014656
	mov	w25, #771751936
	mov	w21, #11776
	mov	w8, #11776
	mov	x9, #3314649325744685056
	mov	x11, #50577534877696
	b	.LBB79_13
.LBB79_39:
	ldr	x12, [sp, #48]
	mov	w10, #46
	mov	x28, #12947848928690176
	mov	x30, #197568495616
	mov	x22, #50577534877696
	mov	x2, #3314649325744685056
	mov	w23, #3014656
	mov	w25, #771751936
	mov	w21, #11776
	mov	w8, #11776
	mov	x9, #3314649325744685056
	mov	x11, #50577534877696
	b	.LBB79_12
.LBB79_40:
	ldrb	w8, [x2, #29]
	cmp	x3, #31
	lsl	x8, x8, #40
	str	x8, [sp, #32]
	b.lo	.LBB79_43
	ldrb	w8, [x2, #30]
	cmp	x3, #31
	lsl	x8, x8, #48
	str	x8, [sp, #24]
	b.ne	.LBB79_45
	ldr	x30, [sp, #40]
	ldr	x28, [sp, #24]
	mov	x26, #12947848928690176
	mov	x24, #197568495616
	mov	w10, #46
	mov	x22, #50577534877696
	mov	x2, #3314649325744685056
	mov	w23, #3014656
	mov	w25, #771751936
	mov	w21, #11776
	mov	w8, #11776
	mov	x9, #3314649325744685056
	b	.LBB79_44
.LBB79_43:
	ldr	x30, [sp, #40]
	mov	x24, #197568495616
	mov	w10, #46
	mov	x28, #12947848928690176
	mov	x22, #50577534877696
	mov	x2, #3314649325744685056
	mov	w23, #3014656
	mov	w25, #771751936
	mov	w21, #11776
	mov	w8, #11776
	mov	x9, #3314649325744685056
	mov	x26, #12947848928690176
.LBB79_44:
	mov	w27, #46
	mov	w1, #3014656
	ldr	x12, [sp, #48]
	ldr	x11, [sp, #32]
	b	.LBB79_15
.LBB79_45:
	ldrb	w8, [x2, #31]
	cmp	x3, #33
	lsl	x8, x8, #56
	str	x8, [sp, #16]
	b.lo	.LBB79_48
	ldrb	w8, [x2, #32]
	cmp	x3, #33
	str	w8, [sp, #12]
	b.ne	.LBB79_49
	mov	w27, #46
	mov	x26, #12947848928690176
	mov	x24, #197568495616
	mov	x22, #50577534877696
	mov	x2, #3314649325744685056
	mov	w23, #3014656
	mov	w25, #771751936
	mov	w21, #11776
	mov	w8, #11776
	b	.LBB79_53
.LBB79_48:
	ldp	x30, x12, [sp, #40]
	mov	x26, #12947848928690176
	ldp	x28, x11, [sp, #24]
	mov	x24, #197568495616
	ldr	x9, [sp, #16]
	mov	w10, #46
	mov	x22, #50577534877696
	mov	x2, #3314649325744685056
	mov	w23, #3014656
	mov	w25, #771751936
	mov	w21, #11776
	mov	w8, #11776
	b	.LBB79_14
.LBB79_49:
	ldrb	w8, [x2, #33]
	cmp	x3, #35
	lsl	x8, x8, #8
	b.lo	.LBB79_52
	ldrb	w9, [x2, #34]
	cmp	x3, #35
	lsl	x23, x9, #16
	b.ne	.LBB79_56
	mov	w27, #46
	mov	x26, #12947848928690176
	mov	x24, #197568495616
	mov	x22, #50577534877696
	mov	x2, #3314649325744685056
	mov	w1, #3014656
	mov	w25, #771751936
	mov	w21, #11776
	b	.LBB79_54
.LBB79_52:
	mov	w27, #46
	mov	x26, #12947848928690176
	mov	x24, #197568495616
	mov	x22, #50577534877696
	mov	x2, #3314649325744685056
	mov	w23, #3014656
	mov	w25, #771751936
	mov	w21, #11776
.LBB79_53:
	mov	w1, #3014656
.LBB79_54:
	ldp	x30, x12, [sp, #40]
.LBB79_55:
	ldp	x28, x11, [sp, #24]
	ldr	x9, [sp, #16]
	ldr	w10, [sp, #12]
	b	.LBB79_15
.LBB79_56:
	ldrb	w9, [x2, #35]
	cmp	x3, #37
	lsl	x25, x9, #24
	b.lo	.LBB79_59
	ldrb	w9, [x2, #36]
	cmp	x3, #37
	lsl	x24, x9, #32
	b.ne	.LBB79_62
	mov	w27, #46
	mov	x26, #12947848928690176
	b	.LBB79_60
.LBB79_59:
	mov	w27, #46
	mov	x26, #12947848928690176
	mov	x24, #197568495616
.LBB79_60:
	mov	x22, #50577534877696
.LBB79_61:
	mov	x2, #3314649325744685056
	mov	w1, #3014656
	mov	w21, #11776
	b	.LBB79_54
.LBB79_62:
	ldrb	w9, [x2, #37]
	cmp	x3, #39
	lsl	x22, x9, #40
	b.lo	.LBB79_65
	ldrb	w9, [x2, #38]
	cmp	x3, #39
	lsl	x26, x9, #48
	b.ne	.LBB79_66
	mov	w27, #46
	b	.LBB79_61
.LBB79_65:
	mov	w27, #46
	mov	x26, #12947848928690176
	b	.LBB79_61
.LBB79_66:
	ldrb	w9, [x2, #39]
	cmp	x3, #41
	lsl	x9, x9, #56
	b.lo	.LBB79_70
	ldrb	w27, [x2, #40]
	cmp	x3, #41
	b.eq	.LBB79_71
	ldrb	w10, [x2, #41]
	cmp	x3, #43
	lsl	x21, x10, #8
	b.lo	.LBB79_73
	ldrb	w10, [x2, #42]
	lsl	x1, x10, #16
	b	.LBB79_72
.LBB79_70:
	mov	w27, #46
.LBB79_71:
	mov	w1, #3014656
	mov	w21, #11776
.LBB79_72:
	ldp	x30, x12, [sp, #40]
	mov	x2, x9
	b	.LBB79_55
.LBB79_73:
	mov	w1, #3014656
	b	.LBB79_72
.Lfunc_end79:
	.size	std_io.io.error.Error.from_static_message, .Lfunc_end79-std_io.io.error.Error.from_static_message
	.section	.text.std_alloc.vec.Vec.drop.3580eecdd8931e03,"ax",@progbits
	.p2align	2
	.type	std_alloc.vec.Vec.drop.3580eecdd8931e03,@function
std_alloc.vec.Vec.drop.3580eecdd8931e03:
	stp	x29, x30, [sp, #-48]!
	stp	x20, x19, [sp, #32]
	ldp	x19, x20, [x0]
	stp	x22, x21, [sp, #16]
	mov	x29, sp
	ldr	x21, [x0, #16]
	cbz	x20, .LBB80_8
	add	x22, x19, #16
	b	.LBB80_4
.LBB80_2:
	bl	rattle_dealloc
.LBB80_3:
	subs	x20, x20, #1
	add	x22, x22, #48
	b.eq	.LBB80_8
.LBB80_4:
	ldurb	w8, [x22, #-16]
	ldur	x0, [x22, #-8]
	cmp	w8, #2
	b.eq	.LBB80_6
	ldr	x9, [x22, #8]
	cmp	w8, #1
	cbnz	x9, .LBB80_2
	b	.LBB80_3
.LBB80_6:
	ldr	x9, [x22, #16]
	ldr	x8, [x22]
	tst	x0, #0xff
	cbz	x9, .LBB80_3
	mov	x0, x8
	b	.LBB80_2
.LBB80_8:
	cbz	x21, .LBB80_10
	mov	x0, x19
	ldp	x20, x19, [sp, #32]
	ldp	x22, x21, [sp, #16]
	ldp	x29, x30, [sp], #48
	b	rattle_dealloc
.LBB80_10:
	ldp	x20, x19, [sp, #32]
	ldp	x22, x21, [sp, #16]
	ldp	x29, x30, [sp], #48
	ret
.Lfunc_end80:
	.size	std_alloc.vec.Vec.drop.3580eecdd8931e03, .Lfunc_end80-std_alloc.vec.Vec.drop.3580eecdd8931e03
	.section	.text.unlikely.std_alloc.vec.Vec.grow_amortized.475ef6a323907ad9,"ax",@progbits
	.p2align	2
	.type	std_alloc.vec.Vec.grow_amortized.475ef6a323907ad9,@function
std_alloc.vec.Vec.grow_amortized.475ef6a323907ad9:
	ldr	x9, [x0, #8]
	cmn	x9, x1
	b.lo	.LBB81_2
	mov	w0, wzr
	ret
.LBB81_2:
	stp	x29, x30, [sp, #-32]!
	ldr	x8, [x0, #16]
	add	x9, x9, x1
	mov	w10, #8
	cmp	x9, #8
	stp	x20, x19, [sp, #16]
	mov	x29, sp
	lsl	x11, x8, #1
	csel	x9, x9, x10, hi
	lsr	x10, x8, #62
	cmp	x9, x11
	csel	x11, x9, x11, hi
	cmp	x10, #0
	csel	x19, x11, x9, eq
	tbnz	x19, #63, .LBB81_7
	cbz	x8, .LBB81_6
	mov	x20, x0
	ldr	x0, [x0]
	mov	x1, xzr
	mov	x2, xzr
	mov	w3, #1
	bl	rattle_realloc
	tbz	w0, #0, .LBB81_7
.LBB81_5:
	mov	w0, #1
	str	x1, [x20]
	str	x19, [x20, #16]
	ldp	x20, x19, [sp, #16]
	ldp	x29, x30, [sp], #32
	ret
.LBB81_6:
	mov	x20, x0
	mov	x0, xzr
	mov	w1, #1
	bl	rattle_alloc
	tbnz	w0, #0, .LBB81_5
.LBB81_7:
	mov	w0, wzr
	ldp	x20, x19, [sp, #16]
	ldp	x29, x30, [sp], #32
	ret
.Lfunc_end81:
	.size	std_alloc.vec.Vec.grow_amortized.475ef6a323907ad9, .Lfunc_end81-std_alloc.vec.Vec.grow_amortized.475ef6a323907ad9
	.section	.text.unlikely.std_alloc.vec.Vec.grow_amortized.aefd41eb74c3dbca,"ax",@progbits
	.p2align	2
	.type	std_alloc.vec.Vec.grow_amortized.aefd41eb74c3dbca,@function
std_alloc.vec.Vec.grow_amortized.aefd41eb74c3dbca:
	ldr	x8, [x0, #8]
	cmn	x8, x1
	b.lo	.LBB82_2
	mov	w0, wzr
	ret
.LBB82_2:
	stp	x29, x30, [sp, #-32]!
	ldr	x9, [x0, #16]
	add	x10, x8, x1
	mov	w11, #4
	cmp	x10, #4
	stp	x20, x19, [sp, #16]
	mov	x29, sp
	lsl	x12, x9, #1
	csel	x11, x10, x11, hi
	lsr	x13, x9, #62
	cmp	x11, x12
	csel	x10, x11, x12, hi
	cmp	x13, #0
	csel	x19, x10, x11, eq
	lsr	x11, x19, #59
	cbnz	x11, .LBB82_7
	cbz	x9, .LBB82_6
	mov	x20, x0
	ldr	x0, [x0]
	lsl	x1, x8, #4
	lsl	x2, x19, #4
	mov	w3, #8
	bl	rattle_realloc
	tbz	w0, #0, .LBB82_7
.LBB82_5:
	mov	w0, #1
	str	x1, [x20]
	str	x19, [x20, #16]
	ldp	x20, x19, [sp, #16]
	ldp	x29, x30, [sp], #32
	ret
.LBB82_6:
	mov	x20, x0
	lsl	x0, x10, #4
	mov	w1, #8
	bl	rattle_alloc
	tbnz	w0, #0, .LBB82_5
.LBB82_7:
	mov	w0, wzr
	ldp	x20, x19, [sp, #16]
	ldp	x29, x30, [sp], #32
	ret
.Lfunc_end82:
	.size	std_alloc.vec.Vec.grow_amortized.aefd41eb74c3dbca, .Lfunc_end82-std_alloc.vec.Vec.grow_amortized.aefd41eb74c3dbca
	.section	.text.unlikely.std_alloc.vec.Vec.grow_amortized.97d0d6792c3fe7f4,"ax",@progbits
	.p2align	2
	.type	std_alloc.vec.Vec.grow_amortized.97d0d6792c3fe7f4,@function
std_alloc.vec.Vec.grow_amortized.97d0d6792c3fe7f4:
	ldr	x8, [x0, #8]
	cmn	x8, #1
	b.eq	.LBB83_5
	stp	x29, x30, [sp, #-32]!
	ldr	x9, [x0, #16]
	cmp	x8, #3
	mov	w10, #3
	csel	x11, x8, x10, hi
	stp	x20, x19, [sp, #16]
	mov	x29, sp
	lsl	x10, x9, #1
	add	x12, x11, #1
	lsr	x13, x9, #62
	cmp	x12, x10
	csinc	x10, x10, x11, ls
	cmp	x13, #0
	csinc	x19, x10, x11, eq
	lsr	x11, x19, #57
	cbnz	x11, .LBB83_7
	cbz	x9, .LBB83_6
	mov	x20, x0
	ldr	x0, [x0]
	lsl	x1, x8, #6
	lsl	x2, x19, #6
	mov	w3, #8
	bl	rattle_realloc
	tbz	w0, #0, .LBB83_7
.LBB83_4:
	mov	w0, #1
	str	x1, [x20]
	str	x19, [x20, #16]
	ldp	x20, x19, [sp, #16]
	ldp	x29, x30, [sp], #32
	ret
.LBB83_5:
	mov	w0, wzr
	ret
.LBB83_6:
	mov	x20, x0
	lsl	x0, x10, #6
	mov	w1, #8
	bl	rattle_alloc
	tbnz	w0, #0, .LBB83_4
.LBB83_7:
	mov	w0, wzr
	ldp	x20, x19, [sp, #16]
	ldp	x29, x30, [sp], #32
	ret
.Lfunc_end83:
	.size	std_alloc.vec.Vec.grow_amortized.97d0d6792c3fe7f4, .Lfunc_end83-std_alloc.vec.Vec.grow_amortized.97d0d6792c3fe7f4
	.section	.text.unlikely.std_alloc.vec.Vec.grow_amortized.34b4ac368a9081d8,"ax",@progbits
	.p2align	2
	.type	std_alloc.vec.Vec.grow_amortized.34b4ac368a9081d8,@function
std_alloc.vec.Vec.grow_amortized.34b4ac368a9081d8:
	ldr	x8, [x0, #8]
	cmn	x8, #1
	b.eq	.LBB84_5
	stp	x29, x30, [sp, #-32]!
	ldr	x9, [x0, #16]
	cmp	x8, #3
	mov	w10, #3
	csel	x11, x8, x10, hi
	stp	x20, x19, [sp, #16]
	mov	x29, sp
	lsl	x10, x9, #1
	add	x12, x11, #1
	lsr	x13, x9, #62
	cmp	x12, x10
	csinc	x10, x10, x11, ls
	cmp	x13, #0
	csinc	x19, x10, x11, eq
	lsr	x11, x19, #60
	cbnz	x11, .LBB84_7
	cbz	x9, .LBB84_6
	mov	x20, x0
	ldr	x0, [x0]
	lsl	x1, x8, #3
	lsl	x2, x19, #3
	mov	w3, #8
	bl	rattle_realloc
	tbz	w0, #0, .LBB84_7
.LBB84_4:
	mov	w0, #1
	str	x1, [x20]
	str	x19, [x20, #16]
	ldp	x20, x19, [sp, #16]
	ldp	x29, x30, [sp], #32
	ret
.LBB84_5:
	mov	w0, wzr
	ret
.LBB84_6:
	mov	x20, x0
	lsl	x0, x10, #3
	mov	w1, #8
	bl	rattle_alloc
	tbnz	w0, #0, .LBB84_4
.LBB84_7:
	mov	w0, wzr
	ldp	x20, x19, [sp, #16]
	ldp	x29, x30, [sp], #32
	ret
.Lfunc_end84:
	.size	std_alloc.vec.Vec.grow_amortized.34b4ac368a9081d8, .Lfunc_end84-std_alloc.vec.Vec.grow_amortized.34b4ac368a9081d8
	.section	.text.std_alloc.vec.Vec.drop.f70b3562b761e113,"ax",@progbits
	.p2align	2
	.type	std_alloc.vec.Vec.drop.f70b3562b761e113,@function
std_alloc.vec.Vec.drop.f70b3562b761e113:
	stp	x29, x30, [sp, #-64]!
	stp	x24, x23, [sp, #16]
	mov	x29, sp
	stp	x20, x19, [sp, #48]
	ldp	x19, x23, [x0]
	stp	x22, x21, [sp, #32]
	ldr	x21, [x0, #16]
	adrp	x22, .Lstatic.0
	cbz	x23, .LBB85_13
	mov	x24, xzr
.LBB85_2:
	ldr	x20, [x19, x24, lsl #3]
	//APP
	//NO_APP
	add	x9, x20, #8
.LBB85_3:
	ldaxr	x8, [x9]
	mov	w10, #1
	stlxr	w11, x10, [x9]
	cbnz	w11, .LBB85_3
	//APP
	//NO_APP
	cbz	x8, .LBB85_7
	ldr	x0, [x20]
	mov	x1, xzr
	bl	pthread_join
	ldrb	w8, [x22, :lo12:.Lstatic.0]
	cbnz	w8, .LBB85_18
	mov	x0, x20
	bl	free
.LBB85_7:
	ldrb	w8, [x22, :lo12:.Lstatic.0]
	cbnz	w8, .LBB85_18
	ldrb	w8, [x22, :lo12:.Lstatic.0]
	cbnz	w8, .LBB85_18
	ldrb	w8, [x22, :lo12:.Lstatic.0]
	cbnz	w8, .LBB85_18
	add	x24, x24, #1
	cmp	x24, x23
	b.ne	.LBB85_2
	ldrb	w8, [x22, :lo12:.Lstatic.0]
	cbnz	w8, .LBB85_18
	ldrb	w8, [x22, :lo12:.Lstatic.0]
	cbnz	w8, .LBB85_18
.LBB85_13:
	ldrb	w8, [x22, :lo12:.Lstatic.0]
	cbnz	w8, .LBB85_18
	ldrb	w8, [x22, :lo12:.Lstatic.0]
	cbnz	w8, .LBB85_18
	cbz	x21, .LBB85_17
	mov	x0, x19
	ldp	x20, x19, [sp, #48]
	ldp	x22, x21, [sp, #32]
	ldp	x24, x23, [sp, #16]
	ldp	x29, x30, [sp], #64
	b	rattle_dealloc
.LBB85_17:
	ldp	x20, x19, [sp, #48]
	ldp	x22, x21, [sp, #32]
	ldp	x24, x23, [sp, #16]
	ldp	x29, x30, [sp], #64
	ret
.LBB85_18:
	brk	#0x1
.Lfunc_end85:
	.size	std_alloc.vec.Vec.drop.f70b3562b761e113, .Lfunc_end85-std_alloc.vec.Vec.drop.f70b3562b761e113
	.section	.text.unlikely.std_alloc.vec.Vec.grow_amortized.cc81737fef4b42c4,"ax",@progbits
	.p2align	2
	.type	std_alloc.vec.Vec.grow_amortized.cc81737fef4b42c4,@function
std_alloc.vec.Vec.grow_amortized.cc81737fef4b42c4:
	ldr	x8, [x0, #8]
	cmn	x8, #1
	b.eq	.LBB86_5
	stp	x29, x30, [sp, #-32]!
	ldr	x9, [x0, #16]
	cmp	x8, #3
	mov	w10, #3
	csel	x11, x8, x10, hi
	stp	x20, x19, [sp, #16]
	mov	x29, sp
	lsl	x10, x9, #1
	add	x12, x11, #1
	lsr	x13, x9, #62
	cmp	x12, x10
	csinc	x10, x10, x11, ls
	cmp	x13, #0
	csinc	x19, x10, x11, eq
	mov	x11, #3689348814741910323
	movk	x11, #819, lsl #48
	cmp	x19, x11
	b.hi	.LBB86_7
	cbz	x9, .LBB86_6
	add	x8, x8, x8, lsl #2
	add	x9, x19, x19, lsl #2
	mov	x20, x0
	ldr	x0, [x0]
	mov	w3, #8
	lsl	x1, x8, #3
	lsl	x2, x9, #3
	bl	rattle_realloc
	tbz	w0, #0, .LBB86_7
.LBB86_4:
	mov	w0, #1
	str	x1, [x20]
	str	x19, [x20, #16]
	ldp	x20, x19, [sp, #16]
	ldp	x29, x30, [sp], #32
	ret
.LBB86_5:
	mov	w0, wzr
	ret
.LBB86_6:
	add	x8, x10, x10, lsl #2
	mov	x20, x0
	mov	w1, #8
	lsl	x0, x8, #3
	bl	rattle_alloc
	tbnz	w0, #0, .LBB86_4
.LBB86_7:
	mov	w0, wzr
	ldp	x20, x19, [sp, #16]
	ldp	x29, x30, [sp], #32
	ret
.Lfunc_end86:
	.size	std_alloc.vec.Vec.grow_amortized.cc81737fef4b42c4, .Lfunc_end86-std_alloc.vec.Vec.grow_amortized.cc81737fef4b42c4
	.section	.text.unlikely.std_alloc.vec.Vec.grow_amortized.1ced78ec54a54abc,"ax",@progbits
	.p2align	2
	.type	std_alloc.vec.Vec.grow_amortized.1ced78ec54a54abc,@function
std_alloc.vec.Vec.grow_amortized.1ced78ec54a54abc:
	ldr	x9, [x0, #8]
	cmn	x9, #1
	b.eq	.LBB87_5
	stp	x29, x30, [sp, #-32]!
	ldr	x8, [x0, #16]
	cmp	x9, #7
	mov	w10, #7
	csel	x9, x9, x10, hi
	stp	x20, x19, [sp, #16]
	mov	x29, sp
	lsl	x10, x8, #1
	add	x11, x9, #1
	lsr	x12, x8, #62
	cmp	x11, x10
	csinc	x10, x10, x9, ls
	cmp	x12, #0
	csinc	x19, x10, x9, eq
	tbnz	x19, #63, .LBB87_7
	cbz	x8, .LBB87_6
	mov	x20, x0
	ldr	x0, [x0]
	mov	x1, xzr
	mov	x2, xzr
	mov	w3, #1
	bl	rattle_realloc
	tbz	w0, #0, .LBB87_7
.LBB87_4:
	mov	w0, #1
	str	x1, [x20]
	str	x19, [x20, #16]
	ldp	x20, x19, [sp, #16]
	ldp	x29, x30, [sp], #32
	ret
.LBB87_5:
	mov	w0, wzr
	ret
.LBB87_6:
	mov	x20, x0
	mov	x0, xzr
	mov	w1, #1
	bl	rattle_alloc
	tbnz	w0, #0, .LBB87_4
.LBB87_7:
	mov	w0, wzr
	ldp	x20, x19, [sp, #16]
	ldp	x29, x30, [sp], #32
	ret
.Lfunc_end87:
	.size	std_alloc.vec.Vec.grow_amortized.1ced78ec54a54abc, .Lfunc_end87-std_alloc.vec.Vec.grow_amortized.1ced78ec54a54abc
	.section	.text.unlikely.std_alloc.vec.Vec.grow_amortized.2f1185c89873501e,"ax",@progbits
	.p2align	2
	.type	std_alloc.vec.Vec.grow_amortized.2f1185c89873501e,@function
std_alloc.vec.Vec.grow_amortized.2f1185c89873501e:
	ldr	x8, [x0, #8]
	cmn	x8, #1
	b.eq	.LBB88_5
	stp	x29, x30, [sp, #-32]!
	ldr	x9, [x0, #16]
	cmp	x8, #3
	mov	w10, #3
	csel	x11, x8, x10, hi
	stp	x20, x19, [sp, #16]
	mov	x29, sp
	lsl	x10, x9, #1
	add	x12, x11, #1
	lsr	x13, x9, #62
	cmp	x12, x10
	csinc	x10, x10, x11, ls
	cmp	x13, #0
	csinc	x19, x10, x11, eq
	mov	x11, #6148914691236517205
	movk	x11, #1365, lsl #48
	cmp	x19, x11
	b.hi	.LBB88_7
	cbz	x9, .LBB88_6
	add	x8, x8, x8, lsl #1
	add	x9, x19, x19, lsl #1
	mov	x20, x0
	ldr	x0, [x0]
	mov	w3, #8
	lsl	x1, x8, #3
	lsl	x2, x9, #3
	bl	rattle_realloc
	tbz	w0, #0, .LBB88_7
.LBB88_4:
	mov	w0, #1
	str	x1, [x20]
	str	x19, [x20, #16]
	ldp	x20, x19, [sp, #16]
	ldp	x29, x30, [sp], #32
	ret
.LBB88_5:
	mov	w0, wzr
	ret
.LBB88_6:
	add	x8, x10, x10, lsl #1
	mov	x20, x0
	mov	w1, #8
	lsl	x0, x8, #3
	bl	rattle_alloc
	tbnz	w0, #0, .LBB88_4
.LBB88_7:
	mov	w0, wzr
	ldp	x20, x19, [sp, #16]
	ldp	x29, x30, [sp], #32
	ret
.Lfunc_end88:
	.size	std_alloc.vec.Vec.grow_amortized.2f1185c89873501e, .Lfunc_end88-std_alloc.vec.Vec.grow_amortized.2f1185c89873501e
	.section	.text.ic_program.program.status_of.4e9da720f7635e46,"ax",@progbits
	.p2align	2
	.type	ic_program.program.status_of.4e9da720f7635e46,@function
ic_program.program.status_of.4e9da720f7635e46:
	ldrb	w8, [x0]
	cbz	w8, .LBB89_9
	stp	x29, x30, [sp, #-64]!
	stp	x28, x23, [sp, #16]
	mov	x29, sp
	stp	x22, x21, [sp, #32]
	stp	x20, x19, [sp, #48]
	sub	sp, sp, #2336
	str	xzr, [sp]
	add	x20, sp, #16
	mov	x9, sp
	ldrb	w8, [x0, #8]
	ldr	x10, [x0, #16]
	orr	x0, x20, #0x4
	mov	w1, wzr
	mov	w2, #1132
	str	x9, [sp, #1192]
	stp	x8, x10, [sp]
	mov	w8, #2
	orr	x19, x20, #0x4
	str	w8, [sp, #16]
	bl	memset
	movi	v0.2d, #0000000000000000
	mov	w23, #32
	add	x21, x20, #1140
	str	wzr, [sp, #1164]
	add	x8, x20, #1160
	mov	x22, #-1
	str	w23, [sp, #1152]
	add	x0, sp, #16
	add	x1, sp, #1192
	str	xzr, [x21]
	str	q0, [x8]
	ldr	q0, [sp, #1152]
	str	x22, [sp, #1168]
	str	q0, [sp, #1200]
	str	x22, [sp, #1216]
	str	w23, [sp, #1152]
	str	xzr, [x21]
	str	wzr, [sp, #1164]
	bl	core.fmt.formatter.Formatter.write_piece.bdc4606c8c8e2f5f
	ldr	q0, [sp, #1200]
	ldr	x8, [sp, #1216]
	and	w9, w0, #0xff
	str	q0, [sp, #1152]
	str	x8, [sp, #1168]
	tbnz	w9, #0, .LBB89_8
	add	x20, x20, #1136
	ldr	x9, [sp, #1176]
	ldr	q0, [x20]
	ldr	x8, [x20, #16]
	str	w23, [sp, #1152]
	str	xzr, [x21]
	str	q0, [sp, #1200]
	str	x8, [sp, #1216]
	str	wzr, [x21, #8]
	str	x22, [sp, #1168]
	cbnz	x9, .LBB89_10
	ldr	x8, [sp, #1048]
	cmp	x8, #1024
	b.lo	.LBB89_6
	add	x0, sp, #16
	bl	std_io.io.buffer.Buffer.flush
	cbz	w0, .LBB89_7
	ldr	x8, [sp, #1048]
	cmp	x8, #1023
	b.hi	.LBB89_7
.LBB89_6:
	mov	w9, #10
	strb	w9, [x19, x8]
	add	x8, x8, #1
	str	x8, [sp, #1048]
.LBB89_7:
	ldr	q0, [sp, #1200]
	ldr	x8, [sp, #1216]
	str	q0, [x20]
	str	x8, [x20, #16]
.LBB89_8:
	ldr	w8, [sp, #16]
	mov	x1, x19
	mov	w2, #1132
	str	w8, [sp, #1200]
	add	x8, sp, #1200
	orr	x0, x8, #0x4
	bl	memcpy
	add	x0, sp, #1200
	bl	std_io.io.buffer.Buffer.flush
	mov	w0, #3
	add	sp, sp, #2336
	ldp	x20, x19, [sp, #48]
	ldp	x22, x21, [sp, #32]
	ldp	x28, x23, [sp, #16]
	ldp	x29, x30, [sp], #64
	ret
.LBB89_9:
	ldrb	w8, [x0, #1]
	cmp	w8, #0
	mov	w8, #2
	csel	w0, wzr, w8, eq
	ret
.LBB89_10:
	adrp	x1, .Lstatic.38
	add	x1, x1, :lo12:.Lstatic.38
	add	x0, sp, #16
	mov	w2, #1
	bl	core.fmt.formatter.Formatter.write_indented.bf264aed5fa78656
	b	.LBB89_7
.Lfunc_end89:
	.size	ic_program.program.status_of.4e9da720f7635e46, .Lfunc_end89-ic_program.program.status_of.4e9da720f7635e46
	.section	.text.core.fmt.formatter.Formatter.write_piece.bdc4606c8c8e2f5f,"ax",@progbits
	.p2align	2
	.type	core.fmt.formatter.Formatter.write_piece.bdc4606c8c8e2f5f,@function
core.fmt.formatter.Formatter.write_piece.bdc4606c8c8e2f5f:
	sub	sp, sp, #96
	mov	w8, #32
	mov	x9, #-1
	str	wzr, [x0, #1148]
	str	w8, [x0, #1136]
	add	x8, x0, #1140
	str	xzr, [x8]
	str	x9, [x0, #1152]
	stp	x22, x21, [sp, #64]
	ldr	x21, [x1]
	stp	x20, x19, [sp, #80]
	mov	x19, x0
	ldrb	w9, [x21]
	stp	x29, x30, [sp, #32]
	add	x29, sp, #32
	stp	x24, x23, [sp, #48]
	cmp	w9, #1
	b.gt	.LBB90_8
	add	x20, x19, #1136
	cbnz	w9, .LBB90_47
	mov	w9, #32
	ldr	q0, [x20]
	ldr	x10, [x20, #16]
	str	w9, [x19, #1136]
	ldr	x9, [x19, #1160]
	str	xzr, [x8]
	str	wzr, [x8, #8]
	mov	x8, #-1
	str	q0, [sp]
	str	x10, [sp, #16]
	str	x8, [x19, #1152]
	cbnz	x9, .LBB90_95
	ldr	x8, [x19, #1032]
	mov	x22, xzr
	add	x23, x19, #4
	b	.LBB90_5
.LBB90_4:
	add	x22, x22, #1
	strb	w24, [x23, x8]
	add	x8, x8, #1
	cmp	x22, #25
	str	x8, [x19, #1032]
	b.eq	.LBB90_98
.LBB90_5:
	adrp	x9, .Lstatic.91
	add	x9, x9, :lo12:.Lstatic.91
	cmp	x8, #1024
	ldrb	w24, [x9, x22]
	b.lo	.LBB90_4
	mov	x0, x19
	bl	std_io.io.buffer.Buffer.flush
	cbz	w0, .LBB90_53
	ldr	x8, [x19, #1032]
	cmp	x8, #1023
	b.ls	.LBB90_4
	b	.LBB90_53
.LBB90_8:
	cmp	w9, #2
	b.ne	.LBB90_54
	ldr	x8, [x19, #1160]
	cbnz	x8, .LBB90_96
	ldr	x9, [x19, #1032]
	cmp	x9, #1024
	b.lo	.LBB90_13
	mov	x0, x19
	bl	std_io.io.buffer.Buffer.flush
	cbz	w0, .LBB90_94
	ldr	x9, [x19, #1032]
	cmp	x9, #1023
	b.hi	.LBB90_94
.LBB90_13:
	add	x20, x19, #4
	add	x8, x9, #1
	cmp	x9, #1023
	mov	w10, #99
	strb	w10, [x20, x9]
	str	x8, [x19, #1032]
	b.ne	.LBB90_16
	mov	x0, x19
	bl	std_io.io.buffer.Buffer.flush
	cbz	w0, .LBB90_94
	ldr	x8, [x19, #1032]
	cmp	x8, #1023
	b.hi	.LBB90_94
.LBB90_16:
	mov	w9, #97
	strb	w9, [x20, x8]
	cmp	x8, #1023
	add	x9, x8, #1
	str	x9, [x19, #1032]
	b.lo	.LBB90_19
	mov	x0, x19
	bl	std_io.io.buffer.Buffer.flush
	cbz	w0, .LBB90_94
	ldr	x9, [x19, #1032]
	cmp	x9, #1023
	b.hi	.LBB90_94
.LBB90_19:
	mov	w21, #110
	add	x10, x9, #1
	cmp	x9, #1023
	strb	w21, [x20, x9]
	str	x10, [x19, #1032]
	b.lo	.LBB90_22
	mov	x0, x19
	bl	std_io.io.buffer.Buffer.flush
	cbz	w0, .LBB90_94
	ldr	x10, [x19, #1032]
	cmp	x10, #1023
	b.hi	.LBB90_94
.LBB90_22:
	add	x8, x10, #1
	cmp	x10, #1023
	strb	w21, [x20, x10]
	str	x8, [x19, #1032]
	b.lo	.LBB90_25
	mov	x0, x19
	bl	std_io.io.buffer.Buffer.flush
	cbz	w0, .LBB90_94
	ldr	x8, [x19, #1032]
	cmp	x8, #1023
	b.hi	.LBB90_94
.LBB90_25:
	mov	w9, #111
	strb	w9, [x20, x8]
	cmp	x8, #1023
	add	x9, x8, #1
	str	x9, [x19, #1032]
	b.lo	.LBB90_28
	mov	x0, x19
	bl	std_io.io.buffer.Buffer.flush
	cbz	w0, .LBB90_94
	ldr	x9, [x19, #1032]
	cmp	x9, #1023
	b.hi	.LBB90_94
.LBB90_28:
	mov	w8, #116
	strb	w8, [x20, x9]
	cmp	x9, #1023
	add	x8, x9, #1
	str	x8, [x19, #1032]
	b.lo	.LBB90_31
	mov	x0, x19
	bl	std_io.io.buffer.Buffer.flush
	cbz	w0, .LBB90_94
	ldr	x8, [x19, #1032]
	cmp	x8, #1023
	b.hi	.LBB90_94
.LBB90_31:
	mov	w9, #32
	strb	w9, [x20, x8]
	cmp	x8, #1023
	add	x9, x8, #1
	str	x9, [x19, #1032]
	b.lo	.LBB90_34
	mov	x0, x19
	bl	std_io.io.buffer.Buffer.flush
	cbz	w0, .LBB90_94
	ldr	x9, [x19, #1032]
	cmp	x9, #1023
	b.hi	.LBB90_94
.LBB90_34:
	mov	w8, #119
	strb	w8, [x20, x9]
	cmp	x9, #1023
	add	x8, x9, #1
	str	x8, [x19, #1032]
	b.lo	.LBB90_37
	mov	x0, x19
	bl	std_io.io.buffer.Buffer.flush
	cbz	w0, .LBB90_94
	ldr	x8, [x19, #1032]
	cmp	x8, #1023
	b.hi	.LBB90_94
.LBB90_37:
	mov	w9, #114
	strb	w9, [x20, x8]
	cmp	x8, #1023
	add	x9, x8, #1
	str	x9, [x19, #1032]
	b.lo	.LBB90_40
	mov	x0, x19
	bl	std_io.io.buffer.Buffer.flush
	cbz	w0, .LBB90_94
	ldr	x9, [x19, #1032]
	cmp	x9, #1023
	b.hi	.LBB90_94
.LBB90_40:
	mov	w8, #105
	strb	w8, [x20, x9]
	cmp	x9, #1023
	add	x8, x9, #1
	str	x8, [x19, #1032]
	b.lo	.LBB90_43
	mov	x0, x19
	bl	std_io.io.buffer.Buffer.flush
	cbz	w0, .LBB90_94
	ldr	x8, [x19, #1032]
	cmp	x8, #1023
	b.hi	.LBB90_94
.LBB90_43:
	mov	w9, #116
	strb	w9, [x20, x8]
	cmp	x8, #1023
	add	x9, x8, #1
	str	x9, [x19, #1032]
	b.lo	.LBB90_46
	mov	x0, x19
	bl	std_io.io.buffer.Buffer.flush
	cbz	w0, .LBB90_94
	ldr	x9, [x19, #1032]
	cmp	x9, #1023
	b.hi	.LBB90_94
.LBB90_46:
	mov	w0, wzr
	mov	w8, #101
	b	.LBB90_102
.LBB90_47:
	mov	w9, #32
	ldr	q0, [x20]
	ldr	x10, [x20, #16]
	str	w9, [x19, #1136]
	ldr	x9, [x19, #1160]
	str	xzr, [x8]
	str	wzr, [x8, #8]
	mov	x8, #-1
	str	q0, [sp]
	str	x10, [sp, #16]
	str	x8, [x19, #1152]
	cbnz	x9, .LBB90_97
	ldr	x8, [x19, #1032]
	mov	x22, xzr
	add	x23, x19, #4
	b	.LBB90_50
.LBB90_49:
	add	x22, x22, #1
	strb	w24, [x23, x8]
	add	x8, x8, #1
	cmp	x22, #23
	str	x8, [x19, #1032]
	b.eq	.LBB90_98
.LBB90_50:
	adrp	x9, .Lstatic.92
	add	x9, x9, :lo12:.Lstatic.92
	cmp	x8, #1024
	ldrb	w24, [x9, x22]
	b.lo	.LBB90_49
	mov	x0, x19
	bl	std_io.io.buffer.Buffer.flush
	cbz	w0, .LBB90_53
	ldr	x8, [x19, #1032]
	cmp	x8, #1023
	b.ls	.LBB90_49
.LBB90_53:
	mov	w0, #1
	b	.LBB90_99
.LBB90_54:
	ldr	x8, [x19, #1160]
	cbnz	x8, .LBB90_100
	ldr	x9, [x19, #1032]
	cmp	x9, #1024
	b.lo	.LBB90_58
	mov	x0, x19
	bl	std_io.io.buffer.Buffer.flush
	cbz	w0, .LBB90_94
	ldr	x9, [x19, #1032]
	cmp	x9, #1023
	b.hi	.LBB90_94
.LBB90_58:
	add	x20, x19, #4
	add	x8, x9, #1
	cmp	x9, #1023
	mov	w10, #111
	strb	w10, [x20, x9]
	str	x8, [x19, #1032]
	b.ne	.LBB90_61
	mov	x0, x19
	bl	std_io.io.buffer.Buffer.flush
	cbz	w0, .LBB90_94
	ldr	x8, [x19, #1032]
	cmp	x8, #1023
	b.hi	.LBB90_94
.LBB90_61:
	mov	w9, #117
	strb	w9, [x20, x8]
	cmp	x8, #1023
	add	x9, x8, #1
	str	x9, [x19, #1032]
	b.lo	.LBB90_64
	mov	x0, x19
	bl	std_io.io.buffer.Buffer.flush
	cbz	w0, .LBB90_94
	ldr	x9, [x19, #1032]
	cmp	x9, #1023
	b.hi	.LBB90_94
.LBB90_64:
	mov	w8, #116
	strb	w8, [x20, x9]
	cmp	x9, #1023
	add	x8, x9, #1
	str	x8, [x19, #1032]
	b.lo	.LBB90_67
	mov	x0, x19
	bl	std_io.io.buffer.Buffer.flush
	cbz	w0, .LBB90_94
	ldr	x8, [x19, #1032]
	cmp	x8, #1023
	b.hi	.LBB90_94
.LBB90_67:
	mov	w9, #32
	strb	w9, [x20, x8]
	cmp	x8, #1023
	add	x9, x8, #1
	str	x9, [x19, #1032]
	b.lo	.LBB90_70
	mov	x0, x19
	bl	std_io.io.buffer.Buffer.flush
	cbz	w0, .LBB90_94
	ldr	x9, [x19, #1032]
	cmp	x9, #1023
	b.hi	.LBB90_94
.LBB90_70:
	mov	w8, #111
	strb	w8, [x20, x9]
	cmp	x9, #1023
	add	x8, x9, #1
	str	x8, [x19, #1032]
	b.lo	.LBB90_73
	mov	x0, x19
	bl	std_io.io.buffer.Buffer.flush
	cbz	w0, .LBB90_94
	ldr	x8, [x19, #1032]
	cmp	x8, #1023
	b.hi	.LBB90_94
.LBB90_73:
	mov	w9, #102
	strb	w9, [x20, x8]
	cmp	x8, #1023
	add	x9, x8, #1
	str	x9, [x19, #1032]
	b.lo	.LBB90_76
	mov	x0, x19
	bl	std_io.io.buffer.Buffer.flush
	cbz	w0, .LBB90_94
	ldr	x9, [x19, #1032]
	cmp	x9, #1023
	b.hi	.LBB90_94
.LBB90_76:
	mov	w8, #32
	strb	w8, [x20, x9]
	cmp	x9, #1023
	add	x8, x9, #1
	str	x8, [x19, #1032]
	b.lo	.LBB90_79
	mov	x0, x19
	bl	std_io.io.buffer.Buffer.flush
	cbz	w0, .LBB90_94
	ldr	x8, [x19, #1032]
	cmp	x8, #1023
	b.hi	.LBB90_94
.LBB90_79:
	mov	w9, #109
	strb	w9, [x20, x8]
	cmp	x8, #1023
	add	x9, x8, #1
	str	x9, [x19, #1032]
	b.lo	.LBB90_82
	mov	x0, x19
	bl	std_io.io.buffer.Buffer.flush
	cbz	w0, .LBB90_94
	ldr	x9, [x19, #1032]
	cmp	x9, #1023
	b.hi	.LBB90_94
.LBB90_82:
	mov	w8, #101
	strb	w8, [x20, x9]
	cmp	x9, #1023
	add	x8, x9, #1
	str	x8, [x19, #1032]
	b.lo	.LBB90_85
	mov	x0, x19
	bl	std_io.io.buffer.Buffer.flush
	cbz	w0, .LBB90_94
	ldr	x8, [x19, #1032]
	cmp	x8, #1023
	b.hi	.LBB90_94
.LBB90_85:
	mov	w9, #109
	strb	w9, [x20, x8]
	cmp	x8, #1023
	add	x9, x8, #1
	str	x9, [x19, #1032]
	b.lo	.LBB90_88
	mov	x0, x19
	bl	std_io.io.buffer.Buffer.flush
	cbz	w0, .LBB90_94
	ldr	x9, [x19, #1032]
	cmp	x9, #1023
	b.hi	.LBB90_94
.LBB90_88:
	mov	w8, #111
	strb	w8, [x20, x9]
	cmp	x9, #1023
	add	x8, x9, #1
	str	x8, [x19, #1032]
	b.lo	.LBB90_91
	mov	x0, x19
	bl	std_io.io.buffer.Buffer.flush
	cbz	w0, .LBB90_94
	ldr	x8, [x19, #1032]
	cmp	x8, #1023
	b.hi	.LBB90_94
.LBB90_91:
	mov	w9, #114
	strb	w9, [x20, x8]
	cmp	x8, #1023
	add	x9, x8, #1
	str	x9, [x19, #1032]
	b.lo	.LBB90_101
	mov	x0, x19
	bl	std_io.io.buffer.Buffer.flush
	cbz	w0, .LBB90_94
	ldr	x9, [x19, #1032]
	cmp	x9, #1023
	b.ls	.LBB90_101
.LBB90_94:
	mov	w0, #1
	ldp	x20, x19, [sp, #80]
	ldp	x22, x21, [sp, #64]
	ldp	x24, x23, [sp, #48]
	ldp	x29, x30, [sp, #32]
	add	sp, sp, #96
	ret
.LBB90_95:
	adrp	x1, .Lstatic.91
	add	x1, x1, :lo12:.Lstatic.91
	mov	x0, x19
	mov	w2, #25
	bl	core.fmt.formatter.Formatter.write_indented.bf264aed5fa78656
	and	w8, w0, #0xff
	tbnz	w8, #0, .LBB90_53
	b	.LBB90_98
.LBB90_96:
	adrp	x1, .Lstatic.93
	add	x1, x1, :lo12:.Lstatic.93
	mov	x0, x19
	mov	w2, #12
	ldp	x20, x19, [sp, #80]
	ldp	x22, x21, [sp, #64]
	ldp	x24, x23, [sp, #48]
	ldp	x29, x30, [sp, #32]
	add	sp, sp, #96
	b	core.fmt.formatter.Formatter.write_indented.bf264aed5fa78656
.LBB90_97:
	adrp	x1, .Lstatic.92
	add	x1, x1, :lo12:.Lstatic.92
	mov	x0, x19
	mov	w2, #23
	bl	core.fmt.formatter.Formatter.write_indented.bf264aed5fa78656
	and	w8, w0, #0xff
	tbnz	w8, #0, .LBB90_53
.LBB90_98:
	add	x1, x21, #8
	mov	x0, x19
	bl	core.fmt.formatter.Formatter.write_piece.ad6cde96c05b3f7d
	and	w0, w0, #0xff
.LBB90_99:
	ldr	q0, [sp]
	ldr	x8, [sp, #16]
	str	q0, [x20]
	str	x8, [x20, #16]
	ldp	x20, x19, [sp, #80]
	ldp	x22, x21, [sp, #64]
	ldp	x24, x23, [sp, #48]
	ldp	x29, x30, [sp, #32]
	add	sp, sp, #96
	ret
.LBB90_100:
	adrp	x1, .Lstatic.94
	add	x1, x1, :lo12:.Lstatic.94
	mov	x0, x19
	mov	w2, #13
	ldp	x20, x19, [sp, #80]
	ldp	x22, x21, [sp, #64]
	ldp	x24, x23, [sp, #48]
	ldp	x29, x30, [sp, #32]
	add	sp, sp, #96
	b	core.fmt.formatter.Formatter.write_indented.bf264aed5fa78656
.LBB90_101:
	mov	w0, wzr
	mov	w8, #121
.LBB90_102:
	strb	w8, [x20, x9]
	add	x8, x9, #1
	str	x8, [x19, #1032]
	ldp	x20, x19, [sp, #80]
	ldp	x22, x21, [sp, #64]
	ldp	x24, x23, [sp, #48]
	ldp	x29, x30, [sp, #32]
	add	sp, sp, #96
	ret
.Lfunc_end90:
	.size	core.fmt.formatter.Formatter.write_piece.bdc4606c8c8e2f5f, .Lfunc_end90-core.fmt.formatter.Formatter.write_piece.bdc4606c8c8e2f5f
	.section	.text.core.fmt.formatter.Formatter.write_piece.ad6cde96c05b3f7d,"ax",@progbits
	.p2align	2
	.type	core.fmt.formatter.Formatter.write_piece.ad6cde96c05b3f7d,@function
core.fmt.formatter.Formatter.write_piece.ad6cde96c05b3f7d:
	sub	sp, sp, #80
	mov	w8, #32
	mov	x9, #-1
	str	wzr, [x0, #1148]
	str	w8, [x0, #1136]
	add	x8, x0, #1140
	str	xzr, [x8]
	str	x9, [x0, #1152]
	ldr	x8, [x1]
	stp	x20, x19, [sp, #64]
	mov	x19, x0
	stp	x29, x30, [sp, #32]
	add	x29, sp, #32
	cmp	x8, #100
	stp	x22, x21, [sp, #48]
	stp	xzr, xzr, [sp, #8]
	str	xzr, [sp, #24]
	b.lo	.LBB91_6
	mov	x9, xzr
.LBB91_2:
	mov	x11, #62915
	mov	x10, x8
	lsr	x8, x8, #2
	movk	x11, #23592, lsl #16
	mov	w12, #205
	movk	x11, #49807, lsl #32
	movk	x11, #10485, lsl #48
	umulh	x8, x8, x11
	mov	w11, #100
	lsr	x8, x8, #2
	msub	w11, w8, w11, w10
	lsr	x10, x10, #4
	cmp	x10, #624
	and	w13, w11, #0xff
	mul	w12, w13, w12
	mov	w13, #10
	lsr	w12, w12, #11
	msub	w11, w12, w13, w11
	add	x13, sp, #8
	orr	w10, w12, #0x30
	add	x13, x13, x9
	sub	x9, x9, #2
	strb	w10, [x13, #22]
	orr	w11, w11, #0x30
	strb	w11, [x13, #23]
	b.hi	.LBB91_2
	add	x9, x9, #24
	cmp	x8, #10
	b.hs	.LBB91_7
.LBB91_4:
	sub	x20, x9, #1
	add	x9, sp, #8
	orr	w8, w8, #0x30
	strb	w8, [x9, x20]
	add	x8, sp, #8
	ldr	x9, [x19, #1160]
	add	x1, x8, x20
	mov	w8, #45
	sturb	w8, [x1, #-1]
	cbz	x9, .LBB91_8
.LBB91_5:
	mov	w8, #24
	mov	x0, x19
	sub	x2, x8, x20
	bl	core.fmt.formatter.Formatter.write_indented.bf264aed5fa78656
	and	w0, w0, #0xff
	ldp	x20, x19, [sp, #64]
	ldp	x22, x21, [sp, #48]
	ldp	x29, x30, [sp, #32]
	add	sp, sp, #80
	ret
.LBB91_6:
	mov	w9, #24
	cmp	x8, #10
	b.lo	.LBB91_4
.LBB91_7:
	and	w10, w8, #0xff
	mov	w11, #205
	sub	x20, x9, #2
	mul	w10, w10, w11
	mov	w11, #10
	lsr	w10, w10, #11
	msub	w8, w10, w11, w8
	add	x11, sp, #8
	orr	w10, w10, #0x30
	add	x11, x11, x9
	sturb	w10, [x11, #-2]
	orr	w8, w8, #0x30
	sturb	w8, [x11, #-1]
	add	x8, sp, #8
	ldr	x9, [x19, #1160]
	add	x1, x8, x20
	mov	w8, #45
	sturb	w8, [x1, #-1]
	cbnz	x9, .LBB91_5
.LBB91_8:
	cmp	x20, #24
	b.ne	.LBB91_10
.LBB91_9:
	mov	w0, wzr
	ldp	x20, x19, [sp, #64]
	ldp	x22, x21, [sp, #48]
	ldp	x29, x30, [sp, #32]
	add	sp, sp, #80
	ret
.LBB91_10:
	ldr	x8, [x19, #1032]
	add	x21, x19, #4
	b	.LBB91_12
.LBB91_11:
	add	x20, x20, #1
	strb	w22, [x21, x8]
	add	x8, x8, #1
	cmp	x20, #24
	str	x8, [x19, #1032]
	b.eq	.LBB91_9
.LBB91_12:
	add	x9, sp, #8
	cmp	x8, #1024
	ldrb	w22, [x9, x20]
	b.lo	.LBB91_11
	mov	x0, x19
	bl	std_io.io.buffer.Buffer.flush
	cbz	w0, .LBB91_15
	ldr	x8, [x19, #1032]
	cmp	x8, #1023
	b.ls	.LBB91_11
.LBB91_15:
	mov	w0, #1
	ldp	x20, x19, [sp, #64]
	ldp	x22, x21, [sp, #48]
	ldp	x29, x30, [sp, #32]
	add	sp, sp, #80
	ret
.Lfunc_end91:
	.size	core.fmt.formatter.Formatter.write_piece.ad6cde96c05b3f7d, .Lfunc_end91-core.fmt.formatter.Formatter.write_piece.ad6cde96c05b3f7d
	.section	.text.core.fmt.formatter.Formatter.write_raw.bf264aed5fa78656,"ax",@progbits
	.p2align	2
	.type	core.fmt.formatter.Formatter.write_raw.bf264aed5fa78656,@function
core.fmt.formatter.Formatter.write_raw.bf264aed5fa78656:
	cbz	x2, .LBB92_21
	stp	x29, x30, [sp, #-64]!
	stp	x22, x21, [sp, #32]
	mov	x21, x0
	mov	x8, xzr
	stp	x20, x19, [sp, #48]
	mov	x19, x2
	mov	x20, x1
	str	x23, [sp, #16]
	mov	x29, sp
	b	.LBB92_4
.LBB92_2:
	mov	w10, #1
.LBB92_3:
	add	x8, x10, x8
	cmp	x8, x19
	b.hs	.LBB92_22
.LBB92_4:
	ldrsb	w9, [x20, x8]
	tbz	w9, #31, .LBB92_2
	add	x10, x8, #1
	cmp	x19, x10
	b.ls	.LBB92_29
	ldrsb	w10, [x20, x10]
	tbz	w10, #31, .LBB92_29
	and	w9, w9, #0xff
	cmn	w10, #64
	mov	w11, #-64
	csel	w10, w10, w11, lo
	cmp	w9, #194
	mov	w0, #1
	b.lo	.LBB92_28
	and	w10, w10, #0x7f
	cmp	w10, #63
	b.hi	.LBB92_28
	cmp	w9, #224
	b.hs	.LBB92_11
	mov	w10, #2
	b	.LBB92_3
.LBB92_11:
	add	x11, x8, #2
	cmp	x19, x11
	b.ls	.LBB92_28
	ldrsb	w11, [x20, x11]
	cmn	w11, #65
	b.gt	.LBB92_28
	cmp	w9, #239
	b.hi	.LBB92_17
	lsl	w11, w9, #12
	add	w10, w11, w10, lsl #6
	sub	w10, w10, #224, lsl #12
	cmp	w10, #2048
	b.lo	.LBB92_28
	lsr	w10, w10, #11
	cmp	w10, #27
	mov	w10, #3
	b.lo	.LBB92_3
	cmp	w9, #238
	b.hs	.LBB92_3
	b	.LBB92_28
.LBB92_17:
	add	x11, x8, #3
	cmp	x19, x11
	b.ls	.LBB92_28
	ldrsb	w11, [x20, x11]
	cmn	w11, #65
	b.gt	.LBB92_28
	lsl	w9, w9, #18
	add	w9, w9, w10, lsl #12
	mov	w10, #-62980096
	add	w9, w9, w10
	lsr	w9, w9, #20
	cbnz	w9, .LBB92_28
	mov	w10, #4
	b	.LBB92_3
.LBB92_21:
	mov	w0, wzr
	ret
.LBB92_22:
	ldr	x8, [x21, #1032]
	add	x22, x21, #4
	b	.LBB92_24
.LBB92_23:
	sub	x19, x19, #1
	strb	w23, [x22, x8]
	add	x8, x8, #1
	str	x8, [x21, #1032]
	cbz	x19, .LBB92_30
.LBB92_24:
	ldrb	w23, [x20], #1
	cmp	x8, #1024
	b.lo	.LBB92_23
	mov	x0, x21
	bl	std_io.io.buffer.Buffer.flush
	cbz	w0, .LBB92_29
	ldr	x8, [x21, #1032]
	cmp	x8, #1023
	b.ls	.LBB92_23
	mov	w0, #1
.LBB92_28:
	ldp	x20, x19, [sp, #48]
	ldr	x23, [sp, #16]
	ldp	x22, x21, [sp, #32]
	ldp	x29, x30, [sp], #64
	ret
.LBB92_29:
	mov	w0, #1
	ldp	x20, x19, [sp, #48]
	ldr	x23, [sp, #16]
	ldp	x22, x21, [sp, #32]
	ldp	x29, x30, [sp], #64
	ret
.LBB92_30:
	mov	w0, wzr
	ldp	x20, x19, [sp, #48]
	ldr	x23, [sp, #16]
	ldp	x22, x21, [sp, #32]
	ldp	x29, x30, [sp], #64
	ret
.Lfunc_end92:
	.size	core.fmt.formatter.Formatter.write_raw.bf264aed5fa78656, .Lfunc_end92-core.fmt.formatter.Formatter.write_raw.bf264aed5fa78656
	.section	.rodata.cst16,"aM",@progbits,16
	.p2align	4, 0x0
.LCPI93_0:
	.xword	8458358670138239095
	.xword	3327647951695996518
.LCPI93_1:
	.xword	8367798494427701606
	.xword	2334399978102268015
	.section	.rodata.cst8,"aM",@progbits,8
	.p2align	3, 0x0
.LCPI93_2:
	.hword	2
	.hword	23
	.hword	28
	.hword	0
.LCPI93_3:
	.hword	0
	.hword	35
	.hword	0
	.hword	0
	.section	.text.std_io.io.buffer.Buffer.flush,"ax",@progbits
	.p2align	2
	.type	std_io.io.buffer.Buffer.flush,@function
std_io.io.buffer.Buffer.flush:
	sub	sp, sp, #208
	stp	x22, x21, [sp, #176]
	ldr	x22, [x0, #1032]
	stp	x29, x30, [sp, #128]
	add	x29, sp, #128
	cmp	x22, #1025
	str	x25, [sp, #144]
	stp	x24, x23, [sp, #160]
	stp	x20, x19, [sp, #192]
	str	xzr, [x0, #1032]
	b.lo	.LBB93_2
	mov	w0, wzr
	b	.LBB93_15
.LBB93_2:
	mov	x24, x0
	mov	x19, x0
	mov	x23, xzr
	ldr	w20, [x24], #4
	add	x25, x22, #64
	b	.LBB93_5
.LBB93_3:
	bl	rattle_errno
	cmp	w0, #4
	b.ne	.LBB93_13
	subs	x25, x25, #1
	b.eq	.LBB93_9
.LBB93_5:
	subs	x21, x22, x23
	b.ls	.LBB93_11
	add	x1, x24, x23
	mov	w0, w20
	mov	x2, x21
	bl	write
	tbnz	x0, #63, .LBB93_3
	cbz	x0, .LBB93_12
	cmp	x0, x21
	csel	x8, x0, x21, lo
	add	x23, x8, x23
	subs	x25, x25, #1
	b.ne	.LBB93_5
.LBB93_9:
	cmp	x22, x23
	b.ls	.LBB93_11
	movi	v1.2d, #0000000000000000
	movi	v2.2d, #0000000000000000
	adrp	x8, .LCPI93_3
	movi	v0.2d, #0000000000000000
	ldr	d3, [x8, :lo12:.LCPI93_3]
	mov	w8, #4
	stp	q1, q1, [sp]
	b	.LBB93_14
.LBB93_11:
	mov	w0, #1
	b	.LBB93_15
.LBB93_12:
	movi	v0.16b, #46
	adrp	x9, .LCPI93_0
	adrp	x10, .LCPI93_1
	adrp	x11, .LCPI93_2
	ldr	q2, [x9, :lo12:.LCPI93_0]
	ldr	q1, [x10, :lo12:.LCPI93_1]
	ldr	d3, [x11, :lo12:.LCPI93_2]
	mov	w8, wzr
	stp	q0, q0, [sp]
	b	.LBB93_14
.LBB93_13:
	mov	w1, w0
	add	x0, sp, #40
	bl	std_io.io.error.Error.from_raw_os_error
	ldr	s0, [sp, #40]
	ldp	q4, q5, [sp, #96]
	ldp	q1, q2, [sp, #48]
	ldr	w8, [sp, #44]
	ushll	v3.8h, v0.8b, #0
	ldur	q0, [sp, #80]
	stp	q4, q5, [sp]
.LBB93_14:
	uzp1	v3.8b, v3.8b, v0.8b
	str	q1, [x19, #1056]
	mov	w0, wzr
	str	q0, [x19, #1088]
	ldp	q1, q0, [sp]
	str	w8, [x19, #1052]
	mov	w8, #1
	str	q2, [x19, #1072]
	str	x8, [x19, #1040]
	str	s3, [x19, #1048]
	str	q1, [x19, #1104]
	str	q0, [x19, #1120]
.LBB93_15:
	ldp	x20, x19, [sp, #192]
	ldr	x25, [sp, #144]
	ldp	x22, x21, [sp, #176]
	ldp	x24, x23, [sp, #160]
	ldp	x29, x30, [sp, #128]
	add	sp, sp, #208
	ret
.Lfunc_end93:
	.size	std_io.io.buffer.Buffer.flush, .Lfunc_end93-std_io.io.buffer.Buffer.flush
	.section	.text.unlikely.core.fmt.formatter.Formatter.write_indented.bf264aed5fa78656,"ax",@progbits
	.p2align	2
	.type	core.fmt.formatter.Formatter.write_indented.bf264aed5fa78656,@function
core.fmt.formatter.Formatter.write_indented.bf264aed5fa78656:
	stp	x29, x30, [sp, #-80]!
	str	x25, [sp, #16]
	mov	x29, sp
	stp	x24, x23, [sp, #32]
	stp	x22, x21, [sp, #48]
	stp	x20, x19, [sp, #64]
	cbz	x2, .LBB94_16
	mov	x21, x2
	mov	x20, x1
	mov	x19, x0
	mov	x8, xzr
	mov	x24, xzr
	b	.LBB94_4
.LBB94_2:
	mov	w23, #1
	add	x1, x20, x25
	mov	x0, x19
	mov	x2, x22
	strb	w23, [x19, #1168]
	bl	core.fmt.formatter.Formatter.write_raw.bf264aed5fa78656
	and	w9, w0, #0xff
	mov	x8, x24
	tbnz	w9, #0, .LBB94_18
.LBB94_3:
	cmp	x24, x21
	b.eq	.LBB94_10
.LBB94_4:
	ldrb	w10, [x20, x24]
	mov	x9, x24
	add	x24, x24, #1
	cmp	w10, #10
	b.ne	.LBB94_3
	subs	x22, x24, x8
	csel	x25, xzr, x8, lo
	cmp	x8, x9
	mov	x8, x24
	b.hi	.LBB94_3
	ldrb	w8, [x19, #1168]
	cmp	w8, #1
	b.ne	.LBB94_2
	ldr	x23, [x19, #1160]
	cbz	x23, .LBB94_2
.LBB94_8:
	adrp	x1, .Lstatic.98
	add	x1, x1, :lo12:.Lstatic.98
	mov	x0, x19
	mov	w2, #4
	bl	core.fmt.formatter.Formatter.write_raw.bf264aed5fa78656
	and	w8, w0, #0xff
	tbnz	w8, #0, .LBB94_17
	subs	x23, x23, #1
	b.ne	.LBB94_8
	b	.LBB94_2
.LBB94_10:
	cmp	x8, x21
	csel	x22, xzr, x8, hi
	subs	x8, x21, x8
	csel	x21, xzr, x8, lo
	b.ls	.LBB94_16
	ldrb	w8, [x19, #1168]
	cmp	w8, #1
	b.ne	.LBB94_15
	ldr	x23, [x19, #1160]
	cbz	x23, .LBB94_15
.LBB94_13:
	adrp	x1, .Lstatic.98
	add	x1, x1, :lo12:.Lstatic.98
	mov	x0, x19
	mov	w2, #4
	bl	core.fmt.formatter.Formatter.write_raw.bf264aed5fa78656
	and	w8, w0, #0xff
	tbnz	w8, #0, .LBB94_17
	subs	x23, x23, #1
	b.ne	.LBB94_13
.LBB94_15:
	add	x1, x20, x22
	mov	x0, x19
	mov	x2, x21
	strb	wzr, [x19, #1168]
	ldp	x20, x19, [sp, #64]
	ldp	x22, x21, [sp, #48]
	ldr	x25, [sp, #16]
	ldp	x24, x23, [sp, #32]
	ldp	x29, x30, [sp], #80
	b	core.fmt.formatter.Formatter.write_raw.bf264aed5fa78656
.LBB94_16:
	mov	w23, wzr
	b	.LBB94_18
.LBB94_17:
	mov	w23, #1
.LBB94_18:
	mov	w0, w23
	ldp	x20, x19, [sp, #64]
	ldp	x22, x21, [sp, #48]
	ldr	x25, [sp, #16]
	ldp	x24, x23, [sp, #32]
	ldp	x29, x30, [sp], #80
	ret
.Lfunc_end94:
	.size	core.fmt.formatter.Formatter.write_indented.bf264aed5fa78656, .Lfunc_end94-core.fmt.formatter.Formatter.write_indented.bf264aed5fa78656
	.section	.text.main,"ax",@progbits
	.globl	main
	.p2align	2
	.type	main,@function
main:
	stp	x29, x30, [sp, #-80]!
	str	x28, [sp, #16]
	mov	x29, sp
	stp	x24, x23, [sp, #32]
	stp	x22, x21, [sp, #48]
	stp	x20, x19, [sp, #64]
	sub	sp, sp, #2416
	mov	w0, #13
	mov	w1, #1
	str	xzr, [sp]
	bl	__sysv_signal
	movi	v0.2d, #0000000000000000
	mov	x0, sp
	add	x1, x29, #31
	stp	q0, q0, [sp]
	stp	q0, q0, [sp, #32]
	stp	q0, q0, [sp, #64]
	bl	ic_main.run.fd625e2fe7ce0436
	adrp	x20, .Lstatic.0
	ldrb	w8, [x20, :lo12:.Lstatic.0]
	cbnz	w8, .LBB95_3
	ldrb	w8, [sp]
	cbnz	w8, .LBB95_4
	ldrb	w0, [sp, #1]
	ldrb	w8, [x20, :lo12:.Lstatic.0]
	cbz	w8, .LBB95_9
.LBB95_3:
	brk	#0x1
.LBB95_4:
	adrp	x8, .Lstatic.1
	add	x8, x8, :lo12:.Lstatic.1
	add	x21, sp, #96
	str	x8, [sp, #1272]
	mov	w8, #2
	orr	x0, x21, #0x4
	mov	w1, wzr
	mov	w2, #1132
	str	w8, [sp, #96]
	orr	x19, x21, #0x4
	bl	memset
	movi	v0.2d, #0000000000000000
	mov	w24, #32
	add	x22, x21, #1140
	str	wzr, [sp, #1244]
	add	x8, x21, #1160
	mov	x23, #-1
	str	w24, [sp, #1232]
	add	x0, sp, #96
	add	x1, sp, #1272
	str	xzr, [x22]
	str	q0, [x8]
	ldr	q0, [sp, #1232]
	str	x23, [sp, #1248]
	str	q0, [sp, #1280]
	str	x23, [sp, #1296]
	str	w24, [sp, #1232]
	str	xzr, [x22]
	str	wzr, [sp, #1244]
	bl	core.fmt.formatter.Formatter.write_piece.bdc4606c8c8e2f5f
	ldr	q0, [sp, #1280]
	ldr	x8, [sp, #1296]
	and	w9, w0, #0xff
	str	q0, [sp, #1232]
	str	x8, [sp, #1248]
	tbnz	w9, #0, .LBB95_8
	add	x21, x21, #1136
	ldr	x9, [sp, #1256]
	ldr	q0, [x21]
	ldr	x8, [x21, #16]
	str	w24, [sp, #1232]
	str	xzr, [x22]
	str	q0, [sp, #1280]
	str	x8, [sp, #1296]
	str	wzr, [x22, #8]
	str	x23, [sp, #1248]
	cbz	x9, .LBB95_12
	adrp	x1, .Lstatic.38
	add	x1, x1, :lo12:.Lstatic.38
	add	x0, sp, #96
	mov	w2, #1
	bl	core.fmt.formatter.Formatter.write_indented.bf264aed5fa78656
.LBB95_7:
	ldr	q0, [sp, #1280]
	ldr	x8, [sp, #1296]
	str	q0, [x21]
	str	x8, [x21, #16]
.LBB95_8:
	ldr	w8, [sp, #96]
	mov	x1, x19
	mov	w2, #1132
	str	w8, [sp, #1280]
	add	x8, sp, #1280
	orr	x0, x8, #0x4
	bl	memcpy
	add	x0, sp, #1280
	bl	std_io.io.buffer.Buffer.flush
	mov	w0, #3
	ldrb	w8, [x20, :lo12:.Lstatic.0]
	cbnz	w8, .LBB95_3
.LBB95_9:
	ldrb	w8, [x20, :lo12:.Lstatic.0]
	cbnz	w8, .LBB95_3
	ldrb	w8, [x20, :lo12:.Lstatic.0]
	cbnz	w8, .LBB95_3
	bl	_exit
	ldrb	wzr, [x20, :lo12:.Lstatic.0]
	brk	#0x1
.LBB95_12:
	ldr	x8, [sp, #1128]
	cmp	x8, #1024
	b.lo	.LBB95_15
	add	x0, sp, #96
	bl	std_io.io.buffer.Buffer.flush
	cbz	w0, .LBB95_7
	ldr	x8, [sp, #1128]
	cmp	x8, #1023
	b.hi	.LBB95_7
.LBB95_15:
	mov	w9, #10
	strb	w9, [x19, x8]
	add	x8, x8, #1
	str	x8, [sp, #1128]
	b	.LBB95_7
.Lfunc_end95:
	.size	main, .Lfunc_end95-main
	.section	.text.core.scope.entry.5a45c0bf2caea352.thread.called.by.C.0,"ax",@progbits
	.p2align	2
	.type	core.scope.entry.5a45c0bf2caea352.thread.called.by.C.0,@function
core.scope.entry.5a45c0bf2caea352.thread.called.by.C.0:
	sub	sp, sp, #160
	stp	x20, x19, [sp, #144]
	mov	x20, x0
	mov	x19, x0
	str	x23, [sp, #112]
	ldr	x9, [x20, #24]!
	stp	x22, x21, [sp, #128]
	ldp	x11, x21, [x20, #8]
	ldp	x22, x23, [x20, #40]
	ldur	q0, [x20, #24]
	ldur	x10, [x20, #-8]
	ldr	x8, [x20, #72]
	stp	x29, x30, [sp, #96]
	add	x29, sp, #96
	stp	xzr, xzr, [sp]
	stp	xzr, xzr, [sp, #16]
	stur	q0, [x29, #-16]
	stp	xzr, xzr, [sp, #32]
	stp	xzr, xzr, [sp, #48]
	stp	xzr, xzr, [x29, #-32]
	cbz	x11, .LBB96_11
	mov	x12, xzr
	b	.LBB96_4
.LBB96_2:
	add	x14, x21, x23, lsl #1
	mov	x23, x13
	stur	x13, [x14, #-16]
.LBB96_3:
	add	x12, x12, #1
	cmp	x12, x11
	b.eq	.LBB96_11
.LBB96_4:
	ldr	x13, [x9, x12, lsl #3]
	ldr	x14, [x10]
	//APP
	//NO_APP
	add	x14, x14, x13
	sub	x14, x14, #8
.LBB96_5:
	ldaxr	x15, [x14]
	cbnz	x15, .LBB96_10
	mov	w15, #1
	stlxr	w16, x15, [x14]
	cbnz	w16, .LBB96_5
	add	x14, x21, x13, lsl #1
	//APP
	//NO_APP
	ldur	x15, [x14, #-16]
	cmp	x15, #1
	b.ne	.LBB96_3
	stp	xzr, x23, [x14, #-16]
	cbnz	x23, .LBB96_2
	mov	x22, x13
	mov	x23, x13
	b	.LBB96_3
.LBB96_10:
	clrex
	//APP
	//NO_APP
	b	.LBB96_3
.LBB96_11:
	ldur	q0, [x29, #-16]
	str	q0, [sp, #16]
	//APP
	//NO_APP
.LBB96_12:
	ldaxr	x9, [x8]
	subs	x9, x9, #1
	stlxr	w10, x9, [x8]
	cbnz	w10, .LBB96_12
	//APP
	//NO_APP
	b.ne	.LBB96_15
	add	x1, x8, #8
	mov	w8, #1
	//APP
	//NO_APP
	stlr	x8, [x1]
	mov	w0, #98
	mov	w2, #129
	//APP
	//NO_APP
	mov	w3, #1
	mov	x4, xzr
	bl	syscall
.LBB96_15:
	ldr	q0, [sp, #16]
	str	x21, [x19, #16]
	add	x9, x19, #8
	stp	x22, x23, [x19, #40]
	str	q0, [sp]
	str	q0, [x20]
	//APP
	//NO_APP
.LBB96_16:
	ldaxr	x8, [x9]
	mov	w10, #1
	stlxr	w11, x10, [x9]
	cbnz	w11, .LBB96_16
	//APP
	//NO_APP
	cbz	x8, .LBB96_19
	bl	pthread_self
	bl	pthread_detach
	mov	x0, x19
	bl	free
.LBB96_19:
	ldp	x20, x19, [sp, #144]
	mov	x0, xzr
	ldp	x22, x21, [sp, #128]
	ldr	x23, [sp, #112]
	ldp	x29, x30, [sp, #96]
	add	sp, sp, #160
	ret
.Lfunc_end96:
	.size	core.scope.entry.5a45c0bf2caea352.thread.called.by.C.0, .Lfunc_end96-core.scope.entry.5a45c0bf2caea352.thread.called.by.C.0
	.type	.Lstatic.0,@object
	.section	.bss..Lstatic.0,"aw",@nobits
	.p2align	2, 0x0
.Lstatic.0:
	.zero	1
	.size	.Lstatic.0, 1
	.type	.Lstatic.1,@object
	.section	.rodata.cst16,"aM",@progbits,16
	.p2align	3, 0x0
.Lstatic.1:
	.asciz	"\003\000\000\000\000\000\000\000\000\000\000\000\000\000\000"
	.size	.Lstatic.1, 16
	.type	.Lstatic.21,@object
	.section	.rodata.cst32,"aM",@progbits,32
.Lstatic.21:
	.ascii	"ok\n                             "
	.size	.Lstatic.21, 32
	.type	.Lstatic.22,@object
.Lstatic.22:
	.ascii	"none\n                           "
	.size	.Lstatic.22, 32
	.type	.Lstatic.23,@object
.Lstatic.23:
	.ascii	"refused 1 NoSuchField\n          "
	.size	.Lstatic.23, 32
	.type	.Lstatic.24,@object
.Lstatic.24:
	.ascii	"refused 2 NoSuchCollection\n     "
	.size	.Lstatic.24, 32
	.type	.Lstatic.25,@object
.Lstatic.25:
	.ascii	"refused 3 NoSuchObject\n         "
	.size	.Lstatic.25, 32
	.type	.Lstatic.26,@object
.Lstatic.26:
	.ascii	"refused 4 WrongKind\n            "
	.size	.Lstatic.26, 32
	.type	.Lstatic.27,@object
.Lstatic.27:
	.ascii	"refused 5 SameCollection\n       "
	.size	.Lstatic.27, 32
	.type	.Lstatic.28,@object
.Lstatic.28:
	.ascii	"refused 6 OtherField\n           "
	.size	.Lstatic.28, 32
	.type	.Lstatic.29,@object
.Lstatic.29:
	.ascii	"refused 7 NothingThere\n         "
	.size	.Lstatic.29, 32
	.type	.Lstatic.30,@object
.Lstatic.30:
	.ascii	"refused 8 NotAMember\n           "
	.size	.Lstatic.30, 32
	.type	.Lstatic.31,@object
.Lstatic.31:
	.ascii	"refused 9 NotANeighbour\n        "
	.size	.Lstatic.31, 32
	.type	.Lstatic.32,@object
.Lstatic.32:
	.ascii	"refused 10 AlreadyLinked\n       "
	.size	.Lstatic.32, 32
	.type	.Lstatic.33,@object
.Lstatic.33:
	.ascii	"refused 11 IsMember\n            "
	.size	.Lstatic.33, 32
	.type	.Lstatic.34,@object
.Lstatic.34:
	.ascii	"refused 12 StillLinked\n         "
	.size	.Lstatic.34, 32
	.type	.Lstatic.35,@object
.Lstatic.35:
	.ascii	"refused 13 TooManyObjects\n      "
	.size	.Lstatic.35, 32
	.type	.Lstatic.36,@object
.Lstatic.36:
	.ascii	"refused 14 OutOfMemory\n         "
	.size	.Lstatic.36, 32
	.type	.Lstatic.37,@object
	.section	.rodata..Lstatic.37,"a",@progbits
.Lstatic.37:
	.ascii	"object "
	.size	.Lstatic.37, 7
	.type	.Lstatic.38,@object
	.section	.rodata..Lstatic.38,"a",@progbits
.Lstatic.38:
	.byte	10
	.size	.Lstatic.38, 1
	.type	.Lstatic.39,@object
	.section	.rodata..Lstatic.39,"a",@progbits
.Lstatic.39:
	.ascii	"00010203040506070809101112131415161718192021222324252627282930313233343536373839404142434445464748495051525354555657585960616263646566676869707172737475767778798081828384858687888990919293949596979899"
	.size	.Lstatic.39, 200
	.type	.Lstatic.43,@object
	.section	.rodata..Lstatic.43,"a",@progbits
.Lstatic.43:
	.ascii	"field "
	.size	.Lstatic.43, 6
	.type	.Lstatic.70,@object
	.section	.rodata..Lstatic.70,"a",@progbits
.Lstatic.70:
	.ascii	"ok\n"
	.size	.Lstatic.70, 3
	.type	.Lstatic.71,@object
	.section	.rodata..Lstatic.71,"a",@progbits
.Lstatic.71:
	.ascii	"none\n"
	.size	.Lstatic.71, 5
	.type	.Lstatic.72,@object
	.section	.rodata..Lstatic.72,"a",@progbits
.Lstatic.72:
	.ascii	"linked\n"
	.size	.Lstatic.72, 7
	.type	.Lstatic.73,@object
	.section	.rodata..Lstatic.73,"a",@progbits
.Lstatic.73:
	.ascii	"unlinked\n"
	.size	.Lstatic.73, 9
	.type	.Lstatic.74,@object
	.section	.rodata..Lstatic.74,"a",@progbits
.Lstatic.74:
	.ascii	"collection "
	.size	.Lstatic.74, 11
	.type	.Lstatic.75,@object
	.section	.rodata..Lstatic.75,"a",@progbits
.Lstatic.75:
	.ascii	"none looks "
	.size	.Lstatic.75, 11
	.type	.Lstatic.76,@object
	.section	.rodata..Lstatic.76,"a",@progbits
.Lstatic.76:
	.ascii	"ok looks "
	.size	.Lstatic.76, 9
	.type	.Lstatic.77,@object
	.section	.rodata.cst16,"aM",@progbits,16
.Lstatic.77:
	.ascii	"occupied object "
	.size	.Lstatic.77, 16
	.type	.Lstatic.78,@object
.Lstatic.78:
	.ascii	"inserted object "
	.size	.Lstatic.78, 16
	.type	.Lstatic.79,@object
	.section	.rodata..Lstatic.79,"a",@progbits
.Lstatic.79:
	.ascii	" looks "
	.size	.Lstatic.79, 7
	.type	.Lstatic.80,@object
	.section	.rodata..Lstatic.80,"a",@progbits
.Lstatic.80:
	.size	.Lstatic.80, 0
	.type	.Lstatic.81,@object
	.section	.rodata..Lstatic.81,"a",@progbits
.Lstatic.81:
	.ascii	"items"
	.size	.Lstatic.81, 5
	.type	.Lstatic.82,@object
	.section	.rodata..Lstatic.82,"a",@progbits
.Lstatic.82:
	.byte	32
	.size	.Lstatic.82, 1
	.type	.Lstatic.84,@object
	.section	.rodata..Lstatic.84,"a",@progbits
.Lstatic.84:
	.ascii	"gave up reading or writing after 2^64 tries"
	.size	.Lstatic.84, 43
	.type	.Lstatic.85,@object
	.section	.rodata..Lstatic.85,"a",@progbits
.Lstatic.85:
	.ascii	"line "
	.size	.Lstatic.85, 5
	.type	.Lstatic.86,@object
	.section	.rodata..Lstatic.86,"a",@progbits
.Lstatic.86:
	.ascii	": no command\n"
	.size	.Lstatic.86, 13
	.type	.Lstatic.88,@object
	.section	.rodata.cst8,"aM",@progbits,8
.Lstatic.88:
	.ascii	"doubles "
	.size	.Lstatic.88, 8
	.type	.Lstatic.89,@object
	.section	.rodata..Lstatic.89,"a",@progbits
.Lstatic.89:
	.ascii	"worker "
	.size	.Lstatic.89, 7
	.type	.Lstatic.90,@object
	.section	.rodata..Lstatic.90,"a",@progbits
.Lstatic.90:
	.ascii	"bad arguments\n"
	.size	.Lstatic.90, 14
	.type	.Lstatic.91,@object
	.section	.rodata..Lstatic.91,"a",@progbits
.Lstatic.91:
	.ascii	"input is not UTF-8, line "
	.size	.Lstatic.91, 25
	.type	.Lstatic.92,@object
	.section	.rodata..Lstatic.92,"a",@progbits
.Lstatic.92:
	.ascii	"cannot read after line "
	.size	.Lstatic.92, 23
	.type	.Lstatic.93,@object
	.section	.rodata..Lstatic.93,"a",@progbits
.Lstatic.93:
	.ascii	"cannot write"
	.size	.Lstatic.93, 12
	.type	.Lstatic.94,@object
	.section	.rodata..Lstatic.94,"a",@progbits
.Lstatic.94:
	.ascii	"out of memory"
	.size	.Lstatic.94, 13
	.type	.Lstatic.98,@object
	.section	.rodata.cst4,"aM",@progbits,4
.Lstatic.98:
	.zero	4,32
	.size	.Lstatic.98, 4
	.type	.Lswitch.table.ic_program.session.Session.call.40a73cb1e87492e9,@object
	.section	.rodata..Lswitch.table.ic_program.session.Session.call.40a73cb1e87492e9,"a",@progbits
	.p2align	3, 0x0
.Lswitch.table.ic_program.session.Session.call.40a73cb1e87492e9:
	.xword	22
	.xword	27
	.xword	23
	.xword	20
	.xword	25
	.xword	21
	.xword	23
	.xword	21
	.xword	24
	.xword	25
	.xword	20
	.xword	23
	.xword	26
	.xword	23
	.size	.Lswitch.table.ic_program.session.Session.call.40a73cb1e87492e9, 112
	.type	.Lswitch.table.ic_program.session.Session.call.40a73cb1e87492e9..668,@object
	.section	.data.rel.ro..Lswitch.table.ic_program.session.Session.call.40a73cb1e87492e9..668,"aw",@progbits
	.p2align	3, 0x0
.Lswitch.table.ic_program.session.Session.call.40a73cb1e87492e9..668:
	.xword	.Lstatic.23
	.xword	.Lstatic.24
	.xword	.Lstatic.25
	.xword	.Lstatic.26
	.xword	.Lstatic.27
	.xword	.Lstatic.28
	.xword	.Lstatic.29
	.xword	.Lstatic.30
	.xword	.Lstatic.31
	.xword	.Lstatic.32
	.xword	.Lstatic.33
	.xword	.Lstatic.34
	.xword	.Lstatic.35
	.xword	.Lstatic.36
	.size	.Lswitch.table.ic_program.session.Session.call.40a73cb1e87492e9..668, 112
	.section	".note.GNU-stack","",@progbits
