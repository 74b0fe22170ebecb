/* pix 0.3.0: the program pixpaint, for aarch64 under Linux.
 * The code was proved before it was compiled; generated/README.md says what that means. Nobody edits this file: tools/generate makes it.
 *
 * sources: 3201c3a5b3af384d57521d1166f6d84a31fe54b24280de9f374e2c488129229f, as tools/sources --sum pixpaint prints it
 * kit: rattle-kit-13f logic dac8208d650f15bf
 * verdict: logic=proved functions=1 axioms=6 target=aarch64-unknown-linux-gnu sum=dac8208d650f15bf native=nat,char,string logic-built=trusted libraries-built=trusted statements=trusted
 * made by: rattle build --target aarch64-unknown-linux-gnu of crates/pixpaint, with clang -S -fno-verbose-asm -fno-addrsig in the place of clang -c
 * flags: --target=aarch64-unknown-linux-gnu -mcpu=generic
 */
	.file	"rattle"
	.section	".text.std_io::io::error::last_error","ax",@progbits
	.p2align	2
	.type	"std_io::io::error::last_error",@function
"std_io::io::error::last_error":
	stp	x29, x30, [sp, #-32]!
	str	x19, [sp, #16]
	mov	x29, sp
	mov	x19, x0
	bl	rattle_errno
	tbnz	w0, #31, .LBB_bca4a5_4
	sub	w8, w0, #1
	cmp	w8, #121
	b.hi	.LBB_bca4a5_4
	adrp	x9, .LJTI_bca4a5_0
	add	x9, x9, :lo12:.LJTI_bca4a5_0
	adr	x10, .LBB_bca4a5_3
	ldrb	w11, [x9, x8]
	add	x10, x10, x11, lsl #2
	mov	w8, #1
	br	x10
.LBB_bca4a5_3:
	mov	w8, #36
	b	.LBB_bca4a5_5
.LBB_bca4a5_4:
	mov	w8, #41
.LBB_bca4a5_5:
	movi	v0.2d, #0000000000000000
	strb	wzr, [x19]
	strb	w8, [x19, #1]
	strh	wzr, [x19, #2]
	str	w0, [x19, #4]
	stur	q0, [x19, #8]
	stur	q0, [x19, #24]
	stur	q0, [x19, #40]
	stur	q0, [x19, #56]
	stur	q0, [x19, #72]
	ldr	x19, [sp, #16]
	ldp	x29, x30, [sp], #32
	ret
.LBB_bca4a5_6:
	mov	w8, #4
	b	.LBB_bca4a5_5
.LBB_bca4a5_7:
	mov	w8, #7
	b	.LBB_bca4a5_5
.LBB_bca4a5_8:
	mov	w8, #26
	b	.LBB_bca4a5_5
.LBB_bca4a5_9:
	mov	w8, #39
	b	.LBB_bca4a5_5
.LBB_bca4a5_10:
	mov	w8, #9
	b	.LBB_bca4a5_5
.LBB_bca4a5_11:
	mov	w8, #8
	b	.LBB_bca4a5_5
.LBB_bca4a5_12:
	mov	w8, #30
	b	.LBB_bca4a5_5
.LBB_bca4a5_13:
	mov	w8, #25
	b	.LBB_bca4a5_5
.LBB_bca4a5_14:
	mov	w8, #32
	b	.LBB_bca4a5_5
.LBB_bca4a5_15:
	mov	w8, #33
	b	.LBB_bca4a5_5
.LBB_bca4a5_16:
	mov	w8, #22
	b	.LBB_bca4a5_5
.LBB_bca4a5_17:
	mov	w8, #31
	b	.LBB_bca4a5_5
.LBB_bca4a5_18:
	mov	w8, #29
	b	.LBB_bca4a5_5
.LBB_bca4a5_19:
	mov	w8, #18
	b	.LBB_bca4a5_5
.LBB_bca4a5_20:
	mov	w8, #10
	b	.LBB_bca4a5_5
.LBB_bca4a5_21:
	mov	w8, #28
	b	.LBB_bca4a5_5
.LBB_bca4a5_22:
	mov	w8, #14
	b	.LBB_bca4a5_5
.LBB_bca4a5_23:
	mov	w8, #12
	b	.LBB_bca4a5_5
.LBB_bca4a5_24:
	mov	w8, #5
	b	.LBB_bca4a5_5
.LBB_bca4a5_25:
	mov	w8, #3
	b	.LBB_bca4a5_5
.LBB_bca4a5_26:
	mov	w8, wzr
	b	.LBB_bca4a5_5
.LBB_bca4a5_27:
	mov	w8, #13
	b	.LBB_bca4a5_5
.LBB_bca4a5_28:
	mov	w8, #38
	b	.LBB_bca4a5_5
.LBB_bca4a5_29:
	mov	w8, #11
	b	.LBB_bca4a5_5
.LBB_bca4a5_30:
	mov	w8, #35
	b	.LBB_bca4a5_5
.LBB_bca4a5_31:
	mov	w8, #34
	b	.LBB_bca4a5_5
.LBB_bca4a5_32:
	mov	w8, #20
	b	.LBB_bca4a5_5
.LBB_bca4a5_33:
	mov	w8, #15
	b	.LBB_bca4a5_5
.LBB_bca4a5_34:
	mov	w8, #19
	b	.LBB_bca4a5_5
.LBB_bca4a5_35:
	mov	w8, #16
	b	.LBB_bca4a5_5
.LBB_bca4a5_36:
	mov	w8, #6
	b	.LBB_bca4a5_5
.LBB_bca4a5_37:
	mov	w8, #27
	b	.LBB_bca4a5_5
.LBB_bca4a5_38:
	mov	w8, #24
	b	.LBB_bca4a5_5
.LBB_bca4a5_39:
	mov	w8, #2
	b	.LBB_bca4a5_5
.LBB_bca4a5_40:
	mov	w8, #17
	b	.LBB_bca4a5_5
.Lfunc_end_bca4a5:
	.size	"std_io::io::error::last_error", .Lfunc_end_bca4a5-"std_io::io::error::last_error"
	.section	".rodata.std_io::io::error::last_error","a",@progbits
.LJTI_bca4a5_0:
	.byte	(.LBB_bca4a5_5-.LBB_bca4a5_3)>>2
	.byte	(.LBB_bca4a5_26-.LBB_bca4a5_3)>>2
	.byte	(.LBB_bca4a5_4-.LBB_bca4a5_3)>>2
	.byte	(.LBB_bca4a5_30-.LBB_bca4a5_3)>>2
	.byte	(.LBB_bca4a5_4-.LBB_bca4a5_3)>>2
	.byte	(.LBB_bca4a5_4-.LBB_bca4a5_3)>>2
	.byte	(.LBB_bca4a5_31-.LBB_bca4a5_3)>>2
	.byte	(.LBB_bca4a5_4-.LBB_bca4a5_3)>>2
	.byte	(.LBB_bca4a5_4-.LBB_bca4a5_3)>>2
	.byte	(.LBB_bca4a5_4-.LBB_bca4a5_3)>>2
	.byte	(.LBB_bca4a5_27-.LBB_bca4a5_3)>>2
	.byte	(.LBB_bca4a5_28-.LBB_bca4a5_3)>>2
	.byte	(.LBB_bca4a5_5-.LBB_bca4a5_3)>>2
	.byte	(.LBB_bca4a5_4-.LBB_bca4a5_3)>>2
	.byte	(.LBB_bca4a5_4-.LBB_bca4a5_3)>>2
	.byte	(.LBB_bca4a5_21-.LBB_bca4a5_3)>>2
	.byte	(.LBB_bca4a5_23-.LBB_bca4a5_3)>>2
	.byte	(.LBB_bca4a5_17-.LBB_bca4a5_3)>>2
	.byte	(.LBB_bca4a5_4-.LBB_bca4a5_3)>>2
	.byte	(.LBB_bca4a5_22-.LBB_bca4a5_3)>>2
	.byte	(.LBB_bca4a5_33-.LBB_bca4a5_3)>>2
	.byte	(.LBB_bca4a5_32-.LBB_bca4a5_3)>>2
	.byte	(.LBB_bca4a5_4-.LBB_bca4a5_3)>>2
	.byte	(.LBB_bca4a5_4-.LBB_bca4a5_3)>>2
	.byte	(.LBB_bca4a5_4-.LBB_bca4a5_3)>>2
	.byte	(.LBB_bca4a5_18-.LBB_bca4a5_3)>>2
	.byte	(.LBB_bca4a5_37-.LBB_bca4a5_3)>>2
	.byte	(.LBB_bca4a5_38-.LBB_bca4a5_3)>>2
	.byte	(.LBB_bca4a5_13-.LBB_bca4a5_3)>>2
	.byte	(.LBB_bca4a5_40-.LBB_bca4a5_3)>>2
	.byte	(.LBB_bca4a5_14-.LBB_bca4a5_3)>>2
	.byte	(.LBB_bca4a5_29-.LBB_bca4a5_3)>>2
	.byte	(.LBB_bca4a5_4-.LBB_bca4a5_3)>>2
	.byte	(.LBB_bca4a5_4-.LBB_bca4a5_3)>>2
	.byte	(.LBB_bca4a5_12-.LBB_bca4a5_3)>>2
	.byte	(.LBB_bca4a5_15-.LBB_bca4a5_3)>>2
	.byte	(.LBB_bca4a5_4-.LBB_bca4a5_3)>>2
	.byte	(.LBB_bca4a5_3-.LBB_bca4a5_3)>>2
	.byte	(.LBB_bca4a5_35-.LBB_bca4a5_3)>>2
	.byte	(.LBB_bca4a5_19-.LBB_bca4a5_3)>>2
	.byte	(.LBB_bca4a5_4-.LBB_bca4a5_3)>>2
	.byte	(.LBB_bca4a5_4-.LBB_bca4a5_3)>>2
	.byte	(.LBB_bca4a5_4-.LBB_bca4a5_3)>>2
	.byte	(.LBB_bca4a5_4-.LBB_bca4a5_3)>>2
	.byte	(.LBB_bca4a5_4-.LBB_bca4a5_3)>>2
	.byte	(.LBB_bca4a5_4-.LBB_bca4a5_3)>>2
	.byte	(.LBB_bca4a5_4-.LBB_bca4a5_3)>>2
	.byte	(.LBB_bca4a5_4-.LBB_bca4a5_3)>>2
	.byte	(.LBB_bca4a5_4-.LBB_bca4a5_3)>>2
	.byte	(.LBB_bca4a5_4-.LBB_bca4a5_3)>>2
	.byte	(.LBB_bca4a5_4-.LBB_bca4a5_3)>>2
	.byte	(.LBB_bca4a5_4-.LBB_bca4a5_3)>>2
	.byte	(.LBB_bca4a5_4-.LBB_bca4a5_3)>>2
	.byte	(.LBB_bca4a5_4-.LBB_bca4a5_3)>>2
	.byte	(.LBB_bca4a5_4-.LBB_bca4a5_3)>>2
	.byte	(.LBB_bca4a5_4-.LBB_bca4a5_3)>>2
	.byte	(.LBB_bca4a5_4-.LBB_bca4a5_3)>>2
	.byte	(.LBB_bca4a5_4-.LBB_bca4a5_3)>>2
	.byte	(.LBB_bca4a5_4-.LBB_bca4a5_3)>>2
	.byte	(.LBB_bca4a5_4-.LBB_bca4a5_3)>>2
	.byte	(.LBB_bca4a5_4-.LBB_bca4a5_3)>>2
	.byte	(.LBB_bca4a5_4-.LBB_bca4a5_3)>>2
	.byte	(.LBB_bca4a5_4-.LBB_bca4a5_3)>>2
	.byte	(.LBB_bca4a5_4-.LBB_bca4a5_3)>>2
	.byte	(.LBB_bca4a5_4-.LBB_bca4a5_3)>>2
	.byte	(.LBB_bca4a5_4-.LBB_bca4a5_3)>>2
	.byte	(.LBB_bca4a5_4-.LBB_bca4a5_3)>>2
	.byte	(.LBB_bca4a5_4-.LBB_bca4a5_3)>>2
	.byte	(.LBB_bca4a5_4-.LBB_bca4a5_3)>>2
	.byte	(.LBB_bca4a5_4-.LBB_bca4a5_3)>>2
	.byte	(.LBB_bca4a5_4-.LBB_bca4a5_3)>>2
	.byte	(.LBB_bca4a5_4-.LBB_bca4a5_3)>>2
	.byte	(.LBB_bca4a5_4-.LBB_bca4a5_3)>>2
	.byte	(.LBB_bca4a5_4-.LBB_bca4a5_3)>>2
	.byte	(.LBB_bca4a5_4-.LBB_bca4a5_3)>>2
	.byte	(.LBB_bca4a5_4-.LBB_bca4a5_3)>>2
	.byte	(.LBB_bca4a5_4-.LBB_bca4a5_3)>>2
	.byte	(.LBB_bca4a5_4-.LBB_bca4a5_3)>>2
	.byte	(.LBB_bca4a5_4-.LBB_bca4a5_3)>>2
	.byte	(.LBB_bca4a5_4-.LBB_bca4a5_3)>>2
	.byte	(.LBB_bca4a5_4-.LBB_bca4a5_3)>>2
	.byte	(.LBB_bca4a5_4-.LBB_bca4a5_3)>>2
	.byte	(.LBB_bca4a5_4-.LBB_bca4a5_3)>>2
	.byte	(.LBB_bca4a5_4-.LBB_bca4a5_3)>>2
	.byte	(.LBB_bca4a5_4-.LBB_bca4a5_3)>>2
	.byte	(.LBB_bca4a5_4-.LBB_bca4a5_3)>>2
	.byte	(.LBB_bca4a5_4-.LBB_bca4a5_3)>>2
	.byte	(.LBB_bca4a5_4-.LBB_bca4a5_3)>>2
	.byte	(.LBB_bca4a5_4-.LBB_bca4a5_3)>>2
	.byte	(.LBB_bca4a5_4-.LBB_bca4a5_3)>>2
	.byte	(.LBB_bca4a5_4-.LBB_bca4a5_3)>>2
	.byte	(.LBB_bca4a5_4-.LBB_bca4a5_3)>>2
	.byte	(.LBB_bca4a5_4-.LBB_bca4a5_3)>>2
	.byte	(.LBB_bca4a5_4-.LBB_bca4a5_3)>>2
	.byte	(.LBB_bca4a5_3-.LBB_bca4a5_3)>>2
	.byte	(.LBB_bca4a5_4-.LBB_bca4a5_3)>>2
	.byte	(.LBB_bca4a5_4-.LBB_bca4a5_3)>>2
	.byte	(.LBB_bca4a5_11-.LBB_bca4a5_3)>>2
	.byte	(.LBB_bca4a5_10-.LBB_bca4a5_3)>>2
	.byte	(.LBB_bca4a5_20-.LBB_bca4a5_3)>>2
	.byte	(.LBB_bca4a5_24-.LBB_bca4a5_3)>>2
	.byte	(.LBB_bca4a5_4-.LBB_bca4a5_3)>>2
	.byte	(.LBB_bca4a5_36-.LBB_bca4a5_3)>>2
	.byte	(.LBB_bca4a5_25-.LBB_bca4a5_3)>>2
	.byte	(.LBB_bca4a5_4-.LBB_bca4a5_3)>>2
	.byte	(.LBB_bca4a5_4-.LBB_bca4a5_3)>>2
	.byte	(.LBB_bca4a5_7-.LBB_bca4a5_3)>>2
	.byte	(.LBB_bca4a5_4-.LBB_bca4a5_3)>>2
	.byte	(.LBB_bca4a5_4-.LBB_bca4a5_3)>>2
	.byte	(.LBB_bca4a5_16-.LBB_bca4a5_3)>>2
	.byte	(.LBB_bca4a5_39-.LBB_bca4a5_3)>>2
	.byte	(.LBB_bca4a5_4-.LBB_bca4a5_3)>>2
	.byte	(.LBB_bca4a5_6-.LBB_bca4a5_3)>>2
	.byte	(.LBB_bca4a5_4-.LBB_bca4a5_3)>>2
	.byte	(.LBB_bca4a5_9-.LBB_bca4a5_3)>>2
	.byte	(.LBB_bca4a5_34-.LBB_bca4a5_3)>>2
	.byte	(.LBB_bca4a5_4-.LBB_bca4a5_3)>>2
	.byte	(.LBB_bca4a5_4-.LBB_bca4a5_3)>>2
	.byte	(.LBB_bca4a5_4-.LBB_bca4a5_3)>>2
	.byte	(.LBB_bca4a5_4-.LBB_bca4a5_3)>>2
	.byte	(.LBB_bca4a5_4-.LBB_bca4a5_3)>>2
	.byte	(.LBB_bca4a5_8-.LBB_bca4a5_3)>>2

	.section	".text.unlikely.std_alloc::vec::Vec::grow_amortized::<#ab1bfed030c1db69>","ax",@progbits
	.p2align	2
	.type	"std_alloc::vec::Vec::grow_amortized::<#ab1bfed030c1db69>",@function
"std_alloc::vec::Vec::grow_amortized::<#ab1bfed030c1db69>":
	ldr	x8, [x0, #8]
	cmn	x8, x1
	b.lo	.LBB_ae553a_2
	mov	w0, wzr
	ret
.LBB_ae553a_2:
	stp	x29, x30, [sp, #-32]!
	ldr	x10, [x0, #16]
	add	x9, x8, x1
	mov	w11, #8
	cmp	x9, #8
	stp	x20, x19, [sp, #16]
	mov	x29, sp
	lsl	x12, x10, #1
	csel	x11, x9, x11, hi
	lsr	x13, x10, #62
	cmp	x11, x12
	csel	x9, x11, x12, hi
	cmp	x13, #0
	csel	x19, x9, x11, eq
	tbnz	x19, #63, .LBB_ae553a_7
	cbz	x10, .LBB_ae553a_6
	mov	x20, x0
	ldr	x0, [x0]
	mov	x1, x8
	mov	x2, x19
	mov	w3, #1
	bl	rattle_realloc
	tbz	w0, #0, .LBB_ae553a_7
.LBB_ae553a_5:
	mov	w0, #1
	str	x1, [x20]
	str	x19, [x20, #16]
	ldp	x20, x19, [sp, #16]
	ldp	x29, x30, [sp], #32
	ret
.LBB_ae553a_6:
	mov	x20, x0
	mov	x0, x9
	mov	w1, #1
	bl	rattle_alloc
	tbnz	w0, #0, .LBB_ae553a_5
.LBB_ae553a_7:
	mov	w0, wzr
	ldp	x20, x19, [sp, #16]
	ldp	x29, x30, [sp], #32
	ret
.Lfunc_end_ae553a:
	.size	"std_alloc::vec::Vec::grow_amortized::<#ab1bfed030c1db69>", .Lfunc_end_ae553a-"std_alloc::vec::Vec::grow_amortized::<#ab1bfed030c1db69>"

	.section	".text.unlikely.std_alloc::vec::Vec::grow_amortized::<#c573f30ac4e8249c>","ax",@progbits
	.p2align	2
	.type	"std_alloc::vec::Vec::grow_amortized::<#c573f30ac4e8249c>",@function
"std_alloc::vec::Vec::grow_amortized::<#c573f30ac4e8249c>":
	ldr	x8, [x0, #8]
	cmn	x8, x1
	b.lo	.LBB_a0b753_2
	mov	w0, wzr
	ret
.LBB_a0b753_2:
	stp	x29, x30, [sp, #-32]!
	ldr	x9, [x0, #16]
	add	x10, x8, x1
	mov	w11, #4
	cmp	x10, #4
	stp	x20, x19, [sp, #16]
	mov	x29, sp
	lsl	x12, x9, #1
	csel	x11, x10, x11, hi
	lsr	x13, x9, #62
	cmp	x11, x12
	csel	x10, x11, x12, hi
	cmp	x13, #0
	csel	x19, x10, x11, eq
	lsr	x11, x19, #59
	cbnz	x11, .LBB_a0b753_7
	cbz	x9, .LBB_a0b753_6
	mov	x20, x0
	ldr	x0, [x0]
	lsl	x1, x8, #4
	lsl	x2, x19, #4
	mov	w3, #8
	bl	rattle_realloc
	tbz	w0, #0, .LBB_a0b753_7
.LBB_a0b753_5:
	mov	w0, #1
	str	x1, [x20]
	str	x19, [x20, #16]
	ldp	x20, x19, [sp, #16]
	ldp	x29, x30, [sp], #32
	ret
.LBB_a0b753_6:
	mov	x20, x0
	lsl	x0, x10, #4
	mov	w1, #8
	bl	rattle_alloc
	tbnz	w0, #0, .LBB_a0b753_5
.LBB_a0b753_7:
	mov	w0, wzr
	ldp	x20, x19, [sp, #16]
	ldp	x29, x30, [sp], #32
	ret
.Lfunc_end_a0b753:
	.size	"std_alloc::vec::Vec::grow_amortized::<#c573f30ac4e8249c>", .Lfunc_end_a0b753-"std_alloc::vec::Vec::grow_amortized::<#c573f30ac4e8249c>"

	.section	".text.pix_script::parse::region","ax",@progbits
	.p2align	2
	.type	"pix_script::parse::region",@function
"pix_script::parse::region":
	cbz	x2, .LBB_6f85e4_29
	ldrb	w8, [x1]
	cmp	w8, #45
	b.ne	.LBB_6f85e4_7
	subs	x8, x2, #1
	b.eq	.LBB_6f85e4_29
	mov	x9, xzr
	add	x10, x1, #1
.LBB_6f85e4_4:
	mov	w11, #10
	mul	x9, x9, x11
	ldrb	w11, [x10], #1
	sub	w11, w11, #48
	cmp	w11, #9
	add	x9, x9, w11, uxtb
	mov	w11, #-2147483648
	ccmp	x9, x11, #2, ls
	b.hi	.LBB_6f85e4_29
	subs	x8, x8, #1
	b.ne	.LBB_6f85e4_4
	neg	w8, w9
	b	.LBB_6f85e4_10
.LBB_6f85e4_7:
	mov	x8, xzr
.LBB_6f85e4_8:
	mov	w9, #10
	mul	x8, x8, x9
	ldrb	w9, [x1], #1
	sub	w9, w9, #48
	cmp	w9, #9
	add	x8, x8, w9, uxtb
	lsr	x10, x8, #31
	ccmp	x10, #0, #0, ls
	b.ne	.LBB_6f85e4_29
	subs	x2, x2, #1
	b.ne	.LBB_6f85e4_8
.LBB_6f85e4_10:
	cbz	x4, .LBB_6f85e4_29
	ldrb	w9, [x3]
	cmp	w9, #45
	b.ne	.LBB_6f85e4_17
	subs	x9, x4, #1
	b.eq	.LBB_6f85e4_29
	mov	x10, xzr
	add	x11, x3, #1
.LBB_6f85e4_14:
	mov	w12, #10
	mul	x10, x10, x12
	ldrb	w12, [x11], #1
	sub	w12, w12, #48
	cmp	w12, #9
	add	x10, x10, w12, uxtb
	mov	w12, #-2147483648
	ccmp	x10, x12, #2, ls
	b.hi	.LBB_6f85e4_29
	subs	x9, x9, #1
	b.ne	.LBB_6f85e4_14
	neg	w9, w10
	b	.LBB_6f85e4_20
.LBB_6f85e4_17:
	mov	x9, xzr
.LBB_6f85e4_18:
	mov	w10, #10
	mul	x9, x9, x10
	ldrb	w10, [x3], #1
	sub	w10, w10, #48
	cmp	w10, #9
	add	x9, x9, w10, uxtb
	lsr	x11, x9, #31
	ccmp	x11, #0, #0, ls
	b.ne	.LBB_6f85e4_29
	subs	x4, x4, #1
	b.ne	.LBB_6f85e4_18
.LBB_6f85e4_20:
	cbz	x6, .LBB_6f85e4_29
	ldr	x10, [sp]
	mov	x11, xzr
.LBB_6f85e4_22:
	mov	w12, #10
	mul	x11, x11, x12
	ldrb	w12, [x5], #1
	sub	w12, w12, #48
	cmp	w12, #9
	add	x11, x11, w12, uxtb
	lsr	x13, x11, #31
	ccmp	x13, #0, #0, ls
	b.ne	.LBB_6f85e4_29
	subs	x6, x6, #1
	b.ne	.LBB_6f85e4_22
	cbz	x10, .LBB_6f85e4_29
	mov	x12, xzr
.LBB_6f85e4_26:
	mov	w13, #10
	mul	x12, x12, x13
	ldrb	w13, [x7], #1
	sub	w13, w13, #48
	cmp	w13, #9
	add	x12, x12, w13, uxtb
	lsr	x14, x12, #31
	ccmp	x14, #0, #0, ls
	b.ne	.LBB_6f85e4_29
	subs	x10, x10, #1
	b.ne	.LBB_6f85e4_26
	mov	w10, #1
	stp	w9, w11, [x0, #8]
	stp	w10, w8, [x0]
	str	w12, [x0, #16]
	ret
.LBB_6f85e4_29:
	stp	xzr, xzr, [x0]
	str	wzr, [x0, #16]
	ret
.Lfunc_end_6f85e4:
	.size	"pix_script::parse::region", .Lfunc_end_6f85e4-"pix_script::parse::region"

	.section	".text.pix_script::number::color","ax",@progbits
	.p2align	2
	.type	"pix_script::number::color",@function
"pix_script::number::color":
	cmp	x2, #8
	b.ne	.LBB_046d1a_2
	ldrb	w10, [x1]
	subs	w8, w10, #48
	b.hs	.LBB_046d1a_3
.LBB_046d1a_2:
	strb	wzr, [x0]
	stur	wzr, [x0, #1]
	ret
.LBB_046d1a_3:
	ldrb	w13, [x1, #1]
	ldrb	w14, [x1, #2]
	cmp	w10, #57
	ldrb	w16, [x1, #3]
	ldrb	w15, [x1, #4]
	ldrb	w12, [x1, #5]
	ldrb	w11, [x1, #6]
	ldrb	w9, [x1, #7]
	b.hi	.LBB_046d1a_27
	mov	w17, wzr
.LBB_046d1a_5:
	subs	w10, w13, #48
	b.lo	.LBB_046d1a_2
	tbnz	w17, #0, .LBB_046d1a_2
	cmp	w13, #57
	b.hi	.LBB_046d1a_30
.LBB_046d1a_8:
	subs	w13, w14, #48
	b.lo	.LBB_046d1a_2
	cmp	w14, #57
	b.hi	.LBB_046d1a_34
	mov	w17, wzr
.LBB_046d1a_11:
	subs	w14, w16, #48
	b.lo	.LBB_046d1a_2
	tbnz	w17, #0, .LBB_046d1a_2
	cmp	w16, #57
	b.hi	.LBB_046d1a_39
.LBB_046d1a_14:
	subs	w16, w15, #48
	b.lo	.LBB_046d1a_2
	cmp	w15, #57
	b.hi	.LBB_046d1a_43
	mov	w17, wzr
.LBB_046d1a_17:
	subs	w15, w12, #48
	b.lo	.LBB_046d1a_2
	tbnz	w17, #0, .LBB_046d1a_2
	cmp	w12, #57
	b.hi	.LBB_046d1a_48
.LBB_046d1a_20:
	subs	w12, w11, #48
	b.lo	.LBB_046d1a_2
	cmp	w11, #57
	b.hi	.LBB_046d1a_52
	mov	w17, wzr
.LBB_046d1a_23:
	subs	w11, w9, #48
	b.lo	.LBB_046d1a_2
	tbnz	w17, #0, .LBB_046d1a_2
	cmp	w9, #57
	b.hi	.LBB_046d1a_57
.LBB_046d1a_26:
	add	w8, w10, w8, lsl #4
	add	w9, w14, w13, lsl #4
	add	w10, w15, w16, lsl #4
	and	w8, w8, #0xff
	bfi	w8, w9, #8, #8
	ubfiz	w9, w10, #16, #8
	add	w10, w11, w12, lsl #4
	orr	w8, w8, w9
	mov	w9, #1
	orr	w8, w8, w10, lsl #24
	strb	w9, [x0]
	stur	w8, [x0, #1]
	ret
.LBB_046d1a_27:
	cmp	w10, #65
	b.lo	.LBB_046d1a_2
	cmp	w10, #70
	b.hi	.LBB_046d1a_33
	mov	w17, wzr
	sub	w8, w10, #55
	b	.LBB_046d1a_5
.LBB_046d1a_30:
	cmp	w13, #65
	b.lo	.LBB_046d1a_2
	cmp	w13, #70
	b.hi	.LBB_046d1a_37
	sub	w10, w13, #55
	b	.LBB_046d1a_8
.LBB_046d1a_33:
	sub	w8, w10, #103
	sub	w10, w10, #87
	and	w8, w8, #0xff
	cmp	w8, #250
	cset	w17, lo
	csel	w8, wzr, w10, lo
	b	.LBB_046d1a_5
.LBB_046d1a_34:
	cmp	w14, #65
	b.lo	.LBB_046d1a_2
	cmp	w14, #70
	b.hi	.LBB_046d1a_42
	mov	w17, wzr
	sub	w13, w14, #55
	b	.LBB_046d1a_11
.LBB_046d1a_37:
	sub	w10, w13, #97
	cmp	w10, #6
	b.hs	.LBB_046d1a_2
	sub	w10, w13, #87
	b	.LBB_046d1a_8
.LBB_046d1a_39:
	cmp	w16, #65
	b.lo	.LBB_046d1a_2
	cmp	w16, #70
	b.hi	.LBB_046d1a_46
	sub	w14, w16, #55
	b	.LBB_046d1a_14
.LBB_046d1a_42:
	sub	w13, w14, #103
	sub	w14, w14, #87
	and	w13, w13, #0xff
	cmp	w13, #250
	cset	w17, lo
	csel	w13, wzr, w14, lo
	b	.LBB_046d1a_11
.LBB_046d1a_43:
	cmp	w15, #65
	b.lo	.LBB_046d1a_2
	cmp	w15, #70
	b.hi	.LBB_046d1a_51
	mov	w17, wzr
	sub	w16, w15, #55
	b	.LBB_046d1a_17
.LBB_046d1a_46:
	sub	w14, w16, #97
	cmp	w14, #6
	b.hs	.LBB_046d1a_2
	sub	w14, w16, #87
	b	.LBB_046d1a_14
.LBB_046d1a_48:
	cmp	w12, #65
	b.lo	.LBB_046d1a_2
	cmp	w12, #70
	b.hi	.LBB_046d1a_55
	sub	w15, w12, #55
	b	.LBB_046d1a_20
.LBB_046d1a_51:
	sub	w16, w15, #103
	sub	w15, w15, #87
	and	w16, w16, #0xff
	cmp	w16, #250
	cset	w17, lo
	csel	w16, wzr, w15, lo
	b	.LBB_046d1a_17
.LBB_046d1a_52:
	cmp	w11, #65
	b.lo	.LBB_046d1a_2
	cmp	w11, #70
	b.hi	.LBB_046d1a_60
	mov	w17, wzr
	sub	w12, w11, #55
	b	.LBB_046d1a_23
.LBB_046d1a_55:
	sub	w15, w12, #97
	cmp	w15, #5
	b.hi	.LBB_046d1a_2
	sub	w15, w12, #87
	b	.LBB_046d1a_20
.LBB_046d1a_57:
	cmp	w9, #65
	b.lo	.LBB_046d1a_2
	cmp	w9, #70
	b.hi	.LBB_046d1a_61
	sub	w11, w9, #55
	b	.LBB_046d1a_26
.LBB_046d1a_60:
	sub	w12, w11, #103
	sub	w11, w11, #87
	and	w12, w12, #0xff
	cmp	w12, #250
	cset	w17, lo
	csel	w12, wzr, w11, lo
	b	.LBB_046d1a_23
.LBB_046d1a_61:
	sub	w11, w9, #97
	cmp	w11, #5
	b.hi	.LBB_046d1a_2
	sub	w11, w9, #87
	b	.LBB_046d1a_26
.Lfunc_end_046d1a:
	.size	"pix_script::number::color", .Lfunc_end_046d1a-"pix_script::number::color"

	.section	".text.pix_ops::ops::Op::from_name","ax",@progbits
	.p2align	2
	.type	"pix_ops::ops::Op::from_name",@function
"pix_ops::ops::Op::from_name":
	stp	x29, x30, [sp, #-64]!
	str	x23, [sp, #16]
	adrp	x23, .Lstatic.14
	add	x23, x23, :lo12:.Lstatic.14
	stp	x22, x21, [sp, #32]
	mov	x21, x0
	mov	w22, #13
	stp	x20, x19, [sp, #48]
	mov	x20, x1
	mov	x29, sp
	b	.LBB_948515_3
.LBB_948515_1:
	cmp	x8, x20
	b.hs	.LBB_948515_24
.LBB_948515_2:
	cbz	x22, .LBB_948515_25
.LBB_948515_3:
	ldrb	w19, [x23], #1
	adrp	x10, .LJTI_948515_0
	add	x10, x10, :lo12:.LJTI_948515_0
	adrp	x0, .Lstatic.15
	add	x0, x0, :lo12:.Lstatic.15
	adr	x11, .LBB_948515_4
	ldrb	w12, [x10, x19]
	add	x11, x11, x12, lsl #2
	sub	x22, x22, #1
	mov	w8, #1
	mov	w9, #3
	br	x11
.LBB_948515_4:
	mov	w8, wzr
	adrp	x0, .Lstatic.16
	add	x0, x0, :lo12:.Lstatic.16
	b	.LBB_948515_8
.LBB_948515_5:
	mov	w8, wzr
	adrp	x0, .Lstatic.26
	add	x0, x0, :lo12:.Lstatic.26
	mov	w9, #5
	cmp	x9, x20
	b.ne	.LBB_948515_2
	b	.LBB_948515_17
.LBB_948515_6:
	mov	w8, wzr
	adrp	x0, .Lstatic.19
	add	x0, x0, :lo12:.Lstatic.19
	mov	w9, #6
	cmp	x9, x20
	b.ne	.LBB_948515_2
	b	.LBB_948515_17
.LBB_948515_7:
	mov	w8, wzr
	adrp	x0, .Lstatic.27
	add	x0, x0, :lo12:.Lstatic.27
.LBB_948515_8:
	mov	w9, #4
	cmp	x9, x20
	b.ne	.LBB_948515_2
	b	.LBB_948515_17
.LBB_948515_9:
	mov	w8, wzr
	adrp	x0, .Lstatic.24
	add	x0, x0, :lo12:.Lstatic.24
	mov	w9, #8
	cmp	x9, x20
	b.ne	.LBB_948515_2
	b	.LBB_948515_17
.LBB_948515_10:
	mov	w8, wzr
	adrp	x0, .Lstatic.17
	add	x0, x0, :lo12:.Lstatic.17
	mov	w9, #7
	cmp	x9, x20
	b.ne	.LBB_948515_2
	b	.LBB_948515_17
.LBB_948515_11:
	mov	w8, wzr
	adrp	x0, .Lstatic.18
	add	x0, x0, :lo12:.Lstatic.18
	mov	w9, #8
	cmp	x9, x20
	b.ne	.LBB_948515_2
	b	.LBB_948515_17
.LBB_948515_12:
	mov	w8, wzr
	adrp	x0, .Lstatic.22
	add	x0, x0, :lo12:.Lstatic.22
	mov	w9, #6
	cmp	x9, x20
	b.ne	.LBB_948515_2
	b	.LBB_948515_17
.LBB_948515_13:
	mov	w8, wzr
	adrp	x0, .Lstatic.20
	add	x0, x0, :lo12:.Lstatic.20
	mov	w9, #7
	cmp	x9, x20
	b.ne	.LBB_948515_2
	b	.LBB_948515_17
.LBB_948515_14:
	mov	w8, wzr
	adrp	x0, .Lstatic.21
	add	x0, x0, :lo12:.Lstatic.21
	mov	w9, #5
	cmp	x9, x20
	b.ne	.LBB_948515_2
	b	.LBB_948515_17
.LBB_948515_15:
	adrp	x0, .Lstatic.25
	add	x0, x0, :lo12:.Lstatic.25
	mov	w9, #3
.LBB_948515_16:
	cmp	x9, x20
	b.ne	.LBB_948515_2
.LBB_948515_17:
	cbz	w8, .LBB_948515_21
	mov	x8, xzr
.LBB_948515_19:
	ldrb	w9, [x0, x8]
	ldrb	w10, [x21, x8]
	cmp	w9, w10
	b.ne	.LBB_948515_1
	add	x8, x8, #1
	cmp	x20, x8
	b.ne	.LBB_948515_19
	b	.LBB_948515_24
.LBB_948515_21:
	ldr	w8, [x0]
	ldr	w9, [x21]
	cmp	w8, w9
	b.ne	.LBB_948515_2
	mov	x1, x20
	mov	x2, x21
	bl	"core::cmp::slices::groups_equal::<i8,31'core::cmp::numbers::U8PartialEq{}>"
	tbz	w0, #0, .LBB_948515_2
	b	.LBB_948515_24
.LBB_948515_23:
	mov	w8, wzr
	adrp	x0, .Lstatic.23
	add	x0, x0, :lo12:.Lstatic.23
	mov	w9, #7
	cmp	x9, x20
	b.ne	.LBB_948515_2
	b	.LBB_948515_17
.LBB_948515_24:
	mov	w0, #1
	mov	w1, w19
	ldp	x20, x19, [sp, #48]
	ldp	x22, x21, [sp, #32]
	ldr	x23, [sp, #16]
	ldp	x29, x30, [sp], #64
	ret
.LBB_948515_25:
	mov	w0, wzr
	mov	w19, wzr
	mov	w1, w19
	ldp	x20, x19, [sp, #48]
	ldp	x22, x21, [sp, #32]
	ldr	x23, [sp, #16]
	ldp	x29, x30, [sp], #64
	ret
.Lfunc_end_948515:
	.size	"pix_ops::ops::Op::from_name", .Lfunc_end_948515-"pix_ops::ops::Op::from_name"
	.section	".rodata.pix_ops::ops::Op::from_name","a",@progbits
.LJTI_948515_0:
	.byte	(.LBB_948515_16-.LBB_948515_4)>>2
	.byte	(.LBB_948515_4-.LBB_948515_4)>>2
	.byte	(.LBB_948515_10-.LBB_948515_4)>>2
	.byte	(.LBB_948515_11-.LBB_948515_4)>>2
	.byte	(.LBB_948515_6-.LBB_948515_4)>>2
	.byte	(.LBB_948515_13-.LBB_948515_4)>>2
	.byte	(.LBB_948515_14-.LBB_948515_4)>>2
	.byte	(.LBB_948515_12-.LBB_948515_4)>>2
	.byte	(.LBB_948515_23-.LBB_948515_4)>>2
	.byte	(.LBB_948515_9-.LBB_948515_4)>>2
	.byte	(.LBB_948515_15-.LBB_948515_4)>>2
	.byte	(.LBB_948515_5-.LBB_948515_4)>>2
	.byte	(.LBB_948515_7-.LBB_948515_4)>>2

	.section	.rodata.cst16,"aM",@progbits,16
	.p2align	4, 0x0
.LCPI_b5d67b_0:
	.byte	1
	.byte	2
	.byte	4
	.byte	8
	.byte	16
	.byte	32
	.byte	64
	.byte	128
	.byte	1
	.byte	2
	.byte	4
	.byte	8
	.byte	16
	.byte	32
	.byte	64
	.byte	128
	.section	".text.core::cmp::slices::groups_equal::<i8,31'core::cmp::numbers::U8PartialEq{}>","ax",@progbits
	.p2align	2
	.type	"core::cmp::slices::groups_equal::<i8,31'core::cmp::numbers::U8PartialEq{}>",@function
"core::cmp::slices::groups_equal::<i8,31'core::cmp::numbers::U8PartialEq{}>":
	subs	x9, x1, #8
	b.hi	.LBB_b5d67b_2
	sub	x8, x1, #4
	ldr	s0, [x0]
	ldr	s1, [x2]
	add	x9, x0, x8
	add	x8, x2, x8
	ld1	{ v0.s }[1], [x9]
	ld1	{ v1.s }[1], [x8]
	fmov	x8, d0
	fmov	x9, d1
	cmp	x8, x9
	cset	w8, ne
	eor	w0, w8, #0x1
	ret
.LBB_b5d67b_2:
	subs	x8, x1, #32
	b.hi	.LBB_b5d67b_4
	cmp	x9, #8
	mov	w8, #8
	mov	w10, #16
	csel	x8, x9, x8, lo
	cmp	x9, #16
	ldr	d0, [x0]
	ldr	d1, [x2]
	ldr	d2, [x0, x8]
	ldr	d3, [x2, x8]
	csel	x8, x9, x10, lo
	ldr	d5, [x2, x9]
	ldr	d4, [x0, x8]
	mov	v0.d[1], v2.d[0]
	mov	v1.d[1], v3.d[0]
	ldr	d2, [x2, x8]
	ldr	d3, [x0, x9]
	mov	v4.d[1], v3.d[0]
	mov	v2.d[1], v5.d[0]
	cmeq	v0.16b, v0.16b, v1.16b
	cmeq	v1.16b, v4.16b, v2.16b
	b	.LBB_b5d67b_17
.LBB_b5d67b_4:
	cmp	x1, #65
	b.hs	.LBB_b5d67b_6
	ldp	q1, q0, [x0]
	add	x9, x2, x8
	ldp	q3, q2, [x2]
	add	x8, x0, x8
	ldp	q4, q5, [x9]
	cmeq	v1.16b, v1.16b, v3.16b
	cmeq	v0.16b, v0.16b, v2.16b
	ldp	q2, q3, [x8]
	mvn	v1.16b, v1.16b
	mvn	v0.16b, v0.16b
	cmeq	v2.16b, v2.16b, v4.16b
	cmeq	v3.16b, v3.16b, v5.16b
	orn	v0.16b, v0.16b, v3.16b
	orn	v1.16b, v1.16b, v2.16b
	orr	v0.16b, v1.16b, v0.16b
	umaxv	b0, v0.16b
	fmov	w8, s0
	and	w8, w8, #0x1
	eor	w0, w8, #0x1
	ret
.LBB_b5d67b_6:
	and	x9, x1, #0xffffffffffffffc0
	add	x10, x0, #32
	add	x12, x2, #32
	mov	w11, #32
	mov	x13, x1
.LBB_b5d67b_7:
	ldp	q0, q3, [x12, #-32]
	ldp	q1, q2, [x10, #-32]
	ldp	q4, q5, [x12], #64
	cmeq	v0.16b, v1.16b, v0.16b
	cmeq	v1.16b, v2.16b, v3.16b
	ldp	q2, q3, [x10], #64
	mvn	v0.16b, v0.16b
	mvn	v1.16b, v1.16b
	cmeq	v2.16b, v2.16b, v4.16b
	cmeq	v3.16b, v3.16b, v5.16b
	orn	v0.16b, v0.16b, v2.16b
	orn	v1.16b, v1.16b, v3.16b
	orr	v0.16b, v1.16b, v0.16b
	umaxv	b0, v0.16b
	fmov	w14, s0
	tbnz	w14, #0, .LBB_b5d67b_10
	sub	x13, x13, #64
	add	x11, x11, #64
	cmp	x13, #64
	b.hs	.LBB_b5d67b_7
	sub	x10, x1, x9
	cmp	x10, #32
	b.hs	.LBB_b5d67b_11
	b	.LBB_b5d67b_16
.LBB_b5d67b_10:
	sub	x9, x11, #32
	sub	x10, x1, x9
	cmp	x10, #32
	b.lo	.LBB_b5d67b_16
.LBB_b5d67b_11:
	add	x11, x0, x9
	add	x9, x2, x9
.LBB_b5d67b_12:
	ldp	q0, q1, [x11], #32
	ldp	q2, q3, [x9], #32
	adrp	x12, .LCPI_b5d67b_0
	cmeq	v1.16b, v1.16b, v3.16b
	cmeq	v0.16b, v0.16b, v2.16b
	ldr	q2, [x12, :lo12:.LCPI_b5d67b_0]
	bic	v1.16b, v2.16b, v1.16b
	bic	v0.16b, v2.16b, v0.16b
	ext	v2.16b, v1.16b, v1.16b, #8
	ext	v3.16b, v0.16b, v0.16b, #8
	zip1	v1.16b, v1.16b, v2.16b
	zip1	v0.16b, v0.16b, v3.16b
	addv	h1, v1.8h
	addv	h0, v0.8h
	fmov	w12, s1
	fmov	w13, s0
	orr	w12, w13, w12
	tst	w12, #0xffff
	b.ne	.LBB_b5d67b_14
	sub	x10, x10, #32
	cmp	x10, #32
	b.hs	.LBB_b5d67b_12
	b	.LBB_b5d67b_16
.LBB_b5d67b_14:
	cmp	x10, #31
	b.ls	.LBB_b5d67b_16
	mov	w8, #1
	eor	w0, w8, #0x1
	ret
.LBB_b5d67b_16:
	add	x9, x0, x8
	add	x8, x2, x8
	ldp	q0, q3, [x8]
	ldp	q1, q2, [x9]
	cmeq	v0.16b, v1.16b, v0.16b
	cmeq	v1.16b, v2.16b, v3.16b
.LBB_b5d67b_17:
	mvn	v0.16b, v0.16b
	orn	v0.16b, v0.16b, v1.16b
	umaxv	b0, v0.16b
	fmov	w8, s0
	and	w8, w8, #0x1
	eor	w0, w8, #0x1
	ret
.Lfunc_end_b5d67b:
	.size	"core::cmp::slices::groups_equal::<i8,31'core::cmp::numbers::U8PartialEq{}>", .Lfunc_end_b5d67b-"core::cmp::slices::groups_equal::<i8,31'core::cmp::numbers::U8PartialEq{}>"

	.section	".text.unlikely.std_alloc::vec::Vec::grow_amortized::<#cdd50f0e5dac12a4>","ax",@progbits
	.p2align	2
	.type	"std_alloc::vec::Vec::grow_amortized::<#cdd50f0e5dac12a4>",@function
"std_alloc::vec::Vec::grow_amortized::<#cdd50f0e5dac12a4>":
	ldr	x8, [x0, #8]
	cmn	x8, #1
	b.eq	.LBB_668e90_5
	stp	x29, x30, [sp, #-32]!
	ldr	x9, [x0, #16]
	cmp	x8, #3
	mov	w10, #3
	csel	x11, x8, x10, hi
	stp	x20, x19, [sp, #16]
	mov	x29, sp
	lsl	x10, x9, #1
	add	x12, x11, #1
	lsr	x13, x9, #62
	cmp	x12, x10
	csinc	x10, x10, x11, ls
	cmp	x13, #0
	csinc	x19, x10, x11, eq
	mov	x11, #58254
	movk	x11, #36408, lsl #16
	movk	x11, #14563, lsl #32
	movk	x11, #910, lsl #48
	cmp	x19, x11
	b.hi	.LBB_668e90_7
	cbz	x9, .LBB_668e90_6
	add	x8, x8, x8, lsl #3
	add	x9, x19, x19, lsl #3
	mov	x20, x0
	ldr	x0, [x0]
	mov	w3, #4
	lsl	x1, x8, #2
	lsl	x2, x9, #2
	bl	rattle_realloc
	tbz	w0, #0, .LBB_668e90_7
.LBB_668e90_4:
	mov	w0, #1
	str	x1, [x20]
	str	x19, [x20, #16]
	ldp	x20, x19, [sp, #16]
	ldp	x29, x30, [sp], #32
	ret
.LBB_668e90_5:
	mov	w0, wzr
	ret
.LBB_668e90_6:
	add	x8, x10, x10, lsl #3
	mov	x20, x0
	mov	w1, #4
	lsl	x0, x8, #2
	bl	rattle_alloc
	tbnz	w0, #0, .LBB_668e90_4
.LBB_668e90_7:
	mov	w0, wzr
	ldp	x20, x19, [sp, #16]
	ldp	x29, x30, [sp], #32
	ret
.Lfunc_end_668e90:
	.size	"std_alloc::vec::Vec::grow_amortized::<#cdd50f0e5dac12a4>", .Lfunc_end_668e90-"std_alloc::vec::Vec::grow_amortized::<#cdd50f0e5dac12a4>"

	.section	.rodata.cst16,"aM",@progbits,16
	.p2align	4, 0x0
.LCPI_9ba498_0:
	.byte	255
	.byte	0
	.byte	255
	.byte	2
	.byte	255
	.byte	4
	.byte	255
	.byte	6
	.byte	255
	.byte	8
	.byte	255
	.byte	10
	.byte	255
	.byte	12
	.byte	255
	.byte	14
.LCPI_9ba498_1:
	.byte	0
	.byte	0
	.byte	0
	.byte	0
	.byte	1
	.byte	1
	.byte	1
	.byte	1
	.byte	2
	.byte	2
	.byte	2
	.byte	2
	.byte	3
	.byte	3
	.byte	3
	.byte	3
.LCPI_9ba498_3:
	.word	4294967280
	.word	4294967272
	.word	4294967288
	.word	0
.LCPI_9ba498_4:
	.word	16
	.word	24
	.word	8
	.word	0
.LCPI_9ba498_5:
	.word	4294967272
	.word	4294967280
	.word	4294967288
	.word	0
.LCPI_9ba498_6:
	.byte	3
	.byte	2
	.byte	1
	.byte	0
	.byte	3
	.byte	2
	.byte	1
	.byte	0
	.byte	3
	.byte	2
	.byte	1
	.byte	0
	.byte	3
	.byte	2
	.byte	1
	.byte	0
.LCPI_9ba498_7:
	.word	24
	.word	16
	.word	8
	.word	0
.LCPI_9ba498_8:
	.byte	0
	.byte	255
	.byte	0
	.byte	255
	.byte	4
	.byte	255
	.byte	4
	.byte	255
	.byte	8
	.byte	255
	.byte	8
	.byte	255
	.byte	12
	.byte	255
	.byte	12
	.byte	255
.LCPI_9ba498_9:
	.byte	0
	.byte	0
	.byte	0
	.byte	0
	.byte	4
	.byte	4
	.byte	4
	.byte	4
	.byte	8
	.byte	8
	.byte	8
	.byte	8
	.byte	12
	.byte	12
	.byte	12
	.byte	12
.LCPI_9ba498_12:
	.word	0
	.word	4294967288
	.word	0
	.word	0
.LCPI_9ba498_14:
	.word	0
	.word	4294967288
	.word	4294967280
	.word	0
.LCPI_9ba498_16:
	.byte	3
	.byte	2
	.byte	0
	.byte	1
	.byte	3
	.byte	2
	.byte	0
	.byte	1
	.byte	3
	.byte	2
	.byte	0
	.byte	1
	.byte	3
	.byte	2
	.byte	0
	.byte	1
	.section	.rodata.cst8,"aM",@progbits,8
	.p2align	3, 0x0
.LCPI_9ba498_2:
	.word	4294967280
	.word	4294967272
.LCPI_9ba498_10:
	.word	4294967272
	.word	4294967280
.LCPI_9ba498_11:
	.word	0
	.word	4294967288
.LCPI_9ba498_13:
	.word	16
	.word	8
.LCPI_9ba498_15:
	.word	8
	.word	16
	.section	".text.pix_ops::ops::Op::visit_slice::<#cb634639e69df956>","ax",@progbits
	.p2align	2
	.type	"pix_ops::ops::Op::visit_slice::<#cb634639e69df956>",@function
"pix_ops::ops::Op::visit_slice::<#cb634639e69df956>":
	and	x8, x0, #0xff
	stp	d15, d14, [sp, #-160]!
	stp	d13, d12, [sp, #16]
	stp	d11, d10, [sp, #32]
	stp	d9, d8, [sp, #48]
	stp	x29, x30, [sp, #64]
	add	x29, sp, #64
	stp	x28, x27, [sp, #80]
	stp	x26, x25, [sp, #96]
	stp	x24, x23, [sp, #112]
	stp	x22, x21, [sp, #128]
	stp	x20, x19, [sp, #144]
	sub	sp, sp, #432
	adrp	x9, .LJTI_9ba498_0
	add	x9, x9, :lo12:.LJTI_9ba498_0
	mov	x19, x2
	adr	x10, .LBB_9ba498_1
	ldrh	w11, [x9, x8, lsl #1]
	add	x10, x10, x11, lsl #2
	br	x10
.LBB_9ba498_1:
	movi	v0.2d, #0000000000000000
	ldr	x20, [x1, #24]
	sub	x0, x29, #240
	ldp	w25, w22, [x1, #8]
	ldp	w24, w21, [x1, #16]
	ldr	x1, [x1]
	stur	xzr, [x29, #-128]
	stp	q0, q0, [x29, #-224]
	stp	q0, q0, [x29, #-192]
	stp	q0, q0, [x29, #-160]
	stur	q0, [x29, #-240]
	bl	"pix_raster::command::CommandReadDraw::read::<#880fe2ecd02fbeac>"
	ldurb	w8, [x29, #-240]
	ldp	x13, x3, [x29, #-200]
	ldpsw	x0, x12, [x29, #-236]
	ldp	w15, w10, [x29, #-228]
	ldpsw	x14, x17, [x29, #-184]
	ldp	w16, w11, [x29, #-176]
	ldur	x2, [x29, #-216]
	cmp	w8, #3
	b.gt	.LBB_9ba498_139
	cmp	w8, #1
	b.gt	.LBB_9ba498_357
	cbnz	w8, .LBB_9ba498_645
	cbz	w24, .LBB_9ba498_467
	add	w8, w24, w25
	mov	x10, #4294967296
	orr	x9, x24, #0x100000000
	sub	x8, x8, x25
	add	w11, w21, w22
	orr	x13, x21, #0x100000000
	add	x8, x8, x10
	sub	x11, x11, x22
	cmp	x9, x8
	add	x11, x11, x10
	csel	x9, x9, x8, lo
	subs	x12, x9, x10
	csel	x21, xzr, x12, lo
	cmp	x13, x11
	mov	x12, #4294967297
	csel	x11, x13, x11, lo
	subs	x10, x11, x10
	csel	x22, xzr, x10, lo
	cmp	x11, x12
	b.lo	.LBB_9ba498_467
	lsl	x23, x20, #2
	cmp	x21, #1024
	b.lo	.LBB_9ba498_836
	mov	x20, xzr
.LBB_9ba498_8:
	mov	x0, x19
	mov	x1, x21
	bl	"pix_el::filled::clear_long::<#c0ead2364dd49755>"
	add	x20, x20, #1
	add	x19, x19, x23
	cmp	x20, x22
	b.lo	.LBB_9ba498_8
	b	.LBB_9ba498_467
.LBB_9ba498_9:
	movi	v0.2d, #0000000000000000
	ldr	x20, [x1, #24]
	sub	x0, x29, #240
	ldp	w24, w22, [x1, #8]
	ldp	w23, w21, [x1, #16]
	ldr	x1, [x1]
	stur	xzr, [x29, #-128]
	stp	q0, q0, [x29, #-224]
	stp	q0, q0, [x29, #-192]
	stp	q0, q0, [x29, #-160]
	stur	q0, [x29, #-240]
	bl	"pix_raster::command::CommandReadDraw::read::<#880fe2ecd02fbeac>"
	ldurb	w17, [x29, #-240]
	ldur	x11, [x29, #-200]
	ldpsw	x16, x12, [x29, #-236]
	ldp	w14, w8, [x29, #-228]
	ldpsw	x13, x9, [x29, #-184]
	ldp	w15, w10, [x29, #-176]
	cmp	w17, #3
	b.gt	.LBB_9ba498_113
	ldur	x2, [x29, #-216]
	cmp	w17, #1
	b.gt	.LBB_9ba498_159
	cbnz	w17, .LBB_9ba498_487
	cbz	w23, .LBB_9ba498_467
	add	w8, w23, w24
	mov	x10, #4294967296
	orr	x9, x23, #0x100000000
	sub	x8, x8, x24
	add	w11, w21, w22
	orr	x13, x21, #0x100000000
	add	x8, x8, x10
	sub	x11, x11, x22
	cmp	x9, x8
	add	x11, x11, x10
	csel	x9, x9, x8, lo
	subs	x12, x9, x10
	csel	x21, xzr, x12, lo
	cmp	x13, x11
	mov	x12, #4294967297
	csel	x11, x13, x11, lo
	subs	x10, x11, x10
	csel	x22, xzr, x10, lo
	cmp	x11, x12
	b.lo	.LBB_9ba498_467
	lsl	x23, x20, #2
	cmp	x21, #1024
	b.lo	.LBB_9ba498_796
	mov	x20, xzr
.LBB_9ba498_16:
	mov	x0, x19
	mov	x1, x21
	bl	"pix_el::filled::clear_long::<#c0ead2364dd49755>"
	add	x20, x20, #1
	add	x19, x19, x23
	cmp	x20, x22
	b.lo	.LBB_9ba498_16
	b	.LBB_9ba498_467
.LBB_9ba498_17:
	movi	v0.2d, #0000000000000000
	ldr	x20, [x1, #24]
	sub	x0, x29, #240
	ldp	w25, w22, [x1, #8]
	ldp	w24, w21, [x1, #16]
	ldr	x1, [x1]
	stur	xzr, [x29, #-128]
	stp	q0, q0, [x29, #-224]
	stp	q0, q0, [x29, #-192]
	stp	q0, q0, [x29, #-160]
	stur	q0, [x29, #-240]
	bl	"pix_raster::command::CommandReadDraw::read::<#880fe2ecd02fbeac>"
	ldurb	w8, [x29, #-240]
	ldp	x13, x3, [x29, #-200]
	ldpsw	x18, x12, [x29, #-236]
	ldp	w15, w10, [x29, #-228]
	ldpsw	x14, x4, [x29, #-184]
	ldp	w16, w11, [x29, #-176]
	ldur	x2, [x29, #-216]
	cmp	w8, #3
	b.gt	.LBB_9ba498_115
	cmp	w8, #1
	b.gt	.LBB_9ba498_170
	cbnz	w8, .LBB_9ba498_506
	cbz	w24, .LBB_9ba498_467
	add	w8, w24, w25
	mov	x10, #4294967296
	orr	x9, x24, #0x100000000
	sub	x8, x8, x25
	add	w11, w21, w22
	orr	x13, x21, #0x100000000
	add	x8, x8, x10
	sub	x11, x11, x22
	cmp	x9, x8
	add	x11, x11, x10
	csel	x9, x9, x8, lo
	subs	x12, x9, x10
	csel	x21, xzr, x12, lo
	cmp	x13, x11
	mov	x12, #4294967297
	csel	x11, x13, x11, lo
	subs	x10, x11, x10
	csel	x22, xzr, x10, lo
	cmp	x11, x12
	b.lo	.LBB_9ba498_467
	lsl	x23, x20, #2
	cmp	x21, #1024
	b.lo	.LBB_9ba498_808
	mov	x20, xzr
.LBB_9ba498_24:
	mov	x0, x19
	mov	x1, x21
	bl	"pix_el::filled::clear_long::<#c0ead2364dd49755>"
	add	x20, x20, #1
	add	x19, x19, x23
	cmp	x20, x22
	b.lo	.LBB_9ba498_24
	b	.LBB_9ba498_467
.LBB_9ba498_25:
	movi	v0.2d, #0000000000000000
	ldr	x20, [x1, #24]
	sub	x0, x29, #240
	ldp	w25, w22, [x1, #8]
	ldp	w24, w21, [x1, #16]
	ldr	x1, [x1]
	stur	xzr, [x29, #-128]
	stp	q0, q0, [x29, #-224]
	stp	q0, q0, [x29, #-192]
	stp	q0, q0, [x29, #-160]
	stur	q0, [x29, #-240]
	bl	"pix_raster::command::CommandReadDraw::read::<#880fe2ecd02fbeac>"
	ldurb	w8, [x29, #-240]
	ldp	x13, x3, [x29, #-200]
	ldpsw	x0, x12, [x29, #-236]
	ldp	w15, w10, [x29, #-228]
	ldpsw	x14, x17, [x29, #-184]
	ldp	w16, w11, [x29, #-176]
	ldur	x2, [x29, #-216]
	cmp	w8, #3
	b.gt	.LBB_9ba498_119
	cmp	w8, #1
	b.gt	.LBB_9ba498_206
	cbnz	w8, .LBB_9ba498_523
	cbz	w24, .LBB_9ba498_467
	add	w8, w24, w25
	mov	x10, #4294967296
	orr	x9, x24, #0x100000000
	sub	x8, x8, x25
	add	w11, w21, w22
	orr	x13, x21, #0x100000000
	add	x8, x8, x10
	sub	x11, x11, x22
	cmp	x9, x8
	add	x11, x11, x10
	csel	x9, x9, x8, lo
	subs	x12, x9, x10
	csel	x21, xzr, x12, lo
	cmp	x13, x11
	mov	x12, #4294967297
	csel	x11, x13, x11, lo
	subs	x10, x11, x10
	csel	x22, xzr, x10, lo
	cmp	x11, x12
	b.lo	.LBB_9ba498_467
	lsl	x23, x20, #2
	cmp	x21, #1024
	b.lo	.LBB_9ba498_812
	mov	x20, xzr
.LBB_9ba498_32:
	mov	x0, x19
	mov	x1, x21
	bl	"pix_el::filled::clear_long::<#c0ead2364dd49755>"
	add	x20, x20, #1
	add	x19, x19, x23
	cmp	x20, x22
	b.lo	.LBB_9ba498_32
	b	.LBB_9ba498_467
.LBB_9ba498_33:
	movi	v0.2d, #0000000000000000
	ldr	x20, [x1, #24]
	sub	x0, x29, #240
	ldp	w24, w22, [x1, #8]
	ldp	w23, w21, [x1, #16]
	ldr	x1, [x1]
	stur	xzr, [x29, #-128]
	stp	q0, q0, [x29, #-224]
	stp	q0, q0, [x29, #-192]
	stp	q0, q0, [x29, #-160]
	stur	q0, [x29, #-240]
	bl	"pix_raster::command::CommandReadDraw::read::<#880fe2ecd02fbeac>"
	ldurb	w8, [x29, #-240]
	ldp	x13, x3, [x29, #-200]
	ldpsw	x18, x12, [x29, #-236]
	ldp	w15, w10, [x29, #-228]
	ldpsw	x14, x4, [x29, #-184]
	ldp	w16, w11, [x29, #-176]
	ldur	x2, [x29, #-216]
	cmp	w8, #3
	b.gt	.LBB_9ba498_123
	cmp	w8, #1
	b.gt	.LBB_9ba498_227
	cbnz	w8, .LBB_9ba498_556
	cbz	w23, .LBB_9ba498_467
	add	w8, w23, w24
	mov	x10, #4294967296
	orr	x9, x23, #0x100000000
	sub	x8, x8, x24
	add	w11, w21, w22
	orr	x13, x21, #0x100000000
	add	x8, x8, x10
	sub	x11, x11, x22
	cmp	x9, x8
	add	x11, x11, x10
	csel	x9, x9, x8, lo
	subs	x12, x9, x10
	csel	x21, xzr, x12, lo
	cmp	x13, x11
	mov	x12, #4294967297
	csel	x11, x13, x11, lo
	subs	x10, x11, x10
	csel	x22, xzr, x10, lo
	cmp	x11, x12
	b.lo	.LBB_9ba498_467
	lsl	x23, x20, #2
	cmp	x21, #1024
	b.lo	.LBB_9ba498_816
	mov	x20, xzr
.LBB_9ba498_40:
	mov	x0, x19
	mov	x1, x21
	bl	"pix_el::filled::clear_long::<#c0ead2364dd49755>"
	add	x20, x20, #1
	add	x19, x19, x23
	cmp	x20, x22
	b.lo	.LBB_9ba498_40
	b	.LBB_9ba498_467
.LBB_9ba498_41:
	movi	v0.2d, #0000000000000000
	ldr	x20, [x1, #24]
	sub	x0, x29, #240
	ldp	w25, w22, [x1, #8]
	ldp	w24, w21, [x1, #16]
	ldr	x1, [x1]
	stur	xzr, [x29, #-128]
	stp	q0, q0, [x29, #-224]
	stp	q0, q0, [x29, #-192]
	stp	q0, q0, [x29, #-160]
	stur	q0, [x29, #-240]
	bl	"pix_raster::command::CommandReadDraw::read::<#880fe2ecd02fbeac>"
	ldurb	w8, [x29, #-240]
	ldp	x13, x3, [x29, #-200]
	ldpsw	x18, x12, [x29, #-236]
	ldp	w15, w10, [x29, #-228]
	ldpsw	x14, x4, [x29, #-184]
	ldp	w16, w11, [x29, #-176]
	ldur	x2, [x29, #-216]
	cmp	w8, #3
	b.gt	.LBB_9ba498_127
	cmp	w8, #1
	b.gt	.LBB_9ba498_263
	cbnz	w8, .LBB_9ba498_573
	cbz	w24, .LBB_9ba498_467
	add	w8, w24, w25
	mov	x10, #4294967296
	orr	x9, x24, #0x100000000
	sub	x8, x8, x25
	add	w11, w21, w22
	orr	x13, x21, #0x100000000
	add	x8, x8, x10
	sub	x11, x11, x22
	cmp	x9, x8
	add	x11, x11, x10
	csel	x9, x9, x8, lo
	subs	x12, x9, x10
	csel	x21, xzr, x12, lo
	cmp	x13, x11
	mov	x12, #4294967297
	csel	x11, x13, x11, lo
	subs	x10, x11, x10
	csel	x22, xzr, x10, lo
	cmp	x11, x12
	b.lo	.LBB_9ba498_467
	lsl	x23, x20, #2
	cmp	x21, #1024
	b.lo	.LBB_9ba498_820
	mov	x20, xzr
.LBB_9ba498_48:
	mov	x0, x19
	mov	x1, x21
	bl	"pix_el::filled::clear_long::<#c0ead2364dd49755>"
	add	x20, x20, #1
	add	x19, x19, x23
	cmp	x20, x22
	b.lo	.LBB_9ba498_48
	b	.LBB_9ba498_467
.LBB_9ba498_49:
	movi	v0.2d, #0000000000000000
	ldr	x20, [x1, #24]
	sub	x0, x29, #240
	ldp	w25, w22, [x1, #8]
	ldp	w24, w21, [x1, #16]
	ldr	x1, [x1]
	stur	xzr, [x29, #-128]
	stp	q0, q0, [x29, #-224]
	stp	q0, q0, [x29, #-192]
	stp	q0, q0, [x29, #-160]
	stur	q0, [x29, #-240]
	bl	"pix_raster::command::CommandReadDraw::read::<#880fe2ecd02fbeac>"
	ldurb	w8, [x29, #-240]
	ldp	x13, x3, [x29, #-200]
	ldpsw	x18, x12, [x29, #-236]
	ldp	w15, w10, [x29, #-228]
	ldpsw	x14, x4, [x29, #-184]
	ldp	w16, w11, [x29, #-176]
	ldur	x2, [x29, #-216]
	cmp	w8, #3
	b.gt	.LBB_9ba498_131
	cmp	w8, #1
	b.gt	.LBB_9ba498_299
	cbnz	w8, .LBB_9ba498_595
	cbz	w24, .LBB_9ba498_467
	add	w8, w24, w25
	mov	x10, #4294967296
	orr	x9, x24, #0x100000000
	sub	x8, x8, x25
	add	w11, w21, w22
	orr	x13, x21, #0x100000000
	add	x8, x8, x10
	sub	x11, x11, x22
	cmp	x9, x8
	add	x11, x11, x10
	csel	x9, x9, x8, lo
	subs	x12, x9, x10
	csel	x21, xzr, x12, lo
	cmp	x13, x11
	mov	x12, #4294967297
	csel	x11, x13, x11, lo
	subs	x10, x11, x10
	csel	x22, xzr, x10, lo
	cmp	x11, x12
	b.lo	.LBB_9ba498_467
	lsl	x23, x20, #2
	cmp	x21, #1024
	b.lo	.LBB_9ba498_828
	mov	x20, xzr
.LBB_9ba498_56:
	mov	x0, x19
	mov	x1, x21
	bl	"pix_el::filled::clear_long::<#c0ead2364dd49755>"
	add	x20, x20, #1
	add	x19, x19, x23
	cmp	x20, x22
	b.lo	.LBB_9ba498_56
	b	.LBB_9ba498_467
.LBB_9ba498_57:
	movi	v0.2d, #0000000000000000
	ldr	x20, [x1, #24]
	sub	x0, x29, #240
	ldp	w25, w22, [x1, #8]
	ldp	w24, w21, [x1, #16]
	ldr	x1, [x1]
	stur	xzr, [x29, #-128]
	stp	q0, q0, [x29, #-224]
	stp	q0, q0, [x29, #-192]
	stp	q0, q0, [x29, #-160]
	stur	q0, [x29, #-240]
	bl	"pix_raster::command::CommandReadDraw::read::<#880fe2ecd02fbeac>"
	ldurb	w8, [x29, #-240]
	ldp	x13, x3, [x29, #-200]
	ldpsw	x18, x12, [x29, #-236]
	ldp	w15, w10, [x29, #-228]
	ldpsw	x14, x4, [x29, #-184]
	ldp	w16, w11, [x29, #-176]
	ldur	x2, [x29, #-216]
	cmp	w8, #3
	b.gt	.LBB_9ba498_135
	cmp	w8, #1
	b.gt	.LBB_9ba498_321
	cbnz	w8, .LBB_9ba498_628
	cbz	w24, .LBB_9ba498_467
	add	w8, w24, w25
	mov	x10, #4294967296
	orr	x9, x24, #0x100000000
	sub	x8, x8, x25
	add	w11, w21, w22
	orr	x13, x21, #0x100000000
	add	x8, x8, x10
	sub	x11, x11, x22
	cmp	x9, x8
	add	x11, x11, x10
	csel	x9, x9, x8, lo
	subs	x12, x9, x10
	csel	x21, xzr, x12, lo
	cmp	x13, x11
	mov	x12, #4294967297
	csel	x11, x13, x11, lo
	subs	x10, x11, x10
	csel	x22, xzr, x10, lo
	cmp	x11, x12
	b.lo	.LBB_9ba498_467
	lsl	x23, x20, #2
	cmp	x21, #1024
	b.lo	.LBB_9ba498_832
	mov	x20, xzr
.LBB_9ba498_64:
	mov	x0, x19
	mov	x1, x21
	bl	"pix_el::filled::clear_long::<#c0ead2364dd49755>"
	add	x20, x20, #1
	add	x19, x19, x23
	cmp	x20, x22
	b.lo	.LBB_9ba498_64
	b	.LBB_9ba498_467
.LBB_9ba498_65:
	movi	v0.2d, #0000000000000000
	ldr	x20, [x1, #24]
	sub	x0, x29, #240
	ldp	w24, w22, [x1, #8]
	ldp	w23, w21, [x1, #16]
	ldr	x1, [x1]
	stur	xzr, [x29, #-128]
	stp	q0, q0, [x29, #-224]
	stp	q0, q0, [x29, #-192]
	stp	q0, q0, [x29, #-160]
	stur	q0, [x29, #-240]
	bl	"pix_raster::command::CommandReadDraw::read::<#880fe2ecd02fbeac>"
	ldurb	w12, [x29, #-240]
	cmp	w12, #2
	b.gt	.LBB_9ba498_467
	cbz	w12, .LBB_9ba498_590
	ldpsw	x10, x9, [x29, #-236]
	ldp	w11, w8, [x29, #-228]
	ldur	x2, [x29, #-216]
	cmp	w12, #1
	b.ne	.LBB_9ba498_678
	cbz	w23, .LBB_9ba498_467
	sub	x10, x10, x24
	mov	x13, #4294967296
	orr	x14, x23, #0x100000000
	add	x10, x10, x13
	mov	x12, #-4294967296
	sub	x9, x9, x22
	cmp	x10, x13
	add	x11, x10, x11
	add	x9, x9, x13
	csel	x10, x10, x13, hi
	cmp	x14, x11
	add	x8, x9, x8
	csel	x11, x14, x11, lo
	add	x14, x10, x12
	cmp	x11, x10
	csel	x16, x14, xzr, hi
	cmp	x9, x13
	orr	x14, x21, #0x100000000
	csel	x13, x9, x13, hi
	cmp	x14, x8
	csel	x9, x14, x8, lo
	add	x8, x13, x12
	cmp	x9, x13
	csel	x8, x8, xzr, hi
	b.ls	.LBB_9ba498_467
	add	x9, x9, x12
	cmp	x9, x8
	b.ls	.LBB_9ba498_467
	add	x12, x11, x12
	cmp	x11, x10
	csel	x17, x12, xzr, hi
	subs	x10, x17, x16
	b.eq	.LBB_9ba498_467
	madd	x12, x8, x20, x16
	ldr	w11, [x2]
	lsl	x13, x20, #2
	and	x14, x10, #0xfffffffffffffff8
	sub	x16, x16, x17
	dup	v0.4s, w11
	add	x12, x19, x12, lsl #2
	add	x15, x12, #16
	b	.LBB_9ba498_106
.LBB_9ba498_73:
	movi	v0.2d, #0000000000000000
	ldr	x20, [x1, #24]
	sub	x0, x29, #240
	ldp	w25, w22, [x1, #8]
	ldp	w24, w21, [x1, #16]
	ldr	x1, [x1]
	stur	xzr, [x29, #-128]
	stp	q0, q0, [x29, #-224]
	stp	q0, q0, [x29, #-192]
	stp	q0, q0, [x29, #-160]
	stur	q0, [x29, #-240]
	bl	"pix_raster::command::CommandReadDraw::read::<#880fe2ecd02fbeac>"
	ldurb	w8, [x29, #-240]
	ldp	x13, x3, [x29, #-200]
	ldpsw	x18, x12, [x29, #-236]
	ldp	w15, w10, [x29, #-228]
	ldpsw	x14, x4, [x29, #-184]
	ldp	w16, w11, [x29, #-176]
	ldur	x2, [x29, #-216]
	cmp	w8, #3
	b.gt	.LBB_9ba498_143
	cmp	w8, #1
	b.gt	.LBB_9ba498_379
	cbnz	w8, .LBB_9ba498_680
	cbz	w24, .LBB_9ba498_467
	add	w8, w24, w25
	mov	x10, #4294967296
	orr	x9, x24, #0x100000000
	sub	x8, x8, x25
	add	w11, w21, w22
	orr	x13, x21, #0x100000000
	add	x8, x8, x10
	sub	x11, x11, x22
	cmp	x9, x8
	add	x11, x11, x10
	csel	x9, x9, x8, lo
	subs	x12, x9, x10
	csel	x21, xzr, x12, lo
	cmp	x13, x11
	mov	x12, #4294967297
	csel	x11, x13, x11, lo
	subs	x10, x11, x10
	csel	x22, xzr, x10, lo
	cmp	x11, x12
	b.lo	.LBB_9ba498_467
	lsl	x23, x20, #2
	cmp	x21, #1024
	b.lo	.LBB_9ba498_850
	mov	x20, xzr
.LBB_9ba498_80:
	mov	x0, x19
	mov	x1, x21
	bl	"pix_el::filled::clear_long::<#c0ead2364dd49755>"
	add	x20, x20, #1
	add	x19, x19, x23
	cmp	x20, x22
	b.lo	.LBB_9ba498_80
	b	.LBB_9ba498_467
.LBB_9ba498_81:
	movi	v0.2d, #0000000000000000
	ldr	x20, [x1, #24]
	sub	x0, x29, #240
	ldp	w25, w22, [x1, #8]
	ldp	w24, w21, [x1, #16]
	ldr	x1, [x1]
	stur	xzr, [x29, #-128]
	stp	q0, q0, [x29, #-224]
	stp	q0, q0, [x29, #-192]
	stp	q0, q0, [x29, #-160]
	stur	q0, [x29, #-240]
	bl	"pix_raster::command::CommandReadDraw::read::<#880fe2ecd02fbeac>"
	ldurb	w8, [x29, #-240]
	ldp	x13, x3, [x29, #-200]
	ldpsw	x18, x12, [x29, #-236]
	ldp	w15, w10, [x29, #-228]
	ldpsw	x14, x4, [x29, #-184]
	ldp	w16, w11, [x29, #-176]
	ldur	x2, [x29, #-216]
	cmp	w8, #3
	b.gt	.LBB_9ba498_147
	cmp	w8, #1
	b.gt	.LBB_9ba498_415
	cbnz	w8, .LBB_9ba498_697
	cbz	w24, .LBB_9ba498_467
	add	w8, w24, w25
	mov	x10, #4294967296
	orr	x9, x24, #0x100000000
	sub	x8, x8, x25
	add	w11, w21, w22
	orr	x13, x21, #0x100000000
	add	x8, x8, x10
	sub	x11, x11, x22
	cmp	x9, x8
	add	x11, x11, x10
	csel	x9, x9, x8, lo
	subs	x12, x9, x10
	csel	x21, xzr, x12, lo
	cmp	x13, x11
	mov	x12, #4294967297
	csel	x11, x13, x11, lo
	subs	x10, x11, x10
	csel	x22, xzr, x10, lo
	cmp	x11, x12
	b.lo	.LBB_9ba498_467
	lsl	x23, x20, #2
	cmp	x21, #1024
	b.lo	.LBB_9ba498_854
	mov	x20, xzr
.LBB_9ba498_88:
	mov	x0, x19
	mov	x1, x21
	bl	"pix_el::filled::clear_long::<#c0ead2364dd49755>"
	add	x20, x20, #1
	add	x19, x19, x23
	cmp	x20, x22
	b.lo	.LBB_9ba498_88
	b	.LBB_9ba498_467
.LBB_9ba498_89:
	movi	v0.2d, #0000000000000000
	ldr	x20, [x1, #24]
	sub	x0, x29, #240
	ldp	w24, w22, [x1, #8]
	ldp	w23, w21, [x1, #16]
	ldr	x1, [x1]
	stur	xzr, [x29, #-128]
	stp	q0, q0, [x29, #-224]
	stp	q0, q0, [x29, #-192]
	stp	q0, q0, [x29, #-160]
	stur	q0, [x29, #-240]
	bl	"pix_raster::command::CommandReadDraw::read::<#880fe2ecd02fbeac>"
	ldurb	w8, [x29, #-240]
	ldp	x14, x3, [x29, #-200]
	ldpsw	x0, x12, [x29, #-236]
	ldp	w16, w10, [x29, #-228]
	ldpsw	x15, x4, [x29, #-184]
	ldp	w17, w11, [x29, #-176]
	ldur	x2, [x29, #-216]
	cmp	w8, #3
	b.gt	.LBB_9ba498_151
	cmp	w8, #1
	b.gt	.LBB_9ba498_437
	cbnz	w8, .LBB_9ba498_730
	cbz	w23, .LBB_9ba498_467
	add	w8, w23, w24
	mov	x10, #4294967296
	orr	x9, x23, #0x100000000
	sub	x8, x8, x24
	add	w11, w21, w22
	orr	x13, x21, #0x100000000
	add	x8, x8, x10
	sub	x11, x11, x22
	cmp	x9, x8
	add	x11, x11, x10
	csel	x9, x9, x8, lo
	subs	x12, x9, x10
	csel	x21, xzr, x12, lo
	cmp	x13, x11
	mov	x12, #4294967297
	csel	x11, x13, x11, lo
	subs	x10, x11, x10
	csel	x22, xzr, x10, lo
	cmp	x11, x12
	b.lo	.LBB_9ba498_467
	lsl	x23, x20, #2
	cmp	x21, #1024
	b.lo	.LBB_9ba498_858
	mov	x20, xzr
.LBB_9ba498_96:
	mov	x0, x19
	mov	x1, x21
	bl	"pix_el::filled::clear_long::<#c0ead2364dd49755>"
	add	x20, x20, #1
	add	x19, x19, x23
	cmp	x20, x22
	b.lo	.LBB_9ba498_96
	b	.LBB_9ba498_467
.LBB_9ba498_97:
	movi	v0.2d, #0000000000000000
	ldr	x20, [x1, #24]
	sub	x0, x29, #240
	ldp	w24, w22, [x1, #8]
	ldp	w23, w21, [x1, #16]
	ldr	x1, [x1]
	stur	xzr, [x29, #-128]
	stp	q0, q0, [x29, #-224]
	stp	q0, q0, [x29, #-192]
	stp	q0, q0, [x29, #-160]
	stur	q0, [x29, #-240]
	bl	"pix_raster::command::CommandReadDraw::read::<#880fe2ecd02fbeac>"
	ldurb	w8, [x29, #-240]
	ldp	x13, x3, [x29, #-200]
	ldpsw	x18, x12, [x29, #-236]
	ldp	w15, w10, [x29, #-228]
	ldpsw	x14, x4, [x29, #-184]
	ldp	w16, w11, [x29, #-176]
	ldur	x2, [x29, #-216]
	cmp	w8, #3
	b.gt	.LBB_9ba498_155
	cmp	w8, #1
	b.gt	.LBB_9ba498_459
	cbnz	w8, .LBB_9ba498_763
	cbz	w23, .LBB_9ba498_467
	add	w8, w23, w24
	mov	x10, #4294967296
	orr	x9, x23, #0x100000000
	sub	x8, x8, x24
	add	w11, w21, w22
	orr	x13, x21, #0x100000000
	add	x8, x8, x10
	sub	x11, x11, x22
	cmp	x9, x8
	add	x11, x11, x10
	csel	x9, x9, x8, lo
	subs	x12, x9, x10
	csel	x21, xzr, x12, lo
	cmp	x13, x11
	mov	x12, #4294967297
	csel	x11, x13, x11, lo
	subs	x10, x11, x10
	csel	x22, xzr, x10, lo
	cmp	x11, x12
	b.lo	.LBB_9ba498_467
	lsl	x23, x20, #2
	cmp	x21, #1024
	b.lo	.LBB_9ba498_862
	mov	x20, xzr
.LBB_9ba498_104:
	mov	x0, x19
	mov	x1, x21
	bl	"pix_el::filled::clear_long::<#c0ead2364dd49755>"
	add	x20, x20, #1
	add	x19, x19, x23
	cmp	x20, x22
	b.lo	.LBB_9ba498_104
	b	.LBB_9ba498_467
.LBB_9ba498_105:
	add	x8, x8, #1
	add	x15, x15, x13
	add	x12, x12, x13
	cmp	x8, x9
	b.eq	.LBB_9ba498_467
.LBB_9ba498_106:
	cmp	x10, #8
	b.hs	.LBB_9ba498_108
	mov	x18, xzr
	b	.LBB_9ba498_111
.LBB_9ba498_108:
	mov	x17, x15
	and	x18, x10, #0xfffffffffffffff8
.LBB_9ba498_109:
	subs	x18, x18, #8
	stp	q0, q0, [x17, #-16]
	add	x17, x17, #32
	b.ne	.LBB_9ba498_109
	cmp	x10, x14
	and	x18, x10, #0xfffffffffffffff8
	b.eq	.LBB_9ba498_105
.LBB_9ba498_111:
	add	x17, x12, x18, lsl #2
	add	x18, x16, x18
.LBB_9ba498_112:
	adds	x18, x18, #1
	str	w11, [x17], #4
	b.lo	.LBB_9ba498_112
	b	.LBB_9ba498_105
.LBB_9ba498_113:
	cmp	w17, #5
	b.gt	.LBB_9ba498_162
	cmp	w17, #4
	b	.LBB_9ba498_168
.LBB_9ba498_115:
	ldur	x23, [x29, #-168]
	cmp	w8, #5
	b.gt	.LBB_9ba498_187
	cmp	w8, #4
	b.ne	.LBB_9ba498_519
	cbz	w24, .LBB_9ba498_467
	sub	x8, x18, x25
	mov	x9, #4294967296
	mov	x0, #4294967296
	add	x17, x8, x9
	add	x18, x14, x9
	orr	x5, x24, #0x100000000
	cmp	x18, x17
	bfxil	x0, x13, #0, #32
	sub	x12, x12, x22
	csel	x1, x18, x17, lo
	subs	x1, x9, x1
	csel	x1, xzr, x1, lo
	subs	x17, x5, x17
	csel	x17, xzr, x17, lo
	subs	x18, x0, x18
	add	x14, x1, x14
	csel	x18, xzr, x18, lo
	cmp	w16, w15
	orr	x0, x21, #0x100000000
	csel	w15, w16, w15, lo
	add	x16, x12, x9
	cmp	x17, x15
	csel	x15, x17, x15, lo
	add	x17, x4, x9
	cmp	x18, x15
	csel	x15, x18, x15, lo
	add	x18, x1, x8
	cmp	x15, x1
	add	x8, x15, x8
	mov	x1, x20
	csel	x15, x18, xzr, hi
	csel	x8, x8, xzr, hi
	csel	x14, x14, xzr, hi
	cmp	x17, x16
	stp	x15, x8, [x29, #-120]
	csel	x18, x17, x16, lo
	subs	x18, x9, x18
	bfxil	x9, x13, #32, #32
	csel	x13, xzr, x18, lo
	subs	x16, x0, x16
	mov	x0, x19
	csel	x16, xzr, x16, lo
	subs	x9, x9, x17
	add	x8, x13, x12
	csel	x9, xzr, x9, lo
	cmp	w11, w10
	csel	w10, w11, w10, lo
	cmp	x16, x10
	csel	x10, x16, x10, lo
	cmp	x9, x10
	csel	x9, x9, x10, lo
	add	x10, x13, x4
	sub	x4, x29, #120
	cmp	x9, x13
	add	x9, x9, x12
	csel	x8, x8, xzr, hi
	csel	x9, x9, xzr, hi
	stp	x14, x8, [x29, #-104]
	csel	x8, x10, xzr, hi
	stp	x9, x8, [x29, #-88]
	bl	"pix_raster::view::blit_overlap::<#1a9768a07824da26>"
	b	.LBB_9ba498_467
.LBB_9ba498_119:
	ldur	x23, [x29, #-168]
	cmp	w8, #5
	b.gt	.LBB_9ba498_208
	cmp	w8, #4
	b.ne	.LBB_9ba498_536
	cbz	w24, .LBB_9ba498_467
	sub	x8, x0, x25
	mov	x9, #4294967296
	mov	x1, #4294967296
	add	x18, x8, x9
	add	x0, x14, x9
	orr	x5, x24, #0x100000000
	cmp	x0, x18
	bfxil	x1, x13, #0, #32
	sub	x12, x12, x22
	csel	x4, x0, x18, lo
	subs	x4, x9, x4
	csel	x4, xzr, x4, lo
	subs	x18, x5, x18
	csel	x18, xzr, x18, lo
	subs	x0, x1, x0
	add	x14, x4, x14
	csel	x0, xzr, x0, lo
	cmp	w16, w15
	orr	x1, x21, #0x100000000
	csel	w15, w16, w15, lo
	add	x16, x12, x9
	cmp	x18, x15
	csel	x15, x18, x15, lo
	add	x18, x17, x9
	cmp	x0, x15
	csel	x15, x0, x15, lo
	add	x0, x4, x8
	cmp	x15, x4
	add	x8, x15, x8
	sub	x4, x29, #120
	csel	x15, x0, xzr, hi
	csel	x8, x8, xzr, hi
	csel	x14, x14, xzr, hi
	cmp	x18, x16
	stp	x15, x8, [x29, #-120]
	csel	x0, x18, x16, lo
	subs	x0, x9, x0
	bfxil	x9, x13, #32, #32
	csel	x13, xzr, x0, lo
	subs	x16, x1, x16
	mov	x0, x19
	csel	x16, xzr, x16, lo
	subs	x9, x9, x18
	add	x8, x13, x12
	csel	x9, xzr, x9, lo
	cmp	w11, w10
	mov	x1, x20
	csel	w10, w11, w10, lo
	cmp	x16, x10
	csel	x10, x16, x10, lo
	cmp	x9, x10
	csel	x9, x9, x10, lo
	add	x10, x13, x17
	cmp	x9, x13
	add	x9, x9, x12
	csel	x8, x8, xzr, hi
	csel	x9, x9, xzr, hi
	stp	x14, x8, [x29, #-104]
	csel	x8, x10, xzr, hi
	stp	x9, x8, [x29, #-88]
	bl	"pix_raster::view::blit_overlap::<#38bb87c9d91cb462>"
	b	.LBB_9ba498_467
.LBB_9ba498_123:
	ldur	x0, [x29, #-168]
	cmp	w8, #5
	b.gt	.LBB_9ba498_244
	cmp	w8, #4
	b.ne	.LBB_9ba498_569
	cbz	w23, .LBB_9ba498_467
	sub	x8, x18, x24
	mov	x9, #4294967296
	mov	x0, #4294967296
	add	x17, x8, x9
	add	x18, x14, x9
	orr	x5, x23, #0x100000000
	cmp	x18, x17
	bfxil	x0, x13, #0, #32
	sub	x12, x12, x22
	csel	x1, x18, x17, lo
	subs	x1, x9, x1
	csel	x1, xzr, x1, lo
	subs	x17, x5, x17
	csel	x17, xzr, x17, lo
	subs	x18, x0, x18
	add	x14, x1, x14
	csel	x18, xzr, x18, lo
	cmp	w16, w15
	orr	x0, x21, #0x100000000
	csel	w15, w16, w15, lo
	add	x16, x12, x9
	cmp	x17, x15
	csel	x15, x17, x15, lo
	add	x17, x4, x9
	cmp	x18, x15
	csel	x15, x18, x15, lo
	add	x18, x1, x8
	cmp	x15, x1
	add	x8, x15, x8
	mov	x1, x20
	csel	x15, x18, xzr, hi
	csel	x8, x8, xzr, hi
	csel	x14, x14, xzr, hi
	cmp	x17, x16
	stp	x15, x8, [x29, #-120]
	csel	x18, x17, x16, lo
	subs	x18, x9, x18
	bfxil	x9, x13, #32, #32
	csel	x13, xzr, x18, lo
	subs	x16, x0, x16
	mov	x0, x19
	csel	x16, xzr, x16, lo
	subs	x9, x9, x17
	add	x8, x13, x12
	csel	x9, xzr, x9, lo
	cmp	w11, w10
	csel	w10, w11, w10, lo
	cmp	x16, x10
	csel	x10, x16, x10, lo
	cmp	x9, x10
	csel	x9, x9, x10, lo
	add	x10, x13, x4
	sub	x4, x29, #120
	cmp	x9, x13
	add	x9, x9, x12
	csel	x8, x8, xzr, hi
	csel	x9, x9, xzr, hi
	stp	x14, x8, [x29, #-104]
	csel	x8, x10, xzr, hi
	stp	x9, x8, [x29, #-88]
	bl	"pix_raster::view::blit_overlap::<#168afd1b974e4a32>"
	b	.LBB_9ba498_467
.LBB_9ba498_127:
	ldur	x23, [x29, #-168]
	cmp	w8, #5
	b.gt	.LBB_9ba498_280
	cmp	w8, #4
	b.ne	.LBB_9ba498_586
	cbz	w24, .LBB_9ba498_467
	sub	x8, x18, x25
	mov	x9, #4294967296
	mov	x0, #4294967296
	add	x17, x8, x9
	add	x18, x14, x9
	orr	x5, x24, #0x100000000
	cmp	x18, x17
	bfxil	x0, x13, #0, #32
	sub	x12, x12, x22
	csel	x1, x18, x17, lo
	subs	x1, x9, x1
	csel	x1, xzr, x1, lo
	subs	x17, x5, x17
	csel	x17, xzr, x17, lo
	subs	x18, x0, x18
	add	x14, x1, x14
	csel	x18, xzr, x18, lo
	cmp	w16, w15
	orr	x0, x21, #0x100000000
	csel	w15, w16, w15, lo
	add	x16, x12, x9
	cmp	x17, x15
	csel	x15, x17, x15, lo
	add	x17, x4, x9
	cmp	x18, x15
	csel	x15, x18, x15, lo
	add	x18, x1, x8
	cmp	x15, x1
	add	x8, x15, x8
	mov	x1, x20
	csel	x15, x18, xzr, hi
	csel	x8, x8, xzr, hi
	csel	x14, x14, xzr, hi
	cmp	x17, x16
	stp	x15, x8, [x29, #-120]
	csel	x18, x17, x16, lo
	subs	x18, x9, x18
	bfxil	x9, x13, #32, #32
	csel	x13, xzr, x18, lo
	subs	x16, x0, x16
	mov	x0, x19
	csel	x16, xzr, x16, lo
	subs	x9, x9, x17
	add	x8, x13, x12
	csel	x9, xzr, x9, lo
	cmp	w11, w10
	csel	w10, w11, w10, lo
	cmp	x16, x10
	csel	x10, x16, x10, lo
	cmp	x9, x10
	csel	x9, x9, x10, lo
	add	x10, x13, x4
	sub	x4, x29, #120
	cmp	x9, x13
	add	x9, x9, x12
	csel	x8, x8, xzr, hi
	csel	x9, x9, xzr, hi
	stp	x14, x8, [x29, #-104]
	csel	x8, x10, xzr, hi
	stp	x9, x8, [x29, #-88]
	bl	"pix_raster::view::blit_overlap::<#c30dc3dde8429fd7>"
	b	.LBB_9ba498_467
.LBB_9ba498_131:
	ldur	x23, [x29, #-168]
	cmp	w8, #5
	b.gt	.LBB_9ba498_302
	cmp	w8, #4
	b.ne	.LBB_9ba498_608
	cbz	w24, .LBB_9ba498_467
	sub	x8, x18, x25
	mov	x9, #4294967296
	mov	x0, #4294967296
	add	x17, x8, x9
	add	x18, x14, x9
	orr	x5, x24, #0x100000000
	cmp	x18, x17
	bfxil	x0, x13, #0, #32
	sub	x12, x12, x22
	csel	x1, x18, x17, lo
	subs	x1, x9, x1
	csel	x1, xzr, x1, lo
	subs	x17, x5, x17
	csel	x17, xzr, x17, lo
	subs	x18, x0, x18
	add	x14, x1, x14
	csel	x18, xzr, x18, lo
	cmp	w16, w15
	orr	x0, x21, #0x100000000
	csel	w15, w16, w15, lo
	add	x16, x12, x9
	cmp	x17, x15
	csel	x15, x17, x15, lo
	add	x17, x4, x9
	cmp	x18, x15
	csel	x15, x18, x15, lo
	add	x18, x1, x8
	cmp	x15, x1
	add	x8, x15, x8
	mov	x1, x20
	csel	x15, x18, xzr, hi
	csel	x8, x8, xzr, hi
	csel	x14, x14, xzr, hi
	cmp	x17, x16
	stp	x15, x8, [x29, #-120]
	csel	x18, x17, x16, lo
	subs	x18, x9, x18
	bfxil	x9, x13, #32, #32
	csel	x13, xzr, x18, lo
	subs	x16, x0, x16
	mov	x0, x19
	csel	x16, xzr, x16, lo
	subs	x9, x9, x17
	add	x8, x13, x12
	csel	x9, xzr, x9, lo
	cmp	w11, w10
	csel	w10, w11, w10, lo
	cmp	x16, x10
	csel	x10, x16, x10, lo
	cmp	x9, x10
	csel	x9, x9, x10, lo
	add	x10, x13, x4
	sub	x4, x29, #120
	cmp	x9, x13
	add	x9, x9, x12
	csel	x8, x8, xzr, hi
	csel	x9, x9, xzr, hi
	stp	x14, x8, [x29, #-104]
	csel	x8, x10, xzr, hi
	stp	x9, x8, [x29, #-88]
	bl	"pix_raster::view::blit_overlap::<#88ae0de0b3775985>"
	b	.LBB_9ba498_467
.LBB_9ba498_135:
	ldur	x23, [x29, #-168]
	cmp	w8, #5
	b.gt	.LBB_9ba498_338
	cmp	w8, #4
	b.ne	.LBB_9ba498_641
	cbz	w24, .LBB_9ba498_467
	sub	x8, x18, x25
	mov	x9, #4294967296
	mov	x0, #4294967296
	add	x17, x8, x9
	add	x18, x14, x9
	orr	x5, x24, #0x100000000
	cmp	x18, x17
	bfxil	x0, x13, #0, #32
	sub	x12, x12, x22
	csel	x1, x18, x17, lo
	subs	x1, x9, x1
	csel	x1, xzr, x1, lo
	subs	x17, x5, x17
	csel	x17, xzr, x17, lo
	subs	x18, x0, x18
	add	x14, x1, x14
	csel	x18, xzr, x18, lo
	cmp	w16, w15
	orr	x0, x21, #0x100000000
	csel	w15, w16, w15, lo
	add	x16, x12, x9
	cmp	x17, x15
	csel	x15, x17, x15, lo
	add	x17, x4, x9
	cmp	x18, x15
	csel	x15, x18, x15, lo
	add	x18, x1, x8
	cmp	x15, x1
	add	x8, x15, x8
	mov	x1, x20
	csel	x15, x18, xzr, hi
	csel	x8, x8, xzr, hi
	csel	x14, x14, xzr, hi
	cmp	x17, x16
	stp	x15, x8, [x29, #-120]
	csel	x18, x17, x16, lo
	subs	x18, x9, x18
	bfxil	x9, x13, #32, #32
	csel	x13, xzr, x18, lo
	subs	x16, x0, x16
	mov	x0, x19
	csel	x16, xzr, x16, lo
	subs	x9, x9, x17
	add	x8, x13, x12
	csel	x9, xzr, x9, lo
	cmp	w11, w10
	csel	w10, w11, w10, lo
	cmp	x16, x10
	csel	x10, x16, x10, lo
	cmp	x9, x10
	csel	x9, x9, x10, lo
	add	x10, x13, x4
	sub	x4, x29, #120
	cmp	x9, x13
	add	x9, x9, x12
	csel	x8, x8, xzr, hi
	csel	x9, x9, xzr, hi
	stp	x14, x8, [x29, #-104]
	csel	x8, x10, xzr, hi
	stp	x9, x8, [x29, #-88]
	bl	"pix_raster::view::blit_overlap::<#118c7942c1302bcc>"
	b	.LBB_9ba498_467
.LBB_9ba498_139:
	ldur	x23, [x29, #-168]
	cmp	w8, #5
	b.gt	.LBB_9ba498_360
	cmp	w8, #4
	b.ne	.LBB_9ba498_658
	cbz	w24, .LBB_9ba498_467
	sub	x8, x0, x25
	mov	x9, #4294967296
	mov	x1, #4294967296
	add	x18, x8, x9
	add	x0, x14, x9
	orr	x5, x24, #0x100000000
	cmp	x0, x18
	bfxil	x1, x13, #0, #32
	sub	x12, x12, x22
	csel	x4, x0, x18, lo
	subs	x4, x9, x4
	csel	x4, xzr, x4, lo
	subs	x18, x5, x18
	csel	x18, xzr, x18, lo
	subs	x0, x1, x0
	add	x14, x4, x14
	csel	x0, xzr, x0, lo
	cmp	w16, w15
	orr	x1, x21, #0x100000000
	csel	w15, w16, w15, lo
	add	x16, x12, x9
	cmp	x18, x15
	csel	x15, x18, x15, lo
	add	x18, x17, x9
	cmp	x0, x15
	csel	x15, x0, x15, lo
	add	x0, x4, x8
	cmp	x15, x4
	add	x8, x15, x8
	sub	x4, x29, #120
	csel	x15, x0, xzr, hi
	csel	x8, x8, xzr, hi
	csel	x14, x14, xzr, hi
	cmp	x18, x16
	stp	x15, x8, [x29, #-120]
	csel	x0, x18, x16, lo
	subs	x0, x9, x0
	bfxil	x9, x13, #32, #32
	csel	x13, xzr, x0, lo
	subs	x16, x1, x16
	mov	x0, x19
	csel	x16, xzr, x16, lo
	subs	x9, x9, x18
	add	x8, x13, x12
	csel	x9, xzr, x9, lo
	cmp	w11, w10
	mov	x1, x20
	csel	w10, w11, w10, lo
	cmp	x16, x10
	csel	x10, x16, x10, lo
	cmp	x9, x10
	csel	x9, x9, x10, lo
	add	x10, x13, x17
	cmp	x9, x13
	add	x9, x9, x12
	csel	x8, x8, xzr, hi
	csel	x9, x9, xzr, hi
	stp	x14, x8, [x29, #-104]
	csel	x8, x10, xzr, hi
	stp	x9, x8, [x29, #-88]
	bl	"pix_raster::view::blit_overlap::<#c5cfb15747d2bb36>"
	b	.LBB_9ba498_467
.LBB_9ba498_143:
	ldur	x23, [x29, #-168]
	cmp	w8, #5
	b.gt	.LBB_9ba498_396
	cmp	w8, #4
	b.ne	.LBB_9ba498_693
	cbz	w24, .LBB_9ba498_467
	sub	x8, x18, x25
	mov	x9, #4294967296
	mov	x0, #4294967296
	add	x17, x8, x9
	add	x18, x14, x9
	orr	x5, x24, #0x100000000
	cmp	x18, x17
	bfxil	x0, x13, #0, #32
	sub	x12, x12, x22
	csel	x1, x18, x17, lo
	subs	x1, x9, x1
	csel	x1, xzr, x1, lo
	subs	x17, x5, x17
	csel	x17, xzr, x17, lo
	subs	x18, x0, x18
	add	x14, x1, x14
	csel	x18, xzr, x18, lo
	cmp	w16, w15
	orr	x0, x21, #0x100000000
	csel	w15, w16, w15, lo
	add	x16, x12, x9
	cmp	x17, x15
	csel	x15, x17, x15, lo
	add	x17, x4, x9
	cmp	x18, x15
	csel	x15, x18, x15, lo
	add	x18, x1, x8
	cmp	x15, x1
	add	x8, x15, x8
	mov	x1, x20
	csel	x15, x18, xzr, hi
	csel	x8, x8, xzr, hi
	csel	x14, x14, xzr, hi
	cmp	x17, x16
	stp	x15, x8, [x29, #-120]
	csel	x18, x17, x16, lo
	subs	x18, x9, x18
	bfxil	x9, x13, #32, #32
	csel	x13, xzr, x18, lo
	subs	x16, x0, x16
	mov	x0, x19
	csel	x16, xzr, x16, lo
	subs	x9, x9, x17
	add	x8, x13, x12
	csel	x9, xzr, x9, lo
	cmp	w11, w10
	csel	w10, w11, w10, lo
	cmp	x16, x10
	csel	x10, x16, x10, lo
	cmp	x9, x10
	csel	x9, x9, x10, lo
	add	x10, x13, x4
	sub	x4, x29, #120
	cmp	x9, x13
	add	x9, x9, x12
	csel	x8, x8, xzr, hi
	csel	x9, x9, xzr, hi
	stp	x14, x8, [x29, #-104]
	csel	x8, x10, xzr, hi
	stp	x9, x8, [x29, #-88]
	bl	"pix_raster::view::blit_overlap::<#6e2ae1f4eafa75b3>"
	b	.LBB_9ba498_467
.LBB_9ba498_147:
	ldur	x23, [x29, #-168]
	cmp	w8, #5
	b.gt	.LBB_9ba498_418
	cmp	w8, #4
	b.ne	.LBB_9ba498_710
	cbz	w24, .LBB_9ba498_467
	sub	x8, x18, x25
	mov	x9, #4294967296
	mov	x0, #4294967296
	add	x17, x8, x9
	add	x18, x14, x9
	orr	x5, x24, #0x100000000
	cmp	x18, x17
	bfxil	x0, x13, #0, #32
	sub	x12, x12, x22
	csel	x1, x18, x17, lo
	subs	x1, x9, x1
	csel	x1, xzr, x1, lo
	subs	x17, x5, x17
	csel	x17, xzr, x17, lo
	subs	x18, x0, x18
	add	x14, x1, x14
	csel	x18, xzr, x18, lo
	cmp	w16, w15
	orr	x0, x21, #0x100000000
	csel	w15, w16, w15, lo
	add	x16, x12, x9
	cmp	x17, x15
	csel	x15, x17, x15, lo
	add	x17, x4, x9
	cmp	x18, x15
	csel	x15, x18, x15, lo
	add	x18, x1, x8
	cmp	x15, x1
	add	x8, x15, x8
	mov	x1, x20
	csel	x15, x18, xzr, hi
	csel	x8, x8, xzr, hi
	csel	x14, x14, xzr, hi
	cmp	x17, x16
	stp	x15, x8, [x29, #-120]
	csel	x18, x17, x16, lo
	subs	x18, x9, x18
	bfxil	x9, x13, #32, #32
	csel	x13, xzr, x18, lo
	subs	x16, x0, x16
	mov	x0, x19
	csel	x16, xzr, x16, lo
	subs	x9, x9, x17
	add	x8, x13, x12
	csel	x9, xzr, x9, lo
	cmp	w11, w10
	csel	w10, w11, w10, lo
	cmp	x16, x10
	csel	x10, x16, x10, lo
	cmp	x9, x10
	csel	x9, x9, x10, lo
	add	x10, x13, x4
	sub	x4, x29, #120
	cmp	x9, x13
	add	x9, x9, x12
	csel	x8, x8, xzr, hi
	csel	x9, x9, xzr, hi
	stp	x14, x8, [x29, #-104]
	csel	x8, x10, xzr, hi
	stp	x9, x8, [x29, #-88]
	bl	"pix_raster::view::blit_overlap::<#9ba22e131c89b739>"
	b	.LBB_9ba498_467
.LBB_9ba498_151:
	ldur	x13, [x29, #-168]
	cmp	w8, #5
	b.gt	.LBB_9ba498_440
	cmp	w8, #4
	b.ne	.LBB_9ba498_743
	cbz	w23, .LBB_9ba498_467
	sub	x8, x0, x24
	mov	x9, #4294967296
	mov	x0, #4294967296
	add	x13, x8, x9
	add	x18, x15, x9
	orr	x5, x23, #0x100000000
	cmp	x18, x13
	bfxil	x0, x14, #0, #32
	sub	x12, x12, x22
	csel	x1, x18, x13, lo
	subs	x1, x9, x1
	csel	x1, xzr, x1, lo
	subs	x13, x5, x13
	csel	x13, xzr, x13, lo
	subs	x18, x0, x18
	add	x15, x1, x15
	csel	x18, xzr, x18, lo
	cmp	w17, w16
	orr	x0, x21, #0x100000000
	csel	w16, w17, w16, lo
	add	x17, x4, x9
	cmp	x13, x16
	csel	x13, x13, x16, lo
	add	x16, x12, x9
	cmp	x18, x13
	csel	x13, x18, x13, lo
	add	x18, x1, x8
	cmp	x13, x1
	add	x8, x13, x8
	mov	x1, x20
	csel	x13, x18, xzr, hi
	csel	x8, x8, xzr, hi
	csel	x15, x15, xzr, hi
	cmp	x17, x16
	stp	x13, x8, [x29, #-120]
	csel	x18, x17, x16, lo
	subs	x18, x9, x18
	bfxil	x9, x14, #32, #32
	csel	x14, xzr, x18, lo
	subs	x16, x0, x16
	mov	x0, x19
	csel	x16, xzr, x16, lo
	subs	x9, x9, x17
	add	x8, x14, x12
	csel	x9, xzr, x9, lo
	cmp	w11, w10
	csel	w10, w11, w10, lo
	cmp	x16, x10
	csel	x10, x16, x10, lo
	cmp	x9, x10
	csel	x9, x9, x10, lo
	add	x10, x14, x4
	sub	x4, x29, #120
	cmp	x9, x14
	add	x9, x9, x12
	csel	x8, x8, xzr, hi
	csel	x9, x9, xzr, hi
	stp	x15, x8, [x29, #-104]
	csel	x8, x10, xzr, hi
	stp	x9, x8, [x29, #-88]
	bl	"pix_raster::view::blit_overlap::<#64f9c87ff7b7bdd2>"
	b	.LBB_9ba498_467
.LBB_9ba498_155:
	ldur	x0, [x29, #-168]
	cmp	w8, #5
	b.gt	.LBB_9ba498_468
	cmp	w8, #4
	b.ne	.LBB_9ba498_776
	cbz	w23, .LBB_9ba498_467
	sub	x8, x18, x24
	mov	x9, #4294967296
	mov	x0, #4294967296
	add	x17, x8, x9
	add	x18, x14, x9
	orr	x5, x23, #0x100000000
	cmp	x18, x17
	bfxil	x0, x13, #0, #32
	sub	x12, x12, x22
	csel	x1, x18, x17, lo
	subs	x1, x9, x1
	csel	x1, xzr, x1, lo
	subs	x17, x5, x17
	csel	x17, xzr, x17, lo
	subs	x18, x0, x18
	add	x14, x1, x14
	csel	x18, xzr, x18, lo
	cmp	w16, w15
	orr	x0, x21, #0x100000000
	csel	w15, w16, w15, lo
	add	x16, x12, x9
	cmp	x17, x15
	csel	x15, x17, x15, lo
	add	x17, x4, x9
	cmp	x18, x15
	csel	x15, x18, x15, lo
	add	x18, x1, x8
	cmp	x15, x1
	add	x8, x15, x8
	mov	x1, x20
	csel	x15, x18, xzr, hi
	csel	x8, x8, xzr, hi
	csel	x14, x14, xzr, hi
	cmp	x17, x16
	stp	x15, x8, [x29, #-120]
	csel	x18, x17, x16, lo
	subs	x18, x9, x18
	bfxil	x9, x13, #32, #32
	csel	x13, xzr, x18, lo
	subs	x16, x0, x16
	mov	x0, x19
	csel	x16, xzr, x16, lo
	subs	x9, x9, x17
	add	x8, x13, x12
	csel	x9, xzr, x9, lo
	cmp	w11, w10
	csel	w10, w11, w10, lo
	cmp	x16, x10
	csel	x10, x16, x10, lo
	cmp	x9, x10
	csel	x9, x9, x10, lo
	add	x10, x13, x4
	sub	x4, x29, #120
	cmp	x9, x13
	add	x9, x9, x12
	csel	x8, x8, xzr, hi
	csel	x9, x9, xzr, hi
	stp	x14, x8, [x29, #-104]
	csel	x8, x10, xzr, hi
	stp	x9, x8, [x29, #-88]
	bl	"pix_raster::view::blit_overlap::<#d408076b946df4a1>"
	b	.LBB_9ba498_467
.LBB_9ba498_159:
	cmp	w17, #2
	b.ne	.LBB_9ba498_500
	cbz	w23, .LBB_9ba498_467
	sub	x16, x16, x24
	mov	x17, #4294967296
	mov	x1, #4294967296
	add	x18, x16, x17
	add	x0, x13, x17
	orr	x4, x23, #0x100000000
	cmp	x0, x18
	bfxil	x1, x11, #0, #32
	sub	x12, x12, x22
	csel	x3, x0, x18, lo
	subs	x3, x17, x3
	csel	x3, xzr, x3, lo
	subs	x18, x4, x18
	csel	x18, xzr, x18, lo
	subs	x0, x1, x0
	add	x13, x3, x13
	csel	x0, xzr, x0, lo
	cmp	w15, w14
	orr	x1, x21, #0x100000000
	csel	w14, w15, w14, lo
	add	x15, x12, x17
	cmp	x18, x14
	csel	x14, x18, x14, lo
	add	x18, x9, x17
	cmp	x0, x14
	csel	x14, x0, x14, lo
	add	x0, x3, x16
	cmp	x14, x3
	add	x14, x14, x16
	ldur	x3, [x29, #-192]
	csel	x16, x0, xzr, hi
	csel	x14, x14, xzr, hi
	csel	x13, x13, xzr, hi
	cmp	x18, x15
	stp	x16, x14, [x29, #-120]
	csel	x0, x18, x15, lo
	subs	x0, x17, x0
	bfxil	x17, x11, #32, #32
	csel	x11, xzr, x0, lo
	subs	x15, x1, x15
	csel	x15, xzr, x15, lo
	subs	x17, x17, x18
	add	x9, x11, x9
	csel	x17, xzr, x17, lo
	cmp	w10, w8
	csel	w8, w10, w8, lo
	add	x10, x11, x12
	cmp	x15, x8
	csel	x8, x15, x8, lo
	cmp	x17, x8
	csel	x8, x17, x8, lo
	cmp	x8, x11
	add	x8, x8, x12
	csel	x10, x10, xzr, hi
	csel	x8, x8, xzr, hi
	csel	x9, x9, xzr, hi
	stp	x13, x10, [x29, #-104]
	stp	x8, x9, [x29, #-88]
	b	.LBB_9ba498_466
.LBB_9ba498_162:
	cmp	w17, #6
	b.ne	.LBB_9ba498_168
	cbz	w23, .LBB_9ba498_467
	sub	x17, x16, x24
	mov	x16, #4294967296
	mov	x5, #4294967296
	ldpsw	x18, x2, [x29, #-136]
	add	x0, x17, x16
	add	x1, x13, x16
	ldur	x13, [x29, #-152]
	cmp	x1, x0
	orr	x4, x23, #0x100000000
	mov	x6, #4294967296
	add	x18, x18, x16
	csel	x3, x1, x0, lo
	bfxil	x5, x11, #0, #32
	cmp	x18, x3
	bfxil	x6, x13, #0, #32
	csel	x3, x18, x3, lo
	subs	x3, x16, x3
	csel	x3, xzr, x3, lo
	subs	x0, x4, x0
	csel	x0, xzr, x0, lo
	subs	x1, x5, x1
	csel	x1, xzr, x1, lo
	subs	x18, x6, x18
	csel	x18, xzr, x18, lo
	cmp	w15, w14
	csel	w14, w15, w14, lo
	ldp	w4, w15, [x29, #-128]
	cmp	w4, w14
	csel	w14, w4, w14, lo
	cmp	x0, x14
	csel	x14, x0, x14, lo
	add	x0, x9, x16
	cmp	x1, x14
	csel	x14, x1, x14, lo
	cmp	x18, x14
	csel	x14, x18, x14, lo
	sub	x18, x12, x22
	add	x12, x3, x17
	add	x17, x14, x17
	cmp	x14, x3
	add	x14, x18, x16
	csel	x9, x12, xzr, hi
	csel	x12, x17, xzr, hi
	cmp	x0, x14
	add	x17, x2, x16
	csel	x1, x0, x14, lo
	mov	x2, #4294967296
	cmp	x17, x1
	orr	x3, x21, #0x100000000
	bfxil	x2, x11, #32, #32
	csel	x1, x17, x1, lo
	subs	x1, x16, x1
	bfxil	x16, x13, #32, #32
	csel	x11, xzr, x1, lo
	subs	x14, x3, x14
	csel	x13, xzr, x14, lo
	subs	x14, x2, x0
	csel	x14, xzr, x14, lo
	subs	x16, x16, x17
	csel	x16, xzr, x16, lo
	cmp	w10, w8
	csel	w8, w10, w8, lo
	add	x10, x11, x18
	cmp	w15, w8
	csel	w8, w15, w8, lo
	cmp	x13, x8
	csel	x8, x13, x8, lo
	cmp	x14, x8
	csel	x8, x14, x8, lo
	cmp	x16, x8
	csel	x8, x16, x8, lo
	add	x13, x8, x18
	cmp	x8, x11
	csel	x8, x10, xzr, hi
	csel	x10, x13, xzr, hi
	subs	x22, x10, x8
	b.ls	.LBB_9ba498_467
	sub	x21, x12, x9
	cmp	x21, #1024
	b.lo	.LBB_9ba498_800
	madd	x8, x8, x20, x9
	lsl	x20, x20, #2
	add	x19, x19, x8, lsl #2
.LBB_9ba498_167:
	mov	x0, x19
	mov	x1, x21
	bl	"pix_el::filled::clear_long::<#c0ead2364dd49755>"
	subs	x22, x22, #1
	add	x19, x19, x20
	b.ne	.LBB_9ba498_167
	b	.LBB_9ba498_467
.LBB_9ba498_168:
	cbz	w23, .LBB_9ba498_467
	sub	x16, x16, x24
	mov	x17, #4294967296
	mov	x1, #4294967296
	add	x18, x16, x17
	add	x0, x13, x17
	orr	x3, x23, #0x100000000
	cmp	x0, x18
	bfxil	x1, x11, #0, #32
	sub	x12, x12, x22
	csel	x2, x0, x18, lo
	subs	x2, x17, x2
	csel	x2, xzr, x2, lo
	subs	x18, x3, x18
	csel	x18, xzr, x18, lo
	subs	x0, x1, x0
	add	x13, x2, x13
	csel	x0, xzr, x0, lo
	cmp	w15, w14
	orr	x1, x21, #0x100000000
	csel	w14, w15, w14, lo
	add	x15, x12, x17
	cmp	x18, x14
	csel	x14, x18, x14, lo
	add	x18, x9, x17
	cmp	x0, x14
	csel	x14, x0, x14, lo
	add	x0, x2, x16
	cmp	x14, x2
	add	x14, x14, x16
	sub	x2, x29, #120
	csel	x16, x0, xzr, hi
	csel	x14, x14, xzr, hi
	csel	x13, x13, xzr, hi
	cmp	x18, x15
	stp	x16, x14, [x29, #-120]
	csel	x0, x18, x15, lo
	subs	x0, x17, x0
	bfxil	x17, x11, #32, #32
	csel	x11, xzr, x0, lo
	subs	x15, x1, x15
	mov	x0, x19
	csel	x15, xzr, x15, lo
	subs	x17, x17, x18
	add	x9, x11, x9
	csel	x17, xzr, x17, lo
	cmp	w10, w8
	mov	x1, x20
	csel	w8, w10, w8, lo
	add	x10, x11, x12
	cmp	x15, x8
	csel	x8, x15, x8, lo
	cmp	x17, x8
	csel	x8, x17, x8, lo
	cmp	x8, x11
	add	x8, x8, x12
	csel	x10, x10, xzr, hi
	csel	x8, x8, xzr, hi
	csel	x9, x9, xzr, hi
	stp	x13, x10, [x29, #-104]
	stp	x8, x9, [x29, #-88]
	bl	"pix_raster::view::blit_overlap::<#07c05c7fae9ce56d>"
	b	.LBB_9ba498_467
.LBB_9ba498_170:
	cmp	w8, #2
	b.eq	.LBB_9ba498_300
	cbz	w24, .LBB_9ba498_467
	sub	x8, x18, x25
	mov	x9, #4294967296
	orr	x14, x24, #0x100000000
	add	x8, x8, x9
	mov	x11, #-4294967296
	cmp	x8, x9
	add	x15, x8, x15
	csel	x13, x8, x9, hi
	cmp	x14, x15
	sub	x8, x12, x22
	csel	x14, x14, x15, lo
	add	x12, x13, x11
	add	x15, x8, x9
	cmp	x14, x13
	add	x10, x15, x10
	csel	x8, x12, xzr, hi
	cmp	x15, x9
	orr	x12, x21, #0x100000000
	csel	x9, x15, x9, hi
	cmp	x12, x10
	csel	x10, x12, x10, lo
	add	x12, x9, x11
	cmp	x10, x9
	csel	x9, x12, xzr, hi
	b.ls	.LBB_9ba498_467
	add	x10, x10, x11
	cmp	x10, x9
	b.ls	.LBB_9ba498_467
	ldr	w3, [x2]
	adrp	x12, .LCPI_9ba498_12
	cmp	x14, x13
	ldr	q1, [x12, :lo12:.LCPI_9ba498_12]
	mov	x12, #-4294967296
	madd	x0, x9, x20, x8
	fmov	s0, w3
	lsr	w11, w3, #16
	add	x12, x14, x12
	csel	x12, x12, xzr, hi
	lsl	x2, x20, #2
	sub	x12, x12, x8
	mov	v0.s[1], w3
	lsl	x18, x12, #2
	and	x14, x12, #0xfffffffffffffff0
	lsr	x1, x14, #4
	add	x6, x19, x0, lsl #2
	lsr	x13, x12, #4
	and	x5, x18, #0x30
	lsl	x16, x14, #2
	ubfx	w0, w3, #8, #8
	bfi	x5, x1, #6, #58
	ubfx	w1, w3, #16, #8
	and	x15, x12, #0xf
	mov	v0.s[2], w11
	lsr	w11, w3, #24
	and	x17, x18, #0x20
	and	x18, x12, #0xc
	and	w3, w3, #0xff
	add	x4, x6, #32
	add	x5, x6, x5
	mov	v0.s[3], w11
	ushl	v0.4s, v0.4s, v1.4s
	uzp1	v0.8h, v0.8h, v0.8h
	uzp1	v0.16b, v0.16b, v0.16b
	ushr	v1.8h, v0.8h, #8
	bic	v0.8h, #255, lsl #8
	b	.LBB_9ba498_176
.LBB_9ba498_175:
	add	x9, x9, #1
	add	x4, x4, x2
	add	x5, x5, x2
	cmp	x9, x10
	b.eq	.LBB_9ba498_467
.LBB_9ba498_176:
	cbz	x13, .LBB_9ba498_179
	mov	x6, x4
	mov	x7, x13
.LBB_9ba498_178:
	ldp	q2, q3, [x6, #-32]
	adrp	x21, .LCPI_9ba498_8
	ldp	q4, q5, [x6]
	movi	v7.8h, #128
	ldr	q6, [x21, :lo12:.LCPI_9ba498_8]
	movi	v16.8h, #128
	movi	v17.8h, #128
	mvn	v2.16b, v2.16b
	mvn	v3.16b, v3.16b
	movi	v18.8h, #128
	mvn	v4.16b, v4.16b
	mvn	v5.16b, v5.16b
	movi	v19.16b, #1
	movi	v20.8h, #128
	movi	v21.8h, #128
	movi	v22.8h, #128
	ushr	v2.4s, v2.4s, #24
	ushr	v3.4s, v3.4s, #24
	adrp	x21, .LCPI_9ba498_0
	ushr	v4.4s, v4.4s, #24
	ushr	v5.4s, v5.4s, #24
	ldr	q23, [x21, :lo12:.LCPI_9ba498_0]
	subs	x7, x7, #1
	tbl	v2.16b, { v2.16b }, v6.16b
	tbl	v3.16b, { v3.16b }, v6.16b
	tbl	v4.16b, { v4.16b }, v6.16b
	tbl	v5.16b, { v5.16b }, v6.16b
	movi	v6.8h, #128
	mla	v7.8h, v1.8h, v2.8h
	mla	v16.8h, v1.8h, v3.8h
	mla	v20.8h, v0.8h, v3.8h
	mla	v17.8h, v1.8h, v4.8h
	mla	v18.8h, v1.8h, v5.8h
	mla	v6.8h, v0.8h, v2.8h
	mla	v21.8h, v0.8h, v4.8h
	mla	v22.8h, v0.8h, v5.8h
	umull2	v2.4s, v7.8h, v19.8h
	umull	v7.4s, v7.4h, v19.4h
	umull2	v3.4s, v16.8h, v19.8h
	umull	v16.4s, v16.4h, v19.4h
	umull2	v4.4s, v17.8h, v19.8h
	umull	v17.4s, v17.4h, v19.4h
	umull2	v5.4s, v18.8h, v19.8h
	umull	v18.4s, v18.4h, v19.4h
	umull2	v24.4s, v6.8h, v19.8h
	umull	v6.4s, v6.4h, v19.4h
	uzp2	v2.8h, v7.8h, v2.8h
	umull2	v7.4s, v20.8h, v19.8h
	umull	v20.4s, v20.4h, v19.4h
	uzp2	v3.8h, v16.8h, v3.8h
	umull2	v16.4s, v21.8h, v19.8h
	umull	v21.4s, v21.4h, v19.4h
	uzp2	v4.8h, v17.8h, v4.8h
	umull2	v17.4s, v22.8h, v19.8h
	umull	v19.4s, v22.4h, v19.4h
	uzp2	v5.8h, v18.8h, v5.8h
	uzp2	v6.8h, v6.8h, v24.8h
	tbl	v2.16b, { v2.16b }, v23.16b
	uzp2	v7.8h, v20.8h, v7.8h
	tbl	v3.16b, { v3.16b }, v23.16b
	uzp2	v16.8h, v21.8h, v16.8h
	tbl	v4.16b, { v4.16b }, v23.16b
	uzp2	v17.8h, v19.8h, v17.8h
	tbl	v5.16b, { v5.16b }, v23.16b
	orr	v2.16b, v2.16b, v6.16b
	orr	v3.16b, v3.16b, v7.16b
	orr	v4.16b, v4.16b, v16.16b
	orr	v5.16b, v5.16b, v17.16b
	stp	q2, q3, [x6, #-32]
	stp	q4, q5, [x6], #64
	b.ne	.LBB_9ba498_178
.LBB_9ba498_179:
	cmp	x14, x12
	b.eq	.LBB_9ba498_175
	mul	x6, x9, x20
	add	x6, x6, x8
	add	x6, x19, x6, lsl #2
	add	x6, x6, x16
	tbnz	w12, #3, .LBB_9ba498_183
	tbnz	w12, #2, .LBB_9ba498_184
.LBB_9ba498_182:
	cmp	x15, x18
	b.ls	.LBB_9ba498_175
	b	.LBB_9ba498_185
.LBB_9ba498_183:
	ldp	q2, q3, [x6]
	adrp	x7, .LCPI_9ba498_8
	ldr	q4, [x7, :lo12:.LCPI_9ba498_8]
	movi	v5.8h, #128
	movi	v6.8h, #128
	movi	v7.8h, #128
	movi	v16.16b, #1
	adrp	x7, .LCPI_9ba498_0
	mvn	v2.16b, v2.16b
	mvn	v3.16b, v3.16b
	ushr	v2.4s, v2.4s, #24
	ushr	v3.4s, v3.4s, #24
	tbl	v2.16b, { v2.16b }, v4.16b
	tbl	v3.16b, { v3.16b }, v4.16b
	movi	v4.8h, #128
	mla	v5.8h, v1.8h, v2.8h
	mla	v6.8h, v1.8h, v3.8h
	mla	v4.8h, v0.8h, v2.8h
	mla	v7.8h, v0.8h, v3.8h
	umull2	v2.4s, v5.8h, v16.8h
	umull	v3.4s, v5.4h, v16.4h
	umull2	v5.4s, v6.8h, v16.8h
	umull	v6.4s, v6.4h, v16.4h
	umull2	v17.4s, v4.8h, v16.8h
	umull	v4.4s, v4.4h, v16.4h
	uzp2	v2.8h, v3.8h, v2.8h
	umull2	v3.4s, v7.8h, v16.8h
	umull	v7.4s, v7.4h, v16.4h
	uzp2	v5.8h, v6.8h, v5.8h
	ldr	q6, [x7, :lo12:.LCPI_9ba498_0]
	uzp2	v4.8h, v4.8h, v17.8h
	tbl	v2.16b, { v2.16b }, v6.16b
	uzp2	v3.8h, v7.8h, v3.8h
	tbl	v5.16b, { v5.16b }, v6.16b
	orr	v2.16b, v2.16b, v4.16b
	orr	v3.16b, v5.16b, v3.16b
	stp	q2, q3, [x6]
	tbz	w12, #2, .LBB_9ba498_182
.LBB_9ba498_184:
	ldr	q2, [x6, x17]
	adrp	x7, .LCPI_9ba498_9
	movi	v5.8h, #128
	ldr	q3, [x7, :lo12:.LCPI_9ba498_9]
	movi	v6.16b, #1
	adrp	x7, .LCPI_9ba498_0
	mvn	v2.16b, v2.16b
	ushr	v2.4s, v2.4s, #24
	tbl	v2.16b, { v2.16b }, v3.16b
	movi	v3.8h, #128
	ushr	v4.8h, v2.8h, #8
	bic	v2.8h, #255, lsl #8
	mla	v3.8h, v4.8h, v1.8h
	mla	v5.8h, v2.8h, v0.8h
	umull2	v2.4s, v3.8h, v6.8h
	umull	v3.4s, v3.4h, v6.4h
	umull2	v4.4s, v5.8h, v6.8h
	umull	v5.4s, v5.4h, v6.4h
	uzp2	v2.8h, v3.8h, v2.8h
	ldr	q3, [x7, :lo12:.LCPI_9ba498_0]
	uzp2	v4.8h, v5.8h, v4.8h
	tbl	v2.16b, { v2.16b }, v3.16b
	orr	v2.16b, v2.16b, v4.16b
	str	q2, [x6, x17]
	cmp	x15, x18
	b.ls	.LBB_9ba498_175
.LBB_9ba498_185:
	mov	x6, x5
	sub	x7, x15, x18
.LBB_9ba498_186:
	ldrb	w21, [x6, #3]
	mov	w22, #128
	subs	x7, x7, #1
	eor	w21, w21, #0xff
	madd	w23, w1, w21, w22
	madd	w24, w21, w11, w22
	madd	w26, w0, w21, w22
	and	w25, w23, #0xff00
	madd	w21, w3, w21, w22
	add	w23, w23, w25, lsr #8
	and	w25, w24, #0xff00
	add	w24, w24, w25, lsr #8
	lsl	w23, w23, #8
	lsr	w22, w24, #8
	and	w24, w26, #0xff00
	and	w23, w23, #0xff0000
	add	w24, w26, w24, lsr #8
	bfi	w23, w22, #24, #8
	and	w22, w21, #0xff00
	add	w21, w21, w22, lsr #8
	bfxil	w23, w24, #0, #16
	bfxil	w23, w21, #8, #8
	str	w23, [x6], #4
	b.ne	.LBB_9ba498_186
	b	.LBB_9ba498_175
.LBB_9ba498_187:
	cmp	w8, #6
	b.ne	.LBB_9ba498_521
	cbz	w24, .LBB_9ba498_467
	sub	x6, x18, x25
	mov	x18, #4294967296
	ldur	x27, [x29, #-152]
	ldpsw	x1, x0, [x29, #-136]
	add	x5, x6, x18
	add	x7, x14, x18
	mov	x28, #4294967296
	cmp	x7, x5
	orr	x24, x24, #0x100000000
	bfxil	x28, x13, #0, #32
	add	x26, x1, x18
	csel	x25, x7, x5, lo
	mov	x30, #4294967296
	cmp	x26, x25
	bfxil	x30, x27, #0, #32
	mov	x17, xzr
	csel	x25, x26, x25, lo
	str	xzr, [sp, #80]
	subs	x25, x18, x25
	str	xzr, [sp, #64]
	csel	x25, xzr, x25, lo
	subs	x5, x24, x5
	csel	x5, xzr, x5, lo
	subs	x7, x28, x7
	csel	x7, xzr, x7, lo
	subs	x24, x30, x26
	csel	x24, xzr, x24, lo
	cmp	w16, w15
	csel	w16, w16, w15, lo
	ldp	w26, w15, [x29, #-128]
	cmp	w26, w16
	csel	w16, w26, w16, lo
	cmp	x5, x16
	csel	x16, x5, x16, lo
	mov	x5, xzr
	cmp	x7, x16
	csel	x16, x7, x16, lo
	lsr	x7, x27, #32
	cmp	x24, x16
	csel	x16, x24, x16, lo
	lsr	x24, x13, #32
	cmp	x16, x25
	b.ls	.LBB_9ba498_191
	add	x8, x25, x6
	add	x17, x16, x6
	add	x5, x25, x1
	str	x8, [sp, #80]
	add	x8, x25, x14
	str	x8, [sp, #64]
.LBB_9ba498_191:
	sub	x12, x12, x22
	add	x16, x4, x18
	add	x13, x0, x18
	add	x14, x12, x18
	orr	x6, x24, #0x100000000
	orr	x7, x7, #0x100000000
	cmp	x16, x14
	csel	x1, x16, x14, lo
	cmp	x13, x1
	csel	x1, x13, x1, lo
	subs	x18, x18, x1
	orr	x1, x21, #0x100000000
	csel	x18, xzr, x18, lo
	subs	x1, x1, x14
	csel	x1, xzr, x1, lo
	subs	x6, x6, x16
	csel	x6, xzr, x6, lo
	subs	x7, x7, x13
	csel	x7, xzr, x7, lo
	cmp	w11, w10
	csel	w10, w11, w10, lo
	cmp	w15, w10
	csel	w10, w15, w10, lo
	cmp	x1, x10
	csel	x10, x1, x10, lo
	cmp	x6, x10
	csel	x10, x6, x10, lo
	cmp	x7, x10
	csel	x11, x7, x10, lo
	cmp	x11, x18
	b.ls	.LBB_9ba498_467
	add	x8, x18, x12
	add	x11, x11, x12
	cmp	x8, x11
	str	x8, [sp, #48]
	b.hs	.LBB_9ba498_467
	cmp	x14, x16
	mov	x6, #4294967296
	add	x8, x18, x4
	csel	x14, x14, x16, lo
	str	x8, [sp, #32]
	add	x8, x18, x0
	cmp	x14, x13
	ldr	x28, [sp, #48]
	str	x8, [sp, #16]
	csel	x13, x14, x13, lo
	add	x8, x23, x5
	ldur	x12, [x29, #-144]
	cmp	x13, x6
	str	x8, [sp, #8]
	ldr	x8, [sp, #80]
	csel	x7, x13, x6, lo
	mul	x14, x20, x28
	ldr	x9, [sp, #64]
	sub	x21, x4, x7
	sub	x0, x0, x7
	sub	x16, x17, x8
	add	x21, x21, x6
	add	x0, x0, x6
	and	x1, x16, #0xfffffffffffffff0
	mul	x25, x3, x21
	lsl	x26, x16, #2
	lsl	x24, x8, #2
	lsl	x7, x1, #2
	lsl	x22, x9, #2
	and	x9, x16, #0xc
	madd	x0, x12, x0, x5
	and	x26, x26, #0x30
	lsl	x14, x14, #2
	add	x5, x24, x19
	add	x26, x7, x26
	and	x8, x16, #0x8
	add	x6, x22, x2
	add	x27, x1, x9
	add	x22, x26, x22
	lsl	x25, x25, #2
	add	x24, x26, x24
	add	x5, x14, x5
	lsl	x17, x3, #2
	lsl	x18, x20, #2
	lsr	x13, x16, #4
	lsl	x8, x8, #2
	add	x27, x23, x27
	add	x26, x2, x22
	add	x24, x19, x24
	add	x22, x5, #32
	add	x5, x0, x23
	add	x6, x25, x6
	and	x4, x16, #0xf
	add	x23, x27, x0
	add	x5, x5, #8
	add	x6, x6, #32
	add	x26, x26, x25
	add	x27, x24, x14
	str	x8, [sp]
	b	.LBB_9ba498_195
.LBB_9ba498_194:
	add	x28, x28, #1
	add	x5, x5, x12
	add	x6, x6, x17
	add	x22, x22, x18
	cmp	x28, x11
	add	x23, x23, x12
	add	x26, x26, x17
	add	x27, x27, x18
	b.eq	.LBB_9ba498_467
.LBB_9ba498_195:
	cbz	x13, .LBB_9ba498_198
	mov	x30, x22
	mov	x25, x6
	mov	x24, x5
	mov	x0, x13
.LBB_9ba498_197:
	ldur	d0, [x24, #-8]
	movi	v1.8h, #1
	movi	v5.8h, #128
	ldp	q3, q6, [x25, #-32]
	movi	v17.8h, #128
	zip1	v0.16b, v0.16b, v0.16b
	movi	v16.8h, #128
	movi	v18.8h, #128
	adrp	x14, .LCPI_9ba498_8
	subs	x0, x0, #1
	ushr	v19.8h, v6.8h, #8
	bic	v6.8h, #255, lsl #8
	ushll	v2.4s, v0.4h, #0
	ushll2	v0.4s, v0.8h, #0
	mul	v2.4s, v2.4s, v1.4s
	mul	v4.4s, v0.4s, v1.4s
	ushr	v0.8h, v3.8h, #8
	bic	v3.8h, #255, lsl #8
	ushr	v7.8h, v2.8h, #8
	ushr	v20.8h, v4.8h, #8
	bic	v2.8h, #255, lsl #8
	bic	v4.8h, #255, lsl #8
	mla	v5.8h, v7.8h, v0.8h
	movi	v0.16b, #1
	mla	v17.8h, v20.8h, v19.8h
	mla	v18.8h, v2.8h, v3.8h
	mla	v16.8h, v4.8h, v6.8h
	movi	v19.8h, #128
	umull2	v2.4s, v5.8h, v0.8h
	umull	v3.4s, v5.4h, v0.4h
	umull2	v4.4s, v17.8h, v0.8h
	umull	v5.4s, v17.4h, v0.4h
	umull2	v6.4s, v18.8h, v0.8h
	umull	v7.4s, v18.4h, v0.4h
	movi	v18.8h, #128
	uzp2	v2.8h, v3.8h, v2.8h
	umull2	v3.4s, v16.8h, v0.8h
	umull	v16.4s, v16.4h, v0.4h
	uzp2	v4.8h, v5.8h, v4.8h
	ldp	q5, q17, [x30, #-32]
	uzp2	v6.8h, v7.8h, v6.8h
	mvn	v5.16b, v5.16b
	rev16	v7.16b, v2.16b
	mvn	v17.16b, v17.16b
	uzp2	v3.8h, v16.8h, v3.8h
	rev16	v4.16b, v4.16b
	ldr	q2, [x14, :lo12:.LCPI_9ba498_8]
	adrp	x14, .LCPI_9ba498_0
	ushr	v5.4s, v5.4s, #24
	ushr	v16.4s, v17.4s, #24
	movi	v17.8h, #128
	orr	v7.16b, v7.16b, v6.16b
	orr	v4.16b, v4.16b, v3.16b
	tbl	v5.16b, { v5.16b }, v2.16b
	tbl	v16.16b, { v16.16b }, v2.16b
	ushr	v7.8h, v7.8h, #8
	ushr	v4.8h, v4.8h, #8
	mla	v17.8h, v7.8h, v5.8h
	movi	v7.8h, #128
	mla	v19.8h, v5.8h, v6.8h
	mla	v18.8h, v4.8h, v16.8h
	umull2	v4.4s, v17.8h, v0.8h
	umull	v5.4s, v17.4h, v0.4h
	mla	v7.8h, v16.8h, v3.8h
	umull2	v3.4s, v18.8h, v0.8h
	umull	v6.4s, v18.4h, v0.4h
	umull2	v16.4s, v19.8h, v0.8h
	umull	v17.4s, v19.4h, v0.4h
	movi	v18.8h, #128
	uzp2	v4.8h, v5.8h, v4.8h
	umull2	v5.4s, v7.8h, v0.8h
	umull	v7.4s, v7.4h, v0.4h
	uzp2	v6.8h, v6.8h, v3.8h
	ldr	q3, [x14, :lo12:.LCPI_9ba498_0]
	uzp2	v16.8h, v17.8h, v16.8h
	tbl	v4.16b, { v4.16b }, v3.16b
	uzp2	v5.8h, v7.8h, v5.8h
	movi	v7.8h, #128
	tbl	v6.16b, { v6.16b }, v3.16b
	orr	v4.16b, v4.16b, v16.16b
	orr	v5.16b, v6.16b, v5.16b
	stp	q4, q5, [x30, #-32]
	ldr	d4, [x24], #16
	zip1	v4.16b, v4.16b, v4.16b
	ushll	v5.4s, v4.4h, #0
	ushll2	v4.4s, v4.8h, #0
	mul	v5.4s, v5.4s, v1.4s
	mul	v1.4s, v4.4s, v1.4s
	ldp	q6, q4, [x25], #64
	ushr	v16.8h, v6.8h, #8
	ushr	v17.8h, v5.8h, #8
	ushr	v19.8h, v4.8h, #8
	ushr	v20.8h, v1.8h, #8
	bic	v6.8h, #255, lsl #8
	bic	v5.8h, #255, lsl #8
	bic	v4.8h, #255, lsl #8
	bic	v1.8h, #255, lsl #8
	mla	v7.8h, v17.8h, v16.8h
	movi	v16.8h, #128
	movi	v17.8h, #128
	mla	v18.8h, v20.8h, v19.8h
	mla	v17.8h, v5.8h, v6.8h
	umull2	v5.4s, v7.8h, v0.8h
	umull	v6.4s, v7.4h, v0.4h
	mla	v16.8h, v1.8h, v4.8h
	umull2	v1.4s, v18.8h, v0.8h
	umull	v4.4s, v18.4h, v0.4h
	umull2	v7.4s, v17.8h, v0.8h
	umull	v17.4s, v17.4h, v0.4h
	uzp2	v5.8h, v6.8h, v5.8h
	umull2	v6.4s, v16.8h, v0.8h
	umull	v16.4s, v16.4h, v0.4h
	uzp2	v1.8h, v4.8h, v1.8h
	ldp	q4, q18, [x30]
	uzp2	v7.8h, v17.8h, v7.8h
	rev16	v5.16b, v5.16b
	mvn	v4.16b, v4.16b
	mvn	v17.16b, v18.16b
	uzp2	v6.8h, v16.8h, v6.8h
	rev16	v1.16b, v1.16b
	movi	v18.8h, #128
	ushr	v4.4s, v4.4s, #24
	ushr	v16.4s, v17.4s, #24
	orr	v5.16b, v5.16b, v7.16b
	movi	v17.8h, #128
	orr	v1.16b, v1.16b, v6.16b
	tbl	v4.16b, { v4.16b }, v2.16b
	tbl	v2.16b, { v16.16b }, v2.16b
	ushr	v5.8h, v5.8h, #8
	movi	v16.8h, #128
	ushr	v1.8h, v1.8h, #8
	mla	v17.8h, v5.8h, v4.8h
	movi	v5.8h, #128
	mla	v18.8h, v1.8h, v2.8h
	mla	v16.8h, v4.8h, v7.8h
	umull2	v1.4s, v17.8h, v0.8h
	umull	v4.4s, v17.4h, v0.4h
	mla	v5.8h, v2.8h, v6.8h
	umull2	v2.4s, v18.8h, v0.8h
	umull	v6.4s, v18.4h, v0.4h
	umull2	v7.4s, v16.8h, v0.8h
	umull	v16.4s, v16.4h, v0.4h
	uzp2	v1.8h, v4.8h, v1.8h
	umull2	v4.4s, v5.8h, v0.8h
	umull	v0.4s, v5.4h, v0.4h
	uzp2	v2.8h, v6.8h, v2.8h
	uzp2	v5.8h, v16.8h, v7.8h
	tbl	v1.16b, { v1.16b }, v3.16b
	uzp2	v0.8h, v0.8h, v4.8h
	tbl	v2.16b, { v2.16b }, v3.16b
	orr	v1.16b, v1.16b, v5.16b
	orr	v0.16b, v2.16b, v0.16b
	stp	q1, q0, [x30], #64
	b.ne	.LBB_9ba498_197
.LBB_9ba498_198:
	cmp	x1, x16
	b.eq	.LBB_9ba498_194
	ldr	x8, [sp, #80]
	madd	x14, x28, x20, x8
	ldr	x8, [sp, #48]
	sub	x0, x28, x8
	ldr	x8, [sp, #32]
	add	x24, x8, x0
	ldr	x8, [sp, #64]
	add	x14, x19, x14, lsl #2
	madd	x24, x24, x3, x8
	ldr	x8, [sp, #16]
	add	x0, x8, x0
	ldr	x8, [sp, #8]
	madd	x25, x0, x12, x8
	add	x0, x14, x7
	and	x8, x16, #0x8
	add	x24, x2, x24, lsl #2
	add	x24, x24, x7
	add	x25, x25, x1
	cbnz	x8, .LBB_9ba498_202
	tbnz	w16, #2, .LBB_9ba498_203
.LBB_9ba498_201:
	and	x8, x16, #0xc
	cmp	x8, x4
	b.eq	.LBB_9ba498_194
	b	.LBB_9ba498_204
.LBB_9ba498_202:
	ldr	d0, [x25]
	movi	v1.8h, #1
	movi	v5.8h, #128
	ldp	q3, q4, [x24]
	movi	v6.8h, #128
	zip1	v0.16b, v0.16b, v0.16b
	movi	v18.8h, #128
	adrp	x14, .LCPI_9ba498_8
	ushr	v16.8h, v4.8h, #8
	bic	v4.8h, #255, lsl #8
	ushll	v2.4s, v0.4h, #0
	ushll2	v0.4s, v0.8h, #0
	mul	v2.4s, v2.4s, v1.4s
	mul	v1.4s, v0.4s, v1.4s
	ushr	v0.8h, v3.8h, #8
	bic	v3.8h, #255, lsl #8
	ushr	v7.8h, v2.8h, #8
	ushr	v17.8h, v1.8h, #8
	bic	v2.8h, #255, lsl #8
	bic	v1.8h, #255, lsl #8
	mla	v5.8h, v7.8h, v0.8h
	movi	v7.8h, #128
	mla	v6.8h, v17.8h, v16.8h
	movi	v0.16b, #1
	mla	v18.8h, v2.8h, v3.8h
	movi	v17.8h, #128
	mla	v7.8h, v1.8h, v4.8h
	umull2	v2.4s, v5.8h, v0.8h
	umull	v3.4s, v5.4h, v0.4h
	umull2	v1.4s, v6.8h, v0.8h
	umull	v4.4s, v6.4h, v0.4h
	umull2	v5.4s, v18.8h, v0.8h
	umull	v6.4s, v18.4h, v0.4h
	uzp2	v2.8h, v3.8h, v2.8h
	umull2	v3.4s, v7.8h, v0.8h
	umull	v7.4s, v7.4h, v0.4h
	uzp2	v1.8h, v4.8h, v1.8h
	ldp	q4, q16, [x0]
	uzp2	v5.8h, v6.8h, v5.8h
	mvn	v4.16b, v4.16b
	rev16	v2.16b, v2.16b
	mvn	v6.16b, v16.16b
	uzp2	v3.8h, v7.8h, v3.8h
	rev16	v1.16b, v1.16b
	ldr	q7, [x14, :lo12:.LCPI_9ba498_8]
	movi	v16.8h, #128
	adrp	x14, .LCPI_9ba498_0
	ushr	v4.4s, v4.4s, #24
	ushr	v6.4s, v6.4s, #24
	orr	v2.16b, v2.16b, v5.16b
	orr	v1.16b, v1.16b, v3.16b
	tbl	v4.16b, { v4.16b }, v7.16b
	tbl	v6.16b, { v6.16b }, v7.16b
	movi	v7.8h, #128
	ushr	v2.8h, v2.8h, #8
	ushr	v1.8h, v1.8h, #8
	mla	v16.8h, v2.8h, v4.8h
	movi	v2.8h, #128
	mla	v7.8h, v4.8h, v5.8h
	mla	v17.8h, v1.8h, v6.8h
	umull2	v1.4s, v16.8h, v0.8h
	umull	v4.4s, v16.4h, v0.4h
	mla	v2.8h, v6.8h, v3.8h
	umull2	v3.4s, v17.8h, v0.8h
	umull	v5.4s, v17.4h, v0.4h
	umull2	v6.4s, v7.8h, v0.8h
	umull	v7.4s, v7.4h, v0.4h
	uzp2	v1.8h, v4.8h, v1.8h
	umull2	v4.4s, v2.8h, v0.8h
	umull	v0.4s, v2.4h, v0.4h
	uzp2	v2.8h, v5.8h, v3.8h
	ldr	q3, [x14, :lo12:.LCPI_9ba498_0]
	uzp2	v5.8h, v7.8h, v6.8h
	tbl	v1.16b, { v1.16b }, v3.16b
	uzp2	v0.8h, v0.8h, v4.8h
	tbl	v2.16b, { v2.16b }, v3.16b
	orr	v1.16b, v1.16b, v5.16b
	orr	v0.16b, v2.16b, v0.16b
	stp	q1, q0, [x0]
	tbz	w16, #2, .LBB_9ba498_201
.LBB_9ba498_203:
	adrp	x14, .LCPI_9ba498_1
	and	x8, x16, #0x8
	movi	v2.8h, #128
	ldr	s0, [x25, x8]
	ldr	q1, [x14, :lo12:.LCPI_9ba498_1]
	ldr	x8, [sp]
	movi	v5.8h, #128
	movi	v6.16b, #1
	adrp	x14, .LCPI_9ba498_9
	tbl	v0.16b, { v0.16b }, v1.16b
	ldr	q1, [x24, x8]
	ushr	v4.8h, v1.8h, #8
	bic	v1.8h, #255, lsl #8
	ushr	v3.8h, v0.8h, #8
	bic	v0.8h, #255, lsl #8
	mla	v2.8h, v3.8h, v4.8h
	mla	v5.8h, v0.8h, v1.8h
	ldr	q4, [x0, x8]
	umull2	v0.4s, v2.8h, v6.8h
	umull	v1.4s, v2.4h, v6.4h
	umull2	v2.4s, v5.8h, v6.8h
	umull	v3.4s, v5.4h, v6.4h
	movi	v5.8h, #128
	uzp2	v0.8h, v1.8h, v0.8h
	mvn	v1.16b, v4.16b
	uzp2	v2.8h, v3.8h, v2.8h
	ldr	q3, [x14, :lo12:.LCPI_9ba498_9]
	adrp	x14, .LCPI_9ba498_0
	ushr	v1.4s, v1.4s, #24
	rev16	v0.16b, v0.16b
	tbl	v1.16b, { v1.16b }, v3.16b
	movi	v3.8h, #128
	orr	v0.16b, v0.16b, v2.16b
	ushr	v4.8h, v1.8h, #8
	bic	v1.8h, #255, lsl #8
	ushr	v0.8h, v0.8h, #8
	mla	v5.8h, v1.8h, v2.8h
	mla	v3.8h, v0.8h, v4.8h
	umull2	v2.4s, v5.8h, v6.8h
	umull2	v0.4s, v3.8h, v6.8h
	umull	v1.4s, v3.4h, v6.4h
	umull	v3.4s, v5.4h, v6.4h
	uzp2	v0.8h, v1.8h, v0.8h
	ldr	q1, [x14, :lo12:.LCPI_9ba498_0]
	uzp2	v2.8h, v3.8h, v2.8h
	tbl	v0.16b, { v0.16b }, v1.16b
	orr	v0.16b, v0.16b, v2.16b
	str	q0, [x0, x8]
	and	x8, x16, #0xc
	cmp	x8, x4
	b.eq	.LBB_9ba498_194
.LBB_9ba498_204:
	mov	x0, x27
	mov	x24, x26
	mov	x25, x23
	and	x30, x16, #0xc
.LBB_9ba498_205:
	ldr	w14, [x24], #4
	adrp	x15, .LCPI_9ba498_2
	ldr	d1, [x15, :lo12:.LCPI_9ba498_2]
	ldrb	w15, [x25], #1
	dup	v0.2s, w14
	ldrb	w9, [x0, #3]
	movi	v2.2s, #128
	adrp	x10, .LCPI_9ba498_15
	ubfx	w8, w14, #8, #8
	and	w14, w14, #0xff
	eor	w9, w9, #0xff
	add	x30, x30, #1
	cmp	x30, x4
	ushl	v0.2s, v0.2s, v1.2s
	mov	s1, v0.s[1]
	str	h0, [sp, #140]
	str	h1, [sp, #142]
	dup	v1.2s, w15
	ldr	s0, [sp, #140]
	zip1	v0.8b, v0.8b, v0.8b
	mov	v0.h[1], wzr
	uzp1	v0.8b, v0.8b, v0.8b
	ushll	v0.4s, v0.4h, #0
	mla	v2.2s, v0.2s, v1.2s
	movi	d0, #0x00ffff0000ffff
	and	v1.8b, v2.8b, v0.8b
	usra	v2.2s, v1.2s, #8
	movi	v1.2s, #128
	and	v0.8b, v2.8b, v0.8b
	dup	v2.2s, w9
	ushr	v0.2s, v0.2s, #8
	mla	v1.2s, v0.2s, v2.2s
	movi	d2, #0xff000000ffff0000
	fmov	d0, d1
	bic	v0.2s, #1, lsl #16
	usra	v1.2s, v0.2s, #8
	ldr	d0, [x10, :lo12:.LCPI_9ba498_15]
	mov	w10, #128
	madd	w8, w8, w15, w10
	madd	w14, w14, w15, w10
	bic	v1.2s, #3, lsl #16
	and	w15, w8, #0xff00
	and	w21, w14, #0xff00
	add	w8, w8, w15, lsr #8
	ushl	v0.2s, v1.2s, v0.2s
	add	w14, w14, w21, lsr #8
	ubfx	w8, w8, #8, #8
	ubfx	w14, w14, #8, #8
	and	v0.8b, v0.8b, v2.8b
	madd	w8, w8, w9, w10
	madd	w9, w14, w9, w10
	dup	v1.2s, v0.s[1]
	and	w10, w8, #0xff00
	and	w14, w9, #0xff00
	add	w8, w8, w10, lsr #8
	add	w9, w9, w14, lsr #8
	and	w8, w8, #0xff00
	orr	v0.8b, v0.8b, v1.8b
	and	w9, w9, #0xff00
	fmov	w10, s0
	orr	w8, w10, w8
	orr	w8, w8, w9, lsr #8
	str	w8, [x0], #4
	b.lo	.LBB_9ba498_205
	b	.LBB_9ba498_194
.LBB_9ba498_206:
	cmp	w8, #2
	b.ne	.LBB_9ba498_538
	cbnz	w24, .LBB_9ba498_359
	b	.LBB_9ba498_467
.LBB_9ba498_208:
	cmp	w8, #6
	b.ne	.LBB_9ba498_554
	cbz	w24, .LBB_9ba498_467
	sub	x5, x0, x25
	mov	x0, #4294967296
	ldur	x27, [x29, #-152]
	ldpsw	x4, x1, [x29, #-136]
	add	x6, x5, x0
	add	x7, x14, x0
	mov	x28, #4294967296
	cmp	x7, x6
	orr	x30, x24, #0x100000000
	bfxil	x28, x13, #0, #32
	add	x25, x4, x0
	csel	x26, x7, x6, lo
	mov	x9, #4294967296
	cmp	x25, x26
	bfxil	x9, x27, #0, #32
	mov	x18, xzr
	csel	x26, x25, x26, lo
	str	xzr, [sp, #80]
	subs	x26, x0, x26
	str	xzr, [sp, #64]
	csel	x24, xzr, x26, lo
	subs	x6, x30, x6
	csel	x6, xzr, x6, lo
	subs	x7, x28, x7
	csel	x7, xzr, x7, lo
	subs	x9, x9, x25
	csel	x9, xzr, x9, lo
	cmp	w16, w15
	csel	w16, w16, w15, lo
	ldp	w25, w15, [x29, #-128]
	cmp	w25, w16
	csel	w16, w25, w16, lo
	cmp	x6, x16
	csel	x16, x6, x16, lo
	lsr	x6, x27, #32
	cmp	x7, x16
	csel	x16, x7, x16, lo
	lsr	x7, x13, #32
	mov	x13, xzr
	cmp	x9, x16
	csel	x16, x9, x16, lo
	cmp	x16, x24
	b.ls	.LBB_9ba498_212
	add	x8, x24, x5
	add	x18, x16, x5
	add	x13, x24, x4
	str	x8, [sp, #80]
	add	x8, x24, x14
	str	x8, [sp, #64]
.LBB_9ba498_212:
	sub	x12, x12, x22
	add	x4, x17, x0
	add	x14, x1, x0
	add	x16, x12, x0
	orr	x5, x21, #0x100000000
	orr	x6, x6, #0x100000000
	cmp	x4, x16
	csel	x9, x4, x16, lo
	cmp	x14, x9
	csel	x9, x14, x9, lo
	subs	x9, x0, x9
	csel	x0, xzr, x9, lo
	subs	x9, x5, x16
	orr	x5, x7, #0x100000000
	csel	x9, xzr, x9, lo
	subs	x5, x5, x4
	csel	x5, xzr, x5, lo
	subs	x6, x6, x14
	csel	x6, xzr, x6, lo
	cmp	w11, w10
	csel	w10, w11, w10, lo
	cmp	w15, w10
	csel	w10, w15, w10, lo
	cmp	x9, x10
	csel	x9, x9, x10, lo
	cmp	x5, x9
	csel	x9, x5, x9, lo
	cmp	x6, x9
	csel	x11, x6, x9, lo
	cmp	x11, x0
	b.ls	.LBB_9ba498_467
	add	x10, x0, x12
	add	x11, x11, x12
	cmp	x10, x11
	b.hs	.LBB_9ba498_467
	cmp	x16, x4
	mov	x5, #4294967296
	add	x8, x0, x17
	csel	x9, x16, x4, lo
	str	x8, [sp, #48]
	add	x8, x0, x1
	cmp	x9, x14
	str	x8, [sp, #32]
	add	x8, x23, x13
	csel	x9, x9, x14, lo
	str	x8, [sp, #16]
	ldr	x8, [sp, #80]
	cmp	x9, x5
	mul	x22, x20, x10
	ldur	x12, [x29, #-144]
	csel	x9, x9, x5, lo
	sub	x16, x18, x8
	ldr	x15, [sp, #64]
	sub	x7, x17, x9
	sub	x9, x1, x9
	and	x4, x16, #0xfffffffffffffff0
	add	x7, x7, x5
	add	x9, x9, x5
	lsl	x25, x16, #2
	mul	x1, x3, x7
	lsl	x24, x8, #2
	lsl	x7, x4, #2
	lsl	x6, x15, #2
	and	x25, x25, #0x30
	lsl	x22, x22, #2
	madd	x9, x12, x9, x13
	and	x15, x16, #0xc
	add	x13, x24, x19
	add	x25, x7, x25
	and	x8, x16, #0x8
	add	x5, x6, x2
	add	x26, x4, x15
	add	x6, x25, x6
	add	x24, x25, x24
	lsl	x1, x1, #2
	add	x13, x22, x13
	lsl	x18, x3, #2
	lsl	x0, x20, #2
	lsr	x14, x16, #4
	lsl	x21, x8, #2
	add	x26, x23, x26
	add	x25, x2, x6
	add	x24, x19, x24
	add	x6, x13, #32
	add	x13, x9, x23
	add	x5, x1, x5
	and	x17, x16, #0xf
	add	x23, x26, x9
	add	x13, x13, #8
	add	x5, x5, #32
	add	x26, x25, x1
	add	x27, x24, x22
	mov	x28, x10
	b	.LBB_9ba498_216
.LBB_9ba498_215:
	add	x28, x28, #1
	add	x13, x13, x12
	add	x5, x5, x18
	add	x6, x6, x0
	cmp	x28, x11
	add	x23, x23, x12
	add	x26, x26, x18
	add	x27, x27, x0
	b.eq	.LBB_9ba498_467
.LBB_9ba498_216:
	adrp	x30, .LCPI_9ba498_0
	cbz	x14, .LBB_9ba498_219
	mov	x22, x6
	mov	x25, x5
	mov	x24, x13
	mov	x1, x14
.LBB_9ba498_218:
	ldur	d0, [x24, #-8]
	movi	v1.8h, #1
	movi	v4.8h, #128
	ldp	q3, q7, [x25, #-32]
	movi	v17.8h, #128
	zip1	v0.16b, v0.16b, v0.16b
	movi	v16.8h, #128
	subs	x1, x1, #1
	ushr	v18.8h, v7.8h, #8
	bic	v7.8h, #255, lsl #8
	ushll	v2.4s, v0.4h, #0
	ushll2	v0.4s, v0.8h, #0
	mul	v2.4s, v2.4s, v1.4s
	mul	v5.4s, v0.4s, v1.4s
	ushr	v0.8h, v3.8h, #8
	bic	v3.8h, #255, lsl #8
	ushr	v6.8h, v2.8h, #8
	ushr	v19.8h, v5.8h, #8
	bic	v2.8h, #255, lsl #8
	bic	v5.8h, #255, lsl #8
	mla	v4.8h, v6.8h, v0.8h
	movi	v6.8h, #128
	movi	v0.16b, #1
	mla	v17.8h, v19.8h, v18.8h
	mla	v16.8h, v2.8h, v3.8h
	umull2	v2.4s, v4.8h, v0.8h
	umull	v3.4s, v4.4h, v0.4h
	mla	v6.8h, v5.8h, v7.8h
	umull2	v4.4s, v17.8h, v0.8h
	umull	v5.4s, v17.4h, v0.4h
	umull2	v7.4s, v16.8h, v0.8h
	umull	v16.4s, v16.4h, v0.4h
	uzp2	v3.8h, v3.8h, v2.8h
	umull2	v17.4s, v6.8h, v0.8h
	umull	v6.4s, v6.4h, v0.4h
	uzp2	v4.8h, v5.8h, v4.8h
	ldr	q2, [x30, :lo12:.LCPI_9ba498_0]
	uzp2	v5.8h, v16.8h, v7.8h
	tbl	v3.16b, { v3.16b }, v2.16b
	uzp2	v6.8h, v6.8h, v17.8h
	movi	v17.8h, #128
	tbl	v4.16b, { v4.16b }, v2.16b
	orr	v3.16b, v3.16b, v5.16b
	orr	v4.16b, v4.16b, v6.16b
	ldp	q5, q6, [x22, #-32]
	uqadd	v3.16b, v3.16b, v5.16b
	uqadd	v4.16b, v4.16b, v6.16b
	movi	v6.8h, #128
	stp	q3, q4, [x22, #-32]
	ldr	d3, [x24], #16
	ldp	q5, q16, [x25], #64
	zip1	v3.16b, v3.16b, v3.16b
	ushr	v18.8h, v16.8h, #8
	bic	v16.8h, #255, lsl #8
	ushll	v4.4s, v3.4h, #0
	ushll2	v3.4s, v3.8h, #0
	mul	v4.4s, v4.4s, v1.4s
	mul	v1.4s, v3.4s, v1.4s
	ushr	v3.8h, v5.8h, #8
	bic	v5.8h, #255, lsl #8
	ushr	v7.8h, v4.8h, #8
	ushr	v19.8h, v1.8h, #8
	bic	v4.8h, #255, lsl #8
	bic	v1.8h, #255, lsl #8
	mla	v6.8h, v7.8h, v3.8h
	movi	v3.8h, #128
	movi	v7.8h, #128
	mla	v17.8h, v19.8h, v18.8h
	mla	v3.8h, v4.8h, v5.8h
	umull2	v4.4s, v6.8h, v0.8h
	umull	v5.4s, v6.4h, v0.4h
	mla	v7.8h, v1.8h, v16.8h
	umull2	v1.4s, v17.8h, v0.8h
	umull	v6.4s, v17.4h, v0.4h
	umull2	v16.4s, v3.8h, v0.8h
	umull	v3.4s, v3.4h, v0.4h
	uzp2	v4.8h, v5.8h, v4.8h
	umull2	v5.4s, v7.8h, v0.8h
	umull	v0.4s, v7.4h, v0.4h
	uzp2	v1.8h, v6.8h, v1.8h
	uzp2	v3.8h, v3.8h, v16.8h
	tbl	v4.16b, { v4.16b }, v2.16b
	uzp2	v0.8h, v0.8h, v5.8h
	tbl	v1.16b, { v1.16b }, v2.16b
	orr	v2.16b, v4.16b, v3.16b
	orr	v0.16b, v1.16b, v0.16b
	ldp	q1, q3, [x22]
	uqadd	v1.16b, v2.16b, v1.16b
	uqadd	v0.16b, v0.16b, v3.16b
	stp	q1, q0, [x22], #64
	b.ne	.LBB_9ba498_218
.LBB_9ba498_219:
	cmp	x4, x16
	b.eq	.LBB_9ba498_215
	ldr	x8, [sp, #80]
	madd	x9, x28, x20, x8
	sub	x1, x28, x10
	ldr	x8, [sp, #48]
	add	x22, x8, x1
	ldr	x8, [sp, #64]
	madd	x22, x22, x3, x8
	ldr	x8, [sp, #32]
	add	x9, x19, x9, lsl #2
	add	x1, x8, x1
	ldr	x8, [sp, #16]
	madd	x24, x1, x12, x8
	add	x1, x9, x7
	and	x8, x16, #0x8
	add	x22, x2, x22, lsl #2
	add	x22, x22, x7
	add	x24, x24, x4
	cbnz	x8, .LBB_9ba498_223
	tbnz	w16, #2, .LBB_9ba498_224
.LBB_9ba498_222:
	and	x8, x16, #0xc
	cmp	x8, x17
	b.eq	.LBB_9ba498_215
	b	.LBB_9ba498_225
.LBB_9ba498_223:
	ldr	d0, [x24]
	movi	v1.8h, #1
	movi	v4.8h, #128
	movi	v5.8h, #128
	zip1	v0.16b, v0.16b, v0.16b
	ushll2	v2.4s, v0.8h, #0
	ushll	v0.4s, v0.4h, #0
	mul	v2.4s, v2.4s, v1.4s
	mul	v0.4s, v0.4s, v1.4s
	ldp	q3, q1, [x22]
	ushr	v6.8h, v1.8h, #8
	ushr	v7.8h, v2.8h, #8
	ushr	v16.8h, v3.8h, #8
	ushr	v17.8h, v0.8h, #8
	bic	v3.8h, #255, lsl #8
	bic	v0.8h, #255, lsl #8
	bic	v1.8h, #255, lsl #8
	bic	v2.8h, #255, lsl #8
	mla	v4.8h, v7.8h, v6.8h
	movi	v6.8h, #128
	movi	v7.8h, #128
	mla	v5.8h, v17.8h, v16.8h
	movi	v16.16b, #1
	mla	v6.8h, v0.8h, v3.8h
	mla	v7.8h, v2.8h, v1.8h
	umull2	v0.4s, v5.8h, v16.8h
	umull	v3.4s, v5.4h, v16.4h
	umull2	v1.4s, v4.8h, v16.8h
	umull	v2.4s, v4.4h, v16.4h
	umull2	v4.4s, v6.8h, v16.8h
	umull	v5.4s, v6.4h, v16.4h
	umull	v6.4s, v7.4h, v16.4h
	uzp2	v0.8h, v3.8h, v0.8h
	umull2	v3.4s, v7.8h, v16.8h
	uzp2	v1.8h, v2.8h, v1.8h
	ldr	q2, [x30, :lo12:.LCPI_9ba498_0]
	uzp2	v4.8h, v5.8h, v4.8h
	tbl	v0.16b, { v0.16b }, v2.16b
	uzp2	v3.8h, v6.8h, v3.8h
	tbl	v1.16b, { v1.16b }, v2.16b
	orr	v0.16b, v0.16b, v4.16b
	orr	v1.16b, v1.16b, v3.16b
	ldp	q2, q3, [x1]
	uqadd	v0.16b, v0.16b, v2.16b
	uqadd	v1.16b, v1.16b, v3.16b
	stp	q0, q1, [x1]
	tbz	w16, #2, .LBB_9ba498_222
.LBB_9ba498_224:
	adrp	x9, .LCPI_9ba498_1
	and	x8, x16, #0x8
	movi	v2.8h, #128
	ldr	s0, [x24, x8]
	ldr	q1, [x9, :lo12:.LCPI_9ba498_1]
	movi	v5.8h, #128
	tbl	v0.16b, { v0.16b }, v1.16b
	ldr	q1, [x22, x21]
	ushr	v4.8h, v1.8h, #8
	bic	v1.8h, #255, lsl #8
	ushr	v3.8h, v0.8h, #8
	bic	v0.8h, #255, lsl #8
	mla	v2.8h, v3.8h, v4.8h
	movi	v3.16b, #1
	mla	v5.8h, v0.8h, v1.8h
	umull2	v0.4s, v2.8h, v3.8h
	umull	v1.4s, v2.4h, v3.4h
	umull2	v2.4s, v5.8h, v3.8h
	umull	v3.4s, v5.4h, v3.4h
	uzp2	v0.8h, v1.8h, v0.8h
	ldr	q1, [x30, :lo12:.LCPI_9ba498_0]
	uzp2	v2.8h, v3.8h, v2.8h
	tbl	v0.16b, { v0.16b }, v1.16b
	ldr	q1, [x1, x21]
	orr	v0.16b, v0.16b, v2.16b
	uqadd	v0.16b, v0.16b, v1.16b
	str	q0, [x1, x21]
	and	x8, x16, #0xc
	cmp	x8, x17
	b.eq	.LBB_9ba498_215
.LBB_9ba498_225:
	mov	x1, x27
	mov	x22, x26
	mov	x24, x23
	and	x25, x16, #0xc
	mov	x30, x27
.LBB_9ba498_226:
	ldr	w9, [x22], #4
	adrp	x15, .LCPI_9ba498_2
	ldr	d1, [x15, :lo12:.LCPI_9ba498_2]
	ldrb	w15, [x24], #1
	dup	v0.2s, w9
	movi	v4.4h, #128
	add	x25, x25, #1
	dup	v3.4h, w15
	cmp	x25, x17
	ushl	v0.2s, v0.2s, v1.2s
	mov	s1, v0.s[1]
	stur	h0, [x29, #-244]
	stur	h1, [x29, #-242]
	ldur	s0, [x29, #-244]
	ld1r	{ v1.4s }, [x30], #4
	zip1	v0.8b, v0.8b, v0.8b
	mov	v0.h[1], wzr
	uzp1	v0.8b, v0.8b, v0.8b
	ushll	v0.4s, v0.4h, #0
	mov	w8, v0.s[1]
	mov	v0.h[1], w8
	ubfx	w8, w9, #8, #8
	and	w9, w9, #0xff
	mov	v0.h[2], w8
	adrp	x8, .LCPI_9ba498_3
	ldr	q2, [x8, :lo12:.LCPI_9ba498_3]
	adrp	x8, .LCPI_9ba498_4
	ushl	v1.4s, v1.4s, v2.4s
	mov	v0.h[3], w9
	xtn	v1.4h, v1.4s
	mla	v4.4h, v0.4h, v3.4h
	movi	d0, #0xff00ff00ff00ff
	bic	v1.4h, #255, lsl #8
	usra	v4.4h, v4.4h, #8
	usra	v1.4h, v4.4h, #8
	umin	v0.4h, v1.4h, v0.4h
	ldr	q1, [x8, :lo12:.LCPI_9ba498_4]
	ushll	v0.4s, v0.4h, #0
	ushl	v0.4s, v0.4s, v1.4s
	ext	v1.16b, v0.16b, v0.16b, #8
	orr	v0.8b, v0.8b, v1.8b
	fmov	x8, d0
	lsr	x9, x8, #32
	orr	w8, w8, w9
	str	w8, [x1]
	mov	x1, x30
	b.lo	.LBB_9ba498_226
	b	.LBB_9ba498_215
.LBB_9ba498_227:
	cmp	w8, #2
	b.eq	.LBB_9ba498_460
	cbz	w23, .LBB_9ba498_467
	sub	x8, x18, x24
	mov	x9, #4294967296
	orr	x11, x23, #0x100000000
	add	x8, x8, x9
	mov	x14, #-4294967296
	cmp	x8, x9
	add	x15, x8, x15
	csel	x13, x8, x9, hi
	cmp	x11, x15
	sub	x8, x12, x22
	csel	x11, x11, x15, lo
	add	x12, x13, x14
	add	x15, x8, x9
	cmp	x11, x13
	add	x10, x15, x10
	csel	x8, x12, xzr, hi
	cmp	x15, x9
	orr	x12, x21, #0x100000000
	csel	x9, x15, x9, hi
	cmp	x12, x10
	csel	x10, x12, x10, lo
	add	x12, x9, x14
	cmp	x10, x9
	csel	x9, x12, xzr, hi
	b.ls	.LBB_9ba498_467
	add	x10, x10, x14
	cmp	x10, x9
	b.ls	.LBB_9ba498_467
	ldr	w12, [x2]
	adrp	x15, .LCPI_9ba498_12
	cmp	x11, x13
	ldr	q1, [x15, :lo12:.LCPI_9ba498_12]
	adrp	x13, .LCPI_9ba498_8
	fmov	s0, w12
	lsr	w14, w12, #16
	ubfx	w15, w12, #16, #8
	ubfx	w16, w12, #8, #8
	ldr	q4, [x13, :lo12:.LCPI_9ba498_8]
	mov	v0.s[1], w12
	mov	v0.s[2], w14
	lsr	w14, w12, #24
	mov	v0.s[3], w14
	ushl	v0.4s, v0.4s, v1.4s
	uzp1	v1.8h, v0.8h, v0.8h
	fmov	s0, w15
	adrp	x15, .LCPI_9ba498_9
	ldr	q2, [x15, :lo12:.LCPI_9ba498_9]
	madd	x15, x9, x20, x8
	mov	v0.h[1], w14
	mov	x14, #-4294967296
	uzp1	v1.16b, v1.16b, v1.16b
	add	x11, x11, x14
	csel	x11, x11, xzr, hi
	sub	x11, x11, x8
	add	x2, x19, x15, lsl #2
	mov	v3.16b, v0.16b
	lsl	x17, x11, #2
	lsr	x13, x11, #4
	ushr	v7.4s, v1.4s, #24
	ushr	v6.8h, v1.8h, #8
	bic	v1.8h, #255, lsl #8
	and	x1, x17, #0x30
	and	x15, x11, #0xf
	add	x0, x2, #32
	mov	v3.h[2], w16
	and	w16, w12, #0xff
	and	x12, x11, #0xfffffffffffffff0
	tbl	v5.16b, { v7.16b }, v2.16b
	lsr	x18, x12, #4
	tbl	v7.16b, { v7.16b }, v4.16b
	lsl	x14, x12, #2
	bfi	x1, x18, #6, #58
	and	x18, x11, #0xc
	mov	v3.h[3], w16
	and	x16, x17, #0x20
	lsl	x17, x20, #2
	ushr	v16.8h, v5.8h, #8
	bic	v5.8h, #255, lsl #8
	add	x1, x2, x1
	b	.LBB_9ba498_233
.LBB_9ba498_232:
	add	x9, x9, #1
	add	x0, x0, x17
	add	x1, x1, x17
	cmp	x9, x10
	b.eq	.LBB_9ba498_467
.LBB_9ba498_233:
	cbz	x13, .LBB_9ba498_236
	mov	x2, x0
	mov	x3, x13
.LBB_9ba498_235:
	ldp	q31, q22, [x2, #-32]
	movi	v19.8h, #128
	movi	v21.8h, #128
	movi	v26.8h, #128
	movi	v27.8h, #128
	movi	v29.8h, #128
	movi	v28.8h, #128
	adrp	x4, .LCPI_9ba498_0
	mvn	v17.16b, v31.16b
	mvn	v18.16b, v22.16b
	subs	x3, x3, #1
	ushr	v30.8h, v31.8h, #8
	ushr	v8.8h, v22.8h, #8
	bic	v31.8h, #255, lsl #8
	bic	v22.8h, #255, lsl #8
	movi	v15.8h, #128
	ushr	v20.4s, v18.4s, #24
	ushr	v17.4s, v17.4s, #24
	movi	v18.8h, #128
	mla	v26.8h, v31.8h, v7.8h
	mla	v29.8h, v30.8h, v7.8h
	mla	v28.8h, v8.8h, v7.8h
	mla	v27.8h, v22.8h, v7.8h
	tbl	v25.16b, { v17.16b }, v4.16b
	tbl	v24.16b, { v20.16b }, v4.16b
	movi	v17.16b, #1
	movi	v20.8h, #128
	mla	v18.8h, v1.8h, v25.8h
	mla	v19.8h, v1.8h, v24.8h
	mla	v21.8h, v6.8h, v25.8h
	ldp	q25, q23, [x2]
	umull2	v8.4s, v27.8h, v17.8h
	umull	v27.4s, v27.4h, v17.4h
	mla	v20.8h, v6.8h, v24.8h
	movi	v24.8h, #128
	umull2	v9.4s, v19.8h, v17.8h
	umull	v19.4s, v19.4h, v17.4h
	umull2	v10.4s, v18.8h, v17.8h
	umull	v11.4s, v18.4h, v17.4h
	mvn	v13.16b, v25.16b
	mvn	v31.16b, v23.16b
	umull2	v12.4s, v21.8h, v17.8h
	umull	v21.4s, v21.4h, v17.4h
	umull2	v22.4s, v20.8h, v17.8h
	umull	v20.4s, v20.4h, v17.4h
	uzp2	v18.8h, v19.8h, v9.8h
	umull2	v9.4s, v26.8h, v17.8h
	ushr	v31.4s, v31.4s, #24
	uzp2	v19.8h, v11.8h, v10.8h
	umull	v10.4s, v26.4h, v17.4h
	ushr	v26.4s, v13.4s, #24
	umull2	v11.4s, v29.8h, v17.8h
	umull	v29.4s, v29.4h, v17.4h
	uzp2	v21.8h, v21.8h, v12.8h
	umull2	v12.4s, v28.8h, v17.8h
	umull	v28.4s, v28.4h, v17.4h
	movi	v13.8h, #128
	tbl	v30.16b, { v26.16b }, v4.16b
	tbl	v14.16b, { v31.16b }, v4.16b
	uzp2	v26.8h, v27.8h, v8.8h
	uzp2	v27.8h, v10.8h, v9.8h
	movi	v9.8h, #128
	ushr	v8.8h, v25.8h, #8
	uzp2	v29.8h, v29.8h, v11.8h
	ushr	v11.8h, v23.8h, #8
	movi	v31.8h, #128
	uzp2	v28.8h, v28.8h, v12.8h
	movi	v10.8h, #128
	movi	v12.8h, #128
	mla	v13.8h, v6.8h, v30.8h
	mla	v15.8h, v6.8h, v14.8h
	mla	v24.8h, v8.8h, v7.8h
	movi	v8.8h, #128
	mla	v9.8h, v11.8h, v7.8h
	bic	v25.8h, #255, lsl #8
	bic	v23.8h, #255, lsl #8
	mla	v31.8h, v1.8h, v14.8h
	uzp2	v20.8h, v20.8h, v22.8h
	ldr	q22, [x4, :lo12:.LCPI_9ba498_0]
	mla	v10.8h, v1.8h, v30.8h
	umull2	v11.4s, v13.8h, v17.8h
	umull	v13.4s, v13.4h, v17.4h
	umull2	v30.4s, v15.8h, v17.8h
	umull	v14.4s, v15.4h, v17.4h
	mla	v12.8h, v25.8h, v7.8h
	umull2	v25.4s, v24.8h, v17.8h
	umull	v24.4s, v24.4h, v17.4h
	mla	v8.8h, v23.8h, v7.8h
	umull2	v23.4s, v9.8h, v17.8h
	umull	v9.4s, v9.4h, v17.4h
	umull2	v15.4s, v31.8h, v17.8h
	umull	v31.4s, v31.4h, v17.4h
	uzp2	v11.8h, v13.8h, v11.8h
	umull2	v13.4s, v10.8h, v17.8h
	umull	v10.4s, v10.4h, v17.4h
	uzp2	v30.8h, v14.8h, v30.8h
	umull2	v14.4s, v12.8h, v17.8h
	umull	v12.4s, v12.4h, v17.4h
	uzp2	v24.8h, v24.8h, v25.8h
	umull2	v25.4s, v8.8h, v17.8h
	umull	v17.4s, v8.4h, v17.4h
	uzp2	v23.8h, v9.8h, v23.8h
	tbl	v21.16b, { v21.16b }, v22.16b
	tbl	v29.16b, { v29.16b }, v22.16b
	uzp2	v31.8h, v31.8h, v15.8h
	uzp2	v8.8h, v10.8h, v13.8h
	tbl	v20.16b, { v20.16b }, v22.16b
	tbl	v28.16b, { v28.16b }, v22.16b
	uzp2	v9.8h, v12.8h, v14.8h
	tbl	v10.16b, { v11.16b }, v22.16b
	tbl	v24.16b, { v24.16b }, v22.16b
	uzp2	v17.8h, v17.8h, v25.8h
	tbl	v25.16b, { v30.16b }, v22.16b
	tbl	v22.16b, { v23.16b }, v22.16b
	orr	v19.16b, v21.16b, v19.16b
	orr	v21.16b, v29.16b, v27.16b
	orr	v18.16b, v20.16b, v18.16b
	orr	v20.16b, v28.16b, v26.16b
	orr	v23.16b, v10.16b, v8.16b
	orr	v24.16b, v24.16b, v9.16b
	uqadd	v19.16b, v19.16b, v21.16b
	orr	v21.16b, v25.16b, v31.16b
	orr	v17.16b, v22.16b, v17.16b
	uqadd	v18.16b, v18.16b, v20.16b
	uqadd	v20.16b, v23.16b, v24.16b
	uqadd	v17.16b, v21.16b, v17.16b
	stp	q19, q18, [x2, #-32]
	stp	q20, q17, [x2], #64
	b.ne	.LBB_9ba498_235
.LBB_9ba498_236:
	cmp	x12, x11
	b.eq	.LBB_9ba498_232
	mul	x2, x9, x20
	add	x2, x2, x8
	add	x2, x19, x2, lsl #2
	add	x2, x2, x14
	tbnz	w11, #3, .LBB_9ba498_240
	tbnz	w11, #2, .LBB_9ba498_241
.LBB_9ba498_239:
	cmp	x15, x18
	b.ls	.LBB_9ba498_232
	b	.LBB_9ba498_242
.LBB_9ba498_240:
	ldp	q20, q17, [x2]
	movi	v22.8h, #128
	movi	v21.8h, #128
	movi	v24.8h, #128
	movi	v27.8h, #128
	movi	v26.8h, #128
	movi	v30.8h, #128
	adrp	x3, .LCPI_9ba498_0
	mvn	v18.16b, v20.16b
	mvn	v19.16b, v17.16b
	ushr	v28.8h, v20.8h, #8
	ushr	v29.8h, v17.8h, #8
	bic	v20.8h, #255, lsl #8
	bic	v17.8h, #255, lsl #8
	ushr	v18.4s, v18.4s, #24
	ushr	v19.4s, v19.4s, #24
	mla	v21.8h, v28.8h, v7.8h
	movi	v28.8h, #128
	mla	v27.8h, v29.8h, v7.8h
	mla	v26.8h, v20.8h, v7.8h
	tbl	v23.16b, { v18.16b }, v4.16b
	tbl	v25.16b, { v19.16b }, v4.16b
	movi	v19.8h, #128
	movi	v18.16b, #1
	mla	v28.8h, v17.8h, v7.8h
	mla	v22.8h, v6.8h, v23.8h
	mla	v24.8h, v6.8h, v25.8h
	mla	v19.8h, v1.8h, v25.8h
	mla	v30.8h, v1.8h, v23.8h
	umull2	v17.4s, v21.8h, v18.8h
	umull	v21.4s, v21.4h, v18.4h
	umull2	v25.4s, v27.8h, v18.8h
	umull	v27.4s, v27.4h, v18.4h
	umull2	v29.4s, v26.8h, v18.8h
	umull	v26.4s, v26.4h, v18.4h
	umull2	v20.4s, v22.8h, v18.8h
	umull	v22.4s, v22.4h, v18.4h
	umull2	v23.4s, v24.8h, v18.8h
	umull	v24.4s, v24.4h, v18.4h
	uzp2	v17.8h, v21.8h, v17.8h
	umull2	v21.4s, v28.8h, v18.8h
	uzp2	v25.8h, v27.8h, v25.8h
	ldr	q27, [x3, :lo12:.LCPI_9ba498_0]
	uzp2	v20.8h, v22.8h, v20.8h
	umull2	v22.4s, v19.8h, v18.8h
	umull	v19.4s, v19.4h, v18.4h
	uzp2	v23.8h, v24.8h, v23.8h
	umull2	v24.4s, v30.8h, v18.8h
	umull	v30.4s, v30.4h, v18.4h
	umull	v18.4s, v28.4h, v18.4h
	tbl	v17.16b, { v17.16b }, v27.16b
	uzp2	v19.8h, v19.8h, v22.8h
	uzp2	v22.8h, v26.8h, v29.8h
	tbl	v20.16b, { v20.16b }, v27.16b
	uzp2	v24.8h, v30.8h, v24.8h
	tbl	v23.16b, { v23.16b }, v27.16b
	uzp2	v18.8h, v18.8h, v21.8h
	tbl	v21.16b, { v25.16b }, v27.16b
	orr	v17.16b, v17.16b, v22.16b
	orr	v20.16b, v20.16b, v24.16b
	orr	v19.16b, v23.16b, v19.16b
	orr	v18.16b, v21.16b, v18.16b
	uqadd	v17.16b, v20.16b, v17.16b
	uqadd	v18.16b, v19.16b, v18.16b
	stp	q17, q18, [x2]
	tbz	w11, #2, .LBB_9ba498_239
.LBB_9ba498_241:
	ldr	q17, [x2, x16]
	movi	v19.8h, #128
	movi	v20.8h, #128
	movi	v23.8h, #128
	movi	v24.16b, #1
	adrp	x3, .LCPI_9ba498_0
	mvn	v18.16b, v17.16b
	ushr	v22.8h, v17.8h, #8
	bic	v17.8h, #255, lsl #8
	ushr	v18.4s, v18.4s, #24
	mla	v20.8h, v22.8h, v16.8h
	tbl	v18.16b, { v18.16b }, v2.16b
	ushr	v21.8h, v18.8h, #8
	bic	v18.8h, #255, lsl #8
	mla	v19.8h, v21.8h, v6.8h
	movi	v21.8h, #128
	mla	v23.8h, v18.8h, v1.8h
	umull2	v18.4s, v19.8h, v24.8h
	umull	v19.4s, v19.4h, v24.4h
	mla	v21.8h, v17.8h, v5.8h
	umull2	v17.4s, v20.8h, v24.8h
	umull	v20.4s, v20.4h, v24.4h
	umull2	v22.4s, v23.8h, v24.8h
	umull	v23.4s, v23.4h, v24.4h
	uzp2	v18.8h, v19.8h, v18.8h
	umull2	v19.4s, v21.8h, v24.8h
	umull	v21.4s, v21.4h, v24.4h
	uzp2	v17.8h, v20.8h, v17.8h
	ldr	q20, [x3, :lo12:.LCPI_9ba498_0]
	uzp2	v22.8h, v23.8h, v22.8h
	tbl	v18.16b, { v18.16b }, v20.16b
	uzp2	v19.8h, v21.8h, v19.8h
	tbl	v17.16b, { v17.16b }, v20.16b
	orr	v18.16b, v18.16b, v22.16b
	orr	v17.16b, v17.16b, v19.16b
	uqadd	v17.16b, v18.16b, v17.16b
	str	q17, [x2, x16]
	cmp	x15, x18
	b.ls	.LBB_9ba498_232
.LBB_9ba498_242:
	mov	x2, x1
	sub	x3, x15, x18
.LBB_9ba498_243:
	ldr	w4, [x2]
	adrp	x5, .LCPI_9ba498_2
	movi	v20.4h, #128
	ldr	d18, [x5, :lo12:.LCPI_9ba498_2]
	subs	x3, x3, #1
	dup	v17.2s, w4
	ushl	v17.2s, v17.2s, v18.2s
	mov	s18, v17.s[1]
	str	h17, [sp, #204]
	str	h18, [sp, #206]
	movi	v18.4h, #128
	ldr	s17, [sp, #204]
	zip1	v17.8b, v17.8b, v17.8b
	mov	v17.h[1], wzr
	uzp1	v17.8b, v17.8b, v0.8b
	ushll	v17.4s, v17.4h, #0
	mov	w5, v17.s[1]
	mov	v17.h[1], w5
	ubfx	w5, w4, #8, #8
	mov	v17.h[2], w5
	and	w5, w4, #0xff
	mvn	w4, w4
	lsr	w4, w4, #24
	dup	v19.4h, w4
	adrp	x4, .LCPI_9ba498_4
	mov	v17.h[3], w5
	mla	v20.4h, v19.4h, v3.4h
	mla	v18.4h, v17.4h, v0.h[1]
	usra	v20.4h, v20.4h, #8
	usra	v18.4h, v18.4h, #8
	ushr	v17.4h, v18.4h, #8
	movi	d18, #0xff00ff00ff00ff
	usra	v17.4h, v20.4h, #8
	umin	v17.4h, v17.4h, v18.4h
	ldr	q18, [x4, :lo12:.LCPI_9ba498_4]
	ushll	v17.4s, v17.4h, #0
	ushl	v17.4s, v17.4s, v18.4s
	ext	v18.16b, v17.16b, v17.16b, #8
	orr	v17.8b, v17.8b, v18.8b
	fmov	x4, d17
	lsr	x5, x4, #32
	orr	w4, w4, w5
	str	w4, [x2], #4
	b.ne	.LBB_9ba498_243
	b	.LBB_9ba498_232
.LBB_9ba498_244:
	cmp	w8, #6
	b.ne	.LBB_9ba498_571
	cbz	w23, .LBB_9ba498_467
	sub	x1, x18, x24
	mov	x18, #4294967296
	ldur	x26, [x29, #-152]
	ldpsw	x9, x5, [x29, #-136]
	add	x6, x1, x18
	add	x7, x14, x18
	mov	x27, #4294967296
	cmp	x7, x6
	orr	x23, x23, #0x100000000
	bfxil	x27, x13, #0, #32
	add	x25, x9, x18
	csel	x24, x7, x6, lo
	mov	x28, #4294967296
	cmp	x25, x24
	bfxil	x28, x26, #0, #32
	mov	x17, xzr
	csel	x24, x25, x24, lo
	str	xzr, [sp, #80]
	subs	x24, x18, x24
	str	xzr, [sp, #64]
	csel	x24, xzr, x24, lo
	subs	x6, x23, x6
	csel	x6, xzr, x6, lo
	subs	x7, x27, x7
	csel	x7, xzr, x7, lo
	subs	x23, x28, x25
	csel	x23, xzr, x23, lo
	cmp	w16, w15
	csel	w16, w16, w15, lo
	ldp	w25, w15, [x29, #-128]
	cmp	w25, w16
	csel	w16, w25, w16, lo
	cmp	x6, x16
	csel	x16, x6, x16, lo
	mov	x6, xzr
	cmp	x7, x16
	csel	x16, x7, x16, lo
	lsr	x7, x26, #32
	cmp	x23, x16
	csel	x16, x23, x16, lo
	lsr	x23, x13, #32
	cmp	x16, x24
	b.ls	.LBB_9ba498_248
	add	x8, x24, x1
	add	x17, x16, x1
	add	x6, x24, x9
	str	x8, [sp, #80]
	add	x8, x24, x14
	str	x8, [sp, #64]
.LBB_9ba498_248:
	sub	x12, x12, x22
	add	x14, x4, x18
	add	x9, x5, x18
	add	x13, x12, x18
	orr	x1, x23, #0x100000000
	orr	x7, x7, #0x100000000
	cmp	x14, x13
	csel	x16, x14, x13, lo
	cmp	x9, x16
	csel	x16, x9, x16, lo
	subs	x16, x18, x16
	orr	x18, x21, #0x100000000
	csel	x16, xzr, x16, lo
	subs	x18, x18, x13
	csel	x18, xzr, x18, lo
	subs	x1, x1, x14
	csel	x1, xzr, x1, lo
	subs	x7, x7, x9
	csel	x7, xzr, x7, lo
	cmp	w11, w10
	csel	w10, w11, w10, lo
	cmp	w15, w10
	csel	w10, w15, w10, lo
	cmp	x18, x10
	csel	x10, x18, x10, lo
	cmp	x1, x10
	csel	x10, x1, x10, lo
	cmp	x7, x10
	csel	x11, x7, x10, lo
	cmp	x11, x16
	b.ls	.LBB_9ba498_467
	add	x10, x16, x12
	add	x11, x11, x12
	cmp	x10, x11
	b.hs	.LBB_9ba498_467
	cmp	x13, x14
	add	x8, x16, x4
	ldur	x12, [x29, #-144]
	csel	x13, x13, x14, lo
	mov	x14, #4294967296
	str	x8, [sp, #48]
	cmp	x13, x9
	add	x8, x16, x5
	mul	x22, x20, x10
	csel	x9, x13, x9, lo
	str	x8, [sp, #32]
	add	x8, x0, x6
	cmp	x9, x14
	str	x8, [sp, #16]
	ldr	x8, [sp, #80]
	csel	x9, x9, x14, lo
	ldr	x15, [sp, #64]
	lsl	x18, x20, #2
	sub	x7, x4, x9
	sub	x16, x17, x8
	sub	x9, x5, x9
	add	x7, x7, x14
	and	x1, x16, #0xfffffffffffffff0
	lsl	x24, x16, #2
	mul	x5, x3, x7
	add	x9, x9, x14
	lsl	x7, x1, #2
	lsl	x15, x15, #2
	lsl	x23, x8, #2
	and	x24, x24, #0x30
	madd	x9, x12, x9, x6
	add	x24, x7, x24
	and	x25, x16, #0xc
	add	x14, x15, x2
	lsl	x27, x22, #2
	add	x15, x24, x15
	add	x22, x24, x23
	and	x8, x16, #0x8
	add	x6, x23, x19
	lsl	x24, x5, #2
	add	x25, x1, x25
	lsl	x17, x3, #2
	lsr	x13, x16, #4
	lsl	x21, x8, #2
	add	x25, x0, x25
	add	x15, x2, x15
	add	x28, x19, x22
	add	x5, x27, x6
	add	x0, x9, x0
	add	x14, x24, x14
	and	x4, x16, #0xf
	add	x22, x5, #32
	add	x23, x25, x9
	add	x5, x0, #8
	add	x6, x14, #32
	add	x26, x15, x24
	add	x27, x28, x27
	mov	x28, x10
	b	.LBB_9ba498_252
.LBB_9ba498_251:
	add	x28, x28, #1
	add	x5, x5, x12
	add	x6, x6, x17
	add	x22, x22, x18
	cmp	x28, x11
	add	x23, x23, x12
	add	x26, x26, x17
	add	x27, x27, x18
	b.eq	.LBB_9ba498_467
.LBB_9ba498_252:
	cbz	x13, .LBB_9ba498_255
	mov	x30, x22
	mov	x25, x6
	mov	x24, x5
	mov	x0, x13
.LBB_9ba498_254:
	ldur	d0, [x24, #-8]
	movi	v3.8h, #1
	movi	v7.8h, #128
	ldp	q5, q4, [x25, #-32]
	movi	v16.8h, #128
	zip1	v0.16b, v0.16b, v0.16b
	movi	v6.8h, #128
	movi	v19.8h, #128
	adrp	x9, .LCPI_9ba498_0
	movi	v22.8h, #128
	movi	v24.8h, #128
	ushr	v17.8h, v4.8h, #8
	ushr	v20.8h, v5.8h, #8
	subs	x0, x0, #1
	bic	v4.8h, #255, lsl #8
	bic	v5.8h, #255, lsl #8
	ushll2	v1.4s, v0.8h, #0
	ushll	v0.4s, v0.4h, #0
	mul	v1.4s, v1.4s, v3.4s
	mul	v2.4s, v0.4s, v3.4s
	movi	v0.16b, #1
	ushr	v18.8h, v1.8h, #8
	ushr	v21.8h, v2.8h, #8
	bic	v1.8h, #255, lsl #8
	bic	v2.8h, #255, lsl #8
	mla	v7.8h, v18.8h, v17.8h
	mla	v16.8h, v21.8h, v20.8h
	mla	v19.8h, v1.8h, v4.8h
	mla	v6.8h, v2.8h, v5.8h
	umull2	v1.4s, v7.8h, v0.8h
	umull	v4.4s, v7.4h, v0.4h
	umull2	v2.4s, v16.8h, v0.8h
	umull	v5.4s, v16.4h, v0.4h
	umull2	v7.4s, v19.8h, v0.8h
	umull	v16.4s, v19.4h, v0.4h
	umull2	v18.4s, v6.8h, v0.8h
	umull	v6.4s, v6.4h, v0.4h
	movi	v19.8h, #128
	uzp2	v17.8h, v4.8h, v1.8h
	ldr	q1, [x9, :lo12:.LCPI_9ba498_0]
	adrp	x9, .LCPI_9ba498_8
	uzp2	v2.8h, v5.8h, v2.8h
	uzp2	v5.8h, v16.8h, v7.8h
	uzp2	v16.8h, v6.8h, v18.8h
	ldp	q4, q6, [x30, #-32]
	tbl	v7.16b, { v17.16b }, v1.16b
	tbl	v2.16b, { v2.16b }, v1.16b
	mvn	v17.16b, v4.16b
	mvn	v20.16b, v6.16b
	ushr	v26.8h, v6.8h, #8
	bic	v6.8h, #255, lsl #8
	orr	v7.16b, v7.16b, v5.16b
	ushr	v18.4s, v17.4s, #24
	ushr	v20.4s, v20.4s, #24
	orr	v16.16b, v2.16b, v16.16b
	ldr	q2, [x9, :lo12:.LCPI_9ba498_8]
	movi	v5.8h, #128
	movi	v17.8h, #128
	ushr	v21.4s, v7.4s, #24
	tbl	v18.16b, { v18.16b }, v2.16b
	tbl	v20.16b, { v20.16b }, v2.16b
	ushr	v23.4s, v16.4s, #24
	ushr	v25.8h, v16.8h, #8
	bic	v16.8h, #255, lsl #8
	ushr	v27.8h, v7.8h, #8
	bic	v7.8h, #255, lsl #8
	tbl	v21.16b, { v21.16b }, v2.16b
	tbl	v23.16b, { v23.16b }, v2.16b
	mla	v19.8h, v25.8h, v18.8h
	ushr	v25.8h, v4.8h, #8
	mla	v5.8h, v16.8h, v18.8h
	movi	v16.8h, #128
	mla	v17.8h, v27.8h, v20.8h
	movi	v18.8h, #128
	bic	v4.8h, #255, lsl #8
	mla	v22.8h, v26.8h, v21.8h
	mla	v24.8h, v25.8h, v23.8h
	movi	v25.8h, #128
	mla	v16.8h, v7.8h, v20.8h
	umull2	v7.4s, v19.8h, v0.8h
	umull	v19.4s, v19.4h, v0.4h
	umull2	v20.4s, v17.8h, v0.8h
	umull	v17.4s, v17.4h, v0.4h
	mla	v18.8h, v4.8h, v23.8h
	umull2	v4.4s, v24.8h, v0.8h
	umull	v23.4s, v24.4h, v0.4h
	mla	v25.8h, v6.8h, v21.8h
	umull2	v6.4s, v22.8h, v0.8h
	umull	v21.4s, v22.4h, v0.4h
	umull2	v22.4s, v16.8h, v0.8h
	umull	v16.4s, v16.4h, v0.4h
	umull2	v24.4s, v5.8h, v0.8h
	umull	v5.4s, v5.4h, v0.4h
	uzp2	v7.8h, v19.8h, v7.8h
	uzp2	v17.8h, v17.8h, v20.8h
	umull2	v19.4s, v18.8h, v0.8h
	umull	v18.4s, v18.4h, v0.4h
	uzp2	v4.8h, v23.8h, v4.8h
	umull2	v20.4s, v25.8h, v0.8h
	umull	v23.4s, v25.4h, v0.4h
	uzp2	v6.8h, v21.8h, v6.8h
	uzp2	v16.8h, v16.8h, v22.8h
	uzp2	v5.8h, v5.8h, v24.8h
	movi	v22.8h, #128
	tbl	v7.16b, { v7.16b }, v1.16b
	tbl	v17.16b, { v17.16b }, v1.16b
	uzp2	v18.8h, v18.8h, v19.8h
	tbl	v4.16b, { v4.16b }, v1.16b
	uzp2	v19.8h, v23.8h, v20.8h
	tbl	v6.16b, { v6.16b }, v1.16b
	movi	v23.8h, #128
	orr	v5.16b, v7.16b, v5.16b
	orr	v7.16b, v17.16b, v16.16b
	movi	v16.8h, #128
	orr	v4.16b, v4.16b, v18.16b
	orr	v6.16b, v6.16b, v19.16b
	movi	v19.8h, #128
	uqadd	v4.16b, v5.16b, v4.16b
	uqadd	v5.16b, v7.16b, v6.16b
	movi	v6.8h, #128
	stp	q4, q5, [x30, #-32]
	ldr	d4, [x24], #16
	zip1	v4.16b, v4.16b, v4.16b
	ushll2	v5.4s, v4.8h, #0
	ushll	v4.4s, v4.4h, #0
	mul	v5.4s, v5.4s, v3.4s
	mul	v3.4s, v4.4s, v3.4s
	ldp	q7, q4, [x25], #64
	ushr	v17.8h, v4.8h, #8
	ushr	v18.8h, v5.8h, #8
	ushr	v20.8h, v7.8h, #8
	ushr	v21.8h, v3.8h, #8
	bic	v4.8h, #255, lsl #8
	bic	v5.8h, #255, lsl #8
	bic	v7.8h, #255, lsl #8
	bic	v3.8h, #255, lsl #8
	mla	v6.8h, v18.8h, v17.8h
	mla	v16.8h, v21.8h, v20.8h
	mla	v22.8h, v5.8h, v4.8h
	mla	v19.8h, v3.8h, v7.8h
	umull2	v4.4s, v6.8h, v0.8h
	umull	v5.4s, v6.4h, v0.4h
	umull2	v3.4s, v16.8h, v0.8h
	umull	v6.4s, v16.4h, v0.4h
	umull2	v7.4s, v22.8h, v0.8h
	umull	v16.4s, v22.4h, v0.4h
	umull2	v17.4s, v19.8h, v0.8h
	umull	v18.4s, v19.4h, v0.4h
	uzp2	v4.8h, v5.8h, v4.8h
	uzp2	v3.8h, v6.8h, v3.8h
	ldp	q5, q6, [x30]
	uzp2	v7.8h, v16.8h, v7.8h
	uzp2	v16.8h, v18.8h, v17.8h
	tbl	v4.16b, { v4.16b }, v1.16b
	mvn	v17.16b, v5.16b
	mvn	v18.16b, v6.16b
	tbl	v3.16b, { v3.16b }, v1.16b
	ushr	v25.8h, v6.8h, #8
	bic	v6.8h, #255, lsl #8
	ushr	v19.4s, v17.4s, #24
	ushr	v20.4s, v18.4s, #24
	movi	v18.8h, #128
	orr	v7.16b, v4.16b, v7.16b
	movi	v4.8h, #128
	movi	v17.8h, #128
	orr	v16.16b, v3.16b, v16.16b
	movi	v3.8h, #128
	tbl	v19.16b, { v19.16b }, v2.16b
	tbl	v20.16b, { v20.16b }, v2.16b
	ushr	v21.4s, v7.4s, #24
	ushr	v22.4s, v16.4s, #24
	ushr	v24.8h, v16.8h, #8
	bic	v16.8h, #255, lsl #8
	tbl	v21.16b, { v21.16b }, v2.16b
	tbl	v2.16b, { v22.16b }, v2.16b
	ushr	v22.8h, v7.8h, #8
	mla	v18.8h, v24.8h, v19.8h
	ushr	v24.8h, v5.8h, #8
	mla	v4.8h, v16.8h, v19.8h
	movi	v16.8h, #128
	movi	v19.8h, #128
	bic	v7.8h, #255, lsl #8
	bic	v5.8h, #255, lsl #8
	mla	v17.8h, v22.8h, v20.8h
	mla	v23.8h, v25.8h, v21.8h
	movi	v22.8h, #128
	mla	v3.8h, v24.8h, v2.8h
	mla	v16.8h, v7.8h, v20.8h
	umull2	v7.4s, v18.8h, v0.8h
	umull	v18.4s, v18.4h, v0.4h
	mla	v19.8h, v5.8h, v2.8h
	umull2	v20.4s, v17.8h, v0.8h
	umull	v17.4s, v17.4h, v0.4h
	mla	v22.8h, v6.8h, v21.8h
	umull2	v2.4s, v3.8h, v0.8h
	umull	v3.4s, v3.4h, v0.4h
	umull2	v5.4s, v23.8h, v0.8h
	umull	v6.4s, v23.4h, v0.4h
	umull2	v21.4s, v16.8h, v0.8h
	umull	v16.4s, v16.4h, v0.4h
	umull2	v23.4s, v4.8h, v0.8h
	umull	v4.4s, v4.4h, v0.4h
	uzp2	v7.8h, v18.8h, v7.8h
	uzp2	v17.8h, v17.8h, v20.8h
	umull2	v18.4s, v19.8h, v0.8h
	umull	v19.4s, v19.4h, v0.4h
	uzp2	v2.8h, v3.8h, v2.8h
	umull2	v3.4s, v22.8h, v0.8h
	umull	v0.4s, v22.4h, v0.4h
	uzp2	v5.8h, v6.8h, v5.8h
	uzp2	v6.8h, v16.8h, v21.8h
	uzp2	v4.8h, v4.8h, v23.8h
	tbl	v7.16b, { v7.16b }, v1.16b
	uzp2	v16.8h, v19.8h, v18.8h
	tbl	v17.16b, { v17.16b }, v1.16b
	tbl	v2.16b, { v2.16b }, v1.16b
	uzp2	v0.8h, v0.8h, v3.8h
	tbl	v1.16b, { v5.16b }, v1.16b
	orr	v3.16b, v7.16b, v4.16b
	orr	v4.16b, v17.16b, v6.16b
	orr	v2.16b, v2.16b, v16.16b
	orr	v0.16b, v1.16b, v0.16b
	uqadd	v1.16b, v3.16b, v2.16b
	uqadd	v0.16b, v4.16b, v0.16b
	stp	q1, q0, [x30], #64
	b.ne	.LBB_9ba498_254
.LBB_9ba498_255:
	cmp	x1, x16
	b.eq	.LBB_9ba498_251
	ldr	x8, [sp, #80]
	madd	x9, x28, x20, x8
	sub	x14, x28, x10
	ldr	x8, [sp, #48]
	add	x15, x8, x14
	ldr	x8, [sp, #64]
	madd	x15, x15, x3, x8
	ldr	x8, [sp, #32]
	add	x9, x19, x9, lsl #2
	add	x14, x8, x14
	ldr	x8, [sp, #16]
	madd	x14, x14, x12, x8
	add	x0, x9, x7
	and	x8, x16, #0x8
	add	x15, x2, x15, lsl #2
	add	x24, x15, x7
	add	x25, x14, x1
	cbnz	x8, .LBB_9ba498_259
	tbnz	w16, #2, .LBB_9ba498_260
.LBB_9ba498_258:
	and	x8, x16, #0xc
	cmp	x8, x4
	b.eq	.LBB_9ba498_251
	b	.LBB_9ba498_261
.LBB_9ba498_259:
	ldr	d0, [x25]
	movi	v1.8h, #1
	movi	v6.8h, #128
	ldp	q3, q4, [x24]
	movi	v7.8h, #128
	zip1	v0.16b, v0.16b, v0.16b
	movi	v5.8h, #128
	movi	v18.8h, #128
	adrp	x9, .LCPI_9ba498_0
	movi	v23.8h, #128
	ushr	v16.8h, v3.8h, #8
	ushr	v19.8h, v4.8h, #8
	bic	v3.8h, #255, lsl #8
	bic	v4.8h, #255, lsl #8
	ushll	v2.4s, v0.4h, #0
	ushll2	v0.4s, v0.8h, #0
	mul	v2.4s, v2.4s, v1.4s
	mul	v1.4s, v0.4s, v1.4s
	movi	v0.16b, #1
	ushr	v17.8h, v2.8h, #8
	ushr	v20.8h, v1.8h, #8
	bic	v2.8h, #255, lsl #8
	bic	v1.8h, #255, lsl #8
	mla	v6.8h, v17.8h, v16.8h
	mla	v7.8h, v20.8h, v19.8h
	mla	v5.8h, v2.8h, v3.8h
	mla	v18.8h, v1.8h, v4.8h
	umull2	v2.4s, v6.8h, v0.8h
	umull	v3.4s, v6.4h, v0.4h
	umull2	v1.4s, v7.8h, v0.8h
	umull	v4.4s, v7.4h, v0.4h
	umull2	v6.4s, v5.8h, v0.8h
	umull	v5.4s, v5.4h, v0.4h
	umull2	v16.4s, v18.8h, v0.8h
	umull	v17.4s, v18.4h, v0.4h
	uzp2	v7.8h, v3.8h, v2.8h
	ldp	q3, q2, [x0]
	uzp2	v4.8h, v4.8h, v1.8h
	ldr	q1, [x9, :lo12:.LCPI_9ba498_0]
	uzp2	v5.8h, v5.8h, v6.8h
	uzp2	v16.8h, v17.8h, v16.8h
	adrp	x9, .LCPI_9ba498_8
	mvn	v17.16b, v3.16b
	ldr	q18, [x9, :lo12:.LCPI_9ba498_8]
	tbl	v6.16b, { v7.16b }, v1.16b
	mvn	v7.16b, v2.16b
	tbl	v4.16b, { v4.16b }, v1.16b
	ushr	v17.4s, v17.4s, #24
	ushr	v7.4s, v7.4s, #24
	orr	v5.16b, v6.16b, v5.16b
	movi	v6.8h, #128
	orr	v16.16b, v4.16b, v16.16b
	movi	v4.8h, #128
	tbl	v17.16b, { v17.16b }, v18.16b
	tbl	v19.16b, { v7.16b }, v18.16b
	movi	v7.8h, #128
	ushr	v20.4s, v5.4s, #24
	ushr	v24.8h, v5.8h, #8
	bic	v5.8h, #255, lsl #8
	ushr	v21.4s, v16.4s, #24
	ushr	v22.8h, v16.8h, #8
	bic	v16.8h, #255, lsl #8
	tbl	v20.16b, { v20.16b }, v18.16b
	mla	v23.8h, v24.8h, v17.8h
	movi	v24.8h, #128
	tbl	v18.16b, { v21.16b }, v18.16b
	mla	v6.8h, v22.8h, v19.8h
	movi	v22.8h, #128
	ushr	v21.8h, v3.8h, #8
	mla	v4.8h, v16.8h, v19.8h
	ushr	v19.8h, v2.8h, #8
	movi	v16.8h, #128
	bic	v3.8h, #255, lsl #8
	bic	v2.8h, #255, lsl #8
	mla	v7.8h, v21.8h, v20.8h
	movi	v21.8h, #128
	mla	v22.8h, v19.8h, v18.8h
	umull2	v19.4s, v23.8h, v0.8h
	umull	v23.4s, v23.4h, v0.4h
	mla	v24.8h, v3.8h, v20.8h
	mla	v16.8h, v5.8h, v17.8h
	umull2	v5.4s, v6.8h, v0.8h
	umull	v6.4s, v6.4h, v0.4h
	umull2	v3.4s, v7.8h, v0.8h
	umull	v7.4s, v7.4h, v0.4h
	mla	v21.8h, v2.8h, v18.8h
	umull2	v2.4s, v22.8h, v0.8h
	umull	v17.4s, v22.4h, v0.4h
	umull2	v18.4s, v4.8h, v0.8h
	umull	v4.4s, v4.4h, v0.4h
	uzp2	v19.8h, v23.8h, v19.8h
	umull2	v20.4s, v16.8h, v0.8h
	umull	v16.4s, v16.4h, v0.4h
	uzp2	v5.8h, v6.8h, v5.8h
	umull2	v6.4s, v24.8h, v0.8h
	umull	v22.4s, v24.4h, v0.4h
	uzp2	v3.8h, v7.8h, v3.8h
	umull2	v7.4s, v21.8h, v0.8h
	umull	v0.4s, v21.4h, v0.4h
	uzp2	v2.8h, v17.8h, v2.8h
	uzp2	v4.8h, v4.8h, v18.8h
	tbl	v17.16b, { v19.16b }, v1.16b
	uzp2	v16.8h, v16.8h, v20.8h
	tbl	v5.16b, { v5.16b }, v1.16b
	uzp2	v6.8h, v22.8h, v6.8h
	tbl	v3.16b, { v3.16b }, v1.16b
	uzp2	v0.8h, v0.8h, v7.8h
	tbl	v1.16b, { v2.16b }, v1.16b
	orr	v2.16b, v17.16b, v16.16b
	orr	v4.16b, v5.16b, v4.16b
	orr	v3.16b, v3.16b, v6.16b
	orr	v0.16b, v1.16b, v0.16b
	uqadd	v1.16b, v2.16b, v3.16b
	uqadd	v0.16b, v4.16b, v0.16b
	stp	q1, q0, [x0]
	tbz	w16, #2, .LBB_9ba498_258
.LBB_9ba498_260:
	adrp	x9, .LCPI_9ba498_1
	and	x8, x16, #0x8
	ldr	q5, [x24, x21]
	ldr	s0, [x25, x8]
	ldr	q1, [x9, :lo12:.LCPI_9ba498_1]
	movi	v2.8h, #128
	ushr	v4.8h, v5.8h, #8
	movi	v6.8h, #128
	bic	v5.8h, #255, lsl #8
	tbl	v1.16b, { v0.16b }, v1.16b
	movi	v0.16b, #1
	adrp	x9, .LCPI_9ba498_0
	movi	v7.8h, #128
	ushr	v3.8h, v1.8h, #8
	bic	v1.8h, #255, lsl #8
	mla	v2.8h, v3.8h, v4.8h
	mla	v6.8h, v1.8h, v5.8h
	umull2	v1.4s, v2.8h, v0.8h
	umull	v2.4s, v2.4h, v0.4h
	umull2	v3.4s, v6.8h, v0.8h
	umull	v4.4s, v6.4h, v0.4h
	uzp2	v2.8h, v2.8h, v1.8h
	ldr	q1, [x9, :lo12:.LCPI_9ba498_0]
	adrp	x9, .LCPI_9ba498_9
	uzp2	v3.8h, v4.8h, v3.8h
	ldr	q4, [x0, x21]
	ldr	q6, [x9, :lo12:.LCPI_9ba498_9]
	mvn	v5.16b, v4.16b
	ushr	v18.8h, v4.8h, #8
	bic	v4.8h, #255, lsl #8
	tbl	v2.16b, { v2.16b }, v1.16b
	orr	v2.16b, v2.16b, v3.16b
	ushr	v3.4s, v5.4s, #24
	ushr	v5.4s, v2.4s, #24
	tbl	v3.16b, { v3.16b }, v6.16b
	ushr	v16.8h, v2.8h, #8
	bic	v2.8h, #255, lsl #8
	tbl	v5.16b, { v5.16b }, v6.16b
	movi	v6.8h, #128
	ushr	v17.8h, v3.8h, #8
	bic	v3.8h, #255, lsl #8
	ushr	v19.8h, v5.8h, #8
	mla	v6.8h, v16.8h, v17.8h
	movi	v16.8h, #128
	movi	v17.8h, #128
	bic	v5.8h, #255, lsl #8
	mla	v7.8h, v19.8h, v18.8h
	mla	v16.8h, v2.8h, v3.8h
	umull2	v2.4s, v6.8h, v0.8h
	umull	v3.4s, v6.4h, v0.4h
	mla	v17.8h, v5.8h, v4.8h
	umull2	v4.4s, v7.8h, v0.8h
	umull	v5.4s, v7.4h, v0.4h
	umull2	v6.4s, v16.8h, v0.8h
	umull	v7.4s, v16.4h, v0.4h
	uzp2	v2.8h, v3.8h, v2.8h
	umull2	v3.4s, v17.8h, v0.8h
	umull	v0.4s, v17.4h, v0.4h
	uzp2	v4.8h, v5.8h, v4.8h
	uzp2	v5.8h, v7.8h, v6.8h
	tbl	v2.16b, { v2.16b }, v1.16b
	uzp2	v0.8h, v0.8h, v3.8h
	tbl	v1.16b, { v4.16b }, v1.16b
	orr	v2.16b, v2.16b, v5.16b
	orr	v0.16b, v1.16b, v0.16b
	uqadd	v0.16b, v2.16b, v0.16b
	str	q0, [x0, x21]
	and	x8, x16, #0xc
	cmp	x8, x4
	b.eq	.LBB_9ba498_251
.LBB_9ba498_261:
	mov	x0, x27
	mov	x24, x26
	mov	x25, x23
	and	x30, x16, #0xc
.LBB_9ba498_262:
	ldr	w15, [x24], #4
	adrp	x9, .LCPI_9ba498_2
	ldr	d1, [x9, :lo12:.LCPI_9ba498_2]
	ldr	w14, [x0]
	movi	v3.4h, #128
	dup	v0.2s, w15
	ldrb	w9, [x25], #1
	movi	v4.4h, #128
	add	x30, x30, #1
	cmp	x30, x4
	ushl	v0.2s, v0.2s, v1.2s
	mov	s2, v0.s[1]
	str	h0, [sp, #220]
	dup	v0.2s, w14
	str	h2, [sp, #222]
	ushl	v0.2s, v0.2s, v1.2s
	ldr	s2, [sp, #220]
	zip1	v2.8b, v2.8b, v2.8b
	mov	s1, v0.s[1]
	str	h0, [sp, #212]
	mov	v2.h[1], wzr
	str	h1, [sp, #214]
	ldr	s1, [sp, #212]
	zip1	v1.8b, v1.8b, v1.8b
	uzp1	v0.8b, v2.8b, v0.8b
	dup	v2.4h, w9
	mvn	w9, w14
	mov	v1.h[1], wzr
	ushll	v0.4s, v0.4h, #0
	mov	w8, v0.s[1]
	uzp1	v1.8b, v1.8b, v0.8b
	mov	v0.h[1], w8
	ubfx	w8, w15, #8, #8
	ushll	v1.4s, v1.4h, #0
	and	w15, w15, #0xff
	mov	v0.h[2], w8
	mov	w8, v1.s[1]
	mov	v0.h[3], w15
	mov	v1.h[1], w8
	ubfx	w8, w14, #8, #8
	mla	v3.4h, v0.4h, v2.4h
	mov	v1.h[2], w8
	and	w8, w14, #0xff
	movi	v0.4h, #128
	usra	v3.4h, v3.4h, #8
	mov	v1.h[3], w8
	lsr	w8, w9, #24
	ushr	v2.4h, v3.4h, #8
	dup	v3.4h, w8
	adrp	x8, .LCPI_9ba498_4
	mla	v0.4h, v1.4h, v2.h[1]
	movi	d1, #0xff00ff00ff00ff
	mla	v4.4h, v2.4h, v3.4h
	usra	v0.4h, v0.4h, #8
	usra	v4.4h, v4.4h, #8
	ushr	v0.4h, v0.4h, #8
	usra	v0.4h, v4.4h, #8
	umin	v0.4h, v0.4h, v1.4h
	ldr	q1, [x8, :lo12:.LCPI_9ba498_4]
	ushll	v0.4s, v0.4h, #0
	ushl	v0.4s, v0.4s, v1.4s
	ext	v1.16b, v0.16b, v0.16b, #8
	orr	v0.8b, v0.8b, v1.8b
	fmov	x8, d0
	lsr	x9, x8, #32
	orr	w8, w8, w9
	str	w8, [x0], #4
	b.lo	.LBB_9ba498_262
	b	.LBB_9ba498_251
.LBB_9ba498_263:
	cmp	w8, #2
	b.eq	.LBB_9ba498_300
	cbz	w24, .LBB_9ba498_467
	sub	x8, x18, x25
	mov	x9, #4294967296
	orr	x13, x24, #0x100000000
	add	x8, x8, x9
	mov	x14, #-4294967296
	cmp	x8, x9
	add	x15, x8, x15
	csel	x11, x8, x9, hi
	cmp	x13, x15
	sub	x8, x12, x22
	csel	x13, x13, x15, lo
	add	x12, x11, x14
	add	x15, x8, x9
	cmp	x13, x11
	add	x10, x15, x10
	csel	x8, x12, xzr, hi
	cmp	x15, x9
	orr	x12, x21, #0x100000000
	csel	x9, x15, x9, hi
	cmp	x12, x10
	csel	x10, x12, x10, lo
	add	x12, x9, x14
	cmp	x10, x9
	csel	x9, x12, xzr, hi
	b.ls	.LBB_9ba498_467
	add	x10, x10, x14
	cmp	x10, x9
	b.ls	.LBB_9ba498_467
	ld1r	{ v0.4s }, [x2]
	adrp	x12, .LCPI_9ba498_3
	adrp	x14, .LCPI_9ba498_9
	ldr	q1, [x12, :lo12:.LCPI_9ba498_3]
	adrp	x12, .LCPI_9ba498_16
	cmp	x13, x11
	ldr	q2, [x12, :lo12:.LCPI_9ba498_16]
	mov	x12, #-4294967296
	madd	x17, x9, x20, x8
	ushl	v0.4s, v0.4s, v1.4s
	add	x11, x13, x12
	adrp	x12, .LCPI_9ba498_8
	csel	x11, x11, xzr, hi
	ldr	q4, [x12, :lo12:.LCPI_9ba498_8]
	sub	x11, x11, x8
	xtn	v0.4h, v0.4s
	and	x13, x11, #0xfffffffffffffff0
	lsl	x18, x11, #2
	lsr	x0, x13, #4
	add	x3, x19, x17, lsl #2
	lsr	x12, x11, #4
	and	x16, x18, #0x20
	and	x2, x18, #0x30
	mov	w18, #255
	bfi	x2, x0, #6, #58
	lsl	x15, x13, #2
	and	x17, x11, #0xc
	uzp1	v1.8b, v0.8b, v0.8b
	umov	w1, v0.h[1]
	tbl	v1.16b, { v1.16b }, v2.16b
	bic	w0, w18, w1
	lsl	x18, x20, #2
	fmov	s5, w0
	add	x0, x3, #32
	add	x1, x3, x2
	mvn	v2.16b, v1.16b
	ushr	v3.4s, v2.4s, #24
	ldr	q2, [x14, :lo12:.LCPI_9ba498_9]
	and	x14, x11, #0xf
	tbl	v2.16b, { v3.16b }, v2.16b
	tbl	v3.16b, { v3.16b }, v4.16b
	ushr	v4.8h, v2.8h, #8
	bic	v2.8h, #255, lsl #8
	b	.LBB_9ba498_269
.LBB_9ba498_268:
	add	x9, x9, #1
	add	x0, x0, x18
	add	x1, x1, x18
	cmp	x9, x10
	b.eq	.LBB_9ba498_467
.LBB_9ba498_269:
	cbz	x12, .LBB_9ba498_272
	mov	x2, x0
	mov	x3, x12
.LBB_9ba498_271:
	ldp	q24, q20, [x2, #-32]
	movi	v6.8h, #128
	ldp	q22, q21, [x2]
	movi	v16.8h, #128
	movi	v17.8h, #128
	movi	v25.8h, #128
	movi	v26.8h, #128
	ushr	v19.8h, v20.8h, #8
	bic	v20.8h, #255, lsl #8
	ushr	v23.8h, v24.8h, #8
	ushr	v27.8h, v22.8h, #8
	ushr	v28.8h, v21.8h, #8
	adrp	x4, .LCPI_9ba498_0
	movi	v7.8h, #128
	movi	v18.16b, #1
	subs	x3, x3, #1
	mla	v6.8h, v20.8h, v3.8h
	movi	v20.8h, #128
	mla	v17.8h, v23.8h, v3.8h
	mla	v16.8h, v19.8h, v3.8h
	movi	v19.8h, #128
	mla	v25.8h, v27.8h, v3.8h
	mla	v26.8h, v28.8h, v3.8h
	bic	v24.8h, #255, lsl #8
	bic	v22.8h, #255, lsl #8
	bic	v21.8h, #255, lsl #8
	umull2	v23.4s, v6.8h, v18.8h
	umull	v6.4s, v6.4h, v18.4h
	mla	v7.8h, v24.8h, v3.8h
	umull2	v24.4s, v17.8h, v18.8h
	umull	v17.4s, v17.4h, v18.4h
	umull2	v28.4s, v16.8h, v18.8h
	umull	v16.4s, v16.4h, v18.4h
	mla	v20.8h, v22.8h, v3.8h
	umull2	v22.4s, v25.8h, v18.8h
	umull	v25.4s, v25.4h, v18.4h
	mla	v19.8h, v21.8h, v3.8h
	umull2	v21.4s, v26.8h, v18.8h
	umull	v26.4s, v26.4h, v18.4h
	uzp2	v6.8h, v6.8h, v23.8h
	umull2	v27.4s, v7.8h, v18.8h
	umull	v7.4s, v7.4h, v18.4h
	uzp2	v17.8h, v17.8h, v24.8h
	ldr	q24, [x4, :lo12:.LCPI_9ba498_0]
	uzp2	v16.8h, v16.8h, v28.8h
	umull2	v28.4s, v20.8h, v18.8h
	umull	v20.4s, v20.4h, v18.4h
	uzp2	v22.8h, v25.8h, v22.8h
	umull2	v25.4s, v19.8h, v18.8h
	umull	v18.4s, v19.4h, v18.4h
	uzp2	v19.8h, v26.8h, v21.8h
	uzp2	v7.8h, v7.8h, v27.8h
	tbl	v17.16b, { v17.16b }, v24.16b
	tbl	v16.16b, { v16.16b }, v24.16b
	uzp2	v20.8h, v20.8h, v28.8h
	tbl	v21.16b, { v22.16b }, v24.16b
	uzp2	v18.8h, v18.8h, v25.8h
	tbl	v19.16b, { v19.16b }, v24.16b
	orr	v7.16b, v17.16b, v7.16b
	orr	v6.16b, v16.16b, v6.16b
	orr	v16.16b, v21.16b, v20.16b
	orr	v17.16b, v19.16b, v18.16b
	uqadd	v7.16b, v1.16b, v7.16b
	uqadd	v6.16b, v1.16b, v6.16b
	uqadd	v16.16b, v1.16b, v16.16b
	uqadd	v17.16b, v1.16b, v17.16b
	stp	q7, q6, [x2, #-32]
	stp	q16, q17, [x2], #64
	b.ne	.LBB_9ba498_271
.LBB_9ba498_272:
	cmp	x13, x11
	b.eq	.LBB_9ba498_268
	mul	x2, x9, x20
	add	x2, x2, x8
	add	x2, x19, x2, lsl #2
	add	x2, x2, x15
	tbnz	w11, #3, .LBB_9ba498_276
	tbnz	w11, #2, .LBB_9ba498_277
.LBB_9ba498_275:
	cmp	x14, x17
	b.ls	.LBB_9ba498_268
	b	.LBB_9ba498_278
.LBB_9ba498_276:
	ldp	q6, q16, [x2]
	movi	v7.8h, #128
	movi	v18.8h, #128
	movi	v19.8h, #128
	movi	v21.8h, #128
	adrp	x3, .LCPI_9ba498_0
	ushr	v17.8h, v6.8h, #8
	ushr	v20.8h, v16.8h, #8
	bic	v16.8h, #255, lsl #8
	bic	v6.8h, #255, lsl #8
	mla	v7.8h, v17.8h, v3.8h
	movi	v17.16b, #1
	mla	v18.8h, v20.8h, v3.8h
	mla	v21.8h, v16.8h, v3.8h
	mla	v19.8h, v6.8h, v3.8h
	umull2	v6.4s, v7.8h, v17.8h
	umull	v7.4s, v7.4h, v17.4h
	umull2	v16.4s, v18.8h, v17.8h
	umull	v18.4s, v18.4h, v17.4h
	umull2	v20.4s, v21.8h, v17.8h
	uzp2	v6.8h, v7.8h, v6.8h
	umull2	v7.4s, v19.8h, v17.8h
	umull	v19.4s, v19.4h, v17.4h
	umull	v17.4s, v21.4h, v17.4h
	uzp2	v16.8h, v18.8h, v16.8h
	ldr	q18, [x3, :lo12:.LCPI_9ba498_0]
	uzp2	v7.8h, v19.8h, v7.8h
	tbl	v6.16b, { v6.16b }, v18.16b
	uzp2	v17.8h, v17.8h, v20.8h
	tbl	v16.16b, { v16.16b }, v18.16b
	orr	v6.16b, v6.16b, v7.16b
	orr	v7.16b, v16.16b, v17.16b
	uqadd	v6.16b, v1.16b, v6.16b
	uqadd	v7.16b, v1.16b, v7.16b
	stp	q6, q7, [x2]
	tbz	w11, #2, .LBB_9ba498_275
.LBB_9ba498_277:
	ldr	q6, [x2, x16]
	movi	v7.8h, #128
	movi	v17.8h, #128
	movi	v18.16b, #1
	adrp	x3, .LCPI_9ba498_0
	ushr	v16.8h, v6.8h, #8
	bic	v6.8h, #255, lsl #8
	mla	v7.8h, v16.8h, v4.8h
	mla	v17.8h, v6.8h, v2.8h
	umull2	v6.4s, v7.8h, v18.8h
	umull	v7.4s, v7.4h, v18.4h
	umull2	v16.4s, v17.8h, v18.8h
	umull	v17.4s, v17.4h, v18.4h
	uzp2	v6.8h, v7.8h, v6.8h
	ldr	q7, [x3, :lo12:.LCPI_9ba498_0]
	uzp2	v16.8h, v17.8h, v16.8h
	tbl	v6.16b, { v6.16b }, v7.16b
	orr	v6.16b, v6.16b, v16.16b
	uqadd	v6.16b, v1.16b, v6.16b
	str	q6, [x2, x16]
	cmp	x14, x17
	b.ls	.LBB_9ba498_268
.LBB_9ba498_278:
	mov	x2, x1
	sub	x3, x14, x17
.LBB_9ba498_279:
	ldr	w4, [x2]
	adrp	x5, .LCPI_9ba498_2
	movi	d16, #0xff00ff00ff00ff
	ldr	d7, [x5, :lo12:.LCPI_9ba498_2]
	subs	x3, x3, #1
	dup	v6.2s, w4
	ushl	v6.2s, v6.2s, v7.2s
	mov	s7, v6.s[1]
	str	h6, [sp, #108]
	str	h7, [sp, #110]
	movi	v7.4h, #128
	ldr	s6, [sp, #108]
	zip1	v6.8b, v6.8b, v6.8b
	mov	v6.h[1], wzr
	uzp1	v6.8b, v6.8b, v0.8b
	ushll	v6.4s, v6.4h, #0
	mov	w5, v6.s[1]
	mov	v6.h[1], w5
	ubfx	w5, w4, #8, #8
	and	w4, w4, #0xff
	mov	v6.h[2], w5
	mov	v6.h[3], w4
	adrp	x4, .LCPI_9ba498_4
	mla	v7.4h, v6.4h, v5.h[0]
	fmov	d6, d0
	usra	v7.4h, v7.4h, #8
	bic	v6.4h, #255, lsl #8
	usra	v6.4h, v7.4h, #8
	ldr	q7, [x4, :lo12:.LCPI_9ba498_4]
	umin	v6.4h, v6.4h, v16.4h
	ushll	v6.4s, v6.4h, #0
	ushl	v6.4s, v6.4s, v7.4s
	ext	v7.16b, v6.16b, v6.16b, #8
	orr	v6.8b, v6.8b, v7.8b
	fmov	x4, d6
	lsr	x5, x4, #32
	orr	w4, w4, w5
	str	w4, [x2], #4
	b.ne	.LBB_9ba498_279
	b	.LBB_9ba498_268
.LBB_9ba498_280:
	cmp	w8, #6
	b.ne	.LBB_9ba498_588
	cbz	w24, .LBB_9ba498_467
	sub	x1, x18, x25
	mov	x18, #4294967296
	ldur	x26, [x29, #-152]
	ldpsw	x9, x0, [x29, #-136]
	add	x5, x1, x18
	add	x6, x14, x18
	mov	x27, #4294967296
	cmp	x6, x5
	orr	x28, x24, #0x100000000
	bfxil	x27, x13, #0, #32
	add	x7, x9, x18
	csel	x25, x6, x5, lo
	mov	x30, #4294967296
	cmp	x7, x25
	bfxil	x30, x26, #0, #32
	mov	x17, xzr
	csel	x25, x7, x25, lo
	str	xzr, [sp, #80]
	subs	x25, x18, x25
	str	xzr, [sp, #64]
	csel	x24, xzr, x25, lo
	subs	x5, x28, x5
	csel	x5, xzr, x5, lo
	subs	x6, x27, x6
	csel	x6, xzr, x6, lo
	subs	x7, x30, x7
	csel	x7, xzr, x7, lo
	cmp	w16, w15
	csel	w16, w16, w15, lo
	ldp	w25, w15, [x29, #-128]
	cmp	w25, w16
	csel	w16, w25, w16, lo
	cmp	x5, x16
	csel	x16, x5, x16, lo
	mov	x5, xzr
	cmp	x6, x16
	csel	x16, x6, x16, lo
	lsr	x6, x26, #32
	cmp	x7, x16
	csel	x16, x7, x16, lo
	lsr	x7, x13, #32
	cmp	x16, x24
	b.ls	.LBB_9ba498_284
	add	x8, x24, x1
	add	x17, x16, x1
	add	x5, x24, x9
	str	x8, [sp, #80]
	add	x8, x24, x14
	str	x8, [sp, #64]
.LBB_9ba498_284:
	sub	x12, x12, x22
	add	x14, x4, x18
	add	x13, x0, x18
	add	x9, x12, x18
	orr	x1, x7, #0x100000000
	orr	x6, x6, #0x100000000
	cmp	x14, x9
	csel	x16, x14, x9, lo
	cmp	x13, x16
	csel	x16, x13, x16, lo
	subs	x16, x18, x16
	orr	x18, x21, #0x100000000
	csel	x16, xzr, x16, lo
	subs	x18, x18, x9
	csel	x18, xzr, x18, lo
	subs	x1, x1, x14
	csel	x1, xzr, x1, lo
	subs	x6, x6, x13
	csel	x6, xzr, x6, lo
	cmp	w11, w10
	csel	w10, w11, w10, lo
	cmp	w15, w10
	csel	w10, w15, w10, lo
	cmp	x18, x10
	csel	x10, x18, x10, lo
	cmp	x1, x10
	csel	x10, x1, x10, lo
	cmp	x6, x10
	csel	x11, x6, x10, lo
	cmp	x11, x16
	b.ls	.LBB_9ba498_467
	add	x10, x16, x12
	add	x11, x11, x12
	cmp	x10, x11
	b.hs	.LBB_9ba498_467
	cmp	x9, x14
	add	x8, x16, x4
	mul	x6, x20, x10
	csel	x9, x9, x14, lo
	mov	x14, #4294967296
	str	x8, [sp, #48]
	cmp	x9, x13
	add	x8, x16, x0
	ldur	x12, [x29, #-144]
	csel	x9, x9, x13, lo
	str	x8, [sp, #32]
	add	x8, x23, x5
	cmp	x9, x14
	str	x8, [sp, #16]
	ldr	x8, [sp, #80]
	csel	x9, x9, x14, lo
	ldr	x15, [sp, #64]
	lsl	x27, x6, #2
	sub	x7, x4, x9
	sub	x9, x0, x9
	sub	x16, x17, x8
	add	x7, x7, x14
	add	x9, x9, x14
	and	x1, x16, #0xfffffffffffffff0
	mul	x0, x3, x7
	lsl	x24, x16, #2
	lsl	x22, x8, #2
	lsl	x7, x1, #2
	lsl	x15, x15, #2
	and	x25, x16, #0xc
	madd	x9, x12, x9, x5
	and	x24, x24, #0x30
	add	x5, x22, x19
	add	x24, x7, x24
	and	x8, x16, #0x8
	add	x14, x15, x2
	add	x25, x1, x25
	add	x15, x24, x15
	add	x6, x24, x22
	lsl	x0, x0, #2
	add	x5, x27, x5
	lsl	x17, x3, #2
	lsl	x18, x20, #2
	lsr	x13, x16, #4
	lsl	x21, x8, #2
	add	x25, x23, x25
	add	x15, x2, x15
	add	x24, x19, x6
	add	x22, x5, #32
	add	x5, x9, x23
	add	x14, x0, x14
	and	x4, x16, #0xf
	add	x23, x25, x9
	add	x5, x5, #8
	add	x6, x14, #32
	add	x26, x15, x0
	add	x27, x24, x27
	mov	x28, x10
	b	.LBB_9ba498_288
.LBB_9ba498_287:
	add	x28, x28, #1
	add	x5, x5, x12
	add	x6, x6, x17
	add	x22, x22, x18
	cmp	x28, x11
	add	x23, x23, x12
	add	x26, x26, x17
	add	x27, x27, x18
	b.eq	.LBB_9ba498_467
.LBB_9ba498_288:
	cbz	x13, .LBB_9ba498_291
	mov	x30, x22
	mov	x25, x6
	mov	x24, x5
	mov	x0, x13
.LBB_9ba498_290:
	ldur	d0, [x24, #-8]
	movi	v3.8h, #1
	movi	v7.8h, #128
	ldp	q5, q4, [x25, #-32]
	movi	v16.8h, #128
	zip1	v0.16b, v0.16b, v0.16b
	movi	v6.8h, #128
	movi	v19.8h, #128
	adrp	x9, .LCPI_9ba498_0
	subs	x0, x0, #1
	ushr	v17.8h, v4.8h, #8
	ushr	v20.8h, v5.8h, #8
	bic	v4.8h, #255, lsl #8
	bic	v5.8h, #255, lsl #8
	ushll2	v1.4s, v0.8h, #0
	ushll	v0.4s, v0.4h, #0
	mul	v1.4s, v1.4s, v3.4s
	mul	v2.4s, v0.4s, v3.4s
	movi	v0.16b, #1
	ushr	v18.8h, v1.8h, #8
	ushr	v21.8h, v2.8h, #8
	bic	v1.8h, #255, lsl #8
	bic	v2.8h, #255, lsl #8
	mla	v7.8h, v18.8h, v17.8h
	mla	v16.8h, v21.8h, v20.8h
	mla	v6.8h, v1.8h, v4.8h
	mla	v19.8h, v2.8h, v5.8h
	movi	v18.8h, #128
	umull2	v1.4s, v7.8h, v0.8h
	umull	v4.4s, v7.4h, v0.4h
	umull2	v2.4s, v16.8h, v0.8h
	umull	v5.4s, v16.4h, v0.4h
	umull2	v7.4s, v6.8h, v0.8h
	umull	v6.4s, v6.4h, v0.4h
	umull2	v16.4s, v19.8h, v0.8h
	umull	v17.4s, v19.4h, v0.4h
	movi	v19.8h, #128
	uzp2	v4.8h, v4.8h, v1.8h
	ldr	q1, [x9, :lo12:.LCPI_9ba498_0]
	adrp	x9, .LCPI_9ba498_8
	uzp2	v2.8h, v5.8h, v2.8h
	uzp2	v5.8h, v6.8h, v7.8h
	uzp2	v6.8h, v17.8h, v16.8h
	ldp	q17, q16, [x30, #-32]
	tbl	v4.16b, { v4.16b }, v1.16b
	tbl	v2.16b, { v2.16b }, v1.16b
	ushr	v20.8h, v16.8h, #8
	ushr	v21.8h, v17.8h, #8
	bic	v17.8h, #255, lsl #8
	bic	v16.8h, #255, lsl #8
	orr	v4.16b, v4.16b, v5.16b
	orr	v5.16b, v2.16b, v6.16b
	mvn	v2.16b, v4.16b
	mvn	v6.16b, v5.16b
	ushr	v7.4s, v2.4s, #24
	ldr	q2, [x9, :lo12:.LCPI_9ba498_8]
	ushr	v6.4s, v6.4s, #24
	tbl	v7.16b, { v7.16b }, v2.16b
	tbl	v6.16b, { v6.16b }, v2.16b
	mla	v18.8h, v20.8h, v7.8h
	movi	v20.8h, #128
	mla	v19.8h, v21.8h, v6.8h
	movi	v21.8h, #128
	mla	v20.8h, v17.8h, v6.8h
	umull2	v6.4s, v19.8h, v0.8h
	umull	v17.4s, v19.4h, v0.4h
	mla	v21.8h, v16.8h, v7.8h
	umull2	v7.4s, v18.8h, v0.8h
	umull	v16.4s, v18.4h, v0.4h
	umull2	v18.4s, v20.8h, v0.8h
	umull	v19.4s, v20.4h, v0.4h
	uzp2	v6.8h, v17.8h, v6.8h
	umull2	v17.4s, v21.8h, v0.8h
	umull	v20.4s, v21.4h, v0.4h
	uzp2	v7.8h, v16.8h, v7.8h
	uzp2	v16.8h, v19.8h, v18.8h
	movi	v18.8h, #128
	movi	v19.8h, #128
	tbl	v6.16b, { v6.16b }, v1.16b
	uzp2	v17.8h, v20.8h, v17.8h
	tbl	v7.16b, { v7.16b }, v1.16b
	orr	v6.16b, v6.16b, v16.16b
	orr	v7.16b, v7.16b, v17.16b
	uqadd	v5.16b, v5.16b, v6.16b
	uqadd	v4.16b, v4.16b, v7.16b
	stp	q5, q4, [x30, #-32]
	ldr	d4, [x24], #16
	ldp	q6, q7, [x25], #64
	zip1	v4.16b, v4.16b, v4.16b
	ushr	v16.8h, v6.8h, #8
	ushr	v20.8h, v7.8h, #8
	bic	v6.8h, #255, lsl #8
	bic	v7.8h, #255, lsl #8
	ushll	v5.4s, v4.4h, #0
	ushll2	v4.4s, v4.8h, #0
	mul	v5.4s, v5.4s, v3.4s
	mul	v3.4s, v4.4s, v3.4s
	movi	v4.8h, #128
	ushr	v17.8h, v5.8h, #8
	ushr	v21.8h, v3.8h, #8
	bic	v5.8h, #255, lsl #8
	bic	v3.8h, #255, lsl #8
	mla	v4.8h, v17.8h, v16.8h
	movi	v16.8h, #128
	mla	v18.8h, v21.8h, v20.8h
	mla	v19.8h, v3.8h, v7.8h
	movi	v20.8h, #128
	movi	v21.8h, #128
	mla	v16.8h, v5.8h, v6.8h
	umull2	v5.4s, v4.8h, v0.8h
	umull	v4.4s, v4.4h, v0.4h
	umull2	v3.4s, v18.8h, v0.8h
	umull	v6.4s, v18.4h, v0.4h
	umull	v17.4s, v19.4h, v0.4h
	movi	v18.8h, #128
	umull2	v7.4s, v16.8h, v0.8h
	umull	v16.4s, v16.4h, v0.4h
	uzp2	v4.8h, v4.8h, v5.8h
	umull2	v5.4s, v19.8h, v0.8h
	uzp2	v3.8h, v6.8h, v3.8h
	uzp2	v6.8h, v16.8h, v7.8h
	tbl	v4.16b, { v4.16b }, v1.16b
	uzp2	v5.8h, v17.8h, v5.8h
	tbl	v3.16b, { v3.16b }, v1.16b
	movi	v17.8h, #128
	ldp	q7, q16, [x30]
	orr	v4.16b, v4.16b, v6.16b
	orr	v3.16b, v3.16b, v5.16b
	ushr	v19.8h, v7.8h, #8
	bic	v7.8h, #255, lsl #8
	mvn	v5.16b, v4.16b
	mvn	v6.16b, v3.16b
	ushr	v5.4s, v5.4s, #24
	ushr	v6.4s, v6.4s, #24
	tbl	v5.16b, { v5.16b }, v2.16b
	tbl	v2.16b, { v6.16b }, v2.16b
	ushr	v6.8h, v16.8h, #8
	bic	v16.8h, #255, lsl #8
	mla	v17.8h, v19.8h, v5.8h
	mla	v20.8h, v7.8h, v5.8h
	mla	v18.8h, v6.8h, v2.8h
	mla	v21.8h, v16.8h, v2.8h
	umull2	v5.4s, v17.8h, v0.8h
	umull	v6.4s, v17.4h, v0.4h
	umull2	v16.4s, v20.8h, v0.8h
	umull2	v2.4s, v18.8h, v0.8h
	umull	v7.4s, v18.4h, v0.4h
	umull	v17.4s, v20.4h, v0.4h
	uzp2	v5.8h, v6.8h, v5.8h
	umull2	v6.4s, v21.8h, v0.8h
	umull	v0.4s, v21.4h, v0.4h
	uzp2	v2.8h, v7.8h, v2.8h
	uzp2	v7.8h, v17.8h, v16.8h
	tbl	v5.16b, { v5.16b }, v1.16b
	uzp2	v0.8h, v0.8h, v6.8h
	tbl	v1.16b, { v2.16b }, v1.16b
	orr	v2.16b, v5.16b, v7.16b
	orr	v0.16b, v1.16b, v0.16b
	uqadd	v1.16b, v4.16b, v2.16b
	uqadd	v0.16b, v3.16b, v0.16b
	stp	q1, q0, [x30], #64
	b.ne	.LBB_9ba498_290
.LBB_9ba498_291:
	cmp	x1, x16
	b.eq	.LBB_9ba498_287
	ldr	x8, [sp, #80]
	madd	x9, x28, x20, x8
	sub	x14, x28, x10
	ldr	x8, [sp, #48]
	add	x15, x8, x14
	ldr	x8, [sp, #64]
	madd	x15, x15, x3, x8
	ldr	x8, [sp, #32]
	add	x9, x19, x9, lsl #2
	add	x14, x8, x14
	ldr	x8, [sp, #16]
	madd	x14, x14, x12, x8
	add	x0, x9, x7
	and	x8, x16, #0x8
	add	x15, x2, x15, lsl #2
	add	x24, x15, x7
	add	x25, x14, x1
	cbnz	x8, .LBB_9ba498_295
	tbnz	w16, #2, .LBB_9ba498_296
.LBB_9ba498_294:
	and	x8, x16, #0xc
	cmp	x8, x4
	b.eq	.LBB_9ba498_287
	b	.LBB_9ba498_297
.LBB_9ba498_295:
	ldr	d0, [x25]
	movi	v1.8h, #1
	movi	v4.8h, #128
	ldp	q5, q3, [x24]
	movi	v16.8h, #128
	zip1	v0.16b, v0.16b, v0.16b
	movi	v7.8h, #128
	movi	v17.8h, #128
	adrp	x9, .LCPI_9ba498_0
	ushr	v18.8h, v5.8h, #8
	bic	v5.8h, #255, lsl #8
	ushll2	v2.4s, v0.8h, #0
	ushll	v0.4s, v0.4h, #0
	mul	v2.4s, v2.4s, v1.4s
	mul	v1.4s, v0.4s, v1.4s
	ushr	v0.8h, v3.8h, #8
	bic	v3.8h, #255, lsl #8
	ushr	v6.8h, v2.8h, #8
	ushr	v19.8h, v1.8h, #8
	bic	v2.8h, #255, lsl #8
	bic	v1.8h, #255, lsl #8
	mla	v4.8h, v6.8h, v0.8h
	movi	v0.16b, #1
	mla	v16.8h, v19.8h, v18.8h
	mla	v7.8h, v2.8h, v3.8h
	mla	v17.8h, v1.8h, v5.8h
	movi	v18.8h, #128
	umull2	v2.4s, v4.8h, v0.8h
	umull	v3.4s, v4.4h, v0.4h
	umull2	v1.4s, v16.8h, v0.8h
	umull	v4.4s, v16.4h, v0.4h
	umull2	v5.4s, v7.8h, v0.8h
	umull	v6.4s, v7.4h, v0.4h
	umull	v7.4s, v17.4h, v0.4h
	uzp2	v2.8h, v3.8h, v2.8h
	umull2	v3.4s, v17.8h, v0.8h
	movi	v17.8h, #128
	uzp2	v4.8h, v4.8h, v1.8h
	ldr	q1, [x9, :lo12:.LCPI_9ba498_0]
	uzp2	v5.8h, v6.8h, v5.8h
	adrp	x9, .LCPI_9ba498_8
	ldr	q6, [x9, :lo12:.LCPI_9ba498_8]
	tbl	v2.16b, { v2.16b }, v1.16b
	uzp2	v3.8h, v7.8h, v3.8h
	tbl	v4.16b, { v4.16b }, v1.16b
	ldp	q16, q7, [x0]
	orr	v2.16b, v2.16b, v5.16b
	ushr	v19.8h, v7.8h, #8
	bic	v7.8h, #255, lsl #8
	orr	v3.16b, v4.16b, v3.16b
	mvn	v4.16b, v2.16b
	mvn	v5.16b, v3.16b
	ushr	v4.4s, v4.4s, #24
	ushr	v5.4s, v5.4s, #24
	tbl	v4.16b, { v4.16b }, v6.16b
	tbl	v5.16b, { v5.16b }, v6.16b
	ushr	v6.8h, v16.8h, #8
	bic	v16.8h, #255, lsl #8
	mla	v17.8h, v19.8h, v4.8h
	movi	v19.8h, #128
	mla	v18.8h, v6.8h, v5.8h
	movi	v6.8h, #128
	mla	v19.8h, v16.8h, v5.8h
	umull2	v5.4s, v18.8h, v0.8h
	umull	v16.4s, v18.4h, v0.4h
	mla	v6.8h, v7.8h, v4.8h
	umull2	v4.4s, v17.8h, v0.8h
	umull	v7.4s, v17.4h, v0.4h
	umull2	v17.4s, v19.8h, v0.8h
	umull	v18.4s, v19.4h, v0.4h
	uzp2	v5.8h, v16.8h, v5.8h
	umull2	v16.4s, v6.8h, v0.8h
	umull	v0.4s, v6.4h, v0.4h
	uzp2	v4.8h, v7.8h, v4.8h
	uzp2	v6.8h, v18.8h, v17.8h
	tbl	v5.16b, { v5.16b }, v1.16b
	uzp2	v0.8h, v0.8h, v16.8h
	tbl	v1.16b, { v4.16b }, v1.16b
	orr	v4.16b, v5.16b, v6.16b
	orr	v0.16b, v1.16b, v0.16b
	uqadd	v1.16b, v3.16b, v4.16b
	uqadd	v0.16b, v2.16b, v0.16b
	stp	q1, q0, [x0]
	tbz	w16, #2, .LBB_9ba498_294
.LBB_9ba498_296:
	adrp	x9, .LCPI_9ba498_1
	and	x8, x16, #0x8
	movi	v2.8h, #128
	ldr	s0, [x25, x8]
	ldr	q1, [x9, :lo12:.LCPI_9ba498_1]
	movi	v5.8h, #128
	movi	v6.16b, #1
	adrp	x9, .LCPI_9ba498_0
	movi	v16.8h, #128
	tbl	v0.16b, { v0.16b }, v1.16b
	ldr	q1, [x24, x21]
	ushr	v4.8h, v1.8h, #8
	bic	v1.8h, #255, lsl #8
	ushr	v3.8h, v0.8h, #8
	bic	v0.8h, #255, lsl #8
	mla	v2.8h, v3.8h, v4.8h
	mla	v5.8h, v0.8h, v1.8h
	movi	v4.8h, #128
	umull2	v0.4s, v2.8h, v6.8h
	umull	v1.4s, v2.4h, v6.4h
	umull2	v2.4s, v5.8h, v6.8h
	umull	v3.4s, v5.4h, v6.4h
	uzp2	v0.8h, v1.8h, v0.8h
	ldr	q1, [x9, :lo12:.LCPI_9ba498_0]
	adrp	x9, .LCPI_9ba498_9
	uzp2	v2.8h, v3.8h, v2.8h
	ldr	q3, [x9, :lo12:.LCPI_9ba498_9]
	tbl	v0.16b, { v0.16b }, v1.16b
	orr	v0.16b, v0.16b, v2.16b
	mvn	v2.16b, v0.16b
	ushr	v2.4s, v2.4s, #24
	tbl	v2.16b, { v2.16b }, v3.16b
	ldr	q3, [x0, x21]
	ushr	v5.8h, v3.8h, #8
	bic	v3.8h, #255, lsl #8
	ushr	v7.8h, v2.8h, #8
	bic	v2.8h, #255, lsl #8
	mla	v4.8h, v7.8h, v5.8h
	mla	v16.8h, v2.8h, v3.8h
	umull2	v2.4s, v4.8h, v6.8h
	umull	v3.4s, v4.4h, v6.4h
	umull2	v4.4s, v16.8h, v6.8h
	umull	v5.4s, v16.4h, v6.4h
	uzp2	v2.8h, v3.8h, v2.8h
	uzp2	v3.8h, v5.8h, v4.8h
	tbl	v1.16b, { v2.16b }, v1.16b
	orr	v1.16b, v1.16b, v3.16b
	uqadd	v0.16b, v0.16b, v1.16b
	str	q0, [x0, x21]
	and	x8, x16, #0xc
	cmp	x8, x4
	b.eq	.LBB_9ba498_287
.LBB_9ba498_297:
	mov	x0, x27
	mov	x24, x26
	mov	x25, x23
	and	x30, x16, #0xc
.LBB_9ba498_298:
	ldr	w15, [x24], #4
	adrp	x9, .LCPI_9ba498_10
	ldr	d1, [x9, :lo12:.LCPI_9ba498_10]
	ldrb	w9, [x25], #1
	dup	v0.2s, w15
	ldr	w14, [x0]
	movi	v3.4h, #128
	add	x30, x30, #1
	cmp	x30, x4
	ushl	v0.2s, v0.2s, v1.2s
	mov	s2, v0.s[1]
	str	h0, [sp, #124]
	str	h2, [sp, #126]
	dup	v2.2s, w14
	ldr	s0, [sp, #124]
	zip1	v0.8b, v0.8b, v0.8b
	ushl	v1.2s, v2.2s, v1.2s
	mov	v0.h[3], wzr
	mov	s2, v1.s[1]
	str	h1, [sp, #116]
	uzp1	v0.8b, v0.8b, v0.8b
	str	h2, [sp, #118]
	dup	v2.4h, w9
	ldr	s1, [sp, #116]
	zip1	v1.8b, v1.8b, v1.8b
	ushll	v0.4s, v0.4h, #0
	mov	w8, v0.s[1]
	mov	v1.h[3], wzr
	mov	v0.h[1], w8
	ubfx	w8, w15, #8, #8
	mov	v0.h[2], w8
	and	w8, w15, #0xff
	uzp1	v1.8b, v1.8b, v0.8b
	mov	v0.h[3], w8
	ushll	v1.4s, v1.4h, #0
	mla	v3.4h, v0.4h, v2.4h
	mov	w8, v1.s[1]
	usra	v3.4h, v3.4h, #8
	ushr	v0.4h, v3.4h, #8
	mov	v1.h[1], w8
	ubfx	w8, w14, #8, #8
	and	w14, w14, #0xff
	umov	w9, v0.h[0]
	movi	v0.4h, #128
	mov	v1.h[2], w8
	mov	w8, #255
	bic	w8, w8, w9
	dup	v2.4h, w8
	mov	v1.h[3], w14
	adrp	x8, .LCPI_9ba498_7
	mla	v0.4h, v2.4h, v1.4h
	movi	d1, #0xff00ff00ff00ff
	usra	v0.4h, v0.4h, #8
	ushr	v0.4h, v0.4h, #8
	usra	v0.4h, v3.4h, #8
	umin	v0.4h, v0.4h, v1.4h
	ldr	q1, [x8, :lo12:.LCPI_9ba498_7]
	ushll	v0.4s, v0.4h, #0
	ushl	v0.4s, v0.4s, v1.4s
	ext	v1.16b, v0.16b, v0.16b, #8
	orr	v0.8b, v0.8b, v1.8b
	fmov	x8, d0
	lsr	x9, x8, #32
	orr	w8, w8, w9
	str	w8, [x0], #4
	b.lo	.LBB_9ba498_298
	b	.LBB_9ba498_287
.LBB_9ba498_299:
	cmp	w8, #2
	b.ne	.LBB_9ba498_610
.LBB_9ba498_300:
	cbz	w24, .LBB_9ba498_467
	sub	x8, x18, x25
	mov	x9, #4294967296
	mov	x0, #4294967296
	add	x17, x8, x9
	add	x18, x14, x9
	orr	x5, x24, #0x100000000
	cmp	x18, x17
	bfxil	x0, x13, #0, #32
	sub	x12, x12, x22
	csel	x1, x18, x17, lo
	subs	x1, x9, x1
	b	.LBB_9ba498_463
.LBB_9ba498_302:
	cmp	w8, #6
	b.ne	.LBB_9ba498_626
	cbz	w24, .LBB_9ba498_467
	sub	x6, x18, x25
	mov	x18, #4294967296
	ldur	x27, [x29, #-152]
	ldpsw	x1, x0, [x29, #-136]
	add	x5, x6, x18
	add	x7, x14, x18
	mov	x28, #4294967296
	cmp	x7, x5
	orr	x24, x24, #0x100000000
	bfxil	x28, x13, #0, #32
	add	x26, x1, x18
	csel	x25, x7, x5, lo
	mov	x30, #4294967296
	cmp	x26, x25
	bfxil	x30, x27, #0, #32
	mov	x8, xzr
	csel	x25, x26, x25, lo
	mov	x17, xzr
	str	xzr, [sp, #80]
	subs	x25, x18, x25
	csel	x25, xzr, x25, lo
	subs	x5, x24, x5
	csel	x5, xzr, x5, lo
	subs	x7, x28, x7
	csel	x7, xzr, x7, lo
	subs	x24, x30, x26
	csel	x24, xzr, x24, lo
	cmp	w16, w15
	csel	w16, w16, w15, lo
	ldp	w26, w15, [x29, #-128]
	cmp	w26, w16
	csel	w16, w26, w16, lo
	cmp	x5, x16
	csel	x16, x5, x16, lo
	mov	x5, xzr
	cmp	x7, x16
	csel	x16, x7, x16, lo
	lsr	x7, x27, #32
	cmp	x24, x16
	csel	x16, x24, x16, lo
	lsr	x24, x13, #32
	cmp	x16, x25
	b.ls	.LBB_9ba498_306
	add	x8, x25, x6
	add	x17, x16, x6
	add	x9, x25, x14
	add	x5, x25, x1
	str	x9, [sp, #80]
.LBB_9ba498_306:
	sub	x12, x12, x22
	add	x1, x4, x18
	add	x13, x0, x18
	add	x16, x12, x18
	orr	x6, x24, #0x100000000
	orr	x7, x7, #0x100000000
	cmp	x1, x16
	csel	x14, x1, x16, lo
	cmp	x13, x14
	csel	x14, x13, x14, lo
	subs	x14, x18, x14
	orr	x18, x21, #0x100000000
	csel	x14, xzr, x14, lo
	subs	x18, x18, x16
	csel	x18, xzr, x18, lo
	subs	x6, x6, x1
	csel	x6, xzr, x6, lo
	subs	x7, x7, x13
	csel	x7, xzr, x7, lo
	cmp	w11, w10
	csel	w10, w11, w10, lo
	cmp	w15, w10
	csel	w10, w15, w10, lo
	cmp	x18, x10
	csel	x10, x18, x10, lo
	cmp	x6, x10
	csel	x10, x6, x10, lo
	cmp	x7, x10
	csel	x11, x7, x10, lo
	cmp	x11, x14
	b.ls	.LBB_9ba498_467
	add	x10, x14, x12
	add	x11, x11, x12
	cmp	x10, x11
	b.hs	.LBB_9ba498_467
	cmp	x16, x1
	mov	x6, #4294967296
	add	x9, x14, x4
	csel	x18, x16, x1, lo
	mul	x24, x20, x10
	ldur	x12, [x29, #-144]
	cmp	x18, x13
	str	x9, [sp, #64]
	add	x9, x14, x0
	csel	x13, x18, x13, lo
	str	x9, [sp, #48]
	add	x9, x23, x5
	cmp	x13, x6
	sub	x16, x17, x8
	str	x9, [sp, #32]
	csel	x7, x13, x6, lo
	ldr	x9, [sp, #80]
	and	x1, x16, #0xfffffffffffffff0
	sub	x21, x4, x7
	sub	x0, x0, x7
	lsl	x27, x16, #2
	add	x21, x21, x6
	add	x0, x0, x6
	lsl	x25, x8, #2
	mul	x26, x3, x21
	lsl	x7, x1, #2
	lsl	x22, x9, #2
	and	x27, x27, #0x30
	lsl	x24, x24, #2
	and	x14, x16, #0xc
	madd	x0, x12, x0, x5
	add	x5, x25, x19
	add	x27, x7, x27
	and	x9, x16, #0x8
	add	x6, x22, x2
	add	x28, x1, x14
	add	x22, x27, x22
	add	x25, x27, x25
	add	x5, x24, x5
	lsl	x26, x26, #2
	lsl	x17, x3, #2
	lsl	x18, x20, #2
	lsr	x13, x16, #4
	lsl	x21, x9, #2
	add	x28, x23, x28
	add	x27, x2, x22
	add	x25, x19, x25
	add	x22, x5, #32
	add	x5, x0, x23
	add	x6, x26, x6
	and	x4, x16, #0xf
	add	x23, x28, x0
	add	x5, x5, #8
	add	x6, x6, #32
	add	x26, x27, x26
	add	x27, x25, x24
	mov	x28, x10
	b	.LBB_9ba498_310
.LBB_9ba498_309:
	add	x28, x28, #1
	add	x5, x5, x12
	add	x6, x6, x17
	add	x22, x22, x18
	cmp	x28, x11
	add	x23, x23, x12
	add	x26, x26, x17
	add	x27, x27, x18
	b.eq	.LBB_9ba498_467
.LBB_9ba498_310:
	cbz	x13, .LBB_9ba498_313
	mov	x30, x22
	mov	x25, x6
	mov	x24, x5
	mov	x0, x13
.LBB_9ba498_312:
	ldur	d0, [x24, #-8]
	movi	v1.8h, #1
	movi	v5.8h, #128
	ldp	q3, q6, [x25, #-32]
	movi	v17.8h, #128
	zip1	v0.16b, v0.16b, v0.16b
	movi	v16.8h, #128
	movi	v18.8h, #128
	adrp	x14, .LCPI_9ba498_8
	subs	x0, x0, #1
	ushr	v19.8h, v6.8h, #8
	bic	v6.8h, #255, lsl #8
	ushll	v2.4s, v0.4h, #0
	ushll2	v0.4s, v0.8h, #0
	mul	v2.4s, v2.4s, v1.4s
	mul	v4.4s, v0.4s, v1.4s
	ushr	v0.8h, v3.8h, #8
	bic	v3.8h, #255, lsl #8
	ushr	v7.8h, v2.8h, #8
	ushr	v20.8h, v4.8h, #8
	bic	v2.8h, #255, lsl #8
	bic	v4.8h, #255, lsl #8
	mla	v5.8h, v7.8h, v0.8h
	movi	v0.16b, #1
	mla	v17.8h, v20.8h, v19.8h
	mla	v16.8h, v2.8h, v3.8h
	mla	v18.8h, v4.8h, v6.8h
	movi	v20.8h, #128
	umull2	v2.4s, v5.8h, v0.8h
	umull	v3.4s, v5.4h, v0.4h
	umull2	v4.4s, v17.8h, v0.8h
	umull	v5.4s, v17.4h, v0.4h
	umull2	v6.4s, v16.8h, v0.8h
	umull	v7.4s, v16.4h, v0.4h
	umull	v16.4s, v18.4h, v0.4h
	uzp2	v2.8h, v3.8h, v2.8h
	umull2	v3.4s, v18.8h, v0.8h
	uzp2	v17.8h, v5.8h, v4.8h
	ldp	q5, q4, [x30, #-32]
	uzp2	v6.8h, v7.8h, v6.8h
	mvn	v18.16b, v5.16b
	rev16	v7.16b, v2.16b
	mvn	v19.16b, v4.16b
	uzp2	v3.8h, v16.8h, v3.8h
	rev16	v16.16b, v17.16b
	ldr	q2, [x14, :lo12:.LCPI_9ba498_8]
	adrp	x14, .LCPI_9ba498_0
	ushr	v17.4s, v18.4s, #24
	ushr	v18.4s, v19.4s, #24
	movi	v19.8h, #128
	orr	v7.16b, v7.16b, v6.16b
	orr	v16.16b, v16.16b, v3.16b
	tbl	v17.16b, { v17.16b }, v2.16b
	tbl	v18.16b, { v18.16b }, v2.16b
	ushr	v7.8h, v7.8h, #8
	ushr	v16.8h, v16.8h, #8
	mla	v19.8h, v7.8h, v17.8h
	movi	v7.8h, #128
	mla	v20.8h, v16.8h, v18.8h
	movi	v16.8h, #128
	mla	v7.8h, v17.8h, v6.8h
	umull2	v6.4s, v19.8h, v0.8h
	umull	v17.4s, v19.4h, v0.4h
	mla	v16.8h, v18.8h, v3.8h
	umull2	v3.4s, v20.8h, v0.8h
	umull	v18.4s, v20.4h, v0.4h
	umull2	v19.4s, v7.8h, v0.8h
	umull	v7.4s, v7.4h, v0.4h
	uzp2	v6.8h, v17.8h, v6.8h
	umull2	v17.4s, v16.8h, v0.8h
	umull	v16.4s, v16.4h, v0.4h
	uzp2	v18.8h, v18.8h, v3.8h
	ldr	q3, [x14, :lo12:.LCPI_9ba498_0]
	uzp2	v7.8h, v7.8h, v19.8h
	tbl	v6.16b, { v6.16b }, v3.16b
	uzp2	v16.8h, v16.8h, v17.8h
	tbl	v17.16b, { v18.16b }, v3.16b
	movi	v18.8h, #128
	orr	v6.16b, v6.16b, v7.16b
	orr	v7.16b, v17.16b, v16.16b
	uqadd	v5.16b, v6.16b, v5.16b
	uqadd	v4.16b, v7.16b, v4.16b
	movi	v7.8h, #128
	stp	q5, q4, [x30, #-32]
	ldr	d4, [x24], #16
	ldp	q6, q17, [x25], #64
	zip1	v4.16b, v4.16b, v4.16b
	ushr	v19.8h, v17.8h, #8
	bic	v17.8h, #255, lsl #8
	ushll	v5.4s, v4.4h, #0
	ushll2	v4.4s, v4.8h, #0
	mul	v5.4s, v5.4s, v1.4s
	mul	v1.4s, v4.4s, v1.4s
	ushr	v4.8h, v6.8h, #8
	bic	v6.8h, #255, lsl #8
	ushr	v16.8h, v5.8h, #8
	ushr	v20.8h, v1.8h, #8
	bic	v5.8h, #255, lsl #8
	bic	v1.8h, #255, lsl #8
	mla	v7.8h, v16.8h, v4.8h
	movi	v4.8h, #128
	movi	v16.8h, #128
	mla	v18.8h, v20.8h, v19.8h
	movi	v20.8h, #128
	mla	v4.8h, v5.8h, v6.8h
	umull2	v5.4s, v7.8h, v0.8h
	umull	v6.4s, v7.4h, v0.4h
	mla	v16.8h, v1.8h, v17.8h
	umull2	v1.4s, v18.8h, v0.8h
	umull	v7.4s, v18.4h, v0.4h
	umull2	v17.4s, v4.8h, v0.8h
	umull	v18.4s, v4.4h, v0.4h
	uzp2	v5.8h, v6.8h, v5.8h
	umull2	v6.4s, v16.8h, v0.8h
	umull	v16.4s, v16.4h, v0.4h
	uzp2	v7.8h, v7.8h, v1.8h
	ldp	q4, q1, [x30]
	uzp2	v17.8h, v18.8h, v17.8h
	rev16	v5.16b, v5.16b
	mvn	v19.16b, v4.16b
	mvn	v18.16b, v1.16b
	uzp2	v6.8h, v16.8h, v6.8h
	rev16	v7.16b, v7.16b
	ushr	v16.4s, v19.4s, #24
	ushr	v18.4s, v18.4s, #24
	orr	v5.16b, v5.16b, v17.16b
	movi	v19.8h, #128
	orr	v7.16b, v7.16b, v6.16b
	tbl	v16.16b, { v16.16b }, v2.16b
	tbl	v2.16b, { v18.16b }, v2.16b
	ushr	v5.8h, v5.8h, #8
	movi	v18.8h, #128
	ushr	v7.8h, v7.8h, #8
	mla	v19.8h, v5.8h, v16.8h
	movi	v5.8h, #128
	mla	v20.8h, v7.8h, v2.8h
	mla	v18.8h, v16.8h, v17.8h
	umull2	v7.4s, v19.8h, v0.8h
	umull	v16.4s, v19.4h, v0.4h
	mla	v5.8h, v2.8h, v6.8h
	umull2	v2.4s, v20.8h, v0.8h
	umull	v6.4s, v20.4h, v0.4h
	umull2	v17.4s, v18.8h, v0.8h
	umull	v18.4s, v18.4h, v0.4h
	uzp2	v7.8h, v16.8h, v7.8h
	umull2	v16.4s, v5.8h, v0.8h
	umull	v0.4s, v5.4h, v0.4h
	uzp2	v2.8h, v6.8h, v2.8h
	uzp2	v5.8h, v18.8h, v17.8h
	tbl	v6.16b, { v7.16b }, v3.16b
	uzp2	v0.8h, v0.8h, v16.8h
	tbl	v2.16b, { v2.16b }, v3.16b
	orr	v3.16b, v6.16b, v5.16b
	orr	v0.16b, v2.16b, v0.16b
	uqadd	v2.16b, v3.16b, v4.16b
	uqadd	v0.16b, v0.16b, v1.16b
	stp	q2, q0, [x30], #64
	b.ne	.LBB_9ba498_312
.LBB_9ba498_313:
	cmp	x1, x16
	b.eq	.LBB_9ba498_309
	ldr	x9, [sp, #64]
	sub	x0, x28, x10
	madd	x14, x28, x20, x8
	add	x24, x9, x0
	ldr	x9, [sp, #80]
	madd	x24, x24, x3, x9
	ldr	x9, [sp, #48]
	add	x0, x9, x0
	ldr	x9, [sp, #32]
	add	x14, x19, x14, lsl #2
	madd	x25, x0, x12, x9
	and	x9, x16, #0x8
	add	x0, x14, x7
	add	x24, x2, x24, lsl #2
	add	x24, x24, x7
	add	x25, x25, x1
	cbnz	x9, .LBB_9ba498_317
	tbnz	w16, #2, .LBB_9ba498_318
.LBB_9ba498_316:
	and	x9, x16, #0xc
	cmp	x9, x4
	b.eq	.LBB_9ba498_309
	b	.LBB_9ba498_319
.LBB_9ba498_317:
	ldr	d0, [x25]
	movi	v1.8h, #1
	movi	v4.8h, #128
	ldp	q3, q6, [x24]
	movi	v16.8h, #128
	zip1	v0.16b, v0.16b, v0.16b
	movi	v7.8h, #128
	adrp	x14, .LCPI_9ba498_8
	ushr	v17.8h, v6.8h, #8
	bic	v6.8h, #255, lsl #8
	ushll	v2.4s, v0.4h, #0
	ushll2	v0.4s, v0.8h, #0
	mul	v2.4s, v2.4s, v1.4s
	mul	v1.4s, v0.4s, v1.4s
	ushr	v0.8h, v3.8h, #8
	bic	v3.8h, #255, lsl #8
	ushr	v5.8h, v2.8h, #8
	ushr	v18.8h, v1.8h, #8
	bic	v2.8h, #255, lsl #8
	bic	v1.8h, #255, lsl #8
	mla	v4.8h, v5.8h, v0.8h
	movi	v5.8h, #128
	movi	v0.16b, #1
	mla	v16.8h, v18.8h, v17.8h
	mla	v7.8h, v2.8h, v3.8h
	movi	v18.8h, #128
	umull2	v2.4s, v4.8h, v0.8h
	umull	v3.4s, v4.4h, v0.4h
	mla	v5.8h, v1.8h, v6.8h
	umull2	v1.4s, v16.8h, v0.8h
	umull	v4.4s, v16.4h, v0.4h
	umull2	v6.4s, v7.8h, v0.8h
	umull	v7.4s, v7.4h, v0.4h
	uzp2	v3.8h, v3.8h, v2.8h
	umull2	v16.4s, v5.8h, v0.8h
	umull	v5.4s, v5.4h, v0.4h
	uzp2	v4.8h, v4.8h, v1.8h
	ldp	q2, q1, [x0]
	uzp2	v6.8h, v7.8h, v6.8h
	mvn	v17.16b, v2.16b
	rev16	v3.16b, v3.16b
	mvn	v7.16b, v1.16b
	uzp2	v5.8h, v5.8h, v16.8h
	rev16	v4.16b, v4.16b
	ushr	v16.4s, v17.4s, #24
	ushr	v7.4s, v7.4s, #24
	ldr	q17, [x14, :lo12:.LCPI_9ba498_8]
	orr	v3.16b, v3.16b, v6.16b
	adrp	x14, .LCPI_9ba498_0
	orr	v4.16b, v4.16b, v5.16b
	tbl	v16.16b, { v16.16b }, v17.16b
	tbl	v7.16b, { v7.16b }, v17.16b
	movi	v17.8h, #128
	ushr	v3.8h, v3.8h, #8
	ushr	v4.8h, v4.8h, #8
	mla	v18.8h, v3.8h, v16.8h
	movi	v3.8h, #128
	mla	v17.8h, v4.8h, v7.8h
	movi	v4.8h, #128
	mla	v3.8h, v16.8h, v6.8h
	umull2	v6.4s, v18.8h, v0.8h
	umull	v16.4s, v18.4h, v0.4h
	mla	v4.8h, v7.8h, v5.8h
	umull2	v5.4s, v17.8h, v0.8h
	umull	v7.4s, v17.4h, v0.4h
	umull2	v17.4s, v3.8h, v0.8h
	umull	v3.4s, v3.4h, v0.4h
	uzp2	v6.8h, v16.8h, v6.8h
	umull2	v16.4s, v4.8h, v0.8h
	umull	v0.4s, v4.4h, v0.4h
	uzp2	v4.8h, v7.8h, v5.8h
	ldr	q5, [x14, :lo12:.LCPI_9ba498_0]
	uzp2	v3.8h, v3.8h, v17.8h
	tbl	v6.16b, { v6.16b }, v5.16b
	uzp2	v0.8h, v0.8h, v16.8h
	tbl	v4.16b, { v4.16b }, v5.16b
	orr	v3.16b, v6.16b, v3.16b
	orr	v0.16b, v4.16b, v0.16b
	uqadd	v2.16b, v3.16b, v2.16b
	uqadd	v0.16b, v0.16b, v1.16b
	stp	q2, q0, [x0]
	tbz	w16, #2, .LBB_9ba498_316
.LBB_9ba498_318:
	adrp	x14, .LCPI_9ba498_1
	and	x9, x16, #0x8
	movi	v2.8h, #128
	ldr	s0, [x25, x9]
	ldr	q1, [x14, :lo12:.LCPI_9ba498_1]
	movi	v5.8h, #128
	movi	v6.16b, #1
	adrp	x14, .LCPI_9ba498_9
	movi	v7.8h, #128
	tbl	v0.16b, { v0.16b }, v1.16b
	ldr	q1, [x24, x21]
	ushr	v4.8h, v1.8h, #8
	bic	v1.8h, #255, lsl #8
	ushr	v3.8h, v0.8h, #8
	bic	v0.8h, #255, lsl #8
	mla	v2.8h, v3.8h, v4.8h
	mla	v5.8h, v0.8h, v1.8h
	ldr	q4, [x0, x21]
	umull2	v0.4s, v2.8h, v6.8h
	umull	v1.4s, v2.4h, v6.4h
	umull2	v2.4s, v5.8h, v6.8h
	umull	v3.4s, v5.4h, v6.4h
	uzp2	v0.8h, v1.8h, v0.8h
	mvn	v1.16b, v4.16b
	uzp2	v2.8h, v3.8h, v2.8h
	ldr	q3, [x14, :lo12:.LCPI_9ba498_9]
	adrp	x14, .LCPI_9ba498_0
	ushr	v1.4s, v1.4s, #24
	rev16	v0.16b, v0.16b
	tbl	v1.16b, { v1.16b }, v3.16b
	movi	v3.8h, #128
	orr	v0.16b, v0.16b, v2.16b
	ushr	v5.8h, v1.8h, #8
	bic	v1.8h, #255, lsl #8
	ushr	v0.8h, v0.8h, #8
	mla	v7.8h, v1.8h, v2.8h
	mla	v3.8h, v0.8h, v5.8h
	umull2	v2.4s, v7.8h, v6.8h
	umull2	v0.4s, v3.8h, v6.8h
	umull	v1.4s, v3.4h, v6.4h
	umull	v3.4s, v7.4h, v6.4h
	uzp2	v0.8h, v1.8h, v0.8h
	ldr	q1, [x14, :lo12:.LCPI_9ba498_0]
	uzp2	v2.8h, v3.8h, v2.8h
	tbl	v0.16b, { v0.16b }, v1.16b
	orr	v0.16b, v0.16b, v2.16b
	uqadd	v0.16b, v0.16b, v4.16b
	str	q0, [x0, x21]
	and	x9, x16, #0xc
	cmp	x9, x4
	b.eq	.LBB_9ba498_309
.LBB_9ba498_319:
	mov	x0, x27
	mov	x24, x26
	mov	x25, x23
	and	x30, x16, #0xc
.LBB_9ba498_320:
	ldr	w14, [x24], #4
	adrp	x15, .LCPI_9ba498_2
	ldr	d1, [x15, :lo12:.LCPI_9ba498_2]
	ldrb	w15, [x25], #1
	dup	v0.2s, w14
	movi	v2.4h, #128
	movi	v3.4h, #128
	add	x30, x30, #1
	cmp	x30, x4
	ushl	v0.2s, v0.2s, v1.2s
	mov	s1, v0.s[1]
	str	h0, [sp, #132]
	str	h1, [sp, #134]
	dup	v1.4h, w15
	ldr	s0, [sp, #132]
	zip1	v0.8b, v0.8b, v0.8b
	mov	v0.h[1], wzr
	uzp1	v0.8b, v0.8b, v0.8b
	ushll	v0.4s, v0.4h, #0
	mov	w9, v0.s[1]
	mov	v0.h[1], w9
	ubfx	w9, w14, #8, #8
	mov	v0.h[2], w9
	and	w9, w14, #0xff
	adrp	x14, .LCPI_9ba498_3
	mov	v0.h[3], w9
	ldr	w9, [x0]
	mla	v2.4h, v0.4h, v1.4h
	dup	v0.4s, w9
	mvn	w9, w9
	lsr	w9, w9, #24
	ldr	q1, [x14, :lo12:.LCPI_9ba498_3]
	dup	v4.4h, w9
	ushl	v0.4s, v0.4s, v1.4s
	adrp	x9, .LCPI_9ba498_4
	usra	v2.4h, v2.4h, #8
	xtn	v0.4h, v0.4s
	ushr	v1.4h, v2.4h, #8
	mla	v3.4h, v1.4h, v4.4h
	bic	v0.4h, #255, lsl #8
	movi	d1, #0xff00ff00ff00ff
	usra	v3.4h, v3.4h, #8
	usra	v0.4h, v3.4h, #8
	umin	v0.4h, v0.4h, v1.4h
	ldr	q1, [x9, :lo12:.LCPI_9ba498_4]
	ushll	v0.4s, v0.4h, #0
	ushl	v0.4s, v0.4s, v1.4s
	ext	v1.16b, v0.16b, v0.16b, #8
	orr	v0.8b, v0.8b, v1.8b
	fmov	x9, d0
	lsr	x14, x9, #32
	orr	w9, w9, w14
	str	w9, [x0], #4
	b.lo	.LBB_9ba498_320
	b	.LBB_9ba498_309
.LBB_9ba498_321:
	cmp	w8, #2
	b.eq	.LBB_9ba498_416
	cbz	w24, .LBB_9ba498_467
	sub	x8, x18, x25
	mov	x9, #4294967296
	orr	x14, x24, #0x100000000
	add	x8, x8, x9
	mov	x11, #-4294967296
	cmp	x8, x9
	add	x15, x8, x15
	csel	x13, x8, x9, hi
	cmp	x14, x15
	sub	x8, x12, x22
	csel	x14, x14, x15, lo
	add	x12, x13, x11
	add	x15, x8, x9
	cmp	x14, x13
	add	x10, x15, x10
	csel	x8, x12, xzr, hi
	cmp	x15, x9
	orr	x12, x21, #0x100000000
	csel	x9, x15, x9, hi
	cmp	x12, x10
	csel	x10, x12, x10, lo
	add	x12, x9, x11
	cmp	x10, x9
	csel	x9, x12, xzr, hi
	b.ls	.LBB_9ba498_467
	add	x10, x10, x11
	cmp	x10, x9
	b.ls	.LBB_9ba498_467
	ldr	w12, [x2]
	mov	x15, #-4294967296
	cmp	x14, x13
	add	x13, x14, x15
	madd	x17, x9, x20, x8
	fmov	s0, w12
	lsr	w11, w12, #24
	csel	x13, x13, xzr, hi
	fmov	s3, w11
	mov	v0.s[1], w11
	add	x3, x19, x17, lsl #2
	add	x1, x3, #32
	zip1	v0.4s, v0.4s, v0.4s
	mov	v0.s[2], w12
	adrp	x12, .LCPI_9ba498_14
	ldr	q1, [x12, :lo12:.LCPI_9ba498_14]
	adrp	x12, .LCPI_9ba498_9
	ushl	v0.4s, v0.4s, v1.4s
	uzp1	v0.8h, v0.8h, v0.8h
	uzp1	v0.16b, v0.16b, v0.16b
	ushr	v1.4s, v0.4s, #24
	ldr	q0, [x12, :lo12:.LCPI_9ba498_9]
	adrp	x12, .LCPI_9ba498_8
	ldr	q2, [x12, :lo12:.LCPI_9ba498_8]
	sub	x12, x13, x8
	and	x14, x12, #0xfffffffffffffff0
	lsl	x18, x12, #2
	lsr	x13, x12, #4
	tbl	v0.16b, { v1.16b }, v0.16b
	lsr	x0, x14, #4
	tbl	v1.16b, { v1.16b }, v2.16b
	and	x2, x18, #0x30
	lsl	x16, x14, #2
	and	x15, x12, #0xf
	bfi	x2, x0, #6, #58
	lsl	x0, x20, #2
	and	x17, x18, #0x20
	and	x18, x12, #0xc
	ushr	v2.8h, v0.8h, #8
	bic	v0.8h, #255, lsl #8
	add	x2, x3, x2
	b	.LBB_9ba498_327
.LBB_9ba498_326:
	add	x9, x9, #1
	add	x1, x1, x0
	add	x2, x2, x0
	cmp	x9, x10
	b.eq	.LBB_9ba498_467
.LBB_9ba498_327:
	cbz	x13, .LBB_9ba498_330
	mov	x3, x1
	mov	x4, x13
.LBB_9ba498_329:
	ldp	q19, q16, [x3, #-32]
	movi	v7.8h, #128
	ldp	q21, q22, [x3]
	movi	v5.8h, #128
	movi	v20.8h, #128
	movi	v17.8h, #128
	movi	v24.8h, #128
	ushr	v18.8h, v19.8h, #8
	bic	v19.8h, #255, lsl #8
	ushr	v25.8h, v16.8h, #8
	ushr	v26.8h, v21.8h, #8
	movi	v4.8h, #128
	adrp	x5, .LCPI_9ba498_0
	movi	v6.16b, #1
	movi	v23.8h, #128
	subs	x4, x4, #1
	mla	v7.8h, v19.8h, v1.8h
	ushr	v19.8h, v22.8h, #8
	mla	v20.8h, v18.8h, v1.8h
	movi	v18.8h, #128
	mla	v17.8h, v25.8h, v1.8h
	mla	v24.8h, v26.8h, v1.8h
	bic	v16.8h, #255, lsl #8
	bic	v21.8h, #255, lsl #8
	bic	v22.8h, #255, lsl #8
	mla	v5.8h, v19.8h, v1.8h
	umull2	v19.4s, v20.8h, v6.8h
	umull	v20.4s, v20.4h, v6.4h
	mla	v4.8h, v16.8h, v1.8h
	umull2	v25.4s, v17.8h, v6.8h
	umull	v17.4s, v17.4h, v6.4h
	mla	v18.8h, v21.8h, v1.8h
	umull2	v21.4s, v24.8h, v6.8h
	umull	v24.4s, v24.4h, v6.4h
	mla	v23.8h, v22.8h, v1.8h
	umull2	v22.4s, v5.8h, v6.8h
	umull	v5.4s, v5.4h, v6.4h
	umull2	v16.4s, v7.8h, v6.8h
	umull	v7.4s, v7.4h, v6.4h
	uzp2	v19.8h, v20.8h, v19.8h
	ldr	q20, [x5, :lo12:.LCPI_9ba498_0]
	umull2	v26.4s, v4.8h, v6.8h
	umull	v4.4s, v4.4h, v6.4h
	uzp2	v17.8h, v17.8h, v25.8h
	umull2	v25.4s, v18.8h, v6.8h
	umull	v18.4s, v18.4h, v6.4h
	uzp2	v21.8h, v24.8h, v21.8h
	umull2	v24.4s, v23.8h, v6.8h
	umull	v6.4s, v23.4h, v6.4h
	uzp2	v5.8h, v5.8h, v22.8h
	uzp2	v7.8h, v7.8h, v16.8h
	tbl	v16.16b, { v19.16b }, v20.16b
	uzp2	v4.8h, v4.8h, v26.8h
	tbl	v17.16b, { v17.16b }, v20.16b
	uzp2	v18.8h, v18.8h, v25.8h
	tbl	v19.16b, { v21.16b }, v20.16b
	uzp2	v6.8h, v6.8h, v24.8h
	tbl	v5.16b, { v5.16b }, v20.16b
	orr	v7.16b, v16.16b, v7.16b
	orr	v4.16b, v17.16b, v4.16b
	orr	v16.16b, v19.16b, v18.16b
	orr	v5.16b, v5.16b, v6.16b
	stp	q7, q4, [x3, #-32]
	stp	q16, q5, [x3], #64
	b.ne	.LBB_9ba498_329
.LBB_9ba498_330:
	cmp	x14, x12
	b.eq	.LBB_9ba498_326
	mul	x3, x9, x20
	add	x3, x3, x8
	add	x3, x19, x3, lsl #2
	add	x3, x3, x16
	tbnz	w12, #3, .LBB_9ba498_334
	tbnz	w12, #2, .LBB_9ba498_335
.LBB_9ba498_333:
	cmp	x15, x18
	b.ls	.LBB_9ba498_326
	b	.LBB_9ba498_336
.LBB_9ba498_334:
	ldp	q4, q6, [x3]
	movi	v5.8h, #128
	movi	v16.8h, #128
	movi	v17.8h, #128
	movi	v19.8h, #128
	adrp	x4, .LCPI_9ba498_0
	ushr	v7.8h, v4.8h, #8
	ushr	v18.8h, v6.8h, #8
	bic	v4.8h, #255, lsl #8
	bic	v6.8h, #255, lsl #8
	mla	v5.8h, v7.8h, v1.8h
	movi	v7.16b, #1
	mla	v16.8h, v18.8h, v1.8h
	mla	v19.8h, v4.8h, v1.8h
	mla	v17.8h, v6.8h, v1.8h
	umull2	v4.4s, v5.8h, v7.8h
	umull	v5.4s, v5.4h, v7.4h
	umull2	v6.4s, v16.8h, v7.8h
	umull	v16.4s, v16.4h, v7.4h
	umull2	v18.4s, v19.8h, v7.8h
	umull	v19.4s, v19.4h, v7.4h
	uzp2	v4.8h, v5.8h, v4.8h
	umull2	v5.4s, v17.8h, v7.8h
	umull	v7.4s, v17.4h, v7.4h
	uzp2	v6.8h, v16.8h, v6.8h
	ldr	q16, [x4, :lo12:.LCPI_9ba498_0]
	uzp2	v17.8h, v19.8h, v18.8h
	tbl	v4.16b, { v4.16b }, v16.16b
	uzp2	v5.8h, v7.8h, v5.8h
	tbl	v6.16b, { v6.16b }, v16.16b
	orr	v4.16b, v4.16b, v17.16b
	orr	v5.16b, v6.16b, v5.16b
	stp	q4, q5, [x3]
	tbz	w12, #2, .LBB_9ba498_333
.LBB_9ba498_335:
	ldr	q4, [x3, x17]
	movi	v5.8h, #128
	movi	v7.8h, #128
	movi	v16.16b, #1
	adrp	x4, .LCPI_9ba498_0
	ushr	v6.8h, v4.8h, #8
	bic	v4.8h, #255, lsl #8
	mla	v5.8h, v6.8h, v2.8h
	mla	v7.8h, v4.8h, v0.8h
	umull2	v4.4s, v5.8h, v16.8h
	umull	v5.4s, v5.4h, v16.4h
	umull2	v6.4s, v7.8h, v16.8h
	umull	v7.4s, v7.4h, v16.4h
	uzp2	v4.8h, v5.8h, v4.8h
	ldr	q5, [x4, :lo12:.LCPI_9ba498_0]
	uzp2	v6.8h, v7.8h, v6.8h
	tbl	v4.16b, { v4.16b }, v5.16b
	orr	v4.16b, v4.16b, v6.16b
	str	q4, [x3, x17]
	cmp	x15, x18
	b.ls	.LBB_9ba498_326
.LBB_9ba498_336:
	mov	x3, x2
	sub	x4, x15, x18
.LBB_9ba498_337:
	ldr	w5, [x3]
	adrp	x6, .LCPI_9ba498_2
	mov	w7, #128
	ldr	d5, [x6, :lo12:.LCPI_9ba498_2]
	adrp	x6, .LCPI_9ba498_15
	subs	x4, x4, #1
	dup	v4.2s, w5
	ushl	v4.2s, v4.2s, v5.2s
	mov	s5, v4.s[1]
	str	h4, [sp, #172]
	str	h5, [sp, #174]
	movi	v5.2s, #128
	ldr	s4, [sp, #172]
	zip1	v4.8b, v4.8b, v4.8b
	mov	v4.h[1], wzr
	uzp1	v4.8b, v4.8b, v0.8b
	ushll	v4.4s, v4.4h, #0
	mla	v5.2s, v4.2s, v3.s[0]
	movi	d4, #0x00ffff0000ffff
	and	v6.8b, v5.8b, v4.8b
	usra	v5.2s, v6.2s, #8
	movi	d6, #0xff000000ffff0000
	and	v4.8b, v5.8b, v4.8b
	ldr	d5, [x6, :lo12:.LCPI_9ba498_15]
	ubfx	w6, w5, #8, #8
	and	w5, w5, #0xff
	madd	w6, w6, w11, w7
	ushl	v4.2s, v4.2s, v5.2s
	madd	w5, w5, w11, w7
	and	w7, w6, #0xff00
	and	v4.8b, v4.8b, v6.8b
	and	w21, w5, #0xff00
	add	w6, w6, w7, lsr #8
	add	w5, w5, w21, lsr #8
	and	w6, w6, #0xff00
	dup	v5.2s, v4.s[1]
	and	w5, w5, #0xff00
	orr	v4.8b, v4.8b, v5.8b
	fmov	w7, s4
	orr	w6, w7, w6
	orr	w5, w6, w5, lsr #8
	str	w5, [x3], #4
	b.ne	.LBB_9ba498_337
	b	.LBB_9ba498_326
.LBB_9ba498_338:
	cmp	w8, #6
	b.ne	.LBB_9ba498_643
	cbz	w24, .LBB_9ba498_467
	sub	x6, x18, x25
	mov	x18, #4294967296
	ldur	x27, [x29, #-152]
	ldpsw	x1, x0, [x29, #-136]
	add	x5, x6, x18
	add	x7, x14, x18
	mov	x28, #4294967296
	cmp	x7, x5
	orr	x24, x24, #0x100000000
	bfxil	x28, x13, #0, #32
	add	x26, x1, x18
	csel	x25, x7, x5, lo
	mov	x30, #4294967296
	cmp	x26, x25
	bfxil	x30, x27, #0, #32
	mov	x17, xzr
	csel	x25, x26, x25, lo
	str	xzr, [sp, #80]
	subs	x25, x18, x25
	str	xzr, [sp, #64]
	csel	x25, xzr, x25, lo
	subs	x5, x24, x5
	csel	x5, xzr, x5, lo
	subs	x7, x28, x7
	csel	x7, xzr, x7, lo
	subs	x24, x30, x26
	csel	x24, xzr, x24, lo
	cmp	w16, w15
	csel	w16, w16, w15, lo
	ldp	w26, w15, [x29, #-128]
	cmp	w26, w16
	csel	w16, w26, w16, lo
	cmp	x5, x16
	csel	x16, x5, x16, lo
	mov	x5, xzr
	cmp	x7, x16
	csel	x16, x7, x16, lo
	lsr	x7, x27, #32
	cmp	x24, x16
	csel	x16, x24, x16, lo
	lsr	x24, x13, #32
	cmp	x16, x25
	b.ls	.LBB_9ba498_342
	add	x8, x25, x6
	add	x17, x16, x6
	add	x5, x25, x1
	str	x8, [sp, #80]
	add	x8, x25, x14
	str	x8, [sp, #64]
.LBB_9ba498_342:
	sub	x12, x12, x22
	add	x16, x4, x18
	add	x13, x0, x18
	add	x14, x12, x18
	orr	x6, x24, #0x100000000
	orr	x7, x7, #0x100000000
	cmp	x16, x14
	csel	x1, x16, x14, lo
	cmp	x13, x1
	csel	x1, x13, x1, lo
	subs	x18, x18, x1
	orr	x1, x21, #0x100000000
	csel	x18, xzr, x18, lo
	subs	x1, x1, x14
	csel	x1, xzr, x1, lo
	subs	x6, x6, x16
	csel	x6, xzr, x6, lo
	subs	x7, x7, x13
	csel	x7, xzr, x7, lo
	cmp	w11, w10
	csel	w10, w11, w10, lo
	cmp	w15, w10
	csel	w10, w15, w10, lo
	cmp	x1, x10
	csel	x10, x1, x10, lo
	cmp	x6, x10
	csel	x10, x6, x10, lo
	cmp	x7, x10
	csel	x11, x7, x10, lo
	cmp	x11, x18
	b.ls	.LBB_9ba498_467
	add	x10, x18, x12
	add	x11, x11, x12
	cmp	x10, x11
	b.hs	.LBB_9ba498_467
	cmp	x14, x16
	mov	x6, #4294967296
	add	x8, x18, x4
	csel	x14, x14, x16, lo
	str	x8, [sp, #48]
	add	x8, x18, x0
	cmp	x14, x13
	str	x8, [sp, #32]
	add	x8, x23, x5
	csel	x13, x14, x13, lo
	str	x8, [sp, #16]
	ldr	x8, [sp, #80]
	cmp	x13, x6
	mul	x14, x20, x10
	ldur	x12, [x29, #-144]
	csel	x7, x13, x6, lo
	sub	x16, x17, x8
	ldr	x9, [sp, #64]
	sub	x21, x4, x7
	sub	x0, x0, x7
	and	x1, x16, #0xfffffffffffffff0
	add	x21, x21, x6
	add	x0, x0, x6
	lsl	x26, x16, #2
	mul	x25, x3, x21
	lsl	x24, x8, #2
	lsl	x7, x1, #2
	lsl	x22, x9, #2
	and	x26, x26, #0x30
	lsl	x14, x14, #2
	madd	x0, x12, x0, x5
	and	x9, x16, #0xc
	add	x5, x24, x19
	add	x26, x7, x26
	and	x8, x16, #0x8
	add	x6, x22, x2
	add	x27, x1, x9
	add	x22, x26, x22
	add	x24, x26, x24
	lsl	x25, x25, #2
	add	x5, x14, x5
	lsl	x17, x3, #2
	lsl	x18, x20, #2
	lsr	x13, x16, #4
	lsl	x21, x8, #2
	add	x27, x23, x27
	add	x26, x2, x22
	add	x24, x19, x24
	add	x22, x5, #32
	add	x5, x0, x23
	add	x6, x25, x6
	and	x4, x16, #0xf
	add	x23, x27, x0
	add	x5, x5, #8
	add	x6, x6, #32
	add	x26, x26, x25
	add	x27, x24, x14
	mov	x28, x10
	b	.LBB_9ba498_346
.LBB_9ba498_345:
	add	x28, x28, #1
	add	x5, x5, x12
	add	x6, x6, x17
	add	x22, x22, x18
	cmp	x28, x11
	add	x23, x23, x12
	add	x26, x26, x17
	add	x27, x27, x18
	b.eq	.LBB_9ba498_467
.LBB_9ba498_346:
	cbz	x13, .LBB_9ba498_349
	mov	x30, x22
	mov	x25, x6
	mov	x24, x5
	mov	x0, x13
.LBB_9ba498_348:
	ldur	d0, [x24, #-8]
	movi	v1.8h, #1
	movi	v5.8h, #128
	ldp	q3, q6, [x25, #-32]
	movi	v17.8h, #128
	zip1	v0.16b, v0.16b, v0.16b
	movi	v16.8h, #128
	movi	v18.8h, #128
	adrp	x14, .LCPI_9ba498_8
	subs	x0, x0, #1
	ushr	v19.8h, v6.8h, #8
	bic	v6.8h, #255, lsl #8
	ushll	v2.4s, v0.4h, #0
	ushll2	v0.4s, v0.8h, #0
	mul	v2.4s, v2.4s, v1.4s
	mul	v4.4s, v0.4s, v1.4s
	ushr	v0.8h, v3.8h, #8
	bic	v3.8h, #255, lsl #8
	ushr	v7.8h, v2.8h, #8
	ushr	v20.8h, v4.8h, #8
	bic	v2.8h, #255, lsl #8
	bic	v4.8h, #255, lsl #8
	mla	v5.8h, v7.8h, v0.8h
	movi	v0.16b, #1
	mla	v17.8h, v20.8h, v19.8h
	mla	v18.8h, v2.8h, v3.8h
	mla	v16.8h, v4.8h, v6.8h
	movi	v19.8h, #128
	movi	v20.8h, #128
	umull2	v2.4s, v5.8h, v0.8h
	umull	v3.4s, v5.4h, v0.4h
	umull2	v4.4s, v17.8h, v0.8h
	umull	v5.4s, v17.4h, v0.4h
	umull2	v6.4s, v18.8h, v0.8h
	umull	v7.4s, v18.4h, v0.4h
	uzp2	v2.8h, v3.8h, v2.8h
	umull2	v3.4s, v16.8h, v0.8h
	umull	v16.4s, v16.4h, v0.4h
	uzp2	v4.8h, v5.8h, v4.8h
	uzp2	v5.8h, v7.8h, v6.8h
	movi	v7.8h, #128
	rev16	v2.16b, v2.16b
	uzp2	v3.8h, v16.8h, v3.8h
	movi	v16.8h, #128
	rev16	v4.16b, v4.16b
	orr	v2.16b, v2.16b, v5.16b
	ldp	q5, q6, [x30, #-32]
	orr	v3.16b, v4.16b, v3.16b
	ushr	v4.4s, v2.4s, #24
	ldr	q2, [x14, :lo12:.LCPI_9ba498_8]
	ushr	v17.8h, v5.8h, #8
	ushr	v3.4s, v3.4s, #24
	ushr	v18.8h, v6.8h, #8
	bic	v5.8h, #255, lsl #8
	bic	v6.8h, #255, lsl #8
	adrp	x14, .LCPI_9ba498_0
	tbl	v4.16b, { v4.16b }, v2.16b
	tbl	v3.16b, { v3.16b }, v2.16b
	mla	v7.8h, v17.8h, v4.8h
	mla	v20.8h, v5.8h, v4.8h
	mla	v16.8h, v18.8h, v3.8h
	mla	v19.8h, v6.8h, v3.8h
	movi	v18.8h, #128
	umull2	v4.4s, v7.8h, v0.8h
	umull	v5.4s, v7.4h, v0.4h
	umull2	v7.4s, v20.8h, v0.8h
	umull2	v3.4s, v16.8h, v0.8h
	umull	v6.4s, v16.4h, v0.4h
	umull	v16.4s, v20.4h, v0.4h
	umull	v17.4s, v19.4h, v0.4h
	uzp2	v4.8h, v5.8h, v4.8h
	umull2	v5.4s, v19.8h, v0.8h
	uzp2	v6.8h, v6.8h, v3.8h
	ldr	q3, [x14, :lo12:.LCPI_9ba498_0]
	uzp2	v7.8h, v16.8h, v7.8h
	tbl	v4.16b, { v4.16b }, v3.16b
	uzp2	v5.8h, v17.8h, v5.8h
	tbl	v6.16b, { v6.16b }, v3.16b
	orr	v4.16b, v4.16b, v7.16b
	movi	v7.8h, #128
	orr	v5.16b, v6.16b, v5.16b
	stp	q4, q5, [x30, #-32]
	ldr	d4, [x24], #16
	zip1	v4.16b, v4.16b, v4.16b
	ushll	v5.4s, v4.4h, #0
	ushll2	v4.4s, v4.8h, #0
	mul	v5.4s, v5.4s, v1.4s
	mul	v1.4s, v4.4s, v1.4s
	ldp	q6, q4, [x25], #64
	ushr	v16.8h, v6.8h, #8
	ushr	v17.8h, v5.8h, #8
	ushr	v19.8h, v4.8h, #8
	ushr	v20.8h, v1.8h, #8
	bic	v6.8h, #255, lsl #8
	bic	v5.8h, #255, lsl #8
	bic	v4.8h, #255, lsl #8
	bic	v1.8h, #255, lsl #8
	mla	v7.8h, v17.8h, v16.8h
	movi	v16.8h, #128
	movi	v17.8h, #128
	mla	v18.8h, v20.8h, v19.8h
	movi	v19.8h, #128
	mla	v17.8h, v5.8h, v6.8h
	umull2	v5.4s, v7.8h, v0.8h
	umull	v6.4s, v7.4h, v0.4h
	mla	v16.8h, v1.8h, v4.8h
	umull2	v1.4s, v18.8h, v0.8h
	umull	v4.4s, v18.4h, v0.4h
	movi	v18.8h, #128
	umull2	v7.4s, v17.8h, v0.8h
	umull	v17.4s, v17.4h, v0.4h
	uzp2	v5.8h, v6.8h, v5.8h
	umull2	v6.4s, v16.8h, v0.8h
	umull	v16.4s, v16.4h, v0.4h
	uzp2	v1.8h, v4.8h, v1.8h
	uzp2	v4.8h, v17.8h, v7.8h
	rev16	v5.16b, v5.16b
	movi	v7.8h, #128
	uzp2	v6.8h, v16.8h, v6.8h
	rev16	v1.16b, v1.16b
	movi	v16.8h, #128
	orr	v4.16b, v5.16b, v4.16b
	orr	v1.16b, v1.16b, v6.16b
	ldp	q5, q6, [x30]
	ushr	v4.4s, v4.4s, #24
	ushr	v1.4s, v1.4s, #24
	ushr	v17.8h, v5.8h, #8
	bic	v5.8h, #255, lsl #8
	tbl	v4.16b, { v4.16b }, v2.16b
	tbl	v1.16b, { v1.16b }, v2.16b
	ushr	v2.8h, v6.8h, #8
	bic	v6.8h, #255, lsl #8
	mla	v7.8h, v17.8h, v4.8h
	mla	v19.8h, v5.8h, v4.8h
	mla	v16.8h, v2.8h, v1.8h
	mla	v18.8h, v6.8h, v1.8h
	umull2	v2.4s, v7.8h, v0.8h
	umull	v4.4s, v7.4h, v0.4h
	umull2	v6.4s, v19.8h, v0.8h
	umull2	v1.4s, v16.8h, v0.8h
	umull	v5.4s, v16.4h, v0.4h
	umull	v7.4s, v19.4h, v0.4h
	uzp2	v2.8h, v4.8h, v2.8h
	umull2	v4.4s, v18.8h, v0.8h
	umull	v0.4s, v18.4h, v0.4h
	uzp2	v1.8h, v5.8h, v1.8h
	uzp2	v5.8h, v7.8h, v6.8h
	tbl	v2.16b, { v2.16b }, v3.16b
	uzp2	v0.8h, v0.8h, v4.8h
	tbl	v1.16b, { v1.16b }, v3.16b
	orr	v2.16b, v2.16b, v5.16b
	orr	v0.16b, v1.16b, v0.16b
	stp	q2, q0, [x30], #64
	b.ne	.LBB_9ba498_348
.LBB_9ba498_349:
	cmp	x1, x16
	b.eq	.LBB_9ba498_345
	ldr	x8, [sp, #80]
	madd	x14, x28, x20, x8
	sub	x0, x28, x10
	ldr	x8, [sp, #48]
	add	x24, x8, x0
	ldr	x8, [sp, #64]
	madd	x24, x24, x3, x8
	ldr	x8, [sp, #32]
	add	x14, x19, x14, lsl #2
	add	x0, x8, x0
	ldr	x8, [sp, #16]
	madd	x25, x0, x12, x8
	add	x0, x14, x7
	and	x8, x16, #0x8
	add	x24, x2, x24, lsl #2
	add	x24, x24, x7
	add	x25, x25, x1
	cbnz	x8, .LBB_9ba498_353
	tbnz	w16, #2, .LBB_9ba498_354
.LBB_9ba498_352:
	and	x8, x16, #0xc
	cmp	x8, x4
	b.eq	.LBB_9ba498_345
	b	.LBB_9ba498_355
.LBB_9ba498_353:
	ldr	d0, [x25]
	movi	v1.8h, #1
	movi	v5.8h, #128
	ldp	q3, q4, [x24]
	movi	v6.8h, #128
	zip1	v0.16b, v0.16b, v0.16b
	movi	v18.8h, #128
	adrp	x14, .LCPI_9ba498_8
	ushr	v16.8h, v4.8h, #8
	bic	v4.8h, #255, lsl #8
	ushll	v2.4s, v0.4h, #0
	ushll2	v0.4s, v0.8h, #0
	mul	v2.4s, v2.4s, v1.4s
	mul	v1.4s, v0.4s, v1.4s
	ushr	v0.8h, v3.8h, #8
	bic	v3.8h, #255, lsl #8
	ushr	v7.8h, v2.8h, #8
	ushr	v17.8h, v1.8h, #8
	bic	v2.8h, #255, lsl #8
	bic	v1.8h, #255, lsl #8
	mla	v5.8h, v7.8h, v0.8h
	movi	v7.8h, #128
	mla	v6.8h, v17.8h, v16.8h
	movi	v0.16b, #1
	mla	v18.8h, v2.8h, v3.8h
	movi	v17.8h, #128
	mla	v7.8h, v1.8h, v4.8h
	umull2	v2.4s, v5.8h, v0.8h
	umull	v3.4s, v5.4h, v0.4h
	umull2	v1.4s, v6.8h, v0.8h
	umull	v4.4s, v6.4h, v0.4h
	umull2	v5.4s, v18.8h, v0.8h
	umull	v6.4s, v18.4h, v0.4h
	uzp2	v2.8h, v3.8h, v2.8h
	umull2	v3.4s, v7.8h, v0.8h
	umull	v7.4s, v7.4h, v0.4h
	uzp2	v1.8h, v4.8h, v1.8h
	uzp2	v4.8h, v6.8h, v5.8h
	movi	v6.8h, #128
	rev16	v2.16b, v2.16b
	uzp2	v3.8h, v7.8h, v3.8h
	movi	v7.8h, #128
	rev16	v1.16b, v1.16b
	orr	v2.16b, v2.16b, v4.16b
	ldp	q4, q5, [x0]
	orr	v1.16b, v1.16b, v3.16b
	ldr	q3, [x14, :lo12:.LCPI_9ba498_8]
	adrp	x14, .LCPI_9ba498_0
	ushr	v2.4s, v2.4s, #24
	ushr	v16.8h, v4.8h, #8
	bic	v4.8h, #255, lsl #8
	ushr	v1.4s, v1.4s, #24
	tbl	v2.16b, { v2.16b }, v3.16b
	tbl	v1.16b, { v1.16b }, v3.16b
	ushr	v3.8h, v5.8h, #8
	bic	v5.8h, #255, lsl #8
	mla	v6.8h, v16.8h, v2.8h
	movi	v16.8h, #128
	mla	v7.8h, v3.8h, v1.8h
	mla	v17.8h, v5.8h, v1.8h
	mla	v16.8h, v4.8h, v2.8h
	umull2	v2.4s, v6.8h, v0.8h
	umull	v3.4s, v6.4h, v0.4h
	umull2	v1.4s, v7.8h, v0.8h
	umull	v4.4s, v7.4h, v0.4h
	umull2	v5.4s, v16.8h, v0.8h
	umull	v6.4s, v16.4h, v0.4h
	uzp2	v2.8h, v3.8h, v2.8h
	umull2	v3.4s, v17.8h, v0.8h
	umull	v0.4s, v17.4h, v0.4h
	uzp2	v1.8h, v4.8h, v1.8h
	ldr	q4, [x14, :lo12:.LCPI_9ba498_0]
	uzp2	v5.8h, v6.8h, v5.8h
	tbl	v2.16b, { v2.16b }, v4.16b
	uzp2	v0.8h, v0.8h, v3.8h
	tbl	v1.16b, { v1.16b }, v4.16b
	orr	v2.16b, v2.16b, v5.16b
	orr	v0.16b, v1.16b, v0.16b
	stp	q2, q0, [x0]
	tbz	w16, #2, .LBB_9ba498_352
.LBB_9ba498_354:
	adrp	x14, .LCPI_9ba498_1
	and	x8, x16, #0x8
	movi	v2.8h, #128
	ldr	s0, [x25, x8]
	ldr	q1, [x14, :lo12:.LCPI_9ba498_1]
	movi	v5.8h, #128
	movi	v6.16b, #1
	adrp	x14, .LCPI_9ba498_9
	tbl	v0.16b, { v0.16b }, v1.16b
	ldr	q1, [x24, x21]
	ushr	v4.8h, v1.8h, #8
	bic	v1.8h, #255, lsl #8
	ushr	v3.8h, v0.8h, #8
	bic	v0.8h, #255, lsl #8
	mla	v2.8h, v3.8h, v4.8h
	mla	v5.8h, v0.8h, v1.8h
	umull2	v0.4s, v2.8h, v6.8h
	umull	v1.4s, v2.4h, v6.4h
	umull2	v2.4s, v5.8h, v6.8h
	umull	v3.4s, v5.4h, v6.4h
	movi	v5.8h, #128
	uzp2	v0.8h, v1.8h, v0.8h
	uzp2	v1.8h, v3.8h, v2.8h
	movi	v2.8h, #128
	rev16	v0.16b, v0.16b
	orr	v0.16b, v0.16b, v1.16b
	ldr	q1, [x14, :lo12:.LCPI_9ba498_9]
	adrp	x14, .LCPI_9ba498_0
	ushr	v0.4s, v0.4s, #24
	tbl	v0.16b, { v0.16b }, v1.16b
	ldr	q1, [x0, x21]
	ushr	v3.8h, v1.8h, #8
	bic	v1.8h, #255, lsl #8
	ushr	v4.8h, v0.8h, #8
	bic	v0.8h, #255, lsl #8
	mla	v2.8h, v4.8h, v3.8h
	mla	v5.8h, v0.8h, v1.8h
	umull2	v0.4s, v2.8h, v6.8h
	umull	v1.4s, v2.4h, v6.4h
	umull2	v2.4s, v5.8h, v6.8h
	umull	v3.4s, v5.4h, v6.4h
	uzp2	v0.8h, v1.8h, v0.8h
	ldr	q1, [x14, :lo12:.LCPI_9ba498_0]
	uzp2	v2.8h, v3.8h, v2.8h
	tbl	v0.16b, { v0.16b }, v1.16b
	orr	v0.16b, v0.16b, v2.16b
	str	q0, [x0, x21]
	and	x8, x16, #0xc
	cmp	x8, x4
	b.eq	.LBB_9ba498_345
.LBB_9ba498_355:
	mov	x0, x27
	mov	x24, x26
	mov	x25, x23
	and	x30, x16, #0xc
.LBB_9ba498_356:
	ldr	w14, [x0]
	adrp	x15, .LCPI_9ba498_10
	mov	w8, #128
	ldr	d1, [x15, :lo12:.LCPI_9ba498_10]
	ldrb	w15, [x24, #3]
	movi	v2.2s, #128
	dup	v0.2s, w14
	ldrb	w9, [x25], #1
	add	x30, x30, #1
	add	x24, x24, #4
	madd	w9, w15, w9, w8
	cmp	x30, x4
	ushl	v0.2s, v0.2s, v1.2s
	and	w15, w9, #0xff00
	add	w9, w9, w15, lsr #8
	adrp	x15, .LCPI_9ba498_13
	mov	s1, v0.s[1]
	str	h0, [sp, #180]
	ubfx	w9, w9, #8, #8
	str	h1, [sp, #182]
	dup	v1.2s, w9
	ldr	s0, [sp, #180]
	zip1	v0.8b, v0.8b, v0.8b
	mov	v0.h[3], wzr
	uzp1	v0.8b, v0.8b, v0.8b
	ushll	v0.4s, v0.4h, #0
	mla	v2.2s, v1.2s, v0.2s
	movi	d0, #0x00ffff0000ffff
	and	v1.8b, v2.8b, v0.8b
	usra	v2.2s, v1.2s, #8
	ldr	d1, [x15, :lo12:.LCPI_9ba498_13]
	ubfx	w15, w14, #8, #8
	and	w14, w14, #0xff
	madd	w15, w9, w15, w8
	and	v0.8b, v2.8b, v0.8b
	movi	d2, #0xffff0000ff000000
	madd	w8, w9, w14, w8
	and	w9, w15, #0xff00
	ushl	v0.2s, v0.2s, v1.2s
	and	w14, w8, #0xff00
	add	w9, w15, w9, lsr #8
	add	w8, w8, w14, lsr #8
	and	w9, w9, #0xff00
	and	v0.8b, v0.8b, v2.8b
	and	w8, w8, #0xff00
	dup	v1.2s, v0.s[1]
	orr	v0.8b, v0.8b, v1.8b
	fmov	w14, s0
	orr	w9, w14, w9
	orr	w8, w9, w8, lsr #8
	str	w8, [x0], #4
	b.lo	.LBB_9ba498_356
	b	.LBB_9ba498_345
.LBB_9ba498_357:
	cmp	w8, #2
	b.ne	.LBB_9ba498_660
	cbz	w24, .LBB_9ba498_467
.LBB_9ba498_359:
	sub	x8, x0, x25
	mov	x9, #4294967296
	mov	x1, #4294967296
	add	x18, x8, x9
	add	x0, x14, x9
	orr	x5, x24, #0x100000000
	cmp	x0, x18
	bfxil	x1, x13, #0, #32
	sub	x12, x12, x22
	csel	x4, x0, x18, lo
	subs	x4, x9, x4
	csel	x4, xzr, x4, lo
	subs	x18, x5, x18
	csel	x18, xzr, x18, lo
	subs	x0, x1, x0
	add	x14, x4, x14
	csel	x0, xzr, x0, lo
	cmp	w16, w15
	orr	x1, x21, #0x100000000
	csel	w15, w16, w15, lo
	add	x16, x12, x9
	cmp	x18, x15
	csel	x15, x18, x15, lo
	add	x18, x17, x9
	cmp	x0, x15
	csel	x15, x0, x15, lo
	add	x0, x4, x8
	cmp	x15, x4
	add	x8, x15, x8
	csel	x15, x0, xzr, hi
	csel	x8, x8, xzr, hi
	csel	x14, x14, xzr, hi
	cmp	x18, x16
	stp	x15, x8, [x29, #-120]
	csel	x0, x18, x16, lo
	stur	x14, [x29, #-104]
	subs	x0, x9, x0
	bfxil	x9, x13, #32, #32
	csel	x13, xzr, x0, lo
	subs	x16, x1, x16
	csel	x16, xzr, x16, lo
	subs	x9, x9, x18
	add	x8, x13, x12
	csel	x9, xzr, x9, lo
	cmp	w11, w10
	csel	w10, w11, w10, lo
	cmp	x16, x10
	csel	x10, x16, x10, lo
	cmp	x9, x10
	csel	x9, x9, x10, lo
	add	x10, x13, x17
	b	.LBB_9ba498_464
.LBB_9ba498_360:
	cmp	w8, #6
	b.ne	.LBB_9ba498_676
	cbz	w24, .LBB_9ba498_467
	sub	x6, x0, x25
	mov	x0, #4294967296
	ldur	x27, [x29, #-152]
	ldpsw	x4, x1, [x29, #-136]
	add	x5, x6, x0
	add	x7, x14, x0
	mov	x28, #4294967296
	cmp	x7, x5
	orr	x24, x24, #0x100000000
	bfxil	x28, x13, #0, #32
	add	x26, x4, x0
	csel	x25, x7, x5, lo
	mov	x30, #4294967296
	cmp	x26, x25
	bfxil	x30, x27, #0, #32
	mov	x8, xzr
	csel	x25, x26, x25, lo
	mov	x18, xzr
	str	xzr, [sp, #80]
	subs	x25, x0, x25
	csel	x25, xzr, x25, lo
	subs	x5, x24, x5
	csel	x5, xzr, x5, lo
	subs	x7, x28, x7
	csel	x7, xzr, x7, lo
	subs	x24, x30, x26
	csel	x24, xzr, x24, lo
	cmp	w16, w15
	csel	w16, w16, w15, lo
	ldp	w26, w15, [x29, #-128]
	cmp	w26, w16
	csel	w16, w26, w16, lo
	cmp	x5, x16
	csel	x16, x5, x16, lo
	mov	x5, xzr
	cmp	x7, x16
	csel	x16, x7, x16, lo
	lsr	x7, x27, #32
	cmp	x24, x16
	csel	x16, x24, x16, lo
	lsr	x24, x13, #32
	cmp	x16, x25
	b.ls	.LBB_9ba498_364
	add	x8, x25, x6
	add	x18, x16, x6
	add	x9, x25, x14
	add	x5, x25, x4
	str	x9, [sp, #80]
.LBB_9ba498_364:
	sub	x12, x12, x22
	add	x4, x17, x0
	add	x13, x1, x0
	add	x16, x12, x0
	orr	x6, x24, #0x100000000
	orr	x7, x7, #0x100000000
	cmp	x4, x16
	csel	x14, x4, x16, lo
	cmp	x13, x14
	csel	x14, x13, x14, lo
	subs	x14, x0, x14
	orr	x0, x21, #0x100000000
	csel	x14, xzr, x14, lo
	subs	x0, x0, x16
	csel	x0, xzr, x0, lo
	subs	x6, x6, x4
	csel	x6, xzr, x6, lo
	subs	x7, x7, x13
	csel	x7, xzr, x7, lo
	cmp	w11, w10
	csel	w10, w11, w10, lo
	cmp	w15, w10
	csel	w10, w15, w10, lo
	cmp	x0, x10
	csel	x10, x0, x10, lo
	cmp	x6, x10
	csel	x10, x6, x10, lo
	cmp	x7, x10
	csel	x11, x7, x10, lo
	cmp	x11, x14
	b.ls	.LBB_9ba498_467
	add	x10, x14, x12
	add	x11, x11, x12
	cmp	x10, x11
	b.hs	.LBB_9ba498_467
	cmp	x16, x4
	mov	x6, #4294967296
	add	x9, x14, x17
	csel	x0, x16, x4, lo
	mul	x24, x20, x10
	ldur	x12, [x29, #-144]
	cmp	x0, x13
	str	x9, [sp, #64]
	add	x9, x14, x1
	csel	x13, x0, x13, lo
	str	x9, [sp, #48]
	add	x9, x23, x5
	cmp	x13, x6
	sub	x16, x18, x8
	str	x9, [sp, #32]
	csel	x7, x13, x6, lo
	ldr	x9, [sp, #80]
	and	x4, x16, #0xfffffffffffffff0
	sub	x21, x17, x7
	sub	x1, x1, x7
	lsl	x27, x16, #2
	add	x21, x21, x6
	add	x1, x1, x6
	lsl	x25, x8, #2
	mul	x26, x3, x21
	lsl	x7, x4, #2
	lsl	x22, x9, #2
	and	x27, x27, #0x30
	lsl	x24, x24, #2
	and	x14, x16, #0xc
	madd	x1, x12, x1, x5
	add	x5, x25, x19
	add	x27, x7, x27
	and	x9, x16, #0x8
	add	x6, x22, x2
	add	x28, x4, x14
	add	x22, x27, x22
	add	x25, x27, x25
	add	x5, x24, x5
	lsl	x26, x26, #2
	lsl	x18, x3, #2
	lsl	x0, x20, #2
	lsr	x13, x16, #4
	lsl	x9, x9, #2
	add	x28, x23, x28
	add	x27, x2, x22
	add	x25, x19, x25
	add	x22, x5, #32
	add	x5, x1, x23
	add	x6, x26, x6
	and	x17, x16, #0xf
	add	x23, x28, x1
	add	x5, x5, #8
	add	x6, x6, #32
	add	x26, x27, x26
	add	x27, x25, x24
	mov	x28, x10
	str	x9, [sp, #16]
	b	.LBB_9ba498_368
.LBB_9ba498_367:
	add	x28, x28, #1
	add	x5, x5, x12
	add	x6, x6, x18
	add	x22, x22, x0
	cmp	x28, x11
	add	x23, x23, x12
	add	x26, x26, x18
	add	x27, x27, x0
	b.eq	.LBB_9ba498_467
.LBB_9ba498_368:
	cbz	x13, .LBB_9ba498_371
	mov	x30, x22
	mov	x25, x6
	mov	x24, x5
	mov	x1, x13
.LBB_9ba498_370:
	ldur	d0, [x24, #-8]
	ldp	q3, q6, [x25, #-32]
	movi	v4.8h, #128
	movi	v17.8h, #128
	movi	v16.8h, #128
	zip1	v1.16b, v0.16b, v0.16b
	movi	v0.8h, #1
	adrp	x14, .LCPI_9ba498_0
	ushr	v18.8h, v6.8h, #8
	bic	v6.8h, #255, lsl #8
	subs	x1, x1, #1
	ushll	v2.4s, v1.4h, #0
	ushll2	v1.4s, v1.8h, #0
	mul	v2.4s, v2.4s, v0.4s
	mul	v5.4s, v1.4s, v0.4s
	ushr	v1.8h, v3.8h, #8
	bic	v3.8h, #255, lsl #8
	ushr	v7.8h, v2.8h, #8
	ushr	v19.8h, v5.8h, #8
	bic	v2.8h, #255, lsl #8
	bic	v5.8h, #255, lsl #8
	mla	v4.8h, v7.8h, v1.8h
	movi	v7.8h, #128
	movi	v1.16b, #1
	mla	v17.8h, v19.8h, v18.8h
	mla	v16.8h, v5.8h, v6.8h
	mla	v7.8h, v2.8h, v3.8h
	umull2	v2.4s, v4.8h, v1.8h
	umull	v3.4s, v4.4h, v1.4h
	umull2	v4.4s, v17.8h, v1.8h
	umull	v5.4s, v17.4h, v1.4h
	umull2	v17.4s, v16.8h, v1.8h
	umull	v16.4s, v16.4h, v1.4h
	umull2	v6.4s, v7.8h, v1.8h
	umull	v7.4s, v7.4h, v1.4h
	uzp2	v3.8h, v3.8h, v2.8h
	uzp2	v4.8h, v5.8h, v4.8h
	ldr	q2, [x14, :lo12:.LCPI_9ba498_0]
	uzp2	v5.8h, v7.8h, v6.8h
	tbl	v3.16b, { v3.16b }, v2.16b
	uzp2	v6.8h, v16.8h, v17.8h
	tbl	v4.16b, { v4.16b }, v2.16b
	movi	v17.8h, #128
	orr	v3.16b, v3.16b, v5.16b
	orr	v4.16b, v4.16b, v6.16b
	movi	v6.8h, #128
	stp	q3, q4, [x30, #-32]
	ldr	d3, [x24], #16
	zip1	v3.16b, v3.16b, v3.16b
	ushll	v4.4s, v3.4h, #0
	ushll2	v3.4s, v3.8h, #0
	mul	v4.4s, v4.4s, v0.4s
	mul	v0.4s, v3.4s, v0.4s
	ldp	q5, q3, [x25], #64
	ushr	v7.8h, v5.8h, #8
	ushr	v16.8h, v4.8h, #8
	ushr	v18.8h, v3.8h, #8
	ushr	v19.8h, v0.8h, #8
	bic	v5.8h, #255, lsl #8
	bic	v4.8h, #255, lsl #8
	bic	v3.8h, #255, lsl #8
	bic	v0.8h, #255, lsl #8
	mla	v6.8h, v16.8h, v7.8h
	movi	v7.8h, #128
	movi	v16.8h, #128
	mla	v17.8h, v19.8h, v18.8h
	mla	v16.8h, v4.8h, v5.8h
	umull2	v4.4s, v6.8h, v1.8h
	umull	v5.4s, v6.4h, v1.4h
	mla	v7.8h, v0.8h, v3.8h
	umull2	v0.4s, v17.8h, v1.8h
	umull	v3.4s, v17.4h, v1.4h
	umull2	v6.4s, v16.8h, v1.8h
	umull	v16.4s, v16.4h, v1.4h
	uzp2	v4.8h, v5.8h, v4.8h
	umull2	v5.4s, v7.8h, v1.8h
	umull	v1.4s, v7.4h, v1.4h
	uzp2	v0.8h, v3.8h, v0.8h
	uzp2	v3.8h, v16.8h, v6.8h
	tbl	v4.16b, { v4.16b }, v2.16b
	uzp2	v1.8h, v1.8h, v5.8h
	tbl	v0.16b, { v0.16b }, v2.16b
	orr	v2.16b, v4.16b, v3.16b
	orr	v0.16b, v0.16b, v1.16b
	stp	q2, q0, [x30], #64
	b.ne	.LBB_9ba498_370
.LBB_9ba498_371:
	cmp	x4, x16
	b.eq	.LBB_9ba498_367
	ldr	x9, [sp, #64]
	sub	x1, x28, x10
	madd	x14, x28, x20, x8
	add	x24, x9, x1
	ldr	x9, [sp, #80]
	madd	x24, x24, x3, x9
	ldr	x9, [sp, #48]
	add	x1, x9, x1
	ldr	x9, [sp, #32]
	add	x14, x19, x14, lsl #2
	madd	x25, x1, x12, x9
	and	x9, x16, #0x8
	add	x1, x14, x7
	add	x24, x2, x24, lsl #2
	add	x24, x24, x7
	add	x25, x25, x4
	cbnz	x9, .LBB_9ba498_375
	tbnz	w16, #2, .LBB_9ba498_376
.LBB_9ba498_374:
	and	x9, x16, #0xc
	cmp	x9, x17
	b.eq	.LBB_9ba498_367
	b	.LBB_9ba498_377
.LBB_9ba498_375:
	ldr	d0, [x25]
	movi	v1.8h, #1
	movi	v4.8h, #128
	movi	v5.8h, #128
	adrp	x14, .LCPI_9ba498_0
	zip1	v0.16b, v0.16b, v0.16b
	ushll	v2.4s, v0.4h, #0
	ushll2	v0.4s, v0.8h, #0
	mul	v2.4s, v2.4s, v1.4s
	mul	v0.4s, v0.4s, v1.4s
	ldp	q1, q3, [x24]
	ushr	v6.8h, v1.8h, #8
	ushr	v7.8h, v2.8h, #8
	ushr	v16.8h, v3.8h, #8
	ushr	v17.8h, v0.8h, #8
	bic	v1.8h, #255, lsl #8
	bic	v2.8h, #255, lsl #8
	bic	v3.8h, #255, lsl #8
	bic	v0.8h, #255, lsl #8
	mla	v4.8h, v7.8h, v6.8h
	movi	v6.8h, #128
	movi	v7.8h, #128
	mla	v5.8h, v17.8h, v16.8h
	movi	v16.16b, #1
	mla	v7.8h, v2.8h, v1.8h
	mla	v6.8h, v0.8h, v3.8h
	umull2	v1.4s, v4.8h, v16.8h
	umull	v2.4s, v4.4h, v16.4h
	umull2	v0.4s, v5.8h, v16.8h
	umull	v3.4s, v5.4h, v16.4h
	umull2	v4.4s, v7.8h, v16.8h
	umull	v5.4s, v7.4h, v16.4h
	uzp2	v1.8h, v2.8h, v1.8h
	umull2	v2.4s, v6.8h, v16.8h
	umull	v6.4s, v6.4h, v16.4h
	uzp2	v0.8h, v3.8h, v0.8h
	ldr	q3, [x14, :lo12:.LCPI_9ba498_0]
	uzp2	v4.8h, v5.8h, v4.8h
	tbl	v1.16b, { v1.16b }, v3.16b
	uzp2	v2.8h, v6.8h, v2.8h
	tbl	v0.16b, { v0.16b }, v3.16b
	orr	v1.16b, v1.16b, v4.16b
	orr	v0.16b, v0.16b, v2.16b
	stp	q1, q0, [x1]
	tbz	w16, #2, .LBB_9ba498_374
.LBB_9ba498_376:
	adrp	x14, .LCPI_9ba498_1
	and	x9, x16, #0x8
	movi	v2.8h, #128
	ldr	s0, [x25, x9]
	ldr	q1, [x14, :lo12:.LCPI_9ba498_1]
	ldr	x9, [sp, #16]
	movi	v5.8h, #128
	adrp	x14, .LCPI_9ba498_0
	tbl	v0.16b, { v0.16b }, v1.16b
	ldr	q1, [x24, x9]
	ushr	v4.8h, v1.8h, #8
	bic	v1.8h, #255, lsl #8
	ushr	v3.8h, v0.8h, #8
	bic	v0.8h, #255, lsl #8
	mla	v2.8h, v3.8h, v4.8h
	movi	v3.16b, #1
	mla	v5.8h, v0.8h, v1.8h
	umull2	v0.4s, v2.8h, v3.8h
	umull	v1.4s, v2.4h, v3.4h
	umull2	v2.4s, v5.8h, v3.8h
	umull	v3.4s, v5.4h, v3.4h
	uzp2	v0.8h, v1.8h, v0.8h
	ldr	q1, [x14, :lo12:.LCPI_9ba498_0]
	uzp2	v2.8h, v3.8h, v2.8h
	tbl	v0.16b, { v0.16b }, v1.16b
	orr	v0.16b, v0.16b, v2.16b
	str	q0, [x1, x9]
	and	x9, x16, #0xc
	cmp	x9, x17
	b.eq	.LBB_9ba498_367
.LBB_9ba498_377:
	mov	x1, x27
	mov	x24, x26
	mov	x25, x23
	and	x30, x16, #0xc
.LBB_9ba498_378:
	ldr	w14, [x24], #4
	adrp	x15, .LCPI_9ba498_2
	ldr	d1, [x15, :lo12:.LCPI_9ba498_2]
	ldrb	w15, [x25], #1
	dup	v0.2s, w14
	movi	v2.2s, #128
	adrp	x21, .LCPI_9ba498_15
	mov	w9, #128
	add	x30, x30, #1
	cmp	x30, x17
	ushl	v0.2s, v0.2s, v1.2s
	mov	s1, v0.s[1]
	str	h0, [sp, #100]
	str	h1, [sp, #102]
	dup	v1.2s, w15
	ldr	s0, [sp, #100]
	zip1	v0.8b, v0.8b, v0.8b
	mov	v0.h[1], wzr
	uzp1	v0.8b, v0.8b, v0.8b
	ushll	v0.4s, v0.4h, #0
	mla	v2.2s, v0.2s, v1.2s
	movi	d0, #0x00ffff0000ffff
	and	v1.8b, v2.8b, v0.8b
	usra	v2.2s, v1.2s, #8
	ldr	d1, [x21, :lo12:.LCPI_9ba498_15]
	ubfx	w21, w14, #8, #8
	and	w14, w14, #0xff
	madd	w21, w21, w15, w9
	and	v0.8b, v2.8b, v0.8b
	movi	d2, #0xff000000ffff0000
	madd	w9, w14, w15, w9
	and	w14, w21, #0xff00
	ushl	v0.2s, v0.2s, v1.2s
	and	w15, w9, #0xff00
	add	w14, w21, w14, lsr #8
	add	w9, w9, w15, lsr #8
	and	w14, w14, #0xff00
	and	v0.8b, v0.8b, v2.8b
	and	w9, w9, #0xff00
	dup	v1.2s, v0.s[1]
	orr	v0.8b, v0.8b, v1.8b
	fmov	w15, s0
	orr	w14, w15, w14
	orr	w9, w14, w9, lsr #8
	str	w9, [x1], #4
	b.lo	.LBB_9ba498_378
	b	.LBB_9ba498_367
.LBB_9ba498_379:
	cmp	w8, #2
	b.eq	.LBB_9ba498_416
	cbz	w24, .LBB_9ba498_467
	sub	x8, x18, x25
	mov	x9, #4294967296
	orr	x13, x24, #0x100000000
	add	x8, x8, x9
	mov	x14, #-4294967296
	cmp	x8, x9
	add	x15, x8, x15
	csel	x11, x8, x9, hi
	cmp	x13, x15
	sub	x8, x12, x22
	csel	x13, x13, x15, lo
	add	x12, x11, x14
	add	x15, x8, x9
	cmp	x13, x11
	add	x10, x15, x10
	csel	x8, x12, xzr, hi
	cmp	x15, x9
	orr	x12, x21, #0x100000000
	csel	x9, x15, x9, hi
	cmp	x12, x10
	csel	x10, x12, x10, lo
	add	x12, x9, x14
	cmp	x10, x9
	csel	x9, x12, xzr, hi
	b.ls	.LBB_9ba498_467
	add	x10, x10, x14
	cmp	x10, x9
	b.ls	.LBB_9ba498_467
	ldr	w12, [x2]
	adrp	x14, .LCPI_9ba498_11
	cmp	x13, x11
	ldr	d1, [x14, :lo12:.LCPI_9ba498_11]
	adrp	x11, .LCPI_9ba498_9
	madd	x17, x9, x20, x8
	dup	v0.2s, w12
	lsr	w14, w12, #16
	lsr	w18, w12, #24
	ldr	q3, [x11, :lo12:.LCPI_9ba498_9]
	ushl	v0.2s, v0.2s, v1.2s
	movi	v1.2d, #0000000000000000
	add	x3, x19, x17, lsl #2
	mov	v0.b[1], v0.b[4]
	mov	v2.16b, v0.16b
	mov	v1.h[0], v0.h[0]
	mov	v2.b[2], w14
	mov	v1.b[2], w14
	mov	v2.b[3], w18
	mov	v1.b[3], w18
	mov	v2.h[2], v0.h[0]
	mov	v1.b[4], w12
	mov	x12, #-4294967296
	add	x12, x13, x12
	csel	x11, x12, xzr, hi
	adrp	x12, .LCPI_9ba498_8
	mov	v2.b[7], w18
	sub	x11, x11, x8
	ldr	q4, [x12, :lo12:.LCPI_9ba498_8]
	mov	v1.b[7], w18
	and	x12, x11, #0xfffffffffffffff0
	lsl	x0, x11, #2
	lsr	x1, x12, #4
	lsr	x13, x11, #4
	lsl	x15, x12, #2
	and	x2, x0, #0x30
	and	x16, x0, #0x20
	lsl	x0, x20, #2
	mov	v2.b[11], w18
	bfi	x2, x1, #6, #58
	and	x14, x11, #0xf
	mov	v1.b[11], w18
	and	x17, x11, #0xc
	add	x1, x3, #32
	add	x2, x3, x2
	mov	v2.b[15], w18
	mov	v1.b[15], w18
	mvn	v0.16b, v2.16b
	dup	v2.16b, w18
	eor	w18, w18, #0xff
	mvn	v1.16b, v1.16b
	ushr	v0.4s, v0.4s, #24
	mvn	v2.16b, v2.16b
	tbl	v0.16b, { v0.16b }, v3.16b
	ushr	v2.4s, v2.4s, #24
	ushr	v3.4s, v1.4s, #24
	tbl	v1.16b, { v2.16b }, v4.16b
	tbl	v2.16b, { v3.16b }, v4.16b
	fmov	s4, w18
	ushr	v3.8h, v0.8h, #8
	bic	v0.8h, #255, lsl #8
	b	.LBB_9ba498_385
.LBB_9ba498_384:
	add	x9, x9, #1
	add	x1, x1, x0
	add	x2, x2, x0
	cmp	x9, x10
	b.eq	.LBB_9ba498_467
.LBB_9ba498_385:
	cbz	x13, .LBB_9ba498_388
	mov	x3, x1
	mov	x4, x13
.LBB_9ba498_387:
	ldp	q20, q17, [x3, #-32]
	movi	v16.8h, #128
	ldp	q22, q23, [x3]
	movi	v6.8h, #128
	movi	v21.8h, #128
	movi	v18.8h, #128
	movi	v25.8h, #128
	ushr	v19.8h, v20.8h, #8
	bic	v20.8h, #255, lsl #8
	ushr	v26.8h, v17.8h, #8
	ushr	v27.8h, v22.8h, #8
	movi	v5.8h, #128
	adrp	x5, .LCPI_9ba498_0
	movi	v7.16b, #1
	movi	v24.8h, #128
	subs	x4, x4, #1
	mla	v16.8h, v20.8h, v1.8h
	ushr	v20.8h, v23.8h, #8
	mla	v21.8h, v19.8h, v1.8h
	movi	v19.8h, #128
	mla	v18.8h, v26.8h, v2.8h
	mla	v25.8h, v27.8h, v1.8h
	bic	v17.8h, #255, lsl #8
	bic	v22.8h, #255, lsl #8
	bic	v23.8h, #255, lsl #8
	mla	v6.8h, v20.8h, v2.8h
	umull2	v20.4s, v21.8h, v7.8h
	umull	v21.4s, v21.4h, v7.4h
	mla	v5.8h, v17.8h, v2.8h
	umull2	v26.4s, v18.8h, v7.8h
	umull	v18.4s, v18.4h, v7.4h
	mla	v19.8h, v22.8h, v1.8h
	umull2	v22.4s, v25.8h, v7.8h
	umull	v25.4s, v25.4h, v7.4h
	mla	v24.8h, v23.8h, v2.8h
	umull2	v23.4s, v6.8h, v7.8h
	umull	v6.4s, v6.4h, v7.4h
	umull2	v17.4s, v16.8h, v7.8h
	umull	v16.4s, v16.4h, v7.4h
	uzp2	v20.8h, v21.8h, v20.8h
	ldr	q21, [x5, :lo12:.LCPI_9ba498_0]
	umull2	v27.4s, v5.8h, v7.8h
	umull	v5.4s, v5.4h, v7.4h
	uzp2	v18.8h, v18.8h, v26.8h
	umull2	v26.4s, v19.8h, v7.8h
	umull	v19.4s, v19.4h, v7.4h
	uzp2	v22.8h, v25.8h, v22.8h
	umull2	v25.4s, v24.8h, v7.8h
	umull	v7.4s, v24.4h, v7.4h
	uzp2	v6.8h, v6.8h, v23.8h
	uzp2	v16.8h, v16.8h, v17.8h
	tbl	v17.16b, { v20.16b }, v21.16b
	uzp2	v5.8h, v5.8h, v27.8h
	tbl	v18.16b, { v18.16b }, v21.16b
	uzp2	v19.8h, v19.8h, v26.8h
	tbl	v20.16b, { v22.16b }, v21.16b
	uzp2	v7.8h, v7.8h, v25.8h
	tbl	v6.16b, { v6.16b }, v21.16b
	orr	v16.16b, v17.16b, v16.16b
	orr	v5.16b, v18.16b, v5.16b
	orr	v17.16b, v20.16b, v19.16b
	orr	v6.16b, v6.16b, v7.16b
	stp	q16, q5, [x3, #-32]
	stp	q17, q6, [x3], #64
	b.ne	.LBB_9ba498_387
.LBB_9ba498_388:
	cmp	x12, x11
	b.eq	.LBB_9ba498_384
	mul	x3, x9, x20
	add	x3, x3, x8
	add	x3, x19, x3, lsl #2
	add	x3, x3, x15
	tbnz	w11, #3, .LBB_9ba498_392
	tbnz	w11, #2, .LBB_9ba498_393
.LBB_9ba498_391:
	cmp	x14, x17
	b.ls	.LBB_9ba498_384
	b	.LBB_9ba498_394
.LBB_9ba498_392:
	ldp	q5, q7, [x3]
	movi	v6.8h, #128
	movi	v17.8h, #128
	movi	v18.8h, #128
	movi	v20.8h, #128
	adrp	x4, .LCPI_9ba498_0
	ushr	v16.8h, v5.8h, #8
	ushr	v19.8h, v7.8h, #8
	bic	v5.8h, #255, lsl #8
	bic	v7.8h, #255, lsl #8
	mla	v6.8h, v16.8h, v1.8h
	movi	v16.16b, #1
	mla	v17.8h, v19.8h, v2.8h
	mla	v20.8h, v5.8h, v1.8h
	mla	v18.8h, v7.8h, v2.8h
	umull2	v5.4s, v6.8h, v16.8h
	umull	v6.4s, v6.4h, v16.4h
	umull2	v7.4s, v17.8h, v16.8h
	umull	v17.4s, v17.4h, v16.4h
	umull2	v19.4s, v20.8h, v16.8h
	umull	v20.4s, v20.4h, v16.4h
	uzp2	v5.8h, v6.8h, v5.8h
	umull2	v6.4s, v18.8h, v16.8h
	umull	v16.4s, v18.4h, v16.4h
	uzp2	v7.8h, v17.8h, v7.8h
	ldr	q17, [x4, :lo12:.LCPI_9ba498_0]
	uzp2	v18.8h, v20.8h, v19.8h
	tbl	v5.16b, { v5.16b }, v17.16b
	uzp2	v6.8h, v16.8h, v6.8h
	tbl	v7.16b, { v7.16b }, v17.16b
	orr	v5.16b, v5.16b, v18.16b
	orr	v6.16b, v7.16b, v6.16b
	stp	q5, q6, [x3]
	tbz	w11, #2, .LBB_9ba498_391
.LBB_9ba498_393:
	ldr	q5, [x3, x16]
	movi	v6.8h, #128
	movi	v16.8h, #128
	movi	v17.16b, #1
	adrp	x4, .LCPI_9ba498_0
	ushr	v7.8h, v5.8h, #8
	bic	v5.8h, #255, lsl #8
	mla	v6.8h, v7.8h, v3.8h
	mla	v16.8h, v5.8h, v0.8h
	umull2	v5.4s, v6.8h, v17.8h
	umull	v6.4s, v6.4h, v17.4h
	umull2	v7.4s, v16.8h, v17.8h
	umull	v16.4s, v16.4h, v17.4h
	uzp2	v5.8h, v6.8h, v5.8h
	ldr	q6, [x4, :lo12:.LCPI_9ba498_0]
	uzp2	v7.8h, v16.8h, v7.8h
	tbl	v5.16b, { v5.16b }, v6.16b
	orr	v5.16b, v5.16b, v7.16b
	str	q5, [x3, x16]
	cmp	x14, x17
	b.ls	.LBB_9ba498_384
.LBB_9ba498_394:
	mov	x3, x2
	sub	x4, x14, x17
.LBB_9ba498_395:
	ldr	w5, [x3]
	adrp	x6, .LCPI_9ba498_2
	mov	w7, #128
	ldr	d6, [x6, :lo12:.LCPI_9ba498_2]
	adrp	x6, .LCPI_9ba498_15
	subs	x4, x4, #1
	dup	v5.2s, w5
	ushl	v5.2s, v5.2s, v6.2s
	mov	s6, v5.s[1]
	str	h5, [sp, #148]
	str	h6, [sp, #150]
	movi	v6.2s, #128
	ldr	s5, [sp, #148]
	zip1	v5.8b, v5.8b, v5.8b
	mov	v5.h[1], wzr
	uzp1	v5.8b, v5.8b, v0.8b
	ushll	v5.4s, v5.4h, #0
	mla	v6.2s, v5.2s, v4.s[0]
	movi	d5, #0x00ffff0000ffff
	and	v7.8b, v6.8b, v5.8b
	usra	v6.2s, v7.2s, #8
	movi	d7, #0xff000000ffff0000
	and	v5.8b, v6.8b, v5.8b
	ldr	d6, [x6, :lo12:.LCPI_9ba498_15]
	ubfx	w6, w5, #8, #8
	and	w5, w5, #0xff
	madd	w6, w6, w18, w7
	ushl	v5.2s, v5.2s, v6.2s
	madd	w5, w5, w18, w7
	and	w7, w6, #0xff00
	and	v5.8b, v5.8b, v7.8b
	and	w21, w5, #0xff00
	add	w6, w6, w7, lsr #8
	add	w5, w5, w21, lsr #8
	and	w6, w6, #0xff00
	dup	v6.2s, v5.s[1]
	and	w5, w5, #0xff00
	orr	v5.8b, v5.8b, v6.8b
	fmov	w7, s5
	orr	w6, w7, w6
	orr	w5, w6, w5, lsr #8
	str	w5, [x3], #4
	b.ne	.LBB_9ba498_395
	b	.LBB_9ba498_384
.LBB_9ba498_396:
	cmp	w8, #6
	b.ne	.LBB_9ba498_695
	cbz	w24, .LBB_9ba498_467
	sub	x6, x18, x25
	mov	x18, #4294967296
	ldur	x27, [x29, #-152]
	ldpsw	x1, x0, [x29, #-136]
	add	x5, x6, x18
	add	x7, x14, x18
	mov	x28, #4294967296
	cmp	x7, x5
	orr	x24, x24, #0x100000000
	bfxil	x28, x13, #0, #32
	add	x26, x1, x18
	csel	x25, x7, x5, lo
	mov	x30, #4294967296
	cmp	x26, x25
	bfxil	x30, x27, #0, #32
	mov	x17, xzr
	csel	x25, x26, x25, lo
	str	xzr, [sp, #80]
	subs	x25, x18, x25
	str	xzr, [sp, #64]
	csel	x25, xzr, x25, lo
	subs	x5, x24, x5
	csel	x5, xzr, x5, lo
	subs	x7, x28, x7
	csel	x7, xzr, x7, lo
	subs	x24, x30, x26
	csel	x24, xzr, x24, lo
	cmp	w16, w15
	csel	w16, w16, w15, lo
	ldp	w26, w15, [x29, #-128]
	cmp	w26, w16
	csel	w16, w26, w16, lo
	cmp	x5, x16
	csel	x16, x5, x16, lo
	mov	x5, xzr
	cmp	x7, x16
	csel	x16, x7, x16, lo
	lsr	x7, x27, #32
	cmp	x24, x16
	csel	x16, x24, x16, lo
	lsr	x24, x13, #32
	cmp	x16, x25
	b.ls	.LBB_9ba498_400
	add	x8, x25, x6
	add	x17, x16, x6
	add	x5, x25, x1
	str	x8, [sp, #80]
	add	x8, x25, x14
	str	x8, [sp, #64]
.LBB_9ba498_400:
	sub	x12, x12, x22
	add	x16, x4, x18
	add	x13, x0, x18
	add	x14, x12, x18
	orr	x6, x24, #0x100000000
	orr	x7, x7, #0x100000000
	cmp	x16, x14
	csel	x1, x16, x14, lo
	cmp	x13, x1
	csel	x1, x13, x1, lo
	subs	x18, x18, x1
	orr	x1, x21, #0x100000000
	csel	x18, xzr, x18, lo
	subs	x1, x1, x14
	csel	x1, xzr, x1, lo
	subs	x6, x6, x16
	csel	x6, xzr, x6, lo
	subs	x7, x7, x13
	csel	x7, xzr, x7, lo
	cmp	w11, w10
	csel	w10, w11, w10, lo
	cmp	w15, w10
	csel	w10, w15, w10, lo
	cmp	x1, x10
	csel	x10, x1, x10, lo
	cmp	x6, x10
	csel	x10, x6, x10, lo
	cmp	x7, x10
	csel	x11, x7, x10, lo
	cmp	x11, x18
	b.ls	.LBB_9ba498_467
	add	x10, x18, x12
	add	x11, x11, x12
	cmp	x10, x11
	b.hs	.LBB_9ba498_467
	cmp	x14, x16
	mov	x6, #4294967296
	add	x8, x18, x4
	csel	x14, x14, x16, lo
	str	x8, [sp, #48]
	add	x8, x18, x0
	cmp	x14, x13
	str	x8, [sp, #32]
	add	x8, x23, x5
	csel	x13, x14, x13, lo
	str	x8, [sp, #16]
	ldr	x8, [sp, #80]
	cmp	x13, x6
	mul	x14, x20, x10
	ldur	x12, [x29, #-144]
	csel	x7, x13, x6, lo
	sub	x16, x17, x8
	ldr	x9, [sp, #64]
	sub	x21, x4, x7
	sub	x0, x0, x7
	and	x1, x16, #0xfffffffffffffff0
	add	x21, x21, x6
	add	x0, x0, x6
	lsl	x26, x16, #2
	mul	x25, x3, x21
	lsl	x24, x8, #2
	lsl	x7, x1, #2
	lsl	x22, x9, #2
	and	x26, x26, #0x30
	lsl	x14, x14, #2
	madd	x0, x12, x0, x5
	and	x9, x16, #0xc
	add	x5, x24, x19
	add	x26, x7, x26
	and	x8, x16, #0x8
	add	x6, x22, x2
	add	x27, x1, x9
	add	x22, x26, x22
	add	x24, x26, x24
	lsl	x25, x25, #2
	add	x5, x14, x5
	lsl	x17, x3, #2
	lsl	x18, x20, #2
	lsr	x13, x16, #4
	lsl	x21, x8, #2
	add	x27, x23, x27
	add	x26, x2, x22
	add	x24, x19, x24
	add	x22, x5, #32
	add	x5, x0, x23
	add	x6, x25, x6
	and	x4, x16, #0xf
	add	x23, x27, x0
	add	x5, x5, #8
	add	x6, x6, #32
	add	x26, x26, x25
	add	x27, x24, x14
	mov	x28, x10
	b	.LBB_9ba498_404
.LBB_9ba498_403:
	add	x28, x28, #1
	add	x5, x5, x12
	add	x6, x6, x17
	add	x22, x22, x18
	cmp	x28, x11
	add	x23, x23, x12
	add	x26, x26, x17
	add	x27, x27, x18
	b.eq	.LBB_9ba498_467
.LBB_9ba498_404:
	cbz	x13, .LBB_9ba498_407
	mov	x30, x22
	mov	x25, x6
	mov	x24, x5
	mov	x0, x13
.LBB_9ba498_406:
	ldur	d0, [x24, #-8]
	movi	v1.8h, #1
	movi	v5.8h, #128
	ldp	q3, q6, [x25, #-32]
	movi	v17.8h, #128
	zip1	v0.16b, v0.16b, v0.16b
	movi	v16.8h, #128
	movi	v18.8h, #128
	adrp	x14, .LCPI_9ba498_8
	subs	x0, x0, #1
	ushr	v19.8h, v6.8h, #8
	bic	v6.8h, #255, lsl #8
	ushll	v2.4s, v0.4h, #0
	ushll2	v0.4s, v0.8h, #0
	mul	v2.4s, v2.4s, v1.4s
	mul	v4.4s, v0.4s, v1.4s
	ushr	v0.8h, v3.8h, #8
	bic	v3.8h, #255, lsl #8
	ushr	v7.8h, v2.8h, #8
	ushr	v20.8h, v4.8h, #8
	bic	v2.8h, #255, lsl #8
	bic	v4.8h, #255, lsl #8
	mla	v5.8h, v7.8h, v0.8h
	movi	v0.16b, #1
	mla	v17.8h, v20.8h, v19.8h
	mla	v16.8h, v2.8h, v3.8h
	mla	v18.8h, v4.8h, v6.8h
	movi	v19.8h, #128
	movi	v20.8h, #128
	umull2	v2.4s, v5.8h, v0.8h
	umull	v3.4s, v5.4h, v0.4h
	umull2	v4.4s, v17.8h, v0.8h
	umull	v5.4s, v17.4h, v0.4h
	umull2	v6.4s, v16.8h, v0.8h
	umull	v7.4s, v16.4h, v0.4h
	umull	v16.4s, v18.4h, v0.4h
	uzp2	v2.8h, v3.8h, v2.8h
	umull2	v3.4s, v18.8h, v0.8h
	uzp2	v4.8h, v5.8h, v4.8h
	uzp2	v5.8h, v7.8h, v6.8h
	movi	v7.8h, #128
	rev16	v2.16b, v2.16b
	uzp2	v3.8h, v16.8h, v3.8h
	movi	v16.8h, #128
	rev16	v4.16b, v4.16b
	orr	v2.16b, v2.16b, v5.16b
	ldp	q5, q6, [x30, #-32]
	orr	v3.16b, v4.16b, v3.16b
	mvn	v2.16b, v2.16b
	ushr	v17.8h, v5.8h, #8
	ushr	v18.8h, v6.8h, #8
	mvn	v3.16b, v3.16b
	bic	v5.8h, #255, lsl #8
	bic	v6.8h, #255, lsl #8
	ushr	v4.4s, v2.4s, #24
	ldr	q2, [x14, :lo12:.LCPI_9ba498_8]
	adrp	x14, .LCPI_9ba498_0
	ushr	v3.4s, v3.4s, #24
	tbl	v4.16b, { v4.16b }, v2.16b
	tbl	v3.16b, { v3.16b }, v2.16b
	mla	v7.8h, v17.8h, v4.8h
	mla	v20.8h, v5.8h, v4.8h
	mla	v16.8h, v18.8h, v3.8h
	mla	v19.8h, v6.8h, v3.8h
	movi	v18.8h, #128
	umull2	v4.4s, v7.8h, v0.8h
	umull	v5.4s, v7.4h, v0.4h
	umull2	v7.4s, v20.8h, v0.8h
	umull2	v3.4s, v16.8h, v0.8h
	umull	v6.4s, v16.4h, v0.4h
	umull	v16.4s, v20.4h, v0.4h
	umull	v17.4s, v19.4h, v0.4h
	uzp2	v4.8h, v5.8h, v4.8h
	umull2	v5.4s, v19.8h, v0.8h
	uzp2	v6.8h, v6.8h, v3.8h
	ldr	q3, [x14, :lo12:.LCPI_9ba498_0]
	uzp2	v7.8h, v16.8h, v7.8h
	tbl	v4.16b, { v4.16b }, v3.16b
	uzp2	v5.8h, v17.8h, v5.8h
	tbl	v6.16b, { v6.16b }, v3.16b
	orr	v4.16b, v4.16b, v7.16b
	movi	v7.8h, #128
	orr	v5.16b, v6.16b, v5.16b
	stp	q4, q5, [x30, #-32]
	ldr	d4, [x24], #16
	ldp	q6, q17, [x25], #64
	zip1	v4.16b, v4.16b, v4.16b
	ushr	v19.8h, v17.8h, #8
	bic	v17.8h, #255, lsl #8
	ushll	v5.4s, v4.4h, #0
	ushll2	v4.4s, v4.8h, #0
	mul	v5.4s, v5.4s, v1.4s
	mul	v1.4s, v4.4s, v1.4s
	ushr	v4.8h, v6.8h, #8
	bic	v6.8h, #255, lsl #8
	ushr	v16.8h, v5.8h, #8
	ushr	v20.8h, v1.8h, #8
	bic	v5.8h, #255, lsl #8
	bic	v1.8h, #255, lsl #8
	mla	v7.8h, v16.8h, v4.8h
	movi	v4.8h, #128
	movi	v16.8h, #128
	mla	v18.8h, v20.8h, v19.8h
	movi	v19.8h, #128
	mla	v4.8h, v5.8h, v6.8h
	umull2	v5.4s, v7.8h, v0.8h
	umull	v6.4s, v7.4h, v0.4h
	mla	v16.8h, v1.8h, v17.8h
	umull2	v1.4s, v18.8h, v0.8h
	umull	v7.4s, v18.4h, v0.4h
	movi	v18.8h, #128
	umull2	v17.4s, v4.8h, v0.8h
	umull	v4.4s, v4.4h, v0.4h
	uzp2	v5.8h, v6.8h, v5.8h
	umull2	v6.4s, v16.8h, v0.8h
	umull	v16.4s, v16.4h, v0.4h
	uzp2	v1.8h, v7.8h, v1.8h
	movi	v7.8h, #128
	uzp2	v4.8h, v4.8h, v17.8h
	rev16	v5.16b, v5.16b
	uzp2	v6.8h, v16.8h, v6.8h
	rev16	v1.16b, v1.16b
	movi	v16.8h, #128
	orr	v4.16b, v5.16b, v4.16b
	orr	v1.16b, v1.16b, v6.16b
	ldp	q5, q6, [x30]
	mvn	v4.16b, v4.16b
	mvn	v1.16b, v1.16b
	ushr	v17.8h, v5.8h, #8
	bic	v5.8h, #255, lsl #8
	ushr	v4.4s, v4.4s, #24
	ushr	v1.4s, v1.4s, #24
	tbl	v4.16b, { v4.16b }, v2.16b
	tbl	v1.16b, { v1.16b }, v2.16b
	ushr	v2.8h, v6.8h, #8
	bic	v6.8h, #255, lsl #8
	mla	v7.8h, v17.8h, v4.8h
	mla	v19.8h, v5.8h, v4.8h
	mla	v16.8h, v2.8h, v1.8h
	mla	v18.8h, v6.8h, v1.8h
	umull2	v2.4s, v7.8h, v0.8h
	umull	v4.4s, v7.4h, v0.4h
	umull2	v6.4s, v19.8h, v0.8h
	umull2	v1.4s, v16.8h, v0.8h
	umull	v5.4s, v16.4h, v0.4h
	umull	v7.4s, v19.4h, v0.4h
	uzp2	v2.8h, v4.8h, v2.8h
	umull2	v4.4s, v18.8h, v0.8h
	umull	v0.4s, v18.4h, v0.4h
	uzp2	v1.8h, v5.8h, v1.8h
	uzp2	v5.8h, v7.8h, v6.8h
	tbl	v2.16b, { v2.16b }, v3.16b
	uzp2	v0.8h, v0.8h, v4.8h
	tbl	v1.16b, { v1.16b }, v3.16b
	orr	v2.16b, v2.16b, v5.16b
	orr	v0.16b, v1.16b, v0.16b
	stp	q2, q0, [x30], #64
	b.ne	.LBB_9ba498_406
.LBB_9ba498_407:
	cmp	x1, x16
	b.eq	.LBB_9ba498_403
	ldr	x8, [sp, #80]
	madd	x14, x28, x20, x8
	sub	x0, x28, x10
	ldr	x8, [sp, #48]
	add	x24, x8, x0
	ldr	x8, [sp, #64]
	madd	x24, x24, x3, x8
	ldr	x8, [sp, #32]
	add	x14, x19, x14, lsl #2
	add	x0, x8, x0
	ldr	x8, [sp, #16]
	madd	x25, x0, x12, x8
	add	x0, x14, x7
	and	x8, x16, #0x8
	add	x24, x2, x24, lsl #2
	add	x24, x24, x7
	add	x25, x25, x1
	cbnz	x8, .LBB_9ba498_411
	tbnz	w16, #2, .LBB_9ba498_412
.LBB_9ba498_410:
	and	x8, x16, #0xc
	cmp	x8, x4
	b.eq	.LBB_9ba498_403
	b	.LBB_9ba498_413
.LBB_9ba498_411:
	ldr	d0, [x25]
	movi	v1.8h, #1
	movi	v5.8h, #128
	ldp	q4, q3, [x24]
	movi	v6.8h, #128
	zip1	v0.16b, v0.16b, v0.16b
	movi	v18.8h, #128
	adrp	x14, .LCPI_9ba498_8
	ushr	v16.8h, v4.8h, #8
	bic	v4.8h, #255, lsl #8
	ushll2	v2.4s, v0.8h, #0
	ushll	v0.4s, v0.4h, #0
	mul	v2.4s, v2.4s, v1.4s
	mul	v1.4s, v0.4s, v1.4s
	ushr	v0.8h, v3.8h, #8
	bic	v3.8h, #255, lsl #8
	ushr	v7.8h, v2.8h, #8
	ushr	v17.8h, v1.8h, #8
	bic	v1.8h, #255, lsl #8
	bic	v2.8h, #255, lsl #8
	mla	v5.8h, v7.8h, v0.8h
	movi	v7.8h, #128
	mla	v6.8h, v17.8h, v16.8h
	movi	v0.16b, #1
	mla	v18.8h, v2.8h, v3.8h
	movi	v17.8h, #128
	mla	v7.8h, v1.8h, v4.8h
	umull2	v1.4s, v6.8h, v0.8h
	umull	v4.4s, v6.4h, v0.4h
	umull2	v2.4s, v5.8h, v0.8h
	umull	v3.4s, v5.4h, v0.4h
	umull2	v5.4s, v7.8h, v0.8h
	umull	v6.4s, v7.4h, v0.4h
	umull	v7.4s, v18.4h, v0.4h
	uzp2	v1.8h, v4.8h, v1.8h
	umull2	v4.4s, v18.8h, v0.8h
	uzp2	v2.8h, v3.8h, v2.8h
	uzp2	v3.8h, v6.8h, v5.8h
	movi	v6.8h, #128
	rev16	v1.16b, v1.16b
	uzp2	v4.8h, v7.8h, v4.8h
	movi	v7.8h, #128
	rev16	v2.16b, v2.16b
	orr	v1.16b, v1.16b, v3.16b
	ldr	q3, [x14, :lo12:.LCPI_9ba498_8]
	adrp	x14, .LCPI_9ba498_0
	orr	v2.16b, v2.16b, v4.16b
	ldp	q4, q5, [x0]
	mvn	v1.16b, v1.16b
	mvn	v2.16b, v2.16b
	ushr	v16.8h, v4.8h, #8
	bic	v4.8h, #255, lsl #8
	ushr	v1.4s, v1.4s, #24
	ushr	v2.4s, v2.4s, #24
	tbl	v1.16b, { v1.16b }, v3.16b
	tbl	v2.16b, { v2.16b }, v3.16b
	ushr	v3.8h, v5.8h, #8
	bic	v5.8h, #255, lsl #8
	mla	v6.8h, v16.8h, v1.8h
	movi	v16.8h, #128
	mla	v7.8h, v3.8h, v2.8h
	mla	v17.8h, v5.8h, v2.8h
	mla	v16.8h, v4.8h, v1.8h
	umull2	v1.4s, v6.8h, v0.8h
	umull	v3.4s, v6.4h, v0.4h
	umull2	v2.4s, v7.8h, v0.8h
	umull	v4.4s, v7.4h, v0.4h
	umull2	v5.4s, v16.8h, v0.8h
	umull	v6.4s, v16.4h, v0.4h
	uzp2	v1.8h, v3.8h, v1.8h
	umull2	v3.4s, v17.8h, v0.8h
	umull	v0.4s, v17.4h, v0.4h
	uzp2	v2.8h, v4.8h, v2.8h
	ldr	q4, [x14, :lo12:.LCPI_9ba498_0]
	uzp2	v5.8h, v6.8h, v5.8h
	tbl	v1.16b, { v1.16b }, v4.16b
	uzp2	v0.8h, v0.8h, v3.8h
	tbl	v2.16b, { v2.16b }, v4.16b
	orr	v1.16b, v1.16b, v5.16b
	orr	v0.16b, v2.16b, v0.16b
	stp	q1, q0, [x0]
	tbz	w16, #2, .LBB_9ba498_410
.LBB_9ba498_412:
	adrp	x14, .LCPI_9ba498_1
	and	x8, x16, #0x8
	movi	v2.8h, #128
	ldr	s0, [x25, x8]
	ldr	q1, [x14, :lo12:.LCPI_9ba498_1]
	movi	v5.8h, #128
	movi	v6.16b, #1
	adrp	x14, .LCPI_9ba498_9
	tbl	v0.16b, { v0.16b }, v1.16b
	ldr	q1, [x24, x21]
	ushr	v4.8h, v1.8h, #8
	bic	v1.8h, #255, lsl #8
	ushr	v3.8h, v0.8h, #8
	bic	v0.8h, #255, lsl #8
	mla	v2.8h, v3.8h, v4.8h
	mla	v5.8h, v0.8h, v1.8h
	umull2	v0.4s, v2.8h, v6.8h
	umull	v1.4s, v2.4h, v6.4h
	umull2	v2.4s, v5.8h, v6.8h
	umull	v3.4s, v5.4h, v6.4h
	movi	v5.8h, #128
	uzp2	v0.8h, v1.8h, v0.8h
	uzp2	v1.8h, v3.8h, v2.8h
	movi	v2.8h, #128
	rev16	v0.16b, v0.16b
	orr	v0.16b, v0.16b, v1.16b
	ldr	q1, [x14, :lo12:.LCPI_9ba498_9]
	adrp	x14, .LCPI_9ba498_0
	mvn	v0.16b, v0.16b
	ushr	v0.4s, v0.4s, #24
	tbl	v0.16b, { v0.16b }, v1.16b
	ldr	q1, [x0, x21]
	ushr	v3.8h, v1.8h, #8
	bic	v1.8h, #255, lsl #8
	ushr	v4.8h, v0.8h, #8
	bic	v0.8h, #255, lsl #8
	mla	v2.8h, v4.8h, v3.8h
	mla	v5.8h, v0.8h, v1.8h
	umull2	v0.4s, v2.8h, v6.8h
	umull	v1.4s, v2.4h, v6.4h
	umull2	v2.4s, v5.8h, v6.8h
	umull	v3.4s, v5.4h, v6.4h
	uzp2	v0.8h, v1.8h, v0.8h
	ldr	q1, [x14, :lo12:.LCPI_9ba498_0]
	uzp2	v2.8h, v3.8h, v2.8h
	tbl	v0.16b, { v0.16b }, v1.16b
	orr	v0.16b, v0.16b, v2.16b
	str	q0, [x0, x21]
	and	x8, x16, #0xc
	cmp	x8, x4
	b.eq	.LBB_9ba498_403
.LBB_9ba498_413:
	mov	x0, x27
	mov	x24, x26
	mov	x25, x23
	and	x30, x16, #0xc
.LBB_9ba498_414:
	ldr	w14, [x0]
	adrp	x15, .LCPI_9ba498_10
	mov	w8, #128
	ldr	d1, [x15, :lo12:.LCPI_9ba498_10]
	ldrb	w15, [x24, #3]
	movi	v2.2s, #128
	dup	v0.2s, w14
	ldrb	w9, [x25], #1
	add	x30, x30, #1
	add	x24, x24, #4
	madd	w9, w15, w9, w8
	cmp	x30, x4
	ushl	v0.2s, v0.2s, v1.2s
	and	w15, w9, #0xff00
	add	w9, w9, w15, lsr #8
	adrp	x15, .LCPI_9ba498_13
	mov	s1, v0.s[1]
	str	h0, [sp, #156]
	ubfx	w9, w9, #8, #8
	eor	w9, w9, #0xff
	str	h1, [sp, #158]
	dup	v1.2s, w9
	ldr	s0, [sp, #156]
	zip1	v0.8b, v0.8b, v0.8b
	mov	v0.h[3], wzr
	uzp1	v0.8b, v0.8b, v0.8b
	ushll	v0.4s, v0.4h, #0
	mla	v2.2s, v1.2s, v0.2s
	movi	d0, #0x00ffff0000ffff
	and	v1.8b, v2.8b, v0.8b
	usra	v2.2s, v1.2s, #8
	ldr	d1, [x15, :lo12:.LCPI_9ba498_13]
	ubfx	w15, w14, #8, #8
	and	w14, w14, #0xff
	madd	w15, w15, w9, w8
	and	v0.8b, v2.8b, v0.8b
	movi	d2, #0xffff0000ff000000
	madd	w8, w14, w9, w8
	and	w9, w15, #0xff00
	ushl	v0.2s, v0.2s, v1.2s
	and	w14, w8, #0xff00
	add	w9, w15, w9, lsr #8
	add	w8, w8, w14, lsr #8
	and	w9, w9, #0xff00
	and	v0.8b, v0.8b, v2.8b
	and	w8, w8, #0xff00
	dup	v1.2s, v0.s[1]
	orr	v0.8b, v0.8b, v1.8b
	fmov	w14, s0
	orr	w9, w14, w9
	orr	w8, w9, w8, lsr #8
	str	w8, [x0], #4
	b.lo	.LBB_9ba498_414
	b	.LBB_9ba498_403
.LBB_9ba498_415:
	cmp	w8, #2
	b.ne	.LBB_9ba498_712
.LBB_9ba498_416:
	cbz	w24, .LBB_9ba498_467
	sub	x8, x18, x25
	mov	x9, #4294967296
	mov	x0, #4294967296
	add	x17, x8, x9
	add	x18, x14, x9
	orr	x5, x24, #0x100000000
	b	.LBB_9ba498_462
.LBB_9ba498_418:
	cmp	w8, #6
	b.ne	.LBB_9ba498_728
	cbz	w24, .LBB_9ba498_467
	sub	x6, x18, x25
	mov	x18, #4294967296
	ldur	x27, [x29, #-152]
	ldpsw	x1, x0, [x29, #-136]
	add	x5, x6, x18
	add	x7, x14, x18
	mov	x28, #4294967296
	cmp	x7, x5
	orr	x24, x24, #0x100000000
	bfxil	x28, x13, #0, #32
	add	x26, x1, x18
	csel	x25, x7, x5, lo
	mov	x30, #4294967296
	cmp	x26, x25
	bfxil	x30, x27, #0, #32
	mov	x17, xzr
	csel	x25, x26, x25, lo
	str	xzr, [sp, #80]
	subs	x25, x18, x25
	str	xzr, [sp, #64]
	csel	x25, xzr, x25, lo
	subs	x5, x24, x5
	csel	x5, xzr, x5, lo
	subs	x7, x28, x7
	csel	x7, xzr, x7, lo
	subs	x24, x30, x26
	csel	x24, xzr, x24, lo
	cmp	w16, w15
	csel	w16, w16, w15, lo
	ldp	w26, w15, [x29, #-128]
	cmp	w26, w16
	csel	w16, w26, w16, lo
	cmp	x5, x16
	csel	x16, x5, x16, lo
	mov	x5, xzr
	cmp	x7, x16
	csel	x16, x7, x16, lo
	lsr	x7, x27, #32
	cmp	x24, x16
	csel	x16, x24, x16, lo
	lsr	x24, x13, #32
	cmp	x16, x25
	b.ls	.LBB_9ba498_422
	add	x8, x25, x6
	add	x17, x16, x6
	add	x5, x25, x1
	str	x8, [sp, #80]
	add	x8, x25, x14
	str	x8, [sp, #64]
.LBB_9ba498_422:
	sub	x12, x12, x22
	add	x16, x4, x18
	add	x13, x0, x18
	add	x14, x12, x18
	orr	x6, x24, #0x100000000
	orr	x7, x7, #0x100000000
	cmp	x16, x14
	csel	x1, x16, x14, lo
	cmp	x13, x1
	csel	x1, x13, x1, lo
	subs	x18, x18, x1
	orr	x1, x21, #0x100000000
	csel	x18, xzr, x18, lo
	subs	x1, x1, x14
	csel	x1, xzr, x1, lo
	subs	x6, x6, x16
	csel	x6, xzr, x6, lo
	subs	x7, x7, x13
	csel	x7, xzr, x7, lo
	cmp	w11, w10
	csel	w10, w11, w10, lo
	cmp	w15, w10
	csel	w10, w15, w10, lo
	cmp	x1, x10
	csel	x10, x1, x10, lo
	cmp	x6, x10
	csel	x10, x6, x10, lo
	cmp	x7, x10
	csel	x11, x7, x10, lo
	cmp	x11, x18
	b.ls	.LBB_9ba498_467
	add	x8, x18, x12
	add	x11, x11, x12
	cmp	x8, x11
	str	x8, [sp, #48]
	b.hs	.LBB_9ba498_467
	cmp	x14, x16
	mov	x15, #4294967296
	add	x8, x18, x4
	csel	x14, x14, x16, lo
	str	x8, [sp, #32]
	add	x8, x18, x0
	cmp	x14, x13
	ldr	x28, [sp, #48]
	str	x8, [sp, #16]
	csel	x13, x14, x13, lo
	add	x8, x23, x5
	ldur	x12, [x29, #-144]
	cmp	x13, x15
	str	x8, [sp, #8]
	ldr	x8, [sp, #80]
	csel	x7, x13, x15, lo
	mul	x14, x20, x28
	ldr	x9, [sp, #64]
	sub	x21, x4, x7
	sub	x0, x0, x7
	sub	x16, x17, x8
	add	x21, x21, x15
	add	x15, x0, x15
	and	x1, x16, #0xfffffffffffffff0
	mul	x24, x3, x21
	lsl	x25, x16, #2
	lsl	x22, x8, #2
	lsl	x7, x1, #2
	lsl	x6, x9, #2
	and	x9, x16, #0xc
	madd	x15, x12, x15, x5
	and	x25, x25, #0x30
	lsl	x14, x14, #2
	add	x5, x22, x19
	add	x25, x7, x25
	and	x8, x16, #0x8
	add	x0, x6, x2
	add	x26, x1, x9
	add	x6, x25, x6
	lsl	x24, x24, #2
	add	x22, x25, x22
	add	x5, x14, x5
	lsl	x17, x3, #2
	lsl	x18, x20, #2
	lsr	x13, x16, #4
	lsl	x8, x8, #2
	add	x26, x23, x26
	add	x25, x2, x6
	add	x27, x19, x22
	add	x22, x5, #32
	add	x5, x15, x23
	add	x0, x24, x0
	and	x4, x16, #0xf
	add	x23, x26, x15
	add	x5, x5, #8
	add	x6, x0, #32
	add	x26, x25, x24
	add	x27, x27, x14
	str	x8, [sp]
	b	.LBB_9ba498_426
.LBB_9ba498_425:
	add	x28, x28, #1
	add	x5, x5, x12
	add	x6, x6, x17
	add	x22, x22, x18
	cmp	x28, x11
	add	x23, x23, x12
	add	x26, x26, x17
	add	x27, x27, x18
	b.eq	.LBB_9ba498_467
.LBB_9ba498_426:
	cbz	x13, .LBB_9ba498_429
	mov	x30, x22
	mov	x25, x6
	mov	x24, x5
	mov	x0, x13
.LBB_9ba498_428:
	ldur	d0, [x24, #-8]
	movi	v1.8h, #1
	movi	v5.8h, #128
	ldp	q3, q6, [x25, #-32]
	movi	v17.8h, #128
	zip1	v0.16b, v0.16b, v0.16b
	movi	v16.8h, #128
	movi	v18.8h, #128
	adrp	x14, .LCPI_9ba498_8
	subs	x0, x0, #1
	ushr	v19.8h, v6.8h, #8
	bic	v6.8h, #255, lsl #8
	ushll	v2.4s, v0.4h, #0
	ushll2	v0.4s, v0.8h, #0
	mul	v2.4s, v2.4s, v1.4s
	mul	v4.4s, v0.4s, v1.4s
	ushr	v0.8h, v3.8h, #8
	bic	v3.8h, #255, lsl #8
	ushr	v7.8h, v2.8h, #8
	ushr	v20.8h, v4.8h, #8
	bic	v2.8h, #255, lsl #8
	bic	v4.8h, #255, lsl #8
	mla	v5.8h, v7.8h, v0.8h
	movi	v0.16b, #1
	mla	v17.8h, v20.8h, v19.8h
	mla	v18.8h, v2.8h, v3.8h
	mla	v16.8h, v4.8h, v6.8h
	movi	v19.8h, #128
	umull2	v2.4s, v5.8h, v0.8h
	umull	v3.4s, v5.4h, v0.4h
	umull2	v4.4s, v17.8h, v0.8h
	umull	v5.4s, v17.4h, v0.4h
	umull2	v6.4s, v18.8h, v0.8h
	umull	v7.4s, v18.4h, v0.4h
	movi	v17.8h, #128
	movi	v18.8h, #128
	uzp2	v2.8h, v3.8h, v2.8h
	umull2	v3.4s, v16.8h, v0.8h
	umull	v16.4s, v16.4h, v0.4h
	uzp2	v4.8h, v5.8h, v4.8h
	uzp2	v5.8h, v7.8h, v6.8h
	rev16	v6.16b, v2.16b
	uzp2	v3.8h, v16.8h, v3.8h
	rev16	v4.16b, v4.16b
	ldp	q2, q7, [x30, #-32]
	ushr	v16.4s, v2.4s, #24
	ushr	v7.4s, v7.4s, #24
	ldr	q2, [x14, :lo12:.LCPI_9ba498_8]
	orr	v6.16b, v6.16b, v5.16b
	orr	v4.16b, v4.16b, v3.16b
	adrp	x14, .LCPI_9ba498_0
	tbl	v16.16b, { v16.16b }, v2.16b
	tbl	v7.16b, { v7.16b }, v2.16b
	ushr	v6.8h, v6.8h, #8
	ushr	v4.8h, v4.8h, #8
	mla	v17.8h, v6.8h, v16.8h
	movi	v6.8h, #128
	mla	v18.8h, v4.8h, v7.8h
	mla	v19.8h, v16.8h, v5.8h
	umull2	v4.4s, v17.8h, v0.8h
	umull	v5.4s, v17.4h, v0.4h
	mla	v6.8h, v7.8h, v3.8h
	umull2	v3.4s, v18.8h, v0.8h
	umull	v7.4s, v18.4h, v0.4h
	umull2	v16.4s, v19.8h, v0.8h
	umull	v17.4s, v19.4h, v0.4h
	movi	v18.8h, #128
	uzp2	v4.8h, v5.8h, v4.8h
	umull2	v5.4s, v6.8h, v0.8h
	umull	v6.4s, v6.4h, v0.4h
	uzp2	v7.8h, v7.8h, v3.8h
	ldr	q3, [x14, :lo12:.LCPI_9ba498_0]
	uzp2	v16.8h, v17.8h, v16.8h
	tbl	v4.16b, { v4.16b }, v3.16b
	uzp2	v5.8h, v6.8h, v5.8h
	tbl	v6.16b, { v7.16b }, v3.16b
	movi	v7.8h, #128
	orr	v4.16b, v4.16b, v16.16b
	orr	v5.16b, v6.16b, v5.16b
	stp	q4, q5, [x30, #-32]
	ldr	d4, [x24], #16
	zip1	v4.16b, v4.16b, v4.16b
	ushll	v5.4s, v4.4h, #0
	ushll2	v4.4s, v4.8h, #0
	mul	v5.4s, v5.4s, v1.4s
	mul	v1.4s, v4.4s, v1.4s
	ldp	q6, q4, [x25], #64
	ushr	v16.8h, v6.8h, #8
	ushr	v17.8h, v5.8h, #8
	ushr	v19.8h, v4.8h, #8
	ushr	v20.8h, v1.8h, #8
	bic	v6.8h, #255, lsl #8
	bic	v5.8h, #255, lsl #8
	bic	v4.8h, #255, lsl #8
	bic	v1.8h, #255, lsl #8
	mla	v7.8h, v17.8h, v16.8h
	movi	v16.8h, #128
	movi	v17.8h, #128
	mla	v18.8h, v20.8h, v19.8h
	mla	v17.8h, v5.8h, v6.8h
	umull2	v5.4s, v7.8h, v0.8h
	umull	v6.4s, v7.4h, v0.4h
	mla	v16.8h, v1.8h, v4.8h
	umull2	v1.4s, v18.8h, v0.8h
	umull	v4.4s, v18.4h, v0.4h
	movi	v18.8h, #128
	umull2	v7.4s, v17.8h, v0.8h
	umull	v17.4s, v17.4h, v0.4h
	uzp2	v5.8h, v6.8h, v5.8h
	umull2	v6.4s, v16.8h, v0.8h
	umull	v16.4s, v16.4h, v0.4h
	uzp2	v1.8h, v4.8h, v1.8h
	uzp2	v4.8h, v17.8h, v7.8h
	rev16	v5.16b, v5.16b
	movi	v17.8h, #128
	uzp2	v6.8h, v16.8h, v6.8h
	rev16	v1.16b, v1.16b
	ldp	q7, q16, [x30]
	orr	v5.16b, v5.16b, v4.16b
	ushr	v7.4s, v7.4s, #24
	ushr	v16.4s, v16.4s, #24
	orr	v1.16b, v1.16b, v6.16b
	ushr	v5.8h, v5.8h, #8
	tbl	v7.16b, { v7.16b }, v2.16b
	tbl	v2.16b, { v16.16b }, v2.16b
	ushr	v1.8h, v1.8h, #8
	movi	v16.8h, #128
	mla	v17.8h, v5.8h, v7.8h
	movi	v5.8h, #128
	mla	v18.8h, v1.8h, v2.8h
	mla	v16.8h, v7.8h, v4.8h
	umull2	v1.4s, v17.8h, v0.8h
	umull	v4.4s, v17.4h, v0.4h
	mla	v5.8h, v2.8h, v6.8h
	umull2	v2.4s, v18.8h, v0.8h
	umull	v6.4s, v18.4h, v0.4h
	umull2	v7.4s, v16.8h, v0.8h
	umull	v16.4s, v16.4h, v0.4h
	uzp2	v1.8h, v4.8h, v1.8h
	umull2	v4.4s, v5.8h, v0.8h
	umull	v0.4s, v5.4h, v0.4h
	uzp2	v2.8h, v6.8h, v2.8h
	uzp2	v5.8h, v16.8h, v7.8h
	tbl	v1.16b, { v1.16b }, v3.16b
	uzp2	v0.8h, v0.8h, v4.8h
	tbl	v2.16b, { v2.16b }, v3.16b
	orr	v1.16b, v1.16b, v5.16b
	orr	v0.16b, v2.16b, v0.16b
	stp	q1, q0, [x30], #64
	b.ne	.LBB_9ba498_428
.LBB_9ba498_429:
	cmp	x1, x16
	b.eq	.LBB_9ba498_425
	ldr	x8, [sp, #80]
	madd	x14, x28, x20, x8
	ldr	x8, [sp, #48]
	sub	x15, x28, x8
	ldr	x8, [sp, #32]
	add	x0, x8, x15
	ldr	x8, [sp, #64]
	add	x14, x19, x14, lsl #2
	madd	x0, x0, x3, x8
	ldr	x8, [sp, #16]
	add	x15, x8, x15
	ldr	x8, [sp, #8]
	madd	x15, x15, x12, x8
	and	x8, x16, #0x8
	add	x24, x2, x0, lsl #2
	add	x0, x14, x7
	add	x24, x24, x7
	add	x25, x15, x1
	cbnz	x8, .LBB_9ba498_433
	tbnz	w16, #2, .LBB_9ba498_434
.LBB_9ba498_432:
	and	x8, x16, #0xc
	cmp	x8, x4
	b.eq	.LBB_9ba498_425
	b	.LBB_9ba498_435
.LBB_9ba498_433:
	ldr	d0, [x25]
	movi	v1.8h, #1
	movi	v5.8h, #128
	ldp	q3, q4, [x24]
	movi	v6.8h, #128
	zip1	v0.16b, v0.16b, v0.16b
	movi	v18.8h, #128
	adrp	x14, .LCPI_9ba498_8
	ushr	v16.8h, v4.8h, #8
	bic	v4.8h, #255, lsl #8
	ushll	v2.4s, v0.4h, #0
	ushll2	v0.4s, v0.8h, #0
	mul	v2.4s, v2.4s, v1.4s
	mul	v1.4s, v0.4s, v1.4s
	ushr	v0.8h, v3.8h, #8
	bic	v3.8h, #255, lsl #8
	ushr	v7.8h, v2.8h, #8
	ushr	v17.8h, v1.8h, #8
	bic	v2.8h, #255, lsl #8
	bic	v1.8h, #255, lsl #8
	mla	v5.8h, v7.8h, v0.8h
	movi	v7.8h, #128
	mla	v6.8h, v17.8h, v16.8h
	movi	v0.16b, #1
	mla	v18.8h, v2.8h, v3.8h
	movi	v16.8h, #128
	movi	v17.8h, #128
	mla	v7.8h, v1.8h, v4.8h
	umull2	v2.4s, v5.8h, v0.8h
	umull	v3.4s, v5.4h, v0.4h
	umull2	v1.4s, v6.8h, v0.8h
	umull	v4.4s, v6.4h, v0.4h
	umull2	v5.4s, v18.8h, v0.8h
	umull	v6.4s, v18.4h, v0.4h
	uzp2	v2.8h, v3.8h, v2.8h
	umull2	v3.4s, v7.8h, v0.8h
	umull	v7.4s, v7.4h, v0.4h
	uzp2	v1.8h, v4.8h, v1.8h
	uzp2	v4.8h, v6.8h, v5.8h
	ldp	q5, q6, [x0]
	rev16	v2.16b, v2.16b
	uzp2	v3.8h, v7.8h, v3.8h
	ldr	q7, [x14, :lo12:.LCPI_9ba498_8]
	rev16	v1.16b, v1.16b
	ushr	v5.4s, v5.4s, #24
	ushr	v6.4s, v6.4s, #24
	adrp	x14, .LCPI_9ba498_0
	orr	v2.16b, v2.16b, v4.16b
	tbl	v5.16b, { v5.16b }, v7.16b
	tbl	v6.16b, { v6.16b }, v7.16b
	orr	v1.16b, v1.16b, v3.16b
	movi	v7.8h, #128
	ushr	v2.8h, v2.8h, #8
	ushr	v1.8h, v1.8h, #8
	mla	v7.8h, v5.8h, v4.8h
	mla	v16.8h, v2.8h, v5.8h
	movi	v2.8h, #128
	mla	v17.8h, v1.8h, v6.8h
	umull2	v1.4s, v16.8h, v0.8h
	umull	v4.4s, v16.4h, v0.4h
	mla	v2.8h, v6.8h, v3.8h
	umull2	v3.4s, v17.8h, v0.8h
	umull	v5.4s, v17.4h, v0.4h
	umull2	v6.4s, v7.8h, v0.8h
	umull	v7.4s, v7.4h, v0.4h
	uzp2	v1.8h, v4.8h, v1.8h
	umull2	v4.4s, v2.8h, v0.8h
	umull	v0.4s, v2.4h, v0.4h
	uzp2	v2.8h, v5.8h, v3.8h
	ldr	q3, [x14, :lo12:.LCPI_9ba498_0]
	uzp2	v5.8h, v7.8h, v6.8h
	tbl	v1.16b, { v1.16b }, v3.16b
	uzp2	v0.8h, v0.8h, v4.8h
	tbl	v2.16b, { v2.16b }, v3.16b
	orr	v1.16b, v1.16b, v5.16b
	orr	v0.16b, v2.16b, v0.16b
	stp	q1, q0, [x0]
	tbz	w16, #2, .LBB_9ba498_432
.LBB_9ba498_434:
	adrp	x14, .LCPI_9ba498_1
	and	x8, x16, #0x8
	movi	v2.8h, #128
	ldr	s0, [x25, x8]
	ldr	q1, [x14, :lo12:.LCPI_9ba498_1]
	ldr	x8, [sp]
	movi	v5.8h, #128
	movi	v6.16b, #1
	adrp	x14, .LCPI_9ba498_9
	tbl	v0.16b, { v0.16b }, v1.16b
	ldr	q1, [x24, x8]
	ushr	v4.8h, v1.8h, #8
	bic	v1.8h, #255, lsl #8
	ushr	v3.8h, v0.8h, #8
	bic	v0.8h, #255, lsl #8
	mla	v2.8h, v3.8h, v4.8h
	mla	v5.8h, v0.8h, v1.8h
	umull2	v0.4s, v2.8h, v6.8h
	umull	v1.4s, v2.4h, v6.4h
	umull2	v2.4s, v5.8h, v6.8h
	umull	v3.4s, v5.4h, v6.4h
	movi	v5.8h, #128
	uzp2	v0.8h, v1.8h, v0.8h
	ldr	q1, [x0, x8]
	uzp2	v2.8h, v3.8h, v2.8h
	ldr	q3, [x14, :lo12:.LCPI_9ba498_9]
	adrp	x14, .LCPI_9ba498_0
	ushr	v1.4s, v1.4s, #24
	rev16	v0.16b, v0.16b
	tbl	v1.16b, { v1.16b }, v3.16b
	movi	v3.8h, #128
	orr	v0.16b, v0.16b, v2.16b
	ushr	v4.8h, v1.8h, #8
	bic	v1.8h, #255, lsl #8
	ushr	v0.8h, v0.8h, #8
	mla	v5.8h, v1.8h, v2.8h
	mla	v3.8h, v0.8h, v4.8h
	umull2	v2.4s, v5.8h, v6.8h
	umull2	v0.4s, v3.8h, v6.8h
	umull	v1.4s, v3.4h, v6.4h
	umull	v3.4s, v5.4h, v6.4h
	uzp2	v0.8h, v1.8h, v0.8h
	ldr	q1, [x14, :lo12:.LCPI_9ba498_0]
	uzp2	v2.8h, v3.8h, v2.8h
	tbl	v0.16b, { v0.16b }, v1.16b
	orr	v0.16b, v0.16b, v2.16b
	str	q0, [x0, x8]
	and	x8, x16, #0xc
	cmp	x8, x4
	b.eq	.LBB_9ba498_425
.LBB_9ba498_435:
	mov	x0, x27
	mov	x24, x26
	mov	x25, x23
	and	x30, x16, #0xc
.LBB_9ba498_436:
	ldr	w14, [x24], #4
	adrp	x15, .LCPI_9ba498_2
	ldr	d1, [x15, :lo12:.LCPI_9ba498_2]
	ldrb	w9, [x25], #1
	dup	v0.2s, w14
	ldrb	w15, [x0, #3]
	movi	v2.2s, #128
	adrp	x10, .LCPI_9ba498_15
	ubfx	w8, w14, #8, #8
	and	w14, w14, #0xff
	add	x30, x30, #1
	cmp	x30, x4
	ushl	v0.2s, v0.2s, v1.2s
	mov	s1, v0.s[1]
	str	h0, [sp, #164]
	str	h1, [sp, #166]
	dup	v1.2s, w9
	ldr	s0, [sp, #164]
	zip1	v0.8b, v0.8b, v0.8b
	mov	v0.h[1], wzr
	uzp1	v0.8b, v0.8b, v0.8b
	ushll	v0.4s, v0.4h, #0
	mla	v2.2s, v0.2s, v1.2s
	movi	d0, #0x00ffff0000ffff
	and	v1.8b, v2.8b, v0.8b
	usra	v2.2s, v1.2s, #8
	movi	v1.2s, #128
	and	v0.8b, v2.8b, v0.8b
	dup	v2.2s, w15
	ushr	v0.2s, v0.2s, #8
	mla	v1.2s, v0.2s, v2.2s
	movi	d2, #0xff000000ffff0000
	fmov	d0, d1
	bic	v0.2s, #1, lsl #16
	usra	v1.2s, v0.2s, #8
	ldr	d0, [x10, :lo12:.LCPI_9ba498_15]
	mov	w10, #128
	madd	w8, w8, w9, w10
	madd	w9, w14, w9, w10
	bic	v1.2s, #3, lsl #16
	and	w14, w8, #0xff00
	and	w21, w9, #0xff00
	add	w8, w8, w14, lsr #8
	ushl	v0.2s, v1.2s, v0.2s
	add	w9, w9, w21, lsr #8
	ubfx	w8, w8, #8, #8
	ubfx	w9, w9, #8, #8
	and	v0.8b, v0.8b, v2.8b
	madd	w8, w8, w15, w10
	madd	w9, w9, w15, w10
	dup	v1.2s, v0.s[1]
	and	w10, w8, #0xff00
	and	w14, w9, #0xff00
	add	w8, w8, w10, lsr #8
	add	w9, w9, w14, lsr #8
	and	w8, w8, #0xff00
	orr	v0.8b, v0.8b, v1.8b
	and	w9, w9, #0xff00
	fmov	w10, s0
	orr	w8, w10, w8
	orr	w8, w8, w9, lsr #8
	str	w8, [x0], #4
	b.lo	.LBB_9ba498_436
	b	.LBB_9ba498_425
.LBB_9ba498_437:
	cmp	w8, #2
	b.ne	.LBB_9ba498_745
	cbz	w23, .LBB_9ba498_467
	sub	x8, x0, x24
	mov	x9, #4294967296
	mov	x0, #4294967296
	add	x13, x8, x9
	add	x18, x15, x9
	orr	x5, x23, #0x100000000
	cmp	x18, x13
	bfxil	x0, x14, #0, #32
	sub	x12, x12, x22
	csel	x1, x18, x13, lo
	subs	x1, x9, x1
	csel	x1, xzr, x1, lo
	subs	x13, x5, x13
	csel	x13, xzr, x13, lo
	subs	x18, x0, x18
	add	x15, x1, x15
	csel	x18, xzr, x18, lo
	cmp	w17, w16
	orr	x0, x21, #0x100000000
	csel	w16, w17, w16, lo
	add	x17, x4, x9
	cmp	x13, x16
	csel	x13, x13, x16, lo
	add	x16, x12, x9
	cmp	x18, x13
	csel	x13, x18, x13, lo
	add	x18, x1, x8
	cmp	x13, x1
	add	x8, x13, x8
	csel	x13, x18, xzr, hi
	csel	x8, x8, xzr, hi
	csel	x15, x15, xzr, hi
	cmp	x17, x16
	stp	x13, x8, [x29, #-120]
	csel	x18, x17, x16, lo
	stur	x15, [x29, #-104]
	subs	x18, x9, x18
	bfxil	x9, x14, #32, #32
	csel	x14, xzr, x18, lo
	subs	x16, x0, x16
	csel	x16, xzr, x16, lo
	subs	x9, x9, x17
	add	x8, x14, x12
	csel	x9, xzr, x9, lo
	cmp	w11, w10
	csel	w10, w11, w10, lo
	cmp	x16, x10
	csel	x10, x16, x10, lo
	cmp	x9, x10
	csel	x9, x9, x10, lo
	add	x10, x14, x4
	cmp	x9, x14
	b	.LBB_9ba498_465
.LBB_9ba498_440:
	cmp	w8, #6
	b.ne	.LBB_9ba498_761
	cbz	w23, .LBB_9ba498_467
	sub	x9, x0, x24
	mov	x1, #4294967296
	ldur	x26, [x29, #-152]
	ldpsw	x6, x0, [x29, #-136]
	add	x5, x9, x1
	add	x7, x15, x1
	mov	x27, #4294967296
	cmp	x7, x5
	orr	x23, x23, #0x100000000
	bfxil	x27, x14, #0, #32
	add	x25, x6, x1
	csel	x24, x7, x5, lo
	mov	x28, #4294967296
	cmp	x25, x24
	bfxil	x28, x26, #0, #32
	mov	x18, xzr
	csel	x24, x25, x24, lo
	str	xzr, [sp, #80]
	subs	x24, x1, x24
	str	xzr, [sp, #64]
	csel	x24, xzr, x24, lo
	subs	x5, x23, x5
	csel	x5, xzr, x5, lo
	subs	x7, x27, x7
	csel	x7, xzr, x7, lo
	subs	x23, x28, x25
	csel	x23, xzr, x23, lo
	cmp	w17, w16
	csel	w17, w17, w16, lo
	ldp	w25, w16, [x29, #-128]
	cmp	w25, w17
	csel	w17, w25, w17, lo
	cmp	x5, x17
	csel	x17, x5, x17, lo
	mov	x5, xzr
	cmp	x7, x17
	csel	x17, x7, x17, lo
	lsr	x7, x26, #32
	cmp	x23, x17
	csel	x17, x23, x17, lo
	lsr	x23, x14, #32
	cmp	x17, x24
	b.ls	.LBB_9ba498_444
	add	x8, x24, x9
	add	x18, x17, x9
	add	x5, x24, x6
	str	x8, [sp, #80]
	add	x8, x24, x15
	str	x8, [sp, #64]
.LBB_9ba498_444:
	sub	x12, x12, x22
	add	x17, x4, x1
	add	x14, x0, x1
	add	x15, x12, x1
	orr	x6, x23, #0x100000000
	orr	x7, x7, #0x100000000
	cmp	x17, x15
	csel	x9, x17, x15, lo
	cmp	x14, x9
	csel	x9, x14, x9, lo
	subs	x9, x1, x9
	orr	x1, x21, #0x100000000
	csel	x9, xzr, x9, lo
	subs	x1, x1, x15
	csel	x1, xzr, x1, lo
	subs	x6, x6, x17
	csel	x6, xzr, x6, lo
	subs	x7, x7, x14
	csel	x7, xzr, x7, lo
	cmp	w11, w10
	csel	w10, w11, w10, lo
	cmp	w16, w10
	csel	w10, w16, w10, lo
	cmp	x1, x10
	csel	x10, x1, x10, lo
	cmp	x6, x10
	csel	x10, x6, x10, lo
	cmp	x7, x10
	csel	x11, x7, x10, lo
	cmp	x11, x9
	b.ls	.LBB_9ba498_467
	add	x10, x9, x12
	add	x11, x11, x12
	cmp	x10, x11
	b.hs	.LBB_9ba498_467
	cmp	x15, x17
	add	x8, x9, x4
	ldur	x12, [x29, #-144]
	str	x8, [sp, #48]
	add	x8, x9, x0
	csel	x9, x15, x17, lo
	cmp	x9, x14
	mov	x15, #4294967296
	str	x8, [sp, #32]
	csel	x9, x9, x14, lo
	add	x8, x13, x5
	mul	x22, x20, x10
	cmp	x9, x15
	str	x8, [sp, #16]
	ldr	x8, [sp, #80]
	csel	x9, x9, x15, lo
	ldr	x17, [sp, #64]
	mov	x28, x10
	sub	x7, x4, x9
	sub	x9, x0, x9
	sub	x16, x18, x8
	add	x7, x7, x15
	add	x9, x9, x15
	and	x1, x16, #0xfffffffffffffff0
	mul	x0, x3, x7
	lsl	x24, x16, #2
	lsl	x7, x1, #2
	lsl	x6, x17, #2
	lsl	x23, x8, #2
	and	x25, x16, #0xc
	madd	x9, x12, x9, x5
	and	x24, x24, #0x30
	lsl	x22, x22, #2
	add	x24, x7, x24
	and	x8, x16, #0x8
	add	x15, x6, x2
	add	x5, x23, x19
	add	x25, x1, x25
	add	x6, x24, x6
	lsl	x0, x0, #2
	add	x23, x24, x23
	lsl	x17, x3, #2
	lsl	x18, x20, #2
	lsr	x14, x16, #4
	lsl	x21, x8, #2
	add	x25, x13, x25
	add	x24, x2, x6
	add	x27, x19, x23
	add	x5, x22, x5
	add	x13, x9, x13
	add	x15, x0, x15
	and	x4, x16, #0xf
	add	x6, x5, #32
	add	x23, x25, x9
	add	x13, x13, #8
	add	x5, x15, #32
	add	x26, x24, x0
	add	x27, x27, x22
	b	.LBB_9ba498_448
.LBB_9ba498_447:
	add	x28, x28, #1
	add	x13, x13, x12
	add	x5, x5, x17
	add	x6, x6, x18
	cmp	x28, x11
	add	x23, x23, x12
	add	x26, x26, x17
	add	x27, x27, x18
	b.eq	.LBB_9ba498_467
.LBB_9ba498_448:
	adrp	x30, .LCPI_9ba498_8
	cbz	x14, .LBB_9ba498_451
	mov	x22, x6
	mov	x25, x5
	mov	x24, x13
	mov	x0, x14
.LBB_9ba498_450:
	ldur	d0, [x24, #-8]
	movi	v3.8h, #1
	movi	v7.8h, #128
	ldp	q5, q4, [x25, #-32]
	movi	v16.8h, #128
	zip1	v0.16b, v0.16b, v0.16b
	movi	v6.8h, #128
	movi	v19.8h, #128
	adrp	x9, .LCPI_9ba498_0
	movi	v23.8h, #128
	movi	v24.8h, #128
	ushr	v17.8h, v4.8h, #8
	ushr	v20.8h, v5.8h, #8
	subs	x0, x0, #1
	bic	v4.8h, #255, lsl #8
	bic	v5.8h, #255, lsl #8
	ushll2	v1.4s, v0.8h, #0
	ushll	v0.4s, v0.4h, #0
	mul	v1.4s, v1.4s, v3.4s
	mul	v2.4s, v0.4s, v3.4s
	movi	v0.16b, #1
	ushr	v18.8h, v1.8h, #8
	ushr	v21.8h, v2.8h, #8
	bic	v1.8h, #255, lsl #8
	bic	v2.8h, #255, lsl #8
	mla	v7.8h, v18.8h, v17.8h
	mla	v16.8h, v21.8h, v20.8h
	mla	v6.8h, v1.8h, v4.8h
	mla	v19.8h, v2.8h, v5.8h
	movi	v18.8h, #128
	umull2	v1.4s, v7.8h, v0.8h
	umull	v4.4s, v7.4h, v0.4h
	umull2	v2.4s, v16.8h, v0.8h
	umull	v5.4s, v16.4h, v0.4h
	umull2	v7.4s, v6.8h, v0.8h
	umull	v6.4s, v6.4h, v0.4h
	umull2	v16.4s, v19.8h, v0.8h
	umull	v17.4s, v19.4h, v0.4h
	uzp2	v4.8h, v4.8h, v1.8h
	ldr	q1, [x9, :lo12:.LCPI_9ba498_0]
	uzp2	v2.8h, v5.8h, v2.8h
	uzp2	v5.8h, v6.8h, v7.8h
	uzp2	v16.8h, v17.8h, v16.8h
	movi	v17.8h, #128
	tbl	v4.16b, { v4.16b }, v1.16b
	tbl	v2.16b, { v2.16b }, v1.16b
	orr	v7.16b, v4.16b, v5.16b
	ldp	q6, q4, [x22, #-32]
	orr	v16.16b, v2.16b, v16.16b
	ldr	q2, [x30, :lo12:.LCPI_9ba498_8]
	mvn	v5.16b, v6.16b
	mvn	v21.16b, v4.16b
	mvn	v22.16b, v7.16b
	mvn	v19.16b, v16.16b
	ushr	v25.8h, v16.8h, #8
	bic	v16.8h, #255, lsl #8
	ushr	v26.8h, v4.8h, #8
	ushr	v27.8h, v7.8h, #8
	bic	v7.8h, #255, lsl #8
	ushr	v20.4s, v5.4s, #24
	ushr	v21.4s, v21.4s, #24
	ushr	v22.4s, v22.4s, #24
	ushr	v19.4s, v19.4s, #24
	movi	v5.8h, #128
	bic	v4.8h, #255, lsl #8
	tbl	v20.16b, { v20.16b }, v2.16b
	tbl	v21.16b, { v21.16b }, v2.16b
	tbl	v22.16b, { v22.16b }, v2.16b
	tbl	v19.16b, { v19.16b }, v2.16b
	mla	v18.8h, v25.8h, v20.8h
	ushr	v25.8h, v6.8h, #8
	mla	v5.8h, v16.8h, v20.8h
	movi	v16.8h, #128
	mla	v17.8h, v27.8h, v21.8h
	mla	v23.8h, v26.8h, v22.8h
	movi	v20.8h, #128
	bic	v6.8h, #255, lsl #8
	mla	v24.8h, v25.8h, v19.8h
	movi	v25.8h, #128
	mla	v16.8h, v7.8h, v21.8h
	umull2	v7.4s, v18.8h, v0.8h
	umull	v18.4s, v18.4h, v0.4h
	umull2	v21.4s, v17.8h, v0.8h
	umull	v17.4s, v17.4h, v0.4h
	mla	v20.8h, v6.8h, v19.8h
	umull2	v6.4s, v24.8h, v0.8h
	umull	v19.4s, v24.4h, v0.4h
	mla	v25.8h, v4.8h, v22.8h
	umull2	v4.4s, v23.8h, v0.8h
	umull	v22.4s, v23.4h, v0.4h
	umull2	v24.4s, v5.8h, v0.8h
	umull2	v23.4s, v16.8h, v0.8h
	umull	v16.4s, v16.4h, v0.4h
	umull	v5.4s, v5.4h, v0.4h
	uzp2	v7.8h, v18.8h, v7.8h
	uzp2	v17.8h, v17.8h, v21.8h
	umull2	v18.4s, v20.8h, v0.8h
	umull	v20.4s, v20.4h, v0.4h
	uzp2	v6.8h, v19.8h, v6.8h
	umull2	v19.4s, v25.8h, v0.8h
	umull	v21.4s, v25.4h, v0.4h
	uzp2	v4.8h, v22.8h, v4.8h
	movi	v22.8h, #128
	uzp2	v16.8h, v16.8h, v23.8h
	uzp2	v5.8h, v5.8h, v24.8h
	movi	v23.8h, #128
	tbl	v7.16b, { v7.16b }, v1.16b
	tbl	v17.16b, { v17.16b }, v1.16b
	uzp2	v18.8h, v20.8h, v18.8h
	tbl	v6.16b, { v6.16b }, v1.16b
	uzp2	v19.8h, v21.8h, v19.8h
	tbl	v4.16b, { v4.16b }, v1.16b
	orr	v5.16b, v7.16b, v5.16b
	orr	v7.16b, v17.16b, v16.16b
	movi	v16.8h, #128
	orr	v6.16b, v6.16b, v18.16b
	orr	v4.16b, v4.16b, v19.16b
	movi	v19.8h, #128
	uqadd	v5.16b, v5.16b, v6.16b
	uqadd	v4.16b, v7.16b, v4.16b
	movi	v7.8h, #128
	stp	q5, q4, [x22, #-32]
	ldr	d4, [x24], #16
	zip1	v4.16b, v4.16b, v4.16b
	ushll2	v5.4s, v4.8h, #0
	ushll	v4.4s, v4.4h, #0
	mul	v5.4s, v5.4s, v3.4s
	mul	v3.4s, v4.4s, v3.4s
	ldp	q6, q4, [x25], #64
	ushr	v17.8h, v4.8h, #8
	ushr	v18.8h, v5.8h, #8
	ushr	v20.8h, v6.8h, #8
	ushr	v21.8h, v3.8h, #8
	bic	v4.8h, #255, lsl #8
	bic	v5.8h, #255, lsl #8
	bic	v6.8h, #255, lsl #8
	bic	v3.8h, #255, lsl #8
	mla	v7.8h, v18.8h, v17.8h
	mla	v16.8h, v21.8h, v20.8h
	mla	v19.8h, v5.8h, v4.8h
	mla	v22.8h, v3.8h, v6.8h
	umull2	v4.4s, v7.8h, v0.8h
	umull	v5.4s, v7.4h, v0.4h
	umull2	v3.4s, v16.8h, v0.8h
	umull	v6.4s, v16.4h, v0.4h
	umull2	v7.4s, v19.8h, v0.8h
	umull	v16.4s, v19.4h, v0.4h
	umull	v17.4s, v22.4h, v0.4h
	uzp2	v4.8h, v5.8h, v4.8h
	umull2	v5.4s, v22.8h, v0.8h
	uzp2	v3.8h, v6.8h, v3.8h
	uzp2	v6.8h, v16.8h, v7.8h
	tbl	v4.16b, { v4.16b }, v1.16b
	uzp2	v16.8h, v17.8h, v5.8h
	movi	v17.8h, #128
	tbl	v3.16b, { v3.16b }, v1.16b
	orr	v7.16b, v4.16b, v6.16b
	ldp	q5, q4, [x22]
	orr	v16.16b, v3.16b, v16.16b
	movi	v3.8h, #128
	mvn	v6.16b, v5.16b
	mvn	v18.16b, v4.16b
	mvn	v19.16b, v7.16b
	mvn	v21.16b, v16.16b
	ushr	v24.8h, v16.8h, #8
	bic	v16.8h, #255, lsl #8
	ushr	v25.8h, v4.8h, #8
	bic	v4.8h, #255, lsl #8
	ushr	v20.4s, v6.4s, #24
	ushr	v22.4s, v18.4s, #24
	ushr	v19.4s, v19.4s, #24
	movi	v18.8h, #128
	ushr	v21.4s, v21.4s, #24
	movi	v6.8h, #128
	tbl	v20.16b, { v20.16b }, v2.16b
	tbl	v22.16b, { v22.16b }, v2.16b
	tbl	v19.16b, { v19.16b }, v2.16b
	tbl	v2.16b, { v21.16b }, v2.16b
	ushr	v21.8h, v7.8h, #8
	bic	v7.8h, #255, lsl #8
	mla	v18.8h, v24.8h, v20.8h
	ushr	v24.8h, v5.8h, #8
	mla	v3.8h, v16.8h, v20.8h
	movi	v16.8h, #128
	mla	v17.8h, v21.8h, v22.8h
	mla	v23.8h, v25.8h, v19.8h
	movi	v20.8h, #128
	movi	v21.8h, #128
	bic	v5.8h, #255, lsl #8
	mla	v6.8h, v24.8h, v2.8h
	mla	v16.8h, v7.8h, v22.8h
	umull2	v7.4s, v18.8h, v0.8h
	umull	v18.4s, v18.4h, v0.4h
	umull2	v22.4s, v17.8h, v0.8h
	umull	v17.4s, v17.4h, v0.4h
	mla	v20.8h, v5.8h, v2.8h
	umull2	v2.4s, v6.8h, v0.8h
	umull	v5.4s, v6.4h, v0.4h
	mla	v21.8h, v4.8h, v19.8h
	umull2	v4.4s, v23.8h, v0.8h
	umull	v6.4s, v23.4h, v0.4h
	umull2	v23.4s, v3.8h, v0.8h
	umull2	v19.4s, v16.8h, v0.8h
	umull	v16.4s, v16.4h, v0.4h
	umull	v3.4s, v3.4h, v0.4h
	uzp2	v7.8h, v18.8h, v7.8h
	uzp2	v17.8h, v17.8h, v22.8h
	umull2	v18.4s, v20.8h, v0.8h
	umull	v20.4s, v20.4h, v0.4h
	uzp2	v2.8h, v5.8h, v2.8h
	umull2	v5.4s, v21.8h, v0.8h
	umull	v0.4s, v21.4h, v0.4h
	uzp2	v4.8h, v6.8h, v4.8h
	uzp2	v6.8h, v16.8h, v19.8h
	uzp2	v3.8h, v3.8h, v23.8h
	tbl	v7.16b, { v7.16b }, v1.16b
	tbl	v17.16b, { v17.16b }, v1.16b
	uzp2	v16.8h, v20.8h, v18.8h
	tbl	v2.16b, { v2.16b }, v1.16b
	uzp2	v0.8h, v0.8h, v5.8h
	tbl	v1.16b, { v4.16b }, v1.16b
	orr	v3.16b, v7.16b, v3.16b
	orr	v4.16b, v17.16b, v6.16b
	orr	v2.16b, v2.16b, v16.16b
	orr	v0.16b, v1.16b, v0.16b
	uqadd	v1.16b, v3.16b, v2.16b
	uqadd	v0.16b, v4.16b, v0.16b
	stp	q1, q0, [x22], #64
	b.ne	.LBB_9ba498_450
.LBB_9ba498_451:
	cmp	x1, x16
	b.eq	.LBB_9ba498_447
	ldr	x8, [sp, #80]
	madd	x9, x28, x20, x8
	sub	x15, x28, x10
	ldr	x8, [sp, #48]
	add	x0, x8, x15
	ldr	x8, [sp, #64]
	madd	x0, x0, x3, x8
	ldr	x8, [sp, #32]
	add	x9, x19, x9, lsl #2
	add	x15, x8, x15
	ldr	x8, [sp, #16]
	madd	x15, x15, x12, x8
	and	x8, x16, #0x8
	add	x22, x2, x0, lsl #2
	add	x0, x9, x7
	add	x22, x22, x7
	add	x24, x15, x1
	cbnz	x8, .LBB_9ba498_455
	tbnz	w16, #2, .LBB_9ba498_456
.LBB_9ba498_454:
	and	x8, x16, #0xc
	cmp	x8, x4
	b.eq	.LBB_9ba498_447
	b	.LBB_9ba498_457
.LBB_9ba498_455:
	ldr	d0, [x24]
	movi	v1.8h, #1
	movi	v4.8h, #128
	ldp	q3, q5, [x22]
	movi	v17.8h, #128
	zip1	v0.16b, v0.16b, v0.16b
	movi	v16.8h, #128
	adrp	x9, .LCPI_9ba498_0
	movi	v22.8h, #128
	ushr	v6.8h, v3.8h, #8
	ushr	v18.8h, v5.8h, #8
	bic	v3.8h, #255, lsl #8
	bic	v5.8h, #255, lsl #8
	ushll	v2.4s, v0.4h, #0
	ushll2	v0.4s, v0.8h, #0
	mul	v2.4s, v2.4s, v1.4s
	mul	v1.4s, v0.4s, v1.4s
	movi	v0.16b, #1
	ushr	v7.8h, v2.8h, #8
	ushr	v19.8h, v1.8h, #8
	bic	v2.8h, #255, lsl #8
	bic	v1.8h, #255, lsl #8
	mla	v4.8h, v7.8h, v6.8h
	movi	v6.8h, #128
	mla	v17.8h, v19.8h, v18.8h
	mla	v16.8h, v2.8h, v3.8h
	umull2	v2.4s, v4.8h, v0.8h
	umull	v3.4s, v4.4h, v0.4h
	mla	v6.8h, v1.8h, v5.8h
	umull2	v4.4s, v17.8h, v0.8h
	umull	v5.4s, v17.4h, v0.4h
	umull2	v7.4s, v16.8h, v0.8h
	umull	v16.4s, v16.4h, v0.4h
	ldr	q1, [x9, :lo12:.LCPI_9ba498_0]
	uzp2	v2.8h, v3.8h, v2.8h
	umull2	v3.4s, v6.8h, v0.8h
	umull	v6.4s, v6.4h, v0.4h
	uzp2	v4.8h, v5.8h, v4.8h
	uzp2	v5.8h, v16.8h, v7.8h
	tbl	v7.16b, { v2.16b }, v1.16b
	uzp2	v6.8h, v6.8h, v3.8h
	tbl	v4.16b, { v4.16b }, v1.16b
	ldp	q3, q2, [x0]
	mvn	v16.16b, v2.16b
	orr	v5.16b, v7.16b, v5.16b
	mvn	v7.16b, v3.16b
	orr	v17.16b, v4.16b, v6.16b
	ldr	q6, [x30, :lo12:.LCPI_9ba498_8]
	movi	v4.8h, #128
	ushr	v16.4s, v16.4s, #24
	mvn	v18.16b, v5.16b
	ushr	v19.4s, v7.4s, #24
	mvn	v20.16b, v17.16b
	movi	v7.8h, #128
	ushr	v23.8h, v17.8h, #8
	bic	v17.8h, #255, lsl #8
	ushr	v24.8h, v5.8h, #8
	bic	v5.8h, #255, lsl #8
	tbl	v21.16b, { v16.16b }, v6.16b
	ushr	v18.4s, v18.4s, #24
	tbl	v19.16b, { v19.16b }, v6.16b
	ushr	v20.4s, v20.4s, #24
	movi	v16.8h, #128
	tbl	v18.16b, { v18.16b }, v6.16b
	mla	v4.8h, v17.8h, v21.8h
	movi	v17.8h, #128
	tbl	v6.16b, { v20.16b }, v6.16b
	mla	v7.8h, v23.8h, v21.8h
	ushr	v23.8h, v3.8h, #8
	ushr	v21.8h, v2.8h, #8
	movi	v20.8h, #128
	mla	v22.8h, v24.8h, v19.8h
	movi	v24.8h, #128
	bic	v3.8h, #255, lsl #8
	bic	v2.8h, #255, lsl #8
	mla	v16.8h, v23.8h, v18.8h
	movi	v23.8h, #128
	mla	v17.8h, v21.8h, v6.8h
	umull2	v21.4s, v22.8h, v0.8h
	umull	v22.4s, v22.4h, v0.4h
	mla	v20.8h, v5.8h, v19.8h
	umull2	v5.4s, v7.8h, v0.8h
	umull	v7.4s, v7.4h, v0.4h
	mla	v24.8h, v3.8h, v18.8h
	umull2	v3.4s, v16.8h, v0.8h
	umull	v16.4s, v16.4h, v0.4h
	mla	v23.8h, v2.8h, v6.8h
	umull2	v2.4s, v17.8h, v0.8h
	umull	v6.4s, v17.4h, v0.4h
	umull2	v17.4s, v4.8h, v0.8h
	umull	v4.4s, v4.4h, v0.4h
	uzp2	v18.8h, v22.8h, v21.8h
	umull2	v19.4s, v20.8h, v0.8h
	umull	v20.4s, v20.4h, v0.4h
	uzp2	v5.8h, v7.8h, v5.8h
	umull2	v7.4s, v24.8h, v0.8h
	umull	v21.4s, v24.4h, v0.4h
	uzp2	v3.8h, v16.8h, v3.8h
	umull2	v16.4s, v23.8h, v0.8h
	umull	v0.4s, v23.4h, v0.4h
	uzp2	v2.8h, v6.8h, v2.8h
	uzp2	v4.8h, v4.8h, v17.8h
	tbl	v17.16b, { v18.16b }, v1.16b
	uzp2	v6.8h, v20.8h, v19.8h
	tbl	v5.16b, { v5.16b }, v1.16b
	uzp2	v7.8h, v21.8h, v7.8h
	tbl	v3.16b, { v3.16b }, v1.16b
	uzp2	v0.8h, v0.8h, v16.8h
	tbl	v1.16b, { v2.16b }, v1.16b
	orr	v2.16b, v17.16b, v6.16b
	orr	v4.16b, v5.16b, v4.16b
	orr	v3.16b, v3.16b, v7.16b
	orr	v0.16b, v1.16b, v0.16b
	uqadd	v1.16b, v2.16b, v3.16b
	uqadd	v0.16b, v4.16b, v0.16b
	stp	q1, q0, [x0]
	tbz	w16, #2, .LBB_9ba498_454
.LBB_9ba498_456:
	adrp	x9, .LCPI_9ba498_1
	and	x8, x16, #0x8
	ldr	q5, [x22, x21]
	ldr	s0, [x24, x8]
	ldr	q1, [x9, :lo12:.LCPI_9ba498_1]
	movi	v2.8h, #128
	ushr	v4.8h, v5.8h, #8
	movi	v6.8h, #128
	bic	v5.8h, #255, lsl #8
	tbl	v1.16b, { v0.16b }, v1.16b
	movi	v0.16b, #1
	adrp	x9, .LCPI_9ba498_0
	movi	v7.8h, #128
	ushr	v3.8h, v1.8h, #8
	bic	v1.8h, #255, lsl #8
	mla	v2.8h, v3.8h, v4.8h
	mla	v6.8h, v1.8h, v5.8h
	umull2	v1.4s, v2.8h, v0.8h
	umull	v2.4s, v2.4h, v0.4h
	umull2	v3.4s, v6.8h, v0.8h
	umull	v4.4s, v6.4h, v0.4h
	uzp2	v2.8h, v2.8h, v1.8h
	ldr	q1, [x9, :lo12:.LCPI_9ba498_0]
	adrp	x9, .LCPI_9ba498_9
	uzp2	v3.8h, v4.8h, v3.8h
	ldr	q6, [x9, :lo12:.LCPI_9ba498_9]
	tbl	v2.16b, { v2.16b }, v1.16b
	orr	v2.16b, v2.16b, v3.16b
	ldr	q3, [x0, x21]
	mvn	v4.16b, v3.16b
	ushr	v18.8h, v3.8h, #8
	bic	v3.8h, #255, lsl #8
	mvn	v5.16b, v2.16b
	ushr	v16.8h, v2.8h, #8
	bic	v2.8h, #255, lsl #8
	ushr	v4.4s, v4.4s, #24
	ushr	v5.4s, v5.4s, #24
	tbl	v4.16b, { v4.16b }, v6.16b
	tbl	v5.16b, { v5.16b }, v6.16b
	movi	v6.8h, #128
	ushr	v17.8h, v4.8h, #8
	bic	v4.8h, #255, lsl #8
	ushr	v19.8h, v5.8h, #8
	bic	v5.8h, #255, lsl #8
	mla	v6.8h, v16.8h, v17.8h
	movi	v16.8h, #128
	movi	v17.8h, #128
	mla	v7.8h, v19.8h, v18.8h
	mla	v16.8h, v2.8h, v4.8h
	umull2	v2.4s, v6.8h, v0.8h
	umull	v4.4s, v6.4h, v0.4h
	mla	v17.8h, v5.8h, v3.8h
	umull2	v3.4s, v7.8h, v0.8h
	umull	v5.4s, v7.4h, v0.4h
	umull2	v6.4s, v16.8h, v0.8h
	umull	v7.4s, v16.4h, v0.4h
	uzp2	v2.8h, v4.8h, v2.8h
	umull2	v4.4s, v17.8h, v0.8h
	umull	v0.4s, v17.4h, v0.4h
	uzp2	v3.8h, v5.8h, v3.8h
	uzp2	v5.8h, v7.8h, v6.8h
	tbl	v2.16b, { v2.16b }, v1.16b
	uzp2	v0.8h, v0.8h, v4.8h
	tbl	v1.16b, { v3.16b }, v1.16b
	orr	v2.16b, v2.16b, v5.16b
	orr	v0.16b, v1.16b, v0.16b
	uqadd	v0.16b, v2.16b, v0.16b
	str	q0, [x0, x21]
	and	x8, x16, #0xc
	cmp	x8, x4
	b.eq	.LBB_9ba498_447
.LBB_9ba498_457:
	mov	x0, x27
	mov	x22, x26
	mov	x24, x23
	and	x25, x16, #0xc
.LBB_9ba498_458:
	ldr	w15, [x22], #4
	adrp	x9, .LCPI_9ba498_10
	ldr	d1, [x9, :lo12:.LCPI_9ba498_10]
	ldrb	w9, [x24], #1
	dup	v0.2s, w15
	ldr	w30, [x0]
	movi	v3.4h, #128
	movi	v5.4h, #128
	add	x25, x25, #1
	cmp	x25, x4
	ushl	v0.2s, v0.2s, v1.2s
	mov	s2, v0.s[1]
	str	h0, [sp, #244]
	str	h2, [sp, #246]
	dup	v2.2s, w30
	ldr	s0, [sp, #244]
	zip1	v0.8b, v0.8b, v0.8b
	ushl	v1.2s, v2.2s, v1.2s
	mov	v0.h[3], wzr
	mov	s2, v1.s[1]
	str	h1, [sp, #236]
	uzp1	v0.8b, v0.8b, v0.8b
	str	h2, [sp, #238]
	dup	v2.4h, w9
	ldr	s1, [sp, #236]
	zip1	v1.8b, v1.8b, v1.8b
	ushll	v0.4s, v0.4h, #0
	mov	w8, v0.s[1]
	mov	v1.h[3], wzr
	mov	v0.h[1], w8
	ubfx	w8, w15, #8, #8
	mov	v0.h[2], w8
	and	w8, w15, #0xff
	and	w15, w30, #0xff
	mov	v0.h[3], w8
	uzp1	v1.8b, v1.8b, v0.8b
	mla	v3.4h, v0.4h, v2.4h
	movi	v2.4h, #128
	ushll	v1.4s, v1.4h, #0
	usra	v3.4h, v3.4h, #8
	mov	w8, v1.s[1]
	ushr	v0.4h, v3.4h, #8
	umov	w9, v0.b[0]
	mov	v1.h[1], w8
	ubfx	w8, w30, #8, #8
	mvn	w30, w30
	mov	v1.h[2], w8
	mov	w8, #255
	bic	w8, w8, w9
	dup	v3.4h, w8
	lsr	w8, w30, #24
	mov	v1.h[3], w15
	dup	v4.4h, w8
	adrp	x8, .LCPI_9ba498_7
	mla	v2.4h, v3.4h, v1.4h
	mla	v5.4h, v0.4h, v4.4h
	movi	d1, #0xff00ff00ff00ff
	usra	v2.4h, v2.4h, #8
	usra	v5.4h, v5.4h, #8
	ushr	v0.4h, v2.4h, #8
	usra	v0.4h, v5.4h, #8
	umin	v0.4h, v0.4h, v1.4h
	ldr	q1, [x8, :lo12:.LCPI_9ba498_7]
	ushll	v0.4s, v0.4h, #0
	ushl	v0.4s, v0.4s, v1.4s
	ext	v1.16b, v0.16b, v0.16b, #8
	orr	v0.8b, v0.8b, v1.8b
	fmov	x8, d0
	lsr	x9, x8, #32
	orr	w8, w8, w9
	str	w8, [x0], #4
	b.lo	.LBB_9ba498_458
	b	.LBB_9ba498_447
.LBB_9ba498_459:
	cmp	w8, #2
	b.ne	.LBB_9ba498_778
.LBB_9ba498_460:
	cbz	w23, .LBB_9ba498_467
	sub	x8, x18, x24
	mov	x9, #4294967296
	mov	x0, #4294967296
	add	x17, x8, x9
	add	x18, x14, x9
	orr	x5, x23, #0x100000000
.LBB_9ba498_462:
	cmp	x18, x17
	csel	x1, x18, x17, lo
	bfxil	x0, x13, #0, #32
	subs	x1, x9, x1
	sub	x12, x12, x22
.LBB_9ba498_463:
	csel	x1, xzr, x1, lo
	subs	x17, x5, x17
	csel	x17, xzr, x17, lo
	subs	x18, x0, x18
	add	x14, x1, x14
	csel	x18, xzr, x18, lo
	cmp	w16, w15
	orr	x0, x21, #0x100000000
	csel	w15, w16, w15, lo
	add	x16, x12, x9
	cmp	x17, x15
	csel	x15, x17, x15, lo
	add	x17, x4, x9
	cmp	x18, x15
	csel	x15, x18, x15, lo
	add	x18, x1, x8
	cmp	x15, x1
	add	x8, x15, x8
	csel	x15, x18, xzr, hi
	csel	x8, x8, xzr, hi
	csel	x14, x14, xzr, hi
	cmp	x17, x16
	stp	x15, x8, [x29, #-120]
	csel	x18, x17, x16, lo
	stur	x14, [x29, #-104]
	subs	x18, x9, x18
	bfxil	x9, x13, #32, #32
	csel	x13, xzr, x18, lo
	subs	x16, x0, x16
	csel	x16, xzr, x16, lo
	subs	x9, x9, x17
	add	x8, x13, x12
	csel	x9, xzr, x9, lo
	cmp	w11, w10
	csel	w10, w11, w10, lo
	cmp	x16, x10
	csel	x10, x16, x10, lo
	cmp	x9, x10
	csel	x9, x9, x10, lo
	add	x10, x13, x4
.LBB_9ba498_464:
	cmp	x9, x13
.LBB_9ba498_465:
	add	x9, x9, x12
	csel	x8, x8, xzr, hi
	csel	x9, x9, xzr, hi
	stp	x8, x9, [x29, #-96]
	csel	x8, x10, xzr, hi
	stur	x8, [x29, #-80]
.LBB_9ba498_466:
	sub	x4, x29, #120
	mov	x0, x19
	mov	x1, x20
	bl	"pix_raster::view::blit_overlap::<#93a319759576dea8>"
.LBB_9ba498_467:
	add	sp, sp, #432
	ldp	x20, x19, [sp, #144]
	ldp	x22, x21, [sp, #128]
	ldp	x24, x23, [sp, #112]
	ldp	x26, x25, [sp, #96]
	ldp	x28, x27, [sp, #80]
	ldp	x29, x30, [sp, #64]
	ldp	d9, d8, [sp, #48]
	ldp	d11, d10, [sp, #32]
	ldp	d13, d12, [sp, #16]
	ldp	d15, d14, [sp], #160
	ret
.LBB_9ba498_468:
	cmp	w8, #6
	b.ne	.LBB_9ba498_794
	cbz	w23, .LBB_9ba498_467
	sub	x7, x18, x24
	mov	x18, #4294967296
	ldur	x27, [x29, #-152]
	ldpsw	x1, x5, [x29, #-136]
	add	x6, x7, x18
	add	x24, x14, x18
	mov	x28, #4294967296
	cmp	x24, x6
	orr	x23, x23, #0x100000000
	bfxil	x28, x13, #0, #32
	add	x26, x1, x18
	csel	x25, x24, x6, lo
	mov	x30, #4294967296
	cmp	x26, x25
	bfxil	x30, x27, #0, #32
	mov	x17, xzr
	csel	x25, x26, x25, lo
	str	xzr, [sp, #80]
	subs	x25, x18, x25
	str	xzr, [sp, #64]
	csel	x25, xzr, x25, lo
	subs	x6, x23, x6
	csel	x6, xzr, x6, lo
	subs	x23, x28, x24
	csel	x23, xzr, x23, lo
	subs	x24, x30, x26
	csel	x24, xzr, x24, lo
	cmp	w16, w15
	csel	w16, w16, w15, lo
	ldp	w26, w15, [x29, #-128]
	cmp	w26, w16
	csel	w16, w26, w16, lo
	cmp	x6, x16
	csel	x16, x6, x16, lo
	mov	x6, xzr
	cmp	x23, x16
	csel	x16, x23, x16, lo
	lsr	x23, x27, #32
	cmp	x24, x16
	csel	x16, x24, x16, lo
	lsr	x24, x13, #32
	cmp	x16, x25
	b.ls	.LBB_9ba498_472
	add	x8, x25, x7
	add	x17, x16, x7
	add	x6, x25, x1
	str	x8, [sp, #80]
	add	x8, x25, x14
	str	x8, [sp, #64]
.LBB_9ba498_472:
	sub	x12, x12, x22
	add	x16, x4, x18
	add	x13, x5, x18
	add	x14, x12, x18
	orr	x7, x24, #0x100000000
	cmp	x16, x14
	csel	x1, x16, x14, lo
	cmp	x13, x1
	csel	x1, x13, x1, lo
	subs	x18, x18, x1
	orr	x1, x21, #0x100000000
	orr	x21, x23, #0x100000000
	csel	x18, xzr, x18, lo
	subs	x1, x1, x14
	csel	x1, xzr, x1, lo
	subs	x7, x7, x16
	csel	x7, xzr, x7, lo
	subs	x21, x21, x13
	csel	x21, xzr, x21, lo
	cmp	w11, w10
	csel	w10, w11, w10, lo
	cmp	w15, w10
	csel	w10, w15, w10, lo
	cmp	x1, x10
	csel	x10, x1, x10, lo
	cmp	x7, x10
	csel	x10, x7, x10, lo
	cmp	x21, x10
	csel	x11, x21, x10, lo
	cmp	x11, x18
	b.ls	.LBB_9ba498_467
	add	x10, x18, x12
	add	x11, x11, x12
	cmp	x10, x11
	b.hs	.LBB_9ba498_467
	cmp	x14, x16
	mov	x21, #4294967296
	add	x8, x18, x4
	csel	x14, x14, x16, lo
	str	x8, [sp, #48]
	add	x8, x18, x5
	cmp	x14, x13
	str	x8, [sp, #32]
	add	x8, x0, x6
	csel	x13, x14, x13, lo
	str	x8, [sp, #16]
	ldr	x8, [sp, #80]
	cmp	x13, x21
	mul	x14, x20, x10
	ldur	x12, [x29, #-144]
	csel	x7, x13, x21, lo
	sub	x16, x17, x8
	ldr	x9, [sp, #64]
	sub	x24, x4, x7
	sub	x5, x5, x7
	and	x1, x16, #0xfffffffffffffff0
	add	x24, x24, x21
	add	x5, x5, x21
	lsl	x25, x16, #2
	mul	x24, x3, x24
	lsl	x23, x8, #2
	lsl	x7, x1, #2
	lsl	x22, x9, #2
	and	x25, x25, #0x30
	lsl	x14, x14, #2
	madd	x5, x12, x5, x6
	and	x9, x16, #0xc
	add	x6, x23, x19
	add	x25, x7, x25
	and	x8, x16, #0x8
	add	x26, x22, x2
	add	x27, x1, x9
	add	x22, x25, x22
	add	x23, x25, x23
	lsl	x24, x24, #2
	add	x6, x14, x6
	lsl	x17, x3, #2
	lsl	x18, x20, #2
	lsr	x13, x16, #4
	lsl	x21, x8, #2
	add	x27, x0, x27
	add	x25, x2, x22
	add	x28, x19, x23
	add	x22, x6, #32
	add	x0, x5, x0
	add	x6, x24, x26
	and	x4, x16, #0xf
	add	x23, x27, x5
	add	x5, x0, #8
	add	x6, x6, #32
	add	x26, x25, x24
	add	x27, x28, x14
	mov	x28, x10
	b	.LBB_9ba498_476
.LBB_9ba498_475:
	add	x28, x28, #1
	add	x5, x5, x12
	add	x6, x6, x17
	add	x22, x22, x18
	cmp	x28, x11
	add	x23, x23, x12
	add	x26, x26, x17
	add	x27, x27, x18
	b.eq	.LBB_9ba498_467
.LBB_9ba498_476:
	cbz	x13, .LBB_9ba498_479
	mov	x30, x22
	mov	x25, x6
	mov	x24, x5
	mov	x0, x13
.LBB_9ba498_478:
	ldur	d0, [x24, #-8]
	movi	v3.8h, #1
	movi	v7.8h, #128
	ldp	q5, q4, [x25, #-32]
	movi	v16.8h, #128
	zip1	v0.16b, v0.16b, v0.16b
	movi	v6.8h, #128
	movi	v19.8h, #128
	adrp	x14, .LCPI_9ba498_0
	movi	v23.8h, #128
	movi	v24.8h, #128
	ushr	v17.8h, v4.8h, #8
	ushr	v20.8h, v5.8h, #8
	subs	x0, x0, #1
	bic	v4.8h, #255, lsl #8
	bic	v5.8h, #255, lsl #8
	ushll2	v1.4s, v0.8h, #0
	ushll	v0.4s, v0.4h, #0
	mul	v1.4s, v1.4s, v3.4s
	mul	v2.4s, v0.4s, v3.4s
	movi	v0.16b, #1
	ushr	v18.8h, v1.8h, #8
	ushr	v21.8h, v2.8h, #8
	bic	v1.8h, #255, lsl #8
	bic	v2.8h, #255, lsl #8
	mla	v7.8h, v18.8h, v17.8h
	mla	v16.8h, v21.8h, v20.8h
	mla	v6.8h, v1.8h, v4.8h
	mla	v19.8h, v2.8h, v5.8h
	movi	v20.8h, #128
	umull2	v1.4s, v7.8h, v0.8h
	umull	v4.4s, v7.4h, v0.4h
	umull2	v2.4s, v16.8h, v0.8h
	umull	v5.4s, v16.4h, v0.4h
	umull2	v7.4s, v6.8h, v0.8h
	umull	v6.4s, v6.4h, v0.4h
	umull2	v16.4s, v19.8h, v0.8h
	umull	v17.4s, v19.4h, v0.4h
	uzp2	v4.8h, v4.8h, v1.8h
	ldr	q1, [x14, :lo12:.LCPI_9ba498_0]
	adrp	x14, .LCPI_9ba498_8
	uzp2	v2.8h, v5.8h, v2.8h
	uzp2	v5.8h, v6.8h, v7.8h
	uzp2	v6.8h, v17.8h, v16.8h
	movi	v17.8h, #128
	tbl	v4.16b, { v4.16b }, v1.16b
	tbl	v2.16b, { v2.16b }, v1.16b
	orr	v7.16b, v4.16b, v5.16b
	movi	v4.8h, #128
	orr	v16.16b, v2.16b, v6.16b
	ldp	q6, q5, [x30, #-32]
	ldr	q2, [x14, :lo12:.LCPI_9ba498_8]
	mvn	v21.16b, v7.16b
	ushr	v27.8h, v7.8h, #8
	bic	v7.8h, #255, lsl #8
	ushr	v18.4s, v6.4s, #24
	mvn	v19.16b, v16.16b
	ushr	v22.4s, v5.4s, #24
	ushr	v25.8h, v16.8h, #8
	bic	v16.8h, #255, lsl #8
	ushr	v26.8h, v5.8h, #8
	ushr	v21.4s, v21.4s, #24
	bic	v5.8h, #255, lsl #8
	tbl	v18.16b, { v18.16b }, v2.16b
	ushr	v19.4s, v19.4s, #24
	tbl	v22.16b, { v22.16b }, v2.16b
	tbl	v21.16b, { v21.16b }, v2.16b
	tbl	v19.16b, { v19.16b }, v2.16b
	mla	v20.8h, v25.8h, v18.8h
	ushr	v25.8h, v6.8h, #8
	mla	v4.8h, v16.8h, v18.8h
	movi	v16.8h, #128
	mla	v17.8h, v27.8h, v22.8h
	movi	v18.8h, #128
	mla	v23.8h, v26.8h, v21.8h
	bic	v6.8h, #255, lsl #8
	mla	v24.8h, v25.8h, v19.8h
	movi	v25.8h, #128
	mla	v16.8h, v7.8h, v22.8h
	umull2	v7.4s, v20.8h, v0.8h
	umull	v20.4s, v20.4h, v0.4h
	umull2	v22.4s, v17.8h, v0.8h
	umull	v17.4s, v17.4h, v0.4h
	mla	v18.8h, v6.8h, v19.8h
	umull2	v6.4s, v24.8h, v0.8h
	umull	v19.4s, v24.4h, v0.4h
	mla	v25.8h, v5.8h, v21.8h
	umull2	v5.4s, v23.8h, v0.8h
	umull	v21.4s, v23.4h, v0.4h
	umull2	v24.4s, v4.8h, v0.8h
	umull2	v23.4s, v16.8h, v0.8h
	umull	v16.4s, v16.4h, v0.4h
	umull	v4.4s, v4.4h, v0.4h
	uzp2	v7.8h, v20.8h, v7.8h
	uzp2	v17.8h, v17.8h, v22.8h
	umull2	v20.4s, v18.8h, v0.8h
	umull	v18.4s, v18.4h, v0.4h
	uzp2	v6.8h, v19.8h, v6.8h
	umull2	v19.4s, v25.8h, v0.8h
	umull	v22.4s, v25.4h, v0.4h
	uzp2	v5.8h, v21.8h, v5.8h
	uzp2	v16.8h, v16.8h, v23.8h
	uzp2	v4.8h, v4.8h, v24.8h
	movi	v23.8h, #128
	tbl	v7.16b, { v7.16b }, v1.16b
	tbl	v17.16b, { v17.16b }, v1.16b
	uzp2	v18.8h, v18.8h, v20.8h
	tbl	v6.16b, { v6.16b }, v1.16b
	uzp2	v19.8h, v22.8h, v19.8h
	tbl	v5.16b, { v5.16b }, v1.16b
	movi	v22.8h, #128
	orr	v4.16b, v7.16b, v4.16b
	orr	v7.16b, v17.16b, v16.16b
	movi	v16.8h, #128
	orr	v6.16b, v6.16b, v18.16b
	orr	v5.16b, v5.16b, v19.16b
	movi	v19.8h, #128
	uqadd	v4.16b, v4.16b, v6.16b
	uqadd	v5.16b, v7.16b, v5.16b
	movi	v7.8h, #128
	stp	q4, q5, [x30, #-32]
	ldr	d4, [x24], #16
	zip1	v4.16b, v4.16b, v4.16b
	ushll2	v5.4s, v4.8h, #0
	ushll	v4.4s, v4.4h, #0
	mul	v5.4s, v5.4s, v3.4s
	mul	v3.4s, v4.4s, v3.4s
	ldp	q6, q4, [x25], #64
	ushr	v17.8h, v4.8h, #8
	ushr	v18.8h, v5.8h, #8
	ushr	v20.8h, v6.8h, #8
	ushr	v21.8h, v3.8h, #8
	bic	v4.8h, #255, lsl #8
	bic	v5.8h, #255, lsl #8
	bic	v6.8h, #255, lsl #8
	bic	v3.8h, #255, lsl #8
	mla	v7.8h, v18.8h, v17.8h
	mla	v16.8h, v21.8h, v20.8h
	mla	v19.8h, v5.8h, v4.8h
	mla	v22.8h, v3.8h, v6.8h
	umull2	v4.4s, v7.8h, v0.8h
	umull	v5.4s, v7.4h, v0.4h
	umull2	v3.4s, v16.8h, v0.8h
	umull	v6.4s, v16.4h, v0.4h
	umull2	v7.4s, v19.8h, v0.8h
	umull	v16.4s, v19.4h, v0.4h
	umull	v17.4s, v22.4h, v0.4h
	uzp2	v4.8h, v5.8h, v4.8h
	umull2	v5.4s, v22.8h, v0.8h
	uzp2	v3.8h, v6.8h, v3.8h
	uzp2	v6.8h, v16.8h, v7.8h
	tbl	v4.16b, { v4.16b }, v1.16b
	uzp2	v5.8h, v17.8h, v5.8h
	movi	v17.8h, #128
	tbl	v3.16b, { v3.16b }, v1.16b
	orr	v6.16b, v4.16b, v6.16b
	movi	v4.8h, #128
	orr	v16.16b, v3.16b, v5.16b
	ldp	q5, q7, [x30]
	movi	v3.8h, #128
	mvn	v18.16b, v6.16b
	ushr	v19.4s, v5.4s, #24
	mvn	v20.16b, v16.16b
	ushr	v21.4s, v7.4s, #24
	ushr	v24.8h, v16.8h, #8
	bic	v16.8h, #255, lsl #8
	ushr	v25.8h, v7.8h, #8
	ushr	v22.4s, v18.4s, #24
	movi	v18.8h, #128
	bic	v7.8h, #255, lsl #8
	tbl	v19.16b, { v19.16b }, v2.16b
	ushr	v20.4s, v20.4s, #24
	tbl	v21.16b, { v21.16b }, v2.16b
	tbl	v22.16b, { v22.16b }, v2.16b
	tbl	v2.16b, { v20.16b }, v2.16b
	ushr	v20.8h, v6.8h, #8
	bic	v6.8h, #255, lsl #8
	mla	v18.8h, v24.8h, v19.8h
	ushr	v24.8h, v5.8h, #8
	mla	v3.8h, v16.8h, v19.8h
	movi	v16.8h, #128
	movi	v19.8h, #128
	bic	v5.8h, #255, lsl #8
	mla	v17.8h, v20.8h, v21.8h
	mla	v23.8h, v25.8h, v22.8h
	movi	v20.8h, #128
	mla	v4.8h, v24.8h, v2.8h
	mla	v16.8h, v6.8h, v21.8h
	umull2	v6.4s, v18.8h, v0.8h
	umull	v18.4s, v18.4h, v0.4h
	umull2	v21.4s, v17.8h, v0.8h
	umull	v17.4s, v17.4h, v0.4h
	mla	v19.8h, v5.8h, v2.8h
	umull2	v2.4s, v4.8h, v0.8h
	umull	v4.4s, v4.4h, v0.4h
	mla	v20.8h, v7.8h, v22.8h
	umull2	v5.4s, v23.8h, v0.8h
	umull	v7.4s, v23.4h, v0.4h
	umull2	v23.4s, v3.8h, v0.8h
	umull2	v22.4s, v16.8h, v0.8h
	umull	v16.4s, v16.4h, v0.4h
	umull	v3.4s, v3.4h, v0.4h
	uzp2	v6.8h, v18.8h, v6.8h
	uzp2	v17.8h, v17.8h, v21.8h
	umull2	v18.4s, v19.8h, v0.8h
	umull	v19.4s, v19.4h, v0.4h
	uzp2	v2.8h, v4.8h, v2.8h
	umull2	v4.4s, v20.8h, v0.8h
	umull	v0.4s, v20.4h, v0.4h
	uzp2	v5.8h, v7.8h, v5.8h
	uzp2	v7.8h, v16.8h, v22.8h
	uzp2	v3.8h, v3.8h, v23.8h
	tbl	v6.16b, { v6.16b }, v1.16b
	tbl	v17.16b, { v17.16b }, v1.16b
	uzp2	v16.8h, v19.8h, v18.8h
	tbl	v2.16b, { v2.16b }, v1.16b
	uzp2	v0.8h, v0.8h, v4.8h
	tbl	v1.16b, { v5.16b }, v1.16b
	orr	v3.16b, v6.16b, v3.16b
	orr	v4.16b, v17.16b, v7.16b
	orr	v2.16b, v2.16b, v16.16b
	orr	v0.16b, v1.16b, v0.16b
	uqadd	v1.16b, v3.16b, v2.16b
	uqadd	v0.16b, v4.16b, v0.16b
	stp	q1, q0, [x30], #64
	b.ne	.LBB_9ba498_478
.LBB_9ba498_479:
	cmp	x1, x16
	b.eq	.LBB_9ba498_475
	ldr	x8, [sp, #80]
	madd	x14, x28, x20, x8
	sub	x0, x28, x10
	ldr	x8, [sp, #48]
	add	x24, x8, x0
	ldr	x8, [sp, #64]
	madd	x24, x24, x3, x8
	ldr	x8, [sp, #32]
	add	x14, x19, x14, lsl #2
	add	x0, x8, x0
	ldr	x8, [sp, #16]
	madd	x25, x0, x12, x8
	add	x0, x14, x7
	and	x8, x16, #0x8
	add	x24, x2, x24, lsl #2
	add	x24, x24, x7
	add	x25, x25, x1
	cbnz	x8, .LBB_9ba498_483
	tbnz	w16, #2, .LBB_9ba498_484
.LBB_9ba498_482:
	and	x8, x16, #0xc
	cmp	x8, x4
	b.eq	.LBB_9ba498_475
	b	.LBB_9ba498_485
.LBB_9ba498_483:
	ldr	d0, [x25]
	movi	v1.8h, #1
	movi	v4.8h, #128
	ldp	q3, q5, [x24]
	movi	v17.8h, #128
	zip1	v0.16b, v0.16b, v0.16b
	movi	v16.8h, #128
	adrp	x14, .LCPI_9ba498_0
	movi	v21.8h, #128
	ushr	v6.8h, v3.8h, #8
	ushr	v18.8h, v5.8h, #8
	bic	v3.8h, #255, lsl #8
	bic	v5.8h, #255, lsl #8
	ushll	v2.4s, v0.4h, #0
	ushll2	v0.4s, v0.8h, #0
	mul	v2.4s, v2.4s, v1.4s
	mul	v1.4s, v0.4s, v1.4s
	movi	v0.16b, #1
	ushr	v7.8h, v2.8h, #8
	ushr	v19.8h, v1.8h, #8
	bic	v2.8h, #255, lsl #8
	bic	v1.8h, #255, lsl #8
	mla	v4.8h, v7.8h, v6.8h
	movi	v6.8h, #128
	mla	v17.8h, v19.8h, v18.8h
	mla	v16.8h, v2.8h, v3.8h
	umull2	v2.4s, v4.8h, v0.8h
	umull	v3.4s, v4.4h, v0.4h
	mla	v6.8h, v1.8h, v5.8h
	umull2	v4.4s, v17.8h, v0.8h
	umull	v5.4s, v17.4h, v0.4h
	umull2	v7.4s, v16.8h, v0.8h
	umull	v16.4s, v16.4h, v0.4h
	ldr	q1, [x14, :lo12:.LCPI_9ba498_0]
	adrp	x14, .LCPI_9ba498_8
	uzp2	v2.8h, v3.8h, v2.8h
	umull2	v3.4s, v6.8h, v0.8h
	umull	v6.4s, v6.4h, v0.4h
	uzp2	v4.8h, v5.8h, v4.8h
	uzp2	v5.8h, v16.8h, v7.8h
	movi	v7.8h, #128
	movi	v16.8h, #128
	tbl	v2.16b, { v2.16b }, v1.16b
	uzp2	v3.8h, v6.8h, v3.8h
	tbl	v6.16b, { v4.16b }, v1.16b
	orr	v5.16b, v2.16b, v5.16b
	ldp	q4, q2, [x0]
	orr	v23.16b, v6.16b, v3.16b
	ldr	q6, [x14, :lo12:.LCPI_9ba498_8]
	movi	v3.8h, #128
	ushr	v17.4s, v2.4s, #24
	mvn	v18.16b, v5.16b
	ushr	v19.4s, v4.4s, #24
	mvn	v20.16b, v23.16b
	ushr	v22.8h, v23.8h, #8
	bic	v23.8h, #255, lsl #8
	ushr	v24.8h, v5.8h, #8
	bic	v5.8h, #255, lsl #8
	tbl	v17.16b, { v17.16b }, v6.16b
	ushr	v18.4s, v18.4s, #24
	tbl	v19.16b, { v19.16b }, v6.16b
	ushr	v20.4s, v20.4s, #24
	tbl	v18.16b, { v18.16b }, v6.16b
	mla	v7.8h, v22.8h, v17.8h
	mla	v3.8h, v23.8h, v17.8h
	movi	v17.8h, #128
	tbl	v6.16b, { v20.16b }, v6.16b
	ushr	v22.8h, v4.8h, #8
	ushr	v23.8h, v2.8h, #8
	movi	v20.8h, #128
	mla	v21.8h, v24.8h, v19.8h
	movi	v24.8h, #128
	bic	v4.8h, #255, lsl #8
	bic	v2.8h, #255, lsl #8
	mla	v16.8h, v22.8h, v18.8h
	movi	v22.8h, #128
	mla	v17.8h, v23.8h, v6.8h
	umull2	v23.4s, v21.8h, v0.8h
	umull	v21.4s, v21.4h, v0.4h
	mla	v20.8h, v5.8h, v19.8h
	umull2	v5.4s, v7.8h, v0.8h
	umull	v7.4s, v7.4h, v0.4h
	mla	v24.8h, v4.8h, v18.8h
	umull2	v4.4s, v16.8h, v0.8h
	umull	v16.4s, v16.4h, v0.4h
	mla	v22.8h, v2.8h, v6.8h
	umull2	v2.4s, v17.8h, v0.8h
	umull	v6.4s, v17.4h, v0.4h
	umull2	v17.4s, v3.8h, v0.8h
	umull	v3.4s, v3.4h, v0.4h
	uzp2	v18.8h, v21.8h, v23.8h
	umull2	v19.4s, v20.8h, v0.8h
	umull	v20.4s, v20.4h, v0.4h
	uzp2	v5.8h, v7.8h, v5.8h
	umull2	v7.4s, v24.8h, v0.8h
	umull	v21.4s, v24.4h, v0.4h
	uzp2	v4.8h, v16.8h, v4.8h
	umull2	v16.4s, v22.8h, v0.8h
	umull	v0.4s, v22.4h, v0.4h
	uzp2	v2.8h, v6.8h, v2.8h
	uzp2	v3.8h, v3.8h, v17.8h
	tbl	v17.16b, { v18.16b }, v1.16b
	uzp2	v6.8h, v20.8h, v19.8h
	tbl	v5.16b, { v5.16b }, v1.16b
	uzp2	v7.8h, v21.8h, v7.8h
	tbl	v4.16b, { v4.16b }, v1.16b
	uzp2	v0.8h, v0.8h, v16.8h
	tbl	v1.16b, { v2.16b }, v1.16b
	orr	v2.16b, v17.16b, v6.16b
	orr	v3.16b, v5.16b, v3.16b
	orr	v4.16b, v4.16b, v7.16b
	orr	v0.16b, v1.16b, v0.16b
	uqadd	v1.16b, v2.16b, v4.16b
	uqadd	v0.16b, v3.16b, v0.16b
	stp	q1, q0, [x0]
	tbz	w16, #2, .LBB_9ba498_482
.LBB_9ba498_484:
	adrp	x14, .LCPI_9ba498_1
	and	x8, x16, #0x8
	ldr	q5, [x24, x21]
	ldr	s0, [x25, x8]
	ldr	q1, [x14, :lo12:.LCPI_9ba498_1]
	movi	v2.8h, #128
	ushr	v4.8h, v5.8h, #8
	movi	v6.8h, #128
	bic	v5.8h, #255, lsl #8
	tbl	v1.16b, { v0.16b }, v1.16b
	movi	v0.16b, #1
	adrp	x14, .LCPI_9ba498_0
	movi	v7.8h, #128
	ushr	v3.8h, v1.8h, #8
	bic	v1.8h, #255, lsl #8
	mla	v2.8h, v3.8h, v4.8h
	mla	v6.8h, v1.8h, v5.8h
	umull2	v1.4s, v2.8h, v0.8h
	umull	v2.4s, v2.4h, v0.4h
	umull2	v3.4s, v6.8h, v0.8h
	umull	v4.4s, v6.4h, v0.4h
	uzp2	v2.8h, v2.8h, v1.8h
	ldr	q1, [x14, :lo12:.LCPI_9ba498_0]
	adrp	x14, .LCPI_9ba498_9
	uzp2	v3.8h, v4.8h, v3.8h
	ldr	q6, [x14, :lo12:.LCPI_9ba498_9]
	tbl	v2.16b, { v2.16b }, v1.16b
	orr	v2.16b, v2.16b, v3.16b
	ldr	q3, [x0, x21]
	ushr	v5.4s, v3.4s, #24
	ushr	v18.8h, v3.8h, #8
	bic	v3.8h, #255, lsl #8
	mvn	v4.16b, v2.16b
	ushr	v16.8h, v2.8h, #8
	bic	v2.8h, #255, lsl #8
	tbl	v5.16b, { v5.16b }, v6.16b
	ushr	v4.4s, v4.4s, #24
	tbl	v4.16b, { v4.16b }, v6.16b
	movi	v6.8h, #128
	ushr	v17.8h, v5.8h, #8
	bic	v5.8h, #255, lsl #8
	ushr	v19.8h, v4.8h, #8
	mla	v6.8h, v16.8h, v17.8h
	movi	v16.8h, #128
	movi	v17.8h, #128
	bic	v4.8h, #255, lsl #8
	mla	v7.8h, v19.8h, v18.8h
	mla	v16.8h, v2.8h, v5.8h
	umull2	v2.4s, v6.8h, v0.8h
	umull	v5.4s, v6.4h, v0.4h
	mla	v17.8h, v4.8h, v3.8h
	umull2	v3.4s, v7.8h, v0.8h
	umull	v4.4s, v7.4h, v0.4h
	umull2	v6.4s, v16.8h, v0.8h
	umull	v7.4s, v16.4h, v0.4h
	uzp2	v2.8h, v5.8h, v2.8h
	umull2	v5.4s, v17.8h, v0.8h
	umull	v0.4s, v17.4h, v0.4h
	uzp2	v3.8h, v4.8h, v3.8h
	uzp2	v4.8h, v7.8h, v6.8h
	tbl	v2.16b, { v2.16b }, v1.16b
	uzp2	v0.8h, v0.8h, v5.8h
	tbl	v1.16b, { v3.16b }, v1.16b
	orr	v2.16b, v2.16b, v4.16b
	orr	v0.16b, v1.16b, v0.16b
	uqadd	v0.16b, v2.16b, v0.16b
	str	q0, [x0, x21]
	and	x8, x16, #0xc
	cmp	x8, x4
	b.eq	.LBB_9ba498_475
.LBB_9ba498_485:
	mov	x0, x27
	mov	x24, x26
	mov	x25, x23
	and	x30, x16, #0xc
.LBB_9ba498_486:
	ldr	w15, [x24], #4
	adrp	x14, .LCPI_9ba498_10
	ldr	d1, [x14, :lo12:.LCPI_9ba498_10]
	ldrb	w9, [x25], #1
	dup	v0.2s, w15
	ldr	w14, [x0]
	movi	v2.4h, #128
	add	x30, x30, #1
	cmp	x30, x4
	ushl	v0.2s, v0.2s, v1.2s
	mov	s1, v0.s[1]
	str	h0, [sp, #196]
	str	h1, [sp, #198]
	dup	v1.4h, w9
	ldr	s0, [sp, #196]
	zip1	v0.8b, v0.8b, v0.8b
	mov	v0.h[3], wzr
	uzp1	v0.8b, v0.8b, v0.8b
	ushll	v0.4s, v0.4h, #0
	mov	w8, v0.s[1]
	mov	v0.h[1], w8
	ubfx	w8, w15, #8, #8
	mov	v0.h[2], w8
	and	w8, w15, #0xff
	mov	v0.h[3], w8
	lsr	w8, w14, #24
	mla	v2.4h, v0.4h, v1.4h
	dup	v0.4h, w8
	movi	v1.4h, #128
	ubfx	w8, w14, #16, #8
	usra	v2.4h, v2.4h, #8
	ushr	v2.4h, v2.4h, #8
	mla	v1.4h, v2.4h, v0.4h
	mov	v0.h[1], w8
	ubfx	w8, w14, #8, #8
	umov	w9, v2.b[0]
	and	w14, w14, #0xff
	movi	v2.4h, #128
	mov	v0.h[2], w8
	mov	w8, #255
	usra	v1.4h, v1.4h, #8
	bic	w8, w8, w9
	dup	v3.4h, w8
	adrp	x8, .LCPI_9ba498_7
	mov	v0.h[3], w14
	mla	v2.4h, v3.4h, v0.4h
	usra	v2.4h, v2.4h, #8
	ushr	v0.4h, v2.4h, #8
	movi	d2, #0xff00ff00ff00ff
	usra	v0.4h, v1.4h, #8
	ldr	q1, [x8, :lo12:.LCPI_9ba498_7]
	umin	v0.4h, v0.4h, v2.4h
	ushll	v0.4s, v0.4h, #0
	ushl	v0.4s, v0.4s, v1.4s
	ext	v1.16b, v0.16b, v0.16b, #8
	orr	v0.8b, v0.8b, v1.8b
	fmov	x8, d0
	lsr	x9, x8, #32
	orr	w8, w8, w9
	str	w8, [x0], #4
	b.lo	.LBB_9ba498_486
	b	.LBB_9ba498_475
.LBB_9ba498_487:
	cbz	w23, .LBB_9ba498_467
	sub	x9, x16, x24
	mov	x13, #4294967296
	orr	x11, x23, #0x100000000
	add	x9, x9, x13
	sub	x12, x12, x22
	cmp	x9, x13
	add	x14, x9, x14
	add	x12, x12, x13
	csel	x10, x9, x13, hi
	cmp	x11, x14
	mov	x9, #-4294967296
	csel	x11, x11, x14, lo
	add	x14, x10, x9
	add	x8, x12, x8
	cmp	x11, x10
	csel	x16, x14, xzr, hi
	cmp	x12, x13
	orr	x14, x21, #0x100000000
	csel	x13, x12, x13, hi
	cmp	x14, x8
	csel	x12, x14, x8, lo
	add	x8, x13, x9
	cmp	x12, x13
	csel	x8, x8, xzr, hi
	b.ls	.LBB_9ba498_467
	add	x9, x12, x9
	cmp	x9, x8
	b.ls	.LBB_9ba498_467
	mov	x12, #-4294967296
	cmp	x11, x10
	add	x12, x11, x12
	csel	x17, x12, xzr, hi
	subs	x10, x17, x16
	b.eq	.LBB_9ba498_467
	madd	x12, x8, x20, x16
	ldr	w11, [x2]
	lsl	x13, x20, #2
	and	x14, x10, #0xfffffffffffffff8
	sub	x16, x16, x17
	dup	v0.4s, w11
	add	x12, x19, x12, lsl #2
	add	x15, x12, #16
	b	.LBB_9ba498_493
.LBB_9ba498_492:
	add	x8, x8, #1
	add	x15, x15, x13
	add	x12, x12, x13
	cmp	x8, x9
	b.eq	.LBB_9ba498_467
.LBB_9ba498_493:
	cmp	x10, #8
	b.hs	.LBB_9ba498_495
	mov	x18, xzr
	b	.LBB_9ba498_498
.LBB_9ba498_495:
	mov	x17, x15
	and	x18, x10, #0xfffffffffffffff8
.LBB_9ba498_496:
	subs	x18, x18, #8
	stp	q0, q0, [x17, #-16]
	add	x17, x17, #32
	b.ne	.LBB_9ba498_496
	cmp	x10, x14
	and	x18, x10, #0xfffffffffffffff8
	b.eq	.LBB_9ba498_492
.LBB_9ba498_498:
	add	x17, x12, x18, lsl #2
	add	x18, x16, x18
.LBB_9ba498_499:
	adds	x18, x18, #1
	str	w11, [x17], #4
	b.lo	.LBB_9ba498_499
	b	.LBB_9ba498_492
.LBB_9ba498_500:
	cbz	w23, .LBB_9ba498_467
	sub	x9, x16, x24
	mov	x10, #4294967296
	orr	x13, x23, #0x100000000
	add	x9, x9, x10
	cmp	x9, x10
	add	x15, x9, x14
	mov	x14, #-4294967296
	csel	x11, x9, x10, hi
	cmp	x13, x15
	sub	x9, x12, x22
	csel	x13, x13, x15, lo
	add	x12, x11, x14
	add	x15, x9, x10
	cmp	x13, x11
	add	x8, x15, x8
	csel	x9, x12, xzr, hi
	cmp	x15, x10
	orr	x12, x21, #0x100000000
	csel	x10, x15, x10, hi
	cmp	x12, x8
	csel	x8, x12, x8, lo
	add	x12, x10, x14
	cmp	x8, x10
	csel	x10, x12, xzr, hi
	b.ls	.LBB_9ba498_467
	add	x12, x8, x14
	cmp	x12, x10
	b.ls	.LBB_9ba498_467
	mov	x12, #-4294967296
	cmp	x13, x11
	add	x14, x13, x12
	csel	x11, x14, xzr, hi
	sub	x21, x11, x9
	cmp	x21, #1024
	b.lo	.LBB_9ba498_804
	madd	x9, x10, x20, x9
	sub	x8, x8, x10
	lsl	x20, x20, #2
	add	x22, x8, x12
	add	x19, x19, x9, lsl #2
.LBB_9ba498_505:
	mov	x0, x19
	mov	x1, x21
	bl	"pix_el::filled::clear_long::<#c0ead2364dd49755>"
	subs	x22, x22, #1
	add	x19, x19, x20
	b.ne	.LBB_9ba498_505
	b	.LBB_9ba498_467
.LBB_9ba498_506:
	cbz	w24, .LBB_9ba498_467
	sub	x8, x18, x25
	mov	x14, #4294967296
	orr	x13, x24, #0x100000000
	add	x8, x8, x14
	mov	x9, #-4294967296
	cmp	x8, x14
	add	x15, x8, x15
	csel	x11, x8, x14, hi
	cmp	x13, x15
	sub	x8, x12, x22
	csel	x13, x13, x15, lo
	add	x12, x11, x9
	add	x8, x8, x14
	cmp	x13, x11
	add	x10, x8, x10
	csel	x16, x12, xzr, hi
	cmp	x8, x14
	orr	x12, x21, #0x100000000
	csel	x8, x8, x14, hi
	cmp	x12, x10
	csel	x10, x12, x10, lo
	add	x12, x8, x9
	cmp	x10, x8
	csel	x8, x12, xzr, hi
	b.ls	.LBB_9ba498_467
	add	x9, x10, x9
	cmp	x9, x8
	b.ls	.LBB_9ba498_467
	mov	x10, #-4294967296
	cmp	x13, x11
	add	x10, x13, x10
	csel	x17, x10, xzr, hi
	subs	x10, x17, x16
	b.eq	.LBB_9ba498_467
	madd	x12, x8, x20, x16
	ldr	w11, [x2]
	lsl	x13, x20, #2
	and	x14, x10, #0xfffffffffffffff8
	sub	x16, x16, x17
	dup	v0.4s, w11
	add	x12, x19, x12, lsl #2
	add	x15, x12, #16
	b	.LBB_9ba498_512
.LBB_9ba498_511:
	add	x8, x8, #1
	add	x15, x15, x13
	add	x12, x12, x13
	cmp	x8, x9
	b.eq	.LBB_9ba498_467
.LBB_9ba498_512:
	cmp	x10, #8
	b.hs	.LBB_9ba498_514
	mov	x18, xzr
	b	.LBB_9ba498_517
.LBB_9ba498_514:
	mov	x17, x15
	and	x18, x10, #0xfffffffffffffff8
.LBB_9ba498_515:
	subs	x18, x18, #8
	stp	q0, q0, [x17, #-16]
	add	x17, x17, #32
	b.ne	.LBB_9ba498_515
	cmp	x10, x14
	and	x18, x10, #0xfffffffffffffff8
	b.eq	.LBB_9ba498_511
.LBB_9ba498_517:
	add	x17, x12, x18, lsl #2
	add	x18, x16, x18
.LBB_9ba498_518:
	adds	x18, x18, #1
	str	w11, [x17], #4
	b.lo	.LBB_9ba498_518
	b	.LBB_9ba498_511
.LBB_9ba498_519:
	cbz	w24, .LBB_9ba498_467
	sub	x8, x18, x25
	mov	x9, #4294967296
	mov	x0, #4294967296
	add	x17, x8, x9
	add	x18, x14, x9
	orr	x5, x24, #0x100000000
	cmp	x18, x17
	bfxil	x0, x13, #0, #32
	sub	x12, x12, x22
	csel	x1, x18, x17, lo
	subs	x1, x9, x1
	csel	x1, xzr, x1, lo
	subs	x17, x5, x17
	ldr	w5, [x23]
	csel	x17, xzr, x17, lo
	subs	x18, x0, x18
	add	x14, x1, x14
	csel	x18, xzr, x18, lo
	cmp	w16, w15
	orr	x0, x21, #0x100000000
	csel	w15, w16, w15, lo
	add	x16, x12, x9
	cmp	x17, x15
	csel	x15, x17, x15, lo
	add	x17, x4, x9
	cmp	x18, x15
	csel	x15, x18, x15, lo
	add	x18, x1, x8
	cmp	x15, x1
	add	x8, x15, x8
	mov	x1, x20
	csel	x15, x18, xzr, hi
	csel	x8, x8, xzr, hi
	csel	x14, x14, xzr, hi
	cmp	x17, x16
	stp	x15, x8, [x29, #-120]
	csel	x18, x17, x16, lo
	subs	x18, x9, x18
	bfxil	x9, x13, #32, #32
	csel	x13, xzr, x18, lo
	subs	x16, x0, x16
	mov	x0, x19
	csel	x16, xzr, x16, lo
	subs	x9, x9, x17
	add	x8, x13, x12
	csel	x9, xzr, x9, lo
	cmp	w11, w10
	csel	w10, w11, w10, lo
	cmp	x16, x10
	csel	x10, x16, x10, lo
	cmp	x9, x10
	csel	x9, x9, x10, lo
	add	x10, x13, x4
	sub	x4, x29, #120
	cmp	x9, x13
	add	x9, x9, x12
	csel	x8, x8, xzr, hi
	csel	x9, x9, xzr, hi
	stp	x14, x8, [x29, #-104]
	csel	x8, x10, xzr, hi
	stp	x9, x8, [x29, #-88]
	bl	"pix_raster::view::blit_overlap::<#2e778847ba9e3685>"
	b	.LBB_9ba498_467
.LBB_9ba498_521:
	cbz	w24, .LBB_9ba498_467
	sub	x8, x18, x25
	mov	x9, #4294967296
	mov	x0, #4294967296
	add	x17, x8, x9
	add	x18, x14, x9
	orr	x5, x24, #0x100000000
	cmp	x18, x17
	bfxil	x0, x13, #0, #32
	sub	x12, x12, x22
	csel	x1, x18, x17, lo
	subs	x1, x9, x1
	csel	x1, xzr, x1, lo
	subs	x17, x5, x17
	ldrb	w5, [x23]
	csel	x17, xzr, x17, lo
	subs	x18, x0, x18
	add	x14, x1, x14
	csel	x18, xzr, x18, lo
	cmp	w16, w15
	orr	x0, x21, #0x100000000
	csel	w15, w16, w15, lo
	add	x16, x12, x9
	cmp	x17, x15
	csel	x15, x17, x15, lo
	add	x17, x4, x9
	cmp	x18, x15
	csel	x15, x18, x15, lo
	add	x18, x1, x8
	cmp	x15, x1
	add	x8, x15, x8
	mov	x1, x20
	csel	x15, x18, xzr, hi
	csel	x8, x8, xzr, hi
	csel	x14, x14, xzr, hi
	cmp	x17, x16
	stp	x15, x8, [x29, #-120]
	csel	x18, x17, x16, lo
	subs	x18, x9, x18
	bfxil	x9, x13, #32, #32
	csel	x13, xzr, x18, lo
	subs	x16, x0, x16
	mov	x0, x19
	csel	x16, xzr, x16, lo
	subs	x9, x9, x17
	add	x8, x13, x12
	csel	x9, xzr, x9, lo
	cmp	w11, w10
	csel	w10, w11, w10, lo
	cmp	x16, x10
	csel	x10, x16, x10, lo
	cmp	x9, x10
	csel	x9, x9, x10, lo
	add	x10, x13, x4
	sub	x4, x29, #120
	cmp	x9, x13
	add	x9, x9, x12
	csel	x8, x8, xzr, hi
	csel	x9, x9, xzr, hi
	stp	x14, x8, [x29, #-104]
	csel	x8, x10, xzr, hi
	stp	x9, x8, [x29, #-88]
	bl	"pix_raster::view::blit_overlap::<#4bf1498ae24b3bf7>"
	b	.LBB_9ba498_467
.LBB_9ba498_523:
	cbz	w24, .LBB_9ba498_467
	sub	x8, x0, x25
	mov	x14, #4294967296
	orr	x13, x24, #0x100000000
	add	x8, x8, x14
	mov	x9, #-4294967296
	cmp	x8, x14
	add	x15, x8, x15
	csel	x11, x8, x14, hi
	cmp	x13, x15
	sub	x8, x12, x22
	csel	x13, x13, x15, lo
	add	x12, x11, x9
	add	x8, x8, x14
	cmp	x13, x11
	add	x10, x8, x10
	csel	x16, x12, xzr, hi
	cmp	x8, x14
	orr	x12, x21, #0x100000000
	csel	x8, x8, x14, hi
	cmp	x12, x10
	csel	x10, x12, x10, lo
	add	x12, x8, x9
	cmp	x10, x8
	csel	x8, x12, xzr, hi
	b.ls	.LBB_9ba498_467
	add	x9, x10, x9
	cmp	x9, x8
	b.ls	.LBB_9ba498_467
	mov	x10, #-4294967296
	cmp	x13, x11
	add	x10, x13, x10
	csel	x17, x10, xzr, hi
	subs	x10, x17, x16
	b.eq	.LBB_9ba498_467
	madd	x12, x8, x20, x16
	ldr	w11, [x2]
	lsl	x13, x20, #2
	and	x14, x10, #0xfffffffffffffff8
	sub	x16, x16, x17
	dup	v0.4s, w11
	add	x12, x19, x12, lsl #2
	add	x15, x12, #16
	b	.LBB_9ba498_529
.LBB_9ba498_528:
	add	x8, x8, #1
	add	x15, x15, x13
	add	x12, x12, x13
	cmp	x8, x9
	b.eq	.LBB_9ba498_467
.LBB_9ba498_529:
	cmp	x10, #8
	b.hs	.LBB_9ba498_531
	mov	x18, xzr
	b	.LBB_9ba498_534
.LBB_9ba498_531:
	mov	x17, x15
	and	x18, x10, #0xfffffffffffffff8
.LBB_9ba498_532:
	subs	x18, x18, #8
	stp	q0, q0, [x17, #-16]
	add	x17, x17, #32
	b.ne	.LBB_9ba498_532
	cmp	x10, x14
	and	x18, x10, #0xfffffffffffffff8
	b.eq	.LBB_9ba498_528
.LBB_9ba498_534:
	add	x17, x12, x18, lsl #2
	add	x18, x16, x18
.LBB_9ba498_535:
	adds	x18, x18, #1
	str	w11, [x17], #4
	b.lo	.LBB_9ba498_535
	b	.LBB_9ba498_528
.LBB_9ba498_536:
	cbz	w24, .LBB_9ba498_467
	sub	x8, x0, x25
	mov	x9, #4294967296
	mov	x1, #4294967296
	add	x18, x8, x9
	add	x0, x14, x9
	orr	x5, x24, #0x100000000
	cmp	x0, x18
	bfxil	x1, x13, #0, #32
	sub	x12, x12, x22
	csel	x4, x0, x18, lo
	subs	x4, x9, x4
	csel	x4, xzr, x4, lo
	subs	x18, x5, x18
	ldr	w5, [x23]
	csel	x18, xzr, x18, lo
	subs	x0, x1, x0
	add	x14, x4, x14
	csel	x0, xzr, x0, lo
	cmp	w16, w15
	orr	x1, x21, #0x100000000
	csel	w15, w16, w15, lo
	add	x16, x12, x9
	cmp	x18, x15
	csel	x15, x18, x15, lo
	add	x18, x17, x9
	cmp	x0, x15
	csel	x15, x0, x15, lo
	add	x0, x4, x8
	cmp	x15, x4
	add	x8, x15, x8
	sub	x4, x29, #120
	csel	x15, x0, xzr, hi
	csel	x8, x8, xzr, hi
	csel	x14, x14, xzr, hi
	cmp	x18, x16
	stp	x15, x8, [x29, #-120]
	csel	x0, x18, x16, lo
	subs	x0, x9, x0
	bfxil	x9, x13, #32, #32
	csel	x13, xzr, x0, lo
	subs	x16, x1, x16
	mov	x0, x19
	csel	x16, xzr, x16, lo
	subs	x9, x9, x18
	add	x8, x13, x12
	csel	x9, xzr, x9, lo
	cmp	w11, w10
	mov	x1, x20
	csel	w10, w11, w10, lo
	cmp	x16, x10
	csel	x10, x16, x10, lo
	cmp	x9, x10
	csel	x9, x9, x10, lo
	add	x10, x13, x17
	cmp	x9, x13
	add	x9, x9, x12
	csel	x8, x8, xzr, hi
	csel	x9, x9, xzr, hi
	stp	x14, x8, [x29, #-104]
	csel	x8, x10, xzr, hi
	stp	x9, x8, [x29, #-88]
	bl	"pix_raster::view::blit_overlap::<#1190cce370e40c2f>"
	b	.LBB_9ba498_467
.LBB_9ba498_538:
	cbz	w24, .LBB_9ba498_467
	sub	x8, x0, x25
	mov	x9, #4294967296
	orr	x13, x24, #0x100000000
	add	x8, x8, x9
	mov	x14, #-4294967296
	cmp	x8, x9
	add	x15, x8, x15
	csel	x11, x8, x9, hi
	cmp	x13, x15
	sub	x8, x12, x22
	csel	x13, x13, x15, lo
	add	x12, x11, x14
	add	x15, x8, x9
	cmp	x13, x11
	add	x10, x15, x10
	csel	x8, x12, xzr, hi
	cmp	x15, x9
	orr	x12, x21, #0x100000000
	csel	x9, x15, x9, hi
	cmp	x12, x10
	csel	x10, x12, x10, lo
	add	x12, x9, x14
	cmp	x10, x9
	csel	x9, x12, xzr, hi
	b.ls	.LBB_9ba498_467
	add	x10, x10, x14
	cmp	x10, x9
	b.ls	.LBB_9ba498_467
	ld1r	{ v1.4s }, [x2]
	adrp	x12, .LCPI_9ba498_5
	cmp	x13, x11
	ldr	q0, [x12, :lo12:.LCPI_9ba498_5]
	mov	x12, #-4294967296
	madd	x15, x9, x20, x8
	add	x12, x13, x12
	ushl	v1.4s, v1.4s, v0.4s
	csel	x11, x12, xzr, hi
	adrp	x12, .LCPI_9ba498_6
	sub	x11, x11, x8
	ldr	q3, [x12, :lo12:.LCPI_9ba498_6]
	and	x12, x11, #0xfffffffffffffff0
	lsl	x16, x11, #2
	lsr	x13, x11, #4
	xtn	v1.4h, v1.4s
	lsr	x17, x12, #4
	add	x2, x19, x15, lsl #2
	and	x1, x16, #0x30
	lsl	x14, x12, #2
	and	x15, x11, #0xf
	bfi	x1, x17, #6, #58
	lsl	x17, x20, #2
	and	x16, x16, #0x20
	and	x18, x11, #0xc
	add	x0, x2, #32
	uzp1	v2.8b, v1.8b, v0.8b
	add	x1, x2, x1
	tbl	v2.16b, { v2.16b }, v3.16b
	b	.LBB_9ba498_543
.LBB_9ba498_542:
	add	x9, x9, #1
	add	x0, x0, x17
	add	x1, x1, x17
	cmp	x9, x10
	b.eq	.LBB_9ba498_467
.LBB_9ba498_543:
	cbz	x13, .LBB_9ba498_546
	mov	x2, x0
	mov	x3, x13
.LBB_9ba498_545:
	ldp	q3, q4, [x2, #-32]
	subs	x3, x3, #1
	ldp	q5, q6, [x2]
	uqadd	v3.16b, v2.16b, v3.16b
	uqadd	v4.16b, v2.16b, v4.16b
	uqadd	v5.16b, v2.16b, v5.16b
	uqadd	v6.16b, v2.16b, v6.16b
	stp	q3, q4, [x2, #-32]
	stp	q5, q6, [x2], #64
	b.ne	.LBB_9ba498_545
.LBB_9ba498_546:
	cmp	x12, x11
	b.eq	.LBB_9ba498_542
	mul	x2, x9, x20
	add	x2, x2, x8
	add	x2, x19, x2, lsl #2
	add	x2, x2, x14
	tbnz	w11, #3, .LBB_9ba498_550
	tbnz	w11, #2, .LBB_9ba498_551
.LBB_9ba498_549:
	cmp	x15, x18
	b.ls	.LBB_9ba498_542
	b	.LBB_9ba498_552
.LBB_9ba498_550:
	ldp	q3, q4, [x2]
	uqadd	v3.16b, v2.16b, v3.16b
	uqadd	v4.16b, v2.16b, v4.16b
	stp	q3, q4, [x2]
	tbz	w11, #2, .LBB_9ba498_549
.LBB_9ba498_551:
	ldr	q3, [x2, x16]
	uqadd	v3.16b, v2.16b, v3.16b
	str	q3, [x2, x16]
	cmp	x15, x18
	b.ls	.LBB_9ba498_542
.LBB_9ba498_552:
	mov	x4, x1
	sub	x2, x15, x18
	mov	x3, x1
.LBB_9ba498_553:
	ld1r	{ v3.4s }, [x3], #4
	fmov	d4, d1
	movi	d5, #0xff00ff00ff00ff
	adrp	x5, .LCPI_9ba498_7
	subs	x2, x2, #1
	ushl	v3.4s, v3.4s, v0.4s
	bic	v4.4h, #255, lsl #8
	xtn	v3.4h, v3.4s
	bic	v3.4h, #255, lsl #8
	add	v3.4h, v3.4h, v4.4h
	ldr	q4, [x5, :lo12:.LCPI_9ba498_7]
	umin	v3.4h, v3.4h, v5.4h
	ushll	v3.4s, v3.4h, #0
	ushl	v3.4s, v3.4s, v4.4s
	ext	v4.16b, v3.16b, v3.16b, #8
	orr	v3.8b, v3.8b, v4.8b
	fmov	x5, d3
	lsr	x6, x5, #32
	orr	w5, w5, w6
	str	w5, [x4]
	mov	x4, x3
	b.ne	.LBB_9ba498_553
	b	.LBB_9ba498_542
.LBB_9ba498_554:
	cbz	w24, .LBB_9ba498_467
	sub	x8, x0, x25
	mov	x9, #4294967296
	mov	x1, #4294967296
	add	x18, x8, x9
	add	x0, x14, x9
	orr	x5, x24, #0x100000000
	cmp	x0, x18
	bfxil	x1, x13, #0, #32
	sub	x12, x12, x22
	csel	x4, x0, x18, lo
	subs	x4, x9, x4
	csel	x4, xzr, x4, lo
	subs	x18, x5, x18
	ldrb	w5, [x23]
	csel	x18, xzr, x18, lo
	subs	x0, x1, x0
	add	x14, x4, x14
	csel	x0, xzr, x0, lo
	cmp	w16, w15
	orr	x1, x21, #0x100000000
	csel	w15, w16, w15, lo
	add	x16, x12, x9
	cmp	x18, x15
	csel	x15, x18, x15, lo
	add	x18, x17, x9
	cmp	x0, x15
	csel	x15, x0, x15, lo
	add	x0, x4, x8
	cmp	x15, x4
	add	x8, x15, x8
	sub	x4, x29, #120
	csel	x15, x0, xzr, hi
	csel	x8, x8, xzr, hi
	csel	x14, x14, xzr, hi
	cmp	x18, x16
	stp	x15, x8, [x29, #-120]
	csel	x0, x18, x16, lo
	subs	x0, x9, x0
	bfxil	x9, x13, #32, #32
	csel	x13, xzr, x0, lo
	subs	x16, x1, x16
	mov	x0, x19
	csel	x16, xzr, x16, lo
	subs	x9, x9, x18
	add	x8, x13, x12
	csel	x9, xzr, x9, lo
	cmp	w11, w10
	mov	x1, x20
	csel	w10, w11, w10, lo
	cmp	x16, x10
	csel	x10, x16, x10, lo
	cmp	x9, x10
	csel	x9, x9, x10, lo
	add	x10, x13, x17
	cmp	x9, x13
	add	x9, x9, x12
	csel	x8, x8, xzr, hi
	csel	x9, x9, xzr, hi
	stp	x14, x8, [x29, #-104]
	csel	x8, x10, xzr, hi
	stp	x9, x8, [x29, #-88]
	bl	"pix_raster::view::blit_overlap::<#79e97ac7f662bd7a>"
	b	.LBB_9ba498_467
.LBB_9ba498_556:
	cbz	w23, .LBB_9ba498_467
	sub	x8, x18, x24
	mov	x14, #4294967296
	orr	x13, x23, #0x100000000
	add	x8, x8, x14
	mov	x9, #-4294967296
	cmp	x8, x14
	add	x15, x8, x15
	csel	x11, x8, x14, hi
	cmp	x13, x15
	sub	x8, x12, x22
	csel	x13, x13, x15, lo
	add	x12, x11, x9
	add	x8, x8, x14
	cmp	x13, x11
	add	x10, x8, x10
	csel	x16, x12, xzr, hi
	cmp	x8, x14
	orr	x12, x21, #0x100000000
	csel	x8, x8, x14, hi
	cmp	x12, x10
	csel	x10, x12, x10, lo
	add	x12, x8, x9
	cmp	x10, x8
	csel	x8, x12, xzr, hi
	b.ls	.LBB_9ba498_467
	add	x9, x10, x9
	cmp	x9, x8
	b.ls	.LBB_9ba498_467
	mov	x10, #-4294967296
	cmp	x13, x11
	add	x10, x13, x10
	csel	x17, x10, xzr, hi
	subs	x10, x17, x16
	b.eq	.LBB_9ba498_467
	madd	x12, x8, x20, x16
	ldr	w11, [x2]
	lsl	x13, x20, #2
	and	x14, x10, #0xfffffffffffffff8
	sub	x16, x16, x17
	dup	v0.4s, w11
	add	x12, x19, x12, lsl #2
	add	x15, x12, #16
	b	.LBB_9ba498_562
.LBB_9ba498_561:
	add	x8, x8, #1
	add	x15, x15, x13
	add	x12, x12, x13
	cmp	x8, x9
	b.eq	.LBB_9ba498_467
.LBB_9ba498_562:
	cmp	x10, #8
	b.hs	.LBB_9ba498_564
	mov	x18, xzr
	b	.LBB_9ba498_567
.LBB_9ba498_564:
	mov	x17, x15
	and	x18, x10, #0xfffffffffffffff8
.LBB_9ba498_565:
	subs	x18, x18, #8
	stp	q0, q0, [x17, #-16]
	add	x17, x17, #32
	b.ne	.LBB_9ba498_565
	cmp	x10, x14
	and	x18, x10, #0xfffffffffffffff8
	b.eq	.LBB_9ba498_561
.LBB_9ba498_567:
	add	x17, x12, x18, lsl #2
	add	x18, x16, x18
.LBB_9ba498_568:
	adds	x18, x18, #1
	str	w11, [x17], #4
	b.lo	.LBB_9ba498_568
	b	.LBB_9ba498_561
.LBB_9ba498_569:
	cbz	w23, .LBB_9ba498_467
	sub	x8, x18, x24
	mov	x9, #4294967296
	mov	x1, #4294967296
	add	x17, x8, x9
	add	x18, x14, x9
	orr	x6, x23, #0x100000000
	cmp	x18, x17
	bfxil	x1, x13, #0, #32
	sub	x12, x12, x22
	csel	x5, x18, x17, lo
	subs	x5, x9, x5
	csel	x5, xzr, x5, lo
	subs	x17, x6, x17
	csel	x17, xzr, x17, lo
	subs	x18, x1, x18
	add	x14, x5, x14
	csel	x18, xzr, x18, lo
	cmp	w16, w15
	orr	x1, x21, #0x100000000
	csel	w15, w16, w15, lo
	add	x16, x12, x9
	cmp	x17, x15
	csel	x15, x17, x15, lo
	add	x17, x4, x9
	cmp	x18, x15
	csel	x15, x18, x15, lo
	add	x18, x5, x8
	cmp	x15, x5
	add	x8, x15, x8
	ldr	w5, [x0]
	csel	x15, x18, xzr, hi
	csel	x8, x8, xzr, hi
	csel	x14, x14, xzr, hi
	cmp	x17, x16
	stp	x15, x8, [x29, #-120]
	mov	x0, x19
	csel	x18, x17, x16, lo
	subs	x18, x9, x18
	bfxil	x9, x13, #32, #32
	csel	x13, xzr, x18, lo
	subs	x16, x1, x16
	mov	x1, x20
	csel	x16, xzr, x16, lo
	subs	x9, x9, x17
	add	x8, x13, x12
	csel	x9, xzr, x9, lo
	cmp	w11, w10
	csel	w10, w11, w10, lo
	cmp	x16, x10
	csel	x10, x16, x10, lo
	cmp	x9, x10
	csel	x9, x9, x10, lo
	add	x10, x13, x4
	sub	x4, x29, #120
	cmp	x9, x13
	add	x9, x9, x12
	csel	x8, x8, xzr, hi
	csel	x9, x9, xzr, hi
	stp	x14, x8, [x29, #-104]
	csel	x8, x10, xzr, hi
	stp	x9, x8, [x29, #-88]
	bl	"pix_raster::view::blit_overlap::<#6f0e63a99552414a>"
	b	.LBB_9ba498_467
.LBB_9ba498_571:
	cbz	w23, .LBB_9ba498_467
	sub	x8, x18, x24
	mov	x9, #4294967296
	mov	x1, #4294967296
	add	x17, x8, x9
	add	x18, x14, x9
	orr	x6, x23, #0x100000000
	cmp	x18, x17
	bfxil	x1, x13, #0, #32
	sub	x12, x12, x22
	csel	x5, x18, x17, lo
	subs	x5, x9, x5
	csel	x5, xzr, x5, lo
	subs	x17, x6, x17
	csel	x17, xzr, x17, lo
	subs	x18, x1, x18
	add	x14, x5, x14
	csel	x18, xzr, x18, lo
	cmp	w16, w15
	orr	x1, x21, #0x100000000
	csel	w15, w16, w15, lo
	add	x16, x12, x9
	cmp	x17, x15
	csel	x15, x17, x15, lo
	add	x17, x4, x9
	cmp	x18, x15
	csel	x15, x18, x15, lo
	add	x18, x5, x8
	cmp	x15, x5
	add	x8, x15, x8
	ldrb	w5, [x0]
	csel	x15, x18, xzr, hi
	csel	x8, x8, xzr, hi
	csel	x14, x14, xzr, hi
	cmp	x17, x16
	stp	x15, x8, [x29, #-120]
	mov	x0, x19
	csel	x18, x17, x16, lo
	subs	x18, x9, x18
	bfxil	x9, x13, #32, #32
	csel	x13, xzr, x18, lo
	subs	x16, x1, x16
	mov	x1, x20
	csel	x16, xzr, x16, lo
	subs	x9, x9, x17
	add	x8, x13, x12
	csel	x9, xzr, x9, lo
	cmp	w11, w10
	csel	w10, w11, w10, lo
	cmp	x16, x10
	csel	x10, x16, x10, lo
	cmp	x9, x10
	csel	x9, x9, x10, lo
	add	x10, x13, x4
	sub	x4, x29, #120
	cmp	x9, x13
	add	x9, x9, x12
	csel	x8, x8, xzr, hi
	csel	x9, x9, xzr, hi
	stp	x14, x8, [x29, #-104]
	csel	x8, x10, xzr, hi
	stp	x9, x8, [x29, #-88]
	bl	"pix_raster::view::blit_overlap::<#9d2a39c7bba67463>"
	b	.LBB_9ba498_467
.LBB_9ba498_573:
	cbz	w24, .LBB_9ba498_467
	sub	x8, x18, x25
	mov	x14, #4294967296
	orr	x13, x24, #0x100000000
	add	x8, x8, x14
	mov	x9, #-4294967296
	cmp	x8, x14
	add	x15, x8, x15
	csel	x11, x8, x14, hi
	cmp	x13, x15
	sub	x8, x12, x22
	csel	x13, x13, x15, lo
	add	x12, x11, x9
	add	x8, x8, x14
	cmp	x13, x11
	add	x10, x8, x10
	csel	x16, x12, xzr, hi
	cmp	x8, x14
	orr	x12, x21, #0x100000000
	csel	x8, x8, x14, hi
	cmp	x12, x10
	csel	x10, x12, x10, lo
	add	x12, x8, x9
	cmp	x10, x8
	csel	x8, x12, xzr, hi
	b.ls	.LBB_9ba498_467
	add	x9, x10, x9
	cmp	x9, x8
	b.ls	.LBB_9ba498_467
	mov	x10, #-4294967296
	cmp	x13, x11
	add	x10, x13, x10
	csel	x17, x10, xzr, hi
	subs	x10, x17, x16
	b.eq	.LBB_9ba498_467
	madd	x12, x8, x20, x16
	ldr	w11, [x2]
	lsl	x13, x20, #2
	and	x14, x10, #0xfffffffffffffff8
	sub	x16, x16, x17
	dup	v0.4s, w11
	add	x12, x19, x12, lsl #2
	add	x15, x12, #16
	b	.LBB_9ba498_579
.LBB_9ba498_578:
	add	x8, x8, #1
	add	x15, x15, x13
	add	x12, x12, x13
	cmp	x8, x9
	b.eq	.LBB_9ba498_467
.LBB_9ba498_579:
	cmp	x10, #8
	b.hs	.LBB_9ba498_581
	mov	x18, xzr
	b	.LBB_9ba498_584
.LBB_9ba498_581:
	mov	x17, x15
	and	x18, x10, #0xfffffffffffffff8
.LBB_9ba498_582:
	subs	x18, x18, #8
	stp	q0, q0, [x17, #-16]
	add	x17, x17, #32
	b.ne	.LBB_9ba498_582
	cmp	x10, x14
	and	x18, x10, #0xfffffffffffffff8
	b.eq	.LBB_9ba498_578
.LBB_9ba498_584:
	add	x17, x12, x18, lsl #2
	add	x18, x16, x18
.LBB_9ba498_585:
	adds	x18, x18, #1
	str	w11, [x17], #4
	b.lo	.LBB_9ba498_585
	b	.LBB_9ba498_578
.LBB_9ba498_586:
	cbz	w24, .LBB_9ba498_467
	sub	x8, x18, x25
	mov	x9, #4294967296
	mov	x0, #4294967296
	add	x17, x8, x9
	add	x18, x14, x9
	orr	x5, x24, #0x100000000
	cmp	x18, x17
	bfxil	x0, x13, #0, #32
	sub	x12, x12, x22
	csel	x1, x18, x17, lo
	subs	x1, x9, x1
	csel	x1, xzr, x1, lo
	subs	x17, x5, x17
	ldr	w5, [x23]
	csel	x17, xzr, x17, lo
	subs	x18, x0, x18
	add	x14, x1, x14
	csel	x18, xzr, x18, lo
	cmp	w16, w15
	orr	x0, x21, #0x100000000
	csel	w15, w16, w15, lo
	add	x16, x12, x9
	cmp	x17, x15
	csel	x15, x17, x15, lo
	add	x17, x4, x9
	cmp	x18, x15
	csel	x15, x18, x15, lo
	add	x18, x1, x8
	cmp	x15, x1
	add	x8, x15, x8
	mov	x1, x20
	csel	x15, x18, xzr, hi
	csel	x8, x8, xzr, hi
	csel	x14, x14, xzr, hi
	cmp	x17, x16
	stp	x15, x8, [x29, #-120]
	csel	x18, x17, x16, lo
	subs	x18, x9, x18
	bfxil	x9, x13, #32, #32
	csel	x13, xzr, x18, lo
	subs	x16, x0, x16
	mov	x0, x19
	csel	x16, xzr, x16, lo
	subs	x9, x9, x17
	add	x8, x13, x12
	csel	x9, xzr, x9, lo
	cmp	w11, w10
	csel	w10, w11, w10, lo
	cmp	x16, x10
	csel	x10, x16, x10, lo
	cmp	x9, x10
	csel	x9, x9, x10, lo
	add	x10, x13, x4
	sub	x4, x29, #120
	cmp	x9, x13
	add	x9, x9, x12
	csel	x8, x8, xzr, hi
	csel	x9, x9, xzr, hi
	stp	x14, x8, [x29, #-104]
	csel	x8, x10, xzr, hi
	stp	x9, x8, [x29, #-88]
	bl	"pix_raster::view::blit_overlap::<#82740d74a8936f70>"
	b	.LBB_9ba498_467
.LBB_9ba498_588:
	cbz	w24, .LBB_9ba498_467
	sub	x8, x18, x25
	mov	x9, #4294967296
	mov	x0, #4294967296
	add	x17, x8, x9
	add	x18, x14, x9
	orr	x5, x24, #0x100000000
	cmp	x18, x17
	bfxil	x0, x13, #0, #32
	sub	x12, x12, x22
	csel	x1, x18, x17, lo
	subs	x1, x9, x1
	csel	x1, xzr, x1, lo
	subs	x17, x5, x17
	ldrb	w5, [x23]
	csel	x17, xzr, x17, lo
	subs	x18, x0, x18
	add	x14, x1, x14
	csel	x18, xzr, x18, lo
	cmp	w16, w15
	orr	x0, x21, #0x100000000
	csel	w15, w16, w15, lo
	add	x16, x12, x9
	cmp	x17, x15
	csel	x15, x17, x15, lo
	add	x17, x4, x9
	cmp	x18, x15
	csel	x15, x18, x15, lo
	add	x18, x1, x8
	cmp	x15, x1
	add	x8, x15, x8
	mov	x1, x20
	csel	x15, x18, xzr, hi
	csel	x8, x8, xzr, hi
	csel	x14, x14, xzr, hi
	cmp	x17, x16
	stp	x15, x8, [x29, #-120]
	csel	x18, x17, x16, lo
	subs	x18, x9, x18
	bfxil	x9, x13, #32, #32
	csel	x13, xzr, x18, lo
	subs	x16, x0, x16
	mov	x0, x19
	csel	x16, xzr, x16, lo
	subs	x9, x9, x17
	add	x8, x13, x12
	csel	x9, xzr, x9, lo
	cmp	w11, w10
	csel	w10, w11, w10, lo
	cmp	x16, x10
	csel	x10, x16, x10, lo
	cmp	x9, x10
	csel	x9, x9, x10, lo
	add	x10, x13, x4
	sub	x4, x29, #120
	cmp	x9, x13
	add	x9, x9, x12
	csel	x8, x8, xzr, hi
	csel	x9, x9, xzr, hi
	stp	x14, x8, [x29, #-104]
	csel	x8, x10, xzr, hi
	stp	x9, x8, [x29, #-88]
	bl	"pix_raster::view::blit_overlap::<#ae9f661a91a09783>"
	b	.LBB_9ba498_467
.LBB_9ba498_590:
	cbz	w23, .LBB_9ba498_467
	add	w8, w23, w24
	mov	x10, #4294967296
	orr	x9, x23, #0x100000000
	sub	x8, x8, x24
	add	w11, w21, w22
	orr	x13, x21, #0x100000000
	add	x8, x8, x10
	sub	x11, x11, x22
	cmp	x9, x8
	add	x11, x11, x10
	csel	x9, x9, x8, lo
	subs	x12, x9, x10
	csel	x21, xzr, x12, lo
	cmp	x13, x11
	mov	x12, #4294967297
	csel	x11, x13, x11, lo
	subs	x10, x11, x10
	csel	x22, xzr, x10, lo
	cmp	x11, x12
	b.lo	.LBB_9ba498_467
	lsl	x23, x20, #2
	cmp	x21, #1024
	b.lo	.LBB_9ba498_824
	mov	x20, xzr
.LBB_9ba498_594:
	mov	x0, x19
	mov	x1, x21
	bl	"pix_el::filled::clear_long::<#c0ead2364dd49755>"
	add	x20, x20, #1
	add	x19, x19, x23
	cmp	x20, x22
	b.lo	.LBB_9ba498_594
	b	.LBB_9ba498_467
.LBB_9ba498_595:
	cbz	w24, .LBB_9ba498_467
	sub	x8, x18, x25
	mov	x14, #4294967296
	orr	x13, x24, #0x100000000
	add	x8, x8, x14
	mov	x9, #-4294967296
	cmp	x8, x14
	add	x15, x8, x15
	csel	x11, x8, x14, hi
	cmp	x13, x15
	sub	x8, x12, x22
	csel	x13, x13, x15, lo
	add	x12, x11, x9
	add	x8, x8, x14
	cmp	x13, x11
	add	x10, x8, x10
	csel	x16, x12, xzr, hi
	cmp	x8, x14
	orr	x12, x21, #0x100000000
	csel	x8, x8, x14, hi
	cmp	x12, x10
	csel	x10, x12, x10, lo
	add	x12, x8, x9
	cmp	x10, x8
	csel	x8, x12, xzr, hi
	b.ls	.LBB_9ba498_467
	add	x9, x10, x9
	cmp	x9, x8
	b.ls	.LBB_9ba498_467
	mov	x10, #-4294967296
	cmp	x13, x11
	add	x10, x13, x10
	csel	x17, x10, xzr, hi
	subs	x10, x17, x16
	b.eq	.LBB_9ba498_467
	madd	x12, x8, x20, x16
	ldr	w11, [x2]
	lsl	x13, x20, #2
	and	x14, x10, #0xfffffffffffffff8
	sub	x16, x16, x17
	dup	v0.4s, w11
	add	x12, x19, x12, lsl #2
	add	x15, x12, #16
	b	.LBB_9ba498_601
.LBB_9ba498_600:
	add	x8, x8, #1
	add	x15, x15, x13
	add	x12, x12, x13
	cmp	x8, x9
	b.eq	.LBB_9ba498_467
.LBB_9ba498_601:
	cmp	x10, #8
	b.hs	.LBB_9ba498_603
	mov	x18, xzr
	b	.LBB_9ba498_606
.LBB_9ba498_603:
	mov	x17, x15
	and	x18, x10, #0xfffffffffffffff8
.LBB_9ba498_604:
	subs	x18, x18, #8
	stp	q0, q0, [x17, #-16]
	add	x17, x17, #32
	b.ne	.LBB_9ba498_604
	cmp	x10, x14
	and	x18, x10, #0xfffffffffffffff8
	b.eq	.LBB_9ba498_600
.LBB_9ba498_606:
	add	x17, x12, x18, lsl #2
	add	x18, x16, x18
.LBB_9ba498_607:
	adds	x18, x18, #1
	str	w11, [x17], #4
	b.lo	.LBB_9ba498_607
	b	.LBB_9ba498_600
.LBB_9ba498_608:
	cbz	w24, .LBB_9ba498_467
	sub	x8, x18, x25
	mov	x9, #4294967296
	mov	x0, #4294967296
	add	x17, x8, x9
	add	x18, x14, x9
	orr	x5, x24, #0x100000000
	cmp	x18, x17
	bfxil	x0, x13, #0, #32
	sub	x12, x12, x22
	csel	x1, x18, x17, lo
	subs	x1, x9, x1
	csel	x1, xzr, x1, lo
	subs	x17, x5, x17
	ldr	w5, [x23]
	csel	x17, xzr, x17, lo
	subs	x18, x0, x18
	add	x14, x1, x14
	csel	x18, xzr, x18, lo
	cmp	w16, w15
	orr	x0, x21, #0x100000000
	csel	w15, w16, w15, lo
	add	x16, x12, x9
	cmp	x17, x15
	csel	x15, x17, x15, lo
	add	x17, x4, x9
	cmp	x18, x15
	csel	x15, x18, x15, lo
	add	x18, x1, x8
	cmp	x15, x1
	add	x8, x15, x8
	mov	x1, x20
	csel	x15, x18, xzr, hi
	csel	x8, x8, xzr, hi
	csel	x14, x14, xzr, hi
	cmp	x17, x16
	stp	x15, x8, [x29, #-120]
	csel	x18, x17, x16, lo
	subs	x18, x9, x18
	bfxil	x9, x13, #32, #32
	csel	x13, xzr, x18, lo
	subs	x16, x0, x16
	mov	x0, x19
	csel	x16, xzr, x16, lo
	subs	x9, x9, x17
	add	x8, x13, x12
	csel	x9, xzr, x9, lo
	cmp	w11, w10
	csel	w10, w11, w10, lo
	cmp	x16, x10
	csel	x10, x16, x10, lo
	cmp	x9, x10
	csel	x9, x9, x10, lo
	add	x10, x13, x4
	sub	x4, x29, #120
	cmp	x9, x13
	add	x9, x9, x12
	csel	x8, x8, xzr, hi
	csel	x9, x9, xzr, hi
	stp	x14, x8, [x29, #-104]
	csel	x8, x10, xzr, hi
	stp	x9, x8, [x29, #-88]
	bl	"pix_raster::view::blit_overlap::<#7a2e6a0a1e536be3>"
	b	.LBB_9ba498_467
.LBB_9ba498_610:
	cbz	w24, .LBB_9ba498_467
	sub	x8, x18, x25
	mov	x9, #4294967296
	orr	x13, x24, #0x100000000
	add	x8, x8, x9
	mov	x14, #-4294967296
	cmp	x8, x9
	add	x15, x8, x15
	csel	x11, x8, x9, hi
	cmp	x13, x15
	sub	x8, x12, x22
	csel	x13, x13, x15, lo
	add	x12, x11, x14
	add	x15, x8, x9
	cmp	x13, x11
	add	x10, x15, x10
	csel	x8, x12, xzr, hi
	cmp	x15, x9
	orr	x12, x21, #0x100000000
	csel	x9, x15, x9, hi
	cmp	x12, x10
	csel	x10, x12, x10, lo
	add	x12, x9, x14
	cmp	x10, x9
	csel	x9, x12, xzr, hi
	b.ls	.LBB_9ba498_467
	add	x10, x10, x14
	cmp	x10, x9
	b.ls	.LBB_9ba498_467
	ldr	w12, [x2]
	adrp	x15, .LCPI_9ba498_12
	cmp	x13, x11
	ldr	q1, [x15, :lo12:.LCPI_9ba498_12]
	fmov	s0, w12
	lsr	w14, w12, #16
	ubfx	w15, w12, #16, #8
	mov	v0.s[1], w12
	mov	v0.s[2], w14
	lsr	w14, w12, #24
	mov	v0.s[3], w14
	ushl	v1.4s, v0.4s, v1.4s
	fmov	s0, w14
	mov	x14, #-4294967296
	add	x11, x13, x14
	ubfx	w13, w12, #8, #8
	and	w14, w12, #0xff
	csel	x11, x11, xzr, hi
	mov	v0.h[1], w15
	uzp1	v1.8h, v1.8h, v1.8h
	madd	x15, x9, x20, x8
	sub	x11, x11, x8
	lsl	x16, x11, #2
	and	x12, x11, #0xfffffffffffffff0
	and	x18, x11, #0xc
	lsr	x17, x12, #4
	mov	v0.h[2], w13
	uzp1	v1.16b, v1.16b, v1.16b
	and	x1, x16, #0x30
	add	x2, x19, x15, lsl #2
	bfi	x1, x17, #6, #58
	lsr	x13, x11, #4
	lsl	x17, x20, #2
	and	x15, x11, #0xf
	and	x16, x16, #0x20
	add	x0, x2, #32
	add	x1, x2, x1
	mov	v0.h[3], w14
	ushr	v2.8h, v1.8h, #8
	bic	v1.8h, #255, lsl #8
	lsl	x14, x12, #2
	b	.LBB_9ba498_615
.LBB_9ba498_614:
	add	x9, x9, #1
	add	x0, x0, x17
	add	x1, x1, x17
	cmp	x9, x10
	b.eq	.LBB_9ba498_467
.LBB_9ba498_615:
	cbz	x13, .LBB_9ba498_618
	mov	x2, x0
	mov	x3, x13
.LBB_9ba498_617:
	ldp	q4, q3, [x2, #-32]
	adrp	x4, .LCPI_9ba498_8
	ldp	q6, q5, [x2]
	movi	v20.8h, #128
	ldr	q19, [x4, :lo12:.LCPI_9ba498_8]
	movi	v21.8h, #128
	movi	v22.8h, #128
	mvn	v7.16b, v4.16b
	mvn	v16.16b, v3.16b
	movi	v23.8h, #128
	mvn	v17.16b, v6.16b
	mvn	v18.16b, v5.16b
	movi	v24.16b, #1
	movi	v25.8h, #128
	movi	v26.8h, #128
	movi	v27.8h, #128
	ushr	v7.4s, v7.4s, #24
	ushr	v16.4s, v16.4s, #24
	adrp	x4, .LCPI_9ba498_0
	ushr	v17.4s, v17.4s, #24
	ushr	v18.4s, v18.4s, #24
	ldr	q28, [x4, :lo12:.LCPI_9ba498_0]
	subs	x3, x3, #1
	tbl	v7.16b, { v7.16b }, v19.16b
	tbl	v16.16b, { v16.16b }, v19.16b
	tbl	v17.16b, { v17.16b }, v19.16b
	tbl	v18.16b, { v18.16b }, v19.16b
	movi	v19.8h, #128
	mla	v20.8h, v2.8h, v7.8h
	mla	v21.8h, v2.8h, v16.8h
	mla	v25.8h, v1.8h, v16.8h
	mla	v22.8h, v2.8h, v17.8h
	mla	v23.8h, v2.8h, v18.8h
	mla	v19.8h, v1.8h, v7.8h
	mla	v26.8h, v1.8h, v17.8h
	mla	v27.8h, v1.8h, v18.8h
	umull2	v7.4s, v20.8h, v24.8h
	umull	v20.4s, v20.4h, v24.4h
	umull2	v16.4s, v21.8h, v24.8h
	umull	v21.4s, v21.4h, v24.4h
	umull2	v17.4s, v22.8h, v24.8h
	umull	v22.4s, v22.4h, v24.4h
	umull2	v18.4s, v23.8h, v24.8h
	umull	v23.4s, v23.4h, v24.4h
	umull2	v29.4s, v19.8h, v24.8h
	umull	v19.4s, v19.4h, v24.4h
	uzp2	v7.8h, v20.8h, v7.8h
	umull2	v20.4s, v25.8h, v24.8h
	umull	v25.4s, v25.4h, v24.4h
	uzp2	v16.8h, v21.8h, v16.8h
	umull2	v21.4s, v26.8h, v24.8h
	umull	v26.4s, v26.4h, v24.4h
	uzp2	v17.8h, v22.8h, v17.8h
	umull2	v22.4s, v27.8h, v24.8h
	umull	v24.4s, v27.4h, v24.4h
	uzp2	v18.8h, v23.8h, v18.8h
	uzp2	v19.8h, v19.8h, v29.8h
	tbl	v7.16b, { v7.16b }, v28.16b
	uzp2	v20.8h, v25.8h, v20.8h
	tbl	v16.16b, { v16.16b }, v28.16b
	uzp2	v21.8h, v26.8h, v21.8h
	tbl	v17.16b, { v17.16b }, v28.16b
	uzp2	v22.8h, v24.8h, v22.8h
	tbl	v18.16b, { v18.16b }, v28.16b
	orr	v7.16b, v7.16b, v19.16b
	orr	v16.16b, v16.16b, v20.16b
	orr	v17.16b, v17.16b, v21.16b
	orr	v18.16b, v18.16b, v22.16b
	uqadd	v4.16b, v7.16b, v4.16b
	uqadd	v3.16b, v16.16b, v3.16b
	uqadd	v6.16b, v17.16b, v6.16b
	uqadd	v5.16b, v18.16b, v5.16b
	stp	q4, q3, [x2, #-32]
	stp	q6, q5, [x2], #64
	b.ne	.LBB_9ba498_617
.LBB_9ba498_618:
	cmp	x12, x11
	b.eq	.LBB_9ba498_614
	mul	x2, x9, x20
	add	x2, x2, x8
	add	x2, x19, x2, lsl #2
	add	x2, x2, x14
	tbnz	w11, #3, .LBB_9ba498_622
	tbnz	w11, #2, .LBB_9ba498_623
.LBB_9ba498_621:
	cmp	x15, x18
	b.ls	.LBB_9ba498_614
	b	.LBB_9ba498_624
.LBB_9ba498_622:
	ldp	q4, q3, [x2]
	adrp	x3, .LCPI_9ba498_8
	ldr	q7, [x3, :lo12:.LCPI_9ba498_8]
	movi	v16.8h, #128
	movi	v17.8h, #128
	movi	v18.8h, #128
	movi	v19.16b, #1
	adrp	x3, .LCPI_9ba498_0
	mvn	v5.16b, v4.16b
	mvn	v6.16b, v3.16b
	ushr	v5.4s, v5.4s, #24
	ushr	v6.4s, v6.4s, #24
	tbl	v5.16b, { v5.16b }, v7.16b
	tbl	v6.16b, { v6.16b }, v7.16b
	movi	v7.8h, #128
	mla	v16.8h, v2.8h, v5.8h
	mla	v17.8h, v2.8h, v6.8h
	mla	v7.8h, v1.8h, v6.8h
	mla	v18.8h, v1.8h, v5.8h
	umull2	v5.4s, v16.8h, v19.8h
	umull	v6.4s, v16.4h, v19.4h
	umull2	v16.4s, v17.8h, v19.8h
	umull	v17.4s, v17.4h, v19.4h
	umull2	v20.4s, v7.8h, v19.8h
	umull	v7.4s, v7.4h, v19.4h
	uzp2	v5.8h, v6.8h, v5.8h
	umull2	v6.4s, v18.8h, v19.8h
	umull	v18.4s, v18.4h, v19.4h
	uzp2	v16.8h, v17.8h, v16.8h
	ldr	q17, [x3, :lo12:.LCPI_9ba498_0]
	uzp2	v7.8h, v7.8h, v20.8h
	uzp2	v6.8h, v18.8h, v6.8h
	tbl	v5.16b, { v5.16b }, v17.16b
	tbl	v16.16b, { v16.16b }, v17.16b
	orr	v5.16b, v5.16b, v6.16b
	orr	v6.16b, v16.16b, v7.16b
	uqadd	v4.16b, v5.16b, v4.16b
	uqadd	v3.16b, v6.16b, v3.16b
	stp	q4, q3, [x2]
	tbz	w11, #2, .LBB_9ba498_621
.LBB_9ba498_623:
	ldr	q3, [x2, x16]
	adrp	x3, .LCPI_9ba498_9
	movi	v7.8h, #128
	ldr	q5, [x3, :lo12:.LCPI_9ba498_9]
	movi	v16.16b, #1
	adrp	x3, .LCPI_9ba498_0
	mvn	v4.16b, v3.16b
	ushr	v4.4s, v4.4s, #24
	tbl	v4.16b, { v4.16b }, v5.16b
	movi	v5.8h, #128
	ushr	v6.8h, v4.8h, #8
	bic	v4.8h, #255, lsl #8
	mla	v5.8h, v6.8h, v2.8h
	mla	v7.8h, v4.8h, v1.8h
	umull2	v4.4s, v5.8h, v16.8h
	umull	v5.4s, v5.4h, v16.4h
	umull2	v6.4s, v7.8h, v16.8h
	umull	v7.4s, v7.4h, v16.4h
	uzp2	v4.8h, v5.8h, v4.8h
	ldr	q5, [x3, :lo12:.LCPI_9ba498_0]
	uzp2	v6.8h, v7.8h, v6.8h
	tbl	v4.16b, { v4.16b }, v5.16b
	orr	v4.16b, v4.16b, v6.16b
	uqadd	v3.16b, v4.16b, v3.16b
	str	q3, [x2, x16]
	cmp	x15, x18
	b.ls	.LBB_9ba498_614
.LBB_9ba498_624:
	mov	x2, x1
	sub	x3, x15, x18
.LBB_9ba498_625:
	ldr	w4, [x2]
	movi	v6.4h, #128
	subs	x3, x3, #1
	mvn	w5, w4
	dup	v3.4s, w4
	adrp	x4, .LCPI_9ba498_5
	lsr	w5, w5, #24
	ldr	q4, [x4, :lo12:.LCPI_9ba498_5]
	adrp	x4, .LCPI_9ba498_7
	dup	v5.4h, w5
	ushl	v3.4s, v3.4s, v4.4s
	movi	d4, #0xff00ff00ff00ff
	xtn	v3.4h, v3.4s
	mla	v6.4h, v5.4h, v0.4h
	bic	v3.4h, #255, lsl #8
	usra	v6.4h, v6.4h, #8
	usra	v3.4h, v6.4h, #8
	umin	v3.4h, v3.4h, v4.4h
	ldr	q4, [x4, :lo12:.LCPI_9ba498_7]
	ushll	v3.4s, v3.4h, #0
	ushl	v3.4s, v3.4s, v4.4s
	ext	v4.16b, v3.16b, v3.16b, #8
	orr	v3.8b, v3.8b, v4.8b
	fmov	x4, d3
	lsr	x5, x4, #32
	orr	w4, w4, w5
	str	w4, [x2], #4
	b.ne	.LBB_9ba498_625
	b	.LBB_9ba498_614
.LBB_9ba498_626:
	cbz	w24, .LBB_9ba498_467
	sub	x8, x18, x25
	mov	x9, #4294967296
	mov	x0, #4294967296
	add	x17, x8, x9
	add	x18, x14, x9
	orr	x5, x24, #0x100000000
	cmp	x18, x17
	bfxil	x0, x13, #0, #32
	sub	x12, x12, x22
	csel	x1, x18, x17, lo
	subs	x1, x9, x1
	csel	x1, xzr, x1, lo
	subs	x17, x5, x17
	ldrb	w5, [x23]
	csel	x17, xzr, x17, lo
	subs	x18, x0, x18
	add	x14, x1, x14
	csel	x18, xzr, x18, lo
	cmp	w16, w15
	orr	x0, x21, #0x100000000
	csel	w15, w16, w15, lo
	add	x16, x12, x9
	cmp	x17, x15
	csel	x15, x17, x15, lo
	add	x17, x4, x9
	cmp	x18, x15
	csel	x15, x18, x15, lo
	add	x18, x1, x8
	cmp	x15, x1
	add	x8, x15, x8
	mov	x1, x20
	csel	x15, x18, xzr, hi
	csel	x8, x8, xzr, hi
	csel	x14, x14, xzr, hi
	cmp	x17, x16
	stp	x15, x8, [x29, #-120]
	csel	x18, x17, x16, lo
	subs	x18, x9, x18
	bfxil	x9, x13, #32, #32
	csel	x13, xzr, x18, lo
	subs	x16, x0, x16
	mov	x0, x19
	csel	x16, xzr, x16, lo
	subs	x9, x9, x17
	add	x8, x13, x12
	csel	x9, xzr, x9, lo
	cmp	w11, w10
	csel	w10, w11, w10, lo
	cmp	x16, x10
	csel	x10, x16, x10, lo
	cmp	x9, x10
	csel	x9, x9, x10, lo
	add	x10, x13, x4
	sub	x4, x29, #120
	cmp	x9, x13
	add	x9, x9, x12
	csel	x8, x8, xzr, hi
	csel	x9, x9, xzr, hi
	stp	x14, x8, [x29, #-104]
	csel	x8, x10, xzr, hi
	stp	x9, x8, [x29, #-88]
	bl	"pix_raster::view::blit_overlap::<#d778ccf2d5486893>"
	b	.LBB_9ba498_467
.LBB_9ba498_628:
	cbz	w24, .LBB_9ba498_467
	sub	x8, x18, x25
	mov	x14, #4294967296
	orr	x13, x24, #0x100000000
	add	x8, x8, x14
	mov	x9, #-4294967296
	cmp	x8, x14
	add	x15, x8, x15
	csel	x11, x8, x14, hi
	cmp	x13, x15
	sub	x8, x12, x22
	csel	x13, x13, x15, lo
	add	x12, x11, x9
	add	x8, x8, x14
	cmp	x13, x11
	add	x10, x8, x10
	csel	x16, x12, xzr, hi
	cmp	x8, x14
	orr	x12, x21, #0x100000000
	csel	x8, x8, x14, hi
	cmp	x12, x10
	csel	x10, x12, x10, lo
	add	x12, x8, x9
	cmp	x10, x8
	csel	x8, x12, xzr, hi
	b.ls	.LBB_9ba498_467
	add	x9, x10, x9
	cmp	x9, x8
	b.ls	.LBB_9ba498_467
	mov	x10, #-4294967296
	cmp	x13, x11
	add	x10, x13, x10
	csel	x17, x10, xzr, hi
	subs	x10, x17, x16
	b.eq	.LBB_9ba498_467
	madd	x12, x8, x20, x16
	ldr	w11, [x2]
	lsl	x13, x20, #2
	and	x14, x10, #0xfffffffffffffff8
	sub	x16, x16, x17
	dup	v0.4s, w11
	add	x12, x19, x12, lsl #2
	add	x15, x12, #16
	b	.LBB_9ba498_634
.LBB_9ba498_633:
	add	x8, x8, #1
	add	x15, x15, x13
	add	x12, x12, x13
	cmp	x8, x9
	b.eq	.LBB_9ba498_467
.LBB_9ba498_634:
	cmp	x10, #8
	b.hs	.LBB_9ba498_636
	mov	x18, xzr
	b	.LBB_9ba498_639
.LBB_9ba498_636:
	mov	x17, x15
	and	x18, x10, #0xfffffffffffffff8
.LBB_9ba498_637:
	subs	x18, x18, #8
	stp	q0, q0, [x17, #-16]
	add	x17, x17, #32
	b.ne	.LBB_9ba498_637
	cmp	x10, x14
	and	x18, x10, #0xfffffffffffffff8
	b.eq	.LBB_9ba498_633
.LBB_9ba498_639:
	add	x17, x12, x18, lsl #2
	add	x18, x16, x18
.LBB_9ba498_640:
	adds	x18, x18, #1
	str	w11, [x17], #4
	b.lo	.LBB_9ba498_640
	b	.LBB_9ba498_633
.LBB_9ba498_641:
	cbz	w24, .LBB_9ba498_467
	sub	x8, x18, x25
	mov	x9, #4294967296
	mov	x0, #4294967296
	add	x17, x8, x9
	add	x18, x14, x9
	orr	x5, x24, #0x100000000
	cmp	x18, x17
	bfxil	x0, x13, #0, #32
	sub	x12, x12, x22
	csel	x1, x18, x17, lo
	subs	x1, x9, x1
	csel	x1, xzr, x1, lo
	subs	x17, x5, x17
	ldr	w5, [x23]
	csel	x17, xzr, x17, lo
	subs	x18, x0, x18
	add	x14, x1, x14
	csel	x18, xzr, x18, lo
	cmp	w16, w15
	orr	x0, x21, #0x100000000
	csel	w15, w16, w15, lo
	add	x16, x12, x9
	cmp	x17, x15
	csel	x15, x17, x15, lo
	add	x17, x4, x9
	cmp	x18, x15
	csel	x15, x18, x15, lo
	add	x18, x1, x8
	cmp	x15, x1
	add	x8, x15, x8
	mov	x1, x20
	csel	x15, x18, xzr, hi
	csel	x8, x8, xzr, hi
	csel	x14, x14, xzr, hi
	cmp	x17, x16
	stp	x15, x8, [x29, #-120]
	csel	x18, x17, x16, lo
	subs	x18, x9, x18
	bfxil	x9, x13, #32, #32
	csel	x13, xzr, x18, lo
	subs	x16, x0, x16
	mov	x0, x19
	csel	x16, xzr, x16, lo
	subs	x9, x9, x17
	add	x8, x13, x12
	csel	x9, xzr, x9, lo
	cmp	w11, w10
	csel	w10, w11, w10, lo
	cmp	x16, x10
	csel	x10, x16, x10, lo
	cmp	x9, x10
	csel	x9, x9, x10, lo
	add	x10, x13, x4
	sub	x4, x29, #120
	cmp	x9, x13
	add	x9, x9, x12
	csel	x8, x8, xzr, hi
	csel	x9, x9, xzr, hi
	stp	x14, x8, [x29, #-104]
	csel	x8, x10, xzr, hi
	stp	x9, x8, [x29, #-88]
	bl	"pix_raster::view::blit_overlap::<#d13018cf5d2c8821>"
	b	.LBB_9ba498_467
.LBB_9ba498_643:
	cbz	w24, .LBB_9ba498_467
	sub	x8, x18, x25
	mov	x9, #4294967296
	mov	x0, #4294967296
	add	x17, x8, x9
	add	x18, x14, x9
	orr	x5, x24, #0x100000000
	cmp	x18, x17
	bfxil	x0, x13, #0, #32
	sub	x12, x12, x22
	csel	x1, x18, x17, lo
	subs	x1, x9, x1
	csel	x1, xzr, x1, lo
	subs	x17, x5, x17
	ldrb	w5, [x23]
	csel	x17, xzr, x17, lo
	subs	x18, x0, x18
	add	x14, x1, x14
	csel	x18, xzr, x18, lo
	cmp	w16, w15
	orr	x0, x21, #0x100000000
	csel	w15, w16, w15, lo
	add	x16, x12, x9
	cmp	x17, x15
	csel	x15, x17, x15, lo
	add	x17, x4, x9
	cmp	x18, x15
	csel	x15, x18, x15, lo
	add	x18, x1, x8
	cmp	x15, x1
	add	x8, x15, x8
	mov	x1, x20
	csel	x15, x18, xzr, hi
	csel	x8, x8, xzr, hi
	csel	x14, x14, xzr, hi
	cmp	x17, x16
	stp	x15, x8, [x29, #-120]
	csel	x18, x17, x16, lo
	subs	x18, x9, x18
	bfxil	x9, x13, #32, #32
	csel	x13, xzr, x18, lo
	subs	x16, x0, x16
	mov	x0, x19
	csel	x16, xzr, x16, lo
	subs	x9, x9, x17
	add	x8, x13, x12
	csel	x9, xzr, x9, lo
	cmp	w11, w10
	csel	w10, w11, w10, lo
	cmp	x16, x10
	csel	x10, x16, x10, lo
	cmp	x9, x10
	csel	x9, x9, x10, lo
	add	x10, x13, x4
	sub	x4, x29, #120
	cmp	x9, x13
	add	x9, x9, x12
	csel	x8, x8, xzr, hi
	csel	x9, x9, xzr, hi
	stp	x14, x8, [x29, #-104]
	csel	x8, x10, xzr, hi
	stp	x9, x8, [x29, #-88]
	bl	"pix_raster::view::blit_overlap::<#b96d0594766ff04b>"
	b	.LBB_9ba498_467
.LBB_9ba498_645:
	cbz	w24, .LBB_9ba498_467
	sub	x8, x0, x25
	mov	x14, #4294967296
	orr	x13, x24, #0x100000000
	add	x8, x8, x14
	mov	x9, #-4294967296
	cmp	x8, x14
	add	x15, x8, x15
	csel	x11, x8, x14, hi
	cmp	x13, x15
	sub	x8, x12, x22
	csel	x13, x13, x15, lo
	add	x12, x11, x9
	add	x8, x8, x14
	cmp	x13, x11
	add	x10, x8, x10
	csel	x16, x12, xzr, hi
	cmp	x8, x14
	orr	x12, x21, #0x100000000
	csel	x8, x8, x14, hi
	cmp	x12, x10
	csel	x10, x12, x10, lo
	add	x12, x8, x9
	cmp	x10, x8
	csel	x8, x12, xzr, hi
	b.ls	.LBB_9ba498_467
	add	x9, x10, x9
	cmp	x9, x8
	b.ls	.LBB_9ba498_467
	mov	x10, #-4294967296
	cmp	x13, x11
	add	x10, x13, x10
	csel	x17, x10, xzr, hi
	subs	x10, x17, x16
	b.eq	.LBB_9ba498_467
	madd	x12, x8, x20, x16
	ldr	w11, [x2]
	lsl	x13, x20, #2
	and	x14, x10, #0xfffffffffffffff8
	sub	x16, x16, x17
	dup	v0.4s, w11
	add	x12, x19, x12, lsl #2
	add	x15, x12, #16
	b	.LBB_9ba498_651
.LBB_9ba498_650:
	add	x8, x8, #1
	add	x15, x15, x13
	add	x12, x12, x13
	cmp	x8, x9
	b.eq	.LBB_9ba498_467
.LBB_9ba498_651:
	cmp	x10, #8
	b.hs	.LBB_9ba498_653
	mov	x18, xzr
	b	.LBB_9ba498_656
.LBB_9ba498_653:
	mov	x17, x15
	and	x18, x10, #0xfffffffffffffff8
.LBB_9ba498_654:
	subs	x18, x18, #8
	stp	q0, q0, [x17, #-16]
	add	x17, x17, #32
	b.ne	.LBB_9ba498_654
	cmp	x10, x14
	and	x18, x10, #0xfffffffffffffff8
	b.eq	.LBB_9ba498_650
.LBB_9ba498_656:
	add	x17, x12, x18, lsl #2
	add	x18, x16, x18
.LBB_9ba498_657:
	adds	x18, x18, #1
	str	w11, [x17], #4
	b.lo	.LBB_9ba498_657
	b	.LBB_9ba498_650
.LBB_9ba498_658:
	cbz	w24, .LBB_9ba498_467
	sub	x8, x0, x25
	mov	x9, #4294967296
	mov	x1, #4294967296
	add	x18, x8, x9
	add	x0, x14, x9
	orr	x5, x24, #0x100000000
	cmp	x0, x18
	bfxil	x1, x13, #0, #32
	sub	x12, x12, x22
	csel	x4, x0, x18, lo
	subs	x4, x9, x4
	csel	x4, xzr, x4, lo
	subs	x18, x5, x18
	ldr	w5, [x23]
	csel	x18, xzr, x18, lo
	subs	x0, x1, x0
	add	x14, x4, x14
	csel	x0, xzr, x0, lo
	cmp	w16, w15
	orr	x1, x21, #0x100000000
	csel	w15, w16, w15, lo
	add	x16, x12, x9
	cmp	x18, x15
	csel	x15, x18, x15, lo
	add	x18, x17, x9
	cmp	x0, x15
	csel	x15, x0, x15, lo
	add	x0, x4, x8
	cmp	x15, x4
	add	x8, x15, x8
	sub	x4, x29, #120
	csel	x15, x0, xzr, hi
	csel	x8, x8, xzr, hi
	csel	x14, x14, xzr, hi
	cmp	x18, x16
	stp	x15, x8, [x29, #-120]
	csel	x0, x18, x16, lo
	subs	x0, x9, x0
	bfxil	x9, x13, #32, #32
	csel	x13, xzr, x0, lo
	subs	x16, x1, x16
	mov	x0, x19
	csel	x16, xzr, x16, lo
	subs	x9, x9, x18
	add	x8, x13, x12
	csel	x9, xzr, x9, lo
	cmp	w11, w10
	mov	x1, x20
	csel	w10, w11, w10, lo
	cmp	x16, x10
	csel	x10, x16, x10, lo
	cmp	x9, x10
	csel	x9, x9, x10, lo
	add	x10, x13, x17
	cmp	x9, x13
	add	x9, x9, x12
	csel	x8, x8, xzr, hi
	csel	x9, x9, xzr, hi
	stp	x14, x8, [x29, #-104]
	csel	x8, x10, xzr, hi
	stp	x9, x8, [x29, #-88]
	bl	"pix_raster::view::blit_overlap::<#a1852713be2e9a48>"
	b	.LBB_9ba498_467
.LBB_9ba498_660:
	cbz	w24, .LBB_9ba498_467
	sub	x8, x0, x25
	mov	x14, #4294967296
	orr	x13, x24, #0x100000000
	add	x8, x8, x14
	mov	x9, #-4294967296
	cmp	x8, x14
	add	x15, x8, x15
	csel	x11, x8, x14, hi
	cmp	x13, x15
	sub	x8, x12, x22
	csel	x13, x13, x15, lo
	add	x12, x11, x9
	add	x8, x8, x14
	cmp	x13, x11
	add	x10, x8, x10
	orr	x15, x21, #0x100000000
	csel	x12, x12, xzr, hi
	cmp	x8, x14
	csel	x8, x8, x14, hi
	cmp	x15, x10
	csel	x10, x15, x10, lo
	add	x14, x8, x9
	cmp	x10, x8
	csel	x8, x14, xzr, hi
	b.ls	.LBB_9ba498_467
	add	x9, x10, x9
	cmp	x9, x8
	b.ls	.LBB_9ba498_467
	mov	x10, #-4294967296
	cmp	x13, x11
	ldr	w11, [x2]
	add	x10, x13, x10
	csel	x17, x10, xzr, hi
	sub	x10, x17, x12
	cmp	x10, #33
	b.lo	.LBB_9ba498_840
	madd	x16, x8, x20, x12
	and	x13, x10, #0xfffffffffffffff0
	ubfx	x17, x10, #2, #2
	lsl	x14, x13, #2
	lsl	x18, x10, #2
	dup	v0.4s, w11
	lsr	x15, x10, #4
	and	x0, x10, #0xc
	add	x3, x14, x17, lsl #4
	and	x17, x18, #0x20
	lsl	x18, x20, #2
	add	x2, x19, x16, lsl #2
	and	x16, x10, #0xf
	add	x1, x2, #32
	add	x2, x2, x3
	b	.LBB_9ba498_666
.LBB_9ba498_665:
	add	x8, x8, #1
	add	x1, x1, x18
	add	x2, x2, x18
	cmp	x8, x9
	b.eq	.LBB_9ba498_467
.LBB_9ba498_666:
	mul	x3, x8, x20
	mov	x4, x1
	mov	x5, x15
	add	x3, x3, x12
	add	x3, x19, x3, lsl #2
.LBB_9ba498_667:
	subs	x5, x5, #1
	stp	q0, q0, [x4, #-32]
	stp	q0, q0, [x4], #64
	b.ne	.LBB_9ba498_667
	cmp	x13, x10
	b.eq	.LBB_9ba498_665
	add	x3, x3, x14
	tbnz	w10, #3, .LBB_9ba498_672
	tbnz	w10, #2, .LBB_9ba498_673
.LBB_9ba498_671:
	cmp	x16, x0
	b.ls	.LBB_9ba498_665
	b	.LBB_9ba498_674
.LBB_9ba498_672:
	stp	q0, q0, [x3]
	tbz	w10, #2, .LBB_9ba498_671
.LBB_9ba498_673:
	str	q0, [x3, x17]
	cmp	x16, x0
	b.ls	.LBB_9ba498_665
.LBB_9ba498_674:
	mov	x3, x2
	sub	x4, x16, x0
.LBB_9ba498_675:
	subs	x4, x4, #1
	str	w11, [x3], #4
	b.ne	.LBB_9ba498_675
	b	.LBB_9ba498_665
.LBB_9ba498_676:
	cbz	w24, .LBB_9ba498_467
	sub	x8, x0, x25
	mov	x9, #4294967296
	mov	x1, #4294967296
	add	x18, x8, x9
	add	x0, x14, x9
	orr	x5, x24, #0x100000000
	cmp	x0, x18
	bfxil	x1, x13, #0, #32
	sub	x12, x12, x22
	csel	x4, x0, x18, lo
	subs	x4, x9, x4
	csel	x4, xzr, x4, lo
	subs	x18, x5, x18
	ldrb	w5, [x23]
	csel	x18, xzr, x18, lo
	subs	x0, x1, x0
	add	x14, x4, x14
	csel	x0, xzr, x0, lo
	cmp	w16, w15
	orr	x1, x21, #0x100000000
	csel	w15, w16, w15, lo
	add	x16, x12, x9
	cmp	x18, x15
	csel	x15, x18, x15, lo
	add	x18, x17, x9
	cmp	x0, x15
	csel	x15, x0, x15, lo
	add	x0, x4, x8
	cmp	x15, x4
	add	x8, x15, x8
	sub	x4, x29, #120
	csel	x15, x0, xzr, hi
	csel	x8, x8, xzr, hi
	csel	x14, x14, xzr, hi
	cmp	x18, x16
	stp	x15, x8, [x29, #-120]
	csel	x0, x18, x16, lo
	subs	x0, x9, x0
	bfxil	x9, x13, #32, #32
	csel	x13, xzr, x0, lo
	subs	x16, x1, x16
	mov	x0, x19
	csel	x16, xzr, x16, lo
	subs	x9, x9, x18
	add	x8, x13, x12
	csel	x9, xzr, x9, lo
	cmp	w11, w10
	mov	x1, x20
	csel	w10, w11, w10, lo
	cmp	x16, x10
	csel	x10, x16, x10, lo
	cmp	x9, x10
	csel	x9, x9, x10, lo
	add	x10, x13, x17
	cmp	x9, x13
	add	x9, x9, x12
	csel	x8, x8, xzr, hi
	csel	x9, x9, xzr, hi
	stp	x14, x8, [x29, #-104]
	csel	x8, x10, xzr, hi
	stp	x9, x8, [x29, #-88]
	bl	"pix_raster::view::blit_overlap::<#c5504568367a188d>"
	b	.LBB_9ba498_467
.LBB_9ba498_678:
	cbz	w23, .LBB_9ba498_467
	sub	x14, x10, x24
	mov	x12, #4294967296
	mov	x18, #4294967296
	ldpsw	x13, x10, [x29, #-184]
	add	x15, x14, x12
	ldp	x17, x3, [x29, #-200]
	orr	x1, x23, #0x100000000
	sub	x9, x9, x22
	add	x16, x13, x12
	cmp	x16, x15
	bfxil	x18, x17, #0, #32
	csel	x0, x16, x15, lo
	subs	x0, x12, x0
	csel	x0, xzr, x0, lo
	subs	x15, x1, x15
	csel	x15, xzr, x15, lo
	subs	x16, x18, x16
	add	x1, x0, x14
	ldp	w4, w18, [x29, #-176]
	csel	x16, xzr, x16, lo
	add	x13, x0, x13
	cmp	w4, w11
	csel	w11, w4, w11, lo
	cmp	x15, x11
	csel	x11, x15, x11, lo
	add	x15, x9, x12
	cmp	x16, x11
	csel	x11, x16, x11, lo
	add	x16, x10, x12
	cmp	x11, x0
	add	x11, x11, x14
	csel	x14, x1, xzr, hi
	csel	x11, x11, xzr, hi
	csel	x13, x13, xzr, hi
	cmp	x16, x15
	orr	x1, x21, #0x100000000
	stp	x14, x11, [x29, #-120]
	csel	x0, x16, x15, lo
	subs	x0, x12, x0
	bfxil	x12, x17, #32, #32
	csel	x17, xzr, x0, lo
	subs	x15, x1, x15
	csel	x15, xzr, x15, lo
	subs	x12, x12, x16
	add	x11, x17, x9
	csel	x12, xzr, x12, lo
	cmp	w18, w8
	add	x10, x17, x10
	csel	w8, w18, w8, lo
	cmp	x15, x8
	csel	x8, x15, x8, lo
	cmp	x12, x8
	csel	x8, x12, x8, lo
	cmp	x8, x17
	add	x8, x8, x9
	csel	x9, x11, xzr, hi
	csel	x8, x8, xzr, hi
	stp	x13, x9, [x29, #-104]
	csel	x9, x10, xzr, hi
	stp	x8, x9, [x29, #-88]
	b	.LBB_9ba498_466
.LBB_9ba498_680:
	cbz	w24, .LBB_9ba498_467
	sub	x8, x18, x25
	mov	x14, #4294967296
	orr	x13, x24, #0x100000000
	add	x8, x8, x14
	mov	x9, #-4294967296
	cmp	x8, x14
	add	x15, x8, x15
	csel	x11, x8, x14, hi
	cmp	x13, x15
	sub	x8, x12, x22
	csel	x13, x13, x15, lo
	add	x12, x11, x9
	add	x8, x8, x14
	cmp	x13, x11
	add	x10, x8, x10
	csel	x16, x12, xzr, hi
	cmp	x8, x14
	orr	x12, x21, #0x100000000
	csel	x8, x8, x14, hi
	cmp	x12, x10
	csel	x10, x12, x10, lo
	add	x12, x8, x9
	cmp	x10, x8
	csel	x8, x12, xzr, hi
	b.ls	.LBB_9ba498_467
	add	x9, x10, x9
	cmp	x9, x8
	b.ls	.LBB_9ba498_467
	mov	x10, #-4294967296
	cmp	x13, x11
	add	x10, x13, x10
	csel	x17, x10, xzr, hi
	subs	x10, x17, x16
	b.eq	.LBB_9ba498_467
	madd	x12, x8, x20, x16
	ldr	w11, [x2]
	lsl	x13, x20, #2
	and	x14, x10, #0xfffffffffffffff8
	sub	x16, x16, x17
	dup	v0.4s, w11
	add	x12, x19, x12, lsl #2
	add	x15, x12, #16
	b	.LBB_9ba498_686
.LBB_9ba498_685:
	add	x8, x8, #1
	add	x15, x15, x13
	add	x12, x12, x13
	cmp	x8, x9
	b.eq	.LBB_9ba498_467
.LBB_9ba498_686:
	cmp	x10, #8
	b.hs	.LBB_9ba498_688
	mov	x18, xzr
	b	.LBB_9ba498_691
.LBB_9ba498_688:
	mov	x17, x15
	and	x18, x10, #0xfffffffffffffff8
.LBB_9ba498_689:
	subs	x18, x18, #8
	stp	q0, q0, [x17, #-16]
	add	x17, x17, #32
	b.ne	.LBB_9ba498_689
	cmp	x10, x14
	and	x18, x10, #0xfffffffffffffff8
	b.eq	.LBB_9ba498_685
.LBB_9ba498_691:
	add	x17, x12, x18, lsl #2
	add	x18, x16, x18
.LBB_9ba498_692:
	adds	x18, x18, #1
	str	w11, [x17], #4
	b.lo	.LBB_9ba498_692
	b	.LBB_9ba498_685
.LBB_9ba498_693:
	cbz	w24, .LBB_9ba498_467
	sub	x8, x18, x25
	mov	x9, #4294967296
	mov	x0, #4294967296
	add	x17, x8, x9
	add	x18, x14, x9
	orr	x5, x24, #0x100000000
	cmp	x18, x17
	bfxil	x0, x13, #0, #32
	sub	x12, x12, x22
	csel	x1, x18, x17, lo
	subs	x1, x9, x1
	csel	x1, xzr, x1, lo
	subs	x17, x5, x17
	ldr	w5, [x23]
	csel	x17, xzr, x17, lo
	subs	x18, x0, x18
	add	x14, x1, x14
	csel	x18, xzr, x18, lo
	cmp	w16, w15
	orr	x0, x21, #0x100000000
	csel	w15, w16, w15, lo
	add	x16, x12, x9
	cmp	x17, x15
	csel	x15, x17, x15, lo
	add	x17, x4, x9
	cmp	x18, x15
	csel	x15, x18, x15, lo
	add	x18, x1, x8
	cmp	x15, x1
	add	x8, x15, x8
	mov	x1, x20
	csel	x15, x18, xzr, hi
	csel	x8, x8, xzr, hi
	csel	x14, x14, xzr, hi
	cmp	x17, x16
	stp	x15, x8, [x29, #-120]
	csel	x18, x17, x16, lo
	subs	x18, x9, x18
	bfxil	x9, x13, #32, #32
	csel	x13, xzr, x18, lo
	subs	x16, x0, x16
	mov	x0, x19
	csel	x16, xzr, x16, lo
	subs	x9, x9, x17
	add	x8, x13, x12
	csel	x9, xzr, x9, lo
	cmp	w11, w10
	csel	w10, w11, w10, lo
	cmp	x16, x10
	csel	x10, x16, x10, lo
	cmp	x9, x10
	csel	x9, x9, x10, lo
	add	x10, x13, x4
	sub	x4, x29, #120
	cmp	x9, x13
	add	x9, x9, x12
	csel	x8, x8, xzr, hi
	csel	x9, x9, xzr, hi
	stp	x14, x8, [x29, #-104]
	csel	x8, x10, xzr, hi
	stp	x9, x8, [x29, #-88]
	bl	"pix_raster::view::blit_overlap::<#c351f49995d5d0e6>"
	b	.LBB_9ba498_467
.LBB_9ba498_695:
	cbz	w24, .LBB_9ba498_467
	sub	x8, x18, x25
	mov	x9, #4294967296
	mov	x0, #4294967296
	add	x17, x8, x9
	add	x18, x14, x9
	orr	x5, x24, #0x100000000
	cmp	x18, x17
	bfxil	x0, x13, #0, #32
	sub	x12, x12, x22
	csel	x1, x18, x17, lo
	subs	x1, x9, x1
	csel	x1, xzr, x1, lo
	subs	x17, x5, x17
	ldrb	w5, [x23]
	csel	x17, xzr, x17, lo
	subs	x18, x0, x18
	add	x14, x1, x14
	csel	x18, xzr, x18, lo
	cmp	w16, w15
	orr	x0, x21, #0x100000000
	csel	w15, w16, w15, lo
	add	x16, x12, x9
	cmp	x17, x15
	csel	x15, x17, x15, lo
	add	x17, x4, x9
	cmp	x18, x15
	csel	x15, x18, x15, lo
	add	x18, x1, x8
	cmp	x15, x1
	add	x8, x15, x8
	mov	x1, x20
	csel	x15, x18, xzr, hi
	csel	x8, x8, xzr, hi
	csel	x14, x14, xzr, hi
	cmp	x17, x16
	stp	x15, x8, [x29, #-120]
	csel	x18, x17, x16, lo
	subs	x18, x9, x18
	bfxil	x9, x13, #32, #32
	csel	x13, xzr, x18, lo
	subs	x16, x0, x16
	mov	x0, x19
	csel	x16, xzr, x16, lo
	subs	x9, x9, x17
	add	x8, x13, x12
	csel	x9, xzr, x9, lo
	cmp	w11, w10
	csel	w10, w11, w10, lo
	cmp	x16, x10
	csel	x10, x16, x10, lo
	cmp	x9, x10
	csel	x9, x9, x10, lo
	add	x10, x13, x4
	sub	x4, x29, #120
	cmp	x9, x13
	add	x9, x9, x12
	csel	x8, x8, xzr, hi
	csel	x9, x9, xzr, hi
	stp	x14, x8, [x29, #-104]
	csel	x8, x10, xzr, hi
	stp	x9, x8, [x29, #-88]
	bl	"pix_raster::view::blit_overlap::<#69746525898a3d94>"
	b	.LBB_9ba498_467
.LBB_9ba498_697:
	cbz	w24, .LBB_9ba498_467
	sub	x8, x18, x25
	mov	x14, #4294967296
	orr	x13, x24, #0x100000000
	add	x8, x8, x14
	mov	x9, #-4294967296
	cmp	x8, x14
	add	x15, x8, x15
	csel	x11, x8, x14, hi
	cmp	x13, x15
	sub	x8, x12, x22
	csel	x13, x13, x15, lo
	add	x12, x11, x9
	add	x8, x8, x14
	cmp	x13, x11
	add	x10, x8, x10
	csel	x16, x12, xzr, hi
	cmp	x8, x14
	orr	x12, x21, #0x100000000
	csel	x8, x8, x14, hi
	cmp	x12, x10
	csel	x10, x12, x10, lo
	add	x12, x8, x9
	cmp	x10, x8
	csel	x8, x12, xzr, hi
	b.ls	.LBB_9ba498_467
	add	x9, x10, x9
	cmp	x9, x8
	b.ls	.LBB_9ba498_467
	mov	x10, #-4294967296
	cmp	x13, x11
	add	x10, x13, x10
	csel	x17, x10, xzr, hi
	subs	x10, x17, x16
	b.eq	.LBB_9ba498_467
	madd	x12, x8, x20, x16
	ldr	w11, [x2]
	lsl	x13, x20, #2
	and	x14, x10, #0xfffffffffffffff8
	sub	x16, x16, x17
	dup	v0.4s, w11
	add	x12, x19, x12, lsl #2
	add	x15, x12, #16
	b	.LBB_9ba498_703
.LBB_9ba498_702:
	add	x8, x8, #1
	add	x15, x15, x13
	add	x12, x12, x13
	cmp	x8, x9
	b.eq	.LBB_9ba498_467
.LBB_9ba498_703:
	cmp	x10, #8
	b.hs	.LBB_9ba498_705
	mov	x18, xzr
	b	.LBB_9ba498_708
.LBB_9ba498_705:
	mov	x17, x15
	and	x18, x10, #0xfffffffffffffff8
.LBB_9ba498_706:
	subs	x18, x18, #8
	stp	q0, q0, [x17, #-16]
	add	x17, x17, #32
	b.ne	.LBB_9ba498_706
	cmp	x10, x14
	and	x18, x10, #0xfffffffffffffff8
	b.eq	.LBB_9ba498_702
.LBB_9ba498_708:
	add	x17, x12, x18, lsl #2
	add	x18, x16, x18
.LBB_9ba498_709:
	adds	x18, x18, #1
	str	w11, [x17], #4
	b.lo	.LBB_9ba498_709
	b	.LBB_9ba498_702
.LBB_9ba498_710:
	cbz	w24, .LBB_9ba498_467
	sub	x8, x18, x25
	mov	x9, #4294967296
	mov	x0, #4294967296
	add	x17, x8, x9
	add	x18, x14, x9
	orr	x5, x24, #0x100000000
	cmp	x18, x17
	bfxil	x0, x13, #0, #32
	sub	x12, x12, x22
	csel	x1, x18, x17, lo
	subs	x1, x9, x1
	csel	x1, xzr, x1, lo
	subs	x17, x5, x17
	ldr	w5, [x23]
	csel	x17, xzr, x17, lo
	subs	x18, x0, x18
	add	x14, x1, x14
	csel	x18, xzr, x18, lo
	cmp	w16, w15
	orr	x0, x21, #0x100000000
	csel	w15, w16, w15, lo
	add	x16, x12, x9
	cmp	x17, x15
	csel	x15, x17, x15, lo
	add	x17, x4, x9
	cmp	x18, x15
	csel	x15, x18, x15, lo
	add	x18, x1, x8
	cmp	x15, x1
	add	x8, x15, x8
	mov	x1, x20
	csel	x15, x18, xzr, hi
	csel	x8, x8, xzr, hi
	csel	x14, x14, xzr, hi
	cmp	x17, x16
	stp	x15, x8, [x29, #-120]
	csel	x18, x17, x16, lo
	subs	x18, x9, x18
	bfxil	x9, x13, #32, #32
	csel	x13, xzr, x18, lo
	subs	x16, x0, x16
	mov	x0, x19
	csel	x16, xzr, x16, lo
	subs	x9, x9, x17
	add	x8, x13, x12
	csel	x9, xzr, x9, lo
	cmp	w11, w10
	csel	w10, w11, w10, lo
	cmp	x16, x10
	csel	x10, x16, x10, lo
	cmp	x9, x10
	csel	x9, x9, x10, lo
	add	x10, x13, x4
	sub	x4, x29, #120
	cmp	x9, x13
	add	x9, x9, x12
	csel	x8, x8, xzr, hi
	csel	x9, x9, xzr, hi
	stp	x14, x8, [x29, #-104]
	csel	x8, x10, xzr, hi
	stp	x9, x8, [x29, #-88]
	bl	"pix_raster::view::blit_overlap::<#7b602135e49fc3a4>"
	b	.LBB_9ba498_467
.LBB_9ba498_712:
	cbz	w24, .LBB_9ba498_467
	sub	x8, x18, x25
	mov	x9, #4294967296
	orr	x14, x24, #0x100000000
	add	x8, x8, x9
	mov	x11, #-4294967296
	cmp	x8, x9
	add	x15, x8, x15
	csel	x13, x8, x9, hi
	cmp	x14, x15
	sub	x8, x12, x22
	csel	x14, x14, x15, lo
	add	x12, x13, x11
	add	x15, x8, x9
	cmp	x14, x13
	add	x10, x15, x10
	csel	x8, x12, xzr, hi
	cmp	x15, x9
	orr	x12, x21, #0x100000000
	csel	x9, x15, x9, hi
	cmp	x12, x10
	csel	x10, x12, x10, lo
	add	x12, x9, x11
	cmp	x10, x9
	csel	x9, x12, xzr, hi
	b.ls	.LBB_9ba498_467
	add	x10, x10, x11
	cmp	x10, x9
	b.ls	.LBB_9ba498_467
	ldr	w3, [x2]
	adrp	x12, .LCPI_9ba498_12
	cmp	x14, x13
	ldr	q1, [x12, :lo12:.LCPI_9ba498_12]
	mov	x12, #-4294967296
	madd	x0, x9, x20, x8
	fmov	s0, w3
	lsr	w11, w3, #16
	add	x12, x14, x12
	csel	x12, x12, xzr, hi
	lsl	x2, x20, #2
	sub	x12, x12, x8
	mov	v0.s[1], w3
	lsl	x18, x12, #2
	and	x14, x12, #0xfffffffffffffff0
	lsr	x1, x14, #4
	add	x6, x19, x0, lsl #2
	lsr	x13, x12, #4
	and	x5, x18, #0x30
	lsl	x16, x14, #2
	ubfx	w0, w3, #8, #8
	bfi	x5, x1, #6, #58
	ubfx	w1, w3, #16, #8
	and	x15, x12, #0xf
	mov	v0.s[2], w11
	lsr	w11, w3, #24
	and	x17, x18, #0x20
	and	x18, x12, #0xc
	and	w3, w3, #0xff
	add	x4, x6, #32
	add	x5, x6, x5
	mov	v0.s[3], w11
	ushl	v0.4s, v0.4s, v1.4s
	uzp1	v0.8h, v0.8h, v0.8h
	uzp1	v0.16b, v0.16b, v0.16b
	ushr	v1.8h, v0.8h, #8
	bic	v0.8h, #255, lsl #8
	b	.LBB_9ba498_717
.LBB_9ba498_716:
	add	x9, x9, #1
	add	x4, x4, x2
	add	x5, x5, x2
	cmp	x9, x10
	b.eq	.LBB_9ba498_467
.LBB_9ba498_717:
	cbz	x13, .LBB_9ba498_720
	mov	x6, x4
	mov	x7, x13
.LBB_9ba498_719:
	ldp	q2, q3, [x6, #-32]
	adrp	x21, .LCPI_9ba498_8
	ldp	q4, q5, [x6]
	movi	v7.8h, #128
	ldr	q6, [x21, :lo12:.LCPI_9ba498_8]
	movi	v16.8h, #128
	movi	v18.8h, #128
	ushr	v2.4s, v2.4s, #24
	ushr	v3.4s, v3.4s, #24
	movi	v19.8h, #128
	ushr	v4.4s, v4.4s, #24
	ushr	v5.4s, v5.4s, #24
	movi	v17.8h, #128
	movi	v20.8h, #128
	movi	v21.8h, #128
	movi	v22.8h, #128
	tbl	v2.16b, { v2.16b }, v6.16b
	tbl	v3.16b, { v3.16b }, v6.16b
	adrp	x21, .LCPI_9ba498_0
	tbl	v4.16b, { v4.16b }, v6.16b
	tbl	v5.16b, { v5.16b }, v6.16b
	subs	x7, x7, #1
	movi	v6.16b, #1
	mla	v7.8h, v1.8h, v2.8h
	mla	v16.8h, v1.8h, v3.8h
	mla	v17.8h, v0.8h, v2.8h
	mla	v18.8h, v1.8h, v4.8h
	mla	v19.8h, v1.8h, v5.8h
	mla	v20.8h, v0.8h, v3.8h
	mla	v21.8h, v0.8h, v5.8h
	mla	v22.8h, v0.8h, v4.8h
	umull2	v2.4s, v7.8h, v6.8h
	umull	v3.4s, v7.4h, v6.4h
	umull2	v4.4s, v16.8h, v6.8h
	umull	v5.4s, v16.4h, v6.4h
	umull2	v16.4s, v18.8h, v6.8h
	umull	v18.4s, v18.4h, v6.4h
	umull2	v23.4s, v19.8h, v6.8h
	umull	v19.4s, v19.4h, v6.4h
	umull2	v7.4s, v17.8h, v6.8h
	umull	v17.4s, v17.4h, v6.4h
	umull2	v24.4s, v20.8h, v6.8h
	uzp2	v2.8h, v3.8h, v2.8h
	umull	v3.4s, v20.4h, v6.4h
	umull2	v20.4s, v22.8h, v6.8h
	uzp2	v4.8h, v5.8h, v4.8h
	ldr	q5, [x21, :lo12:.LCPI_9ba498_0]
	umull	v22.4s, v22.4h, v6.4h
	uzp2	v16.8h, v18.8h, v16.8h
	umull2	v18.4s, v21.8h, v6.8h
	umull	v6.4s, v21.4h, v6.4h
	uzp2	v19.8h, v19.8h, v23.8h
	uzp2	v7.8h, v17.8h, v7.8h
	tbl	v2.16b, { v2.16b }, v5.16b
	uzp2	v3.8h, v3.8h, v24.8h
	tbl	v4.16b, { v4.16b }, v5.16b
	uzp2	v17.8h, v22.8h, v20.8h
	tbl	v16.16b, { v16.16b }, v5.16b
	uzp2	v6.8h, v6.8h, v18.8h
	tbl	v5.16b, { v19.16b }, v5.16b
	orr	v2.16b, v2.16b, v7.16b
	orr	v3.16b, v4.16b, v3.16b
	orr	v4.16b, v16.16b, v17.16b
	orr	v5.16b, v5.16b, v6.16b
	stp	q2, q3, [x6, #-32]
	stp	q4, q5, [x6], #64
	b.ne	.LBB_9ba498_719
.LBB_9ba498_720:
	cmp	x14, x12
	b.eq	.LBB_9ba498_716
	mul	x6, x9, x20
	add	x6, x6, x8
	add	x6, x19, x6, lsl #2
	add	x6, x6, x16
	tbnz	w12, #3, .LBB_9ba498_724
	tbnz	w12, #2, .LBB_9ba498_725
.LBB_9ba498_723:
	cmp	x15, x18
	b.ls	.LBB_9ba498_716
	b	.LBB_9ba498_726
.LBB_9ba498_724:
	ldp	q2, q3, [x6]
	adrp	x7, .LCPI_9ba498_8
	ldr	q4, [x7, :lo12:.LCPI_9ba498_8]
	movi	v5.8h, #128
	movi	v6.8h, #128
	movi	v7.8h, #128
	movi	v16.16b, #1
	adrp	x7, .LCPI_9ba498_0
	ushr	v2.4s, v2.4s, #24
	ushr	v3.4s, v3.4s, #24
	tbl	v2.16b, { v2.16b }, v4.16b
	tbl	v3.16b, { v3.16b }, v4.16b
	movi	v4.8h, #128
	mla	v5.8h, v1.8h, v2.8h
	mla	v6.8h, v1.8h, v3.8h
	mla	v4.8h, v0.8h, v2.8h
	mla	v7.8h, v0.8h, v3.8h
	umull2	v2.4s, v5.8h, v16.8h
	umull	v3.4s, v5.4h, v16.4h
	umull2	v5.4s, v6.8h, v16.8h
	umull	v6.4s, v6.4h, v16.4h
	umull2	v17.4s, v4.8h, v16.8h
	umull	v4.4s, v4.4h, v16.4h
	uzp2	v2.8h, v3.8h, v2.8h
	umull2	v3.4s, v7.8h, v16.8h
	umull	v7.4s, v7.4h, v16.4h
	uzp2	v5.8h, v6.8h, v5.8h
	ldr	q6, [x7, :lo12:.LCPI_9ba498_0]
	uzp2	v4.8h, v4.8h, v17.8h
	tbl	v2.16b, { v2.16b }, v6.16b
	uzp2	v3.8h, v7.8h, v3.8h
	tbl	v5.16b, { v5.16b }, v6.16b
	orr	v2.16b, v2.16b, v4.16b
	orr	v3.16b, v5.16b, v3.16b
	stp	q2, q3, [x6]
	tbz	w12, #2, .LBB_9ba498_723
.LBB_9ba498_725:
	ldr	q2, [x6, x17]
	adrp	x7, .LCPI_9ba498_9
	movi	v5.8h, #128
	ldr	q3, [x7, :lo12:.LCPI_9ba498_9]
	movi	v6.16b, #1
	adrp	x7, .LCPI_9ba498_0
	ushr	v2.4s, v2.4s, #24
	tbl	v2.16b, { v2.16b }, v3.16b
	movi	v3.8h, #128
	ushr	v4.8h, v2.8h, #8
	bic	v2.8h, #255, lsl #8
	mla	v3.8h, v4.8h, v1.8h
	mla	v5.8h, v2.8h, v0.8h
	umull2	v2.4s, v3.8h, v6.8h
	umull	v3.4s, v3.4h, v6.4h
	umull2	v4.4s, v5.8h, v6.8h
	umull	v5.4s, v5.4h, v6.4h
	uzp2	v2.8h, v3.8h, v2.8h
	ldr	q3, [x7, :lo12:.LCPI_9ba498_0]
	uzp2	v4.8h, v5.8h, v4.8h
	tbl	v2.16b, { v2.16b }, v3.16b
	orr	v2.16b, v2.16b, v4.16b
	str	q2, [x6, x17]
	cmp	x15, x18
	b.ls	.LBB_9ba498_716
.LBB_9ba498_726:
	mov	x6, x5
	sub	x7, x15, x18
.LBB_9ba498_727:
	ldrb	w21, [x6, #3]
	mov	w22, #128
	subs	x7, x7, #1
	madd	w23, w1, w21, w22
	madd	w24, w21, w11, w22
	madd	w26, w0, w21, w22
	and	w25, w23, #0xff00
	madd	w21, w3, w21, w22
	add	w23, w23, w25, lsr #8
	and	w25, w24, #0xff00
	add	w24, w24, w25, lsr #8
	lsl	w23, w23, #8
	lsr	w22, w24, #8
	and	w24, w26, #0xff00
	and	w23, w23, #0xff0000
	add	w24, w26, w24, lsr #8
	bfi	w23, w22, #24, #8
	and	w22, w21, #0xff00
	add	w21, w21, w22, lsr #8
	bfxil	w23, w24, #0, #16
	bfxil	w23, w21, #8, #8
	str	w23, [x6], #4
	b.ne	.LBB_9ba498_727
	b	.LBB_9ba498_716
.LBB_9ba498_728:
	cbz	w24, .LBB_9ba498_467
	sub	x8, x18, x25
	mov	x9, #4294967296
	mov	x0, #4294967296
	add	x17, x8, x9
	add	x18, x14, x9
	orr	x5, x24, #0x100000000
	cmp	x18, x17
	bfxil	x0, x13, #0, #32
	sub	x12, x12, x22
	csel	x1, x18, x17, lo
	subs	x1, x9, x1
	csel	x1, xzr, x1, lo
	subs	x17, x5, x17
	ldrb	w5, [x23]
	csel	x17, xzr, x17, lo
	subs	x18, x0, x18
	add	x14, x1, x14
	csel	x18, xzr, x18, lo
	cmp	w16, w15
	orr	x0, x21, #0x100000000
	csel	w15, w16, w15, lo
	add	x16, x12, x9
	cmp	x17, x15
	csel	x15, x17, x15, lo
	add	x17, x4, x9
	cmp	x18, x15
	csel	x15, x18, x15, lo
	add	x18, x1, x8
	cmp	x15, x1
	add	x8, x15, x8
	mov	x1, x20
	csel	x15, x18, xzr, hi
	csel	x8, x8, xzr, hi
	csel	x14, x14, xzr, hi
	cmp	x17, x16
	stp	x15, x8, [x29, #-120]
	csel	x18, x17, x16, lo
	subs	x18, x9, x18
	bfxil	x9, x13, #32, #32
	csel	x13, xzr, x18, lo
	subs	x16, x0, x16
	mov	x0, x19
	csel	x16, xzr, x16, lo
	subs	x9, x9, x17
	add	x8, x13, x12
	csel	x9, xzr, x9, lo
	cmp	w11, w10
	csel	w10, w11, w10, lo
	cmp	x16, x10
	csel	x10, x16, x10, lo
	cmp	x9, x10
	csel	x9, x9, x10, lo
	add	x10, x13, x4
	sub	x4, x29, #120
	cmp	x9, x13
	add	x9, x9, x12
	csel	x8, x8, xzr, hi
	csel	x9, x9, xzr, hi
	stp	x14, x8, [x29, #-104]
	csel	x8, x10, xzr, hi
	stp	x9, x8, [x29, #-88]
	bl	"pix_raster::view::blit_overlap::<#2e32b78ff97838bb>"
	b	.LBB_9ba498_467
.LBB_9ba498_730:
	cbz	w23, .LBB_9ba498_467
	sub	x8, x0, x24
	mov	x14, #4294967296
	orr	x13, x23, #0x100000000
	add	x8, x8, x14
	mov	x9, #-4294967296
	cmp	x8, x14
	add	x15, x8, x16
	csel	x11, x8, x14, hi
	cmp	x13, x15
	sub	x8, x12, x22
	csel	x13, x13, x15, lo
	add	x12, x11, x9
	add	x8, x8, x14
	cmp	x13, x11
	add	x10, x8, x10
	csel	x16, x12, xzr, hi
	cmp	x8, x14
	orr	x12, x21, #0x100000000
	csel	x8, x8, x14, hi
	cmp	x12, x10
	csel	x10, x12, x10, lo
	add	x12, x8, x9
	cmp	x10, x8
	csel	x8, x12, xzr, hi
	b.ls	.LBB_9ba498_467
	add	x9, x10, x9
	cmp	x9, x8
	b.ls	.LBB_9ba498_467
	mov	x10, #-4294967296
	cmp	x13, x11
	add	x10, x13, x10
	csel	x17, x10, xzr, hi
	subs	x10, x17, x16
	b.eq	.LBB_9ba498_467
	madd	x12, x8, x20, x16
	ldr	w11, [x2]
	lsl	x13, x20, #2
	and	x14, x10, #0xfffffffffffffff8
	sub	x16, x16, x17
	dup	v0.4s, w11
	add	x12, x19, x12, lsl #2
	add	x15, x12, #16
	b	.LBB_9ba498_736
.LBB_9ba498_735:
	add	x8, x8, #1
	add	x15, x15, x13
	add	x12, x12, x13
	cmp	x8, x9
	b.eq	.LBB_9ba498_467
.LBB_9ba498_736:
	cmp	x10, #8
	b.hs	.LBB_9ba498_738
	mov	x18, xzr
	b	.LBB_9ba498_741
.LBB_9ba498_738:
	mov	x17, x15
	and	x18, x10, #0xfffffffffffffff8
.LBB_9ba498_739:
	subs	x18, x18, #8
	stp	q0, q0, [x17, #-16]
	add	x17, x17, #32
	b.ne	.LBB_9ba498_739
	cmp	x10, x14
	and	x18, x10, #0xfffffffffffffff8
	b.eq	.LBB_9ba498_735
.LBB_9ba498_741:
	add	x17, x12, x18, lsl #2
	add	x18, x16, x18
.LBB_9ba498_742:
	adds	x18, x18, #1
	str	w11, [x17], #4
	b.lo	.LBB_9ba498_742
	b	.LBB_9ba498_735
.LBB_9ba498_743:
	cbz	w23, .LBB_9ba498_467
	sub	x8, x0, x24
	mov	x9, #4294967296
	mov	x1, #4294967296
	add	x18, x8, x9
	add	x0, x15, x9
	orr	x6, x23, #0x100000000
	cmp	x0, x18
	bfxil	x1, x14, #0, #32
	sub	x12, x12, x22
	csel	x5, x0, x18, lo
	subs	x5, x9, x5
	csel	x5, xzr, x5, lo
	subs	x18, x6, x18
	csel	x18, xzr, x18, lo
	subs	x0, x1, x0
	add	x15, x5, x15
	csel	x0, xzr, x0, lo
	cmp	w17, w16
	orr	x1, x21, #0x100000000
	csel	w16, w17, w16, lo
	add	x17, x12, x9
	cmp	x18, x16
	csel	x16, x18, x16, lo
	add	x18, x4, x9
	cmp	x0, x16
	csel	x16, x0, x16, lo
	add	x0, x5, x8
	cmp	x16, x5
	add	x8, x16, x8
	ldr	w5, [x13]
	csel	x16, x0, xzr, hi
	csel	x8, x8, xzr, hi
	csel	x15, x15, xzr, hi
	cmp	x18, x17
	stp	x16, x8, [x29, #-120]
	csel	x0, x18, x17, lo
	subs	x0, x9, x0
	bfxil	x9, x14, #32, #32
	csel	x14, xzr, x0, lo
	subs	x17, x1, x17
	mov	x0, x19
	csel	x17, xzr, x17, lo
	subs	x9, x9, x18
	add	x8, x14, x12
	csel	x9, xzr, x9, lo
	cmp	w11, w10
	mov	x1, x20
	csel	w10, w11, w10, lo
	cmp	x17, x10
	csel	x10, x17, x10, lo
	cmp	x9, x10
	csel	x9, x9, x10, lo
	add	x10, x14, x4
	sub	x4, x29, #120
	cmp	x9, x14
	add	x9, x9, x12
	csel	x8, x8, xzr, hi
	csel	x9, x9, xzr, hi
	stp	x15, x8, [x29, #-104]
	csel	x8, x10, xzr, hi
	stp	x9, x8, [x29, #-88]
	bl	"pix_raster::view::blit_overlap::<#0658d1f93ab37b52>"
	b	.LBB_9ba498_467
.LBB_9ba498_745:
	cbz	w23, .LBB_9ba498_467
	sub	x8, x0, x24
	mov	x9, #4294967296
	orr	x11, x23, #0x100000000
	add	x8, x8, x9
	mov	x14, #-4294967296
	cmp	x8, x9
	add	x15, x8, x16
	csel	x13, x8, x9, hi
	cmp	x11, x15
	sub	x8, x12, x22
	csel	x11, x11, x15, lo
	add	x12, x13, x14
	add	x15, x8, x9
	cmp	x11, x13
	add	x10, x15, x10
	csel	x8, x12, xzr, hi
	cmp	x15, x9
	orr	x12, x21, #0x100000000
	csel	x9, x15, x9, hi
	cmp	x12, x10
	csel	x10, x12, x10, lo
	add	x12, x9, x14
	cmp	x10, x9
	csel	x9, x12, xzr, hi
	b.ls	.LBB_9ba498_467
	add	x10, x10, x14
	cmp	x10, x9
	b.ls	.LBB_9ba498_467
	ldr	w12, [x2]
	adrp	x14, .LCPI_9ba498_11
	cmp	x11, x13
	ldr	d1, [x14, :lo12:.LCPI_9ba498_11]
	adrp	x13, .LCPI_9ba498_8
	madd	x17, x9, x20, x8
	dup	v0.2s, w12
	lsr	w14, w12, #16
	lsr	w15, w12, #8
	lsr	w18, w12, #24
	ubfx	w16, w12, #8, #8
	and	w0, w12, #0xff
	ushl	v3.2s, v0.2s, v1.2s
	movi	v0.2d, #0000000000000000
	fmov	s1, w12
	add	x3, x19, x17, lsl #2
	mov	v3.b[1], v3.b[4]
	mov	v1.b[1], w15
	mov	v0.h[0], v3.h[0]
	mov	v2.16b, v3.16b
	mov	v1.b[2], w14
	mov	v2.b[2], w14
	mov	v0.b[2], w14
	mov	v1.b[3], w18
	mov	v2.b[3], w18
	mov	v0.b[3], w18
	mov	v1.b[4], w12
	mov	v2.h[2], v3.h[0]
	mov	v0.b[4], w12
	mov	v1.b[5], w15
	mov	v2.b[6], w14
	mov	v0.b[5], w15
	mov	v1.b[6], w14
	mov	v2.b[7], w18
	mov	v0.b[6], w14
	mov	v1.b[7], w18
	mov	v2.h[4], v3.h[0]
	mov	v0.b[7], w18
	mov	v1.h[4], v3.h[0]
	mov	v2.b[10], w14
	mov	v0.b[8], w12
	mov	v1.b[10], w14
	mov	v2.b[11], w18
	mov	v0.b[9], w15
	mov	v1.b[11], w18
	mov	v2.h[6], v3.h[0]
	mov	v0.b[10], w14
	mov	v1.h[6], v3.h[0]
	ldr	q3, [x13, :lo12:.LCPI_9ba498_8]
	ubfx	w13, w12, #16, #8
	mov	v2.b[14], w14
	fmov	s5, w13
	mov	v0.b[11], w18
	mov	v1.b[14], w14
	mov	v5.h[1], w18
	mov	v2.b[15], w18
	mov	v0.b[12], w12
	mov	v1.b[15], w18
	mov	v5.h[2], w16
	mvn	v6.16b, v2.16b
	mov	v0.b[13], w15
	adrp	x15, .LCPI_9ba498_9
	mvn	v7.16b, v1.16b
	ldr	q4, [x15, :lo12:.LCPI_9ba498_9]
	ushr	v6.4s, v6.4s, #24
	mov	v5.h[3], w0
	eor	w0, w18, #0xff
	ushr	v17.4s, v7.4s, #24
	str	q4, [sp, #64]
	ushr	v7.8h, v1.8h, #8
	mov	v0.b[14], w14
	mov	x14, #-4294967296
	bic	v1.8h, #255, lsl #8
	add	x11, x11, x14
	tbl	v4.16b, { v6.16b }, v4.16b
	ushr	v6.8h, v2.8h, #8
	csel	x11, x11, xzr, hi
	bic	v2.8h, #255, lsl #8
	tbl	v17.16b, { v17.16b }, v3.16b
	sub	x11, x11, x8
	fmov	s8, w0
	add	x0, x3, #32
	mov	v0.b[15], w18
	and	x13, x11, #0xfffffffffffffff0
	lsl	x1, x11, #2
	lsr	x2, x13, #4
	str	q2, [sp, #80]
	ushr	v2.8h, v4.8h, #8
	and	x16, x1, #0x20
	and	x1, x1, #0x30
	bic	v4.8h, #255, lsl #8
	bfi	x1, x2, #6, #58
	lsr	x12, x11, #4
	lsl	x15, x13, #2
	mvn	v16.16b, v0.16b
	ushr	v18.8h, v0.8h, #8
	bic	v0.8h, #255, lsl #8
	lsl	x18, x20, #2
	and	x14, x11, #0xf
	and	x17, x11, #0xc
	add	x1, x3, x1
	stp	q2, q6, [sp, #16]
	ushr	v19.4s, v16.4s, #24
	str	q4, [sp, #48]
	tbl	v19.16b, { v19.16b }, v3.16b
	b	.LBB_9ba498_750
.LBB_9ba498_749:
	add	x9, x9, #1
	add	x0, x0, x18
	add	x1, x1, x18
	cmp	x9, x10
	b.eq	.LBB_9ba498_467
.LBB_9ba498_750:
	cbz	x12, .LBB_9ba498_753
	mov	x2, x0
	mov	x3, x12
.LBB_9ba498_752:
	ldp	q12, q26, [x2, #-32]
	movi	v23.8h, #128
	movi	v25.8h, #128
	movi	v31.8h, #128
	movi	v30.8h, #128
	movi	v10.8h, #128
	movi	v9.8h, #128
	adrp	x4, .LCPI_9ba498_0
	mvn	v21.16b, v12.16b
	mvn	v22.16b, v26.16b
	subs	x3, x3, #1
	ushr	v13.8h, v26.8h, #8
	bic	v26.8h, #255, lsl #8
	ushr	v11.8h, v12.8h, #8
	bic	v12.8h, #255, lsl #8
	movi	v2.8h, #128
	ushr	v24.4s, v22.4s, #24
	ushr	v21.4s, v21.4s, #24
	movi	v22.8h, #128
	mla	v31.8h, v26.8h, v19.8h
	mla	v10.8h, v11.8h, v17.8h
	mla	v9.8h, v13.8h, v19.8h
	mla	v30.8h, v12.8h, v17.8h
	tbl	v29.16b, { v21.16b }, v3.16b
	tbl	v28.16b, { v24.16b }, v3.16b
	movi	v21.16b, #1
	movi	v24.8h, #128
	mla	v22.8h, v1.8h, v29.8h
	mla	v23.8h, v0.8h, v28.8h
	mla	v25.8h, v7.8h, v29.8h
	ldp	q29, q27, [x2]
	umull	v13.4s, v30.4h, v21.4h
	mla	v24.8h, v18.8h, v28.8h
	movi	v28.8h, #128
	umull2	v14.4s, v23.8h, v21.8h
	umull	v23.4s, v23.4h, v21.4h
	umull2	v15.4s, v22.8h, v21.8h
	umull	v16.4s, v22.4h, v21.4h
	umull2	v20.4s, v25.8h, v21.8h
	umull	v25.4s, v25.4h, v21.4h
	mvn	v4.16b, v29.16b
	mvn	v12.16b, v27.16b
	umull2	v26.4s, v24.8h, v21.8h
	umull	v24.4s, v24.4h, v21.4h
	uzp2	v22.8h, v23.8h, v14.8h
	umull2	v14.4s, v10.8h, v21.8h
	umull	v10.4s, v10.4h, v21.4h
	uzp2	v23.8h, v16.8h, v15.8h
	uzp2	v25.8h, v25.8h, v20.8h
	umull2	v16.4s, v31.8h, v21.8h
	umull	v20.4s, v31.4h, v21.4h
	umull2	v31.4s, v30.8h, v21.8h
	ushr	v4.4s, v4.4s, #24
	ushr	v30.4s, v12.4s, #24
	movi	v12.8h, #128
	umull2	v15.4s, v9.8h, v21.8h
	uzp2	v10.8h, v10.8h, v14.8h
	ushr	v14.8h, v27.8h, #8
	bic	v27.8h, #255, lsl #8
	tbl	v11.16b, { v4.16b }, v3.16b
	movi	v4.8h, #128
	umull	v9.4s, v9.4h, v21.4h
	tbl	v6.16b, { v30.16b }, v3.16b
	uzp2	v30.8h, v20.8h, v16.8h
	movi	v20.8h, #128
	ushr	v16.8h, v29.8h, #8
	uzp2	v31.8h, v13.8h, v31.8h
	movi	v13.8h, #128
	bic	v29.8h, #255, lsl #8
	uzp2	v24.8h, v24.8h, v26.8h
	ldr	q26, [x4, :lo12:.LCPI_9ba498_0]
	mla	v4.8h, v7.8h, v11.8h
	uzp2	v9.8h, v9.8h, v15.8h
	mla	v12.8h, v0.8h, v6.8h
	mla	v2.8h, v18.8h, v6.8h
	movi	v6.8h, #128
	mla	v28.8h, v16.8h, v17.8h
	movi	v16.8h, #128
	mla	v20.8h, v14.8h, v19.8h
	mla	v13.8h, v1.8h, v11.8h
	tbl	v25.16b, { v25.16b }, v26.16b
	tbl	v24.16b, { v24.16b }, v26.16b
	umull2	v14.4s, v4.8h, v21.8h
	umull	v4.4s, v4.4h, v21.4h
	tbl	v9.16b, { v9.16b }, v26.16b
	umull2	v11.4s, v2.8h, v21.8h
	umull	v2.4s, v2.4h, v21.4h
	mla	v6.8h, v29.8h, v17.8h
	umull2	v29.4s, v28.8h, v21.8h
	umull	v28.4s, v28.4h, v21.4h
	mla	v16.8h, v27.8h, v19.8h
	umull2	v27.4s, v20.8h, v21.8h
	umull	v20.4s, v20.4h, v21.4h
	umull2	v15.4s, v12.8h, v21.8h
	umull	v12.4s, v12.4h, v21.4h
	uzp2	v4.8h, v4.8h, v14.8h
	umull2	v14.4s, v13.8h, v21.8h
	umull	v13.4s, v13.4h, v21.4h
	uzp2	v2.8h, v2.8h, v11.8h
	umull2	v11.4s, v6.8h, v21.8h
	umull	v6.4s, v6.4h, v21.4h
	uzp2	v28.8h, v28.8h, v29.8h
	umull2	v29.4s, v16.8h, v21.8h
	umull	v16.4s, v16.4h, v21.4h
	uzp2	v20.8h, v20.8h, v27.8h
	tbl	v27.16b, { v10.16b }, v26.16b
	uzp2	v21.8h, v12.8h, v15.8h
	tbl	v4.16b, { v4.16b }, v26.16b
	orr	v23.16b, v25.16b, v23.16b
	uzp2	v10.8h, v13.8h, v14.8h
	tbl	v2.16b, { v2.16b }, v26.16b
	orr	v22.16b, v24.16b, v22.16b
	uzp2	v6.8h, v6.8h, v11.8h
	tbl	v28.16b, { v28.16b }, v26.16b
	orr	v24.16b, v9.16b, v30.16b
	uzp2	v16.8h, v16.8h, v29.8h
	tbl	v20.16b, { v20.16b }, v26.16b
	orr	v25.16b, v27.16b, v31.16b
	orr	v4.16b, v4.16b, v10.16b
	orr	v2.16b, v2.16b, v21.16b
	orr	v6.16b, v28.16b, v6.16b
	uqadd	v23.16b, v23.16b, v25.16b
	orr	v16.16b, v20.16b, v16.16b
	uqadd	v20.16b, v22.16b, v24.16b
	uqadd	v4.16b, v4.16b, v6.16b
	uqadd	v2.16b, v2.16b, v16.16b
	stp	q23, q20, [x2, #-32]
	stp	q4, q2, [x2], #64
	b.ne	.LBB_9ba498_752
.LBB_9ba498_753:
	cmp	x13, x11
	b.eq	.LBB_9ba498_749
	mul	x2, x9, x20
	add	x2, x2, x8
	add	x2, x19, x2, lsl #2
	add	x2, x2, x15
	tbnz	w11, #3, .LBB_9ba498_757
	tbnz	w11, #2, .LBB_9ba498_758
.LBB_9ba498_756:
	cmp	x14, x17
	b.ls	.LBB_9ba498_749
	b	.LBB_9ba498_759
.LBB_9ba498_757:
	ldp	q24, q21, [x2]
	movi	v6.8h, #128
	movi	v25.8h, #128
	movi	v16.8h, #128
	movi	v26.8h, #128
	movi	v23.8h, #128
	movi	v22.16b, #1
	adrp	x3, .LCPI_9ba498_0
	mvn	v2.16b, v24.16b
	mvn	v4.16b, v21.16b
	ushr	v27.8h, v24.8h, #8
	ushr	v28.8h, v21.8h, #8
	movi	v20.8h, #128
	movi	v29.8h, #128
	bic	v24.8h, #255, lsl #8
	bic	v21.8h, #255, lsl #8
	ushr	v2.4s, v2.4s, #24
	ushr	v4.4s, v4.4s, #24
	mla	v25.8h, v27.8h, v17.8h
	movi	v27.8h, #128
	mla	v26.8h, v28.8h, v19.8h
	mla	v20.8h, v24.8h, v17.8h
	tbl	v2.16b, { v2.16b }, v3.16b
	tbl	v4.16b, { v4.16b }, v3.16b
	umull	v24.4s, v25.4h, v22.4h
	mla	v27.8h, v21.8h, v19.8h
	umull2	v21.4s, v25.8h, v22.8h
	umull2	v25.4s, v26.8h, v22.8h
	umull	v26.4s, v26.4h, v22.4h
	umull2	v28.4s, v20.8h, v22.8h
	umull	v20.4s, v20.4h, v22.4h
	mla	v6.8h, v7.8h, v2.8h
	mla	v16.8h, v18.8h, v4.8h
	mla	v23.8h, v0.8h, v4.8h
	mla	v29.8h, v1.8h, v2.8h
	uzp2	v21.8h, v24.8h, v21.8h
	umull2	v24.4s, v27.8h, v22.8h
	uzp2	v25.8h, v26.8h, v25.8h
	ldr	q26, [x3, :lo12:.LCPI_9ba498_0]
	uzp2	v20.8h, v20.8h, v28.8h
	umull2	v4.4s, v6.8h, v22.8h
	umull	v6.4s, v6.4h, v22.4h
	umull2	v2.4s, v16.8h, v22.8h
	umull	v16.4s, v16.4h, v22.4h
	tbl	v21.16b, { v21.16b }, v26.16b
	uzp2	v4.8h, v6.8h, v4.8h
	umull2	v6.4s, v23.8h, v22.8h
	umull	v23.4s, v23.4h, v22.4h
	uzp2	v2.8h, v16.8h, v2.8h
	umull2	v16.4s, v29.8h, v22.8h
	umull	v29.4s, v29.4h, v22.4h
	umull	v22.4s, v27.4h, v22.4h
	orr	v20.16b, v21.16b, v20.16b
	uzp2	v6.8h, v23.8h, v6.8h
	tbl	v4.16b, { v4.16b }, v26.16b
	tbl	v23.16b, { v25.16b }, v26.16b
	uzp2	v16.8h, v29.8h, v16.8h
	tbl	v2.16b, { v2.16b }, v26.16b
	uzp2	v22.8h, v22.8h, v24.8h
	orr	v4.16b, v4.16b, v16.16b
	orr	v2.16b, v2.16b, v6.16b
	orr	v16.16b, v23.16b, v22.16b
	uqadd	v4.16b, v4.16b, v20.16b
	uqadd	v2.16b, v2.16b, v16.16b
	stp	q4, q2, [x2]
	tbz	w11, #2, .LBB_9ba498_756
.LBB_9ba498_758:
	ldr	q2, [x2, x16]
	ldr	q6, [sp, #64]
	movi	v16.8h, #128
	ldr	q24, [sp, #32]
	movi	v22.8h, #128
	movi	v23.16b, #1
	mvn	v4.16b, v2.16b
	ushr	v21.8h, v2.8h, #8
	bic	v2.8h, #255, lsl #8
	adrp	x3, .LCPI_9ba498_0
	ushr	v4.4s, v4.4s, #24
	tbl	v4.16b, { v4.16b }, v6.16b
	movi	v6.8h, #128
	ushr	v20.8h, v4.8h, #8
	bic	v4.8h, #255, lsl #8
	mla	v6.8h, v20.8h, v24.8h
	ldr	q24, [sp, #16]
	movi	v20.8h, #128
	mla	v16.8h, v21.8h, v24.8h
	ldr	q21, [sp, #80]
	mla	v22.8h, v4.8h, v21.8h
	ldr	q21, [sp, #48]
	umull2	v4.4s, v6.8h, v23.8h
	umull	v6.4s, v6.4h, v23.4h
	mla	v20.8h, v2.8h, v21.8h
	umull2	v2.4s, v16.8h, v23.8h
	umull	v16.4s, v16.4h, v23.4h
	umull2	v21.4s, v22.8h, v23.8h
	umull	v22.4s, v22.4h, v23.4h
	uzp2	v4.8h, v6.8h, v4.8h
	umull2	v6.4s, v20.8h, v23.8h
	umull	v20.4s, v20.4h, v23.4h
	uzp2	v2.8h, v16.8h, v2.8h
	ldr	q16, [x3, :lo12:.LCPI_9ba498_0]
	uzp2	v21.8h, v22.8h, v21.8h
	tbl	v4.16b, { v4.16b }, v16.16b
	uzp2	v6.8h, v20.8h, v6.8h
	tbl	v2.16b, { v2.16b }, v16.16b
	orr	v4.16b, v4.16b, v21.16b
	orr	v2.16b, v2.16b, v6.16b
	uqadd	v2.16b, v4.16b, v2.16b
	str	q2, [x2, x16]
	cmp	x14, x17
	b.ls	.LBB_9ba498_749
.LBB_9ba498_759:
	mov	x2, x1
	sub	x3, x14, x17
.LBB_9ba498_760:
	ldr	w4, [x2]
	adrp	x5, .LCPI_9ba498_2
	movi	v16.4h, #128
	ldr	d4, [x5, :lo12:.LCPI_9ba498_2]
	subs	x3, x3, #1
	dup	v2.2s, w4
	ushl	v2.2s, v2.2s, v4.2s
	mov	s4, v2.s[1]
	str	h2, [sp, #228]
	str	h4, [sp, #230]
	movi	v4.4h, #128
	ldr	s2, [sp, #228]
	zip1	v2.8b, v2.8b, v2.8b
	mov	v2.h[1], wzr
	uzp1	v2.8b, v2.8b, v0.8b
	ushll	v2.4s, v2.4h, #0
	mov	w5, v2.s[1]
	mov	v2.h[1], w5
	ubfx	w5, w4, #8, #8
	mov	v2.h[2], w5
	and	w5, w4, #0xff
	mvn	w4, w4
	lsr	w4, w4, #24
	dup	v6.4h, w4
	adrp	x4, .LCPI_9ba498_4
	mov	v2.h[3], w5
	mla	v16.4h, v6.4h, v5.4h
	mla	v4.4h, v2.4h, v8.h[0]
	usra	v16.4h, v16.4h, #8
	usra	v4.4h, v4.4h, #8
	ushr	v2.4h, v4.4h, #8
	movi	d4, #0xff00ff00ff00ff
	usra	v2.4h, v16.4h, #8
	umin	v2.4h, v2.4h, v4.4h
	ldr	q4, [x4, :lo12:.LCPI_9ba498_4]
	ushll	v2.4s, v2.4h, #0
	ushl	v2.4s, v2.4s, v4.4s
	ext	v4.16b, v2.16b, v2.16b, #8
	orr	v2.8b, v2.8b, v4.8b
	fmov	x4, d2
	lsr	x5, x4, #32
	orr	w4, w4, w5
	str	w4, [x2], #4
	b.ne	.LBB_9ba498_760
	b	.LBB_9ba498_749
.LBB_9ba498_761:
	cbz	w23, .LBB_9ba498_467
	sub	x8, x0, x24
	mov	x9, #4294967296
	mov	x1, #4294967296
	add	x18, x8, x9
	add	x0, x15, x9
	orr	x6, x23, #0x100000000
	cmp	x0, x18
	bfxil	x1, x14, #0, #32
	sub	x12, x12, x22
	csel	x5, x0, x18, lo
	subs	x5, x9, x5
	csel	x5, xzr, x5, lo
	subs	x18, x6, x18
	csel	x18, xzr, x18, lo
	subs	x0, x1, x0
	add	x15, x5, x15
	csel	x0, xzr, x0, lo
	cmp	w17, w16
	orr	x1, x21, #0x100000000
	csel	w16, w17, w16, lo
	add	x17, x12, x9
	cmp	x18, x16
	csel	x16, x18, x16, lo
	add	x18, x4, x9
	cmp	x0, x16
	csel	x16, x0, x16, lo
	add	x0, x5, x8
	cmp	x16, x5
	add	x8, x16, x8
	ldrb	w5, [x13]
	csel	x16, x0, xzr, hi
	csel	x8, x8, xzr, hi
	csel	x15, x15, xzr, hi
	cmp	x18, x17
	stp	x16, x8, [x29, #-120]
	csel	x0, x18, x17, lo
	subs	x0, x9, x0
	bfxil	x9, x14, #32, #32
	csel	x14, xzr, x0, lo
	subs	x17, x1, x17
	mov	x0, x19
	csel	x17, xzr, x17, lo
	subs	x9, x9, x18
	add	x8, x14, x12
	csel	x9, xzr, x9, lo
	cmp	w11, w10
	mov	x1, x20
	csel	w10, w11, w10, lo
	cmp	x17, x10
	csel	x10, x17, x10, lo
	cmp	x9, x10
	csel	x9, x9, x10, lo
	add	x10, x14, x4
	sub	x4, x29, #120
	cmp	x9, x14
	add	x9, x9, x12
	csel	x8, x8, xzr, hi
	csel	x9, x9, xzr, hi
	stp	x15, x8, [x29, #-104]
	csel	x8, x10, xzr, hi
	stp	x9, x8, [x29, #-88]
	bl	"pix_raster::view::blit_overlap::<#cadaf6b2c7002256>"
	b	.LBB_9ba498_467
.LBB_9ba498_763:
	cbz	w23, .LBB_9ba498_467
	sub	x8, x18, x24
	mov	x14, #4294967296
	orr	x13, x23, #0x100000000
	add	x8, x8, x14
	mov	x9, #-4294967296
	cmp	x8, x14
	add	x15, x8, x15
	csel	x11, x8, x14, hi
	cmp	x13, x15
	sub	x8, x12, x22
	csel	x13, x13, x15, lo
	add	x12, x11, x9
	add	x8, x8, x14
	cmp	x13, x11
	add	x10, x8, x10
	csel	x16, x12, xzr, hi
	cmp	x8, x14
	orr	x12, x21, #0x100000000
	csel	x8, x8, x14, hi
	cmp	x12, x10
	csel	x10, x12, x10, lo
	add	x12, x8, x9
	cmp	x10, x8
	csel	x8, x12, xzr, hi
	b.ls	.LBB_9ba498_467
	add	x9, x10, x9
	cmp	x9, x8
	b.ls	.LBB_9ba498_467
	mov	x10, #-4294967296
	cmp	x13, x11
	add	x10, x13, x10
	csel	x17, x10, xzr, hi
	subs	x10, x17, x16
	b.eq	.LBB_9ba498_467
	madd	x12, x8, x20, x16
	ldr	w11, [x2]
	lsl	x13, x20, #2
	and	x14, x10, #0xfffffffffffffff8
	sub	x16, x16, x17
	dup	v0.4s, w11
	add	x12, x19, x12, lsl #2
	add	x15, x12, #16
	b	.LBB_9ba498_769
.LBB_9ba498_768:
	add	x8, x8, #1
	add	x15, x15, x13
	add	x12, x12, x13
	cmp	x8, x9
	b.eq	.LBB_9ba498_467
.LBB_9ba498_769:
	cmp	x10, #8
	b.hs	.LBB_9ba498_771
	mov	x18, xzr
	b	.LBB_9ba498_774
.LBB_9ba498_771:
	mov	x17, x15
	and	x18, x10, #0xfffffffffffffff8
.LBB_9ba498_772:
	subs	x18, x18, #8
	stp	q0, q0, [x17, #-16]
	add	x17, x17, #32
	b.ne	.LBB_9ba498_772
	cmp	x10, x14
	and	x18, x10, #0xfffffffffffffff8
	b.eq	.LBB_9ba498_768
.LBB_9ba498_774:
	add	x17, x12, x18, lsl #2
	add	x18, x16, x18
.LBB_9ba498_775:
	adds	x18, x18, #1
	str	w11, [x17], #4
	b.lo	.LBB_9ba498_775
	b	.LBB_9ba498_768
.LBB_9ba498_776:
	cbz	w23, .LBB_9ba498_467
	sub	x8, x18, x24
	mov	x9, #4294967296
	mov	x1, #4294967296
	add	x17, x8, x9
	add	x18, x14, x9
	orr	x6, x23, #0x100000000
	cmp	x18, x17
	bfxil	x1, x13, #0, #32
	sub	x12, x12, x22
	csel	x5, x18, x17, lo
	subs	x5, x9, x5
	csel	x5, xzr, x5, lo
	subs	x17, x6, x17
	csel	x17, xzr, x17, lo
	subs	x18, x1, x18
	add	x14, x5, x14
	csel	x18, xzr, x18, lo
	cmp	w16, w15
	orr	x1, x21, #0x100000000
	csel	w15, w16, w15, lo
	add	x16, x12, x9
	cmp	x17, x15
	csel	x15, x17, x15, lo
	add	x17, x4, x9
	cmp	x18, x15
	csel	x15, x18, x15, lo
	add	x18, x5, x8
	cmp	x15, x5
	add	x8, x15, x8
	ldr	w5, [x0]
	csel	x15, x18, xzr, hi
	csel	x8, x8, xzr, hi
	csel	x14, x14, xzr, hi
	cmp	x17, x16
	stp	x15, x8, [x29, #-120]
	mov	x0, x19
	csel	x18, x17, x16, lo
	subs	x18, x9, x18
	bfxil	x9, x13, #32, #32
	csel	x13, xzr, x18, lo
	subs	x16, x1, x16
	mov	x1, x20
	csel	x16, xzr, x16, lo
	subs	x9, x9, x17
	add	x8, x13, x12
	csel	x9, xzr, x9, lo
	cmp	w11, w10
	csel	w10, w11, w10, lo
	cmp	x16, x10
	csel	x10, x16, x10, lo
	cmp	x9, x10
	csel	x9, x9, x10, lo
	add	x10, x13, x4
	sub	x4, x29, #120
	cmp	x9, x13
	add	x9, x9, x12
	csel	x8, x8, xzr, hi
	csel	x9, x9, xzr, hi
	stp	x14, x8, [x29, #-104]
	csel	x8, x10, xzr, hi
	stp	x9, x8, [x29, #-88]
	bl	"pix_raster::view::blit_overlap::<#09758d48ce65f64e>"
	b	.LBB_9ba498_467
.LBB_9ba498_778:
	cbz	w23, .LBB_9ba498_467
	sub	x8, x18, x24
	mov	x9, #4294967296
	orr	x11, x23, #0x100000000
	add	x8, x8, x9
	mov	x14, #-4294967296
	cmp	x8, x9
	add	x15, x8, x15
	csel	x13, x8, x9, hi
	cmp	x11, x15
	sub	x8, x12, x22
	csel	x11, x11, x15, lo
	add	x12, x13, x14
	add	x15, x8, x9
	cmp	x11, x13
	add	x10, x15, x10
	csel	x8, x12, xzr, hi
	cmp	x15, x9
	orr	x12, x21, #0x100000000
	csel	x9, x15, x9, hi
	cmp	x12, x10
	csel	x10, x12, x10, lo
	add	x12, x9, x14
	cmp	x10, x9
	csel	x9, x12, xzr, hi
	b.ls	.LBB_9ba498_467
	add	x10, x10, x14
	cmp	x10, x9
	b.ls	.LBB_9ba498_467
	ldr	w12, [x2]
	adrp	x14, .LCPI_9ba498_11
	cmp	x11, x13
	ldr	d1, [x14, :lo12:.LCPI_9ba498_11]
	adrp	x13, .LCPI_9ba498_8
	madd	x17, x9, x20, x8
	dup	v0.2s, w12
	lsr	w14, w12, #16
	lsr	w15, w12, #8
	lsr	w18, w12, #24
	ubfx	w16, w12, #8, #8
	and	w0, w12, #0xff
	ushl	v3.2s, v0.2s, v1.2s
	movi	v0.2d, #0000000000000000
	fmov	s1, w12
	add	x3, x19, x17, lsl #2
	mov	v3.b[1], v3.b[4]
	mov	v1.b[1], w15
	mov	v0.h[0], v3.h[0]
	mov	v2.16b, v3.16b
	mov	v1.b[2], w14
	mov	v2.b[2], w14
	mov	v0.b[2], w14
	mov	v1.b[3], w18
	mov	v2.b[3], w18
	mov	v0.b[3], w18
	mov	v1.b[4], w12
	mov	v2.h[2], v3.h[0]
	mov	v0.b[4], w12
	mov	v1.b[5], w15
	mov	v2.b[6], w14
	mov	v0.b[5], w15
	mov	v1.b[6], w14
	mov	v2.b[7], w18
	mov	v0.b[6], w14
	mov	v1.b[7], w18
	mov	v2.h[4], v3.h[0]
	mov	v0.b[7], w18
	mov	v1.h[4], v3.h[0]
	mov	v2.b[10], w14
	mov	v0.b[8], w12
	mov	v1.b[10], w14
	mov	v2.b[11], w18
	mov	v0.b[9], w15
	mov	v1.b[11], w18
	mov	v2.h[6], v3.h[0]
	mov	v0.b[10], w14
	mov	v1.h[6], v3.h[0]
	ldr	q3, [x13, :lo12:.LCPI_9ba498_8]
	ubfx	w13, w12, #16, #8
	mov	v2.b[14], w14
	fmov	s5, w13
	mov	v0.b[11], w18
	mov	v1.b[14], w14
	mov	v5.h[1], w18
	mov	v2.b[15], w18
	mov	v0.b[12], w12
	mov	v1.b[15], w18
	mov	v5.h[2], w16
	mvn	v6.16b, v2.16b
	mov	v0.b[13], w15
	adrp	x15, .LCPI_9ba498_9
	mvn	v7.16b, v1.16b
	ldr	q4, [x15, :lo12:.LCPI_9ba498_9]
	ushr	v6.4s, v6.4s, #24
	mov	v5.h[3], w0
	eor	w0, w18, #0xff
	ushr	v17.4s, v7.4s, #24
	str	q4, [sp, #64]
	ushr	v7.8h, v1.8h, #8
	mov	v0.b[14], w14
	mov	x14, #-4294967296
	bic	v1.8h, #255, lsl #8
	add	x11, x11, x14
	tbl	v4.16b, { v6.16b }, v4.16b
	ushr	v6.8h, v2.8h, #8
	csel	x11, x11, xzr, hi
	bic	v2.8h, #255, lsl #8
	tbl	v17.16b, { v17.16b }, v3.16b
	sub	x11, x11, x8
	fmov	s8, w0
	add	x0, x3, #32
	mov	v0.b[15], w18
	and	x13, x11, #0xfffffffffffffff0
	lsl	x1, x11, #2
	lsr	x2, x13, #4
	str	q2, [sp, #80]
	ushr	v2.8h, v4.8h, #8
	and	x16, x1, #0x20
	and	x1, x1, #0x30
	bic	v4.8h, #255, lsl #8
	bfi	x1, x2, #6, #58
	lsr	x12, x11, #4
	lsl	x15, x13, #2
	mvn	v16.16b, v0.16b
	ushr	v18.8h, v0.8h, #8
	bic	v0.8h, #255, lsl #8
	lsl	x18, x20, #2
	and	x14, x11, #0xf
	and	x17, x11, #0xc
	add	x1, x3, x1
	stp	q2, q6, [sp, #16]
	ushr	v19.4s, v16.4s, #24
	str	q4, [sp, #48]
	tbl	v19.16b, { v19.16b }, v3.16b
	b	.LBB_9ba498_783
.LBB_9ba498_782:
	add	x9, x9, #1
	add	x0, x0, x18
	add	x1, x1, x18
	cmp	x9, x10
	b.eq	.LBB_9ba498_467
.LBB_9ba498_783:
	cbz	x12, .LBB_9ba498_786
	mov	x2, x0
	mov	x3, x12
.LBB_9ba498_785:
	ldp	q24, q22, [x2, #-32]
	movi	v23.8h, #128
	movi	v29.8h, #128
	movi	v25.8h, #128
	movi	v30.8h, #128
	movi	v31.8h, #128
	movi	v13.8h, #128
	adrp	x4, .LCPI_9ba498_0
	ushr	v26.4s, v24.4s, #24
	ushr	v21.4s, v22.4s, #24
	subs	x3, x3, #1
	movi	v27.8h, #128
	ushr	v15.8h, v22.8h, #8
	ushr	v9.8h, v24.8h, #8
	bic	v24.8h, #255, lsl #8
	movi	v4.8h, #128
	movi	v2.8h, #128
	tbl	v26.16b, { v26.16b }, v3.16b
	tbl	v28.16b, { v21.16b }, v3.16b
	movi	v21.16b, #1
	mla	v13.8h, v15.8h, v19.8h
	mla	v27.8h, v24.8h, v17.8h
	mla	v23.8h, v1.8h, v26.8h
	mla	v29.8h, v7.8h, v26.8h
	mov	v26.16b, v22.16b
	mla	v25.8h, v0.8h, v28.8h
	mla	v30.8h, v18.8h, v28.8h
	movi	v28.8h, #128
	umull2	v20.4s, v13.8h, v21.8h
	umull	v13.4s, v13.4h, v21.4h
	bic	v26.8h, #255, lsl #8
	umull2	v12.4s, v29.8h, v21.8h
	umull	v29.4s, v29.4h, v21.4h
	umull2	v11.4s, v23.8h, v21.8h
	umull2	v10.4s, v25.8h, v21.8h
	umull	v25.4s, v25.4h, v21.4h
	umull2	v14.4s, v30.8h, v21.8h
	umull	v30.4s, v30.4h, v21.4h
	mla	v31.8h, v26.8h, v19.8h
	umull	v23.4s, v23.4h, v21.4h
	mla	v28.8h, v9.8h, v17.8h
	umull2	v9.4s, v27.8h, v21.8h
	movi	v26.8h, #128
	uzp2	v22.8h, v25.8h, v10.8h
	uzp2	v25.8h, v29.8h, v12.8h
	movi	v12.8h, #128
	uzp2	v24.8h, v30.8h, v14.8h
	umull2	v29.4s, v31.8h, v21.8h
	umull	v30.4s, v31.4h, v21.4h
	ldp	q10, q31, [x2]
	uzp2	v23.8h, v23.8h, v11.8h
	umull	v14.4s, v27.4h, v21.4h
	ldr	q27, [x4, :lo12:.LCPI_9ba498_0]
	umull2	v15.4s, v28.8h, v21.8h
	umull	v16.4s, v28.4h, v21.4h
	ushr	v11.4s, v10.4s, #24
	ushr	v28.4s, v31.4s, #24
	tbl	v25.16b, { v25.16b }, v27.16b
	tbl	v24.16b, { v24.16b }, v27.16b
	tbl	v11.16b, { v11.16b }, v3.16b
	tbl	v6.16b, { v28.16b }, v3.16b
	uzp2	v28.8h, v30.8h, v29.8h
	uzp2	v30.8h, v13.8h, v20.8h
	movi	v20.8h, #128
	uzp2	v29.8h, v14.8h, v9.8h
	uzp2	v9.8h, v16.8h, v15.8h
	ushr	v16.8h, v10.8h, #8
	ushr	v14.8h, v31.8h, #8
	movi	v13.8h, #128
	bic	v10.8h, #255, lsl #8
	bic	v31.8h, #255, lsl #8
	mla	v4.8h, v7.8h, v11.8h
	mla	v12.8h, v0.8h, v6.8h
	mla	v2.8h, v18.8h, v6.8h
	movi	v6.8h, #128
	mla	v26.8h, v16.8h, v17.8h
	movi	v16.8h, #128
	mla	v20.8h, v14.8h, v19.8h
	tbl	v30.16b, { v30.16b }, v27.16b
	orr	v23.16b, v25.16b, v23.16b
	mla	v13.8h, v1.8h, v11.8h
	orr	v22.16b, v24.16b, v22.16b
	umull2	v14.4s, v4.8h, v21.8h
	umull	v4.4s, v4.4h, v21.4h
	umull2	v11.4s, v2.8h, v21.8h
	umull	v2.4s, v2.4h, v21.4h
	mla	v6.8h, v10.8h, v17.8h
	umull2	v10.4s, v26.8h, v21.8h
	umull	v26.4s, v26.4h, v21.4h
	mla	v16.8h, v31.8h, v19.8h
	umull2	v31.4s, v20.8h, v21.8h
	umull	v20.4s, v20.4h, v21.4h
	umull2	v15.4s, v12.8h, v21.8h
	umull	v12.4s, v12.4h, v21.4h
	uzp2	v4.8h, v4.8h, v14.8h
	umull2	v14.4s, v13.8h, v21.8h
	umull	v13.4s, v13.4h, v21.4h
	uzp2	v2.8h, v2.8h, v11.8h
	umull2	v11.4s, v6.8h, v21.8h
	umull	v6.4s, v6.4h, v21.4h
	uzp2	v26.8h, v26.8h, v10.8h
	umull2	v10.4s, v16.8h, v21.8h
	umull	v16.4s, v16.4h, v21.4h
	uzp2	v20.8h, v20.8h, v31.8h
	uzp2	v21.8h, v12.8h, v15.8h
	tbl	v31.16b, { v9.16b }, v27.16b
	uzp2	v9.8h, v13.8h, v14.8h
	tbl	v4.16b, { v4.16b }, v27.16b
	orr	v24.16b, v30.16b, v28.16b
	uzp2	v6.8h, v6.8h, v11.8h
	tbl	v2.16b, { v2.16b }, v27.16b
	tbl	v26.16b, { v26.16b }, v27.16b
	uzp2	v16.8h, v16.8h, v10.8h
	tbl	v20.16b, { v20.16b }, v27.16b
	orr	v25.16b, v31.16b, v29.16b
	orr	v4.16b, v4.16b, v9.16b
	orr	v2.16b, v2.16b, v21.16b
	orr	v6.16b, v26.16b, v6.16b
	uqadd	v23.16b, v23.16b, v25.16b
	orr	v16.16b, v20.16b, v16.16b
	uqadd	v20.16b, v22.16b, v24.16b
	uqadd	v4.16b, v4.16b, v6.16b
	uqadd	v2.16b, v2.16b, v16.16b
	stp	q23, q20, [x2, #-32]
	stp	q4, q2, [x2], #64
	b.ne	.LBB_9ba498_785
.LBB_9ba498_786:
	cmp	x13, x11
	b.eq	.LBB_9ba498_782
	mul	x2, x9, x20
	add	x2, x2, x8
	add	x2, x19, x2, lsl #2
	add	x2, x2, x15
	tbnz	w11, #3, .LBB_9ba498_790
	tbnz	w11, #2, .LBB_9ba498_791
.LBB_9ba498_789:
	cmp	x14, x17
	b.ls	.LBB_9ba498_782
	b	.LBB_9ba498_792
.LBB_9ba498_790:
	ldp	q21, q23, [x2]
	movi	v6.8h, #128
	movi	v24.8h, #128
	movi	v16.8h, #128
	movi	v27.8h, #128
	movi	v22.8h, #128
	movi	v25.8h, #128
	adrp	x3, .LCPI_9ba498_0
	ushr	v2.4s, v21.4s, #24
	ushr	v4.4s, v23.4s, #24
	ushr	v20.8h, v21.8h, #8
	ushr	v29.8h, v23.8h, #8
	movi	v26.16b, #1
	movi	v28.8h, #128
	bic	v23.8h, #255, lsl #8
	bic	v21.8h, #255, lsl #8
	tbl	v2.16b, { v2.16b }, v3.16b
	tbl	v4.16b, { v4.16b }, v3.16b
	mla	v24.8h, v20.8h, v17.8h
	movi	v20.8h, #128
	mla	v27.8h, v29.8h, v19.8h
	mla	v28.8h, v23.8h, v19.8h
	mla	v6.8h, v7.8h, v2.8h
	mla	v16.8h, v18.8h, v4.8h
	mla	v25.8h, v0.8h, v4.8h
	mla	v22.8h, v1.8h, v2.8h
	mla	v20.8h, v21.8h, v17.8h
	umull2	v21.4s, v24.8h, v26.8h
	umull	v23.4s, v24.4h, v26.4h
	umull2	v24.4s, v27.8h, v26.8h
	umull	v27.4s, v27.4h, v26.4h
	umull2	v2.4s, v6.8h, v26.8h
	umull	v4.4s, v6.4h, v26.4h
	umull2	v6.4s, v16.8h, v26.8h
	umull	v16.4s, v16.4h, v26.4h
	umull2	v29.4s, v25.8h, v26.8h
	umull	v25.4s, v25.4h, v26.4h
	uzp2	v21.8h, v23.8h, v21.8h
	umull2	v23.4s, v20.8h, v26.8h
	umull	v20.4s, v20.4h, v26.4h
	uzp2	v24.8h, v27.8h, v24.8h
	ldr	q27, [x3, :lo12:.LCPI_9ba498_0]
	uzp2	v2.8h, v4.8h, v2.8h
	umull2	v4.4s, v22.8h, v26.8h
	umull	v22.4s, v22.4h, v26.4h
	uzp2	v6.8h, v16.8h, v6.8h
	umull2	v16.4s, v28.8h, v26.8h
	umull	v26.4s, v28.4h, v26.4h
	uzp2	v25.8h, v25.8h, v29.8h
	uzp2	v20.8h, v20.8h, v23.8h
	tbl	v21.16b, { v21.16b }, v27.16b
	uzp2	v4.8h, v22.8h, v4.8h
	tbl	v2.16b, { v2.16b }, v27.16b
	tbl	v22.16b, { v24.16b }, v27.16b
	tbl	v6.16b, { v6.16b }, v27.16b
	uzp2	v16.8h, v26.8h, v16.8h
	orr	v2.16b, v2.16b, v4.16b
	orr	v4.16b, v21.16b, v20.16b
	orr	v6.16b, v6.16b, v25.16b
	orr	v16.16b, v22.16b, v16.16b
	uqadd	v2.16b, v2.16b, v4.16b
	uqadd	v4.16b, v6.16b, v16.16b
	stp	q2, q4, [x2]
	tbz	w11, #2, .LBB_9ba498_789
.LBB_9ba498_791:
	ldr	q2, [x2, x16]
	ldr	q6, [sp, #64]
	movi	v16.8h, #128
	ldr	q24, [sp, #32]
	movi	v22.8h, #128
	movi	v23.16b, #1
	ushr	v4.4s, v2.4s, #24
	ushr	v21.8h, v2.8h, #8
	bic	v2.8h, #255, lsl #8
	adrp	x3, .LCPI_9ba498_0
	tbl	v4.16b, { v4.16b }, v6.16b
	movi	v6.8h, #128
	ushr	v20.8h, v4.8h, #8
	bic	v4.8h, #255, lsl #8
	mla	v6.8h, v20.8h, v24.8h
	ldr	q24, [sp, #16]
	movi	v20.8h, #128
	mla	v16.8h, v21.8h, v24.8h
	ldr	q21, [sp, #80]
	mla	v22.8h, v4.8h, v21.8h
	ldr	q21, [sp, #48]
	umull2	v4.4s, v6.8h, v23.8h
	umull	v6.4s, v6.4h, v23.4h
	mla	v20.8h, v2.8h, v21.8h
	umull2	v2.4s, v16.8h, v23.8h
	umull	v16.4s, v16.4h, v23.4h
	umull2	v21.4s, v22.8h, v23.8h
	umull	v22.4s, v22.4h, v23.4h
	uzp2	v4.8h, v6.8h, v4.8h
	umull2	v6.4s, v20.8h, v23.8h
	umull	v20.4s, v20.4h, v23.4h
	uzp2	v2.8h, v16.8h, v2.8h
	ldr	q16, [x3, :lo12:.LCPI_9ba498_0]
	uzp2	v21.8h, v22.8h, v21.8h
	tbl	v4.16b, { v4.16b }, v16.16b
	uzp2	v6.8h, v20.8h, v6.8h
	tbl	v2.16b, { v2.16b }, v16.16b
	orr	v4.16b, v4.16b, v21.16b
	orr	v2.16b, v2.16b, v6.16b
	uqadd	v2.16b, v4.16b, v2.16b
	str	q2, [x2, x16]
	cmp	x14, x17
	b.ls	.LBB_9ba498_782
.LBB_9ba498_792:
	mov	x2, x1
	sub	x3, x14, x17
.LBB_9ba498_793:
	ldr	w4, [x2]
	adrp	x5, .LCPI_9ba498_2
	movi	v6.4h, #128
	ldr	d4, [x5, :lo12:.LCPI_9ba498_2]
	movi	v16.4h, #128
	subs	x3, x3, #1
	dup	v2.2s, w4
	ushl	v2.2s, v2.2s, v4.2s
	mov	w5, v2.s[1]
	str	h2, [sp, #188]
	dup	v2.4h, v2.h[2]
	strh	w5, [sp, #190]
	mla	v16.4h, v2.4h, v5.4h
	ldr	s4, [sp, #188]
	zip1	v4.8b, v4.8b, v4.8b
	usra	v16.4h, v16.4h, #8
	mov	v4.h[1], wzr
	uzp1	v4.8b, v4.8b, v0.8b
	ushll	v4.4s, v4.4h, #0
	mov	w5, v4.s[1]
	mov	v4.h[1], w5
	ubfx	w5, w4, #8, #8
	and	w4, w4, #0xff
	mov	v4.h[2], w5
	mov	v4.h[3], w4
	adrp	x4, .LCPI_9ba498_4
	mla	v6.4h, v4.4h, v8.h[0]
	movi	d4, #0xff00ff00ff00ff
	usra	v6.4h, v6.4h, #8
	ushr	v2.4h, v6.4h, #8
	usra	v2.4h, v16.4h, #8
	umin	v2.4h, v2.4h, v4.4h
	ldr	q4, [x4, :lo12:.LCPI_9ba498_4]
	ushll	v2.4s, v2.4h, #0
	ushl	v2.4s, v2.4s, v4.4s
	ext	v4.16b, v2.16b, v2.16b, #8
	orr	v2.8b, v2.8b, v4.8b
	fmov	x4, d2
	lsr	x5, x4, #32
	orr	w4, w4, w5
	str	w4, [x2], #4
	b.ne	.LBB_9ba498_793
	b	.LBB_9ba498_782
.LBB_9ba498_794:
	cbz	w23, .LBB_9ba498_467
	sub	x8, x18, x24
	mov	x9, #4294967296
	mov	x1, #4294967296
	add	x17, x8, x9
	add	x18, x14, x9
	orr	x6, x23, #0x100000000
	cmp	x18, x17
	bfxil	x1, x13, #0, #32
	sub	x12, x12, x22
	csel	x5, x18, x17, lo
	subs	x5, x9, x5
	csel	x5, xzr, x5, lo
	subs	x17, x6, x17
	csel	x17, xzr, x17, lo
	subs	x18, x1, x18
	add	x14, x5, x14
	csel	x18, xzr, x18, lo
	cmp	w16, w15
	orr	x1, x21, #0x100000000
	csel	w15, w16, w15, lo
	add	x16, x12, x9
	cmp	x17, x15
	csel	x15, x17, x15, lo
	add	x17, x4, x9
	cmp	x18, x15
	csel	x15, x18, x15, lo
	add	x18, x5, x8
	cmp	x15, x5
	add	x8, x15, x8
	ldrb	w5, [x0]
	csel	x15, x18, xzr, hi
	csel	x8, x8, xzr, hi
	csel	x14, x14, xzr, hi
	cmp	x17, x16
	stp	x15, x8, [x29, #-120]
	mov	x0, x19
	csel	x18, x17, x16, lo
	subs	x18, x9, x18
	bfxil	x9, x13, #32, #32
	csel	x13, xzr, x18, lo
	subs	x16, x1, x16
	mov	x1, x20
	csel	x16, xzr, x16, lo
	subs	x9, x9, x17
	add	x8, x13, x12
	csel	x9, xzr, x9, lo
	cmp	w11, w10
	csel	w10, w11, w10, lo
	cmp	x16, x10
	csel	x10, x16, x10, lo
	cmp	x9, x10
	csel	x9, x9, x10, lo
	add	x10, x13, x4
	sub	x4, x29, #120
	cmp	x9, x13
	add	x9, x9, x12
	csel	x8, x8, xzr, hi
	csel	x9, x9, xzr, hi
	stp	x14, x8, [x29, #-104]
	csel	x8, x10, xzr, hi
	stp	x9, x8, [x29, #-88]
	bl	"pix_raster::view::blit_overlap::<#8280f2e27f55061f>"
	b	.LBB_9ba498_467
.LBB_9ba498_796:
	sub	x10, x21, #33
	cmn	x10, #26
	b.hi	.LBB_9ba498_866
	mov	x8, #4294967297
	cmp	x9, x8
	b.lo	.LBB_9ba498_467
	lsl	x20, x21, #2
	mov	x21, xzr
.LBB_9ba498_799:
	mov	x0, x19
	mov	w1, wzr
	mov	x2, x20
	bl	memset
	add	x21, x21, #1
	add	x19, x19, x23
	cmp	x21, x22
	b.lo	.LBB_9ba498_799
	b	.LBB_9ba498_467
.LBB_9ba498_800:
	sub	x10, x21, #33
	cmn	x10, #26
	b.hi	.LBB_9ba498_871
	cmp	x12, x9
	b.eq	.LBB_9ba498_467
	madd	x8, x8, x20, x9
	lsl	x21, x21, #2
	lsl	x20, x20, #2
	add	x19, x19, x8, lsl #2
.LBB_9ba498_803:
	mov	x0, x19
	mov	w1, wzr
	mov	x2, x21
	bl	memset
	subs	x22, x22, #1
	add	x19, x19, x20
	b.ne	.LBB_9ba498_803
	b	.LBB_9ba498_467
.LBB_9ba498_804:
	sub	x12, x21, #33
	cmn	x12, #26
	b.hi	.LBB_9ba498_875
	cmp	x11, x9
	b.eq	.LBB_9ba498_467
	madd	x9, x10, x20, x9
	lsl	x21, x21, #2
	sub	x8, x8, x10
	mov	x10, #-4294967296
	lsl	x20, x20, #2
	add	x22, x8, x10
	add	x19, x19, x9, lsl #2
.LBB_9ba498_807:
	mov	x0, x19
	mov	w1, wzr
	mov	x2, x21
	bl	memset
	subs	x22, x22, #1
	add	x19, x19, x20
	b.ne	.LBB_9ba498_807
	b	.LBB_9ba498_467
.LBB_9ba498_808:
	sub	x10, x21, #33
	cmn	x10, #26
	b.hi	.LBB_9ba498_879
	mov	x8, #4294967297
	cmp	x9, x8
	b.lo	.LBB_9ba498_467
	lsl	x20, x21, #2
	mov	x21, xzr
.LBB_9ba498_811:
	mov	x0, x19
	mov	w1, wzr
	mov	x2, x20
	bl	memset
	add	x21, x21, #1
	add	x19, x19, x23
	cmp	x21, x22
	b.lo	.LBB_9ba498_811
	b	.LBB_9ba498_467
.LBB_9ba498_812:
	sub	x10, x21, #33
	cmn	x10, #26
	b.hi	.LBB_9ba498_883
	mov	x8, #4294967297
	cmp	x9, x8
	b.lo	.LBB_9ba498_467
	lsl	x20, x21, #2
	mov	x21, xzr
.LBB_9ba498_815:
	mov	x0, x19
	mov	w1, wzr
	mov	x2, x20
	bl	memset
	add	x21, x21, #1
	add	x19, x19, x23
	cmp	x21, x22
	b.lo	.LBB_9ba498_815
	b	.LBB_9ba498_467
.LBB_9ba498_816:
	sub	x10, x21, #33
	cmn	x10, #26
	b.hi	.LBB_9ba498_887
	mov	x8, #4294967297
	cmp	x9, x8
	b.lo	.LBB_9ba498_467
	lsl	x20, x21, #2
	mov	x21, xzr
.LBB_9ba498_819:
	mov	x0, x19
	mov	w1, wzr
	mov	x2, x20
	bl	memset
	add	x21, x21, #1
	add	x19, x19, x23
	cmp	x21, x22
	b.lo	.LBB_9ba498_819
	b	.LBB_9ba498_467
.LBB_9ba498_820:
	sub	x10, x21, #33
	cmn	x10, #26
	b.hi	.LBB_9ba498_891
	mov	x8, #4294967297
	cmp	x9, x8
	b.lo	.LBB_9ba498_467
	lsl	x20, x21, #2
	mov	x21, xzr
.LBB_9ba498_823:
	mov	x0, x19
	mov	w1, wzr
	mov	x2, x20
	bl	memset
	add	x21, x21, #1
	add	x19, x19, x23
	cmp	x21, x22
	b.lo	.LBB_9ba498_823
	b	.LBB_9ba498_467
.LBB_9ba498_824:
	sub	x10, x21, #33
	cmn	x10, #26
	b.hi	.LBB_9ba498_895
	mov	x8, #4294967297
	cmp	x9, x8
	b.lo	.LBB_9ba498_467
	lsl	x20, x21, #2
	mov	x21, xzr
.LBB_9ba498_827:
	mov	x0, x19
	mov	w1, wzr
	mov	x2, x20
	bl	memset
	add	x21, x21, #1
	add	x19, x19, x23
	cmp	x21, x22
	b.lo	.LBB_9ba498_827
	b	.LBB_9ba498_467
.LBB_9ba498_828:
	sub	x10, x21, #33
	cmn	x10, #26
	b.hi	.LBB_9ba498_899
	mov	x8, #4294967297
	cmp	x9, x8
	b.lo	.LBB_9ba498_467
	lsl	x20, x21, #2
	mov	x21, xzr
.LBB_9ba498_831:
	mov	x0, x19
	mov	w1, wzr
	mov	x2, x20
	bl	memset
	add	x21, x21, #1
	add	x19, x19, x23
	cmp	x21, x22
	b.lo	.LBB_9ba498_831
	b	.LBB_9ba498_467
.LBB_9ba498_832:
	sub	x10, x21, #33
	cmn	x10, #26
	b.hi	.LBB_9ba498_903
	mov	x8, #4294967297
	cmp	x9, x8
	b.lo	.LBB_9ba498_467
	lsl	x20, x21, #2
	mov	x21, xzr
.LBB_9ba498_835:
	mov	x0, x19
	mov	w1, wzr
	mov	x2, x20
	bl	memset
	add	x21, x21, #1
	add	x19, x19, x23
	cmp	x21, x22
	b.lo	.LBB_9ba498_835
	b	.LBB_9ba498_467
.LBB_9ba498_836:
	sub	x10, x21, #33
	cmn	x10, #26
	b.hi	.LBB_9ba498_907
	mov	x8, #4294967297
	cmp	x9, x8
	b.lo	.LBB_9ba498_467
	lsl	x20, x21, #2
	mov	x21, xzr
.LBB_9ba498_839:
	mov	x0, x19
	mov	w1, wzr
	mov	x2, x20
	bl	memset
	add	x21, x21, #1
	add	x19, x19, x23
	cmp	x21, x22
	b.lo	.LBB_9ba498_839
	b	.LBB_9ba498_467
.LBB_9ba498_840:
	cmp	x17, x12
	b.eq	.LBB_9ba498_467
	madd	x13, x8, x20, x12
	dup	v0.4s, w11
	lsl	x14, x20, #2
	and	x15, x10, #0x38
	sub	x12, x12, x17
	add	x13, x19, x13, lsl #2
	add	x16, x13, #16
	b	.LBB_9ba498_843
.LBB_9ba498_842:
	add	x8, x8, #1
	add	x16, x16, x14
	add	x13, x13, x14
	cmp	x8, x9
	b.eq	.LBB_9ba498_467
.LBB_9ba498_843:
	cmp	x10, #8
	b.hs	.LBB_9ba498_845
	mov	x18, xzr
	b	.LBB_9ba498_848
.LBB_9ba498_845:
	mov	x17, x16
	and	x18, x10, #0x38
.LBB_9ba498_846:
	subs	x18, x18, #8
	stp	q0, q0, [x17, #-16]
	add	x17, x17, #32
	b.ne	.LBB_9ba498_846
	cmp	x10, x15
	and	x18, x10, #0x38
	b.eq	.LBB_9ba498_842
.LBB_9ba498_848:
	add	x17, x13, x18, lsl #2
	add	x18, x12, x18
.LBB_9ba498_849:
	adds	x18, x18, #1
	str	w11, [x17], #4
	b.lo	.LBB_9ba498_849
	b	.LBB_9ba498_842
.LBB_9ba498_850:
	sub	x10, x21, #33
	cmn	x10, #26
	b.hi	.LBB_9ba498_911
	mov	x8, #4294967297
	cmp	x9, x8
	b.lo	.LBB_9ba498_467
	lsl	x20, x21, #2
	mov	x21, xzr
.LBB_9ba498_853:
	mov	x0, x19
	mov	w1, wzr
	mov	x2, x20
	bl	memset
	add	x21, x21, #1
	add	x19, x19, x23
	cmp	x21, x22
	b.lo	.LBB_9ba498_853
	b	.LBB_9ba498_467
.LBB_9ba498_854:
	sub	x10, x21, #33
	cmn	x10, #26
	b.hi	.LBB_9ba498_915
	mov	x8, #4294967297
	cmp	x9, x8
	b.lo	.LBB_9ba498_467
	lsl	x20, x21, #2
	mov	x21, xzr
.LBB_9ba498_857:
	mov	x0, x19
	mov	w1, wzr
	mov	x2, x20
	bl	memset
	add	x21, x21, #1
	add	x19, x19, x23
	cmp	x21, x22
	b.lo	.LBB_9ba498_857
	b	.LBB_9ba498_467
.LBB_9ba498_858:
	sub	x10, x21, #33
	cmn	x10, #26
	b.hi	.LBB_9ba498_919
	mov	x8, #4294967297
	cmp	x9, x8
	b.lo	.LBB_9ba498_467
	lsl	x20, x21, #2
	mov	x21, xzr
.LBB_9ba498_861:
	mov	x0, x19
	mov	w1, wzr
	mov	x2, x20
	bl	memset
	add	x21, x21, #1
	add	x19, x19, x23
	cmp	x21, x22
	b.lo	.LBB_9ba498_861
	b	.LBB_9ba498_467
.LBB_9ba498_862:
	sub	x10, x21, #33
	cmn	x10, #26
	b.hi	.LBB_9ba498_923
	mov	x8, #4294967297
	cmp	x9, x8
	b.lo	.LBB_9ba498_467
	lsl	x20, x21, #2
	mov	x21, xzr
.LBB_9ba498_865:
	mov	x0, x19
	mov	w1, wzr
	mov	x2, x20
	bl	memset
	add	x21, x21, #1
	add	x19, x19, x23
	cmp	x21, x22
	b.lo	.LBB_9ba498_865
	b	.LBB_9ba498_467
.LBB_9ba498_866:
	cmp	x21, #17
	b.hs	.LBB_9ba498_927
	mov	x11, #4294967296
	lsl	x9, x9, #2
	mov	x10, xzr
	cmp	x8, x11
	csel	x8, x8, x11, lo
	sub	x8, x9, x8, lsl #2
	sub	x8, x8, #32
	b	.LBB_9ba498_869
.LBB_9ba498_868:
	add	x10, x10, #1
	add	x19, x19, x23
	cmp	x10, x22
	b.hs	.LBB_9ba498_467
.LBB_9ba498_869:
	movi	v0.2d, #0000000000000000
	cmp	x21, #9
	stp	q0, q0, [x19]
	b.lo	.LBB_9ba498_868
	add	x9, x19, x8
	stp	q0, q0, [x9]
	b	.LBB_9ba498_868
.LBB_9ba498_871:
	cmp	x21, #17
	b.hs	.LBB_9ba498_929
	cmp	x21, #8
	b.ls	.LBB_9ba498_957
	mul	x8, x8, x20
	add	x10, x12, x8
	add	x9, x9, x8
	lsl	x8, x20, #2
	lsl	x10, x10, #2
	lsl	x9, x9, #2
	sub	x10, x10, #32
.LBB_9ba498_874:
	movi	v0.2d, #0000000000000000
	add	x11, x19, x9
	add	x12, x19, x10
	subs	x22, x22, #1
	add	x19, x19, x8
	stp	q0, q0, [x11]
	stp	q0, q0, [x12]
	b.ne	.LBB_9ba498_874
	b	.LBB_9ba498_467
.LBB_9ba498_875:
	cmp	x21, #17
	b.hs	.LBB_9ba498_931
	cmp	x21, #8
	b.ls	.LBB_9ba498_959
	mul	x12, x10, x20
	sub	x10, x8, x10
	lsl	x8, x20, #2
	add	x11, x11, x12
	add	x9, x9, x12
	mov	x12, #-4294967296
	lsl	x11, x11, #2
	lsl	x9, x9, #2
	add	x10, x10, x12
	sub	x11, x11, #32
.LBB_9ba498_878:
	movi	v0.2d, #0000000000000000
	add	x12, x19, x9
	add	x13, x19, x11
	subs	x10, x10, #1
	add	x19, x19, x8
	stp	q0, q0, [x12]
	stp	q0, q0, [x13]
	b.ne	.LBB_9ba498_878
	b	.LBB_9ba498_467
.LBB_9ba498_879:
	cmp	x21, #17
	b.hs	.LBB_9ba498_933
	cmp	x21, #8
	b.ls	.LBB_9ba498_961
	mov	x11, #4294967296
	lsl	x9, x9, #2
	mov	x10, xzr
	cmp	x8, x11
	csel	x8, x8, x11, lo
	sub	x8, x9, x8, lsl #2
	sub	x8, x8, #32
.LBB_9ba498_882:
	movi	v0.2d, #0000000000000000
	add	x10, x10, #1
	add	x9, x19, x8
	cmp	x10, x22
	stp	q0, q0, [x19]
	add	x19, x19, x23
	stp	q0, q0, [x9]
	b.lo	.LBB_9ba498_882
	b	.LBB_9ba498_467
.LBB_9ba498_883:
	cmp	x21, #17
	b.hs	.LBB_9ba498_935
	cmp	x21, #8
	b.ls	.LBB_9ba498_963
	mov	x11, #4294967296
	lsl	x9, x9, #2
	mov	x10, xzr
	cmp	x8, x11
	csel	x8, x8, x11, lo
	sub	x8, x9, x8, lsl #2
	sub	x8, x8, #32
.LBB_9ba498_886:
	movi	v0.2d, #0000000000000000
	add	x10, x10, #1
	add	x9, x19, x8
	cmp	x10, x22
	stp	q0, q0, [x19]
	add	x19, x19, x23
	stp	q0, q0, [x9]
	b.lo	.LBB_9ba498_886
	b	.LBB_9ba498_467
.LBB_9ba498_887:
	cmp	x21, #17
	b.hs	.LBB_9ba498_937
	cmp	x21, #8
	b.ls	.LBB_9ba498_965
	mov	x11, #4294967296
	lsl	x9, x9, #2
	mov	x10, xzr
	cmp	x8, x11
	csel	x8, x8, x11, lo
	sub	x8, x9, x8, lsl #2
	sub	x8, x8, #32
.LBB_9ba498_890:
	movi	v0.2d, #0000000000000000
	add	x10, x10, #1
	add	x9, x19, x8
	cmp	x10, x22
	stp	q0, q0, [x19]
	add	x19, x19, x23
	stp	q0, q0, [x9]
	b.lo	.LBB_9ba498_890
	b	.LBB_9ba498_467
.LBB_9ba498_891:
	cmp	x21, #17
	b.hs	.LBB_9ba498_939
	cmp	x21, #8
	b.ls	.LBB_9ba498_967
	mov	x11, #4294967296
	lsl	x9, x9, #2
	mov	x10, xzr
	cmp	x8, x11
	csel	x8, x8, x11, lo
	sub	x8, x9, x8, lsl #2
	sub	x8, x8, #32
.LBB_9ba498_894:
	movi	v0.2d, #0000000000000000
	add	x10, x10, #1
	add	x9, x19, x8
	cmp	x10, x22
	stp	q0, q0, [x19]
	add	x19, x19, x23
	stp	q0, q0, [x9]
	b.lo	.LBB_9ba498_894
	b	.LBB_9ba498_467
.LBB_9ba498_895:
	cmp	x21, #17
	b.hs	.LBB_9ba498_941
	cmp	x21, #8
	b.ls	.LBB_9ba498_969
	mov	x11, #4294967296
	lsl	x9, x9, #2
	mov	x10, xzr
	cmp	x8, x11
	csel	x8, x8, x11, lo
	sub	x8, x9, x8, lsl #2
	sub	x8, x8, #32
.LBB_9ba498_898:
	movi	v0.2d, #0000000000000000
	add	x10, x10, #1
	add	x9, x19, x8
	cmp	x10, x22
	stp	q0, q0, [x19]
	add	x19, x19, x23
	stp	q0, q0, [x9]
	b.lo	.LBB_9ba498_898
	b	.LBB_9ba498_467
.LBB_9ba498_899:
	cmp	x21, #17
	b.hs	.LBB_9ba498_943
	cmp	x21, #8
	b.ls	.LBB_9ba498_971
	mov	x11, #4294967296
	lsl	x9, x9, #2
	mov	x10, xzr
	cmp	x8, x11
	csel	x8, x8, x11, lo
	sub	x8, x9, x8, lsl #2
	sub	x8, x8, #32
.LBB_9ba498_902:
	movi	v0.2d, #0000000000000000
	add	x10, x10, #1
	add	x9, x19, x8
	cmp	x10, x22
	stp	q0, q0, [x19]
	add	x19, x19, x23
	stp	q0, q0, [x9]
	b.lo	.LBB_9ba498_902
	b	.LBB_9ba498_467
.LBB_9ba498_903:
	cmp	x21, #17
	b.hs	.LBB_9ba498_945
	cmp	x21, #8
	b.ls	.LBB_9ba498_973
	mov	x11, #4294967296
	lsl	x9, x9, #2
	mov	x10, xzr
	cmp	x8, x11
	csel	x8, x8, x11, lo
	sub	x8, x9, x8, lsl #2
	sub	x8, x8, #32
.LBB_9ba498_906:
	movi	v0.2d, #0000000000000000
	add	x10, x10, #1
	add	x9, x19, x8
	cmp	x10, x22
	stp	q0, q0, [x19]
	add	x19, x19, x23
	stp	q0, q0, [x9]
	b.lo	.LBB_9ba498_906
	b	.LBB_9ba498_467
.LBB_9ba498_907:
	cmp	x21, #17
	b.hs	.LBB_9ba498_947
	cmp	x21, #8
	b.ls	.LBB_9ba498_975
	mov	x11, #4294967296
	lsl	x9, x9, #2
	mov	x10, xzr
	cmp	x8, x11
	csel	x8, x8, x11, lo
	sub	x8, x9, x8, lsl #2
	sub	x8, x8, #32
.LBB_9ba498_910:
	movi	v0.2d, #0000000000000000
	add	x10, x10, #1
	add	x9, x19, x8
	cmp	x10, x22
	stp	q0, q0, [x19]
	add	x19, x19, x23
	stp	q0, q0, [x9]
	b.lo	.LBB_9ba498_910
	b	.LBB_9ba498_467
.LBB_9ba498_911:
	cmp	x21, #17
	b.hs	.LBB_9ba498_949
	cmp	x21, #8
	b.ls	.LBB_9ba498_977
	mov	x11, #4294967296
	lsl	x9, x9, #2
	mov	x10, xzr
	cmp	x8, x11
	csel	x8, x8, x11, lo
	sub	x8, x9, x8, lsl #2
	sub	x8, x8, #32
.LBB_9ba498_914:
	movi	v0.2d, #0000000000000000
	add	x10, x10, #1
	add	x9, x19, x8
	cmp	x10, x22
	stp	q0, q0, [x19]
	add	x19, x19, x23
	stp	q0, q0, [x9]
	b.lo	.LBB_9ba498_914
	b	.LBB_9ba498_467
.LBB_9ba498_915:
	cmp	x21, #17
	b.hs	.LBB_9ba498_951
	cmp	x21, #8
	b.ls	.LBB_9ba498_979
	mov	x11, #4294967296
	lsl	x9, x9, #2
	mov	x10, xzr
	cmp	x8, x11
	csel	x8, x8, x11, lo
	sub	x8, x9, x8, lsl #2
	sub	x8, x8, #32
.LBB_9ba498_918:
	movi	v0.2d, #0000000000000000
	add	x10, x10, #1
	add	x9, x19, x8
	cmp	x10, x22
	stp	q0, q0, [x19]
	add	x19, x19, x23
	stp	q0, q0, [x9]
	b.lo	.LBB_9ba498_918
	b	.LBB_9ba498_467
.LBB_9ba498_919:
	cmp	x21, #17
	b.hs	.LBB_9ba498_953
	cmp	x21, #8
	b.ls	.LBB_9ba498_981
	mov	x11, #4294967296
	lsl	x9, x9, #2
	mov	x10, xzr
	cmp	x8, x11
	csel	x8, x8, x11, lo
	sub	x8, x9, x8, lsl #2
	sub	x8, x8, #32
.LBB_9ba498_922:
	movi	v0.2d, #0000000000000000
	add	x10, x10, #1
	add	x9, x19, x8
	cmp	x10, x22
	stp	q0, q0, [x19]
	add	x19, x19, x23
	stp	q0, q0, [x9]
	b.lo	.LBB_9ba498_922
	b	.LBB_9ba498_467
.LBB_9ba498_923:
	cmp	x21, #17
	b.hs	.LBB_9ba498_955
	cmp	x21, #8
	b.ls	.LBB_9ba498_983
	mov	x11, #4294967296
	lsl	x9, x9, #2
	mov	x10, xzr
	cmp	x8, x11
	csel	x8, x8, x11, lo
	sub	x8, x9, x8, lsl #2
	sub	x8, x8, #32
.LBB_9ba498_926:
	movi	v0.2d, #0000000000000000
	add	x10, x10, #1
	add	x9, x19, x8
	cmp	x10, x22
	stp	q0, q0, [x19]
	add	x19, x19, x23
	stp	q0, q0, [x9]
	b.lo	.LBB_9ba498_926
	b	.LBB_9ba498_467
.LBB_9ba498_927:
	mov	x11, #4294967296
	lsl	x9, x9, #2
	mov	x10, xzr
	cmp	x8, x11
	csel	x8, x8, x11, lo
	sub	x8, x9, x8, lsl #2
	sub	x8, x8, #64
.LBB_9ba498_928:
	movi	v0.2d, #0000000000000000
	add	x10, x10, #1
	add	x9, x19, x8
	cmp	x10, x22
	stp	q0, q0, [x19]
	stp	q0, q0, [x19, #32]
	add	x19, x19, x23
	stp	q0, q0, [x9]
	stp	q0, q0, [x9, #32]
	b.lo	.LBB_9ba498_928
	b	.LBB_9ba498_467
.LBB_9ba498_929:
	mul	x8, x8, x20
	add	x10, x12, x8
	add	x9, x9, x8
	lsl	x8, x20, #2
	lsl	x10, x10, #2
	lsl	x9, x9, #2
	sub	x10, x10, #64
.LBB_9ba498_930:
	movi	v0.2d, #0000000000000000
	add	x11, x19, x9
	add	x12, x19, x10
	subs	x22, x22, #1
	add	x19, x19, x8
	stp	q0, q0, [x11]
	stp	q0, q0, [x11, #32]
	stp	q0, q0, [x12]
	stp	q0, q0, [x12, #32]
	b.ne	.LBB_9ba498_930
	b	.LBB_9ba498_467
.LBB_9ba498_931:
	mul	x12, x10, x20
	sub	x10, x8, x10
	lsl	x8, x20, #2
	add	x11, x11, x12
	add	x9, x9, x12
	mov	x12, #-4294967296
	lsl	x11, x11, #2
	lsl	x9, x9, #2
	add	x10, x10, x12
	sub	x11, x11, #64
.LBB_9ba498_932:
	movi	v0.2d, #0000000000000000
	add	x12, x19, x9
	add	x13, x19, x11
	subs	x10, x10, #1
	add	x19, x19, x8
	stp	q0, q0, [x12]
	stp	q0, q0, [x12, #32]
	stp	q0, q0, [x13]
	stp	q0, q0, [x13, #32]
	b.ne	.LBB_9ba498_932
	b	.LBB_9ba498_467
.LBB_9ba498_933:
	mov	x11, #4294967296
	lsl	x9, x9, #2
	mov	x10, xzr
	cmp	x8, x11
	csel	x8, x8, x11, lo
	sub	x8, x9, x8, lsl #2
	sub	x8, x8, #64
.LBB_9ba498_934:
	movi	v0.2d, #0000000000000000
	add	x10, x10, #1
	add	x9, x19, x8
	cmp	x10, x22
	stp	q0, q0, [x19]
	stp	q0, q0, [x19, #32]
	add	x19, x19, x23
	stp	q0, q0, [x9]
	stp	q0, q0, [x9, #32]
	b.lo	.LBB_9ba498_934
	b	.LBB_9ba498_467
.LBB_9ba498_935:
	mov	x11, #4294967296
	lsl	x9, x9, #2
	mov	x10, xzr
	cmp	x8, x11
	csel	x8, x8, x11, lo
	sub	x8, x9, x8, lsl #2
	sub	x8, x8, #64
.LBB_9ba498_936:
	movi	v0.2d, #0000000000000000
	add	x10, x10, #1
	add	x9, x19, x8
	cmp	x10, x22
	stp	q0, q0, [x19]
	stp	q0, q0, [x19, #32]
	add	x19, x19, x23
	stp	q0, q0, [x9]
	stp	q0, q0, [x9, #32]
	b.lo	.LBB_9ba498_936
	b	.LBB_9ba498_467
.LBB_9ba498_937:
	mov	x11, #4294967296
	lsl	x9, x9, #2
	mov	x10, xzr
	cmp	x8, x11
	csel	x8, x8, x11, lo
	sub	x8, x9, x8, lsl #2
	sub	x8, x8, #64
.LBB_9ba498_938:
	movi	v0.2d, #0000000000000000
	add	x10, x10, #1
	add	x9, x19, x8
	cmp	x10, x22
	stp	q0, q0, [x19]
	stp	q0, q0, [x19, #32]
	add	x19, x19, x23
	stp	q0, q0, [x9]
	stp	q0, q0, [x9, #32]
	b.lo	.LBB_9ba498_938
	b	.LBB_9ba498_467
.LBB_9ba498_939:
	mov	x11, #4294967296
	lsl	x9, x9, #2
	mov	x10, xzr
	cmp	x8, x11
	csel	x8, x8, x11, lo
	sub	x8, x9, x8, lsl #2
	sub	x8, x8, #64
.LBB_9ba498_940:
	movi	v0.2d, #0000000000000000
	add	x10, x10, #1
	add	x9, x19, x8
	cmp	x10, x22
	stp	q0, q0, [x19]
	stp	q0, q0, [x19, #32]
	add	x19, x19, x23
	stp	q0, q0, [x9]
	stp	q0, q0, [x9, #32]
	b.lo	.LBB_9ba498_940
	b	.LBB_9ba498_467
.LBB_9ba498_941:
	mov	x11, #4294967296
	lsl	x9, x9, #2
	mov	x10, xzr
	cmp	x8, x11
	csel	x8, x8, x11, lo
	sub	x8, x9, x8, lsl #2
	sub	x8, x8, #64
.LBB_9ba498_942:
	movi	v0.2d, #0000000000000000
	add	x10, x10, #1
	add	x9, x19, x8
	cmp	x10, x22
	stp	q0, q0, [x19]
	stp	q0, q0, [x19, #32]
	add	x19, x19, x23
	stp	q0, q0, [x9]
	stp	q0, q0, [x9, #32]
	b.lo	.LBB_9ba498_942
	b	.LBB_9ba498_467
.LBB_9ba498_943:
	mov	x11, #4294967296
	lsl	x9, x9, #2
	mov	x10, xzr
	cmp	x8, x11
	csel	x8, x8, x11, lo
	sub	x8, x9, x8, lsl #2
	sub	x8, x8, #64
.LBB_9ba498_944:
	movi	v0.2d, #0000000000000000
	add	x10, x10, #1
	add	x9, x19, x8
	cmp	x10, x22
	stp	q0, q0, [x19]
	stp	q0, q0, [x19, #32]
	add	x19, x19, x23
	stp	q0, q0, [x9]
	stp	q0, q0, [x9, #32]
	b.lo	.LBB_9ba498_944
	b	.LBB_9ba498_467
.LBB_9ba498_945:
	mov	x11, #4294967296
	lsl	x9, x9, #2
	mov	x10, xzr
	cmp	x8, x11
	csel	x8, x8, x11, lo
	sub	x8, x9, x8, lsl #2
	sub	x8, x8, #64
.LBB_9ba498_946:
	movi	v0.2d, #0000000000000000
	add	x10, x10, #1
	add	x9, x19, x8
	cmp	x10, x22
	stp	q0, q0, [x19]
	stp	q0, q0, [x19, #32]
	add	x19, x19, x23
	stp	q0, q0, [x9]
	stp	q0, q0, [x9, #32]
	b.lo	.LBB_9ba498_946
	b	.LBB_9ba498_467
.LBB_9ba498_947:
	mov	x11, #4294967296
	lsl	x9, x9, #2
	mov	x10, xzr
	cmp	x8, x11
	csel	x8, x8, x11, lo
	sub	x8, x9, x8, lsl #2
	sub	x8, x8, #64
.LBB_9ba498_948:
	movi	v0.2d, #0000000000000000
	add	x10, x10, #1
	add	x9, x19, x8
	cmp	x10, x22
	stp	q0, q0, [x19]
	stp	q0, q0, [x19, #32]
	add	x19, x19, x23
	stp	q0, q0, [x9]
	stp	q0, q0, [x9, #32]
	b.lo	.LBB_9ba498_948
	b	.LBB_9ba498_467
.LBB_9ba498_949:
	mov	x11, #4294967296
	lsl	x9, x9, #2
	mov	x10, xzr
	cmp	x8, x11
	csel	x8, x8, x11, lo
	sub	x8, x9, x8, lsl #2
	sub	x8, x8, #64
.LBB_9ba498_950:
	movi	v0.2d, #0000000000000000
	add	x10, x10, #1
	add	x9, x19, x8
	cmp	x10, x22
	stp	q0, q0, [x19]
	stp	q0, q0, [x19, #32]
	add	x19, x19, x23
	stp	q0, q0, [x9]
	stp	q0, q0, [x9, #32]
	b.lo	.LBB_9ba498_950
	b	.LBB_9ba498_467
.LBB_9ba498_951:
	mov	x11, #4294967296
	lsl	x9, x9, #2
	mov	x10, xzr
	cmp	x8, x11
	csel	x8, x8, x11, lo
	sub	x8, x9, x8, lsl #2
	sub	x8, x8, #64
.LBB_9ba498_952:
	movi	v0.2d, #0000000000000000
	add	x10, x10, #1
	add	x9, x19, x8
	cmp	x10, x22
	stp	q0, q0, [x19]
	stp	q0, q0, [x19, #32]
	add	x19, x19, x23
	stp	q0, q0, [x9]
	stp	q0, q0, [x9, #32]
	b.lo	.LBB_9ba498_952
	b	.LBB_9ba498_467
.LBB_9ba498_953:
	mov	x11, #4294967296
	lsl	x9, x9, #2
	mov	x10, xzr
	cmp	x8, x11
	csel	x8, x8, x11, lo
	sub	x8, x9, x8, lsl #2
	sub	x8, x8, #64
.LBB_9ba498_954:
	movi	v0.2d, #0000000000000000
	add	x10, x10, #1
	add	x9, x19, x8
	cmp	x10, x22
	stp	q0, q0, [x19]
	stp	q0, q0, [x19, #32]
	add	x19, x19, x23
	stp	q0, q0, [x9]
	stp	q0, q0, [x9, #32]
	b.lo	.LBB_9ba498_954
	b	.LBB_9ba498_467
.LBB_9ba498_955:
	mov	x11, #4294967296
	lsl	x9, x9, #2
	mov	x10, xzr
	cmp	x8, x11
	csel	x8, x8, x11, lo
	sub	x8, x9, x8, lsl #2
	sub	x8, x8, #64
.LBB_9ba498_956:
	movi	v0.2d, #0000000000000000
	add	x10, x10, #1
	add	x9, x19, x8
	cmp	x10, x22
	stp	q0, q0, [x19]
	stp	q0, q0, [x19, #32]
	add	x19, x19, x23
	stp	q0, q0, [x9]
	stp	q0, q0, [x9, #32]
	b.lo	.LBB_9ba498_956
	b	.LBB_9ba498_467
.LBB_9ba498_957:
	madd	x8, x8, x20, x9
	lsl	x9, x20, #2
	add	x8, x19, x8, lsl #2
.LBB_9ba498_958:
	movi	v0.2d, #0000000000000000
	subs	x22, x22, #1
	stp	q0, q0, [x8]
	add	x8, x8, x9
	b.ne	.LBB_9ba498_958
	b	.LBB_9ba498_467
.LBB_9ba498_959:
	madd	x9, x10, x20, x9
	sub	x10, x8, x10
	mov	x11, #-4294967296
	add	x10, x10, x11
	add	x8, x19, x9, lsl #2
	lsl	x9, x20, #2
.LBB_9ba498_960:
	movi	v0.2d, #0000000000000000
	subs	x10, x10, #1
	stp	q0, q0, [x8]
	add	x8, x8, x9
	b.ne	.LBB_9ba498_960
	b	.LBB_9ba498_467
.LBB_9ba498_961:
	mov	x8, xzr
.LBB_9ba498_962:
	movi	v0.2d, #0000000000000000
	add	x8, x8, #1
	cmp	x8, x22
	stp	q0, q0, [x19]
	add	x19, x19, x23
	b.lo	.LBB_9ba498_962
	b	.LBB_9ba498_467
.LBB_9ba498_963:
	mov	x8, xzr
.LBB_9ba498_964:
	movi	v0.2d, #0000000000000000
	add	x8, x8, #1
	cmp	x8, x22
	stp	q0, q0, [x19]
	add	x19, x19, x23
	b.lo	.LBB_9ba498_964
	b	.LBB_9ba498_467
.LBB_9ba498_965:
	mov	x8, xzr
.LBB_9ba498_966:
	movi	v0.2d, #0000000000000000
	add	x8, x8, #1
	cmp	x8, x22
	stp	q0, q0, [x19]
	add	x19, x19, x23
	b.lo	.LBB_9ba498_966
	b	.LBB_9ba498_467
.LBB_9ba498_967:
	mov	x8, xzr
.LBB_9ba498_968:
	movi	v0.2d, #0000000000000000
	add	x8, x8, #1
	cmp	x8, x22
	stp	q0, q0, [x19]
	add	x19, x19, x23
	b.lo	.LBB_9ba498_968
	b	.LBB_9ba498_467
.LBB_9ba498_969:
	mov	x8, xzr
.LBB_9ba498_970:
	movi	v0.2d, #0000000000000000
	add	x8, x8, #1
	cmp	x8, x22
	stp	q0, q0, [x19]
	add	x19, x19, x23
	b.lo	.LBB_9ba498_970
	b	.LBB_9ba498_467
.LBB_9ba498_971:
	mov	x8, xzr
.LBB_9ba498_972:
	movi	v0.2d, #0000000000000000
	add	x8, x8, #1
	cmp	x8, x22
	stp	q0, q0, [x19]
	add	x19, x19, x23
	b.lo	.LBB_9ba498_972
	b	.LBB_9ba498_467
.LBB_9ba498_973:
	mov	x8, xzr
.LBB_9ba498_974:
	movi	v0.2d, #0000000000000000
	add	x8, x8, #1
	cmp	x8, x22
	stp	q0, q0, [x19]
	add	x19, x19, x23
	b.lo	.LBB_9ba498_974
	b	.LBB_9ba498_467
.LBB_9ba498_975:
	mov	x8, xzr
.LBB_9ba498_976:
	movi	v0.2d, #0000000000000000
	add	x8, x8, #1
	cmp	x8, x22
	stp	q0, q0, [x19]
	add	x19, x19, x23
	b.lo	.LBB_9ba498_976
	b	.LBB_9ba498_467
.LBB_9ba498_977:
	mov	x8, xzr
.LBB_9ba498_978:
	movi	v0.2d, #0000000000000000
	add	x8, x8, #1
	cmp	x8, x22
	stp	q0, q0, [x19]
	add	x19, x19, x23
	b.lo	.LBB_9ba498_978
	b	.LBB_9ba498_467
.LBB_9ba498_979:
	mov	x8, xzr
.LBB_9ba498_980:
	movi	v0.2d, #0000000000000000
	add	x8, x8, #1
	cmp	x8, x22
	stp	q0, q0, [x19]
	add	x19, x19, x23
	b.lo	.LBB_9ba498_980
	b	.LBB_9ba498_467
.LBB_9ba498_981:
	mov	x8, xzr
.LBB_9ba498_982:
	movi	v0.2d, #0000000000000000
	add	x8, x8, #1
	cmp	x8, x22
	stp	q0, q0, [x19]
	add	x19, x19, x23
	b.lo	.LBB_9ba498_982
	b	.LBB_9ba498_467
.LBB_9ba498_983:
	mov	x8, xzr
.LBB_9ba498_984:
	movi	v0.2d, #0000000000000000
	add	x8, x8, #1
	cmp	x8, x22
	stp	q0, q0, [x19]
	add	x19, x19, x23
	b.lo	.LBB_9ba498_984
	b	.LBB_9ba498_467
.Lfunc_end_9ba498:
	.size	"pix_ops::ops::Op::visit_slice::<#cb634639e69df956>", .Lfunc_end_9ba498-"pix_ops::ops::Op::visit_slice::<#cb634639e69df956>"
	.section	".rodata.pix_ops::ops::Op::visit_slice::<#cb634639e69df956>","a",@progbits
	.p2align	1, 0x0
.LJTI_9ba498_0:
	.hword	(.LBB_9ba498_1-.LBB_9ba498_1)>>2
	.hword	(.LBB_9ba498_65-.LBB_9ba498_1)>>2
	.hword	(.LBB_9ba498_41-.LBB_9ba498_1)>>2
	.hword	(.LBB_9ba498_49-.LBB_9ba498_1)>>2
	.hword	(.LBB_9ba498_17-.LBB_9ba498_1)>>2
	.hword	(.LBB_9ba498_73-.LBB_9ba498_1)>>2
	.hword	(.LBB_9ba498_81-.LBB_9ba498_1)>>2
	.hword	(.LBB_9ba498_57-.LBB_9ba498_1)>>2
	.hword	(.LBB_9ba498_97-.LBB_9ba498_1)>>2
	.hword	(.LBB_9ba498_33-.LBB_9ba498_1)>>2
	.hword	(.LBB_9ba498_89-.LBB_9ba498_1)>>2
	.hword	(.LBB_9ba498_9-.LBB_9ba498_1)>>2
	.hword	(.LBB_9ba498_25-.LBB_9ba498_1)>>2

	.section	".text.pix_raster::command::CommandReadDraw::read::<#880fe2ecd02fbeac>","ax",@progbits
	.p2align	2
	.type	"pix_raster::command::CommandReadDraw::read::<#880fe2ecd02fbeac>",@function
"pix_raster::command::CommandReadDraw::read::<#880fe2ecd02fbeac>":
	sub	sp, sp, #48
	ldrb	w8, [x1]
	stp	xzr, xzr, [sp, #32]
	stp	xzr, xzr, [sp, #16]
	cmp	w8, #3
	stp	xzr, xzr, [sp]
	b.gt	.LBB_9d29d0_4
	cmp	w8, #1
	b.gt	.LBB_9d29d0_6
	cbnz	w8, .LBB_9d29d0_10
	mov	x13, xzr
	mov	x11, xzr
	movi	v0.2d, #0000000000000000
	movi	v1.2d, #0000000000000000
	mov	x10, x8
	mov	x9, x8
	mov	x12, x8
	b	.LBB_9d29d0_13
.LBB_9d29d0_4:
	cmp	w8, #5
	b.gt	.LBB_9d29d0_8
	cmp	w8, #4
	b.eq	.LBB_9d29d0_7
	b	.LBB_9d29d0_11
.LBB_9d29d0_6:
	cmp	w8, #2
	b.ne	.LBB_9d29d0_10
.LBB_9d29d0_7:
	ldr	x12, [x1, #24]
	ldur	q2, [x1, #4]
	mov	x10, xzr
	ldr	q3, [x1, #32]
	mov	x9, xzr
	mov	x11, xzr
	ldr	d0, [x12]
	ldp	x13, x12, [x12, #8]
	movi	v1.2d, #0000000000000000
	b	.LBB_9d29d0_12
.LBB_9d29d0_8:
	cmp	w8, #6
	b.ne	.LBB_9d29d0_11
	ldr	x9, [x1, #24]
	ldr	x10, [x1, #48]
	ldur	q2, [x1, #4]
	ldr	q3, [x1, #32]
	ldr	d0, [x9]
	ldp	x13, x12, [x9, #8]
	ldr	d1, [x10]
	ldr	w9, [x10]
	stp	q3, q2, [sp, #16]
	ldur	q2, [x1, #56]
	ldp	x11, x10, [x10, #8]
	str	q2, [sp]
	b	.LBB_9d29d0_13
.LBB_9d29d0_10:
	ldur	q2, [x1, #4]
	mov	x10, xzr
	mov	x9, xzr
	mov	x12, xzr
	mov	x11, xzr
	movi	v0.2d, #0000000000000000
	movi	v1.2d, #0000000000000000
	add	x13, x1, #20
	str	q2, [sp, #32]
	b	.LBB_9d29d0_13
.LBB_9d29d0_11:
	ldr	x11, [x1, #24]
	movi	v1.2d, #0000000000000000
	ldur	q2, [x1, #4]
	ldr	q3, [x1, #32]
	mov	x10, xzr
	mov	x9, xzr
	ldp	x13, x12, [x11, #8]
	ldr	d0, [x11]
	add	x11, x1, #48
.LBB_9d29d0_12:
	stp	q3, q2, [sp, #16]
.LBB_9d29d0_13:
	str	w8, [x0]
	fmov	w8, s0
	str	d0, [x0, #40]
	ldp	q0, q2, [sp, #16]
	stur	q2, [x0, #4]
	stur	q0, [x0, #56]
	ldr	q0, [sp]
	stp	x13, x12, [x0, #24]
	str	x8, [x0, #48]
	stp	x11, x10, [x0, #72]
	str	d1, [x0, #88]
	str	x9, [x0, #96]
	stur	q0, [x0, #104]
	add	sp, sp, #48
	ret
.Lfunc_end_9d29d0:
	.size	"pix_raster::command::CommandReadDraw::read::<#880fe2ecd02fbeac>", .Lfunc_end_9d29d0-"pix_raster::command::CommandReadDraw::read::<#880fe2ecd02fbeac>"

	.section	".text.pix_el::filled::clear_long::<#c0ead2364dd49755>","ax",@progbits
	.p2align	2
	.type	"pix_el::filled::clear_long::<#c0ead2364dd49755>",@function
"pix_el::filled::clear_long::<#c0ead2364dd49755>":
	lsr	x10, x1, #4
	tst	x1, #0xf
	mov	x8, xzr
	sub	x9, x1, #16
	cinc	x10, x10, ne
.LBB_0b9a62_1:
	cmp	x8, x9
	movi	v0.2d, #0000000000000000
	csel	x11, x8, x9, lo
	subs	x10, x10, #1
	add	x8, x8, #16
	add	x11, x0, x11, lsl #2
	stp	q0, q0, [x11]
	stp	q0, q0, [x11, #32]
	b.ne	.LBB_0b9a62_1
	ret
.Lfunc_end_0b9a62:
	.size	"pix_el::filled::clear_long::<#c0ead2364dd49755>", .Lfunc_end_0b9a62-"pix_el::filled::clear_long::<#c0ead2364dd49755>"

	.section	".text.pix_raster::view::blit_overlap::<#93a319759576dea8>","ax",@progbits
	.p2align	2
	.type	"pix_raster::view::blit_overlap::<#93a319759576dea8>",@function
"pix_raster::view::blit_overlap::<#93a319759576dea8>":
	stp	x29, x30, [sp, #-64]!
	ldp	x9, x8, [x4, #24]
	mov	x29, sp
	stp	x22, x21, [sp, #32]
	stp	x24, x23, [sp, #16]
	subs	x22, x8, x9
	stp	x20, x19, [sp, #48]
	b.ls	.LBB_4805d5_15
	ldp	x8, x10, [x4]
	ldr	x11, [x4, #16]
	ldr	x13, [x4, #40]
	sub	x19, x10, x8
	sub	x12, x19, #65
	cmn	x12, #58
	b.hi	.LBB_4805d5_4
	madd	x10, x13, x3, x11
	lsl	x23, x3, #2
	lsl	x24, x1, #2
	madd	x8, x9, x1, x8
	add	x20, x2, x10, lsl #2
	add	x21, x0, x8, lsl #2
.LBB_4805d5_3:
	mov	x0, x21
	mov	x1, x19
	mov	x2, x20
	mov	x3, x19
	bl	"pix_el::filled::copy_any::<#223ae990351c5656>"
	subs	x22, x22, #1
	add	x20, x20, x23
	add	x21, x21, x24
	b.ne	.LBB_4805d5_3
	b	.LBB_4805d5_15
.LBB_4805d5_4:
	lsl	x12, x19, #2
	cmp	x19, #33
	b.lo	.LBB_4805d5_7
	mul	x14, x9, x1
	sub	x12, x12, #128
	madd	x9, x13, x3, x11
	add	x10, x10, x14
	add	x11, x8, x14
	lsl	x8, x3, #2
	lsl	x13, x10, #2
	lsl	x10, x11, #2
	lsl	x11, x1, #2
	add	x9, x2, x9, lsl #2
	sub	x13, x13, #128
.LBB_4805d5_6:
	ldp	q0, q1, [x9, #96]
	add	x14, x0, x10
	ldp	q2, q3, [x9]
	add	x15, x0, x13
	ldp	q4, q5, [x9, #32]
	subs	x22, x22, #1
	ldp	q6, q7, [x9, #64]
	add	x0, x0, x11
	stp	q2, q3, [x14]
	stp	q4, q5, [x14, #32]
	stp	q6, q7, [x14, #64]
	stp	q0, q1, [x14, #96]
	add	x14, x9, x12
	add	x9, x9, x8
	ldp	q0, q1, [x14, #96]
	ldp	q2, q3, [x14]
	ldp	q4, q5, [x14, #32]
	ldp	q6, q7, [x14, #64]
	stp	q0, q1, [x15, #96]
	stp	q2, q3, [x15]
	stp	q4, q5, [x15, #32]
	stp	q6, q7, [x15, #64]
	b.ne	.LBB_4805d5_6
	b	.LBB_4805d5_15
.LBB_4805d5_7:
	cmp	x19, #17
	b.hs	.LBB_4805d5_11
	cmp	x19, #8
	b.ls	.LBB_4805d5_13
	mul	x14, x9, x1
	sub	x12, x12, #32
	madd	x9, x13, x3, x11
	add	x10, x10, x14
	add	x11, x8, x14
	lsl	x8, x3, #2
	lsl	x13, x10, #2
	lsl	x10, x11, #2
	lsl	x11, x1, #2
	add	x9, x2, x9, lsl #2
	sub	x13, x13, #32
.LBB_4805d5_10:
	ldp	q1, q0, [x9]
	add	x14, x0, x10
	add	x15, x9, x12
	subs	x22, x22, #1
	add	x9, x9, x8
	stp	q1, q0, [x14]
	add	x14, x0, x13
	add	x0, x0, x11
	ldp	q1, q0, [x15]
	stp	q1, q0, [x14]
	b.ne	.LBB_4805d5_10
	b	.LBB_4805d5_15
.LBB_4805d5_11:
	mul	x9, x9, x1
	sub	x12, x12, #64
	madd	x11, x13, x3, x11
	add	x8, x8, x9
	add	x9, x10, x9
	lsl	x13, x9, #2
	lsl	x8, x8, #2
	lsl	x9, x1, #2
	add	x10, x2, x11, lsl #2
	lsl	x11, x3, #2
	sub	x13, x13, #64
.LBB_4805d5_12:
	ldp	q1, q0, [x10, #32]
	add	x14, x0, x8
	ldp	q2, q3, [x10]
	add	x15, x10, x12
	subs	x22, x22, #1
	add	x10, x10, x11
	stp	q1, q0, [x14, #32]
	stp	q2, q3, [x14]
	add	x14, x0, x13
	add	x0, x0, x9
	ldp	q1, q0, [x15, #32]
	ldp	q2, q3, [x15]
	stp	q1, q0, [x14, #32]
	stp	q2, q3, [x14]
	b.ne	.LBB_4805d5_12
	b	.LBB_4805d5_15
.LBB_4805d5_13:
	madd	x10, x13, x3, x11
	madd	x11, x9, x1, x8
	lsl	x9, x3, #2
	add	x8, x2, x10, lsl #2
	add	x10, x0, x11, lsl #2
	lsl	x11, x1, #2
.LBB_4805d5_14:
	ldp	q1, q0, [x8]
	subs	x22, x22, #1
	add	x8, x8, x9
	stp	q1, q0, [x10]
	add	x10, x10, x11
	b.ne	.LBB_4805d5_14
.LBB_4805d5_15:
	ldp	x20, x19, [sp, #48]
	ldp	x22, x21, [sp, #32]
	ldp	x24, x23, [sp, #16]
	ldp	x29, x30, [sp], #64
	ret
.Lfunc_end_4805d5:
	.size	"pix_raster::view::blit_overlap::<#93a319759576dea8>", .Lfunc_end_4805d5-"pix_raster::view::blit_overlap::<#93a319759576dea8>"

	.section	".text.pix_el::filled::copy_any::<#223ae990351c5656>","ax",@progbits
	.p2align	2
	.type	"pix_el::filled::copy_any::<#223ae990351c5656>",@function
"pix_el::filled::copy_any::<#223ae990351c5656>":
	cmp	x3, x1
	sub	x10, x0, x2
	csel	x9, x3, x1, lo
	lsl	x8, x9, #2
	cmp	x10, x8
	b.hs	.LBB_6ff7d7_10
	cbz	x9, .LBB_6ff7d7_9
	cmp	x9, #8
	mov	x8, xzr
	b.lo	.LBB_6ff7d7_7
	cmp	x10, #32
	b.lo	.LBB_6ff7d7_7
	and	x8, x9, #0xfffffffffffffff8
	add	x10, x2, #16
	add	x11, x0, #16
	and	x12, x9, #0xfffffffffffffff8
.LBB_6ff7d7_5:
	ldp	q0, q1, [x10, #-16]
	subs	x12, x12, #8
	add	x10, x10, #32
	stp	q0, q1, [x11, #-16]
	add	x11, x11, #32
	b.ne	.LBB_6ff7d7_5
	cmp	x9, x8
	b.eq	.LBB_6ff7d7_9
.LBB_6ff7d7_7:
	lsl	x10, x8, #2
	sub	x8, x9, x8
	add	x9, x2, x10
	add	x10, x0, x10
.LBB_6ff7d7_8:
	ldr	w11, [x9], #4
	subs	x8, x8, #1
	str	w11, [x10], #4
	b.ne	.LBB_6ff7d7_8
.LBB_6ff7d7_9:
	ret
.LBB_6ff7d7_10:
	mov	x1, x2
	mov	x2, x8
	b	memmove
.Lfunc_end_6ff7d7:
	.size	"pix_el::filled::copy_any::<#223ae990351c5656>", .Lfunc_end_6ff7d7-"pix_el::filled::copy_any::<#223ae990351c5656>"

	.section	".text.pix_raster::view::blit_overlap::<#c5cfb15747d2bb36>","ax",@progbits
	.p2align	2
	.type	"pix_raster::view::blit_overlap::<#c5cfb15747d2bb36>",@function
"pix_raster::view::blit_overlap::<#c5cfb15747d2bb36>":
	stp	x29, x30, [sp, #-80]!
	ldp	x9, x11, [x4, #24]
	mov	x29, sp
	stp	x22, x21, [sp, #48]
	stp	x26, x25, [sp, #16]
	subs	x22, x11, x9
	stp	x24, x23, [sp, #32]
	stp	x20, x19, [sp, #64]
	b.ls	.LBB_1af0b0_28
	ldp	x8, x13, [x4]
	ldr	x10, [x4, #16]
	ldr	x12, [x4, #40]
	sub	x19, x13, x8
	lsl	x17, x19, #2
	cmp	x19, #257
	b.hs	.LBB_1af0b0_5
	sub	x11, x19, #65
	cmn	x11, #58
	b.hi	.LBB_1af0b0_17
	madd	x10, x12, x3, x10
	lsl	x23, x3, #2
	lsl	x24, x1, #2
	madd	x8, x9, x1, x8
	add	x20, x2, x10, lsl #2
	add	x21, x0, x8, lsl #2
.LBB_1af0b0_4:
	mov	x0, x21
	mov	x1, x19
	mov	x2, x20
	mov	x3, x19
	bl	"pix_el::filled::copy_any::<#223ae990351c5656>"
	subs	x22, x22, #1
	add	x20, x20, x23
	add	x21, x21, x24
	b.ne	.LBB_1af0b0_4
	b	.LBB_1af0b0_28
.LBB_1af0b0_5:
	madd	x18, x9, x1, x8
	and	x13, x19, #0xfffffffffffffff0
	ubfx	x5, x19, #2, #2
	lsl	x15, x13, #2
	lsr	x14, x19, #4
	and	x16, x19, #0xf
	madd	x4, x12, x3, x10
	sub	x12, x12, x9
	and	x17, x17, #0x20
	add	x22, x15, x5, lsl #4
	lsl	x5, x3, #2
	add	x21, x0, x18, lsl #2
	and	x18, x19, #0xc
	add	x20, x2, x4, lsl #2
	lsl	x4, x1, #2
	add	x6, x21, #32
	add	x21, x21, x22
	add	x7, x20, #32
	add	x20, x20, x22
	b	.LBB_1af0b0_7
.LBB_1af0b0_6:
	add	x9, x9, #1
	add	x6, x6, x4
	add	x7, x7, x5
	cmp	x9, x11
	add	x20, x20, x5
	add	x21, x21, x4
	b.eq	.LBB_1af0b0_28
.LBB_1af0b0_7:
	add	x23, x12, x9
	madd	x22, x9, x1, x8
	mov	x25, x6
	mov	x26, x14
	madd	x24, x23, x3, x10
	add	x23, x0, x22, lsl #2
	add	x22, x2, x24, lsl #2
	mov	x24, x7
.LBB_1af0b0_8:
	ldp	q0, q1, [x24, #-32]
	subs	x26, x26, #1
	stp	q0, q1, [x25, #-32]
	ldp	q0, q1, [x24], #64
	stp	q0, q1, [x25], #64
	b.ne	.LBB_1af0b0_8
	cmp	x13, x19
	b.eq	.LBB_1af0b0_6
	add	x23, x23, x15
	add	x22, x22, x15
	tbnz	w19, #3, .LBB_1af0b0_13
	tbnz	w19, #2, .LBB_1af0b0_14
.LBB_1af0b0_12:
	cmp	x18, x16
	b.eq	.LBB_1af0b0_6
	b	.LBB_1af0b0_15
.LBB_1af0b0_13:
	ldp	q0, q1, [x22]
	stp	q0, q1, [x23]
	tbz	w19, #2, .LBB_1af0b0_12
.LBB_1af0b0_14:
	ldr	q0, [x22, x17]
	str	q0, [x23, x17]
	cmp	x18, x16
	b.eq	.LBB_1af0b0_6
.LBB_1af0b0_15:
	mov	x22, x21
	mov	x23, x20
	and	x24, x19, #0xc
.LBB_1af0b0_16:
	ldr	w25, [x23], #4
	add	x24, x24, #1
	cmp	x24, x16
	str	w25, [x22], #4
	b.lo	.LBB_1af0b0_16
	b	.LBB_1af0b0_6
.LBB_1af0b0_17:
	cmp	x19, #33
	b.lo	.LBB_1af0b0_20
	mul	x11, x9, x1
	madd	x9, x12, x3, x10
	sub	x12, x17, #128
	add	x10, x13, x11
	add	x11, x8, x11
	lsl	x8, x3, #2
	lsl	x13, x10, #2
	lsl	x10, x1, #2
	lsl	x11, x11, #2
	add	x9, x2, x9, lsl #2
	sub	x13, x13, #128
.LBB_1af0b0_19:
	ldp	q0, q1, [x9, #96]
	add	x14, x0, x11
	ldp	q2, q3, [x9]
	add	x15, x0, x13
	ldp	q4, q5, [x9, #32]
	subs	x22, x22, #1
	ldp	q6, q7, [x9, #64]
	add	x0, x0, x10
	stp	q2, q3, [x14]
	stp	q4, q5, [x14, #32]
	stp	q6, q7, [x14, #64]
	stp	q0, q1, [x14, #96]
	add	x14, x9, x12
	add	x9, x9, x8
	ldp	q0, q1, [x14, #96]
	ldp	q2, q3, [x14]
	ldp	q4, q5, [x14, #32]
	ldp	q6, q7, [x14, #64]
	stp	q0, q1, [x15, #96]
	stp	q2, q3, [x15]
	stp	q4, q5, [x15, #32]
	stp	q6, q7, [x15, #64]
	b.ne	.LBB_1af0b0_19
	b	.LBB_1af0b0_28
.LBB_1af0b0_20:
	cmp	x19, #17
	b.hs	.LBB_1af0b0_24
	cmp	x19, #8
	b.ls	.LBB_1af0b0_26
	mul	x11, x9, x1
	madd	x9, x12, x3, x10
	sub	x12, x17, #32
	add	x10, x13, x11
	add	x11, x8, x11
	lsl	x8, x3, #2
	lsl	x13, x10, #2
	lsl	x10, x1, #2
	lsl	x11, x11, #2
	add	x9, x2, x9, lsl #2
	sub	x13, x13, #32
.LBB_1af0b0_23:
	ldp	q1, q0, [x9]
	add	x14, x0, x11
	add	x15, x9, x12
	subs	x22, x22, #1
	add	x9, x9, x8
	stp	q1, q0, [x14]
	add	x14, x0, x13
	add	x0, x0, x10
	ldp	q1, q0, [x15]
	stp	q1, q0, [x14]
	b.ne	.LBB_1af0b0_23
	b	.LBB_1af0b0_28
.LBB_1af0b0_24:
	mul	x11, x9, x1
	madd	x9, x12, x3, x10
	sub	x12, x17, #64
	add	x10, x13, x11
	add	x11, x8, x11
	lsl	x8, x3, #2
	lsl	x13, x10, #2
	lsl	x10, x1, #2
	lsl	x11, x11, #2
	add	x9, x2, x9, lsl #2
	sub	x13, x13, #64
.LBB_1af0b0_25:
	ldp	q1, q0, [x9, #32]
	add	x14, x0, x11
	ldp	q2, q3, [x9]
	add	x15, x9, x12
	subs	x22, x22, #1
	add	x9, x9, x8
	stp	q1, q0, [x14, #32]
	stp	q2, q3, [x14]
	add	x14, x0, x13
	add	x0, x0, x10
	ldp	q1, q0, [x15, #32]
	ldp	q2, q3, [x15]
	stp	q1, q0, [x14, #32]
	stp	q2, q3, [x14]
	b.ne	.LBB_1af0b0_25
	b	.LBB_1af0b0_28
.LBB_1af0b0_26:
	madd	x10, x12, x3, x10
	madd	x11, x9, x1, x8
	lsl	x9, x3, #2
	add	x8, x2, x10, lsl #2
	add	x10, x0, x11, lsl #2
	lsl	x11, x1, #2
.LBB_1af0b0_27:
	ldp	q1, q0, [x8]
	subs	x22, x22, #1
	add	x8, x8, x9
	stp	q1, q0, [x10]
	add	x10, x10, x11
	b.ne	.LBB_1af0b0_27
.LBB_1af0b0_28:
	ldp	x20, x19, [sp, #64]
	ldp	x22, x21, [sp, #48]
	ldp	x24, x23, [sp, #32]
	ldp	x26, x25, [sp, #16]
	ldp	x29, x30, [sp], #80
	ret
.Lfunc_end_1af0b0:
	.size	"pix_raster::view::blit_overlap::<#c5cfb15747d2bb36>", .Lfunc_end_1af0b0-"pix_raster::view::blit_overlap::<#c5cfb15747d2bb36>"

	.section	.rodata.cst16,"aM",@progbits,16
	.p2align	4, 0x0
.LCPI_24379e_0:
	.word	0
	.word	4294967288
	.word	4294967280
	.word	4294967272
.LCPI_24379e_1:
	.byte	255
	.byte	0
	.byte	255
	.byte	2
	.byte	255
	.byte	4
	.byte	255
	.byte	6
	.byte	255
	.byte	8
	.byte	255
	.byte	10
	.byte	255
	.byte	12
	.byte	255
	.byte	14
.LCPI_24379e_2:
	.byte	0
	.byte	0
	.byte	0
	.byte	0
	.byte	1
	.byte	1
	.byte	1
	.byte	1
	.byte	2
	.byte	2
	.byte	2
	.byte	2
	.byte	3
	.byte	3
	.byte	3
	.byte	3
	.section	".text.pix_raster::view::blit_overlap::<#a1852713be2e9a48>","ax",@progbits
	.p2align	2
	.type	"pix_raster::view::blit_overlap::<#a1852713be2e9a48>",@function
"pix_raster::view::blit_overlap::<#a1852713be2e9a48>":
	ldp	x8, x9, [x4, #24]
	cmp	x8, x9
	b.hs	.LBB_24379e_21
	sub	sp, sp, #112
	dup	v0.4s, w5
	adrp	x10, .LCPI_24379e_0
	ldr	x17, [x4, #40]
	ldr	q1, [x10, :lo12:.LCPI_24379e_0]
	ldp	x14, x16, [x4, #8]
	ldr	x10, [x4]
	stp	x24, x23, [sp, #64]
	madd	x24, x17, x3, x16
	ushl	v1.4s, v0.4s, v1.4s
	stp	x20, x19, [sp, #96]
	sub	x15, x17, x8
	madd	x19, x8, x1, x10
	sub	x14, x14, x10
	stp	x26, x25, [sp, #48]
	and	x4, x14, #0x8
	stp	x22, x21, [sp, #80]
	and	x17, x14, #0xfffffffffffffff0
	uzp1	v0.8h, v1.8h, v1.8h
	lsl	x22, x14, #2
	lsl	x4, x4, #2
	umov	w25, v1.h[4]
	and	w11, w5, #0xff
	ubfx	w12, w5, #8, #8
	and	x5, x14, #0xc
	lsr	x23, x17, #4
	umov	w20, v1.h[6]
	stp	x30, x4, [sp, #16]
	add	x26, x17, x5
	and	x4, x22, #0x30
	uzp1	v0.16b, v0.16b, v0.16b
	stp	x28, x27, [sp, #32]
	add	x13, x2, x16
	lsr	x16, x14, #4
	lsl	x6, x17, #2
	add	x19, x0, x19, lsl #2
	lsl	x21, x1, #2
	add	x26, x2, x26
	add	x27, x24, x2
	bfi	x4, x23, #6, #58
	and	x18, x14, #0xf
	and	w2, w25, #0xff
	ushr	v1.8h, v0.8h, #8
	bic	v0.8h, #255, lsl #8
	add	x23, x27, #8
	add	x24, x26, x24
	str	x4, [sp, #8]
	b	.LBB_24379e_3
.LBB_24379e_2:
	add	x8, x8, #1
	add	x19, x19, x21
	add	x23, x23, x3
	cmp	x8, x9
	add	x24, x24, x3
	b.eq	.LBB_24379e_20
.LBB_24379e_3:
	adrp	x25, .LCPI_24379e_1
	cbz	x16, .LBB_24379e_8
	mov	x26, x23
	mov	x27, x19
	mov	x28, x16
	b	.LBB_24379e_6
.LBB_24379e_5:
	zip1	v2.16b, v2.16b, v2.16b
	movi	v3.8h, #1
	movi	v6.8h, #128
	movi	v7.8h, #128
	movi	v17.8h, #128
	movi	v18.8h, #128
	ushll	v4.4s, v2.4h, #0
	ushll2	v2.4s, v2.8h, #0
	mul	v4.4s, v4.4s, v3.4s
	mul	v5.4s, v2.4s, v3.4s
	ushr	v2.8h, v4.8h, #8
	ushr	v16.8h, v5.8h, #8
	bic	v4.8h, #255, lsl #8
	bic	v5.8h, #255, lsl #8
	mla	v6.8h, v2.8h, v1.8h
	movi	v2.16b, #1
	mla	v7.8h, v16.8h, v1.8h
	mla	v18.8h, v4.8h, v0.8h
	mla	v17.8h, v5.8h, v0.8h
	umull2	v4.4s, v6.8h, v2.8h
	umull	v6.4s, v6.4h, v2.4h
	umull2	v5.4s, v7.8h, v2.8h
	umull	v7.4s, v7.4h, v2.4h
	umull2	v16.4s, v18.8h, v2.8h
	umull	v18.4s, v18.4h, v2.4h
	umull2	v19.4s, v17.8h, v2.8h
	umull	v17.4s, v17.4h, v2.4h
	uzp2	v6.8h, v6.8h, v4.8h
	ldr	q4, [x25, :lo12:.LCPI_24379e_1]
	uzp2	v5.8h, v7.8h, v5.8h
	uzp2	v7.8h, v18.8h, v16.8h
	movi	v18.8h, #128
	uzp2	v16.8h, v17.8h, v19.8h
	tbl	v6.16b, { v6.16b }, v4.16b
	tbl	v5.16b, { v5.16b }, v4.16b
	orr	v6.16b, v6.16b, v7.16b
	movi	v7.8h, #128
	orr	v5.16b, v5.16b, v16.16b
	stp	q6, q5, [x27]
	ldr	d5, [x26], #16
	zip1	v5.16b, v5.16b, v5.16b
	ushll	v6.4s, v5.4h, #0
	ushll2	v5.4s, v5.8h, #0
	mul	v6.4s, v6.4s, v3.4s
	mul	v3.4s, v5.4s, v3.4s
	movi	v5.8h, #128
	ushr	v16.8h, v6.8h, #8
	ushr	v17.8h, v3.8h, #8
	bic	v6.8h, #255, lsl #8
	bic	v3.8h, #255, lsl #8
	mla	v5.8h, v16.8h, v1.8h
	movi	v16.8h, #128
	mla	v7.8h, v17.8h, v1.8h
	mla	v18.8h, v3.8h, v0.8h
	mla	v16.8h, v6.8h, v0.8h
	umull2	v6.4s, v5.8h, v2.8h
	umull	v5.4s, v5.4h, v2.4h
	umull2	v3.4s, v7.8h, v2.8h
	umull	v7.4s, v7.4h, v2.4h
	umull2	v17.4s, v16.8h, v2.8h
	umull	v16.4s, v16.4h, v2.4h
	uzp2	v5.8h, v5.8h, v6.8h
	umull2	v6.4s, v18.8h, v2.8h
	umull	v2.4s, v18.4h, v2.4h
	uzp2	v3.8h, v7.8h, v3.8h
	uzp2	v7.8h, v16.8h, v17.8h
	tbl	v5.16b, { v5.16b }, v4.16b
	uzp2	v2.8h, v2.8h, v6.8h
	tbl	v3.16b, { v3.16b }, v4.16b
	orr	v4.16b, v5.16b, v7.16b
	orr	v2.16b, v3.16b, v2.16b
	stp	q4, q2, [x27, #32]
	subs	x28, x28, #1
	add	x27, x27, #64
	b.eq	.LBB_24379e_8
.LBB_24379e_6:
	ldp	d2, d3, [x26, #-8]
	orr	v3.8b, v3.8b, v2.8b
	fmov	x30, d3
	orr	x30, x30, x30, lsr #32
	lsr	x4, x30, #16
	orr	w4, w30, w4
	orr	w4, w4, w4, lsr #8
	tst	w4, #0xff
	b.ne	.LBB_24379e_5
	movi	v2.2d, #0000000000000000
	stp	q2, q2, [x27]
	stp	q2, q2, [x27, #32]
	subs	x28, x28, #1
	add	x26, x26, #16
	add	x27, x27, #64
	b.ne	.LBB_24379e_6
.LBB_24379e_8:
	cmp	x17, x14
	b.eq	.LBB_24379e_2
	madd	x4, x8, x1, x10
	add	x26, x15, x8
	madd	x27, x26, x3, x13
	add	x4, x0, x4, lsl #2
	add	x26, x4, x6
	add	x27, x27, x17
	tbnz	w14, #3, .LBB_24379e_12
	tbnz	w14, #2, .LBB_24379e_15
.LBB_24379e_11:
	and	x4, x14, #0xc
	cmp	x4, x18
	b.eq	.LBB_24379e_2
	b	.LBB_24379e_18
.LBB_24379e_12:
	ldr	d2, [x27]
	fmov	x4, d2
	orr	x4, x4, x4, lsr #32
	lsr	x28, x4, #16
	orr	w4, w4, w28
	orr	w4, w4, w4, lsr #8
	tst	w4, #0xff
	b.eq	.LBB_24379e_14
	zip1	v2.16b, v2.16b, v2.16b
	movi	v3.8h, #1
	movi	v5.8h, #128
	movi	v16.8h, #128
	movi	v17.8h, #128
	ushll	v4.4s, v2.4h, #0
	ushll2	v2.4s, v2.8h, #0
	mul	v4.4s, v4.4s, v3.4s
	mul	v2.4s, v2.4s, v3.4s
	movi	v3.8h, #128
	ushr	v6.8h, v4.8h, #8
	ushr	v7.8h, v2.8h, #8
	bic	v4.8h, #255, lsl #8
	bic	v2.8h, #255, lsl #8
	mla	v3.8h, v6.8h, v1.8h
	movi	v6.16b, #1
	mla	v5.8h, v7.8h, v1.8h
	mla	v17.8h, v4.8h, v0.8h
	mla	v16.8h, v2.8h, v0.8h
	umull2	v4.4s, v3.8h, v6.8h
	umull	v3.4s, v3.4h, v6.4h
	umull2	v2.4s, v5.8h, v6.8h
	umull	v5.4s, v5.4h, v6.4h
	umull2	v7.4s, v17.8h, v6.8h
	umull	v17.4s, v17.4h, v6.4h
	uzp2	v3.8h, v3.8h, v4.8h
	umull2	v4.4s, v16.8h, v6.8h
	umull	v6.4s, v16.4h, v6.4h
	uzp2	v2.8h, v5.8h, v2.8h
	ldr	q5, [x25, :lo12:.LCPI_24379e_1]
	uzp2	v7.8h, v17.8h, v7.8h
	tbl	v3.16b, { v3.16b }, v5.16b
	uzp2	v4.8h, v6.8h, v4.8h
	tbl	v2.16b, { v2.16b }, v5.16b
	orr	v3.16b, v3.16b, v7.16b
	orr	v2.16b, v2.16b, v4.16b
	stp	q3, q2, [x26]
	tbz	w14, #2, .LBB_24379e_11
	b	.LBB_24379e_15
.LBB_24379e_14:
	movi	v2.2d, #0000000000000000
	stp	q2, q2, [x26]
	tbz	w14, #2, .LBB_24379e_11
.LBB_24379e_15:
	and	x4, x14, #0x8
	ldr	x5, [sp, #24]
	ldr	s2, [x27, x4]
	add	x26, x26, x5
	dup	v3.16b, v2.b[1]
	dup	v4.16b, v2.b[2]
	dup	v5.16b, v2.b[3]
	orr	v3.16b, v3.16b, v4.16b
	orr	v4.16b, v5.16b, v2.16b
	orr	v3.16b, v3.16b, v4.16b
	umov	w4, v3.b[0]
	cbz	w4, .LBB_24379e_17
	adrp	x4, .LCPI_24379e_2
	movi	v5.8h, #128
	movi	v6.16b, #1
	ldr	q3, [x4, :lo12:.LCPI_24379e_2]
	tbl	v2.16b, { v2.16b }, v3.16b
	movi	v3.8h, #128
	ushr	v4.8h, v2.8h, #8
	bic	v2.8h, #255, lsl #8
	mla	v3.8h, v4.8h, v1.8h
	mla	v5.8h, v2.8h, v0.8h
	umull2	v2.4s, v3.8h, v6.8h
	umull	v3.4s, v3.4h, v6.4h
	umull2	v4.4s, v5.8h, v6.8h
	umull	v5.4s, v5.4h, v6.4h
	uzp2	v2.8h, v3.8h, v2.8h
	ldr	q3, [x25, :lo12:.LCPI_24379e_1]
	uzp2	v4.8h, v5.8h, v4.8h
	tbl	v2.16b, { v2.16b }, v3.16b
	orr	v2.16b, v2.16b, v4.16b
	str	q2, [x26]
	and	x4, x14, #0xc
	cmp	x4, x18
	b.eq	.LBB_24379e_2
	b	.LBB_24379e_18
.LBB_24379e_17:
	stp	xzr, xzr, [x26]
	and	x4, x14, #0xc
	cmp	x4, x18
	b.eq	.LBB_24379e_2
.LBB_24379e_18:
	ldr	x25, [sp, #8]
	mov	x26, x24
	and	x27, x14, #0xc
.LBB_24379e_19:
	ldrb	w4, [x26], #1
	mov	w28, #128
	add	x27, x27, #1
	madd	w30, w2, w4, w28
	cmp	x27, x18
	madd	w5, w20, w4, w28
	and	w7, w30, #0xff00
	and	w22, w5, #0xff00
	add	w7, w30, w7, lsr #8
	madd	w30, w12, w4, w28
	add	w5, w5, w22, lsr #8
	madd	w4, w11, w4, w28
	lsl	w7, w7, #8
	lsl	w5, w5, #16
	and	w22, w30, #0xff00
	add	w22, w30, w22, lsr #8
	bfxil	w5, w7, #0, #24
	and	w7, w4, #0xff00
	add	w4, w4, w7, lsr #8
	bfxil	w5, w22, #0, #16
	bfxil	w5, w4, #8, #8
	str	w5, [x19, x25]
	add	x25, x25, #4
	b.lo	.LBB_24379e_19
	b	.LBB_24379e_2
.LBB_24379e_20:
	ldp	x20, x19, [sp, #96]
	ldr	x30, [sp, #16]
	ldp	x22, x21, [sp, #80]
	ldp	x24, x23, [sp, #64]
	ldp	x26, x25, [sp, #48]
	ldp	x28, x27, [sp, #32]
	add	sp, sp, #112
.LBB_24379e_21:
	ret
.Lfunc_end_24379e:
	.size	"pix_raster::view::blit_overlap::<#a1852713be2e9a48>", .Lfunc_end_24379e-"pix_raster::view::blit_overlap::<#a1852713be2e9a48>"

	.section	.rodata.cst16,"aM",@progbits,16
	.p2align	4, 0x0
.LCPI_0fd7f9_0:
	.byte	255
	.byte	0
	.byte	255
	.byte	2
	.byte	255
	.byte	4
	.byte	255
	.byte	6
	.byte	255
	.byte	8
	.byte	255
	.byte	10
	.byte	255
	.byte	12
	.byte	255
	.byte	14
	.section	.rodata.cst8,"aM",@progbits,8
	.p2align	3, 0x0
.LCPI_0fd7f9_1:
	.word	4294967280
	.word	4294967272
.LCPI_0fd7f9_2:
	.word	8
	.word	16
	.section	".text.pix_raster::view::blit_overlap::<#c5504568367a188d>","ax",@progbits
	.p2align	2
	.type	"pix_raster::view::blit_overlap::<#c5504568367a188d>",@function
"pix_raster::view::blit_overlap::<#c5504568367a188d>":
	ldp	x8, x9, [x4, #24]
	cmp	x8, x9
	b.hs	.LBB_0fd7f9_15
	str	x30, [sp, #-96]!
	ldp	x10, x12, [x4]
	dup	v0.16b, w5
	ldr	x14, [x4, #40]
	madd	x6, x8, x1, x10
	ldr	x11, [x4, #16]
	stp	x20, x19, [sp, #80]
	and	w5, w5, #0xff
	madd	x7, x14, x3, x11
	sub	x12, x12, x10
	stp	x24, x23, [sp, #48]
	and	x15, x12, #0xfffffffffffffff0
	lsl	x19, x12, #2
	stp	x22, x21, [sp, #64]
	lsr	x20, x15, #4
	ushr	v1.8h, v0.8h, #8
	bic	v0.8h, #255, lsl #8
	and	x23, x19, #0x30
	add	x22, x0, x6, lsl #2
	fmov	s2, w5
	bfi	x23, x20, #6, #58
	sub	x13, x14, x8
	lsr	x14, x12, #4
	add	x21, x2, x7, lsl #2
	lsl	x16, x15, #2
	and	x18, x19, #0x20
	lsl	x7, x1, #2
	lsl	x19, x3, #2
	and	x17, x12, #0xf
	and	x4, x12, #0xc
	add	x6, x22, #32
	add	x20, x21, #32
	add	x21, x21, x23
	add	x22, x22, x23
	stp	x28, x27, [sp, #16]
	stp	x26, x25, [sp, #32]
	b	.LBB_0fd7f9_3
.LBB_0fd7f9_2:
	add	x8, x8, #1
	add	x6, x6, x7
	add	x20, x20, x19
	cmp	x8, x9
	add	x21, x21, x19
	add	x22, x22, x7
	b.eq	.LBB_0fd7f9_14
.LBB_0fd7f9_3:
	adrp	x23, .LCPI_0fd7f9_0
	cbz	x14, .LBB_0fd7f9_6
	mov	x24, x20
	mov	x25, x6
	mov	x26, x14
.LBB_0fd7f9_5:
	ldp	q4, q5, [x24, #-32]
	movi	v6.8h, #128
	movi	v7.8h, #128
	movi	v18.8h, #128
	movi	v19.8h, #128
	movi	v3.16b, #1
	subs	x26, x26, #1
	ushr	v16.8h, v4.8h, #8
	ushr	v17.8h, v5.8h, #8
	bic	v4.8h, #255, lsl #8
	bic	v5.8h, #255, lsl #8
	mla	v6.8h, v16.8h, v1.8h
	mla	v7.8h, v17.8h, v1.8h
	mla	v19.8h, v4.8h, v0.8h
	mla	v18.8h, v5.8h, v0.8h
	umull2	v4.4s, v6.8h, v3.8h
	umull	v6.4s, v6.4h, v3.4h
	umull2	v5.4s, v7.8h, v3.8h
	umull	v7.4s, v7.4h, v3.4h
	umull2	v16.4s, v19.8h, v3.8h
	umull	v17.4s, v19.4h, v3.4h
	umull2	v19.4s, v18.8h, v3.8h
	umull	v18.4s, v18.4h, v3.4h
	uzp2	v6.8h, v6.8h, v4.8h
	ldr	q4, [x23, :lo12:.LCPI_0fd7f9_0]
	uzp2	v5.8h, v7.8h, v5.8h
	uzp2	v7.8h, v17.8h, v16.8h
	uzp2	v16.8h, v18.8h, v19.8h
	movi	v19.8h, #128
	tbl	v6.16b, { v6.16b }, v4.16b
	tbl	v5.16b, { v5.16b }, v4.16b
	orr	v6.16b, v6.16b, v7.16b
	orr	v5.16b, v5.16b, v16.16b
	movi	v16.8h, #128
	stp	q6, q5, [x25, #-32]
	movi	v6.8h, #128
	ldp	q5, q7, [x24], #64
	ushr	v17.8h, v5.8h, #8
	ushr	v18.8h, v7.8h, #8
	bic	v5.8h, #255, lsl #8
	bic	v7.8h, #255, lsl #8
	mla	v6.8h, v17.8h, v1.8h
	movi	v17.8h, #128
	mla	v16.8h, v18.8h, v1.8h
	mla	v19.8h, v7.8h, v0.8h
	mla	v17.8h, v5.8h, v0.8h
	umull2	v5.4s, v6.8h, v3.8h
	umull	v6.4s, v6.4h, v3.4h
	umull2	v7.4s, v16.8h, v3.8h
	umull	v16.4s, v16.4h, v3.4h
	umull2	v18.4s, v17.8h, v3.8h
	umull	v17.4s, v17.4h, v3.4h
	uzp2	v5.8h, v6.8h, v5.8h
	umull2	v6.4s, v19.8h, v3.8h
	umull	v3.4s, v19.4h, v3.4h
	uzp2	v7.8h, v16.8h, v7.8h
	uzp2	v16.8h, v17.8h, v18.8h
	tbl	v5.16b, { v5.16b }, v4.16b
	uzp2	v3.8h, v3.8h, v6.8h
	tbl	v4.16b, { v7.16b }, v4.16b
	orr	v5.16b, v5.16b, v16.16b
	orr	v3.16b, v4.16b, v3.16b
	stp	q5, q3, [x25], #64
	b.ne	.LBB_0fd7f9_5
.LBB_0fd7f9_6:
	cmp	x15, x12
	b.eq	.LBB_0fd7f9_2
	add	x25, x13, x8
	madd	x24, x8, x1, x10
	madd	x25, x25, x3, x11
	add	x24, x0, x24, lsl #2
	add	x25, x2, x25, lsl #2
	add	x24, x24, x16
	add	x25, x25, x16
	tbnz	w12, #3, .LBB_0fd7f9_10
	tbnz	w12, #2, .LBB_0fd7f9_11
.LBB_0fd7f9_9:
	cmp	x4, x17
	b.eq	.LBB_0fd7f9_2
	b	.LBB_0fd7f9_12
.LBB_0fd7f9_10:
	ldp	q3, q4, [x25]
	movi	v5.8h, #128
	movi	v6.8h, #128
	movi	v17.8h, #128
	movi	v18.8h, #128
	ushr	v7.8h, v3.8h, #8
	ushr	v16.8h, v4.8h, #8
	bic	v3.8h, #255, lsl #8
	bic	v4.8h, #255, lsl #8
	mla	v5.8h, v7.8h, v1.8h
	movi	v7.16b, #1
	mla	v6.8h, v16.8h, v1.8h
	mla	v18.8h, v3.8h, v0.8h
	mla	v17.8h, v4.8h, v0.8h
	umull2	v3.4s, v5.8h, v7.8h
	umull	v5.4s, v5.4h, v7.4h
	umull2	v4.4s, v6.8h, v7.8h
	umull	v6.4s, v6.4h, v7.4h
	umull2	v16.4s, v18.8h, v7.8h
	umull	v18.4s, v18.4h, v7.4h
	uzp2	v3.8h, v5.8h, v3.8h
	umull2	v5.4s, v17.8h, v7.8h
	umull	v7.4s, v17.4h, v7.4h
	uzp2	v4.8h, v6.8h, v4.8h
	ldr	q6, [x23, :lo12:.LCPI_0fd7f9_0]
	uzp2	v16.8h, v18.8h, v16.8h
	tbl	v3.16b, { v3.16b }, v6.16b
	uzp2	v5.8h, v7.8h, v5.8h
	tbl	v4.16b, { v4.16b }, v6.16b
	orr	v3.16b, v3.16b, v16.16b
	orr	v4.16b, v4.16b, v5.16b
	stp	q3, q4, [x24]
	tbz	w12, #2, .LBB_0fd7f9_9
.LBB_0fd7f9_11:
	ldr	q3, [x25, x18]
	movi	v4.8h, #128
	movi	v6.8h, #128
	movi	v7.16b, #1
	ushr	v5.8h, v3.8h, #8
	bic	v3.8h, #255, lsl #8
	mla	v4.8h, v5.8h, v1.8h
	mla	v6.8h, v3.8h, v0.8h
	umull2	v3.4s, v4.8h, v7.8h
	umull	v4.4s, v4.4h, v7.4h
	umull2	v5.4s, v6.8h, v7.8h
	umull	v6.4s, v6.4h, v7.4h
	uzp2	v3.8h, v4.8h, v3.8h
	ldr	q4, [x23, :lo12:.LCPI_0fd7f9_0]
	uzp2	v5.8h, v6.8h, v5.8h
	tbl	v3.16b, { v3.16b }, v4.16b
	orr	v3.16b, v3.16b, v5.16b
	str	q3, [x24, x18]
	cmp	x4, x17
	b.eq	.LBB_0fd7f9_2
.LBB_0fd7f9_12:
	mov	x23, x22
	mov	x24, x21
	and	x25, x12, #0xc
.LBB_0fd7f9_13:
	ldr	w26, [x24], #4
	adrp	x27, .LCPI_0fd7f9_1
	ldr	d4, [x27, :lo12:.LCPI_0fd7f9_1]
	adrp	x27, .LCPI_0fd7f9_2
	mov	w28, #128
	dup	v3.2s, w26
	add	x25, x25, #1
	cmp	x25, x17
	ushl	v3.2s, v3.2s, v4.2s
	mov	s4, v3.s[1]
	str	h3, [sp, #12]
	str	h4, [sp, #14]
	movi	v4.2s, #128
	ldr	s3, [sp, #12]
	zip1	v3.8b, v3.8b, v3.8b
	mov	v3.h[1], wzr
	uzp1	v3.8b, v3.8b, v0.8b
	ushll	v3.4s, v3.4h, #0
	mla	v4.2s, v3.2s, v2.s[0]
	movi	d3, #0x00ffff0000ffff
	and	v5.8b, v4.8b, v3.8b
	usra	v4.2s, v5.2s, #8
	movi	d5, #0xff000000ffff0000
	and	v3.8b, v4.8b, v3.8b
	ldr	d4, [x27, :lo12:.LCPI_0fd7f9_2]
	ubfx	w27, w26, #8, #8
	and	w26, w26, #0xff
	madd	w27, w27, w5, w28
	ushl	v3.2s, v3.2s, v4.2s
	madd	w26, w26, w5, w28
	and	w28, w27, #0xff00
	and	v3.8b, v3.8b, v5.8b
	and	w30, w26, #0xff00
	add	w27, w27, w28, lsr #8
	add	w26, w26, w30, lsr #8
	and	w27, w27, #0xff00
	dup	v4.2s, v3.s[1]
	and	w26, w26, #0xff00
	orr	v3.8b, v3.8b, v4.8b
	fmov	w28, s3
	orr	w27, w28, w27
	orr	w26, w27, w26, lsr #8
	str	w26, [x23], #4
	b.lo	.LBB_0fd7f9_13
	b	.LBB_0fd7f9_2
.LBB_0fd7f9_14:
	ldp	x20, x19, [sp, #80]
	ldp	x22, x21, [sp, #64]
	ldp	x24, x23, [sp, #48]
	ldp	x26, x25, [sp, #32]
	ldp	x28, x27, [sp, #16]
	ldr	x30, [sp], #96
.LBB_0fd7f9_15:
	ret
.Lfunc_end_0fd7f9:
	.size	"pix_raster::view::blit_overlap::<#c5504568367a188d>", .Lfunc_end_0fd7f9-"pix_raster::view::blit_overlap::<#c5504568367a188d>"

	.section	.rodata.cst16,"aM",@progbits,16
	.p2align	4, 0x0
.LCPI_ac4e62_0:
	.byte	0
	.byte	255
	.byte	0
	.byte	255
	.byte	4
	.byte	255
	.byte	4
	.byte	255
	.byte	8
	.byte	255
	.byte	8
	.byte	255
	.byte	12
	.byte	255
	.byte	12
	.byte	255
.LCPI_ac4e62_1:
	.byte	255
	.byte	0
	.byte	255
	.byte	2
	.byte	255
	.byte	4
	.byte	255
	.byte	6
	.byte	255
	.byte	8
	.byte	255
	.byte	10
	.byte	255
	.byte	12
	.byte	255
	.byte	14
.LCPI_ac4e62_2:
	.byte	0
	.byte	0
	.byte	0
	.byte	0
	.byte	4
	.byte	4
	.byte	4
	.byte	4
	.byte	8
	.byte	8
	.byte	8
	.byte	8
	.byte	12
	.byte	12
	.byte	12
	.byte	12
.LCPI_ac4e62_4:
	.word	4294967280
	.word	4294967272
	.word	4294967288
	.word	0
.LCPI_ac4e62_5:
	.word	16
	.word	24
	.word	8
	.word	0
	.section	.rodata.cst8,"aM",@progbits,8
	.p2align	3, 0x0
.LCPI_ac4e62_3:
	.word	4294967280
	.word	4294967272
	.section	".text.pix_raster::view::blit_overlap::<#c30dc3dde8429fd7>","ax",@progbits
	.p2align	2
	.type	"pix_raster::view::blit_overlap::<#c30dc3dde8429fd7>",@function
"pix_raster::view::blit_overlap::<#c30dc3dde8429fd7>":
	ldp	x8, x9, [x4, #24]
	cmp	x8, x9
	b.hs	.LBB_ac4e62_15
	str	x27, [sp, #-80]!
	ldr	x16, [x4, #40]
	ldp	x13, x10, [x4, #8]
	ldr	x11, [x4]
	madd	x6, x8, x1, x11
	lsl	x12, x3, #2
	stp	x20, x19, [sp, #64]
	lsl	x14, x1, #2
	madd	x5, x16, x3, x10
	sub	x13, x13, x11
	stp	x22, x21, [sp, #48]
	and	x15, x13, #0xfffffffffffffff0
	lsl	x7, x13, #2
	lsr	x17, x13, #4
	lsr	x19, x15, #4
	sub	x16, x16, x8
	and	x18, x13, #0xf
	and	x21, x7, #0x30
	add	x22, x0, x6, lsl #2
	and	x4, x13, #0xc
	bfi	x21, x19, #6, #58
	and	x6, x7, #0x20
	stp	x26, x25, [sp, #16]
	add	x20, x2, x5, lsl #2
	lsl	x5, x15, #2
	add	x19, x22, #32
	stp	x24, x23, [sp, #32]
	add	x7, x20, #32
	add	x20, x20, x21
	add	x21, x22, x21
	b	.LBB_ac4e62_3
.LBB_ac4e62_2:
	add	x8, x8, #1
	add	x7, x7, x12
	add	x19, x19, x14
	cmp	x8, x9
	add	x20, x20, x12
	add	x21, x21, x14
	b.eq	.LBB_ac4e62_14
.LBB_ac4e62_3:
	adrp	x23, .LCPI_ac4e62_0
	adrp	x22, .LCPI_ac4e62_1
	cbz	x17, .LBB_ac4e62_6
	mov	x24, x19
	mov	x25, x7
	mov	x26, x17
.LBB_ac4e62_5:
	ldp	q4, q3, [x25, #-32]
	movi	v7.8h, #128
	ldp	q6, q5, [x24, #-32]
	movi	v16.8h, #128
	movi	v20.8h, #128
	subs	x26, x26, #1
	mvn	v0.16b, v3.16b
	mvn	v1.16b, v4.16b
	ushr	v17.8h, v5.8h, #8
	ushr	v19.8h, v6.8h, #8
	bic	v6.8h, #255, lsl #8
	bic	v5.8h, #255, lsl #8
	ushr	v2.4s, v0.4s, #24
	ushr	v1.4s, v1.4s, #24
	ldr	q0, [x23, :lo12:.LCPI_ac4e62_0]
	tbl	v2.16b, { v2.16b }, v0.16b
	tbl	v18.16b, { v1.16b }, v0.16b
	movi	v1.16b, #1
	mla	v7.8h, v17.8h, v2.8h
	mla	v16.8h, v19.8h, v18.8h
	movi	v17.8h, #128
	mla	v20.8h, v6.8h, v18.8h
	umull2	v6.4s, v16.8h, v1.8h
	umull	v16.4s, v16.4h, v1.4h
	mla	v17.8h, v5.8h, v2.8h
	umull2	v2.4s, v7.8h, v1.8h
	umull	v5.4s, v7.4h, v1.4h
	umull2	v7.4s, v20.8h, v1.8h
	umull	v18.4s, v20.4h, v1.4h
	uzp2	v6.8h, v16.8h, v6.8h
	umull2	v16.4s, v17.8h, v1.8h
	umull	v17.4s, v17.4h, v1.4h
	uzp2	v5.8h, v5.8h, v2.8h
	ldr	q2, [x22, :lo12:.LCPI_ac4e62_1]
	uzp2	v7.8h, v18.8h, v7.8h
	movi	v18.8h, #128
	tbl	v6.16b, { v6.16b }, v2.16b
	uzp2	v16.8h, v17.8h, v16.8h
	movi	v17.8h, #128
	tbl	v5.16b, { v5.16b }, v2.16b
	orr	v6.16b, v6.16b, v7.16b
	orr	v5.16b, v5.16b, v16.16b
	ldp	q16, q7, [x24]
	uqadd	v4.16b, v4.16b, v6.16b
	uqadd	v3.16b, v3.16b, v5.16b
	ushr	v19.8h, v7.8h, #8
	bic	v7.8h, #255, lsl #8
	stp	q4, q3, [x24, #-32]
	ldp	q4, q3, [x25], #64
	mvn	v5.16b, v3.16b
	mvn	v6.16b, v4.16b
	ushr	v5.4s, v5.4s, #24
	ushr	v6.4s, v6.4s, #24
	tbl	v5.16b, { v5.16b }, v0.16b
	tbl	v0.16b, { v6.16b }, v0.16b
	ushr	v6.8h, v16.8h, #8
	bic	v16.8h, #255, lsl #8
	mla	v17.8h, v19.8h, v5.8h
	movi	v19.8h, #128
	mla	v18.8h, v6.8h, v0.8h
	movi	v6.8h, #128
	mla	v19.8h, v16.8h, v0.8h
	umull2	v0.4s, v18.8h, v1.8h
	umull	v16.4s, v18.4h, v1.4h
	mla	v6.8h, v7.8h, v5.8h
	umull2	v5.4s, v17.8h, v1.8h
	umull	v7.4s, v17.4h, v1.4h
	umull2	v17.4s, v19.8h, v1.8h
	umull	v18.4s, v19.4h, v1.4h
	uzp2	v0.8h, v16.8h, v0.8h
	umull2	v16.4s, v6.8h, v1.8h
	umull	v1.4s, v6.4h, v1.4h
	uzp2	v5.8h, v7.8h, v5.8h
	uzp2	v6.8h, v18.8h, v17.8h
	tbl	v0.16b, { v0.16b }, v2.16b
	uzp2	v1.8h, v1.8h, v16.8h
	tbl	v2.16b, { v5.16b }, v2.16b
	orr	v0.16b, v0.16b, v6.16b
	orr	v1.16b, v2.16b, v1.16b
	uqadd	v0.16b, v4.16b, v0.16b
	uqadd	v1.16b, v3.16b, v1.16b
	stp	q0, q1, [x24], #64
	b.ne	.LBB_ac4e62_5
.LBB_ac4e62_6:
	cmp	x15, x13
	b.eq	.LBB_ac4e62_2
	add	x25, x16, x8
	madd	x24, x8, x1, x11
	madd	x25, x25, x3, x10
	add	x24, x0, x24, lsl #2
	add	x25, x2, x25, lsl #2
	add	x24, x24, x5
	add	x25, x25, x5
	tbnz	w13, #3, .LBB_ac4e62_10
	tbnz	w13, #2, .LBB_ac4e62_11
.LBB_ac4e62_9:
	cmp	x4, x18
	b.eq	.LBB_ac4e62_2
	b	.LBB_ac4e62_12
.LBB_ac4e62_10:
	ldp	q1, q0, [x25]
	movi	v7.8h, #128
	ldr	q4, [x23, :lo12:.LCPI_ac4e62_0]
	ldp	q6, q5, [x24]
	movi	v16.8h, #128
	movi	v18.8h, #128
	mvn	v2.16b, v0.16b
	mvn	v3.16b, v1.16b
	ushr	v17.8h, v5.8h, #8
	bic	v5.8h, #255, lsl #8
	ushr	v2.4s, v2.4s, #24
	ushr	v3.4s, v3.4s, #24
	tbl	v2.16b, { v2.16b }, v4.16b
	tbl	v3.16b, { v3.16b }, v4.16b
	ushr	v4.8h, v6.8h, #8
	bic	v6.8h, #255, lsl #8
	mla	v7.8h, v17.8h, v2.8h
	movi	v17.16b, #1
	mla	v16.8h, v4.8h, v3.8h
	movi	v4.8h, #128
	mla	v18.8h, v6.8h, v3.8h
	umull2	v3.4s, v16.8h, v17.8h
	umull	v6.4s, v16.4h, v17.4h
	mla	v4.8h, v5.8h, v2.8h
	umull2	v2.4s, v7.8h, v17.8h
	umull	v5.4s, v7.4h, v17.4h
	umull2	v7.4s, v18.8h, v17.8h
	umull	v16.4s, v18.4h, v17.4h
	uzp2	v3.8h, v6.8h, v3.8h
	umull2	v6.4s, v4.8h, v17.8h
	umull	v4.4s, v4.4h, v17.4h
	uzp2	v2.8h, v5.8h, v2.8h
	ldr	q5, [x22, :lo12:.LCPI_ac4e62_1]
	uzp2	v7.8h, v16.8h, v7.8h
	tbl	v3.16b, { v3.16b }, v5.16b
	uzp2	v4.8h, v4.8h, v6.8h
	tbl	v2.16b, { v2.16b }, v5.16b
	orr	v3.16b, v3.16b, v7.16b
	orr	v2.16b, v2.16b, v4.16b
	uqadd	v1.16b, v1.16b, v3.16b
	uqadd	v0.16b, v0.16b, v2.16b
	stp	q1, q0, [x24]
	tbz	w13, #2, .LBB_ac4e62_9
.LBB_ac4e62_11:
	ldr	q0, [x25, x6]
	adrp	x23, .LCPI_ac4e62_2
	movi	v3.8h, #128
	ldr	q2, [x23, :lo12:.LCPI_ac4e62_2]
	movi	v6.8h, #128
	mvn	v1.16b, v0.16b
	ushr	v1.4s, v1.4s, #24
	tbl	v1.16b, { v1.16b }, v2.16b
	ldr	q2, [x24, x6]
	ushr	v4.8h, v2.8h, #8
	bic	v2.8h, #255, lsl #8
	ushr	v5.8h, v1.8h, #8
	bic	v1.8h, #255, lsl #8
	mla	v3.8h, v4.8h, v5.8h
	movi	v4.16b, #1
	mla	v6.8h, v2.8h, v1.8h
	umull2	v1.4s, v3.8h, v4.8h
	umull	v2.4s, v3.4h, v4.4h
	umull2	v3.4s, v6.8h, v4.8h
	umull	v4.4s, v6.4h, v4.4h
	uzp2	v1.8h, v2.8h, v1.8h
	ldr	q2, [x22, :lo12:.LCPI_ac4e62_1]
	uzp2	v3.8h, v4.8h, v3.8h
	tbl	v1.16b, { v1.16b }, v2.16b
	orr	v1.16b, v1.16b, v3.16b
	uqadd	v0.16b, v0.16b, v1.16b
	str	q0, [x24, x6]
	cmp	x4, x18
	b.eq	.LBB_ac4e62_2
.LBB_ac4e62_12:
	mov	x22, x21
	mov	x23, x20
	and	x24, x13, #0xc
.LBB_ac4e62_13:
	ldr	w25, [x22]
	adrp	x26, .LCPI_ac4e62_3
	movi	v4.4h, #128
	ldr	d1, [x26, :lo12:.LCPI_ac4e62_3]
	add	x24, x24, #1
	dup	v0.2s, w25
	cmp	x24, x18
	ushl	v0.2s, v0.2s, v1.2s
	mov	s1, v0.s[1]
	str	h0, [sp, #12]
	str	h1, [sp, #14]
	ldr	s0, [sp, #12]
	ldr	w27, [x23], #4
	zip1	v0.8b, v0.8b, v0.8b
	dup	v1.4s, w27
	mov	v0.h[1], wzr
	uzp1	v0.8b, v0.8b, v0.8b
	ushll	v0.4s, v0.4h, #0
	mov	w26, v0.s[1]
	mov	v0.h[1], w26
	ubfx	w26, w25, #8, #8
	and	w25, w25, #0xff
	mov	v0.h[2], w26
	mvn	w26, w27
	adrp	x27, .LCPI_ac4e62_4
	lsr	w26, w26, #24
	ldr	q2, [x27, :lo12:.LCPI_ac4e62_4]
	dup	v3.4h, w26
	ushl	v1.4s, v1.4s, v2.4s
	mov	v0.h[3], w25
	adrp	x25, .LCPI_ac4e62_5
	xtn	v1.4h, v1.4s
	mla	v4.4h, v3.4h, v0.4h
	movi	d0, #0xff00ff00ff00ff
	bic	v1.4h, #255, lsl #8
	usra	v4.4h, v4.4h, #8
	usra	v1.4h, v4.4h, #8
	umin	v0.4h, v1.4h, v0.4h
	ldr	q1, [x25, :lo12:.LCPI_ac4e62_5]
	ushll	v0.4s, v0.4h, #0
	ushl	v0.4s, v0.4s, v1.4s
	ext	v1.16b, v0.16b, v0.16b, #8
	orr	v0.8b, v0.8b, v1.8b
	fmov	x25, d0
	lsr	x26, x25, #32
	orr	w25, w25, w26
	str	w25, [x22], #4
	b.lo	.LBB_ac4e62_13
	b	.LBB_ac4e62_2
.LBB_ac4e62_14:
	ldp	x20, x19, [sp, #64]
	ldp	x22, x21, [sp, #48]
	ldp	x24, x23, [sp, #32]
	ldp	x26, x25, [sp, #16]
	ldr	x27, [sp], #80
.LBB_ac4e62_15:
	ret
.Lfunc_end_ac4e62:
	.size	"pix_raster::view::blit_overlap::<#c30dc3dde8429fd7>", .Lfunc_end_ac4e62-"pix_raster::view::blit_overlap::<#c30dc3dde8429fd7>"

	.section	.rodata.cst16,"aM",@progbits,16
	.p2align	4, 0x0
.LCPI_392d47_0:
	.word	0
	.word	4294967288
	.word	4294967280
	.word	4294967272
.LCPI_392d47_1:
	.byte	255
	.byte	0
	.byte	255
	.byte	2
	.byte	255
	.byte	4
	.byte	255
	.byte	6
	.byte	255
	.byte	8
	.byte	255
	.byte	10
	.byte	255
	.byte	12
	.byte	255
	.byte	14
.LCPI_392d47_2:
	.byte	0
	.byte	255
	.byte	0
	.byte	255
	.byte	4
	.byte	255
	.byte	4
	.byte	255
	.byte	8
	.byte	255
	.byte	8
	.byte	255
	.byte	12
	.byte	255
	.byte	12
	.byte	255
.LCPI_392d47_3:
	.byte	0
	.byte	0
	.byte	0
	.byte	0
	.byte	1
	.byte	1
	.byte	1
	.byte	1
	.byte	2
	.byte	2
	.byte	2
	.byte	2
	.byte	3
	.byte	3
	.byte	3
	.byte	3
.LCPI_392d47_4:
	.byte	0
	.byte	0
	.byte	0
	.byte	0
	.byte	4
	.byte	4
	.byte	4
	.byte	4
	.byte	8
	.byte	8
	.byte	8
	.byte	8
	.byte	12
	.byte	12
	.byte	12
	.byte	12
.LCPI_392d47_6:
	.word	24
	.word	16
	.word	8
	.word	0
	.section	.rodata.cst8,"aM",@progbits,8
	.p2align	3, 0x0
.LCPI_392d47_5:
	.word	4294967272
	.word	4294967280
	.section	".text.pix_raster::view::blit_overlap::<#82740d74a8936f70>","ax",@progbits
	.p2align	2
	.type	"pix_raster::view::blit_overlap::<#82740d74a8936f70>",@function
"pix_raster::view::blit_overlap::<#82740d74a8936f70>":
	ldp	x8, x9, [x4, #24]
	cmp	x8, x9
	b.hs	.LBB_392d47_19
	str	x27, [sp, #-80]!
	dup	v0.4s, w5
	adrp	x10, .LCPI_392d47_0
	ubfx	w16, w5, #8, #8
	ldr	q1, [x10, :lo12:.LCPI_392d47_0]
	ldp	x12, x13, [x4, #8]
	ldr	x14, [x4, #40]
	stp	x20, x19, [sp, #64]
	and	w5, w5, #0xff
	ushl	v0.4s, v0.4s, v1.4s
	stp	x22, x21, [sp, #48]
	madd	x19, x14, x3, x13
	stp	x24, x23, [sp, #32]
	stp	x26, x25, [sp, #16]
	umov	w10, v0.h[4]
	uzp1	v1.8h, v0.8h, v0.8h
	dup	v0.8h, v0.h[6]
	and	w11, w10, #0xff
	ldr	x10, [x4]
	madd	x7, x8, x1, x10
	mov	v0.h[1], w11
	uzp1	v1.16b, v1.16b, v1.16b
	add	x11, x2, x13
	sub	x12, x12, x10
	sub	x13, x14, x8
	and	x15, x12, #0xfffffffffffffff0
	lsl	x21, x12, #2
	and	x6, x12, #0xc
	lsr	x20, x15, #4
	and	x18, x12, #0x8
	add	x23, x15, x6
	mov	v0.h[2], w16
	and	x21, x21, #0x30
	ushr	v2.8h, v1.8h, #8
	bic	v1.8h, #255, lsl #8
	add	x22, x0, x7, lsl #2
	bfi	x21, x20, #6, #58
	lsr	x14, x12, #4
	lsl	x16, x15, #2
	lsl	x4, x18, #2
	lsl	x7, x1, #2
	add	x20, x2, x23
	and	x17, x12, #0xf
	mov	v0.h[3], w5
	add	x5, x19, x2
	add	x2, x22, #32
	add	x5, x5, #8
	add	x19, x20, x19
	add	x20, x22, x21
	b	.LBB_392d47_3
.LBB_392d47_2:
	add	x8, x8, #1
	add	x5, x5, x3
	add	x2, x2, x7
	cmp	x8, x9
	add	x19, x19, x3
	add	x20, x20, x7
	b.eq	.LBB_392d47_18
.LBB_392d47_3:
	adrp	x21, .LCPI_392d47_1
	adrp	x22, .LCPI_392d47_2
	cbz	x14, .LBB_392d47_8
	mov	x23, x2
	mov	x24, x5
	mov	x25, x14
	b	.LBB_392d47_6
.LBB_392d47_5:
	subs	x25, x25, #1
	add	x24, x24, #16
	add	x23, x23, #64
	b.eq	.LBB_392d47_8
.LBB_392d47_6:
	ldp	d3, d4, [x24, #-8]
	orr	v4.8b, v4.8b, v3.8b
	fmov	x26, d4
	orr	x26, x26, x26, lsr #32
	lsr	x27, x26, #16
	orr	w26, w26, w27
	orr	w26, w26, w26, lsr #8
	tst	w26, #0xff
	b.eq	.LBB_392d47_5
	zip1	v3.16b, v3.16b, v3.16b
	movi	v6.8h, #1
	movi	v7.8h, #128
	movi	v16.8h, #128
	movi	v19.8h, #128
	movi	v20.8h, #128
	movi	v21.8h, #128
	movi	v22.8h, #128
	ushll2	v4.4s, v3.8h, #0
	ushll	v3.4s, v3.4h, #0
	mul	v4.4s, v4.4s, v6.4s
	mul	v5.4s, v3.4s, v6.4s
	movi	v3.16b, #1
	ushr	v17.8h, v4.8h, #8
	ushr	v18.8h, v5.8h, #8
	bic	v4.8h, #255, lsl #8
	bic	v5.8h, #255, lsl #8
	mla	v7.8h, v17.8h, v2.8h
	mla	v16.8h, v18.8h, v2.8h
	mla	v19.8h, v4.8h, v1.8h
	mla	v20.8h, v5.8h, v1.8h
	umull2	v4.4s, v7.8h, v3.8h
	umull	v7.4s, v7.4h, v3.4h
	umull2	v5.4s, v16.8h, v3.8h
	umull	v16.4s, v16.4h, v3.4h
	umull2	v17.4s, v19.8h, v3.8h
	umull	v18.4s, v19.4h, v3.4h
	umull2	v19.4s, v20.8h, v3.8h
	umull	v20.4s, v20.4h, v3.4h
	uzp2	v7.8h, v7.8h, v4.8h
	ldr	q4, [x21, :lo12:.LCPI_392d47_1]
	uzp2	v5.8h, v16.8h, v5.8h
	uzp2	v16.8h, v18.8h, v17.8h
	uzp2	v17.8h, v20.8h, v19.8h
	ldp	q20, q19, [x23, #-32]
	tbl	v7.16b, { v7.16b }, v4.16b
	tbl	v5.16b, { v5.16b }, v4.16b
	ushr	v23.8h, v19.8h, #8
	ushr	v24.8h, v20.8h, #8
	bic	v20.8h, #255, lsl #8
	bic	v19.8h, #255, lsl #8
	orr	v7.16b, v7.16b, v16.16b
	orr	v16.16b, v5.16b, v17.16b
	mvn	v5.16b, v7.16b
	mvn	v17.16b, v16.16b
	ushr	v18.4s, v5.4s, #24
	ldr	q5, [x22, :lo12:.LCPI_392d47_2]
	ushr	v17.4s, v17.4s, #24
	tbl	v18.16b, { v18.16b }, v5.16b
	tbl	v17.16b, { v17.16b }, v5.16b
	mla	v21.8h, v23.8h, v18.8h
	movi	v23.8h, #128
	mla	v22.8h, v24.8h, v17.8h
	movi	v24.8h, #128
	mla	v23.8h, v20.8h, v17.8h
	umull2	v17.4s, v22.8h, v3.8h
	umull	v20.4s, v22.4h, v3.4h
	mla	v24.8h, v19.8h, v18.8h
	umull2	v18.4s, v21.8h, v3.8h
	umull	v19.4s, v21.4h, v3.4h
	umull2	v21.4s, v23.8h, v3.8h
	umull	v22.4s, v23.4h, v3.4h
	uzp2	v17.8h, v20.8h, v17.8h
	umull2	v20.4s, v24.8h, v3.8h
	umull	v23.4s, v24.4h, v3.4h
	uzp2	v18.8h, v19.8h, v18.8h
	movi	v24.8h, #128
	uzp2	v19.8h, v22.8h, v21.8h
	movi	v21.8h, #128
	tbl	v17.16b, { v17.16b }, v4.16b
	uzp2	v20.8h, v23.8h, v20.8h
	movi	v23.8h, #128
	tbl	v18.16b, { v18.16b }, v4.16b
	orr	v17.16b, v17.16b, v19.16b
	orr	v18.16b, v18.16b, v20.16b
	movi	v20.8h, #128
	uqadd	v16.16b, v16.16b, v17.16b
	movi	v17.8h, #128
	uqadd	v7.16b, v7.16b, v18.16b
	stp	q16, q7, [x23, #-32]
	ldr	d7, [x24]
	zip1	v7.16b, v7.16b, v7.16b
	ushll	v16.4s, v7.4h, #0
	ushll2	v7.4s, v7.8h, #0
	mul	v16.4s, v16.4s, v6.4s
	mul	v6.4s, v7.4s, v6.4s
	movi	v7.8h, #128
	ushr	v18.8h, v16.8h, #8
	ushr	v19.8h, v6.8h, #8
	bic	v16.8h, #255, lsl #8
	bic	v6.8h, #255, lsl #8
	mla	v7.8h, v18.8h, v2.8h
	mla	v17.8h, v19.8h, v2.8h
	mla	v21.8h, v16.8h, v1.8h
	mla	v20.8h, v6.8h, v1.8h
	umull2	v16.4s, v7.8h, v3.8h
	umull	v7.4s, v7.4h, v3.4h
	umull2	v6.4s, v17.8h, v3.8h
	umull	v17.4s, v17.4h, v3.4h
	umull2	v18.4s, v21.8h, v3.8h
	umull	v19.4s, v21.4h, v3.4h
	movi	v21.8h, #128
	uzp2	v7.8h, v7.8h, v16.8h
	umull2	v16.4s, v20.8h, v3.8h
	umull	v20.4s, v20.4h, v3.4h
	uzp2	v6.8h, v17.8h, v6.8h
	uzp2	v17.8h, v19.8h, v18.8h
	ldp	q18, q19, [x23]
	tbl	v7.16b, { v7.16b }, v4.16b
	uzp2	v16.8h, v20.8h, v16.8h
	movi	v20.8h, #128
	tbl	v6.16b, { v6.16b }, v4.16b
	ushr	v22.8h, v18.8h, #8
	bic	v18.8h, #255, lsl #8
	orr	v7.16b, v7.16b, v17.16b
	orr	v6.16b, v6.16b, v16.16b
	mvn	v16.16b, v7.16b
	mvn	v17.16b, v6.16b
	ushr	v16.4s, v16.4s, #24
	ushr	v17.4s, v17.4s, #24
	tbl	v16.16b, { v16.16b }, v5.16b
	tbl	v5.16b, { v17.16b }, v5.16b
	ushr	v17.8h, v19.8h, #8
	bic	v19.8h, #255, lsl #8
	mla	v20.8h, v22.8h, v16.8h
	mla	v23.8h, v18.8h, v16.8h
	mla	v21.8h, v17.8h, v5.8h
	mla	v24.8h, v19.8h, v5.8h
	umull2	v16.4s, v20.8h, v3.8h
	umull	v17.4s, v20.4h, v3.4h
	umull2	v19.4s, v23.8h, v3.8h
	umull2	v5.4s, v21.8h, v3.8h
	umull	v18.4s, v21.4h, v3.4h
	umull	v20.4s, v23.4h, v3.4h
	uzp2	v16.8h, v17.8h, v16.8h
	umull2	v17.4s, v24.8h, v3.8h
	umull	v3.4s, v24.4h, v3.4h
	uzp2	v5.8h, v18.8h, v5.8h
	uzp2	v18.8h, v20.8h, v19.8h
	tbl	v16.16b, { v16.16b }, v4.16b
	uzp2	v3.8h, v3.8h, v17.8h
	tbl	v4.16b, { v5.16b }, v4.16b
	orr	v5.16b, v16.16b, v18.16b
	orr	v3.16b, v4.16b, v3.16b
	uqadd	v4.16b, v7.16b, v5.16b
	uqadd	v3.16b, v6.16b, v3.16b
	stp	q4, q3, [x23]
	b	.LBB_392d47_5
.LBB_392d47_8:
	cmp	x15, x12
	b.eq	.LBB_392d47_2
	madd	x23, x8, x1, x10
	add	x24, x13, x8
	madd	x24, x24, x3, x11
	add	x23, x0, x23, lsl #2
	add	x23, x23, x16
	add	x24, x24, x15
	tbz	w12, #3, .LBB_392d47_12
	ldr	d3, [x24]
	fmov	x25, d3
	orr	x25, x25, x25, lsr #32
	lsr	x26, x25, #16
	orr	w25, w25, w26
	orr	w25, w25, w25, lsr #8
	tst	w25, #0xff
	b.eq	.LBB_392d47_12
	zip1	v3.16b, v3.16b, v3.16b
	movi	v4.8h, #1
	movi	v6.8h, #128
	movi	v7.8h, #128
	movi	v18.8h, #128
	movi	v19.8h, #128
	movi	v20.8h, #128
	movi	v21.8h, #128
	ushll2	v5.4s, v3.8h, #0
	ushll	v3.4s, v3.4h, #0
	mul	v5.4s, v5.4s, v4.4s
	mul	v4.4s, v3.4s, v4.4s
	movi	v3.16b, #1
	ushr	v16.8h, v5.8h, #8
	ushr	v17.8h, v4.8h, #8
	bic	v5.8h, #255, lsl #8
	bic	v4.8h, #255, lsl #8
	mla	v6.8h, v16.8h, v2.8h
	mla	v7.8h, v17.8h, v2.8h
	mla	v18.8h, v5.8h, v1.8h
	mla	v19.8h, v4.8h, v1.8h
	umull2	v5.4s, v6.8h, v3.8h
	umull	v6.4s, v6.4h, v3.4h
	umull2	v4.4s, v7.8h, v3.8h
	umull	v7.4s, v7.4h, v3.4h
	umull2	v16.4s, v18.8h, v3.8h
	umull	v17.4s, v18.4h, v3.4h
	umull	v18.4s, v19.4h, v3.4h
	uzp2	v5.8h, v6.8h, v5.8h
	umull2	v6.4s, v19.8h, v3.8h
	uzp2	v7.8h, v7.8h, v4.8h
	ldr	q4, [x21, :lo12:.LCPI_392d47_1]
	uzp2	v16.8h, v17.8h, v16.8h
	ldr	q17, [x22, :lo12:.LCPI_392d47_2]
	tbl	v5.16b, { v5.16b }, v4.16b
	uzp2	v6.8h, v18.8h, v6.8h
	tbl	v7.16b, { v7.16b }, v4.16b
	ldp	q19, q18, [x23]
	orr	v5.16b, v5.16b, v16.16b
	ushr	v22.8h, v18.8h, #8
	bic	v18.8h, #255, lsl #8
	orr	v6.16b, v7.16b, v6.16b
	mvn	v7.16b, v5.16b
	mvn	v16.16b, v6.16b
	ushr	v7.4s, v7.4s, #24
	ushr	v16.4s, v16.4s, #24
	tbl	v7.16b, { v7.16b }, v17.16b
	tbl	v16.16b, { v16.16b }, v17.16b
	ushr	v17.8h, v19.8h, #8
	bic	v19.8h, #255, lsl #8
	mla	v20.8h, v22.8h, v7.8h
	movi	v22.8h, #128
	mla	v21.8h, v17.8h, v16.8h
	movi	v17.8h, #128
	mla	v22.8h, v19.8h, v16.8h
	umull2	v16.4s, v21.8h, v3.8h
	umull	v19.4s, v21.4h, v3.4h
	mla	v17.8h, v18.8h, v7.8h
	umull2	v7.4s, v20.8h, v3.8h
	umull	v18.4s, v20.4h, v3.4h
	umull2	v20.4s, v22.8h, v3.8h
	umull	v21.4s, v22.4h, v3.4h
	uzp2	v16.8h, v19.8h, v16.8h
	umull2	v19.4s, v17.8h, v3.8h
	umull	v3.4s, v17.4h, v3.4h
	uzp2	v7.8h, v18.8h, v7.8h
	uzp2	v17.8h, v21.8h, v20.8h
	tbl	v16.16b, { v16.16b }, v4.16b
	uzp2	v3.8h, v3.8h, v19.8h
	tbl	v4.16b, { v7.16b }, v4.16b
	orr	v7.16b, v16.16b, v17.16b
	orr	v3.16b, v4.16b, v3.16b
	uqadd	v4.16b, v6.16b, v7.16b
	uqadd	v3.16b, v5.16b, v3.16b
	stp	q4, q3, [x23]
.LBB_392d47_12:
	tbz	w12, #2, .LBB_392d47_15
	ldr	s3, [x24, x18]
	dup	v4.16b, v3.b[1]
	dup	v5.16b, v3.b[2]
	dup	v6.16b, v3.b[3]
	orr	v4.16b, v4.16b, v5.16b
	orr	v5.16b, v6.16b, v3.16b
	orr	v4.16b, v4.16b, v5.16b
	umov	w22, v4.b[0]
	cbz	w22, .LBB_392d47_15
	adrp	x22, .LCPI_392d47_3
	movi	v6.8h, #128
	movi	v7.16b, #1
	ldr	q4, [x22, :lo12:.LCPI_392d47_3]
	movi	v16.8h, #128
	movi	v19.8h, #128
	tbl	v3.16b, { v3.16b }, v4.16b
	movi	v4.8h, #128
	ushr	v5.8h, v3.8h, #8
	bic	v3.8h, #255, lsl #8
	mla	v4.8h, v5.8h, v2.8h
	mla	v6.8h, v3.8h, v1.8h
	umull2	v3.4s, v4.8h, v7.8h
	umull	v4.4s, v4.4h, v7.4h
	umull2	v5.4s, v6.8h, v7.8h
	umull	v6.4s, v6.4h, v7.4h
	uzp2	v3.8h, v4.8h, v3.8h
	ldr	q4, [x21, :lo12:.LCPI_392d47_1]
	adrp	x21, .LCPI_392d47_4
	uzp2	v5.8h, v6.8h, v5.8h
	ldr	q6, [x21, :lo12:.LCPI_392d47_4]
	tbl	v3.16b, { v3.16b }, v4.16b
	orr	v3.16b, v3.16b, v5.16b
	mvn	v5.16b, v3.16b
	ushr	v5.4s, v5.4s, #24
	tbl	v5.16b, { v5.16b }, v6.16b
	ldr	q6, [x23, x4]
	ushr	v17.8h, v6.8h, #8
	bic	v6.8h, #255, lsl #8
	ushr	v18.8h, v5.8h, #8
	bic	v5.8h, #255, lsl #8
	mla	v16.8h, v17.8h, v18.8h
	mla	v19.8h, v6.8h, v5.8h
	umull2	v5.4s, v16.8h, v7.8h
	umull	v6.4s, v16.4h, v7.4h
	umull2	v16.4s, v19.8h, v7.8h
	umull	v7.4s, v19.4h, v7.4h
	uzp2	v5.8h, v6.8h, v5.8h
	uzp2	v6.8h, v7.8h, v16.8h
	tbl	v4.16b, { v5.16b }, v4.16b
	orr	v4.16b, v4.16b, v6.16b
	uqadd	v3.16b, v3.16b, v4.16b
	str	q3, [x23, x4]
.LBB_392d47_15:
	cmp	x6, x17
	b.eq	.LBB_392d47_2
	mov	x21, x20
	mov	x22, x19
	and	x23, x12, #0xc
.LBB_392d47_17:
	ldr	w24, [x21]
	adrp	x25, .LCPI_392d47_5
	movi	v5.4h, #128
	ldr	d4, [x25, :lo12:.LCPI_392d47_5]
	ldrb	w25, [x22], #1
	dup	v3.2s, w24
	add	x23, x23, #1
	cmp	x23, x17
	ushl	v3.2s, v3.2s, v4.2s
	mov	s4, v3.s[1]
	str	h3, [sp, #12]
	str	h4, [sp, #14]
	dup	v4.4h, w25
	ldr	s3, [sp, #12]
	zip1	v3.8b, v3.8b, v3.8b
	mla	v5.4h, v4.4h, v0.4h
	mov	v3.h[3], wzr
	usra	v5.4h, v5.4h, #8
	uzp1	v3.8b, v3.8b, v0.8b
	ushr	v4.4h, v5.4h, #8
	umov	w26, v4.h[0]
	movi	v4.4h, #128
	ushll	v3.4s, v3.4h, #0
	mov	w25, v3.s[1]
	mov	v3.h[1], w25
	ubfx	w25, w24, #8, #8
	and	w24, w24, #0xff
	mov	v3.h[2], w25
	mov	w25, #255
	bic	w25, w25, w26
	dup	v6.4h, w25
	mov	v3.h[3], w24
	adrp	x24, .LCPI_392d47_6
	mla	v4.4h, v6.4h, v3.4h
	usra	v4.4h, v4.4h, #8
	ushr	v3.4h, v4.4h, #8
	movi	d4, #0xff00ff00ff00ff
	usra	v3.4h, v5.4h, #8
	umin	v3.4h, v3.4h, v4.4h
	ldr	q4, [x24, :lo12:.LCPI_392d47_6]
	ushll	v3.4s, v3.4h, #0
	ushl	v3.4s, v3.4s, v4.4s
	ext	v4.16b, v3.16b, v3.16b, #8
	orr	v3.8b, v3.8b, v4.8b
	fmov	x24, d3
	lsr	x25, x24, #32
	orr	w24, w24, w25
	str	w24, [x21], #4
	b.lo	.LBB_392d47_17
	b	.LBB_392d47_2
.LBB_392d47_18:
	ldp	x20, x19, [sp, #64]
	ldp	x22, x21, [sp, #48]
	ldp	x24, x23, [sp, #32]
	ldp	x26, x25, [sp, #16]
	ldr	x27, [sp], #80
.LBB_392d47_19:
	ret
.Lfunc_end_392d47:
	.size	"pix_raster::view::blit_overlap::<#82740d74a8936f70>", .Lfunc_end_392d47-"pix_raster::view::blit_overlap::<#82740d74a8936f70>"

	.section	.rodata.cst16,"aM",@progbits,16
	.p2align	4, 0x0
.LCPI_70e946_0:
	.byte	255
	.byte	0
	.byte	255
	.byte	2
	.byte	255
	.byte	4
	.byte	255
	.byte	6
	.byte	255
	.byte	8
	.byte	255
	.byte	10
	.byte	255
	.byte	12
	.byte	255
	.byte	14
.LCPI_70e946_1:
	.byte	0
	.byte	255
	.byte	0
	.byte	255
	.byte	4
	.byte	255
	.byte	4
	.byte	255
	.byte	8
	.byte	255
	.byte	8
	.byte	255
	.byte	12
	.byte	255
	.byte	12
	.byte	255
.LCPI_70e946_2:
	.byte	0
	.byte	0
	.byte	0
	.byte	0
	.byte	4
	.byte	4
	.byte	4
	.byte	4
	.byte	8
	.byte	8
	.byte	8
	.byte	8
	.byte	12
	.byte	12
	.byte	12
	.byte	12
.LCPI_70e946_4:
	.word	24
	.word	16
	.word	8
	.word	0
	.section	.rodata.cst8,"aM",@progbits,8
	.p2align	3, 0x0
.LCPI_70e946_3:
	.word	4294967272
	.word	4294967280
	.section	".text.pix_raster::view::blit_overlap::<#ae9f661a91a09783>","ax",@progbits
	.p2align	2
	.type	"pix_raster::view::blit_overlap::<#ae9f661a91a09783>",@function
"pix_raster::view::blit_overlap::<#ae9f661a91a09783>":
	ldp	x8, x9, [x4, #24]
	cmp	x8, x9
	b.hs	.LBB_70e946_15
	sub	sp, sp, #96
	ldr	x15, [x4, #40]
	ldp	x14, x10, [x4, #8]
	ldr	x11, [x4]
	dup	v0.16b, w5
	and	w16, w5, #0xff
	madd	x6, x15, x3, x10
	stp	x20, x19, [sp, #80]
	fmov	s1, w16
	sub	x14, x14, x11
	stp	x22, x21, [sp, #64]
	lsl	x12, x3, #2
	madd	x5, x8, x1, x11
	and	x17, x14, #0xfffffffffffffff0
	lsl	x7, x14, #2
	lsr	x19, x17, #4
	ushr	v2.8h, v0.8h, #8
	bic	v0.8h, #255, lsl #8
	and	x21, x7, #0x30
	lsl	x13, x1, #2
	lsr	x16, x14, #4
	add	x20, x2, x6, lsl #2
	bfi	x21, x19, #6, #58
	sub	x15, x15, x8
	and	x18, x14, #0xf
	and	x4, x14, #0xc
	and	x6, x7, #0x20
	add	x22, x0, x5, lsl #2
	lsl	x5, x17, #2
	add	x7, x20, #32
	add	x20, x20, x21
	str	x27, [sp, #16]
	add	x19, x22, #32
	add	x21, x22, x21
	stp	x26, x25, [sp, #32]
	stp	x24, x23, [sp, #48]
	b	.LBB_70e946_3
.LBB_70e946_2:
	add	x8, x8, #1
	add	x7, x7, x12
	add	x19, x19, x13
	cmp	x8, x9
	add	x20, x20, x12
	add	x21, x21, x13
	b.eq	.LBB_70e946_14
.LBB_70e946_3:
	adrp	x22, .LCPI_70e946_0
	adrp	x23, .LCPI_70e946_1
	cbz	x16, .LBB_70e946_6
	mov	x24, x19
	mov	x25, x7
	mov	x26, x16
.LBB_70e946_5:
	ldp	q5, q4, [x25, #-32]
	movi	v6.8h, #128
	movi	v7.8h, #128
	movi	v18.8h, #128
	movi	v19.8h, #128
	movi	v3.16b, #1
	movi	v20.8h, #128
	subs	x26, x26, #1
	ushr	v16.8h, v4.8h, #8
	ushr	v17.8h, v5.8h, #8
	bic	v4.8h, #255, lsl #8
	bic	v5.8h, #255, lsl #8
	movi	v21.8h, #128
	mla	v6.8h, v16.8h, v2.8h
	mla	v7.8h, v17.8h, v2.8h
	mla	v18.8h, v4.8h, v0.8h
	mla	v19.8h, v5.8h, v0.8h
	umull2	v4.4s, v6.8h, v3.8h
	umull	v6.4s, v6.4h, v3.4h
	umull2	v5.4s, v7.8h, v3.8h
	umull	v7.4s, v7.4h, v3.4h
	umull2	v16.4s, v18.8h, v3.8h
	umull	v17.4s, v18.4h, v3.4h
	umull2	v18.4s, v19.8h, v3.8h
	umull	v19.4s, v19.4h, v3.4h
	uzp2	v6.8h, v6.8h, v4.8h
	ldr	q4, [x22, :lo12:.LCPI_70e946_0]
	uzp2	v5.8h, v7.8h, v5.8h
	uzp2	v7.8h, v17.8h, v16.8h
	uzp2	v16.8h, v19.8h, v18.8h
	ldp	q19, q18, [x24, #-32]
	tbl	v6.16b, { v6.16b }, v4.16b
	tbl	v5.16b, { v5.16b }, v4.16b
	ushr	v22.8h, v18.8h, #8
	ushr	v23.8h, v19.8h, #8
	bic	v19.8h, #255, lsl #8
	bic	v18.8h, #255, lsl #8
	orr	v6.16b, v6.16b, v7.16b
	orr	v7.16b, v5.16b, v16.16b
	mvn	v5.16b, v6.16b
	mvn	v16.16b, v7.16b
	ushr	v17.4s, v5.4s, #24
	ldr	q5, [x23, :lo12:.LCPI_70e946_1]
	ushr	v16.4s, v16.4s, #24
	tbl	v17.16b, { v17.16b }, v5.16b
	tbl	v16.16b, { v16.16b }, v5.16b
	mla	v20.8h, v22.8h, v17.8h
	movi	v22.8h, #128
	mla	v21.8h, v23.8h, v16.8h
	movi	v23.8h, #128
	mla	v22.8h, v19.8h, v16.8h
	umull2	v16.4s, v21.8h, v3.8h
	umull	v19.4s, v21.4h, v3.4h
	mla	v23.8h, v18.8h, v17.8h
	umull2	v17.4s, v20.8h, v3.8h
	umull	v18.4s, v20.4h, v3.4h
	umull2	v20.4s, v22.8h, v3.8h
	umull	v21.4s, v22.4h, v3.4h
	uzp2	v16.8h, v19.8h, v16.8h
	umull2	v19.4s, v23.8h, v3.8h
	umull	v22.4s, v23.4h, v3.4h
	uzp2	v17.8h, v18.8h, v17.8h
	movi	v23.8h, #128
	uzp2	v18.8h, v21.8h, v20.8h
	movi	v20.8h, #128
	movi	v21.8h, #128
	tbl	v16.16b, { v16.16b }, v4.16b
	uzp2	v19.8h, v22.8h, v19.8h
	tbl	v17.16b, { v17.16b }, v4.16b
	orr	v16.16b, v16.16b, v18.16b
	orr	v17.16b, v17.16b, v19.16b
	uqadd	v7.16b, v7.16b, v16.16b
	uqadd	v6.16b, v6.16b, v17.16b
	movi	v17.8h, #128
	stp	q7, q6, [x24, #-32]
	movi	v7.8h, #128
	ldp	q6, q16, [x25], #64
	ushr	v18.8h, v6.8h, #8
	ushr	v19.8h, v16.8h, #8
	bic	v6.8h, #255, lsl #8
	bic	v16.8h, #255, lsl #8
	mla	v7.8h, v18.8h, v2.8h
	mla	v17.8h, v19.8h, v2.8h
	mla	v21.8h, v6.8h, v0.8h
	mla	v20.8h, v16.8h, v0.8h
	umull2	v6.4s, v7.8h, v3.8h
	umull	v7.4s, v7.4h, v3.4h
	umull2	v16.4s, v17.8h, v3.8h
	umull	v17.4s, v17.4h, v3.4h
	umull2	v18.4s, v21.8h, v3.8h
	umull	v19.4s, v21.4h, v3.4h
	movi	v21.8h, #128
	uzp2	v6.8h, v7.8h, v6.8h
	umull2	v7.4s, v20.8h, v3.8h
	umull	v20.4s, v20.4h, v3.4h
	uzp2	v16.8h, v17.8h, v16.8h
	uzp2	v17.8h, v19.8h, v18.8h
	tbl	v6.16b, { v6.16b }, v4.16b
	uzp2	v18.8h, v20.8h, v7.8h
	movi	v20.8h, #128
	tbl	v16.16b, { v16.16b }, v4.16b
	orr	v7.16b, v6.16b, v17.16b
	orr	v6.16b, v16.16b, v18.16b
	ldp	q18, q19, [x24]
	mvn	v16.16b, v7.16b
	mvn	v17.16b, v6.16b
	ushr	v22.8h, v18.8h, #8
	bic	v18.8h, #255, lsl #8
	ushr	v16.4s, v16.4s, #24
	ushr	v17.4s, v17.4s, #24
	tbl	v16.16b, { v16.16b }, v5.16b
	tbl	v5.16b, { v17.16b }, v5.16b
	ushr	v17.8h, v19.8h, #8
	bic	v19.8h, #255, lsl #8
	mla	v20.8h, v22.8h, v16.8h
	movi	v22.8h, #128
	mla	v23.8h, v18.8h, v16.8h
	mla	v21.8h, v17.8h, v5.8h
	umull2	v16.4s, v20.8h, v3.8h
	umull	v17.4s, v20.4h, v3.4h
	mla	v22.8h, v19.8h, v5.8h
	umull2	v5.4s, v21.8h, v3.8h
	umull	v18.4s, v21.4h, v3.4h
	umull2	v19.4s, v23.8h, v3.8h
	umull	v20.4s, v23.4h, v3.4h
	uzp2	v16.8h, v17.8h, v16.8h
	umull2	v17.4s, v22.8h, v3.8h
	umull	v3.4s, v22.4h, v3.4h
	uzp2	v5.8h, v18.8h, v5.8h
	uzp2	v18.8h, v20.8h, v19.8h
	tbl	v16.16b, { v16.16b }, v4.16b
	uzp2	v3.8h, v3.8h, v17.8h
	tbl	v4.16b, { v5.16b }, v4.16b
	orr	v5.16b, v16.16b, v18.16b
	orr	v3.16b, v4.16b, v3.16b
	uqadd	v4.16b, v7.16b, v5.16b
	uqadd	v3.16b, v6.16b, v3.16b
	stp	q4, q3, [x24], #64
	b.ne	.LBB_70e946_5
.LBB_70e946_6:
	cmp	x17, x14
	b.eq	.LBB_70e946_2
	add	x25, x15, x8
	madd	x24, x8, x1, x11
	madd	x25, x25, x3, x10
	add	x24, x0, x24, lsl #2
	add	x25, x2, x25, lsl #2
	add	x24, x24, x5
	add	x25, x25, x5
	tbnz	w14, #3, .LBB_70e946_10
	tbnz	w14, #2, .LBB_70e946_11
.LBB_70e946_9:
	cmp	x4, x18
	b.eq	.LBB_70e946_2
	b	.LBB_70e946_12
.LBB_70e946_10:
	ldp	q5, q4, [x25]
	movi	v6.8h, #128
	movi	v7.8h, #128
	movi	v18.8h, #128
	movi	v19.8h, #128
	movi	v3.16b, #1
	movi	v20.8h, #128
	movi	v21.8h, #128
	ushr	v16.8h, v4.8h, #8
	ushr	v17.8h, v5.8h, #8
	bic	v4.8h, #255, lsl #8
	bic	v5.8h, #255, lsl #8
	mla	v6.8h, v16.8h, v2.8h
	mla	v7.8h, v17.8h, v2.8h
	mla	v18.8h, v4.8h, v0.8h
	mla	v19.8h, v5.8h, v0.8h
	umull2	v4.4s, v6.8h, v3.8h
	umull	v6.4s, v6.4h, v3.4h
	umull2	v5.4s, v7.8h, v3.8h
	umull	v7.4s, v7.4h, v3.4h
	umull2	v16.4s, v18.8h, v3.8h
	umull	v17.4s, v18.4h, v3.4h
	umull2	v18.4s, v19.8h, v3.8h
	umull	v19.4s, v19.4h, v3.4h
	uzp2	v6.8h, v6.8h, v4.8h
	ldr	q4, [x22, :lo12:.LCPI_70e946_0]
	uzp2	v5.8h, v7.8h, v5.8h
	uzp2	v7.8h, v17.8h, v16.8h
	uzp2	v16.8h, v19.8h, v18.8h
	ldp	q19, q18, [x24]
	tbl	v6.16b, { v6.16b }, v4.16b
	tbl	v17.16b, { v5.16b }, v4.16b
	ushr	v22.8h, v18.8h, #8
	bic	v18.8h, #255, lsl #8
	orr	v5.16b, v6.16b, v7.16b
	orr	v6.16b, v17.16b, v16.16b
	ldr	q17, [x23, :lo12:.LCPI_70e946_1]
	mvn	v7.16b, v5.16b
	mvn	v16.16b, v6.16b
	ushr	v7.4s, v7.4s, #24
	ushr	v16.4s, v16.4s, #24
	tbl	v7.16b, { v7.16b }, v17.16b
	tbl	v16.16b, { v16.16b }, v17.16b
	ushr	v17.8h, v19.8h, #8
	bic	v19.8h, #255, lsl #8
	mla	v20.8h, v22.8h, v7.8h
	movi	v22.8h, #128
	mla	v21.8h, v17.8h, v16.8h
	movi	v17.8h, #128
	mla	v22.8h, v19.8h, v16.8h
	umull2	v16.4s, v21.8h, v3.8h
	umull	v19.4s, v21.4h, v3.4h
	mla	v17.8h, v18.8h, v7.8h
	umull2	v7.4s, v20.8h, v3.8h
	umull	v18.4s, v20.4h, v3.4h
	umull2	v20.4s, v22.8h, v3.8h
	umull	v21.4s, v22.4h, v3.4h
	uzp2	v16.8h, v19.8h, v16.8h
	umull2	v19.4s, v17.8h, v3.8h
	umull	v3.4s, v17.4h, v3.4h
	uzp2	v7.8h, v18.8h, v7.8h
	uzp2	v17.8h, v21.8h, v20.8h
	tbl	v16.16b, { v16.16b }, v4.16b
	uzp2	v3.8h, v3.8h, v19.8h
	tbl	v4.16b, { v7.16b }, v4.16b
	orr	v7.16b, v16.16b, v17.16b
	orr	v3.16b, v4.16b, v3.16b
	uqadd	v4.16b, v6.16b, v7.16b
	uqadd	v3.16b, v5.16b, v3.16b
	stp	q4, q3, [x24]
	tbz	w14, #2, .LBB_70e946_9
.LBB_70e946_11:
	ldr	q3, [x25, x6]
	movi	v4.8h, #128
	movi	v6.8h, #128
	movi	v7.16b, #1
	movi	v16.8h, #128
	movi	v19.8h, #128
	ushr	v5.8h, v3.8h, #8
	bic	v3.8h, #255, lsl #8
	mla	v4.8h, v5.8h, v2.8h
	mla	v6.8h, v3.8h, v0.8h
	umull2	v3.4s, v4.8h, v7.8h
	umull	v4.4s, v4.4h, v7.4h
	umull2	v5.4s, v6.8h, v7.8h
	umull	v6.4s, v6.4h, v7.4h
	uzp2	v3.8h, v4.8h, v3.8h
	ldr	q4, [x22, :lo12:.LCPI_70e946_0]
	adrp	x22, .LCPI_70e946_2
	uzp2	v5.8h, v6.8h, v5.8h
	ldr	q6, [x22, :lo12:.LCPI_70e946_2]
	tbl	v3.16b, { v3.16b }, v4.16b
	orr	v3.16b, v3.16b, v5.16b
	mvn	v5.16b, v3.16b
	ushr	v5.4s, v5.4s, #24
	tbl	v5.16b, { v5.16b }, v6.16b
	ldr	q6, [x24, x6]
	ushr	v17.8h, v6.8h, #8
	bic	v6.8h, #255, lsl #8
	ushr	v18.8h, v5.8h, #8
	bic	v5.8h, #255, lsl #8
	mla	v16.8h, v17.8h, v18.8h
	mla	v19.8h, v6.8h, v5.8h
	umull2	v5.4s, v16.8h, v7.8h
	umull	v6.4s, v16.4h, v7.4h
	umull2	v16.4s, v19.8h, v7.8h
	umull	v7.4s, v19.4h, v7.4h
	uzp2	v5.8h, v6.8h, v5.8h
	uzp2	v6.8h, v7.8h, v16.8h
	tbl	v4.16b, { v5.16b }, v4.16b
	orr	v4.16b, v4.16b, v6.16b
	uqadd	v3.16b, v3.16b, v4.16b
	str	q3, [x24, x6]
	cmp	x4, x18
	b.eq	.LBB_70e946_2
.LBB_70e946_12:
	mov	x22, x21
	mov	x23, x20
	and	x24, x14, #0xc
.LBB_70e946_13:
	ldr	w26, [x23], #4
	adrp	x25, .LCPI_70e946_3
	ldr	d4, [x25, :lo12:.LCPI_70e946_3]
	ldr	w25, [x22]
	add	x24, x24, #1
	dup	v3.2s, w26
	cmp	x24, x18
	ushl	v3.2s, v3.2s, v4.2s
	mov	s5, v3.s[1]
	str	h3, [sp, #28]
	str	h5, [sp, #30]
	dup	v5.2s, w25
	ldr	s3, [sp, #28]
	zip1	v3.8b, v3.8b, v3.8b
	ushl	v4.2s, v5.2s, v4.2s
	mov	v3.h[3], wzr
	mov	s5, v4.s[1]
	str	h4, [sp, #12]
	uzp1	v3.8b, v3.8b, v0.8b
	str	h5, [sp, #14]
	movi	v5.4h, #128
	ldr	s4, [sp, #12]
	zip1	v4.8b, v4.8b, v4.8b
	ushll	v3.4s, v3.4h, #0
	mov	w27, v3.s[1]
	mov	v4.h[3], wzr
	mov	v3.h[1], w27
	ubfx	w27, w26, #8, #8
	and	w26, w26, #0xff
	uzp1	v4.8b, v4.8b, v0.8b
	mov	v3.h[2], w27
	ushll	v4.4s, v4.4h, #0
	mov	v3.h[3], w26
	mov	w26, v4.s[1]
	mla	v5.4h, v3.4h, v1.h[0]
	mov	v4.h[1], w26
	ubfx	w26, w25, #8, #8
	and	w25, w25, #0xff
	usra	v5.4h, v5.4h, #8
	mov	v4.h[2], w26
	mov	w26, #255
	ushr	v3.4h, v5.4h, #8
	mov	v4.h[3], w25
	adrp	x25, .LCPI_70e946_4
	umov	w27, v3.h[0]
	movi	v3.4h, #128
	bic	w26, w26, w27
	dup	v6.4h, w26
	mla	v3.4h, v6.4h, v4.4h
	movi	d4, #0xff00ff00ff00ff
	usra	v3.4h, v3.4h, #8
	ushr	v3.4h, v3.4h, #8
	usra	v3.4h, v5.4h, #8
	umin	v3.4h, v3.4h, v4.4h
	ldr	q4, [x25, :lo12:.LCPI_70e946_4]
	ushll	v3.4s, v3.4h, #0
	ushl	v3.4s, v3.4s, v4.4s
	ext	v4.16b, v3.16b, v3.16b, #8
	orr	v3.8b, v3.8b, v4.8b
	fmov	x25, d3
	lsr	x26, x25, #32
	orr	w25, w25, w26
	str	w25, [x22], #4
	b.lo	.LBB_70e946_13
	b	.LBB_70e946_2
.LBB_70e946_14:
	ldp	x20, x19, [sp, #80]
	ldr	x27, [sp, #16]
	ldp	x22, x21, [sp, #64]
	ldp	x24, x23, [sp, #48]
	ldp	x26, x25, [sp, #32]
	add	sp, sp, #96
.LBB_70e946_15:
	ret
.Lfunc_end_70e946:
	.size	"pix_raster::view::blit_overlap::<#ae9f661a91a09783>", .Lfunc_end_70e946-"pix_raster::view::blit_overlap::<#ae9f661a91a09783>"

	.section	.rodata.cst16,"aM",@progbits,16
	.p2align	4, 0x0
.LCPI_f44c59_0:
	.byte	0
	.byte	255
	.byte	0
	.byte	255
	.byte	4
	.byte	255
	.byte	4
	.byte	255
	.byte	8
	.byte	255
	.byte	8
	.byte	255
	.byte	12
	.byte	255
	.byte	12
	.byte	255
.LCPI_f44c59_1:
	.byte	255
	.byte	0
	.byte	255
	.byte	2
	.byte	255
	.byte	4
	.byte	255
	.byte	6
	.byte	255
	.byte	8
	.byte	255
	.byte	10
	.byte	255
	.byte	12
	.byte	255
	.byte	14
.LCPI_f44c59_2:
	.byte	0
	.byte	0
	.byte	0
	.byte	0
	.byte	4
	.byte	4
	.byte	4
	.byte	4
	.byte	8
	.byte	8
	.byte	8
	.byte	8
	.byte	12
	.byte	12
	.byte	12
	.byte	12
.LCPI_f44c59_4:
	.word	4294967272
	.word	4294967280
	.word	4294967288
	.word	0
.LCPI_f44c59_5:
	.word	24
	.word	16
	.word	8
	.word	0
	.section	.rodata.cst8,"aM",@progbits,8
	.p2align	3, 0x0
.LCPI_f44c59_3:
	.word	4294967272
	.word	4294967280
	.section	".text.pix_raster::view::blit_overlap::<#88ae0de0b3775985>","ax",@progbits
	.p2align	2
	.type	"pix_raster::view::blit_overlap::<#88ae0de0b3775985>",@function
"pix_raster::view::blit_overlap::<#88ae0de0b3775985>":
	ldp	x8, x9, [x4, #24]
	cmp	x8, x9
	b.hs	.LBB_f44c59_15
	str	x27, [sp, #-80]!
	ldr	x16, [x4, #40]
	ldp	x13, x10, [x4, #8]
	ldr	x11, [x4]
	madd	x6, x8, x1, x11
	lsl	x12, x3, #2
	stp	x20, x19, [sp, #64]
	lsl	x14, x1, #2
	madd	x5, x16, x3, x10
	sub	x13, x13, x11
	stp	x22, x21, [sp, #48]
	and	x15, x13, #0xfffffffffffffff0
	lsl	x7, x13, #2
	lsr	x17, x13, #4
	lsr	x19, x15, #4
	sub	x16, x16, x8
	and	x18, x13, #0xf
	and	x21, x7, #0x30
	add	x22, x0, x6, lsl #2
	and	x4, x13, #0xc
	bfi	x21, x19, #6, #58
	and	x6, x7, #0x20
	stp	x26, x25, [sp, #16]
	add	x20, x2, x5, lsl #2
	lsl	x5, x15, #2
	add	x19, x22, #32
	stp	x24, x23, [sp, #32]
	add	x7, x20, #32
	add	x20, x20, x21
	add	x21, x22, x21
	b	.LBB_f44c59_3
.LBB_f44c59_2:
	add	x8, x8, #1
	add	x7, x7, x12
	add	x19, x19, x14
	cmp	x8, x9
	add	x20, x20, x12
	add	x21, x21, x14
	b.eq	.LBB_f44c59_14
.LBB_f44c59_3:
	adrp	x23, .LCPI_f44c59_0
	adrp	x22, .LCPI_f44c59_1
	cbz	x17, .LBB_f44c59_6
	mov	x24, x19
	mov	x25, x7
	mov	x26, x17
.LBB_f44c59_5:
	ldp	q4, q2, [x24, #-32]
	movi	v7.8h, #128
	ldp	q6, q5, [x25, #-32]
	movi	v16.8h, #128
	movi	v20.8h, #128
	subs	x26, x26, #1
	mvn	v0.16b, v2.16b
	mvn	v1.16b, v4.16b
	ushr	v17.8h, v5.8h, #8
	ushr	v19.8h, v6.8h, #8
	bic	v6.8h, #255, lsl #8
	bic	v5.8h, #255, lsl #8
	ushr	v3.4s, v0.4s, #24
	ushr	v1.4s, v1.4s, #24
	ldr	q0, [x23, :lo12:.LCPI_f44c59_0]
	tbl	v3.16b, { v3.16b }, v0.16b
	tbl	v18.16b, { v1.16b }, v0.16b
	movi	v1.16b, #1
	mla	v7.8h, v17.8h, v3.8h
	mla	v16.8h, v19.8h, v18.8h
	movi	v17.8h, #128
	mla	v20.8h, v6.8h, v18.8h
	umull2	v6.4s, v16.8h, v1.8h
	umull	v16.4s, v16.4h, v1.4h
	mla	v17.8h, v5.8h, v3.8h
	umull2	v3.4s, v7.8h, v1.8h
	umull	v5.4s, v7.4h, v1.4h
	umull2	v7.4s, v20.8h, v1.8h
	umull	v18.4s, v20.4h, v1.4h
	uzp2	v6.8h, v16.8h, v6.8h
	umull2	v16.4s, v17.8h, v1.8h
	umull	v17.4s, v17.4h, v1.4h
	uzp2	v5.8h, v5.8h, v3.8h
	ldr	q3, [x22, :lo12:.LCPI_f44c59_1]
	uzp2	v7.8h, v18.8h, v7.8h
	movi	v18.8h, #128
	tbl	v6.16b, { v6.16b }, v3.16b
	uzp2	v16.8h, v17.8h, v16.8h
	tbl	v5.16b, { v5.16b }, v3.16b
	orr	v7.16b, v6.16b, v7.16b
	orr	v16.16b, v5.16b, v16.16b
	ldp	q6, q5, [x24]
	uqadd	v4.16b, v7.16b, v4.16b
	uqadd	v2.16b, v16.16b, v2.16b
	mvn	v7.16b, v5.16b
	mvn	v16.16b, v6.16b
	ushr	v7.4s, v7.4s, #24
	stp	q4, q2, [x24, #-32]
	ushr	v4.4s, v16.4s, #24
	movi	v16.8h, #128
	ldp	q17, q2, [x25], #64
	tbl	v7.16b, { v7.16b }, v0.16b
	tbl	v0.16b, { v4.16b }, v0.16b
	ushr	v4.8h, v2.8h, #8
	ushr	v19.8h, v17.8h, #8
	bic	v17.8h, #255, lsl #8
	bic	v2.8h, #255, lsl #8
	mla	v16.8h, v4.8h, v7.8h
	movi	v4.8h, #128
	mla	v18.8h, v19.8h, v0.8h
	movi	v19.8h, #128
	mla	v4.8h, v17.8h, v0.8h
	umull2	v0.4s, v18.8h, v1.8h
	umull	v17.4s, v18.4h, v1.4h
	mla	v19.8h, v2.8h, v7.8h
	umull2	v2.4s, v16.8h, v1.8h
	umull	v7.4s, v16.4h, v1.4h
	umull2	v16.4s, v4.8h, v1.8h
	umull	v4.4s, v4.4h, v1.4h
	uzp2	v0.8h, v17.8h, v0.8h
	umull2	v17.4s, v19.8h, v1.8h
	umull	v1.4s, v19.4h, v1.4h
	uzp2	v2.8h, v7.8h, v2.8h
	uzp2	v4.8h, v4.8h, v16.8h
	tbl	v0.16b, { v0.16b }, v3.16b
	uzp2	v1.8h, v1.8h, v17.8h
	tbl	v2.16b, { v2.16b }, v3.16b
	orr	v0.16b, v0.16b, v4.16b
	orr	v1.16b, v2.16b, v1.16b
	uqadd	v0.16b, v0.16b, v6.16b
	uqadd	v1.16b, v1.16b, v5.16b
	stp	q0, q1, [x24], #64
	b.ne	.LBB_f44c59_5
.LBB_f44c59_6:
	cmp	x15, x13
	b.eq	.LBB_f44c59_2
	add	x25, x16, x8
	madd	x24, x8, x1, x11
	madd	x25, x25, x3, x10
	add	x24, x0, x24, lsl #2
	add	x25, x2, x25, lsl #2
	add	x24, x24, x5
	add	x25, x25, x5
	tbnz	w13, #3, .LBB_f44c59_10
	tbnz	w13, #2, .LBB_f44c59_11
.LBB_f44c59_9:
	cmp	x4, x18
	b.eq	.LBB_f44c59_2
	b	.LBB_f44c59_12
.LBB_f44c59_10:
	ldp	q1, q0, [x24]
	movi	v7.8h, #128
	ldr	q4, [x23, :lo12:.LCPI_f44c59_0]
	ldp	q6, q5, [x25]
	movi	v16.8h, #128
	movi	v18.8h, #128
	mvn	v2.16b, v0.16b
	mvn	v3.16b, v1.16b
	ushr	v17.8h, v5.8h, #8
	bic	v5.8h, #255, lsl #8
	ushr	v2.4s, v2.4s, #24
	ushr	v3.4s, v3.4s, #24
	tbl	v2.16b, { v2.16b }, v4.16b
	tbl	v3.16b, { v3.16b }, v4.16b
	ushr	v4.8h, v6.8h, #8
	bic	v6.8h, #255, lsl #8
	mla	v7.8h, v17.8h, v2.8h
	movi	v17.16b, #1
	mla	v16.8h, v4.8h, v3.8h
	movi	v4.8h, #128
	mla	v18.8h, v6.8h, v3.8h
	umull2	v3.4s, v16.8h, v17.8h
	umull	v6.4s, v16.4h, v17.4h
	mla	v4.8h, v5.8h, v2.8h
	umull2	v2.4s, v7.8h, v17.8h
	umull	v5.4s, v7.4h, v17.4h
	umull2	v7.4s, v18.8h, v17.8h
	umull	v16.4s, v18.4h, v17.4h
	uzp2	v3.8h, v6.8h, v3.8h
	umull2	v6.4s, v4.8h, v17.8h
	umull	v4.4s, v4.4h, v17.4h
	uzp2	v2.8h, v5.8h, v2.8h
	ldr	q5, [x22, :lo12:.LCPI_f44c59_1]
	uzp2	v7.8h, v16.8h, v7.8h
	tbl	v3.16b, { v3.16b }, v5.16b
	uzp2	v4.8h, v4.8h, v6.8h
	tbl	v2.16b, { v2.16b }, v5.16b
	orr	v3.16b, v3.16b, v7.16b
	orr	v2.16b, v2.16b, v4.16b
	uqadd	v1.16b, v3.16b, v1.16b
	uqadd	v0.16b, v2.16b, v0.16b
	stp	q1, q0, [x24]
	tbz	w13, #2, .LBB_f44c59_9
.LBB_f44c59_11:
	ldr	q0, [x24, x6]
	adrp	x23, .LCPI_f44c59_2
	movi	v3.8h, #128
	ldr	q2, [x23, :lo12:.LCPI_f44c59_2]
	movi	v6.8h, #128
	mvn	v1.16b, v0.16b
	ushr	v1.4s, v1.4s, #24
	tbl	v1.16b, { v1.16b }, v2.16b
	ldr	q2, [x25, x6]
	ushr	v4.8h, v2.8h, #8
	bic	v2.8h, #255, lsl #8
	ushr	v5.8h, v1.8h, #8
	bic	v1.8h, #255, lsl #8
	mla	v3.8h, v5.8h, v4.8h
	movi	v4.16b, #1
	mla	v6.8h, v1.8h, v2.8h
	umull2	v1.4s, v3.8h, v4.8h
	umull	v2.4s, v3.4h, v4.4h
	umull2	v3.4s, v6.8h, v4.8h
	umull	v4.4s, v6.4h, v4.4h
	uzp2	v1.8h, v2.8h, v1.8h
	ldr	q2, [x22, :lo12:.LCPI_f44c59_1]
	uzp2	v3.8h, v4.8h, v3.8h
	tbl	v1.16b, { v1.16b }, v2.16b
	orr	v1.16b, v1.16b, v3.16b
	uqadd	v0.16b, v1.16b, v0.16b
	str	q0, [x24, x6]
	cmp	x4, x18
	b.eq	.LBB_f44c59_2
.LBB_f44c59_12:
	mov	x22, x21
	mov	x23, x20
	and	x24, x13, #0xc
.LBB_f44c59_13:
	ldr	w25, [x23], #4
	adrp	x26, .LCPI_f44c59_3
	ldr	d1, [x26, :lo12:.LCPI_f44c59_3]
	movi	v4.4h, #128
	add	x24, x24, #1
	dup	v0.2s, w25
	cmp	x24, x18
	ushl	v0.2s, v0.2s, v1.2s
	mov	s1, v0.s[1]
	str	h0, [sp, #12]
	str	h1, [sp, #14]
	ldr	s0, [sp, #12]
	ldr	w27, [x22]
	zip1	v0.8b, v0.8b, v0.8b
	dup	v1.4s, w27
	mov	v0.h[3], wzr
	uzp1	v0.8b, v0.8b, v0.8b
	ushll	v0.4s, v0.4h, #0
	mov	w26, v0.s[1]
	mov	v0.h[1], w26
	ubfx	w26, w25, #8, #8
	and	w25, w25, #0xff
	mov	v0.h[2], w26
	mvn	w26, w27
	adrp	x27, .LCPI_f44c59_4
	lsr	w26, w26, #24
	ldr	q2, [x27, :lo12:.LCPI_f44c59_4]
	dup	v3.4h, w26
	ushl	v1.4s, v1.4s, v2.4s
	mov	v0.h[3], w25
	adrp	x25, .LCPI_f44c59_5
	xtn	v1.4h, v1.4s
	mla	v4.4h, v3.4h, v0.4h
	movi	d0, #0xff00ff00ff00ff
	bic	v1.4h, #255, lsl #8
	usra	v4.4h, v4.4h, #8
	usra	v1.4h, v4.4h, #8
	umin	v0.4h, v1.4h, v0.4h
	ldr	q1, [x25, :lo12:.LCPI_f44c59_5]
	ushll	v0.4s, v0.4h, #0
	ushl	v0.4s, v0.4s, v1.4s
	ext	v1.16b, v0.16b, v0.16b, #8
	orr	v0.8b, v0.8b, v1.8b
	fmov	x25, d0
	lsr	x26, x25, #32
	orr	w25, w25, w26
	str	w25, [x22], #4
	b.lo	.LBB_f44c59_13
	b	.LBB_f44c59_2
.LBB_f44c59_14:
	ldp	x20, x19, [sp, #64]
	ldp	x22, x21, [sp, #48]
	ldp	x24, x23, [sp, #32]
	ldp	x26, x25, [sp, #16]
	ldr	x27, [sp], #80
.LBB_f44c59_15:
	ret
.Lfunc_end_f44c59:
	.size	"pix_raster::view::blit_overlap::<#88ae0de0b3775985>", .Lfunc_end_f44c59-"pix_raster::view::blit_overlap::<#88ae0de0b3775985>"

	.section	.rodata.cst16,"aM",@progbits,16
	.p2align	4, 0x0
.LCPI_f798d0_0:
	.word	0
	.word	4294967288
	.word	4294967280
	.word	4294967272
.LCPI_f798d0_1:
	.byte	0
	.byte	255
	.byte	0
	.byte	255
	.byte	4
	.byte	255
	.byte	4
	.byte	255
	.byte	8
	.byte	255
	.byte	8
	.byte	255
	.byte	12
	.byte	255
	.byte	12
	.byte	255
.LCPI_f798d0_2:
	.byte	255
	.byte	0
	.byte	255
	.byte	2
	.byte	255
	.byte	4
	.byte	255
	.byte	6
	.byte	255
	.byte	8
	.byte	255
	.byte	10
	.byte	255
	.byte	12
	.byte	255
	.byte	14
.LCPI_f798d0_3:
	.byte	0
	.byte	0
	.byte	0
	.byte	0
	.byte	1
	.byte	1
	.byte	1
	.byte	1
	.byte	2
	.byte	2
	.byte	2
	.byte	2
	.byte	3
	.byte	3
	.byte	3
	.byte	3
.LCPI_f798d0_4:
	.byte	0
	.byte	0
	.byte	0
	.byte	0
	.byte	4
	.byte	4
	.byte	4
	.byte	4
	.byte	8
	.byte	8
	.byte	8
	.byte	8
	.byte	12
	.byte	12
	.byte	12
	.byte	12
.LCPI_f798d0_5:
	.word	4294967280
	.word	4294967272
	.word	4294967288
	.word	0
.LCPI_f798d0_6:
	.word	16
	.word	24
	.word	8
	.word	0
	.section	".text.pix_raster::view::blit_overlap::<#7a2e6a0a1e536be3>","ax",@progbits
	.p2align	2
	.type	"pix_raster::view::blit_overlap::<#7a2e6a0a1e536be3>",@function
"pix_raster::view::blit_overlap::<#7a2e6a0a1e536be3>":
	ldp	x8, x9, [x4, #24]
	cmp	x8, x9
	b.hs	.LBB_f798d0_19
	str	x27, [sp, #-80]!
	dup	v0.4s, w5
	adrp	x10, .LCPI_f798d0_0
	ubfx	w16, w5, #8, #8
	ldr	q1, [x10, :lo12:.LCPI_f798d0_0]
	ldp	x12, x13, [x4, #8]
	ldr	x14, [x4, #40]
	stp	x20, x19, [sp, #64]
	and	w5, w5, #0xff
	ushl	v2.4s, v0.4s, v1.4s
	stp	x22, x21, [sp, #48]
	madd	x19, x14, x3, x13
	stp	x24, x23, [sp, #32]
	add	x11, x2, x13
	sub	x13, x14, x8
	stp	x26, x25, [sp, #16]
	umov	w10, v2.h[4]
	uzp1	v0.8h, v2.8h, v2.8h
	and	w10, w10, #0xff
	uzp1	v0.16b, v0.16b, v0.16b
	fmov	s1, w10
	ldr	x10, [x4]
	madd	x7, x8, x1, x10
	sub	x12, x12, x10
	mov	v1.h[1], v2.h[6]
	and	x15, x12, #0xfffffffffffffff0
	lsl	x21, x12, #2
	lsr	x20, x15, #4
	and	x6, x12, #0xc
	ushr	v2.8h, v0.8h, #8
	and	x21, x21, #0x30
	bic	v0.8h, #255, lsl #8
	and	x18, x12, #0x8
	add	x22, x0, x7, lsl #2
	add	x23, x15, x6
	bfi	x21, x20, #6, #58
	mov	v1.h[2], w16
	lsr	x14, x12, #4
	lsl	x16, x15, #2
	lsl	x4, x18, #2
	lsl	x7, x1, #2
	add	x20, x2, x23
	and	x17, x12, #0xf
	mov	v1.h[3], w5
	add	x5, x19, x2
	add	x2, x22, #32
	add	x5, x5, #8
	add	x19, x20, x19
	add	x20, x22, x21
	b	.LBB_f798d0_3
.LBB_f798d0_2:
	add	x8, x8, #1
	add	x5, x5, x3
	add	x2, x2, x7
	cmp	x8, x9
	add	x19, x19, x3
	add	x20, x20, x7
	b.eq	.LBB_f798d0_18
.LBB_f798d0_3:
	adrp	x22, .LCPI_f798d0_1
	adrp	x21, .LCPI_f798d0_2
	cbz	x14, .LBB_f798d0_8
	mov	x23, x2
	mov	x24, x5
	mov	x25, x14
	b	.LBB_f798d0_6
.LBB_f798d0_5:
	subs	x25, x25, #1
	add	x24, x24, #16
	add	x23, x23, #64
	b.eq	.LBB_f798d0_8
.LBB_f798d0_6:
	ldp	d3, d4, [x24, #-8]
	orr	v4.8b, v4.8b, v3.8b
	fmov	x26, d4
	orr	x26, x26, x26, lsr #32
	lsr	x27, x26, #16
	orr	w26, w26, w27
	orr	w26, w26, w26, lsr #8
	tst	w26, #0xff
	b.eq	.LBB_f798d0_5
	zip1	v3.16b, v3.16b, v3.16b
	movi	v5.8h, #1
	movi	v7.8h, #128
	movi	v16.8h, #128
	movi	v19.8h, #128
	movi	v20.8h, #128
	movi	v23.8h, #128
	ushll	v4.4s, v3.4h, #0
	ushll2	v3.4s, v3.8h, #0
	mul	v4.4s, v4.4s, v5.4s
	mul	v6.4s, v3.4s, v5.4s
	movi	v3.16b, #1
	ushr	v17.8h, v4.8h, #8
	ushr	v18.8h, v6.8h, #8
	bic	v4.8h, #255, lsl #8
	bic	v6.8h, #255, lsl #8
	mla	v7.8h, v17.8h, v2.8h
	mla	v16.8h, v18.8h, v2.8h
	mla	v19.8h, v4.8h, v0.8h
	mla	v20.8h, v6.8h, v0.8h
	umull2	v4.4s, v7.8h, v3.8h
	umull	v7.4s, v7.4h, v3.4h
	umull2	v6.4s, v16.8h, v3.8h
	umull	v16.4s, v16.4h, v3.4h
	umull2	v17.4s, v19.8h, v3.8h
	umull	v18.4s, v19.4h, v3.4h
	umull2	v19.4s, v20.8h, v3.8h
	umull	v20.4s, v20.4h, v3.4h
	uzp2	v4.8h, v7.8h, v4.8h
	uzp2	v6.8h, v16.8h, v6.8h
	ldp	q16, q7, [x23, #-32]
	uzp2	v17.8h, v18.8h, v17.8h
	uzp2	v19.8h, v20.8h, v19.8h
	mvn	v21.16b, v16.16b
	rev16	v18.16b, v4.16b
	mvn	v22.16b, v7.16b
	rev16	v6.16b, v6.16b
	ldr	q4, [x22, :lo12:.LCPI_f798d0_1]
	ushr	v20.4s, v21.4s, #24
	ushr	v21.4s, v22.4s, #24
	movi	v22.8h, #128
	orr	v18.16b, v18.16b, v17.16b
	orr	v6.16b, v6.16b, v19.16b
	tbl	v20.16b, { v20.16b }, v4.16b
	tbl	v21.16b, { v21.16b }, v4.16b
	ushr	v18.8h, v18.8h, #8
	ushr	v6.8h, v6.8h, #8
	mla	v22.8h, v18.8h, v20.8h
	movi	v18.8h, #128
	mla	v23.8h, v6.8h, v21.8h
	movi	v6.8h, #128
	mla	v18.8h, v20.8h, v17.8h
	umull2	v17.4s, v22.8h, v3.8h
	umull	v20.4s, v22.4h, v3.4h
	mla	v6.8h, v21.8h, v19.8h
	umull2	v19.4s, v23.8h, v3.8h
	umull	v21.4s, v23.4h, v3.4h
	umull2	v22.4s, v18.8h, v3.8h
	umull	v18.4s, v18.4h, v3.4h
	uzp2	v17.8h, v20.8h, v17.8h
	umull2	v20.4s, v6.8h, v3.8h
	umull	v23.4s, v6.4h, v3.4h
	uzp2	v19.8h, v21.8h, v19.8h
	ldr	q6, [x21, :lo12:.LCPI_f798d0_2]
	movi	v21.8h, #128
	uzp2	v18.8h, v18.8h, v22.8h
	tbl	v17.16b, { v17.16b }, v6.16b
	uzp2	v20.8h, v23.8h, v20.8h
	tbl	v19.16b, { v19.16b }, v6.16b
	movi	v23.8h, #128
	orr	v17.16b, v17.16b, v18.16b
	orr	v18.16b, v19.16b, v20.16b
	movi	v20.8h, #128
	uqadd	v16.16b, v17.16b, v16.16b
	movi	v17.8h, #128
	uqadd	v7.16b, v18.16b, v7.16b
	stp	q16, q7, [x23, #-32]
	ldr	d7, [x24]
	zip1	v7.16b, v7.16b, v7.16b
	ushll	v16.4s, v7.4h, #0
	ushll2	v7.4s, v7.8h, #0
	mul	v16.4s, v16.4s, v5.4s
	mul	v5.4s, v7.4s, v5.4s
	movi	v7.8h, #128
	ushr	v18.8h, v16.8h, #8
	ushr	v19.8h, v5.8h, #8
	bic	v16.8h, #255, lsl #8
	bic	v5.8h, #255, lsl #8
	mla	v7.8h, v18.8h, v2.8h
	mla	v17.8h, v19.8h, v2.8h
	mla	v20.8h, v16.8h, v0.8h
	mla	v21.8h, v5.8h, v0.8h
	umull2	v16.4s, v7.8h, v3.8h
	umull	v7.4s, v7.4h, v3.4h
	umull2	v5.4s, v17.8h, v3.8h
	umull	v17.4s, v17.4h, v3.4h
	umull2	v18.4s, v20.8h, v3.8h
	umull	v19.4s, v20.4h, v3.4h
	umull2	v20.4s, v21.8h, v3.8h
	umull	v21.4s, v21.4h, v3.4h
	uzp2	v16.8h, v7.8h, v16.8h
	uzp2	v17.8h, v17.8h, v5.8h
	ldp	q7, q5, [x23]
	uzp2	v18.8h, v19.8h, v18.8h
	uzp2	v20.8h, v21.8h, v20.8h
	mvn	v22.16b, v7.16b
	rev16	v16.16b, v16.16b
	mvn	v19.16b, v5.16b
	rev16	v17.16b, v17.16b
	ushr	v21.4s, v22.4s, #24
	ushr	v19.4s, v19.4s, #24
	movi	v22.8h, #128
	orr	v16.16b, v16.16b, v18.16b
	orr	v17.16b, v17.16b, v20.16b
	tbl	v21.16b, { v21.16b }, v4.16b
	tbl	v4.16b, { v19.16b }, v4.16b
	movi	v19.8h, #128
	ushr	v16.8h, v16.8h, #8
	ushr	v17.8h, v17.8h, #8
	mla	v22.8h, v16.8h, v21.8h
	movi	v16.8h, #128
	mla	v19.8h, v21.8h, v18.8h
	mla	v23.8h, v17.8h, v4.8h
	umull2	v17.4s, v22.8h, v3.8h
	umull	v18.4s, v22.4h, v3.4h
	mla	v16.8h, v4.8h, v20.8h
	umull2	v4.4s, v23.8h, v3.8h
	umull	v20.4s, v23.4h, v3.4h
	umull2	v21.4s, v19.8h, v3.8h
	umull	v19.4s, v19.4h, v3.4h
	uzp2	v17.8h, v18.8h, v17.8h
	umull2	v18.4s, v16.8h, v3.8h
	umull	v3.4s, v16.4h, v3.4h
	uzp2	v4.8h, v20.8h, v4.8h
	uzp2	v16.8h, v19.8h, v21.8h
	tbl	v17.16b, { v17.16b }, v6.16b
	uzp2	v3.8h, v3.8h, v18.8h
	tbl	v4.16b, { v4.16b }, v6.16b
	orr	v6.16b, v17.16b, v16.16b
	orr	v3.16b, v4.16b, v3.16b
	uqadd	v4.16b, v6.16b, v7.16b
	uqadd	v3.16b, v3.16b, v5.16b
	stp	q4, q3, [x23]
	b	.LBB_f798d0_5
.LBB_f798d0_8:
	cmp	x15, x12
	b.eq	.LBB_f798d0_2
	madd	x23, x8, x1, x10
	add	x24, x13, x8
	madd	x24, x24, x3, x11
	add	x23, x0, x23, lsl #2
	add	x23, x23, x16
	add	x24, x24, x15
	tbz	w12, #3, .LBB_f798d0_12
	ldr	d3, [x24]
	fmov	x25, d3
	orr	x25, x25, x25, lsr #32
	lsr	x26, x25, #16
	orr	w25, w25, w26
	orr	w25, w25, w25, lsr #8
	tst	w25, #0xff
	b.eq	.LBB_f798d0_12
	zip1	v3.16b, v3.16b, v3.16b
	movi	v4.8h, #1
	movi	v6.8h, #128
	movi	v7.8h, #128
	movi	v18.8h, #128
	movi	v19.8h, #128
	movi	v21.8h, #128
	ushll	v5.4s, v3.4h, #0
	ushll2	v3.4s, v3.8h, #0
	mul	v5.4s, v5.4s, v4.4s
	mul	v4.4s, v3.4s, v4.4s
	movi	v3.16b, #1
	ushr	v16.8h, v5.8h, #8
	ushr	v17.8h, v4.8h, #8
	bic	v5.8h, #255, lsl #8
	bic	v4.8h, #255, lsl #8
	mla	v6.8h, v16.8h, v2.8h
	mla	v7.8h, v17.8h, v2.8h
	mla	v18.8h, v5.8h, v0.8h
	mla	v19.8h, v4.8h, v0.8h
	umull2	v5.4s, v6.8h, v3.8h
	umull	v6.4s, v6.4h, v3.4h
	umull2	v4.4s, v7.8h, v3.8h
	umull	v7.4s, v7.4h, v3.4h
	umull2	v16.4s, v18.8h, v3.8h
	umull	v17.4s, v18.4h, v3.4h
	umull2	v18.4s, v19.8h, v3.8h
	umull	v19.4s, v19.4h, v3.4h
	uzp2	v6.8h, v6.8h, v5.8h
	uzp2	v7.8h, v7.8h, v4.8h
	ldp	q5, q4, [x23]
	uzp2	v16.8h, v17.8h, v16.8h
	uzp2	v18.8h, v19.8h, v18.8h
	mvn	v20.16b, v5.16b
	rev16	v6.16b, v6.16b
	mvn	v17.16b, v4.16b
	rev16	v7.16b, v7.16b
	ushr	v19.4s, v20.4s, #24
	ushr	v17.4s, v17.4s, #24
	ldr	q20, [x22, :lo12:.LCPI_f798d0_1]
	orr	v6.16b, v6.16b, v16.16b
	orr	v7.16b, v7.16b, v18.16b
	tbl	v19.16b, { v19.16b }, v20.16b
	tbl	v17.16b, { v17.16b }, v20.16b
	movi	v20.8h, #128
	ushr	v6.8h, v6.8h, #8
	ushr	v7.8h, v7.8h, #8
	mla	v21.8h, v6.8h, v19.8h
	movi	v6.8h, #128
	mla	v20.8h, v7.8h, v17.8h
	movi	v7.8h, #128
	mla	v6.8h, v19.8h, v16.8h
	umull2	v16.4s, v21.8h, v3.8h
	umull	v19.4s, v21.4h, v3.4h
	mla	v7.8h, v17.8h, v18.8h
	umull2	v17.4s, v20.8h, v3.8h
	umull	v18.4s, v20.4h, v3.4h
	umull2	v20.4s, v6.8h, v3.8h
	umull	v6.4s, v6.4h, v3.4h
	uzp2	v16.8h, v19.8h, v16.8h
	umull2	v19.4s, v7.8h, v3.8h
	umull	v3.4s, v7.4h, v3.4h
	uzp2	v7.8h, v18.8h, v17.8h
	ldr	q17, [x21, :lo12:.LCPI_f798d0_2]
	uzp2	v6.8h, v6.8h, v20.8h
	tbl	v16.16b, { v16.16b }, v17.16b
	uzp2	v3.8h, v3.8h, v19.8h
	tbl	v7.16b, { v7.16b }, v17.16b
	orr	v6.16b, v16.16b, v6.16b
	orr	v3.16b, v7.16b, v3.16b
	uqadd	v5.16b, v6.16b, v5.16b
	uqadd	v3.16b, v3.16b, v4.16b
	stp	q5, q3, [x23]
.LBB_f798d0_12:
	tbz	w12, #2, .LBB_f798d0_15
	ldr	s3, [x24, x18]
	dup	v4.16b, v3.b[1]
	dup	v5.16b, v3.b[2]
	dup	v6.16b, v3.b[3]
	orr	v4.16b, v4.16b, v5.16b
	orr	v5.16b, v6.16b, v3.16b
	orr	v4.16b, v4.16b, v5.16b
	umov	w22, v4.b[0]
	cbz	w22, .LBB_f798d0_15
	adrp	x22, .LCPI_f798d0_3
	movi	v6.8h, #128
	movi	v7.16b, #1
	ldr	q4, [x22, :lo12:.LCPI_f798d0_3]
	ldr	q16, [x23, x4]
	adrp	x22, .LCPI_f798d0_4
	movi	v18.8h, #128
	tbl	v3.16b, { v3.16b }, v4.16b
	movi	v4.8h, #128
	ushr	v5.8h, v3.8h, #8
	bic	v3.8h, #255, lsl #8
	mla	v4.8h, v5.8h, v2.8h
	mla	v6.8h, v3.8h, v0.8h
	umull2	v3.4s, v4.8h, v7.8h
	umull	v4.4s, v4.4h, v7.4h
	umull2	v5.4s, v6.8h, v7.8h
	umull	v6.4s, v6.4h, v7.4h
	uzp2	v3.8h, v4.8h, v3.8h
	mvn	v4.16b, v16.16b
	uzp2	v5.8h, v6.8h, v5.8h
	ldr	q6, [x22, :lo12:.LCPI_f798d0_4]
	ushr	v4.4s, v4.4s, #24
	rev16	v3.16b, v3.16b
	tbl	v4.16b, { v4.16b }, v6.16b
	movi	v6.8h, #128
	orr	v3.16b, v3.16b, v5.16b
	ushr	v17.8h, v4.8h, #8
	bic	v4.8h, #255, lsl #8
	ushr	v3.8h, v3.8h, #8
	mla	v18.8h, v4.8h, v5.8h
	mla	v6.8h, v17.8h, v3.8h
	umull2	v5.4s, v18.8h, v7.8h
	umull2	v3.4s, v6.8h, v7.8h
	umull	v4.4s, v6.4h, v7.4h
	umull	v6.4s, v18.4h, v7.4h
	uzp2	v3.8h, v4.8h, v3.8h
	ldr	q4, [x21, :lo12:.LCPI_f798d0_2]
	uzp2	v5.8h, v6.8h, v5.8h
	tbl	v3.16b, { v3.16b }, v4.16b
	orr	v3.16b, v3.16b, v5.16b
	uqadd	v3.16b, v3.16b, v16.16b
	str	q3, [x23, x4]
.LBB_f798d0_15:
	cmp	x6, x17
	b.eq	.LBB_f798d0_2
	mov	x21, x20
	mov	x22, x19
	and	x23, x12, #0xc
.LBB_f798d0_17:
	ldrb	w24, [x22], #1
	movi	v4.4h, #128
	adrp	x25, .LCPI_f798d0_5
	movi	v6.4h, #128
	add	x23, x23, #1
	dup	v3.4h, w24
	ldr	w24, [x21]
	ldr	q5, [x25, :lo12:.LCPI_f798d0_5]
	cmp	x23, x17
	mla	v4.4h, v3.4h, v1.4h
	dup	v3.4s, w24
	mvn	w24, w24
	lsr	w24, w24, #24
	dup	v7.4h, w24
	ushl	v3.4s, v3.4s, v5.4s
	adrp	x24, .LCPI_f798d0_6
	usra	v4.4h, v4.4h, #8
	xtn	v3.4h, v3.4s
	ushr	v4.4h, v4.4h, #8
	mla	v6.4h, v4.4h, v7.4h
	bic	v3.4h, #255, lsl #8
	movi	d4, #0xff00ff00ff00ff
	usra	v6.4h, v6.4h, #8
	usra	v3.4h, v6.4h, #8
	umin	v3.4h, v3.4h, v4.4h
	ldr	q4, [x24, :lo12:.LCPI_f798d0_6]
	ushll	v3.4s, v3.4h, #0
	ushl	v3.4s, v3.4s, v4.4s
	ext	v4.16b, v3.16b, v3.16b, #8
	orr	v3.8b, v3.8b, v4.8b
	fmov	x24, d3
	lsr	x25, x24, #32
	orr	w24, w24, w25
	str	w24, [x21], #4
	b.lo	.LBB_f798d0_17
	b	.LBB_f798d0_2
.LBB_f798d0_18:
	ldp	x20, x19, [sp, #64]
	ldp	x22, x21, [sp, #48]
	ldp	x24, x23, [sp, #32]
	ldp	x26, x25, [sp, #16]
	ldr	x27, [sp], #80
.LBB_f798d0_19:
	ret
.Lfunc_end_f798d0:
	.size	"pix_raster::view::blit_overlap::<#7a2e6a0a1e536be3>", .Lfunc_end_f798d0-"pix_raster::view::blit_overlap::<#7a2e6a0a1e536be3>"

	.section	.rodata.cst16,"aM",@progbits,16
	.p2align	4, 0x0
.LCPI_b7a934_0:
	.byte	0
	.byte	255
	.byte	0
	.byte	255
	.byte	4
	.byte	255
	.byte	4
	.byte	255
	.byte	8
	.byte	255
	.byte	8
	.byte	255
	.byte	12
	.byte	255
	.byte	12
	.byte	255
.LCPI_b7a934_1:
	.byte	255
	.byte	0
	.byte	255
	.byte	2
	.byte	255
	.byte	4
	.byte	255
	.byte	6
	.byte	255
	.byte	8
	.byte	255
	.byte	10
	.byte	255
	.byte	12
	.byte	255
	.byte	14
.LCPI_b7a934_2:
	.byte	0
	.byte	0
	.byte	0
	.byte	0
	.byte	4
	.byte	4
	.byte	4
	.byte	4
	.byte	8
	.byte	8
	.byte	8
	.byte	8
	.byte	12
	.byte	12
	.byte	12
	.byte	12
.LCPI_b7a934_4:
	.word	4294967280
	.word	4294967272
	.word	4294967288
	.word	0
.LCPI_b7a934_5:
	.word	16
	.word	24
	.word	8
	.word	0
	.section	.rodata.cst8,"aM",@progbits,8
	.p2align	3, 0x0
.LCPI_b7a934_3:
	.word	4294967280
	.word	4294967272
	.section	".text.pix_raster::view::blit_overlap::<#d778ccf2d5486893>","ax",@progbits
	.p2align	2
	.type	"pix_raster::view::blit_overlap::<#d778ccf2d5486893>",@function
"pix_raster::view::blit_overlap::<#d778ccf2d5486893>":
	ldp	x8, x9, [x4, #24]
	cmp	x8, x9
	b.hs	.LBB_b7a934_15
	sub	sp, sp, #80
	ldr	x15, [x4, #40]
	ldp	x14, x10, [x4, #8]
	ldr	x11, [x4]
	dup	v0.16b, w5
	and	w16, w5, #0xff
	madd	x6, x15, x3, x10
	stp	x20, x19, [sp, #64]
	fmov	s1, w16
	sub	x14, x14, x11
	stp	x22, x21, [sp, #48]
	lsl	x12, x3, #2
	madd	x5, x8, x1, x11
	and	x17, x14, #0xfffffffffffffff0
	lsl	x7, x14, #2
	lsr	x19, x17, #4
	ushr	v2.8h, v0.8h, #8
	bic	v0.8h, #255, lsl #8
	and	x21, x7, #0x30
	lsl	x13, x1, #2
	lsr	x16, x14, #4
	add	x20, x2, x6, lsl #2
	bfi	x21, x19, #6, #58
	sub	x15, x15, x8
	and	x18, x14, #0xf
	and	x4, x14, #0xc
	and	x6, x7, #0x20
	add	x22, x0, x5, lsl #2
	lsl	x5, x17, #2
	add	x7, x20, #32
	add	x20, x20, x21
	stp	x26, x25, [sp, #16]
	add	x19, x22, #32
	add	x21, x22, x21
	stp	x24, x23, [sp, #32]
	b	.LBB_b7a934_3
.LBB_b7a934_2:
	add	x8, x8, #1
	add	x7, x7, x12
	add	x19, x19, x13
	cmp	x8, x9
	add	x20, x20, x12
	add	x21, x21, x13
	b.eq	.LBB_b7a934_14
.LBB_b7a934_3:
	adrp	x23, .LCPI_b7a934_0
	adrp	x22, .LCPI_b7a934_1
	cbz	x16, .LBB_b7a934_6
	mov	x24, x19
	mov	x25, x7
	mov	x26, x16
.LBB_b7a934_5:
	ldp	q4, q5, [x25, #-32]
	movi	v6.8h, #128
	movi	v7.8h, #128
	movi	v18.8h, #128
	movi	v19.8h, #128
	movi	v3.16b, #1
	movi	v22.8h, #128
	subs	x26, x26, #1
	ushr	v16.8h, v4.8h, #8
	ushr	v17.8h, v5.8h, #8
	bic	v4.8h, #255, lsl #8
	bic	v5.8h, #255, lsl #8
	mla	v6.8h, v16.8h, v2.8h
	mla	v7.8h, v17.8h, v2.8h
	mla	v18.8h, v4.8h, v0.8h
	mla	v19.8h, v5.8h, v0.8h
	umull2	v4.4s, v6.8h, v3.8h
	umull	v6.4s, v6.4h, v3.4h
	umull2	v5.4s, v7.8h, v3.8h
	umull	v7.4s, v7.4h, v3.4h
	umull2	v16.4s, v18.8h, v3.8h
	umull	v17.4s, v18.4h, v3.4h
	umull2	v18.4s, v19.8h, v3.8h
	umull	v19.4s, v19.4h, v3.4h
	uzp2	v4.8h, v6.8h, v4.8h
	uzp2	v5.8h, v7.8h, v5.8h
	ldp	q7, q6, [x24, #-32]
	uzp2	v16.8h, v17.8h, v16.8h
	uzp2	v18.8h, v19.8h, v18.8h
	mvn	v20.16b, v7.16b
	rev16	v17.16b, v4.16b
	mvn	v21.16b, v6.16b
	rev16	v5.16b, v5.16b
	ldr	q4, [x23, :lo12:.LCPI_b7a934_0]
	ushr	v19.4s, v20.4s, #24
	ushr	v20.4s, v21.4s, #24
	movi	v21.8h, #128
	orr	v17.16b, v17.16b, v16.16b
	orr	v5.16b, v5.16b, v18.16b
	tbl	v19.16b, { v19.16b }, v4.16b
	tbl	v20.16b, { v20.16b }, v4.16b
	ushr	v17.8h, v17.8h, #8
	ushr	v5.8h, v5.8h, #8
	mla	v21.8h, v17.8h, v19.8h
	movi	v17.8h, #128
	mla	v22.8h, v5.8h, v20.8h
	movi	v5.8h, #128
	mla	v17.8h, v19.8h, v16.8h
	umull2	v16.4s, v21.8h, v3.8h
	umull	v19.4s, v21.4h, v3.4h
	mla	v5.8h, v20.8h, v18.8h
	umull2	v18.4s, v22.8h, v3.8h
	umull	v20.4s, v22.4h, v3.4h
	umull2	v21.4s, v17.8h, v3.8h
	umull	v17.4s, v17.4h, v3.4h
	uzp2	v16.8h, v19.8h, v16.8h
	umull2	v19.4s, v5.8h, v3.8h
	umull	v22.4s, v5.4h, v3.4h
	uzp2	v18.8h, v20.8h, v18.8h
	ldr	q5, [x22, :lo12:.LCPI_b7a934_1]
	movi	v20.8h, #128
	uzp2	v17.8h, v17.8h, v21.8h
	tbl	v16.16b, { v16.16b }, v5.16b
	movi	v21.8h, #128
	uzp2	v19.8h, v22.8h, v19.8h
	tbl	v18.16b, { v18.16b }, v5.16b
	orr	v16.16b, v16.16b, v17.16b
	orr	v17.16b, v18.16b, v19.16b
	uqadd	v7.16b, v16.16b, v7.16b
	movi	v16.8h, #128
	uqadd	v6.16b, v17.16b, v6.16b
	movi	v17.8h, #128
	stp	q7, q6, [x24, #-32]
	ldp	q6, q7, [x25], #64
	ushr	v18.8h, v6.8h, #8
	ushr	v19.8h, v7.8h, #8
	bic	v6.8h, #255, lsl #8
	bic	v7.8h, #255, lsl #8
	mla	v16.8h, v18.8h, v2.8h
	mla	v17.8h, v19.8h, v2.8h
	mla	v20.8h, v6.8h, v0.8h
	mla	v21.8h, v7.8h, v0.8h
	umull2	v6.4s, v16.8h, v3.8h
	umull	v16.4s, v16.4h, v3.4h
	umull2	v7.4s, v17.8h, v3.8h
	umull	v17.4s, v17.4h, v3.4h
	umull2	v18.4s, v20.8h, v3.8h
	umull	v19.4s, v20.4h, v3.4h
	umull2	v20.4s, v21.8h, v3.8h
	umull	v21.4s, v21.4h, v3.4h
	uzp2	v16.8h, v16.8h, v6.8h
	uzp2	v17.8h, v17.8h, v7.8h
	ldp	q7, q6, [x24]
	uzp2	v18.8h, v19.8h, v18.8h
	uzp2	v20.8h, v21.8h, v20.8h
	mvn	v22.16b, v7.16b
	rev16	v16.16b, v16.16b
	mvn	v19.16b, v6.16b
	rev16	v17.16b, v17.16b
	ushr	v21.4s, v22.4s, #24
	ushr	v19.4s, v19.4s, #24
	movi	v22.8h, #128
	orr	v16.16b, v16.16b, v18.16b
	orr	v17.16b, v17.16b, v20.16b
	tbl	v21.16b, { v21.16b }, v4.16b
	tbl	v4.16b, { v19.16b }, v4.16b
	movi	v19.8h, #128
	ushr	v16.8h, v16.8h, #8
	ushr	v17.8h, v17.8h, #8
	mla	v22.8h, v16.8h, v21.8h
	movi	v16.8h, #128
	mla	v19.8h, v17.8h, v4.8h
	movi	v17.8h, #128
	mla	v16.8h, v21.8h, v18.8h
	umull2	v18.4s, v22.8h, v3.8h
	umull	v21.4s, v22.4h, v3.4h
	mla	v17.8h, v4.8h, v20.8h
	umull2	v4.4s, v19.8h, v3.8h
	umull	v19.4s, v19.4h, v3.4h
	umull2	v20.4s, v16.8h, v3.8h
	umull	v16.4s, v16.4h, v3.4h
	uzp2	v18.8h, v21.8h, v18.8h
	umull2	v21.4s, v17.8h, v3.8h
	umull	v3.4s, v17.4h, v3.4h
	uzp2	v4.8h, v19.8h, v4.8h
	uzp2	v16.8h, v16.8h, v20.8h
	tbl	v17.16b, { v18.16b }, v5.16b
	uzp2	v3.8h, v3.8h, v21.8h
	tbl	v4.16b, { v4.16b }, v5.16b
	orr	v5.16b, v17.16b, v16.16b
	orr	v3.16b, v4.16b, v3.16b
	uqadd	v4.16b, v5.16b, v7.16b
	uqadd	v3.16b, v3.16b, v6.16b
	stp	q4, q3, [x24], #64
	b.ne	.LBB_b7a934_5
.LBB_b7a934_6:
	cmp	x17, x14
	b.eq	.LBB_b7a934_2
	add	x25, x15, x8
	madd	x24, x8, x1, x11
	madd	x25, x25, x3, x10
	add	x24, x0, x24, lsl #2
	add	x25, x2, x25, lsl #2
	add	x24, x24, x5
	add	x25, x25, x5
	tbnz	w14, #3, .LBB_b7a934_10
	tbnz	w14, #2, .LBB_b7a934_11
.LBB_b7a934_9:
	cmp	x4, x18
	b.eq	.LBB_b7a934_2
	b	.LBB_b7a934_12
.LBB_b7a934_10:
	ldp	q4, q5, [x25]
	movi	v6.8h, #128
	movi	v7.8h, #128
	movi	v18.8h, #128
	movi	v19.8h, #128
	movi	v3.16b, #1
	movi	v21.8h, #128
	ushr	v16.8h, v4.8h, #8
	ushr	v17.8h, v5.8h, #8
	bic	v4.8h, #255, lsl #8
	bic	v5.8h, #255, lsl #8
	mla	v6.8h, v16.8h, v2.8h
	mla	v7.8h, v17.8h, v2.8h
	mla	v18.8h, v4.8h, v0.8h
	mla	v19.8h, v5.8h, v0.8h
	umull2	v4.4s, v6.8h, v3.8h
	umull	v6.4s, v6.4h, v3.4h
	umull2	v5.4s, v7.8h, v3.8h
	umull	v7.4s, v7.4h, v3.4h
	umull2	v16.4s, v18.8h, v3.8h
	umull	v17.4s, v18.4h, v3.4h
	umull2	v18.4s, v19.8h, v3.8h
	umull	v19.4s, v19.4h, v3.4h
	uzp2	v6.8h, v6.8h, v4.8h
	uzp2	v7.8h, v7.8h, v5.8h
	ldp	q5, q4, [x24]
	uzp2	v16.8h, v17.8h, v16.8h
	uzp2	v18.8h, v19.8h, v18.8h
	mvn	v20.16b, v5.16b
	rev16	v6.16b, v6.16b
	mvn	v17.16b, v4.16b
	rev16	v7.16b, v7.16b
	ushr	v19.4s, v20.4s, #24
	ushr	v17.4s, v17.4s, #24
	ldr	q20, [x23, :lo12:.LCPI_b7a934_0]
	orr	v6.16b, v6.16b, v16.16b
	orr	v7.16b, v7.16b, v18.16b
	tbl	v19.16b, { v19.16b }, v20.16b
	tbl	v17.16b, { v17.16b }, v20.16b
	movi	v20.8h, #128
	ushr	v6.8h, v6.8h, #8
	ushr	v7.8h, v7.8h, #8
	mla	v21.8h, v6.8h, v19.8h
	movi	v6.8h, #128
	mla	v20.8h, v7.8h, v17.8h
	movi	v7.8h, #128
	mla	v6.8h, v19.8h, v16.8h
	umull2	v16.4s, v21.8h, v3.8h
	umull	v19.4s, v21.4h, v3.4h
	mla	v7.8h, v17.8h, v18.8h
	umull2	v17.4s, v20.8h, v3.8h
	umull	v18.4s, v20.4h, v3.4h
	umull2	v20.4s, v6.8h, v3.8h
	umull	v6.4s, v6.4h, v3.4h
	uzp2	v16.8h, v19.8h, v16.8h
	umull2	v19.4s, v7.8h, v3.8h
	umull	v3.4s, v7.4h, v3.4h
	uzp2	v7.8h, v18.8h, v17.8h
	ldr	q17, [x22, :lo12:.LCPI_b7a934_1]
	uzp2	v6.8h, v6.8h, v20.8h
	tbl	v16.16b, { v16.16b }, v17.16b
	uzp2	v3.8h, v3.8h, v19.8h
	tbl	v7.16b, { v7.16b }, v17.16b
	orr	v6.16b, v16.16b, v6.16b
	orr	v3.16b, v7.16b, v3.16b
	uqadd	v5.16b, v6.16b, v5.16b
	uqadd	v3.16b, v3.16b, v4.16b
	stp	q5, q3, [x24]
	tbz	w14, #2, .LBB_b7a934_9
.LBB_b7a934_11:
	ldr	q3, [x25, x6]
	movi	v4.8h, #128
	movi	v6.8h, #128
	movi	v7.16b, #1
	ldr	q16, [x24, x6]
	adrp	x23, .LCPI_b7a934_2
	ushr	v5.8h, v3.8h, #8
	bic	v3.8h, #255, lsl #8
	movi	v18.8h, #128
	mla	v4.8h, v5.8h, v2.8h
	mla	v6.8h, v3.8h, v0.8h
	umull2	v3.4s, v4.8h, v7.8h
	umull	v4.4s, v4.4h, v7.4h
	umull2	v5.4s, v6.8h, v7.8h
	umull	v6.4s, v6.4h, v7.4h
	uzp2	v3.8h, v4.8h, v3.8h
	mvn	v4.16b, v16.16b
	uzp2	v5.8h, v6.8h, v5.8h
	ldr	q6, [x23, :lo12:.LCPI_b7a934_2]
	ushr	v4.4s, v4.4s, #24
	rev16	v3.16b, v3.16b
	tbl	v4.16b, { v4.16b }, v6.16b
	movi	v6.8h, #128
	orr	v3.16b, v3.16b, v5.16b
	ushr	v17.8h, v4.8h, #8
	bic	v4.8h, #255, lsl #8
	ushr	v3.8h, v3.8h, #8
	mla	v18.8h, v4.8h, v5.8h
	mla	v6.8h, v17.8h, v3.8h
	umull2	v5.4s, v18.8h, v7.8h
	umull2	v3.4s, v6.8h, v7.8h
	umull	v4.4s, v6.4h, v7.4h
	umull	v6.4s, v18.4h, v7.4h
	uzp2	v3.8h, v4.8h, v3.8h
	ldr	q4, [x22, :lo12:.LCPI_b7a934_1]
	uzp2	v5.8h, v6.8h, v5.8h
	tbl	v3.16b, { v3.16b }, v4.16b
	orr	v3.16b, v3.16b, v5.16b
	uqadd	v3.16b, v3.16b, v16.16b
	str	q3, [x24, x6]
	cmp	x4, x18
	b.eq	.LBB_b7a934_2
.LBB_b7a934_12:
	mov	x22, x21
	mov	x23, x20
	and	x24, x14, #0xc
.LBB_b7a934_13:
	ldr	w25, [x23], #4
	adrp	x26, .LCPI_b7a934_3
	ldr	d4, [x26, :lo12:.LCPI_b7a934_3]
	movi	v6.4h, #128
	add	x24, x24, #1
	dup	v3.2s, w25
	cmp	x24, x18
	ushl	v3.2s, v3.2s, v4.2s
	mov	s4, v3.s[1]
	str	h3, [sp, #12]
	str	h4, [sp, #14]
	movi	v4.4h, #128
	ldr	s3, [sp, #12]
	zip1	v3.8b, v3.8b, v3.8b
	mov	v3.h[1], wzr
	uzp1	v3.8b, v3.8b, v0.8b
	ushll	v3.4s, v3.4h, #0
	mov	w26, v3.s[1]
	mov	v3.h[1], w26
	ubfx	w26, w25, #8, #8
	and	w25, w25, #0xff
	mov	v3.h[2], w26
	adrp	x26, .LCPI_b7a934_4
	ldr	q5, [x26, :lo12:.LCPI_b7a934_4]
	mov	v3.h[3], w25
	ldr	w25, [x22]
	mla	v4.4h, v3.4h, v1.h[0]
	dup	v3.4s, w25
	mvn	w25, w25
	lsr	w25, w25, #24
	dup	v7.4h, w25
	ushl	v3.4s, v3.4s, v5.4s
	adrp	x25, .LCPI_b7a934_5
	usra	v4.4h, v4.4h, #8
	xtn	v3.4h, v3.4s
	ushr	v4.4h, v4.4h, #8
	mla	v6.4h, v4.4h, v7.4h
	bic	v3.4h, #255, lsl #8
	movi	d4, #0xff00ff00ff00ff
	usra	v6.4h, v6.4h, #8
	usra	v3.4h, v6.4h, #8
	umin	v3.4h, v3.4h, v4.4h
	ldr	q4, [x25, :lo12:.LCPI_b7a934_5]
	ushll	v3.4s, v3.4h, #0
	ushl	v3.4s, v3.4s, v4.4s
	ext	v4.16b, v3.16b, v3.16b, #8
	orr	v3.8b, v3.8b, v4.8b
	fmov	x25, d3
	lsr	x26, x25, #32
	orr	w25, w25, w26
	str	w25, [x22], #4
	b.lo	.LBB_b7a934_13
	b	.LBB_b7a934_2
.LBB_b7a934_14:
	ldp	x20, x19, [sp, #64]
	ldp	x22, x21, [sp, #48]
	ldp	x24, x23, [sp, #32]
	ldp	x26, x25, [sp, #16]
	add	sp, sp, #80
.LBB_b7a934_15:
	ret
.Lfunc_end_b7a934:
	.size	"pix_raster::view::blit_overlap::<#d778ccf2d5486893>", .Lfunc_end_b7a934-"pix_raster::view::blit_overlap::<#d778ccf2d5486893>"

	.section	.rodata.cst16,"aM",@progbits,16
	.p2align	4, 0x0
.LCPI_36b9a8_0:
	.byte	0
	.byte	255
	.byte	0
	.byte	255
	.byte	4
	.byte	255
	.byte	4
	.byte	255
	.byte	8
	.byte	255
	.byte	8
	.byte	255
	.byte	12
	.byte	255
	.byte	12
	.byte	255
.LCPI_36b9a8_1:
	.byte	255
	.byte	0
	.byte	255
	.byte	2
	.byte	255
	.byte	4
	.byte	255
	.byte	6
	.byte	255
	.byte	8
	.byte	255
	.byte	10
	.byte	255
	.byte	12
	.byte	255
	.byte	14
.LCPI_36b9a8_2:
	.byte	0
	.byte	0
	.byte	0
	.byte	0
	.byte	4
	.byte	4
	.byte	4
	.byte	4
	.byte	8
	.byte	8
	.byte	8
	.byte	8
	.byte	12
	.byte	12
	.byte	12
	.byte	12
	.section	.rodata.cst8,"aM",@progbits,8
	.p2align	3, 0x0
.LCPI_36b9a8_3:
	.word	4294967272
	.word	4294967280
.LCPI_36b9a8_4:
	.word	16
	.word	8
	.section	".text.pix_raster::view::blit_overlap::<#1a9768a07824da26>","ax",@progbits
	.p2align	2
	.type	"pix_raster::view::blit_overlap::<#1a9768a07824da26>",@function
"pix_raster::view::blit_overlap::<#1a9768a07824da26>":
	ldp	x8, x9, [x4, #24]
	cmp	x8, x9
	b.hs	.LBB_36b9a8_15
	sub	sp, sp, #96
	ldr	x16, [x4, #40]
	ldp	x13, x10, [x4, #8]
	ldr	x11, [x4]
	madd	x6, x8, x1, x11
	lsl	x12, x3, #2
	stp	x20, x19, [sp, #80]
	lsl	x14, x1, #2
	madd	x5, x16, x3, x10
	sub	x13, x13, x11
	stp	x22, x21, [sp, #64]
	and	x15, x13, #0xfffffffffffffff0
	lsl	x7, x13, #2
	lsr	x17, x13, #4
	lsr	x19, x15, #4
	sub	x16, x16, x8
	and	x18, x13, #0xf
	and	x21, x7, #0x30
	add	x22, x0, x6, lsl #2
	and	x4, x13, #0xc
	bfi	x21, x19, #6, #58
	and	x6, x7, #0x20
	stp	x28, x27, [sp, #16]
	add	x20, x2, x5, lsl #2
	lsl	x5, x15, #2
	add	x19, x22, #32
	stp	x26, x25, [sp, #32]
	add	x7, x20, #32
	add	x20, x20, x21
	add	x21, x22, x21
	stp	x24, x23, [sp, #48]
	b	.LBB_36b9a8_3
.LBB_36b9a8_2:
	add	x8, x8, #1
	add	x7, x7, x12
	add	x19, x19, x14
	cmp	x8, x9
	add	x20, x20, x12
	add	x21, x21, x14
	b.eq	.LBB_36b9a8_14
.LBB_36b9a8_3:
	adrp	x23, .LCPI_36b9a8_0
	adrp	x22, .LCPI_36b9a8_1
	cbz	x17, .LBB_36b9a8_6
	mov	x24, x19
	mov	x25, x7
	mov	x26, x17
.LBB_36b9a8_5:
	ldp	q0, q1, [x24, #-32]
	movi	v5.8h, #128
	ldp	q3, q4, [x25, #-32]
	movi	v6.8h, #128
	movi	v18.8h, #128
	subs	x26, x26, #1
	mvn	v0.16b, v0.16b
	mvn	v1.16b, v1.16b
	ushr	v7.8h, v3.8h, #8
	ushr	v17.8h, v4.8h, #8
	bic	v3.8h, #255, lsl #8
	bic	v4.8h, #255, lsl #8
	ushr	v2.4s, v0.4s, #24
	ushr	v1.4s, v1.4s, #24
	ldr	q0, [x23, :lo12:.LCPI_36b9a8_0]
	tbl	v2.16b, { v2.16b }, v0.16b
	tbl	v16.16b, { v1.16b }, v0.16b
	movi	v1.16b, #1
	mla	v5.8h, v7.8h, v2.8h
	mla	v6.8h, v17.8h, v16.8h
	movi	v7.8h, #128
	mla	v18.8h, v3.8h, v2.8h
	umull2	v2.4s, v5.8h, v1.8h
	umull	v3.4s, v5.4h, v1.4h
	mla	v7.8h, v4.8h, v16.8h
	umull2	v4.4s, v6.8h, v1.8h
	umull	v5.4s, v6.4h, v1.4h
	umull2	v6.4s, v18.8h, v1.8h
	umull	v16.4s, v18.4h, v1.4h
	uzp2	v3.8h, v3.8h, v2.8h
	umull2	v17.4s, v7.8h, v1.8h
	umull	v7.4s, v7.4h, v1.4h
	uzp2	v4.8h, v5.8h, v4.8h
	ldr	q2, [x22, :lo12:.LCPI_36b9a8_1]
	uzp2	v5.8h, v16.8h, v6.8h
	tbl	v3.16b, { v3.16b }, v2.16b
	uzp2	v6.8h, v7.8h, v17.8h
	tbl	v4.16b, { v4.16b }, v2.16b
	ldp	q7, q16, [x24]
	mvn	v7.16b, v7.16b
	orr	v3.16b, v3.16b, v5.16b
	mvn	v5.16b, v16.16b
	orr	v4.16b, v4.16b, v6.16b
	movi	v16.8h, #128
	ushr	v6.4s, v7.4s, #24
	stp	q3, q4, [x24, #-32]
	ushr	v3.4s, v5.4s, #24
	movi	v5.8h, #128
	ldp	q4, q7, [x25], #64
	tbl	v6.16b, { v6.16b }, v0.16b
	tbl	v0.16b, { v3.16b }, v0.16b
	ushr	v3.8h, v4.8h, #8
	ushr	v17.8h, v7.8h, #8
	bic	v4.8h, #255, lsl #8
	bic	v7.8h, #255, lsl #8
	mla	v5.8h, v3.8h, v6.8h
	movi	v3.8h, #128
	mla	v16.8h, v17.8h, v0.8h
	movi	v17.8h, #128
	mla	v3.8h, v4.8h, v6.8h
	umull2	v4.4s, v5.8h, v1.8h
	umull	v5.4s, v5.4h, v1.4h
	mla	v17.8h, v7.8h, v0.8h
	umull2	v0.4s, v16.8h, v1.8h
	umull	v6.4s, v16.4h, v1.4h
	umull2	v7.4s, v3.8h, v1.8h
	umull	v3.4s, v3.4h, v1.4h
	uzp2	v4.8h, v5.8h, v4.8h
	umull2	v5.4s, v17.8h, v1.8h
	umull	v1.4s, v17.4h, v1.4h
	uzp2	v0.8h, v6.8h, v0.8h
	uzp2	v3.8h, v3.8h, v7.8h
	tbl	v4.16b, { v4.16b }, v2.16b
	uzp2	v1.8h, v1.8h, v5.8h
	tbl	v0.16b, { v0.16b }, v2.16b
	orr	v2.16b, v4.16b, v3.16b
	orr	v0.16b, v0.16b, v1.16b
	stp	q2, q0, [x24], #64
	b.ne	.LBB_36b9a8_5
.LBB_36b9a8_6:
	cmp	x15, x13
	b.eq	.LBB_36b9a8_2
	add	x25, x16, x8
	madd	x24, x8, x1, x11
	madd	x25, x25, x3, x10
	add	x24, x0, x24, lsl #2
	add	x25, x2, x25, lsl #2
	add	x24, x24, x5
	add	x25, x25, x5
	tbnz	w13, #3, .LBB_36b9a8_10
	tbnz	w13, #2, .LBB_36b9a8_11
.LBB_36b9a8_9:
	cmp	x4, x18
	b.eq	.LBB_36b9a8_2
	b	.LBB_36b9a8_12
.LBB_36b9a8_10:
	ldp	q0, q1, [x24]
	movi	v5.8h, #128
	ldr	q2, [x23, :lo12:.LCPI_36b9a8_0]
	ldp	q3, q4, [x25]
	movi	v6.8h, #128
	movi	v16.8h, #128
	mvn	v0.16b, v0.16b
	mvn	v1.16b, v1.16b
	ushr	v7.8h, v3.8h, #8
	bic	v3.8h, #255, lsl #8
	ushr	v0.4s, v0.4s, #24
	ushr	v1.4s, v1.4s, #24
	tbl	v0.16b, { v0.16b }, v2.16b
	tbl	v1.16b, { v1.16b }, v2.16b
	ushr	v2.8h, v4.8h, #8
	bic	v4.8h, #255, lsl #8
	mla	v5.8h, v7.8h, v0.8h
	movi	v7.16b, #1
	mla	v6.8h, v2.8h, v1.8h
	movi	v2.8h, #128
	mla	v16.8h, v3.8h, v0.8h
	umull2	v0.4s, v5.8h, v7.8h
	umull	v3.4s, v5.4h, v7.4h
	mla	v2.8h, v4.8h, v1.8h
	umull2	v1.4s, v6.8h, v7.8h
	umull	v4.4s, v6.4h, v7.4h
	umull2	v5.4s, v16.8h, v7.8h
	umull	v6.4s, v16.4h, v7.4h
	uzp2	v0.8h, v3.8h, v0.8h
	umull2	v3.4s, v2.8h, v7.8h
	umull	v2.4s, v2.4h, v7.4h
	uzp2	v1.8h, v4.8h, v1.8h
	ldr	q4, [x22, :lo12:.LCPI_36b9a8_1]
	uzp2	v5.8h, v6.8h, v5.8h
	tbl	v0.16b, { v0.16b }, v4.16b
	uzp2	v2.8h, v2.8h, v3.8h
	tbl	v1.16b, { v1.16b }, v4.16b
	orr	v0.16b, v0.16b, v5.16b
	orr	v1.16b, v1.16b, v2.16b
	stp	q0, q1, [x24]
	tbz	w13, #2, .LBB_36b9a8_9
.LBB_36b9a8_11:
	ldr	q0, [x24, x6]
	adrp	x23, .LCPI_36b9a8_2
	movi	v2.8h, #128
	ldr	q1, [x23, :lo12:.LCPI_36b9a8_2]
	movi	v5.8h, #128
	mvn	v0.16b, v0.16b
	ushr	v0.4s, v0.4s, #24
	tbl	v0.16b, { v0.16b }, v1.16b
	ldr	q1, [x25, x6]
	ushr	v3.8h, v1.8h, #8
	bic	v1.8h, #255, lsl #8
	ushr	v4.8h, v0.8h, #8
	bic	v0.8h, #255, lsl #8
	mla	v2.8h, v4.8h, v3.8h
	movi	v3.16b, #1
	mla	v5.8h, v0.8h, v1.8h
	umull2	v0.4s, v2.8h, v3.8h
	umull	v1.4s, v2.4h, v3.4h
	umull2	v2.4s, v5.8h, v3.8h
	umull	v3.4s, v5.4h, v3.4h
	uzp2	v0.8h, v1.8h, v0.8h
	ldr	q1, [x22, :lo12:.LCPI_36b9a8_1]
	uzp2	v2.8h, v3.8h, v2.8h
	tbl	v0.16b, { v0.16b }, v1.16b
	orr	v0.16b, v0.16b, v2.16b
	str	q0, [x24, x6]
	cmp	x4, x18
	b.eq	.LBB_36b9a8_2
.LBB_36b9a8_12:
	mov	x22, x21
	mov	x23, x20
	and	x24, x13, #0xc
.LBB_36b9a8_13:
	ldr	w25, [x23], #4
	adrp	x26, .LCPI_36b9a8_3
	ldr	d1, [x26, :lo12:.LCPI_36b9a8_3]
	ldrb	w26, [x22, #3]
	movi	v2.2s, #128
	dup	v0.2s, w25
	adrp	x27, .LCPI_36b9a8_4
	mov	w28, #128
	eor	w26, w26, #0xff
	add	x24, x24, #1
	cmp	x24, x18
	ushl	v0.2s, v0.2s, v1.2s
	mov	s1, v0.s[1]
	str	h0, [sp, #12]
	str	h1, [sp, #14]
	dup	v1.2s, w26
	ldr	s0, [sp, #12]
	zip1	v0.8b, v0.8b, v0.8b
	mov	v0.h[3], wzr
	uzp1	v0.8b, v0.8b, v0.8b
	ushll	v0.4s, v0.4h, #0
	mla	v2.2s, v1.2s, v0.2s
	movi	d0, #0x00ffff0000ffff
	and	v1.8b, v2.8b, v0.8b
	usra	v2.2s, v1.2s, #8
	ldr	d1, [x27, :lo12:.LCPI_36b9a8_4]
	ubfx	w27, w25, #8, #8
	and	w25, w25, #0xff
	madd	w27, w27, w26, w28
	and	v0.8b, v2.8b, v0.8b
	movi	d2, #0xffff0000ff000000
	madd	w25, w25, w26, w28
	and	w26, w27, #0xff00
	ushl	v0.2s, v0.2s, v1.2s
	and	w28, w25, #0xff00
	add	w26, w27, w26, lsr #8
	add	w25, w25, w28, lsr #8
	and	w26, w26, #0xff00
	and	v0.8b, v0.8b, v2.8b
	and	w25, w25, #0xff00
	dup	v1.2s, v0.s[1]
	orr	v0.8b, v0.8b, v1.8b
	fmov	w27, s0
	orr	w26, w27, w26
	orr	w25, w26, w25, lsr #8
	str	w25, [x22], #4
	b.lo	.LBB_36b9a8_13
	b	.LBB_36b9a8_2
.LBB_36b9a8_14:
	ldp	x20, x19, [sp, #80]
	ldp	x22, x21, [sp, #64]
	ldp	x24, x23, [sp, #48]
	ldp	x26, x25, [sp, #32]
	ldp	x28, x27, [sp, #16]
	add	sp, sp, #96
.LBB_36b9a8_15:
	ret
.Lfunc_end_36b9a8:
	.size	"pix_raster::view::blit_overlap::<#1a9768a07824da26>", .Lfunc_end_36b9a8-"pix_raster::view::blit_overlap::<#1a9768a07824da26>"

	.section	.rodata.cst16,"aM",@progbits,16
	.p2align	4, 0x0
.LCPI_2a0fb9_0:
	.word	0
	.word	4294967288
	.word	4294967280
	.word	4294967272
.LCPI_2a0fb9_1:
	.byte	0
	.byte	255
	.byte	0
	.byte	255
	.byte	4
	.byte	255
	.byte	4
	.byte	255
	.byte	8
	.byte	255
	.byte	8
	.byte	255
	.byte	12
	.byte	255
	.byte	12
	.byte	255
.LCPI_2a0fb9_2:
	.byte	255
	.byte	0
	.byte	255
	.byte	2
	.byte	255
	.byte	4
	.byte	255
	.byte	6
	.byte	255
	.byte	8
	.byte	255
	.byte	10
	.byte	255
	.byte	12
	.byte	255
	.byte	14
.LCPI_2a0fb9_3:
	.byte	0
	.byte	0
	.byte	0
	.byte	0
	.byte	1
	.byte	1
	.byte	1
	.byte	1
	.byte	2
	.byte	2
	.byte	2
	.byte	2
	.byte	3
	.byte	3
	.byte	3
	.byte	3
.LCPI_2a0fb9_4:
	.byte	0
	.byte	0
	.byte	0
	.byte	0
	.byte	4
	.byte	4
	.byte	4
	.byte	4
	.byte	8
	.byte	8
	.byte	8
	.byte	8
	.byte	12
	.byte	12
	.byte	12
	.byte	12
	.section	.rodata.cst8,"aM",@progbits,8
	.p2align	3, 0x0
.LCPI_2a0fb9_5:
	.word	8
	.word	16
	.section	".text.pix_raster::view::blit_overlap::<#2e778847ba9e3685>","ax",@progbits
	.p2align	2
	.type	"pix_raster::view::blit_overlap::<#2e778847ba9e3685>",@function
"pix_raster::view::blit_overlap::<#2e778847ba9e3685>":
	ldp	x8, x9, [x4, #24]
	cmp	x8, x9
	b.hs	.LBB_2a0fb9_21
	str	x30, [sp, #-96]!
	dup	v0.4s, w5
	adrp	x10, .LCPI_2a0fb9_0
	ldr	x16, [x4, #40]
	ldr	q1, [x10, :lo12:.LCPI_2a0fb9_0]
	ldp	x13, x15, [x4, #8]
	stp	x20, x19, [sp, #80]
	ldr	x10, [x4]
	madd	x19, x8, x1, x10
	ushl	v2.4s, v0.4s, v1.4s
	stp	x22, x21, [sp, #64]
	sub	x14, x16, x8
	madd	x22, x16, x3, x15
	sub	x13, x13, x10
	stp	x24, x23, [sp, #48]
	and	x16, x13, #0xfffffffffffffff0
	lsl	x21, x13, #2
	and	x4, x13, #0xc
	umov	w7, v2.h[4]
	uzp1	v0.8h, v2.8h, v2.8h
	lsr	x23, x16, #4
	and	x18, x13, #0x8
	add	x24, x16, x4
	and	x21, x21, #0x30
	stp	x26, x25, [sp, #32]
	ubfx	w11, w5, #8, #8
	add	x12, x2, x15
	lsr	x15, x13, #4
	lsl	x6, x16, #2
	lsl	x18, x18, #2
	and	w20, w7, #0xff
	uzp1	v0.16b, v0.16b, v0.16b
	add	x19, x0, x19, lsl #2
	fmov	s1, w20
	lsl	x20, x1, #2
	add	x24, x2, x24
	add	x25, x22, x2
	bfi	x21, x23, #6, #58
	and	x17, x13, #0xf
	and	w2, w5, #0xff
	add	x5, x25, #8
	add	x22, x24, x22
	mov	v1.h[2], v2.h[6]
	ushr	v2.8h, v0.8h, #8
	bic	v0.8h, #255, lsl #8
	stp	x28, x27, [sp, #16]
	str	x18, [sp, #8]
	b	.LBB_2a0fb9_3
.LBB_2a0fb9_2:
	add	x8, x8, #1
	add	x19, x19, x20
	add	x5, x5, x3
	cmp	x8, x9
	add	x22, x22, x3
	b.eq	.LBB_2a0fb9_20
.LBB_2a0fb9_3:
	adrp	x24, .LCPI_2a0fb9_1
	adrp	x23, .LCPI_2a0fb9_2
	cbz	x15, .LBB_2a0fb9_8
	mov	x25, x5
	mov	x26, x19
	mov	x27, x15
	b	.LBB_2a0fb9_6
.LBB_2a0fb9_5:
	zip1	v3.16b, v3.16b, v3.16b
	movi	v5.8h, #1
	movi	v7.8h, #128
	movi	v16.8h, #128
	movi	v19.8h, #128
	movi	v20.8h, #128
	movi	v21.8h, #128
	ushll	v4.4s, v3.4h, #0
	ushll2	v3.4s, v3.8h, #0
	mul	v4.4s, v4.4s, v5.4s
	mul	v6.4s, v3.4s, v5.4s
	movi	v3.16b, #1
	ushr	v17.8h, v4.8h, #8
	ushr	v18.8h, v6.8h, #8
	bic	v4.8h, #255, lsl #8
	bic	v6.8h, #255, lsl #8
	mla	v7.8h, v17.8h, v2.8h
	mla	v16.8h, v18.8h, v2.8h
	mla	v20.8h, v4.8h, v0.8h
	mla	v19.8h, v6.8h, v0.8h
	umull2	v4.4s, v7.8h, v3.8h
	umull	v7.4s, v7.4h, v3.4h
	umull2	v6.4s, v16.8h, v3.8h
	umull	v16.4s, v16.4h, v3.4h
	umull2	v17.4s, v20.8h, v3.8h
	umull	v18.4s, v20.4h, v3.4h
	uzp2	v4.8h, v7.8h, v4.8h
	umull2	v7.4s, v19.8h, v3.8h
	umull	v19.4s, v19.4h, v3.4h
	uzp2	v6.8h, v16.8h, v6.8h
	ldp	q16, q20, [x26]
	uzp2	v17.8h, v18.8h, v17.8h
	mvn	v16.16b, v16.16b
	rev16	v18.16b, v4.16b
	mvn	v20.16b, v20.16b
	uzp2	v7.8h, v19.8h, v7.8h
	rev16	v6.16b, v6.16b
	ldr	q4, [x24, :lo12:.LCPI_2a0fb9_1]
	ushr	v16.4s, v16.4s, #24
	ushr	v19.4s, v20.4s, #24
	movi	v20.8h, #128
	orr	v18.16b, v18.16b, v17.16b
	orr	v6.16b, v6.16b, v7.16b
	tbl	v16.16b, { v16.16b }, v4.16b
	tbl	v19.16b, { v19.16b }, v4.16b
	ushr	v18.8h, v18.8h, #8
	ushr	v6.8h, v6.8h, #8
	mla	v20.8h, v18.8h, v16.8h
	movi	v18.8h, #128
	mla	v21.8h, v6.8h, v19.8h
	movi	v6.8h, #128
	mla	v18.8h, v16.8h, v17.8h
	umull2	v16.4s, v20.8h, v3.8h
	umull	v17.4s, v20.4h, v3.4h
	mla	v6.8h, v19.8h, v7.8h
	umull2	v7.4s, v21.8h, v3.8h
	umull	v19.4s, v21.4h, v3.4h
	umull2	v20.4s, v18.8h, v3.8h
	umull	v18.4s, v18.4h, v3.4h
	uzp2	v16.8h, v17.8h, v16.8h
	umull2	v17.4s, v6.8h, v3.8h
	umull	v21.4s, v6.4h, v3.4h
	uzp2	v7.8h, v19.8h, v7.8h
	ldr	q6, [x23, :lo12:.LCPI_2a0fb9_2]
	uzp2	v18.8h, v18.8h, v20.8h
	tbl	v16.16b, { v16.16b }, v6.16b
	movi	v20.8h, #128
	uzp2	v17.8h, v21.8h, v17.8h
	tbl	v7.16b, { v7.16b }, v6.16b
	movi	v21.8h, #128
	orr	v16.16b, v16.16b, v18.16b
	orr	v7.16b, v7.16b, v17.16b
	movi	v17.8h, #128
	stp	q16, q7, [x26]
	ldr	d7, [x25], #16
	zip1	v7.16b, v7.16b, v7.16b
	ushll	v16.4s, v7.4h, #0
	ushll2	v7.4s, v7.8h, #0
	mul	v16.4s, v16.4s, v5.4s
	mul	v5.4s, v7.4s, v5.4s
	movi	v7.8h, #128
	ushr	v18.8h, v16.8h, #8
	ushr	v19.8h, v5.8h, #8
	bic	v16.8h, #255, lsl #8
	bic	v5.8h, #255, lsl #8
	mla	v7.8h, v18.8h, v2.8h
	mla	v17.8h, v19.8h, v2.8h
	mla	v21.8h, v16.8h, v0.8h
	mla	v20.8h, v5.8h, v0.8h
	umull2	v16.4s, v7.8h, v3.8h
	umull	v7.4s, v7.4h, v3.4h
	umull2	v5.4s, v17.8h, v3.8h
	umull	v17.4s, v17.4h, v3.4h
	umull2	v18.4s, v21.8h, v3.8h
	umull	v19.4s, v21.4h, v3.4h
	uzp2	v7.8h, v7.8h, v16.8h
	umull2	v16.4s, v20.8h, v3.8h
	umull	v20.4s, v20.4h, v3.4h
	uzp2	v5.8h, v17.8h, v5.8h
	ldp	q17, q21, [x26, #32]
	uzp2	v18.8h, v19.8h, v18.8h
	mvn	v17.16b, v17.16b
	rev16	v7.16b, v7.16b
	mvn	v19.16b, v21.16b
	uzp2	v16.8h, v20.8h, v16.8h
	rev16	v5.16b, v5.16b
	movi	v20.8h, #128
	movi	v21.8h, #128
	ushr	v17.4s, v17.4s, #24
	ushr	v19.4s, v19.4s, #24
	orr	v7.16b, v7.16b, v18.16b
	orr	v5.16b, v5.16b, v16.16b
	tbl	v17.16b, { v17.16b }, v4.16b
	tbl	v4.16b, { v19.16b }, v4.16b
	movi	v19.8h, #128
	ushr	v7.8h, v7.8h, #8
	ushr	v5.8h, v5.8h, #8
	mla	v20.8h, v7.8h, v17.8h
	movi	v7.8h, #128
	mla	v19.8h, v17.8h, v18.8h
	mla	v21.8h, v5.8h, v4.8h
	umull2	v5.4s, v20.8h, v3.8h
	umull	v17.4s, v20.4h, v3.4h
	mla	v7.8h, v4.8h, v16.8h
	umull2	v4.4s, v21.8h, v3.8h
	umull	v16.4s, v21.4h, v3.4h
	umull2	v18.4s, v19.8h, v3.8h
	umull	v19.4s, v19.4h, v3.4h
	uzp2	v5.8h, v17.8h, v5.8h
	umull2	v17.4s, v7.8h, v3.8h
	umull	v3.4s, v7.4h, v3.4h
	uzp2	v4.8h, v16.8h, v4.8h
	uzp2	v7.8h, v19.8h, v18.8h
	tbl	v5.16b, { v5.16b }, v6.16b
	uzp2	v3.8h, v3.8h, v17.8h
	tbl	v4.16b, { v4.16b }, v6.16b
	orr	v5.16b, v5.16b, v7.16b
	orr	v3.16b, v4.16b, v3.16b
	stp	q5, q3, [x26, #32]
	subs	x27, x27, #1
	add	x26, x26, #64
	b.eq	.LBB_2a0fb9_8
.LBB_2a0fb9_6:
	ldp	d3, d4, [x25, #-8]
	orr	v4.8b, v4.8b, v3.8b
	fmov	x28, d4
	orr	x28, x28, x28, lsr #32
	lsr	x30, x28, #16
	orr	w28, w28, w30
	orr	w28, w28, w28, lsr #8
	tst	w28, #0xff
	b.ne	.LBB_2a0fb9_5
	movi	v3.2d, #0000000000000000
	stp	q3, q3, [x26]
	stp	q3, q3, [x26, #32]
	subs	x27, x27, #1
	add	x25, x25, #16
	add	x26, x26, #64
	b.ne	.LBB_2a0fb9_6
.LBB_2a0fb9_8:
	cmp	x16, x13
	b.eq	.LBB_2a0fb9_2
	madd	x25, x8, x1, x10
	add	x26, x14, x8
	madd	x26, x26, x3, x12
	add	x25, x0, x25, lsl #2
	add	x25, x25, x6
	add	x26, x26, x16
	tbnz	w13, #3, .LBB_2a0fb9_12
	tbnz	w13, #2, .LBB_2a0fb9_15
.LBB_2a0fb9_11:
	and	x18, x13, #0xc
	cmp	x18, x17
	b.eq	.LBB_2a0fb9_2
	b	.LBB_2a0fb9_18
.LBB_2a0fb9_12:
	ldr	d3, [x26]
	fmov	x27, d3
	orr	x27, x27, x27, lsr #32
	lsr	x28, x27, #16
	orr	w27, w27, w28
	orr	w27, w27, w27, lsr #8
	tst	w27, #0xff
	b.eq	.LBB_2a0fb9_14
	zip1	v3.16b, v3.16b, v3.16b
	movi	v4.8h, #1
	movi	v6.8h, #128
	movi	v7.8h, #128
	movi	v18.8h, #128
	movi	v19.8h, #128
	ushll	v5.4s, v3.4h, #0
	ushll2	v3.4s, v3.8h, #0
	mul	v5.4s, v5.4s, v4.4s
	mul	v4.4s, v3.4s, v4.4s
	movi	v3.16b, #1
	ushr	v16.8h, v5.8h, #8
	ushr	v17.8h, v4.8h, #8
	bic	v5.8h, #255, lsl #8
	bic	v4.8h, #255, lsl #8
	mla	v6.8h, v16.8h, v2.8h
	mla	v7.8h, v17.8h, v2.8h
	mla	v19.8h, v5.8h, v0.8h
	mla	v18.8h, v4.8h, v0.8h
	umull2	v5.4s, v6.8h, v3.8h
	umull	v6.4s, v6.4h, v3.4h
	umull2	v4.4s, v7.8h, v3.8h
	umull	v7.4s, v7.4h, v3.4h
	umull2	v16.4s, v19.8h, v3.8h
	umull	v17.4s, v19.4h, v3.4h
	uzp2	v5.8h, v6.8h, v5.8h
	umull2	v6.4s, v18.8h, v3.8h
	umull	v18.4s, v18.4h, v3.4h
	uzp2	v4.8h, v7.8h, v4.8h
	ldp	q7, q19, [x25]
	uzp2	v16.8h, v17.8h, v16.8h
	mvn	v7.16b, v7.16b
	rev16	v5.16b, v5.16b
	mvn	v17.16b, v19.16b
	uzp2	v6.8h, v18.8h, v6.8h
	rev16	v4.16b, v4.16b
	ldr	q18, [x24, :lo12:.LCPI_2a0fb9_1]
	movi	v19.8h, #128
	ushr	v7.4s, v7.4s, #24
	ushr	v17.4s, v17.4s, #24
	orr	v5.16b, v5.16b, v16.16b
	orr	v4.16b, v4.16b, v6.16b
	tbl	v7.16b, { v7.16b }, v18.16b
	tbl	v17.16b, { v17.16b }, v18.16b
	movi	v18.8h, #128
	ushr	v5.8h, v5.8h, #8
	ushr	v4.8h, v4.8h, #8
	mla	v19.8h, v5.8h, v7.8h
	movi	v5.8h, #128
	mla	v18.8h, v4.8h, v17.8h
	movi	v4.8h, #128
	mla	v5.8h, v7.8h, v16.8h
	umull2	v7.4s, v19.8h, v3.8h
	umull	v16.4s, v19.4h, v3.4h
	mla	v4.8h, v17.8h, v6.8h
	umull2	v6.4s, v18.8h, v3.8h
	umull	v17.4s, v18.4h, v3.4h
	umull2	v18.4s, v5.8h, v3.8h
	umull	v5.4s, v5.4h, v3.4h
	uzp2	v7.8h, v16.8h, v7.8h
	umull2	v16.4s, v4.8h, v3.8h
	umull	v3.4s, v4.4h, v3.4h
	uzp2	v4.8h, v17.8h, v6.8h
	ldr	q6, [x23, :lo12:.LCPI_2a0fb9_2]
	uzp2	v5.8h, v5.8h, v18.8h
	tbl	v7.16b, { v7.16b }, v6.16b
	uzp2	v3.8h, v3.8h, v16.8h
	tbl	v4.16b, { v4.16b }, v6.16b
	orr	v5.16b, v7.16b, v5.16b
	orr	v3.16b, v4.16b, v3.16b
	stp	q5, q3, [x25]
	tbz	w13, #2, .LBB_2a0fb9_11
	b	.LBB_2a0fb9_15
.LBB_2a0fb9_14:
	movi	v3.2d, #0000000000000000
	stp	q3, q3, [x25]
	tbz	w13, #2, .LBB_2a0fb9_11
.LBB_2a0fb9_15:
	and	x18, x13, #0x8
	ldr	s3, [x26, x18]
	ldr	x18, [sp, #8]
	dup	v4.16b, v3.b[1]
	dup	v5.16b, v3.b[2]
	dup	v6.16b, v3.b[3]
	add	x24, x25, x18
	orr	v4.16b, v4.16b, v5.16b
	orr	v5.16b, v6.16b, v3.16b
	orr	v4.16b, v4.16b, v5.16b
	umov	w26, v4.b[0]
	cbz	w26, .LBB_2a0fb9_17
	adrp	x25, .LCPI_2a0fb9_3
	movi	v6.8h, #128
	movi	v7.16b, #1
	ldr	q4, [x25, :lo12:.LCPI_2a0fb9_3]
	ldr	q16, [x24]
	adrp	x25, .LCPI_2a0fb9_4
	movi	v17.8h, #128
	tbl	v3.16b, { v3.16b }, v4.16b
	movi	v4.8h, #128
	ushr	v5.8h, v3.8h, #8
	bic	v3.8h, #255, lsl #8
	mla	v4.8h, v5.8h, v2.8h
	mla	v6.8h, v3.8h, v0.8h
	umull2	v3.4s, v4.8h, v7.8h
	umull	v4.4s, v4.4h, v7.4h
	umull2	v5.4s, v6.8h, v7.8h
	umull	v6.4s, v6.4h, v7.4h
	uzp2	v3.8h, v4.8h, v3.8h
	mvn	v4.16b, v16.16b
	uzp2	v5.8h, v6.8h, v5.8h
	ldr	q6, [x25, :lo12:.LCPI_2a0fb9_4]
	ushr	v4.4s, v4.4s, #24
	rev16	v3.16b, v3.16b
	tbl	v4.16b, { v4.16b }, v6.16b
	movi	v6.8h, #128
	orr	v3.16b, v3.16b, v5.16b
	ushr	v16.8h, v4.8h, #8
	bic	v4.8h, #255, lsl #8
	ushr	v3.8h, v3.8h, #8
	mla	v17.8h, v4.8h, v5.8h
	mla	v6.8h, v16.8h, v3.8h
	umull2	v5.4s, v17.8h, v7.8h
	umull2	v3.4s, v6.8h, v7.8h
	umull	v4.4s, v6.4h, v7.4h
	umull	v6.4s, v17.4h, v7.4h
	uzp2	v3.8h, v4.8h, v3.8h
	ldr	q4, [x23, :lo12:.LCPI_2a0fb9_2]
	uzp2	v5.8h, v6.8h, v5.8h
	tbl	v3.16b, { v3.16b }, v4.16b
	orr	v3.16b, v3.16b, v5.16b
	str	q3, [x24]
	and	x18, x13, #0xc
	cmp	x18, x17
	b.eq	.LBB_2a0fb9_2
	b	.LBB_2a0fb9_18
.LBB_2a0fb9_17:
	stp	xzr, xzr, [x24]
	and	x18, x13, #0xc
	cmp	x18, x17
	b.eq	.LBB_2a0fb9_2
.LBB_2a0fb9_18:
	mov	x23, x21
	mov	x24, x22
	and	x25, x13, #0xc
.LBB_2a0fb9_19:
	ldrb	w26, [x24], #1
	movi	v4.2s, #128
	add	x27, x19, x23
	adrp	x30, .LCPI_2a0fb9_5
	add	x25, x25, #1
	dup	v3.2s, w26
	ldrb	w28, [x27, #3]
	cmp	x25, x17
	add	x23, x23, #4
	eor	w28, w28, #0xff
	mla	v4.2s, v1.2s, v3.2s
	movi	d3, #0x00ffff0000ffff
	and	v5.8b, v4.8b, v3.8b
	usra	v4.2s, v5.2s, #8
	dup	v5.2s, w28
	and	v3.8b, v4.8b, v3.8b
	movi	v4.2s, #128
	ushr	v3.2s, v3.2s, #8
	mla	v4.2s, v3.2s, v5.2s
	movi	d5, #0xff000000ffff0000
	fmov	d3, d4
	bic	v3.2s, #1, lsl #16
	usra	v4.2s, v3.2s, #8
	ldr	d3, [x30, :lo12:.LCPI_2a0fb9_5]
	mov	w30, #128
	madd	w18, w11, w26, w30
	madd	w26, w2, w26, w30
	bic	v4.2s, #3, lsl #16
	and	w4, w18, #0xff00
	and	w7, w26, #0xff00
	add	w18, w18, w4, lsr #8
	ushl	v3.2s, v4.2s, v3.2s
	add	w4, w26, w7, lsr #8
	ubfx	w18, w18, #8, #8
	ubfx	w4, w4, #8, #8
	and	v3.8b, v3.8b, v5.8b
	madd	w18, w18, w28, w30
	madd	w4, w4, w28, w30
	dup	v4.2s, v3.s[1]
	and	w7, w18, #0xff00
	and	w26, w4, #0xff00
	add	w18, w18, w7, lsr #8
	add	w4, w4, w26, lsr #8
	and	w18, w18, #0xff00
	orr	v3.8b, v3.8b, v4.8b
	and	w4, w4, #0xff00
	fmov	w7, s3
	orr	w18, w7, w18
	orr	w18, w18, w4, lsr #8
	str	w18, [x27]
	b.lo	.LBB_2a0fb9_19
	b	.LBB_2a0fb9_2
.LBB_2a0fb9_20:
	ldp	x20, x19, [sp, #80]
	ldp	x22, x21, [sp, #64]
	ldp	x24, x23, [sp, #48]
	ldp	x26, x25, [sp, #32]
	ldp	x28, x27, [sp, #16]
	ldr	x30, [sp], #96
.LBB_2a0fb9_21:
	ret
.Lfunc_end_2a0fb9:
	.size	"pix_raster::view::blit_overlap::<#2e778847ba9e3685>", .Lfunc_end_2a0fb9-"pix_raster::view::blit_overlap::<#2e778847ba9e3685>"

	.section	.rodata.cst16,"aM",@progbits,16
	.p2align	4, 0x0
.LCPI_f767c7_0:
	.byte	0
	.byte	255
	.byte	0
	.byte	255
	.byte	4
	.byte	255
	.byte	4
	.byte	255
	.byte	8
	.byte	255
	.byte	8
	.byte	255
	.byte	12
	.byte	255
	.byte	12
	.byte	255
.LCPI_f767c7_1:
	.byte	255
	.byte	0
	.byte	255
	.byte	2
	.byte	255
	.byte	4
	.byte	255
	.byte	6
	.byte	255
	.byte	8
	.byte	255
	.byte	10
	.byte	255
	.byte	12
	.byte	255
	.byte	14
.LCPI_f767c7_2:
	.byte	0
	.byte	0
	.byte	0
	.byte	0
	.byte	4
	.byte	4
	.byte	4
	.byte	4
	.byte	8
	.byte	8
	.byte	8
	.byte	8
	.byte	12
	.byte	12
	.byte	12
	.byte	12
	.section	.rodata.cst8,"aM",@progbits,8
	.p2align	3, 0x0
.LCPI_f767c7_3:
	.word	4294967280
	.word	4294967272
.LCPI_f767c7_4:
	.word	8
	.word	16
	.section	".text.pix_raster::view::blit_overlap::<#4bf1498ae24b3bf7>","ax",@progbits
	.p2align	2
	.type	"pix_raster::view::blit_overlap::<#4bf1498ae24b3bf7>",@function
"pix_raster::view::blit_overlap::<#4bf1498ae24b3bf7>":
	ldp	x8, x9, [x4, #24]
	cmp	x8, x9
	b.hs	.LBB_f767c7_15
	sub	sp, sp, #112
	ldr	x16, [x4, #40]
	ldp	x15, x10, [x4, #8]
	ldr	x11, [x4]
	madd	x7, x8, x1, x11
	dup	v0.16b, w5
	stp	x20, x19, [sp, #96]
	and	w12, w5, #0xff
	lsl	x13, x3, #2
	madd	x6, x16, x3, x10
	sub	x15, x15, x11
	stp	x22, x21, [sp, #80]
	and	x18, x15, #0xfffffffffffffff0
	lsl	x19, x15, #2
	stp	x24, x23, [sp, #64]
	lsr	x20, x18, #4
	fmov	s1, w12
	ushr	v2.8h, v0.8h, #8
	and	x22, x19, #0x30
	bic	v0.8h, #255, lsl #8
	add	x23, x0, x7, lsl #2
	bfi	x22, x20, #6, #58
	lsl	x14, x1, #2
	lsr	x17, x15, #4
	add	x21, x2, x6, lsl #2
	lsl	x6, x18, #2
	sub	x16, x16, x8
	and	x4, x15, #0xf
	and	x7, x19, #0x20
	add	x20, x23, #32
	add	x19, x21, #32
	add	x21, x21, x22
	add	x22, x23, x22
	stp	x28, x27, [sp, #32]
	stp	x26, x25, [sp, #48]
	stp	x16, x30, [sp, #8]
	b	.LBB_f767c7_3
.LBB_f767c7_2:
	add	x8, x8, #1
	add	x19, x19, x13
	add	x20, x20, x14
	cmp	x8, x9
	add	x21, x21, x13
	add	x22, x22, x14
	b.eq	.LBB_f767c7_14
.LBB_f767c7_3:
	adrp	x24, .LCPI_f767c7_0
	adrp	x23, .LCPI_f767c7_1
	cbz	x17, .LBB_f767c7_6
	mov	x25, x20
	mov	x26, x19
	mov	x27, x17
.LBB_f767c7_5:
	ldp	q4, q5, [x26, #-32]
	movi	v6.8h, #128
	movi	v7.8h, #128
	movi	v18.8h, #128
	movi	v19.8h, #128
	movi	v3.16b, #1
	movi	v20.8h, #128
	subs	x27, x27, #1
	ushr	v16.8h, v4.8h, #8
	ushr	v17.8h, v5.8h, #8
	bic	v4.8h, #255, lsl #8
	bic	v5.8h, #255, lsl #8
	movi	v21.8h, #128
	mla	v6.8h, v16.8h, v2.8h
	mla	v7.8h, v17.8h, v2.8h
	mla	v19.8h, v4.8h, v0.8h
	mla	v18.8h, v5.8h, v0.8h
	umull2	v4.4s, v6.8h, v3.8h
	umull	v6.4s, v6.4h, v3.4h
	umull2	v5.4s, v7.8h, v3.8h
	umull	v7.4s, v7.4h, v3.4h
	umull2	v16.4s, v19.8h, v3.8h
	umull	v17.4s, v19.4h, v3.4h
	uzp2	v4.8h, v6.8h, v4.8h
	umull2	v6.4s, v18.8h, v3.8h
	umull	v18.4s, v18.4h, v3.4h
	uzp2	v5.8h, v7.8h, v5.8h
	ldp	q7, q19, [x25, #-32]
	uzp2	v16.8h, v17.8h, v16.8h
	mvn	v7.16b, v7.16b
	rev16	v17.16b, v4.16b
	mvn	v19.16b, v19.16b
	uzp2	v6.8h, v18.8h, v6.8h
	rev16	v5.16b, v5.16b
	ldr	q4, [x24, :lo12:.LCPI_f767c7_0]
	ushr	v7.4s, v7.4s, #24
	ushr	v18.4s, v19.4s, #24
	movi	v19.8h, #128
	orr	v17.16b, v17.16b, v16.16b
	orr	v5.16b, v5.16b, v6.16b
	tbl	v7.16b, { v7.16b }, v4.16b
	tbl	v18.16b, { v18.16b }, v4.16b
	ushr	v17.8h, v17.8h, #8
	ushr	v5.8h, v5.8h, #8
	mla	v19.8h, v17.8h, v7.8h
	movi	v17.8h, #128
	mla	v21.8h, v7.8h, v16.8h
	mla	v20.8h, v5.8h, v18.8h
	umull2	v5.4s, v19.8h, v3.8h
	umull	v7.4s, v19.4h, v3.4h
	mla	v17.8h, v18.8h, v6.8h
	umull2	v6.4s, v20.8h, v3.8h
	umull	v16.4s, v20.4h, v3.4h
	umull2	v18.4s, v21.8h, v3.8h
	umull	v19.4s, v21.4h, v3.4h
	movi	v21.8h, #128
	uzp2	v7.8h, v7.8h, v5.8h
	umull2	v20.4s, v17.8h, v3.8h
	umull	v17.4s, v17.4h, v3.4h
	uzp2	v6.8h, v16.8h, v6.8h
	ldr	q5, [x23, :lo12:.LCPI_f767c7_1]
	uzp2	v16.8h, v19.8h, v18.8h
	tbl	v7.16b, { v7.16b }, v5.16b
	uzp2	v17.8h, v17.8h, v20.8h
	movi	v20.8h, #128
	tbl	v6.16b, { v6.16b }, v5.16b
	orr	v7.16b, v7.16b, v16.16b
	orr	v6.16b, v6.16b, v17.16b
	movi	v17.8h, #128
	stp	q7, q6, [x25, #-32]
	movi	v7.8h, #128
	ldp	q6, q16, [x26], #64
	ushr	v18.8h, v6.8h, #8
	ushr	v19.8h, v16.8h, #8
	bic	v6.8h, #255, lsl #8
	bic	v16.8h, #255, lsl #8
	mla	v7.8h, v18.8h, v2.8h
	mla	v17.8h, v19.8h, v2.8h
	mla	v21.8h, v6.8h, v0.8h
	mla	v20.8h, v16.8h, v0.8h
	umull2	v6.4s, v7.8h, v3.8h
	umull	v7.4s, v7.4h, v3.4h
	umull2	v16.4s, v17.8h, v3.8h
	umull	v17.4s, v17.4h, v3.4h
	umull2	v18.4s, v21.8h, v3.8h
	umull	v19.4s, v21.4h, v3.4h
	uzp2	v6.8h, v7.8h, v6.8h
	umull2	v7.4s, v20.8h, v3.8h
	umull	v20.4s, v20.4h, v3.4h
	uzp2	v16.8h, v17.8h, v16.8h
	ldp	q17, q21, [x25]
	uzp2	v18.8h, v19.8h, v18.8h
	mvn	v17.16b, v17.16b
	rev16	v6.16b, v6.16b
	mvn	v19.16b, v21.16b
	uzp2	v7.8h, v20.8h, v7.8h
	rev16	v16.16b, v16.16b
	movi	v20.8h, #128
	ushr	v17.4s, v17.4s, #24
	ushr	v19.4s, v19.4s, #24
	orr	v6.16b, v6.16b, v18.16b
	orr	v16.16b, v16.16b, v7.16b
	tbl	v17.16b, { v17.16b }, v4.16b
	tbl	v4.16b, { v19.16b }, v4.16b
	movi	v19.8h, #128
	ushr	v6.8h, v6.8h, #8
	ushr	v16.8h, v16.8h, #8
	mla	v20.8h, v6.8h, v17.8h
	movi	v6.8h, #128
	mla	v19.8h, v16.8h, v4.8h
	movi	v16.8h, #128
	mla	v6.8h, v17.8h, v18.8h
	umull2	v17.4s, v20.8h, v3.8h
	umull	v18.4s, v20.4h, v3.4h
	mla	v16.8h, v4.8h, v7.8h
	umull2	v4.4s, v19.8h, v3.8h
	umull	v7.4s, v19.4h, v3.4h
	umull2	v19.4s, v6.8h, v3.8h
	umull	v6.4s, v6.4h, v3.4h
	uzp2	v17.8h, v18.8h, v17.8h
	umull2	v18.4s, v16.8h, v3.8h
	umull	v3.4s, v16.4h, v3.4h
	uzp2	v4.8h, v7.8h, v4.8h
	uzp2	v6.8h, v6.8h, v19.8h
	tbl	v7.16b, { v17.16b }, v5.16b
	uzp2	v3.8h, v3.8h, v18.8h
	tbl	v4.16b, { v4.16b }, v5.16b
	orr	v5.16b, v7.16b, v6.16b
	orr	v3.16b, v4.16b, v3.16b
	stp	q5, q3, [x25], #64
	b.ne	.LBB_f767c7_5
.LBB_f767c7_6:
	cmp	x18, x15
	b.eq	.LBB_f767c7_2
	ldr	x16, [sp, #8]
	madd	x25, x8, x1, x11
	add	x26, x16, x8
	madd	x26, x26, x3, x10
	add	x25, x0, x25, lsl #2
	add	x25, x25, x6
	add	x26, x2, x26, lsl #2
	add	x26, x26, x6
	tbnz	w15, #3, .LBB_f767c7_10
	tbnz	w15, #2, .LBB_f767c7_11
.LBB_f767c7_9:
	and	x16, x15, #0xc
	cmp	x16, x4
	b.eq	.LBB_f767c7_2
	b	.LBB_f767c7_12
.LBB_f767c7_10:
	ldp	q4, q5, [x26]
	movi	v6.8h, #128
	movi	v7.8h, #128
	movi	v18.8h, #128
	movi	v19.8h, #128
	movi	v3.16b, #1
	ushr	v16.8h, v4.8h, #8
	ushr	v17.8h, v5.8h, #8
	bic	v4.8h, #255, lsl #8
	bic	v5.8h, #255, lsl #8
	mla	v6.8h, v16.8h, v2.8h
	mla	v7.8h, v17.8h, v2.8h
	mla	v19.8h, v4.8h, v0.8h
	mla	v18.8h, v5.8h, v0.8h
	umull2	v4.4s, v6.8h, v3.8h
	umull	v6.4s, v6.4h, v3.4h
	umull2	v5.4s, v7.8h, v3.8h
	umull	v7.4s, v7.4h, v3.4h
	umull2	v16.4s, v19.8h, v3.8h
	umull	v17.4s, v19.4h, v3.4h
	uzp2	v4.8h, v6.8h, v4.8h
	umull2	v6.4s, v18.8h, v3.8h
	umull	v18.4s, v18.4h, v3.4h
	uzp2	v5.8h, v7.8h, v5.8h
	ldp	q7, q19, [x25]
	uzp2	v16.8h, v17.8h, v16.8h
	mvn	v7.16b, v7.16b
	rev16	v4.16b, v4.16b
	mvn	v17.16b, v19.16b
	uzp2	v6.8h, v18.8h, v6.8h
	rev16	v5.16b, v5.16b
	ldr	q18, [x24, :lo12:.LCPI_f767c7_0]
	movi	v19.8h, #128
	ushr	v7.4s, v7.4s, #24
	ushr	v17.4s, v17.4s, #24
	orr	v4.16b, v4.16b, v16.16b
	orr	v5.16b, v5.16b, v6.16b
	tbl	v7.16b, { v7.16b }, v18.16b
	tbl	v17.16b, { v17.16b }, v18.16b
	movi	v18.8h, #128
	ushr	v4.8h, v4.8h, #8
	ushr	v5.8h, v5.8h, #8
	mla	v19.8h, v4.8h, v7.8h
	movi	v4.8h, #128
	mla	v18.8h, v5.8h, v17.8h
	movi	v5.8h, #128
	mla	v4.8h, v7.8h, v16.8h
	umull2	v7.4s, v19.8h, v3.8h
	umull	v16.4s, v19.4h, v3.4h
	mla	v5.8h, v17.8h, v6.8h
	umull2	v6.4s, v18.8h, v3.8h
	umull	v17.4s, v18.4h, v3.4h
	umull2	v18.4s, v4.8h, v3.8h
	umull	v4.4s, v4.4h, v3.4h
	uzp2	v7.8h, v16.8h, v7.8h
	umull2	v16.4s, v5.8h, v3.8h
	umull	v3.4s, v5.4h, v3.4h
	uzp2	v5.8h, v17.8h, v6.8h
	ldr	q6, [x23, :lo12:.LCPI_f767c7_1]
	uzp2	v4.8h, v4.8h, v18.8h
	tbl	v7.16b, { v7.16b }, v6.16b
	uzp2	v3.8h, v3.8h, v16.8h
	tbl	v5.16b, { v5.16b }, v6.16b
	orr	v4.16b, v7.16b, v4.16b
	orr	v3.16b, v5.16b, v3.16b
	stp	q4, q3, [x25]
	tbz	w15, #2, .LBB_f767c7_9
.LBB_f767c7_11:
	ldr	q3, [x26, x7]
	movi	v4.8h, #128
	movi	v6.8h, #128
	movi	v7.16b, #1
	ldr	q16, [x25, x7]
	adrp	x24, .LCPI_f767c7_2
	ushr	v5.8h, v3.8h, #8
	bic	v3.8h, #255, lsl #8
	movi	v17.8h, #128
	mla	v4.8h, v5.8h, v2.8h
	mla	v6.8h, v3.8h, v0.8h
	umull2	v3.4s, v4.8h, v7.8h
	umull	v4.4s, v4.4h, v7.4h
	umull2	v5.4s, v6.8h, v7.8h
	umull	v6.4s, v6.4h, v7.4h
	uzp2	v3.8h, v4.8h, v3.8h
	mvn	v4.16b, v16.16b
	uzp2	v5.8h, v6.8h, v5.8h
	ldr	q6, [x24, :lo12:.LCPI_f767c7_2]
	ushr	v4.4s, v4.4s, #24
	rev16	v3.16b, v3.16b
	tbl	v4.16b, { v4.16b }, v6.16b
	movi	v6.8h, #128
	orr	v3.16b, v3.16b, v5.16b
	ushr	v16.8h, v4.8h, #8
	bic	v4.8h, #255, lsl #8
	ushr	v3.8h, v3.8h, #8
	mla	v17.8h, v4.8h, v5.8h
	mla	v6.8h, v16.8h, v3.8h
	umull2	v5.4s, v17.8h, v7.8h
	umull2	v3.4s, v6.8h, v7.8h
	umull	v4.4s, v6.4h, v7.4h
	umull	v6.4s, v17.4h, v7.4h
	uzp2	v3.8h, v4.8h, v3.8h
	ldr	q4, [x23, :lo12:.LCPI_f767c7_1]
	uzp2	v5.8h, v6.8h, v5.8h
	tbl	v3.16b, { v3.16b }, v4.16b
	orr	v3.16b, v3.16b, v5.16b
	str	q3, [x25, x7]
	and	x16, x15, #0xc
	cmp	x16, x4
	b.eq	.LBB_f767c7_2
.LBB_f767c7_12:
	mov	x23, x22
	mov	x24, x21
	and	x25, x15, #0xc
.LBB_f767c7_13:
	ldr	w26, [x24], #4
	adrp	x27, .LCPI_f767c7_3
	ldr	d4, [x27, :lo12:.LCPI_f767c7_3]
	ldrb	w27, [x23, #3]
	adrp	x30, .LCPI_f767c7_4
	dup	v3.2s, w26
	ubfx	w28, w26, #8, #8
	and	w26, w26, #0xff
	eor	w27, w27, #0xff
	add	x25, x25, #1
	cmp	x25, x4
	ushl	v3.2s, v3.2s, v4.2s
	mov	s4, v3.s[1]
	str	h3, [sp, #28]
	str	h4, [sp, #30]
	movi	v4.2s, #128
	ldr	s3, [sp, #28]
	zip1	v3.8b, v3.8b, v3.8b
	mov	v3.h[1], wzr
	uzp1	v3.8b, v3.8b, v0.8b
	ushll	v3.4s, v3.4h, #0
	mla	v4.2s, v3.2s, v1.s[0]
	movi	d3, #0x00ffff0000ffff
	and	v5.8b, v4.8b, v3.8b
	usra	v4.2s, v5.2s, #8
	dup	v5.2s, w27
	and	v3.8b, v4.8b, v3.8b
	movi	v4.2s, #128
	ushr	v3.2s, v3.2s, #8
	mla	v4.2s, v3.2s, v5.2s
	movi	d5, #0xff000000ffff0000
	fmov	d3, d4
	bic	v3.2s, #1, lsl #16
	usra	v4.2s, v3.2s, #8
	ldr	d3, [x30, :lo12:.LCPI_f767c7_4]
	mov	w30, #128
	madd	w28, w28, w12, w30
	madd	w26, w26, w12, w30
	bic	v4.2s, #3, lsl #16
	and	w5, w28, #0xff00
	and	w16, w26, #0xff00
	add	w5, w28, w5, lsr #8
	ushl	v3.2s, v4.2s, v3.2s
	add	w16, w26, w16, lsr #8
	ubfx	w5, w5, #8, #8
	ubfx	w16, w16, #8, #8
	and	v3.8b, v3.8b, v5.8b
	madd	w5, w5, w27, w30
	madd	w16, w16, w27, w30
	dup	v4.2s, v3.s[1]
	and	w26, w5, #0xff00
	and	w27, w16, #0xff00
	add	w5, w5, w26, lsr #8
	add	w16, w16, w27, lsr #8
	and	w5, w5, #0xff00
	orr	v3.8b, v3.8b, v4.8b
	and	w16, w16, #0xff00
	fmov	w26, s3
	orr	w5, w26, w5
	orr	w16, w5, w16, lsr #8
	str	w16, [x23], #4
	b.lo	.LBB_f767c7_13
	b	.LBB_f767c7_2
.LBB_f767c7_14:
	ldp	x20, x19, [sp, #96]
	ldr	x30, [sp, #16]
	ldp	x22, x21, [sp, #80]
	ldp	x24, x23, [sp, #64]
	ldp	x26, x25, [sp, #48]
	ldp	x28, x27, [sp, #32]
	add	sp, sp, #112
.LBB_f767c7_15:
	ret
.Lfunc_end_f767c7:
	.size	"pix_raster::view::blit_overlap::<#4bf1498ae24b3bf7>", .Lfunc_end_f767c7-"pix_raster::view::blit_overlap::<#4bf1498ae24b3bf7>"

	.section	.rodata.cst16,"aM",@progbits,16
	.p2align	4, 0x0
.LCPI_d30de0_0:
	.byte	0
	.byte	255
	.byte	0
	.byte	255
	.byte	4
	.byte	255
	.byte	4
	.byte	255
	.byte	8
	.byte	255
	.byte	8
	.byte	255
	.byte	12
	.byte	255
	.byte	12
	.byte	255
.LCPI_d30de0_1:
	.byte	255
	.byte	0
	.byte	255
	.byte	2
	.byte	255
	.byte	4
	.byte	255
	.byte	6
	.byte	255
	.byte	8
	.byte	255
	.byte	10
	.byte	255
	.byte	12
	.byte	255
	.byte	14
.LCPI_d30de0_2:
	.byte	0
	.byte	0
	.byte	0
	.byte	0
	.byte	4
	.byte	4
	.byte	4
	.byte	4
	.byte	8
	.byte	8
	.byte	8
	.byte	8
	.byte	12
	.byte	12
	.byte	12
	.byte	12
	.section	.rodata.cst8,"aM",@progbits,8
	.p2align	3, 0x0
.LCPI_d30de0_3:
	.word	4294967280
	.word	4294967272
.LCPI_d30de0_4:
	.word	8
	.word	16
	.section	".text.pix_raster::view::blit_overlap::<#6e2ae1f4eafa75b3>","ax",@progbits
	.p2align	2
	.type	"pix_raster::view::blit_overlap::<#6e2ae1f4eafa75b3>",@function
"pix_raster::view::blit_overlap::<#6e2ae1f4eafa75b3>":
	ldp	x8, x9, [x4, #24]
	cmp	x8, x9
	b.hs	.LBB_d30de0_15
	sub	sp, sp, #96
	ldr	x16, [x4, #40]
	ldp	x13, x10, [x4, #8]
	ldr	x11, [x4]
	madd	x6, x8, x1, x11
	lsl	x12, x3, #2
	stp	x20, x19, [sp, #80]
	lsl	x14, x1, #2
	madd	x5, x16, x3, x10
	sub	x13, x13, x11
	stp	x22, x21, [sp, #64]
	and	x15, x13, #0xfffffffffffffff0
	lsl	x7, x13, #2
	lsr	x17, x13, #4
	lsr	x19, x15, #4
	sub	x16, x16, x8
	and	x18, x13, #0xf
	and	x21, x7, #0x30
	add	x22, x0, x6, lsl #2
	and	x4, x13, #0xc
	bfi	x21, x19, #6, #58
	and	x6, x7, #0x20
	stp	x28, x27, [sp, #16]
	add	x20, x2, x5, lsl #2
	lsl	x5, x15, #2
	add	x19, x22, #32
	stp	x26, x25, [sp, #32]
	add	x7, x20, #32
	add	x20, x20, x21
	add	x21, x22, x21
	stp	x24, x23, [sp, #48]
	b	.LBB_d30de0_3
.LBB_d30de0_2:
	add	x8, x8, #1
	add	x7, x7, x12
	add	x19, x19, x14
	cmp	x8, x9
	add	x20, x20, x12
	add	x21, x21, x14
	b.eq	.LBB_d30de0_14
.LBB_d30de0_3:
	adrp	x23, .LCPI_d30de0_0
	adrp	x22, .LCPI_d30de0_1
	cbz	x17, .LBB_d30de0_6
	mov	x24, x19
	mov	x25, x7
	mov	x26, x17
.LBB_d30de0_5:
	ldp	q0, q1, [x25, #-32]
	movi	v5.8h, #128
	ldp	q3, q4, [x24, #-32]
	movi	v6.8h, #128
	movi	v18.8h, #128
	subs	x26, x26, #1
	mvn	v0.16b, v0.16b
	mvn	v1.16b, v1.16b
	ushr	v7.8h, v3.8h, #8
	ushr	v17.8h, v4.8h, #8
	bic	v3.8h, #255, lsl #8
	bic	v4.8h, #255, lsl #8
	ushr	v2.4s, v0.4s, #24
	ushr	v1.4s, v1.4s, #24
	ldr	q0, [x23, :lo12:.LCPI_d30de0_0]
	tbl	v2.16b, { v2.16b }, v0.16b
	tbl	v16.16b, { v1.16b }, v0.16b
	movi	v1.16b, #1
	mla	v5.8h, v7.8h, v2.8h
	mla	v6.8h, v17.8h, v16.8h
	movi	v7.8h, #128
	mla	v18.8h, v3.8h, v2.8h
	umull2	v2.4s, v5.8h, v1.8h
	umull	v3.4s, v5.4h, v1.4h
	mla	v7.8h, v4.8h, v16.8h
	umull2	v4.4s, v6.8h, v1.8h
	umull	v5.4s, v6.4h, v1.4h
	umull2	v6.4s, v18.8h, v1.8h
	umull	v16.4s, v18.4h, v1.4h
	uzp2	v3.8h, v3.8h, v2.8h
	umull2	v17.4s, v7.8h, v1.8h
	umull	v7.4s, v7.4h, v1.4h
	uzp2	v4.8h, v5.8h, v4.8h
	ldr	q2, [x22, :lo12:.LCPI_d30de0_1]
	uzp2	v5.8h, v16.8h, v6.8h
	movi	v16.8h, #128
	tbl	v3.16b, { v3.16b }, v2.16b
	uzp2	v6.8h, v7.8h, v17.8h
	movi	v7.8h, #128
	tbl	v4.16b, { v4.16b }, v2.16b
	orr	v3.16b, v3.16b, v5.16b
	orr	v4.16b, v4.16b, v6.16b
	ldp	q5, q6, [x24]
	stp	q3, q4, [x24, #-32]
	ushr	v17.8h, v5.8h, #8
	bic	v5.8h, #255, lsl #8
	ldp	q3, q4, [x25], #64
	mvn	v3.16b, v3.16b
	mvn	v4.16b, v4.16b
	ushr	v3.4s, v3.4s, #24
	ushr	v4.4s, v4.4s, #24
	tbl	v3.16b, { v3.16b }, v0.16b
	tbl	v0.16b, { v4.16b }, v0.16b
	ushr	v4.8h, v6.8h, #8
	bic	v6.8h, #255, lsl #8
	mla	v7.8h, v17.8h, v3.8h
	movi	v17.8h, #128
	mla	v16.8h, v4.8h, v0.8h
	movi	v4.8h, #128
	mla	v17.8h, v5.8h, v3.8h
	umull2	v3.4s, v7.8h, v1.8h
	umull	v5.4s, v7.4h, v1.4h
	mla	v4.8h, v6.8h, v0.8h
	umull2	v0.4s, v16.8h, v1.8h
	umull	v6.4s, v16.4h, v1.4h
	umull2	v7.4s, v17.8h, v1.8h
	umull	v16.4s, v17.4h, v1.4h
	uzp2	v3.8h, v5.8h, v3.8h
	umull2	v5.4s, v4.8h, v1.8h
	umull	v1.4s, v4.4h, v1.4h
	uzp2	v0.8h, v6.8h, v0.8h
	uzp2	v4.8h, v16.8h, v7.8h
	tbl	v3.16b, { v3.16b }, v2.16b
	uzp2	v1.8h, v1.8h, v5.8h
	tbl	v0.16b, { v0.16b }, v2.16b
	orr	v2.16b, v3.16b, v4.16b
	orr	v0.16b, v0.16b, v1.16b
	stp	q2, q0, [x24], #64
	b.ne	.LBB_d30de0_5
.LBB_d30de0_6:
	cmp	x15, x13
	b.eq	.LBB_d30de0_2
	add	x25, x16, x8
	madd	x24, x8, x1, x11
	madd	x25, x25, x3, x10
	add	x24, x0, x24, lsl #2
	add	x25, x2, x25, lsl #2
	add	x24, x24, x5
	add	x25, x25, x5
	tbnz	w13, #3, .LBB_d30de0_10
	tbnz	w13, #2, .LBB_d30de0_11
.LBB_d30de0_9:
	cmp	x4, x18
	b.eq	.LBB_d30de0_2
	b	.LBB_d30de0_12
.LBB_d30de0_10:
	ldp	q0, q1, [x25]
	movi	v5.8h, #128
	ldr	q2, [x23, :lo12:.LCPI_d30de0_0]
	ldp	q3, q4, [x24]
	movi	v6.8h, #128
	movi	v16.8h, #128
	mvn	v0.16b, v0.16b
	mvn	v1.16b, v1.16b
	ushr	v7.8h, v3.8h, #8
	bic	v3.8h, #255, lsl #8
	ushr	v0.4s, v0.4s, #24
	ushr	v1.4s, v1.4s, #24
	tbl	v0.16b, { v0.16b }, v2.16b
	tbl	v1.16b, { v1.16b }, v2.16b
	ushr	v2.8h, v4.8h, #8
	bic	v4.8h, #255, lsl #8
	mla	v5.8h, v7.8h, v0.8h
	movi	v7.16b, #1
	mla	v6.8h, v2.8h, v1.8h
	movi	v2.8h, #128
	mla	v16.8h, v3.8h, v0.8h
	umull2	v0.4s, v5.8h, v7.8h
	umull	v3.4s, v5.4h, v7.4h
	mla	v2.8h, v4.8h, v1.8h
	umull2	v1.4s, v6.8h, v7.8h
	umull	v4.4s, v6.4h, v7.4h
	umull2	v5.4s, v16.8h, v7.8h
	umull	v6.4s, v16.4h, v7.4h
	uzp2	v0.8h, v3.8h, v0.8h
	umull2	v3.4s, v2.8h, v7.8h
	umull	v2.4s, v2.4h, v7.4h
	uzp2	v1.8h, v4.8h, v1.8h
	ldr	q4, [x22, :lo12:.LCPI_d30de0_1]
	uzp2	v5.8h, v6.8h, v5.8h
	tbl	v0.16b, { v0.16b }, v4.16b
	uzp2	v2.8h, v2.8h, v3.8h
	tbl	v1.16b, { v1.16b }, v4.16b
	orr	v0.16b, v0.16b, v5.16b
	orr	v1.16b, v1.16b, v2.16b
	stp	q0, q1, [x24]
	tbz	w13, #2, .LBB_d30de0_9
.LBB_d30de0_11:
	ldr	q0, [x25, x6]
	adrp	x23, .LCPI_d30de0_2
	movi	v2.8h, #128
	ldr	q1, [x23, :lo12:.LCPI_d30de0_2]
	movi	v5.8h, #128
	mvn	v0.16b, v0.16b
	ushr	v0.4s, v0.4s, #24
	tbl	v0.16b, { v0.16b }, v1.16b
	ldr	q1, [x24, x6]
	ushr	v3.8h, v1.8h, #8
	bic	v1.8h, #255, lsl #8
	ushr	v4.8h, v0.8h, #8
	bic	v0.8h, #255, lsl #8
	mla	v2.8h, v3.8h, v4.8h
	movi	v3.16b, #1
	mla	v5.8h, v1.8h, v0.8h
	umull2	v0.4s, v2.8h, v3.8h
	umull	v1.4s, v2.4h, v3.4h
	umull2	v2.4s, v5.8h, v3.8h
	umull	v3.4s, v5.4h, v3.4h
	uzp2	v0.8h, v1.8h, v0.8h
	ldr	q1, [x22, :lo12:.LCPI_d30de0_1]
	uzp2	v2.8h, v3.8h, v2.8h
	tbl	v0.16b, { v0.16b }, v1.16b
	orr	v0.16b, v0.16b, v2.16b
	str	q0, [x24, x6]
	cmp	x4, x18
	b.eq	.LBB_d30de0_2
.LBB_d30de0_12:
	mov	x22, x21
	mov	x23, x20
	and	x24, x13, #0xc
.LBB_d30de0_13:
	ldr	w25, [x22]
	adrp	x26, .LCPI_d30de0_3
	movi	v2.2s, #128
	ldr	d1, [x26, :lo12:.LCPI_d30de0_3]
	ldrb	w26, [x23, #3]
	adrp	x27, .LCPI_d30de0_4
	dup	v0.2s, w25
	mov	w28, #128
	add	x24, x24, #1
	eor	w26, w26, #0xff
	cmp	x24, x18
	add	x23, x23, #4
	ushl	v0.2s, v0.2s, v1.2s
	mov	s1, v0.s[1]
	str	h0, [sp, #12]
	str	h1, [sp, #14]
	dup	v1.2s, w26
	ldr	s0, [sp, #12]
	zip1	v0.8b, v0.8b, v0.8b
	mov	v0.h[1], wzr
	uzp1	v0.8b, v0.8b, v0.8b
	ushll	v0.4s, v0.4h, #0
	mla	v2.2s, v0.2s, v1.2s
	movi	d0, #0x00ffff0000ffff
	and	v1.8b, v2.8b, v0.8b
	usra	v2.2s, v1.2s, #8
	ldr	d1, [x27, :lo12:.LCPI_d30de0_4]
	ubfx	w27, w25, #8, #8
	and	w25, w25, #0xff
	madd	w27, w27, w26, w28
	and	v0.8b, v2.8b, v0.8b
	movi	d2, #0xff000000ffff0000
	madd	w25, w25, w26, w28
	and	w26, w27, #0xff00
	ushl	v0.2s, v0.2s, v1.2s
	and	w28, w25, #0xff00
	add	w26, w27, w26, lsr #8
	add	w25, w25, w28, lsr #8
	and	w26, w26, #0xff00
	and	v0.8b, v0.8b, v2.8b
	and	w25, w25, #0xff00
	dup	v1.2s, v0.s[1]
	orr	v0.8b, v0.8b, v1.8b
	fmov	w27, s0
	orr	w26, w27, w26
	orr	w25, w26, w25, lsr #8
	str	w25, [x22], #4
	b.lo	.LBB_d30de0_13
	b	.LBB_d30de0_2
.LBB_d30de0_14:
	ldp	x20, x19, [sp, #80]
	ldp	x22, x21, [sp, #64]
	ldp	x24, x23, [sp, #48]
	ldp	x26, x25, [sp, #32]
	ldp	x28, x27, [sp, #16]
	add	sp, sp, #96
.LBB_d30de0_15:
	ret
.Lfunc_end_d30de0:
	.size	"pix_raster::view::blit_overlap::<#6e2ae1f4eafa75b3>", .Lfunc_end_d30de0-"pix_raster::view::blit_overlap::<#6e2ae1f4eafa75b3>"

	.section	.rodata.cst16,"aM",@progbits,16
	.p2align	4, 0x0
.LCPI_c934c9_0:
	.word	0
	.word	4294967288
	.word	4294967280
	.word	4294967272
.LCPI_c934c9_1:
	.byte	255
	.byte	0
	.byte	255
	.byte	2
	.byte	255
	.byte	4
	.byte	255
	.byte	6
	.byte	255
	.byte	8
	.byte	255
	.byte	10
	.byte	255
	.byte	12
	.byte	255
	.byte	14
.LCPI_c934c9_2:
	.byte	0
	.byte	255
	.byte	0
	.byte	255
	.byte	4
	.byte	255
	.byte	4
	.byte	255
	.byte	8
	.byte	255
	.byte	8
	.byte	255
	.byte	12
	.byte	255
	.byte	12
	.byte	255
.LCPI_c934c9_3:
	.byte	0
	.byte	0
	.byte	0
	.byte	0
	.byte	1
	.byte	1
	.byte	1
	.byte	1
	.byte	2
	.byte	2
	.byte	2
	.byte	2
	.byte	3
	.byte	3
	.byte	3
	.byte	3
.LCPI_c934c9_4:
	.byte	0
	.byte	0
	.byte	0
	.byte	0
	.byte	4
	.byte	4
	.byte	4
	.byte	4
	.byte	8
	.byte	8
	.byte	8
	.byte	8
	.byte	12
	.byte	12
	.byte	12
	.byte	12
	.section	.rodata.cst8,"aM",@progbits,8
	.p2align	3, 0x0
.LCPI_c934c9_5:
	.word	4294967272
	.word	4294967280
.LCPI_c934c9_6:
	.word	16
	.word	8
	.section	".text.pix_raster::view::blit_overlap::<#c351f49995d5d0e6>","ax",@progbits
	.p2align	2
	.type	"pix_raster::view::blit_overlap::<#c351f49995d5d0e6>",@function
"pix_raster::view::blit_overlap::<#c351f49995d5d0e6>":
	ldp	x8, x9, [x4, #24]
	cmp	x8, x9
	b.hs	.LBB_c934c9_19
	sub	sp, sp, #112
	dup	v0.4s, w5
	adrp	x10, .LCPI_c934c9_0
	movi	v3.2d, #0x00ffff0000ffff
	ldr	q1, [x10, :lo12:.LCPI_c934c9_0]
	ldp	x12, x14, [x4, #8]
	ldr	x10, [x4]
	ldr	x15, [x4, #40]
	madd	x7, x8, x1, x10
	ushl	v0.4s, v0.4s, v1.4s
	stp	x20, x19, [sp, #96]
	sub	x12, x12, x10
	sub	x13, x15, x8
	madd	x20, x15, x3, x14
	and	x15, x12, #0xfffffffffffffff0
	lsl	x19, x12, #2
	stp	x22, x21, [sp, #80]
	xtn	v1.4h, v0.4s
	lsr	x21, x15, #4
	and	x18, x12, #0xc
	and	x22, x19, #0x30
	stp	x24, x23, [sp, #64]
	and	x17, x12, #0x8
	add	x23, x0, x7, lsl #2
	add	x24, x15, x18
	bfi	x22, x21, #6, #58
	add	x11, x2, x14
	lsr	x14, x12, #4
	lsl	x4, x15, #2
	uzp1	v2.8b, v1.8b, v0.8b
	uzp1	v0.8h, v0.8h, v0.8h
	dup	v1.16b, v1.b[6]
	lsl	x6, x17, #2
	lsl	x19, x1, #2
	add	x21, x2, x24
	and	x16, x12, #0xf
	add	x7, x2, x20
	add	x2, x23, #32
	add	x20, x21, x20
	add	x21, x23, x22
	str	d8, [sp, #16]
	ushll	v2.4s, v2.4h, #0
	uzp1	v0.16b, v0.16b, v0.16b
	stp	x28, x27, [sp, #32]
	stp	x26, x25, [sp, #48]
	dup	v4.8h, v2.h[2]
	dup	v2.8h, v2.h[0]
	bif	v2.16b, v4.16b, v3.16b
	ushr	v3.8h, v1.8h, #8
	bic	v1.8h, #255, lsl #8
	ushr	v4.8h, v0.8h, #8
	bic	v0.8h, #255, lsl #8
	ushr	v5.8h, v2.8h, #8
	bic	v2.8h, #255, lsl #8
	b	.LBB_c934c9_3
.LBB_c934c9_2:
	add	x8, x8, #1
	add	x7, x7, x3
	add	x2, x2, x19
	cmp	x8, x9
	add	x20, x20, x3
	add	x21, x21, x19
	b.eq	.LBB_c934c9_18
.LBB_c934c9_3:
	adrp	x22, .LCPI_c934c9_1
	cbz	x14, .LBB_c934c9_8
	mov	x23, x2
	mov	x24, x7
	mov	x25, x14
	b	.LBB_c934c9_6
.LBB_c934c9_5:
	subs	x25, x25, #1
	add	x23, x23, #64
	b.eq	.LBB_c934c9_8
.LBB_c934c9_6:
	ldr	q6, [x24], #16
	ext	v7.16b, v6.16b, v6.16b, #8
	orr	v7.8b, v6.8b, v7.8b
	fmov	x26, d7
	orr	x26, x26, x26, lsr #32
	lsr	x27, x26, #16
	orr	w26, w26, w27
	orr	w26, w26, w26, lsr #8
	tst	w26, #0xff
	b.eq	.LBB_c934c9_5
	movi	v16.8h, #128
	ushr	v17.8h, v6.8h, #8
	movi	v18.8h, #128
	movi	v7.16b, #1
	ldp	q20, q19, [x23, #-32]
	bic	v6.8h, #255, lsl #8
	ldp	q22, q21, [x23]
	movi	v28.8h, #128
	movi	v27.8h, #128
	movi	v29.8h, #128
	mla	v16.8h, v17.8h, v3.8h
	uzp1	v24.16b, v20.16b, v19.16b
	movi	v30.8h, #128
	mla	v18.8h, v6.8h, v1.8h
	uzp1	v23.16b, v22.16b, v21.16b
	uzp2	v21.16b, v22.16b, v21.16b
	uzp2	v22.16b, v20.16b, v19.16b
	movi	v20.8h, #128
	umull2	v6.4s, v16.8h, v7.8h
	umull	v16.4s, v16.4h, v7.4h
	umull2	v17.4s, v18.8h, v7.8h
	umull	v18.4s, v18.4h, v7.4h
	uzp1	v19.16b, v22.16b, v21.16b
	uzp2	v21.16b, v22.16b, v21.16b
	movi	v22.8h, #128
	uzp2	v16.8h, v16.8h, v6.8h
	ldr	q6, [x22, :lo12:.LCPI_c934c9_1]
	uzp2	v17.8h, v18.8h, v17.8h
	uzp2	v18.16b, v24.16b, v23.16b
	uzp1	v23.16b, v24.16b, v23.16b
	movi	v24.8h, #128
	ushr	v31.8h, v19.8h, #8
	bic	v19.8h, #255, lsl #8
	tbl	v16.16b, { v16.16b }, v6.16b
	ushr	v25.8h, v18.8h, #8
	ushr	v8.8h, v23.8h, #8
	bic	v18.8h, #255, lsl #8
	bic	v23.8h, #255, lsl #8
	orr	v16.16b, v16.16b, v17.16b
	mvn	v17.16b, v16.16b
	movi	v16.8h, #128
	ushr	v26.8h, v17.8h, #8
	bic	v17.8h, #255, lsl #8
	mla	v24.8h, v25.8h, v26.8h
	ushr	v25.8h, v21.8h, #8
	mla	v22.8h, v31.8h, v26.8h
	mla	v28.8h, v8.8h, v26.8h
	bic	v21.8h, #255, lsl #8
	mla	v20.8h, v18.8h, v17.8h
	mla	v27.8h, v19.8h, v17.8h
	mla	v29.8h, v23.8h, v17.8h
	mla	v16.8h, v25.8h, v26.8h
	mla	v30.8h, v21.8h, v17.8h
	umull2	v17.4s, v24.8h, v7.8h
	umull	v18.4s, v24.4h, v7.4h
	umull2	v19.4s, v22.8h, v7.8h
	umull	v21.4s, v22.4h, v7.4h
	umull2	v22.4s, v28.8h, v7.8h
	umull	v23.4s, v28.4h, v7.4h
	umull2	v25.4s, v20.8h, v7.8h
	umull	v20.4s, v20.4h, v7.4h
	umull2	v24.4s, v16.8h, v7.8h
	umull	v16.4s, v16.4h, v7.4h
	umull2	v26.4s, v27.8h, v7.8h
	umull	v27.4s, v27.4h, v7.4h
	umull2	v28.4s, v29.8h, v7.8h
	umull	v29.4s, v29.4h, v7.4h
	umull2	v31.4s, v30.8h, v7.8h
	umull	v7.4s, v30.4h, v7.4h
	uzp2	v17.8h, v18.8h, v17.8h
	uzp2	v18.8h, v21.8h, v19.8h
	uzp2	v19.8h, v23.8h, v22.8h
	uzp2	v20.8h, v20.8h, v25.8h
	uzp2	v16.8h, v16.8h, v24.8h
	uzp2	v21.8h, v27.8h, v26.8h
	uzp2	v22.8h, v29.8h, v28.8h
	uzp2	v7.8h, v7.8h, v31.8h
	tbl	v17.16b, { v17.16b }, v6.16b
	tbl	v18.16b, { v18.16b }, v6.16b
	tbl	v19.16b, { v19.16b }, v6.16b
	tbl	v6.16b, { v16.16b }, v6.16b
	orr	v16.16b, v17.16b, v20.16b
	orr	v17.16b, v18.16b, v21.16b
	orr	v18.16b, v19.16b, v22.16b
	orr	v6.16b, v6.16b, v7.16b
	zip1	v7.16b, v18.16b, v17.16b
	zip2	v17.16b, v18.16b, v17.16b
	zip1	v19.16b, v16.16b, v6.16b
	zip2	v6.16b, v16.16b, v6.16b
	ushll	v16.4s, v7.4h, #0
	ushll2	v7.4s, v7.8h, #0
	ushll	v20.4s, v17.4h, #0
	shll	v18.4s, v19.4h, #16
	shll2	v19.4s, v19.8h, #16
	shll	v21.4s, v6.4h, #16
	ushll2	v17.4s, v17.8h, #0
	shll2	v6.4s, v6.8h, #16
	orr	v16.16b, v18.16b, v16.16b
	orr	v7.16b, v19.16b, v7.16b
	orr	v18.16b, v21.16b, v20.16b
	orr	v6.16b, v6.16b, v17.16b
	stp	q16, q7, [x23, #-32]
	stp	q18, q6, [x23]
	b	.LBB_c934c9_5
.LBB_c934c9_8:
	cmp	x15, x12
	b.eq	.LBB_c934c9_2
	madd	x23, x8, x1, x10
	add	x24, x13, x8
	madd	x24, x24, x3, x11
	add	x23, x0, x23, lsl #2
	add	x23, x23, x4
	add	x24, x24, x15
	tbz	w12, #3, .LBB_c934c9_12
	ldr	d6, [x24]
	fmov	x25, d6
	orr	x25, x25, x25, lsr #32
	lsr	x26, x25, #16
	orr	w25, w25, w26
	orr	w25, w25, w25, lsr #8
	tst	w25, #0xff
	b.eq	.LBB_c934c9_12
	zip1	v6.16b, v6.16b, v6.16b
	movi	v7.8h, #1
	adrp	x25, .LCPI_c934c9_2
	movi	v17.8h, #128
	movi	v18.8h, #128
	movi	v21.8h, #128
	movi	v22.8h, #128
	ushll	v16.4s, v6.4h, #0
	ushll2	v6.4s, v6.8h, #0
	mul	v16.4s, v16.4s, v7.4s
	mul	v7.4s, v6.4s, v7.4s
	movi	v6.16b, #1
	ushr	v19.8h, v16.8h, #8
	ushr	v20.8h, v7.8h, #8
	bic	v16.8h, #255, lsl #8
	bic	v7.8h, #255, lsl #8
	mla	v17.8h, v19.8h, v5.8h
	mla	v18.8h, v20.8h, v5.8h
	mla	v21.8h, v16.8h, v2.8h
	mla	v22.8h, v7.8h, v2.8h
	umull2	v16.4s, v17.8h, v6.8h
	umull	v17.4s, v17.4h, v6.4h
	umull2	v7.4s, v18.8h, v6.8h
	umull	v18.4s, v18.4h, v6.4h
	umull2	v19.4s, v21.8h, v6.8h
	umull	v20.4s, v21.4h, v6.4h
	umull	v21.4s, v22.4h, v6.4h
	uzp2	v16.8h, v17.8h, v16.8h
	umull2	v17.4s, v22.8h, v6.8h
	uzp2	v7.8h, v18.8h, v7.8h
	uzp2	v18.8h, v20.8h, v19.8h
	movi	v20.8h, #128
	rev16	v16.16b, v16.16b
	uzp2	v17.8h, v21.8h, v17.8h
	movi	v21.8h, #128
	rev16	v7.16b, v7.16b
	orr	v16.16b, v16.16b, v18.16b
	ldp	q18, q19, [x23]
	orr	v7.16b, v7.16b, v17.16b
	ldr	q17, [x25, :lo12:.LCPI_c934c9_2]
	mvn	v16.16b, v16.16b
	ushr	v22.8h, v18.8h, #8
	bic	v18.8h, #255, lsl #8
	mvn	v7.16b, v7.16b
	ushr	v16.4s, v16.4s, #24
	ushr	v7.4s, v7.4s, #24
	tbl	v16.16b, { v16.16b }, v17.16b
	tbl	v7.16b, { v7.16b }, v17.16b
	ushr	v17.8h, v19.8h, #8
	bic	v19.8h, #255, lsl #8
	mla	v20.8h, v22.8h, v16.8h
	movi	v22.8h, #128
	mla	v21.8h, v17.8h, v7.8h
	movi	v17.8h, #128
	mla	v22.8h, v18.8h, v16.8h
	umull2	v16.4s, v20.8h, v6.8h
	umull	v18.4s, v20.4h, v6.4h
	mla	v17.8h, v19.8h, v7.8h
	umull2	v7.4s, v21.8h, v6.8h
	umull	v19.4s, v21.4h, v6.4h
	umull2	v20.4s, v22.8h, v6.8h
	umull	v21.4s, v22.4h, v6.4h
	uzp2	v16.8h, v18.8h, v16.8h
	umull2	v18.4s, v17.8h, v6.8h
	umull	v6.4s, v17.4h, v6.4h
	uzp2	v7.8h, v19.8h, v7.8h
	ldr	q17, [x22, :lo12:.LCPI_c934c9_1]
	uzp2	v19.8h, v21.8h, v20.8h
	tbl	v16.16b, { v16.16b }, v17.16b
	uzp2	v6.8h, v6.8h, v18.8h
	tbl	v7.16b, { v7.16b }, v17.16b
	orr	v16.16b, v16.16b, v19.16b
	orr	v6.16b, v7.16b, v6.16b
	stp	q16, q6, [x23]
.LBB_c934c9_12:
	tbz	w12, #2, .LBB_c934c9_15
	ldr	s6, [x24, x17]
	dup	v7.16b, v6.b[1]
	dup	v16.16b, v6.b[2]
	dup	v17.16b, v6.b[3]
	orr	v7.16b, v7.16b, v16.16b
	orr	v16.16b, v17.16b, v6.16b
	orr	v7.16b, v7.16b, v16.16b
	umov	w24, v7.b[0]
	cbz	w24, .LBB_c934c9_15
	adrp	x24, .LCPI_c934c9_3
	movi	v17.8h, #128
	movi	v18.16b, #1
	ldr	q7, [x24, :lo12:.LCPI_c934c9_3]
	adrp	x24, .LCPI_c934c9_4
	movi	v20.8h, #128
	tbl	v6.16b, { v6.16b }, v7.16b
	movi	v7.8h, #128
	ushr	v16.8h, v6.8h, #8
	bic	v6.8h, #255, lsl #8
	mla	v7.8h, v16.8h, v4.8h
	mla	v17.8h, v6.8h, v0.8h
	umull2	v6.4s, v7.8h, v18.8h
	umull	v7.4s, v7.4h, v18.4h
	umull2	v16.4s, v17.8h, v18.8h
	umull	v17.4s, v17.4h, v18.4h
	uzp2	v6.8h, v7.8h, v6.8h
	uzp2	v7.8h, v17.8h, v16.8h
	movi	v16.8h, #128
	rev16	v6.16b, v6.16b
	orr	v6.16b, v6.16b, v7.16b
	ldr	q7, [x24, :lo12:.LCPI_c934c9_4]
	mvn	v6.16b, v6.16b
	ushr	v6.4s, v6.4s, #24
	tbl	v6.16b, { v6.16b }, v7.16b
	ldr	q7, [x23, x6]
	ushr	v17.8h, v7.8h, #8
	bic	v7.8h, #255, lsl #8
	ushr	v19.8h, v6.8h, #8
	bic	v6.8h, #255, lsl #8
	mla	v16.8h, v17.8h, v19.8h
	mla	v20.8h, v7.8h, v6.8h
	umull2	v6.4s, v16.8h, v18.8h
	umull	v7.4s, v16.4h, v18.4h
	umull2	v16.4s, v20.8h, v18.8h
	umull	v17.4s, v20.4h, v18.4h
	uzp2	v6.8h, v7.8h, v6.8h
	ldr	q7, [x22, :lo12:.LCPI_c934c9_1]
	uzp2	v16.8h, v17.8h, v16.8h
	tbl	v6.16b, { v6.16b }, v7.16b
	orr	v6.16b, v6.16b, v16.16b
	str	q6, [x23, x6]
.LBB_c934c9_15:
	cmp	x18, x16
	b.eq	.LBB_c934c9_2
	mov	x22, x21
	mov	x23, x20
	and	x24, x12, #0xc
.LBB_c934c9_17:
	ldr	w25, [x22]
	adrp	x26, .LCPI_c934c9_5
	lsr	w27, w5, #24
	ldr	d7, [x26, :lo12:.LCPI_c934c9_5]
	ldrb	w26, [x23], #1
	dup	v6.2s, w25
	mov	w28, #128
	movi	v16.2s, #128
	madd	w26, w26, w27, w28
	add	x24, x24, #1
	cmp	x24, x16
	ushl	v6.2s, v6.2s, v7.2s
	and	w27, w26, #0xff00
	add	w26, w26, w27, lsr #8
	adrp	x27, .LCPI_c934c9_6
	mov	s7, v6.s[1]
	str	h6, [sp, #24]
	ubfx	w26, w26, #8, #8
	eor	w26, w26, #0xff
	str	h7, [sp, #26]
	dup	v7.2s, w26
	ldr	s6, [sp, #24]
	zip1	v6.8b, v6.8b, v6.8b
	mov	v6.h[3], wzr
	uzp1	v6.8b, v6.8b, v0.8b
	ushll	v6.4s, v6.4h, #0
	mla	v16.2s, v7.2s, v6.2s
	movi	d6, #0x00ffff0000ffff
	and	v7.8b, v16.8b, v6.8b
	usra	v16.2s, v7.2s, #8
	ldr	d7, [x27, :lo12:.LCPI_c934c9_6]
	ubfx	w27, w25, #8, #8
	and	w25, w25, #0xff
	madd	w27, w27, w26, w28
	and	v6.8b, v16.8b, v6.8b
	movi	d16, #0xffff0000ff000000
	madd	w25, w25, w26, w28
	and	w26, w27, #0xff00
	ushl	v6.2s, v6.2s, v7.2s
	and	w28, w25, #0xff00
	add	w26, w27, w26, lsr #8
	add	w25, w25, w28, lsr #8
	and	w26, w26, #0xff00
	and	v6.8b, v6.8b, v16.8b
	and	w25, w25, #0xff00
	dup	v7.2s, v6.s[1]
	orr	v6.8b, v6.8b, v7.8b
	fmov	w27, s6
	orr	w26, w27, w26
	orr	w25, w26, w25, lsr #8
	str	w25, [x22], #4
	b.lo	.LBB_c934c9_17
	b	.LBB_c934c9_2
.LBB_c934c9_18:
	ldp	x20, x19, [sp, #96]
	ldr	d8, [sp, #16]
	ldp	x22, x21, [sp, #80]
	ldp	x24, x23, [sp, #64]
	ldp	x26, x25, [sp, #48]
	ldp	x28, x27, [sp, #32]
	add	sp, sp, #112
.LBB_c934c9_19:
	ret
.Lfunc_end_c934c9:
	.size	"pix_raster::view::blit_overlap::<#c351f49995d5d0e6>", .Lfunc_end_c934c9-"pix_raster::view::blit_overlap::<#c351f49995d5d0e6>"

	.section	.rodata.cst16,"aM",@progbits,16
	.p2align	4, 0x0
.LCPI_c542b5_0:
	.byte	0
	.byte	255
	.byte	0
	.byte	255
	.byte	4
	.byte	255
	.byte	4
	.byte	255
	.byte	8
	.byte	255
	.byte	8
	.byte	255
	.byte	12
	.byte	255
	.byte	12
	.byte	255
.LCPI_c542b5_1:
	.byte	255
	.byte	0
	.byte	255
	.byte	2
	.byte	255
	.byte	4
	.byte	255
	.byte	6
	.byte	255
	.byte	8
	.byte	255
	.byte	10
	.byte	255
	.byte	12
	.byte	255
	.byte	14
.LCPI_c542b5_2:
	.byte	0
	.byte	0
	.byte	0
	.byte	0
	.byte	4
	.byte	4
	.byte	4
	.byte	4
	.byte	8
	.byte	8
	.byte	8
	.byte	8
	.byte	12
	.byte	12
	.byte	12
	.byte	12
	.section	.rodata.cst8,"aM",@progbits,8
	.p2align	3, 0x0
.LCPI_c542b5_3:
	.word	4294967272
	.word	4294967280
.LCPI_c542b5_4:
	.word	16
	.word	8
	.section	".text.pix_raster::view::blit_overlap::<#69746525898a3d94>","ax",@progbits
	.p2align	2
	.type	"pix_raster::view::blit_overlap::<#69746525898a3d94>",@function
"pix_raster::view::blit_overlap::<#69746525898a3d94>":
	ldp	x8, x9, [x4, #24]
	cmp	x8, x9
	b.hs	.LBB_c542b5_15
	str	x30, [sp, #-96]!
	ldr	x16, [x4, #40]
	ldp	x15, x10, [x4, #8]
	ldr	x11, [x4]
	madd	x7, x8, x1, x11
	dup	v0.16b, w5
	stp	x20, x19, [sp, #80]
	lsl	x13, x3, #2
	lsl	x14, x1, #2
	madd	x6, x16, x3, x10
	sub	x15, x15, x11
	stp	x22, x21, [sp, #64]
	and	x18, x15, #0xfffffffffffffff0
	lsl	x19, x15, #2
	stp	x24, x23, [sp, #48]
	lsr	x20, x18, #4
	ushr	v1.8h, v0.8h, #8
	bic	v0.8h, #255, lsl #8
	and	x22, x19, #0x30
	add	x23, x0, x7, lsl #2
	lsr	x17, x15, #4
	bfi	x22, x20, #6, #58
	and	w12, w5, #0xff
	sub	x16, x16, x8
	add	x21, x2, x6, lsl #2
	lsl	x6, x18, #2
	and	x4, x15, #0xf
	and	x5, x15, #0xc
	and	x7, x19, #0x20
	add	x20, x23, #32
	add	x19, x21, #32
	add	x21, x21, x22
	add	x22, x23, x22
	stp	x28, x27, [sp, #16]
	stp	x26, x25, [sp, #32]
	b	.LBB_c542b5_3
.LBB_c542b5_2:
	add	x8, x8, #1
	add	x19, x19, x13
	add	x20, x20, x14
	cmp	x8, x9
	add	x21, x21, x13
	add	x22, x22, x14
	b.eq	.LBB_c542b5_14
.LBB_c542b5_3:
	adrp	x24, .LCPI_c542b5_0
	adrp	x23, .LCPI_c542b5_1
	cbz	x17, .LBB_c542b5_6
	mov	x25, x20
	mov	x26, x19
	mov	x27, x17
.LBB_c542b5_5:
	ldp	q3, q4, [x26, #-32]
	movi	v5.8h, #128
	movi	v6.8h, #128
	movi	v17.8h, #128
	movi	v18.8h, #128
	movi	v2.16b, #1
	subs	x27, x27, #1
	ushr	v7.8h, v3.8h, #8
	ushr	v16.8h, v4.8h, #8
	bic	v3.8h, #255, lsl #8
	bic	v4.8h, #255, lsl #8
	mla	v5.8h, v7.8h, v1.8h
	mla	v6.8h, v16.8h, v1.8h
	mla	v17.8h, v3.8h, v0.8h
	mla	v18.8h, v4.8h, v0.8h
	umull2	v3.4s, v5.8h, v2.8h
	umull	v5.4s, v5.4h, v2.4h
	umull2	v4.4s, v6.8h, v2.8h
	umull	v6.4s, v6.4h, v2.4h
	umull2	v7.4s, v17.8h, v2.8h
	umull	v16.4s, v17.4h, v2.4h
	umull	v17.4s, v18.4h, v2.4h
	uzp2	v3.8h, v5.8h, v3.8h
	umull2	v5.4s, v18.8h, v2.8h
	uzp2	v4.8h, v6.8h, v4.8h
	uzp2	v6.8h, v16.8h, v7.8h
	movi	v16.8h, #128
	rev16	v3.16b, v3.16b
	uzp2	v5.8h, v17.8h, v5.8h
	movi	v17.8h, #128
	rev16	v4.16b, v4.16b
	orr	v3.16b, v3.16b, v6.16b
	ldp	q6, q7, [x25, #-32]
	orr	v4.16b, v4.16b, v5.16b
	mvn	v3.16b, v3.16b
	ushr	v18.8h, v6.8h, #8
	ushr	v19.8h, v7.8h, #8
	mvn	v4.16b, v4.16b
	bic	v6.8h, #255, lsl #8
	bic	v7.8h, #255, lsl #8
	ushr	v5.4s, v3.4s, #24
	ldr	q3, [x24, :lo12:.LCPI_c542b5_0]
	ushr	v4.4s, v4.4s, #24
	tbl	v5.16b, { v5.16b }, v3.16b
	tbl	v4.16b, { v4.16b }, v3.16b
	mla	v16.8h, v18.8h, v5.8h
	movi	v18.8h, #128
	mla	v17.8h, v19.8h, v4.8h
	movi	v19.8h, #128
	mla	v18.8h, v6.8h, v5.8h
	umull2	v5.4s, v16.8h, v2.8h
	umull	v6.4s, v16.4h, v2.4h
	mla	v19.8h, v7.8h, v4.8h
	umull2	v4.4s, v17.8h, v2.8h
	umull	v7.4s, v17.4h, v2.4h
	umull2	v16.4s, v18.8h, v2.8h
	umull	v17.4s, v18.4h, v2.4h
	uzp2	v5.8h, v6.8h, v5.8h
	umull2	v6.4s, v19.8h, v2.8h
	umull	v18.4s, v19.4h, v2.4h
	uzp2	v7.8h, v7.8h, v4.8h
	ldr	q4, [x23, :lo12:.LCPI_c542b5_1]
	movi	v19.8h, #128
	uzp2	v16.8h, v17.8h, v16.8h
	tbl	v5.16b, { v5.16b }, v4.16b
	uzp2	v6.8h, v18.8h, v6.8h
	tbl	v7.16b, { v7.16b }, v4.16b
	orr	v5.16b, v5.16b, v16.16b
	movi	v16.8h, #128
	orr	v6.16b, v7.16b, v6.16b
	movi	v7.8h, #128
	stp	q5, q6, [x25, #-32]
	ldp	q5, q6, [x26], #64
	ushr	v17.8h, v5.8h, #8
	ushr	v18.8h, v6.8h, #8
	bic	v5.8h, #255, lsl #8
	bic	v6.8h, #255, lsl #8
	mla	v7.8h, v17.8h, v1.8h
	movi	v17.8h, #128
	mla	v16.8h, v18.8h, v1.8h
	mla	v19.8h, v5.8h, v0.8h
	umull2	v5.4s, v7.8h, v2.8h
	umull	v7.4s, v7.4h, v2.4h
	mla	v17.8h, v6.8h, v0.8h
	umull2	v6.4s, v16.8h, v2.8h
	umull	v16.4s, v16.4h, v2.4h
	umull2	v18.4s, v19.8h, v2.8h
	umull	v19.4s, v19.4h, v2.4h
	uzp2	v5.8h, v7.8h, v5.8h
	umull2	v7.4s, v17.8h, v2.8h
	umull	v17.4s, v17.4h, v2.4h
	uzp2	v6.8h, v16.8h, v6.8h
	uzp2	v16.8h, v19.8h, v18.8h
	movi	v18.8h, #128
	rev16	v5.16b, v5.16b
	uzp2	v7.8h, v17.8h, v7.8h
	movi	v17.8h, #128
	rev16	v6.16b, v6.16b
	orr	v5.16b, v5.16b, v16.16b
	orr	v6.16b, v6.16b, v7.16b
	ldp	q7, q16, [x25]
	mvn	v5.16b, v5.16b
	mvn	v6.16b, v6.16b
	ushr	v19.8h, v7.8h, #8
	bic	v7.8h, #255, lsl #8
	ushr	v5.4s, v5.4s, #24
	ushr	v6.4s, v6.4s, #24
	tbl	v5.16b, { v5.16b }, v3.16b
	tbl	v3.16b, { v6.16b }, v3.16b
	ushr	v6.8h, v16.8h, #8
	bic	v16.8h, #255, lsl #8
	mla	v17.8h, v19.8h, v5.8h
	movi	v19.8h, #128
	mla	v18.8h, v6.8h, v3.8h
	movi	v6.8h, #128
	mla	v19.8h, v7.8h, v5.8h
	umull2	v5.4s, v17.8h, v2.8h
	umull	v7.4s, v17.4h, v2.4h
	mla	v6.8h, v16.8h, v3.8h
	umull2	v3.4s, v18.8h, v2.8h
	umull	v16.4s, v18.4h, v2.4h
	umull2	v17.4s, v19.8h, v2.8h
	umull	v18.4s, v19.4h, v2.4h
	uzp2	v5.8h, v7.8h, v5.8h
	umull2	v7.4s, v6.8h, v2.8h
	umull	v2.4s, v6.4h, v2.4h
	uzp2	v3.8h, v16.8h, v3.8h
	uzp2	v6.8h, v18.8h, v17.8h
	tbl	v5.16b, { v5.16b }, v4.16b
	uzp2	v2.8h, v2.8h, v7.8h
	tbl	v3.16b, { v3.16b }, v4.16b
	orr	v4.16b, v5.16b, v6.16b
	orr	v2.16b, v3.16b, v2.16b
	stp	q4, q2, [x25], #64
	b.ne	.LBB_c542b5_5
.LBB_c542b5_6:
	cmp	x18, x15
	b.eq	.LBB_c542b5_2
	add	x26, x16, x8
	madd	x25, x8, x1, x11
	madd	x26, x26, x3, x10
	add	x25, x0, x25, lsl #2
	add	x26, x2, x26, lsl #2
	add	x25, x25, x6
	add	x26, x26, x6
	tbnz	w15, #3, .LBB_c542b5_10
	tbnz	w15, #2, .LBB_c542b5_11
.LBB_c542b5_9:
	cmp	x5, x4
	b.eq	.LBB_c542b5_2
	b	.LBB_c542b5_12
.LBB_c542b5_10:
	ldp	q3, q4, [x26]
	movi	v5.8h, #128
	movi	v6.8h, #128
	movi	v17.8h, #128
	movi	v18.8h, #128
	movi	v2.16b, #1
	ushr	v7.8h, v3.8h, #8
	ushr	v16.8h, v4.8h, #8
	bic	v3.8h, #255, lsl #8
	bic	v4.8h, #255, lsl #8
	mla	v5.8h, v7.8h, v1.8h
	mla	v6.8h, v16.8h, v1.8h
	mla	v17.8h, v3.8h, v0.8h
	mla	v18.8h, v4.8h, v0.8h
	umull2	v3.4s, v5.8h, v2.8h
	umull	v5.4s, v5.4h, v2.4h
	umull2	v4.4s, v6.8h, v2.8h
	umull	v6.4s, v6.4h, v2.4h
	umull2	v7.4s, v17.8h, v2.8h
	umull	v16.4s, v17.4h, v2.4h
	umull	v17.4s, v18.4h, v2.4h
	uzp2	v3.8h, v5.8h, v3.8h
	umull2	v5.4s, v18.8h, v2.8h
	uzp2	v4.8h, v6.8h, v4.8h
	uzp2	v6.8h, v16.8h, v7.8h
	movi	v16.8h, #128
	rev16	v3.16b, v3.16b
	uzp2	v5.8h, v17.8h, v5.8h
	movi	v17.8h, #128
	rev16	v4.16b, v4.16b
	orr	v3.16b, v3.16b, v6.16b
	ldp	q6, q7, [x25]
	orr	v4.16b, v4.16b, v5.16b
	ldr	q5, [x24, :lo12:.LCPI_c542b5_0]
	mvn	v3.16b, v3.16b
	ushr	v18.8h, v6.8h, #8
	bic	v6.8h, #255, lsl #8
	mvn	v4.16b, v4.16b
	ushr	v3.4s, v3.4s, #24
	ushr	v4.4s, v4.4s, #24
	tbl	v3.16b, { v3.16b }, v5.16b
	tbl	v4.16b, { v4.16b }, v5.16b
	ushr	v5.8h, v7.8h, #8
	bic	v7.8h, #255, lsl #8
	mla	v16.8h, v18.8h, v3.8h
	movi	v18.8h, #128
	mla	v17.8h, v5.8h, v4.8h
	movi	v5.8h, #128
	mla	v18.8h, v6.8h, v3.8h
	umull2	v3.4s, v16.8h, v2.8h
	umull	v6.4s, v16.4h, v2.4h
	mla	v5.8h, v7.8h, v4.8h
	umull2	v4.4s, v17.8h, v2.8h
	umull	v7.4s, v17.4h, v2.4h
	umull2	v16.4s, v18.8h, v2.8h
	umull	v17.4s, v18.4h, v2.4h
	uzp2	v3.8h, v6.8h, v3.8h
	umull2	v6.4s, v5.8h, v2.8h
	umull	v2.4s, v5.4h, v2.4h
	uzp2	v4.8h, v7.8h, v4.8h
	ldr	q5, [x23, :lo12:.LCPI_c542b5_1]
	uzp2	v7.8h, v17.8h, v16.8h
	tbl	v3.16b, { v3.16b }, v5.16b
	uzp2	v2.8h, v2.8h, v6.8h
	tbl	v4.16b, { v4.16b }, v5.16b
	orr	v3.16b, v3.16b, v7.16b
	orr	v2.16b, v4.16b, v2.16b
	stp	q3, q2, [x25]
	tbz	w15, #2, .LBB_c542b5_9
.LBB_c542b5_11:
	ldr	q2, [x26, x7]
	movi	v3.8h, #128
	movi	v5.8h, #128
	movi	v6.16b, #1
	adrp	x24, .LCPI_c542b5_2
	movi	v16.8h, #128
	ushr	v4.8h, v2.8h, #8
	bic	v2.8h, #255, lsl #8
	mla	v3.8h, v4.8h, v1.8h
	mla	v5.8h, v2.8h, v0.8h
	umull2	v2.4s, v3.8h, v6.8h
	umull	v3.4s, v3.4h, v6.4h
	umull2	v4.4s, v5.8h, v6.8h
	umull	v5.4s, v5.4h, v6.4h
	uzp2	v2.8h, v3.8h, v2.8h
	uzp2	v3.8h, v5.8h, v4.8h
	movi	v4.8h, #128
	rev16	v2.16b, v2.16b
	orr	v2.16b, v2.16b, v3.16b
	ldr	q3, [x24, :lo12:.LCPI_c542b5_2]
	mvn	v2.16b, v2.16b
	ushr	v2.4s, v2.4s, #24
	tbl	v2.16b, { v2.16b }, v3.16b
	ldr	q3, [x25, x7]
	ushr	v5.8h, v3.8h, #8
	bic	v3.8h, #255, lsl #8
	ushr	v7.8h, v2.8h, #8
	bic	v2.8h, #255, lsl #8
	mla	v4.8h, v5.8h, v7.8h
	mla	v16.8h, v3.8h, v2.8h
	umull2	v2.4s, v4.8h, v6.8h
	umull	v3.4s, v4.4h, v6.4h
	umull2	v4.4s, v16.8h, v6.8h
	umull	v5.4s, v16.4h, v6.4h
	uzp2	v2.8h, v3.8h, v2.8h
	ldr	q3, [x23, :lo12:.LCPI_c542b5_1]
	uzp2	v4.8h, v5.8h, v4.8h
	tbl	v2.16b, { v2.16b }, v3.16b
	orr	v2.16b, v2.16b, v4.16b
	str	q2, [x25, x7]
	cmp	x5, x4
	b.eq	.LBB_c542b5_2
.LBB_c542b5_12:
	mov	x23, x22
	mov	x24, x21
	and	x25, x15, #0xc
.LBB_c542b5_13:
	ldr	w26, [x23]
	adrp	x27, .LCPI_c542b5_3
	mov	w28, #128
	ldr	d3, [x27, :lo12:.LCPI_c542b5_3]
	ldrb	w27, [x24, #3]
	movi	v4.2s, #128
	dup	v2.2s, w26
	add	x25, x25, #1
	add	x24, x24, #4
	madd	w27, w27, w12, w28
	cmp	x25, x4
	ushl	v2.2s, v2.2s, v3.2s
	and	w30, w27, #0xff00
	add	w27, w27, w30, lsr #8
	adrp	x30, .LCPI_c542b5_4
	mov	s3, v2.s[1]
	str	h2, [sp, #12]
	ubfx	w27, w27, #8, #8
	eor	w27, w27, #0xff
	str	h3, [sp, #14]
	dup	v3.2s, w27
	ldr	s2, [sp, #12]
	zip1	v2.8b, v2.8b, v2.8b
	mov	v2.h[3], wzr
	uzp1	v2.8b, v2.8b, v0.8b
	ushll	v2.4s, v2.4h, #0
	mla	v4.2s, v3.2s, v2.2s
	movi	d2, #0x00ffff0000ffff
	and	v3.8b, v4.8b, v2.8b
	usra	v4.2s, v3.2s, #8
	ldr	d3, [x30, :lo12:.LCPI_c542b5_4]
	ubfx	w30, w26, #8, #8
	and	w26, w26, #0xff
	madd	w30, w30, w27, w28
	and	v2.8b, v4.8b, v2.8b
	movi	d4, #0xffff0000ff000000
	madd	w26, w26, w27, w28
	and	w27, w30, #0xff00
	ushl	v2.2s, v2.2s, v3.2s
	and	w28, w26, #0xff00
	add	w27, w30, w27, lsr #8
	add	w26, w26, w28, lsr #8
	and	w27, w27, #0xff00
	and	v2.8b, v2.8b, v4.8b
	and	w26, w26, #0xff00
	dup	v3.2s, v2.s[1]
	orr	v2.8b, v2.8b, v3.8b
	fmov	w28, s2
	orr	w27, w28, w27
	orr	w26, w27, w26, lsr #8
	str	w26, [x23], #4
	b.lo	.LBB_c542b5_13
	b	.LBB_c542b5_2
.LBB_c542b5_14:
	ldp	x20, x19, [sp, #80]
	ldp	x22, x21, [sp, #64]
	ldp	x24, x23, [sp, #48]
	ldp	x26, x25, [sp, #32]
	ldp	x28, x27, [sp, #16]
	ldr	x30, [sp], #96
.LBB_c542b5_15:
	ret
.Lfunc_end_c542b5:
	.size	"pix_raster::view::blit_overlap::<#69746525898a3d94>", .Lfunc_end_c542b5-"pix_raster::view::blit_overlap::<#69746525898a3d94>"

	.section	.rodata.cst16,"aM",@progbits,16
	.p2align	4, 0x0
.LCPI_ae4004_0:
	.byte	0
	.byte	255
	.byte	0
	.byte	255
	.byte	4
	.byte	255
	.byte	4
	.byte	255
	.byte	8
	.byte	255
	.byte	8
	.byte	255
	.byte	12
	.byte	255
	.byte	12
	.byte	255
.LCPI_ae4004_1:
	.byte	255
	.byte	0
	.byte	255
	.byte	2
	.byte	255
	.byte	4
	.byte	255
	.byte	6
	.byte	255
	.byte	8
	.byte	255
	.byte	10
	.byte	255
	.byte	12
	.byte	255
	.byte	14
.LCPI_ae4004_2:
	.byte	0
	.byte	0
	.byte	0
	.byte	0
	.byte	4
	.byte	4
	.byte	4
	.byte	4
	.byte	8
	.byte	8
	.byte	8
	.byte	8
	.byte	12
	.byte	12
	.byte	12
	.byte	12
	.section	.rodata.cst8,"aM",@progbits,8
	.p2align	3, 0x0
.LCPI_ae4004_3:
	.word	4294967272
	.word	4294967280
.LCPI_ae4004_4:
	.word	16
	.word	8
	.section	".text.pix_raster::view::blit_overlap::<#9ba22e131c89b739>","ax",@progbits
	.p2align	2
	.type	"pix_raster::view::blit_overlap::<#9ba22e131c89b739>",@function
"pix_raster::view::blit_overlap::<#9ba22e131c89b739>":
	ldp	x8, x9, [x4, #24]
	cmp	x8, x9
	b.hs	.LBB_ae4004_15
	sub	sp, sp, #96
	ldr	x16, [x4, #40]
	ldp	x13, x10, [x4, #8]
	ldr	x11, [x4]
	madd	x6, x8, x1, x11
	lsl	x12, x3, #2
	stp	x20, x19, [sp, #80]
	lsl	x14, x1, #2
	madd	x5, x16, x3, x10
	sub	x13, x13, x11
	stp	x22, x21, [sp, #64]
	and	x15, x13, #0xfffffffffffffff0
	lsl	x7, x13, #2
	lsr	x17, x13, #4
	lsr	x19, x15, #4
	sub	x16, x16, x8
	and	x18, x13, #0xf
	and	x21, x7, #0x30
	add	x22, x0, x6, lsl #2
	and	x4, x13, #0xc
	bfi	x21, x19, #6, #58
	and	x6, x7, #0x20
	stp	x28, x27, [sp, #16]
	add	x20, x2, x5, lsl #2
	lsl	x5, x15, #2
	add	x19, x22, #32
	stp	x26, x25, [sp, #32]
	add	x7, x20, #32
	add	x20, x20, x21
	add	x21, x22, x21
	stp	x24, x23, [sp, #48]
	b	.LBB_ae4004_3
.LBB_ae4004_2:
	add	x8, x8, #1
	add	x7, x7, x12
	add	x19, x19, x14
	cmp	x8, x9
	add	x20, x20, x12
	add	x21, x21, x14
	b.eq	.LBB_ae4004_14
.LBB_ae4004_3:
	adrp	x23, .LCPI_ae4004_0
	adrp	x22, .LCPI_ae4004_1
	cbz	x17, .LBB_ae4004_6
	mov	x24, x19
	mov	x25, x7
	mov	x26, x17
.LBB_ae4004_5:
	ldp	q0, q1, [x24, #-32]
	movi	v5.8h, #128
	ldp	q3, q4, [x25, #-32]
	movi	v6.8h, #128
	movi	v18.8h, #128
	subs	x26, x26, #1
	ushr	v2.4s, v0.4s, #24
	ushr	v1.4s, v1.4s, #24
	ldr	q0, [x23, :lo12:.LCPI_ae4004_0]
	ushr	v7.8h, v3.8h, #8
	ushr	v17.8h, v4.8h, #8
	bic	v3.8h, #255, lsl #8
	bic	v4.8h, #255, lsl #8
	tbl	v2.16b, { v2.16b }, v0.16b
	tbl	v16.16b, { v1.16b }, v0.16b
	movi	v1.16b, #1
	mla	v5.8h, v7.8h, v2.8h
	mla	v6.8h, v17.8h, v16.8h
	movi	v7.8h, #128
	mla	v18.8h, v3.8h, v2.8h
	umull2	v2.4s, v5.8h, v1.8h
	umull	v3.4s, v5.4h, v1.4h
	mla	v7.8h, v4.8h, v16.8h
	umull2	v4.4s, v6.8h, v1.8h
	umull	v5.4s, v6.4h, v1.4h
	umull2	v6.4s, v18.8h, v1.8h
	umull	v16.4s, v18.4h, v1.4h
	uzp2	v3.8h, v3.8h, v2.8h
	umull2	v17.4s, v7.8h, v1.8h
	umull	v7.4s, v7.4h, v1.4h
	uzp2	v4.8h, v5.8h, v4.8h
	ldr	q2, [x22, :lo12:.LCPI_ae4004_1]
	uzp2	v5.8h, v16.8h, v6.8h
	movi	v16.8h, #128
	tbl	v3.16b, { v3.16b }, v2.16b
	uzp2	v6.8h, v7.8h, v17.8h
	tbl	v4.16b, { v4.16b }, v2.16b
	orr	v3.16b, v3.16b, v5.16b
	orr	v4.16b, v4.16b, v6.16b
	ldp	q5, q6, [x24]
	ushr	v5.4s, v5.4s, #24
	stp	q3, q4, [x24, #-32]
	ushr	v3.4s, v6.4s, #24
	ldp	q4, q7, [x25], #64
	movi	v6.8h, #128
	tbl	v5.16b, { v5.16b }, v0.16b
	tbl	v0.16b, { v3.16b }, v0.16b
	ushr	v3.8h, v4.8h, #8
	ushr	v17.8h, v7.8h, #8
	bic	v4.8h, #255, lsl #8
	bic	v7.8h, #255, lsl #8
	mla	v6.8h, v3.8h, v5.8h
	movi	v3.8h, #128
	mla	v16.8h, v17.8h, v0.8h
	movi	v17.8h, #128
	mla	v3.8h, v4.8h, v5.8h
	umull2	v4.4s, v6.8h, v1.8h
	umull	v5.4s, v6.4h, v1.4h
	mla	v17.8h, v7.8h, v0.8h
	umull2	v0.4s, v16.8h, v1.8h
	umull	v6.4s, v16.4h, v1.4h
	umull2	v7.4s, v3.8h, v1.8h
	umull	v3.4s, v3.4h, v1.4h
	uzp2	v4.8h, v5.8h, v4.8h
	umull2	v5.4s, v17.8h, v1.8h
	umull	v1.4s, v17.4h, v1.4h
	uzp2	v0.8h, v6.8h, v0.8h
	uzp2	v3.8h, v3.8h, v7.8h
	tbl	v4.16b, { v4.16b }, v2.16b
	uzp2	v1.8h, v1.8h, v5.8h
	tbl	v0.16b, { v0.16b }, v2.16b
	orr	v2.16b, v4.16b, v3.16b
	orr	v0.16b, v0.16b, v1.16b
	stp	q2, q0, [x24], #64
	b.ne	.LBB_ae4004_5
.LBB_ae4004_6:
	cmp	x15, x13
	b.eq	.LBB_ae4004_2
	add	x25, x16, x8
	madd	x24, x8, x1, x11
	madd	x25, x25, x3, x10
	add	x24, x0, x24, lsl #2
	add	x25, x2, x25, lsl #2
	add	x24, x24, x5
	add	x25, x25, x5
	tbnz	w13, #3, .LBB_ae4004_10
	tbnz	w13, #2, .LBB_ae4004_11
.LBB_ae4004_9:
	cmp	x4, x18
	b.eq	.LBB_ae4004_2
	b	.LBB_ae4004_12
.LBB_ae4004_10:
	ldp	q0, q1, [x24]
	movi	v5.8h, #128
	ldr	q2, [x23, :lo12:.LCPI_ae4004_0]
	ldp	q3, q4, [x25]
	movi	v6.8h, #128
	movi	v16.8h, #128
	ushr	v0.4s, v0.4s, #24
	ushr	v1.4s, v1.4s, #24
	ushr	v7.8h, v3.8h, #8
	bic	v3.8h, #255, lsl #8
	tbl	v0.16b, { v0.16b }, v2.16b
	tbl	v1.16b, { v1.16b }, v2.16b
	ushr	v2.8h, v4.8h, #8
	bic	v4.8h, #255, lsl #8
	mla	v5.8h, v7.8h, v0.8h
	movi	v7.16b, #1
	mla	v6.8h, v2.8h, v1.8h
	movi	v2.8h, #128
	mla	v16.8h, v3.8h, v0.8h
	umull2	v0.4s, v5.8h, v7.8h
	umull	v3.4s, v5.4h, v7.4h
	mla	v2.8h, v4.8h, v1.8h
	umull2	v1.4s, v6.8h, v7.8h
	umull	v4.4s, v6.4h, v7.4h
	umull2	v5.4s, v16.8h, v7.8h
	umull	v6.4s, v16.4h, v7.4h
	uzp2	v0.8h, v3.8h, v0.8h
	umull2	v3.4s, v2.8h, v7.8h
	umull	v2.4s, v2.4h, v7.4h
	uzp2	v1.8h, v4.8h, v1.8h
	ldr	q4, [x22, :lo12:.LCPI_ae4004_1]
	uzp2	v5.8h, v6.8h, v5.8h
	tbl	v0.16b, { v0.16b }, v4.16b
	uzp2	v2.8h, v2.8h, v3.8h
	tbl	v1.16b, { v1.16b }, v4.16b
	orr	v0.16b, v0.16b, v5.16b
	orr	v1.16b, v1.16b, v2.16b
	stp	q0, q1, [x24]
	tbz	w13, #2, .LBB_ae4004_9
.LBB_ae4004_11:
	ldr	q0, [x24, x6]
	adrp	x23, .LCPI_ae4004_2
	movi	v2.8h, #128
	ldr	q1, [x23, :lo12:.LCPI_ae4004_2]
	movi	v5.8h, #128
	ushr	v0.4s, v0.4s, #24
	tbl	v0.16b, { v0.16b }, v1.16b
	ldr	q1, [x25, x6]
	ushr	v3.8h, v1.8h, #8
	bic	v1.8h, #255, lsl #8
	ushr	v4.8h, v0.8h, #8
	bic	v0.8h, #255, lsl #8
	mla	v2.8h, v4.8h, v3.8h
	movi	v3.16b, #1
	mla	v5.8h, v0.8h, v1.8h
	umull2	v0.4s, v2.8h, v3.8h
	umull	v1.4s, v2.4h, v3.4h
	umull2	v2.4s, v5.8h, v3.8h
	umull	v3.4s, v5.4h, v3.4h
	uzp2	v0.8h, v1.8h, v0.8h
	ldr	q1, [x22, :lo12:.LCPI_ae4004_1]
	uzp2	v2.8h, v3.8h, v2.8h
	tbl	v0.16b, { v0.16b }, v1.16b
	orr	v0.16b, v0.16b, v2.16b
	str	q0, [x24, x6]
	cmp	x4, x18
	b.eq	.LBB_ae4004_2
.LBB_ae4004_12:
	mov	x22, x21
	mov	x23, x20
	and	x24, x13, #0xc
.LBB_ae4004_13:
	ldr	w25, [x23], #4
	adrp	x26, .LCPI_ae4004_3
	ldr	d1, [x26, :lo12:.LCPI_ae4004_3]
	ldrb	w26, [x22, #3]
	movi	v2.2s, #128
	dup	v0.2s, w25
	adrp	x27, .LCPI_ae4004_4
	mov	w28, #128
	add	x24, x24, #1
	cmp	x24, x18
	ushl	v0.2s, v0.2s, v1.2s
	mov	s1, v0.s[1]
	str	h0, [sp, #12]
	str	h1, [sp, #14]
	dup	v1.2s, w26
	ldr	s0, [sp, #12]
	zip1	v0.8b, v0.8b, v0.8b
	mov	v0.h[3], wzr
	uzp1	v0.8b, v0.8b, v0.8b
	ushll	v0.4s, v0.4h, #0
	mla	v2.2s, v0.2s, v1.2s
	movi	d0, #0x00ffff0000ffff
	and	v1.8b, v2.8b, v0.8b
	usra	v2.2s, v1.2s, #8
	ldr	d1, [x27, :lo12:.LCPI_ae4004_4]
	ubfx	w27, w25, #8, #8
	and	w25, w25, #0xff
	madd	w27, w27, w26, w28
	and	v0.8b, v2.8b, v0.8b
	movi	d2, #0xffff0000ff000000
	madd	w25, w25, w26, w28
	and	w26, w27, #0xff00
	ushl	v0.2s, v0.2s, v1.2s
	and	w28, w25, #0xff00
	add	w26, w27, w26, lsr #8
	add	w25, w25, w28, lsr #8
	and	w26, w26, #0xff00
	and	v0.8b, v0.8b, v2.8b
	and	w25, w25, #0xff00
	dup	v1.2s, v0.s[1]
	orr	v0.8b, v0.8b, v1.8b
	fmov	w27, s0
	orr	w26, w27, w26
	orr	w25, w26, w25, lsr #8
	str	w25, [x22], #4
	b.lo	.LBB_ae4004_13
	b	.LBB_ae4004_2
.LBB_ae4004_14:
	ldp	x20, x19, [sp, #80]
	ldp	x22, x21, [sp, #64]
	ldp	x24, x23, [sp, #48]
	ldp	x26, x25, [sp, #32]
	ldp	x28, x27, [sp, #16]
	add	sp, sp, #96
.LBB_ae4004_15:
	ret
.Lfunc_end_ae4004:
	.size	"pix_raster::view::blit_overlap::<#9ba22e131c89b739>", .Lfunc_end_ae4004-"pix_raster::view::blit_overlap::<#9ba22e131c89b739>"

	.section	.rodata.cst16,"aM",@progbits,16
	.p2align	4, 0x0
.LCPI_1b305f_0:
	.word	0
	.word	4294967288
	.word	4294967280
	.word	4294967272
.LCPI_1b305f_1:
	.byte	0
	.byte	255
	.byte	0
	.byte	255
	.byte	4
	.byte	255
	.byte	4
	.byte	255
	.byte	8
	.byte	255
	.byte	8
	.byte	255
	.byte	12
	.byte	255
	.byte	12
	.byte	255
.LCPI_1b305f_2:
	.byte	255
	.byte	0
	.byte	255
	.byte	2
	.byte	255
	.byte	4
	.byte	255
	.byte	6
	.byte	255
	.byte	8
	.byte	255
	.byte	10
	.byte	255
	.byte	12
	.byte	255
	.byte	14
.LCPI_1b305f_3:
	.byte	0
	.byte	0
	.byte	0
	.byte	0
	.byte	1
	.byte	1
	.byte	1
	.byte	1
	.byte	2
	.byte	2
	.byte	2
	.byte	2
	.byte	3
	.byte	3
	.byte	3
	.byte	3
.LCPI_1b305f_4:
	.byte	0
	.byte	0
	.byte	0
	.byte	0
	.byte	4
	.byte	4
	.byte	4
	.byte	4
	.byte	8
	.byte	8
	.byte	8
	.byte	8
	.byte	12
	.byte	12
	.byte	12
	.byte	12
	.section	.rodata.cst8,"aM",@progbits,8
	.p2align	3, 0x0
.LCPI_1b305f_5:
	.word	8
	.word	16
	.section	".text.pix_raster::view::blit_overlap::<#7b602135e49fc3a4>","ax",@progbits
	.p2align	2
	.type	"pix_raster::view::blit_overlap::<#7b602135e49fc3a4>",@function
"pix_raster::view::blit_overlap::<#7b602135e49fc3a4>":
	ldp	x8, x9, [x4, #24]
	cmp	x8, x9
	b.hs	.LBB_1b305f_21
	str	x30, [sp, #-96]!
	dup	v0.4s, w5
	adrp	x10, .LCPI_1b305f_0
	ldr	x16, [x4, #40]
	ldr	q1, [x10, :lo12:.LCPI_1b305f_0]
	ldp	x13, x15, [x4, #8]
	stp	x20, x19, [sp, #80]
	ldr	x10, [x4]
	madd	x19, x8, x1, x10
	ushl	v2.4s, v0.4s, v1.4s
	stp	x22, x21, [sp, #64]
	sub	x14, x16, x8
	madd	x22, x16, x3, x15
	sub	x13, x13, x10
	stp	x24, x23, [sp, #48]
	and	x16, x13, #0xfffffffffffffff0
	lsl	x21, x13, #2
	and	x4, x13, #0xc
	umov	w7, v2.h[4]
	uzp1	v0.8h, v2.8h, v2.8h
	lsr	x23, x16, #4
	and	x18, x13, #0x8
	add	x24, x16, x4
	and	x21, x21, #0x30
	stp	x26, x25, [sp, #32]
	ubfx	w11, w5, #8, #8
	add	x12, x2, x15
	lsr	x15, x13, #4
	lsl	x6, x16, #2
	lsl	x18, x18, #2
	and	w20, w7, #0xff
	uzp1	v0.16b, v0.16b, v0.16b
	add	x19, x0, x19, lsl #2
	fmov	s1, w20
	lsl	x20, x1, #2
	add	x24, x2, x24
	add	x25, x22, x2
	bfi	x21, x23, #6, #58
	and	x17, x13, #0xf
	and	w2, w5, #0xff
	add	x5, x25, #8
	add	x22, x24, x22
	mov	v1.h[2], v2.h[6]
	ushr	v2.8h, v0.8h, #8
	bic	v0.8h, #255, lsl #8
	stp	x28, x27, [sp, #16]
	str	x18, [sp, #8]
	b	.LBB_1b305f_3
.LBB_1b305f_2:
	add	x8, x8, #1
	add	x19, x19, x20
	add	x5, x5, x3
	cmp	x8, x9
	add	x22, x22, x3
	b.eq	.LBB_1b305f_20
.LBB_1b305f_3:
	adrp	x24, .LCPI_1b305f_1
	adrp	x23, .LCPI_1b305f_2
	cbz	x15, .LBB_1b305f_8
	mov	x25, x5
	mov	x26, x19
	mov	x27, x15
	b	.LBB_1b305f_6
.LBB_1b305f_5:
	zip1	v3.16b, v3.16b, v3.16b
	movi	v5.8h, #1
	movi	v7.8h, #128
	movi	v16.8h, #128
	movi	v19.8h, #128
	movi	v20.8h, #128
	movi	v21.8h, #128
	ushll	v4.4s, v3.4h, #0
	ushll2	v3.4s, v3.8h, #0
	mul	v4.4s, v4.4s, v5.4s
	mul	v6.4s, v3.4s, v5.4s
	movi	v3.16b, #1
	ushr	v17.8h, v4.8h, #8
	ushr	v18.8h, v6.8h, #8
	bic	v4.8h, #255, lsl #8
	bic	v6.8h, #255, lsl #8
	mla	v7.8h, v17.8h, v2.8h
	mla	v16.8h, v18.8h, v2.8h
	mla	v20.8h, v4.8h, v0.8h
	mla	v19.8h, v6.8h, v0.8h
	umull2	v4.4s, v7.8h, v3.8h
	umull	v7.4s, v7.4h, v3.4h
	umull2	v6.4s, v16.8h, v3.8h
	umull	v16.4s, v16.4h, v3.4h
	umull2	v17.4s, v20.8h, v3.8h
	umull	v18.4s, v20.4h, v3.4h
	movi	v20.8h, #128
	uzp2	v4.8h, v7.8h, v4.8h
	umull2	v7.4s, v19.8h, v3.8h
	umull	v19.4s, v19.4h, v3.4h
	uzp2	v6.8h, v16.8h, v6.8h
	uzp2	v16.8h, v18.8h, v17.8h
	rev16	v17.16b, v4.16b
	uzp2	v7.8h, v19.8h, v7.8h
	rev16	v6.16b, v6.16b
	ldp	q4, q18, [x26]
	ushr	v19.4s, v4.4s, #24
	ushr	v18.4s, v18.4s, #24
	ldr	q4, [x24, :lo12:.LCPI_1b305f_1]
	orr	v17.16b, v17.16b, v16.16b
	orr	v6.16b, v6.16b, v7.16b
	tbl	v19.16b, { v19.16b }, v4.16b
	tbl	v18.16b, { v18.16b }, v4.16b
	ushr	v17.8h, v17.8h, #8
	ushr	v6.8h, v6.8h, #8
	mla	v20.8h, v17.8h, v19.8h
	movi	v17.8h, #128
	mla	v21.8h, v6.8h, v18.8h
	movi	v6.8h, #128
	mla	v17.8h, v19.8h, v16.8h
	umull2	v16.4s, v20.8h, v3.8h
	umull	v19.4s, v20.4h, v3.4h
	mla	v6.8h, v18.8h, v7.8h
	umull2	v7.4s, v21.8h, v3.8h
	umull	v18.4s, v21.4h, v3.4h
	umull2	v20.4s, v17.8h, v3.8h
	umull	v17.4s, v17.4h, v3.4h
	uzp2	v16.8h, v19.8h, v16.8h
	umull2	v19.4s, v6.8h, v3.8h
	umull	v21.4s, v6.4h, v3.4h
	uzp2	v7.8h, v18.8h, v7.8h
	ldr	q6, [x23, :lo12:.LCPI_1b305f_2]
	uzp2	v17.8h, v17.8h, v20.8h
	tbl	v16.16b, { v16.16b }, v6.16b
	movi	v20.8h, #128
	uzp2	v18.8h, v21.8h, v19.8h
	tbl	v7.16b, { v7.16b }, v6.16b
	movi	v21.8h, #128
	orr	v16.16b, v16.16b, v17.16b
	movi	v17.8h, #128
	orr	v7.16b, v7.16b, v18.16b
	stp	q16, q7, [x26]
	ldr	d7, [x25], #16
	zip1	v7.16b, v7.16b, v7.16b
	ushll	v16.4s, v7.4h, #0
	ushll2	v7.4s, v7.8h, #0
	mul	v16.4s, v16.4s, v5.4s
	mul	v5.4s, v7.4s, v5.4s
	movi	v7.8h, #128
	ushr	v18.8h, v16.8h, #8
	ushr	v19.8h, v5.8h, #8
	bic	v16.8h, #255, lsl #8
	bic	v5.8h, #255, lsl #8
	mla	v7.8h, v18.8h, v2.8h
	mla	v17.8h, v19.8h, v2.8h
	mla	v21.8h, v16.8h, v0.8h
	mla	v20.8h, v5.8h, v0.8h
	umull2	v16.4s, v7.8h, v3.8h
	umull	v7.4s, v7.4h, v3.4h
	umull2	v5.4s, v17.8h, v3.8h
	umull	v17.4s, v17.4h, v3.4h
	umull2	v18.4s, v21.8h, v3.8h
	umull	v19.4s, v21.4h, v3.4h
	movi	v21.8h, #128
	uzp2	v7.8h, v7.8h, v16.8h
	umull2	v16.4s, v20.8h, v3.8h
	umull	v20.4s, v20.4h, v3.4h
	uzp2	v5.8h, v17.8h, v5.8h
	uzp2	v17.8h, v19.8h, v18.8h
	ldp	q18, q19, [x26, #32]
	rev16	v7.16b, v7.16b
	uzp2	v16.8h, v20.8h, v16.8h
	movi	v20.8h, #128
	rev16	v5.16b, v5.16b
	ushr	v18.4s, v18.4s, #24
	ushr	v19.4s, v19.4s, #24
	orr	v7.16b, v7.16b, v17.16b
	tbl	v18.16b, { v18.16b }, v4.16b
	tbl	v4.16b, { v19.16b }, v4.16b
	orr	v5.16b, v5.16b, v16.16b
	movi	v19.8h, #128
	ushr	v7.8h, v7.8h, #8
	ushr	v5.8h, v5.8h, #8
	mla	v19.8h, v18.8h, v17.8h
	mla	v20.8h, v7.8h, v18.8h
	movi	v7.8h, #128
	mla	v21.8h, v5.8h, v4.8h
	umull2	v18.4s, v19.8h, v3.8h
	umull	v19.4s, v19.4h, v3.4h
	umull2	v5.4s, v20.8h, v3.8h
	umull	v17.4s, v20.4h, v3.4h
	mla	v7.8h, v4.8h, v16.8h
	umull2	v4.4s, v21.8h, v3.8h
	umull	v16.4s, v21.4h, v3.4h
	uzp2	v5.8h, v17.8h, v5.8h
	umull2	v17.4s, v7.8h, v3.8h
	umull	v3.4s, v7.4h, v3.4h
	uzp2	v4.8h, v16.8h, v4.8h
	uzp2	v7.8h, v19.8h, v18.8h
	tbl	v5.16b, { v5.16b }, v6.16b
	uzp2	v3.8h, v3.8h, v17.8h
	tbl	v4.16b, { v4.16b }, v6.16b
	orr	v5.16b, v5.16b, v7.16b
	orr	v3.16b, v4.16b, v3.16b
	stp	q5, q3, [x26, #32]
	subs	x27, x27, #1
	add	x26, x26, #64
	b.eq	.LBB_1b305f_8
.LBB_1b305f_6:
	ldp	d3, d4, [x25, #-8]
	orr	v4.8b, v4.8b, v3.8b
	fmov	x28, d4
	orr	x28, x28, x28, lsr #32
	lsr	x30, x28, #16
	orr	w28, w28, w30
	orr	w28, w28, w28, lsr #8
	tst	w28, #0xff
	b.ne	.LBB_1b305f_5
	movi	v3.2d, #0000000000000000
	stp	q3, q3, [x26]
	stp	q3, q3, [x26, #32]
	subs	x27, x27, #1
	add	x25, x25, #16
	add	x26, x26, #64
	b.ne	.LBB_1b305f_6
.LBB_1b305f_8:
	cmp	x16, x13
	b.eq	.LBB_1b305f_2
	madd	x25, x8, x1, x10
	add	x26, x14, x8
	madd	x26, x26, x3, x12
	add	x25, x0, x25, lsl #2
	add	x25, x25, x6
	add	x26, x26, x16
	tbnz	w13, #3, .LBB_1b305f_12
	tbnz	w13, #2, .LBB_1b305f_15
.LBB_1b305f_11:
	and	x18, x13, #0xc
	cmp	x18, x17
	b.eq	.LBB_1b305f_2
	b	.LBB_1b305f_18
.LBB_1b305f_12:
	ldr	d3, [x26]
	fmov	x27, d3
	orr	x27, x27, x27, lsr #32
	lsr	x28, x27, #16
	orr	w27, w27, w28
	orr	w27, w27, w27, lsr #8
	tst	w27, #0xff
	b.eq	.LBB_1b305f_14
	zip1	v3.16b, v3.16b, v3.16b
	movi	v4.8h, #1
	movi	v6.8h, #128
	movi	v7.8h, #128
	movi	v18.8h, #128
	movi	v19.8h, #128
	ushll	v5.4s, v3.4h, #0
	ushll2	v3.4s, v3.8h, #0
	mul	v5.4s, v5.4s, v4.4s
	mul	v4.4s, v3.4s, v4.4s
	movi	v3.16b, #1
	ushr	v16.8h, v5.8h, #8
	ushr	v17.8h, v4.8h, #8
	bic	v5.8h, #255, lsl #8
	bic	v4.8h, #255, lsl #8
	mla	v6.8h, v16.8h, v2.8h
	mla	v7.8h, v17.8h, v2.8h
	mla	v19.8h, v5.8h, v0.8h
	mla	v18.8h, v4.8h, v0.8h
	umull2	v5.4s, v6.8h, v3.8h
	umull	v6.4s, v6.4h, v3.4h
	umull2	v4.4s, v7.8h, v3.8h
	umull	v7.4s, v7.4h, v3.4h
	umull2	v16.4s, v19.8h, v3.8h
	umull	v17.4s, v19.4h, v3.4h
	movi	v19.8h, #128
	uzp2	v5.8h, v6.8h, v5.8h
	umull2	v6.4s, v18.8h, v3.8h
	umull	v18.4s, v18.4h, v3.4h
	uzp2	v4.8h, v7.8h, v4.8h
	uzp2	v7.8h, v17.8h, v16.8h
	ldp	q16, q17, [x25]
	rev16	v5.16b, v5.16b
	uzp2	v6.8h, v18.8h, v6.8h
	ldr	q18, [x24, :lo12:.LCPI_1b305f_1]
	rev16	v4.16b, v4.16b
	ushr	v16.4s, v16.4s, #24
	ushr	v17.4s, v17.4s, #24
	orr	v5.16b, v5.16b, v7.16b
	tbl	v16.16b, { v16.16b }, v18.16b
	tbl	v17.16b, { v17.16b }, v18.16b
	orr	v4.16b, v4.16b, v6.16b
	movi	v18.8h, #128
	ushr	v5.8h, v5.8h, #8
	ushr	v4.8h, v4.8h, #8
	mla	v19.8h, v5.8h, v16.8h
	movi	v5.8h, #128
	mla	v18.8h, v4.8h, v17.8h
	movi	v4.8h, #128
	mla	v5.8h, v16.8h, v7.8h
	umull2	v7.4s, v19.8h, v3.8h
	umull	v16.4s, v19.4h, v3.4h
	mla	v4.8h, v17.8h, v6.8h
	umull2	v6.4s, v18.8h, v3.8h
	umull	v17.4s, v18.4h, v3.4h
	umull2	v18.4s, v5.8h, v3.8h
	umull	v5.4s, v5.4h, v3.4h
	uzp2	v7.8h, v16.8h, v7.8h
	umull2	v16.4s, v4.8h, v3.8h
	umull	v3.4s, v4.4h, v3.4h
	uzp2	v4.8h, v17.8h, v6.8h
	ldr	q6, [x23, :lo12:.LCPI_1b305f_2]
	uzp2	v5.8h, v5.8h, v18.8h
	tbl	v7.16b, { v7.16b }, v6.16b
	uzp2	v3.8h, v3.8h, v16.8h
	tbl	v4.16b, { v4.16b }, v6.16b
	orr	v5.16b, v7.16b, v5.16b
	orr	v3.16b, v4.16b, v3.16b
	stp	q5, q3, [x25]
	tbz	w13, #2, .LBB_1b305f_11
	b	.LBB_1b305f_15
.LBB_1b305f_14:
	movi	v3.2d, #0000000000000000
	stp	q3, q3, [x25]
	tbz	w13, #2, .LBB_1b305f_11
.LBB_1b305f_15:
	and	x18, x13, #0x8
	ldr	s3, [x26, x18]
	ldr	x18, [sp, #8]
	dup	v4.16b, v3.b[1]
	dup	v5.16b, v3.b[2]
	dup	v6.16b, v3.b[3]
	add	x24, x25, x18
	orr	v4.16b, v4.16b, v5.16b
	orr	v5.16b, v6.16b, v3.16b
	orr	v4.16b, v4.16b, v5.16b
	umov	w26, v4.b[0]
	cbz	w26, .LBB_1b305f_17
	adrp	x25, .LCPI_1b305f_3
	movi	v6.8h, #128
	movi	v7.16b, #1
	ldr	q4, [x25, :lo12:.LCPI_1b305f_3]
	adrp	x25, .LCPI_1b305f_4
	movi	v17.8h, #128
	tbl	v3.16b, { v3.16b }, v4.16b
	movi	v4.8h, #128
	ushr	v5.8h, v3.8h, #8
	bic	v3.8h, #255, lsl #8
	mla	v4.8h, v5.8h, v2.8h
	mla	v6.8h, v3.8h, v0.8h
	umull2	v3.4s, v4.8h, v7.8h
	umull	v4.4s, v4.4h, v7.4h
	umull2	v5.4s, v6.8h, v7.8h
	umull	v6.4s, v6.4h, v7.4h
	uzp2	v3.8h, v4.8h, v3.8h
	ldr	q4, [x24]
	uzp2	v5.8h, v6.8h, v5.8h
	ldr	q6, [x25, :lo12:.LCPI_1b305f_4]
	ushr	v4.4s, v4.4s, #24
	rev16	v3.16b, v3.16b
	tbl	v4.16b, { v4.16b }, v6.16b
	movi	v6.8h, #128
	orr	v3.16b, v3.16b, v5.16b
	ushr	v16.8h, v4.8h, #8
	bic	v4.8h, #255, lsl #8
	ushr	v3.8h, v3.8h, #8
	mla	v17.8h, v4.8h, v5.8h
	mla	v6.8h, v16.8h, v3.8h
	umull2	v5.4s, v17.8h, v7.8h
	umull2	v3.4s, v6.8h, v7.8h
	umull	v4.4s, v6.4h, v7.4h
	umull	v6.4s, v17.4h, v7.4h
	uzp2	v3.8h, v4.8h, v3.8h
	ldr	q4, [x23, :lo12:.LCPI_1b305f_2]
	uzp2	v5.8h, v6.8h, v5.8h
	tbl	v3.16b, { v3.16b }, v4.16b
	orr	v3.16b, v3.16b, v5.16b
	str	q3, [x24]
	and	x18, x13, #0xc
	cmp	x18, x17
	b.eq	.LBB_1b305f_2
	b	.LBB_1b305f_18
.LBB_1b305f_17:
	stp	xzr, xzr, [x24]
	and	x18, x13, #0xc
	cmp	x18, x17
	b.eq	.LBB_1b305f_2
.LBB_1b305f_18:
	mov	x23, x21
	mov	x24, x22
	and	x25, x13, #0xc
.LBB_1b305f_19:
	ldrb	w26, [x24], #1
	movi	v4.2s, #128
	add	x27, x19, x23
	adrp	x30, .LCPI_1b305f_5
	add	x25, x25, #1
	dup	v3.2s, w26
	ldrb	w28, [x27, #3]
	cmp	x25, x17
	add	x23, x23, #4
	mla	v4.2s, v1.2s, v3.2s
	movi	d3, #0x00ffff0000ffff
	and	v5.8b, v4.8b, v3.8b
	usra	v4.2s, v5.2s, #8
	dup	v5.2s, w28
	and	v3.8b, v4.8b, v3.8b
	movi	v4.2s, #128
	ushr	v3.2s, v3.2s, #8
	mla	v4.2s, v3.2s, v5.2s
	movi	d5, #0xff000000ffff0000
	fmov	d3, d4
	bic	v3.2s, #1, lsl #16
	usra	v4.2s, v3.2s, #8
	ldr	d3, [x30, :lo12:.LCPI_1b305f_5]
	mov	w30, #128
	madd	w18, w11, w26, w30
	madd	w26, w2, w26, w30
	bic	v4.2s, #3, lsl #16
	and	w4, w18, #0xff00
	and	w7, w26, #0xff00
	add	w18, w18, w4, lsr #8
	ushl	v3.2s, v4.2s, v3.2s
	add	w4, w26, w7, lsr #8
	ubfx	w18, w18, #8, #8
	ubfx	w4, w4, #8, #8
	and	v3.8b, v3.8b, v5.8b
	madd	w18, w18, w28, w30
	madd	w4, w4, w28, w30
	dup	v4.2s, v3.s[1]
	and	w7, w18, #0xff00
	and	w26, w4, #0xff00
	add	w18, w18, w7, lsr #8
	add	w4, w4, w26, lsr #8
	and	w18, w18, #0xff00
	orr	v3.8b, v3.8b, v4.8b
	and	w4, w4, #0xff00
	fmov	w7, s3
	orr	w18, w7, w18
	orr	w18, w18, w4, lsr #8
	str	w18, [x27]
	b.lo	.LBB_1b305f_19
	b	.LBB_1b305f_2
.LBB_1b305f_20:
	ldp	x20, x19, [sp, #80]
	ldp	x22, x21, [sp, #64]
	ldp	x24, x23, [sp, #48]
	ldp	x26, x25, [sp, #32]
	ldp	x28, x27, [sp, #16]
	ldr	x30, [sp], #96
.LBB_1b305f_21:
	ret
.Lfunc_end_1b305f:
	.size	"pix_raster::view::blit_overlap::<#7b602135e49fc3a4>", .Lfunc_end_1b305f-"pix_raster::view::blit_overlap::<#7b602135e49fc3a4>"

	.section	.rodata.cst16,"aM",@progbits,16
	.p2align	4, 0x0
.LCPI_b5b89a_0:
	.byte	0
	.byte	255
	.byte	0
	.byte	255
	.byte	4
	.byte	255
	.byte	4
	.byte	255
	.byte	8
	.byte	255
	.byte	8
	.byte	255
	.byte	12
	.byte	255
	.byte	12
	.byte	255
.LCPI_b5b89a_1:
	.byte	255
	.byte	0
	.byte	255
	.byte	2
	.byte	255
	.byte	4
	.byte	255
	.byte	6
	.byte	255
	.byte	8
	.byte	255
	.byte	10
	.byte	255
	.byte	12
	.byte	255
	.byte	14
.LCPI_b5b89a_2:
	.byte	0
	.byte	0
	.byte	0
	.byte	0
	.byte	4
	.byte	4
	.byte	4
	.byte	4
	.byte	8
	.byte	8
	.byte	8
	.byte	8
	.byte	12
	.byte	12
	.byte	12
	.byte	12
	.section	.rodata.cst8,"aM",@progbits,8
	.p2align	3, 0x0
.LCPI_b5b89a_3:
	.word	4294967280
	.word	4294967272
.LCPI_b5b89a_4:
	.word	8
	.word	16
	.section	".text.pix_raster::view::blit_overlap::<#2e32b78ff97838bb>","ax",@progbits
	.p2align	2
	.type	"pix_raster::view::blit_overlap::<#2e32b78ff97838bb>",@function
"pix_raster::view::blit_overlap::<#2e32b78ff97838bb>":
	ldp	x8, x9, [x4, #24]
	cmp	x8, x9
	b.hs	.LBB_b5b89a_15
	sub	sp, sp, #112
	ldr	x16, [x4, #40]
	ldp	x15, x10, [x4, #8]
	ldr	x11, [x4]
	madd	x7, x8, x1, x11
	dup	v0.16b, w5
	stp	x20, x19, [sp, #96]
	and	w12, w5, #0xff
	lsl	x13, x3, #2
	madd	x6, x16, x3, x10
	sub	x15, x15, x11
	stp	x22, x21, [sp, #80]
	and	x18, x15, #0xfffffffffffffff0
	lsl	x19, x15, #2
	stp	x24, x23, [sp, #64]
	lsr	x20, x18, #4
	fmov	s1, w12
	ushr	v2.8h, v0.8h, #8
	and	x22, x19, #0x30
	bic	v0.8h, #255, lsl #8
	add	x23, x0, x7, lsl #2
	bfi	x22, x20, #6, #58
	lsl	x14, x1, #2
	lsr	x17, x15, #4
	add	x21, x2, x6, lsl #2
	lsl	x6, x18, #2
	sub	x16, x16, x8
	and	x4, x15, #0xf
	and	x7, x19, #0x20
	add	x20, x23, #32
	add	x19, x21, #32
	add	x21, x21, x22
	add	x22, x23, x22
	stp	x28, x27, [sp, #32]
	stp	x26, x25, [sp, #48]
	stp	x16, x30, [sp, #8]
	b	.LBB_b5b89a_3
.LBB_b5b89a_2:
	add	x8, x8, #1
	add	x19, x19, x13
	add	x20, x20, x14
	cmp	x8, x9
	add	x21, x21, x13
	add	x22, x22, x14
	b.eq	.LBB_b5b89a_14
.LBB_b5b89a_3:
	adrp	x24, .LCPI_b5b89a_0
	adrp	x23, .LCPI_b5b89a_1
	cbz	x17, .LBB_b5b89a_6
	mov	x25, x20
	mov	x26, x19
	mov	x27, x17
.LBB_b5b89a_5:
	ldp	q4, q5, [x26, #-32]
	movi	v6.8h, #128
	movi	v7.8h, #128
	movi	v18.8h, #128
	movi	v19.8h, #128
	movi	v3.16b, #1
	movi	v20.8h, #128
	subs	x27, x27, #1
	ushr	v16.8h, v4.8h, #8
	ushr	v17.8h, v5.8h, #8
	bic	v4.8h, #255, lsl #8
	bic	v5.8h, #255, lsl #8
	mla	v6.8h, v16.8h, v2.8h
	mla	v7.8h, v17.8h, v2.8h
	mla	v19.8h, v4.8h, v0.8h
	mla	v18.8h, v5.8h, v0.8h
	umull2	v4.4s, v6.8h, v3.8h
	umull	v6.4s, v6.4h, v3.4h
	umull2	v5.4s, v7.8h, v3.8h
	umull	v7.4s, v7.4h, v3.4h
	umull2	v16.4s, v19.8h, v3.8h
	umull	v17.4s, v19.4h, v3.4h
	movi	v19.8h, #128
	uzp2	v4.8h, v6.8h, v4.8h
	umull2	v6.4s, v18.8h, v3.8h
	umull	v18.4s, v18.4h, v3.4h
	uzp2	v5.8h, v7.8h, v5.8h
	uzp2	v7.8h, v17.8h, v16.8h
	rev16	v16.16b, v4.16b
	uzp2	v6.8h, v18.8h, v6.8h
	rev16	v5.16b, v5.16b
	ldp	q4, q17, [x25, #-32]
	ushr	v18.4s, v4.4s, #24
	ushr	v17.4s, v17.4s, #24
	ldr	q4, [x24, :lo12:.LCPI_b5b89a_0]
	orr	v16.16b, v16.16b, v7.16b
	orr	v5.16b, v5.16b, v6.16b
	tbl	v18.16b, { v18.16b }, v4.16b
	tbl	v17.16b, { v17.16b }, v4.16b
	ushr	v16.8h, v16.8h, #8
	ushr	v5.8h, v5.8h, #8
	mla	v19.8h, v16.8h, v18.8h
	movi	v16.8h, #128
	mla	v20.8h, v5.8h, v17.8h
	movi	v5.8h, #128
	mla	v16.8h, v18.8h, v7.8h
	umull2	v7.4s, v19.8h, v3.8h
	umull	v18.4s, v19.4h, v3.4h
	mla	v5.8h, v17.8h, v6.8h
	umull2	v6.4s, v20.8h, v3.8h
	umull	v17.4s, v20.4h, v3.4h
	umull2	v19.4s, v16.8h, v3.8h
	umull	v16.4s, v16.4h, v3.4h
	uzp2	v7.8h, v18.8h, v7.8h
	umull2	v18.4s, v5.8h, v3.8h
	umull	v20.4s, v5.4h, v3.4h
	uzp2	v6.8h, v17.8h, v6.8h
	ldr	q5, [x23, :lo12:.LCPI_b5b89a_1]
	uzp2	v16.8h, v16.8h, v19.8h
	tbl	v7.16b, { v7.16b }, v5.16b
	uzp2	v17.8h, v20.8h, v18.8h
	tbl	v6.16b, { v6.16b }, v5.16b
	movi	v20.8h, #128
	orr	v7.16b, v7.16b, v16.16b
	orr	v6.16b, v6.16b, v17.16b
	movi	v17.8h, #128
	stp	q7, q6, [x25, #-32]
	movi	v7.8h, #128
	ldp	q6, q16, [x26], #64
	ushr	v18.8h, v6.8h, #8
	ushr	v19.8h, v16.8h, #8
	bic	v6.8h, #255, lsl #8
	bic	v16.8h, #255, lsl #8
	mla	v7.8h, v18.8h, v2.8h
	movi	v18.8h, #128
	mla	v17.8h, v19.8h, v2.8h
	mla	v20.8h, v16.8h, v0.8h
	mla	v18.8h, v6.8h, v0.8h
	umull2	v6.4s, v7.8h, v3.8h
	umull	v7.4s, v7.4h, v3.4h
	umull2	v16.4s, v17.8h, v3.8h
	umull	v17.4s, v17.4h, v3.4h
	umull2	v19.4s, v18.8h, v3.8h
	umull	v18.4s, v18.4h, v3.4h
	uzp2	v6.8h, v7.8h, v6.8h
	umull2	v7.4s, v20.8h, v3.8h
	umull	v20.4s, v20.4h, v3.4h
	uzp2	v16.8h, v17.8h, v16.8h
	uzp2	v17.8h, v18.8h, v19.8h
	rev16	v6.16b, v6.16b
	uzp2	v7.8h, v20.8h, v7.8h
	rev16	v16.16b, v16.16b
	movi	v20.8h, #128
	ldp	q18, q19, [x25]
	orr	v6.16b, v6.16b, v17.16b
	ushr	v18.4s, v18.4s, #24
	ushr	v19.4s, v19.4s, #24
	orr	v16.16b, v16.16b, v7.16b
	ushr	v6.8h, v6.8h, #8
	tbl	v18.16b, { v18.16b }, v4.16b
	tbl	v4.16b, { v19.16b }, v4.16b
	movi	v19.8h, #128
	ushr	v16.8h, v16.8h, #8
	mla	v20.8h, v6.8h, v18.8h
	movi	v6.8h, #128
	mla	v19.8h, v16.8h, v4.8h
	movi	v16.8h, #128
	mla	v6.8h, v18.8h, v17.8h
	umull2	v17.4s, v20.8h, v3.8h
	umull	v18.4s, v20.4h, v3.4h
	mla	v16.8h, v4.8h, v7.8h
	umull2	v4.4s, v19.8h, v3.8h
	umull	v7.4s, v19.4h, v3.4h
	umull2	v19.4s, v6.8h, v3.8h
	umull	v6.4s, v6.4h, v3.4h
	uzp2	v17.8h, v18.8h, v17.8h
	umull2	v18.4s, v16.8h, v3.8h
	umull	v3.4s, v16.4h, v3.4h
	uzp2	v4.8h, v7.8h, v4.8h
	uzp2	v6.8h, v6.8h, v19.8h
	tbl	v7.16b, { v17.16b }, v5.16b
	uzp2	v3.8h, v3.8h, v18.8h
	tbl	v4.16b, { v4.16b }, v5.16b
	orr	v5.16b, v7.16b, v6.16b
	orr	v3.16b, v4.16b, v3.16b
	stp	q5, q3, [x25], #64
	b.ne	.LBB_b5b89a_5
.LBB_b5b89a_6:
	cmp	x18, x15
	b.eq	.LBB_b5b89a_2
	ldr	x16, [sp, #8]
	madd	x25, x8, x1, x11
	add	x26, x16, x8
	madd	x26, x26, x3, x10
	add	x25, x0, x25, lsl #2
	add	x25, x25, x6
	add	x26, x2, x26, lsl #2
	add	x26, x26, x6
	tbnz	w15, #3, .LBB_b5b89a_10
	tbnz	w15, #2, .LBB_b5b89a_11
.LBB_b5b89a_9:
	and	x16, x15, #0xc
	cmp	x16, x4
	b.eq	.LBB_b5b89a_2
	b	.LBB_b5b89a_12
.LBB_b5b89a_10:
	ldp	q4, q5, [x26]
	movi	v6.8h, #128
	movi	v7.8h, #128
	movi	v18.8h, #128
	movi	v19.8h, #128
	movi	v3.16b, #1
	ushr	v16.8h, v4.8h, #8
	ushr	v17.8h, v5.8h, #8
	bic	v4.8h, #255, lsl #8
	bic	v5.8h, #255, lsl #8
	mla	v6.8h, v16.8h, v2.8h
	mla	v7.8h, v17.8h, v2.8h
	mla	v19.8h, v4.8h, v0.8h
	mla	v18.8h, v5.8h, v0.8h
	umull2	v4.4s, v6.8h, v3.8h
	umull	v6.4s, v6.4h, v3.4h
	umull2	v5.4s, v7.8h, v3.8h
	umull	v7.4s, v7.4h, v3.4h
	umull2	v16.4s, v19.8h, v3.8h
	umull	v17.4s, v19.4h, v3.4h
	movi	v19.8h, #128
	uzp2	v4.8h, v6.8h, v4.8h
	umull2	v6.4s, v18.8h, v3.8h
	umull	v18.4s, v18.4h, v3.4h
	uzp2	v5.8h, v7.8h, v5.8h
	uzp2	v7.8h, v17.8h, v16.8h
	ldp	q16, q17, [x25]
	rev16	v4.16b, v4.16b
	uzp2	v6.8h, v18.8h, v6.8h
	ldr	q18, [x24, :lo12:.LCPI_b5b89a_0]
	rev16	v5.16b, v5.16b
	ushr	v16.4s, v16.4s, #24
	ushr	v17.4s, v17.4s, #24
	orr	v4.16b, v4.16b, v7.16b
	tbl	v16.16b, { v16.16b }, v18.16b
	tbl	v17.16b, { v17.16b }, v18.16b
	orr	v5.16b, v5.16b, v6.16b
	movi	v18.8h, #128
	ushr	v4.8h, v4.8h, #8
	ushr	v5.8h, v5.8h, #8
	mla	v19.8h, v4.8h, v16.8h
	movi	v4.8h, #128
	mla	v18.8h, v5.8h, v17.8h
	movi	v5.8h, #128
	mla	v4.8h, v16.8h, v7.8h
	umull2	v7.4s, v19.8h, v3.8h
	umull	v16.4s, v19.4h, v3.4h
	mla	v5.8h, v17.8h, v6.8h
	umull2	v6.4s, v18.8h, v3.8h
	umull	v17.4s, v18.4h, v3.4h
	umull2	v18.4s, v4.8h, v3.8h
	umull	v4.4s, v4.4h, v3.4h
	uzp2	v7.8h, v16.8h, v7.8h
	umull2	v16.4s, v5.8h, v3.8h
	umull	v3.4s, v5.4h, v3.4h
	uzp2	v5.8h, v17.8h, v6.8h
	ldr	q6, [x23, :lo12:.LCPI_b5b89a_1]
	uzp2	v4.8h, v4.8h, v18.8h
	tbl	v7.16b, { v7.16b }, v6.16b
	uzp2	v3.8h, v3.8h, v16.8h
	tbl	v5.16b, { v5.16b }, v6.16b
	orr	v4.16b, v7.16b, v4.16b
	orr	v3.16b, v5.16b, v3.16b
	stp	q4, q3, [x25]
	tbz	w15, #2, .LBB_b5b89a_9
.LBB_b5b89a_11:
	ldr	q3, [x26, x7]
	movi	v4.8h, #128
	movi	v6.8h, #128
	movi	v7.16b, #1
	adrp	x24, .LCPI_b5b89a_2
	movi	v17.8h, #128
	ushr	v5.8h, v3.8h, #8
	bic	v3.8h, #255, lsl #8
	mla	v4.8h, v5.8h, v2.8h
	mla	v6.8h, v3.8h, v0.8h
	umull2	v3.4s, v4.8h, v7.8h
	umull	v4.4s, v4.4h, v7.4h
	umull2	v5.4s, v6.8h, v7.8h
	umull	v6.4s, v6.4h, v7.4h
	uzp2	v3.8h, v4.8h, v3.8h
	ldr	q4, [x25, x7]
	uzp2	v5.8h, v6.8h, v5.8h
	ldr	q6, [x24, :lo12:.LCPI_b5b89a_2]
	ushr	v4.4s, v4.4s, #24
	rev16	v3.16b, v3.16b
	tbl	v4.16b, { v4.16b }, v6.16b
	movi	v6.8h, #128
	orr	v3.16b, v3.16b, v5.16b
	ushr	v16.8h, v4.8h, #8
	bic	v4.8h, #255, lsl #8
	ushr	v3.8h, v3.8h, #8
	mla	v17.8h, v4.8h, v5.8h
	mla	v6.8h, v16.8h, v3.8h
	umull2	v5.4s, v17.8h, v7.8h
	umull2	v3.4s, v6.8h, v7.8h
	umull	v4.4s, v6.4h, v7.4h
	umull	v6.4s, v17.4h, v7.4h
	uzp2	v3.8h, v4.8h, v3.8h
	ldr	q4, [x23, :lo12:.LCPI_b5b89a_1]
	uzp2	v5.8h, v6.8h, v5.8h
	tbl	v3.16b, { v3.16b }, v4.16b
	orr	v3.16b, v3.16b, v5.16b
	str	q3, [x25, x7]
	and	x16, x15, #0xc
	cmp	x16, x4
	b.eq	.LBB_b5b89a_2
.LBB_b5b89a_12:
	mov	x23, x22
	mov	x24, x21
	and	x25, x15, #0xc
.LBB_b5b89a_13:
	ldr	w26, [x24], #4
	adrp	x27, .LCPI_b5b89a_3
	ldr	d4, [x27, :lo12:.LCPI_b5b89a_3]
	ldrb	w27, [x23, #3]
	adrp	x30, .LCPI_b5b89a_4
	dup	v3.2s, w26
	ubfx	w28, w26, #8, #8
	and	w26, w26, #0xff
	add	x25, x25, #1
	cmp	x25, x4
	ushl	v3.2s, v3.2s, v4.2s
	mov	s4, v3.s[1]
	str	h3, [sp, #28]
	str	h4, [sp, #30]
	movi	v4.2s, #128
	ldr	s3, [sp, #28]
	zip1	v3.8b, v3.8b, v3.8b
	mov	v3.h[1], wzr
	uzp1	v3.8b, v3.8b, v0.8b
	ushll	v3.4s, v3.4h, #0
	mla	v4.2s, v3.2s, v1.s[0]
	movi	d3, #0x00ffff0000ffff
	and	v5.8b, v4.8b, v3.8b
	usra	v4.2s, v5.2s, #8
	dup	v5.2s, w27
	and	v3.8b, v4.8b, v3.8b
	movi	v4.2s, #128
	ushr	v3.2s, v3.2s, #8
	mla	v4.2s, v3.2s, v5.2s
	movi	d5, #0xff000000ffff0000
	fmov	d3, d4
	bic	v3.2s, #1, lsl #16
	usra	v4.2s, v3.2s, #8
	ldr	d3, [x30, :lo12:.LCPI_b5b89a_4]
	mov	w30, #128
	madd	w28, w28, w12, w30
	madd	w26, w26, w12, w30
	bic	v4.2s, #3, lsl #16
	and	w5, w28, #0xff00
	and	w16, w26, #0xff00
	add	w5, w28, w5, lsr #8
	ushl	v3.2s, v4.2s, v3.2s
	add	w16, w26, w16, lsr #8
	ubfx	w5, w5, #8, #8
	ubfx	w16, w16, #8, #8
	and	v3.8b, v3.8b, v5.8b
	madd	w5, w5, w27, w30
	madd	w16, w16, w27, w30
	dup	v4.2s, v3.s[1]
	and	w26, w5, #0xff00
	and	w27, w16, #0xff00
	add	w5, w5, w26, lsr #8
	add	w16, w16, w27, lsr #8
	and	w5, w5, #0xff00
	orr	v3.8b, v3.8b, v4.8b
	and	w16, w16, #0xff00
	fmov	w26, s3
	orr	w5, w26, w5
	orr	w16, w5, w16, lsr #8
	str	w16, [x23], #4
	b.lo	.LBB_b5b89a_13
	b	.LBB_b5b89a_2
.LBB_b5b89a_14:
	ldp	x20, x19, [sp, #96]
	ldr	x30, [sp, #16]
	ldp	x22, x21, [sp, #80]
	ldp	x24, x23, [sp, #64]
	ldp	x26, x25, [sp, #48]
	ldp	x28, x27, [sp, #32]
	add	sp, sp, #112
.LBB_b5b89a_15:
	ret
.Lfunc_end_b5b89a:
	.size	"pix_raster::view::blit_overlap::<#2e32b78ff97838bb>", .Lfunc_end_b5b89a-"pix_raster::view::blit_overlap::<#2e32b78ff97838bb>"

	.section	.rodata.cst16,"aM",@progbits,16
	.p2align	4, 0x0
.LCPI_a86660_0:
	.byte	0
	.byte	255
	.byte	0
	.byte	255
	.byte	4
	.byte	255
	.byte	4
	.byte	255
	.byte	8
	.byte	255
	.byte	8
	.byte	255
	.byte	12
	.byte	255
	.byte	12
	.byte	255
.LCPI_a86660_1:
	.byte	255
	.byte	0
	.byte	255
	.byte	2
	.byte	255
	.byte	4
	.byte	255
	.byte	6
	.byte	255
	.byte	8
	.byte	255
	.byte	10
	.byte	255
	.byte	12
	.byte	255
	.byte	14
.LCPI_a86660_2:
	.byte	0
	.byte	0
	.byte	0
	.byte	0
	.byte	4
	.byte	4
	.byte	4
	.byte	4
	.byte	8
	.byte	8
	.byte	8
	.byte	8
	.byte	12
	.byte	12
	.byte	12
	.byte	12
	.section	.rodata.cst8,"aM",@progbits,8
	.p2align	3, 0x0
.LCPI_a86660_3:
	.word	4294967280
	.word	4294967272
.LCPI_a86660_4:
	.word	8
	.word	16
	.section	".text.pix_raster::view::blit_overlap::<#118c7942c1302bcc>","ax",@progbits
	.p2align	2
	.type	"pix_raster::view::blit_overlap::<#118c7942c1302bcc>",@function
"pix_raster::view::blit_overlap::<#118c7942c1302bcc>":
	ldp	x8, x9, [x4, #24]
	cmp	x8, x9
	b.hs	.LBB_a86660_15
	sub	sp, sp, #96
	ldr	x16, [x4, #40]
	ldp	x13, x10, [x4, #8]
	ldr	x11, [x4]
	madd	x6, x8, x1, x11
	lsl	x12, x3, #2
	stp	x20, x19, [sp, #80]
	lsl	x14, x1, #2
	madd	x5, x16, x3, x10
	sub	x13, x13, x11
	stp	x22, x21, [sp, #64]
	and	x15, x13, #0xfffffffffffffff0
	lsl	x7, x13, #2
	lsr	x17, x13, #4
	lsr	x19, x15, #4
	sub	x16, x16, x8
	and	x18, x13, #0xf
	and	x21, x7, #0x30
	add	x22, x0, x6, lsl #2
	and	x4, x13, #0xc
	bfi	x21, x19, #6, #58
	and	x6, x7, #0x20
	stp	x28, x27, [sp, #16]
	add	x20, x2, x5, lsl #2
	lsl	x5, x15, #2
	add	x19, x22, #32
	stp	x26, x25, [sp, #32]
	add	x7, x20, #32
	add	x20, x20, x21
	add	x21, x22, x21
	stp	x24, x23, [sp, #48]
	b	.LBB_a86660_3
.LBB_a86660_2:
	add	x8, x8, #1
	add	x7, x7, x12
	add	x19, x19, x14
	cmp	x8, x9
	add	x20, x20, x12
	add	x21, x21, x14
	b.eq	.LBB_a86660_14
.LBB_a86660_3:
	adrp	x23, .LCPI_a86660_0
	adrp	x22, .LCPI_a86660_1
	cbz	x17, .LBB_a86660_6
	mov	x24, x19
	mov	x25, x7
	mov	x26, x17
.LBB_a86660_5:
	ldp	q0, q1, [x25, #-32]
	movi	v5.8h, #128
	ldp	q3, q4, [x24, #-32]
	movi	v6.8h, #128
	movi	v18.8h, #128
	subs	x26, x26, #1
	ushr	v2.4s, v0.4s, #24
	ushr	v1.4s, v1.4s, #24
	ldr	q0, [x23, :lo12:.LCPI_a86660_0]
	ushr	v7.8h, v3.8h, #8
	ushr	v17.8h, v4.8h, #8
	bic	v3.8h, #255, lsl #8
	bic	v4.8h, #255, lsl #8
	tbl	v2.16b, { v2.16b }, v0.16b
	tbl	v16.16b, { v1.16b }, v0.16b
	movi	v1.16b, #1
	mla	v5.8h, v7.8h, v2.8h
	mla	v6.8h, v17.8h, v16.8h
	movi	v7.8h, #128
	mla	v18.8h, v3.8h, v2.8h
	umull2	v2.4s, v5.8h, v1.8h
	umull	v3.4s, v5.4h, v1.4h
	mla	v7.8h, v4.8h, v16.8h
	umull2	v4.4s, v6.8h, v1.8h
	umull	v5.4s, v6.4h, v1.4h
	umull2	v6.4s, v18.8h, v1.8h
	umull	v16.4s, v18.4h, v1.4h
	uzp2	v3.8h, v3.8h, v2.8h
	umull2	v17.4s, v7.8h, v1.8h
	umull	v7.4s, v7.4h, v1.4h
	uzp2	v4.8h, v5.8h, v4.8h
	ldr	q2, [x22, :lo12:.LCPI_a86660_1]
	uzp2	v5.8h, v16.8h, v6.8h
	movi	v16.8h, #128
	tbl	v3.16b, { v3.16b }, v2.16b
	uzp2	v6.8h, v7.8h, v17.8h
	movi	v7.8h, #128
	tbl	v4.16b, { v4.16b }, v2.16b
	orr	v3.16b, v3.16b, v5.16b
	orr	v4.16b, v4.16b, v6.16b
	ldp	q5, q6, [x24]
	stp	q3, q4, [x24, #-32]
	ushr	v17.8h, v5.8h, #8
	bic	v5.8h, #255, lsl #8
	ldp	q3, q4, [x25], #64
	ushr	v3.4s, v3.4s, #24
	ushr	v4.4s, v4.4s, #24
	tbl	v3.16b, { v3.16b }, v0.16b
	tbl	v0.16b, { v4.16b }, v0.16b
	ushr	v4.8h, v6.8h, #8
	bic	v6.8h, #255, lsl #8
	mla	v7.8h, v17.8h, v3.8h
	movi	v17.8h, #128
	mla	v16.8h, v4.8h, v0.8h
	movi	v4.8h, #128
	mla	v17.8h, v5.8h, v3.8h
	umull2	v3.4s, v7.8h, v1.8h
	umull	v5.4s, v7.4h, v1.4h
	mla	v4.8h, v6.8h, v0.8h
	umull2	v0.4s, v16.8h, v1.8h
	umull	v6.4s, v16.4h, v1.4h
	umull2	v7.4s, v17.8h, v1.8h
	umull	v16.4s, v17.4h, v1.4h
	uzp2	v3.8h, v5.8h, v3.8h
	umull2	v5.4s, v4.8h, v1.8h
	umull	v1.4s, v4.4h, v1.4h
	uzp2	v0.8h, v6.8h, v0.8h
	uzp2	v4.8h, v16.8h, v7.8h
	tbl	v3.16b, { v3.16b }, v2.16b
	uzp2	v1.8h, v1.8h, v5.8h
	tbl	v0.16b, { v0.16b }, v2.16b
	orr	v2.16b, v3.16b, v4.16b
	orr	v0.16b, v0.16b, v1.16b
	stp	q2, q0, [x24], #64
	b.ne	.LBB_a86660_5
.LBB_a86660_6:
	cmp	x15, x13
	b.eq	.LBB_a86660_2
	add	x25, x16, x8
	madd	x24, x8, x1, x11
	madd	x25, x25, x3, x10
	add	x24, x0, x24, lsl #2
	add	x25, x2, x25, lsl #2
	add	x24, x24, x5
	add	x25, x25, x5
	tbnz	w13, #3, .LBB_a86660_10
	tbnz	w13, #2, .LBB_a86660_11
.LBB_a86660_9:
	cmp	x4, x18
	b.eq	.LBB_a86660_2
	b	.LBB_a86660_12
.LBB_a86660_10:
	ldp	q0, q1, [x25]
	movi	v5.8h, #128
	ldr	q2, [x23, :lo12:.LCPI_a86660_0]
	ldp	q3, q4, [x24]
	movi	v6.8h, #128
	movi	v16.8h, #128
	ushr	v0.4s, v0.4s, #24
	ushr	v1.4s, v1.4s, #24
	ushr	v7.8h, v3.8h, #8
	bic	v3.8h, #255, lsl #8
	tbl	v0.16b, { v0.16b }, v2.16b
	tbl	v1.16b, { v1.16b }, v2.16b
	ushr	v2.8h, v4.8h, #8
	bic	v4.8h, #255, lsl #8
	mla	v5.8h, v7.8h, v0.8h
	movi	v7.16b, #1
	mla	v6.8h, v2.8h, v1.8h
	movi	v2.8h, #128
	mla	v16.8h, v3.8h, v0.8h
	umull2	v0.4s, v5.8h, v7.8h
	umull	v3.4s, v5.4h, v7.4h
	mla	v2.8h, v4.8h, v1.8h
	umull2	v1.4s, v6.8h, v7.8h
	umull	v4.4s, v6.4h, v7.4h
	umull2	v5.4s, v16.8h, v7.8h
	umull	v6.4s, v16.4h, v7.4h
	uzp2	v0.8h, v3.8h, v0.8h
	umull2	v3.4s, v2.8h, v7.8h
	umull	v2.4s, v2.4h, v7.4h
	uzp2	v1.8h, v4.8h, v1.8h
	ldr	q4, [x22, :lo12:.LCPI_a86660_1]
	uzp2	v5.8h, v6.8h, v5.8h
	tbl	v0.16b, { v0.16b }, v4.16b
	uzp2	v2.8h, v2.8h, v3.8h
	tbl	v1.16b, { v1.16b }, v4.16b
	orr	v0.16b, v0.16b, v5.16b
	orr	v1.16b, v1.16b, v2.16b
	stp	q0, q1, [x24]
	tbz	w13, #2, .LBB_a86660_9
.LBB_a86660_11:
	ldr	q0, [x25, x6]
	adrp	x23, .LCPI_a86660_2
	movi	v2.8h, #128
	ldr	q1, [x23, :lo12:.LCPI_a86660_2]
	movi	v5.8h, #128
	ushr	v0.4s, v0.4s, #24
	tbl	v0.16b, { v0.16b }, v1.16b
	ldr	q1, [x24, x6]
	ushr	v3.8h, v1.8h, #8
	bic	v1.8h, #255, lsl #8
	ushr	v4.8h, v0.8h, #8
	bic	v0.8h, #255, lsl #8
	mla	v2.8h, v3.8h, v4.8h
	movi	v3.16b, #1
	mla	v5.8h, v1.8h, v0.8h
	umull2	v0.4s, v2.8h, v3.8h
	umull	v1.4s, v2.4h, v3.4h
	umull2	v2.4s, v5.8h, v3.8h
	umull	v3.4s, v5.4h, v3.4h
	uzp2	v0.8h, v1.8h, v0.8h
	ldr	q1, [x22, :lo12:.LCPI_a86660_1]
	uzp2	v2.8h, v3.8h, v2.8h
	tbl	v0.16b, { v0.16b }, v1.16b
	orr	v0.16b, v0.16b, v2.16b
	str	q0, [x24, x6]
	cmp	x4, x18
	b.eq	.LBB_a86660_2
.LBB_a86660_12:
	mov	x22, x21
	mov	x23, x20
	and	x24, x13, #0xc
.LBB_a86660_13:
	ldr	w25, [x22]
	adrp	x26, .LCPI_a86660_3
	movi	v2.2s, #128
	ldr	d1, [x26, :lo12:.LCPI_a86660_3]
	ldrb	w26, [x23, #3]
	adrp	x27, .LCPI_a86660_4
	dup	v0.2s, w25
	mov	w28, #128
	add	x24, x24, #1
	cmp	x24, x18
	add	x23, x23, #4
	ushl	v0.2s, v0.2s, v1.2s
	mov	s1, v0.s[1]
	str	h0, [sp, #12]
	str	h1, [sp, #14]
	dup	v1.2s, w26
	ldr	s0, [sp, #12]
	zip1	v0.8b, v0.8b, v0.8b
	mov	v0.h[1], wzr
	uzp1	v0.8b, v0.8b, v0.8b
	ushll	v0.4s, v0.4h, #0
	mla	v2.2s, v0.2s, v1.2s
	movi	d0, #0x00ffff0000ffff
	and	v1.8b, v2.8b, v0.8b
	usra	v2.2s, v1.2s, #8
	ldr	d1, [x27, :lo12:.LCPI_a86660_4]
	ubfx	w27, w25, #8, #8
	and	w25, w25, #0xff
	madd	w27, w27, w26, w28
	and	v0.8b, v2.8b, v0.8b
	movi	d2, #0xff000000ffff0000
	madd	w25, w25, w26, w28
	and	w26, w27, #0xff00
	ushl	v0.2s, v0.2s, v1.2s
	and	w28, w25, #0xff00
	add	w26, w27, w26, lsr #8
	add	w25, w25, w28, lsr #8
	and	w26, w26, #0xff00
	and	v0.8b, v0.8b, v2.8b
	and	w25, w25, #0xff00
	dup	v1.2s, v0.s[1]
	orr	v0.8b, v0.8b, v1.8b
	fmov	w27, s0
	orr	w26, w27, w26
	orr	w25, w26, w25, lsr #8
	str	w25, [x22], #4
	b.lo	.LBB_a86660_13
	b	.LBB_a86660_2
.LBB_a86660_14:
	ldp	x20, x19, [sp, #80]
	ldp	x22, x21, [sp, #64]
	ldp	x24, x23, [sp, #48]
	ldp	x26, x25, [sp, #32]
	ldp	x28, x27, [sp, #16]
	add	sp, sp, #96
.LBB_a86660_15:
	ret
.Lfunc_end_a86660:
	.size	"pix_raster::view::blit_overlap::<#118c7942c1302bcc>", .Lfunc_end_a86660-"pix_raster::view::blit_overlap::<#118c7942c1302bcc>"

	.section	.rodata.cst16,"aM",@progbits,16
	.p2align	4, 0x0
.LCPI_995679_0:
	.word	0
	.word	4294967288
	.word	4294967280
	.word	4294967272
.LCPI_995679_1:
	.byte	255
	.byte	0
	.byte	255
	.byte	2
	.byte	255
	.byte	4
	.byte	255
	.byte	6
	.byte	255
	.byte	8
	.byte	255
	.byte	10
	.byte	255
	.byte	12
	.byte	255
	.byte	14
.LCPI_995679_2:
	.byte	0
	.byte	255
	.byte	0
	.byte	255
	.byte	4
	.byte	255
	.byte	4
	.byte	255
	.byte	8
	.byte	255
	.byte	8
	.byte	255
	.byte	12
	.byte	255
	.byte	12
	.byte	255
.LCPI_995679_3:
	.byte	0
	.byte	0
	.byte	0
	.byte	0
	.byte	1
	.byte	1
	.byte	1
	.byte	1
	.byte	2
	.byte	2
	.byte	2
	.byte	2
	.byte	3
	.byte	3
	.byte	3
	.byte	3
.LCPI_995679_4:
	.byte	0
	.byte	0
	.byte	0
	.byte	0
	.byte	4
	.byte	4
	.byte	4
	.byte	4
	.byte	8
	.byte	8
	.byte	8
	.byte	8
	.byte	12
	.byte	12
	.byte	12
	.byte	12
	.section	.rodata.cst8,"aM",@progbits,8
	.p2align	3, 0x0
.LCPI_995679_5:
	.word	4294967272
	.word	4294967280
.LCPI_995679_6:
	.word	16
	.word	8
	.section	".text.pix_raster::view::blit_overlap::<#d13018cf5d2c8821>","ax",@progbits
	.p2align	2
	.type	"pix_raster::view::blit_overlap::<#d13018cf5d2c8821>",@function
"pix_raster::view::blit_overlap::<#d13018cf5d2c8821>":
	ldp	x8, x9, [x4, #24]
	cmp	x8, x9
	b.hs	.LBB_995679_21
	sub	sp, sp, #96
	dup	v0.4s, w5
	adrp	x10, .LCPI_995679_0
	movi	v3.2d, #0x00ffff0000ffff
	ldr	q1, [x10, :lo12:.LCPI_995679_0]
	ldp	x12, x14, [x4, #8]
	ldr	x10, [x4]
	ldr	x15, [x4, #40]
	madd	x6, x8, x1, x10
	ushl	v0.4s, v0.4s, v1.4s
	stp	x22, x21, [sp, #64]
	sub	x12, x12, x10
	madd	x21, x15, x3, x14
	sub	x13, x15, x8
	and	x15, x12, #0xfffffffffffffff0
	lsl	x7, x12, #2
	stp	x20, x19, [sp, #80]
	xtn	v1.4h, v0.4s
	and	x17, x12, #0xc
	lsr	x20, x15, #4
	and	x16, x12, #0x8
	add	x22, x15, x17
	and	x7, x7, #0x30
	add	x11, x2, x14
	lsr	x14, x12, #4
	lsl	x18, x15, #2
	lsl	x4, x16, #2
	add	x6, x0, x6, lsl #2
	lsl	x19, x1, #2
	uzp1	v2.8b, v1.8b, v0.8b
	uzp1	v0.8h, v0.8h, v0.8h
	dup	v1.16b, v1.b[6]
	add	x22, x2, x22
	bfi	x7, x20, #6, #58
	and	x20, x12, #0xf
	add	x2, x2, x21
	add	x21, x22, x21
	stp	x28, x27, [sp, #16]
	stp	x26, x25, [sp, #32]
	ushll	v2.4s, v2.4h, #0
	uzp1	v0.16b, v0.16b, v0.16b
	stp	x24, x23, [sp, #48]
	dup	v4.8h, v2.h[2]
	dup	v2.8h, v2.h[0]
	bif	v2.16b, v4.16b, v3.16b
	ushr	v3.8h, v1.8h, #8
	bic	v1.8h, #255, lsl #8
	ushr	v4.8h, v0.8h, #8
	bic	v0.8h, #255, lsl #8
	ushr	v5.8h, v2.8h, #8
	bic	v2.8h, #255, lsl #8
	b	.LBB_995679_3
.LBB_995679_2:
	add	x8, x8, #1
	add	x2, x2, x3
	add	x6, x6, x19
	cmp	x8, x9
	add	x21, x21, x3
	b.eq	.LBB_995679_20
.LBB_995679_3:
	adrp	x22, .LCPI_995679_1
	cbz	x14, .LBB_995679_8
	mov	x23, x6
	mov	x24, x2
	mov	x25, x14
	b	.LBB_995679_6
.LBB_995679_5:
	movi	v16.8h, #128
	ushr	v17.8h, v7.8h, #8
	movi	v18.8h, #128
	movi	v6.16b, #1
	ldp	q20, q19, [x23]
	bic	v7.8h, #255, lsl #8
	ldp	q22, q21, [x23, #32]
	movi	v25.8h, #128
	movi	v27.8h, #128
	movi	v26.8h, #128
	mla	v16.8h, v17.8h, v3.8h
	uzp1	v24.16b, v20.16b, v19.16b
	uzp2	v19.16b, v20.16b, v19.16b
	mla	v18.8h, v7.8h, v1.8h
	uzp1	v23.16b, v22.16b, v21.16b
	movi	v28.8h, #128
	movi	v31.8h, #128
	umull2	v7.4s, v16.8h, v6.8h
	umull	v16.4s, v16.4h, v6.4h
	umull2	v17.4s, v18.8h, v6.8h
	umull	v18.4s, v18.4h, v6.4h
	uzp2	v16.8h, v16.8h, v7.8h
	uzp2	v7.8h, v18.8h, v17.8h
	uzp2	v18.16b, v22.16b, v21.16b
	uzp1	v21.16b, v24.16b, v23.16b
	movi	v22.8h, #128
	rev16	v17.16b, v16.16b
	uzp2	v16.16b, v24.16b, v23.16b
	movi	v23.8h, #128
	ushr	v30.8h, v21.8h, #8
	bic	v21.8h, #255, lsl #8
	orr	v20.16b, v17.16b, v7.16b
	uzp1	v17.16b, v19.16b, v18.16b
	uzp2	v18.16b, v19.16b, v18.16b
	ushr	v24.8h, v16.8h, #8
	movi	v19.8h, #128
	bic	v16.8h, #255, lsl #8
	mla	v28.8h, v21.8h, v7.8h
	ushr	v20.8h, v20.8h, #8
	ushr	v29.8h, v17.8h, #8
	bic	v17.8h, #255, lsl #8
	mla	v19.8h, v16.8h, v7.8h
	mla	v23.8h, v24.8h, v20.8h
	ushr	v24.8h, v18.8h, #8
	mla	v27.8h, v30.8h, v20.8h
	mla	v25.8h, v29.8h, v20.8h
	bic	v18.8h, #255, lsl #8
	mla	v26.8h, v17.8h, v7.8h
	mla	v22.8h, v24.8h, v20.8h
	umull2	v24.4s, v19.8h, v6.8h
	umull	v19.4s, v19.4h, v6.4h
	mla	v31.8h, v18.8h, v7.8h
	umull2	v7.4s, v23.8h, v6.8h
	umull	v16.4s, v23.4h, v6.4h
	umull2	v17.4s, v25.8h, v6.8h
	umull	v18.4s, v25.4h, v6.4h
	umull2	v20.4s, v27.8h, v6.8h
	umull	v21.4s, v27.4h, v6.4h
	umull2	v25.4s, v26.8h, v6.8h
	umull	v26.4s, v26.4h, v6.4h
	umull2	v23.4s, v22.8h, v6.8h
	umull	v22.4s, v22.4h, v6.4h
	umull2	v27.4s, v28.8h, v6.8h
	umull	v28.4s, v28.4h, v6.4h
	umull2	v29.4s, v31.8h, v6.8h
	umull	v6.4s, v31.4h, v6.4h
	uzp2	v7.8h, v16.8h, v7.8h
	uzp2	v16.8h, v18.8h, v17.8h
	uzp2	v19.8h, v19.8h, v24.8h
	uzp2	v17.8h, v21.8h, v20.8h
	ldr	q20, [x22, :lo12:.LCPI_995679_1]
	uzp2	v21.8h, v26.8h, v25.8h
	uzp2	v18.8h, v22.8h, v23.8h
	uzp2	v22.8h, v28.8h, v27.8h
	uzp2	v6.8h, v6.8h, v29.8h
	tbl	v7.16b, { v7.16b }, v20.16b
	tbl	v16.16b, { v16.16b }, v20.16b
	tbl	v17.16b, { v17.16b }, v20.16b
	tbl	v18.16b, { v18.16b }, v20.16b
	orr	v7.16b, v7.16b, v19.16b
	orr	v16.16b, v16.16b, v21.16b
	orr	v17.16b, v17.16b, v22.16b
	orr	v6.16b, v18.16b, v6.16b
	zip1	v18.16b, v17.16b, v16.16b
	zip2	v16.16b, v17.16b, v16.16b
	zip1	v19.16b, v7.16b, v6.16b
	zip2	v6.16b, v7.16b, v6.16b
	ushll	v7.4s, v18.4h, #0
	ushll2	v18.4s, v18.8h, #0
	ushll	v20.4s, v16.4h, #0
	shll	v17.4s, v19.4h, #16
	shll2	v19.4s, v19.8h, #16
	shll	v21.4s, v6.4h, #16
	ushll2	v16.4s, v16.8h, #0
	shll2	v6.4s, v6.8h, #16
	orr	v7.16b, v17.16b, v7.16b
	orr	v17.16b, v19.16b, v18.16b
	orr	v18.16b, v21.16b, v20.16b
	orr	v6.16b, v6.16b, v16.16b
	stp	q7, q17, [x23]
	stp	q18, q6, [x23, #32]
	subs	x25, x25, #1
	add	x23, x23, #64
	b.eq	.LBB_995679_8
.LBB_995679_6:
	ldr	q7, [x24], #16
	ext	v6.16b, v7.16b, v7.16b, #8
	orr	v6.8b, v7.8b, v6.8b
	fmov	x26, d6
	orr	x26, x26, x26, lsr #32
	lsr	x27, x26, #16
	orr	w26, w26, w27
	orr	w26, w26, w26, lsr #8
	tst	w26, #0xff
	b.ne	.LBB_995679_5
	movi	v6.2d, #0000000000000000
	stp	q6, q6, [x23]
	stp	q6, q6, [x23, #32]
	subs	x25, x25, #1
	add	x23, x23, #64
	b.ne	.LBB_995679_6
.LBB_995679_8:
	cmp	x15, x12
	b.eq	.LBB_995679_2
	madd	x23, x8, x1, x10
	add	x24, x13, x8
	madd	x24, x24, x3, x11
	add	x23, x0, x23, lsl #2
	add	x23, x23, x18
	add	x24, x24, x15
	tbnz	w12, #3, .LBB_995679_12
	tbnz	w12, #2, .LBB_995679_15
.LBB_995679_11:
	cmp	x17, x20
	b.eq	.LBB_995679_2
	b	.LBB_995679_18
.LBB_995679_12:
	ldr	d6, [x24]
	fmov	x25, d6
	orr	x25, x25, x25, lsr #32
	lsr	x26, x25, #16
	orr	w25, w25, w26
	orr	w25, w25, w25, lsr #8
	tst	w25, #0xff
	b.eq	.LBB_995679_14
	zip1	v6.16b, v6.16b, v6.16b
	movi	v7.8h, #1
	adrp	x25, .LCPI_995679_2
	movi	v17.8h, #128
	movi	v18.8h, #128
	movi	v21.8h, #128
	movi	v22.8h, #128
	ushll	v16.4s, v6.4h, #0
	ushll2	v6.4s, v6.8h, #0
	mul	v16.4s, v16.4s, v7.4s
	mul	v7.4s, v6.4s, v7.4s
	movi	v6.16b, #1
	ushr	v19.8h, v16.8h, #8
	ushr	v20.8h, v7.8h, #8
	bic	v16.8h, #255, lsl #8
	bic	v7.8h, #255, lsl #8
	mla	v17.8h, v19.8h, v5.8h
	mla	v18.8h, v20.8h, v5.8h
	mla	v22.8h, v16.8h, v2.8h
	mla	v21.8h, v7.8h, v2.8h
	umull2	v16.4s, v17.8h, v6.8h
	umull	v17.4s, v17.4h, v6.4h
	umull2	v7.4s, v18.8h, v6.8h
	umull	v18.4s, v18.4h, v6.4h
	umull2	v19.4s, v22.8h, v6.8h
	umull	v20.4s, v22.4h, v6.4h
	uzp2	v16.8h, v17.8h, v16.8h
	umull2	v17.4s, v21.8h, v6.8h
	umull	v21.4s, v21.4h, v6.4h
	uzp2	v7.8h, v18.8h, v7.8h
	uzp2	v18.8h, v20.8h, v19.8h
	movi	v20.8h, #128
	rev16	v16.16b, v16.16b
	uzp2	v17.8h, v21.8h, v17.8h
	movi	v21.8h, #128
	rev16	v7.16b, v7.16b
	orr	v16.16b, v16.16b, v18.16b
	ldp	q18, q19, [x23]
	orr	v7.16b, v7.16b, v17.16b
	ldr	q17, [x25, :lo12:.LCPI_995679_2]
	ushr	v16.4s, v16.4s, #24
	ushr	v22.8h, v18.8h, #8
	bic	v18.8h, #255, lsl #8
	ushr	v7.4s, v7.4s, #24
	tbl	v16.16b, { v16.16b }, v17.16b
	tbl	v7.16b, { v7.16b }, v17.16b
	ushr	v17.8h, v19.8h, #8
	bic	v19.8h, #255, lsl #8
	mla	v20.8h, v22.8h, v16.8h
	movi	v22.8h, #128
	mla	v21.8h, v17.8h, v7.8h
	movi	v17.8h, #128
	mla	v22.8h, v18.8h, v16.8h
	umull2	v16.4s, v20.8h, v6.8h
	umull	v18.4s, v20.4h, v6.4h
	mla	v17.8h, v19.8h, v7.8h
	umull2	v7.4s, v21.8h, v6.8h
	umull	v19.4s, v21.4h, v6.4h
	umull2	v20.4s, v22.8h, v6.8h
	umull	v21.4s, v22.4h, v6.4h
	uzp2	v16.8h, v18.8h, v16.8h
	umull2	v18.4s, v17.8h, v6.8h
	umull	v6.4s, v17.4h, v6.4h
	uzp2	v7.8h, v19.8h, v7.8h
	ldr	q17, [x22, :lo12:.LCPI_995679_1]
	uzp2	v19.8h, v21.8h, v20.8h
	tbl	v16.16b, { v16.16b }, v17.16b
	uzp2	v6.8h, v6.8h, v18.8h
	tbl	v7.16b, { v7.16b }, v17.16b
	orr	v16.16b, v16.16b, v19.16b
	orr	v6.16b, v7.16b, v6.16b
	stp	q16, q6, [x23]
	tbz	w12, #2, .LBB_995679_11
	b	.LBB_995679_15
.LBB_995679_14:
	movi	v6.2d, #0000000000000000
	stp	q6, q6, [x23]
	tbz	w12, #2, .LBB_995679_11
.LBB_995679_15:
	ldr	s6, [x24, x16]
	add	x23, x23, x4
	dup	v7.16b, v6.b[1]
	dup	v16.16b, v6.b[2]
	dup	v17.16b, v6.b[3]
	orr	v7.16b, v7.16b, v16.16b
	orr	v16.16b, v17.16b, v6.16b
	orr	v7.16b, v7.16b, v16.16b
	umov	w24, v7.b[0]
	cbz	w24, .LBB_995679_17
	adrp	x24, .LCPI_995679_3
	movi	v17.8h, #128
	movi	v18.16b, #1
	ldr	q7, [x24, :lo12:.LCPI_995679_3]
	adrp	x24, .LCPI_995679_4
	movi	v20.8h, #128
	tbl	v6.16b, { v6.16b }, v7.16b
	movi	v7.8h, #128
	ushr	v16.8h, v6.8h, #8
	bic	v6.8h, #255, lsl #8
	mla	v7.8h, v16.8h, v4.8h
	mla	v17.8h, v6.8h, v0.8h
	umull2	v6.4s, v7.8h, v18.8h
	umull	v7.4s, v7.4h, v18.4h
	umull2	v16.4s, v17.8h, v18.8h
	umull	v17.4s, v17.4h, v18.4h
	uzp2	v6.8h, v7.8h, v6.8h
	uzp2	v7.8h, v17.8h, v16.8h
	movi	v16.8h, #128
	rev16	v6.16b, v6.16b
	orr	v6.16b, v6.16b, v7.16b
	ldr	q7, [x24, :lo12:.LCPI_995679_4]
	ushr	v6.4s, v6.4s, #24
	tbl	v6.16b, { v6.16b }, v7.16b
	ldr	q7, [x23]
	ushr	v17.8h, v7.8h, #8
	bic	v7.8h, #255, lsl #8
	ushr	v19.8h, v6.8h, #8
	bic	v6.8h, #255, lsl #8
	mla	v16.8h, v17.8h, v19.8h
	mla	v20.8h, v7.8h, v6.8h
	umull2	v6.4s, v16.8h, v18.8h
	umull	v7.4s, v16.4h, v18.4h
	umull2	v16.4s, v20.8h, v18.8h
	umull	v17.4s, v20.4h, v18.4h
	uzp2	v6.8h, v7.8h, v6.8h
	ldr	q7, [x22, :lo12:.LCPI_995679_1]
	uzp2	v16.8h, v17.8h, v16.8h
	tbl	v6.16b, { v6.16b }, v7.16b
	orr	v6.16b, v6.16b, v16.16b
	str	q6, [x23]
	cmp	x17, x20
	b.eq	.LBB_995679_2
	b	.LBB_995679_18
.LBB_995679_17:
	stp	xzr, xzr, [x23]
	cmp	x17, x20
	b.eq	.LBB_995679_2
.LBB_995679_18:
	mov	x22, x7
	mov	x23, x21
	and	x24, x12, #0xc
.LBB_995679_19:
	ldr	w25, [x6, x22]
	adrp	x26, .LCPI_995679_5
	lsr	w27, w5, #24
	ldr	d7, [x26, :lo12:.LCPI_995679_5]
	ldrb	w26, [x23], #1
	dup	v6.2s, w25
	mov	w28, #128
	movi	v16.2s, #128
	madd	w26, w26, w27, w28
	add	x24, x24, #1
	cmp	x24, x20
	ushl	v6.2s, v6.2s, v7.2s
	and	w27, w26, #0xff00
	add	w26, w26, w27, lsr #8
	adrp	x27, .LCPI_995679_6
	mov	s7, v6.s[1]
	str	h6, [sp, #8]
	ubfx	w26, w26, #8, #8
	str	h7, [sp, #10]
	dup	v7.2s, w26
	ldr	s6, [sp, #8]
	zip1	v6.8b, v6.8b, v6.8b
	mov	v6.h[3], wzr
	uzp1	v6.8b, v6.8b, v0.8b
	ushll	v6.4s, v6.4h, #0
	mla	v16.2s, v7.2s, v6.2s
	movi	d6, #0x00ffff0000ffff
	and	v7.8b, v16.8b, v6.8b
	usra	v16.2s, v7.2s, #8
	ldr	d7, [x27, :lo12:.LCPI_995679_6]
	ubfx	w27, w25, #8, #8
	and	w25, w25, #0xff
	madd	w27, w26, w27, w28
	and	v6.8b, v16.8b, v6.8b
	movi	d16, #0xffff0000ff000000
	madd	w25, w26, w25, w28
	and	w26, w27, #0xff00
	ushl	v6.2s, v6.2s, v7.2s
	and	w28, w25, #0xff00
	add	w26, w27, w26, lsr #8
	add	w25, w25, w28, lsr #8
	and	w26, w26, #0xff00
	and	v6.8b, v6.8b, v16.8b
	and	w25, w25, #0xff00
	dup	v7.2s, v6.s[1]
	orr	v6.8b, v6.8b, v7.8b
	fmov	w27, s6
	orr	w26, w27, w26
	orr	w25, w26, w25, lsr #8
	str	w25, [x6, x22]
	add	x22, x22, #4
	b.lo	.LBB_995679_19
	b	.LBB_995679_2
.LBB_995679_20:
	ldp	x20, x19, [sp, #80]
	ldp	x22, x21, [sp, #64]
	ldp	x24, x23, [sp, #48]
	ldp	x26, x25, [sp, #32]
	ldp	x28, x27, [sp, #16]
	add	sp, sp, #96
.LBB_995679_21:
	ret
.Lfunc_end_995679:
	.size	"pix_raster::view::blit_overlap::<#d13018cf5d2c8821>", .Lfunc_end_995679-"pix_raster::view::blit_overlap::<#d13018cf5d2c8821>"

	.section	.rodata.cst16,"aM",@progbits,16
	.p2align	4, 0x0
.LCPI_c0493c_0:
	.byte	0
	.byte	255
	.byte	0
	.byte	255
	.byte	4
	.byte	255
	.byte	4
	.byte	255
	.byte	8
	.byte	255
	.byte	8
	.byte	255
	.byte	12
	.byte	255
	.byte	12
	.byte	255
.LCPI_c0493c_1:
	.byte	255
	.byte	0
	.byte	255
	.byte	2
	.byte	255
	.byte	4
	.byte	255
	.byte	6
	.byte	255
	.byte	8
	.byte	255
	.byte	10
	.byte	255
	.byte	12
	.byte	255
	.byte	14
.LCPI_c0493c_2:
	.byte	0
	.byte	0
	.byte	0
	.byte	0
	.byte	4
	.byte	4
	.byte	4
	.byte	4
	.byte	8
	.byte	8
	.byte	8
	.byte	8
	.byte	12
	.byte	12
	.byte	12
	.byte	12
	.section	.rodata.cst8,"aM",@progbits,8
	.p2align	3, 0x0
.LCPI_c0493c_3:
	.word	4294967272
	.word	4294967280
.LCPI_c0493c_4:
	.word	16
	.word	8
	.section	".text.pix_raster::view::blit_overlap::<#b96d0594766ff04b>","ax",@progbits
	.p2align	2
	.type	"pix_raster::view::blit_overlap::<#b96d0594766ff04b>",@function
"pix_raster::view::blit_overlap::<#b96d0594766ff04b>":
	ldp	x8, x9, [x4, #24]
	cmp	x8, x9
	b.hs	.LBB_c0493c_15
	str	x30, [sp, #-96]!
	ldr	x16, [x4, #40]
	ldp	x15, x10, [x4, #8]
	ldr	x11, [x4]
	madd	x7, x8, x1, x11
	dup	v0.16b, w5
	stp	x20, x19, [sp, #80]
	lsl	x13, x3, #2
	lsl	x14, x1, #2
	madd	x6, x16, x3, x10
	sub	x15, x15, x11
	stp	x22, x21, [sp, #64]
	and	x18, x15, #0xfffffffffffffff0
	lsl	x19, x15, #2
	stp	x24, x23, [sp, #48]
	lsr	x20, x18, #4
	ushr	v1.8h, v0.8h, #8
	bic	v0.8h, #255, lsl #8
	and	x22, x19, #0x30
	add	x23, x0, x7, lsl #2
	lsr	x17, x15, #4
	bfi	x22, x20, #6, #58
	and	w12, w5, #0xff
	sub	x16, x16, x8
	add	x21, x2, x6, lsl #2
	lsl	x6, x18, #2
	and	x4, x15, #0xf
	and	x5, x15, #0xc
	and	x7, x19, #0x20
	add	x20, x23, #32
	add	x19, x21, #32
	add	x21, x21, x22
	add	x22, x23, x22
	stp	x28, x27, [sp, #16]
	stp	x26, x25, [sp, #32]
	b	.LBB_c0493c_3
.LBB_c0493c_2:
	add	x8, x8, #1
	add	x19, x19, x13
	add	x20, x20, x14
	cmp	x8, x9
	add	x21, x21, x13
	add	x22, x22, x14
	b.eq	.LBB_c0493c_14
.LBB_c0493c_3:
	adrp	x24, .LCPI_c0493c_0
	adrp	x23, .LCPI_c0493c_1
	cbz	x17, .LBB_c0493c_6
	mov	x25, x20
	mov	x26, x19
	mov	x27, x17
.LBB_c0493c_5:
	ldp	q3, q4, [x26, #-32]
	movi	v5.8h, #128
	movi	v6.8h, #128
	movi	v17.8h, #128
	movi	v18.8h, #128
	movi	v2.16b, #1
	subs	x27, x27, #1
	ushr	v7.8h, v3.8h, #8
	ushr	v16.8h, v4.8h, #8
	bic	v3.8h, #255, lsl #8
	bic	v4.8h, #255, lsl #8
	mla	v5.8h, v7.8h, v1.8h
	mla	v6.8h, v16.8h, v1.8h
	mla	v18.8h, v3.8h, v0.8h
	mla	v17.8h, v4.8h, v0.8h
	umull2	v3.4s, v5.8h, v2.8h
	umull	v5.4s, v5.4h, v2.4h
	umull2	v4.4s, v6.8h, v2.8h
	umull	v6.4s, v6.4h, v2.4h
	umull2	v7.4s, v18.8h, v2.8h
	umull	v16.4s, v18.4h, v2.4h
	uzp2	v3.8h, v5.8h, v3.8h
	umull2	v5.4s, v17.8h, v2.8h
	umull	v17.4s, v17.4h, v2.4h
	uzp2	v4.8h, v6.8h, v4.8h
	uzp2	v6.8h, v16.8h, v7.8h
	movi	v16.8h, #128
	rev16	v3.16b, v3.16b
	uzp2	v5.8h, v17.8h, v5.8h
	movi	v17.8h, #128
	rev16	v4.16b, v4.16b
	orr	v3.16b, v3.16b, v6.16b
	ldp	q6, q7, [x25, #-32]
	orr	v4.16b, v4.16b, v5.16b
	ushr	v5.4s, v3.4s, #24
	ldr	q3, [x24, :lo12:.LCPI_c0493c_0]
	ushr	v18.8h, v6.8h, #8
	ushr	v4.4s, v4.4s, #24
	ushr	v19.8h, v7.8h, #8
	bic	v6.8h, #255, lsl #8
	bic	v7.8h, #255, lsl #8
	tbl	v5.16b, { v5.16b }, v3.16b
	tbl	v4.16b, { v4.16b }, v3.16b
	mla	v16.8h, v18.8h, v5.8h
	movi	v18.8h, #128
	mla	v17.8h, v19.8h, v4.8h
	movi	v19.8h, #128
	mla	v18.8h, v6.8h, v5.8h
	umull2	v5.4s, v16.8h, v2.8h
	umull	v6.4s, v16.4h, v2.4h
	mla	v19.8h, v7.8h, v4.8h
	umull2	v4.4s, v17.8h, v2.8h
	umull	v7.4s, v17.4h, v2.4h
	umull2	v16.4s, v18.8h, v2.8h
	umull	v17.4s, v18.4h, v2.4h
	uzp2	v5.8h, v6.8h, v5.8h
	umull2	v6.4s, v19.8h, v2.8h
	umull	v18.4s, v19.4h, v2.4h
	uzp2	v7.8h, v7.8h, v4.8h
	ldr	q4, [x23, :lo12:.LCPI_c0493c_1]
	movi	v19.8h, #128
	uzp2	v16.8h, v17.8h, v16.8h
	tbl	v5.16b, { v5.16b }, v4.16b
	uzp2	v6.8h, v18.8h, v6.8h
	tbl	v7.16b, { v7.16b }, v4.16b
	orr	v5.16b, v5.16b, v16.16b
	movi	v16.8h, #128
	orr	v6.16b, v7.16b, v6.16b
	stp	q5, q6, [x25, #-32]
	movi	v6.8h, #128
	ldp	q5, q7, [x26], #64
	ushr	v17.8h, v5.8h, #8
	ushr	v18.8h, v7.8h, #8
	bic	v5.8h, #255, lsl #8
	bic	v7.8h, #255, lsl #8
	mla	v6.8h, v17.8h, v1.8h
	movi	v17.8h, #128
	mla	v16.8h, v18.8h, v1.8h
	mla	v19.8h, v7.8h, v0.8h
	mla	v17.8h, v5.8h, v0.8h
	umull2	v5.4s, v6.8h, v2.8h
	umull	v6.4s, v6.4h, v2.4h
	umull2	v7.4s, v16.8h, v2.8h
	umull	v16.4s, v16.4h, v2.4h
	umull2	v18.4s, v17.8h, v2.8h
	umull	v17.4s, v17.4h, v2.4h
	uzp2	v5.8h, v6.8h, v5.8h
	umull2	v6.4s, v19.8h, v2.8h
	umull	v19.4s, v19.4h, v2.4h
	uzp2	v7.8h, v16.8h, v7.8h
	uzp2	v16.8h, v17.8h, v18.8h
	rev16	v5.16b, v5.16b
	movi	v17.8h, #128
	uzp2	v6.8h, v19.8h, v6.8h
	rev16	v7.16b, v7.16b
	movi	v18.8h, #128
	orr	v5.16b, v5.16b, v16.16b
	orr	v6.16b, v7.16b, v6.16b
	ldp	q7, q16, [x25]
	ushr	v5.4s, v5.4s, #24
	ushr	v6.4s, v6.4s, #24
	ushr	v19.8h, v7.8h, #8
	bic	v7.8h, #255, lsl #8
	tbl	v5.16b, { v5.16b }, v3.16b
	tbl	v3.16b, { v6.16b }, v3.16b
	ushr	v6.8h, v16.8h, #8
	bic	v16.8h, #255, lsl #8
	mla	v17.8h, v19.8h, v5.8h
	movi	v19.8h, #128
	mla	v18.8h, v6.8h, v3.8h
	movi	v6.8h, #128
	mla	v19.8h, v7.8h, v5.8h
	umull2	v5.4s, v17.8h, v2.8h
	umull	v7.4s, v17.4h, v2.4h
	mla	v6.8h, v16.8h, v3.8h
	umull2	v3.4s, v18.8h, v2.8h
	umull	v16.4s, v18.4h, v2.4h
	umull2	v17.4s, v19.8h, v2.8h
	umull	v18.4s, v19.4h, v2.4h
	uzp2	v5.8h, v7.8h, v5.8h
	umull2	v7.4s, v6.8h, v2.8h
	umull	v2.4s, v6.4h, v2.4h
	uzp2	v3.8h, v16.8h, v3.8h
	uzp2	v6.8h, v18.8h, v17.8h
	tbl	v5.16b, { v5.16b }, v4.16b
	uzp2	v2.8h, v2.8h, v7.8h
	tbl	v3.16b, { v3.16b }, v4.16b
	orr	v4.16b, v5.16b, v6.16b
	orr	v2.16b, v3.16b, v2.16b
	stp	q4, q2, [x25], #64
	b.ne	.LBB_c0493c_5
.LBB_c0493c_6:
	cmp	x18, x15
	b.eq	.LBB_c0493c_2
	add	x26, x16, x8
	madd	x25, x8, x1, x11
	madd	x26, x26, x3, x10
	add	x25, x0, x25, lsl #2
	add	x26, x2, x26, lsl #2
	add	x25, x25, x6
	add	x26, x26, x6
	tbnz	w15, #3, .LBB_c0493c_10
	tbnz	w15, #2, .LBB_c0493c_11
.LBB_c0493c_9:
	cmp	x5, x4
	b.eq	.LBB_c0493c_2
	b	.LBB_c0493c_12
.LBB_c0493c_10:
	ldp	q3, q4, [x26]
	movi	v5.8h, #128
	movi	v6.8h, #128
	movi	v17.8h, #128
	movi	v18.8h, #128
	movi	v2.16b, #1
	ushr	v7.8h, v3.8h, #8
	ushr	v16.8h, v4.8h, #8
	bic	v3.8h, #255, lsl #8
	bic	v4.8h, #255, lsl #8
	mla	v5.8h, v7.8h, v1.8h
	mla	v6.8h, v16.8h, v1.8h
	mla	v18.8h, v3.8h, v0.8h
	mla	v17.8h, v4.8h, v0.8h
	umull2	v3.4s, v5.8h, v2.8h
	umull	v5.4s, v5.4h, v2.4h
	umull2	v4.4s, v6.8h, v2.8h
	umull	v6.4s, v6.4h, v2.4h
	umull2	v7.4s, v18.8h, v2.8h
	umull	v16.4s, v18.4h, v2.4h
	uzp2	v3.8h, v5.8h, v3.8h
	umull2	v5.4s, v17.8h, v2.8h
	umull	v17.4s, v17.4h, v2.4h
	uzp2	v4.8h, v6.8h, v4.8h
	uzp2	v6.8h, v16.8h, v7.8h
	movi	v16.8h, #128
	rev16	v3.16b, v3.16b
	uzp2	v5.8h, v17.8h, v5.8h
	movi	v17.8h, #128
	rev16	v4.16b, v4.16b
	orr	v3.16b, v3.16b, v6.16b
	ldp	q6, q7, [x25]
	orr	v4.16b, v4.16b, v5.16b
	ldr	q5, [x24, :lo12:.LCPI_c0493c_0]
	ushr	v3.4s, v3.4s, #24
	ushr	v18.8h, v6.8h, #8
	bic	v6.8h, #255, lsl #8
	ushr	v4.4s, v4.4s, #24
	tbl	v3.16b, { v3.16b }, v5.16b
	tbl	v4.16b, { v4.16b }, v5.16b
	ushr	v5.8h, v7.8h, #8
	bic	v7.8h, #255, lsl #8
	mla	v16.8h, v18.8h, v3.8h
	movi	v18.8h, #128
	mla	v17.8h, v5.8h, v4.8h
	movi	v5.8h, #128
	mla	v18.8h, v6.8h, v3.8h
	umull2	v3.4s, v16.8h, v2.8h
	umull	v6.4s, v16.4h, v2.4h
	mla	v5.8h, v7.8h, v4.8h
	umull2	v4.4s, v17.8h, v2.8h
	umull	v7.4s, v17.4h, v2.4h
	umull2	v16.4s, v18.8h, v2.8h
	umull	v17.4s, v18.4h, v2.4h
	uzp2	v3.8h, v6.8h, v3.8h
	umull2	v6.4s, v5.8h, v2.8h
	umull	v2.4s, v5.4h, v2.4h
	uzp2	v4.8h, v7.8h, v4.8h
	ldr	q5, [x23, :lo12:.LCPI_c0493c_1]
	uzp2	v7.8h, v17.8h, v16.8h
	tbl	v3.16b, { v3.16b }, v5.16b
	uzp2	v2.8h, v2.8h, v6.8h
	tbl	v4.16b, { v4.16b }, v5.16b
	orr	v3.16b, v3.16b, v7.16b
	orr	v2.16b, v4.16b, v2.16b
	stp	q3, q2, [x25]
	tbz	w15, #2, .LBB_c0493c_9
.LBB_c0493c_11:
	ldr	q2, [x26, x7]
	movi	v3.8h, #128
	movi	v5.8h, #128
	movi	v6.16b, #1
	adrp	x24, .LCPI_c0493c_2
	movi	v16.8h, #128
	ushr	v4.8h, v2.8h, #8
	bic	v2.8h, #255, lsl #8
	mla	v3.8h, v4.8h, v1.8h
	mla	v5.8h, v2.8h, v0.8h
	umull2	v2.4s, v3.8h, v6.8h
	umull	v3.4s, v3.4h, v6.4h
	umull2	v4.4s, v5.8h, v6.8h
	umull	v5.4s, v5.4h, v6.4h
	uzp2	v2.8h, v3.8h, v2.8h
	uzp2	v3.8h, v5.8h, v4.8h
	movi	v4.8h, #128
	rev16	v2.16b, v2.16b
	orr	v2.16b, v2.16b, v3.16b
	ldr	q3, [x24, :lo12:.LCPI_c0493c_2]
	ushr	v2.4s, v2.4s, #24
	tbl	v2.16b, { v2.16b }, v3.16b
	ldr	q3, [x25, x7]
	ushr	v5.8h, v3.8h, #8
	bic	v3.8h, #255, lsl #8
	ushr	v7.8h, v2.8h, #8
	bic	v2.8h, #255, lsl #8
	mla	v4.8h, v5.8h, v7.8h
	mla	v16.8h, v3.8h, v2.8h
	umull2	v2.4s, v4.8h, v6.8h
	umull	v3.4s, v4.4h, v6.4h
	umull2	v4.4s, v16.8h, v6.8h
	umull	v5.4s, v16.4h, v6.4h
	uzp2	v2.8h, v3.8h, v2.8h
	ldr	q3, [x23, :lo12:.LCPI_c0493c_1]
	uzp2	v4.8h, v5.8h, v4.8h
	tbl	v2.16b, { v2.16b }, v3.16b
	orr	v2.16b, v2.16b, v4.16b
	str	q2, [x25, x7]
	cmp	x5, x4
	b.eq	.LBB_c0493c_2
.LBB_c0493c_12:
	mov	x23, x22
	mov	x24, x21
	and	x25, x15, #0xc
.LBB_c0493c_13:
	ldr	w26, [x23]
	adrp	x27, .LCPI_c0493c_3
	mov	w28, #128
	ldr	d3, [x27, :lo12:.LCPI_c0493c_3]
	ldrb	w27, [x24, #3]
	movi	v4.2s, #128
	dup	v2.2s, w26
	add	x25, x25, #1
	add	x24, x24, #4
	madd	w27, w27, w12, w28
	cmp	x25, x4
	ushl	v2.2s, v2.2s, v3.2s
	and	w30, w27, #0xff00
	add	w27, w27, w30, lsr #8
	adrp	x30, .LCPI_c0493c_4
	mov	s3, v2.s[1]
	str	h2, [sp, #12]
	ubfx	w27, w27, #8, #8
	str	h3, [sp, #14]
	dup	v3.2s, w27
	ldr	s2, [sp, #12]
	zip1	v2.8b, v2.8b, v2.8b
	mov	v2.h[3], wzr
	uzp1	v2.8b, v2.8b, v0.8b
	ushll	v2.4s, v2.4h, #0
	mla	v4.2s, v3.2s, v2.2s
	movi	d2, #0x00ffff0000ffff
	and	v3.8b, v4.8b, v2.8b
	usra	v4.2s, v3.2s, #8
	ldr	d3, [x30, :lo12:.LCPI_c0493c_4]
	ubfx	w30, w26, #8, #8
	and	w26, w26, #0xff
	madd	w30, w27, w30, w28
	and	v2.8b, v4.8b, v2.8b
	movi	d4, #0xffff0000ff000000
	madd	w26, w27, w26, w28
	and	w27, w30, #0xff00
	ushl	v2.2s, v2.2s, v3.2s
	and	w28, w26, #0xff00
	add	w27, w30, w27, lsr #8
	add	w26, w26, w28, lsr #8
	and	w27, w27, #0xff00
	and	v2.8b, v2.8b, v4.8b
	and	w26, w26, #0xff00
	dup	v3.2s, v2.s[1]
	orr	v2.8b, v2.8b, v3.8b
	fmov	w28, s2
	orr	w27, w28, w27
	orr	w26, w27, w26, lsr #8
	str	w26, [x23], #4
	b.lo	.LBB_c0493c_13
	b	.LBB_c0493c_2
.LBB_c0493c_14:
	ldp	x20, x19, [sp, #80]
	ldp	x22, x21, [sp, #64]
	ldp	x24, x23, [sp, #48]
	ldp	x26, x25, [sp, #32]
	ldp	x28, x27, [sp, #16]
	ldr	x30, [sp], #96
.LBB_c0493c_15:
	ret
.Lfunc_end_c0493c:
	.size	"pix_raster::view::blit_overlap::<#b96d0594766ff04b>", .Lfunc_end_c0493c-"pix_raster::view::blit_overlap::<#b96d0594766ff04b>"

	.section	.rodata.cst16,"aM",@progbits,16
	.p2align	4, 0x0
.LCPI_e9714c_0:
	.byte	0
	.byte	255
	.byte	0
	.byte	255
	.byte	4
	.byte	255
	.byte	4
	.byte	255
	.byte	8
	.byte	255
	.byte	8
	.byte	255
	.byte	12
	.byte	255
	.byte	12
	.byte	255
.LCPI_e9714c_1:
	.byte	255
	.byte	0
	.byte	255
	.byte	2
	.byte	255
	.byte	4
	.byte	255
	.byte	6
	.byte	255
	.byte	8
	.byte	255
	.byte	10
	.byte	255
	.byte	12
	.byte	255
	.byte	14
.LCPI_e9714c_2:
	.byte	0
	.byte	0
	.byte	0
	.byte	0
	.byte	4
	.byte	4
	.byte	4
	.byte	4
	.byte	8
	.byte	8
	.byte	8
	.byte	8
	.byte	12
	.byte	12
	.byte	12
	.byte	12
.LCPI_e9714c_4:
	.word	16
	.word	24
	.word	8
	.word	0
	.section	.rodata.cst8,"aM",@progbits,8
	.p2align	3, 0x0
.LCPI_e9714c_3:
	.word	4294967280
	.word	4294967272
	.section	".text.pix_raster::view::blit_overlap::<#d408076b946df4a1>","ax",@progbits
	.p2align	2
	.type	"pix_raster::view::blit_overlap::<#d408076b946df4a1>",@function
"pix_raster::view::blit_overlap::<#d408076b946df4a1>":
	ldp	x8, x9, [x4, #24]
	cmp	x8, x9
	b.hs	.LBB_e9714c_15
	sub	sp, sp, #96
	ldr	x16, [x4, #40]
	ldp	x13, x10, [x4, #8]
	ldr	x11, [x4]
	madd	x6, x8, x1, x11
	lsl	x12, x3, #2
	stp	x20, x19, [sp, #80]
	lsl	x14, x1, #2
	madd	x5, x16, x3, x10
	sub	x13, x13, x11
	stp	x22, x21, [sp, #64]
	and	x15, x13, #0xfffffffffffffff0
	lsl	x7, x13, #2
	lsr	x17, x13, #4
	lsr	x19, x15, #4
	sub	x16, x16, x8
	and	x18, x13, #0xf
	and	x21, x7, #0x30
	add	x22, x0, x6, lsl #2
	and	x4, x13, #0xc
	bfi	x21, x19, #6, #58
	and	x6, x7, #0x20
	stp	x28, x27, [sp, #16]
	add	x20, x2, x5, lsl #2
	lsl	x5, x15, #2
	add	x19, x22, #32
	stp	x26, x25, [sp, #32]
	add	x7, x20, #32
	add	x20, x20, x21
	add	x21, x22, x21
	stp	x24, x23, [sp, #48]
	b	.LBB_e9714c_3
.LBB_e9714c_2:
	add	x8, x8, #1
	add	x7, x7, x12
	add	x19, x19, x14
	cmp	x8, x9
	add	x20, x20, x12
	add	x21, x21, x14
	b.eq	.LBB_e9714c_14
.LBB_e9714c_3:
	adrp	x23, .LCPI_e9714c_0
	adrp	x22, .LCPI_e9714c_1
	cbz	x17, .LBB_e9714c_6
	mov	x24, x19
	mov	x25, x7
	mov	x26, x17
.LBB_e9714c_5:
	ldp	q5, q4, [x24, #-32]
	movi	v2.8h, #128
	ldp	q21, q24, [x25, #-32]
	movi	v7.8h, #128
	ldr	q0, [x23, :lo12:.LCPI_e9714c_0]
	movi	v6.8h, #128
	movi	v22.8h, #128
	ushr	v16.4s, v5.4s, #24
	ushr	v19.4s, v4.4s, #24
	ushr	v25.8h, v5.8h, #8
	mvn	v17.16b, v21.16b
	mvn	v18.16b, v24.16b
	ushr	v20.8h, v21.8h, #8
	bic	v21.8h, #255, lsl #8
	ushr	v23.8h, v24.8h, #8
	subs	x26, x26, #1
	tbl	v16.16b, { v16.16b }, v0.16b
	tbl	v19.16b, { v19.16b }, v0.16b
	movi	v3.8h, #128
	ushr	v17.4s, v17.4s, #24
	ushr	v18.4s, v18.4s, #24
	movi	v1.16b, #1
	bic	v24.8h, #255, lsl #8
	bic	v5.8h, #255, lsl #8
	tbl	v17.16b, { v17.16b }, v0.16b
	tbl	v18.16b, { v18.16b }, v0.16b
	mla	v2.8h, v21.8h, v16.8h
	movi	v21.8h, #128
	mla	v7.8h, v20.8h, v16.8h
	ushr	v16.8h, v4.8h, #8
	mla	v6.8h, v23.8h, v19.8h
	movi	v20.8h, #128
	movi	v23.8h, #128
	bic	v4.8h, #255, lsl #8
	mla	v3.8h, v24.8h, v19.8h
	mla	v22.8h, v25.8h, v17.8h
	umull	v24.4s, v2.4h, v1.4h
	mla	v21.8h, v16.8h, v18.8h
	umull2	v16.4s, v7.8h, v1.8h
	umull	v7.4s, v7.4h, v1.4h
	umull2	v19.4s, v6.8h, v1.8h
	umull	v6.4s, v6.4h, v1.4h
	mla	v20.8h, v5.8h, v17.8h
	mla	v23.8h, v4.8h, v18.8h
	umull2	v5.4s, v22.8h, v1.8h
	umull	v17.4s, v22.4h, v1.4h
	umull2	v22.4s, v2.8h, v1.8h
	ldr	q2, [x22, :lo12:.LCPI_e9714c_1]
	umull2	v4.4s, v21.8h, v1.8h
	umull	v18.4s, v21.4h, v1.4h
	umull2	v21.4s, v3.8h, v1.8h
	umull	v3.4s, v3.4h, v1.4h
	uzp2	v7.8h, v7.8h, v16.8h
	uzp2	v6.8h, v6.8h, v19.8h
	umull2	v16.4s, v20.8h, v1.8h
	umull	v19.4s, v20.4h, v1.4h
	uzp2	v5.8h, v17.8h, v5.8h
	umull2	v17.4s, v23.8h, v1.8h
	umull	v20.4s, v23.4h, v1.4h
	uzp2	v4.8h, v18.8h, v4.8h
	uzp2	v18.8h, v24.8h, v22.8h
	uzp2	v3.8h, v3.8h, v21.8h
	tbl	v7.16b, { v7.16b }, v2.16b
	movi	v21.8h, #128
	uzp2	v16.8h, v19.8h, v16.8h
	tbl	v6.16b, { v6.16b }, v2.16b
	tbl	v5.16b, { v5.16b }, v2.16b
	uzp2	v17.8h, v20.8h, v17.8h
	tbl	v4.16b, { v4.16b }, v2.16b
	orr	v7.16b, v7.16b, v18.16b
	orr	v3.16b, v6.16b, v3.16b
	orr	v5.16b, v5.16b, v16.16b
	movi	v16.8h, #128
	orr	v4.16b, v4.16b, v17.16b
	uqadd	v5.16b, v7.16b, v5.16b
	movi	v7.8h, #128
	uqadd	v3.16b, v3.16b, v4.16b
	stp	q5, q3, [x24, #-32]
	ldp	q5, q4, [x24]
	ldp	q6, q23, [x25], #64
	movi	v3.8h, #128
	ushr	v17.4s, v4.4s, #24
	ushr	v19.4s, v5.4s, #24
	mvn	v18.16b, v6.16b
	mvn	v20.16b, v23.16b
	ushr	v22.8h, v23.8h, #8
	bic	v23.8h, #255, lsl #8
	ushr	v24.8h, v6.8h, #8
	bic	v6.8h, #255, lsl #8
	tbl	v17.16b, { v17.16b }, v0.16b
	tbl	v19.16b, { v19.16b }, v0.16b
	ushr	v18.4s, v18.4s, #24
	ushr	v20.4s, v20.4s, #24
	tbl	v18.16b, { v18.16b }, v0.16b
	mla	v7.8h, v22.8h, v17.8h
	mla	v3.8h, v23.8h, v17.8h
	movi	v17.8h, #128
	tbl	v0.16b, { v20.16b }, v0.16b
	ushr	v22.8h, v5.8h, #8
	ushr	v23.8h, v4.8h, #8
	movi	v20.8h, #128
	mla	v21.8h, v24.8h, v19.8h
	movi	v24.8h, #128
	bic	v5.8h, #255, lsl #8
	bic	v4.8h, #255, lsl #8
	mla	v16.8h, v22.8h, v18.8h
	movi	v22.8h, #128
	mla	v17.8h, v23.8h, v0.8h
	umull2	v23.4s, v21.8h, v1.8h
	umull	v21.4s, v21.4h, v1.4h
	mla	v20.8h, v6.8h, v19.8h
	umull2	v6.4s, v7.8h, v1.8h
	umull	v7.4s, v7.4h, v1.4h
	mla	v24.8h, v5.8h, v18.8h
	umull2	v5.4s, v16.8h, v1.8h
	umull	v16.4s, v16.4h, v1.4h
	mla	v22.8h, v4.8h, v0.8h
	umull2	v0.4s, v17.8h, v1.8h
	umull	v4.4s, v17.4h, v1.4h
	umull2	v17.4s, v3.8h, v1.8h
	umull	v3.4s, v3.4h, v1.4h
	uzp2	v18.8h, v21.8h, v23.8h
	umull2	v19.4s, v20.8h, v1.8h
	umull	v20.4s, v20.4h, v1.4h
	uzp2	v6.8h, v7.8h, v6.8h
	umull2	v7.4s, v24.8h, v1.8h
	umull	v21.4s, v24.4h, v1.4h
	uzp2	v5.8h, v16.8h, v5.8h
	umull2	v16.4s, v22.8h, v1.8h
	umull	v1.4s, v22.4h, v1.4h
	uzp2	v0.8h, v4.8h, v0.8h
	uzp2	v3.8h, v3.8h, v17.8h
	tbl	v17.16b, { v18.16b }, v2.16b
	uzp2	v4.8h, v20.8h, v19.8h
	tbl	v6.16b, { v6.16b }, v2.16b
	uzp2	v7.8h, v21.8h, v7.8h
	tbl	v5.16b, { v5.16b }, v2.16b
	uzp2	v1.8h, v1.8h, v16.8h
	tbl	v0.16b, { v0.16b }, v2.16b
	orr	v2.16b, v17.16b, v4.16b
	orr	v3.16b, v6.16b, v3.16b
	orr	v4.16b, v5.16b, v7.16b
	orr	v0.16b, v0.16b, v1.16b
	uqadd	v1.16b, v2.16b, v4.16b
	uqadd	v0.16b, v3.16b, v0.16b
	stp	q1, q0, [x24], #64
	b.ne	.LBB_e9714c_5
.LBB_e9714c_6:
	cmp	x15, x13
	b.eq	.LBB_e9714c_2
	add	x25, x16, x8
	madd	x24, x8, x1, x11
	madd	x25, x25, x3, x10
	add	x24, x0, x24, lsl #2
	add	x25, x2, x25, lsl #2
	add	x24, x24, x5
	add	x25, x25, x5
	tbnz	w13, #3, .LBB_e9714c_10
	tbnz	w13, #2, .LBB_e9714c_11
.LBB_e9714c_9:
	cmp	x4, x18
	b.eq	.LBB_e9714c_2
	b	.LBB_e9714c_12
.LBB_e9714c_10:
	ldp	q3, q0, [x24]
	movi	v1.8h, #128
	ldp	q5, q20, [x25]
	movi	v21.8h, #128
	ldr	q17, [x23, :lo12:.LCPI_e9714c_0]
	movi	v2.8h, #128
	movi	v22.8h, #128
	ushr	v6.4s, v0.4s, #24
	ushr	v18.4s, v3.4s, #24
	movi	v4.16b, #1
	mvn	v7.16b, v5.16b
	mvn	v16.16b, v20.16b
	ushr	v19.8h, v20.8h, #8
	bic	v20.8h, #255, lsl #8
	ushr	v23.8h, v5.8h, #8
	bic	v5.8h, #255, lsl #8
	tbl	v6.16b, { v6.16b }, v17.16b
	tbl	v18.16b, { v18.16b }, v17.16b
	ushr	v16.4s, v16.4s, #24
	ushr	v7.4s, v7.4s, #24
	tbl	v7.16b, { v7.16b }, v17.16b
	tbl	v16.16b, { v16.16b }, v17.16b
	mla	v1.8h, v20.8h, v6.8h
	movi	v20.8h, #128
	ushr	v17.8h, v3.8h, #8
	mla	v21.8h, v23.8h, v18.8h
	ushr	v23.8h, v0.8h, #8
	mla	v22.8h, v19.8h, v6.8h
	movi	v6.8h, #128
	movi	v19.8h, #128
	bic	v3.8h, #255, lsl #8
	bic	v0.8h, #255, lsl #8
	mla	v2.8h, v17.8h, v7.8h
	movi	v17.8h, #128
	mla	v20.8h, v23.8h, v16.8h
	umull2	v23.4s, v21.8h, v4.8h
	umull	v21.4s, v21.4h, v4.4h
	mla	v6.8h, v5.8h, v18.8h
	umull2	v5.4s, v22.8h, v4.8h
	umull	v18.4s, v22.4h, v4.4h
	mla	v19.8h, v3.8h, v7.8h
	umull2	v3.4s, v2.8h, v4.8h
	umull	v2.4s, v2.4h, v4.4h
	mla	v17.8h, v0.8h, v16.8h
	umull2	v0.4s, v20.8h, v4.8h
	umull	v7.4s, v20.4h, v4.4h
	umull2	v16.4s, v1.8h, v4.8h
	umull	v1.4s, v1.4h, v4.4h
	uzp2	v20.8h, v21.8h, v23.8h
	umull2	v21.4s, v6.8h, v4.8h
	umull	v6.4s, v6.4h, v4.4h
	uzp2	v5.8h, v18.8h, v5.8h
	umull2	v18.4s, v19.8h, v4.8h
	umull	v19.4s, v19.4h, v4.4h
	uzp2	v2.8h, v2.8h, v3.8h
	umull2	v3.4s, v17.8h, v4.8h
	umull	v4.4s, v17.4h, v4.4h
	uzp2	v0.8h, v7.8h, v0.8h
	ldr	q7, [x22, :lo12:.LCPI_e9714c_1]
	uzp2	v1.8h, v1.8h, v16.8h
	uzp2	v6.8h, v6.8h, v21.8h
	tbl	v16.16b, { v20.16b }, v7.16b
	tbl	v5.16b, { v5.16b }, v7.16b
	uzp2	v17.8h, v19.8h, v18.8h
	tbl	v2.16b, { v2.16b }, v7.16b
	uzp2	v3.8h, v4.8h, v3.8h
	tbl	v0.16b, { v0.16b }, v7.16b
	orr	v4.16b, v16.16b, v6.16b
	orr	v1.16b, v5.16b, v1.16b
	orr	v2.16b, v2.16b, v17.16b
	orr	v0.16b, v0.16b, v3.16b
	uqadd	v2.16b, v4.16b, v2.16b
	uqadd	v0.16b, v1.16b, v0.16b
	stp	q2, q0, [x24]
	tbz	w13, #2, .LBB_e9714c_9
.LBB_e9714c_11:
	ldr	q1, [x25, x6]
	ldr	q0, [x24, x6]
	adrp	x23, .LCPI_e9714c_2
	ldr	q4, [x23, :lo12:.LCPI_e9714c_2]
	movi	v5.8h, #128
	mvn	v2.16b, v1.16b
	ushr	v3.4s, v0.4s, #24
	ushr	v6.8h, v1.8h, #8
	ushr	v16.8h, v0.8h, #8
	bic	v1.8h, #255, lsl #8
	bic	v0.8h, #255, lsl #8
	ushr	v2.4s, v2.4s, #24
	tbl	v3.16b, { v3.16b }, v4.16b
	tbl	v2.16b, { v2.16b }, v4.16b
	movi	v4.8h, #128
	ushr	v7.8h, v3.8h, #8
	bic	v3.8h, #255, lsl #8
	ushr	v17.8h, v2.8h, #8
	mla	v4.8h, v7.8h, v6.8h
	movi	v6.8h, #128
	movi	v7.16b, #1
	bic	v2.8h, #255, lsl #8
	mla	v5.8h, v16.8h, v17.8h
	movi	v16.8h, #128
	mla	v6.8h, v3.8h, v1.8h
	umull2	v1.4s, v4.8h, v7.8h
	umull	v3.4s, v4.4h, v7.4h
	mla	v16.8h, v0.8h, v2.8h
	umull2	v0.4s, v5.8h, v7.8h
	umull	v2.4s, v5.4h, v7.4h
	umull2	v4.4s, v6.8h, v7.8h
	umull	v5.4s, v6.4h, v7.4h
	uzp2	v1.8h, v3.8h, v1.8h
	umull2	v3.4s, v16.8h, v7.8h
	umull	v6.4s, v16.4h, v7.4h
	uzp2	v0.8h, v2.8h, v0.8h
	ldr	q2, [x22, :lo12:.LCPI_e9714c_1]
	uzp2	v4.8h, v5.8h, v4.8h
	tbl	v1.16b, { v1.16b }, v2.16b
	uzp2	v3.8h, v6.8h, v3.8h
	tbl	v0.16b, { v0.16b }, v2.16b
	orr	v1.16b, v1.16b, v4.16b
	orr	v0.16b, v0.16b, v3.16b
	uqadd	v0.16b, v1.16b, v0.16b
	str	q0, [x24, x6]
	cmp	x4, x18
	b.eq	.LBB_e9714c_2
.LBB_e9714c_12:
	mov	x22, x21
	mov	x23, x20
	and	x24, x13, #0xc
.LBB_e9714c_13:
	ldr	w26, [x22]
	adrp	x27, .LCPI_e9714c_3
	movi	v5.4h, #128
	ldr	w25, [x23], #4
	ldr	d1, [x27, :lo12:.LCPI_e9714c_3]
	dup	v0.2s, w26
	add	x24, x24, #1
	dup	v2.2s, w25
	cmp	x24, x18
	ushl	v0.2s, v0.2s, v1.2s
	ushl	v1.2s, v2.2s, v1.2s
	mov	w27, v0.s[1]
	str	h0, [sp, #4]
	mov	s2, v1.s[1]
	str	h1, [sp, #12]
	strh	w27, [sp, #6]
	ldr	s3, [sp, #4]
	str	h2, [sp, #14]
	ldr	s2, [sp, #12]
	zip1	v1.8b, v3.8b, v3.8b
	movi	v3.4h, #128
	zip1	v2.8b, v2.8b, v2.8b
	mov	v1.h[1], wzr
	mov	v2.h[1], wzr
	uzp1	v1.8b, v1.8b, v0.8b
	uzp1	v2.8b, v2.8b, v0.8b
	dup	v0.4h, v0.h[2]
	ushll	v1.4s, v1.4h, #0
	ushll	v2.4s, v2.4h, #0
	mov	w27, v1.s[1]
	mov	w28, v2.s[1]
	mov	v1.h[1], w27
	ubfx	w27, w26, #8, #8
	and	w26, w26, #0xff
	mov	v2.h[1], w28
	mvn	w28, w25
	lsr	w28, w28, #24
	mov	v1.h[2], w27
	ubfx	w27, w25, #8, #8
	dup	v4.4h, w28
	and	w25, w25, #0xff
	mov	v2.h[2], w27
	mov	v1.h[3], w26
	mov	v2.h[3], w25
	adrp	x25, .LCPI_e9714c_4
	mla	v3.4h, v4.4h, v1.4h
	movi	d1, #0xff00ff00ff00ff
	mla	v5.4h, v2.4h, v0.4h
	usra	v3.4h, v3.4h, #8
	usra	v5.4h, v5.4h, #8
	ushr	v0.4h, v3.4h, #8
	usra	v0.4h, v5.4h, #8
	umin	v0.4h, v0.4h, v1.4h
	ldr	q1, [x25, :lo12:.LCPI_e9714c_4]
	ushll	v0.4s, v0.4h, #0
	ushl	v0.4s, v0.4s, v1.4s
	ext	v1.16b, v0.16b, v0.16b, #8
	orr	v0.8b, v0.8b, v1.8b
	fmov	x25, d0
	lsr	x26, x25, #32
	orr	w25, w25, w26
	str	w25, [x22], #4
	b.lo	.LBB_e9714c_13
	b	.LBB_e9714c_2
.LBB_e9714c_14:
	ldp	x20, x19, [sp, #80]
	ldp	x22, x21, [sp, #64]
	ldp	x24, x23, [sp, #48]
	ldp	x26, x25, [sp, #32]
	ldp	x28, x27, [sp, #16]
	add	sp, sp, #96
.LBB_e9714c_15:
	ret
.Lfunc_end_e9714c:
	.size	"pix_raster::view::blit_overlap::<#d408076b946df4a1>", .Lfunc_end_e9714c-"pix_raster::view::blit_overlap::<#d408076b946df4a1>"

	.section	.rodata.cst16,"aM",@progbits,16
	.p2align	4, 0x0
.LCPI_a1ada3_0:
	.word	0
	.word	4294967288
	.word	4294967280
	.word	4294967272
.LCPI_a1ada3_1:
	.byte	255
	.byte	0
	.byte	255
	.byte	2
	.byte	255
	.byte	4
	.byte	255
	.byte	6
	.byte	255
	.byte	8
	.byte	255
	.byte	10
	.byte	255
	.byte	12
	.byte	255
	.byte	14
.LCPI_a1ada3_2:
	.byte	0
	.byte	255
	.byte	0
	.byte	255
	.byte	4
	.byte	255
	.byte	4
	.byte	255
	.byte	8
	.byte	255
	.byte	8
	.byte	255
	.byte	12
	.byte	255
	.byte	12
	.byte	255
.LCPI_a1ada3_3:
	.byte	0
	.byte	0
	.byte	0
	.byte	0
	.byte	1
	.byte	1
	.byte	1
	.byte	1
	.byte	2
	.byte	2
	.byte	2
	.byte	2
	.byte	3
	.byte	3
	.byte	3
	.byte	3
.LCPI_a1ada3_4:
	.byte	0
	.byte	0
	.byte	0
	.byte	0
	.byte	4
	.byte	4
	.byte	4
	.byte	4
	.byte	8
	.byte	8
	.byte	8
	.byte	8
	.byte	12
	.byte	12
	.byte	12
	.byte	12
.LCPI_a1ada3_5:
	.word	24
	.word	16
	.word	8
	.word	0
	.section	".text.pix_raster::view::blit_overlap::<#09758d48ce65f64e>","ax",@progbits
	.p2align	2
	.type	"pix_raster::view::blit_overlap::<#09758d48ce65f64e>",@function
"pix_raster::view::blit_overlap::<#09758d48ce65f64e>":
	ldp	x8, x9, [x4, #24]
	cmp	x8, x9
	b.hs	.LBB_a1ada3_19
	str	x27, [sp, #-80]!
	dup	v0.4s, w5
	adrp	x10, .LCPI_a1ada3_0
	ubfx	w16, w5, #8, #8
	ldr	q1, [x10, :lo12:.LCPI_a1ada3_0]
	ldp	x12, x13, [x4, #8]
	ldr	x14, [x4, #40]
	stp	x20, x19, [sp, #64]
	and	w5, w5, #0xff
	ushl	v0.4s, v0.4s, v1.4s
	stp	x22, x21, [sp, #48]
	madd	x19, x14, x3, x13
	stp	x24, x23, [sp, #32]
	stp	x26, x25, [sp, #16]
	umov	w10, v0.h[4]
	uzp1	v1.8h, v0.8h, v0.8h
	dup	v0.8h, v0.h[6]
	and	w11, w10, #0xff
	ldr	x10, [x4]
	madd	x7, x8, x1, x10
	mov	v0.h[1], w11
	uzp1	v1.16b, v1.16b, v1.16b
	add	x11, x2, x13
	sub	x12, x12, x10
	sub	x13, x14, x8
	and	x15, x12, #0xfffffffffffffff0
	lsl	x21, x12, #2
	and	x6, x12, #0xc
	lsr	x20, x15, #4
	and	x18, x12, #0x8
	add	x23, x15, x6
	mov	v0.h[2], w16
	and	x21, x21, #0x30
	ushr	v2.8h, v1.8h, #8
	bic	v1.8h, #255, lsl #8
	add	x22, x0, x7, lsl #2
	bfi	x21, x20, #6, #58
	lsr	x14, x12, #4
	lsl	x16, x15, #2
	lsl	x4, x18, #2
	lsl	x7, x1, #2
	add	x20, x2, x23
	and	x17, x12, #0xf
	mov	v0.h[3], w5
	add	x5, x19, x2
	add	x2, x22, #32
	add	x5, x5, #8
	add	x19, x20, x19
	add	x20, x22, x21
	b	.LBB_a1ada3_3
.LBB_a1ada3_2:
	add	x8, x8, #1
	add	x5, x5, x3
	add	x2, x2, x7
	cmp	x8, x9
	add	x19, x19, x3
	add	x20, x20, x7
	b.eq	.LBB_a1ada3_18
.LBB_a1ada3_3:
	adrp	x21, .LCPI_a1ada3_1
	adrp	x22, .LCPI_a1ada3_2
	cbz	x14, .LBB_a1ada3_8
	mov	x23, x2
	mov	x24, x5
	mov	x25, x14
	b	.LBB_a1ada3_6
.LBB_a1ada3_5:
	subs	x25, x25, #1
	add	x24, x24, #16
	add	x23, x23, #64
	b.eq	.LBB_a1ada3_8
.LBB_a1ada3_6:
	ldp	d3, d4, [x24, #-8]
	orr	v4.8b, v4.8b, v3.8b
	fmov	x26, d4
	orr	x26, x26, x26, lsr #32
	lsr	x27, x26, #16
	orr	w26, w26, w27
	orr	w26, w26, w26, lsr #8
	tst	w26, #0xff
	b.eq	.LBB_a1ada3_5
	zip1	v3.16b, v3.16b, v3.16b
	movi	v6.8h, #1
	movi	v7.8h, #128
	movi	v16.8h, #128
	movi	v19.8h, #128
	movi	v20.8h, #128
	movi	v23.8h, #128
	movi	v26.8h, #128
	movi	v27.8h, #128
	ushll2	v4.4s, v3.8h, #0
	ushll	v3.4s, v3.4h, #0
	mul	v4.4s, v4.4s, v6.4s
	mul	v5.4s, v3.4s, v6.4s
	movi	v3.16b, #1
	ushr	v17.8h, v4.8h, #8
	ushr	v18.8h, v5.8h, #8
	bic	v4.8h, #255, lsl #8
	bic	v5.8h, #255, lsl #8
	mla	v7.8h, v17.8h, v2.8h
	mla	v16.8h, v18.8h, v2.8h
	mla	v19.8h, v4.8h, v1.8h
	mla	v20.8h, v5.8h, v1.8h
	umull2	v4.4s, v7.8h, v3.8h
	umull	v7.4s, v7.4h, v3.4h
	umull2	v5.4s, v16.8h, v3.8h
	umull	v16.4s, v16.4h, v3.4h
	umull2	v17.4s, v19.8h, v3.8h
	umull	v18.4s, v19.4h, v3.4h
	umull2	v19.4s, v20.8h, v3.8h
	umull	v20.4s, v20.4h, v3.4h
	uzp2	v7.8h, v7.8h, v4.8h
	ldr	q4, [x21, :lo12:.LCPI_a1ada3_1]
	uzp2	v5.8h, v16.8h, v5.8h
	uzp2	v16.8h, v18.8h, v17.8h
	uzp2	v18.8h, v20.8h, v19.8h
	movi	v20.8h, #128
	tbl	v7.16b, { v7.16b }, v4.16b
	tbl	v5.16b, { v5.16b }, v4.16b
	orr	v17.16b, v7.16b, v16.16b
	movi	v7.8h, #128
	orr	v19.16b, v5.16b, v18.16b
	ldp	q16, q18, [x23, #-32]
	ldr	q5, [x22, :lo12:.LCPI_a1ada3_2]
	mvn	v24.16b, v17.16b
	ushr	v30.8h, v17.8h, #8
	bic	v17.8h, #255, lsl #8
	ushr	v21.4s, v16.4s, #24
	mvn	v22.16b, v19.16b
	ushr	v25.4s, v18.4s, #24
	ushr	v28.8h, v19.8h, #8
	bic	v19.8h, #255, lsl #8
	ushr	v29.8h, v18.8h, #8
	ushr	v24.4s, v24.4s, #24
	bic	v18.8h, #255, lsl #8
	tbl	v21.16b, { v21.16b }, v5.16b
	ushr	v22.4s, v22.4s, #24
	tbl	v25.16b, { v25.16b }, v5.16b
	tbl	v24.16b, { v24.16b }, v5.16b
	tbl	v22.16b, { v22.16b }, v5.16b
	mla	v23.8h, v28.8h, v21.8h
	ushr	v28.8h, v16.8h, #8
	mla	v7.8h, v19.8h, v21.8h
	movi	v19.8h, #128
	mla	v20.8h, v30.8h, v25.8h
	movi	v21.8h, #128
	mla	v26.8h, v29.8h, v24.8h
	bic	v16.8h, #255, lsl #8
	mla	v27.8h, v28.8h, v22.8h
	movi	v28.8h, #128
	mla	v19.8h, v17.8h, v25.8h
	umull2	v17.4s, v23.8h, v3.8h
	umull	v23.4s, v23.4h, v3.4h
	umull2	v25.4s, v20.8h, v3.8h
	umull	v20.4s, v20.4h, v3.4h
	mla	v21.8h, v16.8h, v22.8h
	umull2	v16.4s, v27.8h, v3.8h
	umull	v22.4s, v27.4h, v3.4h
	mla	v28.8h, v18.8h, v24.8h
	umull2	v18.4s, v26.8h, v3.8h
	umull	v24.4s, v26.4h, v3.4h
	umull2	v27.4s, v7.8h, v3.8h
	umull2	v26.4s, v19.8h, v3.8h
	umull	v19.4s, v19.4h, v3.4h
	umull	v7.4s, v7.4h, v3.4h
	uzp2	v17.8h, v23.8h, v17.8h
	uzp2	v20.8h, v20.8h, v25.8h
	umull2	v23.4s, v21.8h, v3.8h
	umull	v21.4s, v21.4h, v3.4h
	uzp2	v16.8h, v22.8h, v16.8h
	umull2	v22.4s, v28.8h, v3.8h
	umull	v25.4s, v28.4h, v3.4h
	uzp2	v18.8h, v24.8h, v18.8h
	uzp2	v19.8h, v19.8h, v26.8h
	uzp2	v7.8h, v7.8h, v27.8h
	movi	v26.8h, #128
	tbl	v17.16b, { v17.16b }, v4.16b
	tbl	v20.16b, { v20.16b }, v4.16b
	uzp2	v21.8h, v21.8h, v23.8h
	tbl	v16.16b, { v16.16b }, v4.16b
	uzp2	v22.8h, v25.8h, v22.8h
	tbl	v18.16b, { v18.16b }, v4.16b
	orr	v7.16b, v17.16b, v7.16b
	orr	v17.16b, v20.16b, v19.16b
	movi	v20.8h, #128
	orr	v16.16b, v16.16b, v21.16b
	movi	v21.8h, #128
	orr	v18.16b, v18.16b, v22.16b
	uqadd	v7.16b, v7.16b, v16.16b
	uqadd	v16.16b, v17.16b, v18.16b
	movi	v17.8h, #128
	stp	q7, q16, [x23, #-32]
	ldr	d7, [x24]
	zip1	v7.16b, v7.16b, v7.16b
	ushll2	v16.4s, v7.8h, #0
	ushll	v7.4s, v7.4h, #0
	mul	v16.4s, v16.4s, v6.4s
	mul	v6.4s, v7.4s, v6.4s
	movi	v7.8h, #128
	ushr	v18.8h, v16.8h, #8
	ushr	v19.8h, v6.8h, #8
	bic	v16.8h, #255, lsl #8
	bic	v6.8h, #255, lsl #8
	mla	v7.8h, v18.8h, v2.8h
	mla	v17.8h, v19.8h, v2.8h
	mla	v20.8h, v16.8h, v1.8h
	mla	v21.8h, v6.8h, v1.8h
	umull2	v16.4s, v7.8h, v3.8h
	umull	v7.4s, v7.4h, v3.4h
	umull2	v6.4s, v17.8h, v3.8h
	umull	v17.4s, v17.4h, v3.4h
	umull2	v18.4s, v20.8h, v3.8h
	umull	v19.4s, v20.4h, v3.4h
	umull	v20.4s, v21.4h, v3.4h
	uzp2	v7.8h, v7.8h, v16.8h
	umull2	v16.4s, v21.8h, v3.8h
	uzp2	v6.8h, v17.8h, v6.8h
	uzp2	v17.8h, v19.8h, v18.8h
	tbl	v7.16b, { v7.16b }, v4.16b
	uzp2	v16.8h, v20.8h, v16.8h
	movi	v20.8h, #128
	tbl	v6.16b, { v6.16b }, v4.16b
	orr	v17.16b, v7.16b, v17.16b
	movi	v7.8h, #128
	orr	v19.16b, v6.16b, v16.16b
	ldp	q16, q18, [x23]
	movi	v6.8h, #128
	mvn	v21.16b, v17.16b
	ushr	v22.4s, v16.4s, #24
	mvn	v23.16b, v19.16b
	ushr	v24.4s, v18.4s, #24
	ushr	v27.8h, v19.8h, #8
	bic	v19.8h, #255, lsl #8
	ushr	v28.8h, v18.8h, #8
	ushr	v25.4s, v21.4s, #24
	movi	v21.8h, #128
	bic	v18.8h, #255, lsl #8
	tbl	v22.16b, { v22.16b }, v5.16b
	ushr	v23.4s, v23.4s, #24
	tbl	v24.16b, { v24.16b }, v5.16b
	tbl	v25.16b, { v25.16b }, v5.16b
	tbl	v5.16b, { v23.16b }, v5.16b
	ushr	v23.8h, v17.8h, #8
	bic	v17.8h, #255, lsl #8
	mla	v21.8h, v27.8h, v22.8h
	ushr	v27.8h, v16.8h, #8
	mla	v6.8h, v19.8h, v22.8h
	movi	v19.8h, #128
	movi	v22.8h, #128
	bic	v16.8h, #255, lsl #8
	mla	v20.8h, v23.8h, v24.8h
	mla	v26.8h, v28.8h, v25.8h
	movi	v23.8h, #128
	mla	v7.8h, v27.8h, v5.8h
	mla	v19.8h, v17.8h, v24.8h
	umull2	v17.4s, v21.8h, v3.8h
	umull	v21.4s, v21.4h, v3.4h
	umull2	v24.4s, v20.8h, v3.8h
	umull	v20.4s, v20.4h, v3.4h
	mla	v22.8h, v16.8h, v5.8h
	umull2	v5.4s, v7.8h, v3.8h
	umull	v7.4s, v7.4h, v3.4h
	mla	v23.8h, v18.8h, v25.8h
	umull2	v16.4s, v26.8h, v3.8h
	umull	v18.4s, v26.4h, v3.4h
	umull2	v26.4s, v6.8h, v3.8h
	umull2	v25.4s, v19.8h, v3.8h
	umull	v19.4s, v19.4h, v3.4h
	umull	v6.4s, v6.4h, v3.4h
	uzp2	v17.8h, v21.8h, v17.8h
	uzp2	v20.8h, v20.8h, v24.8h
	umull2	v21.4s, v22.8h, v3.8h
	umull	v22.4s, v22.4h, v3.4h
	uzp2	v5.8h, v7.8h, v5.8h
	umull2	v7.4s, v23.8h, v3.8h
	umull	v3.4s, v23.4h, v3.4h
	uzp2	v16.8h, v18.8h, v16.8h
	uzp2	v18.8h, v19.8h, v25.8h
	uzp2	v6.8h, v6.8h, v26.8h
	tbl	v17.16b, { v17.16b }, v4.16b
	tbl	v20.16b, { v20.16b }, v4.16b
	uzp2	v19.8h, v22.8h, v21.8h
	tbl	v5.16b, { v5.16b }, v4.16b
	uzp2	v3.8h, v3.8h, v7.8h
	tbl	v4.16b, { v16.16b }, v4.16b
	orr	v6.16b, v17.16b, v6.16b
	orr	v7.16b, v20.16b, v18.16b
	orr	v5.16b, v5.16b, v19.16b
	orr	v3.16b, v4.16b, v3.16b
	uqadd	v4.16b, v6.16b, v5.16b
	uqadd	v3.16b, v7.16b, v3.16b
	stp	q4, q3, [x23]
	b	.LBB_a1ada3_5
.LBB_a1ada3_8:
	cmp	x15, x12
	b.eq	.LBB_a1ada3_2
	madd	x23, x8, x1, x10
	add	x24, x13, x8
	madd	x24, x24, x3, x11
	add	x23, x0, x23, lsl #2
	add	x23, x23, x16
	add	x24, x24, x15
	tbz	w12, #3, .LBB_a1ada3_12
	ldr	d3, [x24]
	fmov	x25, d3
	orr	x25, x25, x25, lsr #32
	lsr	x26, x25, #16
	orr	w25, w25, w26
	orr	w25, w25, w25, lsr #8
	tst	w25, #0xff
	b.eq	.LBB_a1ada3_12
	zip1	v3.16b, v3.16b, v3.16b
	movi	v4.8h, #1
	movi	v6.8h, #128
	movi	v16.8h, #128
	movi	v17.8h, #128
	movi	v24.8h, #128
	ushll	v5.4s, v3.4h, #0
	ushll2	v3.4s, v3.8h, #0
	mul	v5.4s, v5.4s, v4.4s
	mul	v4.4s, v3.4s, v4.4s
	movi	v3.16b, #1
	ushr	v7.8h, v5.8h, #8
	ushr	v18.8h, v4.8h, #8
	bic	v5.8h, #255, lsl #8
	bic	v4.8h, #255, lsl #8
	mla	v6.8h, v7.8h, v2.8h
	movi	v7.8h, #128
	mla	v16.8h, v18.8h, v2.8h
	mla	v17.8h, v5.8h, v1.8h
	umull2	v5.4s, v6.8h, v3.8h
	umull	v6.4s, v6.4h, v3.4h
	mla	v7.8h, v4.8h, v1.8h
	umull2	v18.4s, v16.8h, v3.8h
	umull	v16.4s, v16.4h, v3.4h
	umull2	v19.4s, v17.8h, v3.8h
	umull	v17.4s, v17.4h, v3.4h
	ldr	q4, [x21, :lo12:.LCPI_a1ada3_1]
	uzp2	v5.8h, v6.8h, v5.8h
	umull2	v6.4s, v7.8h, v3.8h
	umull	v7.4s, v7.4h, v3.4h
	uzp2	v16.8h, v16.8h, v18.8h
	movi	v18.8h, #128
	uzp2	v17.8h, v17.8h, v19.8h
	movi	v19.8h, #128
	tbl	v5.16b, { v5.16b }, v4.16b
	uzp2	v6.8h, v7.8h, v6.8h
	tbl	v7.16b, { v16.16b }, v4.16b
	orr	v16.16b, v5.16b, v17.16b
	ldr	q17, [x22, :lo12:.LCPI_a1ada3_2]
	orr	v26.16b, v7.16b, v6.16b
	ldp	q7, q5, [x23]
	movi	v6.8h, #128
	mvn	v21.16b, v16.16b
	ushr	v27.8h, v16.8h, #8
	bic	v16.8h, #255, lsl #8
	ushr	v20.4s, v5.4s, #24
	mvn	v23.16b, v26.16b
	ushr	v22.4s, v7.4s, #24
	ushr	v25.8h, v26.8h, #8
	bic	v26.8h, #255, lsl #8
	ushr	v21.4s, v21.4s, #24
	tbl	v20.16b, { v20.16b }, v17.16b
	ushr	v23.4s, v23.4s, #24
	tbl	v22.16b, { v22.16b }, v17.16b
	tbl	v21.16b, { v21.16b }, v17.16b
	tbl	v17.16b, { v23.16b }, v17.16b
	movi	v23.8h, #128
	mla	v18.8h, v25.8h, v20.8h
	mla	v6.8h, v26.8h, v20.8h
	movi	v20.8h, #128
	ushr	v25.8h, v7.8h, #8
	ushr	v26.8h, v5.8h, #8
	mla	v24.8h, v27.8h, v22.8h
	movi	v27.8h, #128
	bic	v7.8h, #255, lsl #8
	bic	v5.8h, #255, lsl #8
	mla	v23.8h, v16.8h, v22.8h
	mla	v19.8h, v25.8h, v21.8h
	movi	v25.8h, #128
	mla	v20.8h, v26.8h, v17.8h
	umull2	v26.4s, v24.8h, v3.8h
	umull	v24.4s, v24.4h, v3.4h
	umull2	v16.4s, v18.8h, v3.8h
	umull	v18.4s, v18.4h, v3.4h
	mla	v27.8h, v7.8h, v21.8h
	umull2	v22.4s, v23.8h, v3.8h
	umull	v23.4s, v23.4h, v3.4h
	umull2	v7.4s, v19.8h, v3.8h
	umull	v19.4s, v19.4h, v3.4h
	mla	v25.8h, v5.8h, v17.8h
	umull2	v5.4s, v20.8h, v3.8h
	umull	v17.4s, v20.4h, v3.4h
	umull2	v20.4s, v6.8h, v3.8h
	umull	v6.4s, v6.4h, v3.4h
	uzp2	v21.8h, v24.8h, v26.8h
	uzp2	v16.8h, v18.8h, v16.8h
	umull2	v18.4s, v27.8h, v3.8h
	umull	v24.4s, v27.4h, v3.4h
	uzp2	v7.8h, v19.8h, v7.8h
	umull2	v19.4s, v25.8h, v3.8h
	umull	v3.4s, v25.4h, v3.4h
	uzp2	v5.8h, v17.8h, v5.8h
	uzp2	v17.8h, v23.8h, v22.8h
	uzp2	v6.8h, v6.8h, v20.8h
	tbl	v20.16b, { v21.16b }, v4.16b
	tbl	v16.16b, { v16.16b }, v4.16b
	uzp2	v18.8h, v24.8h, v18.8h
	tbl	v7.16b, { v7.16b }, v4.16b
	uzp2	v3.8h, v3.8h, v19.8h
	tbl	v4.16b, { v5.16b }, v4.16b
	orr	v5.16b, v20.16b, v17.16b
	orr	v6.16b, v16.16b, v6.16b
	orr	v7.16b, v7.16b, v18.16b
	orr	v3.16b, v4.16b, v3.16b
	uqadd	v4.16b, v5.16b, v7.16b
	uqadd	v3.16b, v6.16b, v3.16b
	stp	q4, q3, [x23]
.LBB_a1ada3_12:
	tbz	w12, #2, .LBB_a1ada3_15
	ldr	s3, [x24, x18]
	dup	v4.16b, v3.b[1]
	dup	v5.16b, v3.b[2]
	dup	v6.16b, v3.b[3]
	orr	v4.16b, v4.16b, v5.16b
	orr	v5.16b, v6.16b, v3.16b
	orr	v4.16b, v4.16b, v5.16b
	umov	w22, v4.b[0]
	cbz	w22, .LBB_a1ada3_15
	adrp	x22, .LCPI_a1ada3_3
	movi	v5.8h, #128
	movi	v7.8h, #128
	ldr	q4, [x22, :lo12:.LCPI_a1ada3_3]
	movi	v18.8h, #128
	tbl	v4.16b, { v3.16b }, v4.16b
	movi	v3.16b, #1
	ushr	v6.8h, v4.8h, #8
	bic	v4.8h, #255, lsl #8
	mla	v5.8h, v6.8h, v2.8h
	mla	v7.8h, v4.8h, v1.8h
	umull2	v4.4s, v5.8h, v3.8h
	umull	v5.4s, v5.4h, v3.4h
	umull2	v6.4s, v7.8h, v3.8h
	umull	v7.4s, v7.4h, v3.4h
	uzp2	v5.8h, v5.8h, v4.8h
	ldr	q4, [x21, :lo12:.LCPI_a1ada3_1]
	adrp	x21, .LCPI_a1ada3_4
	uzp2	v6.8h, v7.8h, v6.8h
	ldr	q17, [x21, :lo12:.LCPI_a1ada3_4]
	tbl	v5.16b, { v5.16b }, v4.16b
	orr	v5.16b, v5.16b, v6.16b
	ldr	q6, [x23, x4]
	ushr	v16.4s, v6.4s, #24
	ushr	v21.8h, v6.8h, #8
	bic	v6.8h, #255, lsl #8
	mvn	v7.16b, v5.16b
	ushr	v19.8h, v5.8h, #8
	bic	v5.8h, #255, lsl #8
	tbl	v16.16b, { v16.16b }, v17.16b
	ushr	v7.4s, v7.4s, #24
	tbl	v7.16b, { v7.16b }, v17.16b
	movi	v17.8h, #128
	ushr	v20.8h, v16.8h, #8
	bic	v16.8h, #255, lsl #8
	ushr	v22.8h, v7.8h, #8
	mla	v17.8h, v20.8h, v19.8h
	movi	v19.8h, #128
	movi	v20.8h, #128
	bic	v7.8h, #255, lsl #8
	mla	v18.8h, v21.8h, v22.8h
	mla	v19.8h, v16.8h, v5.8h
	umull2	v5.4s, v17.8h, v3.8h
	umull	v16.4s, v17.4h, v3.4h
	mla	v20.8h, v6.8h, v7.8h
	umull2	v6.4s, v18.8h, v3.8h
	umull	v7.4s, v18.4h, v3.4h
	umull2	v17.4s, v19.8h, v3.8h
	umull	v18.4s, v19.4h, v3.4h
	uzp2	v5.8h, v16.8h, v5.8h
	umull2	v16.4s, v20.8h, v3.8h
	umull	v3.4s, v20.4h, v3.4h
	uzp2	v6.8h, v7.8h, v6.8h
	uzp2	v7.8h, v18.8h, v17.8h
	tbl	v5.16b, { v5.16b }, v4.16b
	uzp2	v3.8h, v3.8h, v16.8h
	tbl	v4.16b, { v6.16b }, v4.16b
	orr	v5.16b, v5.16b, v7.16b
	orr	v3.16b, v4.16b, v3.16b
	uqadd	v3.16b, v5.16b, v3.16b
	str	q3, [x23, x4]
.LBB_a1ada3_15:
	cmp	x6, x17
	b.eq	.LBB_a1ada3_2
	mov	x21, x20
	mov	x22, x19
	and	x23, x12, #0xc
.LBB_a1ada3_17:
	ldrb	w24, [x22], #1
	movi	v4.4h, #128
	movi	v5.4h, #128
	add	x23, x23, #1
	dup	v3.4h, w24
	ldr	w24, [x21]
	cmp	x23, x17
	lsr	w25, w24, #24
	mla	v4.4h, v3.4h, v0.4h
	dup	v3.4h, w25
	ubfx	w25, w24, #16, #8
	usra	v4.4h, v4.4h, #8
	ushr	v4.4h, v4.4h, #8
	mla	v5.4h, v4.4h, v3.4h
	mov	v3.h[1], w25
	ubfx	w25, w24, #8, #8
	umov	w26, v4.b[0]
	and	w24, w24, #0xff
	movi	v4.4h, #128
	mov	v3.h[2], w25
	mov	w25, #255
	usra	v5.4h, v5.4h, #8
	bic	w25, w25, w26
	dup	v6.4h, w25
	mov	v3.h[3], w24
	adrp	x24, .LCPI_a1ada3_5
	mla	v4.4h, v6.4h, v3.4h
	usra	v4.4h, v4.4h, #8
	ushr	v3.4h, v4.4h, #8
	movi	d4, #0xff00ff00ff00ff
	usra	v3.4h, v5.4h, #8
	umin	v3.4h, v3.4h, v4.4h
	ldr	q4, [x24, :lo12:.LCPI_a1ada3_5]
	ushll	v3.4s, v3.4h, #0
	ushl	v3.4s, v3.4s, v4.4s
	ext	v4.16b, v3.16b, v3.16b, #8
	orr	v3.8b, v3.8b, v4.8b
	fmov	x24, d3
	lsr	x25, x24, #32
	orr	w24, w24, w25
	str	w24, [x21], #4
	b.lo	.LBB_a1ada3_17
	b	.LBB_a1ada3_2
.LBB_a1ada3_18:
	ldp	x20, x19, [sp, #64]
	ldp	x22, x21, [sp, #48]
	ldp	x24, x23, [sp, #32]
	ldp	x26, x25, [sp, #16]
	ldr	x27, [sp], #80
.LBB_a1ada3_19:
	ret
.Lfunc_end_a1ada3:
	.size	"pix_raster::view::blit_overlap::<#09758d48ce65f64e>", .Lfunc_end_a1ada3-"pix_raster::view::blit_overlap::<#09758d48ce65f64e>"

	.section	.rodata.cst16,"aM",@progbits,16
	.p2align	4, 0x0
.LCPI_a5f72b_0:
	.byte	255
	.byte	0
	.byte	255
	.byte	2
	.byte	255
	.byte	4
	.byte	255
	.byte	6
	.byte	255
	.byte	8
	.byte	255
	.byte	10
	.byte	255
	.byte	12
	.byte	255
	.byte	14
.LCPI_a5f72b_1:
	.byte	0
	.byte	255
	.byte	0
	.byte	255
	.byte	4
	.byte	255
	.byte	4
	.byte	255
	.byte	8
	.byte	255
	.byte	8
	.byte	255
	.byte	12
	.byte	255
	.byte	12
	.byte	255
.LCPI_a5f72b_2:
	.byte	0
	.byte	0
	.byte	0
	.byte	0
	.byte	4
	.byte	4
	.byte	4
	.byte	4
	.byte	8
	.byte	8
	.byte	8
	.byte	8
	.byte	12
	.byte	12
	.byte	12
	.byte	12
.LCPI_a5f72b_4:
	.word	24
	.word	16
	.word	8
	.word	0
	.section	.rodata.cst8,"aM",@progbits,8
	.p2align	3, 0x0
.LCPI_a5f72b_3:
	.word	4294967272
	.word	4294967280
	.section	".text.pix_raster::view::blit_overlap::<#8280f2e27f55061f>","ax",@progbits
	.p2align	2
	.type	"pix_raster::view::blit_overlap::<#8280f2e27f55061f>",@function
"pix_raster::view::blit_overlap::<#8280f2e27f55061f>":
	ldp	x8, x9, [x4, #24]
	cmp	x8, x9
	b.hs	.LBB_a5f72b_15
	str	x27, [sp, #-80]!
	ldr	x15, [x4, #40]
	ldp	x14, x10, [x4, #8]
	ldr	x11, [x4]
	dup	v0.16b, w5
	and	w16, w5, #0xff
	madd	x6, x15, x3, x10
	stp	x20, x19, [sp, #64]
	fmov	s1, w16
	sub	x14, x14, x11
	stp	x22, x21, [sp, #48]
	lsl	x12, x3, #2
	madd	x5, x8, x1, x11
	and	x17, x14, #0xfffffffffffffff0
	lsl	x7, x14, #2
	lsr	x19, x17, #4
	ushr	v2.8h, v0.8h, #8
	bic	v0.8h, #255, lsl #8
	and	x21, x7, #0x30
	lsl	x13, x1, #2
	lsr	x16, x14, #4
	add	x20, x2, x6, lsl #2
	bfi	x21, x19, #6, #58
	sub	x15, x15, x8
	and	x18, x14, #0xf
	and	x4, x14, #0xc
	and	x6, x7, #0x20
	add	x22, x0, x5, lsl #2
	lsl	x5, x17, #2
	add	x7, x20, #32
	add	x20, x20, x21
	stp	x26, x25, [sp, #16]
	add	x19, x22, #32
	add	x21, x22, x21
	stp	x24, x23, [sp, #32]
	b	.LBB_a5f72b_3
.LBB_a5f72b_2:
	add	x8, x8, #1
	add	x7, x7, x12
	add	x19, x19, x13
	cmp	x8, x9
	add	x20, x20, x12
	add	x21, x21, x13
	b.eq	.LBB_a5f72b_14
.LBB_a5f72b_3:
	adrp	x22, .LCPI_a5f72b_0
	adrp	x23, .LCPI_a5f72b_1
	cbz	x16, .LBB_a5f72b_6
	mov	x24, x19
	mov	x25, x7
	mov	x26, x16
.LBB_a5f72b_5:
	ldp	q5, q4, [x25, #-32]
	movi	v6.8h, #128
	movi	v7.8h, #128
	movi	v18.8h, #128
	movi	v19.8h, #128
	movi	v3.16b, #1
	movi	v22.8h, #128
	subs	x26, x26, #1
	ushr	v16.8h, v4.8h, #8
	ushr	v17.8h, v5.8h, #8
	bic	v4.8h, #255, lsl #8
	bic	v5.8h, #255, lsl #8
	movi	v25.8h, #128
	movi	v26.8h, #128
	mla	v6.8h, v16.8h, v2.8h
	mla	v7.8h, v17.8h, v2.8h
	mla	v18.8h, v4.8h, v0.8h
	mla	v19.8h, v5.8h, v0.8h
	umull2	v4.4s, v6.8h, v3.8h
	umull	v6.4s, v6.4h, v3.4h
	umull2	v5.4s, v7.8h, v3.8h
	umull	v7.4s, v7.4h, v3.4h
	umull2	v16.4s, v18.8h, v3.8h
	umull	v17.4s, v18.4h, v3.4h
	umull2	v18.4s, v19.8h, v3.8h
	umull	v19.4s, v19.4h, v3.4h
	uzp2	v6.8h, v6.8h, v4.8h
	ldr	q4, [x22, :lo12:.LCPI_a5f72b_0]
	uzp2	v5.8h, v7.8h, v5.8h
	uzp2	v7.8h, v17.8h, v16.8h
	uzp2	v17.8h, v19.8h, v18.8h
	movi	v19.8h, #128
	tbl	v6.16b, { v6.16b }, v4.16b
	tbl	v5.16b, { v5.16b }, v4.16b
	orr	v16.16b, v6.16b, v7.16b
	movi	v6.8h, #128
	orr	v18.16b, v5.16b, v17.16b
	ldp	q7, q17, [x24, #-32]
	ldr	q5, [x23, :lo12:.LCPI_a5f72b_1]
	mvn	v23.16b, v16.16b
	ushr	v29.8h, v16.8h, #8
	bic	v16.8h, #255, lsl #8
	ushr	v20.4s, v7.4s, #24
	mvn	v21.16b, v18.16b
	ushr	v24.4s, v17.4s, #24
	ushr	v27.8h, v18.8h, #8
	bic	v18.8h, #255, lsl #8
	ushr	v28.8h, v17.8h, #8
	ushr	v23.4s, v23.4s, #24
	bic	v17.8h, #255, lsl #8
	tbl	v20.16b, { v20.16b }, v5.16b
	ushr	v21.4s, v21.4s, #24
	tbl	v24.16b, { v24.16b }, v5.16b
	tbl	v23.16b, { v23.16b }, v5.16b
	tbl	v21.16b, { v21.16b }, v5.16b
	mla	v22.8h, v27.8h, v20.8h
	ushr	v27.8h, v7.8h, #8
	mla	v6.8h, v18.8h, v20.8h
	movi	v18.8h, #128
	mla	v19.8h, v29.8h, v24.8h
	movi	v20.8h, #128
	mla	v25.8h, v28.8h, v23.8h
	bic	v7.8h, #255, lsl #8
	mla	v26.8h, v27.8h, v21.8h
	movi	v27.8h, #128
	mla	v18.8h, v16.8h, v24.8h
	umull2	v16.4s, v22.8h, v3.8h
	umull	v22.4s, v22.4h, v3.4h
	umull2	v24.4s, v19.8h, v3.8h
	umull	v19.4s, v19.4h, v3.4h
	mla	v20.8h, v7.8h, v21.8h
	umull2	v7.4s, v26.8h, v3.8h
	umull	v21.4s, v26.4h, v3.4h
	mla	v27.8h, v17.8h, v23.8h
	umull2	v17.4s, v25.8h, v3.8h
	umull	v23.4s, v25.4h, v3.4h
	umull2	v26.4s, v6.8h, v3.8h
	umull2	v25.4s, v18.8h, v3.8h
	umull	v18.4s, v18.4h, v3.4h
	umull	v6.4s, v6.4h, v3.4h
	uzp2	v16.8h, v22.8h, v16.8h
	uzp2	v19.8h, v19.8h, v24.8h
	umull2	v22.4s, v20.8h, v3.8h
	umull	v20.4s, v20.4h, v3.4h
	uzp2	v7.8h, v21.8h, v7.8h
	umull2	v21.4s, v27.8h, v3.8h
	umull	v24.4s, v27.4h, v3.4h
	uzp2	v17.8h, v23.8h, v17.8h
	uzp2	v18.8h, v18.8h, v25.8h
	uzp2	v6.8h, v6.8h, v26.8h
	tbl	v16.16b, { v16.16b }, v4.16b
	tbl	v19.16b, { v19.16b }, v4.16b
	uzp2	v20.8h, v20.8h, v22.8h
	tbl	v7.16b, { v7.16b }, v4.16b
	uzp2	v21.8h, v24.8h, v21.8h
	tbl	v17.16b, { v17.16b }, v4.16b
	movi	v24.8h, #128
	orr	v6.16b, v16.16b, v6.16b
	orr	v16.16b, v19.16b, v18.16b
	movi	v18.8h, #128
	orr	v7.16b, v7.16b, v20.16b
	movi	v20.8h, #128
	orr	v17.16b, v17.16b, v21.16b
	uqadd	v6.16b, v6.16b, v7.16b
	uqadd	v7.16b, v16.16b, v17.16b
	stp	q6, q7, [x24, #-32]
	movi	v7.8h, #128
	ldp	q6, q16, [x25], #64
	ushr	v17.8h, v6.8h, #8
	ushr	v19.8h, v16.8h, #8
	bic	v6.8h, #255, lsl #8
	bic	v16.8h, #255, lsl #8
	mla	v7.8h, v17.8h, v2.8h
	movi	v17.8h, #128
	mla	v18.8h, v19.8h, v2.8h
	mla	v20.8h, v6.8h, v0.8h
	umull2	v6.4s, v7.8h, v3.8h
	umull	v7.4s, v7.4h, v3.4h
	mla	v17.8h, v16.8h, v0.8h
	umull2	v16.4s, v18.8h, v3.8h
	umull	v18.4s, v18.4h, v3.4h
	umull2	v19.4s, v20.8h, v3.8h
	umull	v20.4s, v20.4h, v3.4h
	uzp2	v6.8h, v7.8h, v6.8h
	umull2	v7.4s, v17.8h, v3.8h
	umull	v17.4s, v17.4h, v3.4h
	uzp2	v16.8h, v18.8h, v16.8h
	uzp2	v18.8h, v20.8h, v19.8h
	uzp2	v19.8h, v17.8h, v7.8h
	tbl	v6.16b, { v6.16b }, v4.16b
	tbl	v16.16b, { v16.16b }, v4.16b
	orr	v17.16b, v6.16b, v18.16b
	movi	v6.8h, #128
	movi	v18.8h, #128
	orr	v26.16b, v16.16b, v19.16b
	ldp	q16, q7, [x24]
	movi	v19.8h, #128
	mvn	v21.16b, v17.16b
	ushr	v27.8h, v17.8h, #8
	bic	v17.8h, #255, lsl #8
	ushr	v20.4s, v7.4s, #24
	mvn	v23.16b, v26.16b
	ushr	v22.4s, v16.4s, #24
	ushr	v25.8h, v26.8h, #8
	bic	v26.8h, #255, lsl #8
	ushr	v21.4s, v21.4s, #24
	tbl	v20.16b, { v20.16b }, v5.16b
	ushr	v23.4s, v23.4s, #24
	tbl	v22.16b, { v22.16b }, v5.16b
	tbl	v21.16b, { v21.16b }, v5.16b
	tbl	v5.16b, { v23.16b }, v5.16b
	movi	v23.8h, #128
	mla	v18.8h, v25.8h, v20.8h
	mla	v6.8h, v26.8h, v20.8h
	movi	v20.8h, #128
	ushr	v25.8h, v16.8h, #8
	ushr	v26.8h, v7.8h, #8
	mla	v24.8h, v27.8h, v22.8h
	movi	v27.8h, #128
	bic	v16.8h, #255, lsl #8
	bic	v7.8h, #255, lsl #8
	mla	v23.8h, v17.8h, v22.8h
	mla	v19.8h, v25.8h, v21.8h
	movi	v25.8h, #128
	mla	v20.8h, v26.8h, v5.8h
	umull2	v26.4s, v24.8h, v3.8h
	umull	v24.4s, v24.4h, v3.4h
	umull2	v17.4s, v18.8h, v3.8h
	umull	v18.4s, v18.4h, v3.4h
	mla	v27.8h, v16.8h, v21.8h
	umull2	v22.4s, v23.8h, v3.8h
	umull	v23.4s, v23.4h, v3.4h
	umull2	v16.4s, v19.8h, v3.8h
	umull	v19.4s, v19.4h, v3.4h
	mla	v25.8h, v7.8h, v5.8h
	umull2	v5.4s, v20.8h, v3.8h
	umull	v7.4s, v20.4h, v3.4h
	umull2	v20.4s, v6.8h, v3.8h
	umull	v6.4s, v6.4h, v3.4h
	uzp2	v21.8h, v24.8h, v26.8h
	uzp2	v17.8h, v18.8h, v17.8h
	umull2	v18.4s, v27.8h, v3.8h
	umull	v24.4s, v27.4h, v3.4h
	uzp2	v16.8h, v19.8h, v16.8h
	umull2	v19.4s, v25.8h, v3.8h
	umull	v3.4s, v25.4h, v3.4h
	uzp2	v5.8h, v7.8h, v5.8h
	uzp2	v7.8h, v23.8h, v22.8h
	uzp2	v6.8h, v6.8h, v20.8h
	tbl	v20.16b, { v21.16b }, v4.16b
	tbl	v17.16b, { v17.16b }, v4.16b
	uzp2	v18.8h, v24.8h, v18.8h
	tbl	v16.16b, { v16.16b }, v4.16b
	uzp2	v3.8h, v3.8h, v19.8h
	tbl	v4.16b, { v5.16b }, v4.16b
	orr	v5.16b, v20.16b, v7.16b
	orr	v6.16b, v17.16b, v6.16b
	orr	v7.16b, v16.16b, v18.16b
	orr	v3.16b, v4.16b, v3.16b
	uqadd	v4.16b, v5.16b, v7.16b
	uqadd	v3.16b, v6.16b, v3.16b
	stp	q4, q3, [x24], #64
	b.ne	.LBB_a5f72b_5
.LBB_a5f72b_6:
	cmp	x17, x14
	b.eq	.LBB_a5f72b_2
	add	x25, x15, x8
	madd	x24, x8, x1, x11
	madd	x25, x25, x3, x10
	add	x24, x0, x24, lsl #2
	add	x25, x2, x25, lsl #2
	add	x24, x24, x5
	add	x25, x25, x5
	tbnz	w14, #3, .LBB_a5f72b_10
	tbnz	w14, #2, .LBB_a5f72b_11
.LBB_a5f72b_9:
	cmp	x4, x18
	b.eq	.LBB_a5f72b_2
	b	.LBB_a5f72b_12
.LBB_a5f72b_10:
	ldp	q4, q6, [x25]
	movi	v5.8h, #128
	movi	v16.8h, #128
	movi	v17.8h, #128
	movi	v3.16b, #1
	movi	v24.8h, #128
	ushr	v7.8h, v4.8h, #8
	ushr	v18.8h, v6.8h, #8
	bic	v4.8h, #255, lsl #8
	bic	v6.8h, #255, lsl #8
	mla	v5.8h, v7.8h, v2.8h
	movi	v7.8h, #128
	mla	v16.8h, v18.8h, v2.8h
	mla	v17.8h, v4.8h, v0.8h
	umull2	v4.4s, v5.8h, v3.8h
	umull	v5.4s, v5.4h, v3.4h
	mla	v7.8h, v6.8h, v0.8h
	umull2	v6.4s, v16.8h, v3.8h
	umull	v16.4s, v16.4h, v3.4h
	umull2	v18.4s, v17.8h, v3.8h
	umull	v17.4s, v17.4h, v3.4h
	uzp2	v5.8h, v5.8h, v4.8h
	umull2	v19.4s, v7.8h, v3.8h
	umull	v7.4s, v7.4h, v3.4h
	uzp2	v6.8h, v16.8h, v6.8h
	ldr	q4, [x22, :lo12:.LCPI_a5f72b_0]
	uzp2	v16.8h, v17.8h, v18.8h
	ldr	q17, [x23, :lo12:.LCPI_a5f72b_1]
	movi	v18.8h, #128
	tbl	v5.16b, { v5.16b }, v4.16b
	uzp2	v7.8h, v7.8h, v19.8h
	movi	v19.8h, #128
	tbl	v6.16b, { v6.16b }, v4.16b
	orr	v16.16b, v5.16b, v16.16b
	orr	v26.16b, v6.16b, v7.16b
	ldp	q7, q5, [x24]
	movi	v6.8h, #128
	mvn	v21.16b, v16.16b
	ushr	v27.8h, v16.8h, #8
	bic	v16.8h, #255, lsl #8
	ushr	v20.4s, v5.4s, #24
	mvn	v23.16b, v26.16b
	ushr	v22.4s, v7.4s, #24
	ushr	v25.8h, v26.8h, #8
	bic	v26.8h, #255, lsl #8
	ushr	v21.4s, v21.4s, #24
	tbl	v20.16b, { v20.16b }, v17.16b
	ushr	v23.4s, v23.4s, #24
	tbl	v22.16b, { v22.16b }, v17.16b
	tbl	v21.16b, { v21.16b }, v17.16b
	tbl	v17.16b, { v23.16b }, v17.16b
	movi	v23.8h, #128
	mla	v18.8h, v25.8h, v20.8h
	mla	v6.8h, v26.8h, v20.8h
	movi	v20.8h, #128
	ushr	v25.8h, v7.8h, #8
	ushr	v26.8h, v5.8h, #8
	mla	v24.8h, v27.8h, v22.8h
	movi	v27.8h, #128
	bic	v7.8h, #255, lsl #8
	bic	v5.8h, #255, lsl #8
	mla	v23.8h, v16.8h, v22.8h
	mla	v19.8h, v25.8h, v21.8h
	movi	v25.8h, #128
	mla	v20.8h, v26.8h, v17.8h
	umull2	v26.4s, v24.8h, v3.8h
	umull	v24.4s, v24.4h, v3.4h
	umull2	v16.4s, v18.8h, v3.8h
	umull	v18.4s, v18.4h, v3.4h
	mla	v27.8h, v7.8h, v21.8h
	umull2	v22.4s, v23.8h, v3.8h
	umull	v23.4s, v23.4h, v3.4h
	umull2	v7.4s, v19.8h, v3.8h
	umull	v19.4s, v19.4h, v3.4h
	mla	v25.8h, v5.8h, v17.8h
	umull2	v5.4s, v20.8h, v3.8h
	umull	v17.4s, v20.4h, v3.4h
	umull2	v20.4s, v6.8h, v3.8h
	umull	v6.4s, v6.4h, v3.4h
	uzp2	v21.8h, v24.8h, v26.8h
	uzp2	v16.8h, v18.8h, v16.8h
	umull2	v18.4s, v27.8h, v3.8h
	umull	v24.4s, v27.4h, v3.4h
	uzp2	v7.8h, v19.8h, v7.8h
	umull2	v19.4s, v25.8h, v3.8h
	umull	v3.4s, v25.4h, v3.4h
	uzp2	v5.8h, v17.8h, v5.8h
	uzp2	v17.8h, v23.8h, v22.8h
	uzp2	v6.8h, v6.8h, v20.8h
	tbl	v20.16b, { v21.16b }, v4.16b
	tbl	v16.16b, { v16.16b }, v4.16b
	uzp2	v18.8h, v24.8h, v18.8h
	tbl	v7.16b, { v7.16b }, v4.16b
	uzp2	v3.8h, v3.8h, v19.8h
	tbl	v4.16b, { v5.16b }, v4.16b
	orr	v5.16b, v20.16b, v17.16b
	orr	v6.16b, v16.16b, v6.16b
	orr	v7.16b, v7.16b, v18.16b
	orr	v3.16b, v4.16b, v3.16b
	uqadd	v4.16b, v5.16b, v7.16b
	uqadd	v3.16b, v6.16b, v3.16b
	stp	q4, q3, [x24]
	tbz	w14, #2, .LBB_a5f72b_9
.LBB_a5f72b_11:
	ldr	q6, [x25, x6]
	movi	v4.8h, #128
	movi	v7.8h, #128
	movi	v3.16b, #1
	movi	v18.8h, #128
	ushr	v5.8h, v6.8h, #8
	bic	v6.8h, #255, lsl #8
	mla	v4.8h, v5.8h, v2.8h
	mla	v7.8h, v6.8h, v0.8h
	umull2	v5.4s, v4.8h, v3.8h
	umull	v4.4s, v4.4h, v3.4h
	umull2	v6.4s, v7.8h, v3.8h
	umull	v7.4s, v7.4h, v3.4h
	uzp2	v5.8h, v4.8h, v5.8h
	ldr	q4, [x22, :lo12:.LCPI_a5f72b_0]
	adrp	x22, .LCPI_a5f72b_2
	uzp2	v6.8h, v7.8h, v6.8h
	ldr	q17, [x22, :lo12:.LCPI_a5f72b_2]
	tbl	v5.16b, { v5.16b }, v4.16b
	orr	v5.16b, v5.16b, v6.16b
	ldr	q6, [x24, x6]
	ushr	v16.4s, v6.4s, #24
	ushr	v21.8h, v6.8h, #8
	bic	v6.8h, #255, lsl #8
	mvn	v7.16b, v5.16b
	ushr	v19.8h, v5.8h, #8
	bic	v5.8h, #255, lsl #8
	tbl	v16.16b, { v16.16b }, v17.16b
	ushr	v7.4s, v7.4s, #24
	tbl	v7.16b, { v7.16b }, v17.16b
	movi	v17.8h, #128
	ushr	v20.8h, v16.8h, #8
	bic	v16.8h, #255, lsl #8
	ushr	v22.8h, v7.8h, #8
	mla	v17.8h, v20.8h, v19.8h
	movi	v19.8h, #128
	movi	v20.8h, #128
	bic	v7.8h, #255, lsl #8
	mla	v18.8h, v21.8h, v22.8h
	mla	v19.8h, v16.8h, v5.8h
	umull2	v5.4s, v17.8h, v3.8h
	umull	v16.4s, v17.4h, v3.4h
	mla	v20.8h, v6.8h, v7.8h
	umull2	v6.4s, v18.8h, v3.8h
	umull	v7.4s, v18.4h, v3.4h
	umull2	v17.4s, v19.8h, v3.8h
	umull	v18.4s, v19.4h, v3.4h
	uzp2	v5.8h, v16.8h, v5.8h
	umull2	v16.4s, v20.8h, v3.8h
	umull	v3.4s, v20.4h, v3.4h
	uzp2	v6.8h, v7.8h, v6.8h
	uzp2	v7.8h, v18.8h, v17.8h
	tbl	v5.16b, { v5.16b }, v4.16b
	uzp2	v3.8h, v3.8h, v16.8h
	tbl	v4.16b, { v6.16b }, v4.16b
	orr	v5.16b, v5.16b, v7.16b
	orr	v3.16b, v4.16b, v3.16b
	uqadd	v3.16b, v5.16b, v3.16b
	str	q3, [x24, x6]
	cmp	x4, x18
	b.eq	.LBB_a5f72b_2
.LBB_a5f72b_12:
	mov	x22, x21
	mov	x23, x20
	and	x24, x14, #0xc
.LBB_a5f72b_13:
	ldr	w26, [x23], #4
	adrp	x25, .LCPI_a5f72b_3
	ldr	d4, [x25, :lo12:.LCPI_a5f72b_3]
	ldr	w25, [x22]
	movi	v5.4h, #128
	dup	v3.2s, w26
	add	x24, x24, #1
	cmp	x24, x18
	ushl	v3.2s, v3.2s, v4.2s
	mov	s4, v3.s[1]
	str	h3, [sp, #12]
	str	h4, [sp, #14]
	movi	v4.4h, #128
	ldr	s3, [sp, #12]
	zip1	v3.8b, v3.8b, v3.8b
	mov	v3.h[3], wzr
	uzp1	v3.8b, v3.8b, v0.8b
	ushll	v3.4s, v3.4h, #0
	mov	w27, v3.s[1]
	mov	v3.h[1], w27
	ubfx	w27, w26, #8, #8
	and	w26, w26, #0xff
	mov	v3.h[2], w27
	mov	v3.h[3], w26
	lsr	w26, w25, #24
	mla	v4.4h, v3.4h, v1.h[0]
	dup	v3.4h, w26
	ubfx	w26, w25, #16, #8
	usra	v4.4h, v4.4h, #8
	ushr	v4.4h, v4.4h, #8
	mla	v5.4h, v4.4h, v3.4h
	mov	v3.h[1], w26
	ubfx	w26, w25, #8, #8
	umov	w27, v4.b[0]
	and	w25, w25, #0xff
	movi	v4.4h, #128
	mov	v3.h[2], w26
	mov	w26, #255
	usra	v5.4h, v5.4h, #8
	bic	w26, w26, w27
	dup	v6.4h, w26
	mov	v3.h[3], w25
	adrp	x25, .LCPI_a5f72b_4
	mla	v4.4h, v6.4h, v3.4h
	usra	v4.4h, v4.4h, #8
	ushr	v3.4h, v4.4h, #8
	movi	d4, #0xff00ff00ff00ff
	usra	v3.4h, v5.4h, #8
	umin	v3.4h, v3.4h, v4.4h
	ldr	q4, [x25, :lo12:.LCPI_a5f72b_4]
	ushll	v3.4s, v3.4h, #0
	ushl	v3.4s, v3.4s, v4.4s
	ext	v4.16b, v3.16b, v3.16b, #8
	orr	v3.8b, v3.8b, v4.8b
	fmov	x25, d3
	lsr	x26, x25, #32
	orr	w25, w25, w26
	str	w25, [x22], #4
	b.lo	.LBB_a5f72b_13
	b	.LBB_a5f72b_2
.LBB_a5f72b_14:
	ldp	x20, x19, [sp, #64]
	ldp	x22, x21, [sp, #48]
	ldp	x24, x23, [sp, #32]
	ldp	x26, x25, [sp, #16]
	ldr	x27, [sp], #80
.LBB_a5f72b_15:
	ret
.Lfunc_end_a5f72b:
	.size	"pix_raster::view::blit_overlap::<#8280f2e27f55061f>", .Lfunc_end_a5f72b-"pix_raster::view::blit_overlap::<#8280f2e27f55061f>"

	.section	.rodata.cst16,"aM",@progbits,16
	.p2align	4, 0x0
.LCPI_5af13c_0:
	.byte	0
	.byte	255
	.byte	0
	.byte	255
	.byte	4
	.byte	255
	.byte	4
	.byte	255
	.byte	8
	.byte	255
	.byte	8
	.byte	255
	.byte	12
	.byte	255
	.byte	12
	.byte	255
.LCPI_5af13c_1:
	.byte	255
	.byte	0
	.byte	255
	.byte	2
	.byte	255
	.byte	4
	.byte	255
	.byte	6
	.byte	255
	.byte	8
	.byte	255
	.byte	10
	.byte	255
	.byte	12
	.byte	255
	.byte	14
.LCPI_5af13c_2:
	.byte	0
	.byte	0
	.byte	0
	.byte	0
	.byte	4
	.byte	4
	.byte	4
	.byte	4
	.byte	8
	.byte	8
	.byte	8
	.byte	8
	.byte	12
	.byte	12
	.byte	12
	.byte	12
.LCPI_5af13c_4:
	.word	24
	.word	16
	.word	8
	.word	0
	.section	.rodata.cst8,"aM",@progbits,8
	.p2align	3, 0x0
.LCPI_5af13c_3:
	.word	4294967272
	.word	4294967280
	.section	".text.pix_raster::view::blit_overlap::<#168afd1b974e4a32>","ax",@progbits
	.p2align	2
	.type	"pix_raster::view::blit_overlap::<#168afd1b974e4a32>",@function
"pix_raster::view::blit_overlap::<#168afd1b974e4a32>":
	ldp	x8, x9, [x4, #24]
	cmp	x8, x9
	b.hs	.LBB_5af13c_15
	sub	sp, sp, #96
	ldr	x16, [x4, #40]
	ldp	x13, x10, [x4, #8]
	ldr	x11, [x4]
	madd	x6, x8, x1, x11
	lsl	x12, x3, #2
	stp	x20, x19, [sp, #80]
	lsl	x14, x1, #2
	madd	x5, x16, x3, x10
	sub	x13, x13, x11
	stp	x22, x21, [sp, #64]
	and	x15, x13, #0xfffffffffffffff0
	lsl	x7, x13, #2
	lsr	x17, x13, #4
	lsr	x19, x15, #4
	sub	x16, x16, x8
	and	x18, x13, #0xf
	and	x21, x7, #0x30
	add	x22, x0, x6, lsl #2
	and	x4, x13, #0xc
	bfi	x21, x19, #6, #58
	and	x6, x7, #0x20
	stp	x28, x27, [sp, #16]
	add	x20, x2, x5, lsl #2
	lsl	x5, x15, #2
	add	x19, x22, #32
	stp	x26, x25, [sp, #32]
	add	x7, x20, #32
	add	x20, x20, x21
	add	x21, x22, x21
	stp	x24, x23, [sp, #48]
	b	.LBB_5af13c_3
.LBB_5af13c_2:
	add	x8, x8, #1
	add	x7, x7, x12
	add	x19, x19, x14
	cmp	x8, x9
	add	x20, x20, x12
	add	x21, x21, x14
	b.eq	.LBB_5af13c_14
.LBB_5af13c_3:
	adrp	x23, .LCPI_5af13c_0
	adrp	x22, .LCPI_5af13c_1
	cbz	x17, .LBB_5af13c_6
	mov	x24, x19
	mov	x25, x7
	mov	x26, x17
.LBB_5af13c_5:
	ldp	q3, q4, [x24, #-32]
	movi	v2.8h, #128
	ldp	q6, q5, [x25, #-32]
	movi	v18.8h, #128
	movi	v23.8h, #128
	movi	v22.8h, #128
	subs	x26, x26, #1
	mvn	v0.16b, v3.16b
	mvn	v1.16b, v4.16b
	mov	v16.16b, v6.16b
	ushr	v7.4s, v6.4s, #24
	ushr	v21.4s, v5.4s, #24
	ushr	v20.8h, v6.8h, #8
	ushr	v24.8h, v5.8h, #8
	movi	v6.8h, #128
	ushr	v17.4s, v0.4s, #24
	ldr	q0, [x23, :lo12:.LCPI_5af13c_0]
	ushr	v19.4s, v1.4s, #24
	bic	v16.8h, #255, lsl #8
	bic	v5.8h, #255, lsl #8
	tbl	v7.16b, { v7.16b }, v0.16b
	tbl	v21.16b, { v21.16b }, v0.16b
	tbl	v1.16b, { v17.16b }, v0.16b
	movi	v17.8h, #128
	tbl	v19.16b, { v19.16b }, v0.16b
	mla	v2.8h, v16.8h, v1.8h
	ushr	v16.8h, v3.8h, #8
	mla	v17.8h, v20.8h, v1.8h
	ushr	v20.8h, v4.8h, #8
	movi	v1.16b, #1
	mla	v18.8h, v24.8h, v19.8h
	movi	v24.8h, #128
	bic	v3.8h, #255, lsl #8
	bic	v4.8h, #255, lsl #8
	mla	v23.8h, v16.8h, v7.8h
	movi	v16.8h, #128
	mla	v6.8h, v5.8h, v19.8h
	mla	v22.8h, v20.8h, v21.8h
	umull2	v5.4s, v17.8h, v1.8h
	umull	v17.4s, v17.4h, v1.4h
	umull2	v19.4s, v18.8h, v1.8h
	umull	v18.4s, v18.4h, v1.4h
	mla	v24.8h, v3.8h, v7.8h
	umull2	v3.4s, v23.8h, v1.8h
	umull	v7.4s, v23.4h, v1.4h
	mla	v16.8h, v4.8h, v21.8h
	umull2	v4.4s, v22.8h, v1.8h
	umull	v20.4s, v22.4h, v1.4h
	umull2	v22.4s, v2.8h, v1.8h
	umull	v23.4s, v2.4h, v1.4h
	ldr	q2, [x22, :lo12:.LCPI_5af13c_1]
	uzp2	v5.8h, v17.8h, v5.8h
	uzp2	v17.8h, v18.8h, v19.8h
	umull2	v18.4s, v24.8h, v1.8h
	umull	v19.4s, v24.4h, v1.4h
	uzp2	v3.8h, v7.8h, v3.8h
	umull2	v21.4s, v6.8h, v1.8h
	umull	v6.4s, v6.4h, v1.4h
	umull2	v7.4s, v16.8h, v1.8h
	umull	v16.4s, v16.4h, v1.4h
	uzp2	v4.8h, v20.8h, v4.8h
	uzp2	v20.8h, v23.8h, v22.8h
	tbl	v5.16b, { v5.16b }, v2.16b
	movi	v22.8h, #128
	uzp2	v18.8h, v19.8h, v18.8h
	tbl	v17.16b, { v17.16b }, v2.16b
	movi	v24.8h, #128
	tbl	v3.16b, { v3.16b }, v2.16b
	uzp2	v6.8h, v6.8h, v21.8h
	uzp2	v7.8h, v16.8h, v7.8h
	tbl	v4.16b, { v4.16b }, v2.16b
	orr	v5.16b, v5.16b, v20.16b
	orr	v3.16b, v3.16b, v18.16b
	orr	v6.16b, v17.16b, v6.16b
	orr	v4.16b, v4.16b, v7.16b
	uqadd	v7.16b, v5.16b, v3.16b
	ldp	q5, q3, [x24]
	uqadd	v4.16b, v6.16b, v4.16b
	mvn	v6.16b, v3.16b
	mvn	v16.16b, v5.16b
	stp	q7, q4, [x24, #-32]
	movi	v4.8h, #128
	movi	v7.8h, #128
	ushr	v6.4s, v6.4s, #24
	ushr	v16.4s, v16.4s, #24
	ldp	q17, q21, [x25], #64
	tbl	v6.16b, { v6.16b }, v0.16b
	tbl	v16.16b, { v16.16b }, v0.16b
	ushr	v18.4s, v21.4s, #24
	ushr	v19.4s, v17.4s, #24
	ushr	v20.8h, v21.8h, #8
	bic	v21.8h, #255, lsl #8
	ushr	v23.8h, v17.8h, #8
	bic	v17.8h, #255, lsl #8
	tbl	v19.16b, { v19.16b }, v0.16b
	tbl	v0.16b, { v18.16b }, v0.16b
	ushr	v18.8h, v5.8h, #8
	mla	v4.8h, v21.8h, v6.8h
	movi	v21.8h, #128
	mla	v22.8h, v23.8h, v16.8h
	ushr	v23.8h, v3.8h, #8
	mla	v24.8h, v20.8h, v6.8h
	movi	v6.8h, #128
	movi	v20.8h, #128
	bic	v5.8h, #255, lsl #8
	bic	v3.8h, #255, lsl #8
	mla	v7.8h, v18.8h, v19.8h
	movi	v18.8h, #128
	mla	v21.8h, v23.8h, v0.8h
	umull2	v23.4s, v22.8h, v1.8h
	umull	v22.4s, v22.4h, v1.4h
	mla	v6.8h, v17.8h, v16.8h
	umull2	v16.4s, v24.8h, v1.8h
	umull	v17.4s, v24.4h, v1.4h
	mla	v20.8h, v5.8h, v19.8h
	umull2	v19.4s, v4.8h, v1.8h
	umull	v4.4s, v4.4h, v1.4h
	umull2	v5.4s, v7.8h, v1.8h
	umull	v7.4s, v7.4h, v1.4h
	mla	v18.8h, v3.8h, v0.8h
	umull2	v0.4s, v21.8h, v1.8h
	umull	v3.4s, v21.4h, v1.4h
	uzp2	v21.8h, v22.8h, v23.8h
	umull2	v22.4s, v6.8h, v1.8h
	umull	v6.4s, v6.4h, v1.4h
	uzp2	v16.8h, v17.8h, v16.8h
	umull2	v17.4s, v20.8h, v1.8h
	umull	v20.4s, v20.4h, v1.4h
	uzp2	v5.8h, v7.8h, v5.8h
	umull2	v7.4s, v18.8h, v1.8h
	umull	v1.4s, v18.4h, v1.4h
	uzp2	v0.8h, v3.8h, v0.8h
	uzp2	v3.8h, v4.8h, v19.8h
	uzp2	v4.8h, v6.8h, v22.8h
	tbl	v6.16b, { v21.16b }, v2.16b
	tbl	v16.16b, { v16.16b }, v2.16b
	uzp2	v17.8h, v20.8h, v17.8h
	tbl	v5.16b, { v5.16b }, v2.16b
	uzp2	v1.8h, v1.8h, v7.8h
	tbl	v0.16b, { v0.16b }, v2.16b
	orr	v2.16b, v6.16b, v4.16b
	orr	v3.16b, v16.16b, v3.16b
	orr	v4.16b, v5.16b, v17.16b
	orr	v0.16b, v0.16b, v1.16b
	uqadd	v1.16b, v2.16b, v4.16b
	uqadd	v0.16b, v3.16b, v0.16b
	stp	q1, q0, [x24], #64
	b.ne	.LBB_5af13c_5
.LBB_5af13c_6:
	cmp	x15, x13
	b.eq	.LBB_5af13c_2
	add	x25, x16, x8
	madd	x24, x8, x1, x11
	madd	x25, x25, x3, x10
	add	x24, x0, x24, lsl #2
	add	x25, x2, x25, lsl #2
	add	x24, x24, x5
	add	x25, x25, x5
	tbnz	w13, #3, .LBB_5af13c_10
	tbnz	w13, #2, .LBB_5af13c_11
.LBB_5af13c_9:
	cmp	x4, x18
	b.eq	.LBB_5af13c_2
	b	.LBB_5af13c_12
.LBB_5af13c_10:
	ldp	q2, q0, [x24]
	movi	v5.8h, #128
	ldp	q3, q20, [x25]
	movi	v22.8h, #128
	ldr	q16, [x23, :lo12:.LCPI_5af13c_0]
	movi	v6.8h, #128
	mvn	v1.16b, v0.16b
	mvn	v4.16b, v2.16b
	ushr	v17.4s, v20.4s, #24
	ushr	v18.4s, v3.4s, #24
	ushr	v19.8h, v20.8h, #8
	bic	v20.8h, #255, lsl #8
	ushr	v24.8h, v3.8h, #8
	bic	v3.8h, #255, lsl #8
	ushr	v7.4s, v1.4s, #24
	movi	v1.8h, #128
	ushr	v4.4s, v4.4s, #24
	tbl	v18.16b, { v18.16b }, v16.16b
	tbl	v21.16b, { v7.16b }, v16.16b
	tbl	v23.16b, { v4.16b }, v16.16b
	tbl	v7.16b, { v17.16b }, v16.16b
	movi	v17.8h, #128
	ushr	v16.8h, v2.8h, #8
	movi	v4.8h, #128
	bic	v2.8h, #255, lsl #8
	mla	v1.8h, v20.8h, v21.8h
	ushr	v20.8h, v0.8h, #8
	mla	v5.8h, v19.8h, v21.8h
	movi	v19.16b, #1
	mla	v22.8h, v24.8h, v23.8h
	movi	v21.8h, #128
	mla	v6.8h, v16.8h, v18.8h
	movi	v16.8h, #128
	bic	v0.8h, #255, lsl #8
	mla	v17.8h, v20.8h, v7.8h
	mla	v4.8h, v3.8h, v23.8h
	umull2	v20.4s, v22.8h, v19.8h
	umull	v22.4s, v22.4h, v19.4h
	umull2	v3.4s, v5.8h, v19.8h
	umull	v5.4s, v5.4h, v19.4h
	mla	v21.8h, v2.8h, v18.8h
	umull2	v2.4s, v6.8h, v19.8h
	umull	v6.4s, v6.4h, v19.4h
	mla	v16.8h, v0.8h, v7.8h
	umull2	v0.4s, v17.8h, v19.8h
	umull	v7.4s, v17.4h, v19.4h
	umull2	v17.4s, v1.8h, v19.8h
	umull	v1.4s, v1.4h, v19.4h
	uzp2	v18.8h, v22.8h, v20.8h
	umull2	v20.4s, v4.8h, v19.8h
	umull	v4.4s, v4.4h, v19.4h
	uzp2	v3.8h, v5.8h, v3.8h
	umull2	v5.4s, v21.8h, v19.8h
	umull	v21.4s, v21.4h, v19.4h
	uzp2	v2.8h, v6.8h, v2.8h
	umull2	v6.4s, v16.8h, v19.8h
	umull	v16.4s, v16.4h, v19.4h
	uzp2	v0.8h, v7.8h, v0.8h
	ldr	q7, [x22, :lo12:.LCPI_5af13c_1]
	uzp2	v1.8h, v1.8h, v17.8h
	uzp2	v4.8h, v4.8h, v20.8h
	tbl	v17.16b, { v18.16b }, v7.16b
	uzp2	v5.8h, v21.8h, v5.8h
	tbl	v3.16b, { v3.16b }, v7.16b
	tbl	v2.16b, { v2.16b }, v7.16b
	uzp2	v6.8h, v16.8h, v6.8h
	tbl	v0.16b, { v0.16b }, v7.16b
	orr	v4.16b, v17.16b, v4.16b
	orr	v1.16b, v3.16b, v1.16b
	orr	v2.16b, v2.16b, v5.16b
	orr	v0.16b, v0.16b, v6.16b
	uqadd	v2.16b, v4.16b, v2.16b
	uqadd	v0.16b, v1.16b, v0.16b
	stp	q2, q0, [x24]
	tbz	w13, #2, .LBB_5af13c_9
.LBB_5af13c_11:
	ldr	q0, [x24, x6]
	ldr	q1, [x25, x6]
	adrp	x23, .LCPI_5af13c_2
	ldr	q4, [x23, :lo12:.LCPI_5af13c_2]
	movi	v5.8h, #128
	mvn	v2.16b, v0.16b
	ushr	v3.4s, v1.4s, #24
	ushr	v6.8h, v0.8h, #8
	ushr	v16.8h, v1.8h, #8
	bic	v1.8h, #255, lsl #8
	bic	v0.8h, #255, lsl #8
	ushr	v2.4s, v2.4s, #24
	tbl	v3.16b, { v3.16b }, v4.16b
	tbl	v2.16b, { v2.16b }, v4.16b
	movi	v4.8h, #128
	ushr	v7.8h, v3.8h, #8
	bic	v3.8h, #255, lsl #8
	ushr	v17.8h, v2.8h, #8
	mla	v4.8h, v6.8h, v7.8h
	movi	v6.8h, #128
	movi	v7.16b, #1
	bic	v2.8h, #255, lsl #8
	mla	v5.8h, v17.8h, v16.8h
	movi	v16.8h, #128
	mla	v6.8h, v2.8h, v1.8h
	umull2	v1.4s, v5.8h, v7.8h
	umull	v2.4s, v5.4h, v7.4h
	mla	v16.8h, v0.8h, v3.8h
	umull2	v0.4s, v4.8h, v7.8h
	umull	v3.4s, v4.4h, v7.4h
	umull2	v4.4s, v6.8h, v7.8h
	umull	v5.4s, v6.4h, v7.4h
	uzp2	v1.8h, v2.8h, v1.8h
	umull2	v2.4s, v16.8h, v7.8h
	umull	v6.4s, v16.4h, v7.4h
	uzp2	v0.8h, v3.8h, v0.8h
	ldr	q3, [x22, :lo12:.LCPI_5af13c_1]
	uzp2	v4.8h, v5.8h, v4.8h
	tbl	v1.16b, { v1.16b }, v3.16b
	uzp2	v2.8h, v6.8h, v2.8h
	tbl	v0.16b, { v0.16b }, v3.16b
	orr	v1.16b, v1.16b, v4.16b
	orr	v0.16b, v0.16b, v2.16b
	uqadd	v0.16b, v1.16b, v0.16b
	str	q0, [x24, x6]
	cmp	x4, x18
	b.eq	.LBB_5af13c_2
.LBB_5af13c_12:
	mov	x22, x21
	mov	x23, x20
	and	x24, x13, #0xc
.LBB_5af13c_13:
	ldr	w25, [x23], #4
	ldr	w26, [x22]
	adrp	x27, .LCPI_5af13c_3
	movi	v5.4h, #128
	add	x24, x24, #1
	dup	v0.2s, w25
	dup	v2.2s, w26
	ldr	d1, [x27, :lo12:.LCPI_5af13c_3]
	cmp	x24, x18
	ushl	v0.2s, v0.2s, v1.2s
	ushl	v1.2s, v2.2s, v1.2s
	mov	s2, v0.s[1]
	mov	s3, v1.s[1]
	str	h0, [sp, #12]
	str	h1, [sp, #4]
	str	h2, [sp, #14]
	str	h3, [sp, #6]
	ldr	s0, [sp, #12]
	movi	v3.4h, #128
	ldr	s1, [sp, #4]
	zip1	v0.8b, v0.8b, v0.8b
	zip1	v1.8b, v1.8b, v1.8b
	mov	v0.h[3], wzr
	mov	v1.h[3], wzr
	uzp1	v1.8b, v1.8b, v0.8b
	uzp1	v0.8b, v0.8b, v0.8b
	ushll	v1.4s, v1.4h, #0
	ushll	v0.4s, v0.4h, #0
	mov	w27, v1.s[1]
	dup	v2.4h, v0.h[0]
	mov	w28, v0.s[1]
	mov	v1.h[1], w27
	mov	v0.16b, v2.16b
	ubfx	w27, w26, #8, #8
	mov	v0.h[1], w28
	and	w28, w26, #0xff
	mvn	w26, w26
	mov	v1.h[2], w27
	ubfx	w27, w25, #8, #8
	lsr	w26, w26, #24
	and	w25, w25, #0xff
	dup	v4.4h, w26
	mov	v0.h[2], w27
	mov	v1.h[3], w28
	mov	v0.h[3], w25
	adrp	x25, .LCPI_5af13c_4
	mla	v3.4h, v1.4h, v2.4h
	movi	d1, #0xff00ff00ff00ff
	mla	v5.4h, v4.4h, v0.4h
	usra	v3.4h, v3.4h, #8
	usra	v5.4h, v5.4h, #8
	ushr	v0.4h, v3.4h, #8
	usra	v0.4h, v5.4h, #8
	umin	v0.4h, v0.4h, v1.4h
	ldr	q1, [x25, :lo12:.LCPI_5af13c_4]
	ushll	v0.4s, v0.4h, #0
	ushl	v0.4s, v0.4s, v1.4s
	ext	v1.16b, v0.16b, v0.16b, #8
	orr	v0.8b, v0.8b, v1.8b
	fmov	x25, d0
	lsr	x26, x25, #32
	orr	w25, w25, w26
	str	w25, [x22], #4
	b.lo	.LBB_5af13c_13
	b	.LBB_5af13c_2
.LBB_5af13c_14:
	ldp	x20, x19, [sp, #80]
	ldp	x22, x21, [sp, #64]
	ldp	x24, x23, [sp, #48]
	ldp	x26, x25, [sp, #32]
	ldp	x28, x27, [sp, #16]
	add	sp, sp, #96
.LBB_5af13c_15:
	ret
.Lfunc_end_5af13c:
	.size	"pix_raster::view::blit_overlap::<#168afd1b974e4a32>", .Lfunc_end_5af13c-"pix_raster::view::blit_overlap::<#168afd1b974e4a32>"

	.section	.rodata.cst16,"aM",@progbits,16
	.p2align	4, 0x0
.LCPI_7679a8_0:
	.word	0
	.word	4294967288
	.word	4294967280
	.word	4294967272
.LCPI_7679a8_1:
	.byte	255
	.byte	0
	.byte	255
	.byte	2
	.byte	255
	.byte	4
	.byte	255
	.byte	6
	.byte	255
	.byte	8
	.byte	255
	.byte	10
	.byte	255
	.byte	12
	.byte	255
	.byte	14
.LCPI_7679a8_2:
	.byte	0
	.byte	255
	.byte	0
	.byte	255
	.byte	4
	.byte	255
	.byte	4
	.byte	255
	.byte	8
	.byte	255
	.byte	8
	.byte	255
	.byte	12
	.byte	255
	.byte	12
	.byte	255
.LCPI_7679a8_3:
	.byte	0
	.byte	0
	.byte	0
	.byte	0
	.byte	1
	.byte	1
	.byte	1
	.byte	1
	.byte	2
	.byte	2
	.byte	2
	.byte	2
	.byte	3
	.byte	3
	.byte	3
	.byte	3
.LCPI_7679a8_4:
	.byte	0
	.byte	0
	.byte	0
	.byte	0
	.byte	4
	.byte	4
	.byte	4
	.byte	4
	.byte	8
	.byte	8
	.byte	8
	.byte	8
	.byte	12
	.byte	12
	.byte	12
	.byte	12
.LCPI_7679a8_6:
	.word	16
	.word	24
	.word	8
	.word	0
	.section	.rodata.cst8,"aM",@progbits,8
	.p2align	3, 0x0
.LCPI_7679a8_5:
	.word	4294967280
	.word	4294967272
	.section	".text.pix_raster::view::blit_overlap::<#6f0e63a99552414a>","ax",@progbits
	.p2align	2
	.type	"pix_raster::view::blit_overlap::<#6f0e63a99552414a>",@function
"pix_raster::view::blit_overlap::<#6f0e63a99552414a>":
	ldp	x8, x9, [x4, #24]
	cmp	x8, x9
	b.hs	.LBB_7679a8_21
	str	x27, [sp, #-80]!
	dup	v0.4s, w5
	adrp	x10, .LCPI_7679a8_0
	ubfx	w15, w5, #8, #8
	ldr	q1, [x10, :lo12:.LCPI_7679a8_0]
	ldp	x12, x16, [x4, #8]
	ldr	x17, [x4, #40]
	stp	x20, x19, [sp, #64]
	and	w5, w5, #0xff
	ushl	v2.4s, v0.4s, v1.4s
	stp	x22, x21, [sp, #48]
	madd	x20, x17, x3, x16
	sub	x13, x17, x8
	add	x11, x2, x16
	stp	x26, x25, [sp, #16]
	umov	w10, v2.h[4]
	uzp1	v1.8h, v2.8h, v2.8h
	stp	x24, x23, [sp, #32]
	add	x22, x20, x2
	and	w10, w10, #0xff
	uzp1	v1.16b, v1.16b, v1.16b
	fmov	s0, w10
	ldr	x10, [x4]
	madd	x6, x8, x1, x10
	sub	x12, x12, x10
	mov	v0.h[1], v2.h[6]
	lsl	x7, x12, #2
	and	x4, x12, #0xc
	ushr	v2.8h, v1.8h, #8
	bic	v1.8h, #255, lsl #8
	and	x17, x12, #0x8
	and	x7, x7, #0x30
	lsr	x14, x12, #4
	lsl	x18, x17, #2
	mov	v0.h[2], w15
	and	x15, x12, #0xfffffffffffffff0
	lsr	x19, x15, #4
	add	x21, x15, x4
	lsl	x16, x15, #2
	add	x21, x2, x21
	and	x2, x12, #0xf
	bfi	x7, x19, #6, #58
	add	x19, x22, #8
	add	x20, x21, x20
	mov	v0.h[3], w5
	add	x5, x0, x6, lsl #2
	lsl	x6, x1, #2
	b	.LBB_7679a8_3
.LBB_7679a8_2:
	add	x8, x8, #1
	add	x5, x5, x6
	add	x19, x19, x3
	cmp	x8, x9
	add	x20, x20, x3
	b.eq	.LBB_7679a8_20
.LBB_7679a8_3:
	adrp	x21, .LCPI_7679a8_1
	adrp	x22, .LCPI_7679a8_2
	cbz	x14, .LBB_7679a8_8
	mov	x23, x19
	mov	x24, x5
	mov	x25, x14
	b	.LBB_7679a8_6
.LBB_7679a8_5:
	zip1	v3.16b, v3.16b, v3.16b
	movi	v6.8h, #1
	movi	v7.8h, #128
	movi	v16.8h, #128
	movi	v20.8h, #128
	movi	v19.8h, #128
	movi	v22.8h, #128
	movi	v25.8h, #128
	movi	v27.8h, #128
	ushll2	v4.4s, v3.8h, #0
	ushll	v3.4s, v3.4h, #0
	mul	v4.4s, v4.4s, v6.4s
	mul	v5.4s, v3.4s, v6.4s
	movi	v3.16b, #1
	ushr	v17.8h, v4.8h, #8
	ushr	v18.8h, v5.8h, #8
	bic	v4.8h, #255, lsl #8
	bic	v5.8h, #255, lsl #8
	mla	v7.8h, v17.8h, v2.8h
	mla	v16.8h, v18.8h, v2.8h
	mla	v20.8h, v4.8h, v1.8h
	mla	v19.8h, v5.8h, v1.8h
	umull2	v4.4s, v7.8h, v3.8h
	umull	v7.4s, v7.4h, v3.4h
	umull2	v5.4s, v16.8h, v3.8h
	umull	v16.4s, v16.4h, v3.4h
	umull2	v17.4s, v20.8h, v3.8h
	umull	v18.4s, v20.4h, v3.4h
	umull2	v20.4s, v19.8h, v3.8h
	umull	v19.4s, v19.4h, v3.4h
	uzp2	v7.8h, v7.8h, v4.8h
	ldr	q4, [x21, :lo12:.LCPI_7679a8_1]
	uzp2	v5.8h, v16.8h, v5.8h
	uzp2	v18.8h, v18.8h, v17.8h
	ldp	q16, q17, [x24]
	uzp2	v19.8h, v19.8h, v20.8h
	tbl	v7.16b, { v7.16b }, v4.16b
	tbl	v5.16b, { v5.16b }, v4.16b
	mvn	v20.16b, v16.16b
	mvn	v23.16b, v17.16b
	ushr	v29.8h, v17.8h, #8
	bic	v17.8h, #255, lsl #8
	orr	v18.16b, v7.16b, v18.16b
	ushr	v21.4s, v20.4s, #24
	ushr	v23.4s, v23.4s, #24
	orr	v19.16b, v5.16b, v19.16b
	ldr	q5, [x22, :lo12:.LCPI_7679a8_2]
	movi	v7.8h, #128
	movi	v20.8h, #128
	ushr	v24.4s, v18.4s, #24
	tbl	v21.16b, { v21.16b }, v5.16b
	tbl	v23.16b, { v23.16b }, v5.16b
	ushr	v26.4s, v19.4s, #24
	ushr	v28.8h, v19.8h, #8
	bic	v19.8h, #255, lsl #8
	ushr	v30.8h, v18.8h, #8
	bic	v18.8h, #255, lsl #8
	tbl	v24.16b, { v24.16b }, v5.16b
	tbl	v26.16b, { v26.16b }, v5.16b
	mla	v22.8h, v28.8h, v21.8h
	ushr	v28.8h, v16.8h, #8
	mla	v7.8h, v19.8h, v21.8h
	movi	v19.8h, #128
	mla	v20.8h, v30.8h, v23.8h
	movi	v21.8h, #128
	bic	v16.8h, #255, lsl #8
	mla	v25.8h, v29.8h, v24.8h
	mla	v27.8h, v28.8h, v26.8h
	movi	v28.8h, #128
	mla	v19.8h, v18.8h, v23.8h
	umull2	v18.4s, v22.8h, v3.8h
	umull	v22.4s, v22.4h, v3.4h
	umull2	v23.4s, v20.8h, v3.8h
	umull	v20.4s, v20.4h, v3.4h
	mla	v21.8h, v16.8h, v26.8h
	umull2	v16.4s, v27.8h, v3.8h
	umull	v26.4s, v27.4h, v3.4h
	mla	v28.8h, v17.8h, v24.8h
	umull2	v17.4s, v25.8h, v3.8h
	umull	v24.4s, v25.4h, v3.4h
	umull2	v25.4s, v19.8h, v3.8h
	umull	v19.4s, v19.4h, v3.4h
	umull2	v27.4s, v7.8h, v3.8h
	umull	v7.4s, v7.4h, v3.4h
	uzp2	v18.8h, v22.8h, v18.8h
	uzp2	v20.8h, v20.8h, v23.8h
	umull2	v22.4s, v21.8h, v3.8h
	umull	v21.4s, v21.4h, v3.4h
	uzp2	v16.8h, v26.8h, v16.8h
	umull2	v23.4s, v28.8h, v3.8h
	umull	v26.4s, v28.4h, v3.4h
	uzp2	v17.8h, v24.8h, v17.8h
	uzp2	v19.8h, v19.8h, v25.8h
	uzp2	v7.8h, v7.8h, v27.8h
	tbl	v18.16b, { v18.16b }, v4.16b
	tbl	v20.16b, { v20.16b }, v4.16b
	uzp2	v21.8h, v21.8h, v22.8h
	tbl	v16.16b, { v16.16b }, v4.16b
	uzp2	v22.8h, v26.8h, v23.8h
	tbl	v17.16b, { v17.16b }, v4.16b
	movi	v26.8h, #128
	orr	v7.16b, v18.16b, v7.16b
	orr	v18.16b, v20.16b, v19.16b
	movi	v20.8h, #128
	orr	v16.16b, v16.16b, v21.16b
	movi	v21.8h, #128
	orr	v17.16b, v17.16b, v22.16b
	uqadd	v7.16b, v7.16b, v16.16b
	uqadd	v16.16b, v18.16b, v17.16b
	movi	v17.8h, #128
	stp	q7, q16, [x24]
	ldr	d7, [x23]
	zip1	v7.16b, v7.16b, v7.16b
	ushll2	v16.4s, v7.8h, #0
	ushll	v7.4s, v7.4h, #0
	mul	v16.4s, v16.4s, v6.4s
	mul	v6.4s, v7.4s, v6.4s
	movi	v7.8h, #128
	ushr	v18.8h, v16.8h, #8
	ushr	v19.8h, v6.8h, #8
	bic	v16.8h, #255, lsl #8
	bic	v6.8h, #255, lsl #8
	mla	v7.8h, v18.8h, v2.8h
	mla	v17.8h, v19.8h, v2.8h
	mla	v21.8h, v16.8h, v1.8h
	mla	v20.8h, v6.8h, v1.8h
	umull2	v16.4s, v7.8h, v3.8h
	umull	v7.4s, v7.4h, v3.4h
	umull2	v6.4s, v17.8h, v3.8h
	umull	v17.4s, v17.4h, v3.4h
	umull2	v18.4s, v21.8h, v3.8h
	umull	v19.4s, v21.4h, v3.4h
	umull2	v21.4s, v20.8h, v3.8h
	umull	v20.4s, v20.4h, v3.4h
	uzp2	v7.8h, v7.8h, v16.8h
	uzp2	v6.8h, v17.8h, v6.8h
	ldp	q16, q17, [x24, #32]
	uzp2	v18.8h, v19.8h, v18.8h
	uzp2	v19.8h, v20.8h, v21.8h
	tbl	v7.16b, { v7.16b }, v4.16b
	mvn	v20.16b, v16.16b
	mvn	v21.16b, v17.16b
	tbl	v6.16b, { v6.16b }, v4.16b
	ushr	v28.8h, v17.8h, #8
	bic	v17.8h, #255, lsl #8
	ushr	v22.4s, v20.4s, #24
	ushr	v23.4s, v21.4s, #24
	movi	v21.8h, #128
	orr	v18.16b, v7.16b, v18.16b
	movi	v7.8h, #128
	movi	v20.8h, #128
	orr	v19.16b, v6.16b, v19.16b
	movi	v6.8h, #128
	tbl	v22.16b, { v22.16b }, v5.16b
	tbl	v23.16b, { v23.16b }, v5.16b
	ushr	v24.4s, v18.4s, #24
	ushr	v25.4s, v19.4s, #24
	ushr	v27.8h, v19.8h, #8
	bic	v19.8h, #255, lsl #8
	tbl	v24.16b, { v24.16b }, v5.16b
	tbl	v5.16b, { v25.16b }, v5.16b
	ushr	v25.8h, v18.8h, #8
	mla	v21.8h, v27.8h, v22.8h
	ushr	v27.8h, v16.8h, #8
	mla	v7.8h, v19.8h, v22.8h
	movi	v19.8h, #128
	movi	v22.8h, #128
	bic	v18.8h, #255, lsl #8
	bic	v16.8h, #255, lsl #8
	mla	v20.8h, v25.8h, v23.8h
	mla	v26.8h, v28.8h, v24.8h
	movi	v25.8h, #128
	mla	v6.8h, v27.8h, v5.8h
	mla	v19.8h, v18.8h, v23.8h
	umull2	v18.4s, v21.8h, v3.8h
	umull	v21.4s, v21.4h, v3.4h
	mla	v22.8h, v16.8h, v5.8h
	umull2	v23.4s, v20.8h, v3.8h
	umull	v20.4s, v20.4h, v3.4h
	mla	v25.8h, v17.8h, v24.8h
	umull2	v5.4s, v6.8h, v3.8h
	umull	v6.4s, v6.4h, v3.4h
	umull2	v16.4s, v26.8h, v3.8h
	umull	v17.4s, v26.4h, v3.4h
	umull2	v24.4s, v19.8h, v3.8h
	umull	v19.4s, v19.4h, v3.4h
	umull2	v26.4s, v7.8h, v3.8h
	umull	v7.4s, v7.4h, v3.4h
	uzp2	v18.8h, v21.8h, v18.8h
	uzp2	v20.8h, v20.8h, v23.8h
	umull2	v21.4s, v22.8h, v3.8h
	umull	v22.4s, v22.4h, v3.4h
	uzp2	v5.8h, v6.8h, v5.8h
	umull2	v6.4s, v25.8h, v3.8h
	umull	v3.4s, v25.4h, v3.4h
	uzp2	v16.8h, v17.8h, v16.8h
	uzp2	v17.8h, v19.8h, v24.8h
	uzp2	v7.8h, v7.8h, v26.8h
	tbl	v18.16b, { v18.16b }, v4.16b
	uzp2	v19.8h, v22.8h, v21.8h
	tbl	v20.16b, { v20.16b }, v4.16b
	tbl	v5.16b, { v5.16b }, v4.16b
	uzp2	v3.8h, v3.8h, v6.8h
	tbl	v4.16b, { v16.16b }, v4.16b
	orr	v6.16b, v18.16b, v7.16b
	orr	v7.16b, v20.16b, v17.16b
	orr	v5.16b, v5.16b, v19.16b
	orr	v3.16b, v4.16b, v3.16b
	uqadd	v4.16b, v6.16b, v5.16b
	uqadd	v3.16b, v7.16b, v3.16b
	stp	q4, q3, [x24, #32]
	subs	x25, x25, #1
	add	x23, x23, #16
	add	x24, x24, #64
	b.eq	.LBB_7679a8_8
.LBB_7679a8_6:
	ldp	d3, d4, [x23, #-8]
	orr	v4.8b, v4.8b, v3.8b
	fmov	x26, d4
	orr	x26, x26, x26, lsr #32
	lsr	x27, x26, #16
	orr	w26, w26, w27
	orr	w26, w26, w26, lsr #8
	tst	w26, #0xff
	b.ne	.LBB_7679a8_5
	movi	v3.2d, #0000000000000000
	stp	q3, q3, [x24]
	stp	q3, q3, [x24, #32]
	subs	x25, x25, #1
	add	x23, x23, #16
	add	x24, x24, #64
	b.ne	.LBB_7679a8_6
.LBB_7679a8_8:
	cmp	x15, x12
	b.eq	.LBB_7679a8_2
	madd	x23, x8, x1, x10
	add	x24, x13, x8
	madd	x24, x24, x3, x11
	add	x23, x0, x23, lsl #2
	add	x23, x23, x16
	add	x24, x24, x15
	tbnz	w12, #3, .LBB_7679a8_12
	tbnz	w12, #2, .LBB_7679a8_15
.LBB_7679a8_11:
	cmp	x4, x2
	b.eq	.LBB_7679a8_2
	b	.LBB_7679a8_18
.LBB_7679a8_12:
	ldr	d3, [x24]
	fmov	x25, d3
	orr	x25, x25, x25, lsr #32
	lsr	x26, x25, #16
	orr	w25, w25, w26
	orr	w25, w25, w25, lsr #8
	tst	w25, #0xff
	b.eq	.LBB_7679a8_14
	zip1	v3.16b, v3.16b, v3.16b
	movi	v4.8h, #1
	ldr	q21, [x22, :lo12:.LCPI_7679a8_2]
	movi	v6.8h, #128
	movi	v7.8h, #128
	movi	v18.8h, #128
	movi	v19.8h, #128
	movi	v26.8h, #128
	ushll	v5.4s, v3.4h, #0
	ushll2	v3.4s, v3.8h, #0
	mul	v5.4s, v5.4s, v4.4s
	mul	v4.4s, v3.4s, v4.4s
	movi	v3.16b, #1
	ushr	v16.8h, v5.8h, #8
	ushr	v17.8h, v4.8h, #8
	bic	v5.8h, #255, lsl #8
	bic	v4.8h, #255, lsl #8
	mla	v6.8h, v16.8h, v2.8h
	mla	v7.8h, v17.8h, v2.8h
	mla	v18.8h, v5.8h, v1.8h
	mla	v19.8h, v4.8h, v1.8h
	umull2	v5.4s, v6.8h, v3.8h
	umull	v6.4s, v6.4h, v3.4h
	umull2	v4.4s, v7.8h, v3.8h
	umull	v7.4s, v7.4h, v3.4h
	umull2	v16.4s, v18.8h, v3.8h
	umull	v17.4s, v18.4h, v3.4h
	umull2	v20.4s, v19.8h, v3.8h
	umull	v19.4s, v19.4h, v3.4h
	uzp2	v18.8h, v6.8h, v5.8h
	ldp	q6, q5, [x23]
	uzp2	v7.8h, v7.8h, v4.8h
	ldr	q4, [x21, :lo12:.LCPI_7679a8_1]
	uzp2	v16.8h, v17.8h, v16.8h
	uzp2	v19.8h, v19.8h, v20.8h
	mvn	v20.16b, v6.16b
	tbl	v17.16b, { v18.16b }, v4.16b
	mvn	v18.16b, v5.16b
	tbl	v7.16b, { v7.16b }, v4.16b
	ushr	v20.4s, v20.4s, #24
	ushr	v18.4s, v18.4s, #24
	orr	v16.16b, v17.16b, v16.16b
	movi	v17.8h, #128
	orr	v19.16b, v7.16b, v19.16b
	movi	v7.8h, #128
	tbl	v20.16b, { v20.16b }, v21.16b
	tbl	v22.16b, { v18.16b }, v21.16b
	movi	v18.8h, #128
	ushr	v23.4s, v16.4s, #24
	ushr	v27.8h, v16.8h, #8
	bic	v16.8h, #255, lsl #8
	ushr	v24.4s, v19.4s, #24
	ushr	v25.8h, v19.8h, #8
	bic	v19.8h, #255, lsl #8
	tbl	v23.16b, { v23.16b }, v21.16b
	mla	v26.8h, v27.8h, v20.8h
	movi	v27.8h, #128
	tbl	v21.16b, { v24.16b }, v21.16b
	mla	v17.8h, v25.8h, v22.8h
	movi	v25.8h, #128
	ushr	v24.8h, v6.8h, #8
	mla	v7.8h, v19.8h, v22.8h
	ushr	v22.8h, v5.8h, #8
	movi	v19.8h, #128
	bic	v6.8h, #255, lsl #8
	bic	v5.8h, #255, lsl #8
	mla	v18.8h, v24.8h, v23.8h
	movi	v24.8h, #128
	mla	v25.8h, v22.8h, v21.8h
	umull2	v22.4s, v26.8h, v3.8h
	umull	v26.4s, v26.4h, v3.4h
	mla	v27.8h, v6.8h, v23.8h
	mla	v19.8h, v16.8h, v20.8h
	umull2	v16.4s, v17.8h, v3.8h
	umull	v17.4s, v17.4h, v3.4h
	umull2	v6.4s, v18.8h, v3.8h
	umull	v18.4s, v18.4h, v3.4h
	mla	v24.8h, v5.8h, v21.8h
	umull2	v5.4s, v25.8h, v3.8h
	umull	v20.4s, v25.4h, v3.4h
	umull2	v21.4s, v7.8h, v3.8h
	umull	v7.4s, v7.4h, v3.4h
	uzp2	v22.8h, v26.8h, v22.8h
	umull2	v23.4s, v19.8h, v3.8h
	umull	v19.4s, v19.4h, v3.4h
	uzp2	v16.8h, v17.8h, v16.8h
	umull2	v17.4s, v27.8h, v3.8h
	umull	v25.4s, v27.4h, v3.4h
	uzp2	v6.8h, v18.8h, v6.8h
	umull2	v18.4s, v24.8h, v3.8h
	umull	v3.4s, v24.4h, v3.4h
	uzp2	v5.8h, v20.8h, v5.8h
	uzp2	v7.8h, v7.8h, v21.8h
	tbl	v20.16b, { v22.16b }, v4.16b
	uzp2	v19.8h, v19.8h, v23.8h
	tbl	v16.16b, { v16.16b }, v4.16b
	uzp2	v17.8h, v25.8h, v17.8h
	tbl	v6.16b, { v6.16b }, v4.16b
	uzp2	v3.8h, v3.8h, v18.8h
	tbl	v4.16b, { v5.16b }, v4.16b
	orr	v5.16b, v20.16b, v19.16b
	orr	v7.16b, v16.16b, v7.16b
	orr	v6.16b, v6.16b, v17.16b
	orr	v3.16b, v4.16b, v3.16b
	uqadd	v4.16b, v5.16b, v6.16b
	uqadd	v3.16b, v7.16b, v3.16b
	stp	q4, q3, [x23]
	tbz	w12, #2, .LBB_7679a8_11
	b	.LBB_7679a8_15
.LBB_7679a8_14:
	movi	v3.2d, #0000000000000000
	stp	q3, q3, [x23]
	tbz	w12, #2, .LBB_7679a8_11
.LBB_7679a8_15:
	ldr	s3, [x24, x17]
	add	x22, x23, x18
	dup	v4.16b, v3.b[1]
	dup	v5.16b, v3.b[2]
	dup	v6.16b, v3.b[3]
	orr	v4.16b, v4.16b, v5.16b
	orr	v5.16b, v6.16b, v3.16b
	orr	v4.16b, v4.16b, v5.16b
	umov	w24, v4.b[0]
	cbz	w24, .LBB_7679a8_17
	adrp	x23, .LCPI_7679a8_3
	movi	v5.8h, #128
	movi	v7.8h, #128
	ldr	q4, [x23, :lo12:.LCPI_7679a8_3]
	movi	v18.8h, #128
	tbl	v4.16b, { v3.16b }, v4.16b
	movi	v3.16b, #1
	ushr	v6.8h, v4.8h, #8
	bic	v4.8h, #255, lsl #8
	mla	v5.8h, v6.8h, v2.8h
	mla	v7.8h, v4.8h, v1.8h
	umull2	v4.4s, v5.8h, v3.8h
	umull	v5.4s, v5.4h, v3.4h
	umull2	v6.4s, v7.8h, v3.8h
	umull	v7.4s, v7.4h, v3.4h
	uzp2	v5.8h, v5.8h, v4.8h
	ldr	q4, [x21, :lo12:.LCPI_7679a8_1]
	adrp	x21, .LCPI_7679a8_4
	uzp2	v6.8h, v7.8h, v6.8h
	ldr	q7, [x22]
	ldr	q17, [x21, :lo12:.LCPI_7679a8_4]
	mvn	v16.16b, v7.16b
	ushr	v21.8h, v7.8h, #8
	bic	v7.8h, #255, lsl #8
	tbl	v5.16b, { v5.16b }, v4.16b
	orr	v5.16b, v5.16b, v6.16b
	ushr	v6.4s, v16.4s, #24
	ushr	v16.4s, v5.4s, #24
	tbl	v6.16b, { v6.16b }, v17.16b
	ushr	v19.8h, v5.8h, #8
	bic	v5.8h, #255, lsl #8
	tbl	v16.16b, { v16.16b }, v17.16b
	movi	v17.8h, #128
	ushr	v20.8h, v6.8h, #8
	bic	v6.8h, #255, lsl #8
	ushr	v22.8h, v16.8h, #8
	mla	v17.8h, v20.8h, v19.8h
	movi	v19.8h, #128
	movi	v20.8h, #128
	bic	v16.8h, #255, lsl #8
	mla	v18.8h, v21.8h, v22.8h
	mla	v19.8h, v6.8h, v5.8h
	umull2	v5.4s, v17.8h, v3.8h
	umull	v6.4s, v17.4h, v3.4h
	mla	v20.8h, v7.8h, v16.8h
	umull2	v7.4s, v18.8h, v3.8h
	umull	v16.4s, v18.4h, v3.4h
	umull2	v17.4s, v19.8h, v3.8h
	umull	v18.4s, v19.4h, v3.4h
	uzp2	v5.8h, v6.8h, v5.8h
	umull2	v6.4s, v20.8h, v3.8h
	umull	v3.4s, v20.4h, v3.4h
	uzp2	v7.8h, v16.8h, v7.8h
	uzp2	v16.8h, v18.8h, v17.8h
	tbl	v5.16b, { v5.16b }, v4.16b
	uzp2	v3.8h, v3.8h, v6.8h
	tbl	v4.16b, { v7.16b }, v4.16b
	orr	v5.16b, v5.16b, v16.16b
	orr	v3.16b, v4.16b, v3.16b
	uqadd	v3.16b, v5.16b, v3.16b
	str	q3, [x22]
	cmp	x4, x2
	b.eq	.LBB_7679a8_2
	b	.LBB_7679a8_18
.LBB_7679a8_17:
	stp	xzr, xzr, [x22]
	cmp	x4, x2
	b.eq	.LBB_7679a8_2
.LBB_7679a8_18:
	mov	x21, x7
	mov	x22, x20
	and	x23, x12, #0xc
.LBB_7679a8_19:
	ldr	w24, [x5, x21]
	adrp	x25, .LCPI_7679a8_5
	movi	v5.4h, #128
	ldr	d4, [x25, :lo12:.LCPI_7679a8_5]
	ldrb	w25, [x22], #1
	dup	v3.2s, w24
	movi	v7.4h, #128
	add	x23, x23, #1
	cmp	x23, x2
	ushl	v3.2s, v3.2s, v4.2s
	mov	s4, v3.s[1]
	str	h3, [sp, #12]
	str	h4, [sp, #14]
	dup	v4.4h, w25
	ubfx	w25, w24, #8, #8
	ldr	s3, [sp, #12]
	zip1	v3.8b, v3.8b, v3.8b
	mla	v5.4h, v4.4h, v0.4h
	movi	v4.4h, #128
	mov	v3.h[1], wzr
	usra	v5.4h, v5.4h, #8
	uzp1	v3.8b, v3.8b, v0.8b
	ushr	v5.4h, v5.4h, #8
	ushll	v3.4s, v3.4h, #0
	mov	w26, v3.s[1]
	mov	v3.h[1], w26
	mov	v3.h[2], w25
	and	w25, w24, #0xff
	mvn	w24, w24
	lsr	w24, w24, #24
	dup	v6.4h, w24
	adrp	x24, .LCPI_7679a8_6
	mov	v3.h[3], w25
	mla	v7.4h, v5.4h, v6.4h
	mla	v4.4h, v3.4h, v5.h[1]
	usra	v7.4h, v7.4h, #8
	usra	v4.4h, v4.4h, #8
	ushr	v3.4h, v4.4h, #8
	movi	d4, #0xff00ff00ff00ff
	usra	v3.4h, v7.4h, #8
	umin	v3.4h, v3.4h, v4.4h
	ldr	q4, [x24, :lo12:.LCPI_7679a8_6]
	ushll	v3.4s, v3.4h, #0
	ushl	v3.4s, v3.4s, v4.4s
	ext	v4.16b, v3.16b, v3.16b, #8
	orr	v3.8b, v3.8b, v4.8b
	fmov	x24, d3
	lsr	x25, x24, #32
	orr	w24, w24, w25
	str	w24, [x5, x21]
	add	x21, x21, #4
	b.lo	.LBB_7679a8_19
	b	.LBB_7679a8_2
.LBB_7679a8_20:
	ldp	x20, x19, [sp, #64]
	ldp	x22, x21, [sp, #48]
	ldp	x24, x23, [sp, #32]
	ldp	x26, x25, [sp, #16]
	ldr	x27, [sp], #80
.LBB_7679a8_21:
	ret
.Lfunc_end_7679a8:
	.size	"pix_raster::view::blit_overlap::<#6f0e63a99552414a>", .Lfunc_end_7679a8-"pix_raster::view::blit_overlap::<#6f0e63a99552414a>"

	.section	.rodata.cst16,"aM",@progbits,16
	.p2align	4, 0x0
.LCPI_fec336_0:
	.byte	255
	.byte	0
	.byte	255
	.byte	2
	.byte	255
	.byte	4
	.byte	255
	.byte	6
	.byte	255
	.byte	8
	.byte	255
	.byte	10
	.byte	255
	.byte	12
	.byte	255
	.byte	14
.LCPI_fec336_1:
	.byte	0
	.byte	255
	.byte	0
	.byte	255
	.byte	4
	.byte	255
	.byte	4
	.byte	255
	.byte	8
	.byte	255
	.byte	8
	.byte	255
	.byte	12
	.byte	255
	.byte	12
	.byte	255
.LCPI_fec336_2:
	.byte	0
	.byte	0
	.byte	0
	.byte	0
	.byte	4
	.byte	4
	.byte	4
	.byte	4
	.byte	8
	.byte	8
	.byte	8
	.byte	8
	.byte	12
	.byte	12
	.byte	12
	.byte	12
.LCPI_fec336_4:
	.word	16
	.word	24
	.word	8
	.word	0
	.section	.rodata.cst8,"aM",@progbits,8
	.p2align	3, 0x0
.LCPI_fec336_3:
	.word	4294967280
	.word	4294967272
	.section	".text.pix_raster::view::blit_overlap::<#9d2a39c7bba67463>","ax",@progbits
	.p2align	2
	.type	"pix_raster::view::blit_overlap::<#9d2a39c7bba67463>",@function
"pix_raster::view::blit_overlap::<#9d2a39c7bba67463>":
	ldp	x8, x9, [x4, #24]
	cmp	x8, x9
	b.hs	.LBB_fec336_15
	sub	sp, sp, #96
	ldr	x15, [x4, #40]
	ldp	x14, x10, [x4, #8]
	ldr	x11, [x4]
	dup	v0.16b, w5
	and	w16, w5, #0xff
	madd	x6, x15, x3, x10
	stp	x20, x19, [sp, #80]
	fmov	s1, w16
	sub	x14, x14, x11
	stp	x22, x21, [sp, #64]
	lsl	x12, x3, #2
	madd	x5, x8, x1, x11
	and	x17, x14, #0xfffffffffffffff0
	lsl	x7, x14, #2
	lsr	x19, x17, #4
	ushr	v2.8h, v0.8h, #8
	bic	v0.8h, #255, lsl #8
	and	x21, x7, #0x30
	lsl	x13, x1, #2
	lsr	x16, x14, #4
	add	x20, x2, x6, lsl #2
	bfi	x21, x19, #6, #58
	sub	x15, x15, x8
	and	x18, x14, #0xf
	and	x4, x14, #0xc
	and	x6, x7, #0x20
	add	x22, x0, x5, lsl #2
	lsl	x5, x17, #2
	add	x7, x20, #32
	add	x20, x20, x21
	str	x27, [sp, #16]
	add	x19, x22, #32
	add	x21, x22, x21
	stp	x26, x25, [sp, #32]
	stp	x24, x23, [sp, #48]
	b	.LBB_fec336_3
.LBB_fec336_2:
	add	x8, x8, #1
	add	x7, x7, x12
	add	x19, x19, x13
	cmp	x8, x9
	add	x20, x20, x12
	add	x21, x21, x13
	b.eq	.LBB_fec336_14
.LBB_fec336_3:
	adrp	x22, .LCPI_fec336_0
	adrp	x23, .LCPI_fec336_1
	cbz	x16, .LBB_fec336_6
	mov	x24, x19
	mov	x25, x7
	mov	x26, x16
.LBB_fec336_5:
	ldp	q5, q4, [x25, #-32]
	movi	v6.8h, #128
	movi	v7.8h, #128
	movi	v19.8h, #128
	movi	v18.8h, #128
	movi	v3.16b, #1
	movi	v21.8h, #128
	subs	x26, x26, #1
	ushr	v16.8h, v4.8h, #8
	ushr	v17.8h, v5.8h, #8
	bic	v4.8h, #255, lsl #8
	bic	v5.8h, #255, lsl #8
	movi	v24.8h, #128
	movi	v26.8h, #128
	mla	v6.8h, v16.8h, v2.8h
	mla	v7.8h, v17.8h, v2.8h
	mla	v19.8h, v4.8h, v0.8h
	mla	v18.8h, v5.8h, v0.8h
	umull2	v4.4s, v6.8h, v3.8h
	umull	v6.4s, v6.4h, v3.4h
	umull2	v5.4s, v7.8h, v3.8h
	umull	v7.4s, v7.4h, v3.4h
	umull2	v16.4s, v19.8h, v3.8h
	umull	v17.4s, v19.4h, v3.4h
	umull2	v19.4s, v18.8h, v3.8h
	umull	v18.4s, v18.4h, v3.4h
	uzp2	v6.8h, v6.8h, v4.8h
	ldr	q4, [x22, :lo12:.LCPI_fec336_0]
	uzp2	v5.8h, v7.8h, v5.8h
	uzp2	v17.8h, v17.8h, v16.8h
	ldp	q7, q16, [x24, #-32]
	uzp2	v18.8h, v18.8h, v19.8h
	tbl	v6.16b, { v6.16b }, v4.16b
	tbl	v5.16b, { v5.16b }, v4.16b
	mvn	v19.16b, v7.16b
	mvn	v22.16b, v16.16b
	ushr	v28.8h, v16.8h, #8
	bic	v16.8h, #255, lsl #8
	orr	v17.16b, v6.16b, v17.16b
	ushr	v20.4s, v19.4s, #24
	ushr	v22.4s, v22.4s, #24
	orr	v18.16b, v5.16b, v18.16b
	ldr	q5, [x23, :lo12:.LCPI_fec336_1]
	movi	v6.8h, #128
	movi	v19.8h, #128
	ushr	v23.4s, v17.4s, #24
	tbl	v20.16b, { v20.16b }, v5.16b
	tbl	v22.16b, { v22.16b }, v5.16b
	ushr	v25.4s, v18.4s, #24
	ushr	v27.8h, v18.8h, #8
	bic	v18.8h, #255, lsl #8
	ushr	v29.8h, v17.8h, #8
	bic	v17.8h, #255, lsl #8
	tbl	v23.16b, { v23.16b }, v5.16b
	tbl	v25.16b, { v25.16b }, v5.16b
	mla	v21.8h, v27.8h, v20.8h
	ushr	v27.8h, v7.8h, #8
	mla	v6.8h, v18.8h, v20.8h
	movi	v18.8h, #128
	mla	v19.8h, v29.8h, v22.8h
	movi	v20.8h, #128
	bic	v7.8h, #255, lsl #8
	mla	v24.8h, v28.8h, v23.8h
	mla	v26.8h, v27.8h, v25.8h
	movi	v27.8h, #128
	mla	v18.8h, v17.8h, v22.8h
	umull2	v17.4s, v21.8h, v3.8h
	umull	v21.4s, v21.4h, v3.4h
	umull2	v22.4s, v19.8h, v3.8h
	umull	v19.4s, v19.4h, v3.4h
	mla	v20.8h, v7.8h, v25.8h
	umull2	v7.4s, v26.8h, v3.8h
	umull	v25.4s, v26.4h, v3.4h
	mla	v27.8h, v16.8h, v23.8h
	umull2	v16.4s, v24.8h, v3.8h
	umull	v23.4s, v24.4h, v3.4h
	umull2	v24.4s, v18.8h, v3.8h
	umull	v18.4s, v18.4h, v3.4h
	umull2	v26.4s, v6.8h, v3.8h
	umull	v6.4s, v6.4h, v3.4h
	uzp2	v17.8h, v21.8h, v17.8h
	uzp2	v19.8h, v19.8h, v22.8h
	umull2	v21.4s, v20.8h, v3.8h
	umull	v20.4s, v20.4h, v3.4h
	uzp2	v7.8h, v25.8h, v7.8h
	umull2	v22.4s, v27.8h, v3.8h
	umull	v25.4s, v27.4h, v3.4h
	uzp2	v16.8h, v23.8h, v16.8h
	uzp2	v18.8h, v18.8h, v24.8h
	uzp2	v6.8h, v6.8h, v26.8h
	movi	v26.8h, #128
	tbl	v17.16b, { v17.16b }, v4.16b
	tbl	v19.16b, { v19.16b }, v4.16b
	uzp2	v20.8h, v20.8h, v21.8h
	tbl	v7.16b, { v7.16b }, v4.16b
	uzp2	v21.8h, v25.8h, v22.8h
	tbl	v16.16b, { v16.16b }, v4.16b
	orr	v6.16b, v17.16b, v6.16b
	orr	v17.16b, v19.16b, v18.16b
	orr	v7.16b, v7.16b, v20.16b
	movi	v20.8h, #128
	orr	v16.16b, v16.16b, v21.16b
	movi	v21.8h, #128
	uqadd	v6.16b, v6.16b, v7.16b
	uqadd	v7.16b, v17.16b, v16.16b
	movi	v16.8h, #128
	movi	v17.8h, #128
	stp	q6, q7, [x24, #-32]
	ldp	q6, q7, [x25], #64
	ushr	v18.8h, v6.8h, #8
	ushr	v19.8h, v7.8h, #8
	bic	v6.8h, #255, lsl #8
	bic	v7.8h, #255, lsl #8
	mla	v16.8h, v18.8h, v2.8h
	mla	v17.8h, v19.8h, v2.8h
	mla	v20.8h, v6.8h, v0.8h
	mla	v21.8h, v7.8h, v0.8h
	umull2	v6.4s, v16.8h, v3.8h
	umull	v16.4s, v16.4h, v3.4h
	umull2	v7.4s, v17.8h, v3.8h
	umull	v17.4s, v17.4h, v3.4h
	umull2	v18.4s, v20.8h, v3.8h
	umull	v19.4s, v20.4h, v3.4h
	umull2	v20.4s, v21.8h, v3.8h
	umull	v21.4s, v21.4h, v3.4h
	uzp2	v16.8h, v16.8h, v6.8h
	uzp2	v17.8h, v17.8h, v7.8h
	ldp	q7, q6, [x24]
	uzp2	v18.8h, v19.8h, v18.8h
	uzp2	v20.8h, v21.8h, v20.8h
	tbl	v16.16b, { v16.16b }, v4.16b
	mvn	v19.16b, v6.16b
	mvn	v22.16b, v7.16b
	tbl	v21.16b, { v17.16b }, v4.16b
	ushr	v19.4s, v19.4s, #24
	orr	v17.16b, v16.16b, v18.16b
	movi	v18.8h, #128
	movi	v16.8h, #128
	orr	v20.16b, v21.16b, v20.16b
	ushr	v21.4s, v22.4s, #24
	tbl	v22.16b, { v19.16b }, v5.16b
	movi	v19.8h, #128
	ushr	v23.4s, v17.4s, #24
	ushr	v27.8h, v17.8h, #8
	bic	v17.8h, #255, lsl #8
	ushr	v24.4s, v20.4s, #24
	ushr	v25.8h, v20.8h, #8
	bic	v20.8h, #255, lsl #8
	tbl	v21.16b, { v21.16b }, v5.16b
	tbl	v23.16b, { v23.16b }, v5.16b
	tbl	v5.16b, { v24.16b }, v5.16b
	mla	v18.8h, v25.8h, v22.8h
	movi	v25.8h, #128
	ushr	v24.8h, v7.8h, #8
	mla	v16.8h, v20.8h, v22.8h
	ushr	v22.8h, v6.8h, #8
	movi	v20.8h, #128
	mla	v26.8h, v27.8h, v21.8h
	movi	v27.8h, #128
	bic	v7.8h, #255, lsl #8
	bic	v6.8h, #255, lsl #8
	mla	v19.8h, v24.8h, v23.8h
	movi	v24.8h, #128
	mla	v25.8h, v22.8h, v5.8h
	umull2	v22.4s, v26.8h, v3.8h
	umull	v26.4s, v26.4h, v3.4h
	mla	v20.8h, v17.8h, v21.8h
	umull2	v17.4s, v18.8h, v3.8h
	umull	v18.4s, v18.4h, v3.4h
	mla	v27.8h, v7.8h, v23.8h
	umull2	v7.4s, v19.8h, v3.8h
	umull	v19.4s, v19.4h, v3.4h
	mla	v24.8h, v6.8h, v5.8h
	umull2	v5.4s, v25.8h, v3.8h
	umull	v6.4s, v25.4h, v3.4h
	umull2	v21.4s, v16.8h, v3.8h
	umull	v16.4s, v16.4h, v3.4h
	uzp2	v22.8h, v26.8h, v22.8h
	umull2	v23.4s, v20.8h, v3.8h
	umull	v20.4s, v20.4h, v3.4h
	uzp2	v17.8h, v18.8h, v17.8h
	umull2	v18.4s, v27.8h, v3.8h
	umull	v25.4s, v27.4h, v3.4h
	uzp2	v7.8h, v19.8h, v7.8h
	umull2	v19.4s, v24.8h, v3.8h
	umull	v3.4s, v24.4h, v3.4h
	uzp2	v5.8h, v6.8h, v5.8h
	uzp2	v6.8h, v16.8h, v21.8h
	uzp2	v16.8h, v20.8h, v23.8h
	tbl	v20.16b, { v22.16b }, v4.16b
	tbl	v17.16b, { v17.16b }, v4.16b
	uzp2	v18.8h, v25.8h, v18.8h
	tbl	v7.16b, { v7.16b }, v4.16b
	uzp2	v3.8h, v3.8h, v19.8h
	tbl	v4.16b, { v5.16b }, v4.16b
	orr	v5.16b, v20.16b, v16.16b
	orr	v6.16b, v17.16b, v6.16b
	orr	v7.16b, v7.16b, v18.16b
	orr	v3.16b, v4.16b, v3.16b
	uqadd	v4.16b, v5.16b, v7.16b
	uqadd	v3.16b, v6.16b, v3.16b
	stp	q4, q3, [x24], #64
	b.ne	.LBB_fec336_5
.LBB_fec336_6:
	cmp	x17, x14
	b.eq	.LBB_fec336_2
	add	x25, x15, x8
	madd	x24, x8, x1, x11
	madd	x25, x25, x3, x10
	add	x24, x0, x24, lsl #2
	add	x25, x2, x25, lsl #2
	add	x24, x24, x5
	add	x25, x25, x5
	tbnz	w14, #3, .LBB_fec336_10
	tbnz	w14, #2, .LBB_fec336_11
.LBB_fec336_9:
	cmp	x4, x18
	b.eq	.LBB_fec336_2
	b	.LBB_fec336_12
.LBB_fec336_10:
	ldp	q4, q5, [x25]
	movi	v6.8h, #128
	movi	v7.8h, #128
	movi	v18.8h, #128
	movi	v19.8h, #128
	movi	v3.16b, #1
	ldr	q21, [x23, :lo12:.LCPI_fec336_1]
	movi	v26.8h, #128
	ushr	v16.8h, v4.8h, #8
	ushr	v17.8h, v5.8h, #8
	bic	v4.8h, #255, lsl #8
	bic	v5.8h, #255, lsl #8
	mla	v6.8h, v16.8h, v2.8h
	mla	v7.8h, v17.8h, v2.8h
	mla	v18.8h, v4.8h, v0.8h
	mla	v19.8h, v5.8h, v0.8h
	umull2	v4.4s, v6.8h, v3.8h
	umull	v6.4s, v6.4h, v3.4h
	umull2	v5.4s, v7.8h, v3.8h
	umull	v7.4s, v7.4h, v3.4h
	umull2	v16.4s, v18.8h, v3.8h
	umull	v17.4s, v18.4h, v3.4h
	umull2	v20.4s, v19.8h, v3.8h
	umull	v19.4s, v19.4h, v3.4h
	uzp2	v18.8h, v6.8h, v4.8h
	ldr	q4, [x22, :lo12:.LCPI_fec336_0]
	uzp2	v7.8h, v7.8h, v5.8h
	ldp	q6, q5, [x24]
	uzp2	v16.8h, v17.8h, v16.8h
	uzp2	v19.8h, v19.8h, v20.8h
	tbl	v17.16b, { v18.16b }, v4.16b
	mvn	v18.16b, v5.16b
	mvn	v20.16b, v6.16b
	tbl	v7.16b, { v7.16b }, v4.16b
	ushr	v18.4s, v18.4s, #24
	ushr	v20.4s, v20.4s, #24
	orr	v16.16b, v17.16b, v16.16b
	movi	v17.8h, #128
	orr	v19.16b, v7.16b, v19.16b
	movi	v7.8h, #128
	tbl	v22.16b, { v18.16b }, v21.16b
	tbl	v20.16b, { v20.16b }, v21.16b
	movi	v18.8h, #128
	ushr	v23.4s, v16.4s, #24
	ushr	v27.8h, v16.8h, #8
	bic	v16.8h, #255, lsl #8
	ushr	v24.4s, v19.4s, #24
	ushr	v25.8h, v19.8h, #8
	bic	v19.8h, #255, lsl #8
	tbl	v23.16b, { v23.16b }, v21.16b
	mla	v26.8h, v27.8h, v20.8h
	movi	v27.8h, #128
	tbl	v21.16b, { v24.16b }, v21.16b
	mla	v17.8h, v25.8h, v22.8h
	movi	v25.8h, #128
	ushr	v24.8h, v6.8h, #8
	mla	v7.8h, v19.8h, v22.8h
	ushr	v22.8h, v5.8h, #8
	movi	v19.8h, #128
	bic	v6.8h, #255, lsl #8
	bic	v5.8h, #255, lsl #8
	mla	v18.8h, v24.8h, v23.8h
	movi	v24.8h, #128
	mla	v25.8h, v22.8h, v21.8h
	umull2	v22.4s, v26.8h, v3.8h
	umull	v26.4s, v26.4h, v3.4h
	mla	v27.8h, v6.8h, v23.8h
	mla	v19.8h, v16.8h, v20.8h
	umull2	v16.4s, v17.8h, v3.8h
	umull	v17.4s, v17.4h, v3.4h
	umull2	v6.4s, v18.8h, v3.8h
	umull	v18.4s, v18.4h, v3.4h
	mla	v24.8h, v5.8h, v21.8h
	umull2	v5.4s, v25.8h, v3.8h
	umull	v20.4s, v25.4h, v3.4h
	umull2	v21.4s, v7.8h, v3.8h
	umull	v7.4s, v7.4h, v3.4h
	uzp2	v22.8h, v26.8h, v22.8h
	umull2	v23.4s, v19.8h, v3.8h
	umull	v19.4s, v19.4h, v3.4h
	uzp2	v16.8h, v17.8h, v16.8h
	umull2	v17.4s, v27.8h, v3.8h
	umull	v25.4s, v27.4h, v3.4h
	uzp2	v6.8h, v18.8h, v6.8h
	umull2	v18.4s, v24.8h, v3.8h
	umull	v3.4s, v24.4h, v3.4h
	uzp2	v5.8h, v20.8h, v5.8h
	uzp2	v7.8h, v7.8h, v21.8h
	tbl	v20.16b, { v22.16b }, v4.16b
	uzp2	v19.8h, v19.8h, v23.8h
	tbl	v16.16b, { v16.16b }, v4.16b
	uzp2	v17.8h, v25.8h, v17.8h
	tbl	v6.16b, { v6.16b }, v4.16b
	uzp2	v3.8h, v3.8h, v18.8h
	tbl	v4.16b, { v5.16b }, v4.16b
	orr	v5.16b, v20.16b, v19.16b
	orr	v7.16b, v16.16b, v7.16b
	orr	v6.16b, v6.16b, v17.16b
	orr	v3.16b, v4.16b, v3.16b
	uqadd	v4.16b, v5.16b, v6.16b
	uqadd	v3.16b, v7.16b, v3.16b
	stp	q4, q3, [x24]
	tbz	w14, #2, .LBB_fec336_9
.LBB_fec336_11:
	ldr	q6, [x25, x6]
	movi	v4.8h, #128
	movi	v7.8h, #128
	movi	v3.16b, #1
	movi	v18.8h, #128
	ushr	v5.8h, v6.8h, #8
	bic	v6.8h, #255, lsl #8
	mla	v4.8h, v5.8h, v2.8h
	mla	v7.8h, v6.8h, v0.8h
	umull2	v5.4s, v4.8h, v3.8h
	umull	v4.4s, v4.4h, v3.4h
	umull2	v6.4s, v7.8h, v3.8h
	umull	v7.4s, v7.4h, v3.4h
	uzp2	v5.8h, v4.8h, v5.8h
	ldr	q4, [x22, :lo12:.LCPI_fec336_0]
	adrp	x22, .LCPI_fec336_2
	uzp2	v6.8h, v7.8h, v6.8h
	ldr	q7, [x24, x6]
	ldr	q17, [x22, :lo12:.LCPI_fec336_2]
	mvn	v16.16b, v7.16b
	ushr	v21.8h, v7.8h, #8
	bic	v7.8h, #255, lsl #8
	tbl	v5.16b, { v5.16b }, v4.16b
	orr	v5.16b, v5.16b, v6.16b
	ushr	v6.4s, v16.4s, #24
	ushr	v16.4s, v5.4s, #24
	tbl	v6.16b, { v6.16b }, v17.16b
	ushr	v19.8h, v5.8h, #8
	bic	v5.8h, #255, lsl #8
	tbl	v16.16b, { v16.16b }, v17.16b
	movi	v17.8h, #128
	ushr	v20.8h, v6.8h, #8
	bic	v6.8h, #255, lsl #8
	ushr	v22.8h, v16.8h, #8
	mla	v17.8h, v20.8h, v19.8h
	movi	v19.8h, #128
	movi	v20.8h, #128
	bic	v16.8h, #255, lsl #8
	mla	v18.8h, v21.8h, v22.8h
	mla	v19.8h, v6.8h, v5.8h
	umull2	v5.4s, v17.8h, v3.8h
	umull	v6.4s, v17.4h, v3.4h
	mla	v20.8h, v7.8h, v16.8h
	umull2	v7.4s, v18.8h, v3.8h
	umull	v16.4s, v18.4h, v3.4h
	umull2	v17.4s, v19.8h, v3.8h
	umull	v18.4s, v19.4h, v3.4h
	uzp2	v5.8h, v6.8h, v5.8h
	umull2	v6.4s, v20.8h, v3.8h
	umull	v3.4s, v20.4h, v3.4h
	uzp2	v7.8h, v16.8h, v7.8h
	uzp2	v16.8h, v18.8h, v17.8h
	tbl	v5.16b, { v5.16b }, v4.16b
	uzp2	v3.8h, v3.8h, v6.8h
	tbl	v4.16b, { v7.16b }, v4.16b
	orr	v5.16b, v5.16b, v16.16b
	orr	v3.16b, v4.16b, v3.16b
	uqadd	v3.16b, v5.16b, v3.16b
	str	q3, [x24, x6]
	cmp	x4, x18
	b.eq	.LBB_fec336_2
.LBB_fec336_12:
	mov	x22, x21
	mov	x23, x20
	and	x24, x14, #0xc
.LBB_fec336_13:
	ldr	w26, [x23], #4
	adrp	x25, .LCPI_fec336_3
	ldr	d4, [x25, :lo12:.LCPI_fec336_3]
	ldr	w25, [x22]
	movi	v7.4h, #128
	dup	v3.2s, w26
	add	x24, x24, #1
	cmp	x24, x18
	ushl	v3.2s, v3.2s, v4.2s
	mov	s5, v3.s[1]
	str	h3, [sp, #28]
	dup	v3.2s, w25
	str	h5, [sp, #30]
	ushl	v3.2s, v3.2s, v4.2s
	ldr	s5, [sp, #28]
	zip1	v5.8b, v5.8b, v5.8b
	mov	s4, v3.s[1]
	str	h3, [sp, #12]
	mov	v5.h[1], wzr
	str	h4, [sp, #14]
	ldr	s4, [sp, #12]
	zip1	v4.8b, v4.8b, v4.8b
	uzp1	v3.8b, v5.8b, v0.8b
	movi	v5.4h, #128
	mov	v4.h[1], wzr
	ushll	v3.4s, v3.4h, #0
	mov	w27, v3.s[1]
	uzp1	v4.8b, v4.8b, v0.8b
	mov	v3.h[1], w27
	ubfx	w27, w26, #8, #8
	ushll	v4.4s, v4.4h, #0
	and	w26, w26, #0xff
	mov	v3.h[2], w27
	mov	w27, v4.s[1]
	mov	v3.h[3], w26
	mov	v4.h[1], w27
	ubfx	w26, w25, #8, #8
	mla	v5.4h, v3.4h, v1.h[0]
	mov	v4.h[2], w26
	and	w26, w25, #0xff
	mvn	w25, w25
	movi	v3.4h, #128
	lsr	w25, w25, #24
	usra	v5.4h, v5.4h, #8
	mov	v4.h[3], w26
	dup	v6.4h, w25
	adrp	x25, .LCPI_fec336_4
	ushr	v5.4h, v5.4h, #8
	mla	v3.4h, v4.4h, v5.h[1]
	mla	v7.4h, v5.4h, v6.4h
	movi	d4, #0xff00ff00ff00ff
	usra	v3.4h, v3.4h, #8
	usra	v7.4h, v7.4h, #8
	ushr	v3.4h, v3.4h, #8
	usra	v3.4h, v7.4h, #8
	umin	v3.4h, v3.4h, v4.4h
	ldr	q4, [x25, :lo12:.LCPI_fec336_4]
	ushll	v3.4s, v3.4h, #0
	ushl	v3.4s, v3.4s, v4.4s
	ext	v4.16b, v3.16b, v3.16b, #8
	orr	v3.8b, v3.8b, v4.8b
	fmov	x25, d3
	lsr	x26, x25, #32
	orr	w25, w25, w26
	str	w25, [x22], #4
	b.lo	.LBB_fec336_13
	b	.LBB_fec336_2
.LBB_fec336_14:
	ldp	x20, x19, [sp, #80]
	ldr	x27, [sp, #16]
	ldp	x22, x21, [sp, #64]
	ldp	x24, x23, [sp, #48]
	ldp	x26, x25, [sp, #32]
	add	sp, sp, #96
.LBB_fec336_15:
	ret
.Lfunc_end_fec336:
	.size	"pix_raster::view::blit_overlap::<#9d2a39c7bba67463>", .Lfunc_end_fec336-"pix_raster::view::blit_overlap::<#9d2a39c7bba67463>"

	.section	.rodata.cst16,"aM",@progbits,16
	.p2align	4, 0x0
.LCPI_358ef0_0:
	.byte	0
	.byte	255
	.byte	0
	.byte	255
	.byte	4
	.byte	255
	.byte	4
	.byte	255
	.byte	8
	.byte	255
	.byte	8
	.byte	255
	.byte	12
	.byte	255
	.byte	12
	.byte	255
.LCPI_358ef0_1:
	.byte	255
	.byte	0
	.byte	255
	.byte	2
	.byte	255
	.byte	4
	.byte	255
	.byte	6
	.byte	255
	.byte	8
	.byte	255
	.byte	10
	.byte	255
	.byte	12
	.byte	255
	.byte	14
.LCPI_358ef0_2:
	.byte	0
	.byte	0
	.byte	0
	.byte	0
	.byte	4
	.byte	4
	.byte	4
	.byte	4
	.byte	8
	.byte	8
	.byte	8
	.byte	8
	.byte	12
	.byte	12
	.byte	12
	.byte	12
.LCPI_358ef0_4:
	.word	24
	.word	16
	.word	8
	.word	0
	.section	.rodata.cst8,"aM",@progbits,8
	.p2align	3, 0x0
.LCPI_358ef0_3:
	.word	4294967272
	.word	4294967280
	.section	".text.pix_raster::view::blit_overlap::<#64f9c87ff7b7bdd2>","ax",@progbits
	.p2align	2
	.type	"pix_raster::view::blit_overlap::<#64f9c87ff7b7bdd2>",@function
"pix_raster::view::blit_overlap::<#64f9c87ff7b7bdd2>":
	ldp	x8, x9, [x4, #24]
	cmp	x8, x9
	b.hs	.LBB_358ef0_15
	sub	sp, sp, #112
	ldr	x16, [x4, #40]
	ldp	x13, x10, [x4, #8]
	ldr	x11, [x4]
	madd	x6, x8, x1, x11
	lsl	x12, x3, #2
	stp	x20, x19, [sp, #96]
	lsl	x14, x1, #2
	madd	x5, x16, x3, x10
	sub	x13, x13, x11
	stp	x22, x21, [sp, #80]
	and	x15, x13, #0xfffffffffffffff0
	lsl	x7, x13, #2
	lsr	x17, x13, #4
	lsr	x19, x15, #4
	sub	x16, x16, x8
	and	x18, x13, #0xf
	and	x21, x7, #0x30
	add	x22, x0, x6, lsl #2
	and	x4, x13, #0xc
	bfi	x21, x19, #6, #58
	and	x6, x7, #0x20
	str	x30, [sp, #16]
	add	x20, x2, x5, lsl #2
	lsl	x5, x15, #2
	add	x19, x22, #32
	stp	x28, x27, [sp, #32]
	add	x7, x20, #32
	add	x20, x20, x21
	add	x21, x22, x21
	stp	x26, x25, [sp, #48]
	stp	x24, x23, [sp, #64]
	b	.LBB_358ef0_3
.LBB_358ef0_2:
	add	x8, x8, #1
	add	x7, x7, x12
	add	x19, x19, x14
	cmp	x8, x9
	add	x20, x20, x12
	add	x21, x21, x14
	b.eq	.LBB_358ef0_14
.LBB_358ef0_3:
	adrp	x23, .LCPI_358ef0_0
	adrp	x22, .LCPI_358ef0_1
	cbz	x17, .LBB_358ef0_6
	mov	x24, x19
	mov	x25, x7
	mov	x26, x17
.LBB_358ef0_5:
	ldp	q3, q4, [x24, #-32]
	movi	v2.8h, #128
	ldp	q1, q5, [x25, #-32]
	movi	v22.8h, #128
	movi	v23.8h, #128
	subs	x26, x26, #1
	mvn	v0.16b, v3.16b
	mvn	v6.16b, v4.16b
	ushr	v25.8h, v3.8h, #8
	mvn	v16.16b, v1.16b
	mvn	v17.16b, v5.16b
	ushr	v18.8h, v1.8h, #8
	bic	v1.8h, #255, lsl #8
	ushr	v24.8h, v5.8h, #8
	bic	v5.8h, #255, lsl #8
	ushr	v7.4s, v0.4s, #24
	ldr	q0, [x23, :lo12:.LCPI_358ef0_0]
	ushr	v19.4s, v6.4s, #24
	ushr	v21.4s, v16.4s, #24
	ushr	v17.4s, v17.4s, #24
	movi	v16.8h, #128
	movi	v6.8h, #128
	bic	v3.8h, #255, lsl #8
	tbl	v20.16b, { v7.16b }, v0.16b
	movi	v7.8h, #128
	tbl	v19.16b, { v19.16b }, v0.16b
	tbl	v21.16b, { v21.16b }, v0.16b
	tbl	v17.16b, { v17.16b }, v0.16b
	mla	v7.8h, v18.8h, v20.8h
	ushr	v18.8h, v4.8h, #8
	mla	v2.8h, v1.8h, v20.8h
	movi	v1.16b, #1
	mla	v16.8h, v24.8h, v19.8h
	movi	v20.8h, #128
	mla	v23.8h, v25.8h, v21.8h
	movi	v24.8h, #128
	bic	v4.8h, #255, lsl #8
	mla	v22.8h, v18.8h, v17.8h
	mla	v6.8h, v5.8h, v19.8h
	umull2	v5.4s, v7.8h, v1.8h
	umull	v7.4s, v7.4h, v1.4h
	umull2	v18.4s, v16.8h, v1.8h
	umull	v16.4s, v16.4h, v1.4h
	mla	v20.8h, v3.8h, v21.8h
	umull2	v3.4s, v23.8h, v1.8h
	umull	v19.4s, v23.4h, v1.4h
	mla	v24.8h, v4.8h, v17.8h
	umull2	v4.4s, v22.8h, v1.8h
	umull	v17.4s, v22.4h, v1.4h
	umull2	v21.4s, v6.8h, v1.8h
	umull	v6.4s, v6.4h, v1.4h
	umull2	v22.4s, v2.8h, v1.8h
	umull	v23.4s, v2.4h, v1.4h
	ldr	q2, [x22, :lo12:.LCPI_358ef0_1]
	uzp2	v5.8h, v7.8h, v5.8h
	uzp2	v7.8h, v16.8h, v18.8h
	umull2	v16.4s, v20.8h, v1.8h
	umull	v18.4s, v20.4h, v1.4h
	uzp2	v3.8h, v19.8h, v3.8h
	umull2	v19.4s, v24.8h, v1.8h
	umull	v20.4s, v24.4h, v1.4h
	uzp2	v4.8h, v17.8h, v4.8h
	uzp2	v6.8h, v6.8h, v21.8h
	uzp2	v17.8h, v23.8h, v22.8h
	movi	v22.8h, #128
	movi	v23.8h, #128
	tbl	v5.16b, { v5.16b }, v2.16b
	tbl	v7.16b, { v7.16b }, v2.16b
	uzp2	v16.8h, v18.8h, v16.8h
	tbl	v3.16b, { v3.16b }, v2.16b
	uzp2	v18.8h, v20.8h, v19.8h
	tbl	v4.16b, { v4.16b }, v2.16b
	orr	v5.16b, v5.16b, v17.16b
	orr	v6.16b, v7.16b, v6.16b
	orr	v3.16b, v3.16b, v16.16b
	orr	v4.16b, v4.16b, v18.16b
	uqadd	v7.16b, v5.16b, v3.16b
	ldp	q5, q3, [x24]
	uqadd	v4.16b, v6.16b, v4.16b
	mvn	v16.16b, v3.16b
	stp	q7, q4, [x24, #-32]
	mvn	v4.16b, v5.16b
	ldp	q6, q17, [x25], #64
	ushr	v7.4s, v16.4s, #24
	ushr	v18.4s, v4.4s, #24
	movi	v4.8h, #128
	mvn	v16.16b, v6.16b
	mvn	v19.16b, v17.16b
	mov	v20.16b, v17.16b
	tbl	v7.16b, { v7.16b }, v0.16b
	ushr	v24.8h, v6.8h, #8
	ushr	v17.8h, v17.8h, #8
	tbl	v18.16b, { v18.16b }, v0.16b
	bic	v6.8h, #255, lsl #8
	bic	v20.8h, #255, lsl #8
	ushr	v21.4s, v16.4s, #24
	ushr	v19.4s, v19.4s, #24
	movi	v16.8h, #128
	mla	v23.8h, v17.8h, v7.8h
	movi	v17.8h, #128
	mla	v4.8h, v20.8h, v7.8h
	tbl	v20.16b, { v21.16b }, v0.16b
	tbl	v0.16b, { v19.16b }, v0.16b
	movi	v19.8h, #128
	ushr	v21.8h, v5.8h, #8
	mla	v22.8h, v24.8h, v18.8h
	ushr	v24.8h, v3.8h, #8
	movi	v7.8h, #128
	bic	v5.8h, #255, lsl #8
	bic	v3.8h, #255, lsl #8
	mla	v16.8h, v21.8h, v20.8h
	movi	v21.8h, #128
	mla	v19.8h, v24.8h, v0.8h
	umull2	v24.4s, v22.8h, v1.8h
	umull	v22.4s, v22.4h, v1.4h
	mla	v7.8h, v6.8h, v18.8h
	umull2	v6.4s, v23.8h, v1.8h
	umull	v18.4s, v23.4h, v1.4h
	mla	v17.8h, v5.8h, v20.8h
	umull2	v5.4s, v16.8h, v1.8h
	umull	v16.4s, v16.4h, v1.4h
	mla	v21.8h, v3.8h, v0.8h
	umull2	v0.4s, v19.8h, v1.8h
	umull	v3.4s, v19.4h, v1.4h
	umull2	v19.4s, v4.8h, v1.8h
	umull	v4.4s, v4.4h, v1.4h
	uzp2	v20.8h, v22.8h, v24.8h
	umull2	v22.4s, v7.8h, v1.8h
	umull	v7.4s, v7.4h, v1.4h
	uzp2	v6.8h, v18.8h, v6.8h
	umull2	v18.4s, v17.8h, v1.8h
	umull	v17.4s, v17.4h, v1.4h
	uzp2	v5.8h, v16.8h, v5.8h
	umull2	v16.4s, v21.8h, v1.8h
	umull	v1.4s, v21.4h, v1.4h
	uzp2	v0.8h, v3.8h, v0.8h
	uzp2	v3.8h, v4.8h, v19.8h
	uzp2	v4.8h, v7.8h, v22.8h
	tbl	v7.16b, { v20.16b }, v2.16b
	tbl	v6.16b, { v6.16b }, v2.16b
	uzp2	v17.8h, v17.8h, v18.8h
	tbl	v5.16b, { v5.16b }, v2.16b
	uzp2	v1.8h, v1.8h, v16.8h
	tbl	v0.16b, { v0.16b }, v2.16b
	orr	v2.16b, v7.16b, v4.16b
	orr	v3.16b, v6.16b, v3.16b
	orr	v4.16b, v5.16b, v17.16b
	orr	v0.16b, v0.16b, v1.16b
	uqadd	v1.16b, v2.16b, v4.16b
	uqadd	v0.16b, v3.16b, v0.16b
	stp	q1, q0, [x24], #64
	b.ne	.LBB_358ef0_5
.LBB_358ef0_6:
	cmp	x15, x13
	b.eq	.LBB_358ef0_2
	add	x25, x16, x8
	madd	x24, x8, x1, x11
	madd	x25, x25, x3, x10
	add	x24, x0, x24, lsl #2
	add	x25, x2, x25, lsl #2
	add	x24, x24, x5
	add	x25, x25, x5
	tbnz	w13, #3, .LBB_358ef0_10
	tbnz	w13, #2, .LBB_358ef0_11
.LBB_358ef0_9:
	cmp	x4, x18
	b.eq	.LBB_358ef0_2
	b	.LBB_358ef0_12
.LBB_358ef0_10:
	ldp	q1, q0, [x24]
	movi	v22.8h, #128
	ldp	q3, q20, [x25]
	movi	v4.8h, #128
	ldr	q17, [x23, :lo12:.LCPI_358ef0_0]
	mvn	v2.16b, v0.16b
	mvn	v5.16b, v1.16b
	mvn	v6.16b, v3.16b
	mvn	v7.16b, v20.16b
	ushr	v19.8h, v20.8h, #8
	bic	v20.8h, #255, lsl #8
	ushr	v23.8h, v3.8h, #8
	bic	v3.8h, #255, lsl #8
	ushr	v16.4s, v2.4s, #24
	movi	v2.8h, #128
	ushr	v18.4s, v5.4s, #24
	movi	v5.8h, #128
	ushr	v7.4s, v7.4s, #24
	ushr	v21.4s, v6.4s, #24
	movi	v6.8h, #128
	tbl	v16.16b, { v16.16b }, v17.16b
	tbl	v18.16b, { v18.16b }, v17.16b
	tbl	v21.16b, { v21.16b }, v17.16b
	tbl	v7.16b, { v7.16b }, v17.16b
	movi	v17.8h, #128
	mla	v2.8h, v20.8h, v16.8h
	ushr	v20.8h, v1.8h, #8
	mla	v5.8h, v19.8h, v16.8h
	ushr	v19.8h, v0.8h, #8
	movi	v16.16b, #1
	mla	v22.8h, v23.8h, v18.8h
	movi	v23.8h, #128
	bic	v1.8h, #255, lsl #8
	bic	v0.8h, #255, lsl #8
	mla	v6.8h, v20.8h, v21.8h
	movi	v20.8h, #128
	mla	v4.8h, v3.8h, v18.8h
	mla	v17.8h, v19.8h, v7.8h
	umull2	v19.4s, v22.8h, v16.8h
	umull	v22.4s, v22.4h, v16.4h
	umull2	v3.4s, v5.8h, v16.8h
	umull	v5.4s, v5.4h, v16.4h
	mla	v23.8h, v1.8h, v21.8h
	umull2	v1.4s, v6.8h, v16.8h
	umull	v6.4s, v6.4h, v16.4h
	mla	v20.8h, v0.8h, v7.8h
	umull2	v0.4s, v17.8h, v16.8h
	umull	v7.4s, v17.4h, v16.4h
	umull2	v17.4s, v2.8h, v16.8h
	umull	v2.4s, v2.4h, v16.4h
	uzp2	v18.8h, v22.8h, v19.8h
	umull2	v19.4s, v4.8h, v16.8h
	umull	v4.4s, v4.4h, v16.4h
	uzp2	v3.8h, v5.8h, v3.8h
	umull2	v5.4s, v23.8h, v16.8h
	umull	v21.4s, v23.4h, v16.4h
	uzp2	v1.8h, v6.8h, v1.8h
	umull2	v6.4s, v20.8h, v16.8h
	umull	v16.4s, v20.4h, v16.4h
	uzp2	v0.8h, v7.8h, v0.8h
	ldr	q7, [x22, :lo12:.LCPI_358ef0_1]
	uzp2	v2.8h, v2.8h, v17.8h
	uzp2	v4.8h, v4.8h, v19.8h
	tbl	v17.16b, { v18.16b }, v7.16b
	tbl	v3.16b, { v3.16b }, v7.16b
	uzp2	v5.8h, v21.8h, v5.8h
	tbl	v1.16b, { v1.16b }, v7.16b
	uzp2	v6.8h, v16.8h, v6.8h
	tbl	v0.16b, { v0.16b }, v7.16b
	orr	v4.16b, v17.16b, v4.16b
	orr	v2.16b, v3.16b, v2.16b
	orr	v1.16b, v1.16b, v5.16b
	orr	v0.16b, v0.16b, v6.16b
	uqadd	v1.16b, v4.16b, v1.16b
	uqadd	v0.16b, v2.16b, v0.16b
	stp	q1, q0, [x24]
	tbz	w13, #2, .LBB_358ef0_9
.LBB_358ef0_11:
	ldr	q0, [x24, x6]
	ldr	q1, [x25, x6]
	adrp	x23, .LCPI_358ef0_2
	ldr	q4, [x23, :lo12:.LCPI_358ef0_2]
	movi	v5.8h, #128
	mvn	v2.16b, v0.16b
	mvn	v3.16b, v1.16b
	ushr	v6.8h, v1.8h, #8
	ushr	v16.8h, v0.8h, #8
	bic	v1.8h, #255, lsl #8
	bic	v0.8h, #255, lsl #8
	ushr	v2.4s, v2.4s, #24
	ushr	v3.4s, v3.4s, #24
	tbl	v2.16b, { v2.16b }, v4.16b
	tbl	v3.16b, { v3.16b }, v4.16b
	movi	v4.8h, #128
	ushr	v7.8h, v2.8h, #8
	ushr	v17.8h, v3.8h, #8
	bic	v2.8h, #255, lsl #8
	bic	v3.8h, #255, lsl #8
	mla	v4.8h, v7.8h, v6.8h
	movi	v6.8h, #128
	mla	v5.8h, v16.8h, v17.8h
	movi	v7.16b, #1
	movi	v16.8h, #128
	mla	v6.8h, v2.8h, v1.8h
	umull2	v1.4s, v4.8h, v7.8h
	umull	v2.4s, v4.4h, v7.4h
	mla	v16.8h, v0.8h, v3.8h
	umull2	v0.4s, v5.8h, v7.8h
	umull	v3.4s, v5.4h, v7.4h
	umull2	v4.4s, v6.8h, v7.8h
	umull	v5.4s, v6.4h, v7.4h
	uzp2	v1.8h, v2.8h, v1.8h
	umull2	v2.4s, v16.8h, v7.8h
	umull	v6.4s, v16.4h, v7.4h
	uzp2	v0.8h, v3.8h, v0.8h
	ldr	q3, [x22, :lo12:.LCPI_358ef0_1]
	uzp2	v4.8h, v5.8h, v4.8h
	tbl	v1.16b, { v1.16b }, v3.16b
	uzp2	v2.8h, v6.8h, v2.8h
	tbl	v0.16b, { v0.16b }, v3.16b
	orr	v1.16b, v1.16b, v4.16b
	orr	v0.16b, v0.16b, v2.16b
	uqadd	v0.16b, v1.16b, v0.16b
	str	q0, [x24, x6]
	cmp	x4, x18
	b.eq	.LBB_358ef0_2
.LBB_358ef0_12:
	mov	x22, x21
	mov	x23, x20
	and	x24, x13, #0xc
.LBB_358ef0_13:
	ldr	w25, [x23], #4
	ldr	w26, [x22]
	adrp	x27, .LCPI_358ef0_3
	movi	v5.4h, #128
	add	x24, x24, #1
	dup	v0.2s, w25
	dup	v2.2s, w26
	ldr	d1, [x27, :lo12:.LCPI_358ef0_3]
	and	w30, w26, #0xff
	cmp	x24, x18
	ushl	v0.2s, v0.2s, v1.2s
	ushl	v1.2s, v2.2s, v1.2s
	mov	s2, v0.s[1]
	mov	s3, v1.s[1]
	str	h0, [sp, #28]
	str	h1, [sp, #12]
	str	h2, [sp, #30]
	movi	v2.4h, #128
	str	h3, [sp, #14]
	ldr	s0, [sp, #28]
	ldr	s1, [sp, #12]
	zip1	v0.8b, v0.8b, v0.8b
	zip1	v1.8b, v1.8b, v1.8b
	mov	v0.h[3], wzr
	mov	v1.h[3], wzr
	uzp1	v1.8b, v1.8b, v0.8b
	uzp1	v0.8b, v0.8b, v0.8b
	ushll	v1.4s, v1.4h, #0
	ushll	v0.4s, v0.4h, #0
	mov	w27, v1.s[1]
	mov	w28, v0.s[1]
	mov	v1.h[1], w27
	ubfx	w27, w26, #8, #8
	mov	v0.h[1], w28
	mvn	w28, w25
	mvn	w26, w26
	lsr	w28, w28, #24
	lsr	w26, w26, #24
	mov	v1.h[2], w27
	ubfx	w27, w25, #8, #8
	dup	v3.4h, w28
	and	w25, w25, #0xff
	dup	v4.4h, w26
	mov	v0.h[2], w27
	mov	v1.h[3], w30
	mov	v0.h[3], w25
	adrp	x25, .LCPI_358ef0_4
	mla	v2.4h, v3.4h, v1.4h
	movi	d1, #0xff00ff00ff00ff
	mla	v5.4h, v4.4h, v0.4h
	usra	v2.4h, v2.4h, #8
	usra	v5.4h, v5.4h, #8
	ushr	v0.4h, v2.4h, #8
	usra	v0.4h, v5.4h, #8
	umin	v0.4h, v0.4h, v1.4h
	ldr	q1, [x25, :lo12:.LCPI_358ef0_4]
	ushll	v0.4s, v0.4h, #0
	ushl	v0.4s, v0.4s, v1.4s
	ext	v1.16b, v0.16b, v0.16b, #8
	orr	v0.8b, v0.8b, v1.8b
	fmov	x25, d0
	lsr	x26, x25, #32
	orr	w25, w25, w26
	str	w25, [x22], #4
	b.lo	.LBB_358ef0_13
	b	.LBB_358ef0_2
.LBB_358ef0_14:
	ldp	x20, x19, [sp, #96]
	ldr	x30, [sp, #16]
	ldp	x22, x21, [sp, #80]
	ldp	x24, x23, [sp, #64]
	ldp	x26, x25, [sp, #48]
	ldp	x28, x27, [sp, #32]
	add	sp, sp, #112
.LBB_358ef0_15:
	ret
.Lfunc_end_358ef0:
	.size	"pix_raster::view::blit_overlap::<#64f9c87ff7b7bdd2>", .Lfunc_end_358ef0-"pix_raster::view::blit_overlap::<#64f9c87ff7b7bdd2>"

	.section	.rodata.cst16,"aM",@progbits,16
	.p2align	4, 0x0
.LCPI_288f4f_0:
	.word	0
	.word	4294967288
	.word	4294967280
	.word	4294967272
.LCPI_288f4f_1:
	.byte	255
	.byte	0
	.byte	255
	.byte	2
	.byte	255
	.byte	4
	.byte	255
	.byte	6
	.byte	255
	.byte	8
	.byte	255
	.byte	10
	.byte	255
	.byte	12
	.byte	255
	.byte	14
.LCPI_288f4f_2:
	.byte	0
	.byte	255
	.byte	0
	.byte	255
	.byte	4
	.byte	255
	.byte	4
	.byte	255
	.byte	8
	.byte	255
	.byte	8
	.byte	255
	.byte	12
	.byte	255
	.byte	12
	.byte	255
.LCPI_288f4f_3:
	.byte	0
	.byte	0
	.byte	0
	.byte	0
	.byte	1
	.byte	1
	.byte	1
	.byte	1
	.byte	2
	.byte	2
	.byte	2
	.byte	2
	.byte	3
	.byte	3
	.byte	3
	.byte	3
.LCPI_288f4f_4:
	.byte	0
	.byte	0
	.byte	0
	.byte	0
	.byte	4
	.byte	4
	.byte	4
	.byte	4
	.byte	8
	.byte	8
	.byte	8
	.byte	8
	.byte	12
	.byte	12
	.byte	12
	.byte	12
.LCPI_288f4f_6:
	.word	24
	.word	16
	.word	8
	.word	0
	.section	.rodata.cst8,"aM",@progbits,8
	.p2align	3, 0x0
.LCPI_288f4f_5:
	.word	4294967272
	.word	4294967280
	.section	".text.pix_raster::view::blit_overlap::<#0658d1f93ab37b52>","ax",@progbits
	.p2align	2
	.type	"pix_raster::view::blit_overlap::<#0658d1f93ab37b52>",@function
"pix_raster::view::blit_overlap::<#0658d1f93ab37b52>":
	ldp	x8, x9, [x4, #24]
	cmp	x8, x9
	b.hs	.LBB_288f4f_19
	str	x27, [sp, #-80]!
	dup	v0.4s, w5
	adrp	x10, .LCPI_288f4f_0
	ubfx	w16, w5, #8, #8
	ldr	q1, [x10, :lo12:.LCPI_288f4f_0]
	ldp	x12, x13, [x4, #8]
	ldr	x14, [x4, #40]
	stp	x20, x19, [sp, #64]
	and	w5, w5, #0xff
	ushl	v0.4s, v0.4s, v1.4s
	stp	x22, x21, [sp, #48]
	madd	x19, x14, x3, x13
	stp	x24, x23, [sp, #32]
	stp	x26, x25, [sp, #16]
	umov	w10, v0.h[4]
	uzp1	v1.8h, v0.8h, v0.8h
	dup	v0.8h, v0.h[6]
	and	w11, w10, #0xff
	ldr	x10, [x4]
	madd	x7, x8, x1, x10
	mov	v0.h[1], w11
	uzp1	v1.16b, v1.16b, v1.16b
	add	x11, x2, x13
	sub	x12, x12, x10
	sub	x13, x14, x8
	and	x15, x12, #0xfffffffffffffff0
	lsl	x21, x12, #2
	and	x6, x12, #0xc
	lsr	x20, x15, #4
	and	x18, x12, #0x8
	add	x23, x15, x6
	mov	v0.h[2], w16
	and	x21, x21, #0x30
	ushr	v2.8h, v1.8h, #8
	bic	v1.8h, #255, lsl #8
	add	x22, x0, x7, lsl #2
	bfi	x21, x20, #6, #58
	lsr	x14, x12, #4
	lsl	x16, x15, #2
	lsl	x4, x18, #2
	lsl	x7, x1, #2
	add	x20, x2, x23
	and	x17, x12, #0xf
	mov	v0.h[3], w5
	add	x5, x19, x2
	add	x2, x22, #32
	add	x5, x5, #8
	add	x19, x20, x19
	add	x20, x22, x21
	b	.LBB_288f4f_3
.LBB_288f4f_2:
	add	x8, x8, #1
	add	x5, x5, x3
	add	x2, x2, x7
	cmp	x8, x9
	add	x19, x19, x3
	add	x20, x20, x7
	b.eq	.LBB_288f4f_18
.LBB_288f4f_3:
	adrp	x21, .LCPI_288f4f_1
	adrp	x22, .LCPI_288f4f_2
	cbz	x14, .LBB_288f4f_8
	mov	x23, x2
	mov	x24, x5
	mov	x25, x14
	b	.LBB_288f4f_6
.LBB_288f4f_5:
	subs	x25, x25, #1
	add	x24, x24, #16
	add	x23, x23, #64
	b.eq	.LBB_288f4f_8
.LBB_288f4f_6:
	ldp	d3, d4, [x24, #-8]
	orr	v4.8b, v4.8b, v3.8b
	fmov	x26, d4
	orr	x26, x26, x26, lsr #32
	lsr	x27, x26, #16
	orr	w26, w26, w27
	orr	w26, w26, w26, lsr #8
	tst	w26, #0xff
	b.eq	.LBB_288f4f_5
	zip1	v3.16b, v3.16b, v3.16b
	movi	v6.8h, #1
	movi	v7.8h, #128
	movi	v16.8h, #128
	movi	v19.8h, #128
	movi	v20.8h, #128
	movi	v21.8h, #128
	movi	v26.8h, #128
	movi	v27.8h, #128
	ushll2	v4.4s, v3.8h, #0
	ushll	v3.4s, v3.4h, #0
	mul	v4.4s, v4.4s, v6.4s
	mul	v5.4s, v3.4s, v6.4s
	movi	v3.16b, #1
	ushr	v17.8h, v4.8h, #8
	ushr	v18.8h, v5.8h, #8
	bic	v4.8h, #255, lsl #8
	bic	v5.8h, #255, lsl #8
	mla	v7.8h, v17.8h, v2.8h
	mla	v16.8h, v18.8h, v2.8h
	mla	v19.8h, v4.8h, v1.8h
	mla	v20.8h, v5.8h, v1.8h
	umull2	v4.4s, v7.8h, v3.8h
	umull	v7.4s, v7.4h, v3.4h
	umull2	v5.4s, v16.8h, v3.8h
	umull	v16.4s, v16.4h, v3.4h
	umull2	v17.4s, v19.8h, v3.8h
	umull	v18.4s, v19.4h, v3.4h
	umull2	v19.4s, v20.8h, v3.8h
	umull	v20.4s, v20.4h, v3.4h
	uzp2	v7.8h, v7.8h, v4.8h
	ldr	q4, [x21, :lo12:.LCPI_288f4f_1]
	uzp2	v5.8h, v16.8h, v5.8h
	uzp2	v16.8h, v18.8h, v17.8h
	uzp2	v19.8h, v20.8h, v19.8h
	movi	v20.8h, #128
	tbl	v7.16b, { v7.16b }, v4.16b
	tbl	v5.16b, { v5.16b }, v4.16b
	orr	v18.16b, v7.16b, v16.16b
	ldp	q17, q7, [x23, #-32]
	orr	v19.16b, v5.16b, v19.16b
	ldr	q5, [x22, :lo12:.LCPI_288f4f_2]
	mvn	v16.16b, v17.16b
	mvn	v24.16b, v7.16b
	mvn	v25.16b, v18.16b
	mvn	v22.16b, v19.16b
	ushr	v28.8h, v19.8h, #8
	bic	v19.8h, #255, lsl #8
	ushr	v29.8h, v7.8h, #8
	ushr	v30.8h, v18.8h, #8
	bic	v18.8h, #255, lsl #8
	ushr	v23.4s, v16.4s, #24
	ushr	v24.4s, v24.4s, #24
	ushr	v25.4s, v25.4s, #24
	ushr	v22.4s, v22.4s, #24
	movi	v16.8h, #128
	bic	v7.8h, #255, lsl #8
	tbl	v23.16b, { v23.16b }, v5.16b
	tbl	v24.16b, { v24.16b }, v5.16b
	tbl	v25.16b, { v25.16b }, v5.16b
	tbl	v22.16b, { v22.16b }, v5.16b
	mla	v21.8h, v28.8h, v23.8h
	ushr	v28.8h, v17.8h, #8
	mla	v16.8h, v19.8h, v23.8h
	movi	v19.8h, #128
	mla	v20.8h, v30.8h, v24.8h
	mla	v26.8h, v29.8h, v25.8h
	movi	v23.8h, #128
	bic	v17.8h, #255, lsl #8
	mla	v27.8h, v28.8h, v22.8h
	movi	v28.8h, #128
	mla	v19.8h, v18.8h, v24.8h
	umull2	v18.4s, v21.8h, v3.8h
	umull	v21.4s, v21.4h, v3.4h
	umull2	v24.4s, v20.8h, v3.8h
	umull	v20.4s, v20.4h, v3.4h
	mla	v23.8h, v17.8h, v22.8h
	umull2	v17.4s, v27.8h, v3.8h
	umull	v22.4s, v27.4h, v3.4h
	mla	v28.8h, v7.8h, v25.8h
	umull2	v7.4s, v26.8h, v3.8h
	umull	v25.4s, v26.4h, v3.4h
	umull2	v27.4s, v16.8h, v3.8h
	umull2	v26.4s, v19.8h, v3.8h
	umull	v19.4s, v19.4h, v3.4h
	umull	v16.4s, v16.4h, v3.4h
	uzp2	v18.8h, v21.8h, v18.8h
	uzp2	v20.8h, v20.8h, v24.8h
	umull2	v21.4s, v23.8h, v3.8h
	umull	v23.4s, v23.4h, v3.4h
	uzp2	v17.8h, v22.8h, v17.8h
	umull2	v22.4s, v28.8h, v3.8h
	umull	v24.4s, v28.4h, v3.4h
	uzp2	v7.8h, v25.8h, v7.8h
	uzp2	v19.8h, v19.8h, v26.8h
	uzp2	v16.8h, v16.8h, v27.8h
	movi	v26.8h, #128
	tbl	v18.16b, { v18.16b }, v4.16b
	tbl	v20.16b, { v20.16b }, v4.16b
	uzp2	v21.8h, v23.8h, v21.8h
	tbl	v17.16b, { v17.16b }, v4.16b
	uzp2	v22.8h, v24.8h, v22.8h
	tbl	v7.16b, { v7.16b }, v4.16b
	orr	v16.16b, v18.16b, v16.16b
	orr	v18.16b, v20.16b, v19.16b
	movi	v20.8h, #128
	orr	v17.16b, v17.16b, v21.16b
	movi	v21.8h, #128
	orr	v7.16b, v7.16b, v22.16b
	uqadd	v16.16b, v16.16b, v17.16b
	movi	v17.8h, #128
	uqadd	v7.16b, v18.16b, v7.16b
	stp	q16, q7, [x23, #-32]
	ldr	d7, [x24]
	zip1	v7.16b, v7.16b, v7.16b
	ushll2	v16.4s, v7.8h, #0
	ushll	v7.4s, v7.4h, #0
	mul	v16.4s, v16.4s, v6.4s
	mul	v6.4s, v7.4s, v6.4s
	movi	v7.8h, #128
	ushr	v18.8h, v16.8h, #8
	ushr	v19.8h, v6.8h, #8
	bic	v16.8h, #255, lsl #8
	bic	v6.8h, #255, lsl #8
	mla	v7.8h, v18.8h, v2.8h
	mla	v17.8h, v19.8h, v2.8h
	mla	v20.8h, v16.8h, v1.8h
	mla	v21.8h, v6.8h, v1.8h
	umull2	v16.4s, v7.8h, v3.8h
	umull	v7.4s, v7.4h, v3.4h
	umull2	v6.4s, v17.8h, v3.8h
	umull	v17.4s, v17.4h, v3.4h
	umull2	v18.4s, v20.8h, v3.8h
	umull	v19.4s, v20.4h, v3.4h
	umull	v20.4s, v21.4h, v3.4h
	uzp2	v7.8h, v7.8h, v16.8h
	umull2	v16.4s, v21.8h, v3.8h
	uzp2	v6.8h, v17.8h, v6.8h
	uzp2	v17.8h, v19.8h, v18.8h
	tbl	v7.16b, { v7.16b }, v4.16b
	uzp2	v19.8h, v20.8h, v16.8h
	movi	v20.8h, #128
	tbl	v6.16b, { v6.16b }, v4.16b
	orr	v18.16b, v7.16b, v17.16b
	ldp	q16, q7, [x23]
	orr	v19.16b, v6.16b, v19.16b
	movi	v6.8h, #128
	mvn	v17.16b, v16.16b
	mvn	v21.16b, v7.16b
	mvn	v22.16b, v18.16b
	mvn	v24.16b, v19.16b
	ushr	v27.8h, v19.8h, #8
	bic	v19.8h, #255, lsl #8
	ushr	v28.8h, v7.8h, #8
	bic	v7.8h, #255, lsl #8
	ushr	v23.4s, v17.4s, #24
	ushr	v25.4s, v21.4s, #24
	ushr	v22.4s, v22.4s, #24
	movi	v21.8h, #128
	ushr	v24.4s, v24.4s, #24
	movi	v17.8h, #128
	tbl	v23.16b, { v23.16b }, v5.16b
	tbl	v25.16b, { v25.16b }, v5.16b
	tbl	v22.16b, { v22.16b }, v5.16b
	tbl	v5.16b, { v24.16b }, v5.16b
	ushr	v24.8h, v18.8h, #8
	bic	v18.8h, #255, lsl #8
	mla	v21.8h, v27.8h, v23.8h
	ushr	v27.8h, v16.8h, #8
	mla	v6.8h, v19.8h, v23.8h
	movi	v19.8h, #128
	mla	v20.8h, v24.8h, v25.8h
	mla	v26.8h, v28.8h, v22.8h
	movi	v23.8h, #128
	movi	v24.8h, #128
	bic	v16.8h, #255, lsl #8
	mla	v17.8h, v27.8h, v5.8h
	mla	v19.8h, v18.8h, v25.8h
	umull2	v18.4s, v21.8h, v3.8h
	umull	v21.4s, v21.4h, v3.4h
	umull2	v25.4s, v20.8h, v3.8h
	umull	v20.4s, v20.4h, v3.4h
	mla	v23.8h, v16.8h, v5.8h
	umull2	v5.4s, v17.8h, v3.8h
	umull	v16.4s, v17.4h, v3.4h
	mla	v24.8h, v7.8h, v22.8h
	umull2	v7.4s, v26.8h, v3.8h
	umull	v17.4s, v26.4h, v3.4h
	umull2	v26.4s, v6.8h, v3.8h
	umull2	v22.4s, v19.8h, v3.8h
	umull	v19.4s, v19.4h, v3.4h
	umull	v6.4s, v6.4h, v3.4h
	uzp2	v18.8h, v21.8h, v18.8h
	uzp2	v20.8h, v20.8h, v25.8h
	umull2	v21.4s, v23.8h, v3.8h
	umull	v23.4s, v23.4h, v3.4h
	uzp2	v5.8h, v16.8h, v5.8h
	umull2	v16.4s, v24.8h, v3.8h
	umull	v3.4s, v24.4h, v3.4h
	uzp2	v7.8h, v17.8h, v7.8h
	uzp2	v17.8h, v19.8h, v22.8h
	uzp2	v6.8h, v6.8h, v26.8h
	tbl	v18.16b, { v18.16b }, v4.16b
	tbl	v20.16b, { v20.16b }, v4.16b
	uzp2	v19.8h, v23.8h, v21.8h
	tbl	v5.16b, { v5.16b }, v4.16b
	uzp2	v3.8h, v3.8h, v16.8h
	tbl	v4.16b, { v7.16b }, v4.16b
	orr	v6.16b, v18.16b, v6.16b
	orr	v7.16b, v20.16b, v17.16b
	orr	v5.16b, v5.16b, v19.16b
	orr	v3.16b, v4.16b, v3.16b
	uqadd	v4.16b, v6.16b, v5.16b
	uqadd	v3.16b, v7.16b, v3.16b
	stp	q4, q3, [x23]
	b	.LBB_288f4f_5
.LBB_288f4f_8:
	cmp	x15, x12
	b.eq	.LBB_288f4f_2
	madd	x23, x8, x1, x10
	add	x24, x13, x8
	madd	x24, x24, x3, x11
	add	x23, x0, x23, lsl #2
	add	x23, x23, x16
	add	x24, x24, x15
	tbz	w12, #3, .LBB_288f4f_12
	ldr	d3, [x24]
	fmov	x25, d3
	orr	x25, x25, x25, lsr #32
	lsr	x26, x25, #16
	orr	w25, w25, w26
	orr	w25, w25, w25, lsr #8
	tst	w25, #0xff
	b.eq	.LBB_288f4f_12
	zip1	v3.16b, v3.16b, v3.16b
	movi	v4.8h, #1
	movi	v6.8h, #128
	movi	v16.8h, #128
	movi	v17.8h, #128
	movi	v24.8h, #128
	ushll	v5.4s, v3.4h, #0
	ushll2	v3.4s, v3.8h, #0
	mul	v5.4s, v5.4s, v4.4s
	mul	v4.4s, v3.4s, v4.4s
	movi	v3.16b, #1
	ushr	v7.8h, v5.8h, #8
	ushr	v18.8h, v4.8h, #8
	bic	v5.8h, #255, lsl #8
	bic	v4.8h, #255, lsl #8
	mla	v6.8h, v7.8h, v2.8h
	movi	v7.8h, #128
	mla	v16.8h, v18.8h, v2.8h
	mla	v17.8h, v5.8h, v1.8h
	umull2	v5.4s, v6.8h, v3.8h
	umull	v6.4s, v6.4h, v3.4h
	mla	v7.8h, v4.8h, v1.8h
	umull2	v18.4s, v16.8h, v3.8h
	umull	v16.4s, v16.4h, v3.4h
	umull2	v19.4s, v17.8h, v3.8h
	umull	v17.4s, v17.4h, v3.4h
	ldr	q4, [x21, :lo12:.LCPI_288f4f_1]
	uzp2	v5.8h, v6.8h, v5.8h
	umull2	v6.4s, v7.8h, v3.8h
	umull	v7.4s, v7.4h, v3.4h
	uzp2	v16.8h, v16.8h, v18.8h
	uzp2	v17.8h, v17.8h, v19.8h
	tbl	v18.16b, { v5.16b }, v4.16b
	uzp2	v7.8h, v7.8h, v6.8h
	tbl	v19.16b, { v16.16b }, v4.16b
	ldp	q6, q5, [x23]
	mvn	v20.16b, v5.16b
	orr	v16.16b, v18.16b, v17.16b
	mvn	v18.16b, v6.16b
	orr	v26.16b, v19.16b, v7.16b
	ldr	q17, [x22, :lo12:.LCPI_288f4f_2]
	movi	v7.8h, #128
	movi	v19.8h, #128
	ushr	v20.4s, v20.4s, #24
	mvn	v21.16b, v16.16b
	ushr	v22.4s, v18.4s, #24
	mvn	v23.16b, v26.16b
	movi	v18.8h, #128
	ushr	v25.8h, v26.8h, #8
	bic	v26.8h, #255, lsl #8
	ushr	v27.8h, v16.8h, #8
	bic	v16.8h, #255, lsl #8
	tbl	v20.16b, { v20.16b }, v17.16b
	ushr	v21.4s, v21.4s, #24
	tbl	v22.16b, { v22.16b }, v17.16b
	ushr	v23.4s, v23.4s, #24
	tbl	v21.16b, { v21.16b }, v17.16b
	mla	v18.8h, v25.8h, v20.8h
	mla	v7.8h, v26.8h, v20.8h
	movi	v20.8h, #128
	tbl	v17.16b, { v23.16b }, v17.16b
	ushr	v25.8h, v6.8h, #8
	ushr	v26.8h, v5.8h, #8
	movi	v23.8h, #128
	mla	v24.8h, v27.8h, v22.8h
	movi	v27.8h, #128
	bic	v6.8h, #255, lsl #8
	bic	v5.8h, #255, lsl #8
	mla	v19.8h, v25.8h, v21.8h
	movi	v25.8h, #128
	mla	v20.8h, v26.8h, v17.8h
	umull2	v26.4s, v24.8h, v3.8h
	umull	v24.4s, v24.4h, v3.4h
	mla	v23.8h, v16.8h, v22.8h
	umull2	v16.4s, v18.8h, v3.8h
	umull	v18.4s, v18.4h, v3.4h
	mla	v27.8h, v6.8h, v21.8h
	umull2	v6.4s, v19.8h, v3.8h
	umull	v19.4s, v19.4h, v3.4h
	mla	v25.8h, v5.8h, v17.8h
	umull2	v5.4s, v20.8h, v3.8h
	umull	v17.4s, v20.4h, v3.4h
	umull2	v20.4s, v7.8h, v3.8h
	umull	v7.4s, v7.4h, v3.4h
	uzp2	v21.8h, v24.8h, v26.8h
	umull2	v22.4s, v23.8h, v3.8h
	umull	v23.4s, v23.4h, v3.4h
	uzp2	v16.8h, v18.8h, v16.8h
	umull2	v18.4s, v27.8h, v3.8h
	umull	v24.4s, v27.4h, v3.4h
	uzp2	v6.8h, v19.8h, v6.8h
	umull2	v19.4s, v25.8h, v3.8h
	umull	v3.4s, v25.4h, v3.4h
	uzp2	v5.8h, v17.8h, v5.8h
	uzp2	v7.8h, v7.8h, v20.8h
	tbl	v20.16b, { v21.16b }, v4.16b
	uzp2	v17.8h, v23.8h, v22.8h
	tbl	v16.16b, { v16.16b }, v4.16b
	uzp2	v18.8h, v24.8h, v18.8h
	tbl	v6.16b, { v6.16b }, v4.16b
	uzp2	v3.8h, v3.8h, v19.8h
	tbl	v4.16b, { v5.16b }, v4.16b
	orr	v5.16b, v20.16b, v17.16b
	orr	v7.16b, v16.16b, v7.16b
	orr	v6.16b, v6.16b, v18.16b
	orr	v3.16b, v4.16b, v3.16b
	uqadd	v4.16b, v5.16b, v6.16b
	uqadd	v3.16b, v7.16b, v3.16b
	stp	q4, q3, [x23]
.LBB_288f4f_12:
	tbz	w12, #2, .LBB_288f4f_15
	ldr	s3, [x24, x18]
	dup	v4.16b, v3.b[1]
	dup	v5.16b, v3.b[2]
	dup	v6.16b, v3.b[3]
	orr	v4.16b, v4.16b, v5.16b
	orr	v5.16b, v6.16b, v3.16b
	orr	v4.16b, v4.16b, v5.16b
	umov	w22, v4.b[0]
	cbz	w22, .LBB_288f4f_15
	adrp	x22, .LCPI_288f4f_3
	movi	v5.8h, #128
	movi	v7.8h, #128
	ldr	q4, [x22, :lo12:.LCPI_288f4f_3]
	movi	v18.8h, #128
	tbl	v4.16b, { v3.16b }, v4.16b
	movi	v3.16b, #1
	ushr	v6.8h, v4.8h, #8
	bic	v4.8h, #255, lsl #8
	mla	v5.8h, v6.8h, v2.8h
	mla	v7.8h, v4.8h, v1.8h
	umull2	v4.4s, v5.8h, v3.8h
	umull	v5.4s, v5.4h, v3.4h
	umull2	v6.4s, v7.8h, v3.8h
	umull	v7.4s, v7.4h, v3.4h
	uzp2	v5.8h, v5.8h, v4.8h
	ldr	q4, [x21, :lo12:.LCPI_288f4f_1]
	adrp	x21, .LCPI_288f4f_4
	uzp2	v6.8h, v7.8h, v6.8h
	ldr	q17, [x21, :lo12:.LCPI_288f4f_4]
	tbl	v5.16b, { v5.16b }, v4.16b
	orr	v5.16b, v5.16b, v6.16b
	ldr	q6, [x23, x4]
	mvn	v7.16b, v6.16b
	ushr	v21.8h, v6.8h, #8
	bic	v6.8h, #255, lsl #8
	mvn	v16.16b, v5.16b
	ushr	v19.8h, v5.8h, #8
	bic	v5.8h, #255, lsl #8
	ushr	v7.4s, v7.4s, #24
	ushr	v16.4s, v16.4s, #24
	tbl	v7.16b, { v7.16b }, v17.16b
	tbl	v16.16b, { v16.16b }, v17.16b
	movi	v17.8h, #128
	ushr	v20.8h, v7.8h, #8
	bic	v7.8h, #255, lsl #8
	ushr	v22.8h, v16.8h, #8
	bic	v16.8h, #255, lsl #8
	mla	v17.8h, v20.8h, v19.8h
	movi	v19.8h, #128
	movi	v20.8h, #128
	mla	v18.8h, v21.8h, v22.8h
	mla	v19.8h, v7.8h, v5.8h
	umull2	v5.4s, v17.8h, v3.8h
	umull	v7.4s, v17.4h, v3.4h
	mla	v20.8h, v6.8h, v16.8h
	umull2	v6.4s, v18.8h, v3.8h
	umull	v16.4s, v18.4h, v3.4h
	umull2	v17.4s, v19.8h, v3.8h
	umull	v18.4s, v19.4h, v3.4h
	uzp2	v5.8h, v7.8h, v5.8h
	umull2	v7.4s, v20.8h, v3.8h
	umull	v3.4s, v20.4h, v3.4h
	uzp2	v6.8h, v16.8h, v6.8h
	uzp2	v16.8h, v18.8h, v17.8h
	tbl	v5.16b, { v5.16b }, v4.16b
	uzp2	v3.8h, v3.8h, v7.8h
	tbl	v4.16b, { v6.16b }, v4.16b
	orr	v5.16b, v5.16b, v16.16b
	orr	v3.16b, v4.16b, v3.16b
	uqadd	v3.16b, v5.16b, v3.16b
	str	q3, [x23, x4]
.LBB_288f4f_15:
	cmp	x6, x17
	b.eq	.LBB_288f4f_2
	mov	x21, x20
	mov	x22, x19
	and	x23, x12, #0xc
.LBB_288f4f_17:
	ldr	w24, [x21]
	adrp	x25, .LCPI_288f4f_5
	movi	v5.4h, #128
	ldr	d4, [x25, :lo12:.LCPI_288f4f_5]
	ldrb	w25, [x22], #1
	dup	v3.2s, w24
	and	w27, w24, #0xff
	movi	v16.4h, #128
	add	x23, x23, #1
	cmp	x23, x17
	ushl	v3.2s, v3.2s, v4.2s
	mov	s4, v3.s[1]
	str	h3, [sp, #12]
	str	h4, [sp, #14]
	dup	v4.4h, w25
	ldr	s3, [sp, #12]
	zip1	v3.8b, v3.8b, v3.8b
	mla	v5.4h, v4.4h, v0.4h
	mov	v3.h[3], wzr
	usra	v5.4h, v5.4h, #8
	uzp1	v3.8b, v3.8b, v0.8b
	ushr	v4.4h, v5.4h, #8
	movi	v5.4h, #128
	umov	w26, v4.b[0]
	ushll	v3.4s, v3.4h, #0
	mov	w25, v3.s[1]
	mov	v3.h[1], w25
	ubfx	w25, w24, #8, #8
	mvn	w24, w24
	lsr	w24, w24, #24
	dup	v7.4h, w24
	adrp	x24, .LCPI_288f4f_6
	mov	v3.h[2], w25
	mov	w25, #255
	bic	w25, w25, w26
	dup	v6.4h, w25
	mla	v16.4h, v4.4h, v7.4h
	movi	d4, #0xff00ff00ff00ff
	mov	v3.h[3], w27
	usra	v16.4h, v16.4h, #8
	mla	v5.4h, v6.4h, v3.4h
	usra	v5.4h, v5.4h, #8
	ushr	v3.4h, v5.4h, #8
	usra	v3.4h, v16.4h, #8
	umin	v3.4h, v3.4h, v4.4h
	ldr	q4, [x24, :lo12:.LCPI_288f4f_6]
	ushll	v3.4s, v3.4h, #0
	ushl	v3.4s, v3.4s, v4.4s
	ext	v4.16b, v3.16b, v3.16b, #8
	orr	v3.8b, v3.8b, v4.8b
	fmov	x24, d3
	lsr	x25, x24, #32
	orr	w24, w24, w25
	str	w24, [x21], #4
	b.lo	.LBB_288f4f_17
	b	.LBB_288f4f_2
.LBB_288f4f_18:
	ldp	x20, x19, [sp, #64]
	ldp	x22, x21, [sp, #48]
	ldp	x24, x23, [sp, #32]
	ldp	x26, x25, [sp, #16]
	ldr	x27, [sp], #80
.LBB_288f4f_19:
	ret
.Lfunc_end_288f4f:
	.size	"pix_raster::view::blit_overlap::<#0658d1f93ab37b52>", .Lfunc_end_288f4f-"pix_raster::view::blit_overlap::<#0658d1f93ab37b52>"

	.section	.rodata.cst16,"aM",@progbits,16
	.p2align	4, 0x0
.LCPI_0c7ba2_0:
	.byte	255
	.byte	0
	.byte	255
	.byte	2
	.byte	255
	.byte	4
	.byte	255
	.byte	6
	.byte	255
	.byte	8
	.byte	255
	.byte	10
	.byte	255
	.byte	12
	.byte	255
	.byte	14
.LCPI_0c7ba2_1:
	.byte	0
	.byte	255
	.byte	0
	.byte	255
	.byte	4
	.byte	255
	.byte	4
	.byte	255
	.byte	8
	.byte	255
	.byte	8
	.byte	255
	.byte	12
	.byte	255
	.byte	12
	.byte	255
.LCPI_0c7ba2_2:
	.byte	0
	.byte	0
	.byte	0
	.byte	0
	.byte	4
	.byte	4
	.byte	4
	.byte	4
	.byte	8
	.byte	8
	.byte	8
	.byte	8
	.byte	12
	.byte	12
	.byte	12
	.byte	12
.LCPI_0c7ba2_4:
	.word	24
	.word	16
	.word	8
	.word	0
	.section	.rodata.cst8,"aM",@progbits,8
	.p2align	3, 0x0
.LCPI_0c7ba2_3:
	.word	4294967272
	.word	4294967280
	.section	".text.pix_raster::view::blit_overlap::<#cadaf6b2c7002256>","ax",@progbits
	.p2align	2
	.type	"pix_raster::view::blit_overlap::<#cadaf6b2c7002256>",@function
"pix_raster::view::blit_overlap::<#cadaf6b2c7002256>":
	ldp	x8, x9, [x4, #24]
	cmp	x8, x9
	b.hs	.LBB_0c7ba2_15
	sub	sp, sp, #96
	ldr	x15, [x4, #40]
	ldp	x14, x10, [x4, #8]
	ldr	x11, [x4]
	dup	v0.16b, w5
	and	w16, w5, #0xff
	madd	x6, x15, x3, x10
	stp	x20, x19, [sp, #80]
	fmov	s1, w16
	sub	x14, x14, x11
	stp	x22, x21, [sp, #64]
	lsl	x12, x3, #2
	madd	x5, x8, x1, x11
	and	x17, x14, #0xfffffffffffffff0
	lsl	x7, x14, #2
	lsr	x19, x17, #4
	ushr	v2.8h, v0.8h, #8
	bic	v0.8h, #255, lsl #8
	and	x21, x7, #0x30
	lsl	x13, x1, #2
	lsr	x16, x14, #4
	add	x20, x2, x6, lsl #2
	bfi	x21, x19, #6, #58
	sub	x15, x15, x8
	and	x18, x14, #0xf
	and	x4, x14, #0xc
	and	x6, x7, #0x20
	add	x22, x0, x5, lsl #2
	lsl	x5, x17, #2
	add	x7, x20, #32
	add	x20, x20, x21
	stp	x28, x27, [sp, #16]
	add	x19, x22, #32
	add	x21, x22, x21
	stp	x26, x25, [sp, #32]
	stp	x24, x23, [sp, #48]
	b	.LBB_0c7ba2_3
.LBB_0c7ba2_2:
	add	x8, x8, #1
	add	x7, x7, x12
	add	x19, x19, x13
	cmp	x8, x9
	add	x20, x20, x12
	add	x21, x21, x13
	b.eq	.LBB_0c7ba2_14
.LBB_0c7ba2_3:
	adrp	x22, .LCPI_0c7ba2_0
	adrp	x23, .LCPI_0c7ba2_1
	cbz	x16, .LBB_0c7ba2_6
	mov	x24, x19
	mov	x25, x7
	mov	x26, x16
.LBB_0c7ba2_5:
	ldp	q5, q4, [x25, #-32]
	movi	v6.8h, #128
	movi	v7.8h, #128
	movi	v18.8h, #128
	movi	v3.16b, #1
	movi	v19.8h, #128
	movi	v20.8h, #128
	subs	x26, x26, #1
	ushr	v16.8h, v4.8h, #8
	ushr	v17.8h, v5.8h, #8
	bic	v4.8h, #255, lsl #8
	bic	v5.8h, #255, lsl #8
	movi	v25.8h, #128
	movi	v26.8h, #128
	mla	v6.8h, v16.8h, v2.8h
	mla	v7.8h, v17.8h, v2.8h
	mla	v18.8h, v4.8h, v0.8h
	mla	v19.8h, v5.8h, v0.8h
	umull2	v4.4s, v6.8h, v3.8h
	umull	v6.4s, v6.4h, v3.4h
	umull2	v5.4s, v7.8h, v3.8h
	umull	v7.4s, v7.4h, v3.4h
	umull2	v16.4s, v18.8h, v3.8h
	umull	v17.4s, v18.4h, v3.4h
	umull2	v18.4s, v19.8h, v3.8h
	umull	v19.4s, v19.4h, v3.4h
	uzp2	v6.8h, v6.8h, v4.8h
	ldr	q4, [x22, :lo12:.LCPI_0c7ba2_0]
	uzp2	v5.8h, v7.8h, v5.8h
	uzp2	v7.8h, v17.8h, v16.8h
	uzp2	v18.8h, v19.8h, v18.8h
	movi	v19.8h, #128
	tbl	v6.16b, { v6.16b }, v4.16b
	tbl	v5.16b, { v5.16b }, v4.16b
	orr	v17.16b, v6.16b, v7.16b
	ldp	q16, q6, [x24, #-32]
	orr	v18.16b, v5.16b, v18.16b
	ldr	q5, [x23, :lo12:.LCPI_0c7ba2_1]
	mvn	v7.16b, v16.16b
	mvn	v23.16b, v6.16b
	mvn	v24.16b, v17.16b
	mvn	v21.16b, v18.16b
	ushr	v27.8h, v18.8h, #8
	bic	v18.8h, #255, lsl #8
	ushr	v28.8h, v6.8h, #8
	ushr	v29.8h, v17.8h, #8
	bic	v17.8h, #255, lsl #8
	ushr	v22.4s, v7.4s, #24
	ushr	v23.4s, v23.4s, #24
	ushr	v24.4s, v24.4s, #24
	ushr	v21.4s, v21.4s, #24
	movi	v7.8h, #128
	bic	v6.8h, #255, lsl #8
	tbl	v22.16b, { v22.16b }, v5.16b
	tbl	v23.16b, { v23.16b }, v5.16b
	tbl	v24.16b, { v24.16b }, v5.16b
	tbl	v21.16b, { v21.16b }, v5.16b
	mla	v20.8h, v27.8h, v22.8h
	ushr	v27.8h, v16.8h, #8
	mla	v7.8h, v18.8h, v22.8h
	movi	v18.8h, #128
	mla	v19.8h, v29.8h, v23.8h
	mla	v25.8h, v28.8h, v24.8h
	movi	v22.8h, #128
	bic	v16.8h, #255, lsl #8
	mla	v26.8h, v27.8h, v21.8h
	movi	v27.8h, #128
	mla	v18.8h, v17.8h, v23.8h
	umull2	v17.4s, v20.8h, v3.8h
	umull	v20.4s, v20.4h, v3.4h
	umull2	v23.4s, v19.8h, v3.8h
	umull	v19.4s, v19.4h, v3.4h
	mla	v22.8h, v16.8h, v21.8h
	umull2	v16.4s, v26.8h, v3.8h
	umull	v21.4s, v26.4h, v3.4h
	mla	v27.8h, v6.8h, v24.8h
	umull2	v6.4s, v25.8h, v3.8h
	umull	v24.4s, v25.4h, v3.4h
	umull2	v26.4s, v7.8h, v3.8h
	umull2	v25.4s, v18.8h, v3.8h
	umull	v18.4s, v18.4h, v3.4h
	umull	v7.4s, v7.4h, v3.4h
	uzp2	v17.8h, v20.8h, v17.8h
	uzp2	v19.8h, v19.8h, v23.8h
	umull2	v20.4s, v22.8h, v3.8h
	umull	v22.4s, v22.4h, v3.4h
	uzp2	v16.8h, v21.8h, v16.8h
	umull2	v21.4s, v27.8h, v3.8h
	umull	v23.4s, v27.4h, v3.4h
	uzp2	v6.8h, v24.8h, v6.8h
	movi	v24.8h, #128
	uzp2	v18.8h, v18.8h, v25.8h
	uzp2	v7.8h, v7.8h, v26.8h
	tbl	v17.16b, { v17.16b }, v4.16b
	tbl	v19.16b, { v19.16b }, v4.16b
	uzp2	v20.8h, v22.8h, v20.8h
	tbl	v16.16b, { v16.16b }, v4.16b
	uzp2	v21.8h, v23.8h, v21.8h
	tbl	v6.16b, { v6.16b }, v4.16b
	orr	v7.16b, v17.16b, v7.16b
	orr	v17.16b, v19.16b, v18.16b
	movi	v18.8h, #128
	orr	v16.16b, v16.16b, v20.16b
	movi	v20.8h, #128
	orr	v6.16b, v6.16b, v21.16b
	uqadd	v7.16b, v7.16b, v16.16b
	uqadd	v6.16b, v17.16b, v6.16b
	stp	q7, q6, [x24, #-32]
	movi	v7.8h, #128
	ldp	q6, q16, [x25], #64
	ushr	v17.8h, v6.8h, #8
	ushr	v19.8h, v16.8h, #8
	bic	v6.8h, #255, lsl #8
	bic	v16.8h, #255, lsl #8
	mla	v7.8h, v17.8h, v2.8h
	movi	v17.8h, #128
	mla	v18.8h, v19.8h, v2.8h
	mla	v20.8h, v6.8h, v0.8h
	umull2	v6.4s, v7.8h, v3.8h
	umull	v7.4s, v7.4h, v3.4h
	mla	v17.8h, v16.8h, v0.8h
	umull2	v16.4s, v18.8h, v3.8h
	umull	v18.4s, v18.4h, v3.4h
	umull2	v19.4s, v20.8h, v3.8h
	umull	v20.4s, v20.4h, v3.4h
	uzp2	v6.8h, v7.8h, v6.8h
	umull2	v7.4s, v17.8h, v3.8h
	umull	v17.4s, v17.4h, v3.4h
	uzp2	v16.8h, v18.8h, v16.8h
	uzp2	v18.8h, v20.8h, v19.8h
	tbl	v19.16b, { v6.16b }, v4.16b
	uzp2	v20.8h, v17.8h, v7.8h
	tbl	v16.16b, { v16.16b }, v4.16b
	ldp	q7, q6, [x24]
	mvn	v21.16b, v6.16b
	orr	v17.16b, v19.16b, v18.16b
	mvn	v18.16b, v7.16b
	orr	v26.16b, v16.16b, v20.16b
	movi	v16.8h, #128
	movi	v19.8h, #128
	ushr	v20.4s, v21.4s, #24
	mvn	v21.16b, v17.16b
	ushr	v22.4s, v18.4s, #24
	mvn	v23.16b, v26.16b
	movi	v18.8h, #128
	ushr	v25.8h, v26.8h, #8
	bic	v26.8h, #255, lsl #8
	ushr	v27.8h, v17.8h, #8
	bic	v17.8h, #255, lsl #8
	tbl	v20.16b, { v20.16b }, v5.16b
	ushr	v21.4s, v21.4s, #24
	tbl	v22.16b, { v22.16b }, v5.16b
	ushr	v23.4s, v23.4s, #24
	tbl	v21.16b, { v21.16b }, v5.16b
	mla	v18.8h, v25.8h, v20.8h
	mla	v16.8h, v26.8h, v20.8h
	movi	v20.8h, #128
	tbl	v5.16b, { v23.16b }, v5.16b
	ushr	v25.8h, v7.8h, #8
	ushr	v26.8h, v6.8h, #8
	movi	v23.8h, #128
	mla	v24.8h, v27.8h, v22.8h
	movi	v27.8h, #128
	bic	v7.8h, #255, lsl #8
	bic	v6.8h, #255, lsl #8
	mla	v19.8h, v25.8h, v21.8h
	movi	v25.8h, #128
	mla	v20.8h, v26.8h, v5.8h
	umull2	v26.4s, v24.8h, v3.8h
	umull	v24.4s, v24.4h, v3.4h
	mla	v23.8h, v17.8h, v22.8h
	umull2	v17.4s, v18.8h, v3.8h
	umull	v18.4s, v18.4h, v3.4h
	mla	v27.8h, v7.8h, v21.8h
	umull2	v7.4s, v19.8h, v3.8h
	umull	v19.4s, v19.4h, v3.4h
	mla	v25.8h, v6.8h, v5.8h
	umull2	v5.4s, v20.8h, v3.8h
	umull	v6.4s, v20.4h, v3.4h
	umull2	v20.4s, v16.8h, v3.8h
	umull	v16.4s, v16.4h, v3.4h
	uzp2	v21.8h, v24.8h, v26.8h
	umull2	v22.4s, v23.8h, v3.8h
	umull	v23.4s, v23.4h, v3.4h
	uzp2	v17.8h, v18.8h, v17.8h
	umull2	v18.4s, v27.8h, v3.8h
	umull	v24.4s, v27.4h, v3.4h
	uzp2	v7.8h, v19.8h, v7.8h
	umull2	v19.4s, v25.8h, v3.8h
	umull	v3.4s, v25.4h, v3.4h
	uzp2	v5.8h, v6.8h, v5.8h
	uzp2	v6.8h, v16.8h, v20.8h
	tbl	v20.16b, { v21.16b }, v4.16b
	uzp2	v16.8h, v23.8h, v22.8h
	tbl	v17.16b, { v17.16b }, v4.16b
	uzp2	v18.8h, v24.8h, v18.8h
	tbl	v7.16b, { v7.16b }, v4.16b
	uzp2	v3.8h, v3.8h, v19.8h
	tbl	v4.16b, { v5.16b }, v4.16b
	orr	v5.16b, v20.16b, v16.16b
	orr	v6.16b, v17.16b, v6.16b
	orr	v7.16b, v7.16b, v18.16b
	orr	v3.16b, v4.16b, v3.16b
	uqadd	v4.16b, v5.16b, v7.16b
	uqadd	v3.16b, v6.16b, v3.16b
	stp	q4, q3, [x24], #64
	b.ne	.LBB_0c7ba2_5
.LBB_0c7ba2_6:
	cmp	x17, x14
	b.eq	.LBB_0c7ba2_2
	add	x25, x15, x8
	madd	x24, x8, x1, x11
	madd	x25, x25, x3, x10
	add	x24, x0, x24, lsl #2
	add	x25, x2, x25, lsl #2
	add	x24, x24, x5
	add	x25, x25, x5
	tbnz	w14, #3, .LBB_0c7ba2_10
	tbnz	w14, #2, .LBB_0c7ba2_11
.LBB_0c7ba2_9:
	cmp	x4, x18
	b.eq	.LBB_0c7ba2_2
	b	.LBB_0c7ba2_12
.LBB_0c7ba2_10:
	ldp	q4, q6, [x25]
	movi	v5.8h, #128
	movi	v16.8h, #128
	movi	v17.8h, #128
	movi	v3.16b, #1
	movi	v25.8h, #128
	ushr	v7.8h, v4.8h, #8
	ushr	v18.8h, v6.8h, #8
	bic	v4.8h, #255, lsl #8
	bic	v6.8h, #255, lsl #8
	mla	v5.8h, v7.8h, v2.8h
	movi	v7.8h, #128
	mla	v16.8h, v18.8h, v2.8h
	mla	v17.8h, v4.8h, v0.8h
	umull2	v4.4s, v5.8h, v3.8h
	umull	v5.4s, v5.4h, v3.4h
	mla	v7.8h, v6.8h, v0.8h
	umull2	v6.4s, v16.8h, v3.8h
	umull	v16.4s, v16.4h, v3.4h
	umull2	v18.4s, v17.8h, v3.8h
	umull	v17.4s, v17.4h, v3.4h
	uzp2	v5.8h, v5.8h, v4.8h
	umull2	v19.4s, v7.8h, v3.8h
	umull	v7.4s, v7.4h, v3.4h
	uzp2	v6.8h, v16.8h, v6.8h
	ldr	q4, [x22, :lo12:.LCPI_0c7ba2_0]
	uzp2	v16.8h, v17.8h, v18.8h
	tbl	v17.16b, { v5.16b }, v4.16b
	uzp2	v7.8h, v7.8h, v19.8h
	tbl	v18.16b, { v6.16b }, v4.16b
	ldp	q6, q5, [x24]
	mvn	v19.16b, v5.16b
	orr	v16.16b, v17.16b, v16.16b
	mvn	v20.16b, v6.16b
	orr	v21.16b, v18.16b, v7.16b
	ldr	q17, [x23, :lo12:.LCPI_0c7ba2_1]
	movi	v7.8h, #128
	movi	v18.8h, #128
	ushr	v19.4s, v19.4s, #24
	mvn	v22.16b, v16.16b
	ushr	v20.4s, v20.4s, #24
	mvn	v23.16b, v21.16b
	ushr	v26.8h, v21.8h, #8
	bic	v21.8h, #255, lsl #8
	ushr	v27.8h, v16.8h, #8
	bic	v16.8h, #255, lsl #8
	tbl	v24.16b, { v19.16b }, v17.16b
	ushr	v22.4s, v22.4s, #24
	tbl	v20.16b, { v20.16b }, v17.16b
	ushr	v23.4s, v23.4s, #24
	movi	v19.8h, #128
	tbl	v22.16b, { v22.16b }, v17.16b
	mla	v7.8h, v21.8h, v24.8h
	movi	v21.8h, #128
	tbl	v17.16b, { v23.16b }, v17.16b
	mla	v18.8h, v26.8h, v24.8h
	ushr	v26.8h, v6.8h, #8
	ushr	v24.8h, v5.8h, #8
	movi	v23.8h, #128
	mla	v25.8h, v27.8h, v20.8h
	movi	v27.8h, #128
	bic	v6.8h, #255, lsl #8
	bic	v5.8h, #255, lsl #8
	mla	v19.8h, v26.8h, v22.8h
	movi	v26.8h, #128
	mla	v21.8h, v24.8h, v17.8h
	umull2	v24.4s, v25.8h, v3.8h
	umull	v25.4s, v25.4h, v3.4h
	mla	v23.8h, v16.8h, v20.8h
	umull2	v16.4s, v18.8h, v3.8h
	umull	v18.4s, v18.4h, v3.4h
	mla	v27.8h, v6.8h, v22.8h
	umull2	v6.4s, v19.8h, v3.8h
	umull	v19.4s, v19.4h, v3.4h
	mla	v26.8h, v5.8h, v17.8h
	umull2	v5.4s, v21.8h, v3.8h
	umull	v17.4s, v21.4h, v3.4h
	umull2	v20.4s, v7.8h, v3.8h
	umull	v7.4s, v7.4h, v3.4h
	uzp2	v21.8h, v25.8h, v24.8h
	umull2	v22.4s, v23.8h, v3.8h
	umull	v23.4s, v23.4h, v3.4h
	uzp2	v16.8h, v18.8h, v16.8h
	umull2	v18.4s, v27.8h, v3.8h
	umull	v24.4s, v27.4h, v3.4h
	uzp2	v6.8h, v19.8h, v6.8h
	umull2	v19.4s, v26.8h, v3.8h
	umull	v3.4s, v26.4h, v3.4h
	uzp2	v5.8h, v17.8h, v5.8h
	uzp2	v7.8h, v7.8h, v20.8h
	tbl	v20.16b, { v21.16b }, v4.16b
	uzp2	v17.8h, v23.8h, v22.8h
	tbl	v16.16b, { v16.16b }, v4.16b
	uzp2	v18.8h, v24.8h, v18.8h
	tbl	v6.16b, { v6.16b }, v4.16b
	uzp2	v3.8h, v3.8h, v19.8h
	tbl	v4.16b, { v5.16b }, v4.16b
	orr	v5.16b, v20.16b, v17.16b
	orr	v7.16b, v16.16b, v7.16b
	orr	v6.16b, v6.16b, v18.16b
	orr	v3.16b, v4.16b, v3.16b
	uqadd	v4.16b, v5.16b, v6.16b
	uqadd	v3.16b, v7.16b, v3.16b
	stp	q4, q3, [x24]
	tbz	w14, #2, .LBB_0c7ba2_9
.LBB_0c7ba2_11:
	ldr	q6, [x25, x6]
	movi	v4.8h, #128
	movi	v7.8h, #128
	movi	v3.16b, #1
	movi	v18.8h, #128
	ushr	v5.8h, v6.8h, #8
	bic	v6.8h, #255, lsl #8
	mla	v4.8h, v5.8h, v2.8h
	mla	v7.8h, v6.8h, v0.8h
	umull2	v5.4s, v4.8h, v3.8h
	umull	v4.4s, v4.4h, v3.4h
	umull2	v6.4s, v7.8h, v3.8h
	umull	v7.4s, v7.4h, v3.4h
	uzp2	v5.8h, v4.8h, v5.8h
	ldr	q4, [x22, :lo12:.LCPI_0c7ba2_0]
	adrp	x22, .LCPI_0c7ba2_2
	uzp2	v6.8h, v7.8h, v6.8h
	ldr	q17, [x22, :lo12:.LCPI_0c7ba2_2]
	tbl	v5.16b, { v5.16b }, v4.16b
	orr	v5.16b, v5.16b, v6.16b
	ldr	q6, [x24, x6]
	mvn	v7.16b, v6.16b
	ushr	v21.8h, v6.8h, #8
	bic	v6.8h, #255, lsl #8
	mvn	v16.16b, v5.16b
	ushr	v19.8h, v5.8h, #8
	bic	v5.8h, #255, lsl #8
	ushr	v7.4s, v7.4s, #24
	ushr	v16.4s, v16.4s, #24
	tbl	v7.16b, { v7.16b }, v17.16b
	tbl	v16.16b, { v16.16b }, v17.16b
	movi	v17.8h, #128
	ushr	v20.8h, v7.8h, #8
	bic	v7.8h, #255, lsl #8
	ushr	v22.8h, v16.8h, #8
	bic	v16.8h, #255, lsl #8
	mla	v17.8h, v20.8h, v19.8h
	movi	v19.8h, #128
	movi	v20.8h, #128
	mla	v18.8h, v21.8h, v22.8h
	mla	v19.8h, v7.8h, v5.8h
	umull2	v5.4s, v17.8h, v3.8h
	umull	v7.4s, v17.4h, v3.4h
	mla	v20.8h, v6.8h, v16.8h
	umull2	v6.4s, v18.8h, v3.8h
	umull	v16.4s, v18.4h, v3.4h
	umull2	v17.4s, v19.8h, v3.8h
	umull	v18.4s, v19.4h, v3.4h
	uzp2	v5.8h, v7.8h, v5.8h
	umull2	v7.4s, v20.8h, v3.8h
	umull	v3.4s, v20.4h, v3.4h
	uzp2	v6.8h, v16.8h, v6.8h
	uzp2	v16.8h, v18.8h, v17.8h
	tbl	v5.16b, { v5.16b }, v4.16b
	uzp2	v3.8h, v3.8h, v7.8h
	tbl	v4.16b, { v6.16b }, v4.16b
	orr	v5.16b, v5.16b, v16.16b
	orr	v3.16b, v4.16b, v3.16b
	uqadd	v3.16b, v5.16b, v3.16b
	str	q3, [x24, x6]
	cmp	x4, x18
	b.eq	.LBB_0c7ba2_2
.LBB_0c7ba2_12:
	mov	x22, x21
	mov	x23, x20
	and	x24, x14, #0xc
.LBB_0c7ba2_13:
	ldr	w26, [x23], #4
	adrp	x25, .LCPI_0c7ba2_3
	ldr	d4, [x25, :lo12:.LCPI_0c7ba2_3]
	ldr	w25, [x22]
	movi	v16.4h, #128
	dup	v3.2s, w26
	add	x24, x24, #1
	and	w28, w25, #0xff
	cmp	x24, x18
	ushl	v3.2s, v3.2s, v4.2s
	mov	s5, v3.s[1]
	str	h3, [sp, #12]
	str	h5, [sp, #14]
	dup	v5.2s, w25
	ldr	s3, [sp, #12]
	zip1	v3.8b, v3.8b, v3.8b
	ushl	v4.2s, v5.2s, v4.2s
	mov	v3.h[3], wzr
	mov	s5, v4.s[1]
	str	h4, [sp, #4]
	uzp1	v3.8b, v3.8b, v0.8b
	str	h5, [sp, #6]
	movi	v5.4h, #128
	ldr	s4, [sp, #4]
	zip1	v4.8b, v4.8b, v4.8b
	ushll	v3.4s, v3.4h, #0
	mov	w27, v3.s[1]
	mov	v4.h[3], wzr
	mov	v3.h[1], w27
	ubfx	w27, w26, #8, #8
	and	w26, w26, #0xff
	uzp1	v4.8b, v4.8b, v0.8b
	mov	v3.h[2], w27
	ushll	v4.4s, v4.4h, #0
	mov	v3.h[3], w26
	mov	w26, v4.s[1]
	mla	v5.4h, v3.4h, v1.h[0]
	mov	v4.h[1], w26
	ubfx	w26, w25, #8, #8
	mvn	w25, w25
	lsr	w25, w25, #24
	usra	v5.4h, v5.4h, #8
	mov	v4.h[2], w26
	mov	w26, #255
	dup	v7.4h, w25
	adrp	x25, .LCPI_0c7ba2_4
	ushr	v3.4h, v5.4h, #8
	movi	v5.4h, #128
	mov	v4.h[3], w28
	umov	w27, v3.b[0]
	mla	v16.4h, v3.4h, v7.4h
	bic	w26, w26, w27
	usra	v16.4h, v16.4h, #8
	dup	v6.4h, w26
	mla	v5.4h, v6.4h, v4.4h
	movi	d4, #0xff00ff00ff00ff
	usra	v5.4h, v5.4h, #8
	ushr	v3.4h, v5.4h, #8
	usra	v3.4h, v16.4h, #8
	umin	v3.4h, v3.4h, v4.4h
	ldr	q4, [x25, :lo12:.LCPI_0c7ba2_4]
	ushll	v3.4s, v3.4h, #0
	ushl	v3.4s, v3.4s, v4.4s
	ext	v4.16b, v3.16b, v3.16b, #8
	orr	v3.8b, v3.8b, v4.8b
	fmov	x25, d3
	lsr	x26, x25, #32
	orr	w25, w25, w26
	str	w25, [x22], #4
	b.lo	.LBB_0c7ba2_13
	b	.LBB_0c7ba2_2
.LBB_0c7ba2_14:
	ldp	x20, x19, [sp, #80]
	ldp	x22, x21, [sp, #64]
	ldp	x24, x23, [sp, #48]
	ldp	x26, x25, [sp, #32]
	ldp	x28, x27, [sp, #16]
	add	sp, sp, #96
.LBB_0c7ba2_15:
	ret
.Lfunc_end_0c7ba2:
	.size	"pix_raster::view::blit_overlap::<#cadaf6b2c7002256>", .Lfunc_end_0c7ba2-"pix_raster::view::blit_overlap::<#cadaf6b2c7002256>"

	.section	".text.pix_raster::view::blit_overlap::<#07c05c7fae9ce56d>","ax",@progbits
	.p2align	2
	.type	"pix_raster::view::blit_overlap::<#07c05c7fae9ce56d>",@function
"pix_raster::view::blit_overlap::<#07c05c7fae9ce56d>":
	stp	x29, x30, [sp, #-48]!
	ldp	x9, x8, [x2, #24]
	mov	x29, sp
	stp	x22, x21, [sp, #16]
	stp	x20, x19, [sp, #32]
	subs	x21, x8, x9
	b.ls	.LBB_100421_4
	ldp	x8, x10, [x2]
	sub	x19, x10, x8
	cmp	x19, #1024
	b.lo	.LBB_100421_5
	madd	x8, x9, x1, x8
	lsl	x22, x1, #2
	add	x20, x0, x8, lsl #2
.LBB_100421_3:
	mov	x0, x20
	mov	x1, x19
	bl	"pix_el::filled::clear_long::<#c0ead2364dd49755>"
	subs	x21, x21, #1
	add	x20, x20, x22
	b.ne	.LBB_100421_3
.LBB_100421_4:
	ldp	x20, x19, [sp, #32]
	ldp	x22, x21, [sp, #16]
	ldp	x29, x30, [sp], #48
	ret
.LBB_100421_5:
	sub	x11, x19, #33
	cmn	x11, #26
	b.hi	.LBB_100421_9
	cmp	x10, x8
	b.eq	.LBB_100421_4
	madd	x8, x9, x1, x8
	lsl	x19, x19, #2
	lsl	x22, x1, #2
	add	x20, x0, x8, lsl #2
.LBB_100421_8:
	mov	x0, x20
	mov	w1, wzr
	mov	x2, x19
	bl	memset
	subs	x21, x21, #1
	add	x20, x20, x22
	b.ne	.LBB_100421_8
	b	.LBB_100421_4
.LBB_100421_9:
	cmp	x19, #17
	b.hs	.LBB_100421_13
	cmp	x19, #8
	b.ls	.LBB_100421_15
	mul	x9, x9, x1
	add	x10, x10, x9
	add	x9, x8, x9
	lsl	x8, x1, #2
	lsl	x10, x10, #2
	lsl	x9, x9, #2
	sub	x10, x10, #32
.LBB_100421_12:
	movi	v0.2d, #0000000000000000
	add	x11, x0, x9
	add	x12, x0, x10
	subs	x21, x21, #1
	add	x0, x0, x8
	stp	q0, q0, [x11]
	stp	q0, q0, [x12]
	b.ne	.LBB_100421_12
	b	.LBB_100421_4
.LBB_100421_13:
	mul	x9, x9, x1
	add	x10, x10, x9
	add	x9, x8, x9
	lsl	x8, x1, #2
	lsl	x10, x10, #2
	lsl	x9, x9, #2
	sub	x10, x10, #64
.LBB_100421_14:
	movi	v0.2d, #0000000000000000
	add	x11, x0, x9
	add	x12, x0, x10
	subs	x21, x21, #1
	add	x0, x0, x8
	stp	q0, q0, [x11]
	stp	q0, q0, [x11, #32]
	stp	q0, q0, [x12]
	stp	q0, q0, [x12, #32]
	b.ne	.LBB_100421_14
	b	.LBB_100421_4
.LBB_100421_15:
	madd	x8, x9, x1, x8
	lsl	x9, x1, #2
	add	x8, x0, x8, lsl #2
.LBB_100421_16:
	movi	v0.2d, #0000000000000000
	subs	x21, x21, #1
	stp	q0, q0, [x8]
	add	x8, x8, x9
	b.ne	.LBB_100421_16
	b	.LBB_100421_4
.Lfunc_end_100421:
	.size	"pix_raster::view::blit_overlap::<#07c05c7fae9ce56d>", .Lfunc_end_100421-"pix_raster::view::blit_overlap::<#07c05c7fae9ce56d>"

	.section	.rodata.cst16,"aM",@progbits,16
	.p2align	4, 0x0
.LCPI_c47ea3_0:
	.word	4294967272
	.word	4294967280
	.word	4294967288
	.word	0
.LCPI_c47ea3_1:
	.word	24
	.word	16
	.word	8
	.word	0
	.section	".text.pix_raster::view::blit_overlap::<#38bb87c9d91cb462>","ax",@progbits
	.p2align	2
	.type	"pix_raster::view::blit_overlap::<#38bb87c9d91cb462>",@function
"pix_raster::view::blit_overlap::<#38bb87c9d91cb462>":
	ldp	x8, x9, [x4, #24]
	cmp	x8, x9
	b.hs	.LBB_c47ea3_15
	str	x27, [sp, #-80]!
	ldp	x10, x12, [x4]
	ldr	x13, [x4, #40]
	madd	x5, x8, x1, x10
	ldr	x11, [x4, #16]
	stp	x22, x21, [sp, #48]
	stp	x20, x19, [sp, #64]
	madd	x6, x13, x3, x11
	sub	x12, x12, x10
	sub	x13, x13, x8
	and	x15, x12, #0xfffffffffffffff0
	lsl	x4, x12, #2
	lsr	x14, x12, #4
	lsr	x7, x15, #4
	lsl	x16, x15, #2
	and	x17, x12, #0xf
	and	x22, x4, #0x30
	add	x21, x0, x5, lsl #2
	and	x18, x4, #0x20
	bfi	x22, x7, #6, #58
	lsl	x7, x3, #2
	and	x4, x12, #0xc
	add	x20, x2, x6, lsl #2
	lsl	x6, x1, #2
	add	x5, x21, #32
	add	x21, x21, x22
	stp	x26, x25, [sp, #16]
	add	x19, x20, #32
	add	x20, x20, x22
	stp	x24, x23, [sp, #32]
	b	.LBB_c47ea3_3
.LBB_c47ea3_2:
	add	x8, x8, #1
	add	x5, x5, x6
	add	x19, x19, x7
	cmp	x8, x9
	add	x20, x20, x7
	add	x21, x21, x6
	b.eq	.LBB_c47ea3_14
.LBB_c47ea3_3:
	cbz	x14, .LBB_c47ea3_6
	mov	x22, x19
	mov	x23, x5
	mov	x24, x14
.LBB_c47ea3_5:
	ldp	q0, q3, [x22, #-32]
	subs	x24, x24, #1
	ldp	q1, q2, [x23, #-32]
	uqadd	v0.16b, v0.16b, v1.16b
	uqadd	v1.16b, v3.16b, v2.16b
	stp	q0, q1, [x23, #-32]
	ldp	q1, q2, [x23]
	ldp	q0, q3, [x22], #64
	uqadd	v0.16b, v0.16b, v1.16b
	uqadd	v1.16b, v3.16b, v2.16b
	stp	q0, q1, [x23], #64
	b.ne	.LBB_c47ea3_5
.LBB_c47ea3_6:
	cmp	x15, x12
	b.eq	.LBB_c47ea3_2
	add	x23, x13, x8
	madd	x22, x8, x1, x10
	madd	x23, x23, x3, x11
	add	x22, x0, x22, lsl #2
	add	x23, x2, x23, lsl #2
	add	x22, x22, x16
	add	x23, x23, x16
	tbnz	w12, #3, .LBB_c47ea3_10
	tbnz	w12, #2, .LBB_c47ea3_11
.LBB_c47ea3_9:
	cmp	x4, x17
	b.eq	.LBB_c47ea3_2
	b	.LBB_c47ea3_12
.LBB_c47ea3_10:
	ldp	q0, q3, [x23]
	ldp	q1, q2, [x22]
	uqadd	v0.16b, v0.16b, v1.16b
	uqadd	v1.16b, v3.16b, v2.16b
	stp	q0, q1, [x22]
	tbz	w12, #2, .LBB_c47ea3_9
.LBB_c47ea3_11:
	ldr	q0, [x22, x18]
	ldr	q1, [x23, x18]
	uqadd	v0.16b, v1.16b, v0.16b
	str	q0, [x22, x18]
	cmp	x4, x17
	b.eq	.LBB_c47ea3_2
.LBB_c47ea3_12:
	mov	x22, x21
	mov	x23, x20
	and	x24, x12, #0xc
	mov	x25, x21
.LBB_c47ea3_13:
	ld1r	{ v0.4s }, [x23], #4
	adrp	x26, .LCPI_c47ea3_0
	ld1r	{ v1.4s }, [x25], #4
	ldr	q2, [x26, :lo12:.LCPI_c47ea3_0]
	adrp	x26, .LCPI_c47ea3_1
	add	x24, x24, #1
	ushl	v0.4s, v0.4s, v2.4s
	cmp	x24, x17
	ushl	v1.4s, v1.4s, v2.4s
	movi	d2, #0xff00ff00ff00ff
	xtn	v0.4h, v0.4s
	xtn	v1.4h, v1.4s
	bic	v0.4h, #255, lsl #8
	bic	v1.4h, #255, lsl #8
	add	v0.4h, v1.4h, v0.4h
	ldr	q1, [x26, :lo12:.LCPI_c47ea3_1]
	umin	v0.4h, v0.4h, v2.4h
	ushll	v0.4s, v0.4h, #0
	ushl	v0.4s, v0.4s, v1.4s
	ext	v1.16b, v0.16b, v0.16b, #8
	orr	v0.8b, v0.8b, v1.8b
	fmov	x26, d0
	lsr	x27, x26, #32
	orr	w26, w26, w27
	str	w26, [x22]
	mov	x22, x25
	b.lo	.LBB_c47ea3_13
	b	.LBB_c47ea3_2
.LBB_c47ea3_14:
	ldp	x20, x19, [sp, #64]
	ldp	x22, x21, [sp, #48]
	ldp	x24, x23, [sp, #32]
	ldp	x26, x25, [sp, #16]
	ldr	x27, [sp], #80
.LBB_c47ea3_15:
	ret
.Lfunc_end_c47ea3:
	.size	"pix_raster::view::blit_overlap::<#38bb87c9d91cb462>", .Lfunc_end_c47ea3-"pix_raster::view::blit_overlap::<#38bb87c9d91cb462>"

	.section	.rodata.cst16,"aM",@progbits,16
	.p2align	4, 0x0
.LCPI_e65ddd_0:
	.word	0
	.word	4294967288
	.word	4294967280
	.word	4294967272
.LCPI_e65ddd_1:
	.byte	255
	.byte	0
	.byte	255
	.byte	2
	.byte	255
	.byte	4
	.byte	255
	.byte	6
	.byte	255
	.byte	8
	.byte	255
	.byte	10
	.byte	255
	.byte	12
	.byte	255
	.byte	14
.LCPI_e65ddd_2:
	.byte	0
	.byte	0
	.byte	0
	.byte	0
	.byte	1
	.byte	1
	.byte	1
	.byte	1
	.byte	2
	.byte	2
	.byte	2
	.byte	2
	.byte	3
	.byte	3
	.byte	3
	.byte	3
.LCPI_e65ddd_3:
	.word	4294967280
	.word	4294967272
	.word	4294967288
	.word	0
.LCPI_e65ddd_4:
	.word	16
	.word	24
	.word	8
	.word	0
	.section	".text.pix_raster::view::blit_overlap::<#1190cce370e40c2f>","ax",@progbits
	.p2align	2
	.type	"pix_raster::view::blit_overlap::<#1190cce370e40c2f>",@function
"pix_raster::view::blit_overlap::<#1190cce370e40c2f>":
	ldp	x8, x9, [x4, #24]
	cmp	x8, x9
	b.hs	.LBB_e65ddd_19
	stp	x26, x25, [sp, #-64]!
	dup	v0.4s, w5
	adrp	x10, .LCPI_e65ddd_0
	ubfx	w16, w5, #8, #8
	ldr	q1, [x10, :lo12:.LCPI_e65ddd_0]
	ldp	x12, x13, [x4, #8]
	ldr	x14, [x4, #40]
	stp	x20, x19, [sp, #48]
	and	w5, w5, #0xff
	ushl	v2.4s, v0.4s, v1.4s
	stp	x22, x21, [sp, #32]
	madd	x19, x14, x3, x13
	stp	x24, x23, [sp, #16]
	add	x11, x2, x13
	sub	x13, x14, x8
	umov	w10, v2.h[4]
	uzp1	v0.8h, v2.8h, v2.8h
	and	w10, w10, #0xff
	uzp1	v0.16b, v0.16b, v0.16b
	fmov	s1, w10
	ldr	x10, [x4]
	madd	x7, x8, x1, x10
	sub	x12, x12, x10
	mov	v1.h[1], v2.h[6]
	and	x15, x12, #0xfffffffffffffff0
	lsl	x21, x12, #2
	lsr	x20, x15, #4
	and	x6, x12, #0xc
	ushr	v2.8h, v0.8h, #8
	and	x21, x21, #0x30
	bic	v0.8h, #255, lsl #8
	and	x18, x12, #0x8
	add	x22, x0, x7, lsl #2
	add	x23, x15, x6
	bfi	x21, x20, #6, #58
	mov	v1.h[2], w16
	lsr	x14, x12, #4
	lsl	x16, x15, #2
	lsl	x4, x18, #2
	lsl	x7, x1, #2
	add	x20, x2, x23
	and	x17, x12, #0xf
	mov	v1.h[3], w5
	add	x5, x19, x2
	add	x2, x22, #32
	add	x5, x5, #8
	add	x19, x20, x19
	add	x20, x22, x21
	b	.LBB_e65ddd_3
.LBB_e65ddd_2:
	add	x8, x8, #1
	add	x5, x5, x3
	add	x2, x2, x7
	cmp	x8, x9
	add	x19, x19, x3
	add	x20, x20, x7
	b.eq	.LBB_e65ddd_18
.LBB_e65ddd_3:
	adrp	x21, .LCPI_e65ddd_1
	cbz	x14, .LBB_e65ddd_8
	mov	x22, x2
	mov	x23, x5
	mov	x24, x14
	b	.LBB_e65ddd_6
.LBB_e65ddd_5:
	subs	x24, x24, #1
	add	x23, x23, #16
	add	x22, x22, #64
	b.eq	.LBB_e65ddd_8
.LBB_e65ddd_6:
	ldp	d3, d4, [x23, #-8]
	orr	v4.8b, v4.8b, v3.8b
	fmov	x25, d4
	orr	x25, x25, x25, lsr #32
	lsr	x26, x25, #16
	orr	w25, w25, w26
	orr	w25, w25, w25, lsr #8
	tst	w25, #0xff
	b.eq	.LBB_e65ddd_5
	zip1	v3.16b, v3.16b, v3.16b
	movi	v4.8h, #1
	movi	v7.8h, #128
	movi	v16.8h, #128
	movi	v18.8h, #128
	movi	v19.8h, #128
	ushll	v5.4s, v3.4h, #0
	ushll2	v3.4s, v3.8h, #0
	mul	v5.4s, v5.4s, v4.4s
	mul	v6.4s, v3.4s, v4.4s
	ushr	v3.8h, v5.8h, #8
	ushr	v17.8h, v6.8h, #8
	bic	v5.8h, #255, lsl #8
	bic	v6.8h, #255, lsl #8
	mla	v7.8h, v3.8h, v2.8h
	movi	v3.16b, #1
	mla	v16.8h, v17.8h, v2.8h
	mla	v18.8h, v5.8h, v0.8h
	mla	v19.8h, v6.8h, v0.8h
	umull2	v5.4s, v7.8h, v3.8h
	umull	v7.4s, v7.4h, v3.4h
	umull2	v6.4s, v16.8h, v3.8h
	umull	v16.4s, v16.4h, v3.4h
	umull2	v17.4s, v18.8h, v3.8h
	umull	v18.4s, v18.4h, v3.4h
	umull2	v20.4s, v19.8h, v3.8h
	umull	v19.4s, v19.4h, v3.4h
	uzp2	v7.8h, v7.8h, v5.8h
	ldr	q5, [x21, :lo12:.LCPI_e65ddd_1]
	uzp2	v6.8h, v16.8h, v6.8h
	uzp2	v16.8h, v18.8h, v17.8h
	uzp2	v17.8h, v19.8h, v20.8h
	movi	v19.8h, #128
	tbl	v7.16b, { v7.16b }, v5.16b
	tbl	v6.16b, { v6.16b }, v5.16b
	orr	v7.16b, v7.16b, v16.16b
	orr	v6.16b, v6.16b, v17.16b
	ldp	q16, q17, [x22, #-32]
	uqadd	v7.16b, v7.16b, v16.16b
	uqadd	v6.16b, v6.16b, v17.16b
	movi	v16.8h, #128
	stp	q7, q6, [x22, #-32]
	ldr	d6, [x23]
	zip1	v6.16b, v6.16b, v6.16b
	ushll	v7.4s, v6.4h, #0
	ushll2	v6.4s, v6.8h, #0
	mul	v7.4s, v7.4s, v4.4s
	mul	v4.4s, v6.4s, v4.4s
	movi	v6.8h, #128
	ushr	v17.8h, v7.8h, #8
	ushr	v18.8h, v4.8h, #8
	bic	v7.8h, #255, lsl #8
	bic	v4.8h, #255, lsl #8
	mla	v6.8h, v17.8h, v2.8h
	movi	v17.8h, #128
	mla	v16.8h, v18.8h, v2.8h
	mla	v19.8h, v7.8h, v0.8h
	umull2	v7.4s, v6.8h, v3.8h
	umull	v6.4s, v6.4h, v3.4h
	mla	v17.8h, v4.8h, v0.8h
	umull2	v4.4s, v16.8h, v3.8h
	umull	v16.4s, v16.4h, v3.4h
	umull2	v18.4s, v19.8h, v3.8h
	umull	v19.4s, v19.4h, v3.4h
	uzp2	v6.8h, v6.8h, v7.8h
	umull2	v7.4s, v17.8h, v3.8h
	umull	v3.4s, v17.4h, v3.4h
	uzp2	v4.8h, v16.8h, v4.8h
	uzp2	v16.8h, v19.8h, v18.8h
	tbl	v6.16b, { v6.16b }, v5.16b
	uzp2	v3.8h, v3.8h, v7.8h
	tbl	v4.16b, { v4.16b }, v5.16b
	orr	v5.16b, v6.16b, v16.16b
	orr	v3.16b, v4.16b, v3.16b
	ldp	q4, q6, [x22]
	uqadd	v4.16b, v5.16b, v4.16b
	uqadd	v3.16b, v3.16b, v6.16b
	stp	q4, q3, [x22]
	b	.LBB_e65ddd_5
.LBB_e65ddd_8:
	cmp	x15, x12
	b.eq	.LBB_e65ddd_2
	madd	x22, x8, x1, x10
	add	x23, x13, x8
	madd	x23, x23, x3, x11
	add	x22, x0, x22, lsl #2
	add	x22, x22, x16
	add	x23, x23, x15
	tbz	w12, #3, .LBB_e65ddd_12
	ldr	d3, [x23]
	fmov	x24, d3
	orr	x24, x24, x24, lsr #32
	lsr	x25, x24, #16
	orr	w24, w24, w25
	orr	w24, w24, w24, lsr #8
	tst	w24, #0xff
	b.eq	.LBB_e65ddd_12
	zip1	v3.16b, v3.16b, v3.16b
	movi	v4.8h, #1
	movi	v6.8h, #128
	movi	v17.8h, #128
	movi	v18.8h, #128
	ushll	v5.4s, v3.4h, #0
	ushll2	v3.4s, v3.8h, #0
	mul	v5.4s, v5.4s, v4.4s
	mul	v3.4s, v3.4s, v4.4s
	movi	v4.8h, #128
	ushr	v7.8h, v5.8h, #8
	ushr	v16.8h, v3.8h, #8
	bic	v5.8h, #255, lsl #8
	bic	v3.8h, #255, lsl #8
	mla	v4.8h, v7.8h, v2.8h
	movi	v7.16b, #1
	mla	v6.8h, v16.8h, v2.8h
	mla	v17.8h, v5.8h, v0.8h
	mla	v18.8h, v3.8h, v0.8h
	umull2	v5.4s, v4.8h, v7.8h
	umull	v4.4s, v4.4h, v7.4h
	umull2	v3.4s, v6.8h, v7.8h
	umull	v6.4s, v6.4h, v7.4h
	umull2	v16.4s, v17.8h, v7.8h
	umull	v17.4s, v17.4h, v7.4h
	uzp2	v4.8h, v4.8h, v5.8h
	umull2	v5.4s, v18.8h, v7.8h
	umull	v7.4s, v18.4h, v7.4h
	uzp2	v3.8h, v6.8h, v3.8h
	ldr	q6, [x21, :lo12:.LCPI_e65ddd_1]
	uzp2	v16.8h, v17.8h, v16.8h
	tbl	v4.16b, { v4.16b }, v6.16b
	uzp2	v5.8h, v7.8h, v5.8h
	tbl	v3.16b, { v3.16b }, v6.16b
	orr	v4.16b, v4.16b, v16.16b
	orr	v3.16b, v3.16b, v5.16b
	ldp	q5, q6, [x22]
	uqadd	v4.16b, v4.16b, v5.16b
	uqadd	v3.16b, v3.16b, v6.16b
	stp	q4, q3, [x22]
.LBB_e65ddd_12:
	tbz	w12, #2, .LBB_e65ddd_15
	ldr	s3, [x23, x18]
	dup	v4.16b, v3.b[1]
	dup	v5.16b, v3.b[2]
	dup	v6.16b, v3.b[3]
	orr	v4.16b, v4.16b, v5.16b
	orr	v5.16b, v6.16b, v3.16b
	orr	v4.16b, v4.16b, v5.16b
	umov	w23, v4.b[0]
	cbz	w23, .LBB_e65ddd_15
	adrp	x23, .LCPI_e65ddd_2
	movi	v6.8h, #128
	movi	v7.16b, #1
	ldr	q4, [x23, :lo12:.LCPI_e65ddd_2]
	tbl	v3.16b, { v3.16b }, v4.16b
	movi	v4.8h, #128
	ushr	v5.8h, v3.8h, #8
	bic	v3.8h, #255, lsl #8
	mla	v4.8h, v5.8h, v2.8h
	mla	v6.8h, v3.8h, v0.8h
	umull2	v3.4s, v4.8h, v7.8h
	umull	v4.4s, v4.4h, v7.4h
	umull2	v5.4s, v6.8h, v7.8h
	umull	v6.4s, v6.4h, v7.4h
	uzp2	v3.8h, v4.8h, v3.8h
	ldr	q4, [x21, :lo12:.LCPI_e65ddd_1]
	uzp2	v5.8h, v6.8h, v5.8h
	tbl	v3.16b, { v3.16b }, v4.16b
	ldr	q4, [x22, x4]
	orr	v3.16b, v3.16b, v5.16b
	uqadd	v3.16b, v3.16b, v4.16b
	str	q3, [x22, x4]
.LBB_e65ddd_15:
	cmp	x6, x17
	b.eq	.LBB_e65ddd_2
	mov	x21, x20
	mov	x22, x19
	and	x23, x12, #0xc
	mov	x24, x20
.LBB_e65ddd_17:
	ldrb	w25, [x22], #1
	adrp	x26, .LCPI_e65ddd_3
	ld1r	{ v3.4s }, [x24], #4
	ldr	q4, [x26, :lo12:.LCPI_e65ddd_3]
	dup	v5.4h, w25
	movi	v6.4h, #128
	adrp	x25, .LCPI_e65ddd_4
	add	x23, x23, #1
	ushl	v3.4s, v3.4s, v4.4s
	movi	d4, #0xff00ff00ff00ff
	cmp	x23, x17
	mla	v6.4h, v5.4h, v1.4h
	xtn	v3.4h, v3.4s
	usra	v6.4h, v6.4h, #8
	bic	v3.4h, #255, lsl #8
	usra	v3.4h, v6.4h, #8
	umin	v3.4h, v3.4h, v4.4h
	ldr	q4, [x25, :lo12:.LCPI_e65ddd_4]
	ushll	v3.4s, v3.4h, #0
	ushl	v3.4s, v3.4s, v4.4s
	ext	v4.16b, v3.16b, v3.16b, #8
	orr	v3.8b, v3.8b, v4.8b
	fmov	x25, d3
	lsr	x26, x25, #32
	orr	w25, w25, w26
	str	w25, [x21]
	mov	x21, x24
	b.lo	.LBB_e65ddd_17
	b	.LBB_e65ddd_2
.LBB_e65ddd_18:
	ldp	x20, x19, [sp, #48]
	ldp	x22, x21, [sp, #32]
	ldp	x24, x23, [sp, #16]
	ldp	x26, x25, [sp], #64
.LBB_e65ddd_19:
	ret
.Lfunc_end_e65ddd:
	.size	"pix_raster::view::blit_overlap::<#1190cce370e40c2f>", .Lfunc_end_e65ddd-"pix_raster::view::blit_overlap::<#1190cce370e40c2f>"

	.section	.rodata.cst16,"aM",@progbits,16
	.p2align	4, 0x0
.LCPI_89cae0_0:
	.byte	255
	.byte	0
	.byte	255
	.byte	2
	.byte	255
	.byte	4
	.byte	255
	.byte	6
	.byte	255
	.byte	8
	.byte	255
	.byte	10
	.byte	255
	.byte	12
	.byte	255
	.byte	14
.LCPI_89cae0_2:
	.word	4294967280
	.word	4294967272
	.word	4294967288
	.word	0
.LCPI_89cae0_3:
	.word	16
	.word	24
	.word	8
	.word	0
	.section	.rodata.cst8,"aM",@progbits,8
	.p2align	3, 0x0
.LCPI_89cae0_1:
	.word	4294967280
	.word	4294967272
	.section	".text.pix_raster::view::blit_overlap::<#79e97ac7f662bd7a>","ax",@progbits
	.p2align	2
	.type	"pix_raster::view::blit_overlap::<#79e97ac7f662bd7a>",@function
"pix_raster::view::blit_overlap::<#79e97ac7f662bd7a>":
	ldp	x8, x9, [x4, #24]
	cmp	x8, x9
	b.hs	.LBB_89cae0_15
	str	x27, [sp, #-80]!
	ldp	x10, x12, [x4]
	dup	v0.16b, w5
	ldr	x14, [x4, #40]
	madd	x6, x8, x1, x10
	ldr	x11, [x4, #16]
	stp	x20, x19, [sp, #64]
	and	w5, w5, #0xff
	madd	x7, x14, x3, x11
	sub	x12, x12, x10
	stp	x22, x21, [sp, #48]
	and	x15, x12, #0xfffffffffffffff0
	lsl	x19, x12, #2
	stp	x24, x23, [sp, #32]
	lsr	x20, x15, #4
	ushr	v1.8h, v0.8h, #8
	bic	v0.8h, #255, lsl #8
	and	x22, x19, #0x30
	add	x21, x0, x6, lsl #2
	fmov	s2, w5
	bfi	x22, x20, #6, #58
	sub	x13, x14, x8
	lsr	x14, x12, #4
	add	x23, x2, x7, lsl #2
	lsl	x16, x15, #2
	lsl	x6, x1, #2
	lsl	x7, x3, #2
	and	x17, x12, #0xf
	and	x18, x19, #0x20
	and	x4, x12, #0xc
	add	x5, x21, #32
	add	x19, x23, #32
	add	x20, x23, x22
	add	x21, x21, x22
	stp	x26, x25, [sp, #16]
	b	.LBB_89cae0_3
.LBB_89cae0_2:
	add	x8, x8, #1
	add	x5, x5, x6
	add	x19, x19, x7
	cmp	x8, x9
	add	x20, x20, x7
	add	x21, x21, x6
	b.eq	.LBB_89cae0_14
.LBB_89cae0_3:
	adrp	x22, .LCPI_89cae0_0
	cbz	x14, .LBB_89cae0_6
	mov	x23, x19
	mov	x24, x5
	mov	x25, x14
.LBB_89cae0_5:
	ldp	q4, q5, [x23, #-32]
	movi	v6.8h, #128
	movi	v7.8h, #128
	movi	v18.8h, #128
	movi	v19.8h, #128
	movi	v3.16b, #1
	subs	x25, x25, #1
	ushr	v16.8h, v4.8h, #8
	ushr	v17.8h, v5.8h, #8
	bic	v4.8h, #255, lsl #8
	bic	v5.8h, #255, lsl #8
	mla	v6.8h, v16.8h, v1.8h
	mla	v7.8h, v17.8h, v1.8h
	mla	v18.8h, v4.8h, v0.8h
	mla	v19.8h, v5.8h, v0.8h
	umull2	v4.4s, v6.8h, v3.8h
	umull	v6.4s, v6.4h, v3.4h
	umull2	v5.4s, v7.8h, v3.8h
	umull	v7.4s, v7.4h, v3.4h
	umull2	v16.4s, v18.8h, v3.8h
	umull	v17.4s, v18.4h, v3.4h
	umull2	v18.4s, v19.8h, v3.8h
	umull	v19.4s, v19.4h, v3.4h
	uzp2	v6.8h, v6.8h, v4.8h
	ldr	q4, [x22, :lo12:.LCPI_89cae0_0]
	uzp2	v5.8h, v7.8h, v5.8h
	uzp2	v7.8h, v17.8h, v16.8h
	uzp2	v16.8h, v19.8h, v18.8h
	movi	v19.8h, #128
	tbl	v6.16b, { v6.16b }, v4.16b
	tbl	v5.16b, { v5.16b }, v4.16b
	orr	v6.16b, v6.16b, v7.16b
	orr	v5.16b, v5.16b, v16.16b
	ldp	q7, q16, [x24, #-32]
	uqadd	v6.16b, v6.16b, v7.16b
	uqadd	v5.16b, v5.16b, v16.16b
	movi	v7.8h, #128
	movi	v16.8h, #128
	stp	q6, q5, [x24, #-32]
	ldp	q5, q6, [x23], #64
	ushr	v17.8h, v5.8h, #8
	ushr	v18.8h, v6.8h, #8
	bic	v5.8h, #255, lsl #8
	bic	v6.8h, #255, lsl #8
	mla	v7.8h, v17.8h, v1.8h
	movi	v17.8h, #128
	mla	v16.8h, v18.8h, v1.8h
	mla	v19.8h, v5.8h, v0.8h
	umull2	v5.4s, v7.8h, v3.8h
	umull	v7.4s, v7.4h, v3.4h
	mla	v17.8h, v6.8h, v0.8h
	umull2	v6.4s, v16.8h, v3.8h
	umull	v16.4s, v16.4h, v3.4h
	umull2	v18.4s, v19.8h, v3.8h
	umull	v19.4s, v19.4h, v3.4h
	uzp2	v5.8h, v7.8h, v5.8h
	umull2	v7.4s, v17.8h, v3.8h
	umull	v3.4s, v17.4h, v3.4h
	uzp2	v6.8h, v16.8h, v6.8h
	uzp2	v16.8h, v19.8h, v18.8h
	tbl	v5.16b, { v5.16b }, v4.16b
	uzp2	v3.8h, v3.8h, v7.8h
	tbl	v4.16b, { v6.16b }, v4.16b
	orr	v5.16b, v5.16b, v16.16b
	orr	v3.16b, v4.16b, v3.16b
	ldp	q4, q6, [x24]
	uqadd	v4.16b, v5.16b, v4.16b
	uqadd	v3.16b, v3.16b, v6.16b
	stp	q4, q3, [x24], #64
	b.ne	.LBB_89cae0_5
.LBB_89cae0_6:
	cmp	x15, x12
	b.eq	.LBB_89cae0_2
	add	x24, x13, x8
	madd	x23, x8, x1, x10
	madd	x24, x24, x3, x11
	add	x23, x0, x23, lsl #2
	add	x24, x2, x24, lsl #2
	add	x23, x23, x16
	add	x24, x24, x16
	tbnz	w12, #3, .LBB_89cae0_10
	tbnz	w12, #2, .LBB_89cae0_11
.LBB_89cae0_9:
	cmp	x4, x17
	b.eq	.LBB_89cae0_2
	b	.LBB_89cae0_12
.LBB_89cae0_10:
	ldp	q3, q4, [x24]
	movi	v5.8h, #128
	movi	v6.8h, #128
	movi	v17.8h, #128
	movi	v18.8h, #128
	ushr	v7.8h, v3.8h, #8
	ushr	v16.8h, v4.8h, #8
	bic	v3.8h, #255, lsl #8
	bic	v4.8h, #255, lsl #8
	mla	v5.8h, v7.8h, v1.8h
	movi	v7.16b, #1
	mla	v6.8h, v16.8h, v1.8h
	mla	v17.8h, v3.8h, v0.8h
	mla	v18.8h, v4.8h, v0.8h
	umull2	v3.4s, v5.8h, v7.8h
	umull	v5.4s, v5.4h, v7.4h
	umull2	v4.4s, v6.8h, v7.8h
	umull	v6.4s, v6.4h, v7.4h
	umull2	v16.4s, v17.8h, v7.8h
	umull	v17.4s, v17.4h, v7.4h
	uzp2	v3.8h, v5.8h, v3.8h
	umull2	v5.4s, v18.8h, v7.8h
	umull	v7.4s, v18.4h, v7.4h
	uzp2	v4.8h, v6.8h, v4.8h
	ldr	q6, [x22, :lo12:.LCPI_89cae0_0]
	uzp2	v16.8h, v17.8h, v16.8h
	tbl	v3.16b, { v3.16b }, v6.16b
	uzp2	v5.8h, v7.8h, v5.8h
	tbl	v4.16b, { v4.16b }, v6.16b
	orr	v3.16b, v3.16b, v16.16b
	orr	v4.16b, v4.16b, v5.16b
	ldp	q5, q6, [x23]
	uqadd	v3.16b, v3.16b, v5.16b
	uqadd	v4.16b, v4.16b, v6.16b
	stp	q3, q4, [x23]
	tbz	w12, #2, .LBB_89cae0_9
.LBB_89cae0_11:
	ldr	q3, [x24, x18]
	movi	v4.8h, #128
	movi	v6.8h, #128
	movi	v7.16b, #1
	ushr	v5.8h, v3.8h, #8
	bic	v3.8h, #255, lsl #8
	mla	v4.8h, v5.8h, v1.8h
	mla	v6.8h, v3.8h, v0.8h
	umull2	v3.4s, v4.8h, v7.8h
	umull	v4.4s, v4.4h, v7.4h
	umull2	v5.4s, v6.8h, v7.8h
	umull	v6.4s, v6.4h, v7.4h
	uzp2	v3.8h, v4.8h, v3.8h
	ldr	q4, [x22, :lo12:.LCPI_89cae0_0]
	uzp2	v5.8h, v6.8h, v5.8h
	tbl	v3.16b, { v3.16b }, v4.16b
	ldr	q4, [x23, x18]
	orr	v3.16b, v3.16b, v5.16b
	uqadd	v3.16b, v3.16b, v4.16b
	str	q3, [x23, x18]
	cmp	x4, x17
	b.eq	.LBB_89cae0_2
.LBB_89cae0_12:
	mov	x22, x21
	mov	x23, x20
	and	x24, x12, #0xc
	mov	x25, x21
.LBB_89cae0_13:
	ldr	w26, [x23], #4
	adrp	x27, .LCPI_89cae0_1
	ldr	d4, [x27, :lo12:.LCPI_89cae0_1]
	movi	v6.4h, #128
	add	x24, x24, #1
	dup	v3.2s, w26
	cmp	x24, x17
	ushl	v3.2s, v3.2s, v4.2s
	mov	s4, v3.s[1]
	str	h3, [sp, #12]
	str	h4, [sp, #14]
	ldr	s3, [sp, #12]
	ld1r	{ v4.4s }, [x25], #4
	zip1	v3.8b, v3.8b, v3.8b
	mov	v3.h[1], wzr
	uzp1	v3.8b, v3.8b, v0.8b
	ushll	v3.4s, v3.4h, #0
	mov	w27, v3.s[1]
	mov	v3.h[1], w27
	ubfx	w27, w26, #8, #8
	and	w26, w26, #0xff
	mov	v3.h[2], w27
	adrp	x27, .LCPI_89cae0_2
	ldr	q5, [x27, :lo12:.LCPI_89cae0_2]
	ushl	v4.4s, v4.4s, v5.4s
	mov	v3.h[3], w26
	adrp	x26, .LCPI_89cae0_3
	xtn	v4.4h, v4.4s
	mla	v6.4h, v3.4h, v2.h[0]
	movi	d3, #0xff00ff00ff00ff
	bic	v4.4h, #255, lsl #8
	usra	v6.4h, v6.4h, #8
	usra	v4.4h, v6.4h, #8
	umin	v3.4h, v4.4h, v3.4h
	ldr	q4, [x26, :lo12:.LCPI_89cae0_3]
	ushll	v3.4s, v3.4h, #0
	ushl	v3.4s, v3.4s, v4.4s
	ext	v4.16b, v3.16b, v3.16b, #8
	orr	v3.8b, v3.8b, v4.8b
	fmov	x26, d3
	lsr	x27, x26, #32
	orr	w26, w26, w27
	str	w26, [x22]
	mov	x22, x25
	b.lo	.LBB_89cae0_13
	b	.LBB_89cae0_2
.LBB_89cae0_14:
	ldp	x20, x19, [sp, #64]
	ldp	x22, x21, [sp, #48]
	ldp	x24, x23, [sp, #32]
	ldp	x26, x25, [sp, #16]
	ldr	x27, [sp], #80
.LBB_89cae0_15:
	ret
.Lfunc_end_89cae0:
	.size	"pix_raster::view::blit_overlap::<#79e97ac7f662bd7a>", .Lfunc_end_89cae0-"pix_raster::view::blit_overlap::<#79e97ac7f662bd7a>"

	.section	".text.pix_script::pixel::push_cells","ax",@progbits
	.p2align	2
	.type	"pix_script::pixel::push_cells",@function
"pix_script::pixel::push_cells":
	stp	x29, x30, [sp, #-64]!
	str	x23, [sp, #16]
	mov	x23, x0
	add	x2, x2, x2, lsl #3
	stp	x20, x19, [sp, #48]
	mov	x19, x0
	mov	x29, sp
	ldp	x8, x20, [x23, #8]!
	stp	x22, x21, [sp, #32]
	sub	x9, x20, x8
	cmp	x2, x9
	b.hi	.LBB_68e8cf_18
.LBB_68e8cf_1:
	ldr	x21, [x19]
	add	x22, x8, x2
	stp	xzr, xzr, [x23]
	add	x0, x21, x8
	sub	x9, x0, x1
	cmp	x9, x2
	b.hs	.LBB_68e8cf_7
	cmp	x2, #8
	b.lo	.LBB_68e8cf_4
	add	x9, x8, x21
	sub	x9, x9, x1
	cmp	x9, #32
	b.hs	.LBB_68e8cf_9
.LBB_68e8cf_4:
	mov	x9, xzr
.LBB_68e8cf_5:
	add	x10, x9, x8
	sub	x8, x9, x2
	add	x9, x1, x9
	add	x10, x21, x10
.LBB_68e8cf_6:
	ldrb	w11, [x9], #1
	adds	x8, x8, #1
	strb	w11, [x10], #1
	b.lo	.LBB_68e8cf_6
	b	.LBB_68e8cf_8
.LBB_68e8cf_7:
	bl	memmove
.LBB_68e8cf_8:
	mov	w0, wzr
	stp	x21, x22, [x19]
	str	x20, [x19, #16]
	ldp	x20, x19, [sp, #48]
	ldr	x23, [sp, #16]
	ldp	x22, x21, [sp, #32]
	ldp	x29, x30, [sp], #64
	ret
.LBB_68e8cf_9:
	cmp	x2, #32
	b.hs	.LBB_68e8cf_11
	mov	x9, xzr
	b	.LBB_68e8cf_15
.LBB_68e8cf_11:
	add	x12, x8, x21
	and	x10, x2, #0x18
	and	x9, x2, #0xffffffffffffffe0
	add	x11, x1, #16
	add	x12, x12, #16
	and	x13, x2, #0xffffffffffffffe0
.LBB_68e8cf_12:
	ldp	q0, q1, [x11, #-16]
	subs	x13, x13, #32
	add	x11, x11, #32
	stp	q0, q1, [x12, #-16]
	add	x12, x12, #32
	b.ne	.LBB_68e8cf_12
	cmp	x2, x9
	b.eq	.LBB_68e8cf_8
	cbz	x10, .LBB_68e8cf_5
.LBB_68e8cf_15:
	mov	x11, x9
	and	x9, x2, #0xfffffffffffffff8
	add	x12, x8, x11
	sub	x10, x11, x9
	add	x11, x1, x11
	add	x12, x21, x12
.LBB_68e8cf_16:
	ldr	d0, [x11], #8
	adds	x10, x10, #8
	str	d0, [x12], #8
	b.ne	.LBB_68e8cf_16
	cmp	x2, x9
	b.eq	.LBB_68e8cf_8
	b	.LBB_68e8cf_5
.LBB_68e8cf_18:
	mov	x21, x1
	mov	x0, x19
	mov	x1, x2
	mov	x22, x2
	bl	"std_alloc::vec::Vec::grow_amortized::<#ab1bfed030c1db69>"
	cbz	w0, .LBB_68e8cf_20
	ldp	x8, x20, [x19, #8]
	mov	x2, x22
	mov	x1, x21
	b	.LBB_68e8cf_1
.LBB_68e8cf_20:
	mov	w0, #1
	ldp	x20, x19, [sp, #48]
	ldr	x23, [sp, #16]
	ldp	x22, x21, [sp, #32]
	ldp	x29, x30, [sp], #64
	ret
.Lfunc_end_68e8cf:
	.size	"pix_script::pixel::push_cells", .Lfunc_end_68e8cf-"pix_script::pixel::push_cells"

	.section	.rodata.cst16,"aM",@progbits,16
	.p2align	4, 0x0
.LCPI_0d6e40_0:
	.byte	0
	.byte	1
	.byte	2
	.byte	3
	.byte	4
	.byte	5
	.byte	6
	.byte	7
	.byte	8
	.byte	9
	.byte	10
	.byte	11
	.byte	12
	.byte	13
	.byte	14
	.byte	15
.LCPI_0d6e40_1:
	.byte	16
	.byte	17
	.byte	18
	.byte	19
	.byte	20
	.byte	21
	.byte	22
	.byte	23
	.byte	24
	.byte	25
	.byte	26
	.byte	27
	.byte	28
	.byte	29
	.byte	30
	.byte	31
	.section	.rodata.cst8,"aM",@progbits,8
	.p2align	3, 0x0
.LCPI_0d6e40_2:
	.byte	32
	.byte	33
	.byte	34
	.byte	35
	.byte	36
	.byte	37
	.byte	38
	.byte	39
	.section	.text.main,"ax",@progbits
	.globl	main
	.p2align	2
	.type	main,@function
main:
	stp	x29, x30, [sp, #-96]!
	stp	x28, x27, [sp, #16]
	mov	x29, sp
	stp	x26, x25, [sp, #32]
	stp	x24, x23, [sp, #48]
	stp	x22, x21, [sp, #64]
	stp	x20, x19, [sp, #80]
	sub	sp, sp, #3072
	str	xzr, [sp]
	sub	sp, sp, #1440
	add	x28, sp, #1, lsl #12
	mov	w21, #1
	mov	w0, #13
	mov	w1, #1
	str	xzr, [sp]
	add	x28, x28, #128
	movk	w21, #16, lsl #16
	bl	__sysv_signal
	sub	x19, x29, #24
	add	x0, sp, #128
	mov	w1, wzr
	mov	w2, #4096
	stp	xzr, xzr, [x29, #-72]
	add	x20, sp, #128
	stur	x19, [x29, #-80]
	bl	memset
	mov	x23, xzr
	mov	x27, xzr
	add	x22, x20, #16
	b	.LBB_0d6e40_3
.LBB_0d6e40_1:
	add	x0, x19, x27
	add	x1, sp, #128
	mov	x2, x20
	bl	memmove
.LBB_0d6e40_2:
	add	x27, x27, x20
	cmp	x27, x21
	stp	x27, x23, [x29, #-72]
	b.hs	.LBB_0d6e40_219
.LBB_0d6e40_3:
	sub	x8, x21, x27
	mov	w9, #4096
	add	x1, sp, #128
	cmp	x8, #1, lsl #12
	mov	w0, wzr
	csel	x20, x8, x9, lo
	mov	x2, x20
	bl	read
	tbnz	x0, #63, .LBB_0d6e40_23
	cmp	x0, x20
	csel	x20, x0, x20, lo
	cbz	x20, .LBB_0d6e40_27
	sub	x8, x23, x27
	cmp	x20, x8
	b.hi	.LBB_0d6e40_21
	add	x8, x19, x27
	add	x9, sp, #128
	sub	x8, x8, x9
	cmp	x8, x20
	b.hs	.LBB_0d6e40_1
.LBB_0d6e40_7:
	cmp	x20, #8
	b.lo	.LBB_0d6e40_9
	add	x8, sp, #128
	sub	x8, x27, x8
	add	x8, x8, x19
	cmp	x8, #32
	b.hs	.LBB_0d6e40_12
.LBB_0d6e40_9:
	mov	x8, xzr
.LBB_0d6e40_10:
	add	x10, sp, #128
	add	x11, x8, x27
	sub	x9, x20, x8
	add	x8, x10, x8
	add	x10, x19, x11
.LBB_0d6e40_11:
	ldrb	w11, [x8], #1
	subs	x9, x9, #1
	strb	w11, [x10], #1
	b.ne	.LBB_0d6e40_11
	b	.LBB_0d6e40_2
.LBB_0d6e40_12:
	cmp	x20, #32
	b.hs	.LBB_0d6e40_14
	mov	x8, xzr
	b	.LBB_0d6e40_18
.LBB_0d6e40_14:
	add	x10, x19, x27
	and	x9, x20, #0x18
	and	x8, x20, #0x1fe0
	add	x10, x10, #16
	mov	x11, x22
	and	x12, x20, #0x1fe0
.LBB_0d6e40_15:
	ldp	q0, q1, [x11, #-16]
	subs	x12, x12, #32
	add	x11, x11, #32
	stp	q0, q1, [x10, #-16]
	add	x10, x10, #32
	b.ne	.LBB_0d6e40_15
	cmp	x20, x8
	b.eq	.LBB_0d6e40_2
	cbz	x9, .LBB_0d6e40_10
.LBB_0d6e40_18:
	mov	x10, x8
	and	x8, x20, #0x1ff8
	add	x11, sp, #128
	add	x12, x27, x10
	sub	x9, x10, x8
	add	x10, x11, x10
	add	x11, x19, x12
.LBB_0d6e40_19:
	ldr	d0, [x10], #8
	adds	x9, x9, #8
	str	d0, [x11], #8
	b.ne	.LBB_0d6e40_19
	cmp	x20, x8
	b.eq	.LBB_0d6e40_2
	b	.LBB_0d6e40_10
.LBB_0d6e40_21:
	sub	x0, x29, #80
	mov	x1, x20
	bl	"std_alloc::vec::Vec::grow_amortized::<#ab1bfed030c1db69>"
	cbz	w0, .LBB_0d6e40_298
	ldp	x27, x23, [x29, #-72]
	ldur	x19, [x29, #-80]
	add	x8, x19, x27
	add	x9, sp, #128
	sub	x8, x8, x9
	cmp	x8, x20
	b.hs	.LBB_0d6e40_1
	b	.LBB_0d6e40_7
.LBB_0d6e40_23:
	add	x0, sp, #1, lsl #12
	add	x0, x0, #128
	bl	"std_io::io::error::last_error"
	cbz	x23, .LBB_0d6e40_25
	mov	x0, x19
	bl	rattle_dealloc
.LBB_0d6e40_25:
	mov	w21, wzr
	mov	w22, #1
.LBB_0d6e40_26:
	mov	w25, wzr
	mov	x20, xzr
	b	.LBB_0d6e40_253
.LBB_0d6e40_27:
	ldur	x25, [x29, #-80]
	mov	x15, xzr
	sub	x24, x29, #24
	stp	xzr, xzr, [sp, #144]
	stp	x24, xzr, [sp, #128]
	strh	wzr, [sp, #152]
	str	x24, [sp, #4224]
	str	xzr, [sp, #4240]
	stp	x25, x23, [sp, #88]
	str	xzr, [sp, #4232]
.LBB_0d6e40_28:
	mov	x19, x25
.LBB_0d6e40_29:
	mov	x8, xzr
	cbz	x27, .LBB_0d6e40_33
.LBB_0d6e40_30:
	ldrb	w9, [x19, x8]
	cmp	w9, #10
	b.eq	.LBB_0d6e40_33
	add	x8, x8, #1
	cmp	x27, x8
	b.ne	.LBB_0d6e40_30
	add	x20, x20, #1
	mov	w26, #1
	mov	x21, x27
	mov	x25, x19
	stur	wzr, [x29, #-192]
	stur	xzr, [x29, #-200]
	b	.LBB_0d6e40_34
.LBB_0d6e40_33:
	cmp	x8, x27
	add	x9, x19, x8
	add	x20, x20, #1
	csinc	x25, x19, x9, hs
	csinv	x9, xzr, x8, hs
	cset	w26, hs
	csel	x21, x8, x27, lo
	add	x27, x9, x27
	stur	wzr, [x29, #-192]
	stur	xzr, [x29, #-200]
	cbz	x21, .LBB_0d6e40_38
.LBB_0d6e40_34:
	sub	x8, x21, #1
	ldrb	w9, [x19, x8]
	cmp	w9, #13
	b.ne	.LBB_0d6e40_36
	mov	x21, x8
	cbz	x8, .LBB_0d6e40_38
.LBB_0d6e40_36:
	ldrb	w8, [x19]
	cmp	w8, #35
	b.ne	.LBB_0d6e40_38
	mov	x19, x25
	tbz	w26, #0, .LBB_0d6e40_29
	b	.LBB_0d6e40_220
.LBB_0d6e40_38:
	mov	x8, xzr
	mov	w22, wzr
.LBB_0d6e40_39:
	cmp	x8, #0
	add	x10, sp, #1, lsl #12
	add	x10, x10, #128
	csel	x9, xzr, x15, eq
	stp	xzr, xzr, [x10, #8]
.LBB_0d6e40_40:
	mov	x10, x21
	mov	w12, w22
	b	.LBB_0d6e40_42
.LBB_0d6e40_41:
	mvn	x13, x11
	cmp	x11, x10
	add	x14, x23, x11
	add	x13, x10, x13
	cset	w12, hs
	csel	x28, x10, x11, hs
	csel	x21, x10, x13, hs
	csinc	x19, x23, x14, hs
	csinc	w22, w22, wzr, lo
	mov	x10, x21
	cbnz	x28, .LBB_0d6e40_47
.LBB_0d6e40_42:
	tbnz	w12, #0, .LBB_0d6e40_55
	mov	x23, x19
	mov	x11, xzr
	cbz	x10, .LBB_0d6e40_41
.LBB_0d6e40_44:
	ldrb	w12, [x23, x11]
	cmp	w12, #32
	b.eq	.LBB_0d6e40_41
	add	x11, x11, #1
	cmp	x10, x11
	b.ne	.LBB_0d6e40_44
	mov	w22, #1
	mov	x19, x23
	mov	x21, x10
	mov	x28, x10
.LBB_0d6e40_47:
	cmp	x8, x9
	b.eq	.LBB_0d6e40_49
	add	x10, x24, x8, lsl #4
	add	x8, x8, #1
	stp	x23, x28, [x10]
	b	.LBB_0d6e40_40
.LBB_0d6e40_49:
	cmp	x15, x9
	str	x9, [sp, #4232]
	str	x15, [sp, #4240]
	b.eq	.LBB_0d6e40_51
.LBB_0d6e40_50:
	ldr	x24, [sp, #4224]
	add	x8, x9, #1
	add	x10, x24, x9, lsl #4
	stp	x23, x28, [x10]
	str	x8, [sp, #4232]
	b	.LBB_0d6e40_39
.LBB_0d6e40_51:
	add	x0, sp, #1, lsl #12
	mov	w1, #1
	add	x0, x0, #128
	bl	"std_alloc::vec::Vec::grow_amortized::<#c573f30ac4e8249c>"
	ldr	x9, [sp, #4232]
	ldr	x15, [sp, #4240]
	tbnz	w0, #0, .LBB_0d6e40_50
	cmp	x15, x9
	b.ne	.LBB_0d6e40_50
	add	x0, sp, #1, lsl #12
	mov	w1, #1
	add	x0, x0, #128
	bl	"std_alloc::vec::Vec::grow_amortized::<#c573f30ac4e8249c>"
	cbz	w0, .LBB_0d6e40_401
	ldr	x9, [sp, #4232]
	ldr	x15, [sp, #4240]
	b	.LBB_0d6e40_50
.LBB_0d6e40_55:
	ldrb	w19, [sp, #152]
	ldrb	w21, [sp, #153]
	str	x8, [sp, #4232]
	str	x15, [sp, #4240]
	stur	wzr, [x29, #-176]
	stur	xzr, [x29, #-184]
	cbz	x8, .LBB_0d6e40_61
	ldp	x23, x9, [x24]
	stur	xzr, [x29, #-152]
	stur	wzr, [x29, #-144]
	str	x15, [sp, #112]
	cbz	x9, .LBB_0d6e40_245
	str	w19, [sp, #104]
	ldrb	w19, [x23]
	cmp	w19, #35
	b.ne	.LBB_0d6e40_62
	ldr	x24, [sp, #4224]
	ldr	w8, [sp, #104]
	tbz	w8, #0, .LBB_0d6e40_73
	add	x28, sp, #1, lsl #12
	mov	w19, #1
	add	x28, x28, #128
	tbz	w21, #0, .LBB_0d6e40_211
.LBB_0d6e40_60:
	mov	w21, #1
	and	w21, w21, #0x1
	strb	w19, [sp, #152]
	strb	w21, [sp, #153]
	tbz	w26, #0, .LBB_0d6e40_28
	b	.LBB_0d6e40_220
.LBB_0d6e40_61:
	ldr	x24, [sp, #4224]
	add	x28, sp, #1, lsl #12
	add	x28, x28, #128
	strb	w19, [sp, #152]
	strb	w21, [sp, #153]
	tbz	w26, #0, .LBB_0d6e40_28
	b	.LBB_0d6e40_220
.LBB_0d6e40_62:
	cmp	x9, #5
	add	x10, x24, #16
	sub	x8, x8, #1
	str	w21, [sp, #64]
	stur	wzr, [x29, #-128]
	str	x10, [sp, #80]
	str	x8, [sp, #120]
	stur	xzr, [x29, #-136]
	b.eq	.LBB_0d6e40_74
	cmp	x9, #4
	b.ne	.LBB_0d6e40_245
	ldrb	w28, [x23, #1]
	ldrb	w21, [x23, #2]
	cmp	w19, #102
	ldrb	w22, [x23, #3]
	b.ne	.LBB_0d6e40_97
	cmp	w28, #105
	b.ne	.LBB_0d6e40_97
	cmp	w21, #108
	b.ne	.LBB_0d6e40_97
	cmp	w22, #108
	b.ne	.LBB_0d6e40_97
	adrp	x2, .Lstatic.5
	add	x2, x2, :lo12:.Lstatic.5
	mov	x0, x23
	mov	w1, #4
	bl	"core::cmp::slices::groups_equal::<i8,31'core::cmp::numbers::U8PartialEq{}>"
	cbz	w0, .LBB_0d6e40_97
	ldr	x8, [sp, #120]
	stp	xzr, xzr, [x29, #-80]
	stur	wzr, [x29, #-64]
	cmp	x8, #5
	b.ne	.LBB_0d6e40_137
	ldp	x1, x2, [x24, #16]
	sub	x0, x29, #80
	ldp	x3, x4, [x24, #32]
	ldp	x5, x6, [x24, #48]
	ldp	x7, x8, [x24, #64]
	str	x8, [sp]
	bl	"pix_script::parse::region"
	add	x28, sp, #1, lsl #12
	add	x28, x28, #128
	ldrb	w8, [x28, #208]
	cmp	w8, #1
	b.ne	.LBB_0d6e40_144
	ldp	x1, x2, [x24, #80]
	sub	x0, x29, #88
	bl	"pix_script::number::color"
	ldrb	w8, [x28, #200]
	cmp	w8, #1
	b.ne	.LBB_0d6e40_144
	ldur	d0, [x28, #212]
	ldur	w19, [x28, #201]
	mov	w8, #2
	ldur	x23, [x28, #220]
	stur	xzr, [x29, #-48]
	str	q0, [sp, #32]
	str	w8, [sp, #28]
	mov	w8, #1
	stur	wzr, [x29, #-40]
	b	.LBB_0d6e40_146
.LBB_0d6e40_73:
	add	x28, sp, #1, lsl #12
	add	x28, x28, #128
	b	.LBB_0d6e40_207
.LBB_0d6e40_74:
	ldrb	w21, [x23, #1]
	ldrb	w22, [x23, #2]
	cmp	w19, #105
	ldrb	w28, [x23, #3]
	b.ne	.LBB_0d6e40_91
	cmp	w21, #109
	b.ne	.LBB_0d6e40_91
	cmp	w22, #97
	b.ne	.LBB_0d6e40_91
	cmp	w28, #103
	b.ne	.LBB_0d6e40_91
	adrp	x2, .Lstatic.1
	add	x2, x2, :lo12:.Lstatic.1
	mov	x0, x23
	mov	w1, #5
	bl	"core::cmp::slices::groups_equal::<i8,31'core::cmp::numbers::U8PartialEq{}>"
	cbz	w0, .LBB_0d6e40_91
	ldr	x8, [sp, #120]
	cmp	x8, #2
	b.ne	.LBB_0d6e40_136
	ldr	x9, [x24, #24]
	add	x28, sp, #1, lsl #12
	add	x28, x28, #128
	cbz	x9, .LBB_0d6e40_148
	ldr	x10, [x24, #16]
	ldr	x15, [sp, #112]
	mov	x8, xzr
	add	x17, x24, #16
.LBB_0d6e40_82:
	ldrb	w11, [x10], #1
	sub	w11, w11, #48
	cmp	w11, #9
	b.hi	.LBB_0d6e40_147
	mov	w12, #10
	mul	x8, x8, x12
	add	x8, x8, w11, uxtb
	lsr	x11, x8, #31
	cbnz	x11, .LBB_0d6e40_147
	subs	x9, x9, #1
	b.ne	.LBB_0d6e40_82
	ldr	x9, [x24, #40]
	cbz	x9, .LBB_0d6e40_147
	ldr	x10, [x24, #32]
	mov	x11, xzr
.LBB_0d6e40_87:
	ldrb	w12, [x10], #1
	sub	w12, w12, #48
	cmp	w12, #9
	b.hi	.LBB_0d6e40_147
	mov	w13, #10
	mul	x11, x11, x13
	add	x11, x11, w12, uxtb
	lsr	x12, x11, #31
	cbnz	x12, .LBB_0d6e40_147
	subs	x9, x9, #1
	b.ne	.LBB_0d6e40_87
	fmov	s0, w8
	mov	w8, #1
	mov	v0.s[1], w11
	str	q0, [sp, #32]
	b	.LBB_0d6e40_150
.LBB_0d6e40_91:
	cmp	w19, #99
	b.ne	.LBB_0d6e40_104
	cmp	w21, #108
	b.ne	.LBB_0d6e40_104
	cmp	w22, #101
	b.ne	.LBB_0d6e40_104
	cmp	w28, #97
	b.ne	.LBB_0d6e40_104
	adrp	x2, .Lstatic.3
	add	x2, x2, :lo12:.Lstatic.3
	mov	x0, x23
	mov	w1, #5
	bl	"core::cmp::slices::groups_equal::<i8,31'core::cmp::numbers::U8PartialEq{}>"
	cbz	w0, .LBB_0d6e40_104
	mov	w8, #1
	stur	wzr, [x29, #-160]
	b	.LBB_0d6e40_103
.LBB_0d6e40_97:
	cmp	w19, #107
	b.ne	.LBB_0d6e40_114
	cmp	w28, #101
	b.ne	.LBB_0d6e40_114
	cmp	w21, #101
	b.ne	.LBB_0d6e40_114
	cmp	w22, #112
	b.ne	.LBB_0d6e40_114
	adrp	x2, .Lstatic.9
	add	x2, x2, :lo12:.Lstatic.9
	mov	x0, x23
	mov	w1, #4
	bl	"core::cmp::slices::groups_equal::<i8,31'core::cmp::numbers::U8PartialEq{}>"
	cbz	w0, .LBB_0d6e40_114
	stur	wzr, [x29, #-160]
	mov	w8, #4
.LBB_0d6e40_103:
	movi	v0.2d, #0000000000000000
	ldur	w10, [x29, #-160]
	add	x28, sp, #1, lsl #12
	ldr	x15, [sp, #112]
	ldr	w16, [sp, #104]
	ldr	x17, [sp, #80]
	str	w8, [sp, #28]
	mov	w8, wzr
	stur	xzr, [x29, #-168]
	mov	w19, wzr
	mov	x23, xzr
	str	xzr, [sp, #56]
	mov	x24, xzr
	mov	w21, wzr
	str	wzr, [sp, #68]
	mov	w12, wzr
	add	x28, x28, #128
	str	q0, [sp, #32]
	stur	xzr, [x29, #-152]
	stur	w10, [x29, #-144]
	b	.LBB_0d6e40_186
.LBB_0d6e40_104:
	cmp	w19, #112
	b.ne	.LBB_0d6e40_245
	cmp	w21, #97
	b.ne	.LBB_0d6e40_245
	cmp	w22, #105
	b.ne	.LBB_0d6e40_245
	cmp	w28, #110
	b.ne	.LBB_0d6e40_245
	adrp	x2, .Lstatic.7
	add	x2, x2, :lo12:.Lstatic.7
	mov	x0, x23
	mov	w1, #5
	bl	"core::cmp::slices::groups_equal::<i8,31'core::cmp::numbers::U8PartialEq{}>"
	cbz	w0, .LBB_0d6e40_245
	ldr	x8, [sp, #120]
	stp	xzr, xzr, [x29, #-80]
	stur	wzr, [x29, #-64]
	cmp	x8, #6
	b.ne	.LBB_0d6e40_130
	ldp	x0, x1, [x24, #16]
	bl	"pix_ops::ops::Op::from_name"
	add	x28, sp, #1, lsl #12
	add	x28, x28, #128
	tbz	w0, #0, .LBB_0d6e40_131
	mov	w21, w1
	ldp	x1, x2, [x24, #32]
	ldp	x3, x4, [x24, #48]
	sub	x0, x29, #80
	ldp	x5, x6, [x24, #64]
	ldp	x7, x8, [x24, #80]
	str	x8, [sp]
	bl	"pix_script::parse::region"
	ldrb	w8, [x28, #208]
	cmp	w8, #1
	b.ne	.LBB_0d6e40_131
	ldp	x1, x2, [x24, #96]
	sub	x0, x29, #88
	bl	"pix_script::number::color"
	ldrb	w8, [x28, #200]
	cmp	w8, #1
	b.ne	.LBB_0d6e40_131
	ldur	d0, [x28, #212]
	ldur	w19, [x28, #201]
	mov	w8, #3
	ldur	x23, [x28, #220]
	ldr	x15, [sp, #112]
	mov	w11, w21
	ldr	x17, [sp, #80]
	str	q0, [sp, #32]
	stur	xzr, [x29, #-104]
	str	w8, [sp, #28]
	mov	w8, #1
	stur	wzr, [x29, #-96]
	b	.LBB_0d6e40_133
.LBB_0d6e40_114:
	cmp	w19, #99
	mov	w8, #111
	ccmp	w28, w8, #0, eq
	cset	w8, ne
	b.ne	.LBB_0d6e40_122
	cmp	w21, #112
	b.ne	.LBB_0d6e40_122
	cmp	w22, #121
	b.ne	.LBB_0d6e40_122
	adrp	x2, .Lstatic.10
	add	x2, x2, :lo12:.Lstatic.10
	mov	x0, x23
	mov	w1, #4
	bl	"core::cmp::slices::groups_equal::<i8,31'core::cmp::numbers::U8PartialEq{}>"
	cbz	w0, .LBB_0d6e40_245
	ldr	x8, [sp, #120]
	stp	xzr, xzr, [x29, #-80]
	stur	wzr, [x29, #-64]
	cmp	x8, #6
	b.ne	.LBB_0d6e40_134
	ldp	x23, x22, [x24, #80]
	sub	x0, x29, #80
	ldp	x21, x19, [x24, #96]
	ldp	x1, x2, [x24, #16]
	ldp	x3, x4, [x24, #32]
	mov	x5, x23
	mov	x6, x22
	mov	x7, x21
	str	x19, [sp]
	bl	"pix_script::parse::region"
	add	x28, sp, #1, lsl #12
	add	x28, x28, #128
	ldrb	w8, [x28, #208]
	cmp	w8, #1
	b.ne	.LBB_0d6e40_141
	ldp	x1, x2, [x24, #48]
	mov	x7, x21
	ldp	x3, x4, [x24, #64]
	sub	x0, x29, #80
	ldur	d0, [x28, #212]
	ldur	x21, [x28, #220]
	mov	x5, x23
	mov	x6, x22
	str	x19, [sp]
	str	q0, [sp, #32]
	bl	"pix_script::parse::region"
	ldrb	w8, [x28, #208]
	cmp	w8, #1
	b.ne	.LBB_0d6e40_141
	sub	x9, x29, #80
	ldur	w19, [x29, #-76]
	ldr	x15, [sp, #112]
	ldur	x8, [x9, #8]
	ldur	w9, [x9, #16]
	mov	x23, x21
	ldr	x17, [sp, #80]
	stur	w9, [x29, #-112]
	mov	w9, #5
	stur	x8, [x29, #-120]
	mov	w8, #1
	str	w9, [sp, #28]
	b	.LBB_0d6e40_143
.LBB_0d6e40_122:
	cmp	w21, #109
	csinc	w8, w8, wzr, eq
	tbnz	w8, #0, .LBB_0d6e40_245
	cmp	w22, #112
	b.ne	.LBB_0d6e40_245
	adrp	x2, .Lstatic.12
	add	x2, x2, :lo12:.Lstatic.12
	mov	x0, x23
	mov	w1, #4
	bl	"core::cmp::slices::groups_equal::<i8,31'core::cmp::numbers::U8PartialEq{}>"
	cbz	w0, .LBB_0d6e40_245
	ldr	x8, [sp, #120]
	stp	xzr, xzr, [x29, #-80]
	stur	wzr, [x29, #-64]
	cmp	x8, #7
	b.ne	.LBB_0d6e40_135
	ldp	x0, x1, [x24, #16]
	bl	"pix_ops::ops::Op::from_name"
	add	x28, sp, #1, lsl #12
	add	x28, x28, #128
	tbz	w0, #0, .LBB_0d6e40_138
	ldp	x23, x22, [x24, #96]
	sub	x0, x29, #80
	str	w1, [sp, #60]
	ldp	x1, x2, [x24, #32]
	ldp	x3, x4, [x24, #48]
	ldp	x7, x19, [x24, #112]
	mov	x5, x23
	mov	x6, x22
	mov	x21, x7
	str	x19, [sp]
	bl	"pix_script::parse::region"
	ldrb	w8, [x28, #208]
	cmp	w8, #1
	b.ne	.LBB_0d6e40_138
	ldp	x1, x2, [x24, #64]
	mov	x5, x23
	ldp	x3, x4, [x24, #80]
	sub	x0, x29, #80
	ldur	d0, [x28, #212]
	ldur	x23, [x28, #220]
	mov	x6, x22
	mov	x7, x21
	str	x19, [sp]
	str	q0, [sp, #32]
	bl	"pix_script::parse::region"
	ldrb	w8, [x28, #208]
	cmp	w8, #1
	b.ne	.LBB_0d6e40_138
	sub	x9, x29, #80
	ldur	w19, [x29, #-76]
	ldr	x15, [sp, #112]
	ldur	x8, [x9, #8]
	ldur	w9, [x9, #16]
	ldr	x17, [sp, #80]
	ldr	w11, [sp, #60]
	stur	w9, [x29, #-128]
	mov	w9, #6
	stur	x8, [x29, #-136]
	mov	w8, #1
	str	w9, [sp, #28]
	b	.LBB_0d6e40_140
.LBB_0d6e40_130:
	movi	v0.2d, #0000000000000000
	add	x28, sp, #1, lsl #12
	mov	x23, xzr
	mov	w8, wzr
	str	wzr, [sp, #28]
	mov	w11, wzr
	mov	w19, wzr
	stur	wzr, [x29, #-96]
	add	x28, x28, #128
	b	.LBB_0d6e40_132
.LBB_0d6e40_131:
	movi	v0.2d, #0000000000000000
	mov	x23, xzr
	mov	w8, wzr
	mov	w11, wzr
	mov	w19, wzr
	str	wzr, [sp, #28]
	stur	wzr, [x29, #-96]
.LBB_0d6e40_132:
	stur	xzr, [x29, #-104]
	str	q0, [sp, #32]
	ldr	x15, [sp, #112]
	ldr	x17, [sp, #80]
.LBB_0d6e40_133:
	ldur	x9, [x29, #-104]
	ldur	w10, [x29, #-96]
	adrp	x13, .Lstatic.8
	add	x13, x13, :lo12:.Lstatic.8
	str	wzr, [sp, #68]
	mov	w24, #6
	str	wzr, [sp, #56]
	stur	x9, [x29, #-168]
	stur	w10, [x29, #-160]
	b	.LBB_0d6e40_151
.LBB_0d6e40_134:
	movi	v0.2d, #0000000000000000
	add	x28, sp, #1, lsl #12
	mov	x23, xzr
	mov	w19, wzr
	str	wzr, [sp, #28]
	mov	w8, wzr
	stur	wzr, [x29, #-112]
	add	x28, x28, #128
	b	.LBB_0d6e40_142
.LBB_0d6e40_135:
	movi	v0.2d, #0000000000000000
	add	x28, sp, #1, lsl #12
	str	wzr, [sp, #28]
	mov	w11, wzr
	mov	x23, xzr
	mov	w19, wzr
	mov	w8, wzr
	stur	wzr, [x29, #-128]
	add	x28, x28, #128
	b	.LBB_0d6e40_139
.LBB_0d6e40_136:
	movi	v0.2d, #0000000000000000
	add	x28, sp, #1, lsl #12
	mov	w8, wzr
	add	x28, x28, #128
	b	.LBB_0d6e40_149
.LBB_0d6e40_137:
	movi	v0.2d, #0000000000000000
	add	x28, sp, #1, lsl #12
	mov	x23, xzr
	mov	w8, wzr
	str	wzr, [sp, #28]
	mov	w19, wzr
	stur	wzr, [x29, #-40]
	add	x28, x28, #128
	b	.LBB_0d6e40_145
.LBB_0d6e40_138:
	movi	v0.2d, #0000000000000000
	mov	w11, wzr
	mov	x23, xzr
	mov	w19, wzr
	mov	w8, wzr
	str	wzr, [sp, #28]
	stur	wzr, [x29, #-128]
.LBB_0d6e40_139:
	stur	xzr, [x29, #-136]
	str	q0, [sp, #32]
	ldr	x15, [sp, #112]
	ldr	x17, [sp, #80]
.LBB_0d6e40_140:
	ldur	x9, [x29, #-136]
	ldur	w10, [x29, #-128]
	adrp	x13, .Lstatic.13
	add	x13, x13, :lo12:.Lstatic.13
	mov	w24, #7
	str	wzr, [sp, #68]
	stur	x9, [x29, #-168]
	mov	w9, #1
	str	w9, [sp, #56]
	stur	w10, [x29, #-160]
	b	.LBB_0d6e40_151
.LBB_0d6e40_141:
	movi	v0.2d, #0000000000000000
	mov	x23, xzr
	mov	w19, wzr
	mov	w8, wzr
	str	wzr, [sp, #28]
	stur	wzr, [x29, #-112]
.LBB_0d6e40_142:
	stur	xzr, [x29, #-120]
	str	q0, [sp, #32]
	ldr	x15, [sp, #112]
	ldr	x17, [sp, #80]
.LBB_0d6e40_143:
	ldur	x9, [x29, #-120]
	ldur	w10, [x29, #-112]
	mov	w11, wzr
	str	wzr, [sp, #68]
	adrp	x13, .Lstatic.11
	add	x13, x13, :lo12:.Lstatic.11
	stur	x9, [x29, #-168]
	mov	w9, #1
	mov	w24, #6
	str	w9, [sp, #56]
	stur	w10, [x29, #-160]
	b	.LBB_0d6e40_151
.LBB_0d6e40_144:
	movi	v0.2d, #0000000000000000
	mov	x23, xzr
	mov	w8, wzr
	mov	w19, wzr
	str	wzr, [sp, #28]
	stur	wzr, [x29, #-40]
.LBB_0d6e40_145:
	stur	xzr, [x29, #-48]
	str	q0, [sp, #32]
.LBB_0d6e40_146:
	ldur	x9, [x29, #-48]
	ldur	w10, [x29, #-40]
	mov	w11, wzr
	ldr	x15, [sp, #112]
	ldr	x17, [sp, #80]
	adrp	x13, .Lstatic.6
	add	x13, x13, :lo12:.Lstatic.6
	str	wzr, [sp, #68]
	mov	w24, #5
	str	wzr, [sp, #56]
	stur	x9, [x29, #-168]
	stur	w10, [x29, #-160]
	b	.LBB_0d6e40_151
.LBB_0d6e40_147:
	movi	v0.2d, #0000000000000000
	mov	w8, wzr
	str	q0, [sp, #32]
	b	.LBB_0d6e40_150
.LBB_0d6e40_148:
	movi	v0.2d, #0000000000000000
	mov	w8, wzr
.LBB_0d6e40_149:
	str	q0, [sp, #32]
	ldr	x15, [sp, #112]
	ldr	x17, [sp, #80]
.LBB_0d6e40_150:
	mov	w9, #1
	str	wzr, [sp, #56]
	mov	w11, wzr
	str	wzr, [sp, #28]
	mov	x23, xzr
	mov	w19, wzr
	stur	wzr, [x29, #-160]
	adrp	x13, .Lstatic.2
	add	x13, x13, :lo12:.Lstatic.2
	stur	xzr, [x29, #-168]
	mov	w24, #2
	str	w9, [sp, #68]
.LBB_0d6e40_151:
	ldur	x9, [x29, #-168]
	ldur	w10, [x29, #-160]
	cmp	w8, #1
	str	w11, [sp, #60]
	stur	x9, [x29, #-152]
	stur	w10, [x29, #-144]
	b.ne	.LBB_0d6e40_153
	ldr	w16, [sp, #104]
	mov	w8, wzr
	mov	w21, wzr
	mov	w12, wzr
	b	.LBB_0d6e40_186
.LBB_0d6e40_153:
	str	w19, [sp, #24]
	mov	x19, xzr
	mov	w21, wzr
	str	x23, [sp, #16]
	mov	w23, wzr
	str	wzr, [sp, #72]
	str	x13, [sp, #80]
	b	.LBB_0d6e40_157
.LBB_0d6e40_154:
	sub	x0, x29, #80
	mov	x28, x17
	bl	"pix_script::number::color"
	mov	x17, x28
	add	x28, sp, #1, lsl #12
	ldr	x13, [sp, #80]
	add	x28, x28, #128
	ldr	x15, [sp, #112]
	mov	w9, wzr
	ldrb	w8, [x28, #208]
	cmp	w8, #1
	cset	w8, ne
.LBB_0d6e40_155:
	orr	w23, w23, w9
	orr	w21, w21, w8
.LBB_0d6e40_156:
	add	x19, x19, #1
	cmp	x19, x24
	b.eq	.LBB_0d6e40_184
.LBB_0d6e40_157:
	ldr	x8, [sp, #120]
	cmp	x19, x8
	b.hs	.LBB_0d6e40_156
	add	x9, x17, x19, lsl #4
	ldrb	w8, [x13, x19]
	ldp	x1, x2, [x9]
	cmp	w8, #1
	b.gt	.LBB_0d6e40_161
	cbnz	w8, .LBB_0d6e40_167
	mov	x0, x1
	mov	x1, x2
	mov	x28, x17
	bl	"pix_ops::ops::Op::from_name"
	and	w9, w0, #0xff
	ldr	x13, [sp, #80]
	ldr	x15, [sp, #112]
	cmp	w9, #1
	mov	w8, wzr
	mov	x17, x28
	cset	w9, ne
	b	.LBB_0d6e40_176
.LBB_0d6e40_161:
	cmp	w8, #2
	b.ne	.LBB_0d6e40_154
	cbz	x2, .LBB_0d6e40_182
	mov	x8, xzr
.LBB_0d6e40_164:
	ldrb	w9, [x1], #1
	sub	w9, w9, #48
	cmp	w9, #9
	b.hi	.LBB_0d6e40_182
	mov	w10, #10
	mul	x8, x8, x10
	add	x8, x8, w9, uxtb
	lsr	x9, x8, #31
	cbnz	x9, .LBB_0d6e40_182
	subs	x2, x2, #1
	b.ne	.LBB_0d6e40_164
	b	.LBB_0d6e40_181
.LBB_0d6e40_167:
	cbz	x2, .LBB_0d6e40_175
	ldrb	w8, [x1]
	cmp	w8, #45
	b.ne	.LBB_0d6e40_177
	add	x28, sp, #1, lsl #12
	subs	x8, x2, #1
	add	x28, x28, #128
	b.eq	.LBB_0d6e40_183
	mov	x10, xzr
	add	x9, x1, #1
.LBB_0d6e40_171:
	ldrb	w11, [x9], #1
	sub	w11, w11, #48
	cmp	w11, #9
	b.hi	.LBB_0d6e40_182
	mov	w12, #10
	mul	x10, x10, x12
	add	x10, x10, w11, uxtb
	mov	w11, #-2147483648
	cmp	x10, x11
	b.hi	.LBB_0d6e40_182
	subs	x8, x8, #1
	b.ne	.LBB_0d6e40_171
	mov	w9, wzr
	b	.LBB_0d6e40_155
.LBB_0d6e40_175:
	mov	w8, wzr
	mov	w9, wzr
	mov	w10, #1
	str	w10, [sp, #72]
.LBB_0d6e40_176:
	add	x28, sp, #1, lsl #12
	add	x28, x28, #128
	b	.LBB_0d6e40_155
.LBB_0d6e40_177:
	add	x28, sp, #1, lsl #12
	mov	x8, xzr
	add	x28, x28, #128
.LBB_0d6e40_178:
	ldrb	w9, [x1], #1
	sub	w9, w9, #48
	cmp	w9, #9
	b.hi	.LBB_0d6e40_182
	mov	w10, #10
	mul	x8, x8, x10
	add	x8, x8, w9, uxtb
	lsr	x9, x8, #31
	cbnz	x9, .LBB_0d6e40_182
	subs	x2, x2, #1
	b.ne	.LBB_0d6e40_178
.LBB_0d6e40_181:
	mov	w8, wzr
	mov	w9, wzr
	b	.LBB_0d6e40_155
.LBB_0d6e40_182:
	mov	w8, wzr
.LBB_0d6e40_183:
	mov	w10, #1
	mov	w9, wzr
	str	w10, [sp, #72]
	b	.LBB_0d6e40_155
.LBB_0d6e40_184:
	ldr	w16, [sp, #104]
	ldr	w19, [sp, #24]
	tbnz	w23, #0, .LBB_0d6e40_390
	ldr	x23, [sp, #16]
	ldr	w12, [sp, #72]
	mov	w8, #1
.LBB_0d6e40_186:
	ldr	x9, [sp, #120]
	cmp	x9, x24
	b.ne	.LBB_0d6e40_366
	ldr	w11, [sp, #68]
	and	w9, w16, #0x1
	orr	w9, w11, w9
	cbz	w9, .LBB_0d6e40_367
	and	w9, w11, w16
	orr	w10, w12, w21
	orr	w10, w9, w10
	tbnz	w10, #0, .LBB_0d6e40_369
	cbz	w11, .LBB_0d6e40_198
	ldr	x9, [sp, #120]
	cbz	x9, .LBB_0d6e40_198
	mov	x9, xzr
	b	.LBB_0d6e40_193
.LBB_0d6e40_192:
	ldr	x10, [sp, #120]
	add	x9, x9, #1
	cmp	x9, x10
	b.eq	.LBB_0d6e40_198
.LBB_0d6e40_193:
	add	x11, x17, x9, lsl #4
	ldr	x10, [x11, #8]
	cbz	x10, .LBB_0d6e40_192
	ldr	x11, [x11]
	mov	x12, xzr
.LBB_0d6e40_195:
	mov	w13, #10
	mul	x12, x12, x13
	ldrb	w13, [x11], #1
	sub	w13, w13, #48
	cmp	w13, #9
	add	x12, x12, w13, uxtb
	lsr	x14, x12, #31
	ccmp	x14, #0, #0, ls
	b.ne	.LBB_0d6e40_192
	subs	x10, x10, #1
	b.ne	.LBB_0d6e40_195
	cmp	x12, #1024
	b.ls	.LBB_0d6e40_192
	b	.LBB_0d6e40_307
.LBB_0d6e40_198:
	ldr	w21, [sp, #64]
	tbnz	w21, #0, .LBB_0d6e40_200
	ldr	w9, [sp, #56]
	eor	w9, w9, #0x1
	tbz	w9, #0, .LBB_0d6e40_370
.LBB_0d6e40_200:
	ldur	x9, [x29, #-152]
	ldur	w10, [x29, #-144]
	stur	x9, [x29, #-200]
	stur	w10, [x29, #-192]
	tbz	w8, #0, .LBB_0d6e40_203
	ldr	x24, [sp, #4224]
	tbz	w16, #0, .LBB_0d6e40_207
	mov	w19, #1
	tbnz	w21, #0, .LBB_0d6e40_60
	b	.LBB_0d6e40_211
.LBB_0d6e40_203:
	ldp	x8, x9, [sp, #136]
	cmp	x9, x8
	b.eq	.LBB_0d6e40_217
.LBB_0d6e40_204:
	mov	w9, #36
	ldr	x10, [sp, #128]
	ldr	q0, [sp, #32]
	madd	x9, x8, x9, x10
	ldr	w10, [sp, #28]
	ldur	w11, [x29, #-192]
	add	x8, x8, #1
	strb	w10, [x9]
	ldr	w10, [sp, #60]
	stur	d0, [x9, #4]
	strb	w10, [x9, #1]
	ldur	x10, [x29, #-200]
	stur	x23, [x9, #12]
	str	w19, [x9, #20]
	str	x10, [x9, #24]
	str	w11, [x9, #32]
	ldr	x24, [sp, #4224]
	str	x8, [sp, #136]
	tbz	w16, #0, .LBB_0d6e40_206
	ldr	x15, [sp, #112]
	mov	w19, #1
	tbnz	w21, #0, .LBB_0d6e40_60
	b	.LBB_0d6e40_211
.LBB_0d6e40_206:
	ldr	x15, [sp, #112]
.LBB_0d6e40_207:
	ldr	x8, [x24, #8]
	cmp	x8, #5
	b.ne	.LBB_0d6e40_210
	ldr	x0, [x24]
	mov	w9, #28009
	movk	w9, #26465, lsl #16
	ldr	w8, [x0]
	cmp	w8, w9
	b.ne	.LBB_0d6e40_215
	adrp	x2, .Lstatic.1
	add	x2, x2, :lo12:.Lstatic.1
	mov	w1, #5
	bl	"core::cmp::slices::groups_equal::<i8,31'core::cmp::numbers::U8PartialEq{}>"
	ldr	x15, [sp, #112]
	and	w21, w21, #0x1
	strb	w0, [sp, #152]
	strb	w21, [sp, #153]
	tbz	w26, #0, .LBB_0d6e40_28
	b	.LBB_0d6e40_220
.LBB_0d6e40_210:
	mov	w19, wzr
	tbnz	w21, #0, .LBB_0d6e40_60
.LBB_0d6e40_211:
	ldr	x8, [x24, #8]
	cmp	x8, #4
	b.ne	.LBB_0d6e40_214
	ldr	x0, [x24]
	mov	w9, #25963
	movk	w9, #28773, lsl #16
	ldr	w8, [x0]
	cmp	w8, w9
	b.ne	.LBB_0d6e40_216
	adrp	x2, .Lstatic.9
	add	x2, x2, :lo12:.Lstatic.9
	mov	w1, #4
	bl	"core::cmp::slices::groups_equal::<i8,31'core::cmp::numbers::U8PartialEq{}>"
	ldr	x15, [sp, #112]
	and	w21, w0, #0x1
	strb	w19, [sp, #152]
	strb	w21, [sp, #153]
	tbz	w26, #0, .LBB_0d6e40_28
	b	.LBB_0d6e40_220
.LBB_0d6e40_214:
	and	w21, wzr, #0x1
	strb	w19, [sp, #152]
	strb	w21, [sp, #153]
	tbz	w26, #0, .LBB_0d6e40_28
	b	.LBB_0d6e40_220
.LBB_0d6e40_215:
	ldr	x15, [sp, #112]
	mov	w19, wzr
	tbnz	w21, #0, .LBB_0d6e40_60
	b	.LBB_0d6e40_211
.LBB_0d6e40_216:
	ldr	x15, [sp, #112]
	and	w21, wzr, #0x1
	strb	w19, [sp, #152]
	strb	w21, [sp, #153]
	tbz	w26, #0, .LBB_0d6e40_28
	b	.LBB_0d6e40_220
.LBB_0d6e40_217:
	add	x0, sp, #128
	bl	"std_alloc::vec::Vec::grow_amortized::<#cdd50f0e5dac12a4>"
	cbz	w0, .LBB_0d6e40_400
	ldr	x8, [sp, #136]
	ldrb	w21, [sp, #153]
	ldrb	w16, [sp, #152]
	b	.LBB_0d6e40_204
.LBB_0d6e40_219:
	ldur	x26, [x29, #-80]
	mov	x25, xzr
	mov	x20, xzr
	mov	w24, #2
	mov	w19, wzr
	mov	w22, wzr
	and	w21, w24, #0xff
	cbnz	x23, .LBB_0d6e40_250
	b	.LBB_0d6e40_251
.LBB_0d6e40_220:
	ldp	x21, x23, [sp, #128]
	ldr	x19, [sp, #144]
	cbz	x15, .LBB_0d6e40_222
	mov	x0, x24
	bl	rattle_dealloc
.LBB_0d6e40_222:
	cbz	x23, .LBB_0d6e40_224
	ldrb	w8, [x21]
	cbz	w8, .LBB_0d6e40_238
.LBB_0d6e40_224:
	mov	x20, xzr
	mov	x25, xzr
	mov	w22, #1
	sub	x24, x29, #24
.LBB_0d6e40_225:
	cbz	x19, .LBB_0d6e40_227
	mov	x0, x21
	bl	rattle_dealloc
.LBB_0d6e40_227:
	ldp	x26, x23, [sp, #88]
	cbz	w22, .LBB_0d6e40_249
	mov	w19, #1
	mov	x21, x24
	b	.LBB_0d6e40_232
.LBB_0d6e40_229:
	cbz	x0, .LBB_0d6e40_236
	cmp	x0, x20
	csel	x8, x0, x20, lo
	add	x21, x21, x8
	sub	x20, x20, x8
.LBB_0d6e40_231:
	adds	x19, x19, #1
	b.hs	.LBB_0d6e40_236
.LBB_0d6e40_232:
	cbz	x20, .LBB_0d6e40_242
	mov	w0, #1
	mov	x1, x21
	mov	x2, x20
	bl	write
	tbz	x0, #63, .LBB_0d6e40_229
	add	x0, sp, #128
	add	x22, sp, #128
	bl	"std_io::io::error::last_error"
	adrp	x9, .LCPI_0d6e40_0
	ldr	x8, [sp, #128]
	adrp	x10, .LCPI_0d6e40_1
	ldr	q0, [x9, :lo12:.LCPI_0d6e40_0]
	adrp	x9, .LCPI_0d6e40_2
	ldr	q1, [x10, :lo12:.LCPI_0d6e40_1]
	ldr	d2, [x9, :lo12:.LCPI_0d6e40_2]
	ubfx	w9, w8, #8, #8
	mov	w10, #40
	stp	q0, q1, [sp, #128]
	cmp	w9, #41
	str	d2, [sp, #160]
	strb	w10, [sp, #168]
	b.hs	.LBB_0d6e40_236
	ubfx	x8, x8, #8, #6
	ldrb	w8, [x22, x8]
	cmp	w8, #35
	b.eq	.LBB_0d6e40_231
.LBB_0d6e40_236:
	cbz	x25, .LBB_0d6e40_244
	mov	x0, x24
	bl	rattle_dealloc
	mov	w19, wzr
	mov	w21, wzr
	mov	x20, xzr
	mov	w25, wzr
	mov	w22, #2
	cbnz	x23, .LBB_0d6e40_250
	b	.LBB_0d6e40_251
.LBB_0d6e40_238:
	ldr	w26, [x21, #4]
	mov	x20, xzr
	mov	w22, wzr
	mov	w24, #1
	tbnz	w26, #31, .LBB_0d6e40_301
	ldr	w12, [x21, #8]
	mov	x25, x20
	tbnz	w12, #31, .LBB_0d6e40_225
	umull	x9, w12, w26
	lsr	x8, x9, #31
	cbz	x8, .LBB_0d6e40_302
.LBB_0d6e40_241:
	mov	w22, wzr
	mov	x20, xzr
	mov	x25, xzr
	mov	w24, #1
	b	.LBB_0d6e40_225
.LBB_0d6e40_242:
	cbz	x25, .LBB_0d6e40_305
	mov	x0, x24
	bl	rattle_dealloc
	mov	w22, wzr
	mov	w21, wzr
	mov	x20, xzr
	mov	w25, wzr
	b	.LBB_0d6e40_306
.LBB_0d6e40_244:
	mov	w19, wzr
	mov	w21, wzr
	mov	x20, xzr
	mov	w22, #2
	cbnz	x23, .LBB_0d6e40_250
	b	.LBB_0d6e40_251
.LBB_0d6e40_245:
	ldr	x15, [sp, #112]
	mov	w25, #2
	mov	x24, xzr
	ldp	x26, x23, [sp, #88]
	cbz	x15, .LBB_0d6e40_247
.LBB_0d6e40_246:
	ldr	x0, [sp, #4224]
	bl	rattle_dealloc
.LBB_0d6e40_247:
	ldr	x8, [sp, #144]
	add	x28, sp, #1, lsl #12
	add	x28, x28, #128
	cbz	x8, .LBB_0d6e40_249
	ldr	x0, [sp, #128]
	bl	rattle_dealloc
.LBB_0d6e40_249:
	mov	w19, wzr
	mov	w22, wzr
	and	w21, w24, #0xff
	cbz	x23, .LBB_0d6e40_251
.LBB_0d6e40_250:
	mov	x0, x26
	bl	rattle_dealloc
.LBB_0d6e40_251:
	tbz	w19, #0, .LBB_0d6e40_253
	mov	w0, wzr
	b	.LBB_0d6e40_292
.LBB_0d6e40_253:
	movi	v0.2d, #0000000000000000
	cmp	w22, #2
	str	xzr, [sp, #4288]
	str	q0, [sp, #4272]
	str	q0, [sp, #4256]
	str	q0, [sp, #4240]
	str	q0, [sp, #4224]
	b.eq	.LBB_0d6e40_256
	cmp	w22, #1
	b.ne	.LBB_0d6e40_257
	adrp	x9, .Lstatic.32
	add	x9, x9, :lo12:.Lstatic.32
	mov	w8, #27753
	ldr	x9, [x9]
	movk	w8, #25701, lsl #16
	mov	w23, #11
	stur	w8, [x28, #7]
	str	x9, [sp, #4224]
	b	.LBB_0d6e40_261
.LBB_0d6e40_256:
	adrp	x9, .Lstatic.33
	add	x9, x9, :lo12:.Lstatic.33
	mov	w8, #27753
	ldr	x9, [x9]
	movk	w8, #25701, lsl #16
	mov	w23, #12
	str	w8, [sp, #4232]
	str	x9, [sp, #4224]
	b	.LBB_0d6e40_261
.LBB_0d6e40_257:
	cmp	w21, #2
	b.eq	.LBB_0d6e40_260
	cmp	w21, #1
	b.ne	.LBB_0d6e40_275
	adrp	x8, .Lstatic.36
	add	x8, x8, :lo12:.Lstatic.36
	mov	w23, #13
	ldr	x9, [x8]
	ldur	x8, [x8, #5]
	str	x9, [sp, #4224]
	stur	x8, [x28, #5]
	b	.LBB_0d6e40_261
.LBB_0d6e40_260:
	adrp	x8, .Lstatic.37
	add	x8, x8, :lo12:.Lstatic.37
	mov	w23, #14
	ldr	x9, [x8]
	ldur	x8, [x8, #6]
	str	x9, [sp, #4224]
	stur	x8, [x28, #6]
.LBB_0d6e40_261:
	adrp	x8, .Lstatic.31
	add	x8, x8, :lo12:.Lstatic.31
	mov	w20, #2
.LBB_0d6e40_262:
	cmp	x23, #64
	mov	w9, #64
	csel	x24, x23, x9, lo
	add	x9, sp, #1, lsl #12
	cset	w19, lo
	add	x9, x9, #128
	add	x0, x9, x24
	sub	x10, x0, x8
	cmp	x10, x19
	b.hs	.LBB_0d6e40_265
	ldrb	w10, [x8]
	add	x20, x20, #1
	strb	w10, [x9, x24]
	add	x9, x24, #1
	cmp	x20, #1
	str	x9, [sp, #4288]
	b.eq	.LBB_0d6e40_291
	cmp	x23, #64
	add	x8, x8, x19
	mov	x23, x9
	b.hs	.LBB_0d6e40_262
	b	.LBB_0d6e40_267
.LBB_0d6e40_265:
	mov	w1, #10
	mov	x2, x19
	bl	memset
	add	x9, x24, x19
	cmp	x23, #63
	str	x9, [sp, #4288]
	b.hi	.LBB_0d6e40_291
	cbz	x20, .LBB_0d6e40_291
.LBB_0d6e40_267:
	cmp	x9, #64
	mov	w8, #64
	mov	x20, xzr
	csel	x23, x9, x8, lo
	mov	x24, #-1
	b	.LBB_0d6e40_271
.LBB_0d6e40_268:
	cbz	x0, .LBB_0d6e40_291
	cmp	x0, x19
	csel	x8, x0, x19, lo
	add	x20, x8, x20
.LBB_0d6e40_270:
	subs	x24, x24, #1
	b.eq	.LBB_0d6e40_291
.LBB_0d6e40_271:
	subs	x19, x23, x20
	b.eq	.LBB_0d6e40_291
	add	x8, sp, #1, lsl #12
	mov	w0, #2
	mov	x2, x19
	add	x8, x8, #128
	add	x1, x8, x20
	bl	write
	tbz	x0, #63, .LBB_0d6e40_268
	add	x0, sp, #128
	add	x19, sp, #128
	bl	"std_io::io::error::last_error"
	adrp	x9, .LCPI_0d6e40_0
	ldr	x8, [sp, #128]
	adrp	x10, .LCPI_0d6e40_1
	ldr	q0, [x9, :lo12:.LCPI_0d6e40_0]
	adrp	x9, .LCPI_0d6e40_2
	ldr	q1, [x10, :lo12:.LCPI_0d6e40_1]
	ldr	d2, [x9, :lo12:.LCPI_0d6e40_2]
	ubfx	w9, w8, #8, #8
	mov	w10, #40
	stp	q0, q1, [sp, #128]
	cmp	w9, #41
	str	d2, [sp, #160]
	strb	w10, [sp, #168]
	b.hs	.LBB_0d6e40_291
	ubfx	x8, x8, #8, #6
	ldrb	w8, [x19, x8]
	cmp	w8, #35
	b.eq	.LBB_0d6e40_270
	b	.LBB_0d6e40_291
.LBB_0d6e40_275:
	mov	w9, #26988
	mov	w8, #32
	cmp	x20, #100
	movk	w9, #25966, lsl #16
	strb	w8, [x28, #4]
	str	w9, [sp, #4224]
	stp	xzr, xzr, [sp, #128]
	str	xzr, [sp, #144]
	b.lo	.LBB_0d6e40_284
	mov	x8, xzr
.LBB_0d6e40_277:
	mov	x11, #62915
	lsr	x10, x20, #2
	mov	x9, x20
	movk	x11, #23592, lsl #16
	movk	x11, #49807, lsl #32
	movk	x11, #10485, lsl #48
	umulh	x10, x10, x11
	mov	w11, #205
	lsr	x20, x10, #2
	mov	w10, #100
	msub	w10, w20, w10, w9
	lsr	x9, x9, #4
	cmp	x9, #624
	and	w12, w10, #0xff
	mul	w11, w12, w11
	mov	w12, #10
	lsr	w11, w11, #11
	msub	w10, w11, w12, w10
	add	x12, sp, #128
	orr	w9, w11, #0x30
	add	x12, x12, x8
	sub	x8, x8, #2
	strb	w9, [x12, #22]
	orr	w10, w10, #0x30
	strb	w10, [x12, #23]
	b.hi	.LBB_0d6e40_277
	add	x8, x8, #24
	cmp	x20, #10
	b.hs	.LBB_0d6e40_285
.LBB_0d6e40_279:
	sub	x8, x8, #1
	add	x9, sp, #128
	orr	w10, w20, #0x30
	strb	w10, [x9, x8]
	add	x9, sp, #128
	cmp	x8, #24
	add	x19, x9, x8
	mov	w9, #45
	sturb	w9, [x19, #-1]
	b.eq	.LBB_0d6e40_286
.LBB_0d6e40_280:
	mov	w9, #24
	mov	w23, #5
	sub	x24, x9, x8
	mov	w8, #2
.LBB_0d6e40_281:
	cbz	x24, .LBB_0d6e40_287
	mov	x26, x8
	cmp	x23, #64
	mov	w8, #64
	csel	x27, x23, x8, lo
	add	x9, sp, #1, lsl #12
	mov	x1, x19
	sub	x8, x8, x27
	add	x9, x9, #128
	cmp	x8, x24
	add	x0, x9, x27
	csel	x20, x8, x24, lo
	sub	x28, x0, x19
	mov	x2, x20
	bl	memcpy
	cmp	x28, x20
	mov	w8, #63
	ccmp	x23, x8, #0, hs
	b.hi	.LBB_0d6e40_291
	sub	x24, x24, x20
	add	x23, x20, x27
	add	x19, x19, x20
	add	x8, x26, #1
	cbnz	x26, .LBB_0d6e40_281
	b	.LBB_0d6e40_291
.LBB_0d6e40_284:
	mov	w8, #24
	cmp	x20, #10
	b.lo	.LBB_0d6e40_279
.LBB_0d6e40_285:
	and	w9, w20, #0xff
	mov	w10, #205
	add	x11, sp, #128
	mul	w9, w9, w10
	mov	w10, #10
	add	x11, x11, x8
	sub	x8, x8, #2
	lsr	w9, w9, #11
	msub	w10, w9, w10, w20
	orr	w9, w9, #0x30
	sturb	w9, [x11, #-2]
	orr	w10, w10, #0x30
	sturb	w10, [x11, #-1]
	add	x9, sp, #128
	cmp	x8, #24
	add	x19, x9, x8
	mov	w9, #45
	sturb	w9, [x19, #-1]
	b.ne	.LBB_0d6e40_280
.LBB_0d6e40_286:
	mov	w23, #5
.LBB_0d6e40_287:
	adrp	x19, .Lstatic.35
	add	x19, x19, :lo12:.Lstatic.35
	mov	w8, #2
	mov	w24, #2
.LBB_0d6e40_288:
	cbz	x24, .LBB_0d6e40_293
	mov	x26, x8
	cmp	x23, #64
	mov	w8, #64
	csel	x27, x23, x8, lo
	add	x9, sp, #1, lsl #12
	mov	x1, x19
	sub	x8, x8, x27
	add	x9, x9, #128
	cmp	x8, x24
	add	x0, x9, x27
	csel	x20, x8, x24, lo
	sub	x28, x0, x19
	mov	x2, x20
	bl	memcpy
	cmp	x23, #63
	ccmp	x28, x20, #0, hi
	b.hs	.LBB_0d6e40_291
	sub	x24, x24, x20
	add	x23, x20, x27
	add	x19, x19, x20
	add	x8, x26, #1
	cbnz	x26, .LBB_0d6e40_288
.LBB_0d6e40_291:
	cmp	w21, #1
	mov	w8, #1
	mov	w9, #3
	cinc	w8, w8, eq
	cmp	w22, #0
	csel	w0, w8, w9, eq
.LBB_0d6e40_292:
	add	sp, sp, #1, lsl #12
	add	sp, sp, #416
	ldp	x20, x19, [sp, #80]
	ldp	x22, x21, [sp, #64]
	ldp	x24, x23, [sp, #48]
	ldp	x26, x25, [sp, #32]
	ldp	x28, x27, [sp, #16]
	ldp	x29, x30, [sp], #96
	ret
.LBB_0d6e40_293:
	and	x8, x25, #0xff
	adrp	x9, .Lswitch.table.main.299.rel
	add	x9, x9, :lo12:.Lswitch.table.main.299.rel
	ldrsw	x10, [x9, x8, lsl #2]
	adrp	x11, .Lswitch.table.main
	add	x11, x11, :lo12:.Lswitch.table.main
	ldr	x24, [x11, x8, lsl #3]
	mov	w25, #2
	add	x19, x9, x10
.LBB_0d6e40_294:
	cmp	x23, #64
	mov	w8, #64
	add	x9, sp, #1, lsl #12
	csel	x26, x23, x8, lo
	add	x9, x9, #128
	mov	x1, x19
	sub	x8, x8, x26
	add	x0, x9, x26
	cmp	x8, x24
	sub	x27, x0, x19
	csel	x20, x8, x24, lo
	mov	x2, x20
	bl	memcpy
	cmp	x27, x20
	b.lo	.LBB_0d6e40_296
	cmp	x23, #63
	b.hi	.LBB_0d6e40_291
.LBB_0d6e40_296:
	cbz	x25, .LBB_0d6e40_291
	subs	x24, x24, x20
	add	x23, x20, x26
	add	x19, x19, x20
	add	x25, x25, #1
	b.ne	.LBB_0d6e40_294
	b	.LBB_0d6e40_261
.LBB_0d6e40_298:
	ldur	x8, [x29, #-64]
	cbz	x8, .LBB_0d6e40_300
	ldur	x0, [x29, #-80]
	bl	rattle_dealloc
.LBB_0d6e40_300:
	mov	w22, wzr
	mov	w21, #1
	b	.LBB_0d6e40_26
.LBB_0d6e40_301:
	mov	x25, x20
	b	.LBB_0d6e40_225
.LBB_0d6e40_302:
	lsl	x0, x9, #2
	sub	x20, x29, #24
	stp	x9, x12, [sp, #112]
	cbz	x9, .LBB_0d6e40_308
	mov	w1, #1
	mov	w24, #1
	mov	x27, x0
	bl	rattle_alloc
	tbz	w0, #0, .LBB_0d6e40_368
	mov	x22, x1
	mov	x0, x1
	mov	w1, wzr
	mov	x2, x27
	bl	memset
	ldr	x12, [sp, #120]
	mov	x0, x27
	b	.LBB_0d6e40_309
.LBB_0d6e40_305:
	mov	w22, wzr
	mov	w21, wzr
	mov	x20, xzr
.LBB_0d6e40_306:
	mov	w19, #1
	cbnz	x23, .LBB_0d6e40_250
	b	.LBB_0d6e40_251
.LBB_0d6e40_307:
	mov	w25, #6
	mov	x24, xzr
	ldp	x26, x23, [sp, #88]
	cbnz	x15, .LBB_0d6e40_246
	b	.LBB_0d6e40_247
.LBB_0d6e40_308:
	sub	x22, x29, #24
.LBB_0d6e40_309:
	sub	x27, x23, #1
	ldr	x23, [sp, #112]
	stp	xzr, x20, [x29, #-80]
	stp	xzr, xzr, [x29, #-64]
	cbz	x27, .LBB_0d6e40_363
	add	x9, sp, #128
	mov	w8, wzr
	mov	w25, wzr
	orr	x9, x9, #0x4
	mov	x20, xzr
	add	x13, x21, #36
	str	x9, [sp, #104]
	and	x9, x23, #0x7ffffff8
	stp	x9, x0, [sp, #72]
	b	.LBB_0d6e40_314
.LBB_0d6e40_311:
	mov	x1, x22
	bl	memmove
	ldr	x12, [sp, #120]
	add	x13, x21, #36
.LBB_0d6e40_312:
	mov	w8, #1
.LBB_0d6e40_313:
	add	x20, x20, #1
	cmp	x20, x27
	b.eq	.LBB_0d6e40_361
.LBB_0d6e40_314:
	mov	w9, #36
	madd	x24, x20, x9, x13
	ldrb	w9, [x24]
	cmp	w9, #4
	b.ne	.LBB_0d6e40_326
	tbnz	w8, #0, .LBB_0d6e40_312
	ldur	w8, [x29, #-80]
	cmp	w8, w26
	b.ne	.LBB_0d6e40_332
	ldur	w8, [x29, #-76]
	cmp	w8, w12
	b.ne	.LBB_0d6e40_332
	ldur	x0, [x29, #-72]
	ldr	x2, [sp, #80]
	sub	x9, x0, x22
	cmp	x9, x2
	b.hs	.LBB_0d6e40_311
	cmp	x23, #8
	mov	x8, xzr
	b.lo	.LBB_0d6e40_324
	cmp	x9, #32
	b.lo	.LBB_0d6e40_324
	add	x8, x0, #16
	add	x9, x22, #16
	and	x10, x23, #0x7ffffff8
.LBB_0d6e40_322:
	ldp	q0, q1, [x9, #-16]
	subs	x10, x10, #8
	add	x9, x9, #32
	stp	q0, q1, [x8, #-16]
	add	x8, x8, #32
	b.ne	.LBB_0d6e40_322
	ldr	x8, [sp, #72]
	cmp	x23, x8
	and	x8, x23, #0x7ffffff8
	b.eq	.LBB_0d6e40_312
.LBB_0d6e40_324:
	lsl	x10, x8, #2
	sub	x8, x23, x8
	add	x9, x22, x10
	add	x10, x0, x10
.LBB_0d6e40_325:
	ldr	w11, [x9], #4
	subs	x8, x8, #1
	str	w11, [x10], #4
	b.ne	.LBB_0d6e40_325
	b	.LBB_0d6e40_312
.LBB_0d6e40_326:
	cmp	w9, #1
	cset	w10, eq
	and	w10, w25, w10
	tbz	w10, #0, .LBB_0d6e40_328
	mov	w25, #1
	b	.LBB_0d6e40_313
.LBB_0d6e40_328:
	cmp	w9, #2
	str	xzr, [sp, #200]
	str	xzr, [sp, #4232]
	str	xzr, [sp, #4224]
	stp	xzr, xzr, [x29, #-48]
	b.gt	.LBB_0d6e40_340
	cbz	w9, .LBB_0d6e40_345
	cmp	w9, #1
	b.ne	.LBB_0d6e40_347
	mov	w11, wzr
	mov	w10, wzr
	mov	x9, xzr
	mov	x8, xzr
	b	.LBB_0d6e40_350
.LBB_0d6e40_332:
	cbz	x23, .LBB_0d6e40_343
	mov	x23, x19
	mov	x19, x27
	mov	x27, x22
	ldr	x22, [sp, #80]
	mov	w1, #1
	mov	x0, x22
	bl	rattle_alloc
	tbz	w0, #0, .LBB_0d6e40_397
	sub	x8, x1, x27
	mov	x2, x22
	mov	x24, x1
	cmp	x8, x22
	mov	x22, x27
	mov	x27, x19
	mov	x19, x23
	ldr	x23, [sp, #112]
	b.hs	.LBB_0d6e40_344
	cmp	x23, #8
	mov	x8, xzr
	b.lo	.LBB_0d6e40_356
	sub	x9, x24, x22
	ldr	x12, [sp, #120]
	cmp	x9, #32
	b.lo	.LBB_0d6e40_357
	add	x8, x24, #16
	add	x9, x22, #16
	and	x10, x23, #0x7ffffff8
.LBB_0d6e40_338:
	ldp	q0, q1, [x9, #-16]
	subs	x10, x10, #8
	add	x9, x9, #32
	stp	q0, q1, [x8, #-16]
	add	x8, x8, #32
	b.ne	.LBB_0d6e40_338
	ldr	x8, [sp, #72]
	cmp	x23, x8
	and	x8, x23, #0x7ffffff8
	b.ne	.LBB_0d6e40_357
	b	.LBB_0d6e40_358
.LBB_0d6e40_340:
	cmp	w9, #3
	b.eq	.LBB_0d6e40_346
	cmp	w9, #5
	b.ne	.LBB_0d6e40_348
	ldur	q0, [x24, #4]
	mov	w10, wzr
	mov	x8, xzr
	sub	x9, x29, #80
	mov	w11, #2
	b	.LBB_0d6e40_349
.LBB_0d6e40_343:
	mov	x2, xzr
	sub	x24, x29, #24
.LBB_0d6e40_344:
	mov	x0, x24
	mov	x1, x22
	bl	memmove
	ldr	x12, [sp, #120]
	b	.LBB_0d6e40_358
.LBB_0d6e40_345:
	mov	w25, wzr
	b	.LBB_0d6e40_355
.LBB_0d6e40_346:
	ldur	q0, [x24, #4]
	ldrb	w9, [x24, #1]
	mov	x8, xzr
	ldr	w10, [x24, #20]
	mov	w11, #3
	str	q0, [sp, #4224]
	b	.LBB_0d6e40_350
.LBB_0d6e40_347:
	ldur	q0, [x24, #4]
	ldr	w10, [x24, #20]
	mov	x9, xzr
	mov	x8, xzr
	mov	w11, #1
	str	q0, [sp, #4224]
	b	.LBB_0d6e40_350
.LBB_0d6e40_348:
	ldur	q0, [x24, #4]
	ldrb	w8, [x24, #1]
	mov	w10, wzr
	sub	x9, x29, #80
	mov	w11, #4
.LBB_0d6e40_349:
	str	q0, [sp, #4224]
	ldur	q0, [x24, #20]
	stur	q0, [x29, #-48]
.LBB_0d6e40_350:
	ldr	q0, [sp, #4224]
	ldr	x13, [sp, #104]
	mov	w0, wzr
	str	w10, [sp, #148]
	add	x10, sp, #128
	cmp	w11, #3
	str	q0, [x13]
	ldur	q0, [x29, #-48]
	str	x10, [sp, #4224]
	add	x10, sp, #128
	str	w11, [sp, #128]
	stur	q0, [x10, #32]
	str	x9, [sp, #152]
	str	x8, [sp, #176]
	stp	xzr, xzr, [x10, #56]
	sturb	wzr, [x10, #72]
	str	xzr, [sp, #4232]
	str	w26, [sp, #4240]
	str	w12, [sp, #4244]
	str	x26, [sp, #4248]
	b.lo	.LBB_0d6e40_354
	b.eq	.LBB_0d6e40_353
	mov	x9, x8
.LBB_0d6e40_353:
	mov	w0, w9
.LBB_0d6e40_354:
	add	x1, sp, #1, lsl #12
	mov	x2, x22
	add	x1, x1, #128
	bl	"pix_ops::ops::Op::visit_slice::<#cb634639e69df956>"
	ldrb	w8, [x24]
	ldr	x12, [sp, #120]
	add	x13, x21, #36
	cmp	w8, #1
	cset	w25, eq
.LBB_0d6e40_355:
	mov	w8, wzr
	b	.LBB_0d6e40_313
.LBB_0d6e40_356:
	ldr	x12, [sp, #120]
.LBB_0d6e40_357:
	ldr	w9, [x22, x8, lsl #2]
	str	w9, [x24, x8, lsl #2]
	add	x8, x8, #1
	cmp	x23, x8
	b.ne	.LBB_0d6e40_357
.LBB_0d6e40_358:
	ldur	x0, [x29, #-72]
	ldur	x8, [x29, #-56]
	stp	w26, w12, [x29, #-80]
	stp	x24, x23, [x29, #-72]
	stur	x23, [x29, #-56]
	cbz	x8, .LBB_0d6e40_360
	bl	rattle_dealloc
	ldr	x12, [sp, #120]
.LBB_0d6e40_360:
	mov	w8, #1
	add	x13, x21, #36
	b	.LBB_0d6e40_313
.LBB_0d6e40_361:
	ldur	x8, [x29, #-56]
	cbz	x8, .LBB_0d6e40_363
	ldur	x0, [x29, #-72]
	bl	rattle_dealloc
	ldr	x12, [sp, #120]
.LBB_0d6e40_363:
	cbz	w26, .LBB_0d6e40_371
	add	x20, x23, x23, lsl #3
	cbz	w12, .LBB_0d6e40_375
	mov	x0, x20
	mov	w1, #1
	bl	rattle_alloc
	tbnz	w0, #0, .LBB_0d6e40_376
	b	.LBB_0d6e40_388
.LBB_0d6e40_366:
	mov	w25, #3
	mov	x24, xzr
	ldp	x26, x23, [sp, #88]
	cbnz	x15, .LBB_0d6e40_246
	b	.LBB_0d6e40_247
.LBB_0d6e40_367:
	mov	x25, xzr
	mov	x24, xzr
	ldp	x26, x23, [sp, #88]
	cbnz	x15, .LBB_0d6e40_246
	b	.LBB_0d6e40_247
.LBB_0d6e40_368:
	mov	w22, wzr
	mov	x20, xzr
	mov	x25, xzr
	b	.LBB_0d6e40_225
.LBB_0d6e40_369:
	tst	w12, #0x1
	mov	w8, #4
	mov	x24, xzr
	cinc	x8, x8, eq
	cmp	w9, #0
	csinc	x25, x8, xzr, eq
	ldp	x26, x23, [sp, #88]
	cbnz	x15, .LBB_0d6e40_246
	b	.LBB_0d6e40_247
.LBB_0d6e40_370:
	mov	w25, #7
	mov	x24, xzr
	ldp	x26, x23, [sp, #88]
	cbnz	x15, .LBB_0d6e40_246
	b	.LBB_0d6e40_247
.LBB_0d6e40_371:
	cbz	w12, .LBB_0d6e40_391
	mov	x0, x12
	mov	w1, #1
	mov	x20, x12
	bl	rattle_alloc
	tbz	w0, #0, .LBB_0d6e40_388
	mov	x24, x1
	cmp	w20, #1
	mov	x9, x20
	b.ne	.LBB_0d6e40_392
	mov	x20, xzr
	b	.LBB_0d6e40_393
.LBB_0d6e40_375:
	sub	x1, x29, #24
.LBB_0d6e40_376:
	movi	v0.2d, #0000000000000000
	add	x8, sp, #128
	ldr	x24, [sp, #112]
	mov	x23, xzr
	str	x20, [sp, #4240]
	orr	x20, x8, #0x4
	mov	x27, x22
	str	x1, [sp, #4224]
	str	xzr, [sp, #4232]
	stp	q0, q0, [sp, #128]
	stp	q0, q0, [sp, #160]
	stp	q0, q0, [sp, #192]
	stp	q0, q0, [sp, #224]
	stp	q0, q0, [sp, #256]
	stp	q0, q0, [sp, #288]
	stp	q0, q0, [sp, #320]
	stp	q0, q0, [sp, #352]
	stp	q0, q0, [sp, #384]
	b	.LBB_0d6e40_378
.LBB_0d6e40_377:
	add	x0, sp, #1, lsl #12
	add	x1, sp, #128
	add	x27, x27, x2, lsl #2
	add	x0, x0, #128
	sub	x24, x24, x2
	bl	"pix_script::pixel::push_cells"
	and	w8, w0, #0xff
	tbnz	w8, #0, .LBB_0d6e40_386
.LBB_0d6e40_378:
	cbz	x24, .LBB_0d6e40_385
	cmp	x24, #32
	mov	w8, #32
	mvn	x9, x23
	csel	x2, x24, x8, lo
	add	x10, x9, x26
	adrp	x8, .Lstatic.28
	add	x8, x8, :lo12:.Lstatic.28
	cmp	x10, x2
	csel	x9, x10, x2, lo
	cbz	x10, .LBB_0d6e40_382
	add	x11, x27, #3
	mov	x12, x20
	mov	x13, x9
.LBB_0d6e40_381:
	ldurb	w14, [x11, #-3]
	ldurb	w15, [x11, #-2]
	subs	x13, x13, #1
	ldurb	w16, [x11, #-1]
	ldrb	w17, [x11], #4
	ldrh	w14, [x8, x14, lsl #1]
	ldrh	w15, [x8, x15, lsl #1]
	ldrh	w16, [x8, x16, lsl #1]
	sturh	w14, [x12, #-4]
	ldrh	w14, [x8, x17, lsl #1]
	sturh	w15, [x12, #-2]
	mov	w15, #32
	strh	w16, [x12]
	strh	w14, [x12, #2]
	strb	w15, [x12, #4]
	add	x12, x12, #9
	b.ne	.LBB_0d6e40_381
.LBB_0d6e40_382:
	cmp	x10, x2
	add	x23, x9, x23
	b.hs	.LBB_0d6e40_377
	add	x10, x27, x9, lsl #2
	add	x11, x9, x9, lsl #3
	sub	x9, x2, x9
	add	x10, x10, #3
	add	x11, x20, x11
.LBB_0d6e40_384:
	ldurb	w12, [x10, #-3]
	ldurb	w13, [x10, #-2]
	add	x14, x23, #1
	ldurb	w15, [x10, #-1]
	ldrb	w16, [x10], #4
	ldrh	w12, [x8, x12, lsl #1]
	cmp	x14, x26
	ldrh	w13, [x8, x13, lsl #1]
	mov	w14, #10
	ldrh	w15, [x8, x15, lsl #1]
	ldrh	w16, [x8, x16, lsl #1]
	sturh	w12, [x11, #-4]
	mov	w12, #32
	csinc	x23, xzr, x23, hs
	csel	w12, w12, w14, lo
	sturh	w13, [x11, #-2]
	subs	x9, x9, #1
	strh	w15, [x11]
	strh	w16, [x11, #2]
	strb	w12, [x11, #4]
	add	x11, x11, #9
	b.ne	.LBB_0d6e40_384
	b	.LBB_0d6e40_377
.LBB_0d6e40_385:
	ldr	x24, [sp, #4224]
	ldr	x20, [sp, #4232]
	ldr	x9, [sp, #4240]
	ldr	x23, [sp, #112]
	b	.LBB_0d6e40_394
.LBB_0d6e40_386:
	ldr	x8, [sp, #4240]
	ldr	x23, [sp, #112]
	cbz	x8, .LBB_0d6e40_388
	ldr	x0, [sp, #4224]
	bl	rattle_dealloc
.LBB_0d6e40_388:
	cbz	x23, .LBB_0d6e40_241
	mov	x0, x22
	bl	rattle_dealloc
	b	.LBB_0d6e40_241
.LBB_0d6e40_390:
	mov	w25, #2
	mov	x24, xzr
	ldp	x26, x23, [sp, #88]
	cbnz	x15, .LBB_0d6e40_246
	b	.LBB_0d6e40_247
.LBB_0d6e40_391:
	mov	x20, xzr
	mov	x9, xzr
	sub	x24, x29, #24
	b	.LBB_0d6e40_394
.LBB_0d6e40_392:
	sub	x2, x9, #1
	mov	x0, x24
	mov	w1, #10
	sub	x20, x9, #1
	bl	memset
	ldr	x9, [sp, #120]
.LBB_0d6e40_393:
	mov	w8, #10
	strb	w8, [x24, x20]
	add	x20, x20, #1
.LBB_0d6e40_394:
	cbz	x23, .LBB_0d6e40_396
	mov	x0, x22
	mov	x25, x9
	bl	rattle_dealloc
	mov	w22, #1
	b	.LBB_0d6e40_225
.LBB_0d6e40_396:
	mov	w22, #1
	mov	x25, x9
	b	.LBB_0d6e40_225
.LBB_0d6e40_397:
	ldur	x8, [x29, #-56]
	cbz	x8, .LBB_0d6e40_399
	ldur	x0, [x29, #-72]
	bl	rattle_dealloc
.LBB_0d6e40_399:
	mov	x0, x27
	bl	rattle_dealloc
	mov	w22, wzr
	mov	x20, xzr
	mov	x25, xzr
	mov	w24, #1
	mov	x19, x23
	b	.LBB_0d6e40_225
.LBB_0d6e40_400:
	ldp	x26, x23, [sp, #88]
	mov	x20, xzr
	ldr	x15, [sp, #112]
	mov	x25, xzr
	mov	w24, #1
	cbnz	x15, .LBB_0d6e40_246
	b	.LBB_0d6e40_247
.LBB_0d6e40_401:
	ldr	x15, [sp, #4240]
	mov	x20, xzr
	mov	x25, xzr
	mov	w24, #1
	ldp	x26, x23, [sp, #88]
	cbnz	x15, .LBB_0d6e40_246
	b	.LBB_0d6e40_247
.Lfunc_end_0d6e40:
	.size	main, .Lfunc_end_0d6e40-main

	.type	.Lstatic.1,@object
	.section	.rodata..Lstatic.1,"a",@progbits
.Lstatic.1:
	.ascii	"image"
	.size	.Lstatic.1, 5

	.type	.Lstatic.2,@object
	.section	.rodata..Lstatic.2,"a",@progbits
.Lstatic.2:
	.zero	2,2
	.size	.Lstatic.2, 2

	.type	.Lstatic.3,@object
	.section	.rodata..Lstatic.3,"a",@progbits
.Lstatic.3:
	.ascii	"clear"
	.size	.Lstatic.3, 5

	.type	.Lstatic.5,@object
	.section	.rodata.cst4,"aM",@progbits,4
.Lstatic.5:
	.ascii	"fill"
	.size	.Lstatic.5, 4

	.type	.Lstatic.6,@object
	.section	.rodata..Lstatic.6,"a",@progbits
.Lstatic.6:
	.ascii	"\001\001\002\002\003"
	.size	.Lstatic.6, 5

	.type	.Lstatic.7,@object
	.section	.rodata..Lstatic.7,"a",@progbits
.Lstatic.7:
	.ascii	"paint"
	.size	.Lstatic.7, 5

	.type	.Lstatic.8,@object
	.section	.rodata..Lstatic.8,"a",@progbits
.Lstatic.8:
	.ascii	"\000\001\001\002\002\003"
	.size	.Lstatic.8, 6

	.type	.Lstatic.9,@object
	.section	.rodata.cst4,"aM",@progbits,4
.Lstatic.9:
	.ascii	"keep"
	.size	.Lstatic.9, 4

	.type	.Lstatic.10,@object
.Lstatic.10:
	.ascii	"copy"
	.size	.Lstatic.10, 4

	.type	.Lstatic.11,@object
	.section	.rodata..Lstatic.11,"a",@progbits
.Lstatic.11:
	.ascii	"\001\001\001\001\002\002"
	.size	.Lstatic.11, 6

	.type	.Lstatic.12,@object
	.section	.rodata.cst4,"aM",@progbits,4
.Lstatic.12:
	.ascii	"comp"
	.size	.Lstatic.12, 4

	.type	.Lstatic.13,@object
	.section	.rodata..Lstatic.13,"a",@progbits
.Lstatic.13:
	.ascii	"\000\001\001\001\001\002\002"
	.size	.Lstatic.13, 7

	.type	.Lstatic.14,@object
	.section	.rodata..Lstatic.14,"a",@progbits
.Lstatic.14:
	.ascii	"\000\001\002\003\004\005\006\007\b\t\n\013\f"
	.size	.Lstatic.14, 13

	.type	.Lstatic.15,@object
	.section	.rodata..Lstatic.15,"a",@progbits
.Lstatic.15:
	.ascii	"Src"
	.size	.Lstatic.15, 3

	.type	.Lstatic.16,@object
	.section	.rodata.cst4,"aM",@progbits,4
.Lstatic.16:
	.ascii	"Dest"
	.size	.Lstatic.16, 4

	.type	.Lstatic.17,@object
	.section	.rodata..Lstatic.17,"a",@progbits
.Lstatic.17:
	.ascii	"SrcOver"
	.size	.Lstatic.17, 7

	.type	.Lstatic.18,@object
	.section	.rodata.cst8,"aM",@progbits,8
.Lstatic.18:
	.ascii	"DestOver"
	.size	.Lstatic.18, 8

	.type	.Lstatic.19,@object
	.section	.rodata..Lstatic.19,"a",@progbits
.Lstatic.19:
	.ascii	"SrcOut"
	.size	.Lstatic.19, 6

	.type	.Lstatic.20,@object
	.section	.rodata..Lstatic.20,"a",@progbits
.Lstatic.20:
	.ascii	"DestOut"
	.size	.Lstatic.20, 7

	.type	.Lstatic.21,@object
	.section	.rodata..Lstatic.21,"a",@progbits
.Lstatic.21:
	.ascii	"SrcIn"
	.size	.Lstatic.21, 5

	.type	.Lstatic.22,@object
	.section	.rodata..Lstatic.22,"a",@progbits
.Lstatic.22:
	.ascii	"DestIn"
	.size	.Lstatic.22, 6

	.type	.Lstatic.23,@object
	.section	.rodata..Lstatic.23,"a",@progbits
.Lstatic.23:
	.ascii	"SrcAtop"
	.size	.Lstatic.23, 7

	.type	.Lstatic.24,@object
	.section	.rodata.cst8,"aM",@progbits,8
.Lstatic.24:
	.ascii	"DestAtop"
	.size	.Lstatic.24, 8

	.type	.Lstatic.25,@object
	.section	.rodata..Lstatic.25,"a",@progbits
.Lstatic.25:
	.ascii	"Xor"
	.size	.Lstatic.25, 3

	.type	.Lstatic.26,@object
	.section	.rodata..Lstatic.26,"a",@progbits
.Lstatic.26:
	.ascii	"Clear"
	.size	.Lstatic.26, 5

	.type	.Lstatic.27,@object
	.section	.rodata.cst4,"aM",@progbits,4
.Lstatic.27:
	.ascii	"Plus"
	.size	.Lstatic.27, 4

	.type	.Lstatic.28,@object
	.section	.rodata..Lstatic.28,"a",@progbits
.Lstatic.28:
	.ascii	"000102030405060708090a0b0c0d0e0f101112131415161718191a1b1c1d1e1f202122232425262728292a2b2c2d2e2f303132333435363738393a3b3c3d3e3f404142434445464748494a4b4c4d4e4f505152535455565758595a5b5c5d5e5f606162636465666768696a6b6c6d6e6f707172737475767778797a7b7c7d7e7f808182838485868788898a8b8c8d8e8f909192939495969798999a9b9c9d9e9fa0a1a2a3a4a5a6a7a8a9aaabacadaeafb0b1b2b3b4b5b6b7b8b9babbbcbdbebfc0c1c2c3c4c5c6c7c8c9cacbcccdcecfd0d1d2d3d4d5d6d7d8d9dadbdcdddedfe0e1e2e3e4e5e6e7e8e9eaebecedeeeff0f1f2f3f4f5f6f7f8f9fafbfcfdfeff"
	.size	.Lstatic.28, 512

	.type	.Lstatic.31,@object
	.section	.rodata..Lstatic.31,"a",@progbits
.Lstatic.31:
	.byte	10
	.size	.Lstatic.31, 1

	.type	.Lstatic.32,@object
	.section	.rodata..Lstatic.32,"a",@progbits
.Lstatic.32:
	.ascii	"read failed"
	.size	.Lstatic.32, 11

	.type	.Lstatic.33,@object
	.section	.rodata..Lstatic.33,"a",@progbits
.Lstatic.33:
	.ascii	"write failed"
	.size	.Lstatic.33, 12

	.type	.Lstatic.34,@object
	.section	.rodata..Lstatic.34,"a",@progbits
.Lstatic.34:
	.ascii	"line "
	.size	.Lstatic.34, 5

	.type	.Lstatic.35,@object
	.section	.rodata..Lstatic.35,"a",@progbits
.Lstatic.35:
	.ascii	": "
	.size	.Lstatic.35, 2

	.type	.Lstatic.36,@object
	.section	.rodata..Lstatic.36,"a",@progbits
.Lstatic.36:
	.ascii	"out of memory"
	.size	.Lstatic.36, 13

	.type	.Lstatic.37,@object
	.section	.rodata..Lstatic.37,"a",@progbits
.Lstatic.37:
	.ascii	"input too long"
	.size	.Lstatic.37, 14

	.type	.Lstatic.41,@object
	.section	.rodata..Lstatic.41,"a",@progbits
.Lstatic.41:
	.ascii	"no image"
	.size	.Lstatic.41, 8

	.type	.Lstatic.42,@object
	.section	.rodata..Lstatic.42,"a",@progbits
.Lstatic.42:
	.ascii	"second image"
	.size	.Lstatic.42, 12

	.type	.Lstatic.43,@object
	.section	.rodata..Lstatic.43,"a",@progbits
.Lstatic.43:
	.ascii	"unknown word"
	.size	.Lstatic.43, 12

	.type	.Lstatic.44,@object
	.section	.rodata..Lstatic.44,"a",@progbits
.Lstatic.44:
	.ascii	"wrong number of words"
	.size	.Lstatic.44, 21

	.type	.Lstatic.45,@object
	.section	.rodata..Lstatic.45,"a",@progbits
.Lstatic.45:
	.ascii	"bad number"
	.size	.Lstatic.45, 10

	.type	.Lstatic.46,@object
	.section	.rodata..Lstatic.46,"a",@progbits
.Lstatic.46:
	.ascii	"bad color"
	.size	.Lstatic.46, 9

	.type	.Lstatic.47,@object
	.section	.rodata..Lstatic.47,"a",@progbits
.Lstatic.47:
	.ascii	"image too big"
	.size	.Lstatic.47, 13

	.type	.Lstatic.48,@object
	.section	.rodata..Lstatic.48,"a",@progbits
.Lstatic.48:
	.ascii	"nothing kept"
	.size	.Lstatic.48, 12

	.type	.Lswitch.table.main,@object
	.section	.rodata..Lswitch.table.main,"a",@progbits
	.p2align	3, 0x0
.Lswitch.table.main:
	.xword	8
	.xword	12
	.xword	12
	.xword	21
	.xword	10
	.xword	9
	.xword	13
	.xword	12
	.size	.Lswitch.table.main, 64

	.type	.Lswitch.table.main.299.rel,@object
	.section	.rodata..Lswitch.table.main.299.rel,"a",@progbits
	.p2align	2, 0x0
.Lswitch.table.main.299.rel:
	.word	.Lstatic.41-.Lswitch.table.main.299.rel
	.word	.Lstatic.42-.Lswitch.table.main.299.rel
	.word	.Lstatic.43-.Lswitch.table.main.299.rel
	.word	.Lstatic.44-.Lswitch.table.main.299.rel
	.word	.Lstatic.45-.Lswitch.table.main.299.rel
	.word	.Lstatic.46-.Lswitch.table.main.299.rel
	.word	.Lstatic.47-.Lswitch.table.main.299.rel
	.word	.Lstatic.48-.Lswitch.table.main.299.rel
	.size	.Lswitch.table.main.299.rel, 32

	.ident	"rattle logic=dac8208d650f15bf3e2dc313a14fa4c783a3acf887bdfab66e1714b038d9e11b"
	.section	".note.GNU-stack","",@progbits
