/* pix 0.3.0: the program pixpaint, for x86-64-v2 under Linux.
 * The code was proved before it was compiled; generated/README.md says what that means. Nobody edits this file: tools/generate makes it.
 *
 * sources: 3201c3a5b3af384d57521d1166f6d84a31fe54b24280de9f374e2c488129229f, as tools/sources --sum pixpaint prints it
 * kit: rattle-kit-13f logic dac8208d650f15bf
 * verdict: logic=proved functions=1 axioms=6 target=x86_64-unknown-linux-gnu cpu=x86-64-v2 sum=dac8208d650f15bf native=nat,char,string logic-built=trusted libraries-built=trusted statements=trusted
 * made by: rattle build of crates/pixpaint, with clang -S -fno-verbose-asm -fno-addrsig in the place of clang -c
 * flags: --target=x86_64-unknown-linux-gnu -march=x86-64-v2
 */
	.file	"rattle"
	.section	.rodata.cst16,"aM",@progbits,16
	.p2align	4, 0x0
.LCPI_dba5ac_0:
	.byte	0
	.byte	1
	.byte	2
	.byte	3
	.byte	4
	.byte	5
	.byte	6
	.byte	7
	.byte	8
	.byte	9
	.byte	10
	.byte	11
	.byte	12
	.byte	13
	.byte	14
	.byte	15
.LCPI_dba5ac_1:
	.byte	16
	.byte	17
	.byte	18
	.byte	19
	.byte	20
	.byte	21
	.byte	22
	.byte	23
	.byte	24
	.byte	25
	.byte	26
	.byte	27
	.byte	28
	.byte	29
	.byte	30
	.byte	31
	.section	".text.pixpaint::main+start","ax",@progbits
	.p2align	4
	.type	"pixpaint::main+start",@function
"pixpaint::main+start":
	pushq	%rbp
	pushq	%r15
	pushq	%r14
	pushq	%r13
	pushq	%r12
	pushq	%rbx
	subq	$3072, %rsp
	movq	$0, (%rsp)
	subq	$1496, %rsp
	pxor	%xmm0, %xmm0
	movdqu	%xmm0, 136(%rsp)
	leaq	32(%rsp), %rbx
	movq	%rbx, 128(%rsp)
	leaq	464(%rsp), %rdi
	xorl	%r13d, %r13d
	movl	$4096, %r14d
	movl	$4096, %edx
	xorl	%esi, %esi
	callq	memset@PLT
	xorl	%ebp, %ebp
	jmp	.LBB_dba5ac_3
	.p2align	4
.LBB_dba5ac_1:
	leaq	464(%rsp), %rsi
	movq	%r15, %rdx
	callq	memmove@PLT
.LBB_dba5ac_2:
	addq	%r15, %rbp
	movq	%rbp, 136(%rsp)
	movq	%r13, 144(%rsp)
	cmpq	$1048577, %rbp
	jae	.LBB_dba5ac_213
.LBB_dba5ac_3:
	movl	$1048577, %r15d
	subq	%rbp, %r15
	cmpq	$4096, %r15
	cmovaeq	%r14, %r15
	leaq	464(%rsp), %r12
	xorl	%edi, %edi
	movq	%r12, %rsi
	movq	%r15, %rdx
	callq	read@PLT
	testq	%rax, %rax
	js	.LBB_dba5ac_28
	cmpq	%r15, %rax
	cmovbq	%rax, %r15
	testq	%r15, %r15
	je	.LBB_dba5ac_32
	movq	%r13, %rax
	subq	%rbp, %rax
	cmpq	%rax, %r15
	ja	.LBB_dba5ac_26
.LBB_dba5ac_6:
	leaq	(%rbx,%rbp), %rdi
	movq	%rdi, %rax
	subq	%r12, %rax
	cmpq	%r15, %rax
	jae	.LBB_dba5ac_1
	cmpq	$4, %r15
	jb	.LBB_dba5ac_8
	movq	%rbp, %rax
	subq	%r12, %rax
	addq	%rbx, %rax
	cmpq	$32, %rax
	jae	.LBB_dba5ac_11
.LBB_dba5ac_8:
	xorl	%eax, %eax
.LBB_dba5ac_20:
	movq	%r15, %rdx
	movq	%rax, %rcx
	andq	$3, %rdx
	je	.LBB_dba5ac_23
	movq	%rax, %rcx
	.p2align	4
.LBB_dba5ac_22:
	movzbl	464(%rsp,%rcx), %esi
	movb	%sil, (%rdi,%rcx)
	incq	%rcx
	decq	%rdx
	jne	.LBB_dba5ac_22
.LBB_dba5ac_23:
	subq	%r15, %rax
	cmpq	$-4, %rax
	ja	.LBB_dba5ac_2
	leaq	(%rbx,%rbp), %rax
	addq	$3, %rax
	.p2align	4
.LBB_dba5ac_25:
	movzbl	464(%rsp,%rcx), %edx
	movb	%dl, -3(%rax,%rcx)
	movzbl	465(%rsp,%rcx), %edx
	movb	%dl, -2(%rax,%rcx)
	movzbl	466(%rsp,%rcx), %edx
	movb	%dl, -1(%rax,%rcx)
	movzbl	467(%rsp,%rcx), %edx
	movb	%dl, (%rax,%rcx)
	addq	$4, %rcx
	cmpq	%rcx, %r15
	jne	.LBB_dba5ac_25
	jmp	.LBB_dba5ac_2
.LBB_dba5ac_11:
	cmpq	$32, %r15
	jae	.LBB_dba5ac_13
	xorl	%eax, %eax
	jmp	.LBB_dba5ac_17
.LBB_dba5ac_13:
	movl	%r15d, %eax
	andl	$8160, %eax
	leaq	(%rbx,%rbp), %rcx
	addq	$16, %rcx
	xorl	%edx, %edx
	.p2align	4
.LBB_dba5ac_14:
	movdqu	464(%rsp,%rdx), %xmm0
	movups	480(%rsp,%rdx), %xmm1
	movdqu	%xmm0, -16(%rcx,%rdx)
	movups	%xmm1, (%rcx,%rdx)
	addq	$32, %rdx
	cmpq	%rdx, %rax
	jne	.LBB_dba5ac_14
	cmpq	%rax, %r15
	je	.LBB_dba5ac_2
	testb	$28, %r15b
	je	.LBB_dba5ac_20
.LBB_dba5ac_17:
	movq	%rax, %rcx
	movl	%r15d, %eax
	andl	$8188, %eax
	.p2align	4
.LBB_dba5ac_18:
	movl	464(%rsp,%rcx), %edx
	movl	%edx, (%rdi,%rcx)
	addq	$4, %rcx
	cmpq	%rcx, %rax
	jne	.LBB_dba5ac_18
	cmpq	%rax, %r15
	je	.LBB_dba5ac_2
	jmp	.LBB_dba5ac_20
.LBB_dba5ac_26:
	leaq	128(%rsp), %rdi
	movq	%r15, %rsi
	callq	"std_alloc::vec::Vec::grow_amortized::<#ab1bfed030c1db69>"
	testb	%al, %al
	je	.LBB_dba5ac_241
	movq	128(%rsp), %rbx
	movq	136(%rsp), %rbp
	movq	144(%rsp), %r13
	jmp	.LBB_dba5ac_6
.LBB_dba5ac_28:
	leaq	320(%rsp), %rdi
	callq	"std_io::io::error::last_error"
	movb	$1, %r15b
	testq	%r13, %r13
	je	.LBB_dba5ac_30
	movq	%rbx, %rdi
	callq	rattle_dealloc@PLT
.LBB_dba5ac_30:
	xorl	%ebp, %ebp
.LBB_dba5ac_31:
	movq	$0, 40(%rsp)
	xorl	%r10d, %r10d
	jmp	.LBB_dba5ac_325
.LBB_dba5ac_32:
	movq	128(%rsp), %r15
	movq	$0, 488(%rsp)
	leaq	32(%rsp), %r8
	movq	%r8, 464(%rsp)
	pxor	%xmm0, %xmm0
	movdqu	%xmm0, 472(%rsp)
	movw	$0, 488(%rsp)
	movq	%r8, 320(%rsp)
	movdqu	%xmm0, 328(%rsp)
	xorl	%r11d, %r11d
	xorl	%r10d, %r10d
	movq	%r15, 216(%rsp)
	movq	%r13, 168(%rsp)
	jmp	.LBB_dba5ac_33
	.p2align	4
.LBB_dba5ac_191:
	movb	%r12b, 488(%rsp)
	movb	%r9b, 489(%rsp)
	testb	%r14b, %r14b
	jne	.LBB_dba5ac_214
.LBB_dba5ac_33:
	movq	%r15, %rbx
	.p2align	4
.LBB_dba5ac_34:
	xorl	%eax, %eax
	testq	%rbp, %rbp
	je	.LBB_dba5ac_38
	.p2align	4
.LBB_dba5ac_35:
	cmpb	$10, (%rbx,%rax)
	je	.LBB_dba5ac_38
	incq	%rax
	cmpq	%rax, %rbp
	jne	.LBB_dba5ac_35
	incq	%r10
	movl	$0, 416(%rsp)
	movq	$0, 408(%rsp)
	movb	$1, %sil
	movq	%rbp, %rax
	movq	%rbx, %rdx
	jmp	.LBB_dba5ac_39
	.p2align	4
.LBB_dba5ac_38:
	xorl	%r15d, %r15d
	cmpq	%rbp, %rax
	leaq	1(%rbx,%rax), %rdx
	movq	%rax, %rcx
	notq	%rcx
	cmovaeq	%rbx, %rdx
	cmovaeq	%r15, %rcx
	setae	%sil
	cmovaeq	%rbp, %rax
	addq	%rcx, %rbp
	incq	%r10
	movl	$0, 416(%rsp)
	movq	$0, 408(%rsp)
	testq	%rax, %rax
	je	.LBB_dba5ac_45
.LBB_dba5ac_39:
	cmpb	$13, -1(%rbx,%rax)
	jne	.LBB_dba5ac_41
	decq	%rax
	je	.LBB_dba5ac_44
.LBB_dba5ac_41:
	cmpb	$35, (%rbx)
	jne	.LBB_dba5ac_43
	movq	%rdx, %rbx
	testb	%sil, %sil
	je	.LBB_dba5ac_34
	jmp	.LBB_dba5ac_214
	.p2align	4
.LBB_dba5ac_43:
	movq	%rax, %r15
	jmp	.LBB_dba5ac_45
.LBB_dba5ac_44:
	xorl	%r15d, %r15d
.LBB_dba5ac_45:
	movb	%sil, 64(%rsp)
	movq	%rdx, 88(%rsp)
	xorl	%ecx, %ecx
	xorl	%r14d, %r14d
	movq	%r10, 48(%rsp)
.LBB_dba5ac_46:
	movq	%rcx, %rsi
	testq	%rcx, %rcx
	movq	%r11, %rcx
	cmoveq	%rsi, %rcx
	pxor	%xmm0, %xmm0
	leaq	328(%rsp), %rax
	movdqu	%xmm0, (%rax)
	.p2align	4
.LBB_dba5ac_47:
	movl	%r14d, %eax
.LBB_dba5ac_48:
	testb	$1, %al
	jne	.LBB_dba5ac_64
	movq	%rbx, %r13
	xorl	%r12d, %r12d
	testq	%r15, %r15
	je	.LBB_dba5ac_52
	.p2align	4
.LBB_dba5ac_50:
	cmpb	$32, (%r13,%r12)
	je	.LBB_dba5ac_52
	incq	%r12
	cmpq	%r12, %r15
	jne	.LBB_dba5ac_50
	jmp	.LBB_dba5ac_55
	.p2align	4
.LBB_dba5ac_52:
	cmpq	%r15, %r12
	setae	%al
	jb	.LBB_dba5ac_54
	movq	%r13, %rbx
	movb	$1, %r14b
	movq	%r15, %r12
	testq	%r12, %r12
	je	.LBB_dba5ac_48
	jmp	.LBB_dba5ac_56
	.p2align	4
.LBB_dba5ac_54:
	leaq	(%r12,%r13), %rbx
	incq	%rbx
	movq	%r12, %rdx
	notq	%rdx
	addq	%rdx, %r15
	testq	%r12, %r12
	je	.LBB_dba5ac_48
	jmp	.LBB_dba5ac_56
	.p2align	4
.LBB_dba5ac_55:
	movb	$1, %r14b
	movq	%r13, %rbx
	movq	%r15, %r12
.LBB_dba5ac_56:
	cmpq	%rcx, %rsi
	je	.LBB_dba5ac_58
	movq	%rsi, %rax
	shlq	$4, %rax
	movq	%r13, (%r8,%rax)
	movq	%r12, 8(%r8,%rax)
	incq	%rsi
	jmp	.LBB_dba5ac_47
.LBB_dba5ac_58:
	movq	%rcx, 328(%rsp)
	movq	%r11, 336(%rsp)
	cmpq	%rcx, %r11
	je	.LBB_dba5ac_60
.LBB_dba5ac_59:
	movq	320(%rsp), %r8
	movq	%rcx, %rax
	shlq	$4, %rax
	movq	%r13, (%r8,%rax)
	movq	%r12, 8(%r8,%rax)
	incq	%rcx
	movq	%rcx, 328(%rsp)
	jmp	.LBB_dba5ac_46
.LBB_dba5ac_60:
	leaq	320(%rsp), %rdi
	movl	$1, %esi
	callq	"std_alloc::vec::Vec::grow_amortized::<#c573f30ac4e8249c>"
	movq	328(%rsp), %rcx
	movq	336(%rsp), %r11
	cmpq	%rcx, %r11
	setne	%dl
	orb	%al, %dl
	je	.LBB_dba5ac_62
.LBB_dba5ac_61:
	movq	48(%rsp), %r10
	jmp	.LBB_dba5ac_59
.LBB_dba5ac_62:
	leaq	320(%rsp), %rdi
	movl	$1, %esi
	callq	"std_alloc::vec::Vec::grow_amortized::<#c573f30ac4e8249c>"
	testb	%al, %al
	je	.LBB_dba5ac_400
	movq	328(%rsp), %rcx
	movq	336(%rsp), %r11
	jmp	.LBB_dba5ac_61
	.p2align	4
.LBB_dba5ac_64:
	movq	%rsi, 328(%rsp)
	movq	%r11, 336(%rsp)
	movzbl	488(%rsp), %r12d
	movzbl	489(%rsp), %r9d
	movl	$0, 456(%rsp)
	movq	$0, 448(%rsp)
	testq	%rsi, %rsi
	je	.LBB_dba5ac_68
	movq	(%r8), %rbx
	movq	8(%r8), %rax
	movq	$0, 424(%rsp)
	movl	$0, 432(%rsp)
	testq	%rax, %rax
	movq	168(%rsp), %r13
	je	.LBB_dba5ac_240
	movzbl	(%rbx), %r14d
	cmpb	$35, %r14b
	movq	%r11, 56(%rsp)
	jne	.LBB_dba5ac_69
	movq	88(%rsp), %r15
	movzbl	64(%rsp), %r14d
	jmp	.LBB_dba5ac_189
	.p2align	4
.LBB_dba5ac_68:
	movq	320(%rsp), %r8
	movq	168(%rsp), %r13
	movq	88(%rsp), %r15
	movzbl	64(%rsp), %r14d
	movb	%r12b, 488(%rsp)
	movb	%r9b, 489(%rsp)
	testb	%r14b, %r14b
	je	.LBB_dba5ac_33
	jmp	.LBB_dba5ac_214
.LBB_dba5ac_69:
	movl	%r9d, 440(%rsp)
	movl	%r12d, 72(%rsp)
	movq	%r8, 80(%rsp)
	decq	%rsi
	movq	%rsi, 40(%rsp)
	movl	$0, 208(%rsp)
	movq	$0, 200(%rsp)
	cmpq	$5, %rax
	je	.LBB_dba5ac_77
	cmpq	$4, %rax
	jne	.LBB_dba5ac_240
	movl	%r14d, %eax
	xorb	$102, %al
	movzbl	1(%rbx), %r12d
	movzbl	2(%rbx), %r15d
	movl	%r12d, %ecx
	xorb	$105, %cl
	orb	%al, %cl
	movl	%r15d, %eax
	xorb	$108, %al
	orb	%cl, %al
	movzbl	3(%rbx), %esi
	movl	%esi, %ecx
	xorb	$108, %cl
	orb	%al, %cl
	jne	.LBB_dba5ac_94
	leaq	.Lstatic.5(%rip), %rdx
	movb	%sil, 96(%rsp)
	movl	$4, %esi
	movq	%rbx, %rdi
	callq	"core::cmp::slices::groups_equal::<i8,31'core::cmp::numbers::U8PartialEq{}>"
	movzbl	96(%rsp), %esi
	movq	40(%rsp), %rdx
	movq	56(%rsp), %r11
	movq	48(%rsp), %r10
	testb	%al, %al
	je	.LBB_dba5ac_94
	xorps	%xmm1, %xmm1
	pxor	%xmm0, %xmm0
	movdqa	%xmm0, 304(%rsp)
	movaps	%xmm1, 128(%rsp)
	movl	$0, 144(%rsp)
	cmpq	$5, %rdx
	jne	.LBB_dba5ac_131
	movq	80(%rsp), %r12
	movq	16(%r12), %rsi
	movq	24(%r12), %rdx
	movq	40(%r12), %r8
	movq	32(%r12), %rcx
	movdqu	56(%r12), %xmm0
	movq	48(%r12), %r9
	movq	72(%r12), %rax
	movq	%rax, 16(%rsp)
	movdqu	%xmm0, (%rsp)
	leaq	128(%rsp), %rdi
	callq	"pix_script::parse::region"
	cmpb	$1, 128(%rsp)
	movq	88(%rsp), %r15
	movzbl	64(%rsp), %r14d
	jne	.LBB_dba5ac_204
	movq	80(%r12), %rsi
	movq	88(%r12), %rdx
	leaq	195(%rsp), %rdi
	callq	"pix_script::number::color"
	cmpb	$1, 195(%rsp)
	jne	.LBB_dba5ac_209
	movl	196(%rsp), %eax
	movq	%rax, 112(%rsp)
	movq	132(%rsp), %xmm0
	movdqa	%xmm0, 304(%rsp)
	movq	140(%rsp), %rax
	movq	%rax, 120(%rsp)
	movq	$0, 240(%rsp)
	movl	$0, 248(%rsp)
	movb	$2, %al
	movq	%rax, 104(%rsp)
	movb	$1, %al
	jmp	.LBB_dba5ac_210
.LBB_dba5ac_77:
	movl	%r14d, %eax
	xorb	$105, %al
	movzbl	1(%rbx), %r15d
	movzbl	2(%rbx), %esi
	movl	%r15d, %ecx
	xorb	$109, %cl
	orb	%al, %cl
	movl	%esi, %eax
	xorb	$97, %al
	orb	%cl, %al
	movzbl	3(%rbx), %r12d
	movl	%r12d, %ecx
	xorb	$103, %cl
	orb	%al, %cl
	jne	.LBB_dba5ac_91
	leaq	.Lstatic.1(%rip), %rdx
	movb	%sil, 96(%rsp)
	movl	$5, %esi
	movq	%rbx, %rdi
	callq	"core::cmp::slices::groups_equal::<i8,31'core::cmp::numbers::U8PartialEq{}>"
	movzbl	96(%rsp), %esi
	movq	40(%rsp), %rdx
	movq	56(%rsp), %r11
	movq	48(%rsp), %r10
	testb	%al, %al
	je	.LBB_dba5ac_91
	pxor	%xmm0, %xmm0
	movdqa	%xmm0, 304(%rsp)
	movq	$0, 112(%rsp)
	cmpq	$2, %rdx
	jne	.LBB_dba5ac_130
	movq	80(%rsp), %r9
	movq	24(%r9), %rcx
	testq	%rcx, %rcx
	movq	88(%rsp), %r15
	movzbl	64(%rsp), %r14d
	movl	72(%rsp), %r12d
	je	.LBB_dba5ac_205
	movq	16(%r9), %rdx
	xorl	%eax, %eax
	xorl	%esi, %esi
.LBB_dba5ac_82:
	movzbl	(%rdx,%rsi), %edi
	addb	$-48, %dil
	cmpb	$9, %dil
	ja	.LBB_dba5ac_202
	leaq	(%rax,%rax,4), %rax
	movzbl	%dil, %edi
	leaq	(%rdi,%rax,2), %rax
	cmpq	$2147483647, %rax
	ja	.LBB_dba5ac_202
	incq	%rsi
	cmpq	%rsi, %rcx
	jne	.LBB_dba5ac_82
	movq	40(%r9), %rcx
	testq	%rcx, %rcx
	je	.LBB_dba5ac_202
	movq	32(%r9), %rsi
	xorl	%edx, %edx
	xorl	%edi, %edi
.LBB_dba5ac_87:
	movzbl	(%rsi,%rdi), %r8d
	addb	$-48, %r8b
	cmpb	$9, %r8b
	ja	.LBB_dba5ac_202
	leaq	(%rdx,%rdx,4), %rdx
	movzbl	%r8b, %r8d
	leaq	(%r8,%rdx,2), %rdx
	cmpq	$2147483647, %rdx
	ja	.LBB_dba5ac_202
	incq	%rdi
	cmpq	%rdi, %rcx
	jne	.LBB_dba5ac_87
	movd	%eax, %xmm0
	pinsrd	$1, %edx, %xmm0
	movdqa	%xmm0, 304(%rsp)
	movb	$1, %al
	jmp	.LBB_dba5ac_203
.LBB_dba5ac_91:
	movl	%r14d, %eax
	xorb	$99, %al
	movl	%r15d, %ecx
	xorb	$108, %cl
	orb	%al, %cl
	movl	%esi, %eax
	xorb	$101, %al
	orb	%cl, %al
	movl	%r12d, %ecx
	xorb	$97, %cl
	orb	%al, %cl
	jne	.LBB_dba5ac_98
	leaq	.Lstatic.3(%rip), %rdx
	movb	%sil, 96(%rsp)
	movl	$5, %esi
	movq	%rbx, %rdi
	callq	"core::cmp::slices::groups_equal::<i8,31'core::cmp::numbers::U8PartialEq{}>"
	movzbl	96(%rsp), %esi
	movq	40(%rsp), %rdx
	movq	56(%rsp), %r11
	movq	48(%rsp), %r10
	testb	%al, %al
	je	.LBB_dba5ac_98
	movl	$0, 184(%rsp)
	movq	$0, 176(%rsp)
	movb	$1, %al
	jmp	.LBB_dba5ac_97
.LBB_dba5ac_94:
	movl	%r14d, %eax
	xorb	$107, %al
	movl	%r12d, %ecx
	xorb	$101, %cl
	orb	%al, %cl
	movl	%r15d, %eax
	xorb	$101, %al
	orb	%cl, %al
	movl	%esi, %ecx
	xorb	$112, %cl
	orb	%al, %cl
	jne	.LBB_dba5ac_108
	leaq	.Lstatic.9(%rip), %rdx
	movb	%sil, 96(%rsp)
	movl	$4, %esi
	movq	%rbx, %rdi
	callq	"core::cmp::slices::groups_equal::<i8,31'core::cmp::numbers::U8PartialEq{}>"
	movzbl	96(%rsp), %esi
	movq	40(%rsp), %rdx
	movq	56(%rsp), %r11
	movq	48(%rsp), %r10
	testb	%al, %al
	je	.LBB_dba5ac_108
	movl	$0, 184(%rsp)
	movq	$0, 176(%rsp)
	movb	$4, %al
.LBB_dba5ac_97:
	movq	%rax, 104(%rsp)
	movq	176(%rsp), %rax
	movq	%rax, 424(%rsp)
	movl	184(%rsp), %eax
	movl	%eax, 432(%rsp)
	pxor	%xmm0, %xmm0
	movdqa	%xmm0, 304(%rsp)
	xorl	%ecx, %ecx
	movq	$0, 112(%rsp)
	movq	$0, 120(%rsp)
	movq	$0, 160(%rsp)
	movq	$0, 264(%rsp)
	xorl	%esi, %esi
	xorl	%edi, %edi
	xorl	%r8d, %r8d
	xorl	%ebx, %ebx
	movq	88(%rsp), %r15
	movzbl	64(%rsp), %r14d
	movq	80(%rsp), %r9
	movl	72(%rsp), %r12d
	jmp	.LBB_dba5ac_170
.LBB_dba5ac_98:
	cmpb	$112, %r14b
	jne	.LBB_dba5ac_240
	cmpb	$97, %r15b
	jne	.LBB_dba5ac_240
	cmpb	$105, %sil
	jne	.LBB_dba5ac_240
	cmpb	$110, %r12b
	jne	.LBB_dba5ac_240
	leaq	.Lstatic.7(%rip), %rdx
	movl	$5, %esi
	movq	%rbx, %rdi
	callq	"core::cmp::slices::groups_equal::<i8,31'core::cmp::numbers::U8PartialEq{}>"
	movq	40(%rsp), %rdx
	movq	56(%rsp), %r11
	movq	48(%rsp), %r10
	testb	%al, %al
	je	.LBB_dba5ac_240
	xorps	%xmm1, %xmm1
	pxor	%xmm0, %xmm0
	movdqa	%xmm0, 304(%rsp)
	movaps	%xmm1, 128(%rsp)
	movl	$0, 144(%rsp)
	cmpq	$6, %rdx
	jne	.LBB_dba5ac_124
	movq	80(%rsp), %r12
	movq	16(%r12), %rdi
	movq	24(%r12), %rsi
	callq	"pix_ops::ops::Op::from_name"
	cmpb	$1, %al
	movq	88(%rsp), %r15
	movzbl	64(%rsp), %r14d
	jne	.LBB_dba5ac_125
	movq	%rdx, 160(%rsp)
	movq	32(%r12), %rsi
	movq	40(%r12), %rdx
	movq	56(%r12), %r8
	movq	48(%r12), %rcx
	movdqu	72(%r12), %xmm0
	movq	64(%r12), %r9
	movq	88(%r12), %rax
	movq	%rax, 16(%rsp)
	movdqu	%xmm0, (%rsp)
	leaq	128(%rsp), %rdi
	callq	"pix_script::parse::region"
	cmpb	$1, 128(%rsp)
	jne	.LBB_dba5ac_125
	movq	96(%r12), %rsi
	movq	104(%r12), %rdx
	leaq	195(%rsp), %rdi
	callq	"pix_script::number::color"
	cmpb	$1, 195(%rsp)
	jne	.LBB_dba5ac_125
	movl	196(%rsp), %eax
	movq	%rax, 112(%rsp)
	movq	132(%rsp), %xmm0
	movdqa	%xmm0, 304(%rsp)
	movq	140(%rsp), %rax
	movq	%rax, 120(%rsp)
	movq	$0, 224(%rsp)
	movl	$0, 232(%rsp)
	movb	$3, %al
	movq	%rax, 104(%rsp)
	movb	$1, %al
	jmp	.LBB_dba5ac_126
.LBB_dba5ac_108:
	xorb	$99, %r14b
	xorb	$111, %r12b
	orb	%r14b, %r12b
	setne	%al
	jne	.LBB_dba5ac_116
	cmpb	$112, %r15b
	jne	.LBB_dba5ac_116
	cmpb	$121, %sil
	jne	.LBB_dba5ac_116
	leaq	.Lstatic.10(%rip), %rdx
	movl	$4, %esi
	movq	%rbx, %rdi
	callq	"core::cmp::slices::groups_equal::<i8,31'core::cmp::numbers::U8PartialEq{}>"
	movq	40(%rsp), %rdx
	movq	56(%rsp), %r11
	movq	48(%rsp), %r10
	testb	%al, %al
	je	.LBB_dba5ac_240
	xorps	%xmm1, %xmm1
	pxor	%xmm0, %xmm0
	movdqa	%xmm0, 304(%rsp)
	movaps	%xmm1, 128(%rsp)
	movl	$0, 144(%rsp)
	cmpq	$6, %rdx
	jne	.LBB_dba5ac_128
	movq	80(%rsp), %r12
	movq	16(%r12), %rsi
	movq	24(%r12), %rdx
	movq	40(%r12), %r8
	movq	32(%r12), %rcx
	movq	88(%r12), %rax
	movq	80(%r12), %rbx
	movq	104(%r12), %r14
	movq	96(%r12), %r15
	movq	%r14, 16(%rsp)
	movq	%r15, 8(%rsp)
	movq	%rax, 96(%rsp)
	movq	%rax, (%rsp)
	leaq	128(%rsp), %rdi
	movq	%rbx, %r9
	callq	"pix_script::parse::region"
	cmpb	$1, 128(%rsp)
	jne	.LBB_dba5ac_135
	movq	132(%rsp), %xmm0
	movdqa	%xmm0, 288(%rsp)
	movq	140(%rsp), %rax
	movq	%rax, 120(%rsp)
	movq	48(%r12), %rsi
	movq	56(%r12), %rdx
	movq	72(%r12), %r8
	movq	64(%r12), %rcx
	movq	%r14, 16(%rsp)
	movq	%r15, 8(%rsp)
	movq	96(%rsp), %rax
	movq	%rax, (%rsp)
	leaq	128(%rsp), %rdi
	movq	%rbx, %r9
	callq	"pix_script::parse::region"
	cmpb	$1, 128(%rsp)
	jne	.LBB_dba5ac_135
	movl	132(%rsp), %eax
	movq	%rax, 112(%rsp)
	leaq	136(%rsp), %rcx
	movq	(%rcx), %rax
	movq	%rax, 272(%rsp)
	movl	8(%rcx), %eax
	movl	%eax, 280(%rsp)
	movb	$1, %al
	movb	$5, %cl
	movq	%rcx, 104(%rsp)
	movdqa	288(%rsp), %xmm0
	movdqa	%xmm0, 304(%rsp)
	jmp	.LBB_dba5ac_136
.LBB_dba5ac_116:
	cmpb	$109, %r15b
	setne	%cl
	orb	%cl, %al
	jne	.LBB_dba5ac_240
	cmpb	$112, %sil
	jne	.LBB_dba5ac_240
	leaq	.Lstatic.12(%rip), %rdx
	movl	$4, %esi
	movq	%rbx, %rdi
	callq	"core::cmp::slices::groups_equal::<i8,31'core::cmp::numbers::U8PartialEq{}>"
	movq	40(%rsp), %rdx
	movq	56(%rsp), %r11
	movq	48(%rsp), %r10
	testb	%al, %al
	je	.LBB_dba5ac_240
	xorps	%xmm1, %xmm1
	pxor	%xmm0, %xmm0
	movdqa	%xmm0, 304(%rsp)
	movaps	%xmm1, 128(%rsp)
	movl	$0, 144(%rsp)
	cmpq	$7, %rdx
	jne	.LBB_dba5ac_129
	movq	80(%rsp), %r12
	movq	16(%r12), %rdi
	movq	24(%r12), %rsi
	callq	"pix_ops::ops::Op::from_name"
	cmpb	$1, %al
	jne	.LBB_dba5ac_132
	movq	%rdx, 160(%rsp)
	movq	32(%r12), %rsi
	movq	40(%r12), %rdx
	movq	56(%r12), %r8
	movq	48(%r12), %rcx
	movq	104(%r12), %rax
	movq	96(%r12), %rbx
	movq	120(%r12), %r14
	movq	112(%r12), %r15
	movq	%r14, 16(%rsp)
	movq	%r15, 8(%rsp)
	movq	%rax, 96(%rsp)
	movq	%rax, (%rsp)
	leaq	128(%rsp), %rdi
	movq	%rbx, %r9
	callq	"pix_script::parse::region"
	cmpb	$1, 128(%rsp)
	jne	.LBB_dba5ac_132
	movq	132(%rsp), %xmm0
	movdqa	%xmm0, 288(%rsp)
	movq	140(%rsp), %rax
	movq	%rax, 120(%rsp)
	movq	64(%r12), %rsi
	movq	72(%r12), %rdx
	movq	88(%r12), %r8
	movq	80(%r12), %rcx
	movq	%r14, 16(%rsp)
	movq	%r15, 8(%rsp)
	movq	96(%rsp), %rax
	movq	%rax, (%rsp)
	leaq	128(%rsp), %rdi
	movq	%rbx, %r9
	callq	"pix_script::parse::region"
	cmpb	$1, 128(%rsp)
	jne	.LBB_dba5ac_132
	movl	132(%rsp), %eax
	movq	%rax, 112(%rsp)
	leaq	136(%rsp), %rcx
	movq	(%rcx), %rax
	movq	%rax, 200(%rsp)
	movl	8(%rcx), %eax
	movl	%eax, 208(%rsp)
	movb	$1, %al
	movb	$6, %cl
	movq	%rcx, 104(%rsp)
	movdqa	288(%rsp), %xmm0
	movdqa	%xmm0, 304(%rsp)
	jmp	.LBB_dba5ac_133
.LBB_dba5ac_124:
	movl	$0, 232(%rsp)
	movq	$0, 224(%rsp)
	movq	$0, 120(%rsp)
	xorl	%eax, %eax
	movq	$0, 104(%rsp)
	movq	$0, 160(%rsp)
	movq	$0, 112(%rsp)
	movq	88(%rsp), %r15
	movzbl	64(%rsp), %r14d
	movl	72(%rsp), %r12d
	jmp	.LBB_dba5ac_127
.LBB_dba5ac_125:
	movl	$0, 232(%rsp)
	movq	$0, 224(%rsp)
	movq	$0, 120(%rsp)
	xorl	%eax, %eax
	movq	$0, 104(%rsp)
	movq	$0, 160(%rsp)
	movq	$0, 112(%rsp)
.LBB_dba5ac_126:
	movq	48(%rsp), %r10
	movq	56(%rsp), %r11
	movl	72(%rsp), %r12d
	movq	40(%rsp), %rdx
.LBB_dba5ac_127:
	movq	224(%rsp), %rcx
	movq	%rcx, 176(%rsp)
	movl	232(%rsp), %ecx
	movl	%ecx, 184(%rsp)
	movl	$6, %edi
	leaq	.Lstatic.8(%rip), %rcx
	movq	%rcx, 96(%rsp)
	xorl	%esi, %esi
	movq	$0, 264(%rsp)
	jmp	.LBB_dba5ac_138
.LBB_dba5ac_128:
	movl	$0, 280(%rsp)
	movq	$0, 272(%rsp)
	movq	$0, 112(%rsp)
	movq	$0, 120(%rsp)
	movq	$0, 104(%rsp)
	xorl	%eax, %eax
	movq	88(%rsp), %r15
	movzbl	64(%rsp), %r14d
	movl	72(%rsp), %r12d
	jmp	.LBB_dba5ac_137
.LBB_dba5ac_129:
	movl	$0, 208(%rsp)
	movq	$0, 200(%rsp)
	movq	$0, 160(%rsp)
	movq	$0, 104(%rsp)
	movq	$0, 120(%rsp)
	movq	$0, 112(%rsp)
	xorl	%eax, %eax
	movq	88(%rsp), %r15
	movzbl	64(%rsp), %r14d
	movl	72(%rsp), %r12d
	jmp	.LBB_dba5ac_134
.LBB_dba5ac_130:
	xorl	%eax, %eax
	movq	88(%rsp), %r15
	movzbl	64(%rsp), %r14d
	movq	80(%rsp), %r9
	movl	72(%rsp), %r12d
	jmp	.LBB_dba5ac_206
.LBB_dba5ac_131:
	movl	$0, 248(%rsp)
	movq	$0, 240(%rsp)
	movq	$0, 120(%rsp)
	xorl	%eax, %eax
	movq	$0, 104(%rsp)
	movq	$0, 112(%rsp)
	movq	88(%rsp), %r15
	movzbl	64(%rsp), %r14d
	movq	80(%rsp), %r9
	movl	72(%rsp), %r12d
	jmp	.LBB_dba5ac_212
.LBB_dba5ac_132:
	movl	$0, 208(%rsp)
	movq	$0, 200(%rsp)
	movq	$0, 160(%rsp)
	movq	$0, 104(%rsp)
	movq	$0, 120(%rsp)
	movq	$0, 112(%rsp)
	xorl	%eax, %eax
.LBB_dba5ac_133:
	movq	48(%rsp), %r10
	movq	56(%rsp), %r11
	movq	88(%rsp), %r15
	movzbl	64(%rsp), %r14d
	movl	72(%rsp), %r12d
	movq	40(%rsp), %rdx
.LBB_dba5ac_134:
	movq	200(%rsp), %rcx
	movq	%rcx, 176(%rsp)
	movl	208(%rsp), %ecx
	movl	%ecx, 184(%rsp)
	movb	$1, %cl
	movq	%rcx, 264(%rsp)
	movl	$7, %edi
	leaq	.Lstatic.13(%rip), %rcx
	movq	%rcx, 96(%rsp)
	xorl	%esi, %esi
	jmp	.LBB_dba5ac_138
.LBB_dba5ac_135:
	movl	$0, 280(%rsp)
	movq	$0, 272(%rsp)
	movq	$0, 112(%rsp)
	movq	$0, 120(%rsp)
	movq	$0, 104(%rsp)
	xorl	%eax, %eax
.LBB_dba5ac_136:
	movq	48(%rsp), %r10
	movq	56(%rsp), %r11
	movq	88(%rsp), %r15
	movzbl	64(%rsp), %r14d
	movl	72(%rsp), %r12d
	movq	40(%rsp), %rdx
.LBB_dba5ac_137:
	movq	272(%rsp), %rcx
	movq	%rcx, 176(%rsp)
	movl	280(%rsp), %ecx
	movl	%ecx, 184(%rsp)
	movb	$1, %cl
	movq	%rcx, 264(%rsp)
	movl	$6, %edi
	leaq	.Lstatic.11(%rip), %rcx
	movq	%rcx, 96(%rsp)
	xorl	%esi, %esi
	movq	$0, 160(%rsp)
.LBB_dba5ac_138:
	movq	80(%rsp), %r9
.LBB_dba5ac_139:
	movq	176(%rsp), %rcx
	movq	%rcx, 424(%rsp)
	movl	184(%rsp), %ecx
	movl	%ecx, 432(%rsp)
	xorl	%r8d, %r8d
	xorl	%ecx, %ecx
	testb	%al, %al
	je	.LBB_dba5ac_141
	xorl	%ebx, %ebx
	jmp	.LBB_dba5ac_170
.LBB_dba5ac_141:
	xorl	%r12d, %r12d
	xorl	%r8d, %r8d
	xorl	%ebx, %ebx
	xorl	%r13d, %r13d
	movl	%esi, 288(%rsp)
	movq	%rdi, %r15
	jmp	.LBB_dba5ac_146
.LBB_dba5ac_142:
	xorl	%eax, %eax
	movb	$1, %cl
.LBB_dba5ac_143:
	xorl	%edi, %edi
.LBB_dba5ac_144:
	testb	$1, %r13b
	movzbl	%dil, %edx
	movl	$1, %esi
	cmovnel	%esi, %edx
	testb	$1, %bl
	movzbl	%cl, %ecx
	cmovnel	%esi, %ecx
	testb	$1, %r14b
	movzbl	%al, %eax
	cmovnel	%esi, %eax
	movl	%edx, %r13d
	movl	%ecx, %ebx
	movl	%eax, %r8d
	movq	80(%rsp), %r9
	movq	40(%rsp), %rdx
	movl	288(%rsp), %esi
	movq	%r15, %rdi
.LBB_dba5ac_145:
	incq	%r12
	cmpq	%rdi, %r12
	je	.LBB_dba5ac_169
.LBB_dba5ac_146:
	cmpq	%rdx, %r12
	jae	.LBB_dba5ac_145
	movl	%r8d, %r14d
	movq	%r12, %rax
	shlq	$4, %rax
	movq	96(%rsp), %rcx
	movzbl	(%rcx,%r12), %ecx
	movq	16(%r9,%rax), %rsi
	movq	24(%r9,%rax), %rdx
	leaq	.LJTI_dba5ac_0(%rip), %rax
	movslq	(%rax,%rcx,4), %rcx
	addq	%rax, %rcx
	jmpq	*%rcx
.LBB_dba5ac_148:
	movq	%rsi, %rdi
	movq	%rdx, %rsi
	callq	"pix_ops::ops::Op::from_name"
	movq	56(%rsp), %r11
	movq	48(%rsp), %r10
	cmpb	$1, %al
	setne	%dil
	xorl	%eax, %eax
	xorl	%ecx, %ecx
	jmp	.LBB_dba5ac_144
.LBB_dba5ac_149:
	movb	$1, %cl
	testq	%rdx, %rdx
	je	.LBB_dba5ac_164
	xorl	%edi, %edi
	xorl	%eax, %eax
	.p2align	4
.LBB_dba5ac_151:
	movzbl	(%rsi,%rax), %r8d
	addb	$-48, %r8b
	cmpb	$9, %r8b
	ja	.LBB_dba5ac_164
	leaq	(%rdi,%rdi,4), %rdi
	movzbl	%r8b, %r8d
	leaq	(%r8,%rdi,2), %rdi
	cmpq	$2147483647, %rdi
	ja	.LBB_dba5ac_164
	incq	%rax
	cmpq	%rax, %rdx
	jne	.LBB_dba5ac_151
	xorl	%eax, %eax
	jmp	.LBB_dba5ac_156
.LBB_dba5ac_155:
	leaq	128(%rsp), %rdi
	callq	"pix_script::number::color"
	movq	56(%rsp), %r11
	movq	48(%rsp), %r10
	cmpb	$1, 128(%rsp)
	setne	%al
.LBB_dba5ac_156:
	xorl	%ecx, %ecx
	jmp	.LBB_dba5ac_143
.LBB_dba5ac_157:
	testq	%rdx, %rdx
	je	.LBB_dba5ac_142
	cmpb	$45, (%rsi)
	jne	.LBB_dba5ac_165
	cmpq	$1, %rdx
	je	.LBB_dba5ac_142
	movl	$1, %r8d
	xorl	%r9d, %r9d
	.p2align	4
.LBB_dba5ac_161:
	movzbl	(%rsi,%r8), %eax
	addb	$-48, %al
	cmpb	$9, %al
	ja	.LBB_dba5ac_142
	leaq	(%r9,%r9,4), %rcx
	movzbl	%al, %eax
	leaq	(%rax,%rcx,2), %r9
	movl	$2147483648, %eax
	cmpq	%rax, %r9
	ja	.LBB_dba5ac_142
	incq	%r8
	xorl	%eax, %eax
	movl	$0, %ecx
	movl	$0, %edi
	cmpq	%r8, %rdx
	jne	.LBB_dba5ac_161
	jmp	.LBB_dba5ac_144
.LBB_dba5ac_164:
	xorl	%eax, %eax
	jmp	.LBB_dba5ac_143
.LBB_dba5ac_165:
	xorl	%r9d, %r9d
	xorl	%r8d, %r8d
	.p2align	4
.LBB_dba5ac_166:
	movzbl	(%rsi,%r8), %eax
	addb	$-48, %al
	cmpb	$9, %al
	ja	.LBB_dba5ac_142
	leaq	(%r9,%r9,4), %rcx
	movzbl	%al, %eax
	leaq	(%rax,%rcx,2), %r9
	cmpq	$2147483647, %r9
	ja	.LBB_dba5ac_142
	incq	%r8
	xorl	%eax, %eax
	movl	$0, %ecx
	movl	$0, %edi
	cmpq	%r8, %rdx
	jne	.LBB_dba5ac_166
	jmp	.LBB_dba5ac_144
.LBB_dba5ac_169:
	movb	$1, %cl
	testb	$1, %r13b
	movq	168(%rsp), %r13
	movl	72(%rsp), %r12d
	movzbl	64(%rsp), %r14d
	movq	88(%rsp), %r15
	jne	.LBB_dba5ac_240
.LBB_dba5ac_170:
	cmpq	%rdi, %rdx
	jne	.LBB_dba5ac_309
	movl	%r12d, %eax
	andb	$1, %al
	orb	%sil, %al
	je	.LBB_dba5ac_310
	testb	%r12b, %sil
	jne	.LBB_dba5ac_312
	testb	$1, %bl
	jne	.LBB_dba5ac_313
	testb	$1, %r8b
	jne	.LBB_dba5ac_314
	testb	%sil, %sil
	je	.LBB_dba5ac_185
	testq	%rdx, %rdx
	je	.LBB_dba5ac_185
	xorl	%eax, %eax
	jmp	.LBB_dba5ac_179
	.p2align	4
.LBB_dba5ac_178:
	incq	%rax
	cmpq	40(%rsp), %rax
	movq	80(%rsp), %r9
	je	.LBB_dba5ac_185
.LBB_dba5ac_179:
	movq	%rax, %rsi
	shlq	$4, %rsi
	movq	24(%r9,%rsi), %rdx
	testq	%rdx, %rdx
	je	.LBB_dba5ac_178
	movq	80(%rsp), %rdi
	movq	16(%rdi,%rsi), %rsi
	xorl	%edi, %edi
	xorl	%r8d, %r8d
	.p2align	4
.LBB_dba5ac_181:
	movzbl	(%rsi,%r8), %r9d
	addb	$-48, %r9b
	cmpb	$9, %r9b
	ja	.LBB_dba5ac_178
	leaq	(%rdi,%rdi,4), %rdi
	movzbl	%r9b, %r9d
	leaq	(%r9,%rdi,2), %rdi
	cmpq	$2147483647, %rdi
	ja	.LBB_dba5ac_178
	incq	%r8
	cmpq	%r8, %rdx
	jne	.LBB_dba5ac_181
	cmpq	$1024, %rdi
	jbe	.LBB_dba5ac_178
	jmp	.LBB_dba5ac_303
.LBB_dba5ac_185:
	movq	264(%rsp), %rax
	notb	%al
	movl	440(%rsp), %r9d
	orb	%r9b, %al
	testb	$1, %al
	je	.LBB_dba5ac_315
	movl	432(%rsp), %eax
	movq	424(%rsp), %rdx
	movq	%rdx, 408(%rsp)
	movl	%eax, 416(%rsp)
	testb	%cl, %cl
	jne	.LBB_dba5ac_189
	movq	472(%rsp), %rax
	cmpq	%rax, 480(%rsp)
	je	.LBB_dba5ac_207
.LBB_dba5ac_188:
	movq	464(%rsp), %rcx
	leaq	(%rax,%rax,8), %rdx
	movq	104(%rsp), %rsi
	movb	%sil, (%rcx,%rdx,4)
	movq	160(%rsp), %rsi
	movb	%sil, 1(%rcx,%rdx,4)
	movdqa	304(%rsp), %xmm0
	movq	%xmm0, 4(%rcx,%rdx,4)
	movq	120(%rsp), %rsi
	movq	%rsi, 12(%rcx,%rdx,4)
	movq	112(%rsp), %rsi
	movl	%esi, 20(%rcx,%rdx,4)
	movq	408(%rsp), %rsi
	movq	%rsi, 24(%rcx,%rdx,4)
	movl	416(%rsp), %esi
	movl	%esi, 32(%rcx,%rdx,4)
	incq	%rax
	movq	%rax, 472(%rsp)
.LBB_dba5ac_189:
	movq	320(%rsp), %r8
	andb	$1, %r12b
	je	.LBB_dba5ac_192
	andb	$1, %r9b
	je	.LBB_dba5ac_197
	jmp	.LBB_dba5ac_191
.LBB_dba5ac_192:
	cmpq	$5, 8(%r8)
	jne	.LBB_dba5ac_196
	movq	(%r8), %rdi
	cmpl	$1734438249, (%rdi)
	jne	.LBB_dba5ac_196
	leaq	.Lstatic.1(%rip), %rdx
	movl	$5, %esi
	movl	%r9d, %r12d
	movq	%r15, %rbx
	movq	%r8, %r15
	callq	"core::cmp::slices::groups_equal::<i8,31'core::cmp::numbers::U8PartialEq{}>"
	movq	%r15, %r8
	movq	%rbx, %r15
	movl	%r12d, %r9d
	movq	56(%rsp), %r11
	movq	48(%rsp), %r10
	movl	%eax, %r12d
	andb	$1, %r9b
	jne	.LBB_dba5ac_191
	jmp	.LBB_dba5ac_197
.LBB_dba5ac_196:
	xorl	%r12d, %r12d
	andb	$1, %r9b
	jne	.LBB_dba5ac_191
.LBB_dba5ac_197:
	cmpq	$4, 8(%r8)
	jne	.LBB_dba5ac_200
	movq	(%r8), %rdi
	cmpl	$1885693291, (%rdi)
	jne	.LBB_dba5ac_201
	leaq	.Lstatic.9(%rip), %rdx
	movl	$4, %esi
	movq	%r15, %rbx
	movq	%r8, %r15
	callq	"core::cmp::slices::groups_equal::<i8,31'core::cmp::numbers::U8PartialEq{}>"
	movq	%r15, %r8
	movq	%rbx, %r15
	movq	56(%rsp), %r11
	movq	48(%rsp), %r10
	movl	%eax, %r9d
	movb	%r12b, 488(%rsp)
	movb	%r9b, 489(%rsp)
	testb	%r14b, %r14b
	je	.LBB_dba5ac_33
	jmp	.LBB_dba5ac_214
.LBB_dba5ac_200:
	xorl	%r9d, %r9d
	movb	%r12b, 488(%rsp)
	movb	%r9b, 489(%rsp)
	testb	%r14b, %r14b
	je	.LBB_dba5ac_33
	jmp	.LBB_dba5ac_214
.LBB_dba5ac_201:
	xorl	%r9d, %r9d
	movb	%r12b, 488(%rsp)
	movb	%r9b, 489(%rsp)
	testb	%r14b, %r14b
	je	.LBB_dba5ac_33
	jmp	.LBB_dba5ac_214
.LBB_dba5ac_202:
	xorl	%eax, %eax
.LBB_dba5ac_203:
	movq	40(%rsp), %rdx
	jmp	.LBB_dba5ac_206
.LBB_dba5ac_204:
	movl	$0, 248(%rsp)
	movq	$0, 240(%rsp)
	movq	$0, 120(%rsp)
	xorl	%eax, %eax
	movq	$0, 104(%rsp)
	movq	$0, 112(%rsp)
	movq	48(%rsp), %r10
	movq	56(%rsp), %r11
	movq	%r12, %r9
	jmp	.LBB_dba5ac_211
.LBB_dba5ac_205:
	xorl	%eax, %eax
.LBB_dba5ac_206:
	movl	$0, 184(%rsp)
	movq	$0, 176(%rsp)
	movb	$1, %sil
	movl	$2, %edi
	leaq	.Lstatic.2(%rip), %rcx
	movq	%rcx, 96(%rsp)
	movq	$0, 264(%rsp)
	movq	$0, 104(%rsp)
	movq	$0, 160(%rsp)
	movq	$0, 120(%rsp)
	jmp	.LBB_dba5ac_139
.LBB_dba5ac_207:
	leaq	464(%rsp), %rdi
	callq	"std_alloc::vec::Vec::grow_amortized::<#cdd50f0e5dac12a4>"
	testb	%al, %al
	je	.LBB_dba5ac_399
	movq	472(%rsp), %rax
	movzbl	488(%rsp), %r12d
	movzbl	489(%rsp), %r9d
	movq	48(%rsp), %r10
	movq	56(%rsp), %r11
	jmp	.LBB_dba5ac_188
.LBB_dba5ac_209:
	movl	$0, 248(%rsp)
	movq	$0, 240(%rsp)
	movq	$0, 120(%rsp)
	xorl	%eax, %eax
	movq	$0, 104(%rsp)
	movq	$0, 112(%rsp)
.LBB_dba5ac_210:
	movq	48(%rsp), %r10
	movq	56(%rsp), %r11
	movq	80(%rsp), %r9
.LBB_dba5ac_211:
	movl	72(%rsp), %r12d
	movq	40(%rsp), %rdx
.LBB_dba5ac_212:
	movq	240(%rsp), %rcx
	movq	%rcx, 176(%rsp)
	movl	248(%rsp), %ecx
	movl	%ecx, 184(%rsp)
	movl	$5, %edi
	leaq	.Lstatic.6(%rip), %rcx
	movq	%rcx, 96(%rsp)
	xorl	%esi, %esi
	movq	$0, 264(%rsp)
	movq	$0, 160(%rsp)
	jmp	.LBB_dba5ac_139
.LBB_dba5ac_213:
	movq	128(%rsp), %r12
	movl	$2, %ebp
	movq	$0, 40(%rsp)
	xorl	%r10d, %r10d
	jmp	.LBB_dba5ac_322
.LBB_dba5ac_214:
	movq	464(%rsp), %rbx
	movq	472(%rsp), %r14
	movq	480(%rsp), %r15
	testq	%r11, %r11
	je	.LBB_dba5ac_216
	movq	%r8, %rdi
	callq	rattle_dealloc@PLT
.LBB_dba5ac_216:
	testq	%r14, %r14
	movq	216(%rsp), %r12
	je	.LBB_dba5ac_218
	cmpb	$0, (%rbx)
	je	.LBB_dba5ac_232
.LBB_dba5ac_218:
	movb	$1, %r14b
	leaq	32(%rsp), %rbp
	xorl	%r10d, %r10d
	movq	$0, 40(%rsp)
.LBB_dba5ac_219:
	testq	%r15, %r15
	je	.LBB_dba5ac_221
	movq	%rbx, %rdi
	movq	%r10, %rbx
	callq	rattle_dealloc@PLT
	movq	%rbx, %r10
.LBB_dba5ac_221:
	testb	%r14b, %r14b
	je	.LBB_dba5ac_322
	movl	$1, %r14d
	movq	%rbp, %rbx
	jmp	.LBB_dba5ac_224
	.p2align	4
.LBB_dba5ac_223:
	incq	%r14
	je	.LBB_dba5ac_230
.LBB_dba5ac_224:
	testq	%r10, %r10
	je	.LBB_dba5ac_235
	movl	$1, %edi
	movq	%rbx, %rsi
	movq	%r10, %r15
	movq	%r10, %rdx
	callq	write@PLT
	testq	%rax, %rax
	js	.LBB_dba5ac_228
	je	.LBB_dba5ac_230
	movq	%r15, %r10
	cmpq	%r15, %rax
	cmovaeq	%r15, %rax
	addq	%rax, %rbx
	subq	%rax, %r10
	jmp	.LBB_dba5ac_223
	.p2align	4
.LBB_dba5ac_228:
	leaq	464(%rsp), %rdi
	callq	"std_io::io::error::last_error"
	movq	464(%rsp), %rax
	shrq	$8, %rax
	movaps	.LCPI_dba5ac_0(%rip), %xmm0
	movaps	%xmm0, 464(%rsp)
	movdqa	.LCPI_dba5ac_1(%rip), %xmm0
	movdqa	%xmm0, 480(%rsp)
	movabsq	$2820983053732684064, %rcx
	movq	%rcx, 496(%rsp)
	movb	$40, 504(%rsp)
	cmpb	$41, %al
	jae	.LBB_dba5ac_230
	andl	$63, %eax
	cmpb	$35, 464(%rsp,%rax)
	movq	%r15, %r10
	je	.LBB_dba5ac_223
.LBB_dba5ac_230:
	movb	$2, %r15b
	cmpq	$0, 40(%rsp)
	je	.LBB_dba5ac_238
	movq	%rbp, %rdi
	callq	rattle_dealloc@PLT
.LBB_dba5ac_238:
	xorl	%ebx, %ebx
	jmp	.LBB_dba5ac_239
.LBB_dba5ac_232:
	movl	4(%rbx), %r13d
	movl	8(%rbx), %ecx
	movl	$1, %ebp
	movl	%r13d, %eax
	orl	%ecx, %eax
	js	.LBB_dba5ac_234
	movq	%rcx, 40(%rsp)
	movq	%rcx, %r8
	imulq	%r13, %r8
	cmpq	$2147483647, %r8
	jbe	.LBB_dba5ac_244
.LBB_dba5ac_234:
	xorl	%r14d, %r14d
	xorl	%r10d, %r10d
	movq	$0, 40(%rsp)
	movq	168(%rsp), %r13
	jmp	.LBB_dba5ac_219
.LBB_dba5ac_235:
	movb	$1, %bl
	cmpq	$0, 40(%rsp)
	je	.LBB_dba5ac_237
	movq	%rbp, %rdi
	callq	rattle_dealloc@PLT
.LBB_dba5ac_237:
	xorl	%r15d, %r15d
.LBB_dba5ac_239:
	xorl	%ebp, %ebp
	xorl	%r10d, %r10d
	movq	$0, 40(%rsp)
	testq	%r13, %r13
	jne	.LBB_dba5ac_323
	jmp	.LBB_dba5ac_324
.LBB_dba5ac_240:
	movl	$2, %eax
	jmp	.LBB_dba5ac_316
.LBB_dba5ac_241:
	movb	$1, %bpl
	cmpq	$0, 144(%rsp)
	je	.LBB_dba5ac_243
	movq	128(%rsp), %rdi
	callq	rattle_dealloc@PLT
.LBB_dba5ac_243:
	xorl	%r15d, %r15d
	jmp	.LBB_dba5ac_31
.LBB_dba5ac_244:
	movq	%rbx, 64(%rsp)
	leaq	32(%rsp), %rax
	movq	%rax, %rbx
	testq	%r8, %r8
	movq	%r15, 288(%rsp)
	movq	%r8, 48(%rsp)
	je	.LBB_dba5ac_247
	leaq	(,%r8,4), %r15
	movl	$1, %esi
	movq	%r15, %rdi
	callq	rattle_alloc@PLT
	testb	$1, %al
	je	.LBB_dba5ac_311
	movq	%rdx, %rbx
	movq	%rdx, %rdi
	xorl	%esi, %esi
	movq	%r15, %rdx
	callq	memset@PLT
	movq	48(%rsp), %r8
	leaq	32(%rsp), %rax
.LBB_dba5ac_247:
	movq	$0, 128(%rsp)
	movq	%rax, 136(%rsp)
	pxor	%xmm0, %xmm0
	movdqu	%xmm0, 144(%rsp)
	decq	%r14
	je	.LBB_dba5ac_306
	movq	%r14, 80(%rsp)
	movq	64(%rsp), %rax
	leaq	36(%rax), %r15
	leaq	(,%r8,4), %rax
	movq	%rax, 88(%rsp)
	movl	%r8d, %eax
	andl	$2147483640, %eax
	movq	%rax, 440(%rsp)
	movl	%r8d, %eax
	andl	$3, %eax
	movq	%rax, 72(%rsp)
	xorl	%eax, %eax
	xorl	%r9d, %r9d
	xorl	%r14d, %r14d
	movq	%r15, 56(%rsp)
	jmp	.LBB_dba5ac_251
.LBB_dba5ac_278:
	movq	%rbx, %rsi
	movl	%r9d, 96(%rsp)
	callq	memmove@PLT
	movl	96(%rsp), %r9d
	movq	48(%rsp), %r8
.LBB_dba5ac_249:
	movb	$1, %al
.LBB_dba5ac_250:
	incq	%r14
	cmpq	80(%rsp), %r14
	je	.LBB_dba5ac_304
.LBB_dba5ac_251:
	leaq	(%r14,%r14,8), %rcx
	movzbl	(%r15,%rcx,4), %edx
	cmpl	$4, %edx
	jne	.LBB_dba5ac_262
	testb	$1, %al
	jne	.LBB_dba5ac_249
	cmpl	%r13d, 128(%rsp)
	jne	.LBB_dba5ac_265
	movq	40(%rsp), %rax
	cmpl	%eax, 132(%rsp)
	jne	.LBB_dba5ac_265
	movq	136(%rsp), %rdi
	movq	%rdi, %rcx
	subq	%rbx, %rcx
	movq	88(%rsp), %rdx
	cmpq	%rdx, %rcx
	jae	.LBB_dba5ac_278
	xorl	%eax, %eax
	cmpq	$8, %r8
	jb	.LBB_dba5ac_284
	cmpq	$32, %rcx
	jb	.LBB_dba5ac_284
	xorl	%eax, %eax
	movq	440(%rsp), %rcx
.LBB_dba5ac_259:
	movdqu	(%rbx,%rax,4), %xmm0
	movups	16(%rbx,%rax,4), %xmm1
	movdqu	%xmm0, (%rdi,%rax,4)
	movups	%xmm1, 16(%rdi,%rax,4)
	addq	$8, %rax
	cmpq	%rax, %rcx
	jne	.LBB_dba5ac_259
	movq	%rcx, %rax
	cmpq	%rcx, %r8
	je	.LBB_dba5ac_249
.LBB_dba5ac_284:
	movq	%rax, %rcx
	testb	$3, %r8b
	je	.LBB_dba5ac_287
	movq	72(%rsp), %rdx
	movq	%rax, %rcx
.LBB_dba5ac_286:
	movl	(%rbx,%rcx,4), %esi
	movl	%esi, (%rdi,%rcx,4)
	incq	%rcx
	decq	%rdx
	jne	.LBB_dba5ac_286
.LBB_dba5ac_287:
	subq	%r8, %rax
	cmpq	$-4, %rax
	ja	.LBB_dba5ac_249
.LBB_dba5ac_289:
	movl	(%rbx,%rcx,4), %eax
	movl	%eax, (%rdi,%rcx,4)
	movl	4(%rbx,%rcx,4), %eax
	movl	%eax, 4(%rdi,%rcx,4)
	movl	8(%rbx,%rcx,4), %eax
	movl	%eax, 8(%rdi,%rcx,4)
	movl	12(%rbx,%rcx,4), %eax
	movl	%eax, 12(%rdi,%rcx,4)
	addq	$4, %rcx
	cmpq	%rcx, %r8
	jne	.LBB_dba5ac_289
	jmp	.LBB_dba5ac_249
.LBB_dba5ac_262:
	cmpl	$1, %edx
	sete	%sil
	testb	%sil, %r9b
	movb	$1, %r9b
	jne	.LBB_dba5ac_250
	leaq	(%r15,%rcx,4), %r15
	movq	$0, 536(%rsp)
	pxor	%xmm0, %xmm0
	movdqa	%xmm0, 320(%rsp)
	movdqa	%xmm0, 240(%rsp)
	xorl	%ecx, %ecx
	movl	%edx, %eax
	leaq	.LJTI_dba5ac_1(%rip), %rdx
	movslq	(%rdx,%rax,4), %rax
	addq	%rdx, %rax
	jmpq	*%rax
.LBB_dba5ac_264:
	xorl	%r9d, %r9d
	jmp	.LBB_dba5ac_302
.LBB_dba5ac_265:
	movl	%r9d, 96(%rsp)
	testq	%r8, %r8
	je	.LBB_dba5ac_279
	movl	$1, %esi
	movq	88(%rsp), %r12
	movq	%r12, %rdi
	callq	rattle_alloc@PLT
	testb	$1, %al
	je	.LBB_dba5ac_396
	movq	%rdx, %r15
	movq	%rdx, %rax
	subq	%rbx, %rax
	movq	%r12, %rdx
	cmpq	%r12, %rax
	movq	216(%rsp), %r12
	jae	.LBB_dba5ac_280
	xorl	%eax, %eax
	movq	48(%rsp), %r8
	cmpq	$8, %r8
	jb	.LBB_dba5ac_273
	movq	%r15, %rcx
	subq	%rbx, %rcx
	cmpq	$32, %rcx
	jb	.LBB_dba5ac_273
	xorl	%eax, %eax
	movq	440(%rsp), %rcx
.LBB_dba5ac_271:
	movdqu	(%rbx,%rax,4), %xmm0
	movups	16(%rbx,%rax,4), %xmm1
	movdqu	%xmm0, (%r15,%rax,4)
	movups	%xmm1, 16(%r15,%rax,4)
	addq	$8, %rax
	cmpq	%rax, %rcx
	jne	.LBB_dba5ac_271
	movq	%rcx, %rax
	cmpq	%rcx, %r8
	je	.LBB_dba5ac_281
.LBB_dba5ac_273:
	movq	%rax, %rcx
	cmpq	$0, 72(%rsp)
	je	.LBB_dba5ac_276
	movq	72(%rsp), %rdx
	movq	%rax, %rcx
.LBB_dba5ac_275:
	movl	(%rbx,%rcx,4), %esi
	movl	%esi, (%r15,%rcx,4)
	incq	%rcx
	decq	%rdx
	jne	.LBB_dba5ac_275
.LBB_dba5ac_276:
	subq	%r8, %rax
	cmpq	$-4, %rax
	ja	.LBB_dba5ac_281
.LBB_dba5ac_277:
	movl	(%rbx,%rcx,4), %eax
	movl	%eax, (%r15,%rcx,4)
	movl	4(%rbx,%rcx,4), %eax
	movl	%eax, 4(%r15,%rcx,4)
	movl	8(%rbx,%rcx,4), %eax
	movl	%eax, 8(%r15,%rcx,4)
	movl	12(%rbx,%rcx,4), %eax
	movl	%eax, 12(%r15,%rcx,4)
	addq	$4, %rcx
	cmpq	%rcx, %r8
	jne	.LBB_dba5ac_277
	jmp	.LBB_dba5ac_281
.LBB_dba5ac_279:
	leaq	32(%rsp), %r15
	xorl	%edx, %edx
.LBB_dba5ac_280:
	movq	%r15, %rdi
	movq	%rbx, %rsi
	callq	memmove@PLT
	movq	48(%rsp), %r8
.LBB_dba5ac_281:
	movq	136(%rsp), %rdi
	movl	%r13d, 128(%rsp)
	movq	40(%rsp), %rax
	movl	%eax, 132(%rsp)
	movq	%r15, 136(%rsp)
	movq	%r8, 144(%rsp)
	cmpq	$0, 152(%rsp)
	movq	%r8, 152(%rsp)
	je	.LBB_dba5ac_283
	callq	rattle_dealloc@PLT
	movq	48(%rsp), %r8
.LBB_dba5ac_283:
	movb	$1, %al
	movq	56(%rsp), %r15
	movl	96(%rsp), %r9d
	jmp	.LBB_dba5ac_250
.LBB_dba5ac_291:
	movl	20(%r15), %ecx
	movups	4(%r15), %xmm1
	movaps	%xmm1, 320(%rsp)
	movl	$1, %edx
	xorl	%eax, %eax
	jmp	.LBB_dba5ac_296
.LBB_dba5ac_292:
	movzbl	1(%r15), %eax
	movl	20(%r15), %ecx
	movups	4(%r15), %xmm1
	movaps	%xmm1, 320(%rsp)
	movl	$3, %edx
	jmp	.LBB_dba5ac_296
.LBB_dba5ac_293:
	xorl	%edx, %edx
	xorl	%eax, %eax
	jmp	.LBB_dba5ac_296
.LBB_dba5ac_294:
	movzbl	1(%r15), %esi
	movups	4(%r15), %xmm1
	movaps	%xmm1, 320(%rsp)
	movups	20(%r15), %xmm1
	movaps	%xmm1, 240(%rsp)
	leaq	128(%rsp), %rax
	movl	$4, %edx
	jmp	.LBB_dba5ac_297
.LBB_dba5ac_295:
	movups	4(%r15), %xmm1
	movaps	%xmm1, 320(%rsp)
	movups	20(%r15), %xmm1
	movaps	%xmm1, 240(%rsp)
	leaq	128(%rsp), %rax
	xorl	%ecx, %ecx
	movl	$2, %edx
.LBB_dba5ac_296:
	xorl	%esi, %esi
.LBB_dba5ac_297:
	movaps	320(%rsp), %xmm1
	leaq	468(%rsp), %rdi
	movups	%xmm1, (%rdi)
	movaps	240(%rsp), %xmm1
	movups	%xmm1, 28(%rdi)
	movl	%edx, 464(%rsp)
	movl	%ecx, 484(%rsp)
	movq	%rax, 488(%rsp)
	movq	%rsi, 512(%rsp)
	movdqu	%xmm0, 52(%rdi)
	movb	$0, 68(%rdi)
	leaq	464(%rsp), %rcx
	movq	%rcx, 320(%rsp)
	movq	$0, 328(%rsp)
	movl	%r13d, 336(%rsp)
	movq	40(%rsp), %rcx
	movl	%ecx, 340(%rsp)
	movq	%r13, 344(%rsp)
	cmpl	$3, %edx
	jae	.LBB_dba5ac_299
	xorl	%eax, %eax
	jmp	.LBB_dba5ac_301
.LBB_dba5ac_299:
	je	.LBB_dba5ac_301
	movq	%rsi, %rax
.LBB_dba5ac_301:
	movzbl	%al, %edi
	leaq	320(%rsp), %rsi
	movq	%rbx, %rdx
	callq	"pix_ops::ops::Op::visit_slice::<#cb634639e69df956>"
	cmpb	$1, (%r15)
	sete	%r9b
	movq	48(%rsp), %r8
.LBB_dba5ac_302:
	xorl	%eax, %eax
	movq	56(%rsp), %r15
	jmp	.LBB_dba5ac_250
.LBB_dba5ac_303:
	movl	$6, %eax
	jmp	.LBB_dba5ac_316
.LBB_dba5ac_304:
	cmpq	$0, 152(%rsp)
	je	.LBB_dba5ac_306
	movq	136(%rsp), %rdi
	callq	rattle_dealloc@PLT
	movq	48(%rsp), %r8
.LBB_dba5ac_306:
	testl	%r13d, %r13d
	je	.LBB_dba5ac_368
	leaq	(%r8,%r8,8), %r15
	cmpl	$0, 40(%rsp)
	je	.LBB_dba5ac_372
	movl	$1, %esi
	movq	%r15, %rdi
	callq	rattle_alloc@PLT
	testb	$1, %al
	jne	.LBB_dba5ac_373
	jmp	.LBB_dba5ac_385
.LBB_dba5ac_309:
	movl	$3, %eax
	jmp	.LBB_dba5ac_316
.LBB_dba5ac_310:
	movq	$0, 40(%rsp)
	jmp	.LBB_dba5ac_317
.LBB_dba5ac_311:
	xorl	%r14d, %r14d
	movl	$1, %ebp
	jmp	.LBB_dba5ac_388
.LBB_dba5ac_312:
	movl	$1, %eax
	jmp	.LBB_dba5ac_316
.LBB_dba5ac_313:
	movl	$4, %eax
	jmp	.LBB_dba5ac_316
.LBB_dba5ac_314:
	movl	$5, %eax
	jmp	.LBB_dba5ac_316
.LBB_dba5ac_315:
	movl	$7, %eax
.LBB_dba5ac_316:
	movq	%rax, 40(%rsp)
.LBB_dba5ac_317:
	xorl	%ebp, %ebp
	movq	216(%rsp), %r12
.LBB_dba5ac_318:
	testq	%r11, %r11
	je	.LBB_dba5ac_320
	movq	320(%rsp), %rdi
	movq	%r10, %rbx
	callq	rattle_dealloc@PLT
	movq	%rbx, %r10
.LBB_dba5ac_320:
	cmpq	$0, 480(%rsp)
	je	.LBB_dba5ac_322
	movq	464(%rsp), %rdi
	movq	%r10, %rbx
	callq	rattle_dealloc@PLT
	movq	%rbx, %r10
.LBB_dba5ac_322:
	xorl	%ebx, %ebx
	xorl	%r15d, %r15d
	testq	%r13, %r13
	je	.LBB_dba5ac_324
.LBB_dba5ac_323:
	movq	%r12, %rdi
	movq	%r10, %r14
	callq	rattle_dealloc@PLT
	movq	%r14, %r10
.LBB_dba5ac_324:
	xorl	%eax, %eax
	testb	%bl, %bl
	jne	.LBB_dba5ac_361
.LBB_dba5ac_325:
	pxor	%xmm0, %xmm0
	movdqa	%xmm0, 368(%rsp)
	movdqa	%xmm0, 352(%rsp)
	movdqa	%xmm0, 336(%rsp)
	movdqa	%xmm0, 320(%rsp)
	movq	$0, 384(%rsp)
	cmpb	$2, %r15b
	movq	%rbp, 48(%rsp)
	movq	%r15, 56(%rsp)
	je	.LBB_dba5ac_328
	movzbl	%r15b, %eax
	cmpl	$1, %eax
	jne	.LBB_dba5ac_329
	movabsq	$7593462736032458098, %rax
	movq	%rax, 320(%rsp)
	movl	$1684368489, 327(%rsp)
	movl	$11, %r15d
	jmp	.LBB_dba5ac_333
.LBB_dba5ac_328:
	movabsq	$7018332689420350071, %rax
	movq	%rax, 320(%rsp)
	movl	$1684368489, 328(%rsp)
	movl	$12, %r15d
	jmp	.LBB_dba5ac_333
.LBB_dba5ac_329:
	cmpb	$2, %bpl
	je	.LBB_dba5ac_332
	movzbl	%bpl, %eax
	cmpl	$1, %eax
	jne	.LBB_dba5ac_346
	movabsq	$8751179541578063974, %rax
	movq	%rax, 325(%rsp)
	movabsq	$7863397576860792175, %rax
	movq	%rax, 320(%rsp)
	movl	$13, %r15d
	jmp	.LBB_dba5ac_333
.LBB_dba5ac_332:
	movabsq	$7453016943536074612, %rax
	movq	%rax, 326(%rsp)
	movabsq	$8031079720067034729, %rax
	movq	%rax, 320(%rsp)
	movl	$14, %r15d
.LBB_dba5ac_333:
	leaq	.Lstatic.31(%rip), %rcx
	movl	$2, %eax
	.p2align	4
.LBB_dba5ac_334:
	xorl	%ebx, %ebx
	cmpq	$64, %r15
	movl	$64, %r12d
	cmovbq	%r15, %r12
	setb	%bl
	leaq	(%rsp,%r12), %rdi
	addq	$320, %rdi
	movq	%rdi, %rdx
	subq	%rcx, %rdx
	cmpq	%rbx, %rdx
	jae	.LBB_dba5ac_337
	movzbl	(%rcx), %edx
	movb	%dl, 320(%rsp,%r12)
	incq	%r12
	movq	%r12, 384(%rsp)
	incq	%rax
	cmpq	$1, %rax
	je	.LBB_dba5ac_360
	addq	%rbx, %rcx
	cmpq	$64, %r15
	movq	%r12, %r15
	jae	.LBB_dba5ac_334
	jmp	.LBB_dba5ac_338
.LBB_dba5ac_337:
	testq	%rax, %rax
	sete	%bpl
	movl	$10, %esi
	movq	%rbx, %rdx
	callq	memset@PLT
	addq	%rbx, %r12
	movq	%r12, 384(%rsp)
	cmpq	$64, %r15
	setae	%al
	orb	%bpl, %al
	jne	.LBB_dba5ac_360
.LBB_dba5ac_338:
	cmpq	$64, %r12
	movl	$64, %r14d
	cmovbq	%r12, %r14
	movq	$-1, %r15
	xorl	%r12d, %r12d
	jmp	.LBB_dba5ac_342
	.p2align	4
.LBB_dba5ac_339:
	je	.LBB_dba5ac_360
	cmpq	%rbx, %rax
	cmovbq	%rax, %rbx
	addq	%rbx, %r12
.LBB_dba5ac_341:
	decq	%r15
	je	.LBB_dba5ac_360
.LBB_dba5ac_342:
	movq	%r14, %rbx
	subq	%r12, %rbx
	je	.LBB_dba5ac_360
	leaq	(%rsp,%r12), %rsi
	addq	$320, %rsi
	movl	$2, %edi
	movq	%rbx, %rdx
	callq	write@PLT
	testq	%rax, %rax
	jns	.LBB_dba5ac_339
	leaq	464(%rsp), %rdi
	callq	"std_io::io::error::last_error"
	movq	464(%rsp), %rax
	shrq	$8, %rax
	movaps	.LCPI_dba5ac_0(%rip), %xmm0
	movaps	%xmm0, 464(%rsp)
	movdqa	.LCPI_dba5ac_1(%rip), %xmm0
	movdqa	%xmm0, 480(%rsp)
	movabsq	$2820983053732684064, %rcx
	movq	%rcx, 496(%rsp)
	movb	$40, 504(%rsp)
	cmpb	$41, %al
	jae	.LBB_dba5ac_360
	andl	$63, %eax
	cmpb	$35, 464(%rsp,%rax)
	je	.LBB_dba5ac_341
	jmp	.LBB_dba5ac_360
.LBB_dba5ac_346:
	movb	$32, 324(%rsp)
	movl	$1701734764, 320(%rsp)
	movdqa	%xmm0, 464(%rsp)
	movq	$0, 480(%rsp)
	movl	$24, %ecx
	cmpq	$100, %r10
	jb	.LBB_dba5ac_350
	.p2align	4
.LBB_dba5ac_347:
	movq	%r10, %rax
	shrq	$2, %rax
	movabsq	$2951479051793528259, %rdx
	mulq	%rdx
	shrq	$2, %rdx
	imull	$100, %edx, %eax
	movl	%r10d, %esi
	subl	%eax, %esi
	movzbl	%sil, %eax
	imull	$205, %eax, %esi
	shrl	$11, %esi
	leal	(%rsi,%rsi), %edi
	leal	(%rdi,%rdi,4), %edi
	subb	%dil, %al
	orb	$48, %al
	movb	%al, 463(%rsp,%rcx)
	orb	$48, %sil
	movb	%sil, 462(%rsp,%rcx)
	addq	$-2, %rcx
	cmpq	$9999, %r10
	movq	%rdx, %r10
	ja	.LBB_dba5ac_347
	cmpq	$10, %rdx
	jb	.LBB_dba5ac_351
.LBB_dba5ac_349:
	movzbl	%dl, %eax
	imull	$205, %eax, %eax
	shrl	$11, %eax
	leal	(%rax,%rax), %esi
	leal	(%rsi,%rsi,4), %esi
	subb	%sil, %dl
	orb	$48, %dl
	movb	%dl, 463(%rsp,%rcx)
	orb	$48, %al
	movb	%al, 462(%rsp,%rcx)
	addq	$-2, %rcx
	movb	$45, 463(%rsp,%rcx)
	movl	$5, %r15d
	cmpq	$24, %rcx
	je	.LBB_dba5ac_352
	jmp	.LBB_dba5ac_356
.LBB_dba5ac_350:
	movq	%r10, %rdx
	cmpq	$10, %rdx
	jae	.LBB_dba5ac_349
.LBB_dba5ac_351:
	orb	$48, %dl
	movb	%dl, 463(%rsp,%rcx)
	decq	%rcx
	movb	$45, 463(%rsp,%rcx)
	movl	$5, %r15d
	cmpq	$24, %rcx
	jne	.LBB_dba5ac_356
.LBB_dba5ac_352:
	leaq	.Lstatic.35(%rip), %rbx
	movl	$2, %r12d
	movl	$2, %ebp
	.p2align	4
.LBB_dba5ac_353:
	testq	%rbp, %rbp
	je	.LBB_dba5ac_362
	cmpq	$64, %r15
	movl	$64, %r14d
	cmovaeq	%r14, %r15
	setae	80(%rsp)
	subq	%r15, %r14
	cmpq	%rbp, %r14
	leaq	320(%rsp,%r15), %rdi
	cmovaeq	%rbp, %r14
	movq	%rdi, %rax
	subq	%rbx, %rax
	cmpq	%r14, %rax
	setae	%r13b
	movq	%rbx, %rsi
	movq	%r14, %rdx
	callq	memcpy@PLT
	testb	%r13b, 80(%rsp)
	jne	.LBB_dba5ac_360
	addq	%r14, %r15
	addq	%r14, %rbx
	subq	%r14, %rbp
	testq	%r12, %r12
	leaq	1(%r12), %r12
	jne	.LBB_dba5ac_353
	jmp	.LBB_dba5ac_360
.LBB_dba5ac_356:
	leaq	(%rsp,%rcx), %rbx
	addq	$464, %rbx
	movl	$24, %r12d
	subq	%rcx, %r12
	movl	$2, %ebp
	.p2align	4
.LBB_dba5ac_357:
	testq	%r12, %r12
	je	.LBB_dba5ac_352
	cmpq	$64, %r15
	movl	$64, %r14d
	cmovaeq	%r14, %r15
	setae	80(%rsp)
	subq	%r15, %r14
	cmpq	%r12, %r14
	leaq	320(%rsp,%r15), %rdi
	cmovaeq	%r12, %r14
	movq	%rdi, %rax
	subq	%rbx, %rax
	cmpq	%r14, %rax
	setae	%r13b
	movq	%rbx, %rsi
	movq	%r14, %rdx
	callq	memcpy@PLT
	testb	%r13b, 80(%rsp)
	jne	.LBB_dba5ac_360
	addq	%r14, %r15
	addq	%r14, %rbx
	subq	%r14, %r12
	testq	%rbp, %rbp
	leaq	1(%rbp), %rbp
	jne	.LBB_dba5ac_357
.LBB_dba5ac_360:
	xorl	%ecx, %ecx
	cmpb	$1, 48(%rsp)
	sete	%cl
	incl	%ecx
	cmpb	$0, 56(%rsp)
	movl	$3, %eax
	cmovel	%ecx, %eax
.LBB_dba5ac_361:
	addq	$4568, %rsp
	popq	%rbx
	popq	%r12
	popq	%r13
	popq	%r14
	popq	%r15
	popq	%rbp
	retq
.LBB_dba5ac_362:
	leaq	".Lswitch.table.pixpaint::main+start"(%rip), %rax
	movzbl	40(%rsp), %ecx
	movq	(%rax,%rcx,8), %r12
	leaq	".Lswitch.table.pixpaint::main+start.299.rel"(%rip), %rax
	movslq	(%rax,%rcx,4), %rbx
	addq	%rax, %rbx
	movl	$2, %eax
	testq	%r12, %r12
	je	.LBB_dba5ac_333
	.p2align	4
.LBB_dba5ac_363:
	movq	%rax, 80(%rsp)
	cmpq	$64, %r15
	movl	$64, %r14d
	movl	$64, %r13d
	cmovbq	%r15, %r13
	subq	%r13, %r14
	cmpq	%r12, %r14
	cmovaeq	%r12, %r14
	leaq	(%rsp,%r13), %rdi
	addq	$320, %rdi
	movq	%rdi, %rbp
	subq	%rbx, %rbp
	movq	%rbx, %rsi
	movq	%r14, %rdx
	callq	memcpy@PLT
	addq	%r14, %r13
	cmpq	%r14, %rbp
	jae	.LBB_dba5ac_365
	movq	%r13, 384(%rsp)
	movq	80(%rsp), %rax
	jmp	.LBB_dba5ac_366
	.p2align	4
.LBB_dba5ac_365:
	cmpq	$63, %r15
	movq	80(%rsp), %rax
	ja	.LBB_dba5ac_360
.LBB_dba5ac_366:
	testq	%rax, %rax
	je	.LBB_dba5ac_360
	addq	%r14, %rbx
	subq	%r14, %r12
	incq	%rax
	movq	%r13, %r15
	testq	%r12, %r12
	jne	.LBB_dba5ac_363
	jmp	.LBB_dba5ac_333
.LBB_dba5ac_368:
	movq	40(%rsp), %r14
	testl	%r14d, %r14d
	je	.LBB_dba5ac_389
	movl	$1, %esi
	movq	%r14, %rdi
	callq	rattle_alloc@PLT
	testb	$1, %al
	je	.LBB_dba5ac_385
	cmpl	$1, %r14d
	movq	%r14, %r15
	jne	.LBB_dba5ac_390
	xorl	%r10d, %r10d
	movq	%rdx, %rbp
	jmp	.LBB_dba5ac_391
.LBB_dba5ac_372:
	leaq	32(%rsp), %rdx
.LBB_dba5ac_373:
	movq	%rdx, 320(%rsp)
	movq	$0, 328(%rsp)
	movq	%r15, 336(%rsp)
	leaq	464(%rsp), %rdi
	xorl	%r14d, %r14d
	movl	$288, %edx
	xorl	%esi, %esi
	callq	memset@PLT
	movq	48(%rsp), %r12
	movq	%rbx, %rbp
	jmp	.LBB_dba5ac_375
.LBB_dba5ac_374:
	movl	%edx, %eax
	leaq	(%rbp,%rax,4), %rbp
	subq	%rdx, %r12
	leaq	320(%rsp), %rdi
	leaq	464(%rsp), %rsi
	callq	"pix_script::pixel::push_cells"
	testb	%al, %al
	jne	.LBB_dba5ac_383
.LBB_dba5ac_375:
	testq	%r12, %r12
	je	.LBB_dba5ac_382
	cmpq	$32, %r12
	movl	$32, %edx
	cmovbq	%r12, %rdx
	movq	%r14, %rcx
	notq	%rcx
	addq	%r13, %rcx
	cmpq	%rdx, %rcx
	movq	%rdx, %rax
	cmovbq	%rcx, %rax
	testq	%rcx, %rcx
	je	.LBB_dba5ac_379
	xorl	%esi, %esi
	leaq	472(%rsp), %rdi
	.p2align	4
.LBB_dba5ac_378:
	movzbl	(%rbp,%rsi,4), %r8d
	leaq	.Lstatic.28(%rip), %r9
	movzwl	(%r9,%r8,2), %r8d
	movzbl	1(%rbp,%rsi,4), %r10d
	movzwl	(%r9,%r10,2), %r10d
	movzbl	2(%rbp,%rsi,4), %r11d
	movzwl	(%r9,%r11,2), %r11d
	movzbl	3(%rbp,%rsi,4), %r15d
	movzwl	(%r9,%r15,2), %r9d
	movw	%r8w, -8(%rdi)
	movw	%r10w, -6(%rdi)
	movw	%r11w, -4(%rdi)
	movw	%r9w, -2(%rdi)
	movb	$32, (%rdi)
	incq	%rsi
	addq	$9, %rdi
	cmpq	%rsi, %rax
	jne	.LBB_dba5ac_378
.LBB_dba5ac_379:
	addq	%rax, %r14
	cmpq	%rdx, %rcx
	jae	.LBB_dba5ac_374
	leaq	(%rax,%rax,8), %rcx
	leaq	472(%rsp), %rsi
	addq	%rsi, %rcx
	.p2align	4
.LBB_dba5ac_381:
	incq	%r14
	xorl	%esi, %esi
	cmpq	%r13, %r14
	movl	$32, %edi
	movl	$10, %r8d
	cmovbl	%edi, %r8d
	cmovaeq	%rsi, %r14
	movzbl	(%rbp,%rax,4), %esi
	leaq	.Lstatic.28(%rip), %rdi
	movzwl	(%rdi,%rsi,2), %esi
	movzbl	1(%rbp,%rax,4), %r9d
	movzwl	(%rdi,%r9,2), %r9d
	movzbl	2(%rbp,%rax,4), %r10d
	movzwl	(%rdi,%r10,2), %r10d
	movzbl	3(%rbp,%rax,4), %r11d
	movzwl	(%rdi,%r11,2), %edi
	movw	%si, -8(%rcx)
	movw	%r9w, -6(%rcx)
	movw	%r10w, -4(%rcx)
	movw	%di, -2(%rcx)
	movb	%r8b, (%rcx)
	incq	%rax
	addq	$9, %rcx
	cmpq	%rax, %rdx
	jne	.LBB_dba5ac_381
	jmp	.LBB_dba5ac_374
.LBB_dba5ac_382:
	movq	320(%rsp), %rbp
	movq	328(%rsp), %r10
	movq	336(%rsp), %r15
	movq	168(%rsp), %r13
	movq	216(%rsp), %r12
	jmp	.LBB_dba5ac_393
.LBB_dba5ac_383:
	cmpq	$0, 336(%rsp)
	movq	216(%rsp), %r12
	movl	$1, %ebp
	je	.LBB_dba5ac_385
	movq	320(%rsp), %rdi
	callq	rattle_dealloc@PLT
.LBB_dba5ac_385:
	cmpq	$0, 48(%rsp)
	je	.LBB_dba5ac_387
	movq	%rbx, %rdi
	callq	rattle_dealloc@PLT
.LBB_dba5ac_387:
	xorl	%r14d, %r14d
.LBB_dba5ac_388:
	xorl	%r10d, %r10d
	movq	$0, 40(%rsp)
	movq	168(%rsp), %r13
	jmp	.LBB_dba5ac_395
.LBB_dba5ac_389:
	leaq	32(%rsp), %rbp
	xorl	%r10d, %r10d
	xorl	%r15d, %r15d
	jmp	.LBB_dba5ac_392
.LBB_dba5ac_390:
	leaq	-1(%r15), %r14
	movq	%rdx, %rbp
	movq	%rdx, %rdi
	movl	$10, %esi
	movq	%r14, %rdx
	callq	memset@PLT
	movq	%r14, %r10
.LBB_dba5ac_391:
	movb	$10, (%rbp,%r10)
	incq	%r10
.LBB_dba5ac_392:
	movq	168(%rsp), %r13
.LBB_dba5ac_393:
	movq	%r15, 40(%rsp)
	movb	$1, %r14b
	cmpq	$0, 48(%rsp)
	je	.LBB_dba5ac_395
	movq	%rbx, %rdi
	movq	%r10, %rbx
	callq	rattle_dealloc@PLT
	movq	%rbx, %r10
.LBB_dba5ac_395:
	movq	64(%rsp), %rbx
	movq	288(%rsp), %r15
	jmp	.LBB_dba5ac_219
.LBB_dba5ac_396:
	cmpq	$0, 152(%rsp)
	je	.LBB_dba5ac_398
	movq	136(%rsp), %rdi
	callq	rattle_dealloc@PLT
.LBB_dba5ac_398:
	movq	%rbx, %rdi
	callq	rattle_dealloc@PLT
	movl	$1, %ebp
	xorl	%r14d, %r14d
	xorl	%r10d, %r10d
	movq	$0, 40(%rsp)
	movq	168(%rsp), %r13
	movq	64(%rsp), %rbx
	movq	288(%rsp), %r15
	movq	216(%rsp), %r12
	jmp	.LBB_dba5ac_219
.LBB_dba5ac_399:
	movl	$1, %ebp
	xorl	%r10d, %r10d
	movq	$0, 40(%rsp)
	movq	216(%rsp), %r12
	movq	56(%rsp), %r11
	jmp	.LBB_dba5ac_318
.LBB_dba5ac_400:
	movq	336(%rsp), %r11
	xorl	%r10d, %r10d
	movq	$0, 40(%rsp)
	movq	168(%rsp), %r13
	movq	216(%rsp), %r12
	movl	$1, %ebp
	jmp	.LBB_dba5ac_318
.LBB_dba5ac_401:
	ud2
.Lfunc_end_dba5ac:
	.size	"pixpaint::main+start", .Lfunc_end_dba5ac-"pixpaint::main+start"
	.section	".rodata.pixpaint::main+start","a",@progbits
	.p2align	2, 0x0
.LJTI_dba5ac_0:
	.long	.LBB_dba5ac_148-.LJTI_dba5ac_0
	.long	.LBB_dba5ac_157-.LJTI_dba5ac_0
	.long	.LBB_dba5ac_149-.LJTI_dba5ac_0
	.long	.LBB_dba5ac_155-.LJTI_dba5ac_0
.LJTI_dba5ac_1:
	.long	.LBB_dba5ac_264-.LJTI_dba5ac_1
	.long	.LBB_dba5ac_293-.LJTI_dba5ac_1
	.long	.LBB_dba5ac_291-.LJTI_dba5ac_1
	.long	.LBB_dba5ac_292-.LJTI_dba5ac_1
	.long	.LBB_dba5ac_401-.LJTI_dba5ac_1
	.long	.LBB_dba5ac_295-.LJTI_dba5ac_1
	.long	.LBB_dba5ac_294-.LJTI_dba5ac_1

	.section	".text.std_io::io::error::last_error","ax",@progbits
	.p2align	4
	.type	"std_io::io::error::last_error",@function
"std_io::io::error::last_error":
	pushq	%rbx
	movq	%rdi, %rbx
	callq	rattle_errno@PLT
	movl	%eax, %ecx
	movb	$41, %dl
	testl	%eax, %eax
	js	.LBB_bca4a5_40
	decl	%eax
	cmpl	$121, %eax
	ja	.LBB_bca4a5_40
	leaq	.LJTI_bca4a5_0(%rip), %rsi
	movslq	(%rsi,%rax,4), %rax
	addq	%rsi, %rax
	jmpq	*%rax
.LBB_bca4a5_3:
	movb	$1, %dl
	jmp	.LBB_bca4a5_40
.LBB_bca4a5_24:
	movb	$36, %dl
	jmp	.LBB_bca4a5_40
.LBB_bca4a5_36:
	movb	$4, %dl
	jmp	.LBB_bca4a5_40
.LBB_bca4a5_33:
	movb	$7, %dl
	jmp	.LBB_bca4a5_40
.LBB_bca4a5_39:
	movb	$26, %dl
	jmp	.LBB_bca4a5_40
.LBB_bca4a5_37:
	movb	$39, %dl
	jmp	.LBB_bca4a5_40
.LBB_bca4a5_28:
	movb	$9, %dl
	jmp	.LBB_bca4a5_40
.LBB_bca4a5_27:
	movb	$8, %dl
	jmp	.LBB_bca4a5_40
.LBB_bca4a5_22:
	movb	$30, %dl
	jmp	.LBB_bca4a5_40
.LBB_bca4a5_18:
	movb	$25, %dl
	jmp	.LBB_bca4a5_40
.LBB_bca4a5_20:
	movb	$32, %dl
	jmp	.LBB_bca4a5_40
.LBB_bca4a5_23:
	movb	$33, %dl
	jmp	.LBB_bca4a5_40
.LBB_bca4a5_34:
	movb	$22, %dl
	jmp	.LBB_bca4a5_40
.LBB_bca4a5_11:
	movb	$31, %dl
	jmp	.LBB_bca4a5_40
.LBB_bca4a5_15:
	movb	$29, %dl
	jmp	.LBB_bca4a5_40
.LBB_bca4a5_26:
	movb	$18, %dl
	jmp	.LBB_bca4a5_40
.LBB_bca4a5_29:
	movb	$10, %dl
	jmp	.LBB_bca4a5_40
.LBB_bca4a5_9:
	movb	$28, %dl
	jmp	.LBB_bca4a5_40
.LBB_bca4a5_12:
	movb	$14, %dl
	jmp	.LBB_bca4a5_40
.LBB_bca4a5_10:
	movb	$12, %dl
	jmp	.LBB_bca4a5_40
.LBB_bca4a5_30:
	movb	$5, %dl
	jmp	.LBB_bca4a5_40
.LBB_bca4a5_32:
	movb	$3, %dl
	jmp	.LBB_bca4a5_40
.LBB_bca4a5_4:
	xorl	%edx, %edx
	jmp	.LBB_bca4a5_40
.LBB_bca4a5_7:
	movb	$13, %dl
	jmp	.LBB_bca4a5_40
.LBB_bca4a5_8:
	movb	$38, %dl
	jmp	.LBB_bca4a5_40
.LBB_bca4a5_21:
	movb	$11, %dl
	jmp	.LBB_bca4a5_40
.LBB_bca4a5_5:
	movb	$35, %dl
	jmp	.LBB_bca4a5_40
.LBB_bca4a5_6:
	movb	$34, %dl
	jmp	.LBB_bca4a5_40
.LBB_bca4a5_14:
	movb	$20, %dl
	jmp	.LBB_bca4a5_40
.LBB_bca4a5_13:
	movb	$15, %dl
	jmp	.LBB_bca4a5_40
.LBB_bca4a5_38:
	movb	$19, %dl
	jmp	.LBB_bca4a5_40
.LBB_bca4a5_25:
	movb	$16, %dl
	jmp	.LBB_bca4a5_40
.LBB_bca4a5_31:
	movb	$6, %dl
	jmp	.LBB_bca4a5_40
.LBB_bca4a5_16:
	movb	$27, %dl
	jmp	.LBB_bca4a5_40
.LBB_bca4a5_17:
	movb	$24, %dl
	jmp	.LBB_bca4a5_40
.LBB_bca4a5_35:
	movb	$2, %dl
	jmp	.LBB_bca4a5_40
.LBB_bca4a5_19:
	movb	$17, %dl
.LBB_bca4a5_40:
	movb	$0, (%rbx)
	movb	%dl, 1(%rbx)
	movw	$0, 2(%rbx)
	movl	%ecx, 4(%rbx)
	xorps	%xmm0, %xmm0
	movups	%xmm0, 8(%rbx)
	movups	%xmm0, 24(%rbx)
	movups	%xmm0, 40(%rbx)
	movups	%xmm0, 56(%rbx)
	movups	%xmm0, 72(%rbx)
	popq	%rbx
	retq
.Lfunc_end_bca4a5:
	.size	"std_io::io::error::last_error", .Lfunc_end_bca4a5-"std_io::io::error::last_error"
	.section	".rodata.std_io::io::error::last_error","a",@progbits
	.p2align	2, 0x0
.LJTI_bca4a5_0:
	.long	.LBB_bca4a5_3-.LJTI_bca4a5_0
	.long	.LBB_bca4a5_4-.LJTI_bca4a5_0
	.long	.LBB_bca4a5_40-.LJTI_bca4a5_0
	.long	.LBB_bca4a5_5-.LJTI_bca4a5_0
	.long	.LBB_bca4a5_40-.LJTI_bca4a5_0
	.long	.LBB_bca4a5_40-.LJTI_bca4a5_0
	.long	.LBB_bca4a5_6-.LJTI_bca4a5_0
	.long	.LBB_bca4a5_40-.LJTI_bca4a5_0
	.long	.LBB_bca4a5_40-.LJTI_bca4a5_0
	.long	.LBB_bca4a5_40-.LJTI_bca4a5_0
	.long	.LBB_bca4a5_7-.LJTI_bca4a5_0
	.long	.LBB_bca4a5_8-.LJTI_bca4a5_0
	.long	.LBB_bca4a5_3-.LJTI_bca4a5_0
	.long	.LBB_bca4a5_40-.LJTI_bca4a5_0
	.long	.LBB_bca4a5_40-.LJTI_bca4a5_0
	.long	.LBB_bca4a5_9-.LJTI_bca4a5_0
	.long	.LBB_bca4a5_10-.LJTI_bca4a5_0
	.long	.LBB_bca4a5_11-.LJTI_bca4a5_0
	.long	.LBB_bca4a5_40-.LJTI_bca4a5_0
	.long	.LBB_bca4a5_12-.LJTI_bca4a5_0
	.long	.LBB_bca4a5_13-.LJTI_bca4a5_0
	.long	.LBB_bca4a5_14-.LJTI_bca4a5_0
	.long	.LBB_bca4a5_40-.LJTI_bca4a5_0
	.long	.LBB_bca4a5_40-.LJTI_bca4a5_0
	.long	.LBB_bca4a5_40-.LJTI_bca4a5_0
	.long	.LBB_bca4a5_15-.LJTI_bca4a5_0
	.long	.LBB_bca4a5_16-.LJTI_bca4a5_0
	.long	.LBB_bca4a5_17-.LJTI_bca4a5_0
	.long	.LBB_bca4a5_18-.LJTI_bca4a5_0
	.long	.LBB_bca4a5_19-.LJTI_bca4a5_0
	.long	.LBB_bca4a5_20-.LJTI_bca4a5_0
	.long	.LBB_bca4a5_21-.LJTI_bca4a5_0
	.long	.LBB_bca4a5_40-.LJTI_bca4a5_0
	.long	.LBB_bca4a5_40-.LJTI_bca4a5_0
	.long	.LBB_bca4a5_22-.LJTI_bca4a5_0
	.long	.LBB_bca4a5_23-.LJTI_bca4a5_0
	.long	.LBB_bca4a5_40-.LJTI_bca4a5_0
	.long	.LBB_bca4a5_24-.LJTI_bca4a5_0
	.long	.LBB_bca4a5_25-.LJTI_bca4a5_0
	.long	.LBB_bca4a5_26-.LJTI_bca4a5_0
	.long	.LBB_bca4a5_40-.LJTI_bca4a5_0
	.long	.LBB_bca4a5_40-.LJTI_bca4a5_0
	.long	.LBB_bca4a5_40-.LJTI_bca4a5_0
	.long	.LBB_bca4a5_40-.LJTI_bca4a5_0
	.long	.LBB_bca4a5_40-.LJTI_bca4a5_0
	.long	.LBB_bca4a5_40-.LJTI_bca4a5_0
	.long	.LBB_bca4a5_40-.LJTI_bca4a5_0
	.long	.LBB_bca4a5_40-.LJTI_bca4a5_0
	.long	.LBB_bca4a5_40-.LJTI_bca4a5_0
	.long	.LBB_bca4a5_40-.LJTI_bca4a5_0
	.long	.LBB_bca4a5_40-.LJTI_bca4a5_0
	.long	.LBB_bca4a5_40-.LJTI_bca4a5_0
	.long	.LBB_bca4a5_40-.LJTI_bca4a5_0
	.long	.LBB_bca4a5_40-.LJTI_bca4a5_0
	.long	.LBB_bca4a5_40-.LJTI_bca4a5_0
	.long	.LBB_bca4a5_40-.LJTI_bca4a5_0
	.long	.LBB_bca4a5_40-.LJTI_bca4a5_0
	.long	.LBB_bca4a5_40-.LJTI_bca4a5_0
	.long	.LBB_bca4a5_40-.LJTI_bca4a5_0
	.long	.LBB_bca4a5_40-.LJTI_bca4a5_0
	.long	.LBB_bca4a5_40-.LJTI_bca4a5_0
	.long	.LBB_bca4a5_40-.LJTI_bca4a5_0
	.long	.LBB_bca4a5_40-.LJTI_bca4a5_0
	.long	.LBB_bca4a5_40-.LJTI_bca4a5_0
	.long	.LBB_bca4a5_40-.LJTI_bca4a5_0
	.long	.LBB_bca4a5_40-.LJTI_bca4a5_0
	.long	.LBB_bca4a5_40-.LJTI_bca4a5_0
	.long	.LBB_bca4a5_40-.LJTI_bca4a5_0
	.long	.LBB_bca4a5_40-.LJTI_bca4a5_0
	.long	.LBB_bca4a5_40-.LJTI_bca4a5_0
	.long	.LBB_bca4a5_40-.LJTI_bca4a5_0
	.long	.LBB_bca4a5_40-.LJTI_bca4a5_0
	.long	.LBB_bca4a5_40-.LJTI_bca4a5_0
	.long	.LBB_bca4a5_40-.LJTI_bca4a5_0
	.long	.LBB_bca4a5_40-.LJTI_bca4a5_0
	.long	.LBB_bca4a5_40-.LJTI_bca4a5_0
	.long	.LBB_bca4a5_40-.LJTI_bca4a5_0
	.long	.LBB_bca4a5_40-.LJTI_bca4a5_0
	.long	.LBB_bca4a5_40-.LJTI_bca4a5_0
	.long	.LBB_bca4a5_40-.LJTI_bca4a5_0
	.long	.LBB_bca4a5_40-.LJTI_bca4a5_0
	.long	.LBB_bca4a5_40-.LJTI_bca4a5_0
	.long	.LBB_bca4a5_40-.LJTI_bca4a5_0
	.long	.LBB_bca4a5_40-.LJTI_bca4a5_0
	.long	.LBB_bca4a5_40-.LJTI_bca4a5_0
	.long	.LBB_bca4a5_40-.LJTI_bca4a5_0
	.long	.LBB_bca4a5_40-.LJTI_bca4a5_0
	.long	.LBB_bca4a5_40-.LJTI_bca4a5_0
	.long	.LBB_bca4a5_40-.LJTI_bca4a5_0
	.long	.LBB_bca4a5_40-.LJTI_bca4a5_0
	.long	.LBB_bca4a5_40-.LJTI_bca4a5_0
	.long	.LBB_bca4a5_40-.LJTI_bca4a5_0
	.long	.LBB_bca4a5_40-.LJTI_bca4a5_0
	.long	.LBB_bca4a5_40-.LJTI_bca4a5_0
	.long	.LBB_bca4a5_24-.LJTI_bca4a5_0
	.long	.LBB_bca4a5_40-.LJTI_bca4a5_0
	.long	.LBB_bca4a5_40-.LJTI_bca4a5_0
	.long	.LBB_bca4a5_27-.LJTI_bca4a5_0
	.long	.LBB_bca4a5_28-.LJTI_bca4a5_0
	.long	.LBB_bca4a5_29-.LJTI_bca4a5_0
	.long	.LBB_bca4a5_30-.LJTI_bca4a5_0
	.long	.LBB_bca4a5_40-.LJTI_bca4a5_0
	.long	.LBB_bca4a5_31-.LJTI_bca4a5_0
	.long	.LBB_bca4a5_32-.LJTI_bca4a5_0
	.long	.LBB_bca4a5_40-.LJTI_bca4a5_0
	.long	.LBB_bca4a5_40-.LJTI_bca4a5_0
	.long	.LBB_bca4a5_33-.LJTI_bca4a5_0
	.long	.LBB_bca4a5_40-.LJTI_bca4a5_0
	.long	.LBB_bca4a5_40-.LJTI_bca4a5_0
	.long	.LBB_bca4a5_34-.LJTI_bca4a5_0
	.long	.LBB_bca4a5_35-.LJTI_bca4a5_0
	.long	.LBB_bca4a5_40-.LJTI_bca4a5_0
	.long	.LBB_bca4a5_36-.LJTI_bca4a5_0
	.long	.LBB_bca4a5_40-.LJTI_bca4a5_0
	.long	.LBB_bca4a5_37-.LJTI_bca4a5_0
	.long	.LBB_bca4a5_38-.LJTI_bca4a5_0
	.long	.LBB_bca4a5_40-.LJTI_bca4a5_0
	.long	.LBB_bca4a5_40-.LJTI_bca4a5_0
	.long	.LBB_bca4a5_40-.LJTI_bca4a5_0
	.long	.LBB_bca4a5_40-.LJTI_bca4a5_0
	.long	.LBB_bca4a5_40-.LJTI_bca4a5_0
	.long	.LBB_bca4a5_39-.LJTI_bca4a5_0

	.section	".text.unlikely.std_alloc::vec::Vec::grow_amortized::<#ab1bfed030c1db69>","ax",@progbits
	.p2align	4
	.type	"std_alloc::vec::Vec::grow_amortized::<#ab1bfed030c1db69>",@function
"std_alloc::vec::Vec::grow_amortized::<#ab1bfed030c1db69>":
	movq	%rsi, %rax
	movq	8(%rdi), %rsi
	addq	%rsi, %rax
	jae	.LBB_ae553a_2
	xorl	%eax, %eax
	retq
.LBB_ae553a_2:
	pushq	%r14
	pushq	%rbx
	pushq	%rax
	cmpq	$9, %rax
	movl	$8, %ebx
	cmovaeq	%rax, %rbx
	movq	16(%rdi), %rcx
	movq	%rcx, %rdx
	shrq	$62, %rdx
	leaq	(%rcx,%rcx), %rax
	cmpq	%rax, %rbx
	cmovaq	%rbx, %rax
	testq	%rdx, %rdx
	cmoveq	%rax, %rbx
	testq	%rbx, %rbx
	js	.LBB_ae553a_6
	testq	%rcx, %rcx
	je	.LBB_ae553a_8
	movq	%rdi, %r14
	movq	(%rdi), %rdi
	movl	$1, %ecx
	movq	%rbx, %rdx
	callq	rattle_realloc@PLT
	testb	$1, %al
	je	.LBB_ae553a_6
.LBB_ae553a_9:
	movq	%rdx, (%r14)
	movq	%rbx, 16(%r14)
	movb	$1, %al
	addq	$8, %rsp
	popq	%rbx
	popq	%r14
	retq
.LBB_ae553a_8:
	movq	%rdi, %r14
	movl	$1, %esi
	movq	%rax, %rdi
	callq	rattle_alloc@PLT
	testb	$1, %al
	jne	.LBB_ae553a_9
.LBB_ae553a_6:
	xorl	%eax, %eax
	addq	$8, %rsp
	popq	%rbx
	popq	%r14
	retq
.Lfunc_end_ae553a:
	.size	"std_alloc::vec::Vec::grow_amortized::<#ab1bfed030c1db69>", .Lfunc_end_ae553a-"std_alloc::vec::Vec::grow_amortized::<#ab1bfed030c1db69>"

	.section	".text.unlikely.std_alloc::vec::Vec::grow_amortized::<#c573f30ac4e8249c>","ax",@progbits
	.p2align	4
	.type	"std_alloc::vec::Vec::grow_amortized::<#c573f30ac4e8249c>",@function
"std_alloc::vec::Vec::grow_amortized::<#c573f30ac4e8249c>":
	movq	%rsi, %rax
	movq	8(%rdi), %rsi
	addq	%rsi, %rax
	jae	.LBB_a0b753_2
	xorl	%eax, %eax
	retq
.LBB_a0b753_2:
	pushq	%r14
	pushq	%rbx
	pushq	%rax
	movq	16(%rdi), %rcx
	cmpq	$5, %rax
	movl	$4, %ebx
	cmovaeq	%rax, %rbx
	movq	%rcx, %rdx
	shrq	$62, %rdx
	leaq	(%rcx,%rcx), %rax
	cmpq	%rax, %rbx
	cmovaq	%rbx, %rax
	testq	%rdx, %rdx
	cmoveq	%rax, %rbx
	movq	%rbx, %rdx
	shrq	$59, %rdx
	jne	.LBB_a0b753_6
	testq	%rcx, %rcx
	je	.LBB_a0b753_8
	movq	%rdi, %r14
	movq	(%rdi), %rdi
	shlq	$4, %rsi
	movq	%rbx, %rdx
	shlq	$4, %rdx
	movl	$8, %ecx
	callq	rattle_realloc@PLT
	testb	$1, %al
	je	.LBB_a0b753_6
.LBB_a0b753_9:
	movq	%rdx, (%r14)
	movq	%rbx, 16(%r14)
	movb	$1, %al
	addq	$8, %rsp
	popq	%rbx
	popq	%r14
	retq
.LBB_a0b753_8:
	movq	%rdi, %r14
	shlq	$4, %rax
	movl	$8, %esi
	movq	%rax, %rdi
	callq	rattle_alloc@PLT
	testb	$1, %al
	jne	.LBB_a0b753_9
.LBB_a0b753_6:
	xorl	%eax, %eax
	addq	$8, %rsp
	popq	%rbx
	popq	%r14
	retq
.Lfunc_end_a0b753:
	.size	"std_alloc::vec::Vec::grow_amortized::<#c573f30ac4e8249c>", .Lfunc_end_a0b753-"std_alloc::vec::Vec::grow_amortized::<#c573f30ac4e8249c>"

	.section	".text.pix_script::parse::region","ax",@progbits
	.p2align	4
	.type	"pix_script::parse::region",@function
"pix_script::parse::region":
	pushq	%rbx
	testq	%rdx, %rdx
	je	.LBB_6f85e4_15
	cmpb	$45, (%rsi)
	jne	.LBB_6f85e4_2
	cmpq	$1, %rdx
	je	.LBB_6f85e4_15
	movl	$1, %r10d
	movl	$2147483648, %r11d
	xorl	%eax, %eax
	.p2align	4
.LBB_6f85e4_6:
	movzbl	(%rsi,%r10), %ebx
	addb	$-48, %bl
	cmpb	$9, %bl
	ja	.LBB_6f85e4_15
	leaq	(%rax,%rax,4), %rax
	movzbl	%bl, %ebx
	leaq	(%rbx,%rax,2), %rax
	cmpq	%r11, %rax
	ja	.LBB_6f85e4_15
	incq	%r10
	cmpq	%r10, %rdx
	jne	.LBB_6f85e4_6
	negl	%eax
	jmp	.LBB_6f85e4_9
.LBB_6f85e4_2:
	xorl	%eax, %eax
	xorl	%r10d, %r10d
	.p2align	4
.LBB_6f85e4_13:
	movzbl	(%rsi,%r10), %r11d
	addb	$-48, %r11b
	cmpb	$9, %r11b
	ja	.LBB_6f85e4_15
	leaq	(%rax,%rax,4), %rax
	movzbl	%r11b, %r11d
	leaq	(%r11,%rax,2), %rax
	cmpq	$2147483647, %rax
	ja	.LBB_6f85e4_15
	incq	%r10
	cmpq	%r10, %rdx
	jne	.LBB_6f85e4_13
.LBB_6f85e4_9:
	testq	%r8, %r8
	je	.LBB_6f85e4_15
	cmpb	$45, (%rcx)
	jne	.LBB_6f85e4_11
	cmpq	$1, %r8
	je	.LBB_6f85e4_15
	movl	$1, %esi
	movl	$2147483648, %r10d
	xorl	%edx, %edx
	.p2align	4
.LBB_6f85e4_19:
	movzbl	(%rcx,%rsi), %r11d
	addb	$-48, %r11b
	cmpb	$9, %r11b
	ja	.LBB_6f85e4_15
	leaq	(%rdx,%rdx,4), %rdx
	movzbl	%r11b, %r11d
	leaq	(%r11,%rdx,2), %rdx
	cmpq	%r10, %rdx
	ja	.LBB_6f85e4_15
	incq	%rsi
	cmpq	%rsi, %r8
	jne	.LBB_6f85e4_19
	negl	%edx
	jmp	.LBB_6f85e4_22
.LBB_6f85e4_11:
	xorl	%edx, %edx
	xorl	%esi, %esi
	.p2align	4
.LBB_6f85e4_25:
	movzbl	(%rcx,%rsi), %r10d
	addb	$-48, %r10b
	cmpb	$9, %r10b
	ja	.LBB_6f85e4_15
	leaq	(%rdx,%rdx,4), %rdx
	movzbl	%r10b, %r10d
	leaq	(%r10,%rdx,2), %rdx
	cmpq	$2147483647, %rdx
	ja	.LBB_6f85e4_15
	incq	%rsi
	cmpq	%rsi, %r8
	jne	.LBB_6f85e4_25
.LBB_6f85e4_22:
	movq	16(%rsp), %r10
	testq	%r10, %r10
	je	.LBB_6f85e4_15
	movq	32(%rsp), %rsi
	movq	24(%rsp), %r8
	xorl	%ecx, %ecx
	xorl	%r11d, %r11d
.LBB_6f85e4_28:
	movzbl	(%r9,%r11), %ebx
	addb	$-48, %bl
	cmpb	$9, %bl
	ja	.LBB_6f85e4_15
	leaq	(%rcx,%rcx,4), %rcx
	movzbl	%bl, %ebx
	leaq	(%rbx,%rcx,2), %rcx
	cmpq	$2147483647, %rcx
	ja	.LBB_6f85e4_15
	incq	%r11
	cmpq	%r11, %r10
	jne	.LBB_6f85e4_28
	testq	%rsi, %rsi
	je	.LBB_6f85e4_15
	xorl	%r9d, %r9d
	xorl	%r10d, %r10d
.LBB_6f85e4_33:
	movzbl	(%r8,%r10), %r11d
	addb	$-48, %r11b
	cmpb	$9, %r11b
	ja	.LBB_6f85e4_15
	leaq	(%r9,%r9,4), %r9
	movzbl	%r11b, %r11d
	leaq	(%r11,%r9,2), %r9
	cmpq	$2147483647, %r9
	ja	.LBB_6f85e4_15
	incq	%r10
	cmpq	%r10, %rsi
	jne	.LBB_6f85e4_33
	movl	$1, (%rdi)
	movl	%eax, 4(%rdi)
	movl	%edx, 8(%rdi)
	movl	%ecx, 12(%rdi)
	movl	%r9d, 16(%rdi)
	popq	%rbx
	retq
.LBB_6f85e4_15:
	xorps	%xmm0, %xmm0
	movups	%xmm0, (%rdi)
	movl	$0, 16(%rdi)
	popq	%rbx
	retq
.Lfunc_end_6f85e4:
	.size	"pix_script::parse::region", .Lfunc_end_6f85e4-"pix_script::parse::region"

	.section	".text.pix_script::number::color","ax",@progbits
	.p2align	4
	.type	"pix_script::number::color",@function
"pix_script::number::color":
	cmpq	$8, %rdx
	jne	.LBB_046d1a_20
	pushq	%rbx
	movzbl	(%rsi), %r9d
	cmpb	$48, %r9b
	jb	.LBB_046d1a_68
	movzbl	1(%rsi), %ebx
	movzbl	2(%rsi), %r10d
	movzbl	3(%rsi), %r11d
	movzbl	4(%rsi), %edx
	movzbl	5(%rsi), %r8d
	movzbl	6(%rsi), %eax
	movzbl	7(%rsi), %ecx
	cmpb	$57, %r9b
	ja	.LBB_046d1a_4
	addb	$-48, %r9b
.LBB_046d1a_9:
	cmpb	$48, %bl
	jb	.LBB_046d1a_68
	cmpb	$57, %bl
	ja	.LBB_046d1a_12
	addb	$-48, %bl
.LBB_046d1a_15:
	cmpb	$48, %r10b
	jb	.LBB_046d1a_68
	cmpb	$57, %r10b
	ja	.LBB_046d1a_22
	addb	$-48, %r10b
.LBB_046d1a_27:
	cmpb	$48, %r11b
	jb	.LBB_046d1a_68
	cmpb	$57, %r11b
	ja	.LBB_046d1a_30
	addb	$-48, %r11b
.LBB_046d1a_35:
	cmpb	$48, %dl
	jb	.LBB_046d1a_68
	cmpb	$57, %dl
	ja	.LBB_046d1a_38
	addb	$-48, %dl
.LBB_046d1a_43:
	cmpb	$48, %r8b
	jb	.LBB_046d1a_68
	cmpb	$57, %r8b
	ja	.LBB_046d1a_46
	addb	$-48, %r8b
.LBB_046d1a_51:
	cmpb	$48, %al
	jb	.LBB_046d1a_68
	cmpb	$57, %al
	ja	.LBB_046d1a_54
	addb	$-48, %al
.LBB_046d1a_59:
	cmpb	$48, %cl
	jb	.LBB_046d1a_68
	cmpb	$57, %cl
	ja	.LBB_046d1a_62
	addb	$-48, %cl
.LBB_046d1a_67:
	shlb	$4, %r9b
	addb	%r9b, %bl
	movzbl	%bl, %esi
	shlb	$4, %r10b
	addb	%r10b, %r11b
	movzbl	%r11b, %r9d
	shll	$8, %r9d
	orl	%esi, %r9d
	shlb	$4, %dl
	addb	%dl, %r8b
	movzbl	%r8b, %edx
	shll	$16, %edx
	orl	%r9d, %edx
	shlb	$4, %al
	addb	%cl, %al
	movzbl	%al, %eax
	shll	$24, %eax
	orl	%edx, %eax
	movb	$1, (%rdi)
	movl	%eax, 1(%rdi)
	popq	%rbx
	retq
.LBB_046d1a_20:
	movb	$0, (%rdi)
	movl	$0, 1(%rdi)
	retq
.LBB_046d1a_4:
	cmpb	$65, %r9b
	jb	.LBB_046d1a_68
	cmpb	$70, %r9b
	ja	.LBB_046d1a_7
	addb	$-55, %r9b
	jmp	.LBB_046d1a_9
.LBB_046d1a_12:
	cmpb	$65, %bl
	jb	.LBB_046d1a_68
	cmpb	$70, %bl
	ja	.LBB_046d1a_18
	addb	$-55, %bl
	jmp	.LBB_046d1a_15
.LBB_046d1a_7:
	leal	-103(%r9), %esi
	cmpb	$-6, %sil
	jb	.LBB_046d1a_68
	addb	$-87, %r9b
	jmp	.LBB_046d1a_9
.LBB_046d1a_22:
	cmpb	$65, %r10b
	jb	.LBB_046d1a_68
	cmpb	$70, %r10b
	ja	.LBB_046d1a_25
	addb	$-55, %r10b
	jmp	.LBB_046d1a_27
.LBB_046d1a_18:
	leal	-103(%rbx), %esi
	cmpb	$-6, %sil
	jb	.LBB_046d1a_68
	addb	$-87, %bl
	jmp	.LBB_046d1a_15
.LBB_046d1a_30:
	cmpb	$65, %r11b
	jb	.LBB_046d1a_68
	cmpb	$70, %r11b
	ja	.LBB_046d1a_33
	addb	$-55, %r11b
	jmp	.LBB_046d1a_35
.LBB_046d1a_25:
	leal	-103(%r10), %esi
	cmpb	$-6, %sil
	jb	.LBB_046d1a_68
	addb	$-87, %r10b
	jmp	.LBB_046d1a_27
.LBB_046d1a_38:
	cmpb	$65, %dl
	jb	.LBB_046d1a_68
	cmpb	$70, %dl
	ja	.LBB_046d1a_41
	addb	$-55, %dl
	jmp	.LBB_046d1a_43
.LBB_046d1a_33:
	leal	-103(%r11), %esi
	cmpb	$-6, %sil
	jb	.LBB_046d1a_68
	addb	$-87, %r11b
	jmp	.LBB_046d1a_35
.LBB_046d1a_46:
	cmpb	$65, %r8b
	jb	.LBB_046d1a_68
	cmpb	$70, %r8b
	ja	.LBB_046d1a_49
	addb	$-55, %r8b
	jmp	.LBB_046d1a_51
.LBB_046d1a_41:
	leal	-103(%rdx), %esi
	cmpb	$-6, %sil
	jb	.LBB_046d1a_68
	addb	$-87, %dl
	jmp	.LBB_046d1a_43
.LBB_046d1a_54:
	cmpb	$65, %al
	jb	.LBB_046d1a_68
	cmpb	$70, %al
	ja	.LBB_046d1a_57
	addb	$-55, %al
	jmp	.LBB_046d1a_59
.LBB_046d1a_49:
	leal	-103(%r8), %esi
	cmpb	$-6, %sil
	jb	.LBB_046d1a_68
	addb	$-87, %r8b
	jmp	.LBB_046d1a_51
.LBB_046d1a_62:
	cmpb	$65, %cl
	jb	.LBB_046d1a_68
	cmpb	$70, %cl
	ja	.LBB_046d1a_65
	addb	$-55, %cl
	jmp	.LBB_046d1a_67
.LBB_046d1a_57:
	leal	-103(%rax), %esi
	cmpb	$-6, %sil
	jb	.LBB_046d1a_68
	addb	$-87, %al
	jmp	.LBB_046d1a_59
.LBB_046d1a_65:
	leal	-103(%rcx), %esi
	cmpb	$-6, %sil
	jae	.LBB_046d1a_66
.LBB_046d1a_68:
	movb	$0, (%rdi)
	movl	$0, 1(%rdi)
	popq	%rbx
	retq
.LBB_046d1a_66:
	addb	$-87, %cl
	jmp	.LBB_046d1a_67
.Lfunc_end_046d1a:
	.size	"pix_script::number::color", .Lfunc_end_046d1a-"pix_script::number::color"

	.section	".text.pix_ops::ops::Op::from_name","ax",@progbits
	.p2align	4
	.type	"pix_ops::ops::Op::from_name",@function
"pix_ops::ops::Op::from_name":
	pushq	%r15
	pushq	%r14
	pushq	%r13
	pushq	%r12
	pushq	%rbx
	movq	%rsi, %r14
	movq	%rdi, %r15
	movl	$13, %r12d
	leaq	.Lstatic.14(%rip), %r13
	jmp	.LBB_948515_3
.LBB_948515_1:
	cmpq	%r14, %rax
	jae	.LBB_948515_27
	.p2align	4
.LBB_948515_2:
	incq	%r13
	decq	%r12
	je	.LBB_948515_29
.LBB_948515_3:
	movzbl	(%r13), %ebx
	movl	$3, %eax
	movb	$1, %cl
	movzbl	%bl, %edx
	leaq	.LJTI_948515_0(%rip), %rsi
	movslq	(%rsi,%rdx,4), %rdx
	addq	%rsi, %rdx
	jmpq	*%rdx
.LBB_948515_4:
	leaq	.Lstatic.15(%rip), %rdi
	jmp	.LBB_948515_20
.LBB_948515_5:
	leaq	.Lstatic.26(%rip), %rdi
	movl	$5, %eax
	jmp	.LBB_948515_19
.LBB_948515_6:
	leaq	.Lstatic.19(%rip), %rdi
	movl	$6, %eax
	jmp	.LBB_948515_19
.LBB_948515_7:
	leaq	.Lstatic.27(%rip), %rdi
	jmp	.LBB_948515_13
.LBB_948515_8:
	leaq	.Lstatic.24(%rip), %rdi
	movl	$8, %eax
	jmp	.LBB_948515_19
.LBB_948515_9:
	leaq	.Lstatic.17(%rip), %rdi
	jmp	.LBB_948515_18
.LBB_948515_10:
	leaq	.Lstatic.18(%rip), %rdi
	movl	$8, %eax
	jmp	.LBB_948515_19
.LBB_948515_11:
	leaq	.Lstatic.22(%rip), %rdi
	movl	$6, %eax
	jmp	.LBB_948515_19
.LBB_948515_12:
	leaq	.Lstatic.16(%rip), %rdi
.LBB_948515_13:
	movl	$4, %eax
	jmp	.LBB_948515_19
.LBB_948515_14:
	leaq	.Lstatic.20(%rip), %rdi
	jmp	.LBB_948515_18
.LBB_948515_15:
	leaq	.Lstatic.21(%rip), %rdi
	movl	$5, %eax
	jmp	.LBB_948515_19
.LBB_948515_16:
	leaq	.Lstatic.25(%rip), %rdi
	jmp	.LBB_948515_20
.LBB_948515_17:
	leaq	.Lstatic.23(%rip), %rdi
.LBB_948515_18:
	movl	$7, %eax
.LBB_948515_19:
	xorl	%ecx, %ecx
.LBB_948515_20:
	cmpq	%r14, %rax
	jne	.LBB_948515_2
	testb	%cl, %cl
	je	.LBB_948515_25
	xorl	%eax, %eax
	.p2align	4
.LBB_948515_23:
	movzbl	(%rdi,%rax), %ecx
	cmpb	(%r15,%rax), %cl
	jne	.LBB_948515_1
	incq	%rax
	cmpq	%rax, %r14
	jne	.LBB_948515_23
	jmp	.LBB_948515_27
	.p2align	4
.LBB_948515_25:
	movl	(%rdi), %eax
	cmpl	(%r15), %eax
	jne	.LBB_948515_2
	movq	%r14, %rsi
	movq	%r15, %rdx
	callq	"core::cmp::slices::groups_equal::<i8,31'core::cmp::numbers::U8PartialEq{}>"
	testb	%al, %al
	je	.LBB_948515_2
.LBB_948515_27:
	movb	$1, %al
.LBB_948515_28:
	movl	%ebx, %edx
	popq	%rbx
	popq	%r12
	popq	%r13
	popq	%r14
	popq	%r15
	retq
.LBB_948515_29:
	xorl	%eax, %eax
	xorl	%ebx, %ebx
	jmp	.LBB_948515_28
.Lfunc_end_948515:
	.size	"pix_ops::ops::Op::from_name", .Lfunc_end_948515-"pix_ops::ops::Op::from_name"
	.section	".rodata.pix_ops::ops::Op::from_name","a",@progbits
	.p2align	2, 0x0
.LJTI_948515_0:
	.long	.LBB_948515_4-.LJTI_948515_0
	.long	.LBB_948515_12-.LJTI_948515_0
	.long	.LBB_948515_9-.LJTI_948515_0
	.long	.LBB_948515_10-.LJTI_948515_0
	.long	.LBB_948515_6-.LJTI_948515_0
	.long	.LBB_948515_14-.LJTI_948515_0
	.long	.LBB_948515_15-.LJTI_948515_0
	.long	.LBB_948515_11-.LJTI_948515_0
	.long	.LBB_948515_17-.LJTI_948515_0
	.long	.LBB_948515_8-.LJTI_948515_0
	.long	.LBB_948515_16-.LJTI_948515_0
	.long	.LBB_948515_5-.LJTI_948515_0
	.long	.LBB_948515_7-.LJTI_948515_0

	.section	".text.core::cmp::slices::groups_equal::<i8,31'core::cmp::numbers::U8PartialEq{}>","ax",@progbits
	.p2align	4
	.type	"core::cmp::slices::groups_equal::<i8,31'core::cmp::numbers::U8PartialEq{}>",@function
"core::cmp::slices::groups_equal::<i8,31'core::cmp::numbers::U8PartialEq{}>":
	cmpq	$8, %rsi
	ja	.LBB_b5d67b_2
	movd	(%rdi), %xmm0
	pinsrd	$1, -4(%rdi,%rsi), %xmm0
	movd	(%rdx), %xmm1
	pinsrd	$1, -4(%rdx,%rsi), %xmm1
	movq	%xmm0, %rax
	movq	%xmm1, %rcx
	cmpq	%rcx, %rax
	jmp	.LBB_b5d67b_16
.LBB_b5d67b_2:
	cmpq	$32, %rsi
	ja	.LBB_b5d67b_4
	leaq	-8(%rsi), %rax
	cmpq	$8, %rax
	movl	$8, %ecx
	cmovbq	%rax, %rcx
	cmpq	$16, %rax
	movl	$16, %r8d
	cmovbq	%rax, %r8
	movq	(%rdi,%rcx), %xmm0
	movq	(%rdi), %xmm1
	punpcklqdq	%xmm0, %xmm1
	movq	(%rdi,%r8), %xmm0
	movq	-8(%rdi,%rsi), %xmm2
	punpcklqdq	%xmm2, %xmm0
	movq	(%rdx,%rcx), %xmm2
	movq	(%rdx), %xmm3
	punpcklqdq	%xmm2, %xmm3
	pxor	%xmm1, %xmm3
	movq	(%rdx,%r8), %xmm1
	movq	-8(%rdx,%rsi), %xmm2
	punpcklqdq	%xmm2, %xmm1
	pxor	%xmm0, %xmm1
	por	%xmm3, %xmm1
	ptest	%xmm1, %xmm1
	jmp	.LBB_b5d67b_16
.LBB_b5d67b_4:
	cmpq	$65, %rsi
	jae	.LBB_b5d67b_5
	movdqu	(%rdi), %xmm0
	movdqu	16(%rdi), %xmm1
	movdqu	(%rdx), %xmm2
	pxor	%xmm0, %xmm2
	movdqu	16(%rdx), %xmm0
	pxor	%xmm1, %xmm0
	movdqu	-32(%rdi,%rsi), %xmm1
	movdqu	-16(%rdi,%rsi), %xmm3
	movdqu	-32(%rdx,%rsi), %xmm4
	pxor	%xmm1, %xmm4
	por	%xmm2, %xmm4
	movdqu	-16(%rdx,%rsi), %xmm1
	pxor	%xmm3, %xmm1
	por	%xmm0, %xmm1
	por	%xmm4, %xmm1
	ptest	%xmm1, %xmm1
	jmp	.LBB_b5d67b_16
.LBB_b5d67b_5:
	xorl	%eax, %eax
	movq	%rsi, %rcx
	.p2align	4
.LBB_b5d67b_6:
	movdqu	(%rdi,%rax), %xmm0
	movdqu	16(%rdi,%rax), %xmm1
	movdqu	32(%rdi,%rax), %xmm2
	movdqu	48(%rdi,%rax), %xmm3
	movdqu	(%rdx,%rax), %xmm4
	pcmpeqb	%xmm0, %xmm4
	movdqu	16(%rdx,%rax), %xmm0
	pcmpeqb	%xmm1, %xmm0
	movdqu	32(%rdx,%rax), %xmm1
	pcmpeqb	%xmm2, %xmm1
	pand	%xmm4, %xmm1
	movdqu	48(%rdx,%rax), %xmm2
	pcmpeqb	%xmm3, %xmm2
	pand	%xmm0, %xmm2
	pand	%xmm1, %xmm2
	pmovmskb	%xmm2, %r8d
	cmpl	$65535, %r8d
	jne	.LBB_b5d67b_8
	addq	$64, %rax
	addq	$-64, %rcx
	cmpq	$63, %rcx
	ja	.LBB_b5d67b_6
.LBB_b5d67b_8:
	cmpq	$32, %rcx
	jb	.LBB_b5d67b_15
	movq	%rsi, %rcx
	subq	%rax, %rcx
	.p2align	4
.LBB_b5d67b_10:
	movdqu	(%rdi,%rax), %xmm0
	movdqu	16(%rdi,%rax), %xmm1
	movdqu	(%rdx,%rax), %xmm2
	pxor	%xmm0, %xmm2
	movdqu	16(%rdx,%rax), %xmm0
	pxor	%xmm1, %xmm0
	por	%xmm2, %xmm0
	ptest	%xmm0, %xmm0
	jne	.LBB_b5d67b_14
	addq	$32, %rax
	addq	$-32, %rcx
	cmpq	$32, %rcx
	jae	.LBB_b5d67b_10
	jmp	.LBB_b5d67b_15
.LBB_b5d67b_14:
	movb	$1, %al
	cmpq	$31, %rcx
	ja	.LBB_b5d67b_17
.LBB_b5d67b_15:
	movdqu	-32(%rdi,%rsi), %xmm0
	movdqu	-16(%rdi,%rsi), %xmm1
	movdqu	-32(%rdx,%rsi), %xmm2
	pxor	%xmm0, %xmm2
	movdqu	-16(%rdx,%rsi), %xmm0
	pxor	%xmm1, %xmm0
	por	%xmm2, %xmm0
	ptest	%xmm0, %xmm0
.LBB_b5d67b_16:
	setne	%al
.LBB_b5d67b_17:
	xorb	$1, %al
	retq
.Lfunc_end_b5d67b:
	.size	"core::cmp::slices::groups_equal::<i8,31'core::cmp::numbers::U8PartialEq{}>", .Lfunc_end_b5d67b-"core::cmp::slices::groups_equal::<i8,31'core::cmp::numbers::U8PartialEq{}>"

	.section	".text.unlikely.std_alloc::vec::Vec::grow_amortized::<#cdd50f0e5dac12a4>","ax",@progbits
	.p2align	4
	.type	"std_alloc::vec::Vec::grow_amortized::<#cdd50f0e5dac12a4>",@function
"std_alloc::vec::Vec::grow_amortized::<#cdd50f0e5dac12a4>":
	movq	8(%rdi), %rax
	cmpq	$-1, %rax
	je	.LBB_668e90_5
	pushq	%r14
	pushq	%rbx
	pushq	%rax
	movq	16(%rdi), %rcx
	cmpq	$4, %rax
	movl	$3, %ebx
	cmovaeq	%rax, %rbx
	incq	%rbx
	movq	%rcx, %rsi
	shrq	$62, %rsi
	leaq	(%rcx,%rcx), %rdx
	cmpq	%rdx, %rbx
	cmovaq	%rbx, %rdx
	testq	%rsi, %rsi
	cmoveq	%rdx, %rbx
	movabsq	$256204778801521550, %rsi
	cmpq	%rsi, %rbx
	ja	.LBB_668e90_6
	testq	%rcx, %rcx
	je	.LBB_668e90_8
	movq	%rdi, %r14
	movq	(%rdi), %rdi
	shlq	$2, %rax
	leaq	(%rax,%rax,8), %rsi
	leaq	(,%rbx,4), %rax
	leaq	(%rax,%rax,8), %rdx
	movl	$4, %ecx
	callq	rattle_realloc@PLT
	testb	$1, %al
	je	.LBB_668e90_6
.LBB_668e90_9:
	movq	%rdx, (%r14)
	movq	%rbx, 16(%r14)
	movb	$1, %al
	addq	$8, %rsp
	popq	%rbx
	popq	%r14
	retq
.LBB_668e90_5:
	xorl	%eax, %eax
	retq
.LBB_668e90_8:
	movq	%rdi, %r14
	shlq	$2, %rdx
	leaq	(%rdx,%rdx,8), %rdi
	movl	$4, %esi
	callq	rattle_alloc@PLT
	testb	$1, %al
	jne	.LBB_668e90_9
.LBB_668e90_6:
	xorl	%eax, %eax
	addq	$8, %rsp
	popq	%rbx
	popq	%r14
	retq
.Lfunc_end_668e90:
	.size	"std_alloc::vec::Vec::grow_amortized::<#cdd50f0e5dac12a4>", .Lfunc_end_668e90-"std_alloc::vec::Vec::grow_amortized::<#cdd50f0e5dac12a4>"

	.section	.rodata.cst16,"aM",@progbits,16
	.p2align	4, 0x0
.LCPI_9ba498_0:
	.byte	255
	.byte	0
	.byte	255
	.byte	0
	.byte	255
	.byte	0
	.byte	255
	.byte	0
	.byte	255
	.byte	0
	.byte	255
	.byte	0
	.byte	255
	.byte	0
	.byte	255
	.byte	0
.LCPI_9ba498_1:
	.short	128
	.short	128
	.short	128
	.short	128
	.short	128
	.short	128
	.short	128
	.short	128
.LCPI_9ba498_2:
	.zero	16,1
.LCPI_9ba498_3:
	.short	128
	.short	128
	.short	128
	.short	128
	.zero	2
	.zero	2
	.zero	2
	.zero	2
.LCPI_9ba498_4:
	.long	65536
	.long	16777216
	.long	256
	.long	1
.LCPI_9ba498_5:
	.byte	3
	.byte	128
	.byte	3
	.byte	128
	.byte	7
	.byte	128
	.byte	7
	.byte	128
	.byte	11
	.byte	128
	.byte	11
	.byte	128
	.byte	15
	.byte	128
	.byte	15
	.byte	128
.LCPI_9ba498_6:
	.byte	3
	.byte	3
	.byte	3
	.byte	3
	.byte	7
	.byte	7
	.byte	7
	.byte	7
	.byte	11
	.byte	11
	.byte	11
	.byte	11
	.byte	15
	.byte	15
	.byte	15
	.byte	15
.LCPI_9ba498_7:
	.long	16777216
	.long	65536
	.long	256
	.long	1
.LCPI_9ba498_8:
	.byte	0
	.byte	128
	.byte	0
	.byte	128
	.byte	4
	.byte	128
	.byte	4
	.byte	128
	.byte	8
	.byte	128
	.byte	8
	.byte	128
	.byte	12
	.byte	128
	.byte	12
	.byte	128
.LCPI_9ba498_9:
	.byte	0
	.byte	0
	.byte	0
	.byte	0
	.byte	4
	.byte	4
	.byte	4
	.byte	4
	.byte	8
	.byte	8
	.byte	8
	.byte	8
	.byte	12
	.byte	12
	.byte	12
	.byte	12
.LCPI_9ba498_10:
	.byte	0
	.byte	128
	.byte	128
	.byte	128
	.byte	0
	.byte	128
	.byte	128
	.byte	128
	.byte	0
	.byte	128
	.byte	128
	.byte	128
	.byte	0
	.byte	128
	.byte	128
	.byte	128
.LCPI_9ba498_11:
	.short	128
	.short	128
	.zero	2
	.zero	2
	.zero	2
	.zero	2
	.zero	2
	.zero	2
.LCPI_9ba498_12:
	.byte	128
	.byte	128
	.byte	128
	.byte	2
	.zero	1
	.zero	1
	.zero	1
	.zero	1
	.zero	1
	.zero	1
	.zero	1
	.zero	1
	.zero	1
	.zero	1
	.zero	1
	.zero	1
.LCPI_9ba498_13:
	.quad	2
	.quad	3
.LCPI_9ba498_14:
	.byte	0
	.byte	0
	.byte	0
	.byte	0
	.byte	0
	.byte	0
	.byte	0
	.byte	0
	.byte	1
	.byte	0
	.byte	0
	.byte	0
	.byte	0
	.byte	0
	.byte	0
	.byte	0
.LCPI_9ba498_15:
	.quad	-9223372036854775808
	.quad	-9223372036854775808
	.section	".text.pix_ops::ops::Op::visit_slice::<#cb634639e69df956>","ax",@progbits
	.p2align	4
	.type	"pix_ops::ops::Op::visit_slice::<#cb634639e69df956>",@function
"pix_ops::ops::Op::visit_slice::<#cb634639e69df956>":
	pushq	%rbp
	pushq	%r15
	pushq	%r14
	pushq	%r13
	pushq	%r12
	pushq	%rbx
	subq	$424, %rsp
	movq	%rdx, %r12
	movzbl	%dil, %eax
	leaq	.LJTI_9ba498_0(%rip), %rcx
	movslq	(%rcx,%rax,4), %rax
	addq	%rcx, %rax
	movq	%rdx, 16(%rsp)
	jmpq	*%rax
.LBB_9ba498_1:
	pxor	%xmm0, %xmm0
	movdqa	%xmm0, 352(%rsp)
	movdqa	%xmm0, 336(%rsp)
	movdqa	%xmm0, 320(%rsp)
	movdqa	%xmm0, 304(%rsp)
	movdqa	%xmm0, 288(%rsp)
	movdqa	%xmm0, 272(%rsp)
	movdqa	%xmm0, 256(%rsp)
	movq	$0, 368(%rsp)
	movl	8(%rsi), %r14d
	movl	12(%rsi), %eax
	movq	%rax, 32(%rsp)
	movl	16(%rsi), %r13d
	movl	20(%rsi), %eax
	movq	%rax, (%rsp)
	movq	24(%rsi), %rax
	movq	%rax, 8(%rsp)
	movq	(%rsi), %rsi
	leaq	256(%rsp), %rdi
	callq	"pix_raster::command::CommandReadDraw::read::<#880fe2ecd02fbeac>"
	movzbl	256(%rsp), %edi
	movslq	260(%rsp), %r10
	movslq	264(%rsp), %rax
	movl	268(%rsp), %ecx
	movl	272(%rsp), %r9d
	movq	280(%rsp), %rdx
	movq	%rdx, 48(%rsp)
	movq	296(%rsp), %r8
	movq	304(%rsp), %rbx
	movslq	312(%rsp), %rbp
	movslq	316(%rsp), %rdx
	movq	%rdx, 24(%rsp)
	movl	320(%rsp), %edx
	movl	324(%rsp), %r15d
	movq	328(%rsp), %rsi
	leaq	.LJTI_9ba498_13(%rip), %r11
	movslq	(%r11,%rdi,4), %rdi
	addq	%r11, %rdi
	jmpq	*%rdi
.LBB_9ba498_2:
	testq	%r13, %r13
	je	.LBB_9ba498_452
	movabsq	$4294967296, %rax
	movq	(%rsp), %rdi
	movq	32(%rsp), %r8
	leal	(%r8,%rdi), %esi
	leal	(%r14,%r13), %ecx
	subq	%r14, %rcx
	addq	%rax, %rcx
	orq	%rax, %r13
	cmpq	%rcx, %r13
	cmovaeq	%rcx, %r13
	xorl	%edx, %edx
	movq	%r13, %r15
	subq	%rax, %r15
	cmovbq	%rdx, %r15
	subq	%r8, %rsi
	addq	%rax, %rsi
	orq	%rax, %rdi
	cmpq	%rsi, %rdi
	cmovaeq	%rsi, %rdi
	movq	%rdi, %r14
	subq	%rax, %r14
	cmovbq	%rdx, %r14
	leaq	1(%rax), %rdx
	cmpq	%rdx, %rdi
	jb	.LBB_9ba498_452
	movq	%rdi, %r8
	movq	8(%rsp), %rdi
	leaq	(,%rdi,4), %rbp
	cmpq	$1024, %r15
	jb	.LBB_9ba498_751
	xorl	%ebx, %ebx
.LBB_9ba498_6:
	movq	%r12, %rdi
	movq	%r15, %rsi
	callq	"pix_el::filled::clear_long::<#c0ead2364dd49755>"
	incq	%rbx
	addq	%rbp, %r12
	cmpq	%r14, %rbx
	jb	.LBB_9ba498_6
	jmp	.LBB_9ba498_452
.LBB_9ba498_7:
	pxor	%xmm0, %xmm0
	movdqa	%xmm0, 352(%rsp)
	movdqa	%xmm0, 336(%rsp)
	movdqa	%xmm0, 320(%rsp)
	movdqa	%xmm0, 304(%rsp)
	movdqa	%xmm0, 288(%rsp)
	movdqa	%xmm0, 272(%rsp)
	movdqa	%xmm0, 256(%rsp)
	movq	$0, 368(%rsp)
	movl	8(%rsi), %r14d
	movl	12(%rsi), %eax
	movq	%rax, (%rsp)
	movl	16(%rsi), %r12d
	movl	20(%rsi), %ebp
	movq	24(%rsi), %rax
	movq	%rax, 8(%rsp)
	movq	(%rsi), %rsi
	leaq	256(%rsp), %rdi
	callq	"pix_raster::command::CommandReadDraw::read::<#880fe2ecd02fbeac>"
	movzbl	256(%rsp), %r8d
	movslq	260(%rsp), %rax
	movslq	264(%rsp), %r13
	movl	268(%rsp), %r9d
	movl	272(%rsp), %ecx
	movq	280(%rsp), %rdx
	movq	296(%rsp), %r11
	movslq	312(%rsp), %rdi
	movslq	316(%rsp), %rsi
	movl	320(%rsp), %r10d
	movl	324(%rsp), %r15d
	leaq	.LJTI_9ba498_2(%rip), %rbx
	movslq	(%rbx,%r8,4), %r8
	addq	%rbx, %r8
	jmpq	*%r8
.LBB_9ba498_8:
	testq	%r12, %r12
	je	.LBB_9ba498_452
	movq	%r11, %rbx
	shrq	$32, %rbx
	subq	%r14, %rax
	movabsq	$4294967296, %r14
	leaq	(%rax,%r14), %rdx
	leaq	(%rdi,%r14), %r8
	cmpq	%rdx, %r8
	movq	%rsi, %rdx
	leaq	(%rax,%r14), %rsi
	cmovbq	%r8, %rsi
	movl	%r15d, 48(%rsp)
	xorl	%r15d, %r15d
	movq	%r14, %r8
	subq	%rsi, %r8
	cmovbq	%r15, %r8
	orq	%r14, %r12
	leaq	(%rax,%r14), %rsi
	subq	%rsi, %r12
	cmovbq	%r15, %r12
	movl	%r11d, %esi
	orq	%r14, %rsi
	leaq	(%rdi,%r14), %r11
	subq	%r11, %rsi
	cmovbq	%r15, %rsi
	cmpl	%r9d, %r10d
	cmovbl	%r10d, %r9d
	cmpq	%r9, %r12
	cmovaeq	%r9, %r12
	cmpq	%r12, %rsi
	cmovbq	%rsi, %r12
	leaq	(%r8,%rax), %r9
	addq	%r12, %rax
	addq	%r8, %rdi
	cmpq	%r8, %r12
	cmovbeq	%r15, %r9
	cmovbeq	%r15, %rax
	cmovbeq	%r15, %rdi
	subq	(%rsp), %r13
	leaq	(%r14,%r13), %rsi
	leaq	(%rdx,%r14), %r10
	cmpq	%rsi, %r10
	movq	%rsi, %r11
	cmovbq	%r10, %r11
	movq	%r14, %r8
	subq	%r11, %r8
	cmovbq	%r15, %r8
	orq	%r14, %rbp
	subq	%rsi, %rbp
	cmovbq	%r15, %rbp
	orq	%r14, %rbx
	subq	%r10, %rbx
	cmovbq	%r15, %rbx
	movl	48(%rsp), %esi
	cmpl	%ecx, %esi
	cmovbl	%esi, %ecx
	cmpq	%rcx, %rbp
	cmovaeq	%rcx, %rbp
	cmpq	%rbp, %rbx
	cmovbq	%rbx, %rbp
	leaq	(%r8,%r13), %rcx
	addq	%rbp, %r13
	addq	%r8, %rdx
	cmpq	%r8, %rbp
	cmovbeq	%r15, %rcx
	cmovbeq	%r15, %r13
	cmovbeq	%r15, %rdx
	movq	%r9, 120(%rsp)
	movq	%rax, 128(%rsp)
	movq	%rdi, 136(%rsp)
	movq	%rcx, 144(%rsp)
	movq	%r13, 152(%rsp)
	movq	%rdx, 160(%rsp)
	leaq	120(%rsp), %rdx
	movq	16(%rsp), %rdi
	movq	8(%rsp), %rsi
	callq	"pix_raster::view::blit_overlap::<#07c05c7fae9ce56d>"
	jmp	.LBB_9ba498_452
.LBB_9ba498_10:
	pxor	%xmm0, %xmm0
	movdqa	%xmm0, 352(%rsp)
	movdqa	%xmm0, 336(%rsp)
	movdqa	%xmm0, 320(%rsp)
	movdqa	%xmm0, 304(%rsp)
	movdqa	%xmm0, 288(%rsp)
	movdqa	%xmm0, 272(%rsp)
	movdqa	%xmm0, 256(%rsp)
	movq	$0, 368(%rsp)
	movl	8(%rsi), %ebp
	movl	12(%rsi), %eax
	movq	%rax, (%rsp)
	movl	16(%rsi), %r13d
	movl	20(%rsi), %eax
	movq	%rax, 8(%rsp)
	movq	24(%rsi), %rax
	movq	%rax, 32(%rsp)
	movq	(%rsi), %rsi
	leaq	256(%rsp), %rdi
	callq	"pix_raster::command::CommandReadDraw::read::<#880fe2ecd02fbeac>"
	movzbl	256(%rsp), %r8d
	movslq	260(%rsp), %rcx
	movslq	264(%rsp), %r10
	movl	268(%rsp), %edi
	movl	272(%rsp), %eax
	movq	280(%rsp), %rdx
	movq	%rdx, 48(%rsp)
	movq	296(%rsp), %rbx
	movq	304(%rsp), %rsi
	movslq	312(%rsp), %rdx
	movslq	316(%rsp), %r9
	movq	%r9, 24(%rsp)
	movl	320(%rsp), %r9d
	movl	324(%rsp), %r14d
	movq	328(%rsp), %r15
	leaq	.LJTI_9ba498_9(%rip), %r11
	movslq	(%r11,%r8,4), %r8
	addq	%r11, %r8
	jmpq	*%r8
.LBB_9ba498_11:
	testq	%r13, %r13
	je	.LBB_9ba498_452
	movabsq	$4294967296, %rax
	movq	8(%rsp), %rdi
	movq	(%rsp), %r8
	leal	(%r8,%rdi), %esi
	leal	(%rbp,%r13), %ecx
	subq	%rbp, %rcx
	addq	%rax, %rcx
	orq	%rax, %r13
	cmpq	%rcx, %r13
	cmovaeq	%rcx, %r13
	xorl	%edx, %edx
	movq	%r13, %r15
	subq	%rax, %r15
	cmovbq	%rdx, %r15
	subq	%r8, %rsi
	addq	%rax, %rsi
	orq	%rax, %rdi
	cmpq	%rsi, %rdi
	cmovaeq	%rsi, %rdi
	movq	%rdi, %r14
	subq	%rax, %r14
	cmovbq	%rdx, %r14
	leaq	1(%rax), %rdx
	cmpq	%rdx, %rdi
	jb	.LBB_9ba498_452
	movq	%rdi, %r8
	movq	32(%rsp), %rdi
	leaq	(,%rdi,4), %rbp
	cmpq	$1024, %r15
	jb	.LBB_9ba498_727
	xorl	%ebx, %ebx
.LBB_9ba498_15:
	movq	%r12, %rdi
	movq	%r15, %rsi
	callq	"pix_el::filled::clear_long::<#c0ead2364dd49755>"
	incq	%rbx
	addq	%rbp, %r12
	cmpq	%r14, %rbx
	jb	.LBB_9ba498_15
	jmp	.LBB_9ba498_452
.LBB_9ba498_16:
	pxor	%xmm0, %xmm0
	movdqa	%xmm0, 352(%rsp)
	movdqa	%xmm0, 336(%rsp)
	movdqa	%xmm0, 320(%rsp)
	movdqa	%xmm0, 304(%rsp)
	movdqa	%xmm0, 288(%rsp)
	movdqa	%xmm0, 272(%rsp)
	movdqa	%xmm0, 256(%rsp)
	movq	$0, 368(%rsp)
	movl	8(%rsi), %ebx
	movl	12(%rsi), %eax
	movq	%rax, 32(%rsp)
	movl	16(%rsi), %r13d
	movl	20(%rsi), %eax
	movq	%rax, (%rsp)
	movq	24(%rsi), %rax
	movq	%rax, 8(%rsp)
	movq	(%rsi), %rsi
	leaq	256(%rsp), %rdi
	callq	"pix_raster::command::CommandReadDraw::read::<#880fe2ecd02fbeac>"
	movzbl	256(%rsp), %ecx
	movslq	260(%rsp), %r15
	movslq	264(%rsp), %rax
	movl	268(%rsp), %edx
	movl	272(%rsp), %r9d
	movq	280(%rsp), %rsi
	movq	%rsi, 48(%rsp)
	movq	296(%rsp), %r11
	movq	304(%rsp), %r14
	movslq	312(%rsp), %rbp
	movslq	316(%rsp), %rsi
	movq	%rsi, 24(%rsp)
	movl	320(%rsp), %edi
	movl	324(%rsp), %r10d
	movq	328(%rsp), %rsi
	leaq	.LJTI_9ba498_1(%rip), %r8
	movslq	(%r8,%rcx,4), %rcx
	addq	%r8, %rcx
	jmpq	*%rcx
.LBB_9ba498_17:
	testq	%r13, %r13
	je	.LBB_9ba498_452
	movabsq	$4294967296, %rax
	movq	(%rsp), %rdi
	movq	32(%rsp), %r8
	leal	(%r8,%rdi), %esi
	leal	(%rbx,%r13), %ecx
	subq	%rbx, %rcx
	addq	%rax, %rcx
	orq	%rax, %r13
	cmpq	%rcx, %r13
	cmovaeq	%rcx, %r13
	xorl	%edx, %edx
	movq	%r13, %r15
	subq	%rax, %r15
	cmovbq	%rdx, %r15
	subq	%r8, %rsi
	addq	%rax, %rsi
	orq	%rax, %rdi
	cmpq	%rsi, %rdi
	cmovaeq	%rsi, %rdi
	movq	%rdi, %r12
	subq	%rax, %r12
	cmovbq	%rdx, %r12
	leaq	1(%rax), %rdx
	cmpq	%rdx, %rdi
	jb	.LBB_9ba498_452
	movq	%rdi, %r8
	movq	8(%rsp), %rdi
	leaq	(,%rdi,4), %rbp
	cmpq	$1024, %r15
	jb	.LBB_9ba498_731
	xorl	%ebx, %ebx
.LBB_9ba498_21:
	movq	16(%rsp), %r14
	movq	%r14, %rdi
	movq	%r15, %rsi
	callq	"pix_el::filled::clear_long::<#c0ead2364dd49755>"
	incq	%rbx
	addq	%rbp, %r14
	movq	%r14, 16(%rsp)
	cmpq	%r12, %rbx
	jb	.LBB_9ba498_21
	jmp	.LBB_9ba498_452
.LBB_9ba498_22:
	pxor	%xmm0, %xmm0
	movdqa	%xmm0, 352(%rsp)
	movdqa	%xmm0, 336(%rsp)
	movdqa	%xmm0, 320(%rsp)
	movdqa	%xmm0, 304(%rsp)
	movdqa	%xmm0, 288(%rsp)
	movdqa	%xmm0, 272(%rsp)
	movdqa	%xmm0, 256(%rsp)
	movq	$0, 368(%rsp)
	movl	8(%rsi), %ebx
	movl	12(%rsi), %eax
	movq	%rax, 32(%rsp)
	movl	16(%rsi), %ebp
	movl	20(%rsi), %eax
	movq	%rax, (%rsp)
	movq	24(%rsi), %rax
	movq	%rax, 8(%rsp)
	movq	(%rsi), %rsi
	leaq	256(%rsp), %rdi
	callq	"pix_raster::command::CommandReadDraw::read::<#880fe2ecd02fbeac>"
	movzbl	256(%rsp), %r9d
	movslq	260(%rsp), %rcx
	movslq	264(%rsp), %rax
	movl	268(%rsp), %r10d
	movl	272(%rsp), %esi
	movq	280(%rsp), %rdx
	movq	%rdx, 48(%rsp)
	movq	296(%rsp), %r15
	movq	304(%rsp), %r8
	movslq	312(%rsp), %rdi
	movslq	316(%rsp), %rdx
	movq	%rdx, 24(%rsp)
	movl	320(%rsp), %r11d
	movl	324(%rsp), %r13d
	movq	328(%rsp), %rdx
	leaq	.LJTI_9ba498_4(%rip), %r14
	movslq	(%r14,%r9,4), %r9
	addq	%r14, %r9
	jmpq	*%r9
.LBB_9ba498_23:
	testq	%rbp, %rbp
	je	.LBB_9ba498_452
	movabsq	$4294967296, %rax
	movq	(%rsp), %rdi
	movq	32(%rsp), %r8
	leal	(%r8,%rdi), %esi
	leal	(%rbx,%rbp), %ecx
	subq	%rbx, %rcx
	addq	%rax, %rcx
	orq	%rax, %rbp
	cmpq	%rcx, %rbp
	cmovaeq	%rcx, %rbp
	xorl	%edx, %edx
	movq	%rbp, %r15
	subq	%rax, %r15
	cmovbq	%rdx, %r15
	subq	%r8, %rsi
	addq	%rax, %rsi
	orq	%rax, %rdi
	cmpq	%rsi, %rdi
	cmovaeq	%rsi, %rdi
	movq	%rdi, %r13
	subq	%rax, %r13
	cmovbq	%rdx, %r13
	leaq	1(%rax), %rdx
	cmpq	%rdx, %rdi
	jb	.LBB_9ba498_452
	movq	%rdi, %r8
	movq	8(%rsp), %rdi
	leaq	(,%rdi,4), %r14
	cmpq	$1024, %r15
	jb	.LBB_9ba498_735
	xorl	%ebx, %ebx
.LBB_9ba498_27:
	movq	16(%rsp), %r12
	movq	%r12, %rdi
	movq	%r15, %rsi
	callq	"pix_el::filled::clear_long::<#c0ead2364dd49755>"
	incq	%rbx
	addq	%r14, %r12
	movq	%r12, 16(%rsp)
	cmpq	%r13, %rbx
	jb	.LBB_9ba498_27
	jmp	.LBB_9ba498_452
.LBB_9ba498_28:
	pxor	%xmm0, %xmm0
	movdqa	%xmm0, 352(%rsp)
	movdqa	%xmm0, 336(%rsp)
	movdqa	%xmm0, 320(%rsp)
	movdqa	%xmm0, 304(%rsp)
	movdqa	%xmm0, 288(%rsp)
	movdqa	%xmm0, 272(%rsp)
	movdqa	%xmm0, 256(%rsp)
	movq	$0, 368(%rsp)
	movl	8(%rsi), %ebx
	movl	12(%rsi), %eax
	movq	%rax, 32(%rsp)
	movl	16(%rsi), %r13d
	movl	20(%rsi), %eax
	movq	%rax, (%rsp)
	movq	24(%rsi), %rax
	movq	%rax, 8(%rsp)
	movq	(%rsi), %rsi
	leaq	256(%rsp), %rdi
	callq	"pix_raster::command::CommandReadDraw::read::<#880fe2ecd02fbeac>"
	movzbl	256(%rsp), %r11d
	movslq	260(%rsp), %rcx
	movslq	264(%rsp), %rdi
	movl	268(%rsp), %r9d
	movl	272(%rsp), %eax
	movq	280(%rsp), %rdx
	movq	%rdx, 48(%rsp)
	movq	296(%rsp), %r15
	movq	304(%rsp), %rbp
	movslq	312(%rsp), %rdx
	movslq	316(%rsp), %rsi
	movq	%rsi, 24(%rsp)
	movl	320(%rsp), %r10d
	movl	324(%rsp), %r8d
	movq	328(%rsp), %rsi
	leaq	.LJTI_9ba498_11(%rip), %r14
	movslq	(%r14,%r11,4), %r11
	addq	%r14, %r11
	jmpq	*%r11
.LBB_9ba498_29:
	testq	%r13, %r13
	je	.LBB_9ba498_452
	movabsq	$4294967296, %rax
	movq	(%rsp), %rdi
	movq	32(%rsp), %r8
	leal	(%r8,%rdi), %esi
	leal	(%rbx,%r13), %ecx
	subq	%rbx, %rcx
	addq	%rax, %rcx
	orq	%rax, %r13
	cmpq	%rcx, %r13
	cmovaeq	%rcx, %r13
	xorl	%edx, %edx
	movq	%r13, %r15
	subq	%rax, %r15
	cmovbq	%rdx, %r15
	subq	%r8, %rsi
	addq	%rax, %rsi
	orq	%rax, %rdi
	cmpq	%rsi, %rdi
	cmovaeq	%rsi, %rdi
	movq	%rdi, %r14
	subq	%rax, %r14
	cmovbq	%rdx, %r14
	leaq	1(%rax), %rdx
	cmpq	%rdx, %rdi
	jb	.LBB_9ba498_452
	movq	%rdi, %r8
	movq	8(%rsp), %rdi
	leaq	(,%rdi,4), %rbp
	cmpq	$1024, %r15
	jb	.LBB_9ba498_739
	xorl	%ebx, %ebx
.LBB_9ba498_33:
	movq	%r12, %rdi
	movq	%r15, %rsi
	callq	"pix_el::filled::clear_long::<#c0ead2364dd49755>"
	incq	%rbx
	addq	%rbp, %r12
	cmpq	%r14, %rbx
	jb	.LBB_9ba498_33
	jmp	.LBB_9ba498_452
.LBB_9ba498_34:
	pxor	%xmm0, %xmm0
	movdqa	%xmm0, 352(%rsp)
	movdqa	%xmm0, 336(%rsp)
	movdqa	%xmm0, 320(%rsp)
	movdqa	%xmm0, 304(%rsp)
	movdqa	%xmm0, 288(%rsp)
	movdqa	%xmm0, 272(%rsp)
	movdqa	%xmm0, 256(%rsp)
	movq	$0, 368(%rsp)
	movl	8(%rsi), %ebx
	movl	12(%rsi), %eax
	movq	%rax, 48(%rsp)
	movl	16(%rsi), %r13d
	movl	20(%rsi), %r12d
	movq	24(%rsi), %rax
	movq	%rax, (%rsp)
	movq	(%rsi), %rsi
	leaq	256(%rsp), %rdi
	callq	"pix_raster::command::CommandReadDraw::read::<#880fe2ecd02fbeac>"
	movzbl	256(%rsp), %r11d
	movslq	260(%rsp), %rcx
	movslq	264(%rsp), %r10
	movl	268(%rsp), %r8d
	movl	272(%rsp), %eax
	movq	280(%rsp), %rdx
	movq	%rdx, 8(%rsp)
	movq	296(%rsp), %r15
	movq	304(%rsp), %rdi
	movslq	312(%rsp), %rdx
	movslq	316(%rsp), %rsi
	movq	%rsi, 32(%rsp)
	movl	320(%rsp), %r9d
	movl	324(%rsp), %ebp
	movq	328(%rsp), %rsi
	leaq	.LJTI_9ba498_10(%rip), %r14
	movslq	(%r14,%r11,4), %r11
	addq	%r14, %r11
	jmpq	*%r11
.LBB_9ba498_35:
	testq	%r13, %r13
	je	.LBB_9ba498_452
	movabsq	$4294967296, %rax
	movq	48(%rsp), %rdi
	leal	(%rdi,%r12), %esi
	leal	(%rbx,%r13), %ecx
	subq	%rbx, %rcx
	addq	%rax, %rcx
	orq	%rax, %r13
	cmpq	%rcx, %r13
	cmovaeq	%rcx, %r13
	xorl	%edx, %edx
	movq	%r13, %r15
	subq	%rax, %r15
	cmovbq	%rdx, %r15
	subq	%rdi, %rsi
	addq	%rax, %rsi
	orq	%rax, %r12
	cmpq	%rsi, %r12
	cmovaeq	%rsi, %r12
	movq	%r12, %rdi
	subq	%rax, %rdi
	cmovbq	%rdx, %rdi
	leaq	1(%rax), %rdx
	cmpq	%rdx, %r12
	jb	.LBB_9ba498_452
	movq	%rdi, %r8
	movq	(%rsp), %rdi
	leaq	(,%rdi,4), %rbp
	cmpq	$1024, %r15
	jb	.LBB_9ba498_743
	xorl	%ebx, %ebx
	movq	%r8, %r12
.LBB_9ba498_39:
	movq	16(%rsp), %r14
	movq	%r14, %rdi
	movq	%r15, %rsi
	callq	"pix_el::filled::clear_long::<#c0ead2364dd49755>"
	incq	%rbx
	addq	%rbp, %r14
	movq	%r14, 16(%rsp)
	cmpq	%r12, %rbx
	jb	.LBB_9ba498_39
	jmp	.LBB_9ba498_452
.LBB_9ba498_40:
	pxor	%xmm0, %xmm0
	movdqa	%xmm0, 352(%rsp)
	movdqa	%xmm0, 336(%rsp)
	movdqa	%xmm0, 320(%rsp)
	movdqa	%xmm0, 304(%rsp)
	movdqa	%xmm0, 288(%rsp)
	movdqa	%xmm0, 272(%rsp)
	movdqa	%xmm0, 256(%rsp)
	movq	$0, 368(%rsp)
	movl	8(%rsi), %ebx
	movl	12(%rsi), %eax
	movq	%rax, 32(%rsp)
	movl	16(%rsi), %r13d
	movl	20(%rsi), %eax
	movq	%rax, (%rsp)
	movq	24(%rsi), %rax
	movq	%rax, 8(%rsp)
	movq	(%rsi), %rsi
	leaq	256(%rsp), %rdi
	callq	"pix_raster::command::CommandReadDraw::read::<#880fe2ecd02fbeac>"
	movzbl	256(%rsp), %r8d
	movslq	260(%rsp), %rcx
	movslq	264(%rsp), %r10
	movl	268(%rsp), %edi
	movl	272(%rsp), %eax
	movq	280(%rsp), %rdx
	movq	%rdx, 48(%rsp)
	movq	296(%rsp), %r15
	movq	304(%rsp), %rbp
	movslq	312(%rsp), %rdx
	movslq	316(%rsp), %rsi
	movq	%rsi, 24(%rsp)
	movl	320(%rsp), %r9d
	movl	324(%rsp), %esi
	movq	328(%rsp), %r11
	leaq	.LJTI_9ba498_6(%rip), %r14
	movslq	(%r14,%r8,4), %r8
	addq	%r14, %r8
	jmpq	*%r8
.LBB_9ba498_41:
	testq	%r13, %r13
	je	.LBB_9ba498_452
	movabsq	$4294967296, %rax
	movq	(%rsp), %rdi
	movq	32(%rsp), %r8
	leal	(%r8,%rdi), %esi
	leal	(%rbx,%r13), %ecx
	subq	%rbx, %rcx
	addq	%rax, %rcx
	orq	%rax, %r13
	cmpq	%rcx, %r13
	cmovaeq	%rcx, %r13
	xorl	%edx, %edx
	movq	%r13, %r15
	subq	%rax, %r15
	cmovbq	%rdx, %r15
	subq	%r8, %rsi
	addq	%rax, %rsi
	orq	%rax, %rdi
	cmpq	%rsi, %rdi
	cmovaeq	%rsi, %rdi
	movq	%rdi, %r12
	subq	%rax, %r12
	cmovbq	%rdx, %r12
	leaq	1(%rax), %rdx
	cmpq	%rdx, %rdi
	jb	.LBB_9ba498_452
	movq	%rdi, %r8
	movq	8(%rsp), %rdi
	leaq	(,%rdi,4), %rbp
	cmpq	$1024, %r15
	jb	.LBB_9ba498_747
	xorl	%ebx, %ebx
.LBB_9ba498_45:
	movq	16(%rsp), %r14
	movq	%r14, %rdi
	movq	%r15, %rsi
	callq	"pix_el::filled::clear_long::<#c0ead2364dd49755>"
	incq	%rbx
	addq	%rbp, %r14
	movq	%r14, 16(%rsp)
	cmpq	%r12, %rbx
	jb	.LBB_9ba498_45
	jmp	.LBB_9ba498_452
.LBB_9ba498_46:
	pxor	%xmm0, %xmm0
	movdqa	%xmm0, 352(%rsp)
	movdqa	%xmm0, 336(%rsp)
	movdqa	%xmm0, 320(%rsp)
	movdqa	%xmm0, 304(%rsp)
	movdqa	%xmm0, 288(%rsp)
	movdqa	%xmm0, 272(%rsp)
	movdqa	%xmm0, 256(%rsp)
	movq	$0, 368(%rsp)
	movl	8(%rsi), %r14d
	movl	12(%rsi), %ebx
	movl	16(%rsi), %r12d
	movl	20(%rsi), %r13d
	movq	24(%rsi), %rax
	movq	%rax, (%rsp)
	movq	(%rsi), %rsi
	leaq	256(%rsp), %rdi
	callq	"pix_raster::command::CommandReadDraw::read::<#880fe2ecd02fbeac>"
	movzbl	256(%rsp), %edi
	movslq	260(%rsp), %rcx
	movslq	264(%rsp), %rax
	movl	268(%rsp), %r10d
	movl	272(%rsp), %esi
	movq	280(%rsp), %rdx
	leaq	.LJTI_9ba498_12(%rip), %r8
	movslq	(%r8,%rdi,4), %rdi
	addq	%r8, %rdi
	jmpq	*%rdi
.LBB_9ba498_47:
	testq	%r12, %r12
	je	.LBB_9ba498_452
	movabsq	$4294967296, %rax
	leal	(%rbx,%r13), %esi
	leal	(%r14,%r12), %ecx
	subq	%r14, %rcx
	addq	%rax, %rcx
	orq	%rax, %r12
	cmpq	%rcx, %r12
	cmovaeq	%rcx, %r12
	xorl	%edx, %edx
	movq	%r12, %r15
	subq	%rax, %r15
	cmovbq	%rdx, %r15
	subq	%rbx, %rsi
	addq	%rax, %rsi
	orq	%rax, %r13
	cmpq	%rsi, %r13
	cmovaeq	%rsi, %r13
	movq	%r13, %rdi
	subq	%rax, %rdi
	cmovbq	%rdx, %rdi
	leaq	1(%rax), %rdx
	cmpq	%rdx, %r13
	jb	.LBB_9ba498_452
	movq	%rdi, %r8
	movq	(%rsp), %rdi
	leaq	(,%rdi,4), %rbp
	cmpq	$1024, %r15
	jb	.LBB_9ba498_762
	xorl	%ebx, %ebx
	movq	%r8, %r12
.LBB_9ba498_51:
	movq	16(%rsp), %r14
	movq	%r14, %rdi
	movq	%r15, %rsi
	callq	"pix_el::filled::clear_long::<#c0ead2364dd49755>"
	incq	%rbx
	addq	%rbp, %r14
	movq	%r14, 16(%rsp)
	cmpq	%r12, %rbx
	jb	.LBB_9ba498_51
	jmp	.LBB_9ba498_452
.LBB_9ba498_52:
	pxor	%xmm0, %xmm0
	movdqa	%xmm0, 352(%rsp)
	movdqa	%xmm0, 336(%rsp)
	movdqa	%xmm0, 320(%rsp)
	movdqa	%xmm0, 304(%rsp)
	movdqa	%xmm0, 288(%rsp)
	movdqa	%xmm0, 272(%rsp)
	movdqa	%xmm0, 256(%rsp)
	movq	$0, 368(%rsp)
	movl	8(%rsi), %ebx
	movl	12(%rsi), %eax
	movq	%rax, 32(%rsp)
	movl	16(%rsi), %r13d
	movl	20(%rsi), %eax
	movq	%rax, (%rsp)
	movq	24(%rsi), %rax
	movq	%rax, 8(%rsp)
	movq	(%rsi), %rsi
	leaq	256(%rsp), %rdi
	callq	"pix_raster::command::CommandReadDraw::read::<#880fe2ecd02fbeac>"
	movzbl	256(%rsp), %r11d
	movslq	260(%rsp), %rcx
	movslq	264(%rsp), %r10
	movl	268(%rsp), %edi
	movl	272(%rsp), %eax
	movq	280(%rsp), %rdx
	movq	%rdx, 48(%rsp)
	movq	296(%rsp), %r15
	movq	304(%rsp), %rbp
	movslq	312(%rsp), %rdx
	movslq	316(%rsp), %rsi
	movq	%rsi, 24(%rsp)
	movl	320(%rsp), %r9d
	movl	324(%rsp), %esi
	movq	328(%rsp), %r8
	leaq	.LJTI_9ba498_8(%rip), %r14
	movslq	(%r14,%r11,4), %r11
	addq	%r14, %r11
	jmpq	*%r11
.LBB_9ba498_53:
	testq	%r13, %r13
	je	.LBB_9ba498_452
	movabsq	$4294967296, %rax
	movq	(%rsp), %rdi
	movq	32(%rsp), %r8
	leal	(%r8,%rdi), %esi
	leal	(%rbx,%r13), %ecx
	subq	%rbx, %rcx
	addq	%rax, %rcx
	orq	%rax, %r13
	cmpq	%rcx, %r13
	cmovaeq	%rcx, %r13
	xorl	%edx, %edx
	movq	%r13, %r15
	subq	%rax, %r15
	cmovbq	%rdx, %r15
	subq	%r8, %rsi
	addq	%rax, %rsi
	orq	%rax, %rdi
	cmpq	%rsi, %rdi
	cmovaeq	%rsi, %rdi
	movq	%rdi, %r12
	subq	%rax, %r12
	cmovbq	%rdx, %r12
	leaq	1(%rax), %rdx
	cmpq	%rdx, %rdi
	jb	.LBB_9ba498_452
	movq	%rdi, %r8
	movq	8(%rsp), %rdi
	leaq	(,%rdi,4), %rbp
	cmpq	$1024, %r15
	jb	.LBB_9ba498_766
	xorl	%ebx, %ebx
.LBB_9ba498_57:
	movq	16(%rsp), %r14
	movq	%r14, %rdi
	movq	%r15, %rsi
	callq	"pix_el::filled::clear_long::<#c0ead2364dd49755>"
	incq	%rbx
	addq	%rbp, %r14
	movq	%r14, 16(%rsp)
	cmpq	%r12, %rbx
	jb	.LBB_9ba498_57
	jmp	.LBB_9ba498_452
.LBB_9ba498_58:
	pxor	%xmm0, %xmm0
	movdqa	%xmm0, 352(%rsp)
	movdqa	%xmm0, 336(%rsp)
	movdqa	%xmm0, 320(%rsp)
	movdqa	%xmm0, 304(%rsp)
	movdqa	%xmm0, 288(%rsp)
	movdqa	%xmm0, 272(%rsp)
	movdqa	%xmm0, 256(%rsp)
	movq	$0, 368(%rsp)
	movl	8(%rsi), %ebx
	movl	12(%rsi), %eax
	movq	%rax, (%rsp)
	movl	16(%rsi), %r13d
	movl	20(%rsi), %eax
	movq	%rax, 8(%rsp)
	movq	24(%rsi), %rax
	movq	%rax, 32(%rsp)
	movq	(%rsi), %rsi
	leaq	256(%rsp), %rdi
	callq	"pix_raster::command::CommandReadDraw::read::<#880fe2ecd02fbeac>"
	movzbl	256(%rsp), %r8d
	movslq	260(%rsp), %rcx
	movslq	264(%rsp), %r10
	movl	268(%rsp), %edi
	movl	272(%rsp), %eax
	movq	280(%rsp), %rdx
	movq	%rdx, 48(%rsp)
	movq	296(%rsp), %r14
	movq	304(%rsp), %rbp
	movslq	312(%rsp), %rdx
	movslq	316(%rsp), %rsi
	movq	%rsi, 24(%rsp)
	movl	320(%rsp), %r9d
	movl	324(%rsp), %esi
	movq	328(%rsp), %r11
	leaq	.LJTI_9ba498_7(%rip), %r15
	movslq	(%r15,%r8,4), %r8
	addq	%r15, %r8
	jmpq	*%r8
.LBB_9ba498_59:
	testq	%r13, %r13
	je	.LBB_9ba498_452
	movabsq	$4294967296, %rax
	movq	8(%rsp), %rdi
	movq	(%rsp), %r8
	leal	(%r8,%rdi), %esi
	leal	(%rbx,%r13), %ecx
	subq	%rbx, %rcx
	addq	%rax, %rcx
	orq	%rax, %r13
	cmpq	%rcx, %r13
	cmovaeq	%rcx, %r13
	xorl	%edx, %edx
	movq	%r13, %r15
	subq	%rax, %r15
	cmovbq	%rdx, %r15
	subq	%r8, %rsi
	addq	%rax, %rsi
	orq	%rax, %rdi
	cmpq	%rsi, %rdi
	cmovaeq	%rsi, %rdi
	movq	%rdi, %r12
	subq	%rax, %r12
	cmovbq	%rdx, %r12
	leaq	1(%rax), %rdx
	cmpq	%rdx, %rdi
	jb	.LBB_9ba498_452
	movq	%rdi, %r8
	movq	32(%rsp), %rdi
	leaq	(,%rdi,4), %rbp
	cmpq	$1024, %r15
	jb	.LBB_9ba498_770
	xorl	%ebx, %ebx
.LBB_9ba498_63:
	movq	16(%rsp), %r14
	movq	%r14, %rdi
	movq	%r15, %rsi
	callq	"pix_el::filled::clear_long::<#c0ead2364dd49755>"
	incq	%rbx
	addq	%rbp, %r14
	movq	%r14, 16(%rsp)
	cmpq	%r12, %rbx
	jb	.LBB_9ba498_63
	jmp	.LBB_9ba498_452
.LBB_9ba498_64:
	pxor	%xmm0, %xmm0
	movdqa	%xmm0, 352(%rsp)
	movdqa	%xmm0, 336(%rsp)
	movdqa	%xmm0, 320(%rsp)
	movdqa	%xmm0, 304(%rsp)
	movdqa	%xmm0, 288(%rsp)
	movdqa	%xmm0, 272(%rsp)
	movdqa	%xmm0, 256(%rsp)
	movq	$0, 368(%rsp)
	movl	8(%rsi), %ebx
	movl	12(%rsi), %eax
	movq	%rax, 32(%rsp)
	movl	16(%rsi), %ebp
	movl	20(%rsi), %eax
	movq	%rax, (%rsp)
	movq	24(%rsi), %rax
	movq	%rax, 8(%rsp)
	movq	(%rsi), %rsi
	leaq	256(%rsp), %rdi
	callq	"pix_raster::command::CommandReadDraw::read::<#880fe2ecd02fbeac>"
	movzbl	256(%rsp), %r9d
	movslq	260(%rsp), %rcx
	movslq	264(%rsp), %rax
	movl	268(%rsp), %r10d
	movl	272(%rsp), %esi
	movq	280(%rsp), %rdx
	movq	%rdx, 48(%rsp)
	movq	296(%rsp), %r15
	movq	304(%rsp), %r8
	movslq	312(%rsp), %rdi
	movslq	316(%rsp), %rdx
	movq	%rdx, 24(%rsp)
	movl	320(%rsp), %r11d
	movl	324(%rsp), %r13d
	movq	328(%rsp), %rdx
	leaq	.LJTI_9ba498_3(%rip), %r14
	movslq	(%r14,%r9,4), %r9
	addq	%r14, %r9
	jmpq	*%r9
.LBB_9ba498_65:
	testq	%rbp, %rbp
	je	.LBB_9ba498_452
	movabsq	$4294967296, %rax
	movq	(%rsp), %rdi
	movq	32(%rsp), %r8
	leal	(%r8,%rdi), %esi
	leal	(%rbx,%rbp), %ecx
	subq	%rbx, %rcx
	addq	%rax, %rcx
	orq	%rax, %rbp
	cmpq	%rcx, %rbp
	cmovaeq	%rcx, %rbp
	xorl	%edx, %edx
	movq	%rbp, %r15
	subq	%rax, %r15
	cmovbq	%rdx, %r15
	subq	%r8, %rsi
	addq	%rax, %rsi
	orq	%rax, %rdi
	cmpq	%rsi, %rdi
	cmovaeq	%rsi, %rdi
	movq	%rdi, %r13
	subq	%rax, %r13
	cmovbq	%rdx, %r13
	leaq	1(%rax), %rdx
	cmpq	%rdx, %rdi
	jb	.LBB_9ba498_452
	movq	%rdi, %r8
	movq	8(%rsp), %rdi
	leaq	(,%rdi,4), %r14
	cmpq	$1024, %r15
	jb	.LBB_9ba498_774
	xorl	%ebx, %ebx
.LBB_9ba498_69:
	movq	16(%rsp), %r12
	movq	%r12, %rdi
	movq	%r15, %rsi
	callq	"pix_el::filled::clear_long::<#c0ead2364dd49755>"
	incq	%rbx
	addq	%r14, %r12
	movq	%r12, 16(%rsp)
	cmpq	%r13, %rbx
	jb	.LBB_9ba498_69
	jmp	.LBB_9ba498_452
.LBB_9ba498_70:
	pxor	%xmm0, %xmm0
	movdqa	%xmm0, 352(%rsp)
	movdqa	%xmm0, 336(%rsp)
	movdqa	%xmm0, 320(%rsp)
	movdqa	%xmm0, 304(%rsp)
	movdqa	%xmm0, 288(%rsp)
	movdqa	%xmm0, 272(%rsp)
	movdqa	%xmm0, 256(%rsp)
	movq	$0, 368(%rsp)
	movl	8(%rsi), %ebx
	movl	12(%rsi), %eax
	movq	%rax, 32(%rsp)
	movl	16(%rsi), %ebp
	movl	20(%rsi), %eax
	movq	%rax, (%rsp)
	movq	24(%rsi), %rax
	movq	%rax, 8(%rsp)
	movq	(%rsi), %rsi
	leaq	256(%rsp), %rdi
	callq	"pix_raster::command::CommandReadDraw::read::<#880fe2ecd02fbeac>"
	movzbl	256(%rsp), %r9d
	movslq	260(%rsp), %rcx
	movslq	264(%rsp), %rax
	movl	268(%rsp), %r10d
	movl	272(%rsp), %esi
	movq	280(%rsp), %rdx
	movq	%rdx, 48(%rsp)
	movq	296(%rsp), %r15
	movq	304(%rsp), %r8
	movslq	312(%rsp), %rdi
	movslq	316(%rsp), %rdx
	movq	%rdx, 24(%rsp)
	movl	320(%rsp), %r11d
	movl	324(%rsp), %r13d
	movq	328(%rsp), %rdx
	leaq	.LJTI_9ba498_5(%rip), %r14
	movslq	(%r14,%r9,4), %r9
	addq	%r14, %r9
	jmpq	*%r9
.LBB_9ba498_71:
	testq	%rbp, %rbp
	je	.LBB_9ba498_452
	movabsq	$4294967296, %rax
	movq	(%rsp), %rdi
	movq	32(%rsp), %r8
	leal	(%r8,%rdi), %esi
	leal	(%rbx,%rbp), %ecx
	subq	%rbx, %rcx
	addq	%rax, %rcx
	orq	%rax, %rbp
	cmpq	%rcx, %rbp
	cmovaeq	%rcx, %rbp
	xorl	%edx, %edx
	movq	%rbp, %r15
	subq	%rax, %r15
	cmovbq	%rdx, %r15
	subq	%r8, %rsi
	addq	%rax, %rsi
	orq	%rax, %rdi
	cmpq	%rsi, %rdi
	cmovaeq	%rsi, %rdi
	movq	%rdi, %r13
	subq	%rax, %r13
	cmovbq	%rdx, %r13
	leaq	1(%rax), %rdx
	cmpq	%rdx, %rdi
	jb	.LBB_9ba498_452
	movq	%rdi, %r8
	movq	8(%rsp), %rdi
	leaq	(,%rdi,4), %r14
	cmpq	$1024, %r15
	jb	.LBB_9ba498_778
	xorl	%ebx, %ebx
.LBB_9ba498_75:
	movq	16(%rsp), %r12
	movq	%r12, %rdi
	movq	%r15, %rsi
	callq	"pix_el::filled::clear_long::<#c0ead2364dd49755>"
	incq	%rbx
	addq	%r14, %r12
	movq	%r12, 16(%rsp)
	cmpq	%r13, %rbx
	jb	.LBB_9ba498_75
	jmp	.LBB_9ba498_452
.LBB_9ba498_76:
	testq	%rbp, %rbp
	je	.LBB_9ba498_452
	movq	%r8, 80(%rsp)
	movl	%r13d, 96(%rsp)
	movq	%r15, %r13
	shrq	$32, %r13
	subq	%rbx, %rcx
	movabsq	$4294967296, %rbx
	jmp	.LBB_9ba498_449
.LBB_9ba498_78:
	testq	%r13, %r13
	je	.LBB_9ba498_452
	movq	%rbx, %r11
	shrq	$32, %r11
	subq	%rbp, %rcx
	movq	%rsi, 176(%rsp)
	movl	%r14d, 80(%rsp)
	movabsq	$4294967296, %r14
	leaq	(%rcx,%r14), %rbp
	leaq	(%rdx,%r14), %r15
	cmpq	%rbp, %r15
	movq	%rbp, %rsi
	cmovbq	%r15, %rsi
	xorl	%r8d, %r8d
	movq	%r14, %r12
	subq	%rsi, %r12
	cmovbq	%r8, %r12
	orq	%r14, %r13
	subq	%rbp, %r13
	cmovbq	%r8, %r13
	movl	%ebx, %esi
	orq	%r14, %rsi
	subq	%r15, %rsi
	cmovbq	%r8, %rsi
	cmpl	%edi, %r9d
	cmovbl	%r9d, %edi
	cmpq	%rdi, %r13
	cmovaeq	%rdi, %r13
	cmpq	%r13, %rsi
	cmovbq	%rsi, %r13
	leaq	(%r12,%rcx), %rdi
	addq	%r13, %rcx
	addq	%r12, %rdx
	cmpq	%r12, %r13
	cmovbeq	%r8, %rdi
	cmovbeq	%r8, %rcx
	cmovbeq	%r8, %rdx
	subq	(%rsp), %r10
	leaq	(%r10,%r14), %rsi
	movq	24(%rsp), %r15
	leaq	(%r15,%r14), %rbx
	cmpq	%rsi, %rbx
	movq	%rsi, %r12
	cmovbq	%rbx, %r12
	movq	%r14, %r9
	subq	%r12, %r9
	cmovbq	%r8, %r9
	movq	8(%rsp), %r12
	orq	%r14, %r12
	subq	%rsi, %r12
	cmovbq	%r8, %r12
	orq	%r14, %r11
	subq	%rbx, %r11
	cmovbq	%r8, %r11
	movl	80(%rsp), %esi
	cmpl	%eax, %esi
	cmovbl	%esi, %eax
	cmpq	%rax, %r12
	cmovaeq	%rax, %r12
	cmpq	%r12, %r11
	cmovbq	%r11, %r12
	leaq	(%r9,%r10), %rax
	addq	%r12, %r10
	addq	%r9, %r15
	cmpq	%r9, %r12
	cmovbeq	%r8, %rax
	cmovbeq	%r8, %r10
	cmovbeq	%r8, %r15
	movq	%rdi, 120(%rsp)
	movq	%rcx, 128(%rsp)
	movq	%rdx, 136(%rsp)
	movq	%rax, 144(%rsp)
	movq	%r10, 152(%rsp)
	movq	%r15, 160(%rsp)
	leaq	120(%rsp), %r8
	movq	16(%rsp), %rdi
	movq	32(%rsp), %rsi
	movq	48(%rsp), %rdx
	movq	176(%rsp), %rcx
	callq	"pix_raster::view::blit_overlap::<#1a9768a07824da26>"
	jmp	.LBB_9ba498_452
.LBB_9ba498_80:
	testq	%r13, %r13
	je	.LBB_9ba498_452
	movq	%r11, %r8
	shrq	$32, %r8
	subq	%rbx, %r15
	movabsq	$4294967296, %rbx
	leaq	(%r15,%rbx), %r12
	leaq	(%rbx,%rbp), %rsi
	cmpq	%r12, %rsi
	movl	%r10d, 96(%rsp)
	movq	%r12, %r10
	cmovbq	%rsi, %r10
	xorl	%ecx, %ecx
	movq	%r14, 80(%rsp)
	movq	%rbx, %r14
	subq	%r10, %r14
	cmovbq	%rcx, %r14
	orq	%rbx, %r13
	subq	%r12, %r13
	cmovbq	%rcx, %r13
	movl	%r11d, %r10d
	orq	%rbx, %r10
	subq	%rsi, %r10
	cmovbq	%rcx, %r10
	cmpl	%edx, %edi
	cmovbl	%edi, %edx
	cmpq	%rdx, %r13
	cmovaeq	%rdx, %r13
	cmpq	%r13, %r10
	cmovbq	%r10, %r13
	leaq	(%r14,%r15), %rdx
	addq	%r13, %r15
	addq	%r14, %rbp
	cmpq	%r14, %r13
	cmovbeq	%rcx, %rdx
	cmovbeq	%rcx, %r15
	cmovbeq	%rcx, %rbp
	subq	32(%rsp), %rax
	leaq	(%rax,%rbx), %r10
	movq	24(%rsp), %rsi
	leaq	(%rsi,%rbx), %r11
	cmpq	%r10, %r11
	movq	%r10, %r14
	cmovbq	%r11, %r14
	movq	%rbx, %rdi
	subq	%r14, %rdi
	cmovbq	%rcx, %rdi
	movq	(%rsp), %r14
	orq	%rbx, %r14
	subq	%r10, %r14
	cmovbq	%rcx, %r14
	orq	%rbx, %r8
	subq	%r11, %r8
	cmovbq	%rcx, %r8
	movl	96(%rsp), %r10d
	cmpl	%r9d, %r10d
	cmovbl	%r10d, %r9d
	cmpq	%r9, %r14
	cmovaeq	%r9, %r14
	cmpq	%r14, %r8
	cmovbq	%r8, %r14
	leaq	(%rdi,%rax), %r8
	addq	%r14, %rax
	addq	%rdi, %rsi
	cmpq	%rdi, %r14
	cmovbeq	%rcx, %r8
	cmovbeq	%rcx, %rax
	cmovbeq	%rcx, %rsi
	movq	%rdx, 120(%rsp)
	movq	%r15, 128(%rsp)
	movq	%rbp, 136(%rsp)
	movq	%r8, 144(%rsp)
	movq	%rax, 152(%rsp)
	movq	%rsi, 160(%rsp)
	leaq	120(%rsp), %r8
	movq	16(%rsp), %rdi
	movq	8(%rsp), %rsi
	movq	48(%rsp), %rdx
	movq	80(%rsp), %rcx
	callq	"pix_raster::view::blit_overlap::<#38bb87c9d91cb462>"
	jmp	.LBB_9ba498_452
.LBB_9ba498_82:
	testq	%r12, %r12
	je	.LBB_9ba498_452
	movl	%r15d, 48(%rsp)
	movq	%r11, %r15
	shrq	$32, %r15
	subq	%r14, %rax
	movabsq	$4294967296, %r14
	leaq	(%rax,%r14), %rbx
	leaq	(%rdi,%r14), %r8
	cmpq	%rbx, %r8
	movq	%rsi, %rbx
	leaq	(%rax,%r14), %rsi
	cmovbq	%r8, %rsi
	movq	%r14, %r8
	subq	%rsi, %r8
	movl	$0, %esi
	cmovbq	%rsi, %r8
	orq	%r14, %r12
	leaq	(%rax,%r14), %rsi
	subq	%rsi, %r12
	movl	$0, %esi
	cmovbq	%rsi, %r12
	movl	%r11d, %esi
	orq	%r14, %rsi
	leaq	(%rdi,%r14), %r11
	subq	%r11, %rsi
	movl	$0, %r11d
	cmovbq	%r11, %rsi
	cmpl	%r9d, %r10d
	cmovbl	%r10d, %r9d
	cmpq	%r9, %r12
	cmovaeq	%r9, %r12
	cmpq	%r12, %rsi
	cmovbq	%rsi, %r12
	leaq	(%r8,%rax), %r9
	addq	%r12, %rax
	addq	%r8, %rdi
	cmpq	%r8, %r12
	movl	$0, %esi
	cmovbeq	%rsi, %r9
	cmovbeq	%rsi, %rax
	cmovbeq	%rsi, %rdi
	xorl	%r12d, %r12d
	subq	(%rsp), %r13
	leaq	(%r14,%r13), %rsi
	leaq	(%rbx,%r14), %r10
	cmpq	%rsi, %r10
	movq	%rsi, %r11
	cmovbq	%r10, %r11
	movq	%r14, %r8
	subq	%r11, %r8
	cmovbq	%r12, %r8
	orq	%r14, %rbp
	subq	%rsi, %rbp
	cmovbq	%r12, %rbp
	orq	%r14, %r15
	subq	%r10, %r15
	cmovbq	%r12, %r15
	movl	48(%rsp), %esi
	cmpl	%ecx, %esi
	cmovbl	%esi, %ecx
	cmpq	%rcx, %rbp
	cmovaeq	%rcx, %rbp
	cmpq	%rbp, %r15
	cmovbq	%r15, %rbp
	leaq	(%r8,%r13), %rcx
	addq	%rbp, %r13
	addq	%r8, %rbx
	cmpq	%r8, %rbp
	cmovbeq	%r12, %rcx
	cmovbeq	%r12, %r13
	cmovbeq	%r12, %rbx
	movq	%r9, 120(%rsp)
	movq	%rax, 128(%rsp)
	movq	%rdi, 136(%rsp)
	movq	%rcx, 144(%rsp)
	movq	%r13, 152(%rsp)
	movq	%rbx, 160(%rsp)
	movq	304(%rsp), %rcx
	leaq	120(%rsp), %r8
	movq	16(%rsp), %rdi
	movq	8(%rsp), %rsi
	callq	"pix_raster::view::blit_overlap::<#93a319759576dea8>"
	jmp	.LBB_9ba498_452
.LBB_9ba498_84:
	testq	%rbp, %rbp
	je	.LBB_9ba498_452
	movq	%r8, 80(%rsp)
	movl	%r13d, 96(%rsp)
	movq	%r15, %r13
	shrq	$32, %r13
	subq	%rbx, %rcx
	movabsq	$4294967296, %rbx
	leaq	(%rcx,%rbx), %r12
	leaq	(%rdi,%rbx), %rdx
	cmpq	%r12, %rdx
	movq	%r12, %r8
	cmovbq	%rdx, %r8
	xorl	%r9d, %r9d
	movq	%rbx, %r14
	subq	%r8, %r14
	cmovbq	%r9, %r14
	orq	%rbx, %rbp
	subq	%r12, %rbp
	cmovbq	%r9, %rbp
	movl	%r15d, %r8d
	orq	%rbx, %r8
	subq	%rdx, %r8
	cmovbq	%r9, %r8
	cmpl	%r10d, %r11d
	cmovbl	%r11d, %r10d
	cmpq	%r10, %rbp
	cmovaeq	%r10, %rbp
	cmpq	%rbp, %r8
	cmovbq	%r8, %rbp
	leaq	(%r14,%rcx), %r10
	addq	%rbp, %rcx
	addq	%r14, %rdi
	cmpq	%r14, %rbp
	cmovbeq	%r9, %r10
	cmovbeq	%r9, %rcx
	cmovbeq	%r9, %rdi
	subq	32(%rsp), %rax
	leaq	(%rax,%rbx), %r8
	movq	24(%rsp), %rdx
	leaq	(%rdx,%rbx), %r14
	cmpq	%r8, %r14
	movq	%r8, %r15
	cmovbq	%r14, %r15
	movq	%rbx, %r11
	subq	%r15, %r11
	cmovbq	%r9, %r11
	movq	(%rsp), %r15
	orq	%rbx, %r15
	subq	%r8, %r15
	cmovbq	%r9, %r15
	orq	%rbx, %r13
	subq	%r14, %r13
	cmovbq	%r9, %r13
	movl	96(%rsp), %r8d
	cmpl	%esi, %r8d
	cmovbl	%r8d, %esi
	cmpq	%rsi, %r15
	cmovaeq	%rsi, %r15
	cmpq	%r15, %r13
	cmovbq	%r13, %r15
	leaq	(%r11,%rax), %rsi
	addq	%r15, %rax
	addq	%r11, %rdx
	cmpq	%r11, %r15
	cmovbeq	%r9, %rsi
	cmovbeq	%r9, %rax
	cmovbeq	%r9, %rdx
	movq	%r10, 120(%rsp)
	movq	%rcx, 128(%rsp)
	movq	%rdi, 136(%rsp)
	movq	%rsi, 144(%rsp)
	movq	%rax, 152(%rsp)
	movq	%rdx, 160(%rsp)
	leaq	120(%rsp), %r8
	movq	16(%rsp), %rdi
	movq	8(%rsp), %rsi
	movq	48(%rsp), %rdx
	movq	80(%rsp), %rcx
	callq	"pix_raster::view::blit_overlap::<#168afd1b974e4a32>"
	jmp	.LBB_9ba498_452
.LBB_9ba498_86:
	testq	%r12, %r12
	je	.LBB_9ba498_452
	movq	344(%rsp), %rdx
	movq	%rdx, 24(%rsp)
	movslq	360(%rsp), %r8
	movl	%r15d, 48(%rsp)
	movq	%r11, %r15
	shrq	$32, %r15
	shrq	$32, %rdx
	subq	%r14, %rax
	movabsq	$4294967296, %r14
	addq	%r14, %rdi
	addq	%r14, %r8
	leaq	(%rax,%r14), %rbx
	cmpq	%rbx, %rdi
	movq	%rsi, 32(%rsp)
	movq	%rbx, %rsi
	cmovbq	%rdi, %rsi
	cmpq	%rsi, %r8
	cmovbq	%r8, %rsi
	movq	%r14, %rbx
	subq	%rsi, %rbx
	movl	$0, %esi
	cmovbq	%rsi, %rbx
	orq	%r14, %r12
	leaq	(%rax,%r14), %rsi
	subq	%rsi, %r12
	movl	$0, %esi
	cmovbq	%rsi, %r12
	movl	%r11d, %r11d
	orq	%r14, %r11
	subq	%rdi, %r11
	movl	24(%rsp), %esi
	movl	$0, %edi
	cmovbq	%rdi, %r11
	orq	%r14, %rsi
	subq	%r8, %rsi
	cmovbq	%rdi, %rsi
	cmpl	%r9d, %r10d
	cmovbl	%r10d, %r9d
	movl	368(%rsp), %edi
	cmpl	%r9d, %edi
	cmovbl	%edi, %r9d
	cmpq	%r9, %r12
	cmovaeq	%r9, %r12
	cmpq	%r12, %r11
	cmovbq	%r11, %r12
	cmpq	%r12, %rsi
	cmovbq	%rsi, %r12
	leaq	(%rbx,%rax), %r11
	addq	%r12, %rax
	cmpq	%rbx, %r12
	movl	$0, %esi
	cmovbeq	%rsi, %r11
	movslq	364(%rsp), %r8
	cmovbeq	%rsi, %rax
	xorl	%r10d, %r10d
	subq	(%rsp), %r13
	leaq	(%r14,%r13), %rsi
	movq	32(%rsp), %rdi
	addq	%r14, %rdi
	addq	%r14, %r8
	cmpq	%rsi, %rdi
	movq	%rsi, %r9
	cmovbq	%rdi, %r9
	movq	%rdi, %rbx
	cmpq	%r9, %r8
	cmovbq	%r8, %r9
	movq	%r14, %rdi
	subq	%r9, %rdi
	cmovbq	%r10, %rdi
	orq	%r14, %rbp
	subq	%rsi, %rbp
	cmovbq	%r10, %rbp
	orq	%r14, %r15
	subq	%rbx, %r15
	cmovbq	%r10, %r15
	orq	%r14, %rdx
	subq	%r8, %rdx
	cmovbq	%r10, %rdx
	movl	48(%rsp), %esi
	cmpl	%ecx, %esi
	cmovbl	%esi, %ecx
	movl	372(%rsp), %esi
	cmpl	%ecx, %esi
	cmovbl	%esi, %ecx
	cmpq	%rcx, %rbp
	cmovaeq	%rcx, %rbp
	cmpq	%rbp, %r15
	cmovbq	%r15, %rbp
	cmpq	%rbp, %rdx
	cmovbq	%rdx, %rbp
	leaq	(%rdi,%r13), %rbx
	addq	%rbp, %r13
	cmpq	%rdi, %rbp
	cmovbeq	%r10, %rbx
	cmovbeq	%r10, %r13
	movq	%r13, %r14
	subq	%rbx, %r14
	jbe	.LBB_9ba498_452
	movq	%rax, %r15
	subq	%r11, %r15
	cmpq	$1024, %r15
	jb	.LBB_9ba498_705
	movq	8(%rsp), %r12
	imulq	%r12, %rbx
	addq	%rbx, %r11
	movq	16(%rsp), %rax
	leaq	(%rax,%r11,4), %rbx
	shlq	$2, %r12
.LBB_9ba498_90:
	movq	%rbx, %rdi
	movq	%r15, %rsi
	callq	"pix_el::filled::clear_long::<#c0ead2364dd49755>"
	addq	%r12, %rbx
	decq	%r14
	jne	.LBB_9ba498_90
	jmp	.LBB_9ba498_452
.LBB_9ba498_91:
	testq	%r13, %r13
	je	.LBB_9ba498_452
	movq	%rbx, %r11
	shrq	$32, %r11
	subq	%rbp, %rcx
	movq	%rsi, 176(%rsp)
	movl	%r14d, 80(%rsp)
	movabsq	$4294967296, %r14
	leaq	(%rcx,%r14), %rsi
	leaq	(%rdx,%r14), %r15
	cmpq	%rsi, %r15
	movq	%rsi, %rbp
	cmovbq	%r15, %rbp
	xorl	%r8d, %r8d
	movq	%r14, %r12
	subq	%rbp, %r12
	cmovbq	%r8, %r12
	orq	%r14, %r13
	subq	%rsi, %r13
	cmovbq	%r8, %r13
	movl	%ebx, %esi
	orq	%r14, %rsi
	subq	%r15, %rsi
	cmovbq	%r8, %rsi
	cmpl	%edi, %r9d
	cmovbl	%r9d, %edi
	cmpq	%rdi, %r13
	cmovaeq	%rdi, %r13
	cmpq	%r13, %rsi
	cmovbq	%rsi, %r13
	leaq	(%r12,%rcx), %rdi
	addq	%r13, %rcx
	addq	%r12, %rdx
	cmpq	%r12, %r13
	cmovbeq	%r8, %rdi
	cmovbeq	%r8, %rcx
	cmovbeq	%r8, %rdx
	subq	(%rsp), %r10
	leaq	(%r10,%r14), %rsi
	movq	24(%rsp), %r15
	leaq	(%r15,%r14), %rbx
	cmpq	%rsi, %rbx
	movq	%rsi, %r12
	cmovbq	%rbx, %r12
	movq	%r14, %r9
	subq	%r12, %r9
	cmovbq	%r8, %r9
	movq	8(%rsp), %r12
	orq	%r14, %r12
	subq	%rsi, %r12
	cmovbq	%r8, %r12
	orq	%r14, %r11
	subq	%rbx, %r11
	cmovbq	%r8, %r11
	movl	80(%rsp), %esi
	cmpl	%eax, %esi
	cmovbl	%esi, %eax
	cmpq	%rax, %r12
	cmovaeq	%rax, %r12
	cmpq	%r12, %r11
	cmovbq	%r11, %r12
	leaq	(%r9,%r10), %rax
	addq	%r12, %r10
	addq	%r9, %r15
	cmpq	%r9, %r12
	cmovbeq	%r8, %rax
	cmovbeq	%r8, %r10
	cmovbeq	%r8, %r15
	movq	%rdi, 120(%rsp)
	movq	%rcx, 128(%rsp)
	movq	%rdx, 136(%rsp)
	movq	%rax, 144(%rsp)
	movq	%r10, 152(%rsp)
	movq	%r15, 160(%rsp)
	leaq	120(%rsp), %r8
	movq	16(%rsp), %rdi
	movq	32(%rsp), %rsi
	movq	48(%rsp), %rdx
	movq	176(%rsp), %rcx
	callq	"pix_raster::view::blit_overlap::<#93a319759576dea8>"
	jmp	.LBB_9ba498_452
.LBB_9ba498_93:
	testq	%r13, %r13
	je	.LBB_9ba498_452
	movq	%r15, %r14
	shrq	$32, %r14
	subq	%rbx, %rcx
	movabsq	$4294967296, %rbx
	leaq	(%rcx,%rbx), %r11
	leaq	(%rdx,%rbx), %rsi
	cmpq	%r11, %rsi
	movl	%r8d, 96(%rsp)
	movq	%r11, %r8
	cmovbq	%rsi, %r8
	xorl	%r11d, %r11d
	movq	%rbp, 80(%rsp)
	movq	%rbx, %rbp
	subq	%r8, %rbp
	cmovbq	%r11, %rbp
	orq	%rbx, %r13
	leaq	(%rcx,%rbx), %r8
	subq	%r8, %r13
	cmovbq	%r11, %r13
	movl	%r15d, %r8d
	orq	%rbx, %r8
	subq	%rsi, %r8
	cmovbq	%r11, %r8
	cmpl	%r9d, %r10d
	cmovbl	%r10d, %r9d
	cmpq	%r9, %r13
	cmovaeq	%r9, %r13
	cmpq	%r13, %r8
	cmovbq	%r8, %r13
	leaq	(%rcx,%rbp), %r9
	addq	%r13, %rcx
	addq	%rbp, %rdx
	cmpq	%rbp, %r13
	cmovbeq	%r11, %r9
	cmovbeq	%r11, %rcx
	cmovbeq	%r11, %rdx
	subq	32(%rsp), %rdi
	leaq	(%rdi,%rbx), %r8
	movq	24(%rsp), %rsi
	leaq	(%rsi,%rbx), %r15
	cmpq	%r8, %r15
	movq	%r8, %r13
	cmovbq	%r15, %r13
	movq	%rbx, %r10
	subq	%r13, %r10
	cmovbq	%r11, %r10
	movq	(%rsp), %r13
	orq	%rbx, %r13
	subq	%r8, %r13
	cmovbq	%r11, %r13
	orq	%rbx, %r14
	subq	%r15, %r14
	cmovbq	%r11, %r14
	movl	96(%rsp), %r8d
	cmpl	%eax, %r8d
	cmovbl	%r8d, %eax
	cmpq	%rax, %r13
	cmovaeq	%rax, %r13
	cmpq	%r13, %r14
	cmovbq	%r14, %r13
	leaq	(%r10,%rdi), %rax
	addq	%r13, %rdi
	addq	%r10, %rsi
	cmpq	%r10, %r13
	cmovbeq	%r11, %rax
	cmovbeq	%r11, %rdi
	cmovbeq	%r11, %rsi
	movq	%r9, 120(%rsp)
	movq	%rcx, 128(%rsp)
	movq	%rdx, 136(%rsp)
	movq	%rax, 144(%rsp)
	movq	%rdi, 152(%rsp)
	movq	%rsi, 160(%rsp)
	leaq	120(%rsp), %r8
	movq	%r12, %rdi
	movq	8(%rsp), %rsi
	movq	48(%rsp), %rdx
	movq	80(%rsp), %rcx
	callq	"pix_raster::view::blit_overlap::<#c30dc3dde8429fd7>"
	jmp	.LBB_9ba498_452
.LBB_9ba498_95:
	testq	%r12, %r12
	je	.LBB_9ba498_452
	subq	%r14, %rax
	movabsq	$4294967296, %rdi
	addq	%rdi, %rax
	cmpq	%rdi, %rax
	movq	%rdi, %rsi
	cmovaq	%rax, %rsi
	movabsq	$-4294967296, %rdx
	addq	%r9, %rax
	orq	%rdi, %r12
	cmpq	%rax, %r12
	cmovaeq	%rax, %r12
	leaq	(%rsi,%rdx), %r14
	xorl	%eax, %eax
	cmpq	%rsi, %r12
	cmovbeq	%rax, %r14
	subq	(%rsp), %r13
	addq	%rdi, %r13
	cmpq	%rdi, %r13
	movq	%rdi, %r8
	cmovaq	%r13, %r8
	addq	%rcx, %r13
	orq	%rdi, %rbp
	cmpq	%r13, %rbp
	cmovaeq	%r13, %rbp
	leaq	(%r8,%rdx), %r13
	cmpq	%r8, %rbp
	cmovbeq	%rax, %r13
	jbe	.LBB_9ba498_452
	leaq	(%rdx,%rbp), %rbx
	movq	%rbx, %r15
	subq	%r13, %r15
	jbe	.LBB_9ba498_452
	leaq	(%r12,%rdx), %rcx
	xorl	%eax, %eax
	cmpq	%rsi, %r12
	cmovaq	%rcx, %rax
	movq	%rax, %r12
	subq	%r14, %r12
	cmpq	$1024, %r12
	jb	.LBB_9ba498_714
	movq	8(%rsp), %rcx
	imulq	%rcx, %r13
	addq	%r13, %r14
	movq	16(%rsp), %rax
	leaq	(%rax,%r14,4), %rbx
	shlq	$2, %rcx
	movq	%rcx, %r14
.LBB_9ba498_100:
	movq	%rbx, %rdi
	movq	%r12, %rsi
	callq	"pix_el::filled::clear_long::<#c0ead2364dd49755>"
	addq	%r14, %rbx
	decq	%r15
	jne	.LBB_9ba498_100
	jmp	.LBB_9ba498_452
.LBB_9ba498_101:
	testq	%r13, %r13
	je	.LBB_9ba498_452
	movq	%r11, %r8
	shrq	$32, %r8
	subq	%rbx, %r15
	movabsq	$4294967296, %rbx
	movl	%r10d, 96(%rsp)
	leaq	(%r15,%rbx), %r10
	leaq	(%rbx,%rbp), %rsi
	cmpq	%r10, %rsi
	movq	%r10, %r12
	cmovbq	%rsi, %r12
	xorl	%ecx, %ecx
	movq	%r14, 80(%rsp)
	movq	%rbx, %r14
	subq	%r12, %r14
	cmovbq	%rcx, %r14
	orq	%rbx, %r13
	subq	%r10, %r13
	cmovbq	%rcx, %r13
	movl	%r11d, %r10d
	orq	%rbx, %r10
	subq	%rsi, %r10
	cmovbq	%rcx, %r10
	cmpl	%edx, %edi
	cmovbl	%edi, %edx
	cmpq	%rdx, %r13
	cmovaeq	%rdx, %r13
	cmpq	%r13, %r10
	cmovbq	%r10, %r13
	leaq	(%r14,%r15), %rdx
	addq	%r13, %r15
	addq	%r14, %rbp
	cmpq	%r14, %r13
	cmovbeq	%rcx, %rdx
	cmovbeq	%rcx, %r15
	cmovbeq	%rcx, %rbp
	subq	32(%rsp), %rax
	leaq	(%rax,%rbx), %r10
	movq	24(%rsp), %rsi
	leaq	(%rsi,%rbx), %r11
	cmpq	%r10, %r11
	movq	%r10, %r14
	cmovbq	%r11, %r14
	movq	%rbx, %rdi
	subq	%r14, %rdi
	cmovbq	%rcx, %rdi
	movq	(%rsp), %r14
	orq	%rbx, %r14
	subq	%r10, %r14
	cmovbq	%rcx, %r14
	orq	%rbx, %r8
	subq	%r11, %r8
	cmovbq	%rcx, %r8
	movl	96(%rsp), %r10d
	cmpl	%r9d, %r10d
	cmovbl	%r10d, %r9d
	cmpq	%r9, %r14
	cmovaeq	%r9, %r14
	cmpq	%r14, %r8
	cmovbq	%r8, %r14
	leaq	(%rdi,%rax), %r8
	addq	%r14, %rax
	addq	%rdi, %rsi
	cmpq	%rdi, %r14
	cmovbeq	%rcx, %r8
	cmovbeq	%rcx, %rax
	cmovbeq	%rcx, %rsi
	movq	%rdx, 120(%rsp)
	movq	%r15, 128(%rsp)
	movq	%rbp, 136(%rsp)
	movq	%r8, 144(%rsp)
	movq	%rax, 152(%rsp)
	movq	%rsi, 160(%rsp)
	jmp	.LBB_9ba498_450
.LBB_9ba498_103:
	testq	%r12, %r12
	je	.LBB_9ba498_452
	movabsq	$4294967296, %rax
	movq	(%rsp), %rdi
	leal	(%rdi,%rbp), %esi
	leal	(%r14,%r12), %ecx
	subq	%r14, %rcx
	addq	%rax, %rcx
	orq	%rax, %r12
	cmpq	%rcx, %r12
	cmovaeq	%rcx, %r12
	xorl	%edx, %edx
	movq	%r12, %r15
	subq	%rax, %r15
	cmovbq	%rdx, %r15
	subq	%rdi, %rsi
	addq	%rax, %rsi
	orq	%rax, %rbp
	cmpq	%rsi, %rbp
	cmovaeq	%rsi, %rbp
	movq	%rbp, %rbx
	subq	%rax, %rbx
	cmovbq	%rdx, %rbx
	leaq	1(%rax), %rdx
	cmpq	%rdx, %rbp
	jb	.LBB_9ba498_452
	movq	8(%rsp), %rdi
	leaq	(,%rdi,4), %r13
	cmpq	$1024, %r15
	jb	.LBB_9ba498_723
	xorl	%r14d, %r14d
.LBB_9ba498_107:
	movq	16(%rsp), %r12
	movq	%r12, %rdi
	movq	%r15, %rsi
	callq	"pix_el::filled::clear_long::<#c0ead2364dd49755>"
	incq	%r14
	addq	%r13, %r12
	movq	%r12, 16(%rsp)
	cmpq	%rbx, %r14
	jb	.LBB_9ba498_107
	jmp	.LBB_9ba498_452
.LBB_9ba498_108:
	testq	%r12, %r12
	je	.LBB_9ba498_452
	subq	%r14, %rax
	movabsq	$4294967296, %rsi
	addq	%rsi, %rax
	cmpq	%rsi, %rax
	movq	%rsi, %r8
	cmovaq	%rax, %r8
	movabsq	$-4294967296, %rdi
	addq	%r9, %rax
	orq	%rsi, %r12
	cmpq	%rax, %r12
	cmovaeq	%rax, %r12
	leaq	(%r8,%rdi), %rax
	xorl	%r9d, %r9d
	cmpq	%r8, %r12
	cmovbeq	%r9, %rax
	subq	(%rsp), %r13
	addq	%rsi, %r13
	cmpq	%rsi, %r13
	movq	%rsi, %r10
	cmovaq	%r13, %r10
	addq	%rcx, %r13
	orq	%rsi, %rbp
	cmpq	%r13, %rbp
	cmovaeq	%r13, %rbp
	leaq	(%r10,%rdi), %rcx
	cmpq	%r10, %rbp
	cmovbeq	%r9, %rcx
	jbe	.LBB_9ba498_452
	addq	%rdi, %rbp
	cmpq	%rcx, %rbp
	jbe	.LBB_9ba498_452
	addq	%r12, %rdi
	xorl	%esi, %esi
	cmpq	%r8, %r12
	cmovaq	%rdi, %rsi
	movl	(%rdx), %edx
	movq	%rsi, %rdi
	subq	%rax, %rdi
	movq	%rdi, %r8
	andq	$-8, %r8
	movd	%edx, %xmm0
	pshufd	$0, %xmm0, %xmm0
	movq	%rcx, %r10
	movq	8(%rsp), %rbx
	imulq	%rbx, %r10
	leaq	(,%rax,4), %r9
	leaq	(%r9,%r10,4), %r9
	movq	16(%rsp), %r11
	addq	%r11, %r9
	addq	$16, %r9
	shlq	$2, %rbx
	addq	%rax, %r10
	leaq	(%r11,%r10,4), %r10
	jmp	.LBB_9ba498_113
.LBB_9ba498_112:
	incq	%rcx
	addq	%rbx, %r9
	addq	%rbx, %r10
	cmpq	%rbp, %rcx
	je	.LBB_9ba498_452
.LBB_9ba498_113:
	cmpq	%rax, %rsi
	je	.LBB_9ba498_112
	xorl	%r11d, %r11d
	cmpq	$8, %rdi
	jb	.LBB_9ba498_117
	.p2align	4
.LBB_9ba498_115:
	movdqu	%xmm0, -16(%r9,%r11,4)
	movdqu	%xmm0, (%r9,%r11,4)
	addq	$8, %r11
	cmpq	%r11, %r8
	jne	.LBB_9ba498_115
	movq	%r8, %r11
	cmpq	%r8, %rdi
	je	.LBB_9ba498_112
	.p2align	4
.LBB_9ba498_117:
	movl	%edx, (%r10,%r11,4)
	incq	%r11
	cmpq	%r11, %rdi
	jne	.LBB_9ba498_117
	jmp	.LBB_9ba498_112
.LBB_9ba498_118:
	testq	%r13, %r13
	je	.LBB_9ba498_452
	subq	%rbp, %rcx
	movabsq	$4294967296, %rdx
	addq	%rdx, %rcx
	cmpq	%rdx, %rcx
	movq	%rdx, %r11
	cmovaq	%rcx, %r11
	movabsq	$-4294967296, %r9
	addq	%rdi, %rcx
	orq	%rdx, %r13
	cmpq	%rcx, %r13
	cmovaeq	%rcx, %r13
	leaq	(%r11,%r9), %rsi
	xorl	%ecx, %ecx
	cmpq	%r11, %r13
	cmovbeq	%rcx, %rsi
	movq	%rsi, 64(%rsp)
	subq	(%rsp), %r10
	addq	%rdx, %r10
	cmpq	%rdx, %r10
	movq	%rdx, %rsi
	cmovaq	%r10, %rsi
	addq	%rax, %r10
	movq	8(%rsp), %rdi
	orq	%rdx, %rdi
	cmpq	%r10, %rdi
	cmovaeq	%r10, %rdi
	leaq	(%rsi,%r9), %rdx
	cmpq	%rsi, %rdi
	cmovbeq	%rcx, %rdx
	movq	%rdx, (%rsp)
	jbe	.LBB_9ba498_452
	movq	%rdi, %rax
	addq	%r9, %rax
	movq	%rax, 8(%rsp)
	cmpq	(%rsp), %rax
	jbe	.LBB_9ba498_452
	movq	48(%rsp), %rax
	movl	(%rax), %ecx
	movzbl	%ch, %edi
	movl	%ecx, %r8d
	shrl	$16, %r8d
	movl	%ecx, %esi
	shrl	$24, %esi
	addq	%r13, %r9
	xorl	%eax, %eax
	cmpq	%r11, %r13
	cmovaq	%r9, %rax
	movq	64(%rsp), %rdx
	subq	%rdx, %rax
	movq	%rax, %r9
	shrq	$4, %r9
	movq	%r9, 24(%rsp)
	movl	%ecx, %ebx
	shrl	$8, %ebx
	movd	%ecx, %xmm0
	pinsrb	$1, %ebx, %xmm0
	pinsrb	$2, %r8d, %xmm0
	pinsrb	$3, %esi, %xmm0
	pinsrb	$4, %ecx, %xmm0
	pinsrb	$5, %ebx, %xmm0
	pinsrb	$6, %r8d, %xmm0
	pinsrb	$7, %esi, %xmm0
	pinsrb	$8, %ecx, %xmm0
	pinsrb	$9, %ebx, %xmm0
	pinsrb	$10, %r8d, %xmm0
	pinsrb	$11, %esi, %xmm0
	pinsrb	$12, %ecx, %xmm0
	pinsrb	$13, %ebx, %xmm0
	pinsrb	$14, %r8d, %xmm0
	movdqa	.LCPI_9ba498_0(%rip), %xmm1
	pand	%xmm0, %xmm1
	pinsrb	$15, %esi, %xmm0
	psrlw	$8, %xmm0
	movq	%rax, %r10
	andq	$-16, %r10
	leaq	(,%r10,4), %r9
	movq	%r9, 72(%rsp)
	movl	%eax, %r11d
	andl	$15, %r11d
	leal	(,%rax,4), %r9d
	movl	%r9d, %ebx
	andl	$32, %ebx
	movq	%rbx, 168(%rsp)
	movq	%rax, 48(%rsp)
	andl	$12, %eax
	movq	%rax, 176(%rsp)
	movzbl	%cl, %ebp
	movzbl	%r8b, %r13d
	movq	(%rsp), %rcx
	movq	32(%rsp), %rax
	imulq	%rax, %rcx
	addq	%rdx, %rcx
	leaq	(%r12,%rcx,4), %r15
	andl	$48, %r9d
	movq	%r10, 80(%rsp)
	leaq	(%r9,%r10,4), %r8
	leaq	(%r8,%rcx,4), %r14
	leaq	(,%rax,4), %rax
	movq	%rax, 96(%rsp)
	addq	%r12, %r14
	jmp	.LBB_9ba498_123
.LBB_9ba498_122:
	movq	(%rsp), %rax
	incq	%rax
	movq	96(%rsp), %rcx
	addq	%rcx, %r15
	addq	%rcx, %r14
	movq	%rax, (%rsp)
	cmpq	8(%rsp), %rax
	je	.LBB_9ba498_452
.LBB_9ba498_123:
	cmpq	$0, 24(%rsp)
	je	.LBB_9ba498_126
	movq	%r15, %r10
	movq	24(%rsp), %r8
	.p2align	4
.LBB_9ba498_125:
	pcmpeqd	%xmm6, %xmm6
	movdqu	(%r10), %xmm9
	movdqu	16(%r10), %xmm8
	movdqu	32(%r10), %xmm3
	movdqu	48(%r10), %xmm2
	pxor	%xmm6, %xmm9
	pxor	%xmm6, %xmm8
	movdqa	.LCPI_9ba498_5(%rip), %xmm7
	pshufb	%xmm7, %xmm8
	pshufb	%xmm7, %xmm9
	movdqa	%xmm1, %xmm10
	pmullw	%xmm9, %xmm10
	movdqa	%xmm1, %xmm11
	pmullw	%xmm8, %xmm11
	movdqa	.LCPI_9ba498_1(%rip), %xmm4
	paddw	%xmm4, %xmm11
	paddw	%xmm4, %xmm10
	movdqa	.LCPI_9ba498_2(%rip), %xmm5
	pmulhuw	%xmm5, %xmm10
	pmulhuw	%xmm5, %xmm11
	pmullw	%xmm0, %xmm8
	pmullw	%xmm0, %xmm9
	paddw	%xmm4, %xmm9
	paddw	%xmm4, %xmm8
	pmulhuw	%xmm5, %xmm8
	pmulhuw	%xmm5, %xmm9
	psllw	$8, %xmm9
	por	%xmm10, %xmm9
	psllw	$8, %xmm8
	por	%xmm11, %xmm8
	movdqu	%xmm9, (%r10)
	movdqu	%xmm8, 16(%r10)
	pxor	%xmm6, %xmm3
	pxor	%xmm6, %xmm2
	pshufb	%xmm7, %xmm2
	pshufb	%xmm7, %xmm3
	movdqa	%xmm1, %xmm6
	pmullw	%xmm3, %xmm6
	movdqa	%xmm1, %xmm7
	pmullw	%xmm2, %xmm7
	paddw	%xmm4, %xmm7
	paddw	%xmm4, %xmm6
	pmulhuw	%xmm5, %xmm6
	pmulhuw	%xmm5, %xmm7
	pmullw	%xmm0, %xmm2
	pmullw	%xmm0, %xmm3
	paddw	%xmm4, %xmm3
	paddw	%xmm4, %xmm2
	pmulhuw	%xmm5, %xmm2
	pmulhuw	%xmm5, %xmm3
	psllw	$8, %xmm3
	por	%xmm6, %xmm3
	psllw	$8, %xmm2
	por	%xmm7, %xmm2
	movdqu	%xmm3, 32(%r10)
	movdqu	%xmm2, 48(%r10)
	addq	$64, %r10
	decq	%r8
	jne	.LBB_9ba498_125
.LBB_9ba498_126:
	movq	80(%rsp), %rax
	cmpq	48(%rsp), %rax
	je	.LBB_9ba498_122
	movq	(%rsp), %rcx
	imulq	32(%rsp), %rcx
	addq	64(%rsp), %rcx
	movq	16(%rsp), %rax
	leaq	(%rax,%rcx,4), %r8
	addq	72(%rsp), %r8
	testb	$8, 48(%rsp)
	jne	.LBB_9ba498_130
	testb	$4, 48(%rsp)
	jne	.LBB_9ba498_131
.LBB_9ba498_129:
	cmpl	%r11d, 176(%rsp)
	jae	.LBB_9ba498_122
	jmp	.LBB_9ba498_132
.LBB_9ba498_130:
	movdqu	(%r8), %xmm3
	movdqu	16(%r8), %xmm2
	pcmpeqd	%xmm4, %xmm4
	pxor	%xmm4, %xmm3
	pxor	%xmm4, %xmm2
	movdqa	.LCPI_9ba498_5(%rip), %xmm4
	pshufb	%xmm4, %xmm2
	pshufb	%xmm4, %xmm3
	movdqa	%xmm1, %xmm4
	pmullw	%xmm3, %xmm4
	movdqa	%xmm1, %xmm5
	pmullw	%xmm2, %xmm5
	movdqa	.LCPI_9ba498_1(%rip), %xmm6
	paddw	%xmm6, %xmm5
	paddw	%xmm6, %xmm4
	movdqa	.LCPI_9ba498_2(%rip), %xmm7
	pmulhuw	%xmm7, %xmm4
	pmulhuw	%xmm7, %xmm5
	pmullw	%xmm0, %xmm2
	pmullw	%xmm0, %xmm3
	paddw	%xmm6, %xmm3
	paddw	%xmm6, %xmm2
	pmulhuw	%xmm7, %xmm2
	pmulhuw	%xmm7, %xmm3
	psllw	$8, %xmm3
	por	%xmm4, %xmm3
	psllw	$8, %xmm2
	por	%xmm5, %xmm2
	movdqu	%xmm3, (%r8)
	movdqu	%xmm2, 16(%r8)
	testb	$4, 48(%rsp)
	je	.LBB_9ba498_129
.LBB_9ba498_131:
	movq	168(%rsp), %rax
	movdqu	(%r8,%rax), %xmm2
	pshufb	.LCPI_9ba498_6(%rip), %xmm2
	pcmpeqd	%xmm3, %xmm3
	pxor	%xmm2, %xmm3
	pandn	.LCPI_9ba498_0(%rip), %xmm2
	pmullw	%xmm1, %xmm2
	movdqa	.LCPI_9ba498_1(%rip), %xmm4
	paddw	%xmm4, %xmm2
	movdqa	.LCPI_9ba498_2(%rip), %xmm5
	pmulhuw	%xmm5, %xmm2
	psrlw	$8, %xmm3
	pmullw	%xmm0, %xmm3
	paddw	%xmm4, %xmm3
	pmulhuw	%xmm5, %xmm3
	psllw	$8, %xmm3
	por	%xmm2, %xmm3
	movdqu	%xmm3, (%r8,%rax)
	cmpl	%r11d, 176(%rsp)
	jae	.LBB_9ba498_122
.LBB_9ba498_132:
	movq	%r14, %r8
	movq	176(%rsp), %r10
	.p2align	4
.LBB_9ba498_133:
	movzbl	3(%r8), %r12d
	xorl	$255, %r12d
	movzwl	%bp, %ecx
	imull	%r12d, %ecx
	leal	128(%rcx), %eax
	movzbl	%ah, %eax
	addl	%ecx, %eax
	addl	$128, %eax
	movzbl	%ah, %ecx
	movzwl	%di, %eax
	imull	%r12d, %eax
	leal	128(%rax), %edx
	movzbl	%dh, %edx
	leal	(%rdx,%rax), %r9d
	addl	$128, %r9d
	andl	$65280, %r9d
	movzwl	%r13w, %eax
	imull	%r12d, %eax
	leal	128(%rax), %edx
	movzbl	%dh, %edx
	addl	%edx, %eax
	addl	$128, %eax
	movzwl	%si, %edx
	imull	%r12d, %edx
	leal	128(%rdx), %ebx
	movzbl	%bh, %ebx
	addl	%ebx, %edx
	addl	$128, %edx
	shll	$16, %edx
	andl	$-16777216, %edx
	shll	$8, %eax
	andl	$16711680, %eax
	orl	%edx, %eax
	orl	%r9d, %eax
	orl	%ecx, %eax
	movl	%eax, (%r8)
	incq	%r10
	addq	$4, %r8
	cmpq	%r11, %r10
	jb	.LBB_9ba498_133
	jmp	.LBB_9ba498_122
.LBB_9ba498_134:
	testq	%r13, %r13
	je	.LBB_9ba498_452
	movq	%r15, %r14
	shrq	$32, %r14
	subq	%rbx, %rcx
	movabsq	$4294967296, %rbx
	leaq	(%rcx,%rbx), %r11
	leaq	(%rdx,%rbx), %rsi
	cmpq	%r11, %rsi
	movq	%rdi, 24(%rsp)
	movq	%r11, %rdi
	cmovbq	%rsi, %rdi
	xorl	%r11d, %r11d
	movl	%ebp, 80(%rsp)
	movq	%rbx, %rbp
	subq	%rdi, %rbp
	cmovbq	%r11, %rbp
	orq	%rbx, %r13
	leaq	(%rcx,%rbx), %rdi
	subq	%rdi, %r13
	cmovbq	%r11, %r13
	movl	%r15d, %edi
	orq	%rbx, %rdi
	subq	%rsi, %rdi
	cmovbq	%r11, %rdi
	cmpl	%r8d, %r9d
	cmovbl	%r9d, %r8d
	cmpq	%r8, %r13
	cmovaeq	%r8, %r13
	cmpq	%r13, %rdi
	cmovbq	%rdi, %r13
	leaq	(%rcx,%rbp), %r8
	addq	%r13, %rcx
	addq	%rbp, %rdx
	cmpq	%rbp, %r13
	cmovbeq	%r11, %r8
	cmovbeq	%r11, %rcx
	cmovbeq	%r11, %rdx
	subq	48(%rsp), %r10
	leaq	(%r10,%rbx), %rdi
	movq	32(%rsp), %rsi
	leaq	(%rsi,%rbx), %r15
	cmpq	%rdi, %r15
	movq	%rdi, %r13
	cmovbq	%r15, %r13
	movq	%rbx, %r9
	subq	%r13, %r9
	cmovbq	%r11, %r9
	orq	%rbx, %r12
	subq	%rdi, %r12
	cmovbq	%r11, %r12
	orq	%rbx, %r14
	subq	%r15, %r14
	cmovbq	%r11, %r14
	movl	80(%rsp), %edi
	cmpl	%eax, %edi
	cmovbl	%edi, %eax
	cmpq	%rax, %r12
	cmovaeq	%rax, %r12
	cmpq	%r12, %r14
	cmovbq	%r14, %r12
	leaq	(%r9,%r10), %rax
	addq	%r12, %r10
	addq	%r9, %rsi
	cmpq	%r9, %r12
	cmovbeq	%r11, %rax
	cmovbeq	%r11, %r10
	cmovbeq	%r11, %rsi
	movq	%r8, 120(%rsp)
	movq	%rcx, 128(%rsp)
	movq	%rdx, 136(%rsp)
	movq	%rax, 144(%rsp)
	movq	%r10, 152(%rsp)
	movq	%rsi, 160(%rsp)
	leaq	120(%rsp), %r8
	movq	16(%rsp), %rdi
	movq	(%rsp), %rsi
	movq	8(%rsp), %rdx
	movq	24(%rsp), %rcx
	callq	"pix_raster::view::blit_overlap::<#88ae0de0b3775985>"
	jmp	.LBB_9ba498_452
.LBB_9ba498_136:
	movq	%r15, 96(%rsp)
	testq	%r13, %r13
	je	.LBB_9ba498_452
	movq	%rbx, %r11
	shrq	$32, %r11
	subq	%rbp, %rcx
	movq	%rsi, 176(%rsp)
	movl	%r14d, 80(%rsp)
	movabsq	$4294967296, %r14
	leaq	(%rcx,%r14), %rbp
	leaq	(%rdx,%r14), %r15
	cmpq	%rbp, %r15
	movq	%rbp, %rsi
	cmovbq	%r15, %rsi
	xorl	%r8d, %r8d
	movq	%r14, %r12
	subq	%rsi, %r12
	cmovbq	%r8, %r12
	orq	%r14, %r13
	subq	%rbp, %r13
	cmovbq	%r8, %r13
	movl	%ebx, %esi
	orq	%r14, %rsi
	subq	%r15, %rsi
	cmovbq	%r8, %rsi
	cmpl	%edi, %r9d
	cmovbl	%r9d, %edi
	cmpq	%rdi, %r13
	cmovaeq	%rdi, %r13
	cmpq	%r13, %rsi
	cmovbq	%rsi, %r13
	leaq	(%r12,%rcx), %rdi
	addq	%r13, %rcx
	addq	%r12, %rdx
	cmpq	%r12, %r13
	cmovbeq	%r8, %rdi
	cmovbeq	%r8, %rcx
	cmovbeq	%r8, %rdx
	subq	(%rsp), %r10
	leaq	(%r10,%r14), %rsi
	movq	24(%rsp), %r15
	leaq	(%r15,%r14), %rbx
	cmpq	%rsi, %rbx
	movq	%rsi, %r12
	cmovbq	%rbx, %r12
	movq	%r14, %r9
	subq	%r12, %r9
	cmovbq	%r8, %r9
	movq	8(%rsp), %r12
	orq	%r14, %r12
	subq	%rsi, %r12
	cmovbq	%r8, %r12
	orq	%r14, %r11
	subq	%rbx, %r11
	cmovbq	%r8, %r11
	movl	80(%rsp), %esi
	cmpl	%eax, %esi
	cmovbl	%esi, %eax
	cmpq	%rax, %r12
	cmovaeq	%rax, %r12
	cmpq	%r12, %r11
	cmovbq	%r11, %r12
	leaq	(%r9,%r10), %rax
	addq	%r12, %r10
	addq	%r9, %r15
	cmpq	%r9, %r12
	cmovbeq	%r8, %rax
	cmovbeq	%r8, %r10
	cmovbeq	%r8, %r15
	movq	96(%rsp), %rsi
	movzbl	(%rsi), %esi
	movq	%rdi, 120(%rsp)
	movq	%rcx, 128(%rsp)
	movq	%rdx, 136(%rsp)
	movq	%rax, 144(%rsp)
	movq	%r10, 152(%rsp)
	movq	%r15, 160(%rsp)
	movzbl	%sil, %r9d
	leaq	120(%rsp), %r8
	movq	16(%rsp), %rdi
	movq	32(%rsp), %rsi
	movq	48(%rsp), %rdx
	movq	176(%rsp), %rcx
	callq	"pix_raster::view::blit_overlap::<#4bf1498ae24b3bf7>"
	jmp	.LBB_9ba498_452
.LBB_9ba498_138:
	testq	%r13, %r13
	je	.LBB_9ba498_452
	movq	%r15, %r14
	shrq	$32, %r14
	subq	%rbx, %rcx
	movabsq	$4294967296, %rbx
	leaq	(%rcx,%rbx), %r12
	leaq	(%rdx,%rbx), %r11
	cmpq	%r12, %r11
	movl	%esi, 96(%rsp)
	movq	%r12, %rsi
	cmovbq	%r11, %rsi
	xorl	%r8d, %r8d
	movq	%rbp, 80(%rsp)
	movq	%rbx, %rbp
	subq	%rsi, %rbp
	cmovbq	%r8, %rbp
	orq	%rbx, %r13
	subq	%r12, %r13
	cmovbq	%r8, %r13
	movl	%r15d, %esi
	orq	%rbx, %rsi
	subq	%r11, %rsi
	cmovbq	%r8, %rsi
	cmpl	%edi, %r9d
	cmovbl	%r9d, %edi
	cmpq	%rdi, %r13
	cmovaeq	%rdi, %r13
	cmpq	%r13, %rsi
	cmovbq	%rsi, %r13
	leaq	(%rcx,%rbp), %rdi
	addq	%r13, %rcx
	addq	%rbp, %rdx
	cmpq	%rbp, %r13
	cmovbeq	%r8, %rdi
	cmovbeq	%r8, %rcx
	cmovbeq	%r8, %rdx
	subq	32(%rsp), %r10
	leaq	(%r10,%rbx), %rsi
	movq	24(%rsp), %r11
	leaq	(%r11,%rbx), %r15
	cmpq	%rsi, %r15
	movq	%rsi, %r12
	cmovbq	%r15, %r12
	movq	%rbx, %r9
	subq	%r12, %r9
	cmovbq	%r8, %r9
	movq	(%rsp), %r12
	orq	%rbx, %r12
	subq	%rsi, %r12
	cmovbq	%r8, %r12
	orq	%rbx, %r14
	subq	%r15, %r14
	cmovbq	%r8, %r14
	movl	96(%rsp), %esi
	cmpl	%eax, %esi
	cmovbl	%esi, %eax
	cmpq	%rax, %r12
	cmovaeq	%rax, %r12
	cmpq	%r12, %r14
	cmovbq	%r14, %r12
	leaq	(%r9,%r10), %rax
	addq	%r12, %r10
	addq	%r9, %r11
	cmpq	%r9, %r12
	cmovbeq	%r8, %rax
	cmovbeq	%r8, %r10
	cmovbeq	%r8, %r11
	movq	%rdi, 120(%rsp)
	movq	%rcx, 128(%rsp)
	movq	%rdx, 136(%rsp)
	movq	%rax, 144(%rsp)
	movq	%r10, 152(%rsp)
	movq	%r11, 160(%rsp)
	leaq	120(%rsp), %r8
	movq	16(%rsp), %rdi
	movq	8(%rsp), %rsi
	movq	48(%rsp), %rdx
	movq	80(%rsp), %rcx
	callq	"pix_raster::view::blit_overlap::<#118c7942c1302bcc>"
	jmp	.LBB_9ba498_452
.LBB_9ba498_140:
	testq	%r13, %r13
	je	.LBB_9ba498_452
	subq	%rbx, %r15
	movabsq	$4294967296, %rsi
	addq	%rsi, %r15
	cmpq	%rsi, %r15
	movq	%rsi, %r10
	cmovaq	%r15, %r10
	movabsq	$-4294967296, %rcx
	addq	%rdx, %r15
	orq	%rsi, %r13
	cmpq	%r15, %r13
	cmovaeq	%r15, %r13
	leaq	(%r10,%rcx), %rdi
	xorl	%edx, %edx
	cmpq	%r10, %r13
	cmovbeq	%rdx, %rdi
	movq	%rdi, 24(%rsp)
	subq	32(%rsp), %rax
	addq	%rsi, %rax
	cmpq	%rsi, %rax
	movq	%rsi, %rdi
	cmovaq	%rax, %rdi
	addq	%r9, %rax
	movq	(%rsp), %r8
	orq	%rsi, %r8
	cmpq	%rax, %r8
	cmovaeq	%rax, %r8
	leaq	(%rdi,%rcx), %r12
	cmpq	%rdi, %r8
	cmovbeq	%rdx, %r12
	jbe	.LBB_9ba498_452
	movq	%r8, %rax
	addq	%rcx, %rax
	movq	%rax, (%rsp)
	cmpq	%r12, %rax
	jbe	.LBB_9ba498_452
	movq	48(%rsp), %rax
	movl	(%rax), %edx
	movl	%edx, %esi
	movl	%edx, %edi
	shrl	$8, %edi
	movl	%edx, %r8d
	shrl	$16, %r8d
	shrl	$24, %edx
	addq	%r13, %rcx
	xorl	%r9d, %r9d
	cmpq	%r10, %r13
	cmovaq	%rcx, %r9
	movq	24(%rsp), %rax
	subq	%rax, %r9
	movq	%r9, %r10
	movzbl	%dil, %ecx
	movzbl	%sil, %r11d
	movd	%r11d, %xmm0
	pinsrb	$1, %ecx, %xmm0
	movzbl	%r8b, %ebx
	pinsrb	$2, %ebx, %xmm0
	movzbl	%dl, %ebp
	pinsrb	$3, %ebp, %xmm0
	pinsrb	$4, %r11d, %xmm0
	pinsrb	$5, %ecx, %xmm0
	pinsrb	$6, %ebx, %xmm0
	pinsrb	$7, %ebp, %xmm0
	pinsrb	$8, %r11d, %xmm0
	pinsrb	$9, %ecx, %xmm0
	pinsrb	$10, %ebx, %xmm0
	pinsrb	$11, %ebp, %xmm0
	pinsrb	$12, %r11d, %xmm0
	pinsrb	$13, %ecx, %xmm0
	pinsrb	$14, %ebx, %xmm0
	shrq	$4, %r10
	pinsrb	$15, %ebp, %xmm0
	movq	%r9, %r15
	andq	$-16, %r15
	leaq	(,%r15,4), %rcx
	movq	%rcx, 72(%rsp)
	movl	%r9d, %r14d
	andl	$15, %r14d
	leal	(,%r9,4), %ecx
	movl	%ecx, %r11d
	andl	$32, %r11d
	movq	%r11, 168(%rsp)
	movq	%r9, 48(%rsp)
	andl	$12, %r9d
	movq	%r9, 64(%rsp)
	movq	%r10, %rbp
	andq	$-2, %rbp
	movq	%r12, %rbx
	movq	8(%rsp), %r9
	imulq	%r9, %rbx
	addq	%rax, %rbx
	movq	16(%rsp), %rax
	leaq	(%rax,%rbx,4), %r11
	andl	$48, %ecx
	movq	%r15, 96(%rsp)
	leaq	(%rcx,%r15,4), %rcx
	leaq	(%rcx,%rbx,4), %r15
	leaq	(,%r9,4), %rcx
	movq	%rcx, 176(%rsp)
	addq	%rax, %r15
	movq	%r10, 80(%rsp)
	jmp	.LBB_9ba498_145
.LBB_9ba498_144:
	movq	32(%rsp), %r12
	incq	%r12
	movq	176(%rsp), %rax
	addq	%rax, %r11
	addq	%rax, %r15
	cmpq	(%rsp), %r12
	movq	80(%rsp), %r10
	je	.LBB_9ba498_452
.LBB_9ba498_145:
	movq	%r12, %rcx
	imulq	8(%rsp), %rcx
	addq	24(%rsp), %rcx
	movq	16(%rsp), %rax
	leaq	(%rax,%rcx,4), %rcx
	testq	%r10, %r10
	je	.LBB_9ba498_151
	xorl	%r13d, %r13d
	cmpq	$1, %r10
	je	.LBB_9ba498_150
	movq	%r11, %rbx
	.p2align	4
.LBB_9ba498_148:
	movdqu	(%rbx), %xmm1
	movdqu	16(%rbx), %xmm2
	movdqu	32(%rbx), %xmm3
	movdqu	48(%rbx), %xmm4
	paddusb	%xmm0, %xmm2
	paddusb	%xmm0, %xmm1
	movdqu	%xmm1, (%rbx)
	movdqu	%xmm2, 16(%rbx)
	paddusb	%xmm0, %xmm4
	paddusb	%xmm0, %xmm3
	movdqu	%xmm3, 32(%rbx)
	movdqu	%xmm4, 48(%rbx)
	movdqu	64(%rbx), %xmm1
	movdqu	80(%rbx), %xmm2
	paddusb	%xmm0, %xmm2
	paddusb	%xmm0, %xmm1
	movdqu	%xmm1, 64(%rbx)
	movdqu	%xmm2, 80(%rbx)
	movdqu	96(%rbx), %xmm1
	movdqu	112(%rbx), %xmm2
	paddusb	%xmm0, %xmm2
	paddusb	%xmm0, %xmm1
	movdqu	%xmm1, 96(%rbx)
	movdqu	%xmm2, 112(%rbx)
	addq	$2, %r13
	subq	$-128, %rbx
	cmpq	%r13, %rbp
	jne	.LBB_9ba498_148
	testb	$1, %r10b
	je	.LBB_9ba498_151
.LBB_9ba498_150:
	shlq	$6, %r13
	movdqu	(%rcx,%r13), %xmm1
	movdqu	16(%rcx,%r13), %xmm2
	movdqu	32(%rcx,%r13), %xmm3
	movdqu	48(%rcx,%r13), %xmm4
	paddusb	%xmm0, %xmm2
	paddusb	%xmm0, %xmm1
	movdqu	%xmm1, (%rcx,%r13)
	movdqu	%xmm2, 16(%rcx,%r13)
	paddusb	%xmm0, %xmm4
	paddusb	%xmm0, %xmm3
	movdqu	%xmm3, 32(%rcx,%r13)
	movdqu	%xmm4, 48(%rcx,%r13)
.LBB_9ba498_151:
	movq	%r12, 32(%rsp)
	movq	96(%rsp), %rax
	cmpq	48(%rsp), %rax
	je	.LBB_9ba498_144
	addq	72(%rsp), %rcx
	testb	$8, 48(%rsp)
	jne	.LBB_9ba498_155
	testb	$4, 48(%rsp)
	jne	.LBB_9ba498_156
.LBB_9ba498_154:
	cmpl	%r14d, 64(%rsp)
	jae	.LBB_9ba498_144
	jmp	.LBB_9ba498_157
.LBB_9ba498_155:
	movdqu	(%rcx), %xmm1
	movdqu	16(%rcx), %xmm2
	paddusb	%xmm0, %xmm2
	paddusb	%xmm0, %xmm1
	movdqu	%xmm1, (%rcx)
	movdqu	%xmm2, 16(%rcx)
	testb	$4, 48(%rsp)
	je	.LBB_9ba498_154
.LBB_9ba498_156:
	movq	168(%rsp), %rax
	movdqu	(%rcx,%rax), %xmm1
	paddusb	%xmm0, %xmm1
	movdqu	%xmm1, (%rcx,%rax)
	cmpl	%r14d, 64(%rsp)
	jae	.LBB_9ba498_144
.LBB_9ba498_157:
	movq	%r15, %rcx
	movq	64(%rsp), %r13
	.p2align	4
.LBB_9ba498_158:
	movl	(%rcx), %ebx
	movl	%ebx, %r12d
	shrl	$8, %r12d
	movl	%ebx, %r10d
	shrl	$16, %r10d
	movl	%ebx, %r9d
	shrl	$24, %r9d
	addb	%sil, %bl
	movzbl	%bl, %ebx
	movl	$255, %eax
	cmovbl	%eax, %ebx
	addb	%dil, %r12b
	movzbl	%r12b, %r12d
	cmovbl	%eax, %r12d
	addb	%r8b, %r10b
	movzbl	%r10b, %r10d
	cmovbl	%eax, %r10d
	addb	%dl, %r9b
	movzbl	%r9b, %r9d
	cmovbl	%eax, %r9d
	shll	$24, %r9d
	movzbl	%r10b, %eax
	shll	$16, %eax
	orl	%r9d, %eax
	movzbl	%r12b, %r9d
	shll	$8, %r9d
	orl	%eax, %r9d
	movzbl	%bl, %eax
	orl	%r9d, %eax
	movl	%eax, (%rcx)
	incq	%r13
	addq	$4, %rcx
	cmpq	%r14, %r13
	jb	.LBB_9ba498_158
	jmp	.LBB_9ba498_144
.LBB_9ba498_159:
	testq	%r13, %r13
	je	.LBB_9ba498_452
	movq	%r8, %r11
	shrq	$32, %r11
	subq	%r14, %r10
	movq	%rbx, 80(%rsp)
	movabsq	$4294967296, %rbx
	leaq	(%r10,%rbx), %rdi
	leaq	(%rbx,%rbp), %rsi
	cmpq	%rdi, %rsi
	movl	%r15d, 96(%rsp)
	movq	%rdi, %r15
	cmovbq	%rsi, %r15
	xorl	%edi, %edi
	movq	%rbx, %r14
	subq	%r15, %r14
	cmovbq	%rdi, %r14
	orq	%rbx, %r13
	leaq	(%r10,%rbx), %r15
	subq	%r15, %r13
	cmovbq	%rdi, %r13
	movl	%r8d, %r8d
	orq	%rbx, %r8
	subq	%rsi, %r8
	cmovbq	%rdi, %r8
	cmpl	%ecx, %edx
	cmovbl	%edx, %ecx
	cmpq	%rcx, %r13
	cmovaeq	%rcx, %r13
	cmpq	%r13, %r8
	cmovbq	%r8, %r13
	leaq	(%r14,%r10), %rcx
	addq	%r13, %r10
	addq	%r14, %rbp
	cmpq	%r14, %r13
	cmovbeq	%rdi, %rcx
	cmovbeq	%rdi, %r10
	cmovbeq	%rdi, %rbp
	subq	32(%rsp), %rax
	leaq	(%rax,%rbx), %r8
	movq	24(%rsp), %rsi
	leaq	(%rsi,%rbx), %r14
	cmpq	%r8, %r14
	movq	%r8, %r15
	cmovbq	%r14, %r15
	movq	%rbx, %rdx
	subq	%r15, %rdx
	cmovbq	%rdi, %rdx
	movq	(%rsp), %r15
	orq	%rbx, %r15
	subq	%r8, %r15
	cmovbq	%rdi, %r15
	orq	%rbx, %r11
	subq	%r14, %r11
	cmovbq	%rdi, %r11
	movl	96(%rsp), %r8d
	cmpl	%r9d, %r8d
	cmovbl	%r8d, %r9d
	cmpq	%r9, %r15
	cmovaeq	%r9, %r15
	cmpq	%r15, %r11
	cmovbq	%r11, %r15
	leaq	(%rdx,%rax), %r8
	addq	%r15, %rax
	addq	%rdx, %rsi
	cmpq	%rdx, %r15
	cmovbeq	%rdi, %r8
	cmovbeq	%rdi, %rax
	cmovbeq	%rdi, %rsi
	movq	%rcx, 120(%rsp)
	movq	%r10, 128(%rsp)
	movq	%rbp, 136(%rsp)
	movq	%r8, 144(%rsp)
	movq	%rax, 152(%rsp)
	movq	%rsi, 160(%rsp)
	leaq	120(%rsp), %r8
	movq	%r12, %rdi
	movq	8(%rsp), %rsi
	movq	48(%rsp), %rdx
	movq	80(%rsp), %rcx
	callq	"pix_raster::view::blit_overlap::<#c5cfb15747d2bb36>"
	jmp	.LBB_9ba498_452
.LBB_9ba498_161:
	testq	%r13, %r13
	je	.LBB_9ba498_452
	subq	%rbp, %rcx
	movabsq	$4294967296, %r9
	addq	%r9, %rcx
	cmpq	%r9, %rcx
	movq	%r9, %rsi
	cmovaq	%rcx, %rsi
	movabsq	$-4294967296, %rdx
	addq	%rdi, %rcx
	orq	%r9, %r13
	cmpq	%rcx, %r13
	cmovaeq	%rcx, %r13
	leaq	(%rsi,%rdx), %r8
	xorl	%ecx, %ecx
	cmpq	%rsi, %r13
	cmovbeq	%rcx, %r8
	subq	(%rsp), %r10
	addq	%r9, %r10
	cmpq	%r9, %r10
	movq	%r9, %rdi
	cmovaq	%r10, %rdi
	addq	%rax, %r10
	movq	8(%rsp), %r11
	orq	%r9, %r11
	cmpq	%r10, %r11
	cmovaeq	%r10, %r11
	leaq	(%rdi,%rdx), %rax
	cmpq	%rdi, %r11
	cmovbeq	%rcx, %rax
	jbe	.LBB_9ba498_452
	movq	%r11, %r9
	addq	%rdx, %r9
	cmpq	%rax, %r9
	jbe	.LBB_9ba498_452
	addq	%r13, %rdx
	xorl	%ecx, %ecx
	cmpq	%rsi, %r13
	cmovaq	%rdx, %rcx
	subq	%r8, %rcx
	je	.LBB_9ba498_452
	movq	%r9, %r11
	movq	48(%rsp), %rdx
	movl	(%rdx), %edx
	movq	%rcx, %rsi
	andq	$-8, %rsi
	movd	%edx, %xmm0
	pshufd	$0, %xmm0, %xmm0
	movq	%rax, %r9
	movq	32(%rsp), %r10
	imulq	%r10, %r9
	leaq	(,%r8,4), %rdi
	leaq	(%rdi,%r9,4), %rdi
	addq	%r12, %rdi
	addq	$16, %rdi
	shlq	$2, %r10
	addq	%r8, %r9
	leaq	(%r12,%r9,4), %r8
	jmp	.LBB_9ba498_167
.LBB_9ba498_166:
	incq	%rax
	addq	%r10, %rdi
	addq	%r10, %r8
	cmpq	%r11, %rax
	je	.LBB_9ba498_452
.LBB_9ba498_167:
	xorl	%r9d, %r9d
	cmpq	$8, %rcx
	jb	.LBB_9ba498_170
	.p2align	4
.LBB_9ba498_168:
	movdqu	%xmm0, -16(%rdi,%r9,4)
	movdqu	%xmm0, (%rdi,%r9,4)
	addq	$8, %r9
	cmpq	%r9, %rsi
	jne	.LBB_9ba498_168
	movq	%rsi, %r9
	cmpq	%rsi, %rcx
	je	.LBB_9ba498_166
	.p2align	4
.LBB_9ba498_170:
	movl	%edx, (%r8,%r9,4)
	incq	%r9
	cmpq	%r9, %rcx
	jne	.LBB_9ba498_170
	jmp	.LBB_9ba498_166
.LBB_9ba498_171:
	testq	%r13, %r13
	je	.LBB_9ba498_452
	movq	%r15, %r14
	shrq	$32, %r14
	subq	%rbx, %rcx
	movabsq	$4294967296, %rbx
	leaq	(%rcx,%rbx), %r11
	leaq	(%rdx,%rbx), %rsi
	cmpq	%r11, %rsi
	movl	%r8d, 96(%rsp)
	movq	%r11, %r8
	cmovbq	%rsi, %r8
	xorl	%r11d, %r11d
	movq	%rbp, 80(%rsp)
	movq	%rbx, %rbp
	subq	%r8, %rbp
	cmovbq	%r11, %rbp
	orq	%rbx, %r13
	leaq	(%rcx,%rbx), %r8
	subq	%r8, %r13
	cmovbq	%r11, %r13
	movl	%r15d, %r8d
	orq	%rbx, %r8
	subq	%rsi, %r8
	cmovbq	%r11, %r8
	cmpl	%r9d, %r10d
	cmovbl	%r10d, %r9d
	cmpq	%r9, %r13
	cmovaeq	%r9, %r13
	cmpq	%r13, %r8
	cmovbq	%r8, %r13
	leaq	(%rcx,%rbp), %r9
	addq	%r13, %rcx
	addq	%rbp, %rdx
	cmpq	%rbp, %r13
	cmovbeq	%r11, %r9
	cmovbeq	%r11, %rcx
	cmovbeq	%r11, %rdx
	subq	32(%rsp), %rdi
	leaq	(%rdi,%rbx), %r8
	movq	24(%rsp), %rsi
	leaq	(%rsi,%rbx), %r15
	cmpq	%r8, %r15
	movq	%r8, %r13
	cmovbq	%r15, %r13
	movq	%rbx, %r10
	subq	%r13, %r10
	cmovbq	%r11, %r10
	movq	(%rsp), %r13
	orq	%rbx, %r13
	subq	%r8, %r13
	cmovbq	%r11, %r13
	orq	%rbx, %r14
	subq	%r15, %r14
	cmovbq	%r11, %r14
	movl	96(%rsp), %r8d
	cmpl	%eax, %r8d
	cmovbl	%r8d, %eax
	cmpq	%rax, %r13
	cmovaeq	%rax, %r13
	cmpq	%r13, %r14
	cmovbq	%r14, %r13
	leaq	(%r10,%rdi), %rax
	addq	%r13, %rdi
	addq	%r10, %rsi
	cmpq	%r10, %r13
	cmovbeq	%r11, %rax
	cmovbeq	%r11, %rdi
	cmovbeq	%r11, %rsi
	movq	%r9, 120(%rsp)
	movq	%rcx, 128(%rsp)
	movq	%rdx, 136(%rsp)
	movq	%rax, 144(%rsp)
	movq	%rdi, 152(%rsp)
	jmp	.LBB_9ba498_241
.LBB_9ba498_173:
	movq	%rsi, 64(%rsp)
	testq	%r13, %r13
	je	.LBB_9ba498_452
	movq	%r11, %r8
	shrq	$32, %r8
	subq	%rbx, %r15
	movabsq	$4294967296, %rbx
	leaq	(%r15,%rbx), %r12
	leaq	(%rbx,%rbp), %rsi
	cmpq	%r12, %rsi
	movl	%r10d, 96(%rsp)
	movq	%r12, %r10
	cmovbq	%rsi, %r10
	xorl	%ecx, %ecx
	movq	%r14, 80(%rsp)
	movq	%rbx, %r14
	subq	%r10, %r14
	cmovbq	%rcx, %r14
	orq	%rbx, %r13
	subq	%r12, %r13
	cmovbq	%rcx, %r13
	movl	%r11d, %r10d
	orq	%rbx, %r10
	subq	%rsi, %r10
	cmovbq	%rcx, %r10
	cmpl	%edx, %edi
	cmovbl	%edi, %edx
	cmpq	%rdx, %r13
	cmovaeq	%rdx, %r13
	cmpq	%r13, %r10
	cmovbq	%r10, %r13
	leaq	(%r14,%r15), %rdx
	addq	%r13, %r15
	addq	%r14, %rbp
	cmpq	%r14, %r13
	cmovbeq	%rcx, %rdx
	cmovbeq	%rcx, %r15
	cmovbeq	%rcx, %rbp
	subq	32(%rsp), %rax
	leaq	(%rax,%rbx), %r10
	movq	24(%rsp), %rsi
	leaq	(%rsi,%rbx), %r11
	cmpq	%r10, %r11
	movq	%r10, %r14
	cmovbq	%r11, %r14
	movq	%rbx, %rdi
	subq	%r14, %rdi
	cmovbq	%rcx, %rdi
	movq	(%rsp), %r14
	orq	%rbx, %r14
	subq	%r10, %r14
	cmovbq	%rcx, %r14
	orq	%rbx, %r8
	subq	%r11, %r8
	cmovbq	%rcx, %r8
	movl	96(%rsp), %r10d
	cmpl	%r9d, %r10d
	cmovbl	%r10d, %r9d
	cmpq	%r9, %r14
	cmovaeq	%r9, %r14
	cmpq	%r14, %r8
	cmovbq	%r8, %r14
	leaq	(%rdi,%rax), %r8
	addq	%r14, %rax
	addq	%rdi, %rsi
	cmpq	%rdi, %r14
	cmovbeq	%rcx, %r8
	cmovbeq	%rcx, %rax
	cmovbeq	%rcx, %rsi
	movq	64(%rsp), %rcx
	movzbl	(%rcx), %ecx
	movq	%rdx, 120(%rsp)
	movq	%r15, 128(%rsp)
	movq	%rbp, 136(%rsp)
	movq	%r8, 144(%rsp)
	movq	%rax, 152(%rsp)
	movq	%rsi, 160(%rsp)
	movzbl	%cl, %r9d
	leaq	120(%rsp), %r8
	movq	16(%rsp), %rdi
	movq	8(%rsp), %rsi
	movq	48(%rsp), %rdx
	movq	80(%rsp), %rcx
	callq	"pix_raster::view::blit_overlap::<#79e97ac7f662bd7a>"
	jmp	.LBB_9ba498_452
.LBB_9ba498_175:
	testq	%rbp, %rbp
	je	.LBB_9ba498_452
	subq	%rbx, %rcx
	movabsq	$4294967296, %rdx
	addq	%rdx, %rcx
	cmpq	%rdx, %rcx
	movq	%rdx, %r8
	cmovaq	%rcx, %r8
	movabsq	$-4294967296, %rdi
	addq	%r10, %rcx
	orq	%rdx, %rbp
	cmpq	%rcx, %rbp
	cmovaeq	%rcx, %rbp
	leaq	(%r8,%rdi), %r9
	xorl	%ecx, %ecx
	cmpq	%r8, %rbp
	cmovbeq	%rcx, %r9
	movq	%r9, 24(%rsp)
	subq	32(%rsp), %rax
	addq	%rdx, %rax
	cmpq	%rdx, %rax
	movq	%rdx, %r9
	cmovaq	%rax, %r9
	addq	%rsi, %rax
	movq	(%rsp), %rsi
	orq	%rdx, %rsi
	cmpq	%rax, %rsi
	cmovaeq	%rax, %rsi
	leaq	(%r9,%rdi), %r12
	cmpq	%r9, %rsi
	cmovbeq	%rcx, %r12
	jbe	.LBB_9ba498_452
	movq	%rsi, %rax
	addq	%rdi, %rax
	movq	%rax, (%rsp)
	cmpq	%r12, %rax
	jbe	.LBB_9ba498_452
	movq	48(%rsp), %rax
	movl	(%rax), %ebx
	movzbl	%bh, %edx
	movl	%ebx, %r10d
	shrl	$16, %r10d
	movl	%ebx, %r14d
	shrl	$24, %r14d
	addq	%rbp, %rdi
	xorl	%esi, %esi
	cmpq	%r8, %rbp
	cmovaq	%rdi, %rsi
	movq	24(%rsp), %rcx
	subq	%rcx, %rsi
	movl	%ebx, %eax
	shrl	$8, %eax
	movd	%ebx, %xmm0
	pinsrb	$1, %eax, %xmm0
	pinsrb	$2, %r10d, %xmm0
	pinsrb	$3, %r14d, %xmm0
	pinsrb	$4, %ebx, %xmm0
	pinsrb	$5, %eax, %xmm0
	pinsrb	$6, %r10d, %xmm0
	pinsrb	$7, %r14d, %xmm0
	pinsrb	$8, %ebx, %xmm0
	pinsrb	$9, %eax, %xmm0
	pinsrb	$10, %r10d, %xmm0
	pinsrb	$11, %r14d, %xmm0
	pinsrb	$12, %ebx, %xmm0
	pinsrb	$13, %eax, %xmm0
	pinsrb	$14, %r10d, %xmm0
	movq	%rsi, %r8
	movdqa	%xmm0, %xmm1
	pinsrb	$15, %r14d, %xmm1
	shrq	$4, %r8
	movdqa	%xmm1, %xmm2
	psrld	$24, %xmm2
	movdqa	%xmm2, %xmm3
	pshufb	.LCPI_9ba498_8(%rip), %xmm3
	movdqa	.LCPI_9ba498_0(%rip), %xmm4
	pand	%xmm4, %xmm0
	psrlw	$8, %xmm1
	movq	%rsi, %r11
	andq	$-16, %r11
	movl	%esi, %r9d
	andl	$15, %r9d
	leal	(,%rsi,4), %r15d
	movzbl	%r10b, %eax
	movd	%eax, %xmm12
	movl	%r15d, %eax
	pshufb	.LCPI_9ba498_9(%rip), %xmm2
	andl	$32, %eax
	movq	%rax, 96(%rsp)
	movdqa	%xmm2, %xmm5
	pand	%xmm4, %xmm5
	movdqa	%xmm5, 176(%rsp)
	psrlw	$8, %xmm2
	movdqa	%xmm2, 80(%rsp)
	pinsrw	$1, %r14d, %xmm12
	pinsrw	$2, %edx, %xmm12
	movl	%esi, %r10d
	movzbl	%bl, %eax
	pinsrw	$3, %eax, %xmm12
	andl	$12, %r10d
	movd	%r14d, %xmm2
	pshuflw	$0, %xmm2, %xmm13
	movq	%r12, %rax
	movq	8(%rsp), %rdi
	imulq	%rdi, %rax
	addq	%rcx, %rax
	movq	16(%rsp), %rdx
	leaq	(%rdx,%rax,4), %r14
	andl	$48, %r15d
	leaq	(%r15,%r11,4), %rcx
	leaq	(%rcx,%rax,4), %r15
	leaq	(,%rdi,4), %r13
	addq	%rdx, %r15
	movdqa	%xmm12, 48(%rsp)
	movdqa	%xmm13, 32(%rsp)
	jmp	.LBB_9ba498_180
.LBB_9ba498_179:
	incq	%r12
	addq	%r13, %r14
	addq	%r13, %r15
	cmpq	(%rsp), %r12
	je	.LBB_9ba498_452
.LBB_9ba498_180:
	testq	%r8, %r8
	je	.LBB_9ba498_183
	movq	%r14, %rbx
	movq	%r8, %rbp
	.p2align	4
.LBB_9ba498_182:
	pcmpeqd	%xmm8, %xmm8
	movdqu	(%rbx), %xmm6
	movdqu	16(%rbx), %xmm7
	movdqu	32(%rbx), %xmm9
	movdqu	48(%rbx), %xmm10
	movdqa	%xmm7, %xmm15
	pxor	%xmm8, %xmm15
	movdqa	%xmm6, %xmm14
	pxor	%xmm8, %xmm14
	movdqa	.LCPI_9ba498_5(%rip), %xmm13
	pshufb	%xmm13, %xmm14
	pshufb	%xmm13, %xmm15
	movdqa	%xmm0, %xmm2
	pmullw	%xmm15, %xmm2
	movdqa	%xmm0, %xmm5
	pmullw	%xmm14, %xmm5
	movdqa	.LCPI_9ba498_1(%rip), %xmm11
	paddw	%xmm11, %xmm5
	paddw	%xmm11, %xmm2
	movdqa	.LCPI_9ba498_2(%rip), %xmm12
	pmulhuw	%xmm12, %xmm2
	pmulhuw	%xmm12, %xmm5
	pmullw	%xmm1, %xmm14
	pmullw	%xmm1, %xmm15
	paddw	%xmm11, %xmm15
	paddw	%xmm11, %xmm14
	pmulhuw	%xmm12, %xmm14
	pmulhuw	%xmm12, %xmm15
	psllw	$8, %xmm15
	por	%xmm2, %xmm15
	psllw	$8, %xmm14
	por	%xmm5, %xmm14
	movdqa	%xmm6, %xmm5
	pand	%xmm4, %xmm5
	movdqa	%xmm7, %xmm2
	pand	%xmm4, %xmm2
	pmullw	%xmm3, %xmm2
	pmullw	%xmm3, %xmm5
	paddw	%xmm11, %xmm5
	paddw	%xmm11, %xmm2
	pmulhuw	%xmm12, %xmm2
	pmulhuw	%xmm12, %xmm5
	psrlw	$8, %xmm7
	psrlw	$8, %xmm6
	pmullw	%xmm3, %xmm6
	pmullw	%xmm3, %xmm7
	paddw	%xmm11, %xmm7
	paddw	%xmm11, %xmm6
	pmulhuw	%xmm12, %xmm6
	pmulhuw	%xmm12, %xmm7
	psllw	$8, %xmm7
	por	%xmm2, %xmm7
	paddusb	%xmm15, %xmm7
	psllw	$8, %xmm6
	por	%xmm5, %xmm6
	paddusb	%xmm14, %xmm6
	movdqu	%xmm6, (%rbx)
	movdqu	%xmm7, 16(%rbx)
	movdqa	%xmm10, %xmm2
	pxor	%xmm8, %xmm2
	pxor	%xmm9, %xmm8
	pshufb	%xmm13, %xmm8
	pshufb	%xmm13, %xmm2
	movdqa	%xmm0, %xmm5
	pmullw	%xmm2, %xmm5
	movdqa	%xmm0, %xmm6
	pmullw	%xmm8, %xmm6
	paddw	%xmm11, %xmm6
	paddw	%xmm11, %xmm5
	pmulhuw	%xmm12, %xmm5
	pmulhuw	%xmm12, %xmm6
	pmullw	%xmm1, %xmm8
	pmullw	%xmm1, %xmm2
	paddw	%xmm11, %xmm2
	paddw	%xmm11, %xmm8
	pmulhuw	%xmm12, %xmm8
	pmulhuw	%xmm12, %xmm2
	psllw	$8, %xmm2
	por	%xmm5, %xmm2
	psllw	$8, %xmm8
	por	%xmm6, %xmm8
	movdqa	%xmm9, %xmm5
	pand	%xmm4, %xmm5
	movdqa	%xmm10, %xmm6
	pand	%xmm4, %xmm6
	pmullw	%xmm3, %xmm6
	pmullw	%xmm3, %xmm5
	paddw	%xmm11, %xmm5
	paddw	%xmm11, %xmm6
	pmulhuw	%xmm12, %xmm6
	pmulhuw	%xmm12, %xmm5
	psrlw	$8, %xmm10
	psrlw	$8, %xmm9
	pmullw	%xmm3, %xmm9
	pmullw	%xmm3, %xmm10
	paddw	%xmm11, %xmm10
	paddw	%xmm11, %xmm9
	pmulhuw	%xmm12, %xmm9
	pmulhuw	%xmm12, %xmm10
	psllw	$8, %xmm10
	por	%xmm6, %xmm10
	paddusb	%xmm2, %xmm10
	psllw	$8, %xmm9
	por	%xmm5, %xmm9
	paddusb	%xmm8, %xmm9
	movdqu	%xmm9, 32(%rbx)
	movdqu	%xmm10, 48(%rbx)
	addq	$64, %rbx
	decq	%rbp
	jne	.LBB_9ba498_182
.LBB_9ba498_183:
	cmpq	%rsi, %r11
	movdqa	48(%rsp), %xmm12
	movdqa	32(%rsp), %xmm13
	je	.LBB_9ba498_179
	movq	%r12, %rax
	imulq	8(%rsp), %rax
	addq	24(%rsp), %rax
	movq	16(%rsp), %rcx
	leaq	(%rcx,%rax,4), %rbx
	leaq	(,%r11,4), %rax
	addq	%rax, %rbx
	testb	$8, %sil
	jne	.LBB_9ba498_187
	testb	$4, %sil
	jne	.LBB_9ba498_188
.LBB_9ba498_186:
	cmpl	%r9d, %r10d
	jae	.LBB_9ba498_179
	jmp	.LBB_9ba498_189
.LBB_9ba498_187:
	movdqu	(%rbx), %xmm8
	movdqu	16(%rbx), %xmm9
	pcmpeqd	%xmm10, %xmm10
	movdqa	%xmm9, %xmm2
	pxor	%xmm10, %xmm2
	pxor	%xmm8, %xmm10
	movdqa	.LCPI_9ba498_5(%rip), %xmm5
	pshufb	%xmm5, %xmm10
	pshufb	%xmm5, %xmm2
	movdqa	%xmm0, %xmm5
	pmullw	%xmm2, %xmm5
	movdqa	%xmm0, %xmm7
	pmullw	%xmm10, %xmm7
	movdqa	.LCPI_9ba498_1(%rip), %xmm6
	paddw	%xmm6, %xmm7
	paddw	%xmm6, %xmm5
	movdqa	.LCPI_9ba498_2(%rip), %xmm11
	pmulhuw	%xmm11, %xmm5
	pmulhuw	%xmm11, %xmm7
	pmullw	%xmm1, %xmm10
	pmullw	%xmm1, %xmm2
	paddw	%xmm6, %xmm2
	paddw	%xmm6, %xmm10
	pmulhuw	%xmm11, %xmm10
	pmulhuw	%xmm11, %xmm2
	psllw	$8, %xmm2
	por	%xmm5, %xmm2
	psllw	$8, %xmm10
	por	%xmm7, %xmm10
	movdqa	%xmm8, %xmm5
	pand	%xmm4, %xmm5
	movdqa	%xmm9, %xmm7
	pand	%xmm4, %xmm7
	pmullw	%xmm3, %xmm7
	pmullw	%xmm3, %xmm5
	paddw	%xmm6, %xmm5
	paddw	%xmm6, %xmm7
	pmulhuw	%xmm11, %xmm7
	pmulhuw	%xmm11, %xmm5
	psrlw	$8, %xmm9
	psrlw	$8, %xmm8
	pmullw	%xmm3, %xmm8
	pmullw	%xmm3, %xmm9
	paddw	%xmm6, %xmm9
	paddw	%xmm6, %xmm8
	pmulhuw	%xmm11, %xmm8
	pmulhuw	%xmm11, %xmm9
	psllw	$8, %xmm9
	por	%xmm7, %xmm9
	paddusb	%xmm2, %xmm9
	psllw	$8, %xmm8
	por	%xmm5, %xmm8
	paddusb	%xmm10, %xmm8
	movdqu	%xmm8, (%rbx)
	movdqu	%xmm9, 16(%rbx)
	testb	$4, %sil
	je	.LBB_9ba498_186
.LBB_9ba498_188:
	movq	96(%rsp), %rax
	movdqu	(%rbx,%rax), %xmm2
	pcmpeqd	%xmm6, %xmm6
	movdqa	%xmm2, %xmm5
	pshufb	.LCPI_9ba498_6(%rip), %xmm5
	pxor	%xmm5, %xmm6
	pandn	%xmm4, %xmm5
	pmullw	%xmm0, %xmm5
	movdqa	.LCPI_9ba498_1(%rip), %xmm7
	paddw	%xmm7, %xmm5
	movdqa	.LCPI_9ba498_2(%rip), %xmm8
	pmulhuw	%xmm8, %xmm5
	psrlw	$8, %xmm6
	pmullw	%xmm1, %xmm6
	paddw	%xmm7, %xmm6
	pmulhuw	%xmm8, %xmm6
	psllw	$8, %xmm6
	por	%xmm5, %xmm6
	movdqa	%xmm2, %xmm5
	pand	%xmm4, %xmm5
	pmullw	176(%rsp), %xmm5
	paddw	%xmm7, %xmm5
	pmulhuw	%xmm8, %xmm5
	psrlw	$8, %xmm2
	pmullw	80(%rsp), %xmm2
	paddw	%xmm7, %xmm2
	pmulhuw	%xmm8, %xmm2
	psllw	$8, %xmm2
	por	%xmm5, %xmm2
	paddusb	%xmm6, %xmm2
	movdqu	%xmm2, (%rbx,%rax)
	cmpl	%r9d, %r10d
	jae	.LBB_9ba498_179
.LBB_9ba498_189:
	movq	%r15, %rbx
	movq	%r10, %rbp
	.p2align	4
.LBB_9ba498_190:
	movl	(%rbx), %ecx
	movzbl	%ch, %edi
	movl	%ecx, %edx
	movl	%ecx, %eax
	shrl	$16, %eax
	shrl	$24, %edx
	movzbl	%al, %eax
	movd	%eax, %xmm2
	pinsrw	$1, %edx, %xmm2
	movzbl	%cl, %eax
	xorl	$255, %edx
	movd	%edx, %xmm5
	pshuflw	$0, %xmm5, %xmm5
	pmullw	%xmm12, %xmm5
	movdqa	.LCPI_9ba498_3(%rip), %xmm6
	paddw	%xmm6, %xmm5
	movdqa	%xmm5, %xmm7
	psrlw	$8, %xmm7
	paddw	%xmm5, %xmm7
	psrlw	$8, %xmm7
	pinsrw	$2, %edi, %xmm2
	pinsrw	$3, %eax, %xmm2
	packuswb	%xmm7, %xmm7
	pmullw	%xmm13, %xmm2
	paddw	%xmm6, %xmm2
	movdqa	%xmm2, %xmm5
	psrlw	$8, %xmm5
	paddw	%xmm2, %xmm5
	psrlw	$8, %xmm5
	packuswb	%xmm5, %xmm5
	paddusb	%xmm7, %xmm5
	pmovzxbd	%xmm5, %xmm2
	pmulld	.LCPI_9ba498_4(%rip), %xmm2
	pshufd	$238, %xmm2, %xmm5
	por	%xmm2, %xmm5
	pshufd	$85, %xmm5, %xmm2
	por	%xmm5, %xmm2
	movd	%xmm2, (%rbx)
	incq	%rbp
	addq	$4, %rbx
	cmpq	%r9, %rbp
	jb	.LBB_9ba498_190
	jmp	.LBB_9ba498_179
.LBB_9ba498_191:
	testq	%r13, %r13
	je	.LBB_9ba498_452
	subq	%rbx, %r15
	movabsq	$4294967296, %rcx
	addq	%rcx, %r15
	cmpq	%rcx, %r15
	movq	%rcx, %rdi
	cmovaq	%r15, %rdi
	movabsq	$-4294967296, %rsi
	addq	%rdx, %r15
	orq	%rcx, %r13
	cmpq	%r15, %r13
	cmovaeq	%r15, %r13
	leaq	(%rdi,%rsi), %r8
	xorl	%edx, %edx
	cmpq	%rdi, %r13
	cmovbeq	%rdx, %r8
	subq	32(%rsp), %rax
	addq	%rcx, %rax
	cmpq	%rcx, %rax
	movq	%rcx, %r10
	cmovaq	%rax, %r10
	addq	%r9, %rax
	movq	(%rsp), %r9
	orq	%rcx, %r9
	cmpq	%rax, %r9
	cmovaeq	%rax, %r9
	leaq	(%r10,%rsi), %rax
	cmpq	%r10, %r9
	cmovbeq	%rdx, %rax
	jbe	.LBB_9ba498_452
	movq	%r9, %rcx
	addq	%rsi, %rcx
	cmpq	%rax, %rcx
	jbe	.LBB_9ba498_452
	movq	%rcx, %rbx
	addq	%r13, %rsi
	xorl	%ecx, %ecx
	cmpq	%rdi, %r13
	cmovaq	%rsi, %rcx
	subq	%r8, %rcx
	je	.LBB_9ba498_452
	movq	48(%rsp), %rdx
	movl	(%rdx), %edx
	movq	%rcx, %rsi
	andq	$-8, %rsi
	movd	%edx, %xmm0
	pshufd	$0, %xmm0, %xmm0
	movq	%rax, %r9
	movq	8(%rsp), %r11
	imulq	%r11, %r9
	leaq	(,%r8,4), %rdi
	leaq	(%rdi,%r9,4), %rdi
	movq	16(%rsp), %r10
	addq	%r10, %rdi
	addq	$16, %rdi
	shlq	$2, %r11
	addq	%r8, %r9
	leaq	(%r10,%r9,4), %r8
	jmp	.LBB_9ba498_197
.LBB_9ba498_196:
	incq	%rax
	addq	%r11, %rdi
	addq	%r11, %r8
	cmpq	%rbx, %rax
	je	.LBB_9ba498_452
.LBB_9ba498_197:
	xorl	%r9d, %r9d
	cmpq	$8, %rcx
	jb	.LBB_9ba498_200
	.p2align	4
.LBB_9ba498_198:
	movdqu	%xmm0, -16(%rdi,%r9,4)
	movdqu	%xmm0, (%rdi,%r9,4)
	addq	$8, %r9
	cmpq	%r9, %rsi
	jne	.LBB_9ba498_198
	movq	%rsi, %r9
	cmpq	%rsi, %rcx
	je	.LBB_9ba498_196
	.p2align	4
.LBB_9ba498_200:
	movl	%edx, (%r8,%r9,4)
	incq	%r9
	cmpq	%r9, %rcx
	jne	.LBB_9ba498_200
	jmp	.LBB_9ba498_196
.LBB_9ba498_201:
	movq	%rdx, 72(%rsp)
	testq	%rbp, %rbp
	je	.LBB_9ba498_452
	movq	%r8, 80(%rsp)
	movl	%r13d, %edx
	movq	%r15, %r13
	shrq	$32, %r13
	subq	%rbx, %rcx
	movabsq	$4294967296, %rbx
	leaq	(%rcx,%rbx), %r12
	leaq	(%rdi,%rbx), %r9
	cmpq	%r12, %r9
	movq	%r12, %r8
	cmovbq	%r9, %r8
	xorl	%r9d, %r9d
	movq	%rbx, %r14
	subq	%r8, %r14
	cmovbq	%r9, %r14
	orq	%rbx, %rbp
	subq	%r12, %rbp
	cmovbq	%r9, %rbp
	movl	%r15d, %r8d
	orq	%rbx, %r8
	leaq	(%rdi,%rbx), %r15
	subq	%r15, %r8
	cmovbq	%r9, %r8
	cmpl	%r10d, %r11d
	cmovbl	%r11d, %r10d
	cmpq	%r10, %rbp
	cmovaeq	%r10, %rbp
	cmpq	%rbp, %r8
	cmovbq	%r8, %rbp
	leaq	(%r14,%rcx), %r10
	addq	%rbp, %rcx
	addq	%r14, %rdi
	cmpq	%r14, %rbp
	cmovbeq	%r9, %r10
	cmovbeq	%r9, %rcx
	cmovbeq	%r9, %rdi
	subq	32(%rsp), %rax
	leaq	(%rax,%rbx), %r8
	movq	24(%rsp), %r12
	leaq	(%r12,%rbx), %r14
	cmpq	%r8, %r14
	movq	%r8, %r15
	cmovbq	%r14, %r15
	movq	%rbx, %r11
	subq	%r15, %r11
	cmovbq	%r9, %r11
	movq	(%rsp), %r15
	orq	%rbx, %r15
	subq	%r8, %r15
	cmovbq	%r9, %r15
	orq	%rbx, %r13
	subq	%r14, %r13
	cmovbq	%r9, %r13
	cmpl	%esi, %edx
	cmovbl	%edx, %esi
	cmpq	%rsi, %r15
	cmovaeq	%rsi, %r15
	cmpq	%r15, %r13
	cmovbq	%r13, %r15
	leaq	(%r11,%rax), %rsi
	addq	%r15, %rax
	addq	%r11, %r12
	cmpq	%r11, %r15
	cmovbeq	%r9, %rsi
	cmovbeq	%r9, %rax
	cmovbeq	%r9, %r12
	movq	72(%rsp), %rdx
	movzbl	(%rdx), %r8d
	movq	%r10, 120(%rsp)
	movq	%rcx, 128(%rsp)
	movq	%rdi, 136(%rsp)
	movq	%rsi, 144(%rsp)
	movq	%rax, 152(%rsp)
	movq	%r12, 160(%rsp)
	movzbl	%r8b, %r9d
	leaq	120(%rsp), %r8
	movq	16(%rsp), %rdi
	movq	8(%rsp), %rsi
	movq	48(%rsp), %rdx
	movq	80(%rsp), %rcx
	callq	"pix_raster::view::blit_overlap::<#9d2a39c7bba67463>"
	jmp	.LBB_9ba498_452
.LBB_9ba498_203:
	testq	%rbp, %rbp
	je	.LBB_9ba498_452
	subq	%rbx, %rcx
	movabsq	$4294967296, %r9
	addq	%r9, %rcx
	cmpq	%r9, %rcx
	movq	%r9, %rdi
	cmovaq	%rcx, %rdi
	movabsq	$-4294967296, %rdx
	addq	%r10, %rcx
	orq	%r9, %rbp
	cmpq	%rcx, %rbp
	cmovaeq	%rcx, %rbp
	leaq	(%rdi,%rdx), %r8
	xorl	%ecx, %ecx
	cmpq	%rdi, %rbp
	cmovbeq	%rcx, %r8
	subq	32(%rsp), %rax
	addq	%r9, %rax
	cmpq	%r9, %rax
	movq	%r9, %r10
	cmovaq	%rax, %r10
	addq	%rsi, %rax
	movq	(%rsp), %r11
	orq	%r9, %r11
	cmpq	%rax, %r11
	cmovaeq	%rax, %r11
	leaq	(%r10,%rdx), %rax
	cmpq	%r10, %r11
	cmovbeq	%rcx, %rax
	jbe	.LBB_9ba498_452
	movq	%r11, %rsi
	addq	%rdx, %rsi
	cmpq	%rax, %rsi
	jbe	.LBB_9ba498_452
	addq	%rbp, %rdx
	xorl	%ecx, %ecx
	cmpq	%rdi, %rbp
	cmovaq	%rdx, %rcx
	subq	%r8, %rcx
	je	.LBB_9ba498_452
	movq	%rsi, %rbx
	movq	48(%rsp), %rdx
	movl	(%rdx), %edx
	movq	%rcx, %rsi
	andq	$-8, %rsi
	movd	%edx, %xmm0
	pshufd	$0, %xmm0, %xmm0
	movq	%rax, %r9
	movq	8(%rsp), %r11
	imulq	%r11, %r9
	leaq	(,%r8,4), %rdi
	leaq	(%rdi,%r9,4), %rdi
	movq	16(%rsp), %r10
	addq	%r10, %rdi
	addq	$16, %rdi
	shlq	$2, %r11
	addq	%r8, %r9
	leaq	(%r10,%r9,4), %r8
	jmp	.LBB_9ba498_209
.LBB_9ba498_208:
	incq	%rax
	addq	%r11, %rdi
	addq	%r11, %r8
	cmpq	%rbx, %rax
	je	.LBB_9ba498_452
.LBB_9ba498_209:
	xorl	%r9d, %r9d
	cmpq	$8, %rcx
	jb	.LBB_9ba498_212
	.p2align	4
.LBB_9ba498_210:
	movdqu	%xmm0, -16(%rdi,%r9,4)
	movdqu	%xmm0, (%rdi,%r9,4)
	addq	$8, %r9
	cmpq	%r9, %rsi
	jne	.LBB_9ba498_210
	movq	%rsi, %r9
	cmpq	%rsi, %rcx
	je	.LBB_9ba498_208
	.p2align	4
.LBB_9ba498_212:
	movl	%edx, (%r8,%r9,4)
	incq	%r9
	cmpq	%r9, %rcx
	jne	.LBB_9ba498_212
	jmp	.LBB_9ba498_208
.LBB_9ba498_213:
	testq	%r13, %r13
	je	.LBB_9ba498_452
	subq	%rbx, %rcx
	movabsq	$4294967296, %rsi
	addq	%rsi, %rcx
	cmpq	%rsi, %rcx
	movq	%rsi, %r8
	cmovaq	%rcx, %r8
	movabsq	$-4294967296, %rdx
	addq	%r9, %rcx
	orq	%rsi, %r13
	cmpq	%rcx, %r13
	cmovaeq	%rcx, %r13
	leaq	(%r8,%rdx), %r9
	xorl	%ecx, %ecx
	cmpq	%r8, %r13
	cmovbeq	%rcx, %r9
	movq	%r9, 24(%rsp)
	subq	32(%rsp), %rdi
	addq	%rsi, %rdi
	cmpq	%rsi, %rdi
	movq	%rsi, %r9
	cmovaq	%rdi, %r9
	addq	%rax, %rdi
	movq	(%rsp), %r11
	orq	%rsi, %r11
	cmpq	%rdi, %r11
	cmovaeq	%rdi, %r11
	leaq	(%r9,%rdx), %r10
	cmpq	%r9, %r11
	cmovbeq	%rcx, %r10
	jbe	.LBB_9ba498_452
	movq	%r11, %rax
	addq	%rdx, %rax
	movq	%rax, (%rsp)
	cmpq	%r10, %rax
	jbe	.LBB_9ba498_452
	movq	48(%rsp), %rax
	movl	(%rax), %eax
	movl	%eax, %ecx
	movl	%eax, %edi
	shrl	$8, %edi
	movl	%eax, %r9d
	shrl	$24, %r9d
	shrl	$16, %eax
	addq	%r13, %rdx
	xorl	%esi, %esi
	cmpq	%r8, %r13
	cmovaq	%rdx, %rsi
	movq	24(%rsp), %r15
	subq	%r15, %rsi
	movq	%rsi, %r8
	shrq	$4, %r8
	movzbl	%dil, %ebp
	movzbl	%cl, %ebx
	movd	%ebx, %xmm0
	pinsrb	$1, %ebp, %xmm0
	movzbl	%al, %eax
	pinsrb	$2, %eax, %xmm0
	movzbl	%r9b, %r11d
	pinsrb	$3, %r11d, %xmm0
	pinsrb	$4, %ebx, %xmm0
	pinsrb	$5, %ebp, %xmm0
	pinsrb	$6, %eax, %xmm0
	pinsrb	$7, %r11d, %xmm0
	pinsrb	$8, %ebx, %xmm0
	pinsrb	$9, %ebp, %xmm0
	pinsrb	$10, %eax, %xmm0
	pinsrb	$11, %r11d, %xmm0
	pinsrb	$12, %ebx, %xmm0
	pinsrb	$13, %ebp, %xmm0
	pinsrb	$14, %eax, %xmm0
	pinsrb	$15, %r11d, %xmm0
	pcmpeqd	%xmm1, %xmm1
	pxor	%xmm0, %xmm1
	psrld	$24, %xmm1
	movdqa	%xmm1, %xmm2
	pshufb	.LCPI_9ba498_8(%rip), %xmm2
	movq	%rsi, %rdi
	andq	$-16, %rdi
	movl	%esi, %r9d
	andl	$15, %r9d
	leal	(,%rsi,4), %r14d
	movd	%eax, %xmm3
	movl	%r14d, %eax
	andl	$32, %eax
	movq	%rax, 32(%rsp)
	pshufb	.LCPI_9ba498_9(%rip), %xmm1
	movdqa	.LCPI_9ba498_0(%rip), %xmm4
	pand	%xmm1, %xmm4
	psrlw	$8, %xmm1
	pinsrb	$1, %r11d, %xmm3
	movl	%r11d, %eax
	notb	%al
	movzbl	%al, %eax
	movd	%eax, %xmm5
	movl	%esi, %eax
	andl	$12, %eax
	movq	%rax, 48(%rsp)
	pinsrb	$2, %ebp, %xmm3
	pshuflw	$0, %xmm5, %xmm5
	pinsrb	$3, %ebx, %xmm3
	movq	%r10, %rax
	movq	8(%rsp), %rdx
	imulq	%rdx, %rax
	addq	%r15, %rax
	leaq	(%r12,%rax,4), %rbx
	andl	$48, %r14d
	leaq	(%r14,%rdi,4), %rcx
	leaq	(%rcx,%rax,4), %r15
	leaq	(,%rdx,4), %r13
	addq	%r12, %r15
	jmp	.LBB_9ba498_218
.LBB_9ba498_217:
	incq	%r10
	addq	%r13, %rbx
	addq	%r13, %r15
	cmpq	(%rsp), %r10
	je	.LBB_9ba498_452
.LBB_9ba498_218:
	testq	%r8, %r8
	je	.LBB_9ba498_221
	movq	%rbx, %r14
	movq	%r8, %rbp
	.p2align	4
.LBB_9ba498_220:
	movdqa	.LCPI_9ba498_0(%rip), %xmm8
	movdqu	(%r14), %xmm11
	movdqu	16(%r14), %xmm12
	movdqu	32(%r14), %xmm6
	movdqu	48(%r14), %xmm7
	movdqa	%xmm11, %xmm13
	pand	%xmm8, %xmm13
	movdqa	%xmm12, %xmm14
	pand	%xmm8, %xmm14
	pmullw	%xmm2, %xmm14
	pmullw	%xmm2, %xmm13
	movdqa	.LCPI_9ba498_1(%rip), %xmm9
	paddw	%xmm9, %xmm13
	paddw	%xmm9, %xmm14
	movdqa	.LCPI_9ba498_2(%rip), %xmm10
	pmulhuw	%xmm10, %xmm14
	pmulhuw	%xmm10, %xmm13
	psrlw	$8, %xmm12
	psrlw	$8, %xmm11
	pmullw	%xmm2, %xmm11
	pmullw	%xmm2, %xmm12
	paddw	%xmm9, %xmm12
	paddw	%xmm9, %xmm11
	pmulhuw	%xmm10, %xmm11
	pmulhuw	%xmm10, %xmm12
	psllw	$8, %xmm12
	por	%xmm14, %xmm12
	psllw	$8, %xmm11
	por	%xmm13, %xmm11
	paddusb	%xmm0, %xmm12
	paddusb	%xmm0, %xmm11
	movdqu	%xmm11, (%r14)
	movdqu	%xmm12, 16(%r14)
	movdqa	%xmm6, %xmm11
	pand	%xmm8, %xmm11
	pand	%xmm7, %xmm8
	pmullw	%xmm2, %xmm8
	pmullw	%xmm2, %xmm11
	paddw	%xmm9, %xmm11
	paddw	%xmm9, %xmm8
	pmulhuw	%xmm10, %xmm8
	pmulhuw	%xmm10, %xmm11
	psrlw	$8, %xmm7
	psrlw	$8, %xmm6
	pmullw	%xmm2, %xmm6
	pmullw	%xmm2, %xmm7
	paddw	%xmm9, %xmm7
	paddw	%xmm9, %xmm6
	pmulhuw	%xmm10, %xmm6
	pmulhuw	%xmm10, %xmm7
	psllw	$8, %xmm7
	por	%xmm8, %xmm7
	psllw	$8, %xmm6
	por	%xmm11, %xmm6
	paddusb	%xmm0, %xmm7
	paddusb	%xmm0, %xmm6
	movdqu	%xmm6, 32(%r14)
	movdqu	%xmm7, 48(%r14)
	addq	$64, %r14
	decq	%rbp
	jne	.LBB_9ba498_220
.LBB_9ba498_221:
	cmpq	%rsi, %rdi
	je	.LBB_9ba498_217
	movq	%r10, %rax
	imulq	8(%rsp), %rax
	addq	24(%rsp), %rax
	leaq	(%r12,%rax,4), %r14
	leaq	(,%rdi,4), %rax
	addq	%rax, %r14
	testb	$8, %sil
	jne	.LBB_9ba498_225
	testb	$4, %sil
	jne	.LBB_9ba498_226
.LBB_9ba498_224:
	cmpl	%r9d, 48(%rsp)
	jae	.LBB_9ba498_217
	jmp	.LBB_9ba498_227
.LBB_9ba498_225:
	movdqu	(%r14), %xmm6
	movdqu	16(%r14), %xmm7
	movdqa	.LCPI_9ba498_0(%rip), %xmm9
	movdqa	%xmm6, %xmm8
	pand	%xmm9, %xmm8
	pand	%xmm7, %xmm9
	pmullw	%xmm2, %xmm9
	pmullw	%xmm2, %xmm8
	movdqa	.LCPI_9ba498_1(%rip), %xmm10
	paddw	%xmm10, %xmm8
	paddw	%xmm10, %xmm9
	movdqa	.LCPI_9ba498_2(%rip), %xmm11
	pmulhuw	%xmm11, %xmm9
	pmulhuw	%xmm11, %xmm8
	psrlw	$8, %xmm7
	psrlw	$8, %xmm6
	pmullw	%xmm2, %xmm6
	pmullw	%xmm2, %xmm7
	paddw	%xmm10, %xmm7
	paddw	%xmm10, %xmm6
	pmulhuw	%xmm11, %xmm6
	pmulhuw	%xmm11, %xmm7
	psllw	$8, %xmm7
	por	%xmm9, %xmm7
	psllw	$8, %xmm6
	por	%xmm8, %xmm6
	paddusb	%xmm0, %xmm7
	paddusb	%xmm0, %xmm6
	movdqu	%xmm6, (%r14)
	movdqu	%xmm7, 16(%r14)
	testb	$4, %sil
	je	.LBB_9ba498_224
.LBB_9ba498_226:
	movq	32(%rsp), %rax
	movdqu	(%r14,%rax), %xmm6
	movdqa	.LCPI_9ba498_0(%rip), %xmm7
	pand	%xmm6, %xmm7
	pmullw	%xmm4, %xmm7
	movdqa	.LCPI_9ba498_1(%rip), %xmm8
	paddw	%xmm8, %xmm7
	movdqa	.LCPI_9ba498_2(%rip), %xmm9
	pmulhuw	%xmm9, %xmm7
	psrlw	$8, %xmm6
	pmullw	%xmm1, %xmm6
	paddw	%xmm8, %xmm6
	pmulhuw	%xmm9, %xmm6
	psllw	$8, %xmm6
	por	%xmm7, %xmm6
	paddusb	%xmm0, %xmm6
	movdqu	%xmm6, (%r14,%rax)
	cmpl	%r9d, 48(%rsp)
	jae	.LBB_9ba498_217
.LBB_9ba498_227:
	movq	%r15, %r14
	movq	48(%rsp), %rbp
	.p2align	4
.LBB_9ba498_228:
	movl	(%r14), %edx
	movzbl	%dh, %ecx
	movl	%edx, %eax
	movzbl	%dl, %r11d
	shrl	$16, %edx
	shrl	$24, %eax
	movzbl	%dl, %edx
	movd	%edx, %xmm6
	pinsrw	$1, %eax, %xmm6
	pinsrw	$2, %ecx, %xmm6
	pinsrw	$3, %r11d, %xmm6
	pmullw	%xmm5, %xmm6
	paddw	.LCPI_9ba498_3(%rip), %xmm6
	movdqa	%xmm6, %xmm7
	psrlw	$8, %xmm7
	paddw	%xmm6, %xmm7
	psrlw	$8, %xmm7
	packuswb	%xmm7, %xmm7
	paddusb	%xmm3, %xmm7
	pmovzxbd	%xmm7, %xmm6
	pmulld	.LCPI_9ba498_4(%rip), %xmm6
	pshufd	$238, %xmm6, %xmm7
	por	%xmm6, %xmm7
	pshufd	$85, %xmm7, %xmm6
	por	%xmm7, %xmm6
	movd	%xmm6, (%r14)
	incq	%rbp
	addq	$4, %r14
	cmpq	%r9, %rbp
	jb	.LBB_9ba498_228
	jmp	.LBB_9ba498_217
.LBB_9ba498_229:
	testq	%r13, %r13
	je	.LBB_9ba498_452
	movq	%r15, %r14
	shrq	$32, %r14
	subq	%rbx, %rcx
	movabsq	$4294967296, %rbx
	leaq	(%rcx,%rbx), %r11
	leaq	(%rdx,%rbx), %rsi
	cmpq	%r11, %rsi
	movq	%rdi, 24(%rsp)
	movq	%r11, %rdi
	cmovbq	%rsi, %rdi
	xorl	%r11d, %r11d
	movl	%ebp, 80(%rsp)
	movq	%rbx, %rbp
	subq	%rdi, %rbp
	cmovbq	%r11, %rbp
	orq	%rbx, %r13
	leaq	(%rcx,%rbx), %rdi
	subq	%rdi, %r13
	cmovbq	%r11, %r13
	movl	%r15d, %edi
	orq	%rbx, %rdi
	subq	%rsi, %rdi
	cmovbq	%r11, %rdi
	cmpl	%r8d, %r9d
	cmovbl	%r9d, %r8d
	cmpq	%r8, %r13
	cmovaeq	%r8, %r13
	cmpq	%r13, %rdi
	cmovbq	%rdi, %r13
	leaq	(%rcx,%rbp), %r8
	addq	%r13, %rcx
	addq	%rbp, %rdx
	cmpq	%rbp, %r13
	cmovbeq	%r11, %r8
	cmovbeq	%r11, %rcx
	cmovbeq	%r11, %rdx
	subq	48(%rsp), %r10
	leaq	(%r10,%rbx), %rdi
	movq	32(%rsp), %rsi
	leaq	(%rsi,%rbx), %r15
	cmpq	%rdi, %r15
	movq	%rdi, %r13
	cmovbq	%r15, %r13
	movq	%rbx, %r9
	subq	%r13, %r9
	cmovbq	%r11, %r9
	orq	%rbx, %r12
	subq	%rdi, %r12
	cmovbq	%r11, %r12
	orq	%rbx, %r14
	subq	%r15, %r14
	cmovbq	%r11, %r14
	movl	80(%rsp), %edi
	cmpl	%eax, %edi
	cmovbl	%edi, %eax
	cmpq	%rax, %r12
	cmovaeq	%rax, %r12
	cmpq	%r12, %r14
	cmovbq	%r14, %r12
	leaq	(%r9,%r10), %rax
	addq	%r12, %r10
	addq	%r9, %rsi
	cmpq	%r9, %r12
	cmovbeq	%r11, %rax
	cmovbeq	%r11, %r10
	cmovbeq	%r11, %rsi
	movq	%r8, 120(%rsp)
	movq	%rcx, 128(%rsp)
	movq	%rdx, 136(%rsp)
	movq	%rax, 144(%rsp)
	movq	%r10, 152(%rsp)
	movq	%rsi, 160(%rsp)
	leaq	120(%rsp), %r8
	movq	16(%rsp), %rdi
	movq	(%rsp), %rsi
	movq	8(%rsp), %rdx
	movq	24(%rsp), %rcx
	callq	"pix_raster::view::blit_overlap::<#93a319759576dea8>"
	jmp	.LBB_9ba498_452
.LBB_9ba498_231:
	movq	%rsi, 72(%rsp)
	testq	%r13, %r13
	je	.LBB_9ba498_452
	movq	%r15, %r14
	shrq	$32, %r14
	subq	%rbx, %rcx
	movabsq	$4294967296, %rbx
	leaq	(%rcx,%rbx), %r12
	leaq	(%rdx,%rbx), %r11
	cmpq	%r12, %r11
	movl	%r8d, %esi
	movq	%r12, %r8
	cmovbq	%r11, %r8
	xorl	%r11d, %r11d
	movq	%rbp, 80(%rsp)
	movq	%rbx, %rbp
	subq	%r8, %rbp
	cmovbq	%r11, %rbp
	orq	%rbx, %r13
	subq	%r12, %r13
	cmovbq	%r11, %r13
	movl	%r15d, %r8d
	orq	%rbx, %r8
	leaq	(%rdx,%rbx), %r15
	subq	%r15, %r8
	cmovbq	%r11, %r8
	cmpl	%r9d, %r10d
	cmovbl	%r10d, %r9d
	cmpq	%r9, %r13
	cmovaeq	%r9, %r13
	cmpq	%r13, %r8
	cmovbq	%r8, %r13
	leaq	(%rcx,%rbp), %r9
	addq	%r13, %rcx
	addq	%rbp, %rdx
	cmpq	%rbp, %r13
	cmovbeq	%r11, %r9
	cmovbeq	%r11, %rcx
	cmovbeq	%r11, %rdx
	subq	32(%rsp), %rdi
	leaq	(%rdi,%rbx), %r8
	movq	24(%rsp), %r13
	leaq	(%rbx,%r13), %r15
	cmpq	%r8, %r15
	movq	%r8, %r12
	cmovbq	%r15, %r12
	movq	%rbx, %r10
	subq	%r12, %r10
	cmovbq	%r11, %r10
	movq	(%rsp), %r12
	orq	%rbx, %r12
	subq	%r8, %r12
	cmovbq	%r11, %r12
	orq	%rbx, %r14
	subq	%r15, %r14
	cmovbq	%r11, %r14
	cmpl	%eax, %esi
	cmovbl	%esi, %eax
	cmpq	%rax, %r12
	cmovaeq	%rax, %r12
	cmpq	%r12, %r14
	cmovbq	%r14, %r12
	leaq	(%r10,%rdi), %rax
	addq	%r12, %rdi
	addq	%r10, %r13
	cmpq	%r10, %r12
	cmovbeq	%r11, %rax
	cmovbeq	%r11, %rdi
	cmovbeq	%r11, %r13
	movq	72(%rsp), %rsi
	movzbl	(%rsi), %r8d
	movq	%r9, 120(%rsp)
	movq	%rcx, 128(%rsp)
	movq	%rdx, 136(%rsp)
	movq	%rax, 144(%rsp)
	movq	%rdi, 152(%rsp)
	movq	%r13, 160(%rsp)
	movzbl	%r8b, %r9d
	leaq	120(%rsp), %r8
	movq	16(%rsp), %rdi
	movq	8(%rsp), %rsi
	movq	48(%rsp), %rdx
	movq	80(%rsp), %rcx
	callq	"pix_raster::view::blit_overlap::<#ae9f661a91a09783>"
	jmp	.LBB_9ba498_452
.LBB_9ba498_233:
	testq	%r13, %r13
	je	.LBB_9ba498_452
	movq	%r15, %r14
	shrq	$32, %r14
	subq	%rbx, %rcx
	movabsq	$4294967296, %rbx
	leaq	(%rcx,%rbx), %r8
	leaq	(%rdx,%rbx), %r11
	cmpq	%r8, %r11
	movl	%esi, 96(%rsp)
	movq	%r8, %rsi
	cmovbq	%r11, %rsi
	xorl	%r8d, %r8d
	movq	%rbp, 80(%rsp)
	movq	%rbx, %rbp
	subq	%rsi, %rbp
	cmovbq	%r8, %rbp
	orq	%rbx, %r13
	leaq	(%rcx,%rbx), %rsi
	subq	%rsi, %r13
	cmovbq	%r8, %r13
	movl	%r15d, %esi
	orq	%rbx, %rsi
	subq	%r11, %rsi
	cmovbq	%r8, %rsi
	cmpl	%edi, %r9d
	cmovbl	%r9d, %edi
	cmpq	%rdi, %r13
	cmovaeq	%rdi, %r13
	cmpq	%r13, %rsi
	cmovbq	%rsi, %r13
	leaq	(%rcx,%rbp), %rdi
	addq	%r13, %rcx
	addq	%rbp, %rdx
	cmpq	%rbp, %r13
	cmovbeq	%r8, %rdi
	cmovbeq	%r8, %rcx
	cmovbeq	%r8, %rdx
	subq	32(%rsp), %r10
	leaq	(%r10,%rbx), %rsi
	movq	24(%rsp), %r11
	leaq	(%r11,%rbx), %r15
	cmpq	%rsi, %r15
	movq	%rsi, %r13
	cmovbq	%r15, %r13
	movq	%rbx, %r9
	subq	%r13, %r9
	cmovbq	%r8, %r9
	movq	(%rsp), %r13
	orq	%rbx, %r13
	subq	%rsi, %r13
	cmovbq	%r8, %r13
	orq	%rbx, %r14
	subq	%r15, %r14
	cmovbq	%r8, %r14
	movl	96(%rsp), %esi
	cmpl	%eax, %esi
	cmovbl	%esi, %eax
	cmpq	%rax, %r13
	cmovaeq	%rax, %r13
	cmpq	%r13, %r14
	cmovbq	%r14, %r13
	leaq	(%r9,%r10), %rax
	addq	%r13, %r10
	addq	%r9, %r11
	cmpq	%r9, %r13
	cmovbeq	%r8, %rax
	cmovbeq	%r8, %r10
	cmovbeq	%r8, %r11
	movq	%rdi, 120(%rsp)
	movq	%rcx, 128(%rsp)
	movq	%rdx, 136(%rsp)
	movq	%rax, 144(%rsp)
	movq	%r10, 152(%rsp)
	movq	%r11, 160(%rsp)
	leaq	120(%rsp), %r8
	movq	%r12, %rdi
	jmp	.LBB_9ba498_451
.LBB_9ba498_235:
	movq	%r15, 96(%rsp)
	testq	%r13, %r13
	je	.LBB_9ba498_452
	movq	%rbx, %r11
	shrq	$32, %r11
	subq	%rbp, %rcx
	movq	%rsi, 176(%rsp)
	movl	%r14d, 80(%rsp)
	movabsq	$4294967296, %r14
	leaq	(%rcx,%r14), %rbp
	leaq	(%rdx,%r14), %r15
	cmpq	%rbp, %r15
	movq	%rbp, %rsi
	cmovbq	%r15, %rsi
	xorl	%r8d, %r8d
	movq	%r14, %r12
	subq	%rsi, %r12
	cmovbq	%r8, %r12
	orq	%r14, %r13
	subq	%rbp, %r13
	cmovbq	%r8, %r13
	movl	%ebx, %esi
	orq	%r14, %rsi
	subq	%r15, %rsi
	cmovbq	%r8, %rsi
	cmpl	%edi, %r9d
	cmovbl	%r9d, %edi
	cmpq	%rdi, %r13
	cmovaeq	%rdi, %r13
	cmpq	%r13, %rsi
	cmovbq	%rsi, %r13
	leaq	(%r12,%rcx), %rdi
	addq	%r13, %rcx
	addq	%r12, %rdx
	cmpq	%r12, %r13
	cmovbeq	%r8, %rdi
	cmovbeq	%r8, %rcx
	cmovbeq	%r8, %rdx
	subq	(%rsp), %r10
	leaq	(%r10,%r14), %rsi
	movq	24(%rsp), %r15
	leaq	(%r15,%r14), %rbx
	cmpq	%rsi, %rbx
	movq	%rsi, %r12
	cmovbq	%rbx, %r12
	movq	%r14, %r9
	subq	%r12, %r9
	cmovbq	%r8, %r9
	movq	8(%rsp), %r12
	orq	%r14, %r12
	subq	%rsi, %r12
	cmovbq	%r8, %r12
	orq	%r14, %r11
	subq	%rbx, %r11
	cmovbq	%r8, %r11
	movl	80(%rsp), %esi
	cmpl	%eax, %esi
	cmovbl	%esi, %eax
	cmpq	%rax, %r12
	cmovaeq	%rax, %r12
	cmpq	%r12, %r11
	cmovbq	%r11, %r12
	leaq	(%r9,%r10), %rax
	addq	%r12, %r10
	addq	%r9, %r15
	cmpq	%r9, %r12
	cmovbeq	%r8, %rax
	cmovbeq	%r8, %r10
	cmovbeq	%r8, %r15
	movq	96(%rsp), %rsi
	movl	(%rsi), %r9d
	movq	%rdi, 120(%rsp)
	movq	%rcx, 128(%rsp)
	movq	%rdx, 136(%rsp)
	movq	%rax, 144(%rsp)
	movq	%r10, 152(%rsp)
	movq	%r15, 160(%rsp)
	leaq	120(%rsp), %r8
	movq	16(%rsp), %rdi
	movq	32(%rsp), %rsi
	movq	48(%rsp), %rdx
	movq	176(%rsp), %rcx
	callq	"pix_raster::view::blit_overlap::<#2e778847ba9e3685>"
	jmp	.LBB_9ba498_452
.LBB_9ba498_237:
	testq	%r13, %r13
	je	.LBB_9ba498_452
	movq	%r15, %r14
	shrq	$32, %r14
	subq	%rbx, %rcx
	movabsq	$4294967296, %rbx
	leaq	(%rcx,%rbx), %r12
	leaq	(%rdx,%rbx), %r8
	cmpq	%r12, %r8
	movl	%esi, 96(%rsp)
	movq	%r12, %rsi
	cmovbq	%r8, %rsi
	xorl	%r11d, %r11d
	movq	%rbp, 80(%rsp)
	movq	%rbx, %rbp
	subq	%rsi, %rbp
	cmovbq	%r11, %rbp
	orq	%rbx, %r13
	subq	%r12, %r13
	cmovbq	%r11, %r13
	movl	%r15d, %esi
	orq	%rbx, %rsi
	subq	%r8, %rsi
	cmovbq	%r11, %rsi
	cmpl	%edi, %r9d
	cmovbl	%r9d, %edi
	cmpq	%rdi, %r13
	cmovaeq	%rdi, %r13
	cmpq	%r13, %rsi
	cmovbq	%rsi, %r13
	leaq	(%rcx,%rbp), %rdi
	addq	%r13, %rcx
	addq	%rbp, %rdx
	cmpq	%rbp, %r13
	cmovbeq	%r11, %rdi
	cmovbeq	%r11, %rcx
	cmovbeq	%r11, %rdx
	subq	32(%rsp), %r10
	leaq	(%r10,%rbx), %rsi
	movq	24(%rsp), %r8
	leaq	(%r8,%rbx), %r15
	cmpq	%rsi, %r15
	movq	%rsi, %r12
	cmovbq	%r15, %r12
	movq	%rbx, %r9
	subq	%r12, %r9
	cmovbq	%r11, %r9
	movq	(%rsp), %r12
	orq	%rbx, %r12
	subq	%rsi, %r12
	cmovbq	%r11, %r12
	orq	%rbx, %r14
	subq	%r15, %r14
	cmovbq	%r11, %r14
	movl	96(%rsp), %esi
	cmpl	%eax, %esi
	cmovbl	%esi, %eax
	cmpq	%rax, %r12
	cmovaeq	%rax, %r12
	cmpq	%r12, %r14
	cmovbq	%r14, %r12
	leaq	(%r9,%r10), %rax
	addq	%r12, %r10
	addq	%r9, %r8
	cmpq	%r9, %r12
	cmovbeq	%r11, %rax
	cmovbeq	%r11, %r10
	cmovbeq	%r11, %r8
	movq	%rdi, 120(%rsp)
	movq	%rcx, 128(%rsp)
	movq	%rdx, 136(%rsp)
	movq	%rax, 144(%rsp)
	movq	%r10, 152(%rsp)
	movq	%r8, 160(%rsp)
	leaq	120(%rsp), %r8
	movq	16(%rsp), %rdi
	movq	8(%rsp), %rsi
	movq	48(%rsp), %rdx
	movq	80(%rsp), %rcx
	callq	"pix_raster::view::blit_overlap::<#6e2ae1f4eafa75b3>"
	jmp	.LBB_9ba498_452
.LBB_9ba498_239:
	testq	%r13, %r13
	je	.LBB_9ba498_452
	movq	%r8, %r11
	shrq	$32, %r11
	subq	%r14, %r10
	movq	%rbx, 80(%rsp)
	movabsq	$4294967296, %rbx
	leaq	(%r10,%rbx), %rdi
	leaq	(%rbx,%rbp), %rsi
	cmpq	%rdi, %rsi
	movl	%r15d, 96(%rsp)
	movq	%rdi, %r15
	cmovbq	%rsi, %r15
	xorl	%edi, %edi
	movq	%rbx, %r14
	subq	%r15, %r14
	cmovbq	%rdi, %r14
	orq	%rbx, %r13
	leaq	(%r10,%rbx), %r15
	subq	%r15, %r13
	cmovbq	%rdi, %r13
	movl	%r8d, %r8d
	orq	%rbx, %r8
	subq	%rsi, %r8
	cmovbq	%rdi, %r8
	cmpl	%ecx, %edx
	cmovbl	%edx, %ecx
	cmpq	%rcx, %r13
	cmovaeq	%rcx, %r13
	cmpq	%r13, %r8
	cmovbq	%r8, %r13
	leaq	(%r14,%r10), %rcx
	addq	%r13, %r10
	addq	%r14, %rbp
	cmpq	%r14, %r13
	cmovbeq	%rdi, %rcx
	cmovbeq	%rdi, %r10
	cmovbeq	%rdi, %rbp
	subq	32(%rsp), %rax
	leaq	(%rax,%rbx), %r8
	movq	24(%rsp), %rsi
	leaq	(%rsi,%rbx), %r14
	cmpq	%r8, %r14
	movq	%r8, %r15
	cmovbq	%r14, %r15
	movq	%rbx, %rdx
	subq	%r15, %rdx
	cmovbq	%rdi, %rdx
	movq	(%rsp), %r15
	orq	%rbx, %r15
	subq	%r8, %r15
	cmovbq	%rdi, %r15
	orq	%rbx, %r11
	subq	%r14, %r11
	cmovbq	%rdi, %r11
	movl	96(%rsp), %r8d
	cmpl	%r9d, %r8d
	cmovbl	%r8d, %r9d
	cmpq	%r9, %r15
	cmovaeq	%r9, %r15
	cmpq	%r15, %r11
	cmovbq	%r11, %r15
	leaq	(%rdx,%rax), %r8
	addq	%r15, %rax
	addq	%rdx, %rsi
	cmpq	%rdx, %r15
	cmovbeq	%rdi, %r8
	cmovbeq	%rdi, %rax
	cmovbeq	%rdi, %rsi
	movq	%rcx, 120(%rsp)
	movq	%r10, 128(%rsp)
	movq	%rbp, 136(%rsp)
	movq	%r8, 144(%rsp)
	movq	%rax, 152(%rsp)
.LBB_9ba498_241:
	movq	%rsi, 160(%rsp)
	leaq	120(%rsp), %r8
	movq	%r12, %rdi
	jmp	.LBB_9ba498_451
.LBB_9ba498_242:
	testq	%r13, %r13
	je	.LBB_9ba498_452
	subq	%rbx, %rcx
	movabsq	$4294967296, %r10
	addq	%r10, %rcx
	cmpq	%r10, %rcx
	movq	%r10, %rsi
	cmovaq	%rcx, %rsi
	movabsq	$-4294967296, %rdx
	addq	%r9, %rcx
	orq	%r10, %r13
	cmpq	%rcx, %r13
	cmovaeq	%rcx, %r13
	leaq	(%rsi,%rdx), %r8
	xorl	%ecx, %ecx
	cmpq	%rsi, %r13
	cmovbeq	%rcx, %r8
	subq	32(%rsp), %rdi
	addq	%r10, %rdi
	cmpq	%r10, %rdi
	movq	%r10, %r9
	cmovaq	%rdi, %r9
	addq	%rax, %rdi
	movq	(%rsp), %r11
	orq	%r10, %r11
	cmpq	%rdi, %r11
	cmovaeq	%rdi, %r11
	leaq	(%r9,%rdx), %rax
	cmpq	%r9, %r11
	cmovbeq	%rcx, %rax
	jbe	.LBB_9ba498_452
	movq	%r11, %rdi
	addq	%rdx, %rdi
	cmpq	%rax, %rdi
	jbe	.LBB_9ba498_452
	addq	%r13, %rdx
	xorl	%ecx, %ecx
	cmpq	%rsi, %r13
	cmovaq	%rdx, %rcx
	subq	%r8, %rcx
	je	.LBB_9ba498_452
	movq	%rdi, %r11
	movq	48(%rsp), %rdx
	movl	(%rdx), %edx
	movq	%rcx, %rsi
	andq	$-8, %rsi
	movd	%edx, %xmm0
	pshufd	$0, %xmm0, %xmm0
	movq	%rax, %r9
	movq	8(%rsp), %r10
	imulq	%r10, %r9
	leaq	(,%r8,4), %rdi
	leaq	(%rdi,%r9,4), %rdi
	addq	%r12, %rdi
	addq	$16, %rdi
	shlq	$2, %r10
	addq	%r8, %r9
	leaq	(%r12,%r9,4), %r8
	jmp	.LBB_9ba498_248
.LBB_9ba498_247:
	incq	%rax
	addq	%r10, %rdi
	addq	%r10, %r8
	cmpq	%r11, %rax
	je	.LBB_9ba498_452
.LBB_9ba498_248:
	xorl	%r9d, %r9d
	cmpq	$8, %rcx
	jb	.LBB_9ba498_251
	.p2align	4
.LBB_9ba498_249:
	movdqu	%xmm0, -16(%rdi,%r9,4)
	movdqu	%xmm0, (%rdi,%r9,4)
	addq	$8, %r9
	cmpq	%r9, %rsi
	jne	.LBB_9ba498_249
	movq	%rsi, %r9
	cmpq	%rsi, %rcx
	je	.LBB_9ba498_247
	.p2align	4
.LBB_9ba498_251:
	movl	%edx, (%r8,%r9,4)
	incq	%r9
	cmpq	%r9, %rcx
	jne	.LBB_9ba498_251
	jmp	.LBB_9ba498_247
.LBB_9ba498_252:
	movq	%r15, 96(%rsp)
	movq	%rsi, 176(%rsp)
	testq	%r13, %r13
	je	.LBB_9ba498_452
	movl	%r14d, 80(%rsp)
	movq	344(%rsp), %r14
	movq	%r14, 64(%rsp)
	movslq	360(%rsp), %r12
	movabsq	$4294967296, %r15
	movq	%rbx, %r8
	shrq	$32, %r8
	shrq	$32, %r14
	subq	%rbp, %rcx
	leaq	(%rcx,%r15), %r11
	leaq	(%rdx,%r15), %rbp
	cmpq	%r11, %rbp
	movq	%r11, %rsi
	cmovbq	%rbp, %rsi
	movq	%r12, 168(%rsp)
	addq	%r15, %r12
	movq	%r12, 72(%rsp)
	cmpq	%rsi, %r12
	cmovbq	%r12, %rsi
	xorl	%r12d, %r12d
	movq	%r15, %rbp
	subq	%rsi, %rbp
	cmovbq	%r12, %rbp
	orq	%r15, %r13
	subq	%r11, %r13
	cmovbq	%r12, %r13
	movl	%ebx, %ebx
	orq	%r15, %rbx
	leaq	(%rdx,%r15), %rsi
	subq	%rsi, %rbx
	movl	64(%rsp), %esi
	cmovbq	%r12, %rbx
	orq	%r15, %rsi
	subq	72(%rsp), %rsi
	movl	$0, %r11d
	movq	%r11, 224(%rsp)
	cmovbq	%r12, %rsi
	cmpl	%edi, %r9d
	cmovbl	%r9d, %edi
	movl	368(%rsp), %r9d
	cmpl	%edi, %r9d
	cmovbl	%r9d, %edi
	cmpq	%rdi, %r13
	cmovaeq	%rdi, %r13
	movslq	364(%rsp), %rdi
	movq	%rdi, 200(%rsp)
	cmpq	%r13, %rbx
	cmovbq	%rbx, %r13
	movl	372(%rsp), %edi
	cmpq	%r13, %rsi
	cmovbq	%rsi, %r13
	movl	$0, %r12d
	movl	$0, %esi
	movq	%rsi, 248(%rsp)
	movl	$0, %r9d
	cmpq	%rbp, %r13
	jbe	.LBB_9ba498_255
	leaq	(%rcx,%rbp), %rsi
	movq	%rsi, 224(%rsp)
	addq	%rcx, %r13
	addq	%rbp, %rdx
	movq	168(%rsp), %r9
	addq	%rbp, %r9
	movq	%r13, %r12
	movq	%rdx, 248(%rsp)
.LBB_9ba498_255:
	subq	(%rsp), %r10
	leaq	(%r10,%r15), %rbp
	movq	24(%rsp), %rcx
	leaq	(%rcx,%r15), %rbx
	movq	200(%rsp), %rcx
	leaq	(%rcx,%r15), %rdx
	cmpq	%rbp, %rbx
	movq	%rbp, %rsi
	cmovbq	%rbx, %rsi
	cmpq	%rsi, %rdx
	cmovbq	%rdx, %rsi
	xorl	%r11d, %r11d
	movq	%r15, %rcx
	subq	%rsi, %rcx
	cmovbq	%r11, %rcx
	movq	8(%rsp), %rsi
	orq	%r15, %rsi
	subq	%rbp, %rsi
	cmovbq	%r11, %rsi
	orq	%r15, %r8
	subq	%rbx, %r8
	cmovbq	%r11, %r8
	orq	%r15, %r14
	subq	%rdx, %r14
	cmovbq	%r11, %r14
	movl	80(%rsp), %r11d
	cmpl	%eax, %r11d
	cmovbl	%r11d, %eax
	cmpl	%eax, %edi
	cmovbl	%edi, %eax
	cmpq	%rax, %rsi
	cmovaeq	%rax, %rsi
	cmpq	%rsi, %r8
	cmovbq	%r8, %rsi
	cmpq	%rsi, %r14
	cmovbq	%r14, %rsi
	cmpq	%rcx, %rsi
	movq	16(%rsp), %r14
	jbe	.LBB_9ba498_452
	movq	%rsi, %rax
	leaq	(%rcx,%r10), %rdi
	addq	%r10, %rax
	movq	%rax, 8(%rsp)
	movq	%rdi, 384(%rsp)
	cmpq	%rax, %rdi
	jae	.LBB_9ba498_452
	movq	352(%rsp), %r11
	movq	%r15, %rdi
	movq	24(%rsp), %r15
	leaq	(%rcx,%r15), %rax
	movq	%rax, 392(%rsp)
	addq	%rcx, 200(%rsp)
	movq	96(%rsp), %r8
	leaq	(%r8,%r9), %rax
	movq	%rax, 400(%rsp)
	subq	224(%rsp), %r12
	movq	%r12, %rax
	shrq	$4, %rax
	movq	%rax, 64(%rsp)
	movq	%r12, %rcx
	andq	$-16, %rcx
	movl	%r12d, %eax
	andl	$15, %eax
	movq	%rax, 408(%rsp)
	movl	%r12d, %eax
	andl	$8, %eax
	movq	%rax, 192(%rsp)
	movl	%r12d, %r10d
	andl	$12, %r10d
	addq	%rdi, %r15
	cmpq	%rbx, %rbp
	cmovbq	%rbp, %rbx
	leaq	(,%rcx,4), %rsi
	cmpq	%rdx, %rbx
	cmovaeq	%rdx, %rbx
	cmpq	%rdi, %rbx
	cmovaeq	%rdi, %rbx
	subq	%rbx, %r15
	imulq	176(%rsp), %r15
	movq	248(%rsp), %rbp
	leaq	(,%rbp,4), %rax
	leaq	(%rax,%r15,4), %r13
	subq	%rbx, %rdx
	movq	32(%rsp), %rdi
	movq	%rdi, %rax
	movq	384(%rsp), %rbx
	imulq	%rbx, %rax
	movq	%r11, 168(%rsp)
	imulq	%r11, %rdx
	addq	%r9, %rdx
	movq	%rcx, 240(%rsp)
	movq	%r10, 216(%rsp)
	leaq	(%rcx,%r10), %r9
	addq	%r8, %r9
	leaq	(%r8,%rdx), %r10
	addq	%rdx, %r9
	movq	224(%rsp), %r11
	leaq	(,%r11,4), %rcx
	leaq	(%rcx,%rax,4), %r8
	leaq	(%rsi,%r15,4), %rcx
	movq	%r12, 72(%rsp)
	leal	(,%r12,4), %edx
	andl	$48, %edx
	addq	%rdx, %rcx
	movq	%rsi, 416(%rsp)
	leaq	(%rsi,%rax,4), %rax
	addq	%rdx, %rax
	movq	48(%rsp), %rdx
	addq	%rdx, %r13
	addq	%r14, %r8
	leaq	(%rcx,%rbp,4), %r15
	addq	%rdx, %r15
	leaq	(%rax,%r11,4), %r12
	addq	%r14, %r12
	movq	408(%rsp), %r11
	movq	176(%rsp), %rax
	leaq	(,%rax,4), %rax
	movq	%rax, 208(%rsp)
	leaq	(,%rdi,4), %rax
	movq	%rax, 232(%rsp)
	movq	%rbx, 24(%rsp)
	jmp	.LBB_9ba498_259
.LBB_9ba498_258:
	movq	24(%rsp), %rdi
	incq	%rdi
	movq	96(%rsp), %r13
	movq	208(%rsp), %rcx
	addq	%rcx, %r13
	movq	232(%rsp), %rdx
	addq	%rdx, %r8
	movq	168(%rsp), %rax
	movq	80(%rsp), %r10
	addq	%rax, %r10
	addq	%rax, %r9
	addq	%rcx, %r15
	addq	%rdx, %r12
	movq	%rdi, 24(%rsp)
	cmpq	8(%rsp), %rdi
	je	.LBB_9ba498_452
.LBB_9ba498_259:
	cmpq	$0, 64(%rsp)
	je	.LBB_9ba498_262
	movl	$8, %ebx
	movq	64(%rsp), %r14
	.p2align	4
.LBB_9ba498_261:
	movdqu	-32(%r13,%rbx,4), %xmm4
	movdqu	-16(%r13,%rbx,4), %xmm3
	movq	-8(%r10,%rbx), %xmm6
	punpcklbw	%xmm6, %xmm6
	movdqa	%xmm6, %xmm8
	punpcklwd	%xmm6, %xmm8
	punpckhwd	%xmm6, %xmm6
	movdqa	.LCPI_9ba498_0(%rip), %xmm0
	movdqa	%xmm3, %xmm1
	pand	%xmm0, %xmm1
	movdqa	%xmm4, %xmm2
	pand	%xmm0, %xmm2
	movdqa	%xmm6, %xmm9
	pand	%xmm0, %xmm9
	pmullw	%xmm1, %xmm9
	movdqa	%xmm8, %xmm10
	pand	%xmm0, %xmm10
	pmullw	%xmm2, %xmm10
	movdqa	.LCPI_9ba498_1(%rip), %xmm1
	paddw	%xmm1, %xmm9
	paddw	%xmm1, %xmm10
	movdqa	.LCPI_9ba498_2(%rip), %xmm2
	pmulhuw	%xmm2, %xmm10
	pmulhuw	%xmm2, %xmm9
	psrlw	$8, %xmm4
	psrlw	$8, %xmm3
	psrlw	$8, %xmm8
	pmullw	%xmm4, %xmm8
	psrlw	$8, %xmm6
	pmullw	%xmm3, %xmm6
	paddw	%xmm1, %xmm8
	paddw	%xmm1, %xmm6
	pmulhuw	%xmm2, %xmm6
	pmulhuw	%xmm2, %xmm8
	psllw	$8, %xmm8
	psllw	$8, %xmm6
	pcmpeqd	%xmm5, %xmm5
	movdqu	-32(%r8,%rbx,4), %xmm11
	movdqu	-16(%r8,%rbx,4), %xmm12
	movdqu	(%r8,%rbx,4), %xmm3
	movdqu	16(%r8,%rbx,4), %xmm4
	pxor	%xmm5, %xmm11
	pxor	%xmm5, %xmm12
	movdqa	.LCPI_9ba498_5(%rip), %xmm7
	pshufb	%xmm7, %xmm12
	pshufb	%xmm7, %xmm11
	por	%xmm9, %xmm6
	por	%xmm10, %xmm8
	pmullw	%xmm11, %xmm10
	pmullw	%xmm12, %xmm9
	paddw	%xmm1, %xmm9
	paddw	%xmm1, %xmm10
	pmulhuw	%xmm2, %xmm10
	pmulhuw	%xmm2, %xmm9
	psrlw	$8, %xmm8
	psrlw	$8, %xmm6
	pmullw	%xmm12, %xmm6
	pmullw	%xmm11, %xmm8
	paddw	%xmm1, %xmm8
	paddw	%xmm1, %xmm6
	pmulhuw	%xmm2, %xmm6
	pmulhuw	%xmm2, %xmm8
	psllw	$8, %xmm8
	por	%xmm10, %xmm8
	psllw	$8, %xmm6
	por	%xmm9, %xmm6
	movdqu	%xmm8, -32(%r8,%rbx,4)
	movdqu	%xmm6, -16(%r8,%rbx,4)
	movdqu	(%r13,%rbx,4), %xmm11
	movdqu	16(%r13,%rbx,4), %xmm10
	movq	(%r10,%rbx), %xmm6
	punpcklbw	%xmm6, %xmm6
	movdqa	%xmm6, %xmm8
	punpcklwd	%xmm6, %xmm8
	punpckhwd	%xmm6, %xmm6
	movdqa	%xmm10, %xmm12
	pand	%xmm0, %xmm12
	movdqa	%xmm11, %xmm13
	pand	%xmm0, %xmm13
	movdqa	%xmm6, %xmm9
	pand	%xmm0, %xmm9
	pmullw	%xmm12, %xmm9
	pand	%xmm8, %xmm0
	pmullw	%xmm13, %xmm0
	paddw	%xmm1, %xmm9
	paddw	%xmm1, %xmm0
	pmulhuw	%xmm2, %xmm0
	pmulhuw	%xmm2, %xmm9
	psrlw	$8, %xmm11
	psrlw	$8, %xmm10
	psrlw	$8, %xmm8
	pmullw	%xmm11, %xmm8
	psrlw	$8, %xmm6
	pmullw	%xmm10, %xmm6
	paddw	%xmm1, %xmm8
	paddw	%xmm1, %xmm6
	pmulhuw	%xmm2, %xmm6
	pmulhuw	%xmm2, %xmm8
	psllw	$8, %xmm8
	psllw	$8, %xmm6
	pxor	%xmm5, %xmm3
	pxor	%xmm5, %xmm4
	pshufb	%xmm7, %xmm4
	pshufb	%xmm7, %xmm3
	por	%xmm9, %xmm6
	por	%xmm0, %xmm8
	pmullw	%xmm3, %xmm0
	pmullw	%xmm4, %xmm9
	paddw	%xmm1, %xmm9
	paddw	%xmm1, %xmm0
	pmulhuw	%xmm2, %xmm0
	pmulhuw	%xmm2, %xmm9
	psrlw	$8, %xmm8
	psrlw	$8, %xmm6
	pmullw	%xmm4, %xmm6
	pmullw	%xmm3, %xmm8
	paddw	%xmm1, %xmm8
	paddw	%xmm1, %xmm6
	pmulhuw	%xmm2, %xmm6
	pmulhuw	%xmm2, %xmm8
	psllw	$8, %xmm8
	por	%xmm0, %xmm8
	psllw	$8, %xmm6
	por	%xmm9, %xmm6
	movdqu	%xmm8, (%r8,%rbx,4)
	movdqu	%xmm6, 16(%r8,%rbx,4)
	addq	$16, %rbx
	decq	%r14
	jne	.LBB_9ba498_261
.LBB_9ba498_262:
	movq	%r13, 96(%rsp)
	movq	%r10, 80(%rsp)
	movq	240(%rsp), %rax
	cmpq	72(%rsp), %rax
	je	.LBB_9ba498_258
	movq	24(%rsp), %r14
	movq	%r14, %rax
	imulq	32(%rsp), %rax
	addq	224(%rsp), %rax
	subq	384(%rsp), %r14
	movq	392(%rsp), %rcx
	addq	%r14, %rcx
	imulq	176(%rsp), %rcx
	addq	248(%rsp), %rcx
	addq	200(%rsp), %r14
	imulq	168(%rsp), %r14
	addq	400(%rsp), %r14
	movq	16(%rsp), %rdx
	leaq	(%rdx,%rax,4), %rbx
	movq	48(%rsp), %rax
	leaq	(%rax,%rcx,4), %rbp
	movq	416(%rsp), %rax
	addq	%rax, %rbx
	addq	%rax, %rbp
	addq	240(%rsp), %r14
	cmpq	$0, 192(%rsp)
	jne	.LBB_9ba498_266
	testb	$4, 72(%rsp)
	jne	.LBB_9ba498_267
.LBB_9ba498_265:
	cmpl	%r11d, 216(%rsp)
	je	.LBB_9ba498_258
	jmp	.LBB_9ba498_268
.LBB_9ba498_266:
	movdqu	(%rbp), %xmm7
	movdqu	16(%rbp), %xmm6
	movq	(%r14), %xmm0
	punpcklbw	%xmm0, %xmm0
	movdqa	%xmm0, %xmm1
	punpcklwd	%xmm0, %xmm1
	punpckhwd	%xmm0, %xmm0
	movdqa	.LCPI_9ba498_0(%rip), %xmm2
	movdqa	%xmm6, %xmm4
	pand	%xmm2, %xmm4
	movdqa	%xmm7, %xmm5
	pand	%xmm2, %xmm5
	movdqa	%xmm0, %xmm3
	pand	%xmm2, %xmm3
	pmullw	%xmm4, %xmm3
	pand	%xmm1, %xmm2
	pmullw	%xmm5, %xmm2
	movdqa	.LCPI_9ba498_1(%rip), %xmm4
	paddw	%xmm4, %xmm3
	paddw	%xmm4, %xmm2
	movdqa	.LCPI_9ba498_2(%rip), %xmm5
	pmulhuw	%xmm5, %xmm2
	pmulhuw	%xmm5, %xmm3
	psrlw	$8, %xmm7
	psrlw	$8, %xmm6
	psrlw	$8, %xmm1
	pmullw	%xmm7, %xmm1
	psrlw	$8, %xmm0
	pmullw	%xmm6, %xmm0
	paddw	%xmm4, %xmm1
	paddw	%xmm4, %xmm0
	pmulhuw	%xmm5, %xmm0
	pmulhuw	%xmm5, %xmm1
	psllw	$8, %xmm1
	psllw	$8, %xmm0
	movdqu	(%rbx), %xmm6
	movdqu	16(%rbx), %xmm7
	pcmpeqd	%xmm8, %xmm8
	pxor	%xmm8, %xmm6
	pxor	%xmm8, %xmm7
	movdqa	.LCPI_9ba498_5(%rip), %xmm8
	pshufb	%xmm8, %xmm7
	pshufb	%xmm8, %xmm6
	por	%xmm3, %xmm0
	por	%xmm2, %xmm1
	pmullw	%xmm6, %xmm2
	pmullw	%xmm7, %xmm3
	paddw	%xmm4, %xmm3
	paddw	%xmm4, %xmm2
	pmulhuw	%xmm5, %xmm2
	pmulhuw	%xmm5, %xmm3
	psrlw	$8, %xmm1
	psrlw	$8, %xmm0
	pmullw	%xmm7, %xmm0
	pmullw	%xmm6, %xmm1
	paddw	%xmm4, %xmm1
	paddw	%xmm4, %xmm0
	pmulhuw	%xmm5, %xmm0
	pmulhuw	%xmm5, %xmm1
	psllw	$8, %xmm1
	por	%xmm2, %xmm1
	psllw	$8, %xmm0
	por	%xmm3, %xmm0
	movdqu	%xmm1, (%rbx)
	movdqu	%xmm0, 16(%rbx)
	testb	$4, 72(%rsp)
	je	.LBB_9ba498_265
.LBB_9ba498_267:
	movq	192(%rsp), %rax
	leal	(,%rax,4), %ecx
	movdqu	(%rbp,%rcx), %xmm5
	movd	(%r14,%rax), %xmm0
	punpcklbw	%xmm0, %xmm0
	punpcklwd	%xmm0, %xmm0
	movdqa	.LCPI_9ba498_0(%rip), %xmm3
	movdqa	%xmm5, %xmm1
	pand	%xmm3, %xmm1
	movdqa	%xmm0, %xmm4
	pand	%xmm3, %xmm4
	pmullw	%xmm1, %xmm4
	movdqa	.LCPI_9ba498_1(%rip), %xmm1
	paddw	%xmm1, %xmm4
	movdqa	.LCPI_9ba498_2(%rip), %xmm2
	pmulhuw	%xmm2, %xmm4
	psrlw	$8, %xmm5
	psrlw	$8, %xmm0
	pmullw	%xmm5, %xmm0
	paddw	%xmm1, %xmm0
	pmulhuw	%xmm2, %xmm0
	psllw	$8, %xmm0
	movdqu	(%rbx,%rcx), %xmm5
	pcmpeqd	%xmm6, %xmm6
	por	%xmm4, %xmm0
	pshufb	.LCPI_9ba498_6(%rip), %xmm5
	pxor	%xmm5, %xmm6
	pandn	%xmm3, %xmm5
	pmullw	%xmm4, %xmm5
	paddw	%xmm1, %xmm5
	pmulhuw	%xmm2, %xmm5
	psrlw	$8, %xmm0
	psrlw	$8, %xmm6
	pmullw	%xmm0, %xmm6
	paddw	%xmm1, %xmm6
	pmulhuw	%xmm2, %xmm6
	psllw	$8, %xmm6
	por	%xmm5, %xmm6
	movdqu	%xmm6, (%rbx,%rcx)
	cmpl	%r11d, 216(%rsp)
	je	.LBB_9ba498_258
.LBB_9ba498_268:
	xorl	%ebx, %ebx
	movq	216(%rsp), %r14
	movq	%r12, (%rsp)
	.p2align	4
.LBB_9ba498_269:
	movl	(%r15,%rbx,4), %eax
	movq	%r9, %r10
	movzbl	(%r9,%rbx), %r9d
	movzbl	3(%r12,%rbx,4), %ebp
	movzbl	%ah, %edi
	movl	%eax, %edx
	movzbl	%al, %esi
	movl	%eax, %r12d
	shrl	$16, %r12d
	shrl	$24, %edx
	imull	%r9d, %esi
	leal	128(%rsi), %eax
	movzbl	%ah, %eax
	addl	%esi, %eax
	addl	$128, %eax
	movzbl	%ah, %eax
	imull	%r9d, %edi
	leal	128(%rdi), %ecx
	movzbl	%ch, %ecx
	addl	%edi, %ecx
	addl	$128, %ecx
	movzbl	%ch, %esi
	movq	%r15, %r13
	movzbl	%r12b, %r15d
	xorl	$255, %ebp
	imull	%ebp, %eax
	leal	128(%rax), %ecx
	movzbl	%ch, %ecx
	addl	%ecx, %eax
	addl	$128, %eax
	movzbl	%ah, %edi
	imull	%ebp, %esi
	leal	128(%rsi), %eax
	movzbl	%ah, %eax
	leal	(%rax,%rsi), %r12d
	addl	$128, %r12d
	andl	$65280, %r12d
	movd	%r15d, %xmm0
	movq	%r13, %r15
	pinsrw	$1, %edx, %xmm0
	movd	%r9d, %xmm1
	movq	%r10, %r9
	pshuflw	$0, %xmm1, %xmm1
	pmullw	%xmm0, %xmm1
	movdqa	.LCPI_9ba498_11(%rip), %xmm0
	paddw	%xmm0, %xmm1
	movdqa	%xmm1, %xmm2
	psrlw	$8, %xmm2
	paddw	%xmm1, %xmm2
	psrlw	$8, %xmm2
	movd	%ebp, %xmm1
	pshuflw	$0, %xmm1, %xmm1
	pmullw	%xmm2, %xmm1
	paddw	%xmm0, %xmm1
	movdqa	%xmm1, %xmm0
	psrlw	$8, %xmm0
	paddw	%xmm1, %xmm0
	psrlw	$8, %xmm0
	movdqa	%xmm0, %xmm1
	pslld	$16, %xmm1
	pshufb	.LCPI_9ba498_12(%rip), %xmm0
	por	%xmm1, %xmm0
	movd	%xmm0, %eax
	orl	%r12d, %eax
	movq	(%rsp), %r12
	orl	%edi, %eax
	movl	%eax, (%r12,%rbx,4)
	incq	%r14
	incq	%rbx
	cmpq	%r11, %r14
	jb	.LBB_9ba498_269
	jmp	.LBB_9ba498_258
.LBB_9ba498_270:
	testq	%r13, %r13
	je	.LBB_9ba498_452
	movq	%r14, %r15
	shrq	$32, %r15
	subq	%rbx, %rcx
	movabsq	$4294967296, %rbx
	movq	%rbp, 176(%rsp)
	leaq	(%rcx,%rbx), %rbp
	leaq	(%rdx,%rbx), %r11
	cmpq	%rbp, %r11
	movl	%esi, 80(%rsp)
	movq	%rbp, %rsi
	cmovbq	%r11, %rsi
	xorl	%r8d, %r8d
	movq	%rbx, %r12
	subq	%rsi, %r12
	cmovbq	%r8, %r12
	orq	%rbx, %r13
	subq	%rbp, %r13
	cmovbq	%r8, %r13
	movl	%r14d, %esi
	orq	%rbx, %rsi
	subq	%r11, %rsi
	cmovbq	%r8, %rsi
	cmpl	%edi, %r9d
	cmovbl	%r9d, %edi
	cmpq	%rdi, %r13
	cmovaeq	%rdi, %r13
	cmpq	%r13, %rsi
	cmovbq	%rsi, %r13
	leaq	(%r12,%rcx), %rdi
	addq	%r13, %rcx
	addq	%r12, %rdx
	cmpq	%r12, %r13
	cmovbeq	%r8, %rdi
	cmovbeq	%r8, %rcx
	cmovbeq	%r8, %rdx
	subq	(%rsp), %r10
	leaq	(%r10,%rbx), %rsi
	movq	24(%rsp), %r11
	leaq	(%r11,%rbx), %r14
	cmpq	%rsi, %r14
	movq	%rsi, %r12
	cmovbq	%r14, %r12
	movq	%rbx, %r9
	subq	%r12, %r9
	cmovbq	%r8, %r9
	movq	8(%rsp), %r12
	orq	%rbx, %r12
	subq	%rsi, %r12
	cmovbq	%r8, %r12
	orq	%rbx, %r15
	subq	%r14, %r15
	cmovbq	%r8, %r15
	movl	80(%rsp), %esi
	cmpl	%eax, %esi
	cmovbl	%esi, %eax
	cmpq	%rax, %r12
	cmovaeq	%rax, %r12
	cmpq	%r12, %r15
	cmovbq	%r15, %r12
	leaq	(%r9,%r10), %rax
	addq	%r12, %r10
	addq	%r9, %r11
	cmpq	%r9, %r12
	cmovbeq	%r8, %rax
	cmovbeq	%r8, %r10
	cmovbeq	%r8, %r11
	movq	%rdi, 120(%rsp)
	movq	%rcx, 128(%rsp)
	movq	%rdx, 136(%rsp)
	movq	%rax, 144(%rsp)
	movq	%r10, 152(%rsp)
	movq	%r11, 160(%rsp)
	leaq	120(%rsp), %r8
	movq	16(%rsp), %rdi
	movq	32(%rsp), %rsi
	movq	48(%rsp), %rdx
	movq	176(%rsp), %rcx
	callq	"pix_raster::view::blit_overlap::<#9ba22e131c89b739>"
	jmp	.LBB_9ba498_452
.LBB_9ba498_272:
	movq	%rsi, 64(%rsp)
	testq	%r13, %r13
	je	.LBB_9ba498_452
	movq	%r11, %r8
	shrq	$32, %r8
	subq	%rbx, %r15
	movabsq	$4294967296, %rbx
	leaq	(%r15,%rbx), %r12
	leaq	(%rbx,%rbp), %rsi
	cmpq	%r12, %rsi
	movl	%r10d, 96(%rsp)
	movq	%r12, %r10
	cmovbq	%rsi, %r10
	xorl	%ecx, %ecx
	movq	%r14, 80(%rsp)
	movq	%rbx, %r14
	subq	%r10, %r14
	cmovbq	%rcx, %r14
	orq	%rbx, %r13
	subq	%r12, %r13
	cmovbq	%rcx, %r13
	movl	%r11d, %r10d
	orq	%rbx, %r10
	subq	%rsi, %r10
	cmovbq	%rcx, %r10
	cmpl	%edx, %edi
	cmovbl	%edi, %edx
	cmpq	%rdx, %r13
	cmovaeq	%rdx, %r13
	cmpq	%r13, %r10
	cmovbq	%r10, %r13
	leaq	(%r14,%r15), %rdx
	addq	%r13, %r15
	addq	%r14, %rbp
	cmpq	%r14, %r13
	cmovbeq	%rcx, %rdx
	cmovbeq	%rcx, %r15
	cmovbeq	%rcx, %rbp
	subq	32(%rsp), %rax
	leaq	(%rax,%rbx), %r10
	movq	24(%rsp), %rsi
	leaq	(%rsi,%rbx), %r11
	cmpq	%r10, %r11
	movq	%r10, %r14
	cmovbq	%r11, %r14
	movq	%rbx, %rdi
	subq	%r14, %rdi
	cmovbq	%rcx, %rdi
	movq	(%rsp), %r14
	orq	%rbx, %r14
	subq	%r10, %r14
	cmovbq	%rcx, %r14
	orq	%rbx, %r8
	subq	%r11, %r8
	cmovbq	%rcx, %r8
	movl	96(%rsp), %r10d
	cmpl	%r9d, %r10d
	cmovbl	%r10d, %r9d
	cmpq	%r9, %r14
	cmovaeq	%r9, %r14
	cmpq	%r14, %r8
	cmovbq	%r8, %r14
	leaq	(%rdi,%rax), %r8
	addq	%r14, %rax
	addq	%rdi, %rsi
	cmpq	%rdi, %r14
	cmovbeq	%rcx, %r8
	cmovbeq	%rcx, %rax
	cmovbeq	%rcx, %rsi
	movq	64(%rsp), %rcx
	movl	(%rcx), %r9d
	movq	%rdx, 120(%rsp)
	movq	%r15, 128(%rsp)
	movq	%rbp, 136(%rsp)
	movq	%r8, 144(%rsp)
	movq	%rax, 152(%rsp)
	movq	%rsi, 160(%rsp)
	leaq	120(%rsp), %r8
	movq	16(%rsp), %rdi
	movq	8(%rsp), %rsi
	movq	48(%rsp), %rdx
	movq	80(%rsp), %rcx
	callq	"pix_raster::view::blit_overlap::<#1190cce370e40c2f>"
	jmp	.LBB_9ba498_452
.LBB_9ba498_274:
	testq	%rbp, %rbp
	je	.LBB_9ba498_452
	movq	%r8, 80(%rsp)
	movl	%r13d, 96(%rsp)
	movq	%r15, %r13
	shrq	$32, %r13
	subq	%rbx, %rcx
	movabsq	$4294967296, %rbx
	leaq	(%rcx,%rbx), %r12
	leaq	(%rdi,%rbx), %rdx
	cmpq	%r12, %rdx
	movq	%r12, %r8
	cmovbq	%rdx, %r8
	xorl	%r9d, %r9d
	movq	%rbx, %r14
	subq	%r8, %r14
	cmovbq	%r9, %r14
	orq	%rbx, %rbp
	subq	%r12, %rbp
	cmovbq	%r9, %rbp
	movl	%r15d, %r8d
	orq	%rbx, %r8
	subq	%rdx, %r8
	cmovbq	%r9, %r8
	cmpl	%r10d, %r11d
	cmovbl	%r11d, %r10d
	cmpq	%r10, %rbp
	cmovaeq	%r10, %rbp
	cmpq	%rbp, %r8
	cmovbq	%r8, %rbp
	leaq	(%r14,%rcx), %r10
	addq	%rbp, %rcx
	addq	%r14, %rdi
	cmpq	%r14, %rbp
	cmovbeq	%r9, %r10
	cmovbeq	%r9, %rcx
	cmovbeq	%r9, %rdi
	subq	32(%rsp), %rax
	leaq	(%rax,%rbx), %r8
	movq	24(%rsp), %rdx
	leaq	(%rdx,%rbx), %r14
	cmpq	%r8, %r14
	movq	%r8, %r15
	cmovbq	%r14, %r15
	movq	%rbx, %r11
	subq	%r15, %r11
	cmovbq	%r9, %r11
	movq	(%rsp), %r15
	orq	%rbx, %r15
	subq	%r8, %r15
	cmovbq	%r9, %r15
	orq	%rbx, %r13
	subq	%r14, %r13
	cmovbq	%r9, %r13
	movl	96(%rsp), %r8d
	cmpl	%esi, %r8d
	cmovbl	%r8d, %esi
	cmpq	%rsi, %r15
	cmovaeq	%rsi, %r15
	cmpq	%r15, %r13
	cmovbq	%r13, %r15
	leaq	(%r11,%rax), %rsi
	addq	%r15, %rax
	addq	%r11, %rdx
	cmpq	%r11, %r15
	cmovbeq	%r9, %rsi
	cmovbeq	%r9, %rax
	cmovbeq	%r9, %rdx
	movq	%r10, 120(%rsp)
	movq	%rcx, 128(%rsp)
	movq	%rdi, 136(%rsp)
	movq	%rsi, 144(%rsp)
	movq	%rax, 152(%rsp)
	movq	%rdx, 160(%rsp)
	leaq	120(%rsp), %r8
	movq	16(%rsp), %rdi
	movq	8(%rsp), %rsi
	movq	48(%rsp), %rdx
	movq	80(%rsp), %rcx
	callq	"pix_raster::view::blit_overlap::<#64f9c87ff7b7bdd2>"
	jmp	.LBB_9ba498_452
.LBB_9ba498_276:
	testq	%rbp, %rbp
	je	.LBB_9ba498_452
	movl	%r13d, 96(%rsp)
	movq	%r15, %r13
	shrq	$32, %r13
	subq	%rbx, %rcx
	movabsq	$4294967296, %rbx
	leaq	(%rcx,%rbx), %r12
	leaq	(%rdi,%rbx), %rdx
	cmpq	%r12, %rdx
	movq	%r8, 80(%rsp)
	movq	%r12, %r8
	cmovbq	%rdx, %r8
	xorl	%r9d, %r9d
	movq	%rbx, %r14
	subq	%r8, %r14
	cmovbq	%r9, %r14
	orq	%rbx, %rbp
	subq	%r12, %rbp
	cmovbq	%r9, %rbp
	movl	%r15d, %r8d
	orq	%rbx, %r8
	subq	%rdx, %r8
	cmovbq	%r9, %r8
	cmpl	%r10d, %r11d
	cmovbl	%r11d, %r10d
	cmpq	%r10, %rbp
	cmovaeq	%r10, %rbp
	cmpq	%rbp, %r8
	cmovbq	%r8, %rbp
	leaq	(%r14,%rcx), %r10
	addq	%rbp, %rcx
	addq	%r14, %rdi
	cmpq	%r14, %rbp
	cmovbeq	%r9, %r10
	cmovbeq	%r9, %rcx
	cmovbeq	%r9, %rdi
	subq	32(%rsp), %rax
	leaq	(%rax,%rbx), %r8
	movq	24(%rsp), %rdx
	leaq	(%rdx,%rbx), %r14
	cmpq	%r8, %r14
	movq	%r8, %r15
	cmovbq	%r14, %r15
	movq	%rbx, %r11
	subq	%r15, %r11
	cmovbq	%r9, %r11
	movq	(%rsp), %r15
	orq	%rbx, %r15
	subq	%r8, %r15
	cmovbq	%r9, %r15
	orq	%rbx, %r13
	subq	%r14, %r13
	cmovbq	%r9, %r13
	movl	96(%rsp), %r8d
	cmpl	%esi, %r8d
	cmovbl	%r8d, %esi
	cmpq	%rsi, %r15
	cmovaeq	%rsi, %r15
	cmpq	%r15, %r13
	cmovbq	%r13, %r15
	leaq	(%r11,%rax), %rsi
	addq	%r15, %rax
	addq	%r11, %rdx
	cmpq	%r11, %r15
	cmovbeq	%r9, %rsi
	cmovbeq	%r9, %rax
	cmovbeq	%r9, %rdx
	movq	%r10, 120(%rsp)
	movq	%rcx, 128(%rsp)
	movq	%rdi, 136(%rsp)
	movq	%rsi, 144(%rsp)
	movq	%rax, 152(%rsp)
	movq	%rdx, 160(%rsp)
	leaq	120(%rsp), %r8
	movq	16(%rsp), %rdi
	movq	8(%rsp), %rsi
	movq	48(%rsp), %rdx
	movq	80(%rsp), %rcx
	callq	"pix_raster::view::blit_overlap::<#d408076b946df4a1>"
	jmp	.LBB_9ba498_452
.LBB_9ba498_278:
	testq	%r13, %r13
	je	.LBB_9ba498_452
	subq	%rbx, %rcx
	movabsq	$4294967296, %rdx
	addq	%rdx, %rcx
	cmpq	%rdx, %rcx
	movq	%rdx, %rdi
	cmovaq	%rcx, %rdi
	movabsq	$-4294967296, %rsi
	addq	%r8, %rcx
	orq	%rdx, %r13
	cmpq	%rcx, %r13
	cmovaeq	%rcx, %r13
	leaq	(%rdi,%rsi), %r8
	xorl	%ecx, %ecx
	cmpq	%rdi, %r13
	cmovbeq	%rcx, %r8
	movq	%r8, 32(%rsp)
	subq	48(%rsp), %r10
	addq	%rdx, %r10
	cmpq	%rdx, %r10
	movq	%rdx, %r8
	cmovaq	%r10, %r8
	addq	%rax, %r10
	orq	%rdx, %r12
	cmpq	%r10, %r12
	cmovaeq	%r10, %r12
	leaq	(%r8,%rsi), %rax
	cmpq	%r8, %r12
	cmovbeq	%rcx, %rax
	jbe	.LBB_9ba498_452
	addq	%rsi, %r12
	cmpq	%rax, %r12
	jbe	.LBB_9ba498_452
	movq	8(%rsp), %rcx
	movl	(%rcx), %ecx
	movl	%ecx, %r11d
	shrl	$16, %r11d
	movl	%ecx, %r10d
	shrl	$24, %r10d
	addq	%r13, %rsi
	xorl	%edx, %edx
	cmpq	%rdi, %r13
	cmovaq	%rsi, %rdx
	movzbl	%ch, %ebp
	movq	32(%rsp), %r15
	subq	%r15, %rdx
	movq	%rdx, %rsi
	movl	%ecx, %ebx
	shrl	$8, %ebx
	movd	%ecx, %xmm0
	pinsrb	$1, %ebx, %xmm0
	pinsrb	$2, %r11d, %xmm0
	pinsrb	$3, %r10d, %xmm0
	pinsrb	$4, %ecx, %xmm0
	pinsrb	$5, %ebx, %xmm0
	pinsrb	$6, %r11d, %xmm0
	pinsrb	$7, %r10d, %xmm0
	pinsrb	$8, %ecx, %xmm0
	pinsrb	$9, %ebx, %xmm0
	pinsrb	$10, %r11d, %xmm0
	pinsrb	$11, %r10d, %xmm0
	pinsrb	$12, %ecx, %xmm0
	pinsrb	$13, %ebx, %xmm0
	shrq	$4, %rsi
	pinsrb	$14, %r11d, %xmm0
	movdqa	.LCPI_9ba498_0(%rip), %xmm1
	pand	%xmm0, %xmm1
	pinsrb	$15, %r10d, %xmm0
	psrlw	$8, %xmm0
	movq	%rdx, %rdi
	andq	$-16, %rdi
	movl	%edx, %r9d
	andl	$15, %r9d
	leal	(,%rdx,4), %r8d
	movd	%r10d, %xmm2
	movl	%r8d, %r10d
	andl	$32, %r10d
	movq	%r10, 8(%rsp)
	movzbl	%r11b, %r11d
	pinsrw	$1, %r11d, %xmm2
	movl	%edx, %r11d
	andl	$12, %r11d
	pinsrw	$2, %ebp, %xmm2
	movzbl	%cl, %ecx
	pinsrw	$3, %ecx, %xmm2
	movq	%rax, %rcx
	movq	(%rsp), %r14
	imulq	%r14, %rcx
	addq	%r15, %rcx
	movq	16(%rsp), %r10
	leaq	(%r10,%rcx,4), %rbx
	andl	$48, %r8d
	leaq	(%r8,%rdi,4), %r8
	leaq	(%r8,%rcx,4), %r15
	leaq	(,%r14,4), %r13
	addq	%r10, %r15
	jmp	.LBB_9ba498_283
.LBB_9ba498_282:
	incq	%rax
	addq	%r13, %rbx
	addq	%r13, %r15
	cmpq	%r12, %rax
	je	.LBB_9ba498_452
.LBB_9ba498_283:
	testq	%rsi, %rsi
	je	.LBB_9ba498_286
	movq	%rbx, %r14
	movq	%rsi, %rbp
	.p2align	4
.LBB_9ba498_285:
	pcmpeqd	%xmm3, %xmm3
	movdqu	(%r14), %xmm9
	movdqu	16(%r14), %xmm11
	movdqu	32(%r14), %xmm4
	movdqu	48(%r14), %xmm5
	movdqa	%xmm11, %xmm10
	pxor	%xmm3, %xmm10
	movdqa	%xmm9, %xmm12
	pxor	%xmm3, %xmm12
	movdqa	.LCPI_9ba498_5(%rip), %xmm8
	pshufb	%xmm8, %xmm12
	pshufb	%xmm8, %xmm10
	movdqa	%xmm1, %xmm13
	pmullw	%xmm10, %xmm13
	movdqa	%xmm1, %xmm14
	pmullw	%xmm12, %xmm14
	movdqa	.LCPI_9ba498_1(%rip), %xmm6
	paddw	%xmm6, %xmm14
	paddw	%xmm6, %xmm13
	movdqa	.LCPI_9ba498_2(%rip), %xmm7
	pmulhuw	%xmm7, %xmm13
	pmulhuw	%xmm7, %xmm14
	pmullw	%xmm0, %xmm12
	pmullw	%xmm0, %xmm10
	paddw	%xmm6, %xmm10
	paddw	%xmm6, %xmm12
	pmulhuw	%xmm7, %xmm12
	pmulhuw	%xmm7, %xmm10
	psllw	$8, %xmm10
	por	%xmm13, %xmm10
	psllw	$8, %xmm12
	por	%xmm14, %xmm12
	paddusb	%xmm11, %xmm10
	paddusb	%xmm9, %xmm12
	movdqu	%xmm12, (%r14)
	movdqu	%xmm10, 16(%r14)
	movdqa	%xmm5, %xmm9
	pxor	%xmm3, %xmm9
	pxor	%xmm4, %xmm3
	pshufb	%xmm8, %xmm3
	pshufb	%xmm8, %xmm9
	movdqa	%xmm1, %xmm8
	pmullw	%xmm9, %xmm8
	movdqa	%xmm1, %xmm10
	pmullw	%xmm3, %xmm10
	paddw	%xmm6, %xmm10
	paddw	%xmm6, %xmm8
	pmulhuw	%xmm7, %xmm8
	pmulhuw	%xmm7, %xmm10
	pmullw	%xmm0, %xmm3
	pmullw	%xmm0, %xmm9
	paddw	%xmm6, %xmm9
	paddw	%xmm6, %xmm3
	pmulhuw	%xmm7, %xmm3
	pmulhuw	%xmm7, %xmm9
	psllw	$8, %xmm9
	por	%xmm8, %xmm9
	psllw	$8, %xmm3
	por	%xmm10, %xmm3
	paddusb	%xmm5, %xmm9
	paddusb	%xmm4, %xmm3
	movdqu	%xmm3, 32(%r14)
	movdqu	%xmm9, 48(%r14)
	addq	$64, %r14
	decq	%rbp
	jne	.LBB_9ba498_285
.LBB_9ba498_286:
	cmpq	%rdx, %rdi
	je	.LBB_9ba498_282
	movq	%rax, %rcx
	imulq	(%rsp), %rcx
	addq	32(%rsp), %rcx
	movq	16(%rsp), %r8
	leaq	(%r8,%rcx,4), %r14
	leaq	(,%rdi,4), %rcx
	addq	%rcx, %r14
	testb	$8, %dl
	jne	.LBB_9ba498_290
	testb	$4, %dl
	jne	.LBB_9ba498_291
.LBB_9ba498_289:
	cmpl	%r9d, %r11d
	jae	.LBB_9ba498_282
	jmp	.LBB_9ba498_292
.LBB_9ba498_290:
	movdqu	(%r14), %xmm3
	movdqu	16(%r14), %xmm6
	pcmpeqd	%xmm4, %xmm4
	movdqa	%xmm6, %xmm5
	pxor	%xmm4, %xmm5
	pxor	%xmm3, %xmm4
	movdqa	.LCPI_9ba498_5(%rip), %xmm7
	pshufb	%xmm7, %xmm4
	pshufb	%xmm7, %xmm5
	movdqa	%xmm1, %xmm7
	pmullw	%xmm5, %xmm7
	movdqa	%xmm1, %xmm8
	pmullw	%xmm4, %xmm8
	movdqa	.LCPI_9ba498_1(%rip), %xmm9
	paddw	%xmm9, %xmm8
	paddw	%xmm9, %xmm7
	movdqa	.LCPI_9ba498_2(%rip), %xmm10
	pmulhuw	%xmm10, %xmm7
	pmulhuw	%xmm10, %xmm8
	pmullw	%xmm0, %xmm4
	pmullw	%xmm0, %xmm5
	paddw	%xmm9, %xmm5
	paddw	%xmm9, %xmm4
	pmulhuw	%xmm10, %xmm4
	pmulhuw	%xmm10, %xmm5
	psllw	$8, %xmm5
	por	%xmm7, %xmm5
	psllw	$8, %xmm4
	por	%xmm8, %xmm4
	paddusb	%xmm6, %xmm5
	paddusb	%xmm3, %xmm4
	movdqu	%xmm4, (%r14)
	movdqu	%xmm5, 16(%r14)
	testb	$4, %dl
	je	.LBB_9ba498_289
.LBB_9ba498_291:
	movq	8(%rsp), %rcx
	movdqu	(%r14,%rcx), %xmm3
	pcmpeqd	%xmm4, %xmm4
	movdqa	%xmm3, %xmm5
	pshufb	.LCPI_9ba498_6(%rip), %xmm5
	pxor	%xmm5, %xmm4
	pandn	.LCPI_9ba498_0(%rip), %xmm5
	pmullw	%xmm1, %xmm5
	movdqa	.LCPI_9ba498_1(%rip), %xmm6
	paddw	%xmm6, %xmm5
	movdqa	.LCPI_9ba498_2(%rip), %xmm7
	pmulhuw	%xmm7, %xmm5
	psrlw	$8, %xmm4
	pmullw	%xmm0, %xmm4
	paddw	%xmm6, %xmm4
	pmulhuw	%xmm7, %xmm4
	psllw	$8, %xmm4
	por	%xmm5, %xmm4
	paddusb	%xmm3, %xmm4
	movdqu	%xmm4, (%r14,%rcx)
	cmpl	%r9d, %r11d
	jae	.LBB_9ba498_282
.LBB_9ba498_292:
	movq	%r15, %r14
	movq	%r11, %rbp
	.p2align	4
.LBB_9ba498_293:
	movl	(%r14), %r8d
	movl	%r8d, %ecx
	shrl	$24, %ecx
	movl	%ecx, %r10d
	notb	%r10b
	movzbl	%r10b, %r10d
	movd	%r10d, %xmm3
	pshuflw	$0, %xmm3, %xmm3
	pmullw	%xmm2, %xmm3
	paddw	.LCPI_9ba498_3(%rip), %xmm3
	movd	%ecx, %xmm4
	movdqa	%xmm3, %xmm5
	psrlw	$8, %xmm5
	paddw	%xmm3, %xmm5
	movl	%r8d, %ecx
	shrl	$8, %ecx
	movl	%r8d, %r10d
	shrl	$16, %r10d
	psrlw	$8, %xmm5
	packuswb	%xmm5, %xmm5
	pinsrb	$1, %r10d, %xmm4
	pinsrb	$2, %ecx, %xmm4
	pinsrb	$3, %r8d, %xmm4
	paddusb	%xmm5, %xmm4
	pmovzxbd	%xmm4, %xmm3
	pmulld	.LCPI_9ba498_7(%rip), %xmm3
	pshufd	$238, %xmm3, %xmm4
	por	%xmm3, %xmm4
	pshufd	$85, %xmm4, %xmm3
	por	%xmm4, %xmm3
	movd	%xmm3, (%r14)
	incq	%rbp
	addq	$4, %r14
	cmpq	%r9, %rbp
	jb	.LBB_9ba498_293
	jmp	.LBB_9ba498_282
.LBB_9ba498_294:
	movq	%rdx, 72(%rsp)
	testq	%rbp, %rbp
	je	.LBB_9ba498_452
	movq	%r8, 80(%rsp)
	movl	%r13d, %edx
	movq	%r15, %r13
	shrq	$32, %r13
	subq	%rbx, %rcx
	movabsq	$4294967296, %rbx
	leaq	(%rcx,%rbx), %r12
	leaq	(%rdi,%rbx), %r9
	cmpq	%r12, %r9
	movq	%r12, %r8
	cmovbq	%r9, %r8
	xorl	%r9d, %r9d
	movq	%rbx, %r14
	subq	%r8, %r14
	cmovbq	%r9, %r14
	orq	%rbx, %rbp
	subq	%r12, %rbp
	cmovbq	%r9, %rbp
	movl	%r15d, %r8d
	orq	%rbx, %r8
	leaq	(%rdi,%rbx), %r15
	subq	%r15, %r8
	cmovbq	%r9, %r8
	cmpl	%r10d, %r11d
	cmovbl	%r11d, %r10d
	cmpq	%r10, %rbp
	cmovaeq	%r10, %rbp
	cmpq	%rbp, %r8
	cmovbq	%r8, %rbp
	leaq	(%r14,%rcx), %r10
	addq	%rbp, %rcx
	addq	%r14, %rdi
	cmpq	%r14, %rbp
	cmovbeq	%r9, %r10
	cmovbeq	%r9, %rcx
	cmovbeq	%r9, %rdi
	subq	32(%rsp), %rax
	leaq	(%rax,%rbx), %r8
	movq	24(%rsp), %r12
	leaq	(%r12,%rbx), %r14
	cmpq	%r8, %r14
	movq	%r8, %r15
	cmovbq	%r14, %r15
	movq	%rbx, %r11
	subq	%r15, %r11
	cmovbq	%r9, %r11
	movq	(%rsp), %r15
	orq	%rbx, %r15
	subq	%r8, %r15
	cmovbq	%r9, %r15
	orq	%rbx, %r13
	subq	%r14, %r13
	cmovbq	%r9, %r13
	cmpl	%esi, %edx
	cmovbl	%edx, %esi
	cmpq	%rsi, %r15
	cmovaeq	%rsi, %r15
	cmpq	%r15, %r13
	cmovbq	%r13, %r15
	leaq	(%r11,%rax), %rsi
	addq	%r15, %rax
	addq	%r11, %r12
	cmpq	%r11, %r15
	cmovbeq	%r9, %rsi
	cmovbeq	%r9, %rax
	cmovbeq	%r9, %r12
	movq	72(%rsp), %rdx
	movl	(%rdx), %r9d
	movq	%r10, 120(%rsp)
	movq	%rcx, 128(%rsp)
	movq	%rdi, 136(%rsp)
	movq	%rsi, 144(%rsp)
	movq	%rax, 152(%rsp)
	movq	%r12, 160(%rsp)
	leaq	120(%rsp), %r8
	movq	16(%rsp), %rdi
	movq	8(%rsp), %rsi
	movq	48(%rsp), %rdx
	movq	80(%rsp), %rcx
	callq	"pix_raster::view::blit_overlap::<#6f0e63a99552414a>"
	jmp	.LBB_9ba498_452
.LBB_9ba498_296:
	movq	%rsi, 64(%rsp)
	movq	%r14, 80(%rsp)
	testq	%r13, %r13
	je	.LBB_9ba498_452
	movl	%r10d, 96(%rsp)
	movq	344(%rsp), %rcx
	movq	%rcx, 176(%rsp)
	movslq	360(%rsp), %r12
	movabsq	$4294967296, %rsi
	movq	%r11, %r8
	shrq	$32, %r8
	shrq	$32, %rcx
	subq	%rbx, %r15
	leaq	(%r15,%rsi), %r14
	leaq	(%rsi,%rbp), %rbx
	cmpq	%r14, %rbx
	movq	%r14, %r10
	cmovbq	%rbx, %r10
	movq	%r12, 168(%rsp)
	leaq	(%r12,%rsi), %rbx
	movq	%rbx, 72(%rsp)
	cmpq	%r10, %rbx
	cmovbq	%rbx, %r10
	xorl	%r12d, %r12d
	movq	%rsi, %rbx
	subq	%r10, %rbx
	cmovbq	%r12, %rbx
	orq	%rsi, %r13
	subq	%r14, %r13
	cmovbq	%r12, %r13
	movl	%r11d, %r11d
	orq	%rsi, %r11
	leaq	(%rsi,%rbp), %r10
	subq	%r10, %r11
	movl	176(%rsp), %r10d
	cmovbq	%r12, %r11
	orq	%rsi, %r10
	subq	72(%rsp), %r10
	movl	$0, %r14d
	movq	%r14, 192(%rsp)
	cmovbq	%r12, %r10
	cmpl	%edx, %edi
	cmovbl	%edi, %edx
	movl	368(%rsp), %edi
	cmpl	%edx, %edi
	cmovbl	%edi, %edx
	cmpq	%rdx, %r13
	cmovaeq	%rdx, %r13
	movslq	364(%rsp), %rdx
	movq	%rdx, 208(%rsp)
	cmpq	%r13, %r11
	cmovbq	%r11, %r13
	movl	372(%rsp), %r11d
	cmpq	%r13, %r10
	cmovbq	%r10, %r13
	movl	$0, %edx
	movl	$0, %edi
	movq	%rdi, 216(%rsp)
	movl	$0, %esi
	cmpq	%rbx, %r13
	jbe	.LBB_9ba498_299
	leaq	(%rbx,%r15), %rdx
	movq	%rdx, 192(%rsp)
	addq	%r15, %r13
	addq	%rbx, %rbp
	movq	168(%rsp), %rsi
	addq	%rbx, %rsi
	movq	%r13, %rdx
	movq	%rbp, 216(%rsp)
.LBB_9ba498_299:
	movq	%rsi, 72(%rsp)
	subq	32(%rsp), %rax
	movabsq	$4294967296, %r13
	leaq	(%rax,%r13), %r14
	movq	24(%rsp), %rsi
	leaq	(%rsi,%r13), %rbx
	movq	208(%rsp), %rdi
	addq	%r13, %rdi
	cmpq	%r14, %rbx
	movq	%r14, %r10
	cmovbq	%rbx, %r10
	cmpq	%r10, %rdi
	cmovbq	%rdi, %r10
	xorl	%r12d, %r12d
	movq	%r13, %r15
	subq	%r10, %r15
	cmovbq	%r12, %r15
	movq	(%rsp), %r10
	orq	%r13, %r10
	subq	%r14, %r10
	cmovbq	%r12, %r10
	orq	%r13, %r8
	subq	%rbx, %r8
	cmovbq	%r12, %r8
	orq	%r13, %rcx
	subq	%rdi, %rcx
	cmovbq	%r12, %rcx
	movl	96(%rsp), %ebp
	cmpl	%r9d, %ebp
	cmovbl	%ebp, %r9d
	cmpl	%r9d, %r11d
	cmovbl	%r11d, %r9d
	cmpq	%r9, %r10
	cmovaeq	%r9, %r10
	cmpq	%r10, %r8
	cmovbq	%r8, %r10
	cmpq	%r10, %rcx
	cmovbq	%rcx, %r10
	cmpq	%r15, %r10
	jbe	.LBB_9ba498_452
	movq	%r10, %rcx
	leaq	(%r15,%rax), %r8
	addq	%rax, %rcx
	movq	%rcx, (%rsp)
	movq	%r8, 224(%rsp)
	cmpq	%rcx, %r8
	jae	.LBB_9ba498_452
	movq	352(%rsp), %rax
	movq	%rax, 176(%rsp)
	movq	24(%rsp), %rsi
	leaq	(%r15,%rsi), %rax
	movq	%rax, 248(%rsp)
	addq	%r15, 208(%rsp)
	movq	64(%rsp), %rcx
	movq	72(%rsp), %rbp
	leaq	(%rcx,%rbp), %rax
	movq	%rax, 384(%rsp)
	subq	192(%rsp), %rdx
	movq	%rdx, %rax
	shrq	$4, %rax
	movq	%rax, 96(%rsp)
	movq	%rdx, %r8
	andq	$-16, %r8
	movl	%edx, %eax
	andl	$15, %eax
	movq	%rax, 400(%rsp)
	movl	%edx, %eax
	andl	$8, %eax
	movq	%rax, 232(%rsp)
	movl	%edx, %r9d
	andl	$12, %r9d
	addq	%r13, %rsi
	cmpq	%rbx, %r14
	cmovbq	%r14, %rbx
	leaq	(,%r8,4), %r12
	cmpq	%rdi, %rbx
	cmovaeq	%rdi, %rbx
	cmpq	%r13, %rbx
	cmovaeq	%r13, %rbx
	subq	%rbx, %rsi
	movq	80(%rsp), %r15
	imulq	%r15, %rsi
	movq	216(%rsp), %r13
	leaq	(,%r13,4), %rax
	leaq	(%rax,%rsi,4), %r14
	subq	%rbx, %rdi
	movq	8(%rsp), %r10
	movq	%r10, %rax
	movq	224(%rsp), %r11
	imulq	%r11, %rax
	imulq	176(%rsp), %rdi
	addq	%rbp, %rdi
	movq	%r8, 72(%rsp)
	movq	%r9, 200(%rsp)
	leaq	(%r8,%r9), %rbx
	addq	%rcx, %rbx
	leaq	(%rcx,%rdi), %r8
	addq	%rdi, %rbx
	movq	192(%rsp), %rbp
	leaq	(,%rbp,4), %rcx
	leaq	(%rcx,%rax,4), %r9
	leaq	(%r12,%rsi,4), %rcx
	movq	%rdx, 64(%rsp)
	leal	(,%rdx,4), %edx
	andl	$48, %edx
	addq	%rdx, %rcx
	movq	%r12, 392(%rsp)
	leaq	(%r12,%rax,4), %rax
	addq	%rdx, %rax
	movq	48(%rsp), %rdi
	addq	%rdi, %r14
	movq	16(%rsp), %rdx
	addq	%rdx, %r9
	leaq	(%rcx,%r13,4), %rsi
	addq	%rdi, %rsi
	leaq	(%rax,%rbp,4), %rax
	addq	%rdx, %rax
	leaq	(,%r15,4), %rcx
	movq	%rcx, 168(%rsp)
	leaq	(,%r10,4), %rcx
	movq	%rcx, 240(%rsp)
	movq	400(%rsp), %r12
	movq	%r11, 32(%rsp)
	movq	%rax, %r11
	jmp	.LBB_9ba498_303
.LBB_9ba498_302:
	movq	32(%rsp), %rdi
	incq	%rdi
	movq	168(%rsp), %rcx
	addq	%rcx, %r14
	movq	240(%rsp), %rdx
	addq	%rdx, %r9
	movq	176(%rsp), %rax
	movq	24(%rsp), %r8
	addq	%rax, %r8
	addq	%rax, %rbx
	addq	%rcx, %rsi
	addq	%rdx, %r11
	movq	%rdi, 32(%rsp)
	cmpq	(%rsp), %rdi
	je	.LBB_9ba498_452
.LBB_9ba498_303:
	cmpq	$0, 96(%rsp)
	je	.LBB_9ba498_306
	movl	$8, %r13d
	movq	96(%rsp), %rbp
	.p2align	4
.LBB_9ba498_305:
	movdqu	-32(%r14,%r13,4), %xmm6
	movdqu	-16(%r14,%r13,4), %xmm7
	movq	-8(%r8,%r13), %xmm3
	punpcklbw	%xmm3, %xmm3
	movdqa	%xmm3, %xmm4
	punpckhwd	%xmm3, %xmm4
	punpcklwd	%xmm3, %xmm3
	movdqa	.LCPI_9ba498_0(%rip), %xmm0
	movdqa	%xmm6, %xmm1
	pand	%xmm0, %xmm1
	movdqa	%xmm7, %xmm2
	pand	%xmm0, %xmm2
	movdqa	%xmm3, %xmm5
	pand	%xmm0, %xmm5
	pmullw	%xmm1, %xmm5
	movdqa	%xmm4, %xmm8
	pand	%xmm0, %xmm8
	pmullw	%xmm2, %xmm8
	movdqa	.LCPI_9ba498_1(%rip), %xmm1
	paddw	%xmm1, %xmm5
	paddw	%xmm1, %xmm8
	movdqa	.LCPI_9ba498_2(%rip), %xmm2
	pmulhuw	%xmm2, %xmm8
	pmulhuw	%xmm2, %xmm5
	psrlw	$8, %xmm7
	psrlw	$8, %xmm6
	psrlw	$8, %xmm4
	pmullw	%xmm7, %xmm4
	psrlw	$8, %xmm3
	pmullw	%xmm6, %xmm3
	paddw	%xmm1, %xmm4
	paddw	%xmm1, %xmm3
	pmulhuw	%xmm2, %xmm3
	pmulhuw	%xmm2, %xmm4
	psllw	$8, %xmm4
	por	%xmm8, %xmm4
	psllw	$8, %xmm3
	por	%xmm5, %xmm3
	movdqu	-32(%r9,%r13,4), %xmm6
	paddusb	%xmm3, %xmm6
	movdqu	-16(%r9,%r13,4), %xmm7
	paddusb	%xmm4, %xmm7
	movdqu	(%r9,%r13,4), %xmm3
	movdqu	16(%r9,%r13,4), %xmm5
	movdqu	%xmm6, -32(%r9,%r13,4)
	movdqu	%xmm7, -16(%r9,%r13,4)
	movdqu	(%r14,%r13,4), %xmm8
	movdqu	16(%r14,%r13,4), %xmm9
	movq	(%r8,%r13), %xmm4
	punpcklbw	%xmm4, %xmm4
	movdqa	%xmm4, %xmm6
	punpckhwd	%xmm4, %xmm6
	punpcklwd	%xmm4, %xmm4
	movdqa	%xmm8, %xmm10
	pand	%xmm0, %xmm10
	movdqa	%xmm9, %xmm11
	pand	%xmm0, %xmm11
	movdqa	%xmm4, %xmm7
	pand	%xmm0, %xmm7
	pmullw	%xmm10, %xmm7
	pand	%xmm6, %xmm0
	pmullw	%xmm11, %xmm0
	paddw	%xmm1, %xmm7
	paddw	%xmm1, %xmm0
	pmulhuw	%xmm2, %xmm0
	pmulhuw	%xmm2, %xmm7
	psrlw	$8, %xmm9
	psrlw	$8, %xmm8
	psrlw	$8, %xmm6
	pmullw	%xmm9, %xmm6
	psrlw	$8, %xmm4
	pmullw	%xmm8, %xmm4
	paddw	%xmm1, %xmm6
	paddw	%xmm1, %xmm4
	pmulhuw	%xmm2, %xmm4
	pmulhuw	%xmm2, %xmm6
	psllw	$8, %xmm6
	por	%xmm0, %xmm6
	paddusb	%xmm5, %xmm6
	psllw	$8, %xmm4
	por	%xmm7, %xmm4
	paddusb	%xmm3, %xmm4
	movdqu	%xmm4, (%r9,%r13,4)
	movdqu	%xmm6, 16(%r9,%r13,4)
	addq	$16, %r13
	decq	%rbp
	jne	.LBB_9ba498_305
.LBB_9ba498_306:
	movq	%r8, 24(%rsp)
	movq	72(%rsp), %rax
	cmpq	64(%rsp), %rax
	je	.LBB_9ba498_302
	movq	32(%rsp), %r13
	movq	%r13, %rax
	imulq	8(%rsp), %rax
	addq	192(%rsp), %rax
	subq	224(%rsp), %r13
	movq	248(%rsp), %rcx
	leaq	(%rcx,%r13), %rdx
	imulq	80(%rsp), %rdx
	addq	216(%rsp), %rdx
	addq	208(%rsp), %r13
	imulq	176(%rsp), %r13
	addq	384(%rsp), %r13
	movq	16(%rsp), %rcx
	leaq	(%rcx,%rax,4), %rcx
	movq	48(%rsp), %rax
	leaq	(%rax,%rdx,4), %rbp
	movq	392(%rsp), %rax
	addq	%rax, %rcx
	addq	%rax, %rbp
	addq	72(%rsp), %r13
	cmpq	$0, 232(%rsp)
	jne	.LBB_9ba498_310
	testb	$4, 64(%rsp)
	jne	.LBB_9ba498_311
.LBB_9ba498_309:
	cmpl	%r12d, 200(%rsp)
	je	.LBB_9ba498_302
	jmp	.LBB_9ba498_312
.LBB_9ba498_310:
	movdqu	(%rbp), %xmm4
	movdqu	16(%rbp), %xmm5
	movq	(%r13), %xmm0
	punpcklbw	%xmm0, %xmm0
	movdqa	%xmm0, %xmm1
	punpckhwd	%xmm0, %xmm1
	punpcklwd	%xmm0, %xmm0
	movdqa	.LCPI_9ba498_0(%rip), %xmm2
	movdqa	%xmm4, %xmm6
	pand	%xmm2, %xmm6
	movdqa	%xmm5, %xmm7
	pand	%xmm2, %xmm7
	movdqa	%xmm0, %xmm3
	pand	%xmm2, %xmm3
	pmullw	%xmm6, %xmm3
	pand	%xmm1, %xmm2
	pmullw	%xmm7, %xmm2
	movdqa	.LCPI_9ba498_1(%rip), %xmm6
	paddw	%xmm6, %xmm3
	paddw	%xmm6, %xmm2
	movdqa	.LCPI_9ba498_2(%rip), %xmm7
	pmulhuw	%xmm7, %xmm2
	pmulhuw	%xmm7, %xmm3
	psrlw	$8, %xmm5
	psrlw	$8, %xmm4
	psrlw	$8, %xmm1
	pmullw	%xmm5, %xmm1
	psrlw	$8, %xmm0
	pmullw	%xmm4, %xmm0
	paddw	%xmm6, %xmm1
	paddw	%xmm6, %xmm0
	pmulhuw	%xmm7, %xmm0
	pmulhuw	%xmm7, %xmm1
	psllw	$8, %xmm1
	por	%xmm2, %xmm1
	psllw	$8, %xmm0
	por	%xmm3, %xmm0
	movdqu	(%rcx), %xmm2
	paddusb	%xmm0, %xmm2
	movdqu	16(%rcx), %xmm0
	paddusb	%xmm1, %xmm0
	movdqu	%xmm2, (%rcx)
	movdqu	%xmm0, 16(%rcx)
	testb	$4, 64(%rsp)
	je	.LBB_9ba498_309
.LBB_9ba498_311:
	movq	232(%rsp), %rax
	leal	(,%rax,4), %r15d
	movdqu	(%rbp,%r15), %xmm1
	movd	(%r13,%rax), %xmm0
	punpcklbw	%xmm0, %xmm0
	punpcklwd	%xmm0, %xmm0
	movdqa	.LCPI_9ba498_0(%rip), %xmm2
	movdqa	%xmm1, %xmm3
	pand	%xmm2, %xmm3
	pand	%xmm0, %xmm2
	pmullw	%xmm3, %xmm2
	movdqa	.LCPI_9ba498_1(%rip), %xmm3
	paddw	%xmm3, %xmm2
	movdqa	.LCPI_9ba498_2(%rip), %xmm4
	pmulhuw	%xmm4, %xmm2
	psrlw	$8, %xmm1
	psrlw	$8, %xmm0
	pmullw	%xmm1, %xmm0
	paddw	%xmm3, %xmm0
	pmulhuw	%xmm4, %xmm0
	psllw	$8, %xmm0
	por	%xmm2, %xmm0
	movdqu	(%rcx,%r15), %xmm1
	paddusb	%xmm0, %xmm1
	movdqu	%xmm1, (%rcx,%r15)
	cmpl	%r12d, 200(%rsp)
	je	.LBB_9ba498_302
.LBB_9ba498_312:
	xorl	%ecx, %ecx
	movq	200(%rsp), %r13
	.p2align	4
.LBB_9ba498_313:
	movl	(%rsi,%rcx,4), %edx
	movzbl	%dh, %eax
	movq	%rsi, %rdi
	movq	%rbx, %rsi
	movl	%edx, %ebx
	movzbl	%dl, %r10d
	shrl	$16, %edx
	shrl	$24, %ebx
	movzbl	%dl, %edx
	movl	(%r11,%rcx,4), %ebp
	movl	%ebp, %r15d
	shrl	$8, %r15d
	movq	%r11, %r8
	movl	%ebp, %r11d
	movd	%edx, %xmm0
	pinsrw	$1, %ebx, %xmm0
	movq	%rsi, %rbx
	movq	%rdi, %rsi
	pinsrw	$2, %eax, %xmm0
	pinsrw	$3, %r10d, %xmm0
	shrl	$24, %r11d
	movzbl	(%rbx,%rcx), %eax
	movd	%eax, %xmm1
	pshuflw	$0, %xmm1, %xmm1
	pmullw	%xmm0, %xmm1
	paddw	.LCPI_9ba498_3(%rip), %xmm1
	movdqa	%xmm1, %xmm0
	psrlw	$8, %xmm0
	paddw	%xmm1, %xmm0
	psrlw	$8, %xmm0
	packuswb	%xmm0, %xmm0
	movd	%ebp, %xmm1
	psrld	$16, %xmm1
	pinsrb	$1, %r11d, %xmm1
	movq	%r8, %r11
	pinsrb	$2, %r15d, %xmm1
	pinsrb	$3, %ebp, %xmm1
	paddusb	%xmm0, %xmm1
	pmovzxbd	%xmm1, %xmm0
	pmulld	.LCPI_9ba498_4(%rip), %xmm0
	pshufd	$238, %xmm0, %xmm1
	por	%xmm0, %xmm1
	pshufd	$85, %xmm1, %xmm0
	por	%xmm1, %xmm0
	movd	%xmm0, (%r8,%rcx,4)
	incq	%r13
	incq	%rcx
	cmpq	%r12, %r13
	jb	.LBB_9ba498_313
	jmp	.LBB_9ba498_302
.LBB_9ba498_314:
	movq	%rsi, 176(%rsp)
	testq	%r13, %r13
	je	.LBB_9ba498_452
	movq	%r15, %r14
	shrq	$32, %r14
	subq	%rbx, %rcx
	movabsq	$4294967296, %rbx
	leaq	(%rcx,%rbx), %r11
	leaq	(%rdx,%rbx), %rsi
	cmpq	%r11, %rsi
	movq	%rdi, 24(%rsp)
	movq	%r11, %rdi
	cmovbq	%rsi, %rdi
	xorl	%r11d, %r11d
	movl	%ebp, %esi
	movq	%rbx, %rbp
	subq	%rdi, %rbp
	cmovbq	%r11, %rbp
	orq	%rbx, %r13
	leaq	(%rcx,%rbx), %rdi
	subq	%rdi, %r13
	cmovbq	%r11, %r13
	movl	%r15d, %edi
	orq	%rbx, %rdi
	leaq	(%rdx,%rbx), %r15
	subq	%r15, %rdi
	cmovbq	%r11, %rdi
	cmpl	%r8d, %r9d
	cmovbl	%r9d, %r8d
	cmpq	%r8, %r13
	cmovaeq	%r8, %r13
	cmpq	%r13, %rdi
	cmovbq	%rdi, %r13
	leaq	(%rcx,%rbp), %r8
	addq	%r13, %rcx
	addq	%rbp, %rdx
	cmpq	%rbp, %r13
	cmovbeq	%r11, %r8
	cmovbeq	%r11, %rcx
	cmovbeq	%r11, %rdx
	subq	48(%rsp), %r10
	leaq	(%r10,%rbx), %rdi
	movq	32(%rsp), %rbp
	leaq	(%rbx,%rbp), %r15
	cmpq	%rdi, %r15
	movq	%rdi, %r13
	cmovbq	%r15, %r13
	movq	%rbx, %r9
	subq	%r13, %r9
	cmovbq	%r11, %r9
	orq	%rbx, %r12
	subq	%rdi, %r12
	cmovbq	%r11, %r12
	orq	%rbx, %r14
	subq	%r15, %r14
	cmovbq	%r11, %r14
	cmpl	%eax, %esi
	cmovbl	%esi, %eax
	cmpq	%rax, %r12
	cmovaeq	%rax, %r12
	cmpq	%r12, %r14
	cmovbq	%r14, %r12
	leaq	(%r9,%r10), %rax
	addq	%r12, %r10
	addq	%r9, %rbp
	cmpq	%r9, %r12
	cmovbeq	%r11, %rax
	cmovbeq	%r11, %r10
	cmovbeq	%r11, %rbp
	movq	176(%rsp), %rsi
	movzbl	(%rsi), %edi
	movq	%r8, 120(%rsp)
	movq	%rcx, 128(%rsp)
	movq	%rdx, 136(%rsp)
	movq	%rax, 144(%rsp)
	movq	%r10, 152(%rsp)
	movq	%rbp, 160(%rsp)
	movzbl	%dil, %r9d
	leaq	120(%rsp), %r8
	movq	16(%rsp), %rdi
	movq	(%rsp), %rsi
	movq	8(%rsp), %rdx
	movq	24(%rsp), %rcx
	callq	"pix_raster::view::blit_overlap::<#d778ccf2d5486893>"
	jmp	.LBB_9ba498_452
.LBB_9ba498_316:
	testq	%r13, %r13
	je	.LBB_9ba498_452
	subq	%rbx, %rcx
	movabsq	$4294967296, %rdx
	addq	%rdx, %rcx
	cmpq	%rdx, %rcx
	movq	%rdx, %r11
	cmovaq	%rcx, %r11
	movabsq	$-4294967296, %r8
	addq	%rdi, %rcx
	orq	%rdx, %r13
	cmpq	%rcx, %r13
	cmovaeq	%rcx, %r13
	leaq	(%r11,%r8), %rsi
	xorl	%ecx, %ecx
	cmpq	%r11, %r13
	cmovbeq	%rcx, %rsi
	movq	%rsi, 96(%rsp)
	subq	32(%rsp), %r10
	addq	%rdx, %r10
	cmpq	%rdx, %r10
	movq	%rdx, %rsi
	cmovaq	%r10, %rsi
	addq	%rax, %r10
	movq	(%rsp), %rdi
	orq	%rdx, %rdi
	cmpq	%r10, %rdi
	cmovaeq	%r10, %rdi
	leaq	(%rsi,%r8), %r12
	cmpq	%rsi, %rdi
	cmovbeq	%rcx, %r12
	jbe	.LBB_9ba498_452
	movq	%rdi, %rax
	addq	%r8, %rax
	movq	%rax, (%rsp)
	cmpq	%r12, %rax
	jbe	.LBB_9ba498_452
	movq	48(%rsp), %rax
	movl	(%rax), %edx
	shrl	$24, %edx
	addq	%r13, %r8
	xorl	%r9d, %r9d
	cmpq	%r11, %r13
	cmovaq	%r8, %r9
	movq	96(%rsp), %rax
	subq	%rax, %r9
	movq	%r9, %rcx
	movd	%edx, %xmm0
	pshufb	.LCPI_9ba498_10(%rip), %xmm0
	shrq	$4, %rcx
	movq	%rcx, 48(%rsp)
	movdqa	%xmm0, %xmm1
	pshufb	.LCPI_9ba498_8(%rip), %xmm1
	movq	%r9, %r8
	andq	$-16, %r8
	leaq	(,%r8,4), %rcx
	movq	%rcx, 176(%rsp)
	movl	%r9d, %r10d
	andl	$15, %r10d
	leal	(,%r9,4), %ecx
	movl	%ecx, %esi
	andl	$32, %esi
	movq	%rsi, 64(%rsp)
	pshufb	.LCPI_9ba498_9(%rip), %xmm0
	movdqa	.LCPI_9ba498_0(%rip), %xmm2
	pand	%xmm0, %xmm2
	psrlw	$8, %xmm0
	movl	%r9d, %esi
	andl	$12, %esi
	movq	%rsi, 80(%rsp)
	movq	%r12, %rdi
	movq	8(%rsp), %rsi
	imulq	%rsi, %rdi
	addq	%rax, %rdi
	movq	16(%rsp), %rax
	leaq	(%rax,%rdi,4), %r15
	andl	$48, %ecx
	movq	%r8, 32(%rsp)
	leaq	(%rcx,%r8,4), %rcx
	leaq	(%rcx,%rdi,4), %r13
	leaq	(,%rsi,4), %rcx
	movq	%rcx, 24(%rsp)
	addq	%rax, %r13
	jmp	.LBB_9ba498_321
.LBB_9ba498_320:
	incq	%r12
	movq	24(%rsp), %rax
	addq	%rax, %r15
	addq	%rax, %r13
	cmpq	(%rsp), %r12
	je	.LBB_9ba498_452
.LBB_9ba498_321:
	cmpq	$0, 48(%rsp)
	je	.LBB_9ba498_324
	movq	%r15, %r14
	movq	48(%rsp), %rdi
	.p2align	4
.LBB_9ba498_323:
	movdqa	.LCPI_9ba498_0(%rip), %xmm5
	movdqu	(%r14), %xmm9
	movdqu	16(%r14), %xmm8
	movdqu	32(%r14), %xmm4
	movdqu	48(%r14), %xmm3
	movdqa	%xmm8, %xmm10
	pand	%xmm5, %xmm10
	movdqa	%xmm9, %xmm11
	pand	%xmm5, %xmm11
	pmullw	%xmm1, %xmm11
	pmullw	%xmm1, %xmm10
	movdqa	.LCPI_9ba498_1(%rip), %xmm6
	paddw	%xmm6, %xmm10
	paddw	%xmm6, %xmm11
	movdqa	.LCPI_9ba498_2(%rip), %xmm7
	pmulhuw	%xmm7, %xmm11
	pmulhuw	%xmm7, %xmm10
	psrlw	$8, %xmm9
	psrlw	$8, %xmm8
	pmullw	%xmm1, %xmm8
	pmullw	%xmm1, %xmm9
	paddw	%xmm6, %xmm9
	paddw	%xmm6, %xmm8
	pmulhuw	%xmm7, %xmm8
	pmulhuw	%xmm7, %xmm9
	psllw	$8, %xmm9
	por	%xmm11, %xmm9
	psllw	$8, %xmm8
	por	%xmm10, %xmm8
	movdqu	%xmm9, (%r14)
	movdqu	%xmm8, 16(%r14)
	movdqa	%xmm3, %xmm8
	pand	%xmm5, %xmm8
	pand	%xmm4, %xmm5
	pmullw	%xmm1, %xmm5
	pmullw	%xmm1, %xmm8
	paddw	%xmm6, %xmm8
	paddw	%xmm6, %xmm5
	pmulhuw	%xmm7, %xmm5
	pmulhuw	%xmm7, %xmm8
	psrlw	$8, %xmm4
	psrlw	$8, %xmm3
	pmullw	%xmm1, %xmm3
	pmullw	%xmm1, %xmm4
	paddw	%xmm6, %xmm4
	paddw	%xmm6, %xmm3
	pmulhuw	%xmm7, %xmm3
	pmulhuw	%xmm7, %xmm4
	psllw	$8, %xmm4
	por	%xmm5, %xmm4
	psllw	$8, %xmm3
	por	%xmm8, %xmm3
	movdqu	%xmm4, 32(%r14)
	movdqu	%xmm3, 48(%r14)
	addq	$64, %r14
	decq	%rdi
	jne	.LBB_9ba498_323
.LBB_9ba498_324:
	cmpq	%r9, 32(%rsp)
	je	.LBB_9ba498_320
	movq	%r12, %rcx
	imulq	8(%rsp), %rcx
	addq	96(%rsp), %rcx
	movq	16(%rsp), %rax
	leaq	(%rax,%rcx,4), %rdi
	addq	176(%rsp), %rdi
	testb	$8, %r9b
	jne	.LBB_9ba498_328
	testb	$4, %r9b
	jne	.LBB_9ba498_329
.LBB_9ba498_327:
	cmpl	%r10d, 80(%rsp)
	jae	.LBB_9ba498_320
	jmp	.LBB_9ba498_330
.LBB_9ba498_328:
	movdqu	(%rdi), %xmm4
	movdqu	16(%rdi), %xmm3
	movdqa	.LCPI_9ba498_0(%rip), %xmm6
	movdqa	%xmm3, %xmm5
	pand	%xmm6, %xmm5
	pand	%xmm4, %xmm6
	pmullw	%xmm1, %xmm6
	pmullw	%xmm1, %xmm5
	movdqa	.LCPI_9ba498_1(%rip), %xmm7
	paddw	%xmm7, %xmm5
	paddw	%xmm7, %xmm6
	movdqa	.LCPI_9ba498_2(%rip), %xmm8
	pmulhuw	%xmm8, %xmm6
	pmulhuw	%xmm8, %xmm5
	psrlw	$8, %xmm4
	psrlw	$8, %xmm3
	pmullw	%xmm1, %xmm3
	pmullw	%xmm1, %xmm4
	paddw	%xmm7, %xmm4
	paddw	%xmm7, %xmm3
	pmulhuw	%xmm8, %xmm3
	pmulhuw	%xmm8, %xmm4
	psllw	$8, %xmm4
	por	%xmm6, %xmm4
	psllw	$8, %xmm3
	por	%xmm5, %xmm3
	movdqu	%xmm4, (%rdi)
	movdqu	%xmm3, 16(%rdi)
	testb	$4, %r9b
	je	.LBB_9ba498_327
.LBB_9ba498_329:
	movq	64(%rsp), %rax
	movdqu	(%rdi,%rax), %xmm3
	movdqa	.LCPI_9ba498_0(%rip), %xmm4
	pand	%xmm3, %xmm4
	pmullw	%xmm2, %xmm4
	movdqa	.LCPI_9ba498_1(%rip), %xmm5
	paddw	%xmm5, %xmm4
	movdqa	.LCPI_9ba498_2(%rip), %xmm6
	pmulhuw	%xmm6, %xmm4
	psrlw	$8, %xmm3
	pmullw	%xmm0, %xmm3
	paddw	%xmm5, %xmm3
	pmulhuw	%xmm6, %xmm3
	psllw	$8, %xmm3
	por	%xmm4, %xmm3
	movdqu	%xmm3, (%rdi,%rax)
	cmpl	%r10d, 80(%rsp)
	jae	.LBB_9ba498_320
.LBB_9ba498_330:
	movq	%r13, %rdi
	movq	80(%rsp), %r14
	.p2align	4
.LBB_9ba498_331:
	movl	(%rdi), %ecx
	movzbl	%ch, %ebp
	movl	%ecx, %r11d
	movzbl	%cl, %r8d
	shrl	$16, %ecx
	shrl	$24, %r11d
	movzwl	%dx, %ebx
	imull	%ebx, %r8d
	leal	128(%r8), %eax
	movzbl	%ah, %eax
	addl	%r8d, %eax
	addl	$128, %eax
	movzbl	%ah, %esi
	imull	%ebx, %ebp
	leal	128(%rbp), %eax
	movzbl	%ah, %eax
	addl	%eax, %ebp
	addl	$128, %ebp
	andl	$65280, %ebp
	movzbl	%cl, %eax
	imull	%ebx, %eax
	leal	128(%rax), %ecx
	movzbl	%ch, %ecx
	addl	%ecx, %eax
	addl	$128, %eax
	imull	%ebx, %r11d
	leal	128(%r11), %ecx
	movzbl	%ch, %ecx
	addl	%r11d, %ecx
	addl	$128, %ecx
	shll	$16, %ecx
	andl	$-16777216, %ecx
	shll	$8, %eax
	andl	$16711680, %eax
	orl	%ecx, %eax
	orl	%ebp, %eax
	orl	%esi, %eax
	movl	%eax, (%rdi)
	incq	%r14
	addq	$4, %rdi
	cmpq	%r10, %r14
	jb	.LBB_9ba498_331
	jmp	.LBB_9ba498_320
.LBB_9ba498_332:
	movq	%r11, 176(%rsp)
	testq	%r13, %r13
	je	.LBB_9ba498_452
	movq	%r15, %r14
	shrq	$32, %r14
	subq	%rbx, %rcx
	movabsq	$4294967296, %rbx
	leaq	(%rcx,%rbx), %r12
	leaq	(%rdx,%rbx), %r11
	cmpq	%r12, %r11
	movl	%esi, 96(%rsp)
	movq	%r12, %rsi
	cmovbq	%r11, %rsi
	xorl	%r8d, %r8d
	movq	%rbp, 80(%rsp)
	movq	%rbx, %rbp
	subq	%rsi, %rbp
	cmovbq	%r8, %rbp
	orq	%rbx, %r13
	subq	%r12, %r13
	cmovbq	%r8, %r13
	movl	%r15d, %esi
	orq	%rbx, %rsi
	subq	%r11, %rsi
	cmovbq	%r8, %rsi
	cmpl	%edi, %r9d
	cmovbl	%r9d, %edi
	cmpq	%rdi, %r13
	cmovaeq	%rdi, %r13
	cmpq	%r13, %rsi
	cmovbq	%rsi, %r13
	leaq	(%rcx,%rbp), %rdi
	addq	%r13, %rcx
	addq	%rbp, %rdx
	cmpq	%rbp, %r13
	cmovbeq	%r8, %rdi
	cmovbeq	%r8, %rcx
	cmovbeq	%r8, %rdx
	subq	32(%rsp), %r10
	leaq	(%r10,%rbx), %rsi
	movq	24(%rsp), %r11
	leaq	(%r11,%rbx), %r15
	cmpq	%rsi, %r15
	movq	%rsi, %r12
	cmovbq	%r15, %r12
	movq	%rbx, %r9
	subq	%r12, %r9
	cmovbq	%r8, %r9
	movq	(%rsp), %r12
	orq	%rbx, %r12
	subq	%rsi, %r12
	cmovbq	%r8, %r12
	orq	%rbx, %r14
	subq	%r15, %r14
	cmovbq	%r8, %r14
	movl	96(%rsp), %esi
	cmpl	%eax, %esi
	cmovbl	%esi, %eax
	cmpq	%rax, %r12
	cmovaeq	%rax, %r12
	cmpq	%r12, %r14
	cmovbq	%r14, %r12
	leaq	(%r9,%r10), %rax
	addq	%r12, %r10
	addq	%r9, %r11
	cmpq	%r9, %r12
	cmovbeq	%r8, %rax
	cmovbeq	%r8, %r10
	cmovbeq	%r8, %r11
	movq	176(%rsp), %rsi
	movzbl	(%rsi), %esi
	movq	%rdi, 120(%rsp)
	movq	%rcx, 128(%rsp)
	movq	%rdx, 136(%rsp)
	movq	%rax, 144(%rsp)
	movq	%r10, 152(%rsp)
	movq	%r11, 160(%rsp)
	movzbl	%sil, %r9d
	leaq	120(%rsp), %r8
	movq	16(%rsp), %rdi
	movq	8(%rsp), %rsi
	movq	48(%rsp), %rdx
	movq	80(%rsp), %rcx
	callq	"pix_raster::view::blit_overlap::<#b96d0594766ff04b>"
	jmp	.LBB_9ba498_452
.LBB_9ba498_334:
	movq	%rdx, 72(%rsp)
	movq	%r8, 80(%rsp)
	testq	%rbp, %rbp
	je	.LBB_9ba498_452
	movl	%r13d, 96(%rsp)
	movq	344(%rsp), %r13
	movq	%r13, 176(%rsp)
	movslq	360(%rsp), %r12
	movabsq	$4294967296, %rdx
	movq	%r15, %r9
	shrq	$32, %r9
	shrq	$32, %r13
	subq	%rbx, %rcx
	leaq	(%rcx,%rdx), %r14
	leaq	(%rdi,%rdx), %rbx
	cmpq	%r14, %rbx
	movq	%r14, %r8
	cmovbq	%rbx, %r8
	movq	%r12, 168(%rsp)
	leaq	(%r12,%rdx), %rbx
	movq	%rbx, 64(%rsp)
	cmpq	%r8, %rbx
	cmovbq	%rbx, %r8
	xorl	%r12d, %r12d
	movq	%rdx, %rbx
	subq	%r8, %rbx
	cmovbq	%r12, %rbx
	orq	%rdx, %rbp
	subq	%r14, %rbp
	cmovbq	%r12, %rbp
	movl	%r15d, %r15d
	orq	%rdx, %r15
	leaq	(%rdi,%rdx), %r8
	subq	%r8, %r15
	movl	176(%rsp), %r8d
	cmovbq	%r12, %r15
	orq	%rdx, %r8
	subq	64(%rsp), %r8
	movl	$0, %r14d
	movq	%r14, 200(%rsp)
	cmovbq	%r12, %r8
	cmpl	%r10d, %r11d
	cmovbl	%r11d, %r10d
	movl	368(%rsp), %r11d
	cmpl	%r10d, %r11d
	cmovbl	%r11d, %r10d
	cmpq	%r10, %rbp
	cmovaeq	%r10, %rbp
	movslq	364(%rsp), %r10
	movq	%r10, 240(%rsp)
	cmpq	%rbp, %r15
	cmovbq	%r15, %rbp
	movl	372(%rsp), %r10d
	cmpq	%rbp, %r8
	cmovbq	%r8, %rbp
	movl	$0, %r12d
	movl	$0, %r8d
	movq	%r8, 192(%rsp)
	movl	$0, %r15d
	cmpq	%rbx, %rbp
	jbe	.LBB_9ba498_337
	leaq	(%rbx,%rcx), %r8
	movq	%r8, 200(%rsp)
	addq	%rcx, %rbp
	addq	%rbx, %rdi
	movq	168(%rsp), %r15
	addq	%rbx, %r15
	movq	%rbp, %r12
	movq	%rdi, 192(%rsp)
.LBB_9ba498_337:
	subq	32(%rsp), %rax
	leaq	(%rax,%rdx), %r14
	movq	24(%rsp), %rcx
	leaq	(%rcx,%rdx), %rbx
	movq	240(%rsp), %rcx
	addq	%rdx, %rcx
	cmpq	%r14, %rbx
	movq	%r14, %r8
	cmovbq	%rbx, %r8
	cmpq	%r8, %rcx
	cmovbq	%rcx, %r8
	xorl	%r11d, %r11d
	movq	%rdx, %rdi
	subq	%r8, %rdi
	cmovbq	%r11, %rdi
	movq	(%rsp), %r8
	orq	%rdx, %r8
	subq	%r14, %r8
	cmovbq	%r11, %r8
	orq	%rdx, %r9
	subq	%rbx, %r9
	cmovbq	%r11, %r9
	orq	%rdx, %r13
	subq	%rcx, %r13
	cmovbq	%r11, %r13
	movl	96(%rsp), %r11d
	cmpl	%esi, %r11d
	cmovbl	%r11d, %esi
	cmpl	%esi, %r10d
	cmovbl	%r10d, %esi
	cmpq	%rsi, %r8
	cmovaeq	%rsi, %r8
	cmpq	%r8, %r9
	cmovbq	%r9, %r8
	cmpq	%r8, %r13
	cmovbq	%r13, %r8
	cmpq	%rdi, %r8
	jbe	.LBB_9ba498_452
	movq	%r8, %rsi
	leaq	(%rdi,%rax), %r8
	addq	%rax, %rsi
	movq	%rsi, (%rsp)
	movq	%r8, 216(%rsp)
	cmpq	%rsi, %r8
	jae	.LBB_9ba498_452
	movq	352(%rsp), %rsi
	movq	%rdx, %r8
	movq	24(%rsp), %rdx
	leaq	(%rdi,%rdx), %rax
	movq	%rax, 224(%rsp)
	addq	%rdi, 240(%rsp)
	movq	72(%rsp), %r11
	leaq	(%r11,%r15), %rax
	movq	%rax, 248(%rsp)
	movq	%r12, %r10
	subq	200(%rsp), %r10
	movq	%r10, %rax
	shrq	$4, %rax
	movq	%rax, 96(%rsp)
	movq	%r10, %r9
	andq	$-16, %r9
	movl	%r10d, %eax
	andl	$15, %eax
	movq	%rax, 392(%rsp)
	movl	%r10d, %eax
	andl	$8, %eax
	movq	%rax, 208(%rsp)
	movl	%r10d, %r12d
	andl	$12, %r12d
	addq	%r8, %rdx
	cmpq	%rbx, %r14
	cmovbq	%r14, %rbx
	leaq	(,%r9,4), %rbp
	cmpq	%rcx, %rbx
	cmovaeq	%rcx, %rbx
	cmpq	%r8, %rbx
	cmovaeq	%r8, %rbx
	subq	%rbx, %rdx
	movq	80(%rsp), %r13
	imulq	%r13, %rdx
	movq	192(%rsp), %r14
	leaq	(,%r14,4), %rax
	leaq	(%rax,%rdx,4), %r8
	subq	%rbx, %rcx
	movq	8(%rsp), %rdi
	movq	%rdi, %rax
	movq	216(%rsp), %rbx
	imulq	%rbx, %rax
	movq	%rsi, 176(%rsp)
	imulq	%rsi, %rcx
	addq	%r15, %rcx
	movq	%r9, 64(%rsp)
	movq	%r12, 232(%rsp)
	leaq	(%r9,%r12), %rsi
	addq	%r11, %rsi
	leaq	(%r11,%rcx), %r9
	addq	%rcx, %rsi
	movq	200(%rsp), %r11
	leaq	(,%r11,4), %rcx
	leaq	(%rcx,%rax,4), %r12
	leaq	(,%rdx,4), %rcx
	addq	%rbp, %rcx
	movq	%r10, 24(%rsp)
	leal	(,%r10,4), %edx
	andl	$48, %edx
	addq	%rdx, %rcx
	movq	%rbp, 384(%rsp)
	leaq	(,%rax,4), %rax
	addq	%rbp, %rax
	addq	%rdx, %rax
	movq	48(%rsp), %r10
	addq	%r10, %r8
	movq	16(%rsp), %rdx
	addq	%rdx, %r12
	leaq	(%rcx,%r14,4), %r15
	addq	%r10, %r15
	leaq	(%rax,%r11,4), %rbp
	addq	%rdx, %rbp
	leaq	(,%r13,4), %rax
	movq	%rax, 72(%rsp)
	leaq	(,%rdi,4), %rax
	movq	%rax, 168(%rsp)
	movq	392(%rsp), %rdi
	movq	%rbx, 32(%rsp)
	jmp	.LBB_9ba498_341
.LBB_9ba498_340:
	movq	32(%rsp), %r10
	incq	%r10
	movq	72(%rsp), %rcx
	addq	%rcx, %r8
	movq	168(%rsp), %rdx
	addq	%rdx, %r12
	movq	176(%rsp), %rax
	addq	%rax, %r9
	addq	%rax, %rsi
	addq	%rcx, %r15
	addq	%rdx, %rbp
	movq	%r10, 32(%rsp)
	cmpq	(%rsp), %r10
	je	.LBB_9ba498_452
.LBB_9ba498_341:
	cmpq	$0, 96(%rsp)
	je	.LBB_9ba498_344
	movl	$8, %ebx
	movq	96(%rsp), %r14
	.p2align	4
.LBB_9ba498_343:
	movdqu	-32(%r8,%rbx,4), %xmm5
	movdqu	-16(%r8,%rbx,4), %xmm3
	movq	-8(%r9,%rbx), %xmm8
	punpcklbw	%xmm8, %xmm8
	movdqa	%xmm8, %xmm7
	punpcklwd	%xmm8, %xmm7
	punpckhwd	%xmm8, %xmm8
	movdqa	.LCPI_9ba498_0(%rip), %xmm0
	movdqa	%xmm3, %xmm1
	pand	%xmm0, %xmm1
	movdqa	%xmm5, %xmm2
	pand	%xmm0, %xmm2
	movdqa	%xmm8, %xmm4
	pand	%xmm0, %xmm4
	pmullw	%xmm1, %xmm4
	movdqa	%xmm7, %xmm11
	pand	%xmm0, %xmm11
	pmullw	%xmm2, %xmm11
	movdqa	.LCPI_9ba498_1(%rip), %xmm2
	paddw	%xmm2, %xmm4
	paddw	%xmm2, %xmm11
	movdqa	.LCPI_9ba498_2(%rip), %xmm1
	pmulhuw	%xmm1, %xmm11
	pmulhuw	%xmm1, %xmm4
	psrlw	$8, %xmm5
	psrlw	$8, %xmm3
	psrlw	$8, %xmm7
	pmullw	%xmm5, %xmm7
	psrlw	$8, %xmm8
	pmullw	%xmm3, %xmm8
	paddw	%xmm2, %xmm7
	paddw	%xmm2, %xmm8
	pmulhuw	%xmm1, %xmm8
	pmulhuw	%xmm1, %xmm7
	psllw	$8, %xmm7
	psllw	$8, %xmm8
	por	%xmm4, %xmm8
	por	%xmm11, %xmm7
	pcmpeqd	%xmm5, %xmm5
	movdqu	-32(%r12,%rbx,4), %xmm9
	movdqu	-16(%r12,%rbx,4), %xmm10
	movdqa	%xmm10, %xmm3
	pxor	%xmm5, %xmm3
	movdqa	%xmm9, %xmm13
	pxor	%xmm5, %xmm13
	movdqa	.LCPI_9ba498_5(%rip), %xmm6
	pshufb	%xmm6, %xmm13
	pshufb	%xmm6, %xmm3
	movdqa	%xmm7, %xmm12
	pand	%xmm0, %xmm11
	pmullw	%xmm13, %xmm11
	psrlw	$8, %xmm7
	pmullw	%xmm13, %xmm7
	movdqa	%xmm8, %xmm13
	pand	%xmm0, %xmm4
	pmullw	%xmm3, %xmm4
	psrlw	$8, %xmm8
	pmullw	%xmm3, %xmm8
	movdqu	(%r12,%rbx,4), %xmm3
	paddw	%xmm2, %xmm4
	pmulhuw	%xmm1, %xmm4
	paddw	%xmm2, %xmm8
	pmulhuw	%xmm1, %xmm8
	psllw	$8, %xmm8
	por	%xmm4, %xmm8
	movdqu	16(%r12,%rbx,4), %xmm4
	pshufb	%xmm6, %xmm12
	pshufb	%xmm6, %xmm13
	paddw	%xmm2, %xmm11
	pmulhuw	%xmm1, %xmm11
	paddw	%xmm2, %xmm7
	pmulhuw	%xmm1, %xmm7
	psllw	$8, %xmm7
	por	%xmm11, %xmm7
	movdqa	%xmm9, %xmm11
	pand	%xmm0, %xmm11
	pmullw	%xmm12, %xmm11
	psrlw	$8, %xmm9
	pmullw	%xmm12, %xmm9
	movdqa	%xmm10, %xmm12
	pand	%xmm0, %xmm12
	pmullw	%xmm13, %xmm12
	paddw	%xmm2, %xmm11
	paddw	%xmm2, %xmm12
	pmulhuw	%xmm1, %xmm12
	pmulhuw	%xmm1, %xmm11
	psrlw	$8, %xmm10
	pmullw	%xmm13, %xmm10
	paddw	%xmm2, %xmm10
	paddw	%xmm2, %xmm9
	pmulhuw	%xmm1, %xmm9
	pmulhuw	%xmm1, %xmm10
	psllw	$8, %xmm10
	por	%xmm12, %xmm10
	paddusb	%xmm8, %xmm10
	psllw	$8, %xmm9
	por	%xmm11, %xmm9
	paddusb	%xmm7, %xmm9
	movdqu	%xmm9, -32(%r12,%rbx,4)
	movdqu	%xmm10, -16(%r12,%rbx,4)
	movdqu	(%r8,%rbx,4), %xmm12
	movdqu	16(%r8,%rbx,4), %xmm11
	movq	(%r9,%rbx), %xmm8
	punpcklbw	%xmm8, %xmm8
	movdqa	%xmm8, %xmm7
	punpcklwd	%xmm8, %xmm7
	punpckhwd	%xmm8, %xmm8
	movdqa	%xmm11, %xmm9
	pand	%xmm0, %xmm9
	movdqa	%xmm12, %xmm13
	pand	%xmm0, %xmm13
	movdqa	%xmm8, %xmm10
	pand	%xmm0, %xmm10
	pmullw	%xmm9, %xmm10
	movdqa	%xmm7, %xmm9
	pand	%xmm0, %xmm9
	pmullw	%xmm13, %xmm9
	paddw	%xmm2, %xmm10
	paddw	%xmm2, %xmm9
	pmulhuw	%xmm1, %xmm9
	pmulhuw	%xmm1, %xmm10
	psrlw	$8, %xmm12
	psrlw	$8, %xmm11
	psrlw	$8, %xmm7
	pmullw	%xmm12, %xmm7
	psrlw	$8, %xmm8
	pmullw	%xmm11, %xmm8
	paddw	%xmm2, %xmm7
	paddw	%xmm2, %xmm8
	pmulhuw	%xmm1, %xmm8
	pmulhuw	%xmm1, %xmm7
	psllw	$8, %xmm7
	psllw	$8, %xmm8
	por	%xmm10, %xmm8
	por	%xmm9, %xmm7
	movdqa	%xmm4, %xmm13
	pxor	%xmm5, %xmm13
	pxor	%xmm3, %xmm5
	pshufb	%xmm6, %xmm5
	pshufb	%xmm6, %xmm13
	movdqa	%xmm7, %xmm12
	pshufb	%xmm6, %xmm12
	movdqa	%xmm8, %xmm11
	pshufb	%xmm6, %xmm11
	pand	%xmm0, %xmm9
	pmullw	%xmm5, %xmm9
	psrlw	$8, %xmm7
	pmullw	%xmm5, %xmm7
	pand	%xmm0, %xmm10
	pmullw	%xmm13, %xmm10
	psrlw	$8, %xmm8
	pmullw	%xmm13, %xmm8
	paddw	%xmm2, %xmm10
	pmulhuw	%xmm1, %xmm10
	paddw	%xmm2, %xmm8
	pmulhuw	%xmm1, %xmm8
	psllw	$8, %xmm8
	por	%xmm10, %xmm8
	paddw	%xmm2, %xmm9
	pmulhuw	%xmm1, %xmm9
	paddw	%xmm2, %xmm7
	pmulhuw	%xmm1, %xmm7
	psllw	$8, %xmm7
	por	%xmm9, %xmm7
	movdqa	%xmm3, %xmm5
	pand	%xmm0, %xmm5
	pmullw	%xmm12, %xmm5
	psrlw	$8, %xmm3
	pmullw	%xmm12, %xmm3
	pand	%xmm4, %xmm0
	pmullw	%xmm11, %xmm0
	psrlw	$8, %xmm4
	pmullw	%xmm11, %xmm4
	paddw	%xmm2, %xmm5
	paddw	%xmm2, %xmm0
	paddw	%xmm2, %xmm4
	paddw	%xmm2, %xmm3
	pmulhuw	%xmm1, %xmm0
	pmulhuw	%xmm1, %xmm5
	pmulhuw	%xmm1, %xmm3
	pmulhuw	%xmm1, %xmm4
	psllw	$8, %xmm4
	por	%xmm0, %xmm4
	paddusb	%xmm8, %xmm4
	psllw	$8, %xmm3
	por	%xmm5, %xmm3
	paddusb	%xmm7, %xmm3
	movdqu	%xmm3, (%r12,%rbx,4)
	movdqu	%xmm4, 16(%r12,%rbx,4)
	addq	$16, %rbx
	decq	%r14
	jne	.LBB_9ba498_343
.LBB_9ba498_344:
	movq	64(%rsp), %rax
	cmpq	24(%rsp), %rax
	je	.LBB_9ba498_340
	movq	32(%rsp), %r14
	movq	%r14, %rax
	imulq	8(%rsp), %rax
	addq	200(%rsp), %rax
	subq	216(%rsp), %r14
	movq	224(%rsp), %rcx
	addq	%r14, %rcx
	imulq	80(%rsp), %rcx
	addq	192(%rsp), %rcx
	addq	240(%rsp), %r14
	imulq	176(%rsp), %r14
	addq	248(%rsp), %r14
	movq	16(%rsp), %rdx
	leaq	(%rdx,%rax,4), %rbx
	movq	48(%rsp), %rax
	leaq	(%rax,%rcx,4), %rcx
	movq	384(%rsp), %rax
	addq	%rax, %rbx
	addq	%rax, %rcx
	addq	64(%rsp), %r14
	cmpq	$0, 208(%rsp)
	jne	.LBB_9ba498_348
	testb	$4, 24(%rsp)
	jne	.LBB_9ba498_349
.LBB_9ba498_347:
	cmpl	%edi, 232(%rsp)
	je	.LBB_9ba498_340
	jmp	.LBB_9ba498_350
.LBB_9ba498_348:
	movdqu	(%rcx), %xmm6
	movdqu	16(%rcx), %xmm5
	movq	(%r14), %xmm1
	punpcklbw	%xmm1, %xmm1
	movdqa	%xmm1, %xmm0
	punpcklwd	%xmm1, %xmm0
	punpckhwd	%xmm1, %xmm1
	movdqa	.LCPI_9ba498_0(%rip), %xmm2
	movdqa	%xmm5, %xmm3
	pand	%xmm2, %xmm3
	movdqa	%xmm6, %xmm4
	pand	%xmm2, %xmm4
	movdqa	%xmm1, %xmm8
	pand	%xmm2, %xmm8
	pmullw	%xmm3, %xmm8
	movdqa	%xmm0, %xmm7
	pand	%xmm2, %xmm7
	pmullw	%xmm4, %xmm7
	movdqa	.LCPI_9ba498_1(%rip), %xmm3
	paddw	%xmm3, %xmm8
	paddw	%xmm3, %xmm7
	movdqa	.LCPI_9ba498_2(%rip), %xmm4
	pmulhuw	%xmm4, %xmm7
	pmulhuw	%xmm4, %xmm8
	psrlw	$8, %xmm6
	psrlw	$8, %xmm5
	psrlw	$8, %xmm0
	pmullw	%xmm6, %xmm0
	psrlw	$8, %xmm1
	pmullw	%xmm5, %xmm1
	paddw	%xmm3, %xmm0
	paddw	%xmm3, %xmm1
	pmulhuw	%xmm4, %xmm1
	pmulhuw	%xmm4, %xmm0
	psllw	$8, %xmm0
	psllw	$8, %xmm1
	por	%xmm8, %xmm1
	por	%xmm7, %xmm0
	movdqu	(%rbx), %xmm5
	movdqu	16(%rbx), %xmm6
	pcmpeqd	%xmm12, %xmm12
	movdqa	%xmm6, %xmm11
	pxor	%xmm12, %xmm11
	pxor	%xmm5, %xmm12
	movdqa	.LCPI_9ba498_5(%rip), %xmm13
	pshufb	%xmm13, %xmm12
	pshufb	%xmm13, %xmm11
	movdqa	%xmm0, %xmm9
	pshufb	%xmm13, %xmm9
	movdqa	%xmm1, %xmm10
	pshufb	%xmm13, %xmm10
	pand	%xmm2, %xmm7
	pand	%xmm2, %xmm8
	pmullw	%xmm11, %xmm8
	pmullw	%xmm12, %xmm7
	paddw	%xmm3, %xmm7
	paddw	%xmm3, %xmm8
	pmulhuw	%xmm4, %xmm8
	pmulhuw	%xmm4, %xmm7
	psrlw	$8, %xmm1
	psrlw	$8, %xmm0
	pmullw	%xmm12, %xmm0
	pmullw	%xmm11, %xmm1
	paddw	%xmm3, %xmm1
	paddw	%xmm3, %xmm0
	pmulhuw	%xmm4, %xmm0
	pmulhuw	%xmm4, %xmm1
	psllw	$8, %xmm1
	por	%xmm8, %xmm1
	psllw	$8, %xmm0
	por	%xmm7, %xmm0
	movdqa	%xmm5, %xmm7
	pand	%xmm2, %xmm7
	pand	%xmm6, %xmm2
	pmullw	%xmm10, %xmm2
	pmullw	%xmm9, %xmm7
	paddw	%xmm3, %xmm7
	paddw	%xmm3, %xmm2
	pmulhuw	%xmm4, %xmm2
	pmulhuw	%xmm4, %xmm7
	psrlw	$8, %xmm6
	psrlw	$8, %xmm5
	pmullw	%xmm9, %xmm5
	pmullw	%xmm10, %xmm6
	paddw	%xmm3, %xmm6
	paddw	%xmm3, %xmm5
	pmulhuw	%xmm4, %xmm5
	pmulhuw	%xmm4, %xmm6
	psllw	$8, %xmm6
	por	%xmm2, %xmm6
	paddusb	%xmm1, %xmm6
	psllw	$8, %xmm5
	por	%xmm7, %xmm5
	paddusb	%xmm0, %xmm5
	movdqu	%xmm5, (%rbx)
	movdqu	%xmm6, 16(%rbx)
	testb	$4, 24(%rsp)
	je	.LBB_9ba498_347
.LBB_9ba498_349:
	movq	208(%rsp), %rax
	leal	(,%rax,4), %r13d
	movdqu	(%rcx,%r13), %xmm4
	movd	(%r14,%rax), %xmm0
	punpcklbw	%xmm0, %xmm0
	punpcklwd	%xmm0, %xmm0
	movdqa	.LCPI_9ba498_0(%rip), %xmm1
	movdqa	%xmm4, %xmm2
	pand	%xmm1, %xmm2
	movdqa	%xmm0, %xmm6
	pand	%xmm1, %xmm6
	pmullw	%xmm2, %xmm6
	movdqa	.LCPI_9ba498_1(%rip), %xmm2
	paddw	%xmm2, %xmm6
	movdqa	.LCPI_9ba498_2(%rip), %xmm3
	pmulhuw	%xmm3, %xmm6
	psrlw	$8, %xmm4
	psrlw	$8, %xmm0
	pmullw	%xmm4, %xmm0
	paddw	%xmm2, %xmm0
	pmulhuw	%xmm3, %xmm0
	psllw	$8, %xmm0
	por	%xmm6, %xmm0
	movdqu	(%rbx,%r13), %xmm5
	pcmpeqd	%xmm4, %xmm4
	movdqa	.LCPI_9ba498_6(%rip), %xmm7
	movdqa	%xmm5, %xmm8
	pshufb	%xmm7, %xmm8
	pxor	%xmm8, %xmm4
	pand	%xmm1, %xmm6
	pandn	%xmm1, %xmm8
	pmullw	%xmm6, %xmm8
	paddw	%xmm2, %xmm8
	pmulhuw	%xmm3, %xmm8
	movdqa	%xmm0, %xmm6
	psrlw	$8, %xmm6
	psrlw	$8, %xmm4
	pmullw	%xmm6, %xmm4
	paddw	%xmm2, %xmm4
	pmulhuw	%xmm3, %xmm4
	psllw	$8, %xmm4
	por	%xmm8, %xmm4
	pshufb	%xmm7, %xmm0
	movdqa	%xmm5, %xmm6
	pand	%xmm1, %xmm6
	pand	%xmm0, %xmm1
	pmullw	%xmm6, %xmm1
	paddw	%xmm2, %xmm1
	pmulhuw	%xmm3, %xmm1
	psrlw	$8, %xmm5
	psrlw	$8, %xmm0
	pmullw	%xmm5, %xmm0
	paddw	%xmm2, %xmm0
	pmulhuw	%xmm3, %xmm0
	psllw	$8, %xmm0
	por	%xmm1, %xmm0
	paddusb	%xmm4, %xmm0
	movdqu	%xmm0, (%rbx,%r13)
	cmpl	%edi, 232(%rsp)
	je	.LBB_9ba498_340
.LBB_9ba498_350:
	xorl	%ecx, %ecx
	movq	232(%rsp), %r11
	.p2align	4
.LBB_9ba498_351:
	movl	(%r15,%rcx,4), %eax
	movzbl	%ah, %edx
	movzbl	%al, %r14d
	movq	%rdi, %r10
	movl	%eax, %edi
	shrl	$16, %edi
	shrl	$24, %eax
	movzbl	%dil, %edi
	movd	%edi, %xmm0
	pinsrw	$1, %eax, %xmm0
	movl	(%rbp,%rcx,4), %ebx
	movzbl	%bh, %edi
	movzbl	%bl, %r13d
	movl	%ebx, %eax
	shrl	$16, %eax
	shrl	$24, %ebx
	movzbl	%al, %eax
	movd	%eax, %xmm1
	pinsrw	$1, %ebx, %xmm1
	xorl	$255, %ebx
	movd	%ebx, %xmm2
	pinsrw	$2, %edx, %xmm0
	pinsrw	$3, %r14d, %xmm0
	movzbl	(%rsi,%rcx), %eax
	movd	%eax, %xmm3
	pshuflw	$0, %xmm3, %xmm3
	pmullw	%xmm0, %xmm3
	movdqa	.LCPI_9ba498_3(%rip), %xmm0
	paddw	%xmm0, %xmm3
	movdqa	%xmm3, %xmm4
	psrlw	$8, %xmm4
	paddw	%xmm3, %xmm4
	psrlw	$8, %xmm4
	pshuflw	$0, %xmm2, %xmm2
	pmullw	%xmm4, %xmm2
	paddw	%xmm0, %xmm2
	movdqa	%xmm2, %xmm3
	psrlw	$8, %xmm3
	paddw	%xmm2, %xmm3
	psrlw	$8, %xmm3
	packuswb	%xmm3, %xmm3
	pinsrw	$2, %edi, %xmm1
	movq	%r10, %rdi
	pinsrw	$3, %r13d, %xmm1
	pshuflw	$85, %xmm4, %xmm2
	pmullw	%xmm2, %xmm1
	paddw	%xmm0, %xmm1
	movdqa	%xmm1, %xmm0
	psrlw	$8, %xmm0
	paddw	%xmm1, %xmm0
	psrlw	$8, %xmm0
	packuswb	%xmm0, %xmm0
	paddusb	%xmm3, %xmm0
	pmovzxbd	%xmm0, %xmm0
	pmulld	.LCPI_9ba498_4(%rip), %xmm0
	pshufd	$238, %xmm0, %xmm1
	por	%xmm0, %xmm1
	pshufd	$85, %xmm1, %xmm0
	por	%xmm1, %xmm0
	movd	%xmm0, (%rbp,%rcx,4)
	incq	%r11
	incq	%rcx
	cmpq	%r10, %r11
	jb	.LBB_9ba498_351
	jmp	.LBB_9ba498_340
.LBB_9ba498_352:
	testq	%r13, %r13
	je	.LBB_9ba498_452
	subq	%r14, %r10
	movabsq	$4294967296, %r8
	addq	%r8, %r10
	cmpq	%r8, %r10
	movq	%r8, %rdi
	cmovaq	%r10, %rdi
	movabsq	$-4294967296, %rdx
	addq	%rcx, %r10
	orq	%r8, %r13
	cmpq	%r10, %r13
	cmovaeq	%r10, %r13
	leaq	(%rdi,%rdx), %rsi
	xorl	%ecx, %ecx
	cmpq	%rdi, %r13
	cmovbeq	%rcx, %rsi
	subq	32(%rsp), %rax
	addq	%r8, %rax
	cmpq	%r8, %rax
	movq	%r8, %r10
	cmovaq	%rax, %r10
	addq	%r9, %rax
	movq	(%rsp), %r9
	orq	%r8, %r9
	cmpq	%rax, %r9
	cmovaeq	%rax, %r9
	leaq	(%r10,%rdx), %rax
	cmpq	%r10, %r9
	cmovbeq	%rcx, %rax
	jbe	.LBB_9ba498_452
	movq	%r9, %r8
	addq	%rdx, %r8
	movq	%r8, (%rsp)
	cmpq	%rax, %r8
	jbe	.LBB_9ba498_452
	addq	%r13, %rdx
	xorl	%r8d, %r8d
	cmpq	%rdi, %r13
	cmovaq	%rdx, %r8
	movq	48(%rsp), %rcx
	movl	(%rcx), %ecx
	movq	%r8, %rdx
	subq	%rsi, %rdx
	cmpq	$33, %rdx
	jb	.LBB_9ba498_755
	movq	%rdx, %rdi
	shrq	$4, %rdi
	movq	%rdx, %r8
	andq	$-16, %r8
	leaq	(,%r8,4), %r13
	movl	%edx, %r9d
	andl	$15, %r9d
	movq	%r9, 48(%rsp)
	leal	(,%rdx,4), %r9d
	andl	$32, %r9d
	movq	%r9, 24(%rsp)
	movl	%edx, %r9d
	andl	$12, %r9d
	movq	%r9, 32(%rsp)
	movl	%edx, %r9d
	andl	$3, %r9d
	movd	%ecx, %xmm0
	pshufd	$0, %xmm0, %xmm0
	movq	%rdi, %r14
	andq	$-2, %r14
	leal	3(%r9), %r15d
	andl	$-4, %r15d
	decq	%r9
	movq	%r9, %xmm1
	pshufd	$68, %xmm1, %xmm1
	movq	%rax, %r9
	movq	8(%rsp), %r11
	imulq	%r11, %r9
	leaq	(%rsi,%r9), %r10
	leaq	(%r12,%r10,4), %rbx
	addq	$112, %rbx
	leaq	(,%r9,4), %r9
	addq	%r13, %r9
	movl	%edx, %r10d
	andl	$12, %r10d
	leaq	(%r9,%r10,4), %r9
	leaq	(,%r11,4), %rbp
	leaq	(%r9,%rsi,4), %r9
	addq	%r12, %r9
	addq	$12, %r9
	jmp	.LBB_9ba498_358
.LBB_9ba498_357:
	incq	%rax
	addq	%rbp, %rbx
	addq	%rbp, %r9
	cmpq	(%rsp), %rax
	je	.LBB_9ba498_452
.LBB_9ba498_358:
	movq	%rax, %r10
	imulq	8(%rsp), %r10
	addq	%rsi, %r10
	leaq	(%r12,%r10,4), %r11
	xorl	%r10d, %r10d
	cmpq	$1, %rdi
	je	.LBB_9ba498_362
	movq	%rbx, %r13
	.p2align	4
.LBB_9ba498_360:
	movdqu	%xmm0, -112(%r13)
	movdqu	%xmm0, -96(%r13)
	movdqu	%xmm0, -80(%r13)
	movdqu	%xmm0, -64(%r13)
	movdqu	%xmm0, -48(%r13)
	movdqu	%xmm0, -32(%r13)
	movdqu	%xmm0, -16(%r13)
	movdqu	%xmm0, (%r13)
	addq	$2, %r10
	subq	$-128, %r13
	cmpq	%r10, %r14
	jne	.LBB_9ba498_360
	testb	$1, %dil
	je	.LBB_9ba498_363
.LBB_9ba498_362:
	shlq	$6, %r10
	movdqu	%xmm0, (%r11,%r10)
	movdqu	%xmm0, 16(%r11,%r10)
	movdqu	%xmm0, 32(%r11,%r10)
	movdqu	%xmm0, 48(%r11,%r10)
.LBB_9ba498_363:
	cmpq	%rdx, %r8
	je	.LBB_9ba498_357
	leaq	(,%r8,4), %r10
	addq	%r10, %r11
	testb	$8, %dl
	jne	.LBB_9ba498_367
	testb	$4, %dl
	jne	.LBB_9ba498_368
.LBB_9ba498_366:
	movq	32(%rsp), %r10
	cmpl	48(%rsp), %r10d
	jae	.LBB_9ba498_357
	jmp	.LBB_9ba498_369
.LBB_9ba498_367:
	movdqu	%xmm0, (%r11)
	movdqu	%xmm0, 16(%r11)
	testb	$4, %dl
	je	.LBB_9ba498_366
.LBB_9ba498_368:
	movq	24(%rsp), %r10
	movdqu	%xmm0, (%r11,%r10)
	movq	32(%rsp), %r10
	cmpl	48(%rsp), %r10d
	jae	.LBB_9ba498_357
.LBB_9ba498_369:
	xorl	%r11d, %r11d
	jmp	.LBB_9ba498_371
	.p2align	4
.LBB_9ba498_370:
	addq	$4, %r11
	cmpq	%r11, %r15
	je	.LBB_9ba498_357
.LBB_9ba498_371:
	movq	%r11, %xmm4
	movdqa	.LCPI_9ba498_15(%rip), %xmm3
	movdqa	%xmm1, %xmm2
	pxor	%xmm3, %xmm2
	movdqa	%xmm4, %xmm5
	pxor	%xmm3, %xmm5
	pcmpgtq	%xmm2, %xmm5
	movd	%xmm5, %r10d
	notl	%r10d
	testb	$1, %r10b
	je	.LBB_9ba498_373
	movl	%ecx, -12(%r9,%r11,4)
.LBB_9ba498_373:
	pshufd	$68, %xmm4, %xmm4
	movdqa	.LCPI_9ba498_14(%rip), %xmm6
	por	%xmm4, %xmm6
	pxor	%xmm3, %xmm6
	pcmpgtq	%xmm2, %xmm6
	pcmpeqd	%xmm5, %xmm5
	pxor	%xmm5, %xmm6
	pextrb	$8, %xmm6, %r10d
	testb	$1, %r10b
	je	.LBB_9ba498_375
	movl	%ecx, -8(%r9,%r11,4)
.LBB_9ba498_375:
	por	.LCPI_9ba498_13(%rip), %xmm4
	pxor	%xmm3, %xmm4
	pcmpgtq	%xmm2, %xmm4
	pxor	%xmm4, %xmm5
	pextrb	$0, %xmm5, %r10d
	testb	$1, %r10b
	je	.LBB_9ba498_377
	movl	%ecx, -4(%r9,%r11,4)
.LBB_9ba498_377:
	pcmpeqd	%xmm2, %xmm2
	pxor	%xmm2, %xmm4
	pextrb	$8, %xmm4, %r10d
	testb	$1, %r10b
	je	.LBB_9ba498_370
	movl	%ecx, (%r9,%r11,4)
	jmp	.LBB_9ba498_370
.LBB_9ba498_379:
	testq	%r13, %r13
	je	.LBB_9ba498_452
	subq	%rbx, %rcx
	movabsq	$4294967296, %rdi
	addq	%rdi, %rcx
	cmpq	%rdi, %rcx
	movq	%rdi, %rsi
	cmovaq	%rcx, %rsi
	movabsq	$-4294967296, %rdx
	addq	%r8, %rcx
	orq	%rdi, %r13
	cmpq	%rcx, %r13
	cmovaeq	%rcx, %r13
	leaq	(%rsi,%rdx), %r8
	xorl	%ecx, %ecx
	cmpq	%rsi, %r13
	cmovbeq	%rcx, %r8
	subq	48(%rsp), %r10
	addq	%rdi, %r10
	cmpq	%rdi, %r10
	movq	%rdi, %r9
	cmovaq	%r10, %r9
	addq	%rax, %r10
	orq	%rdi, %r12
	cmpq	%r10, %r12
	cmovaeq	%r10, %r12
	leaq	(%r9,%rdx), %rax
	cmpq	%r9, %r12
	cmovbeq	%rcx, %rax
	jbe	.LBB_9ba498_452
	addq	%rdx, %r12
	cmpq	%rax, %r12
	jbe	.LBB_9ba498_452
	addq	%r13, %rdx
	xorl	%ecx, %ecx
	cmpq	%rsi, %r13
	cmovaq	%rdx, %rcx
	subq	%r8, %rcx
	je	.LBB_9ba498_452
	movq	8(%rsp), %rdx
	movl	(%rdx), %edx
	movq	%rcx, %rsi
	andq	$-8, %rsi
	movd	%edx, %xmm0
	pshufd	$0, %xmm0, %xmm0
	movq	%rax, %r9
	movq	(%rsp), %r11
	imulq	%r11, %r9
	leaq	(,%r8,4), %rdi
	leaq	(%rdi,%r9,4), %rdi
	movq	16(%rsp), %r10
	addq	%r10, %rdi
	addq	$16, %rdi
	shlq	$2, %r11
	addq	%r8, %r9
	leaq	(%r10,%r9,4), %r8
	jmp	.LBB_9ba498_385
.LBB_9ba498_384:
	incq	%rax
	addq	%r11, %rdi
	addq	%r11, %r8
	cmpq	%r12, %rax
	je	.LBB_9ba498_452
.LBB_9ba498_385:
	xorl	%r9d, %r9d
	cmpq	$8, %rcx
	jb	.LBB_9ba498_388
	.p2align	4
.LBB_9ba498_386:
	movdqu	%xmm0, -16(%rdi,%r9,4)
	movdqu	%xmm0, (%rdi,%r9,4)
	addq	$8, %r9
	cmpq	%r9, %rsi
	jne	.LBB_9ba498_386
	movq	%rsi, %r9
	cmpq	%rsi, %rcx
	je	.LBB_9ba498_384
	.p2align	4
.LBB_9ba498_388:
	movl	%edx, (%r8,%r9,4)
	incq	%r9
	cmpq	%r9, %rcx
	jne	.LBB_9ba498_388
	jmp	.LBB_9ba498_384
.LBB_9ba498_389:
	movq	%rsi, 64(%rsp)
	testq	%r13, %r13
	je	.LBB_9ba498_452
	movq	%r8, %r11
	shrq	$32, %r11
	subq	%r14, %r10
	movq	%rbx, 80(%rsp)
	movabsq	$4294967296, %rbx
	leaq	(%r10,%rbx), %r12
	leaq	(%rbx,%rbp), %rsi
	cmpq	%r12, %rsi
	movl	%r15d, 96(%rsp)
	movq	%r12, %r15
	cmovbq	%rsi, %r15
	xorl	%edi, %edi
	movq	%rbx, %r14
	subq	%r15, %r14
	cmovbq	%rdi, %r14
	orq	%rbx, %r13
	subq	%r12, %r13
	cmovbq	%rdi, %r13
	movl	%r8d, %r8d
	orq	%rbx, %r8
	subq	%rsi, %r8
	cmovbq	%rdi, %r8
	cmpl	%ecx, %edx
	cmovbl	%edx, %ecx
	cmpq	%rcx, %r13
	cmovaeq	%rcx, %r13
	cmpq	%r13, %r8
	cmovbq	%r8, %r13
	leaq	(%r14,%r10), %rcx
	addq	%r13, %r10
	addq	%r14, %rbp
	cmpq	%r14, %r13
	cmovbeq	%rdi, %rcx
	cmovbeq	%rdi, %r10
	cmovbeq	%rdi, %rbp
	subq	32(%rsp), %rax
	leaq	(%rax,%rbx), %r8
	movq	24(%rsp), %rsi
	leaq	(%rsi,%rbx), %r14
	cmpq	%r8, %r14
	movq	%r8, %r15
	cmovbq	%r14, %r15
	movq	%rbx, %rdx
	subq	%r15, %rdx
	cmovbq	%rdi, %rdx
	movq	(%rsp), %r15
	orq	%rbx, %r15
	subq	%r8, %r15
	cmovbq	%rdi, %r15
	orq	%rbx, %r11
	subq	%r14, %r11
	cmovbq	%rdi, %r11
	movl	96(%rsp), %r8d
	cmpl	%r9d, %r8d
	cmovbl	%r8d, %r9d
	cmpq	%r9, %r15
	cmovaeq	%r9, %r15
	cmpq	%r15, %r11
	cmovbq	%r11, %r15
	leaq	(%rdx,%rax), %r8
	addq	%r15, %rax
	addq	%rdx, %rsi
	cmpq	%rdx, %r15
	cmovbeq	%rdi, %r8
	cmovbeq	%rdi, %rax
	cmovbeq	%rdi, %rsi
	movq	64(%rsp), %rdx
	movzbl	(%rdx), %edx
	movq	%rcx, 120(%rsp)
	movq	%r10, 128(%rsp)
	movq	%rbp, 136(%rsp)
	movq	%r8, 144(%rsp)
	movq	%rax, 152(%rsp)
	movq	%rsi, 160(%rsp)
	movzbl	%dl, %r9d
	leaq	120(%rsp), %r8
	movq	16(%rsp), %rdi
	movq	8(%rsp), %rsi
	movq	48(%rsp), %rdx
	movq	80(%rsp), %rcx
	callq	"pix_raster::view::blit_overlap::<#c5504568367a188d>"
	jmp	.LBB_9ba498_452
.LBB_9ba498_391:
	testq	%r13, %r13
	je	.LBB_9ba498_452
	subq	%rbx, %rcx
	movabsq	$4294967296, %r9
	addq	%r9, %rcx
	cmpq	%r9, %rcx
	movq	%r9, %rsi
	cmovaq	%rcx, %rsi
	movabsq	$-4294967296, %rdx
	addq	%rdi, %rcx
	orq	%r9, %r13
	cmpq	%rcx, %r13
	cmovaeq	%rcx, %r13
	leaq	(%rsi,%rdx), %r8
	xorl	%ecx, %ecx
	cmpq	%rsi, %r13
	cmovbeq	%rcx, %r8
	subq	32(%rsp), %r10
	addq	%r9, %r10
	cmpq	%r9, %r10
	movq	%r9, %rdi
	cmovaq	%r10, %rdi
	addq	%rax, %r10
	movq	(%rsp), %r11
	orq	%r9, %r11
	cmpq	%r10, %r11
	cmovaeq	%r10, %r11
	leaq	(%rdi,%rdx), %rax
	cmpq	%rdi, %r11
	cmovbeq	%rcx, %rax
	jbe	.LBB_9ba498_452
	movq	%r11, %r9
	addq	%rdx, %r9
	cmpq	%rax, %r9
	jbe	.LBB_9ba498_452
	addq	%r13, %rdx
	xorl	%ecx, %ecx
	cmpq	%rsi, %r13
	cmovaq	%rdx, %rcx
	subq	%r8, %rcx
	je	.LBB_9ba498_452
	movq	%r9, %rbx
	movq	48(%rsp), %rdx
	movl	(%rdx), %edx
	movq	%rcx, %rsi
	andq	$-8, %rsi
	movd	%edx, %xmm0
	pshufd	$0, %xmm0, %xmm0
	movq	%rax, %r9
	movq	8(%rsp), %r11
	imulq	%r11, %r9
	leaq	(,%r8,4), %rdi
	leaq	(%rdi,%r9,4), %rdi
	movq	16(%rsp), %r10
	addq	%r10, %rdi
	addq	$16, %rdi
	shlq	$2, %r11
	addq	%r8, %r9
	leaq	(%r10,%r9,4), %r8
	jmp	.LBB_9ba498_397
.LBB_9ba498_396:
	incq	%rax
	addq	%r11, %rdi
	addq	%r11, %r8
	cmpq	%rbx, %rax
	je	.LBB_9ba498_452
.LBB_9ba498_397:
	xorl	%r9d, %r9d
	cmpq	$8, %rcx
	jb	.LBB_9ba498_400
	.p2align	4
.LBB_9ba498_398:
	movdqu	%xmm0, -16(%rdi,%r9,4)
	movdqu	%xmm0, (%rdi,%r9,4)
	addq	$8, %r9
	cmpq	%r9, %rsi
	jne	.LBB_9ba498_398
	movq	%rsi, %r9
	cmpq	%rsi, %rcx
	je	.LBB_9ba498_396
	.p2align	4
.LBB_9ba498_400:
	movl	%edx, (%r8,%r9,4)
	incq	%r9
	cmpq	%r9, %rcx
	jne	.LBB_9ba498_400
	jmp	.LBB_9ba498_396
.LBB_9ba498_401:
	testq	%r12, %r12
	je	.LBB_9ba498_452
	movq	296(%rsp), %r15
	movslq	312(%rsp), %rdi
	movq	%r15, %r9
	shrq	$32, %r9
	subq	%r14, %rcx
	movabsq	$4294967296, %r11
	leaq	(%rcx,%r11), %rbp
	leaq	(%rdi,%r11), %r8
	cmpq	%rbp, %r8
	cmovbq	%r8, %rbp
	xorl	%r8d, %r8d
	movq	%r11, %r14
	subq	%rbp, %r14
	cmovbq	%r8, %r14
	orq	%r11, %r12
	leaq	(%rcx,%r11), %rbp
	subq	%rbp, %r12
	movl	%r15d, %r15d
	cmovbq	%r8, %r12
	orq	%r11, %r15
	leaq	(%rdi,%r11), %rbp
	subq	%rbp, %r15
	cmovbq	%r8, %r15
	movl	320(%rsp), %ebp
	cmpl	%r10d, %ebp
	cmovbl	%ebp, %r10d
	cmpq	%r10, %r12
	cmovaeq	%r10, %r12
	cmpq	%r12, %r15
	cmovbq	%r15, %r12
	leaq	(%r14,%rcx), %r10
	addq	%r12, %rcx
	addq	%r14, %rdi
	cmpq	%r14, %r12
	cmovbeq	%r8, %r10
	cmovbeq	%r8, %rcx
	cmovbeq	%r8, %rdi
	movslq	316(%rsp), %r14
	subq	%rbx, %rax
	leaq	(%rax,%r11), %r15
	leaq	(%r14,%r11), %r12
	cmpq	%r15, %r12
	movq	%r15, %rbp
	cmovbq	%r12, %rbp
	movq	%r11, %rbx
	subq	%rbp, %rbx
	cmovbq	%r8, %rbx
	orq	%r11, %r13
	subq	%r15, %r13
	cmovbq	%r8, %r13
	orq	%r11, %r9
	subq	%r12, %r9
	cmovbq	%r8, %r9
	movl	324(%rsp), %r11d
	cmpl	%esi, %r11d
	cmovbl	%r11d, %esi
	cmpq	%rsi, %r13
	cmovaeq	%rsi, %r13
	cmpq	%r13, %r9
	cmovbq	%r9, %r13
	leaq	(%rbx,%rax), %rsi
	addq	%r13, %rax
	addq	%rbx, %r14
	cmpq	%rbx, %r13
	cmovbeq	%r8, %rsi
	cmovbeq	%r8, %rax
	cmovbeq	%r8, %r14
	movq	%r10, 120(%rsp)
	movq	%rcx, 128(%rsp)
	movq	%rdi, 136(%rsp)
	movq	%rsi, 144(%rsp)
	movq	%rax, 152(%rsp)
	movq	%r14, 160(%rsp)
	movq	304(%rsp), %rcx
	leaq	120(%rsp), %r8
	movq	16(%rsp), %rdi
	movq	(%rsp), %rsi
	callq	"pix_raster::view::blit_overlap::<#93a319759576dea8>"
	jmp	.LBB_9ba498_452
.LBB_9ba498_403:
	movq	%rsi, 72(%rsp)
	testq	%r13, %r13
	je	.LBB_9ba498_452
	movq	%r15, %r14
	shrq	$32, %r14
	subq	%rbx, %rcx
	movabsq	$4294967296, %rbx
	movq	%rax, %rsi
	leaq	(%rcx,%rbx), %rax
	leaq	(%rdx,%rbx), %r11
	cmpq	%rax, %r11
	movl	%r8d, 96(%rsp)
	movq	%rax, %r8
	cmovbq	%r11, %r8
	xorl	%r11d, %r11d
	movq	%rbp, 80(%rsp)
	movq	%rbx, %rbp
	subq	%r8, %rbp
	cmovbq	%r11, %rbp
	orq	%rbx, %r13
	subq	%rax, %r13
	cmovbq	%r11, %r13
	movl	%r15d, %r8d
	orq	%rbx, %r8
	leaq	(%rdx,%rbx), %r15
	subq	%r15, %r8
	cmovbq	%r11, %r8
	cmpl	%r9d, %r10d
	cmovbl	%r10d, %r9d
	cmpq	%r9, %r13
	cmovaeq	%r9, %r13
	cmpq	%r13, %r8
	cmovbq	%r8, %r13
	leaq	(%rcx,%rbp), %r10
	addq	%r13, %rcx
	addq	%rbp, %rdx
	cmpq	%rbp, %r13
	cmovbeq	%r11, %r10
	cmovbeq	%r11, %rcx
	cmovbeq	%r11, %rdx
	subq	32(%rsp), %rdi
	leaq	(%rdi,%rbx), %r8
	movq	24(%rsp), %rbp
	leaq	(%rbx,%rbp), %r15
	cmpq	%r8, %r15
	movq	%r8, %r13
	cmovbq	%r15, %r13
	movq	%rbx, %r9
	subq	%r13, %r9
	cmovbq	%r11, %r9
	movq	(%rsp), %r13
	orq	%rbx, %r13
	subq	%r8, %r13
	cmovbq	%r11, %r13
	orq	%rbx, %r14
	subq	%r15, %r14
	cmovbq	%r11, %r14
	movl	96(%rsp), %eax
	cmpl	%esi, %eax
	cmovbl	%eax, %esi
	cmpq	%rsi, %r13
	cmovaeq	%rsi, %r13
	cmpq	%r13, %r14
	cmovbq	%r14, %r13
	leaq	(%r9,%rdi), %rax
	addq	%r13, %rdi
	addq	%r9, %rbp
	cmpq	%r9, %r13
	cmovbeq	%r11, %rax
	cmovbeq	%r11, %rdi
	cmovbeq	%r11, %rbp
	movq	72(%rsp), %rsi
	movl	(%rsi), %r9d
	movq	%r10, 120(%rsp)
	movq	%rcx, 128(%rsp)
	movq	%rdx, 136(%rsp)
	movq	%rax, 144(%rsp)
	movq	%rdi, 152(%rsp)
	movq	%rbp, 160(%rsp)
	leaq	120(%rsp), %r8
	movq	%r12, %rdi
	movq	8(%rsp), %rsi
	movq	48(%rsp), %rdx
	movq	80(%rsp), %rcx
	callq	"pix_raster::view::blit_overlap::<#82740d74a8936f70>"
	jmp	.LBB_9ba498_452
.LBB_9ba498_405:
	testq	%r13, %r13
	je	.LBB_9ba498_452
	movq	%r15, %r14
	shrq	$32, %r14
	subq	%rbx, %rcx
	movabsq	$4294967296, %rbx
	movl	%esi, 96(%rsp)
	leaq	(%rcx,%rbx), %rsi
	leaq	(%rdx,%rbx), %r8
	cmpq	%rsi, %r8
	movq	%rsi, %r12
	cmovbq	%r8, %r12
	xorl	%r11d, %r11d
	movq	%rbp, 80(%rsp)
	movq	%rbx, %rbp
	subq	%r12, %rbp
	cmovbq	%r11, %rbp
	orq	%rbx, %r13
	subq	%rsi, %r13
	cmovbq	%r11, %r13
	movl	%r15d, %esi
	orq	%rbx, %rsi
	subq	%r8, %rsi
	cmovbq	%r11, %rsi
	cmpl	%edi, %r9d
	cmovbl	%r9d, %edi
	cmpq	%rdi, %r13
	cmovaeq	%rdi, %r13
	cmpq	%r13, %rsi
	cmovbq	%rsi, %r13
	leaq	(%rcx,%rbp), %rdi
	addq	%r13, %rcx
	addq	%rbp, %rdx
	cmpq	%rbp, %r13
	cmovbeq	%r11, %rdi
	cmovbeq	%r11, %rcx
	cmovbeq	%r11, %rdx
	subq	32(%rsp), %r10
	leaq	(%r10,%rbx), %rsi
	movq	24(%rsp), %r8
	leaq	(%r8,%rbx), %r15
	cmpq	%rsi, %r15
	movq	%rsi, %r12
	cmovbq	%r15, %r12
	movq	%rbx, %r9
	subq	%r12, %r9
	cmovbq	%r11, %r9
	movq	(%rsp), %r12
	orq	%rbx, %r12
	subq	%rsi, %r12
	cmovbq	%r11, %r12
	orq	%rbx, %r14
	subq	%r15, %r14
	cmovbq	%r11, %r14
	movl	96(%rsp), %esi
	cmpl	%eax, %esi
	cmovbl	%esi, %eax
	cmpq	%rax, %r12
	cmovaeq	%rax, %r12
	cmpq	%r12, %r14
	cmovbq	%r14, %r12
	leaq	(%r9,%r10), %rax
	addq	%r12, %r10
	addq	%r9, %r8
	cmpq	%r9, %r12
	cmovbeq	%r11, %rax
	cmovbeq	%r11, %r10
	cmovbeq	%r11, %r8
	movq	%rdi, 120(%rsp)
	movq	%rcx, 128(%rsp)
	movq	%rdx, 136(%rsp)
	movq	%rax, 144(%rsp)
	movq	%r10, 152(%rsp)
	movq	%r8, 160(%rsp)
	jmp	.LBB_9ba498_450
.LBB_9ba498_407:
	testq	%r13, %r13
	je	.LBB_9ba498_452
	subq	%r14, %r10
	movabsq	$4294967296, %rdi
	addq	%rdi, %r10
	cmpq	%rdi, %r10
	movq	%rdi, %rsi
	cmovaq	%r10, %rsi
	movabsq	$-4294967296, %rdx
	addq	%rcx, %r10
	orq	%rdi, %r13
	cmpq	%r10, %r13
	cmovaeq	%r10, %r13
	leaq	(%rsi,%rdx), %r8
	xorl	%ecx, %ecx
	cmpq	%rsi, %r13
	cmovbeq	%rcx, %r8
	subq	32(%rsp), %rax
	addq	%rdi, %rax
	cmpq	%rdi, %rax
	movq	%rdi, %r10
	cmovaq	%rax, %r10
	addq	%r9, %rax
	movq	(%rsp), %r9
	orq	%rdi, %r9
	cmpq	%rax, %r9
	cmovaeq	%rax, %r9
	leaq	(%r10,%rdx), %rax
	cmpq	%r10, %r9
	cmovbeq	%rcx, %rax
	jbe	.LBB_9ba498_452
	movq	%r9, %rdi
	addq	%rdx, %rdi
	cmpq	%rax, %rdi
	jbe	.LBB_9ba498_452
	addq	%r13, %rdx
	xorl	%ecx, %ecx
	cmpq	%rsi, %r13
	cmovaq	%rdx, %rcx
	subq	%r8, %rcx
	je	.LBB_9ba498_452
	movq	%rdi, %r11
	movq	48(%rsp), %rdx
	movl	(%rdx), %edx
	movq	%rcx, %rsi
	andq	$-8, %rsi
	movd	%edx, %xmm0
	pshufd	$0, %xmm0, %xmm0
	movq	%rax, %r9
	movq	8(%rsp), %r10
	imulq	%r10, %r9
	leaq	(,%r8,4), %rdi
	leaq	(%rdi,%r9,4), %rdi
	addq	%r12, %rdi
	addq	$16, %rdi
	shlq	$2, %r10
	addq	%r8, %r9
	leaq	(%r12,%r9,4), %r8
	jmp	.LBB_9ba498_413
.LBB_9ba498_412:
	incq	%rax
	addq	%r10, %rdi
	addq	%r10, %r8
	cmpq	%r11, %rax
	je	.LBB_9ba498_452
.LBB_9ba498_413:
	xorl	%r9d, %r9d
	cmpq	$8, %rcx
	jb	.LBB_9ba498_416
	.p2align	4
.LBB_9ba498_414:
	movdqu	%xmm0, -16(%rdi,%r9,4)
	movdqu	%xmm0, (%rdi,%r9,4)
	addq	$8, %r9
	cmpq	%r9, %rsi
	jne	.LBB_9ba498_414
	movq	%rsi, %r9
	cmpq	%rsi, %rcx
	je	.LBB_9ba498_412
	.p2align	4
.LBB_9ba498_416:
	movl	%edx, (%r8,%r9,4)
	incq	%r9
	cmpq	%r9, %rcx
	jne	.LBB_9ba498_416
	jmp	.LBB_9ba498_412
.LBB_9ba498_417:
	movq	%rsi, 72(%rsp)
	movq	%rbp, 80(%rsp)
	testq	%r13, %r13
	je	.LBB_9ba498_452
	movl	%r8d, 96(%rsp)
	movq	344(%rsp), %r14
	movq	%r14, 176(%rsp)
	movslq	360(%rsp), %rsi
	movabsq	$4294967296, %rbp
	movq	%r15, %r11
	shrq	$32, %r11
	shrq	$32, %r14
	subq	%rbx, %rcx
	leaq	(%rcx,%rbp), %r8
	leaq	(%rdx,%rbp), %rbx
	cmpq	%r8, %rbx
	leaq	(%rcx,%rbp), %r8
	cmovbq	%rbx, %r8
	movq	%rsi, 168(%rsp)
	addq	%rbp, %rsi
	movq	%rsi, 64(%rsp)
	cmpq	%r8, %rsi
	cmovbq	%rsi, %r8
	movq	%rbp, %rbx
	subq	%r8, %rbx
	movl	$0, %r8d
	cmovbq	%r8, %rbx
	orq	%rbp, %r13
	leaq	(%rcx,%rbp), %rsi
	subq	%rsi, %r13
	cmovbq	%r8, %r13
	movl	%r15d, %r15d
	orq	%rbp, %r15
	leaq	(%rdx,%rbp), %r8
	subq	%r8, %r15
	movl	176(%rsp), %r8d
	movl	$0, %esi
	cmovbq	%rsi, %r15
	xorl	%esi, %esi
	orq	%rbp, %r8
	subq	64(%rsp), %r8
	movl	$0, %ebp
	movq	%rbp, 200(%rsp)
	cmovbq	%rsi, %r8
	cmpl	%r9d, %r10d
	cmovbl	%r10d, %r9d
	movl	368(%rsp), %r10d
	cmpl	%r9d, %r10d
	cmovbl	%r10d, %r9d
	cmpq	%r9, %r13
	cmovaeq	%r9, %r13
	movslq	364(%rsp), %r9
	movq	%r9, 240(%rsp)
	cmpq	%r13, %r15
	cmovbq	%r15, %r13
	movl	372(%rsp), %r10d
	cmpq	%r13, %r8
	cmovbq	%r8, %r13
	movl	$0, %ebp
	movl	$0, %r8d
	movq	%r8, 192(%rsp)
	movl	$0, %r9d
	cmpq	%rbx, %r13
	jbe	.LBB_9ba498_420
	leaq	(%rbx,%rcx), %r8
	movq	%r8, 200(%rsp)
	addq	%rcx, %r13
	addq	%rbx, %rdx
	movq	168(%rsp), %r9
	addq	%rbx, %r9
	movq	%r13, %rbp
	movq	%rdx, 192(%rsp)
.LBB_9ba498_420:
	subq	32(%rsp), %rdi
	movabsq	$4294967296, %rsi
	leaq	(%rdi,%rsi), %r15
	movq	24(%rsp), %rcx
	leaq	(%rcx,%rsi), %rbx
	movq	240(%rsp), %rcx
	leaq	(%rcx,%rsi), %rdx
	cmpq	%r15, %rbx
	movq	%r15, %r8
	cmovbq	%rbx, %r8
	cmpq	%r8, %rdx
	cmovbq	%rdx, %r8
	xorl	%r13d, %r13d
	movq	%rsi, %rcx
	subq	%r8, %rcx
	cmovbq	%r13, %rcx
	movq	(%rsp), %r8
	orq	%rsi, %r8
	subq	%r15, %r8
	cmovbq	%r13, %r8
	orq	%rsi, %r11
	subq	%rbx, %r11
	cmovbq	%r13, %r11
	orq	%rsi, %r14
	subq	%rdx, %r14
	cmovbq	%r13, %r14
	movl	96(%rsp), %r13d
	cmpl	%eax, %r13d
	cmovbl	%r13d, %eax
	cmpl	%eax, %r10d
	cmovbl	%r10d, %eax
	cmpq	%rax, %r8
	cmovaeq	%rax, %r8
	cmpq	%r8, %r11
	cmovbq	%r11, %r8
	cmpq	%r8, %r14
	cmovbq	%r14, %r8
	cmpq	%rcx, %r8
	jbe	.LBB_9ba498_452
	movq	%r8, %rax
	leaq	(%rcx,%rdi), %r8
	addq	%rdi, %rax
	movq	%rax, (%rsp)
	movq	%r8, 216(%rsp)
	cmpq	%rax, %r8
	jae	.LBB_9ba498_452
	movq	352(%rsp), %rax
	movq	%rax, 176(%rsp)
	movabsq	$4294967296, %r8
	movq	24(%rsp), %rsi
	leaq	(%rcx,%rsi), %rax
	movq	%rax, 224(%rsp)
	addq	%rcx, 240(%rsp)
	movq	72(%rsp), %r10
	leaq	(%r10,%r9), %rax
	movq	%rax, 248(%rsp)
	subq	200(%rsp), %rbp
	movq	%rbp, %rax
	shrq	$4, %rax
	movq	%rax, 96(%rsp)
	movq	%rbp, %rcx
	andq	$-16, %rcx
	movl	%ebp, %eax
	andl	$15, %eax
	movq	%rax, 392(%rsp)
	movl	%ebp, %eax
	andl	$8, %eax
	movq	%rax, 208(%rsp)
	movl	%ebp, %edi
	andl	$12, %edi
	addq	%r8, %rsi
	cmpq	%rbx, %r15
	cmovbq	%r15, %rbx
	leaq	(,%rcx,4), %r11
	cmpq	%rdx, %rbx
	cmovaeq	%rdx, %rbx
	cmpq	%r8, %rbx
	cmovaeq	%r8, %rbx
	subq	%rbx, %rsi
	imulq	80(%rsp), %rsi
	movq	192(%rsp), %r13
	leaq	(,%r13,4), %rax
	leaq	(%rax,%rsi,4), %r8
	subq	%rbx, %rdx
	movq	8(%rsp), %rbx
	movq	%rbx, %rax
	movq	216(%rsp), %r14
	imulq	%r14, %rax
	imulq	176(%rsp), %rdx
	addq	%r9, %rdx
	movq	%rcx, 64(%rsp)
	movq	%rdi, 232(%rsp)
	leaq	(%rcx,%rdi), %r9
	addq	%r10, %r9
	addq	%rdx, %r10
	addq	%rdx, %r9
	movq	200(%rsp), %rdi
	leaq	(,%rdi,4), %rcx
	leaq	(%rcx,%rax,4), %r15
	leaq	(%r11,%rsi,4), %rcx
	movq	%rbp, 24(%rsp)
	leal	(,%rbp,4), %edx
	andl	$48, %edx
	addq	%rdx, %rcx
	movq	%r11, 384(%rsp)
	leaq	(%r11,%rax,4), %rax
	addq	%rdx, %rax
	movq	48(%rsp), %rdx
	addq	%rdx, %r8
	addq	%r12, %r15
	leaq	(%rcx,%r13,4), %rsi
	addq	%rdx, %rsi
	leaq	(%rax,%rdi,4), %r11
	addq	%r12, %r11
	movq	80(%rsp), %rax
	leaq	(,%rax,4), %rax
	movq	%rax, 72(%rsp)
	leaq	(,%rbx,4), %rax
	movq	%rax, 168(%rsp)
	movq	392(%rsp), %r13
	movq	%r14, 32(%rsp)
	jmp	.LBB_9ba498_424
.LBB_9ba498_423:
	movq	32(%rsp), %rbx
	incq	%rbx
	movq	72(%rsp), %rcx
	addq	%rcx, %r8
	movq	168(%rsp), %rdx
	addq	%rdx, %r15
	movq	176(%rsp), %rax
	addq	%rax, %r10
	addq	%rax, %r9
	addq	%rcx, %rsi
	addq	%rdx, %r11
	movq	%rbx, 32(%rsp)
	cmpq	(%rsp), %rbx
	je	.LBB_9ba498_452
.LBB_9ba498_424:
	cmpq	$0, 96(%rsp)
	je	.LBB_9ba498_427
	movl	$8, %ebx
	movq	96(%rsp), %rbp
	.p2align	4
.LBB_9ba498_426:
	movdqu	-32(%r8,%rbx,4), %xmm4
	movdqu	-16(%r8,%rbx,4), %xmm5
	movq	-8(%r10,%rbx), %xmm7
	punpcklbw	%xmm7, %xmm7
	movdqa	%xmm7, %xmm8
	punpckhwd	%xmm7, %xmm8
	punpcklwd	%xmm7, %xmm7
	movdqa	.LCPI_9ba498_0(%rip), %xmm0
	movdqa	%xmm4, %xmm1
	pand	%xmm0, %xmm1
	movdqa	%xmm5, %xmm2
	pand	%xmm0, %xmm2
	movdqa	%xmm7, %xmm3
	pand	%xmm0, %xmm3
	pmullw	%xmm1, %xmm3
	movdqa	%xmm8, %xmm6
	pand	%xmm0, %xmm6
	pmullw	%xmm2, %xmm6
	movdqa	.LCPI_9ba498_1(%rip), %xmm1
	paddw	%xmm1, %xmm3
	paddw	%xmm1, %xmm6
	movdqa	.LCPI_9ba498_2(%rip), %xmm2
	pmulhuw	%xmm2, %xmm6
	pmulhuw	%xmm2, %xmm3
	psrlw	$8, %xmm5
	psrlw	$8, %xmm4
	psrlw	$8, %xmm8
	pmullw	%xmm5, %xmm8
	psrlw	$8, %xmm7
	pmullw	%xmm4, %xmm7
	paddw	%xmm1, %xmm8
	paddw	%xmm1, %xmm7
	pmulhuw	%xmm2, %xmm7
	pmulhuw	%xmm2, %xmm8
	psllw	$8, %xmm8
	por	%xmm6, %xmm8
	psllw	$8, %xmm7
	por	%xmm3, %xmm7
	pcmpeqd	%xmm5, %xmm5
	movdqa	%xmm8, %xmm12
	pxor	%xmm5, %xmm12
	movdqa	%xmm7, %xmm14
	pxor	%xmm5, %xmm14
	movdqa	.LCPI_9ba498_5(%rip), %xmm6
	pshufb	%xmm6, %xmm14
	pshufb	%xmm6, %xmm12
	movdqu	-32(%r15,%rbx,4), %xmm9
	movdqu	-16(%r15,%rbx,4), %xmm10
	movdqu	(%r15,%rbx,4), %xmm3
	movdqu	16(%r15,%rbx,4), %xmm4
	movdqa	%xmm9, %xmm11
	pand	%xmm0, %xmm11
	movdqa	%xmm10, %xmm13
	pand	%xmm0, %xmm13
	pmullw	%xmm12, %xmm13
	pmullw	%xmm14, %xmm11
	paddw	%xmm1, %xmm11
	paddw	%xmm1, %xmm13
	pmulhuw	%xmm2, %xmm13
	pmulhuw	%xmm2, %xmm11
	psrlw	$8, %xmm10
	psrlw	$8, %xmm9
	pmullw	%xmm14, %xmm9
	pmullw	%xmm12, %xmm10
	paddw	%xmm1, %xmm10
	paddw	%xmm1, %xmm9
	pmulhuw	%xmm2, %xmm9
	pmulhuw	%xmm2, %xmm10
	psllw	$8, %xmm10
	por	%xmm13, %xmm10
	psllw	$8, %xmm9
	por	%xmm11, %xmm9
	paddusb	%xmm8, %xmm10
	paddusb	%xmm7, %xmm9
	movdqu	%xmm9, -32(%r15,%rbx,4)
	movdqu	%xmm10, -16(%r15,%rbx,4)
	movdqu	(%r8,%rbx,4), %xmm10
	movdqu	16(%r8,%rbx,4), %xmm12
	movq	(%r10,%rbx), %xmm7
	punpcklbw	%xmm7, %xmm7
	movdqa	%xmm7, %xmm8
	punpckhwd	%xmm7, %xmm8
	punpcklwd	%xmm7, %xmm7
	movdqa	%xmm10, %xmm11
	pand	%xmm0, %xmm11
	movdqa	%xmm12, %xmm13
	pand	%xmm0, %xmm13
	movdqa	%xmm7, %xmm9
	pand	%xmm0, %xmm9
	pmullw	%xmm11, %xmm9
	movdqa	%xmm8, %xmm11
	pand	%xmm0, %xmm11
	pmullw	%xmm13, %xmm11
	paddw	%xmm1, %xmm9
	paddw	%xmm1, %xmm11
	pmulhuw	%xmm2, %xmm11
	pmulhuw	%xmm2, %xmm9
	psrlw	$8, %xmm12
	psrlw	$8, %xmm10
	psrlw	$8, %xmm8
	pmullw	%xmm12, %xmm8
	psrlw	$8, %xmm7
	pmullw	%xmm10, %xmm7
	paddw	%xmm1, %xmm8
	paddw	%xmm1, %xmm7
	pmulhuw	%xmm2, %xmm7
	pmulhuw	%xmm2, %xmm8
	psllw	$8, %xmm8
	por	%xmm11, %xmm8
	psllw	$8, %xmm7
	por	%xmm9, %xmm7
	movdqa	%xmm8, %xmm9
	pxor	%xmm5, %xmm9
	pxor	%xmm7, %xmm5
	pshufb	%xmm6, %xmm5
	pshufb	%xmm6, %xmm9
	movdqa	%xmm3, %xmm6
	pand	%xmm0, %xmm6
	pand	%xmm4, %xmm0
	pmullw	%xmm9, %xmm0
	pmullw	%xmm5, %xmm6
	paddw	%xmm1, %xmm6
	paddw	%xmm1, %xmm0
	pmulhuw	%xmm2, %xmm0
	pmulhuw	%xmm2, %xmm6
	psrlw	$8, %xmm4
	psrlw	$8, %xmm3
	pmullw	%xmm5, %xmm3
	pmullw	%xmm9, %xmm4
	paddw	%xmm1, %xmm4
	paddw	%xmm1, %xmm3
	pmulhuw	%xmm2, %xmm3
	pmulhuw	%xmm2, %xmm4
	psllw	$8, %xmm4
	por	%xmm0, %xmm4
	psllw	$8, %xmm3
	por	%xmm6, %xmm3
	paddusb	%xmm8, %xmm4
	paddusb	%xmm7, %xmm3
	movdqu	%xmm3, (%r15,%rbx,4)
	movdqu	%xmm4, 16(%r15,%rbx,4)
	addq	$16, %rbx
	decq	%rbp
	jne	.LBB_9ba498_426
.LBB_9ba498_427:
	movq	64(%rsp), %rax
	cmpq	24(%rsp), %rax
	je	.LBB_9ba498_423
	movq	32(%rsp), %rbp
	movq	%rbp, %rax
	imulq	8(%rsp), %rax
	addq	200(%rsp), %rax
	subq	216(%rsp), %rbp
	movq	224(%rsp), %rcx
	addq	%rbp, %rcx
	imulq	80(%rsp), %rcx
	addq	192(%rsp), %rcx
	addq	240(%rsp), %rbp
	imulq	176(%rsp), %rbp
	addq	248(%rsp), %rbp
	movq	16(%rsp), %rdx
	leaq	(%rdx,%rax,4), %rbx
	movq	48(%rsp), %rax
	leaq	(%rax,%rcx,4), %r14
	movq	384(%rsp), %rax
	addq	%rax, %rbx
	addq	%rax, %r14
	addq	64(%rsp), %rbp
	cmpq	$0, 208(%rsp)
	jne	.LBB_9ba498_431
	testb	$4, 24(%rsp)
	jne	.LBB_9ba498_432
.LBB_9ba498_430:
	cmpl	%r13d, 232(%rsp)
	je	.LBB_9ba498_423
	jmp	.LBB_9ba498_433
.LBB_9ba498_431:
	movdqu	(%r14), %xmm6
	movdqu	16(%r14), %xmm7
	movq	(%rbp), %xmm0
	punpcklbw	%xmm0, %xmm0
	movdqa	%xmm0, %xmm1
	punpckhwd	%xmm0, %xmm1
	punpcklwd	%xmm0, %xmm0
	movdqa	.LCPI_9ba498_0(%rip), %xmm2
	movdqa	%xmm6, %xmm3
	pand	%xmm2, %xmm3
	movdqa	%xmm7, %xmm4
	pand	%xmm2, %xmm4
	movdqa	%xmm0, %xmm5
	pand	%xmm2, %xmm5
	pmullw	%xmm3, %xmm5
	movdqa	%xmm1, %xmm8
	pand	%xmm2, %xmm8
	pmullw	%xmm4, %xmm8
	movdqa	.LCPI_9ba498_1(%rip), %xmm3
	paddw	%xmm3, %xmm5
	paddw	%xmm3, %xmm8
	movdqa	.LCPI_9ba498_2(%rip), %xmm4
	pmulhuw	%xmm4, %xmm8
	pmulhuw	%xmm4, %xmm5
	psrlw	$8, %xmm7
	psrlw	$8, %xmm6
	psrlw	$8, %xmm1
	pmullw	%xmm7, %xmm1
	psrlw	$8, %xmm0
	pmullw	%xmm6, %xmm0
	paddw	%xmm3, %xmm1
	paddw	%xmm3, %xmm0
	pmulhuw	%xmm4, %xmm0
	pmulhuw	%xmm4, %xmm1
	psllw	$8, %xmm1
	por	%xmm8, %xmm1
	psllw	$8, %xmm0
	por	%xmm5, %xmm0
	movdqu	(%rbx), %xmm5
	movdqu	16(%rbx), %xmm6
	pcmpeqd	%xmm8, %xmm8
	movdqa	%xmm1, %xmm9
	pxor	%xmm8, %xmm9
	pxor	%xmm0, %xmm8
	movdqa	.LCPI_9ba498_5(%rip), %xmm7
	pshufb	%xmm7, %xmm8
	pshufb	%xmm7, %xmm9
	movdqa	%xmm5, %xmm7
	pand	%xmm2, %xmm7
	pand	%xmm6, %xmm2
	pmullw	%xmm9, %xmm2
	pmullw	%xmm8, %xmm7
	paddw	%xmm3, %xmm7
	paddw	%xmm3, %xmm2
	pmulhuw	%xmm4, %xmm2
	pmulhuw	%xmm4, %xmm7
	psrlw	$8, %xmm6
	psrlw	$8, %xmm5
	pmullw	%xmm8, %xmm5
	pmullw	%xmm9, %xmm6
	paddw	%xmm3, %xmm6
	paddw	%xmm3, %xmm5
	pmulhuw	%xmm4, %xmm5
	pmulhuw	%xmm4, %xmm6
	psllw	$8, %xmm6
	por	%xmm2, %xmm6
	psllw	$8, %xmm5
	por	%xmm7, %xmm5
	paddusb	%xmm1, %xmm6
	paddusb	%xmm0, %xmm5
	movdqu	%xmm5, (%rbx)
	movdqu	%xmm6, 16(%rbx)
	testb	$4, 24(%rsp)
	je	.LBB_9ba498_430
.LBB_9ba498_432:
	movq	208(%rsp), %rax
	leal	(,%rax,4), %ecx
	movdqu	(%r14,%rcx), %xmm4
	movd	(%rbp,%rax), %xmm0
	punpcklbw	%xmm0, %xmm0
	punpcklwd	%xmm0, %xmm0
	movdqa	.LCPI_9ba498_0(%rip), %xmm3
	movdqa	%xmm4, %xmm1
	pand	%xmm3, %xmm1
	movdqa	%xmm0, %xmm5
	pand	%xmm3, %xmm5
	pmullw	%xmm1, %xmm5
	movdqa	.LCPI_9ba498_1(%rip), %xmm1
	paddw	%xmm1, %xmm5
	movdqa	.LCPI_9ba498_2(%rip), %xmm2
	pmulhuw	%xmm2, %xmm5
	psrlw	$8, %xmm4
	psrlw	$8, %xmm0
	pmullw	%xmm4, %xmm0
	paddw	%xmm1, %xmm0
	pmulhuw	%xmm2, %xmm0
	psllw	$8, %xmm0
	por	%xmm5, %xmm0
	movdqu	(%rbx,%rcx), %xmm4
	pcmpeqd	%xmm5, %xmm5
	movdqa	%xmm0, %xmm6
	pshufb	.LCPI_9ba498_6(%rip), %xmm6
	pxor	%xmm6, %xmm5
	movdqa	%xmm4, %xmm7
	pand	%xmm3, %xmm7
	pandn	%xmm3, %xmm6
	pmullw	%xmm7, %xmm6
	paddw	%xmm1, %xmm6
	pmulhuw	%xmm2, %xmm6
	psrlw	$8, %xmm4
	psrlw	$8, %xmm5
	pmullw	%xmm4, %xmm5
	paddw	%xmm1, %xmm5
	pmulhuw	%xmm2, %xmm5
	psllw	$8, %xmm5
	por	%xmm6, %xmm5
	paddusb	%xmm0, %xmm5
	movdqu	%xmm5, (%rbx,%rcx)
	cmpl	%r13d, 232(%rsp)
	je	.LBB_9ba498_423
.LBB_9ba498_433:
	xorl	%ebx, %ebx
	movq	232(%rsp), %r14
	.p2align	4
.LBB_9ba498_434:
	movl	(%rsi,%rbx,4), %edx
	movl	(%r11,%rbx,4), %eax
	movzbl	%ah, %ebp
	movzbl	%al, %ecx
	movd	%eax, %xmm0
	movzbl	%dh, %edi
	movzbl	%dl, %r12d
	movd	%edx, %xmm1
	shrl	$16, %edx
	movzbl	%dl, %edx
	psrld	$24, %xmm1
	pinsrw	$1, %edx, %xmm1
	pinsrw	$2, %edi, %xmm1
	pinsrw	$3, %r12d, %xmm1
	shrl	$16, %eax
	movzbl	(%r9,%rbx), %edx
	movd	%edx, %xmm2
	pshuflw	$0, %xmm2, %xmm2
	pmullw	%xmm1, %xmm2
	movdqa	.LCPI_9ba498_3(%rip), %xmm1
	paddw	%xmm1, %xmm2
	movdqa	%xmm2, %xmm3
	psrlw	$8, %xmm3
	paddw	%xmm2, %xmm3
	pextrb	$1, %xmm3, %edx
	movzbl	%al, %eax
	psrlw	$8, %xmm3
	packuswb	%xmm3, %xmm3
	xorl	$255, %edx
	movd	%edx, %xmm2
	psrld	$24, %xmm0
	pinsrw	$1, %eax, %xmm0
	pinsrw	$2, %ebp, %xmm0
	pinsrw	$3, %ecx, %xmm0
	pshuflw	$0, %xmm2, %xmm2
	pmullw	%xmm2, %xmm0
	paddw	%xmm1, %xmm0
	movdqa	%xmm0, %xmm1
	psrlw	$8, %xmm1
	paddw	%xmm0, %xmm1
	psrlw	$8, %xmm1
	packuswb	%xmm1, %xmm1
	paddusb	%xmm3, %xmm1
	pmovzxbd	%xmm1, %xmm0
	pmulld	.LCPI_9ba498_7(%rip), %xmm0
	pshufd	$238, %xmm0, %xmm1
	por	%xmm0, %xmm1
	pshufd	$85, %xmm1, %xmm0
	por	%xmm1, %xmm0
	movd	%xmm0, (%r11,%rbx,4)
	incq	%r14
	incq	%rbx
	cmpq	%r13, %r14
	jb	.LBB_9ba498_434
	jmp	.LBB_9ba498_423
.LBB_9ba498_435:
	testq	%r13, %r13
	je	.LBB_9ba498_452
	movq	%r14, %r15
	shrq	$32, %r15
	subq	%rbx, %rcx
	movabsq	$4294967296, %rbx
	movl	%esi, 80(%rsp)
	leaq	(%rcx,%rbx), %rsi
	leaq	(%rdx,%rbx), %r11
	cmpq	%rsi, %r11
	movq	%rbp, 176(%rsp)
	movq	%rsi, %rbp
	cmovbq	%r11, %rbp
	xorl	%r8d, %r8d
	movq	%rbx, %r12
	subq	%rbp, %r12
	cmovbq	%r8, %r12
	orq	%rbx, %r13
	subq	%rsi, %r13
	cmovbq	%r8, %r13
	movl	%r14d, %esi
	orq	%rbx, %rsi
	subq	%r11, %rsi
	cmovbq	%r8, %rsi
	cmpl	%edi, %r9d
	cmovbl	%r9d, %edi
	cmpq	%rdi, %r13
	cmovaeq	%rdi, %r13
	cmpq	%r13, %rsi
	cmovbq	%rsi, %r13
	leaq	(%r12,%rcx), %rdi
	addq	%r13, %rcx
	addq	%r12, %rdx
	cmpq	%r12, %r13
	cmovbeq	%r8, %rdi
	cmovbeq	%r8, %rcx
	cmovbeq	%r8, %rdx
	subq	(%rsp), %r10
	leaq	(%r10,%rbx), %rsi
	movq	24(%rsp), %r11
	leaq	(%r11,%rbx), %r14
	cmpq	%rsi, %r14
	movq	%rsi, %r12
	cmovbq	%r14, %r12
	movq	%rbx, %r9
	subq	%r12, %r9
	cmovbq	%r8, %r9
	movq	8(%rsp), %r12
	orq	%rbx, %r12
	subq	%rsi, %r12
	cmovbq	%r8, %r12
	orq	%rbx, %r15
	subq	%r14, %r15
	cmovbq	%r8, %r15
	movl	80(%rsp), %esi
	cmpl	%eax, %esi
	cmovbl	%esi, %eax
	cmpq	%rax, %r12
	cmovaeq	%rax, %r12
	cmpq	%r12, %r15
	cmovbq	%r15, %r12
	leaq	(%r9,%r10), %rax
	addq	%r12, %r10
	addq	%r9, %r11
	cmpq	%r9, %r12
	cmovbeq	%r8, %rax
	cmovbeq	%r8, %r10
	cmovbeq	%r8, %r11
	movq	%rdi, 120(%rsp)
	movq	%rcx, 128(%rsp)
	movq	%rdx, 136(%rsp)
	movq	%rax, 144(%rsp)
	movq	%r10, 152(%rsp)
	movq	%r11, 160(%rsp)
	leaq	120(%rsp), %r8
	movq	16(%rsp), %rdi
	movq	32(%rsp), %rsi
	movq	48(%rsp), %rdx
	movq	176(%rsp), %rcx
	callq	"pix_raster::view::blit_overlap::<#93a319759576dea8>"
	jmp	.LBB_9ba498_452
.LBB_9ba498_437:
	testq	%rbp, %rbp
	je	.LBB_9ba498_452
	subq	%rbx, %rcx
	movabsq	$4294967296, %r9
	addq	%r9, %rcx
	cmpq	%r9, %rcx
	movq	%r9, %rdi
	cmovaq	%rcx, %rdi
	movabsq	$-4294967296, %rdx
	addq	%r10, %rcx
	orq	%r9, %rbp
	cmpq	%rcx, %rbp
	cmovaeq	%rcx, %rbp
	leaq	(%rdi,%rdx), %r8
	xorl	%ecx, %ecx
	cmpq	%rdi, %rbp
	cmovbeq	%rcx, %r8
	subq	32(%rsp), %rax
	addq	%r9, %rax
	cmpq	%r9, %rax
	movq	%r9, %r10
	cmovaq	%rax, %r10
	addq	%rsi, %rax
	movq	(%rsp), %r11
	orq	%r9, %r11
	cmpq	%rax, %r11
	cmovaeq	%rax, %r11
	leaq	(%r10,%rdx), %rax
	cmpq	%r10, %r11
	cmovbeq	%rcx, %rax
	jbe	.LBB_9ba498_452
	movq	%r11, %rsi
	addq	%rdx, %rsi
	cmpq	%rax, %rsi
	jbe	.LBB_9ba498_452
	addq	%rbp, %rdx
	xorl	%ecx, %ecx
	cmpq	%rdi, %rbp
	cmovaq	%rdx, %rcx
	subq	%r8, %rcx
	je	.LBB_9ba498_452
	movq	%rsi, %rbx
	movq	48(%rsp), %rdx
	movl	(%rdx), %edx
	movq	%rcx, %rsi
	andq	$-8, %rsi
	movd	%edx, %xmm0
	pshufd	$0, %xmm0, %xmm0
	movq	%rax, %r9
	movq	8(%rsp), %r11
	imulq	%r11, %r9
	leaq	(,%r8,4), %rdi
	leaq	(%rdi,%r9,4), %rdi
	movq	16(%rsp), %r10
	addq	%r10, %rdi
	addq	$16, %rdi
	shlq	$2, %r11
	addq	%r8, %r9
	leaq	(%r10,%r9,4), %r8
	jmp	.LBB_9ba498_443
.LBB_9ba498_442:
	incq	%rax
	addq	%r11, %rdi
	addq	%r11, %r8
	cmpq	%rbx, %rax
	je	.LBB_9ba498_452
.LBB_9ba498_443:
	xorl	%r9d, %r9d
	cmpq	$8, %rcx
	jb	.LBB_9ba498_446
	.p2align	4
.LBB_9ba498_444:
	movdqu	%xmm0, -16(%rdi,%r9,4)
	movdqu	%xmm0, (%rdi,%r9,4)
	addq	$8, %r9
	cmpq	%r9, %rsi
	jne	.LBB_9ba498_444
	movq	%rsi, %r9
	cmpq	%rsi, %rcx
	je	.LBB_9ba498_442
	.p2align	4
.LBB_9ba498_446:
	movl	%edx, (%r8,%r9,4)
	incq	%r9
	cmpq	%r9, %rcx
	jne	.LBB_9ba498_446
	jmp	.LBB_9ba498_442
.LBB_9ba498_447:
	testq	%rbp, %rbp
	je	.LBB_9ba498_452
	movl	%r13d, 96(%rsp)
	movq	%r15, %r13
	shrq	$32, %r13
	subq	%rbx, %rcx
	movabsq	$4294967296, %rbx
	movq	%r8, 80(%rsp)
.LBB_9ba498_449:
	leaq	(%rcx,%rbx), %r8
	leaq	(%rdi,%rbx), %rdx
	cmpq	%r8, %rdx
	movq	%r8, %r12
	cmovbq	%rdx, %r12
	xorl	%r9d, %r9d
	movq	%rbx, %r14
	subq	%r12, %r14
	cmovbq	%r9, %r14
	orq	%rbx, %rbp
	subq	%r8, %rbp
	cmovbq	%r9, %rbp
	movl	%r15d, %r8d
	orq	%rbx, %r8
	subq	%rdx, %r8
	cmovbq	%r9, %r8
	cmpl	%r10d, %r11d
	cmovbl	%r11d, %r10d
	cmpq	%r10, %rbp
	cmovaeq	%r10, %rbp
	cmpq	%rbp, %r8
	cmovbq	%r8, %rbp
	leaq	(%r14,%rcx), %r10
	addq	%rbp, %rcx
	addq	%r14, %rdi
	cmpq	%r14, %rbp
	cmovbeq	%r9, %r10
	cmovbeq	%r9, %rcx
	cmovbeq	%r9, %rdi
	subq	32(%rsp), %rax
	leaq	(%rax,%rbx), %r8
	movq	24(%rsp), %rdx
	leaq	(%rdx,%rbx), %r14
	cmpq	%r8, %r14
	movq	%r8, %r15
	cmovbq	%r14, %r15
	movq	%rbx, %r11
	subq	%r15, %r11
	cmovbq	%r9, %r11
	movq	(%rsp), %r15
	orq	%rbx, %r15
	subq	%r8, %r15
	cmovbq	%r9, %r15
	orq	%rbx, %r13
	subq	%r14, %r13
	cmovbq	%r9, %r13
	movl	96(%rsp), %r8d
	cmpl	%esi, %r8d
	cmovbl	%r8d, %esi
	cmpq	%rsi, %r15
	cmovaeq	%rsi, %r15
	cmpq	%r15, %r13
	cmovbq	%r13, %r15
	leaq	(%r11,%rax), %rsi
	addq	%r15, %rax
	addq	%r11, %rdx
	cmpq	%r11, %r15
	cmovbeq	%r9, %rsi
	cmovbeq	%r9, %rax
	cmovbeq	%r9, %rdx
	movq	%r10, 120(%rsp)
	movq	%rcx, 128(%rsp)
	movq	%rdi, 136(%rsp)
	movq	%rsi, 144(%rsp)
	movq	%rax, 152(%rsp)
	movq	%rdx, 160(%rsp)
.LBB_9ba498_450:
	leaq	120(%rsp), %r8
	movq	16(%rsp), %rdi
.LBB_9ba498_451:
	movq	8(%rsp), %rsi
	movq	48(%rsp), %rdx
	movq	80(%rsp), %rcx
	callq	"pix_raster::view::blit_overlap::<#93a319759576dea8>"
.LBB_9ba498_452:
	addq	$424, %rsp
	popq	%rbx
	popq	%r12
	popq	%r13
	popq	%r14
	popq	%r15
	popq	%rbp
	retq
.LBB_9ba498_453:
	movq	%rsi, 176(%rsp)
	testq	%r13, %r13
	je	.LBB_9ba498_452
	movq	%r15, %r14
	shrq	$32, %r14
	subq	%rbx, %rcx
	movabsq	$4294967296, %rbx
	leaq	(%rcx,%rbx), %r11
	leaq	(%rdx,%rbx), %rsi
	cmpq	%r11, %rsi
	movq	%rdi, 24(%rsp)
	movq	%r11, %rdi
	cmovbq	%rsi, %rdi
	xorl	%r11d, %r11d
	movl	%ebp, %esi
	movq	%rbx, %rbp
	subq	%rdi, %rbp
	cmovbq	%r11, %rbp
	orq	%rbx, %r13
	leaq	(%rcx,%rbx), %rdi
	subq	%rdi, %r13
	cmovbq	%r11, %r13
	movl	%r15d, %edi
	orq	%rbx, %rdi
	leaq	(%rdx,%rbx), %r15
	subq	%r15, %rdi
	cmovbq	%r11, %rdi
	cmpl	%r8d, %r9d
	cmovbl	%r9d, %r8d
	cmpq	%r8, %r13
	cmovaeq	%r8, %r13
	cmpq	%r13, %rdi
	cmovbq	%rdi, %r13
	leaq	(%rcx,%rbp), %r8
	addq	%r13, %rcx
	addq	%rbp, %rdx
	cmpq	%rbp, %r13
	cmovbeq	%r11, %r8
	cmovbeq	%r11, %rcx
	cmovbeq	%r11, %rdx
	subq	48(%rsp), %r10
	leaq	(%r10,%rbx), %rdi
	movq	32(%rsp), %rbp
	leaq	(%rbx,%rbp), %r15
	cmpq	%rdi, %r15
	movq	%rdi, %r13
	cmovbq	%r15, %r13
	movq	%rbx, %r9
	subq	%r13, %r9
	cmovbq	%r11, %r9
	orq	%rbx, %r12
	subq	%rdi, %r12
	cmovbq	%r11, %r12
	orq	%rbx, %r14
	subq	%r15, %r14
	cmovbq	%r11, %r14
	cmpl	%eax, %esi
	cmovbl	%esi, %eax
	cmpq	%rax, %r12
	cmovaeq	%rax, %r12
	cmpq	%r12, %r14
	cmovbq	%r14, %r12
	leaq	(%r9,%r10), %rax
	addq	%r12, %r10
	addq	%r9, %rbp
	cmpq	%r9, %r12
	cmovbeq	%r11, %rax
	cmovbeq	%r11, %r10
	cmovbeq	%r11, %rbp
	movq	176(%rsp), %rsi
	movl	(%rsi), %r9d
	movq	%r8, 120(%rsp)
	movq	%rcx, 128(%rsp)
	movq	%rdx, 136(%rsp)
	movq	%rax, 144(%rsp)
	movq	%r10, 152(%rsp)
	movq	%rbp, 160(%rsp)
	leaq	120(%rsp), %r8
	movq	16(%rsp), %rdi
	movq	(%rsp), %rsi
	movq	8(%rsp), %rdx
	movq	24(%rsp), %rcx
	callq	"pix_raster::view::blit_overlap::<#7a2e6a0a1e536be3>"
	jmp	.LBB_9ba498_452
.LBB_9ba498_455:
	testq	%r13, %r13
	je	.LBB_9ba498_452
	subq	%rbx, %rcx
	movabsq	$4294967296, %rdx
	addq	%rdx, %rcx
	cmpq	%rdx, %rcx
	movq	%rdx, %r9
	cmovaq	%rcx, %r9
	movabsq	$-4294967296, %rsi
	addq	%rdi, %rcx
	orq	%rdx, %r13
	cmpq	%rcx, %r13
	cmovaeq	%rcx, %r13
	leaq	(%r9,%rsi), %rdi
	xorl	%ecx, %ecx
	cmpq	%r9, %r13
	cmovbeq	%rcx, %rdi
	movq	%rdi, 96(%rsp)
	subq	32(%rsp), %r10
	addq	%rdx, %r10
	cmpq	%rdx, %r10
	movq	%rdx, %rdi
	cmovaq	%r10, %rdi
	addq	%rax, %r10
	movq	(%rsp), %r8
	orq	%rdx, %r8
	cmpq	%r10, %r8
	cmovaeq	%r10, %r8
	leaq	(%rdi,%rsi), %rax
	cmpq	%rdi, %r8
	cmovbeq	%rcx, %rax
	jbe	.LBB_9ba498_452
	movq	%r8, %rdx
	addq	%rsi, %rdx
	movq	%rdx, (%rsp)
	cmpq	%rax, %rdx
	jbe	.LBB_9ba498_452
	movq	48(%rsp), %rcx
	movl	(%rcx), %r10d
	shrl	$24, %r10d
	addq	%r13, %rsi
	xorl	%r8d, %r8d
	cmpq	%r9, %r13
	cmovaq	%rsi, %r8
	movq	96(%rsp), %rdx
	subq	%rdx, %r8
	movq	%r8, %rcx
	shrq	$4, %rcx
	movq	%rcx, 48(%rsp)
	movd	%r10d, %xmm1
	pxor	%xmm0, %xmm0
	pshufb	%xmm0, %xmm1
	pcmpeqd	%xmm0, %xmm0
	pxor	%xmm1, %xmm0
	psrld	$24, %xmm0
	movdqa	%xmm0, %xmm1
	pshufb	.LCPI_9ba498_8(%rip), %xmm1
	movq	%r8, %r11
	andq	$-16, %r11
	leaq	(,%r11,4), %rcx
	movq	%rcx, 176(%rsp)
	movl	%r8d, %r9d
	andl	$15, %r9d
	leal	(,%r8,4), %ecx
	movl	%ecx, %esi
	andl	$32, %esi
	movq	%rsi, 64(%rsp)
	pshufb	.LCPI_9ba498_9(%rip), %xmm0
	movdqa	.LCPI_9ba498_0(%rip), %xmm2
	pand	%xmm0, %xmm2
	psrlw	$8, %xmm0
	movl	%r8d, %esi
	andl	$12, %esi
	movq	%rsi, 80(%rsp)
	movzwl	%r10w, %ebx
	xorl	$255, %ebx
	movq	%rax, %rsi
	movq	8(%rsp), %rdi
	imulq	%rdi, %rsi
	addq	%rdx, %rsi
	movq	16(%rsp), %rdx
	leaq	(%rdx,%rsi,4), %r15
	andl	$48, %ecx
	movq	%r11, 32(%rsp)
	leaq	(%rcx,%r11,4), %rcx
	leaq	(%rcx,%rsi,4), %r13
	leaq	(,%rdi,4), %rcx
	movq	%rcx, 24(%rsp)
	addq	%rdx, %r13
	jmp	.LBB_9ba498_460
.LBB_9ba498_459:
	incq	%rax
	movq	24(%rsp), %rcx
	addq	%rcx, %r15
	addq	%rcx, %r13
	cmpq	(%rsp), %rax
	je	.LBB_9ba498_452
.LBB_9ba498_460:
	cmpq	$0, 48(%rsp)
	je	.LBB_9ba498_463
	movq	%r15, %r14
	movq	48(%rsp), %rsi
	.p2align	4
.LBB_9ba498_462:
	movdqa	.LCPI_9ba498_0(%rip), %xmm5
	movdqu	(%r14), %xmm9
	movdqu	16(%r14), %xmm8
	movdqu	32(%r14), %xmm4
	movdqu	48(%r14), %xmm3
	movdqa	%xmm8, %xmm10
	pand	%xmm5, %xmm10
	movdqa	%xmm9, %xmm11
	pand	%xmm5, %xmm11
	pmullw	%xmm1, %xmm11
	pmullw	%xmm1, %xmm10
	movdqa	.LCPI_9ba498_1(%rip), %xmm6
	paddw	%xmm6, %xmm10
	paddw	%xmm6, %xmm11
	movdqa	.LCPI_9ba498_2(%rip), %xmm7
	pmulhuw	%xmm7, %xmm11
	pmulhuw	%xmm7, %xmm10
	psrlw	$8, %xmm9
	psrlw	$8, %xmm8
	pmullw	%xmm1, %xmm8
	pmullw	%xmm1, %xmm9
	paddw	%xmm6, %xmm9
	paddw	%xmm6, %xmm8
	pmulhuw	%xmm7, %xmm8
	pmulhuw	%xmm7, %xmm9
	psllw	$8, %xmm9
	por	%xmm11, %xmm9
	psllw	$8, %xmm8
	por	%xmm10, %xmm8
	movdqu	%xmm9, (%r14)
	movdqu	%xmm8, 16(%r14)
	movdqa	%xmm3, %xmm8
	pand	%xmm5, %xmm8
	pand	%xmm4, %xmm5
	pmullw	%xmm1, %xmm5
	pmullw	%xmm1, %xmm8
	paddw	%xmm6, %xmm8
	paddw	%xmm6, %xmm5
	pmulhuw	%xmm7, %xmm5
	pmulhuw	%xmm7, %xmm8
	psrlw	$8, %xmm4
	psrlw	$8, %xmm3
	pmullw	%xmm1, %xmm3
	pmullw	%xmm1, %xmm4
	paddw	%xmm6, %xmm4
	paddw	%xmm6, %xmm3
	pmulhuw	%xmm7, %xmm3
	pmulhuw	%xmm7, %xmm4
	psllw	$8, %xmm4
	por	%xmm5, %xmm4
	psllw	$8, %xmm3
	por	%xmm8, %xmm3
	movdqu	%xmm4, 32(%r14)
	movdqu	%xmm3, 48(%r14)
	addq	$64, %r14
	decq	%rsi
	jne	.LBB_9ba498_462
.LBB_9ba498_463:
	cmpq	%r8, 32(%rsp)
	je	.LBB_9ba498_459
	movq	%rax, %rcx
	imulq	8(%rsp), %rcx
	addq	96(%rsp), %rcx
	movq	16(%rsp), %rdx
	leaq	(%rdx,%rcx,4), %rsi
	addq	176(%rsp), %rsi
	testb	$8, %r8b
	jne	.LBB_9ba498_467
	testb	$4, %r8b
	jne	.LBB_9ba498_468
.LBB_9ba498_466:
	cmpl	%r9d, 80(%rsp)
	jae	.LBB_9ba498_459
	jmp	.LBB_9ba498_469
.LBB_9ba498_467:
	movdqu	(%rsi), %xmm4
	movdqu	16(%rsi), %xmm3
	movdqa	.LCPI_9ba498_0(%rip), %xmm6
	movdqa	%xmm3, %xmm5
	pand	%xmm6, %xmm5
	pand	%xmm4, %xmm6
	pmullw	%xmm1, %xmm6
	pmullw	%xmm1, %xmm5
	movdqa	.LCPI_9ba498_1(%rip), %xmm7
	paddw	%xmm7, %xmm5
	paddw	%xmm7, %xmm6
	movdqa	.LCPI_9ba498_2(%rip), %xmm8
	pmulhuw	%xmm8, %xmm6
	pmulhuw	%xmm8, %xmm5
	psrlw	$8, %xmm4
	psrlw	$8, %xmm3
	pmullw	%xmm1, %xmm3
	pmullw	%xmm1, %xmm4
	paddw	%xmm7, %xmm4
	paddw	%xmm7, %xmm3
	pmulhuw	%xmm8, %xmm3
	pmulhuw	%xmm8, %xmm4
	psllw	$8, %xmm4
	por	%xmm6, %xmm4
	psllw	$8, %xmm3
	por	%xmm5, %xmm3
	movdqu	%xmm4, (%rsi)
	movdqu	%xmm3, 16(%rsi)
	testb	$4, %r8b
	je	.LBB_9ba498_466
.LBB_9ba498_468:
	movq	64(%rsp), %rcx
	movdqu	(%rsi,%rcx), %xmm3
	movdqa	.LCPI_9ba498_0(%rip), %xmm4
	pand	%xmm3, %xmm4
	pmullw	%xmm2, %xmm4
	movdqa	.LCPI_9ba498_1(%rip), %xmm5
	paddw	%xmm5, %xmm4
	movdqa	.LCPI_9ba498_2(%rip), %xmm6
	pmulhuw	%xmm6, %xmm4
	psrlw	$8, %xmm3
	pmullw	%xmm0, %xmm3
	paddw	%xmm5, %xmm3
	pmulhuw	%xmm6, %xmm3
	psllw	$8, %xmm3
	por	%xmm4, %xmm3
	movdqu	%xmm3, (%rsi,%rcx)
	cmpl	%r9d, 80(%rsp)
	jae	.LBB_9ba498_459
.LBB_9ba498_469:
	movq	%r13, %rsi
	movq	80(%rsp), %r14
	.p2align	4
.LBB_9ba498_470:
	movl	(%rsi), %ecx
	movzbl	%ch, %ebp
	movl	%ecx, %r10d
	movzbl	%cl, %r12d
	shrl	$16, %ecx
	shrl	$24, %r10d
	movzwl	%bx, %r11d
	imull	%r11d, %r12d
	leal	128(%r12), %edx
	movzbl	%dh, %edx
	addl	%r12d, %edx
	addl	$128, %edx
	movzbl	%dh, %edi
	imull	%r11d, %ebp
	leal	128(%rbp), %edx
	movzbl	%dh, %edx
	addl	%edx, %ebp
	addl	$128, %ebp
	andl	$65280, %ebp
	movzbl	%cl, %ecx
	imull	%r11d, %ecx
	leal	128(%rcx), %edx
	movzbl	%dh, %edx
	addl	%edx, %ecx
	addl	$128, %ecx
	imull	%r11d, %r10d
	leal	128(%r10), %edx
	movzbl	%dh, %edx
	addl	%r10d, %edx
	addl	$128, %edx
	shll	$16, %edx
	andl	$-16777216, %edx
	shll	$8, %ecx
	andl	$16711680, %ecx
	orl	%edx, %ecx
	orl	%ebp, %ecx
	orl	%edi, %ecx
	movl	%ecx, (%rsi)
	incq	%r14
	addq	$4, %rsi
	cmpq	%r9, %r14
	jb	.LBB_9ba498_470
	jmp	.LBB_9ba498_459
.LBB_9ba498_471:
	movq	%r11, 176(%rsp)
	testq	%r13, %r13
	je	.LBB_9ba498_452
	movq	%r15, %r14
	shrq	$32, %r14
	subq	%rbx, %rcx
	movabsq	$4294967296, %rbx
	leaq	(%rcx,%rbx), %r12
	leaq	(%rdx,%rbx), %r11
	cmpq	%r12, %r11
	movl	%esi, 96(%rsp)
	movq	%r12, %rsi
	cmovbq	%r11, %rsi
	xorl	%r8d, %r8d
	movq	%rbp, 80(%rsp)
	movq	%rbx, %rbp
	subq	%rsi, %rbp
	cmovbq	%r8, %rbp
	orq	%rbx, %r13
	subq	%r12, %r13
	cmovbq	%r8, %r13
	movl	%r15d, %esi
	orq	%rbx, %rsi
	subq	%r11, %rsi
	cmovbq	%r8, %rsi
	cmpl	%edi, %r9d
	cmovbl	%r9d, %edi
	cmpq	%rdi, %r13
	cmovaeq	%rdi, %r13
	cmpq	%r13, %rsi
	cmovbq	%rsi, %r13
	leaq	(%rcx,%rbp), %rdi
	addq	%r13, %rcx
	addq	%rbp, %rdx
	cmpq	%rbp, %r13
	cmovbeq	%r8, %rdi
	cmovbeq	%r8, %rcx
	cmovbeq	%r8, %rdx
	subq	32(%rsp), %r10
	leaq	(%r10,%rbx), %rsi
	movq	24(%rsp), %r11
	leaq	(%r11,%rbx), %r15
	cmpq	%rsi, %r15
	movq	%rsi, %r12
	cmovbq	%r15, %r12
	movq	%rbx, %r9
	subq	%r12, %r9
	cmovbq	%r8, %r9
	movq	(%rsp), %r12
	orq	%rbx, %r12
	subq	%rsi, %r12
	cmovbq	%r8, %r12
	orq	%rbx, %r14
	subq	%r15, %r14
	cmovbq	%r8, %r14
	movl	96(%rsp), %esi
	cmpl	%eax, %esi
	cmovbl	%esi, %eax
	cmpq	%rax, %r12
	cmovaeq	%rax, %r12
	cmpq	%r12, %r14
	cmovbq	%r14, %r12
	leaq	(%r9,%r10), %rax
	addq	%r12, %r10
	addq	%r9, %r11
	cmpq	%r9, %r12
	cmovbeq	%r8, %rax
	cmovbeq	%r8, %r10
	cmovbeq	%r8, %r11
	movq	176(%rsp), %rsi
	movl	(%rsi), %r9d
	movq	%rdi, 120(%rsp)
	movq	%rcx, 128(%rsp)
	movq	%rdx, 136(%rsp)
	movq	%rax, 144(%rsp)
	movq	%r10, 152(%rsp)
	movq	%r11, 160(%rsp)
	leaq	120(%rsp), %r8
	movq	16(%rsp), %rdi
	movq	8(%rsp), %rsi
	movq	48(%rsp), %rdx
	movq	80(%rsp), %rcx
	callq	"pix_raster::view::blit_overlap::<#d13018cf5d2c8821>"
	jmp	.LBB_9ba498_452
.LBB_9ba498_473:
	movq	%r8, 64(%rsp)
	testq	%r13, %r13
	je	.LBB_9ba498_452
	movq	%r15, %r14
	shrq	$32, %r14
	subq	%rbx, %rcx
	movabsq	$4294967296, %rbx
	leaq	(%rcx,%rbx), %r12
	leaq	(%rdx,%rbx), %r8
	cmpq	%r12, %r8
	movl	%esi, 96(%rsp)
	movq	%r12, %rsi
	cmovbq	%r8, %rsi
	xorl	%r11d, %r11d
	movq	%rbp, 80(%rsp)
	movq	%rbx, %rbp
	subq	%rsi, %rbp
	cmovbq	%r11, %rbp
	orq	%rbx, %r13
	subq	%r12, %r13
	cmovbq	%r11, %r13
	movl	%r15d, %esi
	orq	%rbx, %rsi
	subq	%r8, %rsi
	cmovbq	%r11, %rsi
	cmpl	%edi, %r9d
	cmovbl	%r9d, %edi
	cmpq	%rdi, %r13
	cmovaeq	%rdi, %r13
	cmpq	%r13, %rsi
	cmovbq	%rsi, %r13
	leaq	(%rcx,%rbp), %rdi
	addq	%r13, %rcx
	addq	%rbp, %rdx
	cmpq	%rbp, %r13
	cmovbeq	%r11, %rdi
	cmovbeq	%r11, %rcx
	cmovbeq	%r11, %rdx
	subq	32(%rsp), %r10
	leaq	(%r10,%rbx), %rsi
	movq	24(%rsp), %r8
	leaq	(%r8,%rbx), %r15
	cmpq	%rsi, %r15
	movq	%rsi, %r12
	cmovbq	%r15, %r12
	movq	%rbx, %r9
	subq	%r12, %r9
	cmovbq	%r11, %r9
	movq	(%rsp), %r12
	orq	%rbx, %r12
	subq	%rsi, %r12
	cmovbq	%r11, %r12
	orq	%rbx, %r14
	subq	%r15, %r14
	cmovbq	%r11, %r14
	movl	96(%rsp), %esi
	cmpl	%eax, %esi
	cmovbl	%esi, %eax
	cmpq	%rax, %r12
	cmovaeq	%rax, %r12
	cmpq	%r12, %r14
	cmovbq	%r14, %r12
	leaq	(%r9,%r10), %rax
	addq	%r12, %r10
	addq	%r9, %r8
	cmpq	%r9, %r12
	cmovbeq	%r11, %rax
	cmovbeq	%r11, %r10
	cmovbeq	%r11, %r8
	movq	64(%rsp), %rsi
	movzbl	(%rsi), %esi
	movq	%rdi, 120(%rsp)
	movq	%rcx, 128(%rsp)
	movq	%rdx, 136(%rsp)
	movq	%rax, 144(%rsp)
	movq	%r10, 152(%rsp)
	movq	%r8, 160(%rsp)
	movzbl	%sil, %r9d
	leaq	120(%rsp), %r8
	movq	16(%rsp), %rdi
	movq	8(%rsp), %rsi
	movq	48(%rsp), %rdx
	movq	80(%rsp), %rcx
	callq	"pix_raster::view::blit_overlap::<#69746525898a3d94>"
	jmp	.LBB_9ba498_452
.LBB_9ba498_475:
	movq	%rsi, 176(%rsp)
	movq	%rdi, 24(%rsp)
	testq	%r13, %r13
	je	.LBB_9ba498_452
	movl	%ebp, 80(%rsp)
	movq	344(%rsp), %r14
	movq	%r14, 96(%rsp)
	movslq	360(%rsp), %rsi
	movabsq	$4294967296, %rbp
	movq	%r15, %r11
	shrq	$32, %r11
	shrq	$32, %r14
	subq	%rbx, %rcx
	leaq	(%rcx,%rbp), %rdi
	leaq	(%rdx,%rbp), %rbx
	cmpq	%rdi, %rbx
	leaq	(%rcx,%rbp), %rdi
	cmovbq	%rbx, %rdi
	movq	%rsi, 168(%rsp)
	addq	%rbp, %rsi
	movq	%rsi, 64(%rsp)
	cmpq	%rdi, %rsi
	cmovbq	%rsi, %rdi
	movq	%rbp, %rbx
	subq	%rdi, %rbx
	movl	$0, %edi
	cmovbq	%rdi, %rbx
	orq	%rbp, %r13
	leaq	(%rcx,%rbp), %rsi
	subq	%rsi, %r13
	cmovbq	%rdi, %r13
	movl	%r15d, %r15d
	orq	%rbp, %r15
	leaq	(%rdx,%rbp), %rdi
	subq	%rdi, %r15
	movl	96(%rsp), %edi
	movl	$0, %esi
	cmovbq	%rsi, %r15
	xorl	%esi, %esi
	orq	%rbp, %rdi
	subq	64(%rsp), %rdi
	movl	$0, %ebp
	movq	%rbp, 208(%rsp)
	cmovbq	%rsi, %rdi
	cmpl	%r8d, %r9d
	cmovbl	%r9d, %r8d
	movl	368(%rsp), %r9d
	cmpl	%r8d, %r9d
	cmovbl	%r9d, %r8d
	cmpq	%r8, %r13
	cmovaeq	%r8, %r13
	movslq	364(%rsp), %r8
	movq	%r8, 72(%rsp)
	cmpq	%r13, %r15
	cmovbq	%r15, %r13
	movl	372(%rsp), %r15d
	cmpq	%r13, %rdi
	cmovbq	%rdi, %r13
	movl	$0, %ebp
	movl	$0, %edi
	movq	%rdi, 232(%rsp)
	movl	$0, %r8d
	cmpq	%rbx, %r13
	jbe	.LBB_9ba498_478
	leaq	(%rbx,%rcx), %rdi
	movq	%rdi, 208(%rsp)
	addq	%rcx, %r13
	addq	%rbx, %rdx
	movq	168(%rsp), %r8
	addq	%rbx, %r8
	movq	%r13, %rbp
	movq	%rdx, 232(%rsp)
.LBB_9ba498_478:
	subq	48(%rsp), %r10
	movabsq	$4294967296, %rsi
	leaq	(%r10,%rsi), %r9
	movq	32(%rsp), %rcx
	leaq	(%rcx,%rsi), %rbx
	movq	72(%rsp), %rcx
	leaq	(%rcx,%rsi), %rdx
	cmpq	%r9, %rbx
	movq	%r9, %rdi
	cmovbq	%rbx, %rdi
	cmpq	%rdi, %rdx
	cmovbq	%rdx, %rdi
	xorl	%r13d, %r13d
	movq	%rsi, %rcx
	subq	%rdi, %rcx
	cmovbq	%r13, %rcx
	orq	%rsi, %r12
	subq	%r9, %r12
	cmovbq	%r13, %r12
	orq	%rsi, %r11
	subq	%rbx, %r11
	cmovbq	%r13, %r11
	orq	%rsi, %r14
	subq	%rdx, %r14
	cmovbq	%r13, %r14
	movl	80(%rsp), %edi
	cmpl	%eax, %edi
	cmovbl	%edi, %eax
	cmpl	%eax, %r15d
	cmovbl	%r15d, %eax
	cmpq	%rax, %r12
	cmovaeq	%rax, %r12
	cmpq	%r12, %r11
	cmovbq	%r11, %r12
	cmpq	%r12, %r14
	cmovbq	%r14, %r12
	cmpq	%rcx, %r12
	jbe	.LBB_9ba498_452
	leaq	(%rcx,%r10), %rax
	addq	%r10, %r12
	movq	%rax, 200(%rsp)
	cmpq	%r12, %rax
	jae	.LBB_9ba498_452
	movq	352(%rsp), %r10
	movabsq	$4294967296, %r13
	movq	32(%rsp), %rsi
	leaq	(%rcx,%rsi), %rax
	movq	%rax, 192(%rsp)
	addq	%rcx, 72(%rsp)
	movq	176(%rsp), %r15
	leaq	(%r15,%r8), %rax
	movq	%rax, 216(%rsp)
	subq	208(%rsp), %rbp
	movq	%rbp, %rax
	shrq	$4, %rax
	movq	%rax, 48(%rsp)
	movq	%rbp, %rcx
	andq	$-16, %rcx
	movl	%ebp, %edi
	andl	$15, %edi
	movl	%ebp, %eax
	andl	$8, %eax
	movq	%rax, 168(%rsp)
	movl	%ebp, %r11d
	andl	$12, %r11d
	addq	%r13, %rsi
	cmpq	%rbx, %r9
	cmovbq	%r9, %rbx
	leaq	(,%rcx,4), %r14
	cmpq	%rdx, %rbx
	cmovaeq	%rdx, %rbx
	cmpq	%r13, %rbx
	cmovaeq	%r13, %rbx
	subq	%rbx, %rsi
	imulq	24(%rsp), %rsi
	movq	232(%rsp), %rax
	leaq	(,%rax,4), %rax
	leaq	(%rax,%rsi,4), %r9
	subq	%rbx, %rdx
	movq	(%rsp), %r13
	movq	%r13, %rax
	imulq	200(%rsp), %rax
	movq	%r10, 80(%rsp)
	imulq	%r10, %rdx
	addq	%r8, %rdx
	movq	%rcx, 96(%rsp)
	movq	%r11, 240(%rsp)
	leaq	(%rcx,%r11), %r8
	addq	%r15, %r8
	leaq	(%r15,%rdx), %r10
	addq	%rdx, %r8
	movq	208(%rsp), %rbx
	leaq	(,%rbx,4), %rcx
	leaq	(%rcx,%rax,4), %r15
	leaq	(%r14,%rsi,4), %rcx
	movq	%rbp, 32(%rsp)
	leal	(,%rbp,4), %edx
	andl	$48, %edx
	addq	%rdx, %rcx
	movq	%r14, 224(%rsp)
	leaq	(%r14,%rax,4), %rax
	addq	%rdx, %rax
	movq	8(%rsp), %r11
	addq	%r11, %r9
	movq	16(%rsp), %rdx
	addq	%rdx, %r15
	movq	232(%rsp), %rsi
	leaq	(%rcx,%rsi,4), %rsi
	addq	%r11, %rsi
	leaq	(%rax,%rbx,4), %r11
	addq	%rdx, %r11
	movq	24(%rsp), %rax
	leaq	(,%rax,4), %rax
	movq	%rax, 176(%rsp)
	leaq	(,%r13,4), %rax
	movq	%rax, 64(%rsp)
	movq	200(%rsp), %r13
	jmp	.LBB_9ba498_482
.LBB_9ba498_481:
	incq	%r13
	movq	176(%rsp), %rcx
	addq	%rcx, %r9
	movq	64(%rsp), %rdx
	addq	%rdx, %r15
	movq	80(%rsp), %rax
	addq	%rax, %r10
	addq	%rax, %r8
	addq	%rcx, %rsi
	addq	%rdx, %r11
	cmpq	%r12, %r13
	je	.LBB_9ba498_452
.LBB_9ba498_482:
	cmpq	$0, 48(%rsp)
	je	.LBB_9ba498_485
	movl	$8, %ebx
	movq	48(%rsp), %rbp
	.p2align	4
.LBB_9ba498_484:
	movdqu	-32(%r9,%rbx,4), %xmm3
	movdqu	-16(%r9,%rbx,4), %xmm4
	movq	-8(%r10,%rbx), %xmm6
	punpcklbw	%xmm6, %xmm6
	movdqa	%xmm6, %xmm8
	punpckhwd	%xmm6, %xmm8
	punpcklwd	%xmm6, %xmm6
	movdqa	.LCPI_9ba498_0(%rip), %xmm0
	movdqa	%xmm3, %xmm1
	pand	%xmm0, %xmm1
	movdqa	%xmm4, %xmm2
	pand	%xmm0, %xmm2
	movdqa	%xmm6, %xmm9
	pand	%xmm0, %xmm9
	pmullw	%xmm1, %xmm9
	movdqa	%xmm8, %xmm10
	pand	%xmm0, %xmm10
	pmullw	%xmm2, %xmm10
	movdqa	.LCPI_9ba498_1(%rip), %xmm1
	paddw	%xmm1, %xmm9
	paddw	%xmm1, %xmm10
	movdqa	.LCPI_9ba498_2(%rip), %xmm2
	pmulhuw	%xmm2, %xmm10
	pmulhuw	%xmm2, %xmm9
	psrlw	$8, %xmm4
	psrlw	$8, %xmm3
	psrlw	$8, %xmm8
	pmullw	%xmm4, %xmm8
	psrlw	$8, %xmm6
	pmullw	%xmm3, %xmm6
	paddw	%xmm1, %xmm8
	paddw	%xmm1, %xmm6
	pmulhuw	%xmm2, %xmm6
	pmulhuw	%xmm2, %xmm8
	psllw	$8, %xmm8
	psllw	$8, %xmm6
	pcmpeqd	%xmm5, %xmm5
	movdqu	-32(%r15,%rbx,4), %xmm11
	movdqu	-16(%r15,%rbx,4), %xmm12
	movdqu	(%r15,%rbx,4), %xmm3
	movdqu	16(%r15,%rbx,4), %xmm4
	movdqa	%xmm12, %xmm13
	pxor	%xmm5, %xmm13
	movdqa	%xmm11, %xmm14
	pxor	%xmm5, %xmm14
	movdqa	.LCPI_9ba498_5(%rip), %xmm7
	pshufb	%xmm7, %xmm14
	pshufb	%xmm7, %xmm13
	por	%xmm9, %xmm6
	por	%xmm10, %xmm8
	pmullw	%xmm13, %xmm10
	pmullw	%xmm14, %xmm9
	paddw	%xmm1, %xmm9
	paddw	%xmm1, %xmm10
	pmulhuw	%xmm2, %xmm10
	pmulhuw	%xmm2, %xmm9
	psrlw	$8, %xmm8
	psrlw	$8, %xmm6
	pmullw	%xmm14, %xmm6
	pmullw	%xmm13, %xmm8
	paddw	%xmm1, %xmm8
	paddw	%xmm1, %xmm6
	pmulhuw	%xmm2, %xmm6
	pmulhuw	%xmm2, %xmm8
	psllw	$8, %xmm8
	por	%xmm10, %xmm8
	psllw	$8, %xmm6
	por	%xmm9, %xmm6
	paddusb	%xmm12, %xmm8
	paddusb	%xmm11, %xmm6
	movdqu	%xmm6, -32(%r15,%rbx,4)
	movdqu	%xmm8, -16(%r15,%rbx,4)
	movdqu	(%r9,%rbx,4), %xmm10
	movdqu	16(%r9,%rbx,4), %xmm11
	movq	(%r10,%rbx), %xmm6
	punpcklbw	%xmm6, %xmm6
	movdqa	%xmm6, %xmm8
	punpckhwd	%xmm6, %xmm8
	punpcklwd	%xmm6, %xmm6
	movdqa	%xmm10, %xmm12
	pand	%xmm0, %xmm12
	movdqa	%xmm11, %xmm13
	pand	%xmm0, %xmm13
	movdqa	%xmm6, %xmm9
	pand	%xmm0, %xmm9
	pmullw	%xmm12, %xmm9
	pand	%xmm8, %xmm0
	pmullw	%xmm13, %xmm0
	paddw	%xmm1, %xmm9
	paddw	%xmm1, %xmm0
	pmulhuw	%xmm2, %xmm0
	pmulhuw	%xmm2, %xmm9
	psrlw	$8, %xmm11
	psrlw	$8, %xmm10
	psrlw	$8, %xmm8
	pmullw	%xmm11, %xmm8
	psrlw	$8, %xmm6
	pmullw	%xmm10, %xmm6
	paddw	%xmm1, %xmm8
	paddw	%xmm1, %xmm6
	pmulhuw	%xmm2, %xmm6
	pmulhuw	%xmm2, %xmm8
	psllw	$8, %xmm8
	psllw	$8, %xmm6
	movdqa	%xmm4, %xmm10
	pxor	%xmm5, %xmm10
	pxor	%xmm3, %xmm5
	pshufb	%xmm7, %xmm5
	pshufb	%xmm7, %xmm10
	por	%xmm9, %xmm6
	por	%xmm0, %xmm8
	pmullw	%xmm10, %xmm0
	pmullw	%xmm5, %xmm9
	paddw	%xmm1, %xmm9
	paddw	%xmm1, %xmm0
	pmulhuw	%xmm2, %xmm0
	pmulhuw	%xmm2, %xmm9
	psrlw	$8, %xmm8
	psrlw	$8, %xmm6
	pmullw	%xmm5, %xmm6
	pmullw	%xmm10, %xmm8
	paddw	%xmm1, %xmm8
	paddw	%xmm1, %xmm6
	pmulhuw	%xmm2, %xmm6
	pmulhuw	%xmm2, %xmm8
	psllw	$8, %xmm8
	por	%xmm0, %xmm8
	psllw	$8, %xmm6
	por	%xmm9, %xmm6
	paddusb	%xmm4, %xmm8
	paddusb	%xmm3, %xmm6
	movdqu	%xmm6, (%r15,%rbx,4)
	movdqu	%xmm8, 16(%r15,%rbx,4)
	addq	$16, %rbx
	decq	%rbp
	jne	.LBB_9ba498_484
.LBB_9ba498_485:
	movq	96(%rsp), %rax
	cmpq	32(%rsp), %rax
	je	.LBB_9ba498_481
	movq	%r13, %rax
	imulq	(%rsp), %rax
	addq	208(%rsp), %rax
	movq	%r13, %rbp
	subq	200(%rsp), %rbp
	movq	192(%rsp), %rcx
	addq	%rbp, %rcx
	imulq	24(%rsp), %rcx
	addq	232(%rsp), %rcx
	addq	72(%rsp), %rbp
	imulq	80(%rsp), %rbp
	addq	216(%rsp), %rbp
	movq	16(%rsp), %rdx
	leaq	(%rdx,%rax,4), %rbx
	movq	8(%rsp), %rax
	leaq	(%rax,%rcx,4), %r14
	movq	224(%rsp), %rax
	addq	%rax, %rbx
	addq	%rax, %r14
	addq	96(%rsp), %rbp
	cmpq	$0, 168(%rsp)
	jne	.LBB_9ba498_489
	testb	$4, 32(%rsp)
	jne	.LBB_9ba498_490
.LBB_9ba498_488:
	cmpl	%edi, 240(%rsp)
	je	.LBB_9ba498_481
	jmp	.LBB_9ba498_491
.LBB_9ba498_489:
	movdqu	(%r14), %xmm6
	movdqu	16(%r14), %xmm7
	movq	(%rbp), %xmm0
	punpcklbw	%xmm0, %xmm0
	movdqa	%xmm0, %xmm1
	punpckhwd	%xmm0, %xmm1
	punpcklwd	%xmm0, %xmm0
	movdqa	.LCPI_9ba498_0(%rip), %xmm2
	movdqa	%xmm6, %xmm4
	pand	%xmm2, %xmm4
	movdqa	%xmm7, %xmm5
	pand	%xmm2, %xmm5
	movdqa	%xmm0, %xmm3
	pand	%xmm2, %xmm3
	pmullw	%xmm4, %xmm3
	pand	%xmm1, %xmm2
	pmullw	%xmm5, %xmm2
	movdqa	.LCPI_9ba498_1(%rip), %xmm4
	paddw	%xmm4, %xmm3
	paddw	%xmm4, %xmm2
	movdqa	.LCPI_9ba498_2(%rip), %xmm5
	pmulhuw	%xmm5, %xmm2
	pmulhuw	%xmm5, %xmm3
	psrlw	$8, %xmm7
	psrlw	$8, %xmm6
	psrlw	$8, %xmm1
	pmullw	%xmm7, %xmm1
	psrlw	$8, %xmm0
	pmullw	%xmm6, %xmm0
	paddw	%xmm4, %xmm1
	paddw	%xmm4, %xmm0
	pmulhuw	%xmm5, %xmm0
	pmulhuw	%xmm5, %xmm1
	psllw	$8, %xmm1
	psllw	$8, %xmm0
	movdqu	(%rbx), %xmm6
	movdqu	16(%rbx), %xmm7
	pcmpeqd	%xmm8, %xmm8
	movdqa	%xmm7, %xmm9
	pxor	%xmm8, %xmm9
	pxor	%xmm6, %xmm8
	movdqa	.LCPI_9ba498_5(%rip), %xmm10
	pshufb	%xmm10, %xmm8
	pshufb	%xmm10, %xmm9
	por	%xmm3, %xmm0
	por	%xmm2, %xmm1
	pmullw	%xmm9, %xmm2
	pmullw	%xmm8, %xmm3
	paddw	%xmm4, %xmm3
	paddw	%xmm4, %xmm2
	pmulhuw	%xmm5, %xmm2
	pmulhuw	%xmm5, %xmm3
	psrlw	$8, %xmm1
	psrlw	$8, %xmm0
	pmullw	%xmm8, %xmm0
	pmullw	%xmm9, %xmm1
	paddw	%xmm4, %xmm1
	paddw	%xmm4, %xmm0
	pmulhuw	%xmm5, %xmm0
	pmulhuw	%xmm5, %xmm1
	psllw	$8, %xmm1
	por	%xmm2, %xmm1
	psllw	$8, %xmm0
	por	%xmm3, %xmm0
	paddusb	%xmm7, %xmm1
	paddusb	%xmm6, %xmm0
	movdqu	%xmm0, (%rbx)
	movdqu	%xmm1, 16(%rbx)
	testb	$4, 32(%rsp)
	je	.LBB_9ba498_488
.LBB_9ba498_490:
	movq	168(%rsp), %rax
	leal	(,%rax,4), %ecx
	movdqu	(%r14,%rcx), %xmm5
	movd	(%rbp,%rax), %xmm0
	punpcklbw	%xmm0, %xmm0
	punpcklwd	%xmm0, %xmm0
	movdqa	.LCPI_9ba498_0(%rip), %xmm3
	movdqa	%xmm5, %xmm1
	pand	%xmm3, %xmm1
	movdqa	%xmm0, %xmm4
	pand	%xmm3, %xmm4
	pmullw	%xmm1, %xmm4
	movdqa	.LCPI_9ba498_1(%rip), %xmm1
	paddw	%xmm1, %xmm4
	movdqa	.LCPI_9ba498_2(%rip), %xmm2
	pmulhuw	%xmm2, %xmm4
	psrlw	$8, %xmm5
	psrlw	$8, %xmm0
	pmullw	%xmm5, %xmm0
	paddw	%xmm1, %xmm0
	pmulhuw	%xmm2, %xmm0
	psllw	$8, %xmm0
	movdqu	(%rbx,%rcx), %xmm5
	pcmpeqd	%xmm6, %xmm6
	por	%xmm4, %xmm0
	movdqa	%xmm5, %xmm7
	pshufb	.LCPI_9ba498_6(%rip), %xmm7
	pxor	%xmm7, %xmm6
	pandn	%xmm3, %xmm7
	pmullw	%xmm4, %xmm7
	paddw	%xmm1, %xmm7
	pmulhuw	%xmm2, %xmm7
	psrlw	$8, %xmm0
	psrlw	$8, %xmm6
	pmullw	%xmm0, %xmm6
	paddw	%xmm1, %xmm6
	pmulhuw	%xmm2, %xmm6
	psllw	$8, %xmm6
	por	%xmm7, %xmm6
	paddusb	%xmm5, %xmm6
	movdqu	%xmm6, (%rbx,%rcx)
	cmpl	%edi, 240(%rsp)
	je	.LBB_9ba498_481
.LBB_9ba498_491:
	xorl	%ebx, %ebx
	movq	240(%rsp), %r14
	.p2align	4
.LBB_9ba498_492:
	movl	(%rsi,%rbx,4), %edx
	movzbl	%dh, %ecx
	movl	%edx, %eax
	movzbl	%dl, %ebp
	shrl	$16, %edx
	shrl	$24, %eax
	movzbl	%dl, %edx
	movd	%edx, %xmm0
	pinsrw	$1, %eax, %xmm0
	pinsrw	$2, %ecx, %xmm0
	pinsrw	$3, %ebp, %xmm0
	movzbl	(%r8,%rbx), %eax
	movd	%eax, %xmm1
	pshuflw	$0, %xmm1, %xmm2
	pmullw	%xmm0, %xmm2
	movl	(%r11,%rbx,4), %ecx
	movl	%ecx, %ebp
	shrl	$24, %ebp
	movdqa	.LCPI_9ba498_3(%rip), %xmm0
	paddw	%xmm0, %xmm2
	movdqa	%xmm2, %xmm1
	psrlw	$8, %xmm1
	paddw	%xmm2, %xmm1
	psrlw	$8, %xmm1
	movd	%ecx, %xmm2
	psrld	$16, %xmm2
	pinsrb	$1, %ebp, %xmm2
	movl	%ebp, %eax
	notb	%al
	movzbl	%al, %eax
	movd	%eax, %xmm3
	pshuflw	$0, %xmm3, %xmm3
	pmullw	%xmm1, %xmm3
	movl	%ecx, %eax
	shrl	$8, %eax
	paddw	%xmm0, %xmm3
	movdqa	%xmm3, %xmm0
	psrlw	$8, %xmm0
	paddw	%xmm3, %xmm0
	psrlw	$8, %xmm0
	packuswb	%xmm0, %xmm0
	pinsrb	$2, %eax, %xmm2
	pinsrb	$3, %ecx, %xmm2
	paddusb	%xmm0, %xmm2
	pmovzxbd	%xmm2, %xmm0
	pmulld	.LCPI_9ba498_4(%rip), %xmm0
	pshufd	$238, %xmm0, %xmm1
	por	%xmm0, %xmm1
	pshufd	$85, %xmm1, %xmm0
	por	%xmm1, %xmm0
	movd	%xmm0, (%r11,%rbx,4)
	incq	%r14
	incq	%rbx
	cmpq	%rdi, %r14
	jb	.LBB_9ba498_492
	jmp	.LBB_9ba498_481
.LBB_9ba498_493:
	testq	%r13, %r13
	je	.LBB_9ba498_452
	subq	%rbx, %rcx
	movabsq	$4294967296, %rdx
	addq	%rdx, %rcx
	cmpq	%rdx, %rcx
	movq	%rdx, %r11
	cmovaq	%rcx, %r11
	movabsq	$-4294967296, %r9
	addq	%rdi, %rcx
	orq	%rdx, %r13
	cmpq	%rcx, %r13
	cmovaeq	%rcx, %r13
	leaq	(%r11,%r9), %rsi
	xorl	%ecx, %ecx
	cmpq	%r11, %r13
	cmovbeq	%rcx, %rsi
	movq	%rsi, 64(%rsp)
	subq	(%rsp), %r10
	addq	%rdx, %r10
	cmpq	%rdx, %r10
	movq	%rdx, %rsi
	cmovaq	%r10, %rsi
	addq	%rax, %r10
	movq	8(%rsp), %rdi
	orq	%rdx, %rdi
	cmpq	%r10, %rdi
	cmovaeq	%r10, %rdi
	leaq	(%rsi,%r9), %rdx
	cmpq	%rsi, %rdi
	cmovbeq	%rcx, %rdx
	movq	%rdx, (%rsp)
	jbe	.LBB_9ba498_452
	movq	%rdi, %rax
	addq	%r9, %rax
	movq	%rax, 8(%rsp)
	cmpq	(%rsp), %rax
	jbe	.LBB_9ba498_452
	movq	48(%rsp), %rax
	movl	(%rax), %ecx
	movzbl	%ch, %edi
	movl	%ecx, %r8d
	shrl	$16, %r8d
	movl	%ecx, %esi
	shrl	$24, %esi
	addq	%r13, %r9
	xorl	%edx, %edx
	cmpq	%r11, %r13
	cmovaq	%r9, %rdx
	movq	64(%rsp), %rax
	subq	%rax, %rdx
	movq	%rdx, %r9
	shrq	$4, %r9
	movq	%r9, 24(%rsp)
	movl	%ecx, %ebx
	shrl	$8, %ebx
	movd	%ecx, %xmm0
	pinsrb	$1, %ebx, %xmm0
	pinsrb	$2, %r8d, %xmm0
	pinsrb	$3, %esi, %xmm0
	pinsrb	$4, %ecx, %xmm0
	pinsrb	$5, %ebx, %xmm0
	pinsrb	$6, %r8d, %xmm0
	pinsrb	$7, %esi, %xmm0
	pinsrb	$8, %ecx, %xmm0
	pinsrb	$9, %ebx, %xmm0
	pinsrb	$10, %r8d, %xmm0
	pinsrb	$11, %esi, %xmm0
	pinsrb	$12, %ecx, %xmm0
	pinsrb	$13, %ebx, %xmm0
	pinsrb	$14, %r8d, %xmm0
	movdqa	.LCPI_9ba498_0(%rip), %xmm1
	pand	%xmm0, %xmm1
	pinsrb	$15, %esi, %xmm0
	psrlw	$8, %xmm0
	movq	%rdx, %r10
	andq	$-16, %r10
	leaq	(,%r10,4), %r9
	movq	%r9, 72(%rsp)
	movl	%edx, %r11d
	andl	$15, %r11d
	leal	(,%rdx,4), %r9d
	movl	%r9d, %ebx
	andl	$32, %ebx
	movq	%rbx, 168(%rsp)
	movq	%rdx, 48(%rsp)
	andl	$12, %edx
	movq	%rdx, 176(%rsp)
	movzbl	%cl, %ebp
	movzbl	%r8b, %r13d
	movq	(%rsp), %rcx
	movq	32(%rsp), %rdx
	imulq	%rdx, %rcx
	addq	%rax, %rcx
	movq	16(%rsp), %rax
	leaq	(%rax,%rcx,4), %r15
	andl	$48, %r9d
	movq	%r10, 80(%rsp)
	leaq	(%r9,%r10,4), %r8
	leaq	(%r8,%rcx,4), %r14
	leaq	(,%rdx,4), %rcx
	movq	%rcx, 96(%rsp)
	addq	%rax, %r14
	jmp	.LBB_9ba498_498
.LBB_9ba498_497:
	movq	(%rsp), %rax
	incq	%rax
	movq	96(%rsp), %rcx
	addq	%rcx, %r15
	addq	%rcx, %r14
	movq	%rax, (%rsp)
	cmpq	8(%rsp), %rax
	je	.LBB_9ba498_452
.LBB_9ba498_498:
	cmpq	$0, 24(%rsp)
	je	.LBB_9ba498_501
	movq	%r15, %r10
	movq	24(%rsp), %r8
	.p2align	4
.LBB_9ba498_500:
	movdqa	.LCPI_9ba498_5(%rip), %xmm6
	movdqu	(%r10), %xmm8
	movdqu	16(%r10), %xmm7
	movdqu	32(%r10), %xmm3
	movdqu	48(%r10), %xmm2
	pshufb	%xmm6, %xmm7
	pshufb	%xmm6, %xmm8
	movdqa	%xmm1, %xmm9
	pmullw	%xmm8, %xmm9
	movdqa	%xmm1, %xmm10
	pmullw	%xmm7, %xmm10
	movdqa	.LCPI_9ba498_1(%rip), %xmm4
	paddw	%xmm4, %xmm10
	paddw	%xmm4, %xmm9
	movdqa	.LCPI_9ba498_2(%rip), %xmm5
	pmulhuw	%xmm5, %xmm9
	pmulhuw	%xmm5, %xmm10
	pmullw	%xmm0, %xmm7
	pmullw	%xmm0, %xmm8
	paddw	%xmm4, %xmm8
	paddw	%xmm4, %xmm7
	pmulhuw	%xmm5, %xmm7
	pmulhuw	%xmm5, %xmm8
	psllw	$8, %xmm8
	por	%xmm9, %xmm8
	psllw	$8, %xmm7
	por	%xmm10, %xmm7
	movdqu	%xmm8, (%r10)
	movdqu	%xmm7, 16(%r10)
	pshufb	%xmm6, %xmm2
	pshufb	%xmm6, %xmm3
	movdqa	%xmm1, %xmm6
	pmullw	%xmm3, %xmm6
	movdqa	%xmm1, %xmm7
	pmullw	%xmm2, %xmm7
	paddw	%xmm4, %xmm7
	paddw	%xmm4, %xmm6
	pmulhuw	%xmm5, %xmm6
	pmulhuw	%xmm5, %xmm7
	pmullw	%xmm0, %xmm2
	pmullw	%xmm0, %xmm3
	paddw	%xmm4, %xmm3
	paddw	%xmm4, %xmm2
	pmulhuw	%xmm5, %xmm2
	pmulhuw	%xmm5, %xmm3
	psllw	$8, %xmm3
	por	%xmm6, %xmm3
	psllw	$8, %xmm2
	por	%xmm7, %xmm2
	movdqu	%xmm3, 32(%r10)
	movdqu	%xmm2, 48(%r10)
	addq	$64, %r10
	decq	%r8
	jne	.LBB_9ba498_500
.LBB_9ba498_501:
	movq	80(%rsp), %rax
	cmpq	48(%rsp), %rax
	je	.LBB_9ba498_497
	movq	(%rsp), %rcx
	imulq	32(%rsp), %rcx
	addq	64(%rsp), %rcx
	movq	16(%rsp), %rax
	leaq	(%rax,%rcx,4), %r8
	addq	72(%rsp), %r8
	testb	$8, 48(%rsp)
	jne	.LBB_9ba498_505
	testb	$4, 48(%rsp)
	jne	.LBB_9ba498_506
.LBB_9ba498_504:
	cmpl	%r11d, 176(%rsp)
	jae	.LBB_9ba498_497
	jmp	.LBB_9ba498_507
.LBB_9ba498_505:
	movdqu	(%r8), %xmm3
	movdqu	16(%r8), %xmm2
	movdqa	.LCPI_9ba498_5(%rip), %xmm4
	pshufb	%xmm4, %xmm2
	pshufb	%xmm4, %xmm3
	movdqa	%xmm1, %xmm4
	pmullw	%xmm3, %xmm4
	movdqa	%xmm1, %xmm5
	pmullw	%xmm2, %xmm5
	movdqa	.LCPI_9ba498_1(%rip), %xmm6
	paddw	%xmm6, %xmm5
	paddw	%xmm6, %xmm4
	movdqa	.LCPI_9ba498_2(%rip), %xmm7
	pmulhuw	%xmm7, %xmm4
	pmulhuw	%xmm7, %xmm5
	pmullw	%xmm0, %xmm2
	pmullw	%xmm0, %xmm3
	paddw	%xmm6, %xmm3
	paddw	%xmm6, %xmm2
	pmulhuw	%xmm7, %xmm2
	pmulhuw	%xmm7, %xmm3
	psllw	$8, %xmm3
	por	%xmm4, %xmm3
	psllw	$8, %xmm2
	por	%xmm5, %xmm2
	movdqu	%xmm3, (%r8)
	movdqu	%xmm2, 16(%r8)
	testb	$4, 48(%rsp)
	je	.LBB_9ba498_504
.LBB_9ba498_506:
	movq	168(%rsp), %rax
	movdqu	(%r8,%rax), %xmm2
	pshufb	.LCPI_9ba498_6(%rip), %xmm2
	movdqa	.LCPI_9ba498_0(%rip), %xmm3
	pand	%xmm2, %xmm3
	pmullw	%xmm1, %xmm3
	movdqa	.LCPI_9ba498_1(%rip), %xmm4
	paddw	%xmm4, %xmm3
	movdqa	.LCPI_9ba498_2(%rip), %xmm5
	pmulhuw	%xmm5, %xmm3
	psrlw	$8, %xmm2
	pmullw	%xmm0, %xmm2
	paddw	%xmm4, %xmm2
	pmulhuw	%xmm5, %xmm2
	psllw	$8, %xmm2
	por	%xmm3, %xmm2
	movdqu	%xmm2, (%r8,%rax)
	cmpl	%r11d, 176(%rsp)
	jae	.LBB_9ba498_497
.LBB_9ba498_507:
	movq	%r14, %r8
	movq	176(%rsp), %r10
	.p2align	4
.LBB_9ba498_508:
	movzbl	3(%r8), %r12d
	movzwl	%bp, %ecx
	imull	%r12d, %ecx
	leal	128(%rcx), %eax
	movzbl	%ah, %eax
	addl	%ecx, %eax
	addl	$128, %eax
	movzbl	%ah, %ecx
	movzwl	%di, %eax
	imull	%r12d, %eax
	leal	128(%rax), %edx
	movzbl	%dh, %edx
	leal	(%rdx,%rax), %r9d
	addl	$128, %r9d
	andl	$65280, %r9d
	movzwl	%r13w, %eax
	imull	%r12d, %eax
	leal	128(%rax), %edx
	movzbl	%dh, %edx
	addl	%edx, %eax
	addl	$128, %eax
	movzwl	%si, %edx
	imull	%r12d, %edx
	leal	128(%rdx), %ebx
	movzbl	%bh, %ebx
	addl	%ebx, %edx
	addl	$128, %edx
	shll	$16, %edx
	andl	$-16777216, %edx
	shll	$8, %eax
	andl	$16711680, %eax
	orl	%edx, %eax
	orl	%r9d, %eax
	orl	%ecx, %eax
	movl	%eax, (%r8)
	incq	%r10
	addq	$4, %r8
	cmpq	%r11, %r10
	jb	.LBB_9ba498_508
	jmp	.LBB_9ba498_497
.LBB_9ba498_509:
	movq	%rsi, 64(%rsp)
	testq	%r13, %r13
	je	.LBB_9ba498_452
	movq	%r8, %r11
	shrq	$32, %r11
	subq	%r14, %r10
	movq	%rbx, 80(%rsp)
	movabsq	$4294967296, %rbx
	leaq	(%r10,%rbx), %rdi
	leaq	(%rbx,%rbp), %rsi
	cmpq	%rdi, %rsi
	movl	%r15d, 96(%rsp)
	movq	%rdi, %r15
	cmovbq	%rsi, %r15
	xorl	%edi, %edi
	movq	%rbx, %r14
	subq	%r15, %r14
	cmovbq	%rdi, %r14
	orq	%rbx, %r13
	leaq	(%r10,%rbx), %r15
	subq	%r15, %r13
	cmovbq	%rdi, %r13
	movl	%r8d, %r8d
	orq	%rbx, %r8
	subq	%rsi, %r8
	cmovbq	%rdi, %r8
	cmpl	%ecx, %edx
	cmovbl	%edx, %ecx
	cmpq	%rcx, %r13
	cmovaeq	%rcx, %r13
	cmpq	%r13, %r8
	cmovbq	%r8, %r13
	leaq	(%r14,%r10), %rcx
	addq	%r13, %r10
	addq	%r14, %rbp
	cmpq	%r14, %r13
	cmovbeq	%rdi, %rcx
	cmovbeq	%rdi, %r10
	cmovbeq	%rdi, %rbp
	subq	32(%rsp), %rax
	leaq	(%rax,%rbx), %r8
	movq	24(%rsp), %rsi
	leaq	(%rsi,%rbx), %r14
	cmpq	%r8, %r14
	movq	%r8, %r15
	cmovbq	%r14, %r15
	movq	%rbx, %rdx
	subq	%r15, %rdx
	cmovbq	%rdi, %rdx
	movq	(%rsp), %r15
	orq	%rbx, %r15
	subq	%r8, %r15
	cmovbq	%rdi, %r15
	orq	%rbx, %r11
	subq	%r14, %r11
	cmovbq	%rdi, %r11
	movl	96(%rsp), %r8d
	cmpl	%r9d, %r8d
	cmovbl	%r8d, %r9d
	cmpq	%r9, %r15
	cmovaeq	%r9, %r15
	cmpq	%r15, %r11
	cmovbq	%r11, %r15
	leaq	(%rdx,%rax), %r8
	addq	%r15, %rax
	addq	%rdx, %rsi
	cmpq	%rdx, %r15
	cmovbeq	%rdi, %r8
	cmovbeq	%rdi, %rax
	cmovbeq	%rdi, %rsi
	movq	64(%rsp), %rdx
	movl	(%rdx), %r9d
	movq	%rcx, 120(%rsp)
	movq	%r10, 128(%rsp)
	movq	%rbp, 136(%rsp)
	movq	%r8, 144(%rsp)
	movq	%rax, 152(%rsp)
	movq	%rsi, 160(%rsp)
	leaq	120(%rsp), %r8
	movq	%r12, %rdi
	movq	8(%rsp), %rsi
	movq	48(%rsp), %rdx
	movq	80(%rsp), %rcx
	callq	"pix_raster::view::blit_overlap::<#a1852713be2e9a48>"
	jmp	.LBB_9ba498_452
.LBB_9ba498_511:
	testq	%r13, %r13
	je	.LBB_9ba498_452
	subq	%rbx, %rcx
	movabsq	$4294967296, %r9
	addq	%r9, %rcx
	cmpq	%r9, %rcx
	movq	%r9, %rsi
	cmovaq	%rcx, %rsi
	movabsq	$-4294967296, %rdx
	addq	%rdi, %rcx
	orq	%r9, %r13
	cmpq	%rcx, %r13
	cmovaeq	%rcx, %r13
	leaq	(%rsi,%rdx), %r8
	xorl	%ecx, %ecx
	cmpq	%rsi, %r13
	cmovbeq	%rcx, %r8
	subq	32(%rsp), %r10
	addq	%r9, %r10
	cmpq	%r9, %r10
	movq	%r9, %rdi
	cmovaq	%r10, %rdi
	addq	%rax, %r10
	movq	(%rsp), %r11
	orq	%r9, %r11
	cmpq	%r10, %r11
	cmovaeq	%r10, %r11
	leaq	(%rdi,%rdx), %rax
	cmpq	%rdi, %r11
	cmovbeq	%rcx, %rax
	jbe	.LBB_9ba498_452
	movq	%r11, %r9
	addq	%rdx, %r9
	cmpq	%rax, %r9
	jbe	.LBB_9ba498_452
	addq	%r13, %rdx
	xorl	%ecx, %ecx
	cmpq	%rsi, %r13
	cmovaq	%rdx, %rcx
	subq	%r8, %rcx
	je	.LBB_9ba498_452
	movq	%r9, %rbx
	movq	48(%rsp), %rdx
	movl	(%rdx), %edx
	movq	%rcx, %rsi
	andq	$-8, %rsi
	movd	%edx, %xmm0
	pshufd	$0, %xmm0, %xmm0
	movq	%rax, %r9
	movq	8(%rsp), %r11
	imulq	%r11, %r9
	leaq	(,%r8,4), %rdi
	leaq	(%rdi,%r9,4), %rdi
	movq	16(%rsp), %r10
	addq	%r10, %rdi
	addq	$16, %rdi
	shlq	$2, %r11
	addq	%r8, %r9
	leaq	(%r10,%r9,4), %r8
	jmp	.LBB_9ba498_517
.LBB_9ba498_516:
	incq	%rax
	addq	%r11, %rdi
	addq	%r11, %r8
	cmpq	%rbx, %rax
	je	.LBB_9ba498_452
.LBB_9ba498_517:
	xorl	%r9d, %r9d
	cmpq	$8, %rcx
	jb	.LBB_9ba498_520
	.p2align	4
.LBB_9ba498_518:
	movdqu	%xmm0, -16(%rdi,%r9,4)
	movdqu	%xmm0, (%rdi,%r9,4)
	addq	$8, %r9
	cmpq	%r9, %rsi
	jne	.LBB_9ba498_518
	movq	%rsi, %r9
	cmpq	%rsi, %rcx
	je	.LBB_9ba498_516
	.p2align	4
.LBB_9ba498_520:
	movl	%edx, (%r8,%r9,4)
	incq	%r9
	cmpq	%r9, %rcx
	jne	.LBB_9ba498_520
	jmp	.LBB_9ba498_516
.LBB_9ba498_521:
	testq	%rbp, %rbp
	je	.LBB_9ba498_452
	subq	%rbx, %rcx
	movabsq	$4294967296, %rdx
	addq	%rdx, %rcx
	cmpq	%rdx, %rcx
	movq	%rdx, %r8
	cmovaq	%rcx, %r8
	movabsq	$-4294967296, %rdi
	addq	%r10, %rcx
	orq	%rdx, %rbp
	cmpq	%rcx, %rbp
	cmovaeq	%rcx, %rbp
	leaq	(%r8,%rdi), %r9
	xorl	%ecx, %ecx
	cmpq	%r8, %rbp
	cmovbeq	%rcx, %r9
	movq	%r9, 24(%rsp)
	subq	32(%rsp), %rax
	addq	%rdx, %rax
	cmpq	%rdx, %rax
	movq	%rdx, %r9
	cmovaq	%rax, %r9
	addq	%rsi, %rax
	movq	(%rsp), %rsi
	orq	%rdx, %rsi
	cmpq	%rax, %rsi
	cmovaeq	%rax, %rsi
	leaq	(%r9,%rdi), %r13
	cmpq	%r9, %rsi
	cmovbeq	%rcx, %r13
	jbe	.LBB_9ba498_452
	movq	%rsi, %rax
	addq	%rdi, %rax
	movq	%rax, (%rsp)
	cmpq	%r13, %rax
	jbe	.LBB_9ba498_452
	movq	48(%rsp), %rax
	movl	(%rax), %ebx
	movzbl	%bh, %ecx
	movl	%ebx, %r10d
	shrl	$16, %r10d
	movl	%ebx, %r11d
	shrl	$24, %r11d
	addq	%rbp, %rdi
	xorl	%r12d, %r12d
	cmpq	%r8, %rbp
	cmovaq	%rdi, %r12
	movq	24(%rsp), %rdx
	subq	%rdx, %r12
	movl	%ebx, %eax
	shrl	$8, %eax
	movd	%ebx, %xmm0
	pinsrb	$1, %eax, %xmm0
	pinsrb	$2, %r10d, %xmm0
	pinsrb	$3, %r11d, %xmm0
	pinsrb	$4, %ebx, %xmm0
	pinsrb	$5, %eax, %xmm0
	pinsrb	$6, %r10d, %xmm0
	pinsrb	$7, %r11d, %xmm0
	pinsrb	$8, %ebx, %xmm0
	pinsrb	$9, %eax, %xmm0
	pinsrb	$10, %r10d, %xmm0
	pinsrb	$11, %r11d, %xmm0
	pinsrb	$12, %ebx, %xmm0
	pinsrb	$13, %eax, %xmm0
	pinsrb	$14, %r10d, %xmm0
	movq	%r12, %rsi
	movdqa	%xmm0, %xmm1
	pinsrb	$15, %r11d, %xmm1
	shrq	$4, %rsi
	pcmpeqd	%xmm2, %xmm2
	pxor	%xmm1, %xmm2
	psrld	$24, %xmm2
	movdqa	%xmm2, %xmm3
	pshufb	.LCPI_9ba498_8(%rip), %xmm3
	movdqa	.LCPI_9ba498_0(%rip), %xmm4
	pand	%xmm4, %xmm0
	psrlw	$8, %xmm1
	movq	%r12, %r8
	andq	$-16, %r8
	movl	%r12d, %r9d
	andl	$15, %r9d
	leal	(,%r12,4), %r15d
	movzbl	%r10b, %eax
	movd	%eax, %xmm12
	movl	%r15d, %eax
	andl	$32, %eax
	movq	%rax, 96(%rsp)
	pshufb	.LCPI_9ba498_9(%rip), %xmm2
	movdqa	%xmm2, %xmm5
	pand	%xmm4, %xmm5
	movdqa	%xmm5, 176(%rsp)
	psrlw	$8, %xmm2
	movdqa	%xmm2, 80(%rsp)
	movzwl	%r11w, %eax
	pinsrw	$1, %eax, %xmm12
	pinsrw	$2, %ecx, %xmm12
	movl	%r12d, %r11d
	andl	$12, %r11d
	movzbl	%bl, %ecx
	pinsrw	$3, %ecx, %xmm12
	xorl	$255, %eax
	movd	%eax, %xmm2
	pshuflw	$0, %xmm2, %xmm13
	movq	%r13, %rax
	movq	8(%rsp), %rdi
	imulq	%rdi, %rax
	addq	%rdx, %rax
	movq	16(%rsp), %rdx
	leaq	(%rdx,%rax,4), %r14
	andl	$48, %r15d
	leaq	(%r15,%r8,4), %rcx
	leaq	(%rcx,%rax,4), %r15
	leaq	(,%rdi,4), %r10
	addq	%rdx, %r15
	movdqa	%xmm12, 48(%rsp)
	movdqa	%xmm13, 32(%rsp)
	jmp	.LBB_9ba498_526
.LBB_9ba498_525:
	incq	%r13
	addq	%r10, %r14
	addq	%r10, %r15
	cmpq	(%rsp), %r13
	je	.LBB_9ba498_452
.LBB_9ba498_526:
	testq	%rsi, %rsi
	je	.LBB_9ba498_529
	movq	%r14, %rbx
	movq	%rsi, %rbp
	.p2align	4
.LBB_9ba498_528:
	pcmpeqd	%xmm8, %xmm8
	movdqu	(%rbx), %xmm6
	movdqu	16(%rbx), %xmm7
	movdqu	32(%rbx), %xmm9
	movdqu	48(%rbx), %xmm10
	movdqa	%xmm7, %xmm15
	pxor	%xmm8, %xmm15
	movdqa	%xmm6, %xmm14
	pxor	%xmm8, %xmm14
	movdqa	.LCPI_9ba498_5(%rip), %xmm13
	pshufb	%xmm13, %xmm14
	pshufb	%xmm13, %xmm15
	movdqa	%xmm0, %xmm2
	pmullw	%xmm15, %xmm2
	movdqa	%xmm0, %xmm5
	pmullw	%xmm14, %xmm5
	movdqa	.LCPI_9ba498_1(%rip), %xmm11
	paddw	%xmm11, %xmm5
	paddw	%xmm11, %xmm2
	movdqa	.LCPI_9ba498_2(%rip), %xmm12
	pmulhuw	%xmm12, %xmm2
	pmulhuw	%xmm12, %xmm5
	pmullw	%xmm1, %xmm14
	pmullw	%xmm1, %xmm15
	paddw	%xmm11, %xmm15
	paddw	%xmm11, %xmm14
	pmulhuw	%xmm12, %xmm14
	pmulhuw	%xmm12, %xmm15
	psllw	$8, %xmm15
	por	%xmm2, %xmm15
	psllw	$8, %xmm14
	por	%xmm5, %xmm14
	movdqa	%xmm6, %xmm5
	pand	%xmm4, %xmm5
	movdqa	%xmm7, %xmm2
	pand	%xmm4, %xmm2
	pmullw	%xmm3, %xmm2
	pmullw	%xmm3, %xmm5
	paddw	%xmm11, %xmm5
	paddw	%xmm11, %xmm2
	pmulhuw	%xmm12, %xmm2
	pmulhuw	%xmm12, %xmm5
	psrlw	$8, %xmm7
	psrlw	$8, %xmm6
	pmullw	%xmm3, %xmm6
	pmullw	%xmm3, %xmm7
	paddw	%xmm11, %xmm7
	paddw	%xmm11, %xmm6
	pmulhuw	%xmm12, %xmm6
	pmulhuw	%xmm12, %xmm7
	psllw	$8, %xmm7
	por	%xmm2, %xmm7
	paddusb	%xmm15, %xmm7
	psllw	$8, %xmm6
	por	%xmm5, %xmm6
	paddusb	%xmm14, %xmm6
	movdqu	%xmm6, (%rbx)
	movdqu	%xmm7, 16(%rbx)
	movdqa	%xmm10, %xmm2
	pxor	%xmm8, %xmm2
	pxor	%xmm9, %xmm8
	pshufb	%xmm13, %xmm8
	pshufb	%xmm13, %xmm2
	movdqa	%xmm0, %xmm5
	pmullw	%xmm2, %xmm5
	movdqa	%xmm0, %xmm6
	pmullw	%xmm8, %xmm6
	paddw	%xmm11, %xmm6
	paddw	%xmm11, %xmm5
	pmulhuw	%xmm12, %xmm5
	pmulhuw	%xmm12, %xmm6
	pmullw	%xmm1, %xmm8
	pmullw	%xmm1, %xmm2
	paddw	%xmm11, %xmm2
	paddw	%xmm11, %xmm8
	pmulhuw	%xmm12, %xmm8
	pmulhuw	%xmm12, %xmm2
	psllw	$8, %xmm2
	por	%xmm5, %xmm2
	psllw	$8, %xmm8
	por	%xmm6, %xmm8
	movdqa	%xmm9, %xmm5
	pand	%xmm4, %xmm5
	movdqa	%xmm10, %xmm6
	pand	%xmm4, %xmm6
	pmullw	%xmm3, %xmm6
	pmullw	%xmm3, %xmm5
	paddw	%xmm11, %xmm5
	paddw	%xmm11, %xmm6
	pmulhuw	%xmm12, %xmm6
	pmulhuw	%xmm12, %xmm5
	psrlw	$8, %xmm10
	psrlw	$8, %xmm9
	pmullw	%xmm3, %xmm9
	pmullw	%xmm3, %xmm10
	paddw	%xmm11, %xmm10
	paddw	%xmm11, %xmm9
	pmulhuw	%xmm12, %xmm9
	pmulhuw	%xmm12, %xmm10
	psllw	$8, %xmm10
	por	%xmm6, %xmm10
	paddusb	%xmm2, %xmm10
	psllw	$8, %xmm9
	por	%xmm5, %xmm9
	paddusb	%xmm8, %xmm9
	movdqu	%xmm9, 32(%rbx)
	movdqu	%xmm10, 48(%rbx)
	addq	$64, %rbx
	decq	%rbp
	jne	.LBB_9ba498_528
.LBB_9ba498_529:
	cmpq	%r12, %r8
	movdqa	48(%rsp), %xmm12
	movdqa	32(%rsp), %xmm13
	je	.LBB_9ba498_525
	movq	%r13, %rax
	imulq	8(%rsp), %rax
	addq	24(%rsp), %rax
	movq	16(%rsp), %rcx
	leaq	(%rcx,%rax,4), %rbx
	leaq	(,%r8,4), %rax
	addq	%rax, %rbx
	testb	$8, %r12b
	jne	.LBB_9ba498_533
	testb	$4, %r12b
	jne	.LBB_9ba498_534
.LBB_9ba498_532:
	cmpl	%r9d, %r11d
	jae	.LBB_9ba498_525
	jmp	.LBB_9ba498_535
.LBB_9ba498_533:
	movdqu	(%rbx), %xmm8
	movdqu	16(%rbx), %xmm9
	pcmpeqd	%xmm10, %xmm10
	movdqa	%xmm9, %xmm2
	pxor	%xmm10, %xmm2
	pxor	%xmm8, %xmm10
	movdqa	.LCPI_9ba498_5(%rip), %xmm5
	pshufb	%xmm5, %xmm10
	pshufb	%xmm5, %xmm2
	movdqa	%xmm0, %xmm5
	pmullw	%xmm2, %xmm5
	movdqa	%xmm0, %xmm7
	pmullw	%xmm10, %xmm7
	movdqa	.LCPI_9ba498_1(%rip), %xmm6
	paddw	%xmm6, %xmm7
	paddw	%xmm6, %xmm5
	movdqa	.LCPI_9ba498_2(%rip), %xmm11
	pmulhuw	%xmm11, %xmm5
	pmulhuw	%xmm11, %xmm7
	pmullw	%xmm1, %xmm10
	pmullw	%xmm1, %xmm2
	paddw	%xmm6, %xmm2
	paddw	%xmm6, %xmm10
	pmulhuw	%xmm11, %xmm10
	pmulhuw	%xmm11, %xmm2
	psllw	$8, %xmm2
	por	%xmm5, %xmm2
	psllw	$8, %xmm10
	por	%xmm7, %xmm10
	movdqa	%xmm8, %xmm5
	pand	%xmm4, %xmm5
	movdqa	%xmm9, %xmm7
	pand	%xmm4, %xmm7
	pmullw	%xmm3, %xmm7
	pmullw	%xmm3, %xmm5
	paddw	%xmm6, %xmm5
	paddw	%xmm6, %xmm7
	pmulhuw	%xmm11, %xmm7
	pmulhuw	%xmm11, %xmm5
	psrlw	$8, %xmm9
	psrlw	$8, %xmm8
	pmullw	%xmm3, %xmm8
	pmullw	%xmm3, %xmm9
	paddw	%xmm6, %xmm9
	paddw	%xmm6, %xmm8
	pmulhuw	%xmm11, %xmm8
	pmulhuw	%xmm11, %xmm9
	psllw	$8, %xmm9
	por	%xmm7, %xmm9
	paddusb	%xmm2, %xmm9
	psllw	$8, %xmm8
	por	%xmm5, %xmm8
	paddusb	%xmm10, %xmm8
	movdqu	%xmm8, (%rbx)
	movdqu	%xmm9, 16(%rbx)
	testb	$4, %r12b
	je	.LBB_9ba498_532
.LBB_9ba498_534:
	movq	96(%rsp), %rax
	movdqu	(%rbx,%rax), %xmm2
	pcmpeqd	%xmm6, %xmm6
	movdqa	%xmm2, %xmm5
	pshufb	.LCPI_9ba498_6(%rip), %xmm5
	pxor	%xmm5, %xmm6
	pandn	%xmm4, %xmm5
	pmullw	%xmm0, %xmm5
	movdqa	.LCPI_9ba498_1(%rip), %xmm7
	paddw	%xmm7, %xmm5
	movdqa	.LCPI_9ba498_2(%rip), %xmm8
	pmulhuw	%xmm8, %xmm5
	psrlw	$8, %xmm6
	pmullw	%xmm1, %xmm6
	paddw	%xmm7, %xmm6
	pmulhuw	%xmm8, %xmm6
	psllw	$8, %xmm6
	por	%xmm5, %xmm6
	movdqa	%xmm2, %xmm5
	pand	%xmm4, %xmm5
	pmullw	176(%rsp), %xmm5
	paddw	%xmm7, %xmm5
	pmulhuw	%xmm8, %xmm5
	psrlw	$8, %xmm2
	pmullw	80(%rsp), %xmm2
	paddw	%xmm7, %xmm2
	pmulhuw	%xmm8, %xmm2
	psllw	$8, %xmm2
	por	%xmm5, %xmm2
	paddusb	%xmm6, %xmm2
	movdqu	%xmm2, (%rbx,%rax)
	cmpl	%r9d, %r11d
	jae	.LBB_9ba498_525
.LBB_9ba498_535:
	movq	%r15, %rbx
	movq	%r11, %rbp
	.p2align	4
.LBB_9ba498_536:
	movl	(%rbx), %ecx
	movzbl	%ch, %edi
	movl	%ecx, %edx
	movl	%ecx, %eax
	shrl	$16, %eax
	shrl	$24, %edx
	movzbl	%al, %eax
	movd	%eax, %xmm2
	pinsrw	$1, %edx, %xmm2
	movzbl	%cl, %eax
	xorl	$255, %edx
	movd	%edx, %xmm5
	pshuflw	$0, %xmm5, %xmm5
	pmullw	%xmm12, %xmm5
	movdqa	.LCPI_9ba498_3(%rip), %xmm6
	paddw	%xmm6, %xmm5
	movdqa	%xmm5, %xmm7
	psrlw	$8, %xmm7
	paddw	%xmm5, %xmm7
	psrlw	$8, %xmm7
	pinsrw	$2, %edi, %xmm2
	pinsrw	$3, %eax, %xmm2
	packuswb	%xmm7, %xmm7
	pmullw	%xmm13, %xmm2
	paddw	%xmm6, %xmm2
	movdqa	%xmm2, %xmm5
	psrlw	$8, %xmm5
	paddw	%xmm2, %xmm5
	psrlw	$8, %xmm5
	packuswb	%xmm5, %xmm5
	paddusb	%xmm7, %xmm5
	pmovzxbd	%xmm5, %xmm2
	pmulld	.LCPI_9ba498_4(%rip), %xmm2
	pshufd	$238, %xmm2, %xmm5
	por	%xmm2, %xmm5
	pshufd	$85, %xmm5, %xmm2
	por	%xmm5, %xmm2
	movd	%xmm2, (%rbx)
	incq	%rbp
	addq	$4, %rbx
	cmpq	%r9, %rbp
	jb	.LBB_9ba498_536
	jmp	.LBB_9ba498_525
.LBB_9ba498_537:
	movq	%r11, 176(%rsp)
	movq	%rbp, 80(%rsp)
	testq	%r13, %r13
	je	.LBB_9ba498_452
	movl	%esi, 96(%rsp)
	movq	344(%rsp), %r14
	movq	%r14, 64(%rsp)
	movslq	360(%rsp), %rbp
	movabsq	$4294967296, %r11
	movq	%r15, %r8
	shrq	$32, %r8
	shrq	$32, %r14
	subq	%rbx, %rcx
	leaq	(%rcx,%r11), %r12
	leaq	(%rdx,%r11), %rbx
	cmpq	%r12, %rbx
	movq	%r12, %rsi
	cmovbq	%rbx, %rsi
	movq	%rbp, 168(%rsp)
	leaq	(%r11,%rbp), %rbx
	movq	%rbx, 72(%rsp)
	cmpq	%rsi, %rbx
	cmovbq	%rbx, %rsi
	xorl	%ebp, %ebp
	movq	%r11, %rbx
	subq	%rsi, %rbx
	cmovbq	%rbp, %rbx
	orq	%r11, %r13
	subq	%r12, %r13
	cmovbq	%rbp, %r13
	movl	%r15d, %r15d
	orq	%r11, %r15
	leaq	(%rdx,%r11), %rsi
	subq	%rsi, %r15
	movl	64(%rsp), %esi
	cmovbq	%rbp, %r15
	orq	%r11, %rsi
	subq	72(%rsp), %rsi
	movl	$0, %r12d
	movq	%r12, 192(%rsp)
	cmovbq	%rbp, %rsi
	cmpl	%edi, %r9d
	cmovbl	%r9d, %edi
	movl	368(%rsp), %r9d
	cmpl	%edi, %r9d
	cmovbl	%r9d, %edi
	cmpq	%rdi, %r13
	cmovaeq	%rdi, %r13
	movslq	364(%rsp), %rdi
	movq	%rdi, 208(%rsp)
	cmpq	%r13, %r15
	cmovbq	%r15, %r13
	movl	372(%rsp), %edi
	cmpq	%r13, %rsi
	cmovbq	%rsi, %r13
	movl	$0, %ebp
	movl	$0, %esi
	movq	%rsi, 216(%rsp)
	movl	$0, %esi
	cmpq	%rbx, %r13
	jbe	.LBB_9ba498_540
	leaq	(%rbx,%rcx), %rsi
	movq	%rsi, 192(%rsp)
	addq	%rcx, %r13
	addq	%rbx, %rdx
	movq	168(%rsp), %rsi
	addq	%rbx, %rsi
	movq	%r13, %rbp
	movq	%rdx, 216(%rsp)
.LBB_9ba498_540:
	movq	%rsi, %r13
	subq	32(%rsp), %r10
	leaq	(%r10,%r11), %r15
	movq	24(%rsp), %rcx
	leaq	(%rcx,%r11), %rbx
	movq	208(%rsp), %rcx
	leaq	(%rcx,%r11), %rdx
	cmpq	%r15, %rbx
	movq	%r15, %rsi
	cmovbq	%rbx, %rsi
	cmpq	%rsi, %rdx
	cmovbq	%rdx, %rsi
	xorl	%r12d, %r12d
	movq	%r11, %rcx
	subq	%rsi, %rcx
	cmovbq	%r12, %rcx
	movq	(%rsp), %rsi
	orq	%r11, %rsi
	subq	%r15, %rsi
	cmovbq	%r12, %rsi
	orq	%r11, %r8
	subq	%rbx, %r8
	cmovbq	%r12, %r8
	orq	%r11, %r14
	subq	%rdx, %r14
	cmovbq	%r12, %r14
	movl	96(%rsp), %r9d
	cmpl	%eax, %r9d
	cmovbl	%r9d, %eax
	cmpl	%eax, %edi
	cmovbl	%edi, %eax
	cmpq	%rax, %rsi
	cmovaeq	%rax, %rsi
	cmpq	%rsi, %r8
	cmovbq	%r8, %rsi
	cmpq	%rsi, %r14
	cmovbq	%r14, %rsi
	cmpq	%rcx, %rsi
	jbe	.LBB_9ba498_452
	movq	%rsi, %rax
	leaq	(%rcx,%r10), %rsi
	addq	%r10, %rax
	movq	%rax, (%rsp)
	movq	%rsi, 224(%rsp)
	cmpq	%rax, %rsi
	jae	.LBB_9ba498_452
	movq	352(%rsp), %r9
	movq	%r11, %rsi
	movq	24(%rsp), %r11
	leaq	(%rcx,%r11), %rax
	movq	%rax, 248(%rsp)
	addq	%rcx, 208(%rsp)
	movq	176(%rsp), %rdi
	movq	%r13, 72(%rsp)
	leaq	(%rdi,%r13), %rax
	movq	%rax, 384(%rsp)
	subq	192(%rsp), %rbp
	movq	%rbp, %rax
	shrq	$4, %rax
	movq	%rax, 96(%rsp)
	movq	%rbp, %r8
	andq	$-16, %r8
	movl	%ebp, %r12d
	andl	$15, %r12d
	movl	%ebp, %eax
	andl	$8, %eax
	movq	%rax, 232(%rsp)
	movl	%ebp, %r10d
	andl	$12, %r10d
	addq	%rsi, %r11
	cmpq	%rbx, %r15
	cmovbq	%r15, %rbx
	leaq	(,%r8,4), %r14
	cmpq	%rdx, %rbx
	cmovaeq	%rdx, %rbx
	cmpq	%rsi, %rbx
	cmovaeq	%rsi, %rbx
	subq	%rbx, %r11
	imulq	80(%rsp), %r11
	movq	216(%rsp), %r15
	leaq	(,%r15,4), %rax
	leaq	(%rax,%r11,4), %rsi
	subq	%rbx, %rdx
	movq	8(%rsp), %rbx
	movq	%rbx, %rcx
	movq	224(%rsp), %r13
	imulq	%r13, %rcx
	movq	%r9, 64(%rsp)
	imulq	%r9, %rdx
	addq	72(%rsp), %rdx
	movq	%r8, 72(%rsp)
	movq	%r10, 200(%rsp)
	leaq	(%r8,%r10), %rax
	addq	%rdi, %rax
	leaq	(%rdi,%rdx), %r10
	addq	%rdx, %rax
	movq	192(%rsp), %r9
	leaq	(,%r9,4), %rdx
	leaq	(%rdx,%rcx,4), %r8
	leaq	(%r14,%r11,4), %rdx
	movq	%rax, %r11
	movq	%rbp, 176(%rsp)
	leal	(,%rbp,4), %edi
	andl	$48, %edi
	addq	%rdi, %rdx
	movq	%r14, 392(%rsp)
	leaq	(%r14,%rcx,4), %rcx
	addq	%rdi, %rcx
	movq	48(%rsp), %rdi
	addq	%rdi, %rsi
	movq	16(%rsp), %rax
	addq	%rax, %r8
	leaq	(%rdx,%r15,4), %r15
	addq	%rdi, %r15
	movq	%r12, %rdi
	leaq	(%rcx,%r9,4), %rcx
	addq	%rax, %rcx
	movq	80(%rsp), %rax
	leaq	(,%rax,4), %rax
	movq	%rax, 168(%rsp)
	leaq	(,%rbx,4), %rax
	movq	%rax, 240(%rsp)
	movq	%r13, 32(%rsp)
	movq	%rcx, %r13
	jmp	.LBB_9ba498_544
.LBB_9ba498_543:
	movq	32(%rsp), %r9
	incq	%r9
	movq	168(%rsp), %rcx
	addq	%rcx, %rsi
	movq	240(%rsp), %rdx
	addq	%rdx, %r8
	movq	64(%rsp), %rax
	movq	24(%rsp), %r10
	addq	%rax, %r10
	addq	%rax, %r11
	addq	%rcx, %r15
	addq	%rdx, %r13
	movq	%r9, 32(%rsp)
	cmpq	(%rsp), %r9
	je	.LBB_9ba498_452
.LBB_9ba498_544:
	cmpq	$0, 96(%rsp)
	je	.LBB_9ba498_547
	movl	$8, %ebx
	movq	96(%rsp), %rbp
	.p2align	4
.LBB_9ba498_546:
	movdqu	-32(%rsi,%rbx,4), %xmm4
	movdqu	-16(%rsi,%rbx,4), %xmm5
	movq	-8(%r10,%rbx), %xmm6
	punpcklbw	%xmm6, %xmm6
	movdqa	%xmm6, %xmm7
	punpckhwd	%xmm6, %xmm7
	punpcklwd	%xmm6, %xmm6
	movdqa	.LCPI_9ba498_0(%rip), %xmm0
	movdqa	%xmm4, %xmm1
	pand	%xmm0, %xmm1
	movdqa	%xmm5, %xmm2
	pand	%xmm0, %xmm2
	movdqa	%xmm6, %xmm3
	pand	%xmm0, %xmm3
	pmullw	%xmm1, %xmm3
	movdqa	%xmm7, %xmm8
	pand	%xmm0, %xmm8
	pmullw	%xmm2, %xmm8
	movdqa	.LCPI_9ba498_1(%rip), %xmm1
	paddw	%xmm1, %xmm3
	paddw	%xmm1, %xmm8
	movdqa	.LCPI_9ba498_2(%rip), %xmm2
	pmulhuw	%xmm2, %xmm8
	pmulhuw	%xmm2, %xmm3
	psrlw	$8, %xmm5
	psrlw	$8, %xmm4
	psrlw	$8, %xmm7
	pmullw	%xmm5, %xmm7
	psrlw	$8, %xmm6
	pmullw	%xmm4, %xmm6
	paddw	%xmm1, %xmm7
	paddw	%xmm1, %xmm6
	pmulhuw	%xmm2, %xmm6
	pmulhuw	%xmm2, %xmm7
	psllw	$8, %xmm7
	por	%xmm8, %xmm7
	psllw	$8, %xmm6
	por	%xmm3, %xmm6
	movdqa	.LCPI_9ba498_5(%rip), %xmm5
	pshufb	%xmm5, %xmm7
	pshufb	%xmm5, %xmm6
	movdqu	-32(%r8,%rbx,4), %xmm9
	movdqu	-16(%r8,%rbx,4), %xmm8
	movdqu	(%r8,%rbx,4), %xmm4
	movdqu	16(%r8,%rbx,4), %xmm3
	movdqa	%xmm8, %xmm10
	pand	%xmm0, %xmm10
	movdqa	%xmm9, %xmm11
	pand	%xmm0, %xmm11
	pmullw	%xmm6, %xmm11
	pmullw	%xmm7, %xmm10
	paddw	%xmm1, %xmm10
	paddw	%xmm1, %xmm11
	pmulhuw	%xmm2, %xmm11
	pmulhuw	%xmm2, %xmm10
	psrlw	$8, %xmm9
	psrlw	$8, %xmm8
	pmullw	%xmm7, %xmm8
	pmullw	%xmm6, %xmm9
	paddw	%xmm1, %xmm9
	paddw	%xmm1, %xmm8
	pmulhuw	%xmm2, %xmm8
	pmulhuw	%xmm2, %xmm9
	psllw	$8, %xmm9
	por	%xmm11, %xmm9
	psllw	$8, %xmm8
	por	%xmm10, %xmm8
	movdqu	%xmm9, -32(%r8,%rbx,4)
	movdqu	%xmm8, -16(%r8,%rbx,4)
	movdqu	(%rsi,%rbx,4), %xmm9
	movdqu	16(%rsi,%rbx,4), %xmm11
	movq	(%r10,%rbx), %xmm6
	punpcklbw	%xmm6, %xmm6
	movdqa	%xmm6, %xmm7
	punpckhwd	%xmm6, %xmm7
	punpcklwd	%xmm6, %xmm6
	movdqa	%xmm9, %xmm10
	pand	%xmm0, %xmm10
	movdqa	%xmm11, %xmm12
	pand	%xmm0, %xmm12
	movdqa	%xmm6, %xmm8
	pand	%xmm0, %xmm8
	pmullw	%xmm10, %xmm8
	movdqa	%xmm7, %xmm10
	pand	%xmm0, %xmm10
	pmullw	%xmm12, %xmm10
	paddw	%xmm1, %xmm8
	paddw	%xmm1, %xmm10
	pmulhuw	%xmm2, %xmm10
	pmulhuw	%xmm2, %xmm8
	psrlw	$8, %xmm11
	psrlw	$8, %xmm9
	psrlw	$8, %xmm7
	pmullw	%xmm11, %xmm7
	psrlw	$8, %xmm6
	pmullw	%xmm9, %xmm6
	paddw	%xmm1, %xmm7
	paddw	%xmm1, %xmm6
	pmulhuw	%xmm2, %xmm6
	pmulhuw	%xmm2, %xmm7
	psllw	$8, %xmm7
	por	%xmm10, %xmm7
	psllw	$8, %xmm6
	por	%xmm8, %xmm6
	pshufb	%xmm5, %xmm7
	pshufb	%xmm5, %xmm6
	movdqa	%xmm3, %xmm5
	pand	%xmm0, %xmm5
	pand	%xmm4, %xmm0
	pmullw	%xmm6, %xmm0
	pmullw	%xmm7, %xmm5
	paddw	%xmm1, %xmm5
	paddw	%xmm1, %xmm0
	pmulhuw	%xmm2, %xmm0
	pmulhuw	%xmm2, %xmm5
	psrlw	$8, %xmm4
	psrlw	$8, %xmm3
	pmullw	%xmm7, %xmm3
	pmullw	%xmm6, %xmm4
	paddw	%xmm1, %xmm4
	paddw	%xmm1, %xmm3
	pmulhuw	%xmm2, %xmm3
	pmulhuw	%xmm2, %xmm4
	psllw	$8, %xmm4
	por	%xmm0, %xmm4
	psllw	$8, %xmm3
	por	%xmm5, %xmm3
	movdqu	%xmm4, (%r8,%rbx,4)
	movdqu	%xmm3, 16(%r8,%rbx,4)
	addq	$16, %rbx
	decq	%rbp
	jne	.LBB_9ba498_546
.LBB_9ba498_547:
	movq	%r10, 24(%rsp)
	movq	72(%rsp), %rax
	cmpq	176(%rsp), %rax
	je	.LBB_9ba498_543
	movq	32(%rsp), %rbp
	movq	%rbp, %rcx
	imulq	8(%rsp), %rcx
	addq	192(%rsp), %rcx
	subq	224(%rsp), %rbp
	movq	248(%rsp), %rax
	leaq	(%rax,%rbp), %rdx
	imulq	80(%rsp), %rdx
	addq	216(%rsp), %rdx
	addq	208(%rsp), %rbp
	imulq	64(%rsp), %rbp
	addq	384(%rsp), %rbp
	movq	16(%rsp), %rax
	leaq	(%rax,%rcx,4), %rbx
	movq	48(%rsp), %rax
	leaq	(%rax,%rdx,4), %r14
	movq	392(%rsp), %rax
	addq	%rax, %rbx
	addq	%rax, %r14
	addq	72(%rsp), %rbp
	cmpq	$0, 232(%rsp)
	jne	.LBB_9ba498_551
	testb	$4, 176(%rsp)
	jne	.LBB_9ba498_552
.LBB_9ba498_550:
	cmpl	%edi, 200(%rsp)
	je	.LBB_9ba498_543
	jmp	.LBB_9ba498_553
.LBB_9ba498_551:
	movdqu	(%r14), %xmm6
	movdqu	16(%r14), %xmm7
	movq	(%rbp), %xmm1
	punpcklbw	%xmm1, %xmm1
	movdqa	%xmm1, %xmm2
	punpckhwd	%xmm1, %xmm2
	punpcklwd	%xmm1, %xmm1
	movdqa	.LCPI_9ba498_0(%rip), %xmm0
	movdqa	%xmm6, %xmm3
	pand	%xmm0, %xmm3
	movdqa	%xmm7, %xmm4
	pand	%xmm0, %xmm4
	movdqa	%xmm1, %xmm5
	pand	%xmm0, %xmm5
	pmullw	%xmm3, %xmm5
	movdqa	%xmm2, %xmm8
	pand	%xmm0, %xmm8
	pmullw	%xmm4, %xmm8
	movdqa	.LCPI_9ba498_1(%rip), %xmm3
	paddw	%xmm3, %xmm5
	paddw	%xmm3, %xmm8
	movdqa	.LCPI_9ba498_2(%rip), %xmm4
	pmulhuw	%xmm4, %xmm8
	pmulhuw	%xmm4, %xmm5
	psrlw	$8, %xmm7
	psrlw	$8, %xmm6
	psrlw	$8, %xmm2
	pmullw	%xmm7, %xmm2
	psrlw	$8, %xmm1
	pmullw	%xmm6, %xmm1
	paddw	%xmm3, %xmm2
	paddw	%xmm3, %xmm1
	pmulhuw	%xmm4, %xmm1
	pmulhuw	%xmm4, %xmm2
	psllw	$8, %xmm2
	por	%xmm8, %xmm2
	psllw	$8, %xmm1
	por	%xmm5, %xmm1
	movdqu	(%rbx), %xmm6
	movdqu	16(%rbx), %xmm5
	movdqa	.LCPI_9ba498_5(%rip), %xmm7
	pshufb	%xmm7, %xmm2
	pshufb	%xmm7, %xmm1
	movdqa	%xmm5, %xmm7
	pand	%xmm0, %xmm7
	pand	%xmm6, %xmm0
	pmullw	%xmm1, %xmm0
	pmullw	%xmm2, %xmm7
	paddw	%xmm3, %xmm7
	paddw	%xmm3, %xmm0
	pmulhuw	%xmm4, %xmm0
	pmulhuw	%xmm4, %xmm7
	psrlw	$8, %xmm6
	psrlw	$8, %xmm5
	pmullw	%xmm2, %xmm5
	pmullw	%xmm1, %xmm6
	paddw	%xmm3, %xmm6
	paddw	%xmm3, %xmm5
	pmulhuw	%xmm4, %xmm5
	pmulhuw	%xmm4, %xmm6
	psllw	$8, %xmm6
	por	%xmm0, %xmm6
	psllw	$8, %xmm5
	por	%xmm7, %xmm5
	movdqu	%xmm6, (%rbx)
	movdqu	%xmm5, 16(%rbx)
	testb	$4, 176(%rsp)
	je	.LBB_9ba498_550
.LBB_9ba498_552:
	movq	232(%rsp), %rax
	leal	(,%rax,4), %ecx
	movdqu	(%r14,%rcx), %xmm4
	movd	(%rbp,%rax), %xmm0
	punpcklbw	%xmm0, %xmm0
	punpcklwd	%xmm0, %xmm0
	movdqa	.LCPI_9ba498_0(%rip), %xmm1
	movdqa	%xmm4, %xmm2
	pand	%xmm1, %xmm2
	movdqa	%xmm0, %xmm5
	pand	%xmm1, %xmm5
	pmullw	%xmm2, %xmm5
	movdqa	.LCPI_9ba498_1(%rip), %xmm2
	paddw	%xmm2, %xmm5
	movdqa	.LCPI_9ba498_2(%rip), %xmm3
	pmulhuw	%xmm3, %xmm5
	psrlw	$8, %xmm4
	psrlw	$8, %xmm0
	pmullw	%xmm4, %xmm0
	paddw	%xmm2, %xmm0
	pmulhuw	%xmm3, %xmm0
	psllw	$8, %xmm0
	por	%xmm5, %xmm0
	movdqu	(%rbx,%rcx), %xmm4
	pshufb	.LCPI_9ba498_6(%rip), %xmm0
	movdqa	%xmm4, %xmm5
	pand	%xmm1, %xmm5
	pand	%xmm0, %xmm1
	pmullw	%xmm5, %xmm1
	paddw	%xmm2, %xmm1
	pmulhuw	%xmm3, %xmm1
	psrlw	$8, %xmm4
	psrlw	$8, %xmm0
	pmullw	%xmm4, %xmm0
	paddw	%xmm2, %xmm0
	pmulhuw	%xmm3, %xmm0
	psllw	$8, %xmm0
	por	%xmm1, %xmm0
	movdqu	%xmm0, (%rbx,%rcx)
	cmpl	%edi, 200(%rsp)
	je	.LBB_9ba498_543
.LBB_9ba498_553:
	xorl	%r9d, %r9d
	movq	200(%rsp), %r14
	.p2align	4
.LBB_9ba498_554:
	movzbl	3(%r15,%r9,4), %ecx
	movzbl	(%r11,%r9), %r12d
	imull	%ecx, %r12d
	movl	(%r13,%r9,4), %edx
	movq	%r15, %r10
	movq	%r11, %r15
	movq	%rdi, %r11
	movzbl	%dh, %edi
	movl	%edx, %ecx
	movzbl	%dl, %ebp
	movq	%r13, %rbx
	movl	%edx, %r13d
	shrl	$16, %r13d
	shrl	$24, %ecx
	leal	128(%r12), %edx
	movzbl	%dh, %edx
	addl	%r12d, %edx
	addl	$128, %edx
	movzbl	%dh, %edx
	imull	%edx, %ebp
	leal	128(%rbp), %eax
	movzbl	%ah, %eax
	addl	%ebp, %eax
	addl	$128, %eax
	movzbl	%ah, %ebp
	imull	%edx, %edi
	leal	128(%rdi), %eax
	movzbl	%ah, %eax
	addl	%eax, %edi
	addl	$128, %edi
	andl	$65280, %edi
	movzbl	%r13b, %eax
	movq	%rbx, %r13
	imull	%edx, %eax
	leal	128(%rax), %ebx
	movzbl	%bh, %ebx
	addl	%ebx, %eax
	addl	$128, %eax
	imull	%edx, %ecx
	leal	128(%rcx), %edx
	movzbl	%dh, %edx
	addl	%edx, %ecx
	addl	$128, %ecx
	shll	$16, %ecx
	andl	$-16777216, %ecx
	shll	$8, %eax
	andl	$16711680, %eax
	orl	%ecx, %eax
	orl	%edi, %eax
	movq	%r11, %rdi
	movq	%r15, %r11
	movq	%r10, %r15
	orl	%ebp, %eax
	movl	%eax, (%r13,%r9,4)
	incq	%r14
	incq	%r9
	cmpq	%rdi, %r14
	jb	.LBB_9ba498_554
	jmp	.LBB_9ba498_543
.LBB_9ba498_555:
	movq	%r11, 96(%rsp)
	testq	%r13, %r13
	je	.LBB_9ba498_452
	movq	%r14, %r15
	shrq	$32, %r15
	subq	%rbx, %rcx
	movabsq	$4294967296, %rbx
	movq	%rbp, 176(%rsp)
	leaq	(%rcx,%rbx), %rbp
	leaq	(%rdx,%rbx), %r11
	cmpq	%rbp, %r11
	movl	%esi, 80(%rsp)
	movq	%rbp, %rsi
	cmovbq	%r11, %rsi
	xorl	%r8d, %r8d
	movq	%rbx, %r12
	subq	%rsi, %r12
	cmovbq	%r8, %r12
	orq	%rbx, %r13
	subq	%rbp, %r13
	cmovbq	%r8, %r13
	movl	%r14d, %esi
	orq	%rbx, %rsi
	subq	%r11, %rsi
	cmovbq	%r8, %rsi
	cmpl	%edi, %r9d
	cmovbl	%r9d, %edi
	cmpq	%rdi, %r13
	cmovaeq	%rdi, %r13
	cmpq	%r13, %rsi
	cmovbq	%rsi, %r13
	leaq	(%r12,%rcx), %rdi
	addq	%r13, %rcx
	addq	%r12, %rdx
	cmpq	%r12, %r13
	cmovbeq	%r8, %rdi
	cmovbeq	%r8, %rcx
	cmovbeq	%r8, %rdx
	subq	(%rsp), %r10
	leaq	(%r10,%rbx), %rsi
	movq	24(%rsp), %r11
	leaq	(%r11,%rbx), %r14
	cmpq	%rsi, %r14
	movq	%rsi, %r12
	cmovbq	%r14, %r12
	movq	%rbx, %r9
	subq	%r12, %r9
	cmovbq	%r8, %r9
	movq	8(%rsp), %r12
	orq	%rbx, %r12
	subq	%rsi, %r12
	cmovbq	%r8, %r12
	orq	%rbx, %r15
	subq	%r14, %r15
	cmovbq	%r8, %r15
	movl	80(%rsp), %esi
	cmpl	%eax, %esi
	cmovbl	%esi, %eax
	cmpq	%rax, %r12
	cmovaeq	%rax, %r12
	cmpq	%r12, %r15
	cmovbq	%r15, %r12
	leaq	(%r9,%r10), %rax
	addq	%r12, %r10
	addq	%r9, %r11
	cmpq	%r9, %r12
	cmovbeq	%r8, %rax
	cmovbeq	%r8, %r10
	cmovbeq	%r8, %r11
	movq	96(%rsp), %rsi
	movzbl	(%rsi), %esi
	movq	%rdi, 120(%rsp)
	movq	%rcx, 128(%rsp)
	movq	%rdx, 136(%rsp)
	movq	%rax, 144(%rsp)
	movq	%r10, 152(%rsp)
	movq	%r11, 160(%rsp)
	movzbl	%sil, %r9d
	leaq	120(%rsp), %r8
	movq	16(%rsp), %rdi
	movq	32(%rsp), %rsi
	movq	48(%rsp), %rdx
	movq	176(%rsp), %rcx
	callq	"pix_raster::view::blit_overlap::<#2e32b78ff97838bb>"
	jmp	.LBB_9ba498_452
.LBB_9ba498_557:
	testq	%rbp, %rbp
	je	.LBB_9ba498_452
	subq	%rbx, %rcx
	movabsq	$4294967296, %rdx
	addq	%rdx, %rcx
	cmpq	%rdx, %rcx
	movq	%rdx, %r8
	cmovaq	%rcx, %r8
	movabsq	$-4294967296, %rdi
	addq	%r10, %rcx
	orq	%rdx, %rbp
	cmpq	%rcx, %rbp
	cmovaeq	%rcx, %rbp
	leaq	(%r8,%rdi), %r9
	xorl	%ecx, %ecx
	cmpq	%r8, %rbp
	cmovbeq	%rcx, %r9
	movq	%r9, 24(%rsp)
	subq	32(%rsp), %rax
	addq	%rdx, %rax
	cmpq	%rdx, %rax
	movq	%rdx, %r9
	cmovaq	%rax, %r9
	addq	%rsi, %rax
	movq	(%rsp), %rsi
	orq	%rdx, %rsi
	cmpq	%rax, %rsi
	cmovaeq	%rax, %rsi
	leaq	(%r9,%rdi), %r12
	cmpq	%r9, %rsi
	cmovbeq	%rcx, %r12
	jbe	.LBB_9ba498_452
	movq	%rsi, %rax
	addq	%rdi, %rax
	movq	%rax, (%rsp)
	cmpq	%r12, %rax
	jbe	.LBB_9ba498_452
	movq	48(%rsp), %rax
	movl	(%rax), %ebx
	movzbl	%bh, %eax
	movl	%eax, %r15d
	movl	%ebx, %r10d
	shrl	$16, %r10d
	movl	%ebx, %r11d
	shrl	$24, %r11d
	addq	%rbp, %rdi
	xorl	%esi, %esi
	cmpq	%r8, %rbp
	cmovaq	%rdi, %rsi
	movq	24(%rsp), %rdx
	subq	%rdx, %rsi
	movl	%ebx, %ecx
	shrl	$8, %ecx
	movd	%ebx, %xmm0
	pinsrb	$1, %ecx, %xmm0
	pinsrb	$2, %r10d, %xmm0
	pinsrb	$3, %r11d, %xmm0
	pinsrb	$4, %ebx, %xmm0
	pinsrb	$5, %ecx, %xmm0
	pinsrb	$6, %r10d, %xmm0
	pinsrb	$7, %r11d, %xmm0
	pinsrb	$8, %ebx, %xmm0
	pinsrb	$9, %ecx, %xmm0
	pinsrb	$10, %r10d, %xmm0
	pinsrb	$11, %r11d, %xmm0
	pinsrb	$12, %ebx, %xmm0
	pinsrb	$13, %ecx, %xmm0
	pinsrb	$14, %r10d, %xmm0
	movq	%rsi, %r8
	movdqa	%xmm0, %xmm1
	pinsrb	$15, %r11d, %xmm1
	shrq	$4, %r8
	pcmpeqd	%xmm2, %xmm2
	pxor	%xmm1, %xmm2
	psrld	$24, %xmm2
	movdqa	%xmm2, %xmm3
	pshufb	.LCPI_9ba498_8(%rip), %xmm3
	movdqa	.LCPI_9ba498_0(%rip), %xmm4
	pand	%xmm4, %xmm0
	psrlw	$8, %xmm1
	movq	%rsi, %rdi
	andq	$-16, %rdi
	movl	%esi, %r9d
	andl	$15, %r9d
	leal	(,%rsi,4), %r14d
	movzbl	%r10b, %eax
	movd	%eax, %xmm13
	movl	%r14d, %eax
	andl	$32, %eax
	movq	%rax, 80(%rsp)
	pshufb	.LCPI_9ba498_9(%rip), %xmm2
	movdqa	%xmm2, %xmm5
	pand	%xmm4, %xmm5
	movdqa	%xmm5, 96(%rsp)
	psrlw	$8, %xmm2
	movdqa	%xmm2, 32(%rsp)
	movzwl	%r11w, %eax
	pinsrw	$1, %eax, %xmm13
	pinsrw	$2, %r15d, %xmm13
	movl	%esi, %r11d
	andl	$12, %r11d
	movzbl	%bl, %ecx
	pinsrw	$3, %ecx, %xmm13
	xorl	$255, %eax
	movd	%eax, %xmm2
	pshuflw	$0, %xmm2, %xmm7
	movq	%r12, %rax
	movq	8(%rsp), %r10
	imulq	%r10, %rax
	addq	%rdx, %rax
	movq	16(%rsp), %rdx
	leaq	(%rdx,%rax,4), %rbx
	andl	$48, %r14d
	leaq	(%r14,%rdi,4), %rcx
	leaq	(%rcx,%rax,4), %r14
	leaq	(,%r10,4), %r15
	addq	%rdx, %r14
	movdqa	%xmm13, 48(%rsp)
	jmp	.LBB_9ba498_562
.LBB_9ba498_561:
	incq	%r12
	addq	%r15, %rbx
	addq	%r15, %r14
	cmpq	(%rsp), %r12
	je	.LBB_9ba498_452
.LBB_9ba498_562:
	testq	%r8, %r8
	je	.LBB_9ba498_565
	movq	%rbx, %r13
	movq	%r8, %rbp
	.p2align	4
.LBB_9ba498_564:
	movdqa	.LCPI_9ba498_5(%rip), %xmm12
	movdqu	(%r13), %xmm13
	movdqu	16(%r13), %xmm6
	movdqu	32(%r13), %xmm8
	movdqu	48(%r13), %xmm9
	movdqa	%xmm13, %xmm15
	pshufb	%xmm12, %xmm15
	movdqa	%xmm6, %xmm5
	pshufb	%xmm12, %xmm5
	movdqa	%xmm0, %xmm2
	pmullw	%xmm5, %xmm2
	movdqa	%xmm0, %xmm14
	pmullw	%xmm15, %xmm14
	movdqa	.LCPI_9ba498_1(%rip), %xmm10
	paddw	%xmm10, %xmm14
	paddw	%xmm10, %xmm2
	movdqa	.LCPI_9ba498_2(%rip), %xmm11
	pmulhuw	%xmm11, %xmm2
	pmulhuw	%xmm11, %xmm14
	pmullw	%xmm1, %xmm15
	pmullw	%xmm1, %xmm5
	paddw	%xmm10, %xmm5
	paddw	%xmm10, %xmm15
	pmulhuw	%xmm11, %xmm15
	pmulhuw	%xmm11, %xmm5
	psllw	$8, %xmm5
	por	%xmm2, %xmm5
	psllw	$8, %xmm15
	por	%xmm14, %xmm15
	movdqa	%xmm13, %xmm2
	pand	%xmm4, %xmm2
	movdqa	%xmm6, %xmm14
	pand	%xmm4, %xmm14
	pmullw	%xmm3, %xmm14
	pmullw	%xmm3, %xmm2
	paddw	%xmm10, %xmm2
	paddw	%xmm10, %xmm14
	pmulhuw	%xmm11, %xmm14
	pmulhuw	%xmm11, %xmm2
	psrlw	$8, %xmm6
	psrlw	$8, %xmm13
	pmullw	%xmm3, %xmm13
	pmullw	%xmm3, %xmm6
	paddw	%xmm10, %xmm6
	paddw	%xmm10, %xmm13
	pmulhuw	%xmm11, %xmm13
	pmulhuw	%xmm11, %xmm6
	psllw	$8, %xmm6
	por	%xmm14, %xmm6
	paddusb	%xmm5, %xmm6
	psllw	$8, %xmm13
	por	%xmm2, %xmm13
	paddusb	%xmm15, %xmm13
	movdqu	%xmm13, (%r13)
	movdqu	%xmm6, 16(%r13)
	movdqa	%xmm8, %xmm13
	pshufb	%xmm12, %xmm13
	movdqa	%xmm9, %xmm6
	pshufb	%xmm12, %xmm6
	movdqa	%xmm0, %xmm2
	pmullw	%xmm6, %xmm2
	movdqa	%xmm0, %xmm5
	pmullw	%xmm13, %xmm5
	paddw	%xmm10, %xmm5
	paddw	%xmm10, %xmm2
	pmulhuw	%xmm11, %xmm2
	pmulhuw	%xmm11, %xmm5
	pmullw	%xmm1, %xmm13
	pmullw	%xmm1, %xmm6
	paddw	%xmm10, %xmm6
	paddw	%xmm10, %xmm13
	pmulhuw	%xmm11, %xmm13
	pmulhuw	%xmm11, %xmm6
	psllw	$8, %xmm6
	por	%xmm2, %xmm6
	psllw	$8, %xmm13
	por	%xmm5, %xmm13
	movdqa	%xmm8, %xmm2
	pand	%xmm4, %xmm2
	movdqa	%xmm9, %xmm5
	pand	%xmm4, %xmm5
	pmullw	%xmm3, %xmm5
	pmullw	%xmm3, %xmm2
	paddw	%xmm10, %xmm2
	paddw	%xmm10, %xmm5
	pmulhuw	%xmm11, %xmm5
	pmulhuw	%xmm11, %xmm2
	psrlw	$8, %xmm9
	psrlw	$8, %xmm8
	pmullw	%xmm3, %xmm8
	pmullw	%xmm3, %xmm9
	paddw	%xmm10, %xmm9
	paddw	%xmm10, %xmm8
	pmulhuw	%xmm11, %xmm8
	pmulhuw	%xmm11, %xmm9
	psllw	$8, %xmm9
	por	%xmm5, %xmm9
	paddusb	%xmm6, %xmm9
	psllw	$8, %xmm8
	por	%xmm2, %xmm8
	paddusb	%xmm13, %xmm8
	movdqu	%xmm8, 32(%r13)
	movdqu	%xmm9, 48(%r13)
	addq	$64, %r13
	decq	%rbp
	jne	.LBB_9ba498_564
.LBB_9ba498_565:
	cmpq	%rsi, %rdi
	movdqa	48(%rsp), %xmm13
	je	.LBB_9ba498_561
	movq	%r12, %rax
	imulq	8(%rsp), %rax
	addq	24(%rsp), %rax
	movq	16(%rsp), %rcx
	leaq	(%rcx,%rax,4), %r13
	leaq	(,%rdi,4), %rax
	addq	%rax, %r13
	testb	$8, %sil
	jne	.LBB_9ba498_569
	testb	$4, %sil
	jne	.LBB_9ba498_570
.LBB_9ba498_568:
	cmpl	%r9d, %r11d
	jae	.LBB_9ba498_561
	jmp	.LBB_9ba498_571
.LBB_9ba498_569:
	movdqu	(%r13), %xmm8
	movdqu	16(%r13), %xmm9
	movdqa	.LCPI_9ba498_5(%rip), %xmm2
	movdqa	%xmm8, %xmm10
	pshufb	%xmm2, %xmm10
	movdqa	%xmm9, %xmm6
	pshufb	%xmm2, %xmm6
	movdqa	%xmm0, %xmm2
	pmullw	%xmm6, %xmm2
	movdqa	%xmm0, %xmm5
	pmullw	%xmm10, %xmm5
	movdqa	.LCPI_9ba498_1(%rip), %xmm11
	paddw	%xmm11, %xmm5
	paddw	%xmm11, %xmm2
	movdqa	.LCPI_9ba498_2(%rip), %xmm12
	pmulhuw	%xmm12, %xmm2
	pmulhuw	%xmm12, %xmm5
	pmullw	%xmm1, %xmm10
	pmullw	%xmm1, %xmm6
	paddw	%xmm11, %xmm6
	paddw	%xmm11, %xmm10
	pmulhuw	%xmm12, %xmm10
	pmulhuw	%xmm12, %xmm6
	psllw	$8, %xmm6
	por	%xmm2, %xmm6
	psllw	$8, %xmm10
	por	%xmm5, %xmm10
	movdqa	%xmm8, %xmm2
	pand	%xmm4, %xmm2
	movdqa	%xmm9, %xmm5
	pand	%xmm4, %xmm5
	pmullw	%xmm3, %xmm5
	pmullw	%xmm3, %xmm2
	paddw	%xmm11, %xmm2
	paddw	%xmm11, %xmm5
	pmulhuw	%xmm12, %xmm5
	pmulhuw	%xmm12, %xmm2
	psrlw	$8, %xmm9
	psrlw	$8, %xmm8
	pmullw	%xmm3, %xmm8
	pmullw	%xmm3, %xmm9
	paddw	%xmm11, %xmm9
	paddw	%xmm11, %xmm8
	pmulhuw	%xmm12, %xmm8
	pmulhuw	%xmm12, %xmm9
	psllw	$8, %xmm9
	por	%xmm5, %xmm9
	paddusb	%xmm6, %xmm9
	psllw	$8, %xmm8
	por	%xmm2, %xmm8
	paddusb	%xmm10, %xmm8
	movdqu	%xmm8, (%r13)
	movdqu	%xmm9, 16(%r13)
	testb	$4, %sil
	je	.LBB_9ba498_568
.LBB_9ba498_570:
	movq	80(%rsp), %rax
	movdqu	(%r13,%rax), %xmm6
	movdqa	%xmm6, %xmm8
	pshufb	.LCPI_9ba498_6(%rip), %xmm8
	movdqa	%xmm8, %xmm2
	pand	%xmm4, %xmm2
	pmullw	%xmm0, %xmm2
	movdqa	.LCPI_9ba498_1(%rip), %xmm5
	paddw	%xmm5, %xmm2
	movdqa	.LCPI_9ba498_2(%rip), %xmm9
	pmulhuw	%xmm9, %xmm2
	psrlw	$8, %xmm8
	pmullw	%xmm1, %xmm8
	paddw	%xmm5, %xmm8
	pmulhuw	%xmm9, %xmm8
	psllw	$8, %xmm8
	por	%xmm2, %xmm8
	movdqa	%xmm6, %xmm2
	pand	%xmm4, %xmm2
	pmullw	96(%rsp), %xmm2
	paddw	%xmm5, %xmm2
	pmulhuw	%xmm9, %xmm2
	psrlw	$8, %xmm6
	pmullw	32(%rsp), %xmm6
	paddw	%xmm5, %xmm6
	pmulhuw	%xmm9, %xmm6
	psllw	$8, %xmm6
	por	%xmm2, %xmm6
	paddusb	%xmm8, %xmm6
	movdqu	%xmm6, (%r13,%rax)
	cmpl	%r9d, %r11d
	jae	.LBB_9ba498_561
.LBB_9ba498_571:
	movq	%r14, %r13
	movq	%r11, %rbp
	.p2align	4
.LBB_9ba498_572:
	movl	(%r13), %edx
	movzbl	%dh, %ecx
	movl	%edx, %eax
	movzbl	%dl, %r10d
	shrl	$16, %edx
	shrl	$24, %eax
	movzbl	%dl, %edx
	movd	%eax, %xmm2
	pshuflw	$0, %xmm2, %xmm2
	pmullw	%xmm13, %xmm2
	movdqa	.LCPI_9ba498_3(%rip), %xmm5
	paddw	%xmm5, %xmm2
	movdqa	%xmm2, %xmm6
	psrlw	$8, %xmm6
	paddw	%xmm2, %xmm6
	psrlw	$8, %xmm6
	movd	%edx, %xmm2
	pinsrw	$1, %eax, %xmm2
	pinsrw	$2, %ecx, %xmm2
	pinsrw	$3, %r10d, %xmm2
	packuswb	%xmm6, %xmm6
	pmullw	%xmm7, %xmm2
	paddw	%xmm5, %xmm2
	movdqa	%xmm2, %xmm5
	psrlw	$8, %xmm5
	paddw	%xmm2, %xmm5
	psrlw	$8, %xmm5
	packuswb	%xmm5, %xmm5
	paddusb	%xmm6, %xmm5
	pmovzxbd	%xmm5, %xmm2
	pmulld	.LCPI_9ba498_4(%rip), %xmm2
	pshufd	$238, %xmm2, %xmm5
	por	%xmm2, %xmm5
	pshufd	$85, %xmm5, %xmm2
	por	%xmm5, %xmm2
	movd	%xmm2, (%r13)
	incq	%rbp
	addq	$4, %r13
	cmpq	%r9, %rbp
	jb	.LBB_9ba498_572
	jmp	.LBB_9ba498_561
.LBB_9ba498_573:
	movq	%rdx, 176(%rsp)
	testq	%rbp, %rbp
	je	.LBB_9ba498_452
	movq	%r8, 80(%rsp)
	movl	%r13d, %edx
	movq	%r15, %r13
	shrq	$32, %r13
	subq	%rbx, %rcx
	movabsq	$4294967296, %rbx
	leaq	(%rcx,%rbx), %r12
	leaq	(%rdi,%rbx), %r9
	cmpq	%r12, %r9
	movq	%r12, %r8
	cmovbq	%r9, %r8
	xorl	%r9d, %r9d
	movq	%rbx, %r14
	subq	%r8, %r14
	cmovbq	%r9, %r14
	orq	%rbx, %rbp
	subq	%r12, %rbp
	cmovbq	%r9, %rbp
	movl	%r15d, %r8d
	orq	%rbx, %r8
	leaq	(%rdi,%rbx), %r15
	subq	%r15, %r8
	cmovbq	%r9, %r8
	cmpl	%r10d, %r11d
	cmovbl	%r11d, %r10d
	cmpq	%r10, %rbp
	cmovaeq	%r10, %rbp
	cmpq	%rbp, %r8
	cmovbq	%r8, %rbp
	leaq	(%r14,%rcx), %r10
	addq	%rbp, %rcx
	addq	%r14, %rdi
	cmpq	%r14, %rbp
	cmovbeq	%r9, %r10
	cmovbeq	%r9, %rcx
	cmovbeq	%r9, %rdi
	subq	32(%rsp), %rax
	leaq	(%rax,%rbx), %r8
	movq	24(%rsp), %r12
	leaq	(%r12,%rbx), %r14
	cmpq	%r8, %r14
	movq	%r8, %r15
	cmovbq	%r14, %r15
	movq	%rbx, %r11
	subq	%r15, %r11
	cmovbq	%r9, %r11
	movq	(%rsp), %r15
	orq	%rbx, %r15
	subq	%r8, %r15
	cmovbq	%r9, %r15
	orq	%rbx, %r13
	subq	%r14, %r13
	cmovbq	%r9, %r13
	cmpl	%esi, %edx
	cmovbl	%edx, %esi
	cmpq	%rsi, %r15
	cmovaeq	%rsi, %r15
	cmpq	%r15, %r13
	cmovbq	%r13, %r15
	leaq	(%r11,%rax), %rsi
	addq	%r15, %rax
	addq	%r11, %r12
	cmpq	%r11, %r15
	cmovbeq	%r9, %rsi
	cmovbeq	%r9, %rax
	cmovbeq	%r9, %r12
	movq	176(%rsp), %rdx
	movzbl	(%rdx), %r8d
	movq	%r10, 120(%rsp)
	movq	%rcx, 128(%rsp)
	movq	%rdi, 136(%rsp)
	movq	%rsi, 144(%rsp)
	movq	%rax, 152(%rsp)
	movq	%r12, 160(%rsp)
	movzbl	%r8b, %r9d
	leaq	120(%rsp), %r8
	movq	16(%rsp), %rdi
	movq	8(%rsp), %rsi
	movq	48(%rsp), %rdx
	movq	80(%rsp), %rcx
	callq	"pix_raster::view::blit_overlap::<#cadaf6b2c7002256>"
	jmp	.LBB_9ba498_452
.LBB_9ba498_575:
	movq	%rdx, 72(%rsp)
	testq	%rbp, %rbp
	je	.LBB_9ba498_452
	movl	%r13d, %edx
	movq	%r15, %r13
	shrq	$32, %r13
	subq	%rbx, %rcx
	movabsq	$4294967296, %rbx
	leaq	(%rcx,%rbx), %r12
	leaq	(%rdi,%rbx), %r9
	cmpq	%r12, %r9
	movq	%r8, 80(%rsp)
	movq	%r12, %r8
	cmovbq	%r9, %r8
	xorl	%r9d, %r9d
	movq	%rbx, %r14
	subq	%r8, %r14
	cmovbq	%r9, %r14
	orq	%rbx, %rbp
	subq	%r12, %rbp
	cmovbq	%r9, %rbp
	movl	%r15d, %r8d
	orq	%rbx, %r8
	leaq	(%rdi,%rbx), %r15
	subq	%r15, %r8
	cmovbq	%r9, %r8
	cmpl	%r10d, %r11d
	cmovbl	%r11d, %r10d
	cmpq	%r10, %rbp
	cmovaeq	%r10, %rbp
	cmpq	%rbp, %r8
	cmovbq	%r8, %rbp
	leaq	(%r14,%rcx), %r10
	addq	%rbp, %rcx
	addq	%r14, %rdi
	cmpq	%r14, %rbp
	cmovbeq	%r9, %r10
	cmovbeq	%r9, %rcx
	cmovbeq	%r9, %rdi
	subq	32(%rsp), %rax
	leaq	(%rax,%rbx), %r8
	movq	24(%rsp), %r12
	leaq	(%r12,%rbx), %r14
	cmpq	%r8, %r14
	movq	%r8, %r15
	cmovbq	%r14, %r15
	movq	%rbx, %r11
	subq	%r15, %r11
	cmovbq	%r9, %r11
	movq	(%rsp), %r15
	orq	%rbx, %r15
	subq	%r8, %r15
	cmovbq	%r9, %r15
	orq	%rbx, %r13
	subq	%r14, %r13
	cmovbq	%r9, %r13
	cmpl	%esi, %edx
	cmovbl	%edx, %esi
	cmpq	%rsi, %r15
	cmovaeq	%rsi, %r15
	cmpq	%r15, %r13
	cmovbq	%r13, %r15
	leaq	(%r11,%rax), %rsi
	addq	%r15, %rax
	addq	%r11, %r12
	cmpq	%r11, %r15
	cmovbeq	%r9, %rsi
	cmovbeq	%r9, %rax
	cmovbeq	%r9, %r12
	movq	72(%rsp), %rdx
	movzbl	(%rdx), %r8d
	movq	%r10, 120(%rsp)
	movq	%rcx, 128(%rsp)
	movq	%rdi, 136(%rsp)
	movq	%rsi, 144(%rsp)
	movq	%rax, 152(%rsp)
	movq	%r12, 160(%rsp)
	movzbl	%r8b, %r9d
	leaq	120(%rsp), %r8
	movq	16(%rsp), %rdi
	movq	8(%rsp), %rsi
	movq	48(%rsp), %rdx
	movq	80(%rsp), %rcx
	callq	"pix_raster::view::blit_overlap::<#8280f2e27f55061f>"
	jmp	.LBB_9ba498_452
.LBB_9ba498_577:
	movq	%rsi, 64(%rsp)
	movq	%rbx, 80(%rsp)
	testq	%r13, %r13
	je	.LBB_9ba498_452
	movl	%r15d, 96(%rsp)
	movq	344(%rsp), %r11
	movq	%r11, 176(%rsp)
	movslq	360(%rsp), %rsi
	movabsq	$4294967296, %r15
	movq	%r8, %rbx
	shrq	$32, %rbx
	shrq	$32, %r11
	movq	%r11, 72(%rsp)
	subq	%r14, %r10
	movq	%r15, %r14
	leaq	(%r10,%r15), %rdi
	leaq	(%r15,%rbp), %r11
	movq	%r11, 168(%rsp)
	cmpq	%rdi, %r11
	movq	%rdi, %r15
	cmovbq	%r11, %r15
	movq	%rsi, 240(%rsp)
	leaq	(%rsi,%r14), %r11
	movq	%r14, %rsi
	cmpq	%r15, %r11
	cmovbq	%r11, %r15
	subq	%r15, %r14
	movl	$0, %r15d
	cmovbq	%r15, %r14
	orq	%rsi, %r13
	subq	%rdi, %r13
	cmovbq	%r15, %r13
	xorl	%r15d, %r15d
	movl	%r8d, %r8d
	orq	%rsi, %r8
	subq	168(%rsp), %r8
	movl	176(%rsp), %edi
	cmovbq	%r15, %r8
	orq	%rsi, %rdi
	subq	%r11, %rdi
	movl	$0, %r15d
	movq	%r15, 192(%rsp)
	movl	$0, %esi
	cmovbq	%rsi, %rdi
	cmpl	%ecx, %edx
	cmovbl	%edx, %ecx
	movl	368(%rsp), %edx
	cmpl	%ecx, %edx
	cmovbl	%edx, %ecx
	cmpq	%rcx, %r13
	cmovaeq	%rcx, %r13
	movslq	364(%rsp), %rcx
	movq	%rcx, 208(%rsp)
	cmpq	%r13, %r8
	cmovbq	%r8, %r13
	movl	372(%rsp), %ecx
	cmpq	%r13, %rdi
	cmovbq	%rdi, %r13
	movl	$0, %r8d
	movl	$0, %edx
	movq	%rdx, 216(%rsp)
	movl	$0, %edx
	cmpq	%r14, %r13
	jbe	.LBB_9ba498_580
	leaq	(%r14,%r10), %rdx
	movq	%rdx, 192(%rsp)
	addq	%r10, %r13
	addq	%r14, %rbp
	movq	240(%rsp), %rdx
	addq	%r14, %rdx
	movq	%r13, %r8
	movq	%rbp, 216(%rsp)
.LBB_9ba498_580:
	movq	%rdx, %r13
	subq	32(%rsp), %rax
	movabsq	$4294967296, %rsi
	leaq	(%rax,%rsi), %r14
	movq	24(%rsp), %rdx
	leaq	(%rdx,%rsi), %rbp
	movq	208(%rsp), %rdx
	leaq	(%rdx,%rsi), %r15
	cmpq	%r14, %rbp
	movq	%r14, %rdx
	cmovbq	%rbp, %rdx
	cmpq	%rdx, %r15
	cmovbq	%r15, %rdx
	xorl	%edi, %edi
	movq	%rsi, %r10
	subq	%rdx, %r10
	cmovbq	%rdi, %r10
	movq	(%rsp), %rdx
	orq	%rsi, %rdx
	subq	%r14, %rdx
	cmovbq	%rdi, %rdx
	orq	%rsi, %rbx
	subq	%rbp, %rbx
	cmovbq	%rdi, %rbx
	movq	72(%rsp), %r11
	orq	%rsi, %r11
	subq	%r15, %r11
	cmovbq	%rdi, %r11
	movl	96(%rsp), %edi
	cmpl	%r9d, %edi
	cmovbl	%edi, %r9d
	cmpl	%r9d, %ecx
	cmovbl	%ecx, %r9d
	cmpq	%r9, %rdx
	cmovaeq	%r9, %rdx
	cmpq	%rdx, %rbx
	cmovbq	%rbx, %rdx
	cmpq	%rdx, %r11
	cmovbq	%r11, %rdx
	cmpq	%r10, %rdx
	jbe	.LBB_9ba498_452
	movq	%rdx, %rcx
	leaq	(%r10,%rax), %rdx
	addq	%rax, %rcx
	movq	%rcx, (%rsp)
	movq	%rdx, 224(%rsp)
	cmpq	%rcx, %rdx
	jae	.LBB_9ba498_452
	movq	352(%rsp), %rax
	movq	%rax, 176(%rsp)
	movabsq	$4294967296, %rdi
	movq	24(%rsp), %rsi
	leaq	(%r10,%rsi), %rax
	movq	%rax, 248(%rsp)
	addq	%r10, 208(%rsp)
	movq	64(%rsp), %rcx
	leaq	(%rcx,%r13), %rax
	movq	%rax, 384(%rsp)
	movq	%r8, %rdx
	subq	192(%rsp), %rdx
	movq	%rdx, %rax
	shrq	$4, %rax
	movq	%rax, 96(%rsp)
	movq	%rdx, %r8
	andq	$-16, %r8
	movl	%edx, %r11d
	andl	$15, %r11d
	movl	%edx, %eax
	andl	$8, %eax
	movq	%rax, 232(%rsp)
	movl	%edx, %r9d
	andl	$12, %r9d
	addq	%rdi, %rsi
	cmpq	%rbp, %r14
	cmovbq	%r14, %rbp
	leaq	(,%r8,4), %r10
	cmpq	%r15, %rbp
	cmovaeq	%r15, %rbp
	cmpq	%rdi, %rbp
	cmovaeq	%rdi, %rbp
	subq	%rbp, %rsi
	imulq	80(%rsp), %rsi
	movq	216(%rsp), %rbx
	leaq	(,%rbx,4), %rax
	leaq	(%rax,%rsi,4), %r14
	subq	%rbp, %r15
	movq	8(%rsp), %rbp
	movq	%rbp, %rdi
	imulq	224(%rsp), %rdi
	imulq	176(%rsp), %r15
	addq	%r13, %r15
	movq	%r8, 72(%rsp)
	movq	%r9, 200(%rsp)
	addq	%r9, %r8
	addq	%rcx, %r8
	leaq	(%rcx,%r15), %r13
	addq	%r15, %r8
	movq	192(%rsp), %r15
	leaq	(,%r15,4), %rcx
	leaq	(%rcx,%rdi,4), %r9
	leaq	(%r10,%rsi,4), %rcx
	movq	%r11, %rsi
	movq	%rdx, 64(%rsp)
	leal	(,%rdx,4), %edx
	andl	$48, %edx
	addq	%rdx, %rcx
	movq	%r10, 392(%rsp)
	leaq	(%r10,%rdi,4), %rax
	addq	%rdx, %rax
	movq	48(%rsp), %rdx
	addq	%rdx, %r14
	addq	%r12, %r9
	leaq	(%rcx,%rbx,4), %rbx
	addq	%rdx, %rbx
	leaq	(%rax,%r15,4), %rdi
	addq	%r12, %rdi
	movq	80(%rsp), %rax
	leaq	(,%rax,4), %rax
	movq	%rax, 168(%rsp)
	leaq	(,%rbp,4), %rax
	movq	%rax, 240(%rsp)
	movq	224(%rsp), %rax
	movq	%rax, 32(%rsp)
	jmp	.LBB_9ba498_584
.LBB_9ba498_583:
	movq	32(%rsp), %r10
	incq	%r10
	movq	168(%rsp), %rcx
	addq	%rcx, %r14
	movq	240(%rsp), %rdx
	addq	%rdx, %r9
	movq	176(%rsp), %rax
	movq	24(%rsp), %r13
	addq	%rax, %r13
	addq	%rax, %r8
	addq	%rcx, %rbx
	addq	%rdx, %rdi
	movq	%r10, 32(%rsp)
	cmpq	(%rsp), %r10
	je	.LBB_9ba498_452
.LBB_9ba498_584:
	cmpq	$0, 96(%rsp)
	je	.LBB_9ba498_587
	movl	$8, %r11d
	movq	96(%rsp), %rbp
	.p2align	4
.LBB_9ba498_586:
	movdqu	-32(%r14,%r11,4), %xmm7
	movdqu	-16(%r14,%r11,4), %xmm6
	movq	-8(%r13,%r11), %xmm3
	punpcklbw	%xmm3, %xmm3
	movdqa	%xmm3, %xmm4
	punpcklwd	%xmm3, %xmm4
	punpckhwd	%xmm3, %xmm3
	movdqa	.LCPI_9ba498_0(%rip), %xmm0
	movdqa	%xmm6, %xmm1
	pand	%xmm0, %xmm1
	movdqa	%xmm7, %xmm2
	pand	%xmm0, %xmm2
	movdqa	%xmm3, %xmm5
	pand	%xmm0, %xmm5
	pmullw	%xmm1, %xmm5
	movdqa	%xmm4, %xmm8
	pand	%xmm0, %xmm8
	pmullw	%xmm2, %xmm8
	movdqa	.LCPI_9ba498_1(%rip), %xmm1
	paddw	%xmm1, %xmm5
	paddw	%xmm1, %xmm8
	movdqa	.LCPI_9ba498_2(%rip), %xmm2
	pmulhuw	%xmm2, %xmm8
	pmulhuw	%xmm2, %xmm5
	psrlw	$8, %xmm7
	psrlw	$8, %xmm6
	psrlw	$8, %xmm4
	pmullw	%xmm7, %xmm4
	psrlw	$8, %xmm3
	pmullw	%xmm6, %xmm3
	paddw	%xmm1, %xmm4
	paddw	%xmm1, %xmm3
	pmulhuw	%xmm2, %xmm3
	pmulhuw	%xmm2, %xmm4
	psllw	$8, %xmm4
	por	%xmm8, %xmm4
	psllw	$8, %xmm3
	por	%xmm5, %xmm3
	movdqu	%xmm4, -32(%r9,%r11,4)
	movdqu	%xmm3, -16(%r9,%r11,4)
	movdqu	(%r14,%r11,4), %xmm7
	movdqu	16(%r14,%r11,4), %xmm6
	movq	(%r13,%r11), %xmm3
	punpcklbw	%xmm3, %xmm3
	movdqa	%xmm3, %xmm4
	punpcklwd	%xmm3, %xmm4
	punpckhwd	%xmm3, %xmm3
	movdqa	%xmm6, %xmm8
	pand	%xmm0, %xmm8
	movdqa	%xmm7, %xmm9
	pand	%xmm0, %xmm9
	movdqa	%xmm3, %xmm5
	pand	%xmm0, %xmm5
	pmullw	%xmm8, %xmm5
	pand	%xmm4, %xmm0
	pmullw	%xmm9, %xmm0
	paddw	%xmm1, %xmm5
	paddw	%xmm1, %xmm0
	pmulhuw	%xmm2, %xmm0
	pmulhuw	%xmm2, %xmm5
	psrlw	$8, %xmm7
	psrlw	$8, %xmm6
	psrlw	$8, %xmm4
	pmullw	%xmm7, %xmm4
	psrlw	$8, %xmm3
	pmullw	%xmm6, %xmm3
	paddw	%xmm1, %xmm4
	paddw	%xmm1, %xmm3
	pmulhuw	%xmm2, %xmm3
	pmulhuw	%xmm2, %xmm4
	psllw	$8, %xmm4
	por	%xmm0, %xmm4
	psllw	$8, %xmm3
	por	%xmm5, %xmm3
	movdqu	%xmm4, (%r9,%r11,4)
	movdqu	%xmm3, 16(%r9,%r11,4)
	addq	$16, %r11
	decq	%rbp
	jne	.LBB_9ba498_586
.LBB_9ba498_587:
	movq	%r13, 24(%rsp)
	movq	72(%rsp), %rax
	cmpq	64(%rsp), %rax
	je	.LBB_9ba498_583
	movq	32(%rsp), %rbp
	movq	%rbp, %rax
	imulq	8(%rsp), %rax
	addq	192(%rsp), %rax
	subq	224(%rsp), %rbp
	movq	248(%rsp), %rcx
	addq	%rbp, %rcx
	imulq	80(%rsp), %rcx
	addq	216(%rsp), %rcx
	addq	208(%rsp), %rbp
	imulq	176(%rsp), %rbp
	addq	384(%rsp), %rbp
	movq	16(%rsp), %rdx
	leaq	(%rdx,%rax,4), %r11
	movq	48(%rsp), %rax
	leaq	(%rax,%rcx,4), %r10
	movq	392(%rsp), %rax
	addq	%rax, %r11
	addq	%rax, %r10
	addq	72(%rsp), %rbp
	cmpq	$0, 232(%rsp)
	jne	.LBB_9ba498_591
	testb	$4, 64(%rsp)
	jne	.LBB_9ba498_592
.LBB_9ba498_590:
	cmpl	%esi, 200(%rsp)
	je	.LBB_9ba498_583
	jmp	.LBB_9ba498_593
.LBB_9ba498_591:
	movdqu	(%r10), %xmm5
	movdqu	16(%r10), %xmm4
	movq	(%rbp), %xmm0
	punpcklbw	%xmm0, %xmm0
	movdqa	%xmm0, %xmm1
	punpcklwd	%xmm0, %xmm1
	punpckhwd	%xmm0, %xmm0
	movdqa	.LCPI_9ba498_0(%rip), %xmm2
	movdqa	%xmm4, %xmm6
	pand	%xmm2, %xmm6
	movdqa	%xmm5, %xmm7
	pand	%xmm2, %xmm7
	movdqa	%xmm0, %xmm3
	pand	%xmm2, %xmm3
	pmullw	%xmm6, %xmm3
	pand	%xmm1, %xmm2
	pmullw	%xmm7, %xmm2
	movdqa	.LCPI_9ba498_1(%rip), %xmm6
	paddw	%xmm6, %xmm3
	paddw	%xmm6, %xmm2
	movdqa	.LCPI_9ba498_2(%rip), %xmm7
	pmulhuw	%xmm7, %xmm2
	pmulhuw	%xmm7, %xmm3
	psrlw	$8, %xmm5
	psrlw	$8, %xmm4
	psrlw	$8, %xmm1
	pmullw	%xmm5, %xmm1
	psrlw	$8, %xmm0
	pmullw	%xmm4, %xmm0
	paddw	%xmm6, %xmm1
	paddw	%xmm6, %xmm0
	pmulhuw	%xmm7, %xmm0
	pmulhuw	%xmm7, %xmm1
	psllw	$8, %xmm1
	por	%xmm2, %xmm1
	psllw	$8, %xmm0
	por	%xmm3, %xmm0
	movdqu	%xmm1, (%r11)
	movdqu	%xmm0, 16(%r11)
	testb	$4, 64(%rsp)
	je	.LBB_9ba498_590
.LBB_9ba498_592:
	movq	232(%rsp), %rax
	leal	(,%rax,4), %ecx
	movdqu	(%r10,%rcx), %xmm0
	movd	(%rbp,%rax), %xmm1
	punpcklbw	%xmm1, %xmm1
	punpcklwd	%xmm1, %xmm1
	movdqa	.LCPI_9ba498_0(%rip), %xmm2
	movdqa	%xmm0, %xmm3
	pand	%xmm2, %xmm3
	pand	%xmm1, %xmm2
	pmullw	%xmm3, %xmm2
	movdqa	.LCPI_9ba498_1(%rip), %xmm3
	paddw	%xmm3, %xmm2
	movdqa	.LCPI_9ba498_2(%rip), %xmm4
	pmulhuw	%xmm4, %xmm2
	psrlw	$8, %xmm0
	psrlw	$8, %xmm1
	pmullw	%xmm0, %xmm1
	paddw	%xmm3, %xmm1
	pmulhuw	%xmm4, %xmm1
	psllw	$8, %xmm1
	por	%xmm2, %xmm1
	movdqu	%xmm1, (%r11,%rcx)
	cmpl	%esi, 200(%rsp)
	je	.LBB_9ba498_583
.LBB_9ba498_593:
	xorl	%r11d, %r11d
	movq	200(%rsp), %r10
	.p2align	4
.LBB_9ba498_594:
	movl	(%rbx,%r11,4), %ecx
	movzbl	(%r8,%r11), %edx
	movzbl	%ch, %eax
	movl	%ecx, %ebp
	movzbl	%cl, %r12d
	shrl	$16, %ecx
	shrl	$24, %ebp
	imull	%edx, %r12d
	movq	%rdi, %r13
	movq	%rbx, %rdi
	leal	128(%r12), %ebx
	movq	%r8, %r15
	movq	%rsi, %r8
	movzbl	%bh, %esi
	leal	(%rsi,%r12), %ebx
	addl	$128, %ebx
	movzbl	%bh, %esi
	imull	%edx, %eax
	leal	128(%rax), %ebx
	movzbl	%bh, %ebx
	addl	%ebx, %eax
	addl	$128, %eax
	andl	$65280, %eax
	movzbl	%cl, %ecx
	imull	%edx, %ecx
	leal	128(%rcx), %ebx
	movzbl	%bh, %ebx
	addl	%ebx, %ecx
	addl	$128, %ecx
	movq	%rdi, %rbx
	movq	%r13, %rdi
	imull	%edx, %ebp
	leal	128(%rbp), %edx
	movzbl	%dh, %edx
	addl	%ebp, %edx
	addl	$128, %edx
	shll	$16, %edx
	andl	$-16777216, %edx
	shll	$8, %ecx
	andl	$16711680, %ecx
	orl	%edx, %ecx
	orl	%eax, %ecx
	orl	%esi, %ecx
	movq	%r8, %rsi
	movq	%r15, %r8
	movl	%ecx, (%r13,%r11,4)
	incq	%r10
	incq	%r11
	cmpq	%rsi, %r10
	jb	.LBB_9ba498_594
	jmp	.LBB_9ba498_583
.LBB_9ba498_595:
	testq	%r12, %r12
	je	.LBB_9ba498_452
	subq	%r14, %rcx
	movabsq	$4294967296, %r11
	addq	%r11, %rcx
	cmpq	%r11, %rcx
	movq	%r11, %r9
	cmovaq	%rcx, %r9
	movabsq	$-4294967296, %rdi
	addq	%r10, %rcx
	orq	%r11, %r12
	cmpq	%rcx, %r12
	cmovaeq	%rcx, %r12
	leaq	(%r9,%rdi), %r8
	xorl	%ecx, %ecx
	cmpq	%r9, %r12
	cmovbeq	%rcx, %r8
	subq	%rbx, %rax
	addq	%r11, %rax
	cmpq	%r11, %rax
	movq	%r11, %r10
	cmovaq	%rax, %r10
	addq	%rsi, %rax
	orq	%r11, %r13
	cmpq	%rax, %r13
	cmovaeq	%rax, %r13
	leaq	(%r10,%rdi), %rax
	cmpq	%r10, %r13
	cmovbeq	%rcx, %rax
	jbe	.LBB_9ba498_452
	addq	%rdi, %r13
	cmpq	%rax, %r13
	jbe	.LBB_9ba498_452
	addq	%r12, %rdi
	xorl	%ecx, %ecx
	cmpq	%r9, %r12
	cmovaq	%rdi, %rcx
	subq	%r8, %rcx
	je	.LBB_9ba498_452
	movl	(%rdx), %edx
	movq	%rcx, %rsi
	andq	$-8, %rsi
	movd	%edx, %xmm0
	pshufd	$0, %xmm0, %xmm0
	movq	%rax, %r9
	movq	(%rsp), %r11
	imulq	%r11, %r9
	leaq	(,%r8,4), %rdi
	leaq	(%rdi,%r9,4), %rdi
	movq	16(%rsp), %r10
	addq	%r10, %rdi
	addq	$16, %rdi
	shlq	$2, %r11
	addq	%r8, %r9
	leaq	(%r10,%r9,4), %r8
	jmp	.LBB_9ba498_601
.LBB_9ba498_600:
	incq	%rax
	addq	%r11, %rdi
	addq	%r11, %r8
	cmpq	%r13, %rax
	je	.LBB_9ba498_452
.LBB_9ba498_601:
	xorl	%r9d, %r9d
	cmpq	$8, %rcx
	jb	.LBB_9ba498_604
	.p2align	4
.LBB_9ba498_602:
	movdqu	%xmm0, -16(%rdi,%r9,4)
	movdqu	%xmm0, (%rdi,%r9,4)
	addq	$8, %r9
	cmpq	%r9, %rsi
	jne	.LBB_9ba498_602
	movq	%rsi, %r9
	cmpq	%rsi, %rcx
	je	.LBB_9ba498_600
	.p2align	4
.LBB_9ba498_604:
	movl	%edx, (%r8,%r9,4)
	incq	%r9
	cmpq	%r9, %rcx
	jne	.LBB_9ba498_604
	jmp	.LBB_9ba498_600
.LBB_9ba498_605:
	testq	%r13, %r13
	je	.LBB_9ba498_452
	subq	%rbx, %rcx
	movabsq	$4294967296, %r9
	addq	%r9, %rcx
	cmpq	%r9, %rcx
	movq	%r9, %rsi
	cmovaq	%rcx, %rsi
	movabsq	$-4294967296, %rdx
	addq	%rdi, %rcx
	orq	%r9, %r13
	cmpq	%rcx, %r13
	cmovaeq	%rcx, %r13
	leaq	(%rsi,%rdx), %r8
	xorl	%ecx, %ecx
	cmpq	%rsi, %r13
	cmovbeq	%rcx, %r8
	subq	(%rsp), %r10
	addq	%r9, %r10
	cmpq	%r9, %r10
	movq	%r9, %rdi
	cmovaq	%r10, %rdi
	addq	%rax, %r10
	movq	8(%rsp), %r11
	orq	%r9, %r11
	cmpq	%r10, %r11
	cmovaeq	%r10, %r11
	leaq	(%rdi,%rdx), %rax
	cmpq	%rdi, %r11
	cmovbeq	%rcx, %rax
	jbe	.LBB_9ba498_452
	movq	%r11, %r9
	addq	%rdx, %r9
	cmpq	%rax, %r9
	jbe	.LBB_9ba498_452
	addq	%r13, %rdx
	xorl	%ecx, %ecx
	cmpq	%rsi, %r13
	cmovaq	%rdx, %rcx
	subq	%r8, %rcx
	je	.LBB_9ba498_452
	movq	%r9, %rbx
	movq	48(%rsp), %rdx
	movl	(%rdx), %edx
	movq	%rcx, %rsi
	andq	$-8, %rsi
	movd	%edx, %xmm0
	pshufd	$0, %xmm0, %xmm0
	movq	%rax, %r9
	movq	32(%rsp), %r11
	imulq	%r11, %r9
	leaq	(,%r8,4), %rdi
	leaq	(%rdi,%r9,4), %rdi
	movq	16(%rsp), %r10
	addq	%r10, %rdi
	addq	$16, %rdi
	shlq	$2, %r11
	addq	%r8, %r9
	leaq	(%r10,%r9,4), %r8
	jmp	.LBB_9ba498_611
.LBB_9ba498_610:
	incq	%rax
	addq	%r11, %rdi
	addq	%r11, %r8
	cmpq	%rbx, %rax
	je	.LBB_9ba498_452
.LBB_9ba498_611:
	xorl	%r9d, %r9d
	cmpq	$8, %rcx
	jb	.LBB_9ba498_614
	.p2align	4
.LBB_9ba498_612:
	movdqu	%xmm0, -16(%rdi,%r9,4)
	movdqu	%xmm0, (%rdi,%r9,4)
	addq	$8, %r9
	cmpq	%r9, %rsi
	jne	.LBB_9ba498_612
	movq	%rsi, %r9
	cmpq	%rsi, %rcx
	je	.LBB_9ba498_610
	.p2align	4
.LBB_9ba498_614:
	movl	%edx, (%r8,%r9,4)
	incq	%r9
	cmpq	%r9, %rcx
	jne	.LBB_9ba498_614
	jmp	.LBB_9ba498_610
.LBB_9ba498_615:
	testq	%rbp, %rbp
	je	.LBB_9ba498_452
	subq	%rbx, %rcx
	movabsq	$4294967296, %r9
	addq	%r9, %rcx
	cmpq	%r9, %rcx
	movq	%r9, %rdi
	cmovaq	%rcx, %rdi
	movabsq	$-4294967296, %rdx
	addq	%r10, %rcx
	orq	%r9, %rbp
	cmpq	%rcx, %rbp
	cmovaeq	%rcx, %rbp
	leaq	(%rdi,%rdx), %r8
	xorl	%ecx, %ecx
	cmpq	%rdi, %rbp
	cmovbeq	%rcx, %r8
	subq	32(%rsp), %rax
	addq	%r9, %rax
	cmpq	%r9, %rax
	movq	%r9, %r10
	cmovaq	%rax, %r10
	addq	%rsi, %rax
	movq	(%rsp), %r11
	orq	%r9, %r11
	cmpq	%rax, %r11
	cmovaeq	%rax, %r11
	leaq	(%r10,%rdx), %rax
	cmpq	%r10, %r11
	cmovbeq	%rcx, %rax
	jbe	.LBB_9ba498_452
	movq	%r11, %rsi
	addq	%rdx, %rsi
	cmpq	%rax, %rsi
	jbe	.LBB_9ba498_452
	addq	%rbp, %rdx
	xorl	%ecx, %ecx
	cmpq	%rdi, %rbp
	cmovaq	%rdx, %rcx
	subq	%r8, %rcx
	je	.LBB_9ba498_452
	movq	%rsi, %rbx
	movq	48(%rsp), %rdx
	movl	(%rdx), %edx
	movq	%rcx, %rsi
	andq	$-8, %rsi
	movd	%edx, %xmm0
	pshufd	$0, %xmm0, %xmm0
	movq	%rax, %r9
	movq	8(%rsp), %r11
	imulq	%r11, %r9
	leaq	(,%r8,4), %rdi
	leaq	(%rdi,%r9,4), %rdi
	movq	16(%rsp), %r10
	addq	%r10, %rdi
	addq	$16, %rdi
	shlq	$2, %r11
	addq	%r8, %r9
	leaq	(%r10,%r9,4), %r8
	jmp	.LBB_9ba498_621
.LBB_9ba498_620:
	incq	%rax
	addq	%r11, %rdi
	addq	%r11, %r8
	cmpq	%rbx, %rax
	je	.LBB_9ba498_452
.LBB_9ba498_621:
	xorl	%r9d, %r9d
	cmpq	$8, %rcx
	jb	.LBB_9ba498_624
	.p2align	4
.LBB_9ba498_622:
	movdqu	%xmm0, -16(%rdi,%r9,4)
	movdqu	%xmm0, (%rdi,%r9,4)
	addq	$8, %r9
	cmpq	%r9, %rsi
	jne	.LBB_9ba498_622
	movq	%rsi, %r9
	cmpq	%rsi, %rcx
	je	.LBB_9ba498_620
	.p2align	4
.LBB_9ba498_624:
	movl	%edx, (%r8,%r9,4)
	incq	%r9
	cmpq	%r9, %rcx
	jne	.LBB_9ba498_624
	jmp	.LBB_9ba498_620
.LBB_9ba498_625:
	movq	%r8, 64(%rsp)
	testq	%r13, %r13
	je	.LBB_9ba498_452
	movq	%r15, %r14
	shrq	$32, %r14
	subq	%rbx, %rcx
	movabsq	$4294967296, %rbx
	leaq	(%rcx,%rbx), %r12
	leaq	(%rdx,%rbx), %r8
	cmpq	%r12, %r8
	movl	%esi, 96(%rsp)
	movq	%r12, %rsi
	cmovbq	%r8, %rsi
	xorl	%r11d, %r11d
	movq	%rbp, 80(%rsp)
	movq	%rbx, %rbp
	subq	%rsi, %rbp
	cmovbq	%r11, %rbp
	orq	%rbx, %r13
	subq	%r12, %r13
	cmovbq	%r11, %r13
	movl	%r15d, %esi
	orq	%rbx, %rsi
	subq	%r8, %rsi
	cmovbq	%r11, %rsi
	cmpl	%edi, %r9d
	cmovbl	%r9d, %edi
	cmpq	%rdi, %r13
	cmovaeq	%rdi, %r13
	cmpq	%r13, %rsi
	cmovbq	%rsi, %r13
	leaq	(%rcx,%rbp), %rdi
	addq	%r13, %rcx
	addq	%rbp, %rdx
	cmpq	%rbp, %r13
	cmovbeq	%r11, %rdi
	cmovbeq	%r11, %rcx
	cmovbeq	%r11, %rdx
	subq	32(%rsp), %r10
	leaq	(%r10,%rbx), %rsi
	movq	24(%rsp), %r8
	leaq	(%r8,%rbx), %r15
	cmpq	%rsi, %r15
	movq	%rsi, %r12
	cmovbq	%r15, %r12
	movq	%rbx, %r9
	subq	%r12, %r9
	cmovbq	%r11, %r9
	movq	(%rsp), %r12
	orq	%rbx, %r12
	subq	%rsi, %r12
	cmovbq	%r11, %r12
	orq	%rbx, %r14
	subq	%r15, %r14
	cmovbq	%r11, %r14
	movl	96(%rsp), %esi
	cmpl	%eax, %esi
	cmovbl	%esi, %eax
	cmpq	%rax, %r12
	cmovaeq	%rax, %r12
	cmpq	%r12, %r14
	cmovbq	%r14, %r12
	leaq	(%r9,%r10), %rax
	addq	%r12, %r10
	addq	%r9, %r8
	cmpq	%r9, %r12
	cmovbeq	%r11, %rax
	cmovbeq	%r11, %r10
	cmovbeq	%r11, %r8
	movq	64(%rsp), %rsi
	movl	(%rsi), %r9d
	movq	%rdi, 120(%rsp)
	movq	%rcx, 128(%rsp)
	movq	%rdx, 136(%rsp)
	movq	%rax, 144(%rsp)
	movq	%r10, 152(%rsp)
	movq	%r8, 160(%rsp)
	leaq	120(%rsp), %r8
	movq	16(%rsp), %rdi
	movq	8(%rsp), %rsi
	movq	48(%rsp), %rdx
	movq	80(%rsp), %rcx
	callq	"pix_raster::view::blit_overlap::<#c351f49995d5d0e6>"
	jmp	.LBB_9ba498_452
.LBB_9ba498_627:
	movq	%r8, 64(%rsp)
	movq	%rbp, 80(%rsp)
	testq	%r13, %r13
	je	.LBB_9ba498_452
	movl	%esi, 96(%rsp)
	movq	344(%rsp), %r14
	movq	%r14, 176(%rsp)
	movslq	360(%rsp), %rbp
	movabsq	$4294967296, %r8
	movq	%r15, %r11
	shrq	$32, %r11
	shrq	$32, %r14
	subq	%rbx, %rcx
	leaq	(%rcx,%r8), %r12
	leaq	(%rdx,%r8), %rbx
	cmpq	%r12, %rbx
	movq	%r12, %rsi
	cmovbq	%rbx, %rsi
	movq	%rbp, 168(%rsp)
	leaq	(%r8,%rbp), %rbx
	movq	%rbx, 72(%rsp)
	cmpq	%rsi, %rbx
	cmovbq	%rbx, %rsi
	xorl	%ebp, %ebp
	movq	%r8, %rbx
	subq	%rsi, %rbx
	cmovbq	%rbp, %rbx
	orq	%r8, %r13
	subq	%r12, %r13
	cmovbq	%rbp, %r13
	movl	%r15d, %r15d
	orq	%r8, %r15
	leaq	(%rdx,%r8), %rsi
	subq	%rsi, %r15
	movl	176(%rsp), %esi
	cmovbq	%rbp, %r15
	orq	%r8, %rsi
	subq	72(%rsp), %rsi
	movl	$0, %r12d
	movq	%r12, 192(%rsp)
	cmovbq	%rbp, %rsi
	cmpl	%edi, %r9d
	cmovbl	%r9d, %edi
	movl	368(%rsp), %r9d
	cmpl	%edi, %r9d
	cmovbl	%r9d, %edi
	cmpq	%rdi, %r13
	cmovaeq	%rdi, %r13
	movslq	364(%rsp), %rdi
	movq	%rdi, 208(%rsp)
	cmpq	%r13, %r15
	cmovbq	%r15, %r13
	movl	372(%rsp), %edi
	cmpq	%r13, %rsi
	cmovbq	%rsi, %r13
	movl	$0, %ebp
	movl	$0, %esi
	movq	%rsi, 216(%rsp)
	movl	$0, %esi
	cmpq	%rbx, %r13
	jbe	.LBB_9ba498_630
	leaq	(%rbx,%rcx), %rsi
	movq	%rsi, 192(%rsp)
	addq	%rcx, %r13
	addq	%rbx, %rdx
	movq	168(%rsp), %rsi
	addq	%rbx, %rsi
	movq	%r13, %rbp
	movq	%rdx, 216(%rsp)
.LBB_9ba498_630:
	movq	%rsi, %r13
	subq	32(%rsp), %r10
	leaq	(%r10,%r8), %r15
	movq	24(%rsp), %rcx
	leaq	(%rcx,%r8), %rbx
	movq	208(%rsp), %rcx
	leaq	(%rcx,%r8), %rdx
	cmpq	%r15, %rbx
	movq	%r15, %rsi
	cmovbq	%rbx, %rsi
	cmpq	%rsi, %rdx
	cmovbq	%rdx, %rsi
	xorl	%r12d, %r12d
	movq	%r8, %rcx
	subq	%rsi, %rcx
	cmovbq	%r12, %rcx
	movq	(%rsp), %rsi
	orq	%r8, %rsi
	subq	%r15, %rsi
	cmovbq	%r12, %rsi
	orq	%r8, %r11
	subq	%rbx, %r11
	cmovbq	%r12, %r11
	orq	%r8, %r14
	subq	%rdx, %r14
	cmovbq	%r12, %r14
	movl	96(%rsp), %r9d
	cmpl	%eax, %r9d
	cmovbl	%r9d, %eax
	cmpl	%eax, %edi
	cmovbl	%edi, %eax
	cmpq	%rax, %rsi
	cmovaeq	%rax, %rsi
	cmpq	%rsi, %r11
	cmovbq	%r11, %rsi
	cmpq	%rsi, %r14
	cmovbq	%r14, %rsi
	cmpq	%rcx, %rsi
	jbe	.LBB_9ba498_452
	movq	%rsi, %rax
	leaq	(%rcx,%r10), %rsi
	addq	%r10, %rax
	movq	%rax, (%rsp)
	movq	%rsi, 224(%rsp)
	cmpq	%rax, %rsi
	jae	.LBB_9ba498_452
	movq	352(%rsp), %rax
	movq	%rax, 176(%rsp)
	movq	%r8, %rsi
	movq	24(%rsp), %r8
	leaq	(%rcx,%r8), %rax
	movq	%rax, 248(%rsp)
	addq	%rcx, 208(%rsp)
	movq	64(%rsp), %r11
	movq	%r13, 72(%rsp)
	leaq	(%r11,%r13), %rax
	movq	%rax, 384(%rsp)
	subq	192(%rsp), %rbp
	movq	%rbp, %rax
	shrq	$4, %rax
	movq	%rax, 96(%rsp)
	movq	%rbp, %r10
	andq	$-16, %r10
	movl	%ebp, %r14d
	andl	$15, %r14d
	movl	%ebp, %eax
	andl	$8, %eax
	movq	%rax, 232(%rsp)
	movl	%ebp, %edi
	andl	$12, %edi
	addq	%rsi, %r8
	cmpq	%rbx, %r15
	cmovbq	%r15, %rbx
	leaq	(,%r10,4), %r9
	cmpq	%rdx, %rbx
	cmovaeq	%rdx, %rbx
	cmpq	%rsi, %rbx
	cmovaeq	%rsi, %rbx
	subq	%rbx, %r8
	imulq	80(%rsp), %r8
	movq	216(%rsp), %r12
	leaq	(,%r12,4), %rax
	leaq	(%rax,%r8,4), %rsi
	subq	%rbx, %rdx
	movq	8(%rsp), %rbx
	movq	%rbx, %rcx
	movq	224(%rsp), %r13
	imulq	%r13, %rcx
	imulq	176(%rsp), %rdx
	addq	72(%rsp), %rdx
	movq	%r10, 72(%rsp)
	movq	%rdi, 200(%rsp)
	leaq	(%r10,%rdi), %rax
	addq	%r11, %rax
	leaq	(%r11,%rdx), %r10
	addq	%rdx, %rax
	movq	192(%rsp), %r11
	leaq	(,%r11,4), %rdx
	leaq	(%rdx,%rcx,4), %r15
	leaq	(%r9,%r8,4), %rdx
	movq	%rax, %r8
	movq	%rbp, 64(%rsp)
	leal	(,%rbp,4), %edi
	andl	$48, %edi
	addq	%rdi, %rdx
	movq	%r9, 392(%rsp)
	leaq	(%r9,%rcx,4), %rcx
	addq	%rdi, %rcx
	movq	48(%rsp), %rdi
	addq	%rdi, %rsi
	movq	16(%rsp), %rax
	addq	%rax, %r15
	leaq	(%rdx,%r12,4), %r12
	addq	%rdi, %r12
	movq	%r14, %rdi
	leaq	(%rcx,%r11,4), %r11
	addq	%rax, %r11
	movq	80(%rsp), %rax
	leaq	(,%rax,4), %rax
	movq	%rax, 168(%rsp)
	leaq	(,%rbx,4), %rax
	movq	%rax, 240(%rsp)
	movq	%r13, 32(%rsp)
	jmp	.LBB_9ba498_634
.LBB_9ba498_633:
	movq	32(%rsp), %r9
	incq	%r9
	movq	168(%rsp), %rcx
	addq	%rcx, %rsi
	movq	240(%rsp), %rdx
	addq	%rdx, %r15
	movq	176(%rsp), %rax
	movq	24(%rsp), %r10
	addq	%rax, %r10
	addq	%rax, %r8
	addq	%rcx, %r12
	addq	%rdx, %r11
	movq	%r9, 32(%rsp)
	cmpq	(%rsp), %r9
	je	.LBB_9ba498_452
.LBB_9ba498_634:
	cmpq	$0, 96(%rsp)
	je	.LBB_9ba498_637
	movl	$8, %ebx
	movq	96(%rsp), %rbp
	.p2align	4
.LBB_9ba498_636:
	movdqu	-32(%rsi,%rbx,4), %xmm5
	movdqu	-16(%rsi,%rbx,4), %xmm4
	movq	-8(%r10,%rbx), %xmm7
	punpcklbw	%xmm7, %xmm7
	movdqa	%xmm7, %xmm8
	punpcklwd	%xmm7, %xmm8
	punpckhwd	%xmm7, %xmm7
	movdqa	.LCPI_9ba498_0(%rip), %xmm0
	movdqa	%xmm4, %xmm1
	pand	%xmm0, %xmm1
	movdqa	%xmm5, %xmm2
	pand	%xmm0, %xmm2
	movdqa	%xmm7, %xmm3
	pand	%xmm0, %xmm3
	pmullw	%xmm1, %xmm3
	movdqa	%xmm8, %xmm6
	pand	%xmm0, %xmm6
	pmullw	%xmm2, %xmm6
	movdqa	.LCPI_9ba498_1(%rip), %xmm1
	paddw	%xmm1, %xmm3
	paddw	%xmm1, %xmm6
	movdqa	.LCPI_9ba498_2(%rip), %xmm2
	pmulhuw	%xmm2, %xmm6
	pmulhuw	%xmm2, %xmm3
	psrlw	$8, %xmm5
	psrlw	$8, %xmm4
	psrlw	$8, %xmm8
	pmullw	%xmm5, %xmm8
	psrlw	$8, %xmm7
	pmullw	%xmm4, %xmm7
	paddw	%xmm1, %xmm8
	paddw	%xmm1, %xmm7
	pmulhuw	%xmm2, %xmm7
	pmulhuw	%xmm2, %xmm8
	psllw	$8, %xmm8
	por	%xmm6, %xmm8
	psllw	$8, %xmm7
	por	%xmm3, %xmm7
	pcmpeqd	%xmm5, %xmm5
	pxor	%xmm5, %xmm8
	pxor	%xmm5, %xmm7
	movdqa	.LCPI_9ba498_5(%rip), %xmm6
	pshufb	%xmm6, %xmm7
	pshufb	%xmm6, %xmm8
	movdqu	-32(%r15,%rbx,4), %xmm10
	movdqu	-16(%r15,%rbx,4), %xmm9
	movdqu	(%r15,%rbx,4), %xmm4
	movdqu	16(%r15,%rbx,4), %xmm3
	movdqa	%xmm9, %xmm11
	pand	%xmm0, %xmm11
	movdqa	%xmm10, %xmm12
	pand	%xmm0, %xmm12
	pmullw	%xmm8, %xmm12
	pmullw	%xmm7, %xmm11
	paddw	%xmm1, %xmm11
	paddw	%xmm1, %xmm12
	pmulhuw	%xmm2, %xmm12
	pmulhuw	%xmm2, %xmm11
	psrlw	$8, %xmm10
	psrlw	$8, %xmm9
	pmullw	%xmm7, %xmm9
	pmullw	%xmm8, %xmm10
	paddw	%xmm1, %xmm10
	paddw	%xmm1, %xmm9
	pmulhuw	%xmm2, %xmm9
	pmulhuw	%xmm2, %xmm10
	psllw	$8, %xmm10
	por	%xmm12, %xmm10
	psllw	$8, %xmm9
	por	%xmm11, %xmm9
	movdqu	%xmm10, -32(%r15,%rbx,4)
	movdqu	%xmm9, -16(%r15,%rbx,4)
	movdqu	(%rsi,%rbx,4), %xmm11
	movdqu	16(%rsi,%rbx,4), %xmm10
	movq	(%r10,%rbx), %xmm7
	punpcklbw	%xmm7, %xmm7
	movdqa	%xmm7, %xmm8
	punpcklwd	%xmm7, %xmm8
	punpckhwd	%xmm7, %xmm7
	movdqa	%xmm10, %xmm12
	pand	%xmm0, %xmm12
	movdqa	%xmm11, %xmm13
	pand	%xmm0, %xmm13
	movdqa	%xmm7, %xmm9
	pand	%xmm0, %xmm9
	pmullw	%xmm12, %xmm9
	movdqa	%xmm8, %xmm12
	pand	%xmm0, %xmm12
	pmullw	%xmm13, %xmm12
	paddw	%xmm1, %xmm9
	paddw	%xmm1, %xmm12
	pmulhuw	%xmm2, %xmm12
	pmulhuw	%xmm2, %xmm9
	psrlw	$8, %xmm11
	psrlw	$8, %xmm10
	psrlw	$8, %xmm8
	pmullw	%xmm11, %xmm8
	psrlw	$8, %xmm7
	pmullw	%xmm10, %xmm7
	paddw	%xmm1, %xmm8
	paddw	%xmm1, %xmm7
	pmulhuw	%xmm2, %xmm7
	pmulhuw	%xmm2, %xmm8
	psllw	$8, %xmm8
	por	%xmm12, %xmm8
	psllw	$8, %xmm7
	por	%xmm9, %xmm7
	pxor	%xmm5, %xmm8
	pxor	%xmm5, %xmm7
	pshufb	%xmm6, %xmm7
	pshufb	%xmm6, %xmm8
	movdqa	%xmm3, %xmm5
	pand	%xmm0, %xmm5
	pand	%xmm4, %xmm0
	pmullw	%xmm8, %xmm0
	pmullw	%xmm7, %xmm5
	paddw	%xmm1, %xmm5
	paddw	%xmm1, %xmm0
	pmulhuw	%xmm2, %xmm0
	pmulhuw	%xmm2, %xmm5
	psrlw	$8, %xmm4
	psrlw	$8, %xmm3
	pmullw	%xmm7, %xmm3
	pmullw	%xmm8, %xmm4
	paddw	%xmm1, %xmm4
	paddw	%xmm1, %xmm3
	pmulhuw	%xmm2, %xmm3
	pmulhuw	%xmm2, %xmm4
	psllw	$8, %xmm4
	por	%xmm0, %xmm4
	psllw	$8, %xmm3
	por	%xmm5, %xmm3
	movdqu	%xmm4, (%r15,%rbx,4)
	movdqu	%xmm3, 16(%r15,%rbx,4)
	addq	$16, %rbx
	decq	%rbp
	jne	.LBB_9ba498_636
.LBB_9ba498_637:
	movq	%r10, 24(%rsp)
	movq	72(%rsp), %rax
	cmpq	64(%rsp), %rax
	je	.LBB_9ba498_633
	movq	32(%rsp), %rbp
	movq	%rbp, %rcx
	imulq	8(%rsp), %rcx
	addq	192(%rsp), %rcx
	subq	224(%rsp), %rbp
	movq	248(%rsp), %rax
	leaq	(%rax,%rbp), %rdx
	imulq	80(%rsp), %rdx
	addq	216(%rsp), %rdx
	addq	208(%rsp), %rbp
	imulq	176(%rsp), %rbp
	addq	384(%rsp), %rbp
	movq	16(%rsp), %rax
	leaq	(%rax,%rcx,4), %rbx
	movq	48(%rsp), %rax
	leaq	(%rax,%rdx,4), %r14
	movq	392(%rsp), %rax
	addq	%rax, %rbx
	addq	%rax, %r14
	addq	72(%rsp), %rbp
	cmpq	$0, 232(%rsp)
	jne	.LBB_9ba498_641
	testb	$4, 64(%rsp)
	jne	.LBB_9ba498_642
.LBB_9ba498_640:
	cmpl	%edi, 200(%rsp)
	je	.LBB_9ba498_633
	jmp	.LBB_9ba498_643
.LBB_9ba498_641:
	movdqu	(%r14), %xmm7
	movdqu	16(%r14), %xmm6
	movq	(%rbp), %xmm1
	punpcklbw	%xmm1, %xmm1
	movdqa	%xmm1, %xmm2
	punpcklwd	%xmm1, %xmm2
	punpckhwd	%xmm1, %xmm1
	movdqa	.LCPI_9ba498_0(%rip), %xmm0
	movdqa	%xmm6, %xmm3
	pand	%xmm0, %xmm3
	movdqa	%xmm7, %xmm4
	pand	%xmm0, %xmm4
	movdqa	%xmm1, %xmm5
	pand	%xmm0, %xmm5
	pmullw	%xmm3, %xmm5
	movdqa	%xmm2, %xmm8
	pand	%xmm0, %xmm8
	pmullw	%xmm4, %xmm8
	movdqa	.LCPI_9ba498_1(%rip), %xmm3
	paddw	%xmm3, %xmm5
	paddw	%xmm3, %xmm8
	movdqa	.LCPI_9ba498_2(%rip), %xmm4
	pmulhuw	%xmm4, %xmm8
	pmulhuw	%xmm4, %xmm5
	psrlw	$8, %xmm7
	psrlw	$8, %xmm6
	psrlw	$8, %xmm2
	pmullw	%xmm7, %xmm2
	psrlw	$8, %xmm1
	pmullw	%xmm6, %xmm1
	paddw	%xmm3, %xmm2
	paddw	%xmm3, %xmm1
	pmulhuw	%xmm4, %xmm1
	pmulhuw	%xmm4, %xmm2
	psllw	$8, %xmm2
	por	%xmm8, %xmm2
	psllw	$8, %xmm1
	por	%xmm5, %xmm1
	movdqu	(%rbx), %xmm6
	movdqu	16(%rbx), %xmm5
	pcmpeqd	%xmm7, %xmm7
	pxor	%xmm7, %xmm2
	pxor	%xmm7, %xmm1
	movdqa	.LCPI_9ba498_5(%rip), %xmm7
	pshufb	%xmm7, %xmm1
	pshufb	%xmm7, %xmm2
	movdqa	%xmm5, %xmm7
	pand	%xmm0, %xmm7
	pand	%xmm6, %xmm0
	pmullw	%xmm2, %xmm0
	pmullw	%xmm1, %xmm7
	paddw	%xmm3, %xmm7
	paddw	%xmm3, %xmm0
	pmulhuw	%xmm4, %xmm0
	pmulhuw	%xmm4, %xmm7
	psrlw	$8, %xmm6
	psrlw	$8, %xmm5
	pmullw	%xmm1, %xmm5
	pmullw	%xmm2, %xmm6
	paddw	%xmm3, %xmm6
	paddw	%xmm3, %xmm5
	pmulhuw	%xmm4, %xmm5
	pmulhuw	%xmm4, %xmm6
	psllw	$8, %xmm6
	por	%xmm0, %xmm6
	psllw	$8, %xmm5
	por	%xmm7, %xmm5
	movdqu	%xmm6, (%rbx)
	movdqu	%xmm5, 16(%rbx)
	testb	$4, 64(%rsp)
	je	.LBB_9ba498_640
.LBB_9ba498_642:
	movq	232(%rsp), %rax
	leal	(,%rax,4), %ecx
	movdqu	(%r14,%rcx), %xmm4
	movd	(%rbp,%rax), %xmm0
	punpcklbw	%xmm0, %xmm0
	punpcklwd	%xmm0, %xmm0
	movdqa	.LCPI_9ba498_0(%rip), %xmm3
	movdqa	%xmm4, %xmm1
	pand	%xmm3, %xmm1
	movdqa	%xmm0, %xmm5
	pand	%xmm3, %xmm5
	pmullw	%xmm1, %xmm5
	movdqa	.LCPI_9ba498_1(%rip), %xmm1
	paddw	%xmm1, %xmm5
	movdqa	.LCPI_9ba498_2(%rip), %xmm2
	pmulhuw	%xmm2, %xmm5
	psrlw	$8, %xmm4
	psrlw	$8, %xmm0
	pmullw	%xmm4, %xmm0
	paddw	%xmm1, %xmm0
	pmulhuw	%xmm2, %xmm0
	psllw	$8, %xmm0
	por	%xmm5, %xmm0
	movdqu	(%rbx,%rcx), %xmm4
	pshufb	.LCPI_9ba498_6(%rip), %xmm0
	pcmpeqd	%xmm5, %xmm5
	pxor	%xmm0, %xmm5
	movdqa	%xmm4, %xmm6
	pand	%xmm3, %xmm6
	pandn	%xmm3, %xmm0
	pmullw	%xmm6, %xmm0
	paddw	%xmm1, %xmm0
	pmulhuw	%xmm2, %xmm0
	psrlw	$8, %xmm4
	psrlw	$8, %xmm5
	pmullw	%xmm4, %xmm5
	paddw	%xmm1, %xmm5
	pmulhuw	%xmm2, %xmm5
	psllw	$8, %xmm5
	por	%xmm0, %xmm5
	movdqu	%xmm5, (%rbx,%rcx)
	cmpl	%edi, 200(%rsp)
	je	.LBB_9ba498_633
.LBB_9ba498_643:
	xorl	%r9d, %r9d
	movq	200(%rsp), %r14
	.p2align	4
.LBB_9ba498_644:
	movzbl	3(%r12,%r9,4), %ecx
	movzbl	(%r8,%r9), %ebp
	imull	%ecx, %ebp
	movl	(%r11,%r9,4), %edx
	movq	%r11, %r10
	movq	%r8, %r11
	movq	%rdi, %r8
	movzbl	%dh, %edi
	movl	%edx, %ecx
	movzbl	%dl, %r13d
	movq	%r12, %rbx
	movl	%edx, %r12d
	shrl	$16, %r12d
	shrl	$24, %ecx
	leal	128(%rbp), %edx
	movzbl	%dh, %edx
	addl	%ebp, %edx
	addl	$128, %edx
	notl	%edx
	movzbl	%dh, %edx
	imull	%edx, %r13d
	leal	128(%r13), %eax
	movzbl	%ah, %eax
	addl	%r13d, %eax
	addl	$128, %eax
	movzbl	%ah, %ebp
	imull	%edx, %edi
	leal	128(%rdi), %eax
	movzbl	%ah, %eax
	addl	%eax, %edi
	addl	$128, %edi
	andl	$65280, %edi
	movzbl	%r12b, %eax
	movq	%rbx, %r12
	imull	%edx, %eax
	leal	128(%rax), %ebx
	movzbl	%bh, %ebx
	addl	%ebx, %eax
	addl	$128, %eax
	imull	%edx, %ecx
	leal	128(%rcx), %edx
	movzbl	%dh, %edx
	addl	%edx, %ecx
	addl	$128, %ecx
	shll	$16, %ecx
	andl	$-16777216, %ecx
	shll	$8, %eax
	andl	$16711680, %eax
	orl	%ecx, %eax
	orl	%edi, %eax
	movq	%r8, %rdi
	movq	%r11, %r8
	movq	%r10, %r11
	orl	%ebp, %eax
	movl	%eax, (%r10,%r9,4)
	incq	%r14
	incq	%r9
	cmpq	%rdi, %r14
	jb	.LBB_9ba498_644
	jmp	.LBB_9ba498_633
.LBB_9ba498_645:
	movq	%r11, 96(%rsp)
	testq	%r13, %r13
	je	.LBB_9ba498_452
	movq	%r14, %r15
	shrq	$32, %r15
	subq	%rbx, %rcx
	movabsq	$4294967296, %rbx
	movq	%rbp, 176(%rsp)
	leaq	(%rcx,%rbx), %rbp
	leaq	(%rdx,%rbx), %r11
	cmpq	%rbp, %r11
	movl	%esi, 80(%rsp)
	movq	%rbp, %rsi
	cmovbq	%r11, %rsi
	xorl	%r8d, %r8d
	movq	%rbx, %r12
	subq	%rsi, %r12
	cmovbq	%r8, %r12
	orq	%rbx, %r13
	subq	%rbp, %r13
	cmovbq	%r8, %r13
	movl	%r14d, %esi
	orq	%rbx, %rsi
	subq	%r11, %rsi
	cmovbq	%r8, %rsi
	cmpl	%edi, %r9d
	cmovbl	%r9d, %edi
	cmpq	%rdi, %r13
	cmovaeq	%rdi, %r13
	cmpq	%r13, %rsi
	cmovbq	%rsi, %r13
	leaq	(%r12,%rcx), %rdi
	addq	%r13, %rcx
	addq	%r12, %rdx
	cmpq	%r12, %r13
	cmovbeq	%r8, %rdi
	cmovbeq	%r8, %rcx
	cmovbeq	%r8, %rdx
	subq	(%rsp), %r10
	leaq	(%r10,%rbx), %rsi
	movq	24(%rsp), %r11
	leaq	(%r11,%rbx), %r14
	cmpq	%rsi, %r14
	movq	%rsi, %r12
	cmovbq	%r14, %r12
	movq	%rbx, %r9
	subq	%r12, %r9
	cmovbq	%r8, %r9
	movq	8(%rsp), %r12
	orq	%rbx, %r12
	subq	%rsi, %r12
	cmovbq	%r8, %r12
	orq	%rbx, %r15
	subq	%r14, %r15
	cmovbq	%r8, %r15
	movl	80(%rsp), %esi
	cmpl	%eax, %esi
	cmovbl	%esi, %eax
	cmpq	%rax, %r12
	cmovaeq	%rax, %r12
	cmpq	%r12, %r15
	cmovbq	%r15, %r12
	leaq	(%r9,%r10), %rax
	addq	%r12, %r10
	addq	%r9, %r11
	cmpq	%r9, %r12
	cmovbeq	%r8, %rax
	cmovbeq	%r8, %r10
	cmovbeq	%r8, %r11
	movq	96(%rsp), %rsi
	movl	(%rsi), %r9d
	movq	%rdi, 120(%rsp)
	movq	%rcx, 128(%rsp)
	movq	%rdx, 136(%rsp)
	movq	%rax, 144(%rsp)
	movq	%r10, 152(%rsp)
	movq	%r11, 160(%rsp)
	leaq	120(%rsp), %r8
	movq	16(%rsp), %rdi
	movq	32(%rsp), %rsi
	movq	48(%rsp), %rdx
	movq	176(%rsp), %rcx
	callq	"pix_raster::view::blit_overlap::<#7b602135e49fc3a4>"
	jmp	.LBB_9ba498_452
.LBB_9ba498_647:
	movq	%rdx, 176(%rsp)
	testq	%rbp, %rbp
	je	.LBB_9ba498_452
	movq	%r8, 80(%rsp)
	movl	%r13d, %edx
	movq	%r15, %r13
	shrq	$32, %r13
	subq	%rbx, %rcx
	movabsq	$4294967296, %rbx
	leaq	(%rcx,%rbx), %r12
	leaq	(%rdi,%rbx), %r9
	cmpq	%r12, %r9
	movq	%r12, %r8
	cmovbq	%r9, %r8
	xorl	%r9d, %r9d
	movq	%rbx, %r14
	subq	%r8, %r14
	cmovbq	%r9, %r14
	orq	%rbx, %rbp
	subq	%r12, %rbp
	cmovbq	%r9, %rbp
	movl	%r15d, %r8d
	orq	%rbx, %r8
	leaq	(%rdi,%rbx), %r15
	subq	%r15, %r8
	cmovbq	%r9, %r8
	cmpl	%r10d, %r11d
	cmovbl	%r11d, %r10d
	cmpq	%r10, %rbp
	cmovaeq	%r10, %rbp
	cmpq	%rbp, %r8
	cmovbq	%r8, %rbp
	leaq	(%r14,%rcx), %r10
	addq	%rbp, %rcx
	addq	%r14, %rdi
	cmpq	%r14, %rbp
	cmovbeq	%r9, %r10
	cmovbeq	%r9, %rcx
	cmovbeq	%r9, %rdi
	subq	32(%rsp), %rax
	leaq	(%rax,%rbx), %r8
	movq	24(%rsp), %r12
	leaq	(%r12,%rbx), %r14
	cmpq	%r8, %r14
	movq	%r8, %r15
	cmovbq	%r14, %r15
	movq	%rbx, %r11
	subq	%r15, %r11
	cmovbq	%r9, %r11
	movq	(%rsp), %r15
	orq	%rbx, %r15
	subq	%r8, %r15
	cmovbq	%r9, %r15
	orq	%rbx, %r13
	subq	%r14, %r13
	cmovbq	%r9, %r13
	cmpl	%esi, %edx
	cmovbl	%edx, %esi
	cmpq	%rsi, %r15
	cmovaeq	%rsi, %r15
	cmpq	%r15, %r13
	cmovbq	%r13, %r15
	leaq	(%r11,%rax), %rsi
	addq	%r15, %rax
	addq	%r11, %r12
	cmpq	%r11, %r15
	cmovbeq	%r9, %rsi
	cmovbeq	%r9, %rax
	cmovbeq	%r9, %r12
	movq	176(%rsp), %rdx
	movl	(%rdx), %r9d
	movq	%r10, 120(%rsp)
	movq	%rcx, 128(%rsp)
	movq	%rdi, 136(%rsp)
	movq	%rsi, 144(%rsp)
	movq	%rax, 152(%rsp)
	movq	%r12, 160(%rsp)
	leaq	120(%rsp), %r8
	movq	16(%rsp), %rdi
	movq	8(%rsp), %rsi
	movq	48(%rsp), %rdx
	movq	80(%rsp), %rcx
	callq	"pix_raster::view::blit_overlap::<#0658d1f93ab37b52>"
	jmp	.LBB_9ba498_452
.LBB_9ba498_649:
	movq	%rdx, 72(%rsp)
	testq	%rbp, %rbp
	je	.LBB_9ba498_452
	movl	%r13d, %edx
	movq	%r15, %r13
	shrq	$32, %r13
	subq	%rbx, %rcx
	movabsq	$4294967296, %rbx
	leaq	(%rcx,%rbx), %r12
	leaq	(%rdi,%rbx), %r9
	cmpq	%r12, %r9
	movq	%r8, 80(%rsp)
	movq	%r12, %r8
	cmovbq	%r9, %r8
	xorl	%r9d, %r9d
	movq	%rbx, %r14
	subq	%r8, %r14
	cmovbq	%r9, %r14
	orq	%rbx, %rbp
	subq	%r12, %rbp
	cmovbq	%r9, %rbp
	movl	%r15d, %r8d
	orq	%rbx, %r8
	leaq	(%rdi,%rbx), %r15
	subq	%r15, %r8
	cmovbq	%r9, %r8
	cmpl	%r10d, %r11d
	cmovbl	%r11d, %r10d
	cmpq	%r10, %rbp
	cmovaeq	%r10, %rbp
	cmpq	%rbp, %r8
	cmovbq	%r8, %rbp
	leaq	(%r14,%rcx), %r10
	addq	%rbp, %rcx
	addq	%r14, %rdi
	cmpq	%r14, %rbp
	cmovbeq	%r9, %r10
	cmovbeq	%r9, %rcx
	cmovbeq	%r9, %rdi
	subq	32(%rsp), %rax
	leaq	(%rax,%rbx), %r8
	movq	24(%rsp), %r12
	leaq	(%r12,%rbx), %r14
	cmpq	%r8, %r14
	movq	%r8, %r15
	cmovbq	%r14, %r15
	movq	%rbx, %r11
	subq	%r15, %r11
	cmovbq	%r9, %r11
	movq	(%rsp), %r15
	orq	%rbx, %r15
	subq	%r8, %r15
	cmovbq	%r9, %r15
	orq	%rbx, %r13
	subq	%r14, %r13
	cmovbq	%r9, %r13
	cmpl	%esi, %edx
	cmovbl	%edx, %esi
	cmpq	%rsi, %r15
	cmovaeq	%rsi, %r15
	cmpq	%r15, %r13
	cmovbq	%r13, %r15
	leaq	(%r11,%rax), %rsi
	addq	%r15, %rax
	addq	%r11, %r12
	cmpq	%r11, %r15
	cmovbeq	%r9, %rsi
	cmovbeq	%r9, %rax
	cmovbeq	%r9, %r12
	movq	72(%rsp), %rdx
	movl	(%rdx), %r9d
	movq	%r10, 120(%rsp)
	movq	%rcx, 128(%rsp)
	movq	%rdi, 136(%rsp)
	movq	%rsi, 144(%rsp)
	movq	%rax, 152(%rsp)
	movq	%r12, 160(%rsp)
	leaq	120(%rsp), %r8
	movq	16(%rsp), %rdi
	movq	8(%rsp), %rsi
	movq	48(%rsp), %rdx
	movq	80(%rsp), %rcx
	callq	"pix_raster::view::blit_overlap::<#09758d48ce65f64e>"
	jmp	.LBB_9ba498_452
.LBB_9ba498_651:
	movq	%r11, 96(%rsp)
	movq	%rbp, 176(%rsp)
	testq	%r13, %r13
	je	.LBB_9ba498_452
	movl	%esi, 80(%rsp)
	movq	344(%rsp), %r15
	movq	%r15, 64(%rsp)
	movslq	360(%rsp), %rbp
	movabsq	$4294967296, %r11
	movq	%r14, %r8
	shrq	$32, %r8
	shrq	$32, %r15
	subq	%rbx, %rcx
	leaq	(%rcx,%r11), %r12
	leaq	(%rdx,%r11), %rbx
	cmpq	%r12, %rbx
	movq	%r12, %rsi
	cmovbq	%rbx, %rsi
	movq	%rbp, 168(%rsp)
	leaq	(%r11,%rbp), %rbx
	movq	%rbx, 72(%rsp)
	cmpq	%rsi, %rbx
	cmovbq	%rbx, %rsi
	xorl	%ebp, %ebp
	movq	%r11, %rbx
	subq	%rsi, %rbx
	cmovbq	%rbp, %rbx
	orq	%r11, %r13
	subq	%r12, %r13
	cmovbq	%rbp, %r13
	movl	%r14d, %r14d
	orq	%r11, %r14
	leaq	(%rdx,%r11), %rsi
	subq	%rsi, %r14
	movl	64(%rsp), %esi
	cmovbq	%rbp, %r14
	orq	%r11, %rsi
	subq	72(%rsp), %rsi
	movl	$0, %r12d
	movq	%r12, 224(%rsp)
	cmovbq	%rbp, %rsi
	cmpl	%edi, %r9d
	cmovbl	%r9d, %edi
	movl	368(%rsp), %r9d
	cmpl	%edi, %r9d
	cmovbl	%r9d, %edi
	cmpq	%rdi, %r13
	cmovaeq	%rdi, %r13
	movslq	364(%rsp), %rdi
	movq	%rdi, 200(%rsp)
	cmpq	%r13, %r14
	cmovbq	%r14, %r13
	movl	372(%rsp), %edi
	cmpq	%r13, %rsi
	cmovbq	%rsi, %r13
	movl	$0, %ebp
	movl	$0, %esi
	movq	%rsi, 248(%rsp)
	movl	$0, %r9d
	cmpq	%rbx, %r13
	jbe	.LBB_9ba498_654
	leaq	(%rbx,%rcx), %rsi
	movq	%rsi, 224(%rsp)
	addq	%rcx, %r13
	addq	%rbx, %rdx
	movq	168(%rsp), %r9
	addq	%rbx, %r9
	movq	%r13, %rbp
	movq	%rdx, 248(%rsp)
.LBB_9ba498_654:
	subq	(%rsp), %r10
	leaq	(%r10,%r11), %r14
	movq	24(%rsp), %rcx
	leaq	(%rcx,%r11), %rbx
	movq	200(%rsp), %rcx
	leaq	(%rcx,%r11), %rdx
	cmpq	%r14, %rbx
	movq	%r14, %rsi
	cmovbq	%rbx, %rsi
	cmpq	%rsi, %rdx
	cmovbq	%rdx, %rsi
	xorl	%r12d, %r12d
	movq	%r11, %rcx
	subq	%rsi, %rcx
	cmovbq	%r12, %rcx
	movq	8(%rsp), %rsi
	orq	%r11, %rsi
	subq	%r14, %rsi
	cmovbq	%r12, %rsi
	orq	%r11, %r8
	subq	%rbx, %r8
	cmovbq	%r12, %r8
	orq	%r11, %r15
	subq	%rdx, %r15
	cmovbq	%r12, %r15
	movl	80(%rsp), %r12d
	cmpl	%eax, %r12d
	cmovbl	%r12d, %eax
	cmpl	%eax, %edi
	cmovbl	%edi, %eax
	cmpq	%rax, %rsi
	cmovaeq	%rax, %rsi
	cmpq	%rsi, %r8
	cmovbq	%r8, %rsi
	cmpq	%rsi, %r15
	cmovbq	%r15, %rsi
	cmpq	%rcx, %rsi
	jbe	.LBB_9ba498_452
	movq	%rsi, %rax
	leaq	(%rcx,%r10), %rsi
	addq	%r10, %rax
	movq	%rax, 8(%rsp)
	movq	%rsi, 384(%rsp)
	cmpq	%rax, %rsi
	jae	.LBB_9ba498_452
	movq	352(%rsp), %rax
	movq	%rax, 72(%rsp)
	movq	%r11, %rsi
	movq	24(%rsp), %r11
	leaq	(%rcx,%r11), %rax
	movq	%rax, 392(%rsp)
	addq	%rcx, 200(%rsp)
	movq	96(%rsp), %r10
	leaq	(%r10,%r9), %rax
	movq	%rax, 400(%rsp)
	subq	224(%rsp), %rbp
	movq	%rbp, %rax
	shrq	$4, %rax
	movq	%rax, 64(%rsp)
	movq	%rbp, %rcx
	andq	$-16, %rcx
	movl	%ebp, %eax
	andl	$15, %eax
	movq	%rax, 408(%rsp)
	movl	%ebp, %eax
	andl	$8, %eax
	movq	%rax, 192(%rsp)
	movl	%ebp, %r8d
	andl	$12, %r8d
	addq	%rsi, %r11
	cmpq	%rbx, %r14
	cmovbq	%r14, %rbx
	leaq	(,%rcx,4), %rdi
	cmpq	%rdx, %rbx
	cmovaeq	%rdx, %rbx
	cmpq	%rsi, %rbx
	cmovaeq	%rsi, %rbx
	subq	%rbx, %r11
	movq	176(%rsp), %r15
	imulq	%r15, %r11
	movq	248(%rsp), %r12
	leaq	(,%r12,4), %rax
	leaq	(%rax,%r11,4), %r13
	subq	%rbx, %rdx
	movq	32(%rsp), %rbx
	movq	%rbx, %rax
	movq	384(%rsp), %r14
	imulq	%r14, %rax
	imulq	72(%rsp), %rdx
	addq	%r9, %rdx
	movq	%rcx, 240(%rsp)
	movq	%r8, 216(%rsp)
	leaq	(%rcx,%r8), %r9
	addq	%r10, %r9
	addq	%rdx, %r10
	addq	%rdx, %r9
	movq	224(%rsp), %rsi
	leaq	(,%rsi,4), %rcx
	leaq	(%rcx,%rax,4), %r8
	leaq	(%rdi,%r11,4), %rcx
	movq	%rbp, 168(%rsp)
	leal	(,%rbp,4), %edx
	andl	$48, %edx
	addq	%rdx, %rcx
	movq	%rdi, 416(%rsp)
	leaq	(%rdi,%rax,4), %rax
	addq	%rdx, %rax
	movq	48(%rsp), %rdi
	addq	%rdi, %r13
	movq	16(%rsp), %rdx
	addq	%rdx, %r8
	leaq	(%rcx,%r12,4), %r11
	addq	%rdi, %r11
	leaq	(%rax,%rsi,4), %rdi
	addq	%rdx, %rdi
	leaq	(,%r15,4), %rax
	movq	%rax, 208(%rsp)
	leaq	(,%rbx,4), %rax
	movq	%rax, 232(%rsp)
	movq	408(%rsp), %r15
	movq	%r14, 24(%rsp)
	jmp	.LBB_9ba498_658
.LBB_9ba498_657:
	movq	24(%rsp), %rbx
	incq	%rbx
	movq	96(%rsp), %r13
	movq	208(%rsp), %rcx
	addq	%rcx, %r13
	movq	232(%rsp), %rdx
	addq	%rdx, %r8
	movq	72(%rsp), %rax
	movq	80(%rsp), %r10
	addq	%rax, %r10
	addq	%rax, %r9
	addq	%rcx, %r11
	addq	%rdx, %rdi
	movq	%rbx, 24(%rsp)
	cmpq	8(%rsp), %rbx
	je	.LBB_9ba498_452
.LBB_9ba498_658:
	cmpq	$0, 64(%rsp)
	je	.LBB_9ba498_661
	movl	$8, %ebx
	movq	64(%rsp), %r14
	.p2align	4
.LBB_9ba498_660:
	movdqu	-32(%r13,%rbx,4), %xmm4
	movdqu	-16(%r13,%rbx,4), %xmm3
	movq	-8(%r10,%rbx), %xmm5
	punpcklbw	%xmm5, %xmm5
	movdqa	%xmm5, %xmm7
	punpcklwd	%xmm5, %xmm7
	punpckhwd	%xmm5, %xmm5
	movdqa	.LCPI_9ba498_0(%rip), %xmm0
	movdqa	%xmm3, %xmm1
	pand	%xmm0, %xmm1
	movdqa	%xmm4, %xmm2
	pand	%xmm0, %xmm2
	movdqa	%xmm5, %xmm8
	pand	%xmm0, %xmm8
	pmullw	%xmm1, %xmm8
	movdqa	%xmm7, %xmm9
	pand	%xmm0, %xmm9
	pmullw	%xmm2, %xmm9
	movdqa	.LCPI_9ba498_1(%rip), %xmm1
	paddw	%xmm1, %xmm8
	paddw	%xmm1, %xmm9
	movdqa	.LCPI_9ba498_2(%rip), %xmm2
	pmulhuw	%xmm2, %xmm9
	pmulhuw	%xmm2, %xmm8
	psrlw	$8, %xmm4
	psrlw	$8, %xmm3
	psrlw	$8, %xmm7
	pmullw	%xmm4, %xmm7
	psrlw	$8, %xmm5
	pmullw	%xmm3, %xmm5
	paddw	%xmm1, %xmm7
	paddw	%xmm1, %xmm5
	pmulhuw	%xmm2, %xmm5
	pmulhuw	%xmm2, %xmm7
	psllw	$8, %xmm7
	psllw	$8, %xmm5
	movdqu	-32(%r8,%rbx,4), %xmm10
	movdqu	-16(%r8,%rbx,4), %xmm11
	movdqu	(%r8,%rbx,4), %xmm3
	movdqu	16(%r8,%rbx,4), %xmm4
	movdqa	.LCPI_9ba498_5(%rip), %xmm6
	pshufb	%xmm6, %xmm11
	pshufb	%xmm6, %xmm10
	por	%xmm8, %xmm5
	por	%xmm9, %xmm7
	pmullw	%xmm10, %xmm9
	pmullw	%xmm11, %xmm8
	paddw	%xmm1, %xmm8
	paddw	%xmm1, %xmm9
	pmulhuw	%xmm2, %xmm9
	pmulhuw	%xmm2, %xmm8
	psrlw	$8, %xmm7
	psrlw	$8, %xmm5
	pmullw	%xmm11, %xmm5
	pmullw	%xmm10, %xmm7
	paddw	%xmm1, %xmm7
	paddw	%xmm1, %xmm5
	pmulhuw	%xmm2, %xmm5
	pmulhuw	%xmm2, %xmm7
	psllw	$8, %xmm7
	por	%xmm9, %xmm7
	psllw	$8, %xmm5
	por	%xmm8, %xmm5
	movdqu	%xmm7, -32(%r8,%rbx,4)
	movdqu	%xmm5, -16(%r8,%rbx,4)
	movdqu	(%r13,%rbx,4), %xmm10
	movdqu	16(%r13,%rbx,4), %xmm9
	movq	(%r10,%rbx), %xmm5
	punpcklbw	%xmm5, %xmm5
	movdqa	%xmm5, %xmm7
	punpcklwd	%xmm5, %xmm7
	punpckhwd	%xmm5, %xmm5
	movdqa	%xmm9, %xmm11
	pand	%xmm0, %xmm11
	movdqa	%xmm10, %xmm12
	pand	%xmm0, %xmm12
	movdqa	%xmm5, %xmm8
	pand	%xmm0, %xmm8
	pmullw	%xmm11, %xmm8
	pand	%xmm7, %xmm0
	pmullw	%xmm12, %xmm0
	paddw	%xmm1, %xmm8
	paddw	%xmm1, %xmm0
	pmulhuw	%xmm2, %xmm0
	pmulhuw	%xmm2, %xmm8
	psrlw	$8, %xmm10
	psrlw	$8, %xmm9
	psrlw	$8, %xmm7
	pmullw	%xmm10, %xmm7
	psrlw	$8, %xmm5
	pmullw	%xmm9, %xmm5
	paddw	%xmm1, %xmm7
	paddw	%xmm1, %xmm5
	pmulhuw	%xmm2, %xmm5
	pmulhuw	%xmm2, %xmm7
	psllw	$8, %xmm7
	psllw	$8, %xmm5
	pshufb	%xmm6, %xmm4
	pshufb	%xmm6, %xmm3
	por	%xmm8, %xmm5
	por	%xmm0, %xmm7
	pmullw	%xmm3, %xmm0
	pmullw	%xmm4, %xmm8
	paddw	%xmm1, %xmm8
	paddw	%xmm1, %xmm0
	pmulhuw	%xmm2, %xmm0
	pmulhuw	%xmm2, %xmm8
	psrlw	$8, %xmm7
	psrlw	$8, %xmm5
	pmullw	%xmm4, %xmm5
	pmullw	%xmm3, %xmm7
	paddw	%xmm1, %xmm7
	paddw	%xmm1, %xmm5
	pmulhuw	%xmm2, %xmm5
	pmulhuw	%xmm2, %xmm7
	psllw	$8, %xmm7
	por	%xmm0, %xmm7
	psllw	$8, %xmm5
	por	%xmm8, %xmm5
	movdqu	%xmm7, (%r8,%rbx,4)
	movdqu	%xmm5, 16(%r8,%rbx,4)
	addq	$16, %rbx
	decq	%r14
	jne	.LBB_9ba498_660
.LBB_9ba498_661:
	movq	%r13, 96(%rsp)
	movq	%r10, 80(%rsp)
	movq	240(%rsp), %rax
	cmpq	168(%rsp), %rax
	je	.LBB_9ba498_657
	movq	24(%rsp), %r14
	movq	%r14, %rax
	imulq	32(%rsp), %rax
	addq	224(%rsp), %rax
	subq	384(%rsp), %r14
	movq	392(%rsp), %rcx
	addq	%r14, %rcx
	imulq	176(%rsp), %rcx
	addq	248(%rsp), %rcx
	addq	200(%rsp), %r14
	imulq	72(%rsp), %r14
	addq	400(%rsp), %r14
	movq	16(%rsp), %rdx
	leaq	(%rdx,%rax,4), %rbx
	movq	48(%rsp), %rax
	leaq	(%rax,%rcx,4), %rbp
	movq	416(%rsp), %rax
	addq	%rax, %rbx
	addq	%rax, %rbp
	addq	240(%rsp), %r14
	cmpq	$0, 192(%rsp)
	jne	.LBB_9ba498_665
	testb	$4, 168(%rsp)
	jne	.LBB_9ba498_666
.LBB_9ba498_664:
	cmpl	%r15d, 216(%rsp)
	je	.LBB_9ba498_657
	jmp	.LBB_9ba498_667
.LBB_9ba498_665:
	movdqu	(%rbp), %xmm7
	movdqu	16(%rbp), %xmm6
	movq	(%r14), %xmm0
	punpcklbw	%xmm0, %xmm0
	movdqa	%xmm0, %xmm1
	punpcklwd	%xmm0, %xmm1
	punpckhwd	%xmm0, %xmm0
	movdqa	.LCPI_9ba498_0(%rip), %xmm2
	movdqa	%xmm6, %xmm4
	pand	%xmm2, %xmm4
	movdqa	%xmm7, %xmm5
	pand	%xmm2, %xmm5
	movdqa	%xmm0, %xmm3
	pand	%xmm2, %xmm3
	pmullw	%xmm4, %xmm3
	pand	%xmm1, %xmm2
	pmullw	%xmm5, %xmm2
	movdqa	.LCPI_9ba498_1(%rip), %xmm4
	paddw	%xmm4, %xmm3
	paddw	%xmm4, %xmm2
	movdqa	.LCPI_9ba498_2(%rip), %xmm5
	pmulhuw	%xmm5, %xmm2
	pmulhuw	%xmm5, %xmm3
	psrlw	$8, %xmm7
	psrlw	$8, %xmm6
	psrlw	$8, %xmm1
	pmullw	%xmm7, %xmm1
	psrlw	$8, %xmm0
	pmullw	%xmm6, %xmm0
	paddw	%xmm4, %xmm1
	paddw	%xmm4, %xmm0
	pmulhuw	%xmm5, %xmm0
	pmulhuw	%xmm5, %xmm1
	psllw	$8, %xmm1
	psllw	$8, %xmm0
	movdqu	(%rbx), %xmm6
	movdqu	16(%rbx), %xmm7
	movdqa	.LCPI_9ba498_5(%rip), %xmm8
	pshufb	%xmm8, %xmm7
	pshufb	%xmm8, %xmm6
	por	%xmm3, %xmm0
	por	%xmm2, %xmm1
	pmullw	%xmm6, %xmm2
	pmullw	%xmm7, %xmm3
	paddw	%xmm4, %xmm3
	paddw	%xmm4, %xmm2
	pmulhuw	%xmm5, %xmm2
	pmulhuw	%xmm5, %xmm3
	psrlw	$8, %xmm1
	psrlw	$8, %xmm0
	pmullw	%xmm7, %xmm0
	pmullw	%xmm6, %xmm1
	paddw	%xmm4, %xmm1
	paddw	%xmm4, %xmm0
	pmulhuw	%xmm5, %xmm0
	pmulhuw	%xmm5, %xmm1
	psllw	$8, %xmm1
	por	%xmm2, %xmm1
	psllw	$8, %xmm0
	por	%xmm3, %xmm0
	movdqu	%xmm1, (%rbx)
	movdqu	%xmm0, 16(%rbx)
	testb	$4, 168(%rsp)
	je	.LBB_9ba498_664
.LBB_9ba498_666:
	movq	192(%rsp), %rax
	leal	(,%rax,4), %ecx
	movdqu	(%rbp,%rcx), %xmm4
	movd	(%r14,%rax), %xmm1
	punpcklbw	%xmm1, %xmm1
	punpcklwd	%xmm1, %xmm1
	movdqa	.LCPI_9ba498_0(%rip), %xmm0
	movdqa	%xmm4, %xmm2
	pand	%xmm0, %xmm2
	movdqa	%xmm1, %xmm5
	pand	%xmm0, %xmm5
	pmullw	%xmm2, %xmm5
	movdqa	.LCPI_9ba498_1(%rip), %xmm2
	paddw	%xmm2, %xmm5
	movdqa	.LCPI_9ba498_2(%rip), %xmm3
	pmulhuw	%xmm3, %xmm5
	psrlw	$8, %xmm4
	psrlw	$8, %xmm1
	pmullw	%xmm4, %xmm1
	paddw	%xmm2, %xmm1
	pmulhuw	%xmm3, %xmm1
	psllw	$8, %xmm1
	movdqu	(%rbx,%rcx), %xmm4
	por	%xmm5, %xmm1
	pshufb	.LCPI_9ba498_6(%rip), %xmm4
	pand	%xmm4, %xmm0
	pmullw	%xmm5, %xmm0
	paddw	%xmm2, %xmm0
	pmulhuw	%xmm3, %xmm0
	psrlw	$8, %xmm1
	psrlw	$8, %xmm4
	pmullw	%xmm1, %xmm4
	paddw	%xmm2, %xmm4
	pmulhuw	%xmm3, %xmm4
	psllw	$8, %xmm4
	por	%xmm0, %xmm4
	movdqu	%xmm4, (%rbx,%rcx)
	cmpl	%r15d, 216(%rsp)
	je	.LBB_9ba498_657
.LBB_9ba498_667:
	xorl	%ebx, %ebx
	movq	216(%rsp), %r14
	movq	%rdi, (%rsp)
	.p2align	4
.LBB_9ba498_668:
	movl	(%r11,%rbx,4), %eax
	movq	%r9, %r10
	movzbl	(%r9,%rbx), %r9d
	movzbl	3(%rdi,%rbx,4), %ebp
	movzbl	%ah, %edi
	movl	%eax, %edx
	movzbl	%al, %esi
	movl	%eax, %r12d
	shrl	$16, %r12d
	shrl	$24, %edx
	imull	%r9d, %esi
	leal	128(%rsi), %eax
	movzbl	%ah, %eax
	addl	%esi, %eax
	addl	$128, %eax
	movzbl	%ah, %eax
	imull	%r9d, %edi
	leal	128(%rdi), %ecx
	movzbl	%ch, %ecx
	addl	%edi, %ecx
	addl	$128, %ecx
	movzbl	%ch, %esi
	movq	%r11, %r13
	movzbl	%r12b, %r11d
	imull	%ebp, %eax
	leal	128(%rax), %ecx
	movzbl	%ch, %ecx
	addl	%ecx, %eax
	addl	$128, %eax
	movzbl	%ah, %edi
	imull	%ebp, %esi
	leal	128(%rsi), %eax
	movzbl	%ah, %eax
	leal	(%rax,%rsi), %r12d
	addl	$128, %r12d
	andl	$65280, %r12d
	movd	%r11d, %xmm0
	movq	%r13, %r11
	pinsrw	$1, %edx, %xmm0
	movd	%r9d, %xmm1
	movq	%r10, %r9
	pshuflw	$0, %xmm1, %xmm1
	pmullw	%xmm0, %xmm1
	movdqa	.LCPI_9ba498_11(%rip), %xmm0
	paddw	%xmm0, %xmm1
	movdqa	%xmm1, %xmm2
	psrlw	$8, %xmm2
	paddw	%xmm1, %xmm2
	psrlw	$8, %xmm2
	movd	%ebp, %xmm1
	pshuflw	$0, %xmm1, %xmm1
	pmullw	%xmm2, %xmm1
	paddw	%xmm0, %xmm1
	movdqa	%xmm1, %xmm0
	psrlw	$8, %xmm0
	paddw	%xmm1, %xmm0
	psrlw	$8, %xmm0
	movdqa	%xmm0, %xmm1
	pslld	$16, %xmm1
	pshufb	.LCPI_9ba498_12(%rip), %xmm0
	por	%xmm1, %xmm0
	movd	%xmm0, %eax
	orl	%r12d, %eax
	orl	%edi, %eax
	movq	(%rsp), %rdi
	movl	%eax, (%rdi,%rbx,4)
	incq	%r14
	incq	%rbx
	cmpq	%r15, %r14
	jb	.LBB_9ba498_668
	jmp	.LBB_9ba498_657
.LBB_9ba498_669:
	movq	%rdx, 176(%rsp)
	movq	%r8, 80(%rsp)
	testq	%rbp, %rbp
	je	.LBB_9ba498_452
	movl	%r13d, 96(%rsp)
	movq	344(%rsp), %r13
	movq	%r13, 64(%rsp)
	movslq	360(%rsp), %r12
	movabsq	$4294967296, %rdx
	movq	%r15, %r9
	shrq	$32, %r9
	shrq	$32, %r13
	subq	%rbx, %rcx
	leaq	(%rcx,%rdx), %r14
	leaq	(%rdi,%rdx), %rbx
	cmpq	%r14, %rbx
	movq	%r14, %r8
	cmovbq	%rbx, %r8
	movq	%r12, 168(%rsp)
	leaq	(%r12,%rdx), %rbx
	movq	%rbx, 72(%rsp)
	cmpq	%r8, %rbx
	cmovbq	%rbx, %r8
	xorl	%r12d, %r12d
	movq	%rdx, %rbx
	subq	%r8, %rbx
	cmovbq	%r12, %rbx
	orq	%rdx, %rbp
	subq	%r14, %rbp
	cmovbq	%r12, %rbp
	movl	%r15d, %r15d
	orq	%rdx, %r15
	leaq	(%rdi,%rdx), %r8
	subq	%r8, %r15
	movl	64(%rsp), %r8d
	cmovbq	%r12, %r15
	orq	%rdx, %r8
	subq	72(%rsp), %r8
	movl	$0, %r14d
	movq	%r14, 192(%rsp)
	cmovbq	%r12, %r8
	cmpl	%r10d, %r11d
	cmovbl	%r11d, %r10d
	movl	368(%rsp), %r11d
	cmpl	%r10d, %r11d
	cmovbl	%r11d, %r10d
	cmpq	%r10, %rbp
	cmovaeq	%r10, %rbp
	movslq	364(%rsp), %r10
	movq	%r10, 208(%rsp)
	cmpq	%rbp, %r15
	cmovbq	%r15, %rbp
	movl	372(%rsp), %r10d
	cmpq	%rbp, %r8
	cmovbq	%r8, %rbp
	movl	$0, %r12d
	movl	$0, %r8d
	movq	%r8, 216(%rsp)
	movl	$0, %r15d
	cmpq	%rbx, %rbp
	jbe	.LBB_9ba498_672
	leaq	(%rbx,%rcx), %r8
	movq	%r8, 192(%rsp)
	addq	%rcx, %rbp
	addq	%rbx, %rdi
	movq	168(%rsp), %r15
	addq	%rbx, %r15
	movq	%rbp, %r12
	movq	%rdi, 216(%rsp)
.LBB_9ba498_672:
	subq	32(%rsp), %rax
	leaq	(%rax,%rdx), %rdi
	movq	24(%rsp), %rcx
	leaq	(%rcx,%rdx), %rbx
	movq	208(%rsp), %rcx
	addq	%rdx, %rcx
	cmpq	%rdi, %rbx
	movq	%rdi, %r8
	cmovbq	%rbx, %r8
	cmpq	%r8, %rcx
	cmovbq	%rcx, %r8
	xorl	%r14d, %r14d
	movq	%rdx, %r11
	subq	%r8, %r11
	cmovbq	%r14, %r11
	movq	(%rsp), %r8
	orq	%rdx, %r8
	subq	%rdi, %r8
	cmovbq	%r14, %r8
	orq	%rdx, %r9
	subq	%rbx, %r9
	cmovbq	%r14, %r9
	orq	%rdx, %r13
	subq	%rcx, %r13
	cmovbq	%r14, %r13
	movl	96(%rsp), %ebp
	cmpl	%esi, %ebp
	cmovbl	%ebp, %esi
	cmpl	%esi, %r10d
	cmovbl	%r10d, %esi
	cmpq	%rsi, %r8
	cmovaeq	%rsi, %r8
	cmpq	%r8, %r9
	cmovbq	%r9, %r8
	cmpq	%r8, %r13
	cmovbq	%r13, %r8
	cmpq	%r11, %r8
	jbe	.LBB_9ba498_452
	movq	%r8, %rsi
	leaq	(%r11,%rax), %r8
	addq	%rax, %rsi
	movq	%rsi, (%rsp)
	movq	%r8, 224(%rsp)
	cmpq	%rsi, %r8
	jae	.LBB_9ba498_452
	movq	352(%rsp), %r13
	movq	%rdx, %r8
	movq	24(%rsp), %rdx
	leaq	(%r11,%rdx), %rax
	movq	%rax, 248(%rsp)
	addq	%r11, 208(%rsp)
	movq	176(%rsp), %r11
	leaq	(%r11,%r15), %rax
	movq	%rax, 384(%rsp)
	subq	192(%rsp), %r12
	movq	%r12, %rax
	shrq	$4, %rax
	movq	%rax, 96(%rsp)
	movq	%r12, %r9
	andq	$-16, %r9
	movl	%r12d, %ebp
	andl	$15, %ebp
	movl	%r12d, %eax
	andl	$8, %eax
	movq	%rax, 232(%rsp)
	movl	%r12d, %r10d
	andl	$12, %r10d
	addq	%r8, %rdx
	cmpq	%rbx, %rdi
	cmovbq	%rdi, %rbx
	leaq	(,%r9,4), %rsi
	cmpq	%rcx, %rbx
	cmovaeq	%rcx, %rbx
	cmpq	%r8, %rbx
	cmovaeq	%r8, %rbx
	subq	%rbx, %rdx
	imulq	80(%rsp), %rdx
	movq	216(%rsp), %r14
	leaq	(,%r14,4), %rax
	leaq	(%rax,%rdx,4), %r8
	subq	%rbx, %rcx
	movq	8(%rsp), %rdi
	movq	%rdi, %rax
	movq	224(%rsp), %rbx
	imulq	%rbx, %rax
	movq	%r13, 64(%rsp)
	imulq	%r13, %rcx
	addq	%r15, %rcx
	movq	%r9, 72(%rsp)
	movq	%r10, 200(%rsp)
	leaq	(%r9,%r10), %r13
	addq	%r11, %r13
	leaq	(%r11,%rcx), %r9
	addq	%rcx, %r13
	movq	192(%rsp), %r11
	leaq	(,%r11,4), %rcx
	leaq	(%rcx,%rax,4), %r15
	leaq	(%rsi,%rdx,4), %rcx
	movq	%r12, 176(%rsp)
	leal	(,%r12,4), %edx
	andl	$48, %edx
	addq	%rdx, %rcx
	movq	%rsi, 392(%rsp)
	leaq	(%rsi,%rax,4), %rax
	addq	%rdx, %rax
	movq	48(%rsp), %r10
	addq	%r10, %r8
	movq	16(%rsp), %rdx
	addq	%rdx, %r15
	leaq	(%rcx,%r14,4), %rsi
	addq	%r10, %rsi
	movq	%rbp, %r10
	leaq	(%rax,%r11,4), %r12
	addq	%rdx, %r12
	movq	80(%rsp), %rax
	leaq	(,%rax,4), %rax
	movq	%rax, 168(%rsp)
	leaq	(,%rdi,4), %rax
	movq	%rax, 240(%rsp)
	movq	%rbx, 32(%rsp)
	jmp	.LBB_9ba498_676
.LBB_9ba498_675:
	movq	32(%rsp), %rdi
	incq	%rdi
	movq	168(%rsp), %rcx
	addq	%rcx, %r8
	movq	240(%rsp), %rdx
	addq	%rdx, %r15
	movq	64(%rsp), %rax
	movq	24(%rsp), %r9
	addq	%rax, %r9
	addq	%rax, %r13
	addq	%rcx, %rsi
	addq	%rdx, %r12
	movq	%rdi, 32(%rsp)
	cmpq	(%rsp), %rdi
	je	.LBB_9ba498_452
.LBB_9ba498_676:
	cmpq	$0, 96(%rsp)
	je	.LBB_9ba498_679
	movl	$8, %ebx
	movq	96(%rsp), %r14
	.p2align	4
.LBB_9ba498_678:
	movdqu	-32(%r8,%rbx,4), %xmm3
	movdqu	-16(%r8,%rbx,4), %xmm5
	movq	-8(%r9,%rbx), %xmm7
	punpcklbw	%xmm7, %xmm7
	movdqa	%xmm7, %xmm8
	punpckhwd	%xmm7, %xmm8
	punpcklwd	%xmm7, %xmm7
	movdqa	.LCPI_9ba498_0(%rip), %xmm0
	movdqa	%xmm3, %xmm1
	pand	%xmm0, %xmm1
	movdqa	%xmm5, %xmm2
	pand	%xmm0, %xmm2
	movdqa	%xmm7, %xmm9
	pand	%xmm0, %xmm9
	pmullw	%xmm1, %xmm9
	movdqa	%xmm8, %xmm4
	pand	%xmm0, %xmm4
	pmullw	%xmm2, %xmm4
	movdqa	.LCPI_9ba498_1(%rip), %xmm2
	paddw	%xmm2, %xmm9
	paddw	%xmm2, %xmm4
	movdqa	.LCPI_9ba498_2(%rip), %xmm1
	pmulhuw	%xmm1, %xmm4
	pmulhuw	%xmm1, %xmm9
	psrlw	$8, %xmm5
	psrlw	$8, %xmm3
	psrlw	$8, %xmm8
	pmullw	%xmm5, %xmm8
	psrlw	$8, %xmm7
	pmullw	%xmm3, %xmm7
	paddw	%xmm2, %xmm8
	paddw	%xmm2, %xmm7
	pmulhuw	%xmm1, %xmm7
	pmulhuw	%xmm1, %xmm8
	psllw	$8, %xmm8
	psllw	$8, %xmm7
	por	%xmm9, %xmm7
	por	%xmm4, %xmm8
	pcmpeqd	%xmm5, %xmm5
	movdqa	%xmm8, %xmm12
	pxor	%xmm5, %xmm12
	movdqa	%xmm7, %xmm13
	pxor	%xmm5, %xmm13
	movdqa	.LCPI_9ba498_5(%rip), %xmm6
	pshufb	%xmm6, %xmm13
	pshufb	%xmm6, %xmm12
	movdqu	-32(%r15,%rbx,4), %xmm10
	movdqu	-16(%r15,%rbx,4), %xmm11
	movdqa	%xmm10, %xmm3
	pxor	%xmm5, %xmm3
	pshufb	%xmm6, %xmm3
	pand	%xmm0, %xmm9
	pmullw	%xmm3, %xmm9
	psrlw	$8, %xmm7
	pmullw	%xmm3, %xmm7
	movdqa	%xmm11, %xmm3
	pxor	%xmm5, %xmm3
	pshufb	%xmm6, %xmm3
	pand	%xmm0, %xmm4
	pmullw	%xmm3, %xmm4
	psrlw	$8, %xmm8
	pmullw	%xmm3, %xmm8
	movdqu	(%r15,%rbx,4), %xmm3
	paddw	%xmm2, %xmm4
	pmulhuw	%xmm1, %xmm4
	paddw	%xmm2, %xmm8
	pmulhuw	%xmm1, %xmm8
	psllw	$8, %xmm8
	por	%xmm4, %xmm8
	movdqu	16(%r15,%rbx,4), %xmm4
	paddw	%xmm2, %xmm9
	pmulhuw	%xmm1, %xmm9
	paddw	%xmm2, %xmm7
	pmulhuw	%xmm1, %xmm7
	psllw	$8, %xmm7
	por	%xmm9, %xmm7
	movdqa	%xmm10, %xmm9
	pand	%xmm0, %xmm9
	pmullw	%xmm13, %xmm9
	psrlw	$8, %xmm10
	pmullw	%xmm13, %xmm10
	movdqa	%xmm11, %xmm13
	pand	%xmm0, %xmm13
	pmullw	%xmm12, %xmm13
	paddw	%xmm2, %xmm9
	paddw	%xmm2, %xmm13
	pmulhuw	%xmm1, %xmm13
	pmulhuw	%xmm1, %xmm9
	psrlw	$8, %xmm11
	pmullw	%xmm12, %xmm11
	paddw	%xmm2, %xmm11
	paddw	%xmm2, %xmm10
	pmulhuw	%xmm1, %xmm10
	pmulhuw	%xmm1, %xmm11
	psllw	$8, %xmm11
	por	%xmm13, %xmm11
	paddusb	%xmm8, %xmm11
	psllw	$8, %xmm10
	por	%xmm9, %xmm10
	paddusb	%xmm7, %xmm10
	movdqu	%xmm10, -32(%r15,%rbx,4)
	movdqu	%xmm11, -16(%r15,%rbx,4)
	movdqu	(%r8,%rbx,4), %xmm11
	movdqu	16(%r8,%rbx,4), %xmm12
	movq	(%r9,%rbx), %xmm7
	punpcklbw	%xmm7, %xmm7
	movdqa	%xmm7, %xmm8
	punpckhwd	%xmm7, %xmm8
	punpcklwd	%xmm7, %xmm7
	movdqa	%xmm11, %xmm10
	pand	%xmm0, %xmm10
	movdqa	%xmm12, %xmm13
	pand	%xmm0, %xmm13
	movdqa	%xmm7, %xmm9
	pand	%xmm0, %xmm9
	pmullw	%xmm10, %xmm9
	movdqa	%xmm8, %xmm10
	pand	%xmm0, %xmm10
	pmullw	%xmm13, %xmm10
	paddw	%xmm2, %xmm9
	paddw	%xmm2, %xmm10
	pmulhuw	%xmm1, %xmm10
	pmulhuw	%xmm1, %xmm9
	psrlw	$8, %xmm12
	psrlw	$8, %xmm11
	psrlw	$8, %xmm8
	pmullw	%xmm12, %xmm8
	psrlw	$8, %xmm7
	pmullw	%xmm11, %xmm7
	paddw	%xmm2, %xmm8
	paddw	%xmm2, %xmm7
	pmulhuw	%xmm1, %xmm7
	pmulhuw	%xmm1, %xmm8
	psllw	$8, %xmm8
	psllw	$8, %xmm7
	por	%xmm9, %xmm7
	por	%xmm10, %xmm8
	movdqa	%xmm8, %xmm11
	pxor	%xmm5, %xmm11
	movdqa	%xmm7, %xmm12
	pxor	%xmm5, %xmm12
	pshufb	%xmm6, %xmm12
	pshufb	%xmm6, %xmm11
	movdqa	%xmm4, %xmm13
	pxor	%xmm5, %xmm13
	pxor	%xmm3, %xmm5
	pshufb	%xmm6, %xmm5
	pshufb	%xmm6, %xmm13
	pand	%xmm0, %xmm9
	pmullw	%xmm5, %xmm9
	psrlw	$8, %xmm7
	pmullw	%xmm5, %xmm7
	pand	%xmm0, %xmm10
	pmullw	%xmm13, %xmm10
	psrlw	$8, %xmm8
	pmullw	%xmm13, %xmm8
	paddw	%xmm2, %xmm10
	pmulhuw	%xmm1, %xmm10
	paddw	%xmm2, %xmm8
	pmulhuw	%xmm1, %xmm8
	psllw	$8, %xmm8
	por	%xmm10, %xmm8
	paddw	%xmm2, %xmm9
	pmulhuw	%xmm1, %xmm9
	paddw	%xmm2, %xmm7
	pmulhuw	%xmm1, %xmm7
	psllw	$8, %xmm7
	por	%xmm9, %xmm7
	movdqa	%xmm3, %xmm5
	pand	%xmm0, %xmm5
	pmullw	%xmm12, %xmm5
	psrlw	$8, %xmm3
	pmullw	%xmm12, %xmm3
	pand	%xmm4, %xmm0
	pmullw	%xmm11, %xmm0
	psrlw	$8, %xmm4
	pmullw	%xmm11, %xmm4
	paddw	%xmm2, %xmm5
	paddw	%xmm2, %xmm0
	paddw	%xmm2, %xmm4
	paddw	%xmm2, %xmm3
	pmulhuw	%xmm1, %xmm0
	pmulhuw	%xmm1, %xmm5
	pmulhuw	%xmm1, %xmm3
	pmulhuw	%xmm1, %xmm4
	psllw	$8, %xmm4
	por	%xmm0, %xmm4
	paddusb	%xmm8, %xmm4
	psllw	$8, %xmm3
	por	%xmm5, %xmm3
	paddusb	%xmm7, %xmm3
	movdqu	%xmm3, (%r15,%rbx,4)
	movdqu	%xmm4, 16(%r15,%rbx,4)
	addq	$16, %rbx
	decq	%r14
	jne	.LBB_9ba498_678
.LBB_9ba498_679:
	movq	%r9, 24(%rsp)
	movq	72(%rsp), %rax
	cmpq	176(%rsp), %rax
	je	.LBB_9ba498_675
	movq	32(%rsp), %r14
	movq	%r14, %rax
	imulq	8(%rsp), %rax
	addq	192(%rsp), %rax
	subq	224(%rsp), %r14
	movq	248(%rsp), %rcx
	addq	%r14, %rcx
	imulq	80(%rsp), %rcx
	addq	216(%rsp), %rcx
	addq	208(%rsp), %r14
	imulq	64(%rsp), %r14
	addq	384(%rsp), %r14
	movq	16(%rsp), %rdx
	leaq	(%rdx,%rax,4), %rbx
	movq	48(%rsp), %rax
	leaq	(%rax,%rcx,4), %rcx
	movq	392(%rsp), %rax
	addq	%rax, %rbx
	addq	%rax, %rcx
	addq	72(%rsp), %r14
	cmpq	$0, 232(%rsp)
	jne	.LBB_9ba498_683
	testb	$4, 176(%rsp)
	jne	.LBB_9ba498_684
.LBB_9ba498_682:
	cmpl	%r10d, 200(%rsp)
	je	.LBB_9ba498_675
	jmp	.LBB_9ba498_685
.LBB_9ba498_683:
	movdqu	(%rcx), %xmm6
	movdqu	16(%rcx), %xmm7
	movq	(%r14), %xmm0
	punpcklbw	%xmm0, %xmm0
	movdqa	%xmm0, %xmm1
	punpckhwd	%xmm0, %xmm1
	punpcklwd	%xmm0, %xmm0
	movdqa	.LCPI_9ba498_0(%rip), %xmm2
	movdqa	%xmm6, %xmm3
	pand	%xmm2, %xmm3
	movdqa	%xmm7, %xmm4
	pand	%xmm2, %xmm4
	movdqa	%xmm0, %xmm5
	pand	%xmm2, %xmm5
	pmullw	%xmm3, %xmm5
	movdqa	%xmm1, %xmm8
	pand	%xmm2, %xmm8
	pmullw	%xmm4, %xmm8
	movdqa	.LCPI_9ba498_1(%rip), %xmm3
	paddw	%xmm3, %xmm5
	paddw	%xmm3, %xmm8
	movdqa	.LCPI_9ba498_2(%rip), %xmm4
	pmulhuw	%xmm4, %xmm8
	pmulhuw	%xmm4, %xmm5
	psrlw	$8, %xmm7
	psrlw	$8, %xmm6
	psrlw	$8, %xmm1
	pmullw	%xmm7, %xmm1
	psrlw	$8, %xmm0
	pmullw	%xmm6, %xmm0
	paddw	%xmm3, %xmm1
	paddw	%xmm3, %xmm0
	pmulhuw	%xmm4, %xmm0
	pmulhuw	%xmm4, %xmm1
	psllw	$8, %xmm1
	psllw	$8, %xmm0
	por	%xmm5, %xmm0
	por	%xmm8, %xmm1
	movdqu	(%rbx), %xmm6
	movdqu	16(%rbx), %xmm7
	pcmpeqd	%xmm11, %xmm11
	movdqa	%xmm1, %xmm9
	pxor	%xmm11, %xmm9
	movdqa	%xmm0, %xmm10
	pxor	%xmm11, %xmm10
	movdqa	.LCPI_9ba498_5(%rip), %xmm12
	pshufb	%xmm12, %xmm10
	pshufb	%xmm12, %xmm9
	movdqa	%xmm7, %xmm13
	pxor	%xmm11, %xmm13
	pxor	%xmm6, %xmm11
	pshufb	%xmm12, %xmm11
	pshufb	%xmm12, %xmm13
	pand	%xmm2, %xmm5
	pand	%xmm2, %xmm8
	pmullw	%xmm13, %xmm8
	pmullw	%xmm11, %xmm5
	paddw	%xmm3, %xmm5
	paddw	%xmm3, %xmm8
	pmulhuw	%xmm4, %xmm8
	pmulhuw	%xmm4, %xmm5
	psrlw	$8, %xmm1
	psrlw	$8, %xmm0
	pmullw	%xmm11, %xmm0
	pmullw	%xmm13, %xmm1
	paddw	%xmm3, %xmm1
	paddw	%xmm3, %xmm0
	pmulhuw	%xmm4, %xmm0
	pmulhuw	%xmm4, %xmm1
	psllw	$8, %xmm1
	por	%xmm8, %xmm1
	psllw	$8, %xmm0
	por	%xmm5, %xmm0
	movdqa	%xmm6, %xmm5
	pand	%xmm2, %xmm5
	pand	%xmm7, %xmm2
	pmullw	%xmm9, %xmm2
	pmullw	%xmm10, %xmm5
	paddw	%xmm3, %xmm5
	paddw	%xmm3, %xmm2
	pmulhuw	%xmm4, %xmm2
	pmulhuw	%xmm4, %xmm5
	psrlw	$8, %xmm7
	psrlw	$8, %xmm6
	pmullw	%xmm10, %xmm6
	pmullw	%xmm9, %xmm7
	paddw	%xmm3, %xmm7
	paddw	%xmm3, %xmm6
	pmulhuw	%xmm4, %xmm6
	pmulhuw	%xmm4, %xmm7
	psllw	$8, %xmm7
	por	%xmm2, %xmm7
	paddusb	%xmm1, %xmm7
	psllw	$8, %xmm6
	por	%xmm5, %xmm6
	paddusb	%xmm0, %xmm6
	movdqu	%xmm6, (%rbx)
	movdqu	%xmm7, 16(%rbx)
	testb	$4, 176(%rsp)
	je	.LBB_9ba498_682
.LBB_9ba498_684:
	movq	232(%rsp), %rax
	leal	(,%rax,4), %edi
	movdqu	(%rcx,%rdi), %xmm4
	movd	(%r14,%rax), %xmm0
	punpcklbw	%xmm0, %xmm0
	punpcklwd	%xmm0, %xmm0
	movdqa	.LCPI_9ba498_0(%rip), %xmm3
	movdqa	%xmm4, %xmm1
	pand	%xmm3, %xmm1
	movdqa	%xmm0, %xmm7
	pand	%xmm3, %xmm7
	pmullw	%xmm1, %xmm7
	movdqa	.LCPI_9ba498_1(%rip), %xmm1
	paddw	%xmm1, %xmm7
	movdqa	.LCPI_9ba498_2(%rip), %xmm2
	pmulhuw	%xmm2, %xmm7
	psrlw	$8, %xmm4
	psrlw	$8, %xmm0
	pmullw	%xmm4, %xmm0
	paddw	%xmm1, %xmm0
	pmulhuw	%xmm2, %xmm0
	psllw	$8, %xmm0
	por	%xmm7, %xmm0
	movdqu	(%rbx,%rdi), %xmm6
	pcmpeqd	%xmm4, %xmm4
	movdqa	.LCPI_9ba498_6(%rip), %xmm8
	movdqa	%xmm6, %xmm9
	pshufb	%xmm8, %xmm9
	movdqa	%xmm9, %xmm5
	pxor	%xmm4, %xmm5
	pand	%xmm3, %xmm7
	pandn	%xmm3, %xmm9
	pmullw	%xmm7, %xmm9
	paddw	%xmm1, %xmm9
	pmulhuw	%xmm2, %xmm9
	movdqa	%xmm0, %xmm7
	psrlw	$8, %xmm7
	psrlw	$8, %xmm5
	pmullw	%xmm7, %xmm5
	paddw	%xmm1, %xmm5
	pmulhuw	%xmm2, %xmm5
	psllw	$8, %xmm5
	por	%xmm9, %xmm5
	pshufb	%xmm8, %xmm0
	pxor	%xmm0, %xmm4
	movdqa	%xmm6, %xmm7
	pand	%xmm3, %xmm7
	pandn	%xmm3, %xmm0
	pmullw	%xmm7, %xmm0
	paddw	%xmm1, %xmm0
	pmulhuw	%xmm2, %xmm0
	psrlw	$8, %xmm6
	psrlw	$8, %xmm4
	pmullw	%xmm6, %xmm4
	paddw	%xmm1, %xmm4
	pmulhuw	%xmm2, %xmm4
	psllw	$8, %xmm4
	por	%xmm0, %xmm4
	paddusb	%xmm5, %xmm4
	movdqu	%xmm4, (%rbx,%rdi)
	cmpl	%r10d, 200(%rsp)
	je	.LBB_9ba498_675
.LBB_9ba498_685:
	xorl	%ecx, %ecx
	movq	200(%rsp), %r11
	.p2align	4
.LBB_9ba498_686:
	movl	(%rsi,%rcx,4), %eax
	movl	(%r12,%rcx,4), %edx
	movzbl	%dh, %edi
	movl	%edx, %ebx
	movzbl	%dl, %r14d
	movq	%rsi, %rbp
	movq	%r10, %rsi
	movl	%edx, %r10d
	shrl	$16, %r10d
	movzbl	%ah, %edx
	movq	%r12, %r9
	movq	%r13, %r12
	movzbl	%al, %r13d
	movd	%eax, %xmm1
	shrl	$16, %eax
	movzbl	%al, %eax
	psrld	$24, %xmm1
	pinsrw	$1, %eax, %xmm1
	pinsrw	$2, %edx, %xmm1
	shrl	$24, %ebx
	pinsrw	$3, %r13d, %xmm1
	movq	%r12, %r13
	movq	%r9, %r12
	movzbl	(%r13,%rcx), %eax
	movd	%eax, %xmm0
	pshuflw	$0, %xmm0, %xmm0
	pmullw	%xmm1, %xmm0
	movd	%ebx, %xmm1
	xorl	$255, %ebx
	movzbl	%r10b, %eax
	movq	%rsi, %r10
	movq	%rbp, %rsi
	movdqa	.LCPI_9ba498_3(%rip), %xmm2
	paddw	%xmm2, %xmm0
	movdqa	%xmm0, %xmm3
	psrlw	$8, %xmm3
	paddw	%xmm0, %xmm3
	pextrb	$1, %xmm3, %edx
	psrlw	$8, %xmm3
	xorl	$255, %edx
	movd	%ebx, %xmm0
	pshuflw	$0, %xmm0, %xmm0
	pmullw	%xmm3, %xmm0
	paddw	%xmm2, %xmm0
	movdqa	%xmm0, %xmm3
	psrlw	$8, %xmm3
	paddw	%xmm0, %xmm3
	psrlw	$8, %xmm3
	packuswb	%xmm3, %xmm3
	movd	%edx, %xmm0
	pinsrw	$1, %eax, %xmm1
	pinsrw	$2, %edi, %xmm1
	pinsrw	$3, %r14d, %xmm1
	pshuflw	$0, %xmm0, %xmm0
	pmullw	%xmm0, %xmm1
	paddw	%xmm2, %xmm1
	movdqa	%xmm1, %xmm0
	psrlw	$8, %xmm0
	paddw	%xmm1, %xmm0
	psrlw	$8, %xmm0
	packuswb	%xmm0, %xmm0
	paddusb	%xmm3, %xmm0
	pmovzxbd	%xmm0, %xmm0
	pmulld	.LCPI_9ba498_7(%rip), %xmm0
	pshufd	$238, %xmm0, %xmm1
	por	%xmm0, %xmm1
	pshufd	$85, %xmm1, %xmm0
	por	%xmm1, %xmm0
	movd	%xmm0, (%r9,%rcx,4)
	incq	%r11
	incq	%rcx
	cmpq	%r10, %r11
	jb	.LBB_9ba498_686
	jmp	.LBB_9ba498_675
.LBB_9ba498_687:
	movq	%rdx, 72(%rsp)
	movq	%r8, 80(%rsp)
	testq	%rbp, %rbp
	je	.LBB_9ba498_452
	movl	%r13d, 96(%rsp)
	movq	344(%rsp), %r13
	movq	%r13, 176(%rsp)
	movslq	360(%rsp), %r12
	movabsq	$4294967296, %rdx
	movq	%r15, %r9
	shrq	$32, %r9
	shrq	$32, %r13
	subq	%rbx, %rcx
	leaq	(%rcx,%rdx), %r14
	leaq	(%rdi,%rdx), %rbx
	cmpq	%r14, %rbx
	movq	%r14, %r8
	cmovbq	%rbx, %r8
	movq	%r12, 168(%rsp)
	leaq	(%r12,%rdx), %rbx
	movq	%rbx, 64(%rsp)
	cmpq	%r8, %rbx
	cmovbq	%rbx, %r8
	xorl	%r12d, %r12d
	movq	%rdx, %rbx
	subq	%r8, %rbx
	cmovbq	%r12, %rbx
	orq	%rdx, %rbp
	subq	%r14, %rbp
	cmovbq	%r12, %rbp
	movl	%r15d, %r15d
	orq	%rdx, %r15
	leaq	(%rdi,%rdx), %r8
	subq	%r8, %r15
	movl	176(%rsp), %r8d
	cmovbq	%r12, %r15
	orq	%rdx, %r8
	subq	64(%rsp), %r8
	movl	$0, %r14d
	movq	%r14, 200(%rsp)
	cmovbq	%r12, %r8
	cmpl	%r10d, %r11d
	cmovbl	%r11d, %r10d
	movl	368(%rsp), %r11d
	cmpl	%r10d, %r11d
	cmovbl	%r11d, %r10d
	cmpq	%r10, %rbp
	cmovaeq	%r10, %rbp
	movslq	364(%rsp), %r10
	movq	%r10, 240(%rsp)
	cmpq	%rbp, %r15
	cmovbq	%r15, %rbp
	movl	372(%rsp), %r10d
	cmpq	%rbp, %r8
	cmovbq	%r8, %rbp
	movl	$0, %r12d
	movl	$0, %r8d
	movq	%r8, 192(%rsp)
	movl	$0, %r15d
	cmpq	%rbx, %rbp
	jbe	.LBB_9ba498_690
	leaq	(%rbx,%rcx), %r8
	movq	%r8, 200(%rsp)
	addq	%rcx, %rbp
	addq	%rbx, %rdi
	movq	168(%rsp), %r15
	addq	%rbx, %r15
	movq	%rbp, %r12
	movq	%rdi, 192(%rsp)
.LBB_9ba498_690:
	subq	32(%rsp), %rax
	leaq	(%rax,%rdx), %r14
	movq	24(%rsp), %rcx
	leaq	(%rcx,%rdx), %rbx
	movq	240(%rsp), %rcx
	addq	%rdx, %rcx
	cmpq	%r14, %rbx
	movq	%r14, %r8
	cmovbq	%rbx, %r8
	cmpq	%r8, %rcx
	cmovbq	%rcx, %r8
	xorl	%r11d, %r11d
	movq	%rdx, %rdi
	subq	%r8, %rdi
	cmovbq	%r11, %rdi
	movq	(%rsp), %r8
	orq	%rdx, %r8
	subq	%r14, %r8
	cmovbq	%r11, %r8
	orq	%rdx, %r9
	subq	%rbx, %r9
	cmovbq	%r11, %r9
	orq	%rdx, %r13
	subq	%rcx, %r13
	cmovbq	%r11, %r13
	movl	96(%rsp), %r11d
	cmpl	%esi, %r11d
	cmovbl	%r11d, %esi
	cmpl	%esi, %r10d
	cmovbl	%r10d, %esi
	cmpq	%rsi, %r8
	cmovaeq	%rsi, %r8
	cmpq	%r8, %r9
	cmovbq	%r9, %r8
	cmpq	%r8, %r13
	cmovbq	%r13, %r8
	cmpq	%rdi, %r8
	jbe	.LBB_9ba498_452
	movq	%r8, %rsi
	leaq	(%rdi,%rax), %r8
	addq	%rax, %rsi
	movq	%rsi, (%rsp)
	movq	%r8, 216(%rsp)
	cmpq	%rsi, %r8
	jae	.LBB_9ba498_452
	movq	352(%rsp), %rax
	movq	%rax, 176(%rsp)
	movq	%rdx, %rsi
	movq	24(%rsp), %rdx
	leaq	(%rdi,%rdx), %rax
	movq	%rax, 224(%rsp)
	addq	%rdi, 240(%rsp)
	movq	72(%rsp), %r9
	leaq	(%r9,%r15), %rax
	movq	%rax, 248(%rsp)
	movq	%r12, %rdi
	subq	200(%rsp), %rdi
	movq	%rdi, %rax
	shrq	$4, %rax
	movq	%rax, 96(%rsp)
	movq	%rdi, %r12
	andq	$-16, %r12
	movl	%edi, %eax
	andl	$15, %eax
	movq	%rax, 392(%rsp)
	movl	%edi, %eax
	andl	$8, %eax
	movq	%rax, 208(%rsp)
	movl	%edi, %r13d
	andl	$12, %r13d
	addq	%rsi, %rdx
	cmpq	%rbx, %r14
	cmovbq	%r14, %rbx
	leaq	(,%r12,4), %rbp
	cmpq	%rcx, %rbx
	cmovaeq	%rcx, %rbx
	cmpq	%rsi, %rbx
	cmovaeq	%rsi, %rbx
	subq	%rbx, %rdx
	movq	80(%rsp), %r11
	imulq	%r11, %rdx
	movq	192(%rsp), %r14
	leaq	(,%r14,4), %rax
	leaq	(%rax,%rdx,4), %r8
	subq	%rbx, %rcx
	movq	8(%rsp), %r10
	movq	%r10, %rax
	movq	216(%rsp), %rbx
	imulq	%rbx, %rax
	imulq	176(%rsp), %rcx
	addq	%r15, %rcx
	movq	%r12, 64(%rsp)
	movq	%r13, 232(%rsp)
	addq	%r12, %r13
	addq	%r9, %r13
	addq	%rcx, %r9
	addq	%rcx, %r13
	movq	200(%rsp), %rsi
	leaq	(,%rsi,4), %rcx
	leaq	(%rcx,%rax,4), %r12
	leaq	(,%rdx,4), %rcx
	addq	%rbp, %rcx
	movq	%rdi, 24(%rsp)
	leal	(,%rdi,4), %edx
	andl	$48, %edx
	addq	%rdx, %rcx
	movq	%rbp, 384(%rsp)
	leaq	(,%rax,4), %rax
	addq	%rbp, %rax
	addq	%rdx, %rax
	movq	48(%rsp), %rdi
	addq	%rdi, %r8
	movq	16(%rsp), %rdx
	addq	%rdx, %r12
	leaq	(%rcx,%r14,4), %r15
	addq	%rdi, %r15
	leaq	(%rax,%rsi,4), %rbp
	addq	%rdx, %rbp
	leaq	(,%r11,4), %rax
	movq	%rax, 72(%rsp)
	leaq	(,%r10,4), %rax
	movq	%rax, 168(%rsp)
	movq	392(%rsp), %r10
	movq	%rbx, 32(%rsp)
	jmp	.LBB_9ba498_694
.LBB_9ba498_693:
	movq	32(%rsp), %rdi
	incq	%rdi
	movq	72(%rsp), %rcx
	addq	%rcx, %r8
	movq	168(%rsp), %rdx
	addq	%rdx, %r12
	movq	176(%rsp), %rax
	addq	%rax, %r9
	addq	%rax, %r13
	addq	%rcx, %r15
	addq	%rdx, %rbp
	movq	%rdi, 32(%rsp)
	cmpq	(%rsp), %rdi
	je	.LBB_9ba498_452
.LBB_9ba498_694:
	cmpq	$0, 96(%rsp)
	je	.LBB_9ba498_697
	movl	$8, %ebx
	movq	96(%rsp), %r14
	.p2align	4
.LBB_9ba498_696:
	movdqu	-32(%r8,%rbx,4), %xmm3
	movdqu	-16(%r8,%rbx,4), %xmm4
	movq	-8(%r9,%rbx), %xmm7
	punpcklbw	%xmm7, %xmm7
	movdqa	%xmm7, %xmm8
	punpckhwd	%xmm7, %xmm8
	punpcklwd	%xmm7, %xmm7
	movdqa	.LCPI_9ba498_0(%rip), %xmm0
	movdqa	%xmm3, %xmm1
	pand	%xmm0, %xmm1
	movdqa	%xmm4, %xmm2
	pand	%xmm0, %xmm2
	movdqa	%xmm7, %xmm11
	pand	%xmm0, %xmm11
	pmullw	%xmm1, %xmm11
	movdqa	%xmm8, %xmm5
	pand	%xmm0, %xmm5
	pmullw	%xmm2, %xmm5
	movdqa	.LCPI_9ba498_1(%rip), %xmm2
	paddw	%xmm2, %xmm11
	paddw	%xmm2, %xmm5
	movdqa	.LCPI_9ba498_2(%rip), %xmm1
	pmulhuw	%xmm1, %xmm5
	pmulhuw	%xmm1, %xmm11
	psrlw	$8, %xmm4
	psrlw	$8, %xmm3
	psrlw	$8, %xmm8
	pmullw	%xmm4, %xmm8
	psrlw	$8, %xmm7
	pmullw	%xmm3, %xmm7
	paddw	%xmm2, %xmm8
	paddw	%xmm2, %xmm7
	pmulhuw	%xmm1, %xmm7
	pmulhuw	%xmm1, %xmm8
	psllw	$8, %xmm8
	psllw	$8, %xmm7
	por	%xmm11, %xmm7
	por	%xmm5, %xmm8
	movdqu	-32(%r12,%rbx,4), %xmm9
	movdqu	-16(%r12,%rbx,4), %xmm10
	movdqu	(%r12,%rbx,4), %xmm3
	movdqa	.LCPI_9ba498_5(%rip), %xmm6
	movdqa	%xmm9, %xmm13
	pshufb	%xmm6, %xmm13
	movdqa	%xmm10, %xmm4
	pshufb	%xmm6, %xmm4
	movdqa	%xmm7, %xmm12
	pand	%xmm0, %xmm11
	pmullw	%xmm13, %xmm11
	psrlw	$8, %xmm7
	pmullw	%xmm13, %xmm7
	movdqa	%xmm8, %xmm13
	pand	%xmm0, %xmm5
	pmullw	%xmm4, %xmm5
	psrlw	$8, %xmm8
	pmullw	%xmm4, %xmm8
	movdqu	16(%r12,%rbx,4), %xmm4
	paddw	%xmm2, %xmm5
	pmulhuw	%xmm1, %xmm5
	paddw	%xmm2, %xmm8
	pmulhuw	%xmm1, %xmm8
	psllw	$8, %xmm8
	por	%xmm5, %xmm8
	pcmpeqd	%xmm5, %xmm5
	pxor	%xmm5, %xmm13
	pxor	%xmm5, %xmm12
	pshufb	%xmm6, %xmm12
	pshufb	%xmm6, %xmm13
	paddw	%xmm2, %xmm11
	pmulhuw	%xmm1, %xmm11
	paddw	%xmm2, %xmm7
	pmulhuw	%xmm1, %xmm7
	psllw	$8, %xmm7
	por	%xmm11, %xmm7
	movdqa	%xmm9, %xmm11
	pand	%xmm0, %xmm11
	pmullw	%xmm12, %xmm11
	psrlw	$8, %xmm9
	pmullw	%xmm12, %xmm9
	movdqa	%xmm10, %xmm12
	pand	%xmm0, %xmm12
	pmullw	%xmm13, %xmm12
	paddw	%xmm2, %xmm11
	paddw	%xmm2, %xmm12
	pmulhuw	%xmm1, %xmm12
	pmulhuw	%xmm1, %xmm11
	psrlw	$8, %xmm10
	pmullw	%xmm13, %xmm10
	paddw	%xmm2, %xmm10
	paddw	%xmm2, %xmm9
	pmulhuw	%xmm1, %xmm9
	pmulhuw	%xmm1, %xmm10
	psllw	$8, %xmm10
	por	%xmm12, %xmm10
	paddusb	%xmm8, %xmm10
	psllw	$8, %xmm9
	por	%xmm11, %xmm9
	paddusb	%xmm7, %xmm9
	movdqu	%xmm9, -32(%r12,%rbx,4)
	movdqu	%xmm10, -16(%r12,%rbx,4)
	movdqu	(%r8,%rbx,4), %xmm11
	movdqu	16(%r8,%rbx,4), %xmm12
	movq	(%r9,%rbx), %xmm7
	punpcklbw	%xmm7, %xmm7
	movdqa	%xmm7, %xmm8
	punpckhwd	%xmm7, %xmm8
	punpcklwd	%xmm7, %xmm7
	movdqa	%xmm11, %xmm10
	pand	%xmm0, %xmm10
	movdqa	%xmm12, %xmm13
	pand	%xmm0, %xmm13
	movdqa	%xmm7, %xmm9
	pand	%xmm0, %xmm9
	pmullw	%xmm10, %xmm9
	movdqa	%xmm8, %xmm10
	pand	%xmm0, %xmm10
	pmullw	%xmm13, %xmm10
	paddw	%xmm2, %xmm9
	paddw	%xmm2, %xmm10
	pmulhuw	%xmm1, %xmm10
	pmulhuw	%xmm1, %xmm9
	psrlw	$8, %xmm12
	psrlw	$8, %xmm11
	psrlw	$8, %xmm8
	pmullw	%xmm12, %xmm8
	psrlw	$8, %xmm7
	pmullw	%xmm11, %xmm7
	paddw	%xmm2, %xmm8
	paddw	%xmm2, %xmm7
	pmulhuw	%xmm1, %xmm7
	pmulhuw	%xmm1, %xmm8
	psllw	$8, %xmm8
	psllw	$8, %xmm7
	por	%xmm9, %xmm7
	por	%xmm10, %xmm8
	movdqa	%xmm3, %xmm13
	pshufb	%xmm6, %xmm13
	movdqa	%xmm4, %xmm12
	pshufb	%xmm6, %xmm12
	movdqa	%xmm8, %xmm11
	pxor	%xmm5, %xmm11
	pxor	%xmm7, %xmm5
	pshufb	%xmm6, %xmm5
	pshufb	%xmm6, %xmm11
	pand	%xmm0, %xmm9
	pmullw	%xmm13, %xmm9
	psrlw	$8, %xmm7
	pmullw	%xmm13, %xmm7
	pand	%xmm0, %xmm10
	pmullw	%xmm12, %xmm10
	psrlw	$8, %xmm8
	pmullw	%xmm12, %xmm8
	paddw	%xmm2, %xmm10
	pmulhuw	%xmm1, %xmm10
	paddw	%xmm2, %xmm8
	pmulhuw	%xmm1, %xmm8
	psllw	$8, %xmm8
	por	%xmm10, %xmm8
	paddw	%xmm2, %xmm9
	pmulhuw	%xmm1, %xmm9
	paddw	%xmm2, %xmm7
	pmulhuw	%xmm1, %xmm7
	psllw	$8, %xmm7
	por	%xmm9, %xmm7
	movdqa	%xmm3, %xmm6
	pand	%xmm0, %xmm6
	pmullw	%xmm5, %xmm6
	psrlw	$8, %xmm3
	pmullw	%xmm5, %xmm3
	pand	%xmm4, %xmm0
	pmullw	%xmm11, %xmm0
	psrlw	$8, %xmm4
	pmullw	%xmm11, %xmm4
	paddw	%xmm2, %xmm6
	paddw	%xmm2, %xmm0
	paddw	%xmm2, %xmm4
	paddw	%xmm2, %xmm3
	pmulhuw	%xmm1, %xmm0
	pmulhuw	%xmm1, %xmm6
	pmulhuw	%xmm1, %xmm3
	pmulhuw	%xmm1, %xmm4
	psllw	$8, %xmm4
	por	%xmm0, %xmm4
	paddusb	%xmm8, %xmm4
	psllw	$8, %xmm3
	por	%xmm6, %xmm3
	paddusb	%xmm7, %xmm3
	movdqu	%xmm3, (%r12,%rbx,4)
	movdqu	%xmm4, 16(%r12,%rbx,4)
	addq	$16, %rbx
	decq	%r14
	jne	.LBB_9ba498_696
.LBB_9ba498_697:
	movq	64(%rsp), %rax
	cmpq	24(%rsp), %rax
	je	.LBB_9ba498_693
	movq	32(%rsp), %r14
	movq	%r14, %rax
	imulq	8(%rsp), %rax
	addq	200(%rsp), %rax
	subq	216(%rsp), %r14
	movq	224(%rsp), %rcx
	addq	%r14, %rcx
	imulq	80(%rsp), %rcx
	addq	192(%rsp), %rcx
	addq	240(%rsp), %r14
	imulq	176(%rsp), %r14
	addq	248(%rsp), %r14
	movq	16(%rsp), %rdx
	leaq	(%rdx,%rax,4), %rbx
	movq	48(%rsp), %rax
	leaq	(%rax,%rcx,4), %rcx
	movq	384(%rsp), %rax
	addq	%rax, %rbx
	addq	%rax, %rcx
	addq	64(%rsp), %r14
	cmpq	$0, 208(%rsp)
	jne	.LBB_9ba498_701
	testb	$4, 24(%rsp)
	jne	.LBB_9ba498_702
.LBB_9ba498_700:
	cmpl	%r10d, 232(%rsp)
	je	.LBB_9ba498_693
	jmp	.LBB_9ba498_703
.LBB_9ba498_701:
	movdqu	(%rcx), %xmm6
	movdqu	16(%rcx), %xmm7
	movq	(%r14), %xmm0
	punpcklbw	%xmm0, %xmm0
	movdqa	%xmm0, %xmm1
	punpckhwd	%xmm0, %xmm1
	punpcklwd	%xmm0, %xmm0
	movdqa	.LCPI_9ba498_0(%rip), %xmm2
	movdqa	%xmm6, %xmm3
	pand	%xmm2, %xmm3
	movdqa	%xmm7, %xmm4
	pand	%xmm2, %xmm4
	movdqa	%xmm0, %xmm5
	pand	%xmm2, %xmm5
	pmullw	%xmm3, %xmm5
	movdqa	%xmm1, %xmm8
	pand	%xmm2, %xmm8
	pmullw	%xmm4, %xmm8
	movdqa	.LCPI_9ba498_1(%rip), %xmm3
	paddw	%xmm3, %xmm5
	paddw	%xmm3, %xmm8
	movdqa	.LCPI_9ba498_2(%rip), %xmm4
	pmulhuw	%xmm4, %xmm8
	pmulhuw	%xmm4, %xmm5
	psrlw	$8, %xmm7
	psrlw	$8, %xmm6
	psrlw	$8, %xmm1
	pmullw	%xmm7, %xmm1
	psrlw	$8, %xmm0
	pmullw	%xmm6, %xmm0
	paddw	%xmm3, %xmm1
	paddw	%xmm3, %xmm0
	pmulhuw	%xmm4, %xmm0
	pmulhuw	%xmm4, %xmm1
	psllw	$8, %xmm1
	psllw	$8, %xmm0
	por	%xmm5, %xmm0
	por	%xmm8, %xmm1
	movdqu	(%rbx), %xmm6
	movdqu	16(%rbx), %xmm7
	movdqa	.LCPI_9ba498_5(%rip), %xmm13
	movdqa	%xmm6, %xmm11
	pshufb	%xmm13, %xmm11
	movdqa	%xmm7, %xmm12
	pshufb	%xmm13, %xmm12
	pcmpeqd	%xmm10, %xmm10
	movdqa	%xmm1, %xmm9
	pxor	%xmm10, %xmm9
	pxor	%xmm0, %xmm10
	pshufb	%xmm13, %xmm10
	pshufb	%xmm13, %xmm9
	pand	%xmm2, %xmm5
	pand	%xmm2, %xmm8
	pmullw	%xmm12, %xmm8
	pmullw	%xmm11, %xmm5
	paddw	%xmm3, %xmm5
	paddw	%xmm3, %xmm8
	pmulhuw	%xmm4, %xmm8
	pmulhuw	%xmm4, %xmm5
	psrlw	$8, %xmm1
	psrlw	$8, %xmm0
	pmullw	%xmm11, %xmm0
	pmullw	%xmm12, %xmm1
	paddw	%xmm3, %xmm1
	paddw	%xmm3, %xmm0
	pmulhuw	%xmm4, %xmm0
	pmulhuw	%xmm4, %xmm1
	psllw	$8, %xmm1
	por	%xmm8, %xmm1
	psllw	$8, %xmm0
	por	%xmm5, %xmm0
	movdqa	%xmm6, %xmm5
	pand	%xmm2, %xmm5
	pand	%xmm7, %xmm2
	pmullw	%xmm9, %xmm2
	pmullw	%xmm10, %xmm5
	paddw	%xmm3, %xmm5
	paddw	%xmm3, %xmm2
	pmulhuw	%xmm4, %xmm2
	pmulhuw	%xmm4, %xmm5
	psrlw	$8, %xmm7
	psrlw	$8, %xmm6
	pmullw	%xmm10, %xmm6
	pmullw	%xmm9, %xmm7
	paddw	%xmm3, %xmm7
	paddw	%xmm3, %xmm6
	pmulhuw	%xmm4, %xmm6
	pmulhuw	%xmm4, %xmm7
	psllw	$8, %xmm7
	por	%xmm2, %xmm7
	paddusb	%xmm1, %xmm7
	psllw	$8, %xmm6
	por	%xmm5, %xmm6
	paddusb	%xmm0, %xmm6
	movdqu	%xmm6, (%rbx)
	movdqu	%xmm7, 16(%rbx)
	testb	$4, 24(%rsp)
	je	.LBB_9ba498_700
.LBB_9ba498_702:
	movq	208(%rsp), %rdx
	leal	(,%rdx,4), %eax
	movdqu	(%rcx,%rax), %xmm4
	movd	(%r14,%rdx), %xmm0
	punpcklbw	%xmm0, %xmm0
	punpcklwd	%xmm0, %xmm0
	movdqa	.LCPI_9ba498_0(%rip), %xmm3
	movdqa	%xmm4, %xmm1
	pand	%xmm3, %xmm1
	movdqa	%xmm0, %xmm7
	pand	%xmm3, %xmm7
	pmullw	%xmm1, %xmm7
	movdqa	.LCPI_9ba498_1(%rip), %xmm1
	paddw	%xmm1, %xmm7
	movdqa	.LCPI_9ba498_2(%rip), %xmm2
	pmulhuw	%xmm2, %xmm7
	psrlw	$8, %xmm4
	psrlw	$8, %xmm0
	pmullw	%xmm4, %xmm0
	paddw	%xmm1, %xmm0
	pmulhuw	%xmm2, %xmm0
	psllw	$8, %xmm0
	por	%xmm7, %xmm0
	movdqu	(%rbx,%rax), %xmm6
	pcmpeqd	%xmm4, %xmm4
	movdqa	.LCPI_9ba498_6(%rip), %xmm8
	movdqa	%xmm6, %xmm5
	pshufb	%xmm8, %xmm5
	pand	%xmm3, %xmm7
	movdqa	%xmm5, %xmm9
	pand	%xmm3, %xmm9
	pmullw	%xmm7, %xmm9
	paddw	%xmm1, %xmm9
	pmulhuw	%xmm2, %xmm9
	movdqa	%xmm0, %xmm7
	psrlw	$8, %xmm7
	psrlw	$8, %xmm5
	pmullw	%xmm7, %xmm5
	paddw	%xmm1, %xmm5
	pmulhuw	%xmm2, %xmm5
	psllw	$8, %xmm5
	por	%xmm9, %xmm5
	pshufb	%xmm8, %xmm0
	pxor	%xmm0, %xmm4
	movdqa	%xmm6, %xmm7
	pand	%xmm3, %xmm7
	pandn	%xmm3, %xmm0
	pmullw	%xmm7, %xmm0
	paddw	%xmm1, %xmm0
	pmulhuw	%xmm2, %xmm0
	psrlw	$8, %xmm6
	psrlw	$8, %xmm4
	pmullw	%xmm6, %xmm4
	paddw	%xmm1, %xmm4
	pmulhuw	%xmm2, %xmm4
	psllw	$8, %xmm4
	por	%xmm0, %xmm4
	paddusb	%xmm5, %xmm4
	movdqu	%xmm4, (%rbx,%rax)
	cmpl	%r10d, 232(%rsp)
	je	.LBB_9ba498_693
.LBB_9ba498_703:
	xorl	%ecx, %ecx
	movq	232(%rsp), %rbx
	.p2align	4
.LBB_9ba498_704:
	movl	(%r15,%rcx,4), %edx
	movl	(%rbp,%rcx,4), %eax
	movzbl	%ah, %edi
	movzbl	%al, %r14d
	movd	%eax, %xmm1
	shrl	$16, %eax
	movzbl	%dh, %esi
	movzbl	%dl, %r11d
	movd	%edx, %xmm0
	shrl	$16, %edx
	movzbl	%dl, %edx
	psrld	$24, %xmm0
	pinsrw	$1, %edx, %xmm0
	pinsrw	$2, %esi, %xmm0
	pinsrw	$3, %r11d, %xmm0
	movzbl	(%r13,%rcx), %edx
	movd	%edx, %xmm2
	pshuflw	$0, %xmm2, %xmm2
	pmullw	%xmm0, %xmm2
	movzbl	%al, %eax
	movdqa	.LCPI_9ba498_3(%rip), %xmm0
	paddw	%xmm0, %xmm2
	movdqa	%xmm2, %xmm3
	psrlw	$8, %xmm3
	paddw	%xmm2, %xmm3
	pextrb	$1, %xmm3, %edx
	psrlw	$8, %xmm3
	xorl	$255, %edx
	psrld	$24, %xmm1
	pshuflw	$0, %xmm1, %xmm1
	pmullw	%xmm1, %xmm3
	paddw	%xmm0, %xmm3
	movdqa	%xmm3, %xmm2
	psrlw	$8, %xmm2
	paddw	%xmm3, %xmm2
	psrlw	$8, %xmm2
	packuswb	%xmm2, %xmm2
	movd	%edx, %xmm3
	pinsrw	$1, %eax, %xmm1
	pinsrw	$2, %edi, %xmm1
	pinsrw	$3, %r14d, %xmm1
	pshuflw	$0, %xmm3, %xmm3
	pmullw	%xmm3, %xmm1
	paddw	%xmm0, %xmm1
	movdqa	%xmm1, %xmm0
	psrlw	$8, %xmm0
	paddw	%xmm1, %xmm0
	psrlw	$8, %xmm0
	packuswb	%xmm0, %xmm0
	paddusb	%xmm2, %xmm0
	pmovzxbd	%xmm0, %xmm0
	pmulld	.LCPI_9ba498_7(%rip), %xmm0
	pshufd	$238, %xmm0, %xmm1
	por	%xmm0, %xmm1
	pshufd	$85, %xmm1, %xmm0
	por	%xmm1, %xmm0
	movd	%xmm0, (%rbp,%rcx,4)
	incq	%rbx
	incq	%rcx
	cmpq	%r10, %rbx
	jb	.LBB_9ba498_704
	jmp	.LBB_9ba498_693
.LBB_9ba498_705:
	leaq	-33(%r15), %rcx
	cmpq	$-26, %rcx
	ja	.LBB_9ba498_782
	cmpq	%r11, %rax
	je	.LBB_9ba498_452
	shlq	$2, %r15
	movl	%r13d, %r14d
	subl	%ebx, %r14d
	movq	%rbx, %rax
	andl	$3, %r14d
	je	.LBB_9ba498_711
	movq	%rbx, %rax
	movq	8(%rsp), %rdx
	imulq	%rdx, %rax
	movq	%r11, 48(%rsp)
	addq	%r11, %rax
	movq	16(%rsp), %rcx
	leaq	(%rcx,%rax,4), %r12
	leaq	(,%rdx,4), %rax
	movq	%rax, (%rsp)
	negq	%r14
	xorl	%ebp, %ebp
.LBB_9ba498_709:
	movq	%r12, %rdi
	xorl	%esi, %esi
	movq	%r15, %rdx
	callq	memset@PLT
	decq	%rbp
	addq	(%rsp), %r12
	cmpq	%rbp, %r14
	jne	.LBB_9ba498_709
	movq	%rbx, %rax
	subq	%rbp, %rax
	movq	48(%rsp), %r11
.LBB_9ba498_711:
	subq	%r13, %rbx
	cmpq	$-4, %rbx
	ja	.LBB_9ba498_452
	subq	%rax, %r13
	leaq	3(%rax), %rcx
	movq	8(%rsp), %rsi
	imulq	%rsi, %rcx
	movq	16(%rsp), %rdx
	leaq	(%rdx,%rcx,4), %rcx
	movq	%rcx, (%rsp)
	shlq	$2, %r11
	movq	%rsi, %r14
	shlq	$4, %r14
	leaq	2(%rax), %rcx
	imulq	%rsi, %rcx
	leaq	(%rdx,%rcx,4), %rcx
	movq	%rcx, 48(%rsp)
	leaq	1(%rax), %rcx
	imulq	%rsi, %rcx
	leaq	(%rdx,%rcx,4), %rbp
	imulq	%rsi, %rax
	leaq	(%rdx,%rax,4), %rbx
.LBB_9ba498_713:
	leaq	(%rbx,%r11), %rdi
	xorl	%esi, %esi
	movq	%r15, %rdx
	movq	%r11, %r12
	callq	memset@PLT
	leaq	(%r12,%rbp), %rdi
	xorl	%esi, %esi
	movq	%r15, %rdx
	callq	memset@PLT
	movq	48(%rsp), %rax
	leaq	(%rax,%r12), %rdi
	xorl	%esi, %esi
	movq	%r15, %rdx
	callq	memset@PLT
	movq	(%rsp), %rax
	leaq	(%rax,%r12), %rdi
	xorl	%esi, %esi
	movq	%r15, %rdx
	callq	memset@PLT
	movq	%r12, %r11
	addq	%r14, %r11
	addq	$-4, %r13
	jne	.LBB_9ba498_713
	jmp	.LBB_9ba498_452
.LBB_9ba498_714:
	leaq	(,%r12,4), %r15
	leaq	-33(%r12), %rcx
	cmpq	$-26, %rcx
	ja	.LBB_9ba498_791
	cmpq	%r14, %rax
	je	.LBB_9ba498_452
	subl	%r13d, %ebp
	movq	%r13, %rax
	notq	%rax
	addq	%rbx, %rax
	andl	$3, %ebp
	je	.LBB_9ba498_720
	movq	%rax, 32(%rsp)
	movq	%r13, %rax
	movq	8(%rsp), %rdx
	imulq	%rdx, %rax
	addq	%r14, %rax
	movq	16(%rsp), %rcx
	leaq	(%rcx,%rax,4), %r12
	leaq	(,%rdx,4), %rax
	movq	%rax, 48(%rsp)
	negq	%rbp
	movq	%r15, (%rsp)
	xorl	%r15d, %r15d
.LBB_9ba498_718:
	movq	%r12, %rdi
	xorl	%esi, %esi
	movq	(%rsp), %rdx
	callq	memset@PLT
	decq	%r15
	addq	48(%rsp), %r12
	cmpq	%r15, %rbp
	jne	.LBB_9ba498_718
	subq	%r15, %r13
	movq	(%rsp), %r15
	movq	32(%rsp), %rax
.LBB_9ba498_720:
	cmpq	$3, %rax
	jb	.LBB_9ba498_452
	subq	%r13, %rbx
	leaq	3(%r13), %rax
	movq	8(%rsp), %rdx
	imulq	%rdx, %rax
	movq	16(%rsp), %rcx
	leaq	(%rcx,%rax,4), %rax
	movq	%rax, (%rsp)
	shlq	$2, %r14
	movq	%rdx, %rbp
	shlq	$4, %rbp
	leaq	2(%r13), %rax
	imulq	%rdx, %rax
	leaq	(%rcx,%rax,4), %rax
	movq	%rax, 48(%rsp)
	leaq	1(%r13), %rax
	imulq	%rdx, %rax
	leaq	(%rcx,%rax,4), %r12
	imulq	%rdx, %r13
	leaq	(%rcx,%r13,4), %r13
.LBB_9ba498_722:
	leaq	(%r14,%r13), %rdi
	xorl	%esi, %esi
	movq	%r15, %rdx
	callq	memset@PLT
	leaq	(%r12,%r14), %rdi
	xorl	%esi, %esi
	movq	%r15, %rdx
	callq	memset@PLT
	movq	48(%rsp), %rax
	leaq	(%rax,%r14), %rdi
	xorl	%esi, %esi
	movq	%r15, %rdx
	callq	memset@PLT
	movq	(%rsp), %rax
	leaq	(%rax,%r14), %rdi
	xorl	%esi, %esi
	movq	%r15, %rdx
	callq	memset@PLT
	addq	%rbp, %r14
	addq	$-4, %rbx
	jne	.LBB_9ba498_722
	jmp	.LBB_9ba498_452
.LBB_9ba498_723:
	leaq	-33(%r15), %rdi
	cmpq	$-26, %rdi
	movq	%r13, (%rsp)
	ja	.LBB_9ba498_802
	cmpq	%rdx, %r12
	jb	.LBB_9ba498_452
	shlq	$2, %r15
	cmpq	%rax, %rsi
	cmovbq	%rsi, %rax
	movl	%ebx, %r14d
	andl	$7, %r14d
	subq	%rbp, %rax
	cmpq	$-8, %rax
	jbe	.LBB_9ba498_900
	xorl	%ebp, %ebp
	jmp	.LBB_9ba498_903
.LBB_9ba498_727:
	leaq	-33(%r15), %rdi
	cmpq	$-26, %rdi
	ja	.LBB_9ba498_805
	cmpq	%rdx, %r13
	jb	.LBB_9ba498_452
	shlq	$2, %r15
	cmpq	%rax, %rsi
	cmovbq	%rsi, %rax
	movq	%r14, (%rsp)
	andl	$7, %r14d
	subq	%r8, %rax
	cmpq	$-8, %rax
	jbe	.LBB_9ba498_922
	xorl	%ebx, %ebx
	jmp	.LBB_9ba498_925
.LBB_9ba498_731:
	leaq	-33(%r15), %rdi
	cmpq	$-26, %rdi
	ja	.LBB_9ba498_809
	cmpq	%rdx, %r13
	jb	.LBB_9ba498_452
	shlq	$2, %r15
	cmpq	%rax, %rsi
	cmovbq	%rsi, %rax
	movl	%r12d, %r14d
	andl	$7, %r14d
	subq	%r8, %rax
	cmpq	$-8, %rax
	jbe	.LBB_9ba498_934
	xorl	%ebx, %ebx
	jmp	.LBB_9ba498_937
.LBB_9ba498_735:
	leaq	-33(%r15), %rdi
	cmpq	$-26, %rdi
	ja	.LBB_9ba498_813
	cmpq	%rdx, %rbp
	jb	.LBB_9ba498_452
	shlq	$2, %r15
	cmpq	%rax, %rsi
	cmovbq	%rsi, %rax
	movl	%r13d, %ebp
	andl	$7, %ebp
	subq	%r8, %rax
	cmpq	$-8, %rax
	jbe	.LBB_9ba498_946
	xorl	%ebx, %ebx
	jmp	.LBB_9ba498_949
.LBB_9ba498_739:
	leaq	-33(%r15), %rdi
	cmpq	$-26, %rdi
	ja	.LBB_9ba498_817
	cmpq	%rdx, %r13
	jb	.LBB_9ba498_452
	shlq	$2, %r15
	cmpq	%rax, %rsi
	cmovbq	%rsi, %rax
	movq	%r14, (%rsp)
	andl	$7, %r14d
	subq	%r8, %rax
	cmpq	$-8, %rax
	jbe	.LBB_9ba498_958
	xorl	%ebx, %ebx
	jmp	.LBB_9ba498_961
.LBB_9ba498_743:
	leaq	-33(%r15), %rdi
	cmpq	$-26, %rdi
	ja	.LBB_9ba498_821
	cmpq	%rdx, %r13
	movq	%r8, 8(%rsp)
	jb	.LBB_9ba498_452
	shlq	$2, %r15
	cmpq	%rax, %rsi
	cmovbq	%rsi, %rax
	movq	8(%rsp), %r14
	andl	$7, %r14d
	subq	%r12, %rax
	cmpq	$-8, %rax
	jbe	.LBB_9ba498_970
	xorl	%ebx, %ebx
	jmp	.LBB_9ba498_973
.LBB_9ba498_747:
	leaq	-33(%r15), %rdi
	cmpq	$-26, %rdi
	ja	.LBB_9ba498_825
	cmpq	%rdx, %r13
	jb	.LBB_9ba498_452
	shlq	$2, %r15
	cmpq	%rax, %rsi
	cmovbq	%rsi, %rax
	movl	%r12d, %r14d
	andl	$7, %r14d
	subq	%r8, %rax
	cmpq	$-8, %rax
	jbe	.LBB_9ba498_982
	xorl	%ebx, %ebx
	jmp	.LBB_9ba498_985
.LBB_9ba498_751:
	leaq	-33(%r15), %rdi
	cmpq	$-26, %rdi
	ja	.LBB_9ba498_829
	cmpq	%rdx, %r13
	jb	.LBB_9ba498_452
	shlq	$2, %r15
	cmpq	%rax, %rsi
	cmovbq	%rsi, %rax
	movq	%r14, (%rsp)
	andl	$7, %r14d
	subq	%r8, %rax
	cmpq	$-8, %rax
	jbe	.LBB_9ba498_994
	xorl	%ebx, %ebx
	jmp	.LBB_9ba498_997
.LBB_9ba498_755:
	cmpq	%rsi, %r8
	je	.LBB_9ba498_452
	movl	%edx, %edi
	andl	$56, %edi
	movd	%ecx, %xmm0
	pshufd	$0, %xmm0, %xmm0
	movq	%rax, %r9
	movq	8(%rsp), %r10
	imulq	%r10, %r9
	leaq	(,%rsi,4), %r8
	leaq	(%r8,%r9,4), %r8
	addq	%r12, %r8
	addq	$16, %r8
	shlq	$2, %r10
	addq	%rsi, %r9
	leaq	(%r12,%r9,4), %rsi
	jmp	.LBB_9ba498_758
.LBB_9ba498_757:
	incq	%rax
	addq	%r10, %r8
	addq	%r10, %rsi
	cmpq	(%rsp), %rax
	je	.LBB_9ba498_452
.LBB_9ba498_758:
	xorl	%r9d, %r9d
	cmpq	$8, %rdx
	jb	.LBB_9ba498_761
	.p2align	4
.LBB_9ba498_759:
	movdqu	%xmm0, -16(%r8,%r9,4)
	movdqu	%xmm0, (%r8,%r9,4)
	addq	$8, %r9
	cmpq	%r9, %rdi
	jne	.LBB_9ba498_759
	movq	%rdi, %r9
	cmpq	%rdi, %rdx
	je	.LBB_9ba498_757
	.p2align	4
.LBB_9ba498_761:
	movl	%ecx, (%rsi,%r9,4)
	incq	%r9
	cmpq	%r9, %rdx
	jne	.LBB_9ba498_761
	jmp	.LBB_9ba498_757
.LBB_9ba498_762:
	leaq	-33(%r15), %rdi
	cmpq	$-26, %rdi
	ja	.LBB_9ba498_833
	cmpq	%rdx, %r12
	jb	.LBB_9ba498_452
	shlq	$2, %r15
	cmpq	%rax, %rsi
	cmovbq	%rsi, %rax
	movl	%r8d, %r14d
	andl	$7, %r14d
	subq	%r13, %rax
	cmpq	$-8, %rax
	jbe	.LBB_9ba498_1006
	xorl	%ebx, %ebx
	jmp	.LBB_9ba498_1009
.LBB_9ba498_766:
	leaq	-33(%r15), %rdi
	cmpq	$-26, %rdi
	ja	.LBB_9ba498_837
	cmpq	%rdx, %r13
	jb	.LBB_9ba498_452
	shlq	$2, %r15
	cmpq	%rax, %rsi
	cmovbq	%rsi, %rax
	movl	%r12d, %r14d
	andl	$7, %r14d
	subq	%r8, %rax
	cmpq	$-8, %rax
	jbe	.LBB_9ba498_1011
	xorl	%ebx, %ebx
	jmp	.LBB_9ba498_1014
.LBB_9ba498_770:
	leaq	-33(%r15), %rdi
	cmpq	$-26, %rdi
	ja	.LBB_9ba498_841
	cmpq	%rdx, %r13
	jb	.LBB_9ba498_452
	shlq	$2, %r15
	cmpq	%rax, %rsi
	cmovbq	%rsi, %rax
	movl	%r12d, %r14d
	andl	$7, %r14d
	subq	%r8, %rax
	cmpq	$-8, %rax
	jbe	.LBB_9ba498_1030
	xorl	%ebx, %ebx
	jmp	.LBB_9ba498_1033
.LBB_9ba498_774:
	leaq	-33(%r15), %rdi
	cmpq	$-26, %rdi
	ja	.LBB_9ba498_845
	cmpq	%rdx, %rbp
	jb	.LBB_9ba498_452
	shlq	$2, %r15
	cmpq	%rax, %rsi
	cmovbq	%rsi, %rax
	movl	%r13d, %ebp
	andl	$7, %ebp
	subq	%r8, %rax
	cmpq	$-8, %rax
	jbe	.LBB_9ba498_1042
	xorl	%ebx, %ebx
	jmp	.LBB_9ba498_1045
.LBB_9ba498_778:
	leaq	-33(%r15), %rdi
	cmpq	$-26, %rdi
	ja	.LBB_9ba498_849
	cmpq	%rdx, %rbp
	jb	.LBB_9ba498_452
	shlq	$2, %r15
	cmpq	%rax, %rsi
	cmovbq	%rsi, %rax
	movl	%r13d, %ebp
	andl	$7, %ebp
	subq	%r8, %rax
	cmpq	$-8, %rax
	jbe	.LBB_9ba498_1054
	xorl	%ebx, %ebx
	jmp	.LBB_9ba498_1057
.LBB_9ba498_782:
	cmpq	$17, %r15
	movq	16(%rsp), %r9
	jae	.LBB_9ba498_853
	cmpq	$8, %r15
	jbe	.LBB_9ba498_893
	movl	%r13d, %edx
	subl	%ebx, %edx
	movq	%rbx, %rcx
	andl	$3, %edx
	je	.LBB_9ba498_788
	movq	%rbx, %rcx
	movq	8(%rsp), %rdi
	imulq	%rdi, %rcx
	leaq	(%rax,%rcx), %rsi
	leaq	-32(,%rsi,4), %rsi
	leaq	(,%rdi,4), %rdi
	addq	%r11, %rcx
	shlq	$2, %rcx
	negq	%rdx
	xorl	%r8d, %r8d
	movq	16(%rsp), %r9
.LBB_9ba498_786:
	pxor	%xmm0, %xmm0
	movdqu	%xmm0, 16(%r9,%rcx)
	movdqu	%xmm0, (%r9,%rcx)
	movdqu	%xmm0, 16(%r9,%rsi)
	movdqu	%xmm0, (%r9,%rsi)
	decq	%r8
	addq	%rdi, %r9
	cmpq	%r8, %rdx
	jne	.LBB_9ba498_786
	movq	%rbx, %rcx
	subq	%r8, %rcx
.LBB_9ba498_788:
	subq	%r13, %rbx
	cmpq	$-4, %rbx
	ja	.LBB_9ba498_452
	subq	%rcx, %r13
	leaq	3(%rcx), %rdi
	movq	8(%rsp), %r14
	imulq	%r14, %rdi
	leaq	(,%rax,4), %r10
	leaq	(%r10,%rdi,4), %rdx
	addq	$-32, %rdx
	movq	%r14, %rsi
	shlq	$4, %rsi
	movq	%r11, %r15
	leaq	(,%r11,4), %r11
	leaq	(%r11,%rdi,4), %rdi
	leaq	2(%rcx), %r9
	imulq	%r14, %r9
	leaq	(%r10,%r9,4), %r8
	addq	$-32, %r8
	leaq	(%r11,%r9,4), %r9
	leaq	1(%rcx), %rbx
	imulq	%r14, %rbx
	leaq	(%r10,%rbx,4), %r10
	addq	$-32, %r10
	leaq	(%r11,%rbx,4), %r11
	imulq	%r14, %rcx
	addq	%rcx, %rax
	leaq	-32(,%rax,4), %rax
	addq	%r15, %rcx
	shlq	$2, %rcx
.LBB_9ba498_790:
	pxor	%xmm0, %xmm0
	movq	16(%rsp), %rbx
	movdqu	%xmm0, 16(%rbx,%rcx)
	movdqu	%xmm0, (%rbx,%rcx)
	movdqu	%xmm0, 16(%rbx,%rax)
	movdqu	%xmm0, (%rbx,%rax)
	movdqu	%xmm0, 16(%rbx,%r11)
	movdqu	%xmm0, (%rbx,%r11)
	movdqu	%xmm0, 16(%rbx,%r10)
	movdqu	%xmm0, (%rbx,%r10)
	movdqu	%xmm0, 16(%rbx,%r9)
	movdqu	%xmm0, (%rbx,%r9)
	movdqu	%xmm0, 16(%rbx,%r8)
	movdqu	%xmm0, (%rbx,%r8)
	movdqu	%xmm0, 16(%rbx,%rdi)
	movdqu	%xmm0, (%rbx,%rdi)
	movdqu	%xmm0, 16(%rbx,%rdx)
	movdqu	%xmm0, (%rbx,%rdx)
	addq	%rsi, %rbx
	movq	%rbx, 16(%rsp)
	addq	$-4, %r13
	jne	.LBB_9ba498_790
	jmp	.LBB_9ba498_452
.LBB_9ba498_791:
	cmpq	$17, %r12
	jae	.LBB_9ba498_860
	movl	%ebp, %esi
	subl	%r13d, %esi
	addq	%rbp, %rdx
	decq	%rdx
	movq	%r13, %rcx
	testb	$1, %sil
	je	.LBB_9ba498_796
	movq	%r13, %rcx
	imulq	8(%rsp), %rcx
	addq	%r14, %rcx
	pxor	%xmm0, %xmm0
	movq	16(%rsp), %rsi
	movdqu	%xmm0, 16(%rsi,%rcx,4)
	movdqu	%xmm0, (%rsi,%rcx,4)
	cmpq	$9, %r12
	jb	.LBB_9ba498_795
	movq	16(%rsp), %rsi
	leaq	(%rsi,%rcx,4), %rcx
	movdqu	%xmm0, -16(%rcx,%r15)
	movdqu	%xmm0, -32(%rcx,%r15)
.LBB_9ba498_795:
	leaq	1(%r13), %rcx
.LBB_9ba498_796:
	cmpq	%r13, %rdx
	je	.LBB_9ba498_452
	leaq	1(%rcx), %rsi
	movq	8(%rsp), %r8
	imulq	%r8, %rsi
	leaq	(,%r14,4), %rdx
	leaq	(%rdx,%rsi,4), %rdx
	subq	%rcx, %rbx
	leaq	(,%rax,4), %rdi
	leaq	(%rdi,%rsi,4), %rsi
	addq	$-32, %rsi
	imulq	%r8, %rcx
	shlq	$3, %r8
	addq	%rcx, %rax
	leaq	-32(,%rax,4), %rax
	addq	%r14, %rcx
	shlq	$2, %rcx
	jmp	.LBB_9ba498_800
.LBB_9ba498_798:
	movdqu	%xmm0, 16(%rdi,%rdx)
	movdqu	%xmm0, (%rdi,%rdx)
	addq	%r8, %rdi
	movq	%rdi, 16(%rsp)
	addq	$-2, %rbx
	je	.LBB_9ba498_452
.LBB_9ba498_800:
	pxor	%xmm0, %xmm0
	movq	16(%rsp), %rdi
	movdqu	%xmm0, 16(%rdi,%rcx)
	movdqu	%xmm0, (%rdi,%rcx)
	cmpq	$9, %r12
	jb	.LBB_9ba498_798
	movdqu	%xmm0, 16(%rdi,%rax)
	movdqu	%xmm0, (%rdi,%rax)
	movdqu	%xmm0, 16(%rdi,%rdx)
	movdqu	%xmm0, (%rdi,%rdx)
	movdqu	%xmm0, 16(%rdi,%rsi)
	movdqu	%xmm0, (%rdi,%rsi)
	addq	%r8, %rdi
	movq	%rdi, 16(%rsp)
	addq	$-2, %rbx
	jne	.LBB_9ba498_800
	jmp	.LBB_9ba498_452
.LBB_9ba498_802:
	cmpq	$17, %r15
	jae	.LBB_9ba498_867
	cmpq	%rax, %rsi
	cmovaeq	%rax, %rsi
	movl	%ebx, %edx
	andl	$3, %edx
	subq	%rbp, %rsi
	cmpq	$-4, %rsi
	jbe	.LBB_9ba498_905
	xorl	%r10d, %r10d
	jmp	.LBB_9ba498_913
.LBB_9ba498_805:
	cmpq	$17, %r15
	jae	.LBB_9ba498_869
	cmpq	$8, %r15
	jbe	.LBB_9ba498_927
	cmpq	%rax, %rsi
	cmovaeq	%rax, %rsi
	movl	%r14d, %edx
	andl	$3, %edx
	subq	%r8, %rsi
	cmpq	$-4, %rsi
	jbe	.LBB_9ba498_1066
	xorl	%r9d, %r9d
	jmp	.LBB_9ba498_1069
.LBB_9ba498_809:
	cmpq	$17, %r15
	movq	16(%rsp), %r9
	jae	.LBB_9ba498_871
	cmpq	$8, %r15
	jbe	.LBB_9ba498_939
	cmpq	%rax, %rsi
	cmovaeq	%rax, %rsi
	movl	%r12d, %edx
	andl	$3, %edx
	subq	%r8, %rsi
	cmpq	$-4, %rsi
	jbe	.LBB_9ba498_1076
	xorl	%r9d, %r9d
	jmp	.LBB_9ba498_1079
.LBB_9ba498_813:
	cmpq	$17, %r15
	movq	16(%rsp), %r12
	jae	.LBB_9ba498_873
	cmpq	$8, %r15
	jbe	.LBB_9ba498_951
	cmpq	%rax, %rsi
	cmovaeq	%rax, %rsi
	movl	%r13d, %edx
	andl	$3, %edx
	subq	%r8, %rsi
	cmpq	$-4, %rsi
	jbe	.LBB_9ba498_1086
	xorl	%r9d, %r9d
	jmp	.LBB_9ba498_1089
.LBB_9ba498_817:
	cmpq	$17, %r15
	jae	.LBB_9ba498_875
	cmpq	$8, %r15
	jbe	.LBB_9ba498_963
	cmpq	%rax, %rsi
	cmovaeq	%rax, %rsi
	movl	%r14d, %edx
	andl	$3, %edx
	subq	%r8, %rsi
	cmpq	$-4, %rsi
	jbe	.LBB_9ba498_1096
	xorl	%r9d, %r9d
	jmp	.LBB_9ba498_1099
.LBB_9ba498_821:
	cmpq	$17, %r15
	jae	.LBB_9ba498_877
	cmpq	$8, %r15
	jbe	.LBB_9ba498_975
	cmpq	%rax, %rsi
	cmovaeq	%rax, %rsi
	movl	%r8d, %edx
	andl	$3, %edx
	subq	%r12, %rsi
	cmpq	$-4, %rsi
	jbe	.LBB_9ba498_1106
	xorl	%r9d, %r9d
	jmp	.LBB_9ba498_1109
.LBB_9ba498_825:
	cmpq	$17, %r15
	movq	16(%rsp), %r9
	jae	.LBB_9ba498_879
	cmpq	$8, %r15
	jbe	.LBB_9ba498_987
	cmpq	%rax, %rsi
	cmovaeq	%rax, %rsi
	movl	%r12d, %edx
	andl	$3, %edx
	subq	%r8, %rsi
	cmpq	$-4, %rsi
	jbe	.LBB_9ba498_1116
	xorl	%r9d, %r9d
	jmp	.LBB_9ba498_1119
.LBB_9ba498_829:
	cmpq	$17, %r15
	jae	.LBB_9ba498_881
	cmpq	$8, %r15
	jbe	.LBB_9ba498_999
	cmpq	%rax, %rsi
	cmovaeq	%rax, %rsi
	movl	%r14d, %edx
	andl	$3, %edx
	subq	%r8, %rsi
	cmpq	$-4, %rsi
	jbe	.LBB_9ba498_1126
	xorl	%r9d, %r9d
	jmp	.LBB_9ba498_1129
.LBB_9ba498_833:
	cmpq	$17, %r15
	jae	.LBB_9ba498_883
	cmpq	$8, %r15
	jbe	.LBB_9ba498_1016
	cmpq	%rax, %rsi
	cmovaeq	%rax, %rsi
	movl	%r8d, %edx
	andl	$3, %edx
	subq	%r13, %rsi
	cmpq	$-4, %rsi
	jbe	.LBB_9ba498_1136
	xorl	%r9d, %r9d
	jmp	.LBB_9ba498_1139
.LBB_9ba498_837:
	cmpq	$17, %r15
	jae	.LBB_9ba498_885
	cmpq	$8, %r15
	movq	16(%rsp), %r15
	jbe	.LBB_9ba498_1018
	cmpq	%rax, %rsi
	cmovaeq	%rax, %rsi
	movl	%r12d, %edx
	andl	$3, %edx
	subq	%r8, %rsi
	cmpq	$-4, %rsi
	jbe	.LBB_9ba498_1141
	xorl	%r9d, %r9d
	jmp	.LBB_9ba498_1144
.LBB_9ba498_841:
	cmpq	$17, %r15
	jae	.LBB_9ba498_887
	cmpq	$8, %r15
	movq	16(%rsp), %r15
	jbe	.LBB_9ba498_1035
	cmpq	%rax, %rsi
	cmovaeq	%rax, %rsi
	movl	%r12d, %edx
	andl	$3, %edx
	subq	%r8, %rsi
	cmpq	$-4, %rsi
	jbe	.LBB_9ba498_1156
	xorl	%r9d, %r9d
	jmp	.LBB_9ba498_1159
.LBB_9ba498_845:
	cmpq	$17, %r15
	movq	16(%rsp), %r12
	jae	.LBB_9ba498_889
	cmpq	$8, %r15
	jbe	.LBB_9ba498_1047
	cmpq	%rax, %rsi
	cmovaeq	%rax, %rsi
	movl	%r13d, %edx
	andl	$3, %edx
	subq	%r8, %rsi
	cmpq	$-4, %rsi
	jbe	.LBB_9ba498_1166
	xorl	%r9d, %r9d
	jmp	.LBB_9ba498_1169
.LBB_9ba498_849:
	cmpq	$17, %r15
	movq	16(%rsp), %r12
	jae	.LBB_9ba498_891
	cmpq	$8, %r15
	jbe	.LBB_9ba498_1059
	cmpq	%rax, %rsi
	cmovaeq	%rax, %rsi
	movl	%r13d, %edx
	andl	$3, %edx
	subq	%r8, %rsi
	cmpq	$-4, %rsi
	jbe	.LBB_9ba498_1176
	xorl	%r9d, %r9d
	jmp	.LBB_9ba498_1179
.LBB_9ba498_853:
	movl	%r13d, %edx
	subl	%ebx, %edx
	movq	%rbx, %rcx
	andl	$3, %edx
	je	.LBB_9ba498_857
	movq	%rbx, %rcx
	movq	8(%rsp), %rdi
	imulq	%rdi, %rcx
	leaq	(%rax,%rcx), %rsi
	leaq	-64(,%rsi,4), %rsi
	leaq	(,%rdi,4), %rdi
	addq	%r11, %rcx
	shlq	$2, %rcx
	negq	%rdx
	xorl	%r8d, %r8d
.LBB_9ba498_855:
	pxor	%xmm0, %xmm0
	movdqu	%xmm0, 48(%r9,%rcx)
	movdqu	%xmm0, 32(%r9,%rcx)
	movdqu	%xmm0, 16(%r9,%rcx)
	movdqu	%xmm0, (%r9,%rcx)
	movdqu	%xmm0, 48(%r9,%rsi)
	movdqu	%xmm0, 32(%r9,%rsi)
	movdqu	%xmm0, 16(%r9,%rsi)
	movdqu	%xmm0, (%r9,%rsi)
	decq	%r8
	addq	%rdi, %r9
	cmpq	%r8, %rdx
	jne	.LBB_9ba498_855
	movq	%rbx, %rcx
	subq	%r8, %rcx
.LBB_9ba498_857:
	subq	%r13, %rbx
	cmpq	$-4, %rbx
	ja	.LBB_9ba498_452
	subq	%rcx, %r13
	leaq	3(%rcx), %rdi
	movq	8(%rsp), %r14
	imulq	%r14, %rdi
	leaq	(,%rax,4), %r10
	leaq	(%r10,%rdi,4), %rdx
	addq	$-64, %rdx
	movq	%r14, %rsi
	shlq	$4, %rsi
	movq	%r11, %r15
	leaq	(,%r11,4), %r11
	leaq	(%r11,%rdi,4), %rdi
	leaq	2(%rcx), %r9
	imulq	%r14, %r9
	leaq	(%r10,%r9,4), %r8
	addq	$-64, %r8
	leaq	(%r11,%r9,4), %r9
	leaq	1(%rcx), %rbx
	imulq	%r14, %rbx
	leaq	(%r10,%rbx,4), %r10
	addq	$-64, %r10
	leaq	(%r11,%rbx,4), %r11
	imulq	%r14, %rcx
	addq	%rcx, %rax
	leaq	-64(,%rax,4), %rax
	addq	%r15, %rcx
	shlq	$2, %rcx
.LBB_9ba498_859:
	pxor	%xmm0, %xmm0
	movq	16(%rsp), %rbx
	movdqu	%xmm0, 48(%rbx,%rcx)
	movdqu	%xmm0, 32(%rbx,%rcx)
	movdqu	%xmm0, 16(%rbx,%rcx)
	movdqu	%xmm0, (%rbx,%rcx)
	movdqu	%xmm0, 48(%rbx,%rax)
	movdqu	%xmm0, 32(%rbx,%rax)
	movdqu	%xmm0, 16(%rbx,%rax)
	movdqu	%xmm0, (%rbx,%rax)
	movdqu	%xmm0, 48(%rbx,%r11)
	movdqu	%xmm0, 32(%rbx,%r11)
	movdqu	%xmm0, 16(%rbx,%r11)
	movdqu	%xmm0, (%rbx,%r11)
	movdqu	%xmm0, 48(%rbx,%r10)
	movdqu	%xmm0, 32(%rbx,%r10)
	movdqu	%xmm0, 16(%rbx,%r10)
	movdqu	%xmm0, (%rbx,%r10)
	movdqu	%xmm0, 48(%rbx,%r9)
	movdqu	%xmm0, 32(%rbx,%r9)
	movdqu	%xmm0, 16(%rbx,%r9)
	movdqu	%xmm0, (%rbx,%r9)
	movdqu	%xmm0, 48(%rbx,%r8)
	movdqu	%xmm0, 32(%rbx,%r8)
	movdqu	%xmm0, 16(%rbx,%r8)
	movdqu	%xmm0, (%rbx,%r8)
	movdqu	%xmm0, 48(%rbx,%rdi)
	movdqu	%xmm0, 32(%rbx,%rdi)
	movdqu	%xmm0, 16(%rbx,%rdi)
	movdqu	%xmm0, (%rbx,%rdi)
	movdqu	%xmm0, 48(%rbx,%rdx)
	movdqu	%xmm0, 32(%rbx,%rdx)
	movdqu	%xmm0, 16(%rbx,%rdx)
	movdqu	%xmm0, (%rbx,%rdx)
	addq	%rsi, %rbx
	movq	%rbx, 16(%rsp)
	addq	$-4, %r13
	jne	.LBB_9ba498_859
	jmp	.LBB_9ba498_452
.LBB_9ba498_860:
	subl	%r13d, %ebp
	movq	%r13, %rcx
	notq	%rcx
	addq	%rbx, %rcx
	andl	$3, %ebp
	je	.LBB_9ba498_864
	movq	%r13, %rdx
	movq	8(%rsp), %rdi
	imulq	%rdi, %rdx
	leaq	(%rax,%rdx), %rsi
	leaq	-64(,%rsi,4), %rsi
	leaq	(,%rdi,4), %rdi
	addq	%r14, %rdx
	shlq	$2, %rdx
	negq	%rbp
	xorl	%r8d, %r8d
	movq	16(%rsp), %r9
.LBB_9ba498_862:
	pxor	%xmm0, %xmm0
	movdqu	%xmm0, 48(%r9,%rdx)
	movdqu	%xmm0, 32(%r9,%rdx)
	movdqu	%xmm0, 16(%r9,%rdx)
	movdqu	%xmm0, (%r9,%rdx)
	movdqu	%xmm0, 48(%r9,%rsi)
	movdqu	%xmm0, 32(%r9,%rsi)
	movdqu	%xmm0, 16(%r9,%rsi)
	movdqu	%xmm0, (%r9,%rsi)
	decq	%r8
	addq	%rdi, %r9
	cmpq	%r8, %rbp
	jne	.LBB_9ba498_862
	subq	%r8, %r13
.LBB_9ba498_864:
	cmpq	$3, %rcx
	jb	.LBB_9ba498_452
	subq	%r13, %rbx
	leaq	3(%r13), %rsi
	movq	8(%rsp), %r15
	imulq	%r15, %rsi
	leaq	(,%rax,4), %r9
	leaq	(%r9,%rsi,4), %rcx
	addq	$-64, %rcx
	movq	%r15, %rdx
	shlq	$4, %rdx
	leaq	(,%r14,4), %r10
	leaq	(%r10,%rsi,4), %rsi
	leaq	2(%r13), %r8
	imulq	%r15, %r8
	leaq	(%r9,%r8,4), %rdi
	addq	$-64, %rdi
	leaq	(%r10,%r8,4), %r8
	leaq	1(%r13), %r11
	imulq	%r15, %r11
	leaq	(%r9,%r11,4), %r9
	addq	$-64, %r9
	leaq	(%r10,%r11,4), %r10
	imulq	%r15, %r13
	addq	%r13, %rax
	leaq	-64(,%rax,4), %rax
	addq	%r14, %r13
	shlq	$2, %r13
.LBB_9ba498_866:
	pxor	%xmm0, %xmm0
	movq	16(%rsp), %r11
	movdqu	%xmm0, 48(%r11,%r13)
	movdqu	%xmm0, 32(%r11,%r13)
	movdqu	%xmm0, 16(%r11,%r13)
	movdqu	%xmm0, (%r11,%r13)
	movdqu	%xmm0, 48(%r11,%rax)
	movdqu	%xmm0, 32(%r11,%rax)
	movdqu	%xmm0, 16(%r11,%rax)
	movdqu	%xmm0, (%r11,%rax)
	movdqu	%xmm0, 48(%r11,%r10)
	movdqu	%xmm0, 32(%r11,%r10)
	movdqu	%xmm0, 16(%r11,%r10)
	movdqu	%xmm0, (%r11,%r10)
	movdqu	%xmm0, 48(%r11,%r9)
	movdqu	%xmm0, 32(%r11,%r9)
	movdqu	%xmm0, 16(%r11,%r9)
	movdqu	%xmm0, (%r11,%r9)
	movdqu	%xmm0, 48(%r11,%r8)
	movdqu	%xmm0, 32(%r11,%r8)
	movdqu	%xmm0, 16(%r11,%r8)
	movdqu	%xmm0, (%r11,%r8)
	movdqu	%xmm0, 48(%r11,%rdi)
	movdqu	%xmm0, 32(%r11,%rdi)
	movdqu	%xmm0, 16(%r11,%rdi)
	movdqu	%xmm0, (%r11,%rdi)
	movdqu	%xmm0, 48(%r11,%rsi)
	movdqu	%xmm0, 32(%r11,%rsi)
	movdqu	%xmm0, 16(%r11,%rsi)
	movdqu	%xmm0, (%r11,%rsi)
	movdqu	%xmm0, 48(%r11,%rcx)
	movdqu	%xmm0, 32(%r11,%rcx)
	movdqu	%xmm0, 16(%r11,%rcx)
	movdqu	%xmm0, (%r11,%rcx)
	addq	%rdx, %r11
	movq	%r11, 16(%rsp)
	addq	$-4, %rbx
	jne	.LBB_9ba498_866
	jmp	.LBB_9ba498_452
.LBB_9ba498_867:
	cmpq	%rax, %rsi
	cmovaeq	%rax, %rsi
	movl	%ebx, %edx
	andl	$3, %edx
	subq	%rbp, %rsi
	cmpq	$-4, %rsi
	jbe	.LBB_9ba498_917
	xorl	%r9d, %r9d
	jmp	.LBB_9ba498_920
.LBB_9ba498_869:
	cmpq	%rax, %rsi
	cmovaeq	%rax, %rsi
	movl	%r14d, %edx
	andl	$3, %edx
	subq	%r8, %rsi
	cmpq	$-4, %rsi
	jbe	.LBB_9ba498_929
	xorl	%r9d, %r9d
	jmp	.LBB_9ba498_932
.LBB_9ba498_871:
	cmpq	%rax, %rsi
	cmovaeq	%rax, %rsi
	movl	%r12d, %edx
	andl	$3, %edx
	subq	%r8, %rsi
	cmpq	$-4, %rsi
	jbe	.LBB_9ba498_941
	xorl	%r9d, %r9d
	jmp	.LBB_9ba498_944
.LBB_9ba498_873:
	cmpq	%rax, %rsi
	cmovaeq	%rax, %rsi
	movl	%r13d, %edx
	andl	$3, %edx
	subq	%r8, %rsi
	cmpq	$-4, %rsi
	jbe	.LBB_9ba498_953
	xorl	%r9d, %r9d
	jmp	.LBB_9ba498_956
.LBB_9ba498_875:
	cmpq	%rax, %rsi
	cmovaeq	%rax, %rsi
	movl	%r14d, %edx
	andl	$3, %edx
	subq	%r8, %rsi
	cmpq	$-4, %rsi
	jbe	.LBB_9ba498_965
	xorl	%r9d, %r9d
	jmp	.LBB_9ba498_968
.LBB_9ba498_877:
	cmpq	%rax, %rsi
	cmovaeq	%rax, %rsi
	movl	%r8d, %edx
	andl	$3, %edx
	subq	%r12, %rsi
	cmpq	$-4, %rsi
	jbe	.LBB_9ba498_977
	xorl	%r9d, %r9d
	jmp	.LBB_9ba498_980
.LBB_9ba498_879:
	cmpq	%rax, %rsi
	cmovaeq	%rax, %rsi
	movl	%r12d, %edx
	andl	$3, %edx
	subq	%r8, %rsi
	cmpq	$-4, %rsi
	jbe	.LBB_9ba498_989
	xorl	%r9d, %r9d
	jmp	.LBB_9ba498_992
.LBB_9ba498_881:
	cmpq	%rax, %rsi
	cmovaeq	%rax, %rsi
	movl	%r14d, %edx
	andl	$3, %edx
	subq	%r8, %rsi
	cmpq	$-4, %rsi
	jbe	.LBB_9ba498_1001
	xorl	%r9d, %r9d
	jmp	.LBB_9ba498_1004
.LBB_9ba498_883:
	cmpq	%rax, %rsi
	cmovaeq	%rax, %rsi
	movl	%r8d, %edx
	andl	$3, %edx
	subq	%r13, %rsi
	cmpq	$-4, %rsi
	jbe	.LBB_9ba498_1020
	xorl	%r9d, %r9d
	jmp	.LBB_9ba498_1023
.LBB_9ba498_885:
	cmpq	%rax, %rsi
	cmovaeq	%rax, %rsi
	movl	%r12d, %edx
	andl	$3, %edx
	subq	%r8, %rsi
	cmpq	$-4, %rsi
	jbe	.LBB_9ba498_1025
	xorl	%r9d, %r9d
	jmp	.LBB_9ba498_1028
.LBB_9ba498_887:
	cmpq	%rax, %rsi
	cmovaeq	%rax, %rsi
	movl	%r12d, %edx
	andl	$3, %edx
	subq	%r8, %rsi
	cmpq	$-4, %rsi
	jbe	.LBB_9ba498_1037
	xorl	%r9d, %r9d
	jmp	.LBB_9ba498_1040
.LBB_9ba498_889:
	cmpq	%rax, %rsi
	cmovaeq	%rax, %rsi
	movl	%r13d, %edx
	andl	$3, %edx
	subq	%r8, %rsi
	cmpq	$-4, %rsi
	jbe	.LBB_9ba498_1049
	xorl	%r9d, %r9d
	jmp	.LBB_9ba498_1052
.LBB_9ba498_891:
	cmpq	%rax, %rsi
	cmovaeq	%rax, %rsi
	movl	%r13d, %edx
	andl	$3, %edx
	subq	%r8, %rsi
	cmpq	$-4, %rsi
	jbe	.LBB_9ba498_1061
	xorl	%r9d, %r9d
	jmp	.LBB_9ba498_1064
.LBB_9ba498_893:
	movl	%r13d, %eax
	subl	%ebx, %eax
	movq	%rbx, %rdx
	andl	$3, %eax
	je	.LBB_9ba498_897
	movq	%rbx, %rcx
	movq	8(%rsp), %rsi
	imulq	%rsi, %rcx
	addq	%r11, %rcx
	movq	16(%rsp), %rdx
	leaq	(%rdx,%rcx,4), %rcx
	leaq	(,%rsi,4), %rdx
	negq	%rax
	xorl	%esi, %esi
.LBB_9ba498_895:
	pxor	%xmm0, %xmm0
	movdqu	%xmm0, 16(%rcx)
	movdqu	%xmm0, (%rcx)
	decq	%rsi
	addq	%rdx, %rcx
	cmpq	%rsi, %rax
	jne	.LBB_9ba498_895
	movq	%rbx, %rdx
	subq	%rsi, %rdx
.LBB_9ba498_897:
	subq	%r13, %rbx
	cmpq	$-4, %rbx
	ja	.LBB_9ba498_452
	subq	%rdx, %r13
	leaq	3(%rdx), %rax
	movq	8(%rsp), %r9
	imulq	%r9, %rax
	movq	16(%rsp), %r8
	leaq	(%r8,%rax,4), %rax
	shlq	$2, %r11
	movq	%r9, %rcx
	shlq	$4, %rcx
	leaq	2(%rdx), %rsi
	imulq	%r9, %rsi
	leaq	(%r8,%rsi,4), %rsi
	leaq	1(%rdx), %rdi
	imulq	%r9, %rdi
	leaq	(%r8,%rdi,4), %rdi
	imulq	%r9, %rdx
	leaq	(%r8,%rdx,4), %rdx
.LBB_9ba498_899:
	pxor	%xmm0, %xmm0
	movdqu	%xmm0, 16(%rdx,%r11)
	movdqu	%xmm0, (%rdx,%r11)
	movdqu	%xmm0, 16(%rdi,%r11)
	movdqu	%xmm0, (%rdi,%r11)
	movdqu	%xmm0, 16(%rsi,%r11)
	movdqu	%xmm0, (%rsi,%r11)
	movdqu	%xmm0, 16(%rax,%r11)
	movdqu	%xmm0, (%rax,%r11)
	addq	%rcx, %r11
	addq	$-4, %r13
	jne	.LBB_9ba498_899
	jmp	.LBB_9ba498_452
.LBB_9ba498_900:
	andl	$-8, %ebx
	movq	8(%rsp), %rax
	shlq	$5, %rax
	movq	%rax, 48(%rsp)
	xorl	%ebp, %ebp
	movq	16(%rsp), %r12
.LBB_9ba498_901:
	movq	%r12, %rdi
	xorl	%esi, %esi
	movq	%r15, %rdx
	callq	memset@PLT
	movq	(%rsp), %rax
	leaq	(%r12,%rax), %r13
	movq	%r13, %rdi
	xorl	%esi, %esi
	movq	%r15, %rdx
	callq	memset@PLT
	addq	(%rsp), %r13
	movq	%r13, %rdi
	xorl	%esi, %esi
	movq	%r15, %rdx
	callq	memset@PLT
	addq	(%rsp), %r13
	movq	%r13, %rdi
	xorl	%esi, %esi
	movq	%r15, %rdx
	callq	memset@PLT
	addq	(%rsp), %r13
	movq	%r13, %rdi
	xorl	%esi, %esi
	movq	%r15, %rdx
	callq	memset@PLT
	addq	(%rsp), %r13
	movq	%r13, %rdi
	xorl	%esi, %esi
	movq	%r15, %rdx
	callq	memset@PLT
	addq	(%rsp), %r13
	movq	%r13, %rdi
	xorl	%esi, %esi
	movq	%r15, %rdx
	callq	memset@PLT
	addq	(%rsp), %r13
	movq	%r13, %rdi
	movq	(%rsp), %r13
	xorl	%esi, %esi
	movq	%r15, %rdx
	callq	memset@PLT
	addq	$8, %rbp
	addq	48(%rsp), %r12
	cmpq	%rbp, %rbx
	jne	.LBB_9ba498_901
	testq	%r14, %r14
	je	.LBB_9ba498_452
.LBB_9ba498_903:
	imulq	8(%rsp), %rbp
	movq	16(%rsp), %rax
	leaq	(%rax,%rbp,4), %rbx
	negq	%r14
.LBB_9ba498_904:
	movq	%rbx, %rdi
	xorl	%esi, %esi
	movq	%r15, %rdx
	callq	memset@PLT
	addq	%r13, %rbx
	incq	%r14
	jne	.LBB_9ba498_904
	jmp	.LBB_9ba498_452
.LBB_9ba498_905:
	andl	$-4, %ebx
	leaq	(,%r13,2), %rsi
	addq	%r13, %rsi
	movq	8(%rsp), %r14
	movq	%r14, %rdi
	shlq	$4, %rdi
	leaq	(,%r12,4), %r8
	movq	%rsi, 48(%rsp)
	leaq	(%rsi,%r12,4), %r9
	cmpq	%rax, %rcx
	movq	%rax, %r10
	cmovbq	%rcx, %r10
	shlq	$2, %r10
	subq	%r10, %r9
	addq	$-32, %r9
	leaq	(,%r14,8), %r11
	leaq	(%r8,%r14,8), %r14
	subq	%r10, %r14
	addq	$-32, %r14
	leaq	(%r13,%r12,4), %r13
	subq	%r10, %r13
	addq	$-32, %r13
	subq	%r10, %r8
	addq	$-32, %r8
	xorl	%r10d, %r10d
	movq	16(%rsp), %rbp
	jmp	.LBB_9ba498_907
.LBB_9ba498_906:
	movq	48(%rsp), %rsi
	movdqu	%xmm0, 16(%rbp,%rsi)
	movdqu	%xmm0, (%rbp,%rsi)
	addq	$4, %r10
	addq	%rdi, %rbp
	cmpq	%r10, %rbx
	je	.LBB_9ba498_912
.LBB_9ba498_907:
	pxor	%xmm0, %xmm0
	movdqu	%xmm0, 16(%rbp)
	movdqu	%xmm0, (%rbp)
	cmpq	$9, %r15
	jb	.LBB_9ba498_909
	movdqu	%xmm0, 16(%rbp,%r8)
	movdqu	%xmm0, (%rbp,%r8)
	movq	(%rsp), %rsi
	movdqu	%xmm0, 16(%rbp,%rsi)
	movdqu	%xmm0, (%rbp,%rsi)
	movdqu	%xmm0, 16(%rbp,%r13)
	movdqu	%xmm0, (%rbp,%r13)
	jmp	.LBB_9ba498_910
.LBB_9ba498_909:
	movq	(%rsp), %rsi
	movdqu	%xmm0, 16(%rbp,%rsi)
	movdqu	%xmm0, (%rbp,%rsi)
.LBB_9ba498_910:
	movdqu	%xmm0, 16(%rbp,%r11)
	movdqu	%xmm0, (%rbp,%r11)
	cmpq	$9, %r15
	jb	.LBB_9ba498_906
	movdqu	%xmm0, 16(%rbp,%r14)
	movdqu	%xmm0, (%rbp,%r14)
	movq	48(%rsp), %rsi
	movdqu	%xmm0, 16(%rbp,%rsi)
	movdqu	%xmm0, (%rbp,%rsi)
	movdqu	%xmm0, 16(%rbp,%r9)
	movdqu	%xmm0, (%rbp,%r9)
	addq	$4, %r10
	addq	%rdi, %rbp
	cmpq	%r10, %rbx
	jne	.LBB_9ba498_907
.LBB_9ba498_912:
	testq	%rdx, %rdx
	movq	(%rsp), %r13
	je	.LBB_9ba498_452
.LBB_9ba498_913:
	shlq	$2, %r12
	cmpq	%rax, %rcx
	cmovbq	%rcx, %rax
	shlq	$2, %rax
	subq	%rax, %r12
	addq	$-32, %r12
	imulq	8(%rsp), %r10
	movq	16(%rsp), %rax
	leaq	(%rax,%r10,4), %rax
	negq	%rdx
	jmp	.LBB_9ba498_915
.LBB_9ba498_914:
	addq	%r13, %rax
	incq	%rdx
	je	.LBB_9ba498_452
.LBB_9ba498_915:
	pxor	%xmm0, %xmm0
	movdqu	%xmm0, 16(%rax)
	movdqu	%xmm0, (%rax)
	cmpq	$9, %r15
	jb	.LBB_9ba498_914
	movdqu	%xmm0, 16(%rax,%r12)
	movdqu	%xmm0, (%rax,%r12)
	jmp	.LBB_9ba498_914
.LBB_9ba498_917:
	andl	$-4, %ebx
	leaq	(,%r13,2), %rsi
	addq	%r13, %rsi
	leaq	(,%r12,4), %rdi
	leaq	(%rsi,%r12,4), %r8
	cmpq	%rax, %rcx
	movq	%rax, %r9
	cmovbq	%rcx, %r9
	shlq	$2, %r9
	subq	%r9, %r8
	addq	$-64, %r8
	movq	8(%rsp), %r14
	movq	%r14, %r10
	shlq	$4, %r10
	leaq	(,%r14,8), %r11
	leaq	(%rdi,%r14,8), %r14
	subq	%r9, %r14
	addq	$-64, %r14
	leaq	(,%r12,4), %r15
	addq	%r13, %r15
	subq	%r9, %r15
	addq	$-64, %r15
	subq	%r9, %rdi
	addq	$-64, %rdi
	xorl	%r9d, %r9d
	movq	%r13, %rbp
	movq	16(%rsp), %r13
.LBB_9ba498_918:
	pxor	%xmm0, %xmm0
	movdqu	%xmm0, 48(%r13)
	movdqu	%xmm0, 32(%r13)
	movdqu	%xmm0, 16(%r13)
	movdqu	%xmm0, (%r13)
	movdqu	%xmm0, 48(%r13,%rdi)
	movdqu	%xmm0, 32(%r13,%rdi)
	movdqu	%xmm0, 16(%r13,%rdi)
	movdqu	%xmm0, (%r13,%rdi)
	movdqu	%xmm0, 48(%r13,%rbp)
	movdqu	%xmm0, 32(%r13,%rbp)
	movdqu	%xmm0, 16(%r13,%rbp)
	movdqu	%xmm0, (%r13,%rbp)
	movdqu	%xmm0, 48(%r13,%r15)
	movdqu	%xmm0, 32(%r13,%r15)
	movdqu	%xmm0, 16(%r13,%r15)
	movdqu	%xmm0, (%r13,%r15)
	movdqu	%xmm0, 48(%r13,%r11)
	movdqu	%xmm0, 32(%r13,%r11)
	movdqu	%xmm0, 16(%r13,%r11)
	movdqu	%xmm0, (%r13,%r11)
	movdqu	%xmm0, 48(%r13,%r14)
	movdqu	%xmm0, 32(%r13,%r14)
	movdqu	%xmm0, 16(%r13,%r14)
	movdqu	%xmm0, (%r13,%r14)
	movdqu	%xmm0, 48(%r13,%rsi)
	movdqu	%xmm0, 32(%r13,%rsi)
	movdqu	%xmm0, 16(%r13,%rsi)
	movdqu	%xmm0, (%r13,%rsi)
	movdqu	%xmm0, 48(%r13,%r8)
	movdqu	%xmm0, 32(%r13,%r8)
	movdqu	%xmm0, 16(%r13,%r8)
	movdqu	%xmm0, (%r13,%r8)
	addq	$4, %r9
	addq	%r10, %r13
	cmpq	%r9, %rbx
	jne	.LBB_9ba498_918
	testq	%rdx, %rdx
	movq	%rbp, %r13
	je	.LBB_9ba498_452
.LBB_9ba498_920:
	shlq	$2, %r12
	cmpq	%rax, %rcx
	cmovbq	%rcx, %rax
	shlq	$2, %rax
	subq	%rax, %r12
	addq	$-64, %r12
	imulq	8(%rsp), %r9
	movq	16(%rsp), %rax
	leaq	(%rax,%r9,4), %rax
	negq	%rdx
.LBB_9ba498_921:
	pxor	%xmm0, %xmm0
	movdqu	%xmm0, 48(%rax)
	movdqu	%xmm0, 32(%rax)
	movdqu	%xmm0, 16(%rax)
	movdqu	%xmm0, (%rax)
	movdqu	%xmm0, 48(%rax,%r12)
	movdqu	%xmm0, 32(%rax,%r12)
	movdqu	%xmm0, 16(%rax,%r12)
	movdqu	%xmm0, (%rax,%r12)
	addq	%r13, %rax
	incq	%rdx
	jne	.LBB_9ba498_921
	jmp	.LBB_9ba498_452
.LBB_9ba498_922:
	movq	(%rsp), %rax
	andl	$-8, %eax
	movq	%rax, (%rsp)
	movq	32(%rsp), %rax
	shlq	$5, %rax
	movq	%rax, 8(%rsp)
	xorl	%ebx, %ebx
.LBB_9ba498_923:
	movq	%r12, %rdi
	xorl	%esi, %esi
	movq	%r15, %rdx
	callq	memset@PLT
	leaq	(%r12,%rbp), %r13
	movq	%r13, %rdi
	xorl	%esi, %esi
	movq	%r15, %rdx
	callq	memset@PLT
	addq	%rbp, %r13
	movq	%r13, %rdi
	xorl	%esi, %esi
	movq	%r15, %rdx
	callq	memset@PLT
	addq	%rbp, %r13
	movq	%r13, %rdi
	xorl	%esi, %esi
	movq	%r15, %rdx
	callq	memset@PLT
	addq	%rbp, %r13
	movq	%r13, %rdi
	xorl	%esi, %esi
	movq	%r15, %rdx
	callq	memset@PLT
	addq	%rbp, %r13
	movq	%r13, %rdi
	xorl	%esi, %esi
	movq	%r15, %rdx
	callq	memset@PLT
	addq	%rbp, %r13
	movq	%r13, %rdi
	xorl	%esi, %esi
	movq	%r15, %rdx
	callq	memset@PLT
	addq	%rbp, %r13
	movq	%r13, %rdi
	xorl	%esi, %esi
	movq	%r15, %rdx
	callq	memset@PLT
	addq	$8, %rbx
	addq	8(%rsp), %r12
	cmpq	%rbx, (%rsp)
	jne	.LBB_9ba498_923
	testq	%r14, %r14
	movq	16(%rsp), %r12
	je	.LBB_9ba498_452
.LBB_9ba498_925:
	imulq	32(%rsp), %rbx
	leaq	(%r12,%rbx,4), %rbx
	negq	%r14
.LBB_9ba498_926:
	movq	%rbx, %rdi
	xorl	%esi, %esi
	movq	%r15, %rdx
	callq	memset@PLT
	addq	%rbp, %rbx
	incq	%r14
	jne	.LBB_9ba498_926
	jmp	.LBB_9ba498_452
.LBB_9ba498_927:
	cmpq	%rax, %rsi
	cmovbq	%rsi, %rax
	movl	%r14d, %ecx
	andl	$7, %ecx
	subq	%r8, %rax
	cmpq	$-8, %rax
	jbe	.LBB_9ba498_1071
	xorl	%eax, %eax
	jmp	.LBB_9ba498_1074
.LBB_9ba498_929:
	andl	$-4, %r14d
	leaq	(,%rbp,2), %rsi
	addq	%rbp, %rsi
	leaq	(,%r13,4), %rdi
	leaq	(%rsi,%r13,4), %r8
	cmpq	%rax, %rcx
	movq	%rax, %r9
	cmovbq	%rcx, %r9
	shlq	$2, %r9
	subq	%r9, %r8
	addq	$-64, %r8
	movq	32(%rsp), %rbx
	movq	%rbx, %r10
	shlq	$4, %r10
	movq	%r10, (%rsp)
	leaq	(,%rbx,8), %r11
	leaq	(%rdi,%rbx,8), %rbx
	subq	%r9, %rbx
	addq	$-64, %rbx
	movq	%r14, %r10
	leaq	(,%r13,4), %r14
	addq	%rbp, %r14
	subq	%r9, %r14
	addq	$-64, %r14
	subq	%r9, %rdi
	addq	$-64, %rdi
	xorl	%r9d, %r9d
	movq	%r12, %r15
.LBB_9ba498_930:
	pxor	%xmm0, %xmm0
	movdqu	%xmm0, 48(%r15)
	movdqu	%xmm0, 32(%r15)
	movdqu	%xmm0, 16(%r15)
	movdqu	%xmm0, (%r15)
	movdqu	%xmm0, 48(%r15,%rdi)
	movdqu	%xmm0, 32(%r15,%rdi)
	movdqu	%xmm0, 16(%r15,%rdi)
	movdqu	%xmm0, (%r15,%rdi)
	movdqu	%xmm0, 48(%r15,%rbp)
	movdqu	%xmm0, 32(%r15,%rbp)
	movdqu	%xmm0, 16(%r15,%rbp)
	movdqu	%xmm0, (%r15,%rbp)
	movdqu	%xmm0, 48(%r15,%r14)
	movdqu	%xmm0, 32(%r15,%r14)
	movdqu	%xmm0, 16(%r15,%r14)
	movdqu	%xmm0, (%r15,%r14)
	movdqu	%xmm0, 48(%r15,%r11)
	movdqu	%xmm0, 32(%r15,%r11)
	movdqu	%xmm0, 16(%r15,%r11)
	movdqu	%xmm0, (%r15,%r11)
	movdqu	%xmm0, 48(%r15,%rbx)
	movdqu	%xmm0, 32(%r15,%rbx)
	movdqu	%xmm0, 16(%r15,%rbx)
	movdqu	%xmm0, (%r15,%rbx)
	movdqu	%xmm0, 48(%r15,%rsi)
	movdqu	%xmm0, 32(%r15,%rsi)
	movdqu	%xmm0, 16(%r15,%rsi)
	movdqu	%xmm0, (%r15,%rsi)
	movdqu	%xmm0, 48(%r15,%r8)
	movdqu	%xmm0, 32(%r15,%r8)
	movdqu	%xmm0, 16(%r15,%r8)
	movdqu	%xmm0, (%r15,%r8)
	addq	$4, %r9
	addq	(%rsp), %r15
	cmpq	%r9, %r10
	jne	.LBB_9ba498_930
	testq	%rdx, %rdx
	je	.LBB_9ba498_452
.LBB_9ba498_932:
	shlq	$2, %r13
	cmpq	%rax, %rcx
	cmovbq	%rcx, %rax
	shlq	$2, %rax
	subq	%rax, %r13
	addq	$-64, %r13
	imulq	32(%rsp), %r9
	leaq	(%r12,%r9,4), %rax
	negq	%rdx
.LBB_9ba498_933:
	pxor	%xmm0, %xmm0
	movdqu	%xmm0, 48(%rax)
	movdqu	%xmm0, 32(%rax)
	movdqu	%xmm0, 16(%rax)
	movdqu	%xmm0, (%rax)
	movdqu	%xmm0, 48(%rax,%r13)
	movdqu	%xmm0, 32(%rax,%r13)
	movdqu	%xmm0, 16(%rax,%r13)
	movdqu	%xmm0, (%rax,%r13)
	addq	%rbp, %rax
	incq	%rdx
	jne	.LBB_9ba498_933
	jmp	.LBB_9ba498_452
.LBB_9ba498_934:
	andl	$-8, %r12d
	movq	%r12, 48(%rsp)
	movq	8(%rsp), %rax
	shlq	$5, %rax
	movq	%rax, (%rsp)
	xorl	%ebx, %ebx
	movq	16(%rsp), %r12
.LBB_9ba498_935:
	movq	%r12, %rdi
	xorl	%esi, %esi
	movq	%r15, %rdx
	callq	memset@PLT
	leaq	(%r12,%rbp), %r13
	movq	%r13, %rdi
	xorl	%esi, %esi
	movq	%r15, %rdx
	callq	memset@PLT
	addq	%rbp, %r13
	movq	%r13, %rdi
	xorl	%esi, %esi
	movq	%r15, %rdx
	callq	memset@PLT
	addq	%rbp, %r13
	movq	%r13, %rdi
	xorl	%esi, %esi
	movq	%r15, %rdx
	callq	memset@PLT
	addq	%rbp, %r13
	movq	%r13, %rdi
	xorl	%esi, %esi
	movq	%r15, %rdx
	callq	memset@PLT
	addq	%rbp, %r13
	movq	%r13, %rdi
	xorl	%esi, %esi
	movq	%r15, %rdx
	callq	memset@PLT
	addq	%rbp, %r13
	movq	%r13, %rdi
	xorl	%esi, %esi
	movq	%r15, %rdx
	callq	memset@PLT
	addq	%rbp, %r13
	movq	%r13, %rdi
	xorl	%esi, %esi
	movq	%r15, %rdx
	callq	memset@PLT
	addq	$8, %rbx
	addq	(%rsp), %r12
	cmpq	%rbx, 48(%rsp)
	jne	.LBB_9ba498_935
	testq	%r14, %r14
	je	.LBB_9ba498_452
.LBB_9ba498_937:
	imulq	8(%rsp), %rbx
	movq	16(%rsp), %rax
	leaq	(%rax,%rbx,4), %rbx
	negq	%r14
.LBB_9ba498_938:
	movq	%rbx, %rdi
	xorl	%esi, %esi
	movq	%r15, %rdx
	callq	memset@PLT
	addq	%rbp, %rbx
	incq	%r14
	jne	.LBB_9ba498_938
	jmp	.LBB_9ba498_452
.LBB_9ba498_939:
	cmpq	%rax, %rsi
	cmovbq	%rsi, %rax
	movl	%r12d, %ecx
	andl	$7, %ecx
	subq	%r8, %rax
	cmpq	$-8, %rax
	jbe	.LBB_9ba498_1081
	xorl	%eax, %eax
	jmp	.LBB_9ba498_1084
.LBB_9ba498_941:
	andl	$-4, %r12d
	leaq	(,%rbp,2), %rsi
	addq	%rbp, %rsi
	leaq	(,%r13,4), %rdi
	leaq	(%rsi,%r13,4), %r8
	cmpq	%rax, %rcx
	movq	%r9, %r15
	movq	%rax, %r9
	cmovbq	%rcx, %r9
	shlq	$2, %r9
	subq	%r9, %r8
	addq	$-64, %r8
	movq	8(%rsp), %rbx
	movq	%rbx, %r10
	shlq	$4, %r10
	leaq	(,%rbx,8), %r11
	leaq	(%rdi,%rbx,8), %rbx
	subq	%r9, %rbx
	addq	$-64, %rbx
	leaq	(,%r13,4), %r14
	addq	%rbp, %r14
	subq	%r9, %r14
	addq	$-64, %r14
	subq	%r9, %rdi
	addq	$-64, %rdi
	xorl	%r9d, %r9d
.LBB_9ba498_942:
	pxor	%xmm0, %xmm0
	movdqu	%xmm0, 48(%r15)
	movdqu	%xmm0, 32(%r15)
	movdqu	%xmm0, 16(%r15)
	movdqu	%xmm0, (%r15)
	movdqu	%xmm0, 48(%r15,%rdi)
	movdqu	%xmm0, 32(%r15,%rdi)
	movdqu	%xmm0, 16(%r15,%rdi)
	movdqu	%xmm0, (%r15,%rdi)
	movdqu	%xmm0, 48(%r15,%rbp)
	movdqu	%xmm0, 32(%r15,%rbp)
	movdqu	%xmm0, 16(%r15,%rbp)
	movdqu	%xmm0, (%r15,%rbp)
	movdqu	%xmm0, 48(%r15,%r14)
	movdqu	%xmm0, 32(%r15,%r14)
	movdqu	%xmm0, 16(%r15,%r14)
	movdqu	%xmm0, (%r15,%r14)
	movdqu	%xmm0, 48(%r15,%r11)
	movdqu	%xmm0, 32(%r15,%r11)
	movdqu	%xmm0, 16(%r15,%r11)
	movdqu	%xmm0, (%r15,%r11)
	movdqu	%xmm0, 48(%r15,%rbx)
	movdqu	%xmm0, 32(%r15,%rbx)
	movdqu	%xmm0, 16(%r15,%rbx)
	movdqu	%xmm0, (%r15,%rbx)
	movdqu	%xmm0, 48(%r15,%rsi)
	movdqu	%xmm0, 32(%r15,%rsi)
	movdqu	%xmm0, 16(%r15,%rsi)
	movdqu	%xmm0, (%r15,%rsi)
	movdqu	%xmm0, 48(%r15,%r8)
	movdqu	%xmm0, 32(%r15,%r8)
	movdqu	%xmm0, 16(%r15,%r8)
	movdqu	%xmm0, (%r15,%r8)
	addq	$4, %r9
	addq	%r10, %r15
	cmpq	%r9, %r12
	jne	.LBB_9ba498_942
	testq	%rdx, %rdx
	je	.LBB_9ba498_452
.LBB_9ba498_944:
	shlq	$2, %r13
	cmpq	%rax, %rcx
	cmovbq	%rcx, %rax
	shlq	$2, %rax
	subq	%rax, %r13
	addq	$-64, %r13
	imulq	8(%rsp), %r9
	movq	16(%rsp), %rax
	leaq	(%rax,%r9,4), %rax
	negq	%rdx
.LBB_9ba498_945:
	pxor	%xmm0, %xmm0
	movdqu	%xmm0, 48(%rax)
	movdqu	%xmm0, 32(%rax)
	movdqu	%xmm0, 16(%rax)
	movdqu	%xmm0, (%rax)
	movdqu	%xmm0, 48(%rax,%r13)
	movdqu	%xmm0, 32(%rax,%r13)
	movdqu	%xmm0, 16(%rax,%r13)
	movdqu	%xmm0, (%rax,%r13)
	addq	%rbp, %rax
	incq	%rdx
	jne	.LBB_9ba498_945
	jmp	.LBB_9ba498_452
.LBB_9ba498_946:
	andl	$-8, %r13d
	movq	8(%rsp), %rax
	shlq	$5, %rax
	movq	%rax, 48(%rsp)
	xorl	%ebx, %ebx
	movq	16(%rsp), %r12
	movq	%r13, (%rsp)
.LBB_9ba498_947:
	movq	%r12, %rdi
	xorl	%esi, %esi
	movq	%r15, %rdx
	callq	memset@PLT
	leaq	(%r12,%r14), %r13
	movq	%r13, %rdi
	xorl	%esi, %esi
	movq	%r15, %rdx
	callq	memset@PLT
	addq	%r14, %r13
	movq	%r13, %rdi
	xorl	%esi, %esi
	movq	%r15, %rdx
	callq	memset@PLT
	addq	%r14, %r13
	movq	%r13, %rdi
	xorl	%esi, %esi
	movq	%r15, %rdx
	callq	memset@PLT
	addq	%r14, %r13
	movq	%r13, %rdi
	xorl	%esi, %esi
	movq	%r15, %rdx
	callq	memset@PLT
	addq	%r14, %r13
	movq	%r13, %rdi
	xorl	%esi, %esi
	movq	%r15, %rdx
	callq	memset@PLT
	addq	%r14, %r13
	movq	%r13, %rdi
	xorl	%esi, %esi
	movq	%r15, %rdx
	callq	memset@PLT
	addq	%r14, %r13
	movq	%r13, %rdi
	movq	(%rsp), %r13
	xorl	%esi, %esi
	movq	%r15, %rdx
	callq	memset@PLT
	addq	$8, %rbx
	addq	48(%rsp), %r12
	cmpq	%rbx, %r13
	jne	.LBB_9ba498_947
	testq	%rbp, %rbp
	je	.LBB_9ba498_452
.LBB_9ba498_949:
	imulq	8(%rsp), %rbx
	movq	16(%rsp), %rax
	leaq	(%rax,%rbx,4), %rbx
	negq	%rbp
.LBB_9ba498_950:
	movq	%rbx, %rdi
	xorl	%esi, %esi
	movq	%r15, %rdx
	callq	memset@PLT
	addq	%r14, %rbx
	incq	%rbp
	jne	.LBB_9ba498_950
	jmp	.LBB_9ba498_452
.LBB_9ba498_951:
	cmpq	%rax, %rsi
	cmovbq	%rsi, %rax
	movl	%r13d, %ecx
	andl	$7, %ecx
	subq	%r8, %rax
	cmpq	$-8, %rax
	jbe	.LBB_9ba498_1091
	xorl	%eax, %eax
	jmp	.LBB_9ba498_1094
.LBB_9ba498_953:
	andl	$-4, %r13d
	leaq	(%r14,%r14,2), %rsi
	leaq	(,%rbp,4), %rdi
	leaq	(%rsi,%rbp,4), %r8
	cmpq	%rax, %rcx
	movq	%rax, %r9
	cmovbq	%rcx, %r9
	shlq	$2, %r9
	subq	%r9, %r8
	addq	$-64, %r8
	movq	8(%rsp), %rbx
	movq	%rbx, %r10
	shlq	$4, %r10
	leaq	(,%rbx,8), %r11
	leaq	(%rdi,%rbx,8), %rbx
	subq	%r9, %rbx
	addq	$-64, %rbx
	leaq	(%r14,%rbp,4), %r15
	subq	%r9, %r15
	addq	$-64, %r15
	subq	%r9, %rdi
	addq	$-64, %rdi
	xorl	%r9d, %r9d
.LBB_9ba498_954:
	pxor	%xmm0, %xmm0
	movdqu	%xmm0, 48(%r12)
	movdqu	%xmm0, 32(%r12)
	movdqu	%xmm0, 16(%r12)
	movdqu	%xmm0, (%r12)
	movdqu	%xmm0, 48(%r12,%rdi)
	movdqu	%xmm0, 32(%r12,%rdi)
	movdqu	%xmm0, 16(%r12,%rdi)
	movdqu	%xmm0, (%r12,%rdi)
	movdqu	%xmm0, 48(%r12,%r14)
	movdqu	%xmm0, 32(%r12,%r14)
	movdqu	%xmm0, 16(%r12,%r14)
	movdqu	%xmm0, (%r12,%r14)
	movdqu	%xmm0, 48(%r12,%r15)
	movdqu	%xmm0, 32(%r12,%r15)
	movdqu	%xmm0, 16(%r12,%r15)
	movdqu	%xmm0, (%r12,%r15)
	movdqu	%xmm0, 48(%r12,%r11)
	movdqu	%xmm0, 32(%r12,%r11)
	movdqu	%xmm0, 16(%r12,%r11)
	movdqu	%xmm0, (%r12,%r11)
	movdqu	%xmm0, 48(%r12,%rbx)
	movdqu	%xmm0, 32(%r12,%rbx)
	movdqu	%xmm0, 16(%r12,%rbx)
	movdqu	%xmm0, (%r12,%rbx)
	movdqu	%xmm0, 48(%r12,%rsi)
	movdqu	%xmm0, 32(%r12,%rsi)
	movdqu	%xmm0, 16(%r12,%rsi)
	movdqu	%xmm0, (%r12,%rsi)
	movdqu	%xmm0, 48(%r12,%r8)
	movdqu	%xmm0, 32(%r12,%r8)
	movdqu	%xmm0, 16(%r12,%r8)
	movdqu	%xmm0, (%r12,%r8)
	addq	$4, %r9
	addq	%r10, %r12
	cmpq	%r9, %r13
	jne	.LBB_9ba498_954
	testq	%rdx, %rdx
	je	.LBB_9ba498_452
.LBB_9ba498_956:
	shlq	$2, %rbp
	cmpq	%rax, %rcx
	cmovbq	%rcx, %rax
	shlq	$2, %rax
	subq	%rax, %rbp
	addq	$-64, %rbp
	imulq	8(%rsp), %r9
	movq	16(%rsp), %rax
	leaq	(%rax,%r9,4), %rax
	negq	%rdx
.LBB_9ba498_957:
	pxor	%xmm0, %xmm0
	movdqu	%xmm0, 48(%rax)
	movdqu	%xmm0, 32(%rax)
	movdqu	%xmm0, 16(%rax)
	movdqu	%xmm0, (%rax)
	movdqu	%xmm0, 48(%rax,%rbp)
	movdqu	%xmm0, 32(%rax,%rbp)
	movdqu	%xmm0, 16(%rax,%rbp)
	movdqu	%xmm0, (%rax,%rbp)
	addq	%r14, %rax
	incq	%rdx
	jne	.LBB_9ba498_957
	jmp	.LBB_9ba498_452
.LBB_9ba498_958:
	movq	(%rsp), %rax
	andl	$-8, %eax
	movq	%rax, (%rsp)
	movq	8(%rsp), %rax
	shlq	$5, %rax
	movq	%rax, 48(%rsp)
	xorl	%ebx, %ebx
.LBB_9ba498_959:
	movq	%r12, %rdi
	xorl	%esi, %esi
	movq	%r15, %rdx
	callq	memset@PLT
	leaq	(%r12,%rbp), %r13
	movq	%r13, %rdi
	xorl	%esi, %esi
	movq	%r15, %rdx
	callq	memset@PLT
	addq	%rbp, %r13
	movq	%r13, %rdi
	xorl	%esi, %esi
	movq	%r15, %rdx
	callq	memset@PLT
	addq	%rbp, %r13
	movq	%r13, %rdi
	xorl	%esi, %esi
	movq	%r15, %rdx
	callq	memset@PLT
	addq	%rbp, %r13
	movq	%r13, %rdi
	xorl	%esi, %esi
	movq	%r15, %rdx
	callq	memset@PLT
	addq	%rbp, %r13
	movq	%r13, %rdi
	xorl	%esi, %esi
	movq	%r15, %rdx
	callq	memset@PLT
	addq	%rbp, %r13
	movq	%r13, %rdi
	xorl	%esi, %esi
	movq	%r15, %rdx
	callq	memset@PLT
	addq	%rbp, %r13
	movq	%r13, %rdi
	xorl	%esi, %esi
	movq	%r15, %rdx
	callq	memset@PLT
	addq	$8, %rbx
	addq	48(%rsp), %r12
	cmpq	%rbx, (%rsp)
	jne	.LBB_9ba498_959
	testq	%r14, %r14
	movq	16(%rsp), %r12
	je	.LBB_9ba498_452
.LBB_9ba498_961:
	imulq	8(%rsp), %rbx
	leaq	(%r12,%rbx,4), %rbx
	negq	%r14
.LBB_9ba498_962:
	movq	%rbx, %rdi
	xorl	%esi, %esi
	movq	%r15, %rdx
	callq	memset@PLT
	addq	%rbp, %rbx
	incq	%r14
	jne	.LBB_9ba498_962
	jmp	.LBB_9ba498_452
.LBB_9ba498_963:
	cmpq	%rax, %rsi
	cmovbq	%rsi, %rax
	movl	%r14d, %ecx
	andl	$7, %ecx
	subq	%r8, %rax
	cmpq	$-8, %rax
	jbe	.LBB_9ba498_1101
	xorl	%eax, %eax
	jmp	.LBB_9ba498_1104
.LBB_9ba498_965:
	andl	$-4, %r14d
	leaq	(,%rbp,2), %rsi
	addq	%rbp, %rsi
	leaq	(,%r13,4), %rdi
	leaq	(%rsi,%r13,4), %r8
	cmpq	%rax, %rcx
	movq	%rax, %r9
	cmovbq	%rcx, %r9
	shlq	$2, %r9
	subq	%r9, %r8
	addq	$-64, %r8
	movq	8(%rsp), %rbx
	movq	%rbx, %r10
	shlq	$4, %r10
	movq	%r10, (%rsp)
	leaq	(,%rbx,8), %r11
	leaq	(%rdi,%rbx,8), %rbx
	subq	%r9, %rbx
	addq	$-64, %rbx
	movq	%r14, %r10
	leaq	(,%r13,4), %r14
	addq	%rbp, %r14
	subq	%r9, %r14
	addq	$-64, %r14
	subq	%r9, %rdi
	addq	$-64, %rdi
	xorl	%r9d, %r9d
	movq	%r12, %r15
.LBB_9ba498_966:
	pxor	%xmm0, %xmm0
	movdqu	%xmm0, 48(%r15)
	movdqu	%xmm0, 32(%r15)
	movdqu	%xmm0, 16(%r15)
	movdqu	%xmm0, (%r15)
	movdqu	%xmm0, 48(%r15,%rdi)
	movdqu	%xmm0, 32(%r15,%rdi)
	movdqu	%xmm0, 16(%r15,%rdi)
	movdqu	%xmm0, (%r15,%rdi)
	movdqu	%xmm0, 48(%r15,%rbp)
	movdqu	%xmm0, 32(%r15,%rbp)
	movdqu	%xmm0, 16(%r15,%rbp)
	movdqu	%xmm0, (%r15,%rbp)
	movdqu	%xmm0, 48(%r15,%r14)
	movdqu	%xmm0, 32(%r15,%r14)
	movdqu	%xmm0, 16(%r15,%r14)
	movdqu	%xmm0, (%r15,%r14)
	movdqu	%xmm0, 48(%r15,%r11)
	movdqu	%xmm0, 32(%r15,%r11)
	movdqu	%xmm0, 16(%r15,%r11)
	movdqu	%xmm0, (%r15,%r11)
	movdqu	%xmm0, 48(%r15,%rbx)
	movdqu	%xmm0, 32(%r15,%rbx)
	movdqu	%xmm0, 16(%r15,%rbx)
	movdqu	%xmm0, (%r15,%rbx)
	movdqu	%xmm0, 48(%r15,%rsi)
	movdqu	%xmm0, 32(%r15,%rsi)
	movdqu	%xmm0, 16(%r15,%rsi)
	movdqu	%xmm0, (%r15,%rsi)
	movdqu	%xmm0, 48(%r15,%r8)
	movdqu	%xmm0, 32(%r15,%r8)
	movdqu	%xmm0, 16(%r15,%r8)
	movdqu	%xmm0, (%r15,%r8)
	addq	$4, %r9
	addq	(%rsp), %r15
	cmpq	%r9, %r10
	jne	.LBB_9ba498_966
	testq	%rdx, %rdx
	je	.LBB_9ba498_452
.LBB_9ba498_968:
	shlq	$2, %r13
	cmpq	%rax, %rcx
	cmovbq	%rcx, %rax
	shlq	$2, %rax
	subq	%rax, %r13
	addq	$-64, %r13
	imulq	8(%rsp), %r9
	leaq	(%r12,%r9,4), %rax
	negq	%rdx
.LBB_9ba498_969:
	pxor	%xmm0, %xmm0
	movdqu	%xmm0, 48(%rax)
	movdqu	%xmm0, 32(%rax)
	movdqu	%xmm0, 16(%rax)
	movdqu	%xmm0, (%rax)
	movdqu	%xmm0, 48(%rax,%r13)
	movdqu	%xmm0, 32(%rax,%r13)
	movdqu	%xmm0, 16(%rax,%r13)
	movdqu	%xmm0, (%rax,%r13)
	addq	%rbp, %rax
	incq	%rdx
	jne	.LBB_9ba498_969
	jmp	.LBB_9ba498_452
.LBB_9ba498_970:
	movq	8(%rsp), %rax
	andl	$-8, %eax
	movq	%rax, 8(%rsp)
	movq	(%rsp), %rax
	shlq	$5, %rax
	movq	%rax, 48(%rsp)
	xorl	%ebx, %ebx
	movq	16(%rsp), %r12
.LBB_9ba498_971:
	movq	%r12, %rdi
	xorl	%esi, %esi
	movq	%r15, %rdx
	callq	memset@PLT
	leaq	(%r12,%rbp), %r13
	movq	%r13, %rdi
	xorl	%esi, %esi
	movq	%r15, %rdx
	callq	memset@PLT
	addq	%rbp, %r13
	movq	%r13, %rdi
	xorl	%esi, %esi
	movq	%r15, %rdx
	callq	memset@PLT
	addq	%rbp, %r13
	movq	%r13, %rdi
	xorl	%esi, %esi
	movq	%r15, %rdx
	callq	memset@PLT
	addq	%rbp, %r13
	movq	%r13, %rdi
	xorl	%esi, %esi
	movq	%r15, %rdx
	callq	memset@PLT
	addq	%rbp, %r13
	movq	%r13, %rdi
	xorl	%esi, %esi
	movq	%r15, %rdx
	callq	memset@PLT
	addq	%rbp, %r13
	movq	%r13, %rdi
	xorl	%esi, %esi
	movq	%r15, %rdx
	callq	memset@PLT
	addq	%rbp, %r13
	movq	%r13, %rdi
	xorl	%esi, %esi
	movq	%r15, %rdx
	callq	memset@PLT
	addq	$8, %rbx
	addq	48(%rsp), %r12
	cmpq	%rbx, 8(%rsp)
	jne	.LBB_9ba498_971
	testq	%r14, %r14
	je	.LBB_9ba498_452
.LBB_9ba498_973:
	imulq	(%rsp), %rbx
	movq	16(%rsp), %rax
	leaq	(%rax,%rbx,4), %rbx
	negq	%r14
.LBB_9ba498_974:
	movq	%rbx, %rdi
	xorl	%esi, %esi
	movq	%r15, %rdx
	callq	memset@PLT
	addq	%rbp, %rbx
	incq	%r14
	jne	.LBB_9ba498_974
	jmp	.LBB_9ba498_452
.LBB_9ba498_975:
	cmpq	%rax, %rsi
	cmovbq	%rsi, %rax
	movq	%r8, %rdi
	movl	%edi, %ecx
	andl	$7, %ecx
	subq	%r12, %rax
	cmpq	$-8, %rax
	jbe	.LBB_9ba498_1111
	xorl	%eax, %eax
	jmp	.LBB_9ba498_1114
.LBB_9ba498_977:
	andl	$-4, %r8d
	leaq	(,%rbp,2), %rsi
	addq	%rbp, %rsi
	leaq	(,%r13,4), %rdi
	movq	%r8, %r12
	leaq	(%rsi,%r13,4), %r8
	cmpq	%rax, %rcx
	movq	%rax, %r9
	cmovbq	%rcx, %r9
	shlq	$2, %r9
	subq	%r9, %r8
	addq	$-64, %r8
	movq	(%rsp), %rbx
	movq	%rbx, %r10
	shlq	$4, %r10
	leaq	(,%rbx,8), %r11
	leaq	(%rdi,%rbx,8), %rbx
	subq	%r9, %rbx
	addq	$-64, %rbx
	leaq	(,%r13,4), %r14
	addq	%rbp, %r14
	subq	%r9, %r14
	addq	$-64, %r14
	subq	%r9, %rdi
	addq	$-64, %rdi
	xorl	%r9d, %r9d
	movq	16(%rsp), %r15
.LBB_9ba498_978:
	pxor	%xmm0, %xmm0
	movdqu	%xmm0, 48(%r15)
	movdqu	%xmm0, 32(%r15)
	movdqu	%xmm0, 16(%r15)
	movdqu	%xmm0, (%r15)
	movdqu	%xmm0, 48(%r15,%rdi)
	movdqu	%xmm0, 32(%r15,%rdi)
	movdqu	%xmm0, 16(%r15,%rdi)
	movdqu	%xmm0, (%r15,%rdi)
	movdqu	%xmm0, 48(%r15,%rbp)
	movdqu	%xmm0, 32(%r15,%rbp)
	movdqu	%xmm0, 16(%r15,%rbp)
	movdqu	%xmm0, (%r15,%rbp)
	movdqu	%xmm0, 48(%r15,%r14)
	movdqu	%xmm0, 32(%r15,%r14)
	movdqu	%xmm0, 16(%r15,%r14)
	movdqu	%xmm0, (%r15,%r14)
	movdqu	%xmm0, 48(%r15,%r11)
	movdqu	%xmm0, 32(%r15,%r11)
	movdqu	%xmm0, 16(%r15,%r11)
	movdqu	%xmm0, (%r15,%r11)
	movdqu	%xmm0, 48(%r15,%rbx)
	movdqu	%xmm0, 32(%r15,%rbx)
	movdqu	%xmm0, 16(%r15,%rbx)
	movdqu	%xmm0, (%r15,%rbx)
	movdqu	%xmm0, 48(%r15,%rsi)
	movdqu	%xmm0, 32(%r15,%rsi)
	movdqu	%xmm0, 16(%r15,%rsi)
	movdqu	%xmm0, (%r15,%rsi)
	movdqu	%xmm0, 48(%r15,%r8)
	movdqu	%xmm0, 32(%r15,%r8)
	movdqu	%xmm0, 16(%r15,%r8)
	movdqu	%xmm0, (%r15,%r8)
	addq	$4, %r9
	addq	%r10, %r15
	cmpq	%r9, %r12
	jne	.LBB_9ba498_978
	testq	%rdx, %rdx
	je	.LBB_9ba498_452
.LBB_9ba498_980:
	shlq	$2, %r13
	cmpq	%rax, %rcx
	cmovbq	%rcx, %rax
	shlq	$2, %rax
	subq	%rax, %r13
	addq	$-64, %r13
	imulq	(%rsp), %r9
	movq	16(%rsp), %rax
	leaq	(%rax,%r9,4), %rax
	negq	%rdx
.LBB_9ba498_981:
	pxor	%xmm0, %xmm0
	movdqu	%xmm0, 48(%rax)
	movdqu	%xmm0, 32(%rax)
	movdqu	%xmm0, 16(%rax)
	movdqu	%xmm0, (%rax)
	movdqu	%xmm0, 48(%rax,%r13)
	movdqu	%xmm0, 32(%rax,%r13)
	movdqu	%xmm0, 16(%rax,%r13)
	movdqu	%xmm0, (%rax,%r13)
	addq	%rbp, %rax
	incq	%rdx
	jne	.LBB_9ba498_981
	jmp	.LBB_9ba498_452
.LBB_9ba498_982:
	andl	$-8, %r12d
	movq	%r12, 48(%rsp)
	movq	8(%rsp), %rax
	shlq	$5, %rax
	movq	%rax, (%rsp)
	xorl	%ebx, %ebx
	movq	16(%rsp), %r12
.LBB_9ba498_983:
	movq	%r12, %rdi
	xorl	%esi, %esi
	movq	%r15, %rdx
	callq	memset@PLT
	leaq	(%r12,%rbp), %r13
	movq	%r13, %rdi
	xorl	%esi, %esi
	movq	%r15, %rdx
	callq	memset@PLT
	addq	%rbp, %r13
	movq	%r13, %rdi
	xorl	%esi, %esi
	movq	%r15, %rdx
	callq	memset@PLT
	addq	%rbp, %r13
	movq	%r13, %rdi
	xorl	%esi, %esi
	movq	%r15, %rdx
	callq	memset@PLT
	addq	%rbp, %r13
	movq	%r13, %rdi
	xorl	%esi, %esi
	movq	%r15, %rdx
	callq	memset@PLT
	addq	%rbp, %r13
	movq	%r13, %rdi
	xorl	%esi, %esi
	movq	%r15, %rdx
	callq	memset@PLT
	addq	%rbp, %r13
	movq	%r13, %rdi
	xorl	%esi, %esi
	movq	%r15, %rdx
	callq	memset@PLT
	addq	%rbp, %r13
	movq	%r13, %rdi
	xorl	%esi, %esi
	movq	%r15, %rdx
	callq	memset@PLT
	addq	$8, %rbx
	addq	(%rsp), %r12
	cmpq	%rbx, 48(%rsp)
	jne	.LBB_9ba498_983
	testq	%r14, %r14
	je	.LBB_9ba498_452
.LBB_9ba498_985:
	imulq	8(%rsp), %rbx
	movq	16(%rsp), %rax
	leaq	(%rax,%rbx,4), %rbx
	negq	%r14
.LBB_9ba498_986:
	movq	%rbx, %rdi
	xorl	%esi, %esi
	movq	%r15, %rdx
	callq	memset@PLT
	addq	%rbp, %rbx
	incq	%r14
	jne	.LBB_9ba498_986
	jmp	.LBB_9ba498_452
.LBB_9ba498_987:
	cmpq	%rax, %rsi
	cmovbq	%rsi, %rax
	movl	%r12d, %ecx
	andl	$7, %ecx
	subq	%r8, %rax
	cmpq	$-8, %rax
	jbe	.LBB_9ba498_1121
	xorl	%eax, %eax
	jmp	.LBB_9ba498_1124
.LBB_9ba498_989:
	andl	$-4, %r12d
	leaq	(,%rbp,2), %rsi
	addq	%rbp, %rsi
	leaq	(,%r13,4), %rdi
	leaq	(%rsi,%r13,4), %r8
	cmpq	%rax, %rcx
	movq	%r9, %r15
	movq	%rax, %r9
	cmovbq	%rcx, %r9
	shlq	$2, %r9
	subq	%r9, %r8
	addq	$-64, %r8
	movq	8(%rsp), %rbx
	movq	%rbx, %r10
	shlq	$4, %r10
	leaq	(,%rbx,8), %r11
	leaq	(%rdi,%rbx,8), %rbx
	subq	%r9, %rbx
	addq	$-64, %rbx
	leaq	(,%r13,4), %r14
	addq	%rbp, %r14
	subq	%r9, %r14
	addq	$-64, %r14
	subq	%r9, %rdi
	addq	$-64, %rdi
	xorl	%r9d, %r9d
.LBB_9ba498_990:
	pxor	%xmm0, %xmm0
	movdqu	%xmm0, 48(%r15)
	movdqu	%xmm0, 32(%r15)
	movdqu	%xmm0, 16(%r15)
	movdqu	%xmm0, (%r15)
	movdqu	%xmm0, 48(%r15,%rdi)
	movdqu	%xmm0, 32(%r15,%rdi)
	movdqu	%xmm0, 16(%r15,%rdi)
	movdqu	%xmm0, (%r15,%rdi)
	movdqu	%xmm0, 48(%r15,%rbp)
	movdqu	%xmm0, 32(%r15,%rbp)
	movdqu	%xmm0, 16(%r15,%rbp)
	movdqu	%xmm0, (%r15,%rbp)
	movdqu	%xmm0, 48(%r15,%r14)
	movdqu	%xmm0, 32(%r15,%r14)
	movdqu	%xmm0, 16(%r15,%r14)
	movdqu	%xmm0, (%r15,%r14)
	movdqu	%xmm0, 48(%r15,%r11)
	movdqu	%xmm0, 32(%r15,%r11)
	movdqu	%xmm0, 16(%r15,%r11)
	movdqu	%xmm0, (%r15,%r11)
	movdqu	%xmm0, 48(%r15,%rbx)
	movdqu	%xmm0, 32(%r15,%rbx)
	movdqu	%xmm0, 16(%r15,%rbx)
	movdqu	%xmm0, (%r15,%rbx)
	movdqu	%xmm0, 48(%r15,%rsi)
	movdqu	%xmm0, 32(%r15,%rsi)
	movdqu	%xmm0, 16(%r15,%rsi)
	movdqu	%xmm0, (%r15,%rsi)
	movdqu	%xmm0, 48(%r15,%r8)
	movdqu	%xmm0, 32(%r15,%r8)
	movdqu	%xmm0, 16(%r15,%r8)
	movdqu	%xmm0, (%r15,%r8)
	addq	$4, %r9
	addq	%r10, %r15
	cmpq	%r9, %r12
	jne	.LBB_9ba498_990
	testq	%rdx, %rdx
	je	.LBB_9ba498_452
.LBB_9ba498_992:
	shlq	$2, %r13
	cmpq	%rax, %rcx
	cmovbq	%rcx, %rax
	shlq	$2, %rax
	subq	%rax, %r13
	addq	$-64, %r13
	imulq	8(%rsp), %r9
	movq	16(%rsp), %rax
	leaq	(%rax,%r9,4), %rax
	negq	%rdx
.LBB_9ba498_993:
	pxor	%xmm0, %xmm0
	movdqu	%xmm0, 48(%rax)
	movdqu	%xmm0, 32(%rax)
	movdqu	%xmm0, 16(%rax)
	movdqu	%xmm0, (%rax)
	movdqu	%xmm0, 48(%rax,%r13)
	movdqu	%xmm0, 32(%rax,%r13)
	movdqu	%xmm0, 16(%rax,%r13)
	movdqu	%xmm0, (%rax,%r13)
	addq	%rbp, %rax
	incq	%rdx
	jne	.LBB_9ba498_993
	jmp	.LBB_9ba498_452
.LBB_9ba498_994:
	movq	(%rsp), %rax
	andl	$-8, %eax
	movq	%rax, (%rsp)
	movq	8(%rsp), %rax
	shlq	$5, %rax
	movq	%rax, 48(%rsp)
	xorl	%ebx, %ebx
.LBB_9ba498_995:
	movq	%r12, %rdi
	xorl	%esi, %esi
	movq	%r15, %rdx
	callq	memset@PLT
	leaq	(%r12,%rbp), %r13
	movq	%r13, %rdi
	xorl	%esi, %esi
	movq	%r15, %rdx
	callq	memset@PLT
	addq	%rbp, %r13
	movq	%r13, %rdi
	xorl	%esi, %esi
	movq	%r15, %rdx
	callq	memset@PLT
	addq	%rbp, %r13
	movq	%r13, %rdi
	xorl	%esi, %esi
	movq	%r15, %rdx
	callq	memset@PLT
	addq	%rbp, %r13
	movq	%r13, %rdi
	xorl	%esi, %esi
	movq	%r15, %rdx
	callq	memset@PLT
	addq	%rbp, %r13
	movq	%r13, %rdi
	xorl	%esi, %esi
	movq	%r15, %rdx
	callq	memset@PLT
	addq	%rbp, %r13
	movq	%r13, %rdi
	xorl	%esi, %esi
	movq	%r15, %rdx
	callq	memset@PLT
	addq	%rbp, %r13
	movq	%r13, %rdi
	xorl	%esi, %esi
	movq	%r15, %rdx
	callq	memset@PLT
	addq	$8, %rbx
	addq	48(%rsp), %r12
	cmpq	%rbx, (%rsp)
	jne	.LBB_9ba498_995
	testq	%r14, %r14
	movq	16(%rsp), %r12
	je	.LBB_9ba498_452
.LBB_9ba498_997:
	imulq	8(%rsp), %rbx
	leaq	(%r12,%rbx,4), %rbx
	negq	%r14
.LBB_9ba498_998:
	movq	%rbx, %rdi
	xorl	%esi, %esi
	movq	%r15, %rdx
	callq	memset@PLT
	addq	%rbp, %rbx
	incq	%r14
	jne	.LBB_9ba498_998
	jmp	.LBB_9ba498_452
.LBB_9ba498_999:
	cmpq	%rax, %rsi
	cmovbq	%rsi, %rax
	movl	%r14d, %ecx
	andl	$7, %ecx
	subq	%r8, %rax
	cmpq	$-8, %rax
	jbe	.LBB_9ba498_1131
	xorl	%eax, %eax
	jmp	.LBB_9ba498_1134
.LBB_9ba498_1001:
	andl	$-4, %r14d
	leaq	(,%rbp,2), %rsi
	addq	%rbp, %rsi
	leaq	(,%r13,4), %rdi
	leaq	(%rsi,%r13,4), %r8
	cmpq	%rax, %rcx
	movq	%rax, %r9
	cmovbq	%rcx, %r9
	shlq	$2, %r9
	subq	%r9, %r8
	addq	$-64, %r8
	movq	8(%rsp), %rbx
	movq	%rbx, %r10
	shlq	$4, %r10
	movq	%r10, (%rsp)
	leaq	(,%rbx,8), %r11
	leaq	(%rdi,%rbx,8), %rbx
	subq	%r9, %rbx
	addq	$-64, %rbx
	movq	%r14, %r10
	leaq	(,%r13,4), %r14
	addq	%rbp, %r14
	subq	%r9, %r14
	addq	$-64, %r14
	subq	%r9, %rdi
	addq	$-64, %rdi
	xorl	%r9d, %r9d
	movq	%r12, %r15
.LBB_9ba498_1002:
	pxor	%xmm0, %xmm0
	movdqu	%xmm0, 48(%r15)
	movdqu	%xmm0, 32(%r15)
	movdqu	%xmm0, 16(%r15)
	movdqu	%xmm0, (%r15)
	movdqu	%xmm0, 48(%r15,%rdi)
	movdqu	%xmm0, 32(%r15,%rdi)
	movdqu	%xmm0, 16(%r15,%rdi)
	movdqu	%xmm0, (%r15,%rdi)
	movdqu	%xmm0, 48(%r15,%rbp)
	movdqu	%xmm0, 32(%r15,%rbp)
	movdqu	%xmm0, 16(%r15,%rbp)
	movdqu	%xmm0, (%r15,%rbp)
	movdqu	%xmm0, 48(%r15,%r14)
	movdqu	%xmm0, 32(%r15,%r14)
	movdqu	%xmm0, 16(%r15,%r14)
	movdqu	%xmm0, (%r15,%r14)
	movdqu	%xmm0, 48(%r15,%r11)
	movdqu	%xmm0, 32(%r15,%r11)
	movdqu	%xmm0, 16(%r15,%r11)
	movdqu	%xmm0, (%r15,%r11)
	movdqu	%xmm0, 48(%r15,%rbx)
	movdqu	%xmm0, 32(%r15,%rbx)
	movdqu	%xmm0, 16(%r15,%rbx)
	movdqu	%xmm0, (%r15,%rbx)
	movdqu	%xmm0, 48(%r15,%rsi)
	movdqu	%xmm0, 32(%r15,%rsi)
	movdqu	%xmm0, 16(%r15,%rsi)
	movdqu	%xmm0, (%r15,%rsi)
	movdqu	%xmm0, 48(%r15,%r8)
	movdqu	%xmm0, 32(%r15,%r8)
	movdqu	%xmm0, 16(%r15,%r8)
	movdqu	%xmm0, (%r15,%r8)
	addq	$4, %r9
	addq	(%rsp), %r15
	cmpq	%r9, %r10
	jne	.LBB_9ba498_1002
	testq	%rdx, %rdx
	je	.LBB_9ba498_452
.LBB_9ba498_1004:
	shlq	$2, %r13
	cmpq	%rax, %rcx
	cmovbq	%rcx, %rax
	shlq	$2, %rax
	subq	%rax, %r13
	addq	$-64, %r13
	imulq	8(%rsp), %r9
	leaq	(%r12,%r9,4), %rax
	negq	%rdx
.LBB_9ba498_1005:
	pxor	%xmm0, %xmm0
	movdqu	%xmm0, 48(%rax)
	movdqu	%xmm0, 32(%rax)
	movdqu	%xmm0, 16(%rax)
	movdqu	%xmm0, (%rax)
	movdqu	%xmm0, 48(%rax,%r13)
	movdqu	%xmm0, 32(%rax,%r13)
	movdqu	%xmm0, 16(%rax,%r13)
	movdqu	%xmm0, (%rax,%r13)
	addq	%rbp, %rax
	incq	%rdx
	jne	.LBB_9ba498_1005
	jmp	.LBB_9ba498_452
.LBB_9ba498_1006:
	andl	$-8, %r8d
	movq	(%rsp), %rax
	shlq	$5, %rax
	movq	%rax, 48(%rsp)
	xorl	%ebx, %ebx
	movq	16(%rsp), %r12
	movq	%r8, 8(%rsp)
.LBB_9ba498_1007:
	movq	%r12, %rdi
	xorl	%esi, %esi
	movq	%r15, %rdx
	callq	memset@PLT
	leaq	(%r12,%rbp), %r13
	movq	%r13, %rdi
	xorl	%esi, %esi
	movq	%r15, %rdx
	callq	memset@PLT
	addq	%rbp, %r13
	movq	%r13, %rdi
	xorl	%esi, %esi
	movq	%r15, %rdx
	callq	memset@PLT
	addq	%rbp, %r13
	movq	%r13, %rdi
	xorl	%esi, %esi
	movq	%r15, %rdx
	callq	memset@PLT
	addq	%rbp, %r13
	movq	%r13, %rdi
	xorl	%esi, %esi
	movq	%r15, %rdx
	callq	memset@PLT
	addq	%rbp, %r13
	movq	%r13, %rdi
	xorl	%esi, %esi
	movq	%r15, %rdx
	callq	memset@PLT
	addq	%rbp, %r13
	movq	%r13, %rdi
	xorl	%esi, %esi
	movq	%r15, %rdx
	callq	memset@PLT
	addq	%rbp, %r13
	movq	%r13, %rdi
	movq	8(%rsp), %r13
	xorl	%esi, %esi
	movq	%r15, %rdx
	callq	memset@PLT
	addq	$8, %rbx
	addq	48(%rsp), %r12
	cmpq	%rbx, %r13
	jne	.LBB_9ba498_1007
	testq	%r14, %r14
	je	.LBB_9ba498_452
.LBB_9ba498_1009:
	imulq	(%rsp), %rbx
	movq	16(%rsp), %rax
	leaq	(%rax,%rbx,4), %rbx
	negq	%r14
.LBB_9ba498_1010:
	movq	%rbx, %rdi
	xorl	%esi, %esi
	movq	%r15, %rdx
	callq	memset@PLT
	addq	%rbp, %rbx
	incq	%r14
	jne	.LBB_9ba498_1010
	jmp	.LBB_9ba498_452
.LBB_9ba498_1011:
	andl	$-8, %r12d
	movq	%r12, 48(%rsp)
	movq	8(%rsp), %rax
	shlq	$5, %rax
	movq	%rax, (%rsp)
	xorl	%ebx, %ebx
	movq	16(%rsp), %r12
.LBB_9ba498_1012:
	movq	%r12, %rdi
	xorl	%esi, %esi
	movq	%r15, %rdx
	callq	memset@PLT
	leaq	(%r12,%rbp), %r13
	movq	%r13, %rdi
	xorl	%esi, %esi
	movq	%r15, %rdx
	callq	memset@PLT
	addq	%rbp, %r13
	movq	%r13, %rdi
	xorl	%esi, %esi
	movq	%r15, %rdx
	callq	memset@PLT
	addq	%rbp, %r13
	movq	%r13, %rdi
	xorl	%esi, %esi
	movq	%r15, %rdx
	callq	memset@PLT
	addq	%rbp, %r13
	movq	%r13, %rdi
	xorl	%esi, %esi
	movq	%r15, %rdx
	callq	memset@PLT
	addq	%rbp, %r13
	movq	%r13, %rdi
	xorl	%esi, %esi
	movq	%r15, %rdx
	callq	memset@PLT
	addq	%rbp, %r13
	movq	%r13, %rdi
	xorl	%esi, %esi
	movq	%r15, %rdx
	callq	memset@PLT
	addq	%rbp, %r13
	movq	%r13, %rdi
	xorl	%esi, %esi
	movq	%r15, %rdx
	callq	memset@PLT
	addq	$8, %rbx
	addq	(%rsp), %r12
	cmpq	%rbx, 48(%rsp)
	jne	.LBB_9ba498_1012
	testq	%r14, %r14
	je	.LBB_9ba498_452
.LBB_9ba498_1014:
	imulq	8(%rsp), %rbx
	movq	16(%rsp), %rax
	leaq	(%rax,%rbx,4), %rbx
	negq	%r14
.LBB_9ba498_1015:
	movq	%rbx, %rdi
	xorl	%esi, %esi
	movq	%r15, %rdx
	callq	memset@PLT
	addq	%rbp, %rbx
	incq	%r14
	jne	.LBB_9ba498_1015
	jmp	.LBB_9ba498_452
.LBB_9ba498_1016:
	cmpq	%rax, %rsi
	cmovbq	%rsi, %rax
	movq	%r8, %rdi
	movl	%edi, %ecx
	andl	$7, %ecx
	subq	%r13, %rax
	cmpq	$-8, %rax
	jbe	.LBB_9ba498_1146
	xorl	%eax, %eax
	jmp	.LBB_9ba498_1149
.LBB_9ba498_1018:
	cmpq	%rax, %rsi
	cmovbq	%rsi, %rax
	movl	%r12d, %ecx
	andl	$7, %ecx
	subq	%r8, %rax
	cmpq	$-8, %rax
	jbe	.LBB_9ba498_1151
	xorl	%eax, %eax
	jmp	.LBB_9ba498_1154
.LBB_9ba498_1020:
	andl	$-4, %r8d
	leaq	(,%rbp,2), %rsi
	addq	%rbp, %rsi
	leaq	(,%r12,4), %rdi
	movq	%r8, %r13
	leaq	(%rsi,%r12,4), %r8
	cmpq	%rax, %rcx
	movq	%rax, %r9
	cmovbq	%rcx, %r9
	shlq	$2, %r9
	subq	%r9, %r8
	addq	$-64, %r8
	movq	(%rsp), %rbx
	movq	%rbx, %r10
	shlq	$4, %r10
	leaq	(,%rbx,8), %r11
	leaq	(%rdi,%rbx,8), %rbx
	subq	%r9, %rbx
	addq	$-64, %rbx
	leaq	(,%r12,4), %r14
	addq	%rbp, %r14
	subq	%r9, %r14
	addq	$-64, %r14
	subq	%r9, %rdi
	addq	$-64, %rdi
	xorl	%r9d, %r9d
	movq	16(%rsp), %r15
.LBB_9ba498_1021:
	pxor	%xmm0, %xmm0
	movdqu	%xmm0, 48(%r15)
	movdqu	%xmm0, 32(%r15)
	movdqu	%xmm0, 16(%r15)
	movdqu	%xmm0, (%r15)
	movdqu	%xmm0, 48(%r15,%rdi)
	movdqu	%xmm0, 32(%r15,%rdi)
	movdqu	%xmm0, 16(%r15,%rdi)
	movdqu	%xmm0, (%r15,%rdi)
	movdqu	%xmm0, 48(%r15,%rbp)
	movdqu	%xmm0, 32(%r15,%rbp)
	movdqu	%xmm0, 16(%r15,%rbp)
	movdqu	%xmm0, (%r15,%rbp)
	movdqu	%xmm0, 48(%r15,%r14)
	movdqu	%xmm0, 32(%r15,%r14)
	movdqu	%xmm0, 16(%r15,%r14)
	movdqu	%xmm0, (%r15,%r14)
	movdqu	%xmm0, 48(%r15,%r11)
	movdqu	%xmm0, 32(%r15,%r11)
	movdqu	%xmm0, 16(%r15,%r11)
	movdqu	%xmm0, (%r15,%r11)
	movdqu	%xmm0, 48(%r15,%rbx)
	movdqu	%xmm0, 32(%r15,%rbx)
	movdqu	%xmm0, 16(%r15,%rbx)
	movdqu	%xmm0, (%r15,%rbx)
	movdqu	%xmm0, 48(%r15,%rsi)
	movdqu	%xmm0, 32(%r15,%rsi)
	movdqu	%xmm0, 16(%r15,%rsi)
	movdqu	%xmm0, (%r15,%rsi)
	movdqu	%xmm0, 48(%r15,%r8)
	movdqu	%xmm0, 32(%r15,%r8)
	movdqu	%xmm0, 16(%r15,%r8)
	movdqu	%xmm0, (%r15,%r8)
	addq	$4, %r9
	addq	%r10, %r15
	cmpq	%r9, %r13
	jne	.LBB_9ba498_1021
	testq	%rdx, %rdx
	je	.LBB_9ba498_452
.LBB_9ba498_1023:
	shlq	$2, %r12
	cmpq	%rax, %rcx
	cmovbq	%rcx, %rax
	shlq	$2, %rax
	subq	%rax, %r12
	addq	$-64, %r12
	imulq	(%rsp), %r9
	movq	16(%rsp), %rax
	leaq	(%rax,%r9,4), %rax
	negq	%rdx
.LBB_9ba498_1024:
	pxor	%xmm0, %xmm0
	movdqu	%xmm0, 48(%rax)
	movdqu	%xmm0, 32(%rax)
	movdqu	%xmm0, 16(%rax)
	movdqu	%xmm0, (%rax)
	movdqu	%xmm0, 48(%rax,%r12)
	movdqu	%xmm0, 32(%rax,%r12)
	movdqu	%xmm0, 16(%rax,%r12)
	movdqu	%xmm0, (%rax,%r12)
	addq	%rbp, %rax
	incq	%rdx
	jne	.LBB_9ba498_1024
	jmp	.LBB_9ba498_452
.LBB_9ba498_1025:
	andl	$-4, %r12d
	leaq	(,%rbp,2), %rsi
	addq	%rbp, %rsi
	leaq	(,%r13,4), %rdi
	leaq	(%rsi,%r13,4), %r8
	cmpq	%rax, %rcx
	movq	%rax, %r9
	cmovbq	%rcx, %r9
	shlq	$2, %r9
	subq	%r9, %r8
	addq	$-64, %r8
	movq	8(%rsp), %rbx
	movq	%rbx, %r10
	shlq	$4, %r10
	leaq	(,%rbx,8), %r11
	leaq	(%rdi,%rbx,8), %rbx
	subq	%r9, %rbx
	addq	$-64, %rbx
	leaq	(,%r13,4), %r14
	addq	%rbp, %r14
	subq	%r9, %r14
	addq	$-64, %r14
	subq	%r9, %rdi
	addq	$-64, %rdi
	xorl	%r9d, %r9d
	movq	16(%rsp), %r15
.LBB_9ba498_1026:
	pxor	%xmm0, %xmm0
	movdqu	%xmm0, 48(%r15)
	movdqu	%xmm0, 32(%r15)
	movdqu	%xmm0, 16(%r15)
	movdqu	%xmm0, (%r15)
	movdqu	%xmm0, 48(%r15,%rdi)
	movdqu	%xmm0, 32(%r15,%rdi)
	movdqu	%xmm0, 16(%r15,%rdi)
	movdqu	%xmm0, (%r15,%rdi)
	movdqu	%xmm0, 48(%r15,%rbp)
	movdqu	%xmm0, 32(%r15,%rbp)
	movdqu	%xmm0, 16(%r15,%rbp)
	movdqu	%xmm0, (%r15,%rbp)
	movdqu	%xmm0, 48(%r15,%r14)
	movdqu	%xmm0, 32(%r15,%r14)
	movdqu	%xmm0, 16(%r15,%r14)
	movdqu	%xmm0, (%r15,%r14)
	movdqu	%xmm0, 48(%r15,%r11)
	movdqu	%xmm0, 32(%r15,%r11)
	movdqu	%xmm0, 16(%r15,%r11)
	movdqu	%xmm0, (%r15,%r11)
	movdqu	%xmm0, 48(%r15,%rbx)
	movdqu	%xmm0, 32(%r15,%rbx)
	movdqu	%xmm0, 16(%r15,%rbx)
	movdqu	%xmm0, (%r15,%rbx)
	movdqu	%xmm0, 48(%r15,%rsi)
	movdqu	%xmm0, 32(%r15,%rsi)
	movdqu	%xmm0, 16(%r15,%rsi)
	movdqu	%xmm0, (%r15,%rsi)
	movdqu	%xmm0, 48(%r15,%r8)
	movdqu	%xmm0, 32(%r15,%r8)
	movdqu	%xmm0, 16(%r15,%r8)
	movdqu	%xmm0, (%r15,%r8)
	addq	$4, %r9
	addq	%r10, %r15
	cmpq	%r9, %r12
	jne	.LBB_9ba498_1026
	testq	%rdx, %rdx
	je	.LBB_9ba498_452
.LBB_9ba498_1028:
	shlq	$2, %r13
	cmpq	%rax, %rcx
	cmovbq	%rcx, %rax
	shlq	$2, %rax
	subq	%rax, %r13
	addq	$-64, %r13
	imulq	8(%rsp), %r9
	movq	16(%rsp), %rax
	leaq	(%rax,%r9,4), %rax
	negq	%rdx
.LBB_9ba498_1029:
	pxor	%xmm0, %xmm0
	movdqu	%xmm0, 48(%rax)
	movdqu	%xmm0, 32(%rax)
	movdqu	%xmm0, 16(%rax)
	movdqu	%xmm0, (%rax)
	movdqu	%xmm0, 48(%rax,%r13)
	movdqu	%xmm0, 32(%rax,%r13)
	movdqu	%xmm0, 16(%rax,%r13)
	movdqu	%xmm0, (%rax,%r13)
	addq	%rbp, %rax
	incq	%rdx
	jne	.LBB_9ba498_1029
	jmp	.LBB_9ba498_452
.LBB_9ba498_1030:
	andl	$-8, %r12d
	movq	%r12, 8(%rsp)
	movq	32(%rsp), %rax
	shlq	$5, %rax
	movq	%rax, (%rsp)
	xorl	%ebx, %ebx
	movq	16(%rsp), %r12
.LBB_9ba498_1031:
	movq	%r12, %rdi
	xorl	%esi, %esi
	movq	%r15, %rdx
	callq	memset@PLT
	leaq	(%r12,%rbp), %r13
	movq	%r13, %rdi
	xorl	%esi, %esi
	movq	%r15, %rdx
	callq	memset@PLT
	addq	%rbp, %r13
	movq	%r13, %rdi
	xorl	%esi, %esi
	movq	%r15, %rdx
	callq	memset@PLT
	addq	%rbp, %r13
	movq	%r13, %rdi
	xorl	%esi, %esi
	movq	%r15, %rdx
	callq	memset@PLT
	addq	%rbp, %r13
	movq	%r13, %rdi
	xorl	%esi, %esi
	movq	%r15, %rdx
	callq	memset@PLT
	addq	%rbp, %r13
	movq	%r13, %rdi
	xorl	%esi, %esi
	movq	%r15, %rdx
	callq	memset@PLT
	addq	%rbp, %r13
	movq	%r13, %rdi
	xorl	%esi, %esi
	movq	%r15, %rdx
	callq	memset@PLT
	addq	%rbp, %r13
	movq	%r13, %rdi
	xorl	%esi, %esi
	movq	%r15, %rdx
	callq	memset@PLT
	addq	$8, %rbx
	addq	(%rsp), %r12
	cmpq	%rbx, 8(%rsp)
	jne	.LBB_9ba498_1031
	testq	%r14, %r14
	je	.LBB_9ba498_452
.LBB_9ba498_1033:
	imulq	32(%rsp), %rbx
	movq	16(%rsp), %rax
	leaq	(%rax,%rbx,4), %rbx
	negq	%r14
.LBB_9ba498_1034:
	movq	%rbx, %rdi
	xorl	%esi, %esi
	movq	%r15, %rdx
	callq	memset@PLT
	addq	%rbp, %rbx
	incq	%r14
	jne	.LBB_9ba498_1034
	jmp	.LBB_9ba498_452
.LBB_9ba498_1035:
	cmpq	%rax, %rsi
	cmovbq	%rsi, %rax
	movl	%r12d, %ecx
	andl	$7, %ecx
	subq	%r8, %rax
	cmpq	$-8, %rax
	jbe	.LBB_9ba498_1161
	xorl	%eax, %eax
	jmp	.LBB_9ba498_1164
.LBB_9ba498_1037:
	andl	$-4, %r12d
	leaq	(,%rbp,2), %rsi
	addq	%rbp, %rsi
	leaq	(,%r13,4), %rdi
	leaq	(%rsi,%r13,4), %r8
	cmpq	%rax, %rcx
	movq	%rax, %r9
	cmovbq	%rcx, %r9
	shlq	$2, %r9
	subq	%r9, %r8
	addq	$-64, %r8
	movq	32(%rsp), %rbx
	movq	%rbx, %r10
	shlq	$4, %r10
	leaq	(,%rbx,8), %r11
	leaq	(%rdi,%rbx,8), %rbx
	subq	%r9, %rbx
	addq	$-64, %rbx
	leaq	(,%r13,4), %r14
	addq	%rbp, %r14
	subq	%r9, %r14
	addq	$-64, %r14
	subq	%r9, %rdi
	addq	$-64, %rdi
	xorl	%r9d, %r9d
	movq	16(%rsp), %r15
.LBB_9ba498_1038:
	pxor	%xmm0, %xmm0
	movdqu	%xmm0, 48(%r15)
	movdqu	%xmm0, 32(%r15)
	movdqu	%xmm0, 16(%r15)
	movdqu	%xmm0, (%r15)
	movdqu	%xmm0, 48(%r15,%rdi)
	movdqu	%xmm0, 32(%r15,%rdi)
	movdqu	%xmm0, 16(%r15,%rdi)
	movdqu	%xmm0, (%r15,%rdi)
	movdqu	%xmm0, 48(%r15,%rbp)
	movdqu	%xmm0, 32(%r15,%rbp)
	movdqu	%xmm0, 16(%r15,%rbp)
	movdqu	%xmm0, (%r15,%rbp)
	movdqu	%xmm0, 48(%r15,%r14)
	movdqu	%xmm0, 32(%r15,%r14)
	movdqu	%xmm0, 16(%r15,%r14)
	movdqu	%xmm0, (%r15,%r14)
	movdqu	%xmm0, 48(%r15,%r11)
	movdqu	%xmm0, 32(%r15,%r11)
	movdqu	%xmm0, 16(%r15,%r11)
	movdqu	%xmm0, (%r15,%r11)
	movdqu	%xmm0, 48(%r15,%rbx)
	movdqu	%xmm0, 32(%r15,%rbx)
	movdqu	%xmm0, 16(%r15,%rbx)
	movdqu	%xmm0, (%r15,%rbx)
	movdqu	%xmm0, 48(%r15,%rsi)
	movdqu	%xmm0, 32(%r15,%rsi)
	movdqu	%xmm0, 16(%r15,%rsi)
	movdqu	%xmm0, (%r15,%rsi)
	movdqu	%xmm0, 48(%r15,%r8)
	movdqu	%xmm0, 32(%r15,%r8)
	movdqu	%xmm0, 16(%r15,%r8)
	movdqu	%xmm0, (%r15,%r8)
	addq	$4, %r9
	addq	%r10, %r15
	cmpq	%r9, %r12
	jne	.LBB_9ba498_1038
	testq	%rdx, %rdx
	je	.LBB_9ba498_452
.LBB_9ba498_1040:
	shlq	$2, %r13
	cmpq	%rax, %rcx
	cmovbq	%rcx, %rax
	shlq	$2, %rax
	subq	%rax, %r13
	addq	$-64, %r13
	imulq	32(%rsp), %r9
	movq	16(%rsp), %rax
	leaq	(%rax,%r9,4), %rax
	negq	%rdx
.LBB_9ba498_1041:
	pxor	%xmm0, %xmm0
	movdqu	%xmm0, 48(%rax)
	movdqu	%xmm0, 32(%rax)
	movdqu	%xmm0, 16(%rax)
	movdqu	%xmm0, (%rax)
	movdqu	%xmm0, 48(%rax,%r13)
	movdqu	%xmm0, 32(%rax,%r13)
	movdqu	%xmm0, 16(%rax,%r13)
	movdqu	%xmm0, (%rax,%r13)
	addq	%rbp, %rax
	incq	%rdx
	jne	.LBB_9ba498_1041
	jmp	.LBB_9ba498_452
.LBB_9ba498_1042:
	andl	$-8, %r13d
	movq	8(%rsp), %rax
	shlq	$5, %rax
	movq	%rax, 48(%rsp)
	xorl	%ebx, %ebx
	movq	16(%rsp), %r12
	movq	%r13, (%rsp)
.LBB_9ba498_1043:
	movq	%r12, %rdi
	xorl	%esi, %esi
	movq	%r15, %rdx
	callq	memset@PLT
	leaq	(%r12,%r14), %r13
	movq	%r13, %rdi
	xorl	%esi, %esi
	movq	%r15, %rdx
	callq	memset@PLT
	addq	%r14, %r13
	movq	%r13, %rdi
	xorl	%esi, %esi
	movq	%r15, %rdx
	callq	memset@PLT
	addq	%r14, %r13
	movq	%r13, %rdi
	xorl	%esi, %esi
	movq	%r15, %rdx
	callq	memset@PLT
	addq	%r14, %r13
	movq	%r13, %rdi
	xorl	%esi, %esi
	movq	%r15, %rdx
	callq	memset@PLT
	addq	%r14, %r13
	movq	%r13, %rdi
	xorl	%esi, %esi
	movq	%r15, %rdx
	callq	memset@PLT
	addq	%r14, %r13
	movq	%r13, %rdi
	xorl	%esi, %esi
	movq	%r15, %rdx
	callq	memset@PLT
	addq	%r14, %r13
	movq	%r13, %rdi
	movq	(%rsp), %r13
	xorl	%esi, %esi
	movq	%r15, %rdx
	callq	memset@PLT
	addq	$8, %rbx
	addq	48(%rsp), %r12
	cmpq	%rbx, %r13
	jne	.LBB_9ba498_1043
	testq	%rbp, %rbp
	je	.LBB_9ba498_452
.LBB_9ba498_1045:
	imulq	8(%rsp), %rbx
	movq	16(%rsp), %rax
	leaq	(%rax,%rbx,4), %rbx
	negq	%rbp
.LBB_9ba498_1046:
	movq	%rbx, %rdi
	xorl	%esi, %esi
	movq	%r15, %rdx
	callq	memset@PLT
	addq	%r14, %rbx
	incq	%rbp
	jne	.LBB_9ba498_1046
	jmp	.LBB_9ba498_452
.LBB_9ba498_1047:
	cmpq	%rax, %rsi
	cmovbq	%rsi, %rax
	movl	%r13d, %ecx
	andl	$7, %ecx
	subq	%r8, %rax
	cmpq	$-8, %rax
	jbe	.LBB_9ba498_1171
	xorl	%eax, %eax
	jmp	.LBB_9ba498_1174
.LBB_9ba498_1049:
	andl	$-4, %r13d
	leaq	(%r14,%r14,2), %rsi
	leaq	(,%rbp,4), %rdi
	leaq	(%rsi,%rbp,4), %r8
	cmpq	%rax, %rcx
	movq	%rax, %r9
	cmovbq	%rcx, %r9
	shlq	$2, %r9
	subq	%r9, %r8
	addq	$-64, %r8
	movq	8(%rsp), %rbx
	movq	%rbx, %r10
	shlq	$4, %r10
	leaq	(,%rbx,8), %r11
	leaq	(%rdi,%rbx,8), %rbx
	subq	%r9, %rbx
	addq	$-64, %rbx
	leaq	(%r14,%rbp,4), %r15
	subq	%r9, %r15
	addq	$-64, %r15
	subq	%r9, %rdi
	addq	$-64, %rdi
	xorl	%r9d, %r9d
.LBB_9ba498_1050:
	pxor	%xmm0, %xmm0
	movdqu	%xmm0, 48(%r12)
	movdqu	%xmm0, 32(%r12)
	movdqu	%xmm0, 16(%r12)
	movdqu	%xmm0, (%r12)
	movdqu	%xmm0, 48(%r12,%rdi)
	movdqu	%xmm0, 32(%r12,%rdi)
	movdqu	%xmm0, 16(%r12,%rdi)
	movdqu	%xmm0, (%r12,%rdi)
	movdqu	%xmm0, 48(%r12,%r14)
	movdqu	%xmm0, 32(%r12,%r14)
	movdqu	%xmm0, 16(%r12,%r14)
	movdqu	%xmm0, (%r12,%r14)
	movdqu	%xmm0, 48(%r12,%r15)
	movdqu	%xmm0, 32(%r12,%r15)
	movdqu	%xmm0, 16(%r12,%r15)
	movdqu	%xmm0, (%r12,%r15)
	movdqu	%xmm0, 48(%r12,%r11)
	movdqu	%xmm0, 32(%r12,%r11)
	movdqu	%xmm0, 16(%r12,%r11)
	movdqu	%xmm0, (%r12,%r11)
	movdqu	%xmm0, 48(%r12,%rbx)
	movdqu	%xmm0, 32(%r12,%rbx)
	movdqu	%xmm0, 16(%r12,%rbx)
	movdqu	%xmm0, (%r12,%rbx)
	movdqu	%xmm0, 48(%r12,%rsi)
	movdqu	%xmm0, 32(%r12,%rsi)
	movdqu	%xmm0, 16(%r12,%rsi)
	movdqu	%xmm0, (%r12,%rsi)
	movdqu	%xmm0, 48(%r12,%r8)
	movdqu	%xmm0, 32(%r12,%r8)
	movdqu	%xmm0, 16(%r12,%r8)
	movdqu	%xmm0, (%r12,%r8)
	addq	$4, %r9
	addq	%r10, %r12
	cmpq	%r9, %r13
	jne	.LBB_9ba498_1050
	testq	%rdx, %rdx
	je	.LBB_9ba498_452
.LBB_9ba498_1052:
	shlq	$2, %rbp
	cmpq	%rax, %rcx
	cmovbq	%rcx, %rax
	shlq	$2, %rax
	subq	%rax, %rbp
	addq	$-64, %rbp
	imulq	8(%rsp), %r9
	movq	16(%rsp), %rax
	leaq	(%rax,%r9,4), %rax
	negq	%rdx
.LBB_9ba498_1053:
	pxor	%xmm0, %xmm0
	movdqu	%xmm0, 48(%rax)
	movdqu	%xmm0, 32(%rax)
	movdqu	%xmm0, 16(%rax)
	movdqu	%xmm0, (%rax)
	movdqu	%xmm0, 48(%rax,%rbp)
	movdqu	%xmm0, 32(%rax,%rbp)
	movdqu	%xmm0, 16(%rax,%rbp)
	movdqu	%xmm0, (%rax,%rbp)
	addq	%r14, %rax
	incq	%rdx
	jne	.LBB_9ba498_1053
	jmp	.LBB_9ba498_452
.LBB_9ba498_1054:
	andl	$-8, %r13d
	movq	8(%rsp), %rax
	shlq	$5, %rax
	movq	%rax, 48(%rsp)
	xorl	%ebx, %ebx
	movq	16(%rsp), %r12
	movq	%r13, (%rsp)
.LBB_9ba498_1055:
	movq	%r12, %rdi
	xorl	%esi, %esi
	movq	%r15, %rdx
	callq	memset@PLT
	leaq	(%r12,%r14), %r13
	movq	%r13, %rdi
	xorl	%esi, %esi
	movq	%r15, %rdx
	callq	memset@PLT
	addq	%r14, %r13
	movq	%r13, %rdi
	xorl	%esi, %esi
	movq	%r15, %rdx
	callq	memset@PLT
	addq	%r14, %r13
	movq	%r13, %rdi
	xorl	%esi, %esi
	movq	%r15, %rdx
	callq	memset@PLT
	addq	%r14, %r13
	movq	%r13, %rdi
	xorl	%esi, %esi
	movq	%r15, %rdx
	callq	memset@PLT
	addq	%r14, %r13
	movq	%r13, %rdi
	xorl	%esi, %esi
	movq	%r15, %rdx
	callq	memset@PLT
	addq	%r14, %r13
	movq	%r13, %rdi
	xorl	%esi, %esi
	movq	%r15, %rdx
	callq	memset@PLT
	addq	%r14, %r13
	movq	%r13, %rdi
	movq	(%rsp), %r13
	xorl	%esi, %esi
	movq	%r15, %rdx
	callq	memset@PLT
	addq	$8, %rbx
	addq	48(%rsp), %r12
	cmpq	%rbx, %r13
	jne	.LBB_9ba498_1055
	testq	%rbp, %rbp
	je	.LBB_9ba498_452
.LBB_9ba498_1057:
	imulq	8(%rsp), %rbx
	movq	16(%rsp), %rax
	leaq	(%rax,%rbx,4), %rbx
	negq	%rbp
.LBB_9ba498_1058:
	movq	%rbx, %rdi
	xorl	%esi, %esi
	movq	%r15, %rdx
	callq	memset@PLT
	addq	%r14, %rbx
	incq	%rbp
	jne	.LBB_9ba498_1058
	jmp	.LBB_9ba498_452
.LBB_9ba498_1059:
	cmpq	%rax, %rsi
	cmovbq	%rsi, %rax
	movl	%r13d, %ecx
	andl	$7, %ecx
	subq	%r8, %rax
	cmpq	$-8, %rax
	jbe	.LBB_9ba498_1181
	xorl	%eax, %eax
	jmp	.LBB_9ba498_1184
.LBB_9ba498_1061:
	andl	$-4, %r13d
	leaq	(%r14,%r14,2), %rsi
	leaq	(,%rbp,4), %rdi
	leaq	(%rsi,%rbp,4), %r8
	cmpq	%rax, %rcx
	movq	%rax, %r9
	cmovbq	%rcx, %r9
	shlq	$2, %r9
	subq	%r9, %r8
	addq	$-64, %r8
	movq	8(%rsp), %rbx
	movq	%rbx, %r10
	shlq	$4, %r10
	leaq	(,%rbx,8), %r11
	leaq	(%rdi,%rbx,8), %rbx
	subq	%r9, %rbx
	addq	$-64, %rbx
	leaq	(%r14,%rbp,4), %r15
	subq	%r9, %r15
	addq	$-64, %r15
	subq	%r9, %rdi
	addq	$-64, %rdi
	xorl	%r9d, %r9d
.LBB_9ba498_1062:
	pxor	%xmm0, %xmm0
	movdqu	%xmm0, 48(%r12)
	movdqu	%xmm0, 32(%r12)
	movdqu	%xmm0, 16(%r12)
	movdqu	%xmm0, (%r12)
	movdqu	%xmm0, 48(%r12,%rdi)
	movdqu	%xmm0, 32(%r12,%rdi)
	movdqu	%xmm0, 16(%r12,%rdi)
	movdqu	%xmm0, (%r12,%rdi)
	movdqu	%xmm0, 48(%r12,%r14)
	movdqu	%xmm0, 32(%r12,%r14)
	movdqu	%xmm0, 16(%r12,%r14)
	movdqu	%xmm0, (%r12,%r14)
	movdqu	%xmm0, 48(%r12,%r15)
	movdqu	%xmm0, 32(%r12,%r15)
	movdqu	%xmm0, 16(%r12,%r15)
	movdqu	%xmm0, (%r12,%r15)
	movdqu	%xmm0, 48(%r12,%r11)
	movdqu	%xmm0, 32(%r12,%r11)
	movdqu	%xmm0, 16(%r12,%r11)
	movdqu	%xmm0, (%r12,%r11)
	movdqu	%xmm0, 48(%r12,%rbx)
	movdqu	%xmm0, 32(%r12,%rbx)
	movdqu	%xmm0, 16(%r12,%rbx)
	movdqu	%xmm0, (%r12,%rbx)
	movdqu	%xmm0, 48(%r12,%rsi)
	movdqu	%xmm0, 32(%r12,%rsi)
	movdqu	%xmm0, 16(%r12,%rsi)
	movdqu	%xmm0, (%r12,%rsi)
	movdqu	%xmm0, 48(%r12,%r8)
	movdqu	%xmm0, 32(%r12,%r8)
	movdqu	%xmm0, 16(%r12,%r8)
	movdqu	%xmm0, (%r12,%r8)
	addq	$4, %r9
	addq	%r10, %r12
	cmpq	%r9, %r13
	jne	.LBB_9ba498_1062
	testq	%rdx, %rdx
	je	.LBB_9ba498_452
.LBB_9ba498_1064:
	shlq	$2, %rbp
	cmpq	%rax, %rcx
	cmovbq	%rcx, %rax
	shlq	$2, %rax
	subq	%rax, %rbp
	addq	$-64, %rbp
	imulq	8(%rsp), %r9
	movq	16(%rsp), %rax
	leaq	(%rax,%r9,4), %rax
	negq	%rdx
.LBB_9ba498_1065:
	pxor	%xmm0, %xmm0
	movdqu	%xmm0, 48(%rax)
	movdqu	%xmm0, 32(%rax)
	movdqu	%xmm0, 16(%rax)
	movdqu	%xmm0, (%rax)
	movdqu	%xmm0, 48(%rax,%rbp)
	movdqu	%xmm0, 32(%rax,%rbp)
	movdqu	%xmm0, 16(%rax,%rbp)
	movdqu	%xmm0, (%rax,%rbp)
	addq	%r14, %rax
	incq	%rdx
	jne	.LBB_9ba498_1065
	jmp	.LBB_9ba498_452
.LBB_9ba498_1066:
	andl	$-4, %r14d
	leaq	(,%rbp,2), %rsi
	addq	%rbp, %rsi
	leaq	(,%r13,4), %rdi
	leaq	(%rsi,%r13,4), %r8
	cmpq	%rax, %rcx
	movq	%rax, %r9
	cmovbq	%rcx, %r9
	shlq	$2, %r9
	subq	%r9, %r8
	addq	$-32, %r8
	movq	32(%rsp), %rbx
	movq	%rbx, %r10
	shlq	$4, %r10
	leaq	(,%rbx,8), %rsi
	movq	%rsi, (%rsp)
	leaq	(%rdi,%rbx,8), %rbx
	subq	%r9, %rbx
	addq	$-32, %rbx
	movq	%r14, %rsi
	leaq	(,%r13,4), %r14
	addq	%rbp, %r14
	subq	%r9, %r14
	addq	$-32, %r14
	subq	%r9, %rdi
	addq	$-32, %rdi
	xorl	%r9d, %r9d
	movq	%r12, %r15
.LBB_9ba498_1067:
	pxor	%xmm0, %xmm0
	movdqu	%xmm0, 16(%r15)
	movdqu	%xmm0, (%r15)
	movdqu	%xmm0, 16(%r15,%rdi)
	movdqu	%xmm0, (%r15,%rdi)
	movdqu	%xmm0, 16(%r15,%rbp)
	movdqu	%xmm0, (%r15,%rbp)
	movdqu	%xmm0, 16(%r15,%r14)
	movdqu	%xmm0, (%r15,%r14)
	movq	(%rsp), %r11
	movdqu	%xmm0, 16(%r15,%r11)
	movdqu	%xmm0, (%r15,%r11)
	movdqu	%xmm0, 16(%r15,%rbx)
	movdqu	%xmm0, (%r15,%rbx)
	leaq	(%rbp,%rbp,2), %r11
	movdqu	%xmm0, 16(%r15,%r11)
	movdqu	%xmm0, (%r15,%r11)
	movdqu	%xmm0, 16(%r15,%r8)
	movdqu	%xmm0, (%r15,%r8)
	addq	$4, %r9
	addq	%r10, %r15
	cmpq	%r9, %rsi
	jne	.LBB_9ba498_1067
	testq	%rdx, %rdx
	je	.LBB_9ba498_452
.LBB_9ba498_1069:
	shlq	$2, %r13
	cmpq	%rax, %rcx
	cmovbq	%rcx, %rax
	shlq	$2, %rax
	subq	%rax, %r13
	addq	$-32, %r13
	imulq	32(%rsp), %r9
	leaq	(%r12,%r9,4), %rax
	negq	%rdx
.LBB_9ba498_1070:
	pxor	%xmm0, %xmm0
	movdqu	%xmm0, 16(%rax)
	movdqu	%xmm0, (%rax)
	movdqu	%xmm0, 16(%rax,%r13)
	movdqu	%xmm0, (%rax,%r13)
	addq	%rbp, %rax
	incq	%rdx
	jne	.LBB_9ba498_1070
	jmp	.LBB_9ba498_452
.LBB_9ba498_1071:
	andl	$-8, %r14d
	movq	32(%rsp), %rdx
	shlq	$5, %rdx
	xorl	%eax, %eax
	movq	%r12, %rsi
.LBB_9ba498_1072:
	pxor	%xmm0, %xmm0
	movdqu	%xmm0, 16(%rsi)
	movdqu	%xmm0, (%rsi)
	leaq	(%rsi,%rbp), %rdi
	movdqu	%xmm0, 16(%rsi,%rbp)
	movdqu	%xmm0, (%rsi,%rbp)
	leaq	(%rdi,%rbp), %r8
	movdqu	%xmm0, 16(%rbp,%rdi)
	movdqu	%xmm0, (%rbp,%rdi)
	leaq	(%r8,%rbp), %rdi
	movdqu	%xmm0, 16(%rbp,%r8)
	movdqu	%xmm0, (%rbp,%r8)
	leaq	(%rdi,%rbp), %r8
	movdqu	%xmm0, 16(%rbp,%rdi)
	movdqu	%xmm0, (%rbp,%rdi)
	leaq	(%r8,%rbp), %rdi
	movdqu	%xmm0, 16(%rbp,%r8)
	movdqu	%xmm0, (%rbp,%r8)
	leaq	(%rdi,%rbp), %r8
	movdqu	%xmm0, 16(%rbp,%rdi)
	movdqu	%xmm0, (%rbp,%rdi)
	movdqu	%xmm0, 16(%rbp,%r8)
	movdqu	%xmm0, (%rbp,%r8)
	addq	$8, %rax
	addq	%rdx, %rsi
	cmpq	%rax, %r14
	jne	.LBB_9ba498_1072
	testq	%rcx, %rcx
	je	.LBB_9ba498_452
.LBB_9ba498_1074:
	imulq	32(%rsp), %rax
	leaq	(%r12,%rax,4), %rax
	negq	%rcx
.LBB_9ba498_1075:
	pxor	%xmm0, %xmm0
	movdqu	%xmm0, 16(%rax)
	movdqu	%xmm0, (%rax)
	addq	%rbp, %rax
	incq	%rcx
	jne	.LBB_9ba498_1075
	jmp	.LBB_9ba498_452
.LBB_9ba498_1076:
	movq	%r9, %r15
	andl	$-4, %r12d
	leaq	(,%rbp,2), %rsi
	addq	%rbp, %rsi
	leaq	(,%r13,4), %rdi
	leaq	(%rsi,%r13,4), %r8
	cmpq	%rax, %rcx
	movq	%rax, %r9
	cmovbq	%rcx, %r9
	shlq	$2, %r9
	subq	%r9, %r8
	addq	$-32, %r8
	movq	8(%rsp), %rbx
	movq	%rbx, %r10
	shlq	$4, %r10
	leaq	(,%rbx,8), %r11
	leaq	(%rdi,%rbx,8), %rbx
	subq	%r9, %rbx
	addq	$-32, %rbx
	leaq	(,%r13,4), %r14
	addq	%rbp, %r14
	subq	%r9, %r14
	addq	$-32, %r14
	subq	%r9, %rdi
	addq	$-32, %rdi
	xorl	%r9d, %r9d
.LBB_9ba498_1077:
	pxor	%xmm0, %xmm0
	movdqu	%xmm0, 16(%r15)
	movdqu	%xmm0, (%r15)
	movdqu	%xmm0, 16(%r15,%rdi)
	movdqu	%xmm0, (%r15,%rdi)
	movdqu	%xmm0, 16(%r15,%rbp)
	movdqu	%xmm0, (%r15,%rbp)
	movdqu	%xmm0, 16(%r15,%r14)
	movdqu	%xmm0, (%r15,%r14)
	movdqu	%xmm0, 16(%r15,%r11)
	movdqu	%xmm0, (%r15,%r11)
	movdqu	%xmm0, 16(%r15,%rbx)
	movdqu	%xmm0, (%r15,%rbx)
	movdqu	%xmm0, 16(%r15,%rsi)
	movdqu	%xmm0, (%r15,%rsi)
	movdqu	%xmm0, 16(%r15,%r8)
	movdqu	%xmm0, (%r15,%r8)
	addq	$4, %r9
	addq	%r10, %r15
	cmpq	%r9, %r12
	jne	.LBB_9ba498_1077
	testq	%rdx, %rdx
	je	.LBB_9ba498_452
.LBB_9ba498_1079:
	shlq	$2, %r13
	cmpq	%rax, %rcx
	cmovbq	%rcx, %rax
	shlq	$2, %rax
	subq	%rax, %r13
	addq	$-32, %r13
	imulq	8(%rsp), %r9
	movq	16(%rsp), %rax
	leaq	(%rax,%r9,4), %rax
	negq	%rdx
.LBB_9ba498_1080:
	pxor	%xmm0, %xmm0
	movdqu	%xmm0, 16(%rax)
	movdqu	%xmm0, (%rax)
	movdqu	%xmm0, 16(%rax,%r13)
	movdqu	%xmm0, (%rax,%r13)
	addq	%rbp, %rax
	incq	%rdx
	jne	.LBB_9ba498_1080
	jmp	.LBB_9ba498_452
.LBB_9ba498_1081:
	andl	$-8, %r12d
	movq	8(%rsp), %rdx
	shlq	$5, %rdx
	xorl	%eax, %eax
	movq	%r9, %rsi
.LBB_9ba498_1082:
	pxor	%xmm0, %xmm0
	movdqu	%xmm0, 16(%rsi)
	movdqu	%xmm0, (%rsi)
	leaq	(%rsi,%rbp), %rdi
	movdqu	%xmm0, 16(%rsi,%rbp)
	movdqu	%xmm0, (%rsi,%rbp)
	leaq	(%rdi,%rbp), %r8
	movdqu	%xmm0, 16(%rbp,%rdi)
	movdqu	%xmm0, (%rbp,%rdi)
	leaq	(%r8,%rbp), %rdi
	movdqu	%xmm0, 16(%rbp,%r8)
	movdqu	%xmm0, (%rbp,%r8)
	leaq	(%rdi,%rbp), %r8
	movdqu	%xmm0, 16(%rbp,%rdi)
	movdqu	%xmm0, (%rbp,%rdi)
	leaq	(%r8,%rbp), %rdi
	movdqu	%xmm0, 16(%rbp,%r8)
	movdqu	%xmm0, (%rbp,%r8)
	leaq	(%rdi,%rbp), %r8
	movdqu	%xmm0, 16(%rbp,%rdi)
	movdqu	%xmm0, (%rbp,%rdi)
	movdqu	%xmm0, 16(%rbp,%r8)
	movdqu	%xmm0, (%rbp,%r8)
	addq	$8, %rax
	addq	%rdx, %rsi
	cmpq	%rax, %r12
	jne	.LBB_9ba498_1082
	testq	%rcx, %rcx
	je	.LBB_9ba498_452
.LBB_9ba498_1084:
	imulq	8(%rsp), %rax
	movq	16(%rsp), %rdx
	leaq	(%rdx,%rax,4), %rax
	negq	%rcx
.LBB_9ba498_1085:
	pxor	%xmm0, %xmm0
	movdqu	%xmm0, 16(%rax)
	movdqu	%xmm0, (%rax)
	addq	%rbp, %rax
	incq	%rcx
	jne	.LBB_9ba498_1085
	jmp	.LBB_9ba498_452
.LBB_9ba498_1086:
	andl	$-4, %r13d
	leaq	(%r14,%r14,2), %rsi
	leaq	(,%rbp,4), %rdi
	leaq	(%rsi,%rbp,4), %r8
	cmpq	%rax, %rcx
	movq	%rax, %r9
	cmovbq	%rcx, %r9
	shlq	$2, %r9
	subq	%r9, %r8
	addq	$-32, %r8
	movq	8(%rsp), %rbx
	movq	%rbx, %r10
	shlq	$4, %r10
	leaq	(,%rbx,8), %r11
	leaq	(%rdi,%rbx,8), %rbx
	subq	%r9, %rbx
	addq	$-32, %rbx
	leaq	(%r14,%rbp,4), %r15
	subq	%r9, %r15
	addq	$-32, %r15
	subq	%r9, %rdi
	addq	$-32, %rdi
	xorl	%r9d, %r9d
.LBB_9ba498_1087:
	pxor	%xmm0, %xmm0
	movdqu	%xmm0, 16(%r12)
	movdqu	%xmm0, (%r12)
	movdqu	%xmm0, 16(%r12,%rdi)
	movdqu	%xmm0, (%r12,%rdi)
	movdqu	%xmm0, 16(%r12,%r14)
	movdqu	%xmm0, (%r12,%r14)
	movdqu	%xmm0, 16(%r12,%r15)
	movdqu	%xmm0, (%r12,%r15)
	movdqu	%xmm0, 16(%r12,%r11)
	movdqu	%xmm0, (%r12,%r11)
	movdqu	%xmm0, 16(%r12,%rbx)
	movdqu	%xmm0, (%r12,%rbx)
	movdqu	%xmm0, 16(%r12,%rsi)
	movdqu	%xmm0, (%r12,%rsi)
	movdqu	%xmm0, 16(%r12,%r8)
	movdqu	%xmm0, (%r12,%r8)
	addq	$4, %r9
	addq	%r10, %r12
	cmpq	%r9, %r13
	jne	.LBB_9ba498_1087
	testq	%rdx, %rdx
	je	.LBB_9ba498_452
.LBB_9ba498_1089:
	shlq	$2, %rbp
	cmpq	%rax, %rcx
	cmovbq	%rcx, %rax
	shlq	$2, %rax
	subq	%rax, %rbp
	addq	$-32, %rbp
	imulq	8(%rsp), %r9
	movq	16(%rsp), %rax
	leaq	(%rax,%r9,4), %rax
	negq	%rdx
.LBB_9ba498_1090:
	pxor	%xmm0, %xmm0
	movdqu	%xmm0, 16(%rax)
	movdqu	%xmm0, (%rax)
	movdqu	%xmm0, 16(%rax,%rbp)
	movdqu	%xmm0, (%rax,%rbp)
	addq	%r14, %rax
	incq	%rdx
	jne	.LBB_9ba498_1090
	jmp	.LBB_9ba498_452
.LBB_9ba498_1091:
	andl	$-8, %r13d
	movq	8(%rsp), %rdx
	shlq	$5, %rdx
	xorl	%eax, %eax
	movq	%r12, %rsi
.LBB_9ba498_1092:
	pxor	%xmm0, %xmm0
	movdqu	%xmm0, 16(%rsi)
	movdqu	%xmm0, (%rsi)
	leaq	(%rsi,%r14), %rdi
	movdqu	%xmm0, 16(%rsi,%r14)
	movdqu	%xmm0, (%rsi,%r14)
	leaq	(%rdi,%r14), %r8
	movdqu	%xmm0, 16(%r14,%rdi)
	movdqu	%xmm0, (%r14,%rdi)
	leaq	(%r8,%r14), %rdi
	movdqu	%xmm0, 16(%r14,%r8)
	movdqu	%xmm0, (%r14,%r8)
	leaq	(%rdi,%r14), %r8
	movdqu	%xmm0, 16(%r14,%rdi)
	movdqu	%xmm0, (%r14,%rdi)
	leaq	(%r8,%r14), %rdi
	movdqu	%xmm0, 16(%r14,%r8)
	movdqu	%xmm0, (%r14,%r8)
	leaq	(%rdi,%r14), %r8
	movdqu	%xmm0, 16(%r14,%rdi)
	movdqu	%xmm0, (%r14,%rdi)
	movdqu	%xmm0, 16(%r14,%r8)
	movdqu	%xmm0, (%r14,%r8)
	addq	$8, %rax
	addq	%rdx, %rsi
	cmpq	%rax, %r13
	jne	.LBB_9ba498_1092
	testq	%rcx, %rcx
	je	.LBB_9ba498_452
.LBB_9ba498_1094:
	imulq	8(%rsp), %rax
	movq	16(%rsp), %rdx
	leaq	(%rdx,%rax,4), %rax
	negq	%rcx
.LBB_9ba498_1095:
	pxor	%xmm0, %xmm0
	movdqu	%xmm0, 16(%rax)
	movdqu	%xmm0, (%rax)
	addq	%r14, %rax
	incq	%rcx
	jne	.LBB_9ba498_1095
	jmp	.LBB_9ba498_452
.LBB_9ba498_1096:
	andl	$-4, %r14d
	leaq	(,%rbp,2), %rsi
	addq	%rbp, %rsi
	leaq	(,%r13,4), %rdi
	leaq	(%rsi,%r13,4), %r8
	cmpq	%rax, %rcx
	movq	%rax, %r9
	cmovbq	%rcx, %r9
	shlq	$2, %r9
	subq	%r9, %r8
	addq	$-32, %r8
	movq	8(%rsp), %rbx
	movq	%rbx, %r10
	shlq	$4, %r10
	leaq	(,%rbx,8), %rsi
	movq	%rsi, (%rsp)
	leaq	(%rdi,%rbx,8), %rbx
	subq	%r9, %rbx
	addq	$-32, %rbx
	movq	%r14, %rsi
	leaq	(,%r13,4), %r14
	addq	%rbp, %r14
	subq	%r9, %r14
	addq	$-32, %r14
	subq	%r9, %rdi
	addq	$-32, %rdi
	xorl	%r9d, %r9d
	movq	%r12, %r15
.LBB_9ba498_1097:
	pxor	%xmm0, %xmm0
	movdqu	%xmm0, 16(%r15)
	movdqu	%xmm0, (%r15)
	movdqu	%xmm0, 16(%r15,%rdi)
	movdqu	%xmm0, (%r15,%rdi)
	movdqu	%xmm0, 16(%r15,%rbp)
	movdqu	%xmm0, (%r15,%rbp)
	movdqu	%xmm0, 16(%r15,%r14)
	movdqu	%xmm0, (%r15,%r14)
	movq	(%rsp), %r11
	movdqu	%xmm0, 16(%r15,%r11)
	movdqu	%xmm0, (%r15,%r11)
	movdqu	%xmm0, 16(%r15,%rbx)
	movdqu	%xmm0, (%r15,%rbx)
	leaq	(%rbp,%rbp,2), %r11
	movdqu	%xmm0, 16(%r15,%r11)
	movdqu	%xmm0, (%r15,%r11)
	movdqu	%xmm0, 16(%r15,%r8)
	movdqu	%xmm0, (%r15,%r8)
	addq	$4, %r9
	addq	%r10, %r15
	cmpq	%r9, %rsi
	jne	.LBB_9ba498_1097
	testq	%rdx, %rdx
	je	.LBB_9ba498_452
.LBB_9ba498_1099:
	shlq	$2, %r13
	cmpq	%rax, %rcx
	cmovbq	%rcx, %rax
	shlq	$2, %rax
	subq	%rax, %r13
	addq	$-32, %r13
	imulq	8(%rsp), %r9
	leaq	(%r12,%r9,4), %rax
	negq	%rdx
.LBB_9ba498_1100:
	pxor	%xmm0, %xmm0
	movdqu	%xmm0, 16(%rax)
	movdqu	%xmm0, (%rax)
	movdqu	%xmm0, 16(%rax,%r13)
	movdqu	%xmm0, (%rax,%r13)
	addq	%rbp, %rax
	incq	%rdx
	jne	.LBB_9ba498_1100
	jmp	.LBB_9ba498_452
.LBB_9ba498_1101:
	andl	$-8, %r14d
	movq	8(%rsp), %rdx
	shlq	$5, %rdx
	xorl	%eax, %eax
	movq	%r12, %rsi
.LBB_9ba498_1102:
	pxor	%xmm0, %xmm0
	movdqu	%xmm0, 16(%rsi)
	movdqu	%xmm0, (%rsi)
	leaq	(%rsi,%rbp), %rdi
	movdqu	%xmm0, 16(%rsi,%rbp)
	movdqu	%xmm0, (%rsi,%rbp)
	leaq	(%rdi,%rbp), %r8
	movdqu	%xmm0, 16(%rbp,%rdi)
	movdqu	%xmm0, (%rbp,%rdi)
	leaq	(%r8,%rbp), %rdi
	movdqu	%xmm0, 16(%rbp,%r8)
	movdqu	%xmm0, (%rbp,%r8)
	leaq	(%rdi,%rbp), %r8
	movdqu	%xmm0, 16(%rbp,%rdi)
	movdqu	%xmm0, (%rbp,%rdi)
	leaq	(%r8,%rbp), %rdi
	movdqu	%xmm0, 16(%rbp,%r8)
	movdqu	%xmm0, (%rbp,%r8)
	leaq	(%rdi,%rbp), %r8
	movdqu	%xmm0, 16(%rbp,%rdi)
	movdqu	%xmm0, (%rbp,%rdi)
	movdqu	%xmm0, 16(%rbp,%r8)
	movdqu	%xmm0, (%rbp,%r8)
	addq	$8, %rax
	addq	%rdx, %rsi
	cmpq	%rax, %r14
	jne	.LBB_9ba498_1102
	testq	%rcx, %rcx
	je	.LBB_9ba498_452
.LBB_9ba498_1104:
	imulq	8(%rsp), %rax
	leaq	(%r12,%rax,4), %rax
	negq	%rcx
.LBB_9ba498_1105:
	pxor	%xmm0, %xmm0
	movdqu	%xmm0, 16(%rax)
	movdqu	%xmm0, (%rax)
	addq	%rbp, %rax
	incq	%rcx
	jne	.LBB_9ba498_1105
	jmp	.LBB_9ba498_452
.LBB_9ba498_1106:
	andl	$-4, %r8d
	leaq	(,%rbp,2), %rsi
	addq	%rbp, %rsi
	leaq	(,%r13,4), %rdi
	movq	%r8, %r12
	leaq	(%rsi,%r13,4), %r8
	cmpq	%rax, %rcx
	movq	%rax, %r9
	cmovbq	%rcx, %r9
	shlq	$2, %r9
	subq	%r9, %r8
	addq	$-32, %r8
	movq	(%rsp), %rbx
	movq	%rbx, %r10
	shlq	$4, %r10
	leaq	(,%rbx,8), %r11
	leaq	(%rdi,%rbx,8), %rbx
	subq	%r9, %rbx
	addq	$-32, %rbx
	leaq	(,%r13,4), %r14
	addq	%rbp, %r14
	subq	%r9, %r14
	addq	$-32, %r14
	subq	%r9, %rdi
	addq	$-32, %rdi
	xorl	%r9d, %r9d
	movq	16(%rsp), %r15
.LBB_9ba498_1107:
	pxor	%xmm0, %xmm0
	movdqu	%xmm0, 16(%r15)
	movdqu	%xmm0, (%r15)
	movdqu	%xmm0, 16(%r15,%rdi)
	movdqu	%xmm0, (%r15,%rdi)
	movdqu	%xmm0, 16(%r15,%rbp)
	movdqu	%xmm0, (%r15,%rbp)
	movdqu	%xmm0, 16(%r15,%r14)
	movdqu	%xmm0, (%r15,%r14)
	movdqu	%xmm0, 16(%r15,%r11)
	movdqu	%xmm0, (%r15,%r11)
	movdqu	%xmm0, 16(%r15,%rbx)
	movdqu	%xmm0, (%r15,%rbx)
	movdqu	%xmm0, 16(%r15,%rsi)
	movdqu	%xmm0, (%r15,%rsi)
	movdqu	%xmm0, 16(%r15,%r8)
	movdqu	%xmm0, (%r15,%r8)
	addq	$4, %r9
	addq	%r10, %r15
	cmpq	%r9, %r12
	jne	.LBB_9ba498_1107
	testq	%rdx, %rdx
	je	.LBB_9ba498_452
.LBB_9ba498_1109:
	shlq	$2, %r13
	cmpq	%rax, %rcx
	cmovbq	%rcx, %rax
	shlq	$2, %rax
	subq	%rax, %r13
	addq	$-32, %r13
	imulq	(%rsp), %r9
	movq	16(%rsp), %rax
	leaq	(%rax,%r9,4), %rax
	negq	%rdx
.LBB_9ba498_1110:
	pxor	%xmm0, %xmm0
	movdqu	%xmm0, 16(%rax)
	movdqu	%xmm0, (%rax)
	movdqu	%xmm0, 16(%rax,%r13)
	movdqu	%xmm0, (%rax,%r13)
	addq	%rbp, %rax
	incq	%rdx
	jne	.LBB_9ba498_1110
	jmp	.LBB_9ba498_452
.LBB_9ba498_1111:
	andl	$-8, %edi
	movq	(%rsp), %rdx
	shlq	$5, %rdx
	xorl	%eax, %eax
	movq	16(%rsp), %rsi
	movq	%rdi, %r9
.LBB_9ba498_1112:
	pxor	%xmm0, %xmm0
	movdqu	%xmm0, 16(%rsi)
	movdqu	%xmm0, (%rsi)
	leaq	(%rsi,%rbp), %rdi
	movdqu	%xmm0, 16(%rsi,%rbp)
	movdqu	%xmm0, (%rsi,%rbp)
	leaq	(%rdi,%rbp), %r8
	movdqu	%xmm0, 16(%rbp,%rdi)
	movdqu	%xmm0, (%rbp,%rdi)
	leaq	(%r8,%rbp), %rdi
	movdqu	%xmm0, 16(%rbp,%r8)
	movdqu	%xmm0, (%rbp,%r8)
	leaq	(%rdi,%rbp), %r8
	movdqu	%xmm0, 16(%rbp,%rdi)
	movdqu	%xmm0, (%rbp,%rdi)
	leaq	(%r8,%rbp), %rdi
	movdqu	%xmm0, 16(%rbp,%r8)
	movdqu	%xmm0, (%rbp,%r8)
	leaq	(%rdi,%rbp), %r8
	movdqu	%xmm0, 16(%rbp,%rdi)
	movdqu	%xmm0, (%rbp,%rdi)
	movdqu	%xmm0, 16(%rbp,%r8)
	movdqu	%xmm0, (%rbp,%r8)
	addq	$8, %rax
	addq	%rdx, %rsi
	cmpq	%rax, %r9
	jne	.LBB_9ba498_1112
	testq	%rcx, %rcx
	je	.LBB_9ba498_452
.LBB_9ba498_1114:
	imulq	(%rsp), %rax
	movq	16(%rsp), %rdx
	leaq	(%rdx,%rax,4), %rax
	negq	%rcx
.LBB_9ba498_1115:
	pxor	%xmm0, %xmm0
	movdqu	%xmm0, 16(%rax)
	movdqu	%xmm0, (%rax)
	addq	%rbp, %rax
	incq	%rcx
	jne	.LBB_9ba498_1115
	jmp	.LBB_9ba498_452
.LBB_9ba498_1116:
	movq	%r9, %r15
	andl	$-4, %r12d
	leaq	(,%rbp,2), %rsi
	addq	%rbp, %rsi
	leaq	(,%r13,4), %rdi
	leaq	(%rsi,%r13,4), %r8
	cmpq	%rax, %rcx
	movq	%rax, %r9
	cmovbq	%rcx, %r9
	shlq	$2, %r9
	subq	%r9, %r8
	addq	$-32, %r8
	movq	8(%rsp), %rbx
	movq	%rbx, %r10
	shlq	$4, %r10
	leaq	(,%rbx,8), %r11
	leaq	(%rdi,%rbx,8), %rbx
	subq	%r9, %rbx
	addq	$-32, %rbx
	leaq	(,%r13,4), %r14
	addq	%rbp, %r14
	subq	%r9, %r14
	addq	$-32, %r14
	subq	%r9, %rdi
	addq	$-32, %rdi
	xorl	%r9d, %r9d
.LBB_9ba498_1117:
	pxor	%xmm0, %xmm0
	movdqu	%xmm0, 16(%r15)
	movdqu	%xmm0, (%r15)
	movdqu	%xmm0, 16(%r15,%rdi)
	movdqu	%xmm0, (%r15,%rdi)
	movdqu	%xmm0, 16(%r15,%rbp)
	movdqu	%xmm0, (%r15,%rbp)
	movdqu	%xmm0, 16(%r15,%r14)
	movdqu	%xmm0, (%r15,%r14)
	movdqu	%xmm0, 16(%r15,%r11)
	movdqu	%xmm0, (%r15,%r11)
	movdqu	%xmm0, 16(%r15,%rbx)
	movdqu	%xmm0, (%r15,%rbx)
	movdqu	%xmm0, 16(%r15,%rsi)
	movdqu	%xmm0, (%r15,%rsi)
	movdqu	%xmm0, 16(%r15,%r8)
	movdqu	%xmm0, (%r15,%r8)
	addq	$4, %r9
	addq	%r10, %r15
	cmpq	%r9, %r12
	jne	.LBB_9ba498_1117
	testq	%rdx, %rdx
	je	.LBB_9ba498_452
.LBB_9ba498_1119:
	shlq	$2, %r13
	cmpq	%rax, %rcx
	cmovbq	%rcx, %rax
	shlq	$2, %rax
	subq	%rax, %r13
	addq	$-32, %r13
	imulq	8(%rsp), %r9
	movq	16(%rsp), %rax
	leaq	(%rax,%r9,4), %rax
	negq	%rdx
.LBB_9ba498_1120:
	pxor	%xmm0, %xmm0
	movdqu	%xmm0, 16(%rax)
	movdqu	%xmm0, (%rax)
	movdqu	%xmm0, 16(%rax,%r13)
	movdqu	%xmm0, (%rax,%r13)
	addq	%rbp, %rax
	incq	%rdx
	jne	.LBB_9ba498_1120
	jmp	.LBB_9ba498_452
.LBB_9ba498_1121:
	andl	$-8, %r12d
	movq	8(%rsp), %rdx
	shlq	$5, %rdx
	xorl	%eax, %eax
	movq	%r9, %rsi
.LBB_9ba498_1122:
	pxor	%xmm0, %xmm0
	movdqu	%xmm0, 16(%rsi)
	movdqu	%xmm0, (%rsi)
	leaq	(%rsi,%rbp), %rdi
	movdqu	%xmm0, 16(%rsi,%rbp)
	movdqu	%xmm0, (%rsi,%rbp)
	leaq	(%rdi,%rbp), %r8
	movdqu	%xmm0, 16(%rbp,%rdi)
	movdqu	%xmm0, (%rbp,%rdi)
	leaq	(%r8,%rbp), %rdi
	movdqu	%xmm0, 16(%rbp,%r8)
	movdqu	%xmm0, (%rbp,%r8)
	leaq	(%rdi,%rbp), %r8
	movdqu	%xmm0, 16(%rbp,%rdi)
	movdqu	%xmm0, (%rbp,%rdi)
	leaq	(%r8,%rbp), %rdi
	movdqu	%xmm0, 16(%rbp,%r8)
	movdqu	%xmm0, (%rbp,%r8)
	leaq	(%rdi,%rbp), %r8
	movdqu	%xmm0, 16(%rbp,%rdi)
	movdqu	%xmm0, (%rbp,%rdi)
	movdqu	%xmm0, 16(%rbp,%r8)
	movdqu	%xmm0, (%rbp,%r8)
	addq	$8, %rax
	addq	%rdx, %rsi
	cmpq	%rax, %r12
	jne	.LBB_9ba498_1122
	testq	%rcx, %rcx
	je	.LBB_9ba498_452
.LBB_9ba498_1124:
	imulq	8(%rsp), %rax
	movq	16(%rsp), %rdx
	leaq	(%rdx,%rax,4), %rax
	negq	%rcx
.LBB_9ba498_1125:
	pxor	%xmm0, %xmm0
	movdqu	%xmm0, 16(%rax)
	movdqu	%xmm0, (%rax)
	addq	%rbp, %rax
	incq	%rcx
	jne	.LBB_9ba498_1125
	jmp	.LBB_9ba498_452
.LBB_9ba498_1126:
	andl	$-4, %r14d
	leaq	(,%rbp,2), %rsi
	addq	%rbp, %rsi
	leaq	(,%r13,4), %rdi
	leaq	(%rsi,%r13,4), %r8
	cmpq	%rax, %rcx
	movq	%rax, %r9
	cmovbq	%rcx, %r9
	shlq	$2, %r9
	subq	%r9, %r8
	addq	$-32, %r8
	movq	8(%rsp), %rbx
	movq	%rbx, %r10
	shlq	$4, %r10
	leaq	(,%rbx,8), %rsi
	movq	%rsi, (%rsp)
	leaq	(%rdi,%rbx,8), %rbx
	subq	%r9, %rbx
	addq	$-32, %rbx
	movq	%r14, %rsi
	leaq	(,%r13,4), %r14
	addq	%rbp, %r14
	subq	%r9, %r14
	addq	$-32, %r14
	subq	%r9, %rdi
	addq	$-32, %rdi
	xorl	%r9d, %r9d
	movq	%r12, %r15
.LBB_9ba498_1127:
	pxor	%xmm0, %xmm0
	movdqu	%xmm0, 16(%r15)
	movdqu	%xmm0, (%r15)
	movdqu	%xmm0, 16(%r15,%rdi)
	movdqu	%xmm0, (%r15,%rdi)
	movdqu	%xmm0, 16(%r15,%rbp)
	movdqu	%xmm0, (%r15,%rbp)
	movdqu	%xmm0, 16(%r15,%r14)
	movdqu	%xmm0, (%r15,%r14)
	movq	(%rsp), %r11
	movdqu	%xmm0, 16(%r15,%r11)
	movdqu	%xmm0, (%r15,%r11)
	movdqu	%xmm0, 16(%r15,%rbx)
	movdqu	%xmm0, (%r15,%rbx)
	leaq	(%rbp,%rbp,2), %r11
	movdqu	%xmm0, 16(%r15,%r11)
	movdqu	%xmm0, (%r15,%r11)
	movdqu	%xmm0, 16(%r15,%r8)
	movdqu	%xmm0, (%r15,%r8)
	addq	$4, %r9
	addq	%r10, %r15
	cmpq	%r9, %rsi
	jne	.LBB_9ba498_1127
	testq	%rdx, %rdx
	je	.LBB_9ba498_452
.LBB_9ba498_1129:
	shlq	$2, %r13
	cmpq	%rax, %rcx
	cmovbq	%rcx, %rax
	shlq	$2, %rax
	subq	%rax, %r13
	addq	$-32, %r13
	imulq	8(%rsp), %r9
	leaq	(%r12,%r9,4), %rax
	negq	%rdx
.LBB_9ba498_1130:
	pxor	%xmm0, %xmm0
	movdqu	%xmm0, 16(%rax)
	movdqu	%xmm0, (%rax)
	movdqu	%xmm0, 16(%rax,%r13)
	movdqu	%xmm0, (%rax,%r13)
	addq	%rbp, %rax
	incq	%rdx
	jne	.LBB_9ba498_1130
	jmp	.LBB_9ba498_452
.LBB_9ba498_1131:
	andl	$-8, %r14d
	movq	8(%rsp), %rdx
	shlq	$5, %rdx
	xorl	%eax, %eax
	movq	%r12, %rsi
.LBB_9ba498_1132:
	pxor	%xmm0, %xmm0
	movdqu	%xmm0, 16(%rsi)
	movdqu	%xmm0, (%rsi)
	leaq	(%rsi,%rbp), %rdi
	movdqu	%xmm0, 16(%rsi,%rbp)
	movdqu	%xmm0, (%rsi,%rbp)
	leaq	(%rdi,%rbp), %r8
	movdqu	%xmm0, 16(%rbp,%rdi)
	movdqu	%xmm0, (%rbp,%rdi)
	leaq	(%r8,%rbp), %rdi
	movdqu	%xmm0, 16(%rbp,%r8)
	movdqu	%xmm0, (%rbp,%r8)
	leaq	(%rdi,%rbp), %r8
	movdqu	%xmm0, 16(%rbp,%rdi)
	movdqu	%xmm0, (%rbp,%rdi)
	leaq	(%r8,%rbp), %rdi
	movdqu	%xmm0, 16(%rbp,%r8)
	movdqu	%xmm0, (%rbp,%r8)
	leaq	(%rdi,%rbp), %r8
	movdqu	%xmm0, 16(%rbp,%rdi)
	movdqu	%xmm0, (%rbp,%rdi)
	movdqu	%xmm0, 16(%rbp,%r8)
	movdqu	%xmm0, (%rbp,%r8)
	addq	$8, %rax
	addq	%rdx, %rsi
	cmpq	%rax, %r14
	jne	.LBB_9ba498_1132
	testq	%rcx, %rcx
	je	.LBB_9ba498_452
.LBB_9ba498_1134:
	imulq	8(%rsp), %rax
	leaq	(%r12,%rax,4), %rax
	negq	%rcx
.LBB_9ba498_1135:
	pxor	%xmm0, %xmm0
	movdqu	%xmm0, 16(%rax)
	movdqu	%xmm0, (%rax)
	addq	%rbp, %rax
	incq	%rcx
	jne	.LBB_9ba498_1135
	jmp	.LBB_9ba498_452
.LBB_9ba498_1136:
	andl	$-4, %r8d
	leaq	(,%rbp,2), %rsi
	addq	%rbp, %rsi
	leaq	(,%r12,4), %rdi
	movq	%r8, %r13
	leaq	(%rsi,%r12,4), %r8
	cmpq	%rax, %rcx
	movq	%rax, %r9
	cmovbq	%rcx, %r9
	shlq	$2, %r9
	subq	%r9, %r8
	addq	$-32, %r8
	movq	(%rsp), %rbx
	movq	%rbx, %r10
	shlq	$4, %r10
	leaq	(,%rbx,8), %r11
	leaq	(%rdi,%rbx,8), %rbx
	subq	%r9, %rbx
	addq	$-32, %rbx
	leaq	(,%r12,4), %r14
	addq	%rbp, %r14
	subq	%r9, %r14
	addq	$-32, %r14
	subq	%r9, %rdi
	addq	$-32, %rdi
	xorl	%r9d, %r9d
	movq	16(%rsp), %r15
.LBB_9ba498_1137:
	pxor	%xmm0, %xmm0
	movdqu	%xmm0, 16(%r15)
	movdqu	%xmm0, (%r15)
	movdqu	%xmm0, 16(%r15,%rdi)
	movdqu	%xmm0, (%r15,%rdi)
	movdqu	%xmm0, 16(%r15,%rbp)
	movdqu	%xmm0, (%r15,%rbp)
	movdqu	%xmm0, 16(%r15,%r14)
	movdqu	%xmm0, (%r15,%r14)
	movdqu	%xmm0, 16(%r15,%r11)
	movdqu	%xmm0, (%r15,%r11)
	movdqu	%xmm0, 16(%r15,%rbx)
	movdqu	%xmm0, (%r15,%rbx)
	movdqu	%xmm0, 16(%r15,%rsi)
	movdqu	%xmm0, (%r15,%rsi)
	movdqu	%xmm0, 16(%r15,%r8)
	movdqu	%xmm0, (%r15,%r8)
	addq	$4, %r9
	addq	%r10, %r15
	cmpq	%r9, %r13
	jne	.LBB_9ba498_1137
	testq	%rdx, %rdx
	je	.LBB_9ba498_452
.LBB_9ba498_1139:
	shlq	$2, %r12
	cmpq	%rax, %rcx
	cmovbq	%rcx, %rax
	shlq	$2, %rax
	subq	%rax, %r12
	addq	$-32, %r12
	imulq	(%rsp), %r9
	movq	16(%rsp), %rax
	leaq	(%rax,%r9,4), %rax
	negq	%rdx
.LBB_9ba498_1140:
	pxor	%xmm0, %xmm0
	movdqu	%xmm0, 16(%rax)
	movdqu	%xmm0, (%rax)
	movdqu	%xmm0, 16(%rax,%r12)
	movdqu	%xmm0, (%rax,%r12)
	addq	%rbp, %rax
	incq	%rdx
	jne	.LBB_9ba498_1140
	jmp	.LBB_9ba498_452
.LBB_9ba498_1141:
	andl	$-4, %r12d
	leaq	(,%rbp,2), %rsi
	addq	%rbp, %rsi
	leaq	(,%r13,4), %rdi
	leaq	(%rsi,%r13,4), %r8
	cmpq	%rax, %rcx
	movq	%rax, %r9
	cmovbq	%rcx, %r9
	shlq	$2, %r9
	subq	%r9, %r8
	addq	$-32, %r8
	movq	8(%rsp), %rbx
	movq	%rbx, %r10
	shlq	$4, %r10
	leaq	(,%rbx,8), %r11
	leaq	(%rdi,%rbx,8), %rbx
	subq	%r9, %rbx
	addq	$-32, %rbx
	leaq	(,%r13,4), %r14
	addq	%rbp, %r14
	subq	%r9, %r14
	addq	$-32, %r14
	subq	%r9, %rdi
	addq	$-32, %rdi
	xorl	%r9d, %r9d
.LBB_9ba498_1142:
	pxor	%xmm0, %xmm0
	movdqu	%xmm0, 16(%r15)
	movdqu	%xmm0, (%r15)
	movdqu	%xmm0, 16(%r15,%rdi)
	movdqu	%xmm0, (%r15,%rdi)
	movdqu	%xmm0, 16(%r15,%rbp)
	movdqu	%xmm0, (%r15,%rbp)
	movdqu	%xmm0, 16(%r15,%r14)
	movdqu	%xmm0, (%r15,%r14)
	movdqu	%xmm0, 16(%r15,%r11)
	movdqu	%xmm0, (%r15,%r11)
	movdqu	%xmm0, 16(%r15,%rbx)
	movdqu	%xmm0, (%r15,%rbx)
	movdqu	%xmm0, 16(%r15,%rsi)
	movdqu	%xmm0, (%r15,%rsi)
	movdqu	%xmm0, 16(%r15,%r8)
	movdqu	%xmm0, (%r15,%r8)
	addq	$4, %r9
	addq	%r10, %r15
	cmpq	%r9, %r12
	jne	.LBB_9ba498_1142
	testq	%rdx, %rdx
	je	.LBB_9ba498_452
.LBB_9ba498_1144:
	shlq	$2, %r13
	cmpq	%rax, %rcx
	cmovbq	%rcx, %rax
	shlq	$2, %rax
	subq	%rax, %r13
	addq	$-32, %r13
	imulq	8(%rsp), %r9
	movq	16(%rsp), %rax
	leaq	(%rax,%r9,4), %rax
	negq	%rdx
.LBB_9ba498_1145:
	pxor	%xmm0, %xmm0
	movdqu	%xmm0, 16(%rax)
	movdqu	%xmm0, (%rax)
	movdqu	%xmm0, 16(%rax,%r13)
	movdqu	%xmm0, (%rax,%r13)
	addq	%rbp, %rax
	incq	%rdx
	jne	.LBB_9ba498_1145
	jmp	.LBB_9ba498_452
.LBB_9ba498_1146:
	andl	$-8, %edi
	movq	(%rsp), %rdx
	shlq	$5, %rdx
	xorl	%eax, %eax
	movq	16(%rsp), %rsi
	movq	%rdi, %r9
.LBB_9ba498_1147:
	pxor	%xmm0, %xmm0
	movdqu	%xmm0, 16(%rsi)
	movdqu	%xmm0, (%rsi)
	leaq	(%rsi,%rbp), %rdi
	movdqu	%xmm0, 16(%rsi,%rbp)
	movdqu	%xmm0, (%rsi,%rbp)
	leaq	(%rdi,%rbp), %r8
	movdqu	%xmm0, 16(%rbp,%rdi)
	movdqu	%xmm0, (%rbp,%rdi)
	leaq	(%r8,%rbp), %rdi
	movdqu	%xmm0, 16(%rbp,%r8)
	movdqu	%xmm0, (%rbp,%r8)
	leaq	(%rdi,%rbp), %r8
	movdqu	%xmm0, 16(%rbp,%rdi)
	movdqu	%xmm0, (%rbp,%rdi)
	leaq	(%r8,%rbp), %rdi
	movdqu	%xmm0, 16(%rbp,%r8)
	movdqu	%xmm0, (%rbp,%r8)
	leaq	(%rdi,%rbp), %r8
	movdqu	%xmm0, 16(%rbp,%rdi)
	movdqu	%xmm0, (%rbp,%rdi)
	movdqu	%xmm0, 16(%rbp,%r8)
	movdqu	%xmm0, (%rbp,%r8)
	addq	$8, %rax
	addq	%rdx, %rsi
	cmpq	%rax, %r9
	jne	.LBB_9ba498_1147
	testq	%rcx, %rcx
	je	.LBB_9ba498_452
.LBB_9ba498_1149:
	imulq	(%rsp), %rax
	movq	16(%rsp), %rdx
	leaq	(%rdx,%rax,4), %rax
	negq	%rcx
.LBB_9ba498_1150:
	pxor	%xmm0, %xmm0
	movdqu	%xmm0, 16(%rax)
	movdqu	%xmm0, (%rax)
	addq	%rbp, %rax
	incq	%rcx
	jne	.LBB_9ba498_1150
	jmp	.LBB_9ba498_452
.LBB_9ba498_1151:
	andl	$-8, %r12d
	movq	8(%rsp), %rdx
	shlq	$5, %rdx
	xorl	%eax, %eax
	movq	%r15, %rsi
.LBB_9ba498_1152:
	pxor	%xmm0, %xmm0
	movdqu	%xmm0, 16(%rsi)
	movdqu	%xmm0, (%rsi)
	leaq	(%rsi,%rbp), %rdi
	movdqu	%xmm0, 16(%rsi,%rbp)
	movdqu	%xmm0, (%rsi,%rbp)
	leaq	(%rdi,%rbp), %r8
	movdqu	%xmm0, 16(%rbp,%rdi)
	movdqu	%xmm0, (%rbp,%rdi)
	leaq	(%r8,%rbp), %rdi
	movdqu	%xmm0, 16(%rbp,%r8)
	movdqu	%xmm0, (%rbp,%r8)
	leaq	(%rdi,%rbp), %r8
	movdqu	%xmm0, 16(%rbp,%rdi)
	movdqu	%xmm0, (%rbp,%rdi)
	leaq	(%r8,%rbp), %rdi
	movdqu	%xmm0, 16(%rbp,%r8)
	movdqu	%xmm0, (%rbp,%r8)
	leaq	(%rdi,%rbp), %r8
	movdqu	%xmm0, 16(%rbp,%rdi)
	movdqu	%xmm0, (%rbp,%rdi)
	movdqu	%xmm0, 16(%rbp,%r8)
	movdqu	%xmm0, (%rbp,%r8)
	addq	$8, %rax
	addq	%rdx, %rsi
	cmpq	%rax, %r12
	jne	.LBB_9ba498_1152
	testq	%rcx, %rcx
	je	.LBB_9ba498_452
.LBB_9ba498_1154:
	imulq	8(%rsp), %rax
	movq	16(%rsp), %rdx
	leaq	(%rdx,%rax,4), %rax
	negq	%rcx
.LBB_9ba498_1155:
	pxor	%xmm0, %xmm0
	movdqu	%xmm0, 16(%rax)
	movdqu	%xmm0, (%rax)
	addq	%rbp, %rax
	incq	%rcx
	jne	.LBB_9ba498_1155
	jmp	.LBB_9ba498_452
.LBB_9ba498_1156:
	andl	$-4, %r12d
	leaq	(,%rbp,2), %rsi
	addq	%rbp, %rsi
	leaq	(,%r13,4), %rdi
	leaq	(%rsi,%r13,4), %r8
	cmpq	%rax, %rcx
	movq	%rax, %r9
	cmovbq	%rcx, %r9
	shlq	$2, %r9
	subq	%r9, %r8
	addq	$-32, %r8
	movq	32(%rsp), %rbx
	movq	%rbx, %r10
	shlq	$4, %r10
	leaq	(,%rbx,8), %r11
	leaq	(%rdi,%rbx,8), %rbx
	subq	%r9, %rbx
	addq	$-32, %rbx
	leaq	(,%r13,4), %r14
	addq	%rbp, %r14
	subq	%r9, %r14
	addq	$-32, %r14
	subq	%r9, %rdi
	addq	$-32, %rdi
	xorl	%r9d, %r9d
.LBB_9ba498_1157:
	pxor	%xmm0, %xmm0
	movdqu	%xmm0, 16(%r15)
	movdqu	%xmm0, (%r15)
	movdqu	%xmm0, 16(%r15,%rdi)
	movdqu	%xmm0, (%r15,%rdi)
	movdqu	%xmm0, 16(%r15,%rbp)
	movdqu	%xmm0, (%r15,%rbp)
	movdqu	%xmm0, 16(%r15,%r14)
	movdqu	%xmm0, (%r15,%r14)
	movdqu	%xmm0, 16(%r15,%r11)
	movdqu	%xmm0, (%r15,%r11)
	movdqu	%xmm0, 16(%r15,%rbx)
	movdqu	%xmm0, (%r15,%rbx)
	movdqu	%xmm0, 16(%r15,%rsi)
	movdqu	%xmm0, (%r15,%rsi)
	movdqu	%xmm0, 16(%r15,%r8)
	movdqu	%xmm0, (%r15,%r8)
	addq	$4, %r9
	addq	%r10, %r15
	cmpq	%r9, %r12
	jne	.LBB_9ba498_1157
	testq	%rdx, %rdx
	je	.LBB_9ba498_452
.LBB_9ba498_1159:
	shlq	$2, %r13
	cmpq	%rax, %rcx
	cmovbq	%rcx, %rax
	shlq	$2, %rax
	subq	%rax, %r13
	addq	$-32, %r13
	imulq	32(%rsp), %r9
	movq	16(%rsp), %rax
	leaq	(%rax,%r9,4), %rax
	negq	%rdx
.LBB_9ba498_1160:
	pxor	%xmm0, %xmm0
	movdqu	%xmm0, 16(%rax)
	movdqu	%xmm0, (%rax)
	movdqu	%xmm0, 16(%rax,%r13)
	movdqu	%xmm0, (%rax,%r13)
	addq	%rbp, %rax
	incq	%rdx
	jne	.LBB_9ba498_1160
	jmp	.LBB_9ba498_452
.LBB_9ba498_1161:
	andl	$-8, %r12d
	movq	32(%rsp), %rdx
	shlq	$5, %rdx
	xorl	%eax, %eax
	movq	%r15, %rsi
.LBB_9ba498_1162:
	pxor	%xmm0, %xmm0
	movdqu	%xmm0, 16(%rsi)
	movdqu	%xmm0, (%rsi)
	leaq	(%rsi,%rbp), %rdi
	movdqu	%xmm0, 16(%rsi,%rbp)
	movdqu	%xmm0, (%rsi,%rbp)
	leaq	(%rdi,%rbp), %r8
	movdqu	%xmm0, 16(%rbp,%rdi)
	movdqu	%xmm0, (%rbp,%rdi)
	leaq	(%r8,%rbp), %rdi
	movdqu	%xmm0, 16(%rbp,%r8)
	movdqu	%xmm0, (%rbp,%r8)
	leaq	(%rdi,%rbp), %r8
	movdqu	%xmm0, 16(%rbp,%rdi)
	movdqu	%xmm0, (%rbp,%rdi)
	leaq	(%r8,%rbp), %rdi
	movdqu	%xmm0, 16(%rbp,%r8)
	movdqu	%xmm0, (%rbp,%r8)
	leaq	(%rdi,%rbp), %r8
	movdqu	%xmm0, 16(%rbp,%rdi)
	movdqu	%xmm0, (%rbp,%rdi)
	movdqu	%xmm0, 16(%rbp,%r8)
	movdqu	%xmm0, (%rbp,%r8)
	addq	$8, %rax
	addq	%rdx, %rsi
	cmpq	%rax, %r12
	jne	.LBB_9ba498_1162
	testq	%rcx, %rcx
	je	.LBB_9ba498_452
.LBB_9ba498_1164:
	imulq	32(%rsp), %rax
	movq	16(%rsp), %rdx
	leaq	(%rdx,%rax,4), %rax
	negq	%rcx
.LBB_9ba498_1165:
	pxor	%xmm0, %xmm0
	movdqu	%xmm0, 16(%rax)
	movdqu	%xmm0, (%rax)
	addq	%rbp, %rax
	incq	%rcx
	jne	.LBB_9ba498_1165
	jmp	.LBB_9ba498_452
.LBB_9ba498_1166:
	andl	$-4, %r13d
	leaq	(%r14,%r14,2), %rsi
	leaq	(,%rbp,4), %rdi
	leaq	(%rsi,%rbp,4), %r8
	cmpq	%rax, %rcx
	movq	%rax, %r9
	cmovbq	%rcx, %r9
	shlq	$2, %r9
	subq	%r9, %r8
	addq	$-32, %r8
	movq	8(%rsp), %rbx
	movq	%rbx, %r10
	shlq	$4, %r10
	leaq	(,%rbx,8), %r11
	leaq	(%rdi,%rbx,8), %rbx
	subq	%r9, %rbx
	addq	$-32, %rbx
	leaq	(%r14,%rbp,4), %r15
	subq	%r9, %r15
	addq	$-32, %r15
	subq	%r9, %rdi
	addq	$-32, %rdi
	xorl	%r9d, %r9d
.LBB_9ba498_1167:
	pxor	%xmm0, %xmm0
	movdqu	%xmm0, 16(%r12)
	movdqu	%xmm0, (%r12)
	movdqu	%xmm0, 16(%r12,%rdi)
	movdqu	%xmm0, (%r12,%rdi)
	movdqu	%xmm0, 16(%r12,%r14)
	movdqu	%xmm0, (%r12,%r14)
	movdqu	%xmm0, 16(%r12,%r15)
	movdqu	%xmm0, (%r12,%r15)
	movdqu	%xmm0, 16(%r12,%r11)
	movdqu	%xmm0, (%r12,%r11)
	movdqu	%xmm0, 16(%r12,%rbx)
	movdqu	%xmm0, (%r12,%rbx)
	movdqu	%xmm0, 16(%r12,%rsi)
	movdqu	%xmm0, (%r12,%rsi)
	movdqu	%xmm0, 16(%r12,%r8)
	movdqu	%xmm0, (%r12,%r8)
	addq	$4, %r9
	addq	%r10, %r12
	cmpq	%r9, %r13
	jne	.LBB_9ba498_1167
	testq	%rdx, %rdx
	je	.LBB_9ba498_452
.LBB_9ba498_1169:
	shlq	$2, %rbp
	cmpq	%rax, %rcx
	cmovbq	%rcx, %rax
	shlq	$2, %rax
	subq	%rax, %rbp
	addq	$-32, %rbp
	imulq	8(%rsp), %r9
	movq	16(%rsp), %rax
	leaq	(%rax,%r9,4), %rax
	negq	%rdx
.LBB_9ba498_1170:
	pxor	%xmm0, %xmm0
	movdqu	%xmm0, 16(%rax)
	movdqu	%xmm0, (%rax)
	movdqu	%xmm0, 16(%rax,%rbp)
	movdqu	%xmm0, (%rax,%rbp)
	addq	%r14, %rax
	incq	%rdx
	jne	.LBB_9ba498_1170
	jmp	.LBB_9ba498_452
.LBB_9ba498_1171:
	andl	$-8, %r13d
	movq	8(%rsp), %rdx
	shlq	$5, %rdx
	xorl	%eax, %eax
	movq	%r12, %rsi
.LBB_9ba498_1172:
	pxor	%xmm0, %xmm0
	movdqu	%xmm0, 16(%rsi)
	movdqu	%xmm0, (%rsi)
	leaq	(%rsi,%r14), %rdi
	movdqu	%xmm0, 16(%rsi,%r14)
	movdqu	%xmm0, (%rsi,%r14)
	leaq	(%rdi,%r14), %r8
	movdqu	%xmm0, 16(%r14,%rdi)
	movdqu	%xmm0, (%r14,%rdi)
	leaq	(%r8,%r14), %rdi
	movdqu	%xmm0, 16(%r14,%r8)
	movdqu	%xmm0, (%r14,%r8)
	leaq	(%rdi,%r14), %r8
	movdqu	%xmm0, 16(%r14,%rdi)
	movdqu	%xmm0, (%r14,%rdi)
	leaq	(%r8,%r14), %rdi
	movdqu	%xmm0, 16(%r14,%r8)
	movdqu	%xmm0, (%r14,%r8)
	leaq	(%rdi,%r14), %r8
	movdqu	%xmm0, 16(%r14,%rdi)
	movdqu	%xmm0, (%r14,%rdi)
	movdqu	%xmm0, 16(%r14,%r8)
	movdqu	%xmm0, (%r14,%r8)
	addq	$8, %rax
	addq	%rdx, %rsi
	cmpq	%rax, %r13
	jne	.LBB_9ba498_1172
	testq	%rcx, %rcx
	je	.LBB_9ba498_452
.LBB_9ba498_1174:
	imulq	8(%rsp), %rax
	movq	16(%rsp), %rdx
	leaq	(%rdx,%rax,4), %rax
	negq	%rcx
.LBB_9ba498_1175:
	pxor	%xmm0, %xmm0
	movdqu	%xmm0, 16(%rax)
	movdqu	%xmm0, (%rax)
	addq	%r14, %rax
	incq	%rcx
	jne	.LBB_9ba498_1175
	jmp	.LBB_9ba498_452
.LBB_9ba498_1176:
	andl	$-4, %r13d
	leaq	(%r14,%r14,2), %rsi
	leaq	(,%rbp,4), %rdi
	leaq	(%rsi,%rbp,4), %r8
	cmpq	%rax, %rcx
	movq	%rax, %r9
	cmovbq	%rcx, %r9
	shlq	$2, %r9
	subq	%r9, %r8
	addq	$-32, %r8
	movq	8(%rsp), %rbx
	movq	%rbx, %r10
	shlq	$4, %r10
	leaq	(,%rbx,8), %r11
	leaq	(%rdi,%rbx,8), %rbx
	subq	%r9, %rbx
	addq	$-32, %rbx
	leaq	(%r14,%rbp,4), %r15
	subq	%r9, %r15
	addq	$-32, %r15
	subq	%r9, %rdi
	addq	$-32, %rdi
	xorl	%r9d, %r9d
.LBB_9ba498_1177:
	pxor	%xmm0, %xmm0
	movdqu	%xmm0, 16(%r12)
	movdqu	%xmm0, (%r12)
	movdqu	%xmm0, 16(%r12,%rdi)
	movdqu	%xmm0, (%r12,%rdi)
	movdqu	%xmm0, 16(%r12,%r14)
	movdqu	%xmm0, (%r12,%r14)
	movdqu	%xmm0, 16(%r12,%r15)
	movdqu	%xmm0, (%r12,%r15)
	movdqu	%xmm0, 16(%r12,%r11)
	movdqu	%xmm0, (%r12,%r11)
	movdqu	%xmm0, 16(%r12,%rbx)
	movdqu	%xmm0, (%r12,%rbx)
	movdqu	%xmm0, 16(%r12,%rsi)
	movdqu	%xmm0, (%r12,%rsi)
	movdqu	%xmm0, 16(%r12,%r8)
	movdqu	%xmm0, (%r12,%r8)
	addq	$4, %r9
	addq	%r10, %r12
	cmpq	%r9, %r13
	jne	.LBB_9ba498_1177
	testq	%rdx, %rdx
	je	.LBB_9ba498_452
.LBB_9ba498_1179:
	shlq	$2, %rbp
	cmpq	%rax, %rcx
	cmovbq	%rcx, %rax
	shlq	$2, %rax
	subq	%rax, %rbp
	addq	$-32, %rbp
	imulq	8(%rsp), %r9
	movq	16(%rsp), %rax
	leaq	(%rax,%r9,4), %rax
	negq	%rdx
.LBB_9ba498_1180:
	pxor	%xmm0, %xmm0
	movdqu	%xmm0, 16(%rax)
	movdqu	%xmm0, (%rax)
	movdqu	%xmm0, 16(%rax,%rbp)
	movdqu	%xmm0, (%rax,%rbp)
	addq	%r14, %rax
	incq	%rdx
	jne	.LBB_9ba498_1180
	jmp	.LBB_9ba498_452
.LBB_9ba498_1181:
	andl	$-8, %r13d
	movq	8(%rsp), %rdx
	shlq	$5, %rdx
	xorl	%eax, %eax
	movq	%r12, %rsi
.LBB_9ba498_1182:
	pxor	%xmm0, %xmm0
	movdqu	%xmm0, 16(%rsi)
	movdqu	%xmm0, (%rsi)
	leaq	(%rsi,%r14), %rdi
	movdqu	%xmm0, 16(%rsi,%r14)
	movdqu	%xmm0, (%rsi,%r14)
	leaq	(%rdi,%r14), %r8
	movdqu	%xmm0, 16(%r14,%rdi)
	movdqu	%xmm0, (%r14,%rdi)
	leaq	(%r8,%r14), %rdi
	movdqu	%xmm0, 16(%r14,%r8)
	movdqu	%xmm0, (%r14,%r8)
	leaq	(%rdi,%r14), %r8
	movdqu	%xmm0, 16(%r14,%rdi)
	movdqu	%xmm0, (%r14,%rdi)
	leaq	(%r8,%r14), %rdi
	movdqu	%xmm0, 16(%r14,%r8)
	movdqu	%xmm0, (%r14,%r8)
	leaq	(%rdi,%r14), %r8
	movdqu	%xmm0, 16(%r14,%rdi)
	movdqu	%xmm0, (%r14,%rdi)
	movdqu	%xmm0, 16(%r14,%r8)
	movdqu	%xmm0, (%r14,%r8)
	addq	$8, %rax
	addq	%rdx, %rsi
	cmpq	%rax, %r13
	jne	.LBB_9ba498_1182
	testq	%rcx, %rcx
	je	.LBB_9ba498_452
.LBB_9ba498_1184:
	imulq	8(%rsp), %rax
	movq	16(%rsp), %rdx
	leaq	(%rdx,%rax,4), %rax
	negq	%rcx
.LBB_9ba498_1185:
	pxor	%xmm0, %xmm0
	movdqu	%xmm0, 16(%rax)
	movdqu	%xmm0, (%rax)
	addq	%r14, %rax
	incq	%rcx
	jne	.LBB_9ba498_1185
	jmp	.LBB_9ba498_452
.Lfunc_end_9ba498:
	.size	"pix_ops::ops::Op::visit_slice::<#cb634639e69df956>", .Lfunc_end_9ba498-"pix_ops::ops::Op::visit_slice::<#cb634639e69df956>"
	.section	".rodata.pix_ops::ops::Op::visit_slice::<#cb634639e69df956>","a",@progbits
	.p2align	2, 0x0
.LJTI_9ba498_0:
	.long	.LBB_9ba498_1-.LJTI_9ba498_0
	.long	.LBB_9ba498_46-.LJTI_9ba498_0
	.long	.LBB_9ba498_28-.LJTI_9ba498_0
	.long	.LBB_9ba498_34-.LJTI_9ba498_0
	.long	.LBB_9ba498_10-.LJTI_9ba498_0
	.long	.LBB_9ba498_52-.LJTI_9ba498_0
	.long	.LBB_9ba498_58-.LJTI_9ba498_0
	.long	.LBB_9ba498_40-.LJTI_9ba498_0
	.long	.LBB_9ba498_70-.LJTI_9ba498_0
	.long	.LBB_9ba498_22-.LJTI_9ba498_0
	.long	.LBB_9ba498_64-.LJTI_9ba498_0
	.long	.LBB_9ba498_7-.LJTI_9ba498_0
	.long	.LBB_9ba498_16-.LJTI_9ba498_0
.LJTI_9ba498_1:
	.long	.LBB_9ba498_17-.LJTI_9ba498_1
	.long	.LBB_9ba498_191-.LJTI_9ba498_1
	.long	.LBB_9ba498_101-.LJTI_9ba498_1
	.long	.LBB_9ba498_140-.LJTI_9ba498_1
	.long	.LBB_9ba498_80-.LJTI_9ba498_1
	.long	.LBB_9ba498_272-.LJTI_9ba498_1
	.long	.LBB_9ba498_296-.LJTI_9ba498_1
	.long	.LBB_9ba498_173-.LJTI_9ba498_1
.LJTI_9ba498_2:
	.long	.LBB_9ba498_103-.LJTI_9ba498_2
	.long	.LBB_9ba498_108-.LJTI_9ba498_2
	.long	.LBB_9ba498_82-.LJTI_9ba498_2
	.long	.LBB_9ba498_95-.LJTI_9ba498_2
	.long	.LBB_9ba498_8-.LJTI_9ba498_2
	.long	.LBB_9ba498_8-.LJTI_9ba498_2
	.long	.LBB_9ba498_86-.LJTI_9ba498_2
	.long	.LBB_9ba498_8-.LJTI_9ba498_2
.LJTI_9ba498_3:
	.long	.LBB_9ba498_65-.LJTI_9ba498_3
	.long	.LBB_9ba498_437-.LJTI_9ba498_3
	.long	.LBB_9ba498_76-.LJTI_9ba498_3
	.long	.LBB_9ba498_521-.LJTI_9ba498_3
	.long	.LBB_9ba498_274-.LJTI_9ba498_3
	.long	.LBB_9ba498_647-.LJTI_9ba498_3
	.long	.LBB_9ba498_669-.LJTI_9ba498_3
	.long	.LBB_9ba498_573-.LJTI_9ba498_3
.LJTI_9ba498_4:
	.long	.LBB_9ba498_23-.LJTI_9ba498_4
	.long	.LBB_9ba498_203-.LJTI_9ba498_4
	.long	.LBB_9ba498_76-.LJTI_9ba498_4
	.long	.LBB_9ba498_175-.LJTI_9ba498_4
	.long	.LBB_9ba498_84-.LJTI_9ba498_4
	.long	.LBB_9ba498_294-.LJTI_9ba498_4
	.long	.LBB_9ba498_334-.LJTI_9ba498_4
	.long	.LBB_9ba498_201-.LJTI_9ba498_4
.LJTI_9ba498_5:
	.long	.LBB_9ba498_71-.LJTI_9ba498_5
	.long	.LBB_9ba498_615-.LJTI_9ba498_5
	.long	.LBB_9ba498_447-.LJTI_9ba498_5
	.long	.LBB_9ba498_557-.LJTI_9ba498_5
	.long	.LBB_9ba498_276-.LJTI_9ba498_5
	.long	.LBB_9ba498_649-.LJTI_9ba498_5
	.long	.LBB_9ba498_687-.LJTI_9ba498_5
	.long	.LBB_9ba498_575-.LJTI_9ba498_5
.LJTI_9ba498_6:
	.long	.LBB_9ba498_41-.LJTI_9ba498_6
	.long	.LBB_9ba498_391-.LJTI_9ba498_6
	.long	.LBB_9ba498_233-.LJTI_9ba498_6
	.long	.LBB_9ba498_316-.LJTI_9ba498_6
	.long	.LBB_9ba498_138-.LJTI_9ba498_6
	.long	.LBB_9ba498_471-.LJTI_9ba498_6
	.long	.LBB_9ba498_537-.LJTI_9ba498_6
	.long	.LBB_9ba498_332-.LJTI_9ba498_6
.LJTI_9ba498_7:
	.long	.LBB_9ba498_59-.LJTI_9ba498_7
	.long	.LBB_9ba498_605-.LJTI_9ba498_7
	.long	.LBB_9ba498_435-.LJTI_9ba498_7
	.long	.LBB_9ba498_493-.LJTI_9ba498_7
	.long	.LBB_9ba498_270-.LJTI_9ba498_7
	.long	.LBB_9ba498_645-.LJTI_9ba498_7
	.long	.LBB_9ba498_651-.LJTI_9ba498_7
	.long	.LBB_9ba498_555-.LJTI_9ba498_7
.LJTI_9ba498_8:
	.long	.LBB_9ba498_53-.LJTI_9ba498_8
	.long	.LBB_9ba498_511-.LJTI_9ba498_8
	.long	.LBB_9ba498_405-.LJTI_9ba498_8
	.long	.LBB_9ba498_455-.LJTI_9ba498_8
	.long	.LBB_9ba498_237-.LJTI_9ba498_8
	.long	.LBB_9ba498_625-.LJTI_9ba498_8
	.long	.LBB_9ba498_627-.LJTI_9ba498_8
	.long	.LBB_9ba498_473-.LJTI_9ba498_8
.LJTI_9ba498_9:
	.long	.LBB_9ba498_11-.LJTI_9ba498_9
	.long	.LBB_9ba498_161-.LJTI_9ba498_9
	.long	.LBB_9ba498_91-.LJTI_9ba498_9
	.long	.LBB_9ba498_118-.LJTI_9ba498_9
	.long	.LBB_9ba498_78-.LJTI_9ba498_9
	.long	.LBB_9ba498_235-.LJTI_9ba498_9
	.long	.LBB_9ba498_252-.LJTI_9ba498_9
	.long	.LBB_9ba498_136-.LJTI_9ba498_9
.LJTI_9ba498_10:
	.long	.LBB_9ba498_35-.LJTI_9ba498_10
	.long	.LBB_9ba498_379-.LJTI_9ba498_10
	.long	.LBB_9ba498_229-.LJTI_9ba498_10
	.long	.LBB_9ba498_278-.LJTI_9ba498_10
	.long	.LBB_9ba498_134-.LJTI_9ba498_10
	.long	.LBB_9ba498_453-.LJTI_9ba498_10
	.long	.LBB_9ba498_475-.LJTI_9ba498_10
	.long	.LBB_9ba498_314-.LJTI_9ba498_10
.LJTI_9ba498_11:
	.long	.LBB_9ba498_29-.LJTI_9ba498_11
	.long	.LBB_9ba498_242-.LJTI_9ba498_11
	.long	.LBB_9ba498_171-.LJTI_9ba498_11
	.long	.LBB_9ba498_213-.LJTI_9ba498_11
	.long	.LBB_9ba498_93-.LJTI_9ba498_11
	.long	.LBB_9ba498_403-.LJTI_9ba498_11
	.long	.LBB_9ba498_417-.LJTI_9ba498_11
	.long	.LBB_9ba498_231-.LJTI_9ba498_11
.LJTI_9ba498_12:
	.long	.LBB_9ba498_47-.LJTI_9ba498_12
	.long	.LBB_9ba498_595-.LJTI_9ba498_12
	.long	.LBB_9ba498_401-.LJTI_9ba498_12
	.long	.LBB_9ba498_452-.LJTI_9ba498_12
	.long	.LBB_9ba498_452-.LJTI_9ba498_12
	.long	.LBB_9ba498_452-.LJTI_9ba498_12
	.long	.LBB_9ba498_452-.LJTI_9ba498_12
	.long	.LBB_9ba498_452-.LJTI_9ba498_12
.LJTI_9ba498_13:
	.long	.LBB_9ba498_2-.LJTI_9ba498_13
	.long	.LBB_9ba498_407-.LJTI_9ba498_13
	.long	.LBB_9ba498_239-.LJTI_9ba498_13
	.long	.LBB_9ba498_352-.LJTI_9ba498_13
	.long	.LBB_9ba498_159-.LJTI_9ba498_13
	.long	.LBB_9ba498_509-.LJTI_9ba498_13
	.long	.LBB_9ba498_577-.LJTI_9ba498_13
	.long	.LBB_9ba498_389-.LJTI_9ba498_13

	.section	".text.pix_raster::command::CommandReadDraw::read::<#880fe2ecd02fbeac>","ax",@progbits
	.p2align	4
	.type	"pix_raster::command::CommandReadDraw::read::<#880fe2ecd02fbeac>",@function
"pix_raster::command::CommandReadDraw::read::<#880fe2ecd02fbeac>":
	xorps	%xmm0, %xmm0
	movaps	%xmm0, -56(%rsp)
	movaps	%xmm0, -40(%rsp)
	movaps	%xmm0, -24(%rsp)
	movzbl	(%rsi), %eax
	leaq	.LJTI_9d29d0_0(%rip), %rcx
	movslq	(%rcx,%rax,4), %rdx
	addq	%rcx, %rdx
	jmpq	*%rdx
.LBB_9d29d0_3:
	movdqu	4(%rsi), %xmm1
	addq	$20, %rsi
	movdqa	%xmm1, -56(%rsp)
	xorl	%edx, %edx
	xorl	%r9d, %r9d
	xorl	%ecx, %ecx
	jmp	.LBB_9d29d0_2
.LBB_9d29d0_6:
	leaq	48(%rsi), %r8
	movq	24(%rsi), %rcx
	movq	(%rcx), %xmm1
	movq	8(%rcx), %r10
	movq	16(%rcx), %rcx
	movups	4(%rsi), %xmm2
	movaps	%xmm2, -56(%rsp)
	movups	32(%rsi), %xmm2
	movaps	%xmm2, -40(%rsp)
	xorl	%edx, %edx
	xorl	%r9d, %r9d
	jmp	.LBB_9d29d0_7
.LBB_9d29d0_4:
	movq	24(%rsi), %rcx
	movq	(%rcx), %xmm1
	movq	8(%rcx), %r8
	movq	16(%rcx), %rcx
	movups	4(%rsi), %xmm2
	movaps	%xmm2, -56(%rsp)
	movups	32(%rsi), %xmm2
	movaps	%xmm2, -40(%rsp)
	xorl	%edx, %edx
	xorl	%r9d, %r9d
	movq	%r8, %rsi
	xorl	%r8d, %r8d
	jmp	.LBB_9d29d0_8
.LBB_9d29d0_1:
	xorl	%esi, %esi
	movq	%rax, %rdx
	movq	%rax, %r9
	movq	%rax, %rcx
.LBB_9d29d0_2:
	xorl	%r8d, %r8d
	pxor	%xmm1, %xmm1
	jmp	.LBB_9d29d0_8
.LBB_9d29d0_5:
	movq	24(%rsi), %rcx
	movq	(%rcx), %xmm1
	movq	8(%rcx), %r10
	movq	16(%rcx), %rcx
	movq	48(%rsi), %rdx
	movsd	(%rdx), %xmm0
	movl	(%rdx), %r9d
	movq	8(%rdx), %r8
	movq	16(%rdx), %rdx
	movups	4(%rsi), %xmm2
	movaps	%xmm2, -56(%rsp)
	movups	32(%rsi), %xmm2
	movaps	%xmm2, -40(%rsp)
	movups	56(%rsi), %xmm2
	movaps	%xmm2, -24(%rsp)
.LBB_9d29d0_7:
	movq	%r10, %rsi
.LBB_9d29d0_8:
	movd	%xmm1, %r10d
	movl	%eax, (%rdi)
	movaps	-56(%rsp), %xmm2
	movups	%xmm2, 4(%rdi)
	movq	%rsi, 24(%rdi)
	movq	%rcx, 32(%rdi)
	movq	%xmm1, 40(%rdi)
	movq	%r10, 48(%rdi)
	movaps	-40(%rsp), %xmm1
	movups	%xmm1, 56(%rdi)
	movq	%r8, 72(%rdi)
	movq	%rdx, 80(%rdi)
	movlps	%xmm0, 88(%rdi)
	movq	%r9, 96(%rdi)
	movaps	-24(%rsp), %xmm0
	movups	%xmm0, 104(%rdi)
	retq
.Lfunc_end_9d29d0:
	.size	"pix_raster::command::CommandReadDraw::read::<#880fe2ecd02fbeac>", .Lfunc_end_9d29d0-"pix_raster::command::CommandReadDraw::read::<#880fe2ecd02fbeac>"
	.section	".rodata.pix_raster::command::CommandReadDraw::read::<#880fe2ecd02fbeac>","a",@progbits
	.p2align	2, 0x0
.LJTI_9d29d0_0:
	.long	.LBB_9d29d0_1-.LJTI_9d29d0_0
	.long	.LBB_9d29d0_3-.LJTI_9d29d0_0
	.long	.LBB_9d29d0_4-.LJTI_9d29d0_0
	.long	.LBB_9d29d0_3-.LJTI_9d29d0_0
	.long	.LBB_9d29d0_4-.LJTI_9d29d0_0
	.long	.LBB_9d29d0_6-.LJTI_9d29d0_0
	.long	.LBB_9d29d0_5-.LJTI_9d29d0_0
	.long	.LBB_9d29d0_6-.LJTI_9d29d0_0

	.section	".text.pix_el::filled::clear_long::<#c0ead2364dd49755>","ax",@progbits
	.p2align	4
	.type	"pix_el::filled::clear_long::<#c0ead2364dd49755>",@function
"pix_el::filled::clear_long::<#c0ead2364dd49755>":
	leaq	-16(%rsi), %rax
	movq	%rsi, %r8
	shrq	$4, %r8
	andl	$15, %esi
	cmpq	$1, %rsi
	sbbq	$-1, %r8
	movl	%r8d, %ecx
	andl	$3, %ecx
	cmpq	$4, %r8
	jae	.LBB_0b9a62_2
	xorl	%edx, %edx
	jmp	.LBB_0b9a62_5
.LBB_0b9a62_2:
	movabsq	$2305843009213693948, %rdx
	andq	%rdx, %r8
	movl	$48, %esi
	xorl	%edx, %edx
	.p2align	4
.LBB_0b9a62_3:
	leaq	-48(%rsi), %r9
	cmpq	%rax, %r9
	cmovaeq	%rax, %r9
	xorps	%xmm0, %xmm0
	movups	%xmm0, 48(%rdi,%r9,4)
	movups	%xmm0, 32(%rdi,%r9,4)
	movups	%xmm0, 16(%rdi,%r9,4)
	leaq	-32(%rsi), %r10
	cmpq	%rax, %r10
	cmovaeq	%rax, %r10
	movups	%xmm0, (%rdi,%r9,4)
	movups	%xmm0, 48(%rdi,%r10,4)
	movups	%xmm0, 32(%rdi,%r10,4)
	movups	%xmm0, 16(%rdi,%r10,4)
	leaq	-16(%rsi), %r9
	cmpq	%rax, %r9
	cmovaeq	%rax, %r9
	movups	%xmm0, (%rdi,%r10,4)
	movups	%xmm0, 48(%rdi,%r9,4)
	movups	%xmm0, 32(%rdi,%r9,4)
	movups	%xmm0, 16(%rdi,%r9,4)
	cmpq	%rax, %rsi
	movq	%rax, %r10
	cmovbq	%rsi, %r10
	movups	%xmm0, (%rdi,%r9,4)
	movups	%xmm0, 48(%rdi,%r10,4)
	movups	%xmm0, 32(%rdi,%r10,4)
	movups	%xmm0, 16(%rdi,%r10,4)
	movups	%xmm0, (%rdi,%r10,4)
	addq	$4, %rdx
	addq	$64, %rsi
	cmpq	%rdx, %r8
	jne	.LBB_0b9a62_3
	testq	%rcx, %rcx
	je	.LBB_0b9a62_7
.LBB_0b9a62_5:
	shlq	$4, %rdx
	.p2align	4
.LBB_0b9a62_6:
	cmpq	%rax, %rdx
	movq	%rax, %rsi
	cmovbq	%rdx, %rsi
	xorps	%xmm0, %xmm0
	movups	%xmm0, 48(%rdi,%rsi,4)
	movups	%xmm0, 32(%rdi,%rsi,4)
	movups	%xmm0, 16(%rdi,%rsi,4)
	movups	%xmm0, (%rdi,%rsi,4)
	addq	$16, %rdx
	decq	%rcx
	jne	.LBB_0b9a62_6
.LBB_0b9a62_7:
	retq
.Lfunc_end_0b9a62:
	.size	"pix_el::filled::clear_long::<#c0ead2364dd49755>", .Lfunc_end_0b9a62-"pix_el::filled::clear_long::<#c0ead2364dd49755>"

	.section	".text.pix_raster::view::blit_overlap::<#93a319759576dea8>","ax",@progbits
	.p2align	4
	.type	"pix_raster::view::blit_overlap::<#93a319759576dea8>",@function
"pix_raster::view::blit_overlap::<#93a319759576dea8>":
	pushq	%rbp
	pushq	%r15
	pushq	%r14
	pushq	%r13
	pushq	%r12
	pushq	%rbx
	subq	$24, %rsp
	movq	%rcx, %r14
	movq	24(%r8), %r10
	movq	32(%r8), %rcx
	movq	%rcx, %rbp
	subq	%r10, %rbp
	jbe	.LBB_4805d5_27
	movq	%rsi, %rbx
	movq	(%r8), %rax
	movq	8(%r8), %r9
	movq	16(%r8), %rsi
	movq	%r9, %r15
	subq	%rax, %r15
	movq	40(%r8), %r8
	leaq	-65(%r15), %r11
	cmpq	$-58, %r11
	ja	.LBB_4805d5_4
	imulq	%r14, %r8
	addq	%r8, %rsi
	leaq	(%rdx,%rsi,4), %r12
	shlq	$2, %r14
	imulq	%rbx, %r10
	addq	%r10, %rax
	leaq	(%rdi,%rax,4), %r13
	shlq	$2, %rbx
	.p2align	4
.LBB_4805d5_3:
	movq	%r13, %rdi
	movq	%r15, %rsi
	movq	%r12, %rdx
	movq	%r15, %rcx
	callq	"pix_el::filled::copy_any::<#223ae990351c5656>"
	addq	%r14, %r12
	addq	%rbx, %r13
	decq	%rbp
	jne	.LBB_4805d5_3
.LBB_4805d5_27:
	addq	$24, %rsp
	popq	%rbx
	popq	%r12
	popq	%r13
	popq	%r14
	popq	%r15
	popq	%rbp
	retq
.LBB_4805d5_4:
	cmpq	$33, %r15
	jb	.LBB_4805d5_10
	movl	%ecx, %ebp
	subl	%r10d, %ebp
	leaq	1(%r10), %r11
	movq	%r10, %r13
	testb	$1, %bpl
	je	.LBB_4805d5_7
	leaq	-128(,%r15,4), %r15
	movq	%r10, %r13
	imulq	%rbx, %r13
	addq	%rax, %r13
	movq	%r8, %rbp
	imulq	%r14, %rbp
	addq	%rsi, %rbp
	leaq	(%rdi,%r13,4), %r12
	leaq	(%rdx,%rbp,4), %r11
	movups	(%rdx,%rbp,4), %xmm0
	movups	16(%rdx,%rbp,4), %xmm1
	movups	32(%rdx,%rbp,4), %xmm2
	movups	48(%rdx,%rbp,4), %xmm3
	movups	64(%rdx,%rbp,4), %xmm4
	movups	80(%rdx,%rbp,4), %xmm5
	movups	96(%rdx,%rbp,4), %xmm6
	movups	112(%rdx,%rbp,4), %xmm7
	movups	%xmm7, 112(%rdi,%r13,4)
	movups	%xmm6, 96(%rdi,%r13,4)
	movups	%xmm5, 80(%rdi,%r13,4)
	movups	%xmm4, 64(%rdi,%r13,4)
	movups	%xmm3, 48(%rdi,%r13,4)
	movups	%xmm2, 32(%rdi,%r13,4)
	movups	%xmm1, 16(%rdi,%r13,4)
	movups	%xmm0, (%rdi,%r13,4)
	movups	(%r15,%r11), %xmm0
	movups	16(%r15,%r11), %xmm1
	movups	32(%r15,%r11), %xmm2
	movups	48(%r15,%r11), %xmm3
	movups	64(%r15,%r11), %xmm4
	movups	80(%r15,%r11), %xmm5
	movups	96(%r15,%r11), %xmm6
	movups	112(%r15,%r11), %xmm7
	leaq	1(%r10), %r11
	movups	%xmm7, 112(%r15,%r12)
	movups	%xmm6, 96(%r15,%r12)
	movups	%xmm5, 80(%r15,%r12)
	movups	%xmm4, 64(%r15,%r12)
	movups	%xmm3, 48(%r15,%r12)
	movups	%xmm2, 32(%r15,%r12)
	movups	%xmm1, 16(%r15,%r12)
	movups	%xmm0, (%r15,%r12)
	movq	%r11, %r13
.LBB_4805d5_7:
	cmpq	%r11, %rcx
	je	.LBB_4805d5_27
	addq	%r13, %r8
	subq	%r10, %r8
	leaq	1(%r8), %r12
	imulq	%r14, %r12
	leaq	(,%r9,4), %r15
	leaq	(%r15,%r12,4), %rbp
	movq	%r15, 16(%rsp)
	leaq	(,%rax,4), %r10
	subq	%r10, %rbp
	leaq	1(%r13), %r11
	imulq	%rbx, %r11
	leaq	(%r15,%r11,4), %r10
	addq	$-128, %r10
	leaq	(,%rax,4), %r15
	leaq	(%r15,%r11,4), %r11
	imulq	%r14, %r8
	movq	%r9, 8(%rsp)
	movq	16(%rsp), %r9
	leaq	(%r9,%r8,4), %r9
	leaq	(,%rax,4), %r15
	subq	%r15, %r9
	leaq	(%rdx,%rbp), %r15
	addq	$-128, %r15
	leaq	(%rdx,%r12,4), %r12
	leaq	(%rdx,%r8,4), %r8
	addq	%r9, %rdx
	addq	$-128, %rdx
	subq	%r13, %rcx
	imulq	%rbx, %r13
	addq	%r13, %rax
	addq	8(%rsp), %r13
	shlq	$2, %rsi
	leaq	(,%r14,8), %r9
	shlq	$3, %rbx
	shlq	$2, %rax
	leaq	-128(,%r13,4), %r14
	.p2align	4
.LBB_4805d5_9:
	movups	(%r8,%rsi), %xmm0
	movups	16(%r8,%rsi), %xmm1
	movups	32(%r8,%rsi), %xmm2
	movups	48(%r8,%rsi), %xmm3
	movups	64(%r8,%rsi), %xmm4
	movups	80(%r8,%rsi), %xmm5
	movups	96(%r8,%rsi), %xmm6
	movups	112(%r8,%rsi), %xmm7
	movups	%xmm7, 112(%rdi,%rax)
	movups	%xmm6, 96(%rdi,%rax)
	movups	%xmm5, 80(%rdi,%rax)
	movups	%xmm4, 64(%rdi,%rax)
	movups	%xmm3, 48(%rdi,%rax)
	movups	%xmm2, 32(%rdi,%rax)
	movups	%xmm1, 16(%rdi,%rax)
	movups	%xmm0, (%rdi,%rax)
	movups	(%rdx,%rsi), %xmm0
	movups	16(%rdx,%rsi), %xmm1
	movups	32(%rdx,%rsi), %xmm2
	movups	48(%rdx,%rsi), %xmm3
	movups	64(%rdx,%rsi), %xmm4
	movups	80(%rdx,%rsi), %xmm5
	movups	96(%rdx,%rsi), %xmm6
	movups	112(%rdx,%rsi), %xmm7
	movups	%xmm7, 112(%rdi,%r14)
	movups	%xmm6, 96(%rdi,%r14)
	movups	%xmm5, 80(%rdi,%r14)
	movups	%xmm4, 64(%rdi,%r14)
	movups	%xmm3, 48(%rdi,%r14)
	movups	%xmm2, 32(%rdi,%r14)
	movups	%xmm1, 16(%rdi,%r14)
	movups	%xmm0, (%rdi,%r14)
	movups	(%r12,%rsi), %xmm0
	movups	16(%r12,%rsi), %xmm1
	movups	32(%r12,%rsi), %xmm2
	movups	48(%r12,%rsi), %xmm3
	movups	64(%r12,%rsi), %xmm4
	movups	80(%r12,%rsi), %xmm5
	movups	96(%r12,%rsi), %xmm6
	movups	112(%r12,%rsi), %xmm7
	movups	%xmm7, 112(%rdi,%r11)
	movups	%xmm6, 96(%rdi,%r11)
	movups	%xmm5, 80(%rdi,%r11)
	movups	%xmm4, 64(%rdi,%r11)
	movups	%xmm3, 48(%rdi,%r11)
	movups	%xmm2, 32(%rdi,%r11)
	movups	%xmm1, 16(%rdi,%r11)
	movups	%xmm0, (%rdi,%r11)
	movups	(%r15,%rsi), %xmm0
	movups	16(%r15,%rsi), %xmm1
	movups	32(%r15,%rsi), %xmm2
	movups	48(%r15,%rsi), %xmm3
	movups	64(%r15,%rsi), %xmm4
	movups	80(%r15,%rsi), %xmm5
	movups	96(%r15,%rsi), %xmm6
	movups	112(%r15,%rsi), %xmm7
	movups	%xmm7, 112(%rdi,%r10)
	movups	%xmm6, 96(%rdi,%r10)
	movups	%xmm5, 80(%rdi,%r10)
	movups	%xmm4, 64(%rdi,%r10)
	movups	%xmm3, 48(%rdi,%r10)
	movups	%xmm2, 32(%rdi,%r10)
	movups	%xmm1, 16(%rdi,%r10)
	movups	%xmm0, (%rdi,%r10)
	addq	%r9, %r15
	addq	%r9, %r12
	addq	%rbx, %rdi
	addq	%r9, %r8
	addq	%r9, %rdx
	addq	$-2, %rcx
	jne	.LBB_4805d5_9
	jmp	.LBB_4805d5_27
.LBB_4805d5_10:
	cmpq	$17, %r15
	jae	.LBB_4805d5_11
	cmpq	$8, %r15
	jbe	.LBB_4805d5_17
	movq	%r9, %r11
	movl	%ecx, %r9d
	subl	%r10d, %r9d
	leaq	1(%r10), %r12
	movq	%r10, %r13
	testb	$1, %r9b
	je	.LBB_4805d5_24
	leaq	-32(,%r15,4), %r9
	movq	%r10, %r15
	imulq	%rbx, %r15
	addq	%rax, %r15
	movq	%r8, %r12
	imulq	%r14, %r12
	addq	%rsi, %r12
	leaq	(%rdi,%r15,4), %r13
	leaq	(%rdx,%r12,4), %rbp
	movups	(%rdx,%r12,4), %xmm0
	movups	16(%rdx,%r12,4), %xmm1
	leaq	1(%r10), %r12
	movups	%xmm1, 16(%rdi,%r15,4)
	movups	%xmm0, (%rdi,%r15,4)
	movups	(%r9,%rbp), %xmm0
	movups	16(%r9,%rbp), %xmm1
	movups	%xmm1, 16(%r9,%r13)
	movups	%xmm0, (%r9,%r13)
	movq	%r12, %r13
.LBB_4805d5_24:
	cmpq	%r12, %rcx
	je	.LBB_4805d5_27
	addq	%r13, %r8
	subq	%r10, %r8
	leaq	1(%r8), %r12
	imulq	%r14, %r12
	movq	%r11, 8(%rsp)
	leaq	(,%r11,4), %r9
	leaq	(%r9,%r12,4), %r15
	leaq	(,%rax,4), %r10
	subq	%r10, %r15
	leaq	1(%r13), %r11
	imulq	%rbx, %r11
	leaq	(%r9,%r11,4), %r10
	addq	$-32, %r10
	leaq	(,%rax,4), %rbp
	leaq	(,%r11,4), %r11
	addq	%rbp, %r11
	imulq	%r14, %r8
	leaq	(%r9,%r8,4), %r9
	leaq	(,%rax,4), %rbp
	subq	%rbp, %r9
	addq	%rdx, %r15
	addq	$-32, %r15
	leaq	(%rdx,%r12,4), %r12
	leaq	(%rdx,%r8,4), %r8
	addq	%r9, %rdx
	addq	$-32, %rdx
	subq	%r13, %rcx
	imulq	%rbx, %r13
	addq	%r13, %rax
	addq	8(%rsp), %r13
	shlq	$2, %rsi
	leaq	(,%r14,8), %r9
	shlq	$3, %rbx
	shlq	$2, %rax
	leaq	-32(,%r13,4), %r14
	.p2align	4
.LBB_4805d5_26:
	movups	(%r8,%rsi), %xmm0
	movups	16(%r8,%rsi), %xmm1
	movups	%xmm1, 16(%rdi,%rax)
	movups	%xmm0, (%rdi,%rax)
	movups	(%rdx,%rsi), %xmm0
	movups	16(%rdx,%rsi), %xmm1
	movups	%xmm1, 16(%rdi,%r14)
	movups	%xmm0, (%rdi,%r14)
	movups	(%r12,%rsi), %xmm0
	movups	16(%r12,%rsi), %xmm1
	movups	%xmm1, 16(%rdi,%r11)
	movups	%xmm0, (%rdi,%r11)
	movups	(%r15,%rsi), %xmm0
	movups	16(%r15,%rsi), %xmm1
	movups	%xmm1, 16(%rdi,%r10)
	movups	%xmm0, (%rdi,%r10)
	addq	%r9, %r15
	addq	%r9, %r12
	addq	%rbx, %rdi
	addq	%r9, %r8
	addq	%r9, %rdx
	addq	$-2, %rcx
	jne	.LBB_4805d5_26
	jmp	.LBB_4805d5_27
.LBB_4805d5_11:
	movq	%r9, %r11
	movl	%ecx, %r9d
	subl	%r10d, %r9d
	leaq	1(%r10), %r13
	movq	%r10, %r12
	testb	$1, %r9b
	je	.LBB_4805d5_13
	leaq	-64(,%r15,4), %r9
	movq	%r10, %r15
	imulq	%rbx, %r15
	addq	%rax, %r15
	movq	%r8, %r12
	imulq	%r14, %r12
	addq	%rsi, %r12
	leaq	(%rdi,%r15,4), %r13
	leaq	(%rdx,%r12,4), %rbp
	movups	(%rdx,%r12,4), %xmm0
	movups	16(%rdx,%r12,4), %xmm1
	movups	32(%rdx,%r12,4), %xmm2
	movups	48(%rdx,%r12,4), %xmm3
	movups	%xmm3, 48(%rdi,%r15,4)
	movups	%xmm2, 32(%rdi,%r15,4)
	movups	%xmm1, 16(%rdi,%r15,4)
	movups	%xmm0, (%rdi,%r15,4)
	movups	(%r9,%rbp), %xmm0
	movups	16(%r9,%rbp), %xmm1
	movups	32(%r9,%rbp), %xmm2
	movups	48(%r9,%rbp), %xmm3
	movups	%xmm3, 48(%r9,%r13)
	movups	%xmm2, 32(%r9,%r13)
	movups	%xmm1, 16(%r9,%r13)
	movups	%xmm0, (%r9,%r13)
	leaq	1(%r10), %r13
	movq	%r13, %r12
.LBB_4805d5_13:
	cmpq	%r13, %rcx
	je	.LBB_4805d5_27
	movq	%r11, %r9
	subq	%r12, %rcx
	addq	%r12, %r8
	subq	%r10, %r8
	leaq	1(%r8), %r15
	imulq	%r14, %r15
	leaq	(,%r11,4), %r13
	leaq	(,%r15,4), %r11
	addq	%r13, %r11
	leaq	(,%rax,4), %rbp
	subq	%rbp, %r11
	leaq	1(%r12), %r10
	imulq	%rbx, %r10
	imulq	%rbx, %r12
	addq	%r12, %rax
	addq	%r9, %r12
	leaq	-64(,%r10,4), %r9
	addq	%r13, %r9
	leaq	(,%r10,4), %r10
	addq	%rbp, %r10
	imulq	%r14, %r8
	leaq	(%r13,%r8,4), %r13
	subq	%rbp, %r13
	addq	%rdx, %r11
	addq	$-64, %r11
	leaq	(%rdx,%r15,4), %r15
	leaq	(%rdx,%r8,4), %r8
	addq	%r13, %rdx
	addq	$-64, %rdx
	shlq	$2, %rsi
	leaq	(,%r14,8), %r14
	shlq	$3, %rbx
	shlq	$2, %rax
	leaq	-64(,%r12,4), %r12
	.p2align	4
.LBB_4805d5_15:
	movups	(%r8,%rsi), %xmm0
	movups	16(%r8,%rsi), %xmm1
	movups	32(%r8,%rsi), %xmm2
	movups	48(%r8,%rsi), %xmm3
	movups	%xmm3, 48(%rdi,%rax)
	movups	%xmm2, 32(%rdi,%rax)
	movups	%xmm1, 16(%rdi,%rax)
	movups	%xmm0, (%rdi,%rax)
	movups	(%rdx,%rsi), %xmm0
	movups	16(%rdx,%rsi), %xmm1
	movups	32(%rdx,%rsi), %xmm2
	movups	48(%rdx,%rsi), %xmm3
	movups	%xmm3, 48(%rdi,%r12)
	movups	%xmm2, 32(%rdi,%r12)
	movups	%xmm1, 16(%rdi,%r12)
	movups	%xmm0, (%rdi,%r12)
	movups	(%r15,%rsi), %xmm0
	movups	16(%r15,%rsi), %xmm1
	movups	32(%r15,%rsi), %xmm2
	movups	48(%r15,%rsi), %xmm3
	movups	%xmm3, 48(%rdi,%r10)
	movups	%xmm2, 32(%rdi,%r10)
	movups	%xmm1, 16(%rdi,%r10)
	movups	%xmm0, (%rdi,%r10)
	movups	(%r11,%rsi), %xmm0
	movups	16(%r11,%rsi), %xmm1
	movups	32(%r11,%rsi), %xmm2
	movups	48(%r11,%rsi), %xmm3
	movups	%xmm3, 48(%rdi,%r9)
	movups	%xmm2, 32(%rdi,%r9)
	movups	%xmm1, 16(%rdi,%r9)
	movups	%xmm0, (%rdi,%r9)
	addq	%r14, %r11
	addq	%r14, %r15
	addq	%rbx, %rdi
	addq	%r14, %r8
	addq	%r14, %rdx
	addq	$-2, %rcx
	jne	.LBB_4805d5_15
	jmp	.LBB_4805d5_27
.LBB_4805d5_17:
	movl	%ecx, %ebp
	subl	%r10d, %ebp
	leaq	1(%r10), %r9
	movq	%r10, %r11
	testb	$1, %bpl
	je	.LBB_4805d5_19
	movq	%r10, %r11
	imulq	%rbx, %r11
	addq	%rax, %r11
	movq	%r8, %r15
	imulq	%r14, %r15
	addq	%rsi, %r15
	movups	(%rdx,%r15,4), %xmm0
	movups	16(%rdx,%r15,4), %xmm1
	movups	%xmm1, 16(%rdi,%r11,4)
	movups	%xmm0, (%rdi,%r11,4)
	movq	%r9, %r11
.LBB_4805d5_19:
	cmpq	%r9, %rcx
	je	.LBB_4805d5_27
	subq	%r11, %rcx
	addq	%r11, %r8
	subq	%r10, %r8
	leaq	1(%r8), %r9
	imulq	%r14, %r9
	shlq	$2, %r9
	leaq	(%rdx,%rsi,4), %rdx
	leaq	(,%r14,8), %rsi
	leaq	1(%r11), %r10
	imulq	%rbx, %r10
	leaq	(%rdi,%r10,4), %r10
	shlq	$2, %rax
	imulq	%r14, %r8
	shlq	$2, %r8
	imulq	%rbx, %r11
	shlq	$3, %rbx
	leaq	(%rdi,%r11,4), %rdi
	.p2align	4
.LBB_4805d5_21:
	movups	(%rdx,%r8), %xmm0
	movups	16(%rdx,%r8), %xmm1
	movups	%xmm1, 16(%rdi,%rax)
	movups	%xmm0, (%rdi,%rax)
	movups	(%rdx,%r9), %xmm0
	movups	16(%rdx,%r9), %xmm1
	movups	%xmm1, 16(%r10,%rax)
	movups	%xmm0, (%r10,%rax)
	addq	%rsi, %rdx
	addq	%rbx, %rax
	addq	$-2, %rcx
	jne	.LBB_4805d5_21
	jmp	.LBB_4805d5_27
.Lfunc_end_4805d5:
	.size	"pix_raster::view::blit_overlap::<#93a319759576dea8>", .Lfunc_end_4805d5-"pix_raster::view::blit_overlap::<#93a319759576dea8>"

	.section	".text.pix_el::filled::copy_any::<#223ae990351c5656>","ax",@progbits
	.p2align	4
	.type	"pix_el::filled::copy_any::<#223ae990351c5656>",@function
"pix_el::filled::copy_any::<#223ae990351c5656>":
	cmpq	%rsi, %rcx
	cmovbq	%rcx, %rsi
	leaq	(,%rsi,4), %rax
	movq	%rdi, %rcx
	subq	%rdx, %rcx
	cmpq	%rax, %rcx
	jae	.LBB_6ff7d7_13
	testq	%rsi, %rsi
	je	.LBB_6ff7d7_12
	cmpq	$8, %rsi
	setb	%al
	cmpq	$32, %rcx
	setb	%cl
	orb	%al, %cl
	je	.LBB_6ff7d7_4
	xorl	%eax, %eax
	jmp	.LBB_6ff7d7_7
.LBB_6ff7d7_13:
	movq	%rdx, %rsi
	movq	%rax, %rdx
	jmp	memmove@PLT
.LBB_6ff7d7_4:
	movq	%rsi, %rax
	andq	$-8, %rax
	xorl	%ecx, %ecx
	.p2align	4
.LBB_6ff7d7_5:
	movups	(%rdx,%rcx,4), %xmm0
	movups	16(%rdx,%rcx,4), %xmm1
	movups	%xmm0, (%rdi,%rcx,4)
	movups	%xmm1, 16(%rdi,%rcx,4)
	addq	$8, %rcx
	cmpq	%rcx, %rax
	jne	.LBB_6ff7d7_5
	cmpq	%rax, %rsi
	je	.LBB_6ff7d7_12
.LBB_6ff7d7_7:
	movq	%rsi, %r8
	movq	%rax, %rcx
	andq	$3, %r8
	je	.LBB_6ff7d7_10
	movq	%rax, %rcx
	.p2align	4
.LBB_6ff7d7_9:
	movl	(%rdx,%rcx,4), %r9d
	movl	%r9d, (%rdi,%rcx,4)
	incq	%rcx
	decq	%r8
	jne	.LBB_6ff7d7_9
.LBB_6ff7d7_10:
	subq	%rsi, %rax
	cmpq	$-4, %rax
	ja	.LBB_6ff7d7_12
	.p2align	4
.LBB_6ff7d7_11:
	movl	(%rdx,%rcx,4), %eax
	movl	%eax, (%rdi,%rcx,4)
	movl	4(%rdx,%rcx,4), %eax
	movl	%eax, 4(%rdi,%rcx,4)
	movl	8(%rdx,%rcx,4), %eax
	movl	%eax, 8(%rdi,%rcx,4)
	movl	12(%rdx,%rcx,4), %eax
	movl	%eax, 12(%rdi,%rcx,4)
	addq	$4, %rcx
	cmpq	%rcx, %rsi
	jne	.LBB_6ff7d7_11
.LBB_6ff7d7_12:
	retq
.Lfunc_end_6ff7d7:
	.size	"pix_el::filled::copy_any::<#223ae990351c5656>", .Lfunc_end_6ff7d7-"pix_el::filled::copy_any::<#223ae990351c5656>"

	.section	".text.pix_raster::view::blit_overlap::<#c5cfb15747d2bb36>","ax",@progbits
	.p2align	4
	.type	"pix_raster::view::blit_overlap::<#c5cfb15747d2bb36>",@function
"pix_raster::view::blit_overlap::<#c5cfb15747d2bb36>":
	pushq	%rbp
	pushq	%r15
	pushq	%r14
	pushq	%r13
	pushq	%r12
	pushq	%rbx
	subq	$104, %rsp
	movq	%rdx, 8(%rsp)
	movq	24(%r8), %r9
	movq	32(%r8), %r13
	movq	%r13, %r14
	subq	%r9, %r14
	jbe	.LBB_1af0b0_44
	movq	%rcx, %rbx
	movq	%rsi, 24(%rsp)
	movq	(%r8), %rdx
	movq	8(%r8), %r12
	movq	16(%r8), %rcx
	movq	%r12, %r10
	subq	%rdx, %r10
	movq	40(%r8), %rbp
	cmpq	$257, %r10
	movq	%rbx, 16(%rsp)
	movq	%r10, 32(%rsp)
	jae	.LBB_1af0b0_2
	leaq	-65(%r10), %rax
	cmpq	$-58, %rax
	ja	.LBB_1af0b0_8
	imulq	%rbx, %rbp
	addq	%rbp, %rcx
	movq	8(%rsp), %rax
	leaq	(%rax,%rcx,4), %r12
	shlq	$2, %rbx
	movq	24(%rsp), %r15
	imulq	%r15, %r9
	addq	%r9, %rdx
	leaq	(%rdi,%rdx,4), %r13
	shlq	$2, %r15
	.p2align	4
.LBB_1af0b0_7:
	movq	%r13, %rdi
	movq	32(%rsp), %rcx
	movq	%rcx, %rsi
	movq	%r12, %rdx
	callq	"pix_el::filled::copy_any::<#223ae990351c5656>"
	addq	%rbx, %r12
	addq	%r15, %r13
	decq	%r14
	jne	.LBB_1af0b0_7
.LBB_1af0b0_44:
	addq	$104, %rsp
	popq	%rbx
	popq	%r12
	popq	%r13
	popq	%r14
	popq	%r15
	popq	%rbp
	retq
.LBB_1af0b0_2:
	movq	%rbp, %rax
	subq	%r9, %rax
	movq	%rax, 96(%rsp)
	movq	%r10, %r11
	shrq	$4, %r11
	movq	%r10, %rax
	andq	$-16, %rax
	movq	%rax, 88(%rsp)
	leaq	(,%rax,4), %rax
	movq	%rax, 40(%rsp)
	movq	%rbp, %r8
	movl	%r10d, %ebp
	andl	$15, %ebp
	leaq	(,%r10,4), %rax
	andl	$32, %eax
	movq	%rax, 64(%rsp)
	movl	%r10d, %r15d
	andl	$12, %r15d
	movq	%r11, 56(%rsp)
	andq	$-2, %r11
	movq	%r9, %r14
	movq	24(%rsp), %r12
	imulq	%r12, %r14
	movq	%rdx, 48(%rsp)
	leaq	(,%rdx,4), %rdx
	leaq	(%rdx,%r14,4), %rdx
	addq	%rdi, %rdx
	leaq	(,%r12,4), %rsi
	movq	%rsi, 80(%rsp)
	movq	%r8, %rax
	imulq	%rbx, %rax
	leaq	(,%rcx,4), %rsi
	leaq	(%rsi,%rax,4), %r8
	movq	%rax, %rsi
	addq	8(%rsp), %r8
	movq	40(%rsp), %rax
	leaq	(%rax,%rsi,4), %rsi
	leal	(,%r10,4), %r10d
	andl	$48, %r10d
	addq	%r10, %rsi
	leaq	(%rax,%r14,4), %r14
	addq	%r10, %r14
	leaq	(,%rbx,4), %rax
	movq	%rax, 72(%rsp)
	leaq	(%rsi,%rcx,4), %rax
	addq	8(%rsp), %rax
	movq	48(%rsp), %rsi
	leaq	(%r14,%rsi,4), %r10
	addq	%rdi, %r10
	jmp	.LBB_1af0b0_3
	.p2align	4
.LBB_1af0b0_43:
	incq	%r9
	movq	80(%rsp), %rsi
	addq	%rsi, %rdx
	movq	72(%rsp), %r14
	addq	%r14, %r8
	addq	%r14, %rax
	addq	%rsi, %r10
	cmpq	%r13, %r9
	movq	24(%rsp), %r12
	je	.LBB_1af0b0_44
.LBB_1af0b0_3:
	movq	%r9, %rsi
	imulq	%r12, %rsi
	addq	48(%rsp), %rsi
	movq	96(%rsp), %r14
	addq	%r9, %r14
	imulq	%rbx, %r14
	addq	%rcx, %r14
	leaq	(%rdi,%rsi,4), %rsi
	movq	8(%rsp), %r12
	leaq	(%r12,%r14,4), %r12
	cmpq	$1, 56(%rsp)
	jne	.LBB_1af0b0_31
	xorl	%r14d, %r14d
	jmp	.LBB_1af0b0_34
	.p2align	4
.LBB_1af0b0_31:
	movq	%rcx, %rbx
	movq	%r13, %rcx
	movl	$112, %r13d
	xorl	%r14d, %r14d
	.p2align	4
.LBB_1af0b0_32:
	movups	-112(%r8,%r13), %xmm0
	movups	-96(%r8,%r13), %xmm1
	movups	%xmm0, -112(%rdx,%r13)
	movups	%xmm1, -96(%rdx,%r13)
	movups	-80(%r8,%r13), %xmm0
	movups	-64(%r8,%r13), %xmm1
	movups	%xmm0, -80(%rdx,%r13)
	movups	%xmm1, -64(%rdx,%r13)
	movups	-48(%r8,%r13), %xmm0
	movups	-32(%r8,%r13), %xmm1
	movups	%xmm0, -48(%rdx,%r13)
	movups	%xmm1, -32(%rdx,%r13)
	movups	-16(%r8,%r13), %xmm0
	movups	(%r8,%r13), %xmm1
	movups	%xmm0, -16(%rdx,%r13)
	movups	%xmm1, (%rdx,%r13)
	addq	$2, %r14
	subq	$-128, %r13
	cmpq	%r14, %r11
	jne	.LBB_1af0b0_32
	testb	$1, 56(%rsp)
	movq	%rcx, %r13
	movq	%rbx, %rcx
	movq	16(%rsp), %rbx
	je	.LBB_1af0b0_35
.LBB_1af0b0_34:
	shlq	$6, %r14
	movups	(%r12,%r14), %xmm0
	movups	16(%r12,%r14), %xmm1
	movups	%xmm0, (%rsi,%r14)
	movups	%xmm1, 16(%rsi,%r14)
	movups	32(%r12,%r14), %xmm0
	movups	48(%r12,%r14), %xmm1
	movups	%xmm0, 32(%rsi,%r14)
	movups	%xmm1, 48(%rsi,%r14)
.LBB_1af0b0_35:
	movq	88(%rsp), %r14
	cmpq	32(%rsp), %r14
	je	.LBB_1af0b0_43
	movq	40(%rsp), %r14
	addq	%r14, %rsi
	addq	%r14, %r12
	movq	32(%rsp), %r14
	testb	$8, %r14b
	jne	.LBB_1af0b0_37
	testb	$4, %r14b
	jne	.LBB_1af0b0_39
.LBB_1af0b0_40:
	cmpl	%ebp, %r15d
	je	.LBB_1af0b0_43
	jmp	.LBB_1af0b0_41
	.p2align	4
.LBB_1af0b0_37:
	movups	(%r12), %xmm0
	movups	16(%r12), %xmm1
	movups	%xmm0, (%rsi)
	movups	%xmm1, 16(%rsi)
	testb	$4, %r14b
	je	.LBB_1af0b0_40
.LBB_1af0b0_39:
	movq	64(%rsp), %r14
	movups	(%r12,%r14), %xmm0
	movups	%xmm0, (%rsi,%r14)
	cmpl	%ebp, %r15d
	je	.LBB_1af0b0_43
.LBB_1af0b0_41:
	xorl	%esi, %esi
	.p2align	4
.LBB_1af0b0_42:
	movl	(%rax,%rsi,4), %r14d
	movl	%r14d, (%r10,%rsi,4)
	leaq	(%r15,%rsi), %r14
	incq	%r14
	incq	%rsi
	cmpq	%rbp, %r14
	jb	.LBB_1af0b0_42
	jmp	.LBB_1af0b0_43
.LBB_1af0b0_8:
	cmpq	$33, %r10
	jb	.LBB_1af0b0_14
	movq	%rdx, %r10
	movl	%r13d, %esi
	subl	%r9d, %esi
	leaq	1(%r9), %rax
	movq	%r9, %rdx
	testb	$1, %sil
	je	.LBB_1af0b0_11
	movq	32(%rsp), %rdx
	leaq	-128(,%rdx,4), %rdx
	movq	%r9, %r8
	imulq	24(%rsp), %r8
	addq	%r10, %r8
	movq	%rbp, %r11
	imulq	%rbx, %r11
	addq	%rcx, %r11
	leaq	(%rdi,%r8,4), %rsi
	movq	8(%rsp), %r15
	leaq	(%r15,%r11,4), %rbx
	movups	(%r15,%r11,4), %xmm0
	movups	16(%r15,%r11,4), %xmm1
	movups	32(%r15,%r11,4), %xmm2
	movups	48(%r15,%r11,4), %xmm3
	movups	64(%r15,%r11,4), %xmm4
	movups	80(%r15,%r11,4), %xmm5
	movups	96(%r15,%r11,4), %xmm6
	movups	112(%r15,%r11,4), %xmm7
	movups	%xmm7, 112(%rdi,%r8,4)
	movups	%xmm6, 96(%rdi,%r8,4)
	movups	%xmm5, 80(%rdi,%r8,4)
	movups	%xmm4, 64(%rdi,%r8,4)
	movups	%xmm3, 48(%rdi,%r8,4)
	movups	%xmm2, 32(%rdi,%r8,4)
	movups	%xmm1, 16(%rdi,%r8,4)
	movups	%xmm0, (%rdi,%r8,4)
	movups	(%rdx,%rbx), %xmm0
	movups	16(%rdx,%rbx), %xmm1
	movups	32(%rdx,%rbx), %xmm2
	movups	48(%rdx,%rbx), %xmm3
	movups	64(%rdx,%rbx), %xmm4
	movups	80(%rdx,%rbx), %xmm5
	movups	96(%rdx,%rbx), %xmm6
	movups	112(%rdx,%rbx), %xmm7
	movq	16(%rsp), %rbx
	movups	%xmm7, 112(%rdx,%rsi)
	movups	%xmm6, 96(%rdx,%rsi)
	movups	%xmm5, 80(%rdx,%rsi)
	movups	%xmm4, 64(%rdx,%rsi)
	movups	%xmm3, 48(%rdx,%rsi)
	movups	%xmm2, 32(%rdx,%rsi)
	movups	%xmm1, 16(%rdx,%rsi)
	movups	%xmm0, (%rdx,%rsi)
	movq	%rax, %rdx
.LBB_1af0b0_11:
	cmpq	%rax, %r13
	movq	24(%rsp), %r15
	je	.LBB_1af0b0_44
	addq	%rdx, %rbp
	subq	%r9, %rbp
	leaq	1(%rbp), %r9
	imulq	%rbx, %r9
	leaq	(,%r12,4), %r8
	leaq	(%r8,%r9,4), %r11
	leaq	(,%r10,4), %r14
	subq	%r14, %r11
	leaq	1(%rdx), %rsi
	imulq	%r15, %rsi
	leaq	(%r8,%rsi,4), %rax
	addq	$-128, %rax
	leaq	(%r14,%rsi,4), %rsi
	imulq	%rbx, %rbp
	leaq	(%r8,%rbp,4), %r14
	leaq	(,%r10,4), %r8
	subq	%r8, %r14
	movq	8(%rsp), %rbx
	leaq	(%r11,%rbx), %r8
	addq	$-128, %r8
	leaq	(%rbx,%r9,4), %r9
	leaq	(%r14,%rbx), %r11
	addq	$-128, %r11
	leaq	(%rbx,%rbp,4), %rbx
	subq	%rdx, %r13
	imulq	%r15, %rdx
	addq	%rdx, %r12
	addq	%r10, %rdx
	shlq	$2, %rcx
	movq	16(%rsp), %r10
	leaq	(,%r10,8), %r14
	shlq	$3, %r15
	leaq	-128(,%r12,4), %r10
	shlq	$2, %rdx
	.p2align	4
.LBB_1af0b0_13:
	movups	(%rbx,%rcx), %xmm0
	movups	16(%rbx,%rcx), %xmm1
	movups	32(%rbx,%rcx), %xmm2
	movups	48(%rbx,%rcx), %xmm3
	movups	64(%rbx,%rcx), %xmm4
	movups	80(%rbx,%rcx), %xmm5
	movups	96(%rbx,%rcx), %xmm6
	movups	112(%rbx,%rcx), %xmm7
	movups	%xmm7, 112(%rdi,%rdx)
	movups	%xmm6, 96(%rdi,%rdx)
	movups	%xmm5, 80(%rdi,%rdx)
	movups	%xmm4, 64(%rdi,%rdx)
	movups	%xmm3, 48(%rdi,%rdx)
	movups	%xmm2, 32(%rdi,%rdx)
	movups	%xmm1, 16(%rdi,%rdx)
	movups	%xmm0, (%rdi,%rdx)
	movups	(%r11,%rcx), %xmm0
	movups	16(%r11,%rcx), %xmm1
	movups	32(%r11,%rcx), %xmm2
	movups	48(%r11,%rcx), %xmm3
	movups	64(%r11,%rcx), %xmm4
	movups	80(%r11,%rcx), %xmm5
	movups	96(%r11,%rcx), %xmm6
	movups	112(%r11,%rcx), %xmm7
	movups	%xmm7, 112(%rdi,%r10)
	movups	%xmm6, 96(%rdi,%r10)
	movups	%xmm5, 80(%rdi,%r10)
	movups	%xmm4, 64(%rdi,%r10)
	movups	%xmm3, 48(%rdi,%r10)
	movups	%xmm2, 32(%rdi,%r10)
	movups	%xmm1, 16(%rdi,%r10)
	movups	%xmm0, (%rdi,%r10)
	movups	(%r9,%rcx), %xmm0
	movups	16(%r9,%rcx), %xmm1
	movups	32(%r9,%rcx), %xmm2
	movups	48(%r9,%rcx), %xmm3
	movups	64(%r9,%rcx), %xmm4
	movups	80(%r9,%rcx), %xmm5
	movups	96(%r9,%rcx), %xmm6
	movups	112(%r9,%rcx), %xmm7
	movups	%xmm7, 112(%rdi,%rsi)
	movups	%xmm6, 96(%rdi,%rsi)
	movups	%xmm5, 80(%rdi,%rsi)
	movups	%xmm4, 64(%rdi,%rsi)
	movups	%xmm3, 48(%rdi,%rsi)
	movups	%xmm2, 32(%rdi,%rsi)
	movups	%xmm1, 16(%rdi,%rsi)
	movups	%xmm0, (%rdi,%rsi)
	movups	(%r8,%rcx), %xmm0
	movups	16(%r8,%rcx), %xmm1
	movups	32(%r8,%rcx), %xmm2
	movups	48(%r8,%rcx), %xmm3
	movups	64(%r8,%rcx), %xmm4
	movups	80(%r8,%rcx), %xmm5
	movups	96(%r8,%rcx), %xmm6
	movups	112(%r8,%rcx), %xmm7
	movups	%xmm7, 112(%rdi,%rax)
	movups	%xmm6, 96(%rdi,%rax)
	movups	%xmm5, 80(%rdi,%rax)
	movups	%xmm4, 64(%rdi,%rax)
	movups	%xmm3, 48(%rdi,%rax)
	movups	%xmm2, 32(%rdi,%rax)
	movups	%xmm1, 16(%rdi,%rax)
	movups	%xmm0, (%rdi,%rax)
	addq	%r14, %r8
	addq	%r14, %r9
	addq	%r15, %rdi
	addq	%r14, %r11
	addq	%r14, %rbx
	addq	$-2, %r13
	jne	.LBB_1af0b0_13
	jmp	.LBB_1af0b0_44
.LBB_1af0b0_14:
	cmpq	$17, %r10
	movq	24(%rsp), %r15
	movq	%rdx, %r14
	jae	.LBB_1af0b0_15
	cmpq	$8, %r10
	jbe	.LBB_1af0b0_21
	movl	%r13d, %esi
	subl	%r9d, %esi
	leaq	1(%r9), %rdx
	movq	%r9, %rax
	testb	$1, %sil
	je	.LBB_1af0b0_28
	movq	32(%rsp), %rax
	leaq	-32(,%rax,4), %rax
	movq	%r9, %rsi
	imulq	%r15, %rsi
	addq	%r14, %rsi
	movq	%rbp, %r8
	imulq	%rbx, %r8
	addq	%rcx, %r8
	leaq	(%rdi,%rsi,4), %r11
	movq	8(%rsp), %r10
	leaq	(%r10,%r8,4), %rbx
	movups	(%r10,%r8,4), %xmm0
	movups	16(%r10,%r8,4), %xmm1
	movups	%xmm1, 16(%rdi,%rsi,4)
	movups	%xmm0, (%rdi,%rsi,4)
	movups	(%rax,%rbx), %xmm0
	movups	16(%rax,%rbx), %xmm1
	movq	16(%rsp), %rbx
	movups	%xmm1, 16(%rax,%r11)
	movups	%xmm0, (%rax,%r11)
	movq	%rdx, %rax
.LBB_1af0b0_28:
	cmpq	%rdx, %r13
	je	.LBB_1af0b0_44
	addq	%rax, %rbp
	subq	%r9, %rbp
	leaq	1(%rbp), %r9
	imulq	%rbx, %r9
	leaq	(,%r12,4), %r8
	leaq	(%r8,%r9,4), %r11
	movq	%r14, %r10
	leaq	(,%r14,4), %r14
	subq	%r14, %r11
	leaq	1(%rax), %rsi
	imulq	%r15, %rsi
	leaq	(%r8,%rsi,4), %rdx
	addq	$-32, %rdx
	leaq	(%r14,%rsi,4), %rsi
	imulq	%rbx, %rbp
	leaq	(%r8,%rbp,4), %r14
	leaq	(,%r10,4), %r8
	subq	%r8, %r14
	movq	8(%rsp), %rbx
	leaq	(%r11,%rbx), %r8
	addq	$-32, %r8
	leaq	(%rbx,%r9,4), %r9
	leaq	(%r14,%rbx), %r11
	addq	$-32, %r11
	leaq	(%rbx,%rbp,4), %rbx
	subq	%rax, %r13
	imulq	%r15, %rax
	addq	%rax, %r12
	addq	%r10, %rax
	shlq	$2, %rcx
	movq	16(%rsp), %r10
	leaq	(,%r10,8), %r14
	shlq	$3, %r15
	leaq	-32(,%r12,4), %r10
	shlq	$2, %rax
	.p2align	4
.LBB_1af0b0_30:
	movups	(%rbx,%rcx), %xmm0
	movups	16(%rbx,%rcx), %xmm1
	movups	%xmm1, 16(%rdi,%rax)
	movups	%xmm0, (%rdi,%rax)
	movups	(%r11,%rcx), %xmm0
	movups	16(%r11,%rcx), %xmm1
	movups	%xmm1, 16(%rdi,%r10)
	movups	%xmm0, (%rdi,%r10)
	movups	(%r9,%rcx), %xmm0
	movups	16(%r9,%rcx), %xmm1
	movups	%xmm1, 16(%rdi,%rsi)
	movups	%xmm0, (%rdi,%rsi)
	movups	(%r8,%rcx), %xmm0
	movups	16(%r8,%rcx), %xmm1
	movups	%xmm1, 16(%rdi,%rdx)
	movups	%xmm0, (%rdi,%rdx)
	addq	%r14, %r8
	addq	%r14, %r9
	addq	%r15, %rdi
	addq	%r14, %r11
	addq	%r14, %rbx
	addq	$-2, %r13
	jne	.LBB_1af0b0_30
	jmp	.LBB_1af0b0_44
.LBB_1af0b0_15:
	movl	%r13d, %esi
	subl	%r9d, %esi
	leaq	1(%r9), %rdx
	movq	%r9, %rax
	testb	$1, %sil
	je	.LBB_1af0b0_17
	movq	32(%rsp), %rax
	leaq	-64(,%rax,4), %rax
	movq	%r9, %rsi
	imulq	%r15, %rsi
	addq	%r14, %rsi
	movq	%rbp, %r8
	imulq	%rbx, %r8
	addq	%rcx, %r8
	leaq	(%rdi,%rsi,4), %r11
	movq	8(%rsp), %r10
	leaq	(%r10,%r8,4), %rbx
	movups	(%r10,%r8,4), %xmm0
	movups	16(%r10,%r8,4), %xmm1
	movups	32(%r10,%r8,4), %xmm2
	movups	48(%r10,%r8,4), %xmm3
	movups	%xmm3, 48(%rdi,%rsi,4)
	movups	%xmm2, 32(%rdi,%rsi,4)
	movups	%xmm1, 16(%rdi,%rsi,4)
	movups	%xmm0, (%rdi,%rsi,4)
	movups	(%rax,%rbx), %xmm0
	movups	16(%rax,%rbx), %xmm1
	movups	32(%rax,%rbx), %xmm2
	movups	48(%rax,%rbx), %xmm3
	movq	16(%rsp), %rbx
	movups	%xmm3, 48(%rax,%r11)
	movups	%xmm2, 32(%rax,%r11)
	movups	%xmm1, 16(%rax,%r11)
	movups	%xmm0, (%rax,%r11)
	movq	%rdx, %rax
.LBB_1af0b0_17:
	cmpq	%rdx, %r13
	je	.LBB_1af0b0_44
	addq	%rax, %rbp
	subq	%r9, %rbp
	leaq	1(%rbp), %r9
	imulq	%rbx, %r9
	leaq	(,%r12,4), %r8
	leaq	(%r8,%r9,4), %r11
	movq	%r14, %r10
	leaq	(,%r14,4), %r14
	subq	%r14, %r11
	leaq	1(%rax), %rsi
	imulq	%r15, %rsi
	leaq	(%r8,%rsi,4), %rdx
	addq	$-64, %rdx
	leaq	(%r14,%rsi,4), %rsi
	imulq	%rbx, %rbp
	leaq	(%r8,%rbp,4), %r14
	leaq	(,%r10,4), %r8
	subq	%r8, %r14
	movq	8(%rsp), %rbx
	leaq	(%r11,%rbx), %r8
	addq	$-64, %r8
	leaq	(%rbx,%r9,4), %r9
	leaq	(%r14,%rbx), %r11
	addq	$-64, %r11
	leaq	(%rbx,%rbp,4), %rbx
	subq	%rax, %r13
	imulq	%r15, %rax
	addq	%rax, %r12
	addq	%r10, %rax
	shlq	$2, %rcx
	movq	16(%rsp), %r10
	leaq	(,%r10,8), %r14
	shlq	$3, %r15
	leaq	-64(,%r12,4), %r10
	shlq	$2, %rax
	.p2align	4
.LBB_1af0b0_19:
	movups	(%rbx,%rcx), %xmm0
	movups	16(%rbx,%rcx), %xmm1
	movups	32(%rbx,%rcx), %xmm2
	movups	48(%rbx,%rcx), %xmm3
	movups	%xmm3, 48(%rdi,%rax)
	movups	%xmm2, 32(%rdi,%rax)
	movups	%xmm1, 16(%rdi,%rax)
	movups	%xmm0, (%rdi,%rax)
	movups	(%r11,%rcx), %xmm0
	movups	16(%r11,%rcx), %xmm1
	movups	32(%r11,%rcx), %xmm2
	movups	48(%r11,%rcx), %xmm3
	movups	%xmm3, 48(%rdi,%r10)
	movups	%xmm2, 32(%rdi,%r10)
	movups	%xmm1, 16(%rdi,%r10)
	movups	%xmm0, (%rdi,%r10)
	movups	(%r9,%rcx), %xmm0
	movups	16(%r9,%rcx), %xmm1
	movups	32(%r9,%rcx), %xmm2
	movups	48(%r9,%rcx), %xmm3
	movups	%xmm3, 48(%rdi,%rsi)
	movups	%xmm2, 32(%rdi,%rsi)
	movups	%xmm1, 16(%rdi,%rsi)
	movups	%xmm0, (%rdi,%rsi)
	movups	(%r8,%rcx), %xmm0
	movups	16(%r8,%rcx), %xmm1
	movups	32(%r8,%rcx), %xmm2
	movups	48(%r8,%rcx), %xmm3
	movups	%xmm3, 48(%rdi,%rdx)
	movups	%xmm2, 32(%rdi,%rdx)
	movups	%xmm1, 16(%rdi,%rdx)
	movups	%xmm0, (%rdi,%rdx)
	addq	%r14, %r8
	addq	%r14, %r9
	addq	%r15, %rdi
	addq	%r14, %r11
	addq	%r14, %rbx
	addq	$-2, %r13
	jne	.LBB_1af0b0_19
	jmp	.LBB_1af0b0_44
.LBB_1af0b0_21:
	movl	%r13d, %edx
	subl	%r9d, %edx
	leaq	1(%r9), %rax
	movq	%r9, %r8
	testb	$1, %dl
	je	.LBB_1af0b0_23
	movq	%r9, %rdx
	imulq	%r15, %rdx
	addq	%r14, %rdx
	movq	%rbp, %rsi
	imulq	%rbx, %rsi
	addq	%rcx, %rsi
	movq	8(%rsp), %r8
	movups	(%r8,%rsi,4), %xmm0
	movups	16(%r8,%rsi,4), %xmm1
	movups	%xmm1, 16(%rdi,%rdx,4)
	movups	%xmm0, (%rdi,%rdx,4)
	movq	%rax, %r8
.LBB_1af0b0_23:
	cmpq	%rax, %r13
	je	.LBB_1af0b0_44
	subq	%r8, %r13
	addq	%r8, %rbp
	subq	%r9, %rbp
	leaq	1(%rbp), %rax
	imulq	%rbx, %rax
	shlq	$2, %rax
	movq	8(%rsp), %rdx
	leaq	(%rdx,%rcx,4), %rcx
	leaq	(,%rbx,8), %rdx
	leaq	1(%r8), %rsi
	imulq	%r15, %rsi
	leaq	(%rdi,%rsi,4), %rsi
	shlq	$2, %r14
	imulq	%rbx, %rbp
	shlq	$2, %rbp
	imulq	%r15, %r8
	shlq	$3, %r15
	leaq	(%rdi,%r8,4), %rdi
	.p2align	4
.LBB_1af0b0_25:
	movups	(%rcx,%rbp), %xmm0
	movups	16(%rcx,%rbp), %xmm1
	movups	%xmm1, 16(%rdi,%r14)
	movups	%xmm0, (%rdi,%r14)
	movups	(%rcx,%rax), %xmm0
	movups	16(%rcx,%rax), %xmm1
	movups	%xmm1, 16(%rsi,%r14)
	movups	%xmm0, (%rsi,%r14)
	addq	%rdx, %rcx
	addq	%r15, %r14
	addq	$-2, %r13
	jne	.LBB_1af0b0_25
	jmp	.LBB_1af0b0_44
.Lfunc_end_1af0b0:
	.size	"pix_raster::view::blit_overlap::<#c5cfb15747d2bb36>", .Lfunc_end_1af0b0-"pix_raster::view::blit_overlap::<#c5cfb15747d2bb36>"

	.section	.rodata.cst16,"aM",@progbits,16
	.p2align	4, 0x0
.LCPI_24379e_0:
	.byte	255
	.byte	0
	.byte	255
	.byte	0
	.byte	255
	.byte	0
	.byte	255
	.byte	0
	.byte	255
	.byte	0
	.byte	255
	.byte	0
	.byte	255
	.byte	0
	.byte	255
	.byte	0
.LCPI_24379e_1:
	.short	128
	.short	128
	.short	128
	.short	128
	.short	128
	.short	128
	.short	128
	.short	128
.LCPI_24379e_2:
	.zero	16,1
.LCPI_24379e_3:
	.short	128
	.short	128
	.zero	2
	.zero	2
	.zero	2
	.zero	2
	.zero	2
	.zero	2
.LCPI_24379e_4:
	.byte	128
	.byte	128
	.byte	128
	.byte	2
	.zero	1
	.zero	1
	.zero	1
	.zero	1
	.zero	1
	.zero	1
	.zero	1
	.zero	1
	.zero	1
	.zero	1
	.zero	1
	.zero	1
	.section	".text.pix_raster::view::blit_overlap::<#a1852713be2e9a48>","ax",@progbits
	.p2align	4
	.type	"pix_raster::view::blit_overlap::<#a1852713be2e9a48>",@function
"pix_raster::view::blit_overlap::<#a1852713be2e9a48>":
	pushq	%rbp
	pushq	%r15
	pushq	%r14
	pushq	%r13
	pushq	%r12
	pushq	%rbx
	movq	%rcx, -120(%rsp)
	movq	%rsi, -96(%rsp)
	movq	%rdi, -104(%rsp)
	movq	24(%r8), %rcx
	movq	32(%r8), %rax
	movq	%rax, -8(%rsp)
	cmpq	%rax, %rcx
	jae	.LBB_24379e_22
	movq	(%r8), %r14
	movq	16(%r8), %rdi
	leaq	(%rdx,%rdi), %rax
	movq	%rax, -32(%rsp)
	movq	8(%r8), %rax
	movq	40(%r8), %rsi
	subq	%r14, %rax
	movq	%rsi, %r8
	subq	%rcx, %r8
	movq	%r8, -40(%rsp)
	movq	%rax, %r10
	movl	%r9d, %r8d
	shrl	$24, %r8d
	movl	%r8d, %r15d
	movl	%r9d, %r8d
	shrl	$16, %r8d
	movl	%r9d, %ebx
	shrl	$8, %ebx
	movd	%r9d, %xmm0
	pinsrb	$1, %ebx, %xmm0
	pinsrb	$2, %r8d, %xmm0
	pinsrb	$3, %r15d, %xmm0
	pinsrb	$4, %r9d, %xmm0
	pinsrb	$5, %ebx, %xmm0
	pinsrb	$6, %r8d, %xmm0
	pinsrb	$7, %r15d, %xmm0
	pinsrb	$8, %r9d, %xmm0
	pinsrb	$9, %ebx, %xmm0
	pinsrb	$10, %r8d, %xmm0
	pinsrb	$11, %r15d, %xmm0
	pinsrb	$12, %r9d, %xmm0
	pinsrb	$13, %ebx, %xmm0
	shrq	$4, %r10
	movq	%r10, -80(%rsp)
	pinsrb	$14, %r8d, %xmm0
	movdqa	.LCPI_24379e_0(%rip), %xmm1
	pand	%xmm0, %xmm1
	pinsrb	$15, %r15d, %xmm0
	psrlw	$8, %xmm0
	movq	%rax, %rbx
	andq	$-16, %rbx
	movl	%eax, %r12d
	andl	$15, %r12d
	movl	%eax, %r13d
	andl	$8, %r13d
	movq	%rax, %r10
	movq	%rax, -112(%rsp)
	andl	$12, %r10d
	movzbl	%r8b, %r8d
	movd	%r8d, %xmm2
	movl	%r9d, %eax
	movzbl	%ah, %ebp
	movzbl	%al, %r11d
	pinsrw	$1, %r15d, %xmm2
	imulq	-120(%rsp), %rsi
	addq	%rdi, %rsi
	leaq	(%rdx,%rsi), %r8
	addq	$8, %r8
	leaq	(%rbx,%r10), %r15
	addq	%rdx, %r15
	movq	%rcx, %rdi
	movq	-96(%rsp), %r9
	imulq	%r9, %rdi
	addq	%rsi, %r15
	movq	%r14, %rax
	leaq	(%r14,%rdi), %rsi
	movq	-104(%rsp), %rdx
	leaq	(%rdx,%rsi,4), %r14
	movq	%rbx, -72(%rsp)
	leaq	(,%rbx,4), %rsi
	movq	%rsi, -48(%rsp)
	leaq	(%rsi,%rdi,4), %rsi
	movq	%r10, -88(%rsp)
	leaq	(%rsi,%r10,4), %rsi
	movq	%rax, -24(%rsp)
	leaq	(%rsi,%rax,4), %rsi
	addq	%rdx, %rsi
	movq	%r13, -56(%rsp)
	leal	(,%r13,4), %edx
	movq	%rdx, -64(%rsp)
	movq	-80(%rsp), %rax
	leaq	(,%rax,4), %rdi
	leaq	(,%r9,4), %rax
	movq	%rax, -16(%rsp)
	jmp	.LBB_24379e_2
	.p2align	4
.LBB_24379e_21:
	incq	%rcx
	movq	-120(%rsp), %rax
	addq	%rax, %r8
	movq	-16(%rsp), %rdx
	addq	%rdx, %r14
	addq	%rax, %r15
	addq	%rdx, %rsi
	cmpq	-8(%rsp), %rcx
	je	.LBB_24379e_22
.LBB_24379e_2:
	cmpq	$0, -80(%rsp)
	je	.LBB_24379e_8
	xorl	%r9d, %r9d
	movq	%r14, %r10
	jmp	.LBB_24379e_4
	.p2align	4
.LBB_24379e_6:
	movq	%rbx, %xmm6
	punpcklbw	%xmm6, %xmm6
	movdqa	%xmm6, %xmm7
	punpcklwd	%xmm6, %xmm7
	punpckhwd	%xmm6, %xmm6
	movdqa	.LCPI_24379e_0(%rip), %xmm3
	movdqa	%xmm6, %xmm8
	pand	%xmm3, %xmm8
	movdqa	%xmm7, %xmm9
	pand	%xmm3, %xmm9
	pmullw	%xmm1, %xmm9
	pmullw	%xmm1, %xmm8
	movdqa	.LCPI_24379e_1(%rip), %xmm4
	paddw	%xmm4, %xmm8
	paddw	%xmm4, %xmm9
	movdqa	.LCPI_24379e_2(%rip), %xmm5
	pmulhuw	%xmm5, %xmm9
	pmulhuw	%xmm5, %xmm8
	psrlw	$8, %xmm7
	psrlw	$8, %xmm6
	pmullw	%xmm0, %xmm6
	pmullw	%xmm0, %xmm7
	paddw	%xmm4, %xmm7
	paddw	%xmm4, %xmm6
	pmulhuw	%xmm5, %xmm6
	pmulhuw	%xmm5, %xmm7
	psllw	$8, %xmm7
	por	%xmm9, %xmm7
	psllw	$8, %xmm6
	por	%xmm8, %xmm6
	movdqu	%xmm7, (%r10)
	movdqu	%xmm6, 16(%r10)
	movq	(%r8,%r9,4), %xmm6
	punpcklbw	%xmm6, %xmm6
	movdqa	%xmm6, %xmm7
	punpcklwd	%xmm6, %xmm7
	punpckhwd	%xmm6, %xmm6
	movdqa	%xmm6, %xmm8
	pand	%xmm3, %xmm8
	pand	%xmm7, %xmm3
	pmullw	%xmm1, %xmm3
	pmullw	%xmm1, %xmm8
	paddw	%xmm4, %xmm8
	paddw	%xmm4, %xmm3
	pmulhuw	%xmm5, %xmm3
	pmulhuw	%xmm5, %xmm8
	psrlw	$8, %xmm7
	psrlw	$8, %xmm6
	pmullw	%xmm0, %xmm6
	pmullw	%xmm0, %xmm7
	paddw	%xmm4, %xmm7
	paddw	%xmm4, %xmm6
	pmulhuw	%xmm5, %xmm6
	pmulhuw	%xmm5, %xmm7
	psllw	$8, %xmm7
	por	%xmm3, %xmm7
	psllw	$8, %xmm6
	por	%xmm8, %xmm6
	movdqu	%xmm7, 32(%r10)
	movdqu	%xmm6, 48(%r10)
	addq	$4, %r9
	addq	$64, %r10
	cmpq	%r9, %rdi
	je	.LBB_24379e_8
.LBB_24379e_4:
	movq	-8(%r8,%r9,4), %rbx
	movq	(%r8,%r9,4), %r13
	orq	%rbx, %r13
	jne	.LBB_24379e_6
	pxor	%xmm3, %xmm3
	movdqu	%xmm3, 48(%r10)
	movdqu	%xmm3, 32(%r10)
	movdqu	%xmm3, 16(%r10)
	movdqu	%xmm3, (%r10)
	addq	$4, %r9
	addq	$64, %r10
	cmpq	%r9, %rdi
	jne	.LBB_24379e_4
.LBB_24379e_8:
	movq	-72(%rsp), %rax
	cmpq	-112(%rsp), %rax
	je	.LBB_24379e_21
	movq	%rcx, %r9
	imulq	-96(%rsp), %r9
	addq	-24(%rsp), %r9
	movq	-40(%rsp), %rax
	leaq	(%rax,%rcx), %r10
	imulq	-120(%rsp), %r10
	addq	-32(%rsp), %r10
	movq	-104(%rsp), %rax
	leaq	(%rax,%r9,4), %r9
	addq	-48(%rsp), %r9
	addq	-72(%rsp), %r10
	testb	$8, -112(%rsp)
	jne	.LBB_24379e_10
	testb	$4, -112(%rsp)
	jne	.LBB_24379e_14
.LBB_24379e_18:
	cmpl	%r12d, -88(%rsp)
	je	.LBB_24379e_21
	jmp	.LBB_24379e_19
	.p2align	4
.LBB_24379e_10:
	movq	(%r10), %rbx
	testq	%rbx, %rbx
	je	.LBB_24379e_11
	movq	%rbx, %xmm3
	punpcklbw	%xmm3, %xmm3
	movdqa	%xmm3, %xmm4
	punpcklwd	%xmm3, %xmm4
	punpckhwd	%xmm3, %xmm3
	movdqa	.LCPI_24379e_0(%rip), %xmm6
	movdqa	%xmm3, %xmm5
	pand	%xmm6, %xmm5
	pand	%xmm4, %xmm6
	pmullw	%xmm1, %xmm6
	pmullw	%xmm1, %xmm5
	movdqa	.LCPI_24379e_1(%rip), %xmm7
	paddw	%xmm7, %xmm5
	paddw	%xmm7, %xmm6
	movdqa	.LCPI_24379e_2(%rip), %xmm8
	pmulhuw	%xmm8, %xmm6
	pmulhuw	%xmm8, %xmm5
	psrlw	$8, %xmm4
	psrlw	$8, %xmm3
	pmullw	%xmm0, %xmm3
	pmullw	%xmm0, %xmm4
	paddw	%xmm7, %xmm4
	paddw	%xmm7, %xmm3
	pmulhuw	%xmm8, %xmm3
	pmulhuw	%xmm8, %xmm4
	psllw	$8, %xmm4
	por	%xmm6, %xmm4
	psllw	$8, %xmm3
	por	%xmm5, %xmm3
	movdqu	%xmm4, (%r9)
	movdqu	%xmm3, 16(%r9)
	testb	$4, -112(%rsp)
	je	.LBB_24379e_18
	jmp	.LBB_24379e_14
.LBB_24379e_11:
	pxor	%xmm3, %xmm3
	movdqu	%xmm3, 16(%r9)
	movdqu	%xmm3, (%r9)
	testb	$4, -112(%rsp)
	je	.LBB_24379e_18
	.p2align	4
.LBB_24379e_14:
	addq	-64(%rsp), %r9
	movq	-56(%rsp), %rax
	movl	(%r10,%rax), %r10d
	testl	%r10d, %r10d
	je	.LBB_24379e_15
	movd	%r10d, %xmm3
	punpcklbw	%xmm3, %xmm3
	punpcklwd	%xmm3, %xmm3
	movdqa	.LCPI_24379e_0(%rip), %xmm4
	pand	%xmm3, %xmm4
	pmullw	%xmm1, %xmm4
	movdqa	.LCPI_24379e_1(%rip), %xmm5
	paddw	%xmm5, %xmm4
	movdqa	.LCPI_24379e_2(%rip), %xmm6
	pmulhuw	%xmm6, %xmm4
	psrlw	$8, %xmm3
	pmullw	%xmm0, %xmm3
	paddw	%xmm5, %xmm3
	pmulhuw	%xmm6, %xmm3
	psllw	$8, %xmm3
	por	%xmm4, %xmm3
	movdqu	%xmm3, (%r9)
	cmpl	%r12d, -88(%rsp)
	je	.LBB_24379e_21
	jmp	.LBB_24379e_19
.LBB_24379e_15:
	pxor	%xmm3, %xmm3
	movdqu	%xmm3, (%r9)
	cmpl	%r12d, -88(%rsp)
	je	.LBB_24379e_21
	.p2align	4
.LBB_24379e_19:
	xorl	%r9d, %r9d
	movq	-88(%rsp), %r10
	.p2align	4
.LBB_24379e_20:
	movzbl	(%r15,%r9), %r13d
	movzwl	%r11w, %ebx
	imull	%r13d, %ebx
	leal	128(%rbx), %eax
	movzbl	%ah, %eax
	addl	%ebx, %eax
	addl	$128, %eax
	movzbl	%ah, %ebx
	movzwl	%bp, %eax
	imull	%r13d, %eax
	leal	128(%rax), %edx
	movzbl	%dh, %edx
	addl	%edx, %eax
	addl	$128, %eax
	andl	$65280, %eax
	movd	%r13d, %xmm3
	pshuflw	$0, %xmm3, %xmm3
	pmullw	%xmm2, %xmm3
	paddw	.LCPI_24379e_3(%rip), %xmm3
	movdqa	%xmm3, %xmm4
	psrlw	$8, %xmm4
	paddw	%xmm3, %xmm4
	psrlw	$8, %xmm4
	movdqa	%xmm4, %xmm3
	pslld	$16, %xmm3
	pshufb	.LCPI_24379e_4(%rip), %xmm4
	por	%xmm3, %xmm4
	movd	%xmm4, %edx
	orl	%eax, %edx
	orl	%ebx, %edx
	movl	%edx, (%rsi,%r9,4)
	incq	%r10
	incq	%r9
	cmpq	%r12, %r10
	jb	.LBB_24379e_20
	jmp	.LBB_24379e_21
.LBB_24379e_22:
	popq	%rbx
	popq	%r12
	popq	%r13
	popq	%r14
	popq	%r15
	popq	%rbp
	retq
.Lfunc_end_24379e:
	.size	"pix_raster::view::blit_overlap::<#a1852713be2e9a48>", .Lfunc_end_24379e-"pix_raster::view::blit_overlap::<#a1852713be2e9a48>"

	.section	.rodata.cst16,"aM",@progbits,16
	.p2align	4, 0x0
.LCPI_0fd7f9_0:
	.byte	255
	.byte	0
	.byte	255
	.byte	0
	.byte	255
	.byte	0
	.byte	255
	.byte	0
	.byte	255
	.byte	0
	.byte	255
	.byte	0
	.byte	255
	.byte	0
	.byte	255
	.byte	0
.LCPI_0fd7f9_1:
	.short	128
	.short	128
	.short	128
	.short	128
	.short	128
	.short	128
	.short	128
	.short	128
.LCPI_0fd7f9_2:
	.zero	16,1
	.section	".text.pix_raster::view::blit_overlap::<#c5504568367a188d>","ax",@progbits
	.p2align	4
	.type	"pix_raster::view::blit_overlap::<#c5504568367a188d>",@function
"pix_raster::view::blit_overlap::<#c5504568367a188d>":
	pushq	%rbp
	pushq	%r15
	pushq	%r14
	pushq	%r13
	pushq	%r12
	pushq	%rbx
	movq	%rcx, -88(%rsp)
	movq	%rdx, -96(%rsp)
	movq	%rsi, -104(%rsp)
	movq	%rdi, -112(%rsp)
	movq	24(%r8), %r10
	movq	32(%r8), %rax
	movq	%rax, -8(%rsp)
	cmpq	%rax, %r10
	jae	.LBB_0fd7f9_14
	movq	(%r8), %r12
	movq	16(%r8), %r15
	movq	8(%r8), %r14
	movq	40(%r8), %rcx
	subq	%r12, %r14
	movq	%rcx, %rax
	subq	%r10, %rax
	movq	%rax, -56(%rsp)
	movq	%r14, %rax
	shrq	$4, %rax
	movq	%rax, -80(%rsp)
	movzbl	%r9b, %r9d
	movd	%r9d, %xmm0
	pxor	%xmm1, %xmm1
	pshufb	%xmm1, %xmm0
	movdqa	.LCPI_0fd7f9_0(%rip), %xmm1
	pand	%xmm0, %xmm1
	psrlw	$8, %xmm0
	movq	%r14, %rax
	andq	$-16, %rax
	movq	%rax, -16(%rsp)
	leaq	(,%rax,4), %r13
	movl	%r14d, %ebp
	andl	$15, %ebp
	leal	(,%r14,4), %edx
	movl	%edx, %eax
	andl	$32, %eax
	movq	%rax, -72(%rsp)
	movq	-88(%rsp), %rdi
	imulq	%rdi, %rcx
	leaq	(,%r15,4), %rax
	leaq	(%rax,%rcx,4), %rbx
	movq	%r10, %rax
	movq	-104(%rsp), %r11
	imulq	%r11, %rax
	leaq	(,%r12,4), %rsi
	leaq	(%rsi,%rax,4), %r8
	leaq	(,%rcx,4), %rcx
	addq	%r13, %rcx
	andl	$48, %edx
	addq	%rdx, %rcx
	movq	%r13, -64(%rsp)
	leaq	(,%rax,4), %rax
	addq	%r13, %rax
	addq	%rdx, %rax
	movq	%r14, -120(%rsp)
	andl	$12, %r14d
	movq	-96(%rsp), %rdx
	addq	%rdx, %rbx
	movq	-112(%rsp), %rsi
	addq	%rsi, %r8
	movq	%r15, -48(%rsp)
	leaq	(%rcx,%r15,4), %r15
	addq	%rdx, %r15
	movq	%r12, -40(%rsp)
	leaq	(%rax,%r12,4), %rdx
	addq	%rsi, %rdx
	leaq	(,%rdi,4), %rax
	movq	%rax, -24(%rsp)
	leaq	(,%r11,4), %rax
	movq	%rax, -32(%rsp)
	jmp	.LBB_0fd7f9_2
	.p2align	4
.LBB_0fd7f9_13:
	incq	%r10
	movq	-24(%rsp), %rax
	addq	%rax, %rbx
	movq	-32(%rsp), %rcx
	addq	%rcx, %r8
	addq	%rax, %r15
	addq	%rcx, %rdx
	cmpq	-8(%rsp), %r10
	je	.LBB_0fd7f9_14
.LBB_0fd7f9_2:
	cmpq	$0, -80(%rsp)
	je	.LBB_0fd7f9_5
	movl	$32, %r13d
	movq	-80(%rsp), %r11
	.p2align	4
.LBB_0fd7f9_4:
	movdqu	-32(%rbx,%r13), %xmm6
	movdqu	-16(%rbx,%r13), %xmm5
	movdqa	.LCPI_0fd7f9_0(%rip), %xmm2
	movdqa	%xmm5, %xmm7
	pand	%xmm2, %xmm7
	movdqa	%xmm6, %xmm8
	pand	%xmm2, %xmm8
	pmullw	%xmm1, %xmm8
	pmullw	%xmm1, %xmm7
	movdqa	.LCPI_0fd7f9_1(%rip), %xmm3
	paddw	%xmm3, %xmm7
	paddw	%xmm3, %xmm8
	movdqa	.LCPI_0fd7f9_2(%rip), %xmm4
	pmulhuw	%xmm4, %xmm8
	pmulhuw	%xmm4, %xmm7
	psrlw	$8, %xmm6
	psrlw	$8, %xmm5
	pmullw	%xmm0, %xmm5
	pmullw	%xmm0, %xmm6
	paddw	%xmm3, %xmm6
	paddw	%xmm3, %xmm5
	pmulhuw	%xmm4, %xmm5
	pmulhuw	%xmm4, %xmm6
	psllw	$8, %xmm6
	por	%xmm8, %xmm6
	psllw	$8, %xmm5
	por	%xmm7, %xmm5
	movdqu	%xmm6, -32(%r8,%r13)
	movdqu	%xmm5, -16(%r8,%r13)
	movdqu	(%rbx,%r13), %xmm6
	movdqu	16(%rbx,%r13), %xmm5
	movdqa	%xmm5, %xmm7
	pand	%xmm2, %xmm7
	pand	%xmm6, %xmm2
	pmullw	%xmm1, %xmm2
	pmullw	%xmm1, %xmm7
	paddw	%xmm3, %xmm7
	paddw	%xmm3, %xmm2
	pmulhuw	%xmm4, %xmm2
	pmulhuw	%xmm4, %xmm7
	psrlw	$8, %xmm6
	psrlw	$8, %xmm5
	pmullw	%xmm0, %xmm5
	pmullw	%xmm0, %xmm6
	paddw	%xmm3, %xmm6
	paddw	%xmm3, %xmm5
	pmulhuw	%xmm4, %xmm5
	pmulhuw	%xmm4, %xmm6
	psllw	$8, %xmm6
	por	%xmm2, %xmm6
	psllw	$8, %xmm5
	por	%xmm7, %xmm5
	movdqu	%xmm6, (%r8,%r13)
	movdqu	%xmm5, 16(%r8,%r13)
	addq	$64, %r13
	decq	%r11
	jne	.LBB_0fd7f9_4
.LBB_0fd7f9_5:
	movq	-16(%rsp), %rax
	cmpq	-120(%rsp), %rax
	je	.LBB_0fd7f9_13
	movq	%r10, %rax
	imulq	-104(%rsp), %rax
	addq	-40(%rsp), %rax
	movq	-56(%rsp), %rcx
	leaq	(%rcx,%r10), %rsi
	imulq	-88(%rsp), %rsi
	addq	-48(%rsp), %rsi
	movq	-112(%rsp), %rcx
	leaq	(%rcx,%rax,4), %r11
	movq	-96(%rsp), %rax
	leaq	(%rax,%rsi,4), %r13
	movq	-64(%rsp), %rax
	addq	%rax, %r11
	addq	%rax, %r13
	testb	$8, -120(%rsp)
	jne	.LBB_0fd7f9_7
	testb	$4, -120(%rsp)
	jne	.LBB_0fd7f9_9
.LBB_0fd7f9_10:
	cmpl	%ebp, %r14d
	je	.LBB_0fd7f9_13
	jmp	.LBB_0fd7f9_11
	.p2align	4
.LBB_0fd7f9_7:
	movdqu	(%r13), %xmm3
	movdqu	16(%r13), %xmm2
	movdqa	.LCPI_0fd7f9_0(%rip), %xmm5
	movdqa	%xmm2, %xmm4
	pand	%xmm5, %xmm4
	pand	%xmm3, %xmm5
	pmullw	%xmm1, %xmm5
	pmullw	%xmm1, %xmm4
	movdqa	.LCPI_0fd7f9_1(%rip), %xmm6
	paddw	%xmm6, %xmm4
	paddw	%xmm6, %xmm5
	movdqa	.LCPI_0fd7f9_2(%rip), %xmm7
	pmulhuw	%xmm7, %xmm5
	pmulhuw	%xmm7, %xmm4
	psrlw	$8, %xmm3
	psrlw	$8, %xmm2
	pmullw	%xmm0, %xmm2
	pmullw	%xmm0, %xmm3
	paddw	%xmm6, %xmm3
	paddw	%xmm6, %xmm2
	pmulhuw	%xmm7, %xmm2
	pmulhuw	%xmm7, %xmm3
	psllw	$8, %xmm3
	por	%xmm5, %xmm3
	psllw	$8, %xmm2
	por	%xmm4, %xmm2
	movdqu	%xmm3, (%r11)
	movdqu	%xmm2, 16(%r11)
	testb	$4, -120(%rsp)
	je	.LBB_0fd7f9_10
.LBB_0fd7f9_9:
	movq	-72(%rsp), %rax
	movdqu	(%r13,%rax), %xmm2
	movdqa	.LCPI_0fd7f9_0(%rip), %xmm3
	pand	%xmm2, %xmm3
	pmullw	%xmm1, %xmm3
	movdqa	.LCPI_0fd7f9_1(%rip), %xmm4
	paddw	%xmm4, %xmm3
	movdqa	.LCPI_0fd7f9_2(%rip), %xmm5
	pmulhuw	%xmm5, %xmm3
	psrlw	$8, %xmm2
	pmullw	%xmm0, %xmm2
	paddw	%xmm4, %xmm2
	pmulhuw	%xmm5, %xmm2
	psllw	$8, %xmm2
	por	%xmm3, %xmm2
	movdqu	%xmm2, (%r11,%rax)
	cmpl	%ebp, %r14d
	je	.LBB_0fd7f9_13
.LBB_0fd7f9_11:
	xorl	%r11d, %r11d
	.p2align	4
.LBB_0fd7f9_12:
	movl	(%r15,%r11,4), %eax
	movzbl	%ah, %edi
	movl	%eax, %r13d
	movzbl	%al, %esi
	shrl	$16, %eax
	shrl	$24, %r13d
	movzwl	%r9w, %r12d
	imull	%r12d, %esi
	leal	128(%rsi), %ecx
	movzbl	%ch, %ecx
	addl	%esi, %ecx
	addl	$128, %ecx
	movzbl	%ch, %esi
	imull	%r12d, %edi
	leal	128(%rdi), %ecx
	movzbl	%ch, %ecx
	addl	%ecx, %edi
	addl	$128, %edi
	andl	$65280, %edi
	movzbl	%al, %eax
	imull	%r12d, %eax
	leal	128(%rax), %ecx
	movzbl	%ch, %ecx
	addl	%ecx, %eax
	addl	$128, %eax
	imull	%r12d, %r13d
	leal	128(%r13), %ecx
	movzbl	%ch, %ecx
	addl	%r13d, %ecx
	addl	$128, %ecx
	shll	$16, %ecx
	andl	$-16777216, %ecx
	shll	$8, %eax
	andl	$16711680, %eax
	orl	%ecx, %eax
	orl	%edi, %eax
	orl	%esi, %eax
	movl	%eax, (%rdx,%r11,4)
	leaq	(%r14,%r11), %rax
	incq	%rax
	incq	%r11
	cmpq	%rbp, %rax
	jb	.LBB_0fd7f9_12
	jmp	.LBB_0fd7f9_13
.LBB_0fd7f9_14:
	popq	%rbx
	popq	%r12
	popq	%r13
	popq	%r14
	popq	%r15
	popq	%rbp
	retq
.Lfunc_end_0fd7f9:
	.size	"pix_raster::view::blit_overlap::<#c5504568367a188d>", .Lfunc_end_0fd7f9-"pix_raster::view::blit_overlap::<#c5504568367a188d>"

	.section	.rodata.cst16,"aM",@progbits,16
	.p2align	4, 0x0
.LCPI_ac4e62_0:
	.byte	3
	.byte	128
	.byte	3
	.byte	128
	.byte	7
	.byte	128
	.byte	7
	.byte	128
	.byte	11
	.byte	128
	.byte	11
	.byte	128
	.byte	15
	.byte	128
	.byte	15
	.byte	128
.LCPI_ac4e62_1:
	.byte	255
	.byte	0
	.byte	255
	.byte	0
	.byte	255
	.byte	0
	.byte	255
	.byte	0
	.byte	255
	.byte	0
	.byte	255
	.byte	0
	.byte	255
	.byte	0
	.byte	255
	.byte	0
.LCPI_ac4e62_2:
	.short	128
	.short	128
	.short	128
	.short	128
	.short	128
	.short	128
	.short	128
	.short	128
.LCPI_ac4e62_3:
	.zero	16,1
.LCPI_ac4e62_4:
	.byte	3
	.byte	3
	.byte	3
	.byte	3
	.byte	7
	.byte	7
	.byte	7
	.byte	7
	.byte	11
	.byte	11
	.byte	11
	.byte	11
	.byte	15
	.byte	15
	.byte	15
	.byte	15
.LCPI_ac4e62_5:
	.short	128
	.short	128
	.short	128
	.short	128
	.zero	2
	.zero	2
	.zero	2
	.zero	2
.LCPI_ac4e62_6:
	.long	65536
	.long	16777216
	.long	256
	.long	1
	.section	".text.pix_raster::view::blit_overlap::<#c30dc3dde8429fd7>","ax",@progbits
	.p2align	4
	.type	"pix_raster::view::blit_overlap::<#c30dc3dde8429fd7>",@function
"pix_raster::view::blit_overlap::<#c30dc3dde8429fd7>":
	pushq	%rbp
	pushq	%r15
	pushq	%r14
	pushq	%r13
	pushq	%r12
	pushq	%rbx
	movq	%rcx, -88(%rsp)
	movq	%rdx, -96(%rsp)
	movq	%rsi, -104(%rsp)
	movq	%rdi, -112(%rsp)
	movq	24(%r8), %r10
	movq	32(%r8), %rax
	movq	%rax, -8(%rsp)
	cmpq	%rax, %r10
	jae	.LBB_ac4e62_14
	movq	(%r8), %r15
	movq	16(%r8), %r12
	movq	8(%r8), %r14
	movq	40(%r8), %rax
	subq	%r15, %r14
	movq	%rax, %rcx
	subq	%r10, %rcx
	movq	%rcx, -56(%rsp)
	movq	%r14, %rcx
	shrq	$4, %rcx
	movq	%rcx, -80(%rsp)
	movq	%r14, %rcx
	andq	$-16, %rcx
	movq	%rcx, -16(%rsp)
	leaq	(,%rcx,4), %rbp
	movl	%r14d, %r13d
	andl	$15, %r13d
	leal	(,%r14,4), %ecx
	movl	%ecx, %edx
	andl	$32, %edx
	movq	%rdx, -72(%rsp)
	movq	%r14, -120(%rsp)
	andl	$12, %r14d
	movq	%r10, %rdx
	movq	-104(%rsp), %r9
	imulq	%r9, %rdx
	leaq	(,%r15,4), %rsi
	leaq	(%rsi,%rdx,4), %r11
	movq	-112(%rsp), %rbx
	addq	%rbx, %r11
	movq	-88(%rsp), %rdi
	imulq	%rdi, %rax
	leaq	(,%r12,4), %rsi
	leaq	(%rsi,%rax,4), %r8
	leaq	(,%rax,4), %rax
	addq	%rbp, %rax
	andl	$48, %ecx
	addq	%rcx, %rax
	movq	%rbp, -64(%rsp)
	leaq	(,%rdx,4), %rdx
	addq	%rbp, %rdx
	addq	%rcx, %rdx
	leaq	(,%r9,4), %rcx
	movq	%rcx, -24(%rsp)
	movq	-96(%rsp), %rsi
	addq	%rsi, %r8
	movq	%r12, -48(%rsp)
	leaq	(%rax,%r12,4), %rcx
	addq	%rsi, %rcx
	movq	%r15, -40(%rsp)
	leaq	(%rdx,%r15,4), %rdx
	addq	%rbx, %rdx
	leaq	(,%rdi,4), %rax
	movq	%rax, -32(%rsp)
	jmp	.LBB_ac4e62_2
	.p2align	4
.LBB_ac4e62_13:
	incq	%r10
	movq	-24(%rsp), %rax
	addq	%rax, %r11
	movq	-32(%rsp), %rsi
	addq	%rsi, %r8
	addq	%rsi, %rcx
	addq	%rax, %rdx
	cmpq	-8(%rsp), %r10
	je	.LBB_ac4e62_14
.LBB_ac4e62_2:
	cmpq	$0, -80(%rsp)
	je	.LBB_ac4e62_5
	movl	$32, %edi
	movq	-80(%rsp), %r12
	.p2align	4
.LBB_ac4e62_4:
	movdqu	-32(%r8,%rdi), %xmm7
	movdqu	-16(%r8,%rdi), %xmm8
	pcmpeqd	%xmm3, %xmm3
	movdqa	%xmm8, %xmm12
	pxor	%xmm3, %xmm12
	movdqa	%xmm7, %xmm13
	pxor	%xmm3, %xmm13
	movdqa	.LCPI_ac4e62_0(%rip), %xmm6
	pshufb	%xmm6, %xmm13
	pshufb	%xmm6, %xmm12
	movdqa	.LCPI_ac4e62_1(%rip), %xmm2
	movdqu	-32(%r11,%rdi), %xmm9
	movdqu	-16(%r11,%rdi), %xmm10
	movdqu	(%r11,%rdi), %xmm0
	movdqu	16(%r11,%rdi), %xmm1
	movdqa	%xmm9, %xmm11
	pand	%xmm2, %xmm11
	movdqa	%xmm10, %xmm14
	pand	%xmm2, %xmm14
	pmullw	%xmm12, %xmm14
	pmullw	%xmm13, %xmm11
	movdqa	.LCPI_ac4e62_2(%rip), %xmm4
	paddw	%xmm4, %xmm11
	paddw	%xmm4, %xmm14
	movdqa	.LCPI_ac4e62_3(%rip), %xmm5
	pmulhuw	%xmm5, %xmm14
	pmulhuw	%xmm5, %xmm11
	psrlw	$8, %xmm10
	psrlw	$8, %xmm9
	pmullw	%xmm13, %xmm9
	pmullw	%xmm12, %xmm10
	paddw	%xmm4, %xmm10
	paddw	%xmm4, %xmm9
	pmulhuw	%xmm5, %xmm9
	pmulhuw	%xmm5, %xmm10
	psllw	$8, %xmm10
	por	%xmm14, %xmm10
	psllw	$8, %xmm9
	por	%xmm11, %xmm9
	paddusb	%xmm8, %xmm10
	paddusb	%xmm7, %xmm9
	movdqu	%xmm9, -32(%r11,%rdi)
	movdqu	%xmm10, -16(%r11,%rdi)
	movdqu	(%r8,%rdi), %xmm7
	movdqu	16(%r8,%rdi), %xmm8
	movdqa	%xmm8, %xmm9
	pxor	%xmm3, %xmm9
	pxor	%xmm7, %xmm3
	pshufb	%xmm6, %xmm3
	pshufb	%xmm6, %xmm9
	movdqa	%xmm0, %xmm6
	pand	%xmm2, %xmm6
	pand	%xmm1, %xmm2
	pmullw	%xmm9, %xmm2
	pmullw	%xmm3, %xmm6
	paddw	%xmm4, %xmm6
	paddw	%xmm4, %xmm2
	pmulhuw	%xmm5, %xmm2
	pmulhuw	%xmm5, %xmm6
	psrlw	$8, %xmm1
	psrlw	$8, %xmm0
	pmullw	%xmm3, %xmm0
	pmullw	%xmm9, %xmm1
	paddw	%xmm4, %xmm1
	paddw	%xmm4, %xmm0
	pmulhuw	%xmm5, %xmm0
	pmulhuw	%xmm5, %xmm1
	psllw	$8, %xmm1
	por	%xmm2, %xmm1
	psllw	$8, %xmm0
	por	%xmm6, %xmm0
	paddusb	%xmm8, %xmm1
	paddusb	%xmm7, %xmm0
	movdqu	%xmm0, (%r11,%rdi)
	movdqu	%xmm1, 16(%r11,%rdi)
	addq	$64, %rdi
	decq	%r12
	jne	.LBB_ac4e62_4
.LBB_ac4e62_5:
	movq	-16(%rsp), %rax
	cmpq	-120(%rsp), %rax
	je	.LBB_ac4e62_13
	movq	%r10, %rax
	imulq	-104(%rsp), %rax
	addq	-40(%rsp), %rax
	movq	-56(%rsp), %rsi
	addq	%r10, %rsi
	imulq	-88(%rsp), %rsi
	addq	-48(%rsp), %rsi
	movq	-112(%rsp), %rdi
	leaq	(%rdi,%rax,4), %rdi
	movq	-96(%rsp), %rax
	leaq	(%rax,%rsi,4), %r12
	movq	-64(%rsp), %rax
	addq	%rax, %rdi
	addq	%rax, %r12
	testb	$8, -120(%rsp)
	jne	.LBB_ac4e62_7
	testb	$4, -120(%rsp)
	jne	.LBB_ac4e62_9
.LBB_ac4e62_10:
	cmpl	%r13d, %r14d
	je	.LBB_ac4e62_13
	jmp	.LBB_ac4e62_11
	.p2align	4
.LBB_ac4e62_7:
	movdqu	(%r12), %xmm0
	movdqu	16(%r12), %xmm3
	movdqu	(%rdi), %xmm1
	movdqu	16(%rdi), %xmm2
	pcmpeqd	%xmm7, %xmm7
	movdqa	%xmm3, %xmm6
	pxor	%xmm7, %xmm6
	pxor	%xmm0, %xmm7
	movdqa	.LCPI_ac4e62_0(%rip), %xmm4
	pshufb	%xmm4, %xmm7
	pshufb	%xmm4, %xmm6
	movdqa	.LCPI_ac4e62_1(%rip), %xmm5
	movdqa	%xmm1, %xmm4
	pand	%xmm5, %xmm4
	pand	%xmm2, %xmm5
	pmullw	%xmm6, %xmm5
	pmullw	%xmm7, %xmm4
	movdqa	.LCPI_ac4e62_2(%rip), %xmm8
	paddw	%xmm8, %xmm4
	paddw	%xmm8, %xmm5
	movdqa	.LCPI_ac4e62_3(%rip), %xmm9
	pmulhuw	%xmm9, %xmm5
	pmulhuw	%xmm9, %xmm4
	psrlw	$8, %xmm2
	psrlw	$8, %xmm1
	pmullw	%xmm7, %xmm1
	pmullw	%xmm6, %xmm2
	paddw	%xmm8, %xmm2
	paddw	%xmm8, %xmm1
	pmulhuw	%xmm9, %xmm1
	pmulhuw	%xmm9, %xmm2
	psllw	$8, %xmm2
	por	%xmm5, %xmm2
	psllw	$8, %xmm1
	por	%xmm4, %xmm1
	paddusb	%xmm3, %xmm2
	paddusb	%xmm0, %xmm1
	movdqu	%xmm1, (%rdi)
	movdqu	%xmm2, 16(%rdi)
	testb	$4, -120(%rsp)
	je	.LBB_ac4e62_10
.LBB_ac4e62_9:
	movq	-72(%rsp), %rax
	movdqu	(%r12,%rax), %xmm0
	movdqu	(%rdi,%rax), %xmm1
	movdqa	%xmm0, %xmm2
	pshufb	.LCPI_ac4e62_4(%rip), %xmm2
	pcmpeqd	%xmm3, %xmm3
	pxor	%xmm2, %xmm3
	movdqa	.LCPI_ac4e62_1(%rip), %xmm4
	movdqa	%xmm1, %xmm5
	pand	%xmm4, %xmm5
	pandn	%xmm4, %xmm2
	pmullw	%xmm5, %xmm2
	movdqa	.LCPI_ac4e62_2(%rip), %xmm4
	paddw	%xmm4, %xmm2
	movdqa	.LCPI_ac4e62_3(%rip), %xmm5
	pmulhuw	%xmm5, %xmm2
	psrlw	$8, %xmm1
	psrlw	$8, %xmm3
	pmullw	%xmm1, %xmm3
	paddw	%xmm4, %xmm3
	pmulhuw	%xmm5, %xmm3
	psllw	$8, %xmm3
	por	%xmm2, %xmm3
	paddusb	%xmm0, %xmm3
	movdqu	%xmm3, (%rdi,%rax)
	cmpl	%r13d, %r14d
	je	.LBB_ac4e62_13
.LBB_ac4e62_11:
	xorl	%edi, %edi
	.p2align	4
.LBB_ac4e62_12:
	movl	(%rdx,%rdi,4), %eax
	movzbl	%ah, %esi
	movl	%eax, %ebx
	movzbl	%al, %r9d
	shrl	$16, %eax
	shrl	$24, %ebx
	movl	(%rcx,%rdi,4), %ebp
	movl	%ebp, %r12d
	shrl	$24, %r12d
	movd	%ebp, %xmm0
	psrld	$16, %xmm0
	pinsrb	$1, %r12d, %xmm0
	movzbl	%al, %eax
	movl	%r12d, %r15d
	notb	%r15b
	movzbl	%r15b, %r15d
	movd	%r15d, %xmm1
	movd	%eax, %xmm2
	pinsrw	$1, %ebx, %xmm2
	pinsrw	$2, %esi, %xmm2
	pinsrw	$3, %r9d, %xmm2
	pshuflw	$0, %xmm1, %xmm1
	pmullw	%xmm1, %xmm2
	paddw	.LCPI_ac4e62_5(%rip), %xmm2
	movdqa	%xmm2, %xmm1
	psrlw	$8, %xmm1
	paddw	%xmm2, %xmm1
	movl	%ebp, %eax
	shrl	$8, %eax
	psrlw	$8, %xmm1
	packuswb	%xmm1, %xmm1
	pinsrb	$2, %eax, %xmm0
	pinsrb	$3, %ebp, %xmm0
	paddusb	%xmm1, %xmm0
	pmovzxbd	%xmm0, %xmm0
	pmulld	.LCPI_ac4e62_6(%rip), %xmm0
	pshufd	$238, %xmm0, %xmm1
	por	%xmm0, %xmm1
	pshufd	$85, %xmm1, %xmm0
	por	%xmm1, %xmm0
	movd	%xmm0, (%rdx,%rdi,4)
	leaq	(%r14,%rdi), %rax
	incq	%rax
	incq	%rdi
	cmpq	%r13, %rax
	jb	.LBB_ac4e62_12
	jmp	.LBB_ac4e62_13
.LBB_ac4e62_14:
	popq	%rbx
	popq	%r12
	popq	%r13
	popq	%r14
	popq	%r15
	popq	%rbp
	retq
.Lfunc_end_ac4e62:
	.size	"pix_raster::view::blit_overlap::<#c30dc3dde8429fd7>", .Lfunc_end_ac4e62-"pix_raster::view::blit_overlap::<#c30dc3dde8429fd7>"

	.section	.rodata.cst16,"aM",@progbits,16
	.p2align	4, 0x0
.LCPI_392d47_0:
	.byte	255
	.byte	0
	.byte	255
	.byte	0
	.byte	255
	.byte	0
	.byte	255
	.byte	0
	.byte	255
	.byte	0
	.byte	255
	.byte	0
	.byte	255
	.byte	0
	.byte	255
	.byte	0
.LCPI_392d47_1:
	.short	128
	.short	128
	.short	128
	.short	128
	.short	128
	.short	128
	.short	128
	.short	128
.LCPI_392d47_2:
	.zero	16,1
.LCPI_392d47_3:
	.byte	3
	.byte	128
	.byte	3
	.byte	128
	.byte	7
	.byte	128
	.byte	7
	.byte	128
	.byte	11
	.byte	128
	.byte	11
	.byte	128
	.byte	15
	.byte	128
	.byte	15
	.byte	128
.LCPI_392d47_4:
	.byte	3
	.byte	3
	.byte	3
	.byte	3
	.byte	7
	.byte	7
	.byte	7
	.byte	7
	.byte	11
	.byte	11
	.byte	11
	.byte	11
	.byte	15
	.byte	15
	.byte	15
	.byte	15
.LCPI_392d47_5:
	.short	128
	.short	128
	.short	128
	.short	128
	.zero	2
	.zero	2
	.zero	2
	.zero	2
.LCPI_392d47_6:
	.long	16777216
	.long	65536
	.long	256
	.long	1
	.section	".text.pix_raster::view::blit_overlap::<#82740d74a8936f70>","ax",@progbits
	.p2align	4
	.type	"pix_raster::view::blit_overlap::<#82740d74a8936f70>",@function
"pix_raster::view::blit_overlap::<#82740d74a8936f70>":
	pushq	%rbp
	pushq	%r15
	pushq	%r14
	pushq	%r13
	pushq	%r12
	pushq	%rbx
	movq	%rsi, -72(%rsp)
	movq	%rdi, -80(%rsp)
	movq	24(%r8), %r13
	movq	32(%r8), %rax
	movq	%rax, -8(%rsp)
	cmpq	%rax, %r13
	jae	.LBB_392d47_18
	movl	%r9d, %ebx
	movq	(%r8), %r15
	movq	16(%r8), %rax
	movq	%rax, -96(%rsp)
	addq	%rdx, %rax
	movq	%rax, -40(%rsp)
	movq	8(%r8), %r14
	movq	40(%r8), %rsi
	subq	%r15, %r14
	movq	%rsi, %rax
	subq	%r13, %rax
	movq	%rax, -48(%rsp)
	movq	%r14, %r11
	shrq	$4, %r11
	movq	%rdx, %rdi
	movl	%r9d, %edx
	shrl	$24, %edx
	movl	%r9d, %r8d
	shrl	$16, %r8d
	movl	%r9d, %eax
	shrl	$8, %eax
	movd	%r9d, %xmm0
	pinsrb	$1, %eax, %xmm0
	pinsrb	$2, %r8d, %xmm0
	pinsrb	$3, %edx, %xmm0
	pinsrb	$4, %r9d, %xmm0
	pinsrb	$5, %eax, %xmm0
	pinsrb	$6, %r8d, %xmm0
	pinsrb	$7, %edx, %xmm0
	pinsrb	$8, %r9d, %xmm0
	pinsrb	$9, %eax, %xmm0
	pinsrb	$10, %r8d, %xmm0
	pinsrb	$11, %edx, %xmm0
	pinsrb	$12, %r9d, %xmm0
	pinsrb	$13, %eax, %xmm0
	pinsrb	$14, %r8d, %xmm0
	movdqa	.LCPI_392d47_0(%rip), %xmm1
	pand	%xmm0, %xmm1
	pinsrb	$15, %edx, %xmm0
	psrlw	$8, %xmm0
	movq	%r14, %rbp
	andq	$-16, %rbp
	movl	%r14d, %r12d
	andl	$15, %r12d
	movl	%r14d, %eax
	andl	$8, %eax
	movq	%rax, -88(%rsp)
	movl	%r14d, %r9d
	andl	$12, %r9d
	movzbl	%r8b, %eax
	leaq	(,%rbp,4), %r10
	movd	%edx, %xmm2
	pinsrw	$1, %eax, %xmm2
	movzbl	%bh, %eax
	movzbl	%bl, %edx
	pinsrw	$2, %eax, %xmm2
	pinsrw	$3, %edx, %xmm2
	movq	%r11, -16(%rsp)
	leaq	(,%r11,4), %r11
	movq	%r13, %rax
	movq	-72(%rsp), %rbx
	imulq	%rbx, %rax
	imulq	%rcx, %rsi
	addq	-96(%rsp), %rsi
	movq	%rbp, -96(%rsp)
	leaq	(%r9,%rbp), %r8
	addq	%rdi, %r8
	leaq	(%rdi,%rsi), %rdx
	addq	$8, %rdx
	addq	%rsi, %r8
	leaq	(%r15,%rax), %rsi
	movq	-80(%rsp), %rdi
	leaq	(%rdi,%rsi,4), %rbp
	movq	%r10, -56(%rsp)
	leaq	(%r10,%rax,4), %rax
	movq	%r9, -64(%rsp)
	leaq	(%rax,%r9,4), %rax
	movq	%r15, -32(%rsp)
	leaq	(%rax,%r15,4), %rsi
	addq	%rdi, %rsi
	leaq	(,%rbx,4), %rax
	movq	%rax, -24(%rsp)
	jmp	.LBB_392d47_2
	.p2align	4
.LBB_392d47_17:
	incq	%r13
	movq	-24(%rsp), %rax
	addq	%rax, %rbp
	addq	%rcx, %rdx
	addq	%rcx, %r8
	addq	%rax, %rsi
	cmpq	-8(%rsp), %r13
	je	.LBB_392d47_18
.LBB_392d47_2:
	cmpq	$0, -16(%rsp)
	je	.LBB_392d47_7
	xorl	%edi, %edi
	movq	%rbp, %r10
	jmp	.LBB_392d47_4
	.p2align	4
.LBB_392d47_6:
	addq	$4, %rdi
	addq	$64, %r10
	cmpq	%rdi, %r11
	je	.LBB_392d47_7
.LBB_392d47_4:
	movq	-8(%rdx,%rdi,4), %rax
	movq	(%rdx,%rdi,4), %r9
	orq	%rax, %r9
	je	.LBB_392d47_6
	movq	%rax, %xmm10
	punpcklbw	%xmm10, %xmm10
	movdqa	%xmm10, %xmm9
	punpckhwd	%xmm10, %xmm9
	punpcklwd	%xmm10, %xmm10
	movdqa	.LCPI_392d47_0(%rip), %xmm3
	movdqa	%xmm10, %xmm6
	pand	%xmm3, %xmm6
	movdqa	%xmm9, %xmm7
	pand	%xmm3, %xmm7
	pmullw	%xmm1, %xmm7
	pmullw	%xmm1, %xmm6
	movdqa	.LCPI_392d47_1(%rip), %xmm5
	paddw	%xmm5, %xmm6
	paddw	%xmm5, %xmm7
	movdqa	.LCPI_392d47_2(%rip), %xmm4
	pmulhuw	%xmm4, %xmm7
	pmulhuw	%xmm4, %xmm6
	psrlw	$8, %xmm9
	psrlw	$8, %xmm10
	pmullw	%xmm0, %xmm10
	pmullw	%xmm0, %xmm9
	paddw	%xmm5, %xmm9
	paddw	%xmm5, %xmm10
	pmulhuw	%xmm4, %xmm10
	pmulhuw	%xmm4, %xmm9
	psllw	$8, %xmm9
	por	%xmm7, %xmm9
	psllw	$8, %xmm10
	por	%xmm6, %xmm10
	pcmpeqd	%xmm6, %xmm6
	movdqa	%xmm9, %xmm13
	pxor	%xmm6, %xmm13
	movdqa	%xmm10, %xmm14
	pxor	%xmm6, %xmm14
	movdqa	.LCPI_392d47_3(%rip), %xmm7
	pshufb	%xmm7, %xmm14
	pshufb	%xmm7, %xmm13
	movdqu	(%r10), %xmm11
	movdqu	16(%r10), %xmm12
	movdqa	%xmm11, %xmm8
	pand	%xmm3, %xmm8
	pmullw	%xmm14, %xmm8
	psrlw	$8, %xmm11
	pmullw	%xmm14, %xmm11
	movdqa	%xmm12, %xmm14
	pand	%xmm3, %xmm14
	pmullw	%xmm13, %xmm14
	psrlw	$8, %xmm12
	pmullw	%xmm13, %xmm12
	paddw	%xmm5, %xmm14
	pmulhuw	%xmm4, %xmm14
	paddw	%xmm5, %xmm12
	pmulhuw	%xmm4, %xmm12
	psllw	$8, %xmm12
	por	%xmm14, %xmm12
	paddw	%xmm5, %xmm8
	pmulhuw	%xmm4, %xmm8
	paddw	%xmm5, %xmm11
	pmulhuw	%xmm4, %xmm11
	psllw	$8, %xmm11
	por	%xmm8, %xmm11
	movdqu	32(%r10), %xmm8
	paddusb	%xmm9, %xmm12
	movdqu	48(%r10), %xmm9
	paddusb	%xmm10, %xmm11
	movdqu	%xmm11, (%r10)
	movdqu	%xmm12, 16(%r10)
	movq	(%rdx,%rdi,4), %xmm10
	punpcklbw	%xmm10, %xmm10
	movdqa	%xmm10, %xmm11
	punpckhwd	%xmm10, %xmm11
	punpcklwd	%xmm10, %xmm10
	movdqa	%xmm11, %xmm12
	pand	%xmm3, %xmm12
	pmullw	%xmm1, %xmm12
	paddw	%xmm5, %xmm12
	pmulhuw	%xmm4, %xmm12
	psrlw	$8, %xmm11
	pmullw	%xmm0, %xmm11
	paddw	%xmm5, %xmm11
	pmulhuw	%xmm4, %xmm11
	psllw	$8, %xmm11
	por	%xmm12, %xmm11
	movdqa	%xmm10, %xmm12
	pand	%xmm3, %xmm12
	pmullw	%xmm1, %xmm12
	paddw	%xmm5, %xmm12
	pmulhuw	%xmm4, %xmm12
	psrlw	$8, %xmm10
	pmullw	%xmm0, %xmm10
	paddw	%xmm5, %xmm10
	pmulhuw	%xmm4, %xmm10
	psllw	$8, %xmm10
	por	%xmm12, %xmm10
	movdqa	%xmm11, %xmm12
	pxor	%xmm6, %xmm12
	pxor	%xmm10, %xmm6
	pshufb	%xmm7, %xmm6
	pshufb	%xmm7, %xmm12
	movdqa	%xmm8, %xmm7
	pand	%xmm3, %xmm7
	pmullw	%xmm6, %xmm7
	psrlw	$8, %xmm8
	pmullw	%xmm6, %xmm8
	pand	%xmm9, %xmm3
	pmullw	%xmm12, %xmm3
	psrlw	$8, %xmm9
	pmullw	%xmm12, %xmm9
	paddw	%xmm5, %xmm7
	paddw	%xmm5, %xmm3
	paddw	%xmm5, %xmm9
	paddw	%xmm5, %xmm8
	pmulhuw	%xmm4, %xmm3
	pmulhuw	%xmm4, %xmm7
	pmulhuw	%xmm4, %xmm8
	pmulhuw	%xmm4, %xmm9
	psllw	$8, %xmm9
	por	%xmm3, %xmm9
	psllw	$8, %xmm8
	por	%xmm7, %xmm8
	paddusb	%xmm11, %xmm9
	paddusb	%xmm10, %xmm8
	movdqu	%xmm8, 32(%r10)
	movdqu	%xmm9, 48(%r10)
	jmp	.LBB_392d47_6
	.p2align	4
.LBB_392d47_7:
	cmpq	%r14, -96(%rsp)
	je	.LBB_392d47_17
	movq	%r13, %rax
	imulq	-72(%rsp), %rax
	addq	-32(%rsp), %rax
	movq	-48(%rsp), %rdi
	leaq	(%rdi,%r13), %r10
	imulq	%rcx, %r10
	addq	-40(%rsp), %r10
	movq	-80(%rsp), %rdi
	leaq	(%rdi,%rax,4), %rdi
	addq	-56(%rsp), %rdi
	addq	-96(%rsp), %r10
	testb	$8, %r14b
	je	.LBB_392d47_11
	movq	(%r10), %rax
	testq	%rax, %rax
	je	.LBB_392d47_11
	movq	%rax, %xmm3
	punpcklbw	%xmm3, %xmm3
	movdqa	%xmm3, %xmm4
	punpckhwd	%xmm3, %xmm4
	punpcklwd	%xmm3, %xmm3
	movdqa	.LCPI_392d47_0(%rip), %xmm5
	movdqa	%xmm3, %xmm8
	pand	%xmm5, %xmm8
	movdqa	%xmm4, %xmm9
	pand	%xmm5, %xmm9
	pmullw	%xmm1, %xmm9
	pmullw	%xmm1, %xmm8
	movdqa	.LCPI_392d47_1(%rip), %xmm6
	paddw	%xmm6, %xmm8
	paddw	%xmm6, %xmm9
	movdqa	.LCPI_392d47_2(%rip), %xmm7
	pmulhuw	%xmm7, %xmm9
	pmulhuw	%xmm7, %xmm8
	psrlw	$8, %xmm4
	psrlw	$8, %xmm3
	pmullw	%xmm0, %xmm3
	pmullw	%xmm0, %xmm4
	paddw	%xmm6, %xmm4
	paddw	%xmm6, %xmm3
	pmulhuw	%xmm7, %xmm3
	pmulhuw	%xmm7, %xmm4
	psllw	$8, %xmm4
	por	%xmm9, %xmm4
	psllw	$8, %xmm3
	por	%xmm8, %xmm3
	movdqu	(%rdi), %xmm8
	movdqu	16(%rdi), %xmm9
	pcmpeqd	%xmm11, %xmm11
	movdqa	%xmm4, %xmm12
	pxor	%xmm11, %xmm12
	pxor	%xmm3, %xmm11
	movdqa	.LCPI_392d47_3(%rip), %xmm10
	pshufb	%xmm10, %xmm11
	pshufb	%xmm10, %xmm12
	movdqa	%xmm8, %xmm10
	pand	%xmm5, %xmm10
	pand	%xmm9, %xmm5
	pmullw	%xmm12, %xmm5
	pmullw	%xmm11, %xmm10
	paddw	%xmm6, %xmm10
	paddw	%xmm6, %xmm5
	pmulhuw	%xmm7, %xmm5
	pmulhuw	%xmm7, %xmm10
	psrlw	$8, %xmm9
	psrlw	$8, %xmm8
	pmullw	%xmm11, %xmm8
	pmullw	%xmm12, %xmm9
	paddw	%xmm6, %xmm9
	paddw	%xmm6, %xmm8
	pmulhuw	%xmm7, %xmm8
	pmulhuw	%xmm7, %xmm9
	psllw	$8, %xmm9
	por	%xmm5, %xmm9
	psllw	$8, %xmm8
	por	%xmm10, %xmm8
	paddusb	%xmm4, %xmm9
	paddusb	%xmm3, %xmm8
	movdqu	%xmm8, (%rdi)
	movdqu	%xmm9, 16(%rdi)
.LBB_392d47_11:
	testb	$4, %r14b
	je	.LBB_392d47_14
	movq	-88(%rsp), %rax
	movl	(%r10,%rax), %eax
	testl	%eax, %eax
	je	.LBB_392d47_14
	movd	%eax, %xmm3
	punpcklbw	%xmm3, %xmm3
	punpcklwd	%xmm3, %xmm3
	movdqa	.LCPI_392d47_0(%rip), %xmm6
	movdqa	%xmm3, %xmm7
	pand	%xmm6, %xmm7
	pmullw	%xmm1, %xmm7
	movdqa	.LCPI_392d47_1(%rip), %xmm4
	paddw	%xmm4, %xmm7
	movdqa	.LCPI_392d47_2(%rip), %xmm5
	pmulhuw	%xmm5, %xmm7
	psrlw	$8, %xmm3
	pmullw	%xmm0, %xmm3
	paddw	%xmm4, %xmm3
	pmulhuw	%xmm5, %xmm3
	psllw	$8, %xmm3
	por	%xmm7, %xmm3
	movq	-88(%rsp), %rax
	movdqu	(%rdi,%rax,4), %xmm7
	pcmpeqd	%xmm8, %xmm8
	movdqa	%xmm3, %xmm9
	pshufb	.LCPI_392d47_4(%rip), %xmm9
	pxor	%xmm9, %xmm8
	movdqa	%xmm7, %xmm10
	pand	%xmm6, %xmm10
	pandn	%xmm6, %xmm9
	pmullw	%xmm10, %xmm9
	paddw	%xmm4, %xmm9
	pmulhuw	%xmm5, %xmm9
	psrlw	$8, %xmm7
	psrlw	$8, %xmm8
	pmullw	%xmm7, %xmm8
	paddw	%xmm4, %xmm8
	pmulhuw	%xmm5, %xmm8
	psllw	$8, %xmm8
	por	%xmm9, %xmm8
	paddusb	%xmm3, %xmm8
	movdqu	%xmm8, (%rdi,%rax,4)
.LBB_392d47_14:
	cmpl	%r12d, -64(%rsp)
	je	.LBB_392d47_17
	xorl	%edi, %edi
	movq	-64(%rsp), %r10
	.p2align	4
.LBB_392d47_16:
	movl	(%rsi,%rdi,4), %eax
	movzbl	%ah, %ebx
	movzbl	%al, %r9d
	movd	%eax, %xmm3
	shrl	$16, %eax
	movzbl	(%r8,%rdi), %r15d
	movd	%r15d, %xmm4
	pshuflw	$0, %xmm4, %xmm4
	pmullw	%xmm2, %xmm4
	movdqa	.LCPI_392d47_5(%rip), %xmm5
	paddw	%xmm5, %xmm4
	movdqa	%xmm4, %xmm6
	psrlw	$8, %xmm6
	paddw	%xmm4, %xmm6
	pextrb	$1, %xmm6, %r15d
	movzbl	%al, %eax
	psrlw	$8, %xmm6
	packuswb	%xmm6, %xmm6
	xorl	$255, %r15d
	movd	%r15d, %xmm4
	psrld	$24, %xmm3
	pinsrw	$1, %eax, %xmm3
	pinsrw	$2, %ebx, %xmm3
	pinsrw	$3, %r9d, %xmm3
	pshuflw	$0, %xmm4, %xmm4
	pmullw	%xmm4, %xmm3
	paddw	%xmm5, %xmm3
	movdqa	%xmm3, %xmm4
	psrlw	$8, %xmm4
	paddw	%xmm3, %xmm4
	psrlw	$8, %xmm4
	packuswb	%xmm4, %xmm4
	paddusb	%xmm6, %xmm4
	pmovzxbd	%xmm4, %xmm3
	pmulld	.LCPI_392d47_6(%rip), %xmm3
	pshufd	$238, %xmm3, %xmm4
	por	%xmm3, %xmm4
	pshufd	$85, %xmm4, %xmm3
	por	%xmm4, %xmm3
	movd	%xmm3, (%rsi,%rdi,4)
	incq	%r10
	incq	%rdi
	cmpq	%r12, %r10
	jb	.LBB_392d47_16
	jmp	.LBB_392d47_17
.LBB_392d47_18:
	popq	%rbx
	popq	%r12
	popq	%r13
	popq	%r14
	popq	%r15
	popq	%rbp
	retq
.Lfunc_end_392d47:
	.size	"pix_raster::view::blit_overlap::<#82740d74a8936f70>", .Lfunc_end_392d47-"pix_raster::view::blit_overlap::<#82740d74a8936f70>"

	.section	.rodata.cst16,"aM",@progbits,16
	.p2align	4, 0x0
.LCPI_70e946_0:
	.byte	255
	.byte	0
	.byte	255
	.byte	0
	.byte	255
	.byte	0
	.byte	255
	.byte	0
	.byte	255
	.byte	0
	.byte	255
	.byte	0
	.byte	255
	.byte	0
	.byte	255
	.byte	0
.LCPI_70e946_1:
	.short	128
	.short	128
	.short	128
	.short	128
	.short	128
	.short	128
	.short	128
	.short	128
.LCPI_70e946_2:
	.zero	16,1
.LCPI_70e946_3:
	.byte	3
	.byte	128
	.byte	3
	.byte	128
	.byte	7
	.byte	128
	.byte	7
	.byte	128
	.byte	11
	.byte	128
	.byte	11
	.byte	128
	.byte	15
	.byte	128
	.byte	15
	.byte	128
.LCPI_70e946_4:
	.byte	3
	.byte	3
	.byte	3
	.byte	3
	.byte	7
	.byte	7
	.byte	7
	.byte	7
	.byte	11
	.byte	11
	.byte	11
	.byte	11
	.byte	15
	.byte	15
	.byte	15
	.byte	15
.LCPI_70e946_5:
	.short	128
	.short	128
	.short	128
	.short	128
	.zero	2
	.zero	2
	.zero	2
	.zero	2
.LCPI_70e946_6:
	.long	16777216
	.long	65536
	.long	256
	.long	1
	.section	".text.pix_raster::view::blit_overlap::<#ae9f661a91a09783>","ax",@progbits
	.p2align	4
	.type	"pix_raster::view::blit_overlap::<#ae9f661a91a09783>",@function
"pix_raster::view::blit_overlap::<#ae9f661a91a09783>":
	pushq	%rbp
	pushq	%r15
	pushq	%r14
	pushq	%r13
	pushq	%r12
	pushq	%rbx
	movq	%rcx, -80(%rsp)
	movq	%rdx, -88(%rsp)
	movq	%rsi, -96(%rsp)
	movq	%rdi, -104(%rsp)
	movq	24(%r8), %r11
	movq	32(%r8), %rcx
	movq	%rcx, -8(%rsp)
	cmpq	%rcx, %r11
	jae	.LBB_70e946_14
	movl	%r9d, %eax
	movq	(%r8), %rsi
	movq	16(%r8), %r10
	movq	8(%r8), %r15
	movq	40(%r8), %rcx
	subq	%rsi, %r15
	movq	%rsi, -112(%rsp)
	movq	%rcx, %rdx
	subq	%r11, %rdx
	movq	%rdx, -48(%rsp)
	movq	%r15, %rdx
	shrq	$4, %rdx
	movq	%rdx, -72(%rsp)
	movzbl	%al, %eax
	movd	%eax, %xmm1
	pxor	%xmm2, %xmm2
	pshuflw	$0, %xmm1, %xmm0
	pshufb	%xmm2, %xmm1
	movdqa	.LCPI_70e946_0(%rip), %xmm2
	pand	%xmm1, %xmm2
	psrlw	$8, %xmm1
	movq	%r15, %rax
	andq	$-16, %rax
	movq	%rax, -16(%rsp)
	leaq	(,%rax,4), %rdi
	movl	%r15d, %r13d
	andl	$15, %r13d
	leal	(,%r15,4), %eax
	movl	%eax, %edx
	andl	$32, %edx
	movq	%rdx, -64(%rsp)
	movl	%r15d, %r14d
	andl	$12, %r14d
	movq	%r11, %rdx
	movq	-96(%rsp), %r9
	imulq	%r9, %rdx
	leaq	(,%rsi,4), %rsi
	leaq	(%rsi,%rdx,4), %rbx
	movq	-104(%rsp), %rbp
	addq	%rbp, %rbx
	movq	-80(%rsp), %r12
	imulq	%r12, %rcx
	leaq	(,%r10,4), %rsi
	leaq	(%rsi,%rcx,4), %r8
	leaq	(%rdi,%rcx,4), %rcx
	andl	$48, %eax
	addq	%rax, %rcx
	movq	%rdi, -56(%rsp)
	leaq	(%rdi,%rdx,4), %rdx
	addq	%rax, %rdx
	leaq	(,%r9,4), %rax
	movq	%rax, -24(%rsp)
	movq	-88(%rsp), %rax
	addq	%rax, %r8
	movq	%r10, -40(%rsp)
	leaq	(%rcx,%r10,4), %r10
	addq	%rax, %r10
	movq	-112(%rsp), %rax
	leaq	(%rdx,%rax,4), %rdx
	addq	%rbp, %rdx
	leaq	(,%r12,4), %rax
	movq	%rax, -32(%rsp)
	jmp	.LBB_70e946_2
	.p2align	4
.LBB_70e946_13:
	incq	%r11
	movq	-24(%rsp), %rax
	addq	%rax, %rbx
	movq	-32(%rsp), %rcx
	addq	%rcx, %r8
	addq	%rcx, %r10
	addq	%rax, %rdx
	cmpq	-8(%rsp), %r11
	je	.LBB_70e946_14
.LBB_70e946_2:
	cmpq	$0, -72(%rsp)
	je	.LBB_70e946_5
	movl	$32, %edi
	movq	-72(%rsp), %r12
	.p2align	4
.LBB_70e946_4:
	movdqu	-32(%r8,%rdi), %xmm10
	movdqu	-16(%r8,%rdi), %xmm9
	movdqa	.LCPI_70e946_0(%rip), %xmm3
	movdqa	%xmm10, %xmm6
	pand	%xmm3, %xmm6
	movdqa	%xmm9, %xmm7
	pand	%xmm3, %xmm7
	pmullw	%xmm2, %xmm7
	pmullw	%xmm2, %xmm6
	movdqa	.LCPI_70e946_1(%rip), %xmm5
	paddw	%xmm5, %xmm6
	paddw	%xmm5, %xmm7
	movdqa	.LCPI_70e946_2(%rip), %xmm4
	pmulhuw	%xmm4, %xmm7
	pmulhuw	%xmm4, %xmm6
	psrlw	$8, %xmm9
	psrlw	$8, %xmm10
	pmullw	%xmm1, %xmm10
	pmullw	%xmm1, %xmm9
	paddw	%xmm5, %xmm9
	paddw	%xmm5, %xmm10
	pmulhuw	%xmm4, %xmm10
	pmulhuw	%xmm4, %xmm9
	psllw	$8, %xmm9
	por	%xmm7, %xmm9
	psllw	$8, %xmm10
	por	%xmm6, %xmm10
	pcmpeqd	%xmm6, %xmm6
	movdqa	%xmm9, %xmm13
	pxor	%xmm6, %xmm13
	movdqa	%xmm10, %xmm14
	pxor	%xmm6, %xmm14
	movdqa	.LCPI_70e946_3(%rip), %xmm7
	pshufb	%xmm7, %xmm14
	pshufb	%xmm7, %xmm13
	movdqu	-32(%rbx,%rdi), %xmm11
	movdqu	-16(%rbx,%rdi), %xmm12
	movdqa	%xmm11, %xmm8
	pand	%xmm3, %xmm8
	pmullw	%xmm14, %xmm8
	psrlw	$8, %xmm11
	pmullw	%xmm14, %xmm11
	movdqa	%xmm12, %xmm14
	pand	%xmm3, %xmm14
	pmullw	%xmm13, %xmm14
	psrlw	$8, %xmm12
	pmullw	%xmm13, %xmm12
	paddw	%xmm5, %xmm14
	pmulhuw	%xmm4, %xmm14
	paddw	%xmm5, %xmm12
	pmulhuw	%xmm4, %xmm12
	psllw	$8, %xmm12
	por	%xmm14, %xmm12
	paddw	%xmm5, %xmm8
	pmulhuw	%xmm4, %xmm8
	paddw	%xmm5, %xmm11
	pmulhuw	%xmm4, %xmm11
	psllw	$8, %xmm11
	por	%xmm8, %xmm11
	movdqu	(%rbx,%rdi), %xmm8
	paddusb	%xmm9, %xmm12
	movdqu	16(%rbx,%rdi), %xmm9
	paddusb	%xmm10, %xmm11
	movdqu	%xmm11, -32(%rbx,%rdi)
	movdqu	%xmm12, -16(%rbx,%rdi)
	movdqu	(%r8,%rdi), %xmm10
	movdqu	16(%r8,%rdi), %xmm11
	movdqa	%xmm11, %xmm12
	pand	%xmm3, %xmm12
	pmullw	%xmm2, %xmm12
	paddw	%xmm5, %xmm12
	pmulhuw	%xmm4, %xmm12
	psrlw	$8, %xmm11
	pmullw	%xmm1, %xmm11
	paddw	%xmm5, %xmm11
	pmulhuw	%xmm4, %xmm11
	psllw	$8, %xmm11
	por	%xmm12, %xmm11
	movdqa	%xmm10, %xmm12
	pand	%xmm3, %xmm12
	pmullw	%xmm2, %xmm12
	paddw	%xmm5, %xmm12
	pmulhuw	%xmm4, %xmm12
	psrlw	$8, %xmm10
	pmullw	%xmm1, %xmm10
	paddw	%xmm5, %xmm10
	pmulhuw	%xmm4, %xmm10
	psllw	$8, %xmm10
	por	%xmm12, %xmm10
	movdqa	%xmm11, %xmm12
	pxor	%xmm6, %xmm12
	pxor	%xmm10, %xmm6
	pshufb	%xmm7, %xmm6
	pshufb	%xmm7, %xmm12
	movdqa	%xmm8, %xmm7
	pand	%xmm3, %xmm7
	pmullw	%xmm6, %xmm7
	psrlw	$8, %xmm8
	pmullw	%xmm6, %xmm8
	pand	%xmm9, %xmm3
	pmullw	%xmm12, %xmm3
	psrlw	$8, %xmm9
	pmullw	%xmm12, %xmm9
	paddw	%xmm5, %xmm7
	paddw	%xmm5, %xmm3
	paddw	%xmm5, %xmm9
	paddw	%xmm5, %xmm8
	pmulhuw	%xmm4, %xmm3
	pmulhuw	%xmm4, %xmm7
	pmulhuw	%xmm4, %xmm8
	pmulhuw	%xmm4, %xmm9
	psllw	$8, %xmm9
	por	%xmm3, %xmm9
	psllw	$8, %xmm8
	por	%xmm7, %xmm8
	paddusb	%xmm11, %xmm9
	paddusb	%xmm10, %xmm8
	movdqu	%xmm8, (%rbx,%rdi)
	movdqu	%xmm9, 16(%rbx,%rdi)
	addq	$64, %rdi
	decq	%r12
	jne	.LBB_70e946_4
.LBB_70e946_5:
	cmpq	%r15, -16(%rsp)
	je	.LBB_70e946_13
	movq	%r11, %rax
	imulq	-96(%rsp), %rax
	addq	-112(%rsp), %rax
	movq	-48(%rsp), %rcx
	addq	%r11, %rcx
	imulq	-80(%rsp), %rcx
	addq	-40(%rsp), %rcx
	movq	-104(%rsp), %rsi
	leaq	(%rsi,%rax,4), %rdi
	movq	-88(%rsp), %rax
	leaq	(%rax,%rcx,4), %r12
	movq	-56(%rsp), %rax
	addq	%rax, %rdi
	addq	%rax, %r12
	testb	$8, %r15b
	jne	.LBB_70e946_7
	testb	$4, %r15b
	jne	.LBB_70e946_9
.LBB_70e946_10:
	cmpl	%r13d, %r14d
	je	.LBB_70e946_13
	jmp	.LBB_70e946_11
	.p2align	4
.LBB_70e946_7:
	movdqu	(%r12), %xmm3
	movdqu	16(%r12), %xmm4
	movdqa	.LCPI_70e946_0(%rip), %xmm5
	movdqa	%xmm3, %xmm8
	pand	%xmm5, %xmm8
	movdqa	%xmm4, %xmm9
	pand	%xmm5, %xmm9
	pmullw	%xmm2, %xmm9
	pmullw	%xmm2, %xmm8
	movdqa	.LCPI_70e946_1(%rip), %xmm6
	paddw	%xmm6, %xmm8
	paddw	%xmm6, %xmm9
	movdqa	.LCPI_70e946_2(%rip), %xmm7
	pmulhuw	%xmm7, %xmm9
	pmulhuw	%xmm7, %xmm8
	psrlw	$8, %xmm4
	psrlw	$8, %xmm3
	pmullw	%xmm1, %xmm3
	pmullw	%xmm1, %xmm4
	paddw	%xmm6, %xmm4
	paddw	%xmm6, %xmm3
	pmulhuw	%xmm7, %xmm3
	pmulhuw	%xmm7, %xmm4
	psllw	$8, %xmm4
	por	%xmm9, %xmm4
	psllw	$8, %xmm3
	por	%xmm8, %xmm3
	movdqu	(%rdi), %xmm8
	movdqu	16(%rdi), %xmm9
	pcmpeqd	%xmm11, %xmm11
	movdqa	%xmm4, %xmm12
	pxor	%xmm11, %xmm12
	pxor	%xmm3, %xmm11
	movdqa	.LCPI_70e946_3(%rip), %xmm10
	pshufb	%xmm10, %xmm11
	pshufb	%xmm10, %xmm12
	movdqa	%xmm8, %xmm10
	pand	%xmm5, %xmm10
	pand	%xmm9, %xmm5
	pmullw	%xmm12, %xmm5
	pmullw	%xmm11, %xmm10
	paddw	%xmm6, %xmm10
	paddw	%xmm6, %xmm5
	pmulhuw	%xmm7, %xmm5
	pmulhuw	%xmm7, %xmm10
	psrlw	$8, %xmm9
	psrlw	$8, %xmm8
	pmullw	%xmm11, %xmm8
	pmullw	%xmm12, %xmm9
	paddw	%xmm6, %xmm9
	paddw	%xmm6, %xmm8
	pmulhuw	%xmm7, %xmm8
	pmulhuw	%xmm7, %xmm9
	psllw	$8, %xmm9
	por	%xmm5, %xmm9
	psllw	$8, %xmm8
	por	%xmm10, %xmm8
	paddusb	%xmm4, %xmm9
	paddusb	%xmm3, %xmm8
	movdqu	%xmm8, (%rdi)
	movdqu	%xmm9, 16(%rdi)
	testb	$4, %r15b
	je	.LBB_70e946_10
.LBB_70e946_9:
	movq	-64(%rsp), %rax
	movdqu	(%r12,%rax), %xmm3
	movdqa	.LCPI_70e946_0(%rip), %xmm6
	movdqa	%xmm3, %xmm7
	pand	%xmm6, %xmm7
	pmullw	%xmm2, %xmm7
	movdqa	.LCPI_70e946_1(%rip), %xmm4
	paddw	%xmm4, %xmm7
	movdqa	.LCPI_70e946_2(%rip), %xmm5
	pmulhuw	%xmm5, %xmm7
	psrlw	$8, %xmm3
	pmullw	%xmm1, %xmm3
	paddw	%xmm4, %xmm3
	pmulhuw	%xmm5, %xmm3
	psllw	$8, %xmm3
	por	%xmm7, %xmm3
	movdqu	(%rdi,%rax), %xmm7
	pcmpeqd	%xmm8, %xmm8
	movdqa	%xmm3, %xmm9
	pshufb	.LCPI_70e946_4(%rip), %xmm9
	pxor	%xmm9, %xmm8
	movdqa	%xmm7, %xmm10
	pand	%xmm6, %xmm10
	pandn	%xmm6, %xmm9
	pmullw	%xmm10, %xmm9
	paddw	%xmm4, %xmm9
	pmulhuw	%xmm5, %xmm9
	psrlw	$8, %xmm7
	psrlw	$8, %xmm8
	pmullw	%xmm7, %xmm8
	paddw	%xmm4, %xmm8
	pmulhuw	%xmm5, %xmm8
	psllw	$8, %xmm8
	por	%xmm9, %xmm8
	paddusb	%xmm3, %xmm8
	movdqu	%xmm8, (%rdi,%rax)
	cmpl	%r13d, %r14d
	je	.LBB_70e946_13
.LBB_70e946_11:
	xorl	%edi, %edi
	.p2align	4
.LBB_70e946_12:
	movl	(%r10,%rdi,4), %eax
	movl	(%rdx,%rdi,4), %ecx
	movzbl	%ch, %esi
	movzbl	%cl, %r12d
	movd	%ecx, %xmm3
	shrl	$16, %ecx
	movzbl	%ah, %ebp
	movzbl	%al, %r9d
	movd	%eax, %xmm4
	shrl	$16, %eax
	movzbl	%al, %eax
	psrld	$24, %xmm4
	pinsrw	$1, %eax, %xmm4
	pinsrw	$2, %ebp, %xmm4
	pinsrw	$3, %r9d, %xmm4
	pmullw	%xmm0, %xmm4
	movdqa	.LCPI_70e946_5(%rip), %xmm5
	paddw	%xmm5, %xmm4
	movdqa	%xmm4, %xmm6
	psrlw	$8, %xmm6
	paddw	%xmm4, %xmm6
	pextrb	$1, %xmm6, %eax
	movzbl	%cl, %ecx
	psrlw	$8, %xmm6
	packuswb	%xmm6, %xmm6
	xorl	$255, %eax
	movd	%eax, %xmm4
	psrld	$24, %xmm3
	pinsrw	$1, %ecx, %xmm3
	pinsrw	$2, %esi, %xmm3
	pinsrw	$3, %r12d, %xmm3
	pshuflw	$0, %xmm4, %xmm4
	pmullw	%xmm4, %xmm3
	paddw	%xmm5, %xmm3
	movdqa	%xmm3, %xmm4
	psrlw	$8, %xmm4
	paddw	%xmm3, %xmm4
	psrlw	$8, %xmm4
	packuswb	%xmm4, %xmm4
	paddusb	%xmm6, %xmm4
	pmovzxbd	%xmm4, %xmm3
	pmulld	.LCPI_70e946_6(%rip), %xmm3
	pshufd	$238, %xmm3, %xmm4
	por	%xmm3, %xmm4
	pshufd	$85, %xmm4, %xmm3
	por	%xmm4, %xmm3
	movd	%xmm3, (%rdx,%rdi,4)
	leaq	(%r14,%rdi), %rax
	incq	%rax
	incq	%rdi
	cmpq	%r13, %rax
	jb	.LBB_70e946_12
	jmp	.LBB_70e946_13
.LBB_70e946_14:
	popq	%rbx
	popq	%r12
	popq	%r13
	popq	%r14
	popq	%r15
	popq	%rbp
	retq
.Lfunc_end_70e946:
	.size	"pix_raster::view::blit_overlap::<#ae9f661a91a09783>", .Lfunc_end_70e946-"pix_raster::view::blit_overlap::<#ae9f661a91a09783>"

	.section	.rodata.cst16,"aM",@progbits,16
	.p2align	4, 0x0
.LCPI_f44c59_0:
	.byte	3
	.byte	128
	.byte	3
	.byte	128
	.byte	7
	.byte	128
	.byte	7
	.byte	128
	.byte	11
	.byte	128
	.byte	11
	.byte	128
	.byte	15
	.byte	128
	.byte	15
	.byte	128
.LCPI_f44c59_1:
	.byte	255
	.byte	0
	.byte	255
	.byte	0
	.byte	255
	.byte	0
	.byte	255
	.byte	0
	.byte	255
	.byte	0
	.byte	255
	.byte	0
	.byte	255
	.byte	0
	.byte	255
	.byte	0
.LCPI_f44c59_2:
	.short	128
	.short	128
	.short	128
	.short	128
	.short	128
	.short	128
	.short	128
	.short	128
.LCPI_f44c59_3:
	.zero	16,1
.LCPI_f44c59_4:
	.byte	3
	.byte	3
	.byte	3
	.byte	3
	.byte	7
	.byte	7
	.byte	7
	.byte	7
	.byte	11
	.byte	11
	.byte	11
	.byte	11
	.byte	15
	.byte	15
	.byte	15
	.byte	15
.LCPI_f44c59_5:
	.short	128
	.short	128
	.short	128
	.short	128
	.zero	2
	.zero	2
	.zero	2
	.zero	2
.LCPI_f44c59_6:
	.long	16777216
	.long	65536
	.long	256
	.long	1
	.section	".text.pix_raster::view::blit_overlap::<#88ae0de0b3775985>","ax",@progbits
	.p2align	4
	.type	"pix_raster::view::blit_overlap::<#88ae0de0b3775985>",@function
"pix_raster::view::blit_overlap::<#88ae0de0b3775985>":
	pushq	%rbp
	pushq	%r15
	pushq	%r14
	pushq	%r13
	pushq	%r12
	pushq	%rbx
	movq	%rcx, -88(%rsp)
	movq	%rdx, -96(%rsp)
	movq	%rsi, -104(%rsp)
	movq	%rdi, -112(%rsp)
	movq	24(%r8), %r9
	movq	32(%r8), %rax
	movq	%rax, -8(%rsp)
	cmpq	%rax, %r9
	jae	.LBB_f44c59_14
	movq	(%r8), %r12
	movq	16(%r8), %rdi
	movq	8(%r8), %r14
	movq	40(%r8), %rcx
	subq	%r12, %r14
	movq	%rcx, %rax
	subq	%r9, %rax
	movq	%rax, -56(%rsp)
	movq	%r14, %rax
	shrq	$4, %rax
	movq	%rax, -80(%rsp)
	movq	%r14, %rax
	andq	$-16, %rax
	movq	%rax, -16(%rsp)
	leaq	(,%rax,4), %r10
	movl	%r14d, %r13d
	andl	$15, %r13d
	leal	(,%r14,4), %edx
	movl	%edx, %eax
	andl	$32, %eax
	movq	%rax, -72(%rsp)
	movl	%r14d, %ebx
	andl	$12, %ebx
	movq	%r9, %rax
	movq	-104(%rsp), %rbp
	imulq	%rbp, %rax
	leaq	(,%r12,4), %rsi
	leaq	(%rsi,%rax,4), %r11
	addq	-112(%rsp), %r11
	movq	-88(%rsp), %r15
	imulq	%r15, %rcx
	leaq	(,%rdi,4), %rsi
	leaq	(%rsi,%rcx,4), %r8
	leaq	(%r10,%rcx,4), %rcx
	andl	$48, %edx
	addq	%rdx, %rcx
	movq	%r10, -64(%rsp)
	leaq	(%r10,%rax,4), %rax
	addq	%rdx, %rax
	leaq	(,%rbp,4), %rdx
	movq	%rdx, -24(%rsp)
	movq	-96(%rsp), %rdx
	addq	%rdx, %r8
	movq	%rdi, -48(%rsp)
	leaq	(%rcx,%rdi,4), %rcx
	addq	%rdx, %rcx
	movq	%r12, -40(%rsp)
	leaq	(%rax,%r12,4), %rdx
	addq	-112(%rsp), %rdx
	leaq	(,%r15,4), %rax
	movq	%rax, -32(%rsp)
	jmp	.LBB_f44c59_2
	.p2align	4
.LBB_f44c59_13:
	incq	%r9
	movq	-24(%rsp), %rax
	addq	%rax, %r11
	movq	-32(%rsp), %rsi
	addq	%rsi, %r8
	addq	%rsi, %rcx
	addq	%rax, %rdx
	cmpq	-8(%rsp), %r9
	je	.LBB_f44c59_14
.LBB_f44c59_2:
	cmpq	$0, -80(%rsp)
	je	.LBB_f44c59_5
	movl	$32, %edi
	movq	-80(%rsp), %r12
	.p2align	4
.LBB_f44c59_4:
	movdqu	-32(%r8,%rdi), %xmm7
	movdqu	-16(%r8,%rdi), %xmm8
	pcmpeqd	%xmm2, %xmm2
	movdqu	-32(%r11,%rdi), %xmm9
	movdqu	-16(%r11,%rdi), %xmm10
	movdqu	(%r11,%rdi), %xmm0
	movdqu	16(%r11,%rdi), %xmm1
	movdqa	%xmm10, %xmm12
	pxor	%xmm2, %xmm12
	movdqa	%xmm9, %xmm14
	pxor	%xmm2, %xmm14
	movdqa	.LCPI_f44c59_0(%rip), %xmm6
	pshufb	%xmm6, %xmm14
	pshufb	%xmm6, %xmm12
	movdqa	.LCPI_f44c59_1(%rip), %xmm3
	movdqa	%xmm7, %xmm11
	pand	%xmm3, %xmm11
	movdqa	%xmm8, %xmm13
	pand	%xmm3, %xmm13
	pmullw	%xmm12, %xmm13
	pmullw	%xmm14, %xmm11
	movdqa	.LCPI_f44c59_2(%rip), %xmm4
	paddw	%xmm4, %xmm11
	paddw	%xmm4, %xmm13
	movdqa	.LCPI_f44c59_3(%rip), %xmm5
	pmulhuw	%xmm5, %xmm13
	pmulhuw	%xmm5, %xmm11
	psrlw	$8, %xmm8
	psrlw	$8, %xmm7
	pmullw	%xmm14, %xmm7
	pmullw	%xmm12, %xmm8
	paddw	%xmm4, %xmm8
	paddw	%xmm4, %xmm7
	pmulhuw	%xmm5, %xmm7
	pmulhuw	%xmm5, %xmm8
	psllw	$8, %xmm8
	por	%xmm13, %xmm8
	psllw	$8, %xmm7
	por	%xmm11, %xmm7
	paddusb	%xmm10, %xmm8
	paddusb	%xmm9, %xmm7
	movdqu	%xmm7, -32(%r11,%rdi)
	movdqu	%xmm8, -16(%r11,%rdi)
	movdqu	(%r8,%rdi), %xmm7
	movdqu	16(%r8,%rdi), %xmm8
	movdqa	%xmm1, %xmm9
	pxor	%xmm2, %xmm9
	pxor	%xmm0, %xmm2
	pshufb	%xmm6, %xmm2
	pshufb	%xmm6, %xmm9
	movdqa	%xmm7, %xmm6
	pand	%xmm3, %xmm6
	pand	%xmm8, %xmm3
	pmullw	%xmm9, %xmm3
	pmullw	%xmm2, %xmm6
	paddw	%xmm4, %xmm6
	paddw	%xmm4, %xmm3
	pmulhuw	%xmm5, %xmm3
	pmulhuw	%xmm5, %xmm6
	psrlw	$8, %xmm8
	psrlw	$8, %xmm7
	pmullw	%xmm2, %xmm7
	pmullw	%xmm9, %xmm8
	paddw	%xmm4, %xmm8
	paddw	%xmm4, %xmm7
	pmulhuw	%xmm5, %xmm7
	pmulhuw	%xmm5, %xmm8
	psllw	$8, %xmm8
	por	%xmm3, %xmm8
	psllw	$8, %xmm7
	por	%xmm6, %xmm7
	paddusb	%xmm1, %xmm8
	paddusb	%xmm0, %xmm7
	movdqu	%xmm7, (%r11,%rdi)
	movdqu	%xmm8, 16(%r11,%rdi)
	addq	$64, %rdi
	decq	%r12
	jne	.LBB_f44c59_4
.LBB_f44c59_5:
	cmpq	%r14, -16(%rsp)
	je	.LBB_f44c59_13
	movq	%r9, %rax
	imulq	-104(%rsp), %rax
	addq	-40(%rsp), %rax
	movq	-56(%rsp), %rsi
	addq	%r9, %rsi
	imulq	-88(%rsp), %rsi
	addq	-48(%rsp), %rsi
	movq	-112(%rsp), %rdi
	leaq	(%rdi,%rax,4), %rdi
	movq	-96(%rsp), %rax
	leaq	(%rax,%rsi,4), %r12
	movq	-64(%rsp), %rax
	addq	%rax, %rdi
	addq	%rax, %r12
	testb	$8, %r14b
	jne	.LBB_f44c59_7
	testb	$4, %r14b
	jne	.LBB_f44c59_9
.LBB_f44c59_10:
	cmpl	%r13d, %ebx
	je	.LBB_f44c59_13
	jmp	.LBB_f44c59_11
	.p2align	4
.LBB_f44c59_7:
	movdqu	(%r12), %xmm0
	movdqu	16(%r12), %xmm1
	movdqu	(%rdi), %xmm2
	movdqu	16(%rdi), %xmm3
	pcmpeqd	%xmm7, %xmm7
	movdqa	%xmm3, %xmm6
	pxor	%xmm7, %xmm6
	pxor	%xmm2, %xmm7
	movdqa	.LCPI_f44c59_0(%rip), %xmm4
	pshufb	%xmm4, %xmm7
	pshufb	%xmm4, %xmm6
	movdqa	.LCPI_f44c59_1(%rip), %xmm5
	movdqa	%xmm0, %xmm4
	pand	%xmm5, %xmm4
	pand	%xmm1, %xmm5
	pmullw	%xmm6, %xmm5
	pmullw	%xmm7, %xmm4
	movdqa	.LCPI_f44c59_2(%rip), %xmm8
	paddw	%xmm8, %xmm4
	paddw	%xmm8, %xmm5
	movdqa	.LCPI_f44c59_3(%rip), %xmm9
	pmulhuw	%xmm9, %xmm5
	pmulhuw	%xmm9, %xmm4
	psrlw	$8, %xmm1
	psrlw	$8, %xmm0
	pmullw	%xmm7, %xmm0
	pmullw	%xmm6, %xmm1
	paddw	%xmm8, %xmm1
	paddw	%xmm8, %xmm0
	pmulhuw	%xmm9, %xmm0
	pmulhuw	%xmm9, %xmm1
	psllw	$8, %xmm1
	por	%xmm5, %xmm1
	psllw	$8, %xmm0
	por	%xmm4, %xmm0
	paddusb	%xmm3, %xmm1
	paddusb	%xmm2, %xmm0
	movdqu	%xmm0, (%rdi)
	movdqu	%xmm1, 16(%rdi)
	testb	$4, %r14b
	je	.LBB_f44c59_10
.LBB_f44c59_9:
	movq	-72(%rsp), %rax
	movdqu	(%r12,%rax), %xmm1
	movdqu	(%rdi,%rax), %xmm0
	movdqa	%xmm0, %xmm2
	pshufb	.LCPI_f44c59_4(%rip), %xmm2
	pcmpeqd	%xmm3, %xmm3
	pxor	%xmm2, %xmm3
	movdqa	.LCPI_f44c59_1(%rip), %xmm4
	movdqa	%xmm1, %xmm5
	pand	%xmm4, %xmm5
	pandn	%xmm4, %xmm2
	pmullw	%xmm5, %xmm2
	movdqa	.LCPI_f44c59_2(%rip), %xmm4
	paddw	%xmm4, %xmm2
	movdqa	.LCPI_f44c59_3(%rip), %xmm5
	pmulhuw	%xmm5, %xmm2
	psrlw	$8, %xmm1
	psrlw	$8, %xmm3
	pmullw	%xmm1, %xmm3
	paddw	%xmm4, %xmm3
	pmulhuw	%xmm5, %xmm3
	psllw	$8, %xmm3
	por	%xmm2, %xmm3
	paddusb	%xmm0, %xmm3
	movdqu	%xmm3, (%rdi,%rax)
	cmpl	%r13d, %ebx
	je	.LBB_f44c59_13
.LBB_f44c59_11:
	xorl	%edi, %edi
	.p2align	4
.LBB_f44c59_12:
	movl	(%rcx,%rdi,4), %eax
	movzbl	%ah, %esi
	movzbl	%al, %r10d
	movd	%eax, %xmm0
	shrl	$16, %eax
	movzbl	%al, %eax
	movl	(%rdx,%rdi,4), %r15d
	movl	%r15d, %r12d
	shrl	$24, %r12d
	movl	%r12d, %ebp
	notb	%bpl
	movzbl	%bpl, %ebp
	movd	%ebp, %xmm1
	psrld	$24, %xmm0
	pinsrw	$1, %eax, %xmm0
	pinsrw	$2, %esi, %xmm0
	pinsrw	$3, %r10d, %xmm0
	pshuflw	$0, %xmm1, %xmm1
	pmullw	%xmm1, %xmm0
	paddw	.LCPI_f44c59_5(%rip), %xmm0
	movd	%r12d, %xmm1
	movdqa	%xmm0, %xmm2
	psrlw	$8, %xmm2
	paddw	%xmm0, %xmm2
	movl	%r15d, %eax
	shrl	$8, %eax
	movl	%r15d, %esi
	shrl	$16, %esi
	psrlw	$8, %xmm2
	packuswb	%xmm2, %xmm2
	pinsrb	$1, %esi, %xmm1
	pinsrb	$2, %eax, %xmm1
	pinsrb	$3, %r15d, %xmm1
	paddusb	%xmm2, %xmm1
	pmovzxbd	%xmm1, %xmm0
	pmulld	.LCPI_f44c59_6(%rip), %xmm0
	pshufd	$238, %xmm0, %xmm1
	por	%xmm0, %xmm1
	pshufd	$85, %xmm1, %xmm0
	por	%xmm1, %xmm0
	movd	%xmm0, (%rdx,%rdi,4)
	leaq	(%rbx,%rdi), %rax
	incq	%rax
	incq	%rdi
	cmpq	%r13, %rax
	jb	.LBB_f44c59_12
	jmp	.LBB_f44c59_13
.LBB_f44c59_14:
	popq	%rbx
	popq	%r12
	popq	%r13
	popq	%r14
	popq	%r15
	popq	%rbp
	retq
.Lfunc_end_f44c59:
	.size	"pix_raster::view::blit_overlap::<#88ae0de0b3775985>", .Lfunc_end_f44c59-"pix_raster::view::blit_overlap::<#88ae0de0b3775985>"

	.section	.rodata.cst16,"aM",@progbits,16
	.p2align	4, 0x0
.LCPI_f798d0_0:
	.byte	255
	.byte	0
	.byte	255
	.byte	0
	.byte	255
	.byte	0
	.byte	255
	.byte	0
	.byte	255
	.byte	0
	.byte	255
	.byte	0
	.byte	255
	.byte	0
	.byte	255
	.byte	0
.LCPI_f798d0_1:
	.short	128
	.short	128
	.short	128
	.short	128
	.short	128
	.short	128
	.short	128
	.short	128
.LCPI_f798d0_2:
	.zero	16,1
.LCPI_f798d0_3:
	.byte	3
	.byte	128
	.byte	3
	.byte	128
	.byte	7
	.byte	128
	.byte	7
	.byte	128
	.byte	11
	.byte	128
	.byte	11
	.byte	128
	.byte	15
	.byte	128
	.byte	15
	.byte	128
.LCPI_f798d0_4:
	.byte	3
	.byte	3
	.byte	3
	.byte	3
	.byte	7
	.byte	7
	.byte	7
	.byte	7
	.byte	11
	.byte	11
	.byte	11
	.byte	11
	.byte	15
	.byte	15
	.byte	15
	.byte	15
.LCPI_f798d0_5:
	.short	128
	.short	128
	.short	128
	.short	128
	.zero	2
	.zero	2
	.zero	2
	.zero	2
.LCPI_f798d0_6:
	.long	65536
	.long	16777216
	.long	256
	.long	1
	.section	".text.pix_raster::view::blit_overlap::<#7a2e6a0a1e536be3>","ax",@progbits
	.p2align	4
	.type	"pix_raster::view::blit_overlap::<#7a2e6a0a1e536be3>",@function
"pix_raster::view::blit_overlap::<#7a2e6a0a1e536be3>":
	pushq	%rbp
	pushq	%r15
	pushq	%r14
	pushq	%r13
	pushq	%r12
	pushq	%rbx
	movq	%rdx, %r12
	movq	%rsi, -48(%rsp)
	movq	%rdi, -56(%rsp)
	movq	24(%r8), %rax
	movq	32(%r8), %rdx
	movq	%rdx, -8(%rsp)
	cmpq	%rdx, %rax
	jae	.LBB_f798d0_18
	movq	(%r8), %r10
	movq	16(%r8), %rdx
	movq	%rdx, -72(%rsp)
	addq	%r12, %rdx
	movq	%rdx, -32(%rsp)
	movq	8(%r8), %r15
	movq	40(%r8), %rdi
	subq	%r10, %r15
	movq	%rdi, %rdx
	subq	%rax, %rdx
	movq	%rdx, -40(%rsp)
	movq	%r15, %r11
	shrq	$4, %r11
	movl	%r9d, %esi
	shrl	$24, %esi
	movl	%r9d, %r8d
	shrl	$16, %r8d
	movl	%r9d, %edx
	shrl	$8, %edx
	movd	%r9d, %xmm0
	pinsrb	$1, %edx, %xmm0
	pinsrb	$2, %r8d, %xmm0
	pinsrb	$3, %esi, %xmm0
	pinsrb	$4, %r9d, %xmm0
	pinsrb	$5, %edx, %xmm0
	pinsrb	$6, %r8d, %xmm0
	pinsrb	$7, %esi, %xmm0
	pinsrb	$8, %r9d, %xmm0
	pinsrb	$9, %edx, %xmm0
	pinsrb	$10, %r8d, %xmm0
	pinsrb	$11, %esi, %xmm0
	pinsrb	$12, %r9d, %xmm0
	pinsrb	$13, %edx, %xmm0
	pinsrb	$14, %r8d, %xmm0
	movdqa	.LCPI_f798d0_0(%rip), %xmm1
	pand	%xmm0, %xmm1
	pinsrb	$15, %esi, %xmm0
	psrlw	$8, %xmm0
	movq	%r15, %rbp
	andq	$-16, %rbp
	movl	%r15d, %r13d
	andl	$15, %r13d
	movl	%r15d, %edx
	andl	$8, %edx
	movq	%rdx, -64(%rsp)
	movzbl	%r8b, %edx
	movd	%edx, %xmm2
	movl	%r9d, %edx
	movl	%r15d, %ebx
	andl	$12, %ebx
	pinsrw	$1, %esi, %xmm2
	movzbl	%dh, %esi
	movzbl	%dl, %r8d
	pinsrw	$2, %esi, %xmm2
	pinsrw	$3, %r8d, %xmm2
	movq	%r11, -16(%rsp)
	leaq	(,%r11,4), %r11
	movq	%rax, %r9
	movq	-48(%rsp), %r14
	imulq	%r14, %r9
	imulq	%rcx, %rdi
	addq	-72(%rsp), %rdi
	leaq	(%rbx,%rbp), %r8
	addq	%r12, %r8
	leaq	(%r12,%rdi), %rdx
	addq	$8, %rdx
	addq	%rdi, %r8
	leaq	(%r10,%r9), %rsi
	movq	-56(%rsp), %rdi
	leaq	(%rdi,%rsi,4), %r12
	leaq	(,%rbp,4), %rsi
	leaq	(%rsi,%r9,4), %rsi
	movq	%rbx, -72(%rsp)
	leaq	(%rsi,%rbx,4), %rsi
	movq	%r10, -24(%rsp)
	leaq	(%rsi,%r10,4), %rsi
	addq	%rdi, %rsi
	leaq	(,%r14,4), %rbx
	jmp	.LBB_f798d0_2
	.p2align	4
.LBB_f798d0_17:
	incq	%rax
	addq	%rbx, %r12
	addq	%rcx, %rdx
	addq	%rcx, %r8
	addq	%rbx, %rsi
	cmpq	-8(%rsp), %rax
	je	.LBB_f798d0_18
.LBB_f798d0_2:
	cmpq	$0, -16(%rsp)
	je	.LBB_f798d0_7
	xorl	%edi, %edi
	movq	%r12, %r10
	jmp	.LBB_f798d0_4
	.p2align	4
.LBB_f798d0_6:
	addq	$4, %rdi
	addq	$64, %r10
	cmpq	%rdi, %r11
	je	.LBB_f798d0_7
.LBB_f798d0_4:
	movq	-8(%rdx,%rdi,4), %r9
	movq	(%rdx,%rdi,4), %r14
	orq	%r9, %r14
	je	.LBB_f798d0_6
	movq	%r9, %xmm9
	punpcklbw	%xmm9, %xmm9
	movdqa	%xmm9, %xmm10
	punpckhwd	%xmm9, %xmm10
	punpcklwd	%xmm9, %xmm9
	movdqa	.LCPI_f798d0_0(%rip), %xmm3
	movdqa	%xmm9, %xmm7
	pand	%xmm3, %xmm7
	movdqa	%xmm10, %xmm8
	pand	%xmm3, %xmm8
	pmullw	%xmm1, %xmm8
	pmullw	%xmm1, %xmm7
	movdqa	.LCPI_f798d0_1(%rip), %xmm5
	paddw	%xmm5, %xmm7
	paddw	%xmm5, %xmm8
	movdqa	.LCPI_f798d0_2(%rip), %xmm4
	pmulhuw	%xmm4, %xmm8
	pmulhuw	%xmm4, %xmm7
	psrlw	$8, %xmm10
	psrlw	$8, %xmm9
	pmullw	%xmm0, %xmm9
	pmullw	%xmm0, %xmm10
	paddw	%xmm5, %xmm10
	paddw	%xmm5, %xmm9
	pmulhuw	%xmm4, %xmm9
	pmulhuw	%xmm4, %xmm10
	psllw	$8, %xmm10
	psllw	$8, %xmm9
	pcmpeqd	%xmm6, %xmm6
	movdqu	(%r10), %xmm12
	movdqu	16(%r10), %xmm13
	movdqa	%xmm12, %xmm14
	pxor	%xmm6, %xmm14
	movdqa	.LCPI_f798d0_3(%rip), %xmm11
	pshufb	%xmm11, %xmm14
	por	%xmm7, %xmm9
	pmullw	%xmm14, %xmm7
	psrlw	$8, %xmm9
	pmullw	%xmm14, %xmm9
	movdqa	%xmm13, %xmm14
	pxor	%xmm6, %xmm14
	pshufb	%xmm11, %xmm14
	por	%xmm8, %xmm10
	pmullw	%xmm14, %xmm8
	psrlw	$8, %xmm10
	pmullw	%xmm14, %xmm10
	paddw	%xmm5, %xmm8
	pmulhuw	%xmm4, %xmm8
	paddw	%xmm5, %xmm10
	pmulhuw	%xmm4, %xmm10
	psllw	$8, %xmm10
	por	%xmm8, %xmm10
	paddw	%xmm5, %xmm7
	pmulhuw	%xmm4, %xmm7
	paddw	%xmm5, %xmm9
	pmulhuw	%xmm4, %xmm9
	psllw	$8, %xmm9
	por	%xmm7, %xmm9
	movdqu	32(%r10), %xmm7
	paddusb	%xmm13, %xmm10
	movdqu	48(%r10), %xmm8
	paddusb	%xmm12, %xmm9
	movdqu	%xmm9, (%r10)
	movdqu	%xmm10, 16(%r10)
	movq	(%rdx,%rdi,4), %xmm9
	punpcklbw	%xmm9, %xmm9
	movdqa	%xmm9, %xmm10
	punpcklwd	%xmm9, %xmm9
	movdqa	%xmm8, %xmm12
	pxor	%xmm6, %xmm12
	pxor	%xmm7, %xmm6
	pshufb	%xmm11, %xmm6
	pshufb	%xmm11, %xmm12
	movdqa	%xmm9, %xmm11
	pand	%xmm3, %xmm11
	pmullw	%xmm1, %xmm11
	paddw	%xmm5, %xmm11
	pmulhuw	%xmm4, %xmm11
	psrlw	$8, %xmm9
	pmullw	%xmm0, %xmm9
	paddw	%xmm5, %xmm9
	pmulhuw	%xmm4, %xmm9
	psllw	$8, %xmm9
	por	%xmm11, %xmm9
	pmullw	%xmm6, %xmm11
	psrlw	$8, %xmm9
	pmullw	%xmm6, %xmm9
	punpckhwd	%xmm10, %xmm10
	pand	%xmm10, %xmm3
	pmullw	%xmm1, %xmm3
	paddw	%xmm5, %xmm3
	pmulhuw	%xmm4, %xmm3
	psrlw	$8, %xmm10
	pmullw	%xmm0, %xmm10
	paddw	%xmm5, %xmm10
	pmulhuw	%xmm4, %xmm10
	psllw	$8, %xmm10
	por	%xmm3, %xmm10
	pmullw	%xmm12, %xmm3
	psrlw	$8, %xmm10
	pmullw	%xmm12, %xmm10
	paddw	%xmm5, %xmm11
	paddw	%xmm5, %xmm3
	paddw	%xmm5, %xmm10
	paddw	%xmm5, %xmm9
	pmulhuw	%xmm4, %xmm3
	pmulhuw	%xmm4, %xmm11
	pmulhuw	%xmm4, %xmm9
	pmulhuw	%xmm4, %xmm10
	psllw	$8, %xmm10
	por	%xmm3, %xmm10
	psllw	$8, %xmm9
	por	%xmm11, %xmm9
	paddusb	%xmm8, %xmm10
	paddusb	%xmm7, %xmm9
	movdqu	%xmm9, 32(%r10)
	movdqu	%xmm10, 48(%r10)
	jmp	.LBB_f798d0_6
	.p2align	4
.LBB_f798d0_7:
	cmpq	%r15, %rbp
	je	.LBB_f798d0_17
	movq	%rax, %rdi
	imulq	-48(%rsp), %rdi
	addq	-24(%rsp), %rdi
	movq	-40(%rsp), %r9
	leaq	(%r9,%rax), %r10
	imulq	%rcx, %r10
	addq	-32(%rsp), %r10
	movq	-56(%rsp), %r9
	leaq	(%r9,%rdi,4), %rdi
	leaq	(,%rbp,4), %r9
	addq	%r9, %rdi
	addq	%rbp, %r10
	testb	$8, %r15b
	je	.LBB_f798d0_11
	movq	(%r10), %r9
	testq	%r9, %r9
	je	.LBB_f798d0_11
	movq	%r9, %xmm3
	punpcklbw	%xmm3, %xmm3
	movdqa	%xmm3, %xmm4
	punpckhwd	%xmm3, %xmm4
	punpcklwd	%xmm3, %xmm3
	movdqa	.LCPI_f798d0_0(%rip), %xmm6
	movdqa	%xmm3, %xmm5
	pand	%xmm6, %xmm5
	pand	%xmm4, %xmm6
	pmullw	%xmm1, %xmm6
	pmullw	%xmm1, %xmm5
	movdqa	.LCPI_f798d0_1(%rip), %xmm7
	paddw	%xmm7, %xmm5
	paddw	%xmm7, %xmm6
	movdqa	.LCPI_f798d0_2(%rip), %xmm8
	pmulhuw	%xmm8, %xmm6
	pmulhuw	%xmm8, %xmm5
	psrlw	$8, %xmm4
	psrlw	$8, %xmm3
	pmullw	%xmm0, %xmm3
	pmullw	%xmm0, %xmm4
	paddw	%xmm7, %xmm4
	paddw	%xmm7, %xmm3
	pmulhuw	%xmm8, %xmm3
	pmulhuw	%xmm8, %xmm4
	psllw	$8, %xmm4
	psllw	$8, %xmm3
	movdqu	(%rdi), %xmm9
	movdqu	16(%rdi), %xmm10
	pcmpeqd	%xmm11, %xmm11
	movdqa	%xmm10, %xmm12
	pxor	%xmm11, %xmm12
	pxor	%xmm9, %xmm11
	movdqa	.LCPI_f798d0_3(%rip), %xmm13
	pshufb	%xmm13, %xmm11
	pshufb	%xmm13, %xmm12
	por	%xmm5, %xmm3
	por	%xmm6, %xmm4
	pmullw	%xmm12, %xmm6
	pmullw	%xmm11, %xmm5
	paddw	%xmm7, %xmm5
	paddw	%xmm7, %xmm6
	pmulhuw	%xmm8, %xmm6
	pmulhuw	%xmm8, %xmm5
	psrlw	$8, %xmm4
	psrlw	$8, %xmm3
	pmullw	%xmm11, %xmm3
	pmullw	%xmm12, %xmm4
	paddw	%xmm7, %xmm4
	paddw	%xmm7, %xmm3
	pmulhuw	%xmm8, %xmm3
	pmulhuw	%xmm8, %xmm4
	psllw	$8, %xmm4
	por	%xmm6, %xmm4
	psllw	$8, %xmm3
	por	%xmm5, %xmm3
	paddusb	%xmm10, %xmm4
	paddusb	%xmm9, %xmm3
	movdqu	%xmm3, (%rdi)
	movdqu	%xmm4, 16(%rdi)
.LBB_f798d0_11:
	testb	$4, %r15b
	je	.LBB_f798d0_14
	movq	-64(%rsp), %r9
	movl	(%r10,%r9), %r9d
	testl	%r9d, %r9d
	je	.LBB_f798d0_14
	movd	%r9d, %xmm3
	punpcklbw	%xmm3, %xmm3
	punpcklwd	%xmm3, %xmm3
	movdqa	.LCPI_f798d0_0(%rip), %xmm6
	movdqa	%xmm3, %xmm7
	pand	%xmm6, %xmm7
	pmullw	%xmm1, %xmm7
	movdqa	.LCPI_f798d0_1(%rip), %xmm4
	paddw	%xmm4, %xmm7
	movdqa	.LCPI_f798d0_2(%rip), %xmm5
	pmulhuw	%xmm5, %xmm7
	psrlw	$8, %xmm3
	pmullw	%xmm0, %xmm3
	paddw	%xmm4, %xmm3
	pmulhuw	%xmm5, %xmm3
	psllw	$8, %xmm3
	movq	-64(%rsp), %r9
	movdqu	(%rdi,%r9,4), %xmm8
	pcmpeqd	%xmm9, %xmm9
	por	%xmm7, %xmm3
	movdqa	%xmm8, %xmm10
	pshufb	.LCPI_f798d0_4(%rip), %xmm10
	pxor	%xmm10, %xmm9
	pandn	%xmm6, %xmm10
	pmullw	%xmm7, %xmm10
	paddw	%xmm4, %xmm10
	pmulhuw	%xmm5, %xmm10
	psrlw	$8, %xmm3
	psrlw	$8, %xmm9
	pmullw	%xmm3, %xmm9
	paddw	%xmm4, %xmm9
	pmulhuw	%xmm5, %xmm9
	psllw	$8, %xmm9
	por	%xmm10, %xmm9
	paddusb	%xmm8, %xmm9
	movdqu	%xmm9, (%rdi,%r9,4)
.LBB_f798d0_14:
	cmpl	%r13d, -72(%rsp)
	je	.LBB_f798d0_17
	xorl	%edi, %edi
	movq	-72(%rsp), %r10
	.p2align	4
.LBB_f798d0_16:
	movzbl	(%r8,%rdi), %r9d
	movd	%r9d, %xmm3
	pshuflw	$0, %xmm3, %xmm5
	pmullw	%xmm2, %xmm5
	movl	(%rsi,%rdi,4), %r14d
	movl	%r14d, %r9d
	shrl	$24, %r9d
	movdqa	.LCPI_f798d0_5(%rip), %xmm3
	paddw	%xmm3, %xmm5
	movdqa	%xmm5, %xmm4
	psrlw	$8, %xmm4
	paddw	%xmm5, %xmm4
	psrlw	$8, %xmm4
	movd	%r14d, %xmm5
	psrld	$16, %xmm5
	pinsrb	$1, %r9d, %xmm5
	notb	%r9b
	movzbl	%r9b, %r9d
	movd	%r9d, %xmm6
	pshuflw	$0, %xmm6, %xmm6
	pmullw	%xmm4, %xmm6
	movl	%r14d, %r9d
	shrl	$8, %r9d
	paddw	%xmm3, %xmm6
	movdqa	%xmm6, %xmm3
	psrlw	$8, %xmm3
	paddw	%xmm6, %xmm3
	psrlw	$8, %xmm3
	packuswb	%xmm3, %xmm3
	pinsrb	$2, %r9d, %xmm5
	pinsrb	$3, %r14d, %xmm5
	paddusb	%xmm3, %xmm5
	pmovzxbd	%xmm5, %xmm3
	pmulld	.LCPI_f798d0_6(%rip), %xmm3
	pshufd	$238, %xmm3, %xmm4
	por	%xmm3, %xmm4
	pshufd	$85, %xmm4, %xmm3
	por	%xmm4, %xmm3
	movd	%xmm3, (%rsi,%rdi,4)
	incq	%r10
	incq	%rdi
	cmpq	%r13, %r10
	jb	.LBB_f798d0_16
	jmp	.LBB_f798d0_17
.LBB_f798d0_18:
	popq	%rbx
	popq	%r12
	popq	%r13
	popq	%r14
	popq	%r15
	popq	%rbp
	retq
.Lfunc_end_f798d0:
	.size	"pix_raster::view::blit_overlap::<#7a2e6a0a1e536be3>", .Lfunc_end_f798d0-"pix_raster::view::blit_overlap::<#7a2e6a0a1e536be3>"

	.section	.rodata.cst16,"aM",@progbits,16
	.p2align	4, 0x0
.LCPI_b7a934_0:
	.byte	255
	.byte	0
	.byte	255
	.byte	0
	.byte	255
	.byte	0
	.byte	255
	.byte	0
	.byte	255
	.byte	0
	.byte	255
	.byte	0
	.byte	255
	.byte	0
	.byte	255
	.byte	0
.LCPI_b7a934_1:
	.short	128
	.short	128
	.short	128
	.short	128
	.short	128
	.short	128
	.short	128
	.short	128
.LCPI_b7a934_2:
	.zero	16,1
.LCPI_b7a934_3:
	.byte	3
	.byte	128
	.byte	3
	.byte	128
	.byte	7
	.byte	128
	.byte	7
	.byte	128
	.byte	11
	.byte	128
	.byte	11
	.byte	128
	.byte	15
	.byte	128
	.byte	15
	.byte	128
.LCPI_b7a934_4:
	.byte	3
	.byte	3
	.byte	3
	.byte	3
	.byte	7
	.byte	7
	.byte	7
	.byte	7
	.byte	11
	.byte	11
	.byte	11
	.byte	11
	.byte	15
	.byte	15
	.byte	15
	.byte	15
.LCPI_b7a934_5:
	.short	128
	.short	128
	.short	128
	.short	128
	.zero	2
	.zero	2
	.zero	2
	.zero	2
.LCPI_b7a934_6:
	.long	65536
	.long	16777216
	.long	256
	.long	1
	.section	".text.pix_raster::view::blit_overlap::<#d778ccf2d5486893>","ax",@progbits
	.p2align	4
	.type	"pix_raster::view::blit_overlap::<#d778ccf2d5486893>",@function
"pix_raster::view::blit_overlap::<#d778ccf2d5486893>":
	pushq	%rbp
	pushq	%r15
	pushq	%r14
	pushq	%r13
	pushq	%r12
	pushq	%rbx
	movq	%rcx, -64(%rsp)
	movq	%rdx, -72(%rsp)
	movq	%rsi, -80(%rsp)
	movq	%rdi, -104(%rsp)
	movq	24(%r8), %r11
	movq	32(%r8), %rax
	movq	%rax, -8(%rsp)
	cmpq	%rax, %r11
	jae	.LBB_b7a934_14
	movq	(%r8), %rsi
	movq	16(%r8), %rcx
	movq	%rcx, -96(%rsp)
	movq	8(%r8), %r15
	movq	40(%r8), %rcx
	subq	%rsi, %r15
	movq	%rsi, -88(%rsp)
	movq	%rcx, %rax
	subq	%r11, %rax
	movq	%rax, -40(%rsp)
	movq	%r15, %rbp
	shrq	$4, %rbp
	movzbl	%r9b, %eax
	movd	%eax, %xmm1
	pxor	%xmm2, %xmm2
	pshuflw	$0, %xmm1, %xmm0
	pshufb	%xmm2, %xmm1
	movdqa	.LCPI_b7a934_0(%rip), %xmm2
	pand	%xmm1, %xmm2
	psrlw	$8, %xmm1
	movq	%r15, %rax
	andq	$-16, %rax
	movq	%rax, -16(%rsp)
	leaq	(,%rax,4), %rdi
	movl	%r15d, %r13d
	andl	$15, %r13d
	leal	(,%r15,4), %eax
	movl	%eax, %edx
	andl	$32, %edx
	movq	%rdx, -56(%rsp)
	movl	%r15d, %r14d
	andl	$12, %r14d
	movq	%r11, %rdx
	movq	-80(%rsp), %r12
	imulq	%r12, %rdx
	leaq	(,%rsi,4), %rsi
	leaq	(%rsi,%rdx,4), %rbx
	addq	-104(%rsp), %rbx
	movq	-64(%rsp), %r10
	imulq	%r10, %rcx
	movq	-96(%rsp), %r9
	leaq	(,%r9,4), %rsi
	leaq	(%rsi,%rcx,4), %r8
	leaq	(%rdi,%rcx,4), %rcx
	andl	$48, %eax
	addq	%rax, %rcx
	movq	%rdi, -48(%rsp)
	leaq	(%rdi,%rdx,4), %rdx
	addq	%rax, %rdx
	leaq	(,%r12,4), %rax
	movq	%rax, -24(%rsp)
	movq	-72(%rsp), %rax
	addq	%rax, %r8
	leaq	(%rcx,%r9,4), %r9
	addq	%rax, %r9
	movq	-88(%rsp), %rax
	leaq	(%rdx,%rax,4), %rdx
	addq	-104(%rsp), %rdx
	leaq	(,%r10,4), %rax
	movq	%rax, -32(%rsp)
	jmp	.LBB_b7a934_2
	.p2align	4
.LBB_b7a934_13:
	incq	%r11
	movq	-24(%rsp), %rax
	addq	%rax, %rbx
	movq	-32(%rsp), %rcx
	addq	%rcx, %r8
	addq	%rcx, %r9
	addq	%rax, %rdx
	cmpq	-8(%rsp), %r11
	je	.LBB_b7a934_14
.LBB_b7a934_2:
	testq	%rbp, %rbp
	je	.LBB_b7a934_5
	movl	$32, %edi
	movq	%rbp, %r12
	.p2align	4
.LBB_b7a934_4:
	movdqu	-32(%r8,%rdi), %xmm9
	movdqu	-16(%r8,%rdi), %xmm10
	movdqa	.LCPI_b7a934_0(%rip), %xmm3
	movdqa	%xmm9, %xmm7
	pand	%xmm3, %xmm7
	movdqa	%xmm10, %xmm8
	pand	%xmm3, %xmm8
	pmullw	%xmm2, %xmm8
	pmullw	%xmm2, %xmm7
	movdqa	.LCPI_b7a934_1(%rip), %xmm5
	paddw	%xmm5, %xmm7
	paddw	%xmm5, %xmm8
	movdqa	.LCPI_b7a934_2(%rip), %xmm4
	pmulhuw	%xmm4, %xmm8
	pmulhuw	%xmm4, %xmm7
	psrlw	$8, %xmm10
	psrlw	$8, %xmm9
	pmullw	%xmm1, %xmm9
	pmullw	%xmm1, %xmm10
	paddw	%xmm5, %xmm10
	paddw	%xmm5, %xmm9
	pmulhuw	%xmm4, %xmm9
	pmulhuw	%xmm4, %xmm10
	psllw	$8, %xmm10
	psllw	$8, %xmm9
	pcmpeqd	%xmm6, %xmm6
	movdqu	-32(%rbx,%rdi), %xmm12
	movdqu	-16(%rbx,%rdi), %xmm13
	movdqa	%xmm12, %xmm14
	pxor	%xmm6, %xmm14
	movdqa	.LCPI_b7a934_3(%rip), %xmm11
	pshufb	%xmm11, %xmm14
	por	%xmm7, %xmm9
	pmullw	%xmm14, %xmm7
	psrlw	$8, %xmm9
	pmullw	%xmm14, %xmm9
	movdqa	%xmm13, %xmm14
	pxor	%xmm6, %xmm14
	pshufb	%xmm11, %xmm14
	por	%xmm8, %xmm10
	pmullw	%xmm14, %xmm8
	psrlw	$8, %xmm10
	pmullw	%xmm14, %xmm10
	paddw	%xmm5, %xmm8
	pmulhuw	%xmm4, %xmm8
	paddw	%xmm5, %xmm10
	pmulhuw	%xmm4, %xmm10
	psllw	$8, %xmm10
	por	%xmm8, %xmm10
	paddw	%xmm5, %xmm7
	pmulhuw	%xmm4, %xmm7
	paddw	%xmm5, %xmm9
	pmulhuw	%xmm4, %xmm9
	psllw	$8, %xmm9
	por	%xmm7, %xmm9
	paddusb	%xmm13, %xmm10
	movdqu	(%rbx,%rdi), %xmm7
	paddusb	%xmm12, %xmm9
	movdqu	16(%rbx,%rdi), %xmm8
	movdqu	%xmm9, -32(%rbx,%rdi)
	movdqu	%xmm10, -16(%rbx,%rdi)
	movdqu	(%r8,%rdi), %xmm9
	movdqa	%xmm8, %xmm12
	pxor	%xmm6, %xmm12
	pxor	%xmm7, %xmm6
	pshufb	%xmm11, %xmm6
	pshufb	%xmm11, %xmm12
	movdqa	%xmm9, %xmm10
	pand	%xmm3, %xmm10
	pmullw	%xmm2, %xmm10
	paddw	%xmm5, %xmm10
	pmulhuw	%xmm4, %xmm10
	psrlw	$8, %xmm9
	pmullw	%xmm1, %xmm9
	paddw	%xmm5, %xmm9
	pmulhuw	%xmm4, %xmm9
	psllw	$8, %xmm9
	por	%xmm10, %xmm9
	pmullw	%xmm6, %xmm10
	psrlw	$8, %xmm9
	pmullw	%xmm6, %xmm9
	movdqu	16(%r8,%rdi), %xmm6
	pand	%xmm6, %xmm3
	pmullw	%xmm2, %xmm3
	paddw	%xmm5, %xmm3
	pmulhuw	%xmm4, %xmm3
	psrlw	$8, %xmm6
	pmullw	%xmm1, %xmm6
	paddw	%xmm5, %xmm6
	pmulhuw	%xmm4, %xmm6
	psllw	$8, %xmm6
	por	%xmm3, %xmm6
	pmullw	%xmm12, %xmm3
	psrlw	$8, %xmm6
	pmullw	%xmm12, %xmm6
	paddw	%xmm5, %xmm10
	paddw	%xmm5, %xmm3
	paddw	%xmm5, %xmm6
	paddw	%xmm5, %xmm9
	pmulhuw	%xmm4, %xmm3
	pmulhuw	%xmm4, %xmm10
	pmulhuw	%xmm4, %xmm9
	pmulhuw	%xmm4, %xmm6
	psllw	$8, %xmm6
	por	%xmm3, %xmm6
	psllw	$8, %xmm9
	por	%xmm10, %xmm9
	paddusb	%xmm8, %xmm6
	paddusb	%xmm7, %xmm9
	movdqu	%xmm9, (%rbx,%rdi)
	movdqu	%xmm6, 16(%rbx,%rdi)
	addq	$64, %rdi
	decq	%r12
	jne	.LBB_b7a934_4
.LBB_b7a934_5:
	cmpq	%r15, -16(%rsp)
	je	.LBB_b7a934_13
	movq	%r11, %rax
	imulq	-80(%rsp), %rax
	addq	-88(%rsp), %rax
	movq	-40(%rsp), %rcx
	addq	%r11, %rcx
	imulq	-64(%rsp), %rcx
	addq	-96(%rsp), %rcx
	movq	-104(%rsp), %rsi
	leaq	(%rsi,%rax,4), %rdi
	movq	-72(%rsp), %rax
	leaq	(%rax,%rcx,4), %r12
	movq	-48(%rsp), %rax
	addq	%rax, %rdi
	addq	%rax, %r12
	testb	$8, %r15b
	jne	.LBB_b7a934_7
	testb	$4, %r15b
	jne	.LBB_b7a934_9
.LBB_b7a934_10:
	cmpl	%r13d, %r14d
	je	.LBB_b7a934_13
	jmp	.LBB_b7a934_11
	.p2align	4
.LBB_b7a934_7:
	movdqu	(%r12), %xmm3
	movdqu	16(%r12), %xmm4
	movdqa	.LCPI_b7a934_0(%rip), %xmm6
	movdqa	%xmm3, %xmm5
	pand	%xmm6, %xmm5
	pand	%xmm4, %xmm6
	pmullw	%xmm2, %xmm6
	pmullw	%xmm2, %xmm5
	movdqa	.LCPI_b7a934_1(%rip), %xmm7
	paddw	%xmm7, %xmm5
	paddw	%xmm7, %xmm6
	movdqa	.LCPI_b7a934_2(%rip), %xmm8
	pmulhuw	%xmm8, %xmm6
	pmulhuw	%xmm8, %xmm5
	psrlw	$8, %xmm4
	psrlw	$8, %xmm3
	pmullw	%xmm1, %xmm3
	pmullw	%xmm1, %xmm4
	paddw	%xmm7, %xmm4
	paddw	%xmm7, %xmm3
	pmulhuw	%xmm8, %xmm3
	pmulhuw	%xmm8, %xmm4
	psllw	$8, %xmm4
	psllw	$8, %xmm3
	movdqu	(%rdi), %xmm9
	movdqu	16(%rdi), %xmm10
	pcmpeqd	%xmm11, %xmm11
	movdqa	%xmm10, %xmm12
	pxor	%xmm11, %xmm12
	pxor	%xmm9, %xmm11
	movdqa	.LCPI_b7a934_3(%rip), %xmm13
	pshufb	%xmm13, %xmm11
	pshufb	%xmm13, %xmm12
	por	%xmm5, %xmm3
	por	%xmm6, %xmm4
	pmullw	%xmm12, %xmm6
	pmullw	%xmm11, %xmm5
	paddw	%xmm7, %xmm5
	paddw	%xmm7, %xmm6
	pmulhuw	%xmm8, %xmm6
	pmulhuw	%xmm8, %xmm5
	psrlw	$8, %xmm4
	psrlw	$8, %xmm3
	pmullw	%xmm11, %xmm3
	pmullw	%xmm12, %xmm4
	paddw	%xmm7, %xmm4
	paddw	%xmm7, %xmm3
	pmulhuw	%xmm8, %xmm3
	pmulhuw	%xmm8, %xmm4
	psllw	$8, %xmm4
	por	%xmm6, %xmm4
	psllw	$8, %xmm3
	por	%xmm5, %xmm3
	paddusb	%xmm10, %xmm4
	paddusb	%xmm9, %xmm3
	movdqu	%xmm3, (%rdi)
	movdqu	%xmm4, 16(%rdi)
	testb	$4, %r15b
	je	.LBB_b7a934_10
.LBB_b7a934_9:
	movq	-56(%rsp), %rax
	movdqu	(%r12,%rax), %xmm3
	movdqa	.LCPI_b7a934_0(%rip), %xmm6
	movdqa	%xmm3, %xmm7
	pand	%xmm6, %xmm7
	pmullw	%xmm2, %xmm7
	movdqa	.LCPI_b7a934_1(%rip), %xmm4
	paddw	%xmm4, %xmm7
	movdqa	.LCPI_b7a934_2(%rip), %xmm5
	pmulhuw	%xmm5, %xmm7
	psrlw	$8, %xmm3
	pmullw	%xmm1, %xmm3
	paddw	%xmm4, %xmm3
	pmulhuw	%xmm5, %xmm3
	psllw	$8, %xmm3
	movdqu	(%rdi,%rax), %xmm8
	pcmpeqd	%xmm9, %xmm9
	por	%xmm7, %xmm3
	movdqa	%xmm8, %xmm10
	pshufb	.LCPI_b7a934_4(%rip), %xmm10
	pxor	%xmm10, %xmm9
	pandn	%xmm6, %xmm10
	pmullw	%xmm7, %xmm10
	paddw	%xmm4, %xmm10
	pmulhuw	%xmm5, %xmm10
	psrlw	$8, %xmm3
	psrlw	$8, %xmm9
	pmullw	%xmm3, %xmm9
	paddw	%xmm4, %xmm9
	pmulhuw	%xmm5, %xmm9
	psllw	$8, %xmm9
	por	%xmm10, %xmm9
	paddusb	%xmm8, %xmm9
	movdqu	%xmm9, (%rdi,%rax)
	cmpl	%r13d, %r14d
	je	.LBB_b7a934_13
.LBB_b7a934_11:
	xorl	%edi, %edi
	.p2align	4
.LBB_b7a934_12:
	movl	(%r9,%rdi,4), %eax
	movzbl	%ah, %esi
	movl	%eax, %ecx
	movzbl	%al, %r10d
	shrl	$16, %eax
	shrl	$24, %ecx
	movzbl	%al, %eax
	movd	%eax, %xmm5
	pinsrw	$1, %ecx, %xmm5
	pinsrw	$2, %esi, %xmm5
	pinsrw	$3, %r10d, %xmm5
	pmullw	%xmm0, %xmm5
	movl	(%rdx,%rdi,4), %r10d
	movl	%r10d, %r12d
	shrl	$24, %r12d
	movdqa	.LCPI_b7a934_5(%rip), %xmm3
	paddw	%xmm3, %xmm5
	movdqa	%xmm5, %xmm4
	psrlw	$8, %xmm4
	paddw	%xmm5, %xmm4
	psrlw	$8, %xmm4
	movd	%r10d, %xmm5
	psrld	$16, %xmm5
	pinsrb	$1, %r12d, %xmm5
	movl	%r12d, %eax
	notb	%al
	movzbl	%al, %eax
	movd	%eax, %xmm6
	pshuflw	$0, %xmm6, %xmm6
	pmullw	%xmm4, %xmm6
	movl	%r10d, %eax
	shrl	$8, %eax
	paddw	%xmm3, %xmm6
	movdqa	%xmm6, %xmm3
	psrlw	$8, %xmm3
	paddw	%xmm6, %xmm3
	psrlw	$8, %xmm3
	packuswb	%xmm3, %xmm3
	pinsrb	$2, %eax, %xmm5
	pinsrb	$3, %r10d, %xmm5
	paddusb	%xmm3, %xmm5
	pmovzxbd	%xmm5, %xmm3
	pmulld	.LCPI_b7a934_6(%rip), %xmm3
	pshufd	$238, %xmm3, %xmm4
	por	%xmm3, %xmm4
	pshufd	$85, %xmm4, %xmm3
	por	%xmm4, %xmm3
	movd	%xmm3, (%rdx,%rdi,4)
	leaq	(%r14,%rdi), %rax
	incq	%rax
	incq	%rdi
	cmpq	%r13, %rax
	jb	.LBB_b7a934_12
	jmp	.LBB_b7a934_13
.LBB_b7a934_14:
	popq	%rbx
	popq	%r12
	popq	%r13
	popq	%r14
	popq	%r15
	popq	%rbp
	retq
.Lfunc_end_b7a934:
	.size	"pix_raster::view::blit_overlap::<#d778ccf2d5486893>", .Lfunc_end_b7a934-"pix_raster::view::blit_overlap::<#d778ccf2d5486893>"

	.section	.rodata.cst16,"aM",@progbits,16
	.p2align	4, 0x0
.LCPI_36b9a8_0:
	.byte	3
	.byte	128
	.byte	3
	.byte	128
	.byte	7
	.byte	128
	.byte	7
	.byte	128
	.byte	11
	.byte	128
	.byte	11
	.byte	128
	.byte	15
	.byte	128
	.byte	15
	.byte	128
.LCPI_36b9a8_1:
	.byte	255
	.byte	0
	.byte	255
	.byte	0
	.byte	255
	.byte	0
	.byte	255
	.byte	0
	.byte	255
	.byte	0
	.byte	255
	.byte	0
	.byte	255
	.byte	0
	.byte	255
	.byte	0
.LCPI_36b9a8_2:
	.short	128
	.short	128
	.short	128
	.short	128
	.short	128
	.short	128
	.short	128
	.short	128
.LCPI_36b9a8_3:
	.zero	16,1
.LCPI_36b9a8_4:
	.byte	3
	.byte	3
	.byte	3
	.byte	3
	.byte	7
	.byte	7
	.byte	7
	.byte	7
	.byte	11
	.byte	11
	.byte	11
	.byte	11
	.byte	15
	.byte	15
	.byte	15
	.byte	15
	.section	".text.pix_raster::view::blit_overlap::<#1a9768a07824da26>","ax",@progbits
	.p2align	4
	.type	"pix_raster::view::blit_overlap::<#1a9768a07824da26>",@function
"pix_raster::view::blit_overlap::<#1a9768a07824da26>":
	pushq	%rbp
	pushq	%r15
	pushq	%r14
	pushq	%r13
	pushq	%r12
	pushq	%rbx
	movq	%rcx, -88(%rsp)
	movq	%rdx, -96(%rsp)
	movq	%rsi, -104(%rsp)
	movq	%rdi, -112(%rsp)
	movq	24(%r8), %r9
	movq	32(%r8), %rax
	movq	%rax, -8(%rsp)
	cmpq	%rax, %r9
	jae	.LBB_36b9a8_14
	movq	(%r8), %rbp
	movq	16(%r8), %r15
	movq	8(%r8), %r10
	movq	40(%r8), %rax
	subq	%rbp, %r10
	movq	%rax, %rcx
	subq	%r9, %rcx
	movq	%rcx, -56(%rsp)
	movq	%r10, %rcx
	shrq	$4, %rcx
	movq	%rcx, -80(%rsp)
	movq	%r10, %rcx
	andq	$-16, %rcx
	movq	%rcx, -16(%rsp)
	leaq	(,%rcx,4), %rdi
	movl	%r10d, %r13d
	andl	$15, %r13d
	leal	(,%r10,4), %ecx
	movl	%ecx, %edx
	andl	$32, %edx
	movq	%rdx, -72(%rsp)
	movl	%r10d, %r14d
	andl	$12, %r14d
	movq	%r9, %rdx
	movq	-104(%rsp), %rbx
	imulq	%rbx, %rdx
	leaq	(,%rbp,4), %rsi
	leaq	(%rsi,%rdx,4), %r11
	addq	-112(%rsp), %r11
	movq	-88(%rsp), %r12
	imulq	%r12, %rax
	leaq	(,%r15,4), %rsi
	leaq	(%rsi,%rax,4), %r8
	leaq	(%rdi,%rax,4), %rax
	andl	$48, %ecx
	addq	%rcx, %rax
	movq	%rdi, -64(%rsp)
	leaq	(%rdi,%rdx,4), %rdx
	addq	%rcx, %rdx
	leaq	(,%rbx,4), %rcx
	movq	%rcx, -24(%rsp)
	movq	-96(%rsp), %rcx
	addq	%rcx, %r8
	movq	%r15, -48(%rsp)
	leaq	(%rax,%r15,4), %r15
	addq	%rcx, %r15
	movq	%rbp, -40(%rsp)
	leaq	(%rdx,%rbp,4), %rdx
	addq	-112(%rsp), %rdx
	leaq	(,%r12,4), %rax
	movq	%rax, -32(%rsp)
	jmp	.LBB_36b9a8_2
	.p2align	4
.LBB_36b9a8_13:
	incq	%r9
	movq	-24(%rsp), %rax
	addq	%rax, %r11
	movq	-32(%rsp), %rcx
	addq	%rcx, %r8
	addq	%rcx, %r15
	addq	%rax, %rdx
	cmpq	-8(%rsp), %r9
	je	.LBB_36b9a8_14
.LBB_36b9a8_2:
	cmpq	$0, -80(%rsp)
	je	.LBB_36b9a8_5
	movl	$32, %edi
	movq	-80(%rsp), %r12
	.p2align	4
.LBB_36b9a8_4:
	movdqu	-32(%r8,%rdi), %xmm8
	movdqu	-16(%r8,%rdi), %xmm7
	pcmpeqd	%xmm5, %xmm5
	movdqu	-32(%r11,%rdi), %xmm10
	movdqu	-16(%r11,%rdi), %xmm11
	movdqu	(%r11,%rdi), %xmm1
	movdqu	16(%r11,%rdi), %xmm2
	pxor	%xmm5, %xmm10
	pxor	%xmm5, %xmm11
	movdqa	.LCPI_36b9a8_0(%rip), %xmm6
	pshufb	%xmm6, %xmm11
	pshufb	%xmm6, %xmm10
	movdqa	.LCPI_36b9a8_1(%rip), %xmm0
	movdqa	%xmm7, %xmm9
	pand	%xmm0, %xmm9
	movdqa	%xmm8, %xmm12
	pand	%xmm0, %xmm12
	pmullw	%xmm10, %xmm12
	pmullw	%xmm11, %xmm9
	movdqa	.LCPI_36b9a8_2(%rip), %xmm3
	paddw	%xmm3, %xmm9
	paddw	%xmm3, %xmm12
	movdqa	.LCPI_36b9a8_3(%rip), %xmm4
	pmulhuw	%xmm4, %xmm12
	pmulhuw	%xmm4, %xmm9
	psrlw	$8, %xmm8
	psrlw	$8, %xmm7
	pmullw	%xmm11, %xmm7
	pmullw	%xmm10, %xmm8
	paddw	%xmm3, %xmm8
	paddw	%xmm3, %xmm7
	pmulhuw	%xmm4, %xmm7
	pmulhuw	%xmm4, %xmm8
	psllw	$8, %xmm8
	por	%xmm12, %xmm8
	psllw	$8, %xmm7
	por	%xmm9, %xmm7
	movdqu	%xmm8, -32(%r11,%rdi)
	movdqu	%xmm7, -16(%r11,%rdi)
	movdqu	(%r8,%rdi), %xmm8
	movdqu	16(%r8,%rdi), %xmm7
	pxor	%xmm5, %xmm1
	pxor	%xmm5, %xmm2
	pshufb	%xmm6, %xmm2
	pshufb	%xmm6, %xmm1
	movdqa	%xmm7, %xmm5
	pand	%xmm0, %xmm5
	pand	%xmm8, %xmm0
	pmullw	%xmm1, %xmm0
	pmullw	%xmm2, %xmm5
	paddw	%xmm3, %xmm5
	paddw	%xmm3, %xmm0
	pmulhuw	%xmm4, %xmm0
	pmulhuw	%xmm4, %xmm5
	psrlw	$8, %xmm8
	psrlw	$8, %xmm7
	pmullw	%xmm2, %xmm7
	pmullw	%xmm1, %xmm8
	paddw	%xmm3, %xmm8
	paddw	%xmm3, %xmm7
	pmulhuw	%xmm4, %xmm7
	pmulhuw	%xmm4, %xmm8
	psllw	$8, %xmm8
	por	%xmm0, %xmm8
	psllw	$8, %xmm7
	por	%xmm5, %xmm7
	movdqu	%xmm8, (%r11,%rdi)
	movdqu	%xmm7, 16(%r11,%rdi)
	addq	$64, %rdi
	decq	%r12
	jne	.LBB_36b9a8_4
.LBB_36b9a8_5:
	cmpq	%r10, -16(%rsp)
	je	.LBB_36b9a8_13
	movq	%r9, %rax
	imulq	-104(%rsp), %rax
	addq	-40(%rsp), %rax
	movq	-56(%rsp), %rcx
	leaq	(%rcx,%r9), %rsi
	imulq	-88(%rsp), %rsi
	addq	-48(%rsp), %rsi
	movq	-112(%rsp), %rcx
	leaq	(%rcx,%rax,4), %rdi
	movq	-96(%rsp), %rax
	leaq	(%rax,%rsi,4), %r12
	movq	-64(%rsp), %rax
	addq	%rax, %rdi
	addq	%rax, %r12
	testb	$8, %r10b
	jne	.LBB_36b9a8_7
	testb	$4, %r10b
	jne	.LBB_36b9a8_9
.LBB_36b9a8_10:
	cmpl	%r13d, %r14d
	je	.LBB_36b9a8_13
	jmp	.LBB_36b9a8_11
	.p2align	4
.LBB_36b9a8_7:
	movdqu	(%r12), %xmm1
	movdqu	16(%r12), %xmm0
	movdqu	(%rdi), %xmm3
	movdqu	16(%rdi), %xmm5
	pcmpeqd	%xmm2, %xmm2
	pxor	%xmm2, %xmm3
	pxor	%xmm2, %xmm5
	movdqa	.LCPI_36b9a8_0(%rip), %xmm2
	pshufb	%xmm2, %xmm5
	pshufb	%xmm2, %xmm3
	movdqa	.LCPI_36b9a8_1(%rip), %xmm4
	movdqa	%xmm0, %xmm2
	pand	%xmm4, %xmm2
	pand	%xmm1, %xmm4
	pmullw	%xmm3, %xmm4
	pmullw	%xmm5, %xmm2
	movdqa	.LCPI_36b9a8_2(%rip), %xmm6
	paddw	%xmm6, %xmm2
	paddw	%xmm6, %xmm4
	movdqa	.LCPI_36b9a8_3(%rip), %xmm7
	pmulhuw	%xmm7, %xmm4
	pmulhuw	%xmm7, %xmm2
	psrlw	$8, %xmm1
	psrlw	$8, %xmm0
	pmullw	%xmm5, %xmm0
	pmullw	%xmm3, %xmm1
	paddw	%xmm6, %xmm1
	paddw	%xmm6, %xmm0
	pmulhuw	%xmm7, %xmm0
	pmulhuw	%xmm7, %xmm1
	psllw	$8, %xmm1
	por	%xmm4, %xmm1
	psllw	$8, %xmm0
	por	%xmm2, %xmm0
	movdqu	%xmm1, (%rdi)
	movdqu	%xmm0, 16(%rdi)
	testb	$4, %r10b
	je	.LBB_36b9a8_10
.LBB_36b9a8_9:
	movq	-72(%rsp), %rax
	movdqu	(%r12,%rax), %xmm0
	movdqu	(%rdi,%rax), %xmm1
	pcmpeqd	%xmm2, %xmm2
	pshufb	.LCPI_36b9a8_4(%rip), %xmm1
	pxor	%xmm1, %xmm2
	movdqa	.LCPI_36b9a8_1(%rip), %xmm3
	movdqa	%xmm0, %xmm4
	pand	%xmm3, %xmm4
	pandn	%xmm3, %xmm1
	pmullw	%xmm4, %xmm1
	movdqa	.LCPI_36b9a8_2(%rip), %xmm3
	paddw	%xmm3, %xmm1
	movdqa	.LCPI_36b9a8_3(%rip), %xmm4
	pmulhuw	%xmm4, %xmm1
	psrlw	$8, %xmm0
	psrlw	$8, %xmm2
	pmullw	%xmm0, %xmm2
	paddw	%xmm3, %xmm2
	pmulhuw	%xmm4, %xmm2
	psllw	$8, %xmm2
	por	%xmm1, %xmm2
	movdqu	%xmm2, (%rdi,%rax)
	cmpl	%r13d, %r14d
	je	.LBB_36b9a8_13
.LBB_36b9a8_11:
	xorl	%edi, %edi
	.p2align	4
.LBB_36b9a8_12:
	movl	(%r15,%rdi,4), %eax
	movzbl	%ah, %ebp
	movl	%eax, %ebx
	movzbl	%al, %esi
	shrl	$16, %eax
	shrl	$24, %ebx
	movzbl	3(%rdx,%rdi,4), %r12d
	xorl	$255, %r12d
	imull	%r12d, %esi
	leal	128(%rsi), %ecx
	movzbl	%ch, %ecx
	addl	%esi, %ecx
	addl	$128, %ecx
	movzbl	%ch, %esi
	imull	%r12d, %ebp
	leal	128(%rbp), %ecx
	movzbl	%ch, %ecx
	addl	%ecx, %ebp
	addl	$128, %ebp
	andl	$65280, %ebp
	movzbl	%al, %eax
	imull	%r12d, %eax
	leal	128(%rax), %ecx
	movzbl	%ch, %ecx
	addl	%ecx, %eax
	addl	$128, %eax
	imull	%ebx, %r12d
	leal	128(%r12), %ecx
	movzbl	%ch, %ecx
	addl	%r12d, %ecx
	addl	$128, %ecx
	shll	$16, %ecx
	andl	$-16777216, %ecx
	shll	$8, %eax
	andl	$16711680, %eax
	orl	%ecx, %eax
	orl	%ebp, %eax
	orl	%esi, %eax
	movl	%eax, (%rdx,%rdi,4)
	leaq	(%r14,%rdi), %rax
	incq	%rax
	incq	%rdi
	cmpq	%r13, %rax
	jb	.LBB_36b9a8_12
	jmp	.LBB_36b9a8_13
.LBB_36b9a8_14:
	popq	%rbx
	popq	%r12
	popq	%r13
	popq	%r14
	popq	%r15
	popq	%rbp
	retq
.Lfunc_end_36b9a8:
	.size	"pix_raster::view::blit_overlap::<#1a9768a07824da26>", .Lfunc_end_36b9a8-"pix_raster::view::blit_overlap::<#1a9768a07824da26>"

	.section	.rodata.cst16,"aM",@progbits,16
	.p2align	4, 0x0
.LCPI_2a0fb9_0:
	.byte	255
	.byte	0
	.byte	255
	.byte	0
	.byte	255
	.byte	0
	.byte	255
	.byte	0
	.byte	255
	.byte	0
	.byte	255
	.byte	0
	.byte	255
	.byte	0
	.byte	255
	.byte	0
.LCPI_2a0fb9_1:
	.short	128
	.short	128
	.short	128
	.short	128
	.short	128
	.short	128
	.short	128
	.short	128
.LCPI_2a0fb9_2:
	.zero	16,1
.LCPI_2a0fb9_3:
	.byte	3
	.byte	128
	.byte	3
	.byte	128
	.byte	7
	.byte	128
	.byte	7
	.byte	128
	.byte	11
	.byte	128
	.byte	11
	.byte	128
	.byte	15
	.byte	128
	.byte	15
	.byte	128
.LCPI_2a0fb9_4:
	.byte	3
	.byte	3
	.byte	3
	.byte	3
	.byte	7
	.byte	7
	.byte	7
	.byte	7
	.byte	11
	.byte	11
	.byte	11
	.byte	11
	.byte	15
	.byte	15
	.byte	15
	.byte	15
.LCPI_2a0fb9_5:
	.short	128
	.short	128
	.zero	2
	.zero	2
	.zero	2
	.zero	2
	.zero	2
	.zero	2
.LCPI_2a0fb9_6:
	.byte	128
	.byte	128
	.byte	128
	.byte	2
	.zero	1
	.zero	1
	.zero	1
	.zero	1
	.zero	1
	.zero	1
	.zero	1
	.zero	1
	.zero	1
	.zero	1
	.zero	1
	.zero	1
	.section	".text.pix_raster::view::blit_overlap::<#2e778847ba9e3685>","ax",@progbits
	.p2align	4
	.type	"pix_raster::view::blit_overlap::<#2e778847ba9e3685>",@function
"pix_raster::view::blit_overlap::<#2e778847ba9e3685>":
	pushq	%rbp
	pushq	%r15
	pushq	%r14
	pushq	%r13
	pushq	%r12
	pushq	%rbx
	pushq	%rax
	movq	%rcx, -120(%rsp)
	movq	%rsi, -80(%rsp)
	movq	%rdi, -88(%rsp)
	movq	24(%r8), %rax
	movq	32(%r8), %rcx
	movq	%rax, -128(%rsp)
	movq	%rcx, (%rsp)
	cmpq	%rcx, %rax
	jae	.LBB_2a0fb9_21
	movl	%r9d, %ebx
	movq	(%r8), %rcx
	movq	%rcx, -96(%rsp)
	movq	16(%r8), %rdi
	leaq	(%rdx,%rdi), %rax
	movq	%rax, -24(%rsp)
	movq	%rdx, -112(%rsp)
	movq	8(%r8), %r14
	movq	40(%r8), %rsi
	subq	%rcx, %r14
	movq	%rsi, %rcx
	movq	-128(%rsp), %rdx
	subq	%rdx, %rcx
	movq	%rcx, -32(%rsp)
	movq	%r14, %r9
	movl	%ebx, %eax
	shrl	$24, %eax
	movl	%ebx, %r8d
	shrl	$16, %r8d
	movl	%ebx, %ecx
	shrl	$8, %ecx
	movd	%ebx, %xmm0
	pinsrb	$1, %ecx, %xmm0
	pinsrb	$2, %r8d, %xmm0
	pinsrb	$3, %eax, %xmm0
	pinsrb	$4, %ebx, %xmm0
	pinsrb	$5, %ecx, %xmm0
	pinsrb	$6, %r8d, %xmm0
	pinsrb	$7, %eax, %xmm0
	pinsrb	$8, %ebx, %xmm0
	pinsrb	$9, %ecx, %xmm0
	pinsrb	$10, %r8d, %xmm0
	pinsrb	$11, %eax, %xmm0
	pinsrb	$12, %ebx, %xmm0
	pinsrb	$13, %ecx, %xmm0
	shrq	$4, %r9
	pinsrb	$14, %r8d, %xmm0
	movdqa	.LCPI_2a0fb9_0(%rip), %xmm1
	pand	%xmm0, %xmm1
	pinsrb	$15, %eax, %xmm0
	psrlw	$8, %xmm0
	movq	%r14, %r15
	andq	$-16, %r15
	movl	%r14d, %r12d
	andl	$15, %r12d
	movl	%r14d, %r13d
	andl	$8, %r13d
	movq	%r14, -104(%rsp)
	andl	$12, %r14d
	movzbl	%r8b, %ecx
	movd	%ecx, %xmm2
	movzbl	%bh, %ebp
	movzbl	%bl, %r11d
	pinsrw	$1, %eax, %xmm2
	imulq	-120(%rsp), %rsi
	addq	%rdi, %rsi
	movq	-112(%rsp), %rax
	leaq	(%rax,%rsi), %r8
	addq	$8, %r8
	leaq	(%r15,%r14), %r10
	addq	%rax, %r10
	movq	%rdx, %rcx
	movq	-80(%rsp), %rax
	imulq	%rax, %rcx
	addq	%rsi, %r10
	movq	-96(%rsp), %rbx
	leaq	(%rbx,%rcx), %rdx
	movq	-88(%rsp), %rdi
	leaq	(%rdi,%rdx,4), %rdx
	movq	%r15, -64(%rsp)
	leaq	(,%r15,4), %rsi
	movq	%rsi, -40(%rsp)
	leaq	(%rsi,%rcx,4), %rcx
	movq	%r14, -72(%rsp)
	leaq	(%rcx,%r14,4), %rcx
	leaq	(%rcx,%rbx,4), %rsi
	addq	%rdi, %rsi
	movq	%r13, -48(%rsp)
	leal	(,%r13,4), %ecx
	movq	%rcx, -56(%rsp)
	movq	%r9, -8(%rsp)
	leaq	(,%r9,4), %r13
	movq	%rdx, %rbx
	leaq	(,%rax,4), %rax
	movq	%rax, -16(%rsp)
	jmp	.LBB_2a0fb9_2
	.p2align	4
.LBB_2a0fb9_20:
	movq	-128(%rsp), %rcx
	incq	%rcx
	movq	-120(%rsp), %rax
	addq	%rax, %r8
	movq	-112(%rsp), %rbx
	movq	-16(%rsp), %rdx
	addq	%rdx, %rbx
	addq	%rax, %r10
	addq	%rdx, %rsi
	movq	%rcx, -128(%rsp)
	cmpq	(%rsp), %rcx
	je	.LBB_2a0fb9_21
.LBB_2a0fb9_2:
	cmpq	$0, -8(%rsp)
	je	.LBB_2a0fb9_8
	xorl	%r9d, %r9d
	movq	%rbx, %rdx
	jmp	.LBB_2a0fb9_4
	.p2align	4
.LBB_2a0fb9_6:
	movq	%rcx, %xmm9
	punpcklbw	%xmm9, %xmm9
	movdqa	%xmm9, %xmm10
	punpcklwd	%xmm9, %xmm10
	punpckhwd	%xmm9, %xmm9
	movdqa	.LCPI_2a0fb9_0(%rip), %xmm3
	movdqa	%xmm9, %xmm12
	pand	%xmm3, %xmm12
	movdqa	%xmm10, %xmm13
	pand	%xmm3, %xmm13
	pmullw	%xmm1, %xmm13
	pmullw	%xmm1, %xmm12
	movdqa	.LCPI_2a0fb9_1(%rip), %xmm4
	paddw	%xmm4, %xmm12
	paddw	%xmm4, %xmm13
	movdqa	.LCPI_2a0fb9_2(%rip), %xmm5
	pmulhuw	%xmm5, %xmm13
	pmulhuw	%xmm5, %xmm12
	psrlw	$8, %xmm10
	psrlw	$8, %xmm9
	pmullw	%xmm0, %xmm9
	pmullw	%xmm0, %xmm10
	paddw	%xmm4, %xmm10
	paddw	%xmm4, %xmm9
	pmulhuw	%xmm5, %xmm9
	pmulhuw	%xmm5, %xmm10
	psllw	$8, %xmm10
	psllw	$8, %xmm9
	pcmpeqd	%xmm8, %xmm8
	movdqu	(%rdx), %xmm14
	movdqu	16(%rdx), %xmm15
	movdqu	32(%rdx), %xmm6
	movdqu	48(%rdx), %xmm7
	pxor	%xmm8, %xmm14
	pxor	%xmm8, %xmm15
	movdqa	.LCPI_2a0fb9_3(%rip), %xmm11
	pshufb	%xmm11, %xmm15
	pshufb	%xmm11, %xmm14
	por	%xmm12, %xmm9
	por	%xmm13, %xmm10
	pmullw	%xmm14, %xmm13
	pmullw	%xmm15, %xmm12
	paddw	%xmm4, %xmm12
	paddw	%xmm4, %xmm13
	pmulhuw	%xmm5, %xmm13
	pmulhuw	%xmm5, %xmm12
	psrlw	$8, %xmm10
	psrlw	$8, %xmm9
	pmullw	%xmm15, %xmm9
	pmullw	%xmm14, %xmm10
	paddw	%xmm4, %xmm10
	paddw	%xmm4, %xmm9
	pmulhuw	%xmm5, %xmm9
	pmulhuw	%xmm5, %xmm10
	psllw	$8, %xmm10
	por	%xmm13, %xmm10
	psllw	$8, %xmm9
	por	%xmm12, %xmm9
	movdqu	%xmm10, (%rdx)
	movdqu	%xmm9, 16(%rdx)
	movq	(%r8,%r9,4), %xmm9
	punpcklbw	%xmm9, %xmm9
	movdqa	%xmm9, %xmm10
	punpcklwd	%xmm9, %xmm10
	punpckhwd	%xmm9, %xmm9
	movdqa	%xmm9, %xmm12
	pand	%xmm3, %xmm12
	pand	%xmm10, %xmm3
	pmullw	%xmm1, %xmm3
	pmullw	%xmm1, %xmm12
	paddw	%xmm4, %xmm12
	paddw	%xmm4, %xmm3
	pmulhuw	%xmm5, %xmm3
	pmulhuw	%xmm5, %xmm12
	psrlw	$8, %xmm10
	psrlw	$8, %xmm9
	pmullw	%xmm0, %xmm9
	pmullw	%xmm0, %xmm10
	paddw	%xmm4, %xmm10
	paddw	%xmm4, %xmm9
	pmulhuw	%xmm5, %xmm9
	pmulhuw	%xmm5, %xmm10
	psllw	$8, %xmm10
	psllw	$8, %xmm9
	pxor	%xmm8, %xmm6
	pxor	%xmm8, %xmm7
	pshufb	%xmm11, %xmm7
	pshufb	%xmm11, %xmm6
	por	%xmm12, %xmm9
	por	%xmm3, %xmm10
	pmullw	%xmm6, %xmm3
	pmullw	%xmm7, %xmm12
	paddw	%xmm4, %xmm12
	paddw	%xmm4, %xmm3
	pmulhuw	%xmm5, %xmm3
	pmulhuw	%xmm5, %xmm12
	psrlw	$8, %xmm10
	psrlw	$8, %xmm9
	pmullw	%xmm7, %xmm9
	pmullw	%xmm6, %xmm10
	paddw	%xmm4, %xmm10
	paddw	%xmm4, %xmm9
	pmulhuw	%xmm5, %xmm9
	pmulhuw	%xmm5, %xmm10
	psllw	$8, %xmm10
	por	%xmm3, %xmm10
	psllw	$8, %xmm9
	por	%xmm12, %xmm9
	movdqu	%xmm10, 32(%rdx)
	movdqu	%xmm9, 48(%rdx)
	addq	$4, %r9
	addq	$64, %rdx
	cmpq	%r9, %r13
	je	.LBB_2a0fb9_8
.LBB_2a0fb9_4:
	movq	-8(%r8,%r9,4), %rcx
	movq	(%r8,%r9,4), %rdi
	orq	%rcx, %rdi
	jne	.LBB_2a0fb9_6
	pxor	%xmm3, %xmm3
	movdqu	%xmm3, 48(%rdx)
	movdqu	%xmm3, 32(%rdx)
	movdqu	%xmm3, 16(%rdx)
	movdqu	%xmm3, (%rdx)
	addq	$4, %r9
	addq	$64, %rdx
	cmpq	%r9, %r13
	jne	.LBB_2a0fb9_4
.LBB_2a0fb9_8:
	movq	%rbx, -112(%rsp)
	movq	-64(%rsp), %rax
	cmpq	-104(%rsp), %rax
	je	.LBB_2a0fb9_20
	movq	-128(%rsp), %rax
	movq	%rax, %rcx
	imulq	-80(%rsp), %rcx
	addq	-96(%rsp), %rcx
	movq	-32(%rsp), %rdx
	leaq	(%rdx,%rax), %r9
	imulq	-120(%rsp), %r9
	addq	-24(%rsp), %r9
	movq	-88(%rsp), %rax
	leaq	(%rax,%rcx,4), %rdx
	addq	-40(%rsp), %rdx
	addq	-64(%rsp), %r9
	testb	$8, -104(%rsp)
	jne	.LBB_2a0fb9_10
	testb	$4, -104(%rsp)
	jne	.LBB_2a0fb9_14
.LBB_2a0fb9_17:
	cmpl	%r12d, -72(%rsp)
	je	.LBB_2a0fb9_20
	jmp	.LBB_2a0fb9_18
	.p2align	4
.LBB_2a0fb9_10:
	movq	(%r9), %rcx
	testq	%rcx, %rcx
	je	.LBB_2a0fb9_11
	movq	%rcx, %xmm3
	punpcklbw	%xmm3, %xmm3
	movdqa	%xmm3, %xmm4
	punpcklwd	%xmm3, %xmm4
	punpckhwd	%xmm3, %xmm3
	movdqa	.LCPI_2a0fb9_0(%rip), %xmm6
	movdqa	%xmm3, %xmm5
	pand	%xmm6, %xmm5
	pand	%xmm4, %xmm6
	pmullw	%xmm1, %xmm6
	pmullw	%xmm1, %xmm5
	movdqa	.LCPI_2a0fb9_1(%rip), %xmm7
	paddw	%xmm7, %xmm5
	paddw	%xmm7, %xmm6
	movdqa	.LCPI_2a0fb9_2(%rip), %xmm8
	pmulhuw	%xmm8, %xmm6
	pmulhuw	%xmm8, %xmm5
	psrlw	$8, %xmm4
	psrlw	$8, %xmm3
	pmullw	%xmm0, %xmm3
	pmullw	%xmm0, %xmm4
	paddw	%xmm7, %xmm4
	paddw	%xmm7, %xmm3
	pmulhuw	%xmm8, %xmm3
	pmulhuw	%xmm8, %xmm4
	psllw	$8, %xmm4
	psllw	$8, %xmm3
	movdqu	(%rdx), %xmm9
	movdqu	16(%rdx), %xmm10
	pcmpeqd	%xmm11, %xmm11
	pxor	%xmm11, %xmm9
	pxor	%xmm11, %xmm10
	movdqa	.LCPI_2a0fb9_3(%rip), %xmm11
	pshufb	%xmm11, %xmm10
	pshufb	%xmm11, %xmm9
	por	%xmm5, %xmm3
	por	%xmm6, %xmm4
	pmullw	%xmm9, %xmm6
	pmullw	%xmm10, %xmm5
	paddw	%xmm7, %xmm5
	paddw	%xmm7, %xmm6
	pmulhuw	%xmm8, %xmm6
	pmulhuw	%xmm8, %xmm5
	psrlw	$8, %xmm4
	psrlw	$8, %xmm3
	pmullw	%xmm10, %xmm3
	pmullw	%xmm9, %xmm4
	paddw	%xmm7, %xmm4
	paddw	%xmm7, %xmm3
	pmulhuw	%xmm8, %xmm3
	pmulhuw	%xmm8, %xmm4
	psllw	$8, %xmm4
	por	%xmm6, %xmm4
	psllw	$8, %xmm3
	por	%xmm5, %xmm3
	movdqu	%xmm4, (%rdx)
	movdqu	%xmm3, 16(%rdx)
	testb	$4, -104(%rsp)
	je	.LBB_2a0fb9_17
	jmp	.LBB_2a0fb9_14
.LBB_2a0fb9_11:
	pxor	%xmm3, %xmm3
	movdqu	%xmm3, 16(%rdx)
	movdqu	%xmm3, (%rdx)
	testb	$4, -104(%rsp)
	je	.LBB_2a0fb9_17
	.p2align	4
.LBB_2a0fb9_14:
	addq	-56(%rsp), %rdx
	movq	-48(%rsp), %rax
	movl	(%r9,%rax), %ecx
	testl	%ecx, %ecx
	je	.LBB_2a0fb9_15
	movd	%ecx, %xmm3
	punpcklbw	%xmm3, %xmm3
	punpcklwd	%xmm3, %xmm3
	movdqa	.LCPI_2a0fb9_0(%rip), %xmm6
	movdqa	%xmm3, %xmm7
	pand	%xmm6, %xmm7
	pmullw	%xmm1, %xmm7
	movdqa	.LCPI_2a0fb9_1(%rip), %xmm4
	paddw	%xmm4, %xmm7
	movdqa	.LCPI_2a0fb9_2(%rip), %xmm5
	pmulhuw	%xmm5, %xmm7
	psrlw	$8, %xmm3
	pmullw	%xmm0, %xmm3
	paddw	%xmm4, %xmm3
	pmulhuw	%xmm5, %xmm3
	psllw	$8, %xmm3
	movdqu	(%rdx), %xmm8
	pcmpeqd	%xmm9, %xmm9
	por	%xmm7, %xmm3
	pshufb	.LCPI_2a0fb9_4(%rip), %xmm8
	pxor	%xmm8, %xmm9
	pandn	%xmm6, %xmm8
	pmullw	%xmm7, %xmm8
	paddw	%xmm4, %xmm8
	pmulhuw	%xmm5, %xmm8
	psrlw	$8, %xmm3
	psrlw	$8, %xmm9
	pmullw	%xmm3, %xmm9
	paddw	%xmm4, %xmm9
	pmulhuw	%xmm5, %xmm9
	psllw	$8, %xmm9
	por	%xmm8, %xmm9
	movdqu	%xmm9, (%rdx)
	cmpl	%r12d, -72(%rsp)
	je	.LBB_2a0fb9_20
	jmp	.LBB_2a0fb9_18
.LBB_2a0fb9_15:
	pxor	%xmm3, %xmm3
	movdqu	%xmm3, (%rdx)
	cmpl	%r12d, -72(%rsp)
	je	.LBB_2a0fb9_20
	.p2align	4
.LBB_2a0fb9_18:
	xorl	%edx, %edx
	movq	-72(%rsp), %r9
	.p2align	4
.LBB_2a0fb9_19:
	movzbl	(%r10,%rdx), %r15d
	movzbl	3(%rsi,%rdx,4), %edi
	movzwl	%r11w, %ecx
	imull	%r15d, %ecx
	leal	128(%rcx), %ebx
	movzbl	%bh, %ebx
	addl	%ebx, %ecx
	addl	$128, %ecx
	movzbl	%ch, %ebx
	movzwl	%bp, %ecx
	imull	%r15d, %ecx
	leal	128(%rcx), %eax
	movzbl	%ah, %eax
	addl	%ecx, %eax
	addl	$128, %eax
	movzbl	%ah, %ecx
	xorl	$255, %edi
	imull	%edi, %ebx
	leal	128(%rbx), %eax
	movzbl	%ah, %eax
	addl	%ebx, %eax
	addl	$128, %eax
	movzbl	%ah, %ebx
	imull	%edi, %ecx
	leal	128(%rcx), %eax
	movzbl	%ah, %eax
	leal	(%rax,%rcx), %r14d
	addl	$128, %r14d
	andl	$65280, %r14d
	movd	%r15d, %xmm3
	pshuflw	$0, %xmm3, %xmm3
	pmullw	%xmm2, %xmm3
	movdqa	.LCPI_2a0fb9_5(%rip), %xmm4
	paddw	%xmm4, %xmm3
	movdqa	%xmm3, %xmm5
	psrlw	$8, %xmm5
	paddw	%xmm3, %xmm5
	psrlw	$8, %xmm5
	movd	%edi, %xmm3
	pshuflw	$0, %xmm3, %xmm3
	pmullw	%xmm5, %xmm3
	paddw	%xmm4, %xmm3
	movdqa	%xmm3, %xmm4
	psrlw	$8, %xmm4
	paddw	%xmm3, %xmm4
	psrlw	$8, %xmm4
	movdqa	%xmm4, %xmm3
	pslld	$16, %xmm3
	pshufb	.LCPI_2a0fb9_6(%rip), %xmm4
	por	%xmm3, %xmm4
	movd	%xmm4, %eax
	orl	%r14d, %eax
	orl	%ebx, %eax
	movl	%eax, (%rsi,%rdx,4)
	incq	%r9
	incq	%rdx
	cmpq	%r12, %r9
	jb	.LBB_2a0fb9_19
	jmp	.LBB_2a0fb9_20
.LBB_2a0fb9_21:
	addq	$8, %rsp
	popq	%rbx
	popq	%r12
	popq	%r13
	popq	%r14
	popq	%r15
	popq	%rbp
	retq
.Lfunc_end_2a0fb9:
	.size	"pix_raster::view::blit_overlap::<#2e778847ba9e3685>", .Lfunc_end_2a0fb9-"pix_raster::view::blit_overlap::<#2e778847ba9e3685>"

	.section	.rodata.cst16,"aM",@progbits,16
	.p2align	4, 0x0
.LCPI_f767c7_0:
	.byte	255
	.byte	0
	.byte	255
	.byte	0
	.byte	255
	.byte	0
	.byte	255
	.byte	0
	.byte	255
	.byte	0
	.byte	255
	.byte	0
	.byte	255
	.byte	0
	.byte	255
	.byte	0
.LCPI_f767c7_1:
	.short	128
	.short	128
	.short	128
	.short	128
	.short	128
	.short	128
	.short	128
	.short	128
.LCPI_f767c7_2:
	.zero	16,1
.LCPI_f767c7_3:
	.byte	3
	.byte	128
	.byte	3
	.byte	128
	.byte	7
	.byte	128
	.byte	7
	.byte	128
	.byte	11
	.byte	128
	.byte	11
	.byte	128
	.byte	15
	.byte	128
	.byte	15
	.byte	128
.LCPI_f767c7_4:
	.byte	3
	.byte	3
	.byte	3
	.byte	3
	.byte	7
	.byte	7
	.byte	7
	.byte	7
	.byte	11
	.byte	11
	.byte	11
	.byte	11
	.byte	15
	.byte	15
	.byte	15
	.byte	15
.LCPI_f767c7_5:
	.short	128
	.short	128
	.zero	2
	.zero	2
	.zero	2
	.zero	2
	.zero	2
	.zero	2
.LCPI_f767c7_6:
	.byte	128
	.byte	128
	.byte	128
	.byte	2
	.zero	1
	.zero	1
	.zero	1
	.zero	1
	.zero	1
	.zero	1
	.zero	1
	.zero	1
	.zero	1
	.zero	1
	.zero	1
	.zero	1
	.section	".text.pix_raster::view::blit_overlap::<#4bf1498ae24b3bf7>","ax",@progbits
	.p2align	4
	.type	"pix_raster::view::blit_overlap::<#4bf1498ae24b3bf7>",@function
"pix_raster::view::blit_overlap::<#4bf1498ae24b3bf7>":
	pushq	%rbp
	pushq	%r15
	pushq	%r14
	pushq	%r13
	pushq	%r12
	pushq	%rbx
	pushq	%rax
	movq	%rcx, -88(%rsp)
	movq	%rdx, -96(%rsp)
	movq	%rsi, -104(%rsp)
	movq	%rdi, -112(%rsp)
	movq	24(%r8), %rax
	movq	32(%r8), %rcx
	movq	%rax, -128(%rsp)
	movq	%rcx, -8(%rsp)
	cmpq	%rcx, %rax
	jae	.LBB_f767c7_14
	movq	(%r8), %r12
	movq	16(%r8), %r10
	movq	8(%r8), %r14
	movq	40(%r8), %rcx
	subq	%r12, %r14
	movq	%rcx, %rax
	movq	-128(%rsp), %rdx
	subq	%rdx, %rax
	movq	%rax, -56(%rsp)
	movq	%r14, %rax
	shrq	$4, %rax
	movq	%rax, -80(%rsp)
	movzbl	%r9b, %ebp
	movd	%ebp, %xmm1
	pxor	%xmm2, %xmm2
	pshuflw	$0, %xmm1, %xmm0
	pshufb	%xmm2, %xmm1
	movdqa	.LCPI_f767c7_0(%rip), %xmm2
	pand	%xmm1, %xmm2
	psrlw	$8, %xmm1
	movq	%r14, %rax
	andq	$-16, %rax
	movq	%rax, -16(%rsp)
	leaq	(,%rax,4), %r9
	movl	%r14d, %r15d
	andl	$15, %r15d
	leal	(,%r14,4), %eax
	movl	%eax, %esi
	andl	$32, %esi
	movq	%rsi, -72(%rsp)
	movq	-104(%rsp), %r11
	imulq	%r11, %rdx
	leaq	(,%r12,4), %rsi
	leaq	(%rsi,%rdx,4), %rbx
	movq	-88(%rsp), %rdi
	imulq	%rdi, %rcx
	leaq	(,%r10,4), %rsi
	leaq	(%rsi,%rcx,4), %r8
	leaq	(%r9,%rcx,4), %rcx
	andl	$48, %eax
	addq	%rax, %rcx
	movq	%r9, -64(%rsp)
	leaq	(%r9,%rdx,4), %rdx
	addq	%rax, %rdx
	movq	%r14, -120(%rsp)
	andl	$12, %r14d
	movq	-112(%rsp), %rsi
	addq	%rsi, %rbx
	movq	-96(%rsp), %rax
	addq	%rax, %r8
	movq	%r10, -48(%rsp)
	leaq	(%rcx,%r10,4), %r10
	addq	%rax, %r10
	movq	%r12, -40(%rsp)
	leaq	(%rdx,%r12,4), %r9
	addq	%rsi, %r9
	leaq	(,%r11,4), %rax
	movq	%rax, -24(%rsp)
	leaq	(,%rdi,4), %rax
	movq	%rax, -32(%rsp)
	jmp	.LBB_f767c7_2
	.p2align	4
.LBB_f767c7_13:
	movq	-128(%rsp), %rax
	incq	%rax
	movq	-24(%rsp), %rcx
	addq	%rcx, %rbx
	movq	(%rsp), %r8
	movq	-32(%rsp), %rdx
	addq	%rdx, %r8
	addq	%rdx, %r10
	addq	%rcx, %r9
	movq	%rax, -128(%rsp)
	cmpq	-8(%rsp), %rax
	je	.LBB_f767c7_14
.LBB_f767c7_2:
	cmpq	$0, -80(%rsp)
	je	.LBB_f767c7_5
	movl	$32, %r13d
	movq	-80(%rsp), %r11
	.p2align	4
.LBB_f767c7_4:
	movdqu	-32(%r8,%r13), %xmm10
	movdqu	-16(%r8,%r13), %xmm9
	movdqa	.LCPI_f767c7_0(%rip), %xmm3
	movdqa	%xmm9, %xmm12
	pand	%xmm3, %xmm12
	movdqa	%xmm10, %xmm13
	pand	%xmm3, %xmm13
	pmullw	%xmm2, %xmm13
	pmullw	%xmm2, %xmm12
	movdqa	.LCPI_f767c7_1(%rip), %xmm4
	paddw	%xmm4, %xmm12
	paddw	%xmm4, %xmm13
	movdqa	.LCPI_f767c7_2(%rip), %xmm5
	pmulhuw	%xmm5, %xmm13
	pmulhuw	%xmm5, %xmm12
	psrlw	$8, %xmm10
	psrlw	$8, %xmm9
	pmullw	%xmm1, %xmm9
	pmullw	%xmm1, %xmm10
	paddw	%xmm4, %xmm10
	paddw	%xmm4, %xmm9
	pmulhuw	%xmm5, %xmm9
	pmulhuw	%xmm5, %xmm10
	psllw	$8, %xmm10
	psllw	$8, %xmm9
	pcmpeqd	%xmm8, %xmm8
	movdqu	-32(%rbx,%r13), %xmm14
	movdqu	-16(%rbx,%r13), %xmm15
	movdqu	(%rbx,%r13), %xmm6
	movdqu	16(%rbx,%r13), %xmm7
	pxor	%xmm8, %xmm14
	pxor	%xmm8, %xmm15
	movdqa	.LCPI_f767c7_3(%rip), %xmm11
	pshufb	%xmm11, %xmm15
	pshufb	%xmm11, %xmm14
	por	%xmm12, %xmm9
	por	%xmm13, %xmm10
	pmullw	%xmm14, %xmm13
	pmullw	%xmm15, %xmm12
	paddw	%xmm4, %xmm12
	paddw	%xmm4, %xmm13
	pmulhuw	%xmm5, %xmm13
	pmulhuw	%xmm5, %xmm12
	psrlw	$8, %xmm10
	psrlw	$8, %xmm9
	pmullw	%xmm15, %xmm9
	pmullw	%xmm14, %xmm10
	paddw	%xmm4, %xmm10
	paddw	%xmm4, %xmm9
	pmulhuw	%xmm5, %xmm9
	pmulhuw	%xmm5, %xmm10
	psllw	$8, %xmm10
	por	%xmm13, %xmm10
	psllw	$8, %xmm9
	por	%xmm12, %xmm9
	movdqu	%xmm10, -32(%rbx,%r13)
	movdqu	%xmm9, -16(%rbx,%r13)
	movdqu	(%r8,%r13), %xmm10
	movdqu	16(%r8,%r13), %xmm9
	movdqa	%xmm9, %xmm12
	pand	%xmm3, %xmm12
	pand	%xmm10, %xmm3
	pmullw	%xmm2, %xmm3
	pmullw	%xmm2, %xmm12
	paddw	%xmm4, %xmm12
	paddw	%xmm4, %xmm3
	pmulhuw	%xmm5, %xmm3
	pmulhuw	%xmm5, %xmm12
	psrlw	$8, %xmm10
	psrlw	$8, %xmm9
	pmullw	%xmm1, %xmm9
	pmullw	%xmm1, %xmm10
	paddw	%xmm4, %xmm10
	paddw	%xmm4, %xmm9
	pmulhuw	%xmm5, %xmm9
	pmulhuw	%xmm5, %xmm10
	psllw	$8, %xmm10
	psllw	$8, %xmm9
	pxor	%xmm8, %xmm6
	pxor	%xmm8, %xmm7
	pshufb	%xmm11, %xmm7
	pshufb	%xmm11, %xmm6
	por	%xmm12, %xmm9
	por	%xmm3, %xmm10
	pmullw	%xmm6, %xmm3
	pmullw	%xmm7, %xmm12
	paddw	%xmm4, %xmm12
	paddw	%xmm4, %xmm3
	pmulhuw	%xmm5, %xmm3
	pmulhuw	%xmm5, %xmm12
	psrlw	$8, %xmm10
	psrlw	$8, %xmm9
	pmullw	%xmm7, %xmm9
	pmullw	%xmm6, %xmm10
	paddw	%xmm4, %xmm10
	paddw	%xmm4, %xmm9
	pmulhuw	%xmm5, %xmm9
	pmulhuw	%xmm5, %xmm10
	psllw	$8, %xmm10
	por	%xmm3, %xmm10
	psllw	$8, %xmm9
	por	%xmm12, %xmm9
	movdqu	%xmm10, (%rbx,%r13)
	movdqu	%xmm9, 16(%rbx,%r13)
	addq	$64, %r13
	decq	%r11
	jne	.LBB_f767c7_4
.LBB_f767c7_5:
	movq	%r8, (%rsp)
	movq	-16(%rsp), %rax
	cmpq	-120(%rsp), %rax
	je	.LBB_f767c7_13
	movq	-128(%rsp), %rcx
	movq	%rcx, %rax
	imulq	-104(%rsp), %rax
	addq	-40(%rsp), %rax
	movq	-56(%rsp), %rdx
	addq	%rdx, %rcx
	imulq	-88(%rsp), %rcx
	addq	-48(%rsp), %rcx
	movq	-112(%rsp), %rdx
	leaq	(%rdx,%rax,4), %r11
	movq	-96(%rsp), %rax
	leaq	(%rax,%rcx,4), %r13
	movq	-64(%rsp), %rax
	addq	%rax, %r11
	addq	%rax, %r13
	testb	$8, -120(%rsp)
	jne	.LBB_f767c7_7
	testb	$4, -120(%rsp)
	jne	.LBB_f767c7_9
.LBB_f767c7_10:
	cmpl	%r15d, %r14d
	je	.LBB_f767c7_13
	jmp	.LBB_f767c7_11
	.p2align	4
.LBB_f767c7_7:
	movdqu	(%r13), %xmm4
	movdqu	16(%r13), %xmm3
	movdqa	.LCPI_f767c7_0(%rip), %xmm6
	movdqa	%xmm3, %xmm5
	pand	%xmm6, %xmm5
	pand	%xmm4, %xmm6
	pmullw	%xmm2, %xmm6
	pmullw	%xmm2, %xmm5
	movdqa	.LCPI_f767c7_1(%rip), %xmm7
	paddw	%xmm7, %xmm5
	paddw	%xmm7, %xmm6
	movdqa	.LCPI_f767c7_2(%rip), %xmm8
	pmulhuw	%xmm8, %xmm6
	pmulhuw	%xmm8, %xmm5
	psrlw	$8, %xmm4
	psrlw	$8, %xmm3
	pmullw	%xmm1, %xmm3
	pmullw	%xmm1, %xmm4
	paddw	%xmm7, %xmm4
	paddw	%xmm7, %xmm3
	pmulhuw	%xmm8, %xmm3
	pmulhuw	%xmm8, %xmm4
	psllw	$8, %xmm4
	psllw	$8, %xmm3
	movdqu	(%r11), %xmm9
	movdqu	16(%r11), %xmm10
	pcmpeqd	%xmm11, %xmm11
	pxor	%xmm11, %xmm9
	pxor	%xmm11, %xmm10
	movdqa	.LCPI_f767c7_3(%rip), %xmm11
	pshufb	%xmm11, %xmm10
	pshufb	%xmm11, %xmm9
	por	%xmm5, %xmm3
	por	%xmm6, %xmm4
	pmullw	%xmm9, %xmm6
	pmullw	%xmm10, %xmm5
	paddw	%xmm7, %xmm5
	paddw	%xmm7, %xmm6
	pmulhuw	%xmm8, %xmm6
	pmulhuw	%xmm8, %xmm5
	psrlw	$8, %xmm4
	psrlw	$8, %xmm3
	pmullw	%xmm10, %xmm3
	pmullw	%xmm9, %xmm4
	paddw	%xmm7, %xmm4
	paddw	%xmm7, %xmm3
	pmulhuw	%xmm8, %xmm3
	pmulhuw	%xmm8, %xmm4
	psllw	$8, %xmm4
	por	%xmm6, %xmm4
	psllw	$8, %xmm3
	por	%xmm5, %xmm3
	movdqu	%xmm4, (%r11)
	movdqu	%xmm3, 16(%r11)
	testb	$4, -120(%rsp)
	je	.LBB_f767c7_10
.LBB_f767c7_9:
	movq	-72(%rsp), %rax
	movdqu	(%r13,%rax), %xmm3
	movdqa	.LCPI_f767c7_0(%rip), %xmm6
	movdqa	%xmm3, %xmm7
	pand	%xmm6, %xmm7
	pmullw	%xmm2, %xmm7
	movdqa	.LCPI_f767c7_1(%rip), %xmm4
	paddw	%xmm4, %xmm7
	movdqa	.LCPI_f767c7_2(%rip), %xmm5
	pmulhuw	%xmm5, %xmm7
	psrlw	$8, %xmm3
	pmullw	%xmm1, %xmm3
	paddw	%xmm4, %xmm3
	pmulhuw	%xmm5, %xmm3
	psllw	$8, %xmm3
	movdqu	(%r11,%rax), %xmm8
	pcmpeqd	%xmm9, %xmm9
	por	%xmm7, %xmm3
	pshufb	.LCPI_f767c7_4(%rip), %xmm8
	pxor	%xmm8, %xmm9
	pandn	%xmm6, %xmm8
	pmullw	%xmm7, %xmm8
	paddw	%xmm4, %xmm8
	pmulhuw	%xmm5, %xmm8
	psrlw	$8, %xmm3
	psrlw	$8, %xmm9
	pmullw	%xmm3, %xmm9
	paddw	%xmm4, %xmm9
	pmulhuw	%xmm5, %xmm9
	psllw	$8, %xmm9
	por	%xmm8, %xmm9
	movdqu	%xmm9, (%r11,%rax)
	cmpl	%r15d, %r14d
	je	.LBB_f767c7_13
.LBB_f767c7_11:
	xorl	%r11d, %r11d
	.p2align	4
.LBB_f767c7_12:
	movl	(%r10,%r11,4), %eax
	movzbl	3(%r9,%r11,4), %r13d
	movzbl	%ah, %edi
	movl	%eax, %ecx
	movzbl	%al, %esi
	shrl	$16, %eax
	shrl	$24, %ecx
	movq	%r9, %r8
	movq	%r10, %r9
	movq	%r14, %r10
	movq	%r15, %r14
	movl	%ebp, %r15d
	movzwl	%r15w, %ebp
	imull	%ebp, %esi
	leal	128(%rsi), %edx
	movzbl	%dh, %edx
	addl	%esi, %edx
	addl	$128, %edx
	movzbl	%dh, %esi
	imull	%ebp, %edi
	leal	128(%rdi), %edx
	movzbl	%dh, %edx
	addl	%edi, %edx
	addl	$128, %edx
	movzbl	%dh, %ebp
	movzbl	%al, %eax
	xorl	$255, %r13d
	imull	%r13d, %esi
	leal	128(%rsi), %edx
	movzbl	%dh, %edx
	addl	%esi, %edx
	addl	$128, %edx
	movzbl	%dh, %edi
	imull	%r13d, %ebp
	leal	128(%rbp), %edx
	movzbl	%dh, %edx
	leal	(%rdx,%rbp), %r12d
	addl	$128, %r12d
	movl	%r15d, %ebp
	movq	%r14, %r15
	movq	%r10, %r14
	movq	%r9, %r10
	movq	%r8, %r9
	movd	%eax, %xmm3
	pinsrw	$1, %ecx, %xmm3
	andl	$65280, %r12d
	pmullw	%xmm0, %xmm3
	movdqa	.LCPI_f767c7_5(%rip), %xmm4
	paddw	%xmm4, %xmm3
	movdqa	%xmm3, %xmm5
	psrlw	$8, %xmm5
	paddw	%xmm3, %xmm5
	psrlw	$8, %xmm5
	movd	%r13d, %xmm3
	pshuflw	$0, %xmm3, %xmm3
	pmullw	%xmm5, %xmm3
	paddw	%xmm4, %xmm3
	movdqa	%xmm3, %xmm4
	psrlw	$8, %xmm4
	paddw	%xmm3, %xmm4
	psrlw	$8, %xmm4
	movdqa	%xmm4, %xmm3
	pslld	$16, %xmm3
	pshufb	.LCPI_f767c7_6(%rip), %xmm4
	por	%xmm3, %xmm4
	movd	%xmm4, %eax
	orl	%r12d, %eax
	orl	%edi, %eax
	movl	%eax, (%r8,%r11,4)
	leaq	(%r14,%r11), %rax
	incq	%rax
	incq	%r11
	cmpq	%r15, %rax
	jb	.LBB_f767c7_12
	jmp	.LBB_f767c7_13
.LBB_f767c7_14:
	addq	$8, %rsp
	popq	%rbx
	popq	%r12
	popq	%r13
	popq	%r14
	popq	%r15
	popq	%rbp
	retq
.Lfunc_end_f767c7:
	.size	"pix_raster::view::blit_overlap::<#4bf1498ae24b3bf7>", .Lfunc_end_f767c7-"pix_raster::view::blit_overlap::<#4bf1498ae24b3bf7>"

	.section	.rodata.cst16,"aM",@progbits,16
	.p2align	4, 0x0
.LCPI_d30de0_0:
	.byte	3
	.byte	128
	.byte	3
	.byte	128
	.byte	7
	.byte	128
	.byte	7
	.byte	128
	.byte	11
	.byte	128
	.byte	11
	.byte	128
	.byte	15
	.byte	128
	.byte	15
	.byte	128
.LCPI_d30de0_1:
	.byte	255
	.byte	0
	.byte	255
	.byte	0
	.byte	255
	.byte	0
	.byte	255
	.byte	0
	.byte	255
	.byte	0
	.byte	255
	.byte	0
	.byte	255
	.byte	0
	.byte	255
	.byte	0
.LCPI_d30de0_2:
	.short	128
	.short	128
	.short	128
	.short	128
	.short	128
	.short	128
	.short	128
	.short	128
.LCPI_d30de0_3:
	.zero	16,1
.LCPI_d30de0_4:
	.byte	3
	.byte	3
	.byte	3
	.byte	3
	.byte	7
	.byte	7
	.byte	7
	.byte	7
	.byte	11
	.byte	11
	.byte	11
	.byte	11
	.byte	15
	.byte	15
	.byte	15
	.byte	15
	.section	".text.pix_raster::view::blit_overlap::<#6e2ae1f4eafa75b3>","ax",@progbits
	.p2align	4
	.type	"pix_raster::view::blit_overlap::<#6e2ae1f4eafa75b3>",@function
"pix_raster::view::blit_overlap::<#6e2ae1f4eafa75b3>":
	pushq	%rbp
	pushq	%r15
	pushq	%r14
	pushq	%r13
	pushq	%r12
	pushq	%rbx
	movq	%rcx, -88(%rsp)
	movq	%rdx, -96(%rsp)
	movq	%rsi, -104(%rsp)
	movq	%rdi, -112(%rsp)
	movq	24(%r8), %r10
	movq	32(%r8), %rax
	movq	%rax, -8(%rsp)
	cmpq	%rax, %r10
	jae	.LBB_d30de0_14
	movq	(%r8), %r15
	movq	16(%r8), %r12
	movq	8(%r8), %r14
	movq	40(%r8), %rax
	subq	%r15, %r14
	movq	%rax, %rcx
	subq	%r10, %rcx
	movq	%rcx, -56(%rsp)
	movq	%r14, %rcx
	shrq	$4, %rcx
	movq	%rcx, -80(%rsp)
	movq	%r14, %rcx
	andq	$-16, %rcx
	movq	%rcx, -16(%rsp)
	leaq	(,%rcx,4), %rbp
	movl	%r14d, %r13d
	andl	$15, %r13d
	leal	(,%r14,4), %ecx
	movl	%ecx, %edx
	andl	$32, %edx
	movq	%rdx, -72(%rsp)
	movq	%r14, -120(%rsp)
	andl	$12, %r14d
	movq	%r10, %rdx
	movq	-104(%rsp), %r9
	imulq	%r9, %rdx
	leaq	(,%r15,4), %rsi
	leaq	(%rsi,%rdx,4), %r11
	movq	-112(%rsp), %rbx
	addq	%rbx, %r11
	movq	-88(%rsp), %rdi
	imulq	%rdi, %rax
	leaq	(,%r12,4), %rsi
	leaq	(%rsi,%rax,4), %r8
	leaq	(,%rax,4), %rax
	addq	%rbp, %rax
	andl	$48, %ecx
	addq	%rcx, %rax
	movq	%rbp, -64(%rsp)
	leaq	(,%rdx,4), %rdx
	addq	%rbp, %rdx
	addq	%rcx, %rdx
	leaq	(,%r9,4), %rcx
	movq	%rcx, -24(%rsp)
	movq	-96(%rsp), %rcx
	addq	%rcx, %r8
	movq	%r12, -48(%rsp)
	leaq	(%rax,%r12,4), %r9
	addq	%rcx, %r9
	movq	%r15, -40(%rsp)
	leaq	(%rdx,%r15,4), %rdx
	addq	%rbx, %rdx
	leaq	(,%rdi,4), %rax
	movq	%rax, -32(%rsp)
	jmp	.LBB_d30de0_2
	.p2align	4
.LBB_d30de0_13:
	incq	%r10
	movq	-24(%rsp), %rax
	addq	%rax, %r11
	movq	-32(%rsp), %rcx
	addq	%rcx, %r8
	addq	%rcx, %r9
	addq	%rax, %rdx
	cmpq	-8(%rsp), %r10
	je	.LBB_d30de0_14
.LBB_d30de0_2:
	cmpq	$0, -80(%rsp)
	je	.LBB_d30de0_5
	movl	$32, %edi
	movq	-80(%rsp), %r12
	.p2align	4
.LBB_d30de0_4:
	movdqu	-32(%r8,%rdi), %xmm9
	movdqu	-16(%r8,%rdi), %xmm11
	pcmpeqd	%xmm5, %xmm5
	pxor	%xmm5, %xmm9
	pxor	%xmm5, %xmm11
	movdqa	.LCPI_d30de0_0(%rip), %xmm6
	pshufb	%xmm6, %xmm11
	pshufb	%xmm6, %xmm9
	movdqa	.LCPI_d30de0_1(%rip), %xmm2
	movdqu	-32(%r11,%rdi), %xmm8
	movdqu	-16(%r11,%rdi), %xmm7
	movdqu	(%r11,%rdi), %xmm1
	movdqu	16(%r11,%rdi), %xmm0
	movdqa	%xmm7, %xmm10
	pand	%xmm2, %xmm10
	movdqa	%xmm8, %xmm12
	pand	%xmm2, %xmm12
	pmullw	%xmm9, %xmm12
	pmullw	%xmm11, %xmm10
	movdqa	.LCPI_d30de0_2(%rip), %xmm3
	paddw	%xmm3, %xmm10
	paddw	%xmm3, %xmm12
	movdqa	.LCPI_d30de0_3(%rip), %xmm4
	pmulhuw	%xmm4, %xmm12
	pmulhuw	%xmm4, %xmm10
	psrlw	$8, %xmm8
	psrlw	$8, %xmm7
	pmullw	%xmm11, %xmm7
	pmullw	%xmm9, %xmm8
	paddw	%xmm3, %xmm8
	paddw	%xmm3, %xmm7
	pmulhuw	%xmm4, %xmm7
	pmulhuw	%xmm4, %xmm8
	psllw	$8, %xmm8
	por	%xmm12, %xmm8
	psllw	$8, %xmm7
	por	%xmm10, %xmm7
	movdqu	%xmm8, -32(%r11,%rdi)
	movdqu	%xmm7, -16(%r11,%rdi)
	movdqu	(%r8,%rdi), %xmm7
	movdqu	16(%r8,%rdi), %xmm8
	pxor	%xmm5, %xmm7
	pxor	%xmm5, %xmm8
	pshufb	%xmm6, %xmm8
	pshufb	%xmm6, %xmm7
	movdqa	%xmm0, %xmm5
	pand	%xmm2, %xmm5
	pand	%xmm1, %xmm2
	pmullw	%xmm7, %xmm2
	pmullw	%xmm8, %xmm5
	paddw	%xmm3, %xmm5
	paddw	%xmm3, %xmm2
	pmulhuw	%xmm4, %xmm2
	pmulhuw	%xmm4, %xmm5
	psrlw	$8, %xmm1
	psrlw	$8, %xmm0
	pmullw	%xmm8, %xmm0
	pmullw	%xmm7, %xmm1
	paddw	%xmm3, %xmm1
	paddw	%xmm3, %xmm0
	pmulhuw	%xmm4, %xmm0
	pmulhuw	%xmm4, %xmm1
	psllw	$8, %xmm1
	por	%xmm2, %xmm1
	psllw	$8, %xmm0
	por	%xmm5, %xmm0
	movdqu	%xmm1, (%r11,%rdi)
	movdqu	%xmm0, 16(%r11,%rdi)
	addq	$64, %rdi
	decq	%r12
	jne	.LBB_d30de0_4
.LBB_d30de0_5:
	movq	-16(%rsp), %rax
	cmpq	-120(%rsp), %rax
	je	.LBB_d30de0_13
	movq	%r10, %rax
	imulq	-104(%rsp), %rax
	addq	-40(%rsp), %rax
	movq	-56(%rsp), %rcx
	leaq	(%rcx,%r10), %rsi
	imulq	-88(%rsp), %rsi
	addq	-48(%rsp), %rsi
	movq	-112(%rsp), %rcx
	leaq	(%rcx,%rax,4), %rdi
	movq	-96(%rsp), %rax
	leaq	(%rax,%rsi,4), %r12
	movq	-64(%rsp), %rax
	addq	%rax, %rdi
	addq	%rax, %r12
	testb	$8, -120(%rsp)
	jne	.LBB_d30de0_7
	testb	$4, -120(%rsp)
	jne	.LBB_d30de0_9
.LBB_d30de0_10:
	cmpl	%r13d, %r14d
	je	.LBB_d30de0_13
	jmp	.LBB_d30de0_11
	.p2align	4
.LBB_d30de0_7:
	movdqu	(%r12), %xmm3
	movdqu	16(%r12), %xmm5
	movdqu	(%rdi), %xmm1
	movdqu	16(%rdi), %xmm0
	pcmpeqd	%xmm2, %xmm2
	pxor	%xmm2, %xmm3
	pxor	%xmm2, %xmm5
	movdqa	.LCPI_d30de0_0(%rip), %xmm2
	pshufb	%xmm2, %xmm5
	pshufb	%xmm2, %xmm3
	movdqa	.LCPI_d30de0_1(%rip), %xmm4
	movdqa	%xmm0, %xmm2
	pand	%xmm4, %xmm2
	pand	%xmm1, %xmm4
	pmullw	%xmm3, %xmm4
	pmullw	%xmm5, %xmm2
	movdqa	.LCPI_d30de0_2(%rip), %xmm6
	paddw	%xmm6, %xmm2
	paddw	%xmm6, %xmm4
	movdqa	.LCPI_d30de0_3(%rip), %xmm7
	pmulhuw	%xmm7, %xmm4
	pmulhuw	%xmm7, %xmm2
	psrlw	$8, %xmm1
	psrlw	$8, %xmm0
	pmullw	%xmm5, %xmm0
	pmullw	%xmm3, %xmm1
	paddw	%xmm6, %xmm1
	paddw	%xmm6, %xmm0
	pmulhuw	%xmm7, %xmm0
	pmulhuw	%xmm7, %xmm1
	psllw	$8, %xmm1
	por	%xmm4, %xmm1
	psllw	$8, %xmm0
	por	%xmm2, %xmm0
	movdqu	%xmm1, (%rdi)
	movdqu	%xmm0, 16(%rdi)
	testb	$4, -120(%rsp)
	je	.LBB_d30de0_10
.LBB_d30de0_9:
	movq	-72(%rsp), %rax
	movdqu	(%r12,%rax), %xmm0
	movdqu	(%rdi,%rax), %xmm1
	pcmpeqd	%xmm2, %xmm2
	pshufb	.LCPI_d30de0_4(%rip), %xmm0
	pxor	%xmm0, %xmm2
	movdqa	.LCPI_d30de0_1(%rip), %xmm3
	movdqa	%xmm1, %xmm4
	pand	%xmm3, %xmm4
	pandn	%xmm3, %xmm0
	pmullw	%xmm4, %xmm0
	movdqa	.LCPI_d30de0_2(%rip), %xmm3
	paddw	%xmm3, %xmm0
	movdqa	.LCPI_d30de0_3(%rip), %xmm4
	pmulhuw	%xmm4, %xmm0
	psrlw	$8, %xmm1
	psrlw	$8, %xmm2
	pmullw	%xmm1, %xmm2
	paddw	%xmm3, %xmm2
	pmulhuw	%xmm4, %xmm2
	psllw	$8, %xmm2
	por	%xmm0, %xmm2
	movdqu	%xmm2, (%rdi,%rax)
	cmpl	%r13d, %r14d
	je	.LBB_d30de0_13
.LBB_d30de0_11:
	xorl	%edi, %edi
	.p2align	4
.LBB_d30de0_12:
	movzbl	3(%r9,%rdi,4), %r12d
	movl	(%rdx,%rdi,4), %eax
	movzbl	%ah, %ebp
	movl	%eax, %ebx
	movzbl	%al, %esi
	shrl	$16, %eax
	shrl	$24, %ebx
	xorl	$255, %r12d
	imull	%r12d, %esi
	leal	128(%rsi), %ecx
	movzbl	%ch, %ecx
	addl	%esi, %ecx
	addl	$128, %ecx
	movzbl	%ch, %esi
	imull	%r12d, %ebp
	leal	128(%rbp), %ecx
	movzbl	%ch, %ecx
	leal	(%rcx,%rbp), %r15d
	addl	$128, %r15d
	andl	$65280, %r15d
	movzbl	%al, %eax
	imull	%r12d, %eax
	leal	128(%rax), %ecx
	movzbl	%ch, %ecx
	addl	%ecx, %eax
	addl	$128, %eax
	imull	%ebx, %r12d
	leal	128(%r12), %ecx
	movzbl	%ch, %ecx
	addl	%r12d, %ecx
	addl	$128, %ecx
	shll	$16, %ecx
	andl	$-16777216, %ecx
	shll	$8, %eax
	andl	$16711680, %eax
	orl	%ecx, %eax
	orl	%r15d, %eax
	orl	%esi, %eax
	movl	%eax, (%rdx,%rdi,4)
	leaq	(%r14,%rdi), %rax
	incq	%rax
	incq	%rdi
	cmpq	%r13, %rax
	jb	.LBB_d30de0_12
	jmp	.LBB_d30de0_13
.LBB_d30de0_14:
	popq	%rbx
	popq	%r12
	popq	%r13
	popq	%r14
	popq	%r15
	popq	%rbp
	retq
.Lfunc_end_d30de0:
	.size	"pix_raster::view::blit_overlap::<#6e2ae1f4eafa75b3>", .Lfunc_end_d30de0-"pix_raster::view::blit_overlap::<#6e2ae1f4eafa75b3>"

	.section	.rodata.cst16,"aM",@progbits,16
	.p2align	4, 0x0
.LCPI_c934c9_0:
	.byte	255
	.byte	0
	.byte	255
	.byte	0
	.byte	255
	.byte	0
	.byte	255
	.byte	0
	.byte	255
	.byte	0
	.byte	255
	.byte	0
	.byte	255
	.byte	0
	.byte	255
	.byte	0
.LCPI_c934c9_1:
	.short	128
	.short	128
	.short	128
	.short	128
	.short	128
	.short	128
	.short	128
	.short	128
.LCPI_c934c9_2:
	.zero	16,1
.LCPI_c934c9_3:
	.byte	3
	.byte	128
	.byte	3
	.byte	128
	.byte	7
	.byte	128
	.byte	7
	.byte	128
	.byte	11
	.byte	128
	.byte	11
	.byte	128
	.byte	15
	.byte	128
	.byte	15
	.byte	128
.LCPI_c934c9_4:
	.byte	3
	.byte	3
	.byte	3
	.byte	3
	.byte	7
	.byte	7
	.byte	7
	.byte	7
	.byte	11
	.byte	11
	.byte	11
	.byte	11
	.byte	15
	.byte	15
	.byte	15
	.byte	15
	.section	".text.pix_raster::view::blit_overlap::<#c351f49995d5d0e6>","ax",@progbits
	.p2align	4
	.type	"pix_raster::view::blit_overlap::<#c351f49995d5d0e6>",@function
"pix_raster::view::blit_overlap::<#c351f49995d5d0e6>":
	pushq	%rbp
	pushq	%r15
	pushq	%r14
	pushq	%r13
	pushq	%r12
	pushq	%rbx
	subq	$24, %rsp
	movq	%rcx, -120(%rsp)
	movq	%rsi, -88(%rsp)
	movq	%rdi, -96(%rsp)
	movq	24(%r8), %rax
	movq	32(%r8), %rcx
	movq	%rax, -128(%rsp)
	movq	%rcx, -16(%rsp)
	cmpq	%rcx, %rax
	jae	.LBB_c934c9_18
	movq	(%r8), %r11
	movq	16(%r8), %rdi
	leaq	(%rdx,%rdi), %rax
	movq	%rax, -48(%rsp)
	movq	8(%r8), %rbx
	movq	40(%r8), %rsi
	subq	%r11, %rbx
	movq	%rsi, %rax
	movq	-128(%rsp), %r10
	subq	%r10, %rax
	movq	%rax, -56(%rsp)
	movq	%rbx, %r15
	shrq	$4, %r15
	movl	%r9d, %eax
	shrl	$24, %r9d
	movd	%r9d, %xmm0
	pxor	%xmm1, %xmm1
	pshufb	%xmm1, %xmm0
	movdqa	.LCPI_c934c9_0(%rip), %xmm1
	movdqa	%xmm0, %xmm2
	pand	%xmm1, %xmm2
	psrlw	$8, %xmm0
	movq	%rbx, %r12
	andq	$-16, %r12
	leaq	(,%r12,4), %r13
	movl	%ebx, %r14d
	movl	%eax, %r8d
	shrl	$8, %r8d
	movl	%eax, %ecx
	shrl	$16, %ecx
	movd	%eax, %xmm3
	pinsrb	$1, %r8d, %xmm3
	pinsrb	$2, %ecx, %xmm3
	pinsrb	$3, %r9d, %xmm3
	pinsrb	$4, %eax, %xmm3
	pinsrb	$5, %r8d, %xmm3
	pinsrb	$6, %ecx, %xmm3
	pinsrb	$7, %r9d, %xmm3
	pinsrb	$8, %eax, %xmm3
	pinsrb	$9, %r8d, %xmm3
	pinsrb	$10, %ecx, %xmm3
	pinsrb	$11, %r9d, %xmm3
	pinsrb	$12, %eax, %xmm3
	pinsrb	$13, %r8d, %xmm3
	andl	$15, %r14d
	pinsrb	$14, %ecx, %xmm3
	movdqa	%xmm3, %xmm4
	pand	%xmm1, %xmm4
	movdqa	%xmm4, (%rsp)
	pinsrb	$15, %r9d, %xmm3
	psrlw	$8, %xmm3
	movl	%ebx, %eax
	andl	$8, %eax
	movq	%rax, -104(%rsp)
	movq	%rbx, -112(%rsp)
	andl	$12, %ebx
	movq	%r10, %rax
	movq	-88(%rsp), %r10
	imulq	%r10, %rax
	imulq	-120(%rsp), %rsi
	addq	%rdi, %rsi
	movq	%r12, -72(%rsp)
	leaq	(%r12,%rbx), %r8
	addq	%rdx, %r8
	leaq	(%rdx,%rsi), %r12
	addq	%rsi, %r8
	leaq	(%r11,%rax), %rcx
	movq	-96(%rsp), %rdx
	leaq	(%rdx,%rcx,4), %rdi
	addq	$48, %rdi
	movq	%r13, -64(%rsp)
	leaq	(%r13,%rax,4), %rax
	movq	%rbx, -80(%rsp)
	leaq	(%rax,%rbx,4), %rax
	movq	%r11, -40(%rsp)
	leaq	(%rax,%r11,4), %rsi
	addq	%rdx, %rsi
	movq	%r15, -24(%rsp)
	leaq	(,%r15,4), %r15
	leaq	(,%r10,4), %rax
	movq	%rax, -32(%rsp)
	jmp	.LBB_c934c9_2
	.p2align	4
.LBB_c934c9_17:
	movq	-128(%rsp), %rcx
	incq	%rcx
	movq	-8(%rsp), %rdi
	movq	-32(%rsp), %rdx
	addq	%rdx, %rdi
	movq	-120(%rsp), %rax
	addq	%rax, %r12
	addq	%rax, %r8
	addq	%rdx, %rsi
	movq	%rcx, -128(%rsp)
	cmpq	-16(%rsp), %rcx
	je	.LBB_c934c9_18
.LBB_c934c9_2:
	cmpq	$0, -24(%rsp)
	je	.LBB_c934c9_7
	xorl	%ebx, %ebx
	movq	%rdi, %r11
	jmp	.LBB_c934c9_4
	.p2align	4
.LBB_c934c9_6:
	addq	$4, %rbx
	addq	$64, %r11
	cmpq	%rbx, %r15
	je	.LBB_c934c9_7
.LBB_c934c9_4:
	movdqu	(%r12,%rbx,4), %xmm7
	ptest	%xmm7, %xmm7
	je	.LBB_c934c9_6
	movdqa	%xmm7, %xmm9
	pand	%xmm1, %xmm9
	pmullw	%xmm2, %xmm9
	psrlw	$8, %xmm7
	pmullw	%xmm0, %xmm7
	movdqa	.LCPI_c934c9_1(%rip), %xmm6
	paddw	%xmm6, %xmm9
	movdqa	.LCPI_c934c9_2(%rip), %xmm8
	pmulhuw	%xmm8, %xmm9
	paddw	%xmm6, %xmm7
	pmulhuw	%xmm8, %xmm7
	psllw	$8, %xmm7
	movdqu	-48(%r11), %xmm5
	movdqu	-32(%r11), %xmm13
	movdqu	-16(%r11), %xmm4
	movdqu	(%r11), %xmm15
	por	%xmm9, %xmm7
	pcmpeqd	%xmm11, %xmm11
	pxor	%xmm7, %xmm11
	psrlw	$8, %xmm11
	movdqa	%xmm13, %xmm10
	pand	%xmm1, %xmm10
	movdqa	%xmm5, %xmm7
	pand	%xmm1, %xmm7
	packuswb	%xmm10, %xmm7
	movdqa	%xmm15, %xmm10
	pand	%xmm1, %xmm10
	movdqa	%xmm4, %xmm12
	pand	%xmm1, %xmm12
	packuswb	%xmm10, %xmm12
	movdqa	%xmm12, %xmm14
	psrlw	$8, %xmm14
	movdqa	%xmm7, %xmm10
	psrlw	$8, %xmm10
	packuswb	%xmm14, %xmm10
	movdqa	%xmm10, %xmm14
	psrlw	$8, %xmm14
	pmullw	%xmm11, %xmm14
	paddw	%xmm6, %xmm14
	pmulhuw	%xmm8, %xmm14
	psllw	$8, %xmm14
	pandn	%xmm1, %xmm9
	pand	%xmm1, %xmm10
	pmullw	%xmm9, %xmm10
	paddw	%xmm6, %xmm10
	pmulhuw	%xmm8, %xmm10
	por	%xmm14, %xmm10
	psrlw	$8, %xmm15
	psrlw	$8, %xmm4
	packuswb	%xmm15, %xmm4
	psrlw	$8, %xmm13
	psrlw	$8, %xmm5
	packuswb	%xmm13, %xmm5
	movdqa	%xmm4, %xmm14
	pand	%xmm1, %xmm14
	movdqa	%xmm5, %xmm13
	pand	%xmm1, %xmm13
	packuswb	%xmm14, %xmm13
	movdqa	%xmm13, %xmm14
	psrlw	$8, %xmm14
	pmullw	%xmm11, %xmm14
	paddw	%xmm6, %xmm14
	pmulhuw	%xmm8, %xmm14
	psllw	$8, %xmm14
	pand	%xmm1, %xmm13
	pmullw	%xmm9, %xmm13
	paddw	%xmm6, %xmm13
	pmulhuw	%xmm8, %xmm13
	por	%xmm14, %xmm13
	pand	%xmm1, %xmm12
	pand	%xmm1, %xmm7
	packuswb	%xmm12, %xmm7
	movdqa	%xmm7, %xmm12
	psrlw	$8, %xmm12
	pmullw	%xmm11, %xmm12
	paddw	%xmm6, %xmm12
	pmulhuw	%xmm8, %xmm12
	psllw	$8, %xmm12
	pand	%xmm1, %xmm7
	pmullw	%xmm9, %xmm7
	paddw	%xmm6, %xmm7
	pmulhuw	%xmm8, %xmm7
	por	%xmm12, %xmm7
	psrlw	$8, %xmm4
	psrlw	$8, %xmm5
	packuswb	%xmm4, %xmm5
	movdqa	%xmm5, %xmm4
	pand	%xmm1, %xmm4
	pmullw	%xmm9, %xmm4
	paddw	%xmm6, %xmm4
	pmulhuw	%xmm8, %xmm4
	psrlw	$8, %xmm5
	pmullw	%xmm11, %xmm5
	paddw	%xmm6, %xmm5
	pmulhuw	%xmm8, %xmm5
	psllw	$8, %xmm5
	por	%xmm4, %xmm5
	movdqa	%xmm7, %xmm4
	punpcklbw	%xmm13, %xmm4
	movdqa	%xmm10, %xmm6
	punpcklbw	%xmm5, %xmm6
	movdqa	%xmm4, %xmm8
	punpckhwd	%xmm6, %xmm8
	punpcklwd	%xmm6, %xmm4
	movdqu	%xmm4, -48(%r11)
	movdqu	%xmm8, -32(%r11)
	punpckhbw	%xmm13, %xmm7
	punpckhbw	%xmm5, %xmm10
	movdqa	%xmm7, %xmm4
	punpckhwd	%xmm10, %xmm4
	punpcklwd	%xmm10, %xmm7
	movdqu	%xmm7, -16(%r11)
	movdqu	%xmm4, (%r11)
	jmp	.LBB_c934c9_6
	.p2align	4
.LBB_c934c9_7:
	movq	%rdi, -8(%rsp)
	movq	-72(%rsp), %rax
	cmpq	-112(%rsp), %rax
	je	.LBB_c934c9_17
	movq	-128(%rsp), %rcx
	movq	%rcx, %rax
	imulq	-88(%rsp), %rax
	addq	-40(%rsp), %rax
	movq	-56(%rsp), %rdx
	leaq	(%rdx,%rcx), %rbx
	imulq	-120(%rsp), %rbx
	addq	-48(%rsp), %rbx
	movq	-96(%rsp), %rcx
	leaq	(%rcx,%rax,4), %r11
	addq	-64(%rsp), %r11
	addq	-72(%rsp), %rbx
	testb	$8, -112(%rsp)
	je	.LBB_c934c9_11
	movq	(%rbx), %rax
	testq	%rax, %rax
	je	.LBB_c934c9_11
	movq	%rax, %xmm5
	punpcklbw	%xmm5, %xmm5
	movdqa	%xmm5, %xmm6
	punpcklwd	%xmm5, %xmm6
	punpckhwd	%xmm5, %xmm5
	movdqa	%xmm5, %xmm9
	pand	%xmm1, %xmm9
	movdqa	%xmm6, %xmm10
	pand	%xmm1, %xmm10
	movdqa	(%rsp), %xmm4
	pmullw	%xmm4, %xmm10
	pmullw	%xmm4, %xmm9
	movdqa	.LCPI_c934c9_1(%rip), %xmm7
	paddw	%xmm7, %xmm9
	paddw	%xmm7, %xmm10
	movdqa	.LCPI_c934c9_2(%rip), %xmm8
	pmulhuw	%xmm8, %xmm10
	pmulhuw	%xmm8, %xmm9
	psrlw	$8, %xmm6
	psrlw	$8, %xmm5
	pmullw	%xmm3, %xmm5
	pmullw	%xmm3, %xmm6
	paddw	%xmm7, %xmm6
	paddw	%xmm7, %xmm5
	pmulhuw	%xmm8, %xmm5
	pmulhuw	%xmm8, %xmm6
	psllw	$8, %xmm6
	por	%xmm10, %xmm6
	psllw	$8, %xmm5
	por	%xmm9, %xmm5
	movdqu	(%r11), %xmm10
	movdqu	16(%r11), %xmm9
	pcmpeqd	%xmm4, %xmm4
	pxor	%xmm4, %xmm6
	pxor	%xmm4, %xmm5
	movdqa	.LCPI_c934c9_3(%rip), %xmm4
	pshufb	%xmm4, %xmm5
	pshufb	%xmm4, %xmm6
	movdqa	%xmm9, %xmm11
	pand	%xmm1, %xmm11
	movdqa	%xmm10, %xmm12
	pand	%xmm1, %xmm12
	pmullw	%xmm6, %xmm12
	pmullw	%xmm5, %xmm11
	paddw	%xmm7, %xmm11
	paddw	%xmm7, %xmm12
	pmulhuw	%xmm8, %xmm12
	pmulhuw	%xmm8, %xmm11
	psrlw	$8, %xmm10
	psrlw	$8, %xmm9
	pmullw	%xmm5, %xmm9
	pmullw	%xmm6, %xmm10
	paddw	%xmm7, %xmm10
	paddw	%xmm7, %xmm9
	pmulhuw	%xmm8, %xmm9
	pmulhuw	%xmm8, %xmm10
	psllw	$8, %xmm10
	por	%xmm12, %xmm10
	psllw	$8, %xmm9
	por	%xmm11, %xmm9
	movdqu	%xmm10, (%r11)
	movdqu	%xmm9, 16(%r11)
.LBB_c934c9_11:
	testb	$4, -112(%rsp)
	je	.LBB_c934c9_14
	movq	-104(%rsp), %rax
	movl	(%rbx,%rax), %eax
	testl	%eax, %eax
	je	.LBB_c934c9_14
	movd	%eax, %xmm5
	punpcklbw	%xmm5, %xmm5
	punpcklwd	%xmm5, %xmm5
	movdqa	%xmm5, %xmm4
	pand	%xmm1, %xmm4
	pmullw	(%rsp), %xmm4
	movdqa	.LCPI_c934c9_1(%rip), %xmm6
	paddw	%xmm6, %xmm4
	movdqa	.LCPI_c934c9_2(%rip), %xmm7
	pmulhuw	%xmm7, %xmm4
	psrlw	$8, %xmm5
	pmullw	%xmm3, %xmm5
	paddw	%xmm6, %xmm5
	pmulhuw	%xmm7, %xmm5
	psllw	$8, %xmm5
	por	%xmm4, %xmm5
	movq	-104(%rsp), %rax
	movdqu	(%r11,%rax,4), %xmm4
	pshufb	.LCPI_c934c9_4(%rip), %xmm5
	pcmpeqd	%xmm8, %xmm8
	pxor	%xmm5, %xmm8
	movdqa	%xmm4, %xmm9
	pand	%xmm1, %xmm9
	pandn	%xmm1, %xmm5
	pmullw	%xmm9, %xmm5
	paddw	%xmm6, %xmm5
	pmulhuw	%xmm7, %xmm5
	psrlw	$8, %xmm4
	psrlw	$8, %xmm8
	pmullw	%xmm4, %xmm8
	paddw	%xmm6, %xmm8
	pmulhuw	%xmm7, %xmm8
	psllw	$8, %xmm8
	por	%xmm5, %xmm8
	movdqu	%xmm8, (%r11,%rax,4)
.LBB_c934c9_14:
	cmpl	%r14d, -80(%rsp)
	je	.LBB_c934c9_17
	xorl	%r11d, %r11d
	movq	-80(%rsp), %rbx
	.p2align	4
.LBB_c934c9_16:
	movzbl	(%r8,%r11), %edi
	movl	(%rsi,%r11,4), %ecx
	movzbl	%ch, %eax
	movl	%ecx, %r13d
	movzbl	%cl, %ebp
	movl	%ecx, %r10d
	shrl	$16, %r10d
	shrl	$24, %r13d
	movzwl	%r9w, %ecx
	imull	%edi, %ecx
	leal	128(%rcx), %edx
	movzbl	%dh, %edx
	addl	%edx, %ecx
	addl	$128, %ecx
	notl	%ecx
	movzbl	%ch, %edi
	imull	%edi, %ebp
	leal	128(%rbp), %ecx
	movzbl	%ch, %ecx
	addl	%ebp, %ecx
	addl	$128, %ecx
	movzbl	%ch, %ebp
	imull	%edi, %eax
	leal	128(%rax), %ecx
	movzbl	%ch, %ecx
	addl	%ecx, %eax
	addl	$128, %eax
	andl	$65280, %eax
	movzbl	%r10b, %ecx
	imull	%edi, %ecx
	leal	128(%rcx), %edx
	movzbl	%dh, %edx
	addl	%edx, %ecx
	addl	$128, %ecx
	imull	%edi, %r13d
	leal	128(%r13), %edx
	movzbl	%dh, %edx
	addl	%r13d, %edx
	addl	$128, %edx
	shll	$16, %edx
	andl	$-16777216, %edx
	shll	$8, %ecx
	andl	$16711680, %ecx
	orl	%edx, %ecx
	orl	%eax, %ecx
	orl	%ebp, %ecx
	movl	%ecx, (%rsi,%r11,4)
	incq	%rbx
	incq	%r11
	cmpq	%r14, %rbx
	jb	.LBB_c934c9_16
	jmp	.LBB_c934c9_17
.LBB_c934c9_18:
	addq	$24, %rsp
	popq	%rbx
	popq	%r12
	popq	%r13
	popq	%r14
	popq	%r15
	popq	%rbp
	retq
.Lfunc_end_c934c9:
	.size	"pix_raster::view::blit_overlap::<#c351f49995d5d0e6>", .Lfunc_end_c934c9-"pix_raster::view::blit_overlap::<#c351f49995d5d0e6>"

	.section	.rodata.cst16,"aM",@progbits,16
	.p2align	4, 0x0
.LCPI_c542b5_0:
	.byte	255
	.byte	0
	.byte	255
	.byte	0
	.byte	255
	.byte	0
	.byte	255
	.byte	0
	.byte	255
	.byte	0
	.byte	255
	.byte	0
	.byte	255
	.byte	0
	.byte	255
	.byte	0
.LCPI_c542b5_1:
	.short	128
	.short	128
	.short	128
	.short	128
	.short	128
	.short	128
	.short	128
	.short	128
.LCPI_c542b5_2:
	.zero	16,1
.LCPI_c542b5_3:
	.byte	3
	.byte	128
	.byte	3
	.byte	128
	.byte	7
	.byte	128
	.byte	7
	.byte	128
	.byte	11
	.byte	128
	.byte	11
	.byte	128
	.byte	15
	.byte	128
	.byte	15
	.byte	128
.LCPI_c542b5_4:
	.byte	3
	.byte	3
	.byte	3
	.byte	3
	.byte	7
	.byte	7
	.byte	7
	.byte	7
	.byte	11
	.byte	11
	.byte	11
	.byte	11
	.byte	15
	.byte	15
	.byte	15
	.byte	15
	.section	".text.pix_raster::view::blit_overlap::<#69746525898a3d94>","ax",@progbits
	.p2align	4
	.type	"pix_raster::view::blit_overlap::<#69746525898a3d94>",@function
"pix_raster::view::blit_overlap::<#69746525898a3d94>":
	pushq	%rbp
	pushq	%r15
	pushq	%r14
	pushq	%r13
	pushq	%r12
	pushq	%rbx
	pushq	%rax
	movq	%rcx, -80(%rsp)
	movq	%rdx, -88(%rsp)
	movq	%rsi, -96(%rsp)
	movq	%rdi, -104(%rsp)
	movq	24(%r8), %rax
	movq	32(%r8), %rcx
	movq	%rax, -128(%rsp)
	movq	%rcx, (%rsp)
	cmpq	%rcx, %rax
	jae	.LBB_c542b5_14
	movq	(%r8), %r11
	movq	16(%r8), %r15
	movq	8(%r8), %r12
	movq	40(%r8), %rcx
	subq	%r11, %r12
	movq	%rcx, %rax
	movq	-128(%rsp), %rdx
	subq	%rdx, %rax
	movq	%rax, -48(%rsp)
	movq	%r12, %rax
	shrq	$4, %rax
	movq	%rax, -72(%rsp)
	movzbl	%r9b, %eax
	movl	%eax, -108(%rsp)
	movd	%eax, %xmm0
	pxor	%xmm1, %xmm1
	pshufb	%xmm1, %xmm0
	movdqa	.LCPI_c542b5_0(%rip), %xmm1
	pand	%xmm0, %xmm1
	psrlw	$8, %xmm0
	movq	%r12, %rax
	andq	$-16, %rax
	movq	%rax, -8(%rsp)
	leaq	(,%rax,4), %r9
	movl	%r12d, %r13d
	andl	$15, %r13d
	leal	(,%r12,4), %eax
	movl	%eax, %esi
	andl	$32, %esi
	movq	%rsi, -64(%rsp)
	movq	-96(%rsp), %r10
	imulq	%r10, %rdx
	leaq	(,%r11,4), %rsi
	leaq	(%rsi,%rdx,4), %rbx
	movq	-80(%rsp), %rdi
	imulq	%rdi, %rcx
	leaq	(,%r15,4), %rsi
	leaq	(%rsi,%rcx,4), %r8
	leaq	(%r9,%rcx,4), %rcx
	andl	$48, %eax
	addq	%rax, %rcx
	movq	%r9, -56(%rsp)
	leaq	(%r9,%rdx,4), %rdx
	addq	%rax, %rdx
	movq	%r12, -120(%rsp)
	andl	$12, %r12d
	movq	-104(%rsp), %rsi
	addq	%rsi, %rbx
	movq	-88(%rsp), %rax
	addq	%rax, %r8
	movq	%r15, -40(%rsp)
	leaq	(%rcx,%r15,4), %r15
	addq	%rax, %r15
	movq	%r11, -32(%rsp)
	leaq	(%rdx,%r11,4), %r9
	addq	%rsi, %r9
	leaq	(,%r10,4), %rax
	movq	%rax, -16(%rsp)
	leaq	(,%rdi,4), %rax
	movq	%rax, -24(%rsp)
	movq	%r13, %rdi
	jmp	.LBB_c542b5_2
	.p2align	4
.LBB_c542b5_13:
	movq	-128(%rsp), %rax
	incq	%rax
	movq	-16(%rsp), %rcx
	addq	%rcx, %rbx
	movq	-24(%rsp), %rdx
	addq	%rdx, %r8
	addq	%rdx, %r15
	addq	%rcx, %r9
	movq	%rax, -128(%rsp)
	cmpq	(%rsp), %rax
	je	.LBB_c542b5_14
.LBB_c542b5_2:
	cmpq	$0, -72(%rsp)
	je	.LBB_c542b5_5
	movl	$32, %r13d
	movq	-72(%rsp), %r11
	.p2align	4
.LBB_c542b5_4:
	movdqu	-32(%r8,%r13), %xmm9
	movdqu	-16(%r8,%r13), %xmm10
	movdqa	.LCPI_c542b5_0(%rip), %xmm2
	movdqa	%xmm10, %xmm5
	pand	%xmm2, %xmm5
	movdqa	%xmm9, %xmm6
	pand	%xmm2, %xmm6
	pmullw	%xmm1, %xmm6
	pmullw	%xmm1, %xmm5
	movdqa	.LCPI_c542b5_1(%rip), %xmm3
	paddw	%xmm3, %xmm5
	paddw	%xmm3, %xmm6
	movdqa	.LCPI_c542b5_2(%rip), %xmm4
	pmulhuw	%xmm4, %xmm6
	pmulhuw	%xmm4, %xmm5
	psrlw	$8, %xmm9
	psrlw	$8, %xmm10
	pmullw	%xmm0, %xmm10
	pmullw	%xmm0, %xmm9
	paddw	%xmm3, %xmm9
	paddw	%xmm3, %xmm10
	pmulhuw	%xmm4, %xmm10
	pmulhuw	%xmm4, %xmm9
	psllw	$8, %xmm9
	por	%xmm6, %xmm9
	psllw	$8, %xmm10
	por	%xmm5, %xmm10
	pcmpeqd	%xmm7, %xmm7
	pxor	%xmm7, %xmm9
	pxor	%xmm7, %xmm10
	movdqa	.LCPI_c542b5_3(%rip), %xmm8
	pshufb	%xmm8, %xmm10
	pshufb	%xmm8, %xmm9
	movdqu	-32(%rbx,%r13), %xmm12
	movdqu	-16(%rbx,%r13), %xmm11
	movdqu	(%rbx,%r13), %xmm6
	movdqu	16(%rbx,%r13), %xmm5
	movdqa	%xmm11, %xmm13
	pand	%xmm2, %xmm13
	movdqa	%xmm12, %xmm14
	pand	%xmm2, %xmm14
	pmullw	%xmm9, %xmm14
	pmullw	%xmm10, %xmm13
	paddw	%xmm3, %xmm13
	paddw	%xmm3, %xmm14
	pmulhuw	%xmm4, %xmm14
	pmulhuw	%xmm4, %xmm13
	psrlw	$8, %xmm12
	psrlw	$8, %xmm11
	pmullw	%xmm10, %xmm11
	pmullw	%xmm9, %xmm12
	paddw	%xmm3, %xmm12
	paddw	%xmm3, %xmm11
	pmulhuw	%xmm4, %xmm11
	pmulhuw	%xmm4, %xmm12
	psllw	$8, %xmm12
	por	%xmm14, %xmm12
	psllw	$8, %xmm11
	por	%xmm13, %xmm11
	movdqu	%xmm12, -32(%rbx,%r13)
	movdqu	%xmm11, -16(%rbx,%r13)
	movdqu	(%r8,%r13), %xmm9
	movdqu	16(%r8,%r13), %xmm10
	movdqa	%xmm10, %xmm11
	pand	%xmm2, %xmm11
	movdqa	%xmm9, %xmm12
	pand	%xmm2, %xmm12
	pmullw	%xmm1, %xmm12
	pmullw	%xmm1, %xmm11
	paddw	%xmm3, %xmm11
	paddw	%xmm3, %xmm12
	pmulhuw	%xmm4, %xmm12
	pmulhuw	%xmm4, %xmm11
	psrlw	$8, %xmm9
	psrlw	$8, %xmm10
	pmullw	%xmm0, %xmm10
	pmullw	%xmm0, %xmm9
	paddw	%xmm3, %xmm9
	paddw	%xmm3, %xmm10
	pmulhuw	%xmm4, %xmm10
	pmulhuw	%xmm4, %xmm9
	psllw	$8, %xmm9
	por	%xmm12, %xmm9
	psllw	$8, %xmm10
	por	%xmm11, %xmm10
	pxor	%xmm7, %xmm9
	pxor	%xmm7, %xmm10
	pshufb	%xmm8, %xmm10
	pshufb	%xmm8, %xmm9
	movdqa	%xmm5, %xmm7
	pand	%xmm2, %xmm7
	pand	%xmm6, %xmm2
	pmullw	%xmm9, %xmm2
	pmullw	%xmm10, %xmm7
	paddw	%xmm3, %xmm7
	paddw	%xmm3, %xmm2
	pmulhuw	%xmm4, %xmm2
	pmulhuw	%xmm4, %xmm7
	psrlw	$8, %xmm6
	psrlw	$8, %xmm5
	pmullw	%xmm10, %xmm5
	pmullw	%xmm9, %xmm6
	paddw	%xmm3, %xmm6
	paddw	%xmm3, %xmm5
	pmulhuw	%xmm4, %xmm5
	pmulhuw	%xmm4, %xmm6
	psllw	$8, %xmm6
	por	%xmm2, %xmm6
	psllw	$8, %xmm5
	por	%xmm7, %xmm5
	movdqu	%xmm6, (%rbx,%r13)
	movdqu	%xmm5, 16(%rbx,%r13)
	addq	$64, %r13
	decq	%r11
	jne	.LBB_c542b5_4
.LBB_c542b5_5:
	movq	-8(%rsp), %rax
	cmpq	-120(%rsp), %rax
	je	.LBB_c542b5_13
	movq	-128(%rsp), %rcx
	movq	%rcx, %rax
	imulq	-96(%rsp), %rax
	addq	-32(%rsp), %rax
	movq	-48(%rsp), %rdx
	leaq	(%rdx,%rcx), %rsi
	imulq	-80(%rsp), %rsi
	addq	-40(%rsp), %rsi
	movq	-104(%rsp), %rcx
	leaq	(%rcx,%rax,4), %r11
	movq	-88(%rsp), %rax
	leaq	(%rax,%rsi,4), %r13
	movq	-56(%rsp), %rax
	addq	%rax, %r11
	addq	%rax, %r13
	testb	$8, -120(%rsp)
	jne	.LBB_c542b5_7
	testb	$4, -120(%rsp)
	jne	.LBB_c542b5_9
.LBB_c542b5_10:
	cmpl	%edi, %r12d
	movl	-108(%rsp), %ebp
	je	.LBB_c542b5_13
	jmp	.LBB_c542b5_11
	.p2align	4
.LBB_c542b5_7:
	movdqu	(%r13), %xmm3
	movdqu	16(%r13), %xmm4
	movdqa	.LCPI_c542b5_0(%rip), %xmm2
	movdqa	%xmm4, %xmm7
	pand	%xmm2, %xmm7
	movdqa	%xmm3, %xmm8
	pand	%xmm2, %xmm8
	pmullw	%xmm1, %xmm8
	pmullw	%xmm1, %xmm7
	movdqa	.LCPI_c542b5_1(%rip), %xmm5
	paddw	%xmm5, %xmm7
	paddw	%xmm5, %xmm8
	movdqa	.LCPI_c542b5_2(%rip), %xmm6
	pmulhuw	%xmm6, %xmm8
	pmulhuw	%xmm6, %xmm7
	psrlw	$8, %xmm3
	psrlw	$8, %xmm4
	pmullw	%xmm0, %xmm4
	pmullw	%xmm0, %xmm3
	paddw	%xmm5, %xmm3
	paddw	%xmm5, %xmm4
	pmulhuw	%xmm6, %xmm4
	pmulhuw	%xmm6, %xmm3
	psllw	$8, %xmm3
	por	%xmm8, %xmm3
	psllw	$8, %xmm4
	por	%xmm7, %xmm4
	movdqu	(%r11), %xmm8
	movdqu	16(%r11), %xmm7
	pcmpeqd	%xmm9, %xmm9
	pxor	%xmm9, %xmm3
	pxor	%xmm9, %xmm4
	movdqa	.LCPI_c542b5_3(%rip), %xmm9
	pshufb	%xmm9, %xmm4
	pshufb	%xmm9, %xmm3
	movdqa	%xmm7, %xmm9
	pand	%xmm2, %xmm9
	pand	%xmm8, %xmm2
	pmullw	%xmm3, %xmm2
	pmullw	%xmm4, %xmm9
	paddw	%xmm5, %xmm9
	paddw	%xmm5, %xmm2
	pmulhuw	%xmm6, %xmm2
	pmulhuw	%xmm6, %xmm9
	psrlw	$8, %xmm8
	psrlw	$8, %xmm7
	pmullw	%xmm4, %xmm7
	pmullw	%xmm3, %xmm8
	paddw	%xmm5, %xmm8
	paddw	%xmm5, %xmm7
	pmulhuw	%xmm6, %xmm7
	pmulhuw	%xmm6, %xmm8
	psllw	$8, %xmm8
	por	%xmm2, %xmm8
	psllw	$8, %xmm7
	por	%xmm9, %xmm7
	movdqu	%xmm8, (%r11)
	movdqu	%xmm7, 16(%r11)
	testb	$4, -120(%rsp)
	je	.LBB_c542b5_10
.LBB_c542b5_9:
	movq	-64(%rsp), %rax
	movdqu	(%r13,%rax), %xmm2
	movdqa	.LCPI_c542b5_0(%rip), %xmm5
	movdqa	%xmm2, %xmm6
	pand	%xmm5, %xmm6
	pmullw	%xmm1, %xmm6
	movdqa	.LCPI_c542b5_1(%rip), %xmm3
	paddw	%xmm3, %xmm6
	movdqa	.LCPI_c542b5_2(%rip), %xmm4
	pmulhuw	%xmm4, %xmm6
	psrlw	$8, %xmm2
	pmullw	%xmm0, %xmm2
	paddw	%xmm3, %xmm2
	pmulhuw	%xmm4, %xmm2
	psllw	$8, %xmm2
	por	%xmm6, %xmm2
	movdqu	(%r11,%rax), %xmm6
	pshufb	.LCPI_c542b5_4(%rip), %xmm2
	pcmpeqd	%xmm7, %xmm7
	pxor	%xmm2, %xmm7
	movdqa	%xmm6, %xmm8
	pand	%xmm5, %xmm8
	pandn	%xmm5, %xmm2
	pmullw	%xmm8, %xmm2
	paddw	%xmm3, %xmm2
	pmulhuw	%xmm4, %xmm2
	psrlw	$8, %xmm6
	psrlw	$8, %xmm7
	pmullw	%xmm6, %xmm7
	paddw	%xmm3, %xmm7
	pmulhuw	%xmm4, %xmm7
	psllw	$8, %xmm7
	por	%xmm2, %xmm7
	movdqu	%xmm7, (%r11,%rax)
	cmpl	%edi, %r12d
	movl	-108(%rsp), %ebp
	je	.LBB_c542b5_13
.LBB_c542b5_11:
	xorl	%r11d, %r11d
	.p2align	4
.LBB_c542b5_12:
	movq	%rdi, %r14
	movzbl	3(%r15,%r11,4), %edi
	movl	(%r9,%r11,4), %eax
	movzbl	%ah, %esi
	movl	%eax, %r13d
	movq	%r15, %rdx
	movzbl	%al, %r15d
	movl	%eax, %r10d
	shrl	$16, %r10d
	shrl	$24, %r13d
	movzwl	%bp, %eax
	imull	%edi, %eax
	leal	128(%rax), %ecx
	movzbl	%ch, %ecx
	addl	%ecx, %eax
	addl	$128, %eax
	notl	%eax
	movzbl	%ah, %eax
	imull	%eax, %r15d
	leal	128(%r15), %ecx
	movzbl	%ch, %ecx
	addl	%r15d, %ecx
	addl	$128, %ecx
	movq	%rdx, %r15
	movzbl	%ch, %edi
	imull	%eax, %esi
	leal	128(%rsi), %ecx
	movzbl	%ch, %ecx
	addl	%ecx, %esi
	addl	$128, %esi
	andl	$65280, %esi
	movzbl	%r10b, %ecx
	imull	%eax, %ecx
	leal	128(%rcx), %edx
	movzbl	%dh, %edx
	addl	%edx, %ecx
	addl	$128, %ecx
	imull	%eax, %r13d
	leal	128(%r13), %eax
	movzbl	%ah, %eax
	addl	%r13d, %eax
	addl	$128, %eax
	shll	$16, %eax
	andl	$-16777216, %eax
	shll	$8, %ecx
	andl	$16711680, %ecx
	orl	%eax, %ecx
	orl	%esi, %ecx
	orl	%edi, %ecx
	movq	%r14, %rdi
	movl	%ecx, (%r9,%r11,4)
	leaq	(%r12,%r11), %rax
	incq	%rax
	incq	%r11
	cmpq	%r14, %rax
	jb	.LBB_c542b5_12
	jmp	.LBB_c542b5_13
.LBB_c542b5_14:
	addq	$8, %rsp
	popq	%rbx
	popq	%r12
	popq	%r13
	popq	%r14
	popq	%r15
	popq	%rbp
	retq
.Lfunc_end_c542b5:
	.size	"pix_raster::view::blit_overlap::<#69746525898a3d94>", .Lfunc_end_c542b5-"pix_raster::view::blit_overlap::<#69746525898a3d94>"

	.section	.rodata.cst16,"aM",@progbits,16
	.p2align	4, 0x0
.LCPI_ae4004_0:
	.byte	3
	.byte	128
	.byte	3
	.byte	128
	.byte	7
	.byte	128
	.byte	7
	.byte	128
	.byte	11
	.byte	128
	.byte	11
	.byte	128
	.byte	15
	.byte	128
	.byte	15
	.byte	128
.LCPI_ae4004_1:
	.byte	255
	.byte	0
	.byte	255
	.byte	0
	.byte	255
	.byte	0
	.byte	255
	.byte	0
	.byte	255
	.byte	0
	.byte	255
	.byte	0
	.byte	255
	.byte	0
	.byte	255
	.byte	0
.LCPI_ae4004_2:
	.short	128
	.short	128
	.short	128
	.short	128
	.short	128
	.short	128
	.short	128
	.short	128
.LCPI_ae4004_3:
	.zero	16,1
.LCPI_ae4004_4:
	.byte	3
	.byte	3
	.byte	3
	.byte	3
	.byte	7
	.byte	7
	.byte	7
	.byte	7
	.byte	11
	.byte	11
	.byte	11
	.byte	11
	.byte	15
	.byte	15
	.byte	15
	.byte	15
	.section	".text.pix_raster::view::blit_overlap::<#9ba22e131c89b739>","ax",@progbits
	.p2align	4
	.type	"pix_raster::view::blit_overlap::<#9ba22e131c89b739>",@function
"pix_raster::view::blit_overlap::<#9ba22e131c89b739>":
	pushq	%rbp
	pushq	%r15
	pushq	%r14
	pushq	%r13
	pushq	%r12
	pushq	%rbx
	movq	%rcx, -88(%rsp)
	movq	%rdx, -96(%rsp)
	movq	%rsi, -104(%rsp)
	movq	%rdi, -112(%rsp)
	movq	24(%r8), %r9
	movq	32(%r8), %rax
	movq	%rax, -8(%rsp)
	cmpq	%rax, %r9
	jae	.LBB_ae4004_14
	movq	(%r8), %r15
	movq	16(%r8), %r12
	movq	8(%r8), %r14
	movq	40(%r8), %rcx
	subq	%r15, %r14
	movq	%rcx, %rax
	subq	%r9, %rax
	movq	%rax, -56(%rsp)
	movq	%r14, %rax
	shrq	$4, %rax
	movq	%rax, -80(%rsp)
	movq	%r14, %rax
	andq	$-16, %rax
	movq	%rax, -16(%rsp)
	leaq	(,%rax,4), %rbp
	movl	%r14d, %r13d
	andl	$15, %r13d
	leal	(,%r14,4), %edx
	movl	%edx, %eax
	andl	$32, %eax
	movq	%rax, -72(%rsp)
	movq	%r14, -120(%rsp)
	andl	$12, %r14d
	movq	%r9, %rax
	movq	-104(%rsp), %r10
	imulq	%r10, %rax
	leaq	(,%r15,4), %rsi
	leaq	(%rsi,%rax,4), %r11
	movq	-112(%rsp), %rbx
	addq	%rbx, %r11
	movq	-88(%rsp), %rdi
	imulq	%rdi, %rcx
	leaq	(,%r12,4), %rsi
	leaq	(%rsi,%rcx,4), %r8
	leaq	(,%rcx,4), %rcx
	addq	%rbp, %rcx
	andl	$48, %edx
	addq	%rdx, %rcx
	movq	%rbp, -64(%rsp)
	leaq	(,%rax,4), %rax
	addq	%rbp, %rax
	addq	%rdx, %rax
	leaq	(,%r10,4), %rdx
	movq	%rdx, -24(%rsp)
	movq	-96(%rsp), %rdx
	addq	%rdx, %r8
	movq	%r12, -48(%rsp)
	leaq	(%rcx,%r12,4), %rcx
	addq	%rdx, %rcx
	movq	%r15, -40(%rsp)
	leaq	(%rax,%r15,4), %rdx
	addq	%rbx, %rdx
	leaq	(,%rdi,4), %rax
	movq	%rax, -32(%rsp)
	jmp	.LBB_ae4004_2
	.p2align	4
.LBB_ae4004_13:
	incq	%r9
	movq	-24(%rsp), %rax
	addq	%rax, %r11
	movq	-32(%rsp), %rsi
	addq	%rsi, %r8
	addq	%rsi, %rcx
	addq	%rax, %rdx
	cmpq	-8(%rsp), %r9
	je	.LBB_ae4004_14
.LBB_ae4004_2:
	cmpq	$0, -80(%rsp)
	je	.LBB_ae4004_5
	movl	$32, %edi
	movq	-80(%rsp), %r12
	.p2align	4
.LBB_ae4004_4:
	movdqu	-32(%r8,%rdi), %xmm7
	movdqu	-16(%r8,%rdi), %xmm6
	movdqu	-32(%r11,%rdi), %xmm9
	movdqu	-16(%r11,%rdi), %xmm11
	movdqu	(%r11,%rdi), %xmm1
	movdqu	16(%r11,%rdi), %xmm2
	movdqa	.LCPI_ae4004_0(%rip), %xmm5
	pshufb	%xmm5, %xmm11
	pshufb	%xmm5, %xmm9
	movdqa	.LCPI_ae4004_1(%rip), %xmm0
	movdqa	%xmm6, %xmm8
	pand	%xmm0, %xmm8
	movdqa	%xmm7, %xmm10
	pand	%xmm0, %xmm10
	pmullw	%xmm9, %xmm10
	pmullw	%xmm11, %xmm8
	movdqa	.LCPI_ae4004_2(%rip), %xmm3
	paddw	%xmm3, %xmm8
	paddw	%xmm3, %xmm10
	movdqa	.LCPI_ae4004_3(%rip), %xmm4
	pmulhuw	%xmm4, %xmm10
	pmulhuw	%xmm4, %xmm8
	psrlw	$8, %xmm7
	psrlw	$8, %xmm6
	pmullw	%xmm11, %xmm6
	pmullw	%xmm9, %xmm7
	paddw	%xmm3, %xmm7
	paddw	%xmm3, %xmm6
	pmulhuw	%xmm4, %xmm6
	pmulhuw	%xmm4, %xmm7
	psllw	$8, %xmm7
	por	%xmm10, %xmm7
	psllw	$8, %xmm6
	por	%xmm8, %xmm6
	movdqu	%xmm7, -32(%r11,%rdi)
	movdqu	%xmm6, -16(%r11,%rdi)
	movdqu	(%r8,%rdi), %xmm7
	movdqu	16(%r8,%rdi), %xmm6
	pshufb	%xmm5, %xmm2
	pshufb	%xmm5, %xmm1
	movdqa	%xmm6, %xmm5
	pand	%xmm0, %xmm5
	pand	%xmm7, %xmm0
	pmullw	%xmm1, %xmm0
	pmullw	%xmm2, %xmm5
	paddw	%xmm3, %xmm5
	paddw	%xmm3, %xmm0
	pmulhuw	%xmm4, %xmm0
	pmulhuw	%xmm4, %xmm5
	psrlw	$8, %xmm7
	psrlw	$8, %xmm6
	pmullw	%xmm2, %xmm6
	pmullw	%xmm1, %xmm7
	paddw	%xmm3, %xmm7
	paddw	%xmm3, %xmm6
	pmulhuw	%xmm4, %xmm6
	pmulhuw	%xmm4, %xmm7
	psllw	$8, %xmm7
	por	%xmm0, %xmm7
	psllw	$8, %xmm6
	por	%xmm5, %xmm6
	movdqu	%xmm7, (%r11,%rdi)
	movdqu	%xmm6, 16(%r11,%rdi)
	addq	$64, %rdi
	decq	%r12
	jne	.LBB_ae4004_4
.LBB_ae4004_5:
	movq	-16(%rsp), %rax
	cmpq	-120(%rsp), %rax
	je	.LBB_ae4004_13
	movq	%r9, %rax
	imulq	-104(%rsp), %rax
	addq	-40(%rsp), %rax
	movq	-56(%rsp), %rsi
	addq	%r9, %rsi
	imulq	-88(%rsp), %rsi
	addq	-48(%rsp), %rsi
	movq	-112(%rsp), %rdi
	leaq	(%rdi,%rax,4), %rdi
	movq	-96(%rsp), %rax
	leaq	(%rax,%rsi,4), %r12
	movq	-64(%rsp), %rax
	addq	%rax, %rdi
	addq	%rax, %r12
	testb	$8, -120(%rsp)
	jne	.LBB_ae4004_7
	testb	$4, -120(%rsp)
	jne	.LBB_ae4004_9
.LBB_ae4004_10:
	cmpl	%r13d, %r14d
	je	.LBB_ae4004_13
	jmp	.LBB_ae4004_11
	.p2align	4
.LBB_ae4004_7:
	movdqu	(%r12), %xmm1
	movdqu	16(%r12), %xmm0
	movdqu	(%rdi), %xmm4
	movdqu	16(%rdi), %xmm5
	movdqa	.LCPI_ae4004_0(%rip), %xmm2
	pshufb	%xmm2, %xmm5
	pshufb	%xmm2, %xmm4
	movdqa	.LCPI_ae4004_1(%rip), %xmm3
	movdqa	%xmm0, %xmm2
	pand	%xmm3, %xmm2
	pand	%xmm1, %xmm3
	pmullw	%xmm4, %xmm3
	pmullw	%xmm5, %xmm2
	movdqa	.LCPI_ae4004_2(%rip), %xmm6
	paddw	%xmm6, %xmm2
	paddw	%xmm6, %xmm3
	movdqa	.LCPI_ae4004_3(%rip), %xmm7
	pmulhuw	%xmm7, %xmm3
	pmulhuw	%xmm7, %xmm2
	psrlw	$8, %xmm1
	psrlw	$8, %xmm0
	pmullw	%xmm5, %xmm0
	pmullw	%xmm4, %xmm1
	paddw	%xmm6, %xmm1
	paddw	%xmm6, %xmm0
	pmulhuw	%xmm7, %xmm0
	pmulhuw	%xmm7, %xmm1
	psllw	$8, %xmm1
	por	%xmm3, %xmm1
	psllw	$8, %xmm0
	por	%xmm2, %xmm0
	movdqu	%xmm1, (%rdi)
	movdqu	%xmm0, 16(%rdi)
	testb	$4, -120(%rsp)
	je	.LBB_ae4004_10
.LBB_ae4004_9:
	movq	-72(%rsp), %rax
	movdqu	(%r12,%rax), %xmm0
	movdqu	(%rdi,%rax), %xmm1
	pshufb	.LCPI_ae4004_4(%rip), %xmm1
	movdqa	.LCPI_ae4004_1(%rip), %xmm2
	movdqa	%xmm0, %xmm3
	pand	%xmm2, %xmm3
	pand	%xmm1, %xmm2
	pmullw	%xmm3, %xmm2
	movdqa	.LCPI_ae4004_2(%rip), %xmm3
	paddw	%xmm3, %xmm2
	movdqa	.LCPI_ae4004_3(%rip), %xmm4
	pmulhuw	%xmm4, %xmm2
	psrlw	$8, %xmm0
	psrlw	$8, %xmm1
	pmullw	%xmm0, %xmm1
	paddw	%xmm3, %xmm1
	pmulhuw	%xmm4, %xmm1
	psllw	$8, %xmm1
	por	%xmm2, %xmm1
	movdqu	%xmm1, (%rdi,%rax)
	cmpl	%r13d, %r14d
	je	.LBB_ae4004_13
.LBB_ae4004_11:
	xorl	%edi, %edi
	.p2align	4
.LBB_ae4004_12:
	movl	(%rcx,%rdi,4), %eax
	movzbl	%ah, %ebp
	movl	%eax, %r12d
	movzbl	%al, %esi
	shrl	$16, %eax
	shrl	$24, %r12d
	movzbl	3(%rdx,%rdi,4), %r10d
	imull	%r10d, %esi
	leal	128(%rsi), %ebx
	movzbl	%bh, %ebx
	addl	%esi, %ebx
	addl	$128, %ebx
	movzbl	%bh, %esi
	imull	%r10d, %ebp
	leal	128(%rbp), %ebx
	movzbl	%bh, %ebx
	leal	(%rbx,%rbp), %r15d
	addl	$128, %r15d
	andl	$65280, %r15d
	movzbl	%al, %eax
	imull	%r10d, %eax
	leal	128(%rax), %ebx
	movzbl	%bh, %ebx
	addl	%ebx, %eax
	addl	$128, %eax
	imull	%r10d, %r12d
	leal	128(%r12), %ebx
	movzbl	%bh, %ebx
	leal	(%rbx,%r12), %r10d
	addl	$128, %r10d
	shll	$16, %r10d
	andl	$-16777216, %r10d
	shll	$8, %eax
	andl	$16711680, %eax
	orl	%r10d, %eax
	orl	%r15d, %eax
	orl	%esi, %eax
	movl	%eax, (%rdx,%rdi,4)
	leaq	(%r14,%rdi), %rax
	incq	%rax
	incq	%rdi
	cmpq	%r13, %rax
	jb	.LBB_ae4004_12
	jmp	.LBB_ae4004_13
.LBB_ae4004_14:
	popq	%rbx
	popq	%r12
	popq	%r13
	popq	%r14
	popq	%r15
	popq	%rbp
	retq
.Lfunc_end_ae4004:
	.size	"pix_raster::view::blit_overlap::<#9ba22e131c89b739>", .Lfunc_end_ae4004-"pix_raster::view::blit_overlap::<#9ba22e131c89b739>"

	.section	.rodata.cst16,"aM",@progbits,16
	.p2align	4, 0x0
.LCPI_1b305f_0:
	.byte	255
	.byte	0
	.byte	255
	.byte	0
	.byte	255
	.byte	0
	.byte	255
	.byte	0
	.byte	255
	.byte	0
	.byte	255
	.byte	0
	.byte	255
	.byte	0
	.byte	255
	.byte	0
.LCPI_1b305f_1:
	.short	128
	.short	128
	.short	128
	.short	128
	.short	128
	.short	128
	.short	128
	.short	128
.LCPI_1b305f_2:
	.zero	16,1
.LCPI_1b305f_3:
	.byte	3
	.byte	128
	.byte	3
	.byte	128
	.byte	7
	.byte	128
	.byte	7
	.byte	128
	.byte	11
	.byte	128
	.byte	11
	.byte	128
	.byte	15
	.byte	128
	.byte	15
	.byte	128
.LCPI_1b305f_4:
	.byte	3
	.byte	3
	.byte	3
	.byte	3
	.byte	7
	.byte	7
	.byte	7
	.byte	7
	.byte	11
	.byte	11
	.byte	11
	.byte	11
	.byte	15
	.byte	15
	.byte	15
	.byte	15
.LCPI_1b305f_5:
	.short	128
	.short	128
	.zero	2
	.zero	2
	.zero	2
	.zero	2
	.zero	2
	.zero	2
.LCPI_1b305f_6:
	.byte	128
	.byte	128
	.byte	128
	.byte	2
	.zero	1
	.zero	1
	.zero	1
	.zero	1
	.zero	1
	.zero	1
	.zero	1
	.zero	1
	.zero	1
	.zero	1
	.zero	1
	.zero	1
	.section	".text.pix_raster::view::blit_overlap::<#7b602135e49fc3a4>","ax",@progbits
	.p2align	4
	.type	"pix_raster::view::blit_overlap::<#7b602135e49fc3a4>",@function
"pix_raster::view::blit_overlap::<#7b602135e49fc3a4>":
	pushq	%rbp
	pushq	%r15
	pushq	%r14
	pushq	%r13
	pushq	%r12
	pushq	%rbx
	pushq	%rax
	movq	%rcx, -120(%rsp)
	movq	%rsi, -80(%rsp)
	movq	%rdi, -88(%rsp)
	movq	24(%r8), %rax
	movq	32(%r8), %rcx
	movq	%rax, -128(%rsp)
	movq	%rcx, (%rsp)
	cmpq	%rcx, %rax
	jae	.LBB_1b305f_21
	movl	%r9d, %ebx
	movq	(%r8), %rcx
	movq	%rcx, -96(%rsp)
	movq	16(%r8), %rdi
	leaq	(%rdx,%rdi), %rax
	movq	%rax, -24(%rsp)
	movq	%rdx, -112(%rsp)
	movq	8(%r8), %r14
	movq	40(%r8), %rsi
	subq	%rcx, %r14
	movq	%rsi, %rcx
	movq	-128(%rsp), %rdx
	subq	%rdx, %rcx
	movq	%rcx, -32(%rsp)
	movq	%r14, %r9
	movl	%ebx, %eax
	shrl	$24, %eax
	movl	%ebx, %r8d
	shrl	$16, %r8d
	movl	%ebx, %ecx
	shrl	$8, %ecx
	movd	%ebx, %xmm0
	pinsrb	$1, %ecx, %xmm0
	pinsrb	$2, %r8d, %xmm0
	pinsrb	$3, %eax, %xmm0
	pinsrb	$4, %ebx, %xmm0
	pinsrb	$5, %ecx, %xmm0
	pinsrb	$6, %r8d, %xmm0
	pinsrb	$7, %eax, %xmm0
	pinsrb	$8, %ebx, %xmm0
	pinsrb	$9, %ecx, %xmm0
	pinsrb	$10, %r8d, %xmm0
	pinsrb	$11, %eax, %xmm0
	pinsrb	$12, %ebx, %xmm0
	pinsrb	$13, %ecx, %xmm0
	shrq	$4, %r9
	pinsrb	$14, %r8d, %xmm0
	movdqa	.LCPI_1b305f_0(%rip), %xmm1
	pand	%xmm0, %xmm1
	pinsrb	$15, %eax, %xmm0
	psrlw	$8, %xmm0
	movq	%r14, %r15
	andq	$-16, %r15
	movl	%r14d, %r12d
	andl	$15, %r12d
	movl	%r14d, %r13d
	andl	$8, %r13d
	movq	%r14, -104(%rsp)
	andl	$12, %r14d
	movzbl	%r8b, %ecx
	movd	%ecx, %xmm2
	movzbl	%bh, %ebp
	movzbl	%bl, %r11d
	pinsrw	$1, %eax, %xmm2
	imulq	-120(%rsp), %rsi
	addq	%rdi, %rsi
	movq	-112(%rsp), %rax
	leaq	(%rax,%rsi), %r8
	addq	$8, %r8
	leaq	(%r15,%r14), %r10
	addq	%rax, %r10
	movq	%rdx, %rcx
	movq	-80(%rsp), %rax
	imulq	%rax, %rcx
	addq	%rsi, %r10
	movq	-96(%rsp), %rbx
	leaq	(%rbx,%rcx), %rdx
	movq	-88(%rsp), %rdi
	leaq	(%rdi,%rdx,4), %rdx
	movq	%r15, -64(%rsp)
	leaq	(,%r15,4), %rsi
	movq	%rsi, -40(%rsp)
	leaq	(%rsi,%rcx,4), %rcx
	movq	%r14, -72(%rsp)
	leaq	(%rcx,%r14,4), %rcx
	movq	%rdx, %r14
	leaq	(%rcx,%rbx,4), %rsi
	addq	%rdi, %rsi
	movq	%r13, -48(%rsp)
	leal	(,%r13,4), %ecx
	movq	%rcx, -56(%rsp)
	movq	%r9, -8(%rsp)
	leaq	(,%r9,4), %rdi
	leaq	(,%rax,4), %rax
	movq	%rax, -16(%rsp)
	jmp	.LBB_1b305f_2
	.p2align	4
.LBB_1b305f_20:
	movq	-128(%rsp), %rcx
	incq	%rcx
	movq	-120(%rsp), %rax
	addq	%rax, %r8
	movq	-112(%rsp), %r14
	movq	-16(%rsp), %rdx
	addq	%rdx, %r14
	addq	%rax, %r10
	addq	%rdx, %rsi
	movq	%rcx, -128(%rsp)
	cmpq	(%rsp), %rcx
	je	.LBB_1b305f_21
.LBB_1b305f_2:
	cmpq	$0, -8(%rsp)
	je	.LBB_1b305f_8
	xorl	%r9d, %r9d
	movq	%r14, %rdx
	jmp	.LBB_1b305f_4
	.p2align	4
.LBB_1b305f_6:
	movq	%rcx, %xmm9
	punpcklbw	%xmm9, %xmm9
	movdqa	%xmm9, %xmm10
	punpcklwd	%xmm9, %xmm10
	punpckhwd	%xmm9, %xmm9
	movdqa	.LCPI_1b305f_0(%rip), %xmm3
	movdqa	%xmm9, %xmm11
	pand	%xmm3, %xmm11
	movdqa	%xmm10, %xmm12
	pand	%xmm3, %xmm12
	pmullw	%xmm1, %xmm12
	pmullw	%xmm1, %xmm11
	movdqa	.LCPI_1b305f_1(%rip), %xmm4
	paddw	%xmm4, %xmm11
	paddw	%xmm4, %xmm12
	movdqa	.LCPI_1b305f_2(%rip), %xmm5
	pmulhuw	%xmm5, %xmm12
	pmulhuw	%xmm5, %xmm11
	psrlw	$8, %xmm10
	psrlw	$8, %xmm9
	pmullw	%xmm0, %xmm9
	pmullw	%xmm0, %xmm10
	paddw	%xmm4, %xmm10
	paddw	%xmm4, %xmm9
	pmulhuw	%xmm5, %xmm9
	pmulhuw	%xmm5, %xmm10
	psllw	$8, %xmm10
	psllw	$8, %xmm9
	movdqa	.LCPI_1b305f_3(%rip), %xmm8
	movdqu	(%rdx), %xmm13
	movdqu	16(%rdx), %xmm14
	movdqu	32(%rdx), %xmm6
	movdqu	48(%rdx), %xmm7
	pshufb	%xmm8, %xmm14
	pshufb	%xmm8, %xmm13
	por	%xmm11, %xmm9
	por	%xmm12, %xmm10
	pmullw	%xmm13, %xmm12
	pmullw	%xmm14, %xmm11
	paddw	%xmm4, %xmm11
	paddw	%xmm4, %xmm12
	pmulhuw	%xmm5, %xmm12
	pmulhuw	%xmm5, %xmm11
	psrlw	$8, %xmm10
	psrlw	$8, %xmm9
	pmullw	%xmm14, %xmm9
	pmullw	%xmm13, %xmm10
	paddw	%xmm4, %xmm10
	paddw	%xmm4, %xmm9
	pmulhuw	%xmm5, %xmm9
	pmulhuw	%xmm5, %xmm10
	psllw	$8, %xmm10
	por	%xmm12, %xmm10
	psllw	$8, %xmm9
	por	%xmm11, %xmm9
	movdqu	%xmm10, (%rdx)
	movdqu	%xmm9, 16(%rdx)
	movq	(%r8,%r9,4), %xmm9
	punpcklbw	%xmm9, %xmm9
	movdqa	%xmm9, %xmm10
	punpcklwd	%xmm9, %xmm10
	punpckhwd	%xmm9, %xmm9
	movdqa	%xmm9, %xmm11
	pand	%xmm3, %xmm11
	pand	%xmm10, %xmm3
	pmullw	%xmm1, %xmm3
	pmullw	%xmm1, %xmm11
	paddw	%xmm4, %xmm11
	paddw	%xmm4, %xmm3
	pmulhuw	%xmm5, %xmm3
	pmulhuw	%xmm5, %xmm11
	psrlw	$8, %xmm10
	psrlw	$8, %xmm9
	pmullw	%xmm0, %xmm9
	pmullw	%xmm0, %xmm10
	paddw	%xmm4, %xmm10
	paddw	%xmm4, %xmm9
	pmulhuw	%xmm5, %xmm9
	pmulhuw	%xmm5, %xmm10
	psllw	$8, %xmm10
	psllw	$8, %xmm9
	pshufb	%xmm8, %xmm7
	pshufb	%xmm8, %xmm6
	por	%xmm11, %xmm9
	por	%xmm3, %xmm10
	pmullw	%xmm6, %xmm3
	pmullw	%xmm7, %xmm11
	paddw	%xmm4, %xmm11
	paddw	%xmm4, %xmm3
	pmulhuw	%xmm5, %xmm3
	pmulhuw	%xmm5, %xmm11
	psrlw	$8, %xmm10
	psrlw	$8, %xmm9
	pmullw	%xmm7, %xmm9
	pmullw	%xmm6, %xmm10
	paddw	%xmm4, %xmm10
	paddw	%xmm4, %xmm9
	pmulhuw	%xmm5, %xmm9
	pmulhuw	%xmm5, %xmm10
	psllw	$8, %xmm10
	por	%xmm3, %xmm10
	psllw	$8, %xmm9
	por	%xmm11, %xmm9
	movdqu	%xmm10, 32(%rdx)
	movdqu	%xmm9, 48(%rdx)
	addq	$4, %r9
	addq	$64, %rdx
	cmpq	%r9, %rdi
	je	.LBB_1b305f_8
.LBB_1b305f_4:
	movq	-8(%r8,%r9,4), %rcx
	movq	(%r8,%r9,4), %rbx
	orq	%rcx, %rbx
	jne	.LBB_1b305f_6
	pxor	%xmm3, %xmm3
	movdqu	%xmm3, 48(%rdx)
	movdqu	%xmm3, 32(%rdx)
	movdqu	%xmm3, 16(%rdx)
	movdqu	%xmm3, (%rdx)
	addq	$4, %r9
	addq	$64, %rdx
	cmpq	%r9, %rdi
	jne	.LBB_1b305f_4
.LBB_1b305f_8:
	movq	%r14, -112(%rsp)
	movq	-64(%rsp), %rax
	cmpq	-104(%rsp), %rax
	je	.LBB_1b305f_20
	movq	-128(%rsp), %rax
	movq	%rax, %rcx
	imulq	-80(%rsp), %rcx
	addq	-96(%rsp), %rcx
	movq	-32(%rsp), %rdx
	leaq	(%rdx,%rax), %r9
	imulq	-120(%rsp), %r9
	addq	-24(%rsp), %r9
	movq	-88(%rsp), %rax
	leaq	(%rax,%rcx,4), %rdx
	addq	-40(%rsp), %rdx
	addq	-64(%rsp), %r9
	testb	$8, -104(%rsp)
	jne	.LBB_1b305f_10
	testb	$4, -104(%rsp)
	jne	.LBB_1b305f_14
.LBB_1b305f_17:
	cmpl	%r12d, -72(%rsp)
	je	.LBB_1b305f_20
	jmp	.LBB_1b305f_18
	.p2align	4
.LBB_1b305f_10:
	movq	(%r9), %rcx
	testq	%rcx, %rcx
	je	.LBB_1b305f_11
	movq	%rcx, %xmm3
	punpcklbw	%xmm3, %xmm3
	movdqa	%xmm3, %xmm4
	punpcklwd	%xmm3, %xmm4
	punpckhwd	%xmm3, %xmm3
	movdqa	.LCPI_1b305f_0(%rip), %xmm6
	movdqa	%xmm3, %xmm5
	pand	%xmm6, %xmm5
	pand	%xmm4, %xmm6
	pmullw	%xmm1, %xmm6
	pmullw	%xmm1, %xmm5
	movdqa	.LCPI_1b305f_1(%rip), %xmm7
	paddw	%xmm7, %xmm5
	paddw	%xmm7, %xmm6
	movdqa	.LCPI_1b305f_2(%rip), %xmm8
	pmulhuw	%xmm8, %xmm6
	pmulhuw	%xmm8, %xmm5
	psrlw	$8, %xmm4
	psrlw	$8, %xmm3
	pmullw	%xmm0, %xmm3
	pmullw	%xmm0, %xmm4
	paddw	%xmm7, %xmm4
	paddw	%xmm7, %xmm3
	pmulhuw	%xmm8, %xmm3
	pmulhuw	%xmm8, %xmm4
	psllw	$8, %xmm4
	psllw	$8, %xmm3
	movdqu	(%rdx), %xmm9
	movdqu	16(%rdx), %xmm10
	movdqa	.LCPI_1b305f_3(%rip), %xmm11
	pshufb	%xmm11, %xmm10
	pshufb	%xmm11, %xmm9
	por	%xmm5, %xmm3
	por	%xmm6, %xmm4
	pmullw	%xmm9, %xmm6
	pmullw	%xmm10, %xmm5
	paddw	%xmm7, %xmm5
	paddw	%xmm7, %xmm6
	pmulhuw	%xmm8, %xmm6
	pmulhuw	%xmm8, %xmm5
	psrlw	$8, %xmm4
	psrlw	$8, %xmm3
	pmullw	%xmm10, %xmm3
	pmullw	%xmm9, %xmm4
	paddw	%xmm7, %xmm4
	paddw	%xmm7, %xmm3
	pmulhuw	%xmm8, %xmm3
	pmulhuw	%xmm8, %xmm4
	psllw	$8, %xmm4
	por	%xmm6, %xmm4
	psllw	$8, %xmm3
	por	%xmm5, %xmm3
	movdqu	%xmm4, (%rdx)
	movdqu	%xmm3, 16(%rdx)
	testb	$4, -104(%rsp)
	je	.LBB_1b305f_17
	jmp	.LBB_1b305f_14
.LBB_1b305f_11:
	pxor	%xmm3, %xmm3
	movdqu	%xmm3, 16(%rdx)
	movdqu	%xmm3, (%rdx)
	testb	$4, -104(%rsp)
	je	.LBB_1b305f_17
	.p2align	4
.LBB_1b305f_14:
	addq	-56(%rsp), %rdx
	movq	-48(%rsp), %rax
	movl	(%r9,%rax), %ecx
	testl	%ecx, %ecx
	je	.LBB_1b305f_15
	movd	%ecx, %xmm4
	punpcklbw	%xmm4, %xmm4
	punpcklwd	%xmm4, %xmm4
	movdqa	.LCPI_1b305f_0(%rip), %xmm3
	movdqa	%xmm4, %xmm7
	pand	%xmm3, %xmm7
	pmullw	%xmm1, %xmm7
	movdqa	.LCPI_1b305f_1(%rip), %xmm5
	paddw	%xmm5, %xmm7
	movdqa	.LCPI_1b305f_2(%rip), %xmm6
	pmulhuw	%xmm6, %xmm7
	psrlw	$8, %xmm4
	pmullw	%xmm0, %xmm4
	paddw	%xmm5, %xmm4
	pmulhuw	%xmm6, %xmm4
	psllw	$8, %xmm4
	movdqu	(%rdx), %xmm8
	por	%xmm7, %xmm4
	pshufb	.LCPI_1b305f_4(%rip), %xmm8
	pand	%xmm8, %xmm3
	pmullw	%xmm7, %xmm3
	paddw	%xmm5, %xmm3
	pmulhuw	%xmm6, %xmm3
	psrlw	$8, %xmm4
	psrlw	$8, %xmm8
	pmullw	%xmm4, %xmm8
	paddw	%xmm5, %xmm8
	pmulhuw	%xmm6, %xmm8
	psllw	$8, %xmm8
	por	%xmm3, %xmm8
	movdqu	%xmm8, (%rdx)
	cmpl	%r12d, -72(%rsp)
	je	.LBB_1b305f_20
	jmp	.LBB_1b305f_18
.LBB_1b305f_15:
	pxor	%xmm3, %xmm3
	movdqu	%xmm3, (%rdx)
	cmpl	%r12d, -72(%rsp)
	je	.LBB_1b305f_20
	.p2align	4
.LBB_1b305f_18:
	xorl	%edx, %edx
	movq	-72(%rsp), %r9
	.p2align	4
.LBB_1b305f_19:
	movzbl	(%r10,%rdx), %r15d
	movzbl	3(%rsi,%rdx,4), %r13d
	movzwl	%r11w, %ecx
	imull	%r15d, %ecx
	leal	128(%rcx), %ebx
	movzbl	%bh, %ebx
	addl	%ebx, %ecx
	addl	$128, %ecx
	movzbl	%ch, %ebx
	movzwl	%bp, %ecx
	imull	%r15d, %ecx
	leal	128(%rcx), %eax
	movzbl	%ah, %eax
	addl	%ecx, %eax
	addl	$128, %eax
	movzbl	%ah, %ecx
	imull	%r13d, %ebx
	leal	128(%rbx), %eax
	movzbl	%ah, %eax
	addl	%ebx, %eax
	addl	$128, %eax
	movzbl	%ah, %ebx
	imull	%r13d, %ecx
	leal	128(%rcx), %eax
	movzbl	%ah, %eax
	leal	(%rax,%rcx), %r14d
	addl	$128, %r14d
	andl	$65280, %r14d
	movd	%r15d, %xmm3
	pshuflw	$0, %xmm3, %xmm3
	pmullw	%xmm2, %xmm3
	movdqa	.LCPI_1b305f_5(%rip), %xmm4
	paddw	%xmm4, %xmm3
	movdqa	%xmm3, %xmm5
	psrlw	$8, %xmm5
	paddw	%xmm3, %xmm5
	psrlw	$8, %xmm5
	movd	%r13d, %xmm3
	pshuflw	$0, %xmm3, %xmm3
	pmullw	%xmm5, %xmm3
	paddw	%xmm4, %xmm3
	movdqa	%xmm3, %xmm4
	psrlw	$8, %xmm4
	paddw	%xmm3, %xmm4
	psrlw	$8, %xmm4
	movdqa	%xmm4, %xmm3
	pslld	$16, %xmm3
	pshufb	.LCPI_1b305f_6(%rip), %xmm4
	por	%xmm3, %xmm4
	movd	%xmm4, %eax
	orl	%r14d, %eax
	orl	%ebx, %eax
	movl	%eax, (%rsi,%rdx,4)
	incq	%r9
	incq	%rdx
	cmpq	%r12, %r9
	jb	.LBB_1b305f_19
	jmp	.LBB_1b305f_20
.LBB_1b305f_21:
	addq	$8, %rsp
	popq	%rbx
	popq	%r12
	popq	%r13
	popq	%r14
	popq	%r15
	popq	%rbp
	retq
.Lfunc_end_1b305f:
	.size	"pix_raster::view::blit_overlap::<#7b602135e49fc3a4>", .Lfunc_end_1b305f-"pix_raster::view::blit_overlap::<#7b602135e49fc3a4>"

	.section	.rodata.cst16,"aM",@progbits,16
	.p2align	4, 0x0
.LCPI_b5b89a_0:
	.byte	255
	.byte	0
	.byte	255
	.byte	0
	.byte	255
	.byte	0
	.byte	255
	.byte	0
	.byte	255
	.byte	0
	.byte	255
	.byte	0
	.byte	255
	.byte	0
	.byte	255
	.byte	0
.LCPI_b5b89a_1:
	.short	128
	.short	128
	.short	128
	.short	128
	.short	128
	.short	128
	.short	128
	.short	128
.LCPI_b5b89a_2:
	.zero	16,1
.LCPI_b5b89a_3:
	.byte	3
	.byte	128
	.byte	3
	.byte	128
	.byte	7
	.byte	128
	.byte	7
	.byte	128
	.byte	11
	.byte	128
	.byte	11
	.byte	128
	.byte	15
	.byte	128
	.byte	15
	.byte	128
.LCPI_b5b89a_4:
	.byte	3
	.byte	3
	.byte	3
	.byte	3
	.byte	7
	.byte	7
	.byte	7
	.byte	7
	.byte	11
	.byte	11
	.byte	11
	.byte	11
	.byte	15
	.byte	15
	.byte	15
	.byte	15
.LCPI_b5b89a_5:
	.short	128
	.short	128
	.zero	2
	.zero	2
	.zero	2
	.zero	2
	.zero	2
	.zero	2
.LCPI_b5b89a_6:
	.byte	128
	.byte	128
	.byte	128
	.byte	2
	.zero	1
	.zero	1
	.zero	1
	.zero	1
	.zero	1
	.zero	1
	.zero	1
	.zero	1
	.zero	1
	.zero	1
	.zero	1
	.zero	1
	.section	".text.pix_raster::view::blit_overlap::<#2e32b78ff97838bb>","ax",@progbits
	.p2align	4
	.type	"pix_raster::view::blit_overlap::<#2e32b78ff97838bb>",@function
"pix_raster::view::blit_overlap::<#2e32b78ff97838bb>":
	pushq	%rbp
	pushq	%r15
	pushq	%r14
	pushq	%r13
	pushq	%r12
	pushq	%rbx
	pushq	%rax
	movq	%rcx, -88(%rsp)
	movq	%rdx, -96(%rsp)
	movq	%rsi, -104(%rsp)
	movq	%rdi, -112(%rsp)
	movq	24(%r8), %rax
	movq	32(%r8), %rcx
	movq	%rax, -128(%rsp)
	movq	%rcx, -8(%rsp)
	cmpq	%rcx, %rax
	jae	.LBB_b5b89a_14
	movq	(%r8), %r12
	movq	16(%r8), %r10
	movq	8(%r8), %r14
	movq	40(%r8), %rcx
	subq	%r12, %r14
	movq	%rcx, %rax
	movq	-128(%rsp), %rdx
	subq	%rdx, %rax
	movq	%rax, -56(%rsp)
	movq	%r14, %rax
	shrq	$4, %rax
	movq	%rax, -80(%rsp)
	movzbl	%r9b, %ebp
	movd	%ebp, %xmm1
	pxor	%xmm2, %xmm2
	pshuflw	$0, %xmm1, %xmm0
	pshufb	%xmm2, %xmm1
	movdqa	.LCPI_b5b89a_0(%rip), %xmm2
	pand	%xmm1, %xmm2
	psrlw	$8, %xmm1
	movq	%r14, %rax
	andq	$-16, %rax
	movq	%rax, -16(%rsp)
	leaq	(,%rax,4), %r9
	movl	%r14d, %r15d
	andl	$15, %r15d
	leal	(,%r14,4), %eax
	movl	%eax, %esi
	andl	$32, %esi
	movq	%rsi, -72(%rsp)
	movq	-104(%rsp), %r11
	imulq	%r11, %rdx
	leaq	(,%r12,4), %rsi
	leaq	(%rsi,%rdx,4), %rbx
	movq	-88(%rsp), %rdi
	imulq	%rdi, %rcx
	leaq	(,%r10,4), %rsi
	leaq	(%rsi,%rcx,4), %r8
	leaq	(%r9,%rcx,4), %rcx
	andl	$48, %eax
	addq	%rax, %rcx
	movq	%r9, -64(%rsp)
	leaq	(%r9,%rdx,4), %rdx
	addq	%rax, %rdx
	movq	%r14, -120(%rsp)
	andl	$12, %r14d
	movq	-112(%rsp), %rsi
	addq	%rsi, %rbx
	movq	-96(%rsp), %rax
	addq	%rax, %r8
	movq	%r10, -48(%rsp)
	leaq	(%rcx,%r10,4), %r10
	addq	%rax, %r10
	movq	%r12, -40(%rsp)
	leaq	(%rdx,%r12,4), %r9
	addq	%rsi, %r9
	leaq	(,%r11,4), %rax
	movq	%rax, -24(%rsp)
	leaq	(,%rdi,4), %rax
	movq	%rax, -32(%rsp)
	jmp	.LBB_b5b89a_2
	.p2align	4
.LBB_b5b89a_13:
	movq	-128(%rsp), %rax
	incq	%rax
	movq	-24(%rsp), %rcx
	addq	%rcx, %rbx
	movq	(%rsp), %r8
	movq	-32(%rsp), %rdx
	addq	%rdx, %r8
	addq	%rdx, %r10
	addq	%rcx, %r9
	movq	%rax, -128(%rsp)
	cmpq	-8(%rsp), %rax
	je	.LBB_b5b89a_14
.LBB_b5b89a_2:
	cmpq	$0, -80(%rsp)
	je	.LBB_b5b89a_5
	movl	$32, %r13d
	movq	-80(%rsp), %r11
	.p2align	4
.LBB_b5b89a_4:
	movdqu	-32(%r8,%r13), %xmm9
	movdqu	-16(%r8,%r13), %xmm8
	movdqa	.LCPI_b5b89a_0(%rip), %xmm3
	movdqa	%xmm8, %xmm11
	pand	%xmm3, %xmm11
	movdqa	%xmm9, %xmm12
	pand	%xmm3, %xmm12
	pmullw	%xmm2, %xmm12
	pmullw	%xmm2, %xmm11
	movdqa	.LCPI_b5b89a_1(%rip), %xmm4
	paddw	%xmm4, %xmm11
	paddw	%xmm4, %xmm12
	movdqa	.LCPI_b5b89a_2(%rip), %xmm5
	pmulhuw	%xmm5, %xmm12
	pmulhuw	%xmm5, %xmm11
	psrlw	$8, %xmm9
	psrlw	$8, %xmm8
	pmullw	%xmm1, %xmm8
	pmullw	%xmm1, %xmm9
	paddw	%xmm4, %xmm9
	paddw	%xmm4, %xmm8
	pmulhuw	%xmm5, %xmm8
	pmulhuw	%xmm5, %xmm9
	psllw	$8, %xmm9
	psllw	$8, %xmm8
	movdqu	-32(%rbx,%r13), %xmm13
	movdqu	-16(%rbx,%r13), %xmm14
	movdqu	(%rbx,%r13), %xmm6
	movdqu	16(%rbx,%r13), %xmm7
	movdqa	.LCPI_b5b89a_3(%rip), %xmm10
	pshufb	%xmm10, %xmm14
	pshufb	%xmm10, %xmm13
	por	%xmm11, %xmm8
	por	%xmm12, %xmm9
	pmullw	%xmm13, %xmm12
	pmullw	%xmm14, %xmm11
	paddw	%xmm4, %xmm11
	paddw	%xmm4, %xmm12
	pmulhuw	%xmm5, %xmm12
	pmulhuw	%xmm5, %xmm11
	psrlw	$8, %xmm9
	psrlw	$8, %xmm8
	pmullw	%xmm14, %xmm8
	pmullw	%xmm13, %xmm9
	paddw	%xmm4, %xmm9
	paddw	%xmm4, %xmm8
	pmulhuw	%xmm5, %xmm8
	pmulhuw	%xmm5, %xmm9
	psllw	$8, %xmm9
	por	%xmm12, %xmm9
	psllw	$8, %xmm8
	por	%xmm11, %xmm8
	movdqu	%xmm9, -32(%rbx,%r13)
	movdqu	%xmm8, -16(%rbx,%r13)
	movdqu	(%r8,%r13), %xmm9
	movdqu	16(%r8,%r13), %xmm8
	movdqa	%xmm8, %xmm11
	pand	%xmm3, %xmm11
	pand	%xmm9, %xmm3
	pmullw	%xmm2, %xmm3
	pmullw	%xmm2, %xmm11
	paddw	%xmm4, %xmm11
	paddw	%xmm4, %xmm3
	pmulhuw	%xmm5, %xmm3
	pmulhuw	%xmm5, %xmm11
	psrlw	$8, %xmm9
	psrlw	$8, %xmm8
	pmullw	%xmm1, %xmm8
	pmullw	%xmm1, %xmm9
	paddw	%xmm4, %xmm9
	paddw	%xmm4, %xmm8
	pmulhuw	%xmm5, %xmm8
	pmulhuw	%xmm5, %xmm9
	psllw	$8, %xmm9
	psllw	$8, %xmm8
	pshufb	%xmm10, %xmm7
	pshufb	%xmm10, %xmm6
	por	%xmm11, %xmm8
	por	%xmm3, %xmm9
	pmullw	%xmm6, %xmm3
	pmullw	%xmm7, %xmm11
	paddw	%xmm4, %xmm11
	paddw	%xmm4, %xmm3
	pmulhuw	%xmm5, %xmm3
	pmulhuw	%xmm5, %xmm11
	psrlw	$8, %xmm9
	psrlw	$8, %xmm8
	pmullw	%xmm7, %xmm8
	pmullw	%xmm6, %xmm9
	paddw	%xmm4, %xmm9
	paddw	%xmm4, %xmm8
	pmulhuw	%xmm5, %xmm8
	pmulhuw	%xmm5, %xmm9
	psllw	$8, %xmm9
	por	%xmm3, %xmm9
	psllw	$8, %xmm8
	por	%xmm11, %xmm8
	movdqu	%xmm9, (%rbx,%r13)
	movdqu	%xmm8, 16(%rbx,%r13)
	addq	$64, %r13
	decq	%r11
	jne	.LBB_b5b89a_4
.LBB_b5b89a_5:
	movq	%r8, (%rsp)
	movq	-16(%rsp), %rax
	cmpq	-120(%rsp), %rax
	je	.LBB_b5b89a_13
	movq	-128(%rsp), %rcx
	movq	%rcx, %rax
	imulq	-104(%rsp), %rax
	addq	-40(%rsp), %rax
	movq	-56(%rsp), %rdx
	addq	%rdx, %rcx
	imulq	-88(%rsp), %rcx
	addq	-48(%rsp), %rcx
	movq	-112(%rsp), %rdx
	leaq	(%rdx,%rax,4), %r11
	movq	-96(%rsp), %rax
	leaq	(%rax,%rcx,4), %r13
	movq	-64(%rsp), %rax
	addq	%rax, %r11
	addq	%rax, %r13
	testb	$8, -120(%rsp)
	jne	.LBB_b5b89a_7
	testb	$4, -120(%rsp)
	jne	.LBB_b5b89a_9
.LBB_b5b89a_10:
	cmpl	%r15d, %r14d
	je	.LBB_b5b89a_13
	jmp	.LBB_b5b89a_11
	.p2align	4
.LBB_b5b89a_7:
	movdqu	(%r13), %xmm4
	movdqu	16(%r13), %xmm3
	movdqa	.LCPI_b5b89a_0(%rip), %xmm6
	movdqa	%xmm3, %xmm5
	pand	%xmm6, %xmm5
	pand	%xmm4, %xmm6
	pmullw	%xmm2, %xmm6
	pmullw	%xmm2, %xmm5
	movdqa	.LCPI_b5b89a_1(%rip), %xmm7
	paddw	%xmm7, %xmm5
	paddw	%xmm7, %xmm6
	movdqa	.LCPI_b5b89a_2(%rip), %xmm8
	pmulhuw	%xmm8, %xmm6
	pmulhuw	%xmm8, %xmm5
	psrlw	$8, %xmm4
	psrlw	$8, %xmm3
	pmullw	%xmm1, %xmm3
	pmullw	%xmm1, %xmm4
	paddw	%xmm7, %xmm4
	paddw	%xmm7, %xmm3
	pmulhuw	%xmm8, %xmm3
	pmulhuw	%xmm8, %xmm4
	psllw	$8, %xmm4
	psllw	$8, %xmm3
	movdqu	(%r11), %xmm9
	movdqu	16(%r11), %xmm10
	movdqa	.LCPI_b5b89a_3(%rip), %xmm11
	pshufb	%xmm11, %xmm10
	pshufb	%xmm11, %xmm9
	por	%xmm5, %xmm3
	por	%xmm6, %xmm4
	pmullw	%xmm9, %xmm6
	pmullw	%xmm10, %xmm5
	paddw	%xmm7, %xmm5
	paddw	%xmm7, %xmm6
	pmulhuw	%xmm8, %xmm6
	pmulhuw	%xmm8, %xmm5
	psrlw	$8, %xmm4
	psrlw	$8, %xmm3
	pmullw	%xmm10, %xmm3
	pmullw	%xmm9, %xmm4
	paddw	%xmm7, %xmm4
	paddw	%xmm7, %xmm3
	pmulhuw	%xmm8, %xmm3
	pmulhuw	%xmm8, %xmm4
	psllw	$8, %xmm4
	por	%xmm6, %xmm4
	psllw	$8, %xmm3
	por	%xmm5, %xmm3
	movdqu	%xmm4, (%r11)
	movdqu	%xmm3, 16(%r11)
	testb	$4, -120(%rsp)
	je	.LBB_b5b89a_10
.LBB_b5b89a_9:
	movq	-72(%rsp), %rax
	movdqu	(%r13,%rax), %xmm4
	movdqa	.LCPI_b5b89a_0(%rip), %xmm3
	movdqa	%xmm4, %xmm7
	pand	%xmm3, %xmm7
	pmullw	%xmm2, %xmm7
	movdqa	.LCPI_b5b89a_1(%rip), %xmm5
	paddw	%xmm5, %xmm7
	movdqa	.LCPI_b5b89a_2(%rip), %xmm6
	pmulhuw	%xmm6, %xmm7
	psrlw	$8, %xmm4
	pmullw	%xmm1, %xmm4
	paddw	%xmm5, %xmm4
	pmulhuw	%xmm6, %xmm4
	psllw	$8, %xmm4
	movdqu	(%r11,%rax), %xmm8
	por	%xmm7, %xmm4
	pshufb	.LCPI_b5b89a_4(%rip), %xmm8
	pand	%xmm8, %xmm3
	pmullw	%xmm7, %xmm3
	paddw	%xmm5, %xmm3
	pmulhuw	%xmm6, %xmm3
	psrlw	$8, %xmm4
	psrlw	$8, %xmm8
	pmullw	%xmm4, %xmm8
	paddw	%xmm5, %xmm8
	pmulhuw	%xmm6, %xmm8
	psllw	$8, %xmm8
	por	%xmm3, %xmm8
	movdqu	%xmm8, (%r11,%rax)
	cmpl	%r15d, %r14d
	je	.LBB_b5b89a_13
.LBB_b5b89a_11:
	xorl	%r11d, %r11d
	.p2align	4
.LBB_b5b89a_12:
	movl	(%r10,%r11,4), %eax
	movzbl	3(%r9,%r11,4), %r13d
	movzbl	%ah, %edi
	movl	%eax, %ecx
	movzbl	%al, %esi
	shrl	$16, %eax
	shrl	$24, %ecx
	movq	%r9, %r8
	movq	%r10, %r9
	movq	%r14, %r10
	movq	%r15, %r14
	movl	%ebp, %r15d
	movzwl	%r15w, %ebp
	imull	%ebp, %esi
	leal	128(%rsi), %edx
	movzbl	%dh, %edx
	addl	%esi, %edx
	addl	$128, %edx
	movzbl	%dh, %esi
	imull	%ebp, %edi
	leal	128(%rdi), %edx
	movzbl	%dh, %edx
	addl	%edi, %edx
	addl	$128, %edx
	movzbl	%dh, %ebp
	movzbl	%al, %eax
	imull	%r13d, %esi
	leal	128(%rsi), %edx
	movzbl	%dh, %edx
	addl	%esi, %edx
	addl	$128, %edx
	movzbl	%dh, %edi
	imull	%r13d, %ebp
	leal	128(%rbp), %edx
	movzbl	%dh, %edx
	leal	(%rdx,%rbp), %r12d
	addl	$128, %r12d
	movl	%r15d, %ebp
	movq	%r14, %r15
	movq	%r10, %r14
	movq	%r9, %r10
	movq	%r8, %r9
	movd	%eax, %xmm3
	pinsrw	$1, %ecx, %xmm3
	andl	$65280, %r12d
	pmullw	%xmm0, %xmm3
	movdqa	.LCPI_b5b89a_5(%rip), %xmm4
	paddw	%xmm4, %xmm3
	movdqa	%xmm3, %xmm5
	psrlw	$8, %xmm5
	paddw	%xmm3, %xmm5
	psrlw	$8, %xmm5
	movd	%r13d, %xmm3
	pshuflw	$0, %xmm3, %xmm3
	pmullw	%xmm5, %xmm3
	paddw	%xmm4, %xmm3
	movdqa	%xmm3, %xmm4
	psrlw	$8, %xmm4
	paddw	%xmm3, %xmm4
	psrlw	$8, %xmm4
	movdqa	%xmm4, %xmm3
	pslld	$16, %xmm3
	pshufb	.LCPI_b5b89a_6(%rip), %xmm4
	por	%xmm3, %xmm4
	movd	%xmm4, %eax
	orl	%r12d, %eax
	orl	%edi, %eax
	movl	%eax, (%r8,%r11,4)
	leaq	(%r14,%r11), %rax
	incq	%rax
	incq	%r11
	cmpq	%r15, %rax
	jb	.LBB_b5b89a_12
	jmp	.LBB_b5b89a_13
.LBB_b5b89a_14:
	addq	$8, %rsp
	popq	%rbx
	popq	%r12
	popq	%r13
	popq	%r14
	popq	%r15
	popq	%rbp
	retq
.Lfunc_end_b5b89a:
	.size	"pix_raster::view::blit_overlap::<#2e32b78ff97838bb>", .Lfunc_end_b5b89a-"pix_raster::view::blit_overlap::<#2e32b78ff97838bb>"

	.section	.rodata.cst16,"aM",@progbits,16
	.p2align	4, 0x0
.LCPI_a86660_0:
	.byte	3
	.byte	128
	.byte	3
	.byte	128
	.byte	7
	.byte	128
	.byte	7
	.byte	128
	.byte	11
	.byte	128
	.byte	11
	.byte	128
	.byte	15
	.byte	128
	.byte	15
	.byte	128
.LCPI_a86660_1:
	.byte	255
	.byte	0
	.byte	255
	.byte	0
	.byte	255
	.byte	0
	.byte	255
	.byte	0
	.byte	255
	.byte	0
	.byte	255
	.byte	0
	.byte	255
	.byte	0
	.byte	255
	.byte	0
.LCPI_a86660_2:
	.short	128
	.short	128
	.short	128
	.short	128
	.short	128
	.short	128
	.short	128
	.short	128
.LCPI_a86660_3:
	.zero	16,1
.LCPI_a86660_4:
	.byte	3
	.byte	3
	.byte	3
	.byte	3
	.byte	7
	.byte	7
	.byte	7
	.byte	7
	.byte	11
	.byte	11
	.byte	11
	.byte	11
	.byte	15
	.byte	15
	.byte	15
	.byte	15
	.section	".text.pix_raster::view::blit_overlap::<#118c7942c1302bcc>","ax",@progbits
	.p2align	4
	.type	"pix_raster::view::blit_overlap::<#118c7942c1302bcc>",@function
"pix_raster::view::blit_overlap::<#118c7942c1302bcc>":
	pushq	%rbp
	pushq	%r15
	pushq	%r14
	pushq	%r13
	pushq	%r12
	pushq	%rbx
	movq	%rcx, -88(%rsp)
	movq	%rdx, -96(%rsp)
	movq	%rsi, -104(%rsp)
	movq	%rdi, -112(%rsp)
	movq	24(%r8), %r10
	movq	32(%r8), %rax
	movq	%rax, -8(%rsp)
	cmpq	%rax, %r10
	jae	.LBB_a86660_14
	movq	(%r8), %r15
	movq	16(%r8), %r12
	movq	8(%r8), %r14
	movq	40(%r8), %rcx
	subq	%r15, %r14
	movq	%rcx, %rax
	subq	%r10, %rax
	movq	%rax, -56(%rsp)
	movq	%r14, %rax
	shrq	$4, %rax
	movq	%rax, -80(%rsp)
	movq	%r14, %rax
	andq	$-16, %rax
	movq	%rax, -16(%rsp)
	leaq	(,%rax,4), %rbp
	movl	%r14d, %r13d
	andl	$15, %r13d
	leal	(,%r14,4), %edx
	movl	%edx, %eax
	andl	$32, %eax
	movq	%rax, -72(%rsp)
	movq	%r14, -120(%rsp)
	andl	$12, %r14d
	movq	%r10, %rax
	movq	-104(%rsp), %r9
	imulq	%r9, %rax
	leaq	(,%r15,4), %rsi
	leaq	(%rsi,%rax,4), %r11
	movq	-112(%rsp), %rbx
	addq	%rbx, %r11
	movq	-88(%rsp), %rdi
	imulq	%rdi, %rcx
	leaq	(,%r12,4), %rsi
	leaq	(%rsi,%rcx,4), %r8
	leaq	(,%rcx,4), %rcx
	addq	%rbp, %rcx
	andl	$48, %edx
	addq	%rdx, %rcx
	movq	%rbp, -64(%rsp)
	leaq	(,%rax,4), %rax
	addq	%rbp, %rax
	addq	%rdx, %rax
	leaq	(,%r9,4), %rdx
	movq	%rdx, -24(%rsp)
	movq	-96(%rsp), %rdx
	addq	%rdx, %r8
	movq	%r12, -48(%rsp)
	leaq	(%rcx,%r12,4), %rcx
	addq	%rdx, %rcx
	movq	%r15, -40(%rsp)
	leaq	(%rax,%r15,4), %rdx
	addq	%rbx, %rdx
	leaq	(,%rdi,4), %rax
	movq	%rax, -32(%rsp)
	jmp	.LBB_a86660_2
	.p2align	4
.LBB_a86660_13:
	incq	%r10
	movq	-24(%rsp), %rax
	addq	%rax, %r11
	movq	-32(%rsp), %rsi
	addq	%rsi, %r8
	addq	%rsi, %rcx
	addq	%rax, %rdx
	cmpq	-8(%rsp), %r10
	je	.LBB_a86660_14
.LBB_a86660_2:
	cmpq	$0, -80(%rsp)
	je	.LBB_a86660_5
	movl	$32, %edi
	movq	-80(%rsp), %r12
	.p2align	4
.LBB_a86660_4:
	movdqu	-32(%r8,%rdi), %xmm9
	movdqu	-16(%r8,%rdi), %xmm11
	movdqa	.LCPI_a86660_0(%rip), %xmm5
	pshufb	%xmm5, %xmm11
	pshufb	%xmm5, %xmm9
	movdqa	.LCPI_a86660_1(%rip), %xmm2
	movdqu	-32(%r11,%rdi), %xmm7
	movdqu	-16(%r11,%rdi), %xmm6
	movdqu	(%r11,%rdi), %xmm1
	movdqu	16(%r11,%rdi), %xmm0
	movdqa	%xmm6, %xmm8
	pand	%xmm2, %xmm8
	movdqa	%xmm7, %xmm10
	pand	%xmm2, %xmm10
	pmullw	%xmm9, %xmm10
	pmullw	%xmm11, %xmm8
	movdqa	.LCPI_a86660_2(%rip), %xmm3
	paddw	%xmm3, %xmm8
	paddw	%xmm3, %xmm10
	movdqa	.LCPI_a86660_3(%rip), %xmm4
	pmulhuw	%xmm4, %xmm10
	pmulhuw	%xmm4, %xmm8
	psrlw	$8, %xmm7
	psrlw	$8, %xmm6
	pmullw	%xmm11, %xmm6
	pmullw	%xmm9, %xmm7
	paddw	%xmm3, %xmm7
	paddw	%xmm3, %xmm6
	pmulhuw	%xmm4, %xmm6
	pmulhuw	%xmm4, %xmm7
	psllw	$8, %xmm7
	por	%xmm10, %xmm7
	psllw	$8, %xmm6
	por	%xmm8, %xmm6
	movdqu	%xmm7, -32(%r11,%rdi)
	movdqu	%xmm6, -16(%r11,%rdi)
	movdqu	(%r8,%rdi), %xmm6
	movdqu	16(%r8,%rdi), %xmm7
	pshufb	%xmm5, %xmm7
	pshufb	%xmm5, %xmm6
	movdqa	%xmm0, %xmm5
	pand	%xmm2, %xmm5
	pand	%xmm1, %xmm2
	pmullw	%xmm6, %xmm2
	pmullw	%xmm7, %xmm5
	paddw	%xmm3, %xmm5
	paddw	%xmm3, %xmm2
	pmulhuw	%xmm4, %xmm2
	pmulhuw	%xmm4, %xmm5
	psrlw	$8, %xmm1
	psrlw	$8, %xmm0
	pmullw	%xmm7, %xmm0
	pmullw	%xmm6, %xmm1
	paddw	%xmm3, %xmm1
	paddw	%xmm3, %xmm0
	pmulhuw	%xmm4, %xmm0
	pmulhuw	%xmm4, %xmm1
	psllw	$8, %xmm1
	por	%xmm2, %xmm1
	psllw	$8, %xmm0
	por	%xmm5, %xmm0
	movdqu	%xmm1, (%r11,%rdi)
	movdqu	%xmm0, 16(%r11,%rdi)
	addq	$64, %rdi
	decq	%r12
	jne	.LBB_a86660_4
.LBB_a86660_5:
	movq	-16(%rsp), %rax
	cmpq	-120(%rsp), %rax
	je	.LBB_a86660_13
	movq	%r10, %rax
	imulq	-104(%rsp), %rax
	addq	-40(%rsp), %rax
	movq	-56(%rsp), %rsi
	addq	%r10, %rsi
	imulq	-88(%rsp), %rsi
	addq	-48(%rsp), %rsi
	movq	-112(%rsp), %rdi
	leaq	(%rdi,%rax,4), %rdi
	movq	-96(%rsp), %rax
	leaq	(%rax,%rsi,4), %r12
	movq	-64(%rsp), %rax
	addq	%rax, %rdi
	addq	%rax, %r12
	testb	$8, -120(%rsp)
	jne	.LBB_a86660_7
	testb	$4, -120(%rsp)
	jne	.LBB_a86660_9
.LBB_a86660_10:
	cmpl	%r13d, %r14d
	je	.LBB_a86660_13
	jmp	.LBB_a86660_11
	.p2align	4
.LBB_a86660_7:
	movdqu	(%r12), %xmm4
	movdqu	16(%r12), %xmm5
	movdqu	(%rdi), %xmm1
	movdqu	16(%rdi), %xmm0
	movdqa	.LCPI_a86660_0(%rip), %xmm2
	pshufb	%xmm2, %xmm5
	pshufb	%xmm2, %xmm4
	movdqa	.LCPI_a86660_1(%rip), %xmm3
	movdqa	%xmm0, %xmm2
	pand	%xmm3, %xmm2
	pand	%xmm1, %xmm3
	pmullw	%xmm4, %xmm3
	pmullw	%xmm5, %xmm2
	movdqa	.LCPI_a86660_2(%rip), %xmm6
	paddw	%xmm6, %xmm2
	paddw	%xmm6, %xmm3
	movdqa	.LCPI_a86660_3(%rip), %xmm7
	pmulhuw	%xmm7, %xmm3
	pmulhuw	%xmm7, %xmm2
	psrlw	$8, %xmm1
	psrlw	$8, %xmm0
	pmullw	%xmm5, %xmm0
	pmullw	%xmm4, %xmm1
	paddw	%xmm6, %xmm1
	paddw	%xmm6, %xmm0
	pmulhuw	%xmm7, %xmm0
	pmulhuw	%xmm7, %xmm1
	psllw	$8, %xmm1
	por	%xmm3, %xmm1
	psllw	$8, %xmm0
	por	%xmm2, %xmm0
	movdqu	%xmm1, (%rdi)
	movdqu	%xmm0, 16(%rdi)
	testb	$4, -120(%rsp)
	je	.LBB_a86660_10
.LBB_a86660_9:
	movq	-72(%rsp), %rax
	movdqu	(%r12,%rax), %xmm0
	movdqu	(%rdi,%rax), %xmm1
	pshufb	.LCPI_a86660_4(%rip), %xmm0
	movdqa	.LCPI_a86660_1(%rip), %xmm2
	movdqa	%xmm1, %xmm3
	pand	%xmm2, %xmm3
	pand	%xmm0, %xmm2
	pmullw	%xmm3, %xmm2
	movdqa	.LCPI_a86660_2(%rip), %xmm3
	paddw	%xmm3, %xmm2
	movdqa	.LCPI_a86660_3(%rip), %xmm4
	pmulhuw	%xmm4, %xmm2
	psrlw	$8, %xmm1
	psrlw	$8, %xmm0
	pmullw	%xmm1, %xmm0
	paddw	%xmm3, %xmm0
	pmulhuw	%xmm4, %xmm0
	psllw	$8, %xmm0
	por	%xmm2, %xmm0
	movdqu	%xmm0, (%rdi,%rax)
	cmpl	%r13d, %r14d
	je	.LBB_a86660_13
.LBB_a86660_11:
	xorl	%edi, %edi
	.p2align	4
.LBB_a86660_12:
	movzbl	3(%rcx,%rdi,4), %r9d
	movl	(%rdx,%rdi,4), %eax
	movzbl	%ah, %ebp
	movl	%eax, %r12d
	movzbl	%al, %esi
	shrl	$16, %eax
	shrl	$24, %r12d
	imull	%r9d, %esi
	leal	128(%rsi), %ebx
	movzbl	%bh, %ebx
	addl	%esi, %ebx
	addl	$128, %ebx
	movzbl	%bh, %esi
	imull	%r9d, %ebp
	leal	128(%rbp), %ebx
	movzbl	%bh, %ebx
	leal	(%rbx,%rbp), %r15d
	addl	$128, %r15d
	andl	$65280, %r15d
	movzbl	%al, %eax
	imull	%r9d, %eax
	leal	128(%rax), %ebx
	movzbl	%bh, %ebx
	addl	%ebx, %eax
	addl	$128, %eax
	imull	%r9d, %r12d
	leal	128(%r12), %ebx
	movzbl	%bh, %ebx
	leal	(%rbx,%r12), %r9d
	addl	$128, %r9d
	shll	$16, %r9d
	andl	$-16777216, %r9d
	shll	$8, %eax
	andl	$16711680, %eax
	orl	%r9d, %eax
	orl	%r15d, %eax
	orl	%esi, %eax
	movl	%eax, (%rdx,%rdi,4)
	leaq	(%r14,%rdi), %rax
	incq	%rax
	incq	%rdi
	cmpq	%r13, %rax
	jb	.LBB_a86660_12
	jmp	.LBB_a86660_13
.LBB_a86660_14:
	popq	%rbx
	popq	%r12
	popq	%r13
	popq	%r14
	popq	%r15
	popq	%rbp
	retq
.Lfunc_end_a86660:
	.size	"pix_raster::view::blit_overlap::<#118c7942c1302bcc>", .Lfunc_end_a86660-"pix_raster::view::blit_overlap::<#118c7942c1302bcc>"

	.section	.rodata.cst16,"aM",@progbits,16
	.p2align	4, 0x0
.LCPI_995679_0:
	.byte	255
	.byte	0
	.byte	255
	.byte	0
	.byte	255
	.byte	0
	.byte	255
	.byte	0
	.byte	255
	.byte	0
	.byte	255
	.byte	0
	.byte	255
	.byte	0
	.byte	255
	.byte	0
.LCPI_995679_1:
	.short	128
	.short	128
	.short	128
	.short	128
	.short	128
	.short	128
	.short	128
	.short	128
.LCPI_995679_2:
	.zero	16,1
.LCPI_995679_3:
	.byte	3
	.byte	128
	.byte	3
	.byte	128
	.byte	7
	.byte	128
	.byte	7
	.byte	128
	.byte	11
	.byte	128
	.byte	11
	.byte	128
	.byte	15
	.byte	128
	.byte	15
	.byte	128
.LCPI_995679_4:
	.byte	3
	.byte	3
	.byte	3
	.byte	3
	.byte	7
	.byte	7
	.byte	7
	.byte	7
	.byte	11
	.byte	11
	.byte	11
	.byte	11
	.byte	15
	.byte	15
	.byte	15
	.byte	15
	.section	".text.pix_raster::view::blit_overlap::<#d13018cf5d2c8821>","ax",@progbits
	.p2align	4
	.type	"pix_raster::view::blit_overlap::<#d13018cf5d2c8821>",@function
"pix_raster::view::blit_overlap::<#d13018cf5d2c8821>":
	pushq	%rbp
	pushq	%r15
	pushq	%r14
	pushq	%r13
	pushq	%r12
	pushq	%rbx
	subq	$40, %rsp
	movq	%rcx, -112(%rsp)
	movq	%rsi, -88(%rsp)
	movq	%rdi, -96(%rsp)
	movq	24(%r8), %rax
	movq	32(%r8), %rcx
	movq	%rax, -120(%rsp)
	movq	%rcx, (%rsp)
	cmpq	%rcx, %rax
	jae	.LBB_995679_21
	movq	(%r8), %r11
	movq	16(%r8), %rdi
	leaq	(%rdx,%rdi), %rax
	movq	%rax, -32(%rsp)
	movq	8(%r8), %rbx
	movq	40(%r8), %rsi
	subq	%r11, %rbx
	movq	%rsi, %rax
	movq	-120(%rsp), %r10
	subq	%r10, %rax
	movq	%rax, -40(%rsp)
	movq	%rbx, %r13
	shrq	$4, %r13
	movl	%r9d, %r15d
	shrl	$24, %r15d
	movd	%r15d, %xmm0
	pxor	%xmm1, %xmm1
	pshufb	%xmm1, %xmm0
	movdqa	.LCPI_995679_0(%rip), %xmm1
	movdqa	%xmm0, %xmm2
	pand	%xmm1, %xmm2
	psrlw	$8, %xmm0
	movq	%rbx, %r8
	andq	$-16, %r8
	leaq	(,%r8,4), %rbp
	movl	%ebx, %r14d
	andl	$15, %r14d
	movl	%r9d, %eax
	shrl	$8, %eax
	movl	%r9d, %ecx
	shrl	$16, %ecx
	movd	%r9d, %xmm3
	pinsrb	$1, %eax, %xmm3
	pinsrb	$2, %ecx, %xmm3
	pinsrb	$3, %r15d, %xmm3
	pinsrb	$4, %r9d, %xmm3
	pinsrb	$5, %eax, %xmm3
	pinsrb	$6, %ecx, %xmm3
	pinsrb	$7, %r15d, %xmm3
	pinsrb	$8, %r9d, %xmm3
	pinsrb	$9, %eax, %xmm3
	pinsrb	$10, %ecx, %xmm3
	pinsrb	$11, %r15d, %xmm3
	pinsrb	$12, %r9d, %xmm3
	pinsrb	$13, %eax, %xmm3
	pinsrb	$14, %ecx, %xmm3
	movdqa	%xmm3, %xmm4
	pand	%xmm1, %xmm4
	movdqa	%xmm4, 16(%rsp)
	pinsrb	$15, %r15d, %xmm3
	psrlw	$8, %xmm3
	movl	%ebx, %r9d
	andl	$8, %r9d
	movq	%rbx, -104(%rsp)
	andl	$12, %ebx
	imulq	-112(%rsp), %rsi
	addq	%rdi, %rsi
	leaq	(%rdx,%rsi), %r12
	movq	%r8, -72(%rsp)
	addq	%rbx, %r8
	addq	%rdx, %r8
	movq	%r10, %rax
	movq	-88(%rsp), %rdx
	imulq	%rdx, %rax
	addq	%rsi, %r8
	leaq	(%r11,%rax), %rcx
	movq	-96(%rsp), %rsi
	leaq	(%rsi,%rcx,4), %rdi
	movq	%rbp, -48(%rsp)
	leaq	(%rbp,%rax,4), %rax
	movq	%rbx, -80(%rsp)
	leaq	(%rax,%rbx,4), %rax
	movq	%r11, -24(%rsp)
	leaq	(%rax,%r11,4), %r11
	addq	%rsi, %r11
	movq	%r9, -56(%rsp)
	leal	(,%r9,4), %eax
	movq	%rax, -64(%rsp)
	movq	%r13, -8(%rsp)
	leaq	(,%r13,4), %rsi
	leaq	(,%rdx,4), %rax
	movq	%rax, -16(%rsp)
	jmp	.LBB_995679_2
	.p2align	4
.LBB_995679_20:
	movq	-120(%rsp), %rcx
	incq	%rcx
	movq	-112(%rsp), %rax
	addq	%rax, %r12
	movq	8(%rsp), %rdi
	movq	-16(%rsp), %rdx
	addq	%rdx, %rdi
	addq	%rax, %r8
	addq	%rdx, %r11
	movq	%rcx, -120(%rsp)
	cmpq	(%rsp), %rcx
	je	.LBB_995679_21
.LBB_995679_2:
	cmpq	$0, -8(%rsp)
	je	.LBB_995679_8
	xorl	%r9d, %r9d
	movq	%rdi, %rdx
	jmp	.LBB_995679_4
	.p2align	4
.LBB_995679_6:
	movdqa	%xmm5, %xmm10
	pand	%xmm1, %xmm10
	pmullw	%xmm2, %xmm10
	psrlw	$8, %xmm5
	pmullw	%xmm0, %xmm5
	movdqa	.LCPI_995679_1(%rip), %xmm8
	paddw	%xmm8, %xmm10
	movdqa	.LCPI_995679_2(%rip), %xmm9
	pmulhuw	%xmm9, %xmm10
	paddw	%xmm8, %xmm5
	pmulhuw	%xmm9, %xmm5
	psllw	$8, %xmm5
	movdqu	(%rdx), %xmm6
	movdqu	16(%rdx), %xmm13
	movdqu	32(%rdx), %xmm4
	movdqu	48(%rdx), %xmm15
	por	%xmm10, %xmm5
	psrlw	$8, %xmm5
	movdqa	%xmm13, %xmm11
	pand	%xmm1, %xmm11
	movdqa	%xmm6, %xmm7
	pand	%xmm1, %xmm7
	packuswb	%xmm11, %xmm7
	movdqa	%xmm15, %xmm11
	pand	%xmm1, %xmm11
	movdqa	%xmm4, %xmm12
	pand	%xmm1, %xmm12
	packuswb	%xmm11, %xmm12
	movdqa	%xmm12, %xmm14
	psrlw	$8, %xmm14
	movdqa	%xmm7, %xmm11
	psrlw	$8, %xmm11
	packuswb	%xmm14, %xmm11
	movdqa	%xmm11, %xmm14
	psrlw	$8, %xmm14
	pmullw	%xmm5, %xmm14
	paddw	%xmm8, %xmm14
	pmulhuw	%xmm9, %xmm14
	psllw	$8, %xmm14
	pand	%xmm1, %xmm11
	pmullw	%xmm10, %xmm11
	paddw	%xmm8, %xmm11
	pmulhuw	%xmm9, %xmm11
	por	%xmm14, %xmm11
	psrlw	$8, %xmm15
	psrlw	$8, %xmm4
	packuswb	%xmm15, %xmm4
	psrlw	$8, %xmm13
	psrlw	$8, %xmm6
	packuswb	%xmm13, %xmm6
	movdqa	%xmm4, %xmm14
	pand	%xmm1, %xmm14
	movdqa	%xmm6, %xmm13
	pand	%xmm1, %xmm13
	packuswb	%xmm14, %xmm13
	movdqa	%xmm13, %xmm14
	psrlw	$8, %xmm14
	pmullw	%xmm5, %xmm14
	paddw	%xmm8, %xmm14
	pmulhuw	%xmm9, %xmm14
	psllw	$8, %xmm14
	pand	%xmm1, %xmm13
	pmullw	%xmm10, %xmm13
	paddw	%xmm8, %xmm13
	pmulhuw	%xmm9, %xmm13
	por	%xmm14, %xmm13
	pand	%xmm1, %xmm12
	pand	%xmm1, %xmm7
	packuswb	%xmm12, %xmm7
	movdqa	%xmm7, %xmm12
	psrlw	$8, %xmm12
	pmullw	%xmm5, %xmm12
	paddw	%xmm8, %xmm12
	pmulhuw	%xmm9, %xmm12
	psllw	$8, %xmm12
	pand	%xmm1, %xmm7
	pmullw	%xmm10, %xmm7
	paddw	%xmm8, %xmm7
	pmulhuw	%xmm9, %xmm7
	por	%xmm12, %xmm7
	psrlw	$8, %xmm4
	psrlw	$8, %xmm6
	packuswb	%xmm4, %xmm6
	movdqa	%xmm6, %xmm4
	pand	%xmm1, %xmm4
	pmullw	%xmm10, %xmm4
	paddw	%xmm8, %xmm4
	pmulhuw	%xmm9, %xmm4
	psrlw	$8, %xmm6
	pmullw	%xmm5, %xmm6
	paddw	%xmm8, %xmm6
	pmulhuw	%xmm9, %xmm6
	psllw	$8, %xmm6
	por	%xmm4, %xmm6
	movdqa	%xmm7, %xmm4
	punpcklbw	%xmm13, %xmm4
	movdqa	%xmm11, %xmm5
	punpcklbw	%xmm6, %xmm5
	movdqa	%xmm4, %xmm8
	punpckhwd	%xmm5, %xmm8
	punpcklwd	%xmm5, %xmm4
	movdqu	%xmm4, (%rdx)
	movdqu	%xmm8, 16(%rdx)
	punpckhbw	%xmm13, %xmm7
	punpckhbw	%xmm6, %xmm11
	movdqa	%xmm7, %xmm4
	punpckhwd	%xmm11, %xmm4
	punpcklwd	%xmm11, %xmm7
	movdqu	%xmm7, 32(%rdx)
	movdqu	%xmm4, 48(%rdx)
	addq	$4, %r9
	addq	$64, %rdx
	cmpq	%r9, %rsi
	je	.LBB_995679_8
.LBB_995679_4:
	movdqu	(%r12,%r9,4), %xmm5
	ptest	%xmm5, %xmm5
	jne	.LBB_995679_6
	pxor	%xmm5, %xmm5
	movdqu	%xmm5, 48(%rdx)
	movdqu	%xmm5, 32(%rdx)
	movdqu	%xmm5, 16(%rdx)
	movdqu	%xmm5, (%rdx)
	addq	$4, %r9
	addq	$64, %rdx
	cmpq	%r9, %rsi
	jne	.LBB_995679_4
.LBB_995679_8:
	movq	%rdi, 8(%rsp)
	movq	-72(%rsp), %rax
	cmpq	-104(%rsp), %rax
	je	.LBB_995679_20
	movq	-120(%rsp), %rcx
	movq	%rcx, %rax
	imulq	-88(%rsp), %rax
	addq	-24(%rsp), %rax
	movq	-40(%rsp), %rdx
	leaq	(%rdx,%rcx), %r9
	imulq	-112(%rsp), %r9
	addq	-32(%rsp), %r9
	movq	-96(%rsp), %rcx
	leaq	(%rcx,%rax,4), %rdx
	addq	-48(%rsp), %rdx
	addq	-72(%rsp), %r9
	testb	$8, -104(%rsp)
	jne	.LBB_995679_10
	testb	$4, -104(%rsp)
	jne	.LBB_995679_14
.LBB_995679_17:
	cmpl	%r14d, -80(%rsp)
	je	.LBB_995679_20
	jmp	.LBB_995679_18
	.p2align	4
.LBB_995679_10:
	movq	(%r9), %rax
	testq	%rax, %rax
	je	.LBB_995679_11
	movq	%rax, %xmm5
	punpcklbw	%xmm5, %xmm5
	movdqa	%xmm5, %xmm6
	punpckhwd	%xmm5, %xmm6
	punpcklwd	%xmm5, %xmm5
	movdqa	%xmm5, %xmm9
	pand	%xmm1, %xmm9
	movdqa	%xmm6, %xmm10
	pand	%xmm1, %xmm10
	movdqa	16(%rsp), %xmm4
	pmullw	%xmm4, %xmm10
	pmullw	%xmm4, %xmm9
	movdqa	.LCPI_995679_1(%rip), %xmm7
	paddw	%xmm7, %xmm9
	paddw	%xmm7, %xmm10
	movdqa	.LCPI_995679_2(%rip), %xmm8
	pmulhuw	%xmm8, %xmm10
	pmulhuw	%xmm8, %xmm9
	psrlw	$8, %xmm6
	psrlw	$8, %xmm5
	pmullw	%xmm3, %xmm5
	pmullw	%xmm3, %xmm6
	paddw	%xmm7, %xmm6
	paddw	%xmm7, %xmm5
	pmulhuw	%xmm8, %xmm5
	pmulhuw	%xmm8, %xmm6
	psllw	$8, %xmm6
	por	%xmm10, %xmm6
	psllw	$8, %xmm5
	por	%xmm9, %xmm5
	movdqu	(%rdx), %xmm10
	movdqu	16(%rdx), %xmm9
	movdqa	.LCPI_995679_3(%rip), %xmm4
	pshufb	%xmm4, %xmm6
	pshufb	%xmm4, %xmm5
	movdqa	%xmm9, %xmm11
	pand	%xmm1, %xmm11
	movdqa	%xmm10, %xmm12
	pand	%xmm1, %xmm12
	pmullw	%xmm5, %xmm12
	pmullw	%xmm6, %xmm11
	paddw	%xmm7, %xmm11
	paddw	%xmm7, %xmm12
	pmulhuw	%xmm8, %xmm12
	pmulhuw	%xmm8, %xmm11
	psrlw	$8, %xmm10
	psrlw	$8, %xmm9
	pmullw	%xmm6, %xmm9
	pmullw	%xmm5, %xmm10
	paddw	%xmm7, %xmm10
	paddw	%xmm7, %xmm9
	pmulhuw	%xmm8, %xmm9
	pmulhuw	%xmm8, %xmm10
	psllw	$8, %xmm10
	por	%xmm12, %xmm10
	psllw	$8, %xmm9
	por	%xmm11, %xmm9
	movdqu	%xmm10, (%rdx)
	movdqu	%xmm9, 16(%rdx)
	testb	$4, -104(%rsp)
	je	.LBB_995679_17
	jmp	.LBB_995679_14
.LBB_995679_11:
	pxor	%xmm4, %xmm4
	movdqu	%xmm4, 16(%rdx)
	movdqu	%xmm4, (%rdx)
	testb	$4, -104(%rsp)
	je	.LBB_995679_17
	.p2align	4
.LBB_995679_14:
	addq	-64(%rsp), %rdx
	movq	-56(%rsp), %rax
	movl	(%r9,%rax), %eax
	testl	%eax, %eax
	je	.LBB_995679_15
	movd	%eax, %xmm5
	punpcklbw	%xmm5, %xmm5
	punpcklwd	%xmm5, %xmm5
	movdqa	%xmm5, %xmm4
	pand	%xmm1, %xmm4
	pmullw	16(%rsp), %xmm4
	movdqa	.LCPI_995679_1(%rip), %xmm6
	paddw	%xmm6, %xmm4
	movdqa	.LCPI_995679_2(%rip), %xmm7
	pmulhuw	%xmm7, %xmm4
	psrlw	$8, %xmm5
	pmullw	%xmm3, %xmm5
	paddw	%xmm6, %xmm5
	pmulhuw	%xmm7, %xmm5
	psllw	$8, %xmm5
	por	%xmm4, %xmm5
	pshufb	.LCPI_995679_4(%rip), %xmm5
	movdqu	(%rdx), %xmm4
	movdqa	%xmm4, %xmm8
	pand	%xmm1, %xmm8
	movdqa	%xmm5, %xmm9
	pand	%xmm1, %xmm9
	pmullw	%xmm8, %xmm9
	paddw	%xmm6, %xmm9
	pmulhuw	%xmm7, %xmm9
	psrlw	$8, %xmm4
	psrlw	$8, %xmm5
	pmullw	%xmm4, %xmm5
	paddw	%xmm6, %xmm5
	pmulhuw	%xmm7, %xmm5
	psllw	$8, %xmm5
	por	%xmm9, %xmm5
	movdqu	%xmm5, (%rdx)
	cmpl	%r14d, -80(%rsp)
	je	.LBB_995679_20
	jmp	.LBB_995679_18
.LBB_995679_15:
	pxor	%xmm4, %xmm4
	movdqu	%xmm4, (%rdx)
	cmpl	%r14d, -80(%rsp)
	je	.LBB_995679_20
	.p2align	4
.LBB_995679_18:
	xorl	%edx, %edx
	movq	-80(%rsp), %r9
	.p2align	4
.LBB_995679_19:
	movzbl	(%r8,%rdx), %ebp
	movl	(%r11,%rdx,4), %eax
	movzbl	%ah, %edi
	movl	%eax, %r13d
	movzbl	%al, %ecx
	movl	%eax, %r10d
	shrl	$16, %r10d
	shrl	$24, %r13d
	movzwl	%r15w, %eax
	imull	%ebp, %eax
	leal	128(%rax), %ebx
	movzbl	%bh, %ebx
	addl	%ebx, %eax
	addl	$128, %eax
	movzbl	%ah, %ebp
	imull	%ebp, %ecx
	leal	128(%rcx), %eax
	movzbl	%ah, %eax
	addl	%ecx, %eax
	addl	$128, %eax
	movzbl	%ah, %eax
	imull	%ebp, %edi
	leal	128(%rdi), %ecx
	movzbl	%ch, %ecx
	addl	%ecx, %edi
	addl	$128, %edi
	andl	$65280, %edi
	movzbl	%r10b, %ecx
	imull	%ebp, %ecx
	leal	128(%rcx), %ebx
	movzbl	%bh, %ebx
	addl	%ebx, %ecx
	addl	$128, %ecx
	imull	%ebp, %r13d
	leal	128(%r13), %ebx
	movzbl	%bh, %ebx
	leal	(%rbx,%r13), %r10d
	addl	$128, %r10d
	shll	$16, %r10d
	andl	$-16777216, %r10d
	shll	$8, %ecx
	andl	$16711680, %ecx
	orl	%r10d, %ecx
	orl	%edi, %ecx
	orl	%eax, %ecx
	movl	%ecx, (%r11,%rdx,4)
	incq	%r9
	incq	%rdx
	cmpq	%r14, %r9
	jb	.LBB_995679_19
	jmp	.LBB_995679_20
.LBB_995679_21:
	addq	$40, %rsp
	popq	%rbx
	popq	%r12
	popq	%r13
	popq	%r14
	popq	%r15
	popq	%rbp
	retq
.Lfunc_end_995679:
	.size	"pix_raster::view::blit_overlap::<#d13018cf5d2c8821>", .Lfunc_end_995679-"pix_raster::view::blit_overlap::<#d13018cf5d2c8821>"

	.section	.rodata.cst16,"aM",@progbits,16
	.p2align	4, 0x0
.LCPI_c0493c_0:
	.byte	255
	.byte	0
	.byte	255
	.byte	0
	.byte	255
	.byte	0
	.byte	255
	.byte	0
	.byte	255
	.byte	0
	.byte	255
	.byte	0
	.byte	255
	.byte	0
	.byte	255
	.byte	0
.LCPI_c0493c_1:
	.short	128
	.short	128
	.short	128
	.short	128
	.short	128
	.short	128
	.short	128
	.short	128
.LCPI_c0493c_2:
	.zero	16,1
.LCPI_c0493c_3:
	.byte	3
	.byte	128
	.byte	3
	.byte	128
	.byte	7
	.byte	128
	.byte	7
	.byte	128
	.byte	11
	.byte	128
	.byte	11
	.byte	128
	.byte	15
	.byte	128
	.byte	15
	.byte	128
.LCPI_c0493c_4:
	.byte	3
	.byte	3
	.byte	3
	.byte	3
	.byte	7
	.byte	7
	.byte	7
	.byte	7
	.byte	11
	.byte	11
	.byte	11
	.byte	11
	.byte	15
	.byte	15
	.byte	15
	.byte	15
	.section	".text.pix_raster::view::blit_overlap::<#b96d0594766ff04b>","ax",@progbits
	.p2align	4
	.type	"pix_raster::view::blit_overlap::<#b96d0594766ff04b>",@function
"pix_raster::view::blit_overlap::<#b96d0594766ff04b>":
	pushq	%rbp
	pushq	%r15
	pushq	%r14
	pushq	%r13
	pushq	%r12
	pushq	%rbx
	pushq	%rax
	movq	%rcx, -80(%rsp)
	movq	%rdx, -88(%rsp)
	movq	%rsi, -96(%rsp)
	movq	%rdi, -104(%rsp)
	movq	24(%r8), %rax
	movq	32(%r8), %rcx
	movq	%rax, -128(%rsp)
	movq	%rcx, (%rsp)
	cmpq	%rcx, %rax
	jae	.LBB_c0493c_14
	movq	(%r8), %r11
	movq	16(%r8), %r15
	movq	8(%r8), %r12
	movq	40(%r8), %rcx
	subq	%r11, %r12
	movq	%rcx, %rax
	movq	-128(%rsp), %rdx
	subq	%rdx, %rax
	movq	%rax, -48(%rsp)
	movq	%r12, %rax
	shrq	$4, %rax
	movq	%rax, -72(%rsp)
	movzbl	%r9b, %eax
	movl	%eax, -108(%rsp)
	movd	%eax, %xmm0
	pxor	%xmm1, %xmm1
	pshufb	%xmm1, %xmm0
	movdqa	.LCPI_c0493c_0(%rip), %xmm1
	pand	%xmm0, %xmm1
	psrlw	$8, %xmm0
	movq	%r12, %rax
	andq	$-16, %rax
	movq	%rax, -8(%rsp)
	leaq	(,%rax,4), %r9
	movl	%r12d, %r13d
	andl	$15, %r13d
	leal	(,%r12,4), %eax
	movl	%eax, %esi
	andl	$32, %esi
	movq	%rsi, -64(%rsp)
	movq	-96(%rsp), %r10
	imulq	%r10, %rdx
	leaq	(,%r11,4), %rsi
	leaq	(%rsi,%rdx,4), %rbx
	movq	-80(%rsp), %rdi
	imulq	%rdi, %rcx
	leaq	(,%r15,4), %rsi
	leaq	(%rsi,%rcx,4), %r8
	leaq	(%r9,%rcx,4), %rcx
	andl	$48, %eax
	addq	%rax, %rcx
	movq	%r9, -56(%rsp)
	leaq	(%r9,%rdx,4), %rdx
	addq	%rax, %rdx
	movq	%r12, -120(%rsp)
	andl	$12, %r12d
	movq	-104(%rsp), %rsi
	addq	%rsi, %rbx
	movq	-88(%rsp), %rax
	addq	%rax, %r8
	movq	%r15, -40(%rsp)
	leaq	(%rcx,%r15,4), %r15
	addq	%rax, %r15
	movq	%r11, -32(%rsp)
	leaq	(%rdx,%r11,4), %r9
	addq	%rsi, %r9
	leaq	(,%r10,4), %rax
	movq	%rax, -16(%rsp)
	leaq	(,%rdi,4), %rax
	movq	%rax, -24(%rsp)
	movq	%r13, %rdi
	jmp	.LBB_c0493c_2
	.p2align	4
.LBB_c0493c_13:
	movq	-128(%rsp), %rax
	incq	%rax
	movq	-16(%rsp), %rcx
	addq	%rcx, %rbx
	movq	-24(%rsp), %rdx
	addq	%rdx, %r8
	addq	%rdx, %r15
	addq	%rcx, %r9
	movq	%rax, -128(%rsp)
	cmpq	(%rsp), %rax
	je	.LBB_c0493c_14
.LBB_c0493c_2:
	cmpq	$0, -72(%rsp)
	je	.LBB_c0493c_5
	movl	$32, %r13d
	movq	-72(%rsp), %r11
	.p2align	4
.LBB_c0493c_4:
	movdqu	-32(%r8,%r13), %xmm8
	movdqu	-16(%r8,%r13), %xmm9
	movdqa	.LCPI_c0493c_0(%rip), %xmm2
	movdqa	%xmm8, %xmm5
	pand	%xmm2, %xmm5
	movdqa	%xmm9, %xmm6
	pand	%xmm2, %xmm6
	pmullw	%xmm1, %xmm6
	pmullw	%xmm1, %xmm5
	movdqa	.LCPI_c0493c_1(%rip), %xmm3
	paddw	%xmm3, %xmm5
	paddw	%xmm3, %xmm6
	movdqa	.LCPI_c0493c_2(%rip), %xmm4
	pmulhuw	%xmm4, %xmm6
	pmulhuw	%xmm4, %xmm5
	psrlw	$8, %xmm9
	psrlw	$8, %xmm8
	pmullw	%xmm0, %xmm8
	pmullw	%xmm0, %xmm9
	paddw	%xmm3, %xmm9
	paddw	%xmm3, %xmm8
	pmulhuw	%xmm4, %xmm8
	pmulhuw	%xmm4, %xmm9
	psllw	$8, %xmm9
	por	%xmm6, %xmm9
	psllw	$8, %xmm8
	por	%xmm5, %xmm8
	movdqa	.LCPI_c0493c_3(%rip), %xmm7
	pshufb	%xmm7, %xmm9
	pshufb	%xmm7, %xmm8
	movdqu	-32(%rbx,%r13), %xmm11
	movdqu	-16(%rbx,%r13), %xmm10
	movdqu	(%rbx,%r13), %xmm6
	movdqu	16(%rbx,%r13), %xmm5
	movdqa	%xmm10, %xmm12
	pand	%xmm2, %xmm12
	movdqa	%xmm11, %xmm13
	pand	%xmm2, %xmm13
	pmullw	%xmm8, %xmm13
	pmullw	%xmm9, %xmm12
	paddw	%xmm3, %xmm12
	paddw	%xmm3, %xmm13
	pmulhuw	%xmm4, %xmm13
	pmulhuw	%xmm4, %xmm12
	psrlw	$8, %xmm11
	psrlw	$8, %xmm10
	pmullw	%xmm9, %xmm10
	pmullw	%xmm8, %xmm11
	paddw	%xmm3, %xmm11
	paddw	%xmm3, %xmm10
	pmulhuw	%xmm4, %xmm10
	pmulhuw	%xmm4, %xmm11
	psllw	$8, %xmm11
	por	%xmm13, %xmm11
	psllw	$8, %xmm10
	por	%xmm12, %xmm10
	movdqu	%xmm11, -32(%rbx,%r13)
	movdqu	%xmm10, -16(%rbx,%r13)
	movdqu	(%r8,%r13), %xmm8
	movdqu	16(%r8,%r13), %xmm9
	movdqa	%xmm8, %xmm10
	pand	%xmm2, %xmm10
	movdqa	%xmm9, %xmm11
	pand	%xmm2, %xmm11
	pmullw	%xmm1, %xmm11
	pmullw	%xmm1, %xmm10
	paddw	%xmm3, %xmm10
	paddw	%xmm3, %xmm11
	pmulhuw	%xmm4, %xmm11
	pmulhuw	%xmm4, %xmm10
	psrlw	$8, %xmm9
	psrlw	$8, %xmm8
	pmullw	%xmm0, %xmm8
	pmullw	%xmm0, %xmm9
	paddw	%xmm3, %xmm9
	paddw	%xmm3, %xmm8
	pmulhuw	%xmm4, %xmm8
	pmulhuw	%xmm4, %xmm9
	psllw	$8, %xmm9
	por	%xmm11, %xmm9
	psllw	$8, %xmm8
	por	%xmm10, %xmm8
	pshufb	%xmm7, %xmm9
	pshufb	%xmm7, %xmm8
	movdqa	%xmm5, %xmm7
	pand	%xmm2, %xmm7
	pand	%xmm6, %xmm2
	pmullw	%xmm8, %xmm2
	pmullw	%xmm9, %xmm7
	paddw	%xmm3, %xmm7
	paddw	%xmm3, %xmm2
	pmulhuw	%xmm4, %xmm2
	pmulhuw	%xmm4, %xmm7
	psrlw	$8, %xmm6
	psrlw	$8, %xmm5
	pmullw	%xmm9, %xmm5
	pmullw	%xmm8, %xmm6
	paddw	%xmm3, %xmm6
	paddw	%xmm3, %xmm5
	pmulhuw	%xmm4, %xmm5
	pmulhuw	%xmm4, %xmm6
	psllw	$8, %xmm6
	por	%xmm2, %xmm6
	psllw	$8, %xmm5
	por	%xmm7, %xmm5
	movdqu	%xmm6, (%rbx,%r13)
	movdqu	%xmm5, 16(%rbx,%r13)
	addq	$64, %r13
	decq	%r11
	jne	.LBB_c0493c_4
.LBB_c0493c_5:
	movq	-8(%rsp), %rax
	cmpq	-120(%rsp), %rax
	je	.LBB_c0493c_13
	movq	-128(%rsp), %rcx
	movq	%rcx, %rax
	imulq	-96(%rsp), %rax
	addq	-32(%rsp), %rax
	movq	-48(%rsp), %rdx
	leaq	(%rdx,%rcx), %rsi
	imulq	-80(%rsp), %rsi
	addq	-40(%rsp), %rsi
	movq	-104(%rsp), %rcx
	leaq	(%rcx,%rax,4), %r11
	movq	-88(%rsp), %rax
	leaq	(%rax,%rsi,4), %r13
	movq	-56(%rsp), %rax
	addq	%rax, %r11
	addq	%rax, %r13
	testb	$8, -120(%rsp)
	jne	.LBB_c0493c_7
	testb	$4, -120(%rsp)
	jne	.LBB_c0493c_9
.LBB_c0493c_10:
	cmpl	%edi, %r12d
	movl	-108(%rsp), %ebp
	je	.LBB_c0493c_13
	jmp	.LBB_c0493c_11
	.p2align	4
.LBB_c0493c_7:
	movdqu	(%r13), %xmm3
	movdqu	16(%r13), %xmm4
	movdqa	.LCPI_c0493c_0(%rip), %xmm2
	movdqa	%xmm3, %xmm7
	pand	%xmm2, %xmm7
	movdqa	%xmm4, %xmm8
	pand	%xmm2, %xmm8
	pmullw	%xmm1, %xmm8
	pmullw	%xmm1, %xmm7
	movdqa	.LCPI_c0493c_1(%rip), %xmm5
	paddw	%xmm5, %xmm7
	paddw	%xmm5, %xmm8
	movdqa	.LCPI_c0493c_2(%rip), %xmm6
	pmulhuw	%xmm6, %xmm8
	pmulhuw	%xmm6, %xmm7
	psrlw	$8, %xmm4
	psrlw	$8, %xmm3
	pmullw	%xmm0, %xmm3
	pmullw	%xmm0, %xmm4
	paddw	%xmm5, %xmm4
	paddw	%xmm5, %xmm3
	pmulhuw	%xmm6, %xmm3
	pmulhuw	%xmm6, %xmm4
	psllw	$8, %xmm4
	por	%xmm8, %xmm4
	psllw	$8, %xmm3
	por	%xmm7, %xmm3
	movdqu	(%r11), %xmm8
	movdqu	16(%r11), %xmm7
	movdqa	.LCPI_c0493c_3(%rip), %xmm9
	pshufb	%xmm9, %xmm4
	pshufb	%xmm9, %xmm3
	movdqa	%xmm7, %xmm9
	pand	%xmm2, %xmm9
	pand	%xmm8, %xmm2
	pmullw	%xmm3, %xmm2
	pmullw	%xmm4, %xmm9
	paddw	%xmm5, %xmm9
	paddw	%xmm5, %xmm2
	pmulhuw	%xmm6, %xmm2
	pmulhuw	%xmm6, %xmm9
	psrlw	$8, %xmm8
	psrlw	$8, %xmm7
	pmullw	%xmm4, %xmm7
	pmullw	%xmm3, %xmm8
	paddw	%xmm5, %xmm8
	paddw	%xmm5, %xmm7
	pmulhuw	%xmm6, %xmm7
	pmulhuw	%xmm6, %xmm8
	psllw	$8, %xmm8
	por	%xmm2, %xmm8
	psllw	$8, %xmm7
	por	%xmm9, %xmm7
	movdqu	%xmm8, (%r11)
	movdqu	%xmm7, 16(%r11)
	testb	$4, -120(%rsp)
	je	.LBB_c0493c_10
.LBB_c0493c_9:
	movq	-64(%rsp), %rax
	movdqu	(%r13,%rax), %xmm2
	movdqa	.LCPI_c0493c_0(%rip), %xmm3
	movdqa	%xmm2, %xmm6
	pand	%xmm3, %xmm6
	pmullw	%xmm1, %xmm6
	movdqa	.LCPI_c0493c_1(%rip), %xmm4
	paddw	%xmm4, %xmm6
	movdqa	.LCPI_c0493c_2(%rip), %xmm5
	pmulhuw	%xmm5, %xmm6
	psrlw	$8, %xmm2
	pmullw	%xmm0, %xmm2
	paddw	%xmm4, %xmm2
	pmulhuw	%xmm5, %xmm2
	psllw	$8, %xmm2
	por	%xmm6, %xmm2
	movdqu	(%r11,%rax), %xmm6
	pshufb	.LCPI_c0493c_4(%rip), %xmm2
	movdqa	%xmm6, %xmm7
	pand	%xmm3, %xmm7
	pand	%xmm2, %xmm3
	pmullw	%xmm7, %xmm3
	paddw	%xmm4, %xmm3
	pmulhuw	%xmm5, %xmm3
	psrlw	$8, %xmm6
	psrlw	$8, %xmm2
	pmullw	%xmm6, %xmm2
	paddw	%xmm4, %xmm2
	pmulhuw	%xmm5, %xmm2
	psllw	$8, %xmm2
	por	%xmm3, %xmm2
	movdqu	%xmm2, (%r11,%rax)
	cmpl	%edi, %r12d
	movl	-108(%rsp), %ebp
	je	.LBB_c0493c_13
.LBB_c0493c_11:
	xorl	%r11d, %r11d
	.p2align	4
.LBB_c0493c_12:
	movq	%rdi, %r14
	movzbl	3(%r15,%r11,4), %edi
	movl	(%r9,%r11,4), %eax
	movzbl	%ah, %esi
	movl	%eax, %r13d
	movq	%r15, %rdx
	movzbl	%al, %r15d
	movl	%eax, %r10d
	shrl	$16, %r10d
	shrl	$24, %r13d
	movzwl	%bp, %eax
	imull	%edi, %eax
	leal	128(%rax), %ecx
	movzbl	%ch, %ecx
	addl	%ecx, %eax
	addl	$128, %eax
	movzbl	%ah, %eax
	imull	%eax, %r15d
	leal	128(%r15), %ecx
	movzbl	%ch, %ecx
	addl	%r15d, %ecx
	addl	$128, %ecx
	movq	%rdx, %r15
	movzbl	%ch, %edi
	imull	%eax, %esi
	leal	128(%rsi), %ecx
	movzbl	%ch, %ecx
	addl	%ecx, %esi
	addl	$128, %esi
	andl	$65280, %esi
	movzbl	%r10b, %ecx
	imull	%eax, %ecx
	leal	128(%rcx), %edx
	movzbl	%dh, %edx
	addl	%edx, %ecx
	addl	$128, %ecx
	imull	%eax, %r13d
	leal	128(%r13), %eax
	movzbl	%ah, %eax
	addl	%r13d, %eax
	addl	$128, %eax
	shll	$16, %eax
	andl	$-16777216, %eax
	shll	$8, %ecx
	andl	$16711680, %ecx
	orl	%eax, %ecx
	orl	%esi, %ecx
	orl	%edi, %ecx
	movq	%r14, %rdi
	movl	%ecx, (%r9,%r11,4)
	leaq	(%r12,%r11), %rax
	incq	%rax
	incq	%r11
	cmpq	%r14, %rax
	jb	.LBB_c0493c_12
	jmp	.LBB_c0493c_13
.LBB_c0493c_14:
	addq	$8, %rsp
	popq	%rbx
	popq	%r12
	popq	%r13
	popq	%r14
	popq	%r15
	popq	%rbp
	retq
.Lfunc_end_c0493c:
	.size	"pix_raster::view::blit_overlap::<#b96d0594766ff04b>", .Lfunc_end_c0493c-"pix_raster::view::blit_overlap::<#b96d0594766ff04b>"

	.section	.rodata.cst16,"aM",@progbits,16
	.p2align	4, 0x0
.LCPI_e9714c_0:
	.byte	3
	.byte	128
	.byte	3
	.byte	128
	.byte	7
	.byte	128
	.byte	7
	.byte	128
	.byte	11
	.byte	128
	.byte	11
	.byte	128
	.byte	15
	.byte	128
	.byte	15
	.byte	128
.LCPI_e9714c_1:
	.byte	255
	.byte	0
	.byte	255
	.byte	0
	.byte	255
	.byte	0
	.byte	255
	.byte	0
	.byte	255
	.byte	0
	.byte	255
	.byte	0
	.byte	255
	.byte	0
	.byte	255
	.byte	0
.LCPI_e9714c_2:
	.short	128
	.short	128
	.short	128
	.short	128
	.short	128
	.short	128
	.short	128
	.short	128
.LCPI_e9714c_3:
	.zero	16,1
.LCPI_e9714c_4:
	.byte	3
	.byte	3
	.byte	3
	.byte	3
	.byte	7
	.byte	7
	.byte	7
	.byte	7
	.byte	11
	.byte	11
	.byte	11
	.byte	11
	.byte	15
	.byte	15
	.byte	15
	.byte	15
.LCPI_e9714c_5:
	.short	128
	.short	128
	.short	128
	.short	128
	.zero	2
	.zero	2
	.zero	2
	.zero	2
.LCPI_e9714c_6:
	.long	65536
	.long	16777216
	.long	256
	.long	1
	.section	".text.pix_raster::view::blit_overlap::<#d408076b946df4a1>","ax",@progbits
	.p2align	4
	.type	"pix_raster::view::blit_overlap::<#d408076b946df4a1>",@function
"pix_raster::view::blit_overlap::<#d408076b946df4a1>":
	pushq	%rbp
	pushq	%r15
	pushq	%r14
	pushq	%r13
	pushq	%r12
	pushq	%rbx
	movq	%rcx, -88(%rsp)
	movq	%rdx, -96(%rsp)
	movq	%rsi, -104(%rsp)
	movq	%rdi, -112(%rsp)
	movq	24(%r8), %rax
	movq	32(%r8), %rcx
	movq	%rax, -128(%rsp)
	movq	%rcx, -8(%rsp)
	cmpq	%rcx, %rax
	jae	.LBB_e9714c_14
	movq	(%r8), %rbx
	movq	16(%r8), %r15
	movq	8(%r8), %r14
	movq	40(%r8), %rax
	subq	%rbx, %r14
	movq	%rax, %rcx
	movq	-128(%rsp), %rdx
	subq	%rdx, %rcx
	movq	%rcx, -56(%rsp)
	movq	%r14, %rcx
	shrq	$4, %rcx
	movq	%rcx, -80(%rsp)
	movq	%r14, %rcx
	andq	$-16, %rcx
	movq	%rcx, -16(%rsp)
	leaq	(,%rcx,4), %r12
	movl	%r14d, %r13d
	andl	$15, %r13d
	leal	(,%r14,4), %ecx
	movl	%ecx, %esi
	andl	$32, %esi
	movq	%rsi, -72(%rsp)
	movq	%r14, -120(%rsp)
	andl	$12, %r14d
	movq	-104(%rsp), %r9
	imulq	%r9, %rdx
	leaq	(,%rbx,4), %rsi
	leaq	(%rsi,%rdx,4), %r11
	movq	-112(%rsp), %r10
	addq	%r10, %r11
	movq	-88(%rsp), %rdi
	imulq	%rdi, %rax
	leaq	(,%r15,4), %rsi
	leaq	(%rsi,%rax,4), %r8
	leaq	(%r12,%rax,4), %rax
	andl	$48, %ecx
	addq	%rcx, %rax
	movq	%r12, -64(%rsp)
	leaq	(%r12,%rdx,4), %rdx
	addq	%rcx, %rdx
	leaq	(,%r9,4), %rcx
	movq	%rcx, -24(%rsp)
	movq	-96(%rsp), %rcx
	addq	%rcx, %r8
	movq	%r15, -48(%rsp)
	leaq	(%rax,%r15,4), %r9
	addq	%rcx, %r9
	movq	%rbx, -40(%rsp)
	leaq	(%rdx,%rbx,4), %rdx
	addq	%r10, %rdx
	leaq	(,%rdi,4), %rax
	movq	%rax, -32(%rsp)
	jmp	.LBB_e9714c_2
	.p2align	4
.LBB_e9714c_13:
	movq	-128(%rsp), %rax
	incq	%rax
	movq	-24(%rsp), %rcx
	addq	%rcx, %r11
	movq	-32(%rsp), %rsi
	addq	%rsi, %r8
	addq	%rsi, %r9
	addq	%rcx, %rdx
	movq	%rax, -128(%rsp)
	cmpq	-8(%rsp), %rax
	je	.LBB_e9714c_14
.LBB_e9714c_2:
	cmpq	$0, -80(%rsp)
	je	.LBB_e9714c_5
	movl	$32, %edi
	movq	-80(%rsp), %r12
	.p2align	4
.LBB_e9714c_4:
	movdqu	-32(%r8,%rdi), %xmm6
	movdqu	-16(%r8,%rdi), %xmm10
	movdqu	-32(%r11,%rdi), %xmm7
	movdqu	-16(%r11,%rdi), %xmm8
	movdqa	.LCPI_e9714c_0(%rip), %xmm5
	movdqa	%xmm7, %xmm2
	pshufb	%xmm5, %xmm2
	movdqa	%xmm8, %xmm1
	pshufb	%xmm5, %xmm1
	movdqa	%xmm10, %xmm4
	movdqa	%xmm6, %xmm9
	movdqa	.LCPI_e9714c_1(%rip), %xmm0
	movdqa	%xmm6, %xmm11
	pand	%xmm0, %xmm11
	movdqa	%xmm10, %xmm3
	pand	%xmm0, %xmm3
	pmullw	%xmm1, %xmm3
	pmullw	%xmm2, %xmm11
	psrlw	$8, %xmm6
	pmullw	%xmm2, %xmm6
	movdqa	.LCPI_e9714c_2(%rip), %xmm2
	paddw	%xmm2, %xmm3
	psrlw	$8, %xmm10
	pmullw	%xmm1, %xmm10
	movdqa	.LCPI_e9714c_3(%rip), %xmm1
	pmulhuw	%xmm1, %xmm3
	paddw	%xmm2, %xmm10
	pmulhuw	%xmm1, %xmm10
	psllw	$8, %xmm10
	por	%xmm3, %xmm10
	pcmpeqd	%xmm3, %xmm3
	pxor	%xmm3, %xmm4
	pxor	%xmm3, %xmm9
	pshufb	%xmm5, %xmm9
	pshufb	%xmm5, %xmm4
	paddw	%xmm2, %xmm11
	pmulhuw	%xmm1, %xmm11
	paddw	%xmm2, %xmm6
	pmulhuw	%xmm1, %xmm6
	psllw	$8, %xmm6
	por	%xmm11, %xmm6
	movdqa	%xmm7, %xmm11
	pand	%xmm0, %xmm11
	pmullw	%xmm9, %xmm11
	psrlw	$8, %xmm7
	pmullw	%xmm9, %xmm7
	movdqa	%xmm8, %xmm9
	pand	%xmm0, %xmm9
	pmullw	%xmm4, %xmm9
	psrlw	$8, %xmm8
	pmullw	%xmm4, %xmm8
	movdqu	(%r11,%rdi), %xmm4
	paddw	%xmm2, %xmm9
	pmulhuw	%xmm1, %xmm9
	paddw	%xmm2, %xmm8
	pmulhuw	%xmm1, %xmm8
	psllw	$8, %xmm8
	por	%xmm9, %xmm8
	movdqu	16(%r11,%rdi), %xmm9
	paddw	%xmm2, %xmm11
	pmulhuw	%xmm1, %xmm11
	paddw	%xmm2, %xmm7
	pmulhuw	%xmm1, %xmm7
	paddusb	%xmm10, %xmm8
	psllw	$8, %xmm7
	por	%xmm11, %xmm7
	paddusb	%xmm6, %xmm7
	movdqu	%xmm7, -32(%r11,%rdi)
	movdqu	%xmm8, -16(%r11,%rdi)
	movdqu	(%r8,%rdi), %xmm6
	movdqu	16(%r8,%rdi), %xmm7
	movdqa	%xmm4, %xmm11
	pshufb	%xmm5, %xmm11
	movdqa	%xmm9, %xmm10
	pshufb	%xmm5, %xmm10
	movdqa	%xmm7, %xmm8
	pxor	%xmm3, %xmm8
	pxor	%xmm6, %xmm3
	pshufb	%xmm5, %xmm3
	pshufb	%xmm5, %xmm8
	movdqa	%xmm6, %xmm5
	pand	%xmm0, %xmm5
	pmullw	%xmm11, %xmm5
	psrlw	$8, %xmm6
	pmullw	%xmm11, %xmm6
	movdqa	%xmm7, %xmm11
	pand	%xmm0, %xmm11
	pmullw	%xmm10, %xmm11
	psrlw	$8, %xmm7
	pmullw	%xmm10, %xmm7
	paddw	%xmm2, %xmm11
	pmulhuw	%xmm1, %xmm11
	paddw	%xmm2, %xmm7
	pmulhuw	%xmm1, %xmm7
	psllw	$8, %xmm7
	por	%xmm11, %xmm7
	paddw	%xmm2, %xmm5
	pmulhuw	%xmm1, %xmm5
	paddw	%xmm2, %xmm6
	pmulhuw	%xmm1, %xmm6
	psllw	$8, %xmm6
	por	%xmm5, %xmm6
	movdqa	%xmm4, %xmm5
	pand	%xmm0, %xmm5
	pmullw	%xmm3, %xmm5
	psrlw	$8, %xmm4
	pmullw	%xmm3, %xmm4
	pand	%xmm9, %xmm0
	pmullw	%xmm8, %xmm0
	psrlw	$8, %xmm9
	pmullw	%xmm8, %xmm9
	paddw	%xmm2, %xmm5
	paddw	%xmm2, %xmm0
	paddw	%xmm2, %xmm9
	paddw	%xmm2, %xmm4
	pmulhuw	%xmm1, %xmm0
	pmulhuw	%xmm1, %xmm5
	pmulhuw	%xmm1, %xmm4
	pmulhuw	%xmm1, %xmm9
	psllw	$8, %xmm9
	por	%xmm0, %xmm9
	paddusb	%xmm7, %xmm9
	psllw	$8, %xmm4
	por	%xmm5, %xmm4
	paddusb	%xmm6, %xmm4
	movdqu	%xmm4, (%r11,%rdi)
	movdqu	%xmm9, 16(%r11,%rdi)
	addq	$64, %rdi
	decq	%r12
	jne	.LBB_e9714c_4
.LBB_e9714c_5:
	movq	-16(%rsp), %rax
	cmpq	-120(%rsp), %rax
	je	.LBB_e9714c_13
	movq	-128(%rsp), %rcx
	movq	%rcx, %rax
	imulq	-104(%rsp), %rax
	addq	-40(%rsp), %rax
	movq	-56(%rsp), %rsi
	addq	%rcx, %rsi
	imulq	-88(%rsp), %rsi
	addq	-48(%rsp), %rsi
	movq	-112(%rsp), %rcx
	leaq	(%rcx,%rax,4), %rdi
	movq	-96(%rsp), %rax
	leaq	(%rax,%rsi,4), %r12
	movq	-64(%rsp), %rax
	addq	%rax, %rdi
	addq	%rax, %r12
	testb	$8, -120(%rsp)
	jne	.LBB_e9714c_7
	testb	$4, -120(%rsp)
	jne	.LBB_e9714c_9
.LBB_e9714c_10:
	cmpl	%r13d, %r14d
	je	.LBB_e9714c_13
	jmp	.LBB_e9714c_11
	.p2align	4
.LBB_e9714c_7:
	movdqu	(%r12), %xmm0
	movdqu	16(%r12), %xmm3
	movdqu	(%rdi), %xmm1
	movdqu	16(%rdi), %xmm2
	movdqa	.LCPI_e9714c_0(%rip), %xmm4
	movdqa	%xmm1, %xmm10
	pshufb	%xmm4, %xmm10
	movdqa	%xmm2, %xmm11
	pshufb	%xmm4, %xmm11
	pcmpeqd	%xmm6, %xmm6
	movdqa	%xmm3, %xmm5
	pxor	%xmm6, %xmm5
	pxor	%xmm0, %xmm6
	pshufb	%xmm4, %xmm6
	pshufb	%xmm4, %xmm5
	movdqa	.LCPI_e9714c_1(%rip), %xmm4
	movdqa	%xmm0, %xmm9
	pand	%xmm4, %xmm9
	movdqa	%xmm3, %xmm12
	pand	%xmm4, %xmm12
	pmullw	%xmm11, %xmm12
	pmullw	%xmm10, %xmm9
	movdqa	.LCPI_e9714c_2(%rip), %xmm7
	paddw	%xmm7, %xmm9
	paddw	%xmm7, %xmm12
	movdqa	.LCPI_e9714c_3(%rip), %xmm8
	pmulhuw	%xmm8, %xmm12
	pmulhuw	%xmm8, %xmm9
	psrlw	$8, %xmm3
	psrlw	$8, %xmm0
	pmullw	%xmm10, %xmm0
	pmullw	%xmm11, %xmm3
	paddw	%xmm7, %xmm3
	paddw	%xmm7, %xmm0
	pmulhuw	%xmm8, %xmm0
	pmulhuw	%xmm8, %xmm3
	psllw	$8, %xmm3
	por	%xmm12, %xmm3
	psllw	$8, %xmm0
	por	%xmm9, %xmm0
	movdqa	%xmm1, %xmm9
	pand	%xmm4, %xmm9
	pand	%xmm2, %xmm4
	pmullw	%xmm5, %xmm4
	pmullw	%xmm6, %xmm9
	paddw	%xmm7, %xmm9
	paddw	%xmm7, %xmm4
	pmulhuw	%xmm8, %xmm4
	pmulhuw	%xmm8, %xmm9
	psrlw	$8, %xmm2
	psrlw	$8, %xmm1
	pmullw	%xmm6, %xmm1
	pmullw	%xmm5, %xmm2
	paddw	%xmm7, %xmm2
	paddw	%xmm7, %xmm1
	pmulhuw	%xmm8, %xmm1
	pmulhuw	%xmm8, %xmm2
	psllw	$8, %xmm2
	por	%xmm4, %xmm2
	paddusb	%xmm3, %xmm2
	psllw	$8, %xmm1
	por	%xmm9, %xmm1
	paddusb	%xmm0, %xmm1
	movdqu	%xmm1, (%rdi)
	movdqu	%xmm2, 16(%rdi)
	testb	$4, -120(%rsp)
	je	.LBB_e9714c_10
.LBB_e9714c_9:
	movq	-72(%rsp), %rax
	movdqu	(%r12,%rax), %xmm1
	movdqu	(%rdi,%rax), %xmm3
	pcmpeqd	%xmm0, %xmm0
	movdqa	.LCPI_e9714c_4(%rip), %xmm7
	movdqa	%xmm3, %xmm2
	pshufb	%xmm7, %xmm2
	movdqa	.LCPI_e9714c_1(%rip), %xmm6
	movdqa	%xmm1, %xmm4
	pand	%xmm6, %xmm4
	movdqa	%xmm2, %xmm8
	pand	%xmm6, %xmm8
	pmullw	%xmm4, %xmm8
	movdqa	.LCPI_e9714c_2(%rip), %xmm4
	paddw	%xmm4, %xmm8
	movdqa	.LCPI_e9714c_3(%rip), %xmm5
	pmulhuw	%xmm5, %xmm8
	movdqa	%xmm1, %xmm9
	psrlw	$8, %xmm9
	psrlw	$8, %xmm2
	pmullw	%xmm9, %xmm2
	paddw	%xmm4, %xmm2
	pmulhuw	%xmm5, %xmm2
	psllw	$8, %xmm2
	por	%xmm8, %xmm2
	pshufb	%xmm7, %xmm1
	pxor	%xmm1, %xmm0
	movdqa	%xmm3, %xmm7
	pand	%xmm6, %xmm7
	pandn	%xmm6, %xmm1
	pmullw	%xmm7, %xmm1
	paddw	%xmm4, %xmm1
	pmulhuw	%xmm5, %xmm1
	psrlw	$8, %xmm3
	psrlw	$8, %xmm0
	pmullw	%xmm3, %xmm0
	paddw	%xmm4, %xmm0
	pmulhuw	%xmm5, %xmm0
	psllw	$8, %xmm0
	por	%xmm1, %xmm0
	paddusb	%xmm2, %xmm0
	movdqu	%xmm0, (%rdi,%rax)
	cmpl	%r13d, %r14d
	je	.LBB_e9714c_13
.LBB_e9714c_11:
	xorl	%edi, %edi
	.p2align	4
.LBB_e9714c_12:
	movl	(%r9,%rdi,4), %eax
	movzbl	%ah, %ebp
	movl	%eax, %r12d
	movzbl	%al, %r15d
	shrl	$16, %eax
	shrl	$24, %r12d
	movl	(%rdx,%rdi,4), %ebx
	movzbl	%bh, %esi
	movl	%ebx, %ecx
	movzbl	%bl, %r10d
	shrl	$16, %ebx
	shrl	$24, %ecx
	movzbl	%al, %eax
	movd	%eax, %xmm0
	pinsrw	$1, %r12d, %xmm0
	movzbl	%bl, %eax
	xorl	$255, %r12d
	pinsrw	$2, %ebp, %xmm0
	pinsrw	$3, %r15d, %xmm0
	movd	%ecx, %xmm1
	pshuflw	$0, %xmm1, %xmm1
	pmullw	%xmm0, %xmm1
	movdqa	.LCPI_e9714c_5(%rip), %xmm0
	paddw	%xmm0, %xmm1
	movdqa	%xmm1, %xmm2
	psrlw	$8, %xmm2
	paddw	%xmm1, %xmm2
	psrlw	$8, %xmm2
	packuswb	%xmm2, %xmm2
	movd	%r12d, %xmm1
	movd	%eax, %xmm3
	pinsrw	$1, %ecx, %xmm3
	pinsrw	$2, %esi, %xmm3
	pinsrw	$3, %r10d, %xmm3
	pshuflw	$0, %xmm1, %xmm1
	pmullw	%xmm1, %xmm3
	paddw	%xmm0, %xmm3
	movdqa	%xmm3, %xmm0
	psrlw	$8, %xmm0
	paddw	%xmm3, %xmm0
	psrlw	$8, %xmm0
	packuswb	%xmm0, %xmm0
	paddusb	%xmm2, %xmm0
	pmovzxbd	%xmm0, %xmm0
	pmulld	.LCPI_e9714c_6(%rip), %xmm0
	pshufd	$238, %xmm0, %xmm1
	por	%xmm0, %xmm1
	pshufd	$85, %xmm1, %xmm0
	por	%xmm1, %xmm0
	movd	%xmm0, (%rdx,%rdi,4)
	leaq	(%r14,%rdi), %rax
	incq	%rax
	incq	%rdi
	cmpq	%r13, %rax
	jb	.LBB_e9714c_12
	jmp	.LBB_e9714c_13
.LBB_e9714c_14:
	popq	%rbx
	popq	%r12
	popq	%r13
	popq	%r14
	popq	%r15
	popq	%rbp
	retq
.Lfunc_end_e9714c:
	.size	"pix_raster::view::blit_overlap::<#d408076b946df4a1>", .Lfunc_end_e9714c-"pix_raster::view::blit_overlap::<#d408076b946df4a1>"

	.section	.rodata.cst16,"aM",@progbits,16
	.p2align	4, 0x0
.LCPI_a1ada3_0:
	.byte	255
	.byte	0
	.byte	255
	.byte	0
	.byte	255
	.byte	0
	.byte	255
	.byte	0
	.byte	255
	.byte	0
	.byte	255
	.byte	0
	.byte	255
	.byte	0
	.byte	255
	.byte	0
.LCPI_a1ada3_1:
	.short	128
	.short	128
	.short	128
	.short	128
	.short	128
	.short	128
	.short	128
	.short	128
.LCPI_a1ada3_2:
	.zero	16,1
.LCPI_a1ada3_3:
	.byte	3
	.byte	128
	.byte	3
	.byte	128
	.byte	7
	.byte	128
	.byte	7
	.byte	128
	.byte	11
	.byte	128
	.byte	11
	.byte	128
	.byte	15
	.byte	128
	.byte	15
	.byte	128
.LCPI_a1ada3_4:
	.byte	3
	.byte	3
	.byte	3
	.byte	3
	.byte	7
	.byte	7
	.byte	7
	.byte	7
	.byte	11
	.byte	11
	.byte	11
	.byte	11
	.byte	15
	.byte	15
	.byte	15
	.byte	15
.LCPI_a1ada3_5:
	.short	128
	.short	128
	.short	128
	.short	128
	.zero	2
	.zero	2
	.zero	2
	.zero	2
.LCPI_a1ada3_6:
	.long	16777216
	.long	65536
	.long	256
	.long	1
	.section	".text.pix_raster::view::blit_overlap::<#09758d48ce65f64e>","ax",@progbits
	.p2align	4
	.type	"pix_raster::view::blit_overlap::<#09758d48ce65f64e>",@function
"pix_raster::view::blit_overlap::<#09758d48ce65f64e>":
	pushq	%rbp
	pushq	%r15
	pushq	%r14
	pushq	%r13
	pushq	%r12
	pushq	%rbx
	movq	%rcx, %r13
	movq	%rsi, -96(%rsp)
	movq	%rdi, -104(%rsp)
	movq	24(%r8), %rax
	movq	32(%r8), %rcx
	movq	%rcx, -8(%rsp)
	cmpq	%rcx, %rax
	jae	.LBB_a1ada3_18
	movq	%rdx, %r10
	movl	%r9d, %edx
	movq	(%r8), %rdi
	movq	%rdi, -112(%rsp)
	movq	16(%r8), %rcx
	movq	%rcx, -72(%rsp)
	addq	%r10, %rcx
	movq	%rcx, -32(%rsp)
	movq	8(%r8), %r9
	movq	40(%r8), %rsi
	subq	%rdi, %r9
	movq	%rsi, %rcx
	subq	%rax, %rcx
	movq	%rcx, -40(%rsp)
	movq	%r9, %rbp
	shrq	$4, %rbp
	movq	%r10, %rdi
	movl	%edx, %ecx
	shrl	$24, %ecx
	movl	%edx, %r8d
	shrl	$16, %r8d
	movl	%edx, %ebx
	shrl	$8, %ebx
	movd	%edx, %xmm0
	pinsrb	$1, %ebx, %xmm0
	pinsrb	$2, %r8d, %xmm0
	pinsrb	$3, %ecx, %xmm0
	pinsrb	$4, %edx, %xmm0
	pinsrb	$5, %ebx, %xmm0
	pinsrb	$6, %r8d, %xmm0
	pinsrb	$7, %ecx, %xmm0
	pinsrb	$8, %edx, %xmm0
	pinsrb	$9, %ebx, %xmm0
	pinsrb	$10, %r8d, %xmm0
	pinsrb	$11, %ecx, %xmm0
	pinsrb	$12, %edx, %xmm0
	pinsrb	$13, %ebx, %xmm0
	pinsrb	$14, %r8d, %xmm0
	movdqa	.LCPI_a1ada3_0(%rip), %xmm1
	pand	%xmm0, %xmm1
	pinsrb	$15, %ecx, %xmm0
	psrlw	$8, %xmm0
	movq	%r9, %rbx
	andq	$-16, %rbx
	movl	%r9d, %r12d
	andl	$15, %r12d
	movl	%r9d, %r11d
	andl	$8, %r11d
	movq	%r11, -120(%rsp)
	movl	%r9d, %r14d
	andl	$12, %r14d
	movzbl	%r8b, %r8d
	leaq	(,%rbx,4), %r15
	movd	%ecx, %xmm12
	pinsrw	$1, %r8d, %xmm12
	movzbl	%dh, %ecx
	movzbl	%dl, %edx
	pinsrw	$2, %ecx, %xmm12
	pinsrw	$3, %edx, %xmm12
	movq	%rbp, -16(%rsp)
	leaq	(,%rbp,4), %r11
	movq	%rax, %rcx
	movq	-96(%rsp), %r10
	imulq	%r10, %rcx
	imulq	%r13, %rsi
	addq	-72(%rsp), %rsi
	movq	%rbx, -80(%rsp)
	leaq	(%rbx,%r14), %r8
	addq	%rdi, %r8
	leaq	(%rdi,%rsi), %rdx
	addq	$8, %rdx
	addq	%rsi, %r8
	movq	-112(%rsp), %rbx
	leaq	(%rbx,%rcx), %rsi
	movq	-104(%rsp), %rdi
	leaq	(%rdi,%rsi,4), %rbp
	movq	%r15, -48(%rsp)
	leaq	(%r15,%rcx,4), %rcx
	movq	%r14, -88(%rsp)
	leaq	(%rcx,%r14,4), %rcx
	movq	%r9, %r14
	leaq	(%rcx,%rbx,4), %rsi
	addq	%rdi, %rsi
	leaq	(,%r10,4), %rcx
	movq	%rcx, -24(%rsp)
	movdqa	%xmm12, -72(%rsp)
	jmp	.LBB_a1ada3_2
	.p2align	4
.LBB_a1ada3_17:
	incq	%rax
	movq	-24(%rsp), %rcx
	addq	%rcx, %rbp
	addq	%r13, %rdx
	addq	%r13, %r8
	addq	%rcx, %rsi
	cmpq	-8(%rsp), %rax
	je	.LBB_a1ada3_18
.LBB_a1ada3_2:
	cmpq	$0, -16(%rsp)
	je	.LBB_a1ada3_7
	xorl	%edi, %edi
	movq	%rbp, %r10
	jmp	.LBB_a1ada3_4
	.p2align	4
.LBB_a1ada3_6:
	addq	$4, %rdi
	addq	$64, %r10
	cmpq	%rdi, %r11
	je	.LBB_a1ada3_7
.LBB_a1ada3_4:
	movq	-8(%rdx,%rdi,4), %rcx
	movq	(%rdx,%rdi,4), %r9
	orq	%rcx, %r9
	je	.LBB_a1ada3_6
	movq	%rcx, %xmm10
	punpcklbw	%xmm10, %xmm10
	movdqa	%xmm10, %xmm11
	punpckhwd	%xmm10, %xmm11
	punpcklwd	%xmm10, %xmm10
	movdqa	.LCPI_a1ada3_0(%rip), %xmm3
	movdqa	%xmm10, %xmm14
	pand	%xmm3, %xmm14
	movdqa	%xmm11, %xmm8
	pand	%xmm3, %xmm8
	pmullw	%xmm1, %xmm8
	pmullw	%xmm1, %xmm14
	movdqa	.LCPI_a1ada3_1(%rip), %xmm5
	paddw	%xmm5, %xmm14
	paddw	%xmm5, %xmm8
	movdqa	.LCPI_a1ada3_2(%rip), %xmm4
	pmulhuw	%xmm4, %xmm8
	pmulhuw	%xmm4, %xmm14
	psrlw	$8, %xmm11
	psrlw	$8, %xmm10
	pmullw	%xmm0, %xmm10
	pmullw	%xmm0, %xmm11
	paddw	%xmm5, %xmm11
	paddw	%xmm5, %xmm10
	pmulhuw	%xmm4, %xmm10
	pmulhuw	%xmm4, %xmm11
	psllw	$8, %xmm11
	psllw	$8, %xmm10
	por	%xmm14, %xmm10
	por	%xmm8, %xmm11
	movdqa	.LCPI_a1ada3_3(%rip), %xmm9
	movdqu	(%r10), %xmm12
	movdqu	16(%r10), %xmm13
	movdqu	32(%r10), %xmm6
	movdqa	%xmm12, %xmm2
	pshufb	%xmm9, %xmm2
	movdqa	%xmm13, %xmm7
	pshufb	%xmm9, %xmm7
	movdqa	%xmm10, %xmm15
	pand	%xmm3, %xmm14
	pmullw	%xmm2, %xmm14
	psrlw	$8, %xmm10
	pmullw	%xmm2, %xmm10
	movdqa	%xmm11, %xmm2
	pand	%xmm3, %xmm8
	pmullw	%xmm7, %xmm8
	psrlw	$8, %xmm11
	pmullw	%xmm7, %xmm11
	movdqu	48(%r10), %xmm7
	paddw	%xmm5, %xmm8
	pmulhuw	%xmm4, %xmm8
	paddw	%xmm5, %xmm11
	pmulhuw	%xmm4, %xmm11
	psllw	$8, %xmm11
	por	%xmm8, %xmm11
	pcmpeqd	%xmm8, %xmm8
	pxor	%xmm8, %xmm2
	pxor	%xmm8, %xmm15
	pshufb	%xmm9, %xmm15
	pshufb	%xmm9, %xmm2
	paddw	%xmm5, %xmm14
	pmulhuw	%xmm4, %xmm14
	paddw	%xmm5, %xmm10
	pmulhuw	%xmm4, %xmm10
	psllw	$8, %xmm10
	por	%xmm14, %xmm10
	movdqa	%xmm12, %xmm14
	pand	%xmm3, %xmm14
	pmullw	%xmm15, %xmm14
	psrlw	$8, %xmm12
	pmullw	%xmm15, %xmm12
	movdqa	%xmm13, %xmm15
	pand	%xmm3, %xmm15
	pmullw	%xmm2, %xmm15
	paddw	%xmm5, %xmm14
	paddw	%xmm5, %xmm15
	pmulhuw	%xmm4, %xmm15
	pmulhuw	%xmm4, %xmm14
	psrlw	$8, %xmm13
	pmullw	%xmm2, %xmm13
	paddw	%xmm5, %xmm13
	paddw	%xmm5, %xmm12
	pmulhuw	%xmm4, %xmm12
	pmulhuw	%xmm4, %xmm13
	psllw	$8, %xmm13
	por	%xmm15, %xmm13
	paddusb	%xmm11, %xmm13
	psllw	$8, %xmm12
	por	%xmm14, %xmm12
	paddusb	%xmm10, %xmm12
	movdqu	%xmm12, (%r10)
	movdqu	%xmm13, 16(%r10)
	movq	(%rdx,%rdi,4), %xmm10
	punpcklbw	%xmm10, %xmm10
	movdqa	%xmm10, %xmm11
	punpckhwd	%xmm10, %xmm11
	punpcklwd	%xmm10, %xmm10
	movdqa	%xmm10, %xmm12
	pand	%xmm3, %xmm12
	movdqa	%xmm11, %xmm13
	pand	%xmm3, %xmm13
	pmullw	%xmm1, %xmm13
	pmullw	%xmm1, %xmm12
	paddw	%xmm5, %xmm12
	paddw	%xmm5, %xmm13
	pmulhuw	%xmm4, %xmm13
	pmulhuw	%xmm4, %xmm12
	psrlw	$8, %xmm11
	psrlw	$8, %xmm10
	pmullw	%xmm0, %xmm10
	pmullw	%xmm0, %xmm11
	paddw	%xmm5, %xmm11
	paddw	%xmm5, %xmm10
	pmulhuw	%xmm4, %xmm10
	pmulhuw	%xmm4, %xmm11
	psllw	$8, %xmm11
	psllw	$8, %xmm10
	por	%xmm12, %xmm10
	por	%xmm13, %xmm11
	movdqa	%xmm6, %xmm15
	pshufb	%xmm9, %xmm15
	movdqa	%xmm7, %xmm2
	pshufb	%xmm9, %xmm2
	movdqa	%xmm11, %xmm14
	pxor	%xmm8, %xmm14
	pxor	%xmm10, %xmm8
	pshufb	%xmm9, %xmm8
	pshufb	%xmm9, %xmm14
	pand	%xmm3, %xmm12
	pmullw	%xmm15, %xmm12
	psrlw	$8, %xmm10
	pmullw	%xmm15, %xmm10
	pand	%xmm3, %xmm13
	pmullw	%xmm2, %xmm13
	psrlw	$8, %xmm11
	pmullw	%xmm2, %xmm11
	paddw	%xmm5, %xmm13
	pmulhuw	%xmm4, %xmm13
	paddw	%xmm5, %xmm11
	pmulhuw	%xmm4, %xmm11
	psllw	$8, %xmm11
	por	%xmm13, %xmm11
	paddw	%xmm5, %xmm12
	pmulhuw	%xmm4, %xmm12
	paddw	%xmm5, %xmm10
	pmulhuw	%xmm4, %xmm10
	psllw	$8, %xmm10
	por	%xmm12, %xmm10
	movdqa	-72(%rsp), %xmm12
	movdqa	%xmm6, %xmm2
	pand	%xmm3, %xmm2
	pmullw	%xmm8, %xmm2
	psrlw	$8, %xmm6
	pmullw	%xmm8, %xmm6
	pand	%xmm7, %xmm3
	pmullw	%xmm14, %xmm3
	psrlw	$8, %xmm7
	pmullw	%xmm14, %xmm7
	paddw	%xmm5, %xmm2
	paddw	%xmm5, %xmm3
	paddw	%xmm5, %xmm7
	paddw	%xmm5, %xmm6
	pmulhuw	%xmm4, %xmm3
	pmulhuw	%xmm4, %xmm2
	pmulhuw	%xmm4, %xmm6
	pmulhuw	%xmm4, %xmm7
	psllw	$8, %xmm7
	por	%xmm3, %xmm7
	paddusb	%xmm11, %xmm7
	psllw	$8, %xmm6
	por	%xmm2, %xmm6
	paddusb	%xmm10, %xmm6
	movdqu	%xmm6, 32(%r10)
	movdqu	%xmm7, 48(%r10)
	jmp	.LBB_a1ada3_6
	.p2align	4
.LBB_a1ada3_7:
	cmpq	%r14, -80(%rsp)
	je	.LBB_a1ada3_17
	movq	%rax, %rcx
	imulq	-96(%rsp), %rcx
	addq	-112(%rsp), %rcx
	movq	-40(%rsp), %rdi
	leaq	(%rdi,%rax), %r10
	imulq	%r13, %r10
	addq	-32(%rsp), %r10
	movq	-104(%rsp), %rdi
	leaq	(%rdi,%rcx,4), %rdi
	addq	-48(%rsp), %rdi
	addq	-80(%rsp), %r10
	testb	$8, %r14b
	je	.LBB_a1ada3_11
	movq	(%r10), %rcx
	testq	%rcx, %rcx
	je	.LBB_a1ada3_11
	movq	%rcx, %xmm3
	punpcklbw	%xmm3, %xmm3
	movdqa	%xmm3, %xmm4
	punpckhwd	%xmm3, %xmm4
	punpcklwd	%xmm3, %xmm3
	movdqa	.LCPI_a1ada3_0(%rip), %xmm5
	movdqa	%xmm3, %xmm10
	pand	%xmm5, %xmm10
	movdqa	%xmm4, %xmm11
	pand	%xmm5, %xmm11
	pmullw	%xmm1, %xmm11
	pmullw	%xmm1, %xmm10
	movdqa	.LCPI_a1ada3_1(%rip), %xmm6
	paddw	%xmm6, %xmm10
	paddw	%xmm6, %xmm11
	movdqa	.LCPI_a1ada3_2(%rip), %xmm7
	pmulhuw	%xmm7, %xmm11
	pmulhuw	%xmm7, %xmm10
	psrlw	$8, %xmm4
	psrlw	$8, %xmm3
	pmullw	%xmm0, %xmm3
	pmullw	%xmm0, %xmm4
	paddw	%xmm6, %xmm4
	paddw	%xmm6, %xmm3
	pmulhuw	%xmm7, %xmm3
	pmulhuw	%xmm7, %xmm4
	psllw	$8, %xmm4
	psllw	$8, %xmm3
	por	%xmm10, %xmm3
	por	%xmm11, %xmm4
	movdqu	(%rdi), %xmm8
	movdqu	16(%rdi), %xmm9
	movdqa	.LCPI_a1ada3_3(%rip), %xmm15
	movdqa	%xmm8, %xmm2
	pshufb	%xmm15, %xmm2
	movdqa	%xmm9, %xmm14
	pshufb	%xmm15, %xmm14
	pcmpeqd	%xmm13, %xmm13
	movdqa	%xmm4, %xmm12
	pxor	%xmm13, %xmm12
	pxor	%xmm3, %xmm13
	pshufb	%xmm15, %xmm13
	pshufb	%xmm15, %xmm12
	pand	%xmm5, %xmm10
	pand	%xmm5, %xmm11
	pmullw	%xmm14, %xmm11
	pmullw	%xmm2, %xmm10
	paddw	%xmm6, %xmm10
	paddw	%xmm6, %xmm11
	pmulhuw	%xmm7, %xmm11
	pmulhuw	%xmm7, %xmm10
	psrlw	$8, %xmm4
	psrlw	$8, %xmm3
	pmullw	%xmm2, %xmm3
	pmullw	%xmm14, %xmm4
	paddw	%xmm6, %xmm4
	paddw	%xmm6, %xmm3
	pmulhuw	%xmm7, %xmm3
	pmulhuw	%xmm7, %xmm4
	psllw	$8, %xmm4
	por	%xmm11, %xmm4
	psllw	$8, %xmm3
	por	%xmm10, %xmm3
	movdqa	%xmm8, %xmm2
	pand	%xmm5, %xmm2
	pand	%xmm9, %xmm5
	pmullw	%xmm12, %xmm5
	pmullw	%xmm13, %xmm2
	paddw	%xmm6, %xmm2
	paddw	%xmm6, %xmm5
	pmulhuw	%xmm7, %xmm5
	pmulhuw	%xmm7, %xmm2
	psrlw	$8, %xmm9
	psrlw	$8, %xmm8
	pmullw	%xmm13, %xmm8
	pmullw	%xmm12, %xmm9
	movdqa	-72(%rsp), %xmm12
	paddw	%xmm6, %xmm9
	paddw	%xmm6, %xmm8
	pmulhuw	%xmm7, %xmm8
	pmulhuw	%xmm7, %xmm9
	psllw	$8, %xmm9
	por	%xmm5, %xmm9
	paddusb	%xmm4, %xmm9
	psllw	$8, %xmm8
	por	%xmm2, %xmm8
	paddusb	%xmm3, %xmm8
	movdqu	%xmm8, (%rdi)
	movdqu	%xmm9, 16(%rdi)
.LBB_a1ada3_11:
	testb	$4, %r14b
	je	.LBB_a1ada3_14
	movq	-120(%rsp), %rcx
	movl	(%r10,%rcx), %ecx
	testl	%ecx, %ecx
	je	.LBB_a1ada3_14
	movd	%ecx, %xmm3
	punpcklbw	%xmm3, %xmm3
	punpcklwd	%xmm3, %xmm3
	movdqa	.LCPI_a1ada3_0(%rip), %xmm2
	movdqa	%xmm3, %xmm9
	pand	%xmm2, %xmm9
	pmullw	%xmm1, %xmm9
	movdqa	.LCPI_a1ada3_1(%rip), %xmm4
	paddw	%xmm4, %xmm9
	movdqa	.LCPI_a1ada3_2(%rip), %xmm5
	pmulhuw	%xmm5, %xmm9
	psrlw	$8, %xmm3
	pmullw	%xmm0, %xmm3
	paddw	%xmm4, %xmm3
	pmulhuw	%xmm5, %xmm3
	psllw	$8, %xmm3
	por	%xmm9, %xmm3
	movq	-120(%rsp), %rcx
	movdqu	(%rdi,%rcx,4), %xmm8
	pcmpeqd	%xmm6, %xmm6
	movdqa	.LCPI_a1ada3_4(%rip), %xmm10
	movdqa	%xmm8, %xmm7
	pshufb	%xmm10, %xmm7
	pand	%xmm2, %xmm9
	movdqa	%xmm7, %xmm11
	pand	%xmm2, %xmm11
	pmullw	%xmm9, %xmm11
	paddw	%xmm4, %xmm11
	pmulhuw	%xmm5, %xmm11
	movdqa	%xmm3, %xmm9
	psrlw	$8, %xmm9
	psrlw	$8, %xmm7
	pmullw	%xmm9, %xmm7
	paddw	%xmm4, %xmm7
	pmulhuw	%xmm5, %xmm7
	psllw	$8, %xmm7
	por	%xmm11, %xmm7
	pshufb	%xmm10, %xmm3
	pxor	%xmm3, %xmm6
	movdqa	%xmm8, %xmm9
	pand	%xmm2, %xmm9
	pandn	%xmm2, %xmm3
	pmullw	%xmm9, %xmm3
	paddw	%xmm4, %xmm3
	pmulhuw	%xmm5, %xmm3
	psrlw	$8, %xmm8
	psrlw	$8, %xmm6
	pmullw	%xmm8, %xmm6
	paddw	%xmm4, %xmm6
	pmulhuw	%xmm5, %xmm6
	psllw	$8, %xmm6
	por	%xmm3, %xmm6
	paddusb	%xmm7, %xmm6
	movdqu	%xmm6, (%rdi,%rcx,4)
.LBB_a1ada3_14:
	cmpl	%r12d, -88(%rsp)
	je	.LBB_a1ada3_17
	xorl	%edi, %edi
	movq	-88(%rsp), %r10
	.p2align	4
.LBB_a1ada3_16:
	movl	(%rsi,%rdi,4), %ecx
	movzbl	%ch, %ebx
	movzbl	%cl, %r9d
	movd	%ecx, %xmm3
	shrl	$16, %ecx
	movzbl	(%r8,%rdi), %r15d
	movd	%r15d, %xmm2
	pshuflw	$0, %xmm2, %xmm4
	pmullw	%xmm12, %xmm4
	movzbl	%cl, %ecx
	movdqa	.LCPI_a1ada3_5(%rip), %xmm2
	paddw	%xmm2, %xmm4
	movdqa	%xmm4, %xmm5
	psrlw	$8, %xmm5
	paddw	%xmm4, %xmm5
	pextrb	$1, %xmm5, %r15d
	psrlw	$8, %xmm5
	xorl	$255, %r15d
	psrld	$24, %xmm3
	pshuflw	$0, %xmm3, %xmm3
	pmullw	%xmm3, %xmm5
	paddw	%xmm2, %xmm5
	movdqa	%xmm5, %xmm4
	psrlw	$8, %xmm4
	paddw	%xmm5, %xmm4
	psrlw	$8, %xmm4
	packuswb	%xmm4, %xmm4
	movd	%r15d, %xmm5
	pinsrw	$1, %ecx, %xmm3
	pinsrw	$2, %ebx, %xmm3
	pinsrw	$3, %r9d, %xmm3
	pshuflw	$0, %xmm5, %xmm5
	pmullw	%xmm5, %xmm3
	paddw	%xmm2, %xmm3
	movdqa	%xmm3, %xmm2
	psrlw	$8, %xmm2
	paddw	%xmm3, %xmm2
	psrlw	$8, %xmm2
	packuswb	%xmm2, %xmm2
	paddusb	%xmm4, %xmm2
	pmovzxbd	%xmm2, %xmm2
	pmulld	.LCPI_a1ada3_6(%rip), %xmm2
	pshufd	$238, %xmm2, %xmm3
	por	%xmm2, %xmm3
	pshufd	$85, %xmm3, %xmm2
	por	%xmm3, %xmm2
	movd	%xmm2, (%rsi,%rdi,4)
	incq	%r10
	incq	%rdi
	cmpq	%r12, %r10
	jb	.LBB_a1ada3_16
	jmp	.LBB_a1ada3_17
.LBB_a1ada3_18:
	popq	%rbx
	popq	%r12
	popq	%r13
	popq	%r14
	popq	%r15
	popq	%rbp
	retq
.Lfunc_end_a1ada3:
	.size	"pix_raster::view::blit_overlap::<#09758d48ce65f64e>", .Lfunc_end_a1ada3-"pix_raster::view::blit_overlap::<#09758d48ce65f64e>"

	.section	.rodata.cst16,"aM",@progbits,16
	.p2align	4, 0x0
.LCPI_a5f72b_0:
	.byte	255
	.byte	0
	.byte	255
	.byte	0
	.byte	255
	.byte	0
	.byte	255
	.byte	0
	.byte	255
	.byte	0
	.byte	255
	.byte	0
	.byte	255
	.byte	0
	.byte	255
	.byte	0
.LCPI_a5f72b_1:
	.short	128
	.short	128
	.short	128
	.short	128
	.short	128
	.short	128
	.short	128
	.short	128
.LCPI_a5f72b_2:
	.zero	16,1
.LCPI_a5f72b_3:
	.byte	3
	.byte	128
	.byte	3
	.byte	128
	.byte	7
	.byte	128
	.byte	7
	.byte	128
	.byte	11
	.byte	128
	.byte	11
	.byte	128
	.byte	15
	.byte	128
	.byte	15
	.byte	128
.LCPI_a5f72b_4:
	.byte	3
	.byte	3
	.byte	3
	.byte	3
	.byte	7
	.byte	7
	.byte	7
	.byte	7
	.byte	11
	.byte	11
	.byte	11
	.byte	11
	.byte	15
	.byte	15
	.byte	15
	.byte	15
.LCPI_a5f72b_5:
	.short	128
	.short	128
	.short	128
	.short	128
	.zero	2
	.zero	2
	.zero	2
	.zero	2
.LCPI_a5f72b_6:
	.long	16777216
	.long	65536
	.long	256
	.long	1
	.section	".text.pix_raster::view::blit_overlap::<#8280f2e27f55061f>","ax",@progbits
	.p2align	4
	.type	"pix_raster::view::blit_overlap::<#8280f2e27f55061f>",@function
"pix_raster::view::blit_overlap::<#8280f2e27f55061f>":
	pushq	%rbp
	pushq	%r15
	pushq	%r14
	pushq	%r13
	pushq	%r12
	pushq	%rbx
	pushq	%rax
	movq	%rcx, -96(%rsp)
	movq	%rdx, -104(%rsp)
	movq	%rsi, -112(%rsp)
	movq	%rdi, -120(%rsp)
	movq	24(%r8), %r10
	movq	32(%r8), %rcx
	movq	%rcx, -24(%rsp)
	cmpq	%rcx, %r10
	jae	.LBB_a5f72b_14
	movl	%r9d, %eax
	movq	(%r8), %rsi
	movq	16(%r8), %r9
	movq	8(%r8), %r15
	movq	40(%r8), %rcx
	subq	%rsi, %r15
	movq	%rsi, -128(%rsp)
	movq	%rcx, %rdx
	subq	%r10, %rdx
	movq	%rdx, -64(%rsp)
	movq	%r15, %rdx
	shrq	$4, %rdx
	movq	%rdx, -88(%rsp)
	movzbl	%al, %eax
	movd	%eax, %xmm1
	pxor	%xmm0, %xmm0
	pshuflw	$0, %xmm1, %xmm12
	pshufb	%xmm0, %xmm1
	movdqa	.LCPI_a5f72b_0(%rip), %xmm2
	pand	%xmm1, %xmm2
	psrlw	$8, %xmm1
	movq	%r15, %rax
	andq	$-16, %rax
	movq	%rax, -32(%rsp)
	leaq	(,%rax,4), %rdi
	movl	%r15d, %r13d
	andl	$15, %r13d
	leal	(,%r15,4), %eax
	movl	%eax, %edx
	andl	$32, %edx
	movq	%rdx, -80(%rsp)
	movl	%r15d, %r14d
	andl	$12, %r14d
	movq	%r10, %rdx
	movq	-112(%rsp), %r12
	imulq	%r12, %rdx
	leaq	(,%rsi,4), %rsi
	leaq	(%rsi,%rdx,4), %rbx
	movq	-120(%rsp), %rbp
	addq	%rbp, %rbx
	movq	-96(%rsp), %r11
	imulq	%r11, %rcx
	leaq	(,%r9,4), %rsi
	leaq	(%rsi,%rcx,4), %r8
	leaq	(%rdi,%rcx,4), %rcx
	andl	$48, %eax
	addq	%rax, %rcx
	movq	%rdi, -72(%rsp)
	leaq	(%rdi,%rdx,4), %rdx
	addq	%rax, %rdx
	leaq	(,%r12,4), %rax
	movq	%rax, -40(%rsp)
	movq	-104(%rsp), %rax
	addq	%rax, %r8
	movq	%r9, -56(%rsp)
	leaq	(%rcx,%r9,4), %rsi
	addq	%rax, %rsi
	movq	-128(%rsp), %rax
	leaq	(%rdx,%rax,4), %rdx
	addq	%rbp, %rdx
	leaq	(,%r11,4), %rax
	movq	%rax, -48(%rsp)
	movdqa	%xmm12, -16(%rsp)
	jmp	.LBB_a5f72b_2
	.p2align	4
.LBB_a5f72b_13:
	incq	%r10
	movq	-40(%rsp), %rax
	addq	%rax, %rbx
	movq	-48(%rsp), %rcx
	addq	%rcx, %r8
	addq	%rcx, %rsi
	addq	%rax, %rdx
	cmpq	-24(%rsp), %r10
	je	.LBB_a5f72b_14
.LBB_a5f72b_2:
	cmpq	$0, -88(%rsp)
	je	.LBB_a5f72b_5
	movl	$32, %ebp
	movq	-88(%rsp), %r12
	.p2align	4
.LBB_a5f72b_4:
	movdqu	-32(%r8,%rbp), %xmm10
	movdqu	-16(%r8,%rbp), %xmm11
	movdqa	.LCPI_a5f72b_0(%rip), %xmm3
	movdqa	%xmm10, %xmm14
	pand	%xmm3, %xmm14
	movdqa	%xmm11, %xmm8
	pand	%xmm3, %xmm8
	pmullw	%xmm2, %xmm8
	pmullw	%xmm2, %xmm14
	movdqa	.LCPI_a5f72b_1(%rip), %xmm5
	paddw	%xmm5, %xmm14
	paddw	%xmm5, %xmm8
	movdqa	.LCPI_a5f72b_2(%rip), %xmm4
	pmulhuw	%xmm4, %xmm8
	pmulhuw	%xmm4, %xmm14
	psrlw	$8, %xmm11
	psrlw	$8, %xmm10
	pmullw	%xmm1, %xmm10
	pmullw	%xmm1, %xmm11
	paddw	%xmm5, %xmm11
	paddw	%xmm5, %xmm10
	pmulhuw	%xmm4, %xmm10
	pmulhuw	%xmm4, %xmm11
	psllw	$8, %xmm11
	psllw	$8, %xmm10
	por	%xmm14, %xmm10
	por	%xmm8, %xmm11
	movdqu	-32(%rbx,%rbp), %xmm12
	movdqu	-16(%rbx,%rbp), %xmm13
	movdqu	(%rbx,%rbp), %xmm6
	movdqa	.LCPI_a5f72b_3(%rip), %xmm9
	movdqa	%xmm12, %xmm0
	pshufb	%xmm9, %xmm0
	movdqa	%xmm13, %xmm7
	pshufb	%xmm9, %xmm7
	movdqa	%xmm10, %xmm15
	pand	%xmm3, %xmm14
	pmullw	%xmm0, %xmm14
	psrlw	$8, %xmm10
	pmullw	%xmm0, %xmm10
	movdqa	%xmm11, %xmm0
	pand	%xmm3, %xmm8
	pmullw	%xmm7, %xmm8
	psrlw	$8, %xmm11
	pmullw	%xmm7, %xmm11
	movdqu	16(%rbx,%rbp), %xmm7
	paddw	%xmm5, %xmm8
	pmulhuw	%xmm4, %xmm8
	paddw	%xmm5, %xmm11
	pmulhuw	%xmm4, %xmm11
	psllw	$8, %xmm11
	por	%xmm8, %xmm11
	pcmpeqd	%xmm8, %xmm8
	pxor	%xmm8, %xmm0
	pxor	%xmm8, %xmm15
	pshufb	%xmm9, %xmm15
	pshufb	%xmm9, %xmm0
	paddw	%xmm5, %xmm14
	pmulhuw	%xmm4, %xmm14
	paddw	%xmm5, %xmm10
	pmulhuw	%xmm4, %xmm10
	psllw	$8, %xmm10
	por	%xmm14, %xmm10
	movdqa	%xmm12, %xmm14
	pand	%xmm3, %xmm14
	pmullw	%xmm15, %xmm14
	psrlw	$8, %xmm12
	pmullw	%xmm15, %xmm12
	movdqa	%xmm13, %xmm15
	pand	%xmm3, %xmm15
	pmullw	%xmm0, %xmm15
	paddw	%xmm5, %xmm14
	paddw	%xmm5, %xmm15
	pmulhuw	%xmm4, %xmm15
	pmulhuw	%xmm4, %xmm14
	psrlw	$8, %xmm13
	pmullw	%xmm0, %xmm13
	paddw	%xmm5, %xmm13
	paddw	%xmm5, %xmm12
	pmulhuw	%xmm4, %xmm12
	pmulhuw	%xmm4, %xmm13
	psllw	$8, %xmm13
	por	%xmm15, %xmm13
	paddusb	%xmm11, %xmm13
	psllw	$8, %xmm12
	por	%xmm14, %xmm12
	paddusb	%xmm10, %xmm12
	movdqu	%xmm12, -32(%rbx,%rbp)
	movdqu	%xmm13, -16(%rbx,%rbp)
	movdqu	(%r8,%rbp), %xmm10
	movdqu	16(%r8,%rbp), %xmm11
	movdqa	%xmm10, %xmm12
	pand	%xmm3, %xmm12
	movdqa	%xmm11, %xmm13
	pand	%xmm3, %xmm13
	pmullw	%xmm2, %xmm13
	pmullw	%xmm2, %xmm12
	paddw	%xmm5, %xmm12
	paddw	%xmm5, %xmm13
	pmulhuw	%xmm4, %xmm13
	pmulhuw	%xmm4, %xmm12
	psrlw	$8, %xmm11
	psrlw	$8, %xmm10
	pmullw	%xmm1, %xmm10
	pmullw	%xmm1, %xmm11
	paddw	%xmm5, %xmm11
	paddw	%xmm5, %xmm10
	pmulhuw	%xmm4, %xmm10
	pmulhuw	%xmm4, %xmm11
	psllw	$8, %xmm11
	psllw	$8, %xmm10
	por	%xmm12, %xmm10
	por	%xmm13, %xmm11
	movdqa	%xmm6, %xmm15
	pshufb	%xmm9, %xmm15
	movdqa	%xmm7, %xmm0
	pshufb	%xmm9, %xmm0
	movdqa	%xmm11, %xmm14
	pxor	%xmm8, %xmm14
	pxor	%xmm10, %xmm8
	pshufb	%xmm9, %xmm8
	pshufb	%xmm9, %xmm14
	pand	%xmm3, %xmm12
	pmullw	%xmm15, %xmm12
	psrlw	$8, %xmm10
	pmullw	%xmm15, %xmm10
	pand	%xmm3, %xmm13
	pmullw	%xmm0, %xmm13
	psrlw	$8, %xmm11
	pmullw	%xmm0, %xmm11
	paddw	%xmm5, %xmm13
	pmulhuw	%xmm4, %xmm13
	paddw	%xmm5, %xmm11
	pmulhuw	%xmm4, %xmm11
	psllw	$8, %xmm11
	por	%xmm13, %xmm11
	paddw	%xmm5, %xmm12
	pmulhuw	%xmm4, %xmm12
	paddw	%xmm5, %xmm10
	pmulhuw	%xmm4, %xmm10
	psllw	$8, %xmm10
	por	%xmm12, %xmm10
	movdqa	%xmm6, %xmm0
	pand	%xmm3, %xmm0
	pmullw	%xmm8, %xmm0
	psrlw	$8, %xmm6
	pmullw	%xmm8, %xmm6
	pand	%xmm7, %xmm3
	pmullw	%xmm14, %xmm3
	psrlw	$8, %xmm7
	pmullw	%xmm14, %xmm7
	paddw	%xmm5, %xmm0
	paddw	%xmm5, %xmm3
	paddw	%xmm5, %xmm7
	paddw	%xmm5, %xmm6
	pmulhuw	%xmm4, %xmm3
	pmulhuw	%xmm4, %xmm0
	pmulhuw	%xmm4, %xmm6
	pmulhuw	%xmm4, %xmm7
	psllw	$8, %xmm7
	por	%xmm3, %xmm7
	paddusb	%xmm11, %xmm7
	psllw	$8, %xmm6
	por	%xmm0, %xmm6
	paddusb	%xmm10, %xmm6
	movdqu	%xmm6, (%rbx,%rbp)
	movdqu	%xmm7, 16(%rbx,%rbp)
	addq	$64, %rbp
	decq	%r12
	jne	.LBB_a5f72b_4
.LBB_a5f72b_5:
	cmpq	%r15, -32(%rsp)
	movdqa	-16(%rsp), %xmm12
	je	.LBB_a5f72b_13
	movq	%r10, %rax
	imulq	-112(%rsp), %rax
	addq	-128(%rsp), %rax
	movq	-64(%rsp), %rcx
	addq	%r10, %rcx
	imulq	-96(%rsp), %rcx
	addq	-56(%rsp), %rcx
	movq	-120(%rsp), %rdi
	leaq	(%rdi,%rax,4), %r12
	movq	-104(%rsp), %rax
	leaq	(%rax,%rcx,4), %rbp
	movq	-72(%rsp), %rax
	addq	%rax, %r12
	addq	%rax, %rbp
	testb	$8, %r15b
	jne	.LBB_a5f72b_7
	testb	$4, %r15b
	jne	.LBB_a5f72b_9
.LBB_a5f72b_10:
	cmpl	%r13d, %r14d
	je	.LBB_a5f72b_13
	jmp	.LBB_a5f72b_11
	.p2align	4
.LBB_a5f72b_7:
	movdqu	(%rbp), %xmm3
	movdqu	16(%rbp), %xmm4
	movdqa	.LCPI_a5f72b_0(%rip), %xmm5
	movdqa	%xmm3, %xmm10
	pand	%xmm5, %xmm10
	movdqa	%xmm4, %xmm11
	pand	%xmm5, %xmm11
	pmullw	%xmm2, %xmm11
	pmullw	%xmm2, %xmm10
	movdqa	.LCPI_a5f72b_1(%rip), %xmm6
	paddw	%xmm6, %xmm10
	paddw	%xmm6, %xmm11
	movdqa	.LCPI_a5f72b_2(%rip), %xmm7
	pmulhuw	%xmm7, %xmm11
	pmulhuw	%xmm7, %xmm10
	psrlw	$8, %xmm4
	psrlw	$8, %xmm3
	pmullw	%xmm1, %xmm3
	pmullw	%xmm1, %xmm4
	paddw	%xmm6, %xmm4
	paddw	%xmm6, %xmm3
	pmulhuw	%xmm7, %xmm3
	pmulhuw	%xmm7, %xmm4
	psllw	$8, %xmm4
	psllw	$8, %xmm3
	por	%xmm10, %xmm3
	por	%xmm11, %xmm4
	movdqu	(%r12), %xmm8
	movdqu	16(%r12), %xmm9
	movdqa	.LCPI_a5f72b_3(%rip), %xmm15
	movdqa	%xmm8, %xmm0
	pshufb	%xmm15, %xmm0
	movdqa	%xmm9, %xmm14
	pshufb	%xmm15, %xmm14
	pcmpeqd	%xmm13, %xmm13
	movdqa	%xmm4, %xmm12
	pxor	%xmm13, %xmm12
	pxor	%xmm3, %xmm13
	pshufb	%xmm15, %xmm13
	pshufb	%xmm15, %xmm12
	pand	%xmm5, %xmm10
	pand	%xmm5, %xmm11
	pmullw	%xmm14, %xmm11
	pmullw	%xmm0, %xmm10
	paddw	%xmm6, %xmm10
	paddw	%xmm6, %xmm11
	pmulhuw	%xmm7, %xmm11
	pmulhuw	%xmm7, %xmm10
	psrlw	$8, %xmm4
	psrlw	$8, %xmm3
	pmullw	%xmm0, %xmm3
	pmullw	%xmm14, %xmm4
	paddw	%xmm6, %xmm4
	paddw	%xmm6, %xmm3
	pmulhuw	%xmm7, %xmm3
	pmulhuw	%xmm7, %xmm4
	psllw	$8, %xmm4
	por	%xmm11, %xmm4
	psllw	$8, %xmm3
	por	%xmm10, %xmm3
	movdqa	%xmm8, %xmm0
	pand	%xmm5, %xmm0
	pand	%xmm9, %xmm5
	pmullw	%xmm12, %xmm5
	pmullw	%xmm13, %xmm0
	paddw	%xmm6, %xmm0
	paddw	%xmm6, %xmm5
	pmulhuw	%xmm7, %xmm5
	pmulhuw	%xmm7, %xmm0
	psrlw	$8, %xmm9
	psrlw	$8, %xmm8
	pmullw	%xmm13, %xmm8
	pmullw	%xmm12, %xmm9
	movdqa	-16(%rsp), %xmm12
	paddw	%xmm6, %xmm9
	paddw	%xmm6, %xmm8
	pmulhuw	%xmm7, %xmm8
	pmulhuw	%xmm7, %xmm9
	psllw	$8, %xmm9
	por	%xmm5, %xmm9
	paddusb	%xmm4, %xmm9
	psllw	$8, %xmm8
	por	%xmm0, %xmm8
	paddusb	%xmm3, %xmm8
	movdqu	%xmm8, (%r12)
	movdqu	%xmm9, 16(%r12)
	testb	$4, %r15b
	je	.LBB_a5f72b_10
.LBB_a5f72b_9:
	movq	-80(%rsp), %rax
	movdqu	(%rbp,%rax), %xmm3
	movdqa	.LCPI_a5f72b_0(%rip), %xmm0
	movdqa	%xmm3, %xmm9
	pand	%xmm0, %xmm9
	pmullw	%xmm2, %xmm9
	movdqa	.LCPI_a5f72b_1(%rip), %xmm4
	paddw	%xmm4, %xmm9
	movdqa	.LCPI_a5f72b_2(%rip), %xmm5
	pmulhuw	%xmm5, %xmm9
	psrlw	$8, %xmm3
	pmullw	%xmm1, %xmm3
	paddw	%xmm4, %xmm3
	pmulhuw	%xmm5, %xmm3
	psllw	$8, %xmm3
	por	%xmm9, %xmm3
	movdqu	(%r12,%rax), %xmm8
	pcmpeqd	%xmm6, %xmm6
	movdqa	.LCPI_a5f72b_4(%rip), %xmm10
	movdqa	%xmm8, %xmm7
	pshufb	%xmm10, %xmm7
	pand	%xmm0, %xmm9
	movdqa	%xmm7, %xmm11
	pand	%xmm0, %xmm11
	pmullw	%xmm9, %xmm11
	paddw	%xmm4, %xmm11
	pmulhuw	%xmm5, %xmm11
	movdqa	%xmm3, %xmm9
	psrlw	$8, %xmm9
	psrlw	$8, %xmm7
	pmullw	%xmm9, %xmm7
	paddw	%xmm4, %xmm7
	pmulhuw	%xmm5, %xmm7
	psllw	$8, %xmm7
	por	%xmm11, %xmm7
	pshufb	%xmm10, %xmm3
	pxor	%xmm3, %xmm6
	movdqa	%xmm8, %xmm9
	pand	%xmm0, %xmm9
	pandn	%xmm0, %xmm3
	pmullw	%xmm9, %xmm3
	paddw	%xmm4, %xmm3
	pmulhuw	%xmm5, %xmm3
	psrlw	$8, %xmm8
	psrlw	$8, %xmm6
	pmullw	%xmm8, %xmm6
	paddw	%xmm4, %xmm6
	pmulhuw	%xmm5, %xmm6
	psllw	$8, %xmm6
	por	%xmm3, %xmm6
	paddusb	%xmm7, %xmm6
	movdqu	%xmm6, (%r12,%rax)
	cmpl	%r13d, %r14d
	je	.LBB_a5f72b_13
.LBB_a5f72b_11:
	xorl	%r12d, %r12d
	.p2align	4
.LBB_a5f72b_12:
	movl	(%rsi,%r12,4), %eax
	movl	(%rdx,%r12,4), %ecx
	movzbl	%ch, %ebp
	movzbl	%cl, %r11d
	movd	%ecx, %xmm3
	movzbl	%ah, %edi
	movzbl	%al, %r9d
	movd	%eax, %xmm4
	shrl	$16, %eax
	movzbl	%al, %eax
	psrld	$24, %xmm4
	pinsrw	$1, %eax, %xmm4
	pinsrw	$2, %edi, %xmm4
	pinsrw	$3, %r9d, %xmm4
	shrl	$16, %ecx
	pmullw	%xmm12, %xmm4
	movzbl	%cl, %eax
	movdqa	.LCPI_a5f72b_5(%rip), %xmm0
	paddw	%xmm0, %xmm4
	movdqa	%xmm4, %xmm5
	psrlw	$8, %xmm5
	paddw	%xmm4, %xmm5
	pextrb	$1, %xmm5, %ecx
	psrlw	$8, %xmm5
	xorl	$255, %ecx
	psrld	$24, %xmm3
	pshuflw	$0, %xmm3, %xmm3
	pmullw	%xmm3, %xmm5
	paddw	%xmm0, %xmm5
	movdqa	%xmm5, %xmm4
	psrlw	$8, %xmm4
	paddw	%xmm5, %xmm4
	psrlw	$8, %xmm4
	packuswb	%xmm4, %xmm4
	movd	%ecx, %xmm5
	pinsrw	$1, %eax, %xmm3
	pinsrw	$2, %ebp, %xmm3
	pinsrw	$3, %r11d, %xmm3
	pshuflw	$0, %xmm5, %xmm5
	pmullw	%xmm5, %xmm3
	paddw	%xmm0, %xmm3
	movdqa	%xmm3, %xmm0
	psrlw	$8, %xmm0
	paddw	%xmm3, %xmm0
	psrlw	$8, %xmm0
	packuswb	%xmm0, %xmm0
	paddusb	%xmm4, %xmm0
	pmovzxbd	%xmm0, %xmm0
	pmulld	.LCPI_a5f72b_6(%rip), %xmm0
	pshufd	$238, %xmm0, %xmm3
	por	%xmm0, %xmm3
	pshufd	$85, %xmm3, %xmm0
	por	%xmm3, %xmm0
	movd	%xmm0, (%rdx,%r12,4)
	leaq	(%r14,%r12), %rax
	incq	%rax
	incq	%r12
	cmpq	%r13, %rax
	jb	.LBB_a5f72b_12
	jmp	.LBB_a5f72b_13
.LBB_a5f72b_14:
	addq	$8, %rsp
	popq	%rbx
	popq	%r12
	popq	%r13
	popq	%r14
	popq	%r15
	popq	%rbp
	retq
.Lfunc_end_a5f72b:
	.size	"pix_raster::view::blit_overlap::<#8280f2e27f55061f>", .Lfunc_end_a5f72b-"pix_raster::view::blit_overlap::<#8280f2e27f55061f>"

	.section	.rodata.cst16,"aM",@progbits,16
	.p2align	4, 0x0
.LCPI_5af13c_0:
	.byte	3
	.byte	128
	.byte	3
	.byte	128
	.byte	7
	.byte	128
	.byte	7
	.byte	128
	.byte	11
	.byte	128
	.byte	11
	.byte	128
	.byte	15
	.byte	128
	.byte	15
	.byte	128
.LCPI_5af13c_1:
	.byte	255
	.byte	0
	.byte	255
	.byte	0
	.byte	255
	.byte	0
	.byte	255
	.byte	0
	.byte	255
	.byte	0
	.byte	255
	.byte	0
	.byte	255
	.byte	0
	.byte	255
	.byte	0
.LCPI_5af13c_2:
	.short	128
	.short	128
	.short	128
	.short	128
	.short	128
	.short	128
	.short	128
	.short	128
.LCPI_5af13c_3:
	.zero	16,1
.LCPI_5af13c_4:
	.byte	3
	.byte	3
	.byte	3
	.byte	3
	.byte	7
	.byte	7
	.byte	7
	.byte	7
	.byte	11
	.byte	11
	.byte	11
	.byte	11
	.byte	15
	.byte	15
	.byte	15
	.byte	15
.LCPI_5af13c_5:
	.short	128
	.short	128
	.short	128
	.short	128
	.zero	2
	.zero	2
	.zero	2
	.zero	2
.LCPI_5af13c_6:
	.long	16777216
	.long	65536
	.long	256
	.long	1
	.section	".text.pix_raster::view::blit_overlap::<#168afd1b974e4a32>","ax",@progbits
	.p2align	4
	.type	"pix_raster::view::blit_overlap::<#168afd1b974e4a32>",@function
"pix_raster::view::blit_overlap::<#168afd1b974e4a32>":
	pushq	%rbp
	pushq	%r15
	pushq	%r14
	pushq	%r13
	pushq	%r12
	pushq	%rbx
	movq	%rcx, -88(%rsp)
	movq	%rdx, -96(%rsp)
	movq	%rsi, -104(%rsp)
	movq	%rdi, -112(%rsp)
	movq	24(%r8), %r14
	movq	32(%r8), %rax
	movq	%rax, -8(%rsp)
	cmpq	%rax, %r14
	jae	.LBB_5af13c_14
	movq	(%r8), %r15
	movq	16(%r8), %r12
	movq	8(%r8), %rbx
	movq	40(%r8), %rcx
	subq	%r15, %rbx
	movq	%rcx, %rax
	subq	%r14, %rax
	movq	%rax, -56(%rsp)
	movq	%rbx, %rax
	shrq	$4, %rax
	movq	%rax, -80(%rsp)
	movq	%rbx, %rax
	andq	$-16, %rax
	movq	%rax, -16(%rsp)
	leaq	(,%rax,4), %rbp
	movl	%ebx, %r13d
	andl	$15, %r13d
	leal	(,%rbx,4), %edx
	movl	%edx, %eax
	andl	$32, %eax
	movq	%rax, -72(%rsp)
	movq	%rbx, -120(%rsp)
	andl	$12, %ebx
	movq	%r14, %rax
	movq	-104(%rsp), %r9
	imulq	%r9, %rax
	leaq	(,%r15,4), %rsi
	leaq	(%rsi,%rax,4), %r11
	movq	-112(%rsp), %r10
	addq	%r10, %r11
	movq	-88(%rsp), %rdi
	imulq	%rdi, %rcx
	leaq	(,%r12,4), %rsi
	leaq	(%rsi,%rcx,4), %r8
	leaq	(,%rcx,4), %rcx
	addq	%rbp, %rcx
	andl	$48, %edx
	addq	%rdx, %rcx
	movq	%rbp, -64(%rsp)
	leaq	(,%rax,4), %rax
	addq	%rbp, %rax
	addq	%rdx, %rax
	leaq	(,%r9,4), %rdx
	movq	%rdx, -24(%rsp)
	movq	-96(%rsp), %rdx
	addq	%rdx, %r8
	movq	%r12, -48(%rsp)
	leaq	(%rcx,%r12,4), %rcx
	addq	%rdx, %rcx
	movq	%r15, -40(%rsp)
	leaq	(%rax,%r15,4), %rdx
	addq	%r10, %rdx
	leaq	(,%rdi,4), %rax
	movq	%rax, -32(%rsp)
	jmp	.LBB_5af13c_2
	.p2align	4
.LBB_5af13c_13:
	incq	%r14
	movq	-24(%rsp), %rax
	addq	%rax, %r11
	movq	-32(%rsp), %rsi
	addq	%rsi, %r8
	addq	%rsi, %rcx
	addq	%rax, %rdx
	cmpq	-8(%rsp), %r14
	je	.LBB_5af13c_14
.LBB_5af13c_2:
	cmpq	$0, -80(%rsp)
	je	.LBB_5af13c_5
	movl	$32, %ebp
	movq	-80(%rsp), %r12
	.p2align	4
.LBB_5af13c_4:
	movdqu	-32(%r8,%rbp), %xmm7
	movdqu	-16(%r8,%rbp), %xmm10
	pcmpeqd	%xmm3, %xmm3
	movdqu	-32(%r11,%rbp), %xmm8
	movdqu	-16(%r11,%rbp), %xmm9
	movdqa	%xmm9, %xmm1
	pxor	%xmm3, %xmm1
	movdqa	%xmm8, %xmm2
	pxor	%xmm3, %xmm2
	movdqa	.LCPI_5af13c_0(%rip), %xmm5
	pshufb	%xmm5, %xmm2
	pshufb	%xmm5, %xmm1
	movdqa	%xmm7, %xmm6
	movdqa	%xmm10, %xmm4
	movdqa	.LCPI_5af13c_1(%rip), %xmm0
	movdqa	%xmm7, %xmm11
	pand	%xmm0, %xmm11
	movdqa	%xmm10, %xmm12
	pand	%xmm0, %xmm12
	pmullw	%xmm1, %xmm12
	pmullw	%xmm2, %xmm11
	psrlw	$8, %xmm7
	pmullw	%xmm2, %xmm7
	movdqa	.LCPI_5af13c_2(%rip), %xmm2
	paddw	%xmm2, %xmm12
	psrlw	$8, %xmm10
	pmullw	%xmm1, %xmm10
	movdqa	.LCPI_5af13c_3(%rip), %xmm1
	pmulhuw	%xmm1, %xmm12
	paddw	%xmm2, %xmm10
	pmulhuw	%xmm1, %xmm10
	psllw	$8, %xmm10
	por	%xmm12, %xmm10
	pshufb	%xmm5, %xmm6
	pshufb	%xmm5, %xmm4
	paddw	%xmm2, %xmm11
	pmulhuw	%xmm1, %xmm11
	paddw	%xmm2, %xmm7
	pmulhuw	%xmm1, %xmm7
	psllw	$8, %xmm7
	por	%xmm11, %xmm7
	movdqa	%xmm8, %xmm11
	pand	%xmm0, %xmm11
	pmullw	%xmm6, %xmm11
	psrlw	$8, %xmm8
	pmullw	%xmm6, %xmm8
	movdqa	%xmm9, %xmm6
	pand	%xmm0, %xmm6
	pmullw	%xmm4, %xmm6
	psrlw	$8, %xmm9
	pmullw	%xmm4, %xmm9
	movdqu	(%r11,%rbp), %xmm4
	paddw	%xmm2, %xmm6
	pmulhuw	%xmm1, %xmm6
	paddw	%xmm2, %xmm9
	pmulhuw	%xmm1, %xmm9
	psllw	$8, %xmm9
	por	%xmm6, %xmm9
	movdqu	16(%r11,%rbp), %xmm6
	paddw	%xmm2, %xmm11
	pmulhuw	%xmm1, %xmm11
	paddw	%xmm2, %xmm8
	pmulhuw	%xmm1, %xmm8
	paddusb	%xmm10, %xmm9
	psllw	$8, %xmm8
	por	%xmm11, %xmm8
	paddusb	%xmm7, %xmm8
	movdqu	%xmm8, -32(%r11,%rbp)
	movdqu	%xmm9, -16(%r11,%rbp)
	movdqu	(%r8,%rbp), %xmm7
	movdqu	16(%r8,%rbp), %xmm8
	movdqa	%xmm6, %xmm11
	pxor	%xmm3, %xmm11
	pxor	%xmm4, %xmm3
	pshufb	%xmm5, %xmm3
	pshufb	%xmm5, %xmm11
	movdqa	%xmm7, %xmm10
	pshufb	%xmm5, %xmm10
	movdqa	%xmm8, %xmm9
	pshufb	%xmm5, %xmm9
	movdqa	%xmm7, %xmm5
	pand	%xmm0, %xmm5
	pmullw	%xmm3, %xmm5
	psrlw	$8, %xmm7
	pmullw	%xmm3, %xmm7
	movdqa	%xmm8, %xmm3
	pand	%xmm0, %xmm3
	pmullw	%xmm11, %xmm3
	psrlw	$8, %xmm8
	pmullw	%xmm11, %xmm8
	paddw	%xmm2, %xmm3
	pmulhuw	%xmm1, %xmm3
	paddw	%xmm2, %xmm8
	pmulhuw	%xmm1, %xmm8
	psllw	$8, %xmm8
	por	%xmm3, %xmm8
	paddw	%xmm2, %xmm5
	pmulhuw	%xmm1, %xmm5
	paddw	%xmm2, %xmm7
	pmulhuw	%xmm1, %xmm7
	psllw	$8, %xmm7
	por	%xmm5, %xmm7
	movdqa	%xmm4, %xmm3
	pand	%xmm0, %xmm3
	pmullw	%xmm10, %xmm3
	psrlw	$8, %xmm4
	pmullw	%xmm10, %xmm4
	pand	%xmm6, %xmm0
	pmullw	%xmm9, %xmm0
	psrlw	$8, %xmm6
	pmullw	%xmm9, %xmm6
	paddw	%xmm2, %xmm3
	paddw	%xmm2, %xmm0
	paddw	%xmm2, %xmm6
	paddw	%xmm2, %xmm4
	pmulhuw	%xmm1, %xmm0
	pmulhuw	%xmm1, %xmm3
	pmulhuw	%xmm1, %xmm4
	pmulhuw	%xmm1, %xmm6
	psllw	$8, %xmm6
	por	%xmm0, %xmm6
	paddusb	%xmm8, %xmm6
	psllw	$8, %xmm4
	por	%xmm3, %xmm4
	paddusb	%xmm7, %xmm4
	movdqu	%xmm4, (%r11,%rbp)
	movdqu	%xmm6, 16(%r11,%rbp)
	addq	$64, %rbp
	decq	%r12
	jne	.LBB_5af13c_4
.LBB_5af13c_5:
	movq	-16(%rsp), %rax
	cmpq	-120(%rsp), %rax
	je	.LBB_5af13c_13
	movq	%r14, %rax
	imulq	-104(%rsp), %rax
	addq	-40(%rsp), %rax
	movq	-56(%rsp), %rsi
	addq	%r14, %rsi
	imulq	-88(%rsp), %rsi
	addq	-48(%rsp), %rsi
	movq	-112(%rsp), %rdi
	leaq	(%rdi,%rax,4), %r12
	movq	-96(%rsp), %rax
	leaq	(%rax,%rsi,4), %rbp
	movq	-64(%rsp), %rax
	addq	%rax, %r12
	addq	%rax, %rbp
	testb	$8, -120(%rsp)
	jne	.LBB_5af13c_7
	testb	$4, -120(%rsp)
	jne	.LBB_5af13c_9
.LBB_5af13c_10:
	cmpl	%r13d, %ebx
	je	.LBB_5af13c_13
	jmp	.LBB_5af13c_11
	.p2align	4
.LBB_5af13c_7:
	movdqu	(%rbp), %xmm0
	movdqu	16(%rbp), %xmm3
	movdqu	(%r12), %xmm1
	movdqu	16(%r12), %xmm2
	pcmpeqd	%xmm11, %xmm11
	movdqa	%xmm2, %xmm10
	pxor	%xmm11, %xmm10
	pxor	%xmm1, %xmm11
	movdqa	.LCPI_5af13c_0(%rip), %xmm4
	pshufb	%xmm4, %xmm11
	pshufb	%xmm4, %xmm10
	movdqa	%xmm0, %xmm5
	pshufb	%xmm4, %xmm5
	movdqa	%xmm3, %xmm6
	pshufb	%xmm4, %xmm6
	movdqa	.LCPI_5af13c_1(%rip), %xmm4
	movdqa	%xmm0, %xmm9
	pand	%xmm4, %xmm9
	movdqa	%xmm3, %xmm12
	pand	%xmm4, %xmm12
	pmullw	%xmm10, %xmm12
	pmullw	%xmm11, %xmm9
	movdqa	.LCPI_5af13c_2(%rip), %xmm7
	paddw	%xmm7, %xmm9
	paddw	%xmm7, %xmm12
	movdqa	.LCPI_5af13c_3(%rip), %xmm8
	pmulhuw	%xmm8, %xmm12
	pmulhuw	%xmm8, %xmm9
	psrlw	$8, %xmm3
	psrlw	$8, %xmm0
	pmullw	%xmm11, %xmm0
	pmullw	%xmm10, %xmm3
	paddw	%xmm7, %xmm3
	paddw	%xmm7, %xmm0
	pmulhuw	%xmm8, %xmm0
	pmulhuw	%xmm8, %xmm3
	psllw	$8, %xmm3
	por	%xmm12, %xmm3
	psllw	$8, %xmm0
	por	%xmm9, %xmm0
	movdqa	%xmm1, %xmm9
	pand	%xmm4, %xmm9
	pand	%xmm2, %xmm4
	pmullw	%xmm6, %xmm4
	pmullw	%xmm5, %xmm9
	paddw	%xmm7, %xmm9
	paddw	%xmm7, %xmm4
	pmulhuw	%xmm8, %xmm4
	pmulhuw	%xmm8, %xmm9
	psrlw	$8, %xmm2
	psrlw	$8, %xmm1
	pmullw	%xmm5, %xmm1
	pmullw	%xmm6, %xmm2
	paddw	%xmm7, %xmm2
	paddw	%xmm7, %xmm1
	pmulhuw	%xmm8, %xmm1
	pmulhuw	%xmm8, %xmm2
	psllw	$8, %xmm2
	por	%xmm4, %xmm2
	paddusb	%xmm3, %xmm2
	psllw	$8, %xmm1
	por	%xmm9, %xmm1
	paddusb	%xmm0, %xmm1
	movdqu	%xmm1, (%r12)
	movdqu	%xmm2, 16(%r12)
	testb	$4, -120(%rsp)
	je	.LBB_5af13c_10
.LBB_5af13c_9:
	movq	-72(%rsp), %rax
	movdqu	(%rbp,%rax), %xmm0
	movdqu	(%r12,%rax), %xmm3
	pcmpeqd	%xmm1, %xmm1
	movdqa	.LCPI_5af13c_4(%rip), %xmm6
	movdqa	%xmm3, %xmm7
	pshufb	%xmm6, %xmm7
	pxor	%xmm7, %xmm1
	movdqa	.LCPI_5af13c_1(%rip), %xmm2
	movdqa	%xmm0, %xmm4
	pand	%xmm2, %xmm4
	pandn	%xmm2, %xmm7
	pmullw	%xmm4, %xmm7
	movdqa	.LCPI_5af13c_2(%rip), %xmm4
	paddw	%xmm4, %xmm7
	movdqa	.LCPI_5af13c_3(%rip), %xmm5
	pmulhuw	%xmm5, %xmm7
	movdqa	%xmm0, %xmm8
	psrlw	$8, %xmm8
	psrlw	$8, %xmm1
	pmullw	%xmm8, %xmm1
	paddw	%xmm4, %xmm1
	pmulhuw	%xmm5, %xmm1
	psllw	$8, %xmm1
	por	%xmm7, %xmm1
	pshufb	%xmm6, %xmm0
	movdqa	%xmm3, %xmm6
	pand	%xmm2, %xmm6
	pand	%xmm0, %xmm2
	pmullw	%xmm6, %xmm2
	paddw	%xmm4, %xmm2
	pmulhuw	%xmm5, %xmm2
	psrlw	$8, %xmm3
	psrlw	$8, %xmm0
	pmullw	%xmm3, %xmm0
	paddw	%xmm4, %xmm0
	pmulhuw	%xmm5, %xmm0
	psllw	$8, %xmm0
	por	%xmm2, %xmm0
	paddusb	%xmm1, %xmm0
	movdqu	%xmm0, (%r12,%rax)
	cmpl	%r13d, %ebx
	je	.LBB_5af13c_13
.LBB_5af13c_11:
	xorl	%r12d, %r12d
	.p2align	4
.LBB_5af13c_12:
	movl	(%rcx,%r12,4), %eax
	movzbl	%ah, %ebp
	movzbl	%al, %r10d
	movd	%eax, %xmm0
	movl	%eax, %edi
	movl	(%rdx,%r12,4), %eax
	movzbl	%ah, %esi
	movzbl	%al, %r9d
	movl	%eax, %r15d
	shrl	$24, %eax
	movd	%eax, %xmm1
	xorl	$255, %eax
	movd	%eax, %xmm2
	shrl	$16, %edi
	movzbl	%dil, %eax
	psrld	$24, %xmm0
	pshuflw	$0, %xmm0, %xmm3
	pinsrw	$1, %eax, %xmm0
	pinsrw	$2, %ebp, %xmm0
	pinsrw	$3, %r10d, %xmm0
	pshuflw	$0, %xmm2, %xmm2
	pmullw	%xmm2, %xmm0
	movdqa	.LCPI_5af13c_5(%rip), %xmm2
	paddw	%xmm2, %xmm0
	movdqa	%xmm0, %xmm4
	psrlw	$8, %xmm4
	paddw	%xmm0, %xmm4
	shrl	$16, %r15d
	movzbl	%r15b, %eax
	psrlw	$8, %xmm4
	pinsrw	$1, %eax, %xmm1
	pinsrw	$2, %esi, %xmm1
	pinsrw	$3, %r9d, %xmm1
	packuswb	%xmm4, %xmm4
	pmullw	%xmm1, %xmm3
	paddw	%xmm2, %xmm3
	movdqa	%xmm3, %xmm0
	psrlw	$8, %xmm0
	paddw	%xmm3, %xmm0
	psrlw	$8, %xmm0
	packuswb	%xmm0, %xmm0
	paddusb	%xmm4, %xmm0
	pmovzxbd	%xmm0, %xmm0
	pmulld	.LCPI_5af13c_6(%rip), %xmm0
	pshufd	$238, %xmm0, %xmm1
	por	%xmm0, %xmm1
	pshufd	$85, %xmm1, %xmm0
	por	%xmm1, %xmm0
	movd	%xmm0, (%rdx,%r12,4)
	leaq	(%rbx,%r12), %rax
	incq	%rax
	incq	%r12
	cmpq	%r13, %rax
	jb	.LBB_5af13c_12
	jmp	.LBB_5af13c_13
.LBB_5af13c_14:
	popq	%rbx
	popq	%r12
	popq	%r13
	popq	%r14
	popq	%r15
	popq	%rbp
	retq
.Lfunc_end_5af13c:
	.size	"pix_raster::view::blit_overlap::<#168afd1b974e4a32>", .Lfunc_end_5af13c-"pix_raster::view::blit_overlap::<#168afd1b974e4a32>"

	.section	.rodata.cst16,"aM",@progbits,16
	.p2align	4, 0x0
.LCPI_7679a8_0:
	.byte	255
	.byte	0
	.byte	255
	.byte	0
	.byte	255
	.byte	0
	.byte	255
	.byte	0
	.byte	255
	.byte	0
	.byte	255
	.byte	0
	.byte	255
	.byte	0
	.byte	255
	.byte	0
.LCPI_7679a8_1:
	.short	128
	.short	128
	.short	128
	.short	128
	.short	128
	.short	128
	.short	128
	.short	128
.LCPI_7679a8_2:
	.zero	16,1
.LCPI_7679a8_3:
	.byte	3
	.byte	128
	.byte	3
	.byte	128
	.byte	7
	.byte	128
	.byte	7
	.byte	128
	.byte	11
	.byte	128
	.byte	11
	.byte	128
	.byte	15
	.byte	128
	.byte	15
	.byte	128
.LCPI_7679a8_4:
	.byte	3
	.byte	3
	.byte	3
	.byte	3
	.byte	7
	.byte	7
	.byte	7
	.byte	7
	.byte	11
	.byte	11
	.byte	11
	.byte	11
	.byte	15
	.byte	15
	.byte	15
	.byte	15
.LCPI_7679a8_5:
	.short	128
	.short	128
	.short	128
	.short	128
	.zero	2
	.zero	2
	.zero	2
	.zero	2
.LCPI_7679a8_6:
	.long	65536
	.long	16777216
	.long	256
	.long	1
	.section	".text.pix_raster::view::blit_overlap::<#6f0e63a99552414a>","ax",@progbits
	.p2align	4
	.type	"pix_raster::view::blit_overlap::<#6f0e63a99552414a>",@function
"pix_raster::view::blit_overlap::<#6f0e63a99552414a>":
	pushq	%rbp
	pushq	%r15
	pushq	%r14
	pushq	%r13
	pushq	%r12
	pushq	%rbx
	pushq	%rax
	movq	%rsi, -104(%rsp)
	movq	%rdi, -112(%rsp)
	movq	24(%r8), %r15
	movq	32(%r8), %rax
	movq	%rax, (%rsp)
	cmpq	%rax, %r15
	jae	.LBB_7679a8_21
	movl	%r9d, %ebx
	movq	(%r8), %r14
	movq	16(%r8), %rbp
	leaq	(%rdx,%rbp), %rax
	movq	%rax, -32(%rsp)
	movq	8(%r8), %rsi
	movq	40(%r8), %rdi
	subq	%r14, %rsi
	movq	%rdi, %rax
	subq	%r15, %rax
	movq	%rax, -40(%rsp)
	movq	%rsi, %r12
	movq	%rdx, -80(%rsp)
	movl	%r9d, %edx
	shrl	$24, %edx
	movl	%r9d, %r10d
	shrl	$16, %r10d
	movl	%r9d, %eax
	shrl	$8, %eax
	movd	%r9d, %xmm0
	pinsrb	$1, %eax, %xmm0
	pinsrb	$2, %r10d, %xmm0
	pinsrb	$3, %edx, %xmm0
	pinsrb	$4, %r9d, %xmm0
	pinsrb	$5, %eax, %xmm0
	pinsrb	$6, %r10d, %xmm0
	pinsrb	$7, %edx, %xmm0
	pinsrb	$8, %r9d, %xmm0
	pinsrb	$9, %eax, %xmm0
	pinsrb	$10, %r10d, %xmm0
	pinsrb	$11, %edx, %xmm0
	pinsrb	$12, %r9d, %xmm0
	pinsrb	$13, %eax, %xmm0
	shrq	$4, %r12
	pinsrb	$14, %r10d, %xmm0
	movdqa	.LCPI_7679a8_0(%rip), %xmm1
	pand	%xmm0, %xmm1
	pinsrb	$15, %edx, %xmm0
	psrlw	$8, %xmm0
	movq	%rsi, %r11
	andq	$-16, %r11
	leaq	(,%r11,4), %r8
	movl	%esi, %r13d
	andl	$15, %r13d
	movl	%esi, %r9d
	andl	$8, %r9d
	movzbl	%r10b, %eax
	movd	%eax, %xmm11
	movq	%r9, -56(%rsp)
	leal	(,%r9,4), %eax
	movq	%rax, -64(%rsp)
	pinsrw	$1, %edx, %xmm11
	movzbl	%bh, %eax
	pinsrw	$2, %eax, %xmm11
	movq	%rsi, -120(%rsp)
	movl	%esi, %r10d
	andl	$12, %r10d
	movzbl	%bl, %eax
	pinsrw	$3, %eax, %xmm11
	imulq	%rcx, %rdi
	addq	%rbp, %rdi
	movq	-80(%rsp), %rax
	leaq	(%rax,%rdi), %rbp
	addq	$8, %rbp
	movq	%r11, -88(%rsp)
	addq	%r10, %r11
	addq	%rax, %r11
	movq	%r15, %rax
	movq	-104(%rsp), %r9
	imulq	%r9, %rax
	addq	%rdi, %r11
	leaq	(%r14,%rax), %rdx
	movq	-112(%rsp), %rsi
	leaq	(%rsi,%rdx,4), %rdi
	movq	%r8, -48(%rsp)
	leaq	(%r8,%rax,4), %rax
	movq	%r10, -96(%rsp)
	leaq	(%rax,%r10,4), %rax
	movq	%r14, -24(%rsp)
	leaq	(%rax,%r14,4), %r8
	addq	%rsi, %r8
	movq	%r12, -8(%rsp)
	leaq	(,%r12,4), %r10
	leaq	(,%r9,4), %rax
	movq	%rax, -16(%rsp)
	movdqa	%xmm11, -80(%rsp)
	jmp	.LBB_7679a8_2
	.p2align	4
.LBB_7679a8_20:
	incq	%r15
	addq	%rcx, %rbp
	movq	-16(%rsp), %rax
	addq	%rax, %rdi
	addq	%rcx, %r11
	addq	%rax, %r8
	cmpq	(%rsp), %r15
	je	.LBB_7679a8_21
.LBB_7679a8_2:
	cmpq	$0, -8(%rsp)
	je	.LBB_7679a8_8
	xorl	%r12d, %r12d
	movq	%rdi, %rdx
	jmp	.LBB_7679a8_4
	.p2align	4
.LBB_7679a8_6:
	movq	%rax, %xmm11
	punpcklbw	%xmm11, %xmm11
	movdqa	%xmm11, %xmm10
	punpcklwd	%xmm11, %xmm10
	punpckhwd	%xmm11, %xmm11
	movdqa	.LCPI_7679a8_0(%rip), %xmm3
	movdqa	%xmm11, %xmm7
	pand	%xmm3, %xmm7
	movdqa	%xmm10, %xmm14
	pand	%xmm3, %xmm14
	pmullw	%xmm1, %xmm14
	pmullw	%xmm1, %xmm7
	movdqa	.LCPI_7679a8_1(%rip), %xmm5
	paddw	%xmm5, %xmm7
	paddw	%xmm5, %xmm14
	movdqa	.LCPI_7679a8_2(%rip), %xmm4
	pmulhuw	%xmm4, %xmm14
	pmulhuw	%xmm4, %xmm7
	psrlw	$8, %xmm10
	psrlw	$8, %xmm11
	pmullw	%xmm0, %xmm11
	pmullw	%xmm0, %xmm10
	paddw	%xmm5, %xmm10
	paddw	%xmm5, %xmm11
	pmulhuw	%xmm4, %xmm11
	pmulhuw	%xmm4, %xmm10
	psllw	$8, %xmm10
	psllw	$8, %xmm11
	por	%xmm7, %xmm11
	por	%xmm14, %xmm10
	pcmpeqd	%xmm8, %xmm8
	movdqu	(%rdx), %xmm12
	movdqu	16(%rdx), %xmm13
	movdqa	%xmm13, %xmm6
	pxor	%xmm8, %xmm6
	movdqa	%xmm12, %xmm2
	pxor	%xmm8, %xmm2
	movdqa	.LCPI_7679a8_3(%rip), %xmm9
	pshufb	%xmm9, %xmm2
	pshufb	%xmm9, %xmm6
	movdqa	%xmm10, %xmm15
	pand	%xmm3, %xmm14
	pmullw	%xmm2, %xmm14
	psrlw	$8, %xmm10
	pmullw	%xmm2, %xmm10
	movdqa	%xmm11, %xmm2
	pand	%xmm3, %xmm7
	pmullw	%xmm6, %xmm7
	psrlw	$8, %xmm11
	pmullw	%xmm6, %xmm11
	movdqu	32(%rdx), %xmm6
	paddw	%xmm5, %xmm7
	pmulhuw	%xmm4, %xmm7
	paddw	%xmm5, %xmm11
	pmulhuw	%xmm4, %xmm11
	psllw	$8, %xmm11
	por	%xmm7, %xmm11
	movdqu	48(%rdx), %xmm7
	pshufb	%xmm9, %xmm15
	pshufb	%xmm9, %xmm2
	paddw	%xmm5, %xmm14
	pmulhuw	%xmm4, %xmm14
	paddw	%xmm5, %xmm10
	pmulhuw	%xmm4, %xmm10
	psllw	$8, %xmm10
	por	%xmm14, %xmm10
	movdqa	%xmm12, %xmm14
	pand	%xmm3, %xmm14
	pmullw	%xmm15, %xmm14
	psrlw	$8, %xmm12
	pmullw	%xmm15, %xmm12
	movdqa	%xmm13, %xmm15
	pand	%xmm3, %xmm15
	pmullw	%xmm2, %xmm15
	paddw	%xmm5, %xmm14
	paddw	%xmm5, %xmm15
	pmulhuw	%xmm4, %xmm15
	pmulhuw	%xmm4, %xmm14
	psrlw	$8, %xmm13
	pmullw	%xmm2, %xmm13
	paddw	%xmm5, %xmm13
	paddw	%xmm5, %xmm12
	pmulhuw	%xmm4, %xmm12
	pmulhuw	%xmm4, %xmm13
	psllw	$8, %xmm13
	por	%xmm15, %xmm13
	paddusb	%xmm11, %xmm13
	psllw	$8, %xmm12
	por	%xmm14, %xmm12
	paddusb	%xmm10, %xmm12
	movdqu	%xmm12, (%rdx)
	movdqu	%xmm13, 16(%rdx)
	movq	(%rbp,%r12,4), %xmm11
	punpcklbw	%xmm11, %xmm11
	movdqa	%xmm11, %xmm10
	punpcklwd	%xmm11, %xmm10
	punpckhwd	%xmm11, %xmm11
	movdqa	%xmm11, %xmm13
	pand	%xmm3, %xmm13
	movdqa	%xmm10, %xmm12
	pand	%xmm3, %xmm12
	pmullw	%xmm1, %xmm12
	pmullw	%xmm1, %xmm13
	paddw	%xmm5, %xmm13
	paddw	%xmm5, %xmm12
	pmulhuw	%xmm4, %xmm12
	pmulhuw	%xmm4, %xmm13
	psrlw	$8, %xmm10
	psrlw	$8, %xmm11
	pmullw	%xmm0, %xmm11
	pmullw	%xmm0, %xmm10
	paddw	%xmm5, %xmm10
	paddw	%xmm5, %xmm11
	pmulhuw	%xmm4, %xmm11
	pmulhuw	%xmm4, %xmm10
	psllw	$8, %xmm10
	psllw	$8, %xmm11
	por	%xmm13, %xmm11
	por	%xmm12, %xmm10
	movdqa	%xmm7, %xmm2
	pxor	%xmm8, %xmm2
	pxor	%xmm6, %xmm8
	pshufb	%xmm9, %xmm8
	pshufb	%xmm9, %xmm2
	movdqa	%xmm10, %xmm15
	pshufb	%xmm9, %xmm15
	movdqa	%xmm11, %xmm14
	pshufb	%xmm9, %xmm14
	pand	%xmm3, %xmm12
	pmullw	%xmm8, %xmm12
	psrlw	$8, %xmm10
	pmullw	%xmm8, %xmm10
	pand	%xmm3, %xmm13
	pmullw	%xmm2, %xmm13
	psrlw	$8, %xmm11
	pmullw	%xmm2, %xmm11
	paddw	%xmm5, %xmm13
	pmulhuw	%xmm4, %xmm13
	paddw	%xmm5, %xmm11
	pmulhuw	%xmm4, %xmm11
	psllw	$8, %xmm11
	por	%xmm13, %xmm11
	paddw	%xmm5, %xmm12
	pmulhuw	%xmm4, %xmm12
	paddw	%xmm5, %xmm10
	pmulhuw	%xmm4, %xmm10
	psllw	$8, %xmm10
	por	%xmm12, %xmm10
	movdqa	%xmm6, %xmm2
	pand	%xmm3, %xmm2
	pmullw	%xmm15, %xmm2
	psrlw	$8, %xmm6
	pmullw	%xmm15, %xmm6
	pand	%xmm7, %xmm3
	pmullw	%xmm14, %xmm3
	psrlw	$8, %xmm7
	pmullw	%xmm14, %xmm7
	paddw	%xmm5, %xmm2
	paddw	%xmm5, %xmm3
	paddw	%xmm5, %xmm7
	paddw	%xmm5, %xmm6
	pmulhuw	%xmm4, %xmm3
	pmulhuw	%xmm4, %xmm2
	pmulhuw	%xmm4, %xmm6
	pmulhuw	%xmm4, %xmm7
	psllw	$8, %xmm7
	por	%xmm3, %xmm7
	paddusb	%xmm11, %xmm7
	movdqa	-80(%rsp), %xmm11
	psllw	$8, %xmm6
	por	%xmm2, %xmm6
	paddusb	%xmm10, %xmm6
	movdqu	%xmm6, 32(%rdx)
	movdqu	%xmm7, 48(%rdx)
	addq	$4, %r12
	addq	$64, %rdx
	cmpq	%r12, %r10
	je	.LBB_7679a8_8
.LBB_7679a8_4:
	movq	-8(%rbp,%r12,4), %rax
	movq	(%rbp,%r12,4), %rsi
	orq	%rax, %rsi
	jne	.LBB_7679a8_6
	pxor	%xmm2, %xmm2
	movdqu	%xmm2, 48(%rdx)
	movdqu	%xmm2, 32(%rdx)
	movdqu	%xmm2, 16(%rdx)
	movdqu	%xmm2, (%rdx)
	addq	$4, %r12
	addq	$64, %rdx
	cmpq	%r12, %r10
	jne	.LBB_7679a8_4
.LBB_7679a8_8:
	movq	-88(%rsp), %rax
	cmpq	-120(%rsp), %rax
	je	.LBB_7679a8_20
	movq	%r15, %rax
	imulq	-104(%rsp), %rax
	addq	-24(%rsp), %rax
	movq	-40(%rsp), %rdx
	leaq	(%rdx,%r15), %r12
	imulq	%rcx, %r12
	addq	-32(%rsp), %r12
	movq	-112(%rsp), %rdx
	leaq	(%rdx,%rax,4), %rdx
	addq	-48(%rsp), %rdx
	addq	-88(%rsp), %r12
	testb	$8, -120(%rsp)
	jne	.LBB_7679a8_10
	testb	$4, -120(%rsp)
	jne	.LBB_7679a8_14
.LBB_7679a8_17:
	cmpl	%r13d, -96(%rsp)
	je	.LBB_7679a8_20
	jmp	.LBB_7679a8_18
	.p2align	4
.LBB_7679a8_10:
	movq	(%r12), %rax
	testq	%rax, %rax
	je	.LBB_7679a8_11
	movq	%rax, %xmm4
	punpcklbw	%xmm4, %xmm4
	movdqa	%xmm4, %xmm3
	punpcklwd	%xmm4, %xmm3
	punpckhwd	%xmm4, %xmm4
	movdqa	.LCPI_7679a8_0(%rip), %xmm5
	movdqa	%xmm4, %xmm11
	pand	%xmm5, %xmm11
	movdqa	%xmm3, %xmm10
	pand	%xmm5, %xmm10
	pmullw	%xmm1, %xmm10
	pmullw	%xmm1, %xmm11
	movdqa	.LCPI_7679a8_1(%rip), %xmm6
	paddw	%xmm6, %xmm11
	paddw	%xmm6, %xmm10
	movdqa	.LCPI_7679a8_2(%rip), %xmm7
	pmulhuw	%xmm7, %xmm10
	pmulhuw	%xmm7, %xmm11
	psrlw	$8, %xmm3
	psrlw	$8, %xmm4
	pmullw	%xmm0, %xmm4
	pmullw	%xmm0, %xmm3
	paddw	%xmm6, %xmm3
	paddw	%xmm6, %xmm4
	pmulhuw	%xmm7, %xmm4
	pmulhuw	%xmm7, %xmm3
	psllw	$8, %xmm3
	psllw	$8, %xmm4
	por	%xmm11, %xmm4
	por	%xmm10, %xmm3
	movdqu	(%rdx), %xmm8
	movdqu	16(%rdx), %xmm9
	pcmpeqd	%xmm14, %xmm14
	movdqa	%xmm9, %xmm2
	pxor	%xmm14, %xmm2
	pxor	%xmm8, %xmm14
	movdqa	.LCPI_7679a8_3(%rip), %xmm15
	pshufb	%xmm15, %xmm14
	pshufb	%xmm15, %xmm2
	movdqa	%xmm3, %xmm12
	pshufb	%xmm15, %xmm12
	movdqa	%xmm4, %xmm13
	pshufb	%xmm15, %xmm13
	pand	%xmm5, %xmm10
	pand	%xmm5, %xmm11
	pmullw	%xmm2, %xmm11
	pmullw	%xmm14, %xmm10
	paddw	%xmm6, %xmm10
	paddw	%xmm6, %xmm11
	pmulhuw	%xmm7, %xmm11
	pmulhuw	%xmm7, %xmm10
	psrlw	$8, %xmm4
	psrlw	$8, %xmm3
	pmullw	%xmm14, %xmm3
	pmullw	%xmm2, %xmm4
	paddw	%xmm6, %xmm4
	paddw	%xmm6, %xmm3
	pmulhuw	%xmm7, %xmm3
	pmulhuw	%xmm7, %xmm4
	psllw	$8, %xmm4
	por	%xmm11, %xmm4
	movdqa	-80(%rsp), %xmm11
	psllw	$8, %xmm3
	por	%xmm10, %xmm3
	movdqa	%xmm8, %xmm2
	pand	%xmm5, %xmm2
	pand	%xmm9, %xmm5
	pmullw	%xmm13, %xmm5
	pmullw	%xmm12, %xmm2
	paddw	%xmm6, %xmm2
	paddw	%xmm6, %xmm5
	pmulhuw	%xmm7, %xmm5
	pmulhuw	%xmm7, %xmm2
	psrlw	$8, %xmm9
	psrlw	$8, %xmm8
	pmullw	%xmm12, %xmm8
	pmullw	%xmm13, %xmm9
	paddw	%xmm6, %xmm9
	paddw	%xmm6, %xmm8
	pmulhuw	%xmm7, %xmm8
	pmulhuw	%xmm7, %xmm9
	psllw	$8, %xmm9
	por	%xmm5, %xmm9
	paddusb	%xmm4, %xmm9
	psllw	$8, %xmm8
	por	%xmm2, %xmm8
	paddusb	%xmm3, %xmm8
	movdqu	%xmm8, (%rdx)
	movdqu	%xmm9, 16(%rdx)
	testb	$4, -120(%rsp)
	je	.LBB_7679a8_17
	jmp	.LBB_7679a8_14
.LBB_7679a8_11:
	pxor	%xmm2, %xmm2
	movdqu	%xmm2, 16(%rdx)
	movdqu	%xmm2, (%rdx)
	testb	$4, -120(%rsp)
	je	.LBB_7679a8_17
	.p2align	4
.LBB_7679a8_14:
	addq	-64(%rsp), %rdx
	movq	-56(%rsp), %rax
	movl	(%r12,%rax), %eax
	testl	%eax, %eax
	je	.LBB_7679a8_15
	movd	%eax, %xmm3
	punpcklbw	%xmm3, %xmm3
	punpcklwd	%xmm3, %xmm3
	movdqa	.LCPI_7679a8_0(%rip), %xmm4
	movdqa	%xmm3, %xmm8
	pand	%xmm4, %xmm8
	pmullw	%xmm1, %xmm8
	movdqa	.LCPI_7679a8_1(%rip), %xmm5
	paddw	%xmm5, %xmm8
	movdqa	.LCPI_7679a8_2(%rip), %xmm6
	pmulhuw	%xmm6, %xmm8
	psrlw	$8, %xmm3
	pmullw	%xmm0, %xmm3
	paddw	%xmm5, %xmm3
	pmulhuw	%xmm6, %xmm3
	psllw	$8, %xmm3
	por	%xmm8, %xmm3
	movdqu	(%rdx), %xmm7
	pcmpeqd	%xmm2, %xmm2
	movdqa	.LCPI_7679a8_4(%rip), %xmm9
	movdqa	%xmm7, %xmm10
	pshufb	%xmm9, %xmm10
	pxor	%xmm10, %xmm2
	pand	%xmm4, %xmm8
	pandn	%xmm4, %xmm10
	pmullw	%xmm8, %xmm10
	paddw	%xmm5, %xmm10
	pmulhuw	%xmm6, %xmm10
	movdqa	%xmm3, %xmm8
	psrlw	$8, %xmm8
	psrlw	$8, %xmm2
	pmullw	%xmm8, %xmm2
	paddw	%xmm5, %xmm2
	pmulhuw	%xmm6, %xmm2
	psllw	$8, %xmm2
	por	%xmm10, %xmm2
	pshufb	%xmm9, %xmm3
	movdqa	%xmm7, %xmm8
	pand	%xmm4, %xmm8
	pand	%xmm3, %xmm4
	pmullw	%xmm8, %xmm4
	paddw	%xmm5, %xmm4
	pmulhuw	%xmm6, %xmm4
	psrlw	$8, %xmm7
	psrlw	$8, %xmm3
	pmullw	%xmm7, %xmm3
	paddw	%xmm5, %xmm3
	pmulhuw	%xmm6, %xmm3
	psllw	$8, %xmm3
	por	%xmm4, %xmm3
	paddusb	%xmm2, %xmm3
	movdqu	%xmm3, (%rdx)
	cmpl	%r13d, -96(%rsp)
	je	.LBB_7679a8_20
	jmp	.LBB_7679a8_18
.LBB_7679a8_15:
	pxor	%xmm2, %xmm2
	movdqu	%xmm2, (%rdx)
	cmpl	%r13d, -96(%rsp)
	je	.LBB_7679a8_20
	.p2align	4
.LBB_7679a8_18:
	xorl	%esi, %esi
	movq	-96(%rsp), %r12
	.p2align	4
.LBB_7679a8_19:
	movl	(%r8,%rsi,4), %eax
	movzbl	%ah, %ebx
	movl	%eax, %edx
	movzbl	%al, %r9d
	shrl	$16, %eax
	shrl	$24, %edx
	movzbl	(%r11,%rsi), %r14d
	movd	%r14d, %xmm2
	pshuflw	$0, %xmm2, %xmm2
	pmullw	%xmm11, %xmm2
	movzbl	%al, %eax
	movd	%eax, %xmm3
	pinsrw	$1, %edx, %xmm3
	xorl	$255, %edx
	movdqa	.LCPI_7679a8_5(%rip), %xmm4
	paddw	%xmm4, %xmm2
	movdqa	%xmm2, %xmm5
	psrlw	$8, %xmm5
	paddw	%xmm2, %xmm5
	psrlw	$8, %xmm5
	movd	%edx, %xmm2
	pshuflw	$0, %xmm2, %xmm2
	pmullw	%xmm5, %xmm2
	paddw	%xmm4, %xmm2
	movdqa	%xmm2, %xmm6
	psrlw	$8, %xmm6
	paddw	%xmm2, %xmm6
	psrlw	$8, %xmm6
	packuswb	%xmm6, %xmm6
	pinsrw	$2, %ebx, %xmm3
	pinsrw	$3, %r9d, %xmm3
	pshuflw	$85, %xmm5, %xmm2
	pmullw	%xmm2, %xmm3
	paddw	%xmm4, %xmm3
	movdqa	%xmm3, %xmm2
	psrlw	$8, %xmm2
	paddw	%xmm3, %xmm2
	psrlw	$8, %xmm2
	packuswb	%xmm2, %xmm2
	paddusb	%xmm6, %xmm2
	pmovzxbd	%xmm2, %xmm2
	pmulld	.LCPI_7679a8_6(%rip), %xmm2
	pshufd	$238, %xmm2, %xmm3
	por	%xmm2, %xmm3
	pshufd	$85, %xmm3, %xmm2
	por	%xmm3, %xmm2
	movd	%xmm2, (%r8,%rsi,4)
	incq	%r12
	incq	%rsi
	cmpq	%r13, %r12
	jb	.LBB_7679a8_19
	jmp	.LBB_7679a8_20
.LBB_7679a8_21:
	addq	$8, %rsp
	popq	%rbx
	popq	%r12
	popq	%r13
	popq	%r14
	popq	%r15
	popq	%rbp
	retq
.Lfunc_end_7679a8:
	.size	"pix_raster::view::blit_overlap::<#6f0e63a99552414a>", .Lfunc_end_7679a8-"pix_raster::view::blit_overlap::<#6f0e63a99552414a>"

	.section	.rodata.cst16,"aM",@progbits,16
	.p2align	4, 0x0
.LCPI_fec336_0:
	.byte	255
	.byte	0
	.byte	255
	.byte	0
	.byte	255
	.byte	0
	.byte	255
	.byte	0
	.byte	255
	.byte	0
	.byte	255
	.byte	0
	.byte	255
	.byte	0
	.byte	255
	.byte	0
.LCPI_fec336_1:
	.short	128
	.short	128
	.short	128
	.short	128
	.short	128
	.short	128
	.short	128
	.short	128
.LCPI_fec336_2:
	.zero	16,1
.LCPI_fec336_3:
	.byte	3
	.byte	128
	.byte	3
	.byte	128
	.byte	7
	.byte	128
	.byte	7
	.byte	128
	.byte	11
	.byte	128
	.byte	11
	.byte	128
	.byte	15
	.byte	128
	.byte	15
	.byte	128
.LCPI_fec336_4:
	.byte	3
	.byte	3
	.byte	3
	.byte	3
	.byte	7
	.byte	7
	.byte	7
	.byte	7
	.byte	11
	.byte	11
	.byte	11
	.byte	11
	.byte	15
	.byte	15
	.byte	15
	.byte	15
.LCPI_fec336_5:
	.short	128
	.short	128
	.short	128
	.short	128
	.zero	2
	.zero	2
	.zero	2
	.zero	2
.LCPI_fec336_6:
	.long	65536
	.long	16777216
	.long	256
	.long	1
	.section	".text.pix_raster::view::blit_overlap::<#9d2a39c7bba67463>","ax",@progbits
	.p2align	4
	.type	"pix_raster::view::blit_overlap::<#9d2a39c7bba67463>",@function
"pix_raster::view::blit_overlap::<#9d2a39c7bba67463>":
	pushq	%rbp
	pushq	%r15
	pushq	%r14
	pushq	%r13
	pushq	%r12
	pushq	%rbx
	pushq	%rax
	movq	%rcx, -88(%rsp)
	movq	%rdx, -96(%rsp)
	movq	%rsi, -104(%rsp)
	movq	%rdi, -112(%rsp)
	movq	24(%r8), %r10
	movq	32(%r8), %rax
	movq	%rax, -24(%rsp)
	cmpq	%rax, %r10
	jae	.LBB_fec336_14
	movq	(%r8), %rsi
	movq	16(%r8), %rcx
	movq	%rcx, -128(%rsp)
	movq	8(%r8), %r15
	movq	40(%r8), %rcx
	subq	%rsi, %r15
	movq	%rsi, -120(%rsp)
	movq	%rcx, %rax
	subq	%r10, %rax
	movq	%rax, -56(%rsp)
	movq	%r15, %rax
	shrq	$4, %rax
	movq	%rax, -80(%rsp)
	movzbl	%r9b, %eax
	movd	%eax, %xmm1
	pxor	%xmm0, %xmm0
	pshuflw	$0, %xmm1, %xmm11
	pshufb	%xmm0, %xmm1
	movdqa	.LCPI_fec336_0(%rip), %xmm2
	pand	%xmm1, %xmm2
	psrlw	$8, %xmm1
	movq	%r15, %rax
	andq	$-16, %rax
	movq	%rax, -32(%rsp)
	leaq	(,%rax,4), %rdi
	movl	%r15d, %r13d
	andl	$15, %r13d
	leal	(,%r15,4), %eax
	movl	%eax, %edx
	andl	$32, %edx
	movq	%rdx, -72(%rsp)
	movl	%r15d, %r14d
	andl	$12, %r14d
	movq	%r10, %rdx
	movq	-104(%rsp), %r12
	imulq	%r12, %rdx
	leaq	(,%rsi,4), %rsi
	leaq	(%rsi,%rdx,4), %rbx
	movq	-112(%rsp), %rbp
	addq	%rbp, %rbx
	movq	-88(%rsp), %r11
	imulq	%r11, %rcx
	movq	-128(%rsp), %r9
	leaq	(,%r9,4), %rsi
	leaq	(%rsi,%rcx,4), %r8
	leaq	(%rdi,%rcx,4), %rcx
	andl	$48, %eax
	addq	%rax, %rcx
	movq	%rdi, -64(%rsp)
	leaq	(%rdi,%rdx,4), %rdx
	addq	%rax, %rdx
	leaq	(,%r12,4), %rax
	movq	%rax, -40(%rsp)
	movq	-96(%rsp), %rax
	addq	%rax, %r8
	leaq	(%rcx,%r9,4), %rcx
	addq	%rax, %rcx
	movq	-120(%rsp), %rax
	leaq	(%rdx,%rax,4), %rdx
	addq	%rbp, %rdx
	leaq	(,%r11,4), %rax
	movq	%rax, -48(%rsp)
	movdqa	%xmm11, -16(%rsp)
	jmp	.LBB_fec336_2
	.p2align	4
.LBB_fec336_13:
	incq	%r10
	movq	-40(%rsp), %rax
	addq	%rax, %rbx
	movq	-48(%rsp), %rsi
	addq	%rsi, %r8
	addq	%rsi, %rcx
	addq	%rax, %rdx
	cmpq	-24(%rsp), %r10
	je	.LBB_fec336_14
.LBB_fec336_2:
	cmpq	$0, -80(%rsp)
	je	.LBB_fec336_5
	movl	$32, %ebp
	movq	-80(%rsp), %r12
	.p2align	4
.LBB_fec336_4:
	movdqu	-32(%r8,%rbp), %xmm10
	movdqu	-16(%r8,%rbp), %xmm11
	movdqa	.LCPI_fec336_0(%rip), %xmm3
	movdqa	%xmm11, %xmm7
	pand	%xmm3, %xmm7
	movdqa	%xmm10, %xmm14
	pand	%xmm3, %xmm14
	pmullw	%xmm2, %xmm14
	pmullw	%xmm2, %xmm7
	movdqa	.LCPI_fec336_1(%rip), %xmm5
	paddw	%xmm5, %xmm7
	paddw	%xmm5, %xmm14
	movdqa	.LCPI_fec336_2(%rip), %xmm4
	pmulhuw	%xmm4, %xmm14
	pmulhuw	%xmm4, %xmm7
	psrlw	$8, %xmm10
	psrlw	$8, %xmm11
	pmullw	%xmm1, %xmm11
	pmullw	%xmm1, %xmm10
	paddw	%xmm5, %xmm10
	paddw	%xmm5, %xmm11
	pmulhuw	%xmm4, %xmm11
	pmulhuw	%xmm4, %xmm10
	psllw	$8, %xmm10
	psllw	$8, %xmm11
	por	%xmm7, %xmm11
	por	%xmm14, %xmm10
	pcmpeqd	%xmm8, %xmm8
	movdqu	-32(%rbx,%rbp), %xmm12
	movdqu	-16(%rbx,%rbp), %xmm13
	movdqa	%xmm13, %xmm6
	pxor	%xmm8, %xmm6
	movdqa	%xmm12, %xmm0
	pxor	%xmm8, %xmm0
	movdqa	.LCPI_fec336_3(%rip), %xmm9
	pshufb	%xmm9, %xmm0
	pshufb	%xmm9, %xmm6
	movdqa	%xmm10, %xmm15
	pand	%xmm3, %xmm14
	pmullw	%xmm0, %xmm14
	psrlw	$8, %xmm10
	pmullw	%xmm0, %xmm10
	movdqa	%xmm11, %xmm0
	pand	%xmm3, %xmm7
	pmullw	%xmm6, %xmm7
	psrlw	$8, %xmm11
	pmullw	%xmm6, %xmm11
	movdqu	(%rbx,%rbp), %xmm6
	paddw	%xmm5, %xmm7
	pmulhuw	%xmm4, %xmm7
	paddw	%xmm5, %xmm11
	pmulhuw	%xmm4, %xmm11
	psllw	$8, %xmm11
	por	%xmm7, %xmm11
	movdqu	16(%rbx,%rbp), %xmm7
	pshufb	%xmm9, %xmm15
	pshufb	%xmm9, %xmm0
	paddw	%xmm5, %xmm14
	pmulhuw	%xmm4, %xmm14
	paddw	%xmm5, %xmm10
	pmulhuw	%xmm4, %xmm10
	psllw	$8, %xmm10
	por	%xmm14, %xmm10
	movdqa	%xmm12, %xmm14
	pand	%xmm3, %xmm14
	pmullw	%xmm15, %xmm14
	psrlw	$8, %xmm12
	pmullw	%xmm15, %xmm12
	movdqa	%xmm13, %xmm15
	pand	%xmm3, %xmm15
	pmullw	%xmm0, %xmm15
	paddw	%xmm5, %xmm14
	paddw	%xmm5, %xmm15
	pmulhuw	%xmm4, %xmm15
	pmulhuw	%xmm4, %xmm14
	psrlw	$8, %xmm13
	pmullw	%xmm0, %xmm13
	paddw	%xmm5, %xmm13
	paddw	%xmm5, %xmm12
	pmulhuw	%xmm4, %xmm12
	pmulhuw	%xmm4, %xmm13
	psllw	$8, %xmm13
	por	%xmm15, %xmm13
	paddusb	%xmm11, %xmm13
	psllw	$8, %xmm12
	por	%xmm14, %xmm12
	paddusb	%xmm10, %xmm12
	movdqu	%xmm12, -32(%rbx,%rbp)
	movdqu	%xmm13, -16(%rbx,%rbp)
	movdqu	(%r8,%rbp), %xmm10
	movdqu	16(%r8,%rbp), %xmm11
	movdqa	%xmm11, %xmm13
	pand	%xmm3, %xmm13
	movdqa	%xmm10, %xmm12
	pand	%xmm3, %xmm12
	pmullw	%xmm2, %xmm12
	pmullw	%xmm2, %xmm13
	paddw	%xmm5, %xmm13
	paddw	%xmm5, %xmm12
	pmulhuw	%xmm4, %xmm12
	pmulhuw	%xmm4, %xmm13
	psrlw	$8, %xmm10
	psrlw	$8, %xmm11
	pmullw	%xmm1, %xmm11
	pmullw	%xmm1, %xmm10
	paddw	%xmm5, %xmm10
	paddw	%xmm5, %xmm11
	pmulhuw	%xmm4, %xmm11
	pmulhuw	%xmm4, %xmm10
	psllw	$8, %xmm10
	psllw	$8, %xmm11
	por	%xmm13, %xmm11
	por	%xmm12, %xmm10
	movdqa	%xmm7, %xmm0
	pxor	%xmm8, %xmm0
	pxor	%xmm6, %xmm8
	pshufb	%xmm9, %xmm8
	pshufb	%xmm9, %xmm0
	movdqa	%xmm10, %xmm15
	pshufb	%xmm9, %xmm15
	movdqa	%xmm11, %xmm14
	pshufb	%xmm9, %xmm14
	pand	%xmm3, %xmm12
	pmullw	%xmm8, %xmm12
	psrlw	$8, %xmm10
	pmullw	%xmm8, %xmm10
	pand	%xmm3, %xmm13
	pmullw	%xmm0, %xmm13
	psrlw	$8, %xmm11
	pmullw	%xmm0, %xmm11
	paddw	%xmm5, %xmm13
	pmulhuw	%xmm4, %xmm13
	paddw	%xmm5, %xmm11
	pmulhuw	%xmm4, %xmm11
	psllw	$8, %xmm11
	por	%xmm13, %xmm11
	paddw	%xmm5, %xmm12
	pmulhuw	%xmm4, %xmm12
	paddw	%xmm5, %xmm10
	pmulhuw	%xmm4, %xmm10
	psllw	$8, %xmm10
	por	%xmm12, %xmm10
	movdqa	%xmm6, %xmm0
	pand	%xmm3, %xmm0
	pmullw	%xmm15, %xmm0
	psrlw	$8, %xmm6
	pmullw	%xmm15, %xmm6
	pand	%xmm7, %xmm3
	pmullw	%xmm14, %xmm3
	psrlw	$8, %xmm7
	pmullw	%xmm14, %xmm7
	paddw	%xmm5, %xmm0
	paddw	%xmm5, %xmm3
	paddw	%xmm5, %xmm7
	paddw	%xmm5, %xmm6
	pmulhuw	%xmm4, %xmm3
	pmulhuw	%xmm4, %xmm0
	pmulhuw	%xmm4, %xmm6
	pmulhuw	%xmm4, %xmm7
	psllw	$8, %xmm7
	por	%xmm3, %xmm7
	paddusb	%xmm11, %xmm7
	psllw	$8, %xmm6
	por	%xmm0, %xmm6
	paddusb	%xmm10, %xmm6
	movdqu	%xmm6, (%rbx,%rbp)
	movdqu	%xmm7, 16(%rbx,%rbp)
	addq	$64, %rbp
	decq	%r12
	jne	.LBB_fec336_4
.LBB_fec336_5:
	cmpq	%r15, -32(%rsp)
	movdqa	-16(%rsp), %xmm11
	je	.LBB_fec336_13
	movq	%r10, %rax
	imulq	-104(%rsp), %rax
	addq	-120(%rsp), %rax
	movq	-56(%rsp), %rsi
	addq	%r10, %rsi
	imulq	-88(%rsp), %rsi
	addq	-128(%rsp), %rsi
	movq	-112(%rsp), %rdi
	leaq	(%rdi,%rax,4), %r12
	movq	-96(%rsp), %rax
	leaq	(%rax,%rsi,4), %rbp
	movq	-64(%rsp), %rax
	addq	%rax, %r12
	addq	%rax, %rbp
	testb	$8, %r15b
	jne	.LBB_fec336_7
	testb	$4, %r15b
	jne	.LBB_fec336_9
.LBB_fec336_10:
	cmpl	%r13d, %r14d
	je	.LBB_fec336_13
	jmp	.LBB_fec336_11
	.p2align	4
.LBB_fec336_7:
	movdqu	(%rbp), %xmm3
	movdqu	16(%rbp), %xmm4
	movdqa	.LCPI_fec336_0(%rip), %xmm5
	movdqa	%xmm4, %xmm11
	pand	%xmm5, %xmm11
	movdqa	%xmm3, %xmm10
	pand	%xmm5, %xmm10
	pmullw	%xmm2, %xmm10
	pmullw	%xmm2, %xmm11
	movdqa	.LCPI_fec336_1(%rip), %xmm6
	paddw	%xmm6, %xmm11
	paddw	%xmm6, %xmm10
	movdqa	.LCPI_fec336_2(%rip), %xmm7
	pmulhuw	%xmm7, %xmm10
	pmulhuw	%xmm7, %xmm11
	psrlw	$8, %xmm3
	psrlw	$8, %xmm4
	pmullw	%xmm1, %xmm4
	pmullw	%xmm1, %xmm3
	paddw	%xmm6, %xmm3
	paddw	%xmm6, %xmm4
	pmulhuw	%xmm7, %xmm4
	pmulhuw	%xmm7, %xmm3
	psllw	$8, %xmm3
	psllw	$8, %xmm4
	por	%xmm11, %xmm4
	por	%xmm10, %xmm3
	movdqu	(%r12), %xmm8
	movdqu	16(%r12), %xmm9
	pcmpeqd	%xmm14, %xmm14
	movdqa	%xmm9, %xmm0
	pxor	%xmm14, %xmm0
	pxor	%xmm8, %xmm14
	movdqa	.LCPI_fec336_3(%rip), %xmm15
	pshufb	%xmm15, %xmm14
	pshufb	%xmm15, %xmm0
	movdqa	%xmm3, %xmm12
	pshufb	%xmm15, %xmm12
	movdqa	%xmm4, %xmm13
	pshufb	%xmm15, %xmm13
	pand	%xmm5, %xmm10
	pand	%xmm5, %xmm11
	pmullw	%xmm0, %xmm11
	pmullw	%xmm14, %xmm10
	paddw	%xmm6, %xmm10
	paddw	%xmm6, %xmm11
	pmulhuw	%xmm7, %xmm11
	pmulhuw	%xmm7, %xmm10
	psrlw	$8, %xmm4
	psrlw	$8, %xmm3
	pmullw	%xmm14, %xmm3
	pmullw	%xmm0, %xmm4
	paddw	%xmm6, %xmm4
	paddw	%xmm6, %xmm3
	pmulhuw	%xmm7, %xmm3
	pmulhuw	%xmm7, %xmm4
	psllw	$8, %xmm4
	por	%xmm11, %xmm4
	movdqa	-16(%rsp), %xmm11
	psllw	$8, %xmm3
	por	%xmm10, %xmm3
	movdqa	%xmm8, %xmm0
	pand	%xmm5, %xmm0
	pand	%xmm9, %xmm5
	pmullw	%xmm13, %xmm5
	pmullw	%xmm12, %xmm0
	paddw	%xmm6, %xmm0
	paddw	%xmm6, %xmm5
	pmulhuw	%xmm7, %xmm5
	pmulhuw	%xmm7, %xmm0
	psrlw	$8, %xmm9
	psrlw	$8, %xmm8
	pmullw	%xmm12, %xmm8
	pmullw	%xmm13, %xmm9
	paddw	%xmm6, %xmm9
	paddw	%xmm6, %xmm8
	pmulhuw	%xmm7, %xmm8
	pmulhuw	%xmm7, %xmm9
	psllw	$8, %xmm9
	por	%xmm5, %xmm9
	paddusb	%xmm4, %xmm9
	psllw	$8, %xmm8
	por	%xmm0, %xmm8
	paddusb	%xmm3, %xmm8
	movdqu	%xmm8, (%r12)
	movdqu	%xmm9, 16(%r12)
	testb	$4, %r15b
	je	.LBB_fec336_10
.LBB_fec336_9:
	movq	-72(%rsp), %rax
	movdqu	(%rbp,%rax), %xmm3
	movdqa	.LCPI_fec336_0(%rip), %xmm4
	movdqa	%xmm3, %xmm8
	pand	%xmm4, %xmm8
	pmullw	%xmm2, %xmm8
	movdqa	.LCPI_fec336_1(%rip), %xmm5
	paddw	%xmm5, %xmm8
	movdqa	.LCPI_fec336_2(%rip), %xmm6
	pmulhuw	%xmm6, %xmm8
	psrlw	$8, %xmm3
	pmullw	%xmm1, %xmm3
	paddw	%xmm5, %xmm3
	pmulhuw	%xmm6, %xmm3
	psllw	$8, %xmm3
	por	%xmm8, %xmm3
	movdqu	(%r12,%rax), %xmm7
	pcmpeqd	%xmm0, %xmm0
	movdqa	.LCPI_fec336_4(%rip), %xmm9
	movdqa	%xmm7, %xmm10
	pshufb	%xmm9, %xmm10
	pxor	%xmm10, %xmm0
	pand	%xmm4, %xmm8
	pandn	%xmm4, %xmm10
	pmullw	%xmm8, %xmm10
	paddw	%xmm5, %xmm10
	pmulhuw	%xmm6, %xmm10
	movdqa	%xmm3, %xmm8
	psrlw	$8, %xmm8
	psrlw	$8, %xmm0
	pmullw	%xmm8, %xmm0
	paddw	%xmm5, %xmm0
	pmulhuw	%xmm6, %xmm0
	psllw	$8, %xmm0
	por	%xmm10, %xmm0
	pshufb	%xmm9, %xmm3
	movdqa	%xmm7, %xmm8
	pand	%xmm4, %xmm8
	pand	%xmm3, %xmm4
	pmullw	%xmm8, %xmm4
	paddw	%xmm5, %xmm4
	pmulhuw	%xmm6, %xmm4
	psrlw	$8, %xmm7
	psrlw	$8, %xmm3
	pmullw	%xmm7, %xmm3
	paddw	%xmm5, %xmm3
	pmulhuw	%xmm6, %xmm3
	psllw	$8, %xmm3
	por	%xmm4, %xmm3
	paddusb	%xmm0, %xmm3
	movdqu	%xmm3, (%r12,%rax)
	cmpl	%r13d, %r14d
	je	.LBB_fec336_13
.LBB_fec336_11:
	xorl	%r12d, %r12d
	.p2align	4
.LBB_fec336_12:
	movl	(%rcx,%r12,4), %eax
	movzbl	%ah, %esi
	movzbl	%al, %r9d
	movl	%eax, %r11d
	shrl	$16, %r11d
	shrl	$24, %eax
	movzbl	%r11b, %r11d
	movd	%r11d, %xmm0
	pinsrw	$1, %eax, %xmm0
	movl	(%rdx,%r12,4), %eax
	movzbl	%ah, %ebp
	movzbl	%al, %r11d
	movl	%eax, %edi
	shrl	$16, %edi
	shrl	$24, %eax
	pinsrw	$2, %esi, %xmm0
	pinsrw	$3, %r9d, %xmm0
	movzbl	%dil, %esi
	movd	%esi, %xmm3
	pinsrw	$1, %eax, %xmm3
	xorl	$255, %eax
	movd	%eax, %xmm4
	pmullw	%xmm11, %xmm0
	movdqa	.LCPI_fec336_5(%rip), %xmm5
	paddw	%xmm5, %xmm0
	movdqa	%xmm0, %xmm6
	psrlw	$8, %xmm6
	paddw	%xmm0, %xmm6
	psrlw	$8, %xmm6
	pshuflw	$0, %xmm4, %xmm0
	pmullw	%xmm6, %xmm0
	paddw	%xmm5, %xmm0
	movdqa	%xmm0, %xmm4
	psrlw	$8, %xmm4
	paddw	%xmm0, %xmm4
	psrlw	$8, %xmm4
	packuswb	%xmm4, %xmm4
	pinsrw	$2, %ebp, %xmm3
	pinsrw	$3, %r11d, %xmm3
	pshuflw	$85, %xmm6, %xmm0
	pmullw	%xmm0, %xmm3
	paddw	%xmm5, %xmm3
	movdqa	%xmm3, %xmm0
	psrlw	$8, %xmm0
	paddw	%xmm3, %xmm0
	psrlw	$8, %xmm0
	packuswb	%xmm0, %xmm0
	paddusb	%xmm4, %xmm0
	pmovzxbd	%xmm0, %xmm0
	pmulld	.LCPI_fec336_6(%rip), %xmm0
	pshufd	$238, %xmm0, %xmm3
	por	%xmm0, %xmm3
	pshufd	$85, %xmm3, %xmm0
	por	%xmm3, %xmm0
	movd	%xmm0, (%rdx,%r12,4)
	leaq	(%r14,%r12), %rax
	incq	%rax
	incq	%r12
	cmpq	%r13, %rax
	jb	.LBB_fec336_12
	jmp	.LBB_fec336_13
.LBB_fec336_14:
	addq	$8, %rsp
	popq	%rbx
	popq	%r12
	popq	%r13
	popq	%r14
	popq	%r15
	popq	%rbp
	retq
.Lfunc_end_fec336:
	.size	"pix_raster::view::blit_overlap::<#9d2a39c7bba67463>", .Lfunc_end_fec336-"pix_raster::view::blit_overlap::<#9d2a39c7bba67463>"

	.section	.rodata.cst16,"aM",@progbits,16
	.p2align	4, 0x0
.LCPI_358ef0_0:
	.byte	3
	.byte	128
	.byte	3
	.byte	128
	.byte	7
	.byte	128
	.byte	7
	.byte	128
	.byte	11
	.byte	128
	.byte	11
	.byte	128
	.byte	15
	.byte	128
	.byte	15
	.byte	128
.LCPI_358ef0_1:
	.byte	255
	.byte	0
	.byte	255
	.byte	0
	.byte	255
	.byte	0
	.byte	255
	.byte	0
	.byte	255
	.byte	0
	.byte	255
	.byte	0
	.byte	255
	.byte	0
	.byte	255
	.byte	0
.LCPI_358ef0_2:
	.short	128
	.short	128
	.short	128
	.short	128
	.short	128
	.short	128
	.short	128
	.short	128
.LCPI_358ef0_3:
	.zero	16,1
.LCPI_358ef0_4:
	.byte	3
	.byte	3
	.byte	3
	.byte	3
	.byte	7
	.byte	7
	.byte	7
	.byte	7
	.byte	11
	.byte	11
	.byte	11
	.byte	11
	.byte	15
	.byte	15
	.byte	15
	.byte	15
.LCPI_358ef0_5:
	.short	128
	.short	128
	.short	128
	.short	128
	.zero	2
	.zero	2
	.zero	2
	.zero	2
.LCPI_358ef0_6:
	.long	16777216
	.long	65536
	.long	256
	.long	1
	.section	".text.pix_raster::view::blit_overlap::<#64f9c87ff7b7bdd2>","ax",@progbits
	.p2align	4
	.type	"pix_raster::view::blit_overlap::<#64f9c87ff7b7bdd2>",@function
"pix_raster::view::blit_overlap::<#64f9c87ff7b7bdd2>":
	pushq	%rbp
	pushq	%r15
	pushq	%r14
	pushq	%r13
	pushq	%r12
	pushq	%rbx
	movq	%rcx, -88(%rsp)
	movq	%rdx, -96(%rsp)
	movq	%rsi, -104(%rsp)
	movq	%rdi, -112(%rsp)
	movq	24(%r8), %rax
	movq	32(%r8), %rcx
	movq	%rax, -128(%rsp)
	movq	%rcx, -8(%rsp)
	cmpq	%rcx, %rax
	jae	.LBB_358ef0_14
	movq	(%r8), %r14
	movq	16(%r8), %r15
	movq	8(%r8), %rbx
	movq	40(%r8), %rcx
	subq	%r14, %rbx
	movq	%rcx, %rax
	movq	-128(%rsp), %rdx
	subq	%rdx, %rax
	movq	%rax, -56(%rsp)
	movq	%rbx, %rax
	shrq	$4, %rax
	movq	%rax, -80(%rsp)
	movq	%rbx, %rax
	andq	$-16, %rax
	movq	%rax, -16(%rsp)
	leaq	(,%rax,4), %r12
	movl	%ebx, %r13d
	andl	$15, %r13d
	leal	(,%rbx,4), %eax
	movl	%eax, %esi
	andl	$32, %esi
	movq	%rsi, -72(%rsp)
	movq	%rbx, -120(%rsp)
	andl	$12, %ebx
	movq	-104(%rsp), %r9
	imulq	%r9, %rdx
	leaq	(,%r14,4), %rsi
	leaq	(%rsi,%rdx,4), %r11
	movq	-112(%rsp), %r10
	addq	%r10, %r11
	movq	-88(%rsp), %rdi
	imulq	%rdi, %rcx
	leaq	(,%r15,4), %rsi
	leaq	(%rsi,%rcx,4), %r8
	leaq	(%r12,%rcx,4), %rcx
	andl	$48, %eax
	addq	%rax, %rcx
	movq	%r12, -64(%rsp)
	leaq	(%r12,%rdx,4), %rdx
	addq	%rax, %rdx
	leaq	(,%r9,4), %rax
	movq	%rax, -24(%rsp)
	movq	-96(%rsp), %rax
	addq	%rax, %r8
	movq	%r15, -48(%rsp)
	leaq	(%rcx,%r15,4), %rcx
	addq	%rax, %rcx
	movq	%r14, -40(%rsp)
	leaq	(%rdx,%r14,4), %rdx
	addq	%r10, %rdx
	leaq	(,%rdi,4), %rax
	movq	%rax, -32(%rsp)
	jmp	.LBB_358ef0_2
	.p2align	4
.LBB_358ef0_13:
	movq	-128(%rsp), %rax
	incq	%rax
	movq	-24(%rsp), %rsi
	addq	%rsi, %r11
	movq	-32(%rsp), %rdi
	addq	%rdi, %r8
	addq	%rdi, %rcx
	addq	%rsi, %rdx
	movq	%rax, -128(%rsp)
	cmpq	-8(%rsp), %rax
	je	.LBB_358ef0_14
.LBB_358ef0_2:
	cmpq	$0, -80(%rsp)
	je	.LBB_358ef0_5
	movl	$32, %ebp
	movq	-80(%rsp), %r12
	.p2align	4
.LBB_358ef0_4:
	movdqu	-32(%r8,%rbp), %xmm6
	movdqu	-16(%r8,%rbp), %xmm8
	pcmpeqd	%xmm3, %xmm3
	movdqa	%xmm8, %xmm4
	movdqa	%xmm6, %xmm7
	movdqa	.LCPI_358ef0_0(%rip), %xmm5
	movdqu	-32(%r11,%rbp), %xmm9
	movdqu	-16(%r11,%rbp), %xmm10
	movdqa	%xmm10, %xmm1
	pxor	%xmm3, %xmm1
	movdqa	%xmm9, %xmm2
	pxor	%xmm3, %xmm2
	pshufb	%xmm5, %xmm2
	pshufb	%xmm5, %xmm1
	movdqa	.LCPI_358ef0_1(%rip), %xmm0
	movdqa	%xmm6, %xmm11
	pand	%xmm0, %xmm11
	movdqa	%xmm8, %xmm12
	pand	%xmm0, %xmm12
	pmullw	%xmm1, %xmm12
	pmullw	%xmm2, %xmm11
	psrlw	$8, %xmm6
	pmullw	%xmm2, %xmm6
	movdqa	.LCPI_358ef0_2(%rip), %xmm2
	paddw	%xmm2, %xmm12
	psrlw	$8, %xmm8
	pmullw	%xmm1, %xmm8
	movdqa	.LCPI_358ef0_3(%rip), %xmm1
	pmulhuw	%xmm1, %xmm12
	paddw	%xmm2, %xmm8
	pmulhuw	%xmm1, %xmm8
	psllw	$8, %xmm8
	por	%xmm12, %xmm8
	pxor	%xmm3, %xmm4
	pxor	%xmm3, %xmm7
	pshufb	%xmm5, %xmm7
	pshufb	%xmm5, %xmm4
	paddw	%xmm2, %xmm11
	pmulhuw	%xmm1, %xmm11
	paddw	%xmm2, %xmm6
	pmulhuw	%xmm1, %xmm6
	psllw	$8, %xmm6
	por	%xmm11, %xmm6
	movdqa	%xmm9, %xmm11
	pand	%xmm0, %xmm11
	pmullw	%xmm7, %xmm11
	psrlw	$8, %xmm9
	pmullw	%xmm7, %xmm9
	movdqa	%xmm10, %xmm7
	pand	%xmm0, %xmm7
	pmullw	%xmm4, %xmm7
	psrlw	$8, %xmm10
	pmullw	%xmm4, %xmm10
	movdqu	(%r11,%rbp), %xmm4
	paddw	%xmm2, %xmm7
	pmulhuw	%xmm1, %xmm7
	paddw	%xmm2, %xmm10
	pmulhuw	%xmm1, %xmm10
	psllw	$8, %xmm10
	por	%xmm7, %xmm10
	movdqu	16(%r11,%rbp), %xmm7
	paddw	%xmm2, %xmm11
	pmulhuw	%xmm1, %xmm11
	paddw	%xmm2, %xmm9
	pmulhuw	%xmm1, %xmm9
	paddusb	%xmm8, %xmm10
	psllw	$8, %xmm9
	por	%xmm11, %xmm9
	paddusb	%xmm6, %xmm9
	movdqu	%xmm9, -32(%r11,%rbp)
	movdqu	%xmm10, -16(%r11,%rbp)
	movdqu	(%r8,%rbp), %xmm6
	movdqu	16(%r8,%rbp), %xmm8
	movdqa	%xmm8, %xmm9
	pxor	%xmm3, %xmm9
	movdqa	%xmm6, %xmm10
	pxor	%xmm3, %xmm10
	pshufb	%xmm5, %xmm10
	pshufb	%xmm5, %xmm9
	movdqa	%xmm7, %xmm11
	pxor	%xmm3, %xmm11
	pxor	%xmm4, %xmm3
	pshufb	%xmm5, %xmm3
	pshufb	%xmm5, %xmm11
	movdqa	%xmm6, %xmm5
	pand	%xmm0, %xmm5
	pmullw	%xmm3, %xmm5
	psrlw	$8, %xmm6
	pmullw	%xmm3, %xmm6
	movdqa	%xmm8, %xmm3
	pand	%xmm0, %xmm3
	pmullw	%xmm11, %xmm3
	psrlw	$8, %xmm8
	pmullw	%xmm11, %xmm8
	paddw	%xmm2, %xmm3
	pmulhuw	%xmm1, %xmm3
	paddw	%xmm2, %xmm8
	pmulhuw	%xmm1, %xmm8
	psllw	$8, %xmm8
	por	%xmm3, %xmm8
	paddw	%xmm2, %xmm5
	pmulhuw	%xmm1, %xmm5
	paddw	%xmm2, %xmm6
	pmulhuw	%xmm1, %xmm6
	psllw	$8, %xmm6
	por	%xmm5, %xmm6
	movdqa	%xmm4, %xmm3
	pand	%xmm0, %xmm3
	pmullw	%xmm10, %xmm3
	psrlw	$8, %xmm4
	pmullw	%xmm10, %xmm4
	pand	%xmm7, %xmm0
	pmullw	%xmm9, %xmm0
	psrlw	$8, %xmm7
	pmullw	%xmm9, %xmm7
	paddw	%xmm2, %xmm3
	paddw	%xmm2, %xmm0
	paddw	%xmm2, %xmm7
	paddw	%xmm2, %xmm4
	pmulhuw	%xmm1, %xmm0
	pmulhuw	%xmm1, %xmm3
	pmulhuw	%xmm1, %xmm4
	pmulhuw	%xmm1, %xmm7
	psllw	$8, %xmm7
	por	%xmm0, %xmm7
	paddusb	%xmm8, %xmm7
	psllw	$8, %xmm4
	por	%xmm3, %xmm4
	paddusb	%xmm6, %xmm4
	movdqu	%xmm4, (%r11,%rbp)
	movdqu	%xmm7, 16(%r11,%rbp)
	addq	$64, %rbp
	decq	%r12
	jne	.LBB_358ef0_4
.LBB_358ef0_5:
	movq	-16(%rsp), %rax
	cmpq	-120(%rsp), %rax
	je	.LBB_358ef0_13
	movq	-128(%rsp), %rsi
	movq	%rsi, %rax
	imulq	-104(%rsp), %rax
	addq	-40(%rsp), %rax
	movq	-56(%rsp), %rdi
	addq	%rdi, %rsi
	imulq	-88(%rsp), %rsi
	addq	-48(%rsp), %rsi
	movq	-112(%rsp), %rdi
	leaq	(%rdi,%rax,4), %r12
	movq	-96(%rsp), %rax
	leaq	(%rax,%rsi,4), %rbp
	movq	-64(%rsp), %rax
	addq	%rax, %r12
	addq	%rax, %rbp
	testb	$8, -120(%rsp)
	jne	.LBB_358ef0_7
	testb	$4, -120(%rsp)
	jne	.LBB_358ef0_9
.LBB_358ef0_10:
	cmpl	%r13d, %ebx
	je	.LBB_358ef0_13
	jmp	.LBB_358ef0_11
	.p2align	4
.LBB_358ef0_7:
	movdqu	(%rbp), %xmm0
	movdqu	16(%rbp), %xmm3
	movdqu	(%r12), %xmm1
	movdqu	16(%r12), %xmm2
	pcmpeqd	%xmm9, %xmm9
	movdqa	%xmm3, %xmm4
	pxor	%xmm9, %xmm4
	movdqa	%xmm0, %xmm5
	pxor	%xmm9, %xmm5
	movdqa	.LCPI_358ef0_0(%rip), %xmm6
	pshufb	%xmm6, %xmm5
	pshufb	%xmm6, %xmm4
	movdqa	%xmm2, %xmm12
	pxor	%xmm9, %xmm12
	pxor	%xmm1, %xmm9
	pshufb	%xmm6, %xmm9
	pshufb	%xmm6, %xmm12
	movdqa	.LCPI_358ef0_1(%rip), %xmm6
	movdqa	%xmm0, %xmm10
	pand	%xmm6, %xmm10
	movdqa	%xmm3, %xmm11
	pand	%xmm6, %xmm11
	pmullw	%xmm12, %xmm11
	pmullw	%xmm9, %xmm10
	movdqa	.LCPI_358ef0_2(%rip), %xmm7
	paddw	%xmm7, %xmm10
	paddw	%xmm7, %xmm11
	movdqa	.LCPI_358ef0_3(%rip), %xmm8
	pmulhuw	%xmm8, %xmm11
	pmulhuw	%xmm8, %xmm10
	psrlw	$8, %xmm3
	psrlw	$8, %xmm0
	pmullw	%xmm9, %xmm0
	pmullw	%xmm12, %xmm3
	paddw	%xmm7, %xmm3
	paddw	%xmm7, %xmm0
	pmulhuw	%xmm8, %xmm0
	pmulhuw	%xmm8, %xmm3
	psllw	$8, %xmm3
	por	%xmm11, %xmm3
	psllw	$8, %xmm0
	por	%xmm10, %xmm0
	movdqa	%xmm1, %xmm9
	pand	%xmm6, %xmm9
	pand	%xmm2, %xmm6
	pmullw	%xmm4, %xmm6
	pmullw	%xmm5, %xmm9
	paddw	%xmm7, %xmm9
	paddw	%xmm7, %xmm6
	pmulhuw	%xmm8, %xmm6
	pmulhuw	%xmm8, %xmm9
	psrlw	$8, %xmm2
	psrlw	$8, %xmm1
	pmullw	%xmm5, %xmm1
	pmullw	%xmm4, %xmm2
	paddw	%xmm7, %xmm2
	paddw	%xmm7, %xmm1
	pmulhuw	%xmm8, %xmm1
	pmulhuw	%xmm8, %xmm2
	psllw	$8, %xmm2
	por	%xmm6, %xmm2
	paddusb	%xmm3, %xmm2
	psllw	$8, %xmm1
	por	%xmm9, %xmm1
	paddusb	%xmm0, %xmm1
	movdqu	%xmm1, (%r12)
	movdqu	%xmm2, 16(%r12)
	testb	$4, -120(%rsp)
	je	.LBB_358ef0_10
.LBB_358ef0_9:
	movq	-72(%rsp), %rax
	movdqu	(%rbp,%rax), %xmm1
	movdqu	(%r12,%rax), %xmm3
	pcmpeqd	%xmm0, %xmm0
	movdqa	.LCPI_358ef0_4(%rip), %xmm7
	movdqa	%xmm3, %xmm8
	pshufb	%xmm7, %xmm8
	movdqa	%xmm8, %xmm2
	pxor	%xmm0, %xmm2
	movdqa	.LCPI_358ef0_1(%rip), %xmm6
	movdqa	%xmm1, %xmm4
	pand	%xmm6, %xmm4
	pandn	%xmm6, %xmm8
	pmullw	%xmm4, %xmm8
	movdqa	.LCPI_358ef0_2(%rip), %xmm4
	paddw	%xmm4, %xmm8
	movdqa	.LCPI_358ef0_3(%rip), %xmm5
	pmulhuw	%xmm5, %xmm8
	movdqa	%xmm1, %xmm9
	psrlw	$8, %xmm9
	psrlw	$8, %xmm2
	pmullw	%xmm9, %xmm2
	paddw	%xmm4, %xmm2
	pmulhuw	%xmm5, %xmm2
	psllw	$8, %xmm2
	por	%xmm8, %xmm2
	pshufb	%xmm7, %xmm1
	pxor	%xmm1, %xmm0
	movdqa	%xmm3, %xmm7
	pand	%xmm6, %xmm7
	pandn	%xmm6, %xmm1
	pmullw	%xmm7, %xmm1
	paddw	%xmm4, %xmm1
	pmulhuw	%xmm5, %xmm1
	psrlw	$8, %xmm3
	psrlw	$8, %xmm0
	pmullw	%xmm3, %xmm0
	paddw	%xmm4, %xmm0
	pmulhuw	%xmm5, %xmm0
	psllw	$8, %xmm0
	por	%xmm1, %xmm0
	paddusb	%xmm2, %xmm0
	movdqu	%xmm0, (%r12,%rax)
	cmpl	%r13d, %ebx
	je	.LBB_358ef0_13
.LBB_358ef0_11:
	xorl	%r12d, %r12d
	.p2align	4
.LBB_358ef0_12:
	movl	(%rcx,%r12,4), %eax
	movzbl	%ah, %esi
	movl	%eax, %ebp
	movzbl	%al, %r15d
	movl	%eax, %r10d
	movl	(%rdx,%r12,4), %eax
	movzbl	%ah, %edi
	movzbl	%al, %r9d
	movl	%eax, %r14d
	shrl	$24, %eax
	movd	%eax, %xmm0
	xorl	$255, %eax
	movd	%eax, %xmm1
	shrl	$16, %r10d
	shrl	$24, %ebp
	shrl	$16, %r14d
	movzbl	%r10b, %eax
	movzbl	%r14b, %r10d
	pshuflw	$0, %xmm1, %xmm1
	movd	%ebp, %xmm2
	pinsrw	$1, %eax, %xmm2
	pinsrw	$2, %esi, %xmm2
	pinsrw	$3, %r15d, %xmm2
	xorl	$255, %ebp
	pmullw	%xmm1, %xmm2
	movdqa	.LCPI_358ef0_5(%rip), %xmm1
	paddw	%xmm1, %xmm2
	movdqa	%xmm2, %xmm3
	psrlw	$8, %xmm3
	paddw	%xmm2, %xmm3
	psrlw	$8, %xmm3
	packuswb	%xmm3, %xmm3
	movd	%ebp, %xmm2
	pinsrw	$1, %r10d, %xmm0
	pinsrw	$2, %edi, %xmm0
	pinsrw	$3, %r9d, %xmm0
	pshuflw	$0, %xmm2, %xmm2
	pmullw	%xmm2, %xmm0
	paddw	%xmm1, %xmm0
	movdqa	%xmm0, %xmm1
	psrlw	$8, %xmm1
	paddw	%xmm0, %xmm1
	psrlw	$8, %xmm1
	packuswb	%xmm1, %xmm1
	paddusb	%xmm3, %xmm1
	pmovzxbd	%xmm1, %xmm0
	pmulld	.LCPI_358ef0_6(%rip), %xmm0
	pshufd	$238, %xmm0, %xmm1
	por	%xmm0, %xmm1
	pshufd	$85, %xmm1, %xmm0
	por	%xmm1, %xmm0
	movd	%xmm0, (%rdx,%r12,4)
	leaq	(%rbx,%r12), %rax
	incq	%rax
	incq	%r12
	cmpq	%r13, %rax
	jb	.LBB_358ef0_12
	jmp	.LBB_358ef0_13
.LBB_358ef0_14:
	popq	%rbx
	popq	%r12
	popq	%r13
	popq	%r14
	popq	%r15
	popq	%rbp
	retq
.Lfunc_end_358ef0:
	.size	"pix_raster::view::blit_overlap::<#64f9c87ff7b7bdd2>", .Lfunc_end_358ef0-"pix_raster::view::blit_overlap::<#64f9c87ff7b7bdd2>"

	.section	.rodata.cst16,"aM",@progbits,16
	.p2align	4, 0x0
.LCPI_288f4f_0:
	.byte	255
	.byte	0
	.byte	255
	.byte	0
	.byte	255
	.byte	0
	.byte	255
	.byte	0
	.byte	255
	.byte	0
	.byte	255
	.byte	0
	.byte	255
	.byte	0
	.byte	255
	.byte	0
.LCPI_288f4f_1:
	.short	128
	.short	128
	.short	128
	.short	128
	.short	128
	.short	128
	.short	128
	.short	128
.LCPI_288f4f_2:
	.zero	16,1
.LCPI_288f4f_3:
	.byte	3
	.byte	128
	.byte	3
	.byte	128
	.byte	7
	.byte	128
	.byte	7
	.byte	128
	.byte	11
	.byte	128
	.byte	11
	.byte	128
	.byte	15
	.byte	128
	.byte	15
	.byte	128
.LCPI_288f4f_4:
	.byte	3
	.byte	3
	.byte	3
	.byte	3
	.byte	7
	.byte	7
	.byte	7
	.byte	7
	.byte	11
	.byte	11
	.byte	11
	.byte	11
	.byte	15
	.byte	15
	.byte	15
	.byte	15
.LCPI_288f4f_5:
	.short	128
	.short	128
	.short	128
	.short	128
	.zero	2
	.zero	2
	.zero	2
	.zero	2
.LCPI_288f4f_6:
	.long	16777216
	.long	65536
	.long	256
	.long	1
	.section	".text.pix_raster::view::blit_overlap::<#0658d1f93ab37b52>","ax",@progbits
	.p2align	4
	.type	"pix_raster::view::blit_overlap::<#0658d1f93ab37b52>",@function
"pix_raster::view::blit_overlap::<#0658d1f93ab37b52>":
	pushq	%rbp
	pushq	%r15
	pushq	%r14
	pushq	%r13
	pushq	%r12
	pushq	%rbx
	pushq	%rax
	movq	%rsi, -88(%rsp)
	movl	%r9d, %ebx
	movq	%rdi, -96(%rsp)
	movq	24(%r8), %r9
	movq	32(%r8), %rax
	movq	%rax, -24(%rsp)
	cmpq	%rax, %r9
	jae	.LBB_288f4f_18
	movq	(%r8), %r10
	movq	%r10, -104(%rsp)
	movq	16(%r8), %rdi
	leaq	(%rdx,%rdi), %rax
	movq	%rax, -48(%rsp)
	movq	8(%r8), %r11
	movq	40(%r8), %rsi
	subq	%r10, %r11
	movq	%rsi, %rax
	subq	%r9, %rax
	movq	%rax, -56(%rsp)
	movq	%r11, %r14
	shrq	$4, %r14
	movq	%rdx, %rbp
	movl	%ebx, %edx
	shrl	$24, %edx
	movl	%ebx, %r8d
	shrl	$16, %r8d
	movl	%ebx, %eax
	shrl	$8, %eax
	movd	%ebx, %xmm0
	pinsrb	$1, %eax, %xmm0
	pinsrb	$2, %r8d, %xmm0
	pinsrb	$3, %edx, %xmm0
	pinsrb	$4, %ebx, %xmm0
	pinsrb	$5, %eax, %xmm0
	pinsrb	$6, %r8d, %xmm0
	pinsrb	$7, %edx, %xmm0
	pinsrb	$8, %ebx, %xmm0
	pinsrb	$9, %eax, %xmm0
	pinsrb	$10, %r8d, %xmm0
	pinsrb	$11, %edx, %xmm0
	pinsrb	$12, %ebx, %xmm0
	pinsrb	$13, %eax, %xmm0
	pinsrb	$14, %r8d, %xmm0
	movdqa	.LCPI_288f4f_0(%rip), %xmm1
	pand	%xmm0, %xmm1
	pinsrb	$15, %edx, %xmm0
	psrlw	$8, %xmm0
	movq	%r11, %r13
	andq	$-16, %r13
	movl	%r11d, %r12d
	andl	$15, %r12d
	movl	%r11d, %eax
	andl	$8, %eax
	movq	%rax, -112(%rsp)
	movq	%r11, -120(%rsp)
	movl	%r11d, %r10d
	andl	$12, %r10d
	movzbl	%r8b, %eax
	leaq	(,%r13,4), %r15
	movd	%edx, %xmm12
	pinsrw	$1, %eax, %xmm12
	movzbl	%bh, %eax
	movzbl	%bl, %edx
	pinsrw	$2, %eax, %xmm12
	pinsrw	$3, %edx, %xmm12
	movq	%r14, -32(%rsp)
	leaq	(,%r14,4), %r11
	movq	%r9, %rax
	movq	-88(%rsp), %rbx
	imulq	%rbx, %rax
	imulq	%rcx, %rsi
	addq	%rdi, %rsi
	movq	%r13, -72(%rsp)
	leaq	(%r10,%r13), %r8
	addq	%rbp, %r8
	leaq	(%rsi,%rbp), %r14
	addq	$8, %r14
	addq	%rsi, %r8
	movq	-104(%rsp), %rsi
	leaq	(%rsi,%rax), %rdx
	movq	-96(%rsp), %rdi
	leaq	(%rdi,%rdx,4), %rbp
	movq	%r15, -64(%rsp)
	leaq	(%r15,%rax,4), %rax
	movq	%r10, -80(%rsp)
	leaq	(%rax,%r10,4), %rax
	leaq	(%rax,%rsi,4), %rsi
	addq	%rdi, %rsi
	leaq	(,%rbx,4), %rax
	movq	%rax, -40(%rsp)
	movdqa	%xmm12, -16(%rsp)
	jmp	.LBB_288f4f_2
	.p2align	4
.LBB_288f4f_17:
	incq	%r9
	movq	-40(%rsp), %rax
	addq	%rax, %rbp
	addq	%rcx, %r14
	addq	%rcx, %r8
	addq	%rax, %rsi
	cmpq	-24(%rsp), %r9
	je	.LBB_288f4f_18
.LBB_288f4f_2:
	cmpq	$0, -32(%rsp)
	je	.LBB_288f4f_7
	xorl	%edi, %edi
	movq	%rbp, %r10
	jmp	.LBB_288f4f_4
	.p2align	4
.LBB_288f4f_6:
	addq	$4, %rdi
	addq	$64, %r10
	cmpq	%rdi, %r11
	je	.LBB_288f4f_7
.LBB_288f4f_4:
	movq	-8(%r14,%rdi,4), %rax
	movq	(%r14,%rdi,4), %rdx
	orq	%rax, %rdx
	je	.LBB_288f4f_6
	movq	%rax, %xmm10
	punpcklbw	%xmm10, %xmm10
	movdqa	%xmm10, %xmm11
	punpckhwd	%xmm10, %xmm11
	punpcklwd	%xmm10, %xmm10
	movdqa	.LCPI_288f4f_0(%rip), %xmm3
	movdqa	%xmm10, %xmm14
	pand	%xmm3, %xmm14
	movdqa	%xmm11, %xmm7
	pand	%xmm3, %xmm7
	pmullw	%xmm1, %xmm7
	pmullw	%xmm1, %xmm14
	movdqa	.LCPI_288f4f_1(%rip), %xmm5
	paddw	%xmm5, %xmm14
	paddw	%xmm5, %xmm7
	movdqa	.LCPI_288f4f_2(%rip), %xmm4
	pmulhuw	%xmm4, %xmm7
	pmulhuw	%xmm4, %xmm14
	psrlw	$8, %xmm11
	psrlw	$8, %xmm10
	pmullw	%xmm0, %xmm10
	pmullw	%xmm0, %xmm11
	paddw	%xmm5, %xmm11
	paddw	%xmm5, %xmm10
	pmulhuw	%xmm4, %xmm10
	pmulhuw	%xmm4, %xmm11
	psllw	$8, %xmm11
	psllw	$8, %xmm10
	por	%xmm14, %xmm10
	por	%xmm7, %xmm11
	pcmpeqd	%xmm8, %xmm8
	movdqa	%xmm11, %xmm15
	pxor	%xmm8, %xmm15
	movdqa	%xmm10, %xmm2
	pxor	%xmm8, %xmm2
	movdqa	.LCPI_288f4f_3(%rip), %xmm9
	pshufb	%xmm9, %xmm2
	pshufb	%xmm9, %xmm15
	movdqu	(%r10), %xmm12
	movdqu	16(%r10), %xmm13
	movdqa	%xmm12, %xmm6
	pxor	%xmm8, %xmm6
	pshufb	%xmm9, %xmm6
	pand	%xmm3, %xmm14
	pmullw	%xmm6, %xmm14
	psrlw	$8, %xmm10
	pmullw	%xmm6, %xmm10
	movdqa	%xmm13, %xmm6
	pxor	%xmm8, %xmm6
	pshufb	%xmm9, %xmm6
	pand	%xmm3, %xmm7
	pmullw	%xmm6, %xmm7
	psrlw	$8, %xmm11
	pmullw	%xmm6, %xmm11
	movdqu	32(%r10), %xmm6
	paddw	%xmm5, %xmm7
	pmulhuw	%xmm4, %xmm7
	paddw	%xmm5, %xmm11
	pmulhuw	%xmm4, %xmm11
	psllw	$8, %xmm11
	por	%xmm7, %xmm11
	movdqu	48(%r10), %xmm7
	paddw	%xmm5, %xmm14
	pmulhuw	%xmm4, %xmm14
	paddw	%xmm5, %xmm10
	pmulhuw	%xmm4, %xmm10
	psllw	$8, %xmm10
	por	%xmm14, %xmm10
	movdqa	%xmm12, %xmm14
	pand	%xmm3, %xmm14
	pmullw	%xmm2, %xmm14
	psrlw	$8, %xmm12
	pmullw	%xmm2, %xmm12
	movdqa	%xmm13, %xmm2
	pand	%xmm3, %xmm2
	pmullw	%xmm15, %xmm2
	paddw	%xmm5, %xmm14
	paddw	%xmm5, %xmm2
	pmulhuw	%xmm4, %xmm2
	pmulhuw	%xmm4, %xmm14
	psrlw	$8, %xmm13
	pmullw	%xmm15, %xmm13
	paddw	%xmm5, %xmm13
	paddw	%xmm5, %xmm12
	pmulhuw	%xmm4, %xmm12
	pmulhuw	%xmm4, %xmm13
	psllw	$8, %xmm13
	por	%xmm2, %xmm13
	paddusb	%xmm11, %xmm13
	psllw	$8, %xmm12
	por	%xmm14, %xmm12
	paddusb	%xmm10, %xmm12
	movdqu	%xmm12, (%r10)
	movdqu	%xmm13, 16(%r10)
	movq	(%r14,%rdi,4), %xmm10
	punpcklbw	%xmm10, %xmm10
	movdqa	%xmm10, %xmm11
	punpckhwd	%xmm10, %xmm11
	punpcklwd	%xmm10, %xmm10
	movdqa	%xmm10, %xmm12
	pand	%xmm3, %xmm12
	movdqa	%xmm11, %xmm2
	pand	%xmm3, %xmm2
	pmullw	%xmm1, %xmm2
	pmullw	%xmm1, %xmm12
	paddw	%xmm5, %xmm12
	paddw	%xmm5, %xmm2
	pmulhuw	%xmm4, %xmm2
	pmulhuw	%xmm4, %xmm12
	psrlw	$8, %xmm11
	psrlw	$8, %xmm10
	pmullw	%xmm0, %xmm10
	pmullw	%xmm0, %xmm11
	paddw	%xmm5, %xmm11
	paddw	%xmm5, %xmm10
	pmulhuw	%xmm4, %xmm10
	pmulhuw	%xmm4, %xmm11
	psllw	$8, %xmm11
	psllw	$8, %xmm10
	por	%xmm12, %xmm10
	por	%xmm2, %xmm11
	movdqa	%xmm11, %xmm13
	pxor	%xmm8, %xmm13
	movdqa	%xmm10, %xmm14
	pxor	%xmm8, %xmm14
	pshufb	%xmm9, %xmm14
	pshufb	%xmm9, %xmm13
	movdqa	%xmm7, %xmm15
	pxor	%xmm8, %xmm15
	pxor	%xmm6, %xmm8
	pshufb	%xmm9, %xmm8
	pshufb	%xmm9, %xmm15
	pand	%xmm3, %xmm12
	pmullw	%xmm8, %xmm12
	psrlw	$8, %xmm10
	pmullw	%xmm8, %xmm10
	pand	%xmm3, %xmm2
	pmullw	%xmm15, %xmm2
	psrlw	$8, %xmm11
	pmullw	%xmm15, %xmm11
	paddw	%xmm5, %xmm2
	pmulhuw	%xmm4, %xmm2
	paddw	%xmm5, %xmm11
	pmulhuw	%xmm4, %xmm11
	psllw	$8, %xmm11
	por	%xmm2, %xmm11
	paddw	%xmm5, %xmm12
	pmulhuw	%xmm4, %xmm12
	paddw	%xmm5, %xmm10
	pmulhuw	%xmm4, %xmm10
	psllw	$8, %xmm10
	por	%xmm12, %xmm10
	movdqa	-16(%rsp), %xmm12
	movdqa	%xmm6, %xmm2
	pand	%xmm3, %xmm2
	pmullw	%xmm14, %xmm2
	psrlw	$8, %xmm6
	pmullw	%xmm14, %xmm6
	pand	%xmm7, %xmm3
	pmullw	%xmm13, %xmm3
	psrlw	$8, %xmm7
	pmullw	%xmm13, %xmm7
	paddw	%xmm5, %xmm2
	paddw	%xmm5, %xmm3
	paddw	%xmm5, %xmm7
	paddw	%xmm5, %xmm6
	pmulhuw	%xmm4, %xmm3
	pmulhuw	%xmm4, %xmm2
	pmulhuw	%xmm4, %xmm6
	pmulhuw	%xmm4, %xmm7
	psllw	$8, %xmm7
	por	%xmm3, %xmm7
	paddusb	%xmm11, %xmm7
	psllw	$8, %xmm6
	por	%xmm2, %xmm6
	paddusb	%xmm10, %xmm6
	movdqu	%xmm6, 32(%r10)
	movdqu	%xmm7, 48(%r10)
	jmp	.LBB_288f4f_6
	.p2align	4
.LBB_288f4f_7:
	movq	-72(%rsp), %rax
	cmpq	-120(%rsp), %rax
	je	.LBB_288f4f_17
	movq	%r9, %rax
	imulq	-88(%rsp), %rax
	addq	-104(%rsp), %rax
	movq	-56(%rsp), %rdx
	leaq	(%rdx,%r9), %r10
	imulq	%rcx, %r10
	addq	-48(%rsp), %r10
	movq	-96(%rsp), %rdx
	leaq	(%rdx,%rax,4), %rdi
	addq	-64(%rsp), %rdi
	addq	-72(%rsp), %r10
	testb	$8, -120(%rsp)
	je	.LBB_288f4f_11
	movq	(%r10), %rax
	testq	%rax, %rax
	je	.LBB_288f4f_11
	movq	%rax, %xmm3
	punpcklbw	%xmm3, %xmm3
	movdqa	%xmm3, %xmm4
	punpckhwd	%xmm3, %xmm4
	punpcklwd	%xmm3, %xmm3
	movdqa	.LCPI_288f4f_0(%rip), %xmm5
	movdqa	%xmm3, %xmm10
	pand	%xmm5, %xmm10
	movdqa	%xmm4, %xmm11
	pand	%xmm5, %xmm11
	pmullw	%xmm1, %xmm11
	pmullw	%xmm1, %xmm10
	movdqa	.LCPI_288f4f_1(%rip), %xmm6
	paddw	%xmm6, %xmm10
	paddw	%xmm6, %xmm11
	movdqa	.LCPI_288f4f_2(%rip), %xmm7
	pmulhuw	%xmm7, %xmm11
	pmulhuw	%xmm7, %xmm10
	psrlw	$8, %xmm4
	psrlw	$8, %xmm3
	pmullw	%xmm0, %xmm3
	pmullw	%xmm0, %xmm4
	paddw	%xmm6, %xmm4
	paddw	%xmm6, %xmm3
	pmulhuw	%xmm7, %xmm3
	pmulhuw	%xmm7, %xmm4
	psllw	$8, %xmm4
	psllw	$8, %xmm3
	por	%xmm10, %xmm3
	por	%xmm11, %xmm4
	movdqu	(%rdi), %xmm8
	movdqu	16(%rdi), %xmm9
	pcmpeqd	%xmm13, %xmm13
	movdqa	%xmm4, %xmm2
	pxor	%xmm13, %xmm2
	movdqa	%xmm3, %xmm12
	pxor	%xmm13, %xmm12
	movdqa	.LCPI_288f4f_3(%rip), %xmm14
	pshufb	%xmm14, %xmm12
	pshufb	%xmm14, %xmm2
	movdqa	%xmm9, %xmm15
	pxor	%xmm13, %xmm15
	pxor	%xmm8, %xmm13
	pshufb	%xmm14, %xmm13
	pshufb	%xmm14, %xmm15
	pand	%xmm5, %xmm10
	pand	%xmm5, %xmm11
	pmullw	%xmm15, %xmm11
	pmullw	%xmm13, %xmm10
	paddw	%xmm6, %xmm10
	paddw	%xmm6, %xmm11
	pmulhuw	%xmm7, %xmm11
	pmulhuw	%xmm7, %xmm10
	psrlw	$8, %xmm4
	psrlw	$8, %xmm3
	pmullw	%xmm13, %xmm3
	pmullw	%xmm15, %xmm4
	paddw	%xmm6, %xmm4
	paddw	%xmm6, %xmm3
	pmulhuw	%xmm7, %xmm3
	pmulhuw	%xmm7, %xmm4
	psllw	$8, %xmm4
	por	%xmm11, %xmm4
	psllw	$8, %xmm3
	por	%xmm10, %xmm3
	movdqa	%xmm8, %xmm10
	pand	%xmm5, %xmm10
	pand	%xmm9, %xmm5
	pmullw	%xmm2, %xmm5
	pmullw	%xmm12, %xmm10
	paddw	%xmm6, %xmm10
	paddw	%xmm6, %xmm5
	pmulhuw	%xmm7, %xmm5
	pmulhuw	%xmm7, %xmm10
	psrlw	$8, %xmm9
	psrlw	$8, %xmm8
	pmullw	%xmm12, %xmm8
	movdqa	-16(%rsp), %xmm12
	pmullw	%xmm2, %xmm9
	paddw	%xmm6, %xmm9
	paddw	%xmm6, %xmm8
	pmulhuw	%xmm7, %xmm8
	pmulhuw	%xmm7, %xmm9
	psllw	$8, %xmm9
	por	%xmm5, %xmm9
	paddusb	%xmm4, %xmm9
	psllw	$8, %xmm8
	por	%xmm10, %xmm8
	paddusb	%xmm3, %xmm8
	movdqu	%xmm8, (%rdi)
	movdqu	%xmm9, 16(%rdi)
.LBB_288f4f_11:
	testb	$4, -120(%rsp)
	je	.LBB_288f4f_14
	movq	-112(%rsp), %rax
	movl	(%r10,%rax), %eax
	testl	%eax, %eax
	je	.LBB_288f4f_14
	movd	%eax, %xmm2
	punpcklbw	%xmm2, %xmm2
	punpcklwd	%xmm2, %xmm2
	movdqa	.LCPI_288f4f_0(%rip), %xmm5
	movdqa	%xmm2, %xmm9
	pand	%xmm5, %xmm9
	pmullw	%xmm1, %xmm9
	movdqa	.LCPI_288f4f_1(%rip), %xmm3
	paddw	%xmm3, %xmm9
	movdqa	.LCPI_288f4f_2(%rip), %xmm4
	pmulhuw	%xmm4, %xmm9
	psrlw	$8, %xmm2
	pmullw	%xmm0, %xmm2
	paddw	%xmm3, %xmm2
	pmulhuw	%xmm4, %xmm2
	psllw	$8, %xmm2
	por	%xmm9, %xmm2
	movq	-112(%rsp), %rax
	movdqu	(%rdi,%rax,4), %xmm8
	pcmpeqd	%xmm6, %xmm6
	movdqa	.LCPI_288f4f_4(%rip), %xmm10
	movdqa	%xmm8, %xmm11
	pshufb	%xmm10, %xmm11
	movdqa	%xmm11, %xmm7
	pxor	%xmm6, %xmm7
	pand	%xmm5, %xmm9
	pandn	%xmm5, %xmm11
	pmullw	%xmm9, %xmm11
	paddw	%xmm3, %xmm11
	pmulhuw	%xmm4, %xmm11
	movdqa	%xmm2, %xmm9
	psrlw	$8, %xmm9
	psrlw	$8, %xmm7
	pmullw	%xmm9, %xmm7
	paddw	%xmm3, %xmm7
	pmulhuw	%xmm4, %xmm7
	psllw	$8, %xmm7
	por	%xmm11, %xmm7
	pshufb	%xmm10, %xmm2
	pxor	%xmm2, %xmm6
	movdqa	%xmm8, %xmm9
	pand	%xmm5, %xmm9
	pandn	%xmm5, %xmm2
	pmullw	%xmm9, %xmm2
	paddw	%xmm3, %xmm2
	pmulhuw	%xmm4, %xmm2
	psrlw	$8, %xmm8
	psrlw	$8, %xmm6
	pmullw	%xmm8, %xmm6
	paddw	%xmm3, %xmm6
	pmulhuw	%xmm4, %xmm6
	psllw	$8, %xmm6
	por	%xmm2, %xmm6
	paddusb	%xmm7, %xmm6
	movdqu	%xmm6, (%rdi,%rax,4)
.LBB_288f4f_14:
	cmpl	%r12d, -80(%rsp)
	je	.LBB_288f4f_17
	xorl	%edi, %edi
	movq	-80(%rsp), %r10
	.p2align	4
.LBB_288f4f_16:
	movl	(%rsi,%rdi,4), %eax
	movzbl	%ah, %ebx
	movl	%eax, %edx
	movzbl	%al, %r13d
	movl	%eax, %r15d
	shrl	$16, %r15d
	shrl	$24, %edx
	movzbl	(%r8,%rdi), %eax
	movd	%eax, %xmm2
	pshuflw	$0, %xmm2, %xmm2
	pmullw	%xmm12, %xmm2
	movd	%edx, %xmm3
	xorl	$255, %edx
	movzbl	%r15b, %eax
	movdqa	.LCPI_288f4f_5(%rip), %xmm4
	paddw	%xmm4, %xmm2
	movdqa	%xmm2, %xmm5
	psrlw	$8, %xmm5
	paddw	%xmm2, %xmm5
	pextrb	$1, %xmm5, %r15d
	psrlw	$8, %xmm5
	xorl	$255, %r15d
	movd	%edx, %xmm2
	pshuflw	$0, %xmm2, %xmm2
	pmullw	%xmm5, %xmm2
	paddw	%xmm4, %xmm2
	movdqa	%xmm2, %xmm5
	psrlw	$8, %xmm5
	paddw	%xmm2, %xmm5
	psrlw	$8, %xmm5
	packuswb	%xmm5, %xmm5
	movd	%r15d, %xmm2
	pinsrw	$1, %eax, %xmm3
	pinsrw	$2, %ebx, %xmm3
	pinsrw	$3, %r13d, %xmm3
	pshuflw	$0, %xmm2, %xmm2
	pmullw	%xmm2, %xmm3
	paddw	%xmm4, %xmm3
	movdqa	%xmm3, %xmm2
	psrlw	$8, %xmm2
	paddw	%xmm3, %xmm2
	psrlw	$8, %xmm2
	packuswb	%xmm2, %xmm2
	paddusb	%xmm5, %xmm2
	pmovzxbd	%xmm2, %xmm2
	pmulld	.LCPI_288f4f_6(%rip), %xmm2
	pshufd	$238, %xmm2, %xmm3
	por	%xmm2, %xmm3
	pshufd	$85, %xmm3, %xmm2
	por	%xmm3, %xmm2
	movd	%xmm2, (%rsi,%rdi,4)
	incq	%r10
	incq	%rdi
	cmpq	%r12, %r10
	jb	.LBB_288f4f_16
	jmp	.LBB_288f4f_17
.LBB_288f4f_18:
	addq	$8, %rsp
	popq	%rbx
	popq	%r12
	popq	%r13
	popq	%r14
	popq	%r15
	popq	%rbp
	retq
.Lfunc_end_288f4f:
	.size	"pix_raster::view::blit_overlap::<#0658d1f93ab37b52>", .Lfunc_end_288f4f-"pix_raster::view::blit_overlap::<#0658d1f93ab37b52>"

	.section	.rodata.cst16,"aM",@progbits,16
	.p2align	4, 0x0
.LCPI_0c7ba2_0:
	.byte	255
	.byte	0
	.byte	255
	.byte	0
	.byte	255
	.byte	0
	.byte	255
	.byte	0
	.byte	255
	.byte	0
	.byte	255
	.byte	0
	.byte	255
	.byte	0
	.byte	255
	.byte	0
.LCPI_0c7ba2_1:
	.short	128
	.short	128
	.short	128
	.short	128
	.short	128
	.short	128
	.short	128
	.short	128
.LCPI_0c7ba2_2:
	.zero	16,1
.LCPI_0c7ba2_3:
	.byte	3
	.byte	128
	.byte	3
	.byte	128
	.byte	7
	.byte	128
	.byte	7
	.byte	128
	.byte	11
	.byte	128
	.byte	11
	.byte	128
	.byte	15
	.byte	128
	.byte	15
	.byte	128
.LCPI_0c7ba2_4:
	.byte	3
	.byte	3
	.byte	3
	.byte	3
	.byte	7
	.byte	7
	.byte	7
	.byte	7
	.byte	11
	.byte	11
	.byte	11
	.byte	11
	.byte	15
	.byte	15
	.byte	15
	.byte	15
.LCPI_0c7ba2_5:
	.short	128
	.short	128
	.short	128
	.short	128
	.zero	2
	.zero	2
	.zero	2
	.zero	2
.LCPI_0c7ba2_6:
	.long	16777216
	.long	65536
	.long	256
	.long	1
	.section	".text.pix_raster::view::blit_overlap::<#cadaf6b2c7002256>","ax",@progbits
	.p2align	4
	.type	"pix_raster::view::blit_overlap::<#cadaf6b2c7002256>",@function
"pix_raster::view::blit_overlap::<#cadaf6b2c7002256>":
	pushq	%rbp
	pushq	%r15
	pushq	%r14
	pushq	%r13
	pushq	%r12
	pushq	%rbx
	subq	$24, %rsp
	movq	%rcx, -88(%rsp)
	movq	%rdx, -96(%rsp)
	movq	%rsi, -104(%rsp)
	movq	%rdi, -112(%rsp)
	movq	24(%r8), %r10
	movq	32(%r8), %rax
	movq	%rax, -8(%rsp)
	cmpq	%rax, %r10
	jae	.LBB_0c7ba2_14
	movq	(%r8), %r12
	movq	16(%r8), %rbp
	movq	8(%r8), %r14
	movq	40(%r8), %rax
	subq	%r12, %r14
	movq	%rax, %rcx
	subq	%r10, %rcx
	movq	%rcx, -56(%rsp)
	movq	%r14, %rcx
	shrq	$4, %rcx
	movq	%rcx, -80(%rsp)
	movzbl	%r9b, %ecx
	movd	%ecx, %xmm1
	pxor	%xmm0, %xmm0
	pshuflw	$0, %xmm1, %xmm12
	pshufb	%xmm0, %xmm1
	movdqa	.LCPI_0c7ba2_0(%rip), %xmm2
	pand	%xmm1, %xmm2
	psrlw	$8, %xmm1
	movq	%r14, %rcx
	andq	$-16, %rcx
	movq	%rcx, -16(%rsp)
	leaq	(,%rcx,4), %r9
	movl	%r14d, %r13d
	andl	$15, %r13d
	leal	(,%r14,4), %ecx
	movl	%ecx, %edx
	andl	$32, %edx
	movq	%rdx, -72(%rsp)
	movq	%r14, -120(%rsp)
	andl	$12, %r14d
	movq	%r10, %rdx
	movq	-104(%rsp), %rdi
	imulq	%rdi, %rdx
	leaq	(,%r12,4), %rsi
	leaq	(%rsi,%rdx,4), %rbx
	movq	-112(%rsp), %r15
	addq	%r15, %rbx
	movq	-88(%rsp), %r11
	imulq	%r11, %rax
	leaq	(,%rbp,4), %rsi
	leaq	(%rsi,%rax,4), %r8
	leaq	(%r9,%rax,4), %rax
	andl	$48, %ecx
	addq	%rcx, %rax
	movq	%r9, -64(%rsp)
	leaq	(%r9,%rdx,4), %rdx
	addq	%rcx, %rdx
	leaq	(,%rdi,4), %rcx
	movq	%rcx, -24(%rsp)
	movq	-96(%rsp), %rcx
	addq	%rcx, %r8
	movq	%rbp, -48(%rsp)
	leaq	(%rax,%rbp,4), %r9
	addq	%rcx, %r9
	movq	%r12, -40(%rsp)
	leaq	(%rdx,%r12,4), %rdi
	addq	%r15, %rdi
	leaq	(,%r11,4), %rax
	movq	%rax, -32(%rsp)
	movdqa	%xmm12, (%rsp)
	jmp	.LBB_0c7ba2_2
	.p2align	4
.LBB_0c7ba2_13:
	incq	%r10
	movq	-24(%rsp), %rax
	addq	%rax, %rbx
	movq	-32(%rsp), %rcx
	addq	%rcx, %r8
	addq	%rcx, %r9
	addq	%rax, %rdi
	cmpq	-8(%rsp), %r10
	je	.LBB_0c7ba2_14
.LBB_0c7ba2_2:
	cmpq	$0, -80(%rsp)
	je	.LBB_0c7ba2_5
	movl	$32, %esi
	movq	-80(%rsp), %r12
	.p2align	4
.LBB_0c7ba2_4:
	movdqu	-32(%r8,%rsi), %xmm10
	movdqu	-16(%r8,%rsi), %xmm11
	movdqa	.LCPI_0c7ba2_0(%rip), %xmm3
	movdqa	%xmm10, %xmm14
	pand	%xmm3, %xmm14
	movdqa	%xmm11, %xmm7
	pand	%xmm3, %xmm7
	pmullw	%xmm2, %xmm7
	pmullw	%xmm2, %xmm14
	movdqa	.LCPI_0c7ba2_1(%rip), %xmm5
	paddw	%xmm5, %xmm14
	paddw	%xmm5, %xmm7
	movdqa	.LCPI_0c7ba2_2(%rip), %xmm4
	pmulhuw	%xmm4, %xmm7
	pmulhuw	%xmm4, %xmm14
	psrlw	$8, %xmm11
	psrlw	$8, %xmm10
	pmullw	%xmm1, %xmm10
	pmullw	%xmm1, %xmm11
	paddw	%xmm5, %xmm11
	paddw	%xmm5, %xmm10
	pmulhuw	%xmm4, %xmm10
	pmulhuw	%xmm4, %xmm11
	psllw	$8, %xmm11
	psllw	$8, %xmm10
	por	%xmm14, %xmm10
	por	%xmm7, %xmm11
	pcmpeqd	%xmm8, %xmm8
	movdqa	%xmm11, %xmm15
	pxor	%xmm8, %xmm15
	movdqa	%xmm10, %xmm0
	pxor	%xmm8, %xmm0
	movdqa	.LCPI_0c7ba2_3(%rip), %xmm9
	pshufb	%xmm9, %xmm0
	pshufb	%xmm9, %xmm15
	movdqu	-32(%rbx,%rsi), %xmm12
	movdqu	-16(%rbx,%rsi), %xmm13
	movdqa	%xmm12, %xmm6
	pxor	%xmm8, %xmm6
	pshufb	%xmm9, %xmm6
	pand	%xmm3, %xmm14
	pmullw	%xmm6, %xmm14
	psrlw	$8, %xmm10
	pmullw	%xmm6, %xmm10
	movdqa	%xmm13, %xmm6
	pxor	%xmm8, %xmm6
	pshufb	%xmm9, %xmm6
	pand	%xmm3, %xmm7
	pmullw	%xmm6, %xmm7
	psrlw	$8, %xmm11
	pmullw	%xmm6, %xmm11
	movdqu	(%rbx,%rsi), %xmm6
	paddw	%xmm5, %xmm7
	pmulhuw	%xmm4, %xmm7
	paddw	%xmm5, %xmm11
	pmulhuw	%xmm4, %xmm11
	psllw	$8, %xmm11
	por	%xmm7, %xmm11
	movdqu	16(%rbx,%rsi), %xmm7
	paddw	%xmm5, %xmm14
	pmulhuw	%xmm4, %xmm14
	paddw	%xmm5, %xmm10
	pmulhuw	%xmm4, %xmm10
	psllw	$8, %xmm10
	por	%xmm14, %xmm10
	movdqa	%xmm12, %xmm14
	pand	%xmm3, %xmm14
	pmullw	%xmm0, %xmm14
	psrlw	$8, %xmm12
	pmullw	%xmm0, %xmm12
	movdqa	%xmm13, %xmm0
	pand	%xmm3, %xmm0
	pmullw	%xmm15, %xmm0
	paddw	%xmm5, %xmm14
	paddw	%xmm5, %xmm0
	pmulhuw	%xmm4, %xmm0
	pmulhuw	%xmm4, %xmm14
	psrlw	$8, %xmm13
	pmullw	%xmm15, %xmm13
	paddw	%xmm5, %xmm13
	paddw	%xmm5, %xmm12
	pmulhuw	%xmm4, %xmm12
	pmulhuw	%xmm4, %xmm13
	psllw	$8, %xmm13
	por	%xmm0, %xmm13
	paddusb	%xmm11, %xmm13
	psllw	$8, %xmm12
	por	%xmm14, %xmm12
	paddusb	%xmm10, %xmm12
	movdqu	%xmm12, -32(%rbx,%rsi)
	movdqu	%xmm13, -16(%rbx,%rsi)
	movdqu	(%r8,%rsi), %xmm10
	movdqu	16(%r8,%rsi), %xmm11
	movdqa	%xmm10, %xmm12
	pand	%xmm3, %xmm12
	movdqa	%xmm11, %xmm0
	pand	%xmm3, %xmm0
	pmullw	%xmm2, %xmm0
	pmullw	%xmm2, %xmm12
	paddw	%xmm5, %xmm12
	paddw	%xmm5, %xmm0
	pmulhuw	%xmm4, %xmm0
	pmulhuw	%xmm4, %xmm12
	psrlw	$8, %xmm11
	psrlw	$8, %xmm10
	pmullw	%xmm1, %xmm10
	pmullw	%xmm1, %xmm11
	paddw	%xmm5, %xmm11
	paddw	%xmm5, %xmm10
	pmulhuw	%xmm4, %xmm10
	pmulhuw	%xmm4, %xmm11
	psllw	$8, %xmm11
	psllw	$8, %xmm10
	por	%xmm12, %xmm10
	por	%xmm0, %xmm11
	movdqa	%xmm11, %xmm13
	pxor	%xmm8, %xmm13
	movdqa	%xmm10, %xmm14
	pxor	%xmm8, %xmm14
	pshufb	%xmm9, %xmm14
	pshufb	%xmm9, %xmm13
	movdqa	%xmm7, %xmm15
	pxor	%xmm8, %xmm15
	pxor	%xmm6, %xmm8
	pshufb	%xmm9, %xmm8
	pshufb	%xmm9, %xmm15
	pand	%xmm3, %xmm12
	pmullw	%xmm8, %xmm12
	psrlw	$8, %xmm10
	pmullw	%xmm8, %xmm10
	pand	%xmm3, %xmm0
	pmullw	%xmm15, %xmm0
	psrlw	$8, %xmm11
	pmullw	%xmm15, %xmm11
	paddw	%xmm5, %xmm0
	pmulhuw	%xmm4, %xmm0
	paddw	%xmm5, %xmm11
	pmulhuw	%xmm4, %xmm11
	psllw	$8, %xmm11
	por	%xmm0, %xmm11
	paddw	%xmm5, %xmm12
	pmulhuw	%xmm4, %xmm12
	paddw	%xmm5, %xmm10
	pmulhuw	%xmm4, %xmm10
	psllw	$8, %xmm10
	por	%xmm12, %xmm10
	movdqa	%xmm6, %xmm0
	pand	%xmm3, %xmm0
	pmullw	%xmm14, %xmm0
	psrlw	$8, %xmm6
	pmullw	%xmm14, %xmm6
	pand	%xmm7, %xmm3
	pmullw	%xmm13, %xmm3
	psrlw	$8, %xmm7
	pmullw	%xmm13, %xmm7
	paddw	%xmm5, %xmm0
	paddw	%xmm5, %xmm3
	paddw	%xmm5, %xmm7
	paddw	%xmm5, %xmm6
	pmulhuw	%xmm4, %xmm3
	pmulhuw	%xmm4, %xmm0
	pmulhuw	%xmm4, %xmm6
	pmulhuw	%xmm4, %xmm7
	psllw	$8, %xmm7
	por	%xmm3, %xmm7
	paddusb	%xmm11, %xmm7
	psllw	$8, %xmm6
	por	%xmm0, %xmm6
	paddusb	%xmm10, %xmm6
	movdqu	%xmm6, (%rbx,%rsi)
	movdqu	%xmm7, 16(%rbx,%rsi)
	addq	$64, %rsi
	decq	%r12
	jne	.LBB_0c7ba2_4
.LBB_0c7ba2_5:
	movq	-16(%rsp), %rax
	cmpq	-120(%rsp), %rax
	movdqa	(%rsp), %xmm12
	je	.LBB_0c7ba2_13
	movq	%r10, %rax
	imulq	-104(%rsp), %rax
	addq	-40(%rsp), %rax
	movq	-56(%rsp), %rcx
	addq	%r10, %rcx
	imulq	-88(%rsp), %rcx
	addq	-48(%rsp), %rcx
	movq	-112(%rsp), %rdx
	leaq	(%rdx,%rax,4), %rsi
	movq	-96(%rsp), %rax
	leaq	(%rax,%rcx,4), %r12
	movq	-64(%rsp), %rax
	addq	%rax, %rsi
	addq	%rax, %r12
	testb	$8, -120(%rsp)
	jne	.LBB_0c7ba2_7
	testb	$4, -120(%rsp)
	jne	.LBB_0c7ba2_9
.LBB_0c7ba2_10:
	cmpl	%r13d, %r14d
	je	.LBB_0c7ba2_13
	jmp	.LBB_0c7ba2_11
	.p2align	4
.LBB_0c7ba2_7:
	movdqu	(%r12), %xmm3
	movdqu	16(%r12), %xmm4
	movdqa	.LCPI_0c7ba2_0(%rip), %xmm5
	movdqa	%xmm3, %xmm10
	pand	%xmm5, %xmm10
	movdqa	%xmm4, %xmm11
	pand	%xmm5, %xmm11
	pmullw	%xmm2, %xmm11
	pmullw	%xmm2, %xmm10
	movdqa	.LCPI_0c7ba2_1(%rip), %xmm6
	paddw	%xmm6, %xmm10
	paddw	%xmm6, %xmm11
	movdqa	.LCPI_0c7ba2_2(%rip), %xmm7
	pmulhuw	%xmm7, %xmm11
	pmulhuw	%xmm7, %xmm10
	psrlw	$8, %xmm4
	psrlw	$8, %xmm3
	pmullw	%xmm1, %xmm3
	pmullw	%xmm1, %xmm4
	paddw	%xmm6, %xmm4
	paddw	%xmm6, %xmm3
	pmulhuw	%xmm7, %xmm3
	pmulhuw	%xmm7, %xmm4
	psllw	$8, %xmm4
	psllw	$8, %xmm3
	por	%xmm10, %xmm3
	por	%xmm11, %xmm4
	movdqu	(%rsi), %xmm8
	movdqu	16(%rsi), %xmm9
	pcmpeqd	%xmm13, %xmm13
	movdqa	%xmm4, %xmm0
	pxor	%xmm13, %xmm0
	movdqa	%xmm3, %xmm12
	pxor	%xmm13, %xmm12
	movdqa	.LCPI_0c7ba2_3(%rip), %xmm14
	pshufb	%xmm14, %xmm12
	pshufb	%xmm14, %xmm0
	movdqa	%xmm9, %xmm15
	pxor	%xmm13, %xmm15
	pxor	%xmm8, %xmm13
	pshufb	%xmm14, %xmm13
	pshufb	%xmm14, %xmm15
	pand	%xmm5, %xmm10
	pand	%xmm5, %xmm11
	pmullw	%xmm15, %xmm11
	pmullw	%xmm13, %xmm10
	paddw	%xmm6, %xmm10
	paddw	%xmm6, %xmm11
	pmulhuw	%xmm7, %xmm11
	pmulhuw	%xmm7, %xmm10
	psrlw	$8, %xmm4
	psrlw	$8, %xmm3
	pmullw	%xmm13, %xmm3
	pmullw	%xmm15, %xmm4
	paddw	%xmm6, %xmm4
	paddw	%xmm6, %xmm3
	pmulhuw	%xmm7, %xmm3
	pmulhuw	%xmm7, %xmm4
	psllw	$8, %xmm4
	por	%xmm11, %xmm4
	psllw	$8, %xmm3
	por	%xmm10, %xmm3
	movdqa	%xmm8, %xmm10
	pand	%xmm5, %xmm10
	pand	%xmm9, %xmm5
	pmullw	%xmm0, %xmm5
	pmullw	%xmm12, %xmm10
	paddw	%xmm6, %xmm10
	paddw	%xmm6, %xmm5
	pmulhuw	%xmm7, %xmm5
	pmulhuw	%xmm7, %xmm10
	psrlw	$8, %xmm9
	psrlw	$8, %xmm8
	pmullw	%xmm12, %xmm8
	movdqa	(%rsp), %xmm12
	pmullw	%xmm0, %xmm9
	paddw	%xmm6, %xmm9
	paddw	%xmm6, %xmm8
	pmulhuw	%xmm7, %xmm8
	pmulhuw	%xmm7, %xmm9
	psllw	$8, %xmm9
	por	%xmm5, %xmm9
	paddusb	%xmm4, %xmm9
	psllw	$8, %xmm8
	por	%xmm10, %xmm8
	paddusb	%xmm3, %xmm8
	movdqu	%xmm8, (%rsi)
	movdqu	%xmm9, 16(%rsi)
	testb	$4, -120(%rsp)
	je	.LBB_0c7ba2_10
.LBB_0c7ba2_9:
	movq	-72(%rsp), %rax
	movdqu	(%r12,%rax), %xmm0
	movdqa	.LCPI_0c7ba2_0(%rip), %xmm5
	movdqa	%xmm0, %xmm9
	pand	%xmm5, %xmm9
	pmullw	%xmm2, %xmm9
	movdqa	.LCPI_0c7ba2_1(%rip), %xmm3
	paddw	%xmm3, %xmm9
	movdqa	.LCPI_0c7ba2_2(%rip), %xmm4
	pmulhuw	%xmm4, %xmm9
	psrlw	$8, %xmm0
	pmullw	%xmm1, %xmm0
	paddw	%xmm3, %xmm0
	pmulhuw	%xmm4, %xmm0
	psllw	$8, %xmm0
	por	%xmm9, %xmm0
	movdqu	(%rsi,%rax), %xmm8
	pcmpeqd	%xmm6, %xmm6
	movdqa	.LCPI_0c7ba2_4(%rip), %xmm10
	movdqa	%xmm8, %xmm11
	pshufb	%xmm10, %xmm11
	movdqa	%xmm11, %xmm7
	pxor	%xmm6, %xmm7
	pand	%xmm5, %xmm9
	pandn	%xmm5, %xmm11
	pmullw	%xmm9, %xmm11
	paddw	%xmm3, %xmm11
	pmulhuw	%xmm4, %xmm11
	movdqa	%xmm0, %xmm9
	psrlw	$8, %xmm9
	psrlw	$8, %xmm7
	pmullw	%xmm9, %xmm7
	paddw	%xmm3, %xmm7
	pmulhuw	%xmm4, %xmm7
	psllw	$8, %xmm7
	por	%xmm11, %xmm7
	pshufb	%xmm10, %xmm0
	pxor	%xmm0, %xmm6
	movdqa	%xmm8, %xmm9
	pand	%xmm5, %xmm9
	pandn	%xmm5, %xmm0
	pmullw	%xmm9, %xmm0
	paddw	%xmm3, %xmm0
	pmulhuw	%xmm4, %xmm0
	psrlw	$8, %xmm8
	psrlw	$8, %xmm6
	pmullw	%xmm8, %xmm6
	paddw	%xmm3, %xmm6
	pmulhuw	%xmm4, %xmm6
	psllw	$8, %xmm6
	por	%xmm0, %xmm6
	paddusb	%xmm7, %xmm6
	movdqu	%xmm6, (%rsi,%rax)
	cmpl	%r13d, %r14d
	je	.LBB_0c7ba2_13
.LBB_0c7ba2_11:
	xorl	%esi, %esi
	.p2align	4
.LBB_0c7ba2_12:
	movl	(%r9,%rsi,4), %ecx
	movl	(%rdi,%rsi,4), %eax
	movzbl	%ah, %ebp
	movl	%eax, %edx
	movzbl	%al, %r12d
	movl	%eax, %r11d
	shrl	$16, %r11d
	shrl	$24, %edx
	movzbl	%ch, %eax
	movzbl	%cl, %r15d
	movd	%ecx, %xmm0
	shrl	$16, %ecx
	movzbl	%cl, %ecx
	psrld	$24, %xmm0
	pinsrw	$1, %ecx, %xmm0
	pinsrw	$2, %eax, %xmm0
	pinsrw	$3, %r15d, %xmm0
	pmullw	%xmm12, %xmm0
	movd	%edx, %xmm3
	xorl	$255, %edx
	movzbl	%r11b, %eax
	movdqa	.LCPI_0c7ba2_5(%rip), %xmm4
	paddw	%xmm4, %xmm0
	movdqa	%xmm0, %xmm5
	psrlw	$8, %xmm5
	paddw	%xmm0, %xmm5
	pextrb	$1, %xmm5, %ecx
	psrlw	$8, %xmm5
	xorl	$255, %ecx
	movd	%edx, %xmm0
	pshuflw	$0, %xmm0, %xmm0
	pmullw	%xmm5, %xmm0
	paddw	%xmm4, %xmm0
	movdqa	%xmm0, %xmm5
	psrlw	$8, %xmm5
	paddw	%xmm0, %xmm5
	psrlw	$8, %xmm5
	packuswb	%xmm5, %xmm5
	movd	%ecx, %xmm0
	pinsrw	$1, %eax, %xmm3
	pinsrw	$2, %ebp, %xmm3
	pinsrw	$3, %r12d, %xmm3
	pshuflw	$0, %xmm0, %xmm0
	pmullw	%xmm0, %xmm3
	paddw	%xmm4, %xmm3
	movdqa	%xmm3, %xmm0
	psrlw	$8, %xmm0
	paddw	%xmm3, %xmm0
	psrlw	$8, %xmm0
	packuswb	%xmm0, %xmm0
	paddusb	%xmm5, %xmm0
	pmovzxbd	%xmm0, %xmm0
	pmulld	.LCPI_0c7ba2_6(%rip), %xmm0
	pshufd	$238, %xmm0, %xmm3
	por	%xmm0, %xmm3
	pshufd	$85, %xmm3, %xmm0
	por	%xmm3, %xmm0
	movd	%xmm0, (%rdi,%rsi,4)
	leaq	(%r14,%rsi), %rax
	incq	%rax
	incq	%rsi
	cmpq	%r13, %rax
	jb	.LBB_0c7ba2_12
	jmp	.LBB_0c7ba2_13
.LBB_0c7ba2_14:
	addq	$24, %rsp
	popq	%rbx
	popq	%r12
	popq	%r13
	popq	%r14
	popq	%r15
	popq	%rbp
	retq
.Lfunc_end_0c7ba2:
	.size	"pix_raster::view::blit_overlap::<#cadaf6b2c7002256>", .Lfunc_end_0c7ba2-"pix_raster::view::blit_overlap::<#cadaf6b2c7002256>"

	.section	".text.pix_raster::view::blit_overlap::<#07c05c7fae9ce56d>","ax",@progbits
	.p2align	4
	.type	"pix_raster::view::blit_overlap::<#07c05c7fae9ce56d>",@function
"pix_raster::view::blit_overlap::<#07c05c7fae9ce56d>":
	pushq	%rbp
	pushq	%r15
	pushq	%r14
	pushq	%r13
	pushq	%r12
	pushq	%rbx
	subq	$24, %rsp
	movq	24(%rdx), %r11
	movq	32(%rdx), %r12
	movq	%r12, %rbp
	subq	%r11, %rbp
	jbe	.LBB_100421_36
	movq	%rsi, %rbx
	movq	(%rdx), %r13
	movq	8(%rdx), %rax
	movq	%rax, %r14
	subq	%r13, %r14
	cmpq	$1024, %r14
	jb	.LBB_100421_4
	imulq	%rbx, %r11
	addq	%r11, %r13
	leaq	(%rdi,%r13,4), %r15
	shlq	$2, %rbx
	.p2align	4
.LBB_100421_3:
	movq	%r15, %rdi
	movq	%r14, %rsi
	callq	"pix_el::filled::clear_long::<#c0ead2364dd49755>"
	addq	%rbx, %r15
	decq	%rbp
	jne	.LBB_100421_3
.LBB_100421_36:
	addq	$24, %rsp
	popq	%rbx
	popq	%r12
	popq	%r13
	popq	%r14
	popq	%r15
	popq	%rbp
	retq
.LBB_100421_4:
	leaq	-33(%r14), %rcx
	cmpq	$-26, %rcx
	ja	.LBB_100421_13
	cmpq	%r13, %rax
	je	.LBB_100421_36
	shlq	$2, %r14
	movl	%r12d, %ecx
	subl	%r11d, %ecx
	movq	%r11, %rax
	andl	$3, %ecx
	movq	%rcx, (%rsp)
	je	.LBB_100421_10
	movq	%r11, 16(%rsp)
	movq	%r11, %rax
	imulq	%rbx, %rax
	addq	%r13, %rax
	movq	%rdi, 8(%rsp)
	leaq	(%rdi,%rax,4), %r15
	negq	(%rsp)
	xorl	%ebp, %ebp
	.p2align	4
.LBB_100421_8:
	movq	%r15, %rdi
	xorl	%esi, %esi
	movq	%r14, %rdx
	callq	memset@PLT
	decq	%rbp
	leaq	(,%rbx,4), %rax
	addq	%rax, %r15
	cmpq	%rbp, (%rsp)
	jne	.LBB_100421_8
	movq	16(%rsp), %r11
	movq	%r11, %rax
	subq	%rbp, %rax
	movq	8(%rsp), %rdi
.LBB_100421_10:
	subq	%r12, %r11
	cmpq	$-4, %r11
	ja	.LBB_100421_36
	subq	%rax, %r12
	leaq	3(%rax), %rcx
	imulq	%rbx, %rcx
	leaq	(%rdi,%rcx,4), %rcx
	movq	%rcx, (%rsp)
	shlq	$2, %r13
	movq	%rbx, %rbp
	shlq	$4, %rbp
	leaq	2(%rax), %rcx
	imulq	%rbx, %rcx
	leaq	(%rdi,%rcx,4), %rcx
	movq	%rcx, 8(%rsp)
	leaq	1(%rax), %rcx
	imulq	%rbx, %rcx
	leaq	(%rdi,%rcx,4), %r15
	imulq	%rbx, %rax
	leaq	(%rdi,%rax,4), %rbx
	.p2align	4
.LBB_100421_12:
	leaq	(%rbx,%r13), %rdi
	xorl	%esi, %esi
	movq	%r14, %rdx
	callq	memset@PLT
	leaq	(%r15,%r13), %rdi
	xorl	%esi, %esi
	movq	%r14, %rdx
	callq	memset@PLT
	movq	8(%rsp), %rax
	leaq	(%rax,%r13), %rdi
	xorl	%esi, %esi
	movq	%r14, %rdx
	callq	memset@PLT
	movq	(%rsp), %rax
	leaq	(%rax,%r13), %rdi
	xorl	%esi, %esi
	movq	%r14, %rdx
	callq	memset@PLT
	addq	%rbp, %r13
	addq	$-4, %r12
	jne	.LBB_100421_12
	jmp	.LBB_100421_36
.LBB_100421_13:
	cmpq	$17, %r14
	jae	.LBB_100421_14
	cmpq	$8, %r14
	jbe	.LBB_100421_22
	movl	%r12d, %edx
	subl	%r11d, %edx
	movq	%r11, %rcx
	andl	$3, %edx
	je	.LBB_100421_33
	movq	%r11, %rcx
	imulq	%rbx, %rcx
	leaq	(%rax,%rcx), %rsi
	leaq	-32(,%rsi,4), %rsi
	leaq	(,%rbx,4), %r8
	addq	%r13, %rcx
	shlq	$2, %rcx
	negq	%rdx
	xorl	%r9d, %r9d
	movq	%rdi, %r10
	.p2align	4
.LBB_100421_31:
	xorps	%xmm0, %xmm0
	movups	%xmm0, 16(%r10,%rcx)
	movups	%xmm0, (%r10,%rcx)
	movups	%xmm0, 16(%r10,%rsi)
	movups	%xmm0, (%r10,%rsi)
	decq	%r9
	addq	%r8, %r10
	cmpq	%r9, %rdx
	jne	.LBB_100421_31
	movq	%r11, %rcx
	subq	%r9, %rcx
.LBB_100421_33:
	subq	%r12, %r11
	cmpq	$-4, %r11
	ja	.LBB_100421_36
	subq	%rcx, %r12
	leaq	3(%rcx), %r8
	imulq	%rbx, %r8
	leaq	(,%rax,4), %r11
	leaq	(%r11,%r8,4), %rdx
	addq	$-32, %rdx
	movq	%rbx, %rsi
	shlq	$4, %rsi
	leaq	(,%r13,4), %r14
	leaq	(%r14,%r8,4), %r8
	leaq	2(%rcx), %r10
	imulq	%rbx, %r10
	leaq	(%r11,%r10,4), %r9
	addq	$-32, %r9
	leaq	(%r14,%r10,4), %r10
	leaq	1(%rcx), %r15
	imulq	%rbx, %r15
	leaq	(%r11,%r15,4), %r11
	addq	$-32, %r11
	leaq	(%r14,%r15,4), %r14
	imulq	%rbx, %rcx
	addq	%rcx, %rax
	leaq	-32(,%rax,4), %rax
	addq	%r13, %rcx
	shlq	$2, %rcx
	.p2align	4
.LBB_100421_35:
	xorps	%xmm0, %xmm0
	movups	%xmm0, 16(%rdi,%rcx)
	movups	%xmm0, (%rdi,%rcx)
	movups	%xmm0, 16(%rdi,%rax)
	movups	%xmm0, (%rdi,%rax)
	movups	%xmm0, 16(%rdi,%r14)
	movups	%xmm0, (%rdi,%r14)
	movups	%xmm0, 16(%rdi,%r11)
	movups	%xmm0, (%rdi,%r11)
	movups	%xmm0, 16(%rdi,%r10)
	movups	%xmm0, (%rdi,%r10)
	movups	%xmm0, 16(%rdi,%r9)
	movups	%xmm0, (%rdi,%r9)
	movups	%xmm0, 16(%rdi,%r8)
	movups	%xmm0, (%rdi,%r8)
	movups	%xmm0, 16(%rdi,%rdx)
	movups	%xmm0, (%rdi,%rdx)
	addq	%rsi, %rdi
	addq	$-4, %r12
	jne	.LBB_100421_35
	jmp	.LBB_100421_36
.LBB_100421_14:
	movl	%r12d, %edx
	subl	%r11d, %edx
	movq	%r11, %rcx
	andl	$3, %edx
	je	.LBB_100421_18
	movq	%r11, %rcx
	imulq	%rbx, %rcx
	leaq	(%rax,%rcx), %rsi
	leaq	-64(,%rsi,4), %rsi
	leaq	(,%rbx,4), %r8
	addq	%r13, %rcx
	shlq	$2, %rcx
	negq	%rdx
	xorl	%r9d, %r9d
	movq	%rdi, %r10
	.p2align	4
.LBB_100421_16:
	xorps	%xmm0, %xmm0
	movups	%xmm0, 48(%r10,%rcx)
	movups	%xmm0, 32(%r10,%rcx)
	movups	%xmm0, 16(%r10,%rcx)
	movups	%xmm0, (%r10,%rcx)
	movups	%xmm0, 48(%r10,%rsi)
	movups	%xmm0, 32(%r10,%rsi)
	movups	%xmm0, 16(%r10,%rsi)
	movups	%xmm0, (%r10,%rsi)
	decq	%r9
	addq	%r8, %r10
	cmpq	%r9, %rdx
	jne	.LBB_100421_16
	movq	%r11, %rcx
	subq	%r9, %rcx
.LBB_100421_18:
	subq	%r12, %r11
	cmpq	$-4, %r11
	ja	.LBB_100421_36
	subq	%rcx, %r12
	leaq	3(%rcx), %r8
	imulq	%rbx, %r8
	leaq	(,%rax,4), %r11
	leaq	(%r11,%r8,4), %rdx
	addq	$-64, %rdx
	movq	%rbx, %rsi
	shlq	$4, %rsi
	leaq	(,%r13,4), %r14
	leaq	(%r14,%r8,4), %r8
	leaq	2(%rcx), %r10
	imulq	%rbx, %r10
	leaq	(%r11,%r10,4), %r9
	addq	$-64, %r9
	leaq	(%r14,%r10,4), %r10
	leaq	1(%rcx), %r15
	imulq	%rbx, %r15
	leaq	(%r11,%r15,4), %r11
	addq	$-64, %r11
	leaq	(%r14,%r15,4), %r14
	imulq	%rbx, %rcx
	addq	%rcx, %rax
	leaq	-64(,%rax,4), %rax
	addq	%r13, %rcx
	shlq	$2, %rcx
	.p2align	4
.LBB_100421_20:
	xorps	%xmm0, %xmm0
	movups	%xmm0, 48(%rdi,%rcx)
	movups	%xmm0, 32(%rdi,%rcx)
	movups	%xmm0, 16(%rdi,%rcx)
	movups	%xmm0, (%rdi,%rcx)
	movups	%xmm0, 48(%rdi,%rax)
	movups	%xmm0, 32(%rdi,%rax)
	movups	%xmm0, 16(%rdi,%rax)
	movups	%xmm0, (%rdi,%rax)
	movups	%xmm0, 48(%rdi,%r14)
	movups	%xmm0, 32(%rdi,%r14)
	movups	%xmm0, 16(%rdi,%r14)
	movups	%xmm0, (%rdi,%r14)
	movups	%xmm0, 48(%rdi,%r11)
	movups	%xmm0, 32(%rdi,%r11)
	movups	%xmm0, 16(%rdi,%r11)
	movups	%xmm0, (%rdi,%r11)
	movups	%xmm0, 48(%rdi,%r10)
	movups	%xmm0, 32(%rdi,%r10)
	movups	%xmm0, 16(%rdi,%r10)
	movups	%xmm0, (%rdi,%r10)
	movups	%xmm0, 48(%rdi,%r9)
	movups	%xmm0, 32(%rdi,%r9)
	movups	%xmm0, 16(%rdi,%r9)
	movups	%xmm0, (%rdi,%r9)
	movups	%xmm0, 48(%rdi,%r8)
	movups	%xmm0, 32(%rdi,%r8)
	movups	%xmm0, 16(%rdi,%r8)
	movups	%xmm0, (%rdi,%r8)
	movups	%xmm0, 48(%rdi,%rdx)
	movups	%xmm0, 32(%rdi,%rdx)
	movups	%xmm0, 16(%rdi,%rdx)
	movups	%xmm0, (%rdi,%rdx)
	addq	%rsi, %rdi
	addq	$-4, %r12
	jne	.LBB_100421_20
	jmp	.LBB_100421_36
.LBB_100421_22:
	movl	%r12d, %eax
	subl	%r11d, %eax
	movq	%r11, %rdx
	andl	$3, %eax
	je	.LBB_100421_26
	movq	%r11, %rcx
	imulq	%rbx, %rcx
	addq	%r13, %rcx
	leaq	(%rdi,%rcx,4), %rcx
	leaq	(,%rbx,4), %rdx
	negq	%rax
	xorl	%esi, %esi
	.p2align	4
.LBB_100421_24:
	xorps	%xmm0, %xmm0
	movups	%xmm0, 16(%rcx)
	movups	%xmm0, (%rcx)
	decq	%rsi
	addq	%rdx, %rcx
	cmpq	%rsi, %rax
	jne	.LBB_100421_24
	movq	%r11, %rdx
	subq	%rsi, %rdx
.LBB_100421_26:
	subq	%r12, %r11
	cmpq	$-4, %r11
	ja	.LBB_100421_36
	subq	%rdx, %r12
	leaq	3(%rdx), %rax
	imulq	%rbx, %rax
	leaq	(%rdi,%rax,4), %rax
	shlq	$2, %r13
	movq	%rbx, %rcx
	shlq	$4, %rcx
	leaq	2(%rdx), %rsi
	imulq	%rbx, %rsi
	leaq	(%rdi,%rsi,4), %rsi
	leaq	1(%rdx), %r8
	imulq	%rbx, %r8
	leaq	(%rdi,%r8,4), %r8
	imulq	%rbx, %rdx
	leaq	(%rdi,%rdx,4), %rdx
	.p2align	4
.LBB_100421_28:
	xorps	%xmm0, %xmm0
	movups	%xmm0, 16(%rdx,%r13)
	movups	%xmm0, (%rdx,%r13)
	movups	%xmm0, 16(%r8,%r13)
	movups	%xmm0, (%r8,%r13)
	movups	%xmm0, 16(%rsi,%r13)
	movups	%xmm0, (%rsi,%r13)
	movups	%xmm0, 16(%rax,%r13)
	movups	%xmm0, (%rax,%r13)
	addq	%rcx, %r13
	addq	$-4, %r12
	jne	.LBB_100421_28
	jmp	.LBB_100421_36
.Lfunc_end_100421:
	.size	"pix_raster::view::blit_overlap::<#07c05c7fae9ce56d>", .Lfunc_end_100421-"pix_raster::view::blit_overlap::<#07c05c7fae9ce56d>"

	.section	".text.pix_raster::view::blit_overlap::<#38bb87c9d91cb462>","ax",@progbits
	.p2align	4
	.type	"pix_raster::view::blit_overlap::<#38bb87c9d91cb462>",@function
"pix_raster::view::blit_overlap::<#38bb87c9d91cb462>":
	pushq	%rbp
	pushq	%r15
	pushq	%r14
	pushq	%r13
	pushq	%r12
	pushq	%rbx
	movq	%rcx, -88(%rsp)
	movq	%rdx, -96(%rsp)
	movq	%rsi, -104(%rsp)
	movq	%rdi, -112(%rsp)
	movq	24(%r8), %rax
	movq	32(%r8), %rcx
	movq	%rax, -128(%rsp)
	movq	%rcx, -8(%rsp)
	cmpq	%rcx, %rax
	jae	.LBB_c47ea3_14
	movq	(%r8), %r10
	movq	16(%r8), %r15
	movq	8(%r8), %rbx
	movq	40(%r8), %rcx
	subq	%r10, %rbx
	movq	%rcx, %rax
	movq	-128(%rsp), %rdi
	subq	%rdi, %rax
	movq	%rax, -56(%rsp)
	movq	%rbx, %rax
	shrq	$4, %rax
	movq	%rax, -80(%rsp)
	movq	%rbx, %rax
	andq	$-16, %rax
	movq	%rax, -16(%rsp)
	leaq	(,%rax,4), %r12
	movl	%ebx, %r13d
	andl	$15, %r13d
	leal	(,%rbx,4), %edx
	movl	%edx, %eax
	andl	$32, %eax
	movq	%rax, -72(%rsp)
	movq	%rbx, -120(%rsp)
	andl	$12, %ebx
	movq	-88(%rsp), %rax
	imulq	%rax, %rcx
	leaq	(,%r15,4), %rsi
	leaq	(%rsi,%rcx,4), %r11
	movq	-96(%rsp), %r9
	addq	%r9, %r11
	movq	%rdi, %rsi
	movq	-104(%rsp), %r14
	imulq	%r14, %rsi
	leaq	(,%r10,4), %rdi
	leaq	(%rdi,%rsi,4), %r8
	leaq	(%r12,%rcx,4), %rdi
	andl	$48, %edx
	addq	%rdx, %rdi
	movq	%r12, -64(%rsp)
	leaq	(%r12,%rsi,4), %rsi
	addq	%rdx, %rsi
	leaq	(,%rax,4), %rax
	movq	%rax, -24(%rsp)
	movq	-112(%rsp), %rax
	addq	%rax, %r8
	movq	%r15, -48(%rsp)
	leaq	(%rdi,%r15,4), %rdx
	addq	%r9, %rdx
	movq	%r10, -40(%rsp)
	leaq	(%rsi,%r10,4), %r10
	addq	%rax, %r10
	leaq	(,%r14,4), %rax
	movq	%rax, -32(%rsp)
	jmp	.LBB_c47ea3_2
	.p2align	4
.LBB_c47ea3_13:
	movq	-128(%rsp), %rax
	incq	%rax
	movq	-24(%rsp), %rcx
	addq	%rcx, %r11
	movq	-32(%rsp), %rsi
	addq	%rsi, %r8
	addq	%rcx, %rdx
	addq	%rsi, %r10
	movq	%rax, -128(%rsp)
	cmpq	-8(%rsp), %rax
	je	.LBB_c47ea3_14
.LBB_c47ea3_2:
	cmpq	$0, -80(%rsp)
	je	.LBB_c47ea3_5
	movl	$32, %edi
	movq	-80(%rsp), %r9
	.p2align	4
.LBB_c47ea3_4:
	movdqu	-32(%r11,%rdi), %xmm0
	movdqu	-16(%r11,%rdi), %xmm1
	movdqu	-32(%r8,%rdi), %xmm2
	paddusb	%xmm0, %xmm2
	movdqu	-16(%r8,%rdi), %xmm0
	paddusb	%xmm1, %xmm0
	movdqu	(%r8,%rdi), %xmm1
	movdqu	16(%r8,%rdi), %xmm3
	movdqu	%xmm2, -32(%r8,%rdi)
	movdqu	%xmm0, -16(%r8,%rdi)
	movdqu	(%r11,%rdi), %xmm0
	paddusb	%xmm1, %xmm0
	movdqu	16(%r11,%rdi), %xmm1
	paddusb	%xmm3, %xmm1
	movdqu	%xmm0, (%r8,%rdi)
	movdqu	%xmm1, 16(%r8,%rdi)
	addq	$64, %rdi
	decq	%r9
	jne	.LBB_c47ea3_4
.LBB_c47ea3_5:
	movq	-16(%rsp), %rax
	cmpq	-120(%rsp), %rax
	je	.LBB_c47ea3_13
	movq	-128(%rsp), %rax
	movq	%rax, %rdi
	imulq	-104(%rsp), %rdi
	addq	-40(%rsp), %rdi
	movq	-56(%rsp), %rcx
	leaq	(%rcx,%rax), %r9
	imulq	-88(%rsp), %r9
	addq	-48(%rsp), %r9
	movq	-112(%rsp), %rax
	leaq	(%rax,%rdi,4), %rdi
	movq	-96(%rsp), %rax
	leaq	(%rax,%r9,4), %r9
	movq	-64(%rsp), %rax
	addq	%rax, %rdi
	addq	%rax, %r9
	testb	$8, -120(%rsp)
	jne	.LBB_c47ea3_7
	testb	$4, -120(%rsp)
	jne	.LBB_c47ea3_9
.LBB_c47ea3_10:
	cmpl	%r13d, %ebx
	je	.LBB_c47ea3_13
	jmp	.LBB_c47ea3_11
	.p2align	4
.LBB_c47ea3_7:
	movdqu	(%rdi), %xmm0
	movdqu	16(%rdi), %xmm1
	movdqu	(%r9), %xmm2
	paddusb	%xmm0, %xmm2
	movdqu	16(%r9), %xmm0
	paddusb	%xmm1, %xmm0
	movdqu	%xmm2, (%rdi)
	movdqu	%xmm0, 16(%rdi)
	testb	$4, -120(%rsp)
	je	.LBB_c47ea3_10
.LBB_c47ea3_9:
	movq	-72(%rsp), %rax
	movdqu	(%rdi,%rax), %xmm0
	movdqu	(%r9,%rax), %xmm1
	paddusb	%xmm0, %xmm1
	movdqu	%xmm1, (%rdi,%rax)
	cmpl	%r13d, %ebx
	je	.LBB_c47ea3_13
.LBB_c47ea3_11:
	xorl	%edi, %edi
	.p2align	4
.LBB_c47ea3_12:
	movl	(%rdx,%rdi,4), %ebp
	movl	%ebp, %r9d
	movl	%ebp, %r15d
	shrl	$8, %r15d
	movl	%ebp, %ecx
	shrl	$16, %ecx
	shrl	$24, %ebp
	movl	(%r10,%rdi,4), %esi
	movl	%esi, %r12d
	shrl	$8, %r12d
	movl	%esi, %r14d
	shrl	$16, %r14d
	movl	%esi, %eax
	shrl	$24, %eax
	addb	%r9b, %sil
	movzbl	%sil, %r9d
	movl	$255, %esi
	cmovbl	%esi, %r9d
	addb	%r15b, %r12b
	movzbl	%r12b, %r15d
	cmovbl	%esi, %r15d
	addb	%cl, %r14b
	movzbl	%r14b, %ecx
	cmovbl	%esi, %ecx
	addb	%bpl, %al
	movzbl	%al, %eax
	cmovbl	%esi, %eax
	shll	$24, %eax
	movzbl	%cl, %ecx
	shll	$16, %ecx
	orl	%eax, %ecx
	movzbl	%r15b, %eax
	shll	$8, %eax
	orl	%ecx, %eax
	movzbl	%r9b, %ecx
	orl	%eax, %ecx
	movl	%ecx, (%r10,%rdi,4)
	leaq	(%rbx,%rdi), %rax
	incq	%rax
	incq	%rdi
	cmpq	%r13, %rax
	jb	.LBB_c47ea3_12
	jmp	.LBB_c47ea3_13
.LBB_c47ea3_14:
	popq	%rbx
	popq	%r12
	popq	%r13
	popq	%r14
	popq	%r15
	popq	%rbp
	retq
.Lfunc_end_c47ea3:
	.size	"pix_raster::view::blit_overlap::<#38bb87c9d91cb462>", .Lfunc_end_c47ea3-"pix_raster::view::blit_overlap::<#38bb87c9d91cb462>"

	.section	.rodata.cst16,"aM",@progbits,16
	.p2align	4, 0x0
.LCPI_e65ddd_0:
	.byte	255
	.byte	0
	.byte	255
	.byte	0
	.byte	255
	.byte	0
	.byte	255
	.byte	0
	.byte	255
	.byte	0
	.byte	255
	.byte	0
	.byte	255
	.byte	0
	.byte	255
	.byte	0
.LCPI_e65ddd_1:
	.short	128
	.short	128
	.short	128
	.short	128
	.short	128
	.short	128
	.short	128
	.short	128
.LCPI_e65ddd_2:
	.zero	16,1
.LCPI_e65ddd_3:
	.short	128
	.short	128
	.short	128
	.short	128
	.zero	2
	.zero	2
	.zero	2
	.zero	2
.LCPI_e65ddd_4:
	.long	65536
	.long	16777216
	.long	256
	.long	1
	.section	".text.pix_raster::view::blit_overlap::<#1190cce370e40c2f>","ax",@progbits
	.p2align	4
	.type	"pix_raster::view::blit_overlap::<#1190cce370e40c2f>",@function
"pix_raster::view::blit_overlap::<#1190cce370e40c2f>":
	pushq	%rbp
	pushq	%r15
	pushq	%r14
	pushq	%r13
	pushq	%r12
	pushq	%rbx
	movq	%rsi, -64(%rsp)
	movq	%rdi, -72(%rsp)
	movq	24(%r8), %rax
	movq	32(%r8), %rsi
	movq	%rsi, -8(%rsp)
	cmpq	%rsi, %rax
	jae	.LBB_e65ddd_18
	movq	(%r8), %r14
	movq	16(%r8), %rsi
	movq	%rsi, -96(%rsp)
	movq	%rdx, -88(%rsp)
	addq	%rsi, %rdx
	movq	%rdx, -32(%rsp)
	movl	%r9d, %r11d
	movq	8(%r8), %rbx
	movq	40(%r8), %rdi
	subq	%r14, %rbx
	movq	%rdi, %rdx
	subq	%rax, %rdx
	movq	%rdx, -40(%rsp)
	movq	%rbx, %r9
	shrq	$4, %r9
	movl	%r11d, %r10d
	shrl	$24, %r10d
	movl	%r11d, %r8d
	shrl	$16, %r8d
	movl	%r11d, %edx
	shrl	$8, %edx
	movd	%r11d, %xmm0
	pinsrb	$1, %edx, %xmm0
	pinsrb	$2, %r8d, %xmm0
	pinsrb	$3, %r10d, %xmm0
	pinsrb	$4, %r11d, %xmm0
	pinsrb	$5, %edx, %xmm0
	pinsrb	$6, %r8d, %xmm0
	pinsrb	$7, %r10d, %xmm0
	pinsrb	$8, %r11d, %xmm0
	pinsrb	$9, %edx, %xmm0
	pinsrb	$10, %r8d, %xmm0
	pinsrb	$11, %r10d, %xmm0
	pinsrb	$12, %r11d, %xmm0
	pinsrb	$13, %edx, %xmm0
	pinsrb	$14, %r8d, %xmm0
	movdqa	.LCPI_e65ddd_0(%rip), %xmm1
	pand	%xmm0, %xmm1
	pinsrb	$15, %r10d, %xmm0
	psrlw	$8, %xmm0
	movq	%rbx, %r12
	andq	$-16, %r12
	leaq	(,%r12,4), %rbp
	movl	%ebx, %r13d
	andl	$15, %r13d
	movl	%ebx, %edx
	andl	$8, %edx
	movq	%rdx, -80(%rsp)
	movzbl	%r8b, %edx
	movd	%edx, %xmm2
	movl	%ebx, %r15d
	andl	$12, %r15d
	pinsrw	$1, %r10d, %xmm2
	movl	%r11d, %edx
	movzbl	%dh, %esi
	movzbl	%dl, %r8d
	pinsrw	$2, %esi, %xmm2
	pinsrw	$3, %r8d, %xmm2
	movq	%r9, -16(%rsp)
	leaq	(,%r9,4), %r11
	movq	%rax, %r9
	movq	-88(%rsp), %rdx
	movq	-64(%rsp), %r10
	imulq	%r10, %r9
	imulq	%rcx, %rdi
	addq	-96(%rsp), %rdi
	movq	%r12, -96(%rsp)
	leaq	(%r12,%r15), %r8
	addq	%rdx, %r8
	addq	%rdi, %rdx
	addq	$8, %rdx
	addq	%rdi, %r8
	leaq	(%r14,%r9), %rsi
	movq	-72(%rsp), %rdi
	leaq	(%rdi,%rsi,4), %r12
	movq	%rbp, -48(%rsp)
	leaq	(%rbp,%r9,4), %rsi
	movq	%r15, -56(%rsp)
	leaq	(%rsi,%r15,4), %rsi
	movq	%r14, -24(%rsp)
	leaq	(%rsi,%r14,4), %rsi
	addq	%rdi, %rsi
	leaq	(,%r10,4), %rdi
	movq	%rdi, -88(%rsp)
	jmp	.LBB_e65ddd_2
	.p2align	4
.LBB_e65ddd_17:
	incq	%rax
	movq	-88(%rsp), %rdi
	addq	%rdi, %r12
	addq	%rcx, %rdx
	addq	%rcx, %r8
	addq	%rdi, %rsi
	cmpq	-8(%rsp), %rax
	je	.LBB_e65ddd_18
.LBB_e65ddd_2:
	cmpq	$0, -16(%rsp)
	je	.LBB_e65ddd_7
	xorl	%ebp, %ebp
	movq	%r12, %r10
	jmp	.LBB_e65ddd_4
	.p2align	4
.LBB_e65ddd_6:
	addq	$4, %rbp
	addq	$64, %r10
	cmpq	%rbp, %r11
	je	.LBB_e65ddd_7
.LBB_e65ddd_4:
	movq	-8(%rdx,%rbp,4), %r9
	movq	(%rdx,%rbp,4), %r14
	orq	%r9, %r14
	je	.LBB_e65ddd_6
	movq	%r9, %xmm6
	punpcklbw	%xmm6, %xmm6
	movdqa	%xmm6, %xmm7
	punpckhwd	%xmm6, %xmm7
	punpcklwd	%xmm6, %xmm6
	movdqa	.LCPI_e65ddd_0(%rip), %xmm3
	movdqa	%xmm6, %xmm8
	pand	%xmm3, %xmm8
	movdqa	%xmm7, %xmm9
	pand	%xmm3, %xmm9
	pmullw	%xmm1, %xmm9
	pmullw	%xmm1, %xmm8
	movdqa	.LCPI_e65ddd_1(%rip), %xmm4
	paddw	%xmm4, %xmm8
	paddw	%xmm4, %xmm9
	movdqa	.LCPI_e65ddd_2(%rip), %xmm5
	pmulhuw	%xmm5, %xmm9
	pmulhuw	%xmm5, %xmm8
	psrlw	$8, %xmm7
	psrlw	$8, %xmm6
	pmullw	%xmm0, %xmm6
	pmullw	%xmm0, %xmm7
	paddw	%xmm4, %xmm7
	paddw	%xmm4, %xmm6
	pmulhuw	%xmm5, %xmm6
	pmulhuw	%xmm5, %xmm7
	psllw	$8, %xmm7
	por	%xmm9, %xmm7
	psllw	$8, %xmm6
	por	%xmm8, %xmm6
	movdqu	(%r10), %xmm8
	paddusb	%xmm6, %xmm8
	movdqu	16(%r10), %xmm10
	paddusb	%xmm7, %xmm10
	movdqu	32(%r10), %xmm6
	movdqu	48(%r10), %xmm9
	movdqu	%xmm8, (%r10)
	movdqu	%xmm10, 16(%r10)
	movq	(%rdx,%rbp,4), %xmm7
	punpcklbw	%xmm7, %xmm7
	movdqa	%xmm7, %xmm8
	punpckhwd	%xmm7, %xmm8
	punpcklwd	%xmm7, %xmm7
	movdqa	%xmm7, %xmm10
	pand	%xmm3, %xmm10
	pand	%xmm8, %xmm3
	pmullw	%xmm1, %xmm3
	pmullw	%xmm1, %xmm10
	paddw	%xmm4, %xmm10
	paddw	%xmm4, %xmm3
	pmulhuw	%xmm5, %xmm3
	pmulhuw	%xmm5, %xmm10
	psrlw	$8, %xmm8
	psrlw	$8, %xmm7
	pmullw	%xmm0, %xmm7
	pmullw	%xmm0, %xmm8
	paddw	%xmm4, %xmm8
	paddw	%xmm4, %xmm7
	pmulhuw	%xmm5, %xmm7
	pmulhuw	%xmm5, %xmm8
	psllw	$8, %xmm8
	por	%xmm3, %xmm8
	paddusb	%xmm9, %xmm8
	psllw	$8, %xmm7
	por	%xmm10, %xmm7
	paddusb	%xmm6, %xmm7
	movdqu	%xmm7, 32(%r10)
	movdqu	%xmm8, 48(%r10)
	jmp	.LBB_e65ddd_6
	.p2align	4
.LBB_e65ddd_7:
	cmpq	%rbx, -96(%rsp)
	je	.LBB_e65ddd_17
	movq	%rax, %r9
	imulq	-64(%rsp), %r9
	addq	-24(%rsp), %r9
	movq	-40(%rsp), %rdi
	leaq	(%rdi,%rax), %rbp
	imulq	%rcx, %rbp
	addq	-32(%rsp), %rbp
	movq	-72(%rsp), %rdi
	leaq	(%rdi,%r9,4), %r10
	addq	-48(%rsp), %r10
	addq	-96(%rsp), %rbp
	testb	$8, %bl
	je	.LBB_e65ddd_11
	movq	(%rbp), %r9
	testq	%r9, %r9
	je	.LBB_e65ddd_11
	movq	%r9, %xmm3
	punpcklbw	%xmm3, %xmm3
	movdqa	%xmm3, %xmm4
	punpckhwd	%xmm3, %xmm4
	punpcklwd	%xmm3, %xmm3
	movdqa	.LCPI_e65ddd_0(%rip), %xmm6
	movdqa	%xmm3, %xmm5
	pand	%xmm6, %xmm5
	pand	%xmm4, %xmm6
	pmullw	%xmm1, %xmm6
	pmullw	%xmm1, %xmm5
	movdqa	.LCPI_e65ddd_1(%rip), %xmm7
	paddw	%xmm7, %xmm5
	paddw	%xmm7, %xmm6
	movdqa	.LCPI_e65ddd_2(%rip), %xmm8
	pmulhuw	%xmm8, %xmm6
	pmulhuw	%xmm8, %xmm5
	psrlw	$8, %xmm4
	psrlw	$8, %xmm3
	pmullw	%xmm0, %xmm3
	pmullw	%xmm0, %xmm4
	paddw	%xmm7, %xmm4
	paddw	%xmm7, %xmm3
	pmulhuw	%xmm8, %xmm3
	pmulhuw	%xmm8, %xmm4
	psllw	$8, %xmm4
	por	%xmm6, %xmm4
	psllw	$8, %xmm3
	por	%xmm5, %xmm3
	movdqu	(%r10), %xmm5
	paddusb	%xmm3, %xmm5
	movdqu	16(%r10), %xmm3
	paddusb	%xmm4, %xmm3
	movdqu	%xmm5, (%r10)
	movdqu	%xmm3, 16(%r10)
.LBB_e65ddd_11:
	testb	$4, %bl
	je	.LBB_e65ddd_14
	movq	-80(%rsp), %rdi
	movl	(%rbp,%rdi), %r9d
	testl	%r9d, %r9d
	je	.LBB_e65ddd_14
	movd	%r9d, %xmm3
	punpcklbw	%xmm3, %xmm3
	punpcklwd	%xmm3, %xmm3
	movdqa	.LCPI_e65ddd_0(%rip), %xmm4
	pand	%xmm3, %xmm4
	pmullw	%xmm1, %xmm4
	movdqa	.LCPI_e65ddd_1(%rip), %xmm5
	paddw	%xmm5, %xmm4
	movdqa	.LCPI_e65ddd_2(%rip), %xmm6
	pmulhuw	%xmm6, %xmm4
	psrlw	$8, %xmm3
	pmullw	%xmm0, %xmm3
	paddw	%xmm5, %xmm3
	pmulhuw	%xmm6, %xmm3
	psllw	$8, %xmm3
	por	%xmm4, %xmm3
	movq	-80(%rsp), %rdi
	movdqu	(%r10,%rdi,4), %xmm4
	paddusb	%xmm3, %xmm4
	movdqu	%xmm4, (%r10,%rdi,4)
.LBB_e65ddd_14:
	cmpl	%r13d, -56(%rsp)
	je	.LBB_e65ddd_17
	xorl	%r10d, %r10d
	movq	-56(%rsp), %rbp
	.p2align	4
.LBB_e65ddd_16:
	movl	(%rsi,%r10,4), %r9d
	movl	%r9d, %r14d
	shrl	$8, %r14d
	movl	%r9d, %edi
	shrl	$24, %edi
	movzbl	(%r8,%r10), %r15d
	movd	%r15d, %xmm3
	pshuflw	$0, %xmm3, %xmm3
	pmullw	%xmm2, %xmm3
	paddw	.LCPI_e65ddd_3(%rip), %xmm3
	movdqa	%xmm3, %xmm4
	psrlw	$8, %xmm4
	paddw	%xmm3, %xmm4
	psrlw	$8, %xmm4
	packuswb	%xmm4, %xmm4
	movd	%r9d, %xmm3
	psrld	$16, %xmm3
	pinsrb	$1, %edi, %xmm3
	pinsrb	$2, %r14d, %xmm3
	pinsrb	$3, %r9d, %xmm3
	paddusb	%xmm4, %xmm3
	pmovzxbd	%xmm3, %xmm3
	pmulld	.LCPI_e65ddd_4(%rip), %xmm3
	pshufd	$238, %xmm3, %xmm4
	por	%xmm3, %xmm4
	pshufd	$85, %xmm4, %xmm3
	por	%xmm4, %xmm3
	movd	%xmm3, (%rsi,%r10,4)
	incq	%rbp
	incq	%r10
	cmpq	%r13, %rbp
	jb	.LBB_e65ddd_16
	jmp	.LBB_e65ddd_17
.LBB_e65ddd_18:
	popq	%rbx
	popq	%r12
	popq	%r13
	popq	%r14
	popq	%r15
	popq	%rbp
	retq
.Lfunc_end_e65ddd:
	.size	"pix_raster::view::blit_overlap::<#1190cce370e40c2f>", .Lfunc_end_e65ddd-"pix_raster::view::blit_overlap::<#1190cce370e40c2f>"

	.section	.rodata.cst16,"aM",@progbits,16
	.p2align	4, 0x0
.LCPI_89cae0_0:
	.byte	255
	.byte	0
	.byte	255
	.byte	0
	.byte	255
	.byte	0
	.byte	255
	.byte	0
	.byte	255
	.byte	0
	.byte	255
	.byte	0
	.byte	255
	.byte	0
	.byte	255
	.byte	0
.LCPI_89cae0_1:
	.short	128
	.short	128
	.short	128
	.short	128
	.short	128
	.short	128
	.short	128
	.short	128
.LCPI_89cae0_2:
	.zero	16,1
.LCPI_89cae0_3:
	.short	128
	.short	128
	.short	128
	.short	128
	.zero	2
	.zero	2
	.zero	2
	.zero	2
.LCPI_89cae0_4:
	.long	65536
	.long	16777216
	.long	256
	.long	1
	.section	".text.pix_raster::view::blit_overlap::<#79e97ac7f662bd7a>","ax",@progbits
	.p2align	4
	.type	"pix_raster::view::blit_overlap::<#79e97ac7f662bd7a>",@function
"pix_raster::view::blit_overlap::<#79e97ac7f662bd7a>":
	pushq	%rbp
	pushq	%r15
	pushq	%r14
	pushq	%r13
	pushq	%r12
	pushq	%rbx
	movq	%rcx, -88(%rsp)
	movq	%rdx, -96(%rsp)
	movq	%rsi, -104(%rsp)
	movq	%rdi, -112(%rsp)
	movq	24(%r8), %r11
	movq	32(%r8), %rax
	movq	%rax, -8(%rsp)
	cmpq	%rax, %r11
	jae	.LBB_89cae0_14
	movq	(%r8), %rbx
	movq	16(%r8), %r15
	movq	8(%r8), %r14
	movq	40(%r8), %rcx
	subq	%rbx, %r14
	movq	%rcx, %rax
	subq	%r11, %rax
	movq	%rax, -56(%rsp)
	movq	%r14, %rax
	shrq	$4, %rax
	movq	%rax, -80(%rsp)
	movzbl	%r9b, %eax
	movd	%eax, %xmm1
	pxor	%xmm2, %xmm2
	pshuflw	$0, %xmm1, %xmm0
	pshufb	%xmm2, %xmm1
	movdqa	.LCPI_89cae0_0(%rip), %xmm2
	pand	%xmm1, %xmm2
	psrlw	$8, %xmm1
	movq	%r14, %rax
	andq	$-16, %rax
	movq	%rax, -16(%rsp)
	leaq	(,%rax,4), %rbp
	movl	%r14d, %r13d
	andl	$15, %r13d
	leal	(,%r14,4), %eax
	movl	%eax, %edx
	andl	$32, %edx
	movq	%rdx, -72(%rsp)
	movq	%r14, -120(%rsp)
	andl	$12, %r14d
	movq	-88(%rsp), %rdi
	imulq	%rdi, %rcx
	leaq	(,%r15,4), %rdx
	leaq	(%rdx,%rcx,4), %r12
	movq	-96(%rsp), %r9
	addq	%r9, %r12
	movq	%r11, %rdx
	movq	-104(%rsp), %r10
	imulq	%r10, %rdx
	leaq	(,%rbx,4), %rsi
	leaq	(%rsi,%rdx,4), %r8
	leaq	(,%rcx,4), %rcx
	addq	%rbp, %rcx
	andl	$48, %eax
	addq	%rax, %rcx
	movq	%rbp, -64(%rsp)
	leaq	(,%rdx,4), %rdx
	addq	%rbp, %rdx
	addq	%rax, %rdx
	leaq	(,%rdi,4), %rax
	movq	%rax, -24(%rsp)
	movq	-112(%rsp), %rax
	addq	%rax, %r8
	movq	%r15, -48(%rsp)
	leaq	(%rcx,%r15,4), %rcx
	addq	%r9, %rcx
	movq	%rbx, -40(%rsp)
	leaq	(%rdx,%rbx,4), %rdx
	addq	%rax, %rdx
	leaq	(,%r10,4), %rax
	movq	%rax, -32(%rsp)
	jmp	.LBB_89cae0_2
	.p2align	4
.LBB_89cae0_13:
	incq	%r11
	movq	-24(%rsp), %rax
	addq	%rax, %r12
	movq	-32(%rsp), %rsi
	addq	%rsi, %r8
	addq	%rax, %rcx
	addq	%rsi, %rdx
	cmpq	-8(%rsp), %r11
	je	.LBB_89cae0_14
.LBB_89cae0_2:
	cmpq	$0, -80(%rsp)
	je	.LBB_89cae0_5
	movl	$32, %edi
	movq	-80(%rsp), %rbx
	.p2align	4
.LBB_89cae0_4:
	movdqu	-32(%r12,%rdi), %xmm7
	movdqu	-16(%r12,%rdi), %xmm6
	movdqa	.LCPI_89cae0_0(%rip), %xmm3
	movdqa	%xmm7, %xmm8
	pand	%xmm3, %xmm8
	movdqa	%xmm6, %xmm9
	pand	%xmm3, %xmm9
	pmullw	%xmm2, %xmm9
	pmullw	%xmm2, %xmm8
	movdqa	.LCPI_89cae0_1(%rip), %xmm4
	paddw	%xmm4, %xmm8
	paddw	%xmm4, %xmm9
	movdqa	.LCPI_89cae0_2(%rip), %xmm5
	pmulhuw	%xmm5, %xmm9
	pmulhuw	%xmm5, %xmm8
	psrlw	$8, %xmm6
	psrlw	$8, %xmm7
	pmullw	%xmm1, %xmm7
	pmullw	%xmm1, %xmm6
	paddw	%xmm4, %xmm6
	paddw	%xmm4, %xmm7
	pmulhuw	%xmm5, %xmm7
	pmulhuw	%xmm5, %xmm6
	psllw	$8, %xmm6
	por	%xmm9, %xmm6
	psllw	$8, %xmm7
	por	%xmm8, %xmm7
	movdqu	-32(%r8,%rdi), %xmm8
	paddusb	%xmm7, %xmm8
	movdqu	-16(%r8,%rdi), %xmm7
	paddusb	%xmm6, %xmm7
	movdqu	(%r8,%rdi), %xmm6
	movdqu	16(%r8,%rdi), %xmm9
	movdqu	%xmm8, -32(%r8,%rdi)
	movdqu	%xmm7, -16(%r8,%rdi)
	movdqu	(%r12,%rdi), %xmm7
	movdqu	16(%r12,%rdi), %xmm8
	movdqa	%xmm7, %xmm10
	pand	%xmm3, %xmm10
	pand	%xmm8, %xmm3
	pmullw	%xmm2, %xmm3
	pmullw	%xmm2, %xmm10
	paddw	%xmm4, %xmm10
	paddw	%xmm4, %xmm3
	pmulhuw	%xmm5, %xmm3
	pmulhuw	%xmm5, %xmm10
	psrlw	$8, %xmm8
	psrlw	$8, %xmm7
	pmullw	%xmm1, %xmm7
	pmullw	%xmm1, %xmm8
	paddw	%xmm4, %xmm8
	paddw	%xmm4, %xmm7
	pmulhuw	%xmm5, %xmm7
	pmulhuw	%xmm5, %xmm8
	psllw	$8, %xmm8
	por	%xmm3, %xmm8
	paddusb	%xmm9, %xmm8
	psllw	$8, %xmm7
	por	%xmm10, %xmm7
	paddusb	%xmm6, %xmm7
	movdqu	%xmm7, (%r8,%rdi)
	movdqu	%xmm8, 16(%r8,%rdi)
	addq	$64, %rdi
	decq	%rbx
	jne	.LBB_89cae0_4
.LBB_89cae0_5:
	movq	-16(%rsp), %rax
	cmpq	-120(%rsp), %rax
	je	.LBB_89cae0_13
	movq	%r11, %rax
	imulq	-104(%rsp), %rax
	addq	-40(%rsp), %rax
	movq	-56(%rsp), %rsi
	addq	%r11, %rsi
	imulq	-88(%rsp), %rsi
	addq	-48(%rsp), %rsi
	movq	-112(%rsp), %rdi
	leaq	(%rdi,%rax,4), %rdi
	movq	-96(%rsp), %rax
	leaq	(%rax,%rsi,4), %rbx
	movq	-64(%rsp), %rax
	addq	%rax, %rdi
	addq	%rax, %rbx
	testb	$8, -120(%rsp)
	jne	.LBB_89cae0_7
	testb	$4, -120(%rsp)
	jne	.LBB_89cae0_9
.LBB_89cae0_10:
	cmpl	%r13d, %r14d
	je	.LBB_89cae0_13
	jmp	.LBB_89cae0_11
	.p2align	4
.LBB_89cae0_7:
	movdqu	(%rbx), %xmm4
	movdqu	16(%rbx), %xmm3
	movdqa	.LCPI_89cae0_0(%rip), %xmm6
	movdqa	%xmm4, %xmm5
	pand	%xmm6, %xmm5
	pand	%xmm3, %xmm6
	pmullw	%xmm2, %xmm6
	pmullw	%xmm2, %xmm5
	movdqa	.LCPI_89cae0_1(%rip), %xmm7
	paddw	%xmm7, %xmm5
	paddw	%xmm7, %xmm6
	movdqa	.LCPI_89cae0_2(%rip), %xmm8
	pmulhuw	%xmm8, %xmm6
	pmulhuw	%xmm8, %xmm5
	psrlw	$8, %xmm3
	psrlw	$8, %xmm4
	pmullw	%xmm1, %xmm4
	pmullw	%xmm1, %xmm3
	paddw	%xmm7, %xmm3
	paddw	%xmm7, %xmm4
	pmulhuw	%xmm8, %xmm4
	pmulhuw	%xmm8, %xmm3
	psllw	$8, %xmm3
	por	%xmm6, %xmm3
	psllw	$8, %xmm4
	por	%xmm5, %xmm4
	movdqu	(%rdi), %xmm5
	paddusb	%xmm4, %xmm5
	movdqu	16(%rdi), %xmm4
	paddusb	%xmm3, %xmm4
	movdqu	%xmm5, (%rdi)
	movdqu	%xmm4, 16(%rdi)
	testb	$4, -120(%rsp)
	je	.LBB_89cae0_10
.LBB_89cae0_9:
	movq	-72(%rsp), %rax
	movdqu	(%rbx,%rax), %xmm3
	movdqa	.LCPI_89cae0_0(%rip), %xmm4
	pand	%xmm3, %xmm4
	pmullw	%xmm2, %xmm4
	movdqa	.LCPI_89cae0_1(%rip), %xmm5
	paddw	%xmm5, %xmm4
	movdqa	.LCPI_89cae0_2(%rip), %xmm6
	pmulhuw	%xmm6, %xmm4
	psrlw	$8, %xmm3
	pmullw	%xmm1, %xmm3
	paddw	%xmm5, %xmm3
	pmulhuw	%xmm6, %xmm3
	psllw	$8, %xmm3
	por	%xmm4, %xmm3
	movdqu	(%rdi,%rax), %xmm4
	paddusb	%xmm3, %xmm4
	movdqu	%xmm4, (%rdi,%rax)
	cmpl	%r13d, %r14d
	je	.LBB_89cae0_13
.LBB_89cae0_11:
	xorl	%edi, %edi
	.p2align	4
.LBB_89cae0_12:
	movl	(%rcx,%rdi,4), %ebx
	movzbl	%bh, %esi
	movl	%ebx, %eax
	movzbl	%bl, %r10d
	shrl	$16, %ebx
	shrl	$24, %eax
	movzbl	%bl, %r9d
	movl	(%rdx,%rdi,4), %ebx
	movl	%ebx, %ebp
	shrl	$8, %ebp
	movl	%ebx, %r15d
	shrl	$24, %r15d
	movd	%r9d, %xmm3
	pinsrw	$1, %eax, %xmm3
	pinsrw	$2, %esi, %xmm3
	pinsrw	$3, %r10d, %xmm3
	pmullw	%xmm0, %xmm3
	paddw	.LCPI_89cae0_3(%rip), %xmm3
	movdqa	%xmm3, %xmm4
	psrlw	$8, %xmm4
	paddw	%xmm3, %xmm4
	psrlw	$8, %xmm4
	packuswb	%xmm4, %xmm4
	movd	%ebx, %xmm3
	psrld	$16, %xmm3
	pinsrb	$1, %r15d, %xmm3
	pinsrb	$2, %ebp, %xmm3
	pinsrb	$3, %ebx, %xmm3
	paddusb	%xmm4, %xmm3
	pmovzxbd	%xmm3, %xmm3
	pmulld	.LCPI_89cae0_4(%rip), %xmm3
	pshufd	$238, %xmm3, %xmm4
	por	%xmm3, %xmm4
	pshufd	$85, %xmm4, %xmm3
	por	%xmm4, %xmm3
	movd	%xmm3, (%rdx,%rdi,4)
	leaq	(%r14,%rdi), %rax
	incq	%rax
	incq	%rdi
	cmpq	%r13, %rax
	jb	.LBB_89cae0_12
	jmp	.LBB_89cae0_13
.LBB_89cae0_14:
	popq	%rbx
	popq	%r12
	popq	%r13
	popq	%r14
	popq	%r15
	popq	%rbp
	retq
.Lfunc_end_89cae0:
	.size	"pix_raster::view::blit_overlap::<#79e97ac7f662bd7a>", .Lfunc_end_89cae0-"pix_raster::view::blit_overlap::<#79e97ac7f662bd7a>"

	.section	".text.pix_script::pixel::push_cells","ax",@progbits
	.p2align	4
	.type	"pix_script::pixel::push_cells",@function
"pix_script::pixel::push_cells":
	pushq	%r15
	pushq	%r14
	pushq	%r12
	pushq	%rbx
	pushq	%rax
	movq	%rdi, %rbx
	leaq	(%rdx,%rdx,8), %rdx
	movq	8(%rdi), %rax
	movq	16(%rdi), %r14
	movq	%r14, %rcx
	subq	%rax, %rcx
	cmpq	%rcx, %rdx
	ja	.LBB_68e8cf_24
.LBB_68e8cf_1:
	leaq	8(%rbx), %rcx
	leaq	(%rax,%rdx), %r15
	movq	(%rbx), %r12
	xorps	%xmm0, %xmm0
	movups	%xmm0, (%rcx)
	leaq	(%r12,%rax), %rdi
	movq	%rdi, %rcx
	subq	%rsi, %rcx
	cmpq	%rdx, %rcx
	jae	.LBB_68e8cf_4
	cmpq	$4, %rdx
	jb	.LBB_68e8cf_3
	cmpq	$32, %rcx
	jae	.LBB_68e8cf_7
.LBB_68e8cf_3:
	xorl	%ecx, %ecx
.LBB_68e8cf_16:
	movq	%rdx, %r9
	movq	%rcx, %r8
	andq	$3, %r9
	je	.LBB_68e8cf_19
	movq	%rcx, %r8
	.p2align	4
.LBB_68e8cf_18:
	movzbl	(%rsi,%r8), %r10d
	movb	%r10b, (%rdi,%r8)
	incq	%r8
	decq	%r9
	jne	.LBB_68e8cf_18
.LBB_68e8cf_19:
	subq	%rdx, %rcx
	cmpq	$-4, %rcx
	ja	.LBB_68e8cf_22
	addq	%r12, %rax
	addq	$3, %rax
	.p2align	4
.LBB_68e8cf_21:
	movzbl	(%rsi,%r8), %ecx
	movb	%cl, -3(%rax,%r8)
	movzbl	1(%rsi,%r8), %ecx
	movb	%cl, -2(%rax,%r8)
	movzbl	2(%rsi,%r8), %ecx
	movb	%cl, -1(%rax,%r8)
	movzbl	3(%rsi,%r8), %ecx
	movb	%cl, (%rax,%r8)
	addq	$4, %r8
	cmpq	%r8, %rdx
	jne	.LBB_68e8cf_21
	jmp	.LBB_68e8cf_22
.LBB_68e8cf_4:
	callq	memmove@PLT
.LBB_68e8cf_22:
	movq	%r12, (%rbx)
	movq	%r15, 8(%rbx)
	movq	%r14, 16(%rbx)
	xorl	%eax, %eax
.LBB_68e8cf_23:
	addq	$8, %rsp
	popq	%rbx
	popq	%r12
	popq	%r14
	popq	%r15
	retq
.LBB_68e8cf_7:
	cmpq	$32, %rdx
	jae	.LBB_68e8cf_9
	xorl	%ecx, %ecx
	jmp	.LBB_68e8cf_13
.LBB_68e8cf_9:
	movq	%rdx, %rcx
	andq	$-32, %rcx
	leaq	(%rax,%r12), %r8
	addq	$16, %r8
	xorl	%r9d, %r9d
	.p2align	4
.LBB_68e8cf_10:
	movups	(%rsi,%r9), %xmm0
	movups	16(%rsi,%r9), %xmm1
	movups	%xmm0, -16(%r8,%r9)
	movups	%xmm1, (%r8,%r9)
	addq	$32, %r9
	cmpq	%r9, %rcx
	jne	.LBB_68e8cf_10
	cmpq	%rcx, %rdx
	je	.LBB_68e8cf_22
	testb	$28, %dl
	je	.LBB_68e8cf_16
.LBB_68e8cf_13:
	movq	%rcx, %r8
	movq	%rdx, %rcx
	andq	$-4, %rcx
	.p2align	4
.LBB_68e8cf_14:
	movl	(%rsi,%r8), %r9d
	movl	%r9d, (%rdi,%r8)
	addq	$4, %r8
	cmpq	%r8, %rcx
	jne	.LBB_68e8cf_14
	cmpq	%rcx, %rdx
	je	.LBB_68e8cf_22
	jmp	.LBB_68e8cf_16
.LBB_68e8cf_24:
	movq	%rsi, %r15
	movq	%rbx, %rdi
	movq	%rdx, %r12
	movq	%rdx, %rsi
	callq	"std_alloc::vec::Vec::grow_amortized::<#ab1bfed030c1db69>"
	movl	%eax, %ecx
	movb	$1, %al
	testb	%cl, %cl
	je	.LBB_68e8cf_23
	movq	8(%rbx), %rax
	movq	16(%rbx), %r14
	movq	%r15, %rsi
	movq	%r12, %rdx
	jmp	.LBB_68e8cf_1
.Lfunc_end_68e8cf:
	.size	"pix_script::pixel::push_cells", .Lfunc_end_68e8cf-"pix_script::pixel::push_cells"

	.section	.rodata.cst16,"aM",@progbits,16
	.p2align	4, 0x0
.LCPI_0d6e40_0:
	.byte	116
	.byte	104
	.byte	105
	.byte	115
	.byte	32
	.byte	109
	.byte	97
	.byte	99
	.byte	104
	.byte	105
	.byte	110
	.byte	101
	.byte	32
	.byte	108
	.byte	97
	.byte	99
.LCPI_0d6e40_1:
	.byte	107
	.byte	115
	.byte	32
	.byte	97
	.byte	32
	.byte	102
	.byte	101
	.byte	97
	.byte	116
	.byte	117
	.byte	114
	.byte	101
	.byte	32
	.byte	111
	.byte	102
	.byte	32
.LCPI_0d6e40_2:
	.byte	120
	.byte	56
	.byte	54
	.byte	45
	.byte	54
	.byte	52
	.byte	45
	.byte	118
	.byte	50
	.byte	44
	.byte	32
	.byte	119
	.byte	104
	.byte	105
	.byte	99
	.byte	104
.LCPI_0d6e40_3:
	.byte	32
	.byte	116
	.byte	104
	.byte	105
	.byte	115
	.byte	32
	.byte	112
	.byte	114
	.byte	111
	.byte	103
	.byte	114
	.byte	97
	.byte	109
	.byte	32
	.byte	119
	.byte	97
.LCPI_0d6e40_4:
	.byte	115
	.byte	32
	.byte	98
	.byte	117
	.byte	105
	.byte	108
	.byte	116
	.byte	32
	.byte	102
	.byte	111
	.byte	114
	.byte	58
	.byte	32
	.byte	114
	.byte	117
	.byte	110
.LCPI_0d6e40_5:
	.byte	32
	.byte	105
	.byte	116
	.byte	32
	.byte	111
	.byte	110
	.byte	32
	.byte	97
	.byte	110
	.byte	111
	.byte	116
	.byte	104
	.byte	101
	.byte	114
	.byte	32
	.byte	109
.LCPI_0d6e40_6:
	.byte	97
	.byte	99
	.byte	104
	.byte	105
	.byte	110
	.byte	101
	.byte	44
	.byte	32
	.byte	111
	.byte	114
	.byte	32
	.byte	98
	.byte	117
	.byte	105
	.byte	108
	.byte	100
.LCPI_0d6e40_7:
	.byte	32
	.byte	105
	.byte	116
	.byte	32
	.byte	119
	.byte	105
	.byte	116
	.byte	104
	.byte	32
	.byte	45
	.byte	45
	.byte	99
	.byte	112
	.byte	117
	.byte	32
	.byte	120
	.section	.text.main,"ax",@progbits
	.globl	main
	.p2align	4
	.type	main,@function
main:
	pushq	%rbp
	movq	%rsp, %rbp
	pushq	%rbx
	pushq	%rax
	movl	$1, %esi
	movl	$13, %edi
	callq	__sysv_signal@PLT
	xorl	%edi, %edi
	callq	__x86_get_cpuid_feature_leaf@PLT
	movl	24(%rax), %ebx
	movl	$2, %edi
	callq	__x86_get_cpuid_feature_leaf@PLT
	notl	%ebx
	testl	$9970177, %ebx
	jne	.LBB_0d6e40_2
	movl	24(%rax), %eax
	andl	$1, %eax
	je	.LBB_0d6e40_2
	leaq	-8(%rbp), %rsp
	popq	%rbx
	popq	%rbp
	jmp	"pixpaint::main+start"
.LBB_0d6e40_2:
	movq	%rsp, %rsi
	subq	$144, %rsi
	cmpq	%rsp, %rsi
	jge	.LBB_0d6e40_5
.LBB_0d6e40_4:
	xorq	$0, (%rsp)
	subq	$3072, %rsp
	cmpq	%rsp, %rsi
	jl	.LBB_0d6e40_4
.LBB_0d6e40_5:
	movq	%rsi, %rsp
	movaps	.LCPI_0d6e40_0(%rip), %xmm0
	movaps	%xmm0, (%rsi)
	movaps	.LCPI_0d6e40_1(%rip), %xmm0
	movaps	%xmm0, 16(%rsi)
	movaps	.LCPI_0d6e40_2(%rip), %xmm0
	movaps	%xmm0, 32(%rsi)
	movaps	.LCPI_0d6e40_3(%rip), %xmm0
	movaps	%xmm0, 48(%rsi)
	movaps	.LCPI_0d6e40_4(%rip), %xmm0
	movaps	%xmm0, 64(%rsi)
	movaps	.LCPI_0d6e40_5(%rip), %xmm0
	movaps	%xmm0, 80(%rsi)
	movaps	.LCPI_0d6e40_6(%rip), %xmm0
	movaps	%xmm0, 96(%rsi)
	movaps	.LCPI_0d6e40_7(%rip), %xmm0
	movaps	%xmm0, 112(%rsi)
	movl	$908932664, 128(%rsi)
	movw	$2612, 132(%rsi)
	movl	$134, %edx
	movl	$2, %edi
	callq	__write@PLT
	movl	$127, %eax
	leaq	-8(%rbp), %rsp
	popq	%rbx
	popq	%rbp
	retq
.Lfunc_end_0d6e40:
	.size	main, .Lfunc_end_0d6e40-main

	.type	.Lstatic.1,@object
	.section	.rodata..Lstatic.1,"a",@progbits
.Lstatic.1:
	.ascii	"image"
	.size	.Lstatic.1, 5

	.type	.Lstatic.2,@object
	.section	.rodata..Lstatic.2,"a",@progbits
.Lstatic.2:
	.zero	2,2
	.size	.Lstatic.2, 2

	.type	.Lstatic.3,@object
	.section	.rodata..Lstatic.3,"a",@progbits
.Lstatic.3:
	.ascii	"clear"
	.size	.Lstatic.3, 5

	.type	.Lstatic.5,@object
	.section	.rodata.cst4,"aM",@progbits,4
.Lstatic.5:
	.ascii	"fill"
	.size	.Lstatic.5, 4

	.type	.Lstatic.6,@object
	.section	.rodata..Lstatic.6,"a",@progbits
.Lstatic.6:
	.ascii	"\001\001\002\002\003"
	.size	.Lstatic.6, 5

	.type	.Lstatic.7,@object
	.section	.rodata..Lstatic.7,"a",@progbits
.Lstatic.7:
	.ascii	"paint"
	.size	.Lstatic.7, 5

	.type	.Lstatic.8,@object
	.section	.rodata..Lstatic.8,"a",@progbits
.Lstatic.8:
	.ascii	"\000\001\001\002\002\003"
	.size	.Lstatic.8, 6

	.type	.Lstatic.9,@object
	.section	.rodata.cst4,"aM",@progbits,4
.Lstatic.9:
	.ascii	"keep"
	.size	.Lstatic.9, 4

	.type	.Lstatic.10,@object
.Lstatic.10:
	.ascii	"copy"
	.size	.Lstatic.10, 4

	.type	.Lstatic.11,@object
	.section	.rodata..Lstatic.11,"a",@progbits
.Lstatic.11:
	.ascii	"\001\001\001\001\002\002"
	.size	.Lstatic.11, 6

	.type	.Lstatic.12,@object
	.section	.rodata.cst4,"aM",@progbits,4
.Lstatic.12:
	.ascii	"comp"
	.size	.Lstatic.12, 4

	.type	.Lstatic.13,@object
	.section	.rodata..Lstatic.13,"a",@progbits
.Lstatic.13:
	.ascii	"\000\001\001\001\001\002\002"
	.size	.Lstatic.13, 7

	.type	.Lstatic.14,@object
	.section	.rodata..Lstatic.14,"a",@progbits
.Lstatic.14:
	.ascii	"\000\001\002\003\004\005\006\007\b\t\n\013\f"
	.size	.Lstatic.14, 13

	.type	.Lstatic.15,@object
	.section	.rodata..Lstatic.15,"a",@progbits
.Lstatic.15:
	.ascii	"Src"
	.size	.Lstatic.15, 3

	.type	.Lstatic.16,@object
	.section	.rodata.cst4,"aM",@progbits,4
.Lstatic.16:
	.ascii	"Dest"
	.size	.Lstatic.16, 4

	.type	.Lstatic.17,@object
	.section	.rodata..Lstatic.17,"a",@progbits
.Lstatic.17:
	.ascii	"SrcOver"
	.size	.Lstatic.17, 7

	.type	.Lstatic.18,@object
	.section	.rodata.cst8,"aM",@progbits,8
.Lstatic.18:
	.ascii	"DestOver"
	.size	.Lstatic.18, 8

	.type	.Lstatic.19,@object
	.section	.rodata..Lstatic.19,"a",@progbits
.Lstatic.19:
	.ascii	"SrcOut"
	.size	.Lstatic.19, 6

	.type	.Lstatic.20,@object
	.section	.rodata..Lstatic.20,"a",@progbits
.Lstatic.20:
	.ascii	"DestOut"
	.size	.Lstatic.20, 7

	.type	.Lstatic.21,@object
	.section	.rodata..Lstatic.21,"a",@progbits
.Lstatic.21:
	.ascii	"SrcIn"
	.size	.Lstatic.21, 5

	.type	.Lstatic.22,@object
	.section	.rodata..Lstatic.22,"a",@progbits
.Lstatic.22:
	.ascii	"DestIn"
	.size	.Lstatic.22, 6

	.type	.Lstatic.23,@object
	.section	.rodata..Lstatic.23,"a",@progbits
.Lstatic.23:
	.ascii	"SrcAtop"
	.size	.Lstatic.23, 7

	.type	.Lstatic.24,@object
	.section	.rodata.cst8,"aM",@progbits,8
.Lstatic.24:
	.ascii	"DestAtop"
	.size	.Lstatic.24, 8

	.type	.Lstatic.25,@object
	.section	.rodata..Lstatic.25,"a",@progbits
.Lstatic.25:
	.ascii	"Xor"
	.size	.Lstatic.25, 3

	.type	.Lstatic.26,@object
	.section	.rodata..Lstatic.26,"a",@progbits
.Lstatic.26:
	.ascii	"Clear"
	.size	.Lstatic.26, 5

	.type	.Lstatic.27,@object
	.section	.rodata.cst4,"aM",@progbits,4
.Lstatic.27:
	.ascii	"Plus"
	.size	.Lstatic.27, 4

	.type	.Lstatic.28,@object
	.section	.rodata..Lstatic.28,"a",@progbits
.Lstatic.28:
	.ascii	"000102030405060708090a0b0c0d0e0f101112131415161718191a1b1c1d1e1f202122232425262728292a2b2c2d2e2f303132333435363738393a3b3c3d3e3f404142434445464748494a4b4c4d4e4f505152535455565758595a5b5c5d5e5f606162636465666768696a6b6c6d6e6f707172737475767778797a7b7c7d7e7f808182838485868788898a8b8c8d8e8f909192939495969798999a9b9c9d9e9fa0a1a2a3a4a5a6a7a8a9aaabacadaeafb0b1b2b3b4b5b6b7b8b9babbbcbdbebfc0c1c2c3c4c5c6c7c8c9cacbcccdcecfd0d1d2d3d4d5d6d7d8d9dadbdcdddedfe0e1e2e3e4e5e6e7e8e9eaebecedeeeff0f1f2f3f4f5f6f7f8f9fafbfcfdfeff"
	.size	.Lstatic.28, 512

	.type	.Lstatic.31,@object
	.section	.rodata..Lstatic.31,"a",@progbits
.Lstatic.31:
	.byte	10
	.size	.Lstatic.31, 1

	.type	.Lstatic.32,@object
	.section	.rodata..Lstatic.32,"a",@progbits
.Lstatic.32:
	.ascii	"read failed"
	.size	.Lstatic.32, 11

	.type	.Lstatic.33,@object
	.section	.rodata..Lstatic.33,"a",@progbits
.Lstatic.33:
	.ascii	"write failed"
	.size	.Lstatic.33, 12

	.type	.Lstatic.34,@object
	.section	.rodata..Lstatic.34,"a",@progbits
.Lstatic.34:
	.ascii	"line "
	.size	.Lstatic.34, 5

	.type	.Lstatic.35,@object
	.section	.rodata..Lstatic.35,"a",@progbits
.Lstatic.35:
	.ascii	": "
	.size	.Lstatic.35, 2

	.type	.Lstatic.36,@object
	.section	.rodata..Lstatic.36,"a",@progbits
.Lstatic.36:
	.ascii	"out of memory"
	.size	.Lstatic.36, 13

	.type	.Lstatic.37,@object
	.section	.rodata..Lstatic.37,"a",@progbits
.Lstatic.37:
	.ascii	"input too long"
	.size	.Lstatic.37, 14

	.type	.Lstatic.41,@object
	.section	.rodata.cst8,"aM",@progbits,8
.Lstatic.41:
	.ascii	"no image"
	.size	.Lstatic.41, 8

	.type	.Lstatic.42,@object
	.section	.rodata..Lstatic.42,"a",@progbits
.Lstatic.42:
	.ascii	"second image"
	.size	.Lstatic.42, 12

	.type	.Lstatic.43,@object
	.section	.rodata..Lstatic.43,"a",@progbits
.Lstatic.43:
	.ascii	"unknown word"
	.size	.Lstatic.43, 12

	.type	.Lstatic.44,@object
	.section	.rodata..Lstatic.44,"a",@progbits
.Lstatic.44:
	.ascii	"wrong number of words"
	.size	.Lstatic.44, 21

	.type	.Lstatic.45,@object
	.section	.rodata..Lstatic.45,"a",@progbits
.Lstatic.45:
	.ascii	"bad number"
	.size	.Lstatic.45, 10

	.type	.Lstatic.46,@object
	.section	.rodata..Lstatic.46,"a",@progbits
.Lstatic.46:
	.ascii	"bad color"
	.size	.Lstatic.46, 9

	.type	.Lstatic.47,@object
	.section	.rodata..Lstatic.47,"a",@progbits
.Lstatic.47:
	.ascii	"image too big"
	.size	.Lstatic.47, 13

	.type	.Lstatic.48,@object
	.section	.rodata..Lstatic.48,"a",@progbits
.Lstatic.48:
	.ascii	"nothing kept"
	.size	.Lstatic.48, 12

	.type	".Lswitch.table.pixpaint::main+start",@object
	.section	".rodata..Lswitch.table.pixpaint::main+start","a",@progbits
	.p2align	3, 0x0
".Lswitch.table.pixpaint::main+start":
	.quad	8
	.quad	12
	.quad	12
	.quad	21
	.quad	10
	.quad	9
	.quad	13
	.quad	12
	.size	".Lswitch.table.pixpaint::main+start", 64

	.type	".Lswitch.table.pixpaint::main+start.299.rel",@object
	.section	".rodata..Lswitch.table.pixpaint::main+start.299.rel","a",@progbits
	.p2align	2, 0x0
".Lswitch.table.pixpaint::main+start.299.rel":
	.long	.Lstatic.41-".Lswitch.table.pixpaint::main+start.299.rel"
	.long	.Lstatic.42-".Lswitch.table.pixpaint::main+start.299.rel"
	.long	.Lstatic.43-".Lswitch.table.pixpaint::main+start.299.rel"
	.long	.Lstatic.44-".Lswitch.table.pixpaint::main+start.299.rel"
	.long	.Lstatic.45-".Lswitch.table.pixpaint::main+start.299.rel"
	.long	.Lstatic.46-".Lswitch.table.pixpaint::main+start.299.rel"
	.long	.Lstatic.47-".Lswitch.table.pixpaint::main+start.299.rel"
	.long	.Lstatic.48-".Lswitch.table.pixpaint::main+start.299.rel"
	.size	".Lswitch.table.pixpaint::main+start.299.rel", 32

	.ident	"rattle logic=dac8208d650f15bf3e2dc313a14fa4c783a3acf887bdfab66e1714b038d9e11b"
	.section	".note.GNU-stack","",@progbits
