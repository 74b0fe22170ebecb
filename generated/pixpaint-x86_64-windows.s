/* pix 0.3.0: the program pixpaint, for x86-64-v2 under Windows.
 * The code was proved before it was compiled; generated/README.md says what that means. Nobody edits this file: tools/generate makes it.
 *
 * sources: 3201c3a5b3af384d57521d1166f6d84a31fe54b24280de9f374e2c488129229f, as tools/sources --sum pixpaint prints it
 * kit: rattle-kit-13f logic dac8208d650f15bf
 * verdict: logic=proved functions=1 axioms=6 target=x86_64-unknown-linux-gnu cpu=x86-64-v2 sum=dac8208d650f15bf native=nat,char,string logic-built=trusted libraries-built=trusted statements=trusted
 * compiled for: x86_64-pc-windows-gnu, which is another system than the target of the verdict, of the module of LLVM by which pixpaint-x86_64.s was made
 * made by: rattle build of crates/pixpaint, with clang -S -fno-verbose-asm -fno-addrsig in the place of clang -c
 * flags: --target=x86_64-pc-windows-gnu -march=x86-64-v2
 */
	.def	@feat.00;
	.scl	3;
	.type	0;
	.endef
	.globl	@feat.00
@feat.00 = 0
	.file	"rattle"
	.section	.rdata,"dr"
	.p2align	4, 0x0
.LCPI0_0:
	.byte	0
	.byte	1
	.byte	2
	.byte	3
	.byte	4
	.byte	5
	.byte	6
	.byte	7
	.byte	8
	.byte	9
	.byte	10
	.byte	11
	.byte	12
	.byte	13
	.byte	14
	.byte	15
.LCPI0_1:
	.byte	16
	.byte	17
	.byte	18
	.byte	19
	.byte	20
	.byte	21
	.byte	22
	.byte	23
	.byte	24
	.byte	25
	.byte	26
	.byte	27
	.byte	28
	.byte	29
	.byte	30
	.byte	31
	.section	".text$pixpaint::main+start","xr"
	.p2align	4
"pixpaint::main+start":
	pushq	%r15
	pushq	%r14
	pushq	%r13
	pushq	%r12
	pushq	%rsi
	pushq	%rdi
	pushq	%rbp
	pushq	%rbx
	movl	$4600, %eax
	callq	___chkstk_ms
	subq	%rax, %rsp
	movdqa	%xmm7, 4576(%rsp)
	movdqa	%xmm6, 4560(%rsp)
	xorps	%xmm0, %xmm0
	movups	%xmm0, 152(%rsp)
	leaq	72(%rsp), %rsi
	movq	%rsi, 144(%rsp)
	xorl	%ebp, %ebp
	leaq	464(%rsp), %rcx
	movl	$4096, %edi
	movl	$4096, %r8d
	xorl	%edx, %edx
	callq	memset
	xorl	%r13d, %r13d
	jmp	.LBB0_3
	.p2align	4
.LBB0_1:
	leaq	464(%rsp), %rdx
	movq	%rbx, %r8
	callq	memmove
.LBB0_2:
	addq	%rbx, %r13
	movq	%r13, 152(%rsp)
	movq	%rbp, 160(%rsp)
	cmpq	$1048577, %r13
	jae	.LBB0_213
.LBB0_3:
	movl	$1048577, %ebx
	subq	%r13, %rbx
	cmpq	$4096, %rbx
	cmovaeq	%rdi, %rbx
	leaq	464(%rsp), %r12
	xorl	%ecx, %ecx
	movq	%r12, %rdx
	movq	%rbx, %r8
	callq	read
	testq	%rax, %rax
	js	.LBB0_28
	cmpq	%rbx, %rax
	cmovbq	%rax, %rbx
	testq	%rbx, %rbx
	je	.LBB0_32
	movq	%rbp, %rax
	subq	%r13, %rax
	cmpq	%rax, %rbx
	ja	.LBB0_26
.LBB0_6:
	leaq	(%rsi,%r13), %rcx
	movq	%rcx, %rax
	subq	%r12, %rax
	cmpq	%rbx, %rax
	jae	.LBB0_1
	cmpq	$4, %rbx
	jb	.LBB0_8
	movq	%r13, %rax
	subq	%r12, %rax
	addq	%rsi, %rax
	cmpq	$32, %rax
	jae	.LBB0_11
.LBB0_8:
	xorl	%eax, %eax
.LBB0_20:
	movq	%rbx, %r8
	movq	%rax, %rdx
	andq	$3, %r8
	je	.LBB0_23
	movq	%rax, %rdx
	.p2align	4
.LBB0_22:
	movzbl	464(%rsp,%rdx), %r9d
	movb	%r9b, (%rcx,%rdx)
	incq	%rdx
	decq	%r8
	jne	.LBB0_22
.LBB0_23:
	subq	%rbx, %rax
	cmpq	$-4, %rax
	ja	.LBB0_2
	leaq	(%rsi,%r13), %rax
	addq	$3, %rax
	.p2align	4
.LBB0_25:
	movzbl	464(%rsp,%rdx), %ecx
	movb	%cl, -3(%rax,%rdx)
	movzbl	465(%rsp,%rdx), %ecx
	movb	%cl, -2(%rax,%rdx)
	movzbl	466(%rsp,%rdx), %ecx
	movb	%cl, -1(%rax,%rdx)
	movzbl	467(%rsp,%rdx), %ecx
	movb	%cl, (%rax,%rdx)
	addq	$4, %rdx
	cmpq	%rdx, %rbx
	jne	.LBB0_25
	jmp	.LBB0_2
.LBB0_11:
	cmpq	$32, %rbx
	jae	.LBB0_13
	xorl	%eax, %eax
	jmp	.LBB0_17
.LBB0_13:
	movl	%ebx, %eax
	andl	$8160, %eax
	leaq	(%rsi,%r13), %rdx
	addq	$16, %rdx
	xorl	%r8d, %r8d
	.p2align	4
.LBB0_14:
	movups	464(%rsp,%r8), %xmm0
	movups	480(%rsp,%r8), %xmm1
	movups	%xmm0, -16(%rdx,%r8)
	movups	%xmm1, (%rdx,%r8)
	addq	$32, %r8
	cmpq	%r8, %rax
	jne	.LBB0_14
	cmpq	%rax, %rbx
	je	.LBB0_2
	testb	$28, %bl
	je	.LBB0_20
.LBB0_17:
	movq	%rax, %rdx
	movl	%ebx, %eax
	andl	$8188, %eax
	.p2align	4
.LBB0_18:
	movl	464(%rsp,%rdx), %r8d
	movl	%r8d, (%rcx,%rdx)
	addq	$4, %rdx
	cmpq	%rdx, %rax
	jne	.LBB0_18
	cmpq	%rax, %rbx
	je	.LBB0_2
	jmp	.LBB0_20
.LBB0_26:
	leaq	144(%rsp), %rcx
	movq	%rbx, %rdx
	callq	"std_alloc::vec::Vec::grow_amortized::<#ab1bfed030c1db69>"
	testb	%al, %al
	je	.LBB0_242
	movq	144(%rsp), %rsi
	movq	152(%rsp), %r13
	movq	160(%rsp), %rbp
	jmp	.LBB0_6
.LBB0_28:
	leaq	320(%rsp), %rcx
	callq	"std_io::io::error::last_error"
	movb	$1, %r15b
	testq	%rbp, %rbp
	je	.LBB0_30
	movq	%rsi, %rcx
	callq	rattle_dealloc
.LBB0_30:
	xorl	%r13d, %r13d
.LBB0_31:
	xorl	%edi, %edi
	xorl	%ebx, %ebx
	jmp	.LBB0_326
.LBB0_32:
	movq	%rbp, 192(%rsp)
	movq	144(%rsp), %rbp
	movq	$0, 488(%rsp)
	leaq	72(%rsp), %r9
	movq	%r9, 464(%rsp)
	xorps	%xmm0, %xmm0
	movups	%xmm0, 472(%rsp)
	movw	$0, 488(%rsp)
	movq	%r9, 320(%rsp)
	movups	%xmm0, 328(%rsp)
	movq	$0, 200(%rsp)
	xorl	%ebx, %ebx
	movq	%rbp, 224(%rsp)
	jmp	.LBB0_33
	.p2align	4
.LBB0_191:
	movb	%r15b, 488(%rsp)
	movb	%r10b, 489(%rsp)
	testb	%r14b, %r14b
	jne	.LBB0_214
.LBB0_33:
	movq	%rbp, %rsi
	.p2align	4
.LBB0_34:
	xorl	%eax, %eax
	testq	%r13, %r13
	je	.LBB0_38
	.p2align	4
.LBB0_35:
	cmpb	$10, (%rsi,%rax)
	je	.LBB0_38
	incq	%rax
	cmpq	%rax, %r13
	jne	.LBB0_35
	incq	%rbx
	movl	$0, 424(%rsp)
	movq	$0, 416(%rsp)
	movb	$1, %dl
	movq	%r13, %rax
	movq	%rsi, %rbp
	jmp	.LBB0_39
	.p2align	4
.LBB0_38:
	xorl	%r15d, %r15d
	cmpq	%r13, %rax
	leaq	1(%rsi,%rax), %rbp
	movq	%rax, %rcx
	notq	%rcx
	cmovaeq	%rsi, %rbp
	cmovaeq	%r15, %rcx
	setae	%dl
	cmovaeq	%r13, %rax
	addq	%rcx, %r13
	incq	%rbx
	movl	$0, 424(%rsp)
	movq	$0, 416(%rsp)
	testq	%rax, %rax
	je	.LBB0_45
.LBB0_39:
	cmpb	$13, -1(%rsi,%rax)
	jne	.LBB0_41
	decq	%rax
	je	.LBB0_44
.LBB0_41:
	cmpb	$35, (%rsi)
	jne	.LBB0_43
	movq	%rbp, %rsi
	testb	%dl, %dl
	je	.LBB0_34
	jmp	.LBB0_214
	.p2align	4
.LBB0_43:
	movq	%rax, %r15
	jmp	.LBB0_45
.LBB0_44:
	xorl	%r15d, %r15d
.LBB0_45:
	movb	%dl, 88(%rsp)
	xorl	%ecx, %ecx
	xorl	%r14d, %r14d
.LBB0_46:
	movq	%rcx, %r8
	testq	%rcx, %rcx
	movq	200(%rsp), %rcx
	cmoveq	%r8, %rcx
	xorps	%xmm0, %xmm0
	leaq	328(%rsp), %rax
	movups	%xmm0, (%rax)
	.p2align	4
.LBB0_47:
	movl	%r14d, %eax
.LBB0_48:
	testb	$1, %al
	jne	.LBB0_63
	movq	%rsi, %r12
	xorl	%edi, %edi
	testq	%r15, %r15
	je	.LBB0_52
	.p2align	4
.LBB0_50:
	cmpb	$32, (%r12,%rdi)
	je	.LBB0_52
	incq	%rdi
	cmpq	%rdi, %r15
	jne	.LBB0_50
	jmp	.LBB0_55
	.p2align	4
.LBB0_52:
	cmpq	%r15, %rdi
	setae	%al
	jb	.LBB0_54
	movq	%r12, %rsi
	movb	$1, %r14b
	movq	%r15, %rdi
	testq	%rdi, %rdi
	je	.LBB0_48
	jmp	.LBB0_56
	.p2align	4
.LBB0_54:
	leaq	(%r12,%rdi), %rsi
	incq	%rsi
	movq	%rdi, %rdx
	notq	%rdx
	addq	%rdx, %r15
	testq	%rdi, %rdi
	je	.LBB0_48
	jmp	.LBB0_56
	.p2align	4
.LBB0_55:
	movb	$1, %r14b
	movq	%r12, %rsi
	movq	%r15, %rdi
.LBB0_56:
	cmpq	%rcx, %r8
	je	.LBB0_58
	movq	%r8, %rax
	shlq	$4, %rax
	movq	%r12, (%r9,%rax)
	movq	%rdi, 8(%r9,%rax)
	incq	%r8
	jmp	.LBB0_47
.LBB0_58:
	movq	%rcx, 328(%rsp)
	movq	200(%rsp), %rax
	movq	%rax, 336(%rsp)
	cmpq	%rcx, %rax
	je	.LBB0_60
.LBB0_59:
	movq	320(%rsp), %r9
	movq	%rcx, %rax
	shlq	$4, %rax
	movq	%r12, (%r9,%rax)
	movq	%rdi, 8(%r9,%rax)
	incq	%rcx
	movq	%rcx, 328(%rsp)
	jmp	.LBB0_46
.LBB0_60:
	leaq	320(%rsp), %rcx
	movl	$1, %edx
	callq	"std_alloc::vec::Vec::grow_amortized::<#c573f30ac4e8249c>"
	movq	328(%rsp), %rcx
	movq	336(%rsp), %r8
	movq	%r8, 200(%rsp)
	cmpq	%rcx, %r8
	setne	%dl
	orb	%al, %dl
	jne	.LBB0_59
	leaq	320(%rsp), %rcx
	movl	$1, %edx
	callq	"std_alloc::vec::Vec::grow_amortized::<#c573f30ac4e8249c>"
	testb	%al, %al
	je	.LBB0_402
	movq	328(%rsp), %rcx
	movq	336(%rsp), %rax
	movq	%rax, 200(%rsp)
	jmp	.LBB0_59
	.p2align	4
.LBB0_63:
	movq	%r8, 328(%rsp)
	movq	200(%rsp), %rax
	movq	%rax, 336(%rsp)
	movzbl	488(%rsp), %r15d
	movzbl	489(%rsp), %r10d
	movl	$0, 456(%rsp)
	movq	$0, 448(%rsp)
	testq	%r8, %r8
	je	.LBB0_67
	movq	(%r9), %r12
	movq	8(%r9), %rax
	movq	$0, 432(%rsp)
	movl	$0, 440(%rsp)
	testq	%rax, %rax
	movzbl	88(%rsp), %r14d
	je	.LBB0_241
	movzbl	(%r12), %edi
	cmpb	$35, %dil
	jne	.LBB0_68
	leaq	464(%rsp), %r12
	jmp	.LBB0_189
	.p2align	4
.LBB0_67:
	movq	320(%rsp), %r9
	leaq	464(%rsp), %r12
	movzbl	88(%rsp), %r14d
	movb	%r15b, 488(%rsp)
	movb	%r10b, 489(%rsp)
	testb	%r14b, %r14b
	je	.LBB0_33
	jmp	.LBB0_214
.LBB0_68:
	movl	%r10d, 444(%rsp)
	movl	%r15d, 112(%rsp)
	movq	%r9, 96(%rsp)
	decq	%r8
	movq	%r8, 80(%rsp)
	movl	$0, 248(%rsp)
	movq	$0, 240(%rsp)
	cmpq	$5, %rax
	je	.LBB0_76
	cmpq	$4, %rax
	jne	.LBB0_241
	movl	%edi, %eax
	xorb	$102, %al
	movzbl	1(%r12), %r15d
	movzbl	2(%r12), %r14d
	movl	%r15d, %ecx
	xorb	$105, %cl
	orb	%al, %cl
	movl	%r14d, %eax
	xorb	$108, %al
	orb	%cl, %al
	movzbl	3(%r12), %esi
	movl	%esi, %ecx
	xorb	$108, %cl
	orb	%al, %cl
	jne	.LBB0_93
	leaq	static.5(%rip), %r8
	movl	$4, %edx
	movq	%r12, %rcx
	callq	"core::cmp::slices::groups_equal::<i8,31'core::cmp::numbers::U8PartialEq{}>"
	movq	80(%rsp), %rdx
	testb	%al, %al
	je	.LBB0_93
	pxor	%xmm6, %xmm6
	movdqa	%xmm6, 144(%rsp)
	movl	$0, 160(%rsp)
	cmpq	$5, %rdx
	jne	.LBB0_128
	movq	96(%rsp), %rdi
	movq	16(%rdi), %rdx
	movq	24(%rdi), %r8
	movups	40(%rdi), %xmm0
	movq	32(%rdi), %r9
	movups	56(%rdi), %xmm1
	movq	72(%rdi), %rax
	movq	%rax, 64(%rsp)
	movups	%xmm1, 48(%rsp)
	movups	%xmm0, 32(%rsp)
	leaq	144(%rsp), %rcx
	callq	"pix_script::parse::region"
	cmpb	$1, 144(%rsp)
	leaq	464(%rsp), %r12
	movzbl	88(%rsp), %r14d
	movl	112(%rsp), %r15d
	jne	.LBB0_204
	movq	80(%rdi), %rdx
	movq	88(%rdi), %r8
	leaq	235(%rsp), %rcx
	callq	"pix_script::number::color"
	cmpb	$1, 235(%rsp)
	jne	.LBB0_209
	movl	236(%rsp), %eax
	movq	%rax, 120(%rsp)
	movq	148(%rsp), %xmm6
	movq	156(%rsp), %rax
	movq	%rax, 128(%rsp)
	movq	$0, 272(%rsp)
	movl	$0, 280(%rsp)
	movb	$2, %al
	movq	%rax, 104(%rsp)
	movb	$1, %al
	jmp	.LBB0_210
.LBB0_76:
	movl	%edi, %eax
	xorb	$105, %al
	movzbl	1(%r12), %r14d
	movzbl	2(%r12), %esi
	movl	%r14d, %ecx
	xorb	$109, %cl
	orb	%al, %cl
	movl	%esi, %eax
	xorb	$97, %al
	orb	%cl, %al
	movzbl	3(%r12), %r15d
	movl	%r15d, %ecx
	xorb	$103, %cl
	orb	%al, %cl
	jne	.LBB0_90
	leaq	static.1(%rip), %r8
	movl	$5, %edx
	movq	%r12, %rcx
	callq	"core::cmp::slices::groups_equal::<i8,31'core::cmp::numbers::U8PartialEq{}>"
	movq	80(%rsp), %rdx
	testb	%al, %al
	je	.LBB0_90
	pxor	%xmm6, %xmm6
	movq	$0, 120(%rsp)
	cmpq	$2, %rdx
	jne	.LBB0_127
	movq	96(%rsp), %r11
	movq	24(%r11), %rcx
	testq	%rcx, %rcx
	leaq	464(%rsp), %r12
	movzbl	88(%rsp), %r14d
	movl	112(%rsp), %r15d
	je	.LBB0_205
	movq	16(%r11), %rdx
	xorl	%eax, %eax
	xorl	%r8d, %r8d
.LBB0_81:
	movzbl	(%rdx,%r8), %r9d
	addb	$-48, %r9b
	cmpb	$9, %r9b
	ja	.LBB0_202
	leaq	(%rax,%rax,4), %rax
	movzbl	%r9b, %r9d
	leaq	(%r9,%rax,2), %rax
	cmpq	$2147483647, %rax
	ja	.LBB0_202
	incq	%r8
	cmpq	%r8, %rcx
	jne	.LBB0_81
	movq	40(%r11), %rcx
	testq	%rcx, %rcx
	je	.LBB0_202
	movq	32(%r11), %r8
	xorl	%edx, %edx
	xorl	%r9d, %r9d
.LBB0_86:
	movzbl	(%r8,%r9), %r10d
	addb	$-48, %r10b
	cmpb	$9, %r10b
	ja	.LBB0_202
	leaq	(%rdx,%rdx,4), %rdx
	movzbl	%r10b, %r10d
	leaq	(%r10,%rdx,2), %rdx
	cmpq	$2147483647, %rdx
	ja	.LBB0_202
	incq	%r9
	cmpq	%r9, %rcx
	jne	.LBB0_86
	movd	%eax, %xmm6
	pinsrd	$1, %edx, %xmm6
	movb	$1, %al
	jmp	.LBB0_203
.LBB0_90:
	movl	%edi, %eax
	xorb	$99, %al
	movl	%r14d, %ecx
	xorb	$108, %cl
	orb	%al, %cl
	movl	%esi, %eax
	xorb	$101, %al
	orb	%cl, %al
	movl	%r15d, %ecx
	xorb	$97, %cl
	orb	%al, %cl
	jne	.LBB0_97
	leaq	static.3(%rip), %r8
	movl	$5, %edx
	movq	%r12, %rcx
	callq	"core::cmp::slices::groups_equal::<i8,31'core::cmp::numbers::U8PartialEq{}>"
	movq	80(%rsp), %rdx
	testb	%al, %al
	je	.LBB0_97
	movl	$0, 216(%rsp)
	movq	$0, 208(%rsp)
	movb	$1, %al
	jmp	.LBB0_96
.LBB0_93:
	movl	%edi, %eax
	xorb	$107, %al
	movl	%r15d, %ecx
	xorb	$101, %cl
	orb	%al, %cl
	movl	%r14d, %eax
	xorb	$101, %al
	orb	%cl, %al
	movl	%esi, %ecx
	xorb	$112, %cl
	orb	%al, %cl
	jne	.LBB0_107
	leaq	static.9(%rip), %r8
	movl	$4, %edx
	movq	%r12, %rcx
	callq	"core::cmp::slices::groups_equal::<i8,31'core::cmp::numbers::U8PartialEq{}>"
	movq	80(%rsp), %rdx
	testb	%al, %al
	je	.LBB0_107
	movl	$0, 216(%rsp)
	movq	$0, 208(%rsp)
	movb	$4, %al
.LBB0_96:
	movq	%rax, 104(%rsp)
	movq	208(%rsp), %rax
	movq	%rax, 432(%rsp)
	movl	216(%rsp), %eax
	movl	%eax, 440(%rsp)
	pxor	%xmm6, %xmm6
	xorl	%ecx, %ecx
	movq	$0, 120(%rsp)
	movq	$0, 128(%rsp)
	movq	$0, 184(%rsp)
	movq	$0, 288(%rsp)
	xorl	%r8d, %r8d
	xorl	%r9d, %r9d
	xorl	%edi, %edi
	xorl	%esi, %esi
	leaq	464(%rsp), %r12
	movzbl	88(%rsp), %r14d
	movq	96(%rsp), %r11
	movl	112(%rsp), %r15d
	jmp	.LBB0_170
.LBB0_97:
	cmpb	$112, %dil
	jne	.LBB0_241
	cmpb	$97, %r14b
	jne	.LBB0_241
	cmpb	$105, %sil
	jne	.LBB0_241
	cmpb	$110, %r15b
	jne	.LBB0_241
	leaq	static.7(%rip), %r8
	movl	$5, %edx
	movq	%r12, %rcx
	callq	"core::cmp::slices::groups_equal::<i8,31'core::cmp::numbers::U8PartialEq{}>"
	movq	80(%rsp), %rdx
	testb	%al, %al
	je	.LBB0_241
	pxor	%xmm6, %xmm6
	movdqa	%xmm6, 144(%rsp)
	movl	$0, 160(%rsp)
	cmpq	$6, %rdx
	jne	.LBB0_123
	movq	96(%rsp), %rdi
	movq	16(%rdi), %rcx
	movq	24(%rdi), %rdx
	callq	"pix_ops::ops::Op::from_name"
	cmpb	$1, %al
	leaq	464(%rsp), %r12
	jne	.LBB0_125
	movq	%rdx, 184(%rsp)
	movq	32(%rdi), %rdx
	movq	40(%rdi), %r8
	movups	56(%rdi), %xmm0
	movq	48(%rdi), %r9
	movups	72(%rdi), %xmm1
	movq	88(%rdi), %rax
	movq	%rax, 64(%rsp)
	movups	%xmm1, 48(%rsp)
	movups	%xmm0, 32(%rsp)
	leaq	144(%rsp), %rcx
	callq	"pix_script::parse::region"
	cmpb	$1, 144(%rsp)
	movzbl	88(%rsp), %r14d
	movl	112(%rsp), %r15d
	jne	.LBB0_135
	movq	96(%rdi), %rdx
	movq	104(%rdi), %r8
	leaq	235(%rsp), %rcx
	callq	"pix_script::number::color"
	cmpb	$1, 235(%rsp)
	jne	.LBB0_135
	movl	236(%rsp), %eax
	movq	%rax, 120(%rsp)
	movq	148(%rsp), %xmm6
	movq	156(%rsp), %rax
	movq	%rax, 128(%rsp)
	movq	$0, 256(%rsp)
	movl	$0, 264(%rsp)
	movb	$3, %al
	movq	%rax, 104(%rsp)
	movb	$1, %al
	jmp	.LBB0_136
.LBB0_107:
	xorb	$99, %dil
	xorb	$111, %r15b
	orb	%dil, %r15b
	setne	%al
	jne	.LBB0_115
	cmpb	$112, %r14b
	jne	.LBB0_115
	cmpb	$121, %sil
	jne	.LBB0_115
	leaq	static.10(%rip), %r8
	movl	$4, %edx
	movq	%r12, %rcx
	callq	"core::cmp::slices::groups_equal::<i8,31'core::cmp::numbers::U8PartialEq{}>"
	movq	80(%rsp), %rdx
	testb	%al, %al
	je	.LBB0_241
	pxor	%xmm6, %xmm6
	movdqa	%xmm6, 144(%rsp)
	movl	$0, 160(%rsp)
	cmpq	$6, %rdx
	jne	.LBB0_124
	movq	96(%rsp), %rdi
	movq	16(%rdi), %rdx
	movq	24(%rdi), %r8
	movq	40(%rdi), %rax
	movq	32(%rdi), %r9
	movq	88(%rdi), %rsi
	movq	80(%rdi), %rcx
	movq	104(%rdi), %r14
	movq	96(%rdi), %r15
	movq	%r14, 64(%rsp)
	movq	%r15, 56(%rsp)
	movq	%rsi, 48(%rsp)
	movq	%rcx, 136(%rsp)
	movq	%rcx, 40(%rsp)
	movq	%rax, 32(%rsp)
	leaq	144(%rsp), %rcx
	callq	"pix_script::parse::region"
	cmpb	$1, 144(%rsp)
	leaq	464(%rsp), %r12
	jne	.LBB0_132
	movq	148(%rsp), %xmm7
	movq	156(%rsp), %rax
	movq	%rax, 128(%rsp)
	movq	48(%rdi), %rdx
	movq	56(%rdi), %r8
	movq	72(%rdi), %rax
	movq	64(%rdi), %r9
	movq	%r14, 64(%rsp)
	movq	%r15, 56(%rsp)
	movq	%rsi, 48(%rsp)
	movq	136(%rsp), %rcx
	movq	%rcx, 40(%rsp)
	movq	%rax, 32(%rsp)
	leaq	144(%rsp), %rcx
	callq	"pix_script::parse::region"
	cmpb	$1, 144(%rsp)
	jne	.LBB0_132
	movl	148(%rsp), %eax
	movq	%rax, 120(%rsp)
	leaq	152(%rsp), %rcx
	movq	(%rcx), %rax
	movq	%rax, 296(%rsp)
	movl	8(%rcx), %eax
	movl	%eax, 304(%rsp)
	movb	$1, %al
	movb	$5, %cl
	movq	%rcx, 104(%rsp)
	movdqa	%xmm7, %xmm6
	jmp	.LBB0_133
.LBB0_115:
	cmpb	$109, %r14b
	setne	%cl
	orb	%cl, %al
	jne	.LBB0_241
	cmpb	$112, %sil
	jne	.LBB0_241
	leaq	static.12(%rip), %r8
	movl	$4, %edx
	movq	%r12, %rcx
	callq	"core::cmp::slices::groups_equal::<i8,31'core::cmp::numbers::U8PartialEq{}>"
	movq	80(%rsp), %rdx
	testb	%al, %al
	je	.LBB0_241
	pxor	%xmm6, %xmm6
	movdqa	%xmm6, 144(%rsp)
	movl	$0, 160(%rsp)
	cmpq	$7, %rdx
	jne	.LBB0_126
	movq	96(%rsp), %rdi
	movq	16(%rdi), %rcx
	movq	24(%rdi), %rdx
	callq	"pix_ops::ops::Op::from_name"
	cmpb	$1, %al
	leaq	464(%rsp), %r12
	jne	.LBB0_129
	movq	%rdx, 184(%rsp)
	movq	32(%rdi), %rdx
	movq	40(%rdi), %r8
	movq	56(%rdi), %rax
	movq	48(%rdi), %r9
	movq	104(%rdi), %rsi
	movq	96(%rdi), %rcx
	movq	120(%rdi), %r14
	movq	112(%rdi), %r15
	movq	%r14, 64(%rsp)
	movq	%r15, 56(%rsp)
	movq	%rsi, 48(%rsp)
	movq	%rcx, 136(%rsp)
	movq	%rcx, 40(%rsp)
	movq	%rax, 32(%rsp)
	leaq	144(%rsp), %rcx
	callq	"pix_script::parse::region"
	cmpb	$1, 144(%rsp)
	jne	.LBB0_129
	movq	148(%rsp), %xmm7
	movq	156(%rsp), %rax
	movq	%rax, 128(%rsp)
	movq	64(%rdi), %rdx
	movq	72(%rdi), %r8
	movq	88(%rdi), %rax
	movq	80(%rdi), %r9
	movq	%r14, 64(%rsp)
	movq	%r15, 56(%rsp)
	movq	%rsi, 48(%rsp)
	movq	136(%rsp), %rcx
	movq	%rcx, 40(%rsp)
	movq	%rax, 32(%rsp)
	leaq	144(%rsp), %rcx
	callq	"pix_script::parse::region"
	cmpb	$1, 144(%rsp)
	jne	.LBB0_129
	movl	148(%rsp), %eax
	movq	%rax, 120(%rsp)
	leaq	152(%rsp), %rcx
	movq	(%rcx), %rax
	movq	%rax, 240(%rsp)
	movl	8(%rcx), %eax
	movl	%eax, 248(%rsp)
	movb	$1, %al
	movb	$6, %cl
	movq	%rcx, 104(%rsp)
	movdqa	%xmm7, %xmm6
	jmp	.LBB0_130
.LBB0_123:
	movl	$0, 264(%rsp)
	movq	$0, 256(%rsp)
	movq	$0, 128(%rsp)
	xorl	%eax, %eax
	movq	$0, 104(%rsp)
	movq	$0, 184(%rsp)
	movq	$0, 120(%rsp)
	leaq	464(%rsp), %r12
	movzbl	88(%rsp), %r14d
	movl	112(%rsp), %r15d
	jmp	.LBB0_137
.LBB0_124:
	movl	$0, 304(%rsp)
	movq	$0, 296(%rsp)
	movq	$0, 120(%rsp)
	movq	$0, 128(%rsp)
	movq	$0, 104(%rsp)
	xorl	%eax, %eax
	leaq	464(%rsp), %r12
	movzbl	88(%rsp), %r14d
	movl	112(%rsp), %r15d
	jmp	.LBB0_134
.LBB0_125:
	movl	$0, 264(%rsp)
	movq	$0, 256(%rsp)
	movq	$0, 128(%rsp)
	xorl	%eax, %eax
	movq	$0, 104(%rsp)
	movq	$0, 184(%rsp)
	movq	$0, 120(%rsp)
	movzbl	88(%rsp), %r14d
	movl	112(%rsp), %r15d
	jmp	.LBB0_136
.LBB0_126:
	movl	$0, 248(%rsp)
	movq	$0, 240(%rsp)
	movq	$0, 184(%rsp)
	movq	$0, 104(%rsp)
	movq	$0, 128(%rsp)
	movq	$0, 120(%rsp)
	xorl	%eax, %eax
	leaq	464(%rsp), %r12
	movzbl	88(%rsp), %r14d
	movl	112(%rsp), %r15d
	jmp	.LBB0_131
.LBB0_127:
	xorl	%eax, %eax
	leaq	464(%rsp), %r12
	movzbl	88(%rsp), %r14d
	movq	96(%rsp), %r11
	movl	112(%rsp), %r15d
	jmp	.LBB0_206
.LBB0_128:
	movl	$0, 280(%rsp)
	movq	$0, 272(%rsp)
	movq	$0, 128(%rsp)
	xorl	%eax, %eax
	movq	$0, 104(%rsp)
	movq	$0, 120(%rsp)
	leaq	464(%rsp), %r12
	movzbl	88(%rsp), %r14d
	movq	96(%rsp), %r11
	movl	112(%rsp), %r15d
	jmp	.LBB0_212
.LBB0_129:
	movl	$0, 248(%rsp)
	movq	$0, 240(%rsp)
	movq	$0, 184(%rsp)
	movq	$0, 104(%rsp)
	movq	$0, 128(%rsp)
	movq	$0, 120(%rsp)
	xorl	%eax, %eax
.LBB0_130:
	movzbl	88(%rsp), %r14d
	movl	112(%rsp), %r15d
	movq	80(%rsp), %rdx
.LBB0_131:
	movq	240(%rsp), %rcx
	movq	%rcx, 208(%rsp)
	movl	248(%rsp), %ecx
	movl	%ecx, 216(%rsp)
	movb	$1, %cl
	movq	%rcx, 288(%rsp)
	movl	$7, %r9d
	leaq	static.13(%rip), %rcx
	movq	%rcx, 136(%rsp)
	xorl	%r8d, %r8d
	jmp	.LBB0_138
.LBB0_132:
	movl	$0, 304(%rsp)
	movq	$0, 296(%rsp)
	movq	$0, 120(%rsp)
	movq	$0, 128(%rsp)
	movq	$0, 104(%rsp)
	xorl	%eax, %eax
.LBB0_133:
	movzbl	88(%rsp), %r14d
	movl	112(%rsp), %r15d
	movq	80(%rsp), %rdx
.LBB0_134:
	movq	296(%rsp), %rcx
	movq	%rcx, 208(%rsp)
	movl	304(%rsp), %ecx
	movl	%ecx, 216(%rsp)
	movb	$1, %cl
	movq	%rcx, 288(%rsp)
	movl	$6, %r9d
	leaq	static.11(%rip), %rcx
	movq	%rcx, 136(%rsp)
	xorl	%r8d, %r8d
	movq	$0, 184(%rsp)
	jmp	.LBB0_138
.LBB0_135:
	movl	$0, 264(%rsp)
	movq	$0, 256(%rsp)
	movq	$0, 128(%rsp)
	xorl	%eax, %eax
	movq	$0, 104(%rsp)
	movq	$0, 184(%rsp)
	movq	$0, 120(%rsp)
.LBB0_136:
	movq	80(%rsp), %rdx
.LBB0_137:
	movq	256(%rsp), %rcx
	movq	%rcx, 208(%rsp)
	movl	264(%rsp), %ecx
	movl	%ecx, 216(%rsp)
	movl	$6, %r9d
	leaq	static.8(%rip), %rcx
	movq	%rcx, 136(%rsp)
	xorl	%r8d, %r8d
	movq	$0, 288(%rsp)
.LBB0_138:
	movq	96(%rsp), %r11
.LBB0_139:
	movq	208(%rsp), %rcx
	movq	%rcx, 432(%rsp)
	movl	216(%rsp), %ecx
	movl	%ecx, 440(%rsp)
	xorl	%edi, %edi
	xorl	%ecx, %ecx
	testb	%al, %al
	je	.LBB0_141
	xorl	%esi, %esi
	jmp	.LBB0_170
.LBB0_141:
	xorl	%r12d, %r12d
	xorl	%edi, %edi
	xorl	%esi, %esi
	xorl	%r14d, %r14d
	movl	%r8d, 312(%rsp)
	movq	%r9, %r15
	jmp	.LBB0_146
.LBB0_142:
	xorl	%eax, %eax
	movb	$1, %cl
.LBB0_143:
	xorl	%r9d, %r9d
.LBB0_144:
	testb	$1, %r14b
	movzbl	%r9b, %edx
	movl	$1, %r8d
	cmovnel	%r8d, %edx
	testb	$1, %sil
	movzbl	%cl, %ecx
	cmovnel	%r8d, %ecx
	testb	$1, %dil
	movzbl	%al, %edi
	cmovnel	%r8d, %edi
	movl	%edx, %r14d
	movl	%ecx, %esi
	movq	96(%rsp), %r11
	movq	80(%rsp), %rdx
	movl	312(%rsp), %r8d
	movq	%r15, %r9
.LBB0_145:
	incq	%r12
	cmpq	%r9, %r12
	je	.LBB0_169
.LBB0_146:
	cmpq	%rdx, %r12
	jae	.LBB0_145
	movq	%r12, %rax
	shlq	$4, %rax
	movq	136(%rsp), %rcx
	movzbl	(%rcx,%r12), %ecx
	movq	16(%r11,%rax), %rdx
	movq	24(%r11,%rax), %r8
	leaq	.LJTI0_0(%rip), %rax
	movslq	(%rax,%rcx,4), %rcx
	addq	%rax, %rcx
	jmpq	*%rcx
.LBB0_148:
	movq	%rdx, %rcx
	movq	%r8, %rdx
	callq	"pix_ops::ops::Op::from_name"
	cmpb	$1, %al
	setne	%r9b
	xorl	%eax, %eax
	xorl	%ecx, %ecx
	jmp	.LBB0_144
.LBB0_149:
	movb	$1, %cl
	testq	%r8, %r8
	je	.LBB0_164
	xorl	%r9d, %r9d
	xorl	%eax, %eax
	.p2align	4
.LBB0_151:
	movzbl	(%rdx,%rax), %r10d
	addb	$-48, %r10b
	cmpb	$9, %r10b
	ja	.LBB0_164
	leaq	(%r9,%r9,4), %r9
	movzbl	%r10b, %r10d
	leaq	(%r10,%r9,2), %r9
	cmpq	$2147483647, %r9
	ja	.LBB0_164
	incq	%rax
	cmpq	%rax, %r8
	jne	.LBB0_151
	xorl	%eax, %eax
	jmp	.LBB0_156
.LBB0_155:
	leaq	144(%rsp), %rcx
	callq	"pix_script::number::color"
	cmpb	$1, 144(%rsp)
	setne	%al
.LBB0_156:
	xorl	%ecx, %ecx
	jmp	.LBB0_143
.LBB0_157:
	testq	%r8, %r8
	je	.LBB0_142
	cmpb	$45, (%rdx)
	jne	.LBB0_165
	cmpq	$1, %r8
	je	.LBB0_142
	movl	$1, %r10d
	xorl	%r11d, %r11d
	.p2align	4
.LBB0_161:
	movzbl	(%rdx,%r10), %eax
	addb	$-48, %al
	cmpb	$9, %al
	ja	.LBB0_142
	leaq	(%r11,%r11,4), %rcx
	movzbl	%al, %eax
	leaq	(%rax,%rcx,2), %r11
	movl	$2147483648, %eax
	cmpq	%rax, %r11
	ja	.LBB0_142
	incq	%r10
	xorl	%eax, %eax
	movl	$0, %ecx
	movl	$0, %r9d
	cmpq	%r10, %r8
	jne	.LBB0_161
	jmp	.LBB0_144
.LBB0_164:
	xorl	%eax, %eax
	jmp	.LBB0_143
.LBB0_165:
	xorl	%r11d, %r11d
	xorl	%r10d, %r10d
	.p2align	4
.LBB0_166:
	movzbl	(%rdx,%r10), %eax
	addb	$-48, %al
	cmpb	$9, %al
	ja	.LBB0_142
	leaq	(%r11,%r11,4), %rcx
	movzbl	%al, %eax
	leaq	(%rax,%rcx,2), %r11
	cmpq	$2147483647, %r11
	ja	.LBB0_142
	incq	%r10
	xorl	%eax, %eax
	movl	$0, %ecx
	movl	$0, %r9d
	cmpq	%r10, %r8
	jne	.LBB0_166
	jmp	.LBB0_144
.LBB0_169:
	movb	$1, %cl
	testb	$1, %r14b
	leaq	464(%rsp), %r12
	movzbl	88(%rsp), %r14d
	movl	112(%rsp), %r15d
	jne	.LBB0_241
.LBB0_170:
	cmpq	%r9, %rdx
	jne	.LBB0_310
	movl	%r15d, %eax
	andb	$1, %al
	orb	%r8b, %al
	je	.LBB0_311
	testb	%r15b, %r8b
	jne	.LBB0_314
	testb	$1, %sil
	jne	.LBB0_315
	testb	$1, %dil
	jne	.LBB0_316
	testb	%r8b, %r8b
	je	.LBB0_185
	testq	%rdx, %rdx
	je	.LBB0_185
	xorl	%eax, %eax
	jmp	.LBB0_179
	.p2align	4
.LBB0_178:
	incq	%rax
	cmpq	80(%rsp), %rax
	movq	96(%rsp), %r11
	je	.LBB0_185
.LBB0_179:
	movq	%rax, %r8
	shlq	$4, %r8
	movq	24(%r11,%r8), %rdx
	testq	%rdx, %rdx
	je	.LBB0_178
	movq	96(%rsp), %r9
	movq	16(%r9,%r8), %r8
	xorl	%r9d, %r9d
	xorl	%r10d, %r10d
	.p2align	4
.LBB0_181:
	movzbl	(%r8,%r10), %r11d
	addb	$-48, %r11b
	cmpb	$9, %r11b
	ja	.LBB0_178
	leaq	(%r9,%r9,4), %r9
	movzbl	%r11b, %r11d
	leaq	(%r11,%r9,2), %r9
	cmpq	$2147483647, %r9
	ja	.LBB0_178
	incq	%r10
	cmpq	%r10, %rdx
	jne	.LBB0_181
	cmpq	$1024, %r9
	jbe	.LBB0_178
	jmp	.LBB0_304
.LBB0_185:
	movq	288(%rsp), %rdi
	notb	%dil
	movl	444(%rsp), %r10d
	orb	%r10b, %dil
	testb	$1, %dil
	je	.LBB0_317
	movl	440(%rsp), %eax
	movq	432(%rsp), %rdx
	movq	%rdx, 416(%rsp)
	movl	%eax, 424(%rsp)
	testb	%cl, %cl
	jne	.LBB0_189
	movq	472(%rsp), %rax
	cmpq	%rax, 480(%rsp)
	je	.LBB0_207
.LBB0_188:
	movq	464(%rsp), %rcx
	leaq	(%rax,%rax,8), %rdx
	movq	104(%rsp), %r8
	movb	%r8b, (%rcx,%rdx,4)
	movq	184(%rsp), %r8
	movb	%r8b, 1(%rcx,%rdx,4)
	movq	%xmm6, 4(%rcx,%rdx,4)
	movq	128(%rsp), %r8
	movq	%r8, 12(%rcx,%rdx,4)
	movq	120(%rsp), %r8
	movl	%r8d, 20(%rcx,%rdx,4)
	movq	416(%rsp), %r8
	movq	%r8, 24(%rcx,%rdx,4)
	movl	424(%rsp), %r8d
	movl	%r8d, 32(%rcx,%rdx,4)
	incq	%rax
	movq	%rax, 472(%rsp)
.LBB0_189:
	movq	320(%rsp), %r9
	andb	$1, %r15b
	je	.LBB0_192
	andb	$1, %r10b
	je	.LBB0_197
	jmp	.LBB0_191
.LBB0_192:
	cmpq	$5, 8(%r9)
	jne	.LBB0_196
	movq	(%r9), %rcx
	cmpl	$1734438249, (%rcx)
	jne	.LBB0_196
	leaq	static.1(%rip), %r8
	movl	$5, %edx
	movl	%r10d, %edi
	movq	%r9, %rsi
	callq	"core::cmp::slices::groups_equal::<i8,31'core::cmp::numbers::U8PartialEq{}>"
	movq	%rsi, %r9
	movl	%edi, %r10d
	movl	%eax, %r15d
	andb	$1, %r10b
	jne	.LBB0_191
	jmp	.LBB0_197
.LBB0_196:
	xorl	%r15d, %r15d
	andb	$1, %r10b
	jne	.LBB0_191
.LBB0_197:
	cmpq	$4, 8(%r9)
	jne	.LBB0_200
	movq	(%r9), %rcx
	cmpl	$1885693291, (%rcx)
	jne	.LBB0_201
	leaq	static.9(%rip), %r8
	movl	$4, %edx
	movq	%r9, %rsi
	callq	"core::cmp::slices::groups_equal::<i8,31'core::cmp::numbers::U8PartialEq{}>"
	movq	%rsi, %r9
	movl	%eax, %r10d
	movb	%r15b, 488(%rsp)
	movb	%r10b, 489(%rsp)
	testb	%r14b, %r14b
	je	.LBB0_33
	jmp	.LBB0_214
.LBB0_200:
	xorl	%r10d, %r10d
	movb	%r15b, 488(%rsp)
	movb	%r10b, 489(%rsp)
	testb	%r14b, %r14b
	je	.LBB0_33
	jmp	.LBB0_214
.LBB0_201:
	xorl	%r10d, %r10d
	movb	%r15b, 488(%rsp)
	movb	%r10b, 489(%rsp)
	testb	%r14b, %r14b
	je	.LBB0_33
	jmp	.LBB0_214
.LBB0_202:
	xorl	%eax, %eax
.LBB0_203:
	movq	80(%rsp), %rdx
	jmp	.LBB0_206
.LBB0_204:
	movl	$0, 280(%rsp)
	movq	$0, 272(%rsp)
	movq	$0, 128(%rsp)
	xorl	%eax, %eax
	movq	$0, 104(%rsp)
	movq	%rdi, %r11
	movq	$0, 120(%rsp)
	jmp	.LBB0_211
.LBB0_205:
	xorl	%eax, %eax
.LBB0_206:
	movl	$0, 216(%rsp)
	movq	$0, 208(%rsp)
	movb	$1, %r8b
	movl	$2, %r9d
	leaq	static.2(%rip), %rcx
	movq	%rcx, 136(%rsp)
	movq	$0, 288(%rsp)
	movq	$0, 104(%rsp)
	movq	$0, 184(%rsp)
	movq	$0, 128(%rsp)
	jmp	.LBB0_139
.LBB0_207:
	leaq	464(%rsp), %rcx
	callq	"std_alloc::vec::Vec::grow_amortized::<#cdd50f0e5dac12a4>"
	testb	%al, %al
	je	.LBB0_401
	movq	472(%rsp), %rax
	movzbl	488(%rsp), %r15d
	movzbl	489(%rsp), %r10d
	jmp	.LBB0_188
.LBB0_209:
	movl	$0, 280(%rsp)
	movq	$0, 272(%rsp)
	movq	$0, 128(%rsp)
	xorl	%eax, %eax
	movq	$0, 104(%rsp)
	movq	$0, 120(%rsp)
.LBB0_210:
	movq	96(%rsp), %r11
.LBB0_211:
	movq	80(%rsp), %rdx
.LBB0_212:
	movq	272(%rsp), %rcx
	movq	%rcx, 208(%rsp)
	movl	280(%rsp), %ecx
	movl	%ecx, 216(%rsp)
	movl	$5, %r9d
	leaq	static.6(%rip), %rcx
	movq	%rcx, 136(%rsp)
	xorl	%r8d, %r8d
	movq	$0, 288(%rsp)
	movq	$0, 184(%rsp)
	jmp	.LBB0_139
.LBB0_213:
	movq	144(%rsp), %r14
	movl	$2, %r13d
	xorl	%edi, %edi
	xorl	%ebx, %ebx
	jmp	.LBB0_323
.LBB0_214:
	movq	464(%rsp), %rcx
	movq	472(%rsp), %r15
	movq	480(%rsp), %rdx
	cmpq	$0, 200(%rsp)
	je	.LBB0_216
	movq	%rcx, %rsi
	movq	%r9, %rcx
	movq	%rdx, %rdi
	callq	rattle_dealloc
	movq	%rdi, %rdx
	movq	%rsi, %rcx
.LBB0_216:
	testq	%r15, %r15
	movq	192(%rsp), %rbp
	movq	224(%rsp), %r14
	je	.LBB0_218
	cmpb	$0, (%rcx)
	je	.LBB0_233
.LBB0_218:
	movb	$1, %sil
	leaq	72(%rsp), %r13
.LBB0_219:
	xorl	%ebx, %ebx
	xorl	%edi, %edi
.LBB0_220:
	testq	%rdx, %rdx
	je	.LBB0_222
	callq	rattle_dealloc
.LBB0_222:
	testb	%sil, %sil
	je	.LBB0_323
	movq	%rdi, %r12
	movl	$1, %esi
	movq	%r13, %rdi
	jmp	.LBB0_225
	.p2align	4
.LBB0_224:
	incq	%rsi
	je	.LBB0_231
.LBB0_225:
	testq	%rbx, %rbx
	je	.LBB0_236
	movl	$1, %ecx
	movq	%rdi, %rdx
	movq	%rbx, %r8
	callq	write
	testq	%rax, %rax
	js	.LBB0_229
	je	.LBB0_231
	cmpq	%rbx, %rax
	cmovaeq	%rbx, %rax
	addq	%rax, %rdi
	subq	%rax, %rbx
	jmp	.LBB0_224
	.p2align	4
.LBB0_229:
	leaq	464(%rsp), %rcx
	callq	"std_io::io::error::last_error"
	movq	464(%rsp), %rax
	shrq	$8, %rax
	movaps	.LCPI0_0(%rip), %xmm0
	movaps	%xmm0, 464(%rsp)
	movaps	.LCPI0_1(%rip), %xmm0
	movaps	%xmm0, 480(%rsp)
	movabsq	$2820983053732684064, %rcx
	movq	%rcx, 496(%rsp)
	movb	$40, 504(%rsp)
	cmpb	$41, %al
	jae	.LBB0_231
	andl	$63, %eax
	cmpb	$35, 464(%rsp,%rax)
	je	.LBB0_224
.LBB0_231:
	movb	$2, %r15b
	testq	%r12, %r12
	je	.LBB0_239
	movq	%r13, %rcx
	callq	rattle_dealloc
.LBB0_239:
	xorl	%esi, %esi
	jmp	.LBB0_240
.LBB0_233:
	movl	4(%rcx), %ebx
	movl	8(%rcx), %r8d
	movl	$1, %r13d
	movl	%ebx, %eax
	movq	%r8, 80(%rsp)
	orl	%r8d, %eax
	js	.LBB0_235
	movq	80(%rsp), %rax
	imulq	%rbx, %rax
	cmpq	$2147483647, %rax
	jbe	.LBB0_245
.LBB0_235:
	xorl	%esi, %esi
	jmp	.LBB0_219
.LBB0_236:
	movb	$1, %sil
	testq	%r12, %r12
	je	.LBB0_238
	movq	%r13, %rcx
	callq	rattle_dealloc
.LBB0_238:
	xorl	%r15d, %r15d
.LBB0_240:
	xorl	%r13d, %r13d
	xorl	%ebx, %ebx
	xorl	%edi, %edi
	testq	%rbp, %rbp
	jne	.LBB0_324
	jmp	.LBB0_325
.LBB0_241:
	movl	$2, %edi
	jmp	.LBB0_318
.LBB0_242:
	movb	$1, %r13b
	cmpq	$0, 160(%rsp)
	je	.LBB0_244
	movq	144(%rsp), %rcx
	callq	rattle_dealloc
.LBB0_244:
	xorl	%r15d, %r15d
	jmp	.LBB0_31
.LBB0_245:
	leaq	72(%rsp), %rsi
	movq	%rsi, %r13
	testq	%rax, %rax
	movq	%rax, %r14
	movq	%rcx, 88(%rsp)
	movq	%rdx, 136(%rsp)
	je	.LBB0_248
	leaq	(,%r14,4), %rbp
	movl	$1, %edx
	movq	%rbp, %rcx
	callq	rattle_alloc
	testb	$1, %al
	je	.LBB0_312
	movq	%rdx, %r13
	movq	%rdx, %rcx
	xorl	%edx, %edx
	movq	%rbp, %r8
	callq	memset
	movq	192(%rsp), %rbp
	movq	88(%rsp), %rcx
	movq	136(%rsp), %rdx
.LBB0_248:
	movq	$0, 144(%rsp)
	movq	%rsi, 152(%rsp)
	xorps	%xmm0, %xmm0
	movups	%xmm0, 160(%rsp)
	decq	%r15
	je	.LBB0_307
	leaq	36(%rcx), %r10
	movl	%r14d, %eax
	andl	$2147483640, %eax
	movq	%rax, 112(%rsp)
	movl	%r14d, %eax
	andl	$3, %eax
	movq	%rax, 312(%rsp)
	xorl	%eax, %eax
	xorl	%edi, %edi
	xorl	%esi, %esi
	movq	%r10, 96(%rsp)
	jmp	.LBB0_252
.LBB0_279:
	movq	%r13, %rdx
	callq	memmove
	movq	96(%rsp), %r10
.LBB0_250:
	movb	$1, %al
.LBB0_251:
	incq	%rsi
	cmpq	%r15, %rsi
	je	.LBB0_305
.LBB0_252:
	leaq	(%rsi,%rsi,8), %rdx
	movzbl	(%r10,%rdx,4), %ecx
	cmpl	$4, %ecx
	jne	.LBB0_263
	testb	$1, %al
	jne	.LBB0_250
	cmpl	%ebx, 144(%rsp)
	jne	.LBB0_266
	movq	80(%rsp), %rax
	cmpl	%eax, 148(%rsp)
	jne	.LBB0_266
	movq	152(%rsp), %rcx
	movq	%rcx, %rdx
	subq	%r13, %rdx
	leaq	(,%r14,4), %r8
	cmpq	%r8, %rdx
	jae	.LBB0_279
	xorl	%eax, %eax
	cmpq	$8, %r14
	jb	.LBB0_285
	cmpq	$32, %rdx
	jb	.LBB0_285
	xorl	%eax, %eax
	movq	112(%rsp), %rdx
.LBB0_260:
	movups	(%r13,%rax,4), %xmm0
	movups	16(%r13,%rax,4), %xmm1
	movups	%xmm0, (%rcx,%rax,4)
	movups	%xmm1, 16(%rcx,%rax,4)
	addq	$8, %rax
	cmpq	%rax, %rdx
	jne	.LBB0_260
	movq	%rdx, %rax
	cmpq	%rdx, %r14
	je	.LBB0_250
.LBB0_285:
	movq	%rax, %rdx
	testb	$3, %r14b
	je	.LBB0_288
	movq	312(%rsp), %r8
	movq	%rax, %rdx
.LBB0_287:
	movl	(%r13,%rdx,4), %r9d
	movl	%r9d, (%rcx,%rdx,4)
	incq	%rdx
	decq	%r8
	jne	.LBB0_287
.LBB0_288:
	subq	%r14, %rax
	cmpq	$-4, %rax
	ja	.LBB0_250
.LBB0_290:
	movl	(%r13,%rdx,4), %eax
	movl	%eax, (%rcx,%rdx,4)
	movl	4(%r13,%rdx,4), %eax
	movl	%eax, 4(%rcx,%rdx,4)
	movl	8(%r13,%rdx,4), %eax
	movl	%eax, 8(%rcx,%rdx,4)
	movl	12(%r13,%rdx,4), %eax
	movl	%eax, 12(%rcx,%rdx,4)
	addq	$4, %rdx
	cmpq	%rdx, %r14
	jne	.LBB0_290
	jmp	.LBB0_250
.LBB0_263:
	cmpl	$1, %ecx
	sete	%r8b
	testb	%r8b, %dil
	movb	$1, %dil
	jne	.LBB0_251
	leaq	(%r10,%rdx,4), %rdi
	movq	$0, 536(%rsp)
	xorps	%xmm0, %xmm0
	movaps	%xmm0, 320(%rsp)
	movaps	%xmm0, 272(%rsp)
	xorl	%eax, %eax
	movl	%ecx, %ecx
	leaq	.LJTI0_1(%rip), %rdx
	movslq	(%rdx,%rcx,4), %rcx
	addq	%rdx, %rcx
	jmpq	*%rcx
.LBB0_265:
	xorl	%edi, %edi
	jmp	.LBB0_303
.LBB0_266:
	movl	%edi, 200(%rsp)
	testq	%r14, %r14
	leaq	(,%r14,4), %rcx
	je	.LBB0_280
	movl	$1, %edx
	movq	%rcx, %rdi
	callq	rattle_alloc
	testb	$1, %al
	je	.LBB0_398
	movq	%rdx, %rbp
	movq	%rdx, %rax
	subq	%r13, %rax
	movq	%rdi, %r8
	cmpq	%rdi, %rax
	jae	.LBB0_281
	xorl	%eax, %eax
	cmpq	$8, %r14
	movq	112(%rsp), %rdx
	jb	.LBB0_274
	movq	%rbp, %rcx
	subq	%r13, %rcx
	cmpq	$32, %rcx
	jb	.LBB0_274
	xorl	%eax, %eax
.LBB0_272:
	movups	(%r13,%rax,4), %xmm0
	movups	16(%r13,%rax,4), %xmm1
	movups	%xmm0, (%rbp,%rax,4)
	movups	%xmm1, 16(%rbp,%rax,4)
	addq	$8, %rax
	cmpq	%rax, %rdx
	jne	.LBB0_272
	movq	%rdx, %rax
	cmpq	%rdx, %r14
	je	.LBB0_282
.LBB0_274:
	movq	%rax, %rcx
	cmpq	$0, 312(%rsp)
	je	.LBB0_277
	movq	312(%rsp), %rdx
	movq	%rax, %rcx
.LBB0_276:
	movl	(%r13,%rcx,4), %r8d
	movl	%r8d, (%rbp,%rcx,4)
	incq	%rcx
	decq	%rdx
	jne	.LBB0_276
.LBB0_277:
	subq	%r14, %rax
	cmpq	$-4, %rax
	ja	.LBB0_282
.LBB0_278:
	movl	(%r13,%rcx,4), %eax
	movl	%eax, (%rbp,%rcx,4)
	movl	4(%r13,%rcx,4), %eax
	movl	%eax, 4(%rbp,%rcx,4)
	movl	8(%r13,%rcx,4), %eax
	movl	%eax, 8(%rbp,%rcx,4)
	movl	12(%r13,%rcx,4), %eax
	movl	%eax, 12(%rbp,%rcx,4)
	addq	$4, %rcx
	cmpq	%rcx, %r14
	jne	.LBB0_278
	jmp	.LBB0_282
.LBB0_280:
	leaq	72(%rsp), %rbp
	xorl	%r8d, %r8d
.LBB0_281:
	movq	%rbp, %rcx
	movq	%r13, %rdx
	callq	memmove
.LBB0_282:
	movq	152(%rsp), %rcx
	movl	%ebx, 144(%rsp)
	movq	80(%rsp), %rax
	movl	%eax, 148(%rsp)
	movq	%rbp, 152(%rsp)
	movq	%r14, 160(%rsp)
	cmpq	$0, 168(%rsp)
	movq	%r14, 168(%rsp)
	je	.LBB0_284
	callq	rattle_dealloc
.LBB0_284:
	movb	$1, %al
	movq	192(%rsp), %rbp
	movq	96(%rsp), %r10
	movl	200(%rsp), %edi
	jmp	.LBB0_251
.LBB0_292:
	movl	20(%rdi), %eax
	movups	4(%rdi), %xmm1
	movaps	%xmm1, 320(%rsp)
	movl	$1, %edx
	xorl	%ecx, %ecx
	jmp	.LBB0_297
.LBB0_293:
	movzbl	1(%rdi), %ecx
	movl	20(%rdi), %eax
	movups	4(%rdi), %xmm1
	movaps	%xmm1, 320(%rsp)
	movl	$3, %edx
	jmp	.LBB0_297
.LBB0_294:
	xorl	%edx, %edx
	xorl	%ecx, %ecx
	jmp	.LBB0_297
.LBB0_295:
	movzbl	1(%rdi), %r8d
	movups	4(%rdi), %xmm1
	movaps	%xmm1, 320(%rsp)
	movups	20(%rdi), %xmm1
	movaps	%xmm1, 272(%rsp)
	leaq	144(%rsp), %rcx
	movl	$4, %edx
	jmp	.LBB0_298
.LBB0_296:
	movups	4(%rdi), %xmm1
	movaps	%xmm1, 320(%rsp)
	movups	20(%rdi), %xmm1
	movaps	%xmm1, 272(%rsp)
	leaq	144(%rsp), %rcx
	xorl	%eax, %eax
	movl	$2, %edx
.LBB0_297:
	xorl	%r8d, %r8d
.LBB0_298:
	movaps	320(%rsp), %xmm1
	leaq	468(%rsp), %r9
	movups	%xmm1, (%r9)
	movaps	272(%rsp), %xmm1
	movups	%xmm1, 28(%r9)
	movl	%edx, 464(%rsp)
	movl	%eax, 484(%rsp)
	movq	%rcx, 488(%rsp)
	movq	%r8, 512(%rsp)
	movups	%xmm0, 52(%r9)
	movb	$0, 68(%r9)
	movq	%r12, 320(%rsp)
	movq	$0, 328(%rsp)
	movl	%ebx, 336(%rsp)
	movq	80(%rsp), %rax
	movl	%eax, 340(%rsp)
	movq	%rbx, 344(%rsp)
	cmpl	$3, %edx
	jae	.LBB0_300
	xorl	%ecx, %ecx
	jmp	.LBB0_302
.LBB0_300:
	je	.LBB0_302
	movq	%r8, %rcx
.LBB0_302:
	leaq	320(%rsp), %rdx
	movq	%r13, %r8
	callq	"pix_ops::ops::Op::visit_slice::<#cb634639e69df956>"
	cmpb	$1, (%rdi)
	sete	%dil
	movq	96(%rsp), %r10
.LBB0_303:
	xorl	%eax, %eax
	jmp	.LBB0_251
.LBB0_304:
	movl	$6, %edi
	jmp	.LBB0_318
.LBB0_305:
	cmpq	$0, 168(%rsp)
	movq	88(%rsp), %rcx
	movq	136(%rsp), %rdx
	je	.LBB0_307
	movq	152(%rsp), %rcx
	callq	rattle_dealloc
	movq	136(%rsp), %rdx
	movq	88(%rsp), %rcx
.LBB0_307:
	testl	%ebx, %ebx
	je	.LBB0_370
	leaq	(%r14,%r14,8), %rdi
	cmpl	$0, 80(%rsp)
	je	.LBB0_374
	movl	$1, %edx
	movq	%rdi, %rcx
	callq	rattle_alloc
	testb	$1, %al
	jne	.LBB0_375
	jmp	.LBB0_388
.LBB0_310:
	movl	$3, %edi
	jmp	.LBB0_318
.LBB0_311:
	xorl	%edi, %edi
	jmp	.LBB0_318
.LBB0_312:
	xorl	%esi, %esi
	movl	$1, %r13d
.LBB0_313:
	xorl	%ebx, %ebx
	xorl	%edi, %edi
	movq	192(%rsp), %rbp
	movq	224(%rsp), %r14
	jmp	.LBB0_391
.LBB0_314:
	movl	$1, %edi
	jmp	.LBB0_318
.LBB0_315:
	movl	$4, %edi
	jmp	.LBB0_318
.LBB0_316:
	movl	$5, %edi
	jmp	.LBB0_318
.LBB0_317:
	movl	$7, %edi
.LBB0_318:
	xorl	%r13d, %r13d
	movq	192(%rsp), %rbp
	movq	224(%rsp), %r14
	cmpq	$0, 200(%rsp)
	je	.LBB0_321
.LBB0_320:
	movq	320(%rsp), %rcx
	callq	rattle_dealloc
.LBB0_321:
	cmpq	$0, 480(%rsp)
	je	.LBB0_323
	movq	464(%rsp), %rcx
	callq	rattle_dealloc
.LBB0_323:
	xorl	%esi, %esi
	xorl	%r15d, %r15d
	testq	%rbp, %rbp
	je	.LBB0_325
.LBB0_324:
	movq	%r14, %rcx
	callq	rattle_dealloc
.LBB0_325:
	xorl	%eax, %eax
	testb	%sil, %sil
	jne	.LBB0_363
.LBB0_326:
	xorps	%xmm0, %xmm0
	movaps	%xmm0, 368(%rsp)
	movaps	%xmm0, 352(%rsp)
	movaps	%xmm0, 336(%rsp)
	movaps	%xmm0, 320(%rsp)
	movq	$0, 384(%rsp)
	cmpb	$2, %r15b
	movq	%r13, 96(%rsp)
	je	.LBB0_329
	movzbl	%r15b, %eax
	cmpl	$1, %eax
	jne	.LBB0_330
	movabsq	$7593462736032458098, %rax
	movq	%rax, 320(%rsp)
	movl	$1684368489, 327(%rsp)
	movl	$11, %ebx
	jmp	.LBB0_334
.LBB0_329:
	movabsq	$7018332689420350071, %rax
	movq	%rax, 320(%rsp)
	movl	$1684368489, 328(%rsp)
	movl	$12, %ebx
	jmp	.LBB0_334
.LBB0_330:
	cmpb	$2, %r13b
	je	.LBB0_333
	movzbl	%r13b, %eax
	cmpl	$1, %eax
	jne	.LBB0_347
	movabsq	$8751179541578063974, %rax
	movq	%rax, 325(%rsp)
	movabsq	$7863397576860792175, %rax
	movq	%rax, 320(%rsp)
	movl	$13, %ebx
	jmp	.LBB0_334
.LBB0_333:
	movabsq	$7453016943536074612, %rax
	movq	%rax, 326(%rsp)
	movabsq	$8031079720067034729, %rax
	movq	%rax, 320(%rsp)
	movl	$14, %ebx
.LBB0_334:
	leaq	static.31(%rip), %rdx
	movl	$2, %eax
	.p2align	4
.LBB0_335:
	xorl	%esi, %esi
	cmpq	$64, %rbx
	movl	$64, %r14d
	cmovbq	%rbx, %r14
	setb	%sil
	leaq	(%rsp,%r14), %rcx
	addq	$320, %rcx
	movq	%rcx, %r8
	subq	%rdx, %r8
	cmpq	%rsi, %r8
	jae	.LBB0_338
	movzbl	(%rdx), %ecx
	movb	%cl, 320(%rsp,%r14)
	incq	%r14
	movq	%r14, 384(%rsp)
	incq	%rax
	cmpq	$1, %rax
	je	.LBB0_362
	addq	%rsi, %rdx
	cmpq	$64, %rbx
	movq	%r14, %rbx
	jae	.LBB0_335
	jmp	.LBB0_339
.LBB0_338:
	testq	%rax, %rax
	sete	%dil
	movb	$10, %dl
	movq	%rsi, %r8
	callq	memset
	addq	%rsi, %r14
	movq	%r14, 384(%rsp)
	cmpq	$64, %rbx
	setae	%al
	orb	%dil, %al
	jne	.LBB0_362
.LBB0_339:
	cmpq	$64, %r14
	movl	$64, %edi
	cmovbq	%r14, %rdi
	movq	$-1, %rbx
	xorl	%r14d, %r14d
	jmp	.LBB0_343
	.p2align	4
.LBB0_340:
	je	.LBB0_362
	cmpq	%rsi, %rax
	cmovbq	%rax, %rsi
	addq	%rsi, %r14
.LBB0_342:
	decq	%rbx
	je	.LBB0_362
.LBB0_343:
	movq	%rdi, %rsi
	subq	%r14, %rsi
	je	.LBB0_362
	leaq	(%rsp,%r14), %rdx
	addq	$320, %rdx
	movl	$2, %ecx
	movq	%rsi, %r8
	callq	write
	testq	%rax, %rax
	jns	.LBB0_340
	leaq	464(%rsp), %rcx
	callq	"std_io::io::error::last_error"
	movq	464(%rsp), %rax
	shrq	$8, %rax
	movaps	.LCPI0_0(%rip), %xmm0
	movaps	%xmm0, 464(%rsp)
	movaps	.LCPI0_1(%rip), %xmm0
	movaps	%xmm0, 480(%rsp)
	movabsq	$2820983053732684064, %rcx
	movq	%rcx, 496(%rsp)
	movb	$40, 504(%rsp)
	cmpb	$41, %al
	jae	.LBB0_362
	andl	$63, %eax
	cmpb	$35, 464(%rsp,%rax)
	je	.LBB0_342
	jmp	.LBB0_362
.LBB0_347:
	movb	$32, 324(%rsp)
	movl	$1701734764, 320(%rsp)
	movaps	%xmm0, 464(%rsp)
	movq	$0, 480(%rsp)
	movl	$24, %ecx
	cmpq	$100, %rbx
	jb	.LBB0_351
	.p2align	4
.LBB0_348:
	movq	%rbx, %rax
	shrq	$2, %rax
	movabsq	$2951479051793528259, %rdx
	mulq	%rdx
	shrq	$2, %rdx
	imull	$100, %edx, %eax
	movl	%ebx, %r8d
	subl	%eax, %r8d
	movzbl	%r8b, %eax
	imull	$205, %eax, %r8d
	shrl	$11, %r8d
	leal	(%r8,%r8), %r9d
	leal	(%r9,%r9,4), %r9d
	subb	%r9b, %al
	orb	$48, %al
	movb	%al, 463(%rsp,%rcx)
	orb	$48, %r8b
	movb	%r8b, 462(%rsp,%rcx)
	addq	$-2, %rcx
	cmpq	$9999, %rbx
	movq	%rdx, %rbx
	ja	.LBB0_348
	cmpq	$10, %rdx
	jb	.LBB0_352
.LBB0_350:
	movzbl	%dl, %eax
	imull	$205, %eax, %eax
	shrl	$11, %eax
	leal	(%rax,%rax), %r8d
	leal	(%r8,%r8,4), %r8d
	subb	%r8b, %dl
	orb	$48, %dl
	movb	%dl, 463(%rsp,%rcx)
	orb	$48, %al
	movb	%al, 462(%rsp,%rcx)
	addq	$-2, %rcx
	jmp	.LBB0_353
.LBB0_351:
	movq	%rbx, %rdx
	cmpq	$10, %rdx
	jae	.LBB0_350
.LBB0_352:
	orb	$48, %dl
	movb	%dl, 463(%rsp,%rcx)
	decq	%rcx
.LBB0_353:
	movq	%rdi, 80(%rsp)
	movb	$45, 463(%rsp,%rcx)
	movl	$5, %ebx
	cmpq	$24, %rcx
	jne	.LBB0_358
.LBB0_354:
	leaq	static.35(%rip), %rsi
	movl	$2, %r14d
	movl	$2, %r13d
	.p2align	4
.LBB0_355:
	testq	%r13, %r13
	je	.LBB0_364
	cmpq	$64, %rbx
	movl	$64, %edi
	cmovaeq	%rdi, %rbx
	setae	%bpl
	subq	%rbx, %rdi
	cmpq	%r13, %rdi
	leaq	320(%rsp,%rbx), %rcx
	cmovaeq	%r13, %rdi
	movq	%rcx, %rax
	subq	%rsi, %rax
	cmpq	%rdi, %rax
	setae	%r12b
	movq	%rsi, %rdx
	movq	%rdi, %r8
	callq	memcpy
	testb	%bpl, %r12b
	jne	.LBB0_362
	addq	%rdi, %rbx
	addq	%rdi, %rsi
	subq	%rdi, %r13
	testq	%r14, %r14
	leaq	1(%r14), %r14
	jne	.LBB0_355
	jmp	.LBB0_362
.LBB0_358:
	leaq	(%rsp,%rcx), %rsi
	addq	$464, %rsi
	movl	$24, %r14d
	subq	%rcx, %r14
	movl	$2, %r13d
	.p2align	4
.LBB0_359:
	testq	%r14, %r14
	je	.LBB0_354
	cmpq	$64, %rbx
	movl	$64, %edi
	cmovaeq	%rdi, %rbx
	setae	%bpl
	subq	%rbx, %rdi
	cmpq	%r14, %rdi
	leaq	320(%rsp,%rbx), %rcx
	cmovaeq	%r14, %rdi
	movq	%rcx, %rax
	subq	%rsi, %rax
	cmpq	%rdi, %rax
	setae	%r12b
	movq	%rsi, %rdx
	movq	%rdi, %r8
	callq	memcpy
	testb	%r12b, %bpl
	jne	.LBB0_362
	addq	%rdi, %rbx
	addq	%rdi, %rsi
	subq	%rdi, %r14
	testq	%r13, %r13
	leaq	1(%r13), %r13
	jne	.LBB0_359
.LBB0_362:
	xorl	%ecx, %ecx
	cmpb	$1, 96(%rsp)
	sete	%cl
	incl	%ecx
	testb	%r15b, %r15b
	movl	$3, %eax
	cmovel	%ecx, %eax
.LBB0_363:
	movaps	4560(%rsp), %xmm6
	movaps	4576(%rsp), %xmm7
	addq	$4600, %rsp
	popq	%rbx
	popq	%rbp
	popq	%rdi
	popq	%rsi
	popq	%r12
	popq	%r13
	popq	%r14
	popq	%r15
	retq
.LBB0_364:
	leaq	"switch.table.pixpaint::main+start"(%rip), %rax
	movzbl	80(%rsp), %ecx
	movq	(%rax,%rcx,8), %r14
	leaq	"switch.table.pixpaint::main+start.299.rel"(%rip), %rax
	movslq	(%rax,%rcx,4), %rsi
	addq	%rax, %rsi
	movl	$2, %r12d
	testq	%r14, %r14
	je	.LBB0_334
	.p2align	4
.LBB0_365:
	cmpq	$64, %rbx
	movl	$64, %edi
	movl	$64, %r13d
	cmovbq	%rbx, %r13
	subq	%r13, %rdi
	cmpq	%r14, %rdi
	cmovaeq	%r14, %rdi
	leaq	(%rsp,%r13), %rcx
	addq	$320, %rcx
	movq	%rcx, %rbp
	subq	%rsi, %rbp
	movq	%rsi, %rdx
	movq	%rdi, %r8
	callq	memcpy
	addq	%rdi, %r13
	cmpq	%rdi, %rbp
	jae	.LBB0_367
	movq	%r13, 384(%rsp)
	jmp	.LBB0_368
	.p2align	4
.LBB0_367:
	cmpq	$63, %rbx
	ja	.LBB0_362
.LBB0_368:
	testq	%r12, %r12
	je	.LBB0_362
	addq	%rdi, %rsi
	subq	%rdi, %r14
	incq	%r12
	movq	%r13, %rbx
	testq	%r14, %r14
	jne	.LBB0_365
	jmp	.LBB0_334
.LBB0_370:
	cmpl	$0, 80(%rsp)
	je	.LBB0_392
	movl	$1, %edx
	movq	80(%rsp), %rsi
	movq	%rsi, %rcx
	callq	rattle_alloc
	testb	$1, %al
	je	.LBB0_388
	movq	%rdx, %rdi
	cmpl	$1, %esi
	jne	.LBB0_393
	xorl	%ebx, %ebx
	jmp	.LBB0_394
.LBB0_374:
	leaq	72(%rsp), %rdx
.LBB0_375:
	movq	%rdx, 320(%rsp)
	movq	$0, 328(%rsp)
	movq	%rdi, 336(%rsp)
	xorl	%esi, %esi
	leaq	464(%rsp), %rcx
	movl	$288, %r8d
	xorl	%edx, %edx
	callq	memset
	movq	%r14, 96(%rsp)
	movq	%r13, %r15
	jmp	.LBB0_378
.LBB0_376:
	movq	192(%rsp), %rbp
.LBB0_377:
	movl	%r8d, %eax
	leaq	(%r15,%rax,4), %r15
	subq	%r8, %r14
	leaq	320(%rsp), %rcx
	leaq	464(%rsp), %rdx
	callq	"pix_script::pixel::push_cells"
	testb	%al, %al
	jne	.LBB0_386
.LBB0_378:
	testq	%r14, %r14
	je	.LBB0_385
	cmpq	$32, %r14
	movl	$32, %r8d
	cmovbq	%r14, %r8
	movq	%rsi, %rcx
	notq	%rcx
	addq	%rbx, %rcx
	cmpq	%r8, %rcx
	movq	%r8, %rax
	cmovbq	%rcx, %rax
	testq	%rcx, %rcx
	je	.LBB0_382
	xorl	%edx, %edx
	leaq	472(%rsp), %r9
	.p2align	4
.LBB0_381:
	movzbl	(%r15,%rdx,4), %r10d
	leaq	static.28(%rip), %r11
	movzwl	(%r11,%r10,2), %r10d
	movzbl	1(%r15,%rdx,4), %r12d
	movzwl	(%r11,%r12,2), %ebp
	movzbl	2(%r15,%rdx,4), %r12d
	movzwl	(%r11,%r12,2), %r12d
	movzbl	3(%r15,%rdx,4), %edi
	movzwl	(%r11,%rdi,2), %r11d
	movw	%r10w, -8(%r9)
	movw	%bp, -6(%r9)
	movw	%r12w, -4(%r9)
	movw	%r11w, -2(%r9)
	movb	$32, (%r9)
	incq	%rdx
	addq	$9, %r9
	cmpq	%rdx, %rax
	jne	.LBB0_381
.LBB0_382:
	addq	%rax, %rsi
	cmpq	%r8, %rcx
	jae	.LBB0_376
	leaq	(%rax,%rax,8), %rcx
	leaq	472(%rsp), %rdx
	addq	%rdx, %rcx
	movq	192(%rsp), %rbp
	.p2align	4
.LBB0_384:
	incq	%rsi
	xorl	%edx, %edx
	cmpq	%rbx, %rsi
	movl	$32, %r9d
	movl	$10, %r10d
	cmovbl	%r9d, %r10d
	cmovaeq	%rdx, %rsi
	movzbl	(%r15,%rax,4), %edx
	leaq	static.28(%rip), %r9
	movzwl	(%r9,%rdx,2), %edx
	movzbl	1(%r15,%rax,4), %r11d
	movzwl	(%r9,%r11,2), %r11d
	movzbl	2(%r15,%rax,4), %edi
	movzwl	(%r9,%rdi,2), %edi
	movzbl	3(%r15,%rax,4), %r12d
	movzwl	(%r9,%r12,2), %r9d
	movw	%dx, -8(%rcx)
	movw	%r11w, -6(%rcx)
	movw	%di, -4(%rcx)
	movw	%r9w, -2(%rcx)
	movb	%r10b, (%rcx)
	incq	%rax
	addq	$9, %rcx
	cmpq	%rax, %r8
	jne	.LBB0_384
	jmp	.LBB0_377
.LBB0_385:
	movq	320(%rsp), %rdi
	movq	328(%rsp), %rbx
	movq	336(%rsp), %rax
	movq	%rax, 80(%rsp)
	movq	88(%rsp), %rcx
	movq	136(%rsp), %rdx
	movq	96(%rsp), %r14
	jmp	.LBB0_395
.LBB0_386:
	cmpq	$0, 336(%rsp)
	movq	96(%rsp), %r14
	je	.LBB0_388
	movq	320(%rsp), %rcx
	callq	rattle_dealloc
.LBB0_388:
	testq	%r14, %r14
	je	.LBB0_390
	movq	%r13, %rcx
	callq	rattle_dealloc
.LBB0_390:
	xorl	%esi, %esi
	xorl	%ebx, %ebx
	xorl	%edi, %edi
	movq	224(%rsp), %r14
	movl	$1, %r13d
.LBB0_391:
	movq	88(%rsp), %rcx
	movq	136(%rsp), %rdx
	jmp	.LBB0_220
.LBB0_392:
	leaq	72(%rsp), %rdi
	xorl	%ebx, %ebx
	movq	$0, 80(%rsp)
	jmp	.LBB0_395
.LBB0_393:
	leaq	-1(%rsi), %rbx
	movq	%rdi, %rcx
	movb	$10, %dl
	movq	%rbx, %r8
	callq	memset
.LBB0_394:
	movq	88(%rsp), %rcx
	movq	136(%rsp), %rdx
	movb	$10, (%rdi,%rbx)
	incq	%rbx
.LBB0_395:
	movb	$1, %sil
	testq	%r14, %r14
	je	.LBB0_397
	movq	%rcx, %r14
	movq	%r13, %rcx
	movq	%rdx, %r15
	callq	rattle_dealloc
	movq	%r15, %rdx
	movq	%r14, %rcx
.LBB0_397:
	movq	%rdi, %r13
	movq	224(%rsp), %r14
	movq	80(%rsp), %rdi
	jmp	.LBB0_220
.LBB0_398:
	cmpq	$0, 168(%rsp)
	je	.LBB0_400
	movq	152(%rsp), %rcx
	callq	rattle_dealloc
.LBB0_400:
	movq	%r13, %rcx
	callq	rattle_dealloc
	movl	$1, %r13d
	xorl	%esi, %esi
	jmp	.LBB0_313
.LBB0_401:
	movl	$1, %r13d
	xorl	%ebx, %ebx
	xorl	%edi, %edi
	movq	192(%rsp), %rbp
	movq	224(%rsp), %r14
	cmpq	$0, 200(%rsp)
	jne	.LBB0_320
	jmp	.LBB0_321
.LBB0_402:
	movq	336(%rsp), %rax
	movq	%rax, 200(%rsp)
	xorl	%ebx, %ebx
	xorl	%edi, %edi
	movq	192(%rsp), %rbp
	movq	224(%rsp), %r14
	movl	$1, %r13d
	cmpq	$0, 200(%rsp)
	jne	.LBB0_320
	jmp	.LBB0_321
.LBB0_403:
	ud2
	.section	".rdata$pixpaint::main+start","dr"
	.p2align	2, 0x0
.LJTI0_0:
	.long	.LBB0_148-.LJTI0_0
	.long	.LBB0_157-.LJTI0_0
	.long	.LBB0_149-.LJTI0_0
	.long	.LBB0_155-.LJTI0_0
.LJTI0_1:
	.long	.LBB0_265-.LJTI0_1
	.long	.LBB0_294-.LJTI0_1
	.long	.LBB0_292-.LJTI0_1
	.long	.LBB0_293-.LJTI0_1
	.long	.LBB0_403-.LJTI0_1
	.long	.LBB0_296-.LJTI0_1
	.long	.LBB0_295-.LJTI0_1

	.section	".text$std_io::io::error::last_error","xr"
	.p2align	4
"std_io::io::error::last_error":
	pushq	%rsi
	subq	$32, %rsp
	movq	%rcx, %rsi
	callq	rattle_errno
	movl	%eax, %ecx
	movb	$41, %dl
	testl	%eax, %eax
	js	.LBB1_40
	decl	%eax
	cmpl	$121, %eax
	ja	.LBB1_40
	leaq	.LJTI1_0(%rip), %r8
	movslq	(%r8,%rax,4), %rax
	addq	%r8, %rax
	jmpq	*%rax
.LBB1_3:
	movb	$1, %dl
	jmp	.LBB1_40
.LBB1_24:
	movb	$36, %dl
	jmp	.LBB1_40
.LBB1_36:
	movb	$4, %dl
	jmp	.LBB1_40
.LBB1_33:
	movb	$7, %dl
	jmp	.LBB1_40
.LBB1_39:
	movb	$26, %dl
	jmp	.LBB1_40
.LBB1_37:
	movb	$39, %dl
	jmp	.LBB1_40
.LBB1_28:
	movb	$9, %dl
	jmp	.LBB1_40
.LBB1_27:
	movb	$8, %dl
	jmp	.LBB1_40
.LBB1_22:
	movb	$30, %dl
	jmp	.LBB1_40
.LBB1_18:
	movb	$25, %dl
	jmp	.LBB1_40
.LBB1_20:
	movb	$32, %dl
	jmp	.LBB1_40
.LBB1_23:
	movb	$33, %dl
	jmp	.LBB1_40
.LBB1_34:
	movb	$22, %dl
	jmp	.LBB1_40
.LBB1_11:
	movb	$31, %dl
	jmp	.LBB1_40
.LBB1_15:
	movb	$29, %dl
	jmp	.LBB1_40
.LBB1_26:
	movb	$18, %dl
	jmp	.LBB1_40
.LBB1_29:
	movb	$10, %dl
	jmp	.LBB1_40
.LBB1_9:
	movb	$28, %dl
	jmp	.LBB1_40
.LBB1_12:
	movb	$14, %dl
	jmp	.LBB1_40
.LBB1_10:
	movb	$12, %dl
	jmp	.LBB1_40
.LBB1_30:
	movb	$5, %dl
	jmp	.LBB1_40
.LBB1_32:
	movb	$3, %dl
	jmp	.LBB1_40
.LBB1_4:
	xorl	%edx, %edx
	jmp	.LBB1_40
.LBB1_7:
	movb	$13, %dl
	jmp	.LBB1_40
.LBB1_8:
	movb	$38, %dl
	jmp	.LBB1_40
.LBB1_21:
	movb	$11, %dl
	jmp	.LBB1_40
.LBB1_5:
	movb	$35, %dl
	jmp	.LBB1_40
.LBB1_6:
	movb	$34, %dl
	jmp	.LBB1_40
.LBB1_14:
	movb	$20, %dl
	jmp	.LBB1_40
.LBB1_13:
	movb	$15, %dl
	jmp	.LBB1_40
.LBB1_38:
	movb	$19, %dl
	jmp	.LBB1_40
.LBB1_25:
	movb	$16, %dl
	jmp	.LBB1_40
.LBB1_31:
	movb	$6, %dl
	jmp	.LBB1_40
.LBB1_16:
	movb	$27, %dl
	jmp	.LBB1_40
.LBB1_17:
	movb	$24, %dl
	jmp	.LBB1_40
.LBB1_35:
	movb	$2, %dl
	jmp	.LBB1_40
.LBB1_19:
	movb	$17, %dl
.LBB1_40:
	movb	$0, (%rsi)
	movb	%dl, 1(%rsi)
	movw	$0, 2(%rsi)
	movl	%ecx, 4(%rsi)
	xorps	%xmm0, %xmm0
	movups	%xmm0, 8(%rsi)
	movups	%xmm0, 24(%rsi)
	movups	%xmm0, 40(%rsi)
	movups	%xmm0, 56(%rsi)
	movups	%xmm0, 72(%rsi)
	addq	$32, %rsp
	popq	%rsi
	retq
	.section	".rdata$std_io::io::error::last_error","dr"
	.p2align	2, 0x0
.LJTI1_0:
	.long	.LBB1_3-.LJTI1_0
	.long	.LBB1_4-.LJTI1_0
	.long	.LBB1_40-.LJTI1_0
	.long	.LBB1_5-.LJTI1_0
	.long	.LBB1_40-.LJTI1_0
	.long	.LBB1_40-.LJTI1_0
	.long	.LBB1_6-.LJTI1_0
	.long	.LBB1_40-.LJTI1_0
	.long	.LBB1_40-.LJTI1_0
	.long	.LBB1_40-.LJTI1_0
	.long	.LBB1_7-.LJTI1_0
	.long	.LBB1_8-.LJTI1_0
	.long	.LBB1_3-.LJTI1_0
	.long	.LBB1_40-.LJTI1_0
	.long	.LBB1_40-.LJTI1_0
	.long	.LBB1_9-.LJTI1_0
	.long	.LBB1_10-.LJTI1_0
	.long	.LBB1_11-.LJTI1_0
	.long	.LBB1_40-.LJTI1_0
	.long	.LBB1_12-.LJTI1_0
	.long	.LBB1_13-.LJTI1_0
	.long	.LBB1_14-.LJTI1_0
	.long	.LBB1_40-.LJTI1_0
	.long	.LBB1_40-.LJTI1_0
	.long	.LBB1_40-.LJTI1_0
	.long	.LBB1_15-.LJTI1_0
	.long	.LBB1_16-.LJTI1_0
	.long	.LBB1_17-.LJTI1_0
	.long	.LBB1_18-.LJTI1_0
	.long	.LBB1_19-.LJTI1_0
	.long	.LBB1_20-.LJTI1_0
	.long	.LBB1_21-.LJTI1_0
	.long	.LBB1_40-.LJTI1_0
	.long	.LBB1_40-.LJTI1_0
	.long	.LBB1_22-.LJTI1_0
	.long	.LBB1_23-.LJTI1_0
	.long	.LBB1_40-.LJTI1_0
	.long	.LBB1_24-.LJTI1_0
	.long	.LBB1_25-.LJTI1_0
	.long	.LBB1_26-.LJTI1_0
	.long	.LBB1_40-.LJTI1_0
	.long	.LBB1_40-.LJTI1_0
	.long	.LBB1_40-.LJTI1_0
	.long	.LBB1_40-.LJTI1_0
	.long	.LBB1_40-.LJTI1_0
	.long	.LBB1_40-.LJTI1_0
	.long	.LBB1_40-.LJTI1_0
	.long	.LBB1_40-.LJTI1_0
	.long	.LBB1_40-.LJTI1_0
	.long	.LBB1_40-.LJTI1_0
	.long	.LBB1_40-.LJTI1_0
	.long	.LBB1_40-.LJTI1_0
	.long	.LBB1_40-.LJTI1_0
	.long	.LBB1_40-.LJTI1_0
	.long	.LBB1_40-.LJTI1_0
	.long	.LBB1_40-.LJTI1_0
	.long	.LBB1_40-.LJTI1_0
	.long	.LBB1_40-.LJTI1_0
	.long	.LBB1_40-.LJTI1_0
	.long	.LBB1_40-.LJTI1_0
	.long	.LBB1_40-.LJTI1_0
	.long	.LBB1_40-.LJTI1_0
	.long	.LBB1_40-.LJTI1_0
	.long	.LBB1_40-.LJTI1_0
	.long	.LBB1_40-.LJTI1_0
	.long	.LBB1_40-.LJTI1_0
	.long	.LBB1_40-.LJTI1_0
	.long	.LBB1_40-.LJTI1_0
	.long	.LBB1_40-.LJTI1_0
	.long	.LBB1_40-.LJTI1_0
	.long	.LBB1_40-.LJTI1_0
	.long	.LBB1_40-.LJTI1_0
	.long	.LBB1_40-.LJTI1_0
	.long	.LBB1_40-.LJTI1_0
	.long	.LBB1_40-.LJTI1_0
	.long	.LBB1_40-.LJTI1_0
	.long	.LBB1_40-.LJTI1_0
	.long	.LBB1_40-.LJTI1_0
	.long	.LBB1_40-.LJTI1_0
	.long	.LBB1_40-.LJTI1_0
	.long	.LBB1_40-.LJTI1_0
	.long	.LBB1_40-.LJTI1_0
	.long	.LBB1_40-.LJTI1_0
	.long	.LBB1_40-.LJTI1_0
	.long	.LBB1_40-.LJTI1_0
	.long	.LBB1_40-.LJTI1_0
	.long	.LBB1_40-.LJTI1_0
	.long	.LBB1_40-.LJTI1_0
	.long	.LBB1_40-.LJTI1_0
	.long	.LBB1_40-.LJTI1_0
	.long	.LBB1_40-.LJTI1_0
	.long	.LBB1_40-.LJTI1_0
	.long	.LBB1_40-.LJTI1_0
	.long	.LBB1_40-.LJTI1_0
	.long	.LBB1_24-.LJTI1_0
	.long	.LBB1_40-.LJTI1_0
	.long	.LBB1_40-.LJTI1_0
	.long	.LBB1_27-.LJTI1_0
	.long	.LBB1_28-.LJTI1_0
	.long	.LBB1_29-.LJTI1_0
	.long	.LBB1_30-.LJTI1_0
	.long	.LBB1_40-.LJTI1_0
	.long	.LBB1_31-.LJTI1_0
	.long	.LBB1_32-.LJTI1_0
	.long	.LBB1_40-.LJTI1_0
	.long	.LBB1_40-.LJTI1_0
	.long	.LBB1_33-.LJTI1_0
	.long	.LBB1_40-.LJTI1_0
	.long	.LBB1_40-.LJTI1_0
	.long	.LBB1_34-.LJTI1_0
	.long	.LBB1_35-.LJTI1_0
	.long	.LBB1_40-.LJTI1_0
	.long	.LBB1_36-.LJTI1_0
	.long	.LBB1_40-.LJTI1_0
	.long	.LBB1_37-.LJTI1_0
	.long	.LBB1_38-.LJTI1_0
	.long	.LBB1_40-.LJTI1_0
	.long	.LBB1_40-.LJTI1_0
	.long	.LBB1_40-.LJTI1_0
	.long	.LBB1_40-.LJTI1_0
	.long	.LBB1_40-.LJTI1_0
	.long	.LBB1_39-.LJTI1_0

	.section	".text$unlikely$std_alloc::vec::Vec::grow_amortized::<#ab1bfed030c1db69>","xr"
	.p2align	4
"std_alloc::vec::Vec::grow_amortized::<#ab1bfed030c1db69>":
	pushq	%rsi
	pushq	%rdi
	subq	$40, %rsp
	movq	%rdx, %rax
	movq	8(%rcx), %rdx
	addq	%rdx, %rax
	jb	.LBB2_6
	cmpq	$9, %rax
	movl	$8, %esi
	cmovaeq	%rax, %rsi
	movq	16(%rcx), %r8
	movq	%r8, %r9
	shrq	$62, %r9
	leaq	(%r8,%r8), %rax
	cmpq	%rax, %rsi
	cmovaq	%rsi, %rax
	testq	%r9, %r9
	cmoveq	%rax, %rsi
	testq	%rsi, %rsi
	js	.LBB2_6
	testq	%r8, %r8
	je	.LBB2_5
	movq	%rcx, %rdi
	movq	(%rcx), %rcx
	movl	$1, %r9d
	movq	%rsi, %r8
	callq	rattle_realloc
	testb	$1, %al
	je	.LBB2_6
.LBB2_4:
	movq	%rdx, (%rdi)
	movq	%rsi, 16(%rdi)
	movb	$1, %al
	addq	$40, %rsp
	popq	%rdi
	popq	%rsi
	retq
.LBB2_5:
	movq	%rcx, %rdi
	movl	$1, %edx
	movq	%rax, %rcx
	callq	rattle_alloc
	testb	$1, %al
	jne	.LBB2_4
.LBB2_6:
	xorl	%eax, %eax
	addq	$40, %rsp
	popq	%rdi
	popq	%rsi
	retq

	.section	".text$unlikely$std_alloc::vec::Vec::grow_amortized::<#c573f30ac4e8249c>","xr"
	.p2align	4
"std_alloc::vec::Vec::grow_amortized::<#c573f30ac4e8249c>":
	pushq	%rsi
	pushq	%rdi
	subq	$40, %rsp
	movq	%rdx, %rax
	movq	8(%rcx), %rdx
	addq	%rdx, %rax
	jb	.LBB3_6
	movq	16(%rcx), %r8
	cmpq	$5, %rax
	movl	$4, %esi
	cmovaeq	%rax, %rsi
	movq	%r8, %r9
	shrq	$62, %r9
	leaq	(%r8,%r8), %rax
	cmpq	%rax, %rsi
	cmovaq	%rsi, %rax
	testq	%r9, %r9
	cmoveq	%rax, %rsi
	movq	%rsi, %r9
	shrq	$59, %r9
	jne	.LBB3_6
	testq	%r8, %r8
	je	.LBB3_5
	movq	%rcx, %rdi
	movq	(%rcx), %rcx
	shlq	$4, %rdx
	movq	%rsi, %r8
	shlq	$4, %r8
	movl	$8, %r9d
	callq	rattle_realloc
	testb	$1, %al
	je	.LBB3_6
.LBB3_4:
	movq	%rdx, (%rdi)
	movq	%rsi, 16(%rdi)
	movb	$1, %al
	addq	$40, %rsp
	popq	%rdi
	popq	%rsi
	retq
.LBB3_5:
	movq	%rcx, %rdi
	shlq	$4, %rax
	movl	$8, %edx
	movq	%rax, %rcx
	callq	rattle_alloc
	testb	$1, %al
	jne	.LBB3_4
.LBB3_6:
	xorl	%eax, %eax
	addq	$40, %rsp
	popq	%rdi
	popq	%rsi
	retq

	.section	".text$pix_script::parse::region","xr"
	.p2align	4
"pix_script::parse::region":
	pushq	%rsi
	pushq	%rdi
	pushq	%rbx
	testq	%r8, %r8
	je	.LBB4_15
	cmpb	$45, (%rdx)
	jne	.LBB4_2
	cmpq	$1, %r8
	je	.LBB4_15
	movl	$1, %r10d
	movl	$2147483648, %r11d
	xorl	%eax, %eax
	.p2align	4
.LBB4_6:
	movzbl	(%rdx,%r10), %ebx
	addb	$-48, %bl
	cmpb	$9, %bl
	ja	.LBB4_15
	leaq	(%rax,%rax,4), %rax
	movzbl	%bl, %esi
	leaq	(%rsi,%rax,2), %rax
	cmpq	%r11, %rax
	ja	.LBB4_15
	incq	%r10
	cmpq	%r10, %r8
	jne	.LBB4_6
	negl	%eax
	jmp	.LBB4_9
.LBB4_2:
	xorl	%eax, %eax
	xorl	%r10d, %r10d
	.p2align	4
.LBB4_13:
	movzbl	(%rdx,%r10), %r11d
	addb	$-48, %r11b
	cmpb	$9, %r11b
	ja	.LBB4_15
	leaq	(%rax,%rax,4), %rax
	movzbl	%r11b, %r11d
	leaq	(%r11,%rax,2), %rax
	cmpq	$2147483647, %rax
	ja	.LBB4_15
	incq	%r10
	cmpq	%r10, %r8
	jne	.LBB4_13
.LBB4_9:
	movq	64(%rsp), %r8
	testq	%r8, %r8
	je	.LBB4_15
	cmpb	$45, (%r9)
	jne	.LBB4_11
	cmpq	$1, %r8
	je	.LBB4_15
	movl	$1, %r10d
	movl	$2147483648, %r11d
	xorl	%edx, %edx
	.p2align	4
.LBB4_20:
	movzbl	(%r9,%r10), %ebx
	addb	$-48, %bl
	cmpb	$9, %bl
	ja	.LBB4_15
	leaq	(%rdx,%rdx,4), %rdx
	movzbl	%bl, %esi
	leaq	(%rsi,%rdx,2), %rdx
	cmpq	%r11, %rdx
	ja	.LBB4_15
	incq	%r10
	cmpq	%r10, %r8
	jne	.LBB4_20
	negl	%edx
	jmp	.LBB4_23
.LBB4_11:
	xorl	%edx, %edx
	xorl	%r10d, %r10d
	.p2align	4
.LBB4_26:
	movzbl	(%r9,%r10), %r11d
	addb	$-48, %r11b
	cmpb	$9, %r11b
	ja	.LBB4_15
	leaq	(%rdx,%rdx,4), %rdx
	movzbl	%r11b, %r11d
	leaq	(%r11,%rdx,2), %rdx
	cmpq	$2147483647, %rdx
	ja	.LBB4_15
	incq	%r10
	cmpq	%r10, %r8
	jne	.LBB4_26
.LBB4_23:
	movq	80(%rsp), %r11
	testq	%r11, %r11
	je	.LBB4_15
	movq	96(%rsp), %r8
	movq	88(%rsp), %r10
	movq	72(%rsp), %rsi
	xorl	%r9d, %r9d
	xorl	%edi, %edi
.LBB4_29:
	movzbl	(%rsi,%rdi), %ebx
	addb	$-48, %bl
	cmpb	$9, %bl
	ja	.LBB4_15
	leaq	(%r9,%r9,4), %r9
	movzbl	%bl, %ebx
	leaq	(%rbx,%r9,2), %r9
	cmpq	$2147483647, %r9
	ja	.LBB4_15
	incq	%rdi
	cmpq	%rdi, %r11
	jne	.LBB4_29
	testq	%r8, %r8
	je	.LBB4_15
	xorl	%r11d, %r11d
	xorl	%esi, %esi
.LBB4_34:
	movzbl	(%r10,%rsi), %ebx
	addb	$-48, %bl
	cmpb	$9, %bl
	ja	.LBB4_15
	leaq	(%r11,%r11,4), %r11
	movzbl	%bl, %edi
	leaq	(%rdi,%r11,2), %r11
	cmpq	$2147483647, %r11
	ja	.LBB4_15
	incq	%rsi
	cmpq	%rsi, %r8
	jne	.LBB4_34
	movl	$1, (%rcx)
	movl	%eax, 4(%rcx)
	movl	%edx, 8(%rcx)
	movl	%r9d, 12(%rcx)
	movl	%r11d, 16(%rcx)
	popq	%rbx
	popq	%rdi
	popq	%rsi
	retq
.LBB4_15:
	xorps	%xmm0, %xmm0
	movups	%xmm0, (%rcx)
	movl	$0, 16(%rcx)
	popq	%rbx
	popq	%rdi
	popq	%rsi
	retq

	.section	".text$pix_script::number::color","xr"
	.p2align	4
"pix_script::number::color":
	pushq	%rsi
	pushq	%rdi
	pushq	%rbx
	cmpq	$8, %r8
	jne	.LBB5_20
	movzbl	(%rdx), %r10d
	cmpb	$48, %r10b
	jb	.LBB5_20
	movzbl	1(%rdx), %edi
	movzbl	2(%rdx), %r11d
	movzbl	3(%rdx), %esi
	movzbl	4(%rdx), %r8d
	movzbl	5(%rdx), %r9d
	movzbl	6(%rdx), %eax
	movzbl	7(%rdx), %edx
	cmpb	$57, %r10b
	ja	.LBB5_4
	addb	$-48, %r10b
.LBB5_9:
	cmpb	$48, %dil
	jb	.LBB5_20
	cmpb	$57, %dil
	ja	.LBB5_12
	addb	$-48, %dil
.LBB5_15:
	cmpb	$48, %r11b
	jb	.LBB5_20
	cmpb	$57, %r11b
	ja	.LBB5_22
	addb	$-48, %r11b
.LBB5_27:
	cmpb	$48, %sil
	jb	.LBB5_20
	cmpb	$57, %sil
	ja	.LBB5_30
	addb	$-48, %sil
.LBB5_35:
	cmpb	$48, %r8b
	jb	.LBB5_20
	cmpb	$57, %r8b
	ja	.LBB5_38
	addb	$-48, %r8b
.LBB5_43:
	cmpb	$48, %r9b
	jb	.LBB5_20
	cmpb	$57, %r9b
	ja	.LBB5_46
	addb	$-48, %r9b
.LBB5_51:
	cmpb	$48, %al
	jb	.LBB5_20
	cmpb	$57, %al
	ja	.LBB5_54
	addb	$-48, %al
.LBB5_59:
	cmpb	$48, %dl
	jb	.LBB5_20
	cmpb	$57, %dl
	ja	.LBB5_62
	addb	$-48, %dl
.LBB5_67:
	shlb	$4, %r10b
	addb	%r10b, %dil
	movzbl	%dil, %r10d
	shlb	$4, %r11b
	addb	%r11b, %sil
	movzbl	%sil, %r11d
	shll	$8, %r11d
	orl	%r10d, %r11d
	shlb	$4, %r8b
	addb	%r8b, %r9b
	movzbl	%r9b, %r8d
	shll	$16, %r8d
	orl	%r11d, %r8d
	shlb	$4, %al
	addb	%dl, %al
	movzbl	%al, %eax
	shll	$24, %eax
	orl	%r8d, %eax
	movb	$1, (%rcx)
	movl	%eax, 1(%rcx)
	popq	%rbx
	popq	%rdi
	popq	%rsi
	retq
.LBB5_4:
	cmpb	$65, %r10b
	jb	.LBB5_20
	cmpb	$70, %r10b
	ja	.LBB5_7
	addb	$-55, %r10b
	jmp	.LBB5_9
.LBB5_12:
	cmpb	$65, %dil
	jb	.LBB5_20
	cmpb	$70, %dil
	ja	.LBB5_18
	addb	$-55, %dil
	jmp	.LBB5_15
.LBB5_7:
	leal	-103(%r10), %ebx
	cmpb	$-6, %bl
	jb	.LBB5_20
	addb	$-87, %r10b
	jmp	.LBB5_9
.LBB5_22:
	cmpb	$65, %r11b
	jb	.LBB5_20
	cmpb	$70, %r11b
	ja	.LBB5_25
	addb	$-55, %r11b
	jmp	.LBB5_27
.LBB5_18:
	leal	-103(%rdi), %ebx
	cmpb	$-6, %bl
	jb	.LBB5_20
	addb	$-87, %dil
	jmp	.LBB5_15
.LBB5_30:
	cmpb	$65, %sil
	jb	.LBB5_20
	cmpb	$70, %sil
	ja	.LBB5_33
	addb	$-55, %sil
	jmp	.LBB5_35
.LBB5_25:
	leal	-103(%r11), %ebx
	cmpb	$-6, %bl
	jb	.LBB5_20
	addb	$-87, %r11b
	jmp	.LBB5_27
.LBB5_38:
	cmpb	$65, %r8b
	jb	.LBB5_20
	cmpb	$70, %r8b
	ja	.LBB5_41
	addb	$-55, %r8b
	jmp	.LBB5_43
.LBB5_33:
	leal	-103(%rsi), %ebx
	cmpb	$-6, %bl
	jb	.LBB5_20
	addb	$-87, %sil
	jmp	.LBB5_35
.LBB5_46:
	cmpb	$65, %r9b
	jb	.LBB5_20
	cmpb	$70, %r9b
	ja	.LBB5_49
	addb	$-55, %r9b
	jmp	.LBB5_51
.LBB5_41:
	leal	-103(%r8), %ebx
	cmpb	$-6, %bl
	jb	.LBB5_20
	addb	$-87, %r8b
	jmp	.LBB5_43
.LBB5_54:
	cmpb	$65, %al
	jb	.LBB5_20
	cmpb	$70, %al
	ja	.LBB5_57
	addb	$-55, %al
	jmp	.LBB5_59
.LBB5_49:
	leal	-103(%r9), %ebx
	cmpb	$-6, %bl
	jb	.LBB5_20
	addb	$-87, %r9b
	jmp	.LBB5_51
.LBB5_62:
	cmpb	$65, %dl
	jb	.LBB5_20
	cmpb	$70, %dl
	ja	.LBB5_65
	addb	$-55, %dl
	jmp	.LBB5_67
.LBB5_57:
	leal	-103(%rax), %ebx
	cmpb	$-6, %bl
	jb	.LBB5_20
	addb	$-87, %al
	jmp	.LBB5_59
.LBB5_65:
	leal	-103(%rdx), %ebx
	cmpb	$-6, %bl
	jae	.LBB5_66
.LBB5_20:
	movb	$0, (%rcx)
	movl	$0, 1(%rcx)
	popq	%rbx
	popq	%rdi
	popq	%rsi
	retq
.LBB5_66:
	addb	$-87, %dl
	jmp	.LBB5_67

	.section	".text$pix_ops::ops::Op::from_name","xr"
	.p2align	4
"pix_ops::ops::Op::from_name":
	pushq	%r15
	pushq	%r14
	pushq	%rsi
	pushq	%rdi
	pushq	%rbx
	subq	$32, %rsp
	movq	%rdx, %rdi
	movq	%rcx, %rbx
	movl	$13, %r14d
	leaq	static.14(%rip), %r15
	jmp	.LBB6_3
.LBB6_1:
	cmpq	%rdi, %rax
	jae	.LBB6_27
	.p2align	4
.LBB6_2:
	incq	%r15
	decq	%r14
	je	.LBB6_29
.LBB6_3:
	movzbl	(%r15), %esi
	movl	$3, %eax
	movb	$1, %dl
	movzbl	%sil, %ecx
	leaq	.LJTI6_0(%rip), %r8
	movslq	(%r8,%rcx,4), %rcx
	addq	%r8, %rcx
	jmpq	*%rcx
.LBB6_4:
	leaq	static.15(%rip), %rcx
	jmp	.LBB6_20
.LBB6_5:
	leaq	static.26(%rip), %rcx
	movl	$5, %eax
	jmp	.LBB6_19
.LBB6_6:
	leaq	static.19(%rip), %rcx
	movl	$6, %eax
	jmp	.LBB6_19
.LBB6_7:
	leaq	static.27(%rip), %rcx
	jmp	.LBB6_13
.LBB6_8:
	leaq	static.24(%rip), %rcx
	movl	$8, %eax
	jmp	.LBB6_19
.LBB6_9:
	leaq	static.17(%rip), %rcx
	jmp	.LBB6_18
.LBB6_10:
	leaq	static.18(%rip), %rcx
	movl	$8, %eax
	jmp	.LBB6_19
.LBB6_11:
	leaq	static.22(%rip), %rcx
	movl	$6, %eax
	jmp	.LBB6_19
.LBB6_12:
	leaq	static.16(%rip), %rcx
.LBB6_13:
	movl	$4, %eax
	jmp	.LBB6_19
.LBB6_14:
	leaq	static.20(%rip), %rcx
	jmp	.LBB6_18
.LBB6_15:
	leaq	static.21(%rip), %rcx
	movl	$5, %eax
	jmp	.LBB6_19
.LBB6_16:
	leaq	static.25(%rip), %rcx
	jmp	.LBB6_20
.LBB6_17:
	leaq	static.23(%rip), %rcx
.LBB6_18:
	movl	$7, %eax
.LBB6_19:
	xorl	%edx, %edx
.LBB6_20:
	cmpq	%rdi, %rax
	jne	.LBB6_2
	testb	%dl, %dl
	je	.LBB6_25
	xorl	%eax, %eax
	.p2align	4
.LBB6_23:
	movzbl	(%rcx,%rax), %edx
	cmpb	(%rbx,%rax), %dl
	jne	.LBB6_1
	incq	%rax
	cmpq	%rax, %rdi
	jne	.LBB6_23
	jmp	.LBB6_27
	.p2align	4
.LBB6_25:
	movl	(%rcx), %eax
	cmpl	(%rbx), %eax
	jne	.LBB6_2
	movq	%rdi, %rdx
	movq	%rbx, %r8
	callq	"core::cmp::slices::groups_equal::<i8,31'core::cmp::numbers::U8PartialEq{}>"
	testb	%al, %al
	je	.LBB6_2
.LBB6_27:
	movb	$1, %al
.LBB6_28:
	movl	%esi, %edx
	addq	$32, %rsp
	popq	%rbx
	popq	%rdi
	popq	%rsi
	popq	%r14
	popq	%r15
	retq
.LBB6_29:
	xorl	%eax, %eax
	xorl	%esi, %esi
	jmp	.LBB6_28
	.section	".rdata$pix_ops::ops::Op::from_name","dr"
	.p2align	2, 0x0
.LJTI6_0:
	.long	.LBB6_4-.LJTI6_0
	.long	.LBB6_12-.LJTI6_0
	.long	.LBB6_9-.LJTI6_0
	.long	.LBB6_10-.LJTI6_0
	.long	.LBB6_6-.LJTI6_0
	.long	.LBB6_14-.LJTI6_0
	.long	.LBB6_15-.LJTI6_0
	.long	.LBB6_11-.LJTI6_0
	.long	.LBB6_17-.LJTI6_0
	.long	.LBB6_8-.LJTI6_0
	.long	.LBB6_16-.LJTI6_0
	.long	.LBB6_5-.LJTI6_0
	.long	.LBB6_7-.LJTI6_0

	.section	".text$core::cmp::slices::groups_equal::<i8,31'core::cmp::numbers::U8PartialEq{}>","xr"
	.p2align	4
"core::cmp::slices::groups_equal::<i8,31'core::cmp::numbers::U8PartialEq{}>":
	cmpq	$8, %rdx
	ja	.LBB7_2
	movd	(%rcx), %xmm0
	pinsrd	$1, -4(%rcx,%rdx), %xmm0
	movd	(%r8), %xmm1
	pinsrd	$1, -4(%r8,%rdx), %xmm1
	movq	%xmm0, %rax
	movq	%xmm1, %rcx
	cmpq	%rcx, %rax
	jmp	.LBB7_16
.LBB7_2:
	cmpq	$32, %rdx
	ja	.LBB7_4
	leaq	-8(%rdx), %rax
	cmpq	$8, %rax
	movl	$8, %r9d
	cmovbq	%rax, %r9
	cmpq	$16, %rax
	movl	$16, %r10d
	cmovbq	%rax, %r10
	movq	(%rcx,%r9), %xmm0
	movq	(%rcx), %xmm1
	punpcklqdq	%xmm0, %xmm1
	movq	(%rcx,%r10), %xmm0
	movq	-8(%rcx,%rdx), %xmm2
	punpcklqdq	%xmm2, %xmm0
	movq	(%r8,%r9), %xmm2
	movq	(%r8), %xmm3
	punpcklqdq	%xmm2, %xmm3
	pxor	%xmm1, %xmm3
	movq	(%r8,%r10), %xmm1
	movq	-8(%r8,%rdx), %xmm2
	punpcklqdq	%xmm2, %xmm1
	pxor	%xmm0, %xmm1
	por	%xmm3, %xmm1
	ptest	%xmm1, %xmm1
	jmp	.LBB7_16
.LBB7_4:
	cmpq	$65, %rdx
	jae	.LBB7_5
	movdqu	(%rcx), %xmm0
	movdqu	16(%rcx), %xmm1
	movdqu	(%r8), %xmm2
	pxor	%xmm0, %xmm2
	movdqu	16(%r8), %xmm0
	pxor	%xmm1, %xmm0
	movdqu	-32(%rcx,%rdx), %xmm1
	movdqu	-16(%rcx,%rdx), %xmm3
	movdqu	-32(%r8,%rdx), %xmm4
	pxor	%xmm1, %xmm4
	por	%xmm2, %xmm4
	movdqu	-16(%r8,%rdx), %xmm1
	pxor	%xmm3, %xmm1
	por	%xmm0, %xmm1
	por	%xmm4, %xmm1
	ptest	%xmm1, %xmm1
	jmp	.LBB7_16
.LBB7_5:
	xorl	%eax, %eax
	movq	%rdx, %r9
	.p2align	4
.LBB7_6:
	movdqu	(%rcx,%rax), %xmm0
	movdqu	16(%rcx,%rax), %xmm1
	movdqu	32(%rcx,%rax), %xmm2
	movdqu	48(%rcx,%rax), %xmm3
	movdqu	(%r8,%rax), %xmm4
	pcmpeqb	%xmm0, %xmm4
	movdqu	16(%r8,%rax), %xmm0
	pcmpeqb	%xmm1, %xmm0
	movdqu	32(%r8,%rax), %xmm1
	pcmpeqb	%xmm2, %xmm1
	pand	%xmm4, %xmm1
	movdqu	48(%r8,%rax), %xmm2
	pcmpeqb	%xmm3, %xmm2
	pand	%xmm0, %xmm2
	pand	%xmm1, %xmm2
	pmovmskb	%xmm2, %r10d
	cmpl	$65535, %r10d
	jne	.LBB7_8
	addq	$64, %rax
	addq	$-64, %r9
	cmpq	$63, %r9
	ja	.LBB7_6
.LBB7_8:
	cmpq	$32, %r9
	jb	.LBB7_15
	movq	%rdx, %r9
	subq	%rax, %r9
	.p2align	4
.LBB7_10:
	movdqu	(%rcx,%rax), %xmm0
	movdqu	16(%rcx,%rax), %xmm1
	movdqu	(%r8,%rax), %xmm2
	pxor	%xmm0, %xmm2
	movdqu	16(%r8,%rax), %xmm0
	pxor	%xmm1, %xmm0
	por	%xmm2, %xmm0
	ptest	%xmm0, %xmm0
	jne	.LBB7_14
	addq	$32, %rax
	addq	$-32, %r9
	cmpq	$32, %r9
	jae	.LBB7_10
	jmp	.LBB7_15
.LBB7_14:
	movb	$1, %al
	cmpq	$31, %r9
	ja	.LBB7_17
.LBB7_15:
	movdqu	-32(%rcx,%rdx), %xmm0
	movdqu	-16(%rcx,%rdx), %xmm1
	movdqu	-32(%r8,%rdx), %xmm2
	pxor	%xmm0, %xmm2
	movdqu	-16(%r8,%rdx), %xmm0
	pxor	%xmm1, %xmm0
	por	%xmm2, %xmm0
	ptest	%xmm0, %xmm0
.LBB7_16:
	setne	%al
.LBB7_17:
	xorb	$1, %al
	retq

	.section	".text$unlikely$std_alloc::vec::Vec::grow_amortized::<#cdd50f0e5dac12a4>","xr"
	.p2align	4
"std_alloc::vec::Vec::grow_amortized::<#cdd50f0e5dac12a4>":
	pushq	%rsi
	pushq	%rdi
	subq	$40, %rsp
	movq	8(%rcx), %rax
	cmpq	$-1, %rax
	je	.LBB8_6
	movq	16(%rcx), %rdx
	cmpq	$4, %rax
	movl	$3, %esi
	cmovaeq	%rax, %rsi
	incq	%rsi
	movq	%rdx, %r9
	shrq	$62, %r9
	leaq	(%rdx,%rdx), %r8
	cmpq	%r8, %rsi
	cmovaq	%rsi, %r8
	testq	%r9, %r9
	cmoveq	%r8, %rsi
	movabsq	$256204778801521550, %r9
	cmpq	%r9, %rsi
	ja	.LBB8_6
	testq	%rdx, %rdx
	je	.LBB8_5
	movq	%rcx, %rdi
	movq	(%rcx), %rcx
	shlq	$2, %rax
	leaq	(%rax,%rax,8), %rdx
	leaq	(,%rsi,4), %rax
	leaq	(%rax,%rax,8), %r8
	movl	$4, %r9d
	callq	rattle_realloc
	testb	$1, %al
	je	.LBB8_6
.LBB8_4:
	movq	%rdx, (%rdi)
	movq	%rsi, 16(%rdi)
	movb	$1, %al
	addq	$40, %rsp
	popq	%rdi
	popq	%rsi
	retq
.LBB8_5:
	movq	%rcx, %rdi
	shlq	$2, %r8
	leaq	(%r8,%r8,8), %rcx
	movl	$4, %edx
	callq	rattle_alloc
	testb	$1, %al
	jne	.LBB8_4
.LBB8_6:
	xorl	%eax, %eax
	addq	$40, %rsp
	popq	%rdi
	popq	%rsi
	retq

	.section	.rdata,"dr"
	.p2align	4, 0x0
.LCPI9_0:
	.byte	255
	.byte	0
	.byte	255
	.byte	0
	.byte	255
	.byte	0
	.byte	255
	.byte	0
	.byte	255
	.byte	0
	.byte	255
	.byte	0
	.byte	255
	.byte	0
	.byte	255
	.byte	0
.LCPI9_1:
	.short	128
	.short	128
	.short	128
	.short	128
	.short	128
	.short	128
	.short	128
	.short	128
.LCPI9_2:
	.zero	16,1
.LCPI9_3:
	.short	128
	.short	128
	.short	128
	.short	128
	.zero	2
	.zero	2
	.zero	2
	.zero	2
.LCPI9_4:
	.long	65536
	.long	16777216
	.long	256
	.long	1
.LCPI9_5:
	.byte	3
	.byte	128
	.byte	3
	.byte	128
	.byte	7
	.byte	128
	.byte	7
	.byte	128
	.byte	11
	.byte	128
	.byte	11
	.byte	128
	.byte	15
	.byte	128
	.byte	15
	.byte	128
.LCPI9_6:
	.byte	3
	.byte	3
	.byte	3
	.byte	3
	.byte	7
	.byte	7
	.byte	7
	.byte	7
	.byte	11
	.byte	11
	.byte	11
	.byte	11
	.byte	15
	.byte	15
	.byte	15
	.byte	15
.LCPI9_7:
	.long	16777216
	.long	65536
	.long	256
	.long	1
.LCPI9_8:
	.byte	0
	.byte	128
	.byte	0
	.byte	128
	.byte	4
	.byte	128
	.byte	4
	.byte	128
	.byte	8
	.byte	128
	.byte	8
	.byte	128
	.byte	12
	.byte	128
	.byte	12
	.byte	128
.LCPI9_9:
	.byte	0
	.byte	0
	.byte	0
	.byte	0
	.byte	4
	.byte	4
	.byte	4
	.byte	4
	.byte	8
	.byte	8
	.byte	8
	.byte	8
	.byte	12
	.byte	12
	.byte	12
	.byte	12
.LCPI9_10:
	.byte	0
	.byte	128
	.byte	128
	.byte	128
	.byte	0
	.byte	128
	.byte	128
	.byte	128
	.byte	0
	.byte	128
	.byte	128
	.byte	128
	.byte	0
	.byte	128
	.byte	128
	.byte	128
.LCPI9_11:
	.short	128
	.short	128
	.zero	2
	.zero	2
	.zero	2
	.zero	2
	.zero	2
	.zero	2
.LCPI9_12:
	.byte	128
	.byte	128
	.byte	128
	.byte	2
	.zero	1
	.zero	1
	.zero	1
	.zero	1
	.zero	1
	.zero	1
	.zero	1
	.zero	1
	.zero	1
	.zero	1
	.zero	1
	.zero	1
.LCPI9_13:
	.quad	2
	.quad	3
.LCPI9_14:
	.byte	0
	.byte	0
	.byte	0
	.byte	0
	.byte	0
	.byte	0
	.byte	0
	.byte	0
	.byte	1
	.byte	0
	.byte	0
	.byte	0
	.byte	0
	.byte	0
	.byte	0
	.byte	0
.LCPI9_15:
	.quad	-9223372036854775808
	.quad	-9223372036854775808
	.section	".text$pix_ops::ops::Op::visit_slice::<#cb634639e69df956>","xr"
	.p2align	4
"pix_ops::ops::Op::visit_slice::<#cb634639e69df956>":
	pushq	%r15
	pushq	%r14
	pushq	%r13
	pushq	%r12
	pushq	%rsi
	pushq	%rdi
	pushq	%rbp
	pushq	%rbx
	subq	$664, %rsp
	movdqa	%xmm15, 640(%rsp)
	movdqa	%xmm14, 624(%rsp)
	movdqa	%xmm13, 608(%rsp)
	movdqa	%xmm12, 592(%rsp)
	movdqa	%xmm11, 576(%rsp)
	movdqa	%xmm10, 560(%rsp)
	movdqa	%xmm9, 544(%rsp)
	movdqa	%xmm8, 528(%rsp)
	movdqa	%xmm7, 512(%rsp)
	movdqa	%xmm6, 496(%rsp)
	movq	%r8, %r12
	movzbl	%cl, %eax
	leaq	.LJTI9_0(%rip), %rcx
	movslq	(%rcx,%rax,4), %rax
	addq	%rcx, %rax
	jmpq	*%rax
.LBB9_1:
	pxor	%xmm0, %xmm0
	movdqa	%xmm0, 432(%rsp)
	movdqa	%xmm0, 416(%rsp)
	movdqa	%xmm0, 400(%rsp)
	movdqa	%xmm0, 384(%rsp)
	movdqa	%xmm0, 368(%rsp)
	movdqa	%xmm0, 352(%rsp)
	movdqa	%xmm0, 336(%rsp)
	movq	$0, 448(%rsp)
	movl	8(%rdx), %edi
	movl	12(%rdx), %eax
	movq	%rax, 112(%rsp)
	movl	16(%rdx), %r15d
	movl	20(%rdx), %eax
	movq	%rax, 80(%rsp)
	movq	24(%rdx), %rax
	movq	%rax, 64(%rsp)
	movq	(%rdx), %rdx
	leaq	336(%rsp), %rcx
	callq	"pix_raster::command::CommandReadDraw::read::<#880fe2ecd02fbeac>"
	movzbl	336(%rsp), %r9d
	movslq	340(%rsp), %rbx
	movslq	344(%rsp), %rax
	movl	348(%rsp), %edx
	movl	352(%rsp), %r11d
	movq	360(%rsp), %rcx
	movq	%rcx, 128(%rsp)
	movq	376(%rsp), %rsi
	movq	384(%rsp), %r14
	movslq	392(%rsp), %rbp
	movslq	396(%rsp), %rcx
	movq	%rcx, 72(%rsp)
	movl	400(%rsp), %r8d
	movl	404(%rsp), %r13d
	movq	408(%rsp), %rcx
	leaq	.LJTI9_13(%rip), %r10
	movslq	(%r10,%r9,4), %r9
	addq	%r10, %r9
	jmpq	*%r9
.LBB9_2:
	testq	%r15, %r15
	je	.LBB9_1189
	movabsq	$4294967296, %rax
	movq	80(%rsp), %r9
	movq	112(%rsp), %r10
	leal	(%r10,%r9), %r8d
	leal	(%rdi,%r15), %ecx
	subq	%rdi, %rcx
	addq	%rax, %rcx
	orq	%rax, %r15
	cmpq	%rcx, %r15
	cmovaeq	%rcx, %r15
	xorl	%edx, %edx
	movq	%r15, %rbx
	subq	%rax, %rbx
	cmovbq	%rdx, %rbx
	subq	%r10, %r8
	addq	%rax, %r8
	orq	%rax, %r9
	cmpq	%r8, %r9
	cmovaeq	%r8, %r9
	movq	%r9, %rbp
	subq	%rax, %rbp
	cmovbq	%rdx, %rbp
	leaq	1(%rax), %rdx
	cmpq	%rdx, %r9
	jb	.LBB9_1189
	movq	%r9, %r10
	movq	64(%rsp), %r9
	leaq	(,%r9,4), %rdi
	cmpq	$1024, %rbx
	jb	.LBB9_7
	xorl	%esi, %esi
.LBB9_6:
	movq	%r12, %rcx
	movq	%rbx, %rdx
	callq	"pix_el::filled::clear_long::<#c0ead2364dd49755>"
	incq	%rsi
	addq	%rdi, %r12
	cmpq	%rbp, %rsi
	jb	.LBB9_6
	jmp	.LBB9_1189
.LBB9_973:
	movq	%r12, 56(%rsp)
	pxor	%xmm0, %xmm0
	movdqa	%xmm0, 432(%rsp)
	movdqa	%xmm0, 416(%rsp)
	movdqa	%xmm0, 400(%rsp)
	movdqa	%xmm0, 384(%rsp)
	movdqa	%xmm0, 368(%rsp)
	movdqa	%xmm0, 352(%rsp)
	movdqa	%xmm0, 336(%rsp)
	movq	$0, 448(%rsp)
	movl	8(%rdx), %r13d
	movl	12(%rdx), %eax
	movq	%rax, 64(%rsp)
	movl	16(%rdx), %r14d
	movl	20(%rdx), %r12d
	movq	24(%rdx), %rax
	movq	%rax, 80(%rsp)
	movq	(%rdx), %rdx
	leaq	336(%rsp), %rcx
	callq	"pix_raster::command::CommandReadDraw::read::<#880fe2ecd02fbeac>"
	movzbl	336(%rsp), %r10d
	movslq	340(%rsp), %rax
	movslq	344(%rsp), %r15
	movl	348(%rsp), %r11d
	movl	352(%rsp), %ecx
	movq	360(%rsp), %r8
	movq	376(%rsp), %rsi
	movslq	392(%rsp), %r9
	movslq	396(%rsp), %rdx
	movl	400(%rsp), %ebx
	movl	404(%rsp), %ebp
	leaq	.LJTI9_2(%rip), %rdi
	movslq	(%rdi,%r10,4), %r10
	addq	%rdi, %r10
	jmpq	*%r10
.LBB9_1056:
	testq	%r14, %r14
	je	.LBB9_1189
	movq	%rsi, %rdi
	shrq	$32, %rdi
	subq	%r13, %rax
	movabsq	$4294967296, %r13
	leaq	(%rax,%r13), %r8
	leaq	(%r9,%r13), %r10
	cmpq	%r8, %r10
	movq	%rdx, %r8
	leaq	(%rax,%r13), %rdx
	cmovbq	%r10, %rdx
	movl	%ebp, 128(%rsp)
	xorl	%ebp, %ebp
	movq	%r13, %r10
	subq	%rdx, %r10
	cmovbq	%rbp, %r10
	orq	%r13, %r14
	leaq	(%rax,%r13), %rdx
	subq	%rdx, %r14
	cmovbq	%rbp, %r14
	movl	%esi, %edx
	orq	%r13, %rdx
	leaq	(%r9,%r13), %rsi
	subq	%rsi, %rdx
	cmovbq	%rbp, %rdx
	cmpl	%r11d, %ebx
	cmovbl	%ebx, %r11d
	cmpq	%r11, %r14
	cmovaeq	%r11, %r14
	cmpq	%r14, %rdx
	cmovbq	%rdx, %r14
	leaq	(%r10,%rax), %r11
	addq	%r14, %rax
	addq	%r10, %r9
	cmpq	%r10, %r14
	cmovbeq	%rbp, %r11
	cmovbeq	%rbp, %rax
	cmovbeq	%rbp, %r9
	subq	64(%rsp), %r15
	leaq	(%r15,%r13), %rdx
	leaq	(%r8,%r13), %rsi
	cmpq	%rdx, %rsi
	movq	%rdx, %rbx
	cmovbq	%rsi, %rbx
	movq	%r13, %r10
	subq	%rbx, %r10
	cmovbq	%rbp, %r10
	orq	%r13, %r12
	subq	%rdx, %r12
	cmovbq	%rbp, %r12
	orq	%r13, %rdi
	subq	%rsi, %rdi
	cmovbq	%rbp, %rdi
	movl	128(%rsp), %edx
	cmpl	%ecx, %edx
	cmovbl	%edx, %ecx
	cmpq	%rcx, %r12
	cmovaeq	%rcx, %r12
	cmpq	%r12, %rdi
	cmovbq	%rdi, %r12
	leaq	(%r10,%r15), %rcx
	addq	%r12, %r15
	addq	%r10, %r8
	cmpq	%r10, %r12
	cmovbeq	%rbp, %rcx
	cmovbeq	%rbp, %r15
	cmovbeq	%rbp, %r8
	movq	%r11, 200(%rsp)
	movq	%rax, 208(%rsp)
	movq	%r9, 216(%rsp)
	movq	%rcx, 224(%rsp)
	movq	%r15, 232(%rsp)
	movq	%r8, 240(%rsp)
	leaq	200(%rsp), %r8
	movq	56(%rsp), %rcx
	movq	80(%rsp), %rdx
	callq	"pix_raster::view::blit_overlap::<#07c05c7fae9ce56d>"
	jmp	.LBB9_1189
.LBB9_340:
	pxor	%xmm0, %xmm0
	movdqa	%xmm0, 432(%rsp)
	movdqa	%xmm0, 416(%rsp)
	movdqa	%xmm0, 400(%rsp)
	movdqa	%xmm0, 384(%rsp)
	movdqa	%xmm0, 368(%rsp)
	movdqa	%xmm0, 352(%rsp)
	movdqa	%xmm0, 336(%rsp)
	movq	$0, 448(%rsp)
	movl	8(%rdx), %esi
	movl	12(%rdx), %eax
	movq	%rax, 112(%rsp)
	movl	16(%rdx), %r15d
	movl	20(%rdx), %eax
	movq	%rax, 64(%rsp)
	movq	24(%rdx), %rax
	movq	%rax, 128(%rsp)
	movq	(%rdx), %rdx
	leaq	336(%rsp), %rcx
	callq	"pix_raster::command::CommandReadDraw::read::<#880fe2ecd02fbeac>"
	movzbl	336(%rsp), %r10d
	movslq	340(%rsp), %rcx
	movslq	344(%rsp), %rbx
	movl	348(%rsp), %r9d
	movl	352(%rsp), %eax
	movq	%rax, 72(%rsp)
	movq	360(%rsp), %rdx
	movq	%rdx, 80(%rsp)
	movq	376(%rsp), %rdi
	movq	384(%rsp), %r8
	movslq	392(%rsp), %rdx
	movslq	396(%rsp), %rbp
	movl	400(%rsp), %r11d
	movl	404(%rsp), %r13d
	movq	408(%rsp), %rax
	leaq	.LJTI9_9(%rip), %r14
	movslq	(%r14,%r10,4), %r10
	addq	%r14, %r10
	jmpq	*%r10
.LBB9_341:
	testq	%r15, %r15
	je	.LBB9_1189
	movabsq	$4294967296, %rax
	movq	64(%rsp), %r9
	movq	112(%rsp), %r10
	leal	(%r10,%r9), %r8d
	leal	(%rsi,%r15), %ecx
	subq	%rsi, %rcx
	addq	%rax, %rcx
	orq	%rax, %r15
	cmpq	%rcx, %r15
	cmovaeq	%rcx, %r15
	xorl	%edx, %edx
	movq	%r15, %rbx
	subq	%rax, %rbx
	cmovbq	%rdx, %rbx
	subq	%r10, %r8
	addq	%rax, %r8
	orq	%rax, %r9
	cmpq	%r8, %r9
	cmovaeq	%r8, %r9
	movq	%r9, %r14
	subq	%rax, %r14
	cmovbq	%rdx, %r14
	leaq	1(%rax), %rdx
	cmpq	%rdx, %r9
	jb	.LBB9_1189
	movq	%r12, %rdi
	movq	%r9, %r10
	movq	128(%rsp), %r9
	leaq	(,%r9,4), %r12
	cmpq	$1024, %rbx
	jb	.LBB9_346
	xorl	%esi, %esi
.LBB9_345:
	movq	%rdi, %rcx
	movq	%rbx, %rdx
	callq	"pix_el::filled::clear_long::<#c0ead2364dd49755>"
	incq	%rsi
	addq	%r12, %rdi
	cmpq	%r14, %rsi
	jb	.LBB9_345
	jmp	.LBB9_1189
.LBB9_1095:
	pxor	%xmm0, %xmm0
	movdqa	%xmm0, 432(%rsp)
	movdqa	%xmm0, 416(%rsp)
	movdqa	%xmm0, 400(%rsp)
	movdqa	%xmm0, 384(%rsp)
	movdqa	%xmm0, 368(%rsp)
	movdqa	%xmm0, 352(%rsp)
	movdqa	%xmm0, 336(%rsp)
	movq	$0, 448(%rsp)
	movl	8(%rdx), %esi
	movl	12(%rdx), %eax
	movq	%rax, 64(%rsp)
	movl	16(%rdx), %r15d
	movl	20(%rdx), %r14d
	movq	24(%rdx), %rax
	movq	%rax, 80(%rsp)
	movq	(%rdx), %rdx
	leaq	336(%rsp), %rcx
	callq	"pix_raster::command::CommandReadDraw::read::<#880fe2ecd02fbeac>"
	movzbl	336(%rsp), %edx
	movslq	340(%rsp), %r13
	movslq	344(%rsp), %rax
	movl	348(%rsp), %r8d
	movl	352(%rsp), %ecx
	movq	%rcx, 112(%rsp)
	movq	360(%rsp), %rcx
	movq	%rcx, 128(%rsp)
	movq	376(%rsp), %r10
	movq	384(%rsp), %rbx
	movslq	392(%rsp), %rbp
	movslq	396(%rsp), %r11
	movl	400(%rsp), %r9d
	movl	404(%rsp), %edi
	movl	%edi, 144(%rsp)
	movq	408(%rsp), %rcx
	leaq	.LJTI9_1(%rip), %rdi
	movslq	(%rdi,%rdx,4), %rdx
	addq	%rdi, %rdx
	jmpq	*%rdx
.LBB9_1096:
	testq	%r15, %r15
	je	.LBB9_1189
	movabsq	$4294967296, %rax
	movq	64(%rsp), %r9
	leal	(%r9,%r14), %r8d
	leal	(%rsi,%r15), %ecx
	subq	%rsi, %rcx
	addq	%rax, %rcx
	orq	%rax, %r15
	cmpq	%rcx, %r15
	cmovaeq	%rcx, %r15
	xorl	%edx, %edx
	movq	%r15, %rbx
	subq	%rax, %rbx
	cmovbq	%rdx, %rbx
	subq	%r9, %r8
	addq	%rax, %r8
	orq	%rax, %r14
	cmpq	%r8, %r14
	cmovaeq	%r8, %r14
	movq	%r14, %rbp
	subq	%rax, %rbp
	cmovbq	%rdx, %rbp
	leaq	1(%rax), %rdx
	cmpq	%rdx, %r14
	jb	.LBB9_1189
	movq	%r12, %rdi
	movq	80(%rsp), %r9
	leaq	(,%r9,4), %r12
	cmpq	$1024, %rbx
	jb	.LBB9_1101
	xorl	%esi, %esi
.LBB9_1100:
	movq	%rdi, %rcx
	movq	%rbx, %rdx
	callq	"pix_el::filled::clear_long::<#c0ead2364dd49755>"
	incq	%rsi
	addq	%r12, %rdi
	cmpq	%rbp, %rsi
	jb	.LBB9_1100
	jmp	.LBB9_1189
.LBB9_792:
	pxor	%xmm0, %xmm0
	movdqa	%xmm0, 432(%rsp)
	movdqa	%xmm0, 416(%rsp)
	movdqa	%xmm0, 400(%rsp)
	movdqa	%xmm0, 384(%rsp)
	movdqa	%xmm0, 368(%rsp)
	movdqa	%xmm0, 352(%rsp)
	movdqa	%xmm0, 336(%rsp)
	movq	$0, 448(%rsp)
	movl	8(%rdx), %esi
	movl	12(%rdx), %eax
	movq	%rax, 112(%rsp)
	movl	16(%rdx), %r15d
	movl	20(%rdx), %eax
	movq	%rax, 64(%rsp)
	movq	24(%rdx), %rax
	movq	%rax, 80(%rsp)
	movq	(%rdx), %rdx
	leaq	336(%rsp), %rcx
	callq	"pix_raster::command::CommandReadDraw::read::<#880fe2ecd02fbeac>"
	movzbl	336(%rsp), %r11d
	movslq	340(%rsp), %rcx
	movslq	344(%rsp), %rax
	movl	348(%rsp), %ebx
	movl	352(%rsp), %edx
	movq	360(%rsp), %r8
	movq	%r8, 128(%rsp)
	movq	376(%rsp), %r13
	movq	384(%rsp), %r10
	movslq	392(%rsp), %r9
	movslq	396(%rsp), %r8
	movq	%r8, 72(%rsp)
	movl	400(%rsp), %ebp
	movl	404(%rsp), %r14d
	movq	408(%rsp), %r8
	leaq	.LJTI9_4(%rip), %rdi
	movslq	(%rdi,%r11,4), %r11
	addq	%rdi, %r11
	jmpq	*%r11
.LBB9_793:
	testq	%r15, %r15
	je	.LBB9_1189
	movabsq	$4294967296, %rax
	movq	64(%rsp), %r9
	movq	112(%rsp), %r10
	leal	(%r10,%r9), %r8d
	leal	(%rsi,%r15), %ecx
	subq	%rsi, %rcx
	addq	%rax, %rcx
	orq	%rax, %r15
	cmpq	%rcx, %r15
	cmovaeq	%rcx, %r15
	xorl	%edx, %edx
	movq	%r15, %rbx
	subq	%rax, %rbx
	cmovbq	%rdx, %rbx
	subq	%r10, %r8
	addq	%rax, %r8
	orq	%rax, %r9
	cmpq	%r8, %r9
	cmovaeq	%r8, %r9
	movq	%r9, %r14
	subq	%rax, %r14
	cmovbq	%rdx, %r14
	leaq	1(%rax), %rdx
	cmpq	%rdx, %r9
	jb	.LBB9_1189
	movq	%r12, %rdi
	movq	%r9, %r10
	movq	80(%rsp), %r9
	leaq	(,%r9,4), %r12
	cmpq	$1024, %rbx
	jb	.LBB9_798
	xorl	%esi, %esi
.LBB9_797:
	movq	%rdi, %rcx
	movq	%rbx, %rdx
	callq	"pix_el::filled::clear_long::<#c0ead2364dd49755>"
	incq	%rsi
	addq	%r12, %rdi
	cmpq	%r14, %rsi
	jb	.LBB9_797
	jmp	.LBB9_1189
.LBB9_159:
	movq	%r12, 56(%rsp)
	pxor	%xmm0, %xmm0
	movdqa	%xmm0, 432(%rsp)
	movdqa	%xmm0, 416(%rsp)
	movdqa	%xmm0, 400(%rsp)
	movdqa	%xmm0, 384(%rsp)
	movdqa	%xmm0, 368(%rsp)
	movdqa	%xmm0, 352(%rsp)
	movdqa	%xmm0, 336(%rsp)
	movq	$0, 448(%rsp)
	movl	8(%rdx), %esi
	movl	12(%rdx), %r14d
	movl	16(%rdx), %r15d
	movl	20(%rdx), %eax
	movq	%rax, 80(%rsp)
	movq	24(%rdx), %rax
	movq	%rax, 64(%rsp)
	movq	(%rdx), %rdx
	leaq	336(%rsp), %rcx
	callq	"pix_raster::command::CommandReadDraw::read::<#880fe2ecd02fbeac>"
	movzbl	336(%rsp), %edi
	movslq	340(%rsp), %r8
	movslq	344(%rsp), %rdx
	movl	348(%rsp), %r11d
	movl	352(%rsp), %eax
	movq	360(%rsp), %rcx
	movq	%rcx, 128(%rsp)
	movq	376(%rsp), %r13
	movq	384(%rsp), %r10
	movslq	392(%rsp), %r9
	movslq	396(%rsp), %rcx
	movq	%rcx, 112(%rsp)
	movl	400(%rsp), %ebx
	movl	404(%rsp), %ebp
	movq	408(%rsp), %rcx
	leaq	.LJTI9_11(%rip), %r12
	movslq	(%r12,%rdi,4), %rdi
	addq	%r12, %rdi
	jmpq	*%rdi
.LBB9_160:
	testq	%r15, %r15
	je	.LBB9_1189
	movabsq	$4294967296, %rax
	movq	80(%rsp), %r9
	leal	(%r14,%r9), %r8d
	leal	(%rsi,%r15), %ecx
	subq	%rsi, %rcx
	addq	%rax, %rcx
	orq	%rax, %r15
	cmpq	%rcx, %r15
	cmovaeq	%rcx, %r15
	xorl	%edx, %edx
	movq	%r15, %rbx
	subq	%rax, %rbx
	cmovbq	%rdx, %rbx
	subq	%r14, %r8
	addq	%rax, %r8
	orq	%rax, %r9
	cmpq	%r8, %r9
	cmovaeq	%r8, %r9
	movq	%r9, %r13
	subq	%rax, %r13
	cmovbq	%rdx, %r13
	leaq	1(%rax), %rdx
	cmpq	%rdx, %r9
	jb	.LBB9_1189
	movq	%r9, %r10
	movq	64(%rsp), %r9
	leaq	(,%r9,4), %r12
	cmpq	$1024, %rbx
	jb	.LBB9_165
	xorl	%esi, %esi
.LBB9_164:
	movq	56(%rsp), %rdi
	movq	%rdi, %rcx
	movq	%rbx, %rdx
	callq	"pix_el::filled::clear_long::<#c0ead2364dd49755>"
	incq	%rsi
	addq	%r12, %rdi
	movq	%rdi, 56(%rsp)
	cmpq	%r13, %rsi
	jb	.LBB9_164
	jmp	.LBB9_1189
.LBB9_249:
	movq	%r12, 56(%rsp)
	pxor	%xmm0, %xmm0
	movdqa	%xmm0, 432(%rsp)
	movdqa	%xmm0, 416(%rsp)
	movdqa	%xmm0, 400(%rsp)
	movdqa	%xmm0, 384(%rsp)
	movdqa	%xmm0, 368(%rsp)
	movdqa	%xmm0, 352(%rsp)
	movdqa	%xmm0, 336(%rsp)
	movq	$0, 448(%rsp)
	movl	8(%rdx), %esi
	movl	12(%rdx), %eax
	movq	%rax, 128(%rsp)
	movl	16(%rdx), %r15d
	movl	20(%rdx), %r14d
	movq	24(%rdx), %rax
	movq	%rax, 64(%rsp)
	movq	(%rdx), %rdx
	leaq	336(%rsp), %rcx
	callq	"pix_raster::command::CommandReadDraw::read::<#880fe2ecd02fbeac>"
	movzbl	336(%rsp), %edi
	movslq	340(%rsp), %rcx
	movslq	344(%rsp), %rbx
	movl	348(%rsp), %r9d
	movl	352(%rsp), %eax
	movq	360(%rsp), %rdx
	movq	%rdx, 80(%rsp)
	movq	376(%rsp), %r13
	movq	384(%rsp), %r8
	movslq	392(%rsp), %rdx
	movslq	396(%rsp), %r10
	movq	%r10, 112(%rsp)
	movl	400(%rsp), %r10d
	movl	404(%rsp), %ebp
	movq	408(%rsp), %r11
	leaq	.LJTI9_10(%rip), %r12
	movslq	(%r12,%rdi,4), %rdi
	addq	%r12, %rdi
	jmpq	*%rdi
.LBB9_250:
	testq	%r15, %r15
	je	.LBB9_1189
	movabsq	$4294967296, %rax
	movq	128(%rsp), %r9
	leal	(%r9,%r14), %r8d
	leal	(%rsi,%r15), %ecx
	subq	%rsi, %rcx
	addq	%rax, %rcx
	orq	%rax, %r15
	cmpq	%rcx, %r15
	cmovaeq	%rcx, %r15
	xorl	%edx, %edx
	movq	%r15, %rbx
	subq	%rax, %rbx
	cmovbq	%rdx, %rbx
	subq	%r9, %r8
	addq	%rax, %r8
	orq	%rax, %r14
	cmpq	%r8, %r14
	cmovaeq	%r8, %r14
	movq	%r14, %r13
	subq	%rax, %r13
	cmovbq	%rdx, %r13
	leaq	1(%rax), %rdx
	cmpq	%rdx, %r14
	jb	.LBB9_1189
	movq	64(%rsp), %r9
	leaq	(,%r9,4), %r12
	cmpq	$1024, %rbx
	jb	.LBB9_255
	xorl	%esi, %esi
.LBB9_254:
	movq	56(%rsp), %rdi
	movq	%rdi, %rcx
	movq	%rbx, %rdx
	callq	"pix_el::filled::clear_long::<#c0ead2364dd49755>"
	incq	%rsi
	addq	%r12, %rdi
	movq	%rdi, 56(%rsp)
	cmpq	%r13, %rsi
	jb	.LBB9_254
	jmp	.LBB9_1189
.LBB9_610:
	pxor	%xmm0, %xmm0
	movdqa	%xmm0, 432(%rsp)
	movdqa	%xmm0, 416(%rsp)
	movdqa	%xmm0, 400(%rsp)
	movdqa	%xmm0, 384(%rsp)
	movdqa	%xmm0, 368(%rsp)
	movdqa	%xmm0, 352(%rsp)
	movdqa	%xmm0, 336(%rsp)
	movq	$0, 448(%rsp)
	movl	8(%rdx), %esi
	movl	12(%rdx), %eax
	movq	%rax, 112(%rsp)
	movl	16(%rdx), %r15d
	movl	20(%rdx), %eax
	movq	%rax, 64(%rsp)
	movq	24(%rdx), %rax
	movq	%rax, 80(%rsp)
	movq	(%rdx), %rdx
	leaq	336(%rsp), %rcx
	callq	"pix_raster::command::CommandReadDraw::read::<#880fe2ecd02fbeac>"
	movzbl	336(%rsp), %r10d
	movslq	340(%rsp), %rcx
	movslq	344(%rsp), %r11
	movl	348(%rsp), %r9d
	movl	352(%rsp), %eax
	movq	%rax, 72(%rsp)
	movq	360(%rsp), %rdx
	movq	%rdx, 128(%rsp)
	movq	376(%rsp), %rbp
	movq	384(%rsp), %r13
	movslq	392(%rsp), %rdx
	movslq	396(%rsp), %r8
	movl	400(%rsp), %ebx
	movl	404(%rsp), %r14d
	movq	408(%rsp), %rax
	leaq	.LJTI9_6(%rip), %rdi
	movslq	(%rdi,%r10,4), %r10
	addq	%rdi, %r10
	jmpq	*%r10
.LBB9_611:
	testq	%r15, %r15
	je	.LBB9_1189
	movabsq	$4294967296, %rax
	movq	64(%rsp), %r9
	movq	112(%rsp), %r10
	leal	(%r10,%r9), %r8d
	leal	(%rsi,%r15), %ecx
	subq	%rsi, %rcx
	addq	%rax, %rcx
	orq	%rax, %r15
	cmpq	%rcx, %r15
	cmovaeq	%rcx, %r15
	xorl	%edx, %edx
	movq	%r15, %rbx
	subq	%rax, %rbx
	cmovbq	%rdx, %rbx
	subq	%r10, %r8
	addq	%rax, %r8
	orq	%rax, %r9
	cmpq	%r8, %r9
	cmovaeq	%r8, %r9
	movq	%r9, %r14
	subq	%rax, %r14
	cmovbq	%rdx, %r14
	leaq	1(%rax), %rdx
	cmpq	%rdx, %r9
	jb	.LBB9_1189
	movq	%r12, %rdi
	movq	%r9, %r10
	movq	80(%rsp), %r9
	leaq	(,%r9,4), %r12
	cmpq	$1024, %rbx
	jb	.LBB9_616
	xorl	%esi, %esi
.LBB9_615:
	movq	%rdi, %rcx
	movq	%rbx, %rdx
	callq	"pix_el::filled::clear_long::<#c0ead2364dd49755>"
	incq	%rsi
	addq	%r12, %rdi
	cmpq	%r14, %rsi
	jb	.LBB9_615
	jmp	.LBB9_1189
.LBB9_109:
	movq	%r12, 56(%rsp)
	pxor	%xmm0, %xmm0
	movdqa	%xmm0, 432(%rsp)
	movdqa	%xmm0, 416(%rsp)
	movdqa	%xmm0, 400(%rsp)
	movdqa	%xmm0, 384(%rsp)
	movdqa	%xmm0, 368(%rsp)
	movdqa	%xmm0, 352(%rsp)
	movdqa	%xmm0, 336(%rsp)
	movq	$0, 448(%rsp)
	movl	8(%rdx), %r12d
	movl	12(%rdx), %esi
	movl	16(%rdx), %r14d
	movl	20(%rdx), %r15d
	movq	24(%rdx), %rdi
	movq	(%rdx), %rdx
	leaq	336(%rsp), %rcx
	callq	"pix_raster::command::CommandReadDraw::read::<#880fe2ecd02fbeac>"
	movzbl	336(%rsp), %r9d
	movslq	340(%rsp), %rcx
	movslq	344(%rsp), %rax
	movl	348(%rsp), %ebx
	movl	352(%rsp), %edx
	movq	360(%rsp), %r8
	leaq	.LJTI9_12(%rip), %r10
	movslq	(%r10,%r9,4), %r9
	addq	%r10, %r9
	jmpq	*%r9
.LBB9_110:
	testq	%r14, %r14
	je	.LBB9_1189
	movabsq	$4294967296, %rax
	leal	(%rsi,%r15), %r8d
	leal	(%r12,%r14), %ecx
	subq	%r12, %rcx
	addq	%rax, %rcx
	orq	%rax, %r14
	cmpq	%rcx, %r14
	cmovaeq	%rcx, %r14
	xorl	%edx, %edx
	movq	%r14, %rbx
	subq	%rax, %rbx
	cmovbq	%rdx, %rbx
	subq	%rsi, %r8
	addq	%rax, %r8
	orq	%rax, %r15
	cmpq	%r8, %r15
	cmovaeq	%r8, %r15
	movq	%r15, %r13
	subq	%rax, %r13
	cmovbq	%rdx, %r13
	leaq	1(%rax), %rdx
	cmpq	%rdx, %r15
	jb	.LBB9_1189
	leaq	(,%rdi,4), %r12
	cmpq	$1024, %rbx
	jb	.LBB9_115
	xorl	%esi, %esi
.LBB9_114:
	movq	56(%rsp), %rdi
	movq	%rdi, %rcx
	movq	%rbx, %rdx
	callq	"pix_el::filled::clear_long::<#c0ead2364dd49755>"
	incq	%rsi
	addq	%r12, %rdi
	movq	%rdi, 56(%rsp)
	cmpq	%r13, %rsi
	jb	.LBB9_114
	jmp	.LBB9_1189
.LBB9_430:
	pxor	%xmm0, %xmm0
	movdqa	%xmm0, 432(%rsp)
	movdqa	%xmm0, 416(%rsp)
	movdqa	%xmm0, 400(%rsp)
	movdqa	%xmm0, 384(%rsp)
	movdqa	%xmm0, 368(%rsp)
	movdqa	%xmm0, 352(%rsp)
	movdqa	%xmm0, 336(%rsp)
	movq	$0, 448(%rsp)
	movl	8(%rdx), %esi
	movl	12(%rdx), %eax
	movq	%rax, 128(%rsp)
	movl	16(%rdx), %r15d
	movl	20(%rdx), %ebp
	movq	24(%rdx), %rax
	movq	%rax, 80(%rsp)
	movq	(%rdx), %rdx
	leaq	336(%rsp), %rcx
	callq	"pix_raster::command::CommandReadDraw::read::<#880fe2ecd02fbeac>"
	movzbl	336(%rsp), %r10d
	movslq	340(%rsp), %rcx
	movslq	344(%rsp), %rbx
	movl	348(%rsp), %r9d
	movl	352(%rsp), %eax
	movq	%rax, 112(%rsp)
	movq	360(%rsp), %rdx
	movq	%rdx, 64(%rsp)
	movq	376(%rsp), %r13
	movq	384(%rsp), %r8
	movslq	392(%rsp), %rdx
	movslq	396(%rsp), %r14
	movl	400(%rsp), %r11d
	movl	404(%rsp), %edi
	movl	%edi, 72(%rsp)
	movq	408(%rsp), %rax
	leaq	.LJTI9_8(%rip), %rdi
	movslq	(%rdi,%r10,4), %r10
	addq	%rdi, %r10
	jmpq	*%r10
.LBB9_431:
	testq	%r15, %r15
	je	.LBB9_1189
	movabsq	$4294967296, %rax
	movq	128(%rsp), %r9
	leal	(%r9,%rbp), %r8d
	leal	(%rsi,%r15), %ecx
	subq	%rsi, %rcx
	addq	%rax, %rcx
	orq	%rax, %r15
	cmpq	%rcx, %r15
	cmovaeq	%rcx, %r15
	xorl	%edx, %edx
	movq	%r15, %rbx
	subq	%rax, %rbx
	cmovbq	%rdx, %rbx
	subq	%r9, %r8
	addq	%rax, %r8
	orq	%rax, %rbp
	cmpq	%r8, %rbp
	cmovaeq	%r8, %rbp
	movq	%rbp, %r14
	subq	%rax, %r14
	cmovbq	%rdx, %r14
	leaq	1(%rax), %rdx
	cmpq	%rdx, %rbp
	jb	.LBB9_1189
	movq	%r12, %rdi
	movq	80(%rsp), %r9
	leaq	(,%r9,4), %r12
	cmpq	$1024, %rbx
	jb	.LBB9_436
	xorl	%esi, %esi
.LBB9_435:
	movq	%rdi, %rcx
	movq	%rbx, %rdx
	callq	"pix_el::filled::clear_long::<#c0ead2364dd49755>"
	incq	%rsi
	addq	%r12, %rdi
	cmpq	%r14, %rsi
	jb	.LBB9_435
	jmp	.LBB9_1189
.LBB9_520:
	movq	%r12, 56(%rsp)
	pxor	%xmm0, %xmm0
	movdqa	%xmm0, 432(%rsp)
	movdqa	%xmm0, 416(%rsp)
	movdqa	%xmm0, 400(%rsp)
	movdqa	%xmm0, 384(%rsp)
	movdqa	%xmm0, 368(%rsp)
	movdqa	%xmm0, 352(%rsp)
	movdqa	%xmm0, 336(%rsp)
	movq	$0, 448(%rsp)
	movl	8(%rdx), %esi
	movl	12(%rdx), %ebp
	movl	16(%rdx), %r15d
	movl	20(%rdx), %eax
	movq	%rax, 64(%rsp)
	movq	24(%rdx), %rax
	movq	%rax, 128(%rsp)
	movq	(%rdx), %rdx
	leaq	336(%rsp), %rcx
	callq	"pix_raster::command::CommandReadDraw::read::<#880fe2ecd02fbeac>"
	movzbl	336(%rsp), %r10d
	movslq	340(%rsp), %rcx
	movslq	344(%rsp), %r11
	movl	348(%rsp), %eax
	movl	352(%rsp), %edx
	movq	%rdx, 112(%rsp)
	movq	360(%rsp), %rdx
	movq	%rdx, 80(%rsp)
	movq	376(%rsp), %rbx
	movq	384(%rsp), %r13
	movslq	392(%rsp), %rdx
	movslq	396(%rsp), %r8
	movq	%r8, 72(%rsp)
	movl	400(%rsp), %edi
	movl	404(%rsp), %r8d
	movq	408(%rsp), %r12
	leaq	.LJTI9_7(%rip), %r14
	movslq	(%r14,%r10,4), %r10
	addq	%r14, %r10
	jmpq	*%r10
.LBB9_521:
	testq	%r15, %r15
	je	.LBB9_1189
	movabsq	$4294967296, %rax
	movq	64(%rsp), %r9
	leal	(%r9,%rbp), %r8d
	leal	(%rsi,%r15), %ecx
	subq	%rsi, %rcx
	addq	%rax, %rcx
	orq	%rax, %r15
	cmpq	%rcx, %r15
	cmovaeq	%rcx, %r15
	xorl	%edx, %edx
	movq	%r15, %rbx
	subq	%rax, %rbx
	cmovbq	%rdx, %rbx
	subq	%rbp, %r8
	addq	%rax, %r8
	orq	%rax, %r9
	cmpq	%r8, %r9
	cmovaeq	%r8, %r9
	movq	%r9, %r13
	subq	%rax, %r13
	cmovbq	%rdx, %r13
	leaq	1(%rax), %rdx
	cmpq	%rdx, %r9
	jb	.LBB9_1189
	movq	%r9, %r10
	movq	128(%rsp), %r9
	leaq	(,%r9,4), %r12
	cmpq	$1024, %rbx
	jb	.LBB9_526
	xorl	%esi, %esi
.LBB9_525:
	movq	56(%rsp), %rdi
	movq	%rdi, %rcx
	movq	%rbx, %rdx
	callq	"pix_el::filled::clear_long::<#c0ead2364dd49755>"
	incq	%rsi
	addq	%r12, %rdi
	movq	%rdi, 56(%rsp)
	cmpq	%r13, %rsi
	jb	.LBB9_525
	jmp	.LBB9_1189
.LBB9_883:
	pxor	%xmm0, %xmm0
	movdqa	%xmm0, 432(%rsp)
	movdqa	%xmm0, 416(%rsp)
	movdqa	%xmm0, 400(%rsp)
	movdqa	%xmm0, 384(%rsp)
	movdqa	%xmm0, 368(%rsp)
	movdqa	%xmm0, 352(%rsp)
	movdqa	%xmm0, 336(%rsp)
	movq	$0, 448(%rsp)
	movl	8(%rdx), %esi
	movl	12(%rdx), %eax
	movq	%rax, 112(%rsp)
	movl	16(%rdx), %r15d
	movl	20(%rdx), %eax
	movq	%rax, 64(%rsp)
	movq	24(%rdx), %rax
	movq	%rax, 80(%rsp)
	movq	(%rdx), %rdx
	leaq	336(%rsp), %rcx
	callq	"pix_raster::command::CommandReadDraw::read::<#880fe2ecd02fbeac>"
	movzbl	336(%rsp), %r11d
	movslq	340(%rsp), %rcx
	movslq	344(%rsp), %rax
	movl	348(%rsp), %ebx
	movl	352(%rsp), %edx
	movq	360(%rsp), %r8
	movq	%r8, 128(%rsp)
	movq	376(%rsp), %r13
	movq	384(%rsp), %r10
	movslq	392(%rsp), %r9
	movslq	396(%rsp), %r8
	movq	%r8, 72(%rsp)
	movl	400(%rsp), %ebp
	movl	404(%rsp), %r14d
	movq	408(%rsp), %r8
	leaq	.LJTI9_3(%rip), %rdi
	movslq	(%rdi,%r11,4), %r11
	addq	%rdi, %r11
	jmpq	*%r11
.LBB9_884:
	testq	%r15, %r15
	je	.LBB9_1189
	movabsq	$4294967296, %rax
	movq	64(%rsp), %r9
	movq	112(%rsp), %r10
	leal	(%r10,%r9), %r8d
	leal	(%rsi,%r15), %ecx
	subq	%rsi, %rcx
	addq	%rax, %rcx
	orq	%rax, %r15
	cmpq	%rcx, %r15
	cmovaeq	%rcx, %r15
	xorl	%edx, %edx
	movq	%r15, %rbx
	subq	%rax, %rbx
	cmovbq	%rdx, %rbx
	subq	%r10, %r8
	addq	%rax, %r8
	orq	%rax, %r9
	cmpq	%r8, %r9
	cmovaeq	%r8, %r9
	movq	%r9, %r14
	subq	%rax, %r14
	cmovbq	%rdx, %r14
	leaq	1(%rax), %rdx
	cmpq	%rdx, %r9
	jb	.LBB9_1189
	movq	%r12, %rdi
	movq	%r9, %r10
	movq	80(%rsp), %r9
	leaq	(,%r9,4), %r12
	cmpq	$1024, %rbx
	jb	.LBB9_889
	xorl	%esi, %esi
.LBB9_888:
	movq	%rdi, %rcx
	movq	%rbx, %rdx
	callq	"pix_el::filled::clear_long::<#c0ead2364dd49755>"
	incq	%rsi
	addq	%r12, %rdi
	cmpq	%r14, %rsi
	jb	.LBB9_888
	jmp	.LBB9_1189
.LBB9_700:
	pxor	%xmm0, %xmm0
	movdqa	%xmm0, 432(%rsp)
	movdqa	%xmm0, 416(%rsp)
	movdqa	%xmm0, 400(%rsp)
	movdqa	%xmm0, 384(%rsp)
	movdqa	%xmm0, 368(%rsp)
	movdqa	%xmm0, 352(%rsp)
	movdqa	%xmm0, 336(%rsp)
	movq	$0, 448(%rsp)
	movl	8(%rdx), %esi
	movl	12(%rdx), %eax
	movq	%rax, 112(%rsp)
	movl	16(%rdx), %r15d
	movl	20(%rdx), %eax
	movq	%rax, 80(%rsp)
	movq	24(%rdx), %rax
	movq	%rax, 64(%rsp)
	movq	(%rdx), %rdx
	leaq	336(%rsp), %rcx
	callq	"pix_raster::command::CommandReadDraw::read::<#880fe2ecd02fbeac>"
	movzbl	336(%rsp), %r11d
	movslq	340(%rsp), %r9
	movslq	344(%rsp), %rax
	movl	348(%rsp), %ebx
	movl	352(%rsp), %ecx
	movq	%rcx, 72(%rsp)
	movq	360(%rsp), %rcx
	movq	%rcx, 128(%rsp)
	movq	376(%rsp), %r13
	movq	384(%rsp), %rcx
	movslq	392(%rsp), %r8
	movslq	396(%rsp), %r14
	movl	400(%rsp), %ebp
	movl	404(%rsp), %r10d
	movq	408(%rsp), %rdx
	leaq	.LJTI9_5(%rip), %rdi
	movslq	(%rdi,%r11,4), %r11
	addq	%rdi, %r11
	jmpq	*%r11
.LBB9_701:
	testq	%r15, %r15
	je	.LBB9_1189
	movabsq	$4294967296, %rax
	movq	80(%rsp), %r9
	movq	112(%rsp), %r10
	leal	(%r10,%r9), %r8d
	leal	(%rsi,%r15), %ecx
	subq	%rsi, %rcx
	addq	%rax, %rcx
	orq	%rax, %r15
	cmpq	%rcx, %r15
	cmovaeq	%rcx, %r15
	xorl	%edx, %edx
	movq	%r15, %rbx
	subq	%rax, %rbx
	cmovbq	%rdx, %rbx
	subq	%r10, %r8
	addq	%rax, %r8
	orq	%rax, %r9
	cmpq	%r8, %r9
	cmovaeq	%r8, %r9
	movq	%r9, %r14
	subq	%rax, %r14
	cmovbq	%rdx, %r14
	leaq	1(%rax), %rdx
	cmpq	%rdx, %r9
	jb	.LBB9_1189
	movq	%r12, %rdi
	movq	%r9, %r10
	movq	64(%rsp), %r9
	leaq	(,%r9,4), %r12
	cmpq	$1024, %rbx
	jb	.LBB9_706
	xorl	%esi, %esi
.LBB9_705:
	movq	%rdi, %rcx
	movq	%rbx, %rdx
	callq	"pix_el::filled::clear_long::<#c0ead2364dd49755>"
	incq	%rsi
	addq	%r12, %rdi
	cmpq	%r14, %rsi
	jb	.LBB9_705
	jmp	.LBB9_1189
.LBB9_406:
	testq	%r15, %r15
	je	.LBB9_1189
	movq	%r8, 176(%rsp)
	movl	%r13d, 144(%rsp)
	movq	%rdi, %r13
	shrq	$32, %r13
	subq	%rsi, %rcx
	movabsq	$4294967296, %rsi
	leaq	(%rcx,%rsi), %r8
	leaq	(%rdx,%rsi), %rax
	cmpq	%r8, %rax
	cmovbq	%rax, %r8
	xorl	%r10d, %r10d
	movq	%rsi, %r14
	subq	%r8, %r14
	cmovbq	%r10, %r14
	orq	%rsi, %r15
	leaq	(%rcx,%rsi), %r8
	subq	%r8, %r15
	cmovbq	%r10, %r15
	movl	%edi, %r8d
	orq	%rsi, %r8
	subq	%rax, %r8
	cmovbq	%r10, %r8
	cmpl	%r9d, %r11d
	cmovbl	%r11d, %r9d
	cmpq	%r9, %r15
	cmovaeq	%r9, %r15
	cmpq	%r15, %r8
	cmovbq	%r8, %r15
	leaq	(%r14,%rcx), %r9
	addq	%r15, %rcx
	addq	%r14, %rdx
	cmpq	%r14, %r15
	cmovbeq	%r10, %r9
	cmovbeq	%r10, %rcx
	cmovbeq	%r10, %rdx
	subq	112(%rsp), %rbx
	leaq	(%rbx,%rsi), %r8
	leaq	(%rsi,%rbp), %rdi
	cmpq	%r8, %rdi
	movq	%r8, %r14
	cmovbq	%rdi, %r14
	movq	%rsi, %r11
	subq	%r14, %r11
	cmovbq	%r10, %r11
	movq	64(%rsp), %r14
	orq	%rsi, %r14
	subq	%r8, %r14
	cmovbq	%r10, %r14
	orq	%rsi, %r13
	subq	%rdi, %r13
	cmovbq	%r10, %r13
	movq	72(%rsp), %rax
	movl	144(%rsp), %r8d
	cmpl	%eax, %r8d
	cmovbl	%r8d, %eax
	cmpq	%rax, %r14
	cmovaeq	%rax, %r14
	cmpq	%r14, %r13
	cmovbq	%r13, %r14
	leaq	(%r11,%rbx), %rax
	addq	%r14, %rbx
	addq	%r11, %rbp
	cmpq	%r11, %r14
	cmovbeq	%r10, %rax
	cmovbeq	%r10, %rbx
	cmovbeq	%r10, %rbp
	movq	%r9, 200(%rsp)
	movq	%rcx, 208(%rsp)
	movq	%rdx, 216(%rsp)
	movq	%rax, 224(%rsp)
	movq	%rbx, 232(%rsp)
	movq	%rbp, 240(%rsp)
	leaq	200(%rsp), %rax
	movq	%rax, 32(%rsp)
	movq	%r12, %rcx
	movq	128(%rsp), %rdx
	movq	80(%rsp), %r8
	movq	176(%rsp), %r9
	callq	"pix_raster::view::blit_overlap::<#1a9768a07824da26>"
	jmp	.LBB9_1189
.LBB9_1165:
	testq	%r15, %r15
	je	.LBB9_1189
	movq	%r10, %rdi
	shrq	$32, %rdi
	subq	%rsi, %r13
	movabsq	$4294967296, %rsi
	movq	%r14, %rcx
	leaq	(%rsi,%r13), %r14
	leaq	(%rsi,%rbp), %rdx
	cmpq	%r14, %rdx
	movq	%rbx, 176(%rsp)
	movq	%r14, %rbx
	cmovbq	%rdx, %rbx
	xorl	%edx, %edx
	movq	%r12, 56(%rsp)
	movq	%rsi, %r12
	subq	%rbx, %r12
	cmovbq	%rdx, %r12
	orq	%rsi, %r15
	subq	%r14, %r15
	cmovbq	%rdx, %r15
	movl	%r10d, %r10d
	orq	%rsi, %r10
	leaq	(%rsi,%rbp), %rbx
	subq	%rbx, %r10
	cmovbq	%rdx, %r10
	cmpl	%r8d, %r9d
	cmovbl	%r9d, %r8d
	cmpq	%r8, %r15
	cmovaeq	%r8, %r15
	cmpq	%r15, %r10
	cmovbq	%r10, %r15
	leaq	(%r12,%r13), %r8
	addq	%r15, %r13
	addq	%r12, %rbp
	cmpq	%r12, %r15
	cmovbeq	%rdx, %r8
	cmovbeq	%rdx, %r13
	cmovbeq	%rdx, %rbp
	subq	64(%rsp), %rax
	leaq	(%rax,%rsi), %r10
	movq	%r11, %r15
	leaq	(%r11,%rsi), %rbx
	cmpq	%r10, %rbx
	movq	%r10, %r14
	cmovbq	%rbx, %r14
	movq	%rsi, %r9
	subq	%r14, %r9
	cmovbq	%rdx, %r9
	orq	%rsi, %rcx
	subq	%r10, %rcx
	cmovbq	%rdx, %rcx
	orq	%rsi, %rdi
	subq	%rbx, %rdi
	cmovbq	%rdx, %rdi
	movl	144(%rsp), %r10d
	movq	112(%rsp), %r11
	cmpl	%r11d, %r10d
	cmovbl	%r10d, %r11d
	cmpq	%r11, %rcx
	cmovaeq	%r11, %rcx
	cmpq	%rcx, %rdi
	cmovbq	%rdi, %rcx
	leaq	(%r9,%rax), %r10
	addq	%rcx, %rax
	movq	%r15, %r11
	addq	%r9, %r11
	cmpq	%r9, %rcx
	cmovbeq	%rdx, %r10
	cmovbeq	%rdx, %rax
	cmovbeq	%rdx, %r11
	movq	%r8, 200(%rsp)
	movq	%r13, 208(%rsp)
	movq	%rbp, 216(%rsp)
	movq	%r10, 224(%rsp)
	movq	%rax, 232(%rsp)
	movq	%r11, 240(%rsp)
	leaq	200(%rsp), %rax
	movq	%rax, 32(%rsp)
	movq	56(%rsp), %rcx
	movq	80(%rsp), %rdx
	movq	128(%rsp), %r8
	movq	176(%rsp), %r9
	callq	"pix_raster::view::blit_overlap::<#38bb87c9d91cb462>"
	jmp	.LBB9_1189
.LBB9_1021:
	testq	%r14, %r14
	je	.LBB9_1189
	movl	%ebp, 128(%rsp)
	movq	%rsi, %rbp
	shrq	$32, %rbp
	subq	%r13, %rax
	movabsq	$4294967296, %r13
	leaq	(%rax,%r13), %rdi
	leaq	(%r9,%r13), %r10
	cmpq	%rdi, %r10
	movq	%rdx, %rdi
	leaq	(%rax,%r13), %rdx
	cmovbq	%r10, %rdx
	movq	%r13, %r10
	subq	%rdx, %r10
	movl	$0, %edx
	cmovbq	%rdx, %r10
	orq	%r13, %r14
	leaq	(%rax,%r13), %rdx
	subq	%rdx, %r14
	movl	$0, %edx
	cmovbq	%rdx, %r14
	movl	%esi, %edx
	orq	%r13, %rdx
	leaq	(%r9,%r13), %rsi
	subq	%rsi, %rdx
	movl	$0, %esi
	cmovbq	%rsi, %rdx
	cmpl	%r11d, %ebx
	cmovbl	%ebx, %r11d
	cmpq	%r11, %r14
	cmovaeq	%r11, %r14
	cmpq	%r14, %rdx
	cmovbq	%rdx, %r14
	leaq	(%r10,%rax), %r11
	addq	%r14, %rax
	addq	%r10, %r9
	cmpq	%r10, %r14
	movl	$0, %edx
	cmovbeq	%rdx, %r11
	cmovbeq	%rdx, %rax
	cmovbeq	%rdx, %r9
	xorl	%r14d, %r14d
	subq	64(%rsp), %r15
	leaq	(%r15,%r13), %rdx
	leaq	(%rdi,%r13), %rsi
	cmpq	%rdx, %rsi
	movq	%rdx, %rbx
	cmovbq	%rsi, %rbx
	movq	%r13, %r10
	subq	%rbx, %r10
	cmovbq	%r14, %r10
	orq	%r13, %r12
	subq	%rdx, %r12
	cmovbq	%r14, %r12
	orq	%r13, %rbp
	subq	%rsi, %rbp
	cmovbq	%r14, %rbp
	movl	128(%rsp), %edx
	cmpl	%ecx, %edx
	cmovbl	%edx, %ecx
	cmpq	%rcx, %r12
	cmovaeq	%rcx, %r12
	cmpq	%r12, %rbp
	cmovbq	%rbp, %r12
	leaq	(%r10,%r15), %rcx
	addq	%r12, %r15
	addq	%r10, %rdi
	cmpq	%r10, %r12
	cmovbeq	%r14, %rcx
	cmovbeq	%r14, %r15
	cmovbeq	%r14, %rdi
	movq	%r11, 200(%rsp)
	movq	%rax, 208(%rsp)
	movq	%r9, 216(%rsp)
	movq	%rcx, 224(%rsp)
	movq	%r15, 232(%rsp)
	movq	%rdi, 240(%rsp)
	movq	384(%rsp), %r9
	leaq	200(%rsp), %rax
	movq	%rax, 32(%rsp)
	movq	56(%rsp), %rcx
	movq	80(%rsp), %rdx
	callq	"pix_raster::view::blit_overlap::<#93a319759576dea8>"
	jmp	.LBB9_1189
.LBB9_859:
	testq	%r15, %r15
	je	.LBB9_1189
	movq	%r13, %rdi
	shrq	$32, %rdi
	subq	%rsi, %rcx
	movabsq	$4294967296, %rsi
	movl	%r14d, 176(%rsp)
	leaq	(%rcx,%rsi), %r14
	leaq	(%r9,%rsi), %r8
	cmpq	%r14, %r8
	movq	%r10, 144(%rsp)
	movq	%r14, %r10
	cmovbq	%r8, %r10
	xorl	%r11d, %r11d
	movq	%r12, 56(%rsp)
	movq	%rsi, %r12
	subq	%r10, %r12
	cmovbq	%r11, %r12
	orq	%rsi, %r15
	subq	%r14, %r15
	cmovbq	%r11, %r15
	movl	%r13d, %r10d
	orq	%rsi, %r10
	subq	%r8, %r10
	cmovbq	%r11, %r10
	cmpl	%ebx, %ebp
	cmovbl	%ebp, %ebx
	cmpq	%rbx, %r15
	cmovaeq	%rbx, %r15
	cmpq	%r15, %r10
	cmovbq	%r10, %r15
	leaq	(%r12,%rcx), %rbx
	addq	%r15, %rcx
	addq	%r12, %r9
	cmpq	%r12, %r15
	cmovbeq	%r11, %rbx
	cmovbeq	%r11, %rcx
	cmovbeq	%r11, %r9
	subq	112(%rsp), %rax
	leaq	(%rax,%rsi), %r10
	movq	72(%rsp), %r8
	leaq	(%r8,%rsi), %r15
	cmpq	%r10, %r15
	movq	%r10, %r12
	cmovbq	%r15, %r12
	movq	%rsi, %r14
	subq	%r12, %r14
	cmovbq	%r11, %r14
	movq	64(%rsp), %r12
	orq	%rsi, %r12
	subq	%r10, %r12
	cmovbq	%r11, %r12
	orq	%rsi, %rdi
	subq	%r15, %rdi
	cmovbq	%r11, %rdi
	movl	176(%rsp), %r10d
	cmpl	%edx, %r10d
	cmovbl	%r10d, %edx
	cmpq	%rdx, %r12
	cmovaeq	%rdx, %r12
	cmpq	%r12, %rdi
	cmovbq	%rdi, %r12
	leaq	(%r14,%rax), %rdx
	addq	%r12, %rax
	addq	%r14, %r8
	cmpq	%r14, %r12
	cmovbeq	%r11, %rdx
	cmovbeq	%r11, %rax
	cmovbeq	%r11, %r8
	movq	%rbx, 200(%rsp)
	movq	%rcx, 208(%rsp)
	movq	%r9, 216(%rsp)
	movq	%rdx, 224(%rsp)
	movq	%rax, 232(%rsp)
	movq	%r8, 240(%rsp)
	leaq	200(%rsp), %rax
	movq	%rax, 32(%rsp)
	movq	56(%rsp), %rcx
	movq	80(%rsp), %rdx
	movq	128(%rsp), %r8
	movq	144(%rsp), %r9
	callq	"pix_raster::view::blit_overlap::<#168afd1b974e4a32>"
	jmp	.LBB9_1189
.LBB9_1058:
	testq	%r14, %r14
	je	.LBB9_1189
	movq	424(%rsp), %r8
	movq	%r8, 144(%rsp)
	movslq	440(%rsp), %r10
	movq	%rsi, %rdi
	shrq	$32, %rdi
	movq	%rcx, 72(%rsp)
	movq	%r8, %rcx
	shrq	$32, %rcx
	subq	%r13, %rax
	movabsq	$4294967296, %r13
	addq	%r13, %r9
	addq	%r13, %r10
	leaq	(%rax,%r13), %r8
	cmpq	%r8, %r9
	movq	%rdx, 112(%rsp)
	movq	%r8, %rdx
	cmovbq	%r9, %rdx
	cmpq	%rdx, %r10
	cmovbq	%r10, %rdx
	movl	%ebp, 128(%rsp)
	movq	%r13, %rbp
	subq	%rdx, %rbp
	movl	$0, %edx
	cmovbq	%rdx, %rbp
	orq	%r13, %r14
	subq	%r8, %r14
	cmovbq	%rdx, %r14
	xorl	%r8d, %r8d
	movl	%esi, %esi
	orq	%r13, %rsi
	subq	%r9, %rsi
	movl	144(%rsp), %edx
	cmovbq	%r8, %rsi
	orq	%r13, %rdx
	subq	%r10, %rdx
	cmovbq	%r8, %rdx
	cmpl	%r11d, %ebx
	cmovbl	%ebx, %r11d
	movl	448(%rsp), %r9d
	cmpl	%r11d, %r9d
	cmovbl	%r9d, %r11d
	cmpq	%r11, %r14
	cmovaeq	%r11, %r14
	cmpq	%r14, %rsi
	cmovbq	%rsi, %r14
	cmpq	%r14, %rdx
	cmovbq	%rdx, %r14
	leaq	(%rax,%rbp), %rsi
	addq	%r14, %rax
	cmpq	%rbp, %r14
	movl	$0, %edx
	cmovbeq	%rdx, %rsi
	movslq	444(%rsp), %r10
	cmovbeq	%rdx, %rax
	xorl	%ebx, %ebx
	subq	64(%rsp), %r15
	leaq	(%r15,%r13), %rdx
	movq	112(%rsp), %r9
	addq	%r13, %r9
	addq	%r13, %r10
	cmpq	%rdx, %r9
	movq	%rdx, %r11
	cmovbq	%r9, %r11
	movq	%r9, %r14
	cmpq	%r11, %r10
	cmovbq	%r10, %r11
	movq	%r13, %r9
	subq	%r11, %r9
	cmovbq	%rbx, %r9
	orq	%r13, %r12
	subq	%rdx, %r12
	cmovbq	%rbx, %r12
	orq	%r13, %rdi
	subq	%r14, %rdi
	cmovbq	%rbx, %rdi
	orq	%r13, %rcx
	subq	%r10, %rcx
	cmovbq	%rbx, %rcx
	movl	128(%rsp), %edx
	movq	72(%rsp), %r8
	cmpl	%r8d, %edx
	cmovbl	%edx, %r8d
	movl	452(%rsp), %edx
	cmpl	%r8d, %edx
	cmovbl	%edx, %r8d
	cmpq	%r8, %r12
	cmovaeq	%r8, %r12
	cmpq	%r12, %rdi
	cmovbq	%rdi, %r12
	cmpq	%r12, %rcx
	cmovbq	%rcx, %r12
	leaq	(%r9,%r15), %rbp
	addq	%r12, %r15
	cmpq	%r9, %r12
	cmovbeq	%rbx, %rbp
	cmovbeq	%rbx, %r15
	movq	%r15, %rdi
	subq	%rbp, %rdi
	jbe	.LBB9_1189
	movq	%rax, %rbx
	subq	%rsi, %rbx
	cmpq	$1024, %rbx
	jb	.LBB9_1063
	movq	80(%rsp), %r14
	imulq	%r14, %rbp
	addq	%rbp, %rsi
	movq	56(%rsp), %rax
	leaq	(%rax,%rsi,4), %rsi
	shlq	$2, %r14
.LBB9_1062:
	movq	%rsi, %rcx
	movq	%rbx, %rdx
	callq	"pix_el::filled::clear_long::<#c0ead2364dd49755>"
	addq	%r14, %rsi
	decq	%rdi
	jne	.LBB9_1062
	jmp	.LBB9_1189
.LBB9_388:
	testq	%r15, %r15
	je	.LBB9_1189
	movq	%r8, 176(%rsp)
	movl	%r13d, 144(%rsp)
	movq	%rdi, %r13
	shrq	$32, %r13
	subq	%rsi, %rcx
	movabsq	$4294967296, %rsi
	leaq	(%rcx,%rsi), %r8
	leaq	(%rdx,%rsi), %rax
	cmpq	%r8, %rax
	movq	%rbp, %r10
	movq	%r8, %rbp
	cmovbq	%rax, %rbp
	xorl	%eax, %eax
	movq	%rsi, %r14
	subq	%rbp, %r14
	cmovbq	%rax, %r14
	orq	%rsi, %r15
	subq	%r8, %r15
	cmovbq	%rax, %r15
	movl	%edi, %r8d
	orq	%rsi, %r8
	leaq	(%rdx,%rsi), %rdi
	subq	%rdi, %r8
	cmovbq	%rax, %r8
	cmpl	%r9d, %r11d
	cmovbl	%r11d, %r9d
	cmpq	%r9, %r15
	cmovaeq	%r9, %r15
	cmpq	%r15, %r8
	cmovbq	%r8, %r15
	leaq	(%r14,%rcx), %r9
	addq	%r15, %rcx
	addq	%r14, %rdx
	cmpq	%r14, %r15
	movl	$0, %eax
	cmovbeq	%rax, %r9
	cmovbeq	%rax, %rcx
	cmovbeq	%rax, %rdx
	xorl	%r15d, %r15d
	subq	112(%rsp), %rbx
	leaq	(%rbx,%rsi), %r8
	leaq	(%r10,%rsi), %rdi
	cmpq	%r8, %rdi
	movq	%r8, %r14
	cmovbq	%rdi, %r14
	movq	%rsi, %r11
	subq	%r14, %r11
	cmovbq	%r15, %r11
	movq	64(%rsp), %r14
	orq	%rsi, %r14
	subq	%r8, %r14
	cmovbq	%r15, %r14
	orq	%rsi, %r13
	subq	%rdi, %r13
	cmovbq	%r15, %r13
	movq	72(%rsp), %rax
	movl	144(%rsp), %r8d
	cmpl	%eax, %r8d
	cmovbl	%r8d, %eax
	cmpq	%rax, %r14
	cmovaeq	%rax, %r14
	cmpq	%r14, %r13
	cmovbq	%r13, %r14
	leaq	(%r11,%rbx), %rax
	addq	%r14, %rbx
	addq	%r11, %r10
	cmpq	%r11, %r14
	cmovbeq	%r15, %rax
	cmovbeq	%r15, %rbx
	cmovbeq	%r15, %r10
	movq	%r9, 200(%rsp)
	movq	%rcx, 208(%rsp)
	movq	%rdx, 216(%rsp)
	movq	%rax, 224(%rsp)
	movq	%rbx, 232(%rsp)
	movq	%r10, 240(%rsp)
	leaq	200(%rsp), %rax
	movq	%rax, 32(%rsp)
	movq	%r12, %rcx
	movq	128(%rsp), %rdx
	movq	80(%rsp), %r8
	movq	176(%rsp), %r9
	callq	"pix_raster::view::blit_overlap::<#93a319759576dea8>"
	jmp	.LBB9_1189
.LBB9_225:
	testq	%r15, %r15
	je	.LBB9_1189
	movq	%r13, %rdi
	shrq	$32, %rdi
	subq	%rsi, %r8
	movl	%ebp, 144(%rsp)
	movabsq	$4294967296, %rbp
	leaq	(%r8,%rbp), %rsi
	leaq	(%r9,%rbp), %rcx
	cmpq	%rsi, %rcx
	movq	%r10, 72(%rsp)
	movq	%rsi, %r10
	cmovbq	%rcx, %r10
	xorl	%esi, %esi
	movq	%rbp, %r12
	subq	%r10, %r12
	cmovbq	%rsi, %r12
	orq	%rbp, %r15
	leaq	(%r8,%rbp), %r10
	subq	%r10, %r15
	cmovbq	%rsi, %r15
	movl	%r13d, %r10d
	orq	%rbp, %r10
	subq	%rcx, %r10
	cmovbq	%rsi, %r10
	cmpl	%r11d, %ebx
	cmovbl	%ebx, %r11d
	cmpq	%r11, %r15
	cmovaeq	%r11, %r15
	cmpq	%r15, %r10
	cmovbq	%r10, %r15
	leaq	(%r12,%r8), %r11
	addq	%r15, %r8
	addq	%r12, %r9
	cmpq	%r12, %r15
	cmovbeq	%rsi, %r11
	cmovbeq	%rsi, %r8
	cmovbeq	%rsi, %r9
	subq	%r14, %rdx
	leaq	(%rdx,%rbp), %r10
	movq	112(%rsp), %rcx
	leaq	(%rcx,%rbp), %r15
	cmpq	%r10, %r15
	movq	%r10, %r12
	cmovbq	%r15, %r12
	movq	%rbp, %rbx
	subq	%r12, %rbx
	cmovbq	%rsi, %rbx
	movq	80(%rsp), %r14
	orq	%rbp, %r14
	subq	%r10, %r14
	cmovbq	%rsi, %r14
	orq	%rbp, %rdi
	subq	%r15, %rdi
	cmovbq	%rsi, %rdi
	movl	144(%rsp), %r10d
	cmpl	%eax, %r10d
	cmovbl	%r10d, %eax
	cmpq	%rax, %r14
	cmovaeq	%rax, %r14
	cmpq	%r14, %rdi
	cmovbq	%rdi, %r14
	leaq	(%rbx,%rdx), %rax
	addq	%r14, %rdx
	addq	%rbx, %rcx
	cmpq	%rbx, %r14
	cmovbeq	%rsi, %rax
	cmovbeq	%rsi, %rdx
	cmovbeq	%rsi, %rcx
	movq	%r11, 200(%rsp)
	movq	%r8, 208(%rsp)
	movq	%r9, 216(%rsp)
	movq	%rax, 224(%rsp)
	movq	%rdx, 232(%rsp)
	movq	%rcx, 240(%rsp)
	leaq	200(%rsp), %rax
	movq	%rax, 32(%rsp)
	movq	56(%rsp), %rcx
	movq	64(%rsp), %rdx
	movq	128(%rsp), %r8
	movq	72(%rsp), %r9
	callq	"pix_raster::view::blit_overlap::<#c30dc3dde8429fd7>"
	jmp	.LBB9_1189
.LBB9_1023:
	testq	%r14, %r14
	je	.LBB9_1189
	subq	%r13, %rax
	movabsq	$4294967296, %r9
	addq	%r9, %rax
	cmpq	%r9, %rax
	movq	%r9, %r8
	cmovaq	%rax, %r8
	movabsq	$-4294967296, %rdx
	addq	%r11, %rax
	orq	%r9, %r14
	cmpq	%rax, %r14
	cmovaeq	%rax, %r14
	leaq	(%r8,%rdx), %r13
	xorl	%eax, %eax
	cmpq	%r8, %r14
	cmovbeq	%rax, %r13
	subq	64(%rsp), %r15
	addq	%r9, %r15
	cmpq	%r9, %r15
	movq	%r9, %r10
	cmovaq	%r15, %r10
	addq	%rcx, %r15
	orq	%r9, %r12
	cmpq	%r15, %r12
	cmovaeq	%r15, %r12
	leaq	(%r10,%rdx), %rbp
	cmpq	%r10, %r12
	cmovbeq	%rax, %rbp
	jbe	.LBB9_1189
	leaq	(%r12,%rdx), %r15
	movq	%r15, %rdi
	subq	%rbp, %rdi
	jbe	.LBB9_1189
	leaq	(%r14,%rdx), %rcx
	xorl	%eax, %eax
	cmpq	%r8, %r14
	cmovaq	%rcx, %rax
	movq	%rax, %r14
	subq	%r13, %r14
	cmpq	$1024, %r14
	jb	.LBB9_1029
	movq	80(%rsp), %rbx
	imulq	%rbx, %rbp
	addq	%rbp, %r13
	movq	56(%rsp), %rax
	leaq	(%rax,%r13,4), %rsi
	shlq	$2, %rbx
.LBB9_1028:
	movq	%rsi, %rcx
	movq	%r14, %rdx
	callq	"pix_el::filled::clear_long::<#c0ead2364dd49755>"
	addq	%rbx, %rsi
	decq	%rdi
	jne	.LBB9_1028
	jmp	.LBB9_1189
.LBB9_1143:
	testq	%r15, %r15
	je	.LBB9_1189
	movq	%r10, %rdi
	shrq	$32, %rdi
	subq	%rsi, %r13
	movabsq	$4294967296, %rsi
	movq	%rbx, 176(%rsp)
	leaq	(%rsi,%r13), %rbx
	leaq	(%rsi,%rbp), %rcx
	cmpq	%rbx, %rcx
	movq	%r11, %rdx
	movq	%r14, %rcx
	movq	%rbx, %r14
	leaq	(%rbp,%rsi), %r11
	cmovbq	%r11, %r14
	xorl	%r11d, %r11d
	movq	%r12, 56(%rsp)
	movq	%rsi, %r12
	subq	%r14, %r12
	cmovbq	%r11, %r12
	orq	%rsi, %r15
	subq	%rbx, %r15
	cmovbq	%r11, %r15
	movl	%r10d, %r10d
	orq	%rsi, %r10
	leaq	(%rsi,%rbp), %rbx
	subq	%rbx, %r10
	cmovbq	%r11, %r10
	cmpl	%r8d, %r9d
	cmovbl	%r9d, %r8d
	cmpq	%r8, %r15
	cmovaeq	%r8, %r15
	cmpq	%r15, %r10
	cmovbq	%r10, %r15
	leaq	(%r12,%r13), %r8
	addq	%r15, %r13
	addq	%r12, %rbp
	cmpq	%r12, %r15
	movl	$0, %r9d
	cmovbeq	%r9, %r8
	cmovbeq	%r9, %r13
	cmovbeq	%r9, %rbp
	xorl	%r15d, %r15d
	subq	64(%rsp), %rax
	leaq	(%rax,%rsi), %r10
	leaq	(%rdx,%rsi), %rbx
	cmpq	%r10, %rbx
	movq	%r10, %r14
	cmovbq	%rbx, %r14
	movq	%rsi, %r9
	subq	%r14, %r9
	cmovbq	%r15, %r9
	orq	%rsi, %rcx
	subq	%r10, %rcx
	cmovbq	%r15, %rcx
	orq	%rsi, %rdi
	subq	%rbx, %rdi
	cmovbq	%r15, %rdi
	movl	144(%rsp), %r10d
	movq	112(%rsp), %r11
	cmpl	%r11d, %r10d
	cmovbl	%r10d, %r11d
	cmpq	%r11, %rcx
	cmovaeq	%r11, %rcx
	cmpq	%rcx, %rdi
	cmovbq	%rdi, %rcx
	leaq	(%r9,%rax), %r10
	addq	%rcx, %rax
	addq	%r9, %rdx
	cmpq	%r9, %rcx
	cmovbeq	%r15, %r10
	cmovbeq	%r15, %rax
	cmovbeq	%r15, %rdx
	movq	%r8, 200(%rsp)
	movq	%r13, 208(%rsp)
	movq	%rbp, 216(%rsp)
	movq	%r10, 224(%rsp)
	movq	%rax, 232(%rsp)
	movq	%rdx, 240(%rsp)
	leaq	200(%rsp), %rax
	movq	%rax, 32(%rsp)
	movq	56(%rsp), %rcx
	movq	80(%rsp), %rdx
	movq	128(%rsp), %r8
	movq	176(%rsp), %r9
	callq	"pix_raster::view::blit_overlap::<#93a319759576dea8>"
	jmp	.LBB9_1189
.LBB9_974:
	testq	%r14, %r14
	je	.LBB9_1189
	movabsq	$4294967296, %rax
	movq	64(%rsp), %r9
	leal	(%r9,%r12), %r8d
	leal	(%r14,%r13), %ecx
	subq	%r13, %rcx
	addq	%rax, %rcx
	orq	%rax, %r14
	cmpq	%rcx, %r14
	cmovaeq	%rcx, %r14
	xorl	%edx, %edx
	movq	%r14, %rbx
	subq	%rax, %rbx
	cmovbq	%rdx, %rbx
	subq	%r9, %r8
	addq	%rax, %r8
	orq	%rax, %r12
	cmpq	%r8, %r12
	cmovaeq	%r8, %r12
	movq	%r12, %rsi
	subq	%rax, %rsi
	cmovbq	%rdx, %rsi
	leaq	1(%rax), %rdx
	cmpq	%rdx, %r12
	jb	.LBB9_1189
	movq	80(%rsp), %r9
	leaq	(,%r9,4), %r13
	cmpq	$1024, %rbx
	jb	.LBB9_979
	xorl	%edi, %edi
.LBB9_978:
	movq	56(%rsp), %r14
	movq	%r14, %rcx
	movq	%rbx, %rdx
	callq	"pix_el::filled::clear_long::<#c0ead2364dd49755>"
	incq	%rdi
	addq	%r13, %r14
	movq	%r14, 56(%rsp)
	cmpq	%rsi, %rdi
	jb	.LBB9_978
	jmp	.LBB9_1189
.LBB9_1011:
	testq	%r14, %r14
	je	.LBB9_1189
	subq	%r13, %rax
	movabsq	$4294967296, %rdx
	addq	%rdx, %rax
	cmpq	%rdx, %rax
	movq	%rdx, %r10
	cmovaq	%rax, %r10
	movabsq	$-4294967296, %r9
	addq	%r11, %rax
	orq	%rdx, %r14
	cmpq	%rax, %r14
	cmovaeq	%rax, %r14
	leaq	(%r10,%r9), %rax
	xorl	%r11d, %r11d
	cmpq	%r10, %r14
	cmovbeq	%r11, %rax
	subq	64(%rsp), %r15
	addq	%rdx, %r15
	cmpq	%rdx, %r15
	movq	%rdx, %rsi
	cmovaq	%r15, %rsi
	addq	%rcx, %r15
	orq	%rdx, %r12
	cmpq	%r15, %r12
	cmovaeq	%r15, %r12
	leaq	(%rsi,%r9), %rcx
	cmpq	%rsi, %r12
	cmovbeq	%r11, %rcx
	jbe	.LBB9_1189
	addq	%r9, %r12
	cmpq	%rcx, %r12
	jbe	.LBB9_1189
	addq	%r14, %r9
	xorl	%edx, %edx
	cmpq	%r10, %r14
	cmovaq	%r9, %rdx
	movl	(%r8), %r8d
	movq	%rdx, %r9
	subq	%rax, %r9
	movq	%r9, %r10
	andq	$-8, %r10
	movd	%r8d, %xmm0
	pshufd	$0, %xmm0, %xmm0
	movq	%rcx, %rsi
	movq	80(%rsp), %rbx
	imulq	%rbx, %rsi
	leaq	(,%rax,4), %r11
	leaq	(%r11,%rsi,4), %r11
	movq	56(%rsp), %rdi
	addq	%rdi, %r11
	addq	$16, %r11
	shlq	$2, %rbx
	addq	%rax, %rsi
	leaq	(%rdi,%rsi,4), %rsi
	jmp	.LBB9_1015
.LBB9_1020:
	incq	%rcx
	addq	%rbx, %r11
	addq	%rbx, %rsi
	cmpq	%r12, %rcx
	je	.LBB9_1189
.LBB9_1015:
	cmpq	%rax, %rdx
	je	.LBB9_1020
	xorl	%edi, %edi
	cmpq	$8, %r9
	jb	.LBB9_1019
	.p2align	4
.LBB9_1017:
	movdqu	%xmm0, -16(%r11,%rdi,4)
	movdqu	%xmm0, (%r11,%rdi,4)
	addq	$8, %rdi
	cmpq	%rdi, %r10
	jne	.LBB9_1017
	movq	%r10, %rdi
	cmpq	%r10, %r9
	je	.LBB9_1020
	.p2align	4
.LBB9_1019:
	movl	%r8d, (%rsi,%rdi,4)
	incq	%rdi
	cmpq	%rdi, %r9
	jne	.LBB9_1019
	jmp	.LBB9_1020
.LBB9_840:
	testq	%r15, %r15
	je	.LBB9_1189
	movq	%r13, %rdi
	shrq	$32, %rdi
	subq	%rsi, %rcx
	movabsq	$4294967296, %rsi
	movq	%r10, 144(%rsp)
	leaq	(%rcx,%rsi), %r10
	leaq	(%r9,%rsi), %r8
	cmpq	%r10, %r8
	movl	%r14d, 176(%rsp)
	movq	%r10, %r14
	cmovbq	%r8, %r14
	xorl	%r11d, %r11d
	movq	%r12, 56(%rsp)
	movq	%rsi, %r12
	subq	%r14, %r12
	cmovbq	%r11, %r12
	orq	%rsi, %r15
	subq	%r10, %r15
	cmovbq	%r11, %r15
	movl	%r13d, %r10d
	orq	%rsi, %r10
	subq	%r8, %r10
	cmovbq	%r11, %r10
	cmpl	%ebx, %ebp
	cmovbl	%ebp, %ebx
	cmpq	%rbx, %r15
	cmovaeq	%rbx, %r15
	cmpq	%r15, %r10
	cmovbq	%r10, %r15
	leaq	(%r12,%rcx), %rbx
	addq	%r15, %rcx
	addq	%r12, %r9
	cmpq	%r12, %r15
	jmp	.LBB9_842
.LBB9_390:
	movq	%r12, 56(%rsp)
	testq	%r15, %r15
	je	.LBB9_1189
	subq	%rsi, %rcx
	movabsq	$4294967296, %rdx
	addq	%rdx, %rcx
	cmpq	%rdx, %rcx
	movq	%rdx, %rsi
	cmovaq	%rcx, %rsi
	movabsq	$-4294967296, %r11
	addq	%r9, %rcx
	orq	%rdx, %r15
	cmpq	%rcx, %r15
	cmovaeq	%rcx, %r15
	leaq	(%rsi,%r11), %rax
	xorl	%ecx, %ecx
	cmpq	%rsi, %r15
	cmovbeq	%rcx, %rax
	movq	%rax, 256(%rsp)
	subq	112(%rsp), %rbx
	addq	%rdx, %rbx
	cmpq	%rdx, %rbx
	movq	%rdx, %r8
	cmovaq	%rbx, %r8
	addq	72(%rsp), %rbx
	movq	64(%rsp), %r9
	orq	%rdx, %r9
	cmpq	%rbx, %r9
	cmovaeq	%rbx, %r9
	leaq	(%r8,%r11), %r12
	cmpq	%r8, %r9
	cmovbeq	%rcx, %r12
	jbe	.LBB9_1189
	movq	%r9, %rax
	addq	%r11, %rax
	movq	%rax, 64(%rsp)
	cmpq	%r12, %rax
	jbe	.LBB9_1189
	movq	80(%rsp), %rax
	movl	(%rax), %ecx
	movzbl	%ch, %ebx
	movl	%ecx, %r10d
	shrl	$16, %r10d
	movl	%ecx, %r8d
	shrl	$24, %r8d
	addq	%r15, %r11
	xorl	%r9d, %r9d
	cmpq	%rsi, %r15
	cmovaq	%r11, %r9
	movq	256(%rsp), %rdx
	subq	%rdx, %r9
	movq	%r9, %rax
	shrq	$4, %rax
	movq	%rax, 112(%rsp)
	movl	%ecx, %eax
	shrl	$8, %eax
	movd	%ecx, %xmm0
	pinsrb	$1, %eax, %xmm0
	pinsrb	$2, %r10d, %xmm0
	pinsrb	$3, %r8d, %xmm0
	pinsrb	$4, %ecx, %xmm0
	pinsrb	$5, %eax, %xmm0
	pinsrb	$6, %r10d, %xmm0
	pinsrb	$7, %r8d, %xmm0
	pinsrb	$8, %ecx, %xmm0
	pinsrb	$9, %eax, %xmm0
	pinsrb	$10, %r10d, %xmm0
	pinsrb	$11, %r8d, %xmm0
	pinsrb	$12, %ecx, %xmm0
	pinsrb	$13, %eax, %xmm0
	pinsrb	$14, %r10d, %xmm0
	movdqa	.LCPI9_0(%rip), %xmm1
	pand	%xmm0, %xmm1
	pinsrb	$15, %r8d, %xmm0
	psrlw	$8, %xmm0
	movq	%r9, %r11
	andq	$-16, %r11
	leaq	(,%r11,4), %rax
	movq	%rax, 104(%rsp)
	movl	%r9d, %r15d
	andl	$15, %r15d
	leal	(,%r9,4), %eax
	movl	%eax, %esi
	andl	$32, %esi
	movq	%rsi, 168(%rsp)
	movq	%r9, 80(%rsp)
	andl	$12, %r9d
	movq	%r9, 176(%rsp)
	movzbl	%cl, %ebp
	movzbl	%r10b, %r9d
	movq	%r12, %rcx
	movq	128(%rsp), %r10
	imulq	%r10, %rcx
	addq	%rdx, %rcx
	movq	56(%rsp), %rdx
	leaq	(%rdx,%rcx,4), %rdi
	andl	$48, %eax
	movq	%r11, 72(%rsp)
	leaq	(%rax,%r11,4), %rax
	leaq	(%rax,%rcx,4), %r13
	leaq	(,%r10,4), %rax
	movq	%rax, 144(%rsp)
	addq	%rdx, %r13
	jmp	.LBB9_394
.LBB9_405:
	incq	%r12
	movq	144(%rsp), %rax
	addq	%rax, %rdi
	addq	%rax, %r13
	cmpq	64(%rsp), %r12
	je	.LBB9_1189
.LBB9_394:
	cmpq	$0, 112(%rsp)
	je	.LBB9_397
	movq	%rdi, %rsi
	movq	112(%rsp), %r10
	.p2align	4
.LBB9_396:
	pcmpeqd	%xmm6, %xmm6
	movdqu	(%rsi), %xmm9
	movdqu	16(%rsi), %xmm8
	movdqu	32(%rsi), %xmm3
	movdqu	48(%rsi), %xmm2
	pxor	%xmm6, %xmm9
	pxor	%xmm6, %xmm8
	movdqa	.LCPI9_5(%rip), %xmm7
	pshufb	%xmm7, %xmm8
	pshufb	%xmm7, %xmm9
	movdqa	%xmm1, %xmm10
	pmullw	%xmm9, %xmm10
	movdqa	%xmm1, %xmm11
	pmullw	%xmm8, %xmm11
	movdqa	.LCPI9_1(%rip), %xmm4
	paddw	%xmm4, %xmm11
	paddw	%xmm4, %xmm10
	movdqa	.LCPI9_2(%rip), %xmm5
	pmulhuw	%xmm5, %xmm10
	pmulhuw	%xmm5, %xmm11
	pmullw	%xmm0, %xmm8
	pmullw	%xmm0, %xmm9
	paddw	%xmm4, %xmm9
	paddw	%xmm4, %xmm8
	pmulhuw	%xmm5, %xmm8
	pmulhuw	%xmm5, %xmm9
	psllw	$8, %xmm9
	por	%xmm10, %xmm9
	psllw	$8, %xmm8
	por	%xmm11, %xmm8
	movdqu	%xmm9, (%rsi)
	movdqu	%xmm8, 16(%rsi)
	pxor	%xmm6, %xmm3
	pxor	%xmm6, %xmm2
	pshufb	%xmm7, %xmm2
	pshufb	%xmm7, %xmm3
	movdqa	%xmm1, %xmm6
	pmullw	%xmm3, %xmm6
	movdqa	%xmm1, %xmm7
	pmullw	%xmm2, %xmm7
	paddw	%xmm4, %xmm7
	paddw	%xmm4, %xmm6
	pmulhuw	%xmm5, %xmm6
	pmulhuw	%xmm5, %xmm7
	pmullw	%xmm0, %xmm2
	pmullw	%xmm0, %xmm3
	paddw	%xmm4, %xmm3
	paddw	%xmm4, %xmm2
	pmulhuw	%xmm5, %xmm2
	pmulhuw	%xmm5, %xmm3
	psllw	$8, %xmm3
	por	%xmm6, %xmm3
	psllw	$8, %xmm2
	por	%xmm7, %xmm2
	movdqu	%xmm3, 32(%rsi)
	movdqu	%xmm2, 48(%rsi)
	addq	$64, %rsi
	decq	%r10
	jne	.LBB9_396
.LBB9_397:
	movq	72(%rsp), %rax
	cmpq	80(%rsp), %rax
	je	.LBB9_405
	movq	%r12, %rax
	imulq	128(%rsp), %rax
	addq	256(%rsp), %rax
	movq	56(%rsp), %rcx
	leaq	(%rcx,%rax,4), %r10
	addq	104(%rsp), %r10
	testb	$8, 80(%rsp)
	jne	.LBB9_399
	testb	$4, 80(%rsp)
	jne	.LBB9_401
.LBB9_402:
	cmpl	%r15d, 176(%rsp)
	jae	.LBB9_405
	jmp	.LBB9_403
.LBB9_399:
	movdqu	(%r10), %xmm3
	movdqu	16(%r10), %xmm2
	pcmpeqd	%xmm4, %xmm4
	pxor	%xmm4, %xmm3
	pxor	%xmm4, %xmm2
	movdqa	.LCPI9_5(%rip), %xmm4
	pshufb	%xmm4, %xmm2
	pshufb	%xmm4, %xmm3
	movdqa	%xmm1, %xmm4
	pmullw	%xmm3, %xmm4
	movdqa	%xmm1, %xmm5
	pmullw	%xmm2, %xmm5
	movdqa	.LCPI9_1(%rip), %xmm6
	paddw	%xmm6, %xmm5
	paddw	%xmm6, %xmm4
	movdqa	.LCPI9_2(%rip), %xmm7
	pmulhuw	%xmm7, %xmm4
	pmulhuw	%xmm7, %xmm5
	pmullw	%xmm0, %xmm2
	pmullw	%xmm0, %xmm3
	paddw	%xmm6, %xmm3
	paddw	%xmm6, %xmm2
	pmulhuw	%xmm7, %xmm2
	pmulhuw	%xmm7, %xmm3
	psllw	$8, %xmm3
	por	%xmm4, %xmm3
	psllw	$8, %xmm2
	por	%xmm5, %xmm2
	movdqu	%xmm3, (%r10)
	movdqu	%xmm2, 16(%r10)
	testb	$4, 80(%rsp)
	je	.LBB9_402
.LBB9_401:
	movq	168(%rsp), %rax
	movdqu	(%r10,%rax), %xmm2
	pshufb	.LCPI9_6(%rip), %xmm2
	pcmpeqd	%xmm3, %xmm3
	pxor	%xmm2, %xmm3
	pandn	.LCPI9_0(%rip), %xmm2
	pmullw	%xmm1, %xmm2
	movdqa	.LCPI9_1(%rip), %xmm4
	paddw	%xmm4, %xmm2
	movdqa	.LCPI9_2(%rip), %xmm5
	pmulhuw	%xmm5, %xmm2
	psrlw	$8, %xmm3
	pmullw	%xmm0, %xmm3
	paddw	%xmm4, %xmm3
	pmulhuw	%xmm5, %xmm3
	psllw	$8, %xmm3
	por	%xmm2, %xmm3
	movdqu	%xmm3, (%r10,%rax)
	cmpl	%r15d, 176(%rsp)
	jae	.LBB9_405
.LBB9_403:
	movq	%r13, %r10
	movq	176(%rsp), %rsi
	.p2align	4
.LBB9_404:
	movzbl	3(%r10), %r14d
	xorl	$255, %r14d
	movzwl	%bp, %eax
	imull	%r14d, %eax
	leal	128(%rax), %edx
	movzbl	%dh, %edx
	addl	%edx, %eax
	addl	$128, %eax
	movzbl	%ah, %eax
	movzwl	%bx, %edx
	imull	%r14d, %edx
	leal	128(%rdx), %ecx
	movzbl	%ch, %ecx
	leal	(%rcx,%rdx), %r11d
	addl	$128, %r11d
	andl	$65280, %r11d
	movzwl	%r9w, %ecx
	imull	%r14d, %ecx
	leal	128(%rcx), %edx
	movzbl	%dh, %edx
	addl	%edx, %ecx
	addl	$128, %ecx
	movzwl	%r8w, %edx
	imull	%r14d, %edx
	movl	%ebx, %r14d
	leal	128(%rdx), %ebx
	movzbl	%bh, %ebx
	addl	%ebx, %edx
	addl	$128, %edx
	movl	%r14d, %ebx
	shll	$16, %edx
	andl	$-16777216, %edx
	shll	$8, %ecx
	andl	$16711680, %ecx
	orl	%edx, %ecx
	orl	%r11d, %ecx
	orl	%eax, %ecx
	movl	%ecx, (%r10)
	incq	%rsi
	addq	$4, %r10
	cmpq	%r15, %rsi
	jb	.LBB9_404
	jmp	.LBB9_405
.LBB9_316:
	testq	%r15, %r15
	je	.LBB9_1189
	movq	%r13, %rdi
	shrq	$32, %rdi
	subq	%rsi, %rcx
	movl	%ebp, 144(%rsp)
	movabsq	$4294967296, %rbp
	leaq	(%rcx,%rbp), %rsi
	leaq	(%rdx,%rbp), %r11
	cmpq	%rsi, %r11
	movq	%r8, 72(%rsp)
	movq	%rsi, %r8
	cmovbq	%r11, %r8
	xorl	%esi, %esi
	movq	%rbp, %r12
	subq	%r8, %r12
	cmovbq	%rsi, %r12
	orq	%rbp, %r15
	leaq	(%rcx,%rbp), %r8
	subq	%r8, %r15
	cmovbq	%rsi, %r15
	movl	%r13d, %r8d
	orq	%rbp, %r8
	subq	%r11, %r8
	cmovbq	%rsi, %r8
	cmpl	%r9d, %r10d
	cmovbl	%r10d, %r9d
	cmpq	%r9, %r15
	cmovaeq	%r9, %r15
	cmpq	%r15, %r8
	cmovbq	%r8, %r15
	leaq	(%r12,%rcx), %r9
	addq	%r15, %rcx
	addq	%r12, %rdx
	cmpq	%r12, %r15
	cmovbeq	%rsi, %r9
	cmovbeq	%rsi, %rcx
	cmovbeq	%rsi, %rdx
	subq	128(%rsp), %rbx
	leaq	(%rbx,%rbp), %r8
	movq	112(%rsp), %r11
	leaq	(%r11,%rbp), %r15
	cmpq	%r8, %r15
	movq	%r8, %r12
	cmovbq	%r15, %r12
	movq	%rbp, %r10
	subq	%r12, %r10
	cmovbq	%rsi, %r10
	orq	%rbp, %r14
	subq	%r8, %r14
	cmovbq	%rsi, %r14
	orq	%rbp, %rdi
	subq	%r15, %rdi
	cmovbq	%rsi, %rdi
	movl	144(%rsp), %r8d
	cmpl	%eax, %r8d
	cmovbl	%r8d, %eax
	cmpq	%rax, %r14
	cmovaeq	%rax, %r14
	cmpq	%r14, %rdi
	cmovbq	%rdi, %r14
	leaq	(%r10,%rbx), %rax
	addq	%r14, %rbx
	addq	%r10, %r11
	cmpq	%r10, %r14
	cmovbeq	%rsi, %rax
	cmovbeq	%rsi, %rbx
	cmovbeq	%rsi, %r11
	movq	%r9, 200(%rsp)
	movq	%rcx, 208(%rsp)
	movq	%rdx, 216(%rsp)
	movq	%rax, 224(%rsp)
	movq	%rbx, 232(%rsp)
	movq	%r11, 240(%rsp)
	leaq	200(%rsp), %rax
	movq	%rax, 32(%rsp)
	movq	56(%rsp), %rcx
	movq	64(%rsp), %rdx
	movq	80(%rsp), %r8
	movq	72(%rsp), %r9
	callq	"pix_raster::view::blit_overlap::<#88ae0de0b3775985>"
	jmp	.LBB9_1189
.LBB9_428:
	movq	%rax, 104(%rsp)
	testq	%r15, %r15
	je	.LBB9_1189
	movq	%r8, 176(%rsp)
	movl	%r13d, 144(%rsp)
	movq	%rdi, %r13
	shrq	$32, %r13
	subq	%rsi, %rcx
	movabsq	$4294967296, %rsi
	leaq	(%rcx,%rsi), %r8
	movq	%r12, 56(%rsp)
	leaq	(%rdx,%rsi), %rax
	cmpq	%r8, %rax
	movq	%rbp, %r10
	movq	%r8, %rbp
	cmovbq	%rax, %rbp
	xorl	%r12d, %r12d
	movq	%rsi, %r14
	subq	%rbp, %r14
	cmovbq	%r12, %r14
	orq	%rsi, %r15
	subq	%r8, %r15
	cmovbq	%r12, %r15
	movl	%edi, %r8d
	orq	%rsi, %r8
	subq	%rax, %r8
	cmovbq	%r12, %r8
	cmpl	%r9d, %r11d
	cmovbl	%r11d, %r9d
	cmpq	%r9, %r15
	cmovaeq	%r9, %r15
	cmpq	%r15, %r8
	cmovbq	%r8, %r15
	leaq	(%r14,%rcx), %r9
	addq	%r15, %rcx
	addq	%r14, %rdx
	cmpq	%r14, %r15
	cmovbeq	%r12, %r9
	cmovbeq	%r12, %rcx
	cmovbeq	%r12, %rdx
	subq	112(%rsp), %rbx
	leaq	(%rbx,%rsi), %r8
	leaq	(%r10,%rsi), %rdi
	cmpq	%r8, %rdi
	movq	%r8, %r14
	cmovbq	%rdi, %r14
	movq	%rsi, %r11
	subq	%r14, %r11
	cmovbq	%r12, %r11
	movq	64(%rsp), %r14
	orq	%rsi, %r14
	subq	%r8, %r14
	cmovbq	%r12, %r14
	orq	%rsi, %r13
	subq	%rdi, %r13
	cmovbq	%r12, %r13
	movq	72(%rsp), %rax
	movl	144(%rsp), %r8d
	cmpl	%eax, %r8d
	cmovbl	%r8d, %eax
	cmpq	%rax, %r14
	cmovaeq	%rax, %r14
	cmpq	%r14, %r13
	cmovbq	%r13, %r14
	leaq	(%r11,%rbx), %rax
	addq	%r14, %rbx
	addq	%r11, %r10
	cmpq	%r11, %r14
	cmovbeq	%r12, %rax
	cmovbeq	%r12, %rbx
	cmovbeq	%r12, %r10
	movq	104(%rsp), %r8
	movzbl	(%r8), %r8d
	movq	%r9, 200(%rsp)
	movq	%rcx, 208(%rsp)
	movq	%rdx, 216(%rsp)
	movq	%rax, 224(%rsp)
	movq	%rbx, 232(%rsp)
	movq	%r10, 240(%rsp)
	movb	%r8b, 40(%rsp)
	leaq	200(%rsp), %rax
	movq	%rax, 32(%rsp)
	movq	56(%rsp), %rcx
	movq	128(%rsp), %rdx
	movq	80(%rsp), %r8
	movq	176(%rsp), %r9
	callq	"pix_raster::view::blit_overlap::<#4bf1498ae24b3bf7>"
	jmp	.LBB9_1189
.LBB9_676:
	testq	%r15, %r15
	je	.LBB9_1189
	movq	%rbp, %rdi
	shrq	$32, %rdi
	subq	%rsi, %rcx
	movabsq	$4294967296, %rsi
	movq	%r13, 144(%rsp)
	leaq	(%rcx,%rsi), %r13
	leaq	(%rdx,%rsi), %rax
	cmpq	%r13, %rax
	movq	%r8, %r10
	movq	%r13, %r8
	cmovbq	%rax, %r8
	xorl	%r13d, %r13d
	movl	%r14d, 176(%rsp)
	movq	%rsi, %r14
	subq	%r8, %r14
	cmovbq	%r13, %r14
	orq	%rsi, %r15
	leaq	(%rcx,%rsi), %r8
	subq	%r8, %r15
	cmovbq	%r13, %r15
	movl	%ebp, %r8d
	orq	%rsi, %r8
	subq	%rax, %r8
	cmovbq	%r13, %r8
	cmpl	%r9d, %ebx
	cmovbl	%ebx, %r9d
	cmpq	%r9, %r15
	cmovaeq	%r9, %r15
	cmpq	%r15, %r8
	cmovbq	%r8, %r15
	leaq	(%r14,%rcx), %r9
	addq	%r15, %rcx
	addq	%r14, %rdx
	cmpq	%r14, %r15
	cmovbeq	%r13, %r9
	cmovbeq	%r13, %rcx
	cmovbeq	%r13, %rdx
	subq	112(%rsp), %r11
	leaq	(%r11,%rsi), %r8
	leaq	(%r10,%rsi), %r14
	cmpq	%r8, %r14
	movq	%r8, %r15
	cmovbq	%r14, %r15
	movq	%rsi, %rbx
	subq	%r15, %rbx
	cmovbq	%r13, %rbx
	movq	64(%rsp), %r15
	orq	%rsi, %r15
	subq	%r8, %r15
	cmovbq	%r13, %r15
	orq	%rsi, %rdi
	subq	%r14, %rdi
	cmovbq	%r13, %rdi
	movq	72(%rsp), %rax
	movl	176(%rsp), %r8d
	cmpl	%eax, %r8d
	cmovbl	%r8d, %eax
	cmpq	%rax, %r15
	cmovaeq	%rax, %r15
	cmpq	%r15, %rdi
	cmovbq	%rdi, %r15
	leaq	(%rbx,%r11), %rax
	addq	%r15, %r11
	addq	%rbx, %r10
	cmpq	%rbx, %r15
	cmovbeq	%r13, %rax
	cmovbeq	%r13, %r11
	cmovbeq	%r13, %r10
	movq	%r9, 200(%rsp)
	movq	%rcx, 208(%rsp)
	movq	%rdx, 216(%rsp)
	movq	%rax, 224(%rsp)
	movq	%r11, 232(%rsp)
	movq	%r10, 240(%rsp)
	leaq	200(%rsp), %rax
	movq	%rax, 32(%rsp)
	movq	%r12, %rcx
	movq	80(%rsp), %rdx
	movq	128(%rsp), %r8
	movq	144(%rsp), %r9
	callq	"pix_raster::view::blit_overlap::<#118c7942c1302bcc>"
	jmp	.LBB9_1189
.LBB9_1145:
	movq	%r12, 56(%rsp)
	testq	%r15, %r15
	je	.LBB9_1189
	subq	%rsi, %r13
	movabsq	$4294967296, %rdx
	addq	%rdx, %r13
	cmpq	%rdx, %r13
	movq	%rdx, %rsi
	cmovaq	%r13, %rsi
	movabsq	$-4294967296, %rcx
	addq	%r8, %r13
	orq	%rdx, %r15
	cmpq	%r13, %r15
	cmovaeq	%r13, %r15
	leaq	(%rsi,%rcx), %r9
	xorl	%r8d, %r8d
	cmpq	%rsi, %r15
	cmovbeq	%r8, %r9
	movq	%r9, 144(%rsp)
	subq	64(%rsp), %rax
	addq	%rdx, %rax
	cmpq	%rdx, %rax
	movq	%rdx, %r9
	cmovaq	%rax, %r9
	addq	112(%rsp), %rax
	orq	%rdx, %r14
	cmpq	%rax, %r14
	cmovaeq	%rax, %r14
	leaq	(%r9,%rcx), %rdi
	cmpq	%r9, %r14
	cmovbeq	%r8, %rdi
	jbe	.LBB9_1189
	addq	%rcx, %r14
	cmpq	%rdi, %r14
	jbe	.LBB9_1189
	movq	128(%rsp), %rax
	movl	(%rax), %edx
	movl	%edx, %r8d
	movl	%edx, %r9d
	shrl	$8, %r9d
	movl	%edx, %r10d
	shrl	$16, %r10d
	shrl	$24, %edx
	addq	%r15, %rcx
	xorl	%r11d, %r11d
	cmpq	%rsi, %r15
	cmovaq	%rcx, %r11
	movq	144(%rsp), %rax
	subq	%rax, %r11
	movq	%r11, %r15
	movzbl	%r9b, %ecx
	movzbl	%r8b, %esi
	movd	%esi, %xmm0
	pinsrb	$1, %ecx, %xmm0
	movzbl	%r10b, %ebx
	pinsrb	$2, %ebx, %xmm0
	movzbl	%dl, %ebp
	pinsrb	$3, %ebp, %xmm0
	pinsrb	$4, %esi, %xmm0
	pinsrb	$5, %ecx, %xmm0
	pinsrb	$6, %ebx, %xmm0
	pinsrb	$7, %ebp, %xmm0
	pinsrb	$8, %esi, %xmm0
	pinsrb	$9, %ecx, %xmm0
	pinsrb	$10, %ebx, %xmm0
	pinsrb	$11, %ebp, %xmm0
	pinsrb	$12, %esi, %xmm0
	pinsrb	$13, %ecx, %xmm0
	pinsrb	$14, %ebx, %xmm0
	shrq	$4, %r15
	pinsrb	$15, %ebp, %xmm0
	movq	%r11, %r12
	andq	$-16, %r12
	leaq	(,%r12,4), %rcx
	movq	%rcx, 168(%rsp)
	movl	%r11d, %r13d
	andl	$15, %r13d
	leal	(,%r11,4), %ecx
	movl	%ecx, %esi
	andl	$32, %esi
	movq	%rsi, 248(%rsp)
	movq	%r11, 64(%rsp)
	andl	$12, %r11d
	movq	%r11, 104(%rsp)
	movq	%r15, 128(%rsp)
	movq	%r15, %rbx
	andq	$-2, %rbx
	movq	%rdi, %rsi
	movq	80(%rsp), %r11
	imulq	%r11, %rsi
	addq	%rax, %rsi
	movq	56(%rsp), %rax
	leaq	(%rax,%rsi,4), %r15
	andl	$48, %ecx
	movq	%r12, 176(%rsp)
	leaq	(%rcx,%r12,4), %rcx
	leaq	(%rcx,%rsi,4), %rsi
	leaq	(,%r11,4), %rcx
	movq	%rcx, 256(%rsp)
	addq	%rax, %rsi
	movq	%r14, 72(%rsp)
	jmp	.LBB9_1149
.LBB9_1164:
	movq	112(%rsp), %rdi
	incq	%rdi
	movq	256(%rsp), %rax
	addq	%rax, %r15
	addq	%rax, %rsi
	movq	72(%rsp), %r14
	cmpq	%r14, %rdi
	je	.LBB9_1189
.LBB9_1149:
	movq	%rdi, %rcx
	imulq	80(%rsp), %rcx
	addq	144(%rsp), %rcx
	movq	56(%rsp), %rax
	leaq	(%rax,%rcx,4), %rcx
	cmpq	$0, 128(%rsp)
	je	.LBB9_1156
	cmpq	$1, 128(%rsp)
	jne	.LBB9_1152
	xorl	%r12d, %r12d
	jmp	.LBB9_1155
.LBB9_1152:
	xorl	%r12d, %r12d
	movq	%r15, %rbp
	.p2align	4
.LBB9_1153:
	movdqu	(%rbp), %xmm1
	movdqu	16(%rbp), %xmm2
	movdqu	32(%rbp), %xmm3
	movdqu	48(%rbp), %xmm4
	paddusb	%xmm0, %xmm2
	paddusb	%xmm0, %xmm1
	movdqu	%xmm1, (%rbp)
	movdqu	%xmm2, 16(%rbp)
	paddusb	%xmm0, %xmm4
	paddusb	%xmm0, %xmm3
	movdqu	%xmm3, 32(%rbp)
	movdqu	%xmm4, 48(%rbp)
	movdqu	64(%rbp), %xmm1
	movdqu	80(%rbp), %xmm2
	paddusb	%xmm0, %xmm2
	paddusb	%xmm0, %xmm1
	movdqu	%xmm1, 64(%rbp)
	movdqu	%xmm2, 80(%rbp)
	movdqu	96(%rbp), %xmm1
	movdqu	112(%rbp), %xmm2
	paddusb	%xmm0, %xmm2
	paddusb	%xmm0, %xmm1
	movdqu	%xmm1, 96(%rbp)
	movdqu	%xmm2, 112(%rbp)
	addq	$2, %r12
	subq	$-128, %rbp
	cmpq	%r12, %rbx
	jne	.LBB9_1153
	testb	$1, 128(%rsp)
	je	.LBB9_1156
.LBB9_1155:
	shlq	$6, %r12
	movdqu	(%rcx,%r12), %xmm1
	movdqu	16(%rcx,%r12), %xmm2
	movdqu	32(%rcx,%r12), %xmm3
	movdqu	48(%rcx,%r12), %xmm4
	paddusb	%xmm0, %xmm2
	paddusb	%xmm0, %xmm1
	movdqu	%xmm1, (%rcx,%r12)
	movdqu	%xmm2, 16(%rcx,%r12)
	paddusb	%xmm0, %xmm4
	paddusb	%xmm0, %xmm3
	movdqu	%xmm3, 32(%rcx,%r12)
	movdqu	%xmm4, 48(%rcx,%r12)
.LBB9_1156:
	movq	%rdi, 112(%rsp)
	movq	176(%rsp), %rax
	cmpq	64(%rsp), %rax
	je	.LBB9_1164
	addq	168(%rsp), %rcx
	testb	$8, 64(%rsp)
	jne	.LBB9_1158
	testb	$4, 64(%rsp)
	jne	.LBB9_1160
.LBB9_1161:
	cmpl	%r13d, 104(%rsp)
	jae	.LBB9_1164
	jmp	.LBB9_1162
.LBB9_1158:
	movdqu	(%rcx), %xmm1
	movdqu	16(%rcx), %xmm2
	paddusb	%xmm0, %xmm2
	paddusb	%xmm0, %xmm1
	movdqu	%xmm1, (%rcx)
	movdqu	%xmm2, 16(%rcx)
	testb	$4, 64(%rsp)
	je	.LBB9_1161
.LBB9_1160:
	movq	248(%rsp), %rax
	movdqu	(%rcx,%rax), %xmm1
	paddusb	%xmm0, %xmm1
	movdqu	%xmm1, (%rcx,%rax)
	cmpl	%r13d, 104(%rsp)
	jae	.LBB9_1164
.LBB9_1162:
	movq	%rsi, %rcx
	movq	104(%rsp), %r12
	.p2align	4
.LBB9_1163:
	movl	(%rcx), %ebp
	movl	%ebp, %r14d
	shrl	$8, %r14d
	movl	%ebp, %edi
	shrl	$16, %edi
	movl	%ebp, %r11d
	shrl	$24, %r11d
	addb	%r8b, %bpl
	movzbl	%bpl, %ebp
	movl	$255, %eax
	cmovbl	%eax, %ebp
	addb	%r9b, %r14b
	movzbl	%r14b, %r14d
	cmovbl	%eax, %r14d
	addb	%r10b, %dil
	movzbl	%dil, %edi
	cmovbl	%eax, %edi
	addb	%dl, %r11b
	movzbl	%r11b, %r11d
	cmovbl	%eax, %r11d
	shll	$24, %r11d
	movzbl	%dil, %eax
	shll	$16, %eax
	orl	%r11d, %eax
	movzbl	%r14b, %r11d
	shll	$8, %r11d
	orl	%eax, %r11d
	movzbl	%bpl, %eax
	orl	%r11d, %eax
	movl	%eax, (%rcx)
	incq	%r12
	addq	$4, %rcx
	cmpq	%r13, %r12
	jb	.LBB9_1163
	jmp	.LBB9_1164
.LBB9_85:
	testq	%r15, %r15
	je	.LBB9_1189
	movq	%rsi, %r10
	shrq	$32, %r10
	subq	%rdi, %rbx
	movabsq	$4294967296, %rdi
	movl	%r13d, 176(%rsp)
	leaq	(%rbx,%rdi), %r13
	leaq	(%rdi,%rbp), %rcx
	cmpq	%r13, %rcx
	movq	%r14, 144(%rsp)
	movq	%r13, %r14
	cmovbq	%rcx, %r14
	xorl	%r9d, %r9d
	movq	%r12, 56(%rsp)
	movq	%rdi, %r12
	subq	%r14, %r12
	cmovbq	%r9, %r12
	orq	%rdi, %r15
	subq	%r13, %r15
	cmovbq	%r9, %r15
	movl	%esi, %esi
	orq	%rdi, %rsi
	subq	%rcx, %rsi
	cmovbq	%r9, %rsi
	cmpl	%edx, %r8d
	cmovbl	%r8d, %edx
	cmpq	%rdx, %r15
	cmovaeq	%rdx, %r15
	cmpq	%r15, %rsi
	cmovbq	%rsi, %r15
	leaq	(%r12,%rbx), %rdx
	addq	%r15, %rbx
	addq	%r12, %rbp
	cmpq	%r12, %r15
	cmovbeq	%r9, %rdx
	cmovbeq	%r9, %rbx
	cmovbeq	%r9, %rbp
	subq	112(%rsp), %rax
	leaq	(%rax,%rdi), %rsi
	movq	72(%rsp), %rcx
	leaq	(%rcx,%rdi), %r14
	cmpq	%rsi, %r14
	movq	%rsi, %r15
	cmovbq	%r14, %r15
	movq	%rdi, %r8
	subq	%r15, %r8
	cmovbq	%r9, %r8
	movq	80(%rsp), %r15
	orq	%rdi, %r15
	subq	%rsi, %r15
	cmovbq	%r9, %r15
	orq	%rdi, %r10
	subq	%r14, %r10
	cmovbq	%r9, %r10
	movl	176(%rsp), %esi
	cmpl	%r11d, %esi
	cmovbl	%esi, %r11d
	cmpq	%r11, %r15
	cmovaeq	%r11, %r15
	cmpq	%r15, %r10
	cmovbq	%r10, %r15
	leaq	(%r8,%rax), %r10
	addq	%r15, %rax
	addq	%r8, %rcx
	cmpq	%r8, %r15
	cmovbeq	%r9, %r10
	cmovbeq	%r9, %rax
	cmovbeq	%r9, %rcx
	movq	%rdx, 200(%rsp)
	movq	%rbx, 208(%rsp)
	movq	%rbp, 216(%rsp)
	movq	%r10, 224(%rsp)
	movq	%rax, 232(%rsp)
	movq	%rcx, 240(%rsp)
	leaq	200(%rsp), %rax
	movq	%rax, 32(%rsp)
	movq	56(%rsp), %rcx
	movq	64(%rsp), %rdx
	movq	128(%rsp), %r8
	movq	144(%rsp), %r9
	callq	"pix_raster::view::blit_overlap::<#c5cfb15747d2bb36>"
	jmp	.LBB9_1189
.LBB9_378:
	testq	%r15, %r15
	je	.LBB9_1189
	subq	%rsi, %rcx
	movabsq	$4294967296, %r11
	addq	%r11, %rcx
	cmpq	%r11, %rcx
	movq	%r11, %r8
	cmovaq	%rcx, %r8
	movabsq	$-4294967296, %rdx
	addq	%r9, %rcx
	orq	%r11, %r15
	cmpq	%rcx, %r15
	cmovaeq	%rcx, %r15
	leaq	(%r8,%rdx), %r10
	xorl	%ecx, %ecx
	cmpq	%r8, %r15
	cmovbeq	%rcx, %r10
	subq	112(%rsp), %rbx
	addq	%r11, %rbx
	cmpq	%r11, %rbx
	movq	%r11, %r9
	cmovaq	%rbx, %r9
	addq	72(%rsp), %rbx
	movq	64(%rsp), %rsi
	orq	%r11, %rsi
	cmpq	%rbx, %rsi
	cmovaeq	%rbx, %rsi
	leaq	(%r9,%rdx), %rax
	cmpq	%r9, %rsi
	cmovbeq	%rcx, %rax
	jbe	.LBB9_1189
	movq	%rsi, %r11
	addq	%rdx, %r11
	cmpq	%rax, %r11
	jbe	.LBB9_1189
	addq	%r15, %rdx
	xorl	%ecx, %ecx
	cmpq	%r8, %r15
	cmovaq	%rdx, %rcx
	subq	%r10, %rcx
	je	.LBB9_1189
	movq	%r11, %rdi
	movq	80(%rsp), %rdx
	movl	(%rdx), %edx
	movq	%rcx, %r8
	andq	$-8, %r8
	movd	%edx, %xmm0
	pshufd	$0, %xmm0, %xmm0
	movq	%rax, %r11
	movq	128(%rsp), %rsi
	imulq	%rsi, %r11
	leaq	(,%r10,4), %r9
	leaq	(%r9,%r11,4), %r9
	addq	%r12, %r9
	addq	$16, %r9
	shlq	$2, %rsi
	addq	%r10, %r11
	leaq	(%r12,%r11,4), %r10
	jmp	.LBB9_383
.LBB9_387:
	incq	%rax
	addq	%rsi, %r9
	addq	%rsi, %r10
	cmpq	%rdi, %rax
	je	.LBB9_1189
.LBB9_383:
	xorl	%r11d, %r11d
	cmpq	$8, %rcx
	jb	.LBB9_386
	.p2align	4
.LBB9_384:
	movdqu	%xmm0, -16(%r9,%r11,4)
	movdqu	%xmm0, (%r9,%r11,4)
	addq	$8, %r11
	cmpq	%r11, %r8
	jne	.LBB9_384
	movq	%r8, %r11
	cmpq	%r8, %rcx
	je	.LBB9_387
	.p2align	4
.LBB9_386:
	movl	%edx, (%r10,%r11,4)
	incq	%r11
	cmpq	%r11, %rcx
	jne	.LBB9_386
	jmp	.LBB9_387
.LBB9_207:
	testq	%r15, %r15
	je	.LBB9_1189
	movq	%r13, %rdi
	shrq	$32, %rdi
	subq	%rsi, %r8
	movl	%ebp, 144(%rsp)
	movabsq	$4294967296, %rbp
	leaq	(%r8,%rbp), %rsi
	leaq	(%r9,%rbp), %rcx
	cmpq	%rsi, %rcx
	movq	%r10, 72(%rsp)
	movq	%rsi, %r10
	cmovbq	%rcx, %r10
	xorl	%esi, %esi
	movq	%rbp, %r12
	subq	%r10, %r12
	cmovbq	%rsi, %r12
	orq	%rbp, %r15
	leaq	(%r8,%rbp), %r10
	subq	%r10, %r15
	cmovbq	%rsi, %r15
	movl	%r13d, %r10d
	orq	%rbp, %r10
	subq	%rcx, %r10
	cmovbq	%rsi, %r10
	cmpl	%r11d, %ebx
	cmovbl	%ebx, %r11d
	cmpq	%r11, %r15
	cmovaeq	%r11, %r15
	cmpq	%r15, %r10
	cmovbq	%r10, %r15
	leaq	(%r12,%r8), %r11
	addq	%r15, %r8
	addq	%r12, %r9
	cmpq	%r12, %r15
	cmovbeq	%rsi, %r11
	cmovbeq	%rsi, %r8
	cmovbeq	%rsi, %r9
	subq	%r14, %rdx
	leaq	(%rdx,%rbp), %r10
	movq	112(%rsp), %rcx
	leaq	(%rcx,%rbp), %r15
	cmpq	%r10, %r15
	movq	%r10, %r12
	cmovbq	%r15, %r12
	movq	%rbp, %rbx
	subq	%r12, %rbx
	cmovbq	%rsi, %rbx
	movq	80(%rsp), %r14
	orq	%rbp, %r14
	subq	%r10, %r14
	cmovbq	%rsi, %r14
	orq	%rbp, %rdi
	subq	%r15, %rdi
	cmovbq	%rsi, %rdi
	movl	144(%rsp), %r10d
	cmpl	%eax, %r10d
	cmovbl	%r10d, %eax
	cmpq	%rax, %r14
	cmovaeq	%rax, %r14
	cmpq	%r14, %rdi
	cmovbq	%rdi, %r14
	leaq	(%rbx,%rdx), %rax
	addq	%r14, %rdx
	addq	%rbx, %rcx
	cmpq	%rbx, %r14
	cmovbeq	%rsi, %rax
	cmovbeq	%rsi, %rdx
	cmovbeq	%rsi, %rcx
	movq	%r11, 200(%rsp)
	movq	%r8, 208(%rsp)
	movq	%r9, 216(%rsp)
	movq	%rax, 224(%rsp)
	movq	%rdx, 232(%rsp)
	movq	%rcx, 240(%rsp)
	leaq	200(%rsp), %rax
	movq	%rax, 32(%rsp)
	movq	56(%rsp), %rcx
	movq	64(%rsp), %rdx
	movq	128(%rsp), %r8
	jmp	.LBB9_299
.LBB9_1187:
	movq	%rcx, 104(%rsp)
	testq	%r15, %r15
	je	.LBB9_1189
	movq	%r10, %rdi
	shrq	$32, %rdi
	subq	%rsi, %r13
	movabsq	$4294967296, %rsi
	movq	%r14, %rcx
	leaq	(%rsi,%r13), %r14
	leaq	(%rsi,%rbp), %rdx
	cmpq	%r14, %rdx
	movq	%rbx, 176(%rsp)
	movq	%r14, %rbx
	cmovbq	%rdx, %rbx
	xorl	%edx, %edx
	movq	%r12, 56(%rsp)
	movq	%rsi, %r12
	subq	%rbx, %r12
	cmovbq	%rdx, %r12
	orq	%rsi, %r15
	subq	%r14, %r15
	cmovbq	%rdx, %r15
	movl	%r10d, %r10d
	orq	%rsi, %r10
	leaq	(%rsi,%rbp), %rbx
	subq	%rbx, %r10
	cmovbq	%rdx, %r10
	cmpl	%r8d, %r9d
	cmovbl	%r9d, %r8d
	cmpq	%r8, %r15
	cmovaeq	%r8, %r15
	cmpq	%r15, %r10
	cmovbq	%r10, %r15
	leaq	(%r12,%r13), %r8
	addq	%r15, %r13
	addq	%r12, %rbp
	cmpq	%r12, %r15
	cmovbeq	%rdx, %r8
	cmovbeq	%rdx, %r13
	cmovbeq	%rdx, %rbp
	subq	64(%rsp), %rax
	leaq	(%rax,%rsi), %r10
	movq	%r11, %r15
	leaq	(%r11,%rsi), %rbx
	cmpq	%r10, %rbx
	movq	%r10, %r14
	cmovbq	%rbx, %r14
	movq	%rsi, %r9
	subq	%r14, %r9
	cmovbq	%rdx, %r9
	orq	%rsi, %rcx
	subq	%r10, %rcx
	cmovbq	%rdx, %rcx
	orq	%rsi, %rdi
	subq	%rbx, %rdi
	cmovbq	%rdx, %rdi
	movl	144(%rsp), %r10d
	movq	112(%rsp), %r11
	cmpl	%r11d, %r10d
	cmovbl	%r10d, %r11d
	cmpq	%r11, %rcx
	cmovaeq	%r11, %rcx
	cmpq	%rcx, %rdi
	cmovbq	%rdi, %rcx
	leaq	(%r9,%rax), %r10
	addq	%rcx, %rax
	movq	%r15, %r11
	addq	%r9, %r11
	cmpq	%r9, %rcx
	cmovbeq	%rdx, %r10
	cmovbeq	%rdx, %rax
	cmovbeq	%rdx, %r11
	movq	104(%rsp), %rcx
	movzbl	(%rcx), %edx
	movq	%r8, 200(%rsp)
	movq	%r13, 208(%rsp)
	movq	%rbp, 216(%rsp)
	movq	%r10, 224(%rsp)
	movq	%rax, 232(%rsp)
	movq	%r11, 240(%rsp)
	movb	%dl, 40(%rsp)
	leaq	200(%rsp), %rax
	movq	%rax, 32(%rsp)
	movq	56(%rsp), %rcx
	movq	80(%rsp), %rdx
	movq	128(%rsp), %r8
	movq	176(%rsp), %r9
	callq	"pix_raster::view::blit_overlap::<#79e97ac7f662bd7a>"
	jmp	.LBB9_1189
.LBB9_843:
	movq	%r12, 56(%rsp)
	testq	%r15, %r15
	je	.LBB9_1189
	subq	%rsi, %rcx
	movabsq	$4294967296, %r8
	addq	%r8, %rcx
	cmpq	%r8, %rcx
	movq	%r8, %r10
	cmovaq	%rcx, %r10
	movabsq	$-4294967296, %r9
	addq	%rbx, %rcx
	orq	%r8, %r15
	cmpq	%rcx, %r15
	cmovaeq	%rcx, %r15
	leaq	(%r10,%r9), %r11
	xorl	%ecx, %ecx
	cmpq	%r10, %r15
	cmovbeq	%rcx, %r11
	movq	%r11, 72(%rsp)
	subq	112(%rsp), %rax
	addq	%r8, %rax
	cmpq	%r8, %rax
	movq	%r8, %r11
	cmovaq	%rax, %r11
	addq	%rdx, %rax
	movq	64(%rsp), %rdx
	orq	%r8, %rdx
	cmpq	%rax, %rdx
	cmovaeq	%rax, %rdx
	leaq	(%r11,%r9), %rbp
	cmpq	%r11, %rdx
	cmovbeq	%rcx, %rbp
	jbe	.LBB9_1189
	movq	%rdx, %rax
	addq	%r9, %rax
	movq	%rax, 64(%rsp)
	cmpq	%rbp, %rax
	jbe	.LBB9_1189
	movq	128(%rsp), %rax
	movl	(%rax), %ebx
	movzbl	%bh, %esi
	movl	%ebx, %edi
	shrl	$16, %edi
	movl	%ebx, %r8d
	shrl	$24, %r8d
	addq	%r15, %r9
	xorl	%r14d, %r14d
	cmpq	%r10, %r15
	cmovaq	%r9, %r14
	movq	72(%rsp), %rax
	subq	%rax, %r14
	movl	%ebx, %ecx
	shrl	$8, %ecx
	movd	%ebx, %xmm0
	pinsrb	$1, %ecx, %xmm0
	pinsrb	$2, %edi, %xmm0
	pinsrb	$3, %r8d, %xmm0
	pinsrb	$4, %ebx, %xmm0
	pinsrb	$5, %ecx, %xmm0
	pinsrb	$6, %edi, %xmm0
	pinsrb	$7, %r8d, %xmm0
	pinsrb	$8, %ebx, %xmm0
	pinsrb	$9, %ecx, %xmm0
	pinsrb	$10, %edi, %xmm0
	pinsrb	$11, %r8d, %xmm0
	pinsrb	$12, %ebx, %xmm0
	pinsrb	$13, %ecx, %xmm0
	pinsrb	$14, %edi, %xmm0
	movq	%r14, %r10
	movdqa	%xmm0, %xmm1
	pinsrb	$15, %r8d, %xmm1
	shrq	$4, %r10
	movdqa	%xmm1, %xmm2
	psrld	$24, %xmm2
	movdqa	%xmm2, %xmm3
	pshufb	.LCPI9_8(%rip), %xmm3
	movdqa	.LCPI9_0(%rip), %xmm4
	pand	%xmm4, %xmm0
	psrlw	$8, %xmm1
	movq	%r14, %r9
	andq	$-16, %r9
	movl	%r14d, %r11d
	andl	$15, %r11d
	leal	(,%r14,4), %r13d
	movzbl	%dil, %ecx
	movd	%ecx, %xmm12
	movl	%r13d, %ecx
	pshufb	.LCPI9_9(%rip), %xmm2
	andl	$32, %ecx
	movq	%rcx, 176(%rsp)
	movdqa	%xmm2, %xmm5
	pand	%xmm4, %xmm5
	movdqa	%xmm5, 256(%rsp)
	psrlw	$8, %xmm2
	movdqa	%xmm2, 144(%rsp)
	pinsrw	$1, %r8d, %xmm12
	pinsrw	$2, %esi, %xmm12
	movl	%r14d, %r15d
	movzbl	%bl, %ecx
	pinsrw	$3, %ecx, %xmm12
	andl	$12, %r15d
	movd	%r8d, %xmm2
	pshuflw	$0, %xmm2, %xmm13
	movq	%rbp, %rcx
	movq	80(%rsp), %r8
	imulq	%r8, %rcx
	addq	%rax, %rcx
	movq	56(%rsp), %rax
	leaq	(%rax,%rcx,4), %r12
	andl	$48, %r13d
	leaq	(,%r9,4), %rdx
	addq	%r13, %rdx
	leaq	(%rdx,%rcx,4), %r13
	leaq	(,%r8,4), %rdi
	addq	%rax, %r13
	movdqa	%xmm12, 128(%rsp)
	movdqa	%xmm13, 112(%rsp)
	jmp	.LBB9_847
.LBB9_858:
	incq	%rbp
	addq	%rdi, %r12
	addq	%rdi, %r13
	cmpq	64(%rsp), %rbp
	je	.LBB9_1189
.LBB9_847:
	testq	%r10, %r10
	je	.LBB9_850
	movq	%r12, %rsi
	movq	%r10, %r8
	.p2align	4
.LBB9_849:
	pcmpeqd	%xmm8, %xmm8
	movdqu	(%rsi), %xmm6
	movdqu	16(%rsi), %xmm7
	movdqu	32(%rsi), %xmm9
	movdqu	48(%rsi), %xmm10
	movdqa	%xmm7, %xmm15
	pxor	%xmm8, %xmm15
	movdqa	%xmm6, %xmm14
	pxor	%xmm8, %xmm14
	movdqa	.LCPI9_5(%rip), %xmm13
	pshufb	%xmm13, %xmm14
	pshufb	%xmm13, %xmm15
	movdqa	%xmm0, %xmm2
	pmullw	%xmm15, %xmm2
	movdqa	%xmm0, %xmm5
	pmullw	%xmm14, %xmm5
	movdqa	.LCPI9_1(%rip), %xmm11
	paddw	%xmm11, %xmm5
	paddw	%xmm11, %xmm2
	movdqa	.LCPI9_2(%rip), %xmm12
	pmulhuw	%xmm12, %xmm2
	pmulhuw	%xmm12, %xmm5
	pmullw	%xmm1, %xmm14
	pmullw	%xmm1, %xmm15
	paddw	%xmm11, %xmm15
	paddw	%xmm11, %xmm14
	pmulhuw	%xmm12, %xmm14
	pmulhuw	%xmm12, %xmm15
	psllw	$8, %xmm15
	por	%xmm2, %xmm15
	psllw	$8, %xmm14
	por	%xmm5, %xmm14
	movdqa	%xmm6, %xmm5
	pand	%xmm4, %xmm5
	movdqa	%xmm7, %xmm2
	pand	%xmm4, %xmm2
	pmullw	%xmm3, %xmm2
	pmullw	%xmm3, %xmm5
	paddw	%xmm11, %xmm5
	paddw	%xmm11, %xmm2
	pmulhuw	%xmm12, %xmm2
	pmulhuw	%xmm12, %xmm5
	psrlw	$8, %xmm7
	psrlw	$8, %xmm6
	pmullw	%xmm3, %xmm6
	pmullw	%xmm3, %xmm7
	paddw	%xmm11, %xmm7
	paddw	%xmm11, %xmm6
	pmulhuw	%xmm12, %xmm6
	pmulhuw	%xmm12, %xmm7
	psllw	$8, %xmm7
	por	%xmm2, %xmm7
	paddusb	%xmm15, %xmm7
	psllw	$8, %xmm6
	por	%xmm5, %xmm6
	paddusb	%xmm14, %xmm6
	movdqu	%xmm6, (%rsi)
	movdqu	%xmm7, 16(%rsi)
	movdqa	%xmm10, %xmm2
	pxor	%xmm8, %xmm2
	pxor	%xmm9, %xmm8
	pshufb	%xmm13, %xmm8
	pshufb	%xmm13, %xmm2
	movdqa	%xmm0, %xmm5
	pmullw	%xmm2, %xmm5
	movdqa	%xmm0, %xmm6
	pmullw	%xmm8, %xmm6
	paddw	%xmm11, %xmm6
	paddw	%xmm11, %xmm5
	pmulhuw	%xmm12, %xmm5
	pmulhuw	%xmm12, %xmm6
	pmullw	%xmm1, %xmm8
	pmullw	%xmm1, %xmm2
	paddw	%xmm11, %xmm2
	paddw	%xmm11, %xmm8
	pmulhuw	%xmm12, %xmm8
	pmulhuw	%xmm12, %xmm2
	psllw	$8, %xmm2
	por	%xmm5, %xmm2
	psllw	$8, %xmm8
	por	%xmm6, %xmm8
	movdqa	%xmm9, %xmm5
	pand	%xmm4, %xmm5
	movdqa	%xmm10, %xmm6
	pand	%xmm4, %xmm6
	pmullw	%xmm3, %xmm6
	pmullw	%xmm3, %xmm5
	paddw	%xmm11, %xmm5
	paddw	%xmm11, %xmm6
	pmulhuw	%xmm12, %xmm6
	pmulhuw	%xmm12, %xmm5
	psrlw	$8, %xmm10
	psrlw	$8, %xmm9
	pmullw	%xmm3, %xmm9
	pmullw	%xmm3, %xmm10
	paddw	%xmm11, %xmm10
	paddw	%xmm11, %xmm9
	pmulhuw	%xmm12, %xmm9
	pmulhuw	%xmm12, %xmm10
	psllw	$8, %xmm10
	por	%xmm6, %xmm10
	paddusb	%xmm2, %xmm10
	psllw	$8, %xmm9
	por	%xmm5, %xmm9
	paddusb	%xmm8, %xmm9
	movdqu	%xmm9, 32(%rsi)
	movdqu	%xmm10, 48(%rsi)
	addq	$64, %rsi
	decq	%r8
	jne	.LBB9_849
.LBB9_850:
	cmpq	%r14, %r9
	movdqa	128(%rsp), %xmm12
	movdqa	112(%rsp), %xmm13
	je	.LBB9_858
	movq	%rbp, %rcx
	imulq	80(%rsp), %rcx
	addq	72(%rsp), %rcx
	movq	56(%rsp), %rax
	leaq	(%rax,%rcx,4), %r8
	leaq	(,%r9,4), %rax
	addq	%rax, %r8
	testb	$8, %r14b
	jne	.LBB9_852
	testb	$4, %r14b
	jne	.LBB9_854
.LBB9_855:
	cmpl	%r11d, %r15d
	jae	.LBB9_858
	jmp	.LBB9_856
.LBB9_852:
	movdqu	(%r8), %xmm8
	movdqu	16(%r8), %xmm9
	pcmpeqd	%xmm10, %xmm10
	movdqa	%xmm9, %xmm2
	pxor	%xmm10, %xmm2
	pxor	%xmm8, %xmm10
	movdqa	.LCPI9_5(%rip), %xmm5
	pshufb	%xmm5, %xmm10
	pshufb	%xmm5, %xmm2
	movdqa	%xmm0, %xmm5
	pmullw	%xmm2, %xmm5
	movdqa	%xmm0, %xmm7
	pmullw	%xmm10, %xmm7
	movdqa	.LCPI9_1(%rip), %xmm6
	paddw	%xmm6, %xmm7
	paddw	%xmm6, %xmm5
	movdqa	.LCPI9_2(%rip), %xmm11
	pmulhuw	%xmm11, %xmm5
	pmulhuw	%xmm11, %xmm7
	pmullw	%xmm1, %xmm10
	pmullw	%xmm1, %xmm2
	paddw	%xmm6, %xmm2
	paddw	%xmm6, %xmm10
	pmulhuw	%xmm11, %xmm10
	pmulhuw	%xmm11, %xmm2
	psllw	$8, %xmm2
	por	%xmm5, %xmm2
	psllw	$8, %xmm10
	por	%xmm7, %xmm10
	movdqa	%xmm8, %xmm5
	pand	%xmm4, %xmm5
	movdqa	%xmm9, %xmm7
	pand	%xmm4, %xmm7
	pmullw	%xmm3, %xmm7
	pmullw	%xmm3, %xmm5
	paddw	%xmm6, %xmm5
	paddw	%xmm6, %xmm7
	pmulhuw	%xmm11, %xmm7
	pmulhuw	%xmm11, %xmm5
	psrlw	$8, %xmm9
	psrlw	$8, %xmm8
	pmullw	%xmm3, %xmm8
	pmullw	%xmm3, %xmm9
	paddw	%xmm6, %xmm9
	paddw	%xmm6, %xmm8
	pmulhuw	%xmm11, %xmm8
	pmulhuw	%xmm11, %xmm9
	psllw	$8, %xmm9
	por	%xmm7, %xmm9
	paddusb	%xmm2, %xmm9
	psllw	$8, %xmm8
	por	%xmm5, %xmm8
	paddusb	%xmm10, %xmm8
	movdqu	%xmm8, (%r8)
	movdqu	%xmm9, 16(%r8)
	testb	$4, %r14b
	je	.LBB9_855
.LBB9_854:
	movq	176(%rsp), %rax
	movdqu	(%r8,%rax), %xmm2
	pcmpeqd	%xmm6, %xmm6
	movdqa	%xmm2, %xmm5
	pshufb	.LCPI9_6(%rip), %xmm5
	pxor	%xmm5, %xmm6
	pandn	%xmm4, %xmm5
	pmullw	%xmm0, %xmm5
	movdqa	.LCPI9_1(%rip), %xmm7
	paddw	%xmm7, %xmm5
	movdqa	.LCPI9_2(%rip), %xmm8
	pmulhuw	%xmm8, %xmm5
	psrlw	$8, %xmm6
	pmullw	%xmm1, %xmm6
	paddw	%xmm7, %xmm6
	pmulhuw	%xmm8, %xmm6
	psllw	$8, %xmm6
	por	%xmm5, %xmm6
	movdqa	%xmm2, %xmm5
	pand	%xmm4, %xmm5
	pmullw	256(%rsp), %xmm5
	paddw	%xmm7, %xmm5
	pmulhuw	%xmm8, %xmm5
	psrlw	$8, %xmm2
	pmullw	144(%rsp), %xmm2
	paddw	%xmm7, %xmm2
	pmulhuw	%xmm8, %xmm2
	psllw	$8, %xmm2
	por	%xmm5, %xmm2
	paddusb	%xmm6, %xmm2
	movdqu	%xmm2, (%r8,%rax)
	cmpl	%r11d, %r15d
	jae	.LBB9_858
.LBB9_856:
	movq	%r13, %r8
	movq	%r15, %rsi
	.p2align	4
.LBB9_857:
	movl	(%r8), %eax
	movzbl	%ah, %ebx
	movl	%eax, %ecx
	movl	%eax, %edx
	shrl	$16, %edx
	shrl	$24, %ecx
	movzbl	%dl, %edx
	movd	%edx, %xmm2
	pinsrw	$1, %ecx, %xmm2
	movzbl	%al, %eax
	xorl	$255, %ecx
	movd	%ecx, %xmm5
	pshuflw	$0, %xmm5, %xmm5
	pmullw	%xmm12, %xmm5
	movdqa	.LCPI9_3(%rip), %xmm6
	paddw	%xmm6, %xmm5
	movdqa	%xmm5, %xmm7
	psrlw	$8, %xmm7
	paddw	%xmm5, %xmm7
	psrlw	$8, %xmm7
	pinsrw	$2, %ebx, %xmm2
	pinsrw	$3, %eax, %xmm2
	packuswb	%xmm7, %xmm7
	pmullw	%xmm13, %xmm2
	paddw	%xmm6, %xmm2
	movdqa	%xmm2, %xmm5
	psrlw	$8, %xmm5
	paddw	%xmm2, %xmm5
	psrlw	$8, %xmm5
	packuswb	%xmm5, %xmm5
	paddusb	%xmm7, %xmm5
	pmovzxbd	%xmm5, %xmm2
	pmulld	.LCPI9_4(%rip), %xmm2
	pshufd	$238, %xmm2, %xmm5
	por	%xmm2, %xmm5
	pshufd	$85, %xmm5, %xmm2
	por	%xmm5, %xmm2
	movd	%xmm2, (%r8)
	incq	%rsi
	addq	$4, %r8
	cmpq	%r11, %rsi
	jb	.LBB9_857
	jmp	.LBB9_858
.LBB9_1133:
	testq	%r15, %r15
	je	.LBB9_1189
	subq	%rsi, %r13
	movabsq	$4294967296, %rcx
	addq	%rcx, %r13
	cmpq	%rcx, %r13
	movq	%rcx, %r9
	cmovaq	%r13, %r9
	movabsq	$-4294967296, %rdx
	addq	%r8, %r13
	orq	%rcx, %r15
	cmpq	%r13, %r15
	cmovaeq	%r13, %r15
	leaq	(%r9,%rdx), %r10
	xorl	%r8d, %r8d
	cmpq	%r9, %r15
	cmovbeq	%r8, %r10
	subq	64(%rsp), %rax
	addq	%rcx, %rax
	cmpq	%rcx, %rax
	movq	%rcx, %rsi
	cmovaq	%rax, %rsi
	addq	112(%rsp), %rax
	orq	%rcx, %r14
	cmpq	%rax, %r14
	cmovaeq	%rax, %r14
	leaq	(%rsi,%rdx), %rax
	cmpq	%rsi, %r14
	cmovbeq	%r8, %rax
	jbe	.LBB9_1189
	addq	%rdx, %r14
	cmpq	%rax, %r14
	jbe	.LBB9_1189
	addq	%r15, %rdx
	xorl	%ecx, %ecx
	cmpq	%r9, %r15
	cmovaq	%rdx, %rcx
	subq	%r10, %rcx
	je	.LBB9_1189
	movq	128(%rsp), %rdx
	movl	(%rdx), %edx
	movq	%rcx, %r8
	andq	$-8, %r8
	movd	%edx, %xmm0
	pshufd	$0, %xmm0, %xmm0
	movq	%rax, %r11
	movq	80(%rsp), %rsi
	imulq	%rsi, %r11
	leaq	(,%r10,4), %r9
	leaq	(%r9,%r11,4), %r9
	addq	%r12, %r9
	addq	$16, %r9
	shlq	$2, %rsi
	addq	%r10, %r11
	leaq	(%r12,%r11,4), %r10
	jmp	.LBB9_1138
.LBB9_1142:
	incq	%rax
	addq	%rsi, %r9
	addq	%rsi, %r10
	cmpq	%r14, %rax
	je	.LBB9_1189
.LBB9_1138:
	xorl	%r11d, %r11d
	cmpq	$8, %rcx
	jb	.LBB9_1141
	.p2align	4
.LBB9_1139:
	movdqu	%xmm0, -16(%r9,%r11,4)
	movdqu	%xmm0, (%r9,%r11,4)
	addq	$8, %r11
	cmpq	%r11, %r8
	jne	.LBB9_1139
	movq	%r8, %r11
	cmpq	%r8, %rcx
	je	.LBB9_1142
	.p2align	4
.LBB9_1141:
	movl	%edx, (%r10,%r11,4)
	incq	%r11
	cmpq	%r11, %rcx
	jne	.LBB9_1141
	jmp	.LBB9_1142
.LBB9_881:
	movq	%r8, 168(%rsp)
	testq	%r15, %r15
	je	.LBB9_1189
	movq	%r13, %rdi
	shrq	$32, %rdi
	subq	%rsi, %rcx
	movabsq	$4294967296, %rsi
	movl	%r14d, %r8d
	leaq	(%rcx,%rsi), %r14
	leaq	(%r9,%rsi), %r11
	cmpq	%r14, %r11
	movq	%r10, 144(%rsp)
	movq	%r14, %r10
	cmovbq	%r11, %r10
	xorl	%r11d, %r11d
	movq	%r12, 56(%rsp)
	movq	%rsi, %r12
	subq	%r10, %r12
	cmovbq	%r11, %r12
	orq	%rsi, %r15
	subq	%r14, %r15
	cmovbq	%r11, %r15
	movl	%r13d, %r10d
	orq	%rsi, %r10
	leaq	(%r9,%rsi), %r14
	subq	%r14, %r10
	cmovbq	%r11, %r10
	cmpl	%ebx, %ebp
	cmovbl	%ebp, %ebx
	cmpq	%rbx, %r15
	cmovaeq	%rbx, %r15
	cmpq	%r15, %r10
	cmovbq	%r10, %r15
	leaq	(%r12,%rcx), %rbx
	addq	%r15, %rcx
	addq	%r12, %r9
	cmpq	%r12, %r15
	cmovbeq	%r11, %rbx
	cmovbeq	%r11, %rcx
	cmovbeq	%r11, %r9
	subq	112(%rsp), %rax
	leaq	(%rax,%rsi), %r10
	movq	72(%rsp), %r13
	leaq	(%rsi,%r13), %r15
	cmpq	%r10, %r15
	movq	%r10, %r12
	cmovbq	%r15, %r12
	movq	%rsi, %r14
	subq	%r12, %r14
	cmovbq	%r11, %r14
	movq	64(%rsp), %r12
	orq	%rsi, %r12
	subq	%r10, %r12
	cmovbq	%r11, %r12
	orq	%rsi, %rdi
	subq	%r15, %rdi
	cmovbq	%r11, %rdi
	cmpl	%edx, %r8d
	cmovbl	%r8d, %edx
	cmpq	%rdx, %r12
	cmovaeq	%rdx, %r12
	cmpq	%r12, %rdi
	cmovbq	%rdi, %r12
	leaq	(%r14,%rax), %rdx
	addq	%r12, %rax
	addq	%r14, %r13
	cmpq	%r14, %r12
	cmovbeq	%r11, %rdx
	cmovbeq	%r11, %rax
	cmovbeq	%r11, %r13
	movq	168(%rsp), %r8
	movzbl	(%r8), %r10d
	movq	%rbx, 200(%rsp)
	movq	%rcx, 208(%rsp)
	movq	%r9, 216(%rsp)
	movq	%rdx, 224(%rsp)
	movq	%rax, 232(%rsp)
	movq	%r13, 240(%rsp)
	movb	%r10b, 40(%rsp)
	leaq	200(%rsp), %rax
	movq	%rax, 32(%rsp)
	movq	56(%rsp), %rcx
	movq	80(%rsp), %rdx
	movq	128(%rsp), %r8
	movq	144(%rsp), %r9
	callq	"pix_raster::view::blit_overlap::<#9d2a39c7bba67463>"
	jmp	.LBB9_1189
.LBB9_830:
	testq	%r15, %r15
	je	.LBB9_1189
	subq	%rsi, %rcx
	movabsq	$4294967296, %r11
	addq	%r11, %rcx
	cmpq	%r11, %rcx
	movq	%r11, %r9
	cmovaq	%rcx, %r9
	movabsq	$-4294967296, %r8
	addq	%rbx, %rcx
	orq	%r11, %r15
	cmpq	%rcx, %r15
	cmovaeq	%rcx, %r15
	leaq	(%r9,%r8), %r10
	xorl	%ecx, %ecx
	cmpq	%r9, %r15
	cmovbeq	%rcx, %r10
	subq	112(%rsp), %rax
	addq	%r11, %rax
	cmpq	%r11, %rax
	movq	%r11, %rsi
	cmovaq	%rax, %rsi
	addq	%rdx, %rax
	movq	64(%rsp), %rdi
	orq	%r11, %rdi
	cmpq	%rax, %rdi
	cmovaeq	%rax, %rdi
	leaq	(%rsi,%r8), %rax
	cmpq	%rsi, %rdi
	cmovbeq	%rcx, %rax
	jbe	.LBB9_1189
	movq	%rdi, %rdx
	addq	%r8, %rdx
	cmpq	%rax, %rdx
	jbe	.LBB9_1189
	addq	%r15, %r8
	xorl	%ecx, %ecx
	cmpq	%r9, %r15
	cmovaq	%r8, %rcx
	subq	%r10, %rcx
	je	.LBB9_1189
	movq	%rdx, %rdi
	movq	128(%rsp), %rdx
	movl	(%rdx), %edx
	movq	%rcx, %r8
	andq	$-8, %r8
	movd	%edx, %xmm0
	pshufd	$0, %xmm0, %xmm0
	movq	%rax, %r11
	movq	80(%rsp), %rsi
	imulq	%rsi, %r11
	leaq	(,%r10,4), %r9
	leaq	(%r9,%r11,4), %r9
	addq	%r12, %r9
	addq	$16, %r9
	shlq	$2, %rsi
	addq	%r10, %r11
	leaq	(%r12,%r11,4), %r10
	jmp	.LBB9_835
.LBB9_839:
	incq	%rax
	addq	%rsi, %r9
	addq	%rsi, %r10
	cmpq	%rdi, %rax
	je	.LBB9_1189
.LBB9_835:
	xorl	%r11d, %r11d
	cmpq	$8, %rcx
	jb	.LBB9_838
	.p2align	4
.LBB9_836:
	movdqu	%xmm0, -16(%r9,%r11,4)
	movdqu	%xmm0, (%r9,%r11,4)
	addq	$8, %r11
	cmpq	%r11, %r8
	jne	.LBB9_836
	movq	%r8, %r11
	cmpq	%r8, %rcx
	je	.LBB9_839
	.p2align	4
.LBB9_838:
	movl	%edx, (%r10,%r11,4)
	incq	%r11
	cmpq	%r11, %rcx
	jne	.LBB9_838
	jmp	.LBB9_839
.LBB9_209:
	testq	%r15, %r15
	je	.LBB9_1189
	subq	%rsi, %r8
	movabsq	$4294967296, %rcx
	addq	%rcx, %r8
	cmpq	%rcx, %r8
	movq	%rcx, %r10
	cmovaq	%r8, %r10
	movabsq	$-4294967296, %r9
	addq	%r11, %r8
	orq	%rcx, %r15
	cmpq	%r8, %r15
	cmovaeq	%r8, %r15
	leaq	(%r10,%r9), %r11
	xorl	%r8d, %r8d
	cmpq	%r10, %r15
	cmovbeq	%r8, %r11
	movq	%r11, 112(%rsp)
	subq	%r14, %rdx
	addq	%rcx, %rdx
	cmpq	%rcx, %rdx
	movq	%rcx, %r11
	cmovaq	%rdx, %r11
	addq	%rax, %rdx
	movq	80(%rsp), %rsi
	orq	%rcx, %rsi
	cmpq	%rdx, %rsi
	cmovaeq	%rdx, %rsi
	leaq	(%r11,%r9), %rax
	cmpq	%r11, %rsi
	cmovbeq	%r8, %rax
	jbe	.LBB9_1189
	movq	%rsi, %rcx
	addq	%r9, %rcx
	cmpq	%rax, %rcx
	jbe	.LBB9_1189
	movq	%rcx, %r14
	movq	128(%rsp), %rcx
	movl	(%rcx), %ecx
	movl	%ecx, %edx
	movl	%ecx, %r11d
	shrl	$8, %r11d
	movl	%ecx, %ebp
	shrl	$24, %ebp
	shrl	$16, %ecx
	addq	%r15, %r9
	xorl	%r8d, %r8d
	cmpq	%r10, %r15
	cmovaq	%r9, %r8
	movq	112(%rsp), %r15
	subq	%r15, %r8
	movq	%r8, %r10
	shrq	$4, %r10
	movzbl	%r11b, %edi
	movzbl	%dl, %esi
	movd	%esi, %xmm0
	pinsrb	$1, %edi, %xmm0
	movzbl	%cl, %ebx
	pinsrb	$2, %ebx, %xmm0
	movzbl	%bpl, %ebp
	pinsrb	$3, %ebp, %xmm0
	pinsrb	$4, %esi, %xmm0
	pinsrb	$5, %edi, %xmm0
	pinsrb	$6, %ebx, %xmm0
	pinsrb	$7, %ebp, %xmm0
	pinsrb	$8, %esi, %xmm0
	pinsrb	$9, %edi, %xmm0
	pinsrb	$10, %ebx, %xmm0
	pinsrb	$11, %ebp, %xmm0
	pinsrb	$12, %esi, %xmm0
	pinsrb	$13, %edi, %xmm0
	pinsrb	$14, %ebx, %xmm0
	pinsrb	$15, %ebp, %xmm0
	pcmpeqd	%xmm1, %xmm1
	pxor	%xmm0, %xmm1
	psrld	$24, %xmm1
	movdqa	%xmm1, %xmm2
	pshufb	.LCPI9_8(%rip), %xmm2
	movq	%r8, %r9
	andq	$-16, %r9
	movl	%r8d, %r11d
	andl	$15, %r11d
	leal	(,%r8,4), %r13d
	movd	%ebx, %xmm3
	movl	%r13d, %ecx
	andl	$32, %ecx
	movq	%rcx, 128(%rsp)
	pshufb	.LCPI9_9(%rip), %xmm1
	movdqa	.LCPI9_0(%rip), %xmm4
	pand	%xmm1, %xmm4
	psrlw	$8, %xmm1
	pinsrb	$1, %ebp, %xmm3
	movl	%ebp, %ecx
	notb	%cl
	movzbl	%cl, %ecx
	movd	%ecx, %xmm5
	movl	%r8d, %ecx
	andl	$12, %ecx
	movq	%rcx, 80(%rsp)
	pinsrb	$2, %edi, %xmm3
	pshuflw	$0, %xmm5, %xmm5
	pinsrb	$3, %esi, %xmm3
	movq	%rax, %rcx
	movq	64(%rsp), %rdi
	imulq	%rdi, %rcx
	addq	%r15, %rcx
	movq	56(%rsp), %rsi
	leaq	(%rsi,%rcx,4), %r12
	andl	$48, %r13d
	leaq	(,%r9,4), %rdx
	addq	%r13, %rdx
	leaq	(%rdx,%rcx,4), %r13
	leaq	(,%rdi,4), %rbp
	addq	%rsi, %r13
	jmp	.LBB9_213
.LBB9_224:
	incq	%rax
	addq	%rbp, %r12
	addq	%rbp, %r13
	cmpq	%r14, %rax
	je	.LBB9_1189
.LBB9_213:
	testq	%r10, %r10
	je	.LBB9_216
	movq	%r12, %rsi
	movq	%r10, %rdi
	.p2align	4
.LBB9_215:
	movdqa	.LCPI9_0(%rip), %xmm8
	movdqu	(%rsi), %xmm11
	movdqu	16(%rsi), %xmm12
	movdqu	32(%rsi), %xmm6
	movdqu	48(%rsi), %xmm7
	movdqa	%xmm11, %xmm13
	pand	%xmm8, %xmm13
	movdqa	%xmm12, %xmm14
	pand	%xmm8, %xmm14
	pmullw	%xmm2, %xmm14
	pmullw	%xmm2, %xmm13
	movdqa	.LCPI9_1(%rip), %xmm9
	paddw	%xmm9, %xmm13
	paddw	%xmm9, %xmm14
	movdqa	.LCPI9_2(%rip), %xmm10
	pmulhuw	%xmm10, %xmm14
	pmulhuw	%xmm10, %xmm13
	psrlw	$8, %xmm12
	psrlw	$8, %xmm11
	pmullw	%xmm2, %xmm11
	pmullw	%xmm2, %xmm12
	paddw	%xmm9, %xmm12
	paddw	%xmm9, %xmm11
	pmulhuw	%xmm10, %xmm11
	pmulhuw	%xmm10, %xmm12
	psllw	$8, %xmm12
	por	%xmm14, %xmm12
	psllw	$8, %xmm11
	por	%xmm13, %xmm11
	paddusb	%xmm0, %xmm12
	paddusb	%xmm0, %xmm11
	movdqu	%xmm11, (%rsi)
	movdqu	%xmm12, 16(%rsi)
	movdqa	%xmm6, %xmm11
	pand	%xmm8, %xmm11
	pand	%xmm7, %xmm8
	pmullw	%xmm2, %xmm8
	pmullw	%xmm2, %xmm11
	paddw	%xmm9, %xmm11
	paddw	%xmm9, %xmm8
	pmulhuw	%xmm10, %xmm8
	pmulhuw	%xmm10, %xmm11
	psrlw	$8, %xmm7
	psrlw	$8, %xmm6
	pmullw	%xmm2, %xmm6
	pmullw	%xmm2, %xmm7
	paddw	%xmm9, %xmm7
	paddw	%xmm9, %xmm6
	pmulhuw	%xmm10, %xmm6
	pmulhuw	%xmm10, %xmm7
	psllw	$8, %xmm7
	por	%xmm8, %xmm7
	psllw	$8, %xmm6
	por	%xmm11, %xmm6
	paddusb	%xmm0, %xmm7
	paddusb	%xmm0, %xmm6
	movdqu	%xmm6, 32(%rsi)
	movdqu	%xmm7, 48(%rsi)
	addq	$64, %rsi
	decq	%rdi
	jne	.LBB9_215
.LBB9_216:
	cmpq	%r8, %r9
	je	.LBB9_224
	movq	%rax, %rcx
	imulq	64(%rsp), %rcx
	addq	112(%rsp), %rcx
	movq	56(%rsp), %rdx
	leaq	(%rdx,%rcx,4), %rsi
	leaq	(,%r9,4), %rcx
	addq	%rcx, %rsi
	testb	$8, %r8b
	jne	.LBB9_218
	testb	$4, %r8b
	jne	.LBB9_220
.LBB9_221:
	cmpl	%r11d, 80(%rsp)
	jae	.LBB9_224
	jmp	.LBB9_222
.LBB9_218:
	movdqu	(%rsi), %xmm6
	movdqu	16(%rsi), %xmm7
	movdqa	.LCPI9_0(%rip), %xmm9
	movdqa	%xmm6, %xmm8
	pand	%xmm9, %xmm8
	pand	%xmm7, %xmm9
	pmullw	%xmm2, %xmm9
	pmullw	%xmm2, %xmm8
	movdqa	.LCPI9_1(%rip), %xmm10
	paddw	%xmm10, %xmm8
	paddw	%xmm10, %xmm9
	movdqa	.LCPI9_2(%rip), %xmm11
	pmulhuw	%xmm11, %xmm9
	pmulhuw	%xmm11, %xmm8
	psrlw	$8, %xmm7
	psrlw	$8, %xmm6
	pmullw	%xmm2, %xmm6
	pmullw	%xmm2, %xmm7
	paddw	%xmm10, %xmm7
	paddw	%xmm10, %xmm6
	pmulhuw	%xmm11, %xmm6
	pmulhuw	%xmm11, %xmm7
	psllw	$8, %xmm7
	por	%xmm9, %xmm7
	psllw	$8, %xmm6
	por	%xmm8, %xmm6
	paddusb	%xmm0, %xmm7
	paddusb	%xmm0, %xmm6
	movdqu	%xmm6, (%rsi)
	movdqu	%xmm7, 16(%rsi)
	testb	$4, %r8b
	je	.LBB9_221
.LBB9_220:
	movq	128(%rsp), %rcx
	movdqu	(%rsi,%rcx), %xmm6
	movdqa	.LCPI9_0(%rip), %xmm7
	pand	%xmm6, %xmm7
	pmullw	%xmm4, %xmm7
	movdqa	.LCPI9_1(%rip), %xmm8
	paddw	%xmm8, %xmm7
	movdqa	.LCPI9_2(%rip), %xmm9
	pmulhuw	%xmm9, %xmm7
	psrlw	$8, %xmm6
	pmullw	%xmm1, %xmm6
	paddw	%xmm8, %xmm6
	pmulhuw	%xmm9, %xmm6
	psllw	$8, %xmm6
	por	%xmm7, %xmm6
	paddusb	%xmm0, %xmm6
	movdqu	%xmm6, (%rsi,%rcx)
	cmpl	%r11d, 80(%rsp)
	jae	.LBB9_224
.LBB9_222:
	movq	%r13, %rsi
	movq	80(%rsp), %rdi
	.p2align	4
.LBB9_223:
	movl	(%rsi), %ebx
	movzbl	%bh, %ecx
	movl	%ebx, %edx
	movzbl	%bl, %r15d
	shrl	$16, %ebx
	shrl	$24, %edx
	movzbl	%bl, %ebx
	movd	%ebx, %xmm6
	pinsrw	$1, %edx, %xmm6
	pinsrw	$2, %ecx, %xmm6
	pinsrw	$3, %r15d, %xmm6
	pmullw	%xmm5, %xmm6
	paddw	.LCPI9_3(%rip), %xmm6
	movdqa	%xmm6, %xmm7
	psrlw	$8, %xmm7
	paddw	%xmm6, %xmm7
	psrlw	$8, %xmm7
	packuswb	%xmm7, %xmm7
	paddusb	%xmm3, %xmm7
	pmovzxbd	%xmm7, %xmm6
	pmulld	.LCPI9_4(%rip), %xmm6
	pshufd	$238, %xmm6, %xmm7
	por	%xmm6, %xmm7
	pshufd	$85, %xmm7, %xmm6
	por	%xmm7, %xmm6
	movd	%xmm6, (%rsi)
	incq	%rdi
	addq	$4, %rsi
	cmpq	%r11, %rdi
	jb	.LBB9_223
	jmp	.LBB9_224
.LBB9_297:
	testq	%r15, %r15
	je	.LBB9_1189
	movq	%r13, %rdi
	shrq	$32, %rdi
	subq	%rsi, %rcx
	movl	%ebp, 144(%rsp)
	movabsq	$4294967296, %rbp
	leaq	(%rcx,%rbp), %rsi
	leaq	(%rdx,%rbp), %r11
	cmpq	%rsi, %r11
	movq	%r8, 72(%rsp)
	movq	%rsi, %r8
	cmovbq	%r11, %r8
	xorl	%esi, %esi
	movq	%rbp, %r12
	subq	%r8, %r12
	cmovbq	%rsi, %r12
	orq	%rbp, %r15
	leaq	(%rcx,%rbp), %r8
	subq	%r8, %r15
	cmovbq	%rsi, %r15
	movl	%r13d, %r8d
	orq	%rbp, %r8
	subq	%r11, %r8
	cmovbq	%rsi, %r8
	cmpl	%r9d, %r10d
	cmovbl	%r10d, %r9d
	cmpq	%r9, %r15
	cmovaeq	%r9, %r15
	cmpq	%r15, %r8
	cmovbq	%r8, %r15
	leaq	(%r12,%rcx), %r9
	addq	%r15, %rcx
	addq	%r12, %rdx
	cmpq	%r12, %r15
	cmovbeq	%rsi, %r9
	cmovbeq	%rsi, %rcx
	cmovbeq	%rsi, %rdx
	subq	128(%rsp), %rbx
	leaq	(%rbx,%rbp), %r8
	movq	112(%rsp), %r11
	leaq	(%r11,%rbp), %r15
	cmpq	%r8, %r15
	movq	%r8, %r12
	cmovbq	%r15, %r12
	movq	%rbp, %r10
	subq	%r12, %r10
	cmovbq	%rsi, %r10
	orq	%rbp, %r14
	subq	%r8, %r14
	cmovbq	%rsi, %r14
	orq	%rbp, %rdi
	subq	%r15, %rdi
	cmovbq	%rsi, %rdi
	movl	144(%rsp), %r8d
	cmpl	%eax, %r8d
	cmovbl	%r8d, %eax
	cmpq	%rax, %r14
	cmovaeq	%rax, %r14
	cmpq	%r14, %rdi
	cmovbq	%rdi, %r14
	leaq	(%r10,%rbx), %rax
	addq	%r14, %rbx
	addq	%r10, %r11
	cmpq	%r10, %r14
	cmovbeq	%rsi, %rax
	cmovbeq	%rsi, %rbx
	cmovbeq	%rsi, %r11
	movq	%r9, 200(%rsp)
	movq	%rcx, 208(%rsp)
	movq	%rdx, 216(%rsp)
	movq	%rax, 224(%rsp)
	movq	%rbx, 232(%rsp)
	movq	%r11, 240(%rsp)
	leaq	200(%rsp), %rax
	movq	%rax, 32(%rsp)
	movq	56(%rsp), %rcx
	movq	64(%rsp), %rdx
	movq	80(%rsp), %r8
.LBB9_299:
	movq	72(%rsp), %r9
	callq	"pix_raster::view::blit_overlap::<#93a319759576dea8>"
	jmp	.LBB9_1189
.LBB9_247:
	movq	%rcx, 176(%rsp)
	testq	%r15, %r15
	je	.LBB9_1189
	movq	%r13, %rdi
	shrq	$32, %rdi
	subq	%rsi, %r8
	movl	%ebp, %ecx
	movabsq	$4294967296, %rbp
	movq	%r14, 256(%rsp)
	leaq	(%r8,%rbp), %r14
	leaq	(%r9,%rbp), %rsi
	cmpq	%r14, %rsi
	movq	%r10, 72(%rsp)
	movq	%r14, %r10
	cmovbq	%rsi, %r10
	xorl	%esi, %esi
	movq	%rbp, %r12
	subq	%r10, %r12
	cmovbq	%rsi, %r12
	orq	%rbp, %r15
	subq	%r14, %r15
	cmovbq	%rsi, %r15
	movl	%r13d, %r10d
	orq	%rbp, %r10
	leaq	(%r9,%rbp), %r14
	subq	%r14, %r10
	cmovbq	%rsi, %r10
	cmpl	%r11d, %ebx
	cmovbl	%ebx, %r11d
	cmpq	%r11, %r15
	cmovaeq	%r11, %r15
	cmpq	%r15, %r10
	cmovbq	%r10, %r15
	leaq	(%r12,%r8), %r11
	addq	%r15, %r8
	addq	%r12, %r9
	cmpq	%r12, %r15
	cmovbeq	%rsi, %r11
	cmovbeq	%rsi, %r8
	cmovbeq	%rsi, %r9
	subq	256(%rsp), %rdx
	leaq	(%rdx,%rbp), %r10
	movq	112(%rsp), %r12
	leaq	(%r12,%rbp), %r14
	cmpq	%r10, %r14
	movq	%r10, %r15
	cmovbq	%r14, %r15
	movq	%rbp, %rbx
	subq	%r15, %rbx
	cmovbq	%rsi, %rbx
	movq	80(%rsp), %r15
	orq	%rbp, %r15
	subq	%r10, %r15
	cmovbq	%rsi, %r15
	orq	%rbp, %rdi
	subq	%r14, %rdi
	cmovbq	%rsi, %rdi
	cmpl	%eax, %ecx
	cmovbl	%ecx, %eax
	cmpq	%rax, %r15
	cmovaeq	%rax, %r15
	cmpq	%r15, %rdi
	cmovbq	%rdi, %r15
	leaq	(%rbx,%rdx), %rax
	addq	%r15, %rdx
	addq	%rbx, %r12
	cmpq	%rbx, %r15
	cmovbeq	%rsi, %rax
	cmovbeq	%rsi, %rdx
	cmovbeq	%rsi, %r12
	movq	176(%rsp), %rcx
	movzbl	(%rcx), %r10d
	movq	%r11, 200(%rsp)
	movq	%r8, 208(%rsp)
	movq	%r9, 216(%rsp)
	movq	%rax, 224(%rsp)
	movq	%rdx, 232(%rsp)
	movq	%r12, 240(%rsp)
	movb	%r10b, 40(%rsp)
	leaq	200(%rsp), %rax
	movq	%rax, 32(%rsp)
	movq	56(%rsp), %rcx
	movq	64(%rsp), %rdx
	movq	128(%rsp), %r8
	movq	72(%rsp), %r9
	callq	"pix_raster::view::blit_overlap::<#ae9f661a91a09783>"
	jmp	.LBB9_1189
.LBB9_658:
	testq	%r15, %r15
	je	.LBB9_1189
	movq	%rbp, %rdi
	shrq	$32, %rdi
	subq	%rsi, %rcx
	movabsq	$4294967296, %rsi
	movq	%r8, %rax
	leaq	(%rcx,%rsi), %r8
	leaq	(%rdx,%rsi), %r10
	cmpq	%r8, %r10
	movq	%r13, 144(%rsp)
	movq	%r8, %r13
	cmovbq	%r10, %r13
	xorl	%r10d, %r10d
	movl	%r14d, 176(%rsp)
	movq	%rsi, %r14
	subq	%r13, %r14
	cmovbq	%r10, %r14
	orq	%rsi, %r15
	subq	%r8, %r15
	cmovbq	%r10, %r15
	movl	%ebp, %r8d
	orq	%rsi, %r8
	leaq	(%rdx,%rsi), %r13
	subq	%r13, %r8
	cmovbq	%r10, %r8
	cmpl	%r9d, %ebx
	cmovbl	%ebx, %r9d
	cmpq	%r9, %r15
	cmovaeq	%r9, %r15
	cmpq	%r15, %r8
	cmovbq	%r8, %r15
	leaq	(%r14,%rcx), %r9
	addq	%r15, %rcx
	addq	%r14, %rdx
	cmpq	%r14, %r15
	cmovbeq	%r10, %r9
	cmovbeq	%r10, %rcx
	cmovbeq	%r10, %rdx
	subq	112(%rsp), %r11
	leaq	(%r11,%rsi), %r8
	movq	%rax, %r13
	leaq	(%rax,%rsi), %r14
	cmpq	%r8, %r14
	movq	%r8, %r15
	cmovbq	%r14, %r15
	movq	%rsi, %rbx
	subq	%r15, %rbx
	cmovbq	%r10, %rbx
	movq	64(%rsp), %r15
	orq	%rsi, %r15
	subq	%r8, %r15
	cmovbq	%r10, %r15
	orq	%rsi, %rdi
	subq	%r14, %rdi
	cmovbq	%r10, %rdi
	movq	72(%rsp), %rax
	movl	176(%rsp), %r8d
	cmpl	%eax, %r8d
	cmovbl	%r8d, %eax
	cmpq	%rax, %r15
	cmovaeq	%rax, %r15
	cmpq	%r15, %rdi
	cmovbq	%rdi, %r15
	leaq	(%rbx,%r11), %rax
	addq	%r15, %r11
	movq	%r13, %r8
	addq	%rbx, %r8
	cmpq	%rbx, %r15
	cmovbeq	%r10, %rax
	cmovbeq	%r10, %r11
	cmovbeq	%r10, %r8
	movq	%r9, 200(%rsp)
	movq	%rcx, 208(%rsp)
	movq	%rdx, 216(%rsp)
	movq	%rax, 224(%rsp)
	movq	%r11, 232(%rsp)
	movq	%r8, 240(%rsp)
	leaq	200(%rsp), %rax
	movq	%rax, 32(%rsp)
	movq	%r12, %rcx
	movq	80(%rsp), %rdx
	jmp	.LBB9_750
.LBB9_408:
	movq	%rax, 104(%rsp)
	testq	%r15, %r15
	je	.LBB9_1189
	movq	%r8, 176(%rsp)
	movl	%r13d, 144(%rsp)
	movq	%rdi, %r13
	shrq	$32, %r13
	subq	%rsi, %rcx
	movabsq	$4294967296, %rsi
	leaq	(%rcx,%rsi), %r8
	leaq	(%rdx,%rsi), %rax
	cmpq	%r8, %rax
	cmovbq	%rax, %r8
	xorl	%r10d, %r10d
	movq	%rsi, %r14
	subq	%r8, %r14
	cmovbq	%r10, %r14
	orq	%rsi, %r15
	leaq	(%rcx,%rsi), %r8
	subq	%r8, %r15
	cmovbq	%r10, %r15
	movl	%edi, %r8d
	orq	%rsi, %r8
	subq	%rax, %r8
	cmovbq	%r10, %r8
	cmpl	%r9d, %r11d
	cmovbl	%r11d, %r9d
	cmpq	%r9, %r15
	cmovaeq	%r9, %r15
	cmpq	%r15, %r8
	cmovbq	%r8, %r15
	leaq	(%r14,%rcx), %r9
	addq	%r15, %rcx
	addq	%r14, %rdx
	cmpq	%r14, %r15
	cmovbeq	%r10, %r9
	cmovbeq	%r10, %rcx
	cmovbeq	%r10, %rdx
	subq	112(%rsp), %rbx
	leaq	(%rbx,%rsi), %r8
	leaq	(%rsi,%rbp), %rdi
	cmpq	%r8, %rdi
	movq	%r8, %r14
	cmovbq	%rdi, %r14
	movq	%rsi, %r11
	subq	%r14, %r11
	cmovbq	%r10, %r11
	movq	64(%rsp), %r14
	orq	%rsi, %r14
	subq	%r8, %r14
	cmovbq	%r10, %r14
	orq	%rsi, %r13
	subq	%rdi, %r13
	cmovbq	%r10, %r13
	movq	72(%rsp), %rax
	movl	144(%rsp), %r8d
	cmpl	%eax, %r8d
	cmovbl	%r8d, %eax
	cmpq	%rax, %r14
	cmovaeq	%rax, %r14
	cmpq	%r14, %r13
	cmovbq	%r13, %r14
	leaq	(%r11,%rbx), %rax
	addq	%r14, %rbx
	addq	%r11, %rbp
	cmpq	%r11, %r14
	cmovbeq	%r10, %rax
	cmovbeq	%r10, %rbx
	cmovbeq	%r10, %rbp
	movq	104(%rsp), %r8
	movl	(%r8), %r8d
	movq	%r9, 200(%rsp)
	movq	%rcx, 208(%rsp)
	movq	%rdx, 216(%rsp)
	movq	%rax, 224(%rsp)
	movq	%rbx, 232(%rsp)
	movq	%rbp, 240(%rsp)
	movl	%r8d, 40(%rsp)
	leaq	200(%rsp), %rax
	movq	%rax, 32(%rsp)
	movq	%r12, %rcx
	movq	128(%rsp), %rdx
	movq	80(%rsp), %r8
	movq	176(%rsp), %r9
	callq	"pix_raster::view::blit_overlap::<#2e778847ba9e3685>"
	jmp	.LBB9_1189
.LBB9_496:
	testq	%r15, %r15
	je	.LBB9_1189
	movq	%r13, %rdi
	shrq	$32, %rdi
	subq	%rsi, %rcx
	movabsq	$4294967296, %rsi
	leaq	(%rcx,%rsi), %r10
	leaq	(%rdx,%rsi), %rax
	cmpq	%r10, %rax
	movq	%r8, 144(%rsp)
	movq	%r10, %r8
	cmovbq	%rax, %r8
	xorl	%eax, %eax
	movq	%r14, %r10
	movq	%rsi, %r14
	subq	%r8, %r14
	cmovbq	%rax, %r14
	orq	%rsi, %r15
	leaq	(%rcx,%rsi), %r8
	subq	%r8, %r15
	cmovbq	%rax, %r15
	movl	%r13d, %r8d
	orq	%rsi, %r8
	leaq	(%rdx,%rsi), %r13
	subq	%r13, %r8
	cmovbq	%rax, %r8
	cmpl	%r9d, %r11d
	cmovbl	%r11d, %r9d
	cmpq	%r9, %r15
	cmovaeq	%r9, %r15
	cmpq	%r15, %r8
	cmovbq	%r8, %r15
	leaq	(%r14,%rcx), %r9
	addq	%r15, %rcx
	addq	%r14, %rdx
	cmpq	%r14, %r15
	movl	$0, %eax
	cmovbeq	%rax, %r9
	cmovbeq	%rax, %rcx
	cmovbeq	%rax, %rdx
	xorl	%r13d, %r13d
	subq	128(%rsp), %rbx
	leaq	(%rbx,%rsi), %r8
	leaq	(%r10,%rsi), %r14
	cmpq	%r8, %r14
	movq	%r8, %r15
	cmovbq	%r14, %r15
	movq	%rsi, %r11
	subq	%r15, %r11
	cmovbq	%r13, %r11
	orq	%rsi, %rbp
	subq	%r8, %rbp
	cmovbq	%r13, %rbp
	orq	%rsi, %rdi
	subq	%r14, %rdi
	cmovbq	%r13, %rdi
	movl	72(%rsp), %r8d
	movq	112(%rsp), %rax
	cmpl	%eax, %r8d
	cmovbl	%r8d, %eax
	cmpq	%rax, %rbp
	cmovaeq	%rax, %rbp
	cmpq	%rbp, %rdi
	cmovbq	%rdi, %rbp
	leaq	(%r11,%rbx), %rax
	addq	%rbp, %rbx
	addq	%r11, %r10
	cmpq	%r11, %rbp
	cmovbeq	%r13, %rax
	cmovbeq	%r13, %rbx
	cmovbeq	%r13, %r10
	movq	%r9, 200(%rsp)
	movq	%rcx, 208(%rsp)
	movq	%rdx, 216(%rsp)
	movq	%rax, 224(%rsp)
	movq	%rbx, 232(%rsp)
	movq	%r10, 240(%rsp)
	leaq	200(%rsp), %rax
	movq	%rax, 32(%rsp)
	movq	%r12, %rcx
	movq	80(%rsp), %rdx
	movq	64(%rsp), %r8
	movq	144(%rsp), %r9
	callq	"pix_raster::view::blit_overlap::<#6e2ae1f4eafa75b3>"
	jmp	.LBB9_1189
.LBB9_49:
	testq	%r15, %r15
	je	.LBB9_1189
	movq	%rsi, %r10
	shrq	$32, %r10
	subq	%rdi, %rbx
	movabsq	$4294967296, %rdi
	movl	%r13d, 176(%rsp)
	leaq	(%rbx,%rdi), %r13
	leaq	(%rdi,%rbp), %rcx
	cmpq	%r13, %rcx
	movq	%r14, 144(%rsp)
	movq	%r13, %r14
	cmovbq	%rcx, %r14
	xorl	%r9d, %r9d
	movq	%r12, 56(%rsp)
	movq	%rdi, %r12
	subq	%r14, %r12
	cmovbq	%r9, %r12
	orq	%rdi, %r15
	subq	%r13, %r15
	cmovbq	%r9, %r15
	movl	%esi, %esi
	orq	%rdi, %rsi
	subq	%rcx, %rsi
	cmovbq	%r9, %rsi
	cmpl	%edx, %r8d
	cmovbl	%r8d, %edx
	cmpq	%rdx, %r15
	cmovaeq	%rdx, %r15
	cmpq	%r15, %rsi
	cmovbq	%rsi, %r15
	leaq	(%r12,%rbx), %rdx
	addq	%r15, %rbx
	addq	%r12, %rbp
	cmpq	%r12, %r15
	cmovbeq	%r9, %rdx
	cmovbeq	%r9, %rbx
	cmovbeq	%r9, %rbp
	subq	112(%rsp), %rax
	leaq	(%rax,%rdi), %rsi
	movq	72(%rsp), %rcx
	leaq	(%rcx,%rdi), %r14
	cmpq	%rsi, %r14
	movq	%rsi, %r15
	cmovbq	%r14, %r15
	movq	%rdi, %r8
	subq	%r15, %r8
	cmovbq	%r9, %r8
	movq	80(%rsp), %r15
	orq	%rdi, %r15
	subq	%rsi, %r15
	cmovbq	%r9, %r15
	orq	%rdi, %r10
	subq	%r14, %r10
	cmovbq	%r9, %r10
	movl	176(%rsp), %esi
	cmpl	%r11d, %esi
	cmovbl	%esi, %r11d
	cmpq	%r11, %r15
	cmovaeq	%r11, %r15
	cmpq	%r15, %r10
	cmovbq	%r10, %r15
	leaq	(%r8,%rax), %r10
	addq	%r15, %rax
	addq	%r8, %rcx
	cmpq	%r8, %r15
	cmovbeq	%r9, %r10
	cmovbeq	%r9, %rax
	cmovbeq	%r9, %rcx
	movq	%rdx, 200(%rsp)
	movq	%rbx, 208(%rsp)
	movq	%rbp, 216(%rsp)
	movq	%r10, 224(%rsp)
	movq	%rax, 232(%rsp)
	movq	%rcx, 240(%rsp)
	leaq	200(%rsp), %rax
	movq	%rax, 32(%rsp)
	movq	56(%rsp), %rcx
	movq	64(%rsp), %rdx
	movq	128(%rsp), %r8
	movq	144(%rsp), %r9
	callq	"pix_raster::view::blit_overlap::<#93a319759576dea8>"
	jmp	.LBB9_1189
.LBB9_197:
	testq	%r15, %r15
	je	.LBB9_1189
	subq	%rsi, %r8
	movabsq	$4294967296, %rcx
	addq	%rcx, %r8
	cmpq	%rcx, %r8
	movq	%rcx, %rsi
	cmovaq	%r8, %rsi
	movabsq	$-4294967296, %r9
	addq	%r11, %r8
	orq	%rcx, %r15
	cmpq	%r8, %r15
	cmovaeq	%r8, %r15
	leaq	(%rsi,%r9), %r10
	xorl	%r8d, %r8d
	cmpq	%rsi, %r15
	cmovbeq	%r8, %r10
	subq	%r14, %rdx
	addq	%rcx, %rdx
	cmpq	%rcx, %rdx
	movq	%rcx, %r11
	cmovaq	%rdx, %r11
	addq	%rax, %rdx
	movq	80(%rsp), %rdi
	orq	%rcx, %rdi
	cmpq	%rdx, %rdi
	cmovaeq	%rdx, %rdi
	leaq	(%r11,%r9), %rax
	cmpq	%r11, %rdi
	cmovbeq	%r8, %rax
	jbe	.LBB9_1189
	movq	%rdi, %rcx
	addq	%r9, %rcx
	cmpq	%rax, %rcx
	jbe	.LBB9_1189
	movq	%rcx, %rbx
	addq	%r15, %r9
	xorl	%ecx, %ecx
	cmpq	%rsi, %r15
	cmovaq	%r9, %rcx
	subq	%r10, %rcx
	je	.LBB9_1189
	movq	128(%rsp), %rdx
	movl	(%rdx), %edx
	movq	%rcx, %r8
	andq	$-8, %r8
	movd	%edx, %xmm0
	pshufd	$0, %xmm0, %xmm0
	movq	%rax, %r11
	movq	64(%rsp), %rdi
	imulq	%rdi, %r11
	leaq	(,%r10,4), %r9
	leaq	(%r9,%r11,4), %r9
	movq	56(%rsp), %rsi
	addq	%rsi, %r9
	addq	$16, %r9
	shlq	$2, %rdi
	addq	%r10, %r11
	leaq	(%rsi,%r11,4), %r10
	jmp	.LBB9_202
.LBB9_206:
	incq	%rax
	addq	%rdi, %r9
	addq	%rdi, %r10
	cmpq	%rbx, %rax
	je	.LBB9_1189
.LBB9_202:
	xorl	%r11d, %r11d
	cmpq	$8, %rcx
	jb	.LBB9_205
	.p2align	4
.LBB9_203:
	movdqu	%xmm0, -16(%r9,%r11,4)
	movdqu	%xmm0, (%r9,%r11,4)
	addq	$8, %r11
	cmpq	%r11, %r8
	jne	.LBB9_203
	movq	%r8, %r11
	cmpq	%r8, %rcx
	je	.LBB9_206
	.p2align	4
.LBB9_205:
	movl	%edx, (%r10,%r11,4)
	incq	%r11
	cmpq	%r11, %rcx
	jne	.LBB9_205
	jmp	.LBB9_206
.LBB9_410:
	movq	%rax, 104(%rsp)
	movq	%r8, 176(%rsp)
	movq	%r12, 56(%rsp)
	testq	%r15, %r15
	je	.LBB9_1189
	movl	%r13d, 144(%rsp)
	movq	%rbp, 168(%rsp)
	movq	424(%rsp), %rbp
	movslq	440(%rsp), %r12
	movabsq	$4294967296, %rax
	movq	%rdi, %r10
	shrq	$32, %r10
	movq	%rbp, %r13
	shrq	$32, %r13
	subq	%rsi, %rcx
	leaq	(%rcx,%rax), %r14
	leaq	(%rdx,%rax), %rsi
	cmpq	%r14, %rsi
	movq	%r14, %r8
	cmovbq	%rsi, %r8
	movq	%r12, 248(%rsp)
	leaq	(%r12,%rax), %rsi
	movq	%rsi, 256(%rsp)
	cmpq	%r8, %rsi
	cmovbq	%rsi, %r8
	xorl	%r12d, %r12d
	movq	%rax, %rsi
	subq	%r8, %rsi
	cmovbq	%r12, %rsi
	orq	%rax, %r15
	subq	%r14, %r15
	cmovbq	%r12, %r15
	movl	%edi, %edi
	orq	%rax, %rdi
	leaq	(%rdx,%rax), %r8
	subq	%r8, %rdi
	movl	%ebp, %r8d
	cmovbq	%r12, %rdi
	orq	%rax, %r8
	subq	256(%rsp), %r8
	movl	$0, %r14d
	movq	%r14, 288(%rsp)
	cmovbq	%r12, %r8
	cmpl	%r9d, %r11d
	cmovbl	%r11d, %r9d
	movl	448(%rsp), %r11d
	cmpl	%r9d, %r11d
	cmovbl	%r11d, %r9d
	cmpq	%r9, %r15
	cmovaeq	%r9, %r15
	movslq	444(%rsp), %r9
	movq	%r9, 312(%rsp)
	cmpq	%r15, %rdi
	cmovbq	%rdi, %r15
	movl	452(%rsp), %r11d
	cmpq	%r15, %r8
	cmovbq	%r8, %r15
	movl	$0, %r12d
	movl	$0, %r8d
	movq	%r8, 328(%rsp)
	movl	$0, %ebp
	cmpq	%rsi, %r15
	jbe	.LBB9_413
	leaq	(%rsi,%rcx), %r8
	movq	%r8, 288(%rsp)
	addq	%rcx, %r15
	addq	%rsi, %rdx
	movq	248(%rsp), %rbp
	addq	%rsi, %rbp
	movq	%r15, %r12
	movq	%rdx, 328(%rsp)
.LBB9_413:
	subq	112(%rsp), %rbx
	leaq	(%rbx,%rax), %rcx
	movq	168(%rsp), %r15
	leaq	(%r15,%rax), %rdi
	movq	312(%rsp), %rdx
	leaq	(%rdx,%rax), %rsi
	cmpq	%rcx, %rdi
	movq	%rcx, %r8
	cmovbq	%rdi, %r8
	cmpq	%r8, %rsi
	cmovbq	%rsi, %r8
	xorl	%r9d, %r9d
	movq	%rax, %rdx
	subq	%r8, %rdx
	cmovbq	%r9, %rdx
	movq	64(%rsp), %r8
	orq	%rax, %r8
	subq	%rcx, %r8
	cmovbq	%r9, %r8
	orq	%rax, %r10
	subq	%rdi, %r10
	cmovbq	%r9, %r10
	movq	%rax, %r14
	orq	%rax, %r13
	subq	%rsi, %r13
	cmovbq	%r9, %r13
	movl	144(%rsp), %r9d
	movq	72(%rsp), %rax
	cmpl	%eax, %r9d
	cmovbl	%r9d, %eax
	cmpl	%eax, %r11d
	cmovbl	%r11d, %eax
	cmpq	%rax, %r8
	cmovaeq	%rax, %r8
	cmpq	%r8, %r10
	cmovbq	%r10, %r8
	cmpq	%r8, %r13
	cmovbq	%r13, %r8
	cmpq	%rdx, %r8
	jbe	.LBB9_1189
	movq	%r8, %rax
	leaq	(%rdx,%rbx), %r8
	addq	%rbx, %rax
	movq	%rax, 64(%rsp)
	movq	%r8, 456(%rsp)
	cmpq	%rax, %r8
	jae	.LBB9_1189
	movq	432(%rsp), %r11
	leaq	(%rdx,%r15), %rax
	movq	%rax, 464(%rsp)
	addq	%rdx, 312(%rsp)
	movq	104(%rsp), %r8
	leaq	(%r8,%rbp), %rax
	movq	%rax, 472(%rsp)
	movq	%r12, %r9
	subq	288(%rsp), %r9
	movq	%r9, %rax
	shrq	$4, %rax
	movq	%rax, 256(%rsp)
	movq	%r9, %rdx
	andq	$-16, %rdx
	movq	%r15, %r13
	movq	%rbp, 112(%rsp)
	movl	%r9d, %ebp
	andl	$15, %ebp
	movl	%r9d, %eax
	andl	$8, %eax
	movq	%rax, 296(%rsp)
	movl	%r9d, %r10d
	andl	$12, %r10d
	addq	%r14, %r13
	cmpq	%rdi, %rcx
	cmovbq	%rcx, %rdi
	leaq	(,%rdx,4), %rcx
	cmpq	%rsi, %rdi
	cmovaeq	%rsi, %rdi
	cmpq	%r14, %rdi
	cmovaeq	%r14, %rdi
	subq	%rdi, %r13
	movq	176(%rsp), %r14
	imulq	%r14, %r13
	movq	328(%rsp), %r15
	leaq	(,%r15,4), %rax
	leaq	(%rax,%r13,4), %r12
	subq	%rdi, %rsi
	movq	128(%rsp), %rdi
	movq	%rdi, %rax
	movq	456(%rsp), %rbx
	imulq	%rbx, %rax
	movq	%r11, 168(%rsp)
	imulq	%r11, %rsi
	addq	112(%rsp), %rsi
	movq	%rdx, 248(%rsp)
	movq	%r10, 280(%rsp)
	leaq	(%rdx,%r10), %r11
	addq	%r8, %r11
	addq	%rsi, %r8
	addq	%rsi, %r11
	movq	288(%rsp), %rsi
	leaq	(,%rsi,4), %rdx
	leaq	(%rdx,%rax,4), %r10
	leaq	(%rcx,%r13,4), %rdx
	movq	%r9, 104(%rsp)
	leal	(,%r9,4), %r9d
	andl	$48, %r9d
	addq	%r9, %rdx
	movq	%rcx, 480(%rsp)
	leaq	(%rcx,%rax,4), %rax
	addq	%r9, %rax
	movq	80(%rsp), %r9
	addq	%r9, %r12
	movq	56(%rsp), %rcx
	addq	%rcx, %r10
	leaq	(%rdx,%r15,4), %rdx
	addq	%r9, %rdx
	movq	%rdx, %r9
	leaq	(%rax,%rsi,4), %rax
	addq	%rcx, %rax
	leaq	(,%r14,4), %rcx
	movq	%rcx, 320(%rsp)
	leaq	(,%rdi,4), %rcx
	movq	%rcx, 304(%rsp)
	movq	%rbx, 112(%rsp)
	movq	%rax, %rbx
	jmp	.LBB9_416
.LBB9_427:
	movq	112(%rsp), %rsi
	incq	%rsi
	movq	144(%rsp), %r12
	movq	320(%rsp), %rcx
	addq	%rcx, %r12
	movq	304(%rsp), %rdx
	addq	%rdx, %r10
	movq	168(%rsp), %rax
	movq	72(%rsp), %r8
	addq	%rax, %r8
	addq	%rax, %r11
	addq	%rcx, %r9
	addq	%rdx, %rbx
	movq	%rsi, 112(%rsp)
	cmpq	64(%rsp), %rsi
	je	.LBB9_1189
.LBB9_416:
	cmpq	$0, 256(%rsp)
	je	.LBB9_419
	movl	$8, %edi
	movq	256(%rsp), %r15
	.p2align	4
.LBB9_418:
	movdqu	-32(%r12,%rdi,4), %xmm4
	movdqu	-16(%r12,%rdi,4), %xmm3
	movq	-8(%r8,%rdi), %xmm6
	punpcklbw	%xmm6, %xmm6
	movdqa	%xmm6, %xmm8
	punpcklwd	%xmm6, %xmm8
	punpckhwd	%xmm6, %xmm6
	movdqa	.LCPI9_0(%rip), %xmm0
	movdqa	%xmm3, %xmm1
	pand	%xmm0, %xmm1
	movdqa	%xmm4, %xmm2
	pand	%xmm0, %xmm2
	movdqa	%xmm6, %xmm9
	pand	%xmm0, %xmm9
	pmullw	%xmm1, %xmm9
	movdqa	%xmm8, %xmm10
	pand	%xmm0, %xmm10
	pmullw	%xmm2, %xmm10
	movdqa	.LCPI9_1(%rip), %xmm1
	paddw	%xmm1, %xmm9
	paddw	%xmm1, %xmm10
	movdqa	.LCPI9_2(%rip), %xmm2
	pmulhuw	%xmm2, %xmm10
	pmulhuw	%xmm2, %xmm9
	psrlw	$8, %xmm4
	psrlw	$8, %xmm3
	psrlw	$8, %xmm8
	pmullw	%xmm4, %xmm8
	psrlw	$8, %xmm6
	pmullw	%xmm3, %xmm6
	paddw	%xmm1, %xmm8
	paddw	%xmm1, %xmm6
	pmulhuw	%xmm2, %xmm6
	pmulhuw	%xmm2, %xmm8
	psllw	$8, %xmm8
	psllw	$8, %xmm6
	pcmpeqd	%xmm5, %xmm5
	movdqu	-32(%r10,%rdi,4), %xmm11
	movdqu	-16(%r10,%rdi,4), %xmm12
	movdqu	(%r10,%rdi,4), %xmm3
	movdqu	16(%r10,%rdi,4), %xmm4
	pxor	%xmm5, %xmm11
	pxor	%xmm5, %xmm12
	movdqa	.LCPI9_5(%rip), %xmm7
	pshufb	%xmm7, %xmm12
	pshufb	%xmm7, %xmm11
	por	%xmm9, %xmm6
	por	%xmm10, %xmm8
	pmullw	%xmm11, %xmm10
	pmullw	%xmm12, %xmm9
	paddw	%xmm1, %xmm9
	paddw	%xmm1, %xmm10
	pmulhuw	%xmm2, %xmm10
	pmulhuw	%xmm2, %xmm9
	psrlw	$8, %xmm8
	psrlw	$8, %xmm6
	pmullw	%xmm12, %xmm6
	pmullw	%xmm11, %xmm8
	paddw	%xmm1, %xmm8
	paddw	%xmm1, %xmm6
	pmulhuw	%xmm2, %xmm6
	pmulhuw	%xmm2, %xmm8
	psllw	$8, %xmm8
	por	%xmm10, %xmm8
	psllw	$8, %xmm6
	por	%xmm9, %xmm6
	movdqu	%xmm8, -32(%r10,%rdi,4)
	movdqu	%xmm6, -16(%r10,%rdi,4)
	movdqu	(%r12,%rdi,4), %xmm11
	movdqu	16(%r12,%rdi,4), %xmm10
	movq	(%r8,%rdi), %xmm6
	punpcklbw	%xmm6, %xmm6
	movdqa	%xmm6, %xmm8
	punpcklwd	%xmm6, %xmm8
	punpckhwd	%xmm6, %xmm6
	movdqa	%xmm10, %xmm12
	pand	%xmm0, %xmm12
	movdqa	%xmm11, %xmm13
	pand	%xmm0, %xmm13
	movdqa	%xmm6, %xmm9
	pand	%xmm0, %xmm9
	pmullw	%xmm12, %xmm9
	pand	%xmm8, %xmm0
	pmullw	%xmm13, %xmm0
	paddw	%xmm1, %xmm9
	paddw	%xmm1, %xmm0
	pmulhuw	%xmm2, %xmm0
	pmulhuw	%xmm2, %xmm9
	psrlw	$8, %xmm11
	psrlw	$8, %xmm10
	psrlw	$8, %xmm8
	pmullw	%xmm11, %xmm8
	psrlw	$8, %xmm6
	pmullw	%xmm10, %xmm6
	paddw	%xmm1, %xmm8
	paddw	%xmm1, %xmm6
	pmulhuw	%xmm2, %xmm6
	pmulhuw	%xmm2, %xmm8
	psllw	$8, %xmm8
	psllw	$8, %xmm6
	pxor	%xmm5, %xmm3
	pxor	%xmm5, %xmm4
	pshufb	%xmm7, %xmm4
	pshufb	%xmm7, %xmm3
	por	%xmm9, %xmm6
	por	%xmm0, %xmm8
	pmullw	%xmm3, %xmm0
	pmullw	%xmm4, %xmm9
	paddw	%xmm1, %xmm9
	paddw	%xmm1, %xmm0
	pmulhuw	%xmm2, %xmm0
	pmulhuw	%xmm2, %xmm9
	psrlw	$8, %xmm8
	psrlw	$8, %xmm6
	pmullw	%xmm4, %xmm6
	pmullw	%xmm3, %xmm8
	paddw	%xmm1, %xmm8
	paddw	%xmm1, %xmm6
	pmulhuw	%xmm2, %xmm6
	pmulhuw	%xmm2, %xmm8
	psllw	$8, %xmm8
	por	%xmm0, %xmm8
	psllw	$8, %xmm6
	por	%xmm9, %xmm6
	movdqu	%xmm8, (%r10,%rdi,4)
	movdqu	%xmm6, 16(%r10,%rdi,4)
	addq	$16, %rdi
	decq	%r15
	jne	.LBB9_418
.LBB9_419:
	movq	%r12, 144(%rsp)
	movq	%r8, 72(%rsp)
	movq	248(%rsp), %rax
	cmpq	104(%rsp), %rax
	je	.LBB9_427
	movq	112(%rsp), %rdi
	movq	%rdi, %rax
	imulq	128(%rsp), %rax
	addq	288(%rsp), %rax
	subq	456(%rsp), %rdi
	movq	464(%rsp), %rcx
	leaq	(%rcx,%rdi), %rdx
	imulq	176(%rsp), %rdx
	addq	328(%rsp), %rdx
	addq	312(%rsp), %rdi
	imulq	168(%rsp), %rdi
	addq	472(%rsp), %rdi
	movq	56(%rsp), %rcx
	leaq	(%rcx,%rax,4), %rsi
	movq	80(%rsp), %rax
	leaq	(%rax,%rdx,4), %r15
	movq	480(%rsp), %rax
	addq	%rax, %rsi
	addq	%rax, %r15
	addq	248(%rsp), %rdi
	cmpq	$0, 296(%rsp)
	jne	.LBB9_421
	testb	$4, 104(%rsp)
	jne	.LBB9_423
.LBB9_424:
	cmpl	%ebp, 280(%rsp)
	je	.LBB9_427
	jmp	.LBB9_425
.LBB9_421:
	movdqu	(%r15), %xmm7
	movdqu	16(%r15), %xmm6
	movq	(%rdi), %xmm0
	punpcklbw	%xmm0, %xmm0
	movdqa	%xmm0, %xmm1
	punpcklwd	%xmm0, %xmm1
	punpckhwd	%xmm0, %xmm0
	movdqa	.LCPI9_0(%rip), %xmm2
	movdqa	%xmm6, %xmm4
	pand	%xmm2, %xmm4
	movdqa	%xmm7, %xmm5
	pand	%xmm2, %xmm5
	movdqa	%xmm0, %xmm3
	pand	%xmm2, %xmm3
	pmullw	%xmm4, %xmm3
	pand	%xmm1, %xmm2
	pmullw	%xmm5, %xmm2
	movdqa	.LCPI9_1(%rip), %xmm4
	paddw	%xmm4, %xmm3
	paddw	%xmm4, %xmm2
	movdqa	.LCPI9_2(%rip), %xmm5
	pmulhuw	%xmm5, %xmm2
	pmulhuw	%xmm5, %xmm3
	psrlw	$8, %xmm7
	psrlw	$8, %xmm6
	psrlw	$8, %xmm1
	pmullw	%xmm7, %xmm1
	psrlw	$8, %xmm0
	pmullw	%xmm6, %xmm0
	paddw	%xmm4, %xmm1
	paddw	%xmm4, %xmm0
	pmulhuw	%xmm5, %xmm0
	pmulhuw	%xmm5, %xmm1
	psllw	$8, %xmm1
	psllw	$8, %xmm0
	movdqu	(%rsi), %xmm6
	movdqu	16(%rsi), %xmm7
	pcmpeqd	%xmm8, %xmm8
	pxor	%xmm8, %xmm6
	pxor	%xmm8, %xmm7
	movdqa	.LCPI9_5(%rip), %xmm8
	pshufb	%xmm8, %xmm7
	pshufb	%xmm8, %xmm6
	por	%xmm3, %xmm0
	por	%xmm2, %xmm1
	pmullw	%xmm6, %xmm2
	pmullw	%xmm7, %xmm3
	paddw	%xmm4, %xmm3
	paddw	%xmm4, %xmm2
	pmulhuw	%xmm5, %xmm2
	pmulhuw	%xmm5, %xmm3
	psrlw	$8, %xmm1
	psrlw	$8, %xmm0
	pmullw	%xmm7, %xmm0
	pmullw	%xmm6, %xmm1
	paddw	%xmm4, %xmm1
	paddw	%xmm4, %xmm0
	pmulhuw	%xmm5, %xmm0
	pmulhuw	%xmm5, %xmm1
	psllw	$8, %xmm1
	por	%xmm2, %xmm1
	psllw	$8, %xmm0
	por	%xmm3, %xmm0
	movdqu	%xmm1, (%rsi)
	movdqu	%xmm0, 16(%rsi)
	testb	$4, 104(%rsp)
	je	.LBB9_424
.LBB9_423:
	movq	296(%rsp), %rax
	leal	(,%rax,4), %r13d
	movdqu	(%r15,%r13), %xmm5
	movd	(%rdi,%rax), %xmm0
	punpcklbw	%xmm0, %xmm0
	punpcklwd	%xmm0, %xmm0
	movdqa	.LCPI9_0(%rip), %xmm3
	movdqa	%xmm5, %xmm1
	pand	%xmm3, %xmm1
	movdqa	%xmm0, %xmm4
	pand	%xmm3, %xmm4
	pmullw	%xmm1, %xmm4
	movdqa	.LCPI9_1(%rip), %xmm1
	paddw	%xmm1, %xmm4
	movdqa	.LCPI9_2(%rip), %xmm2
	pmulhuw	%xmm2, %xmm4
	psrlw	$8, %xmm5
	psrlw	$8, %xmm0
	pmullw	%xmm5, %xmm0
	paddw	%xmm1, %xmm0
	pmulhuw	%xmm2, %xmm0
	psllw	$8, %xmm0
	movdqu	(%rsi,%r13), %xmm5
	pcmpeqd	%xmm6, %xmm6
	por	%xmm4, %xmm0
	pshufb	.LCPI9_6(%rip), %xmm5
	pxor	%xmm5, %xmm6
	pandn	%xmm3, %xmm5
	pmullw	%xmm4, %xmm5
	paddw	%xmm1, %xmm5
	pmulhuw	%xmm2, %xmm5
	psrlw	$8, %xmm0
	psrlw	$8, %xmm6
	pmullw	%xmm0, %xmm6
	paddw	%xmm1, %xmm6
	pmulhuw	%xmm2, %xmm6
	psllw	$8, %xmm6
	por	%xmm5, %xmm6
	movdqu	%xmm6, (%rsi,%r13)
	cmpl	%ebp, 280(%rsp)
	je	.LBB9_427
.LBB9_425:
	xorl	%esi, %esi
	movq	280(%rsp), %rdi
	.p2align	4
.LBB9_426:
	movl	(%r9,%rsi,4), %eax
	movzbl	(%r11,%rsi), %r13d
	movzbl	3(%rbx,%rsi,4), %r15d
	movzbl	%ah, %edx
	movq	%rbx, %r12
	movl	%eax, %ebx
	movzbl	%al, %r14d
	movq	%r9, %r8
	movq	%r11, %r9
	movl	%eax, %r11d
	shrl	$16, %r11d
	shrl	$24, %ebx
	imull	%r13d, %r14d
	leal	128(%r14), %eax
	movzbl	%ah, %eax
	addl	%r14d, %eax
	addl	$128, %eax
	movq	%rbp, %rcx
	movzbl	%ah, %ebp
	imull	%r13d, %edx
	leal	128(%rdx), %eax
	movzbl	%ah, %eax
	addl	%edx, %eax
	addl	$128, %eax
	movzbl	%ah, %eax
	movzbl	%r11b, %r11d
	xorl	$255, %r15d
	imull	%r15d, %ebp
	leal	128(%rbp), %edx
	movzbl	%dh, %edx
	addl	%ebp, %edx
	addl	$128, %edx
	movq	%rcx, %rbp
	movzbl	%dh, %edx
	imull	%r15d, %eax
	leal	128(%rax), %ecx
	movzbl	%ch, %ecx
	leal	(%rcx,%rax), %r14d
	addl	$128, %r14d
	andl	$65280, %r14d
	movd	%r11d, %xmm0
	movq	%r9, %r11
	movq	%r8, %r9
	pinsrw	$1, %ebx, %xmm0
	movq	%r12, %rbx
	movd	%r13d, %xmm1
	pshuflw	$0, %xmm1, %xmm1
	pmullw	%xmm0, %xmm1
	movdqa	.LCPI9_11(%rip), %xmm0
	paddw	%xmm0, %xmm1
	movdqa	%xmm1, %xmm2
	psrlw	$8, %xmm2
	paddw	%xmm1, %xmm2
	psrlw	$8, %xmm2
	movd	%r15d, %xmm1
	pshuflw	$0, %xmm1, %xmm1
	pmullw	%xmm2, %xmm1
	paddw	%xmm0, %xmm1
	movdqa	%xmm1, %xmm0
	psrlw	$8, %xmm0
	paddw	%xmm1, %xmm0
	psrlw	$8, %xmm0
	movdqa	%xmm0, %xmm1
	pslld	$16, %xmm1
	pshufb	.LCPI9_12(%rip), %xmm0
	por	%xmm1, %xmm0
	movd	%xmm0, %eax
	orl	%r14d, %eax
	orl	%edx, %eax
	movl	%eax, (%r12,%rsi,4)
	incq	%rdi
	incq	%rsi
	cmpq	%rbp, %rdi
	jb	.LBB9_426
	jmp	.LBB9_427
.LBB9_586:
	testq	%r15, %r15
	je	.LBB9_1189
	movq	%rbp, 144(%rsp)
	movq	%rbx, %rbp
	shrq	$32, %rbp
	subq	%rsi, %rcx
	movabsq	$4294967296, %rsi
	movq	%r13, 176(%rsp)
	leaq	(%rcx,%rsi), %r13
	leaq	(%rdx,%rsi), %r12
	cmpq	%r13, %r12
	movl	%r8d, %r9d
	movq	%r13, %r8
	cmovbq	%r12, %r8
	xorl	%r10d, %r10d
	movq	%rsi, %r14
	subq	%r8, %r14
	cmovbq	%r10, %r14
	orq	%rsi, %r15
	subq	%r13, %r15
	cmovbq	%r10, %r15
	movl	%ebx, %r8d
	orq	%rsi, %r8
	subq	%r12, %r8
	cmovbq	%r10, %r8
	cmpl	%eax, %edi
	cmovbl	%edi, %eax
	cmpq	%rax, %r15
	cmovaeq	%rax, %r15
	cmpq	%r15, %r8
	cmovbq	%r8, %r15
	movq	112(%rsp), %rax
	leaq	(%r14,%rcx), %r12
	addq	%r15, %rcx
	addq	%r14, %rdx
	cmpq	%r14, %r15
	cmovbeq	%r10, %r12
	cmovbeq	%r10, %rcx
	cmovbeq	%r10, %rdx
	subq	144(%rsp), %r11
	leaq	(%r11,%rsi), %r8
	movq	72(%rsp), %r15
	leaq	(%r15,%rsi), %rbx
	cmpq	%r8, %rbx
	movq	%r8, %r14
	cmovbq	%rbx, %r14
	movq	%rsi, %rdi
	subq	%r14, %rdi
	cmovbq	%r10, %rdi
	movq	64(%rsp), %r14
	orq	%rsi, %r14
	subq	%r8, %r14
	cmovbq	%r10, %r14
	orq	%rsi, %rbp
	subq	%rbx, %rbp
	cmovbq	%r10, %rbp
	cmpl	%eax, %r9d
	cmovbl	%r9d, %eax
	cmpq	%rax, %r14
	cmovaeq	%rax, %r14
	cmpq	%r14, %rbp
	cmovbq	%rbp, %r14
	leaq	(%rdi,%r11), %rax
	addq	%r14, %r11
	addq	%rdi, %r15
	cmpq	%rdi, %r14
	cmovbeq	%r10, %rax
	cmovbeq	%r10, %r11
	cmovbeq	%r10, %r15
	movq	%r12, 200(%rsp)
	movq	%rcx, 208(%rsp)
	movq	%rdx, 216(%rsp)
	movq	%rax, 224(%rsp)
	movq	%r11, 232(%rsp)
	movq	%r15, 240(%rsp)
	leaq	200(%rsp), %rax
	movq	%rax, 32(%rsp)
	movq	56(%rsp), %rcx
	movq	128(%rsp), %rdx
	movq	80(%rsp), %r8
	movq	176(%rsp), %r9
	callq	"pix_raster::view::blit_overlap::<#9ba22e131c89b739>"
	jmp	.LBB9_1189
.LBB9_1167:
	movq	%rcx, 104(%rsp)
	testq	%r15, %r15
	je	.LBB9_1189
	movq	%r10, %rdi
	shrq	$32, %rdi
	subq	%rsi, %r13
	movabsq	$4294967296, %rsi
	movq	%r14, %rcx
	leaq	(%rsi,%r13), %r14
	leaq	(%rsi,%rbp), %rdx
	cmpq	%r14, %rdx
	movq	%rbx, 176(%rsp)
	movq	%r14, %rbx
	cmovbq	%rdx, %rbx
	xorl	%edx, %edx
	movq	%r12, 56(%rsp)
	movq	%rsi, %r12
	subq	%rbx, %r12
	cmovbq	%rdx, %r12
	orq	%rsi, %r15
	subq	%r14, %r15
	cmovbq	%rdx, %r15
	movl	%r10d, %r10d
	orq	%rsi, %r10
	leaq	(%rsi,%rbp), %rbx
	subq	%rbx, %r10
	cmovbq	%rdx, %r10
	cmpl	%r8d, %r9d
	cmovbl	%r9d, %r8d
	cmpq	%r8, %r15
	cmovaeq	%r8, %r15
	cmpq	%r15, %r10
	cmovbq	%r10, %r15
	leaq	(%r12,%r13), %r8
	addq	%r15, %r13
	addq	%r12, %rbp
	cmpq	%r12, %r15
	cmovbeq	%rdx, %r8
	cmovbeq	%rdx, %r13
	cmovbeq	%rdx, %rbp
	subq	64(%rsp), %rax
	leaq	(%rax,%rsi), %r10
	movq	%r11, %r15
	leaq	(%r11,%rsi), %rbx
	cmpq	%r10, %rbx
	movq	%r10, %r14
	cmovbq	%rbx, %r14
	movq	%rsi, %r9
	subq	%r14, %r9
	cmovbq	%rdx, %r9
	orq	%rsi, %rcx
	subq	%r10, %rcx
	cmovbq	%rdx, %rcx
	orq	%rsi, %rdi
	subq	%rbx, %rdi
	cmovbq	%rdx, %rdi
	movl	144(%rsp), %r10d
	movq	112(%rsp), %r11
	cmpl	%r11d, %r10d
	cmovbl	%r10d, %r11d
	cmpq	%r11, %rcx
	cmovaeq	%r11, %rcx
	cmpq	%rcx, %rdi
	cmovbq	%rdi, %rcx
	leaq	(%r9,%rax), %r10
	addq	%rcx, %rax
	movq	%r15, %r11
	addq	%r9, %r11
	cmpq	%r9, %rcx
	cmovbeq	%rdx, %r10
	cmovbeq	%rdx, %rax
	cmovbeq	%rdx, %r11
	movq	104(%rsp), %rcx
	movl	(%rcx), %edx
	movq	%r8, 200(%rsp)
	movq	%r13, 208(%rsp)
	movq	%rbp, 216(%rsp)
	movq	%r10, 224(%rsp)
	movq	%rax, 232(%rsp)
	movq	%r11, 240(%rsp)
	movl	%edx, 40(%rsp)
	leaq	200(%rsp), %rax
	movq	%rax, 32(%rsp)
	movq	56(%rsp), %rcx
	movq	80(%rsp), %rdx
	movq	128(%rsp), %r8
	movq	176(%rsp), %r9
	callq	"pix_raster::view::blit_overlap::<#1190cce370e40c2f>"
	jmp	.LBB9_1189
.LBB9_949:
	testq	%r15, %r15
	je	.LBB9_1189
	movq	%r13, %rdi
	shrq	$32, %rdi
	subq	%rsi, %rcx
	movabsq	$4294967296, %rsi
	movq	%r12, 56(%rsp)
	leaq	(%rcx,%rsi), %r12
	leaq	(%r9,%rsi), %r8
	cmpq	%r12, %r8
	movq	%r10, 144(%rsp)
	movq	%r12, %r10
	cmovbq	%r8, %r10
	xorl	%r11d, %r11d
	movl	%r14d, 176(%rsp)
	movq	%rsi, %r14
	subq	%r10, %r14
	cmovbq	%r11, %r14
	orq	%rsi, %r15
	subq	%r12, %r15
	cmovbq	%r11, %r15
	movl	%r13d, %r10d
	orq	%rsi, %r10
	subq	%r8, %r10
	cmovbq	%r11, %r10
	cmpl	%ebx, %ebp
	cmovbl	%ebp, %ebx
	cmpq	%rbx, %r15
	cmovaeq	%rbx, %r15
	cmpq	%r15, %r10
	cmovbq	%r10, %r15
	leaq	(%r14,%rcx), %rbx
	addq	%r15, %rcx
	addq	%r14, %r9
	cmpq	%r14, %r15
	cmovbeq	%r11, %rbx
	cmovbeq	%r11, %rcx
	cmovbeq	%r11, %r9
	subq	112(%rsp), %rax
	leaq	(%rax,%rsi), %r10
	movq	72(%rsp), %r8
	leaq	(%r8,%rsi), %r15
	cmpq	%r10, %r15
	movq	%r10, %r12
	cmovbq	%r15, %r12
	movq	%rsi, %r14
	subq	%r12, %r14
	cmovbq	%r11, %r14
	movq	64(%rsp), %r12
	orq	%rsi, %r12
	subq	%r10, %r12
	cmovbq	%r11, %r12
	orq	%rsi, %rdi
	subq	%r15, %rdi
	cmovbq	%r11, %rdi
	movl	176(%rsp), %r10d
	cmpl	%edx, %r10d
	cmovbl	%r10d, %edx
	cmpq	%rdx, %r12
	cmovaeq	%rdx, %r12
	cmpq	%r12, %rdi
	cmovbq	%rdi, %r12
	leaq	(%r14,%rax), %rdx
	addq	%r12, %rax
	addq	%r14, %r8
	cmpq	%r14, %r12
	cmovbeq	%r11, %rdx
	cmovbeq	%r11, %rax
	cmovbeq	%r11, %r8
	movq	%rbx, 200(%rsp)
	movq	%rcx, 208(%rsp)
	movq	%r9, 216(%rsp)
	movq	%rdx, 224(%rsp)
	movq	%rax, 232(%rsp)
	movq	%r8, 240(%rsp)
	leaq	200(%rsp), %rax
	movq	%rax, 32(%rsp)
	movq	56(%rsp), %rcx
	movq	80(%rsp), %rdx
	movq	128(%rsp), %r8
	movq	144(%rsp), %r9
	callq	"pix_raster::view::blit_overlap::<#64f9c87ff7b7bdd2>"
	jmp	.LBB9_1189
.LBB9_768:
	testq	%r15, %r15
	je	.LBB9_1189
	movq	%r13, %rdi
	shrq	$32, %rdi
	subq	%rsi, %r9
	movabsq	$4294967296, %rsi
	leaq	(%r9,%rsi), %r11
	leaq	(%r8,%rsi), %rdx
	cmpq	%r11, %rdx
	movl	%r10d, 176(%rsp)
	movq	%r11, %r10
	cmovbq	%rdx, %r10
	xorl	%r11d, %r11d
	movq	%rcx, 144(%rsp)
	movq	%r12, %rcx
	movq	%rsi, %r12
	subq	%r10, %r12
	cmovbq	%r11, %r12
	orq	%rsi, %r15
	leaq	(%r9,%rsi), %r10
	subq	%r10, %r15
	cmovbq	%r11, %r15
	movl	%r13d, %r10d
	orq	%rsi, %r10
	subq	%rdx, %r10
	cmovbq	%r11, %r10
	cmpl	%ebx, %ebp
	cmovbl	%ebp, %ebx
	cmpq	%rbx, %r15
	cmovaeq	%rbx, %r15
	cmpq	%r15, %r10
	cmovbq	%r10, %r15
	leaq	(%r12,%r9), %rbx
	addq	%r15, %r9
	addq	%r12, %r8
	cmpq	%r12, %r15
	cmovbeq	%r11, %rbx
	cmovbeq	%r11, %r9
	cmovbeq	%r11, %r8
	subq	112(%rsp), %rax
	leaq	(%rax,%rsi), %r10
	leaq	(%r14,%rsi), %r12
	cmpq	%r10, %r12
	movq	%r10, %r13
	cmovbq	%r12, %r13
	movq	%rsi, %r15
	subq	%r13, %r15
	cmovbq	%r11, %r15
	movq	%r14, %r13
	movq	80(%rsp), %r14
	orq	%rsi, %r14
	subq	%r10, %r14
	cmovbq	%r11, %r14
	orq	%rsi, %rdi
	subq	%r12, %rdi
	cmovbq	%r11, %rdi
	movq	72(%rsp), %rdx
	movl	176(%rsp), %r10d
	cmpl	%edx, %r10d
	cmovbl	%r10d, %edx
	cmpq	%rdx, %r14
	cmovaeq	%rdx, %r14
	cmpq	%r14, %rdi
	cmovbq	%rdi, %r14
	leaq	(%r15,%rax), %rdx
	addq	%r14, %rax
	addq	%r15, %r13
	cmpq	%r15, %r14
	cmovbeq	%r11, %rdx
	cmovbeq	%r11, %rax
	cmovbeq	%r11, %r13
	movq	%rbx, 200(%rsp)
	movq	%r9, 208(%rsp)
	movq	%r8, 216(%rsp)
	movq	%rdx, 224(%rsp)
	movq	%rax, 232(%rsp)
	movq	%r13, 240(%rsp)
	leaq	200(%rsp), %rax
	movq	%rax, 32(%rsp)
	movq	64(%rsp), %rdx
	movq	128(%rsp), %r8
	movq	144(%rsp), %r9
	callq	"pix_raster::view::blit_overlap::<#d408076b946df4a1>"
	jmp	.LBB9_1189
.LBB9_300:
	testq	%r15, %r15
	je	.LBB9_1189
	subq	%rsi, %rcx
	movabsq	$4294967296, %rdx
	addq	%rdx, %rcx
	cmpq	%rdx, %rcx
	movq	%rdx, %r11
	cmovaq	%rcx, %r11
	movabsq	$-4294967296, %r8
	addq	%r9, %rcx
	orq	%rdx, %r15
	cmpq	%rcx, %r15
	cmovaeq	%rcx, %r15
	leaq	(%r11,%r8), %r9
	xorl	%ecx, %ecx
	cmpq	%r11, %r15
	cmovbeq	%rcx, %r9
	movq	%r9, 112(%rsp)
	subq	128(%rsp), %rbx
	addq	%rdx, %rbx
	cmpq	%rdx, %rbx
	movq	%rdx, %r9
	cmovaq	%rbx, %r9
	addq	%rax, %rbx
	orq	%rdx, %r14
	cmpq	%rbx, %r14
	cmovaeq	%rbx, %r14
	leaq	(%r9,%r8), %rax
	cmpq	%r9, %r14
	cmovbeq	%rcx, %rax
	jbe	.LBB9_1189
	addq	%r8, %r14
	cmpq	%rax, %r14
	jbe	.LBB9_1189
	movq	80(%rsp), %rcx
	movl	(%rcx), %ebx
	movl	%ebx, %esi
	shrl	$16, %esi
	movl	%ebx, %r10d
	shrl	$24, %r10d
	addq	%r15, %r8
	xorl	%edx, %edx
	cmpq	%r11, %r15
	cmovaq	%r8, %rdx
	movzbl	%bh, %edi
	movq	112(%rsp), %r12
	subq	%r12, %rdx
	movq	%rdx, %r8
	movl	%ebx, %ecx
	shrl	$8, %ecx
	movd	%ebx, %xmm0
	pinsrb	$1, %ecx, %xmm0
	pinsrb	$2, %esi, %xmm0
	pinsrb	$3, %r10d, %xmm0
	pinsrb	$4, %ebx, %xmm0
	pinsrb	$5, %ecx, %xmm0
	pinsrb	$6, %esi, %xmm0
	pinsrb	$7, %r10d, %xmm0
	pinsrb	$8, %ebx, %xmm0
	pinsrb	$9, %ecx, %xmm0
	pinsrb	$10, %esi, %xmm0
	pinsrb	$11, %r10d, %xmm0
	pinsrb	$12, %ebx, %xmm0
	pinsrb	$13, %ecx, %xmm0
	shrq	$4, %r8
	pinsrb	$14, %esi, %xmm0
	movdqa	.LCPI9_0(%rip), %xmm1
	pand	%xmm0, %xmm1
	pinsrb	$15, %r10d, %xmm0
	psrlw	$8, %xmm0
	movq	%rdx, %r9
	andq	$-16, %r9
	movl	%edx, %r11d
	andl	$15, %r11d
	leal	(,%rdx,4), %r13d
	movd	%r10d, %xmm2
	movl	%r13d, %ecx
	andl	$32, %ecx
	movq	%rcx, 80(%rsp)
	movzbl	%sil, %ecx
	pinsrw	$1, %ecx, %xmm2
	movl	%edx, %r15d
	andl	$12, %r15d
	pinsrw	$2, %edi, %xmm2
	movzbl	%bl, %ecx
	pinsrw	$3, %ecx, %xmm2
	movq	%rax, %rcx
	movq	64(%rsp), %rdi
	imulq	%rdi, %rcx
	addq	%r12, %rcx
	movq	56(%rsp), %r10
	leaq	(%r10,%rcx,4), %r12
	andl	$48, %r13d
	leaq	(,%r9,4), %rsi
	addq	%r13, %rsi
	leaq	(%rsi,%rcx,4), %r13
	leaq	(,%rdi,4), %rbp
	addq	%r10, %r13
	jmp	.LBB9_304
.LBB9_315:
	incq	%rax
	addq	%rbp, %r12
	addq	%rbp, %r13
	cmpq	%r14, %rax
	je	.LBB9_1189
.LBB9_304:
	testq	%r8, %r8
	je	.LBB9_307
	movq	%r12, %rsi
	movq	%r8, %rdi
	.p2align	4
.LBB9_306:
	pcmpeqd	%xmm3, %xmm3
	movdqu	(%rsi), %xmm9
	movdqu	16(%rsi), %xmm11
	movdqu	32(%rsi), %xmm4
	movdqu	48(%rsi), %xmm5
	movdqa	%xmm11, %xmm10
	pxor	%xmm3, %xmm10
	movdqa	%xmm9, %xmm12
	pxor	%xmm3, %xmm12
	movdqa	.LCPI9_5(%rip), %xmm8
	pshufb	%xmm8, %xmm12
	pshufb	%xmm8, %xmm10
	movdqa	%xmm1, %xmm13
	pmullw	%xmm10, %xmm13
	movdqa	%xmm1, %xmm14
	pmullw	%xmm12, %xmm14
	movdqa	.LCPI9_1(%rip), %xmm6
	paddw	%xmm6, %xmm14
	paddw	%xmm6, %xmm13
	movdqa	.LCPI9_2(%rip), %xmm7
	pmulhuw	%xmm7, %xmm13
	pmulhuw	%xmm7, %xmm14
	pmullw	%xmm0, %xmm12
	pmullw	%xmm0, %xmm10
	paddw	%xmm6, %xmm10
	paddw	%xmm6, %xmm12
	pmulhuw	%xmm7, %xmm12
	pmulhuw	%xmm7, %xmm10
	psllw	$8, %xmm10
	por	%xmm13, %xmm10
	psllw	$8, %xmm12
	por	%xmm14, %xmm12
	paddusb	%xmm11, %xmm10
	paddusb	%xmm9, %xmm12
	movdqu	%xmm12, (%rsi)
	movdqu	%xmm10, 16(%rsi)
	movdqa	%xmm5, %xmm9
	pxor	%xmm3, %xmm9
	pxor	%xmm4, %xmm3
	pshufb	%xmm8, %xmm3
	pshufb	%xmm8, %xmm9
	movdqa	%xmm1, %xmm8
	pmullw	%xmm9, %xmm8
	movdqa	%xmm1, %xmm10
	pmullw	%xmm3, %xmm10
	paddw	%xmm6, %xmm10
	paddw	%xmm6, %xmm8
	pmulhuw	%xmm7, %xmm8
	pmulhuw	%xmm7, %xmm10
	pmullw	%xmm0, %xmm3
	pmullw	%xmm0, %xmm9
	paddw	%xmm6, %xmm9
	paddw	%xmm6, %xmm3
	pmulhuw	%xmm7, %xmm3
	pmulhuw	%xmm7, %xmm9
	psllw	$8, %xmm9
	por	%xmm8, %xmm9
	psllw	$8, %xmm3
	por	%xmm10, %xmm3
	paddusb	%xmm5, %xmm9
	paddusb	%xmm4, %xmm3
	movdqu	%xmm3, 32(%rsi)
	movdqu	%xmm9, 48(%rsi)
	addq	$64, %rsi
	decq	%rdi
	jne	.LBB9_306
.LBB9_307:
	cmpq	%rdx, %r9
	je	.LBB9_315
	movq	%rax, %rcx
	imulq	64(%rsp), %rcx
	addq	112(%rsp), %rcx
	movq	56(%rsp), %r10
	leaq	(%r10,%rcx,4), %rsi
	leaq	(,%r9,4), %rcx
	addq	%rcx, %rsi
	testb	$8, %dl
	jne	.LBB9_309
	testb	$4, %dl
	jne	.LBB9_311
.LBB9_312:
	cmpl	%r11d, %r15d
	jae	.LBB9_315
	jmp	.LBB9_313
.LBB9_309:
	movdqu	(%rsi), %xmm3
	movdqu	16(%rsi), %xmm6
	pcmpeqd	%xmm4, %xmm4
	movdqa	%xmm6, %xmm5
	pxor	%xmm4, %xmm5
	pxor	%xmm3, %xmm4
	movdqa	.LCPI9_5(%rip), %xmm7
	pshufb	%xmm7, %xmm4
	pshufb	%xmm7, %xmm5
	movdqa	%xmm1, %xmm7
	pmullw	%xmm5, %xmm7
	movdqa	%xmm1, %xmm8
	pmullw	%xmm4, %xmm8
	movdqa	.LCPI9_1(%rip), %xmm9
	paddw	%xmm9, %xmm8
	paddw	%xmm9, %xmm7
	movdqa	.LCPI9_2(%rip), %xmm10
	pmulhuw	%xmm10, %xmm7
	pmulhuw	%xmm10, %xmm8
	pmullw	%xmm0, %xmm4
	pmullw	%xmm0, %xmm5
	paddw	%xmm9, %xmm5
	paddw	%xmm9, %xmm4
	pmulhuw	%xmm10, %xmm4
	pmulhuw	%xmm10, %xmm5
	psllw	$8, %xmm5
	por	%xmm7, %xmm5
	psllw	$8, %xmm4
	por	%xmm8, %xmm4
	paddusb	%xmm6, %xmm5
	paddusb	%xmm3, %xmm4
	movdqu	%xmm4, (%rsi)
	movdqu	%xmm5, 16(%rsi)
	testb	$4, %dl
	je	.LBB9_312
.LBB9_311:
	movq	80(%rsp), %rcx
	movdqu	(%rsi,%rcx), %xmm3
	pcmpeqd	%xmm4, %xmm4
	movdqa	%xmm3, %xmm5
	pshufb	.LCPI9_6(%rip), %xmm5
	pxor	%xmm5, %xmm4
	pandn	.LCPI9_0(%rip), %xmm5
	pmullw	%xmm1, %xmm5
	movdqa	.LCPI9_1(%rip), %xmm6
	paddw	%xmm6, %xmm5
	movdqa	.LCPI9_2(%rip), %xmm7
	pmulhuw	%xmm7, %xmm5
	psrlw	$8, %xmm4
	pmullw	%xmm0, %xmm4
	paddw	%xmm6, %xmm4
	pmulhuw	%xmm7, %xmm4
	psllw	$8, %xmm4
	por	%xmm5, %xmm4
	paddusb	%xmm3, %xmm4
	movdqu	%xmm4, (%rsi,%rcx)
	cmpl	%r11d, %r15d
	jae	.LBB9_315
.LBB9_313:
	movq	%r13, %rcx
	movq	%r15, %rsi
	.p2align	4
.LBB9_314:
	movl	(%rcx), %edi
	movl	%edi, %ebx
	shrl	$24, %ebx
	movl	%ebx, %r10d
	notb	%r10b
	movzbl	%r10b, %r10d
	movd	%r10d, %xmm3
	pshuflw	$0, %xmm3, %xmm3
	pmullw	%xmm2, %xmm3
	paddw	.LCPI9_3(%rip), %xmm3
	movd	%ebx, %xmm4
	movdqa	%xmm3, %xmm5
	psrlw	$8, %xmm5
	paddw	%xmm3, %xmm5
	movl	%edi, %r10d
	shrl	$8, %r10d
	movl	%edi, %ebx
	shrl	$16, %ebx
	psrlw	$8, %xmm5
	packuswb	%xmm5, %xmm5
	pinsrb	$1, %ebx, %xmm4
	pinsrb	$2, %r10d, %xmm4
	pinsrb	$3, %edi, %xmm4
	paddusb	%xmm5, %xmm4
	pmovzxbd	%xmm4, %xmm3
	pmulld	.LCPI9_7(%rip), %xmm3
	pshufd	$238, %xmm3, %xmm4
	por	%xmm3, %xmm4
	pshufd	$85, %xmm4, %xmm3
	por	%xmm4, %xmm3
	movd	%xmm3, (%rcx)
	incq	%rsi
	addq	$4, %rcx
	cmpq	%r11, %rsi
	jb	.LBB9_314
	jmp	.LBB9_315
.LBB9_861:
	movq	%r8, 168(%rsp)
	testq	%r15, %r15
	je	.LBB9_1189
	movq	%r13, %rdi
	shrq	$32, %rdi
	subq	%rsi, %rcx
	movabsq	$4294967296, %rsi
	movl	%r14d, %r8d
	leaq	(%rcx,%rsi), %r14
	leaq	(%r9,%rsi), %r11
	cmpq	%r14, %r11
	movq	%r10, 144(%rsp)
	movq	%r14, %r10
	cmovbq	%r11, %r10
	xorl	%r11d, %r11d
	movq	%r12, 56(%rsp)
	movq	%rsi, %r12
	subq	%r10, %r12
	cmovbq	%r11, %r12
	orq	%rsi, %r15
	subq	%r14, %r15
	cmovbq	%r11, %r15
	movl	%r13d, %r10d
	orq	%rsi, %r10
	leaq	(%r9,%rsi), %r14
	subq	%r14, %r10
	cmovbq	%r11, %r10
	cmpl	%ebx, %ebp
	cmovbl	%ebp, %ebx
	cmpq	%rbx, %r15
	cmovaeq	%rbx, %r15
	cmpq	%r15, %r10
	cmovbq	%r10, %r15
	leaq	(%r12,%rcx), %rbx
	addq	%r15, %rcx
	addq	%r12, %r9
	cmpq	%r12, %r15
	cmovbeq	%r11, %rbx
	cmovbeq	%r11, %rcx
	cmovbeq	%r11, %r9
	subq	112(%rsp), %rax
	leaq	(%rax,%rsi), %r10
	movq	72(%rsp), %r13
	leaq	(%rsi,%r13), %r15
	cmpq	%r10, %r15
	movq	%r10, %r12
	cmovbq	%r15, %r12
	movq	%rsi, %r14
	subq	%r12, %r14
	cmovbq	%r11, %r14
	movq	64(%rsp), %r12
	orq	%rsi, %r12
	subq	%r10, %r12
	cmovbq	%r11, %r12
	orq	%rsi, %rdi
	subq	%r15, %rdi
	cmovbq	%r11, %rdi
	cmpl	%edx, %r8d
	cmovbl	%r8d, %edx
	cmpq	%rdx, %r12
	cmovaeq	%rdx, %r12
	cmpq	%r12, %rdi
	cmovbq	%rdi, %r12
	leaq	(%r14,%rax), %rdx
	addq	%r12, %rax
	addq	%r14, %r13
	cmpq	%r14, %r12
	cmovbeq	%r11, %rdx
	cmovbeq	%r11, %rax
	cmovbeq	%r11, %r13
	movq	168(%rsp), %r8
	movl	(%r8), %r10d
	movq	%rbx, 200(%rsp)
	movq	%rcx, 208(%rsp)
	movq	%r9, 216(%rsp)
	movq	%rdx, 224(%rsp)
	movq	%rax, 232(%rsp)
	movq	%r13, 240(%rsp)
	movl	%r10d, 40(%rsp)
	leaq	200(%rsp), %rax
	movq	%rax, 32(%rsp)
	movq	56(%rsp), %rcx
	movq	80(%rsp), %rdx
	movq	128(%rsp), %r8
	movq	144(%rsp), %r9
	callq	"pix_raster::view::blit_overlap::<#6f0e63a99552414a>"
	jmp	.LBB9_1189
.LBB9_1169:
	movq	%rcx, 104(%rsp)
	movq	%rbx, 176(%rsp)
	movq	%r12, 56(%rsp)
	testq	%r15, %r15
	je	.LBB9_1189
	movq	%r14, 72(%rsp)
	movq	424(%rsp), %rdi
	movq	%rdi, 256(%rsp)
	movslq	440(%rsp), %r12
	movabsq	$4294967296, %rcx
	movq	%r10, %rdx
	shrq	$32, %rdx
	shrq	$32, %rdi
	subq	%rsi, %r13
	leaq	(%rcx,%r13), %r14
	leaq	(%rcx,%rbp), %rsi
	cmpq	%r14, %rsi
	movq	%r14, %rbx
	cmovbq	%rsi, %rbx
	movq	%r12, 248(%rsp)
	leaq	(%r12,%rcx), %rsi
	movq	%rsi, 168(%rsp)
	cmpq	%rbx, %rsi
	cmovbq	%rsi, %rbx
	xorl	%r12d, %r12d
	movq	%rcx, %rsi
	subq	%rbx, %rsi
	cmovbq	%r12, %rsi
	orq	%rcx, %r15
	subq	%r14, %r15
	cmovbq	%r12, %r15
	movl	%r10d, %r10d
	orq	%rcx, %r10
	leaq	(%rcx,%rbp), %rbx
	subq	%rbx, %r10
	movl	256(%rsp), %ebx
	cmovbq	%r12, %r10
	orq	%rcx, %rbx
	subq	168(%rsp), %rbx
	movl	$0, %r14d
	movq	%r14, 280(%rsp)
	cmovbq	%r12, %rbx
	cmpl	%r8d, %r9d
	cmovbl	%r9d, %r8d
	movl	448(%rsp), %r9d
	cmpl	%r8d, %r9d
	cmovbl	%r9d, %r8d
	cmpq	%r8, %r15
	cmovaeq	%r8, %r15
	movslq	444(%rsp), %r8
	movq	%r8, 304(%rsp)
	cmpq	%r15, %r10
	cmovbq	%r10, %r15
	movl	452(%rsp), %r9d
	cmpq	%r15, %rbx
	cmovbq	%rbx, %r15
	movl	$0, %r14d
	movl	$0, %r8d
	movq	%r8, 288(%rsp)
	movl	$0, %r8d
	cmpq	%rsi, %r15
	jbe	.LBB9_1172
	leaq	(%rsi,%r13), %r8
	movq	%r8, 280(%rsp)
	addq	%r13, %r15
	addq	%rsi, %rbp
	movq	248(%rsp), %r8
	addq	%rsi, %r8
	movq	%r15, %r14
	movq	%rbp, 288(%rsp)
.LBB9_1172:
	movq	%r8, %r13
	subq	64(%rsp), %rax
	leaq	(%rax,%rcx), %r8
	leaq	(%r11,%rcx), %r15
	movq	304(%rsp), %r10
	leaq	(%r10,%rcx), %rsi
	cmpq	%r8, %r15
	movq	%r8, %r10
	cmovbq	%r15, %r10
	cmpq	%r10, %rsi
	cmovbq	%rsi, %r10
	xorl	%ebx, %ebx
	movq	%rcx, %r12
	subq	%r10, %r12
	cmovbq	%rbx, %r12
	movq	72(%rsp), %r10
	orq	%rcx, %r10
	subq	%r8, %r10
	cmovbq	%rbx, %r10
	orq	%rcx, %rdx
	subq	%r15, %rdx
	cmovbq	%rbx, %rdx
	movq	%rcx, %rbp
	orq	%rcx, %rdi
	subq	%rsi, %rdi
	cmovbq	%rbx, %rdi
	movl	144(%rsp), %ebx
	movq	112(%rsp), %rcx
	cmpl	%ecx, %ebx
	cmovbl	%ebx, %ecx
	cmpl	%ecx, %r9d
	cmovbl	%r9d, %ecx
	cmpq	%rcx, %r10
	cmovaeq	%rcx, %r10
	cmpq	%r10, %rdx
	cmovbq	%rdx, %r10
	cmpq	%r10, %rdi
	cmovbq	%rdi, %r10
	cmpq	%r12, %r10
	jbe	.LBB9_1189
	leaq	(%r12,%rax), %rdx
	addq	%rax, %r10
	movq	%rdx, 328(%rsp)
	cmpq	%r10, %rdx
	jae	.LBB9_1189
	movq	432(%rsp), %rax
	movq	%rax, 256(%rsp)
	movq	%r11, %rcx
	leaq	(%r12,%r11), %rax
	movq	%rax, 456(%rsp)
	addq	%r12, 304(%rsp)
	movq	104(%rsp), %rdx
	movq	%r13, 168(%rsp)
	leaq	(%rdx,%r13), %rax
	movq	%rax, 464(%rsp)
	subq	280(%rsp), %r14
	movq	%r14, %rax
	shrq	$4, %rax
	movq	%rax, 144(%rsp)
	movq	%r14, %r11
	andq	$-16, %r11
	movl	%r14d, %eax
	andl	$15, %eax
	movq	%rax, 480(%rsp)
	movl	%r14d, %eax
	andl	$8, %eax
	movq	%rax, 312(%rsp)
	movl	%r14d, %r13d
	andl	$12, %r13d
	addq	%rbp, %rcx
	cmpq	%r15, %r8
	cmovbq	%r8, %r15
	leaq	(,%r11,4), %r9
	cmpq	%rsi, %r15
	cmovaeq	%rsi, %r15
	cmpq	%rbp, %r15
	cmovaeq	%rbp, %r15
	subq	%r15, %rcx
	imulq	176(%rsp), %rcx
	movq	288(%rsp), %rbx
	leaq	(,%rbx,4), %rax
	leaq	(%rax,%rcx,4), %r12
	subq	%r15, %rsi
	movq	80(%rsp), %rdi
	movq	%rdi, %rax
	movq	328(%rsp), %rbp
	imulq	%rbp, %rax
	imulq	256(%rsp), %rsi
	addq	168(%rsp), %rsi
	movq	%r11, 168(%rsp)
	movq	%r13, 296(%rsp)
	addq	%r13, %r11
	addq	%rdx, %r11
	addq	%rsi, %rdx
	addq	%rsi, %r11
	movq	280(%rsp), %r15
	leaq	(,%r15,4), %r8
	leaq	(%r8,%rax,4), %r13
	leaq	(%r9,%rcx,4), %rcx
	movq	%r14, 104(%rsp)
	leal	(,%r14,4), %r8d
	andl	$48, %r8d
	addq	%r8, %rcx
	movq	%r9, 472(%rsp)
	leaq	(%r9,%rax,4), %rax
	addq	%r8, %rax
	movq	128(%rsp), %rsi
	addq	%rsi, %r12
	movq	56(%rsp), %r8
	addq	%r8, %r13
	leaq	(%rcx,%rbx,4), %rcx
	addq	%rsi, %rcx
	leaq	(%rax,%r15,4), %r9
	addq	%r8, %r9
	movq	176(%rsp), %rax
	leaq	(,%rax,4), %rax
	movq	%rax, 248(%rsp)
	movq	480(%rsp), %rbx
	leaq	(,%rdi,4), %rax
	movq	%rax, 320(%rsp)
	movq	%rbp, 112(%rsp)
	movq	%r10, 72(%rsp)
	jmp	.LBB9_1175
.LBB9_1186:
	movq	112(%rsp), %rsi
	incq	%rsi
	movq	248(%rsp), %r8
	addq	%r8, %r12
	movq	320(%rsp), %r10
	addq	%r10, %r13
	movq	256(%rsp), %rax
	addq	%rax, %rdx
	addq	%rax, %r11
	addq	%r8, %rcx
	addq	%r10, %r9
	movq	72(%rsp), %r10
	movq	%rsi, 112(%rsp)
	cmpq	%r10, %rsi
	je	.LBB9_1189
.LBB9_1175:
	cmpq	$0, 144(%rsp)
	je	.LBB9_1178
	movl	$8, %esi
	movq	144(%rsp), %rdi
	.p2align	4
.LBB9_1177:
	movdqu	-32(%r12,%rsi,4), %xmm6
	movdqu	-16(%r12,%rsi,4), %xmm7
	movq	-8(%rdx,%rsi), %xmm3
	punpcklbw	%xmm3, %xmm3
	movdqa	%xmm3, %xmm4
	punpckhwd	%xmm3, %xmm4
	punpcklwd	%xmm3, %xmm3
	movdqa	.LCPI9_0(%rip), %xmm0
	movdqa	%xmm6, %xmm1
	pand	%xmm0, %xmm1
	movdqa	%xmm7, %xmm2
	pand	%xmm0, %xmm2
	movdqa	%xmm3, %xmm5
	pand	%xmm0, %xmm5
	pmullw	%xmm1, %xmm5
	movdqa	%xmm4, %xmm8
	pand	%xmm0, %xmm8
	pmullw	%xmm2, %xmm8
	movdqa	.LCPI9_1(%rip), %xmm1
	paddw	%xmm1, %xmm5
	paddw	%xmm1, %xmm8
	movdqa	.LCPI9_2(%rip), %xmm2
	pmulhuw	%xmm2, %xmm8
	pmulhuw	%xmm2, %xmm5
	psrlw	$8, %xmm7
	psrlw	$8, %xmm6
	psrlw	$8, %xmm4
	pmullw	%xmm7, %xmm4
	psrlw	$8, %xmm3
	pmullw	%xmm6, %xmm3
	paddw	%xmm1, %xmm4
	paddw	%xmm1, %xmm3
	pmulhuw	%xmm2, %xmm3
	pmulhuw	%xmm2, %xmm4
	psllw	$8, %xmm4
	por	%xmm8, %xmm4
	psllw	$8, %xmm3
	por	%xmm5, %xmm3
	movdqu	-32(%r13,%rsi,4), %xmm6
	paddusb	%xmm3, %xmm6
	movdqu	-16(%r13,%rsi,4), %xmm7
	paddusb	%xmm4, %xmm7
	movdqu	(%r13,%rsi,4), %xmm3
	movdqu	16(%r13,%rsi,4), %xmm5
	movdqu	%xmm6, -32(%r13,%rsi,4)
	movdqu	%xmm7, -16(%r13,%rsi,4)
	movdqu	(%r12,%rsi,4), %xmm8
	movdqu	16(%r12,%rsi,4), %xmm9
	movq	(%rdx,%rsi), %xmm4
	punpcklbw	%xmm4, %xmm4
	movdqa	%xmm4, %xmm6
	punpckhwd	%xmm4, %xmm6
	punpcklwd	%xmm4, %xmm4
	movdqa	%xmm8, %xmm10
	pand	%xmm0, %xmm10
	movdqa	%xmm9, %xmm11
	pand	%xmm0, %xmm11
	movdqa	%xmm4, %xmm7
	pand	%xmm0, %xmm7
	pmullw	%xmm10, %xmm7
	pand	%xmm6, %xmm0
	pmullw	%xmm11, %xmm0
	paddw	%xmm1, %xmm7
	paddw	%xmm1, %xmm0
	pmulhuw	%xmm2, %xmm0
	pmulhuw	%xmm2, %xmm7
	psrlw	$8, %xmm9
	psrlw	$8, %xmm8
	psrlw	$8, %xmm6
	pmullw	%xmm9, %xmm6
	psrlw	$8, %xmm4
	pmullw	%xmm8, %xmm4
	paddw	%xmm1, %xmm6
	paddw	%xmm1, %xmm4
	pmulhuw	%xmm2, %xmm4
	pmulhuw	%xmm2, %xmm6
	psllw	$8, %xmm6
	por	%xmm0, %xmm6
	paddusb	%xmm5, %xmm6
	psllw	$8, %xmm4
	por	%xmm7, %xmm4
	paddusb	%xmm3, %xmm4
	movdqu	%xmm4, (%r13,%rsi,4)
	movdqu	%xmm6, 16(%r13,%rsi,4)
	addq	$16, %rsi
	decq	%rdi
	jne	.LBB9_1177
.LBB9_1178:
	movq	168(%rsp), %rax
	cmpq	104(%rsp), %rax
	je	.LBB9_1186
	movq	%r9, 64(%rsp)
	movq	112(%rsp), %rdi
	movq	%rdi, %rax
	imulq	80(%rsp), %rax
	addq	280(%rsp), %rax
	subq	328(%rsp), %rdi
	movq	456(%rsp), %r8
	addq	%rdi, %r8
	imulq	176(%rsp), %r8
	addq	288(%rsp), %r8
	addq	304(%rsp), %rdi
	imulq	256(%rsp), %rdi
	addq	464(%rsp), %rdi
	movq	56(%rsp), %r9
	leaq	(%r9,%rax,4), %rsi
	movq	128(%rsp), %rax
	leaq	(%rax,%r8,4), %r8
	movq	472(%rsp), %rax
	addq	%rax, %rsi
	addq	%rax, %r8
	addq	168(%rsp), %rdi
	cmpq	$0, 312(%rsp)
	jne	.LBB9_1180
	testb	$4, 104(%rsp)
	jne	.LBB9_1182
.LBB9_1183:
	cmpl	%ebx, 296(%rsp)
	movq	64(%rsp), %r9
	je	.LBB9_1186
	jmp	.LBB9_1184
.LBB9_1180:
	movdqu	(%r8), %xmm4
	movdqu	16(%r8), %xmm5
	movq	(%rdi), %xmm0
	punpcklbw	%xmm0, %xmm0
	movdqa	%xmm0, %xmm1
	punpckhwd	%xmm0, %xmm1
	punpcklwd	%xmm0, %xmm0
	movdqa	.LCPI9_0(%rip), %xmm2
	movdqa	%xmm4, %xmm6
	pand	%xmm2, %xmm6
	movdqa	%xmm5, %xmm7
	pand	%xmm2, %xmm7
	movdqa	%xmm0, %xmm3
	pand	%xmm2, %xmm3
	pmullw	%xmm6, %xmm3
	pand	%xmm1, %xmm2
	pmullw	%xmm7, %xmm2
	movdqa	.LCPI9_1(%rip), %xmm6
	paddw	%xmm6, %xmm3
	paddw	%xmm6, %xmm2
	movdqa	.LCPI9_2(%rip), %xmm7
	pmulhuw	%xmm7, %xmm2
	pmulhuw	%xmm7, %xmm3
	psrlw	$8, %xmm5
	psrlw	$8, %xmm4
	psrlw	$8, %xmm1
	pmullw	%xmm5, %xmm1
	psrlw	$8, %xmm0
	pmullw	%xmm4, %xmm0
	paddw	%xmm6, %xmm1
	paddw	%xmm6, %xmm0
	pmulhuw	%xmm7, %xmm0
	pmulhuw	%xmm7, %xmm1
	psllw	$8, %xmm1
	por	%xmm2, %xmm1
	psllw	$8, %xmm0
	por	%xmm3, %xmm0
	movdqu	(%rsi), %xmm2
	paddusb	%xmm0, %xmm2
	movdqu	16(%rsi), %xmm0
	paddusb	%xmm1, %xmm0
	movdqu	%xmm2, (%rsi)
	movdqu	%xmm0, 16(%rsi)
	testb	$4, 104(%rsp)
	je	.LBB9_1183
.LBB9_1182:
	movq	312(%rsp), %rax
	leal	(,%rax,4), %r10d
	movdqu	(%r8,%r10), %xmm1
	movd	(%rdi,%rax), %xmm0
	punpcklbw	%xmm0, %xmm0
	punpcklwd	%xmm0, %xmm0
	movdqa	.LCPI9_0(%rip), %xmm2
	movdqa	%xmm1, %xmm3
	pand	%xmm2, %xmm3
	pand	%xmm0, %xmm2
	pmullw	%xmm3, %xmm2
	movdqa	.LCPI9_1(%rip), %xmm3
	paddw	%xmm3, %xmm2
	movdqa	.LCPI9_2(%rip), %xmm4
	pmulhuw	%xmm4, %xmm2
	psrlw	$8, %xmm1
	psrlw	$8, %xmm0
	pmullw	%xmm1, %xmm0
	paddw	%xmm3, %xmm0
	pmulhuw	%xmm4, %xmm0
	psllw	$8, %xmm0
	por	%xmm2, %xmm0
	movdqu	(%rsi,%r10), %xmm1
	paddusb	%xmm0, %xmm1
	movdqu	%xmm1, (%rsi,%r10)
	cmpl	%ebx, 296(%rsp)
	movq	64(%rsp), %r9
	je	.LBB9_1186
.LBB9_1184:
	xorl	%r8d, %r8d
	movq	296(%rsp), %rsi
	.p2align	4
.LBB9_1185:
	movl	(%rcx,%r8,4), %eax
	movzbl	%ah, %ebp
	movq	%rcx, %r15
	movq	%r11, %rcx
	movq	%rbx, %r11
	movl	%eax, %ebx
	movzbl	%al, %r14d
	shrl	$16, %eax
	shrl	$24, %ebx
	movzbl	%al, %eax
	movl	(%r9,%r8,4), %r10d
	movl	%r10d, %edi
	shrl	$8, %edi
	movl	%r10d, %r9d
	movd	%eax, %xmm0
	pinsrw	$1, %ebx, %xmm0
	movq	%r11, %rbx
	movq	%rcx, %r11
	movq	%r15, %rcx
	pinsrw	$2, %ebp, %xmm0
	pinsrw	$3, %r14d, %xmm0
	shrl	$24, %r9d
	movzbl	(%r11,%r8), %eax
	movd	%eax, %xmm1
	pshuflw	$0, %xmm1, %xmm1
	pmullw	%xmm0, %xmm1
	paddw	.LCPI9_3(%rip), %xmm1
	movdqa	%xmm1, %xmm0
	psrlw	$8, %xmm0
	paddw	%xmm1, %xmm0
	psrlw	$8, %xmm0
	packuswb	%xmm0, %xmm0
	movd	%r10d, %xmm1
	psrld	$16, %xmm1
	pinsrb	$1, %r9d, %xmm1
	movq	64(%rsp), %r9
	pinsrb	$2, %edi, %xmm1
	pinsrb	$3, %r10d, %xmm1
	paddusb	%xmm0, %xmm1
	pmovzxbd	%xmm1, %xmm0
	pmulld	.LCPI9_4(%rip), %xmm0
	pshufd	$238, %xmm0, %xmm1
	por	%xmm0, %xmm1
	pshufd	$85, %xmm1, %xmm0
	por	%xmm1, %xmm0
	movd	%xmm0, (%r9,%r8,4)
	incq	%rsi
	incq	%r8
	cmpq	%rbx, %rsi
	jb	.LBB9_1185
	jmp	.LBB9_1186
.LBB9_338:
	movq	%r11, 256(%rsp)
	testq	%r15, %r15
	je	.LBB9_1189
	movq	%r13, %rdi
	shrq	$32, %rdi
	subq	%rsi, %rcx
	movl	%ebp, 144(%rsp)
	movabsq	$4294967296, %rbp
	leaq	(%rcx,%rbp), %rsi
	leaq	(%rdx,%rbp), %r11
	cmpq	%rsi, %r11
	movq	%r8, 72(%rsp)
	movq	%rsi, %r8
	cmovbq	%r11, %r8
	xorl	%esi, %esi
	movq	%rbp, %r12
	subq	%r8, %r12
	cmovbq	%rsi, %r12
	orq	%rbp, %r15
	leaq	(%rcx,%rbp), %r8
	subq	%r8, %r15
	cmovbq	%rsi, %r15
	movl	%r13d, %r8d
	orq	%rbp, %r8
	subq	%r11, %r8
	cmovbq	%rsi, %r8
	cmpl	%r9d, %r10d
	cmovbl	%r10d, %r9d
	cmpq	%r9, %r15
	cmovaeq	%r9, %r15
	cmpq	%r15, %r8
	cmovbq	%r8, %r15
	leaq	(%r12,%rcx), %r9
	addq	%r15, %rcx
	addq	%r12, %rdx
	cmpq	%r12, %r15
	cmovbeq	%rsi, %r9
	cmovbeq	%rsi, %rcx
	cmovbeq	%rsi, %rdx
	subq	128(%rsp), %rbx
	leaq	(%rbx,%rbp), %r8
	movq	112(%rsp), %r11
	leaq	(%r11,%rbp), %r15
	cmpq	%r8, %r15
	movq	%r8, %r12
	cmovbq	%r15, %r12
	movq	%rbp, %r10
	subq	%r12, %r10
	cmovbq	%rsi, %r10
	orq	%rbp, %r14
	subq	%r8, %r14
	cmovbq	%rsi, %r14
	orq	%rbp, %rdi
	subq	%r15, %rdi
	cmovbq	%rsi, %rdi
	movl	144(%rsp), %r8d
	cmpl	%eax, %r8d
	cmovbl	%r8d, %eax
	cmpq	%rax, %r14
	cmovaeq	%rax, %r14
	cmpq	%r14, %rdi
	cmovbq	%rdi, %r14
	leaq	(%r10,%rbx), %rax
	addq	%r14, %rbx
	addq	%r10, %r11
	cmpq	%r10, %r14
	cmovbeq	%rsi, %rax
	cmovbeq	%rsi, %rbx
	cmovbeq	%rsi, %r11
	movq	256(%rsp), %r8
	movzbl	(%r8), %r8d
	movq	%r9, 200(%rsp)
	movq	%rcx, 208(%rsp)
	movq	%rdx, 216(%rsp)
	movq	%rax, 224(%rsp)
	movq	%rbx, 232(%rsp)
	movq	%r11, 240(%rsp)
	movb	%r8b, 40(%rsp)
	leaq	200(%rsp), %rax
	movq	%rax, 32(%rsp)
	movq	56(%rsp), %rcx
	movq	64(%rsp), %rdx
	movq	80(%rsp), %r8
	movq	72(%rsp), %r9
	callq	"pix_raster::view::blit_overlap::<#d778ccf2d5486893>"
	jmp	.LBB9_1189
.LBB9_660:
	movq	%r12, 56(%rsp)
	testq	%r15, %r15
	je	.LBB9_1189
	subq	%rsi, %rcx
	movabsq	$4294967296, %rdx
	addq	%rdx, %rcx
	cmpq	%rdx, %rcx
	movq	%rdx, %rsi
	cmovaq	%rcx, %rsi
	movabsq	$-4294967296, %r10
	addq	%r9, %rcx
	orq	%rdx, %r15
	cmpq	%rcx, %r15
	cmovaeq	%rcx, %r15
	leaq	(%rsi,%r10), %rax
	xorl	%ecx, %ecx
	cmpq	%rsi, %r15
	cmovbeq	%rcx, %rax
	movq	%rax, 176(%rsp)
	subq	112(%rsp), %r11
	addq	%rdx, %r11
	cmpq	%rdx, %r11
	movq	%rdx, %r8
	cmovaq	%r11, %r8
	addq	72(%rsp), %r11
	movq	64(%rsp), %r9
	orq	%rdx, %r9
	cmpq	%r11, %r9
	cmovaeq	%r11, %r9
	leaq	(%r8,%r10), %r11
	cmpq	%r8, %r9
	cmovbeq	%rcx, %r11
	jbe	.LBB9_1189
	movq	%r9, %rax
	addq	%r10, %rax
	movq	%rax, 64(%rsp)
	cmpq	%r11, %rax
	jbe	.LBB9_1189
	movq	128(%rsp), %rax
	movl	(%rax), %r9d
	shrl	$24, %r9d
	addq	%r15, %r10
	xorl	%r8d, %r8d
	cmpq	%rsi, %r15
	cmovaq	%r10, %r8
	movq	176(%rsp), %rdx
	subq	%rdx, %r8
	movq	%r8, %rax
	movd	%r9d, %xmm0
	pshufb	.LCPI9_10(%rip), %xmm0
	shrq	$4, %rax
	movq	%rax, 128(%rsp)
	movdqa	%xmm0, %xmm1
	pshufb	.LCPI9_8(%rip), %xmm1
	movq	%r8, %r10
	andq	$-16, %r10
	leaq	(,%r10,4), %rax
	movq	%rax, 256(%rsp)
	movl	%r8d, %ebx
	andl	$15, %ebx
	leal	(,%r8,4), %ecx
	movl	%ecx, %eax
	andl	$32, %eax
	movq	%rax, 104(%rsp)
	pshufb	.LCPI9_9(%rip), %xmm0
	movdqa	.LCPI9_0(%rip), %xmm2
	pand	%xmm0, %xmm2
	psrlw	$8, %xmm0
	movl	%r8d, %eax
	andl	$12, %eax
	movq	%rax, 144(%rsp)
	movq	%r11, %rax
	movq	80(%rsp), %rsi
	imulq	%rsi, %rax
	addq	%rdx, %rax
	movq	56(%rsp), %rdx
	leaq	(%rdx,%rax,4), %r13
	andl	$48, %ecx
	movq	%r10, 112(%rsp)
	leaq	(%rcx,%r10,4), %rcx
	leaq	(%rcx,%rax,4), %r10
	leaq	(,%rsi,4), %rax
	movq	%rax, 72(%rsp)
	addq	%rdx, %r10
	jmp	.LBB9_664
.LBB9_675:
	incq	%r11
	movq	72(%rsp), %rax
	addq	%rax, %r13
	addq	%rax, %r10
	cmpq	64(%rsp), %r11
	je	.LBB9_1189
.LBB9_664:
	cmpq	$0, 128(%rsp)
	je	.LBB9_667
	movq	%r13, %rsi
	movq	128(%rsp), %rdi
	.p2align	4
.LBB9_666:
	movdqa	.LCPI9_0(%rip), %xmm5
	movdqu	(%rsi), %xmm9
	movdqu	16(%rsi), %xmm8
	movdqu	32(%rsi), %xmm4
	movdqu	48(%rsi), %xmm3
	movdqa	%xmm8, %xmm10
	pand	%xmm5, %xmm10
	movdqa	%xmm9, %xmm11
	pand	%xmm5, %xmm11
	pmullw	%xmm1, %xmm11
	pmullw	%xmm1, %xmm10
	movdqa	.LCPI9_1(%rip), %xmm6
	paddw	%xmm6, %xmm10
	paddw	%xmm6, %xmm11
	movdqa	.LCPI9_2(%rip), %xmm7
	pmulhuw	%xmm7, %xmm11
	pmulhuw	%xmm7, %xmm10
	psrlw	$8, %xmm9
	psrlw	$8, %xmm8
	pmullw	%xmm1, %xmm8
	pmullw	%xmm1, %xmm9
	paddw	%xmm6, %xmm9
	paddw	%xmm6, %xmm8
	pmulhuw	%xmm7, %xmm8
	pmulhuw	%xmm7, %xmm9
	psllw	$8, %xmm9
	por	%xmm11, %xmm9
	psllw	$8, %xmm8
	por	%xmm10, %xmm8
	movdqu	%xmm9, (%rsi)
	movdqu	%xmm8, 16(%rsi)
	movdqa	%xmm3, %xmm8
	pand	%xmm5, %xmm8
	pand	%xmm4, %xmm5
	pmullw	%xmm1, %xmm5
	pmullw	%xmm1, %xmm8
	paddw	%xmm6, %xmm8
	paddw	%xmm6, %xmm5
	pmulhuw	%xmm7, %xmm5
	pmulhuw	%xmm7, %xmm8
	psrlw	$8, %xmm4
	psrlw	$8, %xmm3
	pmullw	%xmm1, %xmm3
	pmullw	%xmm1, %xmm4
	paddw	%xmm6, %xmm4
	paddw	%xmm6, %xmm3
	pmulhuw	%xmm7, %xmm3
	pmulhuw	%xmm7, %xmm4
	psllw	$8, %xmm4
	por	%xmm5, %xmm4
	psllw	$8, %xmm3
	por	%xmm8, %xmm3
	movdqu	%xmm4, 32(%rsi)
	movdqu	%xmm3, 48(%rsi)
	addq	$64, %rsi
	decq	%rdi
	jne	.LBB9_666
.LBB9_667:
	cmpq	%r8, 112(%rsp)
	je	.LBB9_675
	movq	%r11, %rcx
	imulq	80(%rsp), %rcx
	addq	176(%rsp), %rcx
	movq	56(%rsp), %rax
	leaq	(%rax,%rcx,4), %rsi
	addq	256(%rsp), %rsi
	testb	$8, %r8b
	jne	.LBB9_669
	testb	$4, %r8b
	jne	.LBB9_671
.LBB9_672:
	cmpl	%ebx, 144(%rsp)
	jae	.LBB9_675
	jmp	.LBB9_673
.LBB9_669:
	movdqu	(%rsi), %xmm4
	movdqu	16(%rsi), %xmm3
	movdqa	.LCPI9_0(%rip), %xmm6
	movdqa	%xmm3, %xmm5
	pand	%xmm6, %xmm5
	pand	%xmm4, %xmm6
	pmullw	%xmm1, %xmm6
	pmullw	%xmm1, %xmm5
	movdqa	.LCPI9_1(%rip), %xmm7
	paddw	%xmm7, %xmm5
	paddw	%xmm7, %xmm6
	movdqa	.LCPI9_2(%rip), %xmm8
	pmulhuw	%xmm8, %xmm6
	pmulhuw	%xmm8, %xmm5
	psrlw	$8, %xmm4
	psrlw	$8, %xmm3
	pmullw	%xmm1, %xmm3
	pmullw	%xmm1, %xmm4
	paddw	%xmm7, %xmm4
	paddw	%xmm7, %xmm3
	pmulhuw	%xmm8, %xmm3
	pmulhuw	%xmm8, %xmm4
	psllw	$8, %xmm4
	por	%xmm6, %xmm4
	psllw	$8, %xmm3
	por	%xmm5, %xmm3
	movdqu	%xmm4, (%rsi)
	movdqu	%xmm3, 16(%rsi)
	testb	$4, %r8b
	je	.LBB9_672
.LBB9_671:
	movq	104(%rsp), %rax
	movdqu	(%rsi,%rax), %xmm3
	movdqa	.LCPI9_0(%rip), %xmm4
	pand	%xmm3, %xmm4
	pmullw	%xmm2, %xmm4
	movdqa	.LCPI9_1(%rip), %xmm5
	paddw	%xmm5, %xmm4
	movdqa	.LCPI9_2(%rip), %xmm6
	pmulhuw	%xmm6, %xmm4
	psrlw	$8, %xmm3
	pmullw	%xmm0, %xmm3
	paddw	%xmm5, %xmm3
	pmulhuw	%xmm6, %xmm3
	psllw	$8, %xmm3
	por	%xmm4, %xmm3
	movdqu	%xmm3, (%rsi,%rax)
	cmpl	%ebx, 144(%rsp)
	jae	.LBB9_675
.LBB9_673:
	movq	%r10, %rsi
	movq	144(%rsp), %rdi
	.p2align	4
.LBB9_674:
	movl	(%rsi), %ecx
	movzbl	%ch, %ebp
	movl	%ecx, %r15d
	movzbl	%cl, %r12d
	shrl	$16, %ecx
	shrl	$24, %r15d
	movzwl	%r9w, %r14d
	imull	%r14d, %r12d
	leal	128(%r12), %eax
	movzbl	%ah, %eax
	addl	%r12d, %eax
	addl	$128, %eax
	movzbl	%ah, %eax
	imull	%r14d, %ebp
	leal	128(%rbp), %edx
	movzbl	%dh, %edx
	leal	(%rdx,%rbp), %r12d
	addl	$128, %r12d
	andl	$65280, %r12d
	movzbl	%cl, %ecx
	imull	%r14d, %ecx
	leal	128(%rcx), %edx
	movzbl	%dh, %edx
	addl	%edx, %ecx
	addl	$128, %ecx
	imull	%r14d, %r15d
	leal	128(%r15), %edx
	movzbl	%dh, %edx
	addl	%r15d, %edx
	addl	$128, %edx
	shll	$16, %edx
	andl	$-16777216, %edx
	shll	$8, %ecx
	andl	$16711680, %ecx
	orl	%edx, %ecx
	orl	%r12d, %ecx
	orl	%eax, %ecx
	movl	%ecx, (%rsi)
	incq	%rdi
	addq	$4, %rsi
	cmpq	%rbx, %rdi
	jb	.LBB9_674
	jmp	.LBB9_675
.LBB9_698:
	movq	%rax, 104(%rsp)
	testq	%r15, %r15
	je	.LBB9_1189
	movq	%rbp, %rdi
	shrq	$32, %rdi
	subq	%rsi, %rcx
	movabsq	$4294967296, %rsi
	movq	%r8, %rax
	leaq	(%rcx,%rsi), %r8
	movl	%r14d, 176(%rsp)
	leaq	(%rdx,%rsi), %r14
	cmpq	%r8, %r14
	movq	%r12, 56(%rsp)
	movq	%r8, %r12
	cmovbq	%r14, %r12
	xorl	%r10d, %r10d
	movq	%r13, 144(%rsp)
	movq	%rsi, %r13
	subq	%r12, %r13
	cmovbq	%r10, %r13
	orq	%rsi, %r15
	subq	%r8, %r15
	cmovbq	%r10, %r15
	movl	%ebp, %r8d
	orq	%rsi, %r8
	subq	%r14, %r8
	cmovbq	%r10, %r8
	cmpl	%r9d, %ebx
	cmovbl	%ebx, %r9d
	cmpq	%r9, %r15
	cmovaeq	%r9, %r15
	cmpq	%r15, %r8
	cmovbq	%r8, %r15
	leaq	(%rcx,%r13), %r9
	addq	%r15, %rcx
	addq	%r13, %rdx
	cmpq	%r13, %r15
	cmovbeq	%r10, %r9
	cmovbeq	%r10, %rcx
	cmovbeq	%r10, %rdx
	subq	112(%rsp), %r11
	leaq	(%r11,%rsi), %r8
	movq	%rax, %r12
	leaq	(%rax,%rsi), %r14
	cmpq	%r8, %r14
	movq	%r8, %r15
	cmovbq	%r14, %r15
	movq	%rsi, %rbx
	subq	%r15, %rbx
	cmovbq	%r10, %rbx
	movq	64(%rsp), %r15
	orq	%rsi, %r15
	subq	%r8, %r15
	cmovbq	%r10, %r15
	orq	%rsi, %rdi
	subq	%r14, %rdi
	cmovbq	%r10, %rdi
	movq	72(%rsp), %rax
	movl	176(%rsp), %r8d
	cmpl	%eax, %r8d
	cmovbl	%r8d, %eax
	cmpq	%rax, %r15
	cmovaeq	%rax, %r15
	cmpq	%r15, %rdi
	cmovbq	%rdi, %r15
	leaq	(%rbx,%r11), %rax
	addq	%r15, %r11
	movq	%r12, %r8
	addq	%rbx, %r8
	cmpq	%rbx, %r15
	cmovbeq	%r10, %rax
	cmovbeq	%r10, %r11
	cmovbeq	%r10, %r8
	movq	%r8, %r10
	movq	104(%rsp), %r8
	movzbl	(%r8), %r8d
	movq	%r9, 200(%rsp)
	movq	%rcx, 208(%rsp)
	movq	%rdx, 216(%rsp)
	movq	%rax, 224(%rsp)
	movq	%r11, 232(%rsp)
	movq	%r10, 240(%rsp)
	movb	%r8b, 40(%rsp)
	leaq	200(%rsp), %rax
	movq	%rax, 32(%rsp)
	movq	56(%rsp), %rcx
	movq	80(%rsp), %rdx
	movq	128(%rsp), %r8
	movq	144(%rsp), %r9
	callq	"pix_raster::view::blit_overlap::<#b96d0594766ff04b>"
	jmp	.LBB9_1189
.LBB9_863:
	movq	%r8, 168(%rsp)
	movq	%r10, 144(%rsp)
	movq	%r12, 56(%rsp)
	testq	%r15, %r15
	je	.LBB9_1189
	movl	%r14d, 176(%rsp)
	movq	424(%rsp), %rdi
	movq	%rdi, 256(%rsp)
	movslq	440(%rsp), %r12
	movabsq	$4294967296, %r8
	movq	%r13, %r11
	shrq	$32, %r11
	shrq	$32, %rdi
	subq	%rsi, %rcx
	leaq	(%rcx,%r8), %r14
	leaq	(%r9,%r8), %rsi
	cmpq	%r14, %rsi
	movq	%r14, %r10
	cmovbq	%rsi, %r10
	movq	%r12, 248(%rsp)
	leaq	(%r12,%r8), %rsi
	movq	%rsi, 104(%rsp)
	cmpq	%r10, %rsi
	cmovbq	%rsi, %r10
	xorl	%r12d, %r12d
	movq	%r8, %rsi
	subq	%r10, %rsi
	cmovbq	%r12, %rsi
	orq	%r8, %r15
	subq	%r14, %r15
	cmovbq	%r12, %r15
	movl	%r13d, %r13d
	orq	%r8, %r13
	leaq	(%r9,%r8), %r10
	subq	%r10, %r13
	movl	256(%rsp), %r10d
	cmovbq	%r12, %r13
	orq	%r8, %r10
	subq	104(%rsp), %r10
	movl	$0, %r14d
	movq	%r14, 296(%rsp)
	cmovbq	%r12, %r10
	cmpl	%ebx, %ebp
	cmovbl	%ebp, %ebx
	movl	448(%rsp), %ebp
	cmpl	%ebx, %ebp
	cmovbl	%ebp, %ebx
	cmpq	%rbx, %r15
	cmovaeq	%rbx, %r15
	movslq	444(%rsp), %rbx
	movq	%rbx, 320(%rsp)
	cmpq	%r15, %r13
	cmovbq	%r13, %r15
	movl	452(%rsp), %ebx
	cmpq	%r15, %r10
	cmovbq	%r10, %r15
	movl	$0, %r12d
	movl	$0, %r10d
	movq	%r10, 280(%rsp)
	movl	$0, %ebp
	cmpq	%rsi, %r15
	jbe	.LBB9_866
	leaq	(%rsi,%rcx), %r10
	movq	%r10, 296(%rsp)
	addq	%rcx, %r15
	addq	%rsi, %r9
	movq	248(%rsp), %rbp
	addq	%rsi, %rbp
	movq	%r15, %r12
	movq	%r9, 280(%rsp)
.LBB9_866:
	subq	112(%rsp), %rax
	leaq	(%rax,%r8), %rsi
	movq	72(%rsp), %rcx
	addq	%r8, %rcx
	movq	320(%rsp), %r9
	addq	%r8, %r9
	cmpq	%rsi, %rcx
	movq	%rsi, %r10
	cmovbq	%rcx, %r10
	cmpq	%r10, %r9
	cmovbq	%r9, %r10
	xorl	%r14d, %r14d
	movq	%r8, %r15
	subq	%r10, %r15
	cmovbq	%r14, %r15
	movq	64(%rsp), %r10
	orq	%r8, %r10
	subq	%rsi, %r10
	cmovbq	%r14, %r10
	orq	%r8, %r11
	subq	%rcx, %r11
	cmovbq	%r14, %r11
	orq	%r8, %rdi
	subq	%r9, %rdi
	cmovbq	%r14, %rdi
	movl	176(%rsp), %r14d
	cmpl	%edx, %r14d
	cmovbl	%r14d, %edx
	cmpl	%edx, %ebx
	cmovbl	%ebx, %edx
	cmpq	%rdx, %r10
	cmovaeq	%rdx, %r10
	cmpq	%r10, %r11
	cmovbq	%r11, %r10
	cmpq	%r10, %rdi
	cmovbq	%rdi, %r10
	cmpq	%r15, %r10
	jbe	.LBB9_1189
	movq	%r10, %rdx
	leaq	(%r15,%rax), %r10
	addq	%rax, %rdx
	movq	%rdx, 64(%rsp)
	movq	%r10, 288(%rsp)
	cmpq	%rdx, %r10
	jae	.LBB9_1189
	movq	432(%rsp), %rax
	movq	%rax, 256(%rsp)
	movq	%r8, %rdx
	movq	72(%rsp), %r8
	leaq	(%r15,%r8), %rax
	movq	%rax, 328(%rsp)
	addq	%r15, 320(%rsp)
	movq	168(%rsp), %rbx
	leaq	(%rbx,%rbp), %rax
	movq	%rax, 456(%rsp)
	subq	296(%rsp), %r12
	movq	%r12, %rax
	shrq	$4, %rax
	movq	%rax, 176(%rsp)
	movq	%r12, %r14
	andq	$-16, %r14
	movl	%r12d, %eax
	andl	$15, %eax
	movq	%rax, 472(%rsp)
	movl	%r12d, %eax
	andl	$8, %eax
	movq	%rax, 304(%rsp)
	movl	%r12d, %r11d
	andl	$12, %r11d
	addq	%rdx, %r8
	cmpq	%rcx, %rsi
	cmovbq	%rsi, %rcx
	leaq	(,%r14,4), %rsi
	cmpq	%r9, %rcx
	cmovaeq	%r9, %rcx
	cmpq	%rdx, %rcx
	cmovaeq	%rdx, %rcx
	subq	%rcx, %r8
	imulq	144(%rsp), %r8
	movq	280(%rsp), %r15
	leaq	(,%r15,4), %rax
	leaq	(%rax,%r8,4), %r10
	subq	%rcx, %r9
	movq	80(%rsp), %rdi
	movq	%rdi, %rdx
	movq	288(%rsp), %r13
	imulq	%r13, %rdx
	imulq	256(%rsp), %r9
	addq	%rbp, %r9
	movq	%r14, 104(%rsp)
	movq	%r11, 312(%rsp)
	addq	%r11, %r14
	addq	%rbx, %r14
	leaq	(%rbx,%r9), %r11
	addq	%r9, %r14
	movq	296(%rsp), %rbx
	leaq	(,%rbx,4), %rax
	leaq	(%rax,%rdx,4), %rax
	leaq	(%rsi,%r8,4), %r8
	movq	%r12, 72(%rsp)
	leal	(,%r12,4), %r9d
	andl	$48, %r9d
	addq	%r9, %r8
	movq	%rsi, 464(%rsp)
	leaq	(%rsi,%rdx,4), %rdx
	addq	%r9, %rdx
	movq	128(%rsp), %r9
	addq	%r9, %r10
	movq	56(%rsp), %rcx
	addq	%rcx, %rax
	leaq	(%r8,%r15,4), %r12
	addq	%r9, %r12
	leaq	(%rdx,%rbx,4), %rbp
	movq	472(%rsp), %rbx
	addq	%rcx, %rbp
	movq	144(%rsp), %rcx
	leaq	(,%rcx,4), %rcx
	movq	%rcx, 168(%rsp)
	leaq	(,%rdi,4), %rcx
	movq	%rcx, 248(%rsp)
	movq	%r13, 112(%rsp)
	jmp	.LBB9_869
.LBB9_880:
	movq	112(%rsp), %r9
	incq	%r9
	movq	168(%rsp), %rdx
	addq	%rdx, %r10
	movq	248(%rsp), %r8
	addq	%r8, %rax
	movq	256(%rsp), %rcx
	addq	%rcx, %r11
	addq	%rcx, %r14
	addq	%rdx, %r12
	addq	%r8, %rbp
	movq	%r9, 112(%rsp)
	cmpq	64(%rsp), %r9
	je	.LBB9_1189
.LBB9_869:
	cmpq	$0, 176(%rsp)
	je	.LBB9_872
	movl	$8, %r9d
	movq	176(%rsp), %r15
	.p2align	4
.LBB9_871:
	movdqu	-32(%r10,%r9,4), %xmm5
	movdqu	-16(%r10,%r9,4), %xmm3
	movq	-8(%r11,%r9), %xmm8
	punpcklbw	%xmm8, %xmm8
	movdqa	%xmm8, %xmm7
	punpcklwd	%xmm8, %xmm7
	punpckhwd	%xmm8, %xmm8
	movdqa	.LCPI9_0(%rip), %xmm0
	movdqa	%xmm3, %xmm1
	pand	%xmm0, %xmm1
	movdqa	%xmm5, %xmm2
	pand	%xmm0, %xmm2
	movdqa	%xmm8, %xmm4
	pand	%xmm0, %xmm4
	pmullw	%xmm1, %xmm4
	movdqa	%xmm7, %xmm11
	pand	%xmm0, %xmm11
	pmullw	%xmm2, %xmm11
	movdqa	.LCPI9_1(%rip), %xmm2
	paddw	%xmm2, %xmm4
	paddw	%xmm2, %xmm11
	movdqa	.LCPI9_2(%rip), %xmm1
	pmulhuw	%xmm1, %xmm11
	pmulhuw	%xmm1, %xmm4
	psrlw	$8, %xmm5
	psrlw	$8, %xmm3
	psrlw	$8, %xmm7
	pmullw	%xmm5, %xmm7
	psrlw	$8, %xmm8
	pmullw	%xmm3, %xmm8
	paddw	%xmm2, %xmm7
	paddw	%xmm2, %xmm8
	pmulhuw	%xmm1, %xmm8
	pmulhuw	%xmm1, %xmm7
	psllw	$8, %xmm7
	psllw	$8, %xmm8
	por	%xmm4, %xmm8
	por	%xmm11, %xmm7
	pcmpeqd	%xmm5, %xmm5
	movdqu	-32(%rax,%r9,4), %xmm9
	movdqu	-16(%rax,%r9,4), %xmm10
	movdqa	%xmm10, %xmm3
	pxor	%xmm5, %xmm3
	movdqa	%xmm9, %xmm13
	pxor	%xmm5, %xmm13
	movdqa	.LCPI9_5(%rip), %xmm6
	pshufb	%xmm6, %xmm13
	pshufb	%xmm6, %xmm3
	movdqa	%xmm7, %xmm12
	pand	%xmm0, %xmm11
	pmullw	%xmm13, %xmm11
	psrlw	$8, %xmm7
	pmullw	%xmm13, %xmm7
	movdqa	%xmm8, %xmm13
	pand	%xmm0, %xmm4
	pmullw	%xmm3, %xmm4
	psrlw	$8, %xmm8
	pmullw	%xmm3, %xmm8
	movdqu	(%rax,%r9,4), %xmm3
	paddw	%xmm2, %xmm4
	pmulhuw	%xmm1, %xmm4
	paddw	%xmm2, %xmm8
	pmulhuw	%xmm1, %xmm8
	psllw	$8, %xmm8
	por	%xmm4, %xmm8
	movdqu	16(%rax,%r9,4), %xmm4
	pshufb	%xmm6, %xmm12
	pshufb	%xmm6, %xmm13
	paddw	%xmm2, %xmm11
	pmulhuw	%xmm1, %xmm11
	paddw	%xmm2, %xmm7
	pmulhuw	%xmm1, %xmm7
	psllw	$8, %xmm7
	por	%xmm11, %xmm7
	movdqa	%xmm9, %xmm11
	pand	%xmm0, %xmm11
	pmullw	%xmm12, %xmm11
	psrlw	$8, %xmm9
	pmullw	%xmm12, %xmm9
	movdqa	%xmm10, %xmm12
	pand	%xmm0, %xmm12
	pmullw	%xmm13, %xmm12
	paddw	%xmm2, %xmm11
	paddw	%xmm2, %xmm12
	pmulhuw	%xmm1, %xmm12
	pmulhuw	%xmm1, %xmm11
	psrlw	$8, %xmm10
	pmullw	%xmm13, %xmm10
	paddw	%xmm2, %xmm10
	paddw	%xmm2, %xmm9
	pmulhuw	%xmm1, %xmm9
	pmulhuw	%xmm1, %xmm10
	psllw	$8, %xmm10
	por	%xmm12, %xmm10
	paddusb	%xmm8, %xmm10
	psllw	$8, %xmm9
	por	%xmm11, %xmm9
	paddusb	%xmm7, %xmm9
	movdqu	%xmm9, -32(%rax,%r9,4)
	movdqu	%xmm10, -16(%rax,%r9,4)
	movdqu	(%r10,%r9,4), %xmm12
	movdqu	16(%r10,%r9,4), %xmm11
	movq	(%r11,%r9), %xmm8
	punpcklbw	%xmm8, %xmm8
	movdqa	%xmm8, %xmm7
	punpcklwd	%xmm8, %xmm7
	punpckhwd	%xmm8, %xmm8
	movdqa	%xmm11, %xmm9
	pand	%xmm0, %xmm9
	movdqa	%xmm12, %xmm13
	pand	%xmm0, %xmm13
	movdqa	%xmm8, %xmm10
	pand	%xmm0, %xmm10
	pmullw	%xmm9, %xmm10
	movdqa	%xmm7, %xmm9
	pand	%xmm0, %xmm9
	pmullw	%xmm13, %xmm9
	paddw	%xmm2, %xmm10
	paddw	%xmm2, %xmm9
	pmulhuw	%xmm1, %xmm9
	pmulhuw	%xmm1, %xmm10
	psrlw	$8, %xmm12
	psrlw	$8, %xmm11
	psrlw	$8, %xmm7
	pmullw	%xmm12, %xmm7
	psrlw	$8, %xmm8
	pmullw	%xmm11, %xmm8
	paddw	%xmm2, %xmm7
	paddw	%xmm2, %xmm8
	pmulhuw	%xmm1, %xmm8
	pmulhuw	%xmm1, %xmm7
	psllw	$8, %xmm7
	psllw	$8, %xmm8
	por	%xmm10, %xmm8
	por	%xmm9, %xmm7
	movdqa	%xmm4, %xmm13
	pxor	%xmm5, %xmm13
	pxor	%xmm3, %xmm5
	pshufb	%xmm6, %xmm5
	pshufb	%xmm6, %xmm13
	movdqa	%xmm7, %xmm12
	pshufb	%xmm6, %xmm12
	movdqa	%xmm8, %xmm11
	pshufb	%xmm6, %xmm11
	pand	%xmm0, %xmm9
	pmullw	%xmm5, %xmm9
	psrlw	$8, %xmm7
	pmullw	%xmm5, %xmm7
	pand	%xmm0, %xmm10
	pmullw	%xmm13, %xmm10
	psrlw	$8, %xmm8
	pmullw	%xmm13, %xmm8
	paddw	%xmm2, %xmm10
	pmulhuw	%xmm1, %xmm10
	paddw	%xmm2, %xmm8
	pmulhuw	%xmm1, %xmm8
	psllw	$8, %xmm8
	por	%xmm10, %xmm8
	paddw	%xmm2, %xmm9
	pmulhuw	%xmm1, %xmm9
	paddw	%xmm2, %xmm7
	pmulhuw	%xmm1, %xmm7
	psllw	$8, %xmm7
	por	%xmm9, %xmm7
	movdqa	%xmm3, %xmm5
	pand	%xmm0, %xmm5
	pmullw	%xmm12, %xmm5
	psrlw	$8, %xmm3
	pmullw	%xmm12, %xmm3
	pand	%xmm4, %xmm0
	pmullw	%xmm11, %xmm0
	psrlw	$8, %xmm4
	pmullw	%xmm11, %xmm4
	paddw	%xmm2, %xmm5
	paddw	%xmm2, %xmm0
	paddw	%xmm2, %xmm4
	paddw	%xmm2, %xmm3
	pmulhuw	%xmm1, %xmm0
	pmulhuw	%xmm1, %xmm5
	pmulhuw	%xmm1, %xmm3
	pmulhuw	%xmm1, %xmm4
	psllw	$8, %xmm4
	por	%xmm0, %xmm4
	paddusb	%xmm8, %xmm4
	psllw	$8, %xmm3
	por	%xmm5, %xmm3
	paddusb	%xmm7, %xmm3
	movdqu	%xmm3, (%rax,%r9,4)
	movdqu	%xmm4, 16(%rax,%r9,4)
	addq	$16, %r9
	decq	%r15
	jne	.LBB9_871
.LBB9_872:
	movq	104(%rsp), %rcx
	cmpq	72(%rsp), %rcx
	je	.LBB9_880
	movq	112(%rsp), %rsi
	movq	%rsi, %rdx
	imulq	80(%rsp), %rdx
	addq	296(%rsp), %rdx
	subq	288(%rsp), %rsi
	movq	328(%rsp), %rcx
	leaq	(%rcx,%rsi), %rdi
	imulq	144(%rsp), %rdi
	addq	280(%rsp), %rdi
	addq	320(%rsp), %rsi
	imulq	256(%rsp), %rsi
	addq	456(%rsp), %rsi
	movq	56(%rsp), %rcx
	leaq	(%rcx,%rdx,4), %r9
	movq	128(%rsp), %rcx
	leaq	(%rcx,%rdi,4), %r15
	movq	464(%rsp), %rcx
	addq	%rcx, %r9
	addq	%rcx, %r15
	addq	104(%rsp), %rsi
	cmpq	$0, 304(%rsp)
	jne	.LBB9_874
	testb	$4, 72(%rsp)
	jne	.LBB9_876
.LBB9_877:
	cmpl	%ebx, 312(%rsp)
	je	.LBB9_880
	jmp	.LBB9_878
.LBB9_874:
	movdqu	(%r15), %xmm6
	movdqu	16(%r15), %xmm5
	movq	(%rsi), %xmm1
	punpcklbw	%xmm1, %xmm1
	movdqa	%xmm1, %xmm0
	punpcklwd	%xmm1, %xmm0
	punpckhwd	%xmm1, %xmm1
	movdqa	.LCPI9_0(%rip), %xmm2
	movdqa	%xmm5, %xmm3
	pand	%xmm2, %xmm3
	movdqa	%xmm6, %xmm4
	pand	%xmm2, %xmm4
	movdqa	%xmm1, %xmm8
	pand	%xmm2, %xmm8
	pmullw	%xmm3, %xmm8
	movdqa	%xmm0, %xmm7
	pand	%xmm2, %xmm7
	pmullw	%xmm4, %xmm7
	movdqa	.LCPI9_1(%rip), %xmm3
	paddw	%xmm3, %xmm8
	paddw	%xmm3, %xmm7
	movdqa	.LCPI9_2(%rip), %xmm4
	pmulhuw	%xmm4, %xmm7
	pmulhuw	%xmm4, %xmm8
	psrlw	$8, %xmm6
	psrlw	$8, %xmm5
	psrlw	$8, %xmm0
	pmullw	%xmm6, %xmm0
	psrlw	$8, %xmm1
	pmullw	%xmm5, %xmm1
	paddw	%xmm3, %xmm0
	paddw	%xmm3, %xmm1
	pmulhuw	%xmm4, %xmm1
	pmulhuw	%xmm4, %xmm0
	psllw	$8, %xmm0
	psllw	$8, %xmm1
	por	%xmm8, %xmm1
	por	%xmm7, %xmm0
	movdqu	(%r9), %xmm5
	movdqu	16(%r9), %xmm6
	pcmpeqd	%xmm12, %xmm12
	movdqa	%xmm6, %xmm11
	pxor	%xmm12, %xmm11
	pxor	%xmm5, %xmm12
	movdqa	.LCPI9_5(%rip), %xmm13
	pshufb	%xmm13, %xmm12
	pshufb	%xmm13, %xmm11
	movdqa	%xmm0, %xmm9
	pshufb	%xmm13, %xmm9
	movdqa	%xmm1, %xmm10
	pshufb	%xmm13, %xmm10
	pand	%xmm2, %xmm7
	pand	%xmm2, %xmm8
	pmullw	%xmm11, %xmm8
	pmullw	%xmm12, %xmm7
	paddw	%xmm3, %xmm7
	paddw	%xmm3, %xmm8
	pmulhuw	%xmm4, %xmm8
	pmulhuw	%xmm4, %xmm7
	psrlw	$8, %xmm1
	psrlw	$8, %xmm0
	pmullw	%xmm12, %xmm0
	pmullw	%xmm11, %xmm1
	paddw	%xmm3, %xmm1
	paddw	%xmm3, %xmm0
	pmulhuw	%xmm4, %xmm0
	pmulhuw	%xmm4, %xmm1
	psllw	$8, %xmm1
	por	%xmm8, %xmm1
	psllw	$8, %xmm0
	por	%xmm7, %xmm0
	movdqa	%xmm5, %xmm7
	pand	%xmm2, %xmm7
	pand	%xmm6, %xmm2
	pmullw	%xmm10, %xmm2
	pmullw	%xmm9, %xmm7
	paddw	%xmm3, %xmm7
	paddw	%xmm3, %xmm2
	pmulhuw	%xmm4, %xmm2
	pmulhuw	%xmm4, %xmm7
	psrlw	$8, %xmm6
	psrlw	$8, %xmm5
	pmullw	%xmm9, %xmm5
	pmullw	%xmm10, %xmm6
	paddw	%xmm3, %xmm6
	paddw	%xmm3, %xmm5
	pmulhuw	%xmm4, %xmm5
	pmulhuw	%xmm4, %xmm6
	psllw	$8, %xmm6
	por	%xmm2, %xmm6
	paddusb	%xmm1, %xmm6
	psllw	$8, %xmm5
	por	%xmm7, %xmm5
	paddusb	%xmm0, %xmm5
	movdqu	%xmm5, (%r9)
	movdqu	%xmm6, 16(%r9)
	testb	$4, 72(%rsp)
	je	.LBB9_877
.LBB9_876:
	movq	304(%rsp), %rcx
	leal	(,%rcx,4), %edi
	movdqu	(%r15,%rdi), %xmm4
	movd	(%rsi,%rcx), %xmm0
	punpcklbw	%xmm0, %xmm0
	punpcklwd	%xmm0, %xmm0
	movdqa	.LCPI9_0(%rip), %xmm1
	movdqa	%xmm4, %xmm2
	pand	%xmm1, %xmm2
	movdqa	%xmm0, %xmm6
	pand	%xmm1, %xmm6
	pmullw	%xmm2, %xmm6
	movdqa	.LCPI9_1(%rip), %xmm2
	paddw	%xmm2, %xmm6
	movdqa	.LCPI9_2(%rip), %xmm3
	pmulhuw	%xmm3, %xmm6
	psrlw	$8, %xmm4
	psrlw	$8, %xmm0
	pmullw	%xmm4, %xmm0
	paddw	%xmm2, %xmm0
	pmulhuw	%xmm3, %xmm0
	psllw	$8, %xmm0
	por	%xmm6, %xmm0
	movdqu	(%r9,%rdi), %xmm5
	pcmpeqd	%xmm4, %xmm4
	movdqa	.LCPI9_6(%rip), %xmm7
	movdqa	%xmm5, %xmm8
	pshufb	%xmm7, %xmm8
	pxor	%xmm8, %xmm4
	pand	%xmm1, %xmm6
	pandn	%xmm1, %xmm8
	pmullw	%xmm6, %xmm8
	paddw	%xmm2, %xmm8
	pmulhuw	%xmm3, %xmm8
	movdqa	%xmm0, %xmm6
	psrlw	$8, %xmm6
	psrlw	$8, %xmm4
	pmullw	%xmm6, %xmm4
	paddw	%xmm2, %xmm4
	pmulhuw	%xmm3, %xmm4
	psllw	$8, %xmm4
	por	%xmm8, %xmm4
	pshufb	%xmm7, %xmm0
	movdqa	%xmm5, %xmm6
	pand	%xmm1, %xmm6
	pand	%xmm0, %xmm1
	pmullw	%xmm6, %xmm1
	paddw	%xmm2, %xmm1
	pmulhuw	%xmm3, %xmm1
	psrlw	$8, %xmm5
	psrlw	$8, %xmm0
	pmullw	%xmm5, %xmm0
	paddw	%xmm2, %xmm0
	pmulhuw	%xmm3, %xmm0
	psllw	$8, %xmm0
	por	%xmm1, %xmm0
	paddusb	%xmm4, %xmm0
	movdqu	%xmm0, (%r9,%rdi)
	cmpl	%ebx, 312(%rsp)
	je	.LBB9_880
.LBB9_878:
	xorl	%r9d, %r9d
	movq	312(%rsp), %rsi
	.p2align	4
.LBB9_879:
	movl	(%r12,%r9,4), %edx
	movq	%rbx, %r8
	movzbl	%dh, %ebx
	movzbl	%dl, %r15d
	movl	%edx, %edi
	shrl	$16, %edi
	shrl	$24, %edx
	movzbl	%dil, %edi
	movd	%edi, %xmm0
	pinsrw	$1, %edx, %xmm0
	movl	(%rbp,%r9,4), %ecx
	movzbl	%ch, %edi
	movzbl	%cl, %r13d
	movl	%ecx, %edx
	shrl	$16, %edx
	shrl	$24, %ecx
	movzbl	%dl, %edx
	movd	%edx, %xmm1
	pinsrw	$1, %ecx, %xmm1
	xorl	$255, %ecx
	movd	%ecx, %xmm2
	pinsrw	$2, %ebx, %xmm0
	movq	%r8, %rbx
	pinsrw	$3, %r15d, %xmm0
	movzbl	(%r14,%r9), %ecx
	movd	%ecx, %xmm3
	pshuflw	$0, %xmm3, %xmm3
	pmullw	%xmm0, %xmm3
	movdqa	.LCPI9_3(%rip), %xmm0
	paddw	%xmm0, %xmm3
	movdqa	%xmm3, %xmm4
	psrlw	$8, %xmm4
	paddw	%xmm3, %xmm4
	psrlw	$8, %xmm4
	pshuflw	$0, %xmm2, %xmm2
	pmullw	%xmm4, %xmm2
	paddw	%xmm0, %xmm2
	movdqa	%xmm2, %xmm3
	psrlw	$8, %xmm3
	paddw	%xmm2, %xmm3
	psrlw	$8, %xmm3
	packuswb	%xmm3, %xmm3
	pinsrw	$2, %edi, %xmm1
	pinsrw	$3, %r13d, %xmm1
	pshuflw	$85, %xmm4, %xmm2
	pmullw	%xmm2, %xmm1
	paddw	%xmm0, %xmm1
	movdqa	%xmm1, %xmm0
	psrlw	$8, %xmm0
	paddw	%xmm1, %xmm0
	psrlw	$8, %xmm0
	packuswb	%xmm0, %xmm0
	paddusb	%xmm3, %xmm0
	pmovzxbd	%xmm0, %xmm0
	pmulld	.LCPI9_4(%rip), %xmm0
	pshufd	$238, %xmm0, %xmm1
	por	%xmm0, %xmm1
	pshufd	$85, %xmm1, %xmm0
	por	%xmm1, %xmm0
	movd	%xmm0, (%rbp,%r9,4)
	incq	%rsi
	incq	%r9
	cmpq	%r8, %rsi
	jb	.LBB9_879
	jmp	.LBB9_880
.LBB9_51:
	movq	%r12, 56(%rsp)
	testq	%r15, %r15
	je	.LBB9_1189
	subq	%rdi, %rbx
	movabsq	$4294967296, %r10
	addq	%r10, %rbx
	cmpq	%r10, %rbx
	movq	%r10, %r9
	cmovaq	%rbx, %r9
	movabsq	$-4294967296, %rcx
	addq	%rdx, %rbx
	orq	%r10, %r15
	cmpq	%rbx, %r15
	cmovaeq	%rbx, %r15
	leaq	(%r9,%rcx), %r8
	xorl	%edx, %edx
	cmpq	%r9, %r15
	cmovbeq	%rdx, %r8
	subq	112(%rsp), %rax
	addq	%r10, %rax
	cmpq	%r10, %rax
	movq	%r10, %rsi
	cmovaq	%rax, %rsi
	addq	%r11, %rax
	movq	80(%rsp), %r11
	orq	%r10, %r11
	cmpq	%rax, %r11
	cmovaeq	%rax, %r11
	leaq	(%rsi,%rcx), %rax
	cmpq	%rsi, %r11
	cmovbeq	%rdx, %rax
	jbe	.LBB9_1189
	movq	%r11, %r10
	addq	%rcx, %r10
	cmpq	%rax, %r10
	jbe	.LBB9_1189
	movq	%r10, %r14
	addq	%r15, %rcx
	xorl	%r10d, %r10d
	cmpq	%r9, %r15
	cmovaq	%rcx, %r10
	movq	128(%rsp), %rcx
	movl	(%rcx), %ecx
	movq	%r10, %rdx
	subq	%r8, %rdx
	cmpq	$33, %rdx
	jb	.LBB9_78
	movq	%rdx, %r9
	shrq	$4, %r9
	movq	%rdx, %r10
	andq	$-16, %r10
	leaq	(,%r10,4), %rbp
	movl	%edx, %r11d
	andl	$15, %r11d
	movq	%r11, 80(%rsp)
	leal	(,%rdx,4), %r11d
	andl	$32, %r11d
	movq	%r11, 112(%rsp)
	movl	%edx, %r11d
	andl	$12, %r11d
	movq	%r11, 128(%rsp)
	movl	%edx, %r11d
	andl	$3, %r11d
	movd	%ecx, %xmm0
	pshufd	$0, %xmm0, %xmm0
	movq	%r9, %r15
	andq	$-2, %r15
	leal	3(%r11), %r12d
	andl	$-4, %r12d
	decq	%r11
	movq	%r11, %xmm1
	pshufd	$68, %xmm1, %xmm1
	movq	%rax, %r11
	movq	64(%rsp), %r13
	imulq	%r13, %r11
	leaq	(%r8,%r11), %rsi
	movq	56(%rsp), %rdi
	leaq	(%rdi,%rsi,4), %rbx
	addq	$112, %rbx
	leaq	(,%r11,4), %r11
	addq	%rbp, %r11
	movl	%edx, %esi
	andl	$12, %esi
	leaq	(%r11,%rsi,4), %r11
	leaq	(,%r13,4), %rbp
	leaq	(%r11,%r8,4), %r11
	addq	%rdi, %r11
	addq	$12, %r11
	jmp	.LBB9_56
.LBB9_77:
	incq	%rax
	addq	%rbp, %rbx
	addq	%rbp, %r11
	cmpq	%r14, %rax
	je	.LBB9_1189
.LBB9_56:
	movq	%rax, %rsi
	imulq	64(%rsp), %rsi
	addq	%r8, %rsi
	movq	56(%rsp), %rdi
	leaq	(%rdi,%rsi,4), %rdi
	xorl	%esi, %esi
	cmpq	$1, %r9
	je	.LBB9_60
	movq	%rbx, %r13
	.p2align	4
.LBB9_58:
	movdqu	%xmm0, -112(%r13)
	movdqu	%xmm0, -96(%r13)
	movdqu	%xmm0, -80(%r13)
	movdqu	%xmm0, -64(%r13)
	movdqu	%xmm0, -48(%r13)
	movdqu	%xmm0, -32(%r13)
	movdqu	%xmm0, -16(%r13)
	movdqu	%xmm0, (%r13)
	addq	$2, %rsi
	subq	$-128, %r13
	cmpq	%rsi, %r15
	jne	.LBB9_58
	testb	$1, %r9b
	je	.LBB9_61
.LBB9_60:
	shlq	$6, %rsi
	movdqu	%xmm0, (%rdi,%rsi)
	movdqu	%xmm0, 16(%rdi,%rsi)
	movdqu	%xmm0, 32(%rdi,%rsi)
	movdqu	%xmm0, 48(%rdi,%rsi)
.LBB9_61:
	cmpq	%rdx, %r10
	je	.LBB9_77
	leaq	(,%r10,4), %rsi
	addq	%rsi, %rdi
	testb	$8, %dl
	jne	.LBB9_63
	testb	$4, %dl
	jne	.LBB9_65
.LBB9_66:
	movq	128(%rsp), %rsi
	cmpl	80(%rsp), %esi
	jae	.LBB9_77
	jmp	.LBB9_67
.LBB9_63:
	movdqu	%xmm0, (%rdi)
	movdqu	%xmm0, 16(%rdi)
	testb	$4, %dl
	je	.LBB9_66
.LBB9_65:
	movq	112(%rsp), %rsi
	movdqu	%xmm0, (%rdi,%rsi)
	movq	128(%rsp), %rsi
	cmpl	80(%rsp), %esi
	jae	.LBB9_77
.LBB9_67:
	xorl	%edi, %edi
	jmp	.LBB9_68
	.p2align	4
.LBB9_76:
	addq	$4, %rdi
	cmpq	%rdi, %r12
	je	.LBB9_77
.LBB9_68:
	movq	%rdi, %xmm4
	movdqa	.LCPI9_15(%rip), %xmm3
	movdqa	%xmm1, %xmm2
	pxor	%xmm3, %xmm2
	movdqa	%xmm4, %xmm5
	pxor	%xmm3, %xmm5
	pcmpgtq	%xmm2, %xmm5
	movd	%xmm5, %esi
	notl	%esi
	testb	$1, %sil
	je	.LBB9_70
	movl	%ecx, -12(%r11,%rdi,4)
.LBB9_70:
	pshufd	$68, %xmm4, %xmm4
	movdqa	.LCPI9_14(%rip), %xmm6
	por	%xmm4, %xmm6
	pxor	%xmm3, %xmm6
	pcmpgtq	%xmm2, %xmm6
	pcmpeqd	%xmm5, %xmm5
	pxor	%xmm5, %xmm6
	pextrb	$8, %xmm6, %esi
	testb	$1, %sil
	je	.LBB9_72
	movl	%ecx, -8(%r11,%rdi,4)
.LBB9_72:
	por	.LCPI9_13(%rip), %xmm4
	pxor	%xmm3, %xmm4
	pcmpgtq	%xmm2, %xmm4
	pxor	%xmm4, %xmm5
	pextrb	$0, %xmm5, %esi
	testb	$1, %sil
	je	.LBB9_74
	movl	%ecx, -4(%r11,%rdi,4)
.LBB9_74:
	pcmpeqd	%xmm2, %xmm2
	pxor	%xmm2, %xmm4
	pextrb	$8, %xmm4, %esi
	testb	$1, %sil
	je	.LBB9_76
	movl	%ecx, (%r11,%rdi,4)
	jmp	.LBB9_76
.LBB9_287:
	testq	%r15, %r15
	je	.LBB9_1189
	subq	%rsi, %rcx
	movabsq	$4294967296, %r11
	addq	%r11, %rcx
	cmpq	%r11, %rcx
	movq	%r11, %r8
	cmovaq	%rcx, %r8
	movabsq	$-4294967296, %rdx
	addq	%r9, %rcx
	orq	%r11, %r15
	cmpq	%rcx, %r15
	cmovaeq	%rcx, %r15
	leaq	(%r8,%rdx), %r10
	xorl	%ecx, %ecx
	cmpq	%r8, %r15
	cmovbeq	%rcx, %r10
	subq	128(%rsp), %rbx
	addq	%r11, %rbx
	cmpq	%r11, %rbx
	movq	%r11, %r9
	cmovaq	%rbx, %r9
	addq	%rax, %rbx
	orq	%r11, %r14
	cmpq	%rbx, %r14
	cmovaeq	%rbx, %r14
	leaq	(%r9,%rdx), %rax
	cmpq	%r9, %r14
	cmovbeq	%rcx, %rax
	jbe	.LBB9_1189
	addq	%rdx, %r14
	cmpq	%rax, %r14
	jbe	.LBB9_1189
	addq	%r15, %rdx
	xorl	%ecx, %ecx
	cmpq	%r8, %r15
	cmovaq	%rdx, %rcx
	subq	%r10, %rcx
	je	.LBB9_1189
	movq	80(%rsp), %rdx
	movl	(%rdx), %edx
	movq	%rcx, %r8
	andq	$-8, %r8
	movd	%edx, %xmm0
	pshufd	$0, %xmm0, %xmm0
	movq	%rax, %r11
	movq	64(%rsp), %rdi
	imulq	%rdi, %r11
	leaq	(,%r10,4), %r9
	leaq	(%r9,%r11,4), %r9
	movq	56(%rsp), %rsi
	addq	%rsi, %r9
	addq	$16, %r9
	shlq	$2, %rdi
	addq	%r10, %r11
	leaq	(%rsi,%r11,4), %r10
	jmp	.LBB9_292
.LBB9_296:
	incq	%rax
	addq	%rdi, %r9
	addq	%rdi, %r10
	cmpq	%r14, %rax
	je	.LBB9_1189
.LBB9_292:
	xorl	%r11d, %r11d
	cmpq	$8, %rcx
	jb	.LBB9_295
	.p2align	4
.LBB9_293:
	movdqu	%xmm0, -16(%r9,%r11,4)
	movdqu	%xmm0, (%r9,%r11,4)
	addq	$8, %r11
	cmpq	%r11, %r8
	jne	.LBB9_293
	movq	%r8, %r11
	cmpq	%r8, %rcx
	je	.LBB9_296
	.p2align	4
.LBB9_295:
	movl	%edx, (%r10,%r11,4)
	incq	%r11
	cmpq	%r11, %rcx
	jne	.LBB9_295
	jmp	.LBB9_296
.LBB9_107:
	movq	%rcx, 168(%rsp)
	testq	%r15, %r15
	je	.LBB9_1189
	movq	%rsi, %r10
	shrq	$32, %r10
	subq	%rdi, %rbx
	movabsq	$4294967296, %rdi
	movl	%r13d, %ecx
	leaq	(%rbx,%rdi), %r13
	leaq	(%rdi,%rbp), %r9
	cmpq	%r13, %r9
	movq	%r14, 144(%rsp)
	movq	%r13, %r14
	cmovbq	%r9, %r14
	xorl	%r9d, %r9d
	movq	%r12, 56(%rsp)
	movq	%rdi, %r12
	subq	%r14, %r12
	cmovbq	%r9, %r12
	orq	%rdi, %r15
	subq	%r13, %r15
	cmovbq	%r9, %r15
	movl	%esi, %esi
	orq	%rdi, %rsi
	leaq	(%rdi,%rbp), %r14
	subq	%r14, %rsi
	cmovbq	%r9, %rsi
	cmpl	%edx, %r8d
	cmovbl	%r8d, %edx
	cmpq	%rdx, %r15
	cmovaeq	%rdx, %r15
	cmpq	%r15, %rsi
	cmovbq	%rsi, %r15
	leaq	(%r12,%rbx), %rdx
	addq	%r15, %rbx
	addq	%r12, %rbp
	cmpq	%r12, %r15
	cmovbeq	%r9, %rdx
	cmovbeq	%r9, %rbx
	cmovbeq	%r9, %rbp
	subq	112(%rsp), %rax
	leaq	(%rax,%rdi), %rsi
	movq	72(%rsp), %r12
	leaq	(%r12,%rdi), %r14
	cmpq	%rsi, %r14
	movq	%rsi, %r15
	cmovbq	%r14, %r15
	movq	%rdi, %r8
	subq	%r15, %r8
	cmovbq	%r9, %r8
	movq	80(%rsp), %r15
	orq	%rdi, %r15
	subq	%rsi, %r15
	cmovbq	%r9, %r15
	orq	%rdi, %r10
	subq	%r14, %r10
	cmovbq	%r9, %r10
	cmpl	%r11d, %ecx
	cmovbl	%ecx, %r11d
	cmpq	%r11, %r15
	cmovaeq	%r11, %r15
	cmpq	%r15, %r10
	cmovbq	%r10, %r15
	leaq	(%r8,%rax), %r10
	addq	%r15, %rax
	addq	%r8, %r12
	cmpq	%r8, %r15
	cmovbeq	%r9, %r10
	cmovbeq	%r9, %rax
	cmovbeq	%r9, %r12
	movq	168(%rsp), %rcx
	movzbl	(%rcx), %r8d
	movq	%rdx, 200(%rsp)
	movq	%rbx, 208(%rsp)
	movq	%rbp, 216(%rsp)
	movq	%r10, 224(%rsp)
	movq	%rax, 232(%rsp)
	movq	%r12, 240(%rsp)
	movb	%r8b, 40(%rsp)
	leaq	200(%rsp), %rax
	movq	%rax, 32(%rsp)
	movq	56(%rsp), %rcx
	movq	64(%rsp), %rdx
	movq	128(%rsp), %r8
	movq	144(%rsp), %r9
	callq	"pix_raster::view::blit_overlap::<#c5504568367a188d>"
	jmp	.LBB9_1189
.LBB9_648:
	testq	%r15, %r15
	je	.LBB9_1189
	subq	%rsi, %rcx
	movabsq	$4294967296, %rsi
	addq	%rsi, %rcx
	cmpq	%rsi, %rcx
	movq	%rsi, %r8
	cmovaq	%rcx, %r8
	movabsq	$-4294967296, %rdx
	addq	%r9, %rcx
	orq	%rsi, %r15
	cmpq	%rcx, %r15
	cmovaeq	%rcx, %r15
	leaq	(%r8,%rdx), %r10
	xorl	%ecx, %ecx
	cmpq	%r8, %r15
	cmovbeq	%rcx, %r10
	subq	112(%rsp), %r11
	addq	%rsi, %r11
	cmpq	%rsi, %r11
	movq	%rsi, %r9
	cmovaq	%r11, %r9
	addq	72(%rsp), %r11
	movq	64(%rsp), %rdi
	orq	%rsi, %rdi
	cmpq	%r11, %rdi
	cmovaeq	%r11, %rdi
	leaq	(%r9,%rdx), %rax
	cmpq	%r9, %rdi
	cmovbeq	%rcx, %rax
	jbe	.LBB9_1189
	movq	%rdi, %r11
	addq	%rdx, %r11
	cmpq	%rax, %r11
	jbe	.LBB9_1189
	addq	%r15, %rdx
	xorl	%ecx, %ecx
	cmpq	%r8, %r15
	cmovaq	%rdx, %rcx
	subq	%r10, %rcx
	je	.LBB9_1189
	movq	%r11, %rdi
	movq	128(%rsp), %rdx
	movl	(%rdx), %edx
	movq	%rcx, %r8
	andq	$-8, %r8
	movd	%edx, %xmm0
	pshufd	$0, %xmm0, %xmm0
	movq	%rax, %r11
	movq	80(%rsp), %rsi
	imulq	%rsi, %r11
	leaq	(,%r10,4), %r9
	leaq	(%r9,%r11,4), %r9
	addq	%r12, %r9
	addq	$16, %r9
	shlq	$2, %rsi
	addq	%r10, %r11
	leaq	(%r12,%r11,4), %r10
	jmp	.LBB9_653
.LBB9_657:
	incq	%rax
	addq	%rsi, %r9
	addq	%rsi, %r10
	cmpq	%rdi, %rax
	je	.LBB9_1189
.LBB9_653:
	xorl	%r11d, %r11d
	cmpq	$8, %rcx
	jb	.LBB9_656
	.p2align	4
.LBB9_654:
	movdqu	%xmm0, -16(%r9,%r11,4)
	movdqu	%xmm0, (%r9,%r11,4)
	addq	$8, %r11
	cmpq	%r11, %r8
	jne	.LBB9_654
	movq	%r8, %r11
	cmpq	%r8, %rcx
	je	.LBB9_657
	.p2align	4
.LBB9_656:
	movl	%edx, (%r10,%r11,4)
	incq	%r11
	cmpq	%r11, %rcx
	jne	.LBB9_656
	jmp	.LBB9_657
.LBB9_157:
	testq	%r14, %r14
	je	.LBB9_1189
	movq	376(%rsp), %rbp
	movslq	392(%rsp), %r9
	movq	%rbp, %r11
	shrq	$32, %r11
	subq	%r12, %rcx
	movabsq	$4294967296, %r12
	leaq	(%rcx,%r12), %r13
	leaq	(%r9,%r12), %r10
	cmpq	%r13, %r10
	movq	%rdi, 64(%rsp)
	movq	%r13, %rdi
	cmovbq	%r10, %rdi
	xorl	%r10d, %r10d
	movq	%r12, %r13
	subq	%rdi, %r13
	cmovbq	%r10, %r13
	orq	%r12, %r14
	leaq	(%rcx,%r12), %rdi
	subq	%rdi, %r14
	movl	%ebp, %edi
	cmovbq	%r10, %r14
	orq	%r12, %rdi
	leaq	(%r9,%r12), %rbp
	subq	%rbp, %rdi
	cmovbq	%r10, %rdi
	movl	400(%rsp), %ebp
	cmpl	%ebx, %ebp
	cmovbl	%ebp, %ebx
	cmpq	%rbx, %r14
	cmovaeq	%rbx, %r14
	cmpq	%r14, %rdi
	cmovbq	%rdi, %r14
	leaq	(%rcx,%r13), %rbx
	addq	%r14, %rcx
	addq	%r13, %r9
	cmpq	%r13, %r14
	cmovbeq	%r10, %rbx
	cmovbeq	%r10, %rcx
	cmovbeq	%r10, %r9
	movslq	396(%rsp), %r14
	subq	%rsi, %rax
	leaq	(%rax,%r12), %rdi
	leaq	(%r14,%r12), %r13
	cmpq	%rdi, %r13
	movq	%rdi, %rbp
	cmovbq	%r13, %rbp
	movq	%r12, %rsi
	subq	%rbp, %rsi
	cmovbq	%r10, %rsi
	orq	%r12, %r15
	subq	%rdi, %r15
	cmovbq	%r10, %r15
	orq	%r12, %r11
	subq	%r13, %r11
	cmovbq	%r10, %r11
	movl	404(%rsp), %edi
	cmpl	%edx, %edi
	cmovbl	%edi, %edx
	cmpq	%rdx, %r15
	cmovaeq	%rdx, %r15
	cmpq	%r15, %r11
	cmovbq	%r11, %r15
	leaq	(%rsi,%rax), %rdx
	addq	%r15, %rax
	addq	%rsi, %r14
	cmpq	%rsi, %r15
	cmovbeq	%r10, %rdx
	cmovbeq	%r10, %rax
	cmovbeq	%r10, %r14
	movq	%rbx, 200(%rsp)
	movq	%rcx, 208(%rsp)
	movq	%r9, 216(%rsp)
	movq	%rdx, 224(%rsp)
	movq	%rax, 232(%rsp)
	movq	%r14, 240(%rsp)
	movq	384(%rsp), %r9
	leaq	200(%rsp), %rax
	movq	%rax, 32(%rsp)
	movq	56(%rsp), %rcx
	movq	64(%rsp), %rdx
	callq	"pix_raster::view::blit_overlap::<#93a319759576dea8>"
	jmp	.LBB9_1189
.LBB9_227:
	movq	%rcx, 176(%rsp)
	testq	%r15, %r15
	je	.LBB9_1189
	movq	%r13, %rdi
	shrq	$32, %rdi
	subq	%rsi, %r8
	movl	%ebp, %ecx
	movabsq	$4294967296, %rbp
	leaq	(%r8,%rbp), %r12
	leaq	(%r9,%rbp), %rsi
	cmpq	%r12, %rsi
	movq	%r10, 72(%rsp)
	movq	%r12, %r10
	cmovbq	%rsi, %r10
	xorl	%esi, %esi
	movq	%rbp, %r12
	subq	%r10, %r12
	cmovbq	%rsi, %r12
	orq	%rbp, %r15
	leaq	(%r8,%rbp), %r10
	subq	%r10, %r15
	cmovbq	%rsi, %r15
	movl	%r13d, %r10d
	orq	%rbp, %r10
	leaq	(%r9,%rbp), %r13
	subq	%r13, %r10
	cmovbq	%rsi, %r10
	cmpl	%r11d, %ebx
	cmovbl	%ebx, %r11d
	cmpq	%r11, %r15
	cmovaeq	%r11, %r15
	cmpq	%r15, %r10
	cmovbq	%r10, %r15
	leaq	(%r12,%r8), %r11
	addq	%r15, %r8
	addq	%r12, %r9
	cmpq	%r12, %r15
	cmovbeq	%rsi, %r11
	cmovbeq	%rsi, %r8
	cmovbeq	%rsi, %r9
	subq	%r14, %rdx
	leaq	(%rdx,%rbp), %r10
	movq	112(%rsp), %r13
	movq	%r13, %r15
	addq	%rbp, %r15
	cmpq	%r10, %r15
	movq	%r10, %r12
	cmovbq	%r15, %r12
	movq	%rbp, %rbx
	subq	%r12, %rbx
	cmovbq	%rsi, %rbx
	movq	80(%rsp), %r14
	orq	%rbp, %r14
	subq	%r10, %r14
	cmovbq	%rsi, %r14
	orq	%rbp, %rdi
	subq	%r15, %rdi
	cmovbq	%rsi, %rdi
	cmpl	%eax, %ecx
	cmovbl	%ecx, %eax
	cmpq	%rax, %r14
	cmovaeq	%rax, %r14
	cmpq	%r14, %rdi
	cmovbq	%rdi, %r14
	leaq	(%rbx,%rdx), %rax
	addq	%r14, %rdx
	addq	%rbx, %r13
	cmpq	%rbx, %r14
	cmovbeq	%rsi, %rax
	cmovbeq	%rsi, %rdx
	cmovbeq	%rsi, %r13
	movq	176(%rsp), %rcx
	movl	(%rcx), %r10d
	movq	%r11, 200(%rsp)
	movq	%r8, 208(%rsp)
	movq	%r9, 216(%rsp)
	movq	%rax, 224(%rsp)
	movq	%rdx, 232(%rsp)
	movq	%r13, 240(%rsp)
	movl	%r10d, 40(%rsp)
	leaq	200(%rsp), %rax
	movq	%rax, 32(%rsp)
	movq	56(%rsp), %rcx
	movq	64(%rsp), %rdx
	movq	128(%rsp), %r8
	movq	72(%rsp), %r9
	callq	"pix_raster::view::blit_overlap::<#82740d74a8936f70>"
	jmp	.LBB9_1189
.LBB9_478:
	testq	%r15, %r15
	je	.LBB9_1189
	movq	%r13, %rdi
	shrq	$32, %rdi
	subq	%rsi, %rcx
	movabsq	$4294967296, %rsi
	leaq	(%rcx,%rsi), %r10
	leaq	(%rdx,%rsi), %rax
	cmpq	%r10, %rax
	movq	%r8, 144(%rsp)
	movq	%r10, %r8
	cmovbq	%rax, %r8
	xorl	%eax, %eax
	movq	%r14, %r10
	movq	%rsi, %r14
	subq	%r8, %r14
	cmovbq	%rax, %r14
	orq	%rsi, %r15
	leaq	(%rcx,%rsi), %r8
	subq	%r8, %r15
	cmovbq	%rax, %r15
	movl	%r13d, %r8d
	orq	%rsi, %r8
	leaq	(%rdx,%rsi), %r13
	subq	%r13, %r8
	cmovbq	%rax, %r8
	cmpl	%r9d, %r11d
	cmovbl	%r11d, %r9d
	cmpq	%r9, %r15
	cmovaeq	%r9, %r15
	cmpq	%r15, %r8
	cmovbq	%r8, %r15
	leaq	(%r14,%rcx), %r9
	addq	%r15, %rcx
	addq	%r14, %rdx
	cmpq	%r14, %r15
	movl	$0, %eax
	cmovbeq	%rax, %r9
	cmovbeq	%rax, %rcx
	cmovbeq	%rax, %rdx
	xorl	%r13d, %r13d
	subq	128(%rsp), %rbx
	leaq	(%rbx,%rsi), %r8
	leaq	(%r10,%rsi), %r14
	cmpq	%r8, %r14
	movq	%r8, %r15
	cmovbq	%r14, %r15
	movq	%rsi, %r11
	subq	%r15, %r11
	cmovbq	%r13, %r11
	orq	%rsi, %rbp
	subq	%r8, %rbp
	cmovbq	%r13, %rbp
	orq	%rsi, %rdi
	subq	%r14, %rdi
	cmovbq	%r13, %rdi
	movl	72(%rsp), %r8d
	movq	112(%rsp), %rax
	cmpl	%eax, %r8d
	cmovbl	%r8d, %eax
	cmpq	%rax, %rbp
	cmovaeq	%rax, %rbp
	cmpq	%rbp, %rdi
	cmovbq	%rdi, %rbp
	leaq	(%r11,%rbx), %rax
	addq	%rbp, %rbx
	addq	%r11, %r10
	cmpq	%r11, %rbp
	cmovbeq	%r13, %rax
	cmovbeq	%r13, %rbx
	cmovbeq	%r13, %r10
	movq	%r9, 200(%rsp)
	movq	%rcx, 208(%rsp)
	movq	%rdx, 216(%rsp)
	movq	%rax, 224(%rsp)
	movq	%rbx, 232(%rsp)
	movq	%r10, 240(%rsp)
	leaq	200(%rsp), %rax
	movq	%rax, 32(%rsp)
	movq	%r12, %rcx
	movq	80(%rsp), %rdx
	movq	64(%rsp), %r8
	jmp	.LBB9_751
.LBB9_39:
	testq	%r15, %r15
	je	.LBB9_1189
	subq	%rdi, %rbx
	movabsq	$4294967296, %rcx
	addq	%rcx, %rbx
	cmpq	%rcx, %rbx
	movq	%rcx, %r9
	cmovaq	%rbx, %r9
	movabsq	$-4294967296, %r8
	addq	%rdx, %rbx
	orq	%rcx, %r15
	cmpq	%rbx, %r15
	cmovaeq	%rbx, %r15
	leaq	(%r9,%r8), %r10
	xorl	%edx, %edx
	cmpq	%r9, %r15
	cmovbeq	%rdx, %r10
	subq	112(%rsp), %rax
	addq	%rcx, %rax
	cmpq	%rcx, %rax
	movq	%rcx, %rsi
	cmovaq	%rax, %rsi
	addq	%r11, %rax
	movq	80(%rsp), %r11
	orq	%rcx, %r11
	cmpq	%rax, %r11
	cmovaeq	%rax, %r11
	leaq	(%rsi,%r8), %rax
	cmpq	%rsi, %r11
	cmovbeq	%rdx, %rax
	jbe	.LBB9_1189
	movq	%r11, %rcx
	addq	%r8, %rcx
	cmpq	%rax, %rcx
	jbe	.LBB9_1189
	movq	%rcx, %rdi
	addq	%r15, %r8
	xorl	%ecx, %ecx
	cmpq	%r9, %r15
	cmovaq	%r8, %rcx
	subq	%r10, %rcx
	je	.LBB9_1189
	movq	128(%rsp), %rdx
	movl	(%rdx), %edx
	movq	%rcx, %r8
	andq	$-8, %r8
	movd	%edx, %xmm0
	pshufd	$0, %xmm0, %xmm0
	movq	%rax, %r11
	movq	64(%rsp), %rsi
	imulq	%rsi, %r11
	leaq	(,%r10,4), %r9
	leaq	(%r9,%r11,4), %r9
	addq	%r12, %r9
	addq	$16, %r9
	shlq	$2, %rsi
	addq	%r10, %r11
	leaq	(%r12,%r11,4), %r10
	jmp	.LBB9_44
.LBB9_48:
	incq	%rax
	addq	%rsi, %r9
	addq	%rsi, %r10
	cmpq	%rdi, %rax
	je	.LBB9_1189
.LBB9_44:
	xorl	%r11d, %r11d
	cmpq	$8, %rcx
	jb	.LBB9_47
	.p2align	4
.LBB9_45:
	movdqu	%xmm0, -16(%r9,%r11,4)
	movdqu	%xmm0, (%r9,%r11,4)
	addq	$8, %r11
	cmpq	%r11, %r8
	jne	.LBB9_45
	movq	%r8, %r11
	cmpq	%r8, %rcx
	je	.LBB9_48
	.p2align	4
.LBB9_47:
	movl	%edx, (%r10,%r11,4)
	incq	%r11
	cmpq	%r11, %rcx
	jne	.LBB9_47
	jmp	.LBB9_48
.LBB9_229:
	movq	%rcx, 176(%rsp)
	movq	%r10, 72(%rsp)
	testq	%r15, %r15
	je	.LBB9_1189
	movq	%r14, 256(%rsp)
	movl	%ebp, 144(%rsp)
	movq	424(%rsp), %rdi
	movq	%rdi, 104(%rsp)
	movslq	440(%rsp), %r14
	movabsq	$4294967296, %rcx
	movq	%r13, %rbp
	shrq	$32, %rbp
	shrq	$32, %rdi
	subq	%rsi, %r8
	leaq	(%r8,%rcx), %r12
	leaq	(%r9,%rcx), %rsi
	cmpq	%r12, %rsi
	movq	%r12, %r10
	cmovbq	%rsi, %r10
	movq	%r14, 168(%rsp)
	addq	%rcx, %r14
	cmpq	%r10, %r14
	cmovbq	%r14, %r10
	movq	%rcx, %rsi
	subq	%r10, %rsi
	movl	$0, %r10d
	cmovbq	%r10, %rsi
	orq	%rcx, %r15
	subq	%r12, %r15
	cmovbq	%r10, %r15
	xorl	%r12d, %r12d
	movl	%r13d, %r13d
	orq	%rcx, %r13
	leaq	(%r9,%rcx), %r10
	subq	%r10, %r13
	movl	104(%rsp), %r10d
	cmovbq	%r12, %r13
	orq	%rcx, %r10
	subq	%r14, %r10
	movl	$0, %r14d
	movq	%r14, 296(%rsp)
	cmovbq	%r12, %r10
	cmpl	%r11d, %ebx
	cmovbl	%ebx, %r11d
	movl	448(%rsp), %ebx
	cmpl	%r11d, %ebx
	cmovbl	%ebx, %r11d
	cmpq	%r11, %r15
	cmovaeq	%r11, %r15
	movslq	444(%rsp), %r11
	movq	%r11, 320(%rsp)
	cmpq	%r15, %r13
	cmovbq	%r13, %r15
	movl	452(%rsp), %ebx
	cmpq	%r15, %r10
	cmovbq	%r10, %r15
	movl	$0, %r14d
	movl	$0, %r10d
	movq	%r10, 280(%rsp)
	movl	$0, %r13d
	cmpq	%rsi, %r15
	jbe	.LBB9_232
	leaq	(%rsi,%r8), %r10
	movq	%r10, 296(%rsp)
	addq	%r8, %r15
	addq	%rsi, %r9
	movq	168(%rsp), %r13
	addq	%rsi, %r13
	movq	%r15, %r14
	movq	%r9, 280(%rsp)
.LBB9_232:
	subq	256(%rsp), %rdx
	movabsq	$4294967296, %r11
	leaq	(%rdx,%r11), %rsi
	movq	112(%rsp), %rcx
	leaq	(%rcx,%r11), %r9
	movq	320(%rsp), %r8
	addq	%r11, %r8
	cmpq	%rsi, %r9
	movq	%rsi, %r10
	cmovbq	%r9, %r10
	cmpq	%r10, %r8
	cmovbq	%r8, %r10
	xorl	%r12d, %r12d
	movq	%r11, %r15
	subq	%r10, %r15
	cmovbq	%r12, %r15
	movq	80(%rsp), %r10
	orq	%r11, %r10
	subq	%rsi, %r10
	cmovbq	%r12, %r10
	orq	%r11, %rbp
	subq	%r9, %rbp
	cmovbq	%r12, %rbp
	orq	%r11, %rdi
	subq	%r8, %rdi
	cmovbq	%r12, %rdi
	movl	144(%rsp), %r11d
	cmpl	%eax, %r11d
	cmovbl	%r11d, %eax
	cmpl	%eax, %ebx
	cmovbl	%ebx, %eax
	cmpq	%rax, %r10
	cmovaeq	%rax, %r10
	cmpq	%r10, %rbp
	cmovbq	%rbp, %r10
	cmpq	%r10, %rdi
	cmovbq	%rdi, %r10
	cmpq	%r15, %r10
	jbe	.LBB9_1189
	movq	%r10, %rax
	leaq	(%r15,%rdx), %r10
	addq	%rdx, %rax
	movq	%rax, 80(%rsp)
	movq	%r10, 288(%rsp)
	cmpq	%rax, %r10
	jae	.LBB9_1189
	movq	432(%rsp), %r12
	movq	112(%rsp), %rcx
	leaq	(%r15,%rcx), %rax
	movq	%rax, 328(%rsp)
	addq	%r15, 320(%rsp)
	movq	176(%rsp), %rdi
	leaq	(%rdi,%r13), %rax
	movq	%rax, 456(%rsp)
	subq	296(%rsp), %r14
	movq	%r14, %rax
	shrq	$4, %rax
	movq	%rax, 144(%rsp)
	movq	%r14, %rbp
	andq	$-16, %rbp
	movl	%r14d, %eax
	andl	$15, %eax
	movq	%rax, 472(%rsp)
	movl	%r14d, %eax
	andl	$8, %eax
	movq	%rax, 304(%rsp)
	movl	%r14d, %r11d
	andl	$12, %r11d
	movabsq	$4294967296, %rax
	addq	%rax, %rcx
	cmpq	%r9, %rsi
	cmovbq	%rsi, %r9
	leaq	(,%rbp,4), %rsi
	cmpq	%r8, %r9
	cmovaeq	%r8, %r9
	cmpq	%rax, %r9
	cmovaeq	%rax, %r9
	subq	%r9, %rcx
	imulq	72(%rsp), %rcx
	movq	280(%rsp), %rbx
	leaq	(,%rbx,4), %rax
	leaq	(%rax,%rcx,4), %r10
	subq	%r9, %r8
	movq	64(%rsp), %r9
	movq	%r9, %rdx
	movq	288(%rsp), %r15
	imulq	%r15, %rdx
	movq	%r12, 256(%rsp)
	imulq	%r12, %r8
	addq	%r13, %r8
	movq	%rbp, 104(%rsp)
	movq	%r11, 312(%rsp)
	addq	%rbp, %r11
	addq	%rdi, %r11
	leaq	(%rdi,%r8), %rax
	addq	%r8, %r11
	movq	296(%rsp), %rdi
	leaq	(,%rdi,4), %r8
	leaq	(%r8,%rdx,4), %r12
	leaq	(%rsi,%rcx,4), %rcx
	movq	%r14, 176(%rsp)
	leal	(,%r14,4), %r8d
	andl	$48, %r8d
	addq	%r8, %rcx
	movq	%rsi, 464(%rsp)
	leaq	(%rsi,%rdx,4), %rdx
	addq	%r8, %rdx
	movq	128(%rsp), %rsi
	addq	%rsi, %r10
	movq	56(%rsp), %r8
	addq	%r8, %r12
	leaq	(%rcx,%rbx,4), %r14
	addq	%rsi, %r14
	leaq	(%rdx,%rdi,4), %rbp
	movq	472(%rsp), %rbx
	addq	%r8, %rbp
	movq	72(%rsp), %rcx
	leaq	(,%rcx,4), %rcx
	movq	%rcx, 168(%rsp)
	leaq	(,%r9,4), %rcx
	movq	%rcx, 248(%rsp)
	movq	%r15, 112(%rsp)
	jmp	.LBB9_235
.LBB9_246:
	movq	112(%rsp), %r9
	incq	%r9
	movq	168(%rsp), %rdx
	addq	%rdx, %r10
	movq	248(%rsp), %r8
	addq	%r8, %r12
	movq	256(%rsp), %rcx
	addq	%rcx, %rax
	addq	%rcx, %r11
	addq	%rdx, %r14
	addq	%r8, %rbp
	movq	%r9, 112(%rsp)
	cmpq	80(%rsp), %r9
	je	.LBB9_1189
.LBB9_235:
	cmpq	$0, 144(%rsp)
	je	.LBB9_238
	movl	$8, %r9d
	movq	144(%rsp), %r15
	.p2align	4
.LBB9_237:
	movdqu	-32(%r10,%r9,4), %xmm4
	movdqu	-16(%r10,%r9,4), %xmm5
	movq	-8(%rax,%r9), %xmm7
	punpcklbw	%xmm7, %xmm7
	movdqa	%xmm7, %xmm8
	punpckhwd	%xmm7, %xmm8
	punpcklwd	%xmm7, %xmm7
	movdqa	.LCPI9_0(%rip), %xmm0
	movdqa	%xmm4, %xmm1
	pand	%xmm0, %xmm1
	movdqa	%xmm5, %xmm2
	pand	%xmm0, %xmm2
	movdqa	%xmm7, %xmm3
	pand	%xmm0, %xmm3
	pmullw	%xmm1, %xmm3
	movdqa	%xmm8, %xmm6
	pand	%xmm0, %xmm6
	pmullw	%xmm2, %xmm6
	movdqa	.LCPI9_1(%rip), %xmm1
	paddw	%xmm1, %xmm3
	paddw	%xmm1, %xmm6
	movdqa	.LCPI9_2(%rip), %xmm2
	pmulhuw	%xmm2, %xmm6
	pmulhuw	%xmm2, %xmm3
	psrlw	$8, %xmm5
	psrlw	$8, %xmm4
	psrlw	$8, %xmm8
	pmullw	%xmm5, %xmm8
	psrlw	$8, %xmm7
	pmullw	%xmm4, %xmm7
	paddw	%xmm1, %xmm8
	paddw	%xmm1, %xmm7
	pmulhuw	%xmm2, %xmm7
	pmulhuw	%xmm2, %xmm8
	psllw	$8, %xmm8
	por	%xmm6, %xmm8
	psllw	$8, %xmm7
	por	%xmm3, %xmm7
	pcmpeqd	%xmm5, %xmm5
	movdqa	%xmm8, %xmm12
	pxor	%xmm5, %xmm12
	movdqa	%xmm7, %xmm14
	pxor	%xmm5, %xmm14
	movdqa	.LCPI9_5(%rip), %xmm6
	pshufb	%xmm6, %xmm14
	pshufb	%xmm6, %xmm12
	movdqu	-32(%r12,%r9,4), %xmm9
	movdqu	-16(%r12,%r9,4), %xmm10
	movdqu	(%r12,%r9,4), %xmm3
	movdqu	16(%r12,%r9,4), %xmm4
	movdqa	%xmm9, %xmm11
	pand	%xmm0, %xmm11
	movdqa	%xmm10, %xmm13
	pand	%xmm0, %xmm13
	pmullw	%xmm12, %xmm13
	pmullw	%xmm14, %xmm11
	paddw	%xmm1, %xmm11
	paddw	%xmm1, %xmm13
	pmulhuw	%xmm2, %xmm13
	pmulhuw	%xmm2, %xmm11
	psrlw	$8, %xmm10
	psrlw	$8, %xmm9
	pmullw	%xmm14, %xmm9
	pmullw	%xmm12, %xmm10
	paddw	%xmm1, %xmm10
	paddw	%xmm1, %xmm9
	pmulhuw	%xmm2, %xmm9
	pmulhuw	%xmm2, %xmm10
	psllw	$8, %xmm10
	por	%xmm13, %xmm10
	psllw	$8, %xmm9
	por	%xmm11, %xmm9
	paddusb	%xmm8, %xmm10
	paddusb	%xmm7, %xmm9
	movdqu	%xmm9, -32(%r12,%r9,4)
	movdqu	%xmm10, -16(%r12,%r9,4)
	movdqu	(%r10,%r9,4), %xmm10
	movdqu	16(%r10,%r9,4), %xmm12
	movq	(%rax,%r9), %xmm7
	punpcklbw	%xmm7, %xmm7
	movdqa	%xmm7, %xmm8
	punpckhwd	%xmm7, %xmm8
	punpcklwd	%xmm7, %xmm7
	movdqa	%xmm10, %xmm11
	pand	%xmm0, %xmm11
	movdqa	%xmm12, %xmm13
	pand	%xmm0, %xmm13
	movdqa	%xmm7, %xmm9
	pand	%xmm0, %xmm9
	pmullw	%xmm11, %xmm9
	movdqa	%xmm8, %xmm11
	pand	%xmm0, %xmm11
	pmullw	%xmm13, %xmm11
	paddw	%xmm1, %xmm9
	paddw	%xmm1, %xmm11
	pmulhuw	%xmm2, %xmm11
	pmulhuw	%xmm2, %xmm9
	psrlw	$8, %xmm12
	psrlw	$8, %xmm10
	psrlw	$8, %xmm8
	pmullw	%xmm12, %xmm8
	psrlw	$8, %xmm7
	pmullw	%xmm10, %xmm7
	paddw	%xmm1, %xmm8
	paddw	%xmm1, %xmm7
	pmulhuw	%xmm2, %xmm7
	pmulhuw	%xmm2, %xmm8
	psllw	$8, %xmm8
	por	%xmm11, %xmm8
	psllw	$8, %xmm7
	por	%xmm9, %xmm7
	movdqa	%xmm8, %xmm9
	pxor	%xmm5, %xmm9
	pxor	%xmm7, %xmm5
	pshufb	%xmm6, %xmm5
	pshufb	%xmm6, %xmm9
	movdqa	%xmm3, %xmm6
	pand	%xmm0, %xmm6
	pand	%xmm4, %xmm0
	pmullw	%xmm9, %xmm0
	pmullw	%xmm5, %xmm6
	paddw	%xmm1, %xmm6
	paddw	%xmm1, %xmm0
	pmulhuw	%xmm2, %xmm0
	pmulhuw	%xmm2, %xmm6
	psrlw	$8, %xmm4
	psrlw	$8, %xmm3
	pmullw	%xmm5, %xmm3
	pmullw	%xmm9, %xmm4
	paddw	%xmm1, %xmm4
	paddw	%xmm1, %xmm3
	pmulhuw	%xmm2, %xmm3
	pmulhuw	%xmm2, %xmm4
	psllw	$8, %xmm4
	por	%xmm0, %xmm4
	psllw	$8, %xmm3
	por	%xmm6, %xmm3
	paddusb	%xmm8, %xmm4
	paddusb	%xmm7, %xmm3
	movdqu	%xmm3, (%r12,%r9,4)
	movdqu	%xmm4, 16(%r12,%r9,4)
	addq	$16, %r9
	decq	%r15
	jne	.LBB9_237
.LBB9_238:
	movq	104(%rsp), %rcx
	cmpq	176(%rsp), %rcx
	je	.LBB9_246
	movq	112(%rsp), %rsi
	movq	%rsi, %rdx
	imulq	64(%rsp), %rdx
	addq	296(%rsp), %rdx
	subq	288(%rsp), %rsi
	movq	328(%rsp), %rcx
	leaq	(%rcx,%rsi), %rdi
	imulq	72(%rsp), %rdi
	addq	280(%rsp), %rdi
	addq	320(%rsp), %rsi
	imulq	256(%rsp), %rsi
	addq	456(%rsp), %rsi
	movq	56(%rsp), %rcx
	leaq	(%rcx,%rdx,4), %r9
	movq	128(%rsp), %rcx
	leaq	(%rcx,%rdi,4), %rdi
	movq	464(%rsp), %rcx
	addq	%rcx, %r9
	addq	%rcx, %rdi
	addq	104(%rsp), %rsi
	cmpq	$0, 304(%rsp)
	jne	.LBB9_240
	testb	$4, 176(%rsp)
	jne	.LBB9_242
.LBB9_243:
	cmpl	%ebx, 312(%rsp)
	je	.LBB9_246
	jmp	.LBB9_244
.LBB9_240:
	movdqu	(%rdi), %xmm6
	movdqu	16(%rdi), %xmm7
	movq	(%rsi), %xmm0
	punpcklbw	%xmm0, %xmm0
	movdqa	%xmm0, %xmm1
	punpckhwd	%xmm0, %xmm1
	punpcklwd	%xmm0, %xmm0
	movdqa	.LCPI9_0(%rip), %xmm2
	movdqa	%xmm6, %xmm3
	pand	%xmm2, %xmm3
	movdqa	%xmm7, %xmm4
	pand	%xmm2, %xmm4
	movdqa	%xmm0, %xmm5
	pand	%xmm2, %xmm5
	pmullw	%xmm3, %xmm5
	movdqa	%xmm1, %xmm8
	pand	%xmm2, %xmm8
	pmullw	%xmm4, %xmm8
	movdqa	.LCPI9_1(%rip), %xmm3
	paddw	%xmm3, %xmm5
	paddw	%xmm3, %xmm8
	movdqa	.LCPI9_2(%rip), %xmm4
	pmulhuw	%xmm4, %xmm8
	pmulhuw	%xmm4, %xmm5
	psrlw	$8, %xmm7
	psrlw	$8, %xmm6
	psrlw	$8, %xmm1
	pmullw	%xmm7, %xmm1
	psrlw	$8, %xmm0
	pmullw	%xmm6, %xmm0
	paddw	%xmm3, %xmm1
	paddw	%xmm3, %xmm0
	pmulhuw	%xmm4, %xmm0
	pmulhuw	%xmm4, %xmm1
	psllw	$8, %xmm1
	por	%xmm8, %xmm1
	psllw	$8, %xmm0
	por	%xmm5, %xmm0
	movdqu	(%r9), %xmm5
	movdqu	16(%r9), %xmm6
	pcmpeqd	%xmm8, %xmm8
	movdqa	%xmm1, %xmm9
	pxor	%xmm8, %xmm9
	pxor	%xmm0, %xmm8
	movdqa	.LCPI9_5(%rip), %xmm7
	pshufb	%xmm7, %xmm8
	pshufb	%xmm7, %xmm9
	movdqa	%xmm5, %xmm7
	pand	%xmm2, %xmm7
	pand	%xmm6, %xmm2
	pmullw	%xmm9, %xmm2
	pmullw	%xmm8, %xmm7
	paddw	%xmm3, %xmm7
	paddw	%xmm3, %xmm2
	pmulhuw	%xmm4, %xmm2
	pmulhuw	%xmm4, %xmm7
	psrlw	$8, %xmm6
	psrlw	$8, %xmm5
	pmullw	%xmm8, %xmm5
	pmullw	%xmm9, %xmm6
	paddw	%xmm3, %xmm6
	paddw	%xmm3, %xmm5
	pmulhuw	%xmm4, %xmm5
	pmulhuw	%xmm4, %xmm6
	psllw	$8, %xmm6
	por	%xmm2, %xmm6
	psllw	$8, %xmm5
	por	%xmm7, %xmm5
	paddusb	%xmm1, %xmm6
	paddusb	%xmm0, %xmm5
	movdqu	%xmm5, (%r9)
	movdqu	%xmm6, 16(%r9)
	testb	$4, 176(%rsp)
	je	.LBB9_243
.LBB9_242:
	movq	304(%rsp), %rcx
	leal	(,%rcx,4), %r15d
	movdqu	(%rdi,%r15), %xmm4
	movd	(%rsi,%rcx), %xmm0
	punpcklbw	%xmm0, %xmm0
	punpcklwd	%xmm0, %xmm0
	movdqa	.LCPI9_0(%rip), %xmm3
	movdqa	%xmm4, %xmm1
	pand	%xmm3, %xmm1
	movdqa	%xmm0, %xmm5
	pand	%xmm3, %xmm5
	pmullw	%xmm1, %xmm5
	movdqa	.LCPI9_1(%rip), %xmm1
	paddw	%xmm1, %xmm5
	movdqa	.LCPI9_2(%rip), %xmm2
	pmulhuw	%xmm2, %xmm5
	psrlw	$8, %xmm4
	psrlw	$8, %xmm0
	pmullw	%xmm4, %xmm0
	paddw	%xmm1, %xmm0
	pmulhuw	%xmm2, %xmm0
	psllw	$8, %xmm0
	por	%xmm5, %xmm0
	movdqu	(%r9,%r15), %xmm4
	pcmpeqd	%xmm5, %xmm5
	movdqa	%xmm0, %xmm6
	pshufb	.LCPI9_6(%rip), %xmm6
	pxor	%xmm6, %xmm5
	movdqa	%xmm4, %xmm7
	pand	%xmm3, %xmm7
	pandn	%xmm3, %xmm6
	pmullw	%xmm7, %xmm6
	paddw	%xmm1, %xmm6
	pmulhuw	%xmm2, %xmm6
	psrlw	$8, %xmm4
	psrlw	$8, %xmm5
	pmullw	%xmm4, %xmm5
	paddw	%xmm1, %xmm5
	pmulhuw	%xmm2, %xmm5
	psllw	$8, %xmm5
	por	%xmm6, %xmm5
	paddusb	%xmm0, %xmm5
	movdqu	%xmm5, (%r9,%r15)
	cmpl	%ebx, 312(%rsp)
	je	.LBB9_246
.LBB9_244:
	xorl	%r9d, %r9d
	movq	312(%rsp), %rsi
	.p2align	4
.LBB9_245:
	movq	%rbx, %r8
	movl	(%r14,%r9,4), %ebx
	movl	(%rbp,%r9,4), %edx
	movzbl	%dh, %edi
	movzbl	%dl, %r15d
	movd	%edx, %xmm0
	movzbl	%bh, %ecx
	movzbl	%bl, %r13d
	movd	%ebx, %xmm1
	shrl	$16, %ebx
	movzbl	%bl, %ebx
	psrld	$24, %xmm1
	pinsrw	$1, %ebx, %xmm1
	movq	%r8, %rbx
	pinsrw	$2, %ecx, %xmm1
	pinsrw	$3, %r13d, %xmm1
	shrl	$16, %edx
	movzbl	(%r11,%r9), %ecx
	movd	%ecx, %xmm2
	pshuflw	$0, %xmm2, %xmm2
	pmullw	%xmm1, %xmm2
	movdqa	.LCPI9_3(%rip), %xmm1
	paddw	%xmm1, %xmm2
	movdqa	%xmm2, %xmm3
	psrlw	$8, %xmm3
	paddw	%xmm2, %xmm3
	pextrb	$1, %xmm3, %ecx
	movzbl	%dl, %edx
	psrlw	$8, %xmm3
	packuswb	%xmm3, %xmm3
	xorl	$255, %ecx
	movd	%ecx, %xmm2
	psrld	$24, %xmm0
	pinsrw	$1, %edx, %xmm0
	pinsrw	$2, %edi, %xmm0
	pinsrw	$3, %r15d, %xmm0
	pshuflw	$0, %xmm2, %xmm2
	pmullw	%xmm2, %xmm0
	paddw	%xmm1, %xmm0
	movdqa	%xmm0, %xmm1
	psrlw	$8, %xmm1
	paddw	%xmm0, %xmm1
	psrlw	$8, %xmm1
	packuswb	%xmm1, %xmm1
	paddusb	%xmm3, %xmm1
	pmovzxbd	%xmm1, %xmm0
	pmulld	.LCPI9_7(%rip), %xmm0
	pshufd	$238, %xmm0, %xmm1
	por	%xmm0, %xmm1
	pshufd	$85, %xmm1, %xmm0
	por	%xmm1, %xmm0
	movd	%xmm0, (%rbp,%r9,4)
	incq	%rsi
	incq	%r9
	cmpq	%r8, %rsi
	jb	.LBB9_245
	jmp	.LBB9_246
.LBB9_568:
	testq	%r15, %r15
	je	.LBB9_1189
	movq	%rbp, 144(%rsp)
	movq	%rbx, %rbp
	shrq	$32, %rbp
	subq	%rsi, %rcx
	movabsq	$4294967296, %rsi
	movl	%r8d, %r9d
	leaq	(%rcx,%rsi), %r8
	leaq	(%rdx,%rsi), %r12
	cmpq	%r8, %r12
	movq	%r13, 176(%rsp)
	movq	%r8, %r13
	cmovbq	%r12, %r13
	xorl	%r10d, %r10d
	movq	%rsi, %r14
	subq	%r13, %r14
	cmovbq	%r10, %r14
	orq	%rsi, %r15
	subq	%r8, %r15
	cmovbq	%r10, %r15
	movl	%ebx, %r8d
	orq	%rsi, %r8
	subq	%r12, %r8
	cmovbq	%r10, %r8
	cmpl	%eax, %edi
	cmovbl	%edi, %eax
	cmpq	%rax, %r15
	cmovaeq	%rax, %r15
	cmpq	%r15, %r8
	cmovbq	%r8, %r15
	movq	112(%rsp), %rax
	leaq	(%r14,%rcx), %r12
	addq	%r15, %rcx
	addq	%r14, %rdx
	cmpq	%r14, %r15
	cmovbeq	%r10, %r12
	cmovbeq	%r10, %rcx
	cmovbeq	%r10, %rdx
	subq	144(%rsp), %r11
	leaq	(%r11,%rsi), %r8
	movq	72(%rsp), %r15
	leaq	(%r15,%rsi), %rbx
	cmpq	%r8, %rbx
	movq	%r8, %r14
	cmovbq	%rbx, %r14
	movq	%rsi, %rdi
	subq	%r14, %rdi
	cmovbq	%r10, %rdi
	movq	64(%rsp), %r14
	orq	%rsi, %r14
	subq	%r8, %r14
	cmovbq	%r10, %r14
	orq	%rsi, %rbp
	subq	%rbx, %rbp
	cmovbq	%r10, %rbp
	cmpl	%eax, %r9d
	cmovbl	%r9d, %eax
	cmpq	%rax, %r14
	cmovaeq	%rax, %r14
	cmpq	%r14, %rbp
	cmovbq	%rbp, %r14
	leaq	(%rdi,%r11), %rax
	addq	%r14, %r11
	addq	%rdi, %r15
	cmpq	%rdi, %r14
	cmovbeq	%r10, %rax
	cmovbeq	%r10, %r11
	cmovbeq	%r10, %r15
	movq	%r12, 200(%rsp)
	movq	%rcx, 208(%rsp)
	movq	%rdx, 216(%rsp)
	movq	%rax, 224(%rsp)
	movq	%r11, 232(%rsp)
	movq	%r15, 240(%rsp)
	leaq	200(%rsp), %rax
	movq	%rax, 32(%rsp)
	movq	56(%rsp), %rcx
	movq	128(%rsp), %rdx
	movq	80(%rsp), %r8
	movq	176(%rsp), %r9
	callq	"pix_raster::view::blit_overlap::<#93a319759576dea8>"
	jmp	.LBB9_1189
.LBB9_931:
	testq	%r15, %r15
	je	.LBB9_1189
	movq	%r13, %rdi
	shrq	$32, %rdi
	subq	%rsi, %rcx
	movabsq	$4294967296, %rsi
	movq	%r10, 144(%rsp)
	leaq	(%rcx,%rsi), %r10
	leaq	(%r9,%rsi), %r8
	cmpq	%r10, %r8
	movq	%r12, 56(%rsp)
	movq	%r10, %r12
	cmovbq	%r8, %r12
	xorl	%r11d, %r11d
	movl	%r14d, 176(%rsp)
	movq	%rsi, %r14
	subq	%r12, %r14
	cmovbq	%r11, %r14
	orq	%rsi, %r15
	subq	%r10, %r15
	cmovbq	%r11, %r15
	movl	%r13d, %r10d
	orq	%rsi, %r10
	subq	%r8, %r10
	cmovbq	%r11, %r10
	cmpl	%ebx, %ebp
	cmovbl	%ebp, %ebx
	cmpq	%rbx, %r15
	cmovaeq	%rbx, %r15
	cmpq	%r15, %r10
	cmovbq	%r10, %r15
	leaq	(%r14,%rcx), %rbx
	addq	%r15, %rcx
	addq	%r14, %r9
	cmpq	%r14, %r15
.LBB9_842:
	cmovbeq	%r11, %rbx
	cmovbeq	%r11, %rcx
	cmovbeq	%r11, %r9
	subq	112(%rsp), %rax
	leaq	(%rax,%rsi), %r10
	movq	72(%rsp), %r8
	leaq	(%r8,%rsi), %r15
	cmpq	%r10, %r15
	movq	%r10, %r12
	cmovbq	%r15, %r12
	movq	%rsi, %r14
	subq	%r12, %r14
	cmovbq	%r11, %r14
	movq	64(%rsp), %r12
	orq	%rsi, %r12
	subq	%r10, %r12
	cmovbq	%r11, %r12
	orq	%rsi, %rdi
	subq	%r15, %rdi
	cmovbq	%r11, %rdi
	movl	176(%rsp), %r10d
	cmpl	%edx, %r10d
	cmovbl	%r10d, %edx
	cmpq	%rdx, %r12
	cmovaeq	%rdx, %r12
	cmpq	%r12, %rdi
	cmovbq	%rdi, %r12
	leaq	(%r14,%rax), %rdx
	addq	%r12, %rax
	addq	%r14, %r8
	cmpq	%r14, %r12
	cmovbeq	%r11, %rdx
	cmovbeq	%r11, %rax
	cmovbeq	%r11, %r8
	movq	%rbx, 200(%rsp)
	movq	%rcx, 208(%rsp)
	movq	%r9, 216(%rsp)
	movq	%rdx, 224(%rsp)
	movq	%rax, 232(%rsp)
	movq	%r8, 240(%rsp)
	leaq	200(%rsp), %rax
	movq	%rax, 32(%rsp)
	movq	56(%rsp), %rcx
	movq	80(%rsp), %rdx
	jmp	.LBB9_750
.LBB9_748:
	testq	%r15, %r15
	je	.LBB9_1189
	movq	%r13, %rdi
	shrq	$32, %rdi
	subq	%rsi, %r9
	movabsq	$4294967296, %rsi
	leaq	(%r9,%rsi), %r11
	leaq	(%r8,%rsi), %rdx
	cmpq	%r11, %rdx
	movl	%r10d, 176(%rsp)
	movq	%r11, %r10
	cmovbq	%rdx, %r10
	xorl	%r11d, %r11d
	movq	%rcx, 144(%rsp)
	movq	%r12, %rcx
	movq	%rsi, %r12
	subq	%r10, %r12
	cmovbq	%r11, %r12
	orq	%rsi, %r15
	leaq	(%r9,%rsi), %r10
	subq	%r10, %r15
	cmovbq	%r11, %r15
	movl	%r13d, %r10d
	orq	%rsi, %r10
	subq	%rdx, %r10
	cmovbq	%r11, %r10
	cmpl	%ebx, %ebp
	cmovbl	%ebp, %ebx
	cmpq	%rbx, %r15
	cmovaeq	%rbx, %r15
	cmpq	%r15, %r10
	cmovbq	%r10, %r15
	leaq	(%r12,%r9), %rbx
	addq	%r15, %r9
	addq	%r12, %r8
	cmpq	%r12, %r15
	cmovbeq	%r11, %rbx
	cmovbeq	%r11, %r9
	cmovbeq	%r11, %r8
	subq	112(%rsp), %rax
	leaq	(%rax,%rsi), %r10
	leaq	(%r14,%rsi), %r12
	cmpq	%r10, %r12
	movq	%r10, %r13
	cmovbq	%r12, %r13
	movq	%rsi, %r15
	subq	%r13, %r15
	cmovbq	%r11, %r15
	movq	%r14, %r13
	movq	80(%rsp), %r14
	orq	%rsi, %r14
	subq	%r10, %r14
	cmovbq	%r11, %r14
	orq	%rsi, %rdi
	subq	%r12, %rdi
	cmovbq	%r11, %rdi
	movq	72(%rsp), %rdx
	movl	176(%rsp), %r10d
	cmpl	%edx, %r10d
	cmovbl	%r10d, %edx
	cmpq	%rdx, %r14
	cmovaeq	%rdx, %r14
	cmpq	%r14, %rdi
	cmovbq	%rdi, %r14
	leaq	(%r15,%rax), %rdx
	addq	%r14, %rax
	addq	%r15, %r13
	cmpq	%r15, %r14
	cmovbeq	%r11, %rdx
	cmovbeq	%r11, %rax
	cmovbeq	%r11, %r13
	movq	%rbx, 200(%rsp)
	movq	%r9, 208(%rsp)
	movq	%r8, 216(%rsp)
	movq	%rdx, 224(%rsp)
	movq	%rax, 232(%rsp)
	movq	%r13, 240(%rsp)
	leaq	200(%rsp), %rax
	movq	%rax, 32(%rsp)
	movq	64(%rsp), %rdx
.LBB9_750:
	movq	128(%rsp), %r8
.LBB9_751:
	movq	144(%rsp), %r9
	callq	"pix_raster::view::blit_overlap::<#93a319759576dea8>"
.LBB9_1189:
	movaps	496(%rsp), %xmm6
	movaps	512(%rsp), %xmm7
	movaps	528(%rsp), %xmm8
	movaps	544(%rsp), %xmm9
	movaps	560(%rsp), %xmm10
	movaps	576(%rsp), %xmm11
	movaps	592(%rsp), %xmm12
	movaps	608(%rsp), %xmm13
	movaps	624(%rsp), %xmm14
	movaps	640(%rsp), %xmm15
	addq	$664, %rsp
	popq	%rbx
	popq	%rbp
	popq	%rdi
	popq	%rsi
	popq	%r12
	popq	%r13
	popq	%r14
	popq	%r15
	retq
.LBB9_318:
	movq	%r11, 256(%rsp)
	testq	%r15, %r15
	je	.LBB9_1189
	movq	%r13, %rdi
	shrq	$32, %rdi
	subq	%rsi, %rcx
	movl	%ebp, 144(%rsp)
	movabsq	$4294967296, %rbp
	leaq	(%rcx,%rbp), %rsi
	leaq	(%rdx,%rbp), %r11
	cmpq	%rsi, %r11
	movq	%r8, 72(%rsp)
	movq	%rsi, %r8
	cmovbq	%r11, %r8
	xorl	%esi, %esi
	movq	%rbp, %r12
	subq	%r8, %r12
	cmovbq	%rsi, %r12
	orq	%rbp, %r15
	leaq	(%rcx,%rbp), %r8
	subq	%r8, %r15
	cmovbq	%rsi, %r15
	movl	%r13d, %r8d
	orq	%rbp, %r8
	subq	%r11, %r8
	cmovbq	%rsi, %r8
	cmpl	%r9d, %r10d
	cmovbl	%r10d, %r9d
	cmpq	%r9, %r15
	cmovaeq	%r9, %r15
	cmpq	%r15, %r8
	cmovbq	%r8, %r15
	leaq	(%r12,%rcx), %r9
	addq	%r15, %rcx
	addq	%r12, %rdx
	cmpq	%r12, %r15
	cmovbeq	%rsi, %r9
	cmovbeq	%rsi, %rcx
	cmovbeq	%rsi, %rdx
	subq	128(%rsp), %rbx
	leaq	(%rbx,%rbp), %r8
	movq	112(%rsp), %r11
	leaq	(%r11,%rbp), %r15
	cmpq	%r8, %r15
	movq	%r8, %r12
	cmovbq	%r15, %r12
	movq	%rbp, %r10
	subq	%r12, %r10
	cmovbq	%rsi, %r10
	orq	%rbp, %r14
	subq	%r8, %r14
	cmovbq	%rsi, %r14
	orq	%rbp, %rdi
	subq	%r15, %rdi
	cmovbq	%rsi, %rdi
	movl	144(%rsp), %r8d
	cmpl	%eax, %r8d
	cmovbl	%r8d, %eax
	cmpq	%rax, %r14
	cmovaeq	%rax, %r14
	cmpq	%r14, %rdi
	cmovbq	%rdi, %r14
	leaq	(%r10,%rbx), %rax
	addq	%r14, %rbx
	addq	%r10, %r11
	cmpq	%r10, %r14
	cmovbeq	%rsi, %rax
	cmovbeq	%rsi, %rbx
	cmovbeq	%rsi, %r11
	movq	256(%rsp), %r8
	movl	(%r8), %r8d
	movq	%r9, 200(%rsp)
	movq	%rcx, 208(%rsp)
	movq	%rdx, 216(%rsp)
	movq	%rax, 224(%rsp)
	movq	%rbx, 232(%rsp)
	movq	%r11, 240(%rsp)
	movl	%r8d, 40(%rsp)
	leaq	200(%rsp), %rax
	movq	%rax, 32(%rsp)
	movq	56(%rsp), %rcx
	movq	64(%rsp), %rdx
	movq	80(%rsp), %r8
	movq	72(%rsp), %r9
	callq	"pix_raster::view::blit_overlap::<#7a2e6a0a1e536be3>"
	jmp	.LBB9_1189
.LBB9_480:
	movq	%r12, 56(%rsp)
	testq	%r15, %r15
	je	.LBB9_1189
	subq	%rsi, %rcx
	movabsq	$4294967296, %r8
	addq	%r8, %rcx
	cmpq	%r8, %rcx
	movq	%r8, %r11
	cmovaq	%rcx, %r11
	movabsq	$-4294967296, %rdx
	addq	%r9, %rcx
	orq	%r8, %r15
	cmpq	%rcx, %r15
	cmovaeq	%rcx, %r15
	leaq	(%r11,%rdx), %rax
	xorl	%ecx, %ecx
	cmpq	%r11, %r15
	cmovbeq	%rcx, %rax
	movq	%rax, 176(%rsp)
	subq	128(%rsp), %rbx
	addq	%r8, %rbx
	cmpq	%r8, %rbx
	movq	%r8, %r9
	cmovaq	%rbx, %r9
	addq	112(%rsp), %rbx
	orq	%r8, %rbp
	cmpq	%rbx, %rbp
	cmovaeq	%rbx, %rbp
	leaq	(%r9,%rdx), %r10
	cmpq	%r9, %rbp
	cmovbeq	%rcx, %r10
	jbe	.LBB9_1189
	addq	%rdx, %rbp
	cmpq	%r10, %rbp
	jbe	.LBB9_1189
	movq	64(%rsp), %rax
	movl	(%rax), %esi
	shrl	$24, %esi
	addq	%r15, %rdx
	xorl	%r8d, %r8d
	cmpq	%r11, %r15
	cmovaq	%rdx, %r8
	movq	176(%rsp), %rax
	subq	%rax, %r8
	movq	%r8, %rcx
	shrq	$4, %rcx
	movq	%rcx, 128(%rsp)
	movd	%esi, %xmm1
	pxor	%xmm0, %xmm0
	pshufb	%xmm0, %xmm1
	pcmpeqd	%xmm0, %xmm0
	pxor	%xmm1, %xmm0
	psrld	$24, %xmm0
	movdqa	%xmm0, %xmm1
	pshufb	.LCPI9_8(%rip), %xmm1
	movq	%r8, %rdi
	andq	$-16, %rdi
	leaq	(,%rdi,4), %rcx
	movq	%rcx, 256(%rsp)
	movl	%r8d, %r11d
	andl	$15, %r11d
	leal	(,%r8,4), %ecx
	movl	%ecx, %edx
	andl	$32, %edx
	movq	%rdx, 104(%rsp)
	pshufb	.LCPI9_9(%rip), %xmm0
	movdqa	.LCPI9_0(%rip), %xmm2
	pand	%xmm0, %xmm2
	psrlw	$8, %xmm0
	movq	%r8, 64(%rsp)
	andl	$12, %r8d
	movq	%r8, 144(%rsp)
	movzwl	%si, %r9d
	xorl	$255, %r9d
	movq	%r10, %rdx
	movq	80(%rsp), %rsi
	imulq	%rsi, %rdx
	addq	%rax, %rdx
	movq	56(%rsp), %rax
	leaq	(%rax,%rdx,4), %r12
	andl	$48, %ecx
	movq	%rdi, 112(%rsp)
	leaq	(%rcx,%rdi,4), %rcx
	leaq	(%rcx,%rdx,4), %r13
	leaq	(,%rsi,4), %rcx
	movq	%rcx, 72(%rsp)
	addq	%rax, %r13
	jmp	.LBB9_484
.LBB9_495:
	incq	%r10
	movq	72(%rsp), %rax
	addq	%rax, %r12
	addq	%rax, %r13
	movq	%r8, %rbp
	cmpq	%r8, %r10
	je	.LBB9_1189
.LBB9_484:
	movq	%rbp, %r8
	cmpq	$0, 128(%rsp)
	je	.LBB9_487
	movq	%r12, %rsi
	movq	128(%rsp), %rdi
	.p2align	4
.LBB9_486:
	movdqa	.LCPI9_0(%rip), %xmm5
	movdqu	(%rsi), %xmm9
	movdqu	16(%rsi), %xmm8
	movdqu	32(%rsi), %xmm4
	movdqu	48(%rsi), %xmm3
	movdqa	%xmm8, %xmm10
	pand	%xmm5, %xmm10
	movdqa	%xmm9, %xmm11
	pand	%xmm5, %xmm11
	pmullw	%xmm1, %xmm11
	pmullw	%xmm1, %xmm10
	movdqa	.LCPI9_1(%rip), %xmm6
	paddw	%xmm6, %xmm10
	paddw	%xmm6, %xmm11
	movdqa	.LCPI9_2(%rip), %xmm7
	pmulhuw	%xmm7, %xmm11
	pmulhuw	%xmm7, %xmm10
	psrlw	$8, %xmm9
	psrlw	$8, %xmm8
	pmullw	%xmm1, %xmm8
	pmullw	%xmm1, %xmm9
	paddw	%xmm6, %xmm9
	paddw	%xmm6, %xmm8
	pmulhuw	%xmm7, %xmm8
	pmulhuw	%xmm7, %xmm9
	psllw	$8, %xmm9
	por	%xmm11, %xmm9
	psllw	$8, %xmm8
	por	%xmm10, %xmm8
	movdqu	%xmm9, (%rsi)
	movdqu	%xmm8, 16(%rsi)
	movdqa	%xmm3, %xmm8
	pand	%xmm5, %xmm8
	pand	%xmm4, %xmm5
	pmullw	%xmm1, %xmm5
	pmullw	%xmm1, %xmm8
	paddw	%xmm6, %xmm8
	paddw	%xmm6, %xmm5
	pmulhuw	%xmm7, %xmm5
	pmulhuw	%xmm7, %xmm8
	psrlw	$8, %xmm4
	psrlw	$8, %xmm3
	pmullw	%xmm1, %xmm3
	pmullw	%xmm1, %xmm4
	paddw	%xmm6, %xmm4
	paddw	%xmm6, %xmm3
	pmulhuw	%xmm7, %xmm3
	pmulhuw	%xmm7, %xmm4
	psllw	$8, %xmm4
	por	%xmm5, %xmm4
	psllw	$8, %xmm3
	por	%xmm8, %xmm3
	movdqu	%xmm4, 32(%rsi)
	movdqu	%xmm3, 48(%rsi)
	addq	$64, %rsi
	decq	%rdi
	jne	.LBB9_486
.LBB9_487:
	movq	112(%rsp), %rax
	cmpq	64(%rsp), %rax
	je	.LBB9_495
	movq	%r10, %rcx
	imulq	80(%rsp), %rcx
	addq	176(%rsp), %rcx
	movq	56(%rsp), %rax
	leaq	(%rax,%rcx,4), %rsi
	addq	256(%rsp), %rsi
	testb	$8, 64(%rsp)
	jne	.LBB9_489
	testb	$4, 64(%rsp)
	jne	.LBB9_491
.LBB9_492:
	cmpl	%r11d, 144(%rsp)
	jae	.LBB9_495
	jmp	.LBB9_493
.LBB9_489:
	movdqu	(%rsi), %xmm4
	movdqu	16(%rsi), %xmm3
	movdqa	.LCPI9_0(%rip), %xmm6
	movdqa	%xmm3, %xmm5
	pand	%xmm6, %xmm5
	pand	%xmm4, %xmm6
	pmullw	%xmm1, %xmm6
	pmullw	%xmm1, %xmm5
	movdqa	.LCPI9_1(%rip), %xmm7
	paddw	%xmm7, %xmm5
	paddw	%xmm7, %xmm6
	movdqa	.LCPI9_2(%rip), %xmm8
	pmulhuw	%xmm8, %xmm6
	pmulhuw	%xmm8, %xmm5
	psrlw	$8, %xmm4
	psrlw	$8, %xmm3
	pmullw	%xmm1, %xmm3
	pmullw	%xmm1, %xmm4
	paddw	%xmm7, %xmm4
	paddw	%xmm7, %xmm3
	pmulhuw	%xmm8, %xmm3
	pmulhuw	%xmm8, %xmm4
	psllw	$8, %xmm4
	por	%xmm6, %xmm4
	psllw	$8, %xmm3
	por	%xmm5, %xmm3
	movdqu	%xmm4, (%rsi)
	movdqu	%xmm3, 16(%rsi)
	testb	$4, 64(%rsp)
	je	.LBB9_492
.LBB9_491:
	movq	104(%rsp), %rax
	movdqu	(%rsi,%rax), %xmm3
	movdqa	.LCPI9_0(%rip), %xmm4
	pand	%xmm3, %xmm4
	pmullw	%xmm2, %xmm4
	movdqa	.LCPI9_1(%rip), %xmm5
	paddw	%xmm5, %xmm4
	movdqa	.LCPI9_2(%rip), %xmm6
	pmulhuw	%xmm6, %xmm4
	psrlw	$8, %xmm3
	pmullw	%xmm0, %xmm3
	paddw	%xmm5, %xmm3
	pmulhuw	%xmm6, %xmm3
	psllw	$8, %xmm3
	por	%xmm4, %xmm3
	movdqu	%xmm3, (%rsi,%rax)
	cmpl	%r11d, 144(%rsp)
	jae	.LBB9_495
.LBB9_493:
	movq	%r13, %rsi
	movq	144(%rsp), %rdi
	.p2align	4
.LBB9_494:
	movl	(%rsi), %ecx
	movzbl	%ch, %edx
	movl	%ecx, %ebx
	movzbl	%cl, %r15d
	shrl	$16, %ecx
	shrl	$24, %ebx
	movzwl	%r9w, %r14d
	imull	%r14d, %r15d
	leal	128(%r15), %eax
	movzbl	%ah, %eax
	addl	%r15d, %eax
	addl	$128, %eax
	movzbl	%ah, %ebp
	imull	%r14d, %edx
	leal	128(%rdx), %eax
	movzbl	%ah, %eax
	leal	(%rax,%rdx), %r15d
	addl	$128, %r15d
	andl	$65280, %r15d
	movzbl	%cl, %eax
	imull	%r14d, %eax
	leal	128(%rax), %ecx
	movzbl	%ch, %ecx
	addl	%ecx, %eax
	addl	$128, %eax
	imull	%r14d, %ebx
	leal	128(%rbx), %ecx
	movzbl	%ch, %ecx
	addl	%ebx, %ecx
	addl	$128, %ecx
	shll	$16, %ecx
	andl	$-16777216, %ecx
	shll	$8, %eax
	andl	$16711680, %eax
	orl	%ecx, %eax
	orl	%r15d, %eax
	orl	%ebp, %eax
	movl	%eax, (%rsi)
	incq	%rdi
	addq	$4, %rsi
	cmpq	%r11, %rdi
	jb	.LBB9_494
	jmp	.LBB9_495
.LBB9_678:
	movq	%rax, 104(%rsp)
	testq	%r15, %r15
	je	.LBB9_1189
	movq	%rbp, %rdi
	shrq	$32, %rdi
	subq	%rsi, %rcx
	movabsq	$4294967296, %rsi
	movq	%r13, 144(%rsp)
	leaq	(%rcx,%rsi), %r13
	leaq	(%rdx,%rsi), %rax
	cmpq	%r13, %rax
	movq	%r8, %r10
	movq	%r13, %r8
	cmovbq	%rax, %r8
	xorl	%r13d, %r13d
	movl	%r14d, 176(%rsp)
	movq	%rsi, %r14
	subq	%r8, %r14
	cmovbq	%r13, %r14
	orq	%rsi, %r15
	leaq	(%rcx,%rsi), %r8
	subq	%r8, %r15
	cmovbq	%r13, %r15
	movl	%ebp, %r8d
	orq	%rsi, %r8
	subq	%rax, %r8
	cmovbq	%r13, %r8
	cmpl	%r9d, %ebx
	cmovbl	%ebx, %r9d
	cmpq	%r9, %r15
	cmovaeq	%r9, %r15
	cmpq	%r15, %r8
	cmovbq	%r8, %r15
	leaq	(%r14,%rcx), %r9
	addq	%r15, %rcx
	addq	%r14, %rdx
	cmpq	%r14, %r15
	cmovbeq	%r13, %r9
	cmovbeq	%r13, %rcx
	cmovbeq	%r13, %rdx
	subq	112(%rsp), %r11
	leaq	(%r11,%rsi), %r8
	leaq	(%r10,%rsi), %r14
	cmpq	%r8, %r14
	movq	%r8, %r15
	cmovbq	%r14, %r15
	movq	%rsi, %rbx
	subq	%r15, %rbx
	cmovbq	%r13, %rbx
	movq	64(%rsp), %r15
	orq	%rsi, %r15
	subq	%r8, %r15
	cmovbq	%r13, %r15
	orq	%rsi, %rdi
	subq	%r14, %rdi
	cmovbq	%r13, %rdi
	movq	72(%rsp), %rax
	movl	176(%rsp), %r8d
	cmpl	%eax, %r8d
	cmovbl	%r8d, %eax
	cmpq	%rax, %r15
	cmovaeq	%rax, %r15
	cmpq	%r15, %rdi
	cmovbq	%rdi, %r15
	leaq	(%rbx,%r11), %rax
	addq	%r15, %r11
	addq	%rbx, %r10
	cmpq	%rbx, %r15
	cmovbeq	%r13, %rax
	cmovbeq	%r13, %r11
	cmovbeq	%r13, %r10
	movq	104(%rsp), %r8
	movl	(%r8), %r8d
	movq	%r9, 200(%rsp)
	movq	%rcx, 208(%rsp)
	movq	%rdx, 216(%rsp)
	movq	%rax, 224(%rsp)
	movq	%r11, 232(%rsp)
	movq	%r10, 240(%rsp)
	movl	%r8d, 40(%rsp)
	leaq	200(%rsp), %rax
	movq	%rax, 32(%rsp)
	movq	%r12, %rcx
	movq	80(%rsp), %rdx
	movq	128(%rsp), %r8
	movq	144(%rsp), %r9
	callq	"pix_raster::view::blit_overlap::<#d13018cf5d2c8821>"
	jmp	.LBB9_1189
.LBB9_518:
	movq	%rax, 256(%rsp)
	testq	%r15, %r15
	je	.LBB9_1189
	movq	%r13, %rdi
	shrq	$32, %rdi
	subq	%rsi, %rcx
	movabsq	$4294967296, %r10
	movq	%r8, 144(%rsp)
	leaq	(%rcx,%r10), %r8
	movq	%r14, 104(%rsp)
	leaq	(%rdx,%r10), %r14
	cmpq	%r8, %r14
	movq	%r12, 56(%rsp)
	movq	%r8, %r12
	cmovbq	%r14, %r12
	xorl	%eax, %eax
	movq	%r10, %rsi
	subq	%r12, %rsi
	cmovbq	%rax, %rsi
	orq	%r10, %r15
	subq	%r8, %r15
	cmovbq	%rax, %r15
	movl	%r13d, %r8d
	orq	%r10, %r8
	subq	%r14, %r8
	cmovbq	%rax, %r8
	cmpl	%r9d, %r11d
	cmovbl	%r11d, %r9d
	cmpq	%r9, %r15
	cmovaeq	%r9, %r15
	cmpq	%r15, %r8
	cmovbq	%r8, %r15
	leaq	(%rsi,%rcx), %r9
	addq	%r15, %rcx
	addq	%rsi, %rdx
	cmpq	%rsi, %r15
	movl	$0, %eax
	cmovbeq	%rax, %r9
	cmovbeq	%rax, %rcx
	cmovbeq	%rax, %rdx
	xorl	%esi, %esi
	subq	128(%rsp), %rbx
	leaq	(%rbx,%r10), %r8
	movq	104(%rsp), %r12
	leaq	(%r12,%r10), %r14
	cmpq	%r8, %r14
	movq	%r8, %r15
	cmovbq	%r14, %r15
	movq	%r10, %r11
	subq	%r15, %r11
	cmovbq	%rsi, %r11
	orq	%r10, %rbp
	subq	%r8, %rbp
	cmovbq	%rsi, %rbp
	orq	%r10, %rdi
	subq	%r14, %rdi
	cmovbq	%rsi, %rdi
	movl	72(%rsp), %r8d
	movq	112(%rsp), %rax
	cmpl	%eax, %r8d
	cmovbl	%r8d, %eax
	cmpq	%rax, %rbp
	cmovaeq	%rax, %rbp
	cmpq	%rbp, %rdi
	cmovbq	%rdi, %rbp
	leaq	(%r11,%rbx), %rax
	addq	%rbp, %rbx
	movq	%r12, %r8
	addq	%r11, %r8
	cmpq	%r11, %rbp
	cmovbeq	%rsi, %rax
	cmovbeq	%rsi, %rbx
	cmovbeq	%rsi, %r8
	movq	%r8, %r10
	movq	256(%rsp), %r8
	movzbl	(%r8), %r8d
	movq	%r9, 200(%rsp)
	movq	%rcx, 208(%rsp)
	movq	%rdx, 216(%rsp)
	movq	%rax, 224(%rsp)
	movq	%rbx, 232(%rsp)
	movq	%r10, 240(%rsp)
	movb	%r8b, 40(%rsp)
	leaq	200(%rsp), %rax
	movq	%rax, 32(%rsp)
	movq	56(%rsp), %rcx
	movq	80(%rsp), %rdx
	movq	64(%rsp), %r8
	movq	144(%rsp), %r9
	callq	"pix_raster::view::blit_overlap::<#69746525898a3d94>"
	jmp	.LBB9_1189
.LBB9_320:
	movq	%r11, 256(%rsp)
	movq	%r8, 72(%rsp)
	testq	%r15, %r15
	je	.LBB9_1189
	movl	%ebp, 144(%rsp)
	movq	424(%rsp), %rdi
	movq	%rdi, 176(%rsp)
	movslq	440(%rsp), %r11
	movabsq	$4294967296, %r12
	movq	%r13, %rbp
	shrq	$32, %rbp
	shrq	$32, %rdi
	subq	%rsi, %rcx
	leaq	(%rcx,%r12), %r8
	leaq	(%rdx,%r12), %rsi
	cmpq	%r8, %rsi
	leaq	(%rcx,%r12), %r8
	cmovbq	%rsi, %r8
	movq	%r11, 248(%rsp)
	addq	%r12, %r11
	movq	%r11, 104(%rsp)
	cmpq	%r8, %r11
	cmovbq	%r11, %r8
	movq	%r12, %rsi
	subq	%r8, %rsi
	movl	$0, %r8d
	cmovbq	%r8, %rsi
	orq	%r12, %r15
	leaq	(%rcx,%r12), %r11
	subq	%r11, %r15
	cmovbq	%r8, %r15
	movl	%r13d, %r13d
	orq	%r12, %r13
	leaq	(%rdx,%r12), %r8
	subq	%r8, %r13
	movl	176(%rsp), %r8d
	movl	$0, %r11d
	cmovbq	%r11, %r13
	xorl	%r11d, %r11d
	orq	%r12, %r8
	subq	104(%rsp), %r8
	movl	$0, %r12d
	movq	%r12, 304(%rsp)
	cmovbq	%r11, %r8
	cmpl	%r9d, %r10d
	cmovbl	%r10d, %r9d
	movl	448(%rsp), %r10d
	cmpl	%r9d, %r10d
	cmovbl	%r10d, %r9d
	cmpq	%r9, %r15
	cmovaeq	%r9, %r15
	movslq	444(%rsp), %r9
	movq	%r9, 168(%rsp)
	cmpq	%r15, %r13
	cmovbq	%r13, %r15
	movl	452(%rsp), %r9d
	cmpq	%r15, %r8
	cmovbq	%r8, %r15
	movl	$0, %r12d
	movl	$0, %r8d
	movq	%r8, 312(%rsp)
	movl	$0, %r13d
	cmpq	%rsi, %r15
	jbe	.LBB9_323
	leaq	(%rsi,%rcx), %r8
	movq	%r8, 304(%rsp)
	addq	%rcx, %r15
	addq	%rsi, %rdx
	movq	248(%rsp), %r13
	addq	%rsi, %r13
	movq	%r15, %r12
	movq	%rdx, 312(%rsp)
.LBB9_323:
	subq	128(%rsp), %rbx
	movabsq	$4294967296, %r11
	leaq	(%rbx,%r11), %rcx
	movq	112(%rsp), %rdx
	leaq	(%rdx,%r11), %r10
	movq	168(%rsp), %rdx
	leaq	(%rdx,%r11), %rsi
	cmpq	%rcx, %r10
	movq	%rcx, %r8
	cmovbq	%r10, %r8
	cmpq	%r8, %rsi
	cmovbq	%rsi, %r8
	xorl	%r15d, %r15d
	movq	%r11, %rdx
	subq	%r8, %rdx
	cmovbq	%r15, %rdx
	orq	%r11, %r14
	subq	%rcx, %r14
	cmovbq	%r15, %r14
	orq	%r11, %rbp
	subq	%r10, %rbp
	cmovbq	%r15, %rbp
	orq	%r11, %rdi
	subq	%rsi, %rdi
	cmovbq	%r15, %rdi
	movl	144(%rsp), %r8d
	cmpl	%eax, %r8d
	cmovbl	%r8d, %eax
	cmpl	%eax, %r9d
	cmovbl	%r9d, %eax
	cmpq	%rax, %r14
	cmovaeq	%rax, %r14
	cmpq	%r14, %rbp
	cmovbq	%rbp, %r14
	cmpq	%r14, %rdi
	cmovbq	%rdi, %r14
	cmpq	%rdx, %r14
	jbe	.LBB9_1189
	leaq	(%rdx,%rbx), %rax
	addq	%rbx, %r14
	movq	%rax, 296(%rsp)
	cmpq	%r14, %rax
	jae	.LBB9_1189
	movq	432(%rsp), %rax
	movq	%rax, 144(%rsp)
	movabsq	$4294967296, %rbx
	movq	112(%rsp), %r11
	leaq	(%rdx,%r11), %rax
	movq	%rax, 280(%rsp)
	addq	%rdx, 168(%rsp)
	movq	256(%rsp), %r15
	leaq	(%r15,%r13), %rax
	movq	%rax, 288(%rsp)
	movq	%r12, %r9
	subq	304(%rsp), %r9
	movq	%r9, %rax
	shrq	$4, %rax
	movq	%rax, 128(%rsp)
	movq	%r9, %r12
	andq	$-16, %r12
	movq	%r13, 176(%rsp)
	movl	%r9d, %r13d
	andl	$15, %r13d
	movl	%r9d, %eax
	andl	$8, %eax
	movq	%rax, 248(%rsp)
	movl	%r9d, %r8d
	andl	$12, %r8d
	addq	%rbx, %r11
	cmpq	%r10, %rcx
	cmovbq	%rcx, %r10
	leaq	(,%r12,4), %rdi
	cmpq	%rsi, %r10
	cmovaeq	%rsi, %r10
	cmpq	%rbx, %r10
	cmovaeq	%rbx, %r10
	subq	%r10, %r11
	imulq	72(%rsp), %r11
	movq	312(%rsp), %rbp
	leaq	(,%rbp,4), %rax
	leaq	(%rax,%r11,4), %rcx
	subq	%r10, %rsi
	movq	64(%rsp), %rbx
	movq	%rbx, %rdx
	imulq	296(%rsp), %rdx
	imulq	144(%rsp), %rsi
	addq	176(%rsp), %rsi
	movq	%r12, 176(%rsp)
	movq	%r8, 320(%rsp)
	leaq	(%r12,%r8), %r10
	addq	%r15, %r10
	leaq	(%r15,%rsi), %rax
	addq	%rsi, %r10
	movq	304(%rsp), %r15
	leaq	(,%r15,4), %r8
	leaq	(%r8,%rdx,4), %r12
	leaq	(%rdi,%r11,4), %r8
	movq	%r9, 112(%rsp)
	leal	(,%r9,4), %r9d
	andl	$48, %r9d
	addq	%r9, %r8
	movq	%rdi, 328(%rsp)
	leaq	(%rdi,%rdx,4), %rdx
	addq	%r9, %rdx
	movq	80(%rsp), %rsi
	addq	%rsi, %rcx
	movq	56(%rsp), %r9
	addq	%r9, %r12
	leaq	(%r8,%rbp,4), %r11
	addq	%rsi, %r11
	leaq	(%rdx,%r15,4), %rbp
	addq	%r9, %rbp
	movq	72(%rsp), %rdx
	leaq	(,%rdx,4), %rdx
	movq	%rdx, 256(%rsp)
	leaq	(,%rbx,4), %rdx
	movq	%rdx, 104(%rsp)
	movq	296(%rsp), %r8
	jmp	.LBB9_326
.LBB9_337:
	incq	%r8
	movq	256(%rsp), %r9
	addq	%r9, %rcx
	movq	104(%rsp), %rsi
	addq	%rsi, %r12
	movq	144(%rsp), %rdx
	addq	%rdx, %rax
	addq	%rdx, %r10
	addq	%r9, %r11
	addq	%rsi, %rbp
	cmpq	%r14, %r8
	je	.LBB9_1189
.LBB9_326:
	cmpq	$0, 128(%rsp)
	je	.LBB9_329
	movl	$8, %r9d
	movq	128(%rsp), %r15
	.p2align	4
.LBB9_328:
	movdqu	-32(%rcx,%r9,4), %xmm3
	movdqu	-16(%rcx,%r9,4), %xmm4
	movq	-8(%rax,%r9), %xmm6
	punpcklbw	%xmm6, %xmm6
	movdqa	%xmm6, %xmm8
	punpckhwd	%xmm6, %xmm8
	punpcklwd	%xmm6, %xmm6
	movdqa	.LCPI9_0(%rip), %xmm0
	movdqa	%xmm3, %xmm1
	pand	%xmm0, %xmm1
	movdqa	%xmm4, %xmm2
	pand	%xmm0, %xmm2
	movdqa	%xmm6, %xmm9
	pand	%xmm0, %xmm9
	pmullw	%xmm1, %xmm9
	movdqa	%xmm8, %xmm10
	pand	%xmm0, %xmm10
	pmullw	%xmm2, %xmm10
	movdqa	.LCPI9_1(%rip), %xmm1
	paddw	%xmm1, %xmm9
	paddw	%xmm1, %xmm10
	movdqa	.LCPI9_2(%rip), %xmm2
	pmulhuw	%xmm2, %xmm10
	pmulhuw	%xmm2, %xmm9
	psrlw	$8, %xmm4
	psrlw	$8, %xmm3
	psrlw	$8, %xmm8
	pmullw	%xmm4, %xmm8
	psrlw	$8, %xmm6
	pmullw	%xmm3, %xmm6
	paddw	%xmm1, %xmm8
	paddw	%xmm1, %xmm6
	pmulhuw	%xmm2, %xmm6
	pmulhuw	%xmm2, %xmm8
	psllw	$8, %xmm8
	psllw	$8, %xmm6
	pcmpeqd	%xmm5, %xmm5
	movdqu	-32(%r12,%r9,4), %xmm11
	movdqu	-16(%r12,%r9,4), %xmm12
	movdqu	(%r12,%r9,4), %xmm3
	movdqu	16(%r12,%r9,4), %xmm4
	movdqa	%xmm12, %xmm13
	pxor	%xmm5, %xmm13
	movdqa	%xmm11, %xmm14
	pxor	%xmm5, %xmm14
	movdqa	.LCPI9_5(%rip), %xmm7
	pshufb	%xmm7, %xmm14
	pshufb	%xmm7, %xmm13
	por	%xmm9, %xmm6
	por	%xmm10, %xmm8
	pmullw	%xmm13, %xmm10
	pmullw	%xmm14, %xmm9
	paddw	%xmm1, %xmm9
	paddw	%xmm1, %xmm10
	pmulhuw	%xmm2, %xmm10
	pmulhuw	%xmm2, %xmm9
	psrlw	$8, %xmm8
	psrlw	$8, %xmm6
	pmullw	%xmm14, %xmm6
	pmullw	%xmm13, %xmm8
	paddw	%xmm1, %xmm8
	paddw	%xmm1, %xmm6
	pmulhuw	%xmm2, %xmm6
	pmulhuw	%xmm2, %xmm8
	psllw	$8, %xmm8
	por	%xmm10, %xmm8
	psllw	$8, %xmm6
	por	%xmm9, %xmm6
	paddusb	%xmm12, %xmm8
	paddusb	%xmm11, %xmm6
	movdqu	%xmm6, -32(%r12,%r9,4)
	movdqu	%xmm8, -16(%r12,%r9,4)
	movdqu	(%rcx,%r9,4), %xmm10
	movdqu	16(%rcx,%r9,4), %xmm11
	movq	(%rax,%r9), %xmm6
	punpcklbw	%xmm6, %xmm6
	movdqa	%xmm6, %xmm8
	punpckhwd	%xmm6, %xmm8
	punpcklwd	%xmm6, %xmm6
	movdqa	%xmm10, %xmm12
	pand	%xmm0, %xmm12
	movdqa	%xmm11, %xmm13
	pand	%xmm0, %xmm13
	movdqa	%xmm6, %xmm9
	pand	%xmm0, %xmm9
	pmullw	%xmm12, %xmm9
	pand	%xmm8, %xmm0
	pmullw	%xmm13, %xmm0
	paddw	%xmm1, %xmm9
	paddw	%xmm1, %xmm0
	pmulhuw	%xmm2, %xmm0
	pmulhuw	%xmm2, %xmm9
	psrlw	$8, %xmm11
	psrlw	$8, %xmm10
	psrlw	$8, %xmm8
	pmullw	%xmm11, %xmm8
	psrlw	$8, %xmm6
	pmullw	%xmm10, %xmm6
	paddw	%xmm1, %xmm8
	paddw	%xmm1, %xmm6
	pmulhuw	%xmm2, %xmm6
	pmulhuw	%xmm2, %xmm8
	psllw	$8, %xmm8
	psllw	$8, %xmm6
	movdqa	%xmm4, %xmm10
	pxor	%xmm5, %xmm10
	pxor	%xmm3, %xmm5
	pshufb	%xmm7, %xmm5
	pshufb	%xmm7, %xmm10
	por	%xmm9, %xmm6
	por	%xmm0, %xmm8
	pmullw	%xmm10, %xmm0
	pmullw	%xmm5, %xmm9
	paddw	%xmm1, %xmm9
	paddw	%xmm1, %xmm0
	pmulhuw	%xmm2, %xmm0
	pmulhuw	%xmm2, %xmm9
	psrlw	$8, %xmm8
	psrlw	$8, %xmm6
	pmullw	%xmm5, %xmm6
	pmullw	%xmm10, %xmm8
	paddw	%xmm1, %xmm8
	paddw	%xmm1, %xmm6
	pmulhuw	%xmm2, %xmm6
	pmulhuw	%xmm2, %xmm8
	psllw	$8, %xmm8
	por	%xmm0, %xmm8
	psllw	$8, %xmm6
	por	%xmm9, %xmm6
	paddusb	%xmm4, %xmm8
	paddusb	%xmm3, %xmm6
	movdqu	%xmm6, (%r12,%r9,4)
	movdqu	%xmm8, 16(%r12,%r9,4)
	addq	$16, %r9
	decq	%r15
	jne	.LBB9_328
.LBB9_329:
	movq	176(%rsp), %rdx
	cmpq	112(%rsp), %rdx
	je	.LBB9_337
	movq	%r8, %rdx
	imulq	64(%rsp), %rdx
	addq	304(%rsp), %rdx
	movq	%r8, %rsi
	subq	296(%rsp), %rsi
	movq	280(%rsp), %r9
	leaq	(%r9,%rsi), %rdi
	imulq	72(%rsp), %rdi
	addq	312(%rsp), %rdi
	addq	168(%rsp), %rsi
	imulq	144(%rsp), %rsi
	addq	288(%rsp), %rsi
	movq	56(%rsp), %r9
	leaq	(%r9,%rdx,4), %r9
	movq	80(%rsp), %rdx
	leaq	(%rdx,%rdi,4), %rdi
	movq	328(%rsp), %rdx
	addq	%rdx, %r9
	addq	%rdx, %rdi
	addq	176(%rsp), %rsi
	cmpq	$0, 248(%rsp)
	jne	.LBB9_331
	testb	$4, 112(%rsp)
	jne	.LBB9_333
.LBB9_334:
	cmpl	%r13d, 320(%rsp)
	je	.LBB9_337
	jmp	.LBB9_335
.LBB9_331:
	movdqu	(%rdi), %xmm6
	movdqu	16(%rdi), %xmm7
	movq	(%rsi), %xmm0
	punpcklbw	%xmm0, %xmm0
	movdqa	%xmm0, %xmm1
	punpckhwd	%xmm0, %xmm1
	punpcklwd	%xmm0, %xmm0
	movdqa	.LCPI9_0(%rip), %xmm2
	movdqa	%xmm6, %xmm4
	pand	%xmm2, %xmm4
	movdqa	%xmm7, %xmm5
	pand	%xmm2, %xmm5
	movdqa	%xmm0, %xmm3
	pand	%xmm2, %xmm3
	pmullw	%xmm4, %xmm3
	pand	%xmm1, %xmm2
	pmullw	%xmm5, %xmm2
	movdqa	.LCPI9_1(%rip), %xmm4
	paddw	%xmm4, %xmm3
	paddw	%xmm4, %xmm2
	movdqa	.LCPI9_2(%rip), %xmm5
	pmulhuw	%xmm5, %xmm2
	pmulhuw	%xmm5, %xmm3
	psrlw	$8, %xmm7
	psrlw	$8, %xmm6
	psrlw	$8, %xmm1
	pmullw	%xmm7, %xmm1
	psrlw	$8, %xmm0
	pmullw	%xmm6, %xmm0
	paddw	%xmm4, %xmm1
	paddw	%xmm4, %xmm0
	pmulhuw	%xmm5, %xmm0
	pmulhuw	%xmm5, %xmm1
	psllw	$8, %xmm1
	psllw	$8, %xmm0
	movdqu	(%r9), %xmm6
	movdqu	16(%r9), %xmm7
	pcmpeqd	%xmm8, %xmm8
	movdqa	%xmm7, %xmm9
	pxor	%xmm8, %xmm9
	pxor	%xmm6, %xmm8
	movdqa	.LCPI9_5(%rip), %xmm10
	pshufb	%xmm10, %xmm8
	pshufb	%xmm10, %xmm9
	por	%xmm3, %xmm0
	por	%xmm2, %xmm1
	pmullw	%xmm9, %xmm2
	pmullw	%xmm8, %xmm3
	paddw	%xmm4, %xmm3
	paddw	%xmm4, %xmm2
	pmulhuw	%xmm5, %xmm2
	pmulhuw	%xmm5, %xmm3
	psrlw	$8, %xmm1
	psrlw	$8, %xmm0
	pmullw	%xmm8, %xmm0
	pmullw	%xmm9, %xmm1
	paddw	%xmm4, %xmm1
	paddw	%xmm4, %xmm0
	pmulhuw	%xmm5, %xmm0
	pmulhuw	%xmm5, %xmm1
	psllw	$8, %xmm1
	por	%xmm2, %xmm1
	psllw	$8, %xmm0
	por	%xmm3, %xmm0
	paddusb	%xmm7, %xmm1
	paddusb	%xmm6, %xmm0
	movdqu	%xmm0, (%r9)
	movdqu	%xmm1, 16(%r9)
	testb	$4, 112(%rsp)
	je	.LBB9_334
.LBB9_333:
	movq	248(%rsp), %rdx
	leal	(,%rdx,4), %r15d
	movdqu	(%rdi,%r15), %xmm5
	movd	(%rsi,%rdx), %xmm0
	punpcklbw	%xmm0, %xmm0
	punpcklwd	%xmm0, %xmm0
	movdqa	.LCPI9_0(%rip), %xmm3
	movdqa	%xmm5, %xmm1
	pand	%xmm3, %xmm1
	movdqa	%xmm0, %xmm4
	pand	%xmm3, %xmm4
	pmullw	%xmm1, %xmm4
	movdqa	.LCPI9_1(%rip), %xmm1
	paddw	%xmm1, %xmm4
	movdqa	.LCPI9_2(%rip), %xmm2
	pmulhuw	%xmm2, %xmm4
	psrlw	$8, %xmm5
	psrlw	$8, %xmm0
	pmullw	%xmm5, %xmm0
	paddw	%xmm1, %xmm0
	pmulhuw	%xmm2, %xmm0
	psllw	$8, %xmm0
	movdqu	(%r9,%r15), %xmm5
	pcmpeqd	%xmm6, %xmm6
	por	%xmm4, %xmm0
	movdqa	%xmm5, %xmm7
	pshufb	.LCPI9_6(%rip), %xmm7
	pxor	%xmm7, %xmm6
	pandn	%xmm3, %xmm7
	pmullw	%xmm4, %xmm7
	paddw	%xmm1, %xmm7
	pmulhuw	%xmm2, %xmm7
	psrlw	$8, %xmm0
	psrlw	$8, %xmm6
	pmullw	%xmm0, %xmm6
	paddw	%xmm1, %xmm6
	pmulhuw	%xmm2, %xmm6
	psllw	$8, %xmm6
	por	%xmm7, %xmm6
	paddusb	%xmm5, %xmm6
	movdqu	%xmm6, (%r9,%r15)
	cmpl	%r13d, 320(%rsp)
	je	.LBB9_337
.LBB9_335:
	xorl	%r9d, %r9d
	movq	320(%rsp), %rsi
	.p2align	4
.LBB9_336:
	movl	(%r11,%r9,4), %ebx
	movzbl	%bh, %edi
	movl	%ebx, %edx
	movzbl	%bl, %r15d
	shrl	$16, %ebx
	shrl	$24, %edx
	movzbl	%bl, %ebx
	movd	%ebx, %xmm0
	pinsrw	$1, %edx, %xmm0
	pinsrw	$2, %edi, %xmm0
	pinsrw	$3, %r15d, %xmm0
	movzbl	(%r10,%r9), %edx
	movd	%edx, %xmm1
	pshuflw	$0, %xmm1, %xmm2
	pmullw	%xmm0, %xmm2
	movl	(%rbp,%r9,4), %edi
	movl	%edi, %r15d
	shrl	$24, %r15d
	movdqa	.LCPI9_3(%rip), %xmm0
	paddw	%xmm0, %xmm2
	movdqa	%xmm2, %xmm1
	psrlw	$8, %xmm1
	paddw	%xmm2, %xmm1
	psrlw	$8, %xmm1
	movd	%edi, %xmm2
	psrld	$16, %xmm2
	pinsrb	$1, %r15d, %xmm2
	movl	%r15d, %edx
	notb	%dl
	movzbl	%dl, %edx
	movd	%edx, %xmm3
	pshuflw	$0, %xmm3, %xmm3
	pmullw	%xmm1, %xmm3
	movl	%edi, %edx
	shrl	$8, %edx
	paddw	%xmm0, %xmm3
	movdqa	%xmm3, %xmm0
	psrlw	$8, %xmm0
	paddw	%xmm3, %xmm0
	psrlw	$8, %xmm0
	packuswb	%xmm0, %xmm0
	pinsrb	$2, %edx, %xmm2
	pinsrb	$3, %edi, %xmm2
	paddusb	%xmm0, %xmm2
	pmovzxbd	%xmm2, %xmm0
	pmulld	.LCPI9_4(%rip), %xmm0
	pshufd	$238, %xmm0, %xmm1
	por	%xmm0, %xmm1
	pshufd	$85, %xmm1, %xmm0
	por	%xmm1, %xmm0
	movd	%xmm0, (%rbp,%r9,4)
	incq	%rsi
	incq	%r9
	cmpq	%r13, %rsi
	jb	.LBB9_336
	jmp	.LBB9_337
.LBB9_570:
	testq	%r15, %r15
	je	.LBB9_1189
	subq	%rsi, %rcx
	movabsq	$4294967296, %rdx
	addq	%rdx, %rcx
	cmpq	%rdx, %rcx
	movq	%rdx, %rdi
	cmovaq	%rcx, %rdi
	movabsq	$-4294967296, %rsi
	addq	%rax, %rcx
	orq	%rdx, %r15
	cmpq	%rcx, %r15
	cmovaeq	%rcx, %r15
	leaq	(%rdi,%rsi), %r8
	xorl	%ecx, %ecx
	cmpq	%rdi, %r15
	cmovbeq	%rcx, %r8
	movq	%r8, 256(%rsp)
	subq	%rbp, %r11
	addq	%rdx, %r11
	cmpq	%rdx, %r11
	movq	%rdx, %r8
	cmovaq	%r11, %r8
	addq	112(%rsp), %r11
	movq	64(%rsp), %r9
	orq	%rdx, %r9
	cmpq	%r11, %r9
	cmovaeq	%r11, %r9
	leaq	(%r8,%rsi), %r12
	cmpq	%r8, %r9
	cmovbeq	%rcx, %r12
	jbe	.LBB9_1189
	movq	%r9, %rax
	addq	%rsi, %rax
	movq	%rax, 64(%rsp)
	cmpq	%r12, %rax
	jbe	.LBB9_1189
	movq	80(%rsp), %rax
	movl	(%rax), %ecx
	movzbl	%ch, %ebx
	movl	%ecx, %r10d
	shrl	$16, %r10d
	movl	%ecx, %r8d
	shrl	$24, %r8d
	addq	%r15, %rsi
	xorl	%r9d, %r9d
	cmpq	%rdi, %r15
	cmovaq	%rsi, %r9
	movq	256(%rsp), %rdx
	subq	%rdx, %r9
	movq	%r9, %rax
	shrq	$4, %rax
	movq	%rax, 112(%rsp)
	movl	%ecx, %eax
	shrl	$8, %eax
	movd	%ecx, %xmm0
	pinsrb	$1, %eax, %xmm0
	pinsrb	$2, %r10d, %xmm0
	pinsrb	$3, %r8d, %xmm0
	pinsrb	$4, %ecx, %xmm0
	pinsrb	$5, %eax, %xmm0
	pinsrb	$6, %r10d, %xmm0
	pinsrb	$7, %r8d, %xmm0
	pinsrb	$8, %ecx, %xmm0
	pinsrb	$9, %eax, %xmm0
	pinsrb	$10, %r10d, %xmm0
	pinsrb	$11, %r8d, %xmm0
	pinsrb	$12, %ecx, %xmm0
	pinsrb	$13, %eax, %xmm0
	pinsrb	$14, %r10d, %xmm0
	movdqa	.LCPI9_0(%rip), %xmm1
	pand	%xmm0, %xmm1
	pinsrb	$15, %r8d, %xmm0
	psrlw	$8, %xmm0
	movq	%r9, %r11
	andq	$-16, %r11
	leaq	(,%r11,4), %rax
	movq	%rax, 104(%rsp)
	movl	%r9d, %r15d
	andl	$15, %r15d
	leal	(,%r9,4), %eax
	movl	%eax, %esi
	andl	$32, %esi
	movq	%rsi, 168(%rsp)
	movq	%r9, 80(%rsp)
	andl	$12, %r9d
	movq	%r9, 176(%rsp)
	movzbl	%cl, %ebp
	movzbl	%r10b, %r9d
	movq	%r12, %rcx
	movq	128(%rsp), %r10
	imulq	%r10, %rcx
	addq	%rdx, %rcx
	movq	56(%rsp), %rdx
	leaq	(%rdx,%rcx,4), %rdi
	andl	$48, %eax
	movq	%r11, 72(%rsp)
	leaq	(%rax,%r11,4), %rax
	leaq	(%rax,%rcx,4), %r13
	leaq	(,%r10,4), %rax
	movq	%rax, 144(%rsp)
	addq	%rdx, %r13
	jmp	.LBB9_574
.LBB9_585:
	incq	%r12
	movq	144(%rsp), %rax
	addq	%rax, %rdi
	addq	%rax, %r13
	cmpq	64(%rsp), %r12
	je	.LBB9_1189
.LBB9_574:
	cmpq	$0, 112(%rsp)
	je	.LBB9_577
	movq	%rdi, %rsi
	movq	112(%rsp), %r10
	.p2align	4
.LBB9_576:
	movdqa	.LCPI9_5(%rip), %xmm6
	movdqu	(%rsi), %xmm8
	movdqu	16(%rsi), %xmm7
	movdqu	32(%rsi), %xmm3
	movdqu	48(%rsi), %xmm2
	pshufb	%xmm6, %xmm7
	pshufb	%xmm6, %xmm8
	movdqa	%xmm1, %xmm9
	pmullw	%xmm8, %xmm9
	movdqa	%xmm1, %xmm10
	pmullw	%xmm7, %xmm10
	movdqa	.LCPI9_1(%rip), %xmm4
	paddw	%xmm4, %xmm10
	paddw	%xmm4, %xmm9
	movdqa	.LCPI9_2(%rip), %xmm5
	pmulhuw	%xmm5, %xmm9
	pmulhuw	%xmm5, %xmm10
	pmullw	%xmm0, %xmm7
	pmullw	%xmm0, %xmm8
	paddw	%xmm4, %xmm8
	paddw	%xmm4, %xmm7
	pmulhuw	%xmm5, %xmm7
	pmulhuw	%xmm5, %xmm8
	psllw	$8, %xmm8
	por	%xmm9, %xmm8
	psllw	$8, %xmm7
	por	%xmm10, %xmm7
	movdqu	%xmm8, (%rsi)
	movdqu	%xmm7, 16(%rsi)
	pshufb	%xmm6, %xmm2
	pshufb	%xmm6, %xmm3
	movdqa	%xmm1, %xmm6
	pmullw	%xmm3, %xmm6
	movdqa	%xmm1, %xmm7
	pmullw	%xmm2, %xmm7
	paddw	%xmm4, %xmm7
	paddw	%xmm4, %xmm6
	pmulhuw	%xmm5, %xmm6
	pmulhuw	%xmm5, %xmm7
	pmullw	%xmm0, %xmm2
	pmullw	%xmm0, %xmm3
	paddw	%xmm4, %xmm3
	paddw	%xmm4, %xmm2
	pmulhuw	%xmm5, %xmm2
	pmulhuw	%xmm5, %xmm3
	psllw	$8, %xmm3
	por	%xmm6, %xmm3
	psllw	$8, %xmm2
	por	%xmm7, %xmm2
	movdqu	%xmm3, 32(%rsi)
	movdqu	%xmm2, 48(%rsi)
	addq	$64, %rsi
	decq	%r10
	jne	.LBB9_576
.LBB9_577:
	movq	72(%rsp), %rax
	cmpq	80(%rsp), %rax
	je	.LBB9_585
	movq	%r12, %rax
	imulq	128(%rsp), %rax
	addq	256(%rsp), %rax
	movq	56(%rsp), %rcx
	leaq	(%rcx,%rax,4), %r10
	addq	104(%rsp), %r10
	testb	$8, 80(%rsp)
	jne	.LBB9_579
	testb	$4, 80(%rsp)
	jne	.LBB9_581
.LBB9_582:
	cmpl	%r15d, 176(%rsp)
	jae	.LBB9_585
	jmp	.LBB9_583
.LBB9_579:
	movdqu	(%r10), %xmm3
	movdqu	16(%r10), %xmm2
	movdqa	.LCPI9_5(%rip), %xmm4
	pshufb	%xmm4, %xmm2
	pshufb	%xmm4, %xmm3
	movdqa	%xmm1, %xmm4
	pmullw	%xmm3, %xmm4
	movdqa	%xmm1, %xmm5
	pmullw	%xmm2, %xmm5
	movdqa	.LCPI9_1(%rip), %xmm6
	paddw	%xmm6, %xmm5
	paddw	%xmm6, %xmm4
	movdqa	.LCPI9_2(%rip), %xmm7
	pmulhuw	%xmm7, %xmm4
	pmulhuw	%xmm7, %xmm5
	pmullw	%xmm0, %xmm2
	pmullw	%xmm0, %xmm3
	paddw	%xmm6, %xmm3
	paddw	%xmm6, %xmm2
	pmulhuw	%xmm7, %xmm2
	pmulhuw	%xmm7, %xmm3
	psllw	$8, %xmm3
	por	%xmm4, %xmm3
	psllw	$8, %xmm2
	por	%xmm5, %xmm2
	movdqu	%xmm3, (%r10)
	movdqu	%xmm2, 16(%r10)
	testb	$4, 80(%rsp)
	je	.LBB9_582
.LBB9_581:
	movq	168(%rsp), %rax
	movdqu	(%r10,%rax), %xmm2
	pshufb	.LCPI9_6(%rip), %xmm2
	movdqa	.LCPI9_0(%rip), %xmm3
	pand	%xmm2, %xmm3
	pmullw	%xmm1, %xmm3
	movdqa	.LCPI9_1(%rip), %xmm4
	paddw	%xmm4, %xmm3
	movdqa	.LCPI9_2(%rip), %xmm5
	pmulhuw	%xmm5, %xmm3
	psrlw	$8, %xmm2
	pmullw	%xmm0, %xmm2
	paddw	%xmm4, %xmm2
	pmulhuw	%xmm5, %xmm2
	psllw	$8, %xmm2
	por	%xmm3, %xmm2
	movdqu	%xmm2, (%r10,%rax)
	cmpl	%r15d, 176(%rsp)
	jae	.LBB9_585
.LBB9_583:
	movq	%r13, %r10
	movq	176(%rsp), %rsi
	.p2align	4
.LBB9_584:
	movzbl	3(%r10), %r14d
	movzwl	%bp, %eax
	imull	%r14d, %eax
	leal	128(%rax), %edx
	movzbl	%dh, %edx
	addl	%edx, %eax
	addl	$128, %eax
	movzbl	%ah, %eax
	movzwl	%bx, %edx
	imull	%r14d, %edx
	leal	128(%rdx), %ecx
	movzbl	%ch, %ecx
	leal	(%rcx,%rdx), %r11d
	addl	$128, %r11d
	andl	$65280, %r11d
	movzwl	%r9w, %ecx
	imull	%r14d, %ecx
	leal	128(%rcx), %edx
	movzbl	%dh, %edx
	addl	%edx, %ecx
	addl	$128, %ecx
	movzwl	%r8w, %edx
	imull	%r14d, %edx
	movl	%ebx, %r14d
	leal	128(%rdx), %ebx
	movzbl	%bh, %ebx
	addl	%ebx, %edx
	addl	$128, %edx
	movl	%r14d, %ebx
	shll	$16, %edx
	andl	$-16777216, %edx
	shll	$8, %ecx
	andl	$16711680, %ecx
	orl	%edx, %ecx
	orl	%r11d, %ecx
	orl	%eax, %ecx
	movl	%ecx, (%r10)
	incq	%rsi
	addq	$4, %r10
	cmpq	%r15, %rsi
	jb	.LBB9_584
	jmp	.LBB9_585
.LBB9_87:
	movq	%rcx, 168(%rsp)
	testq	%r15, %r15
	je	.LBB9_1189
	movq	%rsi, %r10
	shrq	$32, %r10
	subq	%rdi, %rbx
	movabsq	$4294967296, %rdi
	movl	%r13d, %ecx
	leaq	(%rbx,%rdi), %r13
	leaq	(%rdi,%rbp), %r9
	cmpq	%r13, %r9
	movq	%r14, 144(%rsp)
	movq	%r13, %r14
	cmovbq	%r9, %r14
	xorl	%r9d, %r9d
	movq	%r12, 56(%rsp)
	movq	%rdi, %r12
	subq	%r14, %r12
	cmovbq	%r9, %r12
	orq	%rdi, %r15
	subq	%r13, %r15
	cmovbq	%r9, %r15
	movl	%esi, %esi
	orq	%rdi, %rsi
	leaq	(%rdi,%rbp), %r14
	subq	%r14, %rsi
	cmovbq	%r9, %rsi
	cmpl	%edx, %r8d
	cmovbl	%r8d, %edx
	cmpq	%rdx, %r15
	cmovaeq	%rdx, %r15
	cmpq	%r15, %rsi
	cmovbq	%rsi, %r15
	leaq	(%r12,%rbx), %rdx
	addq	%r15, %rbx
	addq	%r12, %rbp
	cmpq	%r12, %r15
	cmovbeq	%r9, %rdx
	cmovbeq	%r9, %rbx
	cmovbeq	%r9, %rbp
	subq	112(%rsp), %rax
	leaq	(%rax,%rdi), %rsi
	movq	72(%rsp), %r12
	leaq	(%r12,%rdi), %r14
	cmpq	%rsi, %r14
	movq	%rsi, %r15
	cmovbq	%r14, %r15
	movq	%rdi, %r8
	subq	%r15, %r8
	cmovbq	%r9, %r8
	movq	80(%rsp), %r15
	orq	%rdi, %r15
	subq	%rsi, %r15
	cmovbq	%r9, %r15
	orq	%rdi, %r10
	subq	%r14, %r10
	cmovbq	%r9, %r10
	cmpl	%r11d, %ecx
	cmovbl	%ecx, %r11d
	cmpq	%r11, %r15
	cmovaeq	%r11, %r15
	cmpq	%r15, %r10
	cmovbq	%r10, %r15
	leaq	(%r8,%rax), %r10
	addq	%r15, %rax
	addq	%r8, %r12
	cmpq	%r8, %r15
	cmovbeq	%r9, %r10
	cmovbeq	%r9, %rax
	cmovbeq	%r9, %r12
	movq	168(%rsp), %rcx
	movl	(%rcx), %r8d
	movq	%rdx, 200(%rsp)
	movq	%rbx, 208(%rsp)
	movq	%rbp, 216(%rsp)
	movq	%r10, 224(%rsp)
	movq	%rax, 232(%rsp)
	movq	%r12, 240(%rsp)
	movl	%r8d, 40(%rsp)
	leaq	200(%rsp), %rax
	movq	%rax, 32(%rsp)
	movq	56(%rsp), %rcx
	movq	64(%rsp), %rdx
	movq	128(%rsp), %r8
	movq	144(%rsp), %r9
	callq	"pix_raster::view::blit_overlap::<#a1852713be2e9a48>"
	jmp	.LBB9_1189
.LBB9_468:
	testq	%r15, %r15
	je	.LBB9_1189
	subq	%rsi, %rcx
	movabsq	$4294967296, %r11
	addq	%r11, %rcx
	cmpq	%r11, %rcx
	movq	%r11, %r8
	cmovaq	%rcx, %r8
	movabsq	$-4294967296, %rdx
	addq	%r9, %rcx
	orq	%r11, %r15
	cmpq	%rcx, %r15
	cmovaeq	%rcx, %r15
	leaq	(%r8,%rdx), %r10
	xorl	%ecx, %ecx
	cmpq	%r8, %r15
	cmovbeq	%rcx, %r10
	subq	128(%rsp), %rbx
	addq	%r11, %rbx
	cmpq	%r11, %rbx
	movq	%r11, %r9
	cmovaq	%rbx, %r9
	addq	112(%rsp), %rbx
	orq	%r11, %rbp
	cmpq	%rbx, %rbp
	cmovaeq	%rbx, %rbp
	leaq	(%r9,%rdx), %rax
	cmpq	%r9, %rbp
	cmovbeq	%rcx, %rax
	jbe	.LBB9_1189
	addq	%rdx, %rbp
	cmpq	%rax, %rbp
	jbe	.LBB9_1189
	addq	%r15, %rdx
	xorl	%ecx, %ecx
	cmpq	%r8, %r15
	cmovaq	%rdx, %rcx
	subq	%r10, %rcx
	je	.LBB9_1189
	movq	64(%rsp), %rdx
	movl	(%rdx), %edx
	movq	%rcx, %r8
	andq	$-8, %r8
	movd	%edx, %xmm0
	pshufd	$0, %xmm0, %xmm0
	movq	%rax, %r11
	movq	80(%rsp), %rsi
	imulq	%rsi, %r11
	leaq	(,%r10,4), %r9
	leaq	(%r9,%r11,4), %r9
	addq	%r12, %r9
	addq	$16, %r9
	shlq	$2, %rsi
	addq	%r10, %r11
	leaq	(%r12,%r11,4), %r10
	jmp	.LBB9_473
.LBB9_477:
	incq	%rax
	addq	%rsi, %r9
	addq	%rsi, %r10
	cmpq	%rbp, %rax
	je	.LBB9_1189
.LBB9_473:
	xorl	%r11d, %r11d
	cmpq	$8, %rcx
	jb	.LBB9_476
	.p2align	4
.LBB9_474:
	movdqu	%xmm0, -16(%r9,%r11,4)
	movdqu	%xmm0, (%r9,%r11,4)
	addq	$8, %r11
	cmpq	%r11, %r8
	jne	.LBB9_474
	movq	%r8, %r11
	cmpq	%r8, %rcx
	je	.LBB9_477
	.p2align	4
.LBB9_476:
	movl	%edx, (%r10,%r11,4)
	incq	%r11
	cmpq	%r11, %rcx
	jne	.LBB9_476
	jmp	.LBB9_477
.LBB9_933:
	movq	%r12, 56(%rsp)
	testq	%r15, %r15
	je	.LBB9_1189
	subq	%rsi, %rcx
	movabsq	$4294967296, %r8
	addq	%r8, %rcx
	cmpq	%r8, %rcx
	movq	%r8, %r10
	cmovaq	%rcx, %r10
	movabsq	$-4294967296, %r9
	addq	%rbx, %rcx
	orq	%r8, %r15
	cmpq	%rcx, %r15
	cmovaeq	%rcx, %r15
	leaq	(%r10,%r9), %r11
	xorl	%ecx, %ecx
	cmpq	%r10, %r15
	cmovbeq	%rcx, %r11
	movq	%r11, 72(%rsp)
	subq	112(%rsp), %rax
	addq	%r8, %rax
	cmpq	%r8, %rax
	movq	%r8, %r11
	cmovaq	%rax, %r11
	addq	%rdx, %rax
	movq	64(%rsp), %rdx
	orq	%r8, %rdx
	cmpq	%rax, %rdx
	cmovaeq	%rax, %rdx
	leaq	(%r11,%r9), %rbp
	cmpq	%r11, %rdx
	cmovbeq	%rcx, %rbp
	jbe	.LBB9_1189
	movq	%rdx, %rax
	addq	%r9, %rax
	movq	%rax, 64(%rsp)
	cmpq	%rbp, %rax
	jbe	.LBB9_1189
	movq	128(%rsp), %rax
	movl	(%rax), %ebx
	movzbl	%bh, %esi
	movl	%ebx, %edi
	shrl	$16, %edi
	movl	%ebx, %r8d
	shrl	$24, %r8d
	addq	%r15, %r9
	xorl	%r14d, %r14d
	cmpq	%r10, %r15
	cmovaq	%r9, %r14
	movq	72(%rsp), %rax
	subq	%rax, %r14
	movl	%ebx, %ecx
	shrl	$8, %ecx
	movd	%ebx, %xmm0
	pinsrb	$1, %ecx, %xmm0
	pinsrb	$2, %edi, %xmm0
	pinsrb	$3, %r8d, %xmm0
	pinsrb	$4, %ebx, %xmm0
	pinsrb	$5, %ecx, %xmm0
	pinsrb	$6, %edi, %xmm0
	pinsrb	$7, %r8d, %xmm0
	pinsrb	$8, %ebx, %xmm0
	pinsrb	$9, %ecx, %xmm0
	pinsrb	$10, %edi, %xmm0
	pinsrb	$11, %r8d, %xmm0
	pinsrb	$12, %ebx, %xmm0
	pinsrb	$13, %ecx, %xmm0
	pinsrb	$14, %edi, %xmm0
	movq	%r14, %r10
	movdqa	%xmm0, %xmm1
	pinsrb	$15, %r8d, %xmm1
	shrq	$4, %r10
	pcmpeqd	%xmm2, %xmm2
	pxor	%xmm1, %xmm2
	psrld	$24, %xmm2
	movdqa	%xmm2, %xmm3
	pshufb	.LCPI9_8(%rip), %xmm3
	movdqa	.LCPI9_0(%rip), %xmm4
	pand	%xmm4, %xmm0
	psrlw	$8, %xmm1
	movq	%r14, %r9
	andq	$-16, %r9
	movl	%r14d, %r11d
	andl	$15, %r11d
	leal	(,%r14,4), %r13d
	movzbl	%dil, %ecx
	movd	%ecx, %xmm12
	movl	%r13d, %ecx
	andl	$32, %ecx
	movq	%rcx, 176(%rsp)
	pshufb	.LCPI9_9(%rip), %xmm2
	movdqa	%xmm2, %xmm5
	pand	%xmm4, %xmm5
	movdqa	%xmm5, 256(%rsp)
	psrlw	$8, %xmm2
	movdqa	%xmm2, 144(%rsp)
	movzwl	%r8w, %ecx
	pinsrw	$1, %ecx, %xmm12
	pinsrw	$2, %esi, %xmm12
	movl	%r14d, %r15d
	andl	$12, %r15d
	movzbl	%bl, %edx
	pinsrw	$3, %edx, %xmm12
	xorl	$255, %ecx
	movd	%ecx, %xmm2
	pshuflw	$0, %xmm2, %xmm13
	movq	%rbp, %rcx
	movq	80(%rsp), %r8
	imulq	%r8, %rcx
	addq	%rax, %rcx
	movq	56(%rsp), %rax
	leaq	(%rax,%rcx,4), %r12
	andl	$48, %r13d
	leaq	(,%r9,4), %rdx
	addq	%r13, %rdx
	leaq	(%rdx,%rcx,4), %r13
	leaq	(,%r8,4), %rdi
	addq	%rax, %r13
	movdqa	%xmm12, 128(%rsp)
	movdqa	%xmm13, 112(%rsp)
	jmp	.LBB9_937
.LBB9_948:
	incq	%rbp
	addq	%rdi, %r12
	addq	%rdi, %r13
	cmpq	64(%rsp), %rbp
	je	.LBB9_1189
.LBB9_937:
	testq	%r10, %r10
	je	.LBB9_940
	movq	%r12, %rsi
	movq	%r10, %r8
	.p2align	4
.LBB9_939:
	pcmpeqd	%xmm8, %xmm8
	movdqu	(%rsi), %xmm6
	movdqu	16(%rsi), %xmm7
	movdqu	32(%rsi), %xmm9
	movdqu	48(%rsi), %xmm10
	movdqa	%xmm7, %xmm15
	pxor	%xmm8, %xmm15
	movdqa	%xmm6, %xmm14
	pxor	%xmm8, %xmm14
	movdqa	.LCPI9_5(%rip), %xmm13
	pshufb	%xmm13, %xmm14
	pshufb	%xmm13, %xmm15
	movdqa	%xmm0, %xmm2
	pmullw	%xmm15, %xmm2
	movdqa	%xmm0, %xmm5
	pmullw	%xmm14, %xmm5
	movdqa	.LCPI9_1(%rip), %xmm11
	paddw	%xmm11, %xmm5
	paddw	%xmm11, %xmm2
	movdqa	.LCPI9_2(%rip), %xmm12
	pmulhuw	%xmm12, %xmm2
	pmulhuw	%xmm12, %xmm5
	pmullw	%xmm1, %xmm14
	pmullw	%xmm1, %xmm15
	paddw	%xmm11, %xmm15
	paddw	%xmm11, %xmm14
	pmulhuw	%xmm12, %xmm14
	pmulhuw	%xmm12, %xmm15
	psllw	$8, %xmm15
	por	%xmm2, %xmm15
	psllw	$8, %xmm14
	por	%xmm5, %xmm14
	movdqa	%xmm6, %xmm5
	pand	%xmm4, %xmm5
	movdqa	%xmm7, %xmm2
	pand	%xmm4, %xmm2
	pmullw	%xmm3, %xmm2
	pmullw	%xmm3, %xmm5
	paddw	%xmm11, %xmm5
	paddw	%xmm11, %xmm2
	pmulhuw	%xmm12, %xmm2
	pmulhuw	%xmm12, %xmm5
	psrlw	$8, %xmm7
	psrlw	$8, %xmm6
	pmullw	%xmm3, %xmm6
	pmullw	%xmm3, %xmm7
	paddw	%xmm11, %xmm7
	paddw	%xmm11, %xmm6
	pmulhuw	%xmm12, %xmm6
	pmulhuw	%xmm12, %xmm7
	psllw	$8, %xmm7
	por	%xmm2, %xmm7
	paddusb	%xmm15, %xmm7
	psllw	$8, %xmm6
	por	%xmm5, %xmm6
	paddusb	%xmm14, %xmm6
	movdqu	%xmm6, (%rsi)
	movdqu	%xmm7, 16(%rsi)
	movdqa	%xmm10, %xmm2
	pxor	%xmm8, %xmm2
	pxor	%xmm9, %xmm8
	pshufb	%xmm13, %xmm8
	pshufb	%xmm13, %xmm2
	movdqa	%xmm0, %xmm5
	pmullw	%xmm2, %xmm5
	movdqa	%xmm0, %xmm6
	pmullw	%xmm8, %xmm6
	paddw	%xmm11, %xmm6
	paddw	%xmm11, %xmm5
	pmulhuw	%xmm12, %xmm5
	pmulhuw	%xmm12, %xmm6
	pmullw	%xmm1, %xmm8
	pmullw	%xmm1, %xmm2
	paddw	%xmm11, %xmm2
	paddw	%xmm11, %xmm8
	pmulhuw	%xmm12, %xmm8
	pmulhuw	%xmm12, %xmm2
	psllw	$8, %xmm2
	por	%xmm5, %xmm2
	psllw	$8, %xmm8
	por	%xmm6, %xmm8
	movdqa	%xmm9, %xmm5
	pand	%xmm4, %xmm5
	movdqa	%xmm10, %xmm6
	pand	%xmm4, %xmm6
	pmullw	%xmm3, %xmm6
	pmullw	%xmm3, %xmm5
	paddw	%xmm11, %xmm5
	paddw	%xmm11, %xmm6
	pmulhuw	%xmm12, %xmm6
	pmulhuw	%xmm12, %xmm5
	psrlw	$8, %xmm10
	psrlw	$8, %xmm9
	pmullw	%xmm3, %xmm9
	pmullw	%xmm3, %xmm10
	paddw	%xmm11, %xmm10
	paddw	%xmm11, %xmm9
	pmulhuw	%xmm12, %xmm9
	pmulhuw	%xmm12, %xmm10
	psllw	$8, %xmm10
	por	%xmm6, %xmm10
	paddusb	%xmm2, %xmm10
	psllw	$8, %xmm9
	por	%xmm5, %xmm9
	paddusb	%xmm8, %xmm9
	movdqu	%xmm9, 32(%rsi)
	movdqu	%xmm10, 48(%rsi)
	addq	$64, %rsi
	decq	%r8
	jne	.LBB9_939
.LBB9_940:
	cmpq	%r14, %r9
	movdqa	128(%rsp), %xmm12
	movdqa	112(%rsp), %xmm13
	je	.LBB9_948
	movq	%rbp, %rcx
	imulq	80(%rsp), %rcx
	addq	72(%rsp), %rcx
	movq	56(%rsp), %rax
	leaq	(%rax,%rcx,4), %r8
	leaq	(,%r9,4), %rax
	addq	%rax, %r8
	testb	$8, %r14b
	jne	.LBB9_942
	testb	$4, %r14b
	jne	.LBB9_944
.LBB9_945:
	cmpl	%r11d, %r15d
	jae	.LBB9_948
	jmp	.LBB9_946
.LBB9_942:
	movdqu	(%r8), %xmm8
	movdqu	16(%r8), %xmm9
	pcmpeqd	%xmm10, %xmm10
	movdqa	%xmm9, %xmm2
	pxor	%xmm10, %xmm2
	pxor	%xmm8, %xmm10
	movdqa	.LCPI9_5(%rip), %xmm5
	pshufb	%xmm5, %xmm10
	pshufb	%xmm5, %xmm2
	movdqa	%xmm0, %xmm5
	pmullw	%xmm2, %xmm5
	movdqa	%xmm0, %xmm7
	pmullw	%xmm10, %xmm7
	movdqa	.LCPI9_1(%rip), %xmm6
	paddw	%xmm6, %xmm7
	paddw	%xmm6, %xmm5
	movdqa	.LCPI9_2(%rip), %xmm11
	pmulhuw	%xmm11, %xmm5
	pmulhuw	%xmm11, %xmm7
	pmullw	%xmm1, %xmm10
	pmullw	%xmm1, %xmm2
	paddw	%xmm6, %xmm2
	paddw	%xmm6, %xmm10
	pmulhuw	%xmm11, %xmm10
	pmulhuw	%xmm11, %xmm2
	psllw	$8, %xmm2
	por	%xmm5, %xmm2
	psllw	$8, %xmm10
	por	%xmm7, %xmm10
	movdqa	%xmm8, %xmm5
	pand	%xmm4, %xmm5
	movdqa	%xmm9, %xmm7
	pand	%xmm4, %xmm7
	pmullw	%xmm3, %xmm7
	pmullw	%xmm3, %xmm5
	paddw	%xmm6, %xmm5
	paddw	%xmm6, %xmm7
	pmulhuw	%xmm11, %xmm7
	pmulhuw	%xmm11, %xmm5
	psrlw	$8, %xmm9
	psrlw	$8, %xmm8
	pmullw	%xmm3, %xmm8
	pmullw	%xmm3, %xmm9
	paddw	%xmm6, %xmm9
	paddw	%xmm6, %xmm8
	pmulhuw	%xmm11, %xmm8
	pmulhuw	%xmm11, %xmm9
	psllw	$8, %xmm9
	por	%xmm7, %xmm9
	paddusb	%xmm2, %xmm9
	psllw	$8, %xmm8
	por	%xmm5, %xmm8
	paddusb	%xmm10, %xmm8
	movdqu	%xmm8, (%r8)
	movdqu	%xmm9, 16(%r8)
	testb	$4, %r14b
	je	.LBB9_945
.LBB9_944:
	movq	176(%rsp), %rax
	movdqu	(%r8,%rax), %xmm2
	pcmpeqd	%xmm6, %xmm6
	movdqa	%xmm2, %xmm5
	pshufb	.LCPI9_6(%rip), %xmm5
	pxor	%xmm5, %xmm6
	pandn	%xmm4, %xmm5
	pmullw	%xmm0, %xmm5
	movdqa	.LCPI9_1(%rip), %xmm7
	paddw	%xmm7, %xmm5
	movdqa	.LCPI9_2(%rip), %xmm8
	pmulhuw	%xmm8, %xmm5
	psrlw	$8, %xmm6
	pmullw	%xmm1, %xmm6
	paddw	%xmm7, %xmm6
	pmulhuw	%xmm8, %xmm6
	psllw	$8, %xmm6
	por	%xmm5, %xmm6
	movdqa	%xmm2, %xmm5
	pand	%xmm4, %xmm5
	pmullw	256(%rsp), %xmm5
	paddw	%xmm7, %xmm5
	pmulhuw	%xmm8, %xmm5
	psrlw	$8, %xmm2
	pmullw	144(%rsp), %xmm2
	paddw	%xmm7, %xmm2
	pmulhuw	%xmm8, %xmm2
	psllw	$8, %xmm2
	por	%xmm5, %xmm2
	paddusb	%xmm6, %xmm2
	movdqu	%xmm2, (%r8,%rax)
	cmpl	%r11d, %r15d
	jae	.LBB9_948
.LBB9_946:
	movq	%r13, %r8
	movq	%r15, %rsi
	.p2align	4
.LBB9_947:
	movl	(%r8), %eax
	movzbl	%ah, %ebx
	movl	%eax, %ecx
	movl	%eax, %edx
	shrl	$16, %edx
	shrl	$24, %ecx
	movzbl	%dl, %edx
	movd	%edx, %xmm2
	pinsrw	$1, %ecx, %xmm2
	movzbl	%al, %eax
	xorl	$255, %ecx
	movd	%ecx, %xmm5
	pshuflw	$0, %xmm5, %xmm5
	pmullw	%xmm12, %xmm5
	movdqa	.LCPI9_3(%rip), %xmm6
	paddw	%xmm6, %xmm5
	movdqa	%xmm5, %xmm7
	psrlw	$8, %xmm7
	paddw	%xmm5, %xmm7
	psrlw	$8, %xmm7
	pinsrw	$2, %ebx, %xmm2
	pinsrw	$3, %eax, %xmm2
	packuswb	%xmm7, %xmm7
	pmullw	%xmm13, %xmm2
	paddw	%xmm6, %xmm2
	movdqa	%xmm2, %xmm5
	psrlw	$8, %xmm5
	paddw	%xmm2, %xmm5
	psrlw	$8, %xmm5
	packuswb	%xmm5, %xmm5
	paddusb	%xmm7, %xmm5
	pmovzxbd	%xmm5, %xmm2
	pmulld	.LCPI9_4(%rip), %xmm2
	pshufd	$238, %xmm2, %xmm5
	por	%xmm2, %xmm5
	pshufd	$85, %xmm5, %xmm2
	por	%xmm5, %xmm2
	movd	%xmm2, (%r8)
	incq	%rsi
	addq	$4, %r8
	cmpq	%r11, %rsi
	jb	.LBB9_947
	jmp	.LBB9_948
.LBB9_680:
	movq	%rax, 104(%rsp)
	movq	%r8, 168(%rsp)
	movq	%r13, 144(%rsp)
	movq	%r12, 56(%rsp)
	testq	%r15, %r15
	je	.LBB9_1189
	movl	%r14d, 176(%rsp)
	movq	424(%rsp), %r13
	movslq	440(%rsp), %r12
	movabsq	$4294967296, %rax
	movq	%rbp, %r10
	shrq	$32, %r10
	movq	%r13, %rdi
	shrq	$32, %rdi
	subq	%rsi, %rcx
	leaq	(%rcx,%rax), %r14
	leaq	(%rdx,%rax), %rsi
	cmpq	%r14, %rsi
	movq	%r14, %r8
	cmovbq	%rsi, %r8
	movq	%r12, 248(%rsp)
	leaq	(%r12,%rax), %rsi
	movq	%rsi, 256(%rsp)
	cmpq	%r8, %rsi
	cmovbq	%rsi, %r8
	xorl	%r12d, %r12d
	movq	%rax, %rsi
	subq	%r8, %rsi
	cmovbq	%r12, %rsi
	orq	%rax, %r15
	subq	%r14, %r15
	cmovbq	%r12, %r15
	movl	%ebp, %ebp
	orq	%rax, %rbp
	leaq	(%rdx,%rax), %r8
	subq	%r8, %rbp
	movl	%r13d, %r8d
	cmovbq	%r12, %rbp
	orq	%rax, %r8
	subq	256(%rsp), %r8
	movl	$0, %r14d
	movq	%r14, 280(%rsp)
	cmovbq	%r12, %r8
	cmpl	%r9d, %ebx
	cmovbl	%ebx, %r9d
	movl	448(%rsp), %ebx
	cmpl	%r9d, %ebx
	cmovbl	%ebx, %r9d
	cmpq	%r9, %r15
	cmovaeq	%r9, %r15
	movslq	444(%rsp), %r9
	movq	%r9, 304(%rsp)
	cmpq	%r15, %rbp
	cmovbq	%rbp, %r15
	movl	452(%rsp), %r9d
	cmpq	%r15, %r8
	cmovbq	%r8, %r15
	movl	$0, %r12d
	movl	$0, %r8d
	movq	%r8, 288(%rsp)
	movl	$0, %r13d
	cmpq	%rsi, %r15
	jbe	.LBB9_683
	leaq	(%rsi,%rcx), %r8
	movq	%r8, 280(%rsp)
	addq	%rcx, %r15
	addq	%rsi, %rdx
	movq	248(%rsp), %r13
	addq	%rsi, %r13
	movq	%r15, %r12
	movq	%rdx, 288(%rsp)
.LBB9_683:
	subq	112(%rsp), %r11
	leaq	(%r11,%rax), %rcx
	movq	168(%rsp), %rdx
	leaq	(%rdx,%rax), %rbx
	movq	304(%rsp), %rdx
	leaq	(%rdx,%rax), %rsi
	cmpq	%rcx, %rbx
	movq	%rcx, %r8
	cmovbq	%rbx, %r8
	cmpq	%r8, %rsi
	cmovbq	%rsi, %r8
	xorl	%r14d, %r14d
	movq	%rax, %rdx
	subq	%r8, %rdx
	cmovbq	%r14, %rdx
	movq	64(%rsp), %r8
	orq	%rax, %r8
	subq	%rcx, %r8
	cmovbq	%r14, %r8
	orq	%rax, %r10
	subq	%rbx, %r10
	cmovbq	%r14, %r10
	movq	%rax, %r15
	orq	%rax, %rdi
	subq	%rsi, %rdi
	cmovbq	%r14, %rdi
	movl	176(%rsp), %ebp
	movq	72(%rsp), %rax
	cmpl	%eax, %ebp
	cmovbl	%ebp, %eax
	cmpl	%eax, %r9d
	cmovbl	%r9d, %eax
	cmpq	%rax, %r8
	cmovaeq	%rax, %r8
	cmpq	%r8, %r10
	cmovbq	%r10, %r8
	cmpq	%r8, %rdi
	cmovbq	%rdi, %r8
	cmpq	%rdx, %r8
	jbe	.LBB9_1189
	movq	%r8, %rax
	leaq	(%rdx,%r11), %r8
	addq	%r11, %rax
	movq	%rax, 64(%rsp)
	movq	%r8, 328(%rsp)
	cmpq	%rax, %r8
	jae	.LBB9_1189
	movq	432(%rsp), %rax
	movq	%rax, 256(%rsp)
	movq	%r13, %r9
	movq	%r13, 248(%rsp)
	movq	168(%rsp), %r13
	leaq	(%rdx,%r13), %rax
	movq	%rax, 456(%rsp)
	addq	%rdx, 304(%rsp)
	movq	104(%rsp), %r8
	leaq	(%r8,%r9), %rax
	movq	%rax, 464(%rsp)
	movq	%r12, %r9
	subq	280(%rsp), %r9
	movq	%r9, %rax
	shrq	$4, %rax
	movq	%rax, 176(%rsp)
	movq	%r9, %r10
	andq	$-16, %r10
	movl	%r9d, %ebp
	andl	$15, %ebp
	movl	%r9d, %eax
	andl	$8, %eax
	movq	%rax, 312(%rsp)
	movl	%r9d, %r14d
	andl	$12, %r14d
	addq	%r15, %r13
	cmpq	%rbx, %rcx
	cmovbq	%rcx, %rbx
	leaq	(,%r10,4), %rcx
	cmpq	%rsi, %rbx
	cmovaeq	%rsi, %rbx
	cmpq	%r15, %rbx
	cmovaeq	%r15, %rbx
	subq	%rbx, %r13
	movq	144(%rsp), %rdi
	imulq	%rdi, %r13
	movq	288(%rsp), %r15
	leaq	(,%r15,4), %rax
	leaq	(%rax,%r13,4), %r12
	subq	%rbx, %rsi
	movq	80(%rsp), %r11
	movq	%r11, %rdx
	movq	328(%rsp), %rbx
	imulq	%rbx, %rdx
	imulq	256(%rsp), %rsi
	addq	248(%rsp), %rsi
	movq	%r10, 168(%rsp)
	movq	%r14, 296(%rsp)
	leaq	(%r10,%r14), %rax
	addq	%r8, %rax
	leaq	(%r8,%rsi), %r14
	addq	%rsi, %rax
	movq	280(%rsp), %rsi
	leaq	(,%rsi,4), %r8
	leaq	(%r8,%rdx,4), %r10
	leaq	(%rcx,%r13,4), %r8
	movq	%r9, 104(%rsp)
	leal	(,%r9,4), %r9d
	andl	$48, %r9d
	addq	%r9, %r8
	movq	%rcx, 472(%rsp)
	leaq	(%rcx,%rdx,4), %rdx
	movq	%rax, %rcx
	addq	%r9, %rdx
	movq	128(%rsp), %r9
	addq	%r9, %r12
	movq	56(%rsp), %rax
	addq	%rax, %r10
	leaq	(%r8,%r15,4), %r8
	addq	%r9, %r8
	leaq	(%rdx,%rsi,4), %r15
	addq	%rax, %r15
	leaq	(,%rdi,4), %rax
	movq	%rax, 248(%rsp)
	leaq	(,%r11,4), %rax
	movq	%rax, 320(%rsp)
	movq	%rbx, 112(%rsp)
	jmp	.LBB9_686
.LBB9_697:
	movq	112(%rsp), %r11
	incq	%r11
	movq	248(%rsp), %rdx
	addq	%rdx, %r12
	movq	320(%rsp), %r9
	addq	%r9, %r10
	movq	256(%rsp), %rax
	movq	72(%rsp), %r14
	addq	%rax, %r14
	addq	%rax, %rcx
	addq	%rdx, %r8
	addq	%r9, %r15
	movq	%r11, 112(%rsp)
	cmpq	64(%rsp), %r11
	je	.LBB9_1189
.LBB9_686:
	cmpq	$0, 176(%rsp)
	je	.LBB9_689
	movl	$8, %r9d
	movq	176(%rsp), %r13
	.p2align	4
.LBB9_688:
	movdqu	-32(%r12,%r9,4), %xmm4
	movdqu	-16(%r12,%r9,4), %xmm5
	movq	-8(%r14,%r9), %xmm6
	punpcklbw	%xmm6, %xmm6
	movdqa	%xmm6, %xmm7
	punpckhwd	%xmm6, %xmm7
	punpcklwd	%xmm6, %xmm6
	movdqa	.LCPI9_0(%rip), %xmm0
	movdqa	%xmm4, %xmm1
	pand	%xmm0, %xmm1
	movdqa	%xmm5, %xmm2
	pand	%xmm0, %xmm2
	movdqa	%xmm6, %xmm3
	pand	%xmm0, %xmm3
	pmullw	%xmm1, %xmm3
	movdqa	%xmm7, %xmm8
	pand	%xmm0, %xmm8
	pmullw	%xmm2, %xmm8
	movdqa	.LCPI9_1(%rip), %xmm1
	paddw	%xmm1, %xmm3
	paddw	%xmm1, %xmm8
	movdqa	.LCPI9_2(%rip), %xmm2
	pmulhuw	%xmm2, %xmm8
	pmulhuw	%xmm2, %xmm3
	psrlw	$8, %xmm5
	psrlw	$8, %xmm4
	psrlw	$8, %xmm7
	pmullw	%xmm5, %xmm7
	psrlw	$8, %xmm6
	pmullw	%xmm4, %xmm6
	paddw	%xmm1, %xmm7
	paddw	%xmm1, %xmm6
	pmulhuw	%xmm2, %xmm6
	pmulhuw	%xmm2, %xmm7
	psllw	$8, %xmm7
	por	%xmm8, %xmm7
	psllw	$8, %xmm6
	por	%xmm3, %xmm6
	movdqa	.LCPI9_5(%rip), %xmm5
	pshufb	%xmm5, %xmm7
	pshufb	%xmm5, %xmm6
	movdqu	-32(%r10,%r9,4), %xmm9
	movdqu	-16(%r10,%r9,4), %xmm8
	movdqu	(%r10,%r9,4), %xmm4
	movdqu	16(%r10,%r9,4), %xmm3
	movdqa	%xmm8, %xmm10
	pand	%xmm0, %xmm10
	movdqa	%xmm9, %xmm11
	pand	%xmm0, %xmm11
	pmullw	%xmm6, %xmm11
	pmullw	%xmm7, %xmm10
	paddw	%xmm1, %xmm10
	paddw	%xmm1, %xmm11
	pmulhuw	%xmm2, %xmm11
	pmulhuw	%xmm2, %xmm10
	psrlw	$8, %xmm9
	psrlw	$8, %xmm8
	pmullw	%xmm7, %xmm8
	pmullw	%xmm6, %xmm9
	paddw	%xmm1, %xmm9
	paddw	%xmm1, %xmm8
	pmulhuw	%xmm2, %xmm8
	pmulhuw	%xmm2, %xmm9
	psllw	$8, %xmm9
	por	%xmm11, %xmm9
	psllw	$8, %xmm8
	por	%xmm10, %xmm8
	movdqu	%xmm9, -32(%r10,%r9,4)
	movdqu	%xmm8, -16(%r10,%r9,4)
	movdqu	(%r12,%r9,4), %xmm9
	movdqu	16(%r12,%r9,4), %xmm11
	movq	(%r14,%r9), %xmm6
	punpcklbw	%xmm6, %xmm6
	movdqa	%xmm6, %xmm7
	punpckhwd	%xmm6, %xmm7
	punpcklwd	%xmm6, %xmm6
	movdqa	%xmm9, %xmm10
	pand	%xmm0, %xmm10
	movdqa	%xmm11, %xmm12
	pand	%xmm0, %xmm12
	movdqa	%xmm6, %xmm8
	pand	%xmm0, %xmm8
	pmullw	%xmm10, %xmm8
	movdqa	%xmm7, %xmm10
	pand	%xmm0, %xmm10
	pmullw	%xmm12, %xmm10
	paddw	%xmm1, %xmm8
	paddw	%xmm1, %xmm10
	pmulhuw	%xmm2, %xmm10
	pmulhuw	%xmm2, %xmm8
	psrlw	$8, %xmm11
	psrlw	$8, %xmm9
	psrlw	$8, %xmm7
	pmullw	%xmm11, %xmm7
	psrlw	$8, %xmm6
	pmullw	%xmm9, %xmm6
	paddw	%xmm1, %xmm7
	paddw	%xmm1, %xmm6
	pmulhuw	%xmm2, %xmm6
	pmulhuw	%xmm2, %xmm7
	psllw	$8, %xmm7
	por	%xmm10, %xmm7
	psllw	$8, %xmm6
	por	%xmm8, %xmm6
	pshufb	%xmm5, %xmm7
	pshufb	%xmm5, %xmm6
	movdqa	%xmm3, %xmm5
	pand	%xmm0, %xmm5
	pand	%xmm4, %xmm0
	pmullw	%xmm6, %xmm0
	pmullw	%xmm7, %xmm5
	paddw	%xmm1, %xmm5
	paddw	%xmm1, %xmm0
	pmulhuw	%xmm2, %xmm0
	pmulhuw	%xmm2, %xmm5
	psrlw	$8, %xmm4
	psrlw	$8, %xmm3
	pmullw	%xmm7, %xmm3
	pmullw	%xmm6, %xmm4
	paddw	%xmm1, %xmm4
	paddw	%xmm1, %xmm3
	pmulhuw	%xmm2, %xmm3
	pmulhuw	%xmm2, %xmm4
	psllw	$8, %xmm4
	por	%xmm0, %xmm4
	psllw	$8, %xmm3
	por	%xmm5, %xmm3
	movdqu	%xmm4, (%r10,%r9,4)
	movdqu	%xmm3, 16(%r10,%r9,4)
	addq	$16, %r9
	decq	%r13
	jne	.LBB9_688
.LBB9_689:
	movq	%r14, 72(%rsp)
	movq	168(%rsp), %rax
	cmpq	104(%rsp), %rax
	je	.LBB9_697
	movq	112(%rsp), %rsi
	movq	%rsi, %rdx
	imulq	80(%rsp), %rdx
	addq	280(%rsp), %rdx
	subq	328(%rsp), %rsi
	movq	456(%rsp), %rax
	leaq	(%rax,%rsi), %rdi
	imulq	144(%rsp), %rdi
	addq	288(%rsp), %rdi
	addq	304(%rsp), %rsi
	imulq	256(%rsp), %rsi
	addq	464(%rsp), %rsi
	movq	56(%rsp), %rax
	leaq	(%rax,%rdx,4), %r9
	movq	128(%rsp), %rax
	leaq	(%rax,%rdi,4), %rdi
	movq	472(%rsp), %rax
	addq	%rax, %r9
	addq	%rax, %rdi
	addq	168(%rsp), %rsi
	cmpq	$0, 312(%rsp)
	jne	.LBB9_691
	testb	$4, 104(%rsp)
	jne	.LBB9_693
.LBB9_694:
	cmpl	%ebp, 296(%rsp)
	je	.LBB9_697
	jmp	.LBB9_695
.LBB9_691:
	movdqu	(%rdi), %xmm6
	movdqu	16(%rdi), %xmm7
	movq	(%rsi), %xmm1
	punpcklbw	%xmm1, %xmm1
	movdqa	%xmm1, %xmm2
	punpckhwd	%xmm1, %xmm2
	punpcklwd	%xmm1, %xmm1
	movdqa	.LCPI9_0(%rip), %xmm0
	movdqa	%xmm6, %xmm3
	pand	%xmm0, %xmm3
	movdqa	%xmm7, %xmm4
	pand	%xmm0, %xmm4
	movdqa	%xmm1, %xmm5
	pand	%xmm0, %xmm5
	pmullw	%xmm3, %xmm5
	movdqa	%xmm2, %xmm8
	pand	%xmm0, %xmm8
	pmullw	%xmm4, %xmm8
	movdqa	.LCPI9_1(%rip), %xmm3
	paddw	%xmm3, %xmm5
	paddw	%xmm3, %xmm8
	movdqa	.LCPI9_2(%rip), %xmm4
	pmulhuw	%xmm4, %xmm8
	pmulhuw	%xmm4, %xmm5
	psrlw	$8, %xmm7
	psrlw	$8, %xmm6
	psrlw	$8, %xmm2
	pmullw	%xmm7, %xmm2
	psrlw	$8, %xmm1
	pmullw	%xmm6, %xmm1
	paddw	%xmm3, %xmm2
	paddw	%xmm3, %xmm1
	pmulhuw	%xmm4, %xmm1
	pmulhuw	%xmm4, %xmm2
	psllw	$8, %xmm2
	por	%xmm8, %xmm2
	psllw	$8, %xmm1
	por	%xmm5, %xmm1
	movdqu	(%r9), %xmm6
	movdqu	16(%r9), %xmm5
	movdqa	.LCPI9_5(%rip), %xmm7
	pshufb	%xmm7, %xmm2
	pshufb	%xmm7, %xmm1
	movdqa	%xmm5, %xmm7
	pand	%xmm0, %xmm7
	pand	%xmm6, %xmm0
	pmullw	%xmm1, %xmm0
	pmullw	%xmm2, %xmm7
	paddw	%xmm3, %xmm7
	paddw	%xmm3, %xmm0
	pmulhuw	%xmm4, %xmm0
	pmulhuw	%xmm4, %xmm7
	psrlw	$8, %xmm6
	psrlw	$8, %xmm5
	pmullw	%xmm2, %xmm5
	pmullw	%xmm1, %xmm6
	paddw	%xmm3, %xmm6
	paddw	%xmm3, %xmm5
	pmulhuw	%xmm4, %xmm5
	pmulhuw	%xmm4, %xmm6
	psllw	$8, %xmm6
	por	%xmm0, %xmm6
	psllw	$8, %xmm5
	por	%xmm7, %xmm5
	movdqu	%xmm6, (%r9)
	movdqu	%xmm5, 16(%r9)
	testb	$4, 104(%rsp)
	je	.LBB9_694
.LBB9_693:
	movq	312(%rsp), %rax
	leal	(,%rax,4), %r13d
	movdqu	(%rdi,%r13), %xmm4
	movd	(%rsi,%rax), %xmm0
	punpcklbw	%xmm0, %xmm0
	punpcklwd	%xmm0, %xmm0
	movdqa	.LCPI9_0(%rip), %xmm1
	movdqa	%xmm4, %xmm2
	pand	%xmm1, %xmm2
	movdqa	%xmm0, %xmm5
	pand	%xmm1, %xmm5
	pmullw	%xmm2, %xmm5
	movdqa	.LCPI9_1(%rip), %xmm2
	paddw	%xmm2, %xmm5
	movdqa	.LCPI9_2(%rip), %xmm3
	pmulhuw	%xmm3, %xmm5
	psrlw	$8, %xmm4
	psrlw	$8, %xmm0
	pmullw	%xmm4, %xmm0
	paddw	%xmm2, %xmm0
	pmulhuw	%xmm3, %xmm0
	psllw	$8, %xmm0
	por	%xmm5, %xmm0
	movdqu	(%r9,%r13), %xmm4
	pshufb	.LCPI9_6(%rip), %xmm0
	movdqa	%xmm4, %xmm5
	pand	%xmm1, %xmm5
	pand	%xmm0, %xmm1
	pmullw	%xmm5, %xmm1
	paddw	%xmm2, %xmm1
	pmulhuw	%xmm3, %xmm1
	psrlw	$8, %xmm4
	psrlw	$8, %xmm0
	pmullw	%xmm4, %xmm0
	paddw	%xmm2, %xmm0
	pmulhuw	%xmm3, %xmm0
	psllw	$8, %xmm0
	por	%xmm1, %xmm0
	movdqu	%xmm0, (%r9,%r13)
	cmpl	%ebp, 296(%rsp)
	je	.LBB9_697
.LBB9_695:
	xorl	%r9d, %r9d
	movq	296(%rsp), %rsi
	.p2align	4
.LBB9_696:
	movzbl	3(%r8,%r9,4), %edx
	movzbl	(%rcx,%r9), %r13d
	imull	%edx, %r13d
	movl	(%r15,%r9,4), %ebx
	movzbl	%bh, %edx
	movl	%ebx, %edi
	movq	%r15, %r14
	movq	%r8, %r15
	movq	%rbp, %r8
	movzbl	%bl, %ebp
	movl	%ebx, %r11d
	shrl	$16, %r11d
	shrl	$24, %edi
	leal	128(%r13), %ebx
	movzbl	%bh, %ebx
	addl	%r13d, %ebx
	addl	$128, %ebx
	movzbl	%bh, %ebx
	imull	%ebx, %ebp
	leal	128(%rbp), %eax
	movzbl	%ah, %eax
	addl	%ebp, %eax
	addl	$128, %eax
	movzbl	%ah, %ebp
	imull	%ebx, %edx
	leal	128(%rdx), %eax
	movzbl	%ah, %eax
	addl	%eax, %edx
	addl	$128, %edx
	andl	$65280, %edx
	movzbl	%r11b, %eax
	imull	%ebx, %eax
	movq	%rcx, %r11
	leal	128(%rax), %ecx
	movzbl	%ch, %ecx
	addl	%ecx, %eax
	addl	$128, %eax
	imull	%ebx, %edi
	leal	128(%rdi), %ecx
	movzbl	%ch, %ecx
	addl	%edi, %ecx
	addl	$128, %ecx
	shll	$16, %ecx
	andl	$-16777216, %ecx
	shll	$8, %eax
	andl	$16711680, %eax
	orl	%ecx, %eax
	movq	%r11, %rcx
	orl	%edx, %eax
	orl	%ebp, %eax
	movq	%r8, %rbp
	movq	%r15, %r8
	movq	%r14, %r15
	movl	%eax, (%r14,%r9,4)
	incq	%rsi
	incq	%r9
	cmpq	%rbp, %rsi
	jb	.LBB9_696
	jmp	.LBB9_697
.LBB9_608:
	movq	%r12, 104(%rsp)
	testq	%r15, %r15
	je	.LBB9_1189
	movq	%rbp, 144(%rsp)
	movq	%rbx, %rbp
	shrq	$32, %rbp
	subq	%rsi, %rcx
	movabsq	$4294967296, %rsi
	movq	%r13, 176(%rsp)
	leaq	(%rcx,%rsi), %r13
	leaq	(%rdx,%rsi), %r12
	cmpq	%r13, %r12
	movl	%r8d, %r9d
	movq	%r13, %r8
	cmovbq	%r12, %r8
	xorl	%r10d, %r10d
	movq	%rsi, %r14
	subq	%r8, %r14
	cmovbq	%r10, %r14
	orq	%rsi, %r15
	subq	%r13, %r15
	cmovbq	%r10, %r15
	movl	%ebx, %r8d
	orq	%rsi, %r8
	subq	%r12, %r8
	cmovbq	%r10, %r8
	cmpl	%eax, %edi
	cmovbl	%edi, %eax
	cmpq	%rax, %r15
	cmovaeq	%rax, %r15
	cmpq	%r15, %r8
	cmovbq	%r8, %r15
	movq	112(%rsp), %rax
	leaq	(%r14,%rcx), %r12
	addq	%r15, %rcx
	addq	%r14, %rdx
	cmpq	%r14, %r15
	cmovbeq	%r10, %r12
	cmovbeq	%r10, %rcx
	cmovbeq	%r10, %rdx
	subq	144(%rsp), %r11
	leaq	(%r11,%rsi), %r8
	movq	72(%rsp), %r15
	leaq	(%r15,%rsi), %rbx
	cmpq	%r8, %rbx
	movq	%r8, %r14
	cmovbq	%rbx, %r14
	movq	%rsi, %rdi
	subq	%r14, %rdi
	cmovbq	%r10, %rdi
	movq	64(%rsp), %r14
	orq	%rsi, %r14
	subq	%r8, %r14
	cmovbq	%r10, %r14
	orq	%rsi, %rbp
	subq	%rbx, %rbp
	cmovbq	%r10, %rbp
	cmpl	%eax, %r9d
	cmovbl	%r9d, %eax
	cmpq	%rax, %r14
	cmovaeq	%rax, %r14
	cmpq	%r14, %rbp
	cmovbq	%rbp, %r14
	leaq	(%rdi,%r11), %rax
	addq	%r14, %r11
	addq	%rdi, %r15
	cmpq	%rdi, %r14
	cmovbeq	%r10, %rax
	cmovbeq	%r10, %r11
	cmovbeq	%r10, %r15
	movq	104(%rsp), %r8
	movzbl	(%r8), %r8d
	movq	%r12, 200(%rsp)
	movq	%rcx, 208(%rsp)
	movq	%rdx, 216(%rsp)
	movq	%rax, 224(%rsp)
	movq	%r11, 232(%rsp)
	movq	%r15, 240(%rsp)
	movb	%r8b, 40(%rsp)
	leaq	200(%rsp), %rax
	movq	%rax, 32(%rsp)
	movq	56(%rsp), %rcx
	movq	128(%rsp), %rdx
	movq	80(%rsp), %r8
	movq	176(%rsp), %r9
	callq	"pix_raster::view::blit_overlap::<#2e32b78ff97838bb>"
	jmp	.LBB9_1189
.LBB9_752:
	movq	%r12, 56(%rsp)
	testq	%r15, %r15
	je	.LBB9_1189
	subq	%rsi, %r9
	movabsq	$4294967296, %r8
	addq	%r8, %r9
	cmpq	%r8, %r9
	movq	%r8, %r10
	cmovaq	%r9, %r10
	movabsq	$-4294967296, %r12
	addq	%rbx, %r9
	orq	%r8, %r15
	cmpq	%r9, %r15
	cmovaeq	%r9, %r15
	leaq	(%r10,%r12), %r9
	xorl	%ecx, %ecx
	cmpq	%r10, %r15
	cmovbeq	%rcx, %r9
	movq	%r9, 144(%rsp)
	subq	112(%rsp), %rax
	addq	%r8, %rax
	cmpq	%r8, %rax
	movq	%r8, %r11
	cmovaq	%rax, %r11
	addq	72(%rsp), %rax
	movq	80(%rsp), %r9
	orq	%r8, %r9
	cmpq	%rax, %r9
	cmovaeq	%rax, %r9
	leaq	(%r11,%r12), %rax
	cmpq	%r11, %r9
	cmovbeq	%rcx, %rax
	jbe	.LBB9_1189
	movq	%r9, %rdx
	addq	%r12, %rdx
	cmpq	%rax, %rdx
	jbe	.LBB9_1189
	movq	%rdx, %r14
	movq	128(%rsp), %rcx
	movl	(%rcx), %ebx
	movzbl	%bh, %esi
	movl	%ebx, %edi
	shrl	$16, %edi
	movl	%ebx, %r8d
	shrl	$24, %r8d
	addq	%r15, %r12
	xorl	%ebp, %ebp
	cmpq	%r10, %r15
	cmovaq	%r12, %rbp
	movq	144(%rsp), %r15
	subq	%r15, %rbp
	movl	%ebx, %ecx
	shrl	$8, %ecx
	movd	%ebx, %xmm0
	pinsrb	$1, %ecx, %xmm0
	pinsrb	$2, %edi, %xmm0
	pinsrb	$3, %r8d, %xmm0
	pinsrb	$4, %ebx, %xmm0
	pinsrb	$5, %ecx, %xmm0
	pinsrb	$6, %edi, %xmm0
	pinsrb	$7, %r8d, %xmm0
	pinsrb	$8, %ebx, %xmm0
	pinsrb	$9, %ecx, %xmm0
	pinsrb	$10, %edi, %xmm0
	pinsrb	$11, %r8d, %xmm0
	pinsrb	$12, %ebx, %xmm0
	pinsrb	$13, %ecx, %xmm0
	pinsrb	$14, %edi, %xmm0
	movq	%rbp, %r10
	movdqa	%xmm0, %xmm1
	pinsrb	$15, %r8d, %xmm1
	shrq	$4, %r10
	pcmpeqd	%xmm2, %xmm2
	pxor	%xmm1, %xmm2
	psrld	$24, %xmm2
	movdqa	%xmm2, %xmm3
	pshufb	.LCPI9_8(%rip), %xmm3
	movdqa	.LCPI9_0(%rip), %xmm4
	pand	%xmm4, %xmm0
	psrlw	$8, %xmm1
	movq	%rbp, %r9
	andq	$-16, %r9
	movl	%ebp, %r11d
	andl	$15, %r11d
	leal	(,%rbp,4), %r13d
	movzbl	%dil, %ecx
	movd	%ecx, %xmm13
	movl	%r13d, %ecx
	andl	$32, %ecx
	movq	%rcx, 72(%rsp)
	pshufb	.LCPI9_9(%rip), %xmm2
	movdqa	%xmm2, %xmm5
	pand	%xmm4, %xmm5
	movdqa	%xmm5, 176(%rsp)
	psrlw	$8, %xmm2
	movdqa	%xmm2, 112(%rsp)
	movzwl	%r8w, %ecx
	pinsrw	$1, %ecx, %xmm13
	pinsrw	$2, %esi, %xmm13
	movl	%ebp, %edx
	andl	$12, %edx
	movq	%rdx, 128(%rsp)
	movzbl	%bl, %edx
	pinsrw	$3, %edx, %xmm13
	xorl	$255, %ecx
	movd	%ecx, %xmm2
	pshuflw	$0, %xmm2, %xmm7
	movq	%rax, %rcx
	movq	64(%rsp), %rsi
	imulq	%rsi, %rcx
	addq	%r15, %rcx
	movq	56(%rsp), %r8
	leaq	(%r8,%rcx,4), %r12
	andl	$48, %r13d
	leaq	(,%r9,4), %rdx
	addq	%r13, %rdx
	leaq	(%rdx,%rcx,4), %r13
	leaq	(,%rsi,4), %rdi
	addq	%r8, %r13
	movdqa	%xmm13, 80(%rsp)
	jmp	.LBB9_756
.LBB9_767:
	incq	%rax
	addq	%rdi, %r12
	addq	%rdi, %r13
	cmpq	%r14, %rax
	je	.LBB9_1189
.LBB9_756:
	testq	%r10, %r10
	je	.LBB9_759
	movq	%r12, %rsi
	movq	%r10, %r8
	.p2align	4
.LBB9_758:
	movdqa	.LCPI9_5(%rip), %xmm12
	movdqu	(%rsi), %xmm13
	movdqu	16(%rsi), %xmm6
	movdqu	32(%rsi), %xmm8
	movdqu	48(%rsi), %xmm9
	movdqa	%xmm13, %xmm15
	pshufb	%xmm12, %xmm15
	movdqa	%xmm6, %xmm5
	pshufb	%xmm12, %xmm5
	movdqa	%xmm0, %xmm2
	pmullw	%xmm5, %xmm2
	movdqa	%xmm0, %xmm14
	pmullw	%xmm15, %xmm14
	movdqa	.LCPI9_1(%rip), %xmm10
	paddw	%xmm10, %xmm14
	paddw	%xmm10, %xmm2
	movdqa	.LCPI9_2(%rip), %xmm11
	pmulhuw	%xmm11, %xmm2
	pmulhuw	%xmm11, %xmm14
	pmullw	%xmm1, %xmm15
	pmullw	%xmm1, %xmm5
	paddw	%xmm10, %xmm5
	paddw	%xmm10, %xmm15
	pmulhuw	%xmm11, %xmm15
	pmulhuw	%xmm11, %xmm5
	psllw	$8, %xmm5
	por	%xmm2, %xmm5
	psllw	$8, %xmm15
	por	%xmm14, %xmm15
	movdqa	%xmm13, %xmm2
	pand	%xmm4, %xmm2
	movdqa	%xmm6, %xmm14
	pand	%xmm4, %xmm14
	pmullw	%xmm3, %xmm14
	pmullw	%xmm3, %xmm2
	paddw	%xmm10, %xmm2
	paddw	%xmm10, %xmm14
	pmulhuw	%xmm11, %xmm14
	pmulhuw	%xmm11, %xmm2
	psrlw	$8, %xmm6
	psrlw	$8, %xmm13
	pmullw	%xmm3, %xmm13
	pmullw	%xmm3, %xmm6
	paddw	%xmm10, %xmm6
	paddw	%xmm10, %xmm13
	pmulhuw	%xmm11, %xmm13
	pmulhuw	%xmm11, %xmm6
	psllw	$8, %xmm6
	por	%xmm14, %xmm6
	paddusb	%xmm5, %xmm6
	psllw	$8, %xmm13
	por	%xmm2, %xmm13
	paddusb	%xmm15, %xmm13
	movdqu	%xmm13, (%rsi)
	movdqu	%xmm6, 16(%rsi)
	movdqa	%xmm8, %xmm13
	pshufb	%xmm12, %xmm13
	movdqa	%xmm9, %xmm6
	pshufb	%xmm12, %xmm6
	movdqa	%xmm0, %xmm2
	pmullw	%xmm6, %xmm2
	movdqa	%xmm0, %xmm5
	pmullw	%xmm13, %xmm5
	paddw	%xmm10, %xmm5
	paddw	%xmm10, %xmm2
	pmulhuw	%xmm11, %xmm2
	pmulhuw	%xmm11, %xmm5
	pmullw	%xmm1, %xmm13
	pmullw	%xmm1, %xmm6
	paddw	%xmm10, %xmm6
	paddw	%xmm10, %xmm13
	pmulhuw	%xmm11, %xmm13
	pmulhuw	%xmm11, %xmm6
	psllw	$8, %xmm6
	por	%xmm2, %xmm6
	psllw	$8, %xmm13
	por	%xmm5, %xmm13
	movdqa	%xmm8, %xmm2
	pand	%xmm4, %xmm2
	movdqa	%xmm9, %xmm5
	pand	%xmm4, %xmm5
	pmullw	%xmm3, %xmm5
	pmullw	%xmm3, %xmm2
	paddw	%xmm10, %xmm2
	paddw	%xmm10, %xmm5
	pmulhuw	%xmm11, %xmm5
	pmulhuw	%xmm11, %xmm2
	psrlw	$8, %xmm9
	psrlw	$8, %xmm8
	pmullw	%xmm3, %xmm8
	pmullw	%xmm3, %xmm9
	paddw	%xmm10, %xmm9
	paddw	%xmm10, %xmm8
	pmulhuw	%xmm11, %xmm8
	pmulhuw	%xmm11, %xmm9
	psllw	$8, %xmm9
	por	%xmm5, %xmm9
	paddusb	%xmm6, %xmm9
	psllw	$8, %xmm8
	por	%xmm2, %xmm8
	paddusb	%xmm13, %xmm8
	movdqu	%xmm8, 32(%rsi)
	movdqu	%xmm9, 48(%rsi)
	addq	$64, %rsi
	decq	%r8
	jne	.LBB9_758
.LBB9_759:
	cmpq	%rbp, %r9
	movdqa	80(%rsp), %xmm13
	je	.LBB9_767
	movq	%rax, %rcx
	imulq	64(%rsp), %rcx
	addq	144(%rsp), %rcx
	movq	56(%rsp), %rdx
	leaq	(%rdx,%rcx,4), %r8
	leaq	(,%r9,4), %rcx
	addq	%rcx, %r8
	testb	$8, %bpl
	jne	.LBB9_761
	testb	$4, %bpl
	jne	.LBB9_763
.LBB9_764:
	cmpl	%r11d, 128(%rsp)
	jae	.LBB9_767
	jmp	.LBB9_765
.LBB9_761:
	movdqu	(%r8), %xmm8
	movdqu	16(%r8), %xmm9
	movdqa	.LCPI9_5(%rip), %xmm2
	movdqa	%xmm8, %xmm10
	pshufb	%xmm2, %xmm10
	movdqa	%xmm9, %xmm6
	pshufb	%xmm2, %xmm6
	movdqa	%xmm0, %xmm2
	pmullw	%xmm6, %xmm2
	movdqa	%xmm0, %xmm5
	pmullw	%xmm10, %xmm5
	movdqa	.LCPI9_1(%rip), %xmm11
	paddw	%xmm11, %xmm5
	paddw	%xmm11, %xmm2
	movdqa	.LCPI9_2(%rip), %xmm12
	pmulhuw	%xmm12, %xmm2
	pmulhuw	%xmm12, %xmm5
	pmullw	%xmm1, %xmm10
	pmullw	%xmm1, %xmm6
	paddw	%xmm11, %xmm6
	paddw	%xmm11, %xmm10
	pmulhuw	%xmm12, %xmm10
	pmulhuw	%xmm12, %xmm6
	psllw	$8, %xmm6
	por	%xmm2, %xmm6
	psllw	$8, %xmm10
	por	%xmm5, %xmm10
	movdqa	%xmm8, %xmm2
	pand	%xmm4, %xmm2
	movdqa	%xmm9, %xmm5
	pand	%xmm4, %xmm5
	pmullw	%xmm3, %xmm5
	pmullw	%xmm3, %xmm2
	paddw	%xmm11, %xmm2
	paddw	%xmm11, %xmm5
	pmulhuw	%xmm12, %xmm5
	pmulhuw	%xmm12, %xmm2
	psrlw	$8, %xmm9
	psrlw	$8, %xmm8
	pmullw	%xmm3, %xmm8
	pmullw	%xmm3, %xmm9
	paddw	%xmm11, %xmm9
	paddw	%xmm11, %xmm8
	pmulhuw	%xmm12, %xmm8
	pmulhuw	%xmm12, %xmm9
	psllw	$8, %xmm9
	por	%xmm5, %xmm9
	paddusb	%xmm6, %xmm9
	psllw	$8, %xmm8
	por	%xmm2, %xmm8
	paddusb	%xmm10, %xmm8
	movdqu	%xmm8, (%r8)
	movdqu	%xmm9, 16(%r8)
	testb	$4, %bpl
	je	.LBB9_764
.LBB9_763:
	movq	72(%rsp), %rcx
	movdqu	(%r8,%rcx), %xmm6
	movdqa	%xmm6, %xmm8
	pshufb	.LCPI9_6(%rip), %xmm8
	movdqa	%xmm8, %xmm2
	pand	%xmm4, %xmm2
	pmullw	%xmm0, %xmm2
	movdqa	.LCPI9_1(%rip), %xmm5
	paddw	%xmm5, %xmm2
	movdqa	.LCPI9_2(%rip), %xmm9
	pmulhuw	%xmm9, %xmm2
	psrlw	$8, %xmm8
	pmullw	%xmm1, %xmm8
	paddw	%xmm5, %xmm8
	pmulhuw	%xmm9, %xmm8
	psllw	$8, %xmm8
	por	%xmm2, %xmm8
	movdqa	%xmm6, %xmm2
	pand	%xmm4, %xmm2
	pmullw	176(%rsp), %xmm2
	paddw	%xmm5, %xmm2
	pmulhuw	%xmm9, %xmm2
	psrlw	$8, %xmm6
	pmullw	112(%rsp), %xmm6
	paddw	%xmm5, %xmm6
	pmulhuw	%xmm9, %xmm6
	psllw	$8, %xmm6
	por	%xmm2, %xmm6
	paddusb	%xmm8, %xmm6
	movdqu	%xmm6, (%r8,%rcx)
	cmpl	%r11d, 128(%rsp)
	jae	.LBB9_767
.LBB9_765:
	movq	%r13, %rcx
	movq	128(%rsp), %r8
	.p2align	4
.LBB9_766:
	movl	(%rcx), %ebx
	movzbl	%bh, %esi
	movl	%ebx, %edx
	movzbl	%bl, %r15d
	shrl	$16, %ebx
	shrl	$24, %edx
	movzbl	%bl, %ebx
	movd	%edx, %xmm2
	pshuflw	$0, %xmm2, %xmm2
	pmullw	%xmm13, %xmm2
	movdqa	.LCPI9_3(%rip), %xmm5
	paddw	%xmm5, %xmm2
	movdqa	%xmm2, %xmm6
	psrlw	$8, %xmm6
	paddw	%xmm2, %xmm6
	psrlw	$8, %xmm6
	movd	%ebx, %xmm2
	pinsrw	$1, %edx, %xmm2
	pinsrw	$2, %esi, %xmm2
	pinsrw	$3, %r15d, %xmm2
	packuswb	%xmm6, %xmm6
	pmullw	%xmm7, %xmm2
	paddw	%xmm5, %xmm2
	movdqa	%xmm2, %xmm5
	psrlw	$8, %xmm5
	paddw	%xmm2, %xmm5
	psrlw	$8, %xmm5
	packuswb	%xmm5, %xmm5
	paddusb	%xmm6, %xmm5
	pmovzxbd	%xmm5, %xmm2
	pmulld	.LCPI9_4(%rip), %xmm2
	pshufd	$238, %xmm2, %xmm5
	por	%xmm2, %xmm5
	pshufd	$85, %xmm5, %xmm2
	por	%xmm5, %xmm2
	movd	%xmm2, (%rcx)
	incq	%r8
	addq	$4, %rcx
	cmpq	%r11, %r8
	jb	.LBB9_766
	jmp	.LBB9_767
.LBB9_971:
	movq	%r8, 104(%rsp)
	testq	%r15, %r15
	je	.LBB9_1189
	movq	%r13, %rdi
	shrq	$32, %rdi
	subq	%rsi, %rcx
	movabsq	$4294967296, %rsi
	movq	%r12, 56(%rsp)
	leaq	(%rcx,%rsi), %r12
	leaq	(%r9,%rsi), %r8
	cmpq	%r12, %r8
	movq	%r10, 144(%rsp)
	movq	%r12, %r10
	cmovbq	%r8, %r10
	xorl	%r11d, %r11d
	movl	%r14d, %r8d
	movq	%rsi, %r14
	subq	%r10, %r14
	cmovbq	%r11, %r14
	orq	%rsi, %r15
	subq	%r12, %r15
	cmovbq	%r11, %r15
	movl	%r13d, %r10d
	orq	%rsi, %r10
	leaq	(%r9,%rsi), %r12
	subq	%r12, %r10
	cmovbq	%r11, %r10
	cmpl	%ebx, %ebp
	cmovbl	%ebp, %ebx
	cmpq	%rbx, %r15
	cmovaeq	%rbx, %r15
	cmpq	%r15, %r10
	cmovbq	%r10, %r15
	leaq	(%r14,%rcx), %rbx
	addq	%r15, %rcx
	addq	%r14, %r9
	cmpq	%r14, %r15
	cmovbeq	%r11, %rbx
	cmovbeq	%r11, %rcx
	cmovbeq	%r11, %r9
	subq	112(%rsp), %rax
	leaq	(%rax,%rsi), %r10
	movq	72(%rsp), %r13
	leaq	(%rsi,%r13), %r15
	cmpq	%r10, %r15
	movq	%r10, %r12
	cmovbq	%r15, %r12
	movq	%rsi, %r14
	subq	%r12, %r14
	cmovbq	%r11, %r14
	movq	64(%rsp), %r12
	orq	%rsi, %r12
	subq	%r10, %r12
	cmovbq	%r11, %r12
	orq	%rsi, %rdi
	subq	%r15, %rdi
	cmovbq	%r11, %rdi
	cmpl	%edx, %r8d
	cmovbl	%r8d, %edx
	cmpq	%rdx, %r12
	cmovaeq	%rdx, %r12
	cmpq	%r12, %rdi
	cmovbq	%rdi, %r12
	leaq	(%r14,%rax), %rdx
	addq	%r12, %rax
	addq	%r14, %r13
	cmpq	%r14, %r12
	cmovbeq	%r11, %rdx
	cmovbeq	%r11, %rax
	cmovbeq	%r11, %r13
	movq	104(%rsp), %r8
	movzbl	(%r8), %r10d
	movq	%rbx, 200(%rsp)
	movq	%rcx, 208(%rsp)
	movq	%r9, 216(%rsp)
	movq	%rdx, 224(%rsp)
	movq	%rax, 232(%rsp)
	movq	%r13, 240(%rsp)
	movb	%r10b, 40(%rsp)
	leaq	200(%rsp), %rax
	movq	%rax, 32(%rsp)
	movq	56(%rsp), %rcx
	movq	80(%rsp), %rdx
	movq	128(%rsp), %r8
	movq	144(%rsp), %r9
	callq	"pix_raster::view::blit_overlap::<#cadaf6b2c7002256>"
	jmp	.LBB9_1189
.LBB9_790:
	movq	%rdx, 256(%rsp)
	testq	%r15, %r15
	je	.LBB9_1189
	movq	%r13, %rdi
	shrq	$32, %rdi
	subq	%rsi, %r9
	movabsq	$4294967296, %rsi
	movq	%r14, %rdx
	leaq	(%r9,%rsi), %r14
	leaq	(%r8,%rsi), %r11
	cmpq	%r14, %r11
	movl	%r10d, 176(%rsp)
	movq	%r14, %r10
	cmovbq	%r11, %r10
	xorl	%r11d, %r11d
	movq	%rcx, 144(%rsp)
	movq	%r12, %rcx
	movq	%rsi, %r12
	subq	%r10, %r12
	cmovbq	%r11, %r12
	orq	%rsi, %r15
	subq	%r14, %r15
	cmovbq	%r11, %r15
	movl	%r13d, %r10d
	orq	%rsi, %r10
	leaq	(%r8,%rsi), %r14
	subq	%r14, %r10
	cmovbq	%r11, %r10
	cmpl	%ebx, %ebp
	cmovbl	%ebp, %ebx
	cmpq	%rbx, %r15
	cmovaeq	%rbx, %r15
	cmpq	%r15, %r10
	cmovbq	%r10, %r15
	leaq	(%r12,%r9), %rbx
	addq	%r15, %r9
	addq	%r12, %r8
	cmpq	%r12, %r15
	cmovbeq	%r11, %rbx
	cmovbeq	%r11, %r9
	cmovbeq	%r11, %r8
	subq	112(%rsp), %rax
	leaq	(%rax,%rsi), %r10
	movq	%rdx, %r13
	leaq	(%rdx,%rsi), %r14
	cmpq	%r10, %r14
	movq	%r10, %r12
	cmovbq	%r14, %r12
	movq	%rsi, %r15
	subq	%r12, %r15
	cmovbq	%r11, %r15
	movq	80(%rsp), %r12
	orq	%rsi, %r12
	subq	%r10, %r12
	cmovbq	%r11, %r12
	orq	%rsi, %rdi
	subq	%r14, %rdi
	cmovbq	%r11, %rdi
	movq	72(%rsp), %rdx
	movl	176(%rsp), %r10d
	cmpl	%edx, %r10d
	cmovbl	%r10d, %edx
	cmpq	%rdx, %r12
	cmovaeq	%rdx, %r12
	cmpq	%r12, %rdi
	cmovbq	%rdi, %r12
	leaq	(%r15,%rax), %rdx
	addq	%r12, %rax
	movq	%r13, %r10
	addq	%r15, %r10
	cmpq	%r15, %r12
	cmovbeq	%r11, %rdx
	cmovbeq	%r11, %rax
	cmovbeq	%r11, %r10
	movq	%r10, %r11
	movq	256(%rsp), %r10
	movzbl	(%r10), %r10d
	movq	%rbx, 200(%rsp)
	movq	%r9, 208(%rsp)
	movq	%r8, 216(%rsp)
	movq	%rdx, 224(%rsp)
	movq	%rax, 232(%rsp)
	movq	%r11, 240(%rsp)
	movb	%r10b, 40(%rsp)
	leaq	200(%rsp), %rax
	movq	%rax, 32(%rsp)
	movq	64(%rsp), %rdx
	movq	128(%rsp), %r8
	movq	144(%rsp), %r9
	callq	"pix_raster::view::blit_overlap::<#8280f2e27f55061f>"
	jmp	.LBB9_1189
.LBB9_89:
	movq	%rcx, 168(%rsp)
	movq	%r14, 144(%rsp)
	movq	%r12, 56(%rsp)
	testq	%r15, %r15
	je	.LBB9_1189
	movl	%r13d, 176(%rsp)
	movq	424(%rsp), %r12
	movq	%r12, 256(%rsp)
	movslq	440(%rsp), %r13
	movabsq	$4294967296, %rcx
	movq	%rsi, %r10
	shrq	$32, %r10
	shrq	$32, %r12
	subq	%rdi, %rbx
	leaq	(%rbx,%rcx), %r9
	leaq	(%rcx,%rbp), %rdi
	cmpq	%r9, %rdi
	movq	%r9, %r14
	cmovbq	%rdi, %r14
	movq	%r13, 248(%rsp)
	leaq	(%rcx,%r13), %rdi
	movq	%rdi, 104(%rsp)
	cmpq	%r14, %rdi
	cmovbq	%rdi, %r14
	xorl	%r13d, %r13d
	movq	%rcx, %rdi
	subq	%r14, %rdi
	cmovbq	%r13, %rdi
	orq	%rcx, %r15
	subq	%r9, %r15
	cmovbq	%r13, %r15
	movl	%esi, %esi
	orq	%rcx, %rsi
	leaq	(%rcx,%rbp), %r9
	subq	%r9, %rsi
	movl	256(%rsp), %r9d
	cmovbq	%r13, %rsi
	orq	%rcx, %r9
	subq	104(%rsp), %r9
	movl	$0, %r14d
	movq	%r14, 296(%rsp)
	cmovbq	%r13, %r9
	cmpl	%edx, %r8d
	cmovbl	%r8d, %edx
	movl	448(%rsp), %r8d
	cmpl	%edx, %r8d
	cmovbl	%r8d, %edx
	cmpq	%rdx, %r15
	cmovaeq	%rdx, %r15
	movslq	444(%rsp), %rdx
	movq	%rdx, 320(%rsp)
	cmpq	%r15, %rsi
	cmovbq	%rsi, %r15
	movl	452(%rsp), %esi
	cmpq	%r15, %r9
	cmovbq	%r9, %r15
	movl	$0, %r14d
	movl	$0, %edx
	movq	%rdx, 280(%rsp)
	movl	$0, %edx
	cmpq	%rdi, %r15
	jbe	.LBB9_92
	leaq	(%rdi,%rbx), %rdx
	movq	%rdx, 296(%rsp)
	addq	%rbx, %r15
	addq	%rdi, %rbp
	movq	248(%rsp), %rdx
	addq	%rdi, %rdx
	movq	%r15, %r14
	movq	%rbp, 280(%rsp)
.LBB9_92:
	subq	112(%rsp), %rax
	movabsq	$4294967296, %r13
	leaq	(%rax,%r13), %rdi
	movq	72(%rsp), %rcx
	leaq	(%rcx,%r13), %rbp
	movq	320(%rsp), %r8
	leaq	(%r8,%r13), %r15
	cmpq	%rdi, %rbp
	movq	%rdi, %r8
	cmovbq	%rbp, %r8
	cmpq	%r8, %r15
	cmovbq	%r15, %r8
	xorl	%r9d, %r9d
	movq	%r13, %rbx
	subq	%r8, %rbx
	cmovbq	%r9, %rbx
	movq	80(%rsp), %r8
	orq	%r13, %r8
	subq	%rdi, %r8
	cmovbq	%r9, %r8
	orq	%r13, %r10
	subq	%rbp, %r10
	cmovbq	%r9, %r10
	orq	%r13, %r12
	subq	%r15, %r12
	cmovbq	%r9, %r12
	movl	176(%rsp), %r9d
	cmpl	%r11d, %r9d
	cmovbl	%r9d, %r11d
	cmpl	%r11d, %esi
	cmovbl	%esi, %r11d
	cmpq	%r11, %r8
	cmovaeq	%r11, %r8
	cmpq	%r8, %r10
	cmovbq	%r10, %r8
	cmpq	%r8, %r12
	cmovbq	%r12, %r8
	cmpq	%rbx, %r8
	jbe	.LBB9_1189
	movq	%r8, %r9
	leaq	(%rbx,%rax), %r8
	addq	%rax, %r9
	movq	%r9, 80(%rsp)
	movq	%r8, 288(%rsp)
	cmpq	%r9, %r8
	jae	.LBB9_1189
	movq	432(%rsp), %r8
	movq	72(%rsp), %rcx
	leaq	(%rbx,%rcx), %rax
	movq	%rax, 328(%rsp)
	addq	%rbx, 320(%rsp)
	movq	168(%rsp), %r13
	leaq	(%rdx,%r13), %rax
	movq	%rax, 456(%rsp)
	subq	296(%rsp), %r14
	movq	%r14, %rax
	shrq	$4, %rax
	movq	%rax, 176(%rsp)
	movq	%r14, %r10
	andq	$-16, %r10
	movl	%r14d, %esi
	andl	$15, %esi
	movl	%r14d, %eax
	andl	$8, %eax
	movq	%rax, 304(%rsp)
	movl	%r14d, %r11d
	andl	$12, %r11d
	movabsq	$4294967296, %rax
	addq	%rax, %rcx
	cmpq	%rbp, %rdi
	cmovbq	%rdi, %rbp
	leaq	(,%r10,4), %r9
	cmpq	%r15, %rbp
	cmovaeq	%r15, %rbp
	cmpq	%rax, %rbp
	cmovaeq	%rax, %rbp
	subq	%rbp, %rcx
	imulq	144(%rsp), %rcx
	movq	280(%rsp), %r12
	leaq	(,%r12,4), %rax
	leaq	(%rax,%rcx,4), %rdi
	subq	%rbp, %r15
	movq	64(%rsp), %rbx
	movq	%rbx, %rax
	movq	288(%rsp), %rbp
	imulq	%rbp, %rax
	movq	%r8, 256(%rsp)
	imulq	%r8, %r15
	addq	%rdx, %r15
	movq	%r10, 104(%rsp)
	movq	%r11, 312(%rsp)
	addq	%r10, %r11
	addq	%r13, %r11
	leaq	(%r15,%r13), %r10
	addq	%r15, %r11
	movq	296(%rsp), %r15
	leaq	(,%r15,4), %rdx
	leaq	(%rdx,%rax,4), %r13
	leaq	(%r9,%rcx,4), %rcx
	movq	%r14, 72(%rsp)
	leal	(,%r14,4), %r8d
	andl	$48, %r8d
	addq	%r8, %rcx
	movq	%r9, 464(%rsp)
	leaq	(%r9,%rax,4), %rax
	addq	%r8, %rax
	movq	128(%rsp), %r8
	addq	%r8, %rdi
	movq	56(%rsp), %rdx
	addq	%rdx, %r13
	leaq	(%rcx,%r12,4), %r14
	addq	%r8, %r14
	leaq	(%rax,%r15,4), %r15
	addq	%rdx, %r15
	movq	144(%rsp), %rax
	leaq	(,%rax,4), %rax
	movq	%rax, 168(%rsp)
	movq	%rsi, %r9
	leaq	(,%rbx,4), %rax
	movq	%rax, 248(%rsp)
	movq	%rbp, 112(%rsp)
	jmp	.LBB9_95
.LBB9_106:
	movq	112(%rsp), %r8
	incq	%r8
	movq	168(%rsp), %rcx
	addq	%rcx, %rdi
	movq	248(%rsp), %rdx
	addq	%rdx, %r13
	movq	256(%rsp), %rax
	addq	%rax, %r10
	addq	%rax, %r11
	addq	%rcx, %r14
	addq	%rdx, %r15
	movq	%r8, 112(%rsp)
	cmpq	80(%rsp), %r8
	je	.LBB9_1189
.LBB9_95:
	cmpq	$0, 176(%rsp)
	je	.LBB9_98
	movl	$8, %r12d
	movq	176(%rsp), %rbp
	.p2align	4
.LBB9_97:
	movdqu	-32(%rdi,%r12,4), %xmm7
	movdqu	-16(%rdi,%r12,4), %xmm6
	movq	-8(%r10,%r12), %xmm3
	punpcklbw	%xmm3, %xmm3
	movdqa	%xmm3, %xmm4
	punpcklwd	%xmm3, %xmm4
	punpckhwd	%xmm3, %xmm3
	movdqa	.LCPI9_0(%rip), %xmm0
	movdqa	%xmm6, %xmm1
	pand	%xmm0, %xmm1
	movdqa	%xmm7, %xmm2
	pand	%xmm0, %xmm2
	movdqa	%xmm3, %xmm5
	pand	%xmm0, %xmm5
	pmullw	%xmm1, %xmm5
	movdqa	%xmm4, %xmm8
	pand	%xmm0, %xmm8
	pmullw	%xmm2, %xmm8
	movdqa	.LCPI9_1(%rip), %xmm1
	paddw	%xmm1, %xmm5
	paddw	%xmm1, %xmm8
	movdqa	.LCPI9_2(%rip), %xmm2
	pmulhuw	%xmm2, %xmm8
	pmulhuw	%xmm2, %xmm5
	psrlw	$8, %xmm7
	psrlw	$8, %xmm6
	psrlw	$8, %xmm4
	pmullw	%xmm7, %xmm4
	psrlw	$8, %xmm3
	pmullw	%xmm6, %xmm3
	paddw	%xmm1, %xmm4
	paddw	%xmm1, %xmm3
	pmulhuw	%xmm2, %xmm3
	pmulhuw	%xmm2, %xmm4
	psllw	$8, %xmm4
	por	%xmm8, %xmm4
	psllw	$8, %xmm3
	por	%xmm5, %xmm3
	movdqu	%xmm4, -32(%r13,%r12,4)
	movdqu	%xmm3, -16(%r13,%r12,4)
	movdqu	(%rdi,%r12,4), %xmm7
	movdqu	16(%rdi,%r12,4), %xmm6
	movq	(%r10,%r12), %xmm3
	punpcklbw	%xmm3, %xmm3
	movdqa	%xmm3, %xmm4
	punpcklwd	%xmm3, %xmm4
	punpckhwd	%xmm3, %xmm3
	movdqa	%xmm6, %xmm8
	pand	%xmm0, %xmm8
	movdqa	%xmm7, %xmm9
	pand	%xmm0, %xmm9
	movdqa	%xmm3, %xmm5
	pand	%xmm0, %xmm5
	pmullw	%xmm8, %xmm5
	pand	%xmm4, %xmm0
	pmullw	%xmm9, %xmm0
	paddw	%xmm1, %xmm5
	paddw	%xmm1, %xmm0
	pmulhuw	%xmm2, %xmm0
	pmulhuw	%xmm2, %xmm5
	psrlw	$8, %xmm7
	psrlw	$8, %xmm6
	psrlw	$8, %xmm4
	pmullw	%xmm7, %xmm4
	psrlw	$8, %xmm3
	pmullw	%xmm6, %xmm3
	paddw	%xmm1, %xmm4
	paddw	%xmm1, %xmm3
	pmulhuw	%xmm2, %xmm3
	pmulhuw	%xmm2, %xmm4
	psllw	$8, %xmm4
	por	%xmm0, %xmm4
	psllw	$8, %xmm3
	por	%xmm5, %xmm3
	movdqu	%xmm4, (%r13,%r12,4)
	movdqu	%xmm3, 16(%r13,%r12,4)
	addq	$16, %r12
	decq	%rbp
	jne	.LBB9_97
.LBB9_98:
	movq	104(%rsp), %rax
	cmpq	72(%rsp), %rax
	je	.LBB9_106
	movq	112(%rsp), %rbp
	movq	%rbp, %rax
	imulq	64(%rsp), %rax
	addq	296(%rsp), %rax
	subq	288(%rsp), %rbp
	movq	328(%rsp), %rcx
	addq	%rbp, %rcx
	imulq	144(%rsp), %rcx
	addq	280(%rsp), %rcx
	addq	320(%rsp), %rbp
	imulq	256(%rsp), %rbp
	addq	456(%rsp), %rbp
	movq	56(%rsp), %rdx
	leaq	(%rdx,%rax,4), %r12
	movq	128(%rsp), %rax
	leaq	(%rax,%rcx,4), %rbx
	movq	464(%rsp), %rax
	addq	%rax, %r12
	addq	%rax, %rbx
	addq	104(%rsp), %rbp
	cmpq	$0, 304(%rsp)
	jne	.LBB9_100
	testb	$4, 72(%rsp)
	jne	.LBB9_102
.LBB9_103:
	cmpl	%r9d, 312(%rsp)
	je	.LBB9_106
	jmp	.LBB9_104
.LBB9_100:
	movdqu	(%rbx), %xmm5
	movdqu	16(%rbx), %xmm4
	movq	(%rbp), %xmm0
	punpcklbw	%xmm0, %xmm0
	movdqa	%xmm0, %xmm1
	punpcklwd	%xmm0, %xmm1
	punpckhwd	%xmm0, %xmm0
	movdqa	.LCPI9_0(%rip), %xmm2
	movdqa	%xmm4, %xmm6
	pand	%xmm2, %xmm6
	movdqa	%xmm5, %xmm7
	pand	%xmm2, %xmm7
	movdqa	%xmm0, %xmm3
	pand	%xmm2, %xmm3
	pmullw	%xmm6, %xmm3
	pand	%xmm1, %xmm2
	pmullw	%xmm7, %xmm2
	movdqa	.LCPI9_1(%rip), %xmm6
	paddw	%xmm6, %xmm3
	paddw	%xmm6, %xmm2
	movdqa	.LCPI9_2(%rip), %xmm7
	pmulhuw	%xmm7, %xmm2
	pmulhuw	%xmm7, %xmm3
	psrlw	$8, %xmm5
	psrlw	$8, %xmm4
	psrlw	$8, %xmm1
	pmullw	%xmm5, %xmm1
	psrlw	$8, %xmm0
	pmullw	%xmm4, %xmm0
	paddw	%xmm6, %xmm1
	paddw	%xmm6, %xmm0
	pmulhuw	%xmm7, %xmm0
	pmulhuw	%xmm7, %xmm1
	psllw	$8, %xmm1
	por	%xmm2, %xmm1
	psllw	$8, %xmm0
	por	%xmm3, %xmm0
	movdqu	%xmm1, (%r12)
	movdqu	%xmm0, 16(%r12)
	testb	$4, 72(%rsp)
	je	.LBB9_103
.LBB9_102:
	movq	304(%rsp), %rax
	leal	(,%rax,4), %r8d
	movdqu	(%rbx,%r8), %xmm0
	movd	(%rbp,%rax), %xmm1
	punpcklbw	%xmm1, %xmm1
	punpcklwd	%xmm1, %xmm1
	movdqa	.LCPI9_0(%rip), %xmm2
	movdqa	%xmm0, %xmm3
	pand	%xmm2, %xmm3
	pand	%xmm1, %xmm2
	pmullw	%xmm3, %xmm2
	movdqa	.LCPI9_1(%rip), %xmm3
	paddw	%xmm3, %xmm2
	movdqa	.LCPI9_2(%rip), %xmm4
	pmulhuw	%xmm4, %xmm2
	psrlw	$8, %xmm0
	psrlw	$8, %xmm1
	pmullw	%xmm0, %xmm1
	paddw	%xmm3, %xmm1
	pmulhuw	%xmm4, %xmm1
	psllw	$8, %xmm1
	por	%xmm2, %xmm1
	movdqu	%xmm1, (%r12,%r8)
	cmpl	%r9d, 312(%rsp)
	je	.LBB9_106
.LBB9_104:
	xorl	%r12d, %r12d
	movq	312(%rsp), %rbx
	.p2align	4
.LBB9_105:
	movl	(%r14,%r12,4), %ecx
	movzbl	(%r11,%r12), %r8d
	movzbl	%ch, %eax
	movl	%ecx, %ebp
	movzbl	%cl, %esi
	shrl	$16, %ecx
	shrl	$24, %ebp
	imull	%r8d, %esi
	leal	128(%rsi), %edx
	movzbl	%dh, %edx
	addl	%esi, %edx
	addl	$128, %edx
	movzbl	%dh, %esi
	imull	%r8d, %eax
	leal	128(%rax), %edx
	movzbl	%dh, %edx
	addl	%edx, %eax
	addl	$128, %eax
	andl	$65280, %eax
	movzbl	%cl, %ecx
	imull	%r8d, %ecx
	leal	128(%rcx), %edx
	movzbl	%dh, %edx
	addl	%edx, %ecx
	addl	$128, %ecx
	imull	%r8d, %ebp
	leal	128(%rbp), %edx
	movzbl	%dh, %edx
	addl	%ebp, %edx
	addl	$128, %edx
	shll	$16, %edx
	andl	$-16777216, %edx
	shll	$8, %ecx
	andl	$16711680, %ecx
	orl	%edx, %ecx
	orl	%eax, %ecx
	orl	%esi, %ecx
	movl	%ecx, (%r15,%r12,4)
	incq	%rbx
	incq	%r12
	cmpq	%r9, %rbx
	jb	.LBB9_105
	jmp	.LBB9_106
.LBB9_147:
	testq	%r14, %r14
	je	.LBB9_1189
	subq	%r12, %rcx
	movabsq	$4294967296, %r12
	addq	%r12, %rcx
	cmpq	%r12, %rcx
	movq	%r12, %r11
	cmovaq	%rcx, %r11
	movabsq	$-4294967296, %r9
	addq	%rbx, %rcx
	orq	%r12, %r14
	cmpq	%rcx, %r14
	cmovaeq	%rcx, %r14
	leaq	(%r11,%r9), %r10
	xorl	%ecx, %ecx
	cmpq	%r11, %r14
	cmovbeq	%rcx, %r10
	subq	%rsi, %rax
	addq	%r12, %rax
	cmpq	%r12, %rax
	movq	%r12, %rsi
	cmovaq	%rax, %rsi
	addq	%rdx, %rax
	orq	%r12, %r15
	cmpq	%rax, %r15
	cmovaeq	%rax, %r15
	leaq	(%rsi,%r9), %rax
	cmpq	%rsi, %r15
	cmovbeq	%rcx, %rax
	jbe	.LBB9_1189
	addq	%r9, %r15
	cmpq	%rax, %r15
	jbe	.LBB9_1189
	addq	%r14, %r9
	xorl	%ecx, %ecx
	cmpq	%r11, %r14
	cmovaq	%r9, %rcx
	subq	%r10, %rcx
	je	.LBB9_1189
	movl	(%r8), %edx
	movq	%rcx, %r8
	andq	$-8, %r8
	movd	%edx, %xmm0
	pshufd	$0, %xmm0, %xmm0
	movq	%rax, %r11
	imulq	%rdi, %r11
	leaq	(,%r10,4), %r9
	leaq	(%r9,%r11,4), %r9
	movq	56(%rsp), %rsi
	addq	%rsi, %r9
	addq	$16, %r9
	shlq	$2, %rdi
	addq	%r10, %r11
	leaq	(%rsi,%r11,4), %r10
	jmp	.LBB9_152
.LBB9_156:
	incq	%rax
	addq	%rdi, %r9
	addq	%rdi, %r10
	cmpq	%r15, %rax
	je	.LBB9_1189
.LBB9_152:
	xorl	%r11d, %r11d
	cmpq	$8, %rcx
	jb	.LBB9_155
	.p2align	4
.LBB9_153:
	movdqu	%xmm0, -16(%r9,%r11,4)
	movdqu	%xmm0, (%r9,%r11,4)
	addq	$8, %r11
	cmpq	%r11, %r8
	jne	.LBB9_153
	movq	%r8, %r11
	cmpq	%r8, %rcx
	je	.LBB9_156
	.p2align	4
.LBB9_155:
	movl	%edx, (%r10,%r11,4)
	incq	%r11
	cmpq	%r11, %rcx
	jne	.LBB9_155
	jmp	.LBB9_156
.LBB9_558:
	testq	%r15, %r15
	je	.LBB9_1189
	subq	%rsi, %rcx
	movabsq	$4294967296, %rsi
	addq	%rsi, %rcx
	cmpq	%rsi, %rcx
	movq	%rsi, %r8
	cmovaq	%rcx, %r8
	movabsq	$-4294967296, %rdx
	addq	%rax, %rcx
	orq	%rsi, %r15
	cmpq	%rcx, %r15
	cmovaeq	%rcx, %r15
	leaq	(%r8,%rdx), %r10
	xorl	%ecx, %ecx
	cmpq	%r8, %r15
	cmovbeq	%rcx, %r10
	subq	%rbp, %r11
	addq	%rsi, %r11
	cmpq	%rsi, %r11
	movq	%rsi, %r9
	cmovaq	%r11, %r9
	addq	112(%rsp), %r11
	movq	64(%rsp), %rdi
	orq	%rsi, %rdi
	cmpq	%r11, %rdi
	cmovaeq	%r11, %rdi
	leaq	(%r9,%rdx), %rax
	cmpq	%r9, %rdi
	cmovbeq	%rcx, %rax
	jbe	.LBB9_1189
	movq	%rdi, %r11
	addq	%rdx, %r11
	cmpq	%rax, %r11
	jbe	.LBB9_1189
	addq	%r15, %rdx
	xorl	%ecx, %ecx
	cmpq	%r8, %r15
	cmovaq	%rdx, %rcx
	subq	%r10, %rcx
	je	.LBB9_1189
	movq	%r11, %rbx
	movq	80(%rsp), %rdx
	movl	(%rdx), %edx
	movq	%rcx, %r8
	andq	$-8, %r8
	movd	%edx, %xmm0
	pshufd	$0, %xmm0, %xmm0
	movq	%rax, %r11
	movq	128(%rsp), %rdi
	imulq	%rdi, %r11
	leaq	(,%r10,4), %r9
	leaq	(%r9,%r11,4), %r9
	movq	56(%rsp), %rsi
	addq	%rsi, %r9
	addq	$16, %r9
	shlq	$2, %rdi
	addq	%r10, %r11
	leaq	(%rsi,%r11,4), %r10
	jmp	.LBB9_563
.LBB9_567:
	incq	%rax
	addq	%rdi, %r9
	addq	%rdi, %r10
	cmpq	%rbx, %rax
	je	.LBB9_1189
.LBB9_563:
	xorl	%r11d, %r11d
	cmpq	$8, %rcx
	jb	.LBB9_566
	.p2align	4
.LBB9_564:
	movdqu	%xmm0, -16(%r9,%r11,4)
	movdqu	%xmm0, (%r9,%r11,4)
	addq	$8, %r11
	cmpq	%r11, %r8
	jne	.LBB9_564
	movq	%r8, %r11
	cmpq	%r8, %rcx
	je	.LBB9_567
	.p2align	4
.LBB9_566:
	movl	%edx, (%r10,%r11,4)
	incq	%r11
	cmpq	%r11, %rcx
	jne	.LBB9_566
	jmp	.LBB9_567
.LBB9_921:
	testq	%r15, %r15
	je	.LBB9_1189
	subq	%rsi, %rcx
	movabsq	$4294967296, %r11
	addq	%r11, %rcx
	cmpq	%r11, %rcx
	movq	%r11, %r9
	cmovaq	%rcx, %r9
	movabsq	$-4294967296, %r8
	addq	%rbx, %rcx
	orq	%r11, %r15
	cmpq	%rcx, %r15
	cmovaeq	%rcx, %r15
	leaq	(%r9,%r8), %r10
	xorl	%ecx, %ecx
	cmpq	%r9, %r15
	cmovbeq	%rcx, %r10
	subq	112(%rsp), %rax
	addq	%r11, %rax
	cmpq	%r11, %rax
	movq	%r11, %rsi
	cmovaq	%rax, %rsi
	addq	%rdx, %rax
	movq	64(%rsp), %rdi
	orq	%r11, %rdi
	cmpq	%rax, %rdi
	cmovaeq	%rax, %rdi
	leaq	(%rsi,%r8), %rax
	cmpq	%rsi, %rdi
	cmovbeq	%rcx, %rax
	jbe	.LBB9_1189
	movq	%rdi, %rdx
	addq	%r8, %rdx
	cmpq	%rax, %rdx
	jbe	.LBB9_1189
	addq	%r15, %r8
	xorl	%ecx, %ecx
	cmpq	%r9, %r15
	cmovaq	%r8, %rcx
	subq	%r10, %rcx
	je	.LBB9_1189
	movq	%rdx, %rdi
	movq	128(%rsp), %rdx
	movl	(%rdx), %edx
	movq	%rcx, %r8
	andq	$-8, %r8
	movd	%edx, %xmm0
	pshufd	$0, %xmm0, %xmm0
	movq	%rax, %r11
	movq	80(%rsp), %rsi
	imulq	%rsi, %r11
	leaq	(,%r10,4), %r9
	leaq	(%r9,%r11,4), %r9
	addq	%r12, %r9
	addq	$16, %r9
	shlq	$2, %rsi
	addq	%r10, %r11
	leaq	(%r12,%r11,4), %r10
	jmp	.LBB9_926
.LBB9_930:
	incq	%rax
	addq	%rsi, %r9
	addq	%rsi, %r10
	cmpq	%rdi, %rax
	je	.LBB9_1189
.LBB9_926:
	xorl	%r11d, %r11d
	cmpq	$8, %rcx
	jb	.LBB9_929
	.p2align	4
.LBB9_927:
	movdqu	%xmm0, -16(%r9,%r11,4)
	movdqu	%xmm0, (%r9,%r11,4)
	addq	$8, %r11
	cmpq	%r11, %r8
	jne	.LBB9_927
	movq	%r8, %r11
	cmpq	%r8, %rcx
	je	.LBB9_930
	.p2align	4
.LBB9_929:
	movl	%edx, (%r10,%r11,4)
	incq	%r11
	cmpq	%r11, %rcx
	jne	.LBB9_929
	jmp	.LBB9_930
.LBB9_738:
	testq	%r15, %r15
	je	.LBB9_1189
	subq	%rsi, %r9
	movabsq	$4294967296, %r11
	addq	%r11, %r9
	cmpq	%r11, %r9
	movq	%r11, %rdi
	cmovaq	%r9, %rdi
	movabsq	$-4294967296, %r8
	addq	%rbx, %r9
	orq	%r11, %r15
	cmpq	%r9, %r15
	cmovaeq	%r9, %r15
	leaq	(%rdi,%r8), %r10
	xorl	%ecx, %ecx
	cmpq	%rdi, %r15
	cmovbeq	%rcx, %r10
	subq	112(%rsp), %rax
	addq	%r11, %rax
	cmpq	%r11, %rax
	movq	%r11, %rsi
	cmovaq	%rax, %rsi
	addq	72(%rsp), %rax
	movq	80(%rsp), %r9
	orq	%r11, %r9
	cmpq	%rax, %r9
	cmovaeq	%rax, %r9
	leaq	(%rsi,%r8), %rax
	cmpq	%rsi, %r9
	cmovbeq	%rcx, %rax
	jbe	.LBB9_1189
	movq	%r9, %rdx
	addq	%r8, %rdx
	cmpq	%rax, %rdx
	jbe	.LBB9_1189
	addq	%r15, %r8
	xorl	%ecx, %ecx
	cmpq	%rdi, %r15
	cmovaq	%r8, %rcx
	subq	%r10, %rcx
	je	.LBB9_1189
	movq	%rdx, %rbx
	movq	128(%rsp), %rdx
	movl	(%rdx), %edx
	movq	%rcx, %r8
	andq	$-8, %r8
	movd	%edx, %xmm0
	pshufd	$0, %xmm0, %xmm0
	movq	%rax, %r11
	movq	64(%rsp), %rsi
	imulq	%rsi, %r11
	leaq	(,%r10,4), %r9
	leaq	(%r9,%r11,4), %r9
	addq	%r12, %r9
	addq	$16, %r9
	shlq	$2, %rsi
	addq	%r10, %r11
	leaq	(%r12,%r11,4), %r10
	jmp	.LBB9_743
.LBB9_747:
	incq	%rax
	addq	%rsi, %r9
	addq	%rsi, %r10
	cmpq	%rbx, %rax
	je	.LBB9_1189
.LBB9_743:
	xorl	%r11d, %r11d
	cmpq	$8, %rcx
	jb	.LBB9_746
	.p2align	4
.LBB9_744:
	movdqu	%xmm0, -16(%r9,%r11,4)
	movdqu	%xmm0, (%r9,%r11,4)
	addq	$8, %r11
	cmpq	%r11, %r8
	jne	.LBB9_744
	movq	%r8, %r11
	cmpq	%r8, %rcx
	je	.LBB9_747
	.p2align	4
.LBB9_746:
	movl	%edx, (%r10,%r11,4)
	incq	%r11
	cmpq	%r11, %rcx
	jne	.LBB9_746
	jmp	.LBB9_747
.LBB9_498:
	movq	%rax, 256(%rsp)
	testq	%r15, %r15
	je	.LBB9_1189
	movq	%r13, %rdi
	shrq	$32, %rdi
	subq	%rsi, %rcx
	movabsq	$4294967296, %rsi
	leaq	(%rcx,%rsi), %r10
	leaq	(%rdx,%rsi), %rax
	cmpq	%r10, %rax
	movq	%r8, 144(%rsp)
	movq	%r10, %r8
	cmovbq	%rax, %r8
	xorl	%eax, %eax
	movq	%r14, %r10
	movq	%rsi, %r14
	subq	%r8, %r14
	cmovbq	%rax, %r14
	orq	%rsi, %r15
	leaq	(%rcx,%rsi), %r8
	subq	%r8, %r15
	cmovbq	%rax, %r15
	movl	%r13d, %r8d
	orq	%rsi, %r8
	leaq	(%rdx,%rsi), %r13
	subq	%r13, %r8
	cmovbq	%rax, %r8
	cmpl	%r9d, %r11d
	cmovbl	%r11d, %r9d
	cmpq	%r9, %r15
	cmovaeq	%r9, %r15
	cmpq	%r15, %r8
	cmovbq	%r8, %r15
	leaq	(%r14,%rcx), %r9
	addq	%r15, %rcx
	addq	%r14, %rdx
	cmpq	%r14, %r15
	movl	$0, %eax
	cmovbeq	%rax, %r9
	cmovbeq	%rax, %rcx
	cmovbeq	%rax, %rdx
	xorl	%r13d, %r13d
	subq	128(%rsp), %rbx
	leaq	(%rbx,%rsi), %r8
	leaq	(%r10,%rsi), %r14
	cmpq	%r8, %r14
	movq	%r8, %r15
	cmovbq	%r14, %r15
	movq	%rsi, %r11
	subq	%r15, %r11
	cmovbq	%r13, %r11
	orq	%rsi, %rbp
	subq	%r8, %rbp
	cmovbq	%r13, %rbp
	orq	%rsi, %rdi
	subq	%r14, %rdi
	cmovbq	%r13, %rdi
	movl	72(%rsp), %r8d
	movq	112(%rsp), %rax
	cmpl	%eax, %r8d
	cmovbl	%r8d, %eax
	cmpq	%rax, %rbp
	cmovaeq	%rax, %rbp
	cmpq	%rbp, %rdi
	cmovbq	%rdi, %rbp
	leaq	(%r11,%rbx), %rax
	addq	%rbp, %rbx
	addq	%r11, %r10
	cmpq	%r11, %rbp
	cmovbeq	%r13, %rax
	cmovbeq	%r13, %rbx
	cmovbeq	%r13, %r10
	movq	256(%rsp), %r8
	movl	(%r8), %r8d
	movq	%r9, 200(%rsp)
	movq	%rcx, 208(%rsp)
	movq	%rdx, 216(%rsp)
	movq	%rax, 224(%rsp)
	movq	%rbx, 232(%rsp)
	movq	%r10, 240(%rsp)
	movl	%r8d, 40(%rsp)
	leaq	200(%rsp), %rax
	movq	%rax, 32(%rsp)
	movq	%r12, %rcx
	movq	80(%rsp), %rdx
	movq	64(%rsp), %r8
	movq	144(%rsp), %r9
	callq	"pix_raster::view::blit_overlap::<#c351f49995d5d0e6>"
	jmp	.LBB9_1189
.LBB9_500:
	movq	%rax, 256(%rsp)
	movq	%r14, 104(%rsp)
	movq	%r8, 144(%rsp)
	movq	%r12, 56(%rsp)
	testq	%r15, %r15
	je	.LBB9_1189
	movq	%rbp, 168(%rsp)
	movq	424(%rsp), %rbp
	movslq	440(%rsp), %r12
	movabsq	$4294967296, %rax
	movq	%r13, %r10
	shrq	$32, %r10
	movq	%rbp, %rdi
	shrq	$32, %rdi
	subq	%rsi, %rcx
	leaq	(%rcx,%rax), %r14
	leaq	(%rdx,%rax), %rsi
	cmpq	%r14, %rsi
	movq	%r14, %r8
	cmovbq	%rsi, %r8
	movq	%r12, 248(%rsp)
	leaq	(%r12,%rax), %rsi
	movq	%rsi, 176(%rsp)
	cmpq	%r8, %rsi
	cmovbq	%rsi, %r8
	xorl	%r12d, %r12d
	movq	%rax, %rsi
	subq	%r8, %rsi
	cmovbq	%r12, %rsi
	orq	%rax, %r15
	subq	%r14, %r15
	cmovbq	%r12, %r15
	movl	%r13d, %r13d
	orq	%rax, %r13
	leaq	(%rdx,%rax), %r8
	subq	%r8, %r13
	movl	%ebp, %r8d
	cmovbq	%r12, %r13
	orq	%rax, %r8
	subq	176(%rsp), %r8
	movl	$0, %r14d
	movq	%r14, 280(%rsp)
	cmovbq	%r12, %r8
	cmpl	%r9d, %r11d
	cmovbl	%r11d, %r9d
	movl	448(%rsp), %r11d
	cmpl	%r9d, %r11d
	cmovbl	%r11d, %r9d
	cmpq	%r9, %r15
	cmovaeq	%r9, %r15
	movslq	444(%rsp), %r9
	movq	%r9, 304(%rsp)
	cmpq	%r15, %r13
	cmovbq	%r13, %r15
	movl	452(%rsp), %r9d
	cmpq	%r15, %r8
	cmovbq	%r8, %r15
	movl	$0, %r12d
	movl	$0, %r8d
	movq	%r8, 288(%rsp)
	movl	$0, %ebp
	cmpq	%rsi, %r15
	jbe	.LBB9_503
	leaq	(%rsi,%rcx), %r8
	movq	%r8, 280(%rsp)
	addq	%rcx, %r15
	addq	%rsi, %rdx
	movq	248(%rsp), %rbp
	addq	%rsi, %rbp
	movq	%r15, %r12
	movq	%rdx, 288(%rsp)
.LBB9_503:
	subq	128(%rsp), %rbx
	leaq	(%rbx,%rax), %rcx
	movq	104(%rsp), %rdx
	leaq	(%rdx,%rax), %r11
	movq	304(%rsp), %rdx
	leaq	(%rdx,%rax), %rsi
	cmpq	%rcx, %r11
	movq	%rcx, %r8
	cmovbq	%r11, %r8
	cmpq	%r8, %rsi
	cmovbq	%rsi, %r8
	xorl	%r14d, %r14d
	movq	%rax, %rdx
	subq	%r8, %rdx
	cmovbq	%r14, %rdx
	movq	168(%rsp), %r15
	orq	%rax, %r15
	subq	%rcx, %r15
	cmovbq	%r14, %r15
	orq	%rax, %r10
	subq	%r11, %r10
	cmovbq	%r14, %r10
	movq	%rax, %r13
	orq	%rax, %rdi
	subq	%rsi, %rdi
	cmovbq	%r14, %rdi
	movl	72(%rsp), %r8d
	movq	112(%rsp), %rax
	cmpl	%eax, %r8d
	cmovbl	%r8d, %eax
	cmpl	%eax, %r9d
	cmovbl	%r9d, %eax
	cmpq	%rax, %r15
	cmovaeq	%rax, %r15
	cmpq	%r15, %r10
	cmovbq	%r10, %r15
	cmpq	%r15, %rdi
	cmovbq	%rdi, %r15
	cmpq	%rdx, %r15
	jbe	.LBB9_1189
	leaq	(%rdx,%rbx), %rax
	addq	%rbx, %r15
	movq	%rax, 328(%rsp)
	cmpq	%r15, %rax
	jae	.LBB9_1189
	movq	432(%rsp), %rax
	movq	%rax, 176(%rsp)
	movq	104(%rsp), %rdi
	leaq	(%rdx,%rdi), %rax
	movq	%rax, 456(%rsp)
	addq	%rdx, 304(%rsp)
	movq	256(%rsp), %r14
	leaq	(%r14,%rbp), %rax
	movq	%rax, 464(%rsp)
	movq	%r12, %r9
	subq	280(%rsp), %r9
	movq	%r9, %rax
	shrq	$4, %rax
	movq	%rax, 72(%rsp)
	movq	%r9, %r10
	andq	$-16, %r10
	movq	%rbp, 128(%rsp)
	movl	%r9d, %ebp
	andl	$15, %ebp
	movl	%r9d, %eax
	andl	$8, %eax
	movq	%rax, 312(%rsp)
	movl	%r9d, %r8d
	andl	$12, %r8d
	addq	%r13, %rdi
	cmpq	%r11, %rcx
	cmovbq	%rcx, %r11
	leaq	(,%r10,4), %rcx
	cmpq	%rsi, %r11
	cmovaeq	%rsi, %r11
	cmpq	%r13, %r11
	cmovaeq	%r13, %r11
	subq	%r11, %rdi
	imulq	144(%rsp), %rdi
	movq	288(%rsp), %rax
	leaq	(,%rax,4), %rax
	leaq	(%rax,%rdi,4), %r12
	subq	%r11, %rsi
	movq	80(%rsp), %rbx
	movq	%rbx, %rdx
	movq	328(%rsp), %r13
	imulq	%r13, %rdx
	imulq	176(%rsp), %rsi
	addq	128(%rsp), %rsi
	movq	%r10, 104(%rsp)
	movq	%r8, 296(%rsp)
	leaq	(%r10,%r8), %rax
	addq	%r14, %rax
	leaq	(%r14,%rsi), %r11
	addq	%rsi, %rax
	movq	280(%rsp), %rsi
	leaq	(,%rsi,4), %r8
	leaq	(%r8,%rdx,4), %r10
	leaq	(%rcx,%rdi,4), %r8
	movq	%r9, 256(%rsp)
	leal	(,%r9,4), %r9d
	andl	$48, %r9d
	addq	%r9, %r8
	movq	%rcx, 472(%rsp)
	leaq	(%rcx,%rdx,4), %rdx
	movq	%rax, %rcx
	addq	%r9, %rdx
	movq	64(%rsp), %r9
	addq	%r9, %r12
	movq	56(%rsp), %rax
	addq	%rax, %r10
	movq	288(%rsp), %rdi
	leaq	(%r8,%rdi,4), %r14
	addq	%r9, %r14
	leaq	(%rdx,%rsi,4), %rdx
	addq	%rax, %rdx
	movq	144(%rsp), %rax
	leaq	(,%rax,4), %rax
	movq	%rax, 248(%rsp)
	leaq	(,%rbx,4), %rax
	movq	%rax, 320(%rsp)
	movq	%rdx, %rbx
	movq	%r13, 128(%rsp)
	movq	%r15, 168(%rsp)
	jmp	.LBB9_506
.LBB9_517:
	movq	128(%rsp), %rsi
	incq	%rsi
	movq	248(%rsp), %rdx
	addq	%rdx, %r12
	movq	320(%rsp), %r9
	addq	%r9, %r10
	movq	176(%rsp), %rax
	movq	112(%rsp), %r11
	addq	%rax, %r11
	addq	%rax, %rcx
	addq	%rdx, %r14
	addq	%r9, %rbx
	movq	168(%rsp), %r15
	movq	%rsi, 128(%rsp)
	cmpq	%r15, %rsi
	je	.LBB9_1189
.LBB9_506:
	cmpq	$0, 72(%rsp)
	je	.LBB9_509
	movl	$8, %r9d
	movq	72(%rsp), %r15
	.p2align	4
.LBB9_508:
	movdqu	-32(%r12,%r9,4), %xmm5
	movdqu	-16(%r12,%r9,4), %xmm4
	movq	-8(%r11,%r9), %xmm7
	punpcklbw	%xmm7, %xmm7
	movdqa	%xmm7, %xmm8
	punpcklwd	%xmm7, %xmm8
	punpckhwd	%xmm7, %xmm7
	movdqa	.LCPI9_0(%rip), %xmm0
	movdqa	%xmm4, %xmm1
	pand	%xmm0, %xmm1
	movdqa	%xmm5, %xmm2
	pand	%xmm0, %xmm2
	movdqa	%xmm7, %xmm3
	pand	%xmm0, %xmm3
	pmullw	%xmm1, %xmm3
	movdqa	%xmm8, %xmm6
	pand	%xmm0, %xmm6
	pmullw	%xmm2, %xmm6
	movdqa	.LCPI9_1(%rip), %xmm1
	paddw	%xmm1, %xmm3
	paddw	%xmm1, %xmm6
	movdqa	.LCPI9_2(%rip), %xmm2
	pmulhuw	%xmm2, %xmm6
	pmulhuw	%xmm2, %xmm3
	psrlw	$8, %xmm5
	psrlw	$8, %xmm4
	psrlw	$8, %xmm8
	pmullw	%xmm5, %xmm8
	psrlw	$8, %xmm7
	pmullw	%xmm4, %xmm7
	paddw	%xmm1, %xmm8
	paddw	%xmm1, %xmm7
	pmulhuw	%xmm2, %xmm7
	pmulhuw	%xmm2, %xmm8
	psllw	$8, %xmm8
	por	%xmm6, %xmm8
	psllw	$8, %xmm7
	por	%xmm3, %xmm7
	pcmpeqd	%xmm5, %xmm5
	pxor	%xmm5, %xmm8
	pxor	%xmm5, %xmm7
	movdqa	.LCPI9_5(%rip), %xmm6
	pshufb	%xmm6, %xmm7
	pshufb	%xmm6, %xmm8
	movdqu	-32(%r10,%r9,4), %xmm10
	movdqu	-16(%r10,%r9,4), %xmm9
	movdqu	(%r10,%r9,4), %xmm4
	movdqu	16(%r10,%r9,4), %xmm3
	movdqa	%xmm9, %xmm11
	pand	%xmm0, %xmm11
	movdqa	%xmm10, %xmm12
	pand	%xmm0, %xmm12
	pmullw	%xmm8, %xmm12
	pmullw	%xmm7, %xmm11
	paddw	%xmm1, %xmm11
	paddw	%xmm1, %xmm12
	pmulhuw	%xmm2, %xmm12
	pmulhuw	%xmm2, %xmm11
	psrlw	$8, %xmm10
	psrlw	$8, %xmm9
	pmullw	%xmm7, %xmm9
	pmullw	%xmm8, %xmm10
	paddw	%xmm1, %xmm10
	paddw	%xmm1, %xmm9
	pmulhuw	%xmm2, %xmm9
	pmulhuw	%xmm2, %xmm10
	psllw	$8, %xmm10
	por	%xmm12, %xmm10
	psllw	$8, %xmm9
	por	%xmm11, %xmm9
	movdqu	%xmm10, -32(%r10,%r9,4)
	movdqu	%xmm9, -16(%r10,%r9,4)
	movdqu	(%r12,%r9,4), %xmm11
	movdqu	16(%r12,%r9,4), %xmm10
	movq	(%r11,%r9), %xmm7
	punpcklbw	%xmm7, %xmm7
	movdqa	%xmm7, %xmm8
	punpcklwd	%xmm7, %xmm8
	punpckhwd	%xmm7, %xmm7
	movdqa	%xmm10, %xmm12
	pand	%xmm0, %xmm12
	movdqa	%xmm11, %xmm13
	pand	%xmm0, %xmm13
	movdqa	%xmm7, %xmm9
	pand	%xmm0, %xmm9
	pmullw	%xmm12, %xmm9
	movdqa	%xmm8, %xmm12
	pand	%xmm0, %xmm12
	pmullw	%xmm13, %xmm12
	paddw	%xmm1, %xmm9
	paddw	%xmm1, %xmm12
	pmulhuw	%xmm2, %xmm12
	pmulhuw	%xmm2, %xmm9
	psrlw	$8, %xmm11
	psrlw	$8, %xmm10
	psrlw	$8, %xmm8
	pmullw	%xmm11, %xmm8
	psrlw	$8, %xmm7
	pmullw	%xmm10, %xmm7
	paddw	%xmm1, %xmm8
	paddw	%xmm1, %xmm7
	pmulhuw	%xmm2, %xmm7
	pmulhuw	%xmm2, %xmm8
	psllw	$8, %xmm8
	por	%xmm12, %xmm8
	psllw	$8, %xmm7
	por	%xmm9, %xmm7
	pxor	%xmm5, %xmm8
	pxor	%xmm5, %xmm7
	pshufb	%xmm6, %xmm7
	pshufb	%xmm6, %xmm8
	movdqa	%xmm3, %xmm5
	pand	%xmm0, %xmm5
	pand	%xmm4, %xmm0
	pmullw	%xmm8, %xmm0
	pmullw	%xmm7, %xmm5
	paddw	%xmm1, %xmm5
	paddw	%xmm1, %xmm0
	pmulhuw	%xmm2, %xmm0
	pmulhuw	%xmm2, %xmm5
	psrlw	$8, %xmm4
	psrlw	$8, %xmm3
	pmullw	%xmm7, %xmm3
	pmullw	%xmm8, %xmm4
	paddw	%xmm1, %xmm4
	paddw	%xmm1, %xmm3
	pmulhuw	%xmm2, %xmm3
	pmulhuw	%xmm2, %xmm4
	psllw	$8, %xmm4
	por	%xmm0, %xmm4
	psllw	$8, %xmm3
	por	%xmm5, %xmm3
	movdqu	%xmm4, (%r10,%r9,4)
	movdqu	%xmm3, 16(%r10,%r9,4)
	addq	$16, %r9
	decq	%r15
	jne	.LBB9_508
.LBB9_509:
	movq	%r11, 112(%rsp)
	movq	104(%rsp), %rax
	cmpq	256(%rsp), %rax
	je	.LBB9_517
	movq	128(%rsp), %rsi
	movq	%rsi, %rdx
	imulq	80(%rsp), %rdx
	addq	280(%rsp), %rdx
	subq	328(%rsp), %rsi
	movq	456(%rsp), %rax
	leaq	(%rax,%rsi), %rdi
	imulq	144(%rsp), %rdi
	addq	288(%rsp), %rdi
	addq	304(%rsp), %rsi
	imulq	176(%rsp), %rsi
	addq	464(%rsp), %rsi
	movq	56(%rsp), %rax
	leaq	(%rax,%rdx,4), %r9
	movq	64(%rsp), %rax
	leaq	(%rax,%rdi,4), %rdi
	movq	472(%rsp), %rax
	addq	%rax, %r9
	addq	%rax, %rdi
	addq	104(%rsp), %rsi
	cmpq	$0, 312(%rsp)
	jne	.LBB9_511
	testb	$4, 256(%rsp)
	jne	.LBB9_513
.LBB9_514:
	cmpl	%ebp, 296(%rsp)
	je	.LBB9_517
	jmp	.LBB9_515
.LBB9_511:
	movdqu	(%rdi), %xmm7
	movdqu	16(%rdi), %xmm6
	movq	(%rsi), %xmm1
	punpcklbw	%xmm1, %xmm1
	movdqa	%xmm1, %xmm2
	punpcklwd	%xmm1, %xmm2
	punpckhwd	%xmm1, %xmm1
	movdqa	.LCPI9_0(%rip), %xmm0
	movdqa	%xmm6, %xmm3
	pand	%xmm0, %xmm3
	movdqa	%xmm7, %xmm4
	pand	%xmm0, %xmm4
	movdqa	%xmm1, %xmm5
	pand	%xmm0, %xmm5
	pmullw	%xmm3, %xmm5
	movdqa	%xmm2, %xmm8
	pand	%xmm0, %xmm8
	pmullw	%xmm4, %xmm8
	movdqa	.LCPI9_1(%rip), %xmm3
	paddw	%xmm3, %xmm5
	paddw	%xmm3, %xmm8
	movdqa	.LCPI9_2(%rip), %xmm4
	pmulhuw	%xmm4, %xmm8
	pmulhuw	%xmm4, %xmm5
	psrlw	$8, %xmm7
	psrlw	$8, %xmm6
	psrlw	$8, %xmm2
	pmullw	%xmm7, %xmm2
	psrlw	$8, %xmm1
	pmullw	%xmm6, %xmm1
	paddw	%xmm3, %xmm2
	paddw	%xmm3, %xmm1
	pmulhuw	%xmm4, %xmm1
	pmulhuw	%xmm4, %xmm2
	psllw	$8, %xmm2
	por	%xmm8, %xmm2
	psllw	$8, %xmm1
	por	%xmm5, %xmm1
	movdqu	(%r9), %xmm6
	movdqu	16(%r9), %xmm5
	pcmpeqd	%xmm7, %xmm7
	pxor	%xmm7, %xmm2
	pxor	%xmm7, %xmm1
	movdqa	.LCPI9_5(%rip), %xmm7
	pshufb	%xmm7, %xmm1
	pshufb	%xmm7, %xmm2
	movdqa	%xmm5, %xmm7
	pand	%xmm0, %xmm7
	pand	%xmm6, %xmm0
	pmullw	%xmm2, %xmm0
	pmullw	%xmm1, %xmm7
	paddw	%xmm3, %xmm7
	paddw	%xmm3, %xmm0
	pmulhuw	%xmm4, %xmm0
	pmulhuw	%xmm4, %xmm7
	psrlw	$8, %xmm6
	psrlw	$8, %xmm5
	pmullw	%xmm1, %xmm5
	pmullw	%xmm2, %xmm6
	paddw	%xmm3, %xmm6
	paddw	%xmm3, %xmm5
	pmulhuw	%xmm4, %xmm5
	pmulhuw	%xmm4, %xmm6
	psllw	$8, %xmm6
	por	%xmm0, %xmm6
	psllw	$8, %xmm5
	por	%xmm7, %xmm5
	movdqu	%xmm6, (%r9)
	movdqu	%xmm5, 16(%r9)
	testb	$4, 256(%rsp)
	je	.LBB9_514
.LBB9_513:
	movq	312(%rsp), %rax
	leal	(,%rax,4), %r15d
	movdqu	(%rdi,%r15), %xmm4
	movd	(%rsi,%rax), %xmm0
	punpcklbw	%xmm0, %xmm0
	punpcklwd	%xmm0, %xmm0
	movdqa	.LCPI9_0(%rip), %xmm3
	movdqa	%xmm4, %xmm1
	pand	%xmm3, %xmm1
	movdqa	%xmm0, %xmm5
	pand	%xmm3, %xmm5
	pmullw	%xmm1, %xmm5
	movdqa	.LCPI9_1(%rip), %xmm1
	paddw	%xmm1, %xmm5
	movdqa	.LCPI9_2(%rip), %xmm2
	pmulhuw	%xmm2, %xmm5
	psrlw	$8, %xmm4
	psrlw	$8, %xmm0
	pmullw	%xmm4, %xmm0
	paddw	%xmm1, %xmm0
	pmulhuw	%xmm2, %xmm0
	psllw	$8, %xmm0
	por	%xmm5, %xmm0
	movdqu	(%r9,%r15), %xmm4
	pshufb	.LCPI9_6(%rip), %xmm0
	pcmpeqd	%xmm5, %xmm5
	pxor	%xmm0, %xmm5
	movdqa	%xmm4, %xmm6
	pand	%xmm3, %xmm6
	pandn	%xmm3, %xmm0
	pmullw	%xmm6, %xmm0
	paddw	%xmm1, %xmm0
	pmulhuw	%xmm2, %xmm0
	psrlw	$8, %xmm4
	psrlw	$8, %xmm5
	pmullw	%xmm4, %xmm5
	paddw	%xmm1, %xmm5
	pmulhuw	%xmm2, %xmm5
	psllw	$8, %xmm5
	por	%xmm0, %xmm5
	movdqu	%xmm5, (%r9,%r15)
	cmpl	%ebp, 296(%rsp)
	je	.LBB9_517
.LBB9_515:
	xorl	%r9d, %r9d
	movq	296(%rsp), %rsi
	.p2align	4
.LBB9_516:
	movzbl	3(%r14,%r9,4), %edx
	movq	%rbp, %r8
	movzbl	(%rcx,%r9), %ebp
	imull	%edx, %ebp
	movq	%rbx, %r11
	movl	(%rbx,%r9,4), %ebx
	movzbl	%bh, %edx
	movl	%ebx, %edi
	movzbl	%bl, %r13d
	movl	%ebx, %r15d
	shrl	$16, %r15d
	shrl	$24, %edi
	leal	128(%rbp), %ebx
	movzbl	%bh, %ebx
	addl	%ebp, %ebx
	addl	$128, %ebx
	notl	%ebx
	movzbl	%bh, %ebp
	imull	%ebp, %r13d
	leal	128(%r13), %ebx
	movzbl	%bh, %ebx
	addl	%r13d, %ebx
	addl	$128, %ebx
	movzbl	%bh, %ebx
	imull	%ebp, %edx
	leal	128(%rdx), %eax
	movzbl	%ah, %eax
	addl	%eax, %edx
	addl	$128, %edx
	andl	$65280, %edx
	movzbl	%r15b, %eax
	imull	%ebp, %eax
	movq	%rcx, %r15
	leal	128(%rax), %ecx
	movzbl	%ch, %ecx
	addl	%ecx, %eax
	addl	$128, %eax
	imull	%ebp, %edi
	movq	%r8, %rbp
	leal	128(%rdi), %ecx
	movzbl	%ch, %ecx
	addl	%edi, %ecx
	addl	$128, %ecx
	shll	$16, %ecx
	andl	$-16777216, %ecx
	shll	$8, %eax
	andl	$16711680, %eax
	orl	%ecx, %eax
	movq	%r15, %rcx
	orl	%edx, %eax
	orl	%ebx, %eax
	movq	%r11, %rbx
	movl	%eax, (%r11,%r9,4)
	incq	%rsi
	incq	%r9
	cmpq	%r8, %rsi
	jb	.LBB9_516
	jmp	.LBB9_517
.LBB9_588:
	movq	%r12, 104(%rsp)
	testq	%r15, %r15
	je	.LBB9_1189
	movq	%rbp, 144(%rsp)
	movq	%rbx, %rbp
	shrq	$32, %rbp
	subq	%rsi, %rcx
	movabsq	$4294967296, %rsi
	movq	112(%rsp), %r9
	movq	%r13, 176(%rsp)
	leaq	(%rcx,%rsi), %r13
	leaq	(%rdx,%rsi), %r12
	cmpq	%r13, %r12
	movl	%r8d, 256(%rsp)
	movq	%r13, %r8
	cmovbq	%r12, %r8
	xorl	%r10d, %r10d
	movq	%rsi, %r14
	subq	%r8, %r14
	cmovbq	%r10, %r14
	orq	%rsi, %r15
	subq	%r13, %r15
	cmovbq	%r10, %r15
	movl	%ebx, %r8d
	orq	%rsi, %r8
	subq	%r12, %r8
	cmovbq	%r10, %r8
	cmpl	%eax, %edi
	cmovbl	%edi, %eax
	cmpq	%rax, %r15
	cmovaeq	%rax, %r15
	cmpq	%r15, %r8
	cmovbq	%r8, %r15
	leaq	(%r14,%rcx), %r12
	addq	%r15, %rcx
	addq	%r14, %rdx
	cmpq	%r14, %r15
	cmovbeq	%r10, %r12
	cmovbeq	%r10, %rcx
	cmovbeq	%r10, %rdx
	subq	144(%rsp), %r11
	leaq	(%r11,%rsi), %r8
	movq	72(%rsp), %r15
	leaq	(%r15,%rsi), %rbx
	cmpq	%r8, %rbx
	movq	%r8, %r14
	cmovbq	%rbx, %r14
	movq	%rsi, %rdi
	subq	%r14, %rdi
	cmovbq	%r10, %rdi
	movq	64(%rsp), %r14
	orq	%rsi, %r14
	subq	%r8, %r14
	cmovbq	%r10, %r14
	orq	%rsi, %rbp
	subq	%rbx, %rbp
	cmovbq	%r10, %rbp
	movl	256(%rsp), %eax
	cmpl	%r9d, %eax
	cmovbl	%eax, %r9d
	cmpq	%r9, %r14
	cmovaeq	%r9, %r14
	cmpq	%r14, %rbp
	cmovbq	%rbp, %r14
	leaq	(%rdi,%r11), %rax
	addq	%r14, %r11
	addq	%rdi, %r15
	cmpq	%rdi, %r14
	cmovbeq	%r10, %rax
	cmovbeq	%r10, %r11
	cmovbeq	%r10, %r15
	movq	104(%rsp), %r8
	movl	(%r8), %r8d
	movq	%r12, 200(%rsp)
	movq	%rcx, 208(%rsp)
	movq	%rdx, 216(%rsp)
	movq	%rax, 224(%rsp)
	movq	%r11, 232(%rsp)
	movq	%r15, 240(%rsp)
	movl	%r8d, 40(%rsp)
	leaq	200(%rsp), %rax
	movq	%rax, 32(%rsp)
	movq	56(%rsp), %rcx
	movq	128(%rsp), %rdx
	movq	80(%rsp), %r8
	movq	176(%rsp), %r9
	callq	"pix_raster::view::blit_overlap::<#7b602135e49fc3a4>"
	jmp	.LBB9_1189
.LBB9_951:
	movq	%r8, 104(%rsp)
	testq	%r15, %r15
	je	.LBB9_1189
	movq	%r13, %rdi
	shrq	$32, %rdi
	subq	%rsi, %rcx
	movabsq	$4294967296, %rsi
	movq	%r12, 56(%rsp)
	leaq	(%rcx,%rsi), %r12
	leaq	(%r9,%rsi), %r8
	cmpq	%r12, %r8
	movq	%r10, 144(%rsp)
	movq	%r12, %r10
	cmovbq	%r8, %r10
	xorl	%r11d, %r11d
	movl	%r14d, %r8d
	movq	%rsi, %r14
	subq	%r10, %r14
	cmovbq	%r11, %r14
	orq	%rsi, %r15
	subq	%r12, %r15
	cmovbq	%r11, %r15
	movl	%r13d, %r10d
	orq	%rsi, %r10
	leaq	(%r9,%rsi), %r12
	subq	%r12, %r10
	cmovbq	%r11, %r10
	cmpl	%ebx, %ebp
	cmovbl	%ebp, %ebx
	cmpq	%rbx, %r15
	cmovaeq	%rbx, %r15
	cmpq	%r15, %r10
	cmovbq	%r10, %r15
	leaq	(%r14,%rcx), %rbx
	addq	%r15, %rcx
	addq	%r14, %r9
	cmpq	%r14, %r15
	cmovbeq	%r11, %rbx
	cmovbeq	%r11, %rcx
	cmovbeq	%r11, %r9
	subq	112(%rsp), %rax
	leaq	(%rax,%rsi), %r10
	movq	72(%rsp), %r13
	leaq	(%rsi,%r13), %r15
	cmpq	%r10, %r15
	movq	%r10, %r12
	cmovbq	%r15, %r12
	movq	%rsi, %r14
	subq	%r12, %r14
	cmovbq	%r11, %r14
	movq	64(%rsp), %r12
	orq	%rsi, %r12
	subq	%r10, %r12
	cmovbq	%r11, %r12
	orq	%rsi, %rdi
	subq	%r15, %rdi
	cmovbq	%r11, %rdi
	cmpl	%edx, %r8d
	cmovbl	%r8d, %edx
	cmpq	%rdx, %r12
	cmovaeq	%rdx, %r12
	cmpq	%r12, %rdi
	cmovbq	%rdi, %r12
	leaq	(%r14,%rax), %rdx
	addq	%r12, %rax
	addq	%r14, %r13
	cmpq	%r14, %r12
	cmovbeq	%r11, %rdx
	cmovbeq	%r11, %rax
	cmovbeq	%r11, %r13
	movq	104(%rsp), %r8
	movl	(%r8), %r10d
	movq	%rbx, 200(%rsp)
	movq	%rcx, 208(%rsp)
	movq	%r9, 216(%rsp)
	movq	%rdx, 224(%rsp)
	movq	%rax, 232(%rsp)
	movq	%r13, 240(%rsp)
	movl	%r10d, 40(%rsp)
	leaq	200(%rsp), %rax
	movq	%rax, 32(%rsp)
	movq	56(%rsp), %rcx
	movq	80(%rsp), %rdx
	movq	128(%rsp), %r8
	movq	144(%rsp), %r9
	callq	"pix_raster::view::blit_overlap::<#0658d1f93ab37b52>"
	jmp	.LBB9_1189
.LBB9_770:
	movq	%rdx, 256(%rsp)
	testq	%r15, %r15
	je	.LBB9_1189
	movq	%r13, %rdi
	shrq	$32, %rdi
	subq	%rsi, %r9
	movabsq	$4294967296, %rsi
	leaq	(%r9,%rsi), %r11
	leaq	(%r8,%rsi), %rdx
	cmpq	%r11, %rdx
	movl	%r10d, 176(%rsp)
	movq	%r11, %r10
	cmovbq	%rdx, %r10
	xorl	%r11d, %r11d
	movq	%rcx, 144(%rsp)
	movq	%r12, %rcx
	movq	%rsi, %r12
	subq	%r10, %r12
	cmovbq	%r11, %r12
	orq	%rsi, %r15
	leaq	(%r9,%rsi), %r10
	subq	%r10, %r15
	cmovbq	%r11, %r15
	movl	%r13d, %r10d
	orq	%rsi, %r10
	subq	%rdx, %r10
	cmovbq	%r11, %r10
	cmpl	%ebx, %ebp
	cmovbl	%ebp, %ebx
	cmpq	%rbx, %r15
	cmovaeq	%rbx, %r15
	cmpq	%r15, %r10
	cmovbq	%r10, %r15
	leaq	(%r12,%r9), %rbx
	addq	%r15, %r9
	addq	%r12, %r8
	cmpq	%r12, %r15
	cmovbeq	%r11, %rbx
	cmovbeq	%r11, %r9
	cmovbeq	%r11, %r8
	subq	112(%rsp), %rax
	leaq	(%rax,%rsi), %r10
	leaq	(%r14,%rsi), %r12
	cmpq	%r10, %r12
	movq	%r10, %r13
	cmovbq	%r12, %r13
	movq	%rsi, %r15
	subq	%r13, %r15
	cmovbq	%r11, %r15
	movq	%r14, %r13
	movq	80(%rsp), %r14
	orq	%rsi, %r14
	subq	%r10, %r14
	cmovbq	%r11, %r14
	orq	%rsi, %rdi
	subq	%r12, %rdi
	cmovbq	%r11, %rdi
	movq	72(%rsp), %rdx
	movl	176(%rsp), %r10d
	cmpl	%edx, %r10d
	cmovbl	%r10d, %edx
	cmpq	%rdx, %r14
	cmovaeq	%rdx, %r14
	cmpq	%r14, %rdi
	cmovbq	%rdi, %r14
	leaq	(%r15,%rax), %rdx
	addq	%r14, %rax
	addq	%r15, %r13
	cmpq	%r15, %r14
	cmovbeq	%r11, %rdx
	cmovbeq	%r11, %rax
	cmovbeq	%r11, %r13
	movq	256(%rsp), %r10
	movl	(%r10), %r10d
	movq	%rbx, 200(%rsp)
	movq	%r9, 208(%rsp)
	movq	%r8, 216(%rsp)
	movq	%rdx, 224(%rsp)
	movq	%rax, 232(%rsp)
	movq	%r13, 240(%rsp)
	movl	%r10d, 40(%rsp)
	leaq	200(%rsp), %rax
	movq	%rax, 32(%rsp)
	movq	64(%rsp), %rdx
	movq	128(%rsp), %r8
	movq	144(%rsp), %r9
	callq	"pix_raster::view::blit_overlap::<#09758d48ce65f64e>"
	jmp	.LBB9_1189
.LBB9_590:
	movq	%r12, 104(%rsp)
	movq	%r13, 176(%rsp)
	testq	%r15, %r15
	je	.LBB9_1189
	movq	%rbp, 144(%rsp)
	movl	%r8d, 256(%rsp)
	movq	424(%rsp), %rbp
	movq	%rbp, 168(%rsp)
	movslq	440(%rsp), %r9
	movabsq	$4294967296, %r12
	movq	%rbx, %r10
	shrq	$32, %r10
	shrq	$32, %rbp
	subq	%rsi, %rcx
	leaq	(%rcx,%r12), %r14
	leaq	(%rdx,%r12), %rsi
	cmpq	%r14, %rsi
	movq	%r14, %r8
	cmovbq	%rsi, %r8
	movq	%r9, 248(%rsp)
	addq	%r12, %r9
	cmpq	%r8, %r9
	cmovbq	%r9, %r8
	xorl	%r13d, %r13d
	movq	%r12, %rsi
	subq	%r8, %rsi
	cmovbq	%r13, %rsi
	orq	%r12, %r15
	subq	%r14, %r15
	cmovbq	%r13, %r15
	movl	%ebx, %ebx
	orq	%r12, %rbx
	leaq	(%rdx,%r12), %r8
	subq	%r8, %rbx
	movl	168(%rsp), %r8d
	cmovbq	%r13, %rbx
	orq	%r12, %r8
	subq	%r9, %r8
	movl	$0, %r14d
	movq	%r14, 288(%rsp)
	cmovbq	%r13, %r8
	cmpl	%eax, %edi
	cmovbl	%edi, %eax
	movl	448(%rsp), %edi
	cmpl	%eax, %edi
	cmovbl	%edi, %eax
	cmpq	%rax, %r15
	cmovaeq	%rax, %r15
	movslq	444(%rsp), %r9
	movq	%r9, 312(%rsp)
	cmpq	%r15, %rbx
	cmovbq	%rbx, %r15
	movl	452(%rsp), %edi
	cmpq	%r15, %r8
	cmovbq	%r8, %r15
	movl	$0, %r13d
	movl	$0, %r8d
	movq	%r8, 328(%rsp)
	movl	$0, %r14d
	cmpq	%rsi, %r15
	jbe	.LBB9_593
	leaq	(%rsi,%rcx), %r8
	movq	%r8, 288(%rsp)
	addq	%rcx, %r15
	addq	%rsi, %rdx
	movq	248(%rsp), %r14
	addq	%rsi, %r14
	movq	%r15, %r13
	movq	%rdx, 328(%rsp)
.LBB9_593:
	subq	144(%rsp), %r11
	leaq	(%r11,%r12), %rcx
	movq	72(%rsp), %rdx
	leaq	(%rdx,%r12), %rbx
	movq	312(%rsp), %rdx
	leaq	(%rdx,%r12), %rsi
	cmpq	%rcx, %rbx
	movq	%rcx, %r8
	cmovbq	%rbx, %r8
	cmpq	%r8, %rsi
	cmovbq	%rsi, %r8
	xorl	%r9d, %r9d
	movq	%r12, %rdx
	subq	%r8, %rdx
	cmovbq	%r9, %rdx
	movq	64(%rsp), %r8
	orq	%r12, %r8
	subq	%rcx, %r8
	cmovbq	%r9, %r8
	orq	%r12, %r10
	subq	%rbx, %r10
	cmovbq	%r9, %r10
	orq	%r12, %rbp
	subq	%rsi, %rbp
	cmovbq	%r9, %rbp
	movl	256(%rsp), %r9d
	movq	112(%rsp), %rax
	cmpl	%eax, %r9d
	cmovbl	%r9d, %eax
	cmpl	%eax, %edi
	cmovbl	%edi, %eax
	cmpq	%rax, %r8
	cmovaeq	%rax, %r8
	cmpq	%r8, %r10
	cmovbq	%r10, %r8
	cmpq	%r8, %rbp
	cmovbq	%rbp, %r8
	cmpq	%rdx, %r8
	jbe	.LBB9_1189
	movq	%r8, %rax
	leaq	(%rdx,%r11), %r8
	addq	%r11, %rax
	movq	%rax, 64(%rsp)
	movq	%r8, 456(%rsp)
	cmpq	%rax, %r8
	jae	.LBB9_1189
	movq	432(%rsp), %r11
	movq	%r12, %r8
	movq	72(%rsp), %r12
	leaq	(%rdx,%r12), %rax
	movq	%rax, 464(%rsp)
	addq	%rdx, 312(%rsp)
	movq	104(%rsp), %r9
	leaq	(%r9,%r14), %rax
	movq	%rax, 472(%rsp)
	subq	288(%rsp), %r13
	movq	%r13, %rax
	shrq	$4, %rax
	movq	%rax, 256(%rsp)
	movq	%r13, %rdx
	andq	$-16, %rdx
	movl	%r13d, %eax
	andl	$15, %eax
	movq	%rax, 488(%rsp)
	movl	%r13d, %eax
	andl	$8, %eax
	movq	%rax, 296(%rsp)
	movl	%r13d, %r10d
	andl	$12, %r10d
	addq	%r8, %r12
	cmpq	%rbx, %rcx
	cmovbq	%rcx, %rbx
	leaq	(,%rdx,4), %rdi
	cmpq	%rsi, %rbx
	cmovaeq	%rsi, %rbx
	cmpq	%r8, %rbx
	cmovaeq	%r8, %rbx
	subq	%rbx, %r12
	imulq	176(%rsp), %r12
	movq	328(%rsp), %r15
	leaq	(,%r15,4), %rax
	leaq	(%rax,%r12,4), %r8
	subq	%rbx, %rsi
	movq	128(%rsp), %rbp
	movq	%rbp, %rax
	movq	%r14, %rcx
	movq	456(%rsp), %r14
	imulq	%r14, %rax
	movq	%r11, 168(%rsp)
	imulq	%r11, %rsi
	addq	%rcx, %rsi
	movq	%rdx, 248(%rsp)
	movq	%r10, 280(%rsp)
	leaq	(%rdx,%r10), %rbx
	addq	%r9, %rbx
	addq	%rsi, %r9
	addq	%rsi, %rbx
	movq	288(%rsp), %r11
	leaq	(,%r11,4), %rcx
	leaq	(%rcx,%rax,4), %r10
	leaq	(%rdi,%r12,4), %rcx
	movq	%r13, 104(%rsp)
	leal	(,%r13,4), %edx
	andl	$48, %edx
	addq	%rdx, %rcx
	movq	%rdi, 480(%rsp)
	leaq	(%rdi,%rax,4), %rax
	addq	%rdx, %rax
	movq	80(%rsp), %rsi
	addq	%rsi, %r8
	movq	56(%rsp), %rdx
	addq	%rdx, %r10
	leaq	(%rcx,%r15,4), %r15
	addq	%rsi, %r15
	leaq	(%rax,%r11,4), %r12
	addq	%rdx, %r12
	movq	176(%rsp), %rax
	leaq	(,%rax,4), %rax
	movq	%rax, 320(%rsp)
	leaq	(,%rbp,4), %rax
	movq	%rax, 304(%rsp)
	movq	488(%rsp), %r11
	movq	%r14, 112(%rsp)
	jmp	.LBB9_596
.LBB9_607:
	movq	112(%rsp), %rsi
	incq	%rsi
	movq	144(%rsp), %r8
	movq	320(%rsp), %rcx
	addq	%rcx, %r8
	movq	304(%rsp), %rdx
	addq	%rdx, %r10
	movq	168(%rsp), %rax
	movq	72(%rsp), %r9
	addq	%rax, %r9
	addq	%rax, %rbx
	addq	%rcx, %r15
	addq	%rdx, %r12
	movq	%rsi, 112(%rsp)
	cmpq	64(%rsp), %rsi
	je	.LBB9_1189
.LBB9_596:
	cmpq	$0, 256(%rsp)
	je	.LBB9_599
	movl	$8, %edi
	movq	256(%rsp), %r13
	.p2align	4
.LBB9_598:
	movdqu	-32(%r8,%rdi,4), %xmm4
	movdqu	-16(%r8,%rdi,4), %xmm3
	movq	-8(%r9,%rdi), %xmm5
	punpcklbw	%xmm5, %xmm5
	movdqa	%xmm5, %xmm7
	punpcklwd	%xmm5, %xmm7
	punpckhwd	%xmm5, %xmm5
	movdqa	.LCPI9_0(%rip), %xmm0
	movdqa	%xmm3, %xmm1
	pand	%xmm0, %xmm1
	movdqa	%xmm4, %xmm2
	pand	%xmm0, %xmm2
	movdqa	%xmm5, %xmm8
	pand	%xmm0, %xmm8
	pmullw	%xmm1, %xmm8
	movdqa	%xmm7, %xmm9
	pand	%xmm0, %xmm9
	pmullw	%xmm2, %xmm9
	movdqa	.LCPI9_1(%rip), %xmm1
	paddw	%xmm1, %xmm8
	paddw	%xmm1, %xmm9
	movdqa	.LCPI9_2(%rip), %xmm2
	pmulhuw	%xmm2, %xmm9
	pmulhuw	%xmm2, %xmm8
	psrlw	$8, %xmm4
	psrlw	$8, %xmm3
	psrlw	$8, %xmm7
	pmullw	%xmm4, %xmm7
	psrlw	$8, %xmm5
	pmullw	%xmm3, %xmm5
	paddw	%xmm1, %xmm7
	paddw	%xmm1, %xmm5
	pmulhuw	%xmm2, %xmm5
	pmulhuw	%xmm2, %xmm7
	psllw	$8, %xmm7
	psllw	$8, %xmm5
	movdqu	-32(%r10,%rdi,4), %xmm10
	movdqu	-16(%r10,%rdi,4), %xmm11
	movdqu	(%r10,%rdi,4), %xmm3
	movdqu	16(%r10,%rdi,4), %xmm4
	movdqa	.LCPI9_5(%rip), %xmm6
	pshufb	%xmm6, %xmm11
	pshufb	%xmm6, %xmm10
	por	%xmm8, %xmm5
	por	%xmm9, %xmm7
	pmullw	%xmm10, %xmm9
	pmullw	%xmm11, %xmm8
	paddw	%xmm1, %xmm8
	paddw	%xmm1, %xmm9
	pmulhuw	%xmm2, %xmm9
	pmulhuw	%xmm2, %xmm8
	psrlw	$8, %xmm7
	psrlw	$8, %xmm5
	pmullw	%xmm11, %xmm5
	pmullw	%xmm10, %xmm7
	paddw	%xmm1, %xmm7
	paddw	%xmm1, %xmm5
	pmulhuw	%xmm2, %xmm5
	pmulhuw	%xmm2, %xmm7
	psllw	$8, %xmm7
	por	%xmm9, %xmm7
	psllw	$8, %xmm5
	por	%xmm8, %xmm5
	movdqu	%xmm7, -32(%r10,%rdi,4)
	movdqu	%xmm5, -16(%r10,%rdi,4)
	movdqu	(%r8,%rdi,4), %xmm10
	movdqu	16(%r8,%rdi,4), %xmm9
	movq	(%r9,%rdi), %xmm5
	punpcklbw	%xmm5, %xmm5
	movdqa	%xmm5, %xmm7
	punpcklwd	%xmm5, %xmm7
	punpckhwd	%xmm5, %xmm5
	movdqa	%xmm9, %xmm11
	pand	%xmm0, %xmm11
	movdqa	%xmm10, %xmm12
	pand	%xmm0, %xmm12
	movdqa	%xmm5, %xmm8
	pand	%xmm0, %xmm8
	pmullw	%xmm11, %xmm8
	pand	%xmm7, %xmm0
	pmullw	%xmm12, %xmm0
	paddw	%xmm1, %xmm8
	paddw	%xmm1, %xmm0
	pmulhuw	%xmm2, %xmm0
	pmulhuw	%xmm2, %xmm8
	psrlw	$8, %xmm10
	psrlw	$8, %xmm9
	psrlw	$8, %xmm7
	pmullw	%xmm10, %xmm7
	psrlw	$8, %xmm5
	pmullw	%xmm9, %xmm5
	paddw	%xmm1, %xmm7
	paddw	%xmm1, %xmm5
	pmulhuw	%xmm2, %xmm5
	pmulhuw	%xmm2, %xmm7
	psllw	$8, %xmm7
	psllw	$8, %xmm5
	pshufb	%xmm6, %xmm4
	pshufb	%xmm6, %xmm3
	por	%xmm8, %xmm5
	por	%xmm0, %xmm7
	pmullw	%xmm3, %xmm0
	pmullw	%xmm4, %xmm8
	paddw	%xmm1, %xmm8
	paddw	%xmm1, %xmm0
	pmulhuw	%xmm2, %xmm0
	pmulhuw	%xmm2, %xmm8
	psrlw	$8, %xmm7
	psrlw	$8, %xmm5
	pmullw	%xmm4, %xmm5
	pmullw	%xmm3, %xmm7
	paddw	%xmm1, %xmm7
	paddw	%xmm1, %xmm5
	pmulhuw	%xmm2, %xmm5
	pmulhuw	%xmm2, %xmm7
	psllw	$8, %xmm7
	por	%xmm0, %xmm7
	psllw	$8, %xmm5
	por	%xmm8, %xmm5
	movdqu	%xmm7, (%r10,%rdi,4)
	movdqu	%xmm5, 16(%r10,%rdi,4)
	addq	$16, %rdi
	decq	%r13
	jne	.LBB9_598
.LBB9_599:
	movq	%r8, 144(%rsp)
	movq	%r9, 72(%rsp)
	movq	248(%rsp), %rax
	cmpq	104(%rsp), %rax
	je	.LBB9_607
	movq	112(%rsp), %rdi
	movq	%rdi, %rax
	imulq	128(%rsp), %rax
	addq	288(%rsp), %rax
	subq	456(%rsp), %rdi
	movq	464(%rsp), %rcx
	addq	%rdi, %rcx
	imulq	176(%rsp), %rcx
	addq	328(%rsp), %rcx
	addq	312(%rsp), %rdi
	imulq	168(%rsp), %rdi
	addq	472(%rsp), %rdi
	movq	56(%rsp), %rdx
	leaq	(%rdx,%rax,4), %rsi
	movq	80(%rsp), %rax
	leaq	(%rax,%rcx,4), %r13
	movq	480(%rsp), %rax
	addq	%rax, %rsi
	addq	%rax, %r13
	addq	248(%rsp), %rdi
	cmpq	$0, 296(%rsp)
	jne	.LBB9_601
	testb	$4, 104(%rsp)
	jne	.LBB9_603
.LBB9_604:
	cmpl	%r11d, 280(%rsp)
	je	.LBB9_607
	jmp	.LBB9_605
.LBB9_601:
	movdqu	(%r13), %xmm7
	movdqu	16(%r13), %xmm6
	movq	(%rdi), %xmm0
	punpcklbw	%xmm0, %xmm0
	movdqa	%xmm0, %xmm1
	punpcklwd	%xmm0, %xmm1
	punpckhwd	%xmm0, %xmm0
	movdqa	.LCPI9_0(%rip), %xmm2
	movdqa	%xmm6, %xmm4
	pand	%xmm2, %xmm4
	movdqa	%xmm7, %xmm5
	pand	%xmm2, %xmm5
	movdqa	%xmm0, %xmm3
	pand	%xmm2, %xmm3
	pmullw	%xmm4, %xmm3
	pand	%xmm1, %xmm2
	pmullw	%xmm5, %xmm2
	movdqa	.LCPI9_1(%rip), %xmm4
	paddw	%xmm4, %xmm3
	paddw	%xmm4, %xmm2
	movdqa	.LCPI9_2(%rip), %xmm5
	pmulhuw	%xmm5, %xmm2
	pmulhuw	%xmm5, %xmm3
	psrlw	$8, %xmm7
	psrlw	$8, %xmm6
	psrlw	$8, %xmm1
	pmullw	%xmm7, %xmm1
	psrlw	$8, %xmm0
	pmullw	%xmm6, %xmm0
	paddw	%xmm4, %xmm1
	paddw	%xmm4, %xmm0
	pmulhuw	%xmm5, %xmm0
	pmulhuw	%xmm5, %xmm1
	psllw	$8, %xmm1
	psllw	$8, %xmm0
	movdqu	(%rsi), %xmm6
	movdqu	16(%rsi), %xmm7
	movdqa	.LCPI9_5(%rip), %xmm8
	pshufb	%xmm8, %xmm7
	pshufb	%xmm8, %xmm6
	por	%xmm3, %xmm0
	por	%xmm2, %xmm1
	pmullw	%xmm6, %xmm2
	pmullw	%xmm7, %xmm3
	paddw	%xmm4, %xmm3
	paddw	%xmm4, %xmm2
	pmulhuw	%xmm5, %xmm2
	pmulhuw	%xmm5, %xmm3
	psrlw	$8, %xmm1
	psrlw	$8, %xmm0
	pmullw	%xmm7, %xmm0
	pmullw	%xmm6, %xmm1
	paddw	%xmm4, %xmm1
	paddw	%xmm4, %xmm0
	pmulhuw	%xmm5, %xmm0
	pmulhuw	%xmm5, %xmm1
	psllw	$8, %xmm1
	por	%xmm2, %xmm1
	psllw	$8, %xmm0
	por	%xmm3, %xmm0
	movdqu	%xmm1, (%rsi)
	movdqu	%xmm0, 16(%rsi)
	testb	$4, 104(%rsp)
	je	.LBB9_604
.LBB9_603:
	movq	296(%rsp), %rax
	leal	(,%rax,4), %ebp
	movdqu	(%r13,%rbp), %xmm4
	movd	(%rdi,%rax), %xmm1
	punpcklbw	%xmm1, %xmm1
	punpcklwd	%xmm1, %xmm1
	movdqa	.LCPI9_0(%rip), %xmm0
	movdqa	%xmm4, %xmm2
	pand	%xmm0, %xmm2
	movdqa	%xmm1, %xmm5
	pand	%xmm0, %xmm5
	pmullw	%xmm2, %xmm5
	movdqa	.LCPI9_1(%rip), %xmm2
	paddw	%xmm2, %xmm5
	movdqa	.LCPI9_2(%rip), %xmm3
	pmulhuw	%xmm3, %xmm5
	psrlw	$8, %xmm4
	psrlw	$8, %xmm1
	pmullw	%xmm4, %xmm1
	paddw	%xmm2, %xmm1
	pmulhuw	%xmm3, %xmm1
	psllw	$8, %xmm1
	movdqu	(%rsi,%rbp), %xmm4
	por	%xmm5, %xmm1
	pshufb	.LCPI9_6(%rip), %xmm4
	pand	%xmm4, %xmm0
	pmullw	%xmm5, %xmm0
	paddw	%xmm2, %xmm0
	pmulhuw	%xmm3, %xmm0
	psrlw	$8, %xmm1
	psrlw	$8, %xmm4
	pmullw	%xmm1, %xmm4
	paddw	%xmm2, %xmm4
	pmulhuw	%xmm3, %xmm4
	psllw	$8, %xmm4
	por	%xmm0, %xmm4
	movdqu	%xmm4, (%rsi,%rbp)
	cmpl	%r11d, 280(%rsp)
	je	.LBB9_607
.LBB9_605:
	xorl	%esi, %esi
	movq	280(%rsp), %rdi
	.p2align	4
.LBB9_606:
	movl	(%r15,%rsi,4), %eax
	movzbl	(%rbx,%rsi), %ebp
	movzbl	3(%r12,%rsi,4), %r13d
	movq	%r15, %r9
	movq	%rbx, %r15
	movzbl	%ah, %ebx
	movl	%eax, %edx
	movzbl	%al, %ecx
	movl	%eax, %r14d
	shrl	$16, %r14d
	shrl	$24, %edx
	imull	%ebp, %ecx
	leal	128(%rcx), %eax
	movzbl	%ah, %eax
	addl	%ecx, %eax
	addl	$128, %eax
	movzbl	%ah, %eax
	imull	%ebp, %ebx
	leal	128(%rbx), %ecx
	movzbl	%ch, %ecx
	addl	%ebx, %ecx
	addl	$128, %ecx
	movzbl	%ch, %ecx
	movq	%r12, %r8
	movq	%r11, %r12
	movzbl	%r14b, %r11d
	imull	%r13d, %eax
	leal	128(%rax), %ebx
	movzbl	%bh, %ebx
	addl	%ebx, %eax
	addl	$128, %eax
	movzbl	%ah, %ebx
	imull	%r13d, %ecx
	leal	128(%rcx), %eax
	movzbl	%ah, %eax
	leal	(%rax,%rcx), %r14d
	addl	$128, %r14d
	andl	$65280, %r14d
	movd	%r11d, %xmm0
	movq	%r12, %r11
	movq	%r8, %r12
	pinsrw	$1, %edx, %xmm0
	movd	%ebp, %xmm1
	pshuflw	$0, %xmm1, %xmm1
	pmullw	%xmm0, %xmm1
	movdqa	.LCPI9_11(%rip), %xmm0
	paddw	%xmm0, %xmm1
	movdqa	%xmm1, %xmm2
	psrlw	$8, %xmm2
	paddw	%xmm1, %xmm2
	psrlw	$8, %xmm2
	movd	%r13d, %xmm1
	pshuflw	$0, %xmm1, %xmm1
	pmullw	%xmm2, %xmm1
	paddw	%xmm0, %xmm1
	movdqa	%xmm1, %xmm0
	psrlw	$8, %xmm0
	paddw	%xmm1, %xmm0
	psrlw	$8, %xmm0
	movdqa	%xmm0, %xmm1
	pslld	$16, %xmm1
	pshufb	.LCPI9_12(%rip), %xmm0
	por	%xmm1, %xmm0
	movd	%xmm0, %eax
	orl	%r14d, %eax
	orl	%ebx, %eax
	movq	%r15, %rbx
	movq	%r9, %r15
	movl	%eax, (%r8,%rsi,4)
	incq	%rdi
	incq	%rsi
	cmpq	%r11, %rdi
	jb	.LBB9_606
	jmp	.LBB9_607
.LBB9_953:
	movq	%r8, 104(%rsp)
	movq	%r10, 144(%rsp)
	movq	%r12, 56(%rsp)
	testq	%r15, %r15
	je	.LBB9_1189
	movl	%r14d, 176(%rsp)
	movq	424(%rsp), %rdi
	movq	%rdi, 256(%rsp)
	movslq	440(%rsp), %r12
	movabsq	$4294967296, %r8
	movq	%r13, %r11
	shrq	$32, %r11
	shrq	$32, %rdi
	subq	%rsi, %rcx
	leaq	(%rcx,%r8), %r14
	leaq	(%r9,%r8), %rsi
	cmpq	%r14, %rsi
	movq	%r14, %r10
	cmovbq	%rsi, %r10
	movq	%r12, 248(%rsp)
	leaq	(%r12,%r8), %rsi
	movq	%rsi, 168(%rsp)
	cmpq	%r10, %rsi
	cmovbq	%rsi, %r10
	xorl	%r12d, %r12d
	movq	%r8, %rsi
	subq	%r10, %rsi
	cmovbq	%r12, %rsi
	orq	%r8, %r15
	subq	%r14, %r15
	cmovbq	%r12, %r15
	movl	%r13d, %r13d
	orq	%r8, %r13
	leaq	(%r9,%r8), %r10
	subq	%r10, %r13
	movl	256(%rsp), %r10d
	cmovbq	%r12, %r13
	orq	%r8, %r10
	subq	168(%rsp), %r10
	movl	$0, %r14d
	movq	%r14, 280(%rsp)
	cmovbq	%r12, %r10
	cmpl	%ebx, %ebp
	cmovbl	%ebp, %ebx
	movl	448(%rsp), %ebp
	cmpl	%ebx, %ebp
	cmovbl	%ebp, %ebx
	cmpq	%rbx, %r15
	cmovaeq	%rbx, %r15
	movslq	444(%rsp), %rbx
	movq	%rbx, 304(%rsp)
	cmpq	%r15, %r13
	cmovbq	%r13, %r15
	movl	452(%rsp), %ebx
	cmpq	%r15, %r10
	cmovbq	%r10, %r15
	movl	$0, %r12d
	movl	$0, %r10d
	movq	%r10, 288(%rsp)
	movl	$0, %ebp
	cmpq	%rsi, %r15
	jbe	.LBB9_956
	leaq	(%rsi,%rcx), %r10
	movq	%r10, 280(%rsp)
	addq	%rcx, %r15
	addq	%rsi, %r9
	movq	248(%rsp), %rbp
	addq	%rsi, %rbp
	movq	%r15, %r12
	movq	%r9, 288(%rsp)
.LBB9_956:
	subq	112(%rsp), %rax
	leaq	(%rax,%r8), %rsi
	movq	72(%rsp), %rcx
	addq	%r8, %rcx
	movq	304(%rsp), %r9
	addq	%r8, %r9
	cmpq	%rsi, %rcx
	movq	%rsi, %r10
	cmovbq	%rcx, %r10
	cmpq	%r10, %r9
	cmovbq	%r9, %r10
	xorl	%r14d, %r14d
	movq	%r8, %r15
	subq	%r10, %r15
	cmovbq	%r14, %r15
	movq	64(%rsp), %r10
	orq	%r8, %r10
	subq	%rsi, %r10
	cmovbq	%r14, %r10
	orq	%r8, %r11
	subq	%rcx, %r11
	cmovbq	%r14, %r11
	orq	%r8, %rdi
	subq	%r9, %rdi
	cmovbq	%r14, %rdi
	movl	176(%rsp), %r14d
	cmpl	%edx, %r14d
	cmovbl	%r14d, %edx
	cmpl	%edx, %ebx
	cmovbl	%ebx, %edx
	cmpq	%rdx, %r10
	cmovaeq	%rdx, %r10
	cmpq	%r10, %r11
	cmovbq	%r11, %r10
	cmpq	%r10, %rdi
	cmovbq	%rdi, %r10
	cmpq	%r15, %r10
	jbe	.LBB9_1189
	movq	%r10, %rdx
	leaq	(%r15,%rax), %r10
	addq	%rax, %rdx
	movq	%rdx, 64(%rsp)
	movq	%r10, 328(%rsp)
	cmpq	%rdx, %r10
	jae	.LBB9_1189
	movq	432(%rsp), %rax
	movq	%rax, 256(%rsp)
	movq	%r8, %r10
	movq	72(%rsp), %r8
	leaq	(%r15,%r8), %rax
	movq	%rax, 456(%rsp)
	addq	%r15, 304(%rsp)
	movq	104(%rsp), %r11
	leaq	(%r11,%rbp), %rax
	movq	%rax, 464(%rsp)
	movq	%r12, %rdx
	subq	280(%rsp), %rdx
	movq	%rdx, %rax
	shrq	$4, %rax
	movq	%rax, 176(%rsp)
	movq	%rdx, %r14
	andq	$-16, %r14
	movl	%edx, %ebx
	andl	$15, %ebx
	movl	%edx, %eax
	andl	$8, %eax
	movq	%rax, 312(%rsp)
	movl	%edx, %r12d
	andl	$12, %r12d
	addq	%r10, %r8
	cmpq	%rcx, %rsi
	cmovbq	%rsi, %rcx
	leaq	(,%r14,4), %rsi
	cmpq	%r9, %rcx
	cmovaeq	%r9, %rcx
	cmpq	%r10, %rcx
	cmovaeq	%r10, %rcx
	subq	%rcx, %r8
	imulq	144(%rsp), %r8
	movq	288(%rsp), %r15
	leaq	(,%r15,4), %rax
	leaq	(%rax,%r8,4), %r10
	subq	%rcx, %r9
	movq	80(%rsp), %rdi
	movq	%rdi, %rax
	movq	328(%rsp), %r13
	imulq	%r13, %rax
	imulq	256(%rsp), %r9
	addq	%rbp, %r9
	movq	%r14, 168(%rsp)
	movq	%r12, 296(%rsp)
	addq	%r12, %r14
	addq	%r11, %r14
	addq	%r9, %r11
	addq	%r9, %r14
	movq	280(%rsp), %rbp
	leaq	(,%rbp,4), %rcx
	leaq	(%rcx,%rax,4), %r12
	leaq	(%rsi,%r8,4), %rcx
	movq	%rdx, 104(%rsp)
	leal	(,%rdx,4), %edx
	andl	$48, %edx
	addq	%rdx, %rcx
	movq	%rsi, 472(%rsp)
	leaq	(%rsi,%rax,4), %r8
	addq	%rdx, %r8
	movq	128(%rsp), %r9
	addq	%r9, %r10
	movq	56(%rsp), %rdx
	addq	%rdx, %r12
	leaq	(%rcx,%r15,4), %rax
	addq	%r9, %rax
	leaq	(%r8,%rbp,4), %rcx
	addq	%rdx, %rcx
	movq	144(%rsp), %rdx
	leaq	(,%rdx,4), %rdx
	movq	%rdx, 248(%rsp)
	leaq	(,%rdi,4), %rdx
	movq	%rdx, 320(%rsp)
	movq	%r13, 112(%rsp)
	movq	%rcx, %r13
	jmp	.LBB9_959
.LBB9_970:
	movq	112(%rsp), %r9
	incq	%r9
	movq	248(%rsp), %rdx
	addq	%rdx, %r10
	movq	320(%rsp), %r8
	addq	%r8, %r12
	movq	256(%rsp), %rcx
	movq	72(%rsp), %r11
	addq	%rcx, %r11
	addq	%rcx, %r14
	addq	%rdx, %rax
	addq	%r8, %r13
	movq	%r9, 112(%rsp)
	cmpq	64(%rsp), %r9
	je	.LBB9_1189
.LBB9_959:
	cmpq	$0, 176(%rsp)
	je	.LBB9_962
	movl	$8, %r9d
	movq	176(%rsp), %r15
	.p2align	4
.LBB9_961:
	movdqu	-32(%r10,%r9,4), %xmm3
	movdqu	-16(%r10,%r9,4), %xmm5
	movq	-8(%r11,%r9), %xmm7
	punpcklbw	%xmm7, %xmm7
	movdqa	%xmm7, %xmm8
	punpckhwd	%xmm7, %xmm8
	punpcklwd	%xmm7, %xmm7
	movdqa	.LCPI9_0(%rip), %xmm0
	movdqa	%xmm3, %xmm1
	pand	%xmm0, %xmm1
	movdqa	%xmm5, %xmm2
	pand	%xmm0, %xmm2
	movdqa	%xmm7, %xmm9
	pand	%xmm0, %xmm9
	pmullw	%xmm1, %xmm9
	movdqa	%xmm8, %xmm4
	pand	%xmm0, %xmm4
	pmullw	%xmm2, %xmm4
	movdqa	.LCPI9_1(%rip), %xmm2
	paddw	%xmm2, %xmm9
	paddw	%xmm2, %xmm4
	movdqa	.LCPI9_2(%rip), %xmm1
	pmulhuw	%xmm1, %xmm4
	pmulhuw	%xmm1, %xmm9
	psrlw	$8, %xmm5
	psrlw	$8, %xmm3
	psrlw	$8, %xmm8
	pmullw	%xmm5, %xmm8
	psrlw	$8, %xmm7
	pmullw	%xmm3, %xmm7
	paddw	%xmm2, %xmm8
	paddw	%xmm2, %xmm7
	pmulhuw	%xmm1, %xmm7
	pmulhuw	%xmm1, %xmm8
	psllw	$8, %xmm8
	psllw	$8, %xmm7
	por	%xmm9, %xmm7
	por	%xmm4, %xmm8
	pcmpeqd	%xmm5, %xmm5
	movdqa	%xmm8, %xmm12
	pxor	%xmm5, %xmm12
	movdqa	%xmm7, %xmm13
	pxor	%xmm5, %xmm13
	movdqa	.LCPI9_5(%rip), %xmm6
	pshufb	%xmm6, %xmm13
	pshufb	%xmm6, %xmm12
	movdqu	-32(%r12,%r9,4), %xmm10
	movdqu	-16(%r12,%r9,4), %xmm11
	movdqa	%xmm10, %xmm3
	pxor	%xmm5, %xmm3
	pshufb	%xmm6, %xmm3
	pand	%xmm0, %xmm9
	pmullw	%xmm3, %xmm9
	psrlw	$8, %xmm7
	pmullw	%xmm3, %xmm7
	movdqa	%xmm11, %xmm3
	pxor	%xmm5, %xmm3
	pshufb	%xmm6, %xmm3
	pand	%xmm0, %xmm4
	pmullw	%xmm3, %xmm4
	psrlw	$8, %xmm8
	pmullw	%xmm3, %xmm8
	movdqu	(%r12,%r9,4), %xmm3
	paddw	%xmm2, %xmm4
	pmulhuw	%xmm1, %xmm4
	paddw	%xmm2, %xmm8
	pmulhuw	%xmm1, %xmm8
	psllw	$8, %xmm8
	por	%xmm4, %xmm8
	movdqu	16(%r12,%r9,4), %xmm4
	paddw	%xmm2, %xmm9
	pmulhuw	%xmm1, %xmm9
	paddw	%xmm2, %xmm7
	pmulhuw	%xmm1, %xmm7
	psllw	$8, %xmm7
	por	%xmm9, %xmm7
	movdqa	%xmm10, %xmm9
	pand	%xmm0, %xmm9
	pmullw	%xmm13, %xmm9
	psrlw	$8, %xmm10
	pmullw	%xmm13, %xmm10
	movdqa	%xmm11, %xmm13
	pand	%xmm0, %xmm13
	pmullw	%xmm12, %xmm13
	paddw	%xmm2, %xmm9
	paddw	%xmm2, %xmm13
	pmulhuw	%xmm1, %xmm13
	pmulhuw	%xmm1, %xmm9
	psrlw	$8, %xmm11
	pmullw	%xmm12, %xmm11
	paddw	%xmm2, %xmm11
	paddw	%xmm2, %xmm10
	pmulhuw	%xmm1, %xmm10
	pmulhuw	%xmm1, %xmm11
	psllw	$8, %xmm11
	por	%xmm13, %xmm11
	paddusb	%xmm8, %xmm11
	psllw	$8, %xmm10
	por	%xmm9, %xmm10
	paddusb	%xmm7, %xmm10
	movdqu	%xmm10, -32(%r12,%r9,4)
	movdqu	%xmm11, -16(%r12,%r9,4)
	movdqu	(%r10,%r9,4), %xmm11
	movdqu	16(%r10,%r9,4), %xmm12
	movq	(%r11,%r9), %xmm7
	punpcklbw	%xmm7, %xmm7
	movdqa	%xmm7, %xmm8
	punpckhwd	%xmm7, %xmm8
	punpcklwd	%xmm7, %xmm7
	movdqa	%xmm11, %xmm10
	pand	%xmm0, %xmm10
	movdqa	%xmm12, %xmm13
	pand	%xmm0, %xmm13
	movdqa	%xmm7, %xmm9
	pand	%xmm0, %xmm9
	pmullw	%xmm10, %xmm9
	movdqa	%xmm8, %xmm10
	pand	%xmm0, %xmm10
	pmullw	%xmm13, %xmm10
	paddw	%xmm2, %xmm9
	paddw	%xmm2, %xmm10
	pmulhuw	%xmm1, %xmm10
	pmulhuw	%xmm1, %xmm9
	psrlw	$8, %xmm12
	psrlw	$8, %xmm11
	psrlw	$8, %xmm8
	pmullw	%xmm12, %xmm8
	psrlw	$8, %xmm7
	pmullw	%xmm11, %xmm7
	paddw	%xmm2, %xmm8
	paddw	%xmm2, %xmm7
	pmulhuw	%xmm1, %xmm7
	pmulhuw	%xmm1, %xmm8
	psllw	$8, %xmm8
	psllw	$8, %xmm7
	por	%xmm9, %xmm7
	por	%xmm10, %xmm8
	movdqa	%xmm8, %xmm11
	pxor	%xmm5, %xmm11
	movdqa	%xmm7, %xmm12
	pxor	%xmm5, %xmm12
	pshufb	%xmm6, %xmm12
	pshufb	%xmm6, %xmm11
	movdqa	%xmm4, %xmm13
	pxor	%xmm5, %xmm13
	pxor	%xmm3, %xmm5
	pshufb	%xmm6, %xmm5
	pshufb	%xmm6, %xmm13
	pand	%xmm0, %xmm9
	pmullw	%xmm5, %xmm9
	psrlw	$8, %xmm7
	pmullw	%xmm5, %xmm7
	pand	%xmm0, %xmm10
	pmullw	%xmm13, %xmm10
	psrlw	$8, %xmm8
	pmullw	%xmm13, %xmm8
	paddw	%xmm2, %xmm10
	pmulhuw	%xmm1, %xmm10
	paddw	%xmm2, %xmm8
	pmulhuw	%xmm1, %xmm8
	psllw	$8, %xmm8
	por	%xmm10, %xmm8
	paddw	%xmm2, %xmm9
	pmulhuw	%xmm1, %xmm9
	paddw	%xmm2, %xmm7
	pmulhuw	%xmm1, %xmm7
	psllw	$8, %xmm7
	por	%xmm9, %xmm7
	movdqa	%xmm3, %xmm5
	pand	%xmm0, %xmm5
	pmullw	%xmm12, %xmm5
	psrlw	$8, %xmm3
	pmullw	%xmm12, %xmm3
	pand	%xmm4, %xmm0
	pmullw	%xmm11, %xmm0
	psrlw	$8, %xmm4
	pmullw	%xmm11, %xmm4
	paddw	%xmm2, %xmm5
	paddw	%xmm2, %xmm0
	paddw	%xmm2, %xmm4
	paddw	%xmm2, %xmm3
	pmulhuw	%xmm1, %xmm0
	pmulhuw	%xmm1, %xmm5
	pmulhuw	%xmm1, %xmm3
	pmulhuw	%xmm1, %xmm4
	psllw	$8, %xmm4
	por	%xmm0, %xmm4
	paddusb	%xmm8, %xmm4
	psllw	$8, %xmm3
	por	%xmm5, %xmm3
	paddusb	%xmm7, %xmm3
	movdqu	%xmm3, (%r12,%r9,4)
	movdqu	%xmm4, 16(%r12,%r9,4)
	addq	$16, %r9
	decq	%r15
	jne	.LBB9_961
.LBB9_962:
	movq	%r11, 72(%rsp)
	movq	168(%rsp), %rcx
	cmpq	104(%rsp), %rcx
	je	.LBB9_970
	movq	112(%rsp), %rsi
	movq	%rsi, %rcx
	imulq	80(%rsp), %rcx
	addq	280(%rsp), %rcx
	subq	328(%rsp), %rsi
	movq	456(%rsp), %rdx
	addq	%rsi, %rdx
	imulq	144(%rsp), %rdx
	addq	288(%rsp), %rdx
	addq	304(%rsp), %rsi
	imulq	256(%rsp), %rsi
	addq	464(%rsp), %rsi
	movq	56(%rsp), %r8
	leaq	(%r8,%rcx,4), %r9
	movq	128(%rsp), %rcx
	leaq	(%rcx,%rdx,4), %r15
	movq	472(%rsp), %rcx
	addq	%rcx, %r9
	addq	%rcx, %r15
	addq	168(%rsp), %rsi
	cmpq	$0, 312(%rsp)
	jne	.LBB9_964
	testb	$4, 104(%rsp)
	jne	.LBB9_966
.LBB9_967:
	cmpl	%ebx, 296(%rsp)
	je	.LBB9_970
	jmp	.LBB9_968
.LBB9_964:
	movdqu	(%r15), %xmm6
	movdqu	16(%r15), %xmm7
	movq	(%rsi), %xmm0
	punpcklbw	%xmm0, %xmm0
	movdqa	%xmm0, %xmm1
	punpckhwd	%xmm0, %xmm1
	punpcklwd	%xmm0, %xmm0
	movdqa	.LCPI9_0(%rip), %xmm2
	movdqa	%xmm6, %xmm3
	pand	%xmm2, %xmm3
	movdqa	%xmm7, %xmm4
	pand	%xmm2, %xmm4
	movdqa	%xmm0, %xmm5
	pand	%xmm2, %xmm5
	pmullw	%xmm3, %xmm5
	movdqa	%xmm1, %xmm8
	pand	%xmm2, %xmm8
	pmullw	%xmm4, %xmm8
	movdqa	.LCPI9_1(%rip), %xmm3
	paddw	%xmm3, %xmm5
	paddw	%xmm3, %xmm8
	movdqa	.LCPI9_2(%rip), %xmm4
	pmulhuw	%xmm4, %xmm8
	pmulhuw	%xmm4, %xmm5
	psrlw	$8, %xmm7
	psrlw	$8, %xmm6
	psrlw	$8, %xmm1
	pmullw	%xmm7, %xmm1
	psrlw	$8, %xmm0
	pmullw	%xmm6, %xmm0
	paddw	%xmm3, %xmm1
	paddw	%xmm3, %xmm0
	pmulhuw	%xmm4, %xmm0
	pmulhuw	%xmm4, %xmm1
	psllw	$8, %xmm1
	psllw	$8, %xmm0
	por	%xmm5, %xmm0
	por	%xmm8, %xmm1
	movdqu	(%r9), %xmm6
	movdqu	16(%r9), %xmm7
	pcmpeqd	%xmm11, %xmm11
	movdqa	%xmm1, %xmm9
	pxor	%xmm11, %xmm9
	movdqa	%xmm0, %xmm10
	pxor	%xmm11, %xmm10
	movdqa	.LCPI9_5(%rip), %xmm12
	pshufb	%xmm12, %xmm10
	pshufb	%xmm12, %xmm9
	movdqa	%xmm7, %xmm13
	pxor	%xmm11, %xmm13
	pxor	%xmm6, %xmm11
	pshufb	%xmm12, %xmm11
	pshufb	%xmm12, %xmm13
	pand	%xmm2, %xmm5
	pand	%xmm2, %xmm8
	pmullw	%xmm13, %xmm8
	pmullw	%xmm11, %xmm5
	paddw	%xmm3, %xmm5
	paddw	%xmm3, %xmm8
	pmulhuw	%xmm4, %xmm8
	pmulhuw	%xmm4, %xmm5
	psrlw	$8, %xmm1
	psrlw	$8, %xmm0
	pmullw	%xmm11, %xmm0
	pmullw	%xmm13, %xmm1
	paddw	%xmm3, %xmm1
	paddw	%xmm3, %xmm0
	pmulhuw	%xmm4, %xmm0
	pmulhuw	%xmm4, %xmm1
	psllw	$8, %xmm1
	por	%xmm8, %xmm1
	psllw	$8, %xmm0
	por	%xmm5, %xmm0
	movdqa	%xmm6, %xmm5
	pand	%xmm2, %xmm5
	pand	%xmm7, %xmm2
	pmullw	%xmm9, %xmm2
	pmullw	%xmm10, %xmm5
	paddw	%xmm3, %xmm5
	paddw	%xmm3, %xmm2
	pmulhuw	%xmm4, %xmm2
	pmulhuw	%xmm4, %xmm5
	psrlw	$8, %xmm7
	psrlw	$8, %xmm6
	pmullw	%xmm10, %xmm6
	pmullw	%xmm9, %xmm7
	paddw	%xmm3, %xmm7
	paddw	%xmm3, %xmm6
	pmulhuw	%xmm4, %xmm6
	pmulhuw	%xmm4, %xmm7
	psllw	$8, %xmm7
	por	%xmm2, %xmm7
	paddusb	%xmm1, %xmm7
	psllw	$8, %xmm6
	por	%xmm5, %xmm6
	paddusb	%xmm0, %xmm6
	movdqu	%xmm6, (%r9)
	movdqu	%xmm7, 16(%r9)
	testb	$4, 104(%rsp)
	je	.LBB9_967
.LBB9_966:
	movq	312(%rsp), %rcx
	leal	(,%rcx,4), %edi
	movdqu	(%r15,%rdi), %xmm4
	movd	(%rsi,%rcx), %xmm0
	punpcklbw	%xmm0, %xmm0
	punpcklwd	%xmm0, %xmm0
	movdqa	.LCPI9_0(%rip), %xmm3
	movdqa	%xmm4, %xmm1
	pand	%xmm3, %xmm1
	movdqa	%xmm0, %xmm7
	pand	%xmm3, %xmm7
	pmullw	%xmm1, %xmm7
	movdqa	.LCPI9_1(%rip), %xmm1
	paddw	%xmm1, %xmm7
	movdqa	.LCPI9_2(%rip), %xmm2
	pmulhuw	%xmm2, %xmm7
	psrlw	$8, %xmm4
	psrlw	$8, %xmm0
	pmullw	%xmm4, %xmm0
	paddw	%xmm1, %xmm0
	pmulhuw	%xmm2, %xmm0
	psllw	$8, %xmm0
	por	%xmm7, %xmm0
	movdqu	(%r9,%rdi), %xmm6
	pcmpeqd	%xmm4, %xmm4
	movdqa	.LCPI9_6(%rip), %xmm8
	movdqa	%xmm6, %xmm9
	pshufb	%xmm8, %xmm9
	movdqa	%xmm9, %xmm5
	pxor	%xmm4, %xmm5
	pand	%xmm3, %xmm7
	pandn	%xmm3, %xmm9
	pmullw	%xmm7, %xmm9
	paddw	%xmm1, %xmm9
	pmulhuw	%xmm2, %xmm9
	movdqa	%xmm0, %xmm7
	psrlw	$8, %xmm7
	psrlw	$8, %xmm5
	pmullw	%xmm7, %xmm5
	paddw	%xmm1, %xmm5
	pmulhuw	%xmm2, %xmm5
	psllw	$8, %xmm5
	por	%xmm9, %xmm5
	pshufb	%xmm8, %xmm0
	pxor	%xmm0, %xmm4
	movdqa	%xmm6, %xmm7
	pand	%xmm3, %xmm7
	pandn	%xmm3, %xmm0
	pmullw	%xmm7, %xmm0
	paddw	%xmm1, %xmm0
	pmulhuw	%xmm2, %xmm0
	psrlw	$8, %xmm6
	psrlw	$8, %xmm4
	pmullw	%xmm6, %xmm4
	paddw	%xmm1, %xmm4
	pmulhuw	%xmm2, %xmm4
	psllw	$8, %xmm4
	por	%xmm0, %xmm4
	paddusb	%xmm5, %xmm4
	movdqu	%xmm4, (%r9,%rdi)
	cmpl	%ebx, 296(%rsp)
	je	.LBB9_970
.LBB9_968:
	xorl	%r9d, %r9d
	movq	296(%rsp), %rsi
	.p2align	4
.LBB9_969:
	movl	(%rax,%r9,4), %edx
	movq	%rax, %rbp
	movq	%r14, %rax
	movq	%rbx, %r14
	movl	(%r13,%r9,4), %ebx
	movzbl	%bh, %edi
	movl	%ebx, %ecx
	movzbl	%bl, %r15d
	movq	%r13, %r11
	movl	%ebx, %r13d
	shrl	$16, %r13d
	movzbl	%dh, %ebx
	movzbl	%dl, %r8d
	movd	%edx, %xmm1
	shrl	$16, %edx
	movzbl	%dl, %edx
	psrld	$24, %xmm1
	pinsrw	$1, %edx, %xmm1
	pinsrw	$2, %ebx, %xmm1
	movq	%r14, %rbx
	movq	%rax, %r14
	movq	%rbp, %rax
	shrl	$24, %ecx
	pinsrw	$3, %r8d, %xmm1
	movzbl	(%r14,%r9), %edx
	movd	%edx, %xmm0
	pshuflw	$0, %xmm0, %xmm0
	pmullw	%xmm1, %xmm0
	movd	%ecx, %xmm1
	xorl	$255, %ecx
	movzbl	%r13b, %edx
	movq	%r11, %r13
	movdqa	.LCPI9_3(%rip), %xmm2
	paddw	%xmm2, %xmm0
	movdqa	%xmm0, %xmm3
	psrlw	$8, %xmm3
	paddw	%xmm0, %xmm3
	pextrb	$1, %xmm3, %r8d
	psrlw	$8, %xmm3
	xorl	$255, %r8d
	movd	%ecx, %xmm0
	pshuflw	$0, %xmm0, %xmm0
	pmullw	%xmm3, %xmm0
	paddw	%xmm2, %xmm0
	movdqa	%xmm0, %xmm3
	psrlw	$8, %xmm3
	paddw	%xmm0, %xmm3
	psrlw	$8, %xmm3
	packuswb	%xmm3, %xmm3
	movd	%r8d, %xmm0
	pinsrw	$1, %edx, %xmm1
	pinsrw	$2, %edi, %xmm1
	pinsrw	$3, %r15d, %xmm1
	pshuflw	$0, %xmm0, %xmm0
	pmullw	%xmm0, %xmm1
	paddw	%xmm2, %xmm1
	movdqa	%xmm1, %xmm0
	psrlw	$8, %xmm0
	paddw	%xmm1, %xmm0
	psrlw	$8, %xmm0
	packuswb	%xmm0, %xmm0
	paddusb	%xmm3, %xmm0
	pmovzxbd	%xmm0, %xmm0
	pmulld	.LCPI9_7(%rip), %xmm0
	pshufd	$238, %xmm0, %xmm1
	por	%xmm0, %xmm1
	pshufd	$85, %xmm1, %xmm0
	por	%xmm1, %xmm0
	movd	%xmm0, (%r11,%r9,4)
	incq	%rsi
	incq	%r9
	cmpq	%rbx, %rsi
	jb	.LBB9_969
	jmp	.LBB9_970
.LBB9_772:
	movq	%rdx, 256(%rsp)
	movq	%r14, 104(%rsp)
	movq	%rcx, 144(%rsp)
	movq	%r12, 56(%rsp)
	testq	%r15, %r15
	je	.LBB9_1189
	movl	%r10d, 176(%rsp)
	movq	424(%rsp), %rdi
	movq	%rdi, 168(%rsp)
	movslq	440(%rsp), %rcx
	movabsq	$4294967296, %rdx
	movq	%r13, %r11
	shrq	$32, %r11
	shrq	$32, %rdi
	subq	%rsi, %r9
	leaq	(%r9,%rdx), %r12
	leaq	(%r8,%rdx), %rsi
	cmpq	%r12, %rsi
	movq	%r12, %r10
	cmovbq	%rsi, %r10
	movq	%rcx, 248(%rsp)
	addq	%rdx, %rcx
	cmpq	%r10, %rcx
	cmovbq	%rcx, %r10
	xorl	%r14d, %r14d
	movq	%rdx, %rsi
	subq	%r10, %rsi
	cmovbq	%r14, %rsi
	orq	%rdx, %r15
	subq	%r12, %r15
	cmovbq	%r14, %r15
	movl	%r13d, %r13d
	orq	%rdx, %r13
	leaq	(%r8,%rdx), %r10
	subq	%r10, %r13
	movl	168(%rsp), %r10d
	cmovbq	%r14, %r13
	orq	%rdx, %r10
	subq	%rcx, %r10
	movl	$0, %ecx
	movq	%rcx, 296(%rsp)
	cmovbq	%r14, %r10
	cmpl	%ebx, %ebp
	cmovbl	%ebp, %ebx
	movl	448(%rsp), %ebp
	cmpl	%ebx, %ebp
	cmovbl	%ebp, %ebx
	cmpq	%rbx, %r15
	cmovaeq	%rbx, %r15
	movslq	444(%rsp), %rcx
	movq	%rcx, 320(%rsp)
	cmpq	%r15, %r13
	cmovbq	%r13, %r15
	movl	452(%rsp), %ebx
	cmpq	%r15, %r10
	cmovbq	%r10, %r15
	movl	$0, %r14d
	movl	$0, %ecx
	movq	%rcx, 280(%rsp)
	movl	$0, %r13d
	cmpq	%rsi, %r15
	jbe	.LBB9_775
	leaq	(%rsi,%r9), %rcx
	movq	%rcx, 296(%rsp)
	addq	%r9, %r15
	addq	%rsi, %r8
	movq	248(%rsp), %r13
	addq	%rsi, %r13
	movq	%r15, %r14
	movq	%r8, 280(%rsp)
.LBB9_775:
	subq	112(%rsp), %rax
	leaq	(%rax,%rdx), %rsi
	movq	104(%rsp), %rcx
	addq	%rdx, %rcx
	movq	320(%rsp), %r8
	leaq	(%r8,%rdx), %r9
	cmpq	%rsi, %rcx
	movq	%rsi, %r10
	cmovbq	%rcx, %r10
	cmpq	%r10, %r9
	cmovbq	%r9, %r10
	xorl	%r12d, %r12d
	movq	%rdx, %r15
	subq	%r10, %r15
	cmovbq	%r12, %r15
	movq	80(%rsp), %r8
	orq	%rdx, %r8
	subq	%rsi, %r8
	cmovbq	%r12, %r8
	orq	%rdx, %r11
	subq	%rcx, %r11
	cmovbq	%r12, %r11
	orq	%rdx, %rdi
	subq	%r9, %rdi
	cmovbq	%r12, %rdi
	movl	176(%rsp), %r10d
	movq	72(%rsp), %rdx
	cmpl	%edx, %r10d
	cmovbl	%r10d, %edx
	cmpl	%edx, %ebx
	cmovbl	%ebx, %edx
	cmpq	%rdx, %r8
	cmovaeq	%rdx, %r8
	cmpq	%r8, %r11
	cmovbq	%r11, %r8
	cmpq	%r8, %rdi
	cmovbq	%rdi, %r8
	cmpq	%r15, %r8
	jbe	.LBB9_1189
	movq	%r8, %rdx
	leaq	(%r15,%rax), %r8
	addq	%rax, %rdx
	movq	%rdx, 80(%rsp)
	movq	%r8, 288(%rsp)
	cmpq	%rdx, %r8
	jae	.LBB9_1189
	movq	432(%rsp), %rax
	movq	%rax, 176(%rsp)
	movq	104(%rsp), %rbp
	leaq	(%r15,%rbp), %rax
	movq	%rax, 328(%rsp)
	addq	%r15, 320(%rsp)
	movq	256(%rsp), %r8
	leaq	(%r8,%r13), %rax
	movq	%rax, 456(%rsp)
	movq	%r14, %r15
	subq	296(%rsp), %r15
	movq	%r15, %rax
	shrq	$4, %rax
	movq	%rax, 72(%rsp)
	movq	%r15, %r11
	andq	$-16, %r11
	movl	%r15d, %ebx
	andl	$15, %ebx
	movl	%r15d, %eax
	andl	$8, %eax
	movq	%rax, 304(%rsp)
	movl	%r15d, %r14d
	andl	$12, %r14d
	movabsq	$4294967296, %rax
	addq	%rax, %rbp
	cmpq	%rcx, %rsi
	cmovbq	%rsi, %rcx
	leaq	(,%r11,4), %rsi
	cmpq	%r9, %rcx
	cmovaeq	%r9, %rcx
	cmpq	%rax, %rcx
	cmovaeq	%rax, %rcx
	subq	%rcx, %rbp
	imulq	144(%rsp), %rbp
	movq	280(%rsp), %r12
	leaq	(,%r12,4), %rax
	leaq	(%rax,%rbp,4), %r10
	subq	%rcx, %r9
	movq	64(%rsp), %rdi
	movq	%rdi, %rdx
	imulq	288(%rsp), %rdx
	imulq	176(%rsp), %r9
	addq	%r13, %r9
	movq	%r11, 104(%rsp)
	movq	%r14, 312(%rsp)
	addq	%r11, %r14
	addq	%r8, %r14
	leaq	(%r8,%r9), %r11
	addq	%r9, %r14
	movq	296(%rsp), %r13
	leaq	(,%r13,4), %rax
	leaq	(%rax,%rdx,4), %rax
	leaq	(%rsi,%rbp,4), %r8
	movq	%r15, 256(%rsp)
	leal	(,%r15,4), %r9d
	andl	$48, %r9d
	addq	%r9, %r8
	movq	%rsi, 464(%rsp)
	leaq	(%rsi,%rdx,4), %rdx
	addq	%r9, %rdx
	movq	128(%rsp), %r9
	addq	%r9, %r10
	movq	56(%rsp), %rcx
	addq	%rcx, %rax
	leaq	(%r8,%r12,4), %r12
	addq	%r9, %r12
	leaq	(%rdx,%r13,4), %rbp
	addq	%rcx, %rbp
	movq	144(%rsp), %rcx
	leaq	(,%rcx,4), %rcx
	movq	%rcx, 168(%rsp)
	leaq	(,%rdi,4), %rcx
	movq	%rcx, 248(%rsp)
	movq	288(%rsp), %rcx
	movq	%rcx, 112(%rsp)
	jmp	.LBB9_778
.LBB9_789:
	movq	112(%rsp), %r9
	incq	%r9
	movq	168(%rsp), %rdx
	addq	%rdx, %r10
	movq	248(%rsp), %r8
	addq	%r8, %rax
	movq	176(%rsp), %rcx
	addq	%rcx, %r11
	addq	%rcx, %r14
	addq	%rdx, %r12
	addq	%r8, %rbp
	movq	%r9, 112(%rsp)
	cmpq	80(%rsp), %r9
	je	.LBB9_1189
.LBB9_778:
	cmpq	$0, 72(%rsp)
	je	.LBB9_781
	movl	$8, %r9d
	movq	72(%rsp), %r15
	.p2align	4
.LBB9_780:
	movdqu	-32(%r10,%r9,4), %xmm3
	movdqu	-16(%r10,%r9,4), %xmm4
	movq	-8(%r11,%r9), %xmm7
	punpcklbw	%xmm7, %xmm7
	movdqa	%xmm7, %xmm8
	punpckhwd	%xmm7, %xmm8
	punpcklwd	%xmm7, %xmm7
	movdqa	.LCPI9_0(%rip), %xmm0
	movdqa	%xmm3, %xmm1
	pand	%xmm0, %xmm1
	movdqa	%xmm4, %xmm2
	pand	%xmm0, %xmm2
	movdqa	%xmm7, %xmm11
	pand	%xmm0, %xmm11
	pmullw	%xmm1, %xmm11
	movdqa	%xmm8, %xmm5
	pand	%xmm0, %xmm5
	pmullw	%xmm2, %xmm5
	movdqa	.LCPI9_1(%rip), %xmm2
	paddw	%xmm2, %xmm11
	paddw	%xmm2, %xmm5
	movdqa	.LCPI9_2(%rip), %xmm1
	pmulhuw	%xmm1, %xmm5
	pmulhuw	%xmm1, %xmm11
	psrlw	$8, %xmm4
	psrlw	$8, %xmm3
	psrlw	$8, %xmm8
	pmullw	%xmm4, %xmm8
	psrlw	$8, %xmm7
	pmullw	%xmm3, %xmm7
	paddw	%xmm2, %xmm8
	paddw	%xmm2, %xmm7
	pmulhuw	%xmm1, %xmm7
	pmulhuw	%xmm1, %xmm8
	psllw	$8, %xmm8
	psllw	$8, %xmm7
	por	%xmm11, %xmm7
	por	%xmm5, %xmm8
	movdqu	-32(%rax,%r9,4), %xmm9
	movdqu	-16(%rax,%r9,4), %xmm10
	movdqu	(%rax,%r9,4), %xmm3
	movdqa	.LCPI9_5(%rip), %xmm6
	movdqa	%xmm9, %xmm13
	pshufb	%xmm6, %xmm13
	movdqa	%xmm10, %xmm4
	pshufb	%xmm6, %xmm4
	movdqa	%xmm7, %xmm12
	pand	%xmm0, %xmm11
	pmullw	%xmm13, %xmm11
	psrlw	$8, %xmm7
	pmullw	%xmm13, %xmm7
	movdqa	%xmm8, %xmm13
	pand	%xmm0, %xmm5
	pmullw	%xmm4, %xmm5
	psrlw	$8, %xmm8
	pmullw	%xmm4, %xmm8
	movdqu	16(%rax,%r9,4), %xmm4
	paddw	%xmm2, %xmm5
	pmulhuw	%xmm1, %xmm5
	paddw	%xmm2, %xmm8
	pmulhuw	%xmm1, %xmm8
	psllw	$8, %xmm8
	por	%xmm5, %xmm8
	pcmpeqd	%xmm5, %xmm5
	pxor	%xmm5, %xmm13
	pxor	%xmm5, %xmm12
	pshufb	%xmm6, %xmm12
	pshufb	%xmm6, %xmm13
	paddw	%xmm2, %xmm11
	pmulhuw	%xmm1, %xmm11
	paddw	%xmm2, %xmm7
	pmulhuw	%xmm1, %xmm7
	psllw	$8, %xmm7
	por	%xmm11, %xmm7
	movdqa	%xmm9, %xmm11
	pand	%xmm0, %xmm11
	pmullw	%xmm12, %xmm11
	psrlw	$8, %xmm9
	pmullw	%xmm12, %xmm9
	movdqa	%xmm10, %xmm12
	pand	%xmm0, %xmm12
	pmullw	%xmm13, %xmm12
	paddw	%xmm2, %xmm11
	paddw	%xmm2, %xmm12
	pmulhuw	%xmm1, %xmm12
	pmulhuw	%xmm1, %xmm11
	psrlw	$8, %xmm10
	pmullw	%xmm13, %xmm10
	paddw	%xmm2, %xmm10
	paddw	%xmm2, %xmm9
	pmulhuw	%xmm1, %xmm9
	pmulhuw	%xmm1, %xmm10
	psllw	$8, %xmm10
	por	%xmm12, %xmm10
	paddusb	%xmm8, %xmm10
	psllw	$8, %xmm9
	por	%xmm11, %xmm9
	paddusb	%xmm7, %xmm9
	movdqu	%xmm9, -32(%rax,%r9,4)
	movdqu	%xmm10, -16(%rax,%r9,4)
	movdqu	(%r10,%r9,4), %xmm11
	movdqu	16(%r10,%r9,4), %xmm12
	movq	(%r11,%r9), %xmm7
	punpcklbw	%xmm7, %xmm7
	movdqa	%xmm7, %xmm8
	punpckhwd	%xmm7, %xmm8
	punpcklwd	%xmm7, %xmm7
	movdqa	%xmm11, %xmm10
	pand	%xmm0, %xmm10
	movdqa	%xmm12, %xmm13
	pand	%xmm0, %xmm13
	movdqa	%xmm7, %xmm9
	pand	%xmm0, %xmm9
	pmullw	%xmm10, %xmm9
	movdqa	%xmm8, %xmm10
	pand	%xmm0, %xmm10
	pmullw	%xmm13, %xmm10
	paddw	%xmm2, %xmm9
	paddw	%xmm2, %xmm10
	pmulhuw	%xmm1, %xmm10
	pmulhuw	%xmm1, %xmm9
	psrlw	$8, %xmm12
	psrlw	$8, %xmm11
	psrlw	$8, %xmm8
	pmullw	%xmm12, %xmm8
	psrlw	$8, %xmm7
	pmullw	%xmm11, %xmm7
	paddw	%xmm2, %xmm8
	paddw	%xmm2, %xmm7
	pmulhuw	%xmm1, %xmm7
	pmulhuw	%xmm1, %xmm8
	psllw	$8, %xmm8
	psllw	$8, %xmm7
	por	%xmm9, %xmm7
	por	%xmm10, %xmm8
	movdqa	%xmm3, %xmm13
	pshufb	%xmm6, %xmm13
	movdqa	%xmm4, %xmm12
	pshufb	%xmm6, %xmm12
	movdqa	%xmm8, %xmm11
	pxor	%xmm5, %xmm11
	pxor	%xmm7, %xmm5
	pshufb	%xmm6, %xmm5
	pshufb	%xmm6, %xmm11
	pand	%xmm0, %xmm9
	pmullw	%xmm13, %xmm9
	psrlw	$8, %xmm7
	pmullw	%xmm13, %xmm7
	pand	%xmm0, %xmm10
	pmullw	%xmm12, %xmm10
	psrlw	$8, %xmm8
	pmullw	%xmm12, %xmm8
	paddw	%xmm2, %xmm10
	pmulhuw	%xmm1, %xmm10
	paddw	%xmm2, %xmm8
	pmulhuw	%xmm1, %xmm8
	psllw	$8, %xmm8
	por	%xmm10, %xmm8
	paddw	%xmm2, %xmm9
	pmulhuw	%xmm1, %xmm9
	paddw	%xmm2, %xmm7
	pmulhuw	%xmm1, %xmm7
	psllw	$8, %xmm7
	por	%xmm9, %xmm7
	movdqa	%xmm3, %xmm6
	pand	%xmm0, %xmm6
	pmullw	%xmm5, %xmm6
	psrlw	$8, %xmm3
	pmullw	%xmm5, %xmm3
	pand	%xmm4, %xmm0
	pmullw	%xmm11, %xmm0
	psrlw	$8, %xmm4
	pmullw	%xmm11, %xmm4
	paddw	%xmm2, %xmm6
	paddw	%xmm2, %xmm0
	paddw	%xmm2, %xmm4
	paddw	%xmm2, %xmm3
	pmulhuw	%xmm1, %xmm0
	pmulhuw	%xmm1, %xmm6
	pmulhuw	%xmm1, %xmm3
	pmulhuw	%xmm1, %xmm4
	psllw	$8, %xmm4
	por	%xmm0, %xmm4
	paddusb	%xmm8, %xmm4
	psllw	$8, %xmm3
	por	%xmm6, %xmm3
	paddusb	%xmm7, %xmm3
	movdqu	%xmm3, (%rax,%r9,4)
	movdqu	%xmm4, 16(%rax,%r9,4)
	addq	$16, %r9
	decq	%r15
	jne	.LBB9_780
.LBB9_781:
	movq	104(%rsp), %rcx
	cmpq	256(%rsp), %rcx
	je	.LBB9_789
	movq	112(%rsp), %rsi
	movq	%rsi, %rdx
	imulq	64(%rsp), %rdx
	addq	296(%rsp), %rdx
	subq	288(%rsp), %rsi
	movq	328(%rsp), %rcx
	leaq	(%rcx,%rsi), %rdi
	imulq	144(%rsp), %rdi
	addq	280(%rsp), %rdi
	addq	320(%rsp), %rsi
	imulq	176(%rsp), %rsi
	addq	456(%rsp), %rsi
	movq	56(%rsp), %rcx
	leaq	(%rcx,%rdx,4), %r9
	movq	128(%rsp), %rcx
	leaq	(%rcx,%rdi,4), %r15
	movq	464(%rsp), %rcx
	addq	%rcx, %r9
	addq	%rcx, %r15
	addq	104(%rsp), %rsi
	cmpq	$0, 304(%rsp)
	jne	.LBB9_783
	testb	$4, 256(%rsp)
	jne	.LBB9_785
.LBB9_786:
	cmpl	%ebx, 312(%rsp)
	je	.LBB9_789
	jmp	.LBB9_787
.LBB9_783:
	movdqu	(%r15), %xmm6
	movdqu	16(%r15), %xmm7
	movq	(%rsi), %xmm0
	punpcklbw	%xmm0, %xmm0
	movdqa	%xmm0, %xmm1
	punpckhwd	%xmm0, %xmm1
	punpcklwd	%xmm0, %xmm0
	movdqa	.LCPI9_0(%rip), %xmm2
	movdqa	%xmm6, %xmm3
	pand	%xmm2, %xmm3
	movdqa	%xmm7, %xmm4
	pand	%xmm2, %xmm4
	movdqa	%xmm0, %xmm5
	pand	%xmm2, %xmm5
	pmullw	%xmm3, %xmm5
	movdqa	%xmm1, %xmm8
	pand	%xmm2, %xmm8
	pmullw	%xmm4, %xmm8
	movdqa	.LCPI9_1(%rip), %xmm3
	paddw	%xmm3, %xmm5
	paddw	%xmm3, %xmm8
	movdqa	.LCPI9_2(%rip), %xmm4
	pmulhuw	%xmm4, %xmm8
	pmulhuw	%xmm4, %xmm5
	psrlw	$8, %xmm7
	psrlw	$8, %xmm6
	psrlw	$8, %xmm1
	pmullw	%xmm7, %xmm1
	psrlw	$8, %xmm0
	pmullw	%xmm6, %xmm0
	paddw	%xmm3, %xmm1
	paddw	%xmm3, %xmm0
	pmulhuw	%xmm4, %xmm0
	pmulhuw	%xmm4, %xmm1
	psllw	$8, %xmm1
	psllw	$8, %xmm0
	por	%xmm5, %xmm0
	por	%xmm8, %xmm1
	movdqu	(%r9), %xmm6
	movdqu	16(%r9), %xmm7
	movdqa	.LCPI9_5(%rip), %xmm13
	movdqa	%xmm6, %xmm11
	pshufb	%xmm13, %xmm11
	movdqa	%xmm7, %xmm12
	pshufb	%xmm13, %xmm12
	pcmpeqd	%xmm10, %xmm10
	movdqa	%xmm1, %xmm9
	pxor	%xmm10, %xmm9
	pxor	%xmm0, %xmm10
	pshufb	%xmm13, %xmm10
	pshufb	%xmm13, %xmm9
	pand	%xmm2, %xmm5
	pand	%xmm2, %xmm8
	pmullw	%xmm12, %xmm8
	pmullw	%xmm11, %xmm5
	paddw	%xmm3, %xmm5
	paddw	%xmm3, %xmm8
	pmulhuw	%xmm4, %xmm8
	pmulhuw	%xmm4, %xmm5
	psrlw	$8, %xmm1
	psrlw	$8, %xmm0
	pmullw	%xmm11, %xmm0
	pmullw	%xmm12, %xmm1
	paddw	%xmm3, %xmm1
	paddw	%xmm3, %xmm0
	pmulhuw	%xmm4, %xmm0
	pmulhuw	%xmm4, %xmm1
	psllw	$8, %xmm1
	por	%xmm8, %xmm1
	psllw	$8, %xmm0
	por	%xmm5, %xmm0
	movdqa	%xmm6, %xmm5
	pand	%xmm2, %xmm5
	pand	%xmm7, %xmm2
	pmullw	%xmm9, %xmm2
	pmullw	%xmm10, %xmm5
	paddw	%xmm3, %xmm5
	paddw	%xmm3, %xmm2
	pmulhuw	%xmm4, %xmm2
	pmulhuw	%xmm4, %xmm5
	psrlw	$8, %xmm7
	psrlw	$8, %xmm6
	pmullw	%xmm10, %xmm6
	pmullw	%xmm9, %xmm7
	paddw	%xmm3, %xmm7
	paddw	%xmm3, %xmm6
	pmulhuw	%xmm4, %xmm6
	pmulhuw	%xmm4, %xmm7
	psllw	$8, %xmm7
	por	%xmm2, %xmm7
	paddusb	%xmm1, %xmm7
	psllw	$8, %xmm6
	por	%xmm5, %xmm6
	paddusb	%xmm0, %xmm6
	movdqu	%xmm6, (%r9)
	movdqu	%xmm7, 16(%r9)
	testb	$4, 256(%rsp)
	je	.LBB9_786
.LBB9_785:
	movq	304(%rsp), %rcx
	leal	(,%rcx,4), %edi
	movdqu	(%r15,%rdi), %xmm4
	movd	(%rsi,%rcx), %xmm0
	punpcklbw	%xmm0, %xmm0
	punpcklwd	%xmm0, %xmm0
	movdqa	.LCPI9_0(%rip), %xmm3
	movdqa	%xmm4, %xmm1
	pand	%xmm3, %xmm1
	movdqa	%xmm0, %xmm7
	pand	%xmm3, %xmm7
	pmullw	%xmm1, %xmm7
	movdqa	.LCPI9_1(%rip), %xmm1
	paddw	%xmm1, %xmm7
	movdqa	.LCPI9_2(%rip), %xmm2
	pmulhuw	%xmm2, %xmm7
	psrlw	$8, %xmm4
	psrlw	$8, %xmm0
	pmullw	%xmm4, %xmm0
	paddw	%xmm1, %xmm0
	pmulhuw	%xmm2, %xmm0
	psllw	$8, %xmm0
	por	%xmm7, %xmm0
	movdqu	(%r9,%rdi), %xmm6
	pcmpeqd	%xmm4, %xmm4
	movdqa	.LCPI9_6(%rip), %xmm8
	movdqa	%xmm6, %xmm5
	pshufb	%xmm8, %xmm5
	pand	%xmm3, %xmm7
	movdqa	%xmm5, %xmm9
	pand	%xmm3, %xmm9
	pmullw	%xmm7, %xmm9
	paddw	%xmm1, %xmm9
	pmulhuw	%xmm2, %xmm9
	movdqa	%xmm0, %xmm7
	psrlw	$8, %xmm7
	psrlw	$8, %xmm5
	pmullw	%xmm7, %xmm5
	paddw	%xmm1, %xmm5
	pmulhuw	%xmm2, %xmm5
	psllw	$8, %xmm5
	por	%xmm9, %xmm5
	pshufb	%xmm8, %xmm0
	pxor	%xmm0, %xmm4
	movdqa	%xmm6, %xmm7
	pand	%xmm3, %xmm7
	pandn	%xmm3, %xmm0
	pmullw	%xmm7, %xmm0
	paddw	%xmm1, %xmm0
	pmulhuw	%xmm2, %xmm0
	psrlw	$8, %xmm6
	psrlw	$8, %xmm4
	pmullw	%xmm6, %xmm4
	paddw	%xmm1, %xmm4
	pmulhuw	%xmm2, %xmm4
	psllw	$8, %xmm4
	por	%xmm0, %xmm4
	paddusb	%xmm5, %xmm4
	movdqu	%xmm4, (%r9,%rdi)
	cmpl	%ebx, 312(%rsp)
	je	.LBB9_789
.LBB9_787:
	xorl	%r9d, %r9d
	movq	312(%rsp), %rsi
	.p2align	4
.LBB9_788:
	movq	%rbx, %r8
	movl	(%r12,%r9,4), %ebx
	movl	(%rbp,%r9,4), %edx
	movzbl	%dh, %edi
	movzbl	%dl, %r15d
	movd	%edx, %xmm1
	shrl	$16, %edx
	movzbl	%bh, %ecx
	movzbl	%bl, %r13d
	movd	%ebx, %xmm0
	shrl	$16, %ebx
	movzbl	%bl, %ebx
	psrld	$24, %xmm0
	pinsrw	$1, %ebx, %xmm0
	movq	%r8, %rbx
	pinsrw	$2, %ecx, %xmm0
	pinsrw	$3, %r13d, %xmm0
	movzbl	(%r14,%r9), %ecx
	movd	%ecx, %xmm2
	pshuflw	$0, %xmm2, %xmm2
	pmullw	%xmm0, %xmm2
	movzbl	%dl, %ecx
	movdqa	.LCPI9_3(%rip), %xmm0
	paddw	%xmm0, %xmm2
	movdqa	%xmm2, %xmm3
	psrlw	$8, %xmm3
	paddw	%xmm2, %xmm3
	pextrb	$1, %xmm3, %edx
	psrlw	$8, %xmm3
	xorl	$255, %edx
	psrld	$24, %xmm1
	pshuflw	$0, %xmm1, %xmm1
	pmullw	%xmm1, %xmm3
	paddw	%xmm0, %xmm3
	movdqa	%xmm3, %xmm2
	psrlw	$8, %xmm2
	paddw	%xmm3, %xmm2
	psrlw	$8, %xmm2
	packuswb	%xmm2, %xmm2
	movd	%edx, %xmm3
	pinsrw	$1, %ecx, %xmm1
	pinsrw	$2, %edi, %xmm1
	pinsrw	$3, %r15d, %xmm1
	pshuflw	$0, %xmm3, %xmm3
	pmullw	%xmm3, %xmm1
	paddw	%xmm0, %xmm1
	movdqa	%xmm1, %xmm0
	psrlw	$8, %xmm0
	paddw	%xmm1, %xmm0
	psrlw	$8, %xmm0
	packuswb	%xmm0, %xmm0
	paddusb	%xmm2, %xmm0
	pmovzxbd	%xmm0, %xmm0
	pmulld	.LCPI9_7(%rip), %xmm0
	pshufd	$238, %xmm0, %xmm1
	por	%xmm0, %xmm1
	pshufd	$85, %xmm1, %xmm0
	por	%xmm1, %xmm0
	movd	%xmm0, (%rbp,%r9,4)
	incq	%rsi
	incq	%r9
	cmpq	%r8, %rsi
	jb	.LBB9_788
	jmp	.LBB9_789
.LBB9_1063:
	leaq	-33(%rbx), %rcx
	cmpq	$-26, %rcx
	ja	.LBB9_1072
	cmpq	%rsi, %rax
	je	.LBB9_1189
	shlq	$2, %rbx
	movl	%r15d, %edi
	subl	%ebp, %edi
	movq	%rbp, %rax
	andl	$3, %edi
	je	.LBB9_1069
	movq	%rbp, %rax
	movq	80(%rsp), %rdx
	imulq	%rdx, %rax
	addq	%rsi, %rax
	movq	56(%rsp), %rcx
	leaq	(%rcx,%rax,4), %r14
	leaq	(,%rdx,4), %r12
	negq	%rdi
	xorl	%r13d, %r13d
.LBB9_1067:
	movq	%r14, %rcx
	xorl	%edx, %edx
	movq	%rbx, %r8
	callq	memset
	decq	%r13
	addq	%r12, %r14
	cmpq	%r13, %rdi
	jne	.LBB9_1067
	movq	%rbp, %rax
	subq	%r13, %rax
.LBB9_1069:
	subq	%r15, %rbp
	cmpq	$-4, %rbp
	ja	.LBB9_1189
	subq	%rax, %r15
	leaq	3(%rax), %rcx
	movq	80(%rsp), %r8
	imulq	%r8, %rcx
	movq	56(%rsp), %rdx
	leaq	(%rdx,%rcx,4), %rdi
	shlq	$2, %rsi
	movq	%r8, %r14
	shlq	$4, %r14
	leaq	2(%rax), %rcx
	imulq	%r8, %rcx
	leaq	(%rdx,%rcx,4), %r12
	leaq	1(%rax), %rcx
	imulq	%r8, %rcx
	leaq	(%rdx,%rcx,4), %r13
	imulq	%r8, %rax
	leaq	(%rdx,%rax,4), %rbp
.LBB9_1071:
	leaq	(%rsi,%rbp), %rcx
	xorl	%edx, %edx
	movq	%rbx, %r8
	callq	memset
	leaq	(%rsi,%r13), %rcx
	xorl	%edx, %edx
	movq	%rbx, %r8
	callq	memset
	leaq	(%r12,%rsi), %rcx
	xorl	%edx, %edx
	movq	%rbx, %r8
	callq	memset
	leaq	(%rdi,%rsi), %rcx
	xorl	%edx, %edx
	movq	%rbx, %r8
	callq	memset
	addq	%r14, %rsi
	addq	$-4, %r15
	jne	.LBB9_1071
	jmp	.LBB9_1189
.LBB9_1029:
	leaq	(,%r14,4), %rbx
	leaq	-33(%r14), %rcx
	cmpq	$-26, %rcx
	ja	.LBB9_1038
	cmpq	%r13, %rax
	je	.LBB9_1189
	subl	%ebp, %r12d
	movq	%rbp, %rax
	notq	%rax
	addq	%r15, %rax
	andl	$3, %r12d
	je	.LBB9_1035
	movq	%rax, 64(%rsp)
	movq	%rbp, %rax
	movq	80(%rsp), %rdx
	imulq	%rdx, %rax
	addq	%r13, %rax
	movq	56(%rsp), %rcx
	leaq	(%rcx,%rax,4), %r14
	leaq	(,%rdx,4), %rdi
	negq	%r12
	xorl	%esi, %esi
.LBB9_1033:
	movq	%r14, %rcx
	xorl	%edx, %edx
	movq	%rbx, %r8
	callq	memset
	decq	%rsi
	addq	%rdi, %r14
	cmpq	%rsi, %r12
	jne	.LBB9_1033
	subq	%rsi, %rbp
	movq	64(%rsp), %rax
.LBB9_1035:
	cmpq	$3, %rax
	jb	.LBB9_1189
	subq	%rbp, %r15
	leaq	3(%rbp), %rax
	movq	80(%rsp), %rdx
	imulq	%rdx, %rax
	movq	56(%rsp), %rcx
	leaq	(%rcx,%rax,4), %rsi
	shlq	$2, %r13
	movq	%rdx, %rdi
	shlq	$4, %rdi
	leaq	2(%rbp), %rax
	imulq	%rdx, %rax
	leaq	(%rcx,%rax,4), %r14
	leaq	1(%rbp), %rax
	imulq	%rdx, %rax
	leaq	(%rcx,%rax,4), %r12
	imulq	%rdx, %rbp
	leaq	(%rcx,%rbp,4), %rbp
.LBB9_1037:
	movq	%rbp, %rcx
	addq	%r13, %rcx
	xorl	%edx, %edx
	movq	%rbx, %r8
	callq	memset
	leaq	(%r12,%r13), %rcx
	xorl	%edx, %edx
	movq	%rbx, %r8
	callq	memset
	leaq	(%r14,%r13), %rcx
	xorl	%edx, %edx
	movq	%rbx, %r8
	callq	memset
	leaq	(%rsi,%r13), %rcx
	xorl	%edx, %edx
	movq	%rbx, %r8
	callq	memset
	addq	%rdi, %r13
	addq	$-4, %r15
	jne	.LBB9_1037
	jmp	.LBB9_1189
.LBB9_979:
	leaq	-33(%rbx), %r9
	cmpq	$-26, %r9
	ja	.LBB9_988
	cmpq	%rdx, %r14
	jb	.LBB9_1189
	shlq	$2, %rbx
	cmpq	%rax, %r8
	cmovbq	%r8, %rax
	movl	%esi, %ebp
	andl	$7, %ebp
	subq	%r12, %rax
	cmpq	$-8, %rax
	jbe	.LBB9_983
	xorl	%edi, %edi
	jmp	.LBB9_986
.LBB9_346:
	leaq	-33(%rbx), %r9
	cmpq	$-26, %r9
	ja	.LBB9_355
	cmpq	%rdx, %r15
	jb	.LBB9_1189
	shlq	$2, %rbx
	cmpq	%rax, %r8
	cmovbq	%r8, %rax
	movl	%r14d, %r13d
	andl	$7, %r13d
	subq	%r10, %rax
	cmpq	$-8, %rax
	jbe	.LBB9_350
	xorl	%esi, %esi
	jmp	.LBB9_353
.LBB9_1101:
	leaq	-33(%rbx), %r9
	cmpq	$-26, %r9
	ja	.LBB9_1110
	cmpq	%rdx, %r15
	jb	.LBB9_1189
	shlq	$2, %rbx
	cmpq	%rax, %r8
	cmovbq	%r8, %rax
	movl	%ebp, %r13d
	andl	$7, %r13d
	subq	%r14, %rax
	cmpq	$-8, %rax
	jbe	.LBB9_1105
	xorl	%esi, %esi
	jmp	.LBB9_1108
.LBB9_798:
	leaq	-33(%rbx), %r9
	cmpq	$-26, %r9
	ja	.LBB9_807
	cmpq	%rdx, %r15
	jb	.LBB9_1189
	shlq	$2, %rbx
	cmpq	%rax, %r8
	cmovbq	%r8, %rax
	movl	%r14d, %r13d
	andl	$7, %r13d
	subq	%r10, %rax
	cmpq	$-8, %rax
	jbe	.LBB9_802
	xorl	%esi, %esi
	jmp	.LBB9_805
.LBB9_165:
	leaq	-33(%rbx), %r9
	cmpq	$-26, %r9
	ja	.LBB9_174
	cmpq	%rdx, %r15
	jb	.LBB9_1189
	shlq	$2, %rbx
	cmpq	%rax, %r8
	cmovbq	%r8, %rax
	movl	%r13d, %edi
	andl	$7, %edi
	subq	%r10, %rax
	cmpq	$-8, %rax
	jbe	.LBB9_169
	xorl	%esi, %esi
	jmp	.LBB9_172
.LBB9_255:
	leaq	-33(%rbx), %r9
	cmpq	$-26, %r9
	ja	.LBB9_264
	cmpq	%rdx, %r15
	jb	.LBB9_1189
	shlq	$2, %rbx
	cmpq	%rax, %r8
	cmovbq	%r8, %rax
	movl	%r13d, %edi
	andl	$7, %edi
	subq	%r14, %rax
	cmpq	$-8, %rax
	jbe	.LBB9_259
	xorl	%esi, %esi
	jmp	.LBB9_262
.LBB9_616:
	leaq	-33(%rbx), %r9
	cmpq	$-26, %r9
	ja	.LBB9_625
	cmpq	%rdx, %r15
	jb	.LBB9_1189
	shlq	$2, %rbx
	cmpq	%rax, %r8
	cmovbq	%r8, %rax
	movl	%r14d, %r13d
	andl	$7, %r13d
	subq	%r10, %rax
	cmpq	$-8, %rax
	jbe	.LBB9_620
	xorl	%esi, %esi
	jmp	.LBB9_623
.LBB9_7:
	leaq	-33(%rbx), %r9
	cmpq	$-26, %r9
	ja	.LBB9_16
	cmpq	%rdx, %r15
	jb	.LBB9_1189
	shlq	$2, %rbx
	cmpq	%rax, %r8
	cmovbq	%r8, %rax
	movl	%ebp, %r13d
	andl	$7, %r13d
	subq	%r10, %rax
	cmpq	$-8, %rax
	jbe	.LBB9_11
	xorl	%esi, %esi
	jmp	.LBB9_14
.LBB9_78:
	cmpq	%r8, %r10
	je	.LBB9_1189
	movl	%edx, %r9d
	andl	$56, %r9d
	movd	%ecx, %xmm0
	pshufd	$0, %xmm0, %xmm0
	movq	%rax, %r11
	movq	64(%rsp), %rsi
	imulq	%rsi, %r11
	leaq	(,%r8,4), %r10
	leaq	(%r10,%r11,4), %r10
	movq	56(%rsp), %rdi
	addq	%rdi, %r10
	addq	$16, %r10
	shlq	$2, %rsi
	addq	%r8, %r11
	leaq	(%rdi,%r11,4), %r8
	jmp	.LBB9_80
.LBB9_84:
	incq	%rax
	addq	%rsi, %r10
	addq	%rsi, %r8
	cmpq	%r14, %rax
	je	.LBB9_1189
.LBB9_80:
	xorl	%r11d, %r11d
	cmpq	$8, %rdx
	jb	.LBB9_83
	.p2align	4
.LBB9_81:
	movdqu	%xmm0, -16(%r10,%r11,4)
	movdqu	%xmm0, (%r10,%r11,4)
	addq	$8, %r11
	cmpq	%r11, %r9
	jne	.LBB9_81
	movq	%r9, %r11
	cmpq	%r9, %rdx
	je	.LBB9_84
	.p2align	4
.LBB9_83:
	movl	%ecx, (%r8,%r11,4)
	incq	%r11
	cmpq	%r11, %rdx
	jne	.LBB9_83
	jmp	.LBB9_84
.LBB9_115:
	leaq	-33(%rbx), %r9
	cmpq	$-26, %r9
	ja	.LBB9_124
	cmpq	%rdx, %r14
	jb	.LBB9_1189
	shlq	$2, %rbx
	cmpq	%rax, %r8
	cmovbq	%r8, %rax
	movl	%r13d, %ebp
	andl	$7, %ebp
	subq	%r15, %rax
	cmpq	$-8, %rax
	jbe	.LBB9_119
	xorl	%esi, %esi
	jmp	.LBB9_122
.LBB9_436:
	leaq	-33(%rbx), %r9
	cmpq	$-26, %r9
	ja	.LBB9_445
	cmpq	%rdx, %r15
	jb	.LBB9_1189
	shlq	$2, %rbx
	cmpq	%rax, %r8
	cmovbq	%r8, %rax
	movl	%r14d, %r13d
	andl	$7, %r13d
	subq	%rbp, %rax
	cmpq	$-8, %rax
	jbe	.LBB9_440
	xorl	%esi, %esi
	jmp	.LBB9_443
.LBB9_526:
	leaq	-33(%rbx), %r9
	cmpq	$-26, %r9
	ja	.LBB9_535
	cmpq	%rdx, %r15
	jb	.LBB9_1189
	shlq	$2, %rbx
	cmpq	%rax, %r8
	cmovbq	%r8, %rax
	movl	%r13d, %edi
	andl	$7, %edi
	subq	%r10, %rax
	cmpq	$-8, %rax
	jbe	.LBB9_530
	xorl	%esi, %esi
	jmp	.LBB9_533
.LBB9_889:
	leaq	-33(%rbx), %r9
	cmpq	$-26, %r9
	ja	.LBB9_898
	cmpq	%rdx, %r15
	jb	.LBB9_1189
	shlq	$2, %rbx
	cmpq	%rax, %r8
	cmovbq	%r8, %rax
	movl	%r14d, %r13d
	andl	$7, %r13d
	subq	%r10, %rax
	cmpq	$-8, %rax
	jbe	.LBB9_893
	xorl	%esi, %esi
	jmp	.LBB9_896
.LBB9_706:
	leaq	-33(%rbx), %r9
	cmpq	$-26, %r9
	ja	.LBB9_715
	cmpq	%rdx, %r15
	jb	.LBB9_1189
	shlq	$2, %rbx
	cmpq	%rax, %r8
	cmovbq	%r8, %rax
	movl	%r14d, %r13d
	andl	$7, %r13d
	subq	%r10, %rax
	cmpq	$-8, %rax
	jbe	.LBB9_710
	xorl	%esi, %esi
	jmp	.LBB9_713
.LBB9_1072:
	cmpq	$17, %rbx
	movq	56(%rsp), %r11
	jae	.LBB9_1073
	cmpq	$8, %rbx
	jbe	.LBB9_1081
	movl	%r15d, %edx
	subl	%ebp, %edx
	movq	%rbp, %rcx
	andl	$3, %edx
	je	.LBB9_1092
	movq	%rbp, %rcx
	movq	80(%rsp), %r9
	imulq	%r9, %rcx
	leaq	(%rax,%rcx), %r8
	leaq	-32(,%r8,4), %r8
	leaq	(,%r9,4), %r9
	addq	%rsi, %rcx
	shlq	$2, %rcx
	negq	%rdx
	xorl	%r10d, %r10d
	movq	56(%rsp), %r11
.LBB9_1090:
	pxor	%xmm0, %xmm0
	movdqu	%xmm0, 16(%r11,%rcx)
	movdqu	%xmm0, (%r11,%rcx)
	movdqu	%xmm0, 16(%r11,%r8)
	movdqu	%xmm0, (%r11,%r8)
	decq	%r10
	addq	%r9, %r11
	cmpq	%r10, %rdx
	jne	.LBB9_1090
	movq	%rbp, %rcx
	subq	%r10, %rcx
.LBB9_1092:
	subq	%r15, %rbp
	cmpq	$-4, %rbp
	ja	.LBB9_1189
	subq	%rcx, %r15
	leaq	3(%rcx), %r9
	movq	80(%rsp), %r12
	imulq	%r12, %r9
	leaq	(,%rax,4), %rdi
	leaq	(%rdi,%r9,4), %rdx
	addq	$-32, %rdx
	movq	%r12, %r8
	shlq	$4, %r8
	leaq	(,%rsi,4), %rbx
	leaq	(%rbx,%r9,4), %r9
	leaq	2(%rcx), %r11
	imulq	%r12, %r11
	leaq	(%rdi,%r11,4), %r10
	addq	$-32, %r10
	leaq	(%rbx,%r11,4), %r11
	leaq	1(%rcx), %r14
	imulq	%r12, %r14
	leaq	(%rdi,%r14,4), %rdi
	addq	$-32, %rdi
	leaq	(%rbx,%r14,4), %rbx
	imulq	%r12, %rcx
	addq	%rcx, %rax
	leaq	-32(,%rax,4), %rax
	addq	%rsi, %rcx
	shlq	$2, %rcx
.LBB9_1094:
	pxor	%xmm0, %xmm0
	movq	56(%rsp), %rsi
	movdqu	%xmm0, 16(%rsi,%rcx)
	movdqu	%xmm0, (%rsi,%rcx)
	movdqu	%xmm0, 16(%rsi,%rax)
	movdqu	%xmm0, (%rsi,%rax)
	movdqu	%xmm0, 16(%rsi,%rbx)
	movdqu	%xmm0, (%rsi,%rbx)
	movdqu	%xmm0, 16(%rsi,%rdi)
	movdqu	%xmm0, (%rsi,%rdi)
	movdqu	%xmm0, 16(%rsi,%r11)
	movdqu	%xmm0, (%rsi,%r11)
	movdqu	%xmm0, 16(%rsi,%r10)
	movdqu	%xmm0, (%rsi,%r10)
	movdqu	%xmm0, 16(%rsi,%r9)
	movdqu	%xmm0, (%rsi,%r9)
	movdqu	%xmm0, 16(%rsi,%rdx)
	movdqu	%xmm0, (%rsi,%rdx)
	addq	%r8, %rsi
	movq	%rsi, 56(%rsp)
	addq	$-4, %r15
	jne	.LBB9_1094
	jmp	.LBB9_1189
.LBB9_1038:
	cmpq	$17, %r14
	jae	.LBB9_1039
	movl	%r12d, %r8d
	subl	%ebp, %r8d
	addq	%r12, %rdx
	decq	%rdx
	movq	%rbp, %rcx
	testb	$1, %r8b
	je	.LBB9_1050
	movq	%rbp, %rcx
	imulq	80(%rsp), %rcx
	addq	%r13, %rcx
	pxor	%xmm0, %xmm0
	movq	56(%rsp), %r8
	movdqu	%xmm0, 16(%r8,%rcx,4)
	movdqu	%xmm0, (%r8,%rcx,4)
	cmpq	$9, %r14
	jb	.LBB9_1049
	leaq	(%r8,%rcx,4), %rcx
	movdqu	%xmm0, -16(%rcx,%rbx)
	movdqu	%xmm0, -32(%rcx,%rbx)
.LBB9_1049:
	leaq	1(%rbp), %rcx
.LBB9_1050:
	cmpq	%rbp, %rdx
	je	.LBB9_1189
	leaq	1(%rcx), %r8
	movq	80(%rsp), %r10
	imulq	%r10, %r8
	leaq	(,%r13,4), %rdx
	leaq	(%rdx,%r8,4), %rdx
	subq	%rcx, %r15
	leaq	(,%rax,4), %r9
	leaq	(%r9,%r8,4), %r8
	addq	$-32, %r8
	imulq	%r10, %rcx
	shlq	$3, %r10
	addq	%rcx, %rax
	leaq	-32(,%rax,4), %rax
	addq	%r13, %rcx
	shlq	$2, %rcx
	jmp	.LBB9_1052
.LBB9_1054:
	movdqu	%xmm0, 16(%r9,%rdx)
	movdqu	%xmm0, (%r9,%rdx)
.LBB9_1055:
	addq	%r10, %r9
	movq	%r9, 56(%rsp)
	addq	$-2, %r15
	je	.LBB9_1189
.LBB9_1052:
	pxor	%xmm0, %xmm0
	movq	56(%rsp), %r9
	movdqu	%xmm0, 16(%r9,%rcx)
	movdqu	%xmm0, (%r9,%rcx)
	cmpq	$9, %r14
	jb	.LBB9_1054
	movdqu	%xmm0, 16(%r9,%rax)
	movdqu	%xmm0, (%r9,%rax)
	movdqu	%xmm0, 16(%r9,%rdx)
	movdqu	%xmm0, (%r9,%rdx)
	movdqu	%xmm0, 16(%r9,%r8)
	movdqu	%xmm0, (%r9,%r8)
	jmp	.LBB9_1055
.LBB9_988:
	cmpq	$17, %rbx
	jae	.LBB9_989
	cmpq	%rax, %r8
	cmovaeq	%rax, %r8
	movl	%esi, %edx
	andl	$3, %edx
	subq	%r12, %r8
	cmpq	$-4, %r8
	jbe	.LBB9_993
	xorl	%edi, %edi
	jmp	.LBB9_1002
.LBB9_355:
	cmpq	$17, %rbx
	jae	.LBB9_356
	cmpq	$8, %rbx
	jbe	.LBB9_359
	cmpq	%rax, %r8
	cmovaeq	%rax, %r8
	movl	%r14d, %edx
	andl	$3, %edx
	subq	%r10, %r8
	cmpq	$-4, %r8
	jbe	.LBB9_363
	xorl	%r11d, %r11d
	jmp	.LBB9_366
.LBB9_1110:
	cmpq	$17, %rbx
	jae	.LBB9_1111
	cmpq	$8, %rbx
	jbe	.LBB9_1114
	cmpq	%rax, %r8
	cmovaeq	%rax, %r8
	movl	%ebp, %edx
	andl	$3, %edx
	subq	%r14, %r8
	cmpq	$-4, %r8
	jbe	.LBB9_1118
	xorl	%r11d, %r11d
	jmp	.LBB9_1121
.LBB9_807:
	cmpq	$17, %rbx
	jae	.LBB9_808
	cmpq	$8, %rbx
	jbe	.LBB9_811
	cmpq	%rax, %r8
	cmovaeq	%rax, %r8
	movl	%r14d, %edx
	andl	$3, %edx
	subq	%r10, %r8
	cmpq	$-4, %r8
	jbe	.LBB9_815
	xorl	%r11d, %r11d
	jmp	.LBB9_818
.LBB9_174:
	cmpq	$17, %rbx
	jae	.LBB9_175
	cmpq	$8, %rbx
	jbe	.LBB9_178
	cmpq	%rax, %r8
	cmovaeq	%rax, %r8
	movl	%r13d, %edx
	andl	$3, %edx
	subq	%r10, %r8
	cmpq	$-4, %r8
	jbe	.LBB9_182
	xorl	%r11d, %r11d
	jmp	.LBB9_185
.LBB9_264:
	cmpq	$17, %rbx
	jae	.LBB9_265
	cmpq	$8, %rbx
	jbe	.LBB9_268
	cmpq	%rax, %r8
	cmovaeq	%rax, %r8
	movl	%r13d, %edx
	andl	$3, %edx
	subq	%r14, %r8
	cmpq	$-4, %r8
	jbe	.LBB9_272
	xorl	%r11d, %r11d
	jmp	.LBB9_275
.LBB9_625:
	cmpq	$17, %rbx
	jae	.LBB9_626
	cmpq	$8, %rbx
	jbe	.LBB9_629
	cmpq	%rax, %r8
	cmovaeq	%rax, %r8
	movl	%r14d, %edx
	andl	$3, %edx
	subq	%r10, %r8
	cmpq	$-4, %r8
	jbe	.LBB9_633
	xorl	%r11d, %r11d
	jmp	.LBB9_636
.LBB9_16:
	cmpq	$17, %rbx
	jae	.LBB9_17
	cmpq	$8, %rbx
	jbe	.LBB9_20
	cmpq	%rax, %r8
	cmovaeq	%rax, %r8
	movl	%ebp, %edx
	andl	$3, %edx
	subq	%r10, %r8
	cmpq	$-4, %r8
	jbe	.LBB9_24
	xorl	%r11d, %r11d
	jmp	.LBB9_27
.LBB9_124:
	cmpq	$17, %rbx
	jae	.LBB9_125
	cmpq	$8, %rbx
	jbe	.LBB9_128
	cmpq	%rax, %r8
	cmovaeq	%rax, %r8
	movl	%r13d, %edx
	andl	$3, %edx
	subq	%r15, %r8
	cmpq	$-4, %r8
	jbe	.LBB9_132
	xorl	%r11d, %r11d
	jmp	.LBB9_135
.LBB9_445:
	cmpq	$17, %rbx
	jae	.LBB9_446
	cmpq	$8, %rbx
	jbe	.LBB9_449
	cmpq	%rax, %r8
	cmovaeq	%rax, %r8
	movl	%r14d, %edx
	andl	$3, %edx
	subq	%rbp, %r8
	cmpq	$-4, %r8
	jbe	.LBB9_453
	xorl	%r11d, %r11d
	jmp	.LBB9_456
.LBB9_535:
	cmpq	$17, %rbx
	jae	.LBB9_536
	cmpq	$8, %rbx
	jbe	.LBB9_539
	cmpq	%rax, %r8
	cmovaeq	%rax, %r8
	movl	%r13d, %edx
	andl	$3, %edx
	subq	%r10, %r8
	cmpq	$-4, %r8
	jbe	.LBB9_543
	xorl	%r11d, %r11d
	jmp	.LBB9_546
.LBB9_898:
	cmpq	$17, %rbx
	jae	.LBB9_899
	cmpq	$8, %rbx
	jbe	.LBB9_902
	cmpq	%rax, %r8
	cmovaeq	%rax, %r8
	movl	%r14d, %edx
	andl	$3, %edx
	subq	%r10, %r8
	cmpq	$-4, %r8
	jbe	.LBB9_906
	xorl	%r11d, %r11d
	jmp	.LBB9_909
.LBB9_715:
	cmpq	$17, %rbx
	jae	.LBB9_716
	cmpq	$8, %rbx
	jbe	.LBB9_719
	cmpq	%rax, %r8
	cmovaeq	%rax, %r8
	movl	%r14d, %edx
	andl	$3, %edx
	subq	%r10, %r8
	cmpq	$-4, %r8
	jbe	.LBB9_723
	xorl	%r11d, %r11d
	jmp	.LBB9_726
.LBB9_1073:
	movl	%r15d, %edx
	subl	%ebp, %edx
	movq	%rbp, %rcx
	andl	$3, %edx
	je	.LBB9_1077
	movq	%rbp, %rcx
	movq	80(%rsp), %r9
	imulq	%r9, %rcx
	leaq	(%rax,%rcx), %r8
	leaq	-64(,%r8,4), %r8
	leaq	(,%r9,4), %r9
	addq	%rsi, %rcx
	shlq	$2, %rcx
	negq	%rdx
	xorl	%r10d, %r10d
.LBB9_1075:
	pxor	%xmm0, %xmm0
	movdqu	%xmm0, 48(%r11,%rcx)
	movdqu	%xmm0, 32(%r11,%rcx)
	movdqu	%xmm0, 16(%r11,%rcx)
	movdqu	%xmm0, (%r11,%rcx)
	movdqu	%xmm0, 48(%r11,%r8)
	movdqu	%xmm0, 32(%r11,%r8)
	movdqu	%xmm0, 16(%r11,%r8)
	movdqu	%xmm0, (%r11,%r8)
	decq	%r10
	addq	%r9, %r11
	cmpq	%r10, %rdx
	jne	.LBB9_1075
	movq	%rbp, %rcx
	subq	%r10, %rcx
.LBB9_1077:
	subq	%r15, %rbp
	cmpq	$-4, %rbp
	ja	.LBB9_1189
	subq	%rcx, %r15
	leaq	3(%rcx), %r9
	movq	80(%rsp), %r12
	imulq	%r12, %r9
	leaq	(,%rax,4), %rdi
	leaq	(%rdi,%r9,4), %rdx
	addq	$-64, %rdx
	movq	%r12, %r8
	shlq	$4, %r8
	leaq	(,%rsi,4), %rbx
	leaq	(%rbx,%r9,4), %r9
	leaq	2(%rcx), %r11
	imulq	%r12, %r11
	leaq	(%rdi,%r11,4), %r10
	addq	$-64, %r10
	leaq	(%rbx,%r11,4), %r11
	leaq	1(%rcx), %r14
	imulq	%r12, %r14
	leaq	(%rdi,%r14,4), %rdi
	addq	$-64, %rdi
	leaq	(%rbx,%r14,4), %rbx
	imulq	%r12, %rcx
	addq	%rcx, %rax
	leaq	-64(,%rax,4), %rax
	addq	%rsi, %rcx
	shlq	$2, %rcx
.LBB9_1079:
	pxor	%xmm0, %xmm0
	movq	56(%rsp), %rsi
	movdqu	%xmm0, 48(%rsi,%rcx)
	movdqu	%xmm0, 32(%rsi,%rcx)
	movdqu	%xmm0, 16(%rsi,%rcx)
	movdqu	%xmm0, (%rsi,%rcx)
	movdqu	%xmm0, 48(%rsi,%rax)
	movdqu	%xmm0, 32(%rsi,%rax)
	movdqu	%xmm0, 16(%rsi,%rax)
	movdqu	%xmm0, (%rsi,%rax)
	movdqu	%xmm0, 48(%rsi,%rbx)
	movdqu	%xmm0, 32(%rsi,%rbx)
	movdqu	%xmm0, 16(%rsi,%rbx)
	movdqu	%xmm0, (%rsi,%rbx)
	movdqu	%xmm0, 48(%rsi,%rdi)
	movdqu	%xmm0, 32(%rsi,%rdi)
	movdqu	%xmm0, 16(%rsi,%rdi)
	movdqu	%xmm0, (%rsi,%rdi)
	movdqu	%xmm0, 48(%rsi,%r11)
	movdqu	%xmm0, 32(%rsi,%r11)
	movdqu	%xmm0, 16(%rsi,%r11)
	movdqu	%xmm0, (%rsi,%r11)
	movdqu	%xmm0, 48(%rsi,%r10)
	movdqu	%xmm0, 32(%rsi,%r10)
	movdqu	%xmm0, 16(%rsi,%r10)
	movdqu	%xmm0, (%rsi,%r10)
	movdqu	%xmm0, 48(%rsi,%r9)
	movdqu	%xmm0, 32(%rsi,%r9)
	movdqu	%xmm0, 16(%rsi,%r9)
	movdqu	%xmm0, (%rsi,%r9)
	movdqu	%xmm0, 48(%rsi,%rdx)
	movdqu	%xmm0, 32(%rsi,%rdx)
	movdqu	%xmm0, 16(%rsi,%rdx)
	movdqu	%xmm0, (%rsi,%rdx)
	addq	%r8, %rsi
	movq	%rsi, 56(%rsp)
	addq	$-4, %r15
	jne	.LBB9_1079
	jmp	.LBB9_1189
.LBB9_1039:
	subl	%ebp, %r12d
	movq	%rbp, %rcx
	notq	%rcx
	addq	%r15, %rcx
	andl	$3, %r12d
	je	.LBB9_1043
	movq	%rbp, %rdx
	movq	80(%rsp), %r9
	imulq	%r9, %rdx
	leaq	(%rax,%rdx), %r8
	leaq	-64(,%r8,4), %r8
	leaq	(,%r9,4), %r9
	addq	%r13, %rdx
	shlq	$2, %rdx
	negq	%r12
	xorl	%r10d, %r10d
	movq	56(%rsp), %r11
.LBB9_1041:
	pxor	%xmm0, %xmm0
	movdqu	%xmm0, 48(%r11,%rdx)
	movdqu	%xmm0, 32(%r11,%rdx)
	movdqu	%xmm0, 16(%r11,%rdx)
	movdqu	%xmm0, (%r11,%rdx)
	movdqu	%xmm0, 48(%r11,%r8)
	movdqu	%xmm0, 32(%r11,%r8)
	movdqu	%xmm0, 16(%r11,%r8)
	movdqu	%xmm0, (%r11,%r8)
	decq	%r10
	addq	%r9, %r11
	cmpq	%r10, %r12
	jne	.LBB9_1041
	subq	%r10, %rbp
.LBB9_1043:
	cmpq	$3, %rcx
	jb	.LBB9_1189
	subq	%rbp, %r15
	leaq	3(%rbp), %r8
	movq	80(%rsp), %rbx
	imulq	%rbx, %r8
	leaq	(,%rax,4), %r11
	leaq	(%r11,%r8,4), %rcx
	addq	$-64, %rcx
	movq	%rbx, %rdx
	shlq	$4, %rdx
	leaq	(,%r13,4), %rsi
	leaq	(%rsi,%r8,4), %r8
	leaq	2(%rbp), %r10
	imulq	%rbx, %r10
	leaq	(%r11,%r10,4), %r9
	addq	$-64, %r9
	leaq	(%rsi,%r10,4), %r10
	leaq	1(%rbp), %rdi
	imulq	%rbx, %rdi
	leaq	(%r11,%rdi,4), %r11
	addq	$-64, %r11
	leaq	(%rsi,%rdi,4), %rsi
	imulq	%rbx, %rbp
	addq	%rbp, %rax
	leaq	-64(,%rax,4), %rax
	addq	%r13, %rbp
	shlq	$2, %rbp
.LBB9_1045:
	pxor	%xmm0, %xmm0
	movq	56(%rsp), %rdi
	movdqu	%xmm0, 48(%rdi,%rbp)
	movdqu	%xmm0, 32(%rdi,%rbp)
	movdqu	%xmm0, 16(%rdi,%rbp)
	movdqu	%xmm0, (%rdi,%rbp)
	movdqu	%xmm0, 48(%rdi,%rax)
	movdqu	%xmm0, 32(%rdi,%rax)
	movdqu	%xmm0, 16(%rdi,%rax)
	movdqu	%xmm0, (%rdi,%rax)
	movdqu	%xmm0, 48(%rdi,%rsi)
	movdqu	%xmm0, 32(%rdi,%rsi)
	movdqu	%xmm0, 16(%rdi,%rsi)
	movdqu	%xmm0, (%rdi,%rsi)
	movdqu	%xmm0, 48(%rdi,%r11)
	movdqu	%xmm0, 32(%rdi,%r11)
	movdqu	%xmm0, 16(%rdi,%r11)
	movdqu	%xmm0, (%rdi,%r11)
	movdqu	%xmm0, 48(%rdi,%r10)
	movdqu	%xmm0, 32(%rdi,%r10)
	movdqu	%xmm0, 16(%rdi,%r10)
	movdqu	%xmm0, (%rdi,%r10)
	movdqu	%xmm0, 48(%rdi,%r9)
	movdqu	%xmm0, 32(%rdi,%r9)
	movdqu	%xmm0, 16(%rdi,%r9)
	movdqu	%xmm0, (%rdi,%r9)
	movdqu	%xmm0, 48(%rdi,%r8)
	movdqu	%xmm0, 32(%rdi,%r8)
	movdqu	%xmm0, 16(%rdi,%r8)
	movdqu	%xmm0, (%rdi,%r8)
	movdqu	%xmm0, 48(%rdi,%rcx)
	movdqu	%xmm0, 32(%rdi,%rcx)
	movdqu	%xmm0, 16(%rdi,%rcx)
	movdqu	%xmm0, (%rdi,%rcx)
	addq	%rdx, %rdi
	movq	%rdi, 56(%rsp)
	addq	$-4, %r15
	jne	.LBB9_1045
	jmp	.LBB9_1189
.LBB9_989:
	cmpq	%rax, %r8
	cmovaeq	%rax, %r8
	movl	%esi, %edx
	andl	$3, %edx
	subq	%r12, %r8
	cmpq	$-4, %r8
	jbe	.LBB9_1006
	xorl	%r11d, %r11d
	jmp	.LBB9_1009
.LBB9_356:
	cmpq	%rax, %r8
	cmovaeq	%rax, %r8
	movl	%r14d, %edx
	andl	$3, %edx
	subq	%r10, %r8
	cmpq	$-4, %r8
	jbe	.LBB9_373
	xorl	%r11d, %r11d
	jmp	.LBB9_376
.LBB9_1111:
	cmpq	%rax, %r8
	cmovaeq	%rax, %r8
	movl	%ebp, %edx
	andl	$3, %edx
	subq	%r14, %r8
	cmpq	$-4, %r8
	jbe	.LBB9_1128
	xorl	%r11d, %r11d
	jmp	.LBB9_1131
.LBB9_808:
	cmpq	%rax, %r8
	cmovaeq	%rax, %r8
	movl	%r14d, %edx
	andl	$3, %edx
	subq	%r10, %r8
	cmpq	$-4, %r8
	jbe	.LBB9_825
	xorl	%r11d, %r11d
	jmp	.LBB9_828
.LBB9_175:
	cmpq	%rax, %r8
	cmovaeq	%rax, %r8
	movl	%r13d, %edx
	andl	$3, %edx
	subq	%r10, %r8
	cmpq	$-4, %r8
	jbe	.LBB9_192
	xorl	%r11d, %r11d
	jmp	.LBB9_195
.LBB9_265:
	cmpq	%rax, %r8
	cmovaeq	%rax, %r8
	movl	%r13d, %edx
	andl	$3, %edx
	subq	%r14, %r8
	cmpq	$-4, %r8
	jbe	.LBB9_282
	xorl	%r11d, %r11d
	jmp	.LBB9_285
.LBB9_626:
	cmpq	%rax, %r8
	cmovaeq	%rax, %r8
	movl	%r14d, %edx
	andl	$3, %edx
	subq	%r10, %r8
	cmpq	$-4, %r8
	jbe	.LBB9_643
	xorl	%r11d, %r11d
	jmp	.LBB9_646
.LBB9_17:
	cmpq	%rax, %r8
	cmovaeq	%rax, %r8
	movl	%ebp, %edx
	andl	$3, %edx
	subq	%r10, %r8
	cmpq	$-4, %r8
	jbe	.LBB9_34
	xorl	%r11d, %r11d
	jmp	.LBB9_37
.LBB9_125:
	cmpq	%rax, %r8
	cmovaeq	%rax, %r8
	movl	%r13d, %edx
	andl	$3, %edx
	subq	%r15, %r8
	cmpq	$-4, %r8
	jbe	.LBB9_142
	xorl	%r11d, %r11d
	jmp	.LBB9_145
.LBB9_446:
	cmpq	%rax, %r8
	cmovaeq	%rax, %r8
	movl	%r14d, %edx
	andl	$3, %edx
	subq	%rbp, %r8
	cmpq	$-4, %r8
	jbe	.LBB9_463
	xorl	%r11d, %r11d
	jmp	.LBB9_466
.LBB9_536:
	cmpq	%rax, %r8
	cmovaeq	%rax, %r8
	movl	%r13d, %edx
	andl	$3, %edx
	subq	%r10, %r8
	cmpq	$-4, %r8
	jbe	.LBB9_553
	xorl	%r11d, %r11d
	jmp	.LBB9_556
.LBB9_899:
	cmpq	%rax, %r8
	cmovaeq	%rax, %r8
	movl	%r14d, %edx
	andl	$3, %edx
	subq	%r10, %r8
	cmpq	$-4, %r8
	jbe	.LBB9_916
	xorl	%r11d, %r11d
	jmp	.LBB9_919
.LBB9_716:
	cmpq	%rax, %r8
	cmovaeq	%rax, %r8
	movl	%r14d, %edx
	andl	$3, %edx
	subq	%r10, %r8
	cmpq	$-4, %r8
	jbe	.LBB9_733
	xorl	%r11d, %r11d
	jmp	.LBB9_736
.LBB9_1081:
	movl	%r15d, %eax
	subl	%ebp, %eax
	movq	%rbp, %rdx
	andl	$3, %eax
	je	.LBB9_1085
	movq	%rbp, %rcx
	movq	80(%rsp), %r8
	imulq	%r8, %rcx
	addq	%rsi, %rcx
	movq	56(%rsp), %rdx
	leaq	(%rdx,%rcx,4), %rcx
	leaq	(,%r8,4), %rdx
	negq	%rax
	xorl	%r8d, %r8d
.LBB9_1083:
	pxor	%xmm0, %xmm0
	movdqu	%xmm0, 16(%rcx)
	movdqu	%xmm0, (%rcx)
	decq	%r8
	addq	%rdx, %rcx
	cmpq	%r8, %rax
	jne	.LBB9_1083
	movq	%rbp, %rdx
	subq	%r8, %rdx
.LBB9_1085:
	subq	%r15, %rbp
	cmpq	$-4, %rbp
	ja	.LBB9_1189
	subq	%rdx, %r15
	leaq	3(%rdx), %rax
	movq	80(%rsp), %r11
	imulq	%r11, %rax
	movq	56(%rsp), %r10
	leaq	(%r10,%rax,4), %rax
	shlq	$2, %rsi
	movq	%r11, %rcx
	shlq	$4, %rcx
	leaq	2(%rdx), %r8
	imulq	%r11, %r8
	leaq	(%r10,%r8,4), %r8
	leaq	1(%rdx), %r9
	imulq	%r11, %r9
	leaq	(%r10,%r9,4), %r9
	imulq	%r11, %rdx
	leaq	(%r10,%rdx,4), %rdx
.LBB9_1087:
	pxor	%xmm0, %xmm0
	movdqu	%xmm0, 16(%rdx,%rsi)
	movdqu	%xmm0, (%rdx,%rsi)
	movdqu	%xmm0, 16(%r9,%rsi)
	movdqu	%xmm0, (%r9,%rsi)
	movdqu	%xmm0, 16(%r8,%rsi)
	movdqu	%xmm0, (%r8,%rsi)
	movdqu	%xmm0, 16(%rax,%rsi)
	movdqu	%xmm0, (%rax,%rsi)
	addq	%rcx, %rsi
	addq	$-4, %r15
	jne	.LBB9_1087
	jmp	.LBB9_1189
.LBB9_983:
	andl	$-8, %esi
	movq	80(%rsp), %r12
	shlq	$5, %r12
	xorl	%edi, %edi
	movq	56(%rsp), %r14
.LBB9_984:
	movq	%r14, %rcx
	xorl	%edx, %edx
	movq	%rbx, %r8
	callq	memset
	leaq	(%r14,%r13), %r15
	movq	%r15, %rcx
	xorl	%edx, %edx
	movq	%rbx, %r8
	callq	memset
	addq	%r13, %r15
	movq	%r15, %rcx
	xorl	%edx, %edx
	movq	%rbx, %r8
	callq	memset
	addq	%r13, %r15
	movq	%r15, %rcx
	xorl	%edx, %edx
	movq	%rbx, %r8
	callq	memset
	addq	%r13, %r15
	movq	%r15, %rcx
	xorl	%edx, %edx
	movq	%rbx, %r8
	callq	memset
	addq	%r13, %r15
	movq	%r15, %rcx
	xorl	%edx, %edx
	movq	%rbx, %r8
	callq	memset
	addq	%r13, %r15
	movq	%r15, %rcx
	xorl	%edx, %edx
	movq	%rbx, %r8
	callq	memset
	addq	%r13, %r15
	movq	%r15, %rcx
	xorl	%edx, %edx
	movq	%rbx, %r8
	callq	memset
	addq	$8, %rdi
	addq	%r12, %r14
	cmpq	%rdi, %rsi
	jne	.LBB9_984
	testq	%rbp, %rbp
	je	.LBB9_1189
.LBB9_986:
	imulq	80(%rsp), %rdi
	movq	56(%rsp), %rax
	leaq	(%rax,%rdi,4), %rsi
	negq	%rbp
.LBB9_987:
	movq	%rsi, %rcx
	xorl	%edx, %edx
	movq	%rbx, %r8
	callq	memset
	addq	%r13, %rsi
	incq	%rbp
	jne	.LBB9_987
	jmp	.LBB9_1189
.LBB9_993:
	andl	$-4, %esi
	leaq	(,%r13,2), %r8
	addq	%r13, %r8
	movq	80(%rsp), %rdi
	movq	%rdi, %r9
	shlq	$4, %r9
	movq	%r9, 64(%rsp)
	leaq	(,%r14,4), %r10
	leaq	(%r8,%r14,4), %r11
	cmpq	%rax, %rcx
	movq	%rax, %r8
	cmovbq	%rcx, %r8
	shlq	$2, %r8
	subq	%r8, %r11
	addq	$-32, %r11
	leaq	(,%rdi,8), %r15
	leaq	(%r10,%rdi,8), %r12
	subq	%r8, %r12
	addq	$-32, %r12
	leaq	(,%r14,4), %rbp
	addq	%r13, %rbp
	subq	%r8, %rbp
	addq	$-32, %rbp
	subq	%r8, %r10
	addq	$-32, %r10
	xorl	%edi, %edi
	movq	56(%rsp), %r8
	jmp	.LBB9_994
.LBB9_999:
	leaq	(,%r13,2), %r9
	addq	%r13, %r9
	movdqu	%xmm0, 16(%r8,%r9)
	movdqu	%xmm0, (%r8,%r9)
	addq	$4, %rdi
	addq	64(%rsp), %r8
	cmpq	%rdi, %rsi
	je	.LBB9_1001
.LBB9_994:
	pxor	%xmm0, %xmm0
	movdqu	%xmm0, 16(%r8)
	movdqu	%xmm0, (%r8)
	cmpq	$9, %rbx
	jb	.LBB9_996
	movdqu	%xmm0, 16(%r8,%r10)
	movdqu	%xmm0, (%r8,%r10)
	movdqu	%xmm0, 16(%r8,%r13)
	movdqu	%xmm0, (%r8,%r13)
	movdqu	%xmm0, 16(%r8,%rbp)
	movdqu	%xmm0, (%r8,%rbp)
	jmp	.LBB9_997
.LBB9_996:
	movdqu	%xmm0, 16(%r8,%r13)
	movdqu	%xmm0, (%r8,%r13)
.LBB9_997:
	movdqu	%xmm0, 16(%r8,%r15)
	movdqu	%xmm0, (%r8,%r15)
	cmpq	$9, %rbx
	jb	.LBB9_999
	movdqu	%xmm0, 16(%r8,%r12)
	movdqu	%xmm0, (%r8,%r12)
	leaq	(,%r13,2), %r9
	addq	%r13, %r9
	movdqu	%xmm0, 16(%r8,%r9)
	movdqu	%xmm0, (%r8,%r9)
	movdqu	%xmm0, 16(%r8,%r11)
	movdqu	%xmm0, (%r8,%r11)
	addq	$4, %rdi
	addq	64(%rsp), %r8
	cmpq	%rdi, %rsi
	jne	.LBB9_994
.LBB9_1001:
	testq	%rdx, %rdx
	je	.LBB9_1189
.LBB9_1002:
	shlq	$2, %r14
	cmpq	%rax, %rcx
	cmovbq	%rcx, %rax
	shlq	$2, %rax
	subq	%rax, %r14
	addq	$-32, %r14
	imulq	80(%rsp), %rdi
	movq	56(%rsp), %rax
	leaq	(%rax,%rdi,4), %rax
	negq	%rdx
	jmp	.LBB9_1003
.LBB9_1005:
	addq	%r13, %rax
	incq	%rdx
	je	.LBB9_1189
.LBB9_1003:
	pxor	%xmm0, %xmm0
	movdqu	%xmm0, 16(%rax)
	movdqu	%xmm0, (%rax)
	cmpq	$9, %rbx
	jb	.LBB9_1005
	movdqu	%xmm0, 16(%rax,%r14)
	movdqu	%xmm0, (%rax,%r14)
	jmp	.LBB9_1005
.LBB9_1006:
	andl	$-4, %esi
	leaq	(,%r13,2), %r8
	addq	%r13, %r8
	leaq	(,%r14,4), %r9
	leaq	(%r8,%r14,4), %r10
	cmpq	%rax, %rcx
	movq	%rax, %r11
	cmovbq	%rcx, %r11
	shlq	$2, %r11
	subq	%r11, %r10
	addq	$-64, %r10
	movq	80(%rsp), %r15
	movq	%r15, %rdi
	shlq	$4, %rdi
	leaq	(,%r15,8), %rbx
	leaq	(%r9,%r15,8), %r15
	subq	%r11, %r15
	addq	$-64, %r15
	leaq	(,%r14,4), %r12
	addq	%r13, %r12
	subq	%r11, %r12
	addq	$-64, %r12
	subq	%r11, %r9
	addq	$-64, %r9
	xorl	%r11d, %r11d
	movq	56(%rsp), %rbp
.LBB9_1007:
	pxor	%xmm0, %xmm0
	movdqu	%xmm0, 48(%rbp)
	movdqu	%xmm0, 32(%rbp)
	movdqu	%xmm0, 16(%rbp)
	movdqu	%xmm0, (%rbp)
	movdqu	%xmm0, 48(%rbp,%r9)
	movdqu	%xmm0, 32(%rbp,%r9)
	movdqu	%xmm0, 16(%rbp,%r9)
	movdqu	%xmm0, (%rbp,%r9)
	movdqu	%xmm0, 48(%rbp,%r13)
	movdqu	%xmm0, 32(%rbp,%r13)
	movdqu	%xmm0, 16(%rbp,%r13)
	movdqu	%xmm0, (%rbp,%r13)
	movdqu	%xmm0, 48(%rbp,%r12)
	movdqu	%xmm0, 32(%rbp,%r12)
	movdqu	%xmm0, 16(%rbp,%r12)
	movdqu	%xmm0, (%rbp,%r12)
	movdqu	%xmm0, 48(%rbp,%rbx)
	movdqu	%xmm0, 32(%rbp,%rbx)
	movdqu	%xmm0, 16(%rbp,%rbx)
	movdqu	%xmm0, (%rbp,%rbx)
	movdqu	%xmm0, 48(%rbp,%r15)
	movdqu	%xmm0, 32(%rbp,%r15)
	movdqu	%xmm0, 16(%rbp,%r15)
	movdqu	%xmm0, (%rbp,%r15)
	movdqu	%xmm0, 48(%rbp,%r8)
	movdqu	%xmm0, 32(%rbp,%r8)
	movdqu	%xmm0, 16(%rbp,%r8)
	movdqu	%xmm0, (%rbp,%r8)
	movdqu	%xmm0, 48(%rbp,%r10)
	movdqu	%xmm0, 32(%rbp,%r10)
	movdqu	%xmm0, 16(%rbp,%r10)
	movdqu	%xmm0, (%rbp,%r10)
	addq	$4, %r11
	addq	%rdi, %rbp
	cmpq	%r11, %rsi
	jne	.LBB9_1007
	testq	%rdx, %rdx
	je	.LBB9_1189
.LBB9_1009:
	shlq	$2, %r14
	cmpq	%rax, %rcx
	cmovbq	%rcx, %rax
	shlq	$2, %rax
	subq	%rax, %r14
	addq	$-64, %r14
	imulq	80(%rsp), %r11
	movq	56(%rsp), %rax
	leaq	(%rax,%r11,4), %rax
	negq	%rdx
.LBB9_1010:
	pxor	%xmm0, %xmm0
	movdqu	%xmm0, 48(%rax)
	movdqu	%xmm0, 32(%rax)
	movdqu	%xmm0, 16(%rax)
	movdqu	%xmm0, (%rax)
	movdqu	%xmm0, 48(%rax,%r14)
	movdqu	%xmm0, 32(%rax,%r14)
	movdqu	%xmm0, 16(%rax,%r14)
	movdqu	%xmm0, (%rax,%r14)
	addq	%r13, %rax
	incq	%rdx
	jne	.LBB9_1010
	jmp	.LBB9_1189
.LBB9_350:
	andl	$-8, %r14d
	movq	%r14, 56(%rsp)
	movq	128(%rsp), %rbp
	shlq	$5, %rbp
	xorl	%esi, %esi
	movq	%rdi, %r14
.LBB9_351:
	movq	%r14, %rcx
	xorl	%edx, %edx
	movq	%rbx, %r8
	callq	memset
	leaq	(%r14,%r12), %r15
	movq	%r15, %rcx
	xorl	%edx, %edx
	movq	%rbx, %r8
	callq	memset
	addq	%r12, %r15
	movq	%r15, %rcx
	xorl	%edx, %edx
	movq	%rbx, %r8
	callq	memset
	addq	%r12, %r15
	movq	%r15, %rcx
	xorl	%edx, %edx
	movq	%rbx, %r8
	callq	memset
	addq	%r12, %r15
	movq	%r15, %rcx
	xorl	%edx, %edx
	movq	%rbx, %r8
	callq	memset
	addq	%r12, %r15
	movq	%r15, %rcx
	xorl	%edx, %edx
	movq	%rbx, %r8
	callq	memset
	addq	%r12, %r15
	movq	%r15, %rcx
	xorl	%edx, %edx
	movq	%rbx, %r8
	callq	memset
	addq	%r12, %r15
	movq	%r15, %rcx
	xorl	%edx, %edx
	movq	%rbx, %r8
	callq	memset
	addq	$8, %rsi
	addq	%rbp, %r14
	cmpq	%rsi, 56(%rsp)
	jne	.LBB9_351
	testq	%r13, %r13
	je	.LBB9_1189
.LBB9_353:
	imulq	128(%rsp), %rsi
	leaq	(%rdi,%rsi,4), %rsi
	negq	%r13
.LBB9_354:
	movq	%rsi, %rcx
	xorl	%edx, %edx
	movq	%rbx, %r8
	callq	memset
	addq	%r12, %rsi
	incq	%r13
	jne	.LBB9_354
	jmp	.LBB9_1189
.LBB9_359:
	cmpq	%rax, %r8
	cmovbq	%r8, %rax
	movl	%r14d, %ecx
	andl	$7, %ecx
	subq	%r10, %rax
	cmpq	$-8, %rax
	jbe	.LBB9_368
	xorl	%eax, %eax
	jmp	.LBB9_371
.LBB9_373:
	andl	$-4, %r14d
	leaq	(%r12,%r12,2), %r8
	leaq	(,%r15,4), %r9
	leaq	(%r8,%r15,4), %r10
	cmpq	%rax, %rcx
	movq	%rax, %r11
	cmovbq	%rcx, %r11
	shlq	$2, %r11
	subq	%r11, %r10
	addq	$-64, %r10
	movq	128(%rsp), %rbx
	movq	%rbx, %rsi
	shlq	$4, %rsi
	movq	%rsi, 56(%rsp)
	leaq	(,%rbx,8), %r13
	leaq	(%r9,%rbx,8), %rbx
	subq	%r11, %rbx
	addq	$-64, %rbx
	movq	%r14, %rsi
	leaq	(%r12,%r15,4), %r14
	subq	%r11, %r14
	addq	$-64, %r14
	subq	%r11, %r9
	addq	$-64, %r9
	xorl	%r11d, %r11d
	movq	%rdi, %rbp
.LBB9_374:
	pxor	%xmm0, %xmm0
	movdqu	%xmm0, 48(%rbp)
	movdqu	%xmm0, 32(%rbp)
	movdqu	%xmm0, 16(%rbp)
	movdqu	%xmm0, (%rbp)
	movdqu	%xmm0, 48(%rbp,%r9)
	movdqu	%xmm0, 32(%rbp,%r9)
	movdqu	%xmm0, 16(%rbp,%r9)
	movdqu	%xmm0, (%rbp,%r9)
	movdqu	%xmm0, 48(%rbp,%r12)
	movdqu	%xmm0, 32(%rbp,%r12)
	movdqu	%xmm0, 16(%rbp,%r12)
	movdqu	%xmm0, (%rbp,%r12)
	movdqu	%xmm0, 48(%rbp,%r14)
	movdqu	%xmm0, 32(%rbp,%r14)
	movdqu	%xmm0, 16(%rbp,%r14)
	movdqu	%xmm0, (%rbp,%r14)
	movdqu	%xmm0, 48(%rbp,%r13)
	movdqu	%xmm0, 32(%rbp,%r13)
	movdqu	%xmm0, 16(%rbp,%r13)
	movdqu	%xmm0, (%rbp,%r13)
	movdqu	%xmm0, 48(%rbp,%rbx)
	movdqu	%xmm0, 32(%rbp,%rbx)
	movdqu	%xmm0, 16(%rbp,%rbx)
	movdqu	%xmm0, (%rbp,%rbx)
	movdqu	%xmm0, 48(%rbp,%r8)
	movdqu	%xmm0, 32(%rbp,%r8)
	movdqu	%xmm0, 16(%rbp,%r8)
	movdqu	%xmm0, (%rbp,%r8)
	movdqu	%xmm0, 48(%rbp,%r10)
	movdqu	%xmm0, 32(%rbp,%r10)
	movdqu	%xmm0, 16(%rbp,%r10)
	movdqu	%xmm0, (%rbp,%r10)
	addq	$4, %r11
	addq	56(%rsp), %rbp
	cmpq	%r11, %rsi
	jne	.LBB9_374
	testq	%rdx, %rdx
	je	.LBB9_1189
.LBB9_376:
	shlq	$2, %r15
	cmpq	%rax, %rcx
	cmovbq	%rcx, %rax
	shlq	$2, %rax
	subq	%rax, %r15
	addq	$-64, %r15
	imulq	128(%rsp), %r11
	leaq	(%rdi,%r11,4), %rax
	negq	%rdx
.LBB9_377:
	pxor	%xmm0, %xmm0
	movdqu	%xmm0, 48(%rax)
	movdqu	%xmm0, 32(%rax)
	movdqu	%xmm0, 16(%rax)
	movdqu	%xmm0, (%rax)
	movdqu	%xmm0, 48(%rax,%r15)
	movdqu	%xmm0, 32(%rax,%r15)
	movdqu	%xmm0, 16(%rax,%r15)
	movdqu	%xmm0, (%rax,%r15)
	addq	%r12, %rax
	incq	%rdx
	jne	.LBB9_377
	jmp	.LBB9_1189
.LBB9_1105:
	andl	$-8, %ebp
	movq	%rbp, 56(%rsp)
	movq	80(%rsp), %rbp
	shlq	$5, %rbp
	xorl	%esi, %esi
	movq	%rdi, %r14
.LBB9_1106:
	movq	%r14, %rcx
	xorl	%edx, %edx
	movq	%rbx, %r8
	callq	memset
	leaq	(%r14,%r12), %r15
	movq	%r15, %rcx
	xorl	%edx, %edx
	movq	%rbx, %r8
	callq	memset
	addq	%r12, %r15
	movq	%r15, %rcx
	xorl	%edx, %edx
	movq	%rbx, %r8
	callq	memset
	addq	%r12, %r15
	movq	%r15, %rcx
	xorl	%edx, %edx
	movq	%rbx, %r8
	callq	memset
	addq	%r12, %r15
	movq	%r15, %rcx
	xorl	%edx, %edx
	movq	%rbx, %r8
	callq	memset
	addq	%r12, %r15
	movq	%r15, %rcx
	xorl	%edx, %edx
	movq	%rbx, %r8
	callq	memset
	addq	%r12, %r15
	movq	%r15, %rcx
	xorl	%edx, %edx
	movq	%rbx, %r8
	callq	memset
	addq	%r12, %r15
	movq	%r15, %rcx
	xorl	%edx, %edx
	movq	%rbx, %r8
	callq	memset
	addq	$8, %rsi
	addq	%rbp, %r14
	cmpq	%rsi, 56(%rsp)
	jne	.LBB9_1106
	testq	%r13, %r13
	je	.LBB9_1189
.LBB9_1108:
	imulq	80(%rsp), %rsi
	leaq	(%rdi,%rsi,4), %rsi
	negq	%r13
.LBB9_1109:
	movq	%rsi, %rcx
	xorl	%edx, %edx
	movq	%rbx, %r8
	callq	memset
	addq	%r12, %rsi
	incq	%r13
	jne	.LBB9_1109
	jmp	.LBB9_1189
.LBB9_1114:
	cmpq	%rax, %r8
	cmovbq	%r8, %rax
	movl	%ebp, %ecx
	andl	$7, %ecx
	subq	%r14, %rax
	cmpq	$-8, %rax
	jbe	.LBB9_1123
	xorl	%eax, %eax
	jmp	.LBB9_1126
.LBB9_1128:
	andl	$-4, %ebp
	leaq	(%r12,%r12,2), %r8
	leaq	(,%r15,4), %r9
	leaq	(%r8,%r15,4), %r10
	cmpq	%rax, %rcx
	movq	%rax, %r11
	cmovbq	%rcx, %r11
	shlq	$2, %r11
	subq	%r11, %r10
	addq	$-64, %r10
	movq	80(%rsp), %rbx
	movq	%rbx, %rsi
	shlq	$4, %rsi
	movq	%rsi, 56(%rsp)
	leaq	(,%rbx,8), %r13
	leaq	(%r9,%rbx,8), %rbx
	subq	%r11, %rbx
	addq	$-64, %rbx
	leaq	(%r12,%r15,4), %r14
	subq	%r11, %r14
	addq	$-64, %r14
	subq	%r11, %r9
	addq	$-64, %r9
	xorl	%r11d, %r11d
	movq	%rbp, %rsi
	movq	%rdi, %rbp
.LBB9_1129:
	pxor	%xmm0, %xmm0
	movdqu	%xmm0, 48(%rbp)
	movdqu	%xmm0, 32(%rbp)
	movdqu	%xmm0, 16(%rbp)
	movdqu	%xmm0, (%rbp)
	movdqu	%xmm0, 48(%rbp,%r9)
	movdqu	%xmm0, 32(%rbp,%r9)
	movdqu	%xmm0, 16(%rbp,%r9)
	movdqu	%xmm0, (%rbp,%r9)
	movdqu	%xmm0, 48(%rbp,%r12)
	movdqu	%xmm0, 32(%rbp,%r12)
	movdqu	%xmm0, 16(%rbp,%r12)
	movdqu	%xmm0, (%rbp,%r12)
	movdqu	%xmm0, 48(%rbp,%r14)
	movdqu	%xmm0, 32(%rbp,%r14)
	movdqu	%xmm0, 16(%rbp,%r14)
	movdqu	%xmm0, (%rbp,%r14)
	movdqu	%xmm0, 48(%rbp,%r13)
	movdqu	%xmm0, 32(%rbp,%r13)
	movdqu	%xmm0, 16(%rbp,%r13)
	movdqu	%xmm0, (%rbp,%r13)
	movdqu	%xmm0, 48(%rbp,%rbx)
	movdqu	%xmm0, 32(%rbp,%rbx)
	movdqu	%xmm0, 16(%rbp,%rbx)
	movdqu	%xmm0, (%rbp,%rbx)
	movdqu	%xmm0, 48(%rbp,%r8)
	movdqu	%xmm0, 32(%rbp,%r8)
	movdqu	%xmm0, 16(%rbp,%r8)
	movdqu	%xmm0, (%rbp,%r8)
	movdqu	%xmm0, 48(%rbp,%r10)
	movdqu	%xmm0, 32(%rbp,%r10)
	movdqu	%xmm0, 16(%rbp,%r10)
	movdqu	%xmm0, (%rbp,%r10)
	addq	$4, %r11
	addq	56(%rsp), %rbp
	cmpq	%r11, %rsi
	jne	.LBB9_1129
	testq	%rdx, %rdx
	je	.LBB9_1189
.LBB9_1131:
	shlq	$2, %r15
	cmpq	%rax, %rcx
	cmovbq	%rcx, %rax
	shlq	$2, %rax
	subq	%rax, %r15
	addq	$-64, %r15
	imulq	80(%rsp), %r11
	leaq	(%rdi,%r11,4), %rax
	negq	%rdx
.LBB9_1132:
	pxor	%xmm0, %xmm0
	movdqu	%xmm0, 48(%rax)
	movdqu	%xmm0, 32(%rax)
	movdqu	%xmm0, 16(%rax)
	movdqu	%xmm0, (%rax)
	movdqu	%xmm0, 48(%rax,%r15)
	movdqu	%xmm0, 32(%rax,%r15)
	movdqu	%xmm0, 16(%rax,%r15)
	movdqu	%xmm0, (%rax,%r15)
	addq	%r12, %rax
	incq	%rdx
	jne	.LBB9_1132
	jmp	.LBB9_1189
.LBB9_802:
	andl	$-8, %r14d
	movq	%r14, 56(%rsp)
	movq	80(%rsp), %rbp
	shlq	$5, %rbp
	xorl	%esi, %esi
	movq	%rdi, %r14
.LBB9_803:
	movq	%r14, %rcx
	xorl	%edx, %edx
	movq	%rbx, %r8
	callq	memset
	leaq	(%r14,%r12), %r15
	movq	%r15, %rcx
	xorl	%edx, %edx
	movq	%rbx, %r8
	callq	memset
	addq	%r12, %r15
	movq	%r15, %rcx
	xorl	%edx, %edx
	movq	%rbx, %r8
	callq	memset
	addq	%r12, %r15
	movq	%r15, %rcx
	xorl	%edx, %edx
	movq	%rbx, %r8
	callq	memset
	addq	%r12, %r15
	movq	%r15, %rcx
	xorl	%edx, %edx
	movq	%rbx, %r8
	callq	memset
	addq	%r12, %r15
	movq	%r15, %rcx
	xorl	%edx, %edx
	movq	%rbx, %r8
	callq	memset
	addq	%r12, %r15
	movq	%r15, %rcx
	xorl	%edx, %edx
	movq	%rbx, %r8
	callq	memset
	addq	%r12, %r15
	movq	%r15, %rcx
	xorl	%edx, %edx
	movq	%rbx, %r8
	callq	memset
	addq	$8, %rsi
	addq	%rbp, %r14
	cmpq	%rsi, 56(%rsp)
	jne	.LBB9_803
	testq	%r13, %r13
	je	.LBB9_1189
.LBB9_805:
	imulq	80(%rsp), %rsi
	leaq	(%rdi,%rsi,4), %rsi
	negq	%r13
.LBB9_806:
	movq	%rsi, %rcx
	xorl	%edx, %edx
	movq	%rbx, %r8
	callq	memset
	addq	%r12, %rsi
	incq	%r13
	jne	.LBB9_806
	jmp	.LBB9_1189
.LBB9_811:
	cmpq	%rax, %r8
	cmovbq	%r8, %rax
	movl	%r14d, %ecx
	andl	$7, %ecx
	subq	%r10, %rax
	cmpq	$-8, %rax
	jbe	.LBB9_820
	xorl	%eax, %eax
	jmp	.LBB9_823
.LBB9_825:
	andl	$-4, %r14d
	leaq	(%r12,%r12,2), %r8
	leaq	(,%r15,4), %r9
	leaq	(%r8,%r15,4), %r10
	cmpq	%rax, %rcx
	movq	%rax, %r11
	cmovbq	%rcx, %r11
	shlq	$2, %r11
	subq	%r11, %r10
	addq	$-64, %r10
	movq	80(%rsp), %rbx
	movq	%rbx, %rsi
	shlq	$4, %rsi
	movq	%rsi, 56(%rsp)
	leaq	(,%rbx,8), %r13
	leaq	(%r9,%rbx,8), %rbx
	subq	%r11, %rbx
	addq	$-64, %rbx
	movq	%r14, %rsi
	leaq	(%r12,%r15,4), %r14
	subq	%r11, %r14
	addq	$-64, %r14
	subq	%r11, %r9
	addq	$-64, %r9
	xorl	%r11d, %r11d
	movq	%rdi, %rbp
.LBB9_826:
	pxor	%xmm0, %xmm0
	movdqu	%xmm0, 48(%rbp)
	movdqu	%xmm0, 32(%rbp)
	movdqu	%xmm0, 16(%rbp)
	movdqu	%xmm0, (%rbp)
	movdqu	%xmm0, 48(%rbp,%r9)
	movdqu	%xmm0, 32(%rbp,%r9)
	movdqu	%xmm0, 16(%rbp,%r9)
	movdqu	%xmm0, (%rbp,%r9)
	movdqu	%xmm0, 48(%rbp,%r12)
	movdqu	%xmm0, 32(%rbp,%r12)
	movdqu	%xmm0, 16(%rbp,%r12)
	movdqu	%xmm0, (%rbp,%r12)
	movdqu	%xmm0, 48(%rbp,%r14)
	movdqu	%xmm0, 32(%rbp,%r14)
	movdqu	%xmm0, 16(%rbp,%r14)
	movdqu	%xmm0, (%rbp,%r14)
	movdqu	%xmm0, 48(%rbp,%r13)
	movdqu	%xmm0, 32(%rbp,%r13)
	movdqu	%xmm0, 16(%rbp,%r13)
	movdqu	%xmm0, (%rbp,%r13)
	movdqu	%xmm0, 48(%rbp,%rbx)
	movdqu	%xmm0, 32(%rbp,%rbx)
	movdqu	%xmm0, 16(%rbp,%rbx)
	movdqu	%xmm0, (%rbp,%rbx)
	movdqu	%xmm0, 48(%rbp,%r8)
	movdqu	%xmm0, 32(%rbp,%r8)
	movdqu	%xmm0, 16(%rbp,%r8)
	movdqu	%xmm0, (%rbp,%r8)
	movdqu	%xmm0, 48(%rbp,%r10)
	movdqu	%xmm0, 32(%rbp,%r10)
	movdqu	%xmm0, 16(%rbp,%r10)
	movdqu	%xmm0, (%rbp,%r10)
	addq	$4, %r11
	addq	56(%rsp), %rbp
	cmpq	%r11, %rsi
	jne	.LBB9_826
	testq	%rdx, %rdx
	je	.LBB9_1189
.LBB9_828:
	shlq	$2, %r15
	cmpq	%rax, %rcx
	cmovbq	%rcx, %rax
	shlq	$2, %rax
	subq	%rax, %r15
	addq	$-64, %r15
	imulq	80(%rsp), %r11
	leaq	(%rdi,%r11,4), %rax
	negq	%rdx
.LBB9_829:
	pxor	%xmm0, %xmm0
	movdqu	%xmm0, 48(%rax)
	movdqu	%xmm0, 32(%rax)
	movdqu	%xmm0, 16(%rax)
	movdqu	%xmm0, (%rax)
	movdqu	%xmm0, 48(%rax,%r15)
	movdqu	%xmm0, 32(%rax,%r15)
	movdqu	%xmm0, 16(%rax,%r15)
	movdqu	%xmm0, (%rax,%r15)
	addq	%r12, %rax
	incq	%rdx
	jne	.LBB9_829
	jmp	.LBB9_1189
.LBB9_169:
	andl	$-8, %r13d
	movq	64(%rsp), %rbp
	shlq	$5, %rbp
	xorl	%esi, %esi
	movq	56(%rsp), %r14
.LBB9_170:
	movq	%r14, %rcx
	xorl	%edx, %edx
	movq	%rbx, %r8
	callq	memset
	leaq	(%r14,%r12), %r15
	movq	%r15, %rcx
	xorl	%edx, %edx
	movq	%rbx, %r8
	callq	memset
	addq	%r12, %r15
	movq	%r15, %rcx
	xorl	%edx, %edx
	movq	%rbx, %r8
	callq	memset
	addq	%r12, %r15
	movq	%r15, %rcx
	xorl	%edx, %edx
	movq	%rbx, %r8
	callq	memset
	addq	%r12, %r15
	movq	%r15, %rcx
	xorl	%edx, %edx
	movq	%rbx, %r8
	callq	memset
	addq	%r12, %r15
	movq	%r15, %rcx
	xorl	%edx, %edx
	movq	%rbx, %r8
	callq	memset
	addq	%r12, %r15
	movq	%r15, %rcx
	xorl	%edx, %edx
	movq	%rbx, %r8
	callq	memset
	addq	%r12, %r15
	movq	%r15, %rcx
	xorl	%edx, %edx
	movq	%rbx, %r8
	callq	memset
	addq	$8, %rsi
	addq	%rbp, %r14
	cmpq	%rsi, %r13
	jne	.LBB9_170
	testq	%rdi, %rdi
	je	.LBB9_1189
.LBB9_172:
	imulq	64(%rsp), %rsi
	movq	56(%rsp), %rax
	leaq	(%rax,%rsi,4), %rsi
	negq	%rdi
.LBB9_173:
	movq	%rsi, %rcx
	xorl	%edx, %edx
	movq	%rbx, %r8
	callq	memset
	addq	%r12, %rsi
	incq	%rdi
	jne	.LBB9_173
	jmp	.LBB9_1189
.LBB9_178:
	cmpq	%rax, %r8
	cmovbq	%r8, %rax
	movl	%r13d, %ecx
	andl	$7, %ecx
	subq	%r10, %rax
	cmpq	$-8, %rax
	jbe	.LBB9_187
	xorl	%eax, %eax
	jmp	.LBB9_190
.LBB9_192:
	andl	$-4, %r13d
	leaq	(%r12,%r12,2), %r8
	leaq	(,%r15,4), %r9
	leaq	(%r8,%r15,4), %r10
	cmpq	%rax, %rcx
	movq	%rax, %r11
	cmovbq	%rcx, %r11
	shlq	$2, %r11
	subq	%r11, %r10
	addq	$-64, %r10
	movq	64(%rsp), %rbx
	movq	%rbx, %rsi
	shlq	$4, %rsi
	leaq	(,%rbx,8), %rdi
	leaq	(%r9,%rbx,8), %rbx
	subq	%r11, %rbx
	addq	$-64, %rbx
	leaq	(%r12,%r15,4), %r14
	subq	%r11, %r14
	addq	$-64, %r14
	subq	%r11, %r9
	addq	$-64, %r9
	xorl	%r11d, %r11d
	movq	56(%rsp), %rbp
.LBB9_193:
	pxor	%xmm0, %xmm0
	movdqu	%xmm0, 48(%rbp)
	movdqu	%xmm0, 32(%rbp)
	movdqu	%xmm0, 16(%rbp)
	movdqu	%xmm0, (%rbp)
	movdqu	%xmm0, 48(%rbp,%r9)
	movdqu	%xmm0, 32(%rbp,%r9)
	movdqu	%xmm0, 16(%rbp,%r9)
	movdqu	%xmm0, (%rbp,%r9)
	movdqu	%xmm0, 48(%rbp,%r12)
	movdqu	%xmm0, 32(%rbp,%r12)
	movdqu	%xmm0, 16(%rbp,%r12)
	movdqu	%xmm0, (%rbp,%r12)
	movdqu	%xmm0, 48(%rbp,%r14)
	movdqu	%xmm0, 32(%rbp,%r14)
	movdqu	%xmm0, 16(%rbp,%r14)
	movdqu	%xmm0, (%rbp,%r14)
	movdqu	%xmm0, 48(%rbp,%rdi)
	movdqu	%xmm0, 32(%rbp,%rdi)
	movdqu	%xmm0, 16(%rbp,%rdi)
	movdqu	%xmm0, (%rbp,%rdi)
	movdqu	%xmm0, 48(%rbp,%rbx)
	movdqu	%xmm0, 32(%rbp,%rbx)
	movdqu	%xmm0, 16(%rbp,%rbx)
	movdqu	%xmm0, (%rbp,%rbx)
	movdqu	%xmm0, 48(%rbp,%r8)
	movdqu	%xmm0, 32(%rbp,%r8)
	movdqu	%xmm0, 16(%rbp,%r8)
	movdqu	%xmm0, (%rbp,%r8)
	movdqu	%xmm0, 48(%rbp,%r10)
	movdqu	%xmm0, 32(%rbp,%r10)
	movdqu	%xmm0, 16(%rbp,%r10)
	movdqu	%xmm0, (%rbp,%r10)
	addq	$4, %r11
	addq	%rsi, %rbp
	cmpq	%r11, %r13
	jne	.LBB9_193
	testq	%rdx, %rdx
	je	.LBB9_1189
.LBB9_195:
	shlq	$2, %r15
	cmpq	%rax, %rcx
	cmovbq	%rcx, %rax
	shlq	$2, %rax
	subq	%rax, %r15
	addq	$-64, %r15
	imulq	64(%rsp), %r11
	movq	56(%rsp), %rax
	leaq	(%rax,%r11,4), %rax
	negq	%rdx
.LBB9_196:
	pxor	%xmm0, %xmm0
	movdqu	%xmm0, 48(%rax)
	movdqu	%xmm0, 32(%rax)
	movdqu	%xmm0, 16(%rax)
	movdqu	%xmm0, (%rax)
	movdqu	%xmm0, 48(%rax,%r15)
	movdqu	%xmm0, 32(%rax,%r15)
	movdqu	%xmm0, 16(%rax,%r15)
	movdqu	%xmm0, (%rax,%r15)
	addq	%r12, %rax
	incq	%rdx
	jne	.LBB9_196
	jmp	.LBB9_1189
.LBB9_259:
	andl	$-8, %r13d
	movq	64(%rsp), %rbp
	shlq	$5, %rbp
	xorl	%esi, %esi
	movq	56(%rsp), %r14
.LBB9_260:
	movq	%r14, %rcx
	xorl	%edx, %edx
	movq	%rbx, %r8
	callq	memset
	leaq	(%r14,%r12), %r15
	movq	%r15, %rcx
	xorl	%edx, %edx
	movq	%rbx, %r8
	callq	memset
	addq	%r12, %r15
	movq	%r15, %rcx
	xorl	%edx, %edx
	movq	%rbx, %r8
	callq	memset
	addq	%r12, %r15
	movq	%r15, %rcx
	xorl	%edx, %edx
	movq	%rbx, %r8
	callq	memset
	addq	%r12, %r15
	movq	%r15, %rcx
	xorl	%edx, %edx
	movq	%rbx, %r8
	callq	memset
	addq	%r12, %r15
	movq	%r15, %rcx
	xorl	%edx, %edx
	movq	%rbx, %r8
	callq	memset
	addq	%r12, %r15
	movq	%r15, %rcx
	xorl	%edx, %edx
	movq	%rbx, %r8
	callq	memset
	addq	%r12, %r15
	movq	%r15, %rcx
	xorl	%edx, %edx
	movq	%rbx, %r8
	callq	memset
	addq	$8, %rsi
	addq	%rbp, %r14
	cmpq	%rsi, %r13
	jne	.LBB9_260
	testq	%rdi, %rdi
	je	.LBB9_1189
.LBB9_262:
	imulq	64(%rsp), %rsi
	movq	56(%rsp), %rax
	leaq	(%rax,%rsi,4), %rsi
	negq	%rdi
.LBB9_263:
	movq	%rsi, %rcx
	xorl	%edx, %edx
	movq	%rbx, %r8
	callq	memset
	addq	%r12, %rsi
	incq	%rdi
	jne	.LBB9_263
	jmp	.LBB9_1189
.LBB9_268:
	cmpq	%rax, %r8
	cmovbq	%r8, %rax
	movl	%r13d, %ecx
	andl	$7, %ecx
	subq	%r14, %rax
	cmpq	$-8, %rax
	jbe	.LBB9_277
	xorl	%eax, %eax
	jmp	.LBB9_280
.LBB9_282:
	andl	$-4, %r13d
	leaq	(%r12,%r12,2), %r8
	leaq	(,%r15,4), %r9
	leaq	(%r8,%r15,4), %r10
	cmpq	%rax, %rcx
	movq	%rax, %r11
	cmovbq	%rcx, %r11
	shlq	$2, %r11
	subq	%r11, %r10
	addq	$-64, %r10
	movq	64(%rsp), %rbx
	movq	%rbx, %rsi
	shlq	$4, %rsi
	leaq	(,%rbx,8), %rdi
	leaq	(%r9,%rbx,8), %rbx
	subq	%r11, %rbx
	addq	$-64, %rbx
	leaq	(%r12,%r15,4), %r14
	subq	%r11, %r14
	addq	$-64, %r14
	subq	%r11, %r9
	addq	$-64, %r9
	xorl	%r11d, %r11d
	movq	56(%rsp), %rbp
.LBB9_283:
	pxor	%xmm0, %xmm0
	movdqu	%xmm0, 48(%rbp)
	movdqu	%xmm0, 32(%rbp)
	movdqu	%xmm0, 16(%rbp)
	movdqu	%xmm0, (%rbp)
	movdqu	%xmm0, 48(%rbp,%r9)
	movdqu	%xmm0, 32(%rbp,%r9)
	movdqu	%xmm0, 16(%rbp,%r9)
	movdqu	%xmm0, (%rbp,%r9)
	movdqu	%xmm0, 48(%rbp,%r12)
	movdqu	%xmm0, 32(%rbp,%r12)
	movdqu	%xmm0, 16(%rbp,%r12)
	movdqu	%xmm0, (%rbp,%r12)
	movdqu	%xmm0, 48(%rbp,%r14)
	movdqu	%xmm0, 32(%rbp,%r14)
	movdqu	%xmm0, 16(%rbp,%r14)
	movdqu	%xmm0, (%rbp,%r14)
	movdqu	%xmm0, 48(%rbp,%rdi)
	movdqu	%xmm0, 32(%rbp,%rdi)
	movdqu	%xmm0, 16(%rbp,%rdi)
	movdqu	%xmm0, (%rbp,%rdi)
	movdqu	%xmm0, 48(%rbp,%rbx)
	movdqu	%xmm0, 32(%rbp,%rbx)
	movdqu	%xmm0, 16(%rbp,%rbx)
	movdqu	%xmm0, (%rbp,%rbx)
	movdqu	%xmm0, 48(%rbp,%r8)
	movdqu	%xmm0, 32(%rbp,%r8)
	movdqu	%xmm0, 16(%rbp,%r8)
	movdqu	%xmm0, (%rbp,%r8)
	movdqu	%xmm0, 48(%rbp,%r10)
	movdqu	%xmm0, 32(%rbp,%r10)
	movdqu	%xmm0, 16(%rbp,%r10)
	movdqu	%xmm0, (%rbp,%r10)
	addq	$4, %r11
	addq	%rsi, %rbp
	cmpq	%r11, %r13
	jne	.LBB9_283
	testq	%rdx, %rdx
	je	.LBB9_1189
.LBB9_285:
	shlq	$2, %r15
	cmpq	%rax, %rcx
	cmovbq	%rcx, %rax
	shlq	$2, %rax
	subq	%rax, %r15
	addq	$-64, %r15
	imulq	64(%rsp), %r11
	movq	56(%rsp), %rax
	leaq	(%rax,%r11,4), %rax
	negq	%rdx
.LBB9_286:
	pxor	%xmm0, %xmm0
	movdqu	%xmm0, 48(%rax)
	movdqu	%xmm0, 32(%rax)
	movdqu	%xmm0, 16(%rax)
	movdqu	%xmm0, (%rax)
	movdqu	%xmm0, 48(%rax,%r15)
	movdqu	%xmm0, 32(%rax,%r15)
	movdqu	%xmm0, 16(%rax,%r15)
	movdqu	%xmm0, (%rax,%r15)
	addq	%r12, %rax
	incq	%rdx
	jne	.LBB9_286
	jmp	.LBB9_1189
.LBB9_620:
	andl	$-8, %r14d
	movq	%r14, 56(%rsp)
	movq	80(%rsp), %rbp
	shlq	$5, %rbp
	xorl	%esi, %esi
	movq	%rdi, %r14
.LBB9_621:
	movq	%r14, %rcx
	xorl	%edx, %edx
	movq	%rbx, %r8
	callq	memset
	leaq	(%r14,%r12), %r15
	movq	%r15, %rcx
	xorl	%edx, %edx
	movq	%rbx, %r8
	callq	memset
	addq	%r12, %r15
	movq	%r15, %rcx
	xorl	%edx, %edx
	movq	%rbx, %r8
	callq	memset
	addq	%r12, %r15
	movq	%r15, %rcx
	xorl	%edx, %edx
	movq	%rbx, %r8
	callq	memset
	addq	%r12, %r15
	movq	%r15, %rcx
	xorl	%edx, %edx
	movq	%rbx, %r8
	callq	memset
	addq	%r12, %r15
	movq	%r15, %rcx
	xorl	%edx, %edx
	movq	%rbx, %r8
	callq	memset
	addq	%r12, %r15
	movq	%r15, %rcx
	xorl	%edx, %edx
	movq	%rbx, %r8
	callq	memset
	addq	%r12, %r15
	movq	%r15, %rcx
	xorl	%edx, %edx
	movq	%rbx, %r8
	callq	memset
	addq	$8, %rsi
	addq	%rbp, %r14
	cmpq	%rsi, 56(%rsp)
	jne	.LBB9_621
	testq	%r13, %r13
	je	.LBB9_1189
.LBB9_623:
	imulq	80(%rsp), %rsi
	leaq	(%rdi,%rsi,4), %rsi
	negq	%r13
.LBB9_624:
	movq	%rsi, %rcx
	xorl	%edx, %edx
	movq	%rbx, %r8
	callq	memset
	addq	%r12, %rsi
	incq	%r13
	jne	.LBB9_624
	jmp	.LBB9_1189
.LBB9_629:
	cmpq	%rax, %r8
	cmovbq	%r8, %rax
	movl	%r14d, %ecx
	andl	$7, %ecx
	subq	%r10, %rax
	cmpq	$-8, %rax
	jbe	.LBB9_638
	xorl	%eax, %eax
	jmp	.LBB9_641
.LBB9_643:
	andl	$-4, %r14d
	leaq	(%r12,%r12,2), %r8
	leaq	(,%r15,4), %r9
	leaq	(%r8,%r15,4), %r10
	cmpq	%rax, %rcx
	movq	%rax, %r11
	cmovbq	%rcx, %r11
	shlq	$2, %r11
	subq	%r11, %r10
	addq	$-64, %r10
	movq	80(%rsp), %rbx
	movq	%rbx, %rsi
	shlq	$4, %rsi
	movq	%rsi, 56(%rsp)
	leaq	(,%rbx,8), %r13
	leaq	(%r9,%rbx,8), %rbx
	subq	%r11, %rbx
	addq	$-64, %rbx
	movq	%r14, %rsi
	leaq	(%r12,%r15,4), %r14
	subq	%r11, %r14
	addq	$-64, %r14
	subq	%r11, %r9
	addq	$-64, %r9
	xorl	%r11d, %r11d
	movq	%rdi, %rbp
.LBB9_644:
	pxor	%xmm0, %xmm0
	movdqu	%xmm0, 48(%rbp)
	movdqu	%xmm0, 32(%rbp)
	movdqu	%xmm0, 16(%rbp)
	movdqu	%xmm0, (%rbp)
	movdqu	%xmm0, 48(%rbp,%r9)
	movdqu	%xmm0, 32(%rbp,%r9)
	movdqu	%xmm0, 16(%rbp,%r9)
	movdqu	%xmm0, (%rbp,%r9)
	movdqu	%xmm0, 48(%rbp,%r12)
	movdqu	%xmm0, 32(%rbp,%r12)
	movdqu	%xmm0, 16(%rbp,%r12)
	movdqu	%xmm0, (%rbp,%r12)
	movdqu	%xmm0, 48(%rbp,%r14)
	movdqu	%xmm0, 32(%rbp,%r14)
	movdqu	%xmm0, 16(%rbp,%r14)
	movdqu	%xmm0, (%rbp,%r14)
	movdqu	%xmm0, 48(%rbp,%r13)
	movdqu	%xmm0, 32(%rbp,%r13)
	movdqu	%xmm0, 16(%rbp,%r13)
	movdqu	%xmm0, (%rbp,%r13)
	movdqu	%xmm0, 48(%rbp,%rbx)
	movdqu	%xmm0, 32(%rbp,%rbx)
	movdqu	%xmm0, 16(%rbp,%rbx)
	movdqu	%xmm0, (%rbp,%rbx)
	movdqu	%xmm0, 48(%rbp,%r8)
	movdqu	%xmm0, 32(%rbp,%r8)
	movdqu	%xmm0, 16(%rbp,%r8)
	movdqu	%xmm0, (%rbp,%r8)
	movdqu	%xmm0, 48(%rbp,%r10)
	movdqu	%xmm0, 32(%rbp,%r10)
	movdqu	%xmm0, 16(%rbp,%r10)
	movdqu	%xmm0, (%rbp,%r10)
	addq	$4, %r11
	addq	56(%rsp), %rbp
	cmpq	%r11, %rsi
	jne	.LBB9_644
	testq	%rdx, %rdx
	je	.LBB9_1189
.LBB9_646:
	shlq	$2, %r15
	cmpq	%rax, %rcx
	cmovbq	%rcx, %rax
	shlq	$2, %rax
	subq	%rax, %r15
	addq	$-64, %r15
	imulq	80(%rsp), %r11
	leaq	(%rdi,%r11,4), %rax
	negq	%rdx
.LBB9_647:
	pxor	%xmm0, %xmm0
	movdqu	%xmm0, 48(%rax)
	movdqu	%xmm0, 32(%rax)
	movdqu	%xmm0, 16(%rax)
	movdqu	%xmm0, (%rax)
	movdqu	%xmm0, 48(%rax,%r15)
	movdqu	%xmm0, 32(%rax,%r15)
	movdqu	%xmm0, 16(%rax,%r15)
	movdqu	%xmm0, (%rax,%r15)
	addq	%r12, %rax
	incq	%rdx
	jne	.LBB9_647
	jmp	.LBB9_1189
.LBB9_11:
	andl	$-8, %ebp
	movq	%rbp, 56(%rsp)
	movq	64(%rsp), %rbp
	shlq	$5, %rbp
	xorl	%esi, %esi
	movq	%r12, %r14
.LBB9_12:
	movq	%r14, %rcx
	xorl	%edx, %edx
	movq	%rbx, %r8
	callq	memset
	leaq	(%r14,%rdi), %r15
	movq	%r15, %rcx
	xorl	%edx, %edx
	movq	%rbx, %r8
	callq	memset
	addq	%rdi, %r15
	movq	%r15, %rcx
	xorl	%edx, %edx
	movq	%rbx, %r8
	callq	memset
	addq	%rdi, %r15
	movq	%r15, %rcx
	xorl	%edx, %edx
	movq	%rbx, %r8
	callq	memset
	addq	%rdi, %r15
	movq	%r15, %rcx
	xorl	%edx, %edx
	movq	%rbx, %r8
	callq	memset
	addq	%rdi, %r15
	movq	%r15, %rcx
	xorl	%edx, %edx
	movq	%rbx, %r8
	callq	memset
	addq	%rdi, %r15
	movq	%r15, %rcx
	xorl	%edx, %edx
	movq	%rbx, %r8
	callq	memset
	addq	%rdi, %r15
	movq	%r15, %rcx
	xorl	%edx, %edx
	movq	%rbx, %r8
	callq	memset
	addq	$8, %rsi
	addq	%rbp, %r14
	cmpq	%rsi, 56(%rsp)
	jne	.LBB9_12
	testq	%r13, %r13
	je	.LBB9_1189
.LBB9_14:
	imulq	64(%rsp), %rsi
	leaq	(%r12,%rsi,4), %rsi
	negq	%r13
.LBB9_15:
	movq	%rsi, %rcx
	xorl	%edx, %edx
	movq	%rbx, %r8
	callq	memset
	addq	%rdi, %rsi
	incq	%r13
	jne	.LBB9_15
	jmp	.LBB9_1189
.LBB9_20:
	cmpq	%rax, %r8
	cmovbq	%r8, %rax
	movl	%ebp, %ecx
	andl	$7, %ecx
	subq	%r10, %rax
	cmpq	$-8, %rax
	jbe	.LBB9_29
	xorl	%eax, %eax
	jmp	.LBB9_32
.LBB9_34:
	andl	$-4, %ebp
	leaq	(%rdi,%rdi,2), %r8
	leaq	(,%r15,4), %r9
	leaq	(%r8,%r15,4), %r10
	cmpq	%rax, %rcx
	movq	%rax, %r11
	cmovbq	%rcx, %r11
	shlq	$2, %r11
	subq	%r11, %r10
	addq	$-64, %r10
	movq	64(%rsp), %r14
	movq	%r14, %rsi
	shlq	$4, %rsi
	movq	%rsi, 56(%rsp)
	leaq	(,%r14,8), %rbx
	leaq	(%r9,%r14,8), %r14
	subq	%r11, %r14
	addq	$-64, %r14
	leaq	(%rdi,%r15,4), %r13
	subq	%r11, %r13
	addq	$-64, %r13
	subq	%r11, %r9
	addq	$-64, %r9
	xorl	%r11d, %r11d
	movq	%rbp, %rsi
	movq	%r12, %rbp
.LBB9_35:
	pxor	%xmm0, %xmm0
	movdqu	%xmm0, 48(%rbp)
	movdqu	%xmm0, 32(%rbp)
	movdqu	%xmm0, 16(%rbp)
	movdqu	%xmm0, (%rbp)
	movdqu	%xmm0, 48(%rbp,%r9)
	movdqu	%xmm0, 32(%rbp,%r9)
	movdqu	%xmm0, 16(%rbp,%r9)
	movdqu	%xmm0, (%rbp,%r9)
	movdqu	%xmm0, 48(%rbp,%rdi)
	movdqu	%xmm0, 32(%rbp,%rdi)
	movdqu	%xmm0, 16(%rbp,%rdi)
	movdqu	%xmm0, (%rbp,%rdi)
	movdqu	%xmm0, 48(%rbp,%r13)
	movdqu	%xmm0, 32(%rbp,%r13)
	movdqu	%xmm0, 16(%rbp,%r13)
	movdqu	%xmm0, (%rbp,%r13)
	movdqu	%xmm0, 48(%rbp,%rbx)
	movdqu	%xmm0, 32(%rbp,%rbx)
	movdqu	%xmm0, 16(%rbp,%rbx)
	movdqu	%xmm0, (%rbp,%rbx)
	movdqu	%xmm0, 48(%rbp,%r14)
	movdqu	%xmm0, 32(%rbp,%r14)
	movdqu	%xmm0, 16(%rbp,%r14)
	movdqu	%xmm0, (%rbp,%r14)
	movdqu	%xmm0, 48(%rbp,%r8)
	movdqu	%xmm0, 32(%rbp,%r8)
	movdqu	%xmm0, 16(%rbp,%r8)
	movdqu	%xmm0, (%rbp,%r8)
	movdqu	%xmm0, 48(%rbp,%r10)
	movdqu	%xmm0, 32(%rbp,%r10)
	movdqu	%xmm0, 16(%rbp,%r10)
	movdqu	%xmm0, (%rbp,%r10)
	addq	$4, %r11
	addq	56(%rsp), %rbp
	cmpq	%r11, %rsi
	jne	.LBB9_35
	testq	%rdx, %rdx
	je	.LBB9_1189
.LBB9_37:
	shlq	$2, %r15
	cmpq	%rax, %rcx
	cmovbq	%rcx, %rax
	shlq	$2, %rax
	subq	%rax, %r15
	addq	$-64, %r15
	imulq	64(%rsp), %r11
	leaq	(%r12,%r11,4), %rax
	negq	%rdx
.LBB9_38:
	pxor	%xmm0, %xmm0
	movdqu	%xmm0, 48(%rax)
	movdqu	%xmm0, 32(%rax)
	movdqu	%xmm0, 16(%rax)
	movdqu	%xmm0, (%rax)
	movdqu	%xmm0, 48(%rax,%r15)
	movdqu	%xmm0, 32(%rax,%r15)
	movdqu	%xmm0, 16(%rax,%r15)
	movdqu	%xmm0, (%rax,%r15)
	addq	%rdi, %rax
	incq	%rdx
	jne	.LBB9_38
	jmp	.LBB9_1189
.LBB9_119:
	andl	$-8, %r13d
	movq	%rdi, %rax
	shlq	$5, %rax
	movq	%rax, 64(%rsp)
	xorl	%esi, %esi
	movq	56(%rsp), %r14
.LBB9_120:
	movq	%r14, %rcx
	xorl	%edx, %edx
	movq	%rbx, %r8
	callq	memset
	leaq	(%r14,%r12), %r15
	movq	%r15, %rcx
	xorl	%edx, %edx
	movq	%rbx, %r8
	callq	memset
	addq	%r12, %r15
	movq	%r15, %rcx
	xorl	%edx, %edx
	movq	%rbx, %r8
	callq	memset
	addq	%r12, %r15
	movq	%r15, %rcx
	xorl	%edx, %edx
	movq	%rbx, %r8
	callq	memset
	addq	%r12, %r15
	movq	%r15, %rcx
	xorl	%edx, %edx
	movq	%rbx, %r8
	callq	memset
	addq	%r12, %r15
	movq	%r15, %rcx
	xorl	%edx, %edx
	movq	%rbx, %r8
	callq	memset
	addq	%r12, %r15
	movq	%r15, %rcx
	xorl	%edx, %edx
	movq	%rbx, %r8
	callq	memset
	addq	%r12, %r15
	movq	%r15, %rcx
	xorl	%edx, %edx
	movq	%rbx, %r8
	callq	memset
	addq	$8, %rsi
	addq	64(%rsp), %r14
	cmpq	%rsi, %r13
	jne	.LBB9_120
	testq	%rbp, %rbp
	je	.LBB9_1189
.LBB9_122:
	imulq	%rdi, %rsi
	movq	56(%rsp), %rax
	leaq	(%rax,%rsi,4), %rsi
	negq	%rbp
.LBB9_123:
	movq	%rsi, %rcx
	xorl	%edx, %edx
	movq	%rbx, %r8
	callq	memset
	addq	%r12, %rsi
	incq	%rbp
	jne	.LBB9_123
	jmp	.LBB9_1189
.LBB9_440:
	andl	$-8, %r14d
	movq	%r14, 56(%rsp)
	movq	80(%rsp), %rbp
	shlq	$5, %rbp
	xorl	%esi, %esi
	movq	%rdi, %r14
.LBB9_441:
	movq	%r14, %rcx
	xorl	%edx, %edx
	movq	%rbx, %r8
	callq	memset
	leaq	(%r14,%r12), %r15
	movq	%r15, %rcx
	xorl	%edx, %edx
	movq	%rbx, %r8
	callq	memset
	addq	%r12, %r15
	movq	%r15, %rcx
	xorl	%edx, %edx
	movq	%rbx, %r8
	callq	memset
	addq	%r12, %r15
	movq	%r15, %rcx
	xorl	%edx, %edx
	movq	%rbx, %r8
	callq	memset
	addq	%r12, %r15
	movq	%r15, %rcx
	xorl	%edx, %edx
	movq	%rbx, %r8
	callq	memset
	addq	%r12, %r15
	movq	%r15, %rcx
	xorl	%edx, %edx
	movq	%rbx, %r8
	callq	memset
	addq	%r12, %r15
	movq	%r15, %rcx
	xorl	%edx, %edx
	movq	%rbx, %r8
	callq	memset
	addq	%r12, %r15
	movq	%r15, %rcx
	xorl	%edx, %edx
	movq	%rbx, %r8
	callq	memset
	addq	$8, %rsi
	addq	%rbp, %r14
	cmpq	%rsi, 56(%rsp)
	jne	.LBB9_441
	testq	%r13, %r13
	je	.LBB9_1189
.LBB9_443:
	imulq	80(%rsp), %rsi
	leaq	(%rdi,%rsi,4), %rsi
	negq	%r13
.LBB9_444:
	movq	%rsi, %rcx
	xorl	%edx, %edx
	movq	%rbx, %r8
	callq	memset
	addq	%r12, %rsi
	incq	%r13
	jne	.LBB9_444
	jmp	.LBB9_1189
.LBB9_128:
	cmpq	%rax, %r8
	cmovbq	%r8, %rax
	movl	%r13d, %ecx
	andl	$7, %ecx
	subq	%r15, %rax
	cmpq	$-8, %rax
	jbe	.LBB9_137
	xorl	%eax, %eax
	jmp	.LBB9_140
.LBB9_449:
	cmpq	%rax, %r8
	cmovbq	%r8, %rax
	movl	%r14d, %ecx
	andl	$7, %ecx
	subq	%rbp, %rax
	cmpq	$-8, %rax
	jbe	.LBB9_458
	xorl	%eax, %eax
	jmp	.LBB9_461
.LBB9_142:
	andl	$-4, %r13d
	leaq	(%r12,%r12,2), %r8
	leaq	(,%r14,4), %r9
	leaq	(%r8,%r14,4), %r10
	cmpq	%rax, %rcx
	movq	%rax, %r11
	cmovbq	%rcx, %r11
	shlq	$2, %r11
	subq	%r11, %r10
	addq	$-64, %r10
	movq	%rdi, %rsi
	shlq	$4, %rsi
	movq	%rsi, 64(%rsp)
	leaq	(,%rdi,8), %rbx
	leaq	(%r9,%rdi,8), %r15
	subq	%r11, %r15
	addq	$-64, %r15
	leaq	(%r12,%r14,4), %rbp
	subq	%r11, %rbp
	addq	$-64, %rbp
	subq	%r11, %r9
	addq	$-64, %r9
	xorl	%r11d, %r11d
	movq	56(%rsp), %rsi
.LBB9_143:
	pxor	%xmm0, %xmm0
	movdqu	%xmm0, 48(%rsi)
	movdqu	%xmm0, 32(%rsi)
	movdqu	%xmm0, 16(%rsi)
	movdqu	%xmm0, (%rsi)
	movdqu	%xmm0, 48(%rsi,%r9)
	movdqu	%xmm0, 32(%rsi,%r9)
	movdqu	%xmm0, 16(%rsi,%r9)
	movdqu	%xmm0, (%rsi,%r9)
	movdqu	%xmm0, 48(%rsi,%r12)
	movdqu	%xmm0, 32(%rsi,%r12)
	movdqu	%xmm0, 16(%rsi,%r12)
	movdqu	%xmm0, (%rsi,%r12)
	movdqu	%xmm0, 48(%rsi,%rbp)
	movdqu	%xmm0, 32(%rsi,%rbp)
	movdqu	%xmm0, 16(%rsi,%rbp)
	movdqu	%xmm0, (%rsi,%rbp)
	movdqu	%xmm0, 48(%rsi,%rbx)
	movdqu	%xmm0, 32(%rsi,%rbx)
	movdqu	%xmm0, 16(%rsi,%rbx)
	movdqu	%xmm0, (%rsi,%rbx)
	movdqu	%xmm0, 48(%rsi,%r15)
	movdqu	%xmm0, 32(%rsi,%r15)
	movdqu	%xmm0, 16(%rsi,%r15)
	movdqu	%xmm0, (%rsi,%r15)
	movdqu	%xmm0, 48(%rsi,%r8)
	movdqu	%xmm0, 32(%rsi,%r8)
	movdqu	%xmm0, 16(%rsi,%r8)
	movdqu	%xmm0, (%rsi,%r8)
	movdqu	%xmm0, 48(%rsi,%r10)
	movdqu	%xmm0, 32(%rsi,%r10)
	movdqu	%xmm0, 16(%rsi,%r10)
	movdqu	%xmm0, (%rsi,%r10)
	addq	$4, %r11
	addq	64(%rsp), %rsi
	cmpq	%r11, %r13
	jne	.LBB9_143
	testq	%rdx, %rdx
	je	.LBB9_1189
.LBB9_145:
	shlq	$2, %r14
	cmpq	%rax, %rcx
	cmovbq	%rcx, %rax
	shlq	$2, %rax
	subq	%rax, %r14
	addq	$-64, %r14
	imulq	%rdi, %r11
	movq	56(%rsp), %rax
	leaq	(%rax,%r11,4), %rax
	negq	%rdx
.LBB9_146:
	pxor	%xmm0, %xmm0
	movdqu	%xmm0, 48(%rax)
	movdqu	%xmm0, 32(%rax)
	movdqu	%xmm0, 16(%rax)
	movdqu	%xmm0, (%rax)
	movdqu	%xmm0, 48(%rax,%r14)
	movdqu	%xmm0, 32(%rax,%r14)
	movdqu	%xmm0, 16(%rax,%r14)
	movdqu	%xmm0, (%rax,%r14)
	addq	%r12, %rax
	incq	%rdx
	jne	.LBB9_146
	jmp	.LBB9_1189
.LBB9_463:
	andl	$-4, %r14d
	leaq	(%r12,%r12,2), %r8
	leaq	(,%r15,4), %r9
	leaq	(%r8,%r15,4), %r10
	cmpq	%rax, %rcx
	movq	%rax, %r11
	cmovbq	%rcx, %r11
	shlq	$2, %r11
	subq	%r11, %r10
	addq	$-64, %r10
	movq	80(%rsp), %rbx
	movq	%rbx, %rsi
	shlq	$4, %rsi
	movq	%rsi, 56(%rsp)
	leaq	(,%rbx,8), %r13
	leaq	(%r9,%rbx,8), %rbx
	subq	%r11, %rbx
	addq	$-64, %rbx
	movq	%r14, %rsi
	leaq	(%r12,%r15,4), %r14
	subq	%r11, %r14
	addq	$-64, %r14
	subq	%r11, %r9
	addq	$-64, %r9
	xorl	%r11d, %r11d
	movq	%rdi, %rbp
.LBB9_464:
	pxor	%xmm0, %xmm0
	movdqu	%xmm0, 48(%rbp)
	movdqu	%xmm0, 32(%rbp)
	movdqu	%xmm0, 16(%rbp)
	movdqu	%xmm0, (%rbp)
	movdqu	%xmm0, 48(%rbp,%r9)
	movdqu	%xmm0, 32(%rbp,%r9)
	movdqu	%xmm0, 16(%rbp,%r9)
	movdqu	%xmm0, (%rbp,%r9)
	movdqu	%xmm0, 48(%rbp,%r12)
	movdqu	%xmm0, 32(%rbp,%r12)
	movdqu	%xmm0, 16(%rbp,%r12)
	movdqu	%xmm0, (%rbp,%r12)
	movdqu	%xmm0, 48(%rbp,%r14)
	movdqu	%xmm0, 32(%rbp,%r14)
	movdqu	%xmm0, 16(%rbp,%r14)
	movdqu	%xmm0, (%rbp,%r14)
	movdqu	%xmm0, 48(%rbp,%r13)
	movdqu	%xmm0, 32(%rbp,%r13)
	movdqu	%xmm0, 16(%rbp,%r13)
	movdqu	%xmm0, (%rbp,%r13)
	movdqu	%xmm0, 48(%rbp,%rbx)
	movdqu	%xmm0, 32(%rbp,%rbx)
	movdqu	%xmm0, 16(%rbp,%rbx)
	movdqu	%xmm0, (%rbp,%rbx)
	movdqu	%xmm0, 48(%rbp,%r8)
	movdqu	%xmm0, 32(%rbp,%r8)
	movdqu	%xmm0, 16(%rbp,%r8)
	movdqu	%xmm0, (%rbp,%r8)
	movdqu	%xmm0, 48(%rbp,%r10)
	movdqu	%xmm0, 32(%rbp,%r10)
	movdqu	%xmm0, 16(%rbp,%r10)
	movdqu	%xmm0, (%rbp,%r10)
	addq	$4, %r11
	addq	56(%rsp), %rbp
	cmpq	%r11, %rsi
	jne	.LBB9_464
	testq	%rdx, %rdx
	je	.LBB9_1189
.LBB9_466:
	shlq	$2, %r15
	cmpq	%rax, %rcx
	cmovbq	%rcx, %rax
	shlq	$2, %rax
	subq	%rax, %r15
	addq	$-64, %r15
	imulq	80(%rsp), %r11
	leaq	(%rdi,%r11,4), %rax
	negq	%rdx
.LBB9_467:
	pxor	%xmm0, %xmm0
	movdqu	%xmm0, 48(%rax)
	movdqu	%xmm0, 32(%rax)
	movdqu	%xmm0, 16(%rax)
	movdqu	%xmm0, (%rax)
	movdqu	%xmm0, 48(%rax,%r15)
	movdqu	%xmm0, 32(%rax,%r15)
	movdqu	%xmm0, 16(%rax,%r15)
	movdqu	%xmm0, (%rax,%r15)
	addq	%r12, %rax
	incq	%rdx
	jne	.LBB9_467
	jmp	.LBB9_1189
.LBB9_530:
	andl	$-8, %r13d
	movq	128(%rsp), %rbp
	shlq	$5, %rbp
	xorl	%esi, %esi
	movq	56(%rsp), %r14
.LBB9_531:
	movq	%r14, %rcx
	xorl	%edx, %edx
	movq	%rbx, %r8
	callq	memset
	leaq	(%r14,%r12), %r15
	movq	%r15, %rcx
	xorl	%edx, %edx
	movq	%rbx, %r8
	callq	memset
	addq	%r12, %r15
	movq	%r15, %rcx
	xorl	%edx, %edx
	movq	%rbx, %r8
	callq	memset
	addq	%r12, %r15
	movq	%r15, %rcx
	xorl	%edx, %edx
	movq	%rbx, %r8
	callq	memset
	addq	%r12, %r15
	movq	%r15, %rcx
	xorl	%edx, %edx
	movq	%rbx, %r8
	callq	memset
	addq	%r12, %r15
	movq	%r15, %rcx
	xorl	%edx, %edx
	movq	%rbx, %r8
	callq	memset
	addq	%r12, %r15
	movq	%r15, %rcx
	xorl	%edx, %edx
	movq	%rbx, %r8
	callq	memset
	addq	%r12, %r15
	movq	%r15, %rcx
	xorl	%edx, %edx
	movq	%rbx, %r8
	callq	memset
	addq	$8, %rsi
	addq	%rbp, %r14
	cmpq	%rsi, %r13
	jne	.LBB9_531
	testq	%rdi, %rdi
	je	.LBB9_1189
.LBB9_533:
	imulq	128(%rsp), %rsi
	movq	56(%rsp), %rax
	leaq	(%rax,%rsi,4), %rsi
	negq	%rdi
.LBB9_534:
	movq	%rsi, %rcx
	xorl	%edx, %edx
	movq	%rbx, %r8
	callq	memset
	addq	%r12, %rsi
	incq	%rdi
	jne	.LBB9_534
	jmp	.LBB9_1189
.LBB9_539:
	cmpq	%rax, %r8
	cmovbq	%r8, %rax
	movl	%r13d, %ecx
	andl	$7, %ecx
	subq	%r10, %rax
	cmpq	$-8, %rax
	jbe	.LBB9_548
	xorl	%eax, %eax
	jmp	.LBB9_551
.LBB9_553:
	andl	$-4, %r13d
	leaq	(%r12,%r12,2), %r8
	leaq	(,%r15,4), %r9
	leaq	(%r8,%r15,4), %r10
	cmpq	%rax, %rcx
	movq	%rax, %r11
	cmovbq	%rcx, %r11
	shlq	$2, %r11
	subq	%r11, %r10
	addq	$-64, %r10
	movq	128(%rsp), %rbx
	movq	%rbx, %rsi
	shlq	$4, %rsi
	leaq	(,%rbx,8), %rdi
	leaq	(%r9,%rbx,8), %rbx
	subq	%r11, %rbx
	addq	$-64, %rbx
	leaq	(%r12,%r15,4), %r14
	subq	%r11, %r14
	addq	$-64, %r14
	subq	%r11, %r9
	addq	$-64, %r9
	xorl	%r11d, %r11d
	movq	56(%rsp), %rbp
.LBB9_554:
	pxor	%xmm0, %xmm0
	movdqu	%xmm0, 48(%rbp)
	movdqu	%xmm0, 32(%rbp)
	movdqu	%xmm0, 16(%rbp)
	movdqu	%xmm0, (%rbp)
	movdqu	%xmm0, 48(%rbp,%r9)
	movdqu	%xmm0, 32(%rbp,%r9)
	movdqu	%xmm0, 16(%rbp,%r9)
	movdqu	%xmm0, (%rbp,%r9)
	movdqu	%xmm0, 48(%rbp,%r12)
	movdqu	%xmm0, 32(%rbp,%r12)
	movdqu	%xmm0, 16(%rbp,%r12)
	movdqu	%xmm0, (%rbp,%r12)
	movdqu	%xmm0, 48(%rbp,%r14)
	movdqu	%xmm0, 32(%rbp,%r14)
	movdqu	%xmm0, 16(%rbp,%r14)
	movdqu	%xmm0, (%rbp,%r14)
	movdqu	%xmm0, 48(%rbp,%rdi)
	movdqu	%xmm0, 32(%rbp,%rdi)
	movdqu	%xmm0, 16(%rbp,%rdi)
	movdqu	%xmm0, (%rbp,%rdi)
	movdqu	%xmm0, 48(%rbp,%rbx)
	movdqu	%xmm0, 32(%rbp,%rbx)
	movdqu	%xmm0, 16(%rbp,%rbx)
	movdqu	%xmm0, (%rbp,%rbx)
	movdqu	%xmm0, 48(%rbp,%r8)
	movdqu	%xmm0, 32(%rbp,%r8)
	movdqu	%xmm0, 16(%rbp,%r8)
	movdqu	%xmm0, (%rbp,%r8)
	movdqu	%xmm0, 48(%rbp,%r10)
	movdqu	%xmm0, 32(%rbp,%r10)
	movdqu	%xmm0, 16(%rbp,%r10)
	movdqu	%xmm0, (%rbp,%r10)
	addq	$4, %r11
	addq	%rsi, %rbp
	cmpq	%r11, %r13
	jne	.LBB9_554
	testq	%rdx, %rdx
	je	.LBB9_1189
.LBB9_556:
	shlq	$2, %r15
	cmpq	%rax, %rcx
	cmovbq	%rcx, %rax
	shlq	$2, %rax
	subq	%rax, %r15
	addq	$-64, %r15
	imulq	128(%rsp), %r11
	movq	56(%rsp), %rax
	leaq	(%rax,%r11,4), %rax
	negq	%rdx
.LBB9_557:
	pxor	%xmm0, %xmm0
	movdqu	%xmm0, 48(%rax)
	movdqu	%xmm0, 32(%rax)
	movdqu	%xmm0, 16(%rax)
	movdqu	%xmm0, (%rax)
	movdqu	%xmm0, 48(%rax,%r15)
	movdqu	%xmm0, 32(%rax,%r15)
	movdqu	%xmm0, 16(%rax,%r15)
	movdqu	%xmm0, (%rax,%r15)
	addq	%r12, %rax
	incq	%rdx
	jne	.LBB9_557
	jmp	.LBB9_1189
.LBB9_893:
	andl	$-8, %r14d
	movq	%r14, 56(%rsp)
	movq	80(%rsp), %rbp
	shlq	$5, %rbp
	xorl	%esi, %esi
	movq	%rdi, %r14
.LBB9_894:
	movq	%r14, %rcx
	xorl	%edx, %edx
	movq	%rbx, %r8
	callq	memset
	leaq	(%r14,%r12), %r15
	movq	%r15, %rcx
	xorl	%edx, %edx
	movq	%rbx, %r8
	callq	memset
	addq	%r12, %r15
	movq	%r15, %rcx
	xorl	%edx, %edx
	movq	%rbx, %r8
	callq	memset
	addq	%r12, %r15
	movq	%r15, %rcx
	xorl	%edx, %edx
	movq	%rbx, %r8
	callq	memset
	addq	%r12, %r15
	movq	%r15, %rcx
	xorl	%edx, %edx
	movq	%rbx, %r8
	callq	memset
	addq	%r12, %r15
	movq	%r15, %rcx
	xorl	%edx, %edx
	movq	%rbx, %r8
	callq	memset
	addq	%r12, %r15
	movq	%r15, %rcx
	xorl	%edx, %edx
	movq	%rbx, %r8
	callq	memset
	addq	%r12, %r15
	movq	%r15, %rcx
	xorl	%edx, %edx
	movq	%rbx, %r8
	callq	memset
	addq	$8, %rsi
	addq	%rbp, %r14
	cmpq	%rsi, 56(%rsp)
	jne	.LBB9_894
	testq	%r13, %r13
	je	.LBB9_1189
.LBB9_896:
	imulq	80(%rsp), %rsi
	leaq	(%rdi,%rsi,4), %rsi
	negq	%r13
.LBB9_897:
	movq	%rsi, %rcx
	xorl	%edx, %edx
	movq	%rbx, %r8
	callq	memset
	addq	%r12, %rsi
	incq	%r13
	jne	.LBB9_897
	jmp	.LBB9_1189
.LBB9_902:
	cmpq	%rax, %r8
	cmovbq	%r8, %rax
	movl	%r14d, %ecx
	andl	$7, %ecx
	subq	%r10, %rax
	cmpq	$-8, %rax
	jbe	.LBB9_911
	xorl	%eax, %eax
	jmp	.LBB9_914
.LBB9_916:
	andl	$-4, %r14d
	leaq	(%r12,%r12,2), %r8
	leaq	(,%r15,4), %r9
	leaq	(%r8,%r15,4), %r10
	cmpq	%rax, %rcx
	movq	%rax, %r11
	cmovbq	%rcx, %r11
	shlq	$2, %r11
	subq	%r11, %r10
	addq	$-64, %r10
	movq	80(%rsp), %rbx
	movq	%rbx, %rsi
	shlq	$4, %rsi
	movq	%rsi, 56(%rsp)
	leaq	(,%rbx,8), %r13
	leaq	(%r9,%rbx,8), %rbx
	subq	%r11, %rbx
	addq	$-64, %rbx
	movq	%r14, %rsi
	leaq	(%r12,%r15,4), %r14
	subq	%r11, %r14
	addq	$-64, %r14
	subq	%r11, %r9
	addq	$-64, %r9
	xorl	%r11d, %r11d
	movq	%rdi, %rbp
.LBB9_917:
	pxor	%xmm0, %xmm0
	movdqu	%xmm0, 48(%rbp)
	movdqu	%xmm0, 32(%rbp)
	movdqu	%xmm0, 16(%rbp)
	movdqu	%xmm0, (%rbp)
	movdqu	%xmm0, 48(%rbp,%r9)
	movdqu	%xmm0, 32(%rbp,%r9)
	movdqu	%xmm0, 16(%rbp,%r9)
	movdqu	%xmm0, (%rbp,%r9)
	movdqu	%xmm0, 48(%rbp,%r12)
	movdqu	%xmm0, 32(%rbp,%r12)
	movdqu	%xmm0, 16(%rbp,%r12)
	movdqu	%xmm0, (%rbp,%r12)
	movdqu	%xmm0, 48(%rbp,%r14)
	movdqu	%xmm0, 32(%rbp,%r14)
	movdqu	%xmm0, 16(%rbp,%r14)
	movdqu	%xmm0, (%rbp,%r14)
	movdqu	%xmm0, 48(%rbp,%r13)
	movdqu	%xmm0, 32(%rbp,%r13)
	movdqu	%xmm0, 16(%rbp,%r13)
	movdqu	%xmm0, (%rbp,%r13)
	movdqu	%xmm0, 48(%rbp,%rbx)
	movdqu	%xmm0, 32(%rbp,%rbx)
	movdqu	%xmm0, 16(%rbp,%rbx)
	movdqu	%xmm0, (%rbp,%rbx)
	movdqu	%xmm0, 48(%rbp,%r8)
	movdqu	%xmm0, 32(%rbp,%r8)
	movdqu	%xmm0, 16(%rbp,%r8)
	movdqu	%xmm0, (%rbp,%r8)
	movdqu	%xmm0, 48(%rbp,%r10)
	movdqu	%xmm0, 32(%rbp,%r10)
	movdqu	%xmm0, 16(%rbp,%r10)
	movdqu	%xmm0, (%rbp,%r10)
	addq	$4, %r11
	addq	56(%rsp), %rbp
	cmpq	%r11, %rsi
	jne	.LBB9_917
	testq	%rdx, %rdx
	je	.LBB9_1189
.LBB9_919:
	shlq	$2, %r15
	cmpq	%rax, %rcx
	cmovbq	%rcx, %rax
	shlq	$2, %rax
	subq	%rax, %r15
	addq	$-64, %r15
	imulq	80(%rsp), %r11
	leaq	(%rdi,%r11,4), %rax
	negq	%rdx
.LBB9_920:
	pxor	%xmm0, %xmm0
	movdqu	%xmm0, 48(%rax)
	movdqu	%xmm0, 32(%rax)
	movdqu	%xmm0, 16(%rax)
	movdqu	%xmm0, (%rax)
	movdqu	%xmm0, 48(%rax,%r15)
	movdqu	%xmm0, 32(%rax,%r15)
	movdqu	%xmm0, 16(%rax,%r15)
	movdqu	%xmm0, (%rax,%r15)
	addq	%r12, %rax
	incq	%rdx
	jne	.LBB9_920
	jmp	.LBB9_1189
.LBB9_710:
	andl	$-8, %r14d
	movq	%r14, 56(%rsp)
	movq	64(%rsp), %rbp
	shlq	$5, %rbp
	xorl	%esi, %esi
	movq	%rdi, %r14
.LBB9_711:
	movq	%r14, %rcx
	xorl	%edx, %edx
	movq	%rbx, %r8
	callq	memset
	leaq	(%r14,%r12), %r15
	movq	%r15, %rcx
	xorl	%edx, %edx
	movq	%rbx, %r8
	callq	memset
	addq	%r12, %r15
	movq	%r15, %rcx
	xorl	%edx, %edx
	movq	%rbx, %r8
	callq	memset
	addq	%r12, %r15
	movq	%r15, %rcx
	xorl	%edx, %edx
	movq	%rbx, %r8
	callq	memset
	addq	%r12, %r15
	movq	%r15, %rcx
	xorl	%edx, %edx
	movq	%rbx, %r8
	callq	memset
	addq	%r12, %r15
	movq	%r15, %rcx
	xorl	%edx, %edx
	movq	%rbx, %r8
	callq	memset
	addq	%r12, %r15
	movq	%r15, %rcx
	xorl	%edx, %edx
	movq	%rbx, %r8
	callq	memset
	addq	%r12, %r15
	movq	%r15, %rcx
	xorl	%edx, %edx
	movq	%rbx, %r8
	callq	memset
	addq	$8, %rsi
	addq	%rbp, %r14
	cmpq	%rsi, 56(%rsp)
	jne	.LBB9_711
	testq	%r13, %r13
	je	.LBB9_1189
.LBB9_713:
	imulq	64(%rsp), %rsi
	leaq	(%rdi,%rsi,4), %rsi
	negq	%r13
.LBB9_714:
	movq	%rsi, %rcx
	xorl	%edx, %edx
	movq	%rbx, %r8
	callq	memset
	addq	%r12, %rsi
	incq	%r13
	jne	.LBB9_714
	jmp	.LBB9_1189
.LBB9_719:
	cmpq	%rax, %r8
	cmovbq	%r8, %rax
	movl	%r14d, %ecx
	andl	$7, %ecx
	subq	%r10, %rax
	cmpq	$-8, %rax
	jbe	.LBB9_728
	xorl	%eax, %eax
	jmp	.LBB9_731
.LBB9_733:
	andl	$-4, %r14d
	leaq	(%r12,%r12,2), %r8
	leaq	(,%r15,4), %r9
	leaq	(%r8,%r15,4), %r10
	cmpq	%rax, %rcx
	movq	%rax, %r11
	cmovbq	%rcx, %r11
	shlq	$2, %r11
	subq	%r11, %r10
	addq	$-64, %r10
	movq	64(%rsp), %rbx
	movq	%rbx, %rsi
	shlq	$4, %rsi
	movq	%rsi, 56(%rsp)
	leaq	(,%rbx,8), %r13
	leaq	(%r9,%rbx,8), %rbx
	subq	%r11, %rbx
	addq	$-64, %rbx
	movq	%r14, %rsi
	leaq	(%r12,%r15,4), %r14
	subq	%r11, %r14
	addq	$-64, %r14
	subq	%r11, %r9
	addq	$-64, %r9
	xorl	%r11d, %r11d
	movq	%rdi, %rbp
.LBB9_734:
	pxor	%xmm0, %xmm0
	movdqu	%xmm0, 48(%rbp)
	movdqu	%xmm0, 32(%rbp)
	movdqu	%xmm0, 16(%rbp)
	movdqu	%xmm0, (%rbp)
	movdqu	%xmm0, 48(%rbp,%r9)
	movdqu	%xmm0, 32(%rbp,%r9)
	movdqu	%xmm0, 16(%rbp,%r9)
	movdqu	%xmm0, (%rbp,%r9)
	movdqu	%xmm0, 48(%rbp,%r12)
	movdqu	%xmm0, 32(%rbp,%r12)
	movdqu	%xmm0, 16(%rbp,%r12)
	movdqu	%xmm0, (%rbp,%r12)
	movdqu	%xmm0, 48(%rbp,%r14)
	movdqu	%xmm0, 32(%rbp,%r14)
	movdqu	%xmm0, 16(%rbp,%r14)
	movdqu	%xmm0, (%rbp,%r14)
	movdqu	%xmm0, 48(%rbp,%r13)
	movdqu	%xmm0, 32(%rbp,%r13)
	movdqu	%xmm0, 16(%rbp,%r13)
	movdqu	%xmm0, (%rbp,%r13)
	movdqu	%xmm0, 48(%rbp,%rbx)
	movdqu	%xmm0, 32(%rbp,%rbx)
	movdqu	%xmm0, 16(%rbp,%rbx)
	movdqu	%xmm0, (%rbp,%rbx)
	movdqu	%xmm0, 48(%rbp,%r8)
	movdqu	%xmm0, 32(%rbp,%r8)
	movdqu	%xmm0, 16(%rbp,%r8)
	movdqu	%xmm0, (%rbp,%r8)
	movdqu	%xmm0, 48(%rbp,%r10)
	movdqu	%xmm0, 32(%rbp,%r10)
	movdqu	%xmm0, 16(%rbp,%r10)
	movdqu	%xmm0, (%rbp,%r10)
	addq	$4, %r11
	addq	56(%rsp), %rbp
	cmpq	%r11, %rsi
	jne	.LBB9_734
	testq	%rdx, %rdx
	je	.LBB9_1189
.LBB9_736:
	shlq	$2, %r15
	cmpq	%rax, %rcx
	cmovbq	%rcx, %rax
	shlq	$2, %rax
	subq	%rax, %r15
	addq	$-64, %r15
	imulq	64(%rsp), %r11
	leaq	(%rdi,%r11,4), %rax
	negq	%rdx
.LBB9_737:
	pxor	%xmm0, %xmm0
	movdqu	%xmm0, 48(%rax)
	movdqu	%xmm0, 32(%rax)
	movdqu	%xmm0, 16(%rax)
	movdqu	%xmm0, (%rax)
	movdqu	%xmm0, 48(%rax,%r15)
	movdqu	%xmm0, 32(%rax,%r15)
	movdqu	%xmm0, 16(%rax,%r15)
	movdqu	%xmm0, (%rax,%r15)
	addq	%r12, %rax
	incq	%rdx
	jne	.LBB9_737
	jmp	.LBB9_1189
.LBB9_363:
	andl	$-4, %r14d
	leaq	(%r12,%r12,2), %r8
	leaq	(,%r15,4), %r9
	leaq	(%r8,%r15,4), %r10
	cmpq	%rax, %rcx
	movq	%rax, %r11
	cmovbq	%rcx, %r11
	shlq	$2, %r11
	subq	%r11, %r10
	addq	$-32, %r10
	movq	128(%rsp), %rbx
	movq	%rbx, %rsi
	shlq	$4, %rsi
	leaq	(,%rbx,8), %r8
	movq	%r8, 56(%rsp)
	leaq	(%r9,%rbx,8), %rbx
	subq	%r11, %rbx
	addq	$-32, %rbx
	movq	%r14, %r8
	leaq	(%r12,%r15,4), %r14
	subq	%r11, %r14
	addq	$-32, %r14
	subq	%r11, %r9
	addq	$-32, %r9
	xorl	%r11d, %r11d
	movq	%rdi, %rbp
.LBB9_364:
	pxor	%xmm0, %xmm0
	movdqu	%xmm0, 16(%rbp)
	movdqu	%xmm0, (%rbp)
	movdqu	%xmm0, 16(%rbp,%r9)
	movdqu	%xmm0, (%rbp,%r9)
	movdqu	%xmm0, 16(%rbp,%r12)
	movdqu	%xmm0, (%rbp,%r12)
	movdqu	%xmm0, 16(%rbp,%r14)
	movdqu	%xmm0, (%rbp,%r14)
	movq	56(%rsp), %r13
	movdqu	%xmm0, 16(%rbp,%r13)
	movdqu	%xmm0, (%rbp,%r13)
	movdqu	%xmm0, 16(%rbp,%rbx)
	movdqu	%xmm0, (%rbp,%rbx)
	leaq	(%r12,%r12,2), %r13
	movdqu	%xmm0, 16(%rbp,%r13)
	movdqu	%xmm0, (%rbp,%r13)
	movdqu	%xmm0, 16(%rbp,%r10)
	movdqu	%xmm0, (%rbp,%r10)
	addq	$4, %r11
	addq	%rsi, %rbp
	cmpq	%r11, %r8
	jne	.LBB9_364
	testq	%rdx, %rdx
	je	.LBB9_1189
.LBB9_366:
	shlq	$2, %r15
	cmpq	%rax, %rcx
	cmovbq	%rcx, %rax
	shlq	$2, %rax
	subq	%rax, %r15
	addq	$-32, %r15
	imulq	128(%rsp), %r11
	leaq	(%rdi,%r11,4), %rax
	negq	%rdx
.LBB9_367:
	pxor	%xmm0, %xmm0
	movdqu	%xmm0, 16(%rax)
	movdqu	%xmm0, (%rax)
	movdqu	%xmm0, 16(%rax,%r15)
	movdqu	%xmm0, (%rax,%r15)
	addq	%r12, %rax
	incq	%rdx
	jne	.LBB9_367
	jmp	.LBB9_1189
.LBB9_368:
	andl	$-8, %r14d
	movq	128(%rsp), %rdx
	shlq	$5, %rdx
	xorl	%eax, %eax
	movq	%rdi, %r8
.LBB9_369:
	pxor	%xmm0, %xmm0
	movdqu	%xmm0, 16(%r8)
	movdqu	%xmm0, (%r8)
	leaq	(%r8,%r12), %r9
	movdqu	%xmm0, 16(%r8,%r12)
	movdqu	%xmm0, (%r8,%r12)
	leaq	(%r9,%r12), %r10
	movdqu	%xmm0, 16(%r12,%r9)
	movdqu	%xmm0, (%r12,%r9)
	leaq	(%r10,%r12), %r9
	movdqu	%xmm0, 16(%r12,%r10)
	movdqu	%xmm0, (%r12,%r10)
	leaq	(%r9,%r12), %r10
	movdqu	%xmm0, 16(%r12,%r9)
	movdqu	%xmm0, (%r12,%r9)
	leaq	(%r10,%r12), %r9
	movdqu	%xmm0, 16(%r12,%r10)
	movdqu	%xmm0, (%r12,%r10)
	leaq	(%r9,%r12), %r10
	movdqu	%xmm0, 16(%r12,%r9)
	movdqu	%xmm0, (%r12,%r9)
	movdqu	%xmm0, 16(%r12,%r10)
	movdqu	%xmm0, (%r12,%r10)
	addq	$8, %rax
	addq	%rdx, %r8
	cmpq	%rax, %r14
	jne	.LBB9_369
	testq	%rcx, %rcx
	je	.LBB9_1189
.LBB9_371:
	imulq	128(%rsp), %rax
	leaq	(%rdi,%rax,4), %rax
	negq	%rcx
.LBB9_372:
	pxor	%xmm0, %xmm0
	movdqu	%xmm0, 16(%rax)
	movdqu	%xmm0, (%rax)
	addq	%r12, %rax
	incq	%rcx
	jne	.LBB9_372
	jmp	.LBB9_1189
.LBB9_1118:
	andl	$-4, %ebp
	leaq	(%r12,%r12,2), %r8
	leaq	(,%r15,4), %r9
	leaq	(%r8,%r15,4), %r10
	cmpq	%rax, %rcx
	movq	%rax, %r11
	cmovbq	%rcx, %r11
	shlq	$2, %r11
	subq	%r11, %r10
	addq	$-32, %r10
	movq	80(%rsp), %rbx
	movq	%rbx, %rsi
	shlq	$4, %rsi
	leaq	(,%rbx,8), %r8
	movq	%r8, 56(%rsp)
	leaq	(%r9,%rbx,8), %rbx
	subq	%r11, %rbx
	addq	$-32, %rbx
	leaq	(%r12,%r15,4), %r14
	subq	%r11, %r14
	addq	$-32, %r14
	subq	%r11, %r9
	addq	$-32, %r9
	xorl	%r11d, %r11d
	movq	%rbp, %r8
	movq	%rdi, %rbp
.LBB9_1119:
	pxor	%xmm0, %xmm0
	movdqu	%xmm0, 16(%rbp)
	movdqu	%xmm0, (%rbp)
	movdqu	%xmm0, 16(%rbp,%r9)
	movdqu	%xmm0, (%rbp,%r9)
	movdqu	%xmm0, 16(%rbp,%r12)
	movdqu	%xmm0, (%rbp,%r12)
	movdqu	%xmm0, 16(%rbp,%r14)
	movdqu	%xmm0, (%rbp,%r14)
	movq	56(%rsp), %r13
	movdqu	%xmm0, 16(%rbp,%r13)
	movdqu	%xmm0, (%rbp,%r13)
	movdqu	%xmm0, 16(%rbp,%rbx)
	movdqu	%xmm0, (%rbp,%rbx)
	leaq	(%r12,%r12,2), %r13
	movdqu	%xmm0, 16(%rbp,%r13)
	movdqu	%xmm0, (%rbp,%r13)
	movdqu	%xmm0, 16(%rbp,%r10)
	movdqu	%xmm0, (%rbp,%r10)
	addq	$4, %r11
	addq	%rsi, %rbp
	cmpq	%r11, %r8
	jne	.LBB9_1119
	testq	%rdx, %rdx
	je	.LBB9_1189
.LBB9_1121:
	shlq	$2, %r15
	cmpq	%rax, %rcx
	cmovbq	%rcx, %rax
	shlq	$2, %rax
	subq	%rax, %r15
	addq	$-32, %r15
	imulq	80(%rsp), %r11
	leaq	(%rdi,%r11,4), %rax
	negq	%rdx
.LBB9_1122:
	pxor	%xmm0, %xmm0
	movdqu	%xmm0, 16(%rax)
	movdqu	%xmm0, (%rax)
	movdqu	%xmm0, 16(%rax,%r15)
	movdqu	%xmm0, (%rax,%r15)
	addq	%r12, %rax
	incq	%rdx
	jne	.LBB9_1122
	jmp	.LBB9_1189
.LBB9_1123:
	andl	$-8, %ebp
	movq	80(%rsp), %rdx
	shlq	$5, %rdx
	xorl	%eax, %eax
	movq	%rdi, %r8
.LBB9_1124:
	pxor	%xmm0, %xmm0
	movdqu	%xmm0, 16(%r8)
	movdqu	%xmm0, (%r8)
	leaq	(%r8,%r12), %r9
	movdqu	%xmm0, 16(%r8,%r12)
	movdqu	%xmm0, (%r8,%r12)
	leaq	(%r9,%r12), %r10
	movdqu	%xmm0, 16(%r12,%r9)
	movdqu	%xmm0, (%r12,%r9)
	leaq	(%r10,%r12), %r9
	movdqu	%xmm0, 16(%r12,%r10)
	movdqu	%xmm0, (%r12,%r10)
	leaq	(%r9,%r12), %r10
	movdqu	%xmm0, 16(%r12,%r9)
	movdqu	%xmm0, (%r12,%r9)
	leaq	(%r10,%r12), %r9
	movdqu	%xmm0, 16(%r12,%r10)
	movdqu	%xmm0, (%r12,%r10)
	leaq	(%r9,%r12), %r10
	movdqu	%xmm0, 16(%r12,%r9)
	movdqu	%xmm0, (%r12,%r9)
	movdqu	%xmm0, 16(%r12,%r10)
	movdqu	%xmm0, (%r12,%r10)
	addq	$8, %rax
	addq	%rdx, %r8
	cmpq	%rax, %rbp
	jne	.LBB9_1124
	testq	%rcx, %rcx
	je	.LBB9_1189
.LBB9_1126:
	imulq	80(%rsp), %rax
	leaq	(%rdi,%rax,4), %rax
	negq	%rcx
.LBB9_1127:
	pxor	%xmm0, %xmm0
	movdqu	%xmm0, 16(%rax)
	movdqu	%xmm0, (%rax)
	addq	%r12, %rax
	incq	%rcx
	jne	.LBB9_1127
	jmp	.LBB9_1189
.LBB9_815:
	andl	$-4, %r14d
	leaq	(%r12,%r12,2), %r8
	leaq	(,%r15,4), %r9
	leaq	(%r8,%r15,4), %r10
	cmpq	%rax, %rcx
	movq	%rax, %r11
	cmovbq	%rcx, %r11
	shlq	$2, %r11
	subq	%r11, %r10
	addq	$-32, %r10
	movq	80(%rsp), %rbx
	movq	%rbx, %rsi
	shlq	$4, %rsi
	leaq	(,%rbx,8), %r8
	movq	%r8, 56(%rsp)
	leaq	(%r9,%rbx,8), %rbx
	subq	%r11, %rbx
	addq	$-32, %rbx
	movq	%r14, %r8
	leaq	(%r12,%r15,4), %r14
	subq	%r11, %r14
	addq	$-32, %r14
	subq	%r11, %r9
	addq	$-32, %r9
	xorl	%r11d, %r11d
	movq	%rdi, %rbp
.LBB9_816:
	pxor	%xmm0, %xmm0
	movdqu	%xmm0, 16(%rbp)
	movdqu	%xmm0, (%rbp)
	movdqu	%xmm0, 16(%rbp,%r9)
	movdqu	%xmm0, (%rbp,%r9)
	movdqu	%xmm0, 16(%rbp,%r12)
	movdqu	%xmm0, (%rbp,%r12)
	movdqu	%xmm0, 16(%rbp,%r14)
	movdqu	%xmm0, (%rbp,%r14)
	movq	56(%rsp), %r13
	movdqu	%xmm0, 16(%rbp,%r13)
	movdqu	%xmm0, (%rbp,%r13)
	movdqu	%xmm0, 16(%rbp,%rbx)
	movdqu	%xmm0, (%rbp,%rbx)
	leaq	(%r12,%r12,2), %r13
	movdqu	%xmm0, 16(%rbp,%r13)
	movdqu	%xmm0, (%rbp,%r13)
	movdqu	%xmm0, 16(%rbp,%r10)
	movdqu	%xmm0, (%rbp,%r10)
	addq	$4, %r11
	addq	%rsi, %rbp
	cmpq	%r11, %r8
	jne	.LBB9_816
	testq	%rdx, %rdx
	je	.LBB9_1189
.LBB9_818:
	shlq	$2, %r15
	cmpq	%rax, %rcx
	cmovbq	%rcx, %rax
	shlq	$2, %rax
	subq	%rax, %r15
	addq	$-32, %r15
	imulq	80(%rsp), %r11
	leaq	(%rdi,%r11,4), %rax
	negq	%rdx
.LBB9_819:
	pxor	%xmm0, %xmm0
	movdqu	%xmm0, 16(%rax)
	movdqu	%xmm0, (%rax)
	movdqu	%xmm0, 16(%rax,%r15)
	movdqu	%xmm0, (%rax,%r15)
	addq	%r12, %rax
	incq	%rdx
	jne	.LBB9_819
	jmp	.LBB9_1189
.LBB9_820:
	andl	$-8, %r14d
	movq	80(%rsp), %rdx
	shlq	$5, %rdx
	xorl	%eax, %eax
	movq	%rdi, %r8
.LBB9_821:
	pxor	%xmm0, %xmm0
	movdqu	%xmm0, 16(%r8)
	movdqu	%xmm0, (%r8)
	leaq	(%r8,%r12), %r9
	movdqu	%xmm0, 16(%r8,%r12)
	movdqu	%xmm0, (%r8,%r12)
	leaq	(%r9,%r12), %r10
	movdqu	%xmm0, 16(%r12,%r9)
	movdqu	%xmm0, (%r12,%r9)
	leaq	(%r10,%r12), %r9
	movdqu	%xmm0, 16(%r12,%r10)
	movdqu	%xmm0, (%r12,%r10)
	leaq	(%r9,%r12), %r10
	movdqu	%xmm0, 16(%r12,%r9)
	movdqu	%xmm0, (%r12,%r9)
	leaq	(%r10,%r12), %r9
	movdqu	%xmm0, 16(%r12,%r10)
	movdqu	%xmm0, (%r12,%r10)
	leaq	(%r9,%r12), %r10
	movdqu	%xmm0, 16(%r12,%r9)
	movdqu	%xmm0, (%r12,%r9)
	movdqu	%xmm0, 16(%r12,%r10)
	movdqu	%xmm0, (%r12,%r10)
	addq	$8, %rax
	addq	%rdx, %r8
	cmpq	%rax, %r14
	jne	.LBB9_821
	testq	%rcx, %rcx
	je	.LBB9_1189
.LBB9_823:
	imulq	80(%rsp), %rax
	leaq	(%rdi,%rax,4), %rax
	negq	%rcx
.LBB9_824:
	pxor	%xmm0, %xmm0
	movdqu	%xmm0, 16(%rax)
	movdqu	%xmm0, (%rax)
	addq	%r12, %rax
	incq	%rcx
	jne	.LBB9_824
	jmp	.LBB9_1189
.LBB9_182:
	andl	$-4, %r13d
	leaq	(%r12,%r12,2), %r8
	leaq	(,%r15,4), %r9
	leaq	(%r8,%r15,4), %r10
	cmpq	%rax, %rcx
	movq	%rax, %r11
	cmovbq	%rcx, %r11
	shlq	$2, %r11
	subq	%r11, %r10
	addq	$-32, %r10
	movq	64(%rsp), %rbx
	movq	%rbx, %rsi
	shlq	$4, %rsi
	leaq	(,%rbx,8), %rdi
	leaq	(%r9,%rbx,8), %rbx
	subq	%r11, %rbx
	addq	$-32, %rbx
	leaq	(%r12,%r15,4), %r14
	subq	%r11, %r14
	addq	$-32, %r14
	subq	%r11, %r9
	addq	$-32, %r9
	xorl	%r11d, %r11d
	movq	56(%rsp), %rbp
.LBB9_183:
	pxor	%xmm0, %xmm0
	movdqu	%xmm0, 16(%rbp)
	movdqu	%xmm0, (%rbp)
	movdqu	%xmm0, 16(%rbp,%r9)
	movdqu	%xmm0, (%rbp,%r9)
	movdqu	%xmm0, 16(%rbp,%r12)
	movdqu	%xmm0, (%rbp,%r12)
	movdqu	%xmm0, 16(%rbp,%r14)
	movdqu	%xmm0, (%rbp,%r14)
	movdqu	%xmm0, 16(%rbp,%rdi)
	movdqu	%xmm0, (%rbp,%rdi)
	movdqu	%xmm0, 16(%rbp,%rbx)
	movdqu	%xmm0, (%rbp,%rbx)
	movdqu	%xmm0, 16(%rbp,%r8)
	movdqu	%xmm0, (%rbp,%r8)
	movdqu	%xmm0, 16(%rbp,%r10)
	movdqu	%xmm0, (%rbp,%r10)
	addq	$4, %r11
	addq	%rsi, %rbp
	cmpq	%r11, %r13
	jne	.LBB9_183
	testq	%rdx, %rdx
	je	.LBB9_1189
.LBB9_185:
	shlq	$2, %r15
	cmpq	%rax, %rcx
	cmovbq	%rcx, %rax
	shlq	$2, %rax
	subq	%rax, %r15
	addq	$-32, %r15
	imulq	64(%rsp), %r11
	movq	56(%rsp), %rax
	leaq	(%rax,%r11,4), %rax
	negq	%rdx
.LBB9_186:
	pxor	%xmm0, %xmm0
	movdqu	%xmm0, 16(%rax)
	movdqu	%xmm0, (%rax)
	movdqu	%xmm0, 16(%rax,%r15)
	movdqu	%xmm0, (%rax,%r15)
	addq	%r12, %rax
	incq	%rdx
	jne	.LBB9_186
	jmp	.LBB9_1189
.LBB9_187:
	andl	$-8, %r13d
	movq	64(%rsp), %rdx
	shlq	$5, %rdx
	xorl	%eax, %eax
	movq	56(%rsp), %r8
.LBB9_188:
	pxor	%xmm0, %xmm0
	movdqu	%xmm0, 16(%r8)
	movdqu	%xmm0, (%r8)
	leaq	(%r8,%r12), %r9
	movdqu	%xmm0, 16(%r8,%r12)
	movdqu	%xmm0, (%r8,%r12)
	leaq	(%r9,%r12), %r10
	movdqu	%xmm0, 16(%r12,%r9)
	movdqu	%xmm0, (%r12,%r9)
	leaq	(%r10,%r12), %r9
	movdqu	%xmm0, 16(%r12,%r10)
	movdqu	%xmm0, (%r12,%r10)
	leaq	(%r9,%r12), %r10
	movdqu	%xmm0, 16(%r12,%r9)
	movdqu	%xmm0, (%r12,%r9)
	leaq	(%r10,%r12), %r9
	movdqu	%xmm0, 16(%r12,%r10)
	movdqu	%xmm0, (%r12,%r10)
	leaq	(%r9,%r12), %r10
	movdqu	%xmm0, 16(%r12,%r9)
	movdqu	%xmm0, (%r12,%r9)
	movdqu	%xmm0, 16(%r12,%r10)
	movdqu	%xmm0, (%r12,%r10)
	addq	$8, %rax
	addq	%rdx, %r8
	cmpq	%rax, %r13
	jne	.LBB9_188
	testq	%rcx, %rcx
	je	.LBB9_1189
.LBB9_190:
	imulq	64(%rsp), %rax
	movq	56(%rsp), %rdx
	leaq	(%rdx,%rax,4), %rax
	negq	%rcx
.LBB9_191:
	pxor	%xmm0, %xmm0
	movdqu	%xmm0, 16(%rax)
	movdqu	%xmm0, (%rax)
	addq	%r12, %rax
	incq	%rcx
	jne	.LBB9_191
	jmp	.LBB9_1189
.LBB9_272:
	andl	$-4, %r13d
	leaq	(%r12,%r12,2), %r8
	leaq	(,%r15,4), %r9
	leaq	(%r8,%r15,4), %r10
	cmpq	%rax, %rcx
	movq	%rax, %r11
	cmovbq	%rcx, %r11
	shlq	$2, %r11
	subq	%r11, %r10
	addq	$-32, %r10
	movq	64(%rsp), %rbx
	movq	%rbx, %rsi
	shlq	$4, %rsi
	leaq	(,%rbx,8), %rdi
	leaq	(%r9,%rbx,8), %rbx
	subq	%r11, %rbx
	addq	$-32, %rbx
	leaq	(%r12,%r15,4), %r14
	subq	%r11, %r14
	addq	$-32, %r14
	subq	%r11, %r9
	addq	$-32, %r9
	xorl	%r11d, %r11d
	movq	56(%rsp), %rbp
.LBB9_273:
	pxor	%xmm0, %xmm0
	movdqu	%xmm0, 16(%rbp)
	movdqu	%xmm0, (%rbp)
	movdqu	%xmm0, 16(%rbp,%r9)
	movdqu	%xmm0, (%rbp,%r9)
	movdqu	%xmm0, 16(%rbp,%r12)
	movdqu	%xmm0, (%rbp,%r12)
	movdqu	%xmm0, 16(%rbp,%r14)
	movdqu	%xmm0, (%rbp,%r14)
	movdqu	%xmm0, 16(%rbp,%rdi)
	movdqu	%xmm0, (%rbp,%rdi)
	movdqu	%xmm0, 16(%rbp,%rbx)
	movdqu	%xmm0, (%rbp,%rbx)
	movdqu	%xmm0, 16(%rbp,%r8)
	movdqu	%xmm0, (%rbp,%r8)
	movdqu	%xmm0, 16(%rbp,%r10)
	movdqu	%xmm0, (%rbp,%r10)
	addq	$4, %r11
	addq	%rsi, %rbp
	cmpq	%r11, %r13
	jne	.LBB9_273
	testq	%rdx, %rdx
	je	.LBB9_1189
.LBB9_275:
	shlq	$2, %r15
	cmpq	%rax, %rcx
	cmovbq	%rcx, %rax
	shlq	$2, %rax
	subq	%rax, %r15
	addq	$-32, %r15
	imulq	64(%rsp), %r11
	movq	56(%rsp), %rax
	leaq	(%rax,%r11,4), %rax
	negq	%rdx
.LBB9_276:
	pxor	%xmm0, %xmm0
	movdqu	%xmm0, 16(%rax)
	movdqu	%xmm0, (%rax)
	movdqu	%xmm0, 16(%rax,%r15)
	movdqu	%xmm0, (%rax,%r15)
	addq	%r12, %rax
	incq	%rdx
	jne	.LBB9_276
	jmp	.LBB9_1189
.LBB9_277:
	andl	$-8, %r13d
	movq	64(%rsp), %rdx
	shlq	$5, %rdx
	xorl	%eax, %eax
	movq	56(%rsp), %r8
.LBB9_278:
	pxor	%xmm0, %xmm0
	movdqu	%xmm0, 16(%r8)
	movdqu	%xmm0, (%r8)
	leaq	(%r8,%r12), %r9
	movdqu	%xmm0, 16(%r8,%r12)
	movdqu	%xmm0, (%r8,%r12)
	leaq	(%r9,%r12), %r10
	movdqu	%xmm0, 16(%r12,%r9)
	movdqu	%xmm0, (%r12,%r9)
	leaq	(%r10,%r12), %r9
	movdqu	%xmm0, 16(%r12,%r10)
	movdqu	%xmm0, (%r12,%r10)
	leaq	(%r9,%r12), %r10
	movdqu	%xmm0, 16(%r12,%r9)
	movdqu	%xmm0, (%r12,%r9)
	leaq	(%r10,%r12), %r9
	movdqu	%xmm0, 16(%r12,%r10)
	movdqu	%xmm0, (%r12,%r10)
	leaq	(%r9,%r12), %r10
	movdqu	%xmm0, 16(%r12,%r9)
	movdqu	%xmm0, (%r12,%r9)
	movdqu	%xmm0, 16(%r12,%r10)
	movdqu	%xmm0, (%r12,%r10)
	addq	$8, %rax
	addq	%rdx, %r8
	cmpq	%rax, %r13
	jne	.LBB9_278
	testq	%rcx, %rcx
	je	.LBB9_1189
.LBB9_280:
	imulq	64(%rsp), %rax
	movq	56(%rsp), %rdx
	leaq	(%rdx,%rax,4), %rax
	negq	%rcx
.LBB9_281:
	pxor	%xmm0, %xmm0
	movdqu	%xmm0, 16(%rax)
	movdqu	%xmm0, (%rax)
	addq	%r12, %rax
	incq	%rcx
	jne	.LBB9_281
	jmp	.LBB9_1189
.LBB9_633:
	andl	$-4, %r14d
	leaq	(%r12,%r12,2), %r8
	leaq	(,%r15,4), %r9
	leaq	(%r8,%r15,4), %r10
	cmpq	%rax, %rcx
	movq	%rax, %r11
	cmovbq	%rcx, %r11
	shlq	$2, %r11
	subq	%r11, %r10
	addq	$-32, %r10
	movq	80(%rsp), %rbx
	movq	%rbx, %rsi
	shlq	$4, %rsi
	leaq	(,%rbx,8), %r8
	movq	%r8, 56(%rsp)
	leaq	(%r9,%rbx,8), %rbx
	subq	%r11, %rbx
	addq	$-32, %rbx
	movq	%r14, %r8
	leaq	(%r12,%r15,4), %r14
	subq	%r11, %r14
	addq	$-32, %r14
	subq	%r11, %r9
	addq	$-32, %r9
	xorl	%r11d, %r11d
	movq	%rdi, %rbp
.LBB9_634:
	pxor	%xmm0, %xmm0
	movdqu	%xmm0, 16(%rbp)
	movdqu	%xmm0, (%rbp)
	movdqu	%xmm0, 16(%rbp,%r9)
	movdqu	%xmm0, (%rbp,%r9)
	movdqu	%xmm0, 16(%rbp,%r12)
	movdqu	%xmm0, (%rbp,%r12)
	movdqu	%xmm0, 16(%rbp,%r14)
	movdqu	%xmm0, (%rbp,%r14)
	movq	56(%rsp), %r13
	movdqu	%xmm0, 16(%rbp,%r13)
	movdqu	%xmm0, (%rbp,%r13)
	movdqu	%xmm0, 16(%rbp,%rbx)
	movdqu	%xmm0, (%rbp,%rbx)
	leaq	(%r12,%r12,2), %r13
	movdqu	%xmm0, 16(%rbp,%r13)
	movdqu	%xmm0, (%rbp,%r13)
	movdqu	%xmm0, 16(%rbp,%r10)
	movdqu	%xmm0, (%rbp,%r10)
	addq	$4, %r11
	addq	%rsi, %rbp
	cmpq	%r11, %r8
	jne	.LBB9_634
	testq	%rdx, %rdx
	je	.LBB9_1189
.LBB9_636:
	shlq	$2, %r15
	cmpq	%rax, %rcx
	cmovbq	%rcx, %rax
	shlq	$2, %rax
	subq	%rax, %r15
	addq	$-32, %r15
	imulq	80(%rsp), %r11
	leaq	(%rdi,%r11,4), %rax
	negq	%rdx
.LBB9_637:
	pxor	%xmm0, %xmm0
	movdqu	%xmm0, 16(%rax)
	movdqu	%xmm0, (%rax)
	movdqu	%xmm0, 16(%rax,%r15)
	movdqu	%xmm0, (%rax,%r15)
	addq	%r12, %rax
	incq	%rdx
	jne	.LBB9_637
	jmp	.LBB9_1189
.LBB9_638:
	andl	$-8, %r14d
	movq	80(%rsp), %rdx
	shlq	$5, %rdx
	xorl	%eax, %eax
	movq	%rdi, %r8
.LBB9_639:
	pxor	%xmm0, %xmm0
	movdqu	%xmm0, 16(%r8)
	movdqu	%xmm0, (%r8)
	leaq	(%r8,%r12), %r9
	movdqu	%xmm0, 16(%r8,%r12)
	movdqu	%xmm0, (%r8,%r12)
	leaq	(%r9,%r12), %r10
	movdqu	%xmm0, 16(%r12,%r9)
	movdqu	%xmm0, (%r12,%r9)
	leaq	(%r10,%r12), %r9
	movdqu	%xmm0, 16(%r12,%r10)
	movdqu	%xmm0, (%r12,%r10)
	leaq	(%r9,%r12), %r10
	movdqu	%xmm0, 16(%r12,%r9)
	movdqu	%xmm0, (%r12,%r9)
	leaq	(%r10,%r12), %r9
	movdqu	%xmm0, 16(%r12,%r10)
	movdqu	%xmm0, (%r12,%r10)
	leaq	(%r9,%r12), %r10
	movdqu	%xmm0, 16(%r12,%r9)
	movdqu	%xmm0, (%r12,%r9)
	movdqu	%xmm0, 16(%r12,%r10)
	movdqu	%xmm0, (%r12,%r10)
	addq	$8, %rax
	addq	%rdx, %r8
	cmpq	%rax, %r14
	jne	.LBB9_639
	testq	%rcx, %rcx
	je	.LBB9_1189
.LBB9_641:
	imulq	80(%rsp), %rax
	leaq	(%rdi,%rax,4), %rax
	negq	%rcx
.LBB9_642:
	pxor	%xmm0, %xmm0
	movdqu	%xmm0, 16(%rax)
	movdqu	%xmm0, (%rax)
	addq	%r12, %rax
	incq	%rcx
	jne	.LBB9_642
	jmp	.LBB9_1189
.LBB9_24:
	andl	$-4, %ebp
	leaq	(%rdi,%rdi,2), %r8
	leaq	(,%r15,4), %r9
	leaq	(%r8,%r15,4), %r10
	cmpq	%rax, %rcx
	movq	%rax, %r11
	cmovbq	%rcx, %r11
	shlq	$2, %r11
	subq	%r11, %r10
	addq	$-32, %r10
	movq	64(%rsp), %r14
	movq	%r14, %rsi
	shlq	$4, %rsi
	leaq	(,%r14,8), %r8
	movq	%r8, 56(%rsp)
	leaq	(%r9,%r14,8), %r14
	subq	%r11, %r14
	addq	$-32, %r14
	leaq	(%rdi,%r15,4), %r13
	subq	%r11, %r13
	addq	$-32, %r13
	subq	%r11, %r9
	addq	$-32, %r9
	xorl	%r11d, %r11d
	movq	%rbp, %r8
	movq	%r12, %rbp
.LBB9_25:
	pxor	%xmm0, %xmm0
	movdqu	%xmm0, 16(%rbp)
	movdqu	%xmm0, (%rbp)
	movdqu	%xmm0, 16(%rbp,%r9)
	movdqu	%xmm0, (%rbp,%r9)
	movdqu	%xmm0, 16(%rbp,%rdi)
	movdqu	%xmm0, (%rbp,%rdi)
	movdqu	%xmm0, 16(%rbp,%r13)
	movdqu	%xmm0, (%rbp,%r13)
	movq	56(%rsp), %rbx
	movdqu	%xmm0, 16(%rbp,%rbx)
	movdqu	%xmm0, (%rbp,%rbx)
	movdqu	%xmm0, 16(%rbp,%r14)
	movdqu	%xmm0, (%rbp,%r14)
	leaq	(%rdi,%rdi,2), %rbx
	movdqu	%xmm0, 16(%rbp,%rbx)
	movdqu	%xmm0, (%rbp,%rbx)
	movdqu	%xmm0, 16(%rbp,%r10)
	movdqu	%xmm0, (%rbp,%r10)
	addq	$4, %r11
	addq	%rsi, %rbp
	cmpq	%r11, %r8
	jne	.LBB9_25
	testq	%rdx, %rdx
	je	.LBB9_1189
.LBB9_27:
	shlq	$2, %r15
	cmpq	%rax, %rcx
	cmovbq	%rcx, %rax
	shlq	$2, %rax
	subq	%rax, %r15
	addq	$-32, %r15
	imulq	64(%rsp), %r11
	leaq	(%r12,%r11,4), %rax
	negq	%rdx
.LBB9_28:
	pxor	%xmm0, %xmm0
	movdqu	%xmm0, 16(%rax)
	movdqu	%xmm0, (%rax)
	movdqu	%xmm0, 16(%rax,%r15)
	movdqu	%xmm0, (%rax,%r15)
	addq	%rdi, %rax
	incq	%rdx
	jne	.LBB9_28
	jmp	.LBB9_1189
.LBB9_29:
	andl	$-8, %ebp
	movq	64(%rsp), %rdx
	shlq	$5, %rdx
	xorl	%eax, %eax
	movq	%r12, %r8
.LBB9_30:
	pxor	%xmm0, %xmm0
	movdqu	%xmm0, 16(%r8)
	movdqu	%xmm0, (%r8)
	leaq	(%r8,%rdi), %r9
	movdqu	%xmm0, 16(%r8,%rdi)
	movdqu	%xmm0, (%r8,%rdi)
	leaq	(%r9,%rdi), %r10
	movdqu	%xmm0, 16(%rdi,%r9)
	movdqu	%xmm0, (%rdi,%r9)
	leaq	(%r10,%rdi), %r9
	movdqu	%xmm0, 16(%rdi,%r10)
	movdqu	%xmm0, (%rdi,%r10)
	leaq	(%r9,%rdi), %r10
	movdqu	%xmm0, 16(%rdi,%r9)
	movdqu	%xmm0, (%rdi,%r9)
	leaq	(%r10,%rdi), %r9
	movdqu	%xmm0, 16(%rdi,%r10)
	movdqu	%xmm0, (%rdi,%r10)
	leaq	(%r9,%rdi), %r10
	movdqu	%xmm0, 16(%rdi,%r9)
	movdqu	%xmm0, (%rdi,%r9)
	movdqu	%xmm0, 16(%rdi,%r10)
	movdqu	%xmm0, (%rdi,%r10)
	addq	$8, %rax
	addq	%rdx, %r8
	cmpq	%rax, %rbp
	jne	.LBB9_30
	testq	%rcx, %rcx
	je	.LBB9_1189
.LBB9_32:
	imulq	64(%rsp), %rax
	leaq	(%r12,%rax,4), %rax
	negq	%rcx
.LBB9_33:
	pxor	%xmm0, %xmm0
	movdqu	%xmm0, 16(%rax)
	movdqu	%xmm0, (%rax)
	addq	%rdi, %rax
	incq	%rcx
	jne	.LBB9_33
	jmp	.LBB9_1189
.LBB9_132:
	andl	$-4, %r13d
	leaq	(%r12,%r12,2), %r8
	leaq	(,%r14,4), %r9
	leaq	(%r8,%r14,4), %r10
	cmpq	%rax, %rcx
	movq	%rax, %r8
	cmovbq	%rcx, %r8
	shlq	$2, %r8
	subq	%r8, %r10
	addq	$-32, %r10
	movq	%rdi, %rsi
	shlq	$4, %rsi
	leaq	(%r9,%rdi,8), %r15
	subq	%r8, %r15
	addq	$-32, %r15
	leaq	(%r12,%r14,4), %rbp
	subq	%r8, %rbp
	addq	$-32, %rbp
	subq	%r8, %r9
	addq	$-32, %r9
	xorl	%r11d, %r11d
	movq	56(%rsp), %r8
.LBB9_133:
	pxor	%xmm0, %xmm0
	movdqu	%xmm0, 16(%r8)
	movdqu	%xmm0, (%r8)
	movdqu	%xmm0, 16(%r8,%r9)
	movdqu	%xmm0, (%r8,%r9)
	movdqu	%xmm0, 16(%r8,%r12)
	movdqu	%xmm0, (%r8,%r12)
	movdqu	%xmm0, 16(%r8,%rbp)
	movdqu	%xmm0, (%r8,%rbp)
	leaq	(,%rdi,8), %rbx
	movdqu	%xmm0, 16(%r8,%rbx)
	movdqu	%xmm0, (%r8,%rbx)
	movdqu	%xmm0, 16(%r8,%r15)
	movdqu	%xmm0, (%r8,%r15)
	leaq	(%r12,%r12,2), %rbx
	movdqu	%xmm0, 16(%r8,%rbx)
	movdqu	%xmm0, (%r8,%rbx)
	movdqu	%xmm0, 16(%r8,%r10)
	movdqu	%xmm0, (%r8,%r10)
	addq	$4, %r11
	addq	%rsi, %r8
	cmpq	%r11, %r13
	jne	.LBB9_133
	testq	%rdx, %rdx
	je	.LBB9_1189
.LBB9_135:
	shlq	$2, %r14
	cmpq	%rax, %rcx
	cmovbq	%rcx, %rax
	shlq	$2, %rax
	subq	%rax, %r14
	addq	$-32, %r14
	imulq	%rdi, %r11
	movq	56(%rsp), %rax
	leaq	(%rax,%r11,4), %rax
	negq	%rdx
.LBB9_136:
	pxor	%xmm0, %xmm0
	movdqu	%xmm0, 16(%rax)
	movdqu	%xmm0, (%rax)
	movdqu	%xmm0, 16(%rax,%r14)
	movdqu	%xmm0, (%rax,%r14)
	addq	%r12, %rax
	incq	%rdx
	jne	.LBB9_136
	jmp	.LBB9_1189
.LBB9_453:
	andl	$-4, %r14d
	leaq	(%r12,%r12,2), %r8
	leaq	(,%r15,4), %r9
	leaq	(%r8,%r15,4), %r10
	cmpq	%rax, %rcx
	movq	%rax, %r11
	cmovbq	%rcx, %r11
	shlq	$2, %r11
	subq	%r11, %r10
	addq	$-32, %r10
	movq	80(%rsp), %rbx
	movq	%rbx, %rsi
	shlq	$4, %rsi
	leaq	(,%rbx,8), %r8
	movq	%r8, 56(%rsp)
	leaq	(%r9,%rbx,8), %rbx
	subq	%r11, %rbx
	addq	$-32, %rbx
	movq	%r14, %r8
	leaq	(%r12,%r15,4), %r14
	subq	%r11, %r14
	addq	$-32, %r14
	subq	%r11, %r9
	addq	$-32, %r9
	xorl	%r11d, %r11d
	movq	%rdi, %rbp
.LBB9_454:
	pxor	%xmm0, %xmm0
	movdqu	%xmm0, 16(%rbp)
	movdqu	%xmm0, (%rbp)
	movdqu	%xmm0, 16(%rbp,%r9)
	movdqu	%xmm0, (%rbp,%r9)
	movdqu	%xmm0, 16(%rbp,%r12)
	movdqu	%xmm0, (%rbp,%r12)
	movdqu	%xmm0, 16(%rbp,%r14)
	movdqu	%xmm0, (%rbp,%r14)
	movq	56(%rsp), %r13
	movdqu	%xmm0, 16(%rbp,%r13)
	movdqu	%xmm0, (%rbp,%r13)
	movdqu	%xmm0, 16(%rbp,%rbx)
	movdqu	%xmm0, (%rbp,%rbx)
	leaq	(%r12,%r12,2), %r13
	movdqu	%xmm0, 16(%rbp,%r13)
	movdqu	%xmm0, (%rbp,%r13)
	movdqu	%xmm0, 16(%rbp,%r10)
	movdqu	%xmm0, (%rbp,%r10)
	addq	$4, %r11
	addq	%rsi, %rbp
	cmpq	%r11, %r8
	jne	.LBB9_454
	testq	%rdx, %rdx
	je	.LBB9_1189
.LBB9_456:
	shlq	$2, %r15
	cmpq	%rax, %rcx
	cmovbq	%rcx, %rax
	shlq	$2, %rax
	subq	%rax, %r15
	addq	$-32, %r15
	imulq	80(%rsp), %r11
	leaq	(%rdi,%r11,4), %rax
	negq	%rdx
.LBB9_457:
	pxor	%xmm0, %xmm0
	movdqu	%xmm0, 16(%rax)
	movdqu	%xmm0, (%rax)
	movdqu	%xmm0, 16(%rax,%r15)
	movdqu	%xmm0, (%rax,%r15)
	addq	%r12, %rax
	incq	%rdx
	jne	.LBB9_457
	jmp	.LBB9_1189
.LBB9_137:
	andl	$-8, %r13d
	movq	%rdi, %rdx
	shlq	$5, %rdx
	xorl	%eax, %eax
	movq	56(%rsp), %r8
.LBB9_138:
	pxor	%xmm0, %xmm0
	movdqu	%xmm0, 16(%r8)
	movdqu	%xmm0, (%r8)
	leaq	(%r8,%r12), %r9
	movdqu	%xmm0, 16(%r8,%r12)
	movdqu	%xmm0, (%r8,%r12)
	leaq	(%r9,%r12), %r10
	movdqu	%xmm0, 16(%r12,%r9)
	movdqu	%xmm0, (%r12,%r9)
	leaq	(%r10,%r12), %r9
	movdqu	%xmm0, 16(%r12,%r10)
	movdqu	%xmm0, (%r12,%r10)
	leaq	(%r9,%r12), %r10
	movdqu	%xmm0, 16(%r12,%r9)
	movdqu	%xmm0, (%r12,%r9)
	leaq	(%r10,%r12), %r9
	movdqu	%xmm0, 16(%r12,%r10)
	movdqu	%xmm0, (%r12,%r10)
	leaq	(%r9,%r12), %r10
	movdqu	%xmm0, 16(%r12,%r9)
	movdqu	%xmm0, (%r12,%r9)
	movdqu	%xmm0, 16(%r12,%r10)
	movdqu	%xmm0, (%r12,%r10)
	addq	$8, %rax
	addq	%rdx, %r8
	cmpq	%rax, %r13
	jne	.LBB9_138
	testq	%rcx, %rcx
	je	.LBB9_1189
.LBB9_140:
	imulq	%rdi, %rax
	movq	56(%rsp), %rdx
	leaq	(%rdx,%rax,4), %rax
	negq	%rcx
.LBB9_141:
	pxor	%xmm0, %xmm0
	movdqu	%xmm0, 16(%rax)
	movdqu	%xmm0, (%rax)
	addq	%r12, %rax
	incq	%rcx
	jne	.LBB9_141
	jmp	.LBB9_1189
.LBB9_458:
	andl	$-8, %r14d
	movq	80(%rsp), %rdx
	shlq	$5, %rdx
	xorl	%eax, %eax
	movq	%rdi, %r8
.LBB9_459:
	pxor	%xmm0, %xmm0
	movdqu	%xmm0, 16(%r8)
	movdqu	%xmm0, (%r8)
	leaq	(%r8,%r12), %r9
	movdqu	%xmm0, 16(%r8,%r12)
	movdqu	%xmm0, (%r8,%r12)
	leaq	(%r9,%r12), %r10
	movdqu	%xmm0, 16(%r12,%r9)
	movdqu	%xmm0, (%r12,%r9)
	leaq	(%r10,%r12), %r9
	movdqu	%xmm0, 16(%r12,%r10)
	movdqu	%xmm0, (%r12,%r10)
	leaq	(%r9,%r12), %r10
	movdqu	%xmm0, 16(%r12,%r9)
	movdqu	%xmm0, (%r12,%r9)
	leaq	(%r10,%r12), %r9
	movdqu	%xmm0, 16(%r12,%r10)
	movdqu	%xmm0, (%r12,%r10)
	leaq	(%r9,%r12), %r10
	movdqu	%xmm0, 16(%r12,%r9)
	movdqu	%xmm0, (%r12,%r9)
	movdqu	%xmm0, 16(%r12,%r10)
	movdqu	%xmm0, (%r12,%r10)
	addq	$8, %rax
	addq	%rdx, %r8
	cmpq	%rax, %r14
	jne	.LBB9_459
	testq	%rcx, %rcx
	je	.LBB9_1189
.LBB9_461:
	imulq	80(%rsp), %rax
	leaq	(%rdi,%rax,4), %rax
	negq	%rcx
.LBB9_462:
	pxor	%xmm0, %xmm0
	movdqu	%xmm0, 16(%rax)
	movdqu	%xmm0, (%rax)
	addq	%r12, %rax
	incq	%rcx
	jne	.LBB9_462
	jmp	.LBB9_1189
.LBB9_543:
	andl	$-4, %r13d
	leaq	(%r12,%r12,2), %r8
	leaq	(,%r15,4), %r9
	leaq	(%r8,%r15,4), %r10
	cmpq	%rax, %rcx
	movq	%rax, %r11
	cmovbq	%rcx, %r11
	shlq	$2, %r11
	subq	%r11, %r10
	addq	$-32, %r10
	movq	128(%rsp), %rbx
	movq	%rbx, %rsi
	shlq	$4, %rsi
	leaq	(,%rbx,8), %rdi
	leaq	(%r9,%rbx,8), %rbx
	subq	%r11, %rbx
	addq	$-32, %rbx
	leaq	(%r12,%r15,4), %r14
	subq	%r11, %r14
	addq	$-32, %r14
	subq	%r11, %r9
	addq	$-32, %r9
	xorl	%r11d, %r11d
	movq	56(%rsp), %rbp
.LBB9_544:
	pxor	%xmm0, %xmm0
	movdqu	%xmm0, 16(%rbp)
	movdqu	%xmm0, (%rbp)
	movdqu	%xmm0, 16(%rbp,%r9)
	movdqu	%xmm0, (%rbp,%r9)
	movdqu	%xmm0, 16(%rbp,%r12)
	movdqu	%xmm0, (%rbp,%r12)
	movdqu	%xmm0, 16(%rbp,%r14)
	movdqu	%xmm0, (%rbp,%r14)
	movdqu	%xmm0, 16(%rbp,%rdi)
	movdqu	%xmm0, (%rbp,%rdi)
	movdqu	%xmm0, 16(%rbp,%rbx)
	movdqu	%xmm0, (%rbp,%rbx)
	movdqu	%xmm0, 16(%rbp,%r8)
	movdqu	%xmm0, (%rbp,%r8)
	movdqu	%xmm0, 16(%rbp,%r10)
	movdqu	%xmm0, (%rbp,%r10)
	addq	$4, %r11
	addq	%rsi, %rbp
	cmpq	%r11, %r13
	jne	.LBB9_544
	testq	%rdx, %rdx
	je	.LBB9_1189
.LBB9_546:
	shlq	$2, %r15
	cmpq	%rax, %rcx
	cmovbq	%rcx, %rax
	shlq	$2, %rax
	subq	%rax, %r15
	addq	$-32, %r15
	imulq	128(%rsp), %r11
	movq	56(%rsp), %rax
	leaq	(%rax,%r11,4), %rax
	negq	%rdx
.LBB9_547:
	pxor	%xmm0, %xmm0
	movdqu	%xmm0, 16(%rax)
	movdqu	%xmm0, (%rax)
	movdqu	%xmm0, 16(%rax,%r15)
	movdqu	%xmm0, (%rax,%r15)
	addq	%r12, %rax
	incq	%rdx
	jne	.LBB9_547
	jmp	.LBB9_1189
.LBB9_548:
	andl	$-8, %r13d
	movq	128(%rsp), %rdx
	shlq	$5, %rdx
	xorl	%eax, %eax
	movq	56(%rsp), %r8
.LBB9_549:
	pxor	%xmm0, %xmm0
	movdqu	%xmm0, 16(%r8)
	movdqu	%xmm0, (%r8)
	leaq	(%r8,%r12), %r9
	movdqu	%xmm0, 16(%r8,%r12)
	movdqu	%xmm0, (%r8,%r12)
	leaq	(%r9,%r12), %r10
	movdqu	%xmm0, 16(%r12,%r9)
	movdqu	%xmm0, (%r12,%r9)
	leaq	(%r10,%r12), %r9
	movdqu	%xmm0, 16(%r12,%r10)
	movdqu	%xmm0, (%r12,%r10)
	leaq	(%r9,%r12), %r10
	movdqu	%xmm0, 16(%r12,%r9)
	movdqu	%xmm0, (%r12,%r9)
	leaq	(%r10,%r12), %r9
	movdqu	%xmm0, 16(%r12,%r10)
	movdqu	%xmm0, (%r12,%r10)
	leaq	(%r9,%r12), %r10
	movdqu	%xmm0, 16(%r12,%r9)
	movdqu	%xmm0, (%r12,%r9)
	movdqu	%xmm0, 16(%r12,%r10)
	movdqu	%xmm0, (%r12,%r10)
	addq	$8, %rax
	addq	%rdx, %r8
	cmpq	%rax, %r13
	jne	.LBB9_549
	testq	%rcx, %rcx
	je	.LBB9_1189
.LBB9_551:
	imulq	128(%rsp), %rax
	movq	56(%rsp), %rdx
	leaq	(%rdx,%rax,4), %rax
	negq	%rcx
.LBB9_552:
	pxor	%xmm0, %xmm0
	movdqu	%xmm0, 16(%rax)
	movdqu	%xmm0, (%rax)
	addq	%r12, %rax
	incq	%rcx
	jne	.LBB9_552
	jmp	.LBB9_1189
.LBB9_906:
	andl	$-4, %r14d
	leaq	(%r12,%r12,2), %r8
	leaq	(,%r15,4), %r9
	leaq	(%r8,%r15,4), %r10
	cmpq	%rax, %rcx
	movq	%rax, %r11
	cmovbq	%rcx, %r11
	shlq	$2, %r11
	subq	%r11, %r10
	addq	$-32, %r10
	movq	80(%rsp), %rbx
	movq	%rbx, %rsi
	shlq	$4, %rsi
	leaq	(,%rbx,8), %r8
	movq	%r8, 56(%rsp)
	leaq	(%r9,%rbx,8), %rbx
	subq	%r11, %rbx
	addq	$-32, %rbx
	movq	%r14, %r8
	leaq	(%r12,%r15,4), %r14
	subq	%r11, %r14
	addq	$-32, %r14
	subq	%r11, %r9
	addq	$-32, %r9
	xorl	%r11d, %r11d
	movq	%rdi, %rbp
.LBB9_907:
	pxor	%xmm0, %xmm0
	movdqu	%xmm0, 16(%rbp)
	movdqu	%xmm0, (%rbp)
	movdqu	%xmm0, 16(%rbp,%r9)
	movdqu	%xmm0, (%rbp,%r9)
	movdqu	%xmm0, 16(%rbp,%r12)
	movdqu	%xmm0, (%rbp,%r12)
	movdqu	%xmm0, 16(%rbp,%r14)
	movdqu	%xmm0, (%rbp,%r14)
	movq	56(%rsp), %r13
	movdqu	%xmm0, 16(%rbp,%r13)
	movdqu	%xmm0, (%rbp,%r13)
	movdqu	%xmm0, 16(%rbp,%rbx)
	movdqu	%xmm0, (%rbp,%rbx)
	leaq	(%r12,%r12,2), %r13
	movdqu	%xmm0, 16(%rbp,%r13)
	movdqu	%xmm0, (%rbp,%r13)
	movdqu	%xmm0, 16(%rbp,%r10)
	movdqu	%xmm0, (%rbp,%r10)
	addq	$4, %r11
	addq	%rsi, %rbp
	cmpq	%r11, %r8
	jne	.LBB9_907
	testq	%rdx, %rdx
	je	.LBB9_1189
.LBB9_909:
	shlq	$2, %r15
	cmpq	%rax, %rcx
	cmovbq	%rcx, %rax
	shlq	$2, %rax
	subq	%rax, %r15
	addq	$-32, %r15
	imulq	80(%rsp), %r11
	leaq	(%rdi,%r11,4), %rax
	negq	%rdx
.LBB9_910:
	pxor	%xmm0, %xmm0
	movdqu	%xmm0, 16(%rax)
	movdqu	%xmm0, (%rax)
	movdqu	%xmm0, 16(%rax,%r15)
	movdqu	%xmm0, (%rax,%r15)
	addq	%r12, %rax
	incq	%rdx
	jne	.LBB9_910
	jmp	.LBB9_1189
.LBB9_911:
	andl	$-8, %r14d
	movq	80(%rsp), %rdx
	shlq	$5, %rdx
	xorl	%eax, %eax
	movq	%rdi, %r8
.LBB9_912:
	pxor	%xmm0, %xmm0
	movdqu	%xmm0, 16(%r8)
	movdqu	%xmm0, (%r8)
	leaq	(%r8,%r12), %r9
	movdqu	%xmm0, 16(%r8,%r12)
	movdqu	%xmm0, (%r8,%r12)
	leaq	(%r9,%r12), %r10
	movdqu	%xmm0, 16(%r12,%r9)
	movdqu	%xmm0, (%r12,%r9)
	leaq	(%r10,%r12), %r9
	movdqu	%xmm0, 16(%r12,%r10)
	movdqu	%xmm0, (%r12,%r10)
	leaq	(%r9,%r12), %r10
	movdqu	%xmm0, 16(%r12,%r9)
	movdqu	%xmm0, (%r12,%r9)
	leaq	(%r10,%r12), %r9
	movdqu	%xmm0, 16(%r12,%r10)
	movdqu	%xmm0, (%r12,%r10)
	leaq	(%r9,%r12), %r10
	movdqu	%xmm0, 16(%r12,%r9)
	movdqu	%xmm0, (%r12,%r9)
	movdqu	%xmm0, 16(%r12,%r10)
	movdqu	%xmm0, (%r12,%r10)
	addq	$8, %rax
	addq	%rdx, %r8
	cmpq	%rax, %r14
	jne	.LBB9_912
	testq	%rcx, %rcx
	je	.LBB9_1189
.LBB9_914:
	imulq	80(%rsp), %rax
	leaq	(%rdi,%rax,4), %rax
	negq	%rcx
.LBB9_915:
	pxor	%xmm0, %xmm0
	movdqu	%xmm0, 16(%rax)
	movdqu	%xmm0, (%rax)
	addq	%r12, %rax
	incq	%rcx
	jne	.LBB9_915
	jmp	.LBB9_1189
.LBB9_723:
	andl	$-4, %r14d
	leaq	(%r12,%r12,2), %r8
	leaq	(,%r15,4), %r9
	leaq	(%r8,%r15,4), %r10
	cmpq	%rax, %rcx
	movq	%rax, %r11
	cmovbq	%rcx, %r11
	shlq	$2, %r11
	subq	%r11, %r10
	addq	$-32, %r10
	movq	64(%rsp), %rbx
	movq	%rbx, %rsi
	shlq	$4, %rsi
	leaq	(,%rbx,8), %r8
	movq	%r8, 56(%rsp)
	leaq	(%r9,%rbx,8), %rbx
	subq	%r11, %rbx
	addq	$-32, %rbx
	movq	%r14, %r8
	leaq	(%r12,%r15,4), %r14
	subq	%r11, %r14
	addq	$-32, %r14
	subq	%r11, %r9
	addq	$-32, %r9
	xorl	%r11d, %r11d
	movq	%rdi, %rbp
.LBB9_724:
	pxor	%xmm0, %xmm0
	movdqu	%xmm0, 16(%rbp)
	movdqu	%xmm0, (%rbp)
	movdqu	%xmm0, 16(%rbp,%r9)
	movdqu	%xmm0, (%rbp,%r9)
	movdqu	%xmm0, 16(%rbp,%r12)
	movdqu	%xmm0, (%rbp,%r12)
	movdqu	%xmm0, 16(%rbp,%r14)
	movdqu	%xmm0, (%rbp,%r14)
	movq	56(%rsp), %r13
	movdqu	%xmm0, 16(%rbp,%r13)
	movdqu	%xmm0, (%rbp,%r13)
	movdqu	%xmm0, 16(%rbp,%rbx)
	movdqu	%xmm0, (%rbp,%rbx)
	leaq	(%r12,%r12,2), %r13
	movdqu	%xmm0, 16(%rbp,%r13)
	movdqu	%xmm0, (%rbp,%r13)
	movdqu	%xmm0, 16(%rbp,%r10)
	movdqu	%xmm0, (%rbp,%r10)
	addq	$4, %r11
	addq	%rsi, %rbp
	cmpq	%r11, %r8
	jne	.LBB9_724
	testq	%rdx, %rdx
	je	.LBB9_1189
.LBB9_726:
	shlq	$2, %r15
	cmpq	%rax, %rcx
	cmovbq	%rcx, %rax
	shlq	$2, %rax
	subq	%rax, %r15
	addq	$-32, %r15
	imulq	64(%rsp), %r11
	leaq	(%rdi,%r11,4), %rax
	negq	%rdx
.LBB9_727:
	pxor	%xmm0, %xmm0
	movdqu	%xmm0, 16(%rax)
	movdqu	%xmm0, (%rax)
	movdqu	%xmm0, 16(%rax,%r15)
	movdqu	%xmm0, (%rax,%r15)
	addq	%r12, %rax
	incq	%rdx
	jne	.LBB9_727
	jmp	.LBB9_1189
.LBB9_728:
	andl	$-8, %r14d
	movq	64(%rsp), %rdx
	shlq	$5, %rdx
	xorl	%eax, %eax
	movq	%rdi, %r8
.LBB9_729:
	pxor	%xmm0, %xmm0
	movdqu	%xmm0, 16(%r8)
	movdqu	%xmm0, (%r8)
	leaq	(%r8,%r12), %r9
	movdqu	%xmm0, 16(%r8,%r12)
	movdqu	%xmm0, (%r8,%r12)
	leaq	(%r9,%r12), %r10
	movdqu	%xmm0, 16(%r12,%r9)
	movdqu	%xmm0, (%r12,%r9)
	leaq	(%r10,%r12), %r9
	movdqu	%xmm0, 16(%r12,%r10)
	movdqu	%xmm0, (%r12,%r10)
	leaq	(%r9,%r12), %r10
	movdqu	%xmm0, 16(%r12,%r9)
	movdqu	%xmm0, (%r12,%r9)
	leaq	(%r10,%r12), %r9
	movdqu	%xmm0, 16(%r12,%r10)
	movdqu	%xmm0, (%r12,%r10)
	leaq	(%r9,%r12), %r10
	movdqu	%xmm0, 16(%r12,%r9)
	movdqu	%xmm0, (%r12,%r9)
	movdqu	%xmm0, 16(%r12,%r10)
	movdqu	%xmm0, (%r12,%r10)
	addq	$8, %rax
	addq	%rdx, %r8
	cmpq	%rax, %r14
	jne	.LBB9_729
	testq	%rcx, %rcx
	je	.LBB9_1189
.LBB9_731:
	imulq	64(%rsp), %rax
	leaq	(%rdi,%rax,4), %rax
	negq	%rcx
.LBB9_732:
	pxor	%xmm0, %xmm0
	movdqu	%xmm0, 16(%rax)
	movdqu	%xmm0, (%rax)
	addq	%r12, %rax
	incq	%rcx
	jne	.LBB9_732
	jmp	.LBB9_1189
	.section	".rdata$pix_ops::ops::Op::visit_slice::<#cb634639e69df956>","dr"
	.p2align	2, 0x0
.LJTI9_0:
	.long	.LBB9_1-.LJTI9_0
	.long	.LBB9_109-.LJTI9_0
	.long	.LBB9_159-.LJTI9_0
	.long	.LBB9_249-.LJTI9_0
	.long	.LBB9_340-.LJTI9_0
	.long	.LBB9_430-.LJTI9_0
	.long	.LBB9_520-.LJTI9_0
	.long	.LBB9_610-.LJTI9_0
	.long	.LBB9_700-.LJTI9_0
	.long	.LBB9_792-.LJTI9_0
	.long	.LBB9_883-.LJTI9_0
	.long	.LBB9_973-.LJTI9_0
	.long	.LBB9_1095-.LJTI9_0
.LJTI9_1:
	.long	.LBB9_1096-.LJTI9_1
	.long	.LBB9_1133-.LJTI9_1
	.long	.LBB9_1143-.LJTI9_1
	.long	.LBB9_1145-.LJTI9_1
	.long	.LBB9_1165-.LJTI9_1
	.long	.LBB9_1167-.LJTI9_1
	.long	.LBB9_1169-.LJTI9_1
	.long	.LBB9_1187-.LJTI9_1
.LJTI9_2:
	.long	.LBB9_974-.LJTI9_2
	.long	.LBB9_1011-.LJTI9_2
	.long	.LBB9_1021-.LJTI9_2
	.long	.LBB9_1023-.LJTI9_2
	.long	.LBB9_1056-.LJTI9_2
	.long	.LBB9_1056-.LJTI9_2
	.long	.LBB9_1058-.LJTI9_2
	.long	.LBB9_1056-.LJTI9_2
.LJTI9_3:
	.long	.LBB9_884-.LJTI9_3
	.long	.LBB9_921-.LJTI9_3
	.long	.LBB9_931-.LJTI9_3
	.long	.LBB9_933-.LJTI9_3
	.long	.LBB9_949-.LJTI9_3
	.long	.LBB9_951-.LJTI9_3
	.long	.LBB9_953-.LJTI9_3
	.long	.LBB9_971-.LJTI9_3
.LJTI9_4:
	.long	.LBB9_793-.LJTI9_4
	.long	.LBB9_830-.LJTI9_4
	.long	.LBB9_840-.LJTI9_4
	.long	.LBB9_843-.LJTI9_4
	.long	.LBB9_859-.LJTI9_4
	.long	.LBB9_861-.LJTI9_4
	.long	.LBB9_863-.LJTI9_4
	.long	.LBB9_881-.LJTI9_4
.LJTI9_5:
	.long	.LBB9_701-.LJTI9_5
	.long	.LBB9_738-.LJTI9_5
	.long	.LBB9_748-.LJTI9_5
	.long	.LBB9_752-.LJTI9_5
	.long	.LBB9_768-.LJTI9_5
	.long	.LBB9_770-.LJTI9_5
	.long	.LBB9_772-.LJTI9_5
	.long	.LBB9_790-.LJTI9_5
.LJTI9_6:
	.long	.LBB9_611-.LJTI9_6
	.long	.LBB9_648-.LJTI9_6
	.long	.LBB9_658-.LJTI9_6
	.long	.LBB9_660-.LJTI9_6
	.long	.LBB9_676-.LJTI9_6
	.long	.LBB9_678-.LJTI9_6
	.long	.LBB9_680-.LJTI9_6
	.long	.LBB9_698-.LJTI9_6
.LJTI9_7:
	.long	.LBB9_521-.LJTI9_7
	.long	.LBB9_558-.LJTI9_7
	.long	.LBB9_568-.LJTI9_7
	.long	.LBB9_570-.LJTI9_7
	.long	.LBB9_586-.LJTI9_7
	.long	.LBB9_588-.LJTI9_7
	.long	.LBB9_590-.LJTI9_7
	.long	.LBB9_608-.LJTI9_7
.LJTI9_8:
	.long	.LBB9_431-.LJTI9_8
	.long	.LBB9_468-.LJTI9_8
	.long	.LBB9_478-.LJTI9_8
	.long	.LBB9_480-.LJTI9_8
	.long	.LBB9_496-.LJTI9_8
	.long	.LBB9_498-.LJTI9_8
	.long	.LBB9_500-.LJTI9_8
	.long	.LBB9_518-.LJTI9_8
.LJTI9_9:
	.long	.LBB9_341-.LJTI9_9
	.long	.LBB9_378-.LJTI9_9
	.long	.LBB9_388-.LJTI9_9
	.long	.LBB9_390-.LJTI9_9
	.long	.LBB9_406-.LJTI9_9
	.long	.LBB9_408-.LJTI9_9
	.long	.LBB9_410-.LJTI9_9
	.long	.LBB9_428-.LJTI9_9
.LJTI9_10:
	.long	.LBB9_250-.LJTI9_10
	.long	.LBB9_287-.LJTI9_10
	.long	.LBB9_297-.LJTI9_10
	.long	.LBB9_300-.LJTI9_10
	.long	.LBB9_316-.LJTI9_10
	.long	.LBB9_318-.LJTI9_10
	.long	.LBB9_320-.LJTI9_10
	.long	.LBB9_338-.LJTI9_10
.LJTI9_11:
	.long	.LBB9_160-.LJTI9_11
	.long	.LBB9_197-.LJTI9_11
	.long	.LBB9_207-.LJTI9_11
	.long	.LBB9_209-.LJTI9_11
	.long	.LBB9_225-.LJTI9_11
	.long	.LBB9_227-.LJTI9_11
	.long	.LBB9_229-.LJTI9_11
	.long	.LBB9_247-.LJTI9_11
.LJTI9_12:
	.long	.LBB9_110-.LJTI9_12
	.long	.LBB9_147-.LJTI9_12
	.long	.LBB9_157-.LJTI9_12
	.long	.LBB9_1189-.LJTI9_12
	.long	.LBB9_1189-.LJTI9_12
	.long	.LBB9_1189-.LJTI9_12
	.long	.LBB9_1189-.LJTI9_12
	.long	.LBB9_1189-.LJTI9_12
.LJTI9_13:
	.long	.LBB9_2-.LJTI9_13
	.long	.LBB9_39-.LJTI9_13
	.long	.LBB9_49-.LJTI9_13
	.long	.LBB9_51-.LJTI9_13
	.long	.LBB9_85-.LJTI9_13
	.long	.LBB9_87-.LJTI9_13
	.long	.LBB9_89-.LJTI9_13
	.long	.LBB9_107-.LJTI9_13

	.section	".text$pix_raster::command::CommandReadDraw::read::<#880fe2ecd02fbeac>","xr"
	.p2align	4
"pix_raster::command::CommandReadDraw::read::<#880fe2ecd02fbeac>":
	pushq	%rsi
	subq	$48, %rsp
	xorps	%xmm0, %xmm0
	movaps	%xmm0, (%rsp)
	movaps	%xmm0, 16(%rsp)
	movaps	%xmm0, 32(%rsp)
	movzbl	(%rdx), %eax
	leaq	.LJTI10_0(%rip), %r8
	movslq	(%r8,%rax,4), %r9
	addq	%r8, %r9
	jmpq	*%r9
.LBB10_3:
	movdqu	4(%rdx), %xmm1
	addq	$20, %rdx
	movdqa	%xmm1, (%rsp)
	xorl	%r9d, %r9d
	xorl	%r11d, %r11d
	xorl	%r8d, %r8d
	jmp	.LBB10_2
.LBB10_6:
	leaq	48(%rdx), %r10
	movq	24(%rdx), %r8
	movq	(%r8), %xmm1
	movq	8(%r8), %rsi
	movq	16(%r8), %r8
	movups	4(%rdx), %xmm2
	movaps	%xmm2, (%rsp)
	movups	32(%rdx), %xmm2
	movaps	%xmm2, 16(%rsp)
	xorl	%r9d, %r9d
	xorl	%r11d, %r11d
	jmp	.LBB10_7
.LBB10_4:
	movq	24(%rdx), %r8
	movq	(%r8), %xmm1
	movq	8(%r8), %r10
	movq	16(%r8), %r8
	movups	4(%rdx), %xmm2
	movaps	%xmm2, (%rsp)
	movups	32(%rdx), %xmm2
	movaps	%xmm2, 16(%rsp)
	xorl	%r9d, %r9d
	xorl	%r11d, %r11d
	movq	%r10, %rdx
	xorl	%r10d, %r10d
	jmp	.LBB10_8
.LBB10_1:
	xorl	%edx, %edx
	movq	%rax, %r9
	movq	%rax, %r11
	movq	%rax, %r8
.LBB10_2:
	xorl	%r10d, %r10d
	pxor	%xmm1, %xmm1
	jmp	.LBB10_8
.LBB10_5:
	movq	24(%rdx), %r8
	movq	(%r8), %xmm1
	movq	8(%r8), %rsi
	movq	16(%r8), %r8
	movq	48(%rdx), %r9
	movsd	(%r9), %xmm0
	movl	(%r9), %r11d
	movq	8(%r9), %r10
	movq	16(%r9), %r9
	movups	4(%rdx), %xmm2
	movaps	%xmm2, (%rsp)
	movups	32(%rdx), %xmm2
	movaps	%xmm2, 16(%rsp)
	movups	56(%rdx), %xmm2
	movaps	%xmm2, 32(%rsp)
.LBB10_7:
	movq	%rsi, %rdx
.LBB10_8:
	movd	%xmm1, %esi
	movl	%eax, (%rcx)
	movaps	(%rsp), %xmm2
	movups	%xmm2, 4(%rcx)
	movq	%rdx, 24(%rcx)
	movq	%r8, 32(%rcx)
	movq	%xmm1, 40(%rcx)
	movq	%rsi, 48(%rcx)
	movaps	16(%rsp), %xmm1
	movups	%xmm1, 56(%rcx)
	movq	%r10, 72(%rcx)
	movq	%r9, 80(%rcx)
	movlps	%xmm0, 88(%rcx)
	movq	%r11, 96(%rcx)
	movaps	32(%rsp), %xmm0
	movups	%xmm0, 104(%rcx)
	addq	$48, %rsp
	popq	%rsi
	retq
	.section	".rdata$pix_raster::command::CommandReadDraw::read::<#880fe2ecd02fbeac>","dr"
	.p2align	2, 0x0
.LJTI10_0:
	.long	.LBB10_1-.LJTI10_0
	.long	.LBB10_3-.LJTI10_0
	.long	.LBB10_4-.LJTI10_0
	.long	.LBB10_3-.LJTI10_0
	.long	.LBB10_4-.LJTI10_0
	.long	.LBB10_6-.LJTI10_0
	.long	.LBB10_5-.LJTI10_0
	.long	.LBB10_6-.LJTI10_0

	.section	".text$pix_el::filled::clear_long::<#c0ead2364dd49755>","xr"
	.p2align	4
"pix_el::filled::clear_long::<#c0ead2364dd49755>":
	pushq	%rsi
	leaq	-16(%rdx), %rax
	movq	%rdx, %r9
	shrq	$4, %r9
	andl	$15, %edx
	cmpq	$1, %rdx
	sbbq	$-1, %r9
	movl	%r9d, %edx
	andl	$3, %edx
	cmpq	$4, %r9
	jae	.LBB11_2
	xorl	%r8d, %r8d
	jmp	.LBB11_5
.LBB11_2:
	movabsq	$2305843009213693948, %r8
	andq	%r8, %r9
	movl	$48, %r10d
	xorl	%r8d, %r8d
	.p2align	4
.LBB11_3:
	leaq	-48(%r10), %r11
	cmpq	%rax, %r11
	cmovaeq	%rax, %r11
	xorps	%xmm0, %xmm0
	movups	%xmm0, 48(%rcx,%r11,4)
	movups	%xmm0, 32(%rcx,%r11,4)
	movups	%xmm0, 16(%rcx,%r11,4)
	leaq	-32(%r10), %rsi
	cmpq	%rax, %rsi
	cmovaeq	%rax, %rsi
	movups	%xmm0, (%rcx,%r11,4)
	movups	%xmm0, 48(%rcx,%rsi,4)
	movups	%xmm0, 32(%rcx,%rsi,4)
	movups	%xmm0, 16(%rcx,%rsi,4)
	leaq	-16(%r10), %r11
	cmpq	%rax, %r11
	cmovaeq	%rax, %r11
	movups	%xmm0, (%rcx,%rsi,4)
	movups	%xmm0, 48(%rcx,%r11,4)
	movups	%xmm0, 32(%rcx,%r11,4)
	movups	%xmm0, 16(%rcx,%r11,4)
	cmpq	%rax, %r10
	movq	%rax, %rsi
	cmovbq	%r10, %rsi
	movups	%xmm0, (%rcx,%r11,4)
	movups	%xmm0, 48(%rcx,%rsi,4)
	movups	%xmm0, 32(%rcx,%rsi,4)
	movups	%xmm0, 16(%rcx,%rsi,4)
	movups	%xmm0, (%rcx,%rsi,4)
	addq	$4, %r8
	addq	$64, %r10
	cmpq	%r8, %r9
	jne	.LBB11_3
	testq	%rdx, %rdx
	je	.LBB11_7
.LBB11_5:
	shlq	$4, %r8
	.p2align	4
.LBB11_6:
	cmpq	%rax, %r8
	movq	%rax, %r9
	cmovbq	%r8, %r9
	xorps	%xmm0, %xmm0
	movups	%xmm0, 48(%rcx,%r9,4)
	movups	%xmm0, 32(%rcx,%r9,4)
	movups	%xmm0, 16(%rcx,%r9,4)
	movups	%xmm0, (%rcx,%r9,4)
	addq	$16, %r8
	decq	%rdx
	jne	.LBB11_6
.LBB11_7:
	popq	%rsi
	retq

	.section	".text$pix_raster::view::blit_overlap::<#93a319759576dea8>","xr"
	.p2align	4
"pix_raster::view::blit_overlap::<#93a319759576dea8>":
	pushq	%r15
	pushq	%r14
	pushq	%r13
	pushq	%r12
	pushq	%rsi
	pushq	%rdi
	pushq	%rbp
	pushq	%rbx
	subq	$88, %rsp
	movaps	%xmm7, 64(%rsp)
	movaps	%xmm6, 48(%rsp)
	movq	%rdx, %rsi
	movq	192(%rsp), %r10
	movq	24(%r10), %r15
	movq	32(%r10), %rdx
	movq	%rdx, %r12
	subq	%r15, %r12
	jbe	.LBB12_27
	movq	%r9, %rdi
	movq	(%r10), %rax
	movq	8(%r10), %r11
	movq	16(%r10), %r9
	movq	%r11, %rbx
	subq	%rax, %rbx
	movq	40(%r10), %r10
	leaq	-65(%rbx), %r14
	cmpq	$-58, %r14
	ja	.LBB12_4
	imulq	%rdi, %r10
	addq	%r10, %r9
	leaq	(%r8,%r9,4), %r14
	shlq	$2, %rdi
	imulq	%rsi, %r15
	addq	%r15, %rax
	leaq	(%rcx,%rax,4), %r15
	shlq	$2, %rsi
	.p2align	4
.LBB12_3:
	movq	%r15, %rcx
	movq	%rbx, %rdx
	movq	%r14, %r8
	movq	%rbx, %r9
	callq	"pix_el::filled::copy_any::<#223ae990351c5656>"
	addq	%rdi, %r14
	addq	%rsi, %r15
	decq	%r12
	jne	.LBB12_3
.LBB12_27:
	movaps	48(%rsp), %xmm6
	movaps	64(%rsp), %xmm7
	addq	$88, %rsp
	popq	%rbx
	popq	%rbp
	popq	%rdi
	popq	%rsi
	popq	%r12
	popq	%r13
	popq	%r14
	popq	%r15
	retq
.LBB12_4:
	cmpq	$33, %rbx
	jb	.LBB12_10
	movl	%edx, %ebp
	subl	%r15d, %ebp
	leaq	1(%r15), %r14
	movq	%r15, %r13
	testb	$1, %bpl
	je	.LBB12_7
	leaq	-128(,%rbx,4), %rbx
	movq	%r15, %r13
	imulq	%rsi, %r13
	addq	%rax, %r13
	movq	%r10, %rbp
	imulq	%rdi, %rbp
	addq	%r9, %rbp
	leaq	(%rcx,%r13,4), %r12
	leaq	(%r8,%rbp,4), %r14
	movups	(%r8,%rbp,4), %xmm0
	movups	16(%r8,%rbp,4), %xmm1
	movups	32(%r8,%rbp,4), %xmm2
	movups	48(%r8,%rbp,4), %xmm3
	movups	64(%r8,%rbp,4), %xmm4
	movups	80(%r8,%rbp,4), %xmm5
	movups	96(%r8,%rbp,4), %xmm6
	movups	112(%r8,%rbp,4), %xmm7
	movups	%xmm7, 112(%rcx,%r13,4)
	movups	%xmm6, 96(%rcx,%r13,4)
	movups	%xmm5, 80(%rcx,%r13,4)
	movups	%xmm4, 64(%rcx,%r13,4)
	movups	%xmm3, 48(%rcx,%r13,4)
	movups	%xmm2, 32(%rcx,%r13,4)
	movups	%xmm1, 16(%rcx,%r13,4)
	movups	%xmm0, (%rcx,%r13,4)
	movups	(%rbx,%r14), %xmm0
	movups	16(%rbx,%r14), %xmm1
	movups	32(%rbx,%r14), %xmm2
	movups	48(%rbx,%r14), %xmm3
	movups	64(%rbx,%r14), %xmm4
	movups	80(%rbx,%r14), %xmm5
	movups	96(%rbx,%r14), %xmm6
	movups	112(%rbx,%r14), %xmm7
	leaq	1(%r15), %r14
	movups	%xmm7, 112(%rbx,%r12)
	movups	%xmm6, 96(%rbx,%r12)
	movups	%xmm5, 80(%rbx,%r12)
	movups	%xmm4, 64(%rbx,%r12)
	movups	%xmm3, 48(%rbx,%r12)
	movups	%xmm2, 32(%rbx,%r12)
	movups	%xmm1, 16(%rbx,%r12)
	movups	%xmm0, (%rbx,%r12)
	movq	%r14, %r13
.LBB12_7:
	cmpq	%r14, %rdx
	je	.LBB12_27
	addq	%r13, %r10
	subq	%r15, %r10
	leaq	1(%r10), %r12
	imulq	%rdi, %r12
	leaq	(,%r11,4), %r15
	leaq	(%r15,%r12,4), %rbp
	movq	%r15, 40(%rsp)
	leaq	(,%rax,4), %rbx
	subq	%rbx, %rbp
	leaq	1(%r13), %r14
	imulq	%rsi, %r14
	leaq	(%r15,%r14,4), %rbx
	addq	$-128, %rbx
	leaq	(,%rax,4), %r15
	leaq	(%r15,%r14,4), %r14
	imulq	%rdi, %r10
	movq	%r11, 32(%rsp)
	movq	40(%rsp), %r11
	leaq	(%r11,%r10,4), %r11
	leaq	(,%rax,4), %r15
	subq	%r15, %r11
	leaq	(%r8,%rbp), %r15
	addq	$-128, %r15
	leaq	(%r8,%r12,4), %r12
	leaq	(%r8,%r10,4), %r10
	addq	%r11, %r8
	addq	$-128, %r8
	subq	%r13, %rdx
	imulq	%rsi, %r13
	addq	%r13, %rax
	addq	32(%rsp), %r13
	shlq	$2, %r9
	leaq	(,%rdi,8), %r11
	shlq	$3, %rsi
	shlq	$2, %rax
	leaq	-128(,%r13,4), %rdi
	.p2align	4
.LBB12_9:
	movups	(%r10,%r9), %xmm0
	movups	16(%r10,%r9), %xmm1
	movups	32(%r10,%r9), %xmm2
	movups	48(%r10,%r9), %xmm3
	movups	64(%r10,%r9), %xmm4
	movups	80(%r10,%r9), %xmm5
	movups	96(%r10,%r9), %xmm6
	movups	112(%r10,%r9), %xmm7
	movups	%xmm7, 112(%rcx,%rax)
	movups	%xmm6, 96(%rcx,%rax)
	movups	%xmm5, 80(%rcx,%rax)
	movups	%xmm4, 64(%rcx,%rax)
	movups	%xmm3, 48(%rcx,%rax)
	movups	%xmm2, 32(%rcx,%rax)
	movups	%xmm1, 16(%rcx,%rax)
	movups	%xmm0, (%rcx,%rax)
	movups	(%r8,%r9), %xmm0
	movups	16(%r8,%r9), %xmm1
	movups	32(%r8,%r9), %xmm2
	movups	48(%r8,%r9), %xmm3
	movups	64(%r8,%r9), %xmm4
	movups	80(%r8,%r9), %xmm5
	movups	96(%r8,%r9), %xmm6
	movups	112(%r8,%r9), %xmm7
	movups	%xmm7, 112(%rcx,%rdi)
	movups	%xmm6, 96(%rcx,%rdi)
	movups	%xmm5, 80(%rcx,%rdi)
	movups	%xmm4, 64(%rcx,%rdi)
	movups	%xmm3, 48(%rcx,%rdi)
	movups	%xmm2, 32(%rcx,%rdi)
	movups	%xmm1, 16(%rcx,%rdi)
	movups	%xmm0, (%rcx,%rdi)
	movups	(%r12,%r9), %xmm0
	movups	16(%r12,%r9), %xmm1
	movups	32(%r12,%r9), %xmm2
	movups	48(%r12,%r9), %xmm3
	movups	64(%r12,%r9), %xmm4
	movups	80(%r12,%r9), %xmm5
	movups	96(%r12,%r9), %xmm6
	movups	112(%r12,%r9), %xmm7
	movups	%xmm7, 112(%rcx,%r14)
	movups	%xmm6, 96(%rcx,%r14)
	movups	%xmm5, 80(%rcx,%r14)
	movups	%xmm4, 64(%rcx,%r14)
	movups	%xmm3, 48(%rcx,%r14)
	movups	%xmm2, 32(%rcx,%r14)
	movups	%xmm1, 16(%rcx,%r14)
	movups	%xmm0, (%rcx,%r14)
	movups	(%r15,%r9), %xmm0
	movups	16(%r15,%r9), %xmm1
	movups	32(%r15,%r9), %xmm2
	movups	48(%r15,%r9), %xmm3
	movups	64(%r15,%r9), %xmm4
	movups	80(%r15,%r9), %xmm5
	movups	96(%r15,%r9), %xmm6
	movups	112(%r15,%r9), %xmm7
	movups	%xmm7, 112(%rcx,%rbx)
	movups	%xmm6, 96(%rcx,%rbx)
	movups	%xmm5, 80(%rcx,%rbx)
	movups	%xmm4, 64(%rcx,%rbx)
	movups	%xmm3, 48(%rcx,%rbx)
	movups	%xmm2, 32(%rcx,%rbx)
	movups	%xmm1, 16(%rcx,%rbx)
	movups	%xmm0, (%rcx,%rbx)
	addq	%r11, %r15
	addq	%r11, %r12
	addq	%rsi, %rcx
	addq	%r11, %r10
	addq	%r11, %r8
	addq	$-2, %rdx
	jne	.LBB12_9
	jmp	.LBB12_27
.LBB12_10:
	cmpq	$17, %rbx
	jae	.LBB12_11
	cmpq	$8, %rbx
	jbe	.LBB12_17
	movq	%r11, %r14
	movl	%edx, %r11d
	subl	%r15d, %r11d
	leaq	1(%r15), %r12
	movq	%r15, %r13
	testb	$1, %r11b
	je	.LBB12_24
	leaq	-32(,%rbx,4), %r11
	movq	%r15, %rbx
	imulq	%rsi, %rbx
	addq	%rax, %rbx
	movq	%r10, %r12
	imulq	%rdi, %r12
	addq	%r9, %r12
	leaq	(%rcx,%rbx,4), %r13
	leaq	(%r8,%r12,4), %rbp
	movups	(%r8,%r12,4), %xmm0
	movups	16(%r8,%r12,4), %xmm1
	leaq	1(%r15), %r12
	movups	%xmm1, 16(%rcx,%rbx,4)
	movups	%xmm0, (%rcx,%rbx,4)
	movups	(%r11,%rbp), %xmm0
	movups	16(%r11,%rbp), %xmm1
	movups	%xmm1, 16(%r11,%r13)
	movups	%xmm0, (%r11,%r13)
	movq	%r12, %r13
.LBB12_24:
	cmpq	%r12, %rdx
	je	.LBB12_27
	addq	%r13, %r10
	subq	%r15, %r10
	leaq	1(%r10), %r12
	imulq	%rdi, %r12
	movq	%r14, 32(%rsp)
	leaq	(,%r14,4), %r11
	leaq	(%r11,%r12,4), %r15
	leaq	(,%rax,4), %rbx
	subq	%rbx, %r15
	leaq	1(%r13), %r14
	imulq	%rsi, %r14
	leaq	(%r11,%r14,4), %rbx
	addq	$-32, %rbx
	leaq	(,%rax,4), %rbp
	leaq	(,%r14,4), %r14
	addq	%rbp, %r14
	imulq	%rdi, %r10
	leaq	(%r11,%r10,4), %r11
	leaq	(,%rax,4), %rbp
	subq	%rbp, %r11
	addq	%r8, %r15
	addq	$-32, %r15
	leaq	(%r8,%r12,4), %r12
	leaq	(%r8,%r10,4), %r10
	addq	%r11, %r8
	addq	$-32, %r8
	subq	%r13, %rdx
	imulq	%rsi, %r13
	addq	%r13, %rax
	addq	32(%rsp), %r13
	shlq	$2, %r9
	leaq	(,%rdi,8), %r11
	shlq	$3, %rsi
	shlq	$2, %rax
	leaq	-32(,%r13,4), %rdi
	.p2align	4
.LBB12_26:
	movups	(%r10,%r9), %xmm0
	movups	16(%r10,%r9), %xmm1
	movups	%xmm1, 16(%rcx,%rax)
	movups	%xmm0, (%rcx,%rax)
	movups	(%r8,%r9), %xmm0
	movups	16(%r8,%r9), %xmm1
	movups	%xmm1, 16(%rcx,%rdi)
	movups	%xmm0, (%rcx,%rdi)
	movups	(%r12,%r9), %xmm0
	movups	16(%r12,%r9), %xmm1
	movups	%xmm1, 16(%rcx,%r14)
	movups	%xmm0, (%rcx,%r14)
	movups	(%r15,%r9), %xmm0
	movups	16(%r15,%r9), %xmm1
	movups	%xmm1, 16(%rcx,%rbx)
	movups	%xmm0, (%rcx,%rbx)
	addq	%r11, %r15
	addq	%r11, %r12
	addq	%rsi, %rcx
	addq	%r11, %r10
	addq	%r11, %r8
	addq	$-2, %rdx
	jne	.LBB12_26
	jmp	.LBB12_27
.LBB12_11:
	movq	%r11, %r14
	movl	%edx, %r11d
	subl	%r15d, %r11d
	leaq	1(%r15), %r13
	movq	%r15, %r12
	testb	$1, %r11b
	je	.LBB12_13
	leaq	-64(,%rbx,4), %r11
	movq	%r15, %rbx
	imulq	%rsi, %rbx
	addq	%rax, %rbx
	movq	%r10, %r12
	imulq	%rdi, %r12
	addq	%r9, %r12
	leaq	(%rcx,%rbx,4), %r13
	leaq	(%r8,%r12,4), %rbp
	movups	(%r8,%r12,4), %xmm0
	movups	16(%r8,%r12,4), %xmm1
	movups	32(%r8,%r12,4), %xmm2
	movups	48(%r8,%r12,4), %xmm3
	movups	%xmm3, 48(%rcx,%rbx,4)
	movups	%xmm2, 32(%rcx,%rbx,4)
	movups	%xmm1, 16(%rcx,%rbx,4)
	movups	%xmm0, (%rcx,%rbx,4)
	movups	(%r11,%rbp), %xmm0
	movups	16(%r11,%rbp), %xmm1
	movups	32(%r11,%rbp), %xmm2
	movups	48(%r11,%rbp), %xmm3
	movups	%xmm3, 48(%r11,%r13)
	movups	%xmm2, 32(%r11,%r13)
	movups	%xmm1, 16(%r11,%r13)
	movups	%xmm0, (%r11,%r13)
	leaq	1(%r15), %r13
	movq	%r13, %r12
.LBB12_13:
	cmpq	%r13, %rdx
	je	.LBB12_27
	movq	%r14, %r11
	subq	%r12, %rdx
	addq	%r12, %r10
	subq	%r15, %r10
	leaq	1(%r10), %r15
	imulq	%rdi, %r15
	leaq	(,%r14,4), %r13
	leaq	(,%r15,4), %r14
	addq	%r13, %r14
	leaq	(,%rax,4), %rbp
	subq	%rbp, %r14
	leaq	1(%r12), %rbx
	imulq	%rsi, %rbx
	imulq	%rsi, %r12
	addq	%r12, %rax
	addq	%r11, %r12
	leaq	-64(,%rbx,4), %r11
	addq	%r13, %r11
	leaq	(,%rbx,4), %rbx
	addq	%rbp, %rbx
	imulq	%rdi, %r10
	leaq	(%r13,%r10,4), %r13
	subq	%rbp, %r13
	addq	%r8, %r14
	addq	$-64, %r14
	leaq	(%r8,%r15,4), %r15
	leaq	(%r8,%r10,4), %r10
	addq	%r13, %r8
	addq	$-64, %r8
	shlq	$2, %r9
	leaq	(,%rdi,8), %rdi
	shlq	$3, %rsi
	shlq	$2, %rax
	leaq	-64(,%r12,4), %r12
	.p2align	4
.LBB12_15:
	movups	(%r10,%r9), %xmm0
	movups	16(%r10,%r9), %xmm1
	movups	32(%r10,%r9), %xmm2
	movups	48(%r10,%r9), %xmm3
	movups	%xmm3, 48(%rcx,%rax)
	movups	%xmm2, 32(%rcx,%rax)
	movups	%xmm1, 16(%rcx,%rax)
	movups	%xmm0, (%rcx,%rax)
	movups	(%r8,%r9), %xmm0
	movups	16(%r8,%r9), %xmm1
	movups	32(%r8,%r9), %xmm2
	movups	48(%r8,%r9), %xmm3
	movups	%xmm3, 48(%rcx,%r12)
	movups	%xmm2, 32(%rcx,%r12)
	movups	%xmm1, 16(%rcx,%r12)
	movups	%xmm0, (%rcx,%r12)
	movups	(%r15,%r9), %xmm0
	movups	16(%r15,%r9), %xmm1
	movups	32(%r15,%r9), %xmm2
	movups	48(%r15,%r9), %xmm3
	movups	%xmm3, 48(%rcx,%rbx)
	movups	%xmm2, 32(%rcx,%rbx)
	movups	%xmm1, 16(%rcx,%rbx)
	movups	%xmm0, (%rcx,%rbx)
	movups	(%r14,%r9), %xmm0
	movups	16(%r14,%r9), %xmm1
	movups	32(%r14,%r9), %xmm2
	movups	48(%r14,%r9), %xmm3
	movups	%xmm3, 48(%rcx,%r11)
	movups	%xmm2, 32(%rcx,%r11)
	movups	%xmm1, 16(%rcx,%r11)
	movups	%xmm0, (%rcx,%r11)
	addq	%rdi, %r14
	addq	%rdi, %r15
	addq	%rsi, %rcx
	addq	%rdi, %r10
	addq	%rdi, %r8
	addq	$-2, %rdx
	jne	.LBB12_15
	jmp	.LBB12_27
.LBB12_17:
	movl	%edx, %ebx
	subl	%r15d, %ebx
	leaq	1(%r15), %r11
	movq	%r15, %r14
	testb	$1, %bl
	je	.LBB12_19
	movq	%r15, %rbx
	imulq	%rsi, %rbx
	addq	%rax, %rbx
	movq	%r10, %r14
	imulq	%rdi, %r14
	addq	%r9, %r14
	movups	(%r8,%r14,4), %xmm0
	movups	16(%r8,%r14,4), %xmm1
	movups	%xmm1, 16(%rcx,%rbx,4)
	movups	%xmm0, (%rcx,%rbx,4)
	movq	%r11, %r14
.LBB12_19:
	cmpq	%r11, %rdx
	je	.LBB12_27
	subq	%r14, %rdx
	addq	%r14, %r10
	subq	%r15, %r10
	leaq	1(%r10), %r11
	imulq	%rdi, %r11
	shlq	$2, %r11
	leaq	(%r8,%r9,4), %r8
	leaq	(,%rdi,8), %r9
	leaq	1(%r14), %rbx
	imulq	%rsi, %rbx
	leaq	(%rcx,%rbx,4), %rbx
	shlq	$2, %rax
	imulq	%rdi, %r10
	shlq	$2, %r10
	imulq	%rsi, %r14
	shlq	$3, %rsi
	leaq	(%rcx,%r14,4), %rcx
	.p2align	4
.LBB12_21:
	movups	(%r8,%r10), %xmm0
	movups	16(%r8,%r10), %xmm1
	movups	%xmm1, 16(%rcx,%rax)
	movups	%xmm0, (%rcx,%rax)
	movups	(%r8,%r11), %xmm0
	movups	16(%r8,%r11), %xmm1
	movups	%xmm1, 16(%rbx,%rax)
	movups	%xmm0, (%rbx,%rax)
	addq	%r9, %r8
	addq	%rsi, %rax
	addq	$-2, %rdx
	jne	.LBB12_21
	jmp	.LBB12_27

	.section	".text$pix_el::filled::copy_any::<#223ae990351c5656>","xr"
	.p2align	4
"pix_el::filled::copy_any::<#223ae990351c5656>":
	cmpq	%rdx, %r9
	cmovbq	%r9, %rdx
	leaq	(,%rdx,4), %rax
	movq	%rcx, %r9
	subq	%r8, %r9
	cmpq	%rax, %r9
	jae	.LBB13_13
	testq	%rdx, %rdx
	je	.LBB13_12
	cmpq	$8, %rdx
	setb	%al
	cmpq	$32, %r9
	setb	%r9b
	orb	%al, %r9b
	je	.LBB13_4
	xorl	%eax, %eax
	jmp	.LBB13_7
.LBB13_13:
	movq	%r8, %rdx
	movq	%rax, %r8
	jmp	memmove
.LBB13_4:
	movq	%rdx, %rax
	andq	$-8, %rax
	xorl	%r9d, %r9d
	.p2align	4
.LBB13_5:
	movups	(%r8,%r9,4), %xmm0
	movups	16(%r8,%r9,4), %xmm1
	movups	%xmm0, (%rcx,%r9,4)
	movups	%xmm1, 16(%rcx,%r9,4)
	addq	$8, %r9
	cmpq	%r9, %rax
	jne	.LBB13_5
	cmpq	%rax, %rdx
	je	.LBB13_12
.LBB13_7:
	movq	%rdx, %r10
	movq	%rax, %r9
	andq	$3, %r10
	je	.LBB13_10
	movq	%rax, %r9
	.p2align	4
.LBB13_9:
	movl	(%r8,%r9,4), %r11d
	movl	%r11d, (%rcx,%r9,4)
	incq	%r9
	decq	%r10
	jne	.LBB13_9
.LBB13_10:
	subq	%rdx, %rax
	cmpq	$-4, %rax
	ja	.LBB13_12
	.p2align	4
.LBB13_11:
	movl	(%r8,%r9,4), %eax
	movl	%eax, (%rcx,%r9,4)
	movl	4(%r8,%r9,4), %eax
	movl	%eax, 4(%rcx,%r9,4)
	movl	8(%r8,%r9,4), %eax
	movl	%eax, 8(%rcx,%r9,4)
	movl	12(%r8,%r9,4), %eax
	movl	%eax, 12(%rcx,%r9,4)
	addq	$4, %r9
	cmpq	%r9, %rdx
	jne	.LBB13_11
.LBB13_12:
	retq

	.section	".text$pix_raster::view::blit_overlap::<#c5cfb15747d2bb36>","xr"
	.p2align	4
"pix_raster::view::blit_overlap::<#c5cfb15747d2bb36>":
	pushq	%r15
	pushq	%r14
	pushq	%r13
	pushq	%r12
	pushq	%rsi
	pushq	%rdi
	pushq	%rbp
	pushq	%rbx
	subq	$168, %rsp
	movaps	%xmm7, 144(%rsp)
	movaps	%xmm6, 128(%rsp)
	movq	%r8, 40(%rsp)
	movq	%rcx, 48(%rsp)
	movq	272(%rsp), %rax
	movq	24(%rax), %r10
	movq	32(%rax), %rsi
	movq	%rsi, 32(%rsp)
	subq	%r10, %rsi
	jbe	.LBB14_44
	movq	%r9, %r12
	movq	%rdx, %r13
	movq	(%rax), %rdi
	movq	8(%rax), %r14
	movq	16(%rax), %rdx
	movq	%r14, %rbx
	subq	%rdi, %rbx
	movq	40(%rax), %rbp
	cmpq	$257, %rbx
	movq	%rdi, 56(%rsp)
	movq	%rbx, 64(%rsp)
	jae	.LBB14_2
	leaq	-65(%rbx), %rax
	cmpq	$-58, %rax
	movq	48(%rsp), %rcx
	ja	.LBB14_8
	imulq	%r12, %rbp
	addq	%rbp, %rdx
	movq	40(%rsp), %rax
	leaq	(%rax,%rdx,4), %r14
	shlq	$2, %r12
	imulq	%r13, %r10
	addq	%r10, %rdi
	leaq	(%rcx,%rdi,4), %r15
	shlq	$2, %r13
	.p2align	4
.LBB14_7:
	movq	%r15, %rcx
	movq	64(%rsp), %rdx
	movq	%r14, %r8
	movq	%rdx, %r9
	callq	"pix_el::filled::copy_any::<#223ae990351c5656>"
	addq	%r12, %r14
	addq	%r13, %r15
	decq	%rsi
	jne	.LBB14_7
.LBB14_44:
	movaps	128(%rsp), %xmm6
	movaps	144(%rsp), %xmm7
	addq	$168, %rsp
	popq	%rbx
	popq	%rbp
	popq	%rdi
	popq	%rsi
	popq	%r12
	popq	%r13
	popq	%r14
	popq	%r15
	retq
.LBB14_2:
	movq	%rbp, %rax
	subq	%r10, %rax
	movq	%rax, 120(%rsp)
	movq	%rbx, %r15
	shrq	$4, %r15
	movq	%rbx, %rax
	andq	$-16, %rax
	movq	%rax, 112(%rsp)
	leaq	(,%rax,4), %rax
	movq	%rax, 72(%rsp)
	movq	%rbp, %rsi
	movl	%ebx, %ebp
	andl	$15, %ebp
	leaq	(,%rbx,4), %rax
	andl	$32, %eax
	movq	%rax, 88(%rsp)
	andl	$12, %ebx
	movq	%r15, 80(%rsp)
	andq	$-2, %r15
	movq	%r10, %rax
	imulq	%r13, %rax
	leaq	(,%rdi,4), %r8
	leaq	(%r8,%rax,4), %r8
	addq	48(%rsp), %r8
	leaq	(,%r13,4), %rcx
	movq	%rcx, 104(%rsp)
	imulq	%r12, %rsi
	leaq	(,%rdx,4), %r9
	leaq	(%r9,%rsi,4), %r11
	movq	40(%rsp), %r14
	addq	%r14, %r11
	movq	72(%rsp), %rcx
	leaq	(%rcx,%rsi,4), %r9
	movq	64(%rsp), %rsi
	leal	(,%rsi,4), %esi
	andl	$48, %esi
	addq	%rsi, %r9
	leaq	(%rcx,%rax,4), %rdi
	addq	%rsi, %rdi
	leaq	(,%r12,4), %rax
	movq	%rax, 96(%rsp)
	leaq	(%r9,%rdx,4), %rax
	addq	%r14, %rax
	movq	56(%rsp), %r9
	leaq	(%rdi,%r9,4), %r14
	movq	56(%rsp), %rcx
	addq	48(%rsp), %r14
	jmp	.LBB14_3
	.p2align	4
.LBB14_43:
	incq	%r10
	movq	104(%rsp), %r9
	addq	%r9, %r8
	movq	96(%rsp), %rsi
	addq	%rsi, %r11
	addq	%rsi, %rax
	addq	%r9, %r14
	cmpq	32(%rsp), %r10
	je	.LBB14_44
.LBB14_3:
	movq	%r10, %r9
	imulq	%r13, %r9
	addq	%rcx, %r9
	movq	120(%rsp), %rsi
	addq	%r10, %rsi
	imulq	%r12, %rsi
	addq	%rdx, %rsi
	movq	48(%rsp), %rcx
	leaq	(%rcx,%r9,4), %r9
	movq	40(%rsp), %rdi
	leaq	(%rdi,%rsi,4), %rsi
	cmpq	$1, 80(%rsp)
	jne	.LBB14_31
	xorl	%edi, %edi
	jmp	.LBB14_34
	.p2align	4
.LBB14_31:
	movq	%r12, %rcx
	movq	%rdx, %r12
	movq	%r13, %rdx
	movl	$112, %r13d
	xorl	%edi, %edi
	.p2align	4
.LBB14_32:
	movups	-112(%r11,%r13), %xmm0
	movups	-96(%r11,%r13), %xmm1
	movups	%xmm0, -112(%r8,%r13)
	movups	%xmm1, -96(%r8,%r13)
	movups	-80(%r11,%r13), %xmm0
	movups	-64(%r11,%r13), %xmm1
	movups	%xmm0, -80(%r8,%r13)
	movups	%xmm1, -64(%r8,%r13)
	movups	-48(%r11,%r13), %xmm0
	movups	-32(%r11,%r13), %xmm1
	movups	%xmm0, -48(%r8,%r13)
	movups	%xmm1, -32(%r8,%r13)
	movups	-16(%r11,%r13), %xmm0
	movups	(%r11,%r13), %xmm1
	movups	%xmm0, -16(%r8,%r13)
	movups	%xmm1, (%r8,%r13)
	addq	$2, %rdi
	subq	$-128, %r13
	cmpq	%rdi, %r15
	jne	.LBB14_32
	testb	$1, 80(%rsp)
	movq	%rdx, %r13
	movq	%r12, %rdx
	movq	%rcx, %r12
	je	.LBB14_35
.LBB14_34:
	shlq	$6, %rdi
	movups	(%rsi,%rdi), %xmm0
	movups	16(%rsi,%rdi), %xmm1
	movups	%xmm0, (%r9,%rdi)
	movups	%xmm1, 16(%r9,%rdi)
	movups	32(%rsi,%rdi), %xmm0
	movups	48(%rsi,%rdi), %xmm1
	movups	%xmm0, 32(%r9,%rdi)
	movups	%xmm1, 48(%r9,%rdi)
.LBB14_35:
	movq	112(%rsp), %rdi
	cmpq	64(%rsp), %rdi
	movq	56(%rsp), %rcx
	je	.LBB14_43
	movq	%rdx, %rdi
	movq	%r12, %rdx
	movq	%r13, %r12
	movq	72(%rsp), %r13
	addq	%r13, %r9
	addq	%r13, %rsi
	testb	$8, 64(%rsp)
	je	.LBB14_38
	movups	(%rsi), %xmm0
	movups	16(%rsi), %xmm1
	movups	%xmm0, (%r9)
	movups	%xmm1, 16(%r9)
.LBB14_38:
	testb	$4, 64(%rsp)
	je	.LBB14_40
	movq	88(%rsp), %r13
	movups	(%rsi,%r13), %xmm0
	movups	%xmm0, (%r9,%r13)
.LBB14_40:
	cmpl	%ebp, %ebx
	movq	%r12, %r13
	movq	%rdx, %r12
	movq	%rdi, %rdx
	je	.LBB14_43
	xorl	%r9d, %r9d
	.p2align	4
.LBB14_42:
	movl	(%rax,%r9,4), %esi
	movl	%esi, (%r14,%r9,4)
	leaq	(%rbx,%r9), %rsi
	incq	%rsi
	incq	%r9
	cmpq	%rbp, %rsi
	jb	.LBB14_42
	jmp	.LBB14_43
.LBB14_8:
	cmpq	$33, %rbx
	jb	.LBB14_14
	movq	32(%rsp), %rax
	movl	%eax, %r9d
	subl	%r10d, %r9d
	leaq	1(%r10), %rax
	movq	%r10, %r8
	testb	$1, %r9b
	je	.LBB14_11
	leaq	-128(,%rbx,4), %r8
	movq	%r10, %r11
	imulq	%r13, %r11
	addq	%rdi, %r11
	movq	%rbp, %rsi
	imulq	%r12, %rsi
	addq	%rdx, %rsi
	leaq	(%rcx,%r11,4), %r9
	movq	40(%rsp), %rbx
	leaq	(%rbx,%rsi,4), %rdi
	movups	(%rbx,%rsi,4), %xmm0
	movups	16(%rbx,%rsi,4), %xmm1
	movups	32(%rbx,%rsi,4), %xmm2
	movups	48(%rbx,%rsi,4), %xmm3
	movups	64(%rbx,%rsi,4), %xmm4
	movups	80(%rbx,%rsi,4), %xmm5
	movups	96(%rbx,%rsi,4), %xmm6
	movups	112(%rbx,%rsi,4), %xmm7
	movups	%xmm7, 112(%rcx,%r11,4)
	movups	%xmm6, 96(%rcx,%r11,4)
	movups	%xmm5, 80(%rcx,%r11,4)
	movups	%xmm4, 64(%rcx,%r11,4)
	movups	%xmm3, 48(%rcx,%r11,4)
	movups	%xmm2, 32(%rcx,%r11,4)
	movups	%xmm1, 16(%rcx,%r11,4)
	movups	%xmm0, (%rcx,%r11,4)
	movups	(%r8,%rdi), %xmm0
	movups	16(%r8,%rdi), %xmm1
	movups	32(%r8,%rdi), %xmm2
	movups	48(%r8,%rdi), %xmm3
	movups	64(%r8,%rdi), %xmm4
	movups	80(%r8,%rdi), %xmm5
	movups	96(%r8,%rdi), %xmm6
	movups	112(%r8,%rdi), %xmm7
	movq	56(%rsp), %rdi
	movups	%xmm7, 112(%r8,%r9)
	movups	%xmm6, 96(%r8,%r9)
	movups	%xmm5, 80(%r8,%r9)
	movups	%xmm4, 64(%r8,%r9)
	movups	%xmm3, 48(%r8,%r9)
	movups	%xmm2, 32(%r8,%r9)
	movups	%xmm1, 16(%r8,%r9)
	movups	%xmm0, (%r8,%r9)
	movq	%rax, %r8
.LBB14_11:
	cmpq	%rax, 32(%rsp)
	je	.LBB14_44
	addq	%r8, %rbp
	subq	%r10, %rbp
	leaq	1(%rbp), %r11
	imulq	%r12, %r11
	leaq	(,%r14,4), %r10
	leaq	(%r10,%r11,4), %rsi
	movq	%rdi, %r15
	leaq	(,%rdi,4), %rdi
	subq	%rdi, %rsi
	leaq	1(%r8), %r9
	imulq	%r13, %r9
	leaq	(%r10,%r9,4), %rax
	addq	$-128, %rax
	leaq	(%rdi,%r9,4), %r9
	imulq	%r12, %rbp
	leaq	(%r10,%rbp,4), %rbx
	subq	%rdi, %rbx
	movq	40(%rsp), %rdi
	leaq	(%rsi,%rdi), %r10
	addq	$-128, %r10
	leaq	(%rdi,%r11,4), %r11
	leaq	(%rbx,%rdi), %rsi
	addq	$-128, %rsi
	leaq	(%rdi,%rbp,4), %rdi
	subq	%r8, 32(%rsp)
	imulq	%r13, %r8
	addq	%r8, %r14
	addq	%r15, %r8
	shlq	$2, %rdx
	leaq	(,%r12,8), %rbx
	shlq	$3, %r13
	leaq	-128(,%r14,4), %r14
	shlq	$2, %r8
	.p2align	4
.LBB14_13:
	movups	(%rdi,%rdx), %xmm0
	movups	16(%rdi,%rdx), %xmm1
	movups	32(%rdi,%rdx), %xmm2
	movups	48(%rdi,%rdx), %xmm3
	movups	64(%rdi,%rdx), %xmm4
	movups	80(%rdi,%rdx), %xmm5
	movups	96(%rdi,%rdx), %xmm6
	movups	112(%rdi,%rdx), %xmm7
	movq	48(%rsp), %rcx
	movups	%xmm7, 112(%rcx,%r8)
	movups	%xmm6, 96(%rcx,%r8)
	movups	%xmm5, 80(%rcx,%r8)
	movups	%xmm4, 64(%rcx,%r8)
	movups	%xmm3, 48(%rcx,%r8)
	movups	%xmm2, 32(%rcx,%r8)
	movups	%xmm1, 16(%rcx,%r8)
	movups	%xmm0, (%rcx,%r8)
	movups	(%rsi,%rdx), %xmm0
	movups	16(%rsi,%rdx), %xmm1
	movups	32(%rsi,%rdx), %xmm2
	movups	48(%rsi,%rdx), %xmm3
	movups	64(%rsi,%rdx), %xmm4
	movups	80(%rsi,%rdx), %xmm5
	movups	96(%rsi,%rdx), %xmm6
	movups	112(%rsi,%rdx), %xmm7
	movups	%xmm7, 112(%rcx,%r14)
	movups	%xmm6, 96(%rcx,%r14)
	movups	%xmm5, 80(%rcx,%r14)
	movups	%xmm4, 64(%rcx,%r14)
	movups	%xmm3, 48(%rcx,%r14)
	movups	%xmm2, 32(%rcx,%r14)
	movups	%xmm1, 16(%rcx,%r14)
	movups	%xmm0, (%rcx,%r14)
	movups	(%r11,%rdx), %xmm0
	movups	16(%r11,%rdx), %xmm1
	movups	32(%r11,%rdx), %xmm2
	movups	48(%r11,%rdx), %xmm3
	movups	64(%r11,%rdx), %xmm4
	movups	80(%r11,%rdx), %xmm5
	movups	96(%r11,%rdx), %xmm6
	movups	112(%r11,%rdx), %xmm7
	movups	%xmm7, 112(%rcx,%r9)
	movups	%xmm6, 96(%rcx,%r9)
	movups	%xmm5, 80(%rcx,%r9)
	movups	%xmm4, 64(%rcx,%r9)
	movups	%xmm3, 48(%rcx,%r9)
	movups	%xmm2, 32(%rcx,%r9)
	movups	%xmm1, 16(%rcx,%r9)
	movups	%xmm0, (%rcx,%r9)
	movups	(%r10,%rdx), %xmm0
	movups	16(%r10,%rdx), %xmm1
	movups	32(%r10,%rdx), %xmm2
	movups	48(%r10,%rdx), %xmm3
	movups	64(%r10,%rdx), %xmm4
	movups	80(%r10,%rdx), %xmm5
	movups	96(%r10,%rdx), %xmm6
	movups	112(%r10,%rdx), %xmm7
	movups	%xmm7, 112(%rcx,%rax)
	movups	%xmm6, 96(%rcx,%rax)
	movups	%xmm5, 80(%rcx,%rax)
	movups	%xmm4, 64(%rcx,%rax)
	movups	%xmm3, 48(%rcx,%rax)
	movups	%xmm2, 32(%rcx,%rax)
	movups	%xmm1, 16(%rcx,%rax)
	movups	%xmm0, (%rcx,%rax)
	addq	%rbx, %r10
	addq	%rbx, %r11
	addq	%r13, %rcx
	movq	%rcx, 48(%rsp)
	addq	%rbx, %rsi
	addq	%rbx, %rdi
	addq	$-2, 32(%rsp)
	jne	.LBB14_13
	jmp	.LBB14_44
.LBB14_14:
	cmpq	$17, %rbx
	jae	.LBB14_15
	cmpq	$8, %rbx
	jbe	.LBB14_21
	movq	32(%rsp), %rax
	movl	%eax, %r9d
	subl	%r10d, %r9d
	leaq	1(%r10), %r8
	movq	%r10, %rax
	testb	$1, %r9b
	je	.LBB14_28
	leaq	-32(,%rbx,4), %rax
	movq	%r10, %r9
	imulq	%r13, %r9
	addq	%rdi, %r9
	movq	%rbp, %r11
	imulq	%r12, %r11
	addq	%rdx, %r11
	leaq	(%rcx,%r9,4), %rsi
	movq	40(%rsp), %rbx
	leaq	(%rbx,%r11,4), %rdi
	movups	(%rbx,%r11,4), %xmm0
	movups	16(%rbx,%r11,4), %xmm1
	movups	%xmm1, 16(%rcx,%r9,4)
	movups	%xmm0, (%rcx,%r9,4)
	movups	(%rax,%rdi), %xmm0
	movups	16(%rax,%rdi), %xmm1
	movq	56(%rsp), %rdi
	movups	%xmm1, 16(%rax,%rsi)
	movups	%xmm0, (%rax,%rsi)
	movq	%r8, %rax
.LBB14_28:
	cmpq	%r8, 32(%rsp)
	je	.LBB14_44
	addq	%rax, %rbp
	subq	%r10, %rbp
	leaq	1(%rbp), %r11
	imulq	%r12, %r11
	leaq	(,%r14,4), %r10
	leaq	(%r10,%r11,4), %rsi
	movq	%rdi, %r15
	leaq	(,%rdi,4), %rdi
	subq	%rdi, %rsi
	leaq	1(%rax), %r9
	imulq	%r13, %r9
	leaq	(%r10,%r9,4), %r8
	addq	$-32, %r8
	leaq	(%rdi,%r9,4), %r9
	imulq	%r12, %rbp
	leaq	(%r10,%rbp,4), %rbx
	subq	%rdi, %rbx
	movq	40(%rsp), %rdi
	leaq	(%rsi,%rdi), %r10
	addq	$-32, %r10
	leaq	(%rdi,%r11,4), %r11
	leaq	(%rbx,%rdi), %rsi
	addq	$-32, %rsi
	leaq	(%rdi,%rbp,4), %rdi
	subq	%rax, 32(%rsp)
	imulq	%r13, %rax
	addq	%rax, %r14
	addq	%r15, %rax
	shlq	$2, %rdx
	leaq	(,%r12,8), %rbx
	shlq	$3, %r13
	leaq	-32(,%r14,4), %r14
	shlq	$2, %rax
	.p2align	4
.LBB14_30:
	movups	(%rdi,%rdx), %xmm0
	movups	16(%rdi,%rdx), %xmm1
	movq	48(%rsp), %rcx
	movups	%xmm1, 16(%rcx,%rax)
	movups	%xmm0, (%rcx,%rax)
	movups	(%rsi,%rdx), %xmm0
	movups	16(%rsi,%rdx), %xmm1
	movups	%xmm1, 16(%rcx,%r14)
	movups	%xmm0, (%rcx,%r14)
	movups	(%r11,%rdx), %xmm0
	movups	16(%r11,%rdx), %xmm1
	movups	%xmm1, 16(%rcx,%r9)
	movups	%xmm0, (%rcx,%r9)
	movups	(%r10,%rdx), %xmm0
	movups	16(%r10,%rdx), %xmm1
	movups	%xmm1, 16(%rcx,%r8)
	movups	%xmm0, (%rcx,%r8)
	addq	%rbx, %r10
	addq	%rbx, %r11
	addq	%r13, %rcx
	movq	%rcx, 48(%rsp)
	addq	%rbx, %rsi
	addq	%rbx, %rdi
	addq	$-2, 32(%rsp)
	jne	.LBB14_30
	jmp	.LBB14_44
.LBB14_15:
	movq	32(%rsp), %rax
	movl	%eax, %r9d
	subl	%r10d, %r9d
	leaq	1(%r10), %r8
	movq	%r10, %rax
	testb	$1, %r9b
	je	.LBB14_17
	leaq	-64(,%rbx,4), %rax
	movq	%r10, %r9
	imulq	%r13, %r9
	addq	%rdi, %r9
	movq	%rbp, %r11
	imulq	%r12, %r11
	addq	%rdx, %r11
	leaq	(%rcx,%r9,4), %rsi
	movq	40(%rsp), %rbx
	leaq	(%rbx,%r11,4), %rdi
	movups	(%rbx,%r11,4), %xmm0
	movups	16(%rbx,%r11,4), %xmm1
	movups	32(%rbx,%r11,4), %xmm2
	movups	48(%rbx,%r11,4), %xmm3
	movups	%xmm3, 48(%rcx,%r9,4)
	movups	%xmm2, 32(%rcx,%r9,4)
	movups	%xmm1, 16(%rcx,%r9,4)
	movups	%xmm0, (%rcx,%r9,4)
	movups	(%rax,%rdi), %xmm0
	movups	16(%rax,%rdi), %xmm1
	movups	32(%rax,%rdi), %xmm2
	movups	48(%rax,%rdi), %xmm3
	movq	56(%rsp), %rdi
	movups	%xmm3, 48(%rax,%rsi)
	movups	%xmm2, 32(%rax,%rsi)
	movups	%xmm1, 16(%rax,%rsi)
	movups	%xmm0, (%rax,%rsi)
	movq	%r8, %rax
.LBB14_17:
	cmpq	%r8, 32(%rsp)
	je	.LBB14_44
	addq	%rax, %rbp
	subq	%r10, %rbp
	leaq	1(%rbp), %r11
	imulq	%r12, %r11
	leaq	(,%r14,4), %r10
	leaq	(%r10,%r11,4), %rsi
	movq	%rdi, %r15
	leaq	(,%rdi,4), %rdi
	subq	%rdi, %rsi
	leaq	1(%rax), %r9
	imulq	%r13, %r9
	leaq	(%r10,%r9,4), %r8
	addq	$-64, %r8
	leaq	(%rdi,%r9,4), %r9
	imulq	%r12, %rbp
	leaq	(%r10,%rbp,4), %rbx
	subq	%rdi, %rbx
	movq	40(%rsp), %rdi
	leaq	(%rsi,%rdi), %r10
	addq	$-64, %r10
	leaq	(%rdi,%r11,4), %r11
	leaq	(%rbx,%rdi), %rsi
	addq	$-64, %rsi
	leaq	(%rdi,%rbp,4), %rdi
	subq	%rax, 32(%rsp)
	imulq	%r13, %rax
	addq	%rax, %r14
	addq	%r15, %rax
	shlq	$2, %rdx
	leaq	(,%r12,8), %rbx
	shlq	$3, %r13
	leaq	-64(,%r14,4), %r14
	shlq	$2, %rax
	.p2align	4
.LBB14_19:
	movups	(%rdi,%rdx), %xmm0
	movups	16(%rdi,%rdx), %xmm1
	movups	32(%rdi,%rdx), %xmm2
	movups	48(%rdi,%rdx), %xmm3
	movq	48(%rsp), %rcx
	movups	%xmm3, 48(%rcx,%rax)
	movups	%xmm2, 32(%rcx,%rax)
	movups	%xmm1, 16(%rcx,%rax)
	movups	%xmm0, (%rcx,%rax)
	movups	(%rsi,%rdx), %xmm0
	movups	16(%rsi,%rdx), %xmm1
	movups	32(%rsi,%rdx), %xmm2
	movups	48(%rsi,%rdx), %xmm3
	movups	%xmm3, 48(%rcx,%r14)
	movups	%xmm2, 32(%rcx,%r14)
	movups	%xmm1, 16(%rcx,%r14)
	movups	%xmm0, (%rcx,%r14)
	movups	(%r11,%rdx), %xmm0
	movups	16(%r11,%rdx), %xmm1
	movups	32(%r11,%rdx), %xmm2
	movups	48(%r11,%rdx), %xmm3
	movups	%xmm3, 48(%rcx,%r9)
	movups	%xmm2, 32(%rcx,%r9)
	movups	%xmm1, 16(%rcx,%r9)
	movups	%xmm0, (%rcx,%r9)
	movups	(%r10,%rdx), %xmm0
	movups	16(%r10,%rdx), %xmm1
	movups	32(%r10,%rdx), %xmm2
	movups	48(%r10,%rdx), %xmm3
	movups	%xmm3, 48(%rcx,%r8)
	movups	%xmm2, 32(%rcx,%r8)
	movups	%xmm1, 16(%rcx,%r8)
	movups	%xmm0, (%rcx,%r8)
	addq	%rbx, %r10
	addq	%rbx, %r11
	addq	%r13, %rcx
	movq	%rcx, 48(%rsp)
	addq	%rbx, %rsi
	addq	%rbx, %rdi
	addq	$-2, 32(%rsp)
	jne	.LBB14_19
	jmp	.LBB14_44
.LBB14_21:
	movq	32(%rsp), %rax
	movl	%eax, %r8d
	subl	%r10d, %r8d
	leaq	1(%r10), %rax
	movq	%r10, %r11
	testb	$1, %r8b
	je	.LBB14_23
	movq	%r10, %r8
	imulq	%r13, %r8
	addq	%rdi, %r8
	movq	%rbp, %r9
	imulq	%r12, %r9
	addq	%rdx, %r9
	movq	40(%rsp), %r11
	movups	(%r11,%r9,4), %xmm0
	movups	16(%r11,%r9,4), %xmm1
	movups	%xmm1, 16(%rcx,%r8,4)
	movups	%xmm0, (%rcx,%r8,4)
	movq	%rax, %r11
.LBB14_23:
	cmpq	%rax, 32(%rsp)
	je	.LBB14_44
	subq	%r11, 32(%rsp)
	addq	%r11, %rbp
	subq	%r10, %rbp
	leaq	1(%rbp), %rax
	imulq	%r12, %rax
	shlq	$2, %rax
	movq	40(%rsp), %r8
	leaq	(%r8,%rdx,4), %rdx
	leaq	(,%r12,8), %r8
	leaq	1(%r11), %r9
	imulq	%r13, %r9
	movq	48(%rsp), %rcx
	leaq	(%rcx,%r9,4), %r9
	shlq	$2, %rdi
	imulq	%r12, %rbp
	shlq	$2, %rbp
	imulq	%r13, %r11
	shlq	$3, %r13
	leaq	(%rcx,%r11,4), %rcx
	.p2align	4
.LBB14_25:
	movups	(%rdx,%rbp), %xmm0
	movups	16(%rdx,%rbp), %xmm1
	movups	%xmm1, 16(%rcx,%rdi)
	movups	%xmm0, (%rcx,%rdi)
	movups	(%rdx,%rax), %xmm0
	movups	16(%rdx,%rax), %xmm1
	movups	%xmm1, 16(%r9,%rdi)
	movups	%xmm0, (%r9,%rdi)
	addq	%r8, %rdx
	addq	%r13, %rdi
	addq	$-2, 32(%rsp)
	jne	.LBB14_25
	jmp	.LBB14_44

	.section	.rdata,"dr"
	.p2align	4, 0x0
.LCPI15_0:
	.byte	255
	.byte	0
	.byte	255
	.byte	0
	.byte	255
	.byte	0
	.byte	255
	.byte	0
	.byte	255
	.byte	0
	.byte	255
	.byte	0
	.byte	255
	.byte	0
	.byte	255
	.byte	0
.LCPI15_1:
	.short	128
	.short	128
	.short	128
	.short	128
	.short	128
	.short	128
	.short	128
	.short	128
.LCPI15_2:
	.zero	16,1
.LCPI15_3:
	.short	128
	.short	128
	.zero	2
	.zero	2
	.zero	2
	.zero	2
	.zero	2
	.zero	2
.LCPI15_4:
	.byte	128
	.byte	128
	.byte	128
	.byte	2
	.zero	1
	.zero	1
	.zero	1
	.zero	1
	.zero	1
	.zero	1
	.zero	1
	.zero	1
	.zero	1
	.zero	1
	.zero	1
	.zero	1
	.section	".text$pix_raster::view::blit_overlap::<#a1852713be2e9a48>","xr"
	.p2align	4
"pix_raster::view::blit_overlap::<#a1852713be2e9a48>":
	pushq	%r15
	pushq	%r14
	pushq	%r13
	pushq	%r12
	pushq	%rsi
	pushq	%rdi
	pushq	%rbp
	pushq	%rbx
	subq	$200, %rsp
	movdqa	%xmm9, 176(%rsp)
	movdqa	%xmm8, 160(%rsp)
	movdqa	%xmm7, 144(%rsp)
	movdqa	%xmm6, 128(%rsp)
	movq	%r9, 8(%rsp)
	movq	%rdx, 40(%rsp)
	movq	%rcx, 32(%rsp)
	movq	304(%rsp), %rcx
	movq	24(%rcx), %rdx
	movq	32(%rcx), %rax
	movq	%rax, 120(%rsp)
	cmpq	%rax, %rdx
	jae	.LBB15_22
	movq	%r8, %r14
	movq	%rdx, %r8
	movl	312(%rsp), %esi
	movq	(%rcx), %rdx
	movq	%rdx, 24(%rsp)
	movq	16(%rcx), %r9
	leaq	(%r14,%r9), %rax
	movq	%rax, 104(%rsp)
	movq	8(%rcx), %rax
	movq	40(%rcx), %rcx
	subq	%rdx, %rax
	movq	%rcx, %rdx
	subq	%r8, %rdx
	movq	%rdx, 96(%rsp)
	movq	%rax, %r11
	movl	%esi, %edx
	movl	%esi, %ebx
	shrl	$24, %ebx
	movl	%esi, %r10d
	shrl	$16, %r10d
	shrl	$8, %edx
	movd	%esi, %xmm0
	pinsrb	$1, %edx, %xmm0
	pinsrb	$2, %r10d, %xmm0
	pinsrb	$3, %ebx, %xmm0
	pinsrb	$4, %esi, %xmm0
	pinsrb	$5, %edx, %xmm0
	pinsrb	$6, %r10d, %xmm0
	pinsrb	$7, %ebx, %xmm0
	pinsrb	$8, %esi, %xmm0
	pinsrb	$9, %edx, %xmm0
	pinsrb	$10, %r10d, %xmm0
	pinsrb	$11, %ebx, %xmm0
	pinsrb	$12, %esi, %xmm0
	pinsrb	$13, %edx, %xmm0
	shrq	$4, %r11
	movq	%r11, 56(%rsp)
	pinsrb	$14, %r10d, %xmm0
	movdqa	.LCPI15_0(%rip), %xmm1
	pand	%xmm0, %xmm1
	pinsrb	$15, %ebx, %xmm0
	psrlw	$8, %xmm0
	movq	%rax, %r15
	andq	$-16, %r15
	movl	%eax, %r12d
	andl	$15, %r12d
	movl	%eax, %edi
	andl	$8, %edi
	movq	%rax, 16(%rsp)
	movl	%eax, %r11d
	andl	$12, %r11d
	movzbl	%r10b, %edx
	movd	%edx, %xmm2
	movl	%esi, %eax
	movzbl	%ah, %esi
	movzbl	%al, %r13d
	pinsrw	$1, %ebx, %xmm2
	imulq	8(%rsp), %rcx
	addq	%r9, %rcx
	leaq	(%r14,%rcx), %rbx
	addq	$8, %rbx
	leaq	(%r15,%r11), %r9
	addq	%r14, %r9
	movq	%r8, %rdx
	movq	40(%rsp), %rbp
	imulq	%rbp, %rdx
	addq	%rcx, %r9
	movq	24(%rsp), %rax
	leaq	(%rax,%rdx), %rcx
	movq	32(%rsp), %r10
	leaq	(%r10,%rcx,4), %r14
	movq	%r15, 64(%rsp)
	leaq	(,%r15,4), %rcx
	movq	%rcx, 88(%rsp)
	leaq	(%rcx,%rdx,4), %rcx
	movq	%r11, 48(%rsp)
	leaq	(%rcx,%r11,4), %rcx
	leaq	(%rcx,%rax,4), %rdx
	addq	%r10, %rdx
	movq	%rdi, 80(%rsp)
	leal	(,%rdi,4), %eax
	movq	%rax, 72(%rsp)
	movq	56(%rsp), %rax
	leaq	(,%rax,4), %rdi
	leaq	(,%rbp,4), %rax
	movq	%rax, 112(%rsp)
	jmp	.LBB15_2
	.p2align	4
.LBB15_21:
	incq	%r8
	movq	8(%rsp), %rax
	addq	%rax, %rbx
	movq	112(%rsp), %rcx
	addq	%rcx, %r14
	addq	%rax, %r9
	addq	%rcx, %rdx
	cmpq	120(%rsp), %r8
	je	.LBB15_22
.LBB15_2:
	cmpq	$0, 56(%rsp)
	je	.LBB15_8
	xorl	%r10d, %r10d
	movq	%r14, %r11
	jmp	.LBB15_4
	.p2align	4
.LBB15_6:
	movq	%rbp, %xmm6
	punpcklbw	%xmm6, %xmm6
	movdqa	%xmm6, %xmm7
	punpcklwd	%xmm6, %xmm7
	punpckhwd	%xmm6, %xmm6
	movdqa	.LCPI15_0(%rip), %xmm3
	movdqa	%xmm6, %xmm8
	pand	%xmm3, %xmm8
	movdqa	%xmm7, %xmm9
	pand	%xmm3, %xmm9
	pmullw	%xmm1, %xmm9
	pmullw	%xmm1, %xmm8
	movdqa	.LCPI15_1(%rip), %xmm4
	paddw	%xmm4, %xmm8
	paddw	%xmm4, %xmm9
	movdqa	.LCPI15_2(%rip), %xmm5
	pmulhuw	%xmm5, %xmm9
	pmulhuw	%xmm5, %xmm8
	psrlw	$8, %xmm7
	psrlw	$8, %xmm6
	pmullw	%xmm0, %xmm6
	pmullw	%xmm0, %xmm7
	paddw	%xmm4, %xmm7
	paddw	%xmm4, %xmm6
	pmulhuw	%xmm5, %xmm6
	pmulhuw	%xmm5, %xmm7
	psllw	$8, %xmm7
	por	%xmm9, %xmm7
	psllw	$8, %xmm6
	por	%xmm8, %xmm6
	movdqu	%xmm7, (%r11)
	movdqu	%xmm6, 16(%r11)
	movq	(%rbx,%r10,4), %xmm6
	punpcklbw	%xmm6, %xmm6
	movdqa	%xmm6, %xmm7
	punpcklwd	%xmm6, %xmm7
	punpckhwd	%xmm6, %xmm6
	movdqa	%xmm6, %xmm8
	pand	%xmm3, %xmm8
	pand	%xmm7, %xmm3
	pmullw	%xmm1, %xmm3
	pmullw	%xmm1, %xmm8
	paddw	%xmm4, %xmm8
	paddw	%xmm4, %xmm3
	pmulhuw	%xmm5, %xmm3
	pmulhuw	%xmm5, %xmm8
	psrlw	$8, %xmm7
	psrlw	$8, %xmm6
	pmullw	%xmm0, %xmm6
	pmullw	%xmm0, %xmm7
	paddw	%xmm4, %xmm7
	paddw	%xmm4, %xmm6
	pmulhuw	%xmm5, %xmm6
	pmulhuw	%xmm5, %xmm7
	psllw	$8, %xmm7
	por	%xmm3, %xmm7
	psllw	$8, %xmm6
	por	%xmm8, %xmm6
	movdqu	%xmm7, 32(%r11)
	movdqu	%xmm6, 48(%r11)
	addq	$4, %r10
	addq	$64, %r11
	cmpq	%r10, %rdi
	je	.LBB15_8
.LBB15_4:
	movq	-8(%rbx,%r10,4), %rbp
	movq	(%rbx,%r10,4), %r15
	orq	%rbp, %r15
	jne	.LBB15_6
	pxor	%xmm3, %xmm3
	movdqu	%xmm3, 48(%r11)
	movdqu	%xmm3, 32(%r11)
	movdqu	%xmm3, 16(%r11)
	movdqu	%xmm3, (%r11)
	addq	$4, %r10
	addq	$64, %r11
	cmpq	%r10, %rdi
	jne	.LBB15_4
.LBB15_8:
	movq	64(%rsp), %rax
	cmpq	16(%rsp), %rax
	je	.LBB15_21
	movq	%r8, %r10
	imulq	40(%rsp), %r10
	addq	24(%rsp), %r10
	movq	96(%rsp), %rax
	leaq	(%rax,%r8), %r11
	imulq	8(%rsp), %r11
	addq	104(%rsp), %r11
	movq	32(%rsp), %rax
	leaq	(%rax,%r10,4), %r10
	addq	88(%rsp), %r10
	addq	64(%rsp), %r11
	testb	$8, 16(%rsp)
	jne	.LBB15_10
	testb	$4, 16(%rsp)
	jne	.LBB15_14
.LBB15_18:
	cmpl	%r12d, 48(%rsp)
	je	.LBB15_21
	jmp	.LBB15_19
	.p2align	4
.LBB15_10:
	movq	(%r11), %rbp
	testq	%rbp, %rbp
	je	.LBB15_11
	movq	%rbp, %xmm3
	punpcklbw	%xmm3, %xmm3
	movdqa	%xmm3, %xmm4
	punpcklwd	%xmm3, %xmm4
	punpckhwd	%xmm3, %xmm3
	movdqa	.LCPI15_0(%rip), %xmm6
	movdqa	%xmm3, %xmm5
	pand	%xmm6, %xmm5
	pand	%xmm4, %xmm6
	pmullw	%xmm1, %xmm6
	pmullw	%xmm1, %xmm5
	movdqa	.LCPI15_1(%rip), %xmm7
	paddw	%xmm7, %xmm5
	paddw	%xmm7, %xmm6
	movdqa	.LCPI15_2(%rip), %xmm8
	pmulhuw	%xmm8, %xmm6
	pmulhuw	%xmm8, %xmm5
	psrlw	$8, %xmm4
	psrlw	$8, %xmm3
	pmullw	%xmm0, %xmm3
	pmullw	%xmm0, %xmm4
	paddw	%xmm7, %xmm4
	paddw	%xmm7, %xmm3
	pmulhuw	%xmm8, %xmm3
	pmulhuw	%xmm8, %xmm4
	psllw	$8, %xmm4
	por	%xmm6, %xmm4
	psllw	$8, %xmm3
	por	%xmm5, %xmm3
	movdqu	%xmm4, (%r10)
	movdqu	%xmm3, 16(%r10)
	testb	$4, 16(%rsp)
	je	.LBB15_18
	jmp	.LBB15_14
.LBB15_11:
	pxor	%xmm3, %xmm3
	movdqu	%xmm3, 16(%r10)
	movdqu	%xmm3, (%r10)
	testb	$4, 16(%rsp)
	je	.LBB15_18
	.p2align	4
.LBB15_14:
	addq	72(%rsp), %r10
	movq	80(%rsp), %rax
	movl	(%r11,%rax), %r11d
	testl	%r11d, %r11d
	je	.LBB15_15
	movd	%r11d, %xmm3
	punpcklbw	%xmm3, %xmm3
	punpcklwd	%xmm3, %xmm3
	movdqa	.LCPI15_0(%rip), %xmm4
	pand	%xmm3, %xmm4
	pmullw	%xmm1, %xmm4
	movdqa	.LCPI15_1(%rip), %xmm5
	paddw	%xmm5, %xmm4
	movdqa	.LCPI15_2(%rip), %xmm6
	pmulhuw	%xmm6, %xmm4
	psrlw	$8, %xmm3
	pmullw	%xmm0, %xmm3
	paddw	%xmm5, %xmm3
	pmulhuw	%xmm6, %xmm3
	psllw	$8, %xmm3
	por	%xmm4, %xmm3
	movdqu	%xmm3, (%r10)
	cmpl	%r12d, 48(%rsp)
	je	.LBB15_21
	jmp	.LBB15_19
.LBB15_15:
	pxor	%xmm3, %xmm3
	movdqu	%xmm3, (%r10)
	cmpl	%r12d, 48(%rsp)
	je	.LBB15_21
	.p2align	4
.LBB15_19:
	xorl	%r10d, %r10d
	movq	48(%rsp), %r11
	.p2align	4
.LBB15_20:
	movzbl	(%r9,%r10), %r15d
	movzwl	%r13w, %ebp
	imull	%r15d, %ebp
	leal	128(%rbp), %eax
	movzbl	%ah, %eax
	addl	%ebp, %eax
	addl	$128, %eax
	movzbl	%ah, %ebp
	movzwl	%si, %eax
	imull	%r15d, %eax
	leal	128(%rax), %ecx
	movzbl	%ch, %ecx
	addl	%ecx, %eax
	addl	$128, %eax
	andl	$65280, %eax
	movd	%r15d, %xmm3
	pshuflw	$0, %xmm3, %xmm3
	pmullw	%xmm2, %xmm3
	paddw	.LCPI15_3(%rip), %xmm3
	movdqa	%xmm3, %xmm4
	psrlw	$8, %xmm4
	paddw	%xmm3, %xmm4
	psrlw	$8, %xmm4
	movdqa	%xmm4, %xmm3
	pslld	$16, %xmm3
	pshufb	.LCPI15_4(%rip), %xmm4
	por	%xmm3, %xmm4
	movd	%xmm4, %ecx
	orl	%eax, %ecx
	orl	%ebp, %ecx
	movl	%ecx, (%rdx,%r10,4)
	incq	%r11
	incq	%r10
	cmpq	%r12, %r11
	jb	.LBB15_20
	jmp	.LBB15_21
.LBB15_22:
	movaps	128(%rsp), %xmm6
	movaps	144(%rsp), %xmm7
	movaps	160(%rsp), %xmm8
	movaps	176(%rsp), %xmm9
	addq	$200, %rsp
	popq	%rbx
	popq	%rbp
	popq	%rdi
	popq	%rsi
	popq	%r12
	popq	%r13
	popq	%r14
	popq	%r15
	retq

	.section	.rdata,"dr"
	.p2align	4, 0x0
.LCPI16_0:
	.byte	255
	.byte	0
	.byte	255
	.byte	0
	.byte	255
	.byte	0
	.byte	255
	.byte	0
	.byte	255
	.byte	0
	.byte	255
	.byte	0
	.byte	255
	.byte	0
	.byte	255
	.byte	0
.LCPI16_1:
	.short	128
	.short	128
	.short	128
	.short	128
	.short	128
	.short	128
	.short	128
	.short	128
.LCPI16_2:
	.zero	16,1
	.section	".text$pix_raster::view::blit_overlap::<#c5504568367a188d>","xr"
	.p2align	4
"pix_raster::view::blit_overlap::<#c5504568367a188d>":
	pushq	%r15
	pushq	%r14
	pushq	%r13
	pushq	%r12
	pushq	%rsi
	pushq	%rdi
	pushq	%rbp
	pushq	%rbx
	subq	$184, %rsp
	movdqa	%xmm8, 160(%rsp)
	movdqa	%xmm7, 144(%rsp)
	movdqa	%xmm6, 128(%rsp)
	movq	%r9, 40(%rsp)
	movq	%r8, 32(%rsp)
	movq	%rdx, 24(%rsp)
	movq	%rcx, 16(%rsp)
	movq	288(%rsp), %rcx
	movq	24(%rcx), %rax
	movq	32(%rcx), %rdx
	movq	%rax, (%rsp)
	movq	%rdx, 120(%rsp)
	cmpq	%rdx, %rax
	jae	.LBB16_14
	movq	(%rcx), %rbx
	movq	16(%rcx), %r15
	movq	8(%rcx), %rdi
	movq	40(%rcx), %rcx
	subq	%rbx, %rdi
	movq	%rcx, %rax
	movq	(%rsp), %r9
	subq	%r9, %rax
	movq	%rax, 72(%rsp)
	movq	%rdi, %rax
	shrq	$4, %rax
	movq	%rax, 48(%rsp)
	movzbl	296(%rsp), %ebp
	movd	%ebp, %xmm0
	pxor	%xmm1, %xmm1
	pshufb	%xmm1, %xmm0
	movdqa	.LCPI16_0(%rip), %xmm1
	pand	%xmm0, %xmm1
	psrlw	$8, %xmm0
	movq	%rdi, %rax
	andq	$-16, %rax
	movq	%rax, 112(%rsp)
	leaq	(,%rax,4), %r11
	movl	%edi, %r13d
	andl	$15, %r13d
	leal	(,%rdi,4), %edx
	movl	%edx, %eax
	andl	$32, %eax
	movq	%rax, 56(%rsp)
	movq	40(%rsp), %rax
	imulq	%rax, %rcx
	leaq	(,%r15,4), %r8
	leaq	(%r8,%rcx,4), %rsi
	movq	%r9, %r8
	movq	24(%rsp), %r10
	imulq	%r10, %r8
	leaq	(,%rbx,4), %r9
	leaq	(%r9,%r8,4), %r14
	leaq	(%r11,%rcx,4), %rcx
	andl	$48, %edx
	addq	%rdx, %rcx
	movq	%r11, 64(%rsp)
	leaq	(%r11,%r8,4), %r8
	addq	%rdx, %r8
	movq	%rdi, 8(%rsp)
	andl	$12, %edi
	movq	32(%rsp), %rdx
	addq	%rdx, %rsi
	movq	16(%rsp), %r11
	addq	%r11, %r14
	movq	%r15, 80(%rsp)
	leaq	(%rcx,%r15,4), %r9
	addq	%rdx, %r9
	movq	%rbx, 88(%rsp)
	leaq	(%r8,%rbx,4), %r8
	addq	%r11, %r8
	leaq	(,%rax,4), %rax
	movq	%rax, 104(%rsp)
	leaq	(,%r10,4), %rax
	movq	%rax, 96(%rsp)
	jmp	.LBB16_2
	.p2align	4
.LBB16_13:
	movq	(%rsp), %rax
	incq	%rax
	movq	104(%rsp), %rcx
	addq	%rcx, %rsi
	movq	96(%rsp), %rdx
	addq	%rdx, %r14
	addq	%rcx, %r9
	addq	%rdx, %r8
	movq	%rax, (%rsp)
	cmpq	120(%rsp), %rax
	je	.LBB16_14
.LBB16_2:
	cmpq	$0, 48(%rsp)
	je	.LBB16_5
	movl	$32, %r12d
	movq	48(%rsp), %r11
	.p2align	4
.LBB16_4:
	movdqu	-32(%rsi,%r12), %xmm6
	movdqu	-16(%rsi,%r12), %xmm5
	movdqa	.LCPI16_0(%rip), %xmm2
	movdqa	%xmm5, %xmm7
	pand	%xmm2, %xmm7
	movdqa	%xmm6, %xmm8
	pand	%xmm2, %xmm8
	pmullw	%xmm1, %xmm8
	pmullw	%xmm1, %xmm7
	movdqa	.LCPI16_1(%rip), %xmm3
	paddw	%xmm3, %xmm7
	paddw	%xmm3, %xmm8
	movdqa	.LCPI16_2(%rip), %xmm4
	pmulhuw	%xmm4, %xmm8
	pmulhuw	%xmm4, %xmm7
	psrlw	$8, %xmm6
	psrlw	$8, %xmm5
	pmullw	%xmm0, %xmm5
	pmullw	%xmm0, %xmm6
	paddw	%xmm3, %xmm6
	paddw	%xmm3, %xmm5
	pmulhuw	%xmm4, %xmm5
	pmulhuw	%xmm4, %xmm6
	psllw	$8, %xmm6
	por	%xmm8, %xmm6
	psllw	$8, %xmm5
	por	%xmm7, %xmm5
	movdqu	%xmm6, -32(%r14,%r12)
	movdqu	%xmm5, -16(%r14,%r12)
	movdqu	(%rsi,%r12), %xmm6
	movdqu	16(%rsi,%r12), %xmm5
	movdqa	%xmm5, %xmm7
	pand	%xmm2, %xmm7
	pand	%xmm6, %xmm2
	pmullw	%xmm1, %xmm2
	pmullw	%xmm1, %xmm7
	paddw	%xmm3, %xmm7
	paddw	%xmm3, %xmm2
	pmulhuw	%xmm4, %xmm2
	pmulhuw	%xmm4, %xmm7
	psrlw	$8, %xmm6
	psrlw	$8, %xmm5
	pmullw	%xmm0, %xmm5
	pmullw	%xmm0, %xmm6
	paddw	%xmm3, %xmm6
	paddw	%xmm3, %xmm5
	pmulhuw	%xmm4, %xmm5
	pmulhuw	%xmm4, %xmm6
	psllw	$8, %xmm6
	por	%xmm2, %xmm6
	psllw	$8, %xmm5
	por	%xmm7, %xmm5
	movdqu	%xmm6, (%r14,%r12)
	movdqu	%xmm5, 16(%r14,%r12)
	addq	$64, %r12
	decq	%r11
	jne	.LBB16_4
.LBB16_5:
	movq	112(%rsp), %rax
	cmpq	8(%rsp), %rax
	je	.LBB16_13
	movq	(%rsp), %rax
	movq	%rax, %rcx
	imulq	24(%rsp), %rcx
	addq	88(%rsp), %rcx
	movq	72(%rsp), %rdx
	addq	%rax, %rdx
	imulq	40(%rsp), %rdx
	addq	80(%rsp), %rdx
	movq	16(%rsp), %rax
	leaq	(%rax,%rcx,4), %r11
	movq	32(%rsp), %rax
	leaq	(%rax,%rdx,4), %r12
	movq	64(%rsp), %rax
	addq	%rax, %r11
	addq	%rax, %r12
	testb	$8, 8(%rsp)
	jne	.LBB16_7
	testb	$4, 8(%rsp)
	jne	.LBB16_9
.LBB16_10:
	cmpl	%r13d, %edi
	je	.LBB16_13
	jmp	.LBB16_11
	.p2align	4
.LBB16_7:
	movdqu	(%r12), %xmm3
	movdqu	16(%r12), %xmm2
	movdqa	.LCPI16_0(%rip), %xmm5
	movdqa	%xmm2, %xmm4
	pand	%xmm5, %xmm4
	pand	%xmm3, %xmm5
	pmullw	%xmm1, %xmm5
	pmullw	%xmm1, %xmm4
	movdqa	.LCPI16_1(%rip), %xmm6
	paddw	%xmm6, %xmm4
	paddw	%xmm6, %xmm5
	movdqa	.LCPI16_2(%rip), %xmm7
	pmulhuw	%xmm7, %xmm5
	pmulhuw	%xmm7, %xmm4
	psrlw	$8, %xmm3
	psrlw	$8, %xmm2
	pmullw	%xmm0, %xmm2
	pmullw	%xmm0, %xmm3
	paddw	%xmm6, %xmm3
	paddw	%xmm6, %xmm2
	pmulhuw	%xmm7, %xmm2
	pmulhuw	%xmm7, %xmm3
	psllw	$8, %xmm3
	por	%xmm5, %xmm3
	psllw	$8, %xmm2
	por	%xmm4, %xmm2
	movdqu	%xmm3, (%r11)
	movdqu	%xmm2, 16(%r11)
	testb	$4, 8(%rsp)
	je	.LBB16_10
.LBB16_9:
	movq	56(%rsp), %rax
	movdqu	(%r12,%rax), %xmm2
	movdqa	.LCPI16_0(%rip), %xmm3
	pand	%xmm2, %xmm3
	pmullw	%xmm1, %xmm3
	movdqa	.LCPI16_1(%rip), %xmm4
	paddw	%xmm4, %xmm3
	movdqa	.LCPI16_2(%rip), %xmm5
	pmulhuw	%xmm5, %xmm3
	psrlw	$8, %xmm2
	pmullw	%xmm0, %xmm2
	paddw	%xmm4, %xmm2
	pmulhuw	%xmm5, %xmm2
	psllw	$8, %xmm2
	por	%xmm3, %xmm2
	movdqu	%xmm2, (%r11,%rax)
	cmpl	%r13d, %edi
	je	.LBB16_13
.LBB16_11:
	xorl	%r11d, %r11d
	.p2align	4
.LBB16_12:
	movl	(%r9,%r11,4), %edx
	movzbl	%dh, %ecx
	movl	%edx, %r12d
	movzbl	%dl, %r10d
	shrl	$16, %edx
	shrl	$24, %r12d
	movzwl	%bp, %r15d
	imull	%r15d, %r10d
	leal	128(%r10), %eax
	movzbl	%ah, %eax
	addl	%r10d, %eax
	addl	$128, %eax
	movzbl	%ah, %eax
	imull	%r15d, %ecx
	leal	128(%rcx), %ebx
	movzbl	%bh, %ebx
	addl	%ebx, %ecx
	addl	$128, %ecx
	andl	$65280, %ecx
	movzbl	%dl, %edx
	imull	%r15d, %edx
	leal	128(%rdx), %ebx
	movzbl	%bh, %ebx
	addl	%ebx, %edx
	addl	$128, %edx
	imull	%r15d, %r12d
	leal	128(%r12), %ebx
	movzbl	%bh, %ebx
	leal	(%rbx,%r12), %r10d
	addl	$128, %r10d
	shll	$16, %r10d
	andl	$-16777216, %r10d
	shll	$8, %edx
	andl	$16711680, %edx
	orl	%r10d, %edx
	orl	%ecx, %edx
	orl	%eax, %edx
	movl	%edx, (%r8,%r11,4)
	leaq	(%rdi,%r11), %rax
	incq	%rax
	incq	%r11
	cmpq	%r13, %rax
	jb	.LBB16_12
	jmp	.LBB16_13
.LBB16_14:
	movaps	128(%rsp), %xmm6
	movaps	144(%rsp), %xmm7
	movaps	160(%rsp), %xmm8
	addq	$184, %rsp
	popq	%rbx
	popq	%rbp
	popq	%rdi
	popq	%rsi
	popq	%r12
	popq	%r13
	popq	%r14
	popq	%r15
	retq

	.section	.rdata,"dr"
	.p2align	4, 0x0
.LCPI17_0:
	.byte	3
	.byte	128
	.byte	3
	.byte	128
	.byte	7
	.byte	128
	.byte	7
	.byte	128
	.byte	11
	.byte	128
	.byte	11
	.byte	128
	.byte	15
	.byte	128
	.byte	15
	.byte	128
.LCPI17_1:
	.byte	255
	.byte	0
	.byte	255
	.byte	0
	.byte	255
	.byte	0
	.byte	255
	.byte	0
	.byte	255
	.byte	0
	.byte	255
	.byte	0
	.byte	255
	.byte	0
	.byte	255
	.byte	0
.LCPI17_2:
	.short	128
	.short	128
	.short	128
	.short	128
	.short	128
	.short	128
	.short	128
	.short	128
.LCPI17_3:
	.zero	16,1
.LCPI17_4:
	.byte	3
	.byte	3
	.byte	3
	.byte	3
	.byte	7
	.byte	7
	.byte	7
	.byte	7
	.byte	11
	.byte	11
	.byte	11
	.byte	11
	.byte	15
	.byte	15
	.byte	15
	.byte	15
.LCPI17_5:
	.short	128
	.short	128
	.short	128
	.short	128
	.zero	2
	.zero	2
	.zero	2
	.zero	2
.LCPI17_6:
	.long	65536
	.long	16777216
	.long	256
	.long	1
	.section	".text$pix_raster::view::blit_overlap::<#c30dc3dde8429fd7>","xr"
	.p2align	4
"pix_raster::view::blit_overlap::<#c30dc3dde8429fd7>":
	pushq	%r15
	pushq	%r14
	pushq	%r13
	pushq	%r12
	pushq	%rsi
	pushq	%rdi
	pushq	%rbp
	pushq	%rbx
	subq	$280, %rsp
	movdqa	%xmm14, 256(%rsp)
	movdqa	%xmm13, 240(%rsp)
	movdqa	%xmm12, 224(%rsp)
	movdqa	%xmm11, 208(%rsp)
	movdqa	%xmm10, 192(%rsp)
	movdqa	%xmm9, 176(%rsp)
	movdqa	%xmm8, 160(%rsp)
	movdqa	%xmm7, 144(%rsp)
	movdqa	%xmm6, 128(%rsp)
	movq	%r9, 40(%rsp)
	movq	%r8, 32(%rsp)
	movq	%rdx, 24(%rsp)
	movq	%rcx, 16(%rsp)
	movq	384(%rsp), %rax
	movq	24(%rax), %r11
	movq	32(%rax), %rcx
	movq	%rcx, 120(%rsp)
	cmpq	%rcx, %r11
	jae	.LBB17_14
	movq	(%rax), %r15
	movq	16(%rax), %r12
	movq	8(%rax), %rdi
	movq	40(%rax), %rax
	subq	%r15, %rdi
	movq	%rax, %rcx
	subq	%r11, %rcx
	movq	%rcx, 72(%rsp)
	movq	%rdi, %rcx
	shrq	$4, %rcx
	movq	%rcx, 48(%rsp)
	movq	%rdi, %rcx
	andq	$-16, %rcx
	movq	%rcx, 112(%rsp)
	leaq	(,%rcx,4), %rbp
	movl	%edi, %r13d
	andl	$15, %r13d
	leal	(,%rdi,4), %ecx
	movl	%ecx, %edx
	andl	$32, %edx
	movq	%rdx, 56(%rsp)
	movq	%rdi, 8(%rsp)
	andl	$12, %edi
	movq	%r11, %rdx
	movq	24(%rsp), %r9
	imulq	%r9, %rdx
	leaq	(,%r15,4), %r8
	leaq	(%r8,%rdx,4), %rsi
	movq	16(%rsp), %rbx
	addq	%rbx, %rsi
	movq	40(%rsp), %r10
	imulq	%r10, %rax
	leaq	(,%r12,4), %r8
	leaq	(%r8,%rax,4), %r14
	leaq	(,%rax,4), %rax
	addq	%rbp, %rax
	andl	$48, %ecx
	addq	%rcx, %rax
	movq	%rbp, 64(%rsp)
	leaq	(,%rdx,4), %rdx
	addq	%rbp, %rdx
	addq	%rcx, %rdx
	leaq	(,%r9,4), %rcx
	movq	%rcx, 104(%rsp)
	movq	32(%rsp), %rcx
	addq	%rcx, %r14
	movq	%r12, 80(%rsp)
	leaq	(%rax,%r12,4), %r9
	addq	%rcx, %r9
	movq	%r15, 88(%rsp)
	leaq	(%rdx,%r15,4), %r8
	addq	%rbx, %r8
	leaq	(,%r10,4), %rax
	movq	%rax, 96(%rsp)
	jmp	.LBB17_2
	.p2align	4
.LBB17_13:
	incq	%r11
	movq	104(%rsp), %rax
	addq	%rax, %rsi
	movq	96(%rsp), %rcx
	addq	%rcx, %r14
	addq	%rcx, %r9
	addq	%rax, %r8
	cmpq	120(%rsp), %r11
	je	.LBB17_14
.LBB17_2:
	cmpq	$0, 48(%rsp)
	je	.LBB17_5
	movl	$32, %ecx
	movq	48(%rsp), %r12
	.p2align	4
.LBB17_4:
	movdqu	-32(%r14,%rcx), %xmm7
	movdqu	-16(%r14,%rcx), %xmm8
	pcmpeqd	%xmm3, %xmm3
	movdqa	%xmm8, %xmm12
	pxor	%xmm3, %xmm12
	movdqa	%xmm7, %xmm13
	pxor	%xmm3, %xmm13
	movdqa	.LCPI17_0(%rip), %xmm6
	pshufb	%xmm6, %xmm13
	pshufb	%xmm6, %xmm12
	movdqa	.LCPI17_1(%rip), %xmm2
	movdqu	-32(%rsi,%rcx), %xmm9
	movdqu	-16(%rsi,%rcx), %xmm10
	movdqu	(%rsi,%rcx), %xmm0
	movdqu	16(%rsi,%rcx), %xmm1
	movdqa	%xmm9, %xmm11
	pand	%xmm2, %xmm11
	movdqa	%xmm10, %xmm14
	pand	%xmm2, %xmm14
	pmullw	%xmm12, %xmm14
	pmullw	%xmm13, %xmm11
	movdqa	.LCPI17_2(%rip), %xmm4
	paddw	%xmm4, %xmm11
	paddw	%xmm4, %xmm14
	movdqa	.LCPI17_3(%rip), %xmm5
	pmulhuw	%xmm5, %xmm14
	pmulhuw	%xmm5, %xmm11
	psrlw	$8, %xmm10
	psrlw	$8, %xmm9
	pmullw	%xmm13, %xmm9
	pmullw	%xmm12, %xmm10
	paddw	%xmm4, %xmm10
	paddw	%xmm4, %xmm9
	pmulhuw	%xmm5, %xmm9
	pmulhuw	%xmm5, %xmm10
	psllw	$8, %xmm10
	por	%xmm14, %xmm10
	psllw	$8, %xmm9
	por	%xmm11, %xmm9
	paddusb	%xmm8, %xmm10
	paddusb	%xmm7, %xmm9
	movdqu	%xmm9, -32(%rsi,%rcx)
	movdqu	%xmm10, -16(%rsi,%rcx)
	movdqu	(%r14,%rcx), %xmm7
	movdqu	16(%r14,%rcx), %xmm8
	movdqa	%xmm8, %xmm9
	pxor	%xmm3, %xmm9
	pxor	%xmm7, %xmm3
	pshufb	%xmm6, %xmm3
	pshufb	%xmm6, %xmm9
	movdqa	%xmm0, %xmm6
	pand	%xmm2, %xmm6
	pand	%xmm1, %xmm2
	pmullw	%xmm9, %xmm2
	pmullw	%xmm3, %xmm6
	paddw	%xmm4, %xmm6
	paddw	%xmm4, %xmm2
	pmulhuw	%xmm5, %xmm2
	pmulhuw	%xmm5, %xmm6
	psrlw	$8, %xmm1
	psrlw	$8, %xmm0
	pmullw	%xmm3, %xmm0
	pmullw	%xmm9, %xmm1
	paddw	%xmm4, %xmm1
	paddw	%xmm4, %xmm0
	pmulhuw	%xmm5, %xmm0
	pmulhuw	%xmm5, %xmm1
	psllw	$8, %xmm1
	por	%xmm2, %xmm1
	psllw	$8, %xmm0
	por	%xmm6, %xmm0
	paddusb	%xmm8, %xmm1
	paddusb	%xmm7, %xmm0
	movdqu	%xmm0, (%rsi,%rcx)
	movdqu	%xmm1, 16(%rsi,%rcx)
	addq	$64, %rcx
	decq	%r12
	jne	.LBB17_4
.LBB17_5:
	movq	112(%rsp), %rax
	cmpq	8(%rsp), %rax
	je	.LBB17_13
	movq	%r11, %rax
	imulq	24(%rsp), %rax
	addq	88(%rsp), %rax
	movq	72(%rsp), %rcx
	leaq	(%rcx,%r11), %rdx
	imulq	40(%rsp), %rdx
	addq	80(%rsp), %rdx
	movq	16(%rsp), %rcx
	leaq	(%rcx,%rax,4), %rcx
	movq	32(%rsp), %rax
	leaq	(%rax,%rdx,4), %r12
	movq	64(%rsp), %rax
	addq	%rax, %rcx
	addq	%rax, %r12
	testb	$8, 8(%rsp)
	jne	.LBB17_7
	testb	$4, 8(%rsp)
	jne	.LBB17_9
.LBB17_10:
	cmpl	%r13d, %edi
	je	.LBB17_13
	jmp	.LBB17_11
	.p2align	4
.LBB17_7:
	movdqu	(%r12), %xmm0
	movdqu	16(%r12), %xmm3
	movdqu	(%rcx), %xmm1
	movdqu	16(%rcx), %xmm2
	pcmpeqd	%xmm7, %xmm7
	movdqa	%xmm3, %xmm6
	pxor	%xmm7, %xmm6
	pxor	%xmm0, %xmm7
	movdqa	.LCPI17_0(%rip), %xmm4
	pshufb	%xmm4, %xmm7
	pshufb	%xmm4, %xmm6
	movdqa	.LCPI17_1(%rip), %xmm5
	movdqa	%xmm1, %xmm4
	pand	%xmm5, %xmm4
	pand	%xmm2, %xmm5
	pmullw	%xmm6, %xmm5
	pmullw	%xmm7, %xmm4
	movdqa	.LCPI17_2(%rip), %xmm8
	paddw	%xmm8, %xmm4
	paddw	%xmm8, %xmm5
	movdqa	.LCPI17_3(%rip), %xmm9
	pmulhuw	%xmm9, %xmm5
	pmulhuw	%xmm9, %xmm4
	psrlw	$8, %xmm2
	psrlw	$8, %xmm1
	pmullw	%xmm7, %xmm1
	pmullw	%xmm6, %xmm2
	paddw	%xmm8, %xmm2
	paddw	%xmm8, %xmm1
	pmulhuw	%xmm9, %xmm1
	pmulhuw	%xmm9, %xmm2
	psllw	$8, %xmm2
	por	%xmm5, %xmm2
	psllw	$8, %xmm1
	por	%xmm4, %xmm1
	paddusb	%xmm3, %xmm2
	paddusb	%xmm0, %xmm1
	movdqu	%xmm1, (%rcx)
	movdqu	%xmm2, 16(%rcx)
	testb	$4, 8(%rsp)
	je	.LBB17_10
.LBB17_9:
	movq	56(%rsp), %rax
	movdqu	(%r12,%rax), %xmm0
	movdqu	(%rcx,%rax), %xmm1
	movdqa	%xmm0, %xmm2
	pshufb	.LCPI17_4(%rip), %xmm2
	pcmpeqd	%xmm3, %xmm3
	pxor	%xmm2, %xmm3
	movdqa	.LCPI17_1(%rip), %xmm4
	movdqa	%xmm1, %xmm5
	pand	%xmm4, %xmm5
	pandn	%xmm4, %xmm2
	pmullw	%xmm5, %xmm2
	movdqa	.LCPI17_2(%rip), %xmm4
	paddw	%xmm4, %xmm2
	movdqa	.LCPI17_3(%rip), %xmm5
	pmulhuw	%xmm5, %xmm2
	psrlw	$8, %xmm1
	psrlw	$8, %xmm3
	pmullw	%xmm1, %xmm3
	paddw	%xmm4, %xmm3
	pmulhuw	%xmm5, %xmm3
	psllw	$8, %xmm3
	por	%xmm2, %xmm3
	paddusb	%xmm0, %xmm3
	movdqu	%xmm3, (%rcx,%rax)
	cmpl	%r13d, %edi
	je	.LBB17_13
.LBB17_11:
	xorl	%ecx, %ecx
	.p2align	4
.LBB17_12:
	movl	(%r8,%rcx,4), %eax
	movzbl	%ah, %edx
	movl	%eax, %ebx
	movzbl	%al, %r10d
	shrl	$16, %eax
	shrl	$24, %ebx
	movl	(%r9,%rcx,4), %ebp
	movl	%ebp, %r12d
	shrl	$24, %r12d
	movd	%ebp, %xmm0
	psrld	$16, %xmm0
	pinsrb	$1, %r12d, %xmm0
	movzbl	%al, %eax
	movl	%r12d, %r15d
	notb	%r15b
	movzbl	%r15b, %r15d
	movd	%r15d, %xmm1
	movd	%eax, %xmm2
	pinsrw	$1, %ebx, %xmm2
	pinsrw	$2, %edx, %xmm2
	pinsrw	$3, %r10d, %xmm2
	pshuflw	$0, %xmm1, %xmm1
	pmullw	%xmm1, %xmm2
	paddw	.LCPI17_5(%rip), %xmm2
	movdqa	%xmm2, %xmm1
	psrlw	$8, %xmm1
	paddw	%xmm2, %xmm1
	movl	%ebp, %eax
	shrl	$8, %eax
	psrlw	$8, %xmm1
	packuswb	%xmm1, %xmm1
	pinsrb	$2, %eax, %xmm0
	pinsrb	$3, %ebp, %xmm0
	paddusb	%xmm1, %xmm0
	pmovzxbd	%xmm0, %xmm0
	pmulld	.LCPI17_6(%rip), %xmm0
	pshufd	$238, %xmm0, %xmm1
	por	%xmm0, %xmm1
	pshufd	$85, %xmm1, %xmm0
	por	%xmm1, %xmm0
	movd	%xmm0, (%r8,%rcx,4)
	leaq	(%rdi,%rcx), %rax
	incq	%rax
	incq	%rcx
	cmpq	%r13, %rax
	jb	.LBB17_12
	jmp	.LBB17_13
.LBB17_14:
	movaps	128(%rsp), %xmm6
	movaps	144(%rsp), %xmm7
	movaps	160(%rsp), %xmm8
	movaps	176(%rsp), %xmm9
	movaps	192(%rsp), %xmm10
	movaps	208(%rsp), %xmm11
	movaps	224(%rsp), %xmm12
	movaps	240(%rsp), %xmm13
	movaps	256(%rsp), %xmm14
	addq	$280, %rsp
	popq	%rbx
	popq	%rbp
	popq	%rdi
	popq	%rsi
	popq	%r12
	popq	%r13
	popq	%r14
	popq	%r15
	retq

	.section	.rdata,"dr"
	.p2align	4, 0x0
.LCPI18_0:
	.byte	255
	.byte	0
	.byte	255
	.byte	0
	.byte	255
	.byte	0
	.byte	255
	.byte	0
	.byte	255
	.byte	0
	.byte	255
	.byte	0
	.byte	255
	.byte	0
	.byte	255
	.byte	0
.LCPI18_1:
	.short	128
	.short	128
	.short	128
	.short	128
	.short	128
	.short	128
	.short	128
	.short	128
.LCPI18_2:
	.zero	16,1
.LCPI18_3:
	.byte	3
	.byte	128
	.byte	3
	.byte	128
	.byte	7
	.byte	128
	.byte	7
	.byte	128
	.byte	11
	.byte	128
	.byte	11
	.byte	128
	.byte	15
	.byte	128
	.byte	15
	.byte	128
.LCPI18_4:
	.byte	3
	.byte	3
	.byte	3
	.byte	3
	.byte	7
	.byte	7
	.byte	7
	.byte	7
	.byte	11
	.byte	11
	.byte	11
	.byte	11
	.byte	15
	.byte	15
	.byte	15
	.byte	15
.LCPI18_5:
	.short	128
	.short	128
	.short	128
	.short	128
	.zero	2
	.zero	2
	.zero	2
	.zero	2
.LCPI18_6:
	.long	16777216
	.long	65536
	.long	256
	.long	1
	.section	".text$pix_raster::view::blit_overlap::<#82740d74a8936f70>","xr"
	.p2align	4
"pix_raster::view::blit_overlap::<#82740d74a8936f70>":
	pushq	%r15
	pushq	%r14
	pushq	%r13
	pushq	%r12
	pushq	%rsi
	pushq	%rdi
	pushq	%rbp
	pushq	%rbx
	subq	$248, %rsp
	movdqa	%xmm14, 224(%rsp)
	movdqa	%xmm13, 208(%rsp)
	movdqa	%xmm12, 192(%rsp)
	movdqa	%xmm11, 176(%rsp)
	movdqa	%xmm10, 160(%rsp)
	movdqa	%xmm9, 144(%rsp)
	movdqa	%xmm8, 128(%rsp)
	movdqa	%xmm7, 112(%rsp)
	movdqa	%xmm6, 96(%rsp)
	movq	%rdx, 16(%rsp)
	movq	%rcx, 8(%rsp)
	movq	352(%rsp), %rax
	movq	24(%rax), %r10
	movq	32(%rax), %rcx
	movq	%rcx, 88(%rsp)
	cmpq	%rcx, %r10
	jae	.LBB18_18
	movl	360(%rsp), %edx
	movq	(%rax), %rbp
	movq	16(%rax), %r11
	leaq	(%r8,%r11), %rcx
	movq	%rcx, 56(%rsp)
	movq	8(%rax), %rdi
	movq	40(%rax), %rcx
	subq	%rbp, %rdi
	movq	%rcx, %rax
	subq	%r10, %rax
	movq	%rax, 48(%rsp)
	movq	%rdi, %r14
	shrq	$4, %r14
	movl	%edx, %ebx
	shrl	$24, %ebx
	movl	%edx, %esi
	shrl	$16, %esi
	movl	%edx, %eax
	shrl	$8, %eax
	movd	%edx, %xmm0
	pinsrb	$1, %eax, %xmm0
	pinsrb	$2, %esi, %xmm0
	pinsrb	$3, %ebx, %xmm0
	pinsrb	$4, %edx, %xmm0
	pinsrb	$5, %eax, %xmm0
	pinsrb	$6, %esi, %xmm0
	pinsrb	$7, %ebx, %xmm0
	pinsrb	$8, %edx, %xmm0
	pinsrb	$9, %eax, %xmm0
	pinsrb	$10, %esi, %xmm0
	pinsrb	$11, %ebx, %xmm0
	pinsrb	$12, %edx, %xmm0
	pinsrb	$13, %eax, %xmm0
	pinsrb	$14, %esi, %xmm0
	movdqa	.LCPI18_0(%rip), %xmm1
	pand	%xmm0, %xmm1
	pinsrb	$15, %ebx, %xmm0
	psrlw	$8, %xmm0
	movq	%rdi, %r13
	andq	$-16, %r13
	movl	%edi, %r12d
	andl	$15, %r12d
	movl	%edi, %eax
	andl	$8, %eax
	movq	%rax, (%rsp)
	movl	%edi, %edx
	andl	$12, %edx
	movzbl	%sil, %eax
	leaq	(,%r13,4), %r15
	movd	%ebx, %xmm2
	pinsrw	$1, %eax, %xmm2
	movl	360(%rsp), %ebx
	movzbl	%bh, %eax
	movzbl	%bl, %esi
	pinsrw	$2, %eax, %xmm2
	pinsrw	$3, %esi, %xmm2
	movq	%r14, 80(%rsp)
	leaq	(,%r14,4), %rsi
	movq	%r10, %rax
	movq	16(%rsp), %r14
	imulq	%r14, %rax
	imulq	%r9, %rcx
	addq	%r11, %rcx
	movq	%r13, 32(%rsp)
	leaq	(%rdx,%r13), %rbx
	addq	%r8, %rbx
	addq	%rcx, %r8
	addq	$8, %r8
	addq	%rcx, %rbx
	movq	%rbp, %r13
	leaq	(%rax,%rbp), %rcx
	movq	8(%rsp), %r11
	leaq	(%r11,%rcx,4), %rbp
	movq	%r15, 40(%rsp)
	leaq	(%r15,%rax,4), %rax
	movq	%rdx, 24(%rsp)
	leaq	(%rax,%rdx,4), %rax
	movq	%r13, 64(%rsp)
	leaq	(%rax,%r13,4), %rdx
	addq	%r11, %rdx
	leaq	(,%r14,4), %rax
	movq	%rax, 72(%rsp)
	jmp	.LBB18_2
	.p2align	4
.LBB18_17:
	incq	%r10
	movq	72(%rsp), %rax
	addq	%rax, %rbp
	addq	%r9, %r8
	addq	%r9, %rbx
	addq	%rax, %rdx
	cmpq	88(%rsp), %r10
	je	.LBB18_18
.LBB18_2:
	cmpq	$0, 80(%rsp)
	je	.LBB18_7
	xorl	%r13d, %r13d
	movq	%rbp, %r11
	jmp	.LBB18_4
	.p2align	4
.LBB18_6:
	addq	$4, %r13
	addq	$64, %r11
	cmpq	%r13, %rsi
	je	.LBB18_7
.LBB18_4:
	movq	-8(%r8,%r13,4), %rax
	movq	(%r8,%r13,4), %rcx
	orq	%rax, %rcx
	je	.LBB18_6
	movq	%rax, %xmm10
	punpcklbw	%xmm10, %xmm10
	movdqa	%xmm10, %xmm9
	punpckhwd	%xmm10, %xmm9
	punpcklwd	%xmm10, %xmm10
	movdqa	.LCPI18_0(%rip), %xmm3
	movdqa	%xmm10, %xmm6
	pand	%xmm3, %xmm6
	movdqa	%xmm9, %xmm7
	pand	%xmm3, %xmm7
	pmullw	%xmm1, %xmm7
	pmullw	%xmm1, %xmm6
	movdqa	.LCPI18_1(%rip), %xmm5
	paddw	%xmm5, %xmm6
	paddw	%xmm5, %xmm7
	movdqa	.LCPI18_2(%rip), %xmm4
	pmulhuw	%xmm4, %xmm7
	pmulhuw	%xmm4, %xmm6
	psrlw	$8, %xmm9
	psrlw	$8, %xmm10
	pmullw	%xmm0, %xmm10
	pmullw	%xmm0, %xmm9
	paddw	%xmm5, %xmm9
	paddw	%xmm5, %xmm10
	pmulhuw	%xmm4, %xmm10
	pmulhuw	%xmm4, %xmm9
	psllw	$8, %xmm9
	por	%xmm7, %xmm9
	psllw	$8, %xmm10
	por	%xmm6, %xmm10
	pcmpeqd	%xmm6, %xmm6
	movdqa	%xmm9, %xmm13
	pxor	%xmm6, %xmm13
	movdqa	%xmm10, %xmm14
	pxor	%xmm6, %xmm14
	movdqa	.LCPI18_3(%rip), %xmm7
	pshufb	%xmm7, %xmm14
	pshufb	%xmm7, %xmm13
	movdqu	(%r11), %xmm11
	movdqu	16(%r11), %xmm12
	movdqa	%xmm11, %xmm8
	pand	%xmm3, %xmm8
	pmullw	%xmm14, %xmm8
	psrlw	$8, %xmm11
	pmullw	%xmm14, %xmm11
	movdqa	%xmm12, %xmm14
	pand	%xmm3, %xmm14
	pmullw	%xmm13, %xmm14
	psrlw	$8, %xmm12
	pmullw	%xmm13, %xmm12
	paddw	%xmm5, %xmm14
	pmulhuw	%xmm4, %xmm14
	paddw	%xmm5, %xmm12
	pmulhuw	%xmm4, %xmm12
	psllw	$8, %xmm12
	por	%xmm14, %xmm12
	paddw	%xmm5, %xmm8
	pmulhuw	%xmm4, %xmm8
	paddw	%xmm5, %xmm11
	pmulhuw	%xmm4, %xmm11
	psllw	$8, %xmm11
	por	%xmm8, %xmm11
	movdqu	32(%r11), %xmm8
	paddusb	%xmm9, %xmm12
	movdqu	48(%r11), %xmm9
	paddusb	%xmm10, %xmm11
	movdqu	%xmm11, (%r11)
	movdqu	%xmm12, 16(%r11)
	movq	(%r8,%r13,4), %xmm10
	punpcklbw	%xmm10, %xmm10
	movdqa	%xmm10, %xmm11
	punpckhwd	%xmm10, %xmm11
	punpcklwd	%xmm10, %xmm10
	movdqa	%xmm11, %xmm12
	pand	%xmm3, %xmm12
	pmullw	%xmm1, %xmm12
	paddw	%xmm5, %xmm12
	pmulhuw	%xmm4, %xmm12
	psrlw	$8, %xmm11
	pmullw	%xmm0, %xmm11
	paddw	%xmm5, %xmm11
	pmulhuw	%xmm4, %xmm11
	psllw	$8, %xmm11
	por	%xmm12, %xmm11
	movdqa	%xmm10, %xmm12
	pand	%xmm3, %xmm12
	pmullw	%xmm1, %xmm12
	paddw	%xmm5, %xmm12
	pmulhuw	%xmm4, %xmm12
	psrlw	$8, %xmm10
	pmullw	%xmm0, %xmm10
	paddw	%xmm5, %xmm10
	pmulhuw	%xmm4, %xmm10
	psllw	$8, %xmm10
	por	%xmm12, %xmm10
	movdqa	%xmm11, %xmm12
	pxor	%xmm6, %xmm12
	pxor	%xmm10, %xmm6
	pshufb	%xmm7, %xmm6
	pshufb	%xmm7, %xmm12
	movdqa	%xmm8, %xmm7
	pand	%xmm3, %xmm7
	pmullw	%xmm6, %xmm7
	psrlw	$8, %xmm8
	pmullw	%xmm6, %xmm8
	pand	%xmm9, %xmm3
	pmullw	%xmm12, %xmm3
	psrlw	$8, %xmm9
	pmullw	%xmm12, %xmm9
	paddw	%xmm5, %xmm7
	paddw	%xmm5, %xmm3
	paddw	%xmm5, %xmm9
	paddw	%xmm5, %xmm8
	pmulhuw	%xmm4, %xmm3
	pmulhuw	%xmm4, %xmm7
	pmulhuw	%xmm4, %xmm8
	pmulhuw	%xmm4, %xmm9
	psllw	$8, %xmm9
	por	%xmm3, %xmm9
	psllw	$8, %xmm8
	por	%xmm7, %xmm8
	paddusb	%xmm11, %xmm9
	paddusb	%xmm10, %xmm8
	movdqu	%xmm8, 32(%r11)
	movdqu	%xmm9, 48(%r11)
	jmp	.LBB18_6
	.p2align	4
.LBB18_7:
	cmpq	%rdi, 32(%rsp)
	je	.LBB18_17
	movq	%r10, %rax
	imulq	16(%rsp), %rax
	addq	64(%rsp), %rax
	movq	48(%rsp), %rcx
	leaq	(%rcx,%r10), %r13
	imulq	%r9, %r13
	addq	56(%rsp), %r13
	movq	8(%rsp), %rcx
	leaq	(%rcx,%rax,4), %r11
	addq	40(%rsp), %r11
	addq	32(%rsp), %r13
	testb	$8, %dil
	je	.LBB18_11
	movq	(%r13), %rax
	testq	%rax, %rax
	je	.LBB18_11
	movq	%rax, %xmm3
	punpcklbw	%xmm3, %xmm3
	movdqa	%xmm3, %xmm4
	punpckhwd	%xmm3, %xmm4
	punpcklwd	%xmm3, %xmm3
	movdqa	.LCPI18_0(%rip), %xmm5
	movdqa	%xmm3, %xmm8
	pand	%xmm5, %xmm8
	movdqa	%xmm4, %xmm9
	pand	%xmm5, %xmm9
	pmullw	%xmm1, %xmm9
	pmullw	%xmm1, %xmm8
	movdqa	.LCPI18_1(%rip), %xmm6
	paddw	%xmm6, %xmm8
	paddw	%xmm6, %xmm9
	movdqa	.LCPI18_2(%rip), %xmm7
	pmulhuw	%xmm7, %xmm9
	pmulhuw	%xmm7, %xmm8
	psrlw	$8, %xmm4
	psrlw	$8, %xmm3
	pmullw	%xmm0, %xmm3
	pmullw	%xmm0, %xmm4
	paddw	%xmm6, %xmm4
	paddw	%xmm6, %xmm3
	pmulhuw	%xmm7, %xmm3
	pmulhuw	%xmm7, %xmm4
	psllw	$8, %xmm4
	por	%xmm9, %xmm4
	psllw	$8, %xmm3
	por	%xmm8, %xmm3
	movdqu	(%r11), %xmm8
	movdqu	16(%r11), %xmm9
	pcmpeqd	%xmm11, %xmm11
	movdqa	%xmm4, %xmm12
	pxor	%xmm11, %xmm12
	pxor	%xmm3, %xmm11
	movdqa	.LCPI18_3(%rip), %xmm10
	pshufb	%xmm10, %xmm11
	pshufb	%xmm10, %xmm12
	movdqa	%xmm8, %xmm10
	pand	%xmm5, %xmm10
	pand	%xmm9, %xmm5
	pmullw	%xmm12, %xmm5
	pmullw	%xmm11, %xmm10
	paddw	%xmm6, %xmm10
	paddw	%xmm6, %xmm5
	pmulhuw	%xmm7, %xmm5
	pmulhuw	%xmm7, %xmm10
	psrlw	$8, %xmm9
	psrlw	$8, %xmm8
	pmullw	%xmm11, %xmm8
	pmullw	%xmm12, %xmm9
	paddw	%xmm6, %xmm9
	paddw	%xmm6, %xmm8
	pmulhuw	%xmm7, %xmm8
	pmulhuw	%xmm7, %xmm9
	psllw	$8, %xmm9
	por	%xmm5, %xmm9
	psllw	$8, %xmm8
	por	%xmm10, %xmm8
	paddusb	%xmm4, %xmm9
	paddusb	%xmm3, %xmm8
	movdqu	%xmm8, (%r11)
	movdqu	%xmm9, 16(%r11)
.LBB18_11:
	testb	$4, %dil
	je	.LBB18_14
	movq	(%rsp), %rax
	movl	(%r13,%rax), %eax
	testl	%eax, %eax
	je	.LBB18_14
	movd	%eax, %xmm3
	punpcklbw	%xmm3, %xmm3
	punpcklwd	%xmm3, %xmm3
	movdqa	.LCPI18_0(%rip), %xmm6
	movdqa	%xmm3, %xmm7
	pand	%xmm6, %xmm7
	pmullw	%xmm1, %xmm7
	movdqa	.LCPI18_1(%rip), %xmm4
	paddw	%xmm4, %xmm7
	movdqa	.LCPI18_2(%rip), %xmm5
	pmulhuw	%xmm5, %xmm7
	psrlw	$8, %xmm3
	pmullw	%xmm0, %xmm3
	paddw	%xmm4, %xmm3
	pmulhuw	%xmm5, %xmm3
	psllw	$8, %xmm3
	por	%xmm7, %xmm3
	movq	(%rsp), %rax
	movdqu	(%r11,%rax,4), %xmm7
	pcmpeqd	%xmm8, %xmm8
	movdqa	%xmm3, %xmm9
	pshufb	.LCPI18_4(%rip), %xmm9
	pxor	%xmm9, %xmm8
	movdqa	%xmm7, %xmm10
	pand	%xmm6, %xmm10
	pandn	%xmm6, %xmm9
	pmullw	%xmm10, %xmm9
	paddw	%xmm4, %xmm9
	pmulhuw	%xmm5, %xmm9
	psrlw	$8, %xmm7
	psrlw	$8, %xmm8
	pmullw	%xmm7, %xmm8
	paddw	%xmm4, %xmm8
	pmulhuw	%xmm5, %xmm8
	psllw	$8, %xmm8
	por	%xmm9, %xmm8
	paddusb	%xmm3, %xmm8
	movdqu	%xmm8, (%r11,%rax,4)
.LBB18_14:
	cmpl	%r12d, 24(%rsp)
	je	.LBB18_17
	xorl	%r11d, %r11d
	movq	24(%rsp), %r13
	.p2align	4
.LBB18_16:
	movl	(%rdx,%r11,4), %eax
	movzbl	%ah, %ecx
	movzbl	%al, %r14d
	movd	%eax, %xmm3
	shrl	$16, %eax
	movzbl	(%rbx,%r11), %r15d
	movd	%r15d, %xmm4
	pshuflw	$0, %xmm4, %xmm4
	pmullw	%xmm2, %xmm4
	movdqa	.LCPI18_5(%rip), %xmm5
	paddw	%xmm5, %xmm4
	movdqa	%xmm4, %xmm6
	psrlw	$8, %xmm6
	paddw	%xmm4, %xmm6
	pextrb	$1, %xmm6, %r15d
	movzbl	%al, %eax
	psrlw	$8, %xmm6
	packuswb	%xmm6, %xmm6
	xorl	$255, %r15d
	movd	%r15d, %xmm4
	psrld	$24, %xmm3
	pinsrw	$1, %eax, %xmm3
	pinsrw	$2, %ecx, %xmm3
	pinsrw	$3, %r14d, %xmm3
	pshuflw	$0, %xmm4, %xmm4
	pmullw	%xmm4, %xmm3
	paddw	%xmm5, %xmm3
	movdqa	%xmm3, %xmm4
	psrlw	$8, %xmm4
	paddw	%xmm3, %xmm4
	psrlw	$8, %xmm4
	packuswb	%xmm4, %xmm4
	paddusb	%xmm6, %xmm4
	pmovzxbd	%xmm4, %xmm3
	pmulld	.LCPI18_6(%rip), %xmm3
	pshufd	$238, %xmm3, %xmm4
	por	%xmm3, %xmm4
	pshufd	$85, %xmm4, %xmm3
	por	%xmm4, %xmm3
	movd	%xmm3, (%rdx,%r11,4)
	incq	%r13
	incq	%r11
	cmpq	%r12, %r13
	jb	.LBB18_16
	jmp	.LBB18_17
.LBB18_18:
	movaps	96(%rsp), %xmm6
	movaps	112(%rsp), %xmm7
	movaps	128(%rsp), %xmm8
	movaps	144(%rsp), %xmm9
	movaps	160(%rsp), %xmm10
	movaps	176(%rsp), %xmm11
	movaps	192(%rsp), %xmm12
	movaps	208(%rsp), %xmm13
	movaps	224(%rsp), %xmm14
	addq	$248, %rsp
	popq	%rbx
	popq	%rbp
	popq	%rdi
	popq	%rsi
	popq	%r12
	popq	%r13
	popq	%r14
	popq	%r15
	retq

	.section	.rdata,"dr"
	.p2align	4, 0x0
.LCPI19_0:
	.byte	255
	.byte	0
	.byte	255
	.byte	0
	.byte	255
	.byte	0
	.byte	255
	.byte	0
	.byte	255
	.byte	0
	.byte	255
	.byte	0
	.byte	255
	.byte	0
	.byte	255
	.byte	0
.LCPI19_1:
	.short	128
	.short	128
	.short	128
	.short	128
	.short	128
	.short	128
	.short	128
	.short	128
.LCPI19_2:
	.zero	16,1
.LCPI19_3:
	.byte	3
	.byte	128
	.byte	3
	.byte	128
	.byte	7
	.byte	128
	.byte	7
	.byte	128
	.byte	11
	.byte	128
	.byte	11
	.byte	128
	.byte	15
	.byte	128
	.byte	15
	.byte	128
.LCPI19_4:
	.byte	3
	.byte	3
	.byte	3
	.byte	3
	.byte	7
	.byte	7
	.byte	7
	.byte	7
	.byte	11
	.byte	11
	.byte	11
	.byte	11
	.byte	15
	.byte	15
	.byte	15
	.byte	15
.LCPI19_5:
	.short	128
	.short	128
	.short	128
	.short	128
	.zero	2
	.zero	2
	.zero	2
	.zero	2
.LCPI19_6:
	.long	16777216
	.long	65536
	.long	256
	.long	1
	.section	".text$pix_raster::view::blit_overlap::<#ae9f661a91a09783>","xr"
	.p2align	4
"pix_raster::view::blit_overlap::<#ae9f661a91a09783>":
	pushq	%r15
	pushq	%r14
	pushq	%r13
	pushq	%r12
	pushq	%rsi
	pushq	%rdi
	pushq	%rbp
	pushq	%rbx
	subq	$264, %rsp
	movdqa	%xmm14, 240(%rsp)
	movdqa	%xmm13, 224(%rsp)
	movdqa	%xmm12, 208(%rsp)
	movdqa	%xmm11, 192(%rsp)
	movdqa	%xmm10, 176(%rsp)
	movdqa	%xmm9, 160(%rsp)
	movdqa	%xmm8, 144(%rsp)
	movdqa	%xmm7, 128(%rsp)
	movdqa	%xmm6, 112(%rsp)
	movq	%r9, 32(%rsp)
	movq	%r8, 24(%rsp)
	movq	%rdx, 16(%rsp)
	movq	%rcx, 8(%rsp)
	movq	368(%rsp), %rax
	movq	24(%rax), %r11
	movq	32(%rax), %rcx
	movq	%rcx, 104(%rsp)
	cmpq	%rcx, %r11
	jae	.LBB19_14
	movq	(%rax), %rbp
	movq	16(%rax), %r10
	movq	%r10, (%rsp)
	movq	8(%rax), %r14
	movq	40(%rax), %rcx
	subq	%rbp, %r14
	movq	%rcx, %rax
	subq	%r11, %rax
	movq	%rax, 64(%rsp)
	movq	%r14, %rax
	shrq	$4, %rax
	movq	%rax, 40(%rsp)
	movzbl	376(%rsp), %eax
	movd	%eax, %xmm1
	pxor	%xmm2, %xmm2
	pshuflw	$0, %xmm1, %xmm0
	pshufb	%xmm2, %xmm1
	movdqa	.LCPI19_0(%rip), %xmm2
	pand	%xmm1, %xmm2
	psrlw	$8, %xmm1
	movq	%r14, %rax
	andq	$-16, %rax
	movq	%rax, 96(%rsp)
	leaq	(,%rax,4), %r9
	movl	%r14d, %r13d
	andl	$15, %r13d
	leal	(,%r14,4), %eax
	movl	%eax, %edx
	andl	$32, %edx
	movq	%rdx, 48(%rsp)
	movl	%r14d, %edi
	andl	$12, %edi
	movq	%r11, %rdx
	movq	16(%rsp), %r15
	imulq	%r15, %rdx
	leaq	(,%rbp,4), %r8
	leaq	(%r8,%rdx,4), %rsi
	movq	8(%rsp), %r12
	addq	%r12, %rsi
	movq	32(%rsp), %rbx
	imulq	%rbx, %rcx
	leaq	(,%r10,4), %r8
	leaq	(%r8,%rcx,4), %r10
	leaq	(%r9,%rcx,4), %rcx
	andl	$48, %eax
	addq	%rax, %rcx
	movq	%r9, 56(%rsp)
	leaq	(%r9,%rdx,4), %rdx
	addq	%rax, %rdx
	leaq	(,%r15,4), %rax
	movq	%rax, 88(%rsp)
	movq	24(%rsp), %rax
	addq	%rax, %r10
	movq	(%rsp), %r8
	leaq	(%rcx,%r8,4), %r9
	addq	%rax, %r9
	movq	%rbp, 72(%rsp)
	leaq	(%rdx,%rbp,4), %r8
	addq	%r12, %r8
	leaq	(,%rbx,4), %rax
	movq	%rax, 80(%rsp)
	jmp	.LBB19_2
	.p2align	4
.LBB19_13:
	incq	%r11
	movq	88(%rsp), %rax
	addq	%rax, %rsi
	movq	80(%rsp), %rcx
	addq	%rcx, %r10
	addq	%rcx, %r9
	addq	%rax, %r8
	cmpq	104(%rsp), %r11
	je	.LBB19_14
.LBB19_2:
	cmpq	$0, 40(%rsp)
	je	.LBB19_5
	movl	$32, %ecx
	movq	40(%rsp), %r12
	.p2align	4
.LBB19_4:
	movdqu	-32(%r10,%rcx), %xmm10
	movdqu	-16(%r10,%rcx), %xmm9
	movdqa	.LCPI19_0(%rip), %xmm3
	movdqa	%xmm10, %xmm6
	pand	%xmm3, %xmm6
	movdqa	%xmm9, %xmm7
	pand	%xmm3, %xmm7
	pmullw	%xmm2, %xmm7
	pmullw	%xmm2, %xmm6
	movdqa	.LCPI19_1(%rip), %xmm5
	paddw	%xmm5, %xmm6
	paddw	%xmm5, %xmm7
	movdqa	.LCPI19_2(%rip), %xmm4
	pmulhuw	%xmm4, %xmm7
	pmulhuw	%xmm4, %xmm6
	psrlw	$8, %xmm9
	psrlw	$8, %xmm10
	pmullw	%xmm1, %xmm10
	pmullw	%xmm1, %xmm9
	paddw	%xmm5, %xmm9
	paddw	%xmm5, %xmm10
	pmulhuw	%xmm4, %xmm10
	pmulhuw	%xmm4, %xmm9
	psllw	$8, %xmm9
	por	%xmm7, %xmm9
	psllw	$8, %xmm10
	por	%xmm6, %xmm10
	pcmpeqd	%xmm6, %xmm6
	movdqa	%xmm9, %xmm13
	pxor	%xmm6, %xmm13
	movdqa	%xmm10, %xmm14
	pxor	%xmm6, %xmm14
	movdqa	.LCPI19_3(%rip), %xmm7
	pshufb	%xmm7, %xmm14
	pshufb	%xmm7, %xmm13
	movdqu	-32(%rsi,%rcx), %xmm11
	movdqu	-16(%rsi,%rcx), %xmm12
	movdqa	%xmm11, %xmm8
	pand	%xmm3, %xmm8
	pmullw	%xmm14, %xmm8
	psrlw	$8, %xmm11
	pmullw	%xmm14, %xmm11
	movdqa	%xmm12, %xmm14
	pand	%xmm3, %xmm14
	pmullw	%xmm13, %xmm14
	psrlw	$8, %xmm12
	pmullw	%xmm13, %xmm12
	paddw	%xmm5, %xmm14
	pmulhuw	%xmm4, %xmm14
	paddw	%xmm5, %xmm12
	pmulhuw	%xmm4, %xmm12
	psllw	$8, %xmm12
	por	%xmm14, %xmm12
	paddw	%xmm5, %xmm8
	pmulhuw	%xmm4, %xmm8
	paddw	%xmm5, %xmm11
	pmulhuw	%xmm4, %xmm11
	psllw	$8, %xmm11
	por	%xmm8, %xmm11
	movdqu	(%rsi,%rcx), %xmm8
	paddusb	%xmm9, %xmm12
	movdqu	16(%rsi,%rcx), %xmm9
	paddusb	%xmm10, %xmm11
	movdqu	%xmm11, -32(%rsi,%rcx)
	movdqu	%xmm12, -16(%rsi,%rcx)
	movdqu	(%r10,%rcx), %xmm10
	movdqu	16(%r10,%rcx), %xmm11
	movdqa	%xmm11, %xmm12
	pand	%xmm3, %xmm12
	pmullw	%xmm2, %xmm12
	paddw	%xmm5, %xmm12
	pmulhuw	%xmm4, %xmm12
	psrlw	$8, %xmm11
	pmullw	%xmm1, %xmm11
	paddw	%xmm5, %xmm11
	pmulhuw	%xmm4, %xmm11
	psllw	$8, %xmm11
	por	%xmm12, %xmm11
	movdqa	%xmm10, %xmm12
	pand	%xmm3, %xmm12
	pmullw	%xmm2, %xmm12
	paddw	%xmm5, %xmm12
	pmulhuw	%xmm4, %xmm12
	psrlw	$8, %xmm10
	pmullw	%xmm1, %xmm10
	paddw	%xmm5, %xmm10
	pmulhuw	%xmm4, %xmm10
	psllw	$8, %xmm10
	por	%xmm12, %xmm10
	movdqa	%xmm11, %xmm12
	pxor	%xmm6, %xmm12
	pxor	%xmm10, %xmm6
	pshufb	%xmm7, %xmm6
	pshufb	%xmm7, %xmm12
	movdqa	%xmm8, %xmm7
	pand	%xmm3, %xmm7
	pmullw	%xmm6, %xmm7
	psrlw	$8, %xmm8
	pmullw	%xmm6, %xmm8
	pand	%xmm9, %xmm3
	pmullw	%xmm12, %xmm3
	psrlw	$8, %xmm9
	pmullw	%xmm12, %xmm9
	paddw	%xmm5, %xmm7
	paddw	%xmm5, %xmm3
	paddw	%xmm5, %xmm9
	paddw	%xmm5, %xmm8
	pmulhuw	%xmm4, %xmm3
	pmulhuw	%xmm4, %xmm7
	pmulhuw	%xmm4, %xmm8
	pmulhuw	%xmm4, %xmm9
	psllw	$8, %xmm9
	por	%xmm3, %xmm9
	psllw	$8, %xmm8
	por	%xmm7, %xmm8
	paddusb	%xmm11, %xmm9
	paddusb	%xmm10, %xmm8
	movdqu	%xmm8, (%rsi,%rcx)
	movdqu	%xmm9, 16(%rsi,%rcx)
	addq	$64, %rcx
	decq	%r12
	jne	.LBB19_4
.LBB19_5:
	cmpq	%r14, 96(%rsp)
	je	.LBB19_13
	movq	%r11, %rax
	imulq	16(%rsp), %rax
	addq	72(%rsp), %rax
	movq	64(%rsp), %rcx
	leaq	(%rcx,%r11), %rdx
	imulq	32(%rsp), %rdx
	addq	(%rsp), %rdx
	movq	8(%rsp), %rcx
	leaq	(%rcx,%rax,4), %rcx
	movq	24(%rsp), %rax
	leaq	(%rax,%rdx,4), %r12
	movq	56(%rsp), %rax
	addq	%rax, %rcx
	addq	%rax, %r12
	testb	$8, %r14b
	jne	.LBB19_7
	testb	$4, %r14b
	jne	.LBB19_9
.LBB19_10:
	cmpl	%r13d, %edi
	je	.LBB19_13
	jmp	.LBB19_11
	.p2align	4
.LBB19_7:
	movdqu	(%r12), %xmm3
	movdqu	16(%r12), %xmm4
	movdqa	.LCPI19_0(%rip), %xmm5
	movdqa	%xmm3, %xmm8
	pand	%xmm5, %xmm8
	movdqa	%xmm4, %xmm9
	pand	%xmm5, %xmm9
	pmullw	%xmm2, %xmm9
	pmullw	%xmm2, %xmm8
	movdqa	.LCPI19_1(%rip), %xmm6
	paddw	%xmm6, %xmm8
	paddw	%xmm6, %xmm9
	movdqa	.LCPI19_2(%rip), %xmm7
	pmulhuw	%xmm7, %xmm9
	pmulhuw	%xmm7, %xmm8
	psrlw	$8, %xmm4
	psrlw	$8, %xmm3
	pmullw	%xmm1, %xmm3
	pmullw	%xmm1, %xmm4
	paddw	%xmm6, %xmm4
	paddw	%xmm6, %xmm3
	pmulhuw	%xmm7, %xmm3
	pmulhuw	%xmm7, %xmm4
	psllw	$8, %xmm4
	por	%xmm9, %xmm4
	psllw	$8, %xmm3
	por	%xmm8, %xmm3
	movdqu	(%rcx), %xmm8
	movdqu	16(%rcx), %xmm9
	pcmpeqd	%xmm11, %xmm11
	movdqa	%xmm4, %xmm12
	pxor	%xmm11, %xmm12
	pxor	%xmm3, %xmm11
	movdqa	.LCPI19_3(%rip), %xmm10
	pshufb	%xmm10, %xmm11
	pshufb	%xmm10, %xmm12
	movdqa	%xmm8, %xmm10
	pand	%xmm5, %xmm10
	pand	%xmm9, %xmm5
	pmullw	%xmm12, %xmm5
	pmullw	%xmm11, %xmm10
	paddw	%xmm6, %xmm10
	paddw	%xmm6, %xmm5
	pmulhuw	%xmm7, %xmm5
	pmulhuw	%xmm7, %xmm10
	psrlw	$8, %xmm9
	psrlw	$8, %xmm8
	pmullw	%xmm11, %xmm8
	pmullw	%xmm12, %xmm9
	paddw	%xmm6, %xmm9
	paddw	%xmm6, %xmm8
	pmulhuw	%xmm7, %xmm8
	pmulhuw	%xmm7, %xmm9
	psllw	$8, %xmm9
	por	%xmm5, %xmm9
	psllw	$8, %xmm8
	por	%xmm10, %xmm8
	paddusb	%xmm4, %xmm9
	paddusb	%xmm3, %xmm8
	movdqu	%xmm8, (%rcx)
	movdqu	%xmm9, 16(%rcx)
	testb	$4, %r14b
	je	.LBB19_10
.LBB19_9:
	movq	48(%rsp), %rax
	movdqu	(%r12,%rax), %xmm3
	movdqa	.LCPI19_0(%rip), %xmm6
	movdqa	%xmm3, %xmm7
	pand	%xmm6, %xmm7
	pmullw	%xmm2, %xmm7
	movdqa	.LCPI19_1(%rip), %xmm4
	paddw	%xmm4, %xmm7
	movdqa	.LCPI19_2(%rip), %xmm5
	pmulhuw	%xmm5, %xmm7
	psrlw	$8, %xmm3
	pmullw	%xmm1, %xmm3
	paddw	%xmm4, %xmm3
	pmulhuw	%xmm5, %xmm3
	psllw	$8, %xmm3
	por	%xmm7, %xmm3
	movdqu	(%rcx,%rax), %xmm7
	pcmpeqd	%xmm8, %xmm8
	movdqa	%xmm3, %xmm9
	pshufb	.LCPI19_4(%rip), %xmm9
	pxor	%xmm9, %xmm8
	movdqa	%xmm7, %xmm10
	pand	%xmm6, %xmm10
	pandn	%xmm6, %xmm9
	pmullw	%xmm10, %xmm9
	paddw	%xmm4, %xmm9
	pmulhuw	%xmm5, %xmm9
	psrlw	$8, %xmm7
	psrlw	$8, %xmm8
	pmullw	%xmm7, %xmm8
	paddw	%xmm4, %xmm8
	pmulhuw	%xmm5, %xmm8
	psllw	$8, %xmm8
	por	%xmm9, %xmm8
	paddusb	%xmm3, %xmm8
	movdqu	%xmm8, (%rcx,%rax)
	cmpl	%r13d, %edi
	je	.LBB19_13
.LBB19_11:
	xorl	%ecx, %ecx
	.p2align	4
.LBB19_12:
	movl	(%r9,%rcx,4), %eax
	movl	(%r8,%rcx,4), %ebx
	movzbl	%bh, %edx
	movzbl	%bl, %r12d
	movd	%ebx, %xmm3
	shrl	$16, %ebx
	movzbl	%ah, %ebp
	movzbl	%al, %r15d
	movd	%eax, %xmm4
	shrl	$16, %eax
	movzbl	%al, %eax
	psrld	$24, %xmm4
	pinsrw	$1, %eax, %xmm4
	pinsrw	$2, %ebp, %xmm4
	pinsrw	$3, %r15d, %xmm4
	pmullw	%xmm0, %xmm4
	movdqa	.LCPI19_5(%rip), %xmm5
	paddw	%xmm5, %xmm4
	movdqa	%xmm4, %xmm6
	psrlw	$8, %xmm6
	paddw	%xmm4, %xmm6
	pextrb	$1, %xmm6, %eax
	movzbl	%bl, %ebx
	psrlw	$8, %xmm6
	packuswb	%xmm6, %xmm6
	xorl	$255, %eax
	movd	%eax, %xmm4
	psrld	$24, %xmm3
	pinsrw	$1, %ebx, %xmm3
	pinsrw	$2, %edx, %xmm3
	pinsrw	$3, %r12d, %xmm3
	pshuflw	$0, %xmm4, %xmm4
	pmullw	%xmm4, %xmm3
	paddw	%xmm5, %xmm3
	movdqa	%xmm3, %xmm4
	psrlw	$8, %xmm4
	paddw	%xmm3, %xmm4
	psrlw	$8, %xmm4
	packuswb	%xmm4, %xmm4
	paddusb	%xmm6, %xmm4
	pmovzxbd	%xmm4, %xmm3
	pmulld	.LCPI19_6(%rip), %xmm3
	pshufd	$238, %xmm3, %xmm4
	por	%xmm3, %xmm4
	pshufd	$85, %xmm4, %xmm3
	por	%xmm4, %xmm3
	movd	%xmm3, (%r8,%rcx,4)
	leaq	(%rdi,%rcx), %rax
	incq	%rax
	incq	%rcx
	cmpq	%r13, %rax
	jb	.LBB19_12
	jmp	.LBB19_13
.LBB19_14:
	movaps	112(%rsp), %xmm6
	movaps	128(%rsp), %xmm7
	movaps	144(%rsp), %xmm8
	movaps	160(%rsp), %xmm9
	movaps	176(%rsp), %xmm10
	movaps	192(%rsp), %xmm11
	movaps	208(%rsp), %xmm12
	movaps	224(%rsp), %xmm13
	movaps	240(%rsp), %xmm14
	addq	$264, %rsp
	popq	%rbx
	popq	%rbp
	popq	%rdi
	popq	%rsi
	popq	%r12
	popq	%r13
	popq	%r14
	popq	%r15
	retq

	.section	.rdata,"dr"
	.p2align	4, 0x0
.LCPI20_0:
	.byte	3
	.byte	128
	.byte	3
	.byte	128
	.byte	7
	.byte	128
	.byte	7
	.byte	128
	.byte	11
	.byte	128
	.byte	11
	.byte	128
	.byte	15
	.byte	128
	.byte	15
	.byte	128
.LCPI20_1:
	.byte	255
	.byte	0
	.byte	255
	.byte	0
	.byte	255
	.byte	0
	.byte	255
	.byte	0
	.byte	255
	.byte	0
	.byte	255
	.byte	0
	.byte	255
	.byte	0
	.byte	255
	.byte	0
.LCPI20_2:
	.short	128
	.short	128
	.short	128
	.short	128
	.short	128
	.short	128
	.short	128
	.short	128
.LCPI20_3:
	.zero	16,1
.LCPI20_4:
	.byte	3
	.byte	3
	.byte	3
	.byte	3
	.byte	7
	.byte	7
	.byte	7
	.byte	7
	.byte	11
	.byte	11
	.byte	11
	.byte	11
	.byte	15
	.byte	15
	.byte	15
	.byte	15
.LCPI20_5:
	.short	128
	.short	128
	.short	128
	.short	128
	.zero	2
	.zero	2
	.zero	2
	.zero	2
.LCPI20_6:
	.long	16777216
	.long	65536
	.long	256
	.long	1
	.section	".text$pix_raster::view::blit_overlap::<#88ae0de0b3775985>","xr"
	.p2align	4
"pix_raster::view::blit_overlap::<#88ae0de0b3775985>":
	pushq	%r15
	pushq	%r14
	pushq	%r13
	pushq	%r12
	pushq	%rsi
	pushq	%rdi
	pushq	%rbp
	pushq	%rbx
	subq	$264, %rsp
	movdqa	%xmm14, 240(%rsp)
	movdqa	%xmm13, 224(%rsp)
	movdqa	%xmm12, 208(%rsp)
	movdqa	%xmm11, 192(%rsp)
	movdqa	%xmm10, 176(%rsp)
	movdqa	%xmm9, 160(%rsp)
	movdqa	%xmm8, 144(%rsp)
	movdqa	%xmm7, 128(%rsp)
	movdqa	%xmm6, 112(%rsp)
	movq	%r9, 32(%rsp)
	movq	%r8, 24(%rsp)
	movq	%rdx, 16(%rsp)
	movq	%rcx, 8(%rsp)
	movq	368(%rsp), %rax
	movq	24(%rax), %r10
	movq	32(%rax), %rcx
	movq	%rcx, 104(%rsp)
	cmpq	%rcx, %r10
	jae	.LBB20_14
	movq	(%rax), %r12
	movq	16(%rax), %rbx
	movq	%rbx, (%rsp)
	movq	8(%rax), %r14
	movq	40(%rax), %rcx
	subq	%r12, %r14
	movq	%rcx, %rax
	subq	%r10, %rax
	movq	%rax, 64(%rsp)
	movq	%r14, %rax
	shrq	$4, %rax
	movq	%rax, 40(%rsp)
	movq	%r14, %rax
	andq	$-16, %rax
	movq	%rax, 96(%rsp)
	leaq	(,%rax,4), %r9
	movl	%r14d, %r13d
	andl	$15, %r13d
	leal	(,%r14,4), %edx
	movl	%edx, %eax
	andl	$32, %eax
	movq	%rax, 48(%rsp)
	movl	%r14d, %edi
	andl	$12, %edi
	movq	%r10, %rax
	movq	16(%rsp), %r15
	imulq	%r15, %rax
	leaq	(,%r12,4), %r8
	leaq	(%r8,%rax,4), %rsi
	movq	8(%rsp), %rbp
	addq	%rbp, %rsi
	movq	32(%rsp), %r11
	imulq	%r11, %rcx
	leaq	(,%rbx,4), %r8
	leaq	(%r8,%rcx,4), %rbx
	leaq	(%r9,%rcx,4), %rcx
	andl	$48, %edx
	addq	%rdx, %rcx
	movq	%r9, 56(%rsp)
	leaq	(%r9,%rax,4), %rax
	addq	%rdx, %rax
	leaq	(,%r15,4), %rdx
	movq	%rdx, 88(%rsp)
	movq	24(%rsp), %rdx
	addq	%rdx, %rbx
	movq	(%rsp), %r8
	leaq	(%rcx,%r8,4), %r9
	addq	%rdx, %r9
	movq	%r12, 72(%rsp)
	leaq	(%rax,%r12,4), %r8
	addq	%rbp, %r8
	leaq	(,%r11,4), %rax
	movq	%rax, 80(%rsp)
	jmp	.LBB20_2
	.p2align	4
.LBB20_13:
	incq	%r10
	movq	88(%rsp), %rax
	addq	%rax, %rsi
	movq	80(%rsp), %rcx
	addq	%rcx, %rbx
	addq	%rcx, %r9
	addq	%rax, %r8
	cmpq	104(%rsp), %r10
	je	.LBB20_14
.LBB20_2:
	cmpq	$0, 40(%rsp)
	je	.LBB20_5
	movl	$32, %ecx
	movq	40(%rsp), %r12
	.p2align	4
.LBB20_4:
	movdqu	-32(%rbx,%rcx), %xmm7
	movdqu	-16(%rbx,%rcx), %xmm8
	pcmpeqd	%xmm2, %xmm2
	movdqu	-32(%rsi,%rcx), %xmm9
	movdqu	-16(%rsi,%rcx), %xmm10
	movdqu	(%rsi,%rcx), %xmm0
	movdqu	16(%rsi,%rcx), %xmm1
	movdqa	%xmm10, %xmm12
	pxor	%xmm2, %xmm12
	movdqa	%xmm9, %xmm14
	pxor	%xmm2, %xmm14
	movdqa	.LCPI20_0(%rip), %xmm6
	pshufb	%xmm6, %xmm14
	pshufb	%xmm6, %xmm12
	movdqa	.LCPI20_1(%rip), %xmm3
	movdqa	%xmm7, %xmm11
	pand	%xmm3, %xmm11
	movdqa	%xmm8, %xmm13
	pand	%xmm3, %xmm13
	pmullw	%xmm12, %xmm13
	pmullw	%xmm14, %xmm11
	movdqa	.LCPI20_2(%rip), %xmm4
	paddw	%xmm4, %xmm11
	paddw	%xmm4, %xmm13
	movdqa	.LCPI20_3(%rip), %xmm5
	pmulhuw	%xmm5, %xmm13
	pmulhuw	%xmm5, %xmm11
	psrlw	$8, %xmm8
	psrlw	$8, %xmm7
	pmullw	%xmm14, %xmm7
	pmullw	%xmm12, %xmm8
	paddw	%xmm4, %xmm8
	paddw	%xmm4, %xmm7
	pmulhuw	%xmm5, %xmm7
	pmulhuw	%xmm5, %xmm8
	psllw	$8, %xmm8
	por	%xmm13, %xmm8
	psllw	$8, %xmm7
	por	%xmm11, %xmm7
	paddusb	%xmm10, %xmm8
	paddusb	%xmm9, %xmm7
	movdqu	%xmm7, -32(%rsi,%rcx)
	movdqu	%xmm8, -16(%rsi,%rcx)
	movdqu	(%rbx,%rcx), %xmm7
	movdqu	16(%rbx,%rcx), %xmm8
	movdqa	%xmm1, %xmm9
	pxor	%xmm2, %xmm9
	pxor	%xmm0, %xmm2
	pshufb	%xmm6, %xmm2
	pshufb	%xmm6, %xmm9
	movdqa	%xmm7, %xmm6
	pand	%xmm3, %xmm6
	pand	%xmm8, %xmm3
	pmullw	%xmm9, %xmm3
	pmullw	%xmm2, %xmm6
	paddw	%xmm4, %xmm6
	paddw	%xmm4, %xmm3
	pmulhuw	%xmm5, %xmm3
	pmulhuw	%xmm5, %xmm6
	psrlw	$8, %xmm8
	psrlw	$8, %xmm7
	pmullw	%xmm2, %xmm7
	pmullw	%xmm9, %xmm8
	paddw	%xmm4, %xmm8
	paddw	%xmm4, %xmm7
	pmulhuw	%xmm5, %xmm7
	pmulhuw	%xmm5, %xmm8
	psllw	$8, %xmm8
	por	%xmm3, %xmm8
	psllw	$8, %xmm7
	por	%xmm6, %xmm7
	paddusb	%xmm1, %xmm8
	paddusb	%xmm0, %xmm7
	movdqu	%xmm7, (%rsi,%rcx)
	movdqu	%xmm8, 16(%rsi,%rcx)
	addq	$64, %rcx
	decq	%r12
	jne	.LBB20_4
.LBB20_5:
	cmpq	%r14, 96(%rsp)
	je	.LBB20_13
	movq	%r10, %rax
	imulq	16(%rsp), %rax
	addq	72(%rsp), %rax
	movq	64(%rsp), %rcx
	leaq	(%rcx,%r10), %rdx
	imulq	32(%rsp), %rdx
	addq	(%rsp), %rdx
	movq	8(%rsp), %rcx
	leaq	(%rcx,%rax,4), %rcx
	movq	24(%rsp), %rax
	leaq	(%rax,%rdx,4), %r12
	movq	56(%rsp), %rax
	addq	%rax, %rcx
	addq	%rax, %r12
	testb	$8, %r14b
	jne	.LBB20_7
	testb	$4, %r14b
	jne	.LBB20_9
.LBB20_10:
	cmpl	%r13d, %edi
	je	.LBB20_13
	jmp	.LBB20_11
	.p2align	4
.LBB20_7:
	movdqu	(%r12), %xmm0
	movdqu	16(%r12), %xmm1
	movdqu	(%rcx), %xmm2
	movdqu	16(%rcx), %xmm3
	pcmpeqd	%xmm7, %xmm7
	movdqa	%xmm3, %xmm6
	pxor	%xmm7, %xmm6
	pxor	%xmm2, %xmm7
	movdqa	.LCPI20_0(%rip), %xmm4
	pshufb	%xmm4, %xmm7
	pshufb	%xmm4, %xmm6
	movdqa	.LCPI20_1(%rip), %xmm5
	movdqa	%xmm0, %xmm4
	pand	%xmm5, %xmm4
	pand	%xmm1, %xmm5
	pmullw	%xmm6, %xmm5
	pmullw	%xmm7, %xmm4
	movdqa	.LCPI20_2(%rip), %xmm8
	paddw	%xmm8, %xmm4
	paddw	%xmm8, %xmm5
	movdqa	.LCPI20_3(%rip), %xmm9
	pmulhuw	%xmm9, %xmm5
	pmulhuw	%xmm9, %xmm4
	psrlw	$8, %xmm1
	psrlw	$8, %xmm0
	pmullw	%xmm7, %xmm0
	pmullw	%xmm6, %xmm1
	paddw	%xmm8, %xmm1
	paddw	%xmm8, %xmm0
	pmulhuw	%xmm9, %xmm0
	pmulhuw	%xmm9, %xmm1
	psllw	$8, %xmm1
	por	%xmm5, %xmm1
	psllw	$8, %xmm0
	por	%xmm4, %xmm0
	paddusb	%xmm3, %xmm1
	paddusb	%xmm2, %xmm0
	movdqu	%xmm0, (%rcx)
	movdqu	%xmm1, 16(%rcx)
	testb	$4, %r14b
	je	.LBB20_10
.LBB20_9:
	movq	48(%rsp), %rax
	movdqu	(%r12,%rax), %xmm1
	movdqu	(%rcx,%rax), %xmm0
	movdqa	%xmm0, %xmm2
	pshufb	.LCPI20_4(%rip), %xmm2
	pcmpeqd	%xmm3, %xmm3
	pxor	%xmm2, %xmm3
	movdqa	.LCPI20_1(%rip), %xmm4
	movdqa	%xmm1, %xmm5
	pand	%xmm4, %xmm5
	pandn	%xmm4, %xmm2
	pmullw	%xmm5, %xmm2
	movdqa	.LCPI20_2(%rip), %xmm4
	paddw	%xmm4, %xmm2
	movdqa	.LCPI20_3(%rip), %xmm5
	pmulhuw	%xmm5, %xmm2
	psrlw	$8, %xmm1
	psrlw	$8, %xmm3
	pmullw	%xmm1, %xmm3
	paddw	%xmm4, %xmm3
	pmulhuw	%xmm5, %xmm3
	psllw	$8, %xmm3
	por	%xmm2, %xmm3
	paddusb	%xmm0, %xmm3
	movdqu	%xmm3, (%rcx,%rax)
	cmpl	%r13d, %edi
	je	.LBB20_13
.LBB20_11:
	xorl	%ecx, %ecx
	.p2align	4
.LBB20_12:
	movl	(%r9,%rcx,4), %eax
	movzbl	%ah, %edx
	movzbl	%al, %r11d
	movd	%eax, %xmm0
	shrl	$16, %eax
	movzbl	%al, %eax
	movl	(%r8,%rcx,4), %r15d
	movl	%r15d, %r12d
	shrl	$24, %r12d
	movl	%r12d, %ebp
	notb	%bpl
	movzbl	%bpl, %ebp
	movd	%ebp, %xmm1
	psrld	$24, %xmm0
	pinsrw	$1, %eax, %xmm0
	pinsrw	$2, %edx, %xmm0
	pinsrw	$3, %r11d, %xmm0
	pshuflw	$0, %xmm1, %xmm1
	pmullw	%xmm1, %xmm0
	paddw	.LCPI20_5(%rip), %xmm0
	movd	%r12d, %xmm1
	movdqa	%xmm0, %xmm2
	psrlw	$8, %xmm2
	paddw	%xmm0, %xmm2
	movl	%r15d, %eax
	shrl	$8, %eax
	movl	%r15d, %edx
	shrl	$16, %edx
	psrlw	$8, %xmm2
	packuswb	%xmm2, %xmm2
	pinsrb	$1, %edx, %xmm1
	pinsrb	$2, %eax, %xmm1
	pinsrb	$3, %r15d, %xmm1
	paddusb	%xmm2, %xmm1
	pmovzxbd	%xmm1, %xmm0
	pmulld	.LCPI20_6(%rip), %xmm0
	pshufd	$238, %xmm0, %xmm1
	por	%xmm0, %xmm1
	pshufd	$85, %xmm1, %xmm0
	por	%xmm1, %xmm0
	movd	%xmm0, (%r8,%rcx,4)
	leaq	(%rdi,%rcx), %rax
	incq	%rax
	incq	%rcx
	cmpq	%r13, %rax
	jb	.LBB20_12
	jmp	.LBB20_13
.LBB20_14:
	movaps	112(%rsp), %xmm6
	movaps	128(%rsp), %xmm7
	movaps	144(%rsp), %xmm8
	movaps	160(%rsp), %xmm9
	movaps	176(%rsp), %xmm10
	movaps	192(%rsp), %xmm11
	movaps	208(%rsp), %xmm12
	movaps	224(%rsp), %xmm13
	movaps	240(%rsp), %xmm14
	addq	$264, %rsp
	popq	%rbx
	popq	%rbp
	popq	%rdi
	popq	%rsi
	popq	%r12
	popq	%r13
	popq	%r14
	popq	%r15
	retq

	.section	.rdata,"dr"
	.p2align	4, 0x0
.LCPI21_0:
	.byte	255
	.byte	0
	.byte	255
	.byte	0
	.byte	255
	.byte	0
	.byte	255
	.byte	0
	.byte	255
	.byte	0
	.byte	255
	.byte	0
	.byte	255
	.byte	0
	.byte	255
	.byte	0
.LCPI21_1:
	.short	128
	.short	128
	.short	128
	.short	128
	.short	128
	.short	128
	.short	128
	.short	128
.LCPI21_2:
	.zero	16,1
.LCPI21_3:
	.byte	3
	.byte	128
	.byte	3
	.byte	128
	.byte	7
	.byte	128
	.byte	7
	.byte	128
	.byte	11
	.byte	128
	.byte	11
	.byte	128
	.byte	15
	.byte	128
	.byte	15
	.byte	128
.LCPI21_4:
	.byte	3
	.byte	3
	.byte	3
	.byte	3
	.byte	7
	.byte	7
	.byte	7
	.byte	7
	.byte	11
	.byte	11
	.byte	11
	.byte	11
	.byte	15
	.byte	15
	.byte	15
	.byte	15
.LCPI21_5:
	.short	128
	.short	128
	.short	128
	.short	128
	.zero	2
	.zero	2
	.zero	2
	.zero	2
.LCPI21_6:
	.long	65536
	.long	16777216
	.long	256
	.long	1
	.section	".text$pix_raster::view::blit_overlap::<#7a2e6a0a1e536be3>","xr"
	.p2align	4
"pix_raster::view::blit_overlap::<#7a2e6a0a1e536be3>":
	pushq	%r15
	pushq	%r14
	pushq	%r13
	pushq	%r12
	pushq	%rsi
	pushq	%rdi
	pushq	%rbp
	pushq	%rbx
	subq	$232, %rsp
	movdqa	%xmm14, 208(%rsp)
	movdqa	%xmm13, 192(%rsp)
	movdqa	%xmm12, 176(%rsp)
	movdqa	%xmm11, 160(%rsp)
	movdqa	%xmm10, 144(%rsp)
	movdqa	%xmm9, 128(%rsp)
	movdqa	%xmm8, 112(%rsp)
	movdqa	%xmm7, 96(%rsp)
	movdqa	%xmm6, 80(%rsp)
	movq	%rdx, 24(%rsp)
	movq	%rcx, 16(%rsp)
	movq	336(%rsp), %rcx
	movq	24(%rcx), %rax
	movq	32(%rcx), %rdx
	movq	%rdx, 72(%rsp)
	cmpq	%rdx, %rax
	jae	.LBB21_18
	movl	344(%rsp), %r10d
	movq	(%rcx), %rbp
	movq	16(%rcx), %r11
	leaq	(%r8,%r11), %rdx
	movq	%rdx, 48(%rsp)
	movq	8(%rcx), %r15
	movq	40(%rcx), %rcx
	subq	%rbp, %r15
	movq	%rcx, %rdx
	subq	%rax, %rdx
	movq	%rdx, 40(%rsp)
	movq	%r15, %r12
	shrq	$4, %r12
	movl	%r10d, %ebx
	shrl	$24, %ebx
	movl	%r10d, %esi
	movl	%r10d, %r14d
	shrl	$16, %esi
	movl	%r10d, %edx
	shrl	$8, %edx
	movd	%r10d, %xmm0
	pinsrb	$1, %edx, %xmm0
	pinsrb	$2, %esi, %xmm0
	pinsrb	$3, %ebx, %xmm0
	pinsrb	$4, %r10d, %xmm0
	pinsrb	$5, %edx, %xmm0
	pinsrb	$6, %esi, %xmm0
	pinsrb	$7, %ebx, %xmm0
	pinsrb	$8, %r10d, %xmm0
	pinsrb	$9, %edx, %xmm0
	pinsrb	$10, %esi, %xmm0
	pinsrb	$11, %ebx, %xmm0
	pinsrb	$12, %r10d, %xmm0
	pinsrb	$13, %edx, %xmm0
	pinsrb	$14, %esi, %xmm0
	movdqa	.LCPI21_0(%rip), %xmm1
	pand	%xmm0, %xmm1
	pinsrb	$15, %ebx, %xmm0
	psrlw	$8, %xmm0
	movq	%r15, %r10
	andq	$-16, %r10
	movl	%r15d, %r13d
	andl	$15, %r13d
	movl	%r15d, %edx
	andl	$8, %edx
	movq	%rdx, 8(%rsp)
	movzbl	%sil, %edx
	movd	%edx, %xmm2
	movl	%r15d, %edi
	andl	$12, %edi
	pinsrw	$1, %ebx, %xmm2
	movl	%r14d, %ebx
	movzbl	%bh, %edx
	movzbl	%bl, %esi
	pinsrw	$2, %edx, %xmm2
	pinsrw	$3, %esi, %xmm2
	movq	%r12, 64(%rsp)
	leaq	(,%r12,4), %rsi
	movq	%rax, %rdx
	movq	24(%rsp), %r14
	imulq	%r14, %rdx
	imulq	%r9, %rcx
	addq	%r11, %rcx
	leaq	(%r10,%rdi), %rbx
	addq	%r8, %rbx
	addq	%rcx, %r8
	addq	$8, %r8
	addq	%rcx, %rbx
	leaq	(%rdx,%rbp), %rcx
	movq	16(%rsp), %r11
	leaq	(%r11,%rcx,4), %r12
	leaq	(,%r10,4), %rcx
	leaq	(%rcx,%rdx,4), %rcx
	movq	%rdi, 32(%rsp)
	leaq	(%rcx,%rdi,4), %rcx
	movq	%r10, %rdi
	movq	%rbp, 56(%rsp)
	leaq	(%rcx,%rbp,4), %rdx
	addq	%r11, %rdx
	leaq	(,%r14,4), %rcx
	jmp	.LBB21_2
	.p2align	4
.LBB21_17:
	incq	%rax
	addq	%rcx, %r12
	addq	%r9, %r8
	addq	%r9, %rbx
	addq	%rcx, %rdx
	cmpq	72(%rsp), %rax
	je	.LBB21_18
.LBB21_2:
	cmpq	$0, 64(%rsp)
	je	.LBB21_7
	xorl	%ebp, %ebp
	movq	%r12, %r11
	jmp	.LBB21_4
	.p2align	4
.LBB21_6:
	addq	$4, %rbp
	addq	$64, %r11
	cmpq	%rbp, %rsi
	je	.LBB21_7
.LBB21_4:
	movq	-8(%r8,%rbp,4), %r10
	movq	(%r8,%rbp,4), %r14
	orq	%r10, %r14
	je	.LBB21_6
	movq	%r10, %xmm9
	punpcklbw	%xmm9, %xmm9
	movdqa	%xmm9, %xmm10
	punpckhwd	%xmm9, %xmm10
	punpcklwd	%xmm9, %xmm9
	movdqa	.LCPI21_0(%rip), %xmm3
	movdqa	%xmm9, %xmm7
	pand	%xmm3, %xmm7
	movdqa	%xmm10, %xmm8
	pand	%xmm3, %xmm8
	pmullw	%xmm1, %xmm8
	pmullw	%xmm1, %xmm7
	movdqa	.LCPI21_1(%rip), %xmm5
	paddw	%xmm5, %xmm7
	paddw	%xmm5, %xmm8
	movdqa	.LCPI21_2(%rip), %xmm4
	pmulhuw	%xmm4, %xmm8
	pmulhuw	%xmm4, %xmm7
	psrlw	$8, %xmm10
	psrlw	$8, %xmm9
	pmullw	%xmm0, %xmm9
	pmullw	%xmm0, %xmm10
	paddw	%xmm5, %xmm10
	paddw	%xmm5, %xmm9
	pmulhuw	%xmm4, %xmm9
	pmulhuw	%xmm4, %xmm10
	psllw	$8, %xmm10
	psllw	$8, %xmm9
	pcmpeqd	%xmm6, %xmm6
	movdqu	(%r11), %xmm12
	movdqu	16(%r11), %xmm13
	movdqa	%xmm12, %xmm14
	pxor	%xmm6, %xmm14
	movdqa	.LCPI21_3(%rip), %xmm11
	pshufb	%xmm11, %xmm14
	por	%xmm7, %xmm9
	pmullw	%xmm14, %xmm7
	psrlw	$8, %xmm9
	pmullw	%xmm14, %xmm9
	movdqa	%xmm13, %xmm14
	pxor	%xmm6, %xmm14
	pshufb	%xmm11, %xmm14
	por	%xmm8, %xmm10
	pmullw	%xmm14, %xmm8
	psrlw	$8, %xmm10
	pmullw	%xmm14, %xmm10
	paddw	%xmm5, %xmm8
	pmulhuw	%xmm4, %xmm8
	paddw	%xmm5, %xmm10
	pmulhuw	%xmm4, %xmm10
	psllw	$8, %xmm10
	por	%xmm8, %xmm10
	paddw	%xmm5, %xmm7
	pmulhuw	%xmm4, %xmm7
	paddw	%xmm5, %xmm9
	pmulhuw	%xmm4, %xmm9
	psllw	$8, %xmm9
	por	%xmm7, %xmm9
	movdqu	32(%r11), %xmm7
	paddusb	%xmm13, %xmm10
	movdqu	48(%r11), %xmm8
	paddusb	%xmm12, %xmm9
	movdqu	%xmm9, (%r11)
	movdqu	%xmm10, 16(%r11)
	movq	(%r8,%rbp,4), %xmm9
	punpcklbw	%xmm9, %xmm9
	movdqa	%xmm9, %xmm10
	punpcklwd	%xmm9, %xmm9
	movdqa	%xmm8, %xmm12
	pxor	%xmm6, %xmm12
	pxor	%xmm7, %xmm6
	pshufb	%xmm11, %xmm6
	pshufb	%xmm11, %xmm12
	movdqa	%xmm9, %xmm11
	pand	%xmm3, %xmm11
	pmullw	%xmm1, %xmm11
	paddw	%xmm5, %xmm11
	pmulhuw	%xmm4, %xmm11
	psrlw	$8, %xmm9
	pmullw	%xmm0, %xmm9
	paddw	%xmm5, %xmm9
	pmulhuw	%xmm4, %xmm9
	psllw	$8, %xmm9
	por	%xmm11, %xmm9
	pmullw	%xmm6, %xmm11
	psrlw	$8, %xmm9
	pmullw	%xmm6, %xmm9
	punpckhwd	%xmm10, %xmm10
	pand	%xmm10, %xmm3
	pmullw	%xmm1, %xmm3
	paddw	%xmm5, %xmm3
	pmulhuw	%xmm4, %xmm3
	psrlw	$8, %xmm10
	pmullw	%xmm0, %xmm10
	paddw	%xmm5, %xmm10
	pmulhuw	%xmm4, %xmm10
	psllw	$8, %xmm10
	por	%xmm3, %xmm10
	pmullw	%xmm12, %xmm3
	psrlw	$8, %xmm10
	pmullw	%xmm12, %xmm10
	paddw	%xmm5, %xmm11
	paddw	%xmm5, %xmm3
	paddw	%xmm5, %xmm10
	paddw	%xmm5, %xmm9
	pmulhuw	%xmm4, %xmm3
	pmulhuw	%xmm4, %xmm11
	pmulhuw	%xmm4, %xmm9
	pmulhuw	%xmm4, %xmm10
	psllw	$8, %xmm10
	por	%xmm3, %xmm10
	psllw	$8, %xmm9
	por	%xmm11, %xmm9
	paddusb	%xmm8, %xmm10
	paddusb	%xmm7, %xmm9
	movdqu	%xmm9, 32(%r11)
	movdqu	%xmm10, 48(%r11)
	jmp	.LBB21_6
	.p2align	4
.LBB21_7:
	cmpq	%r15, %rdi
	je	.LBB21_17
	movq	%rax, %r10
	imulq	24(%rsp), %r10
	addq	56(%rsp), %r10
	movq	40(%rsp), %r11
	leaq	(%r11,%rax), %rbp
	imulq	%r9, %rbp
	addq	48(%rsp), %rbp
	movq	16(%rsp), %r11
	leaq	(%r11,%r10,4), %r11
	leaq	(,%rdi,4), %r10
	addq	%r10, %r11
	addq	%rdi, %rbp
	testb	$8, %r15b
	je	.LBB21_11
	movq	(%rbp), %r10
	testq	%r10, %r10
	je	.LBB21_11
	movq	%r10, %xmm3
	punpcklbw	%xmm3, %xmm3
	movdqa	%xmm3, %xmm4
	punpckhwd	%xmm3, %xmm4
	punpcklwd	%xmm3, %xmm3
	movdqa	.LCPI21_0(%rip), %xmm6
	movdqa	%xmm3, %xmm5
	pand	%xmm6, %xmm5
	pand	%xmm4, %xmm6
	pmullw	%xmm1, %xmm6
	pmullw	%xmm1, %xmm5
	movdqa	.LCPI21_1(%rip), %xmm7
	paddw	%xmm7, %xmm5
	paddw	%xmm7, %xmm6
	movdqa	.LCPI21_2(%rip), %xmm8
	pmulhuw	%xmm8, %xmm6
	pmulhuw	%xmm8, %xmm5
	psrlw	$8, %xmm4
	psrlw	$8, %xmm3
	pmullw	%xmm0, %xmm3
	pmullw	%xmm0, %xmm4
	paddw	%xmm7, %xmm4
	paddw	%xmm7, %xmm3
	pmulhuw	%xmm8, %xmm3
	pmulhuw	%xmm8, %xmm4
	psllw	$8, %xmm4
	psllw	$8, %xmm3
	movdqu	(%r11), %xmm9
	movdqu	16(%r11), %xmm10
	pcmpeqd	%xmm11, %xmm11
	movdqa	%xmm10, %xmm12
	pxor	%xmm11, %xmm12
	pxor	%xmm9, %xmm11
	movdqa	.LCPI21_3(%rip), %xmm13
	pshufb	%xmm13, %xmm11
	pshufb	%xmm13, %xmm12
	por	%xmm5, %xmm3
	por	%xmm6, %xmm4
	pmullw	%xmm12, %xmm6
	pmullw	%xmm11, %xmm5
	paddw	%xmm7, %xmm5
	paddw	%xmm7, %xmm6
	pmulhuw	%xmm8, %xmm6
	pmulhuw	%xmm8, %xmm5
	psrlw	$8, %xmm4
	psrlw	$8, %xmm3
	pmullw	%xmm11, %xmm3
	pmullw	%xmm12, %xmm4
	paddw	%xmm7, %xmm4
	paddw	%xmm7, %xmm3
	pmulhuw	%xmm8, %xmm3
	pmulhuw	%xmm8, %xmm4
	psllw	$8, %xmm4
	por	%xmm6, %xmm4
	psllw	$8, %xmm3
	por	%xmm5, %xmm3
	paddusb	%xmm10, %xmm4
	paddusb	%xmm9, %xmm3
	movdqu	%xmm3, (%r11)
	movdqu	%xmm4, 16(%r11)
.LBB21_11:
	testb	$4, %r15b
	je	.LBB21_14
	movq	8(%rsp), %r10
	movl	(%rbp,%r10), %r10d
	testl	%r10d, %r10d
	je	.LBB21_14
	movd	%r10d, %xmm3
	punpcklbw	%xmm3, %xmm3
	punpcklwd	%xmm3, %xmm3
	movdqa	.LCPI21_0(%rip), %xmm6
	movdqa	%xmm3, %xmm7
	pand	%xmm6, %xmm7
	pmullw	%xmm1, %xmm7
	movdqa	.LCPI21_1(%rip), %xmm4
	paddw	%xmm4, %xmm7
	movdqa	.LCPI21_2(%rip), %xmm5
	pmulhuw	%xmm5, %xmm7
	psrlw	$8, %xmm3
	pmullw	%xmm0, %xmm3
	paddw	%xmm4, %xmm3
	pmulhuw	%xmm5, %xmm3
	psllw	$8, %xmm3
	movq	8(%rsp), %r10
	movdqu	(%r11,%r10,4), %xmm8
	pcmpeqd	%xmm9, %xmm9
	por	%xmm7, %xmm3
	movdqa	%xmm8, %xmm10
	pshufb	.LCPI21_4(%rip), %xmm10
	pxor	%xmm10, %xmm9
	pandn	%xmm6, %xmm10
	pmullw	%xmm7, %xmm10
	paddw	%xmm4, %xmm10
	pmulhuw	%xmm5, %xmm10
	psrlw	$8, %xmm3
	psrlw	$8, %xmm9
	pmullw	%xmm3, %xmm9
	paddw	%xmm4, %xmm9
	pmulhuw	%xmm5, %xmm9
	psllw	$8, %xmm9
	por	%xmm10, %xmm9
	paddusb	%xmm8, %xmm9
	movdqu	%xmm9, (%r11,%r10,4)
.LBB21_14:
	cmpl	%r13d, 32(%rsp)
	je	.LBB21_17
	xorl	%r11d, %r11d
	movq	32(%rsp), %rbp
	.p2align	4
.LBB21_16:
	movzbl	(%rbx,%r11), %r10d
	movd	%r10d, %xmm3
	pshuflw	$0, %xmm3, %xmm5
	pmullw	%xmm2, %xmm5
	movl	(%rdx,%r11,4), %r14d
	movl	%r14d, %r10d
	shrl	$24, %r10d
	movdqa	.LCPI21_5(%rip), %xmm3
	paddw	%xmm3, %xmm5
	movdqa	%xmm5, %xmm4
	psrlw	$8, %xmm4
	paddw	%xmm5, %xmm4
	psrlw	$8, %xmm4
	movd	%r14d, %xmm5
	psrld	$16, %xmm5
	pinsrb	$1, %r10d, %xmm5
	notb	%r10b
	movzbl	%r10b, %r10d
	movd	%r10d, %xmm6
	pshuflw	$0, %xmm6, %xmm6
	pmullw	%xmm4, %xmm6
	movl	%r14d, %r10d
	shrl	$8, %r10d
	paddw	%xmm3, %xmm6
	movdqa	%xmm6, %xmm3
	psrlw	$8, %xmm3
	paddw	%xmm6, %xmm3
	psrlw	$8, %xmm3
	packuswb	%xmm3, %xmm3
	pinsrb	$2, %r10d, %xmm5
	pinsrb	$3, %r14d, %xmm5
	paddusb	%xmm3, %xmm5
	pmovzxbd	%xmm5, %xmm3
	pmulld	.LCPI21_6(%rip), %xmm3
	pshufd	$238, %xmm3, %xmm4
	por	%xmm3, %xmm4
	pshufd	$85, %xmm4, %xmm3
	por	%xmm4, %xmm3
	movd	%xmm3, (%rdx,%r11,4)
	incq	%rbp
	incq	%r11
	cmpq	%r13, %rbp
	jb	.LBB21_16
	jmp	.LBB21_17
.LBB21_18:
	movaps	80(%rsp), %xmm6
	movaps	96(%rsp), %xmm7
	movaps	112(%rsp), %xmm8
	movaps	128(%rsp), %xmm9
	movaps	144(%rsp), %xmm10
	movaps	160(%rsp), %xmm11
	movaps	176(%rsp), %xmm12
	movaps	192(%rsp), %xmm13
	movaps	208(%rsp), %xmm14
	addq	$232, %rsp
	popq	%rbx
	popq	%rbp
	popq	%rdi
	popq	%rsi
	popq	%r12
	popq	%r13
	popq	%r14
	popq	%r15
	retq

	.section	.rdata,"dr"
	.p2align	4, 0x0
.LCPI22_0:
	.byte	255
	.byte	0
	.byte	255
	.byte	0
	.byte	255
	.byte	0
	.byte	255
	.byte	0
	.byte	255
	.byte	0
	.byte	255
	.byte	0
	.byte	255
	.byte	0
	.byte	255
	.byte	0
.LCPI22_1:
	.short	128
	.short	128
	.short	128
	.short	128
	.short	128
	.short	128
	.short	128
	.short	128
.LCPI22_2:
	.zero	16,1
.LCPI22_3:
	.byte	3
	.byte	128
	.byte	3
	.byte	128
	.byte	7
	.byte	128
	.byte	7
	.byte	128
	.byte	11
	.byte	128
	.byte	11
	.byte	128
	.byte	15
	.byte	128
	.byte	15
	.byte	128
.LCPI22_4:
	.byte	3
	.byte	3
	.byte	3
	.byte	3
	.byte	7
	.byte	7
	.byte	7
	.byte	7
	.byte	11
	.byte	11
	.byte	11
	.byte	11
	.byte	15
	.byte	15
	.byte	15
	.byte	15
.LCPI22_5:
	.short	128
	.short	128
	.short	128
	.short	128
	.zero	2
	.zero	2
	.zero	2
	.zero	2
.LCPI22_6:
	.long	65536
	.long	16777216
	.long	256
	.long	1
	.section	".text$pix_raster::view::blit_overlap::<#d778ccf2d5486893>","xr"
	.p2align	4
"pix_raster::view::blit_overlap::<#d778ccf2d5486893>":
	pushq	%r15
	pushq	%r14
	pushq	%r13
	pushq	%r12
	pushq	%rsi
	pushq	%rdi
	pushq	%rbp
	pushq	%rbx
	subq	$264, %rsp
	movdqa	%xmm14, 240(%rsp)
	movdqa	%xmm13, 224(%rsp)
	movdqa	%xmm12, 208(%rsp)
	movdqa	%xmm11, 192(%rsp)
	movdqa	%xmm10, 176(%rsp)
	movdqa	%xmm9, 160(%rsp)
	movdqa	%xmm8, 144(%rsp)
	movdqa	%xmm7, 128(%rsp)
	movdqa	%xmm6, 112(%rsp)
	movq	%r9, 48(%rsp)
	movq	%r8, 40(%rsp)
	movq	%rdx, 32(%rsp)
	movq	%rcx, 24(%rsp)
	movq	368(%rsp), %rax
	movq	24(%rax), %r11
	movq	32(%rax), %rcx
	movq	%rcx, 104(%rsp)
	cmpq	%rcx, %r11
	jae	.LBB22_14
	movq	(%rax), %r8
	movq	16(%rax), %r15
	movq	%r15, 8(%rsp)
	movq	8(%rax), %r14
	movq	40(%rax), %rcx
	subq	%r8, %r14
	movq	%r8, 16(%rsp)
	movq	%rcx, %rax
	subq	%r11, %rax
	movq	%rax, 72(%rsp)
	movq	%r14, %rbp
	shrq	$4, %rbp
	movzbl	376(%rsp), %eax
	movd	%eax, %xmm1
	pxor	%xmm2, %xmm2
	pshuflw	$0, %xmm1, %xmm0
	pshufb	%xmm2, %xmm1
	movdqa	.LCPI22_0(%rip), %xmm2
	pand	%xmm1, %xmm2
	psrlw	$8, %xmm1
	movq	%r14, %rax
	andq	$-16, %rax
	movq	%rax, 96(%rsp)
	leaq	(,%rax,4), %r9
	movl	%r14d, %r13d
	andl	$15, %r13d
	leal	(,%r14,4), %eax
	movl	%eax, %edx
	andl	$32, %edx
	movq	%rdx, 56(%rsp)
	movl	%r14d, %edi
	andl	$12, %edi
	movq	%r11, %rdx
	movq	32(%rsp), %rbx
	imulq	%rbx, %rdx
	leaq	(,%r8,4), %r8
	leaq	(%r8,%rdx,4), %rsi
	movq	24(%rsp), %r12
	addq	%r12, %rsi
	movq	48(%rsp), %r10
	imulq	%r10, %rcx
	leaq	(,%r15,4), %r8
	leaq	(%r8,%rcx,4), %r15
	leaq	(%r9,%rcx,4), %rcx
	andl	$48, %eax
	addq	%rax, %rcx
	movq	%r9, 64(%rsp)
	leaq	(%r9,%rdx,4), %rdx
	addq	%rax, %rdx
	leaq	(,%rbx,4), %rax
	movq	%rax, 88(%rsp)
	movq	40(%rsp), %rax
	addq	%rax, %r15
	movq	8(%rsp), %r8
	leaq	(%rcx,%r8,4), %r9
	addq	%rax, %r9
	movq	16(%rsp), %rax
	leaq	(%rdx,%rax,4), %r8
	addq	%r12, %r8
	leaq	(,%r10,4), %rax
	movq	%rax, 80(%rsp)
	jmp	.LBB22_2
	.p2align	4
.LBB22_13:
	incq	%r11
	movq	88(%rsp), %rax
	addq	%rax, %rsi
	movq	80(%rsp), %rcx
	addq	%rcx, %r15
	addq	%rcx, %r9
	addq	%rax, %r8
	cmpq	104(%rsp), %r11
	je	.LBB22_14
.LBB22_2:
	testq	%rbp, %rbp
	je	.LBB22_5
	movl	$32, %ecx
	movq	%rbp, %r12
	.p2align	4
.LBB22_4:
	movdqu	-32(%r15,%rcx), %xmm9
	movdqu	-16(%r15,%rcx), %xmm10
	movdqa	.LCPI22_0(%rip), %xmm3
	movdqa	%xmm9, %xmm7
	pand	%xmm3, %xmm7
	movdqa	%xmm10, %xmm8
	pand	%xmm3, %xmm8
	pmullw	%xmm2, %xmm8
	pmullw	%xmm2, %xmm7
	movdqa	.LCPI22_1(%rip), %xmm5
	paddw	%xmm5, %xmm7
	paddw	%xmm5, %xmm8
	movdqa	.LCPI22_2(%rip), %xmm4
	pmulhuw	%xmm4, %xmm8
	pmulhuw	%xmm4, %xmm7
	psrlw	$8, %xmm10
	psrlw	$8, %xmm9
	pmullw	%xmm1, %xmm9
	pmullw	%xmm1, %xmm10
	paddw	%xmm5, %xmm10
	paddw	%xmm5, %xmm9
	pmulhuw	%xmm4, %xmm9
	pmulhuw	%xmm4, %xmm10
	psllw	$8, %xmm10
	psllw	$8, %xmm9
	pcmpeqd	%xmm6, %xmm6
	movdqu	-32(%rsi,%rcx), %xmm12
	movdqu	-16(%rsi,%rcx), %xmm13
	movdqa	%xmm12, %xmm14
	pxor	%xmm6, %xmm14
	movdqa	.LCPI22_3(%rip), %xmm11
	pshufb	%xmm11, %xmm14
	por	%xmm7, %xmm9
	pmullw	%xmm14, %xmm7
	psrlw	$8, %xmm9
	pmullw	%xmm14, %xmm9
	movdqa	%xmm13, %xmm14
	pxor	%xmm6, %xmm14
	pshufb	%xmm11, %xmm14
	por	%xmm8, %xmm10
	pmullw	%xmm14, %xmm8
	psrlw	$8, %xmm10
	pmullw	%xmm14, %xmm10
	paddw	%xmm5, %xmm8
	pmulhuw	%xmm4, %xmm8
	paddw	%xmm5, %xmm10
	pmulhuw	%xmm4, %xmm10
	psllw	$8, %xmm10
	por	%xmm8, %xmm10
	paddw	%xmm5, %xmm7
	pmulhuw	%xmm4, %xmm7
	paddw	%xmm5, %xmm9
	pmulhuw	%xmm4, %xmm9
	psllw	$8, %xmm9
	por	%xmm7, %xmm9
	paddusb	%xmm13, %xmm10
	movdqu	(%rsi,%rcx), %xmm7
	paddusb	%xmm12, %xmm9
	movdqu	16(%rsi,%rcx), %xmm8
	movdqu	%xmm9, -32(%rsi,%rcx)
	movdqu	%xmm10, -16(%rsi,%rcx)
	movdqu	(%r15,%rcx), %xmm9
	movdqa	%xmm8, %xmm12
	pxor	%xmm6, %xmm12
	pxor	%xmm7, %xmm6
	pshufb	%xmm11, %xmm6
	pshufb	%xmm11, %xmm12
	movdqa	%xmm9, %xmm10
	pand	%xmm3, %xmm10
	pmullw	%xmm2, %xmm10
	paddw	%xmm5, %xmm10
	pmulhuw	%xmm4, %xmm10
	psrlw	$8, %xmm9
	pmullw	%xmm1, %xmm9
	paddw	%xmm5, %xmm9
	pmulhuw	%xmm4, %xmm9
	psllw	$8, %xmm9
	por	%xmm10, %xmm9
	pmullw	%xmm6, %xmm10
	psrlw	$8, %xmm9
	pmullw	%xmm6, %xmm9
	movdqu	16(%r15,%rcx), %xmm6
	pand	%xmm6, %xmm3
	pmullw	%xmm2, %xmm3
	paddw	%xmm5, %xmm3
	pmulhuw	%xmm4, %xmm3
	psrlw	$8, %xmm6
	pmullw	%xmm1, %xmm6
	paddw	%xmm5, %xmm6
	pmulhuw	%xmm4, %xmm6
	psllw	$8, %xmm6
	por	%xmm3, %xmm6
	pmullw	%xmm12, %xmm3
	psrlw	$8, %xmm6
	pmullw	%xmm12, %xmm6
	paddw	%xmm5, %xmm10
	paddw	%xmm5, %xmm3
	paddw	%xmm5, %xmm6
	paddw	%xmm5, %xmm9
	pmulhuw	%xmm4, %xmm3
	pmulhuw	%xmm4, %xmm10
	pmulhuw	%xmm4, %xmm9
	pmulhuw	%xmm4, %xmm6
	psllw	$8, %xmm6
	por	%xmm3, %xmm6
	psllw	$8, %xmm9
	por	%xmm10, %xmm9
	paddusb	%xmm8, %xmm6
	paddusb	%xmm7, %xmm9
	movdqu	%xmm9, (%rsi,%rcx)
	movdqu	%xmm6, 16(%rsi,%rcx)
	addq	$64, %rcx
	decq	%r12
	jne	.LBB22_4
.LBB22_5:
	cmpq	%r14, 96(%rsp)
	je	.LBB22_13
	movq	%r11, %rax
	imulq	32(%rsp), %rax
	addq	16(%rsp), %rax
	movq	72(%rsp), %rcx
	leaq	(%rcx,%r11), %rdx
	imulq	48(%rsp), %rdx
	addq	8(%rsp), %rdx
	movq	24(%rsp), %rcx
	leaq	(%rcx,%rax,4), %rcx
	movq	40(%rsp), %rax
	leaq	(%rax,%rdx,4), %r12
	movq	64(%rsp), %rax
	addq	%rax, %rcx
	addq	%rax, %r12
	testb	$8, %r14b
	jne	.LBB22_7
	testb	$4, %r14b
	jne	.LBB22_9
.LBB22_10:
	cmpl	%r13d, %edi
	je	.LBB22_13
	jmp	.LBB22_11
	.p2align	4
.LBB22_7:
	movdqu	(%r12), %xmm3
	movdqu	16(%r12), %xmm4
	movdqa	.LCPI22_0(%rip), %xmm6
	movdqa	%xmm3, %xmm5
	pand	%xmm6, %xmm5
	pand	%xmm4, %xmm6
	pmullw	%xmm2, %xmm6
	pmullw	%xmm2, %xmm5
	movdqa	.LCPI22_1(%rip), %xmm7
	paddw	%xmm7, %xmm5
	paddw	%xmm7, %xmm6
	movdqa	.LCPI22_2(%rip), %xmm8
	pmulhuw	%xmm8, %xmm6
	pmulhuw	%xmm8, %xmm5
	psrlw	$8, %xmm4
	psrlw	$8, %xmm3
	pmullw	%xmm1, %xmm3
	pmullw	%xmm1, %xmm4
	paddw	%xmm7, %xmm4
	paddw	%xmm7, %xmm3
	pmulhuw	%xmm8, %xmm3
	pmulhuw	%xmm8, %xmm4
	psllw	$8, %xmm4
	psllw	$8, %xmm3
	movdqu	(%rcx), %xmm9
	movdqu	16(%rcx), %xmm10
	pcmpeqd	%xmm11, %xmm11
	movdqa	%xmm10, %xmm12
	pxor	%xmm11, %xmm12
	pxor	%xmm9, %xmm11
	movdqa	.LCPI22_3(%rip), %xmm13
	pshufb	%xmm13, %xmm11
	pshufb	%xmm13, %xmm12
	por	%xmm5, %xmm3
	por	%xmm6, %xmm4
	pmullw	%xmm12, %xmm6
	pmullw	%xmm11, %xmm5
	paddw	%xmm7, %xmm5
	paddw	%xmm7, %xmm6
	pmulhuw	%xmm8, %xmm6
	pmulhuw	%xmm8, %xmm5
	psrlw	$8, %xmm4
	psrlw	$8, %xmm3
	pmullw	%xmm11, %xmm3
	pmullw	%xmm12, %xmm4
	paddw	%xmm7, %xmm4
	paddw	%xmm7, %xmm3
	pmulhuw	%xmm8, %xmm3
	pmulhuw	%xmm8, %xmm4
	psllw	$8, %xmm4
	por	%xmm6, %xmm4
	psllw	$8, %xmm3
	por	%xmm5, %xmm3
	paddusb	%xmm10, %xmm4
	paddusb	%xmm9, %xmm3
	movdqu	%xmm3, (%rcx)
	movdqu	%xmm4, 16(%rcx)
	testb	$4, %r14b
	je	.LBB22_10
.LBB22_9:
	movq	56(%rsp), %rax
	movdqu	(%r12,%rax), %xmm3
	movdqa	.LCPI22_0(%rip), %xmm6
	movdqa	%xmm3, %xmm7
	pand	%xmm6, %xmm7
	pmullw	%xmm2, %xmm7
	movdqa	.LCPI22_1(%rip), %xmm4
	paddw	%xmm4, %xmm7
	movdqa	.LCPI22_2(%rip), %xmm5
	pmulhuw	%xmm5, %xmm7
	psrlw	$8, %xmm3
	pmullw	%xmm1, %xmm3
	paddw	%xmm4, %xmm3
	pmulhuw	%xmm5, %xmm3
	psllw	$8, %xmm3
	movdqu	(%rcx,%rax), %xmm8
	pcmpeqd	%xmm9, %xmm9
	por	%xmm7, %xmm3
	movdqa	%xmm8, %xmm10
	pshufb	.LCPI22_4(%rip), %xmm10
	pxor	%xmm10, %xmm9
	pandn	%xmm6, %xmm10
	pmullw	%xmm7, %xmm10
	paddw	%xmm4, %xmm10
	pmulhuw	%xmm5, %xmm10
	psrlw	$8, %xmm3
	psrlw	$8, %xmm9
	pmullw	%xmm3, %xmm9
	paddw	%xmm4, %xmm9
	pmulhuw	%xmm5, %xmm9
	psllw	$8, %xmm9
	por	%xmm10, %xmm9
	paddusb	%xmm8, %xmm9
	movdqu	%xmm9, (%rcx,%rax)
	cmpl	%r13d, %edi
	je	.LBB22_13
.LBB22_11:
	xorl	%ecx, %ecx
	.p2align	4
.LBB22_12:
	movl	(%r9,%rcx,4), %eax
	movzbl	%ah, %edx
	movl	%eax, %ebx
	movzbl	%al, %r10d
	shrl	$16, %eax
	shrl	$24, %ebx
	movzbl	%al, %eax
	movd	%eax, %xmm5
	pinsrw	$1, %ebx, %xmm5
	pinsrw	$2, %edx, %xmm5
	pinsrw	$3, %r10d, %xmm5
	pmullw	%xmm0, %xmm5
	movl	(%r8,%rcx,4), %r10d
	movl	%r10d, %r12d
	shrl	$24, %r12d
	movdqa	.LCPI22_5(%rip), %xmm3
	paddw	%xmm3, %xmm5
	movdqa	%xmm5, %xmm4
	psrlw	$8, %xmm4
	paddw	%xmm5, %xmm4
	psrlw	$8, %xmm4
	movd	%r10d, %xmm5
	psrld	$16, %xmm5
	pinsrb	$1, %r12d, %xmm5
	movl	%r12d, %eax
	notb	%al
	movzbl	%al, %eax
	movd	%eax, %xmm6
	pshuflw	$0, %xmm6, %xmm6
	pmullw	%xmm4, %xmm6
	movl	%r10d, %eax
	shrl	$8, %eax
	paddw	%xmm3, %xmm6
	movdqa	%xmm6, %xmm3
	psrlw	$8, %xmm3
	paddw	%xmm6, %xmm3
	psrlw	$8, %xmm3
	packuswb	%xmm3, %xmm3
	pinsrb	$2, %eax, %xmm5
	pinsrb	$3, %r10d, %xmm5
	paddusb	%xmm3, %xmm5
	pmovzxbd	%xmm5, %xmm3
	pmulld	.LCPI22_6(%rip), %xmm3
	pshufd	$238, %xmm3, %xmm4
	por	%xmm3, %xmm4
	pshufd	$85, %xmm4, %xmm3
	por	%xmm4, %xmm3
	movd	%xmm3, (%r8,%rcx,4)
	leaq	(%rdi,%rcx), %rax
	incq	%rax
	incq	%rcx
	cmpq	%r13, %rax
	jb	.LBB22_12
	jmp	.LBB22_13
.LBB22_14:
	movaps	112(%rsp), %xmm6
	movaps	128(%rsp), %xmm7
	movaps	144(%rsp), %xmm8
	movaps	160(%rsp), %xmm9
	movaps	176(%rsp), %xmm10
	movaps	192(%rsp), %xmm11
	movaps	208(%rsp), %xmm12
	movaps	224(%rsp), %xmm13
	movaps	240(%rsp), %xmm14
	addq	$264, %rsp
	popq	%rbx
	popq	%rbp
	popq	%rdi
	popq	%rsi
	popq	%r12
	popq	%r13
	popq	%r14
	popq	%r15
	retq

	.section	.rdata,"dr"
	.p2align	4, 0x0
.LCPI23_0:
	.byte	3
	.byte	128
	.byte	3
	.byte	128
	.byte	7
	.byte	128
	.byte	7
	.byte	128
	.byte	11
	.byte	128
	.byte	11
	.byte	128
	.byte	15
	.byte	128
	.byte	15
	.byte	128
.LCPI23_1:
	.byte	255
	.byte	0
	.byte	255
	.byte	0
	.byte	255
	.byte	0
	.byte	255
	.byte	0
	.byte	255
	.byte	0
	.byte	255
	.byte	0
	.byte	255
	.byte	0
	.byte	255
	.byte	0
.LCPI23_2:
	.short	128
	.short	128
	.short	128
	.short	128
	.short	128
	.short	128
	.short	128
	.short	128
.LCPI23_3:
	.zero	16,1
.LCPI23_4:
	.byte	3
	.byte	3
	.byte	3
	.byte	3
	.byte	7
	.byte	7
	.byte	7
	.byte	7
	.byte	11
	.byte	11
	.byte	11
	.byte	11
	.byte	15
	.byte	15
	.byte	15
	.byte	15
	.section	".text$pix_raster::view::blit_overlap::<#1a9768a07824da26>","xr"
	.p2align	4
"pix_raster::view::blit_overlap::<#1a9768a07824da26>":
	pushq	%r15
	pushq	%r14
	pushq	%r13
	pushq	%r12
	pushq	%rsi
	pushq	%rdi
	pushq	%rbp
	pushq	%rbx
	subq	$232, %rsp
	movdqa	%xmm12, 208(%rsp)
	movdqa	%xmm11, 192(%rsp)
	movdqa	%xmm10, 176(%rsp)
	movdqa	%xmm9, 160(%rsp)
	movdqa	%xmm8, 144(%rsp)
	movdqa	%xmm7, 128(%rsp)
	movdqa	%xmm6, 112(%rsp)
	movq	%r9, 32(%rsp)
	movq	%r8, 24(%rsp)
	movq	%rdx, 16(%rsp)
	movq	%rcx, 8(%rsp)
	movq	336(%rsp), %rax
	movq	24(%rax), %r10
	movq	32(%rax), %rcx
	movq	%rcx, 104(%rsp)
	cmpq	%rcx, %r10
	jae	.LBB23_14
	movq	(%rax), %rbp
	movq	16(%rax), %r15
	movq	%r15, (%rsp)
	movq	8(%rax), %r14
	movq	40(%rax), %rcx
	subq	%rbp, %r14
	movq	%rcx, %rax
	subq	%r10, %rax
	movq	%rax, 64(%rsp)
	movq	%r14, %rax
	shrq	$4, %rax
	movq	%rax, 40(%rsp)
	movq	%r14, %rax
	andq	$-16, %rax
	movq	%rax, 96(%rsp)
	leaq	(,%rax,4), %r9
	movl	%r14d, %r13d
	andl	$15, %r13d
	leal	(,%r14,4), %eax
	movl	%eax, %edx
	andl	$32, %edx
	movq	%rdx, 48(%rsp)
	movl	%r14d, %edi
	andl	$12, %edi
	movq	%r10, %rdx
	movq	16(%rsp), %r12
	imulq	%r12, %rdx
	leaq	(,%rbp,4), %r8
	leaq	(%r8,%rdx,4), %rsi
	movq	8(%rsp), %r11
	addq	%r11, %rsi
	movq	32(%rsp), %rbx
	imulq	%rbx, %rcx
	leaq	(,%r15,4), %r8
	leaq	(%r8,%rcx,4), %r15
	leaq	(%r9,%rcx,4), %rcx
	andl	$48, %eax
	addq	%rax, %rcx
	movq	%r9, 56(%rsp)
	leaq	(%r9,%rdx,4), %rdx
	addq	%rax, %rdx
	leaq	(,%r12,4), %rax
	movq	%rax, 88(%rsp)
	movq	24(%rsp), %rax
	addq	%rax, %r15
	movq	(%rsp), %r8
	leaq	(%rcx,%r8,4), %r9
	addq	%rax, %r9
	movq	%rbp, 72(%rsp)
	leaq	(%rdx,%rbp,4), %r8
	addq	%r11, %r8
	leaq	(,%rbx,4), %rax
	movq	%rax, 80(%rsp)
	jmp	.LBB23_2
	.p2align	4
.LBB23_13:
	incq	%r10
	movq	88(%rsp), %rax
	addq	%rax, %rsi
	movq	80(%rsp), %rcx
	addq	%rcx, %r15
	addq	%rcx, %r9
	addq	%rax, %r8
	cmpq	104(%rsp), %r10
	je	.LBB23_14
.LBB23_2:
	cmpq	$0, 40(%rsp)
	je	.LBB23_5
	movl	$32, %ecx
	movq	40(%rsp), %r12
	.p2align	4
.LBB23_4:
	movdqu	-32(%r15,%rcx), %xmm8
	movdqu	-16(%r15,%rcx), %xmm7
	pcmpeqd	%xmm5, %xmm5
	movdqu	-32(%rsi,%rcx), %xmm10
	movdqu	-16(%rsi,%rcx), %xmm11
	movdqu	(%rsi,%rcx), %xmm1
	movdqu	16(%rsi,%rcx), %xmm2
	pxor	%xmm5, %xmm10
	pxor	%xmm5, %xmm11
	movdqa	.LCPI23_0(%rip), %xmm6
	pshufb	%xmm6, %xmm11
	pshufb	%xmm6, %xmm10
	movdqa	.LCPI23_1(%rip), %xmm0
	movdqa	%xmm7, %xmm9
	pand	%xmm0, %xmm9
	movdqa	%xmm8, %xmm12
	pand	%xmm0, %xmm12
	pmullw	%xmm10, %xmm12
	pmullw	%xmm11, %xmm9
	movdqa	.LCPI23_2(%rip), %xmm3
	paddw	%xmm3, %xmm9
	paddw	%xmm3, %xmm12
	movdqa	.LCPI23_3(%rip), %xmm4
	pmulhuw	%xmm4, %xmm12
	pmulhuw	%xmm4, %xmm9
	psrlw	$8, %xmm8
	psrlw	$8, %xmm7
	pmullw	%xmm11, %xmm7
	pmullw	%xmm10, %xmm8
	paddw	%xmm3, %xmm8
	paddw	%xmm3, %xmm7
	pmulhuw	%xmm4, %xmm7
	pmulhuw	%xmm4, %xmm8
	psllw	$8, %xmm8
	por	%xmm12, %xmm8
	psllw	$8, %xmm7
	por	%xmm9, %xmm7
	movdqu	%xmm8, -32(%rsi,%rcx)
	movdqu	%xmm7, -16(%rsi,%rcx)
	movdqu	(%r15,%rcx), %xmm8
	movdqu	16(%r15,%rcx), %xmm7
	pxor	%xmm5, %xmm1
	pxor	%xmm5, %xmm2
	pshufb	%xmm6, %xmm2
	pshufb	%xmm6, %xmm1
	movdqa	%xmm7, %xmm5
	pand	%xmm0, %xmm5
	pand	%xmm8, %xmm0
	pmullw	%xmm1, %xmm0
	pmullw	%xmm2, %xmm5
	paddw	%xmm3, %xmm5
	paddw	%xmm3, %xmm0
	pmulhuw	%xmm4, %xmm0
	pmulhuw	%xmm4, %xmm5
	psrlw	$8, %xmm8
	psrlw	$8, %xmm7
	pmullw	%xmm2, %xmm7
	pmullw	%xmm1, %xmm8
	paddw	%xmm3, %xmm8
	paddw	%xmm3, %xmm7
	pmulhuw	%xmm4, %xmm7
	pmulhuw	%xmm4, %xmm8
	psllw	$8, %xmm8
	por	%xmm0, %xmm8
	psllw	$8, %xmm7
	por	%xmm5, %xmm7
	movdqu	%xmm8, (%rsi,%rcx)
	movdqu	%xmm7, 16(%rsi,%rcx)
	addq	$64, %rcx
	decq	%r12
	jne	.LBB23_4
.LBB23_5:
	cmpq	%r14, 96(%rsp)
	je	.LBB23_13
	movq	%r10, %rax
	imulq	16(%rsp), %rax
	addq	72(%rsp), %rax
	movq	64(%rsp), %rcx
	leaq	(%rcx,%r10), %rdx
	imulq	32(%rsp), %rdx
	addq	(%rsp), %rdx
	movq	8(%rsp), %rcx
	leaq	(%rcx,%rax,4), %rcx
	movq	24(%rsp), %rax
	leaq	(%rax,%rdx,4), %r12
	movq	56(%rsp), %rax
	addq	%rax, %rcx
	addq	%rax, %r12
	testb	$8, %r14b
	jne	.LBB23_7
	testb	$4, %r14b
	jne	.LBB23_9
.LBB23_10:
	cmpl	%r13d, %edi
	je	.LBB23_13
	jmp	.LBB23_11
	.p2align	4
.LBB23_7:
	movdqu	(%r12), %xmm1
	movdqu	16(%r12), %xmm0
	movdqu	(%rcx), %xmm3
	movdqu	16(%rcx), %xmm5
	pcmpeqd	%xmm2, %xmm2
	pxor	%xmm2, %xmm3
	pxor	%xmm2, %xmm5
	movdqa	.LCPI23_0(%rip), %xmm2
	pshufb	%xmm2, %xmm5
	pshufb	%xmm2, %xmm3
	movdqa	.LCPI23_1(%rip), %xmm4
	movdqa	%xmm0, %xmm2
	pand	%xmm4, %xmm2
	pand	%xmm1, %xmm4
	pmullw	%xmm3, %xmm4
	pmullw	%xmm5, %xmm2
	movdqa	.LCPI23_2(%rip), %xmm6
	paddw	%xmm6, %xmm2
	paddw	%xmm6, %xmm4
	movdqa	.LCPI23_3(%rip), %xmm7
	pmulhuw	%xmm7, %xmm4
	pmulhuw	%xmm7, %xmm2
	psrlw	$8, %xmm1
	psrlw	$8, %xmm0
	pmullw	%xmm5, %xmm0
	pmullw	%xmm3, %xmm1
	paddw	%xmm6, %xmm1
	paddw	%xmm6, %xmm0
	pmulhuw	%xmm7, %xmm0
	pmulhuw	%xmm7, %xmm1
	psllw	$8, %xmm1
	por	%xmm4, %xmm1
	psllw	$8, %xmm0
	por	%xmm2, %xmm0
	movdqu	%xmm1, (%rcx)
	movdqu	%xmm0, 16(%rcx)
	testb	$4, %r14b
	je	.LBB23_10
.LBB23_9:
	movq	48(%rsp), %rax
	movdqu	(%r12,%rax), %xmm0
	movdqu	(%rcx,%rax), %xmm1
	pcmpeqd	%xmm2, %xmm2
	pshufb	.LCPI23_4(%rip), %xmm1
	pxor	%xmm1, %xmm2
	movdqa	.LCPI23_1(%rip), %xmm3
	movdqa	%xmm0, %xmm4
	pand	%xmm3, %xmm4
	pandn	%xmm3, %xmm1
	pmullw	%xmm4, %xmm1
	movdqa	.LCPI23_2(%rip), %xmm3
	paddw	%xmm3, %xmm1
	movdqa	.LCPI23_3(%rip), %xmm4
	pmulhuw	%xmm4, %xmm1
	psrlw	$8, %xmm0
	psrlw	$8, %xmm2
	pmullw	%xmm0, %xmm2
	paddw	%xmm3, %xmm2
	pmulhuw	%xmm4, %xmm2
	psllw	$8, %xmm2
	por	%xmm1, %xmm2
	movdqu	%xmm2, (%rcx,%rax)
	cmpl	%r13d, %edi
	je	.LBB23_13
.LBB23_11:
	xorl	%ecx, %ecx
	.p2align	4
.LBB23_12:
	movl	(%r9,%rcx,4), %edx
	movzbl	%dh, %eax
	movl	%edx, %r11d
	movzbl	%dl, %ebp
	shrl	$16, %edx
	shrl	$24, %r11d
	movzbl	3(%r8,%rcx,4), %r12d
	xorl	$255, %r12d
	imull	%r12d, %ebp
	leal	128(%rbp), %ebx
	movzbl	%bh, %ebx
	addl	%ebp, %ebx
	addl	$128, %ebx
	movzbl	%bh, %ebp
	imull	%r12d, %eax
	leal	128(%rax), %ebx
	movzbl	%bh, %ebx
	addl	%ebx, %eax
	addl	$128, %eax
	andl	$65280, %eax
	movzbl	%dl, %edx
	imull	%r12d, %edx
	leal	128(%rdx), %ebx
	movzbl	%bh, %ebx
	addl	%ebx, %edx
	addl	$128, %edx
	imull	%r11d, %r12d
	leal	128(%r12), %ebx
	movzbl	%bh, %ebx
	addl	%r12d, %ebx
	addl	$128, %ebx
	shll	$16, %ebx
	andl	$-16777216, %ebx
	shll	$8, %edx
	andl	$16711680, %edx
	orl	%ebx, %edx
	orl	%eax, %edx
	orl	%ebp, %edx
	movl	%edx, (%r8,%rcx,4)
	leaq	(%rdi,%rcx), %rax
	incq	%rax
	incq	%rcx
	cmpq	%r13, %rax
	jb	.LBB23_12
	jmp	.LBB23_13
.LBB23_14:
	movaps	112(%rsp), %xmm6
	movaps	128(%rsp), %xmm7
	movaps	144(%rsp), %xmm8
	movaps	160(%rsp), %xmm9
	movaps	176(%rsp), %xmm10
	movaps	192(%rsp), %xmm11
	movaps	208(%rsp), %xmm12
	addq	$232, %rsp
	popq	%rbx
	popq	%rbp
	popq	%rdi
	popq	%rsi
	popq	%r12
	popq	%r13
	popq	%r14
	popq	%r15
	retq

	.section	.rdata,"dr"
	.p2align	4, 0x0
.LCPI24_0:
	.byte	255
	.byte	0
	.byte	255
	.byte	0
	.byte	255
	.byte	0
	.byte	255
	.byte	0
	.byte	255
	.byte	0
	.byte	255
	.byte	0
	.byte	255
	.byte	0
	.byte	255
	.byte	0
.LCPI24_1:
	.short	128
	.short	128
	.short	128
	.short	128
	.short	128
	.short	128
	.short	128
	.short	128
.LCPI24_2:
	.zero	16,1
.LCPI24_3:
	.byte	3
	.byte	128
	.byte	3
	.byte	128
	.byte	7
	.byte	128
	.byte	7
	.byte	128
	.byte	11
	.byte	128
	.byte	11
	.byte	128
	.byte	15
	.byte	128
	.byte	15
	.byte	128
.LCPI24_4:
	.byte	3
	.byte	3
	.byte	3
	.byte	3
	.byte	7
	.byte	7
	.byte	7
	.byte	7
	.byte	11
	.byte	11
	.byte	11
	.byte	11
	.byte	15
	.byte	15
	.byte	15
	.byte	15
.LCPI24_5:
	.short	128
	.short	128
	.zero	2
	.zero	2
	.zero	2
	.zero	2
	.zero	2
	.zero	2
.LCPI24_6:
	.byte	128
	.byte	128
	.byte	128
	.byte	2
	.zero	1
	.zero	1
	.zero	1
	.zero	1
	.zero	1
	.zero	1
	.zero	1
	.zero	1
	.zero	1
	.zero	1
	.zero	1
	.zero	1
	.section	".text$pix_raster::view::blit_overlap::<#2e778847ba9e3685>","xr"
	.p2align	4
"pix_raster::view::blit_overlap::<#2e778847ba9e3685>":
	pushq	%r15
	pushq	%r14
	pushq	%r13
	pushq	%r12
	pushq	%rsi
	pushq	%rdi
	pushq	%rbp
	pushq	%rbx
	subq	$312, %rsp
	movdqa	%xmm15, 288(%rsp)
	movdqa	%xmm14, 272(%rsp)
	movdqa	%xmm13, 256(%rsp)
	movdqa	%xmm12, 240(%rsp)
	movdqa	%xmm11, 224(%rsp)
	movdqa	%xmm10, 208(%rsp)
	movdqa	%xmm9, 192(%rsp)
	movdqa	%xmm8, 176(%rsp)
	movdqa	%xmm7, 160(%rsp)
	movdqa	%xmm6, 144(%rsp)
	movq	%r9, 16(%rsp)
	movq	%rdx, 40(%rsp)
	movq	%rcx, 32(%rsp)
	movq	416(%rsp), %rax
	movq	24(%rax), %rcx
	movq	32(%rax), %rdx
	movq	%rcx, 8(%rsp)
	movq	%rdx, 128(%rsp)
	cmpq	%rdx, %rcx
	jae	.LBB24_21
	movl	424(%rsp), %edx
	movq	(%rax), %rdi
	movq	16(%rax), %r10
	leaq	(%r8,%r10), %rcx
	movq	%rcx, 96(%rsp)
	movq	8(%rax), %rsi
	movq	40(%rax), %rcx
	subq	%rdi, %rsi
	movq	%rcx, %rax
	movq	8(%rsp), %r9
	subq	%r9, %rax
	movq	%rax, 88(%rsp)
	movq	%rsi, %r14
	movl	%edx, %eax
	movl	%edx, %ebx
	shrl	$24, %ebx
	movl	%edx, %r11d
	shrl	$16, %r11d
	shrl	$8, %edx
	movd	%eax, %xmm0
	movl	%eax, %r13d
	pinsrb	$1, %edx, %xmm0
	pinsrb	$2, %r11d, %xmm0
	pinsrb	$3, %ebx, %xmm0
	pinsrb	$4, %eax, %xmm0
	pinsrb	$5, %edx, %xmm0
	pinsrb	$6, %r11d, %xmm0
	pinsrb	$7, %ebx, %xmm0
	pinsrb	$8, %eax, %xmm0
	pinsrb	$9, %edx, %xmm0
	pinsrb	$10, %r11d, %xmm0
	pinsrb	$11, %ebx, %xmm0
	pinsrb	$12, %eax, %xmm0
	pinsrb	$13, %edx, %xmm0
	shrq	$4, %r14
	pinsrb	$14, %r11d, %xmm0
	movdqa	.LCPI24_0(%rip), %xmm1
	pand	%xmm0, %xmm1
	pinsrb	$15, %ebx, %xmm0
	psrlw	$8, %xmm0
	movq	%rsi, %rdx
	andq	$-16, %rdx
	movl	%esi, %r12d
	andl	$15, %r12d
	movl	%esi, %r15d
	andl	$8, %r15d
	movq	%rsi, 24(%rsp)
	movl	%esi, %ebp
	andl	$12, %ebp
	movzbl	%r11b, %eax
	movd	%eax, %xmm2
	movl	%r13d, %eax
	movzbl	%ah, %esi
	movzbl	%al, %r13d
	pinsrw	$1, %ebx, %xmm2
	imulq	16(%rsp), %rcx
	addq	%r10, %rcx
	leaq	(%r8,%rcx), %rbx
	addq	$8, %rbx
	leaq	(%rdx,%rbp), %r11
	addq	%r8, %r11
	movq	%r9, %rax
	movq	40(%rsp), %r8
	imulq	%r8, %rax
	addq	%rcx, %r11
	leaq	(%rdi,%rax), %rcx
	movq	32(%rsp), %r9
	leaq	(%r9,%rcx,4), %rcx
	movq	%rdx, 56(%rsp)
	leaq	(,%rdx,4), %rdx
	movq	%rdx, 80(%rsp)
	leaq	(%rdx,%rax,4), %rax
	movq	%rbp, 48(%rsp)
	leaq	(%rax,%rbp,4), %rax
	movq	%rdi, 104(%rsp)
	leaq	(%rax,%rdi,4), %rdx
	addq	%r9, %rdx
	movq	%r15, 72(%rsp)
	leal	(,%r15,4), %eax
	movq	%rax, 64(%rsp)
	movq	%r14, 120(%rsp)
	leaq	(,%r14,4), %r9
	movq	%rcx, %r14
	leaq	(,%r8,4), %rax
	movq	%rax, 112(%rsp)
	jmp	.LBB24_2
	.p2align	4
.LBB24_20:
	movq	8(%rsp), %rcx
	incq	%rcx
	movq	16(%rsp), %rax
	addq	%rax, %rbx
	movq	136(%rsp), %r14
	movq	112(%rsp), %r8
	addq	%r8, %r14
	addq	%rax, %r11
	addq	%r8, %rdx
	movq	%rcx, 8(%rsp)
	cmpq	128(%rsp), %rcx
	je	.LBB24_21
.LBB24_2:
	cmpq	$0, 120(%rsp)
	je	.LBB24_8
	xorl	%r10d, %r10d
	movq	%r14, %r8
	jmp	.LBB24_4
	.p2align	4
.LBB24_6:
	movq	%rax, %xmm9
	punpcklbw	%xmm9, %xmm9
	movdqa	%xmm9, %xmm10
	punpcklwd	%xmm9, %xmm10
	punpckhwd	%xmm9, %xmm9
	movdqa	.LCPI24_0(%rip), %xmm3
	movdqa	%xmm9, %xmm12
	pand	%xmm3, %xmm12
	movdqa	%xmm10, %xmm13
	pand	%xmm3, %xmm13
	pmullw	%xmm1, %xmm13
	pmullw	%xmm1, %xmm12
	movdqa	.LCPI24_1(%rip), %xmm4
	paddw	%xmm4, %xmm12
	paddw	%xmm4, %xmm13
	movdqa	.LCPI24_2(%rip), %xmm5
	pmulhuw	%xmm5, %xmm13
	pmulhuw	%xmm5, %xmm12
	psrlw	$8, %xmm10
	psrlw	$8, %xmm9
	pmullw	%xmm0, %xmm9
	pmullw	%xmm0, %xmm10
	paddw	%xmm4, %xmm10
	paddw	%xmm4, %xmm9
	pmulhuw	%xmm5, %xmm9
	pmulhuw	%xmm5, %xmm10
	psllw	$8, %xmm10
	psllw	$8, %xmm9
	pcmpeqd	%xmm8, %xmm8
	movdqu	(%r8), %xmm14
	movdqu	16(%r8), %xmm15
	movdqu	32(%r8), %xmm6
	movdqu	48(%r8), %xmm7
	pxor	%xmm8, %xmm14
	pxor	%xmm8, %xmm15
	movdqa	.LCPI24_3(%rip), %xmm11
	pshufb	%xmm11, %xmm15
	pshufb	%xmm11, %xmm14
	por	%xmm12, %xmm9
	por	%xmm13, %xmm10
	pmullw	%xmm14, %xmm13
	pmullw	%xmm15, %xmm12
	paddw	%xmm4, %xmm12
	paddw	%xmm4, %xmm13
	pmulhuw	%xmm5, %xmm13
	pmulhuw	%xmm5, %xmm12
	psrlw	$8, %xmm10
	psrlw	$8, %xmm9
	pmullw	%xmm15, %xmm9
	pmullw	%xmm14, %xmm10
	paddw	%xmm4, %xmm10
	paddw	%xmm4, %xmm9
	pmulhuw	%xmm5, %xmm9
	pmulhuw	%xmm5, %xmm10
	psllw	$8, %xmm10
	por	%xmm13, %xmm10
	psllw	$8, %xmm9
	por	%xmm12, %xmm9
	movdqu	%xmm10, (%r8)
	movdqu	%xmm9, 16(%r8)
	movq	(%rbx,%r10,4), %xmm9
	punpcklbw	%xmm9, %xmm9
	movdqa	%xmm9, %xmm10
	punpcklwd	%xmm9, %xmm10
	punpckhwd	%xmm9, %xmm9
	movdqa	%xmm9, %xmm12
	pand	%xmm3, %xmm12
	pand	%xmm10, %xmm3
	pmullw	%xmm1, %xmm3
	pmullw	%xmm1, %xmm12
	paddw	%xmm4, %xmm12
	paddw	%xmm4, %xmm3
	pmulhuw	%xmm5, %xmm3
	pmulhuw	%xmm5, %xmm12
	psrlw	$8, %xmm10
	psrlw	$8, %xmm9
	pmullw	%xmm0, %xmm9
	pmullw	%xmm0, %xmm10
	paddw	%xmm4, %xmm10
	paddw	%xmm4, %xmm9
	pmulhuw	%xmm5, %xmm9
	pmulhuw	%xmm5, %xmm10
	psllw	$8, %xmm10
	psllw	$8, %xmm9
	pxor	%xmm8, %xmm6
	pxor	%xmm8, %xmm7
	pshufb	%xmm11, %xmm7
	pshufb	%xmm11, %xmm6
	por	%xmm12, %xmm9
	por	%xmm3, %xmm10
	pmullw	%xmm6, %xmm3
	pmullw	%xmm7, %xmm12
	paddw	%xmm4, %xmm12
	paddw	%xmm4, %xmm3
	pmulhuw	%xmm5, %xmm3
	pmulhuw	%xmm5, %xmm12
	psrlw	$8, %xmm10
	psrlw	$8, %xmm9
	pmullw	%xmm7, %xmm9
	pmullw	%xmm6, %xmm10
	paddw	%xmm4, %xmm10
	paddw	%xmm4, %xmm9
	pmulhuw	%xmm5, %xmm9
	pmulhuw	%xmm5, %xmm10
	psllw	$8, %xmm10
	por	%xmm3, %xmm10
	psllw	$8, %xmm9
	por	%xmm12, %xmm9
	movdqu	%xmm10, 32(%r8)
	movdqu	%xmm9, 48(%r8)
	addq	$4, %r10
	addq	$64, %r8
	cmpq	%r10, %r9
	je	.LBB24_8
.LBB24_4:
	movq	-8(%rbx,%r10,4), %rax
	movq	(%rbx,%r10,4), %rdi
	orq	%rax, %rdi
	jne	.LBB24_6
	pxor	%xmm3, %xmm3
	movdqu	%xmm3, 48(%r8)
	movdqu	%xmm3, 32(%r8)
	movdqu	%xmm3, 16(%r8)
	movdqu	%xmm3, (%r8)
	addq	$4, %r10
	addq	$64, %r8
	cmpq	%r10, %r9
	jne	.LBB24_4
.LBB24_8:
	movq	%r14, 136(%rsp)
	movq	56(%rsp), %rax
	cmpq	24(%rsp), %rax
	je	.LBB24_20
	movq	8(%rsp), %rcx
	movq	%rcx, %rax
	imulq	40(%rsp), %rax
	addq	104(%rsp), %rax
	movq	88(%rsp), %r8
	leaq	(%r8,%rcx), %r10
	imulq	16(%rsp), %r10
	addq	96(%rsp), %r10
	movq	32(%rsp), %rcx
	leaq	(%rcx,%rax,4), %r8
	addq	80(%rsp), %r8
	addq	56(%rsp), %r10
	testb	$8, 24(%rsp)
	jne	.LBB24_10
	testb	$4, 24(%rsp)
	jne	.LBB24_14
.LBB24_17:
	cmpl	%r12d, 48(%rsp)
	je	.LBB24_20
	jmp	.LBB24_18
	.p2align	4
.LBB24_10:
	movq	(%r10), %rax
	testq	%rax, %rax
	je	.LBB24_11
	movq	%rax, %xmm3
	punpcklbw	%xmm3, %xmm3
	movdqa	%xmm3, %xmm4
	punpcklwd	%xmm3, %xmm4
	punpckhwd	%xmm3, %xmm3
	movdqa	.LCPI24_0(%rip), %xmm6
	movdqa	%xmm3, %xmm5
	pand	%xmm6, %xmm5
	pand	%xmm4, %xmm6
	pmullw	%xmm1, %xmm6
	pmullw	%xmm1, %xmm5
	movdqa	.LCPI24_1(%rip), %xmm7
	paddw	%xmm7, %xmm5
	paddw	%xmm7, %xmm6
	movdqa	.LCPI24_2(%rip), %xmm8
	pmulhuw	%xmm8, %xmm6
	pmulhuw	%xmm8, %xmm5
	psrlw	$8, %xmm4
	psrlw	$8, %xmm3
	pmullw	%xmm0, %xmm3
	pmullw	%xmm0, %xmm4
	paddw	%xmm7, %xmm4
	paddw	%xmm7, %xmm3
	pmulhuw	%xmm8, %xmm3
	pmulhuw	%xmm8, %xmm4
	psllw	$8, %xmm4
	psllw	$8, %xmm3
	movdqu	(%r8), %xmm9
	movdqu	16(%r8), %xmm10
	pcmpeqd	%xmm11, %xmm11
	pxor	%xmm11, %xmm9
	pxor	%xmm11, %xmm10
	movdqa	.LCPI24_3(%rip), %xmm11
	pshufb	%xmm11, %xmm10
	pshufb	%xmm11, %xmm9
	por	%xmm5, %xmm3
	por	%xmm6, %xmm4
	pmullw	%xmm9, %xmm6
	pmullw	%xmm10, %xmm5
	paddw	%xmm7, %xmm5
	paddw	%xmm7, %xmm6
	pmulhuw	%xmm8, %xmm6
	pmulhuw	%xmm8, %xmm5
	psrlw	$8, %xmm4
	psrlw	$8, %xmm3
	pmullw	%xmm10, %xmm3
	pmullw	%xmm9, %xmm4
	paddw	%xmm7, %xmm4
	paddw	%xmm7, %xmm3
	pmulhuw	%xmm8, %xmm3
	pmulhuw	%xmm8, %xmm4
	psllw	$8, %xmm4
	por	%xmm6, %xmm4
	psllw	$8, %xmm3
	por	%xmm5, %xmm3
	movdqu	%xmm4, (%r8)
	movdqu	%xmm3, 16(%r8)
	testb	$4, 24(%rsp)
	je	.LBB24_17
	jmp	.LBB24_14
.LBB24_11:
	pxor	%xmm3, %xmm3
	movdqu	%xmm3, 16(%r8)
	movdqu	%xmm3, (%r8)
	testb	$4, 24(%rsp)
	je	.LBB24_17
	.p2align	4
.LBB24_14:
	addq	64(%rsp), %r8
	movq	72(%rsp), %rax
	movl	(%r10,%rax), %eax
	testl	%eax, %eax
	je	.LBB24_15
	movd	%eax, %xmm3
	punpcklbw	%xmm3, %xmm3
	punpcklwd	%xmm3, %xmm3
	movdqa	.LCPI24_0(%rip), %xmm6
	movdqa	%xmm3, %xmm7
	pand	%xmm6, %xmm7
	pmullw	%xmm1, %xmm7
	movdqa	.LCPI24_1(%rip), %xmm4
	paddw	%xmm4, %xmm7
	movdqa	.LCPI24_2(%rip), %xmm5
	pmulhuw	%xmm5, %xmm7
	psrlw	$8, %xmm3
	pmullw	%xmm0, %xmm3
	paddw	%xmm4, %xmm3
	pmulhuw	%xmm5, %xmm3
	psllw	$8, %xmm3
	movdqu	(%r8), %xmm8
	pcmpeqd	%xmm9, %xmm9
	por	%xmm7, %xmm3
	pshufb	.LCPI24_4(%rip), %xmm8
	pxor	%xmm8, %xmm9
	pandn	%xmm6, %xmm8
	pmullw	%xmm7, %xmm8
	paddw	%xmm4, %xmm8
	pmulhuw	%xmm5, %xmm8
	psrlw	$8, %xmm3
	psrlw	$8, %xmm9
	pmullw	%xmm3, %xmm9
	paddw	%xmm4, %xmm9
	pmulhuw	%xmm5, %xmm9
	psllw	$8, %xmm9
	por	%xmm8, %xmm9
	movdqu	%xmm9, (%r8)
	cmpl	%r12d, 48(%rsp)
	je	.LBB24_20
	jmp	.LBB24_18
.LBB24_15:
	pxor	%xmm3, %xmm3
	movdqu	%xmm3, (%r8)
	cmpl	%r12d, 48(%rsp)
	je	.LBB24_20
	.p2align	4
.LBB24_18:
	xorl	%r8d, %r8d
	movq	48(%rsp), %r10
	.p2align	4
.LBB24_19:
	movzbl	(%r11,%r8), %r15d
	movzbl	3(%rdx,%r8,4), %ebp
	movzwl	%r13w, %eax
	imull	%r15d, %eax
	leal	128(%rax), %ecx
	movzbl	%ch, %ecx
	addl	%ecx, %eax
	addl	$128, %eax
	movzbl	%ah, %edi
	movzwl	%si, %eax
	imull	%r15d, %eax
	leal	128(%rax), %ecx
	movzbl	%ch, %ecx
	addl	%ecx, %eax
	addl	$128, %eax
	movzbl	%ah, %eax
	xorl	$255, %ebp
	imull	%ebp, %edi
	leal	128(%rdi), %ecx
	movzbl	%ch, %ecx
	addl	%edi, %ecx
	addl	$128, %ecx
	movzbl	%ch, %edi
	imull	%ebp, %eax
	leal	128(%rax), %ecx
	movzbl	%ch, %ecx
	leal	(%rcx,%rax), %r14d
	addl	$128, %r14d
	andl	$65280, %r14d
	movd	%r15d, %xmm3
	pshuflw	$0, %xmm3, %xmm3
	pmullw	%xmm2, %xmm3
	movdqa	.LCPI24_5(%rip), %xmm4
	paddw	%xmm4, %xmm3
	movdqa	%xmm3, %xmm5
	psrlw	$8, %xmm5
	paddw	%xmm3, %xmm5
	psrlw	$8, %xmm5
	movd	%ebp, %xmm3
	pshuflw	$0, %xmm3, %xmm3
	pmullw	%xmm5, %xmm3
	paddw	%xmm4, %xmm3
	movdqa	%xmm3, %xmm4
	psrlw	$8, %xmm4
	paddw	%xmm3, %xmm4
	psrlw	$8, %xmm4
	movdqa	%xmm4, %xmm3
	pslld	$16, %xmm3
	pshufb	.LCPI24_6(%rip), %xmm4
	por	%xmm3, %xmm4
	movd	%xmm4, %eax
	orl	%r14d, %eax
	orl	%edi, %eax
	movl	%eax, (%rdx,%r8,4)
	incq	%r10
	incq	%r8
	cmpq	%r12, %r10
	jb	.LBB24_19
	jmp	.LBB24_20
.LBB24_21:
	movaps	144(%rsp), %xmm6
	movaps	160(%rsp), %xmm7
	movaps	176(%rsp), %xmm8
	movaps	192(%rsp), %xmm9
	movaps	208(%rsp), %xmm10
	movaps	224(%rsp), %xmm11
	movaps	240(%rsp), %xmm12
	movaps	256(%rsp), %xmm13
	movaps	272(%rsp), %xmm14
	movaps	288(%rsp), %xmm15
	addq	$312, %rsp
	popq	%rbx
	popq	%rbp
	popq	%rdi
	popq	%rsi
	popq	%r12
	popq	%r13
	popq	%r14
	popq	%r15
	retq

	.section	.rdata,"dr"
	.p2align	4, 0x0
.LCPI25_0:
	.byte	255
	.byte	0
	.byte	255
	.byte	0
	.byte	255
	.byte	0
	.byte	255
	.byte	0
	.byte	255
	.byte	0
	.byte	255
	.byte	0
	.byte	255
	.byte	0
	.byte	255
	.byte	0
.LCPI25_1:
	.short	128
	.short	128
	.short	128
	.short	128
	.short	128
	.short	128
	.short	128
	.short	128
.LCPI25_2:
	.zero	16,1
.LCPI25_3:
	.byte	3
	.byte	128
	.byte	3
	.byte	128
	.byte	7
	.byte	128
	.byte	7
	.byte	128
	.byte	11
	.byte	128
	.byte	11
	.byte	128
	.byte	15
	.byte	128
	.byte	15
	.byte	128
.LCPI25_4:
	.byte	3
	.byte	3
	.byte	3
	.byte	3
	.byte	7
	.byte	7
	.byte	7
	.byte	7
	.byte	11
	.byte	11
	.byte	11
	.byte	11
	.byte	15
	.byte	15
	.byte	15
	.byte	15
.LCPI25_5:
	.short	128
	.short	128
	.zero	2
	.zero	2
	.zero	2
	.zero	2
	.zero	2
	.zero	2
.LCPI25_6:
	.byte	128
	.byte	128
	.byte	128
	.byte	2
	.zero	1
	.zero	1
	.zero	1
	.zero	1
	.zero	1
	.zero	1
	.zero	1
	.zero	1
	.zero	1
	.zero	1
	.zero	1
	.zero	1
	.section	".text$pix_raster::view::blit_overlap::<#4bf1498ae24b3bf7>","xr"
	.p2align	4
"pix_raster::view::blit_overlap::<#4bf1498ae24b3bf7>":
	pushq	%r15
	pushq	%r14
	pushq	%r13
	pushq	%r12
	pushq	%rsi
	pushq	%rdi
	pushq	%rbp
	pushq	%rbx
	subq	$296, %rsp
	movdqa	%xmm15, 272(%rsp)
	movdqa	%xmm14, 256(%rsp)
	movdqa	%xmm13, 240(%rsp)
	movdqa	%xmm12, 224(%rsp)
	movdqa	%xmm11, 208(%rsp)
	movdqa	%xmm10, 192(%rsp)
	movdqa	%xmm9, 176(%rsp)
	movdqa	%xmm8, 160(%rsp)
	movdqa	%xmm7, 144(%rsp)
	movdqa	%xmm6, 128(%rsp)
	movq	%r9, 40(%rsp)
	movq	%r8, 32(%rsp)
	movq	%rdx, 24(%rsp)
	movq	%rcx, 16(%rsp)
	movq	400(%rsp), %rax
	movq	24(%rax), %rcx
	movq	32(%rax), %rdx
	movq	%rcx, (%rsp)
	movq	%rdx, 120(%rsp)
	cmpq	%rdx, %rcx
	jae	.LBB25_14
	movq	(%rax), %r15
	movq	16(%rax), %r9
	movq	8(%rax), %rdi
	movq	40(%rax), %rcx
	subq	%r15, %rdi
	movq	%rcx, %rax
	movq	(%rsp), %rdx
	subq	%rdx, %rax
	movq	%rax, 72(%rsp)
	movq	%rdi, %rax
	shrq	$4, %rax
	movq	%rax, 48(%rsp)
	movzbl	408(%rsp), %ebp
	movd	%ebp, %xmm1
	pxor	%xmm2, %xmm2
	pshuflw	$0, %xmm1, %xmm0
	pshufb	%xmm2, %xmm1
	movdqa	.LCPI25_0(%rip), %xmm2
	pand	%xmm1, %xmm2
	psrlw	$8, %xmm1
	movq	%rdi, %rax
	andq	$-16, %rax
	movq	%rax, 112(%rsp)
	leaq	(,%rax,4), %rbx
	movl	%edi, %r13d
	andl	$15, %r13d
	leal	(,%rdi,4), %eax
	movl	%eax, %r8d
	andl	$32, %r8d
	movq	%r8, 56(%rsp)
	movq	24(%rsp), %r11
	imulq	%r11, %rdx
	leaq	(,%r15,4), %r8
	leaq	(%r8,%rdx,4), %rsi
	movq	40(%rsp), %r10
	imulq	%r10, %rcx
	leaq	(,%r9,4), %r8
	leaq	(%r8,%rcx,4), %r14
	leaq	(%rbx,%rcx,4), %rcx
	andl	$48, %eax
	addq	%rax, %rcx
	movq	%rbx, 64(%rsp)
	leaq	(%rbx,%rdx,4), %rdx
	addq	%rax, %rdx
	movq	%rdi, 8(%rsp)
	andl	$12, %edi
	movq	16(%rsp), %rbx
	addq	%rbx, %rsi
	movq	32(%rsp), %rax
	addq	%rax, %r14
	movq	%r9, 80(%rsp)
	leaq	(%rcx,%r9,4), %r9
	addq	%rax, %r9
	movq	%r15, 88(%rsp)
	leaq	(%rdx,%r15,4), %r8
	addq	%rbx, %r8
	leaq	(,%r11,4), %rax
	movq	%rax, 104(%rsp)
	leaq	(,%r10,4), %rax
	movq	%rax, 96(%rsp)
	jmp	.LBB25_2
	.p2align	4
.LBB25_13:
	movq	(%rsp), %rax
	incq	%rax
	movq	104(%rsp), %rcx
	addq	%rcx, %rsi
	movq	96(%rsp), %rdx
	addq	%rdx, %r14
	addq	%rdx, %r9
	addq	%rcx, %r8
	movq	%rax, (%rsp)
	cmpq	120(%rsp), %rax
	je	.LBB25_14
.LBB25_2:
	cmpq	$0, 48(%rsp)
	je	.LBB25_5
	movl	$32, %r12d
	movq	48(%rsp), %r11
	.p2align	4
.LBB25_4:
	movdqu	-32(%r14,%r12), %xmm10
	movdqu	-16(%r14,%r12), %xmm9
	movdqa	.LCPI25_0(%rip), %xmm3
	movdqa	%xmm9, %xmm12
	pand	%xmm3, %xmm12
	movdqa	%xmm10, %xmm13
	pand	%xmm3, %xmm13
	pmullw	%xmm2, %xmm13
	pmullw	%xmm2, %xmm12
	movdqa	.LCPI25_1(%rip), %xmm4
	paddw	%xmm4, %xmm12
	paddw	%xmm4, %xmm13
	movdqa	.LCPI25_2(%rip), %xmm5
	pmulhuw	%xmm5, %xmm13
	pmulhuw	%xmm5, %xmm12
	psrlw	$8, %xmm10
	psrlw	$8, %xmm9
	pmullw	%xmm1, %xmm9
	pmullw	%xmm1, %xmm10
	paddw	%xmm4, %xmm10
	paddw	%xmm4, %xmm9
	pmulhuw	%xmm5, %xmm9
	pmulhuw	%xmm5, %xmm10
	psllw	$8, %xmm10
	psllw	$8, %xmm9
	pcmpeqd	%xmm8, %xmm8
	movdqu	-32(%rsi,%r12), %xmm14
	movdqu	-16(%rsi,%r12), %xmm15
	movdqu	(%rsi,%r12), %xmm6
	movdqu	16(%rsi,%r12), %xmm7
	pxor	%xmm8, %xmm14
	pxor	%xmm8, %xmm15
	movdqa	.LCPI25_3(%rip), %xmm11
	pshufb	%xmm11, %xmm15
	pshufb	%xmm11, %xmm14
	por	%xmm12, %xmm9
	por	%xmm13, %xmm10
	pmullw	%xmm14, %xmm13
	pmullw	%xmm15, %xmm12
	paddw	%xmm4, %xmm12
	paddw	%xmm4, %xmm13
	pmulhuw	%xmm5, %xmm13
	pmulhuw	%xmm5, %xmm12
	psrlw	$8, %xmm10
	psrlw	$8, %xmm9
	pmullw	%xmm15, %xmm9
	pmullw	%xmm14, %xmm10
	paddw	%xmm4, %xmm10
	paddw	%xmm4, %xmm9
	pmulhuw	%xmm5, %xmm9
	pmulhuw	%xmm5, %xmm10
	psllw	$8, %xmm10
	por	%xmm13, %xmm10
	psllw	$8, %xmm9
	por	%xmm12, %xmm9
	movdqu	%xmm10, -32(%rsi,%r12)
	movdqu	%xmm9, -16(%rsi,%r12)
	movdqu	(%r14,%r12), %xmm10
	movdqu	16(%r14,%r12), %xmm9
	movdqa	%xmm9, %xmm12
	pand	%xmm3, %xmm12
	pand	%xmm10, %xmm3
	pmullw	%xmm2, %xmm3
	pmullw	%xmm2, %xmm12
	paddw	%xmm4, %xmm12
	paddw	%xmm4, %xmm3
	pmulhuw	%xmm5, %xmm3
	pmulhuw	%xmm5, %xmm12
	psrlw	$8, %xmm10
	psrlw	$8, %xmm9
	pmullw	%xmm1, %xmm9
	pmullw	%xmm1, %xmm10
	paddw	%xmm4, %xmm10
	paddw	%xmm4, %xmm9
	pmulhuw	%xmm5, %xmm9
	pmulhuw	%xmm5, %xmm10
	psllw	$8, %xmm10
	psllw	$8, %xmm9
	pxor	%xmm8, %xmm6
	pxor	%xmm8, %xmm7
	pshufb	%xmm11, %xmm7
	pshufb	%xmm11, %xmm6
	por	%xmm12, %xmm9
	por	%xmm3, %xmm10
	pmullw	%xmm6, %xmm3
	pmullw	%xmm7, %xmm12
	paddw	%xmm4, %xmm12
	paddw	%xmm4, %xmm3
	pmulhuw	%xmm5, %xmm3
	pmulhuw	%xmm5, %xmm12
	psrlw	$8, %xmm10
	psrlw	$8, %xmm9
	pmullw	%xmm7, %xmm9
	pmullw	%xmm6, %xmm10
	paddw	%xmm4, %xmm10
	paddw	%xmm4, %xmm9
	pmulhuw	%xmm5, %xmm9
	pmulhuw	%xmm5, %xmm10
	psllw	$8, %xmm10
	por	%xmm3, %xmm10
	psllw	$8, %xmm9
	por	%xmm12, %xmm9
	movdqu	%xmm10, (%rsi,%r12)
	movdqu	%xmm9, 16(%rsi,%r12)
	addq	$64, %r12
	decq	%r11
	jne	.LBB25_4
.LBB25_5:
	movq	112(%rsp), %rax
	cmpq	8(%rsp), %rax
	je	.LBB25_13
	movq	(%rsp), %rcx
	movq	%rcx, %rax
	imulq	24(%rsp), %rax
	addq	88(%rsp), %rax
	movq	72(%rsp), %rdx
	addq	%rdx, %rcx
	imulq	40(%rsp), %rcx
	addq	80(%rsp), %rcx
	movq	16(%rsp), %rdx
	leaq	(%rdx,%rax,4), %r11
	movq	32(%rsp), %rax
	leaq	(%rax,%rcx,4), %r12
	movq	64(%rsp), %rax
	addq	%rax, %r11
	addq	%rax, %r12
	testb	$8, 8(%rsp)
	jne	.LBB25_7
	testb	$4, 8(%rsp)
	jne	.LBB25_9
.LBB25_10:
	cmpl	%r13d, %edi
	je	.LBB25_13
	jmp	.LBB25_11
	.p2align	4
.LBB25_7:
	movdqu	(%r12), %xmm4
	movdqu	16(%r12), %xmm3
	movdqa	.LCPI25_0(%rip), %xmm6
	movdqa	%xmm3, %xmm5
	pand	%xmm6, %xmm5
	pand	%xmm4, %xmm6
	pmullw	%xmm2, %xmm6
	pmullw	%xmm2, %xmm5
	movdqa	.LCPI25_1(%rip), %xmm7
	paddw	%xmm7, %xmm5
	paddw	%xmm7, %xmm6
	movdqa	.LCPI25_2(%rip), %xmm8
	pmulhuw	%xmm8, %xmm6
	pmulhuw	%xmm8, %xmm5
	psrlw	$8, %xmm4
	psrlw	$8, %xmm3
	pmullw	%xmm1, %xmm3
	pmullw	%xmm1, %xmm4
	paddw	%xmm7, %xmm4
	paddw	%xmm7, %xmm3
	pmulhuw	%xmm8, %xmm3
	pmulhuw	%xmm8, %xmm4
	psllw	$8, %xmm4
	psllw	$8, %xmm3
	movdqu	(%r11), %xmm9
	movdqu	16(%r11), %xmm10
	pcmpeqd	%xmm11, %xmm11
	pxor	%xmm11, %xmm9
	pxor	%xmm11, %xmm10
	movdqa	.LCPI25_3(%rip), %xmm11
	pshufb	%xmm11, %xmm10
	pshufb	%xmm11, %xmm9
	por	%xmm5, %xmm3
	por	%xmm6, %xmm4
	pmullw	%xmm9, %xmm6
	pmullw	%xmm10, %xmm5
	paddw	%xmm7, %xmm5
	paddw	%xmm7, %xmm6
	pmulhuw	%xmm8, %xmm6
	pmulhuw	%xmm8, %xmm5
	psrlw	$8, %xmm4
	psrlw	$8, %xmm3
	pmullw	%xmm10, %xmm3
	pmullw	%xmm9, %xmm4
	paddw	%xmm7, %xmm4
	paddw	%xmm7, %xmm3
	pmulhuw	%xmm8, %xmm3
	pmulhuw	%xmm8, %xmm4
	psllw	$8, %xmm4
	por	%xmm6, %xmm4
	psllw	$8, %xmm3
	por	%xmm5, %xmm3
	movdqu	%xmm4, (%r11)
	movdqu	%xmm3, 16(%r11)
	testb	$4, 8(%rsp)
	je	.LBB25_10
.LBB25_9:
	movq	56(%rsp), %rax
	movdqu	(%r12,%rax), %xmm3
	movdqa	.LCPI25_0(%rip), %xmm6
	movdqa	%xmm3, %xmm7
	pand	%xmm6, %xmm7
	pmullw	%xmm2, %xmm7
	movdqa	.LCPI25_1(%rip), %xmm4
	paddw	%xmm4, %xmm7
	movdqa	.LCPI25_2(%rip), %xmm5
	pmulhuw	%xmm5, %xmm7
	psrlw	$8, %xmm3
	pmullw	%xmm1, %xmm3
	paddw	%xmm4, %xmm3
	pmulhuw	%xmm5, %xmm3
	psllw	$8, %xmm3
	movdqu	(%r11,%rax), %xmm8
	pcmpeqd	%xmm9, %xmm9
	por	%xmm7, %xmm3
	pshufb	.LCPI25_4(%rip), %xmm8
	pxor	%xmm8, %xmm9
	pandn	%xmm6, %xmm8
	pmullw	%xmm7, %xmm8
	paddw	%xmm4, %xmm8
	pmulhuw	%xmm5, %xmm8
	psrlw	$8, %xmm3
	psrlw	$8, %xmm9
	pmullw	%xmm3, %xmm9
	paddw	%xmm4, %xmm9
	pmulhuw	%xmm5, %xmm9
	psllw	$8, %xmm9
	por	%xmm8, %xmm9
	movdqu	%xmm9, (%r11,%rax)
	cmpl	%r13d, %edi
	je	.LBB25_13
.LBB25_11:
	xorl	%r11d, %r11d
	.p2align	4
.LBB25_12:
	movl	(%r9,%r11,4), %eax
	movzbl	3(%r8,%r11,4), %r12d
	movzbl	%ah, %ecx
	movl	%eax, %edx
	movzbl	%al, %r15d
	movl	%eax, %r10d
	shrl	$16, %r10d
	shrl	$24, %edx
	movzwl	%bp, %eax
	imull	%eax, %r15d
	leal	128(%r15), %ebx
	movzbl	%bh, %ebx
	addl	%r15d, %ebx
	addl	$128, %ebx
	movl	%ebp, %r15d
	movzbl	%bh, %ebp
	imull	%eax, %ecx
	leal	128(%rcx), %eax
	movzbl	%ah, %eax
	addl	%ecx, %eax
	addl	$128, %eax
	movzbl	%ah, %eax
	movzbl	%r10b, %r10d
	xorl	$255, %r12d
	imull	%r12d, %ebp
	leal	128(%rbp), %ecx
	movzbl	%ch, %ecx
	addl	%ebp, %ecx
	addl	$128, %ecx
	movl	%r15d, %ebp
	movzbl	%ch, %ecx
	imull	%r12d, %eax
	leal	128(%rax), %ebx
	movzbl	%bh, %ebx
	leal	(%rbx,%rax), %r15d
	addl	$128, %r15d
	movd	%r10d, %xmm3
	pinsrw	$1, %edx, %xmm3
	andl	$65280, %r15d
	pmullw	%xmm0, %xmm3
	movdqa	.LCPI25_5(%rip), %xmm4
	paddw	%xmm4, %xmm3
	movdqa	%xmm3, %xmm5
	psrlw	$8, %xmm5
	paddw	%xmm3, %xmm5
	psrlw	$8, %xmm5
	movd	%r12d, %xmm3
	pshuflw	$0, %xmm3, %xmm3
	pmullw	%xmm5, %xmm3
	paddw	%xmm4, %xmm3
	movdqa	%xmm3, %xmm4
	psrlw	$8, %xmm4
	paddw	%xmm3, %xmm4
	psrlw	$8, %xmm4
	movdqa	%xmm4, %xmm3
	pslld	$16, %xmm3
	pshufb	.LCPI25_6(%rip), %xmm4
	por	%xmm3, %xmm4
	movd	%xmm4, %eax
	orl	%r15d, %eax
	orl	%ecx, %eax
	movl	%eax, (%r8,%r11,4)
	leaq	(%rdi,%r11), %rax
	incq	%rax
	incq	%r11
	cmpq	%r13, %rax
	jb	.LBB25_12
	jmp	.LBB25_13
.LBB25_14:
	movaps	128(%rsp), %xmm6
	movaps	144(%rsp), %xmm7
	movaps	160(%rsp), %xmm8
	movaps	176(%rsp), %xmm9
	movaps	192(%rsp), %xmm10
	movaps	208(%rsp), %xmm11
	movaps	224(%rsp), %xmm12
	movaps	240(%rsp), %xmm13
	movaps	256(%rsp), %xmm14
	movaps	272(%rsp), %xmm15
	addq	$296, %rsp
	popq	%rbx
	popq	%rbp
	popq	%rdi
	popq	%rsi
	popq	%r12
	popq	%r13
	popq	%r14
	popq	%r15
	retq

	.section	.rdata,"dr"
	.p2align	4, 0x0
.LCPI26_0:
	.byte	3
	.byte	128
	.byte	3
	.byte	128
	.byte	7
	.byte	128
	.byte	7
	.byte	128
	.byte	11
	.byte	128
	.byte	11
	.byte	128
	.byte	15
	.byte	128
	.byte	15
	.byte	128
.LCPI26_1:
	.byte	255
	.byte	0
	.byte	255
	.byte	0
	.byte	255
	.byte	0
	.byte	255
	.byte	0
	.byte	255
	.byte	0
	.byte	255
	.byte	0
	.byte	255
	.byte	0
	.byte	255
	.byte	0
.LCPI26_2:
	.short	128
	.short	128
	.short	128
	.short	128
	.short	128
	.short	128
	.short	128
	.short	128
.LCPI26_3:
	.zero	16,1
.LCPI26_4:
	.byte	3
	.byte	3
	.byte	3
	.byte	3
	.byte	7
	.byte	7
	.byte	7
	.byte	7
	.byte	11
	.byte	11
	.byte	11
	.byte	11
	.byte	15
	.byte	15
	.byte	15
	.byte	15
	.section	".text$pix_raster::view::blit_overlap::<#6e2ae1f4eafa75b3>","xr"
	.p2align	4
"pix_raster::view::blit_overlap::<#6e2ae1f4eafa75b3>":
	pushq	%r15
	pushq	%r14
	pushq	%r13
	pushq	%r12
	pushq	%rsi
	pushq	%rdi
	pushq	%rbp
	pushq	%rbx
	subq	$248, %rsp
	movdqa	%xmm12, 224(%rsp)
	movdqa	%xmm11, 208(%rsp)
	movdqa	%xmm10, 192(%rsp)
	movdqa	%xmm9, 176(%rsp)
	movdqa	%xmm8, 160(%rsp)
	movdqa	%xmm7, 144(%rsp)
	movdqa	%xmm6, 128(%rsp)
	movq	%r9, 40(%rsp)
	movq	%r8, 32(%rsp)
	movq	%rdx, 24(%rsp)
	movq	%rcx, 16(%rsp)
	movq	352(%rsp), %rax
	movq	24(%rax), %r11
	movq	32(%rax), %rcx
	movq	%rcx, 120(%rsp)
	cmpq	%rcx, %r11
	jae	.LBB26_14
	movq	(%rax), %r15
	movq	16(%rax), %r12
	movq	8(%rax), %r14
	movq	40(%rax), %rax
	subq	%r15, %r14
	movq	%rax, %rcx
	subq	%r11, %rcx
	movq	%rcx, 72(%rsp)
	movq	%r14, %rcx
	shrq	$4, %rcx
	movq	%rcx, 48(%rsp)
	movq	%r14, %rcx
	andq	$-16, %rcx
	movq	%rcx, 112(%rsp)
	leaq	(,%rcx,4), %rbp
	movl	%r14d, %r13d
	andl	$15, %r13d
	leal	(,%r14,4), %ecx
	movl	%ecx, %edx
	andl	$32, %edx
	movq	%rdx, 56(%rsp)
	movq	%r14, 8(%rsp)
	andl	$12, %r14d
	movq	%r11, %rdx
	movq	24(%rsp), %r9
	imulq	%r9, %rdx
	leaq	(,%r15,4), %r8
	leaq	(%r8,%rdx,4), %rsi
	movq	16(%rsp), %rbx
	addq	%rbx, %rsi
	movq	40(%rsp), %rdi
	imulq	%rdi, %rax
	leaq	(,%r12,4), %r8
	leaq	(%r8,%rax,4), %r10
	leaq	(,%rax,4), %rax
	addq	%rbp, %rax
	andl	$48, %ecx
	addq	%rcx, %rax
	movq	%rbp, 64(%rsp)
	leaq	(,%rdx,4), %rdx
	addq	%rbp, %rdx
	addq	%rcx, %rdx
	leaq	(,%r9,4), %rcx
	movq	%rcx, 104(%rsp)
	movq	32(%rsp), %rcx
	addq	%rcx, %r10
	movq	%r12, 80(%rsp)
	leaq	(%rax,%r12,4), %r9
	addq	%rcx, %r9
	movq	%r15, 88(%rsp)
	leaq	(%rdx,%r15,4), %r8
	addq	%rbx, %r8
	leaq	(,%rdi,4), %rax
	movq	%rax, 96(%rsp)
	jmp	.LBB26_2
	.p2align	4
.LBB26_13:
	incq	%r11
	movq	104(%rsp), %rax
	addq	%rax, %rsi
	movq	96(%rsp), %rcx
	addq	%rcx, %r10
	addq	%rcx, %r9
	addq	%rax, %r8
	cmpq	120(%rsp), %r11
	je	.LBB26_14
.LBB26_2:
	cmpq	$0, 48(%rsp)
	je	.LBB26_5
	movl	$32, %ecx
	movq	48(%rsp), %r12
	.p2align	4
.LBB26_4:
	movdqu	-32(%r10,%rcx), %xmm9
	movdqu	-16(%r10,%rcx), %xmm11
	pcmpeqd	%xmm5, %xmm5
	pxor	%xmm5, %xmm9
	pxor	%xmm5, %xmm11
	movdqa	.LCPI26_0(%rip), %xmm6
	pshufb	%xmm6, %xmm11
	pshufb	%xmm6, %xmm9
	movdqa	.LCPI26_1(%rip), %xmm2
	movdqu	-32(%rsi,%rcx), %xmm8
	movdqu	-16(%rsi,%rcx), %xmm7
	movdqu	(%rsi,%rcx), %xmm1
	movdqu	16(%rsi,%rcx), %xmm0
	movdqa	%xmm7, %xmm10
	pand	%xmm2, %xmm10
	movdqa	%xmm8, %xmm12
	pand	%xmm2, %xmm12
	pmullw	%xmm9, %xmm12
	pmullw	%xmm11, %xmm10
	movdqa	.LCPI26_2(%rip), %xmm3
	paddw	%xmm3, %xmm10
	paddw	%xmm3, %xmm12
	movdqa	.LCPI26_3(%rip), %xmm4
	pmulhuw	%xmm4, %xmm12
	pmulhuw	%xmm4, %xmm10
	psrlw	$8, %xmm8
	psrlw	$8, %xmm7
	pmullw	%xmm11, %xmm7
	pmullw	%xmm9, %xmm8
	paddw	%xmm3, %xmm8
	paddw	%xmm3, %xmm7
	pmulhuw	%xmm4, %xmm7
	pmulhuw	%xmm4, %xmm8
	psllw	$8, %xmm8
	por	%xmm12, %xmm8
	psllw	$8, %xmm7
	por	%xmm10, %xmm7
	movdqu	%xmm8, -32(%rsi,%rcx)
	movdqu	%xmm7, -16(%rsi,%rcx)
	movdqu	(%r10,%rcx), %xmm7
	movdqu	16(%r10,%rcx), %xmm8
	pxor	%xmm5, %xmm7
	pxor	%xmm5, %xmm8
	pshufb	%xmm6, %xmm8
	pshufb	%xmm6, %xmm7
	movdqa	%xmm0, %xmm5
	pand	%xmm2, %xmm5
	pand	%xmm1, %xmm2
	pmullw	%xmm7, %xmm2
	pmullw	%xmm8, %xmm5
	paddw	%xmm3, %xmm5
	paddw	%xmm3, %xmm2
	pmulhuw	%xmm4, %xmm2
	pmulhuw	%xmm4, %xmm5
	psrlw	$8, %xmm1
	psrlw	$8, %xmm0
	pmullw	%xmm8, %xmm0
	pmullw	%xmm7, %xmm1
	paddw	%xmm3, %xmm1
	paddw	%xmm3, %xmm0
	pmulhuw	%xmm4, %xmm0
	pmulhuw	%xmm4, %xmm1
	psllw	$8, %xmm1
	por	%xmm2, %xmm1
	psllw	$8, %xmm0
	por	%xmm5, %xmm0
	movdqu	%xmm1, (%rsi,%rcx)
	movdqu	%xmm0, 16(%rsi,%rcx)
	addq	$64, %rcx
	decq	%r12
	jne	.LBB26_4
.LBB26_5:
	movq	112(%rsp), %rax
	cmpq	8(%rsp), %rax
	je	.LBB26_13
	movq	%r11, %rax
	imulq	24(%rsp), %rax
	addq	88(%rsp), %rax
	movq	72(%rsp), %rcx
	leaq	(%rcx,%r11), %rdx
	imulq	40(%rsp), %rdx
	addq	80(%rsp), %rdx
	movq	16(%rsp), %rcx
	leaq	(%rcx,%rax,4), %rcx
	movq	32(%rsp), %rax
	leaq	(%rax,%rdx,4), %r12
	movq	64(%rsp), %rax
	addq	%rax, %rcx
	addq	%rax, %r12
	testb	$8, 8(%rsp)
	jne	.LBB26_7
	testb	$4, 8(%rsp)
	jne	.LBB26_9
.LBB26_10:
	cmpl	%r13d, %r14d
	je	.LBB26_13
	jmp	.LBB26_11
	.p2align	4
.LBB26_7:
	movdqu	(%r12), %xmm3
	movdqu	16(%r12), %xmm5
	movdqu	(%rcx), %xmm1
	movdqu	16(%rcx), %xmm0
	pcmpeqd	%xmm2, %xmm2
	pxor	%xmm2, %xmm3
	pxor	%xmm2, %xmm5
	movdqa	.LCPI26_0(%rip), %xmm2
	pshufb	%xmm2, %xmm5
	pshufb	%xmm2, %xmm3
	movdqa	.LCPI26_1(%rip), %xmm4
	movdqa	%xmm0, %xmm2
	pand	%xmm4, %xmm2
	pand	%xmm1, %xmm4
	pmullw	%xmm3, %xmm4
	pmullw	%xmm5, %xmm2
	movdqa	.LCPI26_2(%rip), %xmm6
	paddw	%xmm6, %xmm2
	paddw	%xmm6, %xmm4
	movdqa	.LCPI26_3(%rip), %xmm7
	pmulhuw	%xmm7, %xmm4
	pmulhuw	%xmm7, %xmm2
	psrlw	$8, %xmm1
	psrlw	$8, %xmm0
	pmullw	%xmm5, %xmm0
	pmullw	%xmm3, %xmm1
	paddw	%xmm6, %xmm1
	paddw	%xmm6, %xmm0
	pmulhuw	%xmm7, %xmm0
	pmulhuw	%xmm7, %xmm1
	psllw	$8, %xmm1
	por	%xmm4, %xmm1
	psllw	$8, %xmm0
	por	%xmm2, %xmm0
	movdqu	%xmm1, (%rcx)
	movdqu	%xmm0, 16(%rcx)
	testb	$4, 8(%rsp)
	je	.LBB26_10
.LBB26_9:
	movq	56(%rsp), %rax
	movdqu	(%r12,%rax), %xmm0
	movdqu	(%rcx,%rax), %xmm1
	pcmpeqd	%xmm2, %xmm2
	pshufb	.LCPI26_4(%rip), %xmm0
	pxor	%xmm0, %xmm2
	movdqa	.LCPI26_1(%rip), %xmm3
	movdqa	%xmm1, %xmm4
	pand	%xmm3, %xmm4
	pandn	%xmm3, %xmm0
	pmullw	%xmm4, %xmm0
	movdqa	.LCPI26_2(%rip), %xmm3
	paddw	%xmm3, %xmm0
	movdqa	.LCPI26_3(%rip), %xmm4
	pmulhuw	%xmm4, %xmm0
	psrlw	$8, %xmm1
	psrlw	$8, %xmm2
	pmullw	%xmm1, %xmm2
	paddw	%xmm3, %xmm2
	pmulhuw	%xmm4, %xmm2
	psllw	$8, %xmm2
	por	%xmm0, %xmm2
	movdqu	%xmm2, (%rcx,%rax)
	cmpl	%r13d, %r14d
	je	.LBB26_13
.LBB26_11:
	xorl	%ecx, %ecx
	.p2align	4
.LBB26_12:
	movzbl	3(%r9,%rcx,4), %r12d
	movl	(%r8,%rcx,4), %edx
	movzbl	%dh, %ebp
	movl	%edx, %eax
	movzbl	%dl, %r15d
	shrl	$16, %edx
	shrl	$24, %eax
	xorl	$255, %r12d
	imull	%r12d, %r15d
	leal	128(%r15), %ebx
	movzbl	%bh, %edi
	leal	(%rdi,%r15), %ebx
	addl	$128, %ebx
	movzbl	%bh, %edi
	imull	%r12d, %ebp
	leal	128(%rbp), %ebx
	movzbl	%bh, %ebx
	leal	(%rbx,%rbp), %r15d
	addl	$128, %r15d
	andl	$65280, %r15d
	movzbl	%dl, %edx
	imull	%r12d, %edx
	leal	128(%rdx), %ebx
	movzbl	%bh, %ebx
	addl	%ebx, %edx
	addl	$128, %edx
	imull	%eax, %r12d
	leal	128(%r12), %eax
	movzbl	%ah, %eax
	addl	%r12d, %eax
	addl	$128, %eax
	shll	$16, %eax
	andl	$-16777216, %eax
	shll	$8, %edx
	andl	$16711680, %edx
	orl	%eax, %edx
	orl	%r15d, %edx
	orl	%edi, %edx
	movl	%edx, (%r8,%rcx,4)
	leaq	(%r14,%rcx), %rax
	incq	%rax
	incq	%rcx
	cmpq	%r13, %rax
	jb	.LBB26_12
	jmp	.LBB26_13
.LBB26_14:
	movaps	128(%rsp), %xmm6
	movaps	144(%rsp), %xmm7
	movaps	160(%rsp), %xmm8
	movaps	176(%rsp), %xmm9
	movaps	192(%rsp), %xmm10
	movaps	208(%rsp), %xmm11
	movaps	224(%rsp), %xmm12
	addq	$248, %rsp
	popq	%rbx
	popq	%rbp
	popq	%rdi
	popq	%rsi
	popq	%r12
	popq	%r13
	popq	%r14
	popq	%r15
	retq

	.section	.rdata,"dr"
	.p2align	4, 0x0
.LCPI27_0:
	.byte	255
	.byte	0
	.byte	255
	.byte	0
	.byte	255
	.byte	0
	.byte	255
	.byte	0
	.byte	255
	.byte	0
	.byte	255
	.byte	0
	.byte	255
	.byte	0
	.byte	255
	.byte	0
.LCPI27_1:
	.short	128
	.short	128
	.short	128
	.short	128
	.short	128
	.short	128
	.short	128
	.short	128
.LCPI27_2:
	.zero	16,1
.LCPI27_3:
	.byte	3
	.byte	128
	.byte	3
	.byte	128
	.byte	7
	.byte	128
	.byte	7
	.byte	128
	.byte	11
	.byte	128
	.byte	11
	.byte	128
	.byte	15
	.byte	128
	.byte	15
	.byte	128
.LCPI27_4:
	.byte	3
	.byte	3
	.byte	3
	.byte	3
	.byte	7
	.byte	7
	.byte	7
	.byte	7
	.byte	11
	.byte	11
	.byte	11
	.byte	11
	.byte	15
	.byte	15
	.byte	15
	.byte	15
	.section	".text$pix_raster::view::blit_overlap::<#c351f49995d5d0e6>","xr"
	.p2align	4
"pix_raster::view::blit_overlap::<#c351f49995d5d0e6>":
	pushq	%r15
	pushq	%r14
	pushq	%r13
	pushq	%r12
	pushq	%rsi
	pushq	%rdi
	pushq	%rbp
	pushq	%rbx
	subq	$312, %rsp
	movdqa	%xmm15, 288(%rsp)
	movdqa	%xmm14, 272(%rsp)
	movdqa	%xmm13, 256(%rsp)
	movdqa	%xmm12, 240(%rsp)
	movdqa	%xmm11, 224(%rsp)
	movdqa	%xmm10, 208(%rsp)
	movdqa	%xmm9, 192(%rsp)
	movdqa	%xmm8, 176(%rsp)
	movdqa	%xmm7, 160(%rsp)
	movdqa	%xmm6, 144(%rsp)
	movq	%r9, 8(%rsp)
	movq	%rdx, 40(%rsp)
	movq	%rcx, 32(%rsp)
	movq	416(%rsp), %rcx
	movq	24(%rcx), %rax
	movq	32(%rcx), %rdx
	movq	%rax, (%rsp)
	movq	%rdx, 112(%rsp)
	cmpq	%rdx, %rax
	jae	.LBB27_18
	movl	424(%rsp), %eax
	movq	(%rcx), %rsi
	movq	16(%rcx), %rdx
	leaq	(%r8,%rdx), %r9
	movq	%r9, 80(%rsp)
	movq	8(%rcx), %rdi
	movq	40(%rcx), %rcx
	subq	%rsi, %rdi
	movq	%rcx, %r9
	movq	(%rsp), %r10
	subq	%r10, %r9
	movq	%r9, 72(%rsp)
	movq	%rdi, %rbx
	shrq	$4, %rbx
	movl	%eax, %ebp
	shrl	$24, %ebp
	movd	%ebp, %xmm0
	pxor	%xmm1, %xmm1
	pshufb	%xmm1, %xmm0
	movdqa	.LCPI27_0(%rip), %xmm1
	movdqa	%xmm0, %xmm2
	pand	%xmm1, %xmm2
	psrlw	$8, %xmm0
	movq	%rdi, %r14
	andq	$-16, %r14
	leaq	(,%r14,4), %r15
	movl	%edi, %r13d
	movl	%eax, %r11d
	shrl	$8, %r11d
	movl	%eax, %r9d
	shrl	$16, %r9d
	movd	%eax, %xmm3
	pinsrb	$1, %r11d, %xmm3
	pinsrb	$2, %r9d, %xmm3
	pinsrb	$3, %ebp, %xmm3
	pinsrb	$4, %eax, %xmm3
	pinsrb	$5, %r11d, %xmm3
	pinsrb	$6, %r9d, %xmm3
	pinsrb	$7, %ebp, %xmm3
	pinsrb	$8, %eax, %xmm3
	pinsrb	$9, %r11d, %xmm3
	pinsrb	$10, %r9d, %xmm3
	pinsrb	$11, %ebp, %xmm3
	pinsrb	$12, %eax, %xmm3
	pinsrb	$13, %r11d, %xmm3
	andl	$15, %r13d
	pinsrb	$14, %r9d, %xmm3
	movdqa	%xmm3, %xmm4
	pand	%xmm1, %xmm4
	movdqa	%xmm4, 128(%rsp)
	pinsrb	$15, %ebp, %xmm3
	psrlw	$8, %xmm3
	movl	%edi, %eax
	andl	$8, %eax
	movq	%rax, 24(%rsp)
	movq	%rdi, 16(%rsp)
	andl	$12, %edi
	movq	%r10, %rax
	movq	40(%rsp), %r9
	imulq	%r9, %rax
	imulq	8(%rsp), %rcx
	addq	%rdx, %rcx
	movq	%r14, 56(%rsp)
	leaq	(%r14,%rdi), %r10
	addq	%r8, %r10
	addq	%rcx, %r8
	addq	%rcx, %r10
	leaq	(%rsi,%rax), %rcx
	movq	32(%rsp), %r11
	leaq	(%r11,%rcx,4), %r14
	addq	$48, %r14
	movq	%r15, 64(%rsp)
	leaq	(%r15,%rax,4), %rax
	movq	%rdi, 48(%rsp)
	leaq	(%rax,%rdi,4), %rax
	movq	%rsi, 88(%rsp)
	leaq	(%rax,%rsi,4), %rdx
	addq	%r11, %rdx
	movq	%rbx, 104(%rsp)
	leaq	(,%rbx,4), %r12
	movq	%r13, %rbx
	leaq	(,%r9,4), %rax
	movq	%rax, 96(%rsp)
	jmp	.LBB27_2
	.p2align	4
.LBB27_17:
	movq	(%rsp), %rcx
	incq	%rcx
	movq	120(%rsp), %r14
	movq	96(%rsp), %r9
	addq	%r9, %r14
	movq	8(%rsp), %rax
	addq	%rax, %r8
	addq	%rax, %r10
	addq	%r9, %rdx
	movq	%rcx, (%rsp)
	cmpq	112(%rsp), %rcx
	movl	%r13d, %ebp
	je	.LBB27_18
.LBB27_2:
	cmpq	$0, 104(%rsp)
	je	.LBB27_7
	xorl	%esi, %esi
	movq	%r14, %r11
	jmp	.LBB27_4
	.p2align	4
.LBB27_6:
	addq	$4, %rsi
	addq	$64, %r11
	cmpq	%rsi, %r12
	je	.LBB27_7
.LBB27_4:
	movdqu	(%r8,%rsi,4), %xmm7
	ptest	%xmm7, %xmm7
	je	.LBB27_6
	movdqa	%xmm7, %xmm9
	pand	%xmm1, %xmm9
	pmullw	%xmm2, %xmm9
	psrlw	$8, %xmm7
	pmullw	%xmm0, %xmm7
	movdqa	.LCPI27_1(%rip), %xmm6
	paddw	%xmm6, %xmm9
	movdqa	.LCPI27_2(%rip), %xmm8
	pmulhuw	%xmm8, %xmm9
	paddw	%xmm6, %xmm7
	pmulhuw	%xmm8, %xmm7
	psllw	$8, %xmm7
	movdqu	-48(%r11), %xmm5
	movdqu	-32(%r11), %xmm13
	movdqu	-16(%r11), %xmm4
	movdqu	(%r11), %xmm15
	por	%xmm9, %xmm7
	pcmpeqd	%xmm11, %xmm11
	pxor	%xmm7, %xmm11
	psrlw	$8, %xmm11
	movdqa	%xmm13, %xmm10
	pand	%xmm1, %xmm10
	movdqa	%xmm5, %xmm7
	pand	%xmm1, %xmm7
	packuswb	%xmm10, %xmm7
	movdqa	%xmm15, %xmm10
	pand	%xmm1, %xmm10
	movdqa	%xmm4, %xmm12
	pand	%xmm1, %xmm12
	packuswb	%xmm10, %xmm12
	movdqa	%xmm12, %xmm14
	psrlw	$8, %xmm14
	movdqa	%xmm7, %xmm10
	psrlw	$8, %xmm10
	packuswb	%xmm14, %xmm10
	movdqa	%xmm10, %xmm14
	psrlw	$8, %xmm14
	pmullw	%xmm11, %xmm14
	paddw	%xmm6, %xmm14
	pmulhuw	%xmm8, %xmm14
	psllw	$8, %xmm14
	pandn	%xmm1, %xmm9
	pand	%xmm1, %xmm10
	pmullw	%xmm9, %xmm10
	paddw	%xmm6, %xmm10
	pmulhuw	%xmm8, %xmm10
	por	%xmm14, %xmm10
	psrlw	$8, %xmm15
	psrlw	$8, %xmm4
	packuswb	%xmm15, %xmm4
	psrlw	$8, %xmm13
	psrlw	$8, %xmm5
	packuswb	%xmm13, %xmm5
	movdqa	%xmm4, %xmm14
	pand	%xmm1, %xmm14
	movdqa	%xmm5, %xmm13
	pand	%xmm1, %xmm13
	packuswb	%xmm14, %xmm13
	movdqa	%xmm13, %xmm14
	psrlw	$8, %xmm14
	pmullw	%xmm11, %xmm14
	paddw	%xmm6, %xmm14
	pmulhuw	%xmm8, %xmm14
	psllw	$8, %xmm14
	pand	%xmm1, %xmm13
	pmullw	%xmm9, %xmm13
	paddw	%xmm6, %xmm13
	pmulhuw	%xmm8, %xmm13
	por	%xmm14, %xmm13
	pand	%xmm1, %xmm12
	pand	%xmm1, %xmm7
	packuswb	%xmm12, %xmm7
	movdqa	%xmm7, %xmm12
	psrlw	$8, %xmm12
	pmullw	%xmm11, %xmm12
	paddw	%xmm6, %xmm12
	pmulhuw	%xmm8, %xmm12
	psllw	$8, %xmm12
	pand	%xmm1, %xmm7
	pmullw	%xmm9, %xmm7
	paddw	%xmm6, %xmm7
	pmulhuw	%xmm8, %xmm7
	por	%xmm12, %xmm7
	psrlw	$8, %xmm4
	psrlw	$8, %xmm5
	packuswb	%xmm4, %xmm5
	movdqa	%xmm5, %xmm4
	pand	%xmm1, %xmm4
	pmullw	%xmm9, %xmm4
	paddw	%xmm6, %xmm4
	pmulhuw	%xmm8, %xmm4
	psrlw	$8, %xmm5
	pmullw	%xmm11, %xmm5
	paddw	%xmm6, %xmm5
	pmulhuw	%xmm8, %xmm5
	psllw	$8, %xmm5
	por	%xmm4, %xmm5
	movdqa	%xmm7, %xmm4
	punpcklbw	%xmm13, %xmm4
	movdqa	%xmm10, %xmm6
	punpcklbw	%xmm5, %xmm6
	movdqa	%xmm4, %xmm8
	punpckhwd	%xmm6, %xmm8
	punpcklwd	%xmm6, %xmm4
	movdqu	%xmm4, -48(%r11)
	movdqu	%xmm8, -32(%r11)
	punpckhbw	%xmm13, %xmm7
	punpckhbw	%xmm5, %xmm10
	movdqa	%xmm7, %xmm4
	punpckhwd	%xmm10, %xmm4
	punpcklwd	%xmm10, %xmm7
	movdqu	%xmm7, -16(%r11)
	movdqu	%xmm4, (%r11)
	jmp	.LBB27_6
	.p2align	4
.LBB27_7:
	movq	%r14, 120(%rsp)
	movq	56(%rsp), %rax
	cmpq	16(%rsp), %rax
	movl	%ebp, %r13d
	je	.LBB27_17
	movq	(%rsp), %rcx
	movq	%rcx, %rax
	imulq	40(%rsp), %rax
	addq	88(%rsp), %rax
	movq	72(%rsp), %r9
	leaq	(%r9,%rcx), %rsi
	imulq	8(%rsp), %rsi
	addq	80(%rsp), %rsi
	movq	32(%rsp), %rcx
	leaq	(%rcx,%rax,4), %r11
	addq	64(%rsp), %r11
	addq	56(%rsp), %rsi
	testb	$8, 16(%rsp)
	je	.LBB27_11
	movq	(%rsi), %rax
	testq	%rax, %rax
	je	.LBB27_11
	movq	%rax, %xmm5
	punpcklbw	%xmm5, %xmm5
	movdqa	%xmm5, %xmm6
	punpcklwd	%xmm5, %xmm6
	punpckhwd	%xmm5, %xmm5
	movdqa	%xmm5, %xmm9
	pand	%xmm1, %xmm9
	movdqa	%xmm6, %xmm10
	pand	%xmm1, %xmm10
	movdqa	128(%rsp), %xmm4
	pmullw	%xmm4, %xmm10
	pmullw	%xmm4, %xmm9
	movdqa	.LCPI27_1(%rip), %xmm7
	paddw	%xmm7, %xmm9
	paddw	%xmm7, %xmm10
	movdqa	.LCPI27_2(%rip), %xmm8
	pmulhuw	%xmm8, %xmm10
	pmulhuw	%xmm8, %xmm9
	psrlw	$8, %xmm6
	psrlw	$8, %xmm5
	pmullw	%xmm3, %xmm5
	pmullw	%xmm3, %xmm6
	paddw	%xmm7, %xmm6
	paddw	%xmm7, %xmm5
	pmulhuw	%xmm8, %xmm5
	pmulhuw	%xmm8, %xmm6
	psllw	$8, %xmm6
	por	%xmm10, %xmm6
	psllw	$8, %xmm5
	por	%xmm9, %xmm5
	movdqu	(%r11), %xmm10
	movdqu	16(%r11), %xmm9
	pcmpeqd	%xmm4, %xmm4
	pxor	%xmm4, %xmm6
	pxor	%xmm4, %xmm5
	movdqa	.LCPI27_3(%rip), %xmm4
	pshufb	%xmm4, %xmm5
	pshufb	%xmm4, %xmm6
	movdqa	%xmm9, %xmm11
	pand	%xmm1, %xmm11
	movdqa	%xmm10, %xmm12
	pand	%xmm1, %xmm12
	pmullw	%xmm6, %xmm12
	pmullw	%xmm5, %xmm11
	paddw	%xmm7, %xmm11
	paddw	%xmm7, %xmm12
	pmulhuw	%xmm8, %xmm12
	pmulhuw	%xmm8, %xmm11
	psrlw	$8, %xmm10
	psrlw	$8, %xmm9
	pmullw	%xmm5, %xmm9
	pmullw	%xmm6, %xmm10
	paddw	%xmm7, %xmm10
	paddw	%xmm7, %xmm9
	pmulhuw	%xmm8, %xmm9
	pmulhuw	%xmm8, %xmm10
	psllw	$8, %xmm10
	por	%xmm12, %xmm10
	psllw	$8, %xmm9
	por	%xmm11, %xmm9
	movdqu	%xmm10, (%r11)
	movdqu	%xmm9, 16(%r11)
.LBB27_11:
	testb	$4, 16(%rsp)
	je	.LBB27_14
	movq	24(%rsp), %rax
	movl	(%rsi,%rax), %eax
	testl	%eax, %eax
	je	.LBB27_14
	movd	%eax, %xmm5
	punpcklbw	%xmm5, %xmm5
	punpcklwd	%xmm5, %xmm5
	movdqa	%xmm5, %xmm4
	pand	%xmm1, %xmm4
	pmullw	128(%rsp), %xmm4
	movdqa	.LCPI27_1(%rip), %xmm6
	paddw	%xmm6, %xmm4
	movdqa	.LCPI27_2(%rip), %xmm7
	pmulhuw	%xmm7, %xmm4
	psrlw	$8, %xmm5
	pmullw	%xmm3, %xmm5
	paddw	%xmm6, %xmm5
	pmulhuw	%xmm7, %xmm5
	psllw	$8, %xmm5
	por	%xmm4, %xmm5
	movq	24(%rsp), %rax
	movdqu	(%r11,%rax,4), %xmm4
	pshufb	.LCPI27_4(%rip), %xmm5
	pcmpeqd	%xmm8, %xmm8
	pxor	%xmm5, %xmm8
	movdqa	%xmm4, %xmm9
	pand	%xmm1, %xmm9
	pandn	%xmm1, %xmm5
	pmullw	%xmm9, %xmm5
	paddw	%xmm6, %xmm5
	pmulhuw	%xmm7, %xmm5
	psrlw	$8, %xmm4
	psrlw	$8, %xmm8
	pmullw	%xmm4, %xmm8
	paddw	%xmm6, %xmm8
	pmulhuw	%xmm7, %xmm8
	psllw	$8, %xmm8
	por	%xmm5, %xmm8
	movdqu	%xmm8, (%r11,%rax,4)
.LBB27_14:
	cmpl	%ebx, 48(%rsp)
	je	.LBB27_17
	xorl	%r11d, %r11d
	movq	48(%rsp), %rsi
	.p2align	4
.LBB27_16:
	movzbl	(%r10,%r11), %ebp
	movl	(%rdx,%r11,4), %eax
	movzbl	%ah, %edi
	movl	%eax, %r14d
	movzbl	%al, %r9d
	movl	%eax, %r15d
	shrl	$16, %r15d
	shrl	$24, %r14d
	movzwl	%r13w, %eax
	imull	%ebp, %eax
	leal	128(%rax), %ecx
	movzbl	%ch, %ecx
	addl	%ecx, %eax
	addl	$128, %eax
	notl	%eax
	movzbl	%ah, %ebp
	imull	%ebp, %r9d
	leal	128(%r9), %eax
	movzbl	%ah, %eax
	addl	%r9d, %eax
	addl	$128, %eax
	movzbl	%ah, %eax
	imull	%ebp, %edi
	leal	128(%rdi), %ecx
	movzbl	%ch, %ecx
	addl	%ecx, %edi
	addl	$128, %edi
	andl	$65280, %edi
	movzbl	%r15b, %ecx
	imull	%ebp, %ecx
	movq	%rbx, %r15
	leal	128(%rcx), %ebx
	movzbl	%bh, %ebx
	addl	%ebx, %ecx
	addl	$128, %ecx
	imull	%ebp, %r14d
	leal	128(%r14), %ebx
	movzbl	%bh, %ebx
	leal	(%rbx,%r14), %r9d
	addl	$128, %r9d
	movq	%r15, %rbx
	shll	$16, %r9d
	andl	$-16777216, %r9d
	shll	$8, %ecx
	andl	$16711680, %ecx
	orl	%r9d, %ecx
	orl	%edi, %ecx
	orl	%eax, %ecx
	movl	%ecx, (%rdx,%r11,4)
	incq	%rsi
	incq	%r11
	cmpq	%r15, %rsi
	jb	.LBB27_16
	jmp	.LBB27_17
.LBB27_18:
	movaps	144(%rsp), %xmm6
	movaps	160(%rsp), %xmm7
	movaps	176(%rsp), %xmm8
	movaps	192(%rsp), %xmm9
	movaps	208(%rsp), %xmm10
	movaps	224(%rsp), %xmm11
	movaps	240(%rsp), %xmm12
	movaps	256(%rsp), %xmm13
	movaps	272(%rsp), %xmm14
	movaps	288(%rsp), %xmm15
	addq	$312, %rsp
	popq	%rbx
	popq	%rbp
	popq	%rdi
	popq	%rsi
	popq	%r12
	popq	%r13
	popq	%r14
	popq	%r15
	retq

	.section	.rdata,"dr"
	.p2align	4, 0x0
.LCPI28_0:
	.byte	255
	.byte	0
	.byte	255
	.byte	0
	.byte	255
	.byte	0
	.byte	255
	.byte	0
	.byte	255
	.byte	0
	.byte	255
	.byte	0
	.byte	255
	.byte	0
	.byte	255
	.byte	0
.LCPI28_1:
	.short	128
	.short	128
	.short	128
	.short	128
	.short	128
	.short	128
	.short	128
	.short	128
.LCPI28_2:
	.zero	16,1
.LCPI28_3:
	.byte	3
	.byte	128
	.byte	3
	.byte	128
	.byte	7
	.byte	128
	.byte	7
	.byte	128
	.byte	11
	.byte	128
	.byte	11
	.byte	128
	.byte	15
	.byte	128
	.byte	15
	.byte	128
.LCPI28_4:
	.byte	3
	.byte	3
	.byte	3
	.byte	3
	.byte	7
	.byte	7
	.byte	7
	.byte	7
	.byte	11
	.byte	11
	.byte	11
	.byte	11
	.byte	15
	.byte	15
	.byte	15
	.byte	15
	.section	".text$pix_raster::view::blit_overlap::<#69746525898a3d94>","xr"
	.p2align	4
"pix_raster::view::blit_overlap::<#69746525898a3d94>":
	pushq	%r15
	pushq	%r14
	pushq	%r13
	pushq	%r12
	pushq	%rsi
	pushq	%rdi
	pushq	%rbp
	pushq	%rbx
	subq	$296, %rsp
	movdqa	%xmm14, 272(%rsp)
	movdqa	%xmm13, 256(%rsp)
	movdqa	%xmm12, 240(%rsp)
	movdqa	%xmm11, 224(%rsp)
	movdqa	%xmm10, 208(%rsp)
	movdqa	%xmm9, 192(%rsp)
	movdqa	%xmm8, 176(%rsp)
	movdqa	%xmm7, 160(%rsp)
	movdqa	%xmm6, 144(%rsp)
	movq	%r9, 56(%rsp)
	movq	%r8, 48(%rsp)
	movq	%rdx, 40(%rsp)
	movq	%rcx, 32(%rsp)
	movq	400(%rsp), %rcx
	movq	24(%rcx), %rax
	movq	32(%rcx), %rdx
	movq	%rax, 8(%rsp)
	movq	%rdx, 136(%rsp)
	cmpq	%rdx, %rax
	jae	.LBB28_14
	movq	(%rcx), %rbx
	movq	16(%rcx), %r14
	movq	8(%rcx), %rdi
	movq	40(%rcx), %rcx
	subq	%rbx, %rdi
	movq	%rcx, %rax
	movq	8(%rsp), %r8
	subq	%r8, %rax
	movq	%rax, 88(%rsp)
	movq	%rdi, %rax
	shrq	$4, %rax
	movq	%rax, 64(%rsp)
	movzbl	408(%rsp), %eax
	movl	%eax, 28(%rsp)
	movd	%eax, %xmm0
	pxor	%xmm1, %xmm1
	pshufb	%xmm1, %xmm0
	movdqa	.LCPI28_0(%rip), %xmm1
	pand	%xmm0, %xmm1
	psrlw	$8, %xmm0
	movq	%rdi, %rax
	andq	$-16, %rax
	movq	%rax, 128(%rsp)
	leaq	(,%rax,4), %r11
	movl	%edi, %ebp
	andl	$15, %ebp
	leal	(,%rdi,4), %edx
	movl	%edx, %eax
	andl	$32, %eax
	movq	%rax, 72(%rsp)
	movq	40(%rsp), %r10
	imulq	%r10, %r8
	leaq	(,%rbx,4), %r9
	leaq	(%r9,%r8,4), %rsi
	movq	56(%rsp), %rax
	imulq	%rax, %rcx
	leaq	(,%r14,4), %r9
	leaq	(%r9,%rcx,4), %r15
	leaq	(%r11,%rcx,4), %rcx
	andl	$48, %edx
	addq	%rdx, %rcx
	movq	%r11, 80(%rsp)
	leaq	(%r11,%r8,4), %r8
	addq	%rdx, %r8
	movq	%rdi, 16(%rsp)
	movl	%edi, %r9d
	andl	$12, %r9d
	movq	32(%rsp), %r11
	addq	%r11, %rsi
	movq	48(%rsp), %rdx
	addq	%rdx, %r15
	movq	%r14, 96(%rsp)
	leaq	(%rcx,%r14,4), %r14
	addq	%rdx, %r14
	movq	%rbx, 104(%rsp)
	leaq	(%r8,%rbx,4), %r8
	addq	%r11, %r8
	leaq	(,%r10,4), %rcx
	movq	%rcx, 120(%rsp)
	leaq	(,%rax,4), %rax
	movq	%rax, 112(%rsp)
	jmp	.LBB28_2
	.p2align	4
.LBB28_13:
	movq	8(%rsp), %rax
	incq	%rax
	movq	120(%rsp), %rcx
	addq	%rcx, %rsi
	movq	112(%rsp), %rdx
	addq	%rdx, %r15
	addq	%rdx, %r14
	addq	%rcx, %r8
	movq	%rax, 8(%rsp)
	cmpq	136(%rsp), %rax
	je	.LBB28_14
.LBB28_2:
	cmpq	$0, 64(%rsp)
	je	.LBB28_5
	movl	$32, %r12d
	movq	64(%rsp), %r11
	.p2align	4
.LBB28_4:
	movdqu	-32(%r15,%r12), %xmm9
	movdqu	-16(%r15,%r12), %xmm10
	movdqa	.LCPI28_0(%rip), %xmm2
	movdqa	%xmm10, %xmm5
	pand	%xmm2, %xmm5
	movdqa	%xmm9, %xmm6
	pand	%xmm2, %xmm6
	pmullw	%xmm1, %xmm6
	pmullw	%xmm1, %xmm5
	movdqa	.LCPI28_1(%rip), %xmm3
	paddw	%xmm3, %xmm5
	paddw	%xmm3, %xmm6
	movdqa	.LCPI28_2(%rip), %xmm4
	pmulhuw	%xmm4, %xmm6
	pmulhuw	%xmm4, %xmm5
	psrlw	$8, %xmm9
	psrlw	$8, %xmm10
	pmullw	%xmm0, %xmm10
	pmullw	%xmm0, %xmm9
	paddw	%xmm3, %xmm9
	paddw	%xmm3, %xmm10
	pmulhuw	%xmm4, %xmm10
	pmulhuw	%xmm4, %xmm9
	psllw	$8, %xmm9
	por	%xmm6, %xmm9
	psllw	$8, %xmm10
	por	%xmm5, %xmm10
	pcmpeqd	%xmm7, %xmm7
	pxor	%xmm7, %xmm9
	pxor	%xmm7, %xmm10
	movdqa	.LCPI28_3(%rip), %xmm8
	pshufb	%xmm8, %xmm10
	pshufb	%xmm8, %xmm9
	movdqu	-32(%rsi,%r12), %xmm12
	movdqu	-16(%rsi,%r12), %xmm11
	movdqu	(%rsi,%r12), %xmm6
	movdqu	16(%rsi,%r12), %xmm5
	movdqa	%xmm11, %xmm13
	pand	%xmm2, %xmm13
	movdqa	%xmm12, %xmm14
	pand	%xmm2, %xmm14
	pmullw	%xmm9, %xmm14
	pmullw	%xmm10, %xmm13
	paddw	%xmm3, %xmm13
	paddw	%xmm3, %xmm14
	pmulhuw	%xmm4, %xmm14
	pmulhuw	%xmm4, %xmm13
	psrlw	$8, %xmm12
	psrlw	$8, %xmm11
	pmullw	%xmm10, %xmm11
	pmullw	%xmm9, %xmm12
	paddw	%xmm3, %xmm12
	paddw	%xmm3, %xmm11
	pmulhuw	%xmm4, %xmm11
	pmulhuw	%xmm4, %xmm12
	psllw	$8, %xmm12
	por	%xmm14, %xmm12
	psllw	$8, %xmm11
	por	%xmm13, %xmm11
	movdqu	%xmm12, -32(%rsi,%r12)
	movdqu	%xmm11, -16(%rsi,%r12)
	movdqu	(%r15,%r12), %xmm9
	movdqu	16(%r15,%r12), %xmm10
	movdqa	%xmm10, %xmm11
	pand	%xmm2, %xmm11
	movdqa	%xmm9, %xmm12
	pand	%xmm2, %xmm12
	pmullw	%xmm1, %xmm12
	pmullw	%xmm1, %xmm11
	paddw	%xmm3, %xmm11
	paddw	%xmm3, %xmm12
	pmulhuw	%xmm4, %xmm12
	pmulhuw	%xmm4, %xmm11
	psrlw	$8, %xmm9
	psrlw	$8, %xmm10
	pmullw	%xmm0, %xmm10
	pmullw	%xmm0, %xmm9
	paddw	%xmm3, %xmm9
	paddw	%xmm3, %xmm10
	pmulhuw	%xmm4, %xmm10
	pmulhuw	%xmm4, %xmm9
	psllw	$8, %xmm9
	por	%xmm12, %xmm9
	psllw	$8, %xmm10
	por	%xmm11, %xmm10
	pxor	%xmm7, %xmm9
	pxor	%xmm7, %xmm10
	pshufb	%xmm8, %xmm10
	pshufb	%xmm8, %xmm9
	movdqa	%xmm5, %xmm7
	pand	%xmm2, %xmm7
	pand	%xmm6, %xmm2
	pmullw	%xmm9, %xmm2
	pmullw	%xmm10, %xmm7
	paddw	%xmm3, %xmm7
	paddw	%xmm3, %xmm2
	pmulhuw	%xmm4, %xmm2
	pmulhuw	%xmm4, %xmm7
	psrlw	$8, %xmm6
	psrlw	$8, %xmm5
	pmullw	%xmm10, %xmm5
	pmullw	%xmm9, %xmm6
	paddw	%xmm3, %xmm6
	paddw	%xmm3, %xmm5
	pmulhuw	%xmm4, %xmm5
	pmulhuw	%xmm4, %xmm6
	psllw	$8, %xmm6
	por	%xmm2, %xmm6
	psllw	$8, %xmm5
	por	%xmm7, %xmm5
	movdqu	%xmm6, (%rsi,%r12)
	movdqu	%xmm5, 16(%rsi,%r12)
	addq	$64, %r12
	decq	%r11
	jne	.LBB28_4
.LBB28_5:
	movq	128(%rsp), %rax
	cmpq	16(%rsp), %rax
	je	.LBB28_13
	movq	8(%rsp), %rax
	movq	%rax, %rcx
	imulq	40(%rsp), %rcx
	addq	104(%rsp), %rcx
	movq	88(%rsp), %rdx
	addq	%rax, %rdx
	imulq	56(%rsp), %rdx
	addq	96(%rsp), %rdx
	movq	32(%rsp), %rax
	leaq	(%rax,%rcx,4), %r11
	movq	48(%rsp), %rax
	leaq	(%rax,%rdx,4), %r12
	movq	80(%rsp), %rax
	addq	%rax, %r11
	addq	%rax, %r12
	testb	$8, 16(%rsp)
	jne	.LBB28_7
	testb	$4, 16(%rsp)
	jne	.LBB28_9
.LBB28_10:
	cmpl	%ebp, %r9d
	movl	28(%rsp), %r13d
	je	.LBB28_13
	jmp	.LBB28_11
	.p2align	4
.LBB28_7:
	movdqu	(%r12), %xmm3
	movdqu	16(%r12), %xmm4
	movdqa	.LCPI28_0(%rip), %xmm2
	movdqa	%xmm4, %xmm7
	pand	%xmm2, %xmm7
	movdqa	%xmm3, %xmm8
	pand	%xmm2, %xmm8
	pmullw	%xmm1, %xmm8
	pmullw	%xmm1, %xmm7
	movdqa	.LCPI28_1(%rip), %xmm5
	paddw	%xmm5, %xmm7
	paddw	%xmm5, %xmm8
	movdqa	.LCPI28_2(%rip), %xmm6
	pmulhuw	%xmm6, %xmm8
	pmulhuw	%xmm6, %xmm7
	psrlw	$8, %xmm3
	psrlw	$8, %xmm4
	pmullw	%xmm0, %xmm4
	pmullw	%xmm0, %xmm3
	paddw	%xmm5, %xmm3
	paddw	%xmm5, %xmm4
	pmulhuw	%xmm6, %xmm4
	pmulhuw	%xmm6, %xmm3
	psllw	$8, %xmm3
	por	%xmm8, %xmm3
	psllw	$8, %xmm4
	por	%xmm7, %xmm4
	movdqu	(%r11), %xmm8
	movdqu	16(%r11), %xmm7
	pcmpeqd	%xmm9, %xmm9
	pxor	%xmm9, %xmm3
	pxor	%xmm9, %xmm4
	movdqa	.LCPI28_3(%rip), %xmm9
	pshufb	%xmm9, %xmm4
	pshufb	%xmm9, %xmm3
	movdqa	%xmm7, %xmm9
	pand	%xmm2, %xmm9
	pand	%xmm8, %xmm2
	pmullw	%xmm3, %xmm2
	pmullw	%xmm4, %xmm9
	paddw	%xmm5, %xmm9
	paddw	%xmm5, %xmm2
	pmulhuw	%xmm6, %xmm2
	pmulhuw	%xmm6, %xmm9
	psrlw	$8, %xmm8
	psrlw	$8, %xmm7
	pmullw	%xmm4, %xmm7
	pmullw	%xmm3, %xmm8
	paddw	%xmm5, %xmm8
	paddw	%xmm5, %xmm7
	pmulhuw	%xmm6, %xmm7
	pmulhuw	%xmm6, %xmm8
	psllw	$8, %xmm8
	por	%xmm2, %xmm8
	psllw	$8, %xmm7
	por	%xmm9, %xmm7
	movdqu	%xmm8, (%r11)
	movdqu	%xmm7, 16(%r11)
	testb	$4, 16(%rsp)
	je	.LBB28_10
.LBB28_9:
	movq	72(%rsp), %rax
	movdqu	(%r12,%rax), %xmm2
	movdqa	.LCPI28_0(%rip), %xmm5
	movdqa	%xmm2, %xmm6
	pand	%xmm5, %xmm6
	pmullw	%xmm1, %xmm6
	movdqa	.LCPI28_1(%rip), %xmm3
	paddw	%xmm3, %xmm6
	movdqa	.LCPI28_2(%rip), %xmm4
	pmulhuw	%xmm4, %xmm6
	psrlw	$8, %xmm2
	pmullw	%xmm0, %xmm2
	paddw	%xmm3, %xmm2
	pmulhuw	%xmm4, %xmm2
	psllw	$8, %xmm2
	por	%xmm6, %xmm2
	movdqu	(%r11,%rax), %xmm6
	pshufb	.LCPI28_4(%rip), %xmm2
	pcmpeqd	%xmm7, %xmm7
	pxor	%xmm2, %xmm7
	movdqa	%xmm6, %xmm8
	pand	%xmm5, %xmm8
	pandn	%xmm5, %xmm2
	pmullw	%xmm8, %xmm2
	paddw	%xmm3, %xmm2
	pmulhuw	%xmm4, %xmm2
	psrlw	$8, %xmm6
	psrlw	$8, %xmm7
	pmullw	%xmm6, %xmm7
	paddw	%xmm3, %xmm7
	pmulhuw	%xmm4, %xmm7
	psllw	$8, %xmm7
	por	%xmm2, %xmm7
	movdqu	%xmm7, (%r11,%rax)
	cmpl	%ebp, %r9d
	movl	28(%rsp), %r13d
	je	.LBB28_13
.LBB28_11:
	xorl	%r11d, %r11d
	.p2align	4
.LBB28_12:
	movq	%rbp, %rdi
	movzbl	3(%r14,%r11,4), %ebp
	movl	(%r8,%r11,4), %ecx
	movzbl	%ch, %edx
	movl	%ecx, %r12d
	movq	%r14, %rbx
	movzbl	%cl, %r14d
	movl	%ecx, %r10d
	shrl	$16, %r10d
	shrl	$24, %r12d
	movzwl	%r13w, %ecx
	imull	%ebp, %ecx
	leal	128(%rcx), %eax
	movzbl	%ah, %eax
	addl	%ecx, %eax
	addl	$128, %eax
	notl	%eax
	movzbl	%ah, %ebp
	imull	%ebp, %r14d
	leal	128(%r14), %eax
	movzbl	%ah, %eax
	addl	%r14d, %eax
	addl	$128, %eax
	movq	%rbx, %r14
	movzbl	%ah, %ecx
	imull	%ebp, %edx
	leal	128(%rdx), %eax
	movzbl	%ah, %eax
	addl	%eax, %edx
	addl	$128, %edx
	andl	$65280, %edx
	movzbl	%r10b, %eax
	imull	%ebp, %eax
	leal	128(%rax), %ebx
	movzbl	%bh, %ebx
	addl	%ebx, %eax
	addl	$128, %eax
	imull	%ebp, %r12d
	movq	%rdi, %rbp
	leal	128(%r12), %ebx
	movzbl	%bh, %ebx
	leal	(%rbx,%r12), %r10d
	addl	$128, %r10d
	shll	$16, %r10d
	andl	$-16777216, %r10d
	shll	$8, %eax
	andl	$16711680, %eax
	orl	%r10d, %eax
	orl	%edx, %eax
	orl	%ecx, %eax
	movl	%eax, (%r8,%r11,4)
	leaq	(%r9,%r11), %rax
	incq	%rax
	incq	%r11
	cmpq	%rdi, %rax
	jb	.LBB28_12
	jmp	.LBB28_13
.LBB28_14:
	movaps	144(%rsp), %xmm6
	movaps	160(%rsp), %xmm7
	movaps	176(%rsp), %xmm8
	movaps	192(%rsp), %xmm9
	movaps	208(%rsp), %xmm10
	movaps	224(%rsp), %xmm11
	movaps	240(%rsp), %xmm12
	movaps	256(%rsp), %xmm13
	movaps	272(%rsp), %xmm14
	addq	$296, %rsp
	popq	%rbx
	popq	%rbp
	popq	%rdi
	popq	%rsi
	popq	%r12
	popq	%r13
	popq	%r14
	popq	%r15
	retq

	.section	.rdata,"dr"
	.p2align	4, 0x0
.LCPI29_0:
	.byte	3
	.byte	128
	.byte	3
	.byte	128
	.byte	7
	.byte	128
	.byte	7
	.byte	128
	.byte	11
	.byte	128
	.byte	11
	.byte	128
	.byte	15
	.byte	128
	.byte	15
	.byte	128
.LCPI29_1:
	.byte	255
	.byte	0
	.byte	255
	.byte	0
	.byte	255
	.byte	0
	.byte	255
	.byte	0
	.byte	255
	.byte	0
	.byte	255
	.byte	0
	.byte	255
	.byte	0
	.byte	255
	.byte	0
.LCPI29_2:
	.short	128
	.short	128
	.short	128
	.short	128
	.short	128
	.short	128
	.short	128
	.short	128
.LCPI29_3:
	.zero	16,1
.LCPI29_4:
	.byte	3
	.byte	3
	.byte	3
	.byte	3
	.byte	7
	.byte	7
	.byte	7
	.byte	7
	.byte	11
	.byte	11
	.byte	11
	.byte	11
	.byte	15
	.byte	15
	.byte	15
	.byte	15
	.section	".text$pix_raster::view::blit_overlap::<#9ba22e131c89b739>","xr"
	.p2align	4
"pix_raster::view::blit_overlap::<#9ba22e131c89b739>":
	pushq	%r15
	pushq	%r14
	pushq	%r13
	pushq	%r12
	pushq	%rsi
	pushq	%rdi
	pushq	%rbp
	pushq	%rbx
	subq	$232, %rsp
	movdqa	%xmm11, 208(%rsp)
	movdqa	%xmm10, 192(%rsp)
	movdqa	%xmm9, 176(%rsp)
	movdqa	%xmm8, 160(%rsp)
	movdqa	%xmm7, 144(%rsp)
	movdqa	%xmm6, 128(%rsp)
	movq	%r9, 40(%rsp)
	movq	%r8, 32(%rsp)
	movq	%rdx, 24(%rsp)
	movq	%rcx, 16(%rsp)
	movq	336(%rsp), %rcx
	movq	24(%rcx), %r10
	movq	32(%rcx), %rax
	movq	%rax, 120(%rsp)
	cmpq	%rax, %r10
	jae	.LBB29_14
	movq	(%rcx), %r15
	movq	16(%rcx), %r12
	movq	8(%rcx), %rdi
	movq	40(%rcx), %rcx
	subq	%r15, %rdi
	movq	%rcx, %rax
	subq	%r10, %rax
	movq	%rax, 72(%rsp)
	movq	%rdi, %rax
	shrq	$4, %rax
	movq	%rax, 48(%rsp)
	movq	%rdi, %rax
	andq	$-16, %rax
	movq	%rax, 112(%rsp)
	leaq	(,%rax,4), %rbp
	movl	%edi, %r13d
	andl	$15, %r13d
	leal	(,%rdi,4), %edx
	movl	%edx, %eax
	andl	$32, %eax
	movq	%rax, 56(%rsp)
	movq	%rdi, 8(%rsp)
	andl	$12, %edi
	movq	%r10, %r8
	movq	24(%rsp), %r11
	imulq	%r11, %r8
	leaq	(,%r15,4), %r9
	leaq	(%r9,%r8,4), %rsi
	movq	16(%rsp), %rbx
	addq	%rbx, %rsi
	movq	40(%rsp), %rax
	imulq	%rax, %rcx
	leaq	(,%r12,4), %r9
	leaq	(%r9,%rcx,4), %r14
	leaq	(,%rcx,4), %rcx
	addq	%rbp, %rcx
	andl	$48, %edx
	addq	%rdx, %rcx
	movq	%rbp, 64(%rsp)
	leaq	(,%r8,4), %r8
	addq	%rbp, %r8
	addq	%rdx, %r8
	leaq	(,%r11,4), %rdx
	movq	%rdx, 104(%rsp)
	movq	32(%rsp), %rdx
	addq	%rdx, %r14
	movq	%r12, 80(%rsp)
	leaq	(%rcx,%r12,4), %r9
	addq	%rdx, %r9
	movq	%r15, 88(%rsp)
	leaq	(%r8,%r15,4), %r8
	addq	%rbx, %r8
	leaq	(,%rax,4), %rax
	movq	%rax, 96(%rsp)
	jmp	.LBB29_2
	.p2align	4
.LBB29_13:
	incq	%r10
	movq	104(%rsp), %rax
	addq	%rax, %rsi
	movq	96(%rsp), %rcx
	addq	%rcx, %r14
	addq	%rcx, %r9
	addq	%rax, %r8
	cmpq	120(%rsp), %r10
	je	.LBB29_14
.LBB29_2:
	cmpq	$0, 48(%rsp)
	je	.LBB29_5
	movl	$32, %ecx
	movq	48(%rsp), %r12
	.p2align	4
.LBB29_4:
	movdqu	-32(%r14,%rcx), %xmm7
	movdqu	-16(%r14,%rcx), %xmm6
	movdqu	-32(%rsi,%rcx), %xmm9
	movdqu	-16(%rsi,%rcx), %xmm11
	movdqu	(%rsi,%rcx), %xmm1
	movdqu	16(%rsi,%rcx), %xmm2
	movdqa	.LCPI29_0(%rip), %xmm5
	pshufb	%xmm5, %xmm11
	pshufb	%xmm5, %xmm9
	movdqa	.LCPI29_1(%rip), %xmm0
	movdqa	%xmm6, %xmm8
	pand	%xmm0, %xmm8
	movdqa	%xmm7, %xmm10
	pand	%xmm0, %xmm10
	pmullw	%xmm9, %xmm10
	pmullw	%xmm11, %xmm8
	movdqa	.LCPI29_2(%rip), %xmm3
	paddw	%xmm3, %xmm8
	paddw	%xmm3, %xmm10
	movdqa	.LCPI29_3(%rip), %xmm4
	pmulhuw	%xmm4, %xmm10
	pmulhuw	%xmm4, %xmm8
	psrlw	$8, %xmm7
	psrlw	$8, %xmm6
	pmullw	%xmm11, %xmm6
	pmullw	%xmm9, %xmm7
	paddw	%xmm3, %xmm7
	paddw	%xmm3, %xmm6
	pmulhuw	%xmm4, %xmm6
	pmulhuw	%xmm4, %xmm7
	psllw	$8, %xmm7
	por	%xmm10, %xmm7
	psllw	$8, %xmm6
	por	%xmm8, %xmm6
	movdqu	%xmm7, -32(%rsi,%rcx)
	movdqu	%xmm6, -16(%rsi,%rcx)
	movdqu	(%r14,%rcx), %xmm7
	movdqu	16(%r14,%rcx), %xmm6
	pshufb	%xmm5, %xmm2
	pshufb	%xmm5, %xmm1
	movdqa	%xmm6, %xmm5
	pand	%xmm0, %xmm5
	pand	%xmm7, %xmm0
	pmullw	%xmm1, %xmm0
	pmullw	%xmm2, %xmm5
	paddw	%xmm3, %xmm5
	paddw	%xmm3, %xmm0
	pmulhuw	%xmm4, %xmm0
	pmulhuw	%xmm4, %xmm5
	psrlw	$8, %xmm7
	psrlw	$8, %xmm6
	pmullw	%xmm2, %xmm6
	pmullw	%xmm1, %xmm7
	paddw	%xmm3, %xmm7
	paddw	%xmm3, %xmm6
	pmulhuw	%xmm4, %xmm6
	pmulhuw	%xmm4, %xmm7
	psllw	$8, %xmm7
	por	%xmm0, %xmm7
	psllw	$8, %xmm6
	por	%xmm5, %xmm6
	movdqu	%xmm7, (%rsi,%rcx)
	movdqu	%xmm6, 16(%rsi,%rcx)
	addq	$64, %rcx
	decq	%r12
	jne	.LBB29_4
.LBB29_5:
	movq	112(%rsp), %rax
	cmpq	8(%rsp), %rax
	je	.LBB29_13
	movq	%r10, %rcx
	imulq	24(%rsp), %rcx
	addq	88(%rsp), %rcx
	movq	72(%rsp), %rax
	leaq	(%rax,%r10), %rdx
	imulq	40(%rsp), %rdx
	addq	80(%rsp), %rdx
	movq	16(%rsp), %rax
	leaq	(%rax,%rcx,4), %rcx
	movq	32(%rsp), %rax
	leaq	(%rax,%rdx,4), %r12
	movq	64(%rsp), %rax
	addq	%rax, %rcx
	addq	%rax, %r12
	testb	$8, 8(%rsp)
	jne	.LBB29_7
	testb	$4, 8(%rsp)
	jne	.LBB29_9
.LBB29_10:
	cmpl	%r13d, %edi
	je	.LBB29_13
	jmp	.LBB29_11
	.p2align	4
.LBB29_7:
	movdqu	(%r12), %xmm1
	movdqu	16(%r12), %xmm0
	movdqu	(%rcx), %xmm4
	movdqu	16(%rcx), %xmm5
	movdqa	.LCPI29_0(%rip), %xmm2
	pshufb	%xmm2, %xmm5
	pshufb	%xmm2, %xmm4
	movdqa	.LCPI29_1(%rip), %xmm3
	movdqa	%xmm0, %xmm2
	pand	%xmm3, %xmm2
	pand	%xmm1, %xmm3
	pmullw	%xmm4, %xmm3
	pmullw	%xmm5, %xmm2
	movdqa	.LCPI29_2(%rip), %xmm6
	paddw	%xmm6, %xmm2
	paddw	%xmm6, %xmm3
	movdqa	.LCPI29_3(%rip), %xmm7
	pmulhuw	%xmm7, %xmm3
	pmulhuw	%xmm7, %xmm2
	psrlw	$8, %xmm1
	psrlw	$8, %xmm0
	pmullw	%xmm5, %xmm0
	pmullw	%xmm4, %xmm1
	paddw	%xmm6, %xmm1
	paddw	%xmm6, %xmm0
	pmulhuw	%xmm7, %xmm0
	pmulhuw	%xmm7, %xmm1
	psllw	$8, %xmm1
	por	%xmm3, %xmm1
	psllw	$8, %xmm0
	por	%xmm2, %xmm0
	movdqu	%xmm1, (%rcx)
	movdqu	%xmm0, 16(%rcx)
	testb	$4, 8(%rsp)
	je	.LBB29_10
.LBB29_9:
	movq	56(%rsp), %rax
	movdqu	(%r12,%rax), %xmm0
	movdqu	(%rcx,%rax), %xmm1
	pshufb	.LCPI29_4(%rip), %xmm1
	movdqa	.LCPI29_1(%rip), %xmm2
	movdqa	%xmm0, %xmm3
	pand	%xmm2, %xmm3
	pand	%xmm1, %xmm2
	pmullw	%xmm3, %xmm2
	movdqa	.LCPI29_2(%rip), %xmm3
	paddw	%xmm3, %xmm2
	movdqa	.LCPI29_3(%rip), %xmm4
	pmulhuw	%xmm4, %xmm2
	psrlw	$8, %xmm0
	psrlw	$8, %xmm1
	pmullw	%xmm0, %xmm1
	paddw	%xmm3, %xmm1
	pmulhuw	%xmm4, %xmm1
	psllw	$8, %xmm1
	por	%xmm2, %xmm1
	movdqu	%xmm1, (%rcx,%rax)
	cmpl	%r13d, %edi
	je	.LBB29_13
.LBB29_11:
	xorl	%ecx, %ecx
	.p2align	4
.LBB29_12:
	movl	(%r9,%rcx,4), %edx
	movzbl	%dh, %ebp
	movl	%edx, %r12d
	movzbl	%dl, %r15d
	shrl	$16, %edx
	shrl	$24, %r12d
	movzbl	3(%r8,%rcx,4), %r11d
	imull	%r11d, %r15d
	leal	128(%r15), %eax
	movzbl	%ah, %eax
	addl	%r15d, %eax
	addl	$128, %eax
	movzbl	%ah, %eax
	imull	%r11d, %ebp
	leal	128(%rbp), %ebx
	movzbl	%bh, %ebx
	leal	(%rbx,%rbp), %r15d
	addl	$128, %r15d
	andl	$65280, %r15d
	movzbl	%dl, %edx
	imull	%r11d, %edx
	leal	128(%rdx), %ebx
	movzbl	%bh, %ebx
	addl	%ebx, %edx
	addl	$128, %edx
	imull	%r11d, %r12d
	leal	128(%r12), %ebx
	movzbl	%bh, %ebx
	leal	(%rbx,%r12), %r11d
	addl	$128, %r11d
	shll	$16, %r11d
	andl	$-16777216, %r11d
	shll	$8, %edx
	andl	$16711680, %edx
	orl	%r11d, %edx
	orl	%r15d, %edx
	orl	%eax, %edx
	movl	%edx, (%r8,%rcx,4)
	leaq	(%rdi,%rcx), %rax
	incq	%rax
	incq	%rcx
	cmpq	%r13, %rax
	jb	.LBB29_12
	jmp	.LBB29_13
.LBB29_14:
	movaps	128(%rsp), %xmm6
	movaps	144(%rsp), %xmm7
	movaps	160(%rsp), %xmm8
	movaps	176(%rsp), %xmm9
	movaps	192(%rsp), %xmm10
	movaps	208(%rsp), %xmm11
	addq	$232, %rsp
	popq	%rbx
	popq	%rbp
	popq	%rdi
	popq	%rsi
	popq	%r12
	popq	%r13
	popq	%r14
	popq	%r15
	retq

	.section	.rdata,"dr"
	.p2align	4, 0x0
.LCPI30_0:
	.byte	255
	.byte	0
	.byte	255
	.byte	0
	.byte	255
	.byte	0
	.byte	255
	.byte	0
	.byte	255
	.byte	0
	.byte	255
	.byte	0
	.byte	255
	.byte	0
	.byte	255
	.byte	0
.LCPI30_1:
	.short	128
	.short	128
	.short	128
	.short	128
	.short	128
	.short	128
	.short	128
	.short	128
.LCPI30_2:
	.zero	16,1
.LCPI30_3:
	.byte	3
	.byte	128
	.byte	3
	.byte	128
	.byte	7
	.byte	128
	.byte	7
	.byte	128
	.byte	11
	.byte	128
	.byte	11
	.byte	128
	.byte	15
	.byte	128
	.byte	15
	.byte	128
.LCPI30_4:
	.byte	3
	.byte	3
	.byte	3
	.byte	3
	.byte	7
	.byte	7
	.byte	7
	.byte	7
	.byte	11
	.byte	11
	.byte	11
	.byte	11
	.byte	15
	.byte	15
	.byte	15
	.byte	15
.LCPI30_5:
	.short	128
	.short	128
	.zero	2
	.zero	2
	.zero	2
	.zero	2
	.zero	2
	.zero	2
.LCPI30_6:
	.byte	128
	.byte	128
	.byte	128
	.byte	2
	.zero	1
	.zero	1
	.zero	1
	.zero	1
	.zero	1
	.zero	1
	.zero	1
	.zero	1
	.zero	1
	.zero	1
	.zero	1
	.zero	1
	.section	".text$pix_raster::view::blit_overlap::<#7b602135e49fc3a4>","xr"
	.p2align	4
"pix_raster::view::blit_overlap::<#7b602135e49fc3a4>":
	pushq	%r15
	pushq	%r14
	pushq	%r13
	pushq	%r12
	pushq	%rsi
	pushq	%rdi
	pushq	%rbp
	pushq	%rbx
	subq	$296, %rsp
	movdqa	%xmm14, 272(%rsp)
	movdqa	%xmm13, 256(%rsp)
	movdqa	%xmm12, 240(%rsp)
	movdqa	%xmm11, 224(%rsp)
	movdqa	%xmm10, 208(%rsp)
	movdqa	%xmm9, 192(%rsp)
	movdqa	%xmm8, 176(%rsp)
	movdqa	%xmm7, 160(%rsp)
	movdqa	%xmm6, 144(%rsp)
	movq	%r9, 16(%rsp)
	movq	%rdx, 40(%rsp)
	movq	%rcx, 32(%rsp)
	movq	400(%rsp), %rax
	movq	24(%rax), %rcx
	movq	32(%rax), %rdx
	movq	%rcx, 8(%rsp)
	movq	%rdx, 128(%rsp)
	cmpq	%rdx, %rcx
	jae	.LBB30_21
	movl	408(%rsp), %edx
	movq	(%rax), %rdi
	movq	16(%rax), %r10
	leaq	(%r8,%r10), %rcx
	movq	%rcx, 96(%rsp)
	movq	8(%rax), %rsi
	movq	40(%rax), %rcx
	subq	%rdi, %rsi
	movq	%rcx, %rax
	movq	8(%rsp), %r9
	subq	%r9, %rax
	movq	%rax, 88(%rsp)
	movq	%rsi, %r14
	movl	%edx, %eax
	movl	%edx, %ebx
	shrl	$24, %ebx
	movl	%edx, %r11d
	shrl	$16, %r11d
	shrl	$8, %edx
	movd	%eax, %xmm0
	movl	%eax, %r13d
	pinsrb	$1, %edx, %xmm0
	pinsrb	$2, %r11d, %xmm0
	pinsrb	$3, %ebx, %xmm0
	pinsrb	$4, %eax, %xmm0
	pinsrb	$5, %edx, %xmm0
	pinsrb	$6, %r11d, %xmm0
	pinsrb	$7, %ebx, %xmm0
	pinsrb	$8, %eax, %xmm0
	pinsrb	$9, %edx, %xmm0
	pinsrb	$10, %r11d, %xmm0
	pinsrb	$11, %ebx, %xmm0
	pinsrb	$12, %eax, %xmm0
	pinsrb	$13, %edx, %xmm0
	shrq	$4, %r14
	pinsrb	$14, %r11d, %xmm0
	movdqa	.LCPI30_0(%rip), %xmm1
	pand	%xmm0, %xmm1
	pinsrb	$15, %ebx, %xmm0
	psrlw	$8, %xmm0
	movq	%rsi, %rdx
	andq	$-16, %rdx
	movl	%esi, %r12d
	andl	$15, %r12d
	movl	%esi, %r15d
	andl	$8, %r15d
	movq	%rsi, 24(%rsp)
	movl	%esi, %ebp
	andl	$12, %ebp
	movzbl	%r11b, %eax
	movd	%eax, %xmm2
	movl	%r13d, %eax
	movzbl	%ah, %esi
	movzbl	%al, %r13d
	pinsrw	$1, %ebx, %xmm2
	imulq	16(%rsp), %rcx
	addq	%r10, %rcx
	leaq	(%r8,%rcx), %rbx
	addq	$8, %rbx
	leaq	(%rdx,%rbp), %r11
	addq	%r8, %r11
	movq	%r9, %rax
	movq	40(%rsp), %r8
	imulq	%r8, %rax
	addq	%rcx, %r11
	leaq	(%rdi,%rax), %rcx
	movq	32(%rsp), %r9
	leaq	(%r9,%rcx,4), %rcx
	movq	%rdx, 56(%rsp)
	leaq	(,%rdx,4), %rdx
	movq	%rdx, 80(%rsp)
	leaq	(%rdx,%rax,4), %rax
	movq	%rbp, 48(%rsp)
	leaq	(%rax,%rbp,4), %rax
	movq	%rdi, 104(%rsp)
	leaq	(%rax,%rdi,4), %rdx
	addq	%r9, %rdx
	movq	%r15, 72(%rsp)
	leal	(,%r15,4), %eax
	movq	%rax, 64(%rsp)
	movq	%r14, 120(%rsp)
	leaq	(,%r14,4), %r9
	movq	%rcx, %r14
	leaq	(,%r8,4), %rax
	movq	%rax, 112(%rsp)
	jmp	.LBB30_2
	.p2align	4
.LBB30_20:
	movq	8(%rsp), %rcx
	incq	%rcx
	movq	16(%rsp), %rax
	addq	%rax, %rbx
	movq	136(%rsp), %r14
	movq	112(%rsp), %r8
	addq	%r8, %r14
	addq	%rax, %r11
	addq	%r8, %rdx
	movq	%rcx, 8(%rsp)
	cmpq	128(%rsp), %rcx
	je	.LBB30_21
.LBB30_2:
	cmpq	$0, 120(%rsp)
	je	.LBB30_8
	xorl	%r10d, %r10d
	movq	%r14, %r8
	jmp	.LBB30_4
	.p2align	4
.LBB30_6:
	movq	%rax, %xmm9
	punpcklbw	%xmm9, %xmm9
	movdqa	%xmm9, %xmm10
	punpcklwd	%xmm9, %xmm10
	punpckhwd	%xmm9, %xmm9
	movdqa	.LCPI30_0(%rip), %xmm3
	movdqa	%xmm9, %xmm11
	pand	%xmm3, %xmm11
	movdqa	%xmm10, %xmm12
	pand	%xmm3, %xmm12
	pmullw	%xmm1, %xmm12
	pmullw	%xmm1, %xmm11
	movdqa	.LCPI30_1(%rip), %xmm4
	paddw	%xmm4, %xmm11
	paddw	%xmm4, %xmm12
	movdqa	.LCPI30_2(%rip), %xmm5
	pmulhuw	%xmm5, %xmm12
	pmulhuw	%xmm5, %xmm11
	psrlw	$8, %xmm10
	psrlw	$8, %xmm9
	pmullw	%xmm0, %xmm9
	pmullw	%xmm0, %xmm10
	paddw	%xmm4, %xmm10
	paddw	%xmm4, %xmm9
	pmulhuw	%xmm5, %xmm9
	pmulhuw	%xmm5, %xmm10
	psllw	$8, %xmm10
	psllw	$8, %xmm9
	movdqa	.LCPI30_3(%rip), %xmm8
	movdqu	(%r8), %xmm13
	movdqu	16(%r8), %xmm14
	movdqu	32(%r8), %xmm6
	movdqu	48(%r8), %xmm7
	pshufb	%xmm8, %xmm14
	pshufb	%xmm8, %xmm13
	por	%xmm11, %xmm9
	por	%xmm12, %xmm10
	pmullw	%xmm13, %xmm12
	pmullw	%xmm14, %xmm11
	paddw	%xmm4, %xmm11
	paddw	%xmm4, %xmm12
	pmulhuw	%xmm5, %xmm12
	pmulhuw	%xmm5, %xmm11
	psrlw	$8, %xmm10
	psrlw	$8, %xmm9
	pmullw	%xmm14, %xmm9
	pmullw	%xmm13, %xmm10
	paddw	%xmm4, %xmm10
	paddw	%xmm4, %xmm9
	pmulhuw	%xmm5, %xmm9
	pmulhuw	%xmm5, %xmm10
	psllw	$8, %xmm10
	por	%xmm12, %xmm10
	psllw	$8, %xmm9
	por	%xmm11, %xmm9
	movdqu	%xmm10, (%r8)
	movdqu	%xmm9, 16(%r8)
	movq	(%rbx,%r10,4), %xmm9
	punpcklbw	%xmm9, %xmm9
	movdqa	%xmm9, %xmm10
	punpcklwd	%xmm9, %xmm10
	punpckhwd	%xmm9, %xmm9
	movdqa	%xmm9, %xmm11
	pand	%xmm3, %xmm11
	pand	%xmm10, %xmm3
	pmullw	%xmm1, %xmm3
	pmullw	%xmm1, %xmm11
	paddw	%xmm4, %xmm11
	paddw	%xmm4, %xmm3
	pmulhuw	%xmm5, %xmm3
	pmulhuw	%xmm5, %xmm11
	psrlw	$8, %xmm10
	psrlw	$8, %xmm9
	pmullw	%xmm0, %xmm9
	pmullw	%xmm0, %xmm10
	paddw	%xmm4, %xmm10
	paddw	%xmm4, %xmm9
	pmulhuw	%xmm5, %xmm9
	pmulhuw	%xmm5, %xmm10
	psllw	$8, %xmm10
	psllw	$8, %xmm9
	pshufb	%xmm8, %xmm7
	pshufb	%xmm8, %xmm6
	por	%xmm11, %xmm9
	por	%xmm3, %xmm10
	pmullw	%xmm6, %xmm3
	pmullw	%xmm7, %xmm11
	paddw	%xmm4, %xmm11
	paddw	%xmm4, %xmm3
	pmulhuw	%xmm5, %xmm3
	pmulhuw	%xmm5, %xmm11
	psrlw	$8, %xmm10
	psrlw	$8, %xmm9
	pmullw	%xmm7, %xmm9
	pmullw	%xmm6, %xmm10
	paddw	%xmm4, %xmm10
	paddw	%xmm4, %xmm9
	pmulhuw	%xmm5, %xmm9
	pmulhuw	%xmm5, %xmm10
	psllw	$8, %xmm10
	por	%xmm3, %xmm10
	psllw	$8, %xmm9
	por	%xmm11, %xmm9
	movdqu	%xmm10, 32(%r8)
	movdqu	%xmm9, 48(%r8)
	addq	$4, %r10
	addq	$64, %r8
	cmpq	%r10, %r9
	je	.LBB30_8
.LBB30_4:
	movq	-8(%rbx,%r10,4), %rax
	movq	(%rbx,%r10,4), %rdi
	orq	%rax, %rdi
	jne	.LBB30_6
	pxor	%xmm3, %xmm3
	movdqu	%xmm3, 48(%r8)
	movdqu	%xmm3, 32(%r8)
	movdqu	%xmm3, 16(%r8)
	movdqu	%xmm3, (%r8)
	addq	$4, %r10
	addq	$64, %r8
	cmpq	%r10, %r9
	jne	.LBB30_4
.LBB30_8:
	movq	%r14, 136(%rsp)
	movq	56(%rsp), %rax
	cmpq	24(%rsp), %rax
	je	.LBB30_20
	movq	8(%rsp), %rcx
	movq	%rcx, %rax
	imulq	40(%rsp), %rax
	addq	104(%rsp), %rax
	movq	88(%rsp), %r8
	leaq	(%r8,%rcx), %r10
	imulq	16(%rsp), %r10
	addq	96(%rsp), %r10
	movq	32(%rsp), %rcx
	leaq	(%rcx,%rax,4), %r8
	addq	80(%rsp), %r8
	addq	56(%rsp), %r10
	testb	$8, 24(%rsp)
	jne	.LBB30_10
	testb	$4, 24(%rsp)
	jne	.LBB30_14
.LBB30_17:
	cmpl	%r12d, 48(%rsp)
	je	.LBB30_20
	jmp	.LBB30_18
	.p2align	4
.LBB30_10:
	movq	(%r10), %rax
	testq	%rax, %rax
	je	.LBB30_11
	movq	%rax, %xmm3
	punpcklbw	%xmm3, %xmm3
	movdqa	%xmm3, %xmm4
	punpcklwd	%xmm3, %xmm4
	punpckhwd	%xmm3, %xmm3
	movdqa	.LCPI30_0(%rip), %xmm6
	movdqa	%xmm3, %xmm5
	pand	%xmm6, %xmm5
	pand	%xmm4, %xmm6
	pmullw	%xmm1, %xmm6
	pmullw	%xmm1, %xmm5
	movdqa	.LCPI30_1(%rip), %xmm7
	paddw	%xmm7, %xmm5
	paddw	%xmm7, %xmm6
	movdqa	.LCPI30_2(%rip), %xmm8
	pmulhuw	%xmm8, %xmm6
	pmulhuw	%xmm8, %xmm5
	psrlw	$8, %xmm4
	psrlw	$8, %xmm3
	pmullw	%xmm0, %xmm3
	pmullw	%xmm0, %xmm4
	paddw	%xmm7, %xmm4
	paddw	%xmm7, %xmm3
	pmulhuw	%xmm8, %xmm3
	pmulhuw	%xmm8, %xmm4
	psllw	$8, %xmm4
	psllw	$8, %xmm3
	movdqu	(%r8), %xmm9
	movdqu	16(%r8), %xmm10
	movdqa	.LCPI30_3(%rip), %xmm11
	pshufb	%xmm11, %xmm10
	pshufb	%xmm11, %xmm9
	por	%xmm5, %xmm3
	por	%xmm6, %xmm4
	pmullw	%xmm9, %xmm6
	pmullw	%xmm10, %xmm5
	paddw	%xmm7, %xmm5
	paddw	%xmm7, %xmm6
	pmulhuw	%xmm8, %xmm6
	pmulhuw	%xmm8, %xmm5
	psrlw	$8, %xmm4
	psrlw	$8, %xmm3
	pmullw	%xmm10, %xmm3
	pmullw	%xmm9, %xmm4
	paddw	%xmm7, %xmm4
	paddw	%xmm7, %xmm3
	pmulhuw	%xmm8, %xmm3
	pmulhuw	%xmm8, %xmm4
	psllw	$8, %xmm4
	por	%xmm6, %xmm4
	psllw	$8, %xmm3
	por	%xmm5, %xmm3
	movdqu	%xmm4, (%r8)
	movdqu	%xmm3, 16(%r8)
	testb	$4, 24(%rsp)
	je	.LBB30_17
	jmp	.LBB30_14
.LBB30_11:
	pxor	%xmm3, %xmm3
	movdqu	%xmm3, 16(%r8)
	movdqu	%xmm3, (%r8)
	testb	$4, 24(%rsp)
	je	.LBB30_17
	.p2align	4
.LBB30_14:
	addq	64(%rsp), %r8
	movq	72(%rsp), %rax
	movl	(%r10,%rax), %eax
	testl	%eax, %eax
	je	.LBB30_15
	movd	%eax, %xmm4
	punpcklbw	%xmm4, %xmm4
	punpcklwd	%xmm4, %xmm4
	movdqa	.LCPI30_0(%rip), %xmm3
	movdqa	%xmm4, %xmm7
	pand	%xmm3, %xmm7
	pmullw	%xmm1, %xmm7
	movdqa	.LCPI30_1(%rip), %xmm5
	paddw	%xmm5, %xmm7
	movdqa	.LCPI30_2(%rip), %xmm6
	pmulhuw	%xmm6, %xmm7
	psrlw	$8, %xmm4
	pmullw	%xmm0, %xmm4
	paddw	%xmm5, %xmm4
	pmulhuw	%xmm6, %xmm4
	psllw	$8, %xmm4
	movdqu	(%r8), %xmm8
	por	%xmm7, %xmm4
	pshufb	.LCPI30_4(%rip), %xmm8
	pand	%xmm8, %xmm3
	pmullw	%xmm7, %xmm3
	paddw	%xmm5, %xmm3
	pmulhuw	%xmm6, %xmm3
	psrlw	$8, %xmm4
	psrlw	$8, %xmm8
	pmullw	%xmm4, %xmm8
	paddw	%xmm5, %xmm8
	pmulhuw	%xmm6, %xmm8
	psllw	$8, %xmm8
	por	%xmm3, %xmm8
	movdqu	%xmm8, (%r8)
	cmpl	%r12d, 48(%rsp)
	je	.LBB30_20
	jmp	.LBB30_18
.LBB30_15:
	pxor	%xmm3, %xmm3
	movdqu	%xmm3, (%r8)
	cmpl	%r12d, 48(%rsp)
	je	.LBB30_20
	.p2align	4
.LBB30_18:
	xorl	%r8d, %r8d
	movq	48(%rsp), %r10
	.p2align	4
.LBB30_19:
	movzbl	(%r11,%r8), %r15d
	movzbl	3(%rdx,%r8,4), %ebp
	movzwl	%r13w, %eax
	imull	%r15d, %eax
	leal	128(%rax), %ecx
	movzbl	%ch, %ecx
	addl	%ecx, %eax
	addl	$128, %eax
	movzbl	%ah, %edi
	movzwl	%si, %eax
	imull	%r15d, %eax
	leal	128(%rax), %ecx
	movzbl	%ch, %ecx
	addl	%ecx, %eax
	addl	$128, %eax
	movzbl	%ah, %eax
	imull	%ebp, %edi
	leal	128(%rdi), %ecx
	movzbl	%ch, %ecx
	addl	%edi, %ecx
	addl	$128, %ecx
	movzbl	%ch, %edi
	imull	%ebp, %eax
	leal	128(%rax), %ecx
	movzbl	%ch, %ecx
	leal	(%rcx,%rax), %r14d
	addl	$128, %r14d
	andl	$65280, %r14d
	movd	%r15d, %xmm3
	pshuflw	$0, %xmm3, %xmm3
	pmullw	%xmm2, %xmm3
	movdqa	.LCPI30_5(%rip), %xmm4
	paddw	%xmm4, %xmm3
	movdqa	%xmm3, %xmm5
	psrlw	$8, %xmm5
	paddw	%xmm3, %xmm5
	psrlw	$8, %xmm5
	movd	%ebp, %xmm3
	pshuflw	$0, %xmm3, %xmm3
	pmullw	%xmm5, %xmm3
	paddw	%xmm4, %xmm3
	movdqa	%xmm3, %xmm4
	psrlw	$8, %xmm4
	paddw	%xmm3, %xmm4
	psrlw	$8, %xmm4
	movdqa	%xmm4, %xmm3
	pslld	$16, %xmm3
	pshufb	.LCPI30_6(%rip), %xmm4
	por	%xmm3, %xmm4
	movd	%xmm4, %eax
	orl	%r14d, %eax
	orl	%edi, %eax
	movl	%eax, (%rdx,%r8,4)
	incq	%r10
	incq	%r8
	cmpq	%r12, %r10
	jb	.LBB30_19
	jmp	.LBB30_20
.LBB30_21:
	movaps	144(%rsp), %xmm6
	movaps	160(%rsp), %xmm7
	movaps	176(%rsp), %xmm8
	movaps	192(%rsp), %xmm9
	movaps	208(%rsp), %xmm10
	movaps	224(%rsp), %xmm11
	movaps	240(%rsp), %xmm12
	movaps	256(%rsp), %xmm13
	movaps	272(%rsp), %xmm14
	addq	$296, %rsp
	popq	%rbx
	popq	%rbp
	popq	%rdi
	popq	%rsi
	popq	%r12
	popq	%r13
	popq	%r14
	popq	%r15
	retq

	.section	.rdata,"dr"
	.p2align	4, 0x0
.LCPI31_0:
	.byte	255
	.byte	0
	.byte	255
	.byte	0
	.byte	255
	.byte	0
	.byte	255
	.byte	0
	.byte	255
	.byte	0
	.byte	255
	.byte	0
	.byte	255
	.byte	0
	.byte	255
	.byte	0
.LCPI31_1:
	.short	128
	.short	128
	.short	128
	.short	128
	.short	128
	.short	128
	.short	128
	.short	128
.LCPI31_2:
	.zero	16,1
.LCPI31_3:
	.byte	3
	.byte	128
	.byte	3
	.byte	128
	.byte	7
	.byte	128
	.byte	7
	.byte	128
	.byte	11
	.byte	128
	.byte	11
	.byte	128
	.byte	15
	.byte	128
	.byte	15
	.byte	128
.LCPI31_4:
	.byte	3
	.byte	3
	.byte	3
	.byte	3
	.byte	7
	.byte	7
	.byte	7
	.byte	7
	.byte	11
	.byte	11
	.byte	11
	.byte	11
	.byte	15
	.byte	15
	.byte	15
	.byte	15
.LCPI31_5:
	.short	128
	.short	128
	.zero	2
	.zero	2
	.zero	2
	.zero	2
	.zero	2
	.zero	2
.LCPI31_6:
	.byte	128
	.byte	128
	.byte	128
	.byte	2
	.zero	1
	.zero	1
	.zero	1
	.zero	1
	.zero	1
	.zero	1
	.zero	1
	.zero	1
	.zero	1
	.zero	1
	.zero	1
	.zero	1
	.section	".text$pix_raster::view::blit_overlap::<#2e32b78ff97838bb>","xr"
	.p2align	4
"pix_raster::view::blit_overlap::<#2e32b78ff97838bb>":
	pushq	%r15
	pushq	%r14
	pushq	%r13
	pushq	%r12
	pushq	%rsi
	pushq	%rdi
	pushq	%rbp
	pushq	%rbx
	subq	$296, %rsp
	movdqa	%xmm14, 272(%rsp)
	movdqa	%xmm13, 256(%rsp)
	movdqa	%xmm12, 240(%rsp)
	movdqa	%xmm11, 224(%rsp)
	movdqa	%xmm10, 208(%rsp)
	movdqa	%xmm9, 192(%rsp)
	movdqa	%xmm8, 176(%rsp)
	movdqa	%xmm7, 160(%rsp)
	movdqa	%xmm6, 144(%rsp)
	movq	%r9, 48(%rsp)
	movq	%r8, 40(%rsp)
	movq	%rdx, 32(%rsp)
	movq	%rcx, 24(%rsp)
	movq	400(%rsp), %rax
	movq	24(%rax), %rcx
	movq	32(%rax), %rdx
	movq	%rcx, 8(%rsp)
	movq	%rdx, 128(%rsp)
	cmpq	%rdx, %rcx
	jae	.LBB31_14
	movq	(%rax), %r15
	movq	16(%rax), %r9
	movq	8(%rax), %rdi
	movq	40(%rax), %rcx
	subq	%r15, %rdi
	movq	%rcx, %rax
	movq	8(%rsp), %rdx
	subq	%rdx, %rax
	movq	%rax, 80(%rsp)
	movq	%rdi, %rax
	shrq	$4, %rax
	movq	%rax, 56(%rsp)
	movzbl	408(%rsp), %ebp
	movd	%ebp, %xmm1
	pxor	%xmm2, %xmm2
	pshuflw	$0, %xmm1, %xmm0
	pshufb	%xmm2, %xmm1
	movdqa	.LCPI31_0(%rip), %xmm2
	pand	%xmm1, %xmm2
	psrlw	$8, %xmm1
	movq	%rdi, %rax
	andq	$-16, %rax
	movq	%rax, 120(%rsp)
	leaq	(,%rax,4), %rbx
	movl	%edi, %r13d
	andl	$15, %r13d
	leal	(,%rdi,4), %eax
	movl	%eax, %r8d
	andl	$32, %r8d
	movq	%r8, 64(%rsp)
	movq	32(%rsp), %r11
	imulq	%r11, %rdx
	leaq	(,%r15,4), %r8
	leaq	(%r8,%rdx,4), %rsi
	movq	48(%rsp), %r10
	imulq	%r10, %rcx
	leaq	(,%r9,4), %r8
	leaq	(%r8,%rcx,4), %r14
	leaq	(%rbx,%rcx,4), %rcx
	andl	$48, %eax
	addq	%rax, %rcx
	movq	%rbx, 72(%rsp)
	leaq	(%rbx,%rdx,4), %rdx
	addq	%rax, %rdx
	movq	%rdi, 16(%rsp)
	andl	$12, %edi
	movq	24(%rsp), %rbx
	addq	%rbx, %rsi
	movq	40(%rsp), %rax
	addq	%rax, %r14
	movq	%r9, 88(%rsp)
	leaq	(%rcx,%r9,4), %r9
	addq	%rax, %r9
	movq	%r15, 96(%rsp)
	leaq	(%rdx,%r15,4), %r8
	addq	%rbx, %r8
	leaq	(,%r11,4), %rax
	movq	%rax, 112(%rsp)
	leaq	(,%r10,4), %rax
	movq	%rax, 104(%rsp)
	jmp	.LBB31_2
	.p2align	4
.LBB31_13:
	movq	8(%rsp), %rax
	incq	%rax
	movq	112(%rsp), %rcx
	addq	%rcx, %rsi
	movq	136(%rsp), %r14
	movq	104(%rsp), %rdx
	addq	%rdx, %r14
	addq	%rdx, %r9
	addq	%rcx, %r8
	movq	%rax, 8(%rsp)
	cmpq	128(%rsp), %rax
	je	.LBB31_14
.LBB31_2:
	cmpq	$0, 56(%rsp)
	je	.LBB31_5
	movl	$32, %r12d
	movq	56(%rsp), %r11
	.p2align	4
.LBB31_4:
	movdqu	-32(%r14,%r12), %xmm9
	movdqu	-16(%r14,%r12), %xmm8
	movdqa	.LCPI31_0(%rip), %xmm3
	movdqa	%xmm8, %xmm11
	pand	%xmm3, %xmm11
	movdqa	%xmm9, %xmm12
	pand	%xmm3, %xmm12
	pmullw	%xmm2, %xmm12
	pmullw	%xmm2, %xmm11
	movdqa	.LCPI31_1(%rip), %xmm4
	paddw	%xmm4, %xmm11
	paddw	%xmm4, %xmm12
	movdqa	.LCPI31_2(%rip), %xmm5
	pmulhuw	%xmm5, %xmm12
	pmulhuw	%xmm5, %xmm11
	psrlw	$8, %xmm9
	psrlw	$8, %xmm8
	pmullw	%xmm1, %xmm8
	pmullw	%xmm1, %xmm9
	paddw	%xmm4, %xmm9
	paddw	%xmm4, %xmm8
	pmulhuw	%xmm5, %xmm8
	pmulhuw	%xmm5, %xmm9
	psllw	$8, %xmm9
	psllw	$8, %xmm8
	movdqu	-32(%rsi,%r12), %xmm13
	movdqu	-16(%rsi,%r12), %xmm14
	movdqu	(%rsi,%r12), %xmm6
	movdqu	16(%rsi,%r12), %xmm7
	movdqa	.LCPI31_3(%rip), %xmm10
	pshufb	%xmm10, %xmm14
	pshufb	%xmm10, %xmm13
	por	%xmm11, %xmm8
	por	%xmm12, %xmm9
	pmullw	%xmm13, %xmm12
	pmullw	%xmm14, %xmm11
	paddw	%xmm4, %xmm11
	paddw	%xmm4, %xmm12
	pmulhuw	%xmm5, %xmm12
	pmulhuw	%xmm5, %xmm11
	psrlw	$8, %xmm9
	psrlw	$8, %xmm8
	pmullw	%xmm14, %xmm8
	pmullw	%xmm13, %xmm9
	paddw	%xmm4, %xmm9
	paddw	%xmm4, %xmm8
	pmulhuw	%xmm5, %xmm8
	pmulhuw	%xmm5, %xmm9
	psllw	$8, %xmm9
	por	%xmm12, %xmm9
	psllw	$8, %xmm8
	por	%xmm11, %xmm8
	movdqu	%xmm9, -32(%rsi,%r12)
	movdqu	%xmm8, -16(%rsi,%r12)
	movdqu	(%r14,%r12), %xmm9
	movdqu	16(%r14,%r12), %xmm8
	movdqa	%xmm8, %xmm11
	pand	%xmm3, %xmm11
	pand	%xmm9, %xmm3
	pmullw	%xmm2, %xmm3
	pmullw	%xmm2, %xmm11
	paddw	%xmm4, %xmm11
	paddw	%xmm4, %xmm3
	pmulhuw	%xmm5, %xmm3
	pmulhuw	%xmm5, %xmm11
	psrlw	$8, %xmm9
	psrlw	$8, %xmm8
	pmullw	%xmm1, %xmm8
	pmullw	%xmm1, %xmm9
	paddw	%xmm4, %xmm9
	paddw	%xmm4, %xmm8
	pmulhuw	%xmm5, %xmm8
	pmulhuw	%xmm5, %xmm9
	psllw	$8, %xmm9
	psllw	$8, %xmm8
	pshufb	%xmm10, %xmm7
	pshufb	%xmm10, %xmm6
	por	%xmm11, %xmm8
	por	%xmm3, %xmm9
	pmullw	%xmm6, %xmm3
	pmullw	%xmm7, %xmm11
	paddw	%xmm4, %xmm11
	paddw	%xmm4, %xmm3
	pmulhuw	%xmm5, %xmm3
	pmulhuw	%xmm5, %xmm11
	psrlw	$8, %xmm9
	psrlw	$8, %xmm8
	pmullw	%xmm7, %xmm8
	pmullw	%xmm6, %xmm9
	paddw	%xmm4, %xmm9
	paddw	%xmm4, %xmm8
	pmulhuw	%xmm5, %xmm8
	pmulhuw	%xmm5, %xmm9
	psllw	$8, %xmm9
	por	%xmm3, %xmm9
	psllw	$8, %xmm8
	por	%xmm11, %xmm8
	movdqu	%xmm9, (%rsi,%r12)
	movdqu	%xmm8, 16(%rsi,%r12)
	addq	$64, %r12
	decq	%r11
	jne	.LBB31_4
.LBB31_5:
	movq	%r14, 136(%rsp)
	movq	120(%rsp), %rax
	cmpq	16(%rsp), %rax
	je	.LBB31_13
	movq	8(%rsp), %rcx
	movq	%rcx, %rax
	imulq	32(%rsp), %rax
	addq	96(%rsp), %rax
	movq	80(%rsp), %rdx
	addq	%rdx, %rcx
	imulq	48(%rsp), %rcx
	addq	88(%rsp), %rcx
	movq	24(%rsp), %rdx
	leaq	(%rdx,%rax,4), %r11
	movq	40(%rsp), %rax
	leaq	(%rax,%rcx,4), %r12
	movq	72(%rsp), %rax
	addq	%rax, %r11
	addq	%rax, %r12
	testb	$8, 16(%rsp)
	jne	.LBB31_7
	testb	$4, 16(%rsp)
	jne	.LBB31_9
.LBB31_10:
	cmpl	%r13d, %edi
	je	.LBB31_13
	jmp	.LBB31_11
	.p2align	4
.LBB31_7:
	movdqu	(%r12), %xmm4
	movdqu	16(%r12), %xmm3
	movdqa	.LCPI31_0(%rip), %xmm6
	movdqa	%xmm3, %xmm5
	pand	%xmm6, %xmm5
	pand	%xmm4, %xmm6
	pmullw	%xmm2, %xmm6
	pmullw	%xmm2, %xmm5
	movdqa	.LCPI31_1(%rip), %xmm7
	paddw	%xmm7, %xmm5
	paddw	%xmm7, %xmm6
	movdqa	.LCPI31_2(%rip), %xmm8
	pmulhuw	%xmm8, %xmm6
	pmulhuw	%xmm8, %xmm5
	psrlw	$8, %xmm4
	psrlw	$8, %xmm3
	pmullw	%xmm1, %xmm3
	pmullw	%xmm1, %xmm4
	paddw	%xmm7, %xmm4
	paddw	%xmm7, %xmm3
	pmulhuw	%xmm8, %xmm3
	pmulhuw	%xmm8, %xmm4
	psllw	$8, %xmm4
	psllw	$8, %xmm3
	movdqu	(%r11), %xmm9
	movdqu	16(%r11), %xmm10
	movdqa	.LCPI31_3(%rip), %xmm11
	pshufb	%xmm11, %xmm10
	pshufb	%xmm11, %xmm9
	por	%xmm5, %xmm3
	por	%xmm6, %xmm4
	pmullw	%xmm9, %xmm6
	pmullw	%xmm10, %xmm5
	paddw	%xmm7, %xmm5
	paddw	%xmm7, %xmm6
	pmulhuw	%xmm8, %xmm6
	pmulhuw	%xmm8, %xmm5
	psrlw	$8, %xmm4
	psrlw	$8, %xmm3
	pmullw	%xmm10, %xmm3
	pmullw	%xmm9, %xmm4
	paddw	%xmm7, %xmm4
	paddw	%xmm7, %xmm3
	pmulhuw	%xmm8, %xmm3
	pmulhuw	%xmm8, %xmm4
	psllw	$8, %xmm4
	por	%xmm6, %xmm4
	psllw	$8, %xmm3
	por	%xmm5, %xmm3
	movdqu	%xmm4, (%r11)
	movdqu	%xmm3, 16(%r11)
	testb	$4, 16(%rsp)
	je	.LBB31_10
.LBB31_9:
	movq	64(%rsp), %rax
	movdqu	(%r12,%rax), %xmm4
	movdqa	.LCPI31_0(%rip), %xmm3
	movdqa	%xmm4, %xmm7
	pand	%xmm3, %xmm7
	pmullw	%xmm2, %xmm7
	movdqa	.LCPI31_1(%rip), %xmm5
	paddw	%xmm5, %xmm7
	movdqa	.LCPI31_2(%rip), %xmm6
	pmulhuw	%xmm6, %xmm7
	psrlw	$8, %xmm4
	pmullw	%xmm1, %xmm4
	paddw	%xmm5, %xmm4
	pmulhuw	%xmm6, %xmm4
	psllw	$8, %xmm4
	movdqu	(%r11,%rax), %xmm8
	por	%xmm7, %xmm4
	pshufb	.LCPI31_4(%rip), %xmm8
	pand	%xmm8, %xmm3
	pmullw	%xmm7, %xmm3
	paddw	%xmm5, %xmm3
	pmulhuw	%xmm6, %xmm3
	psrlw	$8, %xmm4
	psrlw	$8, %xmm8
	pmullw	%xmm4, %xmm8
	paddw	%xmm5, %xmm8
	pmulhuw	%xmm6, %xmm8
	psllw	$8, %xmm8
	por	%xmm3, %xmm8
	movdqu	%xmm8, (%r11,%rax)
	cmpl	%r13d, %edi
	je	.LBB31_13
.LBB31_11:
	xorl	%r11d, %r11d
	.p2align	4
.LBB31_12:
	movl	(%r9,%r11,4), %eax
	movzbl	3(%r8,%r11,4), %r12d
	movzbl	%ah, %ecx
	movl	%eax, %edx
	movzbl	%al, %r15d
	movl	%eax, %r10d
	shrl	$16, %r10d
	shrl	$24, %edx
	movq	%r8, %r14
	movq	%r9, %r8
	movq	%rdi, %r9
	movq	%r13, %rdi
	movl	%ebp, %r13d
	movzwl	%r13w, %ebp
	imull	%ebp, %r15d
	leal	128(%r15), %eax
	movzbl	%ah, %eax
	addl	%r15d, %eax
	addl	$128, %eax
	movzbl	%ah, %eax
	imull	%ebp, %ecx
	leal	128(%rcx), %ebx
	movzbl	%bh, %ebx
	addl	%ebx, %ecx
	addl	$128, %ecx
	movzbl	%ch, %ebp
	movzbl	%r10b, %r10d
	imull	%r12d, %eax
	leal	128(%rax), %ecx
	movzbl	%ch, %ecx
	addl	%ecx, %eax
	addl	$128, %eax
	movzbl	%ah, %ecx
	imull	%r12d, %ebp
	leal	128(%rbp), %eax
	movzbl	%ah, %eax
	leal	(%rax,%rbp), %r15d
	addl	$128, %r15d
	movl	%r13d, %ebp
	movq	%rdi, %r13
	movq	%r9, %rdi
	movq	%r8, %r9
	movq	%r14, %r8
	movd	%r10d, %xmm3
	pinsrw	$1, %edx, %xmm3
	andl	$65280, %r15d
	pmullw	%xmm0, %xmm3
	movdqa	.LCPI31_5(%rip), %xmm4
	paddw	%xmm4, %xmm3
	movdqa	%xmm3, %xmm5
	psrlw	$8, %xmm5
	paddw	%xmm3, %xmm5
	psrlw	$8, %xmm5
	movd	%r12d, %xmm3
	pshuflw	$0, %xmm3, %xmm3
	pmullw	%xmm5, %xmm3
	paddw	%xmm4, %xmm3
	movdqa	%xmm3, %xmm4
	psrlw	$8, %xmm4
	paddw	%xmm3, %xmm4
	psrlw	$8, %xmm4
	movdqa	%xmm4, %xmm3
	pslld	$16, %xmm3
	pshufb	.LCPI31_6(%rip), %xmm4
	por	%xmm3, %xmm4
	movd	%xmm4, %eax
	orl	%r15d, %eax
	orl	%ecx, %eax
	movl	%eax, (%r14,%r11,4)
	leaq	(%rdi,%r11), %rax
	incq	%rax
	incq	%r11
	cmpq	%r13, %rax
	jb	.LBB31_12
	jmp	.LBB31_13
.LBB31_14:
	movaps	144(%rsp), %xmm6
	movaps	160(%rsp), %xmm7
	movaps	176(%rsp), %xmm8
	movaps	192(%rsp), %xmm9
	movaps	208(%rsp), %xmm10
	movaps	224(%rsp), %xmm11
	movaps	240(%rsp), %xmm12
	movaps	256(%rsp), %xmm13
	movaps	272(%rsp), %xmm14
	addq	$296, %rsp
	popq	%rbx
	popq	%rbp
	popq	%rdi
	popq	%rsi
	popq	%r12
	popq	%r13
	popq	%r14
	popq	%r15
	retq

	.section	.rdata,"dr"
	.p2align	4, 0x0
.LCPI32_0:
	.byte	3
	.byte	128
	.byte	3
	.byte	128
	.byte	7
	.byte	128
	.byte	7
	.byte	128
	.byte	11
	.byte	128
	.byte	11
	.byte	128
	.byte	15
	.byte	128
	.byte	15
	.byte	128
.LCPI32_1:
	.byte	255
	.byte	0
	.byte	255
	.byte	0
	.byte	255
	.byte	0
	.byte	255
	.byte	0
	.byte	255
	.byte	0
	.byte	255
	.byte	0
	.byte	255
	.byte	0
	.byte	255
	.byte	0
.LCPI32_2:
	.short	128
	.short	128
	.short	128
	.short	128
	.short	128
	.short	128
	.short	128
	.short	128
.LCPI32_3:
	.zero	16,1
.LCPI32_4:
	.byte	3
	.byte	3
	.byte	3
	.byte	3
	.byte	7
	.byte	7
	.byte	7
	.byte	7
	.byte	11
	.byte	11
	.byte	11
	.byte	11
	.byte	15
	.byte	15
	.byte	15
	.byte	15
	.section	".text$pix_raster::view::blit_overlap::<#118c7942c1302bcc>","xr"
	.p2align	4
"pix_raster::view::blit_overlap::<#118c7942c1302bcc>":
	pushq	%r15
	pushq	%r14
	pushq	%r13
	pushq	%r12
	pushq	%rsi
	pushq	%rdi
	pushq	%rbp
	pushq	%rbx
	subq	$232, %rsp
	movdqa	%xmm11, 208(%rsp)
	movdqa	%xmm10, 192(%rsp)
	movdqa	%xmm9, 176(%rsp)
	movdqa	%xmm8, 160(%rsp)
	movdqa	%xmm7, 144(%rsp)
	movdqa	%xmm6, 128(%rsp)
	movq	%r9, 40(%rsp)
	movq	%r8, 32(%rsp)
	movq	%rdx, 24(%rsp)
	movq	%rcx, 16(%rsp)
	movq	336(%rsp), %rcx
	movq	24(%rcx), %r11
	movq	32(%rcx), %rax
	movq	%rax, 120(%rsp)
	cmpq	%rax, %r11
	jae	.LBB32_14
	movq	(%rcx), %r15
	movq	16(%rcx), %r12
	movq	8(%rcx), %rdi
	movq	40(%rcx), %rcx
	subq	%r15, %rdi
	movq	%rcx, %rax
	subq	%r11, %rax
	movq	%rax, 72(%rsp)
	movq	%rdi, %rax
	shrq	$4, %rax
	movq	%rax, 48(%rsp)
	movq	%rdi, %rax
	andq	$-16, %rax
	movq	%rax, 112(%rsp)
	leaq	(,%rax,4), %rbp
	movl	%edi, %r13d
	andl	$15, %r13d
	leal	(,%rdi,4), %edx
	movl	%edx, %eax
	andl	$32, %eax
	movq	%rax, 56(%rsp)
	movq	%rdi, 8(%rsp)
	andl	$12, %edi
	movq	%r11, %r8
	movq	24(%rsp), %r10
	imulq	%r10, %r8
	leaq	(,%r15,4), %r9
	leaq	(%r9,%r8,4), %rsi
	movq	16(%rsp), %rbx
	addq	%rbx, %rsi
	movq	40(%rsp), %rax
	imulq	%rax, %rcx
	leaq	(,%r12,4), %r9
	leaq	(%r9,%rcx,4), %r14
	leaq	(,%rcx,4), %rcx
	addq	%rbp, %rcx
	andl	$48, %edx
	addq	%rdx, %rcx
	movq	%rbp, 64(%rsp)
	leaq	(,%r8,4), %r8
	addq	%rbp, %r8
	addq	%rdx, %r8
	leaq	(,%r10,4), %rdx
	movq	%rdx, 104(%rsp)
	movq	32(%rsp), %rdx
	addq	%rdx, %r14
	movq	%r12, 80(%rsp)
	leaq	(%rcx,%r12,4), %r9
	addq	%rdx, %r9
	movq	%r15, 88(%rsp)
	leaq	(%r8,%r15,4), %r8
	addq	%rbx, %r8
	leaq	(,%rax,4), %rax
	movq	%rax, 96(%rsp)
	jmp	.LBB32_2
	.p2align	4
.LBB32_13:
	incq	%r11
	movq	104(%rsp), %rax
	addq	%rax, %rsi
	movq	96(%rsp), %rcx
	addq	%rcx, %r14
	addq	%rcx, %r9
	addq	%rax, %r8
	cmpq	120(%rsp), %r11
	je	.LBB32_14
.LBB32_2:
	cmpq	$0, 48(%rsp)
	je	.LBB32_5
	movl	$32, %ecx
	movq	48(%rsp), %r12
	.p2align	4
.LBB32_4:
	movdqu	-32(%r14,%rcx), %xmm9
	movdqu	-16(%r14,%rcx), %xmm11
	movdqa	.LCPI32_0(%rip), %xmm5
	pshufb	%xmm5, %xmm11
	pshufb	%xmm5, %xmm9
	movdqa	.LCPI32_1(%rip), %xmm2
	movdqu	-32(%rsi,%rcx), %xmm7
	movdqu	-16(%rsi,%rcx), %xmm6
	movdqu	(%rsi,%rcx), %xmm1
	movdqu	16(%rsi,%rcx), %xmm0
	movdqa	%xmm6, %xmm8
	pand	%xmm2, %xmm8
	movdqa	%xmm7, %xmm10
	pand	%xmm2, %xmm10
	pmullw	%xmm9, %xmm10
	pmullw	%xmm11, %xmm8
	movdqa	.LCPI32_2(%rip), %xmm3
	paddw	%xmm3, %xmm8
	paddw	%xmm3, %xmm10
	movdqa	.LCPI32_3(%rip), %xmm4
	pmulhuw	%xmm4, %xmm10
	pmulhuw	%xmm4, %xmm8
	psrlw	$8, %xmm7
	psrlw	$8, %xmm6
	pmullw	%xmm11, %xmm6
	pmullw	%xmm9, %xmm7
	paddw	%xmm3, %xmm7
	paddw	%xmm3, %xmm6
	pmulhuw	%xmm4, %xmm6
	pmulhuw	%xmm4, %xmm7
	psllw	$8, %xmm7
	por	%xmm10, %xmm7
	psllw	$8, %xmm6
	por	%xmm8, %xmm6
	movdqu	%xmm7, -32(%rsi,%rcx)
	movdqu	%xmm6, -16(%rsi,%rcx)
	movdqu	(%r14,%rcx), %xmm6
	movdqu	16(%r14,%rcx), %xmm7
	pshufb	%xmm5, %xmm7
	pshufb	%xmm5, %xmm6
	movdqa	%xmm0, %xmm5
	pand	%xmm2, %xmm5
	pand	%xmm1, %xmm2
	pmullw	%xmm6, %xmm2
	pmullw	%xmm7, %xmm5
	paddw	%xmm3, %xmm5
	paddw	%xmm3, %xmm2
	pmulhuw	%xmm4, %xmm2
	pmulhuw	%xmm4, %xmm5
	psrlw	$8, %xmm1
	psrlw	$8, %xmm0
	pmullw	%xmm7, %xmm0
	pmullw	%xmm6, %xmm1
	paddw	%xmm3, %xmm1
	paddw	%xmm3, %xmm0
	pmulhuw	%xmm4, %xmm0
	pmulhuw	%xmm4, %xmm1
	psllw	$8, %xmm1
	por	%xmm2, %xmm1
	psllw	$8, %xmm0
	por	%xmm5, %xmm0
	movdqu	%xmm1, (%rsi,%rcx)
	movdqu	%xmm0, 16(%rsi,%rcx)
	addq	$64, %rcx
	decq	%r12
	jne	.LBB32_4
.LBB32_5:
	movq	112(%rsp), %rax
	cmpq	8(%rsp), %rax
	je	.LBB32_13
	movq	%r11, %rcx
	imulq	24(%rsp), %rcx
	addq	88(%rsp), %rcx
	movq	72(%rsp), %rax
	leaq	(%rax,%r11), %rdx
	imulq	40(%rsp), %rdx
	addq	80(%rsp), %rdx
	movq	16(%rsp), %rax
	leaq	(%rax,%rcx,4), %rcx
	movq	32(%rsp), %rax
	leaq	(%rax,%rdx,4), %r12
	movq	64(%rsp), %rax
	addq	%rax, %rcx
	addq	%rax, %r12
	testb	$8, 8(%rsp)
	jne	.LBB32_7
	testb	$4, 8(%rsp)
	jne	.LBB32_9
.LBB32_10:
	cmpl	%r13d, %edi
	je	.LBB32_13
	jmp	.LBB32_11
	.p2align	4
.LBB32_7:
	movdqu	(%r12), %xmm4
	movdqu	16(%r12), %xmm5
	movdqu	(%rcx), %xmm1
	movdqu	16(%rcx), %xmm0
	movdqa	.LCPI32_0(%rip), %xmm2
	pshufb	%xmm2, %xmm5
	pshufb	%xmm2, %xmm4
	movdqa	.LCPI32_1(%rip), %xmm3
	movdqa	%xmm0, %xmm2
	pand	%xmm3, %xmm2
	pand	%xmm1, %xmm3
	pmullw	%xmm4, %xmm3
	pmullw	%xmm5, %xmm2
	movdqa	.LCPI32_2(%rip), %xmm6
	paddw	%xmm6, %xmm2
	paddw	%xmm6, %xmm3
	movdqa	.LCPI32_3(%rip), %xmm7
	pmulhuw	%xmm7, %xmm3
	pmulhuw	%xmm7, %xmm2
	psrlw	$8, %xmm1
	psrlw	$8, %xmm0
	pmullw	%xmm5, %xmm0
	pmullw	%xmm4, %xmm1
	paddw	%xmm6, %xmm1
	paddw	%xmm6, %xmm0
	pmulhuw	%xmm7, %xmm0
	pmulhuw	%xmm7, %xmm1
	psllw	$8, %xmm1
	por	%xmm3, %xmm1
	psllw	$8, %xmm0
	por	%xmm2, %xmm0
	movdqu	%xmm1, (%rcx)
	movdqu	%xmm0, 16(%rcx)
	testb	$4, 8(%rsp)
	je	.LBB32_10
.LBB32_9:
	movq	56(%rsp), %rax
	movdqu	(%r12,%rax), %xmm0
	movdqu	(%rcx,%rax), %xmm1
	pshufb	.LCPI32_4(%rip), %xmm0
	movdqa	.LCPI32_1(%rip), %xmm2
	movdqa	%xmm1, %xmm3
	pand	%xmm2, %xmm3
	pand	%xmm0, %xmm2
	pmullw	%xmm3, %xmm2
	movdqa	.LCPI32_2(%rip), %xmm3
	paddw	%xmm3, %xmm2
	movdqa	.LCPI32_3(%rip), %xmm4
	pmulhuw	%xmm4, %xmm2
	psrlw	$8, %xmm1
	psrlw	$8, %xmm0
	pmullw	%xmm1, %xmm0
	paddw	%xmm3, %xmm0
	pmulhuw	%xmm4, %xmm0
	psllw	$8, %xmm0
	por	%xmm2, %xmm0
	movdqu	%xmm0, (%rcx,%rax)
	cmpl	%r13d, %edi
	je	.LBB32_13
.LBB32_11:
	xorl	%ecx, %ecx
	.p2align	4
.LBB32_12:
	movzbl	3(%r9,%rcx,4), %r10d
	movl	(%r8,%rcx,4), %edx
	movzbl	%dh, %ebp
	movl	%edx, %r12d
	movzbl	%dl, %r15d
	shrl	$16, %edx
	shrl	$24, %r12d
	imull	%r10d, %r15d
	leal	128(%r15), %eax
	movzbl	%ah, %eax
	addl	%r15d, %eax
	addl	$128, %eax
	movzbl	%ah, %eax
	imull	%r10d, %ebp
	leal	128(%rbp), %ebx
	movzbl	%bh, %ebx
	leal	(%rbx,%rbp), %r15d
	addl	$128, %r15d
	andl	$65280, %r15d
	movzbl	%dl, %edx
	imull	%r10d, %edx
	leal	128(%rdx), %ebx
	movzbl	%bh, %ebx
	addl	%ebx, %edx
	addl	$128, %edx
	imull	%r10d, %r12d
	leal	128(%r12), %ebx
	movzbl	%bh, %ebx
	leal	(%rbx,%r12), %r10d
	addl	$128, %r10d
	shll	$16, %r10d
	andl	$-16777216, %r10d
	shll	$8, %edx
	andl	$16711680, %edx
	orl	%r10d, %edx
	orl	%r15d, %edx
	orl	%eax, %edx
	movl	%edx, (%r8,%rcx,4)
	leaq	(%rdi,%rcx), %rax
	incq	%rax
	incq	%rcx
	cmpq	%r13, %rax
	jb	.LBB32_12
	jmp	.LBB32_13
.LBB32_14:
	movaps	128(%rsp), %xmm6
	movaps	144(%rsp), %xmm7
	movaps	160(%rsp), %xmm8
	movaps	176(%rsp), %xmm9
	movaps	192(%rsp), %xmm10
	movaps	208(%rsp), %xmm11
	addq	$232, %rsp
	popq	%rbx
	popq	%rbp
	popq	%rdi
	popq	%rsi
	popq	%r12
	popq	%r13
	popq	%r14
	popq	%r15
	retq

	.section	.rdata,"dr"
	.p2align	4, 0x0
.LCPI33_0:
	.byte	255
	.byte	0
	.byte	255
	.byte	0
	.byte	255
	.byte	0
	.byte	255
	.byte	0
	.byte	255
	.byte	0
	.byte	255
	.byte	0
	.byte	255
	.byte	0
	.byte	255
	.byte	0
.LCPI33_1:
	.short	128
	.short	128
	.short	128
	.short	128
	.short	128
	.short	128
	.short	128
	.short	128
.LCPI33_2:
	.zero	16,1
.LCPI33_3:
	.byte	3
	.byte	128
	.byte	3
	.byte	128
	.byte	7
	.byte	128
	.byte	7
	.byte	128
	.byte	11
	.byte	128
	.byte	11
	.byte	128
	.byte	15
	.byte	128
	.byte	15
	.byte	128
.LCPI33_4:
	.byte	3
	.byte	3
	.byte	3
	.byte	3
	.byte	7
	.byte	7
	.byte	7
	.byte	7
	.byte	11
	.byte	11
	.byte	11
	.byte	11
	.byte	15
	.byte	15
	.byte	15
	.byte	15
	.section	".text$pix_raster::view::blit_overlap::<#d13018cf5d2c8821>","xr"
	.p2align	4
"pix_raster::view::blit_overlap::<#d13018cf5d2c8821>":
	pushq	%r15
	pushq	%r14
	pushq	%r13
	pushq	%r12
	pushq	%rsi
	pushq	%rdi
	pushq	%rbp
	pushq	%rbx
	subq	$328, %rsp
	movdqa	%xmm15, 304(%rsp)
	movdqa	%xmm14, 288(%rsp)
	movdqa	%xmm13, 272(%rsp)
	movdqa	%xmm12, 256(%rsp)
	movdqa	%xmm11, 240(%rsp)
	movdqa	%xmm10, 224(%rsp)
	movdqa	%xmm9, 208(%rsp)
	movdqa	%xmm8, 192(%rsp)
	movdqa	%xmm7, 176(%rsp)
	movdqa	%xmm6, 160(%rsp)
	movq	%r9, 16(%rsp)
	movq	%rdx, 40(%rsp)
	movq	%rcx, 32(%rsp)
	movq	432(%rsp), %rax
	movq	24(%rax), %rcx
	movq	32(%rax), %rdx
	movq	%rcx, 8(%rsp)
	movq	%rdx, 128(%rsp)
	cmpq	%rdx, %rcx
	jae	.LBB33_21
	movl	440(%rsp), %r10d
	movq	(%rax), %rdi
	movq	16(%rax), %rdx
	leaq	(%r8,%rdx), %rcx
	movq	%rcx, 96(%rsp)
	movq	8(%rax), %rsi
	movq	40(%rax), %rcx
	subq	%rdi, %rsi
	movq	%rcx, %rax
	movq	8(%rsp), %r11
	subq	%r11, %rax
	movq	%rax, 88(%rsp)
	movq	%rsi, %rbx
	shrq	$4, %rbx
	movl	%r10d, %r14d
	shrl	$24, %r14d
	movd	%r14d, %xmm0
	pxor	%xmm1, %xmm1
	pshufb	%xmm1, %xmm0
	movdqa	.LCPI33_0(%rip), %xmm1
	movdqa	%xmm0, %xmm2
	pand	%xmm1, %xmm2
	psrlw	$8, %xmm0
	movq	%rsi, %r15
	andq	$-16, %r15
	leaq	(,%r15,4), %r12
	movl	%esi, %r13d
	andl	$15, %r13d
	movl	%r10d, %eax
	shrl	$8, %eax
	movl	%r10d, %r9d
	shrl	$16, %r9d
	movd	%r10d, %xmm3
	pinsrb	$1, %eax, %xmm3
	pinsrb	$2, %r9d, %xmm3
	pinsrb	$3, %r14d, %xmm3
	pinsrb	$4, %r10d, %xmm3
	pinsrb	$5, %eax, %xmm3
	pinsrb	$6, %r9d, %xmm3
	pinsrb	$7, %r14d, %xmm3
	pinsrb	$8, %r10d, %xmm3
	pinsrb	$9, %eax, %xmm3
	pinsrb	$10, %r9d, %xmm3
	pinsrb	$11, %r14d, %xmm3
	pinsrb	$12, %r10d, %xmm3
	movq	%r13, %r10
	pinsrb	$13, %eax, %xmm3
	pinsrb	$14, %r9d, %xmm3
	movdqa	%xmm3, %xmm4
	pand	%xmm1, %xmm4
	movdqa	%xmm4, 144(%rsp)
	pinsrb	$15, %r14d, %xmm3
	psrlw	$8, %xmm3
	movl	%esi, %r9d
	andl	$8, %r9d
	movq	%rsi, 24(%rsp)
	movl	%esi, %r13d
	andl	$12, %r13d
	imulq	16(%rsp), %rcx
	addq	%rdx, %rcx
	leaq	(%r8,%rcx), %rsi
	movq	%r15, 56(%rsp)
	leaq	(%r15,%r13), %rbp
	addq	%r8, %rbp
	movq	%r11, %rax
	movq	40(%rsp), %rdx
	imulq	%rdx, %rax
	addq	%rcx, %rbp
	leaq	(%rdi,%rax), %rcx
	movq	32(%rsp), %r8
	leaq	(%r8,%rcx,4), %rcx
	movq	%r12, 80(%rsp)
	leaq	(%r12,%rax,4), %rax
	movq	%r13, 48(%rsp)
	leaq	(%rax,%r13,4), %rax
	movq	%rdi, 104(%rsp)
	leaq	(%rax,%rdi,4), %r11
	addq	%r8, %r11
	movq	%r9, 72(%rsp)
	leal	(,%r9,4), %eax
	movq	%rax, 64(%rsp)
	movq	%rbx, 120(%rsp)
	leaq	(,%rbx,4), %r15
	leaq	(,%rdx,4), %rax
	movq	%rax, 112(%rsp)
	movq	%rcx, %rdx
	jmp	.LBB33_2
	.p2align	4
.LBB33_20:
	movq	8(%rsp), %rcx
	incq	%rcx
	movq	16(%rsp), %rax
	addq	%rax, %rsi
	movq	136(%rsp), %rdx
	movq	112(%rsp), %r8
	addq	%r8, %rdx
	addq	%rax, %rbp
	addq	%r8, %r11
	movq	%rcx, 8(%rsp)
	cmpq	128(%rsp), %rcx
	movl	%r13d, %r14d
	je	.LBB33_21
.LBB33_2:
	cmpq	$0, 120(%rsp)
	je	.LBB33_8
	xorl	%r12d, %r12d
	movq	%rdx, %r8
	jmp	.LBB33_4
	.p2align	4
.LBB33_6:
	movdqa	%xmm5, %xmm10
	pand	%xmm1, %xmm10
	pmullw	%xmm2, %xmm10
	psrlw	$8, %xmm5
	pmullw	%xmm0, %xmm5
	movdqa	.LCPI33_1(%rip), %xmm8
	paddw	%xmm8, %xmm10
	movdqa	.LCPI33_2(%rip), %xmm9
	pmulhuw	%xmm9, %xmm10
	paddw	%xmm8, %xmm5
	pmulhuw	%xmm9, %xmm5
	psllw	$8, %xmm5
	movdqu	(%r8), %xmm6
	movdqu	16(%r8), %xmm13
	movdqu	32(%r8), %xmm4
	movdqu	48(%r8), %xmm15
	por	%xmm10, %xmm5
	psrlw	$8, %xmm5
	movdqa	%xmm13, %xmm11
	pand	%xmm1, %xmm11
	movdqa	%xmm6, %xmm7
	pand	%xmm1, %xmm7
	packuswb	%xmm11, %xmm7
	movdqa	%xmm15, %xmm11
	pand	%xmm1, %xmm11
	movdqa	%xmm4, %xmm12
	pand	%xmm1, %xmm12
	packuswb	%xmm11, %xmm12
	movdqa	%xmm12, %xmm14
	psrlw	$8, %xmm14
	movdqa	%xmm7, %xmm11
	psrlw	$8, %xmm11
	packuswb	%xmm14, %xmm11
	movdqa	%xmm11, %xmm14
	psrlw	$8, %xmm14
	pmullw	%xmm5, %xmm14
	paddw	%xmm8, %xmm14
	pmulhuw	%xmm9, %xmm14
	psllw	$8, %xmm14
	pand	%xmm1, %xmm11
	pmullw	%xmm10, %xmm11
	paddw	%xmm8, %xmm11
	pmulhuw	%xmm9, %xmm11
	por	%xmm14, %xmm11
	psrlw	$8, %xmm15
	psrlw	$8, %xmm4
	packuswb	%xmm15, %xmm4
	psrlw	$8, %xmm13
	psrlw	$8, %xmm6
	packuswb	%xmm13, %xmm6
	movdqa	%xmm4, %xmm14
	pand	%xmm1, %xmm14
	movdqa	%xmm6, %xmm13
	pand	%xmm1, %xmm13
	packuswb	%xmm14, %xmm13
	movdqa	%xmm13, %xmm14
	psrlw	$8, %xmm14
	pmullw	%xmm5, %xmm14
	paddw	%xmm8, %xmm14
	pmulhuw	%xmm9, %xmm14
	psllw	$8, %xmm14
	pand	%xmm1, %xmm13
	pmullw	%xmm10, %xmm13
	paddw	%xmm8, %xmm13
	pmulhuw	%xmm9, %xmm13
	por	%xmm14, %xmm13
	pand	%xmm1, %xmm12
	pand	%xmm1, %xmm7
	packuswb	%xmm12, %xmm7
	movdqa	%xmm7, %xmm12
	psrlw	$8, %xmm12
	pmullw	%xmm5, %xmm12
	paddw	%xmm8, %xmm12
	pmulhuw	%xmm9, %xmm12
	psllw	$8, %xmm12
	pand	%xmm1, %xmm7
	pmullw	%xmm10, %xmm7
	paddw	%xmm8, %xmm7
	pmulhuw	%xmm9, %xmm7
	por	%xmm12, %xmm7
	psrlw	$8, %xmm4
	psrlw	$8, %xmm6
	packuswb	%xmm4, %xmm6
	movdqa	%xmm6, %xmm4
	pand	%xmm1, %xmm4
	pmullw	%xmm10, %xmm4
	paddw	%xmm8, %xmm4
	pmulhuw	%xmm9, %xmm4
	psrlw	$8, %xmm6
	pmullw	%xmm5, %xmm6
	paddw	%xmm8, %xmm6
	pmulhuw	%xmm9, %xmm6
	psllw	$8, %xmm6
	por	%xmm4, %xmm6
	movdqa	%xmm7, %xmm4
	punpcklbw	%xmm13, %xmm4
	movdqa	%xmm11, %xmm5
	punpcklbw	%xmm6, %xmm5
	movdqa	%xmm4, %xmm8
	punpckhwd	%xmm5, %xmm8
	punpcklwd	%xmm5, %xmm4
	movdqu	%xmm4, (%r8)
	movdqu	%xmm8, 16(%r8)
	punpckhbw	%xmm13, %xmm7
	punpckhbw	%xmm6, %xmm11
	movdqa	%xmm7, %xmm4
	punpckhwd	%xmm11, %xmm4
	punpcklwd	%xmm11, %xmm7
	movdqu	%xmm7, 32(%r8)
	movdqu	%xmm4, 48(%r8)
	addq	$4, %r12
	addq	$64, %r8
	cmpq	%r12, %r15
	je	.LBB33_8
.LBB33_4:
	movdqu	(%rsi,%r12,4), %xmm5
	ptest	%xmm5, %xmm5
	jne	.LBB33_6
	pxor	%xmm5, %xmm5
	movdqu	%xmm5, 48(%r8)
	movdqu	%xmm5, 32(%r8)
	movdqu	%xmm5, 16(%r8)
	movdqu	%xmm5, (%r8)
	addq	$4, %r12
	addq	$64, %r8
	cmpq	%r12, %r15
	jne	.LBB33_4
.LBB33_8:
	movq	%rdx, 136(%rsp)
	movq	56(%rsp), %rax
	cmpq	24(%rsp), %rax
	movl	%r14d, %r13d
	je	.LBB33_20
	movq	8(%rsp), %rcx
	movq	%rcx, %rax
	imulq	40(%rsp), %rax
	addq	104(%rsp), %rax
	movq	88(%rsp), %rdx
	leaq	(%rdx,%rcx), %r12
	imulq	16(%rsp), %r12
	addq	96(%rsp), %r12
	movq	32(%rsp), %rcx
	leaq	(%rcx,%rax,4), %r8
	addq	80(%rsp), %r8
	addq	56(%rsp), %r12
	testb	$8, 24(%rsp)
	jne	.LBB33_10
	testb	$4, 24(%rsp)
	jne	.LBB33_14
.LBB33_17:
	cmpl	%r10d, 48(%rsp)
	je	.LBB33_20
	jmp	.LBB33_18
	.p2align	4
.LBB33_10:
	movq	(%r12), %rax
	testq	%rax, %rax
	je	.LBB33_11
	movq	%rax, %xmm5
	punpcklbw	%xmm5, %xmm5
	movdqa	%xmm5, %xmm6
	punpckhwd	%xmm5, %xmm6
	punpcklwd	%xmm5, %xmm5
	movdqa	%xmm5, %xmm9
	pand	%xmm1, %xmm9
	movdqa	%xmm6, %xmm10
	pand	%xmm1, %xmm10
	movdqa	144(%rsp), %xmm4
	pmullw	%xmm4, %xmm10
	pmullw	%xmm4, %xmm9
	movdqa	.LCPI33_1(%rip), %xmm7
	paddw	%xmm7, %xmm9
	paddw	%xmm7, %xmm10
	movdqa	.LCPI33_2(%rip), %xmm8
	pmulhuw	%xmm8, %xmm10
	pmulhuw	%xmm8, %xmm9
	psrlw	$8, %xmm6
	psrlw	$8, %xmm5
	pmullw	%xmm3, %xmm5
	pmullw	%xmm3, %xmm6
	paddw	%xmm7, %xmm6
	paddw	%xmm7, %xmm5
	pmulhuw	%xmm8, %xmm5
	pmulhuw	%xmm8, %xmm6
	psllw	$8, %xmm6
	por	%xmm10, %xmm6
	psllw	$8, %xmm5
	por	%xmm9, %xmm5
	movdqu	(%r8), %xmm10
	movdqu	16(%r8), %xmm9
	movdqa	.LCPI33_3(%rip), %xmm4
	pshufb	%xmm4, %xmm6
	pshufb	%xmm4, %xmm5
	movdqa	%xmm9, %xmm11
	pand	%xmm1, %xmm11
	movdqa	%xmm10, %xmm12
	pand	%xmm1, %xmm12
	pmullw	%xmm5, %xmm12
	pmullw	%xmm6, %xmm11
	paddw	%xmm7, %xmm11
	paddw	%xmm7, %xmm12
	pmulhuw	%xmm8, %xmm12
	pmulhuw	%xmm8, %xmm11
	psrlw	$8, %xmm10
	psrlw	$8, %xmm9
	pmullw	%xmm6, %xmm9
	pmullw	%xmm5, %xmm10
	paddw	%xmm7, %xmm10
	paddw	%xmm7, %xmm9
	pmulhuw	%xmm8, %xmm9
	pmulhuw	%xmm8, %xmm10
	psllw	$8, %xmm10
	por	%xmm12, %xmm10
	psllw	$8, %xmm9
	por	%xmm11, %xmm9
	movdqu	%xmm10, (%r8)
	movdqu	%xmm9, 16(%r8)
	testb	$4, 24(%rsp)
	je	.LBB33_17
	jmp	.LBB33_14
.LBB33_11:
	pxor	%xmm4, %xmm4
	movdqu	%xmm4, 16(%r8)
	movdqu	%xmm4, (%r8)
	testb	$4, 24(%rsp)
	je	.LBB33_17
	.p2align	4
.LBB33_14:
	addq	64(%rsp), %r8
	movq	72(%rsp), %rax
	movl	(%r12,%rax), %eax
	testl	%eax, %eax
	je	.LBB33_15
	movd	%eax, %xmm5
	punpcklbw	%xmm5, %xmm5
	punpcklwd	%xmm5, %xmm5
	movdqa	%xmm5, %xmm4
	pand	%xmm1, %xmm4
	pmullw	144(%rsp), %xmm4
	movdqa	.LCPI33_1(%rip), %xmm6
	paddw	%xmm6, %xmm4
	movdqa	.LCPI33_2(%rip), %xmm7
	pmulhuw	%xmm7, %xmm4
	psrlw	$8, %xmm5
	pmullw	%xmm3, %xmm5
	paddw	%xmm6, %xmm5
	pmulhuw	%xmm7, %xmm5
	psllw	$8, %xmm5
	por	%xmm4, %xmm5
	pshufb	.LCPI33_4(%rip), %xmm5
	movdqu	(%r8), %xmm4
	movdqa	%xmm4, %xmm8
	pand	%xmm1, %xmm8
	movdqa	%xmm5, %xmm9
	pand	%xmm1, %xmm9
	pmullw	%xmm8, %xmm9
	paddw	%xmm6, %xmm9
	pmulhuw	%xmm7, %xmm9
	psrlw	$8, %xmm4
	psrlw	$8, %xmm5
	pmullw	%xmm4, %xmm5
	paddw	%xmm6, %xmm5
	pmulhuw	%xmm7, %xmm5
	psllw	$8, %xmm5
	por	%xmm9, %xmm5
	movdqu	%xmm5, (%r8)
	cmpl	%r10d, 48(%rsp)
	je	.LBB33_20
	jmp	.LBB33_18
.LBB33_15:
	pxor	%xmm4, %xmm4
	movdqu	%xmm4, (%r8)
	cmpl	%r10d, 48(%rsp)
	je	.LBB33_20
	.p2align	4
.LBB33_18:
	xorl	%r8d, %r8d
	movq	48(%rsp), %r12
	.p2align	4
.LBB33_19:
	movzbl	(%rbp,%r8), %edi
	movl	(%r11,%r8,4), %eax
	movzbl	%ah, %ecx
	movl	%eax, %r14d
	movzbl	%al, %r9d
	movq	%r10, %rbx
	movl	%eax, %r10d
	shrl	$16, %r10d
	shrl	$24, %r14d
	movzwl	%r13w, %eax
	imull	%edi, %eax
	leal	128(%rax), %edx
	movzbl	%dh, %edx
	addl	%edx, %eax
	addl	$128, %eax
	movzbl	%ah, %eax
	imull	%eax, %r9d
	leal	128(%r9), %edx
	movzbl	%dh, %edx
	addl	%r9d, %edx
	addl	$128, %edx
	movzbl	%dh, %edi
	imull	%eax, %ecx
	leal	128(%rcx), %edx
	movzbl	%dh, %edx
	addl	%edx, %ecx
	addl	$128, %ecx
	andl	$65280, %ecx
	movzbl	%r10b, %edx
	movq	%rbx, %r10
	imull	%eax, %edx
	leal	128(%rdx), %ebx
	movzbl	%bh, %ebx
	addl	%ebx, %edx
	addl	$128, %edx
	imull	%eax, %r14d
	leal	128(%r14), %eax
	movzbl	%ah, %eax
	addl	%r14d, %eax
	addl	$128, %eax
	shll	$16, %eax
	andl	$-16777216, %eax
	shll	$8, %edx
	andl	$16711680, %edx
	orl	%eax, %edx
	orl	%ecx, %edx
	orl	%edi, %edx
	movl	%edx, (%r11,%r8,4)
	incq	%r12
	incq	%r8
	cmpq	%r10, %r12
	jb	.LBB33_19
	jmp	.LBB33_20
.LBB33_21:
	movaps	160(%rsp), %xmm6
	movaps	176(%rsp), %xmm7
	movaps	192(%rsp), %xmm8
	movaps	208(%rsp), %xmm9
	movaps	224(%rsp), %xmm10
	movaps	240(%rsp), %xmm11
	movaps	256(%rsp), %xmm12
	movaps	272(%rsp), %xmm13
	movaps	288(%rsp), %xmm14
	movaps	304(%rsp), %xmm15
	addq	$328, %rsp
	popq	%rbx
	popq	%rbp
	popq	%rdi
	popq	%rsi
	popq	%r12
	popq	%r13
	popq	%r14
	popq	%r15
	retq

	.section	.rdata,"dr"
	.p2align	4, 0x0
.LCPI34_0:
	.byte	255
	.byte	0
	.byte	255
	.byte	0
	.byte	255
	.byte	0
	.byte	255
	.byte	0
	.byte	255
	.byte	0
	.byte	255
	.byte	0
	.byte	255
	.byte	0
	.byte	255
	.byte	0
.LCPI34_1:
	.short	128
	.short	128
	.short	128
	.short	128
	.short	128
	.short	128
	.short	128
	.short	128
.LCPI34_2:
	.zero	16,1
.LCPI34_3:
	.byte	3
	.byte	128
	.byte	3
	.byte	128
	.byte	7
	.byte	128
	.byte	7
	.byte	128
	.byte	11
	.byte	128
	.byte	11
	.byte	128
	.byte	15
	.byte	128
	.byte	15
	.byte	128
.LCPI34_4:
	.byte	3
	.byte	3
	.byte	3
	.byte	3
	.byte	7
	.byte	7
	.byte	7
	.byte	7
	.byte	11
	.byte	11
	.byte	11
	.byte	11
	.byte	15
	.byte	15
	.byte	15
	.byte	15
	.section	".text$pix_raster::view::blit_overlap::<#b96d0594766ff04b>","xr"
	.p2align	4
"pix_raster::view::blit_overlap::<#b96d0594766ff04b>":
	pushq	%r15
	pushq	%r14
	pushq	%r13
	pushq	%r12
	pushq	%rsi
	pushq	%rdi
	pushq	%rbp
	pushq	%rbx
	subq	$264, %rsp
	movdqa	%xmm13, 240(%rsp)
	movdqa	%xmm12, 224(%rsp)
	movdqa	%xmm11, 208(%rsp)
	movdqa	%xmm10, 192(%rsp)
	movdqa	%xmm9, 176(%rsp)
	movdqa	%xmm8, 160(%rsp)
	movdqa	%xmm7, 144(%rsp)
	movdqa	%xmm6, 128(%rsp)
	movq	%r9, 40(%rsp)
	movq	%r8, 32(%rsp)
	movq	%rdx, 24(%rsp)
	movq	%rcx, 16(%rsp)
	movq	368(%rsp), %rax
	movq	24(%rax), %rcx
	movq	32(%rax), %rdx
	movq	%rcx, (%rsp)
	movq	%rdx, 120(%rsp)
	cmpq	%rdx, %rcx
	jae	.LBB34_14
	movq	(%rax), %r14
	movq	16(%rax), %r9
	movq	8(%rax), %rdi
	movq	40(%rax), %rcx
	subq	%r14, %rdi
	movq	%rcx, %rax
	movq	(%rsp), %rdx
	subq	%rdx, %rax
	movq	%rax, 72(%rsp)
	movq	%rdi, %rax
	shrq	$4, %rax
	movq	%rax, 48(%rsp)
	movzbl	376(%rsp), %ebp
	movd	%ebp, %xmm0
	pxor	%xmm1, %xmm1
	pshufb	%xmm1, %xmm0
	movdqa	.LCPI34_0(%rip), %xmm1
	pand	%xmm0, %xmm1
	psrlw	$8, %xmm0
	movq	%rdi, %rax
	andq	$-16, %rax
	movq	%rax, 112(%rsp)
	leaq	(,%rax,4), %rbx
	movl	%edi, %r13d
	andl	$15, %r13d
	leal	(,%rdi,4), %eax
	movl	%eax, %r8d
	andl	$32, %r8d
	movq	%r8, 56(%rsp)
	movq	24(%rsp), %r11
	imulq	%r11, %rdx
	leaq	(,%r14,4), %r8
	leaq	(%r8,%rdx,4), %rsi
	movq	40(%rsp), %r10
	imulq	%r10, %rcx
	leaq	(,%r9,4), %r8
	leaq	(%r8,%rcx,4), %r15
	leaq	(%rbx,%rcx,4), %rcx
	andl	$48, %eax
	addq	%rax, %rcx
	movq	%rbx, 64(%rsp)
	leaq	(%rbx,%rdx,4), %rdx
	addq	%rax, %rdx
	movq	%rdi, 8(%rsp)
	andl	$12, %edi
	movq	16(%rsp), %rbx
	addq	%rbx, %rsi
	movq	32(%rsp), %rax
	addq	%rax, %r15
	movq	%r9, 80(%rsp)
	leaq	(%rcx,%r9,4), %r9
	addq	%rax, %r9
	movq	%r14, 88(%rsp)
	leaq	(%rdx,%r14,4), %r8
	addq	%rbx, %r8
	leaq	(,%r11,4), %rax
	movq	%rax, 104(%rsp)
	leaq	(,%r10,4), %rax
	movq	%rax, 96(%rsp)
	jmp	.LBB34_2
	.p2align	4
.LBB34_13:
	movq	(%rsp), %rax
	incq	%rax
	movq	104(%rsp), %rcx
	addq	%rcx, %rsi
	movq	96(%rsp), %rdx
	addq	%rdx, %r15
	addq	%rdx, %r9
	addq	%rcx, %r8
	movq	%rax, (%rsp)
	cmpq	120(%rsp), %rax
	je	.LBB34_14
.LBB34_2:
	cmpq	$0, 48(%rsp)
	je	.LBB34_5
	movl	$32, %r12d
	movq	48(%rsp), %r11
	.p2align	4
.LBB34_4:
	movdqu	-32(%r15,%r12), %xmm8
	movdqu	-16(%r15,%r12), %xmm9
	movdqa	.LCPI34_0(%rip), %xmm2
	movdqa	%xmm8, %xmm5
	pand	%xmm2, %xmm5
	movdqa	%xmm9, %xmm6
	pand	%xmm2, %xmm6
	pmullw	%xmm1, %xmm6
	pmullw	%xmm1, %xmm5
	movdqa	.LCPI34_1(%rip), %xmm3
	paddw	%xmm3, %xmm5
	paddw	%xmm3, %xmm6
	movdqa	.LCPI34_2(%rip), %xmm4
	pmulhuw	%xmm4, %xmm6
	pmulhuw	%xmm4, %xmm5
	psrlw	$8, %xmm9
	psrlw	$8, %xmm8
	pmullw	%xmm0, %xmm8
	pmullw	%xmm0, %xmm9
	paddw	%xmm3, %xmm9
	paddw	%xmm3, %xmm8
	pmulhuw	%xmm4, %xmm8
	pmulhuw	%xmm4, %xmm9
	psllw	$8, %xmm9
	por	%xmm6, %xmm9
	psllw	$8, %xmm8
	por	%xmm5, %xmm8
	movdqa	.LCPI34_3(%rip), %xmm7
	pshufb	%xmm7, %xmm9
	pshufb	%xmm7, %xmm8
	movdqu	-32(%rsi,%r12), %xmm11
	movdqu	-16(%rsi,%r12), %xmm10
	movdqu	(%rsi,%r12), %xmm6
	movdqu	16(%rsi,%r12), %xmm5
	movdqa	%xmm10, %xmm12
	pand	%xmm2, %xmm12
	movdqa	%xmm11, %xmm13
	pand	%xmm2, %xmm13
	pmullw	%xmm8, %xmm13
	pmullw	%xmm9, %xmm12
	paddw	%xmm3, %xmm12
	paddw	%xmm3, %xmm13
	pmulhuw	%xmm4, %xmm13
	pmulhuw	%xmm4, %xmm12
	psrlw	$8, %xmm11
	psrlw	$8, %xmm10
	pmullw	%xmm9, %xmm10
	pmullw	%xmm8, %xmm11
	paddw	%xmm3, %xmm11
	paddw	%xmm3, %xmm10
	pmulhuw	%xmm4, %xmm10
	pmulhuw	%xmm4, %xmm11
	psllw	$8, %xmm11
	por	%xmm13, %xmm11
	psllw	$8, %xmm10
	por	%xmm12, %xmm10
	movdqu	%xmm11, -32(%rsi,%r12)
	movdqu	%xmm10, -16(%rsi,%r12)
	movdqu	(%r15,%r12), %xmm8
	movdqu	16(%r15,%r12), %xmm9
	movdqa	%xmm8, %xmm10
	pand	%xmm2, %xmm10
	movdqa	%xmm9, %xmm11
	pand	%xmm2, %xmm11
	pmullw	%xmm1, %xmm11
	pmullw	%xmm1, %xmm10
	paddw	%xmm3, %xmm10
	paddw	%xmm3, %xmm11
	pmulhuw	%xmm4, %xmm11
	pmulhuw	%xmm4, %xmm10
	psrlw	$8, %xmm9
	psrlw	$8, %xmm8
	pmullw	%xmm0, %xmm8
	pmullw	%xmm0, %xmm9
	paddw	%xmm3, %xmm9
	paddw	%xmm3, %xmm8
	pmulhuw	%xmm4, %xmm8
	pmulhuw	%xmm4, %xmm9
	psllw	$8, %xmm9
	por	%xmm11, %xmm9
	psllw	$8, %xmm8
	por	%xmm10, %xmm8
	pshufb	%xmm7, %xmm9
	pshufb	%xmm7, %xmm8
	movdqa	%xmm5, %xmm7
	pand	%xmm2, %xmm7
	pand	%xmm6, %xmm2
	pmullw	%xmm8, %xmm2
	pmullw	%xmm9, %xmm7
	paddw	%xmm3, %xmm7
	paddw	%xmm3, %xmm2
	pmulhuw	%xmm4, %xmm2
	pmulhuw	%xmm4, %xmm7
	psrlw	$8, %xmm6
	psrlw	$8, %xmm5
	pmullw	%xmm9, %xmm5
	pmullw	%xmm8, %xmm6
	paddw	%xmm3, %xmm6
	paddw	%xmm3, %xmm5
	pmulhuw	%xmm4, %xmm5
	pmulhuw	%xmm4, %xmm6
	psllw	$8, %xmm6
	por	%xmm2, %xmm6
	psllw	$8, %xmm5
	por	%xmm7, %xmm5
	movdqu	%xmm6, (%rsi,%r12)
	movdqu	%xmm5, 16(%rsi,%r12)
	addq	$64, %r12
	decq	%r11
	jne	.LBB34_4
.LBB34_5:
	movq	112(%rsp), %rax
	cmpq	8(%rsp), %rax
	je	.LBB34_13
	movq	(%rsp), %rcx
	movq	%rcx, %rax
	imulq	24(%rsp), %rax
	addq	88(%rsp), %rax
	movq	72(%rsp), %rdx
	addq	%rdx, %rcx
	imulq	40(%rsp), %rcx
	addq	80(%rsp), %rcx
	movq	16(%rsp), %rdx
	leaq	(%rdx,%rax,4), %r11
	movq	32(%rsp), %rax
	leaq	(%rax,%rcx,4), %r12
	movq	64(%rsp), %rax
	addq	%rax, %r11
	addq	%rax, %r12
	testb	$8, 8(%rsp)
	jne	.LBB34_7
	testb	$4, 8(%rsp)
	jne	.LBB34_9
.LBB34_10:
	cmpl	%r13d, %edi
	je	.LBB34_13
	jmp	.LBB34_11
	.p2align	4
.LBB34_7:
	movdqu	(%r12), %xmm3
	movdqu	16(%r12), %xmm4
	movdqa	.LCPI34_0(%rip), %xmm2
	movdqa	%xmm3, %xmm7
	pand	%xmm2, %xmm7
	movdqa	%xmm4, %xmm8
	pand	%xmm2, %xmm8
	pmullw	%xmm1, %xmm8
	pmullw	%xmm1, %xmm7
	movdqa	.LCPI34_1(%rip), %xmm5
	paddw	%xmm5, %xmm7
	paddw	%xmm5, %xmm8
	movdqa	.LCPI34_2(%rip), %xmm6
	pmulhuw	%xmm6, %xmm8
	pmulhuw	%xmm6, %xmm7
	psrlw	$8, %xmm4
	psrlw	$8, %xmm3
	pmullw	%xmm0, %xmm3
	pmullw	%xmm0, %xmm4
	paddw	%xmm5, %xmm4
	paddw	%xmm5, %xmm3
	pmulhuw	%xmm6, %xmm3
	pmulhuw	%xmm6, %xmm4
	psllw	$8, %xmm4
	por	%xmm8, %xmm4
	psllw	$8, %xmm3
	por	%xmm7, %xmm3
	movdqu	(%r11), %xmm8
	movdqu	16(%r11), %xmm7
	movdqa	.LCPI34_3(%rip), %xmm9
	pshufb	%xmm9, %xmm4
	pshufb	%xmm9, %xmm3
	movdqa	%xmm7, %xmm9
	pand	%xmm2, %xmm9
	pand	%xmm8, %xmm2
	pmullw	%xmm3, %xmm2
	pmullw	%xmm4, %xmm9
	paddw	%xmm5, %xmm9
	paddw	%xmm5, %xmm2
	pmulhuw	%xmm6, %xmm2
	pmulhuw	%xmm6, %xmm9
	psrlw	$8, %xmm8
	psrlw	$8, %xmm7
	pmullw	%xmm4, %xmm7
	pmullw	%xmm3, %xmm8
	paddw	%xmm5, %xmm8
	paddw	%xmm5, %xmm7
	pmulhuw	%xmm6, %xmm7
	pmulhuw	%xmm6, %xmm8
	psllw	$8, %xmm8
	por	%xmm2, %xmm8
	psllw	$8, %xmm7
	por	%xmm9, %xmm7
	movdqu	%xmm8, (%r11)
	movdqu	%xmm7, 16(%r11)
	testb	$4, 8(%rsp)
	je	.LBB34_10
.LBB34_9:
	movq	56(%rsp), %rax
	movdqu	(%r12,%rax), %xmm2
	movdqa	.LCPI34_0(%rip), %xmm3
	movdqa	%xmm2, %xmm6
	pand	%xmm3, %xmm6
	pmullw	%xmm1, %xmm6
	movdqa	.LCPI34_1(%rip), %xmm4
	paddw	%xmm4, %xmm6
	movdqa	.LCPI34_2(%rip), %xmm5
	pmulhuw	%xmm5, %xmm6
	psrlw	$8, %xmm2
	pmullw	%xmm0, %xmm2
	paddw	%xmm4, %xmm2
	pmulhuw	%xmm5, %xmm2
	psllw	$8, %xmm2
	por	%xmm6, %xmm2
	movdqu	(%r11,%rax), %xmm6
	pshufb	.LCPI34_4(%rip), %xmm2
	movdqa	%xmm6, %xmm7
	pand	%xmm3, %xmm7
	pand	%xmm2, %xmm3
	pmullw	%xmm7, %xmm3
	paddw	%xmm4, %xmm3
	pmulhuw	%xmm5, %xmm3
	psrlw	$8, %xmm6
	psrlw	$8, %xmm2
	pmullw	%xmm6, %xmm2
	paddw	%xmm4, %xmm2
	pmulhuw	%xmm5, %xmm2
	psllw	$8, %xmm2
	por	%xmm3, %xmm2
	movdqu	%xmm2, (%r11,%rax)
	cmpl	%r13d, %edi
	je	.LBB34_13
.LBB34_11:
	xorl	%r11d, %r11d
	.p2align	4
.LBB34_12:
	movzbl	3(%r9,%r11,4), %ecx
	movl	(%r8,%r11,4), %eax
	movzbl	%ah, %edx
	movl	%eax, %r12d
	movzbl	%al, %r14d
	movl	%eax, %r10d
	shrl	$16, %r10d
	shrl	$24, %r12d
	movzwl	%bp, %eax
	imull	%ecx, %eax
	leal	128(%rax), %ecx
	movzbl	%ch, %ecx
	addl	%ecx, %eax
	addl	$128, %eax
	movzbl	%ah, %eax
	imull	%eax, %r14d
	leal	128(%r14), %ecx
	movzbl	%ch, %ecx
	addl	%r14d, %ecx
	addl	$128, %ecx
	movzbl	%ch, %ecx
	imull	%eax, %edx
	leal	128(%rdx), %ebx
	movzbl	%bh, %ebx
	addl	%ebx, %edx
	addl	$128, %edx
	andl	$65280, %edx
	movzbl	%r10b, %r10d
	imull	%eax, %r10d
	leal	128(%r10), %ebx
	movzbl	%bh, %ebx
	addl	%ebx, %r10d
	addl	$128, %r10d
	imull	%eax, %r12d
	leal	128(%r12), %eax
	movzbl	%ah, %eax
	addl	%r12d, %eax
	addl	$128, %eax
	shll	$16, %eax
	andl	$-16777216, %eax
	shll	$8, %r10d
	andl	$16711680, %r10d
	orl	%eax, %r10d
	orl	%edx, %r10d
	orl	%ecx, %r10d
	movl	%r10d, (%r8,%r11,4)
	leaq	(%rdi,%r11), %rax
	incq	%rax
	incq	%r11
	cmpq	%r13, %rax
	jb	.LBB34_12
	jmp	.LBB34_13
.LBB34_14:
	movaps	128(%rsp), %xmm6
	movaps	144(%rsp), %xmm7
	movaps	160(%rsp), %xmm8
	movaps	176(%rsp), %xmm9
	movaps	192(%rsp), %xmm10
	movaps	208(%rsp), %xmm11
	movaps	224(%rsp), %xmm12
	movaps	240(%rsp), %xmm13
	addq	$264, %rsp
	popq	%rbx
	popq	%rbp
	popq	%rdi
	popq	%rsi
	popq	%r12
	popq	%r13
	popq	%r14
	popq	%r15
	retq

	.section	.rdata,"dr"
	.p2align	4, 0x0
.LCPI35_0:
	.byte	3
	.byte	128
	.byte	3
	.byte	128
	.byte	7
	.byte	128
	.byte	7
	.byte	128
	.byte	11
	.byte	128
	.byte	11
	.byte	128
	.byte	15
	.byte	128
	.byte	15
	.byte	128
.LCPI35_1:
	.byte	255
	.byte	0
	.byte	255
	.byte	0
	.byte	255
	.byte	0
	.byte	255
	.byte	0
	.byte	255
	.byte	0
	.byte	255
	.byte	0
	.byte	255
	.byte	0
	.byte	255
	.byte	0
.LCPI35_2:
	.short	128
	.short	128
	.short	128
	.short	128
	.short	128
	.short	128
	.short	128
	.short	128
.LCPI35_3:
	.zero	16,1
.LCPI35_4:
	.byte	3
	.byte	3
	.byte	3
	.byte	3
	.byte	7
	.byte	7
	.byte	7
	.byte	7
	.byte	11
	.byte	11
	.byte	11
	.byte	11
	.byte	15
	.byte	15
	.byte	15
	.byte	15
.LCPI35_5:
	.short	128
	.short	128
	.short	128
	.short	128
	.zero	2
	.zero	2
	.zero	2
	.zero	2
.LCPI35_6:
	.long	65536
	.long	16777216
	.long	256
	.long	1
	.section	".text$pix_raster::view::blit_overlap::<#d408076b946df4a1>","xr"
	.p2align	4
"pix_raster::view::blit_overlap::<#d408076b946df4a1>":
	pushq	%r15
	pushq	%r14
	pushq	%r13
	pushq	%r12
	pushq	%rsi
	pushq	%rdi
	pushq	%rbp
	pushq	%rbx
	subq	$248, %rsp
	movdqa	%xmm12, 224(%rsp)
	movdqa	%xmm11, 208(%rsp)
	movdqa	%xmm10, 192(%rsp)
	movdqa	%xmm9, 176(%rsp)
	movdqa	%xmm8, 160(%rsp)
	movdqa	%xmm7, 144(%rsp)
	movdqa	%xmm6, 128(%rsp)
	movq	%r9, 40(%rsp)
	movq	%r8, 32(%rsp)
	movq	%rdx, 24(%rsp)
	movq	%rcx, 16(%rsp)
	movq	352(%rsp), %rax
	movq	24(%rax), %rcx
	movq	32(%rax), %rdx
	movq	%rcx, (%rsp)
	movq	%rdx, 120(%rsp)
	cmpq	%rdx, %rcx
	jae	.LBB35_14
	movq	(%rax), %rbx
	movq	16(%rax), %r15
	movq	8(%rax), %r10
	movq	40(%rax), %rax
	subq	%rbx, %r10
	movq	%rax, %rcx
	movq	(%rsp), %rdx
	subq	%rdx, %rcx
	movq	%rcx, 72(%rsp)
	movq	%r10, %rcx
	shrq	$4, %rcx
	movq	%rcx, 48(%rsp)
	movq	%r10, %rcx
	andq	$-16, %rcx
	movq	%rcx, 112(%rsp)
	leaq	(,%rcx,4), %r12
	movl	%r10d, %r13d
	andl	$15, %r13d
	leal	(,%r10,4), %ecx
	movl	%ecx, %r8d
	andl	$32, %r8d
	movq	%r8, 56(%rsp)
	movq	%r10, 8(%rsp)
	andl	$12, %r10d
	movq	24(%rsp), %r9
	imulq	%r9, %rdx
	leaq	(,%rbx,4), %r8
	leaq	(%r8,%rdx,4), %rsi
	movq	16(%rsp), %rdi
	addq	%rdi, %rsi
	movq	40(%rsp), %r11
	imulq	%r11, %rax
	leaq	(,%r15,4), %r8
	leaq	(%r8,%rax,4), %r14
	leaq	(%r12,%rax,4), %rax
	andl	$48, %ecx
	addq	%rcx, %rax
	movq	%r12, 64(%rsp)
	leaq	(%r12,%rdx,4), %rdx
	addq	%rcx, %rdx
	leaq	(,%r9,4), %rcx
	movq	%rcx, 104(%rsp)
	movq	32(%rsp), %rcx
	addq	%rcx, %r14
	movq	%r15, 80(%rsp)
	leaq	(%rax,%r15,4), %r9
	addq	%rcx, %r9
	movq	%rbx, 88(%rsp)
	leaq	(%rdx,%rbx,4), %r8
	addq	%rdi, %r8
	leaq	(,%r11,4), %rax
	movq	%rax, 96(%rsp)
	jmp	.LBB35_2
	.p2align	4
.LBB35_13:
	movq	(%rsp), %rax
	incq	%rax
	movq	104(%rsp), %rcx
	addq	%rcx, %rsi
	movq	96(%rsp), %rdx
	addq	%rdx, %r14
	addq	%rdx, %r9
	addq	%rcx, %r8
	movq	%rax, (%rsp)
	cmpq	120(%rsp), %rax
	je	.LBB35_14
.LBB35_2:
	cmpq	$0, 48(%rsp)
	je	.LBB35_5
	movl	$32, %ecx
	movq	48(%rsp), %r12
	.p2align	4
.LBB35_4:
	movdqu	-32(%r14,%rcx), %xmm6
	movdqu	-16(%r14,%rcx), %xmm10
	movdqu	-32(%rsi,%rcx), %xmm7
	movdqu	-16(%rsi,%rcx), %xmm8
	movdqa	.LCPI35_0(%rip), %xmm5
	movdqa	%xmm7, %xmm2
	pshufb	%xmm5, %xmm2
	movdqa	%xmm8, %xmm1
	pshufb	%xmm5, %xmm1
	movdqa	%xmm10, %xmm4
	movdqa	%xmm6, %xmm9
	movdqa	.LCPI35_1(%rip), %xmm0
	movdqa	%xmm6, %xmm11
	pand	%xmm0, %xmm11
	movdqa	%xmm10, %xmm3
	pand	%xmm0, %xmm3
	pmullw	%xmm1, %xmm3
	pmullw	%xmm2, %xmm11
	psrlw	$8, %xmm6
	pmullw	%xmm2, %xmm6
	movdqa	.LCPI35_2(%rip), %xmm2
	paddw	%xmm2, %xmm3
	psrlw	$8, %xmm10
	pmullw	%xmm1, %xmm10
	movdqa	.LCPI35_3(%rip), %xmm1
	pmulhuw	%xmm1, %xmm3
	paddw	%xmm2, %xmm10
	pmulhuw	%xmm1, %xmm10
	psllw	$8, %xmm10
	por	%xmm3, %xmm10
	pcmpeqd	%xmm3, %xmm3
	pxor	%xmm3, %xmm4
	pxor	%xmm3, %xmm9
	pshufb	%xmm5, %xmm9
	pshufb	%xmm5, %xmm4
	paddw	%xmm2, %xmm11
	pmulhuw	%xmm1, %xmm11
	paddw	%xmm2, %xmm6
	pmulhuw	%xmm1, %xmm6
	psllw	$8, %xmm6
	por	%xmm11, %xmm6
	movdqa	%xmm7, %xmm11
	pand	%xmm0, %xmm11
	pmullw	%xmm9, %xmm11
	psrlw	$8, %xmm7
	pmullw	%xmm9, %xmm7
	movdqa	%xmm8, %xmm9
	pand	%xmm0, %xmm9
	pmullw	%xmm4, %xmm9
	psrlw	$8, %xmm8
	pmullw	%xmm4, %xmm8
	movdqu	(%rsi,%rcx), %xmm4
	paddw	%xmm2, %xmm9
	pmulhuw	%xmm1, %xmm9
	paddw	%xmm2, %xmm8
	pmulhuw	%xmm1, %xmm8
	psllw	$8, %xmm8
	por	%xmm9, %xmm8
	movdqu	16(%rsi,%rcx), %xmm9
	paddw	%xmm2, %xmm11
	pmulhuw	%xmm1, %xmm11
	paddw	%xmm2, %xmm7
	pmulhuw	%xmm1, %xmm7
	paddusb	%xmm10, %xmm8
	psllw	$8, %xmm7
	por	%xmm11, %xmm7
	paddusb	%xmm6, %xmm7
	movdqu	%xmm7, -32(%rsi,%rcx)
	movdqu	%xmm8, -16(%rsi,%rcx)
	movdqu	(%r14,%rcx), %xmm6
	movdqu	16(%r14,%rcx), %xmm7
	movdqa	%xmm4, %xmm11
	pshufb	%xmm5, %xmm11
	movdqa	%xmm9, %xmm10
	pshufb	%xmm5, %xmm10
	movdqa	%xmm7, %xmm8
	pxor	%xmm3, %xmm8
	pxor	%xmm6, %xmm3
	pshufb	%xmm5, %xmm3
	pshufb	%xmm5, %xmm8
	movdqa	%xmm6, %xmm5
	pand	%xmm0, %xmm5
	pmullw	%xmm11, %xmm5
	psrlw	$8, %xmm6
	pmullw	%xmm11, %xmm6
	movdqa	%xmm7, %xmm11
	pand	%xmm0, %xmm11
	pmullw	%xmm10, %xmm11
	psrlw	$8, %xmm7
	pmullw	%xmm10, %xmm7
	paddw	%xmm2, %xmm11
	pmulhuw	%xmm1, %xmm11
	paddw	%xmm2, %xmm7
	pmulhuw	%xmm1, %xmm7
	psllw	$8, %xmm7
	por	%xmm11, %xmm7
	paddw	%xmm2, %xmm5
	pmulhuw	%xmm1, %xmm5
	paddw	%xmm2, %xmm6
	pmulhuw	%xmm1, %xmm6
	psllw	$8, %xmm6
	por	%xmm5, %xmm6
	movdqa	%xmm4, %xmm5
	pand	%xmm0, %xmm5
	pmullw	%xmm3, %xmm5
	psrlw	$8, %xmm4
	pmullw	%xmm3, %xmm4
	pand	%xmm9, %xmm0
	pmullw	%xmm8, %xmm0
	psrlw	$8, %xmm9
	pmullw	%xmm8, %xmm9
	paddw	%xmm2, %xmm5
	paddw	%xmm2, %xmm0
	paddw	%xmm2, %xmm9
	paddw	%xmm2, %xmm4
	pmulhuw	%xmm1, %xmm0
	pmulhuw	%xmm1, %xmm5
	pmulhuw	%xmm1, %xmm4
	pmulhuw	%xmm1, %xmm9
	psllw	$8, %xmm9
	por	%xmm0, %xmm9
	paddusb	%xmm7, %xmm9
	psllw	$8, %xmm4
	por	%xmm5, %xmm4
	paddusb	%xmm6, %xmm4
	movdqu	%xmm4, (%rsi,%rcx)
	movdqu	%xmm9, 16(%rsi,%rcx)
	addq	$64, %rcx
	decq	%r12
	jne	.LBB35_4
.LBB35_5:
	movq	112(%rsp), %rax
	cmpq	8(%rsp), %rax
	je	.LBB35_13
	movq	(%rsp), %rcx
	movq	%rcx, %rax
	imulq	24(%rsp), %rax
	addq	88(%rsp), %rax
	movq	72(%rsp), %rdx
	addq	%rcx, %rdx
	imulq	40(%rsp), %rdx
	addq	80(%rsp), %rdx
	movq	16(%rsp), %rcx
	leaq	(%rcx,%rax,4), %rcx
	movq	32(%rsp), %rax
	leaq	(%rax,%rdx,4), %r12
	movq	64(%rsp), %rax
	addq	%rax, %rcx
	addq	%rax, %r12
	testb	$8, 8(%rsp)
	jne	.LBB35_7
	testb	$4, 8(%rsp)
	jne	.LBB35_9
.LBB35_10:
	cmpl	%r13d, %r10d
	je	.LBB35_13
	jmp	.LBB35_11
	.p2align	4
.LBB35_7:
	movdqu	(%r12), %xmm0
	movdqu	16(%r12), %xmm3
	movdqu	(%rcx), %xmm1
	movdqu	16(%rcx), %xmm2
	movdqa	.LCPI35_0(%rip), %xmm4
	movdqa	%xmm1, %xmm10
	pshufb	%xmm4, %xmm10
	movdqa	%xmm2, %xmm11
	pshufb	%xmm4, %xmm11
	pcmpeqd	%xmm6, %xmm6
	movdqa	%xmm3, %xmm5
	pxor	%xmm6, %xmm5
	pxor	%xmm0, %xmm6
	pshufb	%xmm4, %xmm6
	pshufb	%xmm4, %xmm5
	movdqa	.LCPI35_1(%rip), %xmm4
	movdqa	%xmm0, %xmm9
	pand	%xmm4, %xmm9
	movdqa	%xmm3, %xmm12
	pand	%xmm4, %xmm12
	pmullw	%xmm11, %xmm12
	pmullw	%xmm10, %xmm9
	movdqa	.LCPI35_2(%rip), %xmm7
	paddw	%xmm7, %xmm9
	paddw	%xmm7, %xmm12
	movdqa	.LCPI35_3(%rip), %xmm8
	pmulhuw	%xmm8, %xmm12
	pmulhuw	%xmm8, %xmm9
	psrlw	$8, %xmm3
	psrlw	$8, %xmm0
	pmullw	%xmm10, %xmm0
	pmullw	%xmm11, %xmm3
	paddw	%xmm7, %xmm3
	paddw	%xmm7, %xmm0
	pmulhuw	%xmm8, %xmm0
	pmulhuw	%xmm8, %xmm3
	psllw	$8, %xmm3
	por	%xmm12, %xmm3
	psllw	$8, %xmm0
	por	%xmm9, %xmm0
	movdqa	%xmm1, %xmm9
	pand	%xmm4, %xmm9
	pand	%xmm2, %xmm4
	pmullw	%xmm5, %xmm4
	pmullw	%xmm6, %xmm9
	paddw	%xmm7, %xmm9
	paddw	%xmm7, %xmm4
	pmulhuw	%xmm8, %xmm4
	pmulhuw	%xmm8, %xmm9
	psrlw	$8, %xmm2
	psrlw	$8, %xmm1
	pmullw	%xmm6, %xmm1
	pmullw	%xmm5, %xmm2
	paddw	%xmm7, %xmm2
	paddw	%xmm7, %xmm1
	pmulhuw	%xmm8, %xmm1
	pmulhuw	%xmm8, %xmm2
	psllw	$8, %xmm2
	por	%xmm4, %xmm2
	paddusb	%xmm3, %xmm2
	psllw	$8, %xmm1
	por	%xmm9, %xmm1
	paddusb	%xmm0, %xmm1
	movdqu	%xmm1, (%rcx)
	movdqu	%xmm2, 16(%rcx)
	testb	$4, 8(%rsp)
	je	.LBB35_10
.LBB35_9:
	movq	56(%rsp), %rax
	movdqu	(%r12,%rax), %xmm1
	movdqu	(%rcx,%rax), %xmm3
	pcmpeqd	%xmm0, %xmm0
	movdqa	.LCPI35_4(%rip), %xmm7
	movdqa	%xmm3, %xmm2
	pshufb	%xmm7, %xmm2
	movdqa	.LCPI35_1(%rip), %xmm6
	movdqa	%xmm1, %xmm4
	pand	%xmm6, %xmm4
	movdqa	%xmm2, %xmm8
	pand	%xmm6, %xmm8
	pmullw	%xmm4, %xmm8
	movdqa	.LCPI35_2(%rip), %xmm4
	paddw	%xmm4, %xmm8
	movdqa	.LCPI35_3(%rip), %xmm5
	pmulhuw	%xmm5, %xmm8
	movdqa	%xmm1, %xmm9
	psrlw	$8, %xmm9
	psrlw	$8, %xmm2
	pmullw	%xmm9, %xmm2
	paddw	%xmm4, %xmm2
	pmulhuw	%xmm5, %xmm2
	psllw	$8, %xmm2
	por	%xmm8, %xmm2
	pshufb	%xmm7, %xmm1
	pxor	%xmm1, %xmm0
	movdqa	%xmm3, %xmm7
	pand	%xmm6, %xmm7
	pandn	%xmm6, %xmm1
	pmullw	%xmm7, %xmm1
	paddw	%xmm4, %xmm1
	pmulhuw	%xmm5, %xmm1
	psrlw	$8, %xmm3
	psrlw	$8, %xmm0
	pmullw	%xmm3, %xmm0
	paddw	%xmm4, %xmm0
	pmulhuw	%xmm5, %xmm0
	psllw	$8, %xmm0
	por	%xmm1, %xmm0
	paddusb	%xmm2, %xmm0
	movdqu	%xmm0, (%rcx,%rax)
	cmpl	%r13d, %r10d
	je	.LBB35_13
.LBB35_11:
	xorl	%ecx, %ecx
	.p2align	4
.LBB35_12:
	movl	(%r9,%rcx,4), %eax
	movzbl	%ah, %ebp
	movl	%eax, %r12d
	movzbl	%al, %r15d
	shrl	$16, %eax
	shrl	$24, %r12d
	movl	(%r8,%rcx,4), %ebx
	movzbl	%bh, %edi
	movl	%ebx, %edx
	movzbl	%bl, %r11d
	shrl	$16, %ebx
	shrl	$24, %edx
	movzbl	%al, %eax
	movd	%eax, %xmm0
	pinsrw	$1, %r12d, %xmm0
	movzbl	%bl, %eax
	xorl	$255, %r12d
	pinsrw	$2, %ebp, %xmm0
	pinsrw	$3, %r15d, %xmm0
	movd	%edx, %xmm1
	pshuflw	$0, %xmm1, %xmm1
	pmullw	%xmm0, %xmm1
	movdqa	.LCPI35_5(%rip), %xmm0
	paddw	%xmm0, %xmm1
	movdqa	%xmm1, %xmm2
	psrlw	$8, %xmm2
	paddw	%xmm1, %xmm2
	psrlw	$8, %xmm2
	packuswb	%xmm2, %xmm2
	movd	%r12d, %xmm1
	movd	%eax, %xmm3
	pinsrw	$1, %edx, %xmm3
	pinsrw	$2, %edi, %xmm3
	pinsrw	$3, %r11d, %xmm3
	pshuflw	$0, %xmm1, %xmm1
	pmullw	%xmm1, %xmm3
	paddw	%xmm0, %xmm3
	movdqa	%xmm3, %xmm0
	psrlw	$8, %xmm0
	paddw	%xmm3, %xmm0
	psrlw	$8, %xmm0
	packuswb	%xmm0, %xmm0
	paddusb	%xmm2, %xmm0
	pmovzxbd	%xmm0, %xmm0
	pmulld	.LCPI35_6(%rip), %xmm0
	pshufd	$238, %xmm0, %xmm1
	por	%xmm0, %xmm1
	pshufd	$85, %xmm1, %xmm0
	por	%xmm1, %xmm0
	movd	%xmm0, (%r8,%rcx,4)
	leaq	(%r10,%rcx), %rax
	incq	%rax
	incq	%rcx
	cmpq	%r13, %rax
	jb	.LBB35_12
	jmp	.LBB35_13
.LBB35_14:
	movaps	128(%rsp), %xmm6
	movaps	144(%rsp), %xmm7
	movaps	160(%rsp), %xmm8
	movaps	176(%rsp), %xmm9
	movaps	192(%rsp), %xmm10
	movaps	208(%rsp), %xmm11
	movaps	224(%rsp), %xmm12
	addq	$248, %rsp
	popq	%rbx
	popq	%rbp
	popq	%rdi
	popq	%rsi
	popq	%r12
	popq	%r13
	popq	%r14
	popq	%r15
	retq

	.section	.rdata,"dr"
	.p2align	4, 0x0
.LCPI36_0:
	.byte	255
	.byte	0
	.byte	255
	.byte	0
	.byte	255
	.byte	0
	.byte	255
	.byte	0
	.byte	255
	.byte	0
	.byte	255
	.byte	0
	.byte	255
	.byte	0
	.byte	255
	.byte	0
.LCPI36_1:
	.short	128
	.short	128
	.short	128
	.short	128
	.short	128
	.short	128
	.short	128
	.short	128
.LCPI36_2:
	.zero	16,1
.LCPI36_3:
	.byte	3
	.byte	128
	.byte	3
	.byte	128
	.byte	7
	.byte	128
	.byte	7
	.byte	128
	.byte	11
	.byte	128
	.byte	11
	.byte	128
	.byte	15
	.byte	128
	.byte	15
	.byte	128
.LCPI36_4:
	.byte	3
	.byte	3
	.byte	3
	.byte	3
	.byte	7
	.byte	7
	.byte	7
	.byte	7
	.byte	11
	.byte	11
	.byte	11
	.byte	11
	.byte	15
	.byte	15
	.byte	15
	.byte	15
.LCPI36_5:
	.short	128
	.short	128
	.short	128
	.short	128
	.zero	2
	.zero	2
	.zero	2
	.zero	2
.LCPI36_6:
	.long	16777216
	.long	65536
	.long	256
	.long	1
	.section	".text$pix_raster::view::blit_overlap::<#09758d48ce65f64e>","xr"
	.p2align	4
"pix_raster::view::blit_overlap::<#09758d48ce65f64e>":
	pushq	%r15
	pushq	%r14
	pushq	%r13
	pushq	%r12
	pushq	%rsi
	pushq	%rdi
	pushq	%rbp
	pushq	%rbx
	subq	$280, %rsp
	movdqa	%xmm15, 256(%rsp)
	movdqa	%xmm14, 240(%rsp)
	movdqa	%xmm13, 224(%rsp)
	movdqa	%xmm12, 208(%rsp)
	movdqa	%xmm11, 192(%rsp)
	movdqa	%xmm10, 176(%rsp)
	movdqa	%xmm9, 160(%rsp)
	movdqa	%xmm8, 144(%rsp)
	movdqa	%xmm7, 128(%rsp)
	movdqa	%xmm6, 112(%rsp)
	movq	%rdx, 32(%rsp)
	movq	%rcx, 24(%rsp)
	movq	384(%rsp), %rax
	movq	24(%rax), %r13
	movq	32(%rax), %rcx
	movq	%rcx, 88(%rsp)
	cmpq	%rcx, %r13
	jae	.LBB36_18
	movl	392(%rsp), %esi
	movq	(%rax), %rdx
	movq	%rdx, 16(%rsp)
	movq	16(%rax), %r11
	leaq	(%r8,%r11), %rcx
	movq	%rcx, 64(%rsp)
	movq	8(%rax), %r10
	movq	40(%rax), %rcx
	subq	%rdx, %r10
	movq	%rcx, %rax
	subq	%r13, %rax
	movq	%rax, 56(%rsp)
	movq	%r10, %rbp
	shrq	$4, %rbp
	movl	%esi, %eax
	movl	%esi, %ebx
	shrl	$24, %ebx
	shrl	$16, %esi
	movl	%eax, %edx
	shrl	$8, %edx
	movd	%eax, %xmm0
	movl	%eax, %edi
	pinsrb	$1, %edx, %xmm0
	pinsrb	$2, %esi, %xmm0
	pinsrb	$3, %ebx, %xmm0
	pinsrb	$4, %eax, %xmm0
	pinsrb	$5, %edx, %xmm0
	pinsrb	$6, %esi, %xmm0
	pinsrb	$7, %ebx, %xmm0
	pinsrb	$8, %eax, %xmm0
	pinsrb	$9, %edx, %xmm0
	pinsrb	$10, %esi, %xmm0
	pinsrb	$11, %ebx, %xmm0
	pinsrb	$12, %eax, %xmm0
	pinsrb	$13, %edx, %xmm0
	pinsrb	$14, %esi, %xmm0
	movdqa	.LCPI36_0(%rip), %xmm1
	pand	%xmm0, %xmm1
	pinsrb	$15, %ebx, %xmm0
	psrlw	$8, %xmm0
	movq	%r10, %r15
	andq	$-16, %r15
	movl	%r10d, %r12d
	andl	$15, %r12d
	movl	%r10d, %eax
	andl	$8, %eax
	movq	%rax, (%rsp)
	movl	%r10d, %r14d
	andl	$12, %r14d
	movzbl	%sil, %eax
	leaq	(,%r15,4), %rdx
	movq	%rdx, 8(%rsp)
	movd	%ebx, %xmm12
	pinsrw	$1, %eax, %xmm12
	movl	%edi, %edx
	movzbl	%dh, %eax
	movzbl	%dl, %edx
	pinsrw	$2, %eax, %xmm12
	pinsrw	$3, %edx, %xmm12
	movq	%rbp, 80(%rsp)
	leaq	(,%rbp,4), %rsi
	movq	%r13, %rax
	movq	32(%rsp), %rdi
	imulq	%rdi, %rax
	imulq	%r9, %rcx
	addq	%r11, %rcx
	movq	%r15, 48(%rsp)
	leaq	(%r15,%r14), %rbx
	addq	%r8, %rbx
	addq	%rcx, %r8
	addq	$8, %r8
	addq	%rcx, %rbx
	movq	16(%rsp), %rdx
	leaq	(%rdx,%rax), %rcx
	movq	24(%rsp), %r11
	leaq	(%r11,%rcx,4), %rbp
	movq	8(%rsp), %rcx
	leaq	(%rcx,%rax,4), %rax
	movq	%r14, 40(%rsp)
	leaq	(%rax,%r14,4), %rax
	movq	%r10, %r14
	leaq	(%rax,%rdx,4), %rdx
	addq	%r11, %rdx
	leaq	(,%rdi,4), %rax
	movq	%rax, 72(%rsp)
	movdqa	%xmm12, 96(%rsp)
	jmp	.LBB36_2
	.p2align	4
.LBB36_17:
	incq	%r13
	movq	72(%rsp), %rax
	addq	%rax, %rbp
	addq	%r9, %r8
	addq	%r9, %rbx
	addq	%rax, %rdx
	cmpq	88(%rsp), %r13
	je	.LBB36_18
.LBB36_2:
	cmpq	$0, 80(%rsp)
	je	.LBB36_7
	xorl	%ecx, %ecx
	movq	%rbp, %r11
	jmp	.LBB36_4
	.p2align	4
.LBB36_6:
	addq	$4, %rcx
	addq	$64, %r11
	cmpq	%rcx, %rsi
	je	.LBB36_7
.LBB36_4:
	movq	-8(%r8,%rcx,4), %rax
	movq	(%r8,%rcx,4), %r10
	orq	%rax, %r10
	je	.LBB36_6
	movq	%rax, %xmm10
	punpcklbw	%xmm10, %xmm10
	movdqa	%xmm10, %xmm11
	punpckhwd	%xmm10, %xmm11
	punpcklwd	%xmm10, %xmm10
	movdqa	.LCPI36_0(%rip), %xmm3
	movdqa	%xmm10, %xmm14
	pand	%xmm3, %xmm14
	movdqa	%xmm11, %xmm8
	pand	%xmm3, %xmm8
	pmullw	%xmm1, %xmm8
	pmullw	%xmm1, %xmm14
	movdqa	.LCPI36_1(%rip), %xmm5
	paddw	%xmm5, %xmm14
	paddw	%xmm5, %xmm8
	movdqa	.LCPI36_2(%rip), %xmm4
	pmulhuw	%xmm4, %xmm8
	pmulhuw	%xmm4, %xmm14
	psrlw	$8, %xmm11
	psrlw	$8, %xmm10
	pmullw	%xmm0, %xmm10
	pmullw	%xmm0, %xmm11
	paddw	%xmm5, %xmm11
	paddw	%xmm5, %xmm10
	pmulhuw	%xmm4, %xmm10
	pmulhuw	%xmm4, %xmm11
	psllw	$8, %xmm11
	psllw	$8, %xmm10
	por	%xmm14, %xmm10
	por	%xmm8, %xmm11
	movdqa	.LCPI36_3(%rip), %xmm9
	movdqu	(%r11), %xmm12
	movdqu	16(%r11), %xmm13
	movdqu	32(%r11), %xmm6
	movdqa	%xmm12, %xmm2
	pshufb	%xmm9, %xmm2
	movdqa	%xmm13, %xmm7
	pshufb	%xmm9, %xmm7
	movdqa	%xmm10, %xmm15
	pand	%xmm3, %xmm14
	pmullw	%xmm2, %xmm14
	psrlw	$8, %xmm10
	pmullw	%xmm2, %xmm10
	movdqa	%xmm11, %xmm2
	pand	%xmm3, %xmm8
	pmullw	%xmm7, %xmm8
	psrlw	$8, %xmm11
	pmullw	%xmm7, %xmm11
	movdqu	48(%r11), %xmm7
	paddw	%xmm5, %xmm8
	pmulhuw	%xmm4, %xmm8
	paddw	%xmm5, %xmm11
	pmulhuw	%xmm4, %xmm11
	psllw	$8, %xmm11
	por	%xmm8, %xmm11
	pcmpeqd	%xmm8, %xmm8
	pxor	%xmm8, %xmm2
	pxor	%xmm8, %xmm15
	pshufb	%xmm9, %xmm15
	pshufb	%xmm9, %xmm2
	paddw	%xmm5, %xmm14
	pmulhuw	%xmm4, %xmm14
	paddw	%xmm5, %xmm10
	pmulhuw	%xmm4, %xmm10
	psllw	$8, %xmm10
	por	%xmm14, %xmm10
	movdqa	%xmm12, %xmm14
	pand	%xmm3, %xmm14
	pmullw	%xmm15, %xmm14
	psrlw	$8, %xmm12
	pmullw	%xmm15, %xmm12
	movdqa	%xmm13, %xmm15
	pand	%xmm3, %xmm15
	pmullw	%xmm2, %xmm15
	paddw	%xmm5, %xmm14
	paddw	%xmm5, %xmm15
	pmulhuw	%xmm4, %xmm15
	pmulhuw	%xmm4, %xmm14
	psrlw	$8, %xmm13
	pmullw	%xmm2, %xmm13
	paddw	%xmm5, %xmm13
	paddw	%xmm5, %xmm12
	pmulhuw	%xmm4, %xmm12
	pmulhuw	%xmm4, %xmm13
	psllw	$8, %xmm13
	por	%xmm15, %xmm13
	paddusb	%xmm11, %xmm13
	psllw	$8, %xmm12
	por	%xmm14, %xmm12
	paddusb	%xmm10, %xmm12
	movdqu	%xmm12, (%r11)
	movdqu	%xmm13, 16(%r11)
	movq	(%r8,%rcx,4), %xmm10
	punpcklbw	%xmm10, %xmm10
	movdqa	%xmm10, %xmm11
	punpckhwd	%xmm10, %xmm11
	punpcklwd	%xmm10, %xmm10
	movdqa	%xmm10, %xmm12
	pand	%xmm3, %xmm12
	movdqa	%xmm11, %xmm13
	pand	%xmm3, %xmm13
	pmullw	%xmm1, %xmm13
	pmullw	%xmm1, %xmm12
	paddw	%xmm5, %xmm12
	paddw	%xmm5, %xmm13
	pmulhuw	%xmm4, %xmm13
	pmulhuw	%xmm4, %xmm12
	psrlw	$8, %xmm11
	psrlw	$8, %xmm10
	pmullw	%xmm0, %xmm10
	pmullw	%xmm0, %xmm11
	paddw	%xmm5, %xmm11
	paddw	%xmm5, %xmm10
	pmulhuw	%xmm4, %xmm10
	pmulhuw	%xmm4, %xmm11
	psllw	$8, %xmm11
	psllw	$8, %xmm10
	por	%xmm12, %xmm10
	por	%xmm13, %xmm11
	movdqa	%xmm6, %xmm15
	pshufb	%xmm9, %xmm15
	movdqa	%xmm7, %xmm2
	pshufb	%xmm9, %xmm2
	movdqa	%xmm11, %xmm14
	pxor	%xmm8, %xmm14
	pxor	%xmm10, %xmm8
	pshufb	%xmm9, %xmm8
	pshufb	%xmm9, %xmm14
	pand	%xmm3, %xmm12
	pmullw	%xmm15, %xmm12
	psrlw	$8, %xmm10
	pmullw	%xmm15, %xmm10
	pand	%xmm3, %xmm13
	pmullw	%xmm2, %xmm13
	psrlw	$8, %xmm11
	pmullw	%xmm2, %xmm11
	paddw	%xmm5, %xmm13
	pmulhuw	%xmm4, %xmm13
	paddw	%xmm5, %xmm11
	pmulhuw	%xmm4, %xmm11
	psllw	$8, %xmm11
	por	%xmm13, %xmm11
	paddw	%xmm5, %xmm12
	pmulhuw	%xmm4, %xmm12
	paddw	%xmm5, %xmm10
	pmulhuw	%xmm4, %xmm10
	psllw	$8, %xmm10
	por	%xmm12, %xmm10
	movdqa	96(%rsp), %xmm12
	movdqa	%xmm6, %xmm2
	pand	%xmm3, %xmm2
	pmullw	%xmm8, %xmm2
	psrlw	$8, %xmm6
	pmullw	%xmm8, %xmm6
	pand	%xmm7, %xmm3
	pmullw	%xmm14, %xmm3
	psrlw	$8, %xmm7
	pmullw	%xmm14, %xmm7
	paddw	%xmm5, %xmm2
	paddw	%xmm5, %xmm3
	paddw	%xmm5, %xmm7
	paddw	%xmm5, %xmm6
	pmulhuw	%xmm4, %xmm3
	pmulhuw	%xmm4, %xmm2
	pmulhuw	%xmm4, %xmm6
	pmulhuw	%xmm4, %xmm7
	psllw	$8, %xmm7
	por	%xmm3, %xmm7
	paddusb	%xmm11, %xmm7
	psllw	$8, %xmm6
	por	%xmm2, %xmm6
	paddusb	%xmm10, %xmm6
	movdqu	%xmm6, 32(%r11)
	movdqu	%xmm7, 48(%r11)
	jmp	.LBB36_6
	.p2align	4
.LBB36_7:
	cmpq	%r14, 48(%rsp)
	je	.LBB36_17
	movq	%r13, %rax
	imulq	32(%rsp), %rax
	addq	16(%rsp), %rax
	movq	56(%rsp), %rcx
	leaq	(%rcx,%r13), %r11
	imulq	%r9, %r11
	addq	64(%rsp), %r11
	movq	24(%rsp), %rcx
	leaq	(%rcx,%rax,4), %rcx
	addq	8(%rsp), %rcx
	addq	48(%rsp), %r11
	testb	$8, %r14b
	je	.LBB36_11
	movq	(%r11), %rax
	testq	%rax, %rax
	je	.LBB36_11
	movq	%rax, %xmm3
	punpcklbw	%xmm3, %xmm3
	movdqa	%xmm3, %xmm4
	punpckhwd	%xmm3, %xmm4
	punpcklwd	%xmm3, %xmm3
	movdqa	.LCPI36_0(%rip), %xmm5
	movdqa	%xmm3, %xmm10
	pand	%xmm5, %xmm10
	movdqa	%xmm4, %xmm11
	pand	%xmm5, %xmm11
	pmullw	%xmm1, %xmm11
	pmullw	%xmm1, %xmm10
	movdqa	.LCPI36_1(%rip), %xmm6
	paddw	%xmm6, %xmm10
	paddw	%xmm6, %xmm11
	movdqa	.LCPI36_2(%rip), %xmm7
	pmulhuw	%xmm7, %xmm11
	pmulhuw	%xmm7, %xmm10
	psrlw	$8, %xmm4
	psrlw	$8, %xmm3
	pmullw	%xmm0, %xmm3
	pmullw	%xmm0, %xmm4
	paddw	%xmm6, %xmm4
	paddw	%xmm6, %xmm3
	pmulhuw	%xmm7, %xmm3
	pmulhuw	%xmm7, %xmm4
	psllw	$8, %xmm4
	psllw	$8, %xmm3
	por	%xmm10, %xmm3
	por	%xmm11, %xmm4
	movdqu	(%rcx), %xmm8
	movdqu	16(%rcx), %xmm9
	movdqa	.LCPI36_3(%rip), %xmm15
	movdqa	%xmm8, %xmm2
	pshufb	%xmm15, %xmm2
	movdqa	%xmm9, %xmm14
	pshufb	%xmm15, %xmm14
	pcmpeqd	%xmm13, %xmm13
	movdqa	%xmm4, %xmm12
	pxor	%xmm13, %xmm12
	pxor	%xmm3, %xmm13
	pshufb	%xmm15, %xmm13
	pshufb	%xmm15, %xmm12
	pand	%xmm5, %xmm10
	pand	%xmm5, %xmm11
	pmullw	%xmm14, %xmm11
	pmullw	%xmm2, %xmm10
	paddw	%xmm6, %xmm10
	paddw	%xmm6, %xmm11
	pmulhuw	%xmm7, %xmm11
	pmulhuw	%xmm7, %xmm10
	psrlw	$8, %xmm4
	psrlw	$8, %xmm3
	pmullw	%xmm2, %xmm3
	pmullw	%xmm14, %xmm4
	paddw	%xmm6, %xmm4
	paddw	%xmm6, %xmm3
	pmulhuw	%xmm7, %xmm3
	pmulhuw	%xmm7, %xmm4
	psllw	$8, %xmm4
	por	%xmm11, %xmm4
	psllw	$8, %xmm3
	por	%xmm10, %xmm3
	movdqa	%xmm8, %xmm2
	pand	%xmm5, %xmm2
	pand	%xmm9, %xmm5
	pmullw	%xmm12, %xmm5
	pmullw	%xmm13, %xmm2
	paddw	%xmm6, %xmm2
	paddw	%xmm6, %xmm5
	pmulhuw	%xmm7, %xmm5
	pmulhuw	%xmm7, %xmm2
	psrlw	$8, %xmm9
	psrlw	$8, %xmm8
	pmullw	%xmm13, %xmm8
	pmullw	%xmm12, %xmm9
	movdqa	96(%rsp), %xmm12
	paddw	%xmm6, %xmm9
	paddw	%xmm6, %xmm8
	pmulhuw	%xmm7, %xmm8
	pmulhuw	%xmm7, %xmm9
	psllw	$8, %xmm9
	por	%xmm5, %xmm9
	paddusb	%xmm4, %xmm9
	psllw	$8, %xmm8
	por	%xmm2, %xmm8
	paddusb	%xmm3, %xmm8
	movdqu	%xmm8, (%rcx)
	movdqu	%xmm9, 16(%rcx)
.LBB36_11:
	testb	$4, %r14b
	je	.LBB36_14
	movq	(%rsp), %rax
	movl	(%r11,%rax), %eax
	testl	%eax, %eax
	je	.LBB36_14
	movd	%eax, %xmm3
	punpcklbw	%xmm3, %xmm3
	punpcklwd	%xmm3, %xmm3
	movdqa	.LCPI36_0(%rip), %xmm2
	movdqa	%xmm3, %xmm9
	pand	%xmm2, %xmm9
	pmullw	%xmm1, %xmm9
	movdqa	.LCPI36_1(%rip), %xmm4
	paddw	%xmm4, %xmm9
	movdqa	.LCPI36_2(%rip), %xmm5
	pmulhuw	%xmm5, %xmm9
	psrlw	$8, %xmm3
	pmullw	%xmm0, %xmm3
	paddw	%xmm4, %xmm3
	pmulhuw	%xmm5, %xmm3
	psllw	$8, %xmm3
	por	%xmm9, %xmm3
	movq	(%rsp), %rax
	movdqu	(%rcx,%rax,4), %xmm8
	pcmpeqd	%xmm6, %xmm6
	movdqa	.LCPI36_4(%rip), %xmm10
	movdqa	%xmm8, %xmm7
	pshufb	%xmm10, %xmm7
	pand	%xmm2, %xmm9
	movdqa	%xmm7, %xmm11
	pand	%xmm2, %xmm11
	pmullw	%xmm9, %xmm11
	paddw	%xmm4, %xmm11
	pmulhuw	%xmm5, %xmm11
	movdqa	%xmm3, %xmm9
	psrlw	$8, %xmm9
	psrlw	$8, %xmm7
	pmullw	%xmm9, %xmm7
	paddw	%xmm4, %xmm7
	pmulhuw	%xmm5, %xmm7
	psllw	$8, %xmm7
	por	%xmm11, %xmm7
	pshufb	%xmm10, %xmm3
	pxor	%xmm3, %xmm6
	movdqa	%xmm8, %xmm9
	pand	%xmm2, %xmm9
	pandn	%xmm2, %xmm3
	pmullw	%xmm9, %xmm3
	paddw	%xmm4, %xmm3
	pmulhuw	%xmm5, %xmm3
	psrlw	$8, %xmm8
	psrlw	$8, %xmm6
	pmullw	%xmm8, %xmm6
	paddw	%xmm4, %xmm6
	pmulhuw	%xmm5, %xmm6
	psllw	$8, %xmm6
	por	%xmm3, %xmm6
	paddusb	%xmm7, %xmm6
	movdqu	%xmm6, (%rcx,%rax,4)
.LBB36_14:
	cmpl	%r12d, 40(%rsp)
	je	.LBB36_17
	xorl	%ecx, %ecx
	movq	40(%rsp), %r11
	.p2align	4
.LBB36_16:
	movl	(%rdx,%rcx,4), %eax
	movzbl	%ah, %edi
	movzbl	%al, %r10d
	movd	%eax, %xmm3
	shrl	$16, %eax
	movzbl	(%rbx,%rcx), %r15d
	movd	%r15d, %xmm2
	pshuflw	$0, %xmm2, %xmm4
	pmullw	%xmm12, %xmm4
	movzbl	%al, %eax
	movdqa	.LCPI36_5(%rip), %xmm2
	paddw	%xmm2, %xmm4
	movdqa	%xmm4, %xmm5
	psrlw	$8, %xmm5
	paddw	%xmm4, %xmm5
	pextrb	$1, %xmm5, %r15d
	psrlw	$8, %xmm5
	xorl	$255, %r15d
	psrld	$24, %xmm3
	pshuflw	$0, %xmm3, %xmm3
	pmullw	%xmm3, %xmm5
	paddw	%xmm2, %xmm5
	movdqa	%xmm5, %xmm4
	psrlw	$8, %xmm4
	paddw	%xmm5, %xmm4
	psrlw	$8, %xmm4
	packuswb	%xmm4, %xmm4
	movd	%r15d, %xmm5
	pinsrw	$1, %eax, %xmm3
	pinsrw	$2, %edi, %xmm3
	pinsrw	$3, %r10d, %xmm3
	pshuflw	$0, %xmm5, %xmm5
	pmullw	%xmm5, %xmm3
	paddw	%xmm2, %xmm3
	movdqa	%xmm3, %xmm2
	psrlw	$8, %xmm2
	paddw	%xmm3, %xmm2
	psrlw	$8, %xmm2
	packuswb	%xmm2, %xmm2
	paddusb	%xmm4, %xmm2
	pmovzxbd	%xmm2, %xmm2
	pmulld	.LCPI36_6(%rip), %xmm2
	pshufd	$238, %xmm2, %xmm3
	por	%xmm2, %xmm3
	pshufd	$85, %xmm3, %xmm2
	por	%xmm3, %xmm2
	movd	%xmm2, (%rdx,%rcx,4)
	incq	%r11
	incq	%rcx
	cmpq	%r12, %r11
	jb	.LBB36_16
	jmp	.LBB36_17
.LBB36_18:
	movaps	112(%rsp), %xmm6
	movaps	128(%rsp), %xmm7
	movaps	144(%rsp), %xmm8
	movaps	160(%rsp), %xmm9
	movaps	176(%rsp), %xmm10
	movaps	192(%rsp), %xmm11
	movaps	208(%rsp), %xmm12
	movaps	224(%rsp), %xmm13
	movaps	240(%rsp), %xmm14
	movaps	256(%rsp), %xmm15
	addq	$280, %rsp
	popq	%rbx
	popq	%rbp
	popq	%rdi
	popq	%rsi
	popq	%r12
	popq	%r13
	popq	%r14
	popq	%r15
	retq

	.section	.rdata,"dr"
	.p2align	4, 0x0
.LCPI37_0:
	.byte	255
	.byte	0
	.byte	255
	.byte	0
	.byte	255
	.byte	0
	.byte	255
	.byte	0
	.byte	255
	.byte	0
	.byte	255
	.byte	0
	.byte	255
	.byte	0
	.byte	255
	.byte	0
.LCPI37_1:
	.short	128
	.short	128
	.short	128
	.short	128
	.short	128
	.short	128
	.short	128
	.short	128
.LCPI37_2:
	.zero	16,1
.LCPI37_3:
	.byte	3
	.byte	128
	.byte	3
	.byte	128
	.byte	7
	.byte	128
	.byte	7
	.byte	128
	.byte	11
	.byte	128
	.byte	11
	.byte	128
	.byte	15
	.byte	128
	.byte	15
	.byte	128
.LCPI37_4:
	.byte	3
	.byte	3
	.byte	3
	.byte	3
	.byte	7
	.byte	7
	.byte	7
	.byte	7
	.byte	11
	.byte	11
	.byte	11
	.byte	11
	.byte	15
	.byte	15
	.byte	15
	.byte	15
.LCPI37_5:
	.short	128
	.short	128
	.short	128
	.short	128
	.zero	2
	.zero	2
	.zero	2
	.zero	2
.LCPI37_6:
	.long	16777216
	.long	65536
	.long	256
	.long	1
	.section	".text$pix_raster::view::blit_overlap::<#8280f2e27f55061f>","xr"
	.p2align	4
"pix_raster::view::blit_overlap::<#8280f2e27f55061f>":
	pushq	%r15
	pushq	%r14
	pushq	%r13
	pushq	%r12
	pushq	%rsi
	pushq	%rdi
	pushq	%rbp
	pushq	%rbx
	subq	$296, %rsp
	movdqa	%xmm15, 272(%rsp)
	movdqa	%xmm14, 256(%rsp)
	movdqa	%xmm13, 240(%rsp)
	movdqa	%xmm12, 224(%rsp)
	movdqa	%xmm11, 208(%rsp)
	movdqa	%xmm10, 192(%rsp)
	movdqa	%xmm9, 176(%rsp)
	movdqa	%xmm8, 160(%rsp)
	movdqa	%xmm7, 144(%rsp)
	movdqa	%xmm6, 128(%rsp)
	movq	%r9, 32(%rsp)
	movq	%r8, 24(%rsp)
	movq	%rdx, 16(%rsp)
	movq	%rcx, 8(%rsp)
	movq	400(%rsp), %rcx
	movq	24(%rcx), %r15
	movq	32(%rcx), %rax
	movq	%rax, 104(%rsp)
	cmpq	%rax, %r15
	jae	.LBB37_14
	movq	(%rcx), %rbp
	movq	16(%rcx), %rbx
	movq	%rbx, (%rsp)
	movq	8(%rcx), %r14
	movq	40(%rcx), %rdx
	subq	%rbp, %r14
	movq	%rdx, %rax
	subq	%r15, %rax
	movq	%rax, 64(%rsp)
	movq	%r14, %rax
	shrq	$4, %rax
	movq	%rax, 40(%rsp)
	movzbl	408(%rsp), %ecx
	movd	%ecx, %xmm1
	pxor	%xmm0, %xmm0
	pshuflw	$0, %xmm1, %xmm12
	pshufb	%xmm0, %xmm1
	movdqa	.LCPI37_0(%rip), %xmm2
	pand	%xmm1, %xmm2
	psrlw	$8, %xmm1
	movq	%r14, %rax
	andq	$-16, %rax
	movq	%rax, 96(%rsp)
	leaq	(,%rax,4), %rax
	movl	%r14d, %r13d
	andl	$15, %r13d
	leal	(,%r14,4), %ecx
	movl	%ecx, %r8d
	andl	$32, %r8d
	movq	%r8, 48(%rsp)
	movl	%r14d, %edi
	andl	$12, %edi
	movq	%r15, %r8
	movq	16(%rsp), %r10
	imulq	%r10, %r8
	leaq	(,%rbp,4), %r9
	leaq	(%r9,%r8,4), %rsi
	movq	8(%rsp), %r12
	addq	%r12, %rsi
	movq	32(%rsp), %r11
	imulq	%r11, %rdx
	leaq	(,%rbx,4), %r9
	leaq	(%r9,%rdx,4), %rbx
	leaq	(%rax,%rdx,4), %rdx
	andl	$48, %ecx
	addq	%rcx, %rdx
	movq	%rax, 56(%rsp)
	leaq	(%rax,%r8,4), %r8
	addq	%rcx, %r8
	leaq	(,%r10,4), %rax
	movq	%rax, 88(%rsp)
	movq	24(%rsp), %rcx
	addq	%rcx, %rbx
	movq	(%rsp), %rax
	leaq	(%rdx,%rax,4), %r9
	addq	%rcx, %r9
	movq	%rbp, 72(%rsp)
	leaq	(%r8,%rbp,4), %r8
	addq	%r12, %r8
	leaq	(,%r11,4), %rax
	movq	%rax, 80(%rsp)
	movdqa	%xmm12, 112(%rsp)
	jmp	.LBB37_2
	.p2align	4
.LBB37_13:
	incq	%r15
	movq	88(%rsp), %rax
	addq	%rax, %rsi
	movq	80(%rsp), %rcx
	addq	%rcx, %rbx
	addq	%rcx, %r9
	addq	%rax, %r8
	cmpq	104(%rsp), %r15
	je	.LBB37_14
.LBB37_2:
	cmpq	$0, 40(%rsp)
	je	.LBB37_5
	movl	$32, %ebp
	movq	40(%rsp), %r12
	.p2align	4
.LBB37_4:
	movdqu	-32(%rbx,%rbp), %xmm10
	movdqu	-16(%rbx,%rbp), %xmm11
	movdqa	.LCPI37_0(%rip), %xmm3
	movdqa	%xmm10, %xmm14
	pand	%xmm3, %xmm14
	movdqa	%xmm11, %xmm8
	pand	%xmm3, %xmm8
	pmullw	%xmm2, %xmm8
	pmullw	%xmm2, %xmm14
	movdqa	.LCPI37_1(%rip), %xmm5
	paddw	%xmm5, %xmm14
	paddw	%xmm5, %xmm8
	movdqa	.LCPI37_2(%rip), %xmm4
	pmulhuw	%xmm4, %xmm8
	pmulhuw	%xmm4, %xmm14
	psrlw	$8, %xmm11
	psrlw	$8, %xmm10
	pmullw	%xmm1, %xmm10
	pmullw	%xmm1, %xmm11
	paddw	%xmm5, %xmm11
	paddw	%xmm5, %xmm10
	pmulhuw	%xmm4, %xmm10
	pmulhuw	%xmm4, %xmm11
	psllw	$8, %xmm11
	psllw	$8, %xmm10
	por	%xmm14, %xmm10
	por	%xmm8, %xmm11
	movdqu	-32(%rsi,%rbp), %xmm12
	movdqu	-16(%rsi,%rbp), %xmm13
	movdqu	(%rsi,%rbp), %xmm6
	movdqa	.LCPI37_3(%rip), %xmm9
	movdqa	%xmm12, %xmm0
	pshufb	%xmm9, %xmm0
	movdqa	%xmm13, %xmm7
	pshufb	%xmm9, %xmm7
	movdqa	%xmm10, %xmm15
	pand	%xmm3, %xmm14
	pmullw	%xmm0, %xmm14
	psrlw	$8, %xmm10
	pmullw	%xmm0, %xmm10
	movdqa	%xmm11, %xmm0
	pand	%xmm3, %xmm8
	pmullw	%xmm7, %xmm8
	psrlw	$8, %xmm11
	pmullw	%xmm7, %xmm11
	movdqu	16(%rsi,%rbp), %xmm7
	paddw	%xmm5, %xmm8
	pmulhuw	%xmm4, %xmm8
	paddw	%xmm5, %xmm11
	pmulhuw	%xmm4, %xmm11
	psllw	$8, %xmm11
	por	%xmm8, %xmm11
	pcmpeqd	%xmm8, %xmm8
	pxor	%xmm8, %xmm0
	pxor	%xmm8, %xmm15
	pshufb	%xmm9, %xmm15
	pshufb	%xmm9, %xmm0
	paddw	%xmm5, %xmm14
	pmulhuw	%xmm4, %xmm14
	paddw	%xmm5, %xmm10
	pmulhuw	%xmm4, %xmm10
	psllw	$8, %xmm10
	por	%xmm14, %xmm10
	movdqa	%xmm12, %xmm14
	pand	%xmm3, %xmm14
	pmullw	%xmm15, %xmm14
	psrlw	$8, %xmm12
	pmullw	%xmm15, %xmm12
	movdqa	%xmm13, %xmm15
	pand	%xmm3, %xmm15
	pmullw	%xmm0, %xmm15
	paddw	%xmm5, %xmm14
	paddw	%xmm5, %xmm15
	pmulhuw	%xmm4, %xmm15
	pmulhuw	%xmm4, %xmm14
	psrlw	$8, %xmm13
	pmullw	%xmm0, %xmm13
	paddw	%xmm5, %xmm13
	paddw	%xmm5, %xmm12
	pmulhuw	%xmm4, %xmm12
	pmulhuw	%xmm4, %xmm13
	psllw	$8, %xmm13
	por	%xmm15, %xmm13
	paddusb	%xmm11, %xmm13
	psllw	$8, %xmm12
	por	%xmm14, %xmm12
	paddusb	%xmm10, %xmm12
	movdqu	%xmm12, -32(%rsi,%rbp)
	movdqu	%xmm13, -16(%rsi,%rbp)
	movdqu	(%rbx,%rbp), %xmm10
	movdqu	16(%rbx,%rbp), %xmm11
	movdqa	%xmm10, %xmm12
	pand	%xmm3, %xmm12
	movdqa	%xmm11, %xmm13
	pand	%xmm3, %xmm13
	pmullw	%xmm2, %xmm13
	pmullw	%xmm2, %xmm12
	paddw	%xmm5, %xmm12
	paddw	%xmm5, %xmm13
	pmulhuw	%xmm4, %xmm13
	pmulhuw	%xmm4, %xmm12
	psrlw	$8, %xmm11
	psrlw	$8, %xmm10
	pmullw	%xmm1, %xmm10
	pmullw	%xmm1, %xmm11
	paddw	%xmm5, %xmm11
	paddw	%xmm5, %xmm10
	pmulhuw	%xmm4, %xmm10
	pmulhuw	%xmm4, %xmm11
	psllw	$8, %xmm11
	psllw	$8, %xmm10
	por	%xmm12, %xmm10
	por	%xmm13, %xmm11
	movdqa	%xmm6, %xmm15
	pshufb	%xmm9, %xmm15
	movdqa	%xmm7, %xmm0
	pshufb	%xmm9, %xmm0
	movdqa	%xmm11, %xmm14
	pxor	%xmm8, %xmm14
	pxor	%xmm10, %xmm8
	pshufb	%xmm9, %xmm8
	pshufb	%xmm9, %xmm14
	pand	%xmm3, %xmm12
	pmullw	%xmm15, %xmm12
	psrlw	$8, %xmm10
	pmullw	%xmm15, %xmm10
	pand	%xmm3, %xmm13
	pmullw	%xmm0, %xmm13
	psrlw	$8, %xmm11
	pmullw	%xmm0, %xmm11
	paddw	%xmm5, %xmm13
	pmulhuw	%xmm4, %xmm13
	paddw	%xmm5, %xmm11
	pmulhuw	%xmm4, %xmm11
	psllw	$8, %xmm11
	por	%xmm13, %xmm11
	paddw	%xmm5, %xmm12
	pmulhuw	%xmm4, %xmm12
	paddw	%xmm5, %xmm10
	pmulhuw	%xmm4, %xmm10
	psllw	$8, %xmm10
	por	%xmm12, %xmm10
	movdqa	%xmm6, %xmm0
	pand	%xmm3, %xmm0
	pmullw	%xmm8, %xmm0
	psrlw	$8, %xmm6
	pmullw	%xmm8, %xmm6
	pand	%xmm7, %xmm3
	pmullw	%xmm14, %xmm3
	psrlw	$8, %xmm7
	pmullw	%xmm14, %xmm7
	paddw	%xmm5, %xmm0
	paddw	%xmm5, %xmm3
	paddw	%xmm5, %xmm7
	paddw	%xmm5, %xmm6
	pmulhuw	%xmm4, %xmm3
	pmulhuw	%xmm4, %xmm0
	pmulhuw	%xmm4, %xmm6
	pmulhuw	%xmm4, %xmm7
	psllw	$8, %xmm7
	por	%xmm3, %xmm7
	paddusb	%xmm11, %xmm7
	psllw	$8, %xmm6
	por	%xmm0, %xmm6
	paddusb	%xmm10, %xmm6
	movdqu	%xmm6, (%rsi,%rbp)
	movdqu	%xmm7, 16(%rsi,%rbp)
	addq	$64, %rbp
	decq	%r12
	jne	.LBB37_4
.LBB37_5:
	cmpq	%r14, 96(%rsp)
	movdqa	112(%rsp), %xmm12
	je	.LBB37_13
	movq	%r15, %rcx
	imulq	16(%rsp), %rcx
	addq	72(%rsp), %rcx
	movq	64(%rsp), %rax
	leaq	(%rax,%r15), %rdx
	imulq	32(%rsp), %rdx
	addq	(%rsp), %rdx
	movq	8(%rsp), %rax
	leaq	(%rax,%rcx,4), %r12
	movq	24(%rsp), %rax
	leaq	(%rax,%rdx,4), %rbp
	movq	56(%rsp), %rax
	addq	%rax, %r12
	addq	%rax, %rbp
	testb	$8, %r14b
	jne	.LBB37_7
	testb	$4, %r14b
	jne	.LBB37_9
.LBB37_10:
	cmpl	%r13d, %edi
	je	.LBB37_13
	jmp	.LBB37_11
	.p2align	4
.LBB37_7:
	movdqu	(%rbp), %xmm3
	movdqu	16(%rbp), %xmm4
	movdqa	.LCPI37_0(%rip), %xmm5
	movdqa	%xmm3, %xmm10
	pand	%xmm5, %xmm10
	movdqa	%xmm4, %xmm11
	pand	%xmm5, %xmm11
	pmullw	%xmm2, %xmm11
	pmullw	%xmm2, %xmm10
	movdqa	.LCPI37_1(%rip), %xmm6
	paddw	%xmm6, %xmm10
	paddw	%xmm6, %xmm11
	movdqa	.LCPI37_2(%rip), %xmm7
	pmulhuw	%xmm7, %xmm11
	pmulhuw	%xmm7, %xmm10
	psrlw	$8, %xmm4
	psrlw	$8, %xmm3
	pmullw	%xmm1, %xmm3
	pmullw	%xmm1, %xmm4
	paddw	%xmm6, %xmm4
	paddw	%xmm6, %xmm3
	pmulhuw	%xmm7, %xmm3
	pmulhuw	%xmm7, %xmm4
	psllw	$8, %xmm4
	psllw	$8, %xmm3
	por	%xmm10, %xmm3
	por	%xmm11, %xmm4
	movdqu	(%r12), %xmm8
	movdqu	16(%r12), %xmm9
	movdqa	.LCPI37_3(%rip), %xmm15
	movdqa	%xmm8, %xmm0
	pshufb	%xmm15, %xmm0
	movdqa	%xmm9, %xmm14
	pshufb	%xmm15, %xmm14
	pcmpeqd	%xmm13, %xmm13
	movdqa	%xmm4, %xmm12
	pxor	%xmm13, %xmm12
	pxor	%xmm3, %xmm13
	pshufb	%xmm15, %xmm13
	pshufb	%xmm15, %xmm12
	pand	%xmm5, %xmm10
	pand	%xmm5, %xmm11
	pmullw	%xmm14, %xmm11
	pmullw	%xmm0, %xmm10
	paddw	%xmm6, %xmm10
	paddw	%xmm6, %xmm11
	pmulhuw	%xmm7, %xmm11
	pmulhuw	%xmm7, %xmm10
	psrlw	$8, %xmm4
	psrlw	$8, %xmm3
	pmullw	%xmm0, %xmm3
	pmullw	%xmm14, %xmm4
	paddw	%xmm6, %xmm4
	paddw	%xmm6, %xmm3
	pmulhuw	%xmm7, %xmm3
	pmulhuw	%xmm7, %xmm4
	psllw	$8, %xmm4
	por	%xmm11, %xmm4
	psllw	$8, %xmm3
	por	%xmm10, %xmm3
	movdqa	%xmm8, %xmm0
	pand	%xmm5, %xmm0
	pand	%xmm9, %xmm5
	pmullw	%xmm12, %xmm5
	pmullw	%xmm13, %xmm0
	paddw	%xmm6, %xmm0
	paddw	%xmm6, %xmm5
	pmulhuw	%xmm7, %xmm5
	pmulhuw	%xmm7, %xmm0
	psrlw	$8, %xmm9
	psrlw	$8, %xmm8
	pmullw	%xmm13, %xmm8
	pmullw	%xmm12, %xmm9
	movdqa	112(%rsp), %xmm12
	paddw	%xmm6, %xmm9
	paddw	%xmm6, %xmm8
	pmulhuw	%xmm7, %xmm8
	pmulhuw	%xmm7, %xmm9
	psllw	$8, %xmm9
	por	%xmm5, %xmm9
	paddusb	%xmm4, %xmm9
	psllw	$8, %xmm8
	por	%xmm0, %xmm8
	paddusb	%xmm3, %xmm8
	movdqu	%xmm8, (%r12)
	movdqu	%xmm9, 16(%r12)
	testb	$4, %r14b
	je	.LBB37_10
.LBB37_9:
	movq	48(%rsp), %rax
	movdqu	(%rbp,%rax), %xmm3
	movdqa	.LCPI37_0(%rip), %xmm0
	movdqa	%xmm3, %xmm9
	pand	%xmm0, %xmm9
	pmullw	%xmm2, %xmm9
	movdqa	.LCPI37_1(%rip), %xmm4
	paddw	%xmm4, %xmm9
	movdqa	.LCPI37_2(%rip), %xmm5
	pmulhuw	%xmm5, %xmm9
	psrlw	$8, %xmm3
	pmullw	%xmm1, %xmm3
	paddw	%xmm4, %xmm3
	pmulhuw	%xmm5, %xmm3
	psllw	$8, %xmm3
	por	%xmm9, %xmm3
	movdqu	(%r12,%rax), %xmm8
	pcmpeqd	%xmm6, %xmm6
	movdqa	.LCPI37_4(%rip), %xmm10
	movdqa	%xmm8, %xmm7
	pshufb	%xmm10, %xmm7
	pand	%xmm0, %xmm9
	movdqa	%xmm7, %xmm11
	pand	%xmm0, %xmm11
	pmullw	%xmm9, %xmm11
	paddw	%xmm4, %xmm11
	pmulhuw	%xmm5, %xmm11
	movdqa	%xmm3, %xmm9
	psrlw	$8, %xmm9
	psrlw	$8, %xmm7
	pmullw	%xmm9, %xmm7
	paddw	%xmm4, %xmm7
	pmulhuw	%xmm5, %xmm7
	psllw	$8, %xmm7
	por	%xmm11, %xmm7
	pshufb	%xmm10, %xmm3
	pxor	%xmm3, %xmm6
	movdqa	%xmm8, %xmm9
	pand	%xmm0, %xmm9
	pandn	%xmm0, %xmm3
	pmullw	%xmm9, %xmm3
	paddw	%xmm4, %xmm3
	pmulhuw	%xmm5, %xmm3
	psrlw	$8, %xmm8
	psrlw	$8, %xmm6
	pmullw	%xmm8, %xmm6
	paddw	%xmm4, %xmm6
	pmulhuw	%xmm5, %xmm6
	psllw	$8, %xmm6
	por	%xmm3, %xmm6
	paddusb	%xmm7, %xmm6
	movdqu	%xmm6, (%r12,%rax)
	cmpl	%r13d, %edi
	je	.LBB37_13
.LBB37_11:
	xorl	%r12d, %r12d
	.p2align	4
.LBB37_12:
	movl	(%r9,%r12,4), %edx
	movl	(%r8,%r12,4), %ecx
	movzbl	%ch, %ebp
	movzbl	%cl, %r11d
	movd	%ecx, %xmm3
	movzbl	%dh, %eax
	movzbl	%dl, %r10d
	movd	%edx, %xmm4
	shrl	$16, %edx
	movzbl	%dl, %edx
	psrld	$24, %xmm4
	pinsrw	$1, %edx, %xmm4
	pinsrw	$2, %eax, %xmm4
	pinsrw	$3, %r10d, %xmm4
	shrl	$16, %ecx
	pmullw	%xmm12, %xmm4
	movzbl	%cl, %eax
	movdqa	.LCPI37_5(%rip), %xmm0
	paddw	%xmm0, %xmm4
	movdqa	%xmm4, %xmm5
	psrlw	$8, %xmm5
	paddw	%xmm4, %xmm5
	pextrb	$1, %xmm5, %ecx
	psrlw	$8, %xmm5
	xorl	$255, %ecx
	psrld	$24, %xmm3
	pshuflw	$0, %xmm3, %xmm3
	pmullw	%xmm3, %xmm5
	paddw	%xmm0, %xmm5
	movdqa	%xmm5, %xmm4
	psrlw	$8, %xmm4
	paddw	%xmm5, %xmm4
	psrlw	$8, %xmm4
	packuswb	%xmm4, %xmm4
	movd	%ecx, %xmm5
	pinsrw	$1, %eax, %xmm3
	pinsrw	$2, %ebp, %xmm3
	pinsrw	$3, %r11d, %xmm3
	pshuflw	$0, %xmm5, %xmm5
	pmullw	%xmm5, %xmm3
	paddw	%xmm0, %xmm3
	movdqa	%xmm3, %xmm0
	psrlw	$8, %xmm0
	paddw	%xmm3, %xmm0
	psrlw	$8, %xmm0
	packuswb	%xmm0, %xmm0
	paddusb	%xmm4, %xmm0
	pmovzxbd	%xmm0, %xmm0
	pmulld	.LCPI37_6(%rip), %xmm0
	pshufd	$238, %xmm0, %xmm3
	por	%xmm0, %xmm3
	pshufd	$85, %xmm3, %xmm0
	por	%xmm3, %xmm0
	movd	%xmm0, (%r8,%r12,4)
	leaq	(%rdi,%r12), %rax
	incq	%rax
	incq	%r12
	cmpq	%r13, %rax
	jb	.LBB37_12
	jmp	.LBB37_13
.LBB37_14:
	movaps	128(%rsp), %xmm6
	movaps	144(%rsp), %xmm7
	movaps	160(%rsp), %xmm8
	movaps	176(%rsp), %xmm9
	movaps	192(%rsp), %xmm10
	movaps	208(%rsp), %xmm11
	movaps	224(%rsp), %xmm12
	movaps	240(%rsp), %xmm13
	movaps	256(%rsp), %xmm14
	movaps	272(%rsp), %xmm15
	addq	$296, %rsp
	popq	%rbx
	popq	%rbp
	popq	%rdi
	popq	%rsi
	popq	%r12
	popq	%r13
	popq	%r14
	popq	%r15
	retq

	.section	.rdata,"dr"
	.p2align	4, 0x0
.LCPI38_0:
	.byte	3
	.byte	128
	.byte	3
	.byte	128
	.byte	7
	.byte	128
	.byte	7
	.byte	128
	.byte	11
	.byte	128
	.byte	11
	.byte	128
	.byte	15
	.byte	128
	.byte	15
	.byte	128
.LCPI38_1:
	.byte	255
	.byte	0
	.byte	255
	.byte	0
	.byte	255
	.byte	0
	.byte	255
	.byte	0
	.byte	255
	.byte	0
	.byte	255
	.byte	0
	.byte	255
	.byte	0
	.byte	255
	.byte	0
.LCPI38_2:
	.short	128
	.short	128
	.short	128
	.short	128
	.short	128
	.short	128
	.short	128
	.short	128
.LCPI38_3:
	.zero	16,1
.LCPI38_4:
	.byte	3
	.byte	3
	.byte	3
	.byte	3
	.byte	7
	.byte	7
	.byte	7
	.byte	7
	.byte	11
	.byte	11
	.byte	11
	.byte	11
	.byte	15
	.byte	15
	.byte	15
	.byte	15
.LCPI38_5:
	.short	128
	.short	128
	.short	128
	.short	128
	.zero	2
	.zero	2
	.zero	2
	.zero	2
.LCPI38_6:
	.long	16777216
	.long	65536
	.long	256
	.long	1
	.section	".text$pix_raster::view::blit_overlap::<#168afd1b974e4a32>","xr"
	.p2align	4
"pix_raster::view::blit_overlap::<#168afd1b974e4a32>":
	pushq	%r15
	pushq	%r14
	pushq	%r13
	pushq	%r12
	pushq	%rsi
	pushq	%rdi
	pushq	%rbp
	pushq	%rbx
	subq	$248, %rsp
	movdqa	%xmm12, 224(%rsp)
	movdqa	%xmm11, 208(%rsp)
	movdqa	%xmm10, 192(%rsp)
	movdqa	%xmm9, 176(%rsp)
	movdqa	%xmm8, 160(%rsp)
	movdqa	%xmm7, 144(%rsp)
	movdqa	%xmm6, 128(%rsp)
	movq	%r9, 40(%rsp)
	movq	%r8, 32(%rsp)
	movq	%rdx, 24(%rsp)
	movq	%rcx, 16(%rsp)
	movq	352(%rsp), %rax
	movq	24(%rax), %r14
	movq	32(%rax), %rcx
	movq	%rcx, 120(%rsp)
	cmpq	%rcx, %r14
	jae	.LBB38_14
	movq	(%rax), %r15
	movq	16(%rax), %r12
	movq	8(%rax), %rdi
	movq	40(%rax), %rcx
	subq	%r15, %rdi
	movq	%rcx, %rax
	subq	%r14, %rax
	movq	%rax, 72(%rsp)
	movq	%rdi, %rax
	shrq	$4, %rax
	movq	%rax, 48(%rsp)
	movq	%rdi, %rax
	andq	$-16, %rax
	movq	%rax, 112(%rsp)
	leaq	(,%rax,4), %rbp
	movl	%edi, %r13d
	andl	$15, %r13d
	leal	(,%rdi,4), %edx
	movl	%edx, %eax
	andl	$32, %eax
	movq	%rax, 56(%rsp)
	movq	%rdi, 8(%rsp)
	andl	$12, %edi
	movq	%r14, %rax
	movq	24(%rsp), %r9
	imulq	%r9, %rax
	leaq	(,%r15,4), %r8
	leaq	(%r8,%rax,4), %rsi
	movq	16(%rsp), %r11
	addq	%r11, %rsi
	movq	40(%rsp), %r10
	imulq	%r10, %rcx
	leaq	(,%r12,4), %r8
	leaq	(%r8,%rcx,4), %rbx
	leaq	(,%rcx,4), %rcx
	addq	%rbp, %rcx
	andl	$48, %edx
	addq	%rdx, %rcx
	movq	%rbp, 64(%rsp)
	leaq	(,%rax,4), %rax
	addq	%rbp, %rax
	addq	%rdx, %rax
	leaq	(,%r9,4), %rdx
	movq	%rdx, 104(%rsp)
	movq	32(%rsp), %rdx
	addq	%rdx, %rbx
	movq	%r12, 80(%rsp)
	leaq	(%rcx,%r12,4), %r9
	addq	%rdx, %r9
	movq	%r15, 88(%rsp)
	leaq	(%rax,%r15,4), %r8
	addq	%r11, %r8
	leaq	(,%r10,4), %rax
	movq	%rax, 96(%rsp)
	jmp	.LBB38_2
	.p2align	4
.LBB38_13:
	incq	%r14
	movq	104(%rsp), %rax
	addq	%rax, %rsi
	movq	96(%rsp), %rcx
	addq	%rcx, %rbx
	addq	%rcx, %r9
	addq	%rax, %r8
	cmpq	120(%rsp), %r14
	je	.LBB38_14
.LBB38_2:
	cmpq	$0, 48(%rsp)
	je	.LBB38_5
	movl	$32, %ecx
	movq	48(%rsp), %r12
	.p2align	4
.LBB38_4:
	movdqu	-32(%rbx,%rcx), %xmm7
	movdqu	-16(%rbx,%rcx), %xmm10
	pcmpeqd	%xmm3, %xmm3
	movdqu	-32(%rsi,%rcx), %xmm8
	movdqu	-16(%rsi,%rcx), %xmm9
	movdqa	%xmm9, %xmm1
	pxor	%xmm3, %xmm1
	movdqa	%xmm8, %xmm2
	pxor	%xmm3, %xmm2
	movdqa	.LCPI38_0(%rip), %xmm5
	pshufb	%xmm5, %xmm2
	pshufb	%xmm5, %xmm1
	movdqa	%xmm7, %xmm6
	movdqa	%xmm10, %xmm4
	movdqa	.LCPI38_1(%rip), %xmm0
	movdqa	%xmm7, %xmm11
	pand	%xmm0, %xmm11
	movdqa	%xmm10, %xmm12
	pand	%xmm0, %xmm12
	pmullw	%xmm1, %xmm12
	pmullw	%xmm2, %xmm11
	psrlw	$8, %xmm7
	pmullw	%xmm2, %xmm7
	movdqa	.LCPI38_2(%rip), %xmm2
	paddw	%xmm2, %xmm12
	psrlw	$8, %xmm10
	pmullw	%xmm1, %xmm10
	movdqa	.LCPI38_3(%rip), %xmm1
	pmulhuw	%xmm1, %xmm12
	paddw	%xmm2, %xmm10
	pmulhuw	%xmm1, %xmm10
	psllw	$8, %xmm10
	por	%xmm12, %xmm10
	pshufb	%xmm5, %xmm6
	pshufb	%xmm5, %xmm4
	paddw	%xmm2, %xmm11
	pmulhuw	%xmm1, %xmm11
	paddw	%xmm2, %xmm7
	pmulhuw	%xmm1, %xmm7
	psllw	$8, %xmm7
	por	%xmm11, %xmm7
	movdqa	%xmm8, %xmm11
	pand	%xmm0, %xmm11
	pmullw	%xmm6, %xmm11
	psrlw	$8, %xmm8
	pmullw	%xmm6, %xmm8
	movdqa	%xmm9, %xmm6
	pand	%xmm0, %xmm6
	pmullw	%xmm4, %xmm6
	psrlw	$8, %xmm9
	pmullw	%xmm4, %xmm9
	movdqu	(%rsi,%rcx), %xmm4
	paddw	%xmm2, %xmm6
	pmulhuw	%xmm1, %xmm6
	paddw	%xmm2, %xmm9
	pmulhuw	%xmm1, %xmm9
	psllw	$8, %xmm9
	por	%xmm6, %xmm9
	movdqu	16(%rsi,%rcx), %xmm6
	paddw	%xmm2, %xmm11
	pmulhuw	%xmm1, %xmm11
	paddw	%xmm2, %xmm8
	pmulhuw	%xmm1, %xmm8
	paddusb	%xmm10, %xmm9
	psllw	$8, %xmm8
	por	%xmm11, %xmm8
	paddusb	%xmm7, %xmm8
	movdqu	%xmm8, -32(%rsi,%rcx)
	movdqu	%xmm9, -16(%rsi,%rcx)
	movdqu	(%rbx,%rcx), %xmm7
	movdqu	16(%rbx,%rcx), %xmm8
	movdqa	%xmm6, %xmm11
	pxor	%xmm3, %xmm11
	pxor	%xmm4, %xmm3
	pshufb	%xmm5, %xmm3
	pshufb	%xmm5, %xmm11
	movdqa	%xmm7, %xmm10
	pshufb	%xmm5, %xmm10
	movdqa	%xmm8, %xmm9
	pshufb	%xmm5, %xmm9
	movdqa	%xmm7, %xmm5
	pand	%xmm0, %xmm5
	pmullw	%xmm3, %xmm5
	psrlw	$8, %xmm7
	pmullw	%xmm3, %xmm7
	movdqa	%xmm8, %xmm3
	pand	%xmm0, %xmm3
	pmullw	%xmm11, %xmm3
	psrlw	$8, %xmm8
	pmullw	%xmm11, %xmm8
	paddw	%xmm2, %xmm3
	pmulhuw	%xmm1, %xmm3
	paddw	%xmm2, %xmm8
	pmulhuw	%xmm1, %xmm8
	psllw	$8, %xmm8
	por	%xmm3, %xmm8
	paddw	%xmm2, %xmm5
	pmulhuw	%xmm1, %xmm5
	paddw	%xmm2, %xmm7
	pmulhuw	%xmm1, %xmm7
	psllw	$8, %xmm7
	por	%xmm5, %xmm7
	movdqa	%xmm4, %xmm3
	pand	%xmm0, %xmm3
	pmullw	%xmm10, %xmm3
	psrlw	$8, %xmm4
	pmullw	%xmm10, %xmm4
	pand	%xmm6, %xmm0
	pmullw	%xmm9, %xmm0
	psrlw	$8, %xmm6
	pmullw	%xmm9, %xmm6
	paddw	%xmm2, %xmm3
	paddw	%xmm2, %xmm0
	paddw	%xmm2, %xmm6
	paddw	%xmm2, %xmm4
	pmulhuw	%xmm1, %xmm0
	pmulhuw	%xmm1, %xmm3
	pmulhuw	%xmm1, %xmm4
	pmulhuw	%xmm1, %xmm6
	psllw	$8, %xmm6
	por	%xmm0, %xmm6
	paddusb	%xmm8, %xmm6
	psllw	$8, %xmm4
	por	%xmm3, %xmm4
	paddusb	%xmm7, %xmm4
	movdqu	%xmm4, (%rsi,%rcx)
	movdqu	%xmm6, 16(%rsi,%rcx)
	addq	$64, %rcx
	decq	%r12
	jne	.LBB38_4
.LBB38_5:
	movq	112(%rsp), %rax
	cmpq	8(%rsp), %rax
	je	.LBB38_13
	movq	%r14, %rax
	imulq	24(%rsp), %rax
	addq	88(%rsp), %rax
	movq	72(%rsp), %rcx
	leaq	(%rcx,%r14), %rdx
	imulq	40(%rsp), %rdx
	addq	80(%rsp), %rdx
	movq	16(%rsp), %rcx
	leaq	(%rcx,%rax,4), %rcx
	movq	32(%rsp), %rax
	leaq	(%rax,%rdx,4), %r12
	movq	64(%rsp), %rax
	addq	%rax, %rcx
	addq	%rax, %r12
	testb	$8, 8(%rsp)
	jne	.LBB38_7
	testb	$4, 8(%rsp)
	jne	.LBB38_9
.LBB38_10:
	cmpl	%r13d, %edi
	je	.LBB38_13
	jmp	.LBB38_11
	.p2align	4
.LBB38_7:
	movdqu	(%r12), %xmm0
	movdqu	16(%r12), %xmm3
	movdqu	(%rcx), %xmm1
	movdqu	16(%rcx), %xmm2
	pcmpeqd	%xmm11, %xmm11
	movdqa	%xmm2, %xmm10
	pxor	%xmm11, %xmm10
	pxor	%xmm1, %xmm11
	movdqa	.LCPI38_0(%rip), %xmm4
	pshufb	%xmm4, %xmm11
	pshufb	%xmm4, %xmm10
	movdqa	%xmm0, %xmm5
	pshufb	%xmm4, %xmm5
	movdqa	%xmm3, %xmm6
	pshufb	%xmm4, %xmm6
	movdqa	.LCPI38_1(%rip), %xmm4
	movdqa	%xmm0, %xmm9
	pand	%xmm4, %xmm9
	movdqa	%xmm3, %xmm12
	pand	%xmm4, %xmm12
	pmullw	%xmm10, %xmm12
	pmullw	%xmm11, %xmm9
	movdqa	.LCPI38_2(%rip), %xmm7
	paddw	%xmm7, %xmm9
	paddw	%xmm7, %xmm12
	movdqa	.LCPI38_3(%rip), %xmm8
	pmulhuw	%xmm8, %xmm12
	pmulhuw	%xmm8, %xmm9
	psrlw	$8, %xmm3
	psrlw	$8, %xmm0
	pmullw	%xmm11, %xmm0
	pmullw	%xmm10, %xmm3
	paddw	%xmm7, %xmm3
	paddw	%xmm7, %xmm0
	pmulhuw	%xmm8, %xmm0
	pmulhuw	%xmm8, %xmm3
	psllw	$8, %xmm3
	por	%xmm12, %xmm3
	psllw	$8, %xmm0
	por	%xmm9, %xmm0
	movdqa	%xmm1, %xmm9
	pand	%xmm4, %xmm9
	pand	%xmm2, %xmm4
	pmullw	%xmm6, %xmm4
	pmullw	%xmm5, %xmm9
	paddw	%xmm7, %xmm9
	paddw	%xmm7, %xmm4
	pmulhuw	%xmm8, %xmm4
	pmulhuw	%xmm8, %xmm9
	psrlw	$8, %xmm2
	psrlw	$8, %xmm1
	pmullw	%xmm5, %xmm1
	pmullw	%xmm6, %xmm2
	paddw	%xmm7, %xmm2
	paddw	%xmm7, %xmm1
	pmulhuw	%xmm8, %xmm1
	pmulhuw	%xmm8, %xmm2
	psllw	$8, %xmm2
	por	%xmm4, %xmm2
	paddusb	%xmm3, %xmm2
	psllw	$8, %xmm1
	por	%xmm9, %xmm1
	paddusb	%xmm0, %xmm1
	movdqu	%xmm1, (%rcx)
	movdqu	%xmm2, 16(%rcx)
	testb	$4, 8(%rsp)
	je	.LBB38_10
.LBB38_9:
	movq	56(%rsp), %rax
	movdqu	(%r12,%rax), %xmm0
	movdqu	(%rcx,%rax), %xmm3
	pcmpeqd	%xmm1, %xmm1
	movdqa	.LCPI38_4(%rip), %xmm6
	movdqa	%xmm3, %xmm7
	pshufb	%xmm6, %xmm7
	pxor	%xmm7, %xmm1
	movdqa	.LCPI38_1(%rip), %xmm2
	movdqa	%xmm0, %xmm4
	pand	%xmm2, %xmm4
	pandn	%xmm2, %xmm7
	pmullw	%xmm4, %xmm7
	movdqa	.LCPI38_2(%rip), %xmm4
	paddw	%xmm4, %xmm7
	movdqa	.LCPI38_3(%rip), %xmm5
	pmulhuw	%xmm5, %xmm7
	movdqa	%xmm0, %xmm8
	psrlw	$8, %xmm8
	psrlw	$8, %xmm1
	pmullw	%xmm8, %xmm1
	paddw	%xmm4, %xmm1
	pmulhuw	%xmm5, %xmm1
	psllw	$8, %xmm1
	por	%xmm7, %xmm1
	pshufb	%xmm6, %xmm0
	movdqa	%xmm3, %xmm6
	pand	%xmm2, %xmm6
	pand	%xmm0, %xmm2
	pmullw	%xmm6, %xmm2
	paddw	%xmm4, %xmm2
	pmulhuw	%xmm5, %xmm2
	psrlw	$8, %xmm3
	psrlw	$8, %xmm0
	pmullw	%xmm3, %xmm0
	paddw	%xmm4, %xmm0
	pmulhuw	%xmm5, %xmm0
	psllw	$8, %xmm0
	por	%xmm2, %xmm0
	paddusb	%xmm1, %xmm0
	movdqu	%xmm0, (%rcx,%rax)
	cmpl	%r13d, %edi
	je	.LBB38_13
.LBB38_11:
	xorl	%ecx, %ecx
	.p2align	4
.LBB38_12:
	movl	(%r9,%rcx,4), %eax
	movzbl	%ah, %edx
	movzbl	%al, %r12d
	movd	%eax, %xmm0
	movl	%eax, %r11d
	movl	(%r8,%rcx,4), %eax
	movzbl	%ah, %ebp
	movzbl	%al, %r10d
	movl	%eax, %r15d
	shrl	$24, %eax
	movd	%eax, %xmm1
	xorl	$255, %eax
	movd	%eax, %xmm2
	shrl	$16, %r11d
	movzbl	%r11b, %eax
	psrld	$24, %xmm0
	pshuflw	$0, %xmm0, %xmm3
	pinsrw	$1, %eax, %xmm0
	pinsrw	$2, %edx, %xmm0
	pinsrw	$3, %r12d, %xmm0
	pshuflw	$0, %xmm2, %xmm2
	pmullw	%xmm2, %xmm0
	movdqa	.LCPI38_5(%rip), %xmm2
	paddw	%xmm2, %xmm0
	movdqa	%xmm0, %xmm4
	psrlw	$8, %xmm4
	paddw	%xmm0, %xmm4
	shrl	$16, %r15d
	movzbl	%r15b, %eax
	psrlw	$8, %xmm4
	pinsrw	$1, %eax, %xmm1
	pinsrw	$2, %ebp, %xmm1
	pinsrw	$3, %r10d, %xmm1
	packuswb	%xmm4, %xmm4
	pmullw	%xmm1, %xmm3
	paddw	%xmm2, %xmm3
	movdqa	%xmm3, %xmm0
	psrlw	$8, %xmm0
	paddw	%xmm3, %xmm0
	psrlw	$8, %xmm0
	packuswb	%xmm0, %xmm0
	paddusb	%xmm4, %xmm0
	pmovzxbd	%xmm0, %xmm0
	pmulld	.LCPI38_6(%rip), %xmm0
	pshufd	$238, %xmm0, %xmm1
	por	%xmm0, %xmm1
	pshufd	$85, %xmm1, %xmm0
	por	%xmm1, %xmm0
	movd	%xmm0, (%r8,%rcx,4)
	leaq	(%rdi,%rcx), %rax
	incq	%rax
	incq	%rcx
	cmpq	%r13, %rax
	jb	.LBB38_12
	jmp	.LBB38_13
.LBB38_14:
	movaps	128(%rsp), %xmm6
	movaps	144(%rsp), %xmm7
	movaps	160(%rsp), %xmm8
	movaps	176(%rsp), %xmm9
	movaps	192(%rsp), %xmm10
	movaps	208(%rsp), %xmm11
	movaps	224(%rsp), %xmm12
	addq	$248, %rsp
	popq	%rbx
	popq	%rbp
	popq	%rdi
	popq	%rsi
	popq	%r12
	popq	%r13
	popq	%r14
	popq	%r15
	retq

	.section	.rdata,"dr"
	.p2align	4, 0x0
.LCPI39_0:
	.byte	255
	.byte	0
	.byte	255
	.byte	0
	.byte	255
	.byte	0
	.byte	255
	.byte	0
	.byte	255
	.byte	0
	.byte	255
	.byte	0
	.byte	255
	.byte	0
	.byte	255
	.byte	0
.LCPI39_1:
	.short	128
	.short	128
	.short	128
	.short	128
	.short	128
	.short	128
	.short	128
	.short	128
.LCPI39_2:
	.zero	16,1
.LCPI39_3:
	.byte	3
	.byte	128
	.byte	3
	.byte	128
	.byte	7
	.byte	128
	.byte	7
	.byte	128
	.byte	11
	.byte	128
	.byte	11
	.byte	128
	.byte	15
	.byte	128
	.byte	15
	.byte	128
.LCPI39_4:
	.byte	3
	.byte	3
	.byte	3
	.byte	3
	.byte	7
	.byte	7
	.byte	7
	.byte	7
	.byte	11
	.byte	11
	.byte	11
	.byte	11
	.byte	15
	.byte	15
	.byte	15
	.byte	15
.LCPI39_5:
	.short	128
	.short	128
	.short	128
	.short	128
	.zero	2
	.zero	2
	.zero	2
	.zero	2
.LCPI39_6:
	.long	65536
	.long	16777216
	.long	256
	.long	1
	.section	".text$pix_raster::view::blit_overlap::<#6f0e63a99552414a>","xr"
	.p2align	4
"pix_raster::view::blit_overlap::<#6f0e63a99552414a>":
	pushq	%r15
	pushq	%r14
	pushq	%r13
	pushq	%r12
	pushq	%rsi
	pushq	%rdi
	pushq	%rbp
	pushq	%rbx
	subq	$296, %rsp
	movdqa	%xmm15, 272(%rsp)
	movdqa	%xmm14, 256(%rsp)
	movdqa	%xmm13, 240(%rsp)
	movdqa	%xmm12, 224(%rsp)
	movdqa	%xmm11, 208(%rsp)
	movdqa	%xmm10, 192(%rsp)
	movdqa	%xmm9, 176(%rsp)
	movdqa	%xmm8, 160(%rsp)
	movdqa	%xmm7, 144(%rsp)
	movdqa	%xmm6, 128(%rsp)
	movq	%rdx, 16(%rsp)
	movq	%rcx, 8(%rsp)
	movq	400(%rsp), %rax
	movq	24(%rax), %r15
	movq	32(%rax), %rcx
	movq	%rcx, 104(%rsp)
	cmpq	%rcx, %r15
	jae	.LBB39_21
	movl	408(%rsp), %edx
	movq	(%rax), %rdi
	movq	16(%rax), %r11
	leaq	(%r8,%r11), %rcx
	movq	%rcx, 72(%rsp)
	movq	8(%rax), %rsi
	movq	40(%rax), %rcx
	subq	%rdi, %rsi
	movq	%rcx, %rax
	subq	%r15, %rax
	movq	%rax, 64(%rsp)
	movq	%rsi, %r14
	movl	%edx, %eax
	movl	%edx, %ebx
	shrl	$24, %ebx
	movl	%edx, %r10d
	shrl	$16, %r10d
	shrl	$8, %edx
	movd	%eax, %xmm0
	pinsrb	$1, %edx, %xmm0
	pinsrb	$2, %r10d, %xmm0
	pinsrb	$3, %ebx, %xmm0
	pinsrb	$4, %eax, %xmm0
	pinsrb	$5, %edx, %xmm0
	pinsrb	$6, %r10d, %xmm0
	pinsrb	$7, %ebx, %xmm0
	pinsrb	$8, %eax, %xmm0
	pinsrb	$9, %edx, %xmm0
	pinsrb	$10, %r10d, %xmm0
	pinsrb	$11, %ebx, %xmm0
	pinsrb	$12, %eax, %xmm0
	pinsrb	$13, %edx, %xmm0
	shrq	$4, %r14
	pinsrb	$14, %r10d, %xmm0
	movdqa	.LCPI39_0(%rip), %xmm1
	pand	%xmm0, %xmm1
	pinsrb	$15, %ebx, %xmm0
	psrlw	$8, %xmm0
	movq	%rsi, %rdx
	andq	$-16, %rdx
	leaq	(,%rdx,4), %r12
	movl	%esi, %r13d
	andl	$15, %r13d
	movl	%esi, %ebp
	andl	$8, %ebp
	movzbl	%r10b, %eax
	movd	%eax, %xmm11
	movq	%rbp, 48(%rsp)
	leal	(,%rbp,4), %eax
	movq	%rax, 40(%rsp)
	pinsrw	$1, %ebx, %xmm11
	movl	408(%rsp), %r10d
	movl	%r10d, %eax
	movzbl	%ah, %eax
	pinsrw	$2, %eax, %xmm11
	movq	%rsi, (%rsp)
	movl	%esi, %ebx
	andl	$12, %ebx
	movzbl	%r10b, %eax
	pinsrw	$3, %eax, %xmm11
	imulq	%r9, %rcx
	addq	%r11, %rcx
	leaq	(%r8,%rcx), %rbp
	addq	$8, %rbp
	movq	%rdx, 32(%rsp)
	leaq	(%rdx,%rbx), %rsi
	addq	%r8, %rsi
	movq	%r15, %rax
	movq	16(%rsp), %rdx
	imulq	%rdx, %rax
	addq	%rcx, %rsi
	leaq	(%rdi,%rax), %rcx
	movq	8(%rsp), %r8
	leaq	(%r8,%rcx,4), %r10
	movq	%r12, 56(%rsp)
	leaq	(%r12,%rax,4), %rax
	movq	%rbx, 24(%rsp)
	leaq	(%rax,%rbx,4), %rax
	movq	%rdi, 80(%rsp)
	leaq	(%rax,%rdi,4), %rbx
	addq	%r8, %rbx
	movq	%r14, 96(%rsp)
	leaq	(,%r14,4), %r11
	leaq	(,%rdx,4), %rax
	movq	%rax, 88(%rsp)
	movdqa	%xmm11, 112(%rsp)
	jmp	.LBB39_2
	.p2align	4
.LBB39_20:
	incq	%r15
	addq	%r9, %rbp
	movq	88(%rsp), %rax
	addq	%rax, %r10
	addq	%r9, %rsi
	addq	%rax, %rbx
	cmpq	104(%rsp), %r15
	je	.LBB39_21
.LBB39_2:
	cmpq	$0, 96(%rsp)
	je	.LBB39_8
	xorl	%r12d, %r12d
	movq	%r10, %r8
	jmp	.LBB39_4
	.p2align	4
.LBB39_6:
	movq	%rax, %xmm11
	punpcklbw	%xmm11, %xmm11
	movdqa	%xmm11, %xmm10
	punpcklwd	%xmm11, %xmm10
	punpckhwd	%xmm11, %xmm11
	movdqa	.LCPI39_0(%rip), %xmm3
	movdqa	%xmm11, %xmm7
	pand	%xmm3, %xmm7
	movdqa	%xmm10, %xmm14
	pand	%xmm3, %xmm14
	pmullw	%xmm1, %xmm14
	pmullw	%xmm1, %xmm7
	movdqa	.LCPI39_1(%rip), %xmm5
	paddw	%xmm5, %xmm7
	paddw	%xmm5, %xmm14
	movdqa	.LCPI39_2(%rip), %xmm4
	pmulhuw	%xmm4, %xmm14
	pmulhuw	%xmm4, %xmm7
	psrlw	$8, %xmm10
	psrlw	$8, %xmm11
	pmullw	%xmm0, %xmm11
	pmullw	%xmm0, %xmm10
	paddw	%xmm5, %xmm10
	paddw	%xmm5, %xmm11
	pmulhuw	%xmm4, %xmm11
	pmulhuw	%xmm4, %xmm10
	psllw	$8, %xmm10
	psllw	$8, %xmm11
	por	%xmm7, %xmm11
	por	%xmm14, %xmm10
	pcmpeqd	%xmm8, %xmm8
	movdqu	(%r8), %xmm12
	movdqu	16(%r8), %xmm13
	movdqa	%xmm13, %xmm6
	pxor	%xmm8, %xmm6
	movdqa	%xmm12, %xmm2
	pxor	%xmm8, %xmm2
	movdqa	.LCPI39_3(%rip), %xmm9
	pshufb	%xmm9, %xmm2
	pshufb	%xmm9, %xmm6
	movdqa	%xmm10, %xmm15
	pand	%xmm3, %xmm14
	pmullw	%xmm2, %xmm14
	psrlw	$8, %xmm10
	pmullw	%xmm2, %xmm10
	movdqa	%xmm11, %xmm2
	pand	%xmm3, %xmm7
	pmullw	%xmm6, %xmm7
	psrlw	$8, %xmm11
	pmullw	%xmm6, %xmm11
	movdqu	32(%r8), %xmm6
	paddw	%xmm5, %xmm7
	pmulhuw	%xmm4, %xmm7
	paddw	%xmm5, %xmm11
	pmulhuw	%xmm4, %xmm11
	psllw	$8, %xmm11
	por	%xmm7, %xmm11
	movdqu	48(%r8), %xmm7
	pshufb	%xmm9, %xmm15
	pshufb	%xmm9, %xmm2
	paddw	%xmm5, %xmm14
	pmulhuw	%xmm4, %xmm14
	paddw	%xmm5, %xmm10
	pmulhuw	%xmm4, %xmm10
	psllw	$8, %xmm10
	por	%xmm14, %xmm10
	movdqa	%xmm12, %xmm14
	pand	%xmm3, %xmm14
	pmullw	%xmm15, %xmm14
	psrlw	$8, %xmm12
	pmullw	%xmm15, %xmm12
	movdqa	%xmm13, %xmm15
	pand	%xmm3, %xmm15
	pmullw	%xmm2, %xmm15
	paddw	%xmm5, %xmm14
	paddw	%xmm5, %xmm15
	pmulhuw	%xmm4, %xmm15
	pmulhuw	%xmm4, %xmm14
	psrlw	$8, %xmm13
	pmullw	%xmm2, %xmm13
	paddw	%xmm5, %xmm13
	paddw	%xmm5, %xmm12
	pmulhuw	%xmm4, %xmm12
	pmulhuw	%xmm4, %xmm13
	psllw	$8, %xmm13
	por	%xmm15, %xmm13
	paddusb	%xmm11, %xmm13
	psllw	$8, %xmm12
	por	%xmm14, %xmm12
	paddusb	%xmm10, %xmm12
	movdqu	%xmm12, (%r8)
	movdqu	%xmm13, 16(%r8)
	movq	(%rbp,%r12,4), %xmm11
	punpcklbw	%xmm11, %xmm11
	movdqa	%xmm11, %xmm10
	punpcklwd	%xmm11, %xmm10
	punpckhwd	%xmm11, %xmm11
	movdqa	%xmm11, %xmm13
	pand	%xmm3, %xmm13
	movdqa	%xmm10, %xmm12
	pand	%xmm3, %xmm12
	pmullw	%xmm1, %xmm12
	pmullw	%xmm1, %xmm13
	paddw	%xmm5, %xmm13
	paddw	%xmm5, %xmm12
	pmulhuw	%xmm4, %xmm12
	pmulhuw	%xmm4, %xmm13
	psrlw	$8, %xmm10
	psrlw	$8, %xmm11
	pmullw	%xmm0, %xmm11
	pmullw	%xmm0, %xmm10
	paddw	%xmm5, %xmm10
	paddw	%xmm5, %xmm11
	pmulhuw	%xmm4, %xmm11
	pmulhuw	%xmm4, %xmm10
	psllw	$8, %xmm10
	psllw	$8, %xmm11
	por	%xmm13, %xmm11
	por	%xmm12, %xmm10
	movdqa	%xmm7, %xmm2
	pxor	%xmm8, %xmm2
	pxor	%xmm6, %xmm8
	pshufb	%xmm9, %xmm8
	pshufb	%xmm9, %xmm2
	movdqa	%xmm10, %xmm15
	pshufb	%xmm9, %xmm15
	movdqa	%xmm11, %xmm14
	pshufb	%xmm9, %xmm14
	pand	%xmm3, %xmm12
	pmullw	%xmm8, %xmm12
	psrlw	$8, %xmm10
	pmullw	%xmm8, %xmm10
	pand	%xmm3, %xmm13
	pmullw	%xmm2, %xmm13
	psrlw	$8, %xmm11
	pmullw	%xmm2, %xmm11
	paddw	%xmm5, %xmm13
	pmulhuw	%xmm4, %xmm13
	paddw	%xmm5, %xmm11
	pmulhuw	%xmm4, %xmm11
	psllw	$8, %xmm11
	por	%xmm13, %xmm11
	paddw	%xmm5, %xmm12
	pmulhuw	%xmm4, %xmm12
	paddw	%xmm5, %xmm10
	pmulhuw	%xmm4, %xmm10
	psllw	$8, %xmm10
	por	%xmm12, %xmm10
	movdqa	%xmm6, %xmm2
	pand	%xmm3, %xmm2
	pmullw	%xmm15, %xmm2
	psrlw	$8, %xmm6
	pmullw	%xmm15, %xmm6
	pand	%xmm7, %xmm3
	pmullw	%xmm14, %xmm3
	psrlw	$8, %xmm7
	pmullw	%xmm14, %xmm7
	paddw	%xmm5, %xmm2
	paddw	%xmm5, %xmm3
	paddw	%xmm5, %xmm7
	paddw	%xmm5, %xmm6
	pmulhuw	%xmm4, %xmm3
	pmulhuw	%xmm4, %xmm2
	pmulhuw	%xmm4, %xmm6
	pmulhuw	%xmm4, %xmm7
	psllw	$8, %xmm7
	por	%xmm3, %xmm7
	paddusb	%xmm11, %xmm7
	movdqa	112(%rsp), %xmm11
	psllw	$8, %xmm6
	por	%xmm2, %xmm6
	paddusb	%xmm10, %xmm6
	movdqu	%xmm6, 32(%r8)
	movdqu	%xmm7, 48(%r8)
	addq	$4, %r12
	addq	$64, %r8
	cmpq	%r12, %r11
	je	.LBB39_8
.LBB39_4:
	movq	-8(%rbp,%r12,4), %rax
	movq	(%rbp,%r12,4), %rcx
	orq	%rax, %rcx
	jne	.LBB39_6
	pxor	%xmm2, %xmm2
	movdqu	%xmm2, 48(%r8)
	movdqu	%xmm2, 32(%r8)
	movdqu	%xmm2, 16(%r8)
	movdqu	%xmm2, (%r8)
	addq	$4, %r12
	addq	$64, %r8
	cmpq	%r12, %r11
	jne	.LBB39_4
.LBB39_8:
	movq	32(%rsp), %rax
	cmpq	(%rsp), %rax
	je	.LBB39_20
	movq	%r15, %rax
	imulq	16(%rsp), %rax
	addq	80(%rsp), %rax
	movq	64(%rsp), %rcx
	leaq	(%rcx,%r15), %r12
	imulq	%r9, %r12
	addq	72(%rsp), %r12
	movq	8(%rsp), %rcx
	leaq	(%rcx,%rax,4), %r8
	addq	56(%rsp), %r8
	addq	32(%rsp), %r12
	testb	$8, (%rsp)
	jne	.LBB39_10
	testb	$4, (%rsp)
	jne	.LBB39_14
.LBB39_17:
	cmpl	%r13d, 24(%rsp)
	je	.LBB39_20
	jmp	.LBB39_18
	.p2align	4
.LBB39_10:
	movq	(%r12), %rax
	testq	%rax, %rax
	je	.LBB39_11
	movq	%rax, %xmm4
	punpcklbw	%xmm4, %xmm4
	movdqa	%xmm4, %xmm3
	punpcklwd	%xmm4, %xmm3
	punpckhwd	%xmm4, %xmm4
	movdqa	.LCPI39_0(%rip), %xmm5
	movdqa	%xmm4, %xmm11
	pand	%xmm5, %xmm11
	movdqa	%xmm3, %xmm10
	pand	%xmm5, %xmm10
	pmullw	%xmm1, %xmm10
	pmullw	%xmm1, %xmm11
	movdqa	.LCPI39_1(%rip), %xmm6
	paddw	%xmm6, %xmm11
	paddw	%xmm6, %xmm10
	movdqa	.LCPI39_2(%rip), %xmm7
	pmulhuw	%xmm7, %xmm10
	pmulhuw	%xmm7, %xmm11
	psrlw	$8, %xmm3
	psrlw	$8, %xmm4
	pmullw	%xmm0, %xmm4
	pmullw	%xmm0, %xmm3
	paddw	%xmm6, %xmm3
	paddw	%xmm6, %xmm4
	pmulhuw	%xmm7, %xmm4
	pmulhuw	%xmm7, %xmm3
	psllw	$8, %xmm3
	psllw	$8, %xmm4
	por	%xmm11, %xmm4
	por	%xmm10, %xmm3
	movdqu	(%r8), %xmm8
	movdqu	16(%r8), %xmm9
	pcmpeqd	%xmm14, %xmm14
	movdqa	%xmm9, %xmm2
	pxor	%xmm14, %xmm2
	pxor	%xmm8, %xmm14
	movdqa	.LCPI39_3(%rip), %xmm15
	pshufb	%xmm15, %xmm14
	pshufb	%xmm15, %xmm2
	movdqa	%xmm3, %xmm12
	pshufb	%xmm15, %xmm12
	movdqa	%xmm4, %xmm13
	pshufb	%xmm15, %xmm13
	pand	%xmm5, %xmm10
	pand	%xmm5, %xmm11
	pmullw	%xmm2, %xmm11
	pmullw	%xmm14, %xmm10
	paddw	%xmm6, %xmm10
	paddw	%xmm6, %xmm11
	pmulhuw	%xmm7, %xmm11
	pmulhuw	%xmm7, %xmm10
	psrlw	$8, %xmm4
	psrlw	$8, %xmm3
	pmullw	%xmm14, %xmm3
	pmullw	%xmm2, %xmm4
	paddw	%xmm6, %xmm4
	paddw	%xmm6, %xmm3
	pmulhuw	%xmm7, %xmm3
	pmulhuw	%xmm7, %xmm4
	psllw	$8, %xmm4
	por	%xmm11, %xmm4
	movdqa	112(%rsp), %xmm11
	psllw	$8, %xmm3
	por	%xmm10, %xmm3
	movdqa	%xmm8, %xmm2
	pand	%xmm5, %xmm2
	pand	%xmm9, %xmm5
	pmullw	%xmm13, %xmm5
	pmullw	%xmm12, %xmm2
	paddw	%xmm6, %xmm2
	paddw	%xmm6, %xmm5
	pmulhuw	%xmm7, %xmm5
	pmulhuw	%xmm7, %xmm2
	psrlw	$8, %xmm9
	psrlw	$8, %xmm8
	pmullw	%xmm12, %xmm8
	pmullw	%xmm13, %xmm9
	paddw	%xmm6, %xmm9
	paddw	%xmm6, %xmm8
	pmulhuw	%xmm7, %xmm8
	pmulhuw	%xmm7, %xmm9
	psllw	$8, %xmm9
	por	%xmm5, %xmm9
	paddusb	%xmm4, %xmm9
	psllw	$8, %xmm8
	por	%xmm2, %xmm8
	paddusb	%xmm3, %xmm8
	movdqu	%xmm8, (%r8)
	movdqu	%xmm9, 16(%r8)
	testb	$4, (%rsp)
	je	.LBB39_17
	jmp	.LBB39_14
.LBB39_11:
	pxor	%xmm2, %xmm2
	movdqu	%xmm2, 16(%r8)
	movdqu	%xmm2, (%r8)
	testb	$4, (%rsp)
	je	.LBB39_17
	.p2align	4
.LBB39_14:
	addq	40(%rsp), %r8
	movq	48(%rsp), %rax
	movl	(%r12,%rax), %eax
	testl	%eax, %eax
	je	.LBB39_15
	movd	%eax, %xmm3
	punpcklbw	%xmm3, %xmm3
	punpcklwd	%xmm3, %xmm3
	movdqa	.LCPI39_0(%rip), %xmm4
	movdqa	%xmm3, %xmm8
	pand	%xmm4, %xmm8
	pmullw	%xmm1, %xmm8
	movdqa	.LCPI39_1(%rip), %xmm5
	paddw	%xmm5, %xmm8
	movdqa	.LCPI39_2(%rip), %xmm6
	pmulhuw	%xmm6, %xmm8
	psrlw	$8, %xmm3
	pmullw	%xmm0, %xmm3
	paddw	%xmm5, %xmm3
	pmulhuw	%xmm6, %xmm3
	psllw	$8, %xmm3
	por	%xmm8, %xmm3
	movdqu	(%r8), %xmm7
	pcmpeqd	%xmm2, %xmm2
	movdqa	.LCPI39_4(%rip), %xmm9
	movdqa	%xmm7, %xmm10
	pshufb	%xmm9, %xmm10
	pxor	%xmm10, %xmm2
	pand	%xmm4, %xmm8
	pandn	%xmm4, %xmm10
	pmullw	%xmm8, %xmm10
	paddw	%xmm5, %xmm10
	pmulhuw	%xmm6, %xmm10
	movdqa	%xmm3, %xmm8
	psrlw	$8, %xmm8
	psrlw	$8, %xmm2
	pmullw	%xmm8, %xmm2
	paddw	%xmm5, %xmm2
	pmulhuw	%xmm6, %xmm2
	psllw	$8, %xmm2
	por	%xmm10, %xmm2
	pshufb	%xmm9, %xmm3
	movdqa	%xmm7, %xmm8
	pand	%xmm4, %xmm8
	pand	%xmm3, %xmm4
	pmullw	%xmm8, %xmm4
	paddw	%xmm5, %xmm4
	pmulhuw	%xmm6, %xmm4
	psrlw	$8, %xmm7
	psrlw	$8, %xmm3
	pmullw	%xmm7, %xmm3
	paddw	%xmm5, %xmm3
	pmulhuw	%xmm6, %xmm3
	psllw	$8, %xmm3
	por	%xmm4, %xmm3
	paddusb	%xmm2, %xmm3
	movdqu	%xmm3, (%r8)
	cmpl	%r13d, 24(%rsp)
	je	.LBB39_20
	jmp	.LBB39_18
.LBB39_15:
	pxor	%xmm2, %xmm2
	movdqu	%xmm2, (%r8)
	cmpl	%r13d, 24(%rsp)
	je	.LBB39_20
	.p2align	4
.LBB39_18:
	xorl	%r8d, %r8d
	movq	24(%rsp), %r12
	.p2align	4
.LBB39_19:
	movl	(%rbx,%r8,4), %ecx
	movzbl	%ch, %edx
	movl	%ecx, %eax
	movzbl	%cl, %r14d
	shrl	$16, %ecx
	shrl	$24, %eax
	movzbl	(%rsi,%r8), %edi
	movd	%edi, %xmm2
	pshuflw	$0, %xmm2, %xmm2
	pmullw	%xmm11, %xmm2
	movzbl	%cl, %ecx
	movd	%ecx, %xmm3
	pinsrw	$1, %eax, %xmm3
	xorl	$255, %eax
	movdqa	.LCPI39_5(%rip), %xmm4
	paddw	%xmm4, %xmm2
	movdqa	%xmm2, %xmm5
	psrlw	$8, %xmm5
	paddw	%xmm2, %xmm5
	psrlw	$8, %xmm5
	movd	%eax, %xmm2
	pshuflw	$0, %xmm2, %xmm2
	pmullw	%xmm5, %xmm2
	paddw	%xmm4, %xmm2
	movdqa	%xmm2, %xmm6
	psrlw	$8, %xmm6
	paddw	%xmm2, %xmm6
	psrlw	$8, %xmm6
	packuswb	%xmm6, %xmm6
	pinsrw	$2, %edx, %xmm3
	pinsrw	$3, %r14d, %xmm3
	pshuflw	$85, %xmm5, %xmm2
	pmullw	%xmm2, %xmm3
	paddw	%xmm4, %xmm3
	movdqa	%xmm3, %xmm2
	psrlw	$8, %xmm2
	paddw	%xmm3, %xmm2
	psrlw	$8, %xmm2
	packuswb	%xmm2, %xmm2
	paddusb	%xmm6, %xmm2
	pmovzxbd	%xmm2, %xmm2
	pmulld	.LCPI39_6(%rip), %xmm2
	pshufd	$238, %xmm2, %xmm3
	por	%xmm2, %xmm3
	pshufd	$85, %xmm3, %xmm2
	por	%xmm3, %xmm2
	movd	%xmm2, (%rbx,%r8,4)
	incq	%r12
	incq	%r8
	cmpq	%r13, %r12
	jb	.LBB39_19
	jmp	.LBB39_20
.LBB39_21:
	movaps	128(%rsp), %xmm6
	movaps	144(%rsp), %xmm7
	movaps	160(%rsp), %xmm8
	movaps	176(%rsp), %xmm9
	movaps	192(%rsp), %xmm10
	movaps	208(%rsp), %xmm11
	movaps	224(%rsp), %xmm12
	movaps	240(%rsp), %xmm13
	movaps	256(%rsp), %xmm14
	movaps	272(%rsp), %xmm15
	addq	$296, %rsp
	popq	%rbx
	popq	%rbp
	popq	%rdi
	popq	%rsi
	popq	%r12
	popq	%r13
	popq	%r14
	popq	%r15
	retq

	.section	.rdata,"dr"
	.p2align	4, 0x0
.LCPI40_0:
	.byte	255
	.byte	0
	.byte	255
	.byte	0
	.byte	255
	.byte	0
	.byte	255
	.byte	0
	.byte	255
	.byte	0
	.byte	255
	.byte	0
	.byte	255
	.byte	0
	.byte	255
	.byte	0
.LCPI40_1:
	.short	128
	.short	128
	.short	128
	.short	128
	.short	128
	.short	128
	.short	128
	.short	128
.LCPI40_2:
	.zero	16,1
.LCPI40_3:
	.byte	3
	.byte	128
	.byte	3
	.byte	128
	.byte	7
	.byte	128
	.byte	7
	.byte	128
	.byte	11
	.byte	128
	.byte	11
	.byte	128
	.byte	15
	.byte	128
	.byte	15
	.byte	128
.LCPI40_4:
	.byte	3
	.byte	3
	.byte	3
	.byte	3
	.byte	7
	.byte	7
	.byte	7
	.byte	7
	.byte	11
	.byte	11
	.byte	11
	.byte	11
	.byte	15
	.byte	15
	.byte	15
	.byte	15
.LCPI40_5:
	.short	128
	.short	128
	.short	128
	.short	128
	.zero	2
	.zero	2
	.zero	2
	.zero	2
.LCPI40_6:
	.long	65536
	.long	16777216
	.long	256
	.long	1
	.section	".text$pix_raster::view::blit_overlap::<#9d2a39c7bba67463>","xr"
	.p2align	4
"pix_raster::view::blit_overlap::<#9d2a39c7bba67463>":
	pushq	%r15
	pushq	%r14
	pushq	%r13
	pushq	%r12
	pushq	%rsi
	pushq	%rdi
	pushq	%rbp
	pushq	%rbx
	subq	$296, %rsp
	movdqa	%xmm15, 272(%rsp)
	movdqa	%xmm14, 256(%rsp)
	movdqa	%xmm13, 240(%rsp)
	movdqa	%xmm12, 224(%rsp)
	movdqa	%xmm11, 208(%rsp)
	movdqa	%xmm10, 192(%rsp)
	movdqa	%xmm9, 176(%rsp)
	movdqa	%xmm8, 160(%rsp)
	movdqa	%xmm7, 144(%rsp)
	movdqa	%xmm6, 128(%rsp)
	movq	%r9, 32(%rsp)
	movq	%r8, 24(%rsp)
	movq	%rdx, 16(%rsp)
	movq	%rcx, 8(%rsp)
	movq	400(%rsp), %rcx
	movq	24(%rcx), %rax
	movq	32(%rcx), %rdx
	movq	%rdx, 104(%rsp)
	cmpq	%rdx, %rax
	jae	.LBB40_14
	movq	(%rcx), %rbp
	movq	16(%rcx), %rbx
	movq	%rbx, (%rsp)
	movq	8(%rcx), %r14
	movq	40(%rcx), %rdx
	subq	%rbp, %r14
	movq	%rdx, %rcx
	subq	%rax, %rcx
	movq	%rcx, 64(%rsp)
	movq	%r14, %rcx
	shrq	$4, %rcx
	movq	%rcx, 40(%rsp)
	movzbl	408(%rsp), %ecx
	movd	%ecx, %xmm1
	pxor	%xmm0, %xmm0
	pshuflw	$0, %xmm1, %xmm11
	pshufb	%xmm0, %xmm1
	movdqa	.LCPI40_0(%rip), %xmm2
	pand	%xmm1, %xmm2
	psrlw	$8, %xmm1
	movq	%r14, %rcx
	andq	$-16, %rcx
	movq	%rcx, 96(%rsp)
	leaq	(,%rcx,4), %r10
	movl	%r14d, %r13d
	andl	$15, %r13d
	leal	(,%r14,4), %ecx
	movl	%ecx, %r8d
	andl	$32, %r8d
	movq	%r8, 48(%rsp)
	movl	%r14d, %edi
	andl	$12, %edi
	movq	%rax, %r8
	movq	16(%rsp), %r11
	imulq	%r11, %r8
	leaq	(,%rbp,4), %r9
	leaq	(%r9,%r8,4), %rsi
	movq	8(%rsp), %r12
	addq	%r12, %rsi
	movq	32(%rsp), %r15
	imulq	%r15, %rdx
	leaq	(,%rbx,4), %r9
	leaq	(%r9,%rdx,4), %rbx
	leaq	(%r10,%rdx,4), %rdx
	andl	$48, %ecx
	addq	%rcx, %rdx
	movq	%r10, 56(%rsp)
	leaq	(%r10,%r8,4), %r8
	addq	%rcx, %r8
	leaq	(,%r11,4), %rcx
	movq	%rcx, 88(%rsp)
	movq	24(%rsp), %rcx
	addq	%rcx, %rbx
	movq	(%rsp), %r9
	leaq	(%rdx,%r9,4), %r9
	addq	%rcx, %r9
	movq	%rbp, 72(%rsp)
	leaq	(%r8,%rbp,4), %r8
	addq	%r12, %r8
	leaq	(,%r15,4), %rcx
	movq	%rcx, 80(%rsp)
	movdqa	%xmm11, 112(%rsp)
	jmp	.LBB40_2
	.p2align	4
.LBB40_13:
	incq	%rax
	movq	88(%rsp), %rcx
	addq	%rcx, %rsi
	movq	80(%rsp), %rdx
	addq	%rdx, %rbx
	addq	%rdx, %r9
	addq	%rcx, %r8
	cmpq	104(%rsp), %rax
	je	.LBB40_14
.LBB40_2:
	cmpq	$0, 40(%rsp)
	je	.LBB40_5
	movl	$32, %ebp
	movq	40(%rsp), %r12
	.p2align	4
.LBB40_4:
	movdqu	-32(%rbx,%rbp), %xmm10
	movdqu	-16(%rbx,%rbp), %xmm11
	movdqa	.LCPI40_0(%rip), %xmm3
	movdqa	%xmm11, %xmm7
	pand	%xmm3, %xmm7
	movdqa	%xmm10, %xmm14
	pand	%xmm3, %xmm14
	pmullw	%xmm2, %xmm14
	pmullw	%xmm2, %xmm7
	movdqa	.LCPI40_1(%rip), %xmm5
	paddw	%xmm5, %xmm7
	paddw	%xmm5, %xmm14
	movdqa	.LCPI40_2(%rip), %xmm4
	pmulhuw	%xmm4, %xmm14
	pmulhuw	%xmm4, %xmm7
	psrlw	$8, %xmm10
	psrlw	$8, %xmm11
	pmullw	%xmm1, %xmm11
	pmullw	%xmm1, %xmm10
	paddw	%xmm5, %xmm10
	paddw	%xmm5, %xmm11
	pmulhuw	%xmm4, %xmm11
	pmulhuw	%xmm4, %xmm10
	psllw	$8, %xmm10
	psllw	$8, %xmm11
	por	%xmm7, %xmm11
	por	%xmm14, %xmm10
	pcmpeqd	%xmm8, %xmm8
	movdqu	-32(%rsi,%rbp), %xmm12
	movdqu	-16(%rsi,%rbp), %xmm13
	movdqa	%xmm13, %xmm6
	pxor	%xmm8, %xmm6
	movdqa	%xmm12, %xmm0
	pxor	%xmm8, %xmm0
	movdqa	.LCPI40_3(%rip), %xmm9
	pshufb	%xmm9, %xmm0
	pshufb	%xmm9, %xmm6
	movdqa	%xmm10, %xmm15
	pand	%xmm3, %xmm14
	pmullw	%xmm0, %xmm14
	psrlw	$8, %xmm10
	pmullw	%xmm0, %xmm10
	movdqa	%xmm11, %xmm0
	pand	%xmm3, %xmm7
	pmullw	%xmm6, %xmm7
	psrlw	$8, %xmm11
	pmullw	%xmm6, %xmm11
	movdqu	(%rsi,%rbp), %xmm6
	paddw	%xmm5, %xmm7
	pmulhuw	%xmm4, %xmm7
	paddw	%xmm5, %xmm11
	pmulhuw	%xmm4, %xmm11
	psllw	$8, %xmm11
	por	%xmm7, %xmm11
	movdqu	16(%rsi,%rbp), %xmm7
	pshufb	%xmm9, %xmm15
	pshufb	%xmm9, %xmm0
	paddw	%xmm5, %xmm14
	pmulhuw	%xmm4, %xmm14
	paddw	%xmm5, %xmm10
	pmulhuw	%xmm4, %xmm10
	psllw	$8, %xmm10
	por	%xmm14, %xmm10
	movdqa	%xmm12, %xmm14
	pand	%xmm3, %xmm14
	pmullw	%xmm15, %xmm14
	psrlw	$8, %xmm12
	pmullw	%xmm15, %xmm12
	movdqa	%xmm13, %xmm15
	pand	%xmm3, %xmm15
	pmullw	%xmm0, %xmm15
	paddw	%xmm5, %xmm14
	paddw	%xmm5, %xmm15
	pmulhuw	%xmm4, %xmm15
	pmulhuw	%xmm4, %xmm14
	psrlw	$8, %xmm13
	pmullw	%xmm0, %xmm13
	paddw	%xmm5, %xmm13
	paddw	%xmm5, %xmm12
	pmulhuw	%xmm4, %xmm12
	pmulhuw	%xmm4, %xmm13
	psllw	$8, %xmm13
	por	%xmm15, %xmm13
	paddusb	%xmm11, %xmm13
	psllw	$8, %xmm12
	por	%xmm14, %xmm12
	paddusb	%xmm10, %xmm12
	movdqu	%xmm12, -32(%rsi,%rbp)
	movdqu	%xmm13, -16(%rsi,%rbp)
	movdqu	(%rbx,%rbp), %xmm10
	movdqu	16(%rbx,%rbp), %xmm11
	movdqa	%xmm11, %xmm13
	pand	%xmm3, %xmm13
	movdqa	%xmm10, %xmm12
	pand	%xmm3, %xmm12
	pmullw	%xmm2, %xmm12
	pmullw	%xmm2, %xmm13
	paddw	%xmm5, %xmm13
	paddw	%xmm5, %xmm12
	pmulhuw	%xmm4, %xmm12
	pmulhuw	%xmm4, %xmm13
	psrlw	$8, %xmm10
	psrlw	$8, %xmm11
	pmullw	%xmm1, %xmm11
	pmullw	%xmm1, %xmm10
	paddw	%xmm5, %xmm10
	paddw	%xmm5, %xmm11
	pmulhuw	%xmm4, %xmm11
	pmulhuw	%xmm4, %xmm10
	psllw	$8, %xmm10
	psllw	$8, %xmm11
	por	%xmm13, %xmm11
	por	%xmm12, %xmm10
	movdqa	%xmm7, %xmm0
	pxor	%xmm8, %xmm0
	pxor	%xmm6, %xmm8
	pshufb	%xmm9, %xmm8
	pshufb	%xmm9, %xmm0
	movdqa	%xmm10, %xmm15
	pshufb	%xmm9, %xmm15
	movdqa	%xmm11, %xmm14
	pshufb	%xmm9, %xmm14
	pand	%xmm3, %xmm12
	pmullw	%xmm8, %xmm12
	psrlw	$8, %xmm10
	pmullw	%xmm8, %xmm10
	pand	%xmm3, %xmm13
	pmullw	%xmm0, %xmm13
	psrlw	$8, %xmm11
	pmullw	%xmm0, %xmm11
	paddw	%xmm5, %xmm13
	pmulhuw	%xmm4, %xmm13
	paddw	%xmm5, %xmm11
	pmulhuw	%xmm4, %xmm11
	psllw	$8, %xmm11
	por	%xmm13, %xmm11
	paddw	%xmm5, %xmm12
	pmulhuw	%xmm4, %xmm12
	paddw	%xmm5, %xmm10
	pmulhuw	%xmm4, %xmm10
	psllw	$8, %xmm10
	por	%xmm12, %xmm10
	movdqa	%xmm6, %xmm0
	pand	%xmm3, %xmm0
	pmullw	%xmm15, %xmm0
	psrlw	$8, %xmm6
	pmullw	%xmm15, %xmm6
	pand	%xmm7, %xmm3
	pmullw	%xmm14, %xmm3
	psrlw	$8, %xmm7
	pmullw	%xmm14, %xmm7
	paddw	%xmm5, %xmm0
	paddw	%xmm5, %xmm3
	paddw	%xmm5, %xmm7
	paddw	%xmm5, %xmm6
	pmulhuw	%xmm4, %xmm3
	pmulhuw	%xmm4, %xmm0
	pmulhuw	%xmm4, %xmm6
	pmulhuw	%xmm4, %xmm7
	psllw	$8, %xmm7
	por	%xmm3, %xmm7
	paddusb	%xmm11, %xmm7
	psllw	$8, %xmm6
	por	%xmm0, %xmm6
	paddusb	%xmm10, %xmm6
	movdqu	%xmm6, (%rsi,%rbp)
	movdqu	%xmm7, 16(%rsi,%rbp)
	addq	$64, %rbp
	decq	%r12
	jne	.LBB40_4
.LBB40_5:
	cmpq	%r14, 96(%rsp)
	movdqa	112(%rsp), %xmm11
	je	.LBB40_13
	movq	%rax, %rcx
	imulq	16(%rsp), %rcx
	addq	72(%rsp), %rcx
	movq	64(%rsp), %rdx
	addq	%rax, %rdx
	imulq	32(%rsp), %rdx
	addq	(%rsp), %rdx
	movq	8(%rsp), %r10
	leaq	(%r10,%rcx,4), %r12
	movq	24(%rsp), %rcx
	leaq	(%rcx,%rdx,4), %rbp
	movq	56(%rsp), %rcx
	addq	%rcx, %r12
	addq	%rcx, %rbp
	testb	$8, %r14b
	jne	.LBB40_7
	testb	$4, %r14b
	jne	.LBB40_9
.LBB40_10:
	cmpl	%r13d, %edi
	je	.LBB40_13
	jmp	.LBB40_11
	.p2align	4
.LBB40_7:
	movdqu	(%rbp), %xmm3
	movdqu	16(%rbp), %xmm4
	movdqa	.LCPI40_0(%rip), %xmm5
	movdqa	%xmm4, %xmm11
	pand	%xmm5, %xmm11
	movdqa	%xmm3, %xmm10
	pand	%xmm5, %xmm10
	pmullw	%xmm2, %xmm10
	pmullw	%xmm2, %xmm11
	movdqa	.LCPI40_1(%rip), %xmm6
	paddw	%xmm6, %xmm11
	paddw	%xmm6, %xmm10
	movdqa	.LCPI40_2(%rip), %xmm7
	pmulhuw	%xmm7, %xmm10
	pmulhuw	%xmm7, %xmm11
	psrlw	$8, %xmm3
	psrlw	$8, %xmm4
	pmullw	%xmm1, %xmm4
	pmullw	%xmm1, %xmm3
	paddw	%xmm6, %xmm3
	paddw	%xmm6, %xmm4
	pmulhuw	%xmm7, %xmm4
	pmulhuw	%xmm7, %xmm3
	psllw	$8, %xmm3
	psllw	$8, %xmm4
	por	%xmm11, %xmm4
	por	%xmm10, %xmm3
	movdqu	(%r12), %xmm8
	movdqu	16(%r12), %xmm9
	pcmpeqd	%xmm14, %xmm14
	movdqa	%xmm9, %xmm0
	pxor	%xmm14, %xmm0
	pxor	%xmm8, %xmm14
	movdqa	.LCPI40_3(%rip), %xmm15
	pshufb	%xmm15, %xmm14
	pshufb	%xmm15, %xmm0
	movdqa	%xmm3, %xmm12
	pshufb	%xmm15, %xmm12
	movdqa	%xmm4, %xmm13
	pshufb	%xmm15, %xmm13
	pand	%xmm5, %xmm10
	pand	%xmm5, %xmm11
	pmullw	%xmm0, %xmm11
	pmullw	%xmm14, %xmm10
	paddw	%xmm6, %xmm10
	paddw	%xmm6, %xmm11
	pmulhuw	%xmm7, %xmm11
	pmulhuw	%xmm7, %xmm10
	psrlw	$8, %xmm4
	psrlw	$8, %xmm3
	pmullw	%xmm14, %xmm3
	pmullw	%xmm0, %xmm4
	paddw	%xmm6, %xmm4
	paddw	%xmm6, %xmm3
	pmulhuw	%xmm7, %xmm3
	pmulhuw	%xmm7, %xmm4
	psllw	$8, %xmm4
	por	%xmm11, %xmm4
	movdqa	112(%rsp), %xmm11
	psllw	$8, %xmm3
	por	%xmm10, %xmm3
	movdqa	%xmm8, %xmm0
	pand	%xmm5, %xmm0
	pand	%xmm9, %xmm5
	pmullw	%xmm13, %xmm5
	pmullw	%xmm12, %xmm0
	paddw	%xmm6, %xmm0
	paddw	%xmm6, %xmm5
	pmulhuw	%xmm7, %xmm5
	pmulhuw	%xmm7, %xmm0
	psrlw	$8, %xmm9
	psrlw	$8, %xmm8
	pmullw	%xmm12, %xmm8
	pmullw	%xmm13, %xmm9
	paddw	%xmm6, %xmm9
	paddw	%xmm6, %xmm8
	pmulhuw	%xmm7, %xmm8
	pmulhuw	%xmm7, %xmm9
	psllw	$8, %xmm9
	por	%xmm5, %xmm9
	paddusb	%xmm4, %xmm9
	psllw	$8, %xmm8
	por	%xmm0, %xmm8
	paddusb	%xmm3, %xmm8
	movdqu	%xmm8, (%r12)
	movdqu	%xmm9, 16(%r12)
	testb	$4, %r14b
	je	.LBB40_10
.LBB40_9:
	movq	48(%rsp), %rcx
	movdqu	(%rbp,%rcx), %xmm3
	movdqa	.LCPI40_0(%rip), %xmm4
	movdqa	%xmm3, %xmm8
	pand	%xmm4, %xmm8
	pmullw	%xmm2, %xmm8
	movdqa	.LCPI40_1(%rip), %xmm5
	paddw	%xmm5, %xmm8
	movdqa	.LCPI40_2(%rip), %xmm6
	pmulhuw	%xmm6, %xmm8
	psrlw	$8, %xmm3
	pmullw	%xmm1, %xmm3
	paddw	%xmm5, %xmm3
	pmulhuw	%xmm6, %xmm3
	psllw	$8, %xmm3
	por	%xmm8, %xmm3
	movdqu	(%r12,%rcx), %xmm7
	pcmpeqd	%xmm0, %xmm0
	movdqa	.LCPI40_4(%rip), %xmm9
	movdqa	%xmm7, %xmm10
	pshufb	%xmm9, %xmm10
	pxor	%xmm10, %xmm0
	pand	%xmm4, %xmm8
	pandn	%xmm4, %xmm10
	pmullw	%xmm8, %xmm10
	paddw	%xmm5, %xmm10
	pmulhuw	%xmm6, %xmm10
	movdqa	%xmm3, %xmm8
	psrlw	$8, %xmm8
	psrlw	$8, %xmm0
	pmullw	%xmm8, %xmm0
	paddw	%xmm5, %xmm0
	pmulhuw	%xmm6, %xmm0
	psllw	$8, %xmm0
	por	%xmm10, %xmm0
	pshufb	%xmm9, %xmm3
	movdqa	%xmm7, %xmm8
	pand	%xmm4, %xmm8
	pand	%xmm3, %xmm4
	pmullw	%xmm8, %xmm4
	paddw	%xmm5, %xmm4
	pmulhuw	%xmm6, %xmm4
	psrlw	$8, %xmm7
	psrlw	$8, %xmm3
	pmullw	%xmm7, %xmm3
	paddw	%xmm5, %xmm3
	pmulhuw	%xmm6, %xmm3
	psllw	$8, %xmm3
	por	%xmm4, %xmm3
	paddusb	%xmm0, %xmm3
	movdqu	%xmm3, (%r12,%rcx)
	cmpl	%r13d, %edi
	je	.LBB40_13
.LBB40_11:
	xorl	%r12d, %r12d
	.p2align	4
.LBB40_12:
	movl	(%r9,%r12,4), %edx
	movzbl	%dh, %ecx
	movzbl	%dl, %r15d
	movl	%edx, %r11d
	shrl	$16, %r11d
	shrl	$24, %edx
	movzbl	%r11b, %r11d
	movd	%r11d, %xmm0
	pinsrw	$1, %edx, %xmm0
	movl	(%r8,%r12,4), %edx
	movzbl	%dh, %ebp
	movzbl	%dl, %r11d
	movl	%edx, %r10d
	shrl	$16, %r10d
	shrl	$24, %edx
	pinsrw	$2, %ecx, %xmm0
	pinsrw	$3, %r15d, %xmm0
	movzbl	%r10b, %ecx
	movd	%ecx, %xmm3
	pinsrw	$1, %edx, %xmm3
	xorl	$255, %edx
	movd	%edx, %xmm4
	pmullw	%xmm11, %xmm0
	movdqa	.LCPI40_5(%rip), %xmm5
	paddw	%xmm5, %xmm0
	movdqa	%xmm0, %xmm6
	psrlw	$8, %xmm6
	paddw	%xmm0, %xmm6
	psrlw	$8, %xmm6
	pshuflw	$0, %xmm4, %xmm0
	pmullw	%xmm6, %xmm0
	paddw	%xmm5, %xmm0
	movdqa	%xmm0, %xmm4
	psrlw	$8, %xmm4
	paddw	%xmm0, %xmm4
	psrlw	$8, %xmm4
	packuswb	%xmm4, %xmm4
	pinsrw	$2, %ebp, %xmm3
	pinsrw	$3, %r11d, %xmm3
	pshuflw	$85, %xmm6, %xmm0
	pmullw	%xmm0, %xmm3
	paddw	%xmm5, %xmm3
	movdqa	%xmm3, %xmm0
	psrlw	$8, %xmm0
	paddw	%xmm3, %xmm0
	psrlw	$8, %xmm0
	packuswb	%xmm0, %xmm0
	paddusb	%xmm4, %xmm0
	pmovzxbd	%xmm0, %xmm0
	pmulld	.LCPI40_6(%rip), %xmm0
	pshufd	$238, %xmm0, %xmm3
	por	%xmm0, %xmm3
	pshufd	$85, %xmm3, %xmm0
	por	%xmm3, %xmm0
	movd	%xmm0, (%r8,%r12,4)
	leaq	(%rdi,%r12), %rcx
	incq	%rcx
	incq	%r12
	cmpq	%r13, %rcx
	jb	.LBB40_12
	jmp	.LBB40_13
.LBB40_14:
	movaps	128(%rsp), %xmm6
	movaps	144(%rsp), %xmm7
	movaps	160(%rsp), %xmm8
	movaps	176(%rsp), %xmm9
	movaps	192(%rsp), %xmm10
	movaps	208(%rsp), %xmm11
	movaps	224(%rsp), %xmm12
	movaps	240(%rsp), %xmm13
	movaps	256(%rsp), %xmm14
	movaps	272(%rsp), %xmm15
	addq	$296, %rsp
	popq	%rbx
	popq	%rbp
	popq	%rdi
	popq	%rsi
	popq	%r12
	popq	%r13
	popq	%r14
	popq	%r15
	retq

	.section	.rdata,"dr"
	.p2align	4, 0x0
.LCPI41_0:
	.byte	3
	.byte	128
	.byte	3
	.byte	128
	.byte	7
	.byte	128
	.byte	7
	.byte	128
	.byte	11
	.byte	128
	.byte	11
	.byte	128
	.byte	15
	.byte	128
	.byte	15
	.byte	128
.LCPI41_1:
	.byte	255
	.byte	0
	.byte	255
	.byte	0
	.byte	255
	.byte	0
	.byte	255
	.byte	0
	.byte	255
	.byte	0
	.byte	255
	.byte	0
	.byte	255
	.byte	0
	.byte	255
	.byte	0
.LCPI41_2:
	.short	128
	.short	128
	.short	128
	.short	128
	.short	128
	.short	128
	.short	128
	.short	128
.LCPI41_3:
	.zero	16,1
.LCPI41_4:
	.byte	3
	.byte	3
	.byte	3
	.byte	3
	.byte	7
	.byte	7
	.byte	7
	.byte	7
	.byte	11
	.byte	11
	.byte	11
	.byte	11
	.byte	15
	.byte	15
	.byte	15
	.byte	15
.LCPI41_5:
	.short	128
	.short	128
	.short	128
	.short	128
	.zero	2
	.zero	2
	.zero	2
	.zero	2
.LCPI41_6:
	.long	16777216
	.long	65536
	.long	256
	.long	1
	.section	".text$pix_raster::view::blit_overlap::<#64f9c87ff7b7bdd2>","xr"
	.p2align	4
"pix_raster::view::blit_overlap::<#64f9c87ff7b7bdd2>":
	pushq	%r15
	pushq	%r14
	pushq	%r13
	pushq	%r12
	pushq	%rsi
	pushq	%rdi
	pushq	%rbp
	pushq	%rbx
	subq	$248, %rsp
	movdqa	%xmm12, 224(%rsp)
	movdqa	%xmm11, 208(%rsp)
	movdqa	%xmm10, 192(%rsp)
	movdqa	%xmm9, 176(%rsp)
	movdqa	%xmm8, 160(%rsp)
	movdqa	%xmm7, 144(%rsp)
	movdqa	%xmm6, 128(%rsp)
	movq	%r9, 40(%rsp)
	movq	%r8, 32(%rsp)
	movq	%rdx, 24(%rsp)
	movq	%rcx, 16(%rsp)
	movq	352(%rsp), %rax
	movq	24(%rax), %rcx
	movq	32(%rax), %rdx
	movq	%rcx, (%rsp)
	movq	%rdx, 120(%rsp)
	cmpq	%rdx, %rcx
	jae	.LBB41_14
	movq	(%rax), %r14
	movq	16(%rax), %r15
	movq	8(%rax), %rdi
	movq	40(%rax), %rcx
	subq	%r14, %rdi
	movq	%rcx, %rax
	movq	(%rsp), %rdx
	subq	%rdx, %rax
	movq	%rax, 72(%rsp)
	movq	%rdi, %rax
	shrq	$4, %rax
	movq	%rax, 48(%rsp)
	movq	%rdi, %rax
	andq	$-16, %rax
	movq	%rax, 112(%rsp)
	leaq	(,%rax,4), %r12
	movl	%edi, %r13d
	andl	$15, %r13d
	leal	(,%rdi,4), %eax
	movl	%eax, %r8d
	andl	$32, %r8d
	movq	%r8, 56(%rsp)
	movq	%rdi, 8(%rsp)
	andl	$12, %edi
	movq	24(%rsp), %r9
	imulq	%r9, %rdx
	leaq	(,%r14,4), %r8
	leaq	(%r8,%rdx,4), %rsi
	movq	16(%rsp), %r11
	addq	%r11, %rsi
	movq	40(%rsp), %r10
	imulq	%r10, %rcx
	leaq	(,%r15,4), %r8
	leaq	(%r8,%rcx,4), %rbx
	leaq	(%r12,%rcx,4), %rcx
	andl	$48, %eax
	addq	%rax, %rcx
	movq	%r12, 64(%rsp)
	leaq	(%r12,%rdx,4), %rdx
	addq	%rax, %rdx
	leaq	(,%r9,4), %rax
	movq	%rax, 104(%rsp)
	movq	32(%rsp), %rax
	addq	%rax, %rbx
	movq	%r15, 80(%rsp)
	leaq	(%rcx,%r15,4), %r9
	addq	%rax, %r9
	movq	%r14, 88(%rsp)
	leaq	(%rdx,%r14,4), %r8
	addq	%r11, %r8
	leaq	(,%r10,4), %rax
	movq	%rax, 96(%rsp)
	jmp	.LBB41_2
	.p2align	4
.LBB41_13:
	movq	(%rsp), %rax
	incq	%rax
	movq	104(%rsp), %rcx
	addq	%rcx, %rsi
	movq	96(%rsp), %rdx
	addq	%rdx, %rbx
	addq	%rdx, %r9
	addq	%rcx, %r8
	movq	%rax, (%rsp)
	cmpq	120(%rsp), %rax
	je	.LBB41_14
.LBB41_2:
	cmpq	$0, 48(%rsp)
	je	.LBB41_5
	movl	$32, %ecx
	movq	48(%rsp), %r12
	.p2align	4
.LBB41_4:
	movdqu	-32(%rbx,%rcx), %xmm6
	movdqu	-16(%rbx,%rcx), %xmm8
	pcmpeqd	%xmm3, %xmm3
	movdqa	%xmm8, %xmm4
	movdqa	%xmm6, %xmm7
	movdqa	.LCPI41_0(%rip), %xmm5
	movdqu	-32(%rsi,%rcx), %xmm9
	movdqu	-16(%rsi,%rcx), %xmm10
	movdqa	%xmm10, %xmm1
	pxor	%xmm3, %xmm1
	movdqa	%xmm9, %xmm2
	pxor	%xmm3, %xmm2
	pshufb	%xmm5, %xmm2
	pshufb	%xmm5, %xmm1
	movdqa	.LCPI41_1(%rip), %xmm0
	movdqa	%xmm6, %xmm11
	pand	%xmm0, %xmm11
	movdqa	%xmm8, %xmm12
	pand	%xmm0, %xmm12
	pmullw	%xmm1, %xmm12
	pmullw	%xmm2, %xmm11
	psrlw	$8, %xmm6
	pmullw	%xmm2, %xmm6
	movdqa	.LCPI41_2(%rip), %xmm2
	paddw	%xmm2, %xmm12
	psrlw	$8, %xmm8
	pmullw	%xmm1, %xmm8
	movdqa	.LCPI41_3(%rip), %xmm1
	pmulhuw	%xmm1, %xmm12
	paddw	%xmm2, %xmm8
	pmulhuw	%xmm1, %xmm8
	psllw	$8, %xmm8
	por	%xmm12, %xmm8
	pxor	%xmm3, %xmm4
	pxor	%xmm3, %xmm7
	pshufb	%xmm5, %xmm7
	pshufb	%xmm5, %xmm4
	paddw	%xmm2, %xmm11
	pmulhuw	%xmm1, %xmm11
	paddw	%xmm2, %xmm6
	pmulhuw	%xmm1, %xmm6
	psllw	$8, %xmm6
	por	%xmm11, %xmm6
	movdqa	%xmm9, %xmm11
	pand	%xmm0, %xmm11
	pmullw	%xmm7, %xmm11
	psrlw	$8, %xmm9
	pmullw	%xmm7, %xmm9
	movdqa	%xmm10, %xmm7
	pand	%xmm0, %xmm7
	pmullw	%xmm4, %xmm7
	psrlw	$8, %xmm10
	pmullw	%xmm4, %xmm10
	movdqu	(%rsi,%rcx), %xmm4
	paddw	%xmm2, %xmm7
	pmulhuw	%xmm1, %xmm7
	paddw	%xmm2, %xmm10
	pmulhuw	%xmm1, %xmm10
	psllw	$8, %xmm10
	por	%xmm7, %xmm10
	movdqu	16(%rsi,%rcx), %xmm7
	paddw	%xmm2, %xmm11
	pmulhuw	%xmm1, %xmm11
	paddw	%xmm2, %xmm9
	pmulhuw	%xmm1, %xmm9
	paddusb	%xmm8, %xmm10
	psllw	$8, %xmm9
	por	%xmm11, %xmm9
	paddusb	%xmm6, %xmm9
	movdqu	%xmm9, -32(%rsi,%rcx)
	movdqu	%xmm10, -16(%rsi,%rcx)
	movdqu	(%rbx,%rcx), %xmm6
	movdqu	16(%rbx,%rcx), %xmm8
	movdqa	%xmm8, %xmm9
	pxor	%xmm3, %xmm9
	movdqa	%xmm6, %xmm10
	pxor	%xmm3, %xmm10
	pshufb	%xmm5, %xmm10
	pshufb	%xmm5, %xmm9
	movdqa	%xmm7, %xmm11
	pxor	%xmm3, %xmm11
	pxor	%xmm4, %xmm3
	pshufb	%xmm5, %xmm3
	pshufb	%xmm5, %xmm11
	movdqa	%xmm6, %xmm5
	pand	%xmm0, %xmm5
	pmullw	%xmm3, %xmm5
	psrlw	$8, %xmm6
	pmullw	%xmm3, %xmm6
	movdqa	%xmm8, %xmm3
	pand	%xmm0, %xmm3
	pmullw	%xmm11, %xmm3
	psrlw	$8, %xmm8
	pmullw	%xmm11, %xmm8
	paddw	%xmm2, %xmm3
	pmulhuw	%xmm1, %xmm3
	paddw	%xmm2, %xmm8
	pmulhuw	%xmm1, %xmm8
	psllw	$8, %xmm8
	por	%xmm3, %xmm8
	paddw	%xmm2, %xmm5
	pmulhuw	%xmm1, %xmm5
	paddw	%xmm2, %xmm6
	pmulhuw	%xmm1, %xmm6
	psllw	$8, %xmm6
	por	%xmm5, %xmm6
	movdqa	%xmm4, %xmm3
	pand	%xmm0, %xmm3
	pmullw	%xmm10, %xmm3
	psrlw	$8, %xmm4
	pmullw	%xmm10, %xmm4
	pand	%xmm7, %xmm0
	pmullw	%xmm9, %xmm0
	psrlw	$8, %xmm7
	pmullw	%xmm9, %xmm7
	paddw	%xmm2, %xmm3
	paddw	%xmm2, %xmm0
	paddw	%xmm2, %xmm7
	paddw	%xmm2, %xmm4
	pmulhuw	%xmm1, %xmm0
	pmulhuw	%xmm1, %xmm3
	pmulhuw	%xmm1, %xmm4
	pmulhuw	%xmm1, %xmm7
	psllw	$8, %xmm7
	por	%xmm0, %xmm7
	paddusb	%xmm8, %xmm7
	psllw	$8, %xmm4
	por	%xmm3, %xmm4
	paddusb	%xmm6, %xmm4
	movdqu	%xmm4, (%rsi,%rcx)
	movdqu	%xmm7, 16(%rsi,%rcx)
	addq	$64, %rcx
	decq	%r12
	jne	.LBB41_4
.LBB41_5:
	movq	112(%rsp), %rax
	cmpq	8(%rsp), %rax
	je	.LBB41_13
	movq	(%rsp), %rcx
	movq	%rcx, %rax
	imulq	24(%rsp), %rax
	addq	88(%rsp), %rax
	movq	72(%rsp), %rdx
	addq	%rcx, %rdx
	imulq	40(%rsp), %rdx
	addq	80(%rsp), %rdx
	movq	16(%rsp), %rcx
	leaq	(%rcx,%rax,4), %rcx
	movq	32(%rsp), %rax
	leaq	(%rax,%rdx,4), %r12
	movq	64(%rsp), %rax
	addq	%rax, %rcx
	addq	%rax, %r12
	testb	$8, 8(%rsp)
	jne	.LBB41_7
	testb	$4, 8(%rsp)
	jne	.LBB41_9
.LBB41_10:
	cmpl	%r13d, %edi
	je	.LBB41_13
	jmp	.LBB41_11
	.p2align	4
.LBB41_7:
	movdqu	(%r12), %xmm0
	movdqu	16(%r12), %xmm3
	movdqu	(%rcx), %xmm1
	movdqu	16(%rcx), %xmm2
	pcmpeqd	%xmm9, %xmm9
	movdqa	%xmm3, %xmm4
	pxor	%xmm9, %xmm4
	movdqa	%xmm0, %xmm5
	pxor	%xmm9, %xmm5
	movdqa	.LCPI41_0(%rip), %xmm6
	pshufb	%xmm6, %xmm5
	pshufb	%xmm6, %xmm4
	movdqa	%xmm2, %xmm12
	pxor	%xmm9, %xmm12
	pxor	%xmm1, %xmm9
	pshufb	%xmm6, %xmm9
	pshufb	%xmm6, %xmm12
	movdqa	.LCPI41_1(%rip), %xmm6
	movdqa	%xmm0, %xmm10
	pand	%xmm6, %xmm10
	movdqa	%xmm3, %xmm11
	pand	%xmm6, %xmm11
	pmullw	%xmm12, %xmm11
	pmullw	%xmm9, %xmm10
	movdqa	.LCPI41_2(%rip), %xmm7
	paddw	%xmm7, %xmm10
	paddw	%xmm7, %xmm11
	movdqa	.LCPI41_3(%rip), %xmm8
	pmulhuw	%xmm8, %xmm11
	pmulhuw	%xmm8, %xmm10
	psrlw	$8, %xmm3
	psrlw	$8, %xmm0
	pmullw	%xmm9, %xmm0
	pmullw	%xmm12, %xmm3
	paddw	%xmm7, %xmm3
	paddw	%xmm7, %xmm0
	pmulhuw	%xmm8, %xmm0
	pmulhuw	%xmm8, %xmm3
	psllw	$8, %xmm3
	por	%xmm11, %xmm3
	psllw	$8, %xmm0
	por	%xmm10, %xmm0
	movdqa	%xmm1, %xmm9
	pand	%xmm6, %xmm9
	pand	%xmm2, %xmm6
	pmullw	%xmm4, %xmm6
	pmullw	%xmm5, %xmm9
	paddw	%xmm7, %xmm9
	paddw	%xmm7, %xmm6
	pmulhuw	%xmm8, %xmm6
	pmulhuw	%xmm8, %xmm9
	psrlw	$8, %xmm2
	psrlw	$8, %xmm1
	pmullw	%xmm5, %xmm1
	pmullw	%xmm4, %xmm2
	paddw	%xmm7, %xmm2
	paddw	%xmm7, %xmm1
	pmulhuw	%xmm8, %xmm1
	pmulhuw	%xmm8, %xmm2
	psllw	$8, %xmm2
	por	%xmm6, %xmm2
	paddusb	%xmm3, %xmm2
	psllw	$8, %xmm1
	por	%xmm9, %xmm1
	paddusb	%xmm0, %xmm1
	movdqu	%xmm1, (%rcx)
	movdqu	%xmm2, 16(%rcx)
	testb	$4, 8(%rsp)
	je	.LBB41_10
.LBB41_9:
	movq	56(%rsp), %rax
	movdqu	(%r12,%rax), %xmm1
	movdqu	(%rcx,%rax), %xmm3
	pcmpeqd	%xmm0, %xmm0
	movdqa	.LCPI41_4(%rip), %xmm7
	movdqa	%xmm3, %xmm8
	pshufb	%xmm7, %xmm8
	movdqa	%xmm8, %xmm2
	pxor	%xmm0, %xmm2
	movdqa	.LCPI41_1(%rip), %xmm6
	movdqa	%xmm1, %xmm4
	pand	%xmm6, %xmm4
	pandn	%xmm6, %xmm8
	pmullw	%xmm4, %xmm8
	movdqa	.LCPI41_2(%rip), %xmm4
	paddw	%xmm4, %xmm8
	movdqa	.LCPI41_3(%rip), %xmm5
	pmulhuw	%xmm5, %xmm8
	movdqa	%xmm1, %xmm9
	psrlw	$8, %xmm9
	psrlw	$8, %xmm2
	pmullw	%xmm9, %xmm2
	paddw	%xmm4, %xmm2
	pmulhuw	%xmm5, %xmm2
	psllw	$8, %xmm2
	por	%xmm8, %xmm2
	pshufb	%xmm7, %xmm1
	pxor	%xmm1, %xmm0
	movdqa	%xmm3, %xmm7
	pand	%xmm6, %xmm7
	pandn	%xmm6, %xmm1
	pmullw	%xmm7, %xmm1
	paddw	%xmm4, %xmm1
	pmulhuw	%xmm5, %xmm1
	psrlw	$8, %xmm3
	psrlw	$8, %xmm0
	pmullw	%xmm3, %xmm0
	paddw	%xmm4, %xmm0
	pmulhuw	%xmm5, %xmm0
	psllw	$8, %xmm0
	por	%xmm1, %xmm0
	paddusb	%xmm2, %xmm0
	movdqu	%xmm0, (%rcx,%rax)
	cmpl	%r13d, %edi
	je	.LBB41_13
.LBB41_11:
	xorl	%ecx, %ecx
	.p2align	4
.LBB41_12:
	movl	(%r9,%rcx,4), %eax
	movzbl	%ah, %edx
	movl	%eax, %r12d
	movzbl	%al, %r15d
	movl	%eax, %r11d
	movl	(%r8,%rcx,4), %eax
	movzbl	%ah, %ebp
	movzbl	%al, %r10d
	movl	%eax, %r14d
	shrl	$24, %eax
	movd	%eax, %xmm0
	xorl	$255, %eax
	movd	%eax, %xmm1
	shrl	$16, %r11d
	shrl	$24, %r12d
	shrl	$16, %r14d
	movzbl	%r11b, %eax
	movzbl	%r14b, %r11d
	pshuflw	$0, %xmm1, %xmm1
	movd	%r12d, %xmm2
	pinsrw	$1, %eax, %xmm2
	pinsrw	$2, %edx, %xmm2
	pinsrw	$3, %r15d, %xmm2
	xorl	$255, %r12d
	pmullw	%xmm1, %xmm2
	movdqa	.LCPI41_5(%rip), %xmm1
	paddw	%xmm1, %xmm2
	movdqa	%xmm2, %xmm3
	psrlw	$8, %xmm3
	paddw	%xmm2, %xmm3
	psrlw	$8, %xmm3
	packuswb	%xmm3, %xmm3
	movd	%r12d, %xmm2
	pinsrw	$1, %r11d, %xmm0
	pinsrw	$2, %ebp, %xmm0
	pinsrw	$3, %r10d, %xmm0
	pshuflw	$0, %xmm2, %xmm2
	pmullw	%xmm2, %xmm0
	paddw	%xmm1, %xmm0
	movdqa	%xmm0, %xmm1
	psrlw	$8, %xmm1
	paddw	%xmm0, %xmm1
	psrlw	$8, %xmm1
	packuswb	%xmm1, %xmm1
	paddusb	%xmm3, %xmm1
	pmovzxbd	%xmm1, %xmm0
	pmulld	.LCPI41_6(%rip), %xmm0
	pshufd	$238, %xmm0, %xmm1
	por	%xmm0, %xmm1
	pshufd	$85, %xmm1, %xmm0
	por	%xmm1, %xmm0
	movd	%xmm0, (%r8,%rcx,4)
	leaq	(%rdi,%rcx), %rax
	incq	%rax
	incq	%rcx
	cmpq	%r13, %rax
	jb	.LBB41_12
	jmp	.LBB41_13
.LBB41_14:
	movaps	128(%rsp), %xmm6
	movaps	144(%rsp), %xmm7
	movaps	160(%rsp), %xmm8
	movaps	176(%rsp), %xmm9
	movaps	192(%rsp), %xmm10
	movaps	208(%rsp), %xmm11
	movaps	224(%rsp), %xmm12
	addq	$248, %rsp
	popq	%rbx
	popq	%rbp
	popq	%rdi
	popq	%rsi
	popq	%r12
	popq	%r13
	popq	%r14
	popq	%r15
	retq

	.section	.rdata,"dr"
	.p2align	4, 0x0
.LCPI42_0:
	.byte	255
	.byte	0
	.byte	255
	.byte	0
	.byte	255
	.byte	0
	.byte	255
	.byte	0
	.byte	255
	.byte	0
	.byte	255
	.byte	0
	.byte	255
	.byte	0
	.byte	255
	.byte	0
.LCPI42_1:
	.short	128
	.short	128
	.short	128
	.short	128
	.short	128
	.short	128
	.short	128
	.short	128
.LCPI42_2:
	.zero	16,1
.LCPI42_3:
	.byte	3
	.byte	128
	.byte	3
	.byte	128
	.byte	7
	.byte	128
	.byte	7
	.byte	128
	.byte	11
	.byte	128
	.byte	11
	.byte	128
	.byte	15
	.byte	128
	.byte	15
	.byte	128
.LCPI42_4:
	.byte	3
	.byte	3
	.byte	3
	.byte	3
	.byte	7
	.byte	7
	.byte	7
	.byte	7
	.byte	11
	.byte	11
	.byte	11
	.byte	11
	.byte	15
	.byte	15
	.byte	15
	.byte	15
.LCPI42_5:
	.short	128
	.short	128
	.short	128
	.short	128
	.zero	2
	.zero	2
	.zero	2
	.zero	2
.LCPI42_6:
	.long	16777216
	.long	65536
	.long	256
	.long	1
	.section	".text$pix_raster::view::blit_overlap::<#0658d1f93ab37b52>","xr"
	.p2align	4
"pix_raster::view::blit_overlap::<#0658d1f93ab37b52>":
	pushq	%r15
	pushq	%r14
	pushq	%r13
	pushq	%r12
	pushq	%rsi
	pushq	%rdi
	pushq	%rbp
	pushq	%rbx
	subq	$296, %rsp
	movdqa	%xmm15, 272(%rsp)
	movdqa	%xmm14, 256(%rsp)
	movdqa	%xmm13, 240(%rsp)
	movdqa	%xmm12, 224(%rsp)
	movdqa	%xmm11, 208(%rsp)
	movdqa	%xmm10, 192(%rsp)
	movdqa	%xmm9, 176(%rsp)
	movdqa	%xmm8, 160(%rsp)
	movdqa	%xmm7, 144(%rsp)
	movdqa	%xmm6, 128(%rsp)
	movq	%rdx, 32(%rsp)
	movq	%rcx, 24(%rsp)
	movq	400(%rsp), %rax
	movq	24(%rax), %r10
	movq	32(%rax), %rcx
	movq	%rcx, 104(%rsp)
	cmpq	%rcx, %r10
	jae	.LBB42_18
	movl	408(%rsp), %edx
	movq	(%rax), %rbp
	movq	16(%rax), %r11
	leaq	(%r8,%r11), %rcx
	movq	%rcx, 72(%rsp)
	movq	8(%rax), %rdi
	movq	40(%rax), %rcx
	subq	%rbp, %rdi
	movq	%rcx, %rax
	subq	%r10, %rax
	movq	%rax, 64(%rsp)
	movq	%rdi, %r14
	shrq	$4, %r14
	movl	%edx, %ebx
	shrl	$24, %ebx
	movl	%edx, %esi
	shrl	$16, %esi
	movl	%edx, %eax
	shrl	$8, %eax
	movd	%edx, %xmm0
	pinsrb	$1, %eax, %xmm0
	pinsrb	$2, %esi, %xmm0
	pinsrb	$3, %ebx, %xmm0
	pinsrb	$4, %edx, %xmm0
	pinsrb	$5, %eax, %xmm0
	pinsrb	$6, %esi, %xmm0
	pinsrb	$7, %ebx, %xmm0
	pinsrb	$8, %edx, %xmm0
	pinsrb	$9, %eax, %xmm0
	pinsrb	$10, %esi, %xmm0
	pinsrb	$11, %ebx, %xmm0
	pinsrb	$12, %edx, %xmm0
	pinsrb	$13, %eax, %xmm0
	pinsrb	$14, %esi, %xmm0
	movdqa	.LCPI42_0(%rip), %xmm1
	pand	%xmm0, %xmm1
	pinsrb	$15, %ebx, %xmm0
	psrlw	$8, %xmm0
	movq	%rdi, %r13
	andq	$-16, %r13
	movl	%edi, %r12d
	andl	$15, %r12d
	movl	%edi, %eax
	andl	$8, %eax
	movq	%rax, 16(%rsp)
	movq	%rdi, 8(%rsp)
	andl	$12, %edi
	movzbl	%sil, %eax
	leaq	(,%r13,4), %r15
	movd	%ebx, %xmm12
	pinsrw	$1, %eax, %xmm12
	movzbl	%dh, %eax
	movzbl	%dl, %edx
	pinsrw	$2, %eax, %xmm12
	pinsrw	$3, %edx, %xmm12
	movq	%r14, 96(%rsp)
	leaq	(,%r14,4), %rsi
	movq	%r10, %rax
	movq	32(%rsp), %rbx
	imulq	%rbx, %rax
	imulq	%r9, %rcx
	addq	%r11, %rcx
	movq	%r13, 48(%rsp)
	leaq	(%rdi,%r13), %r14
	addq	%r8, %r14
	addq	%rcx, %r8
	addq	$8, %r8
	addq	%rcx, %r14
	movq	%rbp, %rdx
	leaq	(%rax,%rbp), %rcx
	movq	24(%rsp), %r11
	leaq	(%r11,%rcx,4), %rbp
	movq	%r15, 56(%rsp)
	leaq	(%r15,%rax,4), %rax
	movq	%rdi, 40(%rsp)
	leaq	(%rax,%rdi,4), %rax
	movq	%rdx, 80(%rsp)
	leaq	(%rax,%rdx,4), %rdx
	addq	%r11, %rdx
	leaq	(,%rbx,4), %rax
	movq	%rax, 88(%rsp)
	movdqa	%xmm12, 112(%rsp)
	jmp	.LBB42_2
	.p2align	4
.LBB42_17:
	incq	%r10
	movq	88(%rsp), %rax
	addq	%rax, %rbp
	addq	%r9, %r8
	addq	%r9, %r14
	addq	%rax, %rdx
	cmpq	104(%rsp), %r10
	je	.LBB42_18
.LBB42_2:
	cmpq	$0, 96(%rsp)
	je	.LBB42_7
	xorl	%ecx, %ecx
	movq	%rbp, %r11
	jmp	.LBB42_4
	.p2align	4
.LBB42_6:
	addq	$4, %rcx
	addq	$64, %r11
	cmpq	%rcx, %rsi
	je	.LBB42_7
.LBB42_4:
	movq	-8(%r8,%rcx,4), %rax
	movq	(%r8,%rcx,4), %rdi
	orq	%rax, %rdi
	je	.LBB42_6
	movq	%rax, %xmm10
	punpcklbw	%xmm10, %xmm10
	movdqa	%xmm10, %xmm11
	punpckhwd	%xmm10, %xmm11
	punpcklwd	%xmm10, %xmm10
	movdqa	.LCPI42_0(%rip), %xmm3
	movdqa	%xmm10, %xmm14
	pand	%xmm3, %xmm14
	movdqa	%xmm11, %xmm7
	pand	%xmm3, %xmm7
	pmullw	%xmm1, %xmm7
	pmullw	%xmm1, %xmm14
	movdqa	.LCPI42_1(%rip), %xmm5
	paddw	%xmm5, %xmm14
	paddw	%xmm5, %xmm7
	movdqa	.LCPI42_2(%rip), %xmm4
	pmulhuw	%xmm4, %xmm7
	pmulhuw	%xmm4, %xmm14
	psrlw	$8, %xmm11
	psrlw	$8, %xmm10
	pmullw	%xmm0, %xmm10
	pmullw	%xmm0, %xmm11
	paddw	%xmm5, %xmm11
	paddw	%xmm5, %xmm10
	pmulhuw	%xmm4, %xmm10
	pmulhuw	%xmm4, %xmm11
	psllw	$8, %xmm11
	psllw	$8, %xmm10
	por	%xmm14, %xmm10
	por	%xmm7, %xmm11
	pcmpeqd	%xmm8, %xmm8
	movdqa	%xmm11, %xmm15
	pxor	%xmm8, %xmm15
	movdqa	%xmm10, %xmm2
	pxor	%xmm8, %xmm2
	movdqa	.LCPI42_3(%rip), %xmm9
	pshufb	%xmm9, %xmm2
	pshufb	%xmm9, %xmm15
	movdqu	(%r11), %xmm12
	movdqu	16(%r11), %xmm13
	movdqa	%xmm12, %xmm6
	pxor	%xmm8, %xmm6
	pshufb	%xmm9, %xmm6
	pand	%xmm3, %xmm14
	pmullw	%xmm6, %xmm14
	psrlw	$8, %xmm10
	pmullw	%xmm6, %xmm10
	movdqa	%xmm13, %xmm6
	pxor	%xmm8, %xmm6
	pshufb	%xmm9, %xmm6
	pand	%xmm3, %xmm7
	pmullw	%xmm6, %xmm7
	psrlw	$8, %xmm11
	pmullw	%xmm6, %xmm11
	movdqu	32(%r11), %xmm6
	paddw	%xmm5, %xmm7
	pmulhuw	%xmm4, %xmm7
	paddw	%xmm5, %xmm11
	pmulhuw	%xmm4, %xmm11
	psllw	$8, %xmm11
	por	%xmm7, %xmm11
	movdqu	48(%r11), %xmm7
	paddw	%xmm5, %xmm14
	pmulhuw	%xmm4, %xmm14
	paddw	%xmm5, %xmm10
	pmulhuw	%xmm4, %xmm10
	psllw	$8, %xmm10
	por	%xmm14, %xmm10
	movdqa	%xmm12, %xmm14
	pand	%xmm3, %xmm14
	pmullw	%xmm2, %xmm14
	psrlw	$8, %xmm12
	pmullw	%xmm2, %xmm12
	movdqa	%xmm13, %xmm2
	pand	%xmm3, %xmm2
	pmullw	%xmm15, %xmm2
	paddw	%xmm5, %xmm14
	paddw	%xmm5, %xmm2
	pmulhuw	%xmm4, %xmm2
	pmulhuw	%xmm4, %xmm14
	psrlw	$8, %xmm13
	pmullw	%xmm15, %xmm13
	paddw	%xmm5, %xmm13
	paddw	%xmm5, %xmm12
	pmulhuw	%xmm4, %xmm12
	pmulhuw	%xmm4, %xmm13
	psllw	$8, %xmm13
	por	%xmm2, %xmm13
	paddusb	%xmm11, %xmm13
	psllw	$8, %xmm12
	por	%xmm14, %xmm12
	paddusb	%xmm10, %xmm12
	movdqu	%xmm12, (%r11)
	movdqu	%xmm13, 16(%r11)
	movq	(%r8,%rcx,4), %xmm10
	punpcklbw	%xmm10, %xmm10
	movdqa	%xmm10, %xmm11
	punpckhwd	%xmm10, %xmm11
	punpcklwd	%xmm10, %xmm10
	movdqa	%xmm10, %xmm12
	pand	%xmm3, %xmm12
	movdqa	%xmm11, %xmm2
	pand	%xmm3, %xmm2
	pmullw	%xmm1, %xmm2
	pmullw	%xmm1, %xmm12
	paddw	%xmm5, %xmm12
	paddw	%xmm5, %xmm2
	pmulhuw	%xmm4, %xmm2
	pmulhuw	%xmm4, %xmm12
	psrlw	$8, %xmm11
	psrlw	$8, %xmm10
	pmullw	%xmm0, %xmm10
	pmullw	%xmm0, %xmm11
	paddw	%xmm5, %xmm11
	paddw	%xmm5, %xmm10
	pmulhuw	%xmm4, %xmm10
	pmulhuw	%xmm4, %xmm11
	psllw	$8, %xmm11
	psllw	$8, %xmm10
	por	%xmm12, %xmm10
	por	%xmm2, %xmm11
	movdqa	%xmm11, %xmm13
	pxor	%xmm8, %xmm13
	movdqa	%xmm10, %xmm14
	pxor	%xmm8, %xmm14
	pshufb	%xmm9, %xmm14
	pshufb	%xmm9, %xmm13
	movdqa	%xmm7, %xmm15
	pxor	%xmm8, %xmm15
	pxor	%xmm6, %xmm8
	pshufb	%xmm9, %xmm8
	pshufb	%xmm9, %xmm15
	pand	%xmm3, %xmm12
	pmullw	%xmm8, %xmm12
	psrlw	$8, %xmm10
	pmullw	%xmm8, %xmm10
	pand	%xmm3, %xmm2
	pmullw	%xmm15, %xmm2
	psrlw	$8, %xmm11
	pmullw	%xmm15, %xmm11
	paddw	%xmm5, %xmm2
	pmulhuw	%xmm4, %xmm2
	paddw	%xmm5, %xmm11
	pmulhuw	%xmm4, %xmm11
	psllw	$8, %xmm11
	por	%xmm2, %xmm11
	paddw	%xmm5, %xmm12
	pmulhuw	%xmm4, %xmm12
	paddw	%xmm5, %xmm10
	pmulhuw	%xmm4, %xmm10
	psllw	$8, %xmm10
	por	%xmm12, %xmm10
	movdqa	112(%rsp), %xmm12
	movdqa	%xmm6, %xmm2
	pand	%xmm3, %xmm2
	pmullw	%xmm14, %xmm2
	psrlw	$8, %xmm6
	pmullw	%xmm14, %xmm6
	pand	%xmm7, %xmm3
	pmullw	%xmm13, %xmm3
	psrlw	$8, %xmm7
	pmullw	%xmm13, %xmm7
	paddw	%xmm5, %xmm2
	paddw	%xmm5, %xmm3
	paddw	%xmm5, %xmm7
	paddw	%xmm5, %xmm6
	pmulhuw	%xmm4, %xmm3
	pmulhuw	%xmm4, %xmm2
	pmulhuw	%xmm4, %xmm6
	pmulhuw	%xmm4, %xmm7
	psllw	$8, %xmm7
	por	%xmm3, %xmm7
	paddusb	%xmm11, %xmm7
	psllw	$8, %xmm6
	por	%xmm2, %xmm6
	paddusb	%xmm10, %xmm6
	movdqu	%xmm6, 32(%r11)
	movdqu	%xmm7, 48(%r11)
	jmp	.LBB42_6
	.p2align	4
.LBB42_7:
	movq	48(%rsp), %rax
	cmpq	8(%rsp), %rax
	je	.LBB42_17
	movq	%r10, %rax
	imulq	32(%rsp), %rax
	addq	80(%rsp), %rax
	movq	64(%rsp), %rcx
	leaq	(%rcx,%r10), %r11
	imulq	%r9, %r11
	addq	72(%rsp), %r11
	movq	24(%rsp), %rcx
	leaq	(%rcx,%rax,4), %rcx
	addq	56(%rsp), %rcx
	addq	48(%rsp), %r11
	testb	$8, 8(%rsp)
	je	.LBB42_11
	movq	(%r11), %rax
	testq	%rax, %rax
	je	.LBB42_11
	movq	%rax, %xmm3
	punpcklbw	%xmm3, %xmm3
	movdqa	%xmm3, %xmm4
	punpckhwd	%xmm3, %xmm4
	punpcklwd	%xmm3, %xmm3
	movdqa	.LCPI42_0(%rip), %xmm5
	movdqa	%xmm3, %xmm10
	pand	%xmm5, %xmm10
	movdqa	%xmm4, %xmm11
	pand	%xmm5, %xmm11
	pmullw	%xmm1, %xmm11
	pmullw	%xmm1, %xmm10
	movdqa	.LCPI42_1(%rip), %xmm6
	paddw	%xmm6, %xmm10
	paddw	%xmm6, %xmm11
	movdqa	.LCPI42_2(%rip), %xmm7
	pmulhuw	%xmm7, %xmm11
	pmulhuw	%xmm7, %xmm10
	psrlw	$8, %xmm4
	psrlw	$8, %xmm3
	pmullw	%xmm0, %xmm3
	pmullw	%xmm0, %xmm4
	paddw	%xmm6, %xmm4
	paddw	%xmm6, %xmm3
	pmulhuw	%xmm7, %xmm3
	pmulhuw	%xmm7, %xmm4
	psllw	$8, %xmm4
	psllw	$8, %xmm3
	por	%xmm10, %xmm3
	por	%xmm11, %xmm4
	movdqu	(%rcx), %xmm8
	movdqu	16(%rcx), %xmm9
	pcmpeqd	%xmm13, %xmm13
	movdqa	%xmm4, %xmm2
	pxor	%xmm13, %xmm2
	movdqa	%xmm3, %xmm12
	pxor	%xmm13, %xmm12
	movdqa	.LCPI42_3(%rip), %xmm14
	pshufb	%xmm14, %xmm12
	pshufb	%xmm14, %xmm2
	movdqa	%xmm9, %xmm15
	pxor	%xmm13, %xmm15
	pxor	%xmm8, %xmm13
	pshufb	%xmm14, %xmm13
	pshufb	%xmm14, %xmm15
	pand	%xmm5, %xmm10
	pand	%xmm5, %xmm11
	pmullw	%xmm15, %xmm11
	pmullw	%xmm13, %xmm10
	paddw	%xmm6, %xmm10
	paddw	%xmm6, %xmm11
	pmulhuw	%xmm7, %xmm11
	pmulhuw	%xmm7, %xmm10
	psrlw	$8, %xmm4
	psrlw	$8, %xmm3
	pmullw	%xmm13, %xmm3
	pmullw	%xmm15, %xmm4
	paddw	%xmm6, %xmm4
	paddw	%xmm6, %xmm3
	pmulhuw	%xmm7, %xmm3
	pmulhuw	%xmm7, %xmm4
	psllw	$8, %xmm4
	por	%xmm11, %xmm4
	psllw	$8, %xmm3
	por	%xmm10, %xmm3
	movdqa	%xmm8, %xmm10
	pand	%xmm5, %xmm10
	pand	%xmm9, %xmm5
	pmullw	%xmm2, %xmm5
	pmullw	%xmm12, %xmm10
	paddw	%xmm6, %xmm10
	paddw	%xmm6, %xmm5
	pmulhuw	%xmm7, %xmm5
	pmulhuw	%xmm7, %xmm10
	psrlw	$8, %xmm9
	psrlw	$8, %xmm8
	pmullw	%xmm12, %xmm8
	movdqa	112(%rsp), %xmm12
	pmullw	%xmm2, %xmm9
	paddw	%xmm6, %xmm9
	paddw	%xmm6, %xmm8
	pmulhuw	%xmm7, %xmm8
	pmulhuw	%xmm7, %xmm9
	psllw	$8, %xmm9
	por	%xmm5, %xmm9
	paddusb	%xmm4, %xmm9
	psllw	$8, %xmm8
	por	%xmm10, %xmm8
	paddusb	%xmm3, %xmm8
	movdqu	%xmm8, (%rcx)
	movdqu	%xmm9, 16(%rcx)
.LBB42_11:
	testb	$4, 8(%rsp)
	je	.LBB42_14
	movq	16(%rsp), %rax
	movl	(%r11,%rax), %eax
	testl	%eax, %eax
	je	.LBB42_14
	movd	%eax, %xmm2
	punpcklbw	%xmm2, %xmm2
	punpcklwd	%xmm2, %xmm2
	movdqa	.LCPI42_0(%rip), %xmm5
	movdqa	%xmm2, %xmm9
	pand	%xmm5, %xmm9
	pmullw	%xmm1, %xmm9
	movdqa	.LCPI42_1(%rip), %xmm3
	paddw	%xmm3, %xmm9
	movdqa	.LCPI42_2(%rip), %xmm4
	pmulhuw	%xmm4, %xmm9
	psrlw	$8, %xmm2
	pmullw	%xmm0, %xmm2
	paddw	%xmm3, %xmm2
	pmulhuw	%xmm4, %xmm2
	psllw	$8, %xmm2
	por	%xmm9, %xmm2
	movq	16(%rsp), %rax
	movdqu	(%rcx,%rax,4), %xmm8
	pcmpeqd	%xmm6, %xmm6
	movdqa	.LCPI42_4(%rip), %xmm10
	movdqa	%xmm8, %xmm11
	pshufb	%xmm10, %xmm11
	movdqa	%xmm11, %xmm7
	pxor	%xmm6, %xmm7
	pand	%xmm5, %xmm9
	pandn	%xmm5, %xmm11
	pmullw	%xmm9, %xmm11
	paddw	%xmm3, %xmm11
	pmulhuw	%xmm4, %xmm11
	movdqa	%xmm2, %xmm9
	psrlw	$8, %xmm9
	psrlw	$8, %xmm7
	pmullw	%xmm9, %xmm7
	paddw	%xmm3, %xmm7
	pmulhuw	%xmm4, %xmm7
	psllw	$8, %xmm7
	por	%xmm11, %xmm7
	pshufb	%xmm10, %xmm2
	pxor	%xmm2, %xmm6
	movdqa	%xmm8, %xmm9
	pand	%xmm5, %xmm9
	pandn	%xmm5, %xmm2
	pmullw	%xmm9, %xmm2
	paddw	%xmm3, %xmm2
	pmulhuw	%xmm4, %xmm2
	psrlw	$8, %xmm8
	psrlw	$8, %xmm6
	pmullw	%xmm8, %xmm6
	paddw	%xmm3, %xmm6
	pmulhuw	%xmm4, %xmm6
	psllw	$8, %xmm6
	por	%xmm2, %xmm6
	paddusb	%xmm7, %xmm6
	movdqu	%xmm6, (%rcx,%rax,4)
.LBB42_14:
	cmpl	%r12d, 40(%rsp)
	je	.LBB42_17
	xorl	%ecx, %ecx
	movq	40(%rsp), %r11
	.p2align	4
.LBB42_16:
	movl	(%rdx,%rcx,4), %eax
	movzbl	%ah, %edi
	movl	%eax, %ebx
	movzbl	%al, %r13d
	movl	%eax, %r15d
	shrl	$16, %r15d
	shrl	$24, %ebx
	movzbl	(%r14,%rcx), %eax
	movd	%eax, %xmm2
	pshuflw	$0, %xmm2, %xmm2
	pmullw	%xmm12, %xmm2
	movd	%ebx, %xmm3
	xorl	$255, %ebx
	movzbl	%r15b, %eax
	movdqa	.LCPI42_5(%rip), %xmm4
	paddw	%xmm4, %xmm2
	movdqa	%xmm2, %xmm5
	psrlw	$8, %xmm5
	paddw	%xmm2, %xmm5
	pextrb	$1, %xmm5, %r15d
	psrlw	$8, %xmm5
	xorl	$255, %r15d
	movd	%ebx, %xmm2
	pshuflw	$0, %xmm2, %xmm2
	pmullw	%xmm5, %xmm2
	paddw	%xmm4, %xmm2
	movdqa	%xmm2, %xmm5
	psrlw	$8, %xmm5
	paddw	%xmm2, %xmm5
	psrlw	$8, %xmm5
	packuswb	%xmm5, %xmm5
	movd	%r15d, %xmm2
	pinsrw	$1, %eax, %xmm3
	pinsrw	$2, %edi, %xmm3
	pinsrw	$3, %r13d, %xmm3
	pshuflw	$0, %xmm2, %xmm2
	pmullw	%xmm2, %xmm3
	paddw	%xmm4, %xmm3
	movdqa	%xmm3, %xmm2
	psrlw	$8, %xmm2
	paddw	%xmm3, %xmm2
	psrlw	$8, %xmm2
	packuswb	%xmm2, %xmm2
	paddusb	%xmm5, %xmm2
	pmovzxbd	%xmm2, %xmm2
	pmulld	.LCPI42_6(%rip), %xmm2
	pshufd	$238, %xmm2, %xmm3
	por	%xmm2, %xmm3
	pshufd	$85, %xmm3, %xmm2
	por	%xmm3, %xmm2
	movd	%xmm2, (%rdx,%rcx,4)
	incq	%r11
	incq	%rcx
	cmpq	%r12, %r11
	jb	.LBB42_16
	jmp	.LBB42_17
.LBB42_18:
	movaps	128(%rsp), %xmm6
	movaps	144(%rsp), %xmm7
	movaps	160(%rsp), %xmm8
	movaps	176(%rsp), %xmm9
	movaps	192(%rsp), %xmm10
	movaps	208(%rsp), %xmm11
	movaps	224(%rsp), %xmm12
	movaps	240(%rsp), %xmm13
	movaps	256(%rsp), %xmm14
	movaps	272(%rsp), %xmm15
	addq	$296, %rsp
	popq	%rbx
	popq	%rbp
	popq	%rdi
	popq	%rsi
	popq	%r12
	popq	%r13
	popq	%r14
	popq	%r15
	retq

	.section	.rdata,"dr"
	.p2align	4, 0x0
.LCPI43_0:
	.byte	255
	.byte	0
	.byte	255
	.byte	0
	.byte	255
	.byte	0
	.byte	255
	.byte	0
	.byte	255
	.byte	0
	.byte	255
	.byte	0
	.byte	255
	.byte	0
	.byte	255
	.byte	0
.LCPI43_1:
	.short	128
	.short	128
	.short	128
	.short	128
	.short	128
	.short	128
	.short	128
	.short	128
.LCPI43_2:
	.zero	16,1
.LCPI43_3:
	.byte	3
	.byte	128
	.byte	3
	.byte	128
	.byte	7
	.byte	128
	.byte	7
	.byte	128
	.byte	11
	.byte	128
	.byte	11
	.byte	128
	.byte	15
	.byte	128
	.byte	15
	.byte	128
.LCPI43_4:
	.byte	3
	.byte	3
	.byte	3
	.byte	3
	.byte	7
	.byte	7
	.byte	7
	.byte	7
	.byte	11
	.byte	11
	.byte	11
	.byte	11
	.byte	15
	.byte	15
	.byte	15
	.byte	15
.LCPI43_5:
	.short	128
	.short	128
	.short	128
	.short	128
	.zero	2
	.zero	2
	.zero	2
	.zero	2
.LCPI43_6:
	.long	16777216
	.long	65536
	.long	256
	.long	1
	.section	".text$pix_raster::view::blit_overlap::<#cadaf6b2c7002256>","xr"
	.p2align	4
"pix_raster::view::blit_overlap::<#cadaf6b2c7002256>":
	pushq	%r15
	pushq	%r14
	pushq	%r13
	pushq	%r12
	pushq	%rsi
	pushq	%rdi
	pushq	%rbp
	pushq	%rbx
	subq	$312, %rsp
	movdqa	%xmm15, 288(%rsp)
	movdqa	%xmm14, 272(%rsp)
	movdqa	%xmm13, 256(%rsp)
	movdqa	%xmm12, 240(%rsp)
	movdqa	%xmm11, 224(%rsp)
	movdqa	%xmm10, 208(%rsp)
	movdqa	%xmm9, 192(%rsp)
	movdqa	%xmm8, 176(%rsp)
	movdqa	%xmm7, 160(%rsp)
	movdqa	%xmm6, 144(%rsp)
	movq	%r9, 40(%rsp)
	movq	%r8, 32(%rsp)
	movq	%rdx, 24(%rsp)
	movq	%rcx, 16(%rsp)
	movq	416(%rsp), %rax
	movq	24(%rax), %r15
	movq	32(%rax), %rcx
	movq	%rcx, 120(%rsp)
	cmpq	%rcx, %r15
	jae	.LBB43_14
	movq	(%rax), %r14
	movq	16(%rax), %r12
	movq	8(%rax), %rdi
	movq	40(%rax), %rcx
	subq	%r14, %rdi
	movq	%rcx, %rax
	subq	%r15, %rax
	movq	%rax, 72(%rsp)
	movq	%rdi, %rax
	shrq	$4, %rax
	movq	%rax, 48(%rsp)
	movzbl	424(%rsp), %eax
	movd	%eax, %xmm1
	pxor	%xmm0, %xmm0
	pshuflw	$0, %xmm1, %xmm12
	pshufb	%xmm0, %xmm1
	movdqa	.LCPI43_0(%rip), %xmm2
	pand	%xmm1, %xmm2
	psrlw	$8, %xmm1
	movq	%rdi, %rax
	andq	$-16, %rax
	movq	%rax, 112(%rsp)
	leaq	(,%rax,4), %rbp
	movl	%edi, %r13d
	andl	$15, %r13d
	leal	(,%rdi,4), %eax
	movl	%eax, %edx
	andl	$32, %edx
	movq	%rdx, 56(%rsp)
	movq	%rdi, 8(%rsp)
	andl	$12, %edi
	movq	%r15, %rdx
	movq	24(%rsp), %r9
	imulq	%r9, %rdx
	leaq	(,%r14,4), %r8
	leaq	(%r8,%rdx,4), %rsi
	movq	16(%rsp), %rbx
	addq	%rbx, %rsi
	movq	40(%rsp), %r11
	imulq	%r11, %rcx
	leaq	(,%r12,4), %r8
	leaq	(%r8,%rcx,4), %r10
	leaq	(,%rcx,4), %rcx
	addq	%rbp, %rcx
	andl	$48, %eax
	addq	%rax, %rcx
	movq	%rbp, 64(%rsp)
	leaq	(,%rdx,4), %rdx
	addq	%rbp, %rdx
	addq	%rax, %rdx
	leaq	(,%r9,4), %rax
	movq	%rax, 104(%rsp)
	movq	32(%rsp), %rax
	addq	%rax, %r10
	movq	%r12, 80(%rsp)
	leaq	(%rcx,%r12,4), %r9
	addq	%rax, %r9
	movq	%r14, 88(%rsp)
	leaq	(%rdx,%r14,4), %r8
	addq	%rbx, %r8
	leaq	(,%r11,4), %rax
	movq	%rax, 96(%rsp)
	movdqa	%xmm12, 128(%rsp)
	jmp	.LBB43_2
	.p2align	4
.LBB43_13:
	incq	%r15
	movq	104(%rsp), %rax
	addq	%rax, %rsi
	movq	96(%rsp), %rcx
	addq	%rcx, %r10
	addq	%rcx, %r9
	addq	%rax, %r8
	cmpq	120(%rsp), %r15
	je	.LBB43_14
.LBB43_2:
	cmpq	$0, 48(%rsp)
	je	.LBB43_5
	movl	$32, %edx
	movq	48(%rsp), %r12
	.p2align	4
.LBB43_4:
	movdqu	-32(%r10,%rdx), %xmm10
	movdqu	-16(%r10,%rdx), %xmm11
	movdqa	.LCPI43_0(%rip), %xmm3
	movdqa	%xmm10, %xmm14
	pand	%xmm3, %xmm14
	movdqa	%xmm11, %xmm7
	pand	%xmm3, %xmm7
	pmullw	%xmm2, %xmm7
	pmullw	%xmm2, %xmm14
	movdqa	.LCPI43_1(%rip), %xmm5
	paddw	%xmm5, %xmm14
	paddw	%xmm5, %xmm7
	movdqa	.LCPI43_2(%rip), %xmm4
	pmulhuw	%xmm4, %xmm7
	pmulhuw	%xmm4, %xmm14
	psrlw	$8, %xmm11
	psrlw	$8, %xmm10
	pmullw	%xmm1, %xmm10
	pmullw	%xmm1, %xmm11
	paddw	%xmm5, %xmm11
	paddw	%xmm5, %xmm10
	pmulhuw	%xmm4, %xmm10
	pmulhuw	%xmm4, %xmm11
	psllw	$8, %xmm11
	psllw	$8, %xmm10
	por	%xmm14, %xmm10
	por	%xmm7, %xmm11
	pcmpeqd	%xmm8, %xmm8
	movdqa	%xmm11, %xmm15
	pxor	%xmm8, %xmm15
	movdqa	%xmm10, %xmm0
	pxor	%xmm8, %xmm0
	movdqa	.LCPI43_3(%rip), %xmm9
	pshufb	%xmm9, %xmm0
	pshufb	%xmm9, %xmm15
	movdqu	-32(%rsi,%rdx), %xmm12
	movdqu	-16(%rsi,%rdx), %xmm13
	movdqa	%xmm12, %xmm6
	pxor	%xmm8, %xmm6
	pshufb	%xmm9, %xmm6
	pand	%xmm3, %xmm14
	pmullw	%xmm6, %xmm14
	psrlw	$8, %xmm10
	pmullw	%xmm6, %xmm10
	movdqa	%xmm13, %xmm6
	pxor	%xmm8, %xmm6
	pshufb	%xmm9, %xmm6
	pand	%xmm3, %xmm7
	pmullw	%xmm6, %xmm7
	psrlw	$8, %xmm11
	pmullw	%xmm6, %xmm11
	movdqu	(%rsi,%rdx), %xmm6
	paddw	%xmm5, %xmm7
	pmulhuw	%xmm4, %xmm7
	paddw	%xmm5, %xmm11
	pmulhuw	%xmm4, %xmm11
	psllw	$8, %xmm11
	por	%xmm7, %xmm11
	movdqu	16(%rsi,%rdx), %xmm7
	paddw	%xmm5, %xmm14
	pmulhuw	%xmm4, %xmm14
	paddw	%xmm5, %xmm10
	pmulhuw	%xmm4, %xmm10
	psllw	$8, %xmm10
	por	%xmm14, %xmm10
	movdqa	%xmm12, %xmm14
	pand	%xmm3, %xmm14
	pmullw	%xmm0, %xmm14
	psrlw	$8, %xmm12
	pmullw	%xmm0, %xmm12
	movdqa	%xmm13, %xmm0
	pand	%xmm3, %xmm0
	pmullw	%xmm15, %xmm0
	paddw	%xmm5, %xmm14
	paddw	%xmm5, %xmm0
	pmulhuw	%xmm4, %xmm0
	pmulhuw	%xmm4, %xmm14
	psrlw	$8, %xmm13
	pmullw	%xmm15, %xmm13
	paddw	%xmm5, %xmm13
	paddw	%xmm5, %xmm12
	pmulhuw	%xmm4, %xmm12
	pmulhuw	%xmm4, %xmm13
	psllw	$8, %xmm13
	por	%xmm0, %xmm13
	paddusb	%xmm11, %xmm13
	psllw	$8, %xmm12
	por	%xmm14, %xmm12
	paddusb	%xmm10, %xmm12
	movdqu	%xmm12, -32(%rsi,%rdx)
	movdqu	%xmm13, -16(%rsi,%rdx)
	movdqu	(%r10,%rdx), %xmm10
	movdqu	16(%r10,%rdx), %xmm11
	movdqa	%xmm10, %xmm12
	pand	%xmm3, %xmm12
	movdqa	%xmm11, %xmm0
	pand	%xmm3, %xmm0
	pmullw	%xmm2, %xmm0
	pmullw	%xmm2, %xmm12
	paddw	%xmm5, %xmm12
	paddw	%xmm5, %xmm0
	pmulhuw	%xmm4, %xmm0
	pmulhuw	%xmm4, %xmm12
	psrlw	$8, %xmm11
	psrlw	$8, %xmm10
	pmullw	%xmm1, %xmm10
	pmullw	%xmm1, %xmm11
	paddw	%xmm5, %xmm11
	paddw	%xmm5, %xmm10
	pmulhuw	%xmm4, %xmm10
	pmulhuw	%xmm4, %xmm11
	psllw	$8, %xmm11
	psllw	$8, %xmm10
	por	%xmm12, %xmm10
	por	%xmm0, %xmm11
	movdqa	%xmm11, %xmm13
	pxor	%xmm8, %xmm13
	movdqa	%xmm10, %xmm14
	pxor	%xmm8, %xmm14
	pshufb	%xmm9, %xmm14
	pshufb	%xmm9, %xmm13
	movdqa	%xmm7, %xmm15
	pxor	%xmm8, %xmm15
	pxor	%xmm6, %xmm8
	pshufb	%xmm9, %xmm8
	pshufb	%xmm9, %xmm15
	pand	%xmm3, %xmm12
	pmullw	%xmm8, %xmm12
	psrlw	$8, %xmm10
	pmullw	%xmm8, %xmm10
	pand	%xmm3, %xmm0
	pmullw	%xmm15, %xmm0
	psrlw	$8, %xmm11
	pmullw	%xmm15, %xmm11
	paddw	%xmm5, %xmm0
	pmulhuw	%xmm4, %xmm0
	paddw	%xmm5, %xmm11
	pmulhuw	%xmm4, %xmm11
	psllw	$8, %xmm11
	por	%xmm0, %xmm11
	paddw	%xmm5, %xmm12
	pmulhuw	%xmm4, %xmm12
	paddw	%xmm5, %xmm10
	pmulhuw	%xmm4, %xmm10
	psllw	$8, %xmm10
	por	%xmm12, %xmm10
	movdqa	%xmm6, %xmm0
	pand	%xmm3, %xmm0
	pmullw	%xmm14, %xmm0
	psrlw	$8, %xmm6
	pmullw	%xmm14, %xmm6
	pand	%xmm7, %xmm3
	pmullw	%xmm13, %xmm3
	psrlw	$8, %xmm7
	pmullw	%xmm13, %xmm7
	paddw	%xmm5, %xmm0
	paddw	%xmm5, %xmm3
	paddw	%xmm5, %xmm7
	paddw	%xmm5, %xmm6
	pmulhuw	%xmm4, %xmm3
	pmulhuw	%xmm4, %xmm0
	pmulhuw	%xmm4, %xmm6
	pmulhuw	%xmm4, %xmm7
	psllw	$8, %xmm7
	por	%xmm3, %xmm7
	paddusb	%xmm11, %xmm7
	psllw	$8, %xmm6
	por	%xmm0, %xmm6
	paddusb	%xmm10, %xmm6
	movdqu	%xmm6, (%rsi,%rdx)
	movdqu	%xmm7, 16(%rsi,%rdx)
	addq	$64, %rdx
	decq	%r12
	jne	.LBB43_4
.LBB43_5:
	movq	112(%rsp), %rax
	cmpq	8(%rsp), %rax
	movdqa	128(%rsp), %xmm12
	je	.LBB43_13
	movq	%r15, %rax
	imulq	24(%rsp), %rax
	addq	88(%rsp), %rax
	movq	72(%rsp), %rcx
	addq	%r15, %rcx
	imulq	40(%rsp), %rcx
	addq	80(%rsp), %rcx
	movq	16(%rsp), %rdx
	leaq	(%rdx,%rax,4), %rdx
	movq	32(%rsp), %rax
	leaq	(%rax,%rcx,4), %r12
	movq	64(%rsp), %rax
	addq	%rax, %rdx
	addq	%rax, %r12
	testb	$8, 8(%rsp)
	jne	.LBB43_7
	testb	$4, 8(%rsp)
	jne	.LBB43_9
.LBB43_10:
	cmpl	%r13d, %edi
	je	.LBB43_13
	jmp	.LBB43_11
	.p2align	4
.LBB43_7:
	movdqu	(%r12), %xmm3
	movdqu	16(%r12), %xmm4
	movdqa	.LCPI43_0(%rip), %xmm5
	movdqa	%xmm3, %xmm10
	pand	%xmm5, %xmm10
	movdqa	%xmm4, %xmm11
	pand	%xmm5, %xmm11
	pmullw	%xmm2, %xmm11
	pmullw	%xmm2, %xmm10
	movdqa	.LCPI43_1(%rip), %xmm6
	paddw	%xmm6, %xmm10
	paddw	%xmm6, %xmm11
	movdqa	.LCPI43_2(%rip), %xmm7
	pmulhuw	%xmm7, %xmm11
	pmulhuw	%xmm7, %xmm10
	psrlw	$8, %xmm4
	psrlw	$8, %xmm3
	pmullw	%xmm1, %xmm3
	pmullw	%xmm1, %xmm4
	paddw	%xmm6, %xmm4
	paddw	%xmm6, %xmm3
	pmulhuw	%xmm7, %xmm3
	pmulhuw	%xmm7, %xmm4
	psllw	$8, %xmm4
	psllw	$8, %xmm3
	por	%xmm10, %xmm3
	por	%xmm11, %xmm4
	movdqu	(%rdx), %xmm8
	movdqu	16(%rdx), %xmm9
	pcmpeqd	%xmm13, %xmm13
	movdqa	%xmm4, %xmm0
	pxor	%xmm13, %xmm0
	movdqa	%xmm3, %xmm12
	pxor	%xmm13, %xmm12
	movdqa	.LCPI43_3(%rip), %xmm14
	pshufb	%xmm14, %xmm12
	pshufb	%xmm14, %xmm0
	movdqa	%xmm9, %xmm15
	pxor	%xmm13, %xmm15
	pxor	%xmm8, %xmm13
	pshufb	%xmm14, %xmm13
	pshufb	%xmm14, %xmm15
	pand	%xmm5, %xmm10
	pand	%xmm5, %xmm11
	pmullw	%xmm15, %xmm11
	pmullw	%xmm13, %xmm10
	paddw	%xmm6, %xmm10
	paddw	%xmm6, %xmm11
	pmulhuw	%xmm7, %xmm11
	pmulhuw	%xmm7, %xmm10
	psrlw	$8, %xmm4
	psrlw	$8, %xmm3
	pmullw	%xmm13, %xmm3
	pmullw	%xmm15, %xmm4
	paddw	%xmm6, %xmm4
	paddw	%xmm6, %xmm3
	pmulhuw	%xmm7, %xmm3
	pmulhuw	%xmm7, %xmm4
	psllw	$8, %xmm4
	por	%xmm11, %xmm4
	psllw	$8, %xmm3
	por	%xmm10, %xmm3
	movdqa	%xmm8, %xmm10
	pand	%xmm5, %xmm10
	pand	%xmm9, %xmm5
	pmullw	%xmm0, %xmm5
	pmullw	%xmm12, %xmm10
	paddw	%xmm6, %xmm10
	paddw	%xmm6, %xmm5
	pmulhuw	%xmm7, %xmm5
	pmulhuw	%xmm7, %xmm10
	psrlw	$8, %xmm9
	psrlw	$8, %xmm8
	pmullw	%xmm12, %xmm8
	movdqa	128(%rsp), %xmm12
	pmullw	%xmm0, %xmm9
	paddw	%xmm6, %xmm9
	paddw	%xmm6, %xmm8
	pmulhuw	%xmm7, %xmm8
	pmulhuw	%xmm7, %xmm9
	psllw	$8, %xmm9
	por	%xmm5, %xmm9
	paddusb	%xmm4, %xmm9
	psllw	$8, %xmm8
	por	%xmm10, %xmm8
	paddusb	%xmm3, %xmm8
	movdqu	%xmm8, (%rdx)
	movdqu	%xmm9, 16(%rdx)
	testb	$4, 8(%rsp)
	je	.LBB43_10
.LBB43_9:
	movq	56(%rsp), %rax
	movdqu	(%r12,%rax), %xmm0
	movdqa	.LCPI43_0(%rip), %xmm5
	movdqa	%xmm0, %xmm9
	pand	%xmm5, %xmm9
	pmullw	%xmm2, %xmm9
	movdqa	.LCPI43_1(%rip), %xmm3
	paddw	%xmm3, %xmm9
	movdqa	.LCPI43_2(%rip), %xmm4
	pmulhuw	%xmm4, %xmm9
	psrlw	$8, %xmm0
	pmullw	%xmm1, %xmm0
	paddw	%xmm3, %xmm0
	pmulhuw	%xmm4, %xmm0
	psllw	$8, %xmm0
	por	%xmm9, %xmm0
	movdqu	(%rdx,%rax), %xmm8
	pcmpeqd	%xmm6, %xmm6
	movdqa	.LCPI43_4(%rip), %xmm10
	movdqa	%xmm8, %xmm11
	pshufb	%xmm10, %xmm11
	movdqa	%xmm11, %xmm7
	pxor	%xmm6, %xmm7
	pand	%xmm5, %xmm9
	pandn	%xmm5, %xmm11
	pmullw	%xmm9, %xmm11
	paddw	%xmm3, %xmm11
	pmulhuw	%xmm4, %xmm11
	movdqa	%xmm0, %xmm9
	psrlw	$8, %xmm9
	psrlw	$8, %xmm7
	pmullw	%xmm9, %xmm7
	paddw	%xmm3, %xmm7
	pmulhuw	%xmm4, %xmm7
	psllw	$8, %xmm7
	por	%xmm11, %xmm7
	pshufb	%xmm10, %xmm0
	pxor	%xmm0, %xmm6
	movdqa	%xmm8, %xmm9
	pand	%xmm5, %xmm9
	pandn	%xmm5, %xmm0
	pmullw	%xmm9, %xmm0
	paddw	%xmm3, %xmm0
	pmulhuw	%xmm4, %xmm0
	psrlw	$8, %xmm8
	psrlw	$8, %xmm6
	pmullw	%xmm8, %xmm6
	paddw	%xmm3, %xmm6
	pmulhuw	%xmm4, %xmm6
	psllw	$8, %xmm6
	por	%xmm0, %xmm6
	paddusb	%xmm7, %xmm6
	movdqu	%xmm6, (%rdx,%rax)
	cmpl	%r13d, %edi
	je	.LBB43_13
.LBB43_11:
	xorl	%edx, %edx
	.p2align	4
.LBB43_12:
	movl	(%r9,%rdx,4), %eax
	movl	(%r8,%rdx,4), %ecx
	movzbl	%ch, %ebp
	movl	%ecx, %ebx
	movzbl	%cl, %r12d
	movl	%ecx, %r11d
	shrl	$16, %r11d
	shrl	$24, %ebx
	movzbl	%ah, %ecx
	movzbl	%al, %r14d
	movd	%eax, %xmm0
	shrl	$16, %eax
	movzbl	%al, %eax
	psrld	$24, %xmm0
	pinsrw	$1, %eax, %xmm0
	pinsrw	$2, %ecx, %xmm0
	pinsrw	$3, %r14d, %xmm0
	pmullw	%xmm12, %xmm0
	movd	%ebx, %xmm3
	xorl	$255, %ebx
	movzbl	%r11b, %eax
	movdqa	.LCPI43_5(%rip), %xmm4
	paddw	%xmm4, %xmm0
	movdqa	%xmm0, %xmm5
	psrlw	$8, %xmm5
	paddw	%xmm0, %xmm5
	pextrb	$1, %xmm5, %ecx
	psrlw	$8, %xmm5
	xorl	$255, %ecx
	movd	%ebx, %xmm0
	pshuflw	$0, %xmm0, %xmm0
	pmullw	%xmm5, %xmm0
	paddw	%xmm4, %xmm0
	movdqa	%xmm0, %xmm5
	psrlw	$8, %xmm5
	paddw	%xmm0, %xmm5
	psrlw	$8, %xmm5
	packuswb	%xmm5, %xmm5
	movd	%ecx, %xmm0
	pinsrw	$1, %eax, %xmm3
	pinsrw	$2, %ebp, %xmm3
	pinsrw	$3, %r12d, %xmm3
	pshuflw	$0, %xmm0, %xmm0
	pmullw	%xmm0, %xmm3
	paddw	%xmm4, %xmm3
	movdqa	%xmm3, %xmm0
	psrlw	$8, %xmm0
	paddw	%xmm3, %xmm0
	psrlw	$8, %xmm0
	packuswb	%xmm0, %xmm0
	paddusb	%xmm5, %xmm0
	pmovzxbd	%xmm0, %xmm0
	pmulld	.LCPI43_6(%rip), %xmm0
	pshufd	$238, %xmm0, %xmm3
	por	%xmm0, %xmm3
	pshufd	$85, %xmm3, %xmm0
	por	%xmm3, %xmm0
	movd	%xmm0, (%r8,%rdx,4)
	leaq	(%rdi,%rdx), %rax
	incq	%rax
	incq	%rdx
	cmpq	%r13, %rax
	jb	.LBB43_12
	jmp	.LBB43_13
.LBB43_14:
	movaps	144(%rsp), %xmm6
	movaps	160(%rsp), %xmm7
	movaps	176(%rsp), %xmm8
	movaps	192(%rsp), %xmm9
	movaps	208(%rsp), %xmm10
	movaps	224(%rsp), %xmm11
	movaps	240(%rsp), %xmm12
	movaps	256(%rsp), %xmm13
	movaps	272(%rsp), %xmm14
	movaps	288(%rsp), %xmm15
	addq	$312, %rsp
	popq	%rbx
	popq	%rbp
	popq	%rdi
	popq	%rsi
	popq	%r12
	popq	%r13
	popq	%r14
	popq	%r15
	retq

	.section	".text$pix_raster::view::blit_overlap::<#07c05c7fae9ce56d>","xr"
	.p2align	4
"pix_raster::view::blit_overlap::<#07c05c7fae9ce56d>":
	pushq	%r15
	pushq	%r14
	pushq	%r13
	pushq	%r12
	pushq	%rsi
	pushq	%rdi
	pushq	%rbp
	pushq	%rbx
	subq	$40, %rsp
	movq	24(%r8), %r12
	movq	32(%r8), %r14
	movq	%r14, %r13
	subq	%r12, %r13
	jbe	.LBB44_36
	movq	%rdx, %rsi
	movq	(%r8), %r15
	movq	8(%r8), %rax
	movq	%rax, %rdi
	subq	%r15, %rdi
	cmpq	$1024, %rdi
	jb	.LBB44_4
	imulq	%rsi, %r12
	addq	%r12, %r15
	leaq	(%rcx,%r15,4), %rbx
	shlq	$2, %rsi
	.p2align	4
.LBB44_3:
	movq	%rbx, %rcx
	movq	%rdi, %rdx
	callq	"pix_el::filled::clear_long::<#c0ead2364dd49755>"
	addq	%rsi, %rbx
	decq	%r13
	jne	.LBB44_3
.LBB44_36:
	addq	$40, %rsp
	popq	%rbx
	popq	%rbp
	popq	%rdi
	popq	%rsi
	popq	%r12
	popq	%r13
	popq	%r14
	popq	%r15
	retq
.LBB44_4:
	leaq	-33(%rdi), %rdx
	cmpq	$-26, %rdx
	ja	.LBB44_13
	cmpq	%r15, %rax
	je	.LBB44_36
	shlq	$2, %rdi
	movl	%r14d, %r13d
	subl	%r12d, %r13d
	movq	%r12, %rax
	andl	$3, %r13d
	je	.LBB44_10
	movq	%r12, %rax
	imulq	%rsi, %rax
	addq	%r15, %rax
	movq	%rcx, 32(%rsp)
	leaq	(%rcx,%rax,4), %rbx
	negq	%r13
	xorl	%ebp, %ebp
	.p2align	4
.LBB44_8:
	movq	%rbx, %rcx
	xorl	%edx, %edx
	movq	%rdi, %r8
	callq	memset
	decq	%rbp
	leaq	(,%rsi,4), %rax
	addq	%rax, %rbx
	cmpq	%rbp, %r13
	jne	.LBB44_8
	movq	%r12, %rax
	subq	%rbp, %rax
	movq	32(%rsp), %rcx
.LBB44_10:
	subq	%r14, %r12
	cmpq	$-4, %r12
	ja	.LBB44_36
	subq	%rax, %r14
	leaq	3(%rax), %rdx
	imulq	%rsi, %rdx
	leaq	(%rcx,%rdx,4), %rbx
	shlq	$2, %r15
	movq	%rsi, %r12
	shlq	$4, %r12
	leaq	2(%rax), %rdx
	imulq	%rsi, %rdx
	leaq	(%rcx,%rdx,4), %r13
	leaq	1(%rax), %rdx
	imulq	%rsi, %rdx
	leaq	(%rcx,%rdx,4), %rbp
	imulq	%rsi, %rax
	leaq	(%rcx,%rax,4), %rsi
	.p2align	4
.LBB44_12:
	leaq	(%rsi,%r15), %rcx
	xorl	%edx, %edx
	movq	%rdi, %r8
	callq	memset
	leaq	(%r15,%rbp), %rcx
	xorl	%edx, %edx
	movq	%rdi, %r8
	callq	memset
	leaq	(%r15,%r13), %rcx
	xorl	%edx, %edx
	movq	%rdi, %r8
	callq	memset
	leaq	(%rbx,%r15), %rcx
	xorl	%edx, %edx
	movq	%rdi, %r8
	callq	memset
	addq	%r12, %r15
	addq	$-4, %r14
	jne	.LBB44_12
	jmp	.LBB44_36
.LBB44_13:
	cmpq	$17, %rdi
	jae	.LBB44_14
	cmpq	$8, %rdi
	jbe	.LBB44_22
	movl	%r14d, %r8d
	subl	%r12d, %r8d
	movq	%r12, %rdx
	andl	$3, %r8d
	je	.LBB44_33
	movq	%r12, %rdx
	imulq	%rsi, %rdx
	leaq	(%rax,%rdx), %r9
	leaq	-32(,%r9,4), %r9
	leaq	(,%rsi,4), %r10
	addq	%r15, %rdx
	shlq	$2, %rdx
	negq	%r8
	xorl	%r11d, %r11d
	movq	%rcx, %rdi
	.p2align	4
.LBB44_31:
	xorps	%xmm0, %xmm0
	movups	%xmm0, 16(%rdi,%rdx)
	movups	%xmm0, (%rdi,%rdx)
	movups	%xmm0, 16(%rdi,%r9)
	movups	%xmm0, (%rdi,%r9)
	decq	%r11
	addq	%r10, %rdi
	cmpq	%r11, %r8
	jne	.LBB44_31
	movq	%r12, %rdx
	subq	%r11, %rdx
.LBB44_33:
	subq	%r14, %r12
	cmpq	$-4, %r12
	ja	.LBB44_36
	subq	%rdx, %r14
	leaq	3(%rdx), %r10
	imulq	%rsi, %r10
	leaq	(,%rax,4), %rbx
	leaq	(%rbx,%r10,4), %r8
	addq	$-32, %r8
	movq	%rsi, %r9
	shlq	$4, %r9
	leaq	(,%r15,4), %r12
	leaq	(%r12,%r10,4), %r10
	leaq	2(%rdx), %rdi
	imulq	%rsi, %rdi
	leaq	(%rbx,%rdi,4), %r11
	addq	$-32, %r11
	leaq	(%r12,%rdi,4), %rdi
	leaq	1(%rdx), %r13
	imulq	%rsi, %r13
	leaq	(%rbx,%r13,4), %rbx
	addq	$-32, %rbx
	leaq	(%r12,%r13,4), %r12
	imulq	%rsi, %rdx
	addq	%rdx, %rax
	leaq	-32(,%rax,4), %rax
	addq	%r15, %rdx
	shlq	$2, %rdx
	.p2align	4
.LBB44_35:
	xorps	%xmm0, %xmm0
	movups	%xmm0, 16(%rcx,%rdx)
	movups	%xmm0, (%rcx,%rdx)
	movups	%xmm0, 16(%rcx,%rax)
	movups	%xmm0, (%rcx,%rax)
	movups	%xmm0, 16(%rcx,%r12)
	movups	%xmm0, (%rcx,%r12)
	movups	%xmm0, 16(%rcx,%rbx)
	movups	%xmm0, (%rcx,%rbx)
	movups	%xmm0, 16(%rcx,%rdi)
	movups	%xmm0, (%rcx,%rdi)
	movups	%xmm0, 16(%rcx,%r11)
	movups	%xmm0, (%rcx,%r11)
	movups	%xmm0, 16(%rcx,%r10)
	movups	%xmm0, (%rcx,%r10)
	movups	%xmm0, 16(%rcx,%r8)
	movups	%xmm0, (%rcx,%r8)
	addq	%r9, %rcx
	addq	$-4, %r14
	jne	.LBB44_35
	jmp	.LBB44_36
.LBB44_14:
	movl	%r14d, %r8d
	subl	%r12d, %r8d
	movq	%r12, %rdx
	andl	$3, %r8d
	je	.LBB44_18
	movq	%r12, %rdx
	imulq	%rsi, %rdx
	leaq	(%rax,%rdx), %r9
	leaq	-64(,%r9,4), %r9
	leaq	(,%rsi,4), %r10
	addq	%r15, %rdx
	shlq	$2, %rdx
	negq	%r8
	xorl	%r11d, %r11d
	movq	%rcx, %rdi
	.p2align	4
.LBB44_16:
	xorps	%xmm0, %xmm0
	movups	%xmm0, 48(%rdi,%rdx)
	movups	%xmm0, 32(%rdi,%rdx)
	movups	%xmm0, 16(%rdi,%rdx)
	movups	%xmm0, (%rdi,%rdx)
	movups	%xmm0, 48(%rdi,%r9)
	movups	%xmm0, 32(%rdi,%r9)
	movups	%xmm0, 16(%rdi,%r9)
	movups	%xmm0, (%rdi,%r9)
	decq	%r11
	addq	%r10, %rdi
	cmpq	%r11, %r8
	jne	.LBB44_16
	movq	%r12, %rdx
	subq	%r11, %rdx
.LBB44_18:
	subq	%r14, %r12
	cmpq	$-4, %r12
	ja	.LBB44_36
	subq	%rdx, %r14
	leaq	3(%rdx), %r10
	imulq	%rsi, %r10
	leaq	(,%rax,4), %rbx
	leaq	(%rbx,%r10,4), %r8
	addq	$-64, %r8
	movq	%rsi, %r9
	shlq	$4, %r9
	leaq	(,%r15,4), %r12
	leaq	(%r12,%r10,4), %r10
	leaq	2(%rdx), %rdi
	imulq	%rsi, %rdi
	leaq	(%rbx,%rdi,4), %r11
	addq	$-64, %r11
	leaq	(%r12,%rdi,4), %rdi
	leaq	1(%rdx), %r13
	imulq	%rsi, %r13
	leaq	(%rbx,%r13,4), %rbx
	addq	$-64, %rbx
	leaq	(%r12,%r13,4), %r12
	imulq	%rsi, %rdx
	addq	%rdx, %rax
	leaq	-64(,%rax,4), %rax
	addq	%r15, %rdx
	shlq	$2, %rdx
	.p2align	4
.LBB44_20:
	xorps	%xmm0, %xmm0
	movups	%xmm0, 48(%rcx,%rdx)
	movups	%xmm0, 32(%rcx,%rdx)
	movups	%xmm0, 16(%rcx,%rdx)
	movups	%xmm0, (%rcx,%rdx)
	movups	%xmm0, 48(%rcx,%rax)
	movups	%xmm0, 32(%rcx,%rax)
	movups	%xmm0, 16(%rcx,%rax)
	movups	%xmm0, (%rcx,%rax)
	movups	%xmm0, 48(%rcx,%r12)
	movups	%xmm0, 32(%rcx,%r12)
	movups	%xmm0, 16(%rcx,%r12)
	movups	%xmm0, (%rcx,%r12)
	movups	%xmm0, 48(%rcx,%rbx)
	movups	%xmm0, 32(%rcx,%rbx)
	movups	%xmm0, 16(%rcx,%rbx)
	movups	%xmm0, (%rcx,%rbx)
	movups	%xmm0, 48(%rcx,%rdi)
	movups	%xmm0, 32(%rcx,%rdi)
	movups	%xmm0, 16(%rcx,%rdi)
	movups	%xmm0, (%rcx,%rdi)
	movups	%xmm0, 48(%rcx,%r11)
	movups	%xmm0, 32(%rcx,%r11)
	movups	%xmm0, 16(%rcx,%r11)
	movups	%xmm0, (%rcx,%r11)
	movups	%xmm0, 48(%rcx,%r10)
	movups	%xmm0, 32(%rcx,%r10)
	movups	%xmm0, 16(%rcx,%r10)
	movups	%xmm0, (%rcx,%r10)
	movups	%xmm0, 48(%rcx,%r8)
	movups	%xmm0, 32(%rcx,%r8)
	movups	%xmm0, 16(%rcx,%r8)
	movups	%xmm0, (%rcx,%r8)
	addq	%r9, %rcx
	addq	$-4, %r14
	jne	.LBB44_20
	jmp	.LBB44_36
.LBB44_22:
	movl	%r14d, %eax
	subl	%r12d, %eax
	movq	%r12, %r8
	andl	$3, %eax
	je	.LBB44_26
	movq	%r12, %rdx
	imulq	%rsi, %rdx
	addq	%r15, %rdx
	leaq	(%rcx,%rdx,4), %rdx
	leaq	(,%rsi,4), %r8
	negq	%rax
	xorl	%r9d, %r9d
	.p2align	4
.LBB44_24:
	xorps	%xmm0, %xmm0
	movups	%xmm0, 16(%rdx)
	movups	%xmm0, (%rdx)
	decq	%r9
	addq	%r8, %rdx
	cmpq	%r9, %rax
	jne	.LBB44_24
	movq	%r12, %r8
	subq	%r9, %r8
.LBB44_26:
	subq	%r14, %r12
	cmpq	$-4, %r12
	ja	.LBB44_36
	subq	%r8, %r14
	leaq	3(%r8), %rax
	imulq	%rsi, %rax
	leaq	(%rcx,%rax,4), %rax
	shlq	$2, %r15
	movq	%rsi, %rdx
	shlq	$4, %rdx
	leaq	2(%r8), %r9
	imulq	%rsi, %r9
	leaq	(%rcx,%r9,4), %r9
	leaq	1(%r8), %r10
	imulq	%rsi, %r10
	leaq	(%rcx,%r10,4), %r10
	imulq	%rsi, %r8
	leaq	(%rcx,%r8,4), %rcx
	.p2align	4
.LBB44_28:
	xorps	%xmm0, %xmm0
	movups	%xmm0, 16(%rcx,%r15)
	movups	%xmm0, (%rcx,%r15)
	movups	%xmm0, 16(%r10,%r15)
	movups	%xmm0, (%r10,%r15)
	movups	%xmm0, 16(%r9,%r15)
	movups	%xmm0, (%r9,%r15)
	movups	%xmm0, 16(%rax,%r15)
	movups	%xmm0, (%rax,%r15)
	addq	%rdx, %r15
	addq	$-4, %r14
	jne	.LBB44_28
	jmp	.LBB44_36

	.section	".text$pix_raster::view::blit_overlap::<#38bb87c9d91cb462>","xr"
	.p2align	4
"pix_raster::view::blit_overlap::<#38bb87c9d91cb462>":
	pushq	%r15
	pushq	%r14
	pushq	%r13
	pushq	%r12
	pushq	%rsi
	pushq	%rdi
	pushq	%rbp
	pushq	%rbx
	subq	$128, %rsp
	movq	%r9, 40(%rsp)
	movq	%r8, 32(%rsp)
	movq	%rdx, 24(%rsp)
	movq	%rcx, 16(%rsp)
	movq	232(%rsp), %rcx
	movq	24(%rcx), %rax
	movq	32(%rcx), %rdx
	movq	%rax, (%rsp)
	movq	%rdx, 120(%rsp)
	cmpq	%rdx, %rax
	jae	.LBB45_14
	movq	(%rcx), %r15
	movq	16(%rcx), %r12
	movq	8(%rcx), %rdi
	movq	40(%rcx), %rcx
	subq	%r15, %rdi
	movq	%rcx, %rax
	movq	(%rsp), %r9
	subq	%r9, %rax
	movq	%rax, 72(%rsp)
	movq	%rdi, %rax
	shrq	$4, %rax
	movq	%rax, 48(%rsp)
	movq	%rdi, %rax
	andq	$-16, %rax
	movq	%rax, 112(%rsp)
	leaq	(,%rax,4), %r10
	movl	%edi, %r13d
	andl	$15, %r13d
	leal	(,%rdi,4), %edx
	movl	%edx, %eax
	andl	$32, %eax
	movq	%rax, 56(%rsp)
	movq	%rdi, 8(%rsp)
	andl	$12, %edi
	movq	40(%rsp), %rax
	imulq	%rax, %rcx
	leaq	(,%r12,4), %r8
	leaq	(%r8,%rcx,4), %rsi
	movq	32(%rsp), %r11
	addq	%r11, %rsi
	movq	%r9, %r8
	movq	24(%rsp), %r14
	imulq	%r14, %r8
	leaq	(,%r15,4), %r9
	leaq	(%r9,%r8,4), %rbx
	leaq	(%r10,%rcx,4), %rcx
	andl	$48, %edx
	addq	%rdx, %rcx
	movq	%r10, 64(%rsp)
	leaq	(%r10,%r8,4), %r10
	addq	%rdx, %r10
	leaq	(,%rax,4), %rax
	movq	%rax, 104(%rsp)
	movq	16(%rsp), %rax
	addq	%rax, %rbx
	movq	%r12, 80(%rsp)
	leaq	(%rcx,%r12,4), %r8
	addq	%r11, %r8
	movq	%r15, 88(%rsp)
	leaq	(%r10,%r15,4), %rdx
	addq	%rax, %rdx
	leaq	(,%r14,4), %rax
	movq	%rax, 96(%rsp)
	jmp	.LBB45_2
	.p2align	4
.LBB45_13:
	movq	(%rsp), %rax
	incq	%rax
	movq	104(%rsp), %rcx
	addq	%rcx, %rsi
	movq	96(%rsp), %r9
	addq	%r9, %rbx
	addq	%rcx, %r8
	addq	%r9, %rdx
	movq	%rax, (%rsp)
	cmpq	120(%rsp), %rax
	je	.LBB45_14
.LBB45_2:
	cmpq	$0, 48(%rsp)
	je	.LBB45_5
	movl	$32, %ecx
	movq	48(%rsp), %r10
	.p2align	4
.LBB45_4:
	movdqu	-32(%rsi,%rcx), %xmm0
	movdqu	-16(%rsi,%rcx), %xmm1
	movdqu	-32(%rbx,%rcx), %xmm2
	paddusb	%xmm0, %xmm2
	movdqu	-16(%rbx,%rcx), %xmm0
	paddusb	%xmm1, %xmm0
	movdqu	(%rbx,%rcx), %xmm1
	movdqu	16(%rbx,%rcx), %xmm3
	movdqu	%xmm2, -32(%rbx,%rcx)
	movdqu	%xmm0, -16(%rbx,%rcx)
	movdqu	(%rsi,%rcx), %xmm0
	paddusb	%xmm1, %xmm0
	movdqu	16(%rsi,%rcx), %xmm1
	paddusb	%xmm3, %xmm1
	movdqu	%xmm0, (%rbx,%rcx)
	movdqu	%xmm1, 16(%rbx,%rcx)
	addq	$64, %rcx
	decq	%r10
	jne	.LBB45_4
.LBB45_5:
	movq	112(%rsp), %rax
	cmpq	8(%rsp), %rax
	je	.LBB45_13
	movq	(%rsp), %rax
	movq	%rax, %rcx
	imulq	24(%rsp), %rcx
	addq	88(%rsp), %rcx
	movq	72(%rsp), %r9
	leaq	(%r9,%rax), %r10
	imulq	40(%rsp), %r10
	addq	80(%rsp), %r10
	movq	16(%rsp), %rax
	leaq	(%rax,%rcx,4), %rcx
	movq	32(%rsp), %rax
	leaq	(%rax,%r10,4), %r10
	movq	64(%rsp), %rax
	addq	%rax, %rcx
	addq	%rax, %r10
	testb	$8, 8(%rsp)
	jne	.LBB45_7
	testb	$4, 8(%rsp)
	jne	.LBB45_9
.LBB45_10:
	cmpl	%r13d, %edi
	je	.LBB45_13
	jmp	.LBB45_11
	.p2align	4
.LBB45_7:
	movdqu	(%rcx), %xmm0
	movdqu	16(%rcx), %xmm1
	movdqu	(%r10), %xmm2
	paddusb	%xmm0, %xmm2
	movdqu	16(%r10), %xmm0
	paddusb	%xmm1, %xmm0
	movdqu	%xmm2, (%rcx)
	movdqu	%xmm0, 16(%rcx)
	testb	$4, 8(%rsp)
	je	.LBB45_10
.LBB45_9:
	movq	56(%rsp), %rax
	movdqu	(%rcx,%rax), %xmm0
	movdqu	(%r10,%rax), %xmm1
	paddusb	%xmm0, %xmm1
	movdqu	%xmm1, (%rcx,%rax)
	cmpl	%r13d, %edi
	je	.LBB45_13
.LBB45_11:
	xorl	%ecx, %ecx
	.p2align	4
.LBB45_12:
	movl	(%r8,%rcx,4), %ebp
	movl	%ebp, %r10d
	movl	%ebp, %r15d
	shrl	$8, %r15d
	movl	%ebp, %r9d
	shrl	$16, %r9d
	shrl	$24, %ebp
	movl	(%rdx,%rcx,4), %r11d
	movl	%r11d, %r12d
	shrl	$8, %r12d
	movl	%r11d, %r14d
	shrl	$16, %r14d
	movl	%r11d, %eax
	shrl	$24, %eax
	addb	%r10b, %r11b
	movzbl	%r11b, %r10d
	movl	$255, %r11d
	cmovbl	%r11d, %r10d
	addb	%r15b, %r12b
	movzbl	%r12b, %r15d
	cmovbl	%r11d, %r15d
	addb	%r9b, %r14b
	movzbl	%r14b, %r9d
	cmovbl	%r11d, %r9d
	addb	%bpl, %al
	movzbl	%al, %eax
	cmovbl	%r11d, %eax
	shll	$24, %eax
	movzbl	%r9b, %r9d
	shll	$16, %r9d
	orl	%eax, %r9d
	movzbl	%r15b, %eax
	shll	$8, %eax
	orl	%r9d, %eax
	movzbl	%r10b, %r9d
	orl	%eax, %r9d
	movl	%r9d, (%rdx,%rcx,4)
	leaq	(%rdi,%rcx), %rax
	incq	%rax
	incq	%rcx
	cmpq	%r13, %rax
	jb	.LBB45_12
	jmp	.LBB45_13
.LBB45_14:
	addq	$128, %rsp
	popq	%rbx
	popq	%rbp
	popq	%rdi
	popq	%rsi
	popq	%r12
	popq	%r13
	popq	%r14
	popq	%r15
	retq

	.section	.rdata,"dr"
	.p2align	4, 0x0
.LCPI46_0:
	.byte	255
	.byte	0
	.byte	255
	.byte	0
	.byte	255
	.byte	0
	.byte	255
	.byte	0
	.byte	255
	.byte	0
	.byte	255
	.byte	0
	.byte	255
	.byte	0
	.byte	255
	.byte	0
.LCPI46_1:
	.short	128
	.short	128
	.short	128
	.short	128
	.short	128
	.short	128
	.short	128
	.short	128
.LCPI46_2:
	.zero	16,1
.LCPI46_3:
	.short	128
	.short	128
	.short	128
	.short	128
	.zero	2
	.zero	2
	.zero	2
	.zero	2
.LCPI46_4:
	.long	65536
	.long	16777216
	.long	256
	.long	1
	.section	".text$pix_raster::view::blit_overlap::<#1190cce370e40c2f>","xr"
	.p2align	4
"pix_raster::view::blit_overlap::<#1190cce370e40c2f>":
	pushq	%r15
	pushq	%r14
	pushq	%r13
	pushq	%r12
	pushq	%rsi
	pushq	%rdi
	pushq	%rbp
	pushq	%rbx
	subq	$184, %rsp
	movdqa	%xmm10, 160(%rsp)
	movdqa	%xmm9, 144(%rsp)
	movdqa	%xmm8, 128(%rsp)
	movdqa	%xmm7, 112(%rsp)
	movdqa	%xmm6, 96(%rsp)
	movq	%rdx, 24(%rsp)
	movq	%rcx, 16(%rsp)
	movq	288(%rsp), %rcx
	movq	24(%rcx), %rax
	movq	32(%rcx), %rdx
	movq	%rdx, 88(%rsp)
	cmpq	%rdx, %rax
	jae	.LBB46_18
	movq	%r8, %r12
	movl	296(%rsp), %r11d
	movq	(%rcx), %r10
	movq	%r10, 8(%rsp)
	movq	16(%rcx), %r8
	leaq	(%r12,%r8), %rdx
	movq	%rdx, 64(%rsp)
	movq	8(%rcx), %rdi
	movq	40(%rcx), %rcx
	subq	%r10, %rdi
	movq	%rcx, %rdx
	subq	%rax, %rdx
	movq	%rdx, 56(%rsp)
	movq	%rdi, %rsi
	shrq	$4, %rsi
	movl	%r11d, %ebx
	shrl	$24, %ebx
	movl	%r11d, %r14d
	shrl	$16, %r11d
	movl	%r14d, %edx
	shrl	$8, %edx
	movd	%r14d, %xmm0
	pinsrb	$1, %edx, %xmm0
	pinsrb	$2, %r11d, %xmm0
	pinsrb	$3, %ebx, %xmm0
	pinsrb	$4, %r14d, %xmm0
	pinsrb	$5, %edx, %xmm0
	pinsrb	$6, %r11d, %xmm0
	pinsrb	$7, %ebx, %xmm0
	pinsrb	$8, %r14d, %xmm0
	pinsrb	$9, %edx, %xmm0
	pinsrb	$10, %r11d, %xmm0
	pinsrb	$11, %ebx, %xmm0
	pinsrb	$12, %r14d, %xmm0
	pinsrb	$13, %edx, %xmm0
	pinsrb	$14, %r11d, %xmm0
	movdqa	.LCPI46_0(%rip), %xmm1
	pand	%xmm0, %xmm1
	pinsrb	$15, %ebx, %xmm0
	psrlw	$8, %xmm0
	movq	%rdi, %r15
	andq	$-16, %r15
	leaq	(,%r15,4), %rbp
	movl	%edi, %r13d
	andl	$15, %r13d
	movl	%edi, %edx
	andl	$8, %edx
	movq	%rdx, (%rsp)
	movzbl	%r11b, %edx
	movd	%edx, %xmm2
	movl	%edi, %r10d
	andl	$12, %r10d
	pinsrw	$1, %ebx, %xmm2
	movl	%r14d, %ebx
	movzbl	%bh, %edx
	movzbl	%bl, %r11d
	pinsrw	$2, %edx, %xmm2
	pinsrw	$3, %r11d, %xmm2
	movq	%rsi, 80(%rsp)
	leaq	(,%rsi,4), %rsi
	movq	%rax, %rdx
	movq	24(%rsp), %r14
	imulq	%r14, %rdx
	imulq	%r9, %rcx
	addq	%r8, %rcx
	movq	%r15, 40(%rsp)
	leaq	(%r15,%r10), %rbx
	addq	%r12, %rbx
	leaq	(%r12,%rcx), %r8
	addq	$8, %r8
	addq	%rcx, %rbx
	movq	8(%rsp), %r15
	leaq	(%r15,%rdx), %rcx
	movq	16(%rsp), %r11
	leaq	(%r11,%rcx,4), %r12
	movq	%rbp, 48(%rsp)
	leaq	(%rbp,%rdx,4), %rcx
	movq	%r10, 32(%rsp)
	leaq	(%rcx,%r10,4), %rcx
	leaq	(%rcx,%r15,4), %rdx
	addq	%r11, %rdx
	leaq	(,%r14,4), %rcx
	movq	%rcx, 72(%rsp)
	jmp	.LBB46_2
	.p2align	4
.LBB46_17:
	incq	%rax
	movq	72(%rsp), %rcx
	addq	%rcx, %r12
	addq	%r9, %r8
	addq	%r9, %rbx
	addq	%rcx, %rdx
	cmpq	88(%rsp), %rax
	je	.LBB46_18
.LBB46_2:
	cmpq	$0, 80(%rsp)
	je	.LBB46_7
	xorl	%ebp, %ebp
	movq	%r12, %r11
	jmp	.LBB46_4
	.p2align	4
.LBB46_6:
	addq	$4, %rbp
	addq	$64, %r11
	cmpq	%rbp, %rsi
	je	.LBB46_7
.LBB46_4:
	movq	-8(%r8,%rbp,4), %r10
	movq	(%r8,%rbp,4), %r14
	orq	%r10, %r14
	je	.LBB46_6
	movq	%r10, %xmm6
	punpcklbw	%xmm6, %xmm6
	movdqa	%xmm6, %xmm7
	punpckhwd	%xmm6, %xmm7
	punpcklwd	%xmm6, %xmm6
	movdqa	.LCPI46_0(%rip), %xmm3
	movdqa	%xmm6, %xmm8
	pand	%xmm3, %xmm8
	movdqa	%xmm7, %xmm9
	pand	%xmm3, %xmm9
	pmullw	%xmm1, %xmm9
	pmullw	%xmm1, %xmm8
	movdqa	.LCPI46_1(%rip), %xmm4
	paddw	%xmm4, %xmm8
	paddw	%xmm4, %xmm9
	movdqa	.LCPI46_2(%rip), %xmm5
	pmulhuw	%xmm5, %xmm9
	pmulhuw	%xmm5, %xmm8
	psrlw	$8, %xmm7
	psrlw	$8, %xmm6
	pmullw	%xmm0, %xmm6
	pmullw	%xmm0, %xmm7
	paddw	%xmm4, %xmm7
	paddw	%xmm4, %xmm6
	pmulhuw	%xmm5, %xmm6
	pmulhuw	%xmm5, %xmm7
	psllw	$8, %xmm7
	por	%xmm9, %xmm7
	psllw	$8, %xmm6
	por	%xmm8, %xmm6
	movdqu	(%r11), %xmm8
	paddusb	%xmm6, %xmm8
	movdqu	16(%r11), %xmm10
	paddusb	%xmm7, %xmm10
	movdqu	32(%r11), %xmm6
	movdqu	48(%r11), %xmm9
	movdqu	%xmm8, (%r11)
	movdqu	%xmm10, 16(%r11)
	movq	(%r8,%rbp,4), %xmm7
	punpcklbw	%xmm7, %xmm7
	movdqa	%xmm7, %xmm8
	punpckhwd	%xmm7, %xmm8
	punpcklwd	%xmm7, %xmm7
	movdqa	%xmm7, %xmm10
	pand	%xmm3, %xmm10
	pand	%xmm8, %xmm3
	pmullw	%xmm1, %xmm3
	pmullw	%xmm1, %xmm10
	paddw	%xmm4, %xmm10
	paddw	%xmm4, %xmm3
	pmulhuw	%xmm5, %xmm3
	pmulhuw	%xmm5, %xmm10
	psrlw	$8, %xmm8
	psrlw	$8, %xmm7
	pmullw	%xmm0, %xmm7
	pmullw	%xmm0, %xmm8
	paddw	%xmm4, %xmm8
	paddw	%xmm4, %xmm7
	pmulhuw	%xmm5, %xmm7
	pmulhuw	%xmm5, %xmm8
	psllw	$8, %xmm8
	por	%xmm3, %xmm8
	paddusb	%xmm9, %xmm8
	psllw	$8, %xmm7
	por	%xmm10, %xmm7
	paddusb	%xmm6, %xmm7
	movdqu	%xmm7, 32(%r11)
	movdqu	%xmm8, 48(%r11)
	jmp	.LBB46_6
	.p2align	4
.LBB46_7:
	cmpq	%rdi, 40(%rsp)
	je	.LBB46_17
	movq	%rax, %r10
	imulq	24(%rsp), %r10
	addq	8(%rsp), %r10
	movq	56(%rsp), %rcx
	leaq	(%rcx,%rax), %rbp
	imulq	%r9, %rbp
	addq	64(%rsp), %rbp
	movq	16(%rsp), %rcx
	leaq	(%rcx,%r10,4), %r11
	addq	48(%rsp), %r11
	addq	40(%rsp), %rbp
	testb	$8, %dil
	je	.LBB46_11
	movq	(%rbp), %r10
	testq	%r10, %r10
	je	.LBB46_11
	movq	%r10, %xmm3
	punpcklbw	%xmm3, %xmm3
	movdqa	%xmm3, %xmm4
	punpckhwd	%xmm3, %xmm4
	punpcklwd	%xmm3, %xmm3
	movdqa	.LCPI46_0(%rip), %xmm6
	movdqa	%xmm3, %xmm5
	pand	%xmm6, %xmm5
	pand	%xmm4, %xmm6
	pmullw	%xmm1, %xmm6
	pmullw	%xmm1, %xmm5
	movdqa	.LCPI46_1(%rip), %xmm7
	paddw	%xmm7, %xmm5
	paddw	%xmm7, %xmm6
	movdqa	.LCPI46_2(%rip), %xmm8
	pmulhuw	%xmm8, %xmm6
	pmulhuw	%xmm8, %xmm5
	psrlw	$8, %xmm4
	psrlw	$8, %xmm3
	pmullw	%xmm0, %xmm3
	pmullw	%xmm0, %xmm4
	paddw	%xmm7, %xmm4
	paddw	%xmm7, %xmm3
	pmulhuw	%xmm8, %xmm3
	pmulhuw	%xmm8, %xmm4
	psllw	$8, %xmm4
	por	%xmm6, %xmm4
	psllw	$8, %xmm3
	por	%xmm5, %xmm3
	movdqu	(%r11), %xmm5
	paddusb	%xmm3, %xmm5
	movdqu	16(%r11), %xmm3
	paddusb	%xmm4, %xmm3
	movdqu	%xmm5, (%r11)
	movdqu	%xmm3, 16(%r11)
.LBB46_11:
	testb	$4, %dil
	je	.LBB46_14
	movq	(%rsp), %rcx
	movl	(%rbp,%rcx), %r10d
	testl	%r10d, %r10d
	je	.LBB46_14
	movd	%r10d, %xmm3
	punpcklbw	%xmm3, %xmm3
	punpcklwd	%xmm3, %xmm3
	movdqa	.LCPI46_0(%rip), %xmm4
	pand	%xmm3, %xmm4
	pmullw	%xmm1, %xmm4
	movdqa	.LCPI46_1(%rip), %xmm5
	paddw	%xmm5, %xmm4
	movdqa	.LCPI46_2(%rip), %xmm6
	pmulhuw	%xmm6, %xmm4
	psrlw	$8, %xmm3
	pmullw	%xmm0, %xmm3
	paddw	%xmm5, %xmm3
	pmulhuw	%xmm6, %xmm3
	psllw	$8, %xmm3
	por	%xmm4, %xmm3
	movq	(%rsp), %rcx
	movdqu	(%r11,%rcx,4), %xmm4
	paddusb	%xmm3, %xmm4
	movdqu	%xmm4, (%r11,%rcx,4)
.LBB46_14:
	cmpl	%r13d, 32(%rsp)
	je	.LBB46_17
	xorl	%r11d, %r11d
	movq	32(%rsp), %rbp
	.p2align	4
.LBB46_16:
	movl	(%rdx,%r11,4), %r10d
	movl	%r10d, %r14d
	shrl	$8, %r14d
	movl	%r10d, %ecx
	shrl	$24, %ecx
	movzbl	(%rbx,%r11), %r15d
	movd	%r15d, %xmm3
	pshuflw	$0, %xmm3, %xmm3
	pmullw	%xmm2, %xmm3
	paddw	.LCPI46_3(%rip), %xmm3
	movdqa	%xmm3, %xmm4
	psrlw	$8, %xmm4
	paddw	%xmm3, %xmm4
	psrlw	$8, %xmm4
	packuswb	%xmm4, %xmm4
	movd	%r10d, %xmm3
	psrld	$16, %xmm3
	pinsrb	$1, %ecx, %xmm3
	pinsrb	$2, %r14d, %xmm3
	pinsrb	$3, %r10d, %xmm3
	paddusb	%xmm4, %xmm3
	pmovzxbd	%xmm3, %xmm3
	pmulld	.LCPI46_4(%rip), %xmm3
	pshufd	$238, %xmm3, %xmm4
	por	%xmm3, %xmm4
	pshufd	$85, %xmm4, %xmm3
	por	%xmm4, %xmm3
	movd	%xmm3, (%rdx,%r11,4)
	incq	%rbp
	incq	%r11
	cmpq	%r13, %rbp
	jb	.LBB46_16
	jmp	.LBB46_17
.LBB46_18:
	movaps	96(%rsp), %xmm6
	movaps	112(%rsp), %xmm7
	movaps	128(%rsp), %xmm8
	movaps	144(%rsp), %xmm9
	movaps	160(%rsp), %xmm10
	addq	$184, %rsp
	popq	%rbx
	popq	%rbp
	popq	%rdi
	popq	%rsi
	popq	%r12
	popq	%r13
	popq	%r14
	popq	%r15
	retq

	.section	.rdata,"dr"
	.p2align	4, 0x0
.LCPI47_0:
	.byte	255
	.byte	0
	.byte	255
	.byte	0
	.byte	255
	.byte	0
	.byte	255
	.byte	0
	.byte	255
	.byte	0
	.byte	255
	.byte	0
	.byte	255
	.byte	0
	.byte	255
	.byte	0
.LCPI47_1:
	.short	128
	.short	128
	.short	128
	.short	128
	.short	128
	.short	128
	.short	128
	.short	128
.LCPI47_2:
	.zero	16,1
.LCPI47_3:
	.short	128
	.short	128
	.short	128
	.short	128
	.zero	2
	.zero	2
	.zero	2
	.zero	2
.LCPI47_4:
	.long	65536
	.long	16777216
	.long	256
	.long	1
	.section	".text$pix_raster::view::blit_overlap::<#79e97ac7f662bd7a>","xr"
	.p2align	4
"pix_raster::view::blit_overlap::<#79e97ac7f662bd7a>":
	pushq	%r15
	pushq	%r14
	pushq	%r13
	pushq	%r12
	pushq	%rsi
	pushq	%rdi
	pushq	%rbp
	pushq	%rbx
	subq	$216, %rsp
	movdqa	%xmm10, 192(%rsp)
	movdqa	%xmm9, 176(%rsp)
	movdqa	%xmm8, 160(%rsp)
	movdqa	%xmm7, 144(%rsp)
	movdqa	%xmm6, 128(%rsp)
	movq	%r9, 40(%rsp)
	movq	%r8, 32(%rsp)
	movq	%rdx, 24(%rsp)
	movq	%rcx, 16(%rsp)
	movq	320(%rsp), %rax
	movq	24(%rax), %r11
	movq	32(%rax), %rcx
	movq	%rcx, 120(%rsp)
	cmpq	%rcx, %r11
	jae	.LBB47_14
	movq	(%rax), %r14
	movq	16(%rax), %r15
	movq	8(%rax), %rdi
	movq	40(%rax), %rcx
	subq	%r14, %rdi
	movq	%rcx, %rax
	subq	%r11, %rax
	movq	%rax, 72(%rsp)
	movq	%rdi, %rax
	shrq	$4, %rax
	movq	%rax, 48(%rsp)
	movzbl	328(%rsp), %eax
	movd	%eax, %xmm1
	pxor	%xmm2, %xmm2
	pshuflw	$0, %xmm1, %xmm0
	pshufb	%xmm2, %xmm1
	movdqa	.LCPI47_0(%rip), %xmm2
	pand	%xmm1, %xmm2
	psrlw	$8, %xmm1
	movq	%rdi, %rax
	andq	$-16, %rax
	movq	%rax, 112(%rsp)
	leaq	(,%rax,4), %rbp
	movl	%edi, %r13d
	andl	$15, %r13d
	leal	(,%rdi,4), %eax
	movl	%eax, %edx
	andl	$32, %edx
	movq	%rdx, 56(%rsp)
	movq	%rdi, 8(%rsp)
	andl	$12, %edi
	movq	40(%rsp), %r9
	imulq	%r9, %rcx
	leaq	(,%r15,4), %rdx
	leaq	(%rdx,%rcx,4), %r12
	movq	32(%rsp), %r10
	addq	%r10, %r12
	movq	%r11, %rdx
	movq	24(%rsp), %rsi
	imulq	%rsi, %rdx
	leaq	(,%r14,4), %r8
	leaq	(%r8,%rdx,4), %rbx
	leaq	(,%rcx,4), %rcx
	addq	%rbp, %rcx
	andl	$48, %eax
	addq	%rax, %rcx
	movq	%rbp, 64(%rsp)
	leaq	(,%rdx,4), %rdx
	addq	%rbp, %rdx
	addq	%rax, %rdx
	leaq	(,%r9,4), %rax
	movq	%rax, 104(%rsp)
	movq	16(%rsp), %rax
	addq	%rax, %rbx
	movq	%r15, 80(%rsp)
	leaq	(%rcx,%r15,4), %r9
	addq	%r10, %r9
	movq	%r14, 88(%rsp)
	leaq	(%rdx,%r14,4), %r8
	addq	%rax, %r8
	leaq	(,%rsi,4), %rax
	movq	%rax, 96(%rsp)
	jmp	.LBB47_2
	.p2align	4
.LBB47_13:
	incq	%r11
	movq	104(%rsp), %rax
	addq	%rax, %r12
	movq	96(%rsp), %rcx
	addq	%rcx, %rbx
	addq	%rax, %r9
	addq	%rcx, %r8
	cmpq	120(%rsp), %r11
	je	.LBB47_14
.LBB47_2:
	cmpq	$0, 48(%rsp)
	je	.LBB47_5
	movl	$32, %ecx
	movq	48(%rsp), %rsi
	.p2align	4
.LBB47_4:
	movdqu	-32(%r12,%rcx), %xmm7
	movdqu	-16(%r12,%rcx), %xmm6
	movdqa	.LCPI47_0(%rip), %xmm3
	movdqa	%xmm7, %xmm8
	pand	%xmm3, %xmm8
	movdqa	%xmm6, %xmm9
	pand	%xmm3, %xmm9
	pmullw	%xmm2, %xmm9
	pmullw	%xmm2, %xmm8
	movdqa	.LCPI47_1(%rip), %xmm4
	paddw	%xmm4, %xmm8
	paddw	%xmm4, %xmm9
	movdqa	.LCPI47_2(%rip), %xmm5
	pmulhuw	%xmm5, %xmm9
	pmulhuw	%xmm5, %xmm8
	psrlw	$8, %xmm6
	psrlw	$8, %xmm7
	pmullw	%xmm1, %xmm7
	pmullw	%xmm1, %xmm6
	paddw	%xmm4, %xmm6
	paddw	%xmm4, %xmm7
	pmulhuw	%xmm5, %xmm7
	pmulhuw	%xmm5, %xmm6
	psllw	$8, %xmm6
	por	%xmm9, %xmm6
	psllw	$8, %xmm7
	por	%xmm8, %xmm7
	movdqu	-32(%rbx,%rcx), %xmm8
	paddusb	%xmm7, %xmm8
	movdqu	-16(%rbx,%rcx), %xmm7
	paddusb	%xmm6, %xmm7
	movdqu	(%rbx,%rcx), %xmm6
	movdqu	16(%rbx,%rcx), %xmm9
	movdqu	%xmm8, -32(%rbx,%rcx)
	movdqu	%xmm7, -16(%rbx,%rcx)
	movdqu	(%r12,%rcx), %xmm7
	movdqu	16(%r12,%rcx), %xmm8
	movdqa	%xmm7, %xmm10
	pand	%xmm3, %xmm10
	pand	%xmm8, %xmm3
	pmullw	%xmm2, %xmm3
	pmullw	%xmm2, %xmm10
	paddw	%xmm4, %xmm10
	paddw	%xmm4, %xmm3
	pmulhuw	%xmm5, %xmm3
	pmulhuw	%xmm5, %xmm10
	psrlw	$8, %xmm8
	psrlw	$8, %xmm7
	pmullw	%xmm1, %xmm7
	pmullw	%xmm1, %xmm8
	paddw	%xmm4, %xmm8
	paddw	%xmm4, %xmm7
	pmulhuw	%xmm5, %xmm7
	pmulhuw	%xmm5, %xmm8
	psllw	$8, %xmm8
	por	%xmm3, %xmm8
	paddusb	%xmm9, %xmm8
	psllw	$8, %xmm7
	por	%xmm10, %xmm7
	paddusb	%xmm6, %xmm7
	movdqu	%xmm7, (%rbx,%rcx)
	movdqu	%xmm8, 16(%rbx,%rcx)
	addq	$64, %rcx
	decq	%rsi
	jne	.LBB47_4
.LBB47_5:
	movq	112(%rsp), %rax
	cmpq	8(%rsp), %rax
	je	.LBB47_13
	movq	%r11, %rax
	imulq	24(%rsp), %rax
	addq	88(%rsp), %rax
	movq	72(%rsp), %rcx
	leaq	(%rcx,%r11), %rdx
	imulq	40(%rsp), %rdx
	addq	80(%rsp), %rdx
	movq	16(%rsp), %rcx
	leaq	(%rcx,%rax,4), %rcx
	movq	32(%rsp), %rax
	leaq	(%rax,%rdx,4), %rsi
	movq	64(%rsp), %rax
	addq	%rax, %rcx
	addq	%rax, %rsi
	testb	$8, 8(%rsp)
	jne	.LBB47_7
	testb	$4, 8(%rsp)
	jne	.LBB47_9
.LBB47_10:
	cmpl	%r13d, %edi
	je	.LBB47_13
	jmp	.LBB47_11
	.p2align	4
.LBB47_7:
	movdqu	(%rsi), %xmm4
	movdqu	16(%rsi), %xmm3
	movdqa	.LCPI47_0(%rip), %xmm6
	movdqa	%xmm4, %xmm5
	pand	%xmm6, %xmm5
	pand	%xmm3, %xmm6
	pmullw	%xmm2, %xmm6
	pmullw	%xmm2, %xmm5
	movdqa	.LCPI47_1(%rip), %xmm7
	paddw	%xmm7, %xmm5
	paddw	%xmm7, %xmm6
	movdqa	.LCPI47_2(%rip), %xmm8
	pmulhuw	%xmm8, %xmm6
	pmulhuw	%xmm8, %xmm5
	psrlw	$8, %xmm3
	psrlw	$8, %xmm4
	pmullw	%xmm1, %xmm4
	pmullw	%xmm1, %xmm3
	paddw	%xmm7, %xmm3
	paddw	%xmm7, %xmm4
	pmulhuw	%xmm8, %xmm4
	pmulhuw	%xmm8, %xmm3
	psllw	$8, %xmm3
	por	%xmm6, %xmm3
	psllw	$8, %xmm4
	por	%xmm5, %xmm4
	movdqu	(%rcx), %xmm5
	paddusb	%xmm4, %xmm5
	movdqu	16(%rcx), %xmm4
	paddusb	%xmm3, %xmm4
	movdqu	%xmm5, (%rcx)
	movdqu	%xmm4, 16(%rcx)
	testb	$4, 8(%rsp)
	je	.LBB47_10
.LBB47_9:
	movq	56(%rsp), %rax
	movdqu	(%rsi,%rax), %xmm3
	movdqa	.LCPI47_0(%rip), %xmm4
	pand	%xmm3, %xmm4
	pmullw	%xmm2, %xmm4
	movdqa	.LCPI47_1(%rip), %xmm5
	paddw	%xmm5, %xmm4
	movdqa	.LCPI47_2(%rip), %xmm6
	pmulhuw	%xmm6, %xmm4
	psrlw	$8, %xmm3
	pmullw	%xmm1, %xmm3
	paddw	%xmm5, %xmm3
	pmulhuw	%xmm6, %xmm3
	psllw	$8, %xmm3
	por	%xmm4, %xmm3
	movdqu	(%rcx,%rax), %xmm4
	paddusb	%xmm3, %xmm4
	movdqu	%xmm4, (%rcx,%rax)
	cmpl	%r13d, %edi
	je	.LBB47_13
.LBB47_11:
	xorl	%ecx, %ecx
	.p2align	4
.LBB47_12:
	movl	(%r9,%rcx,4), %eax
	movzbl	%ah, %ebp
	movl	%eax, %edx
	movzbl	%al, %r15d
	shrl	$16, %eax
	shrl	$24, %edx
	movzbl	%al, %eax
	movl	(%r8,%rcx,4), %esi
	movl	%esi, %r10d
	shrl	$8, %r10d
	movl	%esi, %r14d
	shrl	$24, %r14d
	movd	%eax, %xmm3
	pinsrw	$1, %edx, %xmm3
	pinsrw	$2, %ebp, %xmm3
	pinsrw	$3, %r15d, %xmm3
	pmullw	%xmm0, %xmm3
	paddw	.LCPI47_3(%rip), %xmm3
	movdqa	%xmm3, %xmm4
	psrlw	$8, %xmm4
	paddw	%xmm3, %xmm4
	psrlw	$8, %xmm4
	packuswb	%xmm4, %xmm4
	movd	%esi, %xmm3
	psrld	$16, %xmm3
	pinsrb	$1, %r14d, %xmm3
	pinsrb	$2, %r10d, %xmm3
	pinsrb	$3, %esi, %xmm3
	paddusb	%xmm4, %xmm3
	pmovzxbd	%xmm3, %xmm3
	pmulld	.LCPI47_4(%rip), %xmm3
	pshufd	$238, %xmm3, %xmm4
	por	%xmm3, %xmm4
	pshufd	$85, %xmm4, %xmm3
	por	%xmm4, %xmm3
	movd	%xmm3, (%r8,%rcx,4)
	leaq	(%rdi,%rcx), %rax
	incq	%rax
	incq	%rcx
	cmpq	%r13, %rax
	jb	.LBB47_12
	jmp	.LBB47_13
.LBB47_14:
	movaps	128(%rsp), %xmm6
	movaps	144(%rsp), %xmm7
	movaps	160(%rsp), %xmm8
	movaps	176(%rsp), %xmm9
	movaps	192(%rsp), %xmm10
	addq	$216, %rsp
	popq	%rbx
	popq	%rbp
	popq	%rdi
	popq	%rsi
	popq	%r12
	popq	%r13
	popq	%r14
	popq	%r15
	retq

	.section	".text$pix_script::pixel::push_cells","xr"
	.p2align	4
"pix_script::pixel::push_cells":
	pushq	%r14
	pushq	%rsi
	pushq	%rdi
	pushq	%rbp
	pushq	%rbx
	subq	$32, %rsp
	movq	%rcx, %rsi
	leaq	(%r8,%r8,8), %r8
	movq	8(%rcx), %rax
	movq	16(%rcx), %rdi
	movq	%rdi, %rcx
	subq	%rax, %rcx
	cmpq	%rcx, %r8
	ja	.LBB48_24
.LBB48_1:
	leaq	8(%rsi), %rcx
	leaq	(%rax,%r8), %rbx
	movq	(%rsi), %r14
	xorps	%xmm0, %xmm0
	movups	%xmm0, (%rcx)
	leaq	(%r14,%rax), %rcx
	movq	%rcx, %r9
	subq	%rdx, %r9
	cmpq	%r8, %r9
	jae	.LBB48_4
	cmpq	$4, %r8
	jb	.LBB48_3
	cmpq	$32, %r9
	jae	.LBB48_7
.LBB48_3:
	xorl	%r9d, %r9d
.LBB48_16:
	movq	%r8, %r11
	movq	%r9, %r10
	andq	$3, %r11
	je	.LBB48_19
	movq	%r9, %r10
	.p2align	4
.LBB48_18:
	movzbl	(%rdx,%r10), %ebp
	movb	%bpl, (%rcx,%r10)
	incq	%r10
	decq	%r11
	jne	.LBB48_18
.LBB48_19:
	subq	%r8, %r9
	cmpq	$-4, %r9
	ja	.LBB48_22
	addq	%r14, %rax
	addq	$3, %rax
	.p2align	4
.LBB48_21:
	movzbl	(%rdx,%r10), %ecx
	movb	%cl, -3(%rax,%r10)
	movzbl	1(%rdx,%r10), %ecx
	movb	%cl, -2(%rax,%r10)
	movzbl	2(%rdx,%r10), %ecx
	movb	%cl, -1(%rax,%r10)
	movzbl	3(%rdx,%r10), %ecx
	movb	%cl, (%rax,%r10)
	addq	$4, %r10
	cmpq	%r10, %r8
	jne	.LBB48_21
	jmp	.LBB48_22
.LBB48_4:
	callq	memmove
.LBB48_22:
	movq	%r14, (%rsi)
	movq	%rbx, 8(%rsi)
	movq	%rdi, 16(%rsi)
	xorl	%eax, %eax
.LBB48_23:
	addq	$32, %rsp
	popq	%rbx
	popq	%rbp
	popq	%rdi
	popq	%rsi
	popq	%r14
	retq
.LBB48_7:
	cmpq	$32, %r8
	jae	.LBB48_9
	xorl	%r9d, %r9d
	jmp	.LBB48_13
.LBB48_9:
	movq	%r8, %r9
	andq	$-32, %r9
	leaq	(%rax,%r14), %r10
	addq	$16, %r10
	xorl	%r11d, %r11d
	.p2align	4
.LBB48_10:
	movups	(%rdx,%r11), %xmm0
	movups	16(%rdx,%r11), %xmm1
	movups	%xmm0, -16(%r10,%r11)
	movups	%xmm1, (%r10,%r11)
	addq	$32, %r11
	cmpq	%r11, %r9
	jne	.LBB48_10
	cmpq	%r9, %r8
	je	.LBB48_22
	testb	$28, %r8b
	je	.LBB48_16
.LBB48_13:
	movq	%r9, %r10
	movq	%r8, %r9
	andq	$-4, %r9
	.p2align	4
.LBB48_14:
	movl	(%rdx,%r10), %r11d
	movl	%r11d, (%rcx,%r10)
	addq	$4, %r10
	cmpq	%r10, %r9
	jne	.LBB48_14
	cmpq	%r9, %r8
	je	.LBB48_22
	jmp	.LBB48_16
.LBB48_24:
	movq	%rdx, %rbx
	movq	%rsi, %rcx
	movq	%r8, %r14
	movq	%r8, %rdx
	callq	"std_alloc::vec::Vec::grow_amortized::<#ab1bfed030c1db69>"
	movl	%eax, %ecx
	movb	$1, %al
	testb	%cl, %cl
	je	.LBB48_23
	movq	8(%rsi), %rax
	movq	16(%rsi), %rdi
	movq	%rbx, %rdx
	movq	%r14, %r8
	jmp	.LBB48_1

	.def	main;
	.scl	2;
	.type	32;
	.endef
	.section	.rdata,"dr"
	.p2align	4, 0x0
.LCPI49_0:
	.byte	116
	.byte	104
	.byte	105
	.byte	115
	.byte	32
	.byte	109
	.byte	97
	.byte	99
	.byte	104
	.byte	105
	.byte	110
	.byte	101
	.byte	32
	.byte	108
	.byte	97
	.byte	99
.LCPI49_1:
	.byte	107
	.byte	115
	.byte	32
	.byte	97
	.byte	32
	.byte	102
	.byte	101
	.byte	97
	.byte	116
	.byte	117
	.byte	114
	.byte	101
	.byte	32
	.byte	111
	.byte	102
	.byte	32
.LCPI49_2:
	.byte	120
	.byte	56
	.byte	54
	.byte	45
	.byte	54
	.byte	52
	.byte	45
	.byte	118
	.byte	50
	.byte	44
	.byte	32
	.byte	119
	.byte	104
	.byte	105
	.byte	99
	.byte	104
.LCPI49_3:
	.byte	32
	.byte	116
	.byte	104
	.byte	105
	.byte	115
	.byte	32
	.byte	112
	.byte	114
	.byte	111
	.byte	103
	.byte	114
	.byte	97
	.byte	109
	.byte	32
	.byte	119
	.byte	97
.LCPI49_4:
	.byte	115
	.byte	32
	.byte	98
	.byte	117
	.byte	105
	.byte	108
	.byte	116
	.byte	32
	.byte	102
	.byte	111
	.byte	114
	.byte	58
	.byte	32
	.byte	114
	.byte	117
	.byte	110
.LCPI49_5:
	.byte	32
	.byte	105
	.byte	116
	.byte	32
	.byte	111
	.byte	110
	.byte	32
	.byte	97
	.byte	110
	.byte	111
	.byte	116
	.byte	104
	.byte	101
	.byte	114
	.byte	32
	.byte	109
.LCPI49_6:
	.byte	97
	.byte	99
	.byte	104
	.byte	105
	.byte	110
	.byte	101
	.byte	44
	.byte	32
	.byte	111
	.byte	114
	.byte	32
	.byte	98
	.byte	117
	.byte	105
	.byte	108
	.byte	100
.LCPI49_7:
	.byte	32
	.byte	105
	.byte	116
	.byte	32
	.byte	119
	.byte	105
	.byte	116
	.byte	104
	.byte	32
	.byte	45
	.byte	45
	.byte	99
	.byte	112
	.byte	117
	.byte	32
	.byte	120
	.section	".text$main","xr"
	.globl	main
	.p2align	4
main:
	pushq	%rbp
	pushq	%rsi
	pushq	%rax
	movq	%rsp, %rbp
	subq	$32, %rsp
	callq	__main
	movl	$1, %edx
	movl	$13, %ecx
	callq	__sysv_signal
	xorl	%ecx, %ecx
	callq	__x86_get_cpuid_feature_leaf
	addq	$32, %rsp
	movl	24(%rax), %esi
	subq	$32, %rsp
	movl	$2, %ecx
	callq	__x86_get_cpuid_feature_leaf
	addq	$32, %rsp
	notl	%esi
	testl	$9970177, %esi
	jne	.LBB49_2
	movl	24(%rax), %eax
	andl	$1, %eax
	je	.LBB49_2
	leaq	8(%rbp), %rsp
	popq	%rsi
	popq	%rbp
	jmp	"pixpaint::main+start"
.LBB49_2:
	movl	$144, %eax
	callq	___chkstk_ms
	subq	%rax, %rsp
	movq	%rsp, %rdx
	movaps	.LCPI49_0(%rip), %xmm0
	movaps	%xmm0, (%rdx)
	movaps	.LCPI49_1(%rip), %xmm0
	movaps	%xmm0, 16(%rdx)
	movaps	.LCPI49_2(%rip), %xmm0
	movaps	%xmm0, 32(%rdx)
	movaps	.LCPI49_3(%rip), %xmm0
	movaps	%xmm0, 48(%rdx)
	movaps	.LCPI49_4(%rip), %xmm0
	movaps	%xmm0, 64(%rdx)
	movaps	.LCPI49_5(%rip), %xmm0
	movaps	%xmm0, 80(%rdx)
	movaps	.LCPI49_6(%rip), %xmm0
	movaps	%xmm0, 96(%rdx)
	movaps	.LCPI49_7(%rip), %xmm0
	movaps	%xmm0, 112(%rdx)
	movl	$908932664, 128(%rdx)
	movw	$2612, 132(%rdx)
	subq	$32, %rsp
	movl	$134, %r8d
	movl	$2, %ecx
	callq	__write
	addq	$32, %rsp
	movl	$127, %eax
	leaq	8(%rbp), %rsp
	popq	%rsi
	popq	%rbp
	retq

	.section	".rdata$static.1","dr"
static.1:
	.ascii	"image"

	.section	".rdata$static.2","dr"
static.2:
	.zero	2,2

	.section	".rdata$static.3","dr"
static.3:
	.ascii	"clear"

	.section	".rdata$static.5","dr"
static.5:
	.ascii	"fill"

	.section	".rdata$static.6","dr"
static.6:
	.ascii	"\001\001\002\002\003"

	.section	".rdata$static.7","dr"
static.7:
	.ascii	"paint"

	.section	".rdata$static.8","dr"
static.8:
	.ascii	"\000\001\001\002\002\003"

	.section	".rdata$static.9","dr"
static.9:
	.ascii	"keep"

	.section	".rdata$static.10","dr"
static.10:
	.ascii	"copy"

	.section	".rdata$static.11","dr"
static.11:
	.ascii	"\001\001\001\001\002\002"

	.section	".rdata$static.12","dr"
static.12:
	.ascii	"comp"

	.section	".rdata$static.13","dr"
static.13:
	.ascii	"\000\001\001\001\001\002\002"

	.section	".rdata$static.14","dr"
static.14:
	.ascii	"\000\001\002\003\004\005\006\007\b\t\n\013\f"

	.section	".rdata$static.15","dr"
static.15:
	.ascii	"Src"

	.section	".rdata$static.16","dr"
static.16:
	.ascii	"Dest"

	.section	".rdata$static.17","dr"
static.17:
	.ascii	"SrcOver"

	.section	".rdata$static.18","dr"
static.18:
	.ascii	"DestOver"

	.section	".rdata$static.19","dr"
static.19:
	.ascii	"SrcOut"

	.section	".rdata$static.20","dr"
static.20:
	.ascii	"DestOut"

	.section	".rdata$static.21","dr"
static.21:
	.ascii	"SrcIn"

	.section	".rdata$static.22","dr"
static.22:
	.ascii	"DestIn"

	.section	".rdata$static.23","dr"
static.23:
	.ascii	"SrcAtop"

	.section	".rdata$static.24","dr"
static.24:
	.ascii	"DestAtop"

	.section	".rdata$static.25","dr"
static.25:
	.ascii	"Xor"

	.section	".rdata$static.26","dr"
static.26:
	.ascii	"Clear"

	.section	".rdata$static.27","dr"
static.27:
	.ascii	"Plus"

	.section	".rdata$static.28","dr"
static.28:
	.ascii	"000102030405060708090a0b0c0d0e0f101112131415161718191a1b1c1d1e1f202122232425262728292a2b2c2d2e2f303132333435363738393a3b3c3d3e3f404142434445464748494a4b4c4d4e4f505152535455565758595a5b5c5d5e5f606162636465666768696a6b6c6d6e6f707172737475767778797a7b7c7d7e7f808182838485868788898a8b8c8d8e8f909192939495969798999a9b9c9d9e9fa0a1a2a3a4a5a6a7a8a9aaabacadaeafb0b1b2b3b4b5b6b7b8b9babbbcbdbebfc0c1c2c3c4c5c6c7c8c9cacbcccdcecfd0d1d2d3d4d5d6d7d8d9dadbdcdddedfe0e1e2e3e4e5e6e7e8e9eaebecedeeeff0f1f2f3f4f5f6f7f8f9fafbfcfdfeff"

	.section	".rdata$static.31","dr"
static.31:
	.byte	10

	.section	".rdata$static.32","dr"
static.32:
	.ascii	"read failed"

	.section	".rdata$static.33","dr"
static.33:
	.ascii	"write failed"

	.section	".rdata$static.34","dr"
static.34:
	.ascii	"line "

	.section	".rdata$static.35","dr"
static.35:
	.ascii	": "

	.section	".rdata$static.36","dr"
static.36:
	.ascii	"out of memory"

	.section	".rdata$static.37","dr"
static.37:
	.ascii	"input too long"

	.section	".rdata$static.41","dr"
static.41:
	.ascii	"no image"

	.section	".rdata$static.42","dr"
static.42:
	.ascii	"second image"

	.section	".rdata$static.43","dr"
static.43:
	.ascii	"unknown word"

	.section	".rdata$static.44","dr"
static.44:
	.ascii	"wrong number of words"

	.section	".rdata$static.45","dr"
static.45:
	.ascii	"bad number"

	.section	".rdata$static.46","dr"
static.46:
	.ascii	"bad color"

	.section	".rdata$static.47","dr"
static.47:
	.ascii	"image too big"

	.section	".rdata$static.48","dr"
static.48:
	.ascii	"nothing kept"

	.section	".rdata$switch.table.pixpaint::main+start","dr"
	.p2align	3, 0x0
"switch.table.pixpaint::main+start":
	.quad	8
	.quad	12
	.quad	12
	.quad	21
	.quad	10
	.quad	9
	.quad	13
	.quad	12

	.section	".rdata$switch.table.pixpaint::main+start.299.rel","dr"
	.p2align	2, 0x0
"switch.table.pixpaint::main+start.299.rel":
	.long	static.41-"switch.table.pixpaint::main+start.299.rel"
	.long	static.42-"switch.table.pixpaint::main+start.299.rel"
	.long	static.43-"switch.table.pixpaint::main+start.299.rel"
	.long	static.44-"switch.table.pixpaint::main+start.299.rel"
	.long	static.45-"switch.table.pixpaint::main+start.299.rel"
	.long	static.46-"switch.table.pixpaint::main+start.299.rel"
	.long	static.47-"switch.table.pixpaint::main+start.299.rel"
	.long	static.48-"switch.table.pixpaint::main+start.299.rel"

