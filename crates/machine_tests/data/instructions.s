# every row of the table, every operand form; listing.txt is what `as` and `objdump` make of it
	movb %al, 5(%rdx)
	movb %cl, 5(%rdx)
	movb %dl, 5(%rdx)
	movb %bl, 5(%rdx)
	movb %spl, 5(%rdx)
	movb %bpl, 5(%rdx)
	movb %sil, 5(%rdx)
	movb %dil, 5(%rdx)
	movb %r8b, 5(%rdx)
	movb %r9b, 5(%rdx)
	movb %r10b, 5(%rdx)
	movb %r11b, 5(%rdx)
	movb %r12b, 5(%rdx)
	movb %r13b, 5(%rdx)
	movb %r14b, 5(%rdx)
	movb %r15b, 5(%rdx)
	movb %cl, (%r13)
	movb %dil, %fs:8(%rax)
	movb %al, 0x1000(,%rcx,4)
	movq %rbx, (%rax)
	movl -64(%rax), %ebp
	movq 4096(%rax), %rax
	movq %rsp, (%rcx)
	movl -56(%rcx), %esi
	movq 4097(%rcx), %rcx
	movq %rbp, (%rdx)
	movl -48(%rdx), %edi
	movq 4098(%rdx), %rdx
	movq %rsi, (%rbx)
	movl -40(%rbx), %r8d
	movq 4099(%rbx), %rbx
	movq %rdi, (%rsp)
	movl -32(%rsp), %r9d
	movq 4100(%rsp), %rsp
	movq %r8, (%rbp)
	movl -24(%rbp), %r10d
	movq 4101(%rbp), %rbp
	movq %r9, (%rsi)
	movl -16(%rsi), %r11d
	movq 4102(%rsi), %rsi
	movq %r10, (%rdi)
	movl -8(%rdi), %r12d
	movq 4103(%rdi), %rdi
	movq %r11, (%r8)
	movl 0(%r8), %r13d
	movq 4104(%r8), %r8
	movq %r12, (%r9)
	movl 8(%r9), %r14d
	movq 4105(%r9), %r9
	movq %r13, (%r10)
	movl 16(%r10), %r15d
	movq 4106(%r10), %r10
	movq %r14, (%r11)
	movl 24(%r11), %eax
	movq 4107(%r11), %r11
	movq %r15, (%r12)
	movl 32(%r12), %ecx
	movq 4108(%r12), %r12
	movq %rax, (%r13)
	movl 40(%r13), %edx
	movq 4109(%r13), %r13
	movq %rcx, (%r14)
	movl 48(%r14), %ebx
	movq 4110(%r14), %r14
	movq %rdx, (%r15)
	movl 56(%r15), %esp
	movq 4111(%r15), %r15
	movq (%rax,%rax,1), %rcx
	movq (%rdi,%rcx,2), %rcx
	movq (%r14,%rdx,4), %rcx
	movq (%rbp,%rbx,8), %rcx
	movq (%rbx,%rbp,2), %rcx
	movq (%r10,%rsi,4), %rcx
	movq (%rcx,%rdi,8), %rcx
	movq (%r8,%r8,1), %rcx
	movq (%r15,%r9,2), %rcx
	movq (%rsi,%r10,4), %rcx
	movq (%r13,%r11,8), %rcx
	movq (%rsp,%r12,1), %rcx
	movq (%r11,%r13,2), %rcx
	movq (%rdx,%r14,4), %rcx
	movq (%r9,%r15,8), %rcx
	movq -8(%rbp,%r12,8), %rax
	movl 0x12345678(%r13,%rax,2), %edx
	movq (,%rbx,8), %rax
	movq %fs:0, %rax
	movq %fs:-8, %rcx
	movl %fs:(%rdx), %eax
	movq %rax, %fs:0x10(%rbx,%rcx,4)
	movq 0x100(%rip), %rax
	movl %ecx, -4(%rip)
	movq %fs:0x20(%rip), %r9
	movq %rsp, %rbp
	movl %r8d, %r15d
	movq %r12, %rax
	movl $0x11111111, %eax
	movl $0x22222222, %ebx
	movl $0x33333333, %esi
	movl $0x44444444, %r9d
	movl $0x55555555, %r12d
	movl $0x66666666, %r15d
	movq $-1, %rax
	movq $0x7fffffff, %r11
	movabsq $0x1122334455667788, %r10
	movabsq $-2, %rdi
	movl $7, (%rax)
	movq $-7, 0x40(%rsp)
	movq $1, %fs:0(%rax)
	movl $2, 0x30(%rip)
	movzbl %al, %ecx
	movzbl %bl, %ecx
	movzbl %spl, %ecx
	movzbl %dil, %ecx
	movzbl %r9b, %ecx
	movzbq %sil, %r14
	movzbl (%rax,%rdx,1), %r8d
	movzbl %fs:1(%rcx), %eax
	movzbq 2(%rip), %rax
	movslq %eax, %rdx
	movslq (%r15), %r8
	movslq %r13d, %r13
	movslq %fs:4, %rax
	leaq 0x10(%rip), %rdi
	leaq (%rax), %rcx
	leal -1(%rbx,%rsi,2), %r9d
	leaq 0(,%rax,8), %rdx
	leaq 0x7fffffff(%r12), %r12
	leal 3(%r13), %eax
	leaq 0x10, %rax
	addq %r8, %rax
	addl %eax, 0(%rsp)
	addq %fs:0, %rdx
	addl (%rdi,%r8,4), %ecx
	addq $1, %rbx
	addq $-1, (%r8)
	addl $0x12345670, %esi
	addq $-0x12345670, 8(%rbp)
	addl $0x89abcde0, %eax
	addq $-0x70000000, %rax
	orq %r9, %rax
	orl %ecx, 1(%rsp)
	orq %fs:8, %rdx
	orl (%rdi,%r9,4), %ecx
	orq $2, %rbx
	orq $-2, (%r9)
	orl $0x12345671, %esi
	orq $-0x12345671, 8(%rbp)
	orl $0x89abcde1, %eax
	orq $-0x70000001, %rax
	andq %r10, %rax
	andl %edx, 2(%rsp)
	andq %fs:16, %rdx
	andl (%rdi,%r10,4), %ecx
	andq $3, %rbx
	andq $-3, (%r10)
	andl $0x12345672, %esi
	andq $-0x12345672, 8(%rbp)
	andl $0x89abcde2, %eax
	andq $-0x70000002, %rax
	subq %r11, %rax
	subl %ebx, 3(%rsp)
	subq %fs:24, %rdx
	subl (%rdi,%r11,4), %ecx
	subq $4, %rbx
	subq $-4, (%r11)
	subl $0x12345673, %esi
	subq $-0x12345673, 8(%rbp)
	subl $0x89abcde3, %eax
	subq $-0x70000003, %rax
	xorq %r12, %rax
	xorl %esi, 4(%rsp)
	xorq %fs:32, %rdx
	xorl (%rdi,%r12,4), %ecx
	xorq $5, %rbx
	xorq $-5, (%r12)
	xorl $0x12345674, %esi
	xorq $-0x12345674, 8(%rbp)
	xorl $0x89abcde4, %eax
	xorq $-0x70000004, %rax
	cmpq %r13, %rax
	cmpl %edi, 5(%rsp)
	cmpq %fs:40, %rdx
	cmpl (%rdi,%r13,4), %ecx
	cmpq $6, %rbx
	cmpq $-6, (%r13)
	cmpl $0x12345675, %esi
	cmpq $-0x12345675, 8(%rbp)
	cmpl $0x89abcde5, %eax
	cmpq $-0x70000005, %rax
	testq %rax, %rax
	testl %r9d, (%rcx)
	testl %esi, %r12d
	imulq %rbx, %rax
	imull 4(%rsp), %r8d
	imulq %fs:(%rax), %r15
	imull %ecx, %edx
	shlq $4, %rax
	shll $31, 8(%rdx)
	shlq $63, %r10
	shll $1, %ecx
	shlq $1, (%rsi)
	shlq $200, %rbx
	shrq $4, %rax
	shrl $31, 8(%rdx)
	shrq $63, %r10
	shrl $1, %ecx
	shrq $1, (%rsi)
	shrq $200, %rbx
	sarq $4, %rax
	sarl $31, 8(%rdx)
	sarq $63, %r10
	sarl $1, %ecx
	sarq $1, (%rsi)
	sarq $200, %rbx
	pushq %rax
	popq %rax
	pushq %rbp
	popq %rbp
	pushq %rsp
	popq %rsp
	pushq %r8
	popq %r8
	pushq %r13
	popq %r13
	leave
	call .+5
	call .-100
	call *%rax
	call *%r11
	call *16(%rip)
	call *%fs:8(%rax,%rbx,2)
	jmp .+2
	jmp .-20
	jmp .+1000
	jmp *%rdx
	jmp *-8(%r14)
	jmp *(,%r9,8)
	jo .+10
	jo .-1000
	jno .+10
	jno .-1000
	jb .+10
	jb .-1000
	jae .+10
	jae .-1000
	je .+10
	je .-1000
	jne .+10
	jne .-1000
	jbe .+10
	jbe .-1000
	ja .+10
	ja .-1000
	js .+10
	js .-1000
	jns .+10
	jns .-1000
	jl .+10
	jl .-1000
	jge .+10
	jge .-1000
	jle .+10
	jle .-1000
	jg .+10
	jg .-1000
	ret
	nop
	endbr64
	ud2
	nopl (%rax)
	nopl 0(%rax,%rax,1)
	nopw 0(%rax,%rax,1)
	nopw %cs:0(%rax,%rax,1)
	nopl 0x80(%rax)
	.byte 0x66, 0x90
	.byte 0x66, 0x66, 0x2e, 0x0f, 0x1f, 0x84, 0, 0, 0, 0, 0
	.byte 0x0f, 0x1f, 0xc0
	nopq (%r8)
	.byte 0x66, 0x48, 0x8d, 0x3d, 0, 0, 0, 0
	.byte 0x66, 0x66, 0x48, 0xe8, 0, 0, 0, 0
	.byte 0x48, 0x8b, 0xc3
	.byte 0x03, 0xd9
	.byte 0x48, 0x81, 0xc0, 1, 0, 0, 0
	.byte 0xc7, 0xc1, 5, 0, 0, 0
	.byte 0x8b, 0x44, 0x24, 0
	.byte 0x8b, 0x84, 0x20, 8, 0, 0, 0
	.byte 0x8b, 0x04, 0x25, 0xf8, 0xff, 0xff, 0xff
	.byte 0xc1, 0xe0, 1
	.byte 0x40, 0x50
	.byte 0x49, 0x57
