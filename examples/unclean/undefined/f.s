# Keeps its argument in %rcx over a call, which may change that register.
        .globl  f
        .type   f, @function
f:      movl    %edi, %ecx
        .byte   0x66
        leaq    x@tlsgd(%rip), %rdi
        .value  0x6666
        rex64
        call    __tls_get_addr@PLT
        addl    %ecx, (%rax)
        movl    (%rax), %eax
        ret
        .size   f, . - f

        .section .tdata, "awT", @progbits
        .globl  x
        .type   x, @object
        .align  4
        .size   x, 4
x:      .long   42
