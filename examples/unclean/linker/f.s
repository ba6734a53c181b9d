# Reads where no section of the object stands: what a linker puts there is its own affair.
        .globl  f
        .type   f, @function
f:      movq    (%rdi), %rax
        ret
        .size   f, . - f

        .globl  g
        .type   g, @function
g:      .byte   0x66
        leaq    x@tlsgd(%rip), %rdi
        .value  0x6666
        rex64
        call    __tls_get_addr@PLT
        movl    (%rax), %eax
        ret
        .size   g, . - g

        .section .tdata, "awT", @progbits
        .globl  x
        .type   x, @object
        .align  4
        .size   x, 4
x:      .long   42
