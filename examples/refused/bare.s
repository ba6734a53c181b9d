# A general dynamic access without its padding: 66 before lea, and 66 66 48 before call.
        .globl  f
        .type   f, @function
f:      leaq    x@tlsgd(%rip), %rdi
        call    __tls_get_addr@PLT
        movl    (%rax), %eax
        ret
        .size   f, . - f

        .section .tdata, "awT", @progbits
        .globl  x
        .type   x, @object
        .align  4
        .size   x, 4
x:      .long   42
