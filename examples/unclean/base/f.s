# How far the block lies from the thread pointer. Where the sequence is rewritten, it gives the thread pointer itself.
        .globl  f
        .type   f, @function
f:      leaq    x@tlsld(%rip), %rdi
        call    __tls_get_addr@PLT
        subq    %fs:0, %rax
        ret
        .size   f, . - f

        .section .tdata, "awT", @progbits
        .type   x, @object
        .align  4
        .size   x, 4
x:      .long   42
