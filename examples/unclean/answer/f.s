# Returns what a local dynamic sequence gives: the beginning of the block, or, where it is rewritten, the thread pointer.
        .globl  f
        .type   f, @function
f:      leaq    x@tlsld(%rip), %rdi
        call    __tls_get_addr@PLT
        ret
        .size   f, . - f

        .section .tdata, "awT", @progbits
        .type   x, @object
        .align  4
        .size   x, 4
x:      .long   42
