# Takes an offset in a block for a number. Where the sequence is rewritten, a distance from the thread pointer stands in its place.
        .globl  f
        .type   f, @function
f:      leaq    x@tlsld(%rip), %rdi
        call    __tls_get_addr@PLT
        movq    $x@dtpoff, %rax
        ret
        .size   f, . - f

        .section .tdata, "awT", @progbits
        .align  8
        .quad   0
        .type   x, @object
        .size   x, 8
x:      .quad   42
