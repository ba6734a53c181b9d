# Looks into a descriptor, which only its own call may do. Where the sequence is rewritten there is none.
        .globl  f
        .type   f, @function
f:      leaq    x@tlsdesc(%rip), %rax
        movq    8(%rax), %rax
        ret
        .size   f, . - f

        .section .tdata, "awT", @progbits
        .globl  x
        .type   x, @object
        .align  4
        .size   x, 4
x:      .long   42
