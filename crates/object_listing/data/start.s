        .globl  f
        .type   f, @function
        .text
f:      movl    x@tpoff, %eax
        ret
        .size   f, . - f
        .section .tdata, "awT", @progbits
        .globl  x
        .align  4
x:      .long   42
        .size   x, 4
