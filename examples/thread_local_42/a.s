# One function that reads a thread-local variable of its own executable (local-exec).
        .text
        .globl  f
        .type   f, @function
f:      movl    %fs:x@tpoff, %eax
        ret
        .size   f, . - f

        .section .tdata, "awT", @progbits
        .globl  x
        .type   x, @object
        .align  4
        .size   x, 4
x:      .long   42
