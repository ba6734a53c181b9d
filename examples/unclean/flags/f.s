# Asks whether the addition had a carry. Where the sequence is rewritten it is a lea, which sets no flag.
        .globl  f
        .type   f, @function
f:      movq    %fs:0, %rax
        addq    x@gottpoff(%rip), %rax
        jc      1f
        movl    $0, %eax
        ret
1:      movl    $1, %eax
        ret
        .size   f, . - f

        .section .tdata, "awT", @progbits
        .globl  x
        .type   x, @object
        .align  4
        .size   x, 4
x:      .long   42
