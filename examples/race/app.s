# A program with one thread-local variable and no part in what the module does.
        .section .tdata, "awT", @progbits
        .globl  own
        .type   own, @object
        .align  4
        .size   own, 4
own:    .long   1
