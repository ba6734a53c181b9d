# The variables of a shared object. lib.o is what tlsld links, lib.so the same as others link against it.
        .section .tdata, "awT", @progbits
        .globl  lib_first
        .type   lib_first, @object
        .align  16
        .size   lib_first, 16
lib_first:
        .long   0x6101, 0x6102, 0x6103, 0x6104
        .globl  lib_second
        .type   lib_second, @object
        .size   lib_second, 16
lib_second:
        .long   0x6201, 0x6202, 0x6203, 0x6204
        .section .tbss, "awT", @nobits
        .globl  lib_zero
        .type   lib_zero, @object
        .align  8
        .size   lib_zero, 16
lib_zero:
        .zero   16
        .section .note.GNU-stack, "", @progbits
