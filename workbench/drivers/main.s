# A program with nothing in it: of a job whose module is looked at.
        .text
        .globl  main
        .type   main, @function
main:   ret
        .size   main, . - main
        .section .note.GNU-stack, "", @progbits
