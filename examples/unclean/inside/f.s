# Jumps into a sequence, behind its first byte.
        .globl  f
        .type   f, @function
f:      jmp     find + 1
find:   leaq    x@tlsld(%rip), %rdi
        call    __tls_get_addr@PLT
        addq    $x@dtpoff, %rax
        movl    (%rax), %eax
        ret
        .size   f, . - f

        .section .tdata, "awT", @progbits
        .type   x, @object
        .align  4
        .size   x, 4
x:      .long   42
