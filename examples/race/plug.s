# A module that threads open: f adds its argument to the calling thread's v, and returns the sum. It asks the run time where v is
# (general dynamic), since no distance from the thread pointer is known of a module that is opened.
        .text
        .globl  f
        .type   f, @function
f:      pushq   %rdi
        .byte   0x66
        leaq    v@tlsgd(%rip), %rdi
        .value  0x6666
        rex64
        call    __tls_get_addr@PLT
        popq    %rcx
        addl    %ecx, (%rax)
        movl    (%rax), %eax
        ret
        .size   f, . - f

        .section .tdata, "awT", @progbits
        .globl  v
        .type   v, @object
        .align  4
        .size   v, 4
v:      .long   5
