# Each form of sequence once, as an assembler is told to write it.
        .macro  function name
        .globl  \name
        .type   \name, @function
\name:
        .endm

        function gd                             # general dynamic: the address of x
        subq    $8, %rsp
        .byte   0x66
        leaq    x@tlsgd(%rip), %rdi
        .value  0x6666
        rex64
        call    __tls_get_addr@PLT
        movl    (%rax), %eax
        addq    $8, %rsp
        ret

        function gd_ind                         # the same, called through the table
        subq    $8, %rsp
        .byte   0x66
        leaq    x@tlsgd(%rip), %rdi
        .byte   0x66
        rex64
        call    *__tls_get_addr@GOTPCREL(%rip)
        movl    (%rax), %eax
        addq    $8, %rsp
        ret

        function ld                             # local dynamic: the beginning of the block, from which offsets count
        subq    $8, %rsp
        leaq    x@tlsld(%rip), %rdi
        call    __tls_get_addr@PLT
        movl    x@dtpoff(%rax), %eax
        addq    $8, %rsp
        ret

        function ld_ind                         # the same, called through the table
        subq    $8, %rsp
        leaq    x@tlsld(%rip), %rdi
        call    *__tls_get_addr@GOTPCREL(%rip)
        movl    x@dtpoff(%rax), %eax
        addq    $8, %rsp
        ret

        function ie_mov                         # initial exec: the distance of x from the thread pointer, into any register
        movq    x@gottpoff(%rip), %r10
        movl    %fs:(%r10), %eax
        ret

        function ie_add                         # the same, added to any register
        movq    %fs:0, %rsi
        addq    x@gottpoff(%rip), %rsi
        movl    (%rsi), %eax
        ret

        function desc                           # a descriptor, and its call: the distance
        subq    $8, %rsp
        leaq    x@tlsdesc(%rip), %rax
        call    *x@tlscall(%rax)
        movl    %fs:(%rax), %eax
        addq    $8, %rsp
        ret

        .section .tdata, "awT", @progbits
        .globl  x
        .type   x, @object
        .align  4
        .size   x, 4
x:      .long   42
