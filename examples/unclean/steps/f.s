# The sum of the numbers down from its argument to 1: three instructions for each, and two more.
        .globl  f
        .type   f, @function
f:      xorl    %eax, %eax
1:      addq    %rdi, %rax
        subq    $1, %rdi
        jne     1b
        ret
        .size   f, . - f
