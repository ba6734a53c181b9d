/* The driver of programs that stand alone: their beginning, a block for each thread, a second thread, and the run
   time's function for sequences that a linker keeps. There is no C library here. */
#include "driver.h"

struct header { unsigned type, flags; number offset, address, physical, in_file, in_memory, alignment; };

static const struct header *segment;    /* the image's thread-local variables, if it has some */
static number block_size;               /* from a block's beginning to its thread pointer */

/* Finds the thread-local variables by the program headers that the kernel tells of. */
static void find_variables(const number *told)
{
    const struct header *headers = 0;
    number count = 0;
    for (; told[0]; told += 2) {
        if (told[0] == 3)
            headers = (const struct header *)told[1];
        if (told[0] == 5)
            count = told[1];
    }
    for (number at = 0; at < count; at++)
        if (headers[at].type == 7)
            segment = &headers[at];
    if (segment && segment->in_memory) {
        number alignment = segment->alignment ? segment->alignment : 1;
        block_size = segment->in_memory + (-(segment->address + segment->in_memory) & (alignment - 1));
    }
}

/* A new block, and the thread pointer behind it. */
static number new_block(void)
{
    register long none __asm__("r8") = -1, start __asm__("r9") = 0;
    long mapped;
    register long flags __asm__("r10") = 0x22;
    number alignment = segment && segment->alignment > 64 ? segment->alignment : 64;
    __asm__ volatile("syscall" : "=a"(mapped) : "a"(9), "D"(0), "S"(block_size + alignment + 4096), "d"(3), "r"(flags),
        "r"(none), "r"(start) : "rcx", "r11", "memory");
    number pointer = ((number)mapped + block_size + alignment - 1) & -alignment;
    for (number at = 0; segment && at < segment->in_file; at++)
        ((char *)pointer - block_size)[at] = ((const char *)segment->address)[at];
    *(number *)pointer = pointer;
    return pointer;
}

void *__tls_get_addr(const number *word)
{
    number pointer;
    __asm__("mov %%fs:0, %0" : "=r"(pointer));
    return (char *)pointer - block_size + word[1];
}

/* Starts the second thread on a stack of its own. */
static void start_second(void)
{
    static char stack[65536] __attribute__((aligned(16)));
    long result;
    register long none __asm__("r10") = 0;
    register number pointer __asm__("r8") = new_block();
    __asm__ volatile("syscall\n\t"
        "test %%rax, %%rax\n\t"
        "jnz 1f\n\t"
        "xor %%ebp, %%ebp\n\t"
        "call *%6\n"
        "1:"
        : "=a"(result) : "a"(56), "D"(0xd0f00), "S"(stack + sizeof stack), "d"(0), "r"(none), "b"(serve), "r"(pointer)
        : "rcx", "r11", "memory");
}

__attribute__((used)) static void begin(number *stack)
{
    number count = stack[0];
    number *told = stack + count + 2;
    while (*told++)
        ;
    find_variables(told);
    kernel(158, 0x1002, (long)new_block(), 0, 0);
    start_second();
    call_all((char **)stack + 2);
    kernel(231, 0, 0, 0, 0);
}

__asm__(".globl _start\n"
    ".type _start, @function\n"
    "_start:\n\t"
    "xor %ebp, %ebp\n\t"
    "mov %rsp, %rdi\n\t"
    "and $-16, %rsp\n\t"
    "call begin\n\t"
    "hlt");
