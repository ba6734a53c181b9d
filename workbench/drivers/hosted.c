/* The driver of programs that a loader starts: it is linked to the machine's C library, and uses its threads. The
   beginning is its own, so that no file of a compiler is needed. */
#include "driver.h"

int pthread_create(number *, const void *, void *(*)(void *), void *);
typedef void (*action)(void);
int __libc_start_main(int (*)(int, char **, char **), int, char **, action, action, action, void *);

static void *second(void *unused)
{
    serve();
    return unused;
}

static int run(int count, char **words, char **surroundings)
{
    number thread;
    (void)count, (void)surroundings;
    if (pthread_create(&thread, 0, second, 0))
        return 1;
    call_all(words + 1);
    kernel(231, 0, 0, 0, 0);
    return 0;
}

__attribute__((used)) static void begin(number *stack, action at_end)
{
    __libc_start_main(run, (int)stack[0], (char **)stack + 1, 0, 0, at_end, stack);
}

__asm__(".globl _start\n"
    ".type _start, @function\n"
    "_start:\n\t"
    "xor %ebp, %ebp\n\t"
    "mov %rsp, %rdi\n\t"
    "mov %rdx, %rsi\n\t"
    "and $-16, %rsp\n\t"
    "call begin\n\t"
    "hlt");
