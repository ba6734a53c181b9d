// What the processor itself makes of small pieces of code: one line a run.
//
//     gcc -O1 -o rows rows.c && ./rows > rows.txt
//
// Each piece is copied to CODE and called with %rax, %rcx, the eight bytes at DATA and the flags
// that its line shows; %rbx holds DATA, %rdx and the others hold their number in each byte. A line has:
// the code, %rax, %rcx, the word at DATA, the flags; which flags the manual defines; and then %rax,
// %rcx, %rdx, the word and the flags that the processor left. Flags are 1 CF, 2 ZF, 4 SF, 8 OF. That the
// other registers are as before, and %rsp 8 above, is asserted here.
#define _GNU_SOURCE
#include <assert.h>
#include <stdint.h>
#include <stdio.h>
#include <string.h>
#include <sys/mman.h>

#define CODE 0x10000000ul
#define DATA 0x20000000ul
#define STACK 0x30000000ul
#define SIZE 0x1000ul

uint64_t in[16], out[16], in_flags, out_flags, host_stack;
extern const unsigned char back[];
void call_piece(void);

asm(".text\n"
    "call_piece:\n"
    "push %rbx\n push %rbp\n push %r12\n push %r13\n push %r14\n push %r15\n"
    "mov %rsp, host_stack(%rip)\n"
    "mov in+0(%rip), %rax\n mov in+8(%rip), %rcx\n mov in+16(%rip), %rdx\n mov in+24(%rip), %rbx\n"
    "mov in+32(%rip), %rsp\n mov in+40(%rip), %rbp\n mov in+48(%rip), %rsi\n mov in+56(%rip), %rdi\n"
    "mov in+64(%rip), %r8\n mov in+72(%rip), %r9\n mov in+80(%rip), %r10\n mov in+88(%rip), %r11\n"
    "mov in+96(%rip), %r12\n mov in+104(%rip), %r13\n mov in+112(%rip), %r14\n mov in+120(%rip), %r15\n"
    "sub $8, %rsp\n pushq in_flags(%rip)\n popfq\n lea 8(%rsp), %rsp\n"
    "jmp *code_start(%rip)\n"
    "back:\n"
    "mov %rax, out+0(%rip)\n mov %rcx, out+8(%rip)\n mov %rdx, out+16(%rip)\n mov %rbx, out+24(%rip)\n"
    "mov %rsp, out+32(%rip)\n mov %rbp, out+40(%rip)\n mov %rsi, out+48(%rip)\n mov %rdi, out+56(%rip)\n"
    "mov %r8, out+64(%rip)\n mov %r9, out+72(%rip)\n mov %r10, out+80(%rip)\n mov %r11, out+88(%rip)\n"
    "mov %r12, out+96(%rip)\n mov %r13, out+104(%rip)\n mov %r14, out+112(%rip)\n mov %r15, out+120(%rip)\n"
    "mov host_stack(%rip), %rsp\n"
    "pushfq\n popq out_flags(%rip)\n"
    "pop %r15\n pop %r14\n pop %r13\n pop %r12\n pop %rbp\n pop %rbx\n"
    "ret\n"
    ".data\ncode_start: .quad 0x10000000\n.text\n");

// every pair of values once for each piece of a sort
static const uint64_t sums[][2] = {
    {5, 7}, {0x7fffffffffffffff, 1}, {0xffffffffffffffff, 1}, {0x8000000000000000, 0x8000000000000000},
    {0x123456787fffffff, 0x9876543200000001}, {0x00000000fffffff0, 0x80000000ffffffff}};
static const uint64_t products[][2] = {
    {3, 0xfffffffffffffffe}, {0x100000000, 0x100000000}, {0x8000000000000000, 0xffffffffffffffff}, {0x55550000ffff, 0x7fff0001}};
static const uint64_t shifts[][2] = {{0x8000000000000001, 0}, {0xc0000000f0000003, 0}, {0x4000000040000000, 0}};
static const uint64_t others[][2] = {{0x8877665544332211, 0x00000000000000f0}, {0, 0x0000000080000000}};

#define ALL 15
#define BUT_OF 7   // shifts by more than 1
#define CF_OF 9    // imul

// sort, flags that are defined, text
#define PIECES(P)                                                                                        \
    P(sums, ALL, "add %rcx, %rax") P(sums, ALL, "add %ecx, %eax") P(sums, ALL, "sub %rcx, %rax")         \
    P(sums, ALL, "sub %ecx, %eax") P(sums, ALL, "cmp %rcx, %rax") P(sums, ALL, "cmp %ecx, %eax")         \
    P(sums, ALL, "and %rcx, %rax") P(sums, ALL, "and %ecx, %eax") P(sums, ALL, "or %rcx, %rax")          \
    P(sums, ALL, "or %ecx, %eax") P(sums, ALL, "xor %rcx, %rax") P(sums, ALL, "xor %ecx, %eax")          \
    P(sums, ALL, "test %rcx, %rax") P(sums, ALL, "test %ecx, %eax")                                      \
    P(sums, ALL, "mov %rcx, (%rbx); add (%rbx), %rax") P(sums, ALL, "mov %ecx, 4(%rbx); sub 4(%rbx), %eax") \
    P(sums, ALL, "mov %rax, (%rbx); add %rcx, (%rbx)") P(sums, ALL, "mov %eax, (%rbx); sub %ecx, (%rbx)")    \
    P(sums, ALL, "mov %rax, (%rbx); cmp %rcx, (%rbx)") P(sums, ALL, "mov %rcx, (%rbx); cmp (%rbx), %eax")    \
    P(others, ALL, "and (%rbx), %rax") P(others, ALL, "or %eax, (%rbx)") P(others, ALL, "xor (%rbx), %eax")  \
    P(others, ALL, "xor %rax, (%rbx)") P(others, ALL, "and %ecx, 4(%rbx)") P(others, ALL, "or (%rbx), %rax") \
    P(others, ALL, "test %rax, (%rbx)") P(others, ALL, "test %eax, 4(%rbx)")                             \
    P(others, ALL, "add $-1, %rax") P(others, ALL, "add $127, %eax") P(others, ALL, "sub $-128, %rax")   \
    P(others, ALL, "cmp $17, %eax") P(others, ALL, "and $-16, %rcx") P(others, ALL, "or $1, %ecx")       \
    P(others, ALL, "xor $-1, %rcx") P(others, ALL, "add $0x12345678, %rcx") P(others, ALL, "sub $-0x12345678, %ecx") \
    P(others, ALL, "cmp $0x7fffffff, %rcx") P(others, ALL, "add $0x70000000, %rax") P(others, ALL, "and $0x0ff0, %eax") \
    P(others, ALL, "sub $0x10000, %rax") P(others, ALL, "xor $0x55555555, %eax") P(others, ALL, "cmp $-0x10000, %rax") \
    P(others, ALL, "or $0x10000, %eax")                                                                  \
    P(others, ALL, "addq $1, (%rbx)") P(others, ALL, "subl $-1, 4(%rbx)") P(others, ALL, "cmpq $0x1234567, (%rbx)") \
    P(others, ALL, "andl $0x0f0f0f0f, (%rbx)") P(others, ALL, "orq $-2, (%rbx)") P(others, ALL, "xorl $1, 4(%rbx)") \
    P(others, ALL, "sub %rcx, %rcx") P(others, ALL, "xor %eax, %eax")                                    \
    P(products, CF_OF, "imul %rcx, %rax") P(products, CF_OF, "imul %ecx, %eax")                          \
    P(products, CF_OF, "mov %rcx, (%rbx); imul (%rbx), %rax") P(products, CF_OF, "mov %ecx, (%rbx); imul (%rbx), %eax") \
    P(shifts, ALL, "shl $0, %rax") P(shifts, ALL, "shl $0, %eax") P(shifts, ALL, "sar $64, %rax")        \
    P(shifts, ALL, "shr $32, %eax") P(shifts, ALL, "shl $1, %rax") P(shifts, ALL, "shl $1, %eax")        \
    P(shifts, ALL, "shr $1, %rax") P(shifts, ALL, "shr $1, %eax") P(shifts, ALL, "sar $1, %rax")         \
    P(shifts, ALL, "sar $1, %eax") P(shifts, ALL, ".byte 0x48, 0xc1, 0xe8, 0x01")                        \
    P(shifts, ALL, ".byte 0xc1, 0xe0, 0x21") P(shifts, BUT_OF, "shl $4, %rax") P(shifts, BUT_OF, "shl $31, %eax") \
    P(shifts, BUT_OF, "shr $63, %rax") P(shifts, BUT_OF, "shr $4, %eax") P(shifts, BUT_OF, "sar $5, %rax") \
    P(shifts, BUT_OF, "sar $31, %eax") P(shifts, BUT_OF, "shl $67, %rax") P(shifts, BUT_OF, "mov %rax, (%rbx); sarq $2, (%rbx)") \
    P(shifts, BUT_OF, "mov %rax, (%rbx); shll $3, (%rbx)") P(shifts, ALL, "mov %rax, (%rbx); shrl $1, 4(%rbx)") \
    P(shifts, ALL, "shll $0, (%rbx)")                                                                    \
    P(others, ALL, "mov %rax, %rcx") P(others, ALL, "mov %eax, %ecx") P(others, ALL, "mov (%rbx), %ecx") \
    P(others, ALL, "mov 4(%rbx), %ecx") P(others, ALL, "mov %cl, 3(%rbx)") P(others, ALL, "mov %sil, 3(%rbx)") \
    P(others, ALL, "mov $-5, %rcx") P(others, ALL, "mov $0xfffffffb, %ecx") P(others, ALL, "movabs $0x123456789abcdef0, %rcx") \
    P(others, ALL, "movq $-7, (%rbx)") P(others, ALL, "movl $0x89abcdef, (%rbx)")                        \
    P(others, ALL, "movzbl %cl, %eax") P(others, ALL, "movzbl %al, %ecx") P(others, ALL, "movzbq %sil, %rax") \
    P(others, ALL, "movzbl 7(%rbx), %eax") P(others, ALL, "movzbq (%rbx), %rcx")                         \
    P(others, ALL, "movslq %ecx, %rax") P(others, ALL, "movslq %eax, %rcx") P(others, ALL, "movslq 4(%rbx), %rax") \
    P(others, ALL, "lea 5(%rax,%rcx,4), %rdx") P(others, ALL, "lea -8(%rax,%rcx,2), %edx")               \
    P(others, ALL, "lea 0(,%rax,8), %rdx") P(others, ALL, "lea 0x1000(%rip), %rdx") P(others, ALL, "lea 0x7fffffff, %rdx") \
    P(others, ALL, "lea (%r13), %rdx") P(others, ALL, "lea (%r12,%r13,1), %rdx")                         \
    P(others, ALL, "push %rax; pop %rdx") P(others, ALL, "push %rsp; pop %rdx") P(others, ALL, "push %rax; mov %rsp, %rcx; pop %rsp; mov %rsp, %rdx; lea 8(%rcx), %rsp") \
    P(others, ALL, "push %rbp; mov %rsp, %rbp; push %rax; push %rcx; leave") P(others, ALL, "push %rax; mov (%rsp), %edx; pop %rcx") \
    P(others, ALL, "call 1f; mov %rax, %rdx; jmp 2f; 1: mov (%rsp), %rcx; ret; 2:")                      \
    P(others, ALL, "lea 1f(%rip), %rax; call *%rax; jmp 2f; 1: mov (%rsp), %rdx; ret; 2:")               \
    P(others, ALL, "lea 1f(%rip), %rax; mov %rax, (%rbx); call *(%rbx); jmp 2f; 1: mov $9, %ecx; ret; 2:") \
    P(others, ALL, "lea 1f(%rip), %rax; jmp *%rax; ud2; 1: mov $9, %ecx")                                \
    P(others, ALL, "lea 1f(%rip), %rax; mov %rax, (%rbx); jmp *(%rbx); ud2; 1: mov $9, %ecx")            \
    P(others, ALL, "nop; nopl 0x123456(%rax,%rax,1); endbr64; .byte 0x66, 0x66, 0x2e, 0x0f, 0x1f, 0x84, 0, 0, 0, 0, 0")         \
    P(others, ALL, ".byte 0x66, 0x66, 0x48, 0x8d, 0x53, 0x08") P(others, ALL, "mov $3, %ecx; 1: add %rcx, %rax; sub $1, %rcx; jne 1b") \
    P(others, ALL, "jmp 1f; ud2; 1: mov -8(%rsp), %edx; xor %edx, %edx")

#define PIECE(sort, defined, text) ".byte 98f - 97f\n97: " text "\nret\n98:\n"   // labels 1 and 2 are the pieces' own
#define TEXT(sort, defined, text) {sort, sizeof sort / sizeof sort[0], defined, text},

asm(".section .rodata\npieces:\n" PIECES(PIECE) ".text\n");
extern const unsigned char pieces[];

static const struct { const uint64_t (*values)[2]; int count, defined; const char *text; } texts[] = {PIECES(TEXT)};

#define CONDITIONS(C) C("jo") C("jno") C("jb") C("jae") C("je") C("jne") C("jbe") C("ja") C("js") C("jns") C("jl") C("jge") C("jle") C("jg")
#define JUMP(name) ".byte 98f - 97f\n97: mov $1, %eax; " name " 96f; mov $0, %eax; 96: ret\n98:\n"
#define JUMP4(name) ".byte 98f - 97f\n97: mov $1, %eax; {disp32} " name " 96f; mov $0, %eax; 96: ret\n98:\n"
#define NAME(name) name,
asm(".section .rodata\njumps:\n" CONDITIONS(JUMP) CONDITIONS(JUMP4) ".text\n");
extern const unsigned char jumps[];
static const char *const names[] = {CONDITIONS(NAME) CONDITIONS(NAME)};

static uint64_t flags_from(int few) { return 2 | (few & 1) | (few & 2) << 5 | (few & 4) << 5 | (uint64_t)(few & 8) << 8; }
static int few_of(uint64_t flags) { return (flags & 1) | (flags >> 5 & 2) | (flags >> 5 & 4) | (flags >> 8 & 8); }

static void run(const unsigned char *piece, uint64_t a, uint64_t c, uint64_t word, int few) {
    memcpy((void *)CODE, piece + 1, piece[0]);
    memset((void *)STACK, 0, SIZE);
    for (int i = 0; i < 16; i++) in[i] = 0x0101010101010101ul * i;
    in[0] = a; in[1] = c; in[3] = DATA; in[4] = STACK + SIZE - 64;
    *(uint64_t *)DATA = word;
    *(uint64_t *)in[4] = (uint64_t)back;
    in_flags = flags_from(few);
    call_piece();
    for (int i = 3; i < 16; i++) assert(out[i] == in[i] + (i == 4 ? 8 : 0));
}

static void print_code(const unsigned char *piece) {
    for (int i = 1; i <= piece[0]; i++) printf("%02x", piece[i]);
}

int main(void) {
    assert(mmap((void *)CODE, SIZE, PROT_READ | PROT_WRITE | PROT_EXEC, MAP_PRIVATE | MAP_ANONYMOUS | MAP_FIXED, -1, 0) == (void *)CODE);
    assert(mmap((void *)DATA, SIZE, PROT_READ | PROT_WRITE, MAP_PRIVATE | MAP_ANONYMOUS | MAP_FIXED, -1, 0) == (void *)DATA);
    assert(mmap((void *)STACK, SIZE, PROT_READ | PROT_WRITE, MAP_PRIVATE | MAP_ANONYMOUS | MAP_FIXED, -1, 0) == (void *)STACK);
    const unsigned char *piece = pieces;
    int odd = 0;
    for (size_t i = 0; i < sizeof texts / sizeof texts[0]; i++, piece += piece[0] + 1)
        for (int j = 0; j < texts[i].count; j++) {
            uint64_t a = texts[i].values[j][0], c = texts[i].values[j][1], word = 0xf0e0d0c0a0908081ul;
            int few = odd ? 15 : 0;
            odd = !odd;
            run(piece, a, c, word, few);
            print_code(piece);
            printf(" %lx %lx %lx %x %x %lx %lx %lx %lx %x # %s\n", a, c, word, few, texts[i].defined, out[0], out[1], out[2],
                   *(uint64_t *)DATA, few_of(out_flags), texts[i].text);
        }
    // a jump's line: the code, and for each of the sixteen states of the flags whether it is taken, a bit each
    piece = jumps;
    for (size_t i = 0; i < sizeof names / sizeof names[0]; i++, piece += piece[0] + 1) {
        unsigned taken = 0;
        for (int few = 0; few < 16; few++) {
            run(piece, 0, 0, 0, few);
            taken |= (unsigned)out[0] << few;
        }
        printf("taken ");
        print_code(piece);
        printf(" %x # %s\n", taken, names[i]);
    }
    return 0;
}
