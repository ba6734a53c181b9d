/* What both drivers share: calls of a case's functions by two threads, by turns.

   The words of a driver are triples: a thread, 1 or 2, a function's distance from workbench_base, and an argument; both
   numbers in hexadecimal digits. Each call prints what it returned, as 16 digits and a line's end, before the next call
   begins. */
typedef unsigned long number;
typedef number (*function)(number, number, number);

const char workbench_base = 0;

static int turn;            /* whose turn it is: of the first thread 0, of the second 1 */
static function called;
static number argument, returned;

static long kernel(long call, long a, long b, long c, long d)
{
    long result;
    register long fourth __asm__("r10") = d;
    __asm__ volatile("syscall" : "=a"(result) : "a"(call), "D"(a), "S"(b), "d"(c), "r"(fourth)
        : "rcx", "r11", "memory");
    return result;
}

/* Waits until it is a thread's turn. */
static void await(int wanted)
{
    int seen;
    while ((seen = __atomic_load_n(&turn, __ATOMIC_SEQ_CST)) != wanted)
        kernel(202, (long)&turn, 0, seen, 0);
}

static void pass_turn(int to)
{
    __atomic_store_n(&turn, to, __ATOMIC_SEQ_CST);
    kernel(202, (long)&turn, 1, 1, 0);
}

/* The second thread: it never ends, and goes with the process. */
static void serve(void)
{
    for (;;) {
        await(1);
        returned = called(argument, 0, 0);
        pass_turn(0);
    }
}

static number read_number(const char *digits)
{
    number value = 0;
    for (; *digits; digits++)
        value = value * 16 + (*digits <= '9' ? *digits - '0' : *digits - 'a' + 10);
    return value;
}

static void print(number value)
{
    char line[17];
    for (int at = 15; at >= 0; at--, value /= 16)
        line[at] = "0123456789abcdef"[value % 16];
    line[16] = '\n';
    kernel(1, 1, (long)line, 17, 0);
}

static void call_all(char **words)
{
    for (; words[0] && words[1] && words[2]; words += 3) {
        called = (function)(&workbench_base + read_number(words[1]));
        argument = read_number(words[2]);
        if (words[0][0] == '1') {
            returned = called(argument, 0, 0);
        } else {
            pass_turn(1);
            await(0);
        }
        print(returned);
    }
}
