/* Two variables of one file, which one call finds together. */
static _Thread_local int first = 40;
static _Thread_local int second = 2;

int sum(void)
{
    return first + second;
}

int set(int a, int b)
{
    first = a;
    second = b;
    return a + b;
}
