/* A variable that other files may use, and two that none does. */
_Thread_local int own = 40;
static _Thread_local int first = 1;
static _Thread_local int second = 2;

int read_own(void)
{
    return own;
}

int set(int a, int b)
{
    first = a;
    second = b;
    return a + b;
}

int sum(void)
{
    return first + second;
}
