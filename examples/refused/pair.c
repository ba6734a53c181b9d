/* Two variables of one file, which gcc finds together by a descriptor of _TLS_MODULE_BASE_. */
static _Thread_local int first = 40;
static _Thread_local int second = 2;

int sum(void)
{
    return first + second;
}

void set(int a, int b)
{
    first = a;
    second = b;
}
