/* Thread-local variables that other files use, and two of its own that one function uses together. */
_Thread_local int count = 40;
_Thread_local long total;
static _Thread_local int calls = 1;
static _Thread_local int last;

int next(void)
{
    last = count;
    calls += 1;
    return count += calls;
}

int before(void)
{
    return last;
}

long *total_place(void)
{
    return &total;
}
