_Thread_local int count = 100;

int next(void)
{
    return ++count;
}
