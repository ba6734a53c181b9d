_Thread_local int count = 200;

int next(void)
{
    return ++count;
}
