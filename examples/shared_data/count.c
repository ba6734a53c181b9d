/* A count that all threads share, and one of each thread's own. */
static int total;
_Thread_local int own;

int next(void)
{
    own += 1;
    total += 1;
    return total;
}
