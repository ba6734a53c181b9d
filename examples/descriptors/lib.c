/* A module's variable, which the program reads too. */
_Thread_local int shared = 2;

int add(int n)
{
    return shared += n;
}
