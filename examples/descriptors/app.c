/* A variable of this file, and one that lib.c defines. */
_Thread_local int own = 40;
extern _Thread_local int shared;

int read_own(void)
{
    return own;
}

int read_shared(void)
{
    return shared;
}
