/* Variables that other files define: one of the program, and one of a module that starts with it. */
extern _Thread_local int own;
extern _Thread_local int shared;

int read_own(void)
{
    return own;
}

int read_shared(void)
{
    return shared;
}
