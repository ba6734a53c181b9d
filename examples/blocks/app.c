/* A program with something in each part of its image: code, constants, a thread-local variable, and data. */
_Thread_local long own = 1;
extern _Thread_local long shared[3];
static const unsigned char letters[] = "variant II";
static int calls;

long *own_place(void)
{
    calls += 1;
    return &own;
}

long *shared_place(void)
{
    return shared;
}

int letter(long i)
{
    return letters[i];
}
