/* A variable of the program itself: its distance from the thread pointer is a constant. */
static _Thread_local int count = 40;

int next(void)
{
    return ++count;
}
