/* A module that threads open, and whose code asks the run time where its variable is. */
_Thread_local int far[10] = {6, 7};

int *far_place(void)
{
    return far;
}
