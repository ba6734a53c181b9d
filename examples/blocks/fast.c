/* A module that threads open, and whose code finds its variable at a distance from the thread pointer. */
_Thread_local int near[6] = {4, 5};

int *near_place(void)
{
    return near;
}
