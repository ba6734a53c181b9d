/* A module whose code finds its variable at a distance from the thread pointer, as only a program may expect. */
_Thread_local char buffer[1500] = "room";

char *place(void)
{
    return buffer;
}
