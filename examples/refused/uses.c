/* Two variables, of which no file here defines the second. */
_Thread_local int own = 40;
extern _Thread_local int missing;

int sum(void)
{
    return own + missing;
}
