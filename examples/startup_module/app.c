/* The program looks at the variable of the module that started with it. */
extern _Thread_local int error;

int last_error(void)
{
    return error;
}
