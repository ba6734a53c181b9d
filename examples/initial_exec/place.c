/* The address of a variable that another file defines. */
extern _Thread_local int own;

int *place(void)
{
    return &own;
}
