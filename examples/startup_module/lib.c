/* A module that says what went wrong in a variable of the calling thread, as the C library does in errno. */
_Thread_local int error;

int divide(int a, int b)
{
    int quotient = 0;
    error = 0;
    if (b <= 0) {
        error = 33;
        return 0;
    }
    while (a >= b) {
        a -= b;
        quotient++;
    }
    return quotient;
}
