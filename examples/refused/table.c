/* A table of constants at an address of 32 bits, as code for a fixed address may use. */
static const int table[4] = {2, 3, 5, 7};

int get(long i)
{
    return table[i];
}
