/* A program with no variables, for a job whose count.o is a module. */
void nothing(void)
{
}
