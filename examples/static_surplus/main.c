/* A program that has no part in what the module does. */
void nothing(void)
{
}
