/* A program of no variables, for images that are modules. */
void nothing(void)
{
}
