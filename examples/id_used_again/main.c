/* A program that has no part in what the modules do. */
void nothing(void)
{
}
