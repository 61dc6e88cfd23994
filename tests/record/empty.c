/* A program that is instrumented and has no access that is recorded. */
int main(void)
{
    return 0;
}
