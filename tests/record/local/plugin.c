/* A library that is loaded while the program runs: its thread-local memory lies apart from the threads' stacks. */
static __thread char own[400];

void fill(void);
void fill(void)
{
    for (int i = 0; i < 400; i += 4)
        own[i]++;
}
