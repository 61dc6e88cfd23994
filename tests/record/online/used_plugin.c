/* What tests/record/online/early_host.c loads. */
void use(void);

static int words[4096];

void use(void)
{
    for (int at = 0; at < 4096; at++)
        words[at] = 0;
}
