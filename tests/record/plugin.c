/* What loads.c loads. */
static int bare;

void step(void);
void step(void)
{
    bare++; /* RACE */
}
