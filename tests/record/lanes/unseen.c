/* A token that goes round by atomic operations. This file is built without the option that would let the recorder see them. */
#include <sched.h>

void wait_for(int number, int count);
void pass_on(void);

static unsigned token;

void wait_for(int number, int count)
{
    for (unsigned turn = 1; __atomic_load_n(&token, __ATOMIC_SEQ_CST) % (unsigned)count != (unsigned)number; turn++)
        if (turn % 64 == 0)
            sched_yield();
}

void pass_on(void)
{
    __atomic_fetch_add(&token, 1, __ATOMIC_SEQ_CST);
}
