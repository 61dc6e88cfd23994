/* The first thread gets memory and frees it, the second one still uses it, and then the first one gets the same bytes again and writes to them. By both
 * analyses that write races with the use. BLOCK says how many bytes a block has, and the marks of the call that got it and of the calls around that.
 *
 * STACK begins owns
 * STACK uses
 * STACK races owns
 * STACK joins
 * BLOCK 64 first owns
 * BLOCK 64 again owns
 */
#include "marks.h"
#include "../meet.h"

static volatile int *lent;

APART static void own(void)
{
    volatile int *block = malloc(64); /* @first */
    block[3] = shared; /* @begins */
    __atomic_store_n(&lent, block, __ATOMIC_RELAXED);
    free((void *)block);
    next_turn();
    take_turn(2);
    block = malloc(64); /* @again */
    if (block != __atomic_load_n(&lent, __ATOMIC_RELAXED))
        exit(99);
    block[3] = 2; /* @races */
}

static void *use(void *nothing)
{
    take_turn(1);
    __atomic_load_n(&lent, __ATOMIC_RELAXED)[3] = 3; /* @uses */
    next_turn();
    return nothing;
}

int main(void)
{
    pthread_t user;
    if (pthread_create(&user, NULL, use, NULL) != 0)
        exit(99);
    own(); /* @owns */
    pthread_join(user, NULL); /* @joins */
    return 0;
}
