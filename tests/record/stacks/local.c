/* A thread's variable lies on its stack, which lies where the program had a block and gave it back. The stack is a block without a place.
 *
 * STACK begins
 * STACK races
 * STACK joins
 */
#include "marks.h"
#include "../meet.h"

static int *volatile lent;

static void *own(void *nothing)
{
    int mine;
    *(volatile int *)&mine = 1; /* @begins */
    __atomic_store_n(&lent, &mine, __ATOMIC_RELAXED);
    next_turn();
    take_turn(2);
    return nothing;
}

static void *use(void *nothing)
{
    take_turn(1);
    *(volatile int *)__atomic_load_n(&lent, __ATOMIC_RELAXED) = 2; /* @races */
    next_turn();
    return nothing;
}

/* The stacks of the threads are small enough for the hole that the block leaves. */
UNWATCHED static void get_and_give_back(void)
{
    char *volatile block = malloc(16 << 20);
    free(block);
}

int main(void)
{
    pthread_t owner, user;
    pthread_attr_t how;
    pthread_attr_init(&how);
    pthread_attr_setstacksize(&how, 1 << 20);
    get_and_give_back();
    if (pthread_create(&owner, &how, own, NULL) != 0 || pthread_create(&user, &how, use, NULL) != 0)
        exit(99);
    pthread_join(owner, NULL); /* @joins */
    return pthread_join(user, NULL) == 0 ? 0 : shared; /* @joins */
}
