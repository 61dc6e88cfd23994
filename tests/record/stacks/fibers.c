/* Fibers by swapcontext: each has calls of its own, whoever resumed it. One of them goes on in another thread, which knows what it calls from there on.
 *
 * STACK leaf yields first
 * STACK leaf yields first-again
 * STACK leaf yields second
 * STACK leaf yields second-again
 * STACK resumed first
 * STACK resumed first-again
 * STACK resumed second
 * STACK leaf runs main-runs
 * STACK leaf runs main-runs-again
 * STACK leaf sets-out travels
 * STACK leaf arrived
 * STACK leaf carries
 * STACK leaf wide-comes-back
 * STACK leaf runs main-runs-third
 * STACK main-join
 */
#define _GNU_SOURCE
#include "marks.h"

#include <ucontext.h>

#define ROOM 65536

static ucontext_t home, fibers[2], traveller, other_home;

APART static void leaf(void)
{
    shared++; /* @leaf */
}

APART static void yield_to(ucontext_t *from, ucontext_t *to)
{
    leaf(); /* @yields */
    swapcontext(from, to);
    shared++; /* @resumed */
}

static void first(void)
{
    yield_to(&fibers[0], &fibers[1]); /* @first */
    yield_to(&fibers[0], &fibers[1]); /* @first-again */
    __asm__ volatile("");
}

static void second(void)
{
    yield_to(&fibers[1], &fibers[0]); /* @second */
    yield_to(&fibers[1], &fibers[0]); /* @second-again */
    __asm__ volatile("");
}

APART static void set_out(void)
{
    leaf(); /* @sets-out */
    swapcontext(&traveller, &home);
}

/* It needs more of the stack than the function that was there when the first thread left the fiber. */
APART static void come_back(void)
{
    char room[1000];
    __asm__ volatile("" : : "r"(room) : "memory");
    swapcontext(&traveller, &other_home);
    leaf(); /* @wide-comes-back */
    __asm__ volatile("" : : "r"(room) : "memory");
    swapcontext(&traveller, &home);
}

static void travel(void)
{
    set_out(); /* @travels */
    leaf(); /* @arrived */
    come_back(); /* @travels-back */
}

UNWATCHED static void make(ucontext_t *fiber, void (*body)(void), char *room)
{
    getcontext(fiber);
    fiber->uc_stack.ss_sp = room;
    fiber->uc_stack.ss_size = ROOM;
    fiber->uc_link = &home;
    makecontext(fiber, body, 0);
}

APART static void run(ucontext_t *fiber)
{
    swapcontext(&home, fiber);
    leaf(); /* @runs */
    __asm__ volatile("");
}

static void *carry(void *nothing)
{
    swapcontext(&other_home, &traveller);
    leaf(); /* @carries */
    return nothing;
}

int main(void)
{
    static char room[ROOM];
    pthread_t *thread = malloc(sizeof *thread);
    make(&fibers[0], first, room);
    make(&fibers[1], second, malloc(ROOM));
    run(&fibers[0]); /* @main-runs */
    make(&traveller, travel, malloc(ROOM));
    run(&traveller); /* @main-runs-again */
    pthread_create(thread, NULL, carry, NULL);
    pthread_join(*thread, NULL); /* @main-join */
    run(&traveller); /* @main-runs-third */
    return 0;
}
