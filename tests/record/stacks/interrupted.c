/* Signals that come anywhere, also into this library, on the stack of what they interrupt and on another one. What is interrupted has its own stacks as if
 * nothing had come. Those of the handler begin with `note handles *`, and go on with what was interrupted.
 *
 * STACK leaf inner outer-again main-outer
 * STACK leaf inner outer main-outer
 * STACK after outer main-outer
 * STACK after outer-again main-outer
 */
#define _GNU_SOURCE
#include "marks.h"

#include <sched.h>
#include <signal.h>

#define SIGNALS 400
#define ROUNDS 2000

static pthread_t worker;
static int noted, is_over;

APART static void leaf(void)
{
    shared++; /* @leaf */
}

APART static void inner(void)
{
    leaf(); /* @inner */
    shared++; /* @after */
}

APART static void outer(void)
{
    inner(); /* @outer */
    inner(); /* @outer-again */
    __asm__ volatile("");
}

APART static void note(void)
{
    noted++; /* @note */
}

static void handle(int number)
{
    (void)number;
    note(); /* @handles */
    __asm__ volatile("");
}

UNWATCHED static void *send(void *nothing)
{
    for (int i = 0; i < SIGNALS; i++) {
        pthread_kill(worker, i % 2 ? SIGUSR1 : SIGUSR2);
        sched_yield();
    }
    __atomic_store_n(&is_over, 1, __ATOMIC_RELAXED);
    return nothing;
}

UNWATCHED static void prepare(void)
{
    static char room[65536];
    static stack_t elsewhere;
    static struct sigaction action;
    elsewhere.ss_sp = room;
    elsewhere.ss_size = sizeof room;
    action.sa_handler = handle;
    sigaltstack(&elsewhere, NULL);
    sigaction(SIGUSR1, &action, NULL);
    action.sa_flags = SA_ONSTACK;
    sigaction(SIGUSR2, &action, NULL);
    worker = pthread_self();
}

UNWATCHED static pthread_t start(void)
{
    pthread_t sender;
    pthread_create(&sender, NULL, send, NULL);
    return sender;
}

int main(void)
{
    outer(); /* @main-outer */
    prepare();
    pthread_t sender = start();
    for (int i = 0; i < ROUNDS && !__atomic_load_n(&is_over, __ATOMIC_RELAXED); i++)
        outer(); /* @main-outer */
    pthread_join(sender, NULL);
    return 0;
}
