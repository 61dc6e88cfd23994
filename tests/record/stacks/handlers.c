/* Signal handlers, on the stack of what they interrupt and on one of their own.
 *
 * STACK leaf handles * raises main-here
 * STACK leaf handles * raises main-elsewhere
 * STACK leaf handles * raises main-elsewhere-again
 * STACK leaf handles * raises in-thread
 * STACK after main-here
 * STACK after main-elsewhere
 * STACK after main-elsewhere-again
 * STACK after in-thread
 * STACK leaf main-leaf
 * STACK leaf handles * nested handles-more * raises main-nested
 * STACK after main-nested
 * STACK handled-more * raises main-nested
 * STACK sets
 * STACK main-join
 */
#define _GNU_SOURCE
#include "marks.h"

#include <signal.h>

APART static void leaf(void)
{
    shared++; /* @leaf */
}

static void handle(int number)
{
    (void)number;
    leaf(); /* @handles */
    __asm__ volatile("");
}

APART static void nest(void)
{
    raise(SIGUSR2); /* @nested */
    __asm__ volatile("");
}

static void handle_more(int number)
{
    (void)number;
    nest(); /* @handles-more */
    shared++; /* @handled-more */
}

APART static void raises(int number)
{
    raise(number); /* @raises */
    shared++; /* @after */
}

static void *work(void *nothing)
{
    raises(SIGUSR1); /* @in-thread */
    return nothing;
}

int main(void)
{
    static char room[65536];
    static stack_t elsewhere;
    static struct sigaction action;
    pthread_t *thread = malloc(sizeof *thread);
    elsewhere = (stack_t){.ss_sp = room, .ss_size = sizeof room}; /* @sets */
    sigaltstack(&elsewhere, NULL);
    action.sa_handler = handle; /* @sets */
    sigaction(SIGUSR1, &action, NULL);
    action.sa_flags = SA_ONSTACK; /* @sets */
    sigaction(SIGUSR2, &action, NULL);
    action.sa_handler = handle_more; /* @sets */
    sigaction(SIGWINCH, &action, NULL);
    raises(SIGUSR1); /* @main-here */
    raises(SIGUSR2); /* @main-elsewhere */
    raises(SIGUSR2); /* @main-elsewhere-again */
    leaf(); /* @main-leaf */
    raises(SIGWINCH); /* @main-nested */
    pthread_create(thread, NULL, work, NULL);
    pthread_join(*thread, NULL); /* @main-join */
    return 0;
}
