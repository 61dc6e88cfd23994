/* A forked child that is recorded goes on in the calls that its parent was in. Its ring has other nodes.
 *
 * STACK leaf before main-before
 * STACK leaf child-leaf child main-forks
 * STACK leaf child-again main-forks
 * STACK leaf started
 * STACK leaf parent main-forks
 * STACK thread-is-joined child main-forks
 */
#include "marks.h"

#include <sys/wait.h>
#include <unistd.h>

APART static void leaf(void)
{
    shared++; /* @leaf */
}

APART static void before(void)
{
    leaf(); /* @before */
    __asm__ volatile("");
}

static void *work(void *nothing)
{
    leaf(); /* @started */
    return nothing;
}

APART static void run_child(void)
{
    static pthread_t thread;
    pthread_create(&thread, NULL, work, NULL);
    pthread_join(thread, NULL); /* @thread-is-joined */
    leaf(); /* @child-leaf */
    __asm__ volatile("");
}

APART static void forks(void)
{
    pid_t child = fork();
    if (child == 0) {
        run_child(); /* @child */
        leaf(); /* @child-again */
        _exit(0);
    }
    while (waitpid(child, NULL, 0) < 0)
        ;
    leaf(); /* @parent */
    __asm__ volatile("");
}

int main(void)
{
    before(); /* @main-before */
    forks(); /* @main-forks */
    return 0;
}
