/* The same line races in a program and in its child: each is stopped there once. */
#include "stops.h"

#include <sys/wait.h>
#include <unistd.h>

static int bare;

static void work(int number)
{
    take_turn(number);
    bare = number; /* RACE */
    next_turn();
}

int main(void)
{
    int status = 0;
    signal(SIGTRAP, count);
    run_threads(2, work);
    pid_t child = fork();
    if (child == 0) {
        turn = stopped = 0;
        run_threads(2, work);
        return stopped;
    }
    waitpid(child, &status, 0);
    printf("%d and %d\n", stopped, WEXITSTATUS(status));
    return 0;
}
