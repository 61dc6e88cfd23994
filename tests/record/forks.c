/* A child records nothing, neither before nor after it starts another program; its parent goes on. */
#include "meet.h"

#include <sys/wait.h>
#include <unistd.h>

static int bare, after, of_child;

static void work(int number)
{
    meet();
    bare++; /* RACE */
    meet();
    if (number == 0) {
        pid_t child = fork();
        if (child == 0) {
            for (int i = 0; i < 1000; i++)
                of_child++; /* NEVER */
            execl("/bin/sh", "sh", "-c", "exit 4", (char *)NULL);
        }
        int status;
        waitpid(child, &status, 0);
        if (!WIFEXITED(status) || WEXITSTATUS(status) != 4)
            exit(1);
    }
    meet();
    after++; /* RACE */
}

int main(void)
{
    run_threads(2, work);
    return 0;
}
