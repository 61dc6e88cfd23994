/* A program that ends in the middle, in each way: whatever was recorded before is not lost. */
#include "meet.h"

#include <signal.h>
#include <string.h>
#include <sys/wait.h>
#include <unistd.h>

static int bare;
static const char *how;
static int *volatile nowhere;

static void end(void)
{
    if (strcmp(how, "abort") == 0)
        abort();
    if (strcmp(how, "kill") == 0)
        raise(SIGKILL);
    if (strcmp(how, "fault") == 0)
        *nowhere = 1;
    if (strcmp(how, "_exit") == 0)
        _exit(5);
    if (strcmp(how, "exit") == 0)
        exit(6);
    if (strcmp(how, "exec") == 0)
        execl("/bin/sh", "sh", "-c", "exit 7", (char *)NULL);
}

static void work(int number)
{
    meet();
    bare++; /* RACE */
    meet();
    if (number == 0)
        end();
    for (;;)
        pause();
}

int main(int count, char **words)
{
    how = count > 1 ? words[1] : "abort";
    run_threads(3, work);
    return 0;
}
