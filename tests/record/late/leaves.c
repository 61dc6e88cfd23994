/* A child that is forked goes on until the recorder has ended. It starts no thread. */
#include <signal.h>
#include <unistd.h>

int main(void)
{
    pid_t recorder = getppid();
    if (fork() != 0)
        return 0;
    for (int stream = 0; stream < 3; stream++)
        close(stream);
    while (kill(recorder, 0) == 0)
        usleep(10000);
    _exit(0);
}
