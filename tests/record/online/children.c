/* A child that goes on with threads of its own, after its parent's threads have used the same words. */
#include "../meet.h"

#include <sys/wait.h>
#include <unistd.h>

static int bare, guarded;
static pthread_mutex_t lock = PTHREAD_MUTEX_INITIALIZER;

static void *work(void *nothing)
{
    pthread_mutex_lock(&lock);
    guarded++;
    pthread_mutex_unlock(&lock);
    bare++; /* RACE */
    return nothing;
}

static void run_both(void)
{
    pthread_t threads[2];
    for (int i = 0; i < 2; i++)
        if (pthread_create(&threads[i], NULL, work, NULL) != 0)
            exit(99);
    for (int i = 0; i < 2; i++)
        pthread_join(threads[i], NULL);
}

int main(void)
{
    int status = 0;
    run_both();
    pid_t child = fork();
    run_both();
    if (child == 0)
        return 0;
    waitpid(child, &status, 0);
    return WIFEXITED(status) ? WEXITSTATUS(status) : 1;
}
