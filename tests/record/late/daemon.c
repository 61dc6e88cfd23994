/* A daemon: its parents end at once, and it goes on. It has two threads, and is recorded from the first one on. Its title stands where its environment was,
 * and a lock that was taken before is released afterwards. */
#include "../meet.h"

#include <string.h>
#include <unistd.h>

static pthread_mutex_t lock = PTHREAD_MUTEX_INITIALIZER, early = PTHREAD_MUTEX_INITIALIZER;
static int bare, protected;
extern char **environ;

static void work(int number)
{
    (void)number;
    meet();
    bare++; /* RACE */
    pthread_mutex_lock(&lock);
    protected++;
    pthread_mutex_unlock(&lock);
}

/* The child goes on, and its parent doesn't. */
static void leave_parent(void)
{
    pid_t child = fork();
    if (child < 0)
        exit(98);
    if (child > 0)
        _exit(0);
}

static void write_title(void)
{
    for (char **setting = environ; *setting; setting++)
        memset(*setting, '-', strlen(*setting));
}

int main(void)
{
    pthread_mutex_lock(&early);
    leave_parent();
    setsid();
    leave_parent();
    write_title();
    run_threads(2, work);
    pthread_mutex_unlock(&early);
    pthread_mutex_lock(&lock);
    int sum = protected;
    pthread_mutex_unlock(&lock);
    return sum == 2 ? 0 : 97;
}
