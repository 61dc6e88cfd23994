/* A fork while another thread starts the first detector: the child starts one of its own. It is linked with --wrap=pthread_atfork. */
#include "checks.h"

#include <sched.h>
#include <stdatomic.h>
#include <sys/wait.h>
#include <unistd.h>

static atomic_bool is_inside, has_forked;
int __real_pthread_atfork(void (*)(void), void (*)(void), void (*)(void));
int __wrap_pthread_atfork(void (*)(void), void (*)(void), void (*)(void));

int __wrap_pthread_atfork(void (*before)(void), void (*after)(void), void (*in_child)(void))
{
    is_inside = true;
    while (!has_forked)
        sched_yield();
    return __real_pthread_atfork(before, after, in_child);
}

static void *start(void *unused)
{
    eraser_detector *detector = eraser_start(NULL);
    CHECK(detector != NULL);
    eraser_stop(detector);
    return unused;
}

int main(void)
{
    pthread_t thread;
    int status;
    CHECK(pthread_create(&thread, NULL, start, NULL) == 0);
    while (!is_inside)
        sched_yield();
    pid_t child = fork();
    has_forked = true;
    if (child == 0) {
        alarm(60);
        start(NULL);
        _exit(0);
    }
    CHECK(child > 0 && waitpid(child, &status, 0) == child && status == 0 && pthread_join(thread, NULL) == 0);
    printf("fine\n");
    return 0;
}
