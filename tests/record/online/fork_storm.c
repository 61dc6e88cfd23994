/* Forks while other threads use new memory, for which the detector needs memory of its own. The children end at once, or go on with a thread. */
#define _GNU_SOURCE
#include "../meet.h"

#include <sys/mman.h>
#include <sys/wait.h>
#include <unistd.h>

#define FORKS 100
#define BYTES (1 << 20)

static int is_over;

static void *work(void *nothing)
{
    while (!__atomic_load_n(&is_over, __ATOMIC_RELAXED)) {
        int *pages = mmap(NULL, BYTES, PROT_READ | PROT_WRITE, MAP_PRIVATE | MAP_ANONYMOUS, -1, 0);
        for (int at = 0; at < BYTES / 4; at += 256)
            pages[at] = at;
        munmap(pages, BYTES);
    }
    return nothing;
}

static void *use(void *given)
{
    *(int *)given = 1;
    return given;
}

/* It has nothing to wait for. So if it doesn't end, a signal ends it. */
static int go_on(void)
{
    pthread_t thread;
    int word = 0;
    alarm(200);
    if (pthread_create(&thread, NULL, use, &word) != 0)
        return 99;
    pthread_join(thread, NULL);
    return !word;
}

int main(void)
{
    pthread_t threads[3];
    int failed = 0;
    alarm(400);
    for (int i = 0; i < 3; i++)
        if (pthread_create(&threads[i], NULL, work, NULL) != 0)
            exit(99);
    for (int i = 0; i < FORKS; i++) {
        int status = 0;
        /* Of these children one in ten is made without the handlers of forks, and one in ten with them and goes on. */
        pid_t child = i % 10 == 1 ? _Fork() : fork();
        if (child == 0)
            _exit(i % 10 < 2 ? go_on() : 0);
        failed += child < 0 || waitpid(child, &status, 0) != child || status != 0;
    }
    __atomic_store_n(&is_over, 1, __ATOMIC_RELAXED);
    for (int i = 0; i < 3; i++)
        pthread_join(threads[i], NULL);
    printf("%d failed\n", failed);
    return 0;
}
