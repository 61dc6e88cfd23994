/* It isn't instrumented, and has a handler before it loads what is. The handler leaves by longjmp what it has interrupted. */
#define _GNU_SOURCE
#include <dlfcn.h>
#include <setjmp.h>
#include <signal.h>
#include <stdio.h>
#include <sys/time.h>

static volatile sig_atomic_t rounds;
static sigjmp_buf back;

static void leave(int number)
{
    rounds++;
    siglongjmp(back, number);
}

int main(int count, char **words)
{
    struct sigaction now;
    signal(SIGALRM, leave);
    void *plugin = count > 1 ? dlopen(words[1], RTLD_NOW) : NULL;
    void (*use)(void) = plugin ? (void (*)(void))dlsym(plugin, "use") : NULL;
    if (!use)
        return 99;
    if (sigsetjmp(back, 1) == 0)
        setitimer(ITIMER_REAL, &(struct itimerval){{0, 300}, {0, 300}}, NULL);
    while (rounds < 100)
        use();
    setitimer(ITIMER_REAL, &(struct itimerval){{0, 0}, {0, 0}}, NULL);
    use();
    sigaction(SIGALRM, NULL, &now);
    printf("%d\n", now.sa_handler == leave);
    return 0;
}
