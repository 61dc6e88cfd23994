/* All ways to set a handler. Each handler leaves by longjmp what it has interrupted, most often an access, and afterwards all words can still be used. */
#define _GNU_SOURCE
#include "../meet.h"

#include <errno.h>
#include <setjmp.h>
#include <signal.h>
#include <string.h>
#include <sys/syscall.h>
#include <sys/time.h>
#include <unistd.h>

#pragma GCC diagnostic ignored "-Wdeprecated-declarations"

#define ROUNDS 100

sighandler_t bsd_signal(int number, sighandler_t handler);
int __sigaction(int number, const struct sigaction *new, struct sigaction *old);

static int words[4096];
static volatile sig_atomic_t rounds;
static sigjmp_buf back;
static sighandler_t (*door)(int, sighandler_t);

static void use_all(void)
{
    for (int at = 0; at < 4096; at++)
        words[at] = 0;
}

/* One signal, some time from now. */
static void ask_for_signal(void)
{
    setitimer(ITIMER_REAL, &(struct itimerval){.it_value = {0, 300}}, NULL);
}

/* A handler of System V is set back by each signal. */
static void leave(int number)
{
    if (++rounds < ROUNDS) {
        door(SIGALRM, leave);
        ask_for_signal();
    }
    siglongjmp(back, number);
}

static void check(const char *what, int is_right)
{
    if (!is_right)
        printf("wrong: %s\n", what);
}

static sighandler_t by_action(int number, sighandler_t handler)
{
    struct sigaction new = {.sa_handler = handler}, old;
    return sigaction(number, &new, &old) == 0 ? old.sa_handler : SIG_ERR;
}

static sighandler_t by_other_action(int number, sighandler_t handler)
{
    struct sigaction new = {.sa_handler = handler}, old;
    return __sigaction(number, &new, &old) == 0 ? old.sa_handler : SIG_ERR;
}

/* What the system has, whatever the C library says. */
static unsigned long flags_of(int number)
{
    struct { void *handler; unsigned long flags; void *restorer; unsigned long mask; } now;
    memset(&now, 0, sizeof now);
    check("the system's action", syscall(SYS_rt_sigaction, number, NULL, &now, 8) == 0);
    return now.flags;
}

static void go_through(const char *name, sighandler_t (*by)(int, sighandler_t))
{
    door = by;
    rounds = 0;
    check(name, door(SIGALRM, leave) == SIG_DFL && door(SIGALRM, leave) == leave);
    if (sigsetjmp(back, 1) == 0)
        ask_for_signal();
    while (rounds < ROUNDS)
        use_all();
    use_all();
    door(SIGALRM, leave);
    check(name, door(SIGALRM, SIG_DFL) == leave && door(SIGALRM, SIG_DFL) == SIG_DFL);
}

static void check_flags(void)
{
    signal(SIGUSR1, leave);
    check("signal restarts", flags_of(SIGUSR1) & SA_RESTART);
    check("siginterrupt", siginterrupt(SIGUSR1, 1) == 0 && !(flags_of(SIGUSR1) & SA_RESTART));
    check("siginterrupt goes on", signal(SIGUSR1, leave) == leave && !(flags_of(SIGUSR1) & SA_RESTART));
    check("siginterrupt ends", siginterrupt(SIGUSR1, 0) == 0 && flags_of(SIGUSR1) & SA_RESTART);
    check("signal restarts again", signal(SIGUSR1, leave) == leave && flags_of(SIGUSR1) & SA_RESTART);
    check("no handler", signal(SIGUSR1, SIG_ERR) == SIG_ERR && errno == EINVAL && signal(SIGUSR1, leave) == leave);
    check("no signal", signal(99, leave) == SIG_ERR && errno == EINVAL && siginterrupt(99, 1) == -1 && errno == EINVAL);
    check("a signal is held", sigset(SIGUSR1, SIG_HOLD) == leave && sigset(SIGUSR1, SIG_HOLD) == SIG_HOLD);
    check("a signal is let go", sigset(SIGUSR1, leave) == SIG_HOLD && sigset(SIGUSR1, leave) == leave);
}

int main(void)
{
    go_through("signal", signal);
    go_through("bsd_signal", bsd_signal);
    go_through("ssignal", ssignal);
    go_through("sysv_signal", sysv_signal);
    go_through("__sysv_signal", __sysv_signal);
    go_through("sigset", sigset);
    go_through("sigaction", by_action);
    go_through("__sigaction", by_other_action);
    check_flags();
    printf("fine\n");
    return 0;
}
