#define _GNU_SOURCE
#include "signals.h"

#include <signal.h>
#include <stdbool.h>
#include <stddef.h>

#define COUNT 4
static const int numbers[COUNT] = {SIGINT, SIGQUIT, SIGTERM, SIGHUP};
static bool is_ignored[COUNT];

void signals_set(void (*interrupt)(int), void (*pass_on)(int))
{
    for (int i = 0; i < COUNT; i++) {
        struct sigaction action = {.sa_handler = i < 2 ? interrupt : pass_on}, old;
        is_ignored[i] = sigaction(numbers[i], NULL, &old) == 0 && old.sa_handler == SIG_IGN;
        if (!is_ignored[i])
            sigaction(numbers[i], &action, NULL);
    }
    signal(SIGPIPE, SIG_IGN);
}

void signals_reset(void)
{
    for (int i = 0; i < COUNT; i++)
        if (!is_ignored[i])
            signal(numbers[i], SIG_DFL);
}
