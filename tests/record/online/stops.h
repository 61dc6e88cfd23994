/* What the programs of --stop-at-race share: they count the signals that it sends. */
#ifndef STOPS_H
#define STOPS_H

#include "../meet.h"

#include <signal.h>

static volatile sig_atomic_t stopped;

static void count(int number)
{
    (void)number;
    stopped++;
}

#endif
