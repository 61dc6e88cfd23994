/* What the programs of this folder share that say `fine` at the end. */
#ifndef CHECKS_H
#define CHECKS_H

#include "eraser_detector.h"

#include <pthread.h>
#include <stdio.h>
#include <stdlib.h>
#include <string.h>
#include <unistd.h>

#define CHECK(what)                                                                        \
    do {                                                                                   \
        if (!(what)) {                                                                     \
            printf("wrong: %s:%d: %s\n", __FILE__, __LINE__, #what);                       \
            exit(1);                                                                       \
        }                                                                                  \
    } while (0)

/* Whether the program runs with ERASER_AUDIT, so that its detectors keep each call. */
static inline bool is_audited(void)
{
    const char *audit = getenv("ERASER_AUDIT");
    return audit && *audit;
}

static inline void run_thread(void *(*run)(void *), void *given)
{
    pthread_t thread;
    CHECK(pthread_create(&thread, NULL, run, given) == 0);
    CHECK(pthread_join(thread, NULL) == 0);
}

#endif
