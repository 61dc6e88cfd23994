/* Counts the functions that are looked up by name while a handler begins, or while a thread can be cancelled at any instruction: none, since that takes a
 * lock of the loader, which the interrupted thread may hold. The recorder looks them up by `dlsym`, which is this one. */
#define _GNU_SOURCE
#include "../meet.h"

#include <dlfcn.h>
#include <signal.h>

#define UNSEEN __attribute__((no_sanitize("thread")))

static unsigned lookups;
static int word;
static volatile sig_atomic_t handled;

/* Behind the recorder's library there is the C library. */
__attribute__((visibility("default"))) UNSEEN void *dlsym(void *restrict where, const char *restrict name)
{
    static void *library;
    static void *(*find)(void *, const char *);
    __atomic_fetch_add(&lookups, 1, __ATOMIC_RELAXED);
    if (!library)
        library = dlopen("libc.so.6", RTLD_LAZY);
    if (!find)
        find = (void *(*)(void *, const char *))dlvsym(library, "dlsym", "GLIBC_2.2.5");
    return find(where == RTLD_NEXT ? library : where, name);
}

UNSEEN static unsigned count(void) { return __atomic_load_n(&lookups, __ATOMIC_RELAXED); }

static void handle(int number)
{
    (void)number;
    handled++;
}

static void *use(void *nothing)
{
    int before;
    pthread_setcanceltype(PTHREAD_CANCEL_ASYNCHRONOUS, &before);
    unsigned begin = count();
    word++;
    unsigned end = count();
    pthread_setcanceltype(before, &before);
    printf("%u at an access\n", end - begin);
    return nothing;
}

int main(void)
{
    pthread_t thread;
    struct sigaction action = {.sa_handler = handle, .sa_flags = (int)SA_RESETHAND};
    sigaction(SIGUSR1, &action, NULL);
    unsigned begin = count();
    raise(SIGUSR1);
    unsigned end = count();
    printf("%u at %d signal\n", end - begin, handled);
    if (pthread_create(&thread, NULL, use, NULL) != 0)
        exit(99);
    pthread_join(thread, NULL);
    printf("%s\n", begin ? "looked up before" : "never looked up");
    return 0;
}
