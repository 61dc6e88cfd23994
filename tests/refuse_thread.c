/* Preloaded into a program, refuses to start its thread number REFUSE_THREAD (from 1), and notes in the file THREADS_NOTED what became
   of each: `s` one started, `r` one refused, `j` one joined, `d` one detached. */
#define _GNU_SOURCE
#include <dlfcn.h>
#include <errno.h>
#include <fcntl.h>
#include <pthread.h>
#include <stdatomic.h>
#include <stdlib.h>
#include <unistd.h>

static atomic_long asked;

static void note(char what) {
    const char *path = getenv("THREADS_NOTED");
    int file = path ? open(path, O_CREAT | O_WRONLY | O_APPEND, 0600) : -1;
    if (file < 0 || write(file, &what, 1) != 1)
        abort();
    close(file);
}

int pthread_create(pthread_t *thread, const pthread_attr_t *attributes, void *(*start)(void *), void *given) {
    int (*real)(pthread_t *, const pthread_attr_t *, void *(*)(void *), void *) = dlsym(RTLD_NEXT, "pthread_create");
    const char *nth = getenv("REFUSE_THREAD");
    if (nth && atomic_fetch_add(&asked, 1) + 1 == atol(nth)) {
        note('r');
        return EAGAIN;
    }
    int failed = real(thread, attributes, start, given);
    if (!failed)
        note('s');
    return failed;
}

int pthread_join(pthread_t thread, void **result) {
    int (*real)(pthread_t, void **) = dlsym(RTLD_NEXT, "pthread_join");
    int failed = real(thread, result);
    if (!failed)
        note('j');
    return failed;
}

int pthread_detach(pthread_t thread) {
    int (*real)(pthread_t) = dlsym(RTLD_NEXT, "pthread_detach");
    int failed = real(thread);
    if (!failed)
        note('d');
    return failed;
}
