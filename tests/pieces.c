/* Preloaded into a program, gives each read and takes from each write at most PIECE bytes, where that is set, and fails read number
   FAIL_READ or write number FAIL_WRITE (each from 1), for which it makes the file FAIL_FOUND. It fails with the error FAIL_AS, or EIO; with 0
   it gives or takes no byte. */
#define _GNU_SOURCE
#include <dlfcn.h>
#include <errno.h>
#include <fcntl.h>
#include <stdatomic.h>
#include <stdlib.h>
#include <unistd.h>

static atomic_long reads, writes;

static size_t piece(size_t size) {
    const char *most = getenv("PIECE");
    return most && (size_t)atol(most) < size ? (size_t)atol(most) : size;
}

static int fails(atomic_long *made, const char *name) {
    const char *nth = getenv(name), *found = getenv("FAIL_FOUND"), *as = getenv("FAIL_AS");
    if (!nth || !found || atomic_fetch_add(made, 1) + 1 != atol(nth))
        return 0;
    close(open(found, O_CREAT | O_WRONLY, 0600));
    errno = as ? atoi(as) : EIO;
    return 1;
}

static ssize_t failed(void) { return errno ? -1 : 0; }

ssize_t read(int file, void *bytes, size_t size) {
    static ssize_t (*real)(int, void *, size_t);
    if (!real)
        real = dlsym(RTLD_NEXT, "read");
    return fails(&reads, "FAIL_READ") ? failed() : real(file, bytes, piece(size));
}

ssize_t write(int file, const void *bytes, size_t size) {
    static ssize_t (*real)(int, const void *, size_t);
    if (!real)
        real = dlsym(RTLD_NEXT, "write");
    return fails(&writes, "FAIL_WRITE") ? failed() : real(file, bytes, piece(size));
}
