/* Preloaded into a program, gives it no random bytes, and makes the file RANDOM_NOTED once it has asked for some. */
#include <errno.h>
#include <fcntl.h>
#include <stddef.h>
#include <stdlib.h>
#include <unistd.h>

int getentropy(void *buffer, size_t length) {
    const char *path = getenv("RANDOM_NOTED");
    int file = path ? open(path, O_CREAT | O_WRONLY, 0600) : -1;
    (void)buffer;
    (void)length;
    if (file < 0)
        abort();
    close(file);
    errno = ENOSYS;
    return -1;
}
