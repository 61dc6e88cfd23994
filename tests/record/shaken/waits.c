/* For LD_PRELOAD behind the recorder: notes how long each wait is that a program asks the kernel for, one line for each in the file that WAITS_NOTED
 * names. */
#include <fcntl.h>
#include <stdio.h>
#include <stdlib.h>
#include <sys/syscall.h>
#include <time.h>
#include <unistd.h>

static long call(long number, const long words[6])
{
    long result;
    register long fourth __asm__("r10") = words[3];
    register long fifth __asm__("r8") = words[4];
    register long sixth __asm__("r9") = words[5];
    __asm__ volatile("syscall" : "=a"(result) : "a"(number), "D"(words[0]), "S"(words[1]), "d"(words[2]), "r"(fourth), "r"(fifth), "r"(sixth) : "rcx", "r11", "memory");
    return result;
}

long syscall(long number, ...)
{
    long words[6];
    __builtin_va_list rest;
    __builtin_va_start(rest, number);
    for (int i = 0; i < 6; i++)
        words[i] = __builtin_va_arg(rest, long);
    __builtin_va_end(rest);
    const char *path = number == SYS_nanosleep ? getenv("WAITS_NOTED") : NULL;
    int file = path ? open(path, O_WRONLY | O_CREAT | O_APPEND, 0666) : -1;
    if (file >= 0) {
        char line[32];
        int length = snprintf(line, sizeof line, "%ld\n", ((const struct timespec *)words[0])->tv_nsec);
        if (write(file, line, (size_t)length) != length)
            abort();
        close(file);
        return 0;
    }
    return call(number, words);
}
