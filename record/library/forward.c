/* Functions of which the C library has two versions and ThreadSanitizer's library one without a version. A program that was linked with
 * the latter asks for no version, and would get the oldest one, which behaves differently. So each is forwarded to the newest. */
#include "emit.h"

#include <dlfcn.h>
#include <glob.h>
#include <math.h>
#include <pthread.h>
#include <regex.h>
#include <signal.h>
#include <spawn.h>
#include <stdio.h>
#include <stdlib.h>

#define FORWARD(type, name, parameters, arguments) \
    HOOK type name parameters { return REAL(name) arguments; }

FIND_EARLY(pthread_kill)
HOOK int pthread_kill(pthread_t thread, int number) { return find_pthread_kill()(thread, number); }

FORWARD(char *, realpath, (const char *restrict path, char *restrict found), (path, found))
FORWARD(FILE *, fmemopen, (void *buffer, size_t size, const char *mode), (buffer, size, mode))
FORWARD(int, glob, (const char *restrict pattern, int how, int (*fault)(const char *, int), glob_t *restrict found), (pattern, how, fault, found))
FORWARD(int, glob64, (const char *restrict pattern, int how, int (*fault)(const char *, int), glob64_t *restrict found), (pattern, how, fault, found))
FORWARD(int, regexec, (const regex_t *restrict pattern, const char *restrict text, size_t room, regmatch_t found[restrict room], int how), (pattern, text, room, found, how))
FORWARD(int, posix_spawn, (pid_t *restrict child, const char *restrict path, const posix_spawn_file_actions_t *actions, const posix_spawnattr_t *restrict how, char *const *restrict words, char *const *restrict settings), (child, path, actions, how, words, settings))
FORWARD(int, posix_spawnp, (pid_t *restrict child, const char *restrict path, const posix_spawn_file_actions_t *actions, const posix_spawnattr_t *restrict how, char *const *restrict words, char *const *restrict settings), (child, path, actions, how, words, settings))
FORWARD(double, lgamma, (double value), (value))
FORWARD(float, lgammaf, (float value), (value))
FORWARD(long double, lgammal, (long double value), (value))

/* The C library has no `atexit` that other files can call: each links its own. A program that found ThreadSanitizer's has none. A function of a
 * file that is no longer there is left out. */
int __cxa_atexit(void (*body)(void *), void *argument, void *file);

static void run_at_exit(void *body)
{
    Dl_info found;
    if (dladdr(body, &found))
        ((void (*)(void))(uintptr_t)body)();
}

HOOK int atexit(void (*body)(void)) { return __cxa_atexit(run_at_exit, (void *)(uintptr_t)body, NULL); }
