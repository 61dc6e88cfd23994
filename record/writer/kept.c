#define _GNU_SOURCE
#include "kept.h"

#include <errno.h>
#include <fcntl.h>
#include <stdio.h>
#include <sys/stat.h>
#include <sys/statvfs.h>
#include <unistd.h>

#include "options.h"
#include "output.h"
#include "replay.h"

/* The most that a file without a name gets, if there is room for twice as much. */
#define USUAL_ROOM (UINT64_C(4) << 30)

static const char *path_of_trace;
static int unnamed = -1; /* the file without a name, which `output.file` is a copy of */

/* Half of what is free, so that nothing else is left without room. */
static uint64_t room_of(int file)
{
    struct statvfs system;
    if (fstatvfs(file, &system) != 0)
        return USUAL_ROOM;
    uint64_t half = (uint64_t)system.f_bavail * system.f_frsize / 2;
    return half < USUAL_ROOM ? half : USUAL_ROOM;
}

int kept_open(const char *path)
{
    path_of_trace = path;
    if (path) {
        output.file = open(path, O_WRONLY | O_CREAT | O_TRUNC | O_CLOEXEC, 0666);
        return output.file < 0 ? errno : 0;
    }
    unnamed = open_temporary();
    output.file = unnamed < 0 ? -1 : fcntl(unnamed, F_DUPFD_CLOEXEC, 0);
    if (output.file < 0)
        return errno;
    if (!options.has_limit)
        output.limit = room_of(unnamed);
    return 0;
}

bool kept_is_readable(void)
{
    struct stat found;
    return output.file >= 0 && fstat(output.file, &found) == 0 && S_ISREG(found.st_mode);
}

/* The replay reads the file more than once, so it opens it by a name. */
void kept_replay(void)
{
    replay_start(unnamed, path_of_trace ? path_of_trace : "/dev/stdin");
}

const char *kept_name(void)
{
    static char name[4096];
    if (path_of_trace)
        return path_of_trace;
    snprintf(name, sizeof name, "a temporary file in %s", temporary_folder());
    return name;
}
