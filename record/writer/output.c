#define _GNU_SOURCE
#include "output.h"

#include <errno.h>
#include <poll.h>
#include <stdio.h>
#include <unistd.h>

#include "trace.h"

/* Of the limit, what stays free for the end. */
#define END_BYTES 256

struct output output = {.file = -1, .pipe = -1};
char output_buffer[OUTPUT_BYTES];
size_t output_used;

int write_all(int file, const char *text, size_t bytes)
{
    struct pollfd room = {.fd = file, .events = POLLOUT};
    for (size_t at = 0; at < bytes;) {
        ssize_t sent = write(file, text + at, bytes - at);
        if (sent >= 0)
            at += (size_t)sent;
        else if (errno == EAGAIN)
            poll(&room, 1, -1); /* the program may have made a stream non-blocking that it shares with us */
        else if (errno != EINTR)
            return errno;
    }
    return 0;
}

static void send(int *file, int *error)
{
    if (*file < 0 || (*error = write_all(*file, output_buffer, output_used)) == 0)
        return;
    close(*file);
    *file = -1;
}

void output_flush(void)
{
    trace_form->end_part();
    send(&output.file, &output.file_error);
    send(&output.pipe, &output.pipe_error);
    output.written += output_used;
    output_used = 0;
}

bool output_is_open(void)
{
    return !output.is_full && (output.file >= 0 || output.pipe >= 0);
}

bool output_is_beyond_limit(size_t bytes)
{
    return output.limit && output.written + output_used + bytes + END_BYTES > output.limit;
}

char *output_room(size_t bytes)
{
    if (output_used + OUTPUT_ROOM > OUTPUT_BYTES)
        output_flush();
    if (output_is_beyond_limit(bytes) && !output.is_full) {
        output.is_full = true;
        fprintf(stderr, "record: the trace has reached its limit of %llu bytes (--limit): from here on events are lost\n", (unsigned long long)output.limit);
    }
    return output_is_open() ? output_buffer + output_used : NULL;
}

size_t output_most(size_t most)
{
    uint64_t left = OUTPUT_BYTES - OUTPUT_ROOM;
    if (output.limit && output.limit < output.written + left + OUTPUT_ROOM + END_BYTES)
        left = output.limit > output.written + OUTPUT_ROOM + END_BYTES ? output.limit - output.written - OUTPUT_ROOM - END_BYTES : 0;
    return most < left ? most : left;
}

char *output_last_room(void)
{
    if (output_used + OUTPUT_ROOM > OUTPUT_BYTES)
        output_flush();
    return output_buffer + output_used;
}

void output_close(void)
{
    if (output.file >= 0 && close(output.file) != 0)
        output.file_error = errno;
    output.file = -1;
}
