/* Where a trace goes, and the buffer in front of it. */
#ifndef ERASER_OUTPUT_H
#define ERASER_OUTPUT_H

#include <stdbool.h>
#include <stddef.h>
#include <stdint.h>

/* A place that fails is given up, and the other one goes on. */
struct output {
    int file;            /* -1: none */
    int pipe;            /* -1: none */
    int file_error;      /* errno of the failed write, or 0 */
    int pipe_error;
    uint64_t limit;      /* bytes of the trace that are kept in a file, 0: no limit */
    bool is_full;
    uint64_t written;    /* bytes that have left the buffer */
};
extern struct output output;

#define OUTPUT_BYTES (1 << 20)
/* The most bytes that are written for one event. */
#define OUTPUT_ROOM 512
extern char output_buffer[OUTPUT_BYTES];
extern size_t output_used; /* bytes of the buffer */

/* Room for the next event, or NULL if the trace has ended. The event is then behind what is used. */
char *output_room(size_t bytes);
/* Up to how many bytes, at most `most`, the buffer may be used so that the next event has room without a look at the limit. */
size_t output_most(size_t most);
/* Room behind the last event, which is always there. */
char *output_last_room(void);
/* The buffer is used up to here. */
static inline void output_use(const char *end)
{
    output_used = (size_t)(end - output_buffer);
}

/* Whether it is at its limit, but for what is kept free. */
bool output_is_beyond_limit(size_t bytes);
/* True if something can still be written somewhere. */
bool output_is_open(void);
/* Writes the buffer, of which nothing stays. */
void output_flush(void);
/* A file of which the system kept a part back may fail only now. */
void output_close(void);

/* Writes all bytes. Returns 0, or errno of the write that failed. */
int write_all(int file, const char *text, size_t bytes);

#endif
