/* The trace as text 3: a line for each event, and for each word of an access. */
#include "form.h"

#include <stdio.h>
#include <string.h>

#include "output.h"
#include "sites.h"
#include "trace.h"

/* One line has at most 16 bytes of a thread, a verb, an address and a name. */
#define LINE_BYTES 256

static const char *const verbs[VERBS] = {"lock", "unlock", "rlock", "runlock", "signal", "await", "start", "join", "ignore-on", "ignore-off", "lock", "rlock"};

/* ---- Parts of a line. Each returns where the next part begins. ---- */

static inline char *put(char *at, const char *text, size_t bytes)
{
    memcpy(at, text, bytes);
    return at + bytes;
}

static inline char *put_thread(char *at, struct thread *thread)
{
    thread->events++;
    memcpy(at, thread->text, sizeof thread->text);
    return at + thread->bytes;
}

static const char digits[] =
    "000102030405060708090a0b0c0d0e0f101112131415161718191a1b1c1d1e1f202122232425262728292a2b2c2d2e2f303132333435363738393a3b3c3d3e3f"
    "404142434445464748494a4b4c4d4e4f505152535455565758595a5b5c5d5e5f606162636465666768696a6b6c6d6e6f707172737475767778797a7b7c7d7e7f"
    "808182838485868788898a8b8c8d8e8f909192939495969798999a9b9c9d9e9fa0a1a2a3a4a5a6a7a8a9aaabacadaeafb0b1b2b3b4b5b6b7b8b9babbbcbdbebf"
    "c0c1c2c3c4c5c6c7c8c9cacbcccdcecfd0d1d2d3d4d5d6d7d8d9dadbdcdddedfe0e1e2e3e4e5e6e7e8e9eaebecedeeeff0f1f2f3f4f5f6f7f8f9fafbfcfdfeff";

/* An address below 2^48, by pairs of digits, without leading pairs of zeros. */
static inline char *put_address(char *at, uint64_t address)
{
    unsigned pairs = address ? (unsigned)(64 - __builtin_clzll(address) + 7) / 8 : 1;
    at[0] = '0';
    at[1] = 'x';
    at += 2;
    for (unsigned i = pairs; i-- > 0; at += 2)
        memcpy(at, &digits[(address >> (8 * i) & 255) * 2], 2);
    return at;
}

static inline void end_line(char *at)
{
    *at++ = '\n';
    output_use(at);
    trace_events++;
}

/* Room for one line, or NULL if the text has ended. Then the event is lost. */
static inline char *line(void)
{
    char *at = output_room(LINE_BYTES);
    if (!at)
        trace_lost++;
    return at;
}

/* ---- Events ---- */

static void write_access(struct thread *thread, bool is_write, uint64_t address, uint64_t bytes, uint64_t place)
{
    const struct site *site = site_of(place);
    for (uint64_t word = address & ~UINT64_C(3), end = address + bytes; word < end; word += 4) {
        char *at = line();
        if (!at)
            continue;
        at = put_thread(at, thread);
        at = is_write ? put(at, "write ", 6) : put(at, "read ", 5);
        at = put_address(at, word);
        end_line(put(at, site->text, site->bytes));
    }
}

static void write_reuse(struct thread *thread, uint64_t address, uint64_t bytes, uint64_t place)
{
    const struct site *site = place ? site_of(place) : NULL;
    char *at = line();
    if (!at)
        return;
    at = put(put_thread(at, thread), "reuse ", 6);
    at = put_address(at, address);
    *at++ = ' ';
    at = put_number(at, bytes);
    end_line(site ? put(at, site->text, site->bytes) : at);
}

/* A try that failed has no line. */
static void write_verb(struct thread *thread, enum verb verb, const char *name, size_t bytes)
{
    char *at = verbs[verb] ? line() : NULL;
    if (!at)
        return;
    at = put(put_thread(at, thread), verbs[verb], strlen(verbs[verb]));
    if (bytes)
        *at++ = ' ';
    end_line(put(at, name, bytes));
}

static void write_of_lock(struct thread *thread, enum verb verb, struct label *lock, uint64_t place)
{
    (void)place;
    write_verb(thread, verb, lock->name, strlen(lock->name));
}

static void write_of_thread(struct thread *thread, enum verb verb, struct thread *other, uint64_t place)
{
    (void)place;
    write_verb(thread, verb, other->text, other->bytes - 1u);
}

static void write_alone(struct thread *thread, enum verb verb)
{
    write_verb(thread, verb, "", 0);
}

/* ---- The other lines ---- */

static void write_comment(const char *text, size_t bytes)
{
    char *at = output_is_beyond_limit(LINE_BYTES) ? NULL : output_room(LINE_BYTES);
    if (!at)
        return;
    at = put(put(at, "# ", 2), text, bytes);
    *at++ = '\n';
    output_use(at);
}

static void begin(void)
{
    char *at = output_room(LINE_BYTES);
    if (at)
        output_use(put(at, "eraser trace 3\n", 15));
}

/* The last comment says if anything is missing, and `end` that nothing is. They have room even if the limit is reached. */
static void end(uint64_t lost)
{
    char text[LINE_BYTES];
    if (lost)
        snprintf(text, sizeof text, "# incomplete: %llu events, %llu lost\n", (unsigned long long)trace_events, (unsigned long long)lost);
    else
        snprintf(text, sizeof text, "# complete: %llu events, none lost\nend\n", (unsigned long long)trace_events);
    output_use(put(output_last_room(), text, strlen(text)));
}

static void end_part(void)
{
}

const struct form text_form = {
    .begin = begin, .access = write_access, .reuse = write_reuse, .of_lock = write_of_lock, .of_thread = write_of_thread, .alone = write_alone,
    .comment = write_comment, .end = end, .end_part = end_part,
};
