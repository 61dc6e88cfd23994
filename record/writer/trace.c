#define _GNU_SOURCE
#include "trace.h"

#include <stdio.h>
#include <stdlib.h>
#include <string.h>

#include "output.h"
#include "sites.h"
#include "thin.h"

const struct form *trace_form = &text_form;
uint64_t trace_events, trace_lost;

struct threads trace_threads[4];
static uint32_t thread_count;

void *get_memory(void *old, size_t bytes)
{
    void *got = realloc(old, bytes);
    if (!got) {
        fprintf(stderr, "record: out of memory\n");
        exit(125);
    }
    return got;
}

void *get_zeroed(void *old, size_t kept, size_t bytes)
{
    char *got = get_memory(old, bytes);
    memset(got + kept, 0, bytes - kept);
    return got;
}

static bool is_name_byte(char c)
{
    return (c >= 'a' && c <= 'z') || (c >= 'A' && c <= 'Z') || (c >= '0' && c <= '9') || (c && strchr("_.:/-", c));
}

static bool is_site_byte(char c)
{
    return c >= '!' && c <= '~';
}

static size_t put_legal(char *to, const char *text, bool (*is_legal)(char))
{
    size_t length = strlen(text);
    if (length > NAME_BYTES) {
        text += length - NAME_BYTES;
        length = NAME_BYTES;
    }
    for (size_t i = 0; i < length; i++)
        to[i] = is_legal(text[i]) ? text[i] : '_';
    to[length] = 0;
    return length;
}

size_t legal_name(char *to, const char *text)
{
    return put_legal(to, text, is_name_byte);
}

size_t legal_site(char *to, const char *text)
{
    return put_legal(to, text, is_site_byte);
}

char *put_number(char *at, uint64_t number)
{
    char text[20];
    unsigned bytes = 0;
    do
        text[sizeof text - ++bytes] = (char)('0' + number % 10);
    while (number /= 10);
    memcpy(at, text + sizeof text - bytes, bytes);
    return at + bytes;
}

/* ---- Threads ---- */

static struct threads *table_of(uint32_t number)
{
    return &trace_threads[number / PASSES_ON];
}

bool trace_has_thread(uint32_t number)
{
    const struct threads *table = table_of(number);
    return number % PASSES_ON < table->room && table->all[number % PASSES_ON].bytes;
}

static struct thread *place_of(uint32_t number)
{
    struct threads *table = table_of(number);
    uint32_t at = number % PASSES_ON;
    if (at >= table->room) {
        uint32_t room = at < 1024 ? 2048 : 2 * at;
        table->all = get_zeroed(table->all, table->room * sizeof *table->all, room * sizeof *table->all);
        table->room = room;
    }
    return &table->all[at];
}

/* It has an event that is no access, or is named in one. */
static void end_stretch(struct thread *thread)
{
    static uint64_t stretches;
    thread->stretch = ++stretches;
}

/* Threads are named by their first event. */
struct thread *trace_new_thread(uint32_t number)
{
    struct thread *thread = place_of(number);
    end_stretch(thread);
    thread->text[0] = 't';
    char *end = put_number(thread->text + 1, ++thread_count);
    *end++ = ' ';
    thread->bytes = (uint8_t)(end - thread->text);
    return thread;
}

void trace_each_thread(void (*visit)(const struct thread *thread))
{
    for (const struct thread *thread = trace_threads[0].all; thread < trace_threads[0].all + trace_threads[0].room; thread++)
        if (thread->bytes)
            visit(thread);
}

/* ---- Events ---- */

/* What lies behind the end of memory is lost. */
void trace_access_beyond(struct thread *thread, bool is_write, uint64_t address, uint64_t bytes, uint64_t place)
{
    uint64_t most = address < ADDRESS_END ? ADDRESS_END - address : 0;
    if (bytes > most)
        trace_lost += (bytes - most + 3) / 4;
    if (bytes && most)
        trace_form->access(thread, is_write, address, most, place);
}

static uint64_t place_if_instrumented(uint64_t place)
{
    return place && sites_has_instrumented(place) ? place : 0;
}

void trace_reuse(struct thread *thread, uint64_t address, uint64_t bytes, uint64_t place)
{
    place = place_if_instrumented(place);
    end_stretch(thread);
    thin_forget(address, bytes);
    while (bytes) {
        uint64_t part = bytes < REUSE_BYTES ? bytes : REUSE_BYTES;
        if (address + part <= ADDRESS_END)
            trace_form->reuse(thread, address, part, place);
        else
            trace_lost++;
        address += part;
        bytes -= part;
    }
}

void trace_got(uint64_t address, uint64_t bytes, uint64_t place)
{
    if (trace_form->got)
        trace_form->got(address, bytes, place_if_instrumented(place));
}

void trace_lock(struct thread *thread, enum verb verb, struct label *lock, uint64_t place)
{
    end_stretch(thread);
    trace_form->of_lock(thread, verb, lock, place);
}

/* A new thread may move the others. A join orders what the other one has done so far, and not what it does after that. */
void trace_other_thread(uint32_t number, enum verb verb, uint32_t other, uint64_t place)
{
    trace_thread(number);
    trace_thread(other);
    end_stretch(trace_thread(number));
    end_stretch(trace_thread(other));
    trace_form->of_thread(trace_thread(number), verb, trace_thread(other), place);
}

void trace_ignore(struct thread *thread, enum verb verb)
{
    end_stretch(thread);
    trace_form->alone(thread, verb);
}

void trace_atomic(uint32_t number, bool stores, uint64_t address, uint64_t place)
{
    end_stretch(trace_thread(number));
    if (trace_form->of_atomic)
        trace_form->of_atomic(trace_thread(number), stores, address, place);
}

uint32_t trace_creator(uint64_t place)
{
    return place && trace_form->creator ? trace_form->creator(place) : 0;
}

/* ---- Comments ---- */

void trace_comment(const char *text)
{
    trace_form->comment(text, strnlen(text, COMMENT_BYTES));
}

void trace_thread_name(struct thread *thread, const char *name)
{
    char legal[NAME_BYTES + 1], text[NAME_BYTES + 32];
    legal_name(legal, name);
    snprintf(thread->name, sizeof thread->name, "%.15s", legal);
    snprintf(text, sizeof text, "%.*s is named %s", thread->bytes - 1, thread->text, legal);
    trace_comment(text);
}

void trace_begin(const char *program)
{
    char legal[NAME_BYTES + 1], text[NAME_BYTES + 32];
    trace_form->begin();
    legal_name(legal, program);
    snprintf(text, sizeof text, "recorded from %s", legal);
    trace_comment(text);
}

void trace_end(uint64_t lost)
{
    trace_form->end(lost);
    output_flush();
}
