/* A trace: its events, in the form that is asked for, and its threads. */
#ifndef ERASER_TRACE_H
#define ERASER_TRACE_H

#include <stdbool.h>
#include <stddef.h>
#include <stdint.h>

#include "form.h"

/* The most bytes of a legal name. */
#define NAME_BYTES 128
/* The most bytes of a reuse. */
#define REUSE_BYTES (UINT64_C(1) << 22)

extern const struct form *trace_form;
extern uint64_t trace_events; /* events written */
extern uint64_t trace_lost;   /* events that were taken but could not be written */

void trace_begin(const char *program);
void trace_end(uint64_t lost);

/* Beside the program's threads a trace may have some that stand for the fences of a thread. Each has its number and one of these bits. */
#define PASSES_ON (UINT32_C(1) << 30)
#define HAS_SEEN (UINT32_C(1) << 31)

/* The program's threads, and those that stand for their fences, by the bits that tell them apart. */
struct threads {
    struct thread *all;
    uint32_t room;
};
extern struct threads trace_threads[4];
struct thread *trace_new_thread(uint32_t number);

static inline struct thread *trace_thread(uint32_t number)
{
    const struct threads *table = &trace_threads[number / PASSES_ON];
    uint32_t at = number % PASSES_ON;
    return __builtin_expect(at < table->room && table->all[at].bytes, 1) ? &table->all[at] : trace_new_thread(number);
}
/* True if it has an event, or one that names it. */
bool trace_has_thread(uint32_t number);
/* The place of an event is the program counter behind the call that makes it, or 0. */
void trace_access_beyond(struct thread *thread, bool is_write, uint64_t address, uint64_t bytes, uint64_t place);

static inline void trace_access(struct thread *thread, bool is_write, uint64_t address, uint64_t bytes, uint64_t place)
{
    if (__builtin_expect(address < ADDRESS_END && bytes - 1 < ADDRESS_END - address, 1))
        trace_form->access(thread, is_write, address, bytes, place);
    else
        trace_access_beyond(thread, is_write, address, bytes, place);
}

/* The trace has the place only if it is in instrumented code, and else that of the call around it, if it is known. */
void trace_reuse(struct thread *thread, uint64_t address, uint64_t bytes, uint64_t place);
/* The program got a block of memory, by a call at this place or at that of the call around it, as above. If there is neither,
 * it may be a new thread's stack. */
void trace_got(uint64_t address, uint64_t bytes, uint64_t place);
void trace_lock(struct thread *thread, enum verb verb, struct label *lock, uint64_t place);
void trace_other_thread(uint32_t number, enum verb verb, uint32_t other, uint64_t place);
void trace_ignore(struct thread *thread, enum verb verb);
/* An atomic operation that orders nothing. A text has none of them. */
void trace_atomic(uint32_t number, bool stores, uint64_t address, uint64_t place);
/* The node of a call at this place that creates a thread or a lock, 0 if it is not known or in a text. */
uint32_t trace_creator(uint64_t place);
/* Each thread of the program that has an event, or one that names it. */
void trace_each_thread(void (*visit)(const struct thread *thread));
void trace_thread_name(struct thread *thread, const char *name);
void trace_comment(const char *text);

/* The digits of a number. Returns where they end. */
char *put_number(char *at, uint64_t number);
/* More bytes in place of old ones, or of none. The writer ends if there is no memory. */
void *get_memory(void *old, size_t bytes);
/* The same, with zeros behind the first ones, which are kept. */
void *get_zeroed(void *old, size_t kept, size_t bytes);
/* Copies text into a legal name, whose end is kept if it is too long. Returns its length. */
size_t legal_name(char *to, const char *text);
/* The same for a site, which may have any printable byte. */
size_t legal_site(char *to, const char *text);

#endif
