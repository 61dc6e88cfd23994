#define _GNU_SOURCE
#include "fences.h"

#include <stdio.h>

#include "objects.h"
#include "trace.h"

/* A store behind a fence to release passes on what its thread had done before the fence, and not what it did between the two. A fence to
 * acquire takes over what the loads before it saw, and a load alone takes over nothing. No line of the thread itself says so. So a
 * thread of the trace stands for what it passes on: it awaits the fence, and signals the atomics. Another one stands for what it has
 * seen: it awaits the atomics, and signals when the thread comes to a fence. */

/* Nobody's thread. It joins those that stand for another one's fences when that one has ended, and passes nothing on. */
#define NOBODY (PASSES_ON | HAS_SEEN)

/* By what a thread and the one that stands for its fences meet: an address beyond all of the program's. */
static uint64_t object_of(uint32_t stand_in)
{
    return (UINT64_C(1) << 48) + 64 * (uint64_t)stand_in;
}

/* It starts where it is needed first, with what its thread knows there. */
static void begin(uint32_t by, uint32_t stand_in, const char *what)
{
    char text[96];
    trace_other_thread(by, VERB_START, stand_in, 0);
    const struct thread *thread = trace_thread(by), *new = trace_thread(stand_in);
    snprintf(text, sizeof text, "%.*s stands for %s %.*s", new->bytes - 1, new->text, what, thread->bytes - 1, thread->text);
    trace_comment(text);
}

static void release(uint32_t number)
{
    uint32_t stand_in = number | PASSES_ON;
    if (trace_has_thread(stand_in))
        objects_signal(number, object_of(stand_in), OBJECT_FENCE, 0);
    else
        begin(number, stand_in, "the releasing fences of");
}

static void acquire(uint32_t number)
{
    uint32_t stand_in = number | HAS_SEEN;
    if (!trace_has_thread(stand_in))
        return;
    objects_signal(stand_in, object_of(stand_in), OBJECT_FENCE, 0);
    objects_await(number, object_of(stand_in), 0);
}

/* One that does both passes on what it takes over. */
void fences_pass(uint32_t number, uint32_t does)
{
    if (does & FENCE_ACQUIRES)
        acquire(number);
    if (does & FENCE_RELEASES)
        release(number);
}

void fences_store(uint32_t number, uint64_t address)
{
    uint32_t stand_in = number | PASSES_ON;
    if (!trace_has_thread(stand_in))
        return;
    objects_await(stand_in, object_of(stand_in), 0);
    objects_signal(stand_in, address, OBJECT_ATOMIC, 0);
}

/* What the thread knows already, no fence has to take over. */
void fences_load(uint32_t number, uint64_t address)
{
    uint32_t stand_in = number | HAS_SEEN;
    if (!objects_have_news(number, address) || !objects_have_news(stand_in, address))
        return;
    if (!trace_has_thread(stand_in))
        begin(number, stand_in, "the acquiring fences of");
    objects_await(stand_in, address, 0);
}

/* What it had seen and not taken over is not passed on to who joins it. */
void fences_end(uint32_t by, uint32_t number)
{
    const uint32_t stand_ins[] = {number | PASSES_ON, number | HAS_SEEN};
    for (unsigned i = 0; i < 2; i++) {
        if (!trace_has_thread(stand_ins[i]))
            continue;
        if (!trace_has_thread(NOBODY))
            begin(by, NOBODY, "nobody, and was started by");
        trace_other_thread(NOBODY, VERB_JOIN, stand_ins[i], 0);
    }
}
