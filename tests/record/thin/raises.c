/* The floor of all notes, which repeats.c of the library raises and this is linked with. By the trap flag of the processor, a handler comes after each
 * instruction of a raise. It leaves the raise by a jump, or does there what other threads may do: one has an event, which is drawn at one instruction and noted
 * at a later one, and another one raises the floor, too. Ends with a status other than 0 if a later access is not repeated that should be, or one is
 * that should not. Prints how many instructions there are, and how many of these events were noted. */
#define _GNU_SOURCE
#include "../../../record/library/repeats.h"

#include <setjmp.h>
#include <signal.h>
#include <stdio.h>
#include <stdlib.h>
#include <sys/mman.h>
#include <ucontext.h>

#define UNIT UINT64_C(0x7f0000001000)
#define NEVER 1000000

/* After how many instructions something is done. */
static int leave_at, draw_at, note_at, raise_at, steps, noted;
static const struct doer doer = {1, 0};
static uint64_t drawn;
static struct notes *notes;
static struct ring *ring;
static sigjmp_buf back;

static uint64_t draw(void)
{
    return atomic_fetch_add(&ring->tail, 1);
}

static void note(uint64_t ticket, uint64_t byte)
{
    notes_add(notes, ring, doer, ticket, true, UNIT + byte, 1);
}

static void fail(const char *what)
{
    printf("%s: leave %d, draw %d, note %d, raise %d\n", what, leave_at, draw_at, note_at, raise_at);
    exit(1);
}

/* The thread has written the first byte before the floor was raised. */
static void check_first(void)
{
    if (notes_have(notes, doer, true, UNIT, 1))
        fail("it is known what was before");
}

static void handle(int number, siginfo_t *how, void *context)
{
    (void)number, (void)how, (void)context;
    steps++;
    if (steps == raise_at)
        notes_forget_all(notes, ring);
    /* The floor itself doesn't count, so one event comes before. */
    if (steps == draw_at && draw())
        drawn = draw();
    if (steps == note_at) {
        note(drawn, 1);
        noted++;
    }
    if (steps >= raise_at)
        check_first();
    if (steps == leave_at)
        siglongjmp(back, 1);
}

#define TRAP(change) __asm__ volatile("sub $128, %%rsp\n pushf\n " change ", (%%rsp)\n popf\n add $128, %%rsp" ::: "memory", "cc")

/* Raises the floor above a note of the first byte. */
static __attribute__((noinline)) void raise_floor(int leaves, int draws, int notes_it, int raises)
{
    leave_at = leaves, draw_at = draws, note_at = notes_it, raise_at = raises, steps = 0;
    note(draw(), 0);
    if (sigsetjmp(back, 1) == 0) {
        TRAP("orq $256");
        notes_forget_all(notes, ring);
        TRAP("andq $-257");
    }
}

/* Once a raise was left, a whole one makes it good: what is known of two accesses in a row is put together. */
static void leave(int at)
{
    raise_floor(at, NEVER, NEVER, NEVER);
    notes_forget_all(notes, ring);
    check_first();
    draw();
    for (uint64_t byte = 0; byte < 2; byte++)
        note(draw(), byte);
    if (!notes_have(notes, doer, true, UNIT, 2))
        fail("two accesses in a row aren't both known");
}

int main(void)
{
    struct sigaction action = {.sa_sigaction = handle, .sa_flags = SA_SIGINFO};
    sigaction(SIGTRAP, &action, NULL);
    ring = mmap(NULL, sizeof *ring, PROT_READ | PROT_WRITE, MAP_PRIVATE | MAP_ANONYMOUS | MAP_NORESERVE, -1, 0);
    notes = notes_make();
    if (ring == MAP_FAILED || !notes)
        return 2;
    ring->tail = FIRST_TICKET;
    raise_floor(NEVER, NEVER, NEVER, NEVER);
    check_first();
    int last = steps;
    for (int at = 1; at <= last; at++)
        leave(at);
    /* After the last instruction there is none. */
    for (int raise = 1; raise <= last + 1; raise++)
        for (int second = 1; second <= last; second++)
            for (int first = 1; first <= second; first++) {
                raise_floor(NEVER, first, second, raise);
                check_first();
            }
    printf("%d %d\n", last, noted);
    return 0;
}
