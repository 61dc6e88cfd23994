/* Whatever interrupts the recorder, at each of its instructions: `steps WAY`. By the trap flag of the processor, a handler comes after one instruction of a
 * call, and at the next turn after the next one.
 *
 * - handles: the handler writes into the unit that the thread writes before the call and behind it
 * - locks: the handler writes so with a lock
 * - jumps: the handler leaves the call by siglongjmp
 * - moves: another thread maps the memory that the call gives back, and writes there. Prints how often it could */
#define _GNU_SOURCE
#include "../meet.h"

#include <setjmp.h>
#include <signal.h>
#include <sys/mman.h>
#include <ucontext.h>

#define TURNS 250
#define BLOCK 65536
#define PLAIN __attribute__((no_sanitize("thread"), noinline))

extern void AnnotateRWLockAcquired(const char *file, int line, const volatile void *lock, long is_write);
extern void AnnotateRWLockReleased(const char *file, int line, const volatile void *lock, long is_write);

/* Both bytes of a unit have one note, and are in two words. */
static _Alignas(8) volatile struct { int first, second; } units[TURNS], others[TURNS];
static char lock, inner, way;
static int at, steps, taken;
static char *old;
static sigjmp_buf back;

static void acquire(char *whose) { AnnotateRWLockAcquired(__FILE__, __LINE__, whose, 1); }
static void release(char *whose) { AnnotateRWLockReleased(__FILE__, __LINE__, whose, 1); }

static void write_second(void)
{
    units[at].second = 1;
}

static void write_with_lock(void)
{
    acquire(&inner);
    units[at].second = 1;
    release(&inner);
}

static PLAIN void let_other_map(void)
{
    __atomic_store_n(&turn, 2 * at + 1, __ATOMIC_SEQ_CST);
    while (__atomic_load_n(&turn, __ATOMIC_SEQ_CST) == 2 * at + 1)
        sched_yield();
}

static PLAIN void handle(int number, siginfo_t *how, void *context)
{
    (void)number, (void)how;
    if (steps++ != at)
        return;
    ((ucontext_t *)context)->uc_mcontext.gregs[REG_EFL] &= ~256;
    if (way == 'h')
        write_second();
    else if (way == 'l')
        write_with_lock();
    else if (way == 'm')
        let_other_map();
    else
        siglongjmp(back, 1);
}

#define TRAP(change) __asm__ volatile("sub $128, %%rsp\n pushf\n " change ", (%%rsp)\n popf\n add $128, %%rsp" ::: "memory", "cc")

static PLAIN void step_release(void)
{
    steps = 0;
    TRAP("orq $256");
    AnnotateRWLockReleased(__FILE__, __LINE__, &lock, 1);
    TRAP("andq $-257");
}

static void interrupt(void)
{
    acquire(&lock);
    units[at].first = 1;
    others[at].first = 1;
    if (way != 'j' || sigsetjmp(back, 1) == 0)
        step_release();
    others[at].second = 1; /* BEHIND */
    units[at].first = 1; /* AGAIN */
    if (way == 'l')
        units[at].second = 1; /* LOCKED */
    release(&lock);
}

static PLAIN void *step_move(char *block)
{
    steps = 0;
    TRAP("orq $256");
    void *now = mremap(block, BLOCK, 2 * BLOCK, MREMAP_MAYMOVE);
    TRAP("andq $-257");
    return now;
}

static void *map(void *wanted, size_t size, int how)
{
    return mmap(wanted, size, PROT_READ | PROT_WRITE, MAP_PRIVATE | MAP_ANONYMOUS | how, -1, 0);
}

static void *take(void *nothing)
{
    for (int i = 0; i < TURNS; i++) {
        take_turn(2 * i);
        *old = 1;
        meet();
        while (__atomic_load_n(&turn, __ATOMIC_SEQ_CST) == 2 * i)
            sched_yield();
        if (map(old, BLOCK, MAP_FIXED_NOREPLACE) == old) {
            *old = 2; /* TAKEN */
            taken++;
        }
        next_turn();
        meet();
        meet();
    }
    return nothing;
}

static void move(void)
{
    pthread_t taker;
    pthread_barrier_init(&meeting, NULL, 2);
    old = map(NULL, 2 * BLOCK, 0);
    /* It finds the real function, with a lock of the loader. */
    mremap(old, 2 * BLOCK, 2 * BLOCK, 0);
    pthread_create(&taker, NULL, take, NULL);
    for (at = 0; at < TURNS; at++) {
        meet();
        char *now = step_move(old);
        if (__atomic_load_n(&turn, __ATOMIC_SEQ_CST) == 2 * at)
            let_other_map();
        meet();
        munmap(now, 2 * BLOCK);
        old = map(old, 2 * BLOCK, MAP_FIXED);
        meet();
    }
    pthread_join(taker, NULL);
    printf("%d\n", taken);
}

int main(int count, char **words)
{
    struct sigaction action = {.sa_sigaction = handle, .sa_flags = SA_SIGINFO};
    way = count > 1 ? *words[1] : 'h';
    sigaction(SIGTRAP, &action, NULL);
    if (way == 'm') {
        move();
        return 0;
    }
    for (at = 0; at < TURNS; at++)
        interrupt();
    return 0;
}
