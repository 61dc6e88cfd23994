/* Messages by atomic operations of each size: a word is written, a flag is raised, and another thread that has seen the flag reads the
 * word. It is ordered if the flag is raised to release and seen to acquire. */
#include "../meet.h"

#include <stdint.h>

static uint8_t flag_8;
static uint16_t flag_16;
static uint32_t flag_32;
static uint64_t flag_64;
static uint32_t loose_flag, half_flag, fenced_flag;
static int words[4], loose, half, fenced;

#define SEND(flag, word, order) ((word)++, __atomic_store_n(&(flag), 1, order))
#define RECEIVE(flag, order) while (!__atomic_load_n(&(flag), order)) sched_yield()

static void send(void)
{
    SEND(flag_8, words[0], __ATOMIC_RELEASE);
    SEND(flag_16, words[1], __ATOMIC_SEQ_CST);
    SEND(flag_32, words[2], __ATOMIC_RELEASE);
    SEND(flag_64, words[3], __ATOMIC_SEQ_CST);
    SEND(loose_flag, loose, __ATOMIC_RELAXED);
    SEND(half_flag, half, __ATOMIC_RELEASE);
}

static void receive(void)
{
    RECEIVE(half_flag, __ATOMIC_RELAXED);
    half++; /* UNORDERED */
    RECEIVE(loose_flag, __ATOMIC_RELAXED);
    loose++; /* UNORDERED */
    RECEIVE(flag_8, __ATOMIC_ACQUIRE);
    words[0]++;
    RECEIVE(flag_16, __ATOMIC_SEQ_CST);
    words[1]++;
    RECEIVE(flag_32, __ATOMIC_CONSUME);
    words[2]++;
    RECEIVE(flag_64, __ATOMIC_ACQUIRE);
    words[3]++;
}

/* A fence and a relaxed operation are one order for C. */
#if defined(__GNUC__) && !defined(__clang__)
#pragma GCC diagnostic ignored "-Wtsan"
#endif
static void send_by_fence(void)
{
    fenced++;
    __atomic_thread_fence(__ATOMIC_RELEASE);
    __atomic_store_n(&fenced_flag, 1, __ATOMIC_RELAXED);
}

static void receive_by_fence(void)
{
    RECEIVE(fenced_flag, __ATOMIC_RELAXED);
    __atomic_thread_fence(__ATOMIC_ACQUIRE);
    fenced++;
}

static void run(int number)
{
    if (number == 0) {
        send_by_fence();
        send();
    } else {
        receive_by_fence();
        receive();
    }
}

int main(void)
{
    run_threads(2, run);
    return 0;
}
