/* Fences around relaxed operations. What a fence to release passes on was done before the fence; what a fence to acquire takes over was seen
 * before it. */
#define _GNU_SOURCE
#include "../meet.h"

#include <stdint.h>

#if defined(__GNUC__) && !defined(__clang__)
#pragma GCC diagnostic ignored "-Wtsan"
#endif

static uint32_t both_flag, sent_flag, taken_flag, full_flag, added_flag, swapped_flag;
static uint32_t between_flag, before_flag, compiler_flag, failed_flag, done_flag, later_flag, first_flag, second_flag, joined_flag;
static int both, sent, taken, full, added, swapped, between, before, compiler, failed, seen_now, seen_later, first, second, joined;

#define FENCE(order) __atomic_thread_fence(__ATOMIC_##order)
#define RAISE(flag, order) __atomic_store_n(&(flag), 1, __ATOMIC_##order)
#define LOOK(flag, value, order) while (__atomic_load_n(&(flag), __ATOMIC_##order) != (value)) sched_yield()

/* Pairs of which each orders two threads. */
static void send(void)
{
    both++;
    FENCE(RELEASE);
    RAISE(both_flag, RELAXED);
    sent++;
    FENCE(ACQ_REL);
    RAISE(sent_flag, RELAXED);
    taken++;
    RAISE(taken_flag, RELEASE);
    full++;
    __sync_synchronize();
    RAISE(full_flag, RELAXED);
    added++;
    FENCE(SEQ_CST);
    __atomic_fetch_add(&added_flag, 1, __ATOMIC_RELAXED);
    swapped++;
    FENCE(RELEASE);
    uint32_t expected = 0;
    __atomic_compare_exchange_n(&swapped_flag, &expected, 1, 0, __ATOMIC_ACQUIRE, __ATOMIC_RELAXED);
}

static void receive(void)
{
    LOOK(both_flag, 1, RELAXED);
    FENCE(ACQUIRE);
    both++;
    LOOK(sent_flag, 1, ACQUIRE);
    sent++;
    LOOK(taken_flag, 1, RELAXED);
    FENCE(ACQ_REL);
    taken++;
    LOOK(full_flag, 1, RELAXED);
    __sync_synchronize();
    full++;
    while (__atomic_fetch_add(&added_flag, 0, __ATOMIC_RELEASE) != 1)
        sched_yield();
    FENCE(SEQ_CST);
    added++;
    LOOK(swapped_flag, 1, RELAXED);
    FENCE(CONSUME);
    swapped++;
}

/* Nothing is passed on that was done behind the fence, nor by a store that was not made. */
static void send_less(void)
{
    FENCE(RELEASE);
    between++;
    RAISE(between_flag, RELAXED);
    before++;
    RAISE(before_flag, RELEASE);
    compiler++;
    __atomic_signal_fence(__ATOMIC_SEQ_CST);
    RAISE(compiler_flag, RELAXED);
    failed++;
    FENCE(RELEASE);
    uint32_t expected = 7;
    __atomic_compare_exchange_n(&failed_flag, &expected, 1, 0, __ATOMIC_RELAXED, __ATOMIC_RELAXED);
    RAISE(done_flag, RELAXED);
}

/* Nothing is taken over that was seen behind the fence. */
static void receive_less(void)
{
    LOOK(between_flag, 1, RELAXED);
    FENCE(ACQUIRE);
    between++; /* UNORDERED */
    FENCE(ACQUIRE);
    LOOK(before_flag, 1, RELAXED);
    before++; /* UNORDERED */
    LOOK(compiler_flag, 1, RELAXED);
    __atomic_signal_fence(__ATOMIC_SEQ_CST);
    compiler++; /* UNORDERED */
    LOOK(done_flag, 1, RELAXED);
    LOOK(failed_flag, 0, ACQUIRE);
    failed++; /* UNORDERED */
}

/* A flag is raised again between the look at it and the fence. */
static void send_later(void)
{
    seen_now++;
    RAISE(later_flag, RELEASE);
    take_turn(1);
    seen_later++;
    RAISE(later_flag, RELEASE);
    next_turn();
}

static void receive_later(void)
{
    LOOK(later_flag, 1, RELAXED);
    next_turn();
    take_turn(2);
    FENCE(ACQUIRE);
    seen_now++;
    seen_later++; /* UNORDERED */
    next_turn();
}

/* Two flags, of which one is looked at. */
static void send_two(void)
{
    take_turn(3);
    first++;
    FENCE(RELEASE);
    RAISE(first_flag, RELAXED);
    second++;
    FENCE(RELEASE);
    RAISE(second_flag, RELAXED);
    next_turn();
}

static void receive_one(void)
{
    LOOK(first_flag, 1, ACQUIRE);
    take_turn(4);
    first++;
    second++; /* UNORDERED */
    next_turn();
}

static void run(int number)
{
    if (number == 0) {
        send();
        send_less();
        send_two();
    } else if (number == 1) {
        receive();
        receive_less();
    } else if (number == 2)
        send_later();
    else if (number == 3)
        receive_later();
    else
        receive_one();
}

/* What a thread has seen and not taken over, who joins it has not either. */
static void *look(void *nothing)
{
    LOOK(joined_flag, 1, RELAXED);
    return nothing;
}

static void *raise_flag(void *nothing)
{
    joined++;
    RAISE(joined_flag, RELEASE);
    take_turn(6);
    return nothing;
}

static void join_one(void)
{
    pthread_t raiser, looker;
    if (pthread_create(&raiser, NULL, raise_flag, NULL) != 0 || pthread_create(&looker, NULL, look, NULL) != 0)
        exit(99);
    pthread_join(looker, NULL);
    FENCE(ACQUIRE);
    joined++; /* UNORDERED */
    next_turn();
    pthread_join(raiser, NULL);
}

int main(void)
{
    run_threads(5, run);
    join_one();
    return __atomic_load_n(&second_flag, __ATOMIC_RELAXED) != 1;
}
