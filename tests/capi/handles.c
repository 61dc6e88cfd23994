/* Empty, wrong and freed handles, and what each proved call refuses. */
#include "checks.h"

/* The status of a run without a race, which `first_race` always says. `settled` is always written, and a run that isn't quiet isn't settled. */
static uint32_t quiet_span(eraser_shard *shard, eraser_thread *thread, uint64_t address, uint64_t bytes)
{
    uint64_t race = 5;
    uint8_t settled = 6;
    uint32_t status = eraser_access_span(shard, thread, address, bytes, true, &race, &settled);
    CHECK(race == UINT64_MAX && (settled == 0 || (settled == 1 && status == ERASER_QUIET && bytes > 0)));
    return status;
}

/* A shard has as many sets of locks as it may, and refuses an access that wants one more, which leaves the state. */
static void check_full(uint32_t most)
{
    eraser_shard shard = {0, NULL};
    eraser_thread first = {0, NULL}, second = {0, NULL};
    uint64_t race;
    uint8_t settled;
    CHECK(eraser_shard_new(&shard, most) == ERASER_QUIET);
    CHECK(eraser_thread_new(&first, 1) == ERASER_QUIET && eraser_thread_new(&second, 2) == ERASER_QUIET);
    for (uint32_t lock = 0; lock < most + 2; lock++) {
        uint64_t at = 4096 + 4 * lock;
        bool is_kept = lock < most;
        CHECK(eraser_access(&shard, &first, at, true) == ERASER_QUIET && eraser_acquire(&second, lock, true) == ERASER_QUIET);
        CHECK(eraser_access(&shard, &second, at, true) == (is_kept ? ERASER_QUIET : ERASER_TABLE_FULL));
        CHECK(eraser_state(&shard, at) == (is_kept ? ERASER_SHARED_MODIFIED : ERASER_EXCLUSIVE));
        race = 7;
        CHECK(eraser_access_span(&shard, &second, at, 4, true, &race, &settled) == (is_kept ? ERASER_QUIET : ERASER_TABLE_FULL) && race == UINT64_MAX);
        CHECK(settled == is_kept);
        CHECK(eraser_state(&shard, at) == (is_kept ? ERASER_SHARED_MODIFIED : ERASER_EXCLUSIVE));
        CHECK(eraser_access(&shard, &first, at, true) == (is_kept ? ERASER_RACE : ERASER_QUIET) && eraser_release(&second, lock, true) == ERASER_QUIET);
    }
    /* What wants no new set goes on: a known one, the empty one, a word of one thread. */
    CHECK(most == 0 || (eraser_acquire(&second, 0, true) == ERASER_QUIET && eraser_access(&shard, &first, 8192, true) == ERASER_QUIET));
    CHECK(most == 0 || (eraser_access(&shard, &second, 8192, true) == ERASER_QUIET && eraser_release(&second, 0, true) == ERASER_QUIET));
    CHECK(eraser_access(&shard, &first, 8196, true) == ERASER_QUIET && eraser_access(&shard, &second, 8196, true) == ERASER_RACE);
    CHECK(eraser_access(&shard, &second, 8200, true) == ERASER_QUIET);
    CHECK(eraser_shard_free(&shard) == ERASER_QUIET && eraser_thread_free(&first) == ERASER_QUIET && eraser_thread_free(&second) == ERASER_QUIET);
}

/* `count` and the places for locks stay as they were if a handle is empty or wrong. */
static uint32_t held_of_no_thread(eraser_thread *thread)
{
    uint32_t held[2] = {7, 8};
    size_t count = 9;
    uint32_t status = eraser_held(thread, held, 2, &count);
    CHECK(count == 9 && held[0] == 7 && held[1] == 8);
    return status;
}

int main(void)
{
    eraser_shard shard, other = {0, NULL}, empty = {0, NULL};
    eraser_thread thread, second = {0, NULL};
    uint32_t held[2];
    size_t count = 0;
    uint64_t race;
    uint8_t settled;
    memset(&shard, 0, sizeof shard);
    memset(&thread, 0, sizeof thread);
    _Static_assert(sizeof shard == 16 && sizeof thread == 16, "a handle has 16 bytes");

    /* Empty ones. */
    CHECK(eraser_shard_free(&shard) == ERASER_QUIET && eraser_thread_free(&thread) == ERASER_QUIET);
    CHECK(eraser_access(&shard, &thread, 4096, true) == ERASER_EMPTY_HANDLE);
    CHECK(quiet_span(&shard, &thread, 4096, 8) == ERASER_EMPTY_HANDLE);
    CHECK(eraser_reset(&shard, 4096, 4) == ERASER_EMPTY_HANDLE && eraser_state(&shard, 4096) == ERASER_EMPTY_HANDLE);
    CHECK(eraser_acquire(&thread, 1, true) == ERASER_EMPTY_HANDLE && eraser_release(&thread, 1, true) == ERASER_EMPTY_HANDLE);
    CHECK(eraser_thread_ignore_on(&thread) == ERASER_EMPTY_HANDLE && eraser_thread_ignore_off(&thread) == ERASER_EMPTY_HANDLE);
    CHECK(eraser_level(&thread, 1) == ERASER_EMPTY_HANDLE && held_of_no_thread(&thread) == ERASER_EMPTY_HANDLE);
    CHECK(eraser_thread_new(&thread, 1u << 30) == ERASER_TOO_MANY_THREADS && thread.kind == 0);
    CHECK(eraser_thread_new(&thread, 1) == ERASER_QUIET && thread.kind != 0);
    CHECK(eraser_access(&shard, &thread, 4096, true) == ERASER_EMPTY_HANDLE && quiet_span(&shard, &thread, 4096, 8) == ERASER_EMPTY_HANDLE);
    CHECK(eraser_shard_new(&shard, 1000) == ERASER_QUIET && eraser_shard_new(&other, 1000) == ERASER_QUIET && eraser_thread_new(&second, 2) == ERASER_QUIET);

    /* Wrong ones, and nothing changed. */
    CHECK(eraser_access((eraser_shard *)(void *)&second, &thread, 4096, true) == ERASER_WRONG_HANDLE);
    CHECK(eraser_access(&shard, (eraser_thread *)(void *)&other, 4096, true) == ERASER_WRONG_HANDLE);
    CHECK(quiet_span((eraser_shard *)(void *)&second, &thread, 4096, 8) == ERASER_WRONG_HANDLE);
    CHECK(quiet_span(&shard, (eraser_thread *)(void *)&other, 4096, 8) == ERASER_WRONG_HANDLE);
    CHECK(held_of_no_thread((eraser_thread *)(void *)&shard) == ERASER_WRONG_HANDLE);
    CHECK(eraser_acquire((eraser_thread *)(void *)&shard, 1, true) == ERASER_WRONG_HANDLE);
    CHECK(eraser_state((eraser_shard *)(void *)&thread, 4096) == ERASER_WRONG_HANDLE);
    CHECK(eraser_reset((eraser_shard *)(void *)&thread, 4096, 4) == ERASER_WRONG_HANDLE && eraser_state(&shard, 4096) == ERASER_VIRGIN);
    CHECK(eraser_held(&thread, held, 2, &count) == ERASER_QUIET && count == 0);

    /* What is refused of calls with right handles. */
    CHECK(eraser_acquire(&thread, 1, true) == ERASER_QUIET && eraser_acquire(&thread, 1, true) == ERASER_ALREADY_HELD);
    CHECK(eraser_acquire(&thread, 1, false) == ERASER_ALREADY_HELD && eraser_release(&thread, 1, false) == ERASER_WRONG_MODE);
    CHECK(eraser_release(&thread, 2, true) == ERASER_NOT_HELD && eraser_acquire(&thread, 0xffffffe1, true) == ERASER_LEVEL_LOCK);
    CHECK(eraser_release(&thread, 0xffffffff, true) == ERASER_LEVEL_LOCK && eraser_level(&thread, 32) == ERASER_LEVEL_TOO_HIGH);
    CHECK(eraser_level(&thread, 31) == ERASER_QUIET && eraser_level(&thread, 0) == ERASER_QUIET);
    CHECK(eraser_acquire(&thread, 0xffffffe0, false) == ERASER_QUIET && eraser_acquire(&thread, 0, true) == ERASER_QUIET);
    held[0] = held[1] = 9;
    CHECK(eraser_held(&thread, held, 2, &count) == ERASER_QUIET && count == 3 && held[0] == 0 && held[1] == 1);
    CHECK(eraser_held(&thread, held, 0, &count) == ERASER_QUIET && count == 3);
    for (uint32_t lock = 100; lock < 161; lock++)
        CHECK(eraser_acquire(&thread, lock, true) == ERASER_QUIET);
    CHECK(eraser_acquire(&thread, 161, true) == ERASER_HELD_FULL && eraser_release(&thread, 160, true) == ERASER_QUIET);
    CHECK(eraser_acquire(&thread, 161, true) == ERASER_QUIET);
    CHECK(eraser_thread_ignore_off(&thread) == ERASER_IGNORE_NOT_ON);
    for (int depth = 0; depth < 255; depth++)
        CHECK(eraser_thread_ignore_on(&thread) == ERASER_QUIET);
    CHECK(eraser_thread_ignore_on(&thread) == ERASER_IGNORE_TOO_DEEP && eraser_access(&shard, &thread, 4096, true) == ERASER_IGNORED);
    CHECK(quiet_span(&shard, &thread, 4096, 8) == ERASER_IGNORED && eraser_state(&shard, 4096) == ERASER_VIRGIN);
    /* A handle that isn't right is no ignored access. */
    CHECK(eraser_access((eraser_shard *)(void *)&second, &thread, 4096, true) == ERASER_WRONG_HANDLE);
    CHECK(quiet_span((eraser_shard *)(void *)&second, &thread, 4096, 8) == ERASER_WRONG_HANDLE);
    CHECK(eraser_access(&empty, &thread, 4096, true) == ERASER_EMPTY_HANDLE && quiet_span(&empty, &thread, 4096, 8) == ERASER_EMPTY_HANDLE);
    for (int depth = 0; depth < 255; depth++)
        CHECK(eraser_thread_ignore_off(&thread) == ERASER_QUIET);

    /* Addresses and sizes. */
    const uint64_t end = UINT64_C(1) << 48;
    CHECK(eraser_access(&shard, &thread, end, true) == ERASER_ADDRESS_OUT_OF_RANGE);
    CHECK(eraser_access(&shard, &thread, UINT64_MAX, true) == ERASER_ADDRESS_OUT_OF_RANGE);
    CHECK(eraser_access(&shard, &thread, end - 1, true) == ERASER_QUIET && eraser_state(&shard, end - 4) == ERASER_EXCLUSIVE);
    CHECK(eraser_state(&shard, end) == ERASER_ADDRESS_OUT_OF_RANGE && eraser_reset(&shard, end - 4, 5) == ERASER_ADDRESS_OUT_OF_RANGE);
    CHECK(eraser_state(&shard, end - 4) == ERASER_EXCLUSIVE && eraser_reset(&shard, end - 1, 1) == ERASER_QUIET);
    CHECK(eraser_state(&shard, end - 4) == ERASER_VIRGIN);
    CHECK(quiet_span(&shard, &thread, end - 8, 9) == ERASER_ADDRESS_OUT_OF_RANGE && eraser_state(&shard, end - 8) == ERASER_VIRGIN);
    CHECK(quiet_span(&shard, &thread, 8192, 4194305) == ERASER_SIZE_TOO_LARGE && eraser_state(&shard, 8192) == ERASER_VIRGIN);
    CHECK(quiet_span(&shard, &thread, 8192, 0) == ERASER_QUIET && eraser_state(&shard, 8192) == ERASER_VIRGIN);
    CHECK(eraser_reset(&shard, 8192, 4194305) == ERASER_SIZE_TOO_LARGE && eraser_reset(&shard, 8192, 0) == ERASER_QUIET);

    /* What is refused of a run leaves words that were used. */
    CHECK(eraser_access(&shard, &thread, 8192, true) == ERASER_QUIET);
    CHECK(quiet_span(&shard, &second, 8192, 4194305) == ERASER_SIZE_TOO_LARGE && quiet_span(&shard, &second, 8192, end) == ERASER_SIZE_TOO_LARGE);
    CHECK(eraser_reset(&shard, 8192, 4194305) == ERASER_SIZE_TOO_LARGE && eraser_reset(&shard, 8192, 0) == ERASER_QUIET);
    CHECK(quiet_span(&shard, &second, end - 4, 5) == ERASER_ADDRESS_OUT_OF_RANGE && eraser_reset(&shard, end - 4, 5) == ERASER_ADDRESS_OUT_OF_RANGE);
    CHECK(eraser_state(&shard, 8192) == ERASER_EXCLUSIVE && eraser_reset(&shard, 8192, 4) == ERASER_QUIET);

    /* A race: which word, and once. */
    CHECK(quiet_span(&shard, &thread, 8195, 6) == ERASER_QUIET);
    CHECK(eraser_state(&shard, 8192) == ERASER_EXCLUSIVE && eraser_state(&shard, 8203) == ERASER_EXCLUSIVE && eraser_state(&shard, 8204) == ERASER_VIRGIN);
    CHECK(eraser_access(&shard, &second, 8196, false) == ERASER_QUIET && eraser_state(&shard, 8196) == ERASER_SHARED);
    CHECK(eraser_access_span(&shard, &second, 8192, 4096, true, &race, &settled) == ERASER_RACE && race == 8192 && settled == 0);
    CHECK(quiet_span(&shard, &second, 8192, 4096) == ERASER_QUIET);

    /* A handle that is filled again is new; one that is freed is empty, however often. */
    CHECK(eraser_shard_new(&shard, 1) == ERASER_QUIET && eraser_state(&shard, 8192) == ERASER_VIRGIN);
    CHECK(eraser_thread_new(&thread, 3) == ERASER_QUIET && eraser_held(&thread, held, 2, &count) == ERASER_QUIET && count == 0);
    for (int time = 0; time < 2; time++) {
        CHECK(eraser_shard_free(&shard) == ERASER_QUIET && eraser_thread_free(&thread) == ERASER_QUIET);
        CHECK(shard.kind == 0 && thread.kind == 0 && eraser_access(&shard, &thread, 4096, true) == ERASER_EMPTY_HANDLE);
    }
    /* Those that make and free take a handle of either sort. */
    CHECK(eraser_shard_new((eraser_shard *)(void *)&second, 1) == ERASER_QUIET && eraser_state((eraser_shard *)(void *)&second, 4096) == ERASER_VIRGIN);
    CHECK(eraser_thread_free((eraser_thread *)(void *)&other) == ERASER_QUIET && other.kind == 0);
    CHECK(eraser_shard_free((eraser_shard *)(void *)&second) == ERASER_QUIET && second.kind == 0);

    check_full(0);
    check_full(1);
    check_full(5);
    /* More sets than a shard can have. */
    CHECK(eraser_shard_new(&shard, UINT32_MAX) == ERASER_QUIET && eraser_access(&shard, &thread, 4096, true) == ERASER_EMPTY_HANDLE);
    eraser_shard_free(&shard);

    /* A layer that isn't there. */
    CHECK(eraser_read(NULL, &race, 8) == ERASER_EMPTY_HANDLE && eraser_locked(NULL, &race, true) == ERASER_EMPTY_HANDLE && eraser_self(NULL) == 0);
    eraser_stop(NULL);
    struct eraser_options options = {.shards = 65537};
    CHECK(eraser_start(&options) == NULL);
    options.shards = 1;
    options.max_sets = 1048577;
    CHECK(eraser_start(&options) == NULL);
    printf("fine\n");
    return 0;
}
