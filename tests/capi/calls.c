/* Makes the proved calls that the lines of its standard input say, and prints what each one answers. A call that finds no memory is made again. With
 * ERASER_AUDIT in the environment shards have journals and threads seats, and a last line says what they come to. */
#include "eraser_detector.h"

#include <stdio.h>
#include <stdlib.h>
#include <string.h>

enum { THREADS = 8, SHARDS = 4, MOST_HELD = 96 };

static eraser_thread threads[THREADS];
static eraser_shard shards[SHARDS];
static bool audits;
static uint64_t ticket;

static eraser_shard *shard_of(uint64_t address)
{
    return &shards[address / 4096 % SHARDS];
}

static void print_held(eraser_thread *thread)
{
    uint32_t locks[MOST_HELD];
    size_t count = 0;
    if (eraser_held(thread, locks, MOST_HELD, &count) != ERASER_QUIET)
        exit(3);
    printf(" holding");
    for (size_t at = 0; at < count; at++)
        if (locks[at] <= 0xffffffe0)
            printf(" %u", (unsigned)locks[at]);
}

static uint32_t new_shard(eraser_shard *shard)
{
    return audits ? eraser_journal_new(shard, 7, 1048576) : eraser_shard_new(shard, 1048576);
}

static uint32_t new_thread(eraser_thread *thread, uint32_t number)
{
    return audits ? eraser_seat_new(thread, 7, number) : eraser_thread_new(thread, number);
}

static uint32_t access_word(eraser_thread *thread, uint64_t address, bool writes)
{
    return audits ? eraser_record(shard_of(address), thread, ticket++, address, writes) : eraser_access(shard_of(address), thread, address, writes);
}

/* Words one by one, each under its ticket, where there are journals. */
static uint32_t access_part(eraser_thread *thread, uint64_t at, uint64_t size, bool writes, uint64_t *found, uint8_t *settled)
{
    if (!audits)
        return eraser_access_span(shard_of(at), thread, at, size, writes, found, settled);
    *settled = 0;
    for (uint64_t word = at / 4; word <= (at + size - 1) / 4; word++) {
        uint32_t answer = access_word(thread, 4 * word, writes);
        if (answer == ERASER_RACE && *found == UINT64_MAX)
            *found = 4 * word;
        if (answer > ERASER_RACE)
            return answer;
    }
    return *found == UINT64_MAX ? ERASER_QUIET : ERASER_RACE;
}

static uint32_t reset(eraser_thread *thread, uint64_t at, uint64_t size)
{
    return audits ? eraser_record_reset(shard_of(at), thread, ticket++, at, size) : eraser_reset(shard_of(at), at, size);
}

static void print_settled(void)
{
    uint64_t steps = 0;
    uint32_t status;
    while ((status = eraser_settle_handles(7, THREADS, shards, SHARDS, threads, THREADS, &steps)) == ERASER_OUT_OF_MEMORY) {
    }
    printf("%s %llu\n", eraser_text(status), (unsigned long long)steps);
}

/* A span goes to the shards of its pages, as a program's would. `settled` becomes 1 if each part is. */
static uint32_t span(eraser_thread *thread, uint64_t address, uint64_t size, bool writes, uint64_t *first_race, uint8_t *settled)
{
    uint32_t status = ERASER_QUIET;
    if (address >> 48 || size > (UINT64_C(1) << 48) - address)
        return audits ? ERASER_ADDRESS_OUT_OF_RANGE : eraser_access_span(shard_of(address), thread, address, size, writes, first_race, settled);
    *settled = size > 0;
    for (uint64_t at = address, end = address + size; at < end;) {
        uint64_t page_end = (at | 4095) + 1, part = page_end < end ? page_end : end, found = UINT64_MAX;
        uint8_t part_settled;
        uint32_t answer = access_part(thread, at, part - at, writes, &found, &part_settled);
        *settled &= part_settled;
        if (found != UINT64_MAX && *first_race == UINT64_MAX)
            *first_race = found;
        if (answer > ERASER_IGNORED)
            return answer;
        if (status == ERASER_QUIET)
            status = answer;
        at = part;
    }
    return status;
}

int main(void)
{
    static char input[1 << 16], output[1 << 16];
    char line[256], verb[32];
    unsigned at;
    unsigned long long first, second;
    setvbuf(stdin, input, _IOFBF, sizeof input);
    setvbuf(stdout, output, _IOFBF, sizeof output);
    audits = getenv("ERASER_AUDIT") != NULL;
    for (at = 0; at < SHARDS; at++)
        while (new_shard(&shards[at]) != ERASER_QUIET) {
        }
    for (at = 0; at < THREADS; at++)
        while (new_thread(&threads[at], at) != ERASER_QUIET) {
        }
    while (fgets(line, sizeof line, stdin)) {
        if (sscanf(line, "%u %31s %llu %llu", &at, verb, &first, &second) != 4 || at >= THREADS)
            return 2;
        eraser_thread *thread = &threads[at];
        uint64_t race = UINT64_MAX;
        uint32_t status;
        uint8_t settled = 0;
        do {
            if (strcmp(verb, "lock") == 0)
                status = eraser_acquire(thread, (uint32_t)first, second);
            else if (strcmp(verb, "unlock") == 0)
                status = eraser_release(thread, (uint32_t)first, second);
            else if (strcmp(verb, "ignore-on") == 0)
                status = eraser_thread_ignore_on(thread);
            else if (strcmp(verb, "ignore-off") == 0)
                status = eraser_thread_ignore_off(thread);
            else if (strcmp(verb, "level") == 0)
                status = eraser_level(thread, (uint32_t)first);
            else if (strcmp(verb, "one-read") == 0 || strcmp(verb, "one-write") == 0)
                status = access_word(thread, first, verb[4] == 'w');
            else if (strcmp(verb, "read") == 0 || strcmp(verb, "write") == 0)
                status = span(thread, first, second, verb[0] == 'w', &race, &settled);
            else if (strcmp(verb, "free") == 0)
                status = reset(thread, first, second);
            else if (strcmp(verb, "look") == 0)
                status = eraser_state(shard_of(first), first);
            else
                return 2;
        } while (status == ERASER_OUT_OF_MEMORY);
        if (race != UINT64_MAX)
            printf("race 0x%llx", (unsigned long long)race);
        else
            printf("%s%s", eraser_text(status), settled ? " settled" : "");
        print_held(thread);
        printf("\n");
    }
    if (audits)
        print_settled();
    for (at = 0; at < SHARDS; at++)
        eraser_shard_free(&shards[at]);
    for (at = 0; at < THREADS; at++)
        eraser_thread_free(&threads[at]);
    return 0;
}
