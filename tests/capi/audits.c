/* Shards with journals and seats: which handles settle, and what each settlement that fails is answered. It is linked with --wrap=malloc and --wrap=realloc,
 * so that an access's memory can be refused. */
#include "checks.h"

enum { NAME = 7, SHARDS = 2, SEATS = 3 };

static eraser_shard shards[SHARDS];
static eraser_thread seats[SEATS];
static uint64_t ticket;
static bool is_refused;

void *__real_malloc(size_t);
void *__wrap_malloc(size_t);

void *__wrap_malloc(size_t size)
{
    return is_refused ? NULL : __real_malloc(size);
}

void *__real_realloc(void *, size_t);
void *__wrap_realloc(void *, size_t);

void *__wrap_realloc(void *old, size_t size)
{
    return is_refused ? NULL : __real_realloc(old, size);
}

static uint32_t settled(uint32_t opened, size_t shard_count, size_t seat_count)
{
    uint64_t steps = 77;
    uint32_t status = eraser_settle_handles(NAME, opened, shards, shard_count, seats, seat_count, &steps);
    CHECK(status == ERASER_QUIET || steps == 0);
    return status;
}

/* How many steps a settlement of all has, which leaves the handles so that the next one says the same. */
static uint64_t steps_of_all(void)
{
    uint64_t steps[2];
    for (int time = 0; time < 2; time++)
        CHECK(eraser_settle_handles(NAME, SEATS, shards, SHARDS, seats, SEATS, &steps[time]) == ERASER_QUIET);
    CHECK(steps[0] == steps[1]);
    return steps[0];
}

static void begin(void)
{
    for (uint32_t at = 0; at < SHARDS; at++)
        CHECK(eraser_journal_new(&shards[at], NAME, 1000) == ERASER_QUIET);
    for (uint32_t at = 0; at < SEATS; at++)
        CHECK(eraser_seat_new(&seats[at], NAME, at) == ERASER_QUIET);
    ticket = 0;
}

static uint32_t write_word(unsigned seat, uint64_t address)
{
    return eraser_record(&shards[address / 4096 % SHARDS], &seats[seat], ticket++, address, true);
}

static void swap_shards(void)
{
    eraser_shard first = shards[0];
    shards[0] = shards[1];
    shards[1] = first;
}

/* Calls of the online sort take no audited handle, and the other way round. */
static void check_sorts(void)
{
    eraser_shard shard = {0, NULL}, empty = {0, NULL};
    eraser_thread thread = {0, NULL}, none = {0, NULL};
    uint64_t race = 5;
    uint8_t kept = 1;
    CHECK(eraser_shard_new(&shard, 10) == ERASER_QUIET && eraser_thread_new(&thread, 0) == ERASER_QUIET);
    CHECK(eraser_seat_new(&none, NAME, 1u << 30) == ERASER_TOO_MANY_THREADS && none.kind == 0);
    CHECK(eraser_access(&shards[0], &thread, 8192, true) == ERASER_WRONG_HANDLE && eraser_access(&shard, &seats[0], 8192, true) == ERASER_WRONG_HANDLE);
    CHECK(eraser_access_span(&shards[0], &thread, 8192, 8, true, &race, &kept) == ERASER_WRONG_HANDLE && race == UINT64_MAX && kept == 0);
    CHECK(eraser_reset(&shards[0], 8192, 8) == ERASER_WRONG_HANDLE);
    CHECK(eraser_record(&shard, &seats[0], 0, 8192, true) == ERASER_WRONG_HANDLE && eraser_record(&shards[0], &thread, 0, 8192, true) == ERASER_WRONG_HANDLE);
    CHECK(eraser_record(&empty, &seats[0], 0, 8192, true) == ERASER_EMPTY_HANDLE && eraser_record(&shards[0], &none, 0, 8192, true) == ERASER_EMPTY_HANDLE);
    CHECK(eraser_record_reset(&shard, &seats[0], 0, 8192, 8) == ERASER_WRONG_HANDLE);
    CHECK(eraser_record_reset(&shards[0], &thread, 0, 8192, 8) == ERASER_WRONG_HANDLE);
    CHECK(eraser_record_reset(&empty, &seats[0], 0, 8192, 8) == ERASER_EMPTY_HANDLE);
    CHECK(eraser_record_reset(&shards[0], &none, 0, 8192, 8) == ERASER_EMPTY_HANDLE);
    CHECK(eraser_record(&shards[0], &seats[0], 0, UINT64_C(1) << 48, true) == ERASER_ADDRESS_OUT_OF_RANGE);
    CHECK(eraser_record_reset(&shards[0], &seats[0], 0, UINT64_C(1) << 48, 1) == ERASER_ADDRESS_OUT_OF_RANGE);
    CHECK(eraser_record_reset(&shards[0], &seats[0], 0, 8192, 4097) == ERASER_SIZE_TOO_LARGE);
    CHECK(eraser_record_reset(&shards[0], &seats[0], 0, 12284, 8) == ERASER_SIZE_TOO_LARGE);
    CHECK(eraser_record_reset(&shards[0], &seats[0], 0, 8192, 0) == ERASER_QUIET && eraser_state(&shards[0], 8192) == ERASER_VIRGIN);
    /* None of these is a step. */
    CHECK(steps_of_all() == 0);

    eraser_shard kept_shard = shards[1];
    shards[1] = empty;
    CHECK(settled(SEATS, SHARDS, SEATS) == ERASER_EMPTY_HANDLE && settled(SEATS, 1, SEATS) == ERASER_QUIET && settled(SEATS, 0, SEATS) == ERASER_EMPTY_HANDLE);
    shards[1] = shard;
    CHECK(settled(SEATS, SHARDS, SEATS) == ERASER_WRONG_HANDLE);
    CHECK(eraser_journal_new(&shards[1], NAME + 1, 10) == ERASER_QUIET && settled(SEATS, SHARDS, SEATS) == ERASER_FOREIGN_SHARD);
    CHECK(eraser_shard_free(&shards[1]) == ERASER_QUIET);
    shards[1] = kept_shard;
    eraser_thread kept_seat = seats[2];
    seats[2] = none;
    CHECK(settled(SEATS, SHARDS, SEATS) == ERASER_EMPTY_HANDLE && settled(2, SHARDS, 2) == ERASER_QUIET);
    seats[2] = thread;
    CHECK(settled(SEATS, SHARDS, SEATS) == ERASER_WRONG_HANDLE);
    CHECK(eraser_seat_new(&seats[2], NAME + 1, 2) == ERASER_QUIET && settled(SEATS, SHARDS, SEATS) == ERASER_FOREIGN_SEAT);
    CHECK(eraser_seat_new(&seats[2], NAME, 1) == ERASER_QUIET && settled(SEATS, SHARDS, SEATS) == ERASER_SEAT_TWICE);
    CHECK(eraser_seat_new(&seats[2], NAME, 3) == ERASER_QUIET && settled(SEATS, SHARDS, SEATS) == ERASER_SEAT_MISSING);
    CHECK(eraser_thread_free(&seats[2]) == ERASER_QUIET);
    seats[2] = kept_seat;
    CHECK(settled(SEATS, SHARDS, 2) == ERASER_SEAT_MISSING && settled(2, SHARDS, 2) == ERASER_QUIET && steps_of_all() == 0);
}

/* Seats hold what they were told, and accesses are answered by it. */
static void check_answers(void)
{
    uint32_t held[2] = {9, 9};
    size_t count = 0;
    begin();
    CHECK(eraser_acquire(&seats[0], 5, true) == ERASER_QUIET && eraser_acquire(&seats[0], 5, true) == ERASER_ALREADY_HELD);
    CHECK(eraser_held(&seats[0], held, 2, &count) == ERASER_QUIET && count == 1 && held[0] == 5 && held[1] == 9);
    CHECK(eraser_release(&seats[0], 5, false) == ERASER_WRONG_MODE && eraser_release(&seats[0], 6, true) == ERASER_NOT_HELD);
    CHECK(write_word(0, 8192) == ERASER_QUIET && eraser_state(&shards[0], 8192) == ERASER_EXCLUSIVE);
    CHECK(eraser_release(&seats[0], 5, true) == ERASER_QUIET);
    CHECK(eraser_level(&seats[1], 3) == ERASER_QUIET && eraser_level(&seats[1], 32) == ERASER_LEVEL_TOO_HIGH);
    CHECK(eraser_thread_ignore_on(&seats[2]) == ERASER_QUIET && write_word(2, 8192) == ERASER_IGNORED);
    CHECK(eraser_record((eraser_shard *)(void *)&seats[0], &seats[2], ticket, 8192, true) == ERASER_WRONG_HANDLE);
    CHECK(eraser_thread_ignore_off(&seats[2]) == ERASER_QUIET && eraser_thread_ignore_off(&seats[2]) == ERASER_IGNORE_NOT_ON);
    CHECK(steps_of_all() == 6);
    CHECK(write_word(1, 8192) == ERASER_QUIET && write_word(0, 8192) == ERASER_RACE && write_word(2, 8192) == ERASER_QUIET);
    CHECK(write_word(2, 4096) == ERASER_QUIET && eraser_record_reset(&shards[0], &seats[1], ticket++, 8192, 1) == ERASER_QUIET);
    CHECK(eraser_state(&shards[0], 8192) == ERASER_VIRGIN && eraser_state(&shards[1], 4096) == ERASER_EXCLUSIVE && steps_of_all() == 11);
    swap_shards();
    CHECK(settled(SEATS, SHARDS, SEATS) == ERASER_ENTRIES);
    swap_shards();
    CHECK(settled(SEATS, 1, SEATS) == ERASER_ENTRIES && steps_of_all() == 11);
}

/* Tickets that don't rise in a seat, in a shard, and one of two shards. */
static void check_tickets(void)
{
    begin();
    CHECK(eraser_record(&shards[0], &seats[0], 5, 8192, true) == ERASER_QUIET && eraser_record(&shards[1], &seats[0], 5, 4096, true) == ERASER_QUIET);
    CHECK(settled(SEATS, SHARDS, SEATS) == ERASER_ORDER);
    begin();
    CHECK(eraser_record(&shards[0], &seats[0], 5, 8192, true) == ERASER_QUIET && eraser_record(&shards[0], &seats[1], 4, 8192, false) == ERASER_QUIET);
    CHECK(settled(SEATS, SHARDS, SEATS) == ERASER_ORDER);
    begin();
    CHECK(eraser_record(&shards[0], &seats[0], 5, 8192, true) == ERASER_QUIET && eraser_record(&shards[1], &seats[1], 5, 4096, true) == ERASER_QUIET);
    CHECK(settled(SEATS, SHARDS, SEATS) == ERASER_ORDER);
    begin();
    CHECK(eraser_record(&shards[0], &seats[0], UINT64_MAX, 8192, true) == ERASER_QUIET && eraser_record(&shards[1], &seats[1], 0, 4096, true) == ERASER_QUIET);
    CHECK(steps_of_all() == 2);
    /* An entry without its seat's call, and a call without its entry. */
    CHECK(eraser_seat_new(&seats[0], NAME, 0) == ERASER_QUIET && settled(SEATS, SHARDS, SEATS) == ERASER_ENTRIES);
    begin();
    CHECK(write_word(0, 8192) == ERASER_QUIET && eraser_journal_new(&shards[0], NAME, 10) == ERASER_QUIET);
    CHECK(settled(SEATS, SHARDS, SEATS) == ERASER_ENTRIES);
}

/* What an access is answered if there is no memory. */
static uint32_t write_without_memory(unsigned seat, uint64_t address)
{
    is_refused = true;
    uint32_t status = write_word(seat, address);
    is_refused = false;
    return status;
}

/* An access under a ticket of 2^32 or more takes memory of its own. Without it the access is refused and changes nothing. */
static void check_late_tickets(void)
{
    begin();
    ticket = UINT32_MAX - 1;
    CHECK(write_word(0, 8192) == ERASER_QUIET && write_without_memory(0, 8192) == ERASER_QUIET && ticket == UINT64_C(1) << 32);
    CHECK(write_without_memory(0, 8192) == ERASER_OUT_OF_MEMORY && write_without_memory(0, 8196) == ERASER_OUT_OF_MEMORY && steps_of_all() == 2);
    CHECK(eraser_state(&shards[0], 8196) == ERASER_VIRGIN && write_word(0, 8196) == ERASER_QUIET && steps_of_all() == 3);
    CHECK(write_without_memory(0, 8196) == ERASER_OUT_OF_MEMORY);
    /* The shard refuses an access, which gives its memory back. */
    CHECK(eraser_journal_new(&shards[1], NAME, 0) == ERASER_QUIET && eraser_acquire(&seats[1], 1, true) == ERASER_QUIET);
    CHECK(write_word(0, 4096) == ERASER_QUIET && write_word(1, 4096) == ERASER_TABLE_FULL && steps_of_all() == 5);
    CHECK(write_without_memory(1, 4100) == ERASER_OUT_OF_MEMORY && write_word(1, 4100) == ERASER_QUIET && steps_of_all() == 6);
}

/* A shard's sets are its own and limited. What is refused is no step. */
static void check_full(void)
{
    begin();
    CHECK(eraser_journal_new(&shards[0], NAME, 0) == ERASER_QUIET && eraser_acquire(&seats[1], 1, true) == ERASER_QUIET);
    CHECK(write_word(0, 8192) == ERASER_QUIET && write_word(1, 8192) == ERASER_TABLE_FULL && steps_of_all() == 2);
    CHECK(eraser_release(&seats[1], 1, true) == ERASER_QUIET && write_word(1, 8192) == ERASER_RACE && steps_of_all() == 4);
}

int main(void)
{
    begin();
    check_sorts();
    check_answers();
    check_tickets();
    check_late_tickets();
    check_full();
    for (uint32_t at = 0; at < SHARDS; at++)
        CHECK(eraser_thread_free((eraser_thread *)(void *)&shards[at]) == ERASER_QUIET && shards[at].kind == 0);
    for (uint32_t at = 0; at < SEATS; at++)
        CHECK(eraser_shard_free((eraser_shard *)(void *)&seats[at]) == ERASER_QUIET && seats[at].kind == 0);
    CHECK(eraser_settle(NULL, NULL) == ERASER_EMPTY_HANDLE);
    struct eraser_options options = {.shards = 1};
    eraser_detector *detector = eraser_start(&options);
    CHECK(detector && eraser_settle(detector, NULL) == (getenv("ERASER_AUDIT") ? ERASER_QUIET : ERASER_WRONG_HANDLE));
    eraser_stop(detector);
    options.audit = true;
    detector = eraser_start(&options);
    CHECK(detector && eraser_settle(detector, &ticket) == ERASER_QUIET && ticket == 0);
    eraser_stop(detector);
    printf("fine\n");
    return 0;
}
