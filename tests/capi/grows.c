/* What the detector takes for a million words, by malloc's own count: at most 5 bytes a word, and nothing more however often they are used again: grows
 * ROUNDS. */
#include "checks.h"

#include <malloc.h>

enum { WORDS = 1000000, PART = 333334, SOME = 10000, ROUNDS = 10 };

static eraser_detector *detector;
static _Alignas(4096) int data[WORDS];
static int locks[3];

static size_t taken(void)
{
    struct mallinfo2 info = mallinfo2();
    return info.uordblks + info.hblkhd;
}

/* Reads and writes of the first words, a third of them under each lock. */
static void use(int words, int rounds)
{
    for (int round = 0; round < rounds; round++)
        for (int part = 0; part < 3; part++) {
            CHECK(eraser_locked(detector, &locks[part], true) == ERASER_QUIET);
            for (int at = PART * part; at < words && at < PART * (part + 1); at++) {
                uint32_t status = (at + round) % 2 ? eraser_write(detector, &data[at], 4) : eraser_read(detector, &data[at], 4);
                CHECK(status == ERASER_QUIET);
            }
            CHECK(eraser_unlocking(detector, &locks[part]) == ERASER_QUIET);
        }
}

static void *use_all(void *unused)
{
    use(WORDS, 2);
    return unused;
}

int main(int count, char **given)
{
    int rounds = count > 1 ? atoi(given[1]) : ROUNDS;
    CHECK((detector = eraser_start(NULL)) != NULL);
    size_t before = taken();
    use(WORDS, 1);
    run_thread(use_all, NULL);
    use(WORDS, 1);
    size_t first = taken() - before;
    /* No fewer than the words' states take, so malloc counts what there is. */
    CHECK(first >= (size_t)4 * WORDS && first <= (size_t)5 * WORDS);
    use(WORDS, rounds);
    run_thread(use_all, NULL);
    CHECK(taken() - before == first);
    use(SOME, 1000);
    CHECK(taken() - before == first);
    if (count > 1)
        printf("%zu bytes for %d words after 4 rounds, and as many after %d more\n", first, WORDS, rounds);
    eraser_stop(detector);
    printf("fine\n");
    return 0;
}
