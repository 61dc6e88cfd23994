/* Random recordings, for the writer's thin.c, which this is linked with: any SEED EVENTS. Each line of the trace has a + before it if it is kept, and a - if
 * it is left out. Three threads, some words near each other and others with the same entry, accesses of up to 20 bytes anywhere. Ends with a status other
 * than 0 if something that is left out is no repeat by a reading that knows each byte. */
#include "../../../record/writer/thin.h"

#include <stdio.h>
#include <stdlib.h>
#include <string.h>

enum { THREADS = 3, PLACES = 3, ROOM = 64 };
/* The entry of a unit is that of the unit ENTRIES behind it. */
#define FIRST UINT64_C(0x7f0000001000)
#define APART (UINT64_C(8) << 33)

/* What is known of a byte. */
static struct { int thread; bool read, written; uint64_t stretch; } bytes[PLACES][ROOM];
static struct thread threads[THREADS];
static uint64_t stretches, seed;
static int last_user[PLACES][ROOM / 8], holders[2] = {-1, -1};

static unsigned any(unsigned limit)
{
    seed = seed * UINT64_C(6364136223846793005) + 1442695040888963407;
    return (unsigned)(seed >> 33) % limit;
}

static uint64_t address_of(unsigned place, unsigned at)
{
    return FIRST + place * APART + at;
}

static void end_stretch(int thread)
{
    threads[thread].stretch = ++stretches;
}

/* Whether it is a repeat of bytes of this thread, and what is known then. */
static bool is_repeat(int thread, bool is_write, unsigned place, unsigned at, unsigned size)
{
    bool is = true;
    for (unsigned unit = at / 8; unit <= (at + size - 1) / 8; unit++) {
        bool is_new = last_user[place][unit] != thread;
        last_user[place][unit] = thread;
        for (unsigned byte = 8 * unit; is_new && byte < 8 * unit + 8; byte++)
            bytes[place][byte].stretch = 0;
    }
    for (unsigned byte = at; byte < at + size; byte++) {
        if (bytes[place][byte].stretch != threads[thread].stretch) {
            bytes[place][byte].read = bytes[place][byte].written = false;
            bytes[place][byte].stretch = threads[thread].stretch;
        }
        is = is && (bytes[place][byte].written || (bytes[place][byte].read && !is_write));
        *(is_write ? &bytes[place][byte].written : &bytes[place][byte].read) = true;
    }
    return is;
}

static void forget(unsigned place, unsigned at, unsigned size)
{
    thin_forget(address_of(place, at), size);
    for (unsigned byte = at; byte < at + size; byte++)
        bytes[place][byte].stretch = 0;
}

/* A lock that nobody has is taken, and the thread's own is given back. */
static void change_lock(int thread, unsigned lock)
{
    if (holders[lock] >= 0 && holders[lock] != thread)
        return;
    end_stretch(thread);
    printf("+t%d %s l%u\n", thread + 1, holders[lock] < 0 ? "lock" : "unlock", lock);
    holders[lock] = holders[lock] < 0 ? thread : -1;
}

static int access(int thread)
{
    bool is_write = any(2);
    unsigned place = any(8) ? 0 : any(PLACES), at = any(any(4) ? 12 : ROOM - 20), size = any(3) ? 1u << any(4) : 1 + any(20);
    bool is_left_out = thin_is_repeat(&threads[thread], is_write, address_of(place, at), size);
    if (is_left_out > is_repeat(thread, is_write, place, at, size))
        return fprintf(stderr, "no repeat: t%d %s %u %u of %u\n", thread + 1, is_write ? "write" : "read", place, at, size), 1;
    for (unsigned word = at / 4; word <= (at + size - 1) / 4; word++)
        printf("%ct%d %s 0x%llx\n", is_left_out ? '-' : '+', thread + 1, is_write ? "write" : "read", (unsigned long long)address_of(place, 4 * word));
    return 0;
}

/* What is at the end of memory, and many bytes at a time. */
static int edges(void)
{
    static const struct { uint64_t address, bytes; } beyond[] = {
        {UINT64_MAX - 3, 8}, {UINT64_MAX - 7, 8}, {ADDRESS_END - 4, 8}, {ADDRESS_END, 8}, {FIRST, 0}, {FIRST + (UINT64_C(1) << 51), 8}};
    struct thread *thread = &threads[0];
    end_stretch(0);
    for (unsigned nth = 0; nth < 2 * sizeof beyond / sizeof *beyond; nth++)
        if (thin_is_repeat(thread, true, beyond[nth / 2].address, beyond[nth / 2].bytes))
            return fprintf(stderr, "a repeat of what is no memory: %u\n", nth), 1;
    if (thin_is_repeat(thread, true, FIRST, 8) || !thin_is_repeat(thread, true, FIRST, 8))
        return fprintf(stderr, "known by what is no memory\n"), 1;
    if (thin_is_repeat(thread, true, FIRST, UINT64_C(1) << 32) || thin_is_repeat(thread, true, FIRST, UINT64_C(1) << 32))
        return fprintf(stderr, "a repeat of more than can be known\n"), 1;
    thin_is_repeat(thread, true, FIRST + 800, 8);
    /* A second or more for each, if it went by units. */
    for (unsigned nth = 0; nth < 100; nth++)
        thin_forget(FIRST, UINT64_C(1) << 40);
    thin_forget(0, 0);
    return thin_is_repeat(thread, true, FIRST + 800, 8) ? fprintf(stderr, "known after a new use\n"), 1 : 0;
}

int main(int count, char **given)
{
    int thread = 0;
    if (count != 3)
        return 2;
    thin_is_on = true;
    seed = strtoull(given[1], NULL, 10);
    for (int each = 0; each < THREADS; each++)
        end_stretch(each);
    memset(last_user, -1, sizeof last_user);
    printf("+t1 start t2\n+t1 start t3\n");
    for (int left = atoi(given[2]); left; left--) {
        thread = any(3) ? thread : (int)any(THREADS);
        unsigned what = any(40), place = any(PLACES), at = any(ROOM), size = 1 + any(ROOM - at);
        if (what > 6) {
            if (access(thread))
                return 1;
        } else if (what > 2) {
            change_lock(thread, any(2));
        } else if (what == 0) {
            /* Another thread may do it, and the one that has accessed it goes on. */
            int by = (int)any(THREADS);
            end_stretch(by);
            forget(place, at, size);
            printf("+t%d reuse 0x%llx %u\n", by + 1, (unsigned long long)address_of(place, at), size);
        } else {
            end_stretch(thread);
            printf("+t%d %s s%u\n", thread + 1, what == 1 ? "signal" : "await", any(2));
        }
    }
    return edges();
}
