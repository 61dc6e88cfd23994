/* Memory that is given back while another thread may still use it: nothing orders that after the accesses with a mark. */
#define _GNU_SOURCE
#include "../meet.h"

#include <stdlib.h>
#include <sys/mman.h>

#define PAGE 4096

static int *block, *looked_at, *grown, *shrunk, *moved, *cut, *mapped, *handed, *guarded, *kept;
static int *of_stack, *of_thread, *of_key;
static pthread_mutex_t lock = PTHREAD_MUTEX_INITIALIZER;
static pthread_key_t key;
static __thread int own[4];

static void use(void)
{
    volatile int found;
    block[1] = 1; /* EARLY */
    found = looked_at[1]; /* EARLY */
    (void)found;
    grown[1] = 1; /* EARLY */
    shrunk[900] = 1; /* EARLY */
    mapped[1] = 1; /* EARLY */
    pthread_mutex_lock(&lock);
    handed[1] = 1;
    guarded[1] = 1; /* EARLY */
    kept[1] = 1;
    pthread_mutex_unlock(&lock);
    next_turn();
}

/* The lock protects all three. One of them is freed outside it, and one behind it. */
static void give_back(void)
{
    take_turn(1);
    free(block);
    free(looked_at);
    moved = realloc(grown, 100000);
    cut = realloc(shrunk, 100);
    munmap(mapped, PAGE);
    free(guarded);
    pthread_mutex_lock(&lock);
    free(kept);
    pthread_mutex_unlock(&lock);
    free(handed);
}

/* It ends while its stack, its thread-local memory and what its key has are used. */
static void *lend(void *nothing)
{
    int local[4];
    __atomic_store_n(&of_stack, local, __ATOMIC_RELAXED);
    __atomic_store_n(&of_thread, own, __ATOMIC_RELAXED);
    __atomic_store_n(&of_key, calloc(4, sizeof(int)), __ATOMIC_RELAXED);
    pthread_setspecific(key, __atomic_load_n(&of_key, __ATOMIC_RELAXED));
    next_turn();
    take_turn(3);
    return nothing;
}

static void borrow(void)
{
    take_turn(2);
    __atomic_load_n(&of_stack, __ATOMIC_RELAXED)[1] = 1; /* EARLY */
    __atomic_load_n(&of_thread, __ATOMIC_RELAXED)[1] = 1; /* EARLY */
    __atomic_load_n(&of_key, __ATOMIC_RELAXED)[1] = 1; /* EARLY */
    next_turn();
}

static void run(int number)
{
    if (number == 0)
        use();
    else
        give_back();
}

int main(void)
{
    pthread_t lender;
    block = malloc(64);
    looked_at = calloc(16, sizeof *looked_at);
    grown = malloc(64);
    shrunk = malloc(4000);
    handed = malloc(64);
    guarded = malloc(64);
    kept = malloc(64);
    mapped = mmap(NULL, PAGE, PROT_READ | PROT_WRITE, MAP_PRIVATE | MAP_ANONYMOUS, -1, 0);
    if (mapped == MAP_FAILED || pthread_key_create(&key, free) != 0)
        exit(99);
    run_threads(2, run);
    if (pthread_create(&lender, NULL, lend, NULL) != 0)
        exit(99);
    borrow();
    pthread_join(lender, NULL);
    free(moved);
    free(cut);
    return 0;
}
