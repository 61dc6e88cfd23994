/* Memory that is given back when nobody uses it any more: by who joined its users, took the lock that protects it, got it through a queue, a semaphore
 * or a barrier, or ended as a thread or a program. */
#define _GNU_SOURCE
#include "../meet.h"

#include <semaphore.h>
#include <string.h>
#include <sys/mman.h>

#define THREADS 4
#define ROUNDS 8
#define PAGE 4096

static void check(int is_right)
{
    if (!is_right)
        exit(99);
}

static int *take(int words)
{
    int *block = calloc((size_t)words, sizeof *block);
    check(block != NULL);
    for (int i = 0; i < words; i++)
        block[i] = i;
    return block;
}

/* ---- A table that a lock protects, that grows, and of which each entry is replaced ---- */

static pthread_mutex_t table_lock = PTHREAD_MUTEX_INITIALIZER;
static int **table, table_words;

static void replace(int number)
{
    pthread_mutex_lock(&table_lock);
    if (table_words <= number + ROUNDS) {
        table = realloc(table, (size_t)(table_words + 8) * sizeof *table);
        check(table != NULL);
        memset(table + table_words, 0, 8 * sizeof *table);
        table_words += 8;
    }
    int at = number % table_words;
    free(table[at]);
    table[at] = take(10 + number);
    pthread_mutex_unlock(&table_lock);
}

static void free_table(void)
{
    for (int i = 0; i < table_words; i++)
        free(table[i]);
    free(table);
}

/* ---- Blocks that others read, and one writer takes away ---- */

static pthread_rwlock_t shared_lock = PTHREAD_RWLOCK_INITIALIZER;
static int *shared, *mapped;

static void look_or_change(int number)
{
    if (number == 0) {
        pthread_rwlock_wrlock(&shared_lock);
        free(shared);
        shared = take(30);
        if (mapped)
            munmap(mapped, PAGE);
        mapped = mmap(NULL, PAGE, PROT_READ | PROT_WRITE, MAP_PRIVATE | MAP_ANONYMOUS, -1, 0);
        check(mapped != MAP_FAILED);
        mapped[3] = 1;
        pthread_rwlock_unlock(&shared_lock);
    } else {
        pthread_rwlock_rdlock(&shared_lock);
        check(!shared || shared[7] == 7);
        check(!mapped || mapped[3] == 1);
        pthread_rwlock_unlock(&shared_lock);
    }
}

/* ---- A queue: who takes a block out frees it ---- */

static struct item { struct item *next; int words[20]; } *head;
static pthread_mutex_t queue_lock = PTHREAD_MUTEX_INITIALIZER;
static pthread_cond_t filled = PTHREAD_COND_INITIALIZER;

static void put(int number)
{
    struct item *item = calloc(1, sizeof *item);
    check(item != NULL);
    item->words[3] = number;
    pthread_mutex_lock(&queue_lock);
    item->next = head;
    head = item;
    pthread_cond_signal(&filled);
    pthread_mutex_unlock(&queue_lock);
}

static void get(void)
{
    pthread_mutex_lock(&queue_lock);
    while (!head)
        pthread_cond_wait(&filled, &queue_lock);
    struct item *item = head;
    head = item->next;
    pthread_mutex_unlock(&queue_lock);
    item->words[4] = item->words[3];
    free(item);
}

/* ---- A pool of blocks under a lock, and parts of a block that an atomic counter gives out ---- */

static struct item *spare;
static pthread_spinlock_t pool_lock;
static char *arena;
static size_t arena_used;

static void use_pool(int number)
{
    pthread_spin_lock(&pool_lock);
    struct item *item = spare;
    if (item)
        spare = item->next;
    pthread_spin_unlock(&pool_lock);
    if (!item)
        item = malloc(sizeof *item);
    check(item != NULL);
    item->words[number] = number;
    pthread_spin_lock(&pool_lock);
    item->next = spare;
    spare = item;
    pthread_spin_unlock(&pool_lock);
}

static void use_arena(int number)
{
    int *part = (int *)(arena + __atomic_fetch_add(&arena_used, 64, __ATOMIC_RELAXED));
    part[number] = number;
}

static void free_pool(void)
{
    while (spare) {
        struct item *item = spare;
        spare = item->next;
        free(item);
    }
    free(arena);
}

/* ---- From hand to hand ---- */

static sem_t given;
static int *in_hand, *parts[THREADS];

static void give(int number)
{
    if (number == 0) {
        in_hand = take(40);
        sem_post(&given);
    } else if (number == 1) {
        sem_wait(&given);
        in_hand[4]++;
        free(in_hand);
    }
    /* Each makes a part, and after the meeting another one frees it. */
    parts[number] = take(15);
    meet();
    int other = (number + 1) % THREADS;
    parts[other][2]++;
    free(parts[other]);
}

/* ---- What a thread's end gives back, and who waits for it ---- */

static pthread_key_t key;
static __thread int own[30];

static void *make_block(void *size)
{
    int *block = take((int)(size_t)size);
    pthread_setspecific(key, take(25));
    own[3] = block[2];
    return block;
}

static void join_makers(void)
{
    for (size_t i = 10; i < 10 + ROUNDS; i++) {
        pthread_t thread;
        void *block;
        check(pthread_create(&thread, NULL, make_block, (void *)i) == 0);
        pthread_join(thread, &block);
        ((int *)block)[1]++;
        free(block);
    }
}

static void run(int number)
{
    for (int i = 0; i < ROUNDS; i++) {
        replace(number + i);
        look_or_change(number);
        use_pool(number);
        use_arena(number);
        if (number % 2)
            put(number);
        else
            get();
    }
    give(number);
}

/* ---- The program's end ---- */

static void end(void)
{
    free_table();
    free_pool();
    free(shared);
    munmap(mapped, PAGE);
}

int main(void)
{
    atexit(end);
    sem_init(&given, 0, 0);
    pthread_spin_init(&pool_lock, PTHREAD_PROCESS_PRIVATE);
    pthread_key_create(&key, free);
    arena = calloc(THREADS * ROUNDS, 64);
    check(arena != NULL);
    run_threads(THREADS, run);
    join_makers();
    sem_destroy(&given);
    exit(0);
}
