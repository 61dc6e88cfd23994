/* Rounds of what a program does for days: threads that end, blocks and locks that come and go, mappings, names, signals that are handled. */
#define _GNU_SOURCE
#include "../meet.h"

#include <signal.h>
#include <string.h>
#include <sys/mman.h>

struct box {
    pthread_mutex_t lock;
    int value;
};

static int bare, handled;

static void handle(int number)
{
    (void)number;
    __atomic_fetch_add(&handled, 1, __ATOMIC_RELAXED);
}

static void *work(void *given)
{
    struct box *box = given;
    pthread_setname_np(pthread_self(), "worker");
    for (int i = 0; i < 20; i++) {
        pthread_mutex_lock(&box->lock);
        box->value++;
        pthread_mutex_unlock(&box->lock);
    }
    char *block = malloc(1000);
    memset(block, 1, 1000);
    block = realloc(block, 8000);
    free(block);
    raise(SIGUSR1);
    bare++; /* RACE */
    return NULL;
}

static void round_of_all(void)
{
    pthread_t threads[4];
    struct box *box = malloc(sizeof *box);
    pthread_mutex_init(&box->lock, NULL);
    box->value = 0;
    for (int i = 0; i < 4; i++)
        if (pthread_create(&threads[i], NULL, work, box) != 0)
            exit(99);
    for (int i = 0; i < 4; i++)
        pthread_join(threads[i], NULL);
    pthread_mutex_destroy(&box->lock);
    free(box);
    int *pages = mmap(NULL, 1 << 20, PROT_READ | PROT_WRITE, MAP_PRIVATE | MAP_ANONYMOUS, -1, 0);
    for (int at = 0; at < 1 << 18; at += 512)
        pages[at] = at;
    munmap(pages, 1 << 20);
}

int main(int count, char **words)
{
    signal(SIGUSR1, handle);
    for (int left = count == 2 ? atoi(words[1]) : 1; left > 0; left--)
        round_of_all();
    printf("%d\n", handled);
    return 0;
}
