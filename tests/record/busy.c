/* A program that makes many events: four threads, each with memory of its own, and a lock now and then. Its first argument says how many
 * rounds; with a second and a third one it makes files of those names when its threads have begun and when they are done. */
#include "meet.h"

static long rounds, total;
static pthread_mutex_t lock = PTHREAD_MUTEX_INITIALIZER;

static const char *begun, *done;

static void make_file(const char *name)
{
    if (name)
        fclose(fopen(name, "w"));
}

static void work(int number)
{
    int *mine = calloc(64, sizeof *mine);
    meet();
    if (number == 0)
        make_file(begun);
    for (long i = 0; i < rounds; i++) {
        mine[i % 64] += number;
        if (i % 16 == 0) {
            pthread_mutex_lock(&lock);
            total++;
            pthread_mutex_unlock(&lock);
        }
    }
    free(mine);
}

int main(int count, char **words)
{
    rounds = count > 1 ? atol(words[1]) : 1000;
    begun = count > 2 ? words[2] : NULL;
    done = count > 3 ? words[3] : NULL;
    run_threads(4, work);
    puts("done");
    make_file(done);
    return 0;
}
