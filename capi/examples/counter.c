/* Two threads count. `guarded` is counted under a lock, `bare` isn't. The second thread starts when the first one has ended, so nothing goes wrong in this
 * run, and the missing lock is found all the same. */
#include <eraser_detector.h>
#include <pthread.h>
#include <stdio.h>

static eraser_detector *detector;
static pthread_mutex_t mutex = PTHREAD_MUTEX_INITIALIZER;
static int guarded, bare;

static void tell(void *context, const struct eraser_race *race)
{
    (void)context;
    printf("race on %s: thread %u %s it after thread %u did, holding %zu locks\n", race->word == &bare ? "bare" : "guarded", race->thread,
        race->writes ? "writes" : "reads", race->other, race->lock_count);
}

static void *count(void *unused)
{
    (void)unused;
    pthread_mutex_lock(&mutex);
    eraser_locked(detector, &mutex, true);
    eraser_write(detector, &guarded, sizeof guarded);
    guarded++;
    eraser_unlocking(detector, &mutex);
    pthread_mutex_unlock(&mutex);

    eraser_write(detector, &bare, sizeof bare);
    bare++;
    return NULL;
}

int main(void)
{
    detector = eraser_start(&(struct eraser_options){.on_race = tell});
    if (!detector)
        return 1;
    for (int number = 0; number < 2; number++) {
        pthread_t thread;
        if (pthread_create(&thread, NULL, count, NULL) != 0)
            return 1;
        pthread_join(thread, NULL);
    }
    eraser_stop(detector);
    return 0;
}
