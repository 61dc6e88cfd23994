/* Threads, condition variables and what is done once, by the names of C11. */
#include "../meet.h"

#include <threads.h>

static mtx_t lock;
static cnd_t changed;
static once_flag flag = ONCE_FLAG_INIT;
static int is_ready, by_once, word, kept;

static void do_once(void) { by_once++; }

static int run_thread(void *nothing)
{
    (void)nothing;
    call_once(&flag, do_once);
    kept += by_once;
    word++;
    mtx_lock(&lock);
    is_ready = 1;
    cnd_signal(&changed);
    mtx_unlock(&lock);
    return 0;
}

int main(void)
{
    thrd_t thread;
    int result;
    mtx_init(&lock, mtx_plain);
    cnd_init(&changed);
    if (thrd_create(&thread, run_thread, NULL) != thrd_success)
        exit(99);
    mtx_lock(&lock);
    while (!is_ready)
        cnd_wait(&changed, &lock);
    mtx_unlock(&lock);
    word++;
    call_once(&flag, do_once);
    word += by_once;
    thrd_join(thread, &result);
    kept++;
    cnd_destroy(&changed);
    mtx_destroy(&lock);
    return result;
}
