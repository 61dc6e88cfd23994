/* libuv: jobs in its pool of threads, calls of files, a timer, and threads that wake the loop. */
#include <stdio.h>
#include <stdlib.h>
#include <uv.h>

#define JOBS 300

static uv_async_t woken;
static uv_timer_t timer;
static uv_mutex_t lock;
static uv_rwlock_t shared_lock;
static long sum;
static int wakes, ended;

struct job {
    uv_work_t request;
    int number;
    char *text;
};

static void work(uv_work_t *request)
{
    struct job *job = request->data;
    job->text = malloc(64);
    snprintf(job->text, 64, "job %d", job->number);
    uv_rwlock_rdlock(&shared_lock);
    uv_rwlock_rdunlock(&shared_lock);
    uv_mutex_lock(&lock);
    sum += job->number;
    uv_mutex_unlock(&lock);
    uv_async_send(&woken);
}

static void after_work(uv_work_t *request, int status)
{
    struct job *job = request->data;
    (void)status;
    free(job->text);
    free(job);
    if (++ended == JOBS) {
        uv_close((uv_handle_t *)&woken, NULL);
        uv_close((uv_handle_t *)&timer, NULL);
    }
}

static void count_wake(uv_async_t *handle)
{
    (void)handle;
    wakes++;
}

static void on_file(uv_fs_t *request)
{
    uv_fs_req_cleanup(request);
    free(request);
}

static void on_time(uv_timer_t *handle)
{
    (void)handle;
}

int main(void)
{
    uv_loop_t *loop = uv_default_loop();
    uv_mutex_init(&lock);
    uv_rwlock_init(&shared_lock);
    uv_async_init(loop, &woken, count_wake);
    uv_timer_init(loop, &timer);
    uv_timer_start(&timer, on_time, 1, 1);
    for (int number = 0; number < JOBS; number++) {
        struct job *job = malloc(sizeof *job);
        job->number = number;
        job->request.data = job;
        uv_queue_work(loop, &job->request, work, after_work);
    }
    for (int number = 0; number < 50; number++)
        uv_fs_stat(loop, malloc(sizeof(uv_fs_t)), "/etc/passwd", on_file);
    uv_run(loop, UV_RUN_DEFAULT);
    printf("%d %d %ld\n", ended, wakes > 0, sum);
    return 0;
}
