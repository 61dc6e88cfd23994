/* A few calls of three threads at an audited detector. Prints what they come to, and how many steps they are. tests/capi_tests.py plants mistakes in the
 * layer. */
#include "checks.h"

static _Alignas(4096) char memory[5 * 4096];
static int lock;
static eraser_detector *detector;

static void *work(void *given)
{
    size_t page = (uintptr_t)given;
    CHECK(eraser_locked(detector, &lock, true) == ERASER_QUIET);
    CHECK(eraser_write(detector, memory, 4) == ERASER_QUIET);
    CHECK(eraser_unlocking(detector, &lock) == ERASER_QUIET);
    CHECK(eraser_write(detector, memory + 4096 * page - 4, 8) == ERASER_QUIET);
    CHECK(eraser_freeing(detector, memory + 4096 * page, 8) == ERASER_QUIET);
    return NULL;
}

/* One of the mistakes calls this in the middle of an access. In that of the first thread another one makes all its calls. */
void between(uint32_t thread);
void between(uint32_t thread)
{
    static bool has_met;
    if (thread != 1 || has_met)
        return;
    has_met = true;
    run_thread(work, (void *)(uintptr_t)1);
}

int main(void)
{
    uint64_t steps = 0;
    struct eraser_options options = {.shards = 4, .audit = true};
    detector = eraser_start(&options);
    CHECK(detector && eraser_self(detector) == 1);
    CHECK(eraser_locked(detector, &lock, true) == ERASER_QUIET);
    CHECK(eraser_write(detector, memory, 4) == ERASER_QUIET);
    CHECK(eraser_unlocking(detector, &lock) == ERASER_QUIET);
    CHECK(eraser_freeing(detector, memory, 4) == ERASER_QUIET);
    run_thread(work, (void *)(uintptr_t)2);
    run_thread(work, (void *)(uintptr_t)3);
    uint32_t status = eraser_settle(detector, &steps);
    printf("%s %d\n", eraser_text(status), (int)steps);
    eraser_stop(detector);
    return 0;
}
