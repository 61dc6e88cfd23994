/* Spin locks. */
#include "meet.h"

static pthread_spinlock_t lock;
static int guarded, bare;

static void work(int number)
{
    (void)number;
    meet();
    for (int i = 0; i < 20; i++) {
        pthread_spin_lock(&lock);
        guarded++;
        pthread_spin_unlock(&lock);
        if (pthread_spin_trylock(&lock) == 0) {
            guarded++;
            pthread_spin_unlock(&lock);
        }
    }
    bare++; /* RACE */
}

int main(void)
{
    pthread_spin_init(&lock, PTHREAD_PROCESS_PRIVATE);
    run_threads(2, work);
    pthread_spin_destroy(&lock);
    return 0;
}
