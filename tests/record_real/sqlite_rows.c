/* SQLite: four threads with connections of their own to one database in memory, and one connection that all of them use. */
#include <pthread.h>
#include <sqlite3.h>
#include <stdio.h>

#define SHARED "file:rows?mode=memory&cache=shared"
#define FLAGS (SQLITE_OPEN_READWRITE | SQLITE_OPEN_CREATE | SQLITE_OPEN_URI)
#define THREADS 4

static sqlite3 *common;

static void *work(void *given)
{
    int thread = *(int *)given;
    sqlite3 *own;
    char text[200];
    sqlite3_open_v2(SHARED, &own, FLAGS, NULL);
    sqlite3_busy_timeout(own, 2000);
    for (int row = 0; row < 8; row++) {
        snprintf(text, sizeof text, "INSERT INTO t%d VALUES(%d, 'row %d of thread %d')", thread % 2, row * 10 + thread, row, thread);
        sqlite3_exec(own, text, NULL, NULL, NULL);
        sqlite3_exec(own, "SELECT count(*), max(b) FROM t0 WHERE a > 5 GROUP BY a % 3", NULL, NULL, NULL);
        sqlite3_exec(common, "UPDATE c SET a = a + 1", NULL, NULL, NULL);
    }
    sqlite3_close(own);
    return NULL;
}

static int show(void *unused, int count, char **texts, char **names)
{
    (void)unused, (void)count, (void)names;
    return puts(texts[0]) < 0;
}

int main(void)
{
    pthread_t threads[THREADS];
    int numbers[THREADS];
    sqlite3 *first;
    sqlite3_open_v2(SHARED, &first, FLAGS, NULL);
    sqlite3_exec(first, "CREATE TABLE t0(a, b); CREATE TABLE t1(a, b)", NULL, NULL, NULL);
    sqlite3_open(":memory:", &common);
    sqlite3_exec(common, "CREATE TABLE c(a); INSERT INTO c VALUES(0)", NULL, NULL, NULL);
    for (int thread = 0; thread < THREADS; thread++) {
        numbers[thread] = thread;
        pthread_create(&threads[thread], NULL, work, &numbers[thread]);
    }
    for (int thread = 0; thread < THREADS; thread++)
        pthread_join(threads[thread], NULL);
    sqlite3_exec(common, "SELECT a FROM c", show, NULL, NULL);
    sqlite3_close(common);
    sqlite3_close(first);
    return 0;
}
