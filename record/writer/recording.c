#define _GNU_SOURCE
#include "recording.h"

#include <errno.h>
#include <fcntl.h>
#include <signal.h>
#include <stdio.h>
#include <string.h>
#include <sys/mman.h>
#include <sys/wait.h>
#include <time.h>
#include <unistd.h>

#include "drain.h"
#include "further.h"
#include "options.h"
#include "output.h"
#include "replay.h"
#include "thin.h"
#include "trace.h"

struct recording recording;

/* A file that somebody has mapped can't be sealed. */
static int make_presence(void)
{
    int file = memfd_create(PRESENCE_FILE_NAME, MFD_CLOEXEC | MFD_ALLOW_SEALING);
    if (file < 0 || ftruncate(file, PRESENCE_BYTES) != 0)
        fail("cannot make a file in memory", NULL);
    return file;
}

bool recording_has_programs(void)
{
    return fcntl(recording.presence, F_ADD_SEALS, F_SEAL_WRITE) != 0 && errno == EBUSY;
}

void recording_shake(unsigned run)
{
    recording.ring->shakes = options.shakes;
    recording.ring->seed = options.seed + run - 1;
}

void recording_begin_run(unsigned run)
{
    if (run > 1)
        close(recording.presence);
    recording.presence = make_presence();
    recording.ring->presence = (uint32_t)recording.presence;
    recording.command_status = 0;
    recording.has_command_ended = false;
    recording_shake(run);
    further_begin_run(run);
}

void recording_make_ring(unsigned number)
{
    char name[64];
    snprintf(name, sizeof name, RING_FILE_NAME "-%u", number);
    recording.number = number;
    recording.file = memfd_create(name, MFD_CLOEXEC);
    if (recording.file < 0 || ftruncate(recording.file, sizeof *recording.ring) != 0)
        fail("cannot make the ring", NULL);
    recording.ring = mmap(NULL, sizeof *recording.ring, PROT_READ | PROT_WRITE, MAP_SHARED, recording.file, 0);
    if (recording.ring == MAP_FAILED)
        fail("cannot map the ring", NULL);
    recording.ring->writer = (uint32_t)getpid();
    recording.ring->orders = options.orders;
    recording.ring->flows = options.has_flow;
    recording.ring->thins = thin_is_on;
    recording.ring->stops = options.stops_at_race;
    recording.ring->head = recording.ring->tail = FIRST_TICKET;
    recording.ring->magic = RING_MAGIC;
}

/* Whoever has ended is there until that is noted, so that no signal goes to another one in its place. */
static void reap(void)
{
    for (siginfo_t ended = {0}; waitid(P_ALL, 0, &ended, WEXITED | WNOHANG | WNOWAIT) == 0 && ended.si_pid > 0; ended = (siginfo_t){0}) {
        int status = 0;
        if (ended.si_pid == recording.command)
            recording.has_command_ended = true;
        else if (ended.si_pid == replay.process)
            replay.has_ended = true;
        waitpid(ended.si_pid, &status, 0);
        if (ended.si_pid == recording.command)
            recording.command_status = status;
        else if (ended.si_pid == replay.process)
            replay.status = status;
    }
}

bool recording_has_owner(void)
{
    uint32_t owner = atomic_load(&recording.ring->owner);
    char path[64], name[64], line[512];
    bool is_mapped = false;
    if (!owner || (owner == (uint32_t)recording.command && recording.has_command_ended))
        return false;
    snprintf(name, sizeof name, "/memfd:" RING_FILE_NAME "-%u ", recording.number);
    snprintf(path, sizeof path, "/proc/%u/maps", owner);
    FILE *maps = fopen(path, "r");
    while (maps && !is_mapped && fgets(line, sizeof line, maps))
        is_mapped = strstr(line, name) != NULL;
    if (maps)
        fclose(maps);
    return is_mapped;
}

void sleep_for(long nanoseconds)
{
    struct timespec pause = {0, nanoseconds};
    nanosleep(&pause, NULL);
}

static double seconds_now(void)
{
    struct timespec now;
    clock_gettime(CLOCK_MONOTONIC, &now);
    return (double)now.tv_sec + (double)now.tv_nsec / 1e9;
}

/* The ring waits for an event that was begun and not ended. Its thread will end it, unless it is gone. After this many seconds it is given
 * up, and sooner if a thread said that it left an event somewhere here. */
#define PATIENCE 5.0
#define PATIENCE_IF_ABANDONED 0.02

static void wait_for_event(double *since)
{
    double now = seconds_now();
    if (!*since)
        *since = now;
    double waited = now - *since;
    bool is_abandoned = atomic_load(&recording.ring->head) < atomic_load(&recording.ring->abandoned) && waited > PATIENCE_IF_ABANDONED;
    bool is_gone = waited > 0.2 && !recording_has_owner(); /* then the step that it was to record was never made */
    if (!is_abandoned && !is_gone && waited < PATIENCE)
        return;
    drain_skip(recording.ring);
    *since = is_gone ? *since : 0;
    if (!is_abandoned && !is_gone)
        trace_lost++; /* an abandoned event was counted by its thread */
}

/* Nobody takes the text any more, or nobody waits for the program: it goes on without being recorded. */
static void check_outputs(void)
{
    if ((!options.is_online && !output_is_open()) || recording.is_to_end)
        atomic_store(&recording.ring->stop, 1);
}

void recording_run(void)
{
    long pause = 100000;
    double behind_since = 0;
    for (;;) {
        if (drain(recording.ring)) {
            pause = 100000;
            behind_since = 0;
            check_outputs();
            /* A program that outlives the command may have so many events that the ring is never empty. */
            reap();
            continue;
        }
        output_flush();
        check_outputs();
        bool had_ended = recording.has_command_ended;
        reap();
        if (drain_is_behind(recording.ring))
            wait_for_event(&behind_since);
        else {
            behind_since = 0;
            if (had_ended && (recording.is_to_end || !recording_has_owner()) && !drain_is_behind(recording.ring))
                return;
        }
        sleep_for(pause);
        pause = pause < 5000000 ? 2 * pause : pause;
    }
}

uint64_t recording_lost(void)
{
    uint64_t lost = trace_lost;
    for (unsigned i = 0; i < LOST_COUNTERS; i++)
        lost += atomic_load(&recording.ring->lost[i].count);
    return lost;
}
