#define _GNU_SOURCE
#include "further.h"

#include <errno.h>
#include <fcntl.h>
#include <limits.h>
#include <linux/futex.h>
#include <signal.h>
#include <stdio.h>
#include <stdlib.h>
#include <string.h>
#include <sys/mman.h>
#include <sys/prctl.h>
#include <sys/stat.h>
#include <sys/syscall.h>
#include <sys/wait.h>
#include <time.h>
#include <unistd.h>

#include "drain.h"
#include "kept.h"
#include "merge.h"
#include "online.h"
#include "options.h"
#include "output.h"
#include "recording.h"
#include "replay.h"
#include "signals.h"
#include "stacks.h"
#include "thin.h"
#include "trace.h"

/* More programs than this find no ring. */
#define MOST_PROGRAMS 65536

/* What the recorder's processes share. */
struct shared {
    _Atomic uint32_t count;     /* programs that found a ring, with the first */
    _Atomic uint32_t is_ending; /* the command and the first program have ended */
    _Atomic uint32_t has_folder;
    _Atomic uint32_t run;       /* of the command, from 1 on */
    struct outcome outcomes[MOST_PROGRAMS];
};
static struct shared *shared;
static pid_t server;
/* In the server: how many writers it has, and their processes. */
static pid_t *writers;
static unsigned writer_count, writer_room;

/* ---- Files of several programs ---- */

const char *further_report_folder(void)
{
    return options.has_report_folder ? options.report : options.has_trace_folder ? options.trace : "eraser.out";
}

const char *further_trace_folder(void)
{
    return options.has_trace_folder ? options.trace : NULL;
}

static char *path_in(const char *folder, const char *name, const char *ending)
{
    char *path;
    size_t length = strlen(folder);
    if (asprintf(&path, "%s%s%s%s", folder, length && folder[length - 1] == '/' ? "" : "/", name, ending) < 0)
        fail("cannot name a file", NULL);
    return path;
}

static const char *ending_of_reports(void)
{
    static char ending[16];
    const char *format = options.format ? options.format : "text";
    snprintf(ending, sizeof ending, ".%s", strcmp(format, "text") == 0 ? "txt" : format);
    return ending;
}

void further_name(struct outcome *outcome, unsigned number, const char *program)
{
    snprintf(outcome->name, sizeof outcome->name, "%02u-%.48s", number, *program ? program : "program");
    for (char *c = outcome->name; *c; c++)
        if (!strchr("abcdefghijklmnopqrstuvwxyzABCDEFGHIJKLMNOPQRSTUVWXYZ0123456789._+-", *c))
            *c = '_';
}

char *further_report(const struct outcome *outcome)
{
    return path_in(further_report_folder(), outcome->name, ending_of_reports());
}

char *further_trace(const struct outcome *outcome)
{
    return path_in(further_trace_folder(), outcome->name, ".trace");
}

/* ---- Folders, with a list of what a run left there ---- */

/* Takes away the files that the list of an earlier run names. */
static void clear_folder(const char *folder)
{
    char line[512], *list = path_in(folder, "list.txt", "");
    FILE *text = fopen(list, "r");
    while (text && fgets(line, sizeof line, text)) {
        char *end = strchr(line, ':');
        if (!end || strchr(line, '/') || line[0] == '.' || end == line)
            continue;
        *end = 0;
        char *path = path_in(folder, line, "");
        unlink(path);
        free(path);
    }
    if (text) {
        fclose(text);
        unlink(list);
    }
    free(list);
}

static bool make_folder(const char *folder)
{
    struct stat found;
    if (mkdir(folder, 0777) != 0 && (errno != EEXIST || stat(folder, &found) != 0 || (!S_ISDIR(found.st_mode) && (errno = ENOTDIR))))
        return false;
    if (access(folder, W_OK) != 0)
        return false;
    clear_folder(folder);
    return true;
}

bool further_make_report_folder(void)
{
    if (atomic_load(&shared->has_folder))
        return true;
    if (!make_folder(further_report_folder()))
        return false;
    atomic_store(&shared->has_folder, 1);
    return true;
}

void further_open_folders(void)
{
    shared = mmap(NULL, sizeof *shared, PROT_READ | PROT_WRITE, MAP_SHARED | MAP_ANONYMOUS | MAP_NORESERVE, -1, 0);
    if (shared == MAP_FAILED)
        fail("cannot map memory", NULL);
    atomic_store(&shared->count, 1);
    if (options.has_trace_folder && !make_folder(options.trace))
        fail("cannot write", options.trace);
    /* Traces and reports may go to one folder, which is cleared once. */
    if (options.has_trace_folder && !options.has_report_folder)
        atomic_store(&shared->has_folder, 1);
    if (options.has_report_folder && !further_make_report_folder())
        fail("cannot write", options.report);
}

static void describe(const struct outcome *outcome, char *text, size_t room)
{
    int used = snprintf(text, room, "%llu events, %llu lost: ", (unsigned long long)outcome->events, (unsigned long long)outcome->lost);
    text += used;
    room -= (size_t)used;
    if (outcome->error)
        snprintf(text, room, "cannot be written: %s", strerror(outcome->error));
    else if (outcome->replay_status < 0)
        snprintf(text, room, "not replayed");
    else if (outcome->replay_status > 1)
        snprintf(text, room, "the replay ended with status %d", outcome->replay_status);
    else
        snprintf(text, room, "%s", outcome->replay_status ? "races" : "no race");
}

/* Every outcome that has files, by rising number. */
static void for_each_file(void (*take)(const char *path, const char *says, void *to), char *(*path_of)(const struct outcome *), void *to)
{
    for (unsigned number = 1; number <= further_count(); number++) {
        const struct outcome *outcome = further_outcome(number);
        char says[256];
        if (!outcome->name[0])
            continue;
        char *path = path_of(outcome);
        describe(outcome, says, sizeof says);
        take(path, says, to);
        free(path);
    }
}

static void note_file(const char *path, const char *says, void *to)
{
    fprintf(to, "%s: %s\n", strrchr(path, '/') + 1, says);
}

static void tell_file(const char *path, const char *says, void *nothing)
{
    char *line;
    (void)nothing;
    int length = asprintf(&line, "%s: %s\n", path, says);
    if (length < 0)
        return;
    replay_write(line, (size_t)length);
    free(line);
}

static void write_list_in(const char *folder, bool has_reports, bool has_traces)
{
    char *path = path_in(folder, "list.txt", "");
    FILE *list = fopen(path, "w");
    if (list && has_reports)
        for_each_file(note_file, further_report, list);
    if (list && has_traces)
        for_each_file(note_file, further_trace, list);
    if (!list || fclose(list) != 0)
        fprintf(stderr, "record: cannot write %s: %s\n", path, strerror(errno));
    free(path);
}

void further_write_list(bool has_reports)
{
    const char *reports = further_report_folder(), *traces = further_trace_folder();
    bool is_one = traces && strcmp(reports, traces) == 0;
    has_reports &= options.replays;
    if (has_reports && options.runs > 1)
        merge_reports();
    else if (has_reports)
        for_each_file(tell_file, further_report, NULL);
    if (has_reports)
        write_list_in(reports, true, is_one);
    if (traces && !(is_one && has_reports))
        write_list_in(traces, false, true);
}

/* ---- Outcomes ---- */

unsigned further_count(void)
{
    uint32_t count = atomic_load(&shared->count);
    return count < MOST_PROGRAMS ? count : MOST_PROGRAMS;
}

struct outcome *further_outcome(unsigned number)
{
    return &shared->outcomes[number - 1];
}

void further_begin_run(unsigned run)
{
    atomic_store(&shared->run, run);
}

/* ---- One further program ---- */

static volatile sig_atomic_t is_over; /* the program has ended, so that signals are for the replay */

/* While the command runs, its end is waited for. */
static void interrupt(int number)
{
    (void)number;
    if (is_over)
        replay_stop();
    else if (atomic_load(&shared->is_ending))
        recording.is_to_end = 1;
}

static void answer(struct asker *asker, enum asker_state state)
{
    atomic_store(&asker->state, state);
    syscall(SYS_futex, &asker->state, FUTEX_WAKE, INT_MAX, NULL, NULL, 0);
}

static void read_program(uint32_t process, char name[NAME_MAX + 1])
{
    char link[64], path[PATH_MAX];
    snprintf(link, sizeof link, "/proc/%u/exe", process);
    ssize_t length = readlink(link, path, sizeof path - 1);
    path[length < 0 ? 0 : length] = 0;
    const char *base = strrchr(path, '/');
    snprintf(name, NAME_MAX + 1, "%.*s", NAME_MAX, base ? base + 1 : path);
}

/* Gives the ring to the program that asks. False if that has gone. */
static bool give_ring(struct asker *asker)
{
    asker->file = (uint32_t)recording.file;
    answer(asker, ASKER_HAS);
    while (!atomic_load(&recording.ring->owner) && (kill((pid_t)asker->process, 0) == 0 || errno != ESRCH))
        sleep_for(1000000);
    bool is_taken = atomic_load(&recording.ring->owner) != 0;
    answer(asker, ASKER_NONE);
    return is_taken;
}

void further_fill(struct outcome *outcome)
{
    const struct ring *ring = recording.ring;
    outcome->events = trace_events;
    outcome->left_out = thin_left_out;
    for (uint32_t lane = 0; lane < atomic_load(&ring->lanes_used); lane++)
        outcome->left_out += ring->lanes[lane].repeats;
    outcome->lost = recording_lost();
    outcome->forks = atomic_load(&ring->forks);
    outcome->cut = stacks_cut;
    outcome->unseen = ring->unseen & (drain_has_frees || !outcome->events ? ~UNSEEN_FREES : ~0u);
    outcome->error = output.file_error;
    if (options.is_online)
        online_fill(outcome);
}

/* Nothing of it is kept. */
static void drop_outcome(struct outcome *outcome, const char *trace)
{
    if (trace)
        unlink(trace);
    outcome->name[0] = 0;
}

static void record_further(struct asker *asker, unsigned number)
{
    struct outcome *outcome = further_outcome(number);
    char program[NAME_MAX + 1];
    asker->writer = (uint32_t)getpid();
    read_program(asker->process, program);
    further_name(outcome, number, program);
    char *trace = options.has_trace_folder ? further_trace(outcome) : NULL, *report = further_report(outcome);
    bool is_kept = is_kept_meanwhile() || trace;
    outcome->replay_status = -1;
    outcome->run = atomic_load(&shared->run);
    outcome->error = is_kept ? kept_open(trace) : 0;
    if (outcome->error)
        _exit(STATUS_FAILED);
    recording_make_ring(number);
    recording_shake(outcome->run);
    recording.has_command_ended = true;
    signals_set(interrupt, interrupt);
    if (options.replays && !options.shows_places)
        replay_start(-1, NULL);
    trace_begin(program);
    if (give_ring(asker))
        recording_run();
    is_over = true;
    trace_end(recording_lost());
    output_close();
    if (options.replays && options.shows_places && trace_events && !output.file_error)
        kept_replay();
    replay_end();
    further_fill(outcome);
    if (!options.is_online)
        outcome->replay_status = replay.has_ended ? exit_status(replay.status) : -1;
    if (!outcome->events && !outcome->lost)
        drop_outcome(outcome, trace);
    else if (options.replays && !outcome->error)
        outcome->error = replay_save_report(report);
    _exit(0);
}

/* ---- The server ---- */

static void pass_to_writers(int number)
{
    (void)number;
    for (unsigned i = 0; i < writer_count; i++)
        kill(writers[i], SIGTERM);
}

static void die_with(pid_t parent)
{
    prctl(PR_SET_PDEATHSIG, SIGKILL);
    if (getppid() != parent)
        _exit(0);
}

/* A writer that ended before it gave out its ring. */
static void refuse_askers_of(pid_t writer)
{
    for (unsigned i = 0; i < RING_ASKERS; i++) {
        struct asker *asker = &recording.ring->askers[i];
        if (atomic_load(&asker->state) == ASKER_TAKEN && asker->writer == (uint32_t)writer)
            answer(asker, ASKER_REFUSED);
    }
}

static void reap_writers(void)
{
    siginfo_t ended = {0};
    while (waitid(P_ALL, 0, &ended, WEXITED | WNOHANG | WNOWAIT) == 0 && ended.si_pid > 0) {
        for (unsigned i = 0; i < writer_count; i++)
            if (writers[i] == ended.si_pid)
                writers[i] = writers[--writer_count];
        refuse_askers_of(ended.si_pid);
        waitpid(ended.si_pid, NULL, 0);
        ended = (siginfo_t){0};
    }
}

static void start_writer(struct asker *asker)
{
    pid_t self = getpid(), child = -1;
    uint32_t count = atomic_load(&shared->count);
    if (writer_count == writer_room)
        writers = get_memory(writers, (writer_room = 2 * writer_room + 16) * sizeof *writers);
    bool is_possible = count < MOST_PROGRAMS && (!options.replays || further_make_report_folder());
    if (is_possible) {
        asker->writer = 0; /* that of who asked here before may end now */
        atomic_fetch_add(&shared->count, 1);
        child = fork();
    }
    if (child == 0) {
        die_with(self);
        record_further(asker, count + 1);
    }
    if (child < 0) {
        if (!is_possible && count < MOST_PROGRAMS)
            fprintf(stderr, "record: cannot write %s: %s\n", further_report_folder(), strerror(errno));
        answer(asker, ASKER_REFUSED);
        return;
    }
    writers[writer_count++] = child;
}

static void look_at_askers(void)
{
    for (unsigned i = 0; i < RING_ASKERS; i++) {
        struct asker *asker = &recording.ring->askers[i];
        uint32_t waits = ASKER_WAITS;
        if (atomic_compare_exchange_strong(&asker->state, &waits, ASKER_TAKEN))
            start_writer(asker);
    }
}

static void serve(void)
{
    struct ring *first = recording.ring;
    struct timespec pause = {0, 20000000};
    for (;;) {
        uint32_t bell = atomic_load(&first->bell);
        bool is_ending = atomic_load(&shared->is_ending);
        look_at_askers();
        reap_writers();
        if (is_ending && !writer_count)
            _exit(0);
        syscall(SYS_futex, &first->bell, FUTEX_WAIT, bell, writer_count ? &pause : NULL, NULL, 0);
    }
}

/* It keeps no stream of the recorder open but standard error. */
void further_begin(void)
{
    pid_t self = getpid();
    fflush(NULL);
    server = fork();
    if (server < 0)
        fail("cannot start a process", NULL);
    if (server > 0) {
        atomic_store(&recording.ring->server, (uint32_t)server);
        return;
    }
    int nowhere = open("/dev/null", O_RDWR | O_CLOEXEC);
    dup2(nowhere, STDIN_FILENO);
    dup2(nowhere, STDOUT_FILENO);
    die_with(self);
    signal(SIGINT, SIG_IGN);
    signal(SIGQUIT, SIG_IGN);
    signal(SIGHUP, SIG_IGN);
    signal(SIGTERM, pass_to_writers);
    serve();
}

void further_stop(void)
{
    if (server > 0)
        kill(server, SIGTERM);
}

void further_end(void)
{
    if (server <= 0)
        return;
    atomic_store(&shared->is_ending, 1);
    atomic_fetch_add(&recording.ring->bell, 1);
    syscall(SYS_futex, &recording.ring->bell, FUTEX_WAKE, 1, NULL, NULL, 0);
    if (recording.is_to_end)
        further_stop();
    while (waitpid(server, NULL, 0) < 0 && errno == EINTR)
        ;
    atomic_store(&recording.ring->server, 0);
    server = 0;
}
