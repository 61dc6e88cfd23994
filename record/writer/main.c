/* Runs a program, takes its events out of the ring and makes a trace of them, in a file or for a replay that runs beside it. */
#define _GNU_SOURCE
#include <errno.h>
#include <fcntl.h>
#include <getopt.h>
#include <inttypes.h>
#include <signal.h>
#include <stdio.h>
#include <stdlib.h>
#include <string.h>
#include <sys/wait.h>
#include <unistd.h>

#include "further.h"
#include "kept.h"
#include "online.h"
#include "options.h"
#include "output.h"
#include "recording.h"
#include "replay.h"
#include "signals.h"
#include "thin.h"
#include "trace.h"

/* With the status of the report, 1 means a race. So a program's own 1 becomes what xargs ends with if a command of its own fails. */
#define STATUS_RACE 1
#define STATUS_OF_ONE 123
#define GIVEN_AS_ANOTHER ", given as 123"

static int start_error; /* errno if the program could not be started, or 0 */
static int *statuses; /* of the command in each run, as `waitpid` gives it */
static unsigned runs_made;
static int worst_status; /* the one of these with the greatest exit status */
static volatile sig_atomic_t was_interrupted; /* then the command is not run again */

/* ---- The program ---- */

/* The program decides what it does with an interrupt; the replay goes on, so that there is a report, and is stopped only if the program has
 * ended already. */
static void interrupt(int number)
{
    (void)number;
    was_interrupted = 1;
    if (!recording.has_command_ended)
        return;
    recording.is_to_end = 1;
    replay_stop();
    further_stop();
}

/* Who wants to end the recorder means the program. */
static void pass_on(int number)
{
    was_interrupted = 1;
    if (recording.command > 0 && !recording.has_command_ended)
        kill(recording.command, number);
    else
        interrupt(number);
}

/* A list in the environment, with `first` in front of what stands there. */
static void put_in_front(const char *name, const char *first)
{
    const char *rest = getenv(name);
    char *list;
    if (asprintf(&list, "%s%s%s", first, rest && *rest ? ":" : "", rest && *rest ? rest : "") < 0)
        _exit(STATUS_FAILED);
    setenv(name, list, 1);
    free(list);
}

/* Our library is in front of all others, also in a program that isn't instrumented and loads what is. A path with a blank or a colon would be two, so
 * then its name is looked up. AddressSanitizer's library wants to be the first one, and is asked not to. */
static void preload(const char *folder)
{
    char *path;
    if (asprintf(&path, "%s/liberaser_record.so", folder) < 0)
        _exit(STATUS_FAILED);
    put_in_front("LD_PRELOAD", strpbrk(path, " :") ? strrchr(path, '/') + 1 : path);
    put_in_front("ASAN_OPTIONS", "verify_asan_link_order=0");
    free(path);
}

/* The program finds our libraries in front of the system's. */
static void set_libraries(void)
{
    const char *folder = getenv("ERASER_RECORD_LIBRARIES");
    char *place, *ours;
    if (getenv("ERASER_RECORD_PREPARE"))
        unsetenv("ERASER"); /* set by record/run, not by the user */
    unsetenv("ERASER_RECORD_PREPARE");
    if (!folder)
        return;
    if (asprintf(&ours, "%s%s", folder, library_folder()) < 0)
        _exit(STATUS_FAILED);
    if (asprintf(&place, "/proc/%ld/fd/%d", (long)getppid(), recording.file) < 0)
        _exit(STATUS_FAILED);
    put_in_front("LD_LIBRARY_PATH", ours);
    preload(ours);
    setenv(RING_VARIABLE, place, 1);
    unsetenv("ERASER_RECORD_LIBRARIES");
}

static void start_program(char **words)
{
    int start[2];
    start_pipe(start);
    recording.command = fork();
    if (recording.command < 0)
        fail("cannot start", words[0]);
    if (recording.command != 0) {
        start_error = start_error_of(start);
        return;
    }
    signals_reset();
    signal(SIGPIPE, SIG_DFL);
    set_libraries();
    start_execute(words, start[1]);
}

/* ---- What it says at the end ---- */

static struct outcome *first(void)
{
    return further_outcome(1);
}

/* How many accesses were left out, if any may be. */
static const char *repeats(uint64_t count)
{
    static char text[64];
    if (thin_is_on)
        snprintf(text, sizeof text, ", %llu repeat%s left out", (unsigned long long)count, count == 1 ? "" : "s");
    return text;
}

static void say_what_was_recorded(void)
{
    uint64_t lost = first()->lost, events = first()->events;
    if (options.is_online && (events || lost))
        online_say_watched(events, lost);
    else if (atomic_load(&recording.ring->lacks_memory))
        fputs("record: nothing was watched: there was no memory for the detector in the program\n", stderr);
    else if (!atomic_load(&recording.ring->owner))
        fprintf(stderr, "record: nothing was recorded: the program does not use ThreadSanitizer's library, libtsan.so.2.\n"
                        "record: build it with -g -fsanitize=thread, and without -static-libtsan; docs/RECORDING.md says how with clang\n");
    else if (!events && !lost)
        fprintf(stderr, "record: nothing was recorded: no instrumented code ran\n");
    else if (!options.is_quiet || lost)
        fprintf(stderr, "record: %llu events recorded, %llu lost%s%s\n", (unsigned long long)events, (unsigned long long)lost, repeats(first()->left_out),
                lost ? ": the trace is incomplete, and says so at its end" : "");
}

/* One file takes one trace, and then further programs are not recorded. */
static bool has_room_for_one(void)
{
    return options.trace && !options.has_trace_folder;
}

/* Of all programs that were recorded. */
struct sums {
    unsigned runs; /* in which something was recorded */
    unsigned recorded, racing, broken; /* broken: not all of it was recorded or written */
    uint64_t forks, cut;
    bool leaves_child; /* there is room for one trace, and a child that was forked goes on */
    uint32_t unseen; /* of one program or another */
    int replay_status; /* the greatest that is no answer, or 0 */
};

/* Of one run, or of all if it is 0. */
static struct sums add_up(unsigned run)
{
    struct sums sums = {0};
    for (unsigned number = 1, last = 0; number <= further_count(); number++) {
        const struct outcome *outcome = further_outcome(number);
        if (run && outcome->run != run)
            continue;
        sums.forks += outcome->forks;
        sums.cut += outcome->cut;
        sums.unseen |= outcome->unseen;
        sums.broken += outcome->error != 0 || outcome->lost != 0 || outcome->unseen & UNSEEN_LOCKS;
        if (outcome->replay_status > STATUS_RACE && outcome->replay_status > sums.replay_status)
            sums.replay_status = outcome->replay_status;
        if (!outcome->events && !outcome->lost)
            continue;
        sums.recorded++;
        sums.runs += outcome->run != last;
        last = outcome->run;
        sums.racing += outcome->replay_status == STATUS_RACE;
    }
    sums.leaves_child = has_room_for_one() && recording_has_programs();
    return sums;
}

/* The files that programs have in folders, and not one report. */
static bool has_files(void)
{
    return !options.is_online && (further_count() > 1 || options.has_report_folder || options.runs > 1);
}

/* `3 programs`, or with --runs `2 runs of 1 program`, or `2 runs with 6 programs`. */
static const char *what_was_recorded(struct sums sums, char text[64])
{
    const char *plural = sums.recorded == 1 ? "" : "s";
    if (options.runs == 1)
        snprintf(text, 64, "%u program%s", sums.recorded, plural);
    else if (sums.runs == sums.recorded)
        snprintf(text, 64, "%u run%s of 1 program", sums.runs, plural);
    else
        snprintf(text, 64, "%u run%s with %u programs", sums.runs, sums.runs == 1 ? "" : "s", sums.recorded);
    return text;
}

static void say_what_programs_were_recorded(struct sums sums)
{
    const char *folder = options.replays ? further_report_folder() : further_trace_folder();
    const char *slash = folder[strlen(folder) - 1] == '/' ? "" : "/";
    char text[64];
    if (!sums.recorded)
        say_what_was_recorded();
    else if (options.replays && !options.is_quiet)
        fprintf(stderr, "record: %s recorded, %u with races; reports in %s%s\n", what_was_recorded(sums, text), sums.racing, folder, slash);
    else if (!options.is_quiet)
        fprintf(stderr, "record: %s recorded; traces in %s%s\n", what_was_recorded(sums, text), folder, slash);
    if (sums.broken)
        fprintf(stderr, "record: %u of them not whole\n", sums.broken);
}

static void say_what_is_unseen(uint32_t unseen)
{
    if (unseen & UNSEEN_LOCKS)
        fputs("record: LD_PRELOAD was taken from a program that isn't instrumented and loads what is: its locks, threads and frees are not recorded\n", stderr);
    else if (unseen & UNSEEN_FREES)
        fputs("record: what the program frees is not recorded, since it has a `free` of its own: memory that changes hands may be reported\n", stderr);
}

static void say_end(struct sums sums, const char *name)
{
    uint32_t others = atomic_load(&recording.ring->others);
    if (start_error)
        fprintf(stderr, "record: cannot start %s: %s\n", name, strerror(start_error));
    else if (has_files())
        say_what_programs_were_recorded(sums);
    else if (sums.recorded > 1)
        fprintf(stderr, "record: %u programs watched, %u with races\n", sums.recorded, sums.racing);
    else
        say_what_was_recorded();
    if (output.is_full)
        fprintf(stderr, "record: the trace reached its limit of %llu bytes (--limit)\n", (unsigned long long)output.limit);
    if (output.file_error)
        fprintf(stderr, "record: cannot write %s: %s\n", kept_name(), strerror(output.file_error));
    if (replay_place_error())
        fprintf(stderr, "record: cannot write %s: %s\n", replay_place(), strerror(replay_place_error()));
    if (others)
        fprintf(stderr, "record: %u further program%s started by it %s not recorded\n", others, others == 1 ? "" : "s", others == 1 ? "was" : "were");
    else if (sums.leaves_child)
        fputs("record: a child that it forked goes on, and is not recorded\n", stderr);
    if (sums.forks)
        fprintf(stderr, "record: the program forked %llu time%s: %s\n", (unsigned long long)sums.forks, sums.forks == 1 ? "" : "s",
                has_room_for_one() ? "what its children did is not recorded" : "a child is recorded from its first thread on");
    if (sums.cut && !options.is_quiet)
        fprintf(stderr, "record: %" PRIu64 " events lack their innermost calls: they are deeper than %u calls, or there was no room for more than %u stacks\n", sums.cut,
                STACK_CALLS, STACK_NODES - 1);
    say_what_is_unseen(sums.unseen);
    if (options.shakes && !options.is_quiet)
        fprintf(stderr, "record: shaken by --shake=%" PRIu64 "\n", options.seed);
}

/* How the program failed, if it did. Its exit status alone is worth a line only if another one is expected in its place. */
static void say_end_of_program(void)
{
    const char *whole = (options.replays || options.is_online) && first()->events ? "; the report is of the run up to there" : "";
    int status = exit_status(worst_status);
    if (start_error || !status || (options.is_quiet && !options.ends_as_report))
        return;
    if (WIFSIGNALED(worst_status))
        fprintf(stderr, "record: the program was ended by signal %d (%s)%s\n", WTERMSIG(worst_status), strsignal(WTERMSIG(worst_status)), whole);
    else if (options.ends_as_report)
        fprintf(stderr, "record: the program ended with status %d%s%s\n", status, status == STATUS_RACE ? GIVEN_AS_ANOTHER : "", whole);
}

/* docs/RECORDING.md has a row for each case of these two. */
static int status_of_report(unsigned run)
{
    struct sums sums = add_up(run);
    int of_program = exit_status(statuses[run - 1]);
    bool is_whole = sums.recorded && !sums.broken && !sums.leaves_child && !atomic_load(&recording.ring->others);
    if (of_program)
        return of_program == STATUS_RACE ? STATUS_OF_ONE : of_program;
    if (sums.replay_status)
        return sums.replay_status;
    return !is_whole ? STATUS_FAILED : sums.racing ? STATUS_RACE : 0;
}

static int greatest_status(void)
{
    int greatest = 0;
    for (unsigned run = 1; run <= runs_made; run++) {
        int status = options.ends_as_report ? status_of_report(run) : exit_status(statuses[run - 1]);
        greatest = status > greatest ? status : greatest;
    }
    return greatest;
}

static int last_status(void)
{
    if (start_error)
        return exit_status(worst_status);
    if (output.file_error || replay_place_error())
        return STATUS_FAILED;
    return greatest_status();
}

/* ---- The parts of a run ---- */

/* A stream that is closed must not become a file of ours, which the report would then go to. Writes to it fail, and the program finds it
 * closed. */
static void hold_streams(void)
{
    for (int stream = STDIN_FILENO; stream <= STDERR_FILENO; stream++)
        if (fcntl(stream, F_GETFD) < 0 && open("/dev/full", O_RDWR | O_CLOEXEC) != stream)
            fail("cannot open", "/dev/full");
}

/* The trace of the first program, whose name is not known yet: a file in the folder gets its name at the end. */
static const char *first_trace(void)
{
    static char path[4096];
    if (!options.has_trace_folder)
        return options.trace;
    snprintf(path, sizeof path, "%s/.first-%ld", options.trace, (long)getpid());
    return path;
}

static void open_trace(void)
{
    if (!options.trace && !is_kept_meanwhile())
        return;
    errno = kept_open(first_trace());
    if (errno)
        fail("cannot write", kept_name());
}

/* Whether the trace is replayed when it is whole, and not while it is written. */
static bool replays_later;

static void end_trace(void)
{
    trace_end(recording_lost());
    output_close();
    if (replays_later && trace_events && !output.file_error)
        kept_replay();
    replay_end();
    struct outcome *outcome = further_outcome(1);
    further_fill(outcome);
    if (!options.is_online)
        outcome->replay_status = replay.has_ended ? exit_status(replay.status) : options.replays ? STATUS_FAILED : -1;
}

/* After this many pauses it says what it waits for. */
#define PAUSE 20000000
#define MANY_PAUSES 100

/* Programs and forked children that go on may be recorded further, or from now on. */
static void wait_for_programs(void)
{
    for (unsigned pauses = 0; !has_room_for_one() && !recording.is_to_end && recording_has_programs(); pauses++) {
        if (pauses == MANY_PAUSES && !options.is_quiet)
            fputs("record: the command has ended, and a program that it started goes on: an interrupt ends the recording\n", stderr);
        sleep_for(PAUSE);
    }
}

/* Runs the command as often as it is wanted. The first program that is recorded has the first ring, and its trace ends with the run. */
static void run_all(char **words)
{
    bool has_ended = false;
    statuses = get_memory(NULL, options.runs * sizeof *statuses);
    for (unsigned run = 1; run <= options.runs && !start_error && !was_interrupted; run++) {
        recording_begin_run(run);
        start_program(words);
        recording_run();
        if (!has_ended && atomic_load(&recording.ring->owner)) {
            has_ended = true;
            first()->run = run;
            end_trace();
        }
        wait_for_programs();
        statuses[runs_made++] = recording.command_status;
        if (exit_status(recording.command_status) >= exit_status(worst_status))
            worst_status = recording.command_status;
    }
    if (has_ended)
        return;
    first()->run = runs_made;
    end_trace();
}

/* Files of the first program get its name. */
static void name_files(void)
{
    struct outcome *outcome = further_outcome(1);
    if (outcome->events || outcome->lost)
        further_name(outcome, 1, recording.ring->program);
    if (options.has_trace_folder && (!outcome->name[0] || rename(first_trace(), further_trace(outcome)) != 0))
        unlink(first_trace());
    if (has_files() && options.replays && outcome->name[0] && !outcome->error)
        outcome->error = !further_make_report_folder() ? errno : replay_save_report(further_report(outcome));
}

static void pass_reports(void)
{
    if (options.is_online) {
        replay_close_report();
        return;
    }
    if (options.replays)
        replay_begin_report();
    name_files();
    if (has_files() || options.has_trace_folder)
        further_write_list(has_files());
    if (!has_files())
        replay_pass_report(first()->events != 0);
    if (options.replays)
        replay_close_report();
}

int main(int count, char **words)
{
    hold_streams();
    /* Who starts us may ignore it, and then no end of a child is seen. */
    signal(SIGCHLD, SIG_DFL);
    read_options(count, words);
    /* Looking for debug information is not to ask servers for it. */
    unsetenv("DEBUGINFOD_URLS");
    further_open_folders();
    if (options.replays)
        replay_prepare();
    recording_make_ring(1);
    open_trace();
    if (options.replays || options.is_online)
        replay_open_report();
    if (!has_room_for_one())
        further_begin();
    signals_set(interrupt, pass_on);
    replays_later = options.shows_places && kept_is_readable();
    if (options.replays && !replays_later)
        replay_start(-1, NULL);
    trace_begin(words[optind]);
    run_all(words + optind);
    further_end();
    pass_reports();
    struct sums sums = add_up(0);
    say_end(sums, words[optind]);
    if (options.replays)
        replay_say_end();
    say_end_of_program();
    return last_status();
}
