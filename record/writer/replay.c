#define _GNU_SOURCE
#include "replay.h"

#include <errno.h>
#include <fcntl.h>
#include <signal.h>
#include <stdio.h>
#include <stdlib.h>
#include <string.h>
#include <sys/mman.h>
#include <sys/wait.h>
#include <unistd.h>

#include "options.h"
#include "output.h"
#include "signals.h"
#include "trace.h"

struct replay replay;

static volatile sig_atomic_t is_to_stop;
/* Whether the replay can say what helps against a fault. */
static bool takes_hints;
/* The replay writes the report into a file without a name, and from there it goes to its place when all has ended. So it is not in the
 * middle of what the program prints, and a write that fails isn't taken for a replay that fails. */
static int report_text = -1, report_place = -1;
static int report_error; /* errno of the failed write, or 0 */

/* ---- Processes ---- */

void start_pipe(int ends[2])
{
    if (pipe2(ends, O_CLOEXEC) != 0)
        fail("cannot make a pipe", NULL);
}

void start_execute(char **words, int to)
{
    execvp(words[0], words);
    int error = errno;
    ssize_t sent = write(to, &error, sizeof error);
    _exit(sent < 0 ? STATUS_FAILED : error == ENOENT ? STATUS_NOT_FOUND : STATUS_NOT_EXECUTABLE);
}

int start_error_of(int ends[2])
{
    int error = 0;
    close(ends[1]);
    while (read(ends[0], &error, sizeof error) < 0 && errno == EINTR)
        ;
    close(ends[0]);
    return error;
}

int exit_status(int status)
{
    return WIFSIGNALED(status) ? 128 + WTERMSIG(status) : WEXITSTATUS(status);
}

/* ---- Files without a name ---- */

const char *temporary_folder(void)
{
    const char *folder = getenv("TMPDIR");
    return folder && *folder ? folder : "/tmp";
}

int open_temporary(void)
{
    int file = open(temporary_folder(), O_TMPFILE | O_RDWR | O_CLOEXEC, 0600);
    char *name;
    /* Not every file system has files without a name. */
    if (file < 0 && asprintf(&name, "%s/eraser.XXXXXX", temporary_folder()) >= 0) {
        file = mkostemp(name, O_CLOEXEC);
        if (file >= 0)
            unlink(name);
        free(name);
    }
    return file;
}

/* ---- The start ---- */

static const char *command(void)
{
    const char *named = getenv("ERASER");
    return named ? named : "eraser";
}

/* What `replay --help` prints: whether there is a line of this option. */
static bool names_option(FILE *help, const char *option)
{
    char line[1024];
    bool is_named = false;
    while (fgets(line, sizeof line, help)) {
        char *text = line + strspn(line, " ");
        size_t length = strlen(option);
        is_named |= strncmp(text, option, length) == 0 && (text[length] == ' ' || text[length] == '\n');
    }
    return is_named;
}

/* A command that the user names may be any, and isn't asked. */
void replay_prepare(void)
{
    const char *own = getenv("ERASER_RECORD_PREPARE");
    int ends[2], status = -1;
    if (!own)
        return;
    start_pipe(ends);
    pid_t child = fork();
    if (child == 0) {
        int nowhere = open("/dev/null", O_RDONLY);
        dup2(nowhere, STDIN_FILENO);
        dup2(ends[1], STDOUT_FILENO);
        execl(own, own, "replay", "--help", (char *)NULL);
        _exit(STATUS_FAILED);
    }
    close(ends[1]);
    FILE *help = fdopen(ends[0], "r");
    takes_hints = child > 0 && help && names_option(help, "--hints");
    if (help)
        fclose(help);
    if (child < 0 || waitpid(child, &status, 0) != child || status != 0) {
        fprintf(stderr, "record: %s cannot be run\n", own);
        exit(STATUS_FAILED);
    }
}

static bool is_on_output(const char *report)
{
    return strcmp(report, "-") == 0;
}

void replay_open_report(void)
{
    /* Of a folder, standard error has the list. */
    if (!options.report || options.has_report_folder)
        report_place = STDERR_FILENO;
    else if (is_on_output(options.report))
        report_place = STDOUT_FILENO;
    else
        report_place = open(options.report, O_WRONLY | O_CREAT | O_TRUNC | O_CLOEXEC, 0666);
    if (report_place < 0)
        fail("cannot write", options.report);
}

/* The words of the replay, of which the last is the trace. */
static void put_words(char **words, const char *trace)
{
    static char workers[16];
    int count = 0;
    words[count++] = (char *)command();
    words[count++] = "replay";
    /* The writer ends a trace that it keeps at its limit, so the replay needs none. This is the greatest that it knows. */
    words[count++] = "--byte-limit";
    words[count++] = "4611686018427387904";
    if (options.workers > 1) {
        snprintf(workers, sizeof workers, "%u", options.workers);
        words[count++] = "--workers";
        words[count++] = workers;
    }
    if (options.rules) {
        words[count++] = "--suppress";
        words[count++] = (char *)options.rules;
    }
    if (options.analysis) {
        words[count++] = "--analysis";
        words[count++] = (char *)options.analysis;
    }
    if (options.explains)
        words[count++] = "--explain";
    if (options.by_site)
        words[count++] = "--by-site";
    if (options.is_strict)
        words[count++] = "--strict";
    if (options.until_fault)
        words[count++] = "--until-fault";
    if (options.format) {
        words[count++] = "--format";
        words[count++] = (char *)options.format;
    }
    if (takes_hints)
        words[count++] = "--hints";
    words[count++] = (char *)trace;
    words[count] = NULL;
}

/* In the child: the trace is its standard input, or a file that it opens by the name. */
static void execute_replay(int input, const char *name, int start)
{
    char *words[24];
    put_words(words, name ? name : "-");
    signal(SIGINT, SIG_IGN);
    signal(SIGQUIT, SIG_IGN);
    signal(SIGTERM, SIG_DFL);
    signal(SIGPIPE, SIG_DFL);
    dup2(input, 0);
    dup2(report_text, 1);
    start_execute(words, start);
}

void replay_start(int file, const char *name)
{
    int ends[2] = {file, -1}, start[2];
    report_text = open_temporary();
    if (report_text < 0)
        report_text = memfd_create("eraser-report", MFD_CLOEXEC);
    if (report_text < 0)
        fail("cannot make a file for the report", NULL);
    if (!name) {
        start_pipe(ends);
        fcntl(ends[1], F_SETPIPE_SZ, 1 << 20);
    }
    start_pipe(start);
    fflush(NULL);
    pid_t child = fork();
    if (child < 0)
        fail("cannot start", command());
    if (child == 0)
        execute_replay(ends[0], name, start[1]);
    errno = start_error_of(start);
    if (errno)
        fail("cannot start", command());
    if (!name) {
        close(ends[0]);
        output.pipe = ends[1];
    }
    replay.process = child;
    if (is_to_stop)
        replay_stop();
}

/* ---- The end ---- */

void replay_stop(void)
{
    is_to_stop = 1;
    if (replay.process > 0 && !replay.has_ended)
        kill(replay.process, SIGTERM);
}

/* The process is there until it is known to have ended, so that no other one is stopped in its place. */
void replay_end(void)
{
    siginfo_t ended;
    if (output.pipe >= 0)
        close(output.pipe);
    output.pipe = -1;
    while (replay.process > 0 && !replay.has_ended) {
        if (waitid(P_PID, (id_t)replay.process, &ended, WEXITED | WNOWAIT) == 0) {
            replay.has_ended = true;
            waitpid(replay.process, &replay.status, 0);
        } else if (errno != EINTR)
            return;
    }
}

const char *replay_place(void)
{
    return !options.report || options.has_report_folder ? "standard error" : is_on_output(options.report) ? "standard output" : options.report;
}

int replay_place_error(void)
{
    return report_error;
}

void replay_write(const char *text, size_t bytes)
{
    if (!report_error)
        report_error = write_all(report_place, text, bytes);
}

/* Copies the report by `write_piece`, which returns errno or 0. Returns errno of what failed, or 0. */
static int copy_report(int (*write_piece)(const char *text, size_t bytes))
{
    static char piece[1 << 16];
    ssize_t got = 0;
    int error = 0;
    if (report_text < 0)
        return 0;
    lseek(report_text, 0, SEEK_SET);
    while (!error && (got = read(report_text, piece, sizeof piece)) > 0)
        error = write_piece(piece, (size_t)got);
    return got < 0 ? errno : error;
}

static int write_to_place(const char *text, size_t bytes)
{
    return write_all(report_place, text, bytes);
}

static int saved = -1;

static int write_to_saved(const char *text, size_t bytes)
{
    return write_all(saved, text, bytes);
}

int replay_save_report(const char *path)
{
    saved = open(path, O_WRONLY | O_CREAT | O_TRUNC | O_CLOEXEC, 0666);
    if (saved < 0)
        return errno;
    int error = copy_report(write_to_saved);
    return close(saved) != 0 && !error ? errno : error;
}

/* Standard output ends first, if the report goes elsewhere: who reads that to its end and standard error after it must not wait for a report
 * that waits for him. Whoever waits for a report that nobody takes can end it. */
void replay_begin_report(void)
{
    if (report_place != STDOUT_FILENO)
        close(STDOUT_FILENO);
    signals_reset();
}

/* A report of nothing is not written: it would say that there are no races. */
void replay_pass_report(bool is_there)
{
    if (is_there && !report_error)
        report_error = copy_report(write_to_place);
}

void replay_close_report(void)
{
    if (report_place > STDERR_FILENO && close(report_place) != 0 && !report_error)
        report_error = errno;
}

void replay_say_end(void)
{
    int status = exit_status(replay.status);
    bool was_early = output.pipe_error == EPIPE;
    if (!replay.process)
        return;
    if (!replay.has_ended)
        fprintf(stderr, "record: the end of the replay was not seen\n");
    else if (WIFSIGNALED(replay.status))
        fprintf(stderr, "record: the replay was ended by signal %d (%s)\n", WTERMSIG(replay.status), strsignal(WTERMSIG(replay.status)));
    else if (status > 1 || was_early)
        fprintf(stderr, "record: the replay ended with status %d%s\n", status, was_early ? " before it had read the whole trace" : "");
    if (was_early)
        fprintf(stderr, "record: the program went on unharmed; the trace is%s recorded further\n", options.trace ? "" : " not");
}
