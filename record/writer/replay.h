/* The replay of a trace, beside the program or behind it, and the way of its report. */
#ifndef ERASER_REPLAY_H
#define ERASER_REPLAY_H

#include <stdbool.h>
#include <sys/types.h>

struct replay {
    pid_t process; /* 0: not started yet */
    int status;    /* as `waitpid` gives it */
    bool has_ended;
};
extern struct replay replay;

/* A replay that cannot be run is found before the program is started. */
void replay_prepare(void);
/* Opens the place of the report: standard error, standard output or a file. */
void replay_open_report(void);
/* Starts the replay of a text that comes through `output.pipe`, or of a file that is open, by this name. */
void replay_start(int file, const char *name);
/* Waits for the end of the replay. */
void replay_end(void);
/* Ends the replay, or the one that is started later. A signal handler may call it. */
void replay_stop(void);
/* Before anything is written to the place of the report. */
void replay_begin_report(void);
/* Writes the report to its place, if it is of anything. */
void replay_pass_report(bool is_there);
/* Writes the report to a file. Returns 0, or errno of what failed. */
int replay_save_report(const char *path);
void replay_close_report(void);
/* Writes text to the place of the report. */
void replay_write(const char *text, size_t bytes);
/* What the place of the report is called, and errno of the write to it that failed, or 0. */
const char *replay_place(void);
int replay_place_error(void);
/* What went wrong with the replay, on standard error. */
void replay_say_end(void);

/* The child reports the error of a failed start by a pipe, which a start that succeeds closes. */
void start_pipe(int ends[2]);
void start_execute(char **words, int to) __attribute__((noreturn));
/* The error of a child's start, or 0. */
int start_error_of(int ends[2]);
/* A file without a name, in the folder of temporary files. */
int open_temporary(void);
const char *temporary_folder(void);
/* 128 and the number of a signal, or the status. */
int exit_status(int status);

#endif
