/* Programs that a command starts after the first one that is recorded: each has a ring, a writer and a replay of its own. And what became of all of
 * them. */
#ifndef ERASER_FURTHER_H
#define ERASER_FURTHER_H

#include <stdbool.h>
#include <stdint.h>

/* What was recorded of a program, and what the replay says of it. */
struct outcome {
    char name[64];     /* of its files, without folder and ending; empty if there is nothing of it */
    uint64_t events, lost;
    uint64_t left_out; /* repeats */
    uint64_t cut;      /* events of which not all calls are known */
    uint32_t run;      /* of the command in which it was started */
    uint32_t forks;
    uint32_t unseen;   /* what is not recorded of it: UNSEEN_LOCKS, UNSEEN_FREES */
    int replay_status; /* as an exit status, or -1 if there was no replay */
    int error;         /* errno if its trace or its report could not be written */
};

/* Ends the recorder if the folders that the options name cannot be used. */
void further_open_folders(void);
/* Starts who gives out further rings. Before anything is recorded. */
void further_begin(void);
/* What is started from here on belongs to this run of the command. */
void further_begin_run(unsigned run);
/* The command has ended, and nobody waits for what it started any longer. A signal handler may call it. */
void further_stop(void);
/* Waits for all further programs and their replays. */
void further_end(void);
/* How many programs found a ring, with the first. */
unsigned further_count(void);
/* The outcome of a program, by its number from 1 on. The first one's is for the caller to fill. */
struct outcome *further_outcome(unsigned number);

/* What was recorded of the program whose trace this process has written. */
void further_fill(struct outcome *outcome);

/* Makes the name of a program's files: its number and what its own file is called. */
void further_name(struct outcome *outcome, unsigned number, const char *program);
/* The path of a file of a program in the folder of reports or of traces, to be freed. */
char *further_report(const struct outcome *outcome);
char *further_trace(const struct outcome *outcome);
/* The folder of the reports, and that of the traces or NULL. */
const char *further_report_folder(void);
const char *further_trace_folder(void);
/* Makes the folder of the reports, and takes away what an earlier run left there. False with errno if that fails. */
bool further_make_report_folder(void);
/* Notes which files the folders have, a line each. Those that are reports stand at the place of the report as well. */
void further_write_list(bool has_reports);

#endif
