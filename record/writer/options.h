/* What record/run was asked for. */
#ifndef ERASER_OPTIONS_H
#define ERASER_OPTIONS_H

#include <stdbool.h>
#include <stdint.h>

/* Exit statuses of its own, as env and timeout have them. */
#define STATUS_FAILED 125
#define STATUS_NOT_EXECUTABLE 126
#define STATUS_NOT_FOUND 127

struct options {
    const char *trace;
    const char *report;
    const char *rules;
    bool replays;
    unsigned workers; /* threads of a replay */
    bool explains;
    bool by_site;
    bool is_strict;
    bool until_fault;
    const char *format;
    const char *analysis;
    bool ends_as_report;
    bool orders; /* what orders threads is recorded as well */
    bool has_form;   /* --trace says which form the trace has */
    bool has_stacks; /* events are recorded with the calls in which they are made */
    bool is_online;  /* the program's own detector says at once what races, and there is no trace */
    bool stops_at_race;
    bool has_flow;   /* what threads tell each other without an order is recorded as well */
    bool has_thin;   /* --thin says whether repeats are left out */
    bool is_quiet;
    unsigned runs; /* how often the command is run */
    bool shakes;   /* threads wait at random */
    uint64_t seed;
    bool has_limit;
    uint64_t limit; /* what --limit says */
    bool has_report_folder, has_trace_folder; /* --report and --output name folders, for files of several programs */
    bool is_for_people; /* nothing says how to report, and the report goes to a terminal: the trace is kept, if only until it is replayed */
    bool asks_facts; /* its rules ask what the trace says of the program, which a file gives: the trace is kept as well, with its calls */
    bool shows_places; /* the report has the places of its reasons, or rules ask for places, which a file gives: it is replayed when it is whole */
};
extern struct options options;

/* Reads the words in front of the program. Ends the recorder if they are wrong, or if nothing but a text was wanted. */
void read_options(int count, char **words);
/* The folder of the library that the program gets, below that of all. */
const char *library_folder(void);
/* Whether a trace that -o doesn't name is kept until it is replayed. */
bool is_kept_meanwhile(void);
/* Ends the recorder: what it cannot do, to what, and errno's reason. */
void fail(const char *what, const char *name);

#endif
