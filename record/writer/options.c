#define _GNU_SOURCE
#include "options.h"

#include <errno.h>
#include <fcntl.h>
#include <getopt.h>
#include <sched.h>
#include <stdio.h>
#include <stdlib.h>
#include <string.h>
#include <sys/mman.h>
#include <sys/stat.h>
#include <unistd.h>

#include "output.h"
#include "rules.h"
#include "sites.h"
#include "thin.h"
#include "trace.h"

/* How many bytes of a trace are kept in a file by default. A replay takes a text of this length by default; that of a trace 4 is longer. */
#define USUAL_LIMIT 268435456u
#define MOST_RUNS 10000
/* As many as the replay may have. */
#define MOST_WORKERS 16
/* From so many processors on a replay has two workers: the program and its writer have the others. */
#define MANY_PROCESSORS 4

/* The form of a trace that nobody keeps, unless an option says another one: that which a replay beside the program reads faster. */
#define FORM_OF_PIPE binary_form

struct options options = {.runs = 1};

/* That of the program `eraser`. tests/shell_tests.py compares them. */
static const char version[] = "eraser-record 0.1.0\n";

/* Behind the line with the name by which the recorder was called. */
static const char usage[] =
    "\n"
    "Runs a program that was built with -fsanitize=thread, records what its threads do, and reports its races.\n"
    "\n"
    "  -o, --output FILE       keep the trace in FILE, and replay nothing; a folder takes that of each program\n"
    "      --replay            with -o: replay as well\n"
    "      --report FILE       write the report to FILE instead of standard error; `-` is standard output; a folder takes that of each program\n"
    "      --workers N         replay by N threads, 1 to 16. The default is 2 on 4 processors or more, and else 1\n"
    "      --suppress RULES    leave out the races that these rules take (docs/FORMATS.md)\n"
    "      --analysis RULE     report by `lockset` (the default), `happens-before` or `both`; the last two record with --order\n"
    "      --explain           name the accesses that make each race\n"
    "      --by-site           report the races by their sites, most words first\n"
    "      --format FORM       write the report as `text` (the default), `json`, `sarif` or `html`\n"
    "      --strict            end the replay with 2 if the trace is damaged, and write no report\n"
    "      --until-fault       report the steps before the first faulty line of the trace, and then its fault\n"
    "      --exit-status WHOSE end with the status of the `program` (the default) or of the `report`\n"
    "      --online            watch the program while it runs, without a trace: a race is reported when it happens\n"
    "      --stop-at-race      with --online: a thread whose race is reported gets SIGTRAP right after that, for a debugger\n"
    "      --shake             let threads wait for short random times before they acquire, signal or start, so that more of them meet; --shake=SEED repeats them\n"
    "      --runs N            run the program N times, and report of each site in how many of the runs it was reported\n"
    "      --order             record what orders threads as well: starts and joins, semaphores, atomic operations ..\n"
    "      --trace FORM        write the trace as text `3` (the default of one that -o keeps, without --stacks and --flow), or in the binary form `4` (that of others), which is shorter; `eraser print` shows it as text\n"
    "      --stacks            record in a trace 4 the calls in which each event is made, their functions and where blocks of memory were got, and report accesses in system headers at the line that called them\n"
    "      --flow              record in a trace 4 what threads learn from each other without an order: relaxed atomics, and tries of locks that fail; records with --order\n"
    "      --thin              leave out accesses that a thread repeats: the reports have the same races and fewer steps. The default without -o; --thin=no keeps them\n"
    "      --limit BYTES       of a trace that is kept: keep at most BYTES of it; 0: no limit. With -o the default is 268435456\n"
    "      --root DIR          name sites by their paths below DIR. The default is the folder that has all sources of the program\n"
    "      --paths             name sites by their paths as the compiler has them\n"
    "  -q, --quiet             say nothing on standard error beside the report, unless something went wrong\n"
    "  -h, --help              print this help\n"
    "  -V, --version           print the version\n"
    "\n"
    "On a terminal the report is by both analyses, by site and explained, with the calls that led to each access and the names of what raced,\n"
    "unless an option says how to report: then the trace is kept in a temporary file until it has been replayed, as by --stacks unless\n"
    "--trace is given. If the command starts several programs that can be recorded, the report of each goes to a file of its own, below\n"
    "the folder eraser.out.\n"
    "\n"
    "If RULES has rules by frame, function or variable, the trace is kept in a temporary file as well, as by --stacks unless --trace is given.\n"
    "\n"
    "It ends with the program's exit status, or 128 and the number of the signal that ended it; 125 if the recorder failed, 126 or 127\n"
    "if the program cannot be started. Without --online the report comes on standard error when the program has ended.\n"
    "\n"
    "With --online the memory grows with new memory, threads and sets of locks alone, --output and --report name the file of the report,\n"
    "and --suppress takes rules of sites and words. It refuses\n"
    "--explain, --strict, --until-fault, --workers, --replay, --trace, --stacks, --order, --flow, --thin, --limit, --runs, and other analyses and forms.\n"
    "\n"
    "With --exit-status report: 0 if the program ended with 0, all of it was recorded and there is no race; 1 if there is a race; 125 if\n"
    "nothing or not everything was recorded; 2 to 4 if the replay failed. A program that failed ends it with its own status, and with 123\n"
    "in place of 1.\n";


void fail(const char *what, const char *name)
{
    fprintf(stderr, "record: %s%s%s: %s\n", what, name ? " " : "", name ? name : "", strerror(errno));
    exit(STATUS_FAILED);
}

/* A number of an option. Otherwise the option is called and what it wants. */
static uint64_t read_number(const char *text, uint64_t least, uint64_t most, const char *wants)
{
    char *end;
    errno = 0;
    unsigned long long value = strtoull(text, &end, 10);
    if (errno || *end || end == text || *text == '-' || value < least || value > most) {
        fprintf(stderr, "record: %s, not '%s'\n", wants, text);
        exit(STATUS_FAILED);
    }
    return value;
}

/* A seed that nobody named is short, since somebody may want to type it. */
static void set_shaking(const char *text)
{
    uint32_t drawn;
    options.shakes = true;
    if (text)
        options.seed = read_number(text, 0, UINT64_MAX, "--shake wants a number as its seed");
    else if (getentropy(&drawn, sizeof drawn) == 0)
        options.seed = drawn;
}

static const char *read_folder(const char *text)
{
    if (!*text) {
        fputs("record: --root wants a folder, not ''\n", stderr);
        exit(STATUS_FAILED);
    }
    return text;
}

static bool is_report(const char *text)
{
    if (strcmp(text, "report") != 0 && strcmp(text, "program") != 0) {
        fprintf(stderr, "record: --exit-status is 'program' or 'report', not '%s'\n", text);
        exit(STATUS_FAILED);
    }
    return *text == 'r';
}

/* What the replay would refuse is refused before the program has run. */
static const char *read_format(const char *text)
{
    static const char *const forms[] = {"text", "json", "sarif", "html"};
    for (size_t place = 0; place < sizeof forms / sizeof *forms; place++)
        if (strcmp(text, forms[place]) == 0) return text;
    fprintf(stderr, "record: --format is 'text', 'json', 'sarif' or 'html', not '%s'\n", text);
    exit(STATUS_FAILED);
}

static bool is_thin(const char *text)
{
    if (text && strcmp(text, "yes") != 0 && strcmp(text, "no") != 0) {
        fprintf(stderr, "record: --thin is 'yes' or 'no', not '%s'\n", text);
        exit(STATUS_FAILED);
    }
    return !text || *text == 'y';
}

static const struct form *read_trace(const char *text)
{
    if (strcmp(text, "3") != 0 && strcmp(text, "4") != 0) {
        fprintf(stderr, "record: --trace is '3' or '4', not '%s'\n", text);
        exit(STATUS_FAILED);
    }
    return *text == '4' ? &binary_form : &text_form;
}

static const char *read_analysis(const char *text)
{
    static const char *const analyses[] = {"lockset", "happens-before", "both"};
    for (size_t place = 0; place < sizeof analyses / sizeof *analyses; place++)
        if (strcmp(text, analyses[place]) == 0) return text;
    fprintf(stderr, "record: --analysis is 'lockset', 'happens-before' or 'both', not '%s'\n", text);
    exit(STATUS_FAILED);
}

/* Whether accesses are looked for that were not ordered. */
static bool needs_order(void)
{
    return options.analysis && strcmp(options.analysis, "lockset") != 0;
}

static unsigned usual_workers(void)
{
    cpu_set_t processors;
    return sched_getaffinity(0, sizeof processors, &processors) != 0 || CPU_COUNT(&processors) < MANY_PROCESSORS ? 1 : 2;
}

/* The next line that is neither blank nor a comment. */
static bool read_line(char **line, size_t *room, FILE *rules)
{
    ssize_t length;
    do
        length = getline(line, room, rules);
    while (length > 0 && (**line == '#' || strspn(*line, " \t\n") == (size_t)length));
    return length > 0;
}

/* Whether rules take races by frames, functions or variables: a file of the second edition has a line that begins with such a word. What can't be read is
 * refused by the replay. */
static bool ask_facts(const char *path)
{
    struct stat found;
    FILE *rules = path && stat(path, &found) == 0 && S_ISREG(found.st_mode) ? fopen(path, "re") : NULL;
    char *line = NULL, word[10], rest[14], edition[3];
    size_t room = 0;
    bool is_second = rules && read_line(&line, &room, rules) && sscanf(line, "%9s %13s %2s", word, rest, edition) == 3
                     && strcmp(word, "eraser") == 0 && strcmp(rest, "suppressions") == 0 && strcmp(edition, "2") == 0;
    bool do_ask = false;
    while (is_second && !do_ask && read_line(&line, &room, rules))
        do_ask = sscanf(line, "%9s", word) == 1 && (strcmp(word, "frame") == 0 || strcmp(word, "function") == 0 || strcmp(word, "variable") == 0);
    free(line);
    if (rules)
        fclose(rules);
    return do_ask;
}

/* Rules are read more than once: those of a pipe are put into a file without a name. */
static const char *rules_of(const char *path)
{
    struct stat found;
    char part[4096], *kept = NULL;
    if (stat(path, &found) != 0 || S_ISREG(found.st_mode) || S_ISDIR(found.st_mode))
        return path;
    int from = open(path, O_RDONLY | O_CLOEXEC), to = memfd_create("eraser-rules", MFD_CLOEXEC);
    ssize_t bytes = from < 0 || to < 0 ? -1 : 0;
    while (bytes >= 0 && (bytes = read(from, part, sizeof part)) > 0)
        if (write(to, part, (size_t)bytes) != bytes)
            bytes = -1;
    if (bytes < 0 || asprintf(&kept, "/proc/%d/fd/%d", getpid(), to) < 0)
        fail("cannot read", path);
    close(from);
    return kept;
}

bool is_kept_meanwhile(void)
{
    return options.is_for_people || options.asks_facts;
}

/* The limit is of a file that grows. A replay takes what comes. */
static void set_limit(void)
{
    if (options.trace || is_kept_meanwhile())
        output.limit = options.has_limit ? options.limit : options.trace ? USUAL_LIMIT : 0;
    else if (options.has_limit && options.limit && !options.is_quiet)
        fputs("record: --limit is of a trace that -o keeps: nothing is kept, and all is recorded\n", stderr);
}

/* What is asked of the report, beside where it goes. */
static bool says_how_to_report(void)
{
    return options.explains || options.by_site || options.is_strict || options.until_fault || options.format || options.analysis;
}

static void keep_stacks(void)
{
    options.has_stacks = sites_have_callers = true;
}

/* Somebody who looks at a terminal gets what explains most. A trace that is kept for that alone has what a text can't have, unless --trace says otherwise. */
static void report_for_people(void)
{
    if (options.is_online || !options.replays || options.report || says_how_to_report() || !isatty(STDERR_FILENO))
        return;
    options.is_for_people = options.by_site = options.explains = true;
    options.analysis = "both";
    if (options.trace || options.has_form)
        return;
    trace_form = &binary_form;
    keep_stacks();
}

/* Whether a trace that is kept gives the report more than one that passes by. */
static bool has_places(void)
{
    bool is_kept = options.trace || is_kept_meanwhile();
    return is_kept && !options.until_fault && (options.asks_facts || options.by_site || (options.format && strcmp(options.format, "text") != 0));
}

/* A folder that is not there yet is known by the slash behind it. */
static bool is_folder(const char *path)
{
    struct stat found;
    return path && *path && (path[strlen(path) - 1] == '/' || (stat(path, &found) == 0 && S_ISDIR(found.st_mode)));
}

static void print_usage(const char *name, FILE *to)
{
    fprintf(to, "Usage: %s [OPTIONS] PROGRAM [ARGUMENTS..]\n%s", name, usage);
}

/* Ends the recorder, of which nothing but a text was wanted. */
static void end_printed(void)
{
    bool has_failed = ferror(stdout); /* a part of a long text may have gone out before */
    if (fflush(stdout) != 0 || has_failed)
        fail("cannot write", "standard output");
    exit(0);
}

static void refuse(const char *text)
{
    fprintf(stderr, "record: %s\n", text);
    exit(STATUS_FAILED);
}

/* A text has no room for stacks and data flow, so these options choose the form 4. */
static void choose_form(void)
{
    bool is_text = options.has_form && trace_form == &text_form;
    if (is_text && options.has_stacks)
        refuse("--stacks does not go with --trace 3: a text has no stacks");
    if (is_text && options.has_flow)
        refuse("--flow does not go with --trace 3: a text has no data flow");
    if (options.has_stacks || options.has_flow)
        trace_form = &binary_form;
    else if (!options.has_form && !options.trace)
        trace_form = &FORM_OF_PIPE;
}

const char *library_folder(void)
{
    return options.is_online ? "/online" : options.has_stacks ? "/stacks" : "";
}

/* Where there is no proved archive the library of --online is not built. */
static void check_library(void)
{
    const char *folder = getenv("ERASER_RECORD_LIBRARIES");
    char *path;
    if (folder && asprintf(&path, "%s%s/libtsan.so.2", folder, library_folder()) >= 0 && access(path, R_OK) != 0)
        refuse("--online needs the proved library for C, and this recorder was built without it: tools/prove eraser_c makes it. "
               "An installed recorder has to be installed again then");
}

/* There is no trace, and nothing is replayed: the detector is in the program, and its report is written as it comes. */
static void go_online(void)
{
    if (options.analysis && strcmp(options.analysis, "lockset") != 0)
        refuse("--online knows the locks alone: --analysis happens-before and both are of a recording");
    if (options.explains)
        refuse("--explain is of a recording: --online keeps no access that came before the race");
    if (options.format && strcmp(options.format, "text") != 0)
        refuse("--online writes each race when it comes, as text: --format json, sarif and html are of a recording");
    if (options.is_strict || options.until_fault || options.workers)
        refuse("--strict, --until-fault and --workers are of a replay: --online replays nothing");
    if (options.has_stacks)
        refuse("--stacks is of a trace: --online has the calls of each race without it");
    if (options.replays || options.has_form || options.has_flow || options.orders || options.has_thin || options.has_limit)
        refuse("--replay, --trace, --order, --flow, --thin and --limit are of a trace: --online writes none");
    if (options.runs > 1)
        refuse("--runs merges the reports of replays: it does not go with --online");
    if (options.trace && options.report)
        refuse("with --online -o and --report both name the file of the report");
    options.report = options.trace ? options.trace : options.report;
    options.trace = NULL;
    if (is_folder(options.report))
        refuse("with --online all programs report into one file: a folder is for a recording");
    check_library();
    trace_form = &no_form;
    sites_have_callers = true;
    if (options.rules)
        rules_read(options.rules);
}

/* Options that don't go together. */
static void check_together(void)
{
    if (options.format && options.by_site)
        refuse("--by-site and --format are not given together");
    if (options.runs > 1 && options.format && strcmp(options.format, "text") != 0)
        refuse("--runs makes a text of its reports: it does not go with --format");
    if (options.runs > 1 && options.trace && !is_folder(options.trace))
        refuse("--runs makes several traces: -o names a folder for them, with a slash behind it");
}

void read_options(int count, char **words)
{
    enum { ONLINE = 256, STOP_AT_RACE, REPLAY, REPORT, SUPPRESS, EXPLAIN, BY_SITE, STRICT, UNTIL_FAULT, FORMAT, ANALYSIS, EXIT_STATUS, ORDER, TRACE, STACKS, FLOW, THIN, LIMIT, ROOT, PATHS, SHAKE, REPEAT, REPLAYERS };
    static const struct option names[] = {
        {"output", 1, NULL, 'o'},         {"replay", 0, NULL, REPLAY}, {"report", 1, NULL, REPORT}, {"suppress", 1, NULL, SUPPRESS},
        {"exit-status", 1, NULL, EXIT_STATUS}, {"limit", 1, NULL, LIMIT},   {"paths", 0, NULL, PATHS},   {"quiet", 0, NULL, 'q'},
        {"root", 1, NULL, ROOT},          {"shake", 2, NULL, SHAKE},   {"runs", 1, NULL, REPEAT},
        {"explain", 0, NULL, EXPLAIN},    {"by-site", 0, NULL, BY_SITE}, {"format", 1, NULL, FORMAT}, {"help", 0, NULL, 'h'},
        {"order", 0, NULL, ORDER},        {"analysis", 1, NULL, ANALYSIS}, {"strict", 0, NULL, STRICT},
        {"until-fault", 0, NULL, UNTIL_FAULT}, {"version", 0, NULL, 'V'}, {"trace", 1, NULL, TRACE}, {"stacks", 0, NULL, STACKS},
        {"flow", 0, NULL, FLOW},          {"thin", 2, NULL, THIN},       {"workers", 1, NULL, REPLAYERS}, {"online", 0, NULL, ONLINE}, {"stop-at-race", 0, NULL, STOP_AT_RACE},
        {NULL, 0, NULL, 0},
    };
    for (int got; (got = getopt_long(count, words, "+o:qhV", names, NULL)) != -1;)
        switch (got) {
        case 'o': options.trace = optarg; break;
        case ONLINE: options.is_online = true; break;
        case STOP_AT_RACE: options.stops_at_race = true; break;
        case REPLAY: options.replays = true; break;
        case REPORT: options.report = optarg; break;
        case REPLAYERS: options.workers = (unsigned)read_number(optarg, 1, MOST_WORKERS, "--workers wants a number from 1 to 16"); break;
        case SUPPRESS: options.rules = optarg; break;
        case EXPLAIN: options.explains = true; break;
        case BY_SITE: options.by_site = true; break;
        case ANALYSIS: options.analysis = read_analysis(optarg); break;
        case STRICT: options.is_strict = true; break;
        case UNTIL_FAULT: options.until_fault = true; break;
        case FORMAT: options.format = read_format(optarg); break;
        case EXIT_STATUS: options.ends_as_report = is_report(optarg); break;
        case ORDER: options.orders = true; break;
        case TRACE: trace_form = read_trace(optarg); options.has_form = true; break;
        case STACKS: keep_stacks(); break;
        case FLOW: options.has_flow = options.orders = true; break;
        case THIN: thin_is_on = is_thin(optarg); options.has_thin = true; break;
        case LIMIT: options.limit = read_number(optarg, 0, UINT64_MAX, "--limit wants a number of bytes"); options.has_limit = true; break;
        case ROOT: sites_set_root(read_folder(optarg)); break;
        case SHAKE: set_shaking(optarg); break;
        case REPEAT: options.runs = (unsigned)read_number(optarg, 1, MOST_RUNS, "--runs wants a number from 1 to 10000"); break;
        case PATHS: sites_have_paths = true; break;
        case 'q': options.is_quiet = true; break;
        case 'h': print_usage(words[0], stdout); end_printed(); break;
        case 'V': fputs(version, stdout); end_printed(); break;
        default: fputs("record: --help says what there is\n", stderr); exit(STATUS_FAILED);
        }
    if (options.rules)
        options.rules = rules_of(options.rules);
    if (options.is_online) {
        go_online();
    } else if (options.stops_at_race) {
        refuse("--stop-at-race goes with --online: a replay finds a race when the program has gone on");
    } else {
        /* Where these rules take nothing, a trace need not be kept for them. */
        bool has_none = options.until_fault || (options.has_form && trace_form == &text_form);
        options.asks_facts = ask_facts(options.rules);
        if (options.asks_facts && has_none)
            fputs("record: rules by frame, function and variable take nothing with --until-fault or --trace 3\n", stderr);
        options.asks_facts &= !has_none;
        if (options.asks_facts && !options.has_form)
            keep_stacks();
        choose_form();
        /* A report has the same races without repeats. Who keeps a trace may want to see all accesses of a word. */
        if (!options.has_thin)
            thin_is_on = !options.trace;
    }
    check_together();
    if (optind == count) {
        print_usage(words[0], stderr);
        exit(STATUS_FAILED);
    }
    options.replays |= !options.is_online && (!options.trace || options.report || options.rules || says_how_to_report() || options.ends_as_report);
    options.workers = options.workers ? options.workers : usual_workers();
    options.has_report_folder = is_folder(options.report);
    options.has_trace_folder = is_folder(options.trace);
    report_for_people();
    options.shows_places = has_places();
    options.orders |= needs_order();
    set_limit();
}

