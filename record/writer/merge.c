#define _GNU_SOURCE
#include "merge.h"

#include <inttypes.h>
#include <stdio.h>
#include <stdlib.h>
#include <string.h>

#include "further.h"
#include "names.h"
#include "options.h"
#include "replay.h"
#include "trace.h"

/* How many runs there are of a kind, and the last one of these. */
struct runs { unsigned count, last; };

/* A site that some report names. A run may have several reports, and a report several lines of it. */
struct row {
    struct row *next; /* in its bucket */
    unsigned nth;     /* among the rows, by first appearance */
    struct runs runs;
    struct runs unordered; /* in which something there was not ordered */
    const struct outcome *first; /* of the first report */
    char site[];
};
static struct row *buckets[4096];
static struct row **rows;
static unsigned row_count, row_room;

/* ---- Rows ---- */

static struct row *add_row(struct row **bucket, const char *site, const struct outcome *outcome)
{
    struct row *row = get_memory(NULL, sizeof *row + strlen(site) + 1);
    *row = (struct row){.next = *bucket, .nth = row_count, .first = outcome};
    strcpy(row->site, site);
    *bucket = row;
    if (row_count == row_room)
        rows = get_memory(rows, (row_room = 2 * row_room + 64) * sizeof *rows);
    rows[row_count++] = row;
    return row;
}

static struct row *get_row(const char *site, const struct outcome *outcome)
{
    struct row **bucket = &buckets[hash_name(site) % 4096];
    for (struct row *row = *bucket; row; row = row->next)
        if (strcmp(row->site, site) == 0)
            return row;
    return add_row(bucket, site, outcome);
}

static void count(struct runs *runs, unsigned run)
{
    runs->count += runs->last != run;
    runs->last = run;
}

static void note_site(const char *site, bool is_unordered, const struct outcome *outcome)
{
    struct row *row = get_row(site, outcome);
    count(&row->runs, outcome->run);
    if (is_unordered)
        count(&row->unordered, outcome->run);
}

/* ---- Reports ---- */

/* Where in a report by site the reading is: below which heading, in a table or not, and below the address of memory that was given back. */
struct reading {
    const struct outcome *outcome;
    bool is_in_run, is_in_table, is_of_memory;
};

/* `line 5: race: t2 write 0x1000 at pool.c:8, holds none`, or `unordered`. Memory that is given back may have no site. */
static void read_race(char *line, const struct outcome *outcome)
{
    bool is_unordered = strstr(line, ": unordered: ") != NULL;
    if (!is_unordered && !strstr(line, ": race: "))
        return;
    char *site = strstr(line, " at "), *end = site ? strstr(site, ", holds ") : NULL;
    if (end)
        *end = 0;
    note_site(site ? site + 4 : "-", is_unordered, outcome);
}

/* By site: a table below each heading has its sites at the ends of its rows. Memory that was given back and has no site stands below the tables. */
static void read_table(struct reading *reading, char *line)
{
    size_t length = strlen(line);
    if (strncmp(line, "races in this run", 17) == 0)
        reading->is_in_run = true;
    else if (strncmp(line, "no common lock", 14) == 0)
        reading->is_in_run = false;
    else if (strncmp(line, "words  ", 7) == 0)
        reading->is_in_table = true;
    else if (!length)
        reading->is_in_table = reading->is_of_memory = false;
    else if (reading->is_in_table)
        note_site(strrchr(line, ' ') + 1, reading->is_in_run, reading->outcome);
    else if (line[length - 1] == ':')
        reading->is_of_memory = strncmp(line, "0x", 2) == 0;
    else if (reading->is_of_memory && strstr(line, " gave back "))
        note_site("-", true, reading->outcome);
}

static void read_report(const struct outcome *outcome)
{
    struct reading reading = {.outcome = outcome};
    char *path = further_report(outcome), *line = NULL;
    size_t room = 0;
    FILE *report = fopen(path, "r");
    for (ssize_t length; report && (length = getline(&line, &room, report)) > 0;) {
        line[length - (line[length - 1] == '\n')] = 0;
        if (options.by_site)
            read_table(&reading, line);
        else if (strncmp(line, "line ", 5) == 0)
            read_race(line, outcome);
    }
    if (report)
        fclose(report);
    free(line);
    free(path);
}

/* ---- The text ---- */

static int compare(const void *one, const void *other)
{
    const struct row *first = *(struct row *const *)one, *second = *(struct row *const *)other;
    if (first->unordered.count != second->unordered.count)
        return first->unordered.count < second->unordered.count ? 1 : -1;
    if (first->runs.count != second->runs.count)
        return first->runs.count < second->runs.count ? 1 : -1;
    return first->nth < second->nth ? -1 : 1;
}

static void write_line(const char *line)
{
    replay_write(line, strlen(line));
}

/* Accesses that were not ordered are looked for by happens-before, and beside them those without a common lock. */
static bool is_by_both(void)
{
    return options.analysis && strcmp(options.analysis, "both") == 0;
}

static void write_row(const char *runs, const char *unordered, const char *first, const char *report, const char *site)
{
    char *line, middle[32] = "";
    if (is_by_both())
        snprintf(middle, sizeof middle, "%-10s", unordered);
    if (asprintf(&line, "%-10s%s%-10s%-24s%s\n", runs, middle, first, report, site) < 0)
        return;
    write_line(line);
    free(line);
}

static void write_rows(void)
{
    write_row("runs", "unordered", "first", "report", "site");
    for (unsigned i = 0; i < row_count; i++) {
        char runs[16], unordered[16], first[16], *path = further_report(rows[i]->first);
        snprintf(runs, sizeof runs, "%u", rows[i]->runs.count);
        snprintf(unordered, sizeof unordered, "%u", rows[i]->unordered.count);
        snprintf(first, sizeof first, "%u", rows[i]->first->run);
        write_row(runs, unordered, first, strrchr(path, '/') + 1, rows[i]->site);
        free(path);
    }
}

/* A run whose replay failed says nothing of its races. */
static void write_head(unsigned runs, unsigned racing, unsigned failed)
{
    char line[128];
    int length = snprintf(line, sizeof line, "%u runs recorded, %u with races", runs, racing);
    snprintf(line + length, sizeof line - (size_t)length, failed ? ", %u not replayed\n" : "\n", failed);
    write_line(line);
}

void merge_reports(void)
{
    struct runs runs = {0, 0}, racing = {0, 0}, failed = {0, 0};
    for (unsigned number = 1; number <= further_count(); number++) {
        const struct outcome *outcome = further_outcome(number);
        if (!outcome->name[0] || outcome->error)
            continue;
        count(&runs, outcome->run);
        if (outcome->replay_status < 0 || outcome->replay_status > 1)
            count(&failed, outcome->run);
        else if (outcome->replay_status == 1)
            count(&racing, outcome->run);
        read_report(outcome);
    }
    if (!runs.count)
        return;
    write_head(runs.count, racing.count, failed.count);
    qsort(rows, row_count, sizeof *rows, compare);
    if (row_count)
        write_rows();
}
