#define _GNU_SOURCE
#include "rules.h"

#include <errno.h>
#include <stdio.h>
#include <stdlib.h>
#include <string.h>

#include "options.h"
#include "trace.h"

/* A site or a pattern, or else words from one on to before another one. */
struct rule {
    char *site;
    bool is_pattern;
    uint64_t begin, end;
};
static struct rule *rules;
static size_t rule_count;

/* ---- Reading ---- */

static const char *path_of_rules;
static unsigned long line_number;

static void refuse(const char *what)
{
    fprintf(stderr, "record: %s:%lu: %s\n", path_of_rules, line_number, what);
    exit(STATUS_FAILED);
}

static void add(struct rule rule)
{
    rules = get_memory(rules, (rule_count + 1) * sizeof *rules);
    rules[rule_count++] = rule;
}

static void add_site(const char *site, bool has_patterns)
{
    size_t bytes = strlen(site);
    if (bytes > NAME_BYTES)
        refuse("bad name");
    for (size_t nth = 0; nth < bytes; nth++)
        if (site[nth] < '!' || site[nth] > '~')
            refuse("bad name");
    add((struct rule){.site = strcpy(get_memory(NULL, bytes + 1), site), .is_pattern = has_patterns && strchr(site, '*')});
}

/* A number as in a trace: decimal digits, or `0x` and hexadecimal ones. */
static uint64_t read_number(const char *word)
{
    bool is_hex = strncmp(word, "0x", 2) == 0;
    const char *digits = word + (is_hex ? 2 : 0);
    if (!*digits || strspn(digits, is_hex ? "0123456789abcdefABCDEF" : "0123456789") != strlen(digits))
        refuse("bad number");
    errno = 0;
    uint64_t number = strtoull(digits, NULL, is_hex ? 16 : 10);
    if (errno)
        refuse("bad number");
    return number;
}

static void add_words(const char *address, const char *size)
{
    uint64_t begin = read_number(address), bytes = read_number(size);
    if (begin >= ADDRESS_END || bytes > ADDRESS_END - begin)
        refuse("address out of range");
    if (bytes)
        add((struct rule){.begin = begin / 4, .end = (begin + bytes + 3) / 4});
}

/* The words of a line, of which there are as many as are wanted. */
static void split(char *line, char **words, unsigned wanted)
{
    unsigned count = 0;
    for (char *word = strtok(line, " \t\n"); word; word = strtok(NULL, " \t\n")) {
        if (count == wanted)
            refuse("extra operand");
        words[count++] = word;
    }
    if (count < wanted)
        refuse("missing operand");
}

static void read_rule(char *line, bool has_patterns)
{
    char *words[2], *verb = line + strspn(line, " \t"), *rest = verb + strcspn(verb, " \t\n");
    size_t bytes = (size_t)(rest - verb);
    if (bytes == 4 && strncmp(verb, "site", bytes) == 0) {
        split(rest, words, 1);
        add_site(words[0], has_patterns);
    } else if (bytes == 5 && strncmp(verb, "words", bytes) == 0) {
        split(rest, words, 2);
        add_words(words[0], words[1]);
    } else
        refuse("--online takes rules of `site` and `words` alone: a rule by what else is known of a race is for a replay");
}

static bool is_blank(const char *line)
{
    return *line == '#' || !line[strspn(line, " \t\n")];
}

/* The header of the second edition, in which a site may be a pattern. */
static bool is_header(const char *line)
{
    char copy[64], *rest;
    snprintf(copy, sizeof copy, "%s", line);
    const char *first = strtok_r(copy, " \t\n", &rest), *second = strtok_r(NULL, " \t\n", &rest), *third = strtok_r(NULL, " \t\n", &rest);
    return first && second && third && !strtok_r(NULL, " \t\n", &rest) && strcmp(first, "eraser") == 0 && strcmp(second, "suppressions") == 0
           && strcmp(third, "2") == 0;
}

void rules_read(const char *path)
{
    char *line = NULL;
    size_t room = 0;
    bool has_patterns = false, is_first = true;
    FILE *file = fopen(path, "r");
    if (!file)
        fail("cannot read", path);
    path_of_rules = path;
    errno = 0;
    while (getline(&line, &room, file) >= 0) {
        line_number++;
        if (is_blank(line))
            continue;
        if (is_first && is_header(line))
            has_patterns = true;
        else
            read_rule(line, has_patterns);
        is_first = false;
    }
    if (ferror(file))
        fail("cannot read", path);
    free(line);
    fclose(file);
}

/* ---- Races ---- */

/* A star stands for any bytes. What comes behind the last star that was met may begin further on. */
static bool fits(const char *pattern, const char *site, size_t bytes)
{
    const char *end = site + bytes, *star = NULL, *from = NULL;
    while (site < end) {
        if (*pattern == '*') {
            star = ++pattern;
            from = site;
        } else if (*pattern && *pattern == *site) {
            pattern++;
            site++;
        } else if (star) {
            pattern = star;
            site = ++from;
        } else
            return false;
    }
    while (*pattern == '*')
        pattern++;
    return !*pattern;
}

static bool takes(const struct rule *rule, const char *site, size_t bytes, uint64_t word)
{
    if (!rule->site)
        return word >= rule->begin && word < rule->end;
    if (rule->is_pattern)
        return fits(rule->site, site, bytes);
    return strlen(rule->site) == bytes && memcmp(rule->site, site, bytes) == 0;
}

bool rules_take(const char *site, size_t bytes, uint64_t word)
{
    for (size_t nth = 0; nth < rule_count; nth++)
        if (takes(&rules[nth], site, bytes, word))
            return true;
    return false;
}
