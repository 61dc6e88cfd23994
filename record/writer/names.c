#define _GNU_SOURCE
#include "names.h"

#include <stdio.h>
#include <string.h>

#include "trace.h"
#include "variables.h"

/* How often each variable's name was given. */
struct use {
    struct use *next;
    unsigned count;
    char name[];
};
static struct use *uses[4096];

uint32_t hash_name(const char *name)
{
    uint32_t hash = 2166136261u;
    for (const char *c = name; *c; c++)
        hash = (hash ^ (unsigned char)*c) * 16777619u;
    return hash;
}

static unsigned count_use(const char *name)
{
    struct use **at = &uses[hash_name(name) % 4096];
    for (struct use *use = *at; use; use = use->next)
        if (strcmp(use->name, name) == 0)
            return ++use->count;
    struct use *use = get_memory(NULL, sizeof *use + strlen(name) + 1);
    use->next = *at;
    use->count = 1;
    strcpy(use->name, name);
    *at = use;
    return 1;
}

static char *copy_name(const char *name)
{
    return strcpy(get_memory(NULL, strlen(name) + 1), name);
}

/* A variable's second lock gets a colon and a number, which no variable's name ends with, and a kind is followed by a hyphen, which no
 * variable's name has. The name `none` is not a lock's. */
char *make_name(uint64_t address, const char *kind, unsigned *count)
{
    char symbol[PLAIN_BYTES], legal[NAME_BYTES + 1], name[NAME_BYTES + 32];
    if (symbol_of(address, symbol)) {
        legal_name(legal, symbol);
        unsigned nth = count_use(legal);
        if (nth == 1 && strcmp(legal, "none") != 0)
            return copy_name(legal);
        snprintf(name, sizeof name, "%s:%u", legal, nth);
        legal_name(legal, name);
        return copy_name(legal);
    }
    snprintf(name, sizeof name, "%s-%u", kind, ++*count);
    return copy_name(name);
}
