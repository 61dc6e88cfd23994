#include "nodes.h"

#include <stdlib.h>
#include <string.h>

#include "binary.h"
#include "sites.h"
#include "trace.h"

struct recent_node recent_nodes[RECENT_NODES];

/* Three tables by open addressing, each at most half full: nodes by program counters, which are forgotten when the program's files change; places by
 * their texts; and nodes by place, caller and flags. So a line has one place, however many program counters it has. Number 0 marks a free entry. */
struct entry {
    uint64_t key;    /* program counter, hash of a text, or place and flags */
    uint32_t caller;
    uint32_t number; /* of the node, or 1 and that of the place */
    const char *text;
};
struct table {
    struct entry *all;
    size_t room, count;
};
static struct table known, places, nodes;

static uint64_t mix(uint64_t key, uint32_t caller)
{
    uint64_t mixed = (key ^ (uint64_t)caller << 32) * UINT64_C(0x9e3779b97f4a7c15);
    return mixed ^ mixed >> 32;
}

static bool is_same(const struct entry *entry, uint64_t key, uint32_t caller, const char *text)
{
    return entry->key == key && entry->caller == caller && (!text || strcmp(entry->text, text) == 0);
}

/* The entry of a key, or the one that is free for it. */
static struct entry *find(const struct table *table, uint64_t key, uint32_t caller, const char *text)
{
    size_t at = mix(key, caller) & (table->room - 1);
    while (table->all[at].number && !is_same(&table->all[at], key, caller, text))
        at = (at + 1) & (table->room - 1);
    return &table->all[at];
}

static void grow(struct table *table)
{
    struct table old = *table;
    table->room = old.room ? 2 * old.room : 1024;
    table->all = get_zeroed(NULL, 0, table->room * sizeof *table->all);
    for (size_t i = 0; i < old.room; i++)
        if (old.all[i].number)
            *find(table, old.all[i].key, old.all[i].caller, old.all[i].text) = old.all[i];
    free(old.all);
}

static struct entry *find_or_free(struct table *table, uint64_t key, uint32_t caller, const char *text)
{
    if (2 * table->count >= table->room)
        grow(table);
    return find(table, key, caller, text);
}

static void add(struct table *table, struct entry *free_entry, struct entry entry)
{
    *free_entry = entry;
    table->count++;
}

void nodes_forget_places(void)
{
    memset(recent_nodes, 0, sizeof recent_nodes);
    if (known.room)
        memset(known.all, 0, known.room * sizeof *known.all);
    known.count = 0;
}

static uint64_t hash_text(const char *text)
{
    uint64_t hash = UINT64_C(0xcbf29ce484222325);
    for (; *text; text++)
        hash = (hash ^ (unsigned char)*text) * UINT64_C(0x100000001b3);
    return hash;
}

/* 1 and the number of a place, or 0 if it can't be written. The function that it is in stands behind it. */
static uint32_t place_of(const struct site *site)
{
    char text[NAME_BYTES + 1];
    size_t bytes = site->bytes - 1;
    memcpy(text, site->text + 1, bytes);
    text[bytes] = 0;
    uint64_t hash = hash_text(text);
    struct entry *entry = find_or_free(&places, hash, 0, text);
    if (!entry->number && binary_add_place(text, bytes)) {
        add(&places, entry, (struct entry){hash, 0, (uint32_t)places.count + 1, strcpy(get_memory(NULL, bytes + 1), text)});
        binary_add_function(entry->number - 1, site->function);
    }
    return entry->number;
}

static uint32_t new_node(const struct site *site, bool is_inlined, uint32_t caller)
{
    uint32_t place = place_of(site);
    uint8_t flags = (uint8_t)((site->is_in_header ? NODE_IN_HEADER : 0) | (is_inlined ? NODE_INLINED : 0));
    uint64_t key = (uint64_t)place << 8 | flags;
    struct entry *entry = find_or_free(&nodes, key, caller, NULL);
    if (!entry->number && place && binary_add_node(caller, place - 1, flags))
        add(&nodes, entry, (struct entry){key, caller, (uint32_t)nodes.count + 1, NULL});
    return entry->number;
}

/* The nearest site outside of headers of the system, of those into which this one was inlined, or NULL. */
static const struct site *outside_headers(const struct site *site)
{
    while (site && site->is_in_header)
        site = site->caller;
    return site;
}

/* The node of a site, whose function may have been inlined. Nobody needs the lines of the system's headers through which it was called. */
static uint32_t node_of_site(const struct site *site, uint32_t caller)
{
    const struct site *around = outside_headers(site->caller);
    return new_node(site, around != NULL, around ? node_of_site(around, caller) : caller);
}

/* An access in a header of the system stands for its nearest caller that is known. */
static const struct site *site_or_gap(uint64_t place)
{
    static const struct site gap = {.text = " calls-left-out", .bytes = 15, .is_in_header = true, .function = ""};
    return place == CALLS_LEFT_OUT ? &gap : site_of(place);
}

uint32_t nodes_find(uint64_t place, uint32_t caller)
{
    struct entry *entry = find_or_free(&known, place, caller, NULL);
    uint32_t node = entry->number ? entry->number : node_of_site(site_or_gap(place), caller);
    if (!entry->number && node)
        add(&known, entry, (struct entry){place, caller, node, NULL});
    recent_nodes[(place ^ caller) % RECENT_NODES] = (struct recent_node){place, caller, node};
    return node;
}

uint32_t nodes_of_call(uint64_t place, uint32_t caller)
{
    const struct site *site = outside_headers(site_of(place));
    return site ? node_of_site(site, caller) : caller;
}
