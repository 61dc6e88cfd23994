#define _GNU_SOURCE
#include "online.h"

#include <inttypes.h>
#include <stdarg.h>
#include <stdio.h>
#include <stdlib.h>
#include <string.h>

#include "options.h"
#include "plain.h"
#include "recording.h"
#include "replay.h"
#include "rules.h"
#include "sites.h"
#include "trace.h"

/* The most locks that a thread holds. */
#define MOST_HELD 64

/* A race that comes in parts from one thread, with other threads' events in between. */
struct lock {
    uint64_t address, place;
    uint32_t stack;
    bool writes;
};
struct race {
    struct race *next;
    uint32_t thread, other, lane;
    uint64_t word;
    bool has_word; /* its first part has come */
    struct slot block; /* of 0 bytes if none is known */
    unsigned count;
    struct lock locks[MOST_HELD];
};
static struct race *begun;

/* How many races a line of source has, by their kind. */
struct counted {
    struct counted *next; /* in its bucket */
    const char *site;
    bool writes;
    uint64_t races;
};
#define BUCKETS 1024u
static struct counted *counted[BUCKETS];
static uint64_t race_count, suppressed_count;
static unsigned counted_count;

/* ---- Text ---- */

static char *text;
static size_t text_bytes;
static FILE *text_file;

static void begin_text(void)
{
    text_file = open_memstream(&text, &text_bytes);
    if (!text_file)
        fail("cannot make a text", NULL);
}

/* It is written at once, so that no other text comes into it. */
static void write_text(void)
{
    fclose(text_file);
    replay_write(text, text_bytes);
    free(text);
}

static void say(const char *format, ...) __attribute__((format(printf, 1, 2)));
static void say(const char *format, ...)
{
    va_list rest;
    va_start(rest, format);
    vfprintf(text_file, format, rest);
    va_end(rest);
}

static void say_thread(uint32_t number)
{
    const char *name = trace_has_thread(number) ? trace_thread(number)->name : "";
    say(*name ? "t%u (%s)" : "t%u", number, name);
}

/* ---- Sites ---- */

/* A site in a header of the system stands for the line that its function was inlined into. */
static const struct site *outside_headers(const struct site *site)
{
    while (site->is_in_header && site->caller)
        site = site->caller;
    return site;
}

static const struct stack_node *node_of(uint32_t node)
{
    return node && node < STACK_NODES ? &recording.ring->stacks.nodes[node] : NULL;
}

/* A caller is a node that was there before: the program may have written anything into the ring. */
static uint32_t caller_of(uint32_t node)
{
    uint32_t caller = node_of(node)->caller;
    return caller < node ? caller : 0;
}

/* The nearest line of the program's own: an access in a header of the system is its caller's. `rest` are the calls around it. */
static const struct site *site_of_access(uint64_t place, uint32_t node, uint32_t *rest)
{
    const struct site *site = outside_headers(site_of(place));
    while (site->is_in_header && node_of(node)) {
        site = outside_headers(site_of(node_of(node)->call));
        node = caller_of(node);
    }
    *rest = node;
    return site;
}

static const char *text_of(const struct site *site)
{
    return site->text + 1;
}

static void say_site(const struct site *site)
{
    say("%.*s", (int)site->bytes - 1, text_of(site));
}

static void say_called(const struct site *site)
{
    if (site->is_in_header)
        return;
    say("  called at ");
    say_site(site);
    if (*site->function)
        say(" in %s", site->function);
    say("\n");
}

/* The calls that led to a line: what it was inlined into, and the calls around that, if their code is the program's. */
static void say_calls(const struct site *site, uint32_t node)
{
    if (*site->function)
        say("  in %s\n", site->function);
    for (const struct site *around = site->caller; around; around = around->caller)
        say_called(around);
    for (; node_of(node); node = caller_of(node))
        if (sites_has_instrumented(node_of(node)->call))
            for (const struct site *call = site_of(node_of(node)->call); call; call = call->caller)
                say_called(call);
    if (node & STACK_CUT)
        say("  called by more than that\n");
}

/* ---- One race ---- */

static struct race *find_race(uint32_t thread)
{
    for (struct race *race = begun; race; race = race->next)
        if (race->thread == thread)
            return race;
    struct race *race = get_memory(NULL, sizeof *race);
    *race = (struct race){.next = begun, .thread = thread};
    return begun = race;
}

static void end_race(struct race *race)
{
    struct race **place = &begun;
    while (*place != race)
        place = &(*place)->next;
    *place = race->next;
    free(race);
}

static struct counted *count_race(const char *site, size_t bytes, bool writes)
{
    uint32_t hash = writes;
    for (size_t nth = 0; nth < bytes; nth++)
        hash = hash * 31 + (unsigned char)site[nth];
    struct counted **bucket = &counted[hash % BUCKETS], *one = *bucket;
    while (one && (one->writes != writes || strlen(one->site) != bytes || memcmp(one->site, site, bytes) != 0))
        one = one->next;
    if (!one) {
        one = get_memory(NULL, sizeof *one);
        *one = (struct counted){*bucket, strndup(site, bytes), writes, 0};
        *bucket = one;
        counted_count++;
    }
    one->races++;
    race_count++;
    return one;
}

/* Of several programs each one says which it is. */
static void say_program(void)
{
    if (further_count() > 1)
        say("%.*s, process %u: ", RING_NAME_BYTES, recording.ring->program, atomic_load(&recording.ring->owner));
}

/* What a file's symbols call an address. False if nothing. */
static bool say_variable(uint64_t address)
{
    char name[PLAIN_BYTES];
    const struct symbol *found = sites_variable(address);
    if (!found)
        return false;
    plain_symbol(found->name, name);
    say("%s", name);
    if (address > found->begin)
        say("+%" PRIu64, address - found->begin);
    return true;
}

/* The block that an access is in, if it is known, and the nearest line of the program's own that got it. */
static bool say_block(const struct slot *block, uint64_t address)
{
    uint64_t size = reuse_size(block), place = block->second;
    uint32_t node = slot_stack(block) & ~STACK_CUT;
    if (!size)
        return false;
    for (; !sites_has_instrumented(place) && node_of(node); node = caller_of(node))
        place = node_of(node)->call;
    say("byte %" PRIu64 " of a block of %" PRIu64 " byte%s", address - (block->first & REUSE_MASK), size, size == 1 ? "" : "s");
    if (sites_has_instrumented(place)) {
        say(" allocated at ");
        say_site(site_of_access(place, node, &node));
    }
    return true;
}

static void say_memory(const struct slot *block, uint64_t address, uint32_t bytes)
{
    if (say_variable(address) || say_block(block, address))
        say(", ");
    say("%" PRIu32 " byte%s at 0x%" PRIx64, bytes, bytes == 1 ? "" : "s", address);
}

static void say_lock(const struct lock *lock)
{
    uint32_t rest;
    if (!say_variable(lock->address))
        say("the lock at 0x%" PRIx64, lock->address);
    say("%s", lock->writes ? "" : ", to read");
    if (!lock->place)
        return;
    say(", taken at ");
    say_site(site_of_access(lock->place, lock->stack, &rest));
}

static void say_locks(const struct race *race)
{
    say("  ");
    say_thread(race->thread);
    say(race->count ? " holds " : " holds no lock\n");
    for (unsigned nth = 0; nth < race->count; nth++) {
        say(nth ? "    and " : "");
        say_lock(&race->locks[nth]);
        say("\n");
    }
}

static enum race_answer report(const struct race *race, const struct slot *slot)
{
    bool writes = slot_kind(slot) == EVENT_RACE_WRITE;
    uint32_t rest;
    const struct site *site = site_of_access(slot->second, slot_stack(slot) & ~STACK_CUT, &rest);
    if (rules_take(text_of(site), site->bytes - 1, race->word / 4)) {
        suppressed_count++;
        return ANSWER_SUPPRESSED;
    }
    if (count_race(text_of(site), site->bytes - 1, writes)->races > 1)
        return ANSWER_KNOWN;
    begin_text();
    say_program();
    say("race: ");
    say_site(site);
    say(": ");
    say_thread(race->thread);
    say(" %s ", writes ? "writes" : "reads");
    say_memory(&race->block, slot->first, slot->size);
    if (race->other) {
        say(", which ");
        say_thread(race->other);
        say(" has used");
    }
    say("\n");
    say_calls(site, rest | (slot_stack(slot) & STACK_CUT));
    say_locks(race);
    write_text();
    return ANSWER_REPORTED;
}

void online_take(const struct slot *slot)
{
    /* The program may have written anything into the ring. */
    if (!options.is_online)
        return;
    struct race *race = find_race(slot->thread);
    switch (slot_kind(slot)) {
    case EVENT_RACE_WORD:
        race->has_word = true;
        race->word = slot->first;
        race->other = slot->size;
        race->lane = (uint32_t)(slot->second % LANES);
        race->count = 0;
        race->block = (struct slot){0};
        break;
    case EVENT_RACE_BLOCK:
        race->block = *slot;
        break;
    case EVENT_RACE_LOCK:
        if (race->count < MOST_HELD)
            race->locks[race->count++] = (struct lock){slot->first, slot->second, slot_stack(slot) & ~STACK_CUT, slot->size};
        break;
    default:
        if (race->has_word)
            atomic_store(&recording.ring->lanes[race->lane].answer, report(race, slot));
        end_race(race);
        break;
    }
}

/* ---- The end ---- */

static int by_races(const void *one, const void *other)
{
    const struct counted *first = *(const struct counted *const *)one, *second = *(const struct counted *const *)other;
    if (first->races != second->races)
        return first->races > second->races ? -1 : 1;
    int order = strcmp(first->site, second->site);
    return order ? order : first->writes - second->writes;
}

static void say_sites(void)
{
    struct counted **all = get_memory(NULL, (counted_count + 1) * sizeof *all);
    size_t count = 0;
    for (unsigned bucket = 0; bucket < BUCKETS; bucket++)
        for (struct counted *one = counted[bucket]; one; one = one->next)
            all[count++] = one;
    qsort(all, count, sizeof *all, by_races);
    if (count)
        say("races     kind      site\n");
    for (size_t nth = 0; nth < count; nth++)
        say("%-9" PRIu64 " %-9s %s\n", all[nth]->races, all[nth]->writes ? "write" : "read", all[nth]->site);
    free(all);
}

static uint64_t sum_watched(unsigned kind)
{
    uint64_t sum = 0;
    for (unsigned lane = 0; lane < LANES; lane++)
        sum += __atomic_load_n(&recording.ring->lanes[lane].watched[kind], __ATOMIC_RELAXED);
    return sum;
}

static uint32_t thread_count;

static void count_thread(const struct thread *thread)
{
    (void)thread;
    thread_count++;
}

/* The trace's end. What the program did until it was killed is in the ring. */
static void end(uint64_t lost)
{
    uint64_t accesses = sum_watched(0), bytes = atomic_load(&recording.ring->detector_bytes);
    trace_events = accesses + sum_watched(1);
    if (!trace_events && !lost)
        return;
    trace_each_thread(count_thread);
    begin_text();
    say_sites();
    say_program();
    say("races %" PRIu64 ", suppressed %" PRIu64 ", accesses %" PRIu64 ", ", race_count, suppressed_count, accesses);
    say("threads %" PRIu32 ", memory %" PRIu64 " KiB", thread_count, bytes / 1024);
    if (lost)
        say(", lost %" PRIu64, lost);
    say("\n");
    write_text();
}

void online_fill(struct outcome *outcome)
{
    outcome->replay_status = race_count != 0;
}

void online_say_watched(uint64_t events, uint64_t lost)
{
    const char *missing = lost ? ": races may be missing too, or false" : "";
    if (!options.is_quiet || lost)
        fprintf(stderr, "record: %" PRIu64 " events watched, %" PRIu64 " lost%s\n", events, lost, missing);
}

/* ---- No trace ---- */

static void nothing(void) {}
static void no_access(struct thread *thread, bool is_write, uint64_t address, uint64_t bytes, uint64_t place)
{
    (void)thread, (void)is_write, (void)address, (void)bytes, (void)place;
}
static void no_reuse(struct thread *thread, uint64_t address, uint64_t bytes, uint64_t place) { (void)thread, (void)address, (void)bytes, (void)place; }
static void no_lock(struct thread *thread, enum verb verb, struct label *lock, uint64_t place) { (void)thread, (void)verb, (void)lock, (void)place; }
static void no_thread(struct thread *thread, enum verb verb, struct thread *other, uint64_t place) { (void)thread, (void)verb, (void)other, (void)place; }
static void no_verb(struct thread *thread, enum verb verb) { (void)thread, (void)verb; }
static void no_comment(const char *said, size_t bytes) { (void)said, (void)bytes; }

const struct form no_form = {
    .begin = nothing, .access = no_access, .reuse = no_reuse, .of_lock = no_lock, .of_thread = no_thread, .alone = no_verb, .comment = no_comment, .end = end,
    .end_part = nothing,
};
