/* The trace in its binary form: blocks of records, of which an access has some four bytes. Numbers go into it as the machine has them, which is
 * little-endian. */
#include "binary.h"

#include <stdio.h>
#include <string.h>

#include "form.h"
#include "nodes.h"
#include "output.h"
#include "sites.h"
#include "stacks.h"
#include "trace.h"
#include "variables.h"

static const char magic[8] = "\xe5" "eraser\x04";

/* A block ends behind the record with which it has this many bytes. */
#define BLOCK_BYTES 65536
#define HEADER_BYTES 16
/* The most bytes of an access. A longer one is cut where addresses are multiples of that. */
#define ACCESS_BYTES 16u
#define SLOTS 256

/* Kinds of records. The facts of locks and those of blocks have different lengths. */
enum kind {
    KIND_THREAD = 0, KIND_NODE = 1, KIND_REUSE = 16, KIND_STORE = 19, KIND_LOAD = 20, KIND_THREAD_NAME = 21, KIND_LOCK_NAME = 22, KIND_PLACE = 23,
    KIND_NEW_NODE = 24, KIND_NOTE = 25, KIND_VARIABLE_FACT = 26, KIND_FUNCTION_FACT = 27, KIND_THREAD_FACT = 28, KIND_LOCK_FACT = 29, KIND_BLOCK_FACT = 29,
    KIND_LOST = 30, KIND_END = 31,
};
static const uint8_t kinds[VERBS] = {2, 3, 4, 5, 10, 11, 12, 13, 14, 15, 6, 7, 8, 9};

/* The block that is being written. */
static struct block {
    bool is_open;
    uint64_t number;
    size_t begin, full;  /* where its records begin in the buffer, and up to where the next one has room */
    uint32_t count;      /* of its records */
    uint32_t thread;     /* 1 and its number, 0: none yet */
    uint32_t node;
    uint64_t last[SLOTS]; /* addresses, by the thread's number */
} block;
static uint32_t thread_names, lock_names;

/* ---- Blocks ---- */

static inline uint64_t mix(uint64_t mixed, uint64_t word)
{
    uint64_t product = (mixed + word) * UINT64_C(0x9e3779b97f4a7c15);
    return product >> 32 | product << 32;
}

static uint64_t checksum(const char *records, size_t length)
{
    uint64_t mixed = mix(mix(0, block.number), length | (uint64_t)block.count << 32), word;
    for (; length >= sizeof word; length -= sizeof word, records += sizeof word) {
        memcpy(&word, records, sizeof word);
        mixed = mix(mixed, word);
    }
    if (!length)
        return mixed;
    word = 0;
    memcpy(&word, records, length);
    return mix(mixed, word);
}

static void end_block(void)
{
    if (!block.is_open)
        return;
    uint32_t length = (uint32_t)(output_used - block.begin);
    uint64_t mixed = checksum(output_buffer + block.begin, length);
    char *header = output_buffer + block.begin - HEADER_BYTES;
    memcpy(header, &length, 4);
    memcpy(header + 4, &block.count, 4);
    memcpy(header + 8, &mixed, 8);
    block.number++;
    block.is_open = false;
}

/* A block begins behind room for its header. From `full` on it is long enough, or there may be no room in the buffer or below the limit. */
static char *open_block(void)
{
    output_used += HEADER_BYTES;
    size_t full = output_used + BLOCK_BYTES;
    block = (struct block){.is_open = true, .number = block.number, .begin = output_used, .full = output_most(full)};
    return output_buffer + output_used;
}

static char *more_room(void)
{
    if (block.is_open && output_used - block.begin >= BLOCK_BYTES)
        end_block();
    if (!output_room(OUTPUT_ROOM))
        return NULL;
    return block.is_open ? output_buffer + output_used : open_block();
}

/* Where the next record begins, with room for all that an event needs, or NULL if the trace has ended. */
static inline char *room(void)
{
    return __builtin_expect(block.is_open && output_used < block.full, 1) ? output_buffer + output_used : more_room();
}

/* ---- Records. Each returns where the next one begins. ---- */

static inline char *put(char *at, const void *bytes, size_t count)
{
    memcpy(at, bytes, count);
    return at + count;
}

/* A tag and a number of 1, 2, 4 or 8 bytes. All 8 are copied, and the next record is written over those that aren't needed. */
static inline char *put_operand(char *at, enum kind kind, uint64_t operand)
{
    unsigned length = operand < 256 ? 0 : operand < 65536 ? 1 : operand >> 32 ? 3 : 2;
    *at++ = (char)(128 + 4 * (unsigned)kind + length);
    memcpy(at, &operand, sizeof operand);
    block.count++;
    return at + (1u << length);
}

static char *put_text(char *at, enum kind kind, const char *text, size_t bytes)
{
    return put(put_operand(at, kind, bytes), text, bytes);
}

/* Names come in front of the first record that speaks of them. */
static char *put_thread_name(char *at, struct thread *thread)
{
    if (thread->number)
        return at;
    thread->number = ++thread_names;
    return put_text(at, KIND_THREAD_NAME, thread->text, thread->bytes - 1u);
}

/* With the fact where it lies, unless it is no place in the program's memory. The fact has the call that created it as well, or else the one at node
 * `taken` that acquires it first, with a byte more. It is 0 if the event is no acquire. */
static char *put_lock_name(char *at, struct label *lock, uint32_t taken)
{
    if (lock->number)
        return at;
    uint32_t number = lock_names++;
    lock->number = lock_names;
    at = put_text(at, KIND_LOCK_NAME, lock->name, strlen(lock->name));
    if (lock->address >= ADDRESS_END)
        return at;
    size_t bytes = lock->created_at ? 14 : taken ? 15 : 10;
    at = put(put(put_operand(at, KIND_LOCK_FACT, bytes), &number, 4), &lock->address, 6);
    return put(put(at, lock->created_at ? &lock->created_at : &taken, bytes > 10 ? 4 : 0), "", bytes > 14);
}

static inline char *put_thread(char *at, struct thread *thread)
{
    if (__builtin_expect(block.thread == thread->number && block.thread, 1))
        return at;
    at = put_thread_name(at, thread);
    block.thread = thread->number;
    return put_operand(at, KIND_THREAD, thread->number - 1);
}

static inline char *put_node(char *at, uint32_t node)
{
    if (node == block.node)
        return at;
    block.node = node;
    return put_operand(at, KIND_NODE, node);
}

/* The number of the node of a place, 0 for none. */
static inline uint32_t node_at(uint64_t place)
{
    return place ? node_of(place, caller_of_event) : 0;
}

/* The same for events of memory: if the place is not known, the node is that of the call around the event. */
static inline uint32_t node_or_caller(uint64_t place)
{
    return place ? node_of(place, caller_of_event) : caller_of_event;
}

/* The end of the records of an event that no text shows. */
static inline void end_hidden_event(const char *at)
{
    output_use(at);
    trace_events++;
}

/* The end of another event's records. */
static inline void end_event(struct thread *thread, const char *at)
{
    thread->events++;
    end_hidden_event(at);
}

/* Room for an event, or NULL. Then it is lost. */
static inline char *begin_event(struct thread *thread)
{
    char *at = room();
    if (at)
        return put_thread(at, thread);
    trace_lost++;
    return NULL;
}

bool binary_add_place(const char *text, size_t bytes)
{
    char *at = room();
    if (at)
        output_use(put_text(at, KIND_PLACE, text, bytes));
    return at != NULL;
}

void binary_add_function(uint32_t place, const char *name)
{
    size_t bytes = strlen(name);
    char *at = bytes ? room() : NULL;
    if (at)
        output_use(put(put(put_operand(at, KIND_FUNCTION_FACT, sizeof place + bytes), &place, sizeof place), name, bytes));
}

bool binary_add_node(uint32_t caller, uint32_t place, uint8_t flags)
{
    char *at = room();
    if (!at)
        return false;
    at = put_operand(at, KIND_NEW_NODE, caller);
    at = put(at, &place, sizeof place);
    *at++ = (char)flags;
    output_use(at);
    return true;
}

/* ---- Events ---- */

/* The signed difference of two addresses, in as few bytes as it may have. */
static inline char *put_distance(char *at, uint64_t address, uint64_t last, unsigned *length)
{
    int64_t distance = (int64_t)((address - last) << 16) >> 16;
    memcpy(at, &distance, sizeof distance);
    *length = distance == (int8_t)distance ? 0 : distance == (int16_t)distance ? 1 : distance == (int32_t)distance ? 2 : 3;
    return at + (*length < 3 ? 1u << *length : 6);
}

static inline char *put_access(char *at, bool is_write, uint64_t address, uint64_t bytes, uint32_t node)
{
    static const uint8_t sizes[ACCESS_BYTES + 1] = {3, 0, 3, 3, 1, 3, 3, 3, 2, 3, 3, 3, 3, 3, 3, 3, 3};
    unsigned size = sizes[bytes], distance, length = 0;
    uint64_t *last = &block.last[(block.thread - 1) % SLOTS];
    char *tag = at++;
    if (size == 3)
        *at++ = (char)bytes;
    at = put_distance(at, address, *last, &distance);
    *last = address;
    if (node != block.node) {
        memcpy(at, &node, sizeof node);
        length = node < 256 ? 1 : node < 65536 ? 2 : 3;
        at += 1u << (length - 1);
        block.node = node;
    }
    *tag = (char)(is_write << 6 | size << 4 | distance << 2 | length);
    block.count++;
    return at;
}

static inline void write_part(struct thread *thread, bool is_write, uint64_t address, uint64_t bytes, uint32_t node)
{
    char *at = begin_event(thread);
    if (at)
        end_event(thread, put_access(at, is_write, address, bytes, node));
}

static __attribute__((noinline)) void write_long_access(struct thread *thread, bool is_write, uint64_t address, uint64_t bytes, uint32_t node)
{
    for (uint64_t end = address + bytes, next = address; address < end; address = next) {
        next = end - address <= ACCESS_BYTES ? end : (address | (ACCESS_BYTES - 1)) + 1;
        write_part(thread, is_write, address, next - address, node);
    }
}

static void write_access(struct thread *thread, bool is_write, uint64_t address, uint64_t bytes, uint64_t place)
{
    uint32_t node = node_of(place, caller_of_event);
    if (bytes <= ACCESS_BYTES)
        write_part(thread, is_write, address, bytes, node);
    else
        write_long_access(thread, is_write, address, bytes, node);
}

static void write_reuse(struct thread *thread, uint64_t address, uint64_t bytes, uint64_t place)
{
    uint32_t node = node_or_caller(place);
    char *at = begin_event(thread);
    if (at)
        end_event(thread, put(put_operand(put_node(at, node), KIND_REUSE, bytes), &address, 6));
}

static bool acquires(enum verb verb)
{
    return verb == VERB_LOCK || verb == VERB_READ_LOCK || verb == VERB_TRY_LOCK || verb == VERB_TRY_READ_LOCK;
}

static void write_of_lock(struct thread *thread, enum verb verb, struct label *lock, uint64_t place)
{
    uint32_t node = node_at(place);
    char *at = begin_event(thread);
    if (!at)
        return;
    at = put_node(put_lock_name(at, lock, acquires(verb) ? node : 0), node);
    at = put_operand(at, (enum kind)kinds[verb], lock->number - 1);
    if (verb == VERB_FAILED_TRY || verb == VERB_FAILED_READ_TRY)
        end_hidden_event(at);
    else
        end_event(thread, at);
}

static void write_of_thread(struct thread *thread, enum verb verb, struct thread *other, uint64_t place)
{
    uint32_t node = node_at(place);
    char *at = begin_event(thread);
    if (!at)
        return;
    at = put_thread_name(at, other);
    end_event(thread, put_operand(put_node(at, node), (enum kind)kinds[verb], other->number - 1));
}

static void write_alone(struct thread *thread, enum verb verb)
{
    char *at = begin_event(thread);
    if (at)
        end_event(thread, put_operand(at, (enum kind)kinds[verb], 0));
}

static void write_of_atomic(struct thread *thread, bool stores, uint64_t address, uint64_t place)
{
    uint32_t node = node_at(place);
    char *at = begin_event(thread);
    if (at)
        end_hidden_event(put_operand(put_node(at, node), stores ? KIND_STORE : KIND_LOAD, address));
}

/* ---- Facts ---- */

/* A record with these bytes, unless the limit is reached: then no event comes behind it. */
static void write_bytes(enum kind kind, const void *bytes, size_t count)
{
    char *at = output_is_beyond_limit(OUTPUT_ROOM) ? NULL : room();
    if (at)
        output_use(put_text(at, kind, bytes, count));
}

/* A library may have made the call for the program. */
static uint32_t node_of_creator(uint64_t place)
{
    return caller_of_event && !sites_has_instrumented(place) ? caller_of_event : node_at(place);
}

static void write_thread_fact(const struct thread *thread)
{
    char fact[8 + sizeof thread->name];
    uint32_t number = thread->number - 1;
    size_t bytes = strlen(thread->name);
    if (!thread->number || (!bytes && !thread->created_at))
        return;
    put(put(put(fact, &number, 4), &thread->created_at, 4), thread->name, bytes);
    write_bytes(KIND_THREAD_FACT, fact, 8 + bytes);
}

static void write_variable_fact(const struct variable *variable)
{
    char fact[12 + NAME_BYTES + 1];
    size_t bytes = legal_site(fact + 12, variable->name);
    put(put(fact, &variable->address, 6), &variable->size, 6);
    write_bytes(KIND_VARIABLE_FACT, fact, 12 + bytes);
}

static void write_block_fact(uint64_t address, uint64_t bytes, uint64_t place)
{
    char fact[16];
    uint32_t node = node_or_caller(place);
    put(put(put(fact, &address, 6), &bytes, 6), &node, 4);
    write_bytes(KIND_BLOCK_FACT, fact, sizeof fact);
}

static void write_facts(void)
{
    trace_each_thread(write_thread_fact);
    if (trace_events)
        variables_each(write_variable_fact);
}

/* ---- The other records ---- */

static void write_comment(const char *text, size_t bytes)
{
    write_bytes(KIND_NOTE, text, bytes);
}

static void begin(void)
{
    char *at = output_room(OUTPUT_ROOM);
    if (at)
        output_use(put(at, magic, sizeof magic));
}

/* They have room even if the limit is reached. If events are lost, the end says so itself. */
static void end(uint64_t lost)
{
    write_facts();
    char text[64], *at = output_last_room();
    if (!block.is_open)
        at = open_block();
    int bytes = snprintf(text, sizeof text, "complete: %llu events, none lost", (unsigned long long)trace_events);
    at = lost ? put_operand(at, KIND_LOST, lost) : put_text(at, KIND_NOTE, text, (size_t)bytes);
    output_use(put_operand(at, KIND_END, trace_events));
    end_block();
}

const struct form binary_form = {
    .begin = begin, .access = write_access, .reuse = write_reuse, .of_lock = write_of_lock, .of_thread = write_of_thread, .alone = write_alone,
    .of_atomic = write_of_atomic, .creator = node_of_creator, .got = write_block_fact, .comment = write_comment, .end = end, .end_part = end_block,
};
