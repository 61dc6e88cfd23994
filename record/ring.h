/* The memory that a recorded program and the writer of its trace share: events in one order.
 *
 * Each thread has a lane, which is a ring of slots of its own. For each event it draws a ticket from the one counter, fills the next slot of its lane
 * and publishes it. The writer takes the events of all lanes in the order of their tickets. The memory is a file without a name that both have
 * mapped, so that an event is safe once it is published, whatever becomes of the program. */
#ifndef ERASER_RING_H
#define ERASER_RING_H

#include <stdatomic.h>
#include <stdint.h>

#define RING_MAGIC 0x61676e6972617265u /* "eraringa" in memory */

/* No ticket is 0. */
#define FIRST_TICKET 1

/* A lane of the first kind has 1 MiB of slots, and one of the second 128 KiB. No page of a lane is used before its slots are. A thread takes the first
 * lane that is free, so that only programs with many threads use those of the second kind. */
#define LARGE_LANES 64u
#define LARGE_LANE_BITS 15
#define LANE_BITS 12
#define LANES 8192u
#define RING_SLOTS (((uint64_t)LARGE_LANES << LARGE_LANE_BITS) + ((uint64_t)(LANES - LARGE_LANES) << LANE_BITS))

/* Threads add to one of these counters what they cannot record. */
#define LOST_COUNTERS 64

/* Name of the ring's file, as it stands in /proc/PID/maps with a number behind it, and of the variable by which the program finds it. */
#define RING_FILE_NAME "eraser-record"
#define PRESENCE_FILE_NAME "eraser-presence"
#define PRESENCE_BYTES 4096
#define RING_VARIABLE "ERASER_RECORD"

enum event_kind {
    EVENT_VOID,       /* nothing: the slot of an event that was given up */
    EVENT_READ,       /* first: address, size: bytes, second: program counter */
    EVENT_WRITE,      /* the same */
    EVENT_LOCK,       /* first: lock, acquired in write mode, size: enum lock_kind and perhaps LOCK_TRIED, second: program counter, or 0 */
    EVENT_READ_LOCK,  /* the same in read mode */
    EVENT_UNLOCK,     /* first: lock, released in whichever mode the thread holds it, size: enum lock_kind and perhaps LOCK_FAILED, second: program counter */
    EVENT_LOCK_TWICE, /* first: lock that the thread holds and waits for, which lasts for ever; size: enum lock_kind, second: program counter */
    EVENT_LOCK_BEGIN, /* first: lock that begins a new life, second: program counter of the call that creates it */
    EVENT_LOCK_END,   /* first: lock whose life ends, second: program counter */
    EVENT_REUSE,      /* first: address, size: bytes that are put to a new use, second: program counter of the call that does so, or 0; reuse_size() tells the bytes */
    EVENT_FREE,       /* the same of a call that ends the lives of locks there */
    EVENT_IGNORE_ON,
    EVENT_IGNORE_OFF,
    EVENT_THREAD,     /* first: the thread's pthread_t, second: program counter of the call that created it, or 0, size: the calls around that, as slot_stack() has them */
    EVENT_NAME_WHOM,  /* first: pthread_t of the thread that the next EVENT_NAME of this thread names */
    EVENT_NAME,       /* first and second: 16 bytes of text */
    EVENT_MAPS_BEGIN, /* the text of /proc/self/maps follows */
    EVENT_MAPS_TEXT,  /* size: bytes, first and second: up to 16 bytes of text */
    EVENT_MAPS_END,
    /* What orders threads, if the ring asks for it. */
    EVENT_START,      /* first: pthread_t of the thread that is started, size: its number, second: program counter */
    EVENT_JOIN_WHOM,  /* first: pthread_t of the thread that the next EVENT_JOIN of this thread joins */
    EVENT_JOIN,       /* first: the same pthread_t, second: program counter */
    EVENT_SIGNAL,     /* first: object, size: enum object_kind, second: program counter, or 0 */
    EVENT_AWAIT,      /* the same */
    EVENT_OBJECT_BEGIN, /* first: object whose life begins */
    EVENT_OBJECT_END, /* first: object whose life ends */
    EVENT_BARRIER,    /* first: barrier whose life begins, second: how many threads it lets go at a time, 0 if others may come to it */
    EVENT_FENCE,      /* size: FENCE_ACQUIRES, FENCE_RELEASES or both, second: program counter, as in the rest */
    EVENT_STORED,     /* first: atomic, stored by an operation that doesn't release, in a thread that has released by a fence, or if the ring asks for flow */
    EVENT_LET_GO,     /* first: object that a holder lets go, size: enum object_kind: it signals and awaits it, if anybody has signalled it before */
    EVENT_LOADED,     /* first: atomic, loaded by an operation that doesn't acquire, size: LOADS_FOR_FENCES, LOADS_FOR_FLOW or both */
    EVENT_TAKEN,      /* as EVENT_REUSE, of memory that a call gives to the program, or of a new thread's stack, which has no place: a fact of the trace. Recorded only with --stacks, and known online */
    EVENT_TAKEN_ANEW, /* online: a block as EVENT_FREE has it gets another size, or is moved */
    EVENT_THREAD_END, /* the thread runs no more of the program's code, and its pthread_t may become another's */
    /* Of --online, a race: first its word, then its block, if one is known, and each lock that the thread holds, last the access. */
    EVENT_RACE_WORD,  /* first: the word, size: the number of the other thread, 0 if it isn't known, second: the lane that gets the answer */
    EVENT_RACE_BLOCK, /* as EVENT_TAKEN */
    EVENT_RACE_LOCK,  /* first: lock, second: program counter of the call that took it, or 0, size: 1 if it is held to write, 0 to read */
    EVENT_RACE_READ,  /* as EVENT_READ */
    EVENT_RACE_WRITE,
};

/* Online these go to the detector in the program, and all others into the ring. */
#define IS_FOR_DETECTOR(kind) ((kind) <= EVENT_IGNORE_OFF || (kind) == EVENT_TAKEN || (kind) == EVENT_TAKEN_ANEW)

/* Of these events `second` is the program counter of a call, or 0. */
#define KINDS_WITH_PLACES (1u << EVENT_LOCK | 1u << EVENT_READ_LOCK | 1u << EVENT_UNLOCK | 1u << EVENT_LOCK_TWICE | 1u << EVENT_LOCK_BEGIN               \
                           | 1u << EVENT_LOCK_END | 1u << EVENT_REUSE | 1u << EVENT_FREE | 1u << EVENT_START | 1u << EVENT_JOIN | 1u << EVENT_SIGNAL      \
                           | 1u << EVENT_AWAIT | 1u << EVENT_FENCE | 1u << EVENT_STORED | 1u << EVENT_LET_GO | 1u << EVENT_LOADED | 1u << EVENT_TAKEN)

/* A reuse has addresses below 2^48, so the upper bits of how many bytes it has stand above its address. */
#define REUSE_BITS 48
#define REUSE_MASK ((UINT64_C(1) << REUSE_BITS) - 1)

enum lock_kind { LOCK_MUTEX, LOCK_RWLOCK, LOCK_SPIN, LOCK_USER };
#define LOCK_KINDS 4
/* The call failed: a release, and whoever held the lock holds it still; or an acquire that never waits, if the ring asks for flow. */
#define LOCK_FAILED 4
/* An acquire by a call that never waits. */
#define LOCK_TRIED 8

/* What threads signal and await. */
enum object_kind { OBJECT_ATOMIC, OBJECT_SEMAPHORE, OBJECT_BARRIER, OBJECT_CONDITION, OBJECT_ONCE, OBJECT_USER, OBJECT_FENCE, OBJECT_EXCEPTION, OBJECT_PIPE, OBJECT_REGION, OBJECT_SOCKET, OBJECT_POLL };
#define OBJECT_KINDS 12

#define FENCE_ACQUIRES 1
#define FENCE_RELEASES 2

/* For what loads that don't acquire are recorded. */
#define LOADS_FOR_FENCES 1
#define LOADS_FOR_FLOW 2

/* Other files find locks, threads and the like in the C library, and not in the recorder's. Or they find another `free`. */
#define UNSEEN_LOCKS 1u
#define UNSEEN_FREES 2u

struct slot {
    _Atomic uint32_t published; /* lane_mark() of its position once the rest is filled */
    union {
        uint32_t ticket; /* the low bits of the event's ticket */
        uint32_t thread; /* in the writer's copy: the number of its thread */
    };
    uint32_t kind_and_stack; /* slot_kind() and slot_stack() tell them apart */
    uint32_t size;
    uint64_t first;
    uint64_t second;
};

enum lane_state {
    LANE_FREE,
    LANE_TAKEN, /* a thread puts its events here */
    LANE_LEFT,  /* the thread has ended, and the lane is free once the writer has taken the events up to `end` */
};

/* What the writer has done with a race. */
enum race_answer {
    ANSWER_NONE,
    ANSWER_SUPPRESSED, /* a rule has taken it */
    ANSWER_REPORTED,   /* it is the first one of its line and kind */
    ANSWER_KNOWN,      /* its line and kind were reported before */
};

/* Positions in a lane count its events through all its threads, with 32 bits. */
struct lane {
    _Alignas(64) _Atomic uint32_t state;
    uint32_t thread;       /* its number */
    _Atomic uint32_t task; /* its id in the system, by which the writer sees that it is gone, or 0 */
    uint32_t end;
    _Atomic uint32_t head; /* the first position that the writer has not taken */
    uint64_t watched[2];   /* accesses, and other calls of the detector, by its threads */
    uint64_t repeats;      /* accesses of its threads that have no event */
    _Atomic uint32_t answer; /* online, with `stops`: enum race_answer of its thread's last race, before the head of the ring has passed that */
};

/* The first program that is recorded takes the first ring. Each further one asks there for a ring of its own: at most this number at a time. */
#define RING_ASKERS 64
enum asker_state {
    ASKER_NONE,    /* nobody asks here */
    ASKER_COMES,   /* a program writes down who it is */
    ASKER_WAITS,   /* for a ring */
    ASKER_TAKEN,   /* a writer makes one */
    ASKER_HAS,     /* its ring is /proc/WRITER/fd/FILE */
    ASKER_REFUSED, /* there is none for it */
};
struct asker {
    _Atomic uint32_t state;
    uint32_t process;
    uint32_t writer, file;
};

/* Bytes of a program's name, with the zero that ends it. */
#define RING_NAME_BYTES 64

/* Stacks of calls, as a tree: a node is a call that was made in the stack of another node. Node 0 stands for no calls. A node never changes
 * once its bucket leads to it, so who adds one waits for nobody. No page of this is used unless the program's stacks are recorded. */
#define STACK_NODES (1u << 21)
/* The most frames of one machine stack that a node has. */
#define STACK_CALLS 256u
#define STACK_BUCKET_BITS 19
struct stack_node {
    uint64_t call;   /* the place that it returns to */
    uint32_t caller; /* the node of the stack in which it was made */
    uint32_t next;   /* in its bucket, or 0 */
};
struct stacks {
    _Atomic uint32_t count; /* nodes given out, also beyond STACK_NODES */
    _Atomic uint32_t buckets[1u << STACK_BUCKET_BITS];
    struct stack_node nodes[STACK_NODES];
};

/* The event's calls begin with those of the node. What was called behind them is not known: the stack is too deep, or the tree is full. */
#define STACK_CUT (1u << 23)

struct lost_counter {
    _Alignas(64) _Atomic uint64_t count;
};

struct ring {
    /* Read by every event, written hardly ever. */
    uint64_t magic;
    uint32_t writer; /* process id */
    uint32_t orders; /* not 0: what orders threads is recorded as well */
    uint32_t flows;  /* not 0: what threads learn from each other without an order is recorded as well */
    uint32_t shakes; /* not 0: threads wait at random, as `seed` says */
    uint32_t thins;  /* not 0: accesses that a thread repeats need no event */
    uint64_t seed;
    uint32_t stops;  /* online, not 0: a thread whose race is reported gets SIGTRAP */
    _Atomic uint32_t lacks_memory; /* online: there was none for the detector of its owner, which is not watched */
    _Atomic uint64_t detector_bytes; /* online: of memory that the detector has */
    _Atomic uint32_t stop;       /* the writer takes no more events */
    _Atomic uint32_t owner;      /* process id of the program that is recorded, 0 before there is one */
    _Atomic uint32_t others;     /* programs that found another one recorded already, and got no ring */
    _Atomic uint32_t forks;      /* children that the recorded program forked */
    uint32_t unseen;             /* what is not recorded of it: UNSEEN_LOCKS, UNSEEN_FREES */
    uint32_t is_late;            /* the program ran before it was recorded, and may hold locks */
    _Atomic uint32_t threads;    /* numbers given to threads */
    _Atomic uint64_t abandoned;  /* some ticket below this one may never be published */
    _Atomic uint32_t takes;      /* how often a lane was taken, or none was free */
    _Atomic uint32_t first_free; /* no lane before this one is free, as a rule: a thread looks from here on */
    _Atomic uint32_t lanes_used; /* no lane from this one on was ever taken */
    char program[RING_NAME_BYTES]; /* the name of the program's file, once there is an owner */
    /* Of the first ring alone. */
    uint32_t presence;           /* a file of the writer that each recorded program has mapped, and so its forked children */
    _Atomic uint32_t server;     /* process id of who gives out further rings, or 0 */
    _Atomic uint32_t bell;       /* changes if the server has something to look at */
    struct asker askers[RING_ASKERS];
    _Alignas(128) _Atomic uint64_t tail; /* next ticket */
    _Alignas(128) _Atomic uint64_t head; /* first ticket that the writer has not taken */
    _Alignas(128) struct lost_counter lost[LOST_COUNTERS];
    struct lane lanes[LANES];
    _Alignas(4096) struct stacks stacks;
    _Alignas(4096) struct slot slots[RING_SLOTS];
};

#define KIND_BITS 8

static inline enum event_kind slot_kind(const struct slot *slot)
{
    return (enum event_kind)(slot->kind_and_stack & ((1u << KIND_BITS) - 1));
}

/* The calls that the thread was in: a node, perhaps with STACK_CUT, or 0. */
static inline uint32_t slot_stack(const struct slot *slot)
{
    return slot->kind_and_stack >> KIND_BITS;
}

static inline uint64_t reuse_size(const struct slot *slot)
{
    return (slot->first >> REUSE_BITS) << 32 | slot->size;
}

/* Where a lane's slots begin, and how many there are. */
static inline uint64_t lane_begin(uint32_t lane)
{
    uint64_t large = lane < LARGE_LANES ? lane : LARGE_LANES;
    return (large << LARGE_LANE_BITS) + ((uint64_t)(lane - large) << LANE_BITS);
}

static inline uint32_t lane_slots(uint32_t lane)
{
    return lane < LARGE_LANES ? 1u << LARGE_LANE_BITS : 1u << LANE_BITS;
}

/* What a slot's `published` says once the event of this position is in it. Before that it is 0, or the mark of an earlier round through the lane. */
static inline uint32_t lane_mark(uint32_t position)
{
    return position | 0x80000000u;
}

#endif
