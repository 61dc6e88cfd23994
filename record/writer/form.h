/* The forms that a trace may have: text 3, the binary form (docs/FORMATS.md), and none at all. */
#ifndef ERASER_FORM_H
#define ERASER_FORM_H

#include <stdbool.h>
#include <stddef.h>
#include <stdint.h>

/* What a thread does in an event that has no address. */
enum verb {
    VERB_LOCK, VERB_UNLOCK, VERB_READ_LOCK, VERB_READ_UNLOCK, VERB_SIGNAL, VERB_AWAIT, /* a lock, or an object */
    VERB_START, VERB_JOIN, /* a thread */
    VERB_IGNORE_ON, VERB_IGNORE_OFF,
    VERB_TRY_LOCK, VERB_TRY_READ_LOCK, /* acquires by a call that never waits */
    VERB_FAILED_TRY, VERB_FAILED_READ_TRY, /* the same, of which the call failed: nothing in a text */
};
#define VERBS 14

struct object;

struct thread {
    char text[16];       /* "t12 " */
    uint8_t bytes;       /* 0 before its first event */
    uint32_t number;     /* in the binary form, from 1 on; 0: it is not there yet */
    uint32_t held;       /* locks that the trace says it holds */
    uint32_t ignoring;   /* depth of its ignore brackets */
    uint64_t events;     /* how many events it has that a text shows: lines of a text, or records of a trace 4 */
    uint64_t stretch;    /* the number of its accesses since its last other event, or one that names it: no other thread has it, and it is not 0 */
    uint64_t failed_try, events_then; /* the lock that it tried last in vain and how, and how many events it had then */
    uint64_t barrier;    /* that it arrived at last */
    struct object *arrived_at; /* the object of this barrier's round, or NULL once it has left it */
    uint32_t created_at; /* the node of the call that created it, 0 if it is not known or in a text */
    char name[16];       /* what the program calls it, or nothing */
};

/* What a lock or an object is called. */
struct label {
    char *name;
    uint64_t address;
    uint32_t number; /* in the binary form, from 1 on; 0: it is not there yet */
    uint32_t created_at; /* the node of the call that created the lock, 0 if it is not known, in a text, or of an object */
};

/* Each counts the events that it has written, and those that it can't write. `place` is the program counter behind a call, or 0 for none. */
struct form {
    void (*begin)(void);
    void (*access)(struct thread *thread, bool is_write, uint64_t address, uint64_t bytes, uint64_t place);
    void (*reuse)(struct thread *thread, uint64_t address, uint64_t bytes, uint64_t place);
    void (*of_lock)(struct thread *thread, enum verb verb, struct label *lock, uint64_t place);
    void (*of_thread)(struct thread *thread, enum verb verb, struct thread *other, uint64_t place);
    void (*alone)(struct thread *thread, enum verb verb);
    /* An atomic operation that orders nothing, the node of a call that creates a thread or a lock, and a block of memory that a call gave to the program:
     * NULL of a text, which has none of them. The last two are no events. */
    void (*of_atomic)(struct thread *thread, bool stores, uint64_t address, uint64_t place);
    uint32_t (*creator)(uint64_t place);
    void (*got)(uint64_t address, uint64_t bytes, uint64_t place);
    void (*comment)(const char *text, size_t bytes);
    void (*end)(uint64_t lost);
    /* Before the buffer is written. */
    void (*end_part)(void);
};
extern const struct form text_form, binary_form;
/* Of --online, which writes no trace. */
extern const struct form no_form;

/* The most bytes of a comment. */
#define COMMENT_BYTES 252
/* Where memory ends. */
#define ADDRESS_END (UINT64_C(1) << 48)

#endif
