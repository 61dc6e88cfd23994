/* The recording of one program: its ring, and the loop that empties it. */
#ifndef ERASER_RECORDING_H
#define ERASER_RECORDING_H

#include <signal.h>
#include <stdbool.h>
#include <stdint.h>
#include <sys/types.h>

#include "../ring.h"

struct recording {
    struct ring *ring;
    int file;          /* the ring's */
    int presence;      /* a file that each program which found the first ring has mapped, and each child that it forked */
    unsigned number;   /* of the ring, from 1 on */
    pid_t command;     /* what was started, or 0 if this is the recording of a program that the command started */
    int command_status;
    bool has_command_ended;
    volatile sig_atomic_t is_to_end; /* nobody waits for the program any more: it goes on without being recorded */
};
extern struct recording recording;

/* Makes the ring of this number. Ends the recorder if there is none. */
void recording_make_ring(unsigned number);
/* A run of the command begins. */
void recording_begin_run(unsigned run);
/* How threads of the ring's program wait at random in this run. */
void recording_shake(unsigned run);
/* Whether a program, or a child that it forked, has found the first ring in this run and is still there. Once it says no, nobody comes any
 * more. */
bool recording_has_programs(void);
/* Empties the ring until the command has ended, and the program that is recorded, too. */
void recording_run(void);
/* True if the recorded program, as it was when it found the ring, is still there. It is not if it has ended or started another program in its
 * place, which may have a ring of another number. */
bool recording_has_owner(void);
/* Events that are in no trace. */
uint64_t recording_lost(void);
void sleep_for(long nanoseconds);

#endif
