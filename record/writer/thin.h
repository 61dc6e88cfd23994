/* Accesses that change no answer of a replay, which are left out unless a trace is kept or --thin says otherwise: repeats. */
#ifndef ERASER_THIN_H
#define ERASER_THIN_H

#include <stdbool.h>
#include <stdint.h>

#include "form.h"

extern bool thin_is_on;
extern uint64_t thin_left_out;

/* Notes an access. True if this thread has made one before with these bytes, which wrote if this one writes, if since then neither the thread had another
 * event in the trace, or one that names it, nor another thread an access there, and if the memory was put to no new use. */
bool thin_is_repeat(const struct thread *thread, bool is_write, uint64_t address, uint64_t bytes);
/* The memory is put to a new use. */
void thin_forget(uint64_t address, uint64_t bytes);

#endif
