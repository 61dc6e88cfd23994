/* Online: which pages have accessed words, and which lines of 64 bytes have had a lock. So memory that changes hands is looked at only where it matters. */
#ifndef ERASER_MARKS_H
#define ERASER_MARKS_H

#include <stdbool.h>
#include <stddef.h>
#include <stdint.h>

#define MARK_LINE 64u

/* False if there is no memory for the mark. No address from 2^48 on is marked. */
bool mark_accessed(uint64_t address, uint64_t size);
bool mark_lock(uint64_t address);
/* Of memory that changes hands: calls `reuse` with each part that may have accessed words, and `look` with each line that may have a lock, if it isn't
 * NULL. A page that lies in it wholly is marked no more if `reuse` answers true, and neither is a line. */
void marks_visit(uint64_t address, uint64_t size, bool (*reuse)(uint64_t begin, uint64_t end), void (*look)(uint64_t begin, uint64_t end));
/* Nothing is marked, as in a process that begins. */
void marks_forget(void);

#endif
