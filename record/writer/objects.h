/* What threads signal and await: their names, and which of their events a trace needs. */
#ifndef ERASER_OBJECTS_H
#define ERASER_OBJECTS_H

#include <stdbool.h>
#include <stdint.h>

#include "../ring.h"

/* A thread signals an object, by a call that returns to this place (0: not known). Whether the signal was written: one that says nothing new isn't. */
bool objects_signal(uint32_t thread, uint64_t address, enum object_kind kind, uint64_t place);
/* It awaits one. Whether the await was written: only one that may order something is. */
bool objects_await(uint32_t thread, uint64_t address, uint64_t place);
/* Whether it would be written. */
bool objects_have_news(uint32_t thread, uint64_t address);
/* It lets go an object that it held: a signal and an await, if the object was signalled before. */
void objects_let_go(uint32_t thread, uint64_t address, enum object_kind kind, uint64_t place);
/* An object that was signalled is kept for a thread that will await it, whatever is at its address by then. It is kept until it is given up as often. */
struct object;
struct object *objects_keep(uint64_t address);
void objects_await_kept(uint32_t thread, struct object *object, uint64_t place);
void objects_give_up(struct object *object);
/* An object's life ends: the next signal at this address is another object's. A thread that was let go before may still await this one. */
void objects_end(uint64_t address);
/* Memory is put to a new use, or a new object begins in it: no address leads to the objects in it any more. */
void objects_forget(uint64_t address, uint64_t bytes);

#endif
