/* What threads tell each other by atomic operations that order nothing. Nothing of it is written unless `--flow` asks for it. */
#ifndef ERASER_FLOW_H
#define ERASER_FLOW_H

#include <stdbool.h>
#include <stdint.h>

/* A thread stores to an atomic, by a call that returns to this place. `is_signalled`: the trace has a signal for it, which says more. */
void flow_store(uint32_t thread, uint64_t address, uint64_t place, bool is_signalled);
/* It loads one, and the trace has no await for it. Only a load after somebody else's store is written. */
void flow_load(uint32_t thread, uint64_t address, uint64_t place);
/* Memory is put to a new use: what is in it from now on are other atomics. */
void flow_forget(void);

#endif
