#define _GNU_SOURCE
#include "flow.h"

#include "options.h"
#include "trace.h"

/* Who loaded what lately, and how many stores there were by then, by parts of memory. A collision makes a load look like a new one. */
#define RECENT_BITS 12
static struct load {
    uint64_t address, news;
    uint32_t thread;
} loads[1u << RECENT_BITS];
static uint64_t stores[1u << RECENT_BITS], reuses;

static uint64_t place_of(uint64_t address, uint32_t thread)
{
    return (address + ((uint64_t)thread << 48)) * UINT64_C(0x9e3779b97f4a7c15) >> (64 - RECENT_BITS);
}

/* Another number after each store to this address, and after each reuse. */
static uint64_t news_of(uint64_t address)
{
    return 1 + reuses + stores[place_of(address, 0)];
}

static bool has_loaded(const struct load *load, uint32_t thread, uint64_t address)
{
    return load->address == address && load->thread == thread && load->news == news_of(address);
}

void flow_store(uint32_t thread, uint64_t address, uint64_t place, bool is_signalled)
{
    if (!options.has_flow)
        return;
    struct load *load = &loads[place_of(address, thread)];
    bool knows_all = has_loaded(load, thread, address);
    stores[place_of(address, 0)]++;
    if (knows_all)
        load->news = news_of(address);
    if (!is_signalled)
        trace_atomic(thread, true, address, place);
}

/* A thread that looks at a flag again and again learns nothing new. */
void flow_load(uint32_t thread, uint64_t address, uint64_t place)
{
    struct load *load = &loads[place_of(address, thread)];
    if (!options.has_flow || has_loaded(load, thread, address))
        return;
    *load = (struct load){address, news_of(address), thread};
    trace_atomic(thread, false, address, place);
}

void flow_forget(void)
{
    reuses++;
}
