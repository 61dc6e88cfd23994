#include "thin.h"

#include <string.h>

bool thin_is_on;
uint64_t thin_left_out;

/* What is known of 8 bytes: which of them a thread has read and written in a stretch without other events. The next thread that comes takes the entry over,
 * and so does whoever comes to other bytes with the same entry. So what is known of bytes is of the last thread that used them. */
struct use {
    uint64_t unit : 48;
    uint64_t read : 8, written : 8;
    uint64_t stretch;
};
#define USES (1u << 17)
static struct use uses[USES];

/* Units that are near each other have entries that are near each other. The heaps of threads begin at multiples of a large number. */
static struct use *use_of(uint64_t unit)
{
    return &uses[(unit + (unit >> 16) * 40503) % USES];
}

static uint8_t bits(uint64_t first, uint64_t end)
{
    return (uint8_t)(0xffu << first & 0xffu >> (8 - end));
}

/* What is no memory is lost each time. Of more units than there are entries, not all can be known. */
bool thin_is_repeat(const struct thread *thread, bool is_write, uint64_t address, uint64_t bytes)
{
    bool is_repeat = true;
    if (address >= ADDRESS_END || bytes - 1 >= ADDRESS_END - address)
        return false;
    if (bytes > 8 * USES) {
        thin_forget(address, bytes);
        return false;
    }
    for (uint64_t end = address + bytes; address < end;) {
        uint64_t unit = address / 8, next = 8 * unit + 8 < end ? 8 * unit + 8 : end;
        uint8_t touched = bits(address % 8, next - 8 * unit);
        struct use *use = use_of(unit);
        if (use->unit != unit || use->stretch != thread->stretch)
            *use = (struct use){unit, 0, 0, thread->stretch};
        if (touched & ~(is_write ? use->written : use->read | use->written))
            is_repeat = false;
        if (is_write)
            use->written |= touched;
        else
            use->read |= touched;
        address = next;
    }
    thin_left_out += is_repeat;
    return is_repeat;
}

void thin_forget(uint64_t address, uint64_t bytes)
{
    if (!thin_is_on || !bytes)
        return;
    if (bytes > 8 * USES) {
        memset(uses, 0, sizeof uses);
        return;
    }
    for (uint64_t unit = address / 8; unit <= (address + bytes - 1) / 8; unit++)
        use_of(unit)->stretch = 0;
}
