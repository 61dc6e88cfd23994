/* Accesses of all sizes. Behind each stands how many words the trace must show at its line: READS and WRITES. */
#include "meet.h"

#include <stdint.h>
#include <string.h>

struct big { int part[10]; };
struct __attribute__((packed)) odd { char one; uint64_t eight; uint16_t two; uint32_t four; };

_Alignas(16) uint8_t one;
_Alignas(16) uint16_t two;
_Alignas(16) uint32_t four;
_Alignas(16) uint64_t eight;
_Alignas(16) volatile uint32_t watched;
_Alignas(16) struct odd odd;
_Alignas(16) struct big from, to;
_Alignas(16) char text[100], copy[100];
_Alignas(16) uint32_t counted;
__extension__ _Alignas(16) unsigned __int128 sixteen;

__attribute__((noinline)) static void access_all(unsigned value)
{
    one = (uint8_t)value; /* WRITES 1 */
    two = (uint16_t)value; /* WRITES 1 */
    four = value; /* WRITES 1 */
    eight = value; /* WRITES 2 */
    sixteen = value; /* WRITES 4 */
    watched = value; /* WRITES 1 */
    watched; /* READS 1 */
    odd.eight = value; /* WRITES 3 */
    odd.two = (uint16_t)value; /* WRITES 1 */
    odd.four = value; /* WRITES 2 */
    to = from; /* READS 10 WRITES 10 */
    memcpy(copy, text, value); /* READS 25 WRITES 25 */
    memset(text, 0, value); /* WRITES 25 */
    memmove(text, text + 4, value - 4); /* READS 24 WRITES 24 */
    __atomic_fetch_add(&counted, 1, __ATOMIC_RELAXED); /* READS 0 WRITES 0 */
}

int main(int count, char **words)
{
    (void)words;
    access_all(99 + (unsigned)count);
    return 0;
}
