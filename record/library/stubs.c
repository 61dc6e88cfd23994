/* Every other name of ThreadSanitizer's library that a program may have asked for, so that a program built for it starts. Each does
 * nothing and returns 0. The names are in stubs.list, one on each line; the build turns them into stubs.inc. */
#define STUB(name) \
    __attribute__((visibility("default"))) long name(void); \
    __attribute__((visibility("default"))) long name(void) { return 0; }
#include "stubs.inc"
