/* Lends the heap of library/bare an arena before main, for tests that know nothing of it. */
#include "fttcan_bare.h"

static _Alignas(16) unsigned char arena[1 << 20];

__attribute__((constructor)) static void lend(void) { fttcan_heap_begin(arena, sizeof arena); }
