/* A heap for programs without a C library, or whose malloc is not for them: library/bare/heap.c. It is a part of the archives
 * for processors without an operating system, and has the three functions of fttcan_heap.h.
 *
 * The program lends it an arena, for as long as the library holds anything. Taking, growing and giving back a block take at
 * most some sixty steps each, however many blocks there are, and a block that grows is copied. Neighbours that are free
 * become one block again. A block has 16 bytes more than was asked for, rounded up to a power of two.
 *
 * It has no lock: as the calls of the library, its calls come from one thread at a time, and never from an interrupt that
 * can interrupt them. Without an arena, and if an arena is full, the library's call answers FTTCAN_MEMORY, and nothing has
 * changed: fttcan_heap_told says how often that was, and how large the block was that had no room. */
#ifndef FTTCAN_BARE_H
#define FTTCAN_BARE_H
#include "fttcan_heap.h"
#ifdef __cplusplus
extern "C" {
#endif

/* What an arena has given. Bytes count whole blocks, with all that is in them. */
typedef struct {
    fttcan_size bytes;   /* of the arena, without the heap's own 176 */
    fttcan_size held;    /* in blocks that are not given back */
    fttcan_size most;    /* the most that `held` was */
    fttcan_size refused; /* how often there was no room */
    fttcan_size lacking; /* bytes of the block that had no room last, or 0 */
} fttcan_heap_numbers;

/* Makes a heap of an arena of so many bytes, aligned to 16, and uses it from now on. It answers 1; or 0 if the arena is null or
 * not aligned, or has fewer than 256 bytes or more than 2^30, and then the heap is as it was. Nothing may be held in the arena. */
int fttcan_heap_begin(void *arena, fttcan_size bytes);

/* Uses the heap that fttcan_heap_begin made of this arena. What one arena gave has to be given back while it is used. */
void fttcan_heap_use(void *arena);

/* What the arena in use has given. All is 0 if there is none. */
fttcan_heap_numbers fttcan_heap_told(void);

#ifdef __cplusplus
}
#endif
#endif
