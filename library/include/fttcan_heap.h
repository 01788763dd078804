/* The heap of the static library. If a program defines these three functions itself, libfttcan.a takes them, and no
 * malloc is needed: link the program's object in front of the archive. The shared library has its own, over malloc.
 *
 * They are called by the library alone. A block that they answer is aligned to 16 bytes, overlaps no other one, and is the
 * library's until it is given back. */
#ifndef FTTCAN_HEAP_H
#define FTTCAN_HEAP_H
#include "fttcan.h"
#ifdef __cplusplus
extern "C" {
#endif

/* What was answered: a block at `at` if `ok` is 1. If `ok` is 0 there is none, and `at` is some pointer that is not
 * null and is never read. */
typedef struct {
    uint64_t ok;
    void *at;
} fttcan_heap_block;

/* A new block of `size` bytes, of `align` bytes if the size is 0. The alignment divides 16, and the size is below 2^63. */
fttcan_heap_block fttcan_heap_alloc(fttcan_size size, fttcan_size align);

/* Makes the block at `at` one of `size` bytes, of `align` bytes if the size is 0. It may move. Its first `kept` bytes
 * stay. If it can't, the block is as it was. */
fttcan_heap_block fttcan_heap_realloc(void *at, fttcan_size kept, fttcan_size size, fttcan_size align);

/* Takes back a block. */
void fttcan_heap_free(void *at);

#ifdef __cplusplus
}
#endif
#endif
