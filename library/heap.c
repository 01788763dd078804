/* The heap of the library, over that of the C library. fttcan_heap.h says what the three functions owe. */
#include "fttcan_heap.h"
#include <stdlib.h>

static fttcan_heap_block answer(void *at) {
    static _Alignas(16) unsigned char nothing[16];
    fttcan_heap_block block = {at != NULL, at != NULL ? at : nothing};
    return block;
}

fttcan_heap_block fttcan_heap_alloc(fttcan_size size, fttcan_size align) { return answer(malloc(size ? size : align)); }

fttcan_heap_block fttcan_heap_realloc(void *at, fttcan_size kept, fttcan_size size, fttcan_size align) {
    (void)kept;
    return answer(realloc(at, size ? size : align));
}

void fttcan_heap_free(void *at) { free(at); }
