/* What the programs of bench/library share: a heap that counts, a clock, and the end at a status that is not wanted. */
#ifndef FTTCAN_BENCH_COUNTED_H
#define FTTCAN_BENCH_COUNTED_H
#include "fttcan.h"
#include "fttcan_heap.h"
#include <inttypes.h>
#include <stdio.h>
#include <stdlib.h>
#include <string.h>
#include <time.h>

enum { HEAD = 16 };

static size_t held, most_held, calls_of_heap;

static fttcan_heap_block block_of(unsigned char *whole, size_t size) {
    static _Alignas(16) unsigned char nothing[16];
    fttcan_heap_block block = {0, NULL};
    block.at = nothing;
    if (whole == NULL)
        return block;
    memcpy(whole, &size, sizeof size);
    held += size;
    if (held > most_held)
        most_held = held;
    block.ok = 1;
    block.at = whole + HEAD;
    return block;
}

static size_t size_at(const void *at) {
    size_t size;
    memcpy(&size, (const unsigned char *)at - HEAD, sizeof size);
    return size;
}

fttcan_heap_block fttcan_heap_alloc(fttcan_size size, fttcan_size align) {
    calls_of_heap++;
    size = size ? size : align;
    return block_of(malloc(HEAD + size), size);
}

fttcan_heap_block fttcan_heap_realloc(void *at, fttcan_size kept, fttcan_size size, fttcan_size align) {
    const size_t old = size_at(at);
    fttcan_heap_block block;
    unsigned char *whole;
    (void)kept;
    calls_of_heap++;
    size = size ? size : align;
    whole = realloc((unsigned char *)at - HEAD, HEAD + size);
    block = block_of(whole, size);
    if (whole != NULL)
        held -= old;
    return block;
}

void fttcan_heap_free(void *at) {
    held -= size_at(at);
    free((unsigned char *)at - HEAD);
}

static inline double microseconds(void) {
    struct timespec now;
    clock_gettime(CLOCK_MONOTONIC, &now);
    return (double)now.tv_sec * 1e6 + (double)now.tv_nsec / 1e3;
}

static void must(uint32_t status, const char *call) {
    if (status == FTTCAN_OK)
        return;
    printf("%s: %s\n", call, fttcan_status_name(status));
    exit(1);
}
#endif
