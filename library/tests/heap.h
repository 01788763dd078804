/* A heap of the test's own in place of that of the library: it counts, and refuses the allocation that is asked for. Each
 * block has a pattern after it, and what is new or given back has no meaning. */
#ifndef FTTCAN_TESTS_HEAP_H
#define FTTCAN_TESTS_HEAP_H
#include "fttcan_heap.h"
#include "support.h"

enum { HEAD = 16, TAIL = 16 };

static long taken;          /* blocks that are not given back */
static size_t bytes_taken;  /* their bytes */
static size_t most_bytes;   /* the most that they were */
static long until_refusal;  /* how many more are given before one is refused; below 0: none is */
static long refusals;

static fttcan_heap_block refused_block(void) {
    static _Alignas(16) unsigned char nothing[16];
    fttcan_heap_block block = {0, NULL};
    block.at = nothing;
    return block;
}

static int is_refused(void) {
    if (until_refusal < 0)
        return 0;
    if (until_refusal-- > 0)
        return 0;
    refusals++;
    return 1;
}

/* New memory for a head, so many bytes and a tail, aligned to 16 whatever malloc does, or null. The head has the size in its
 * first half, and in its second one where the memory begins. */
static unsigned char *new_whole(size_t all) {
    unsigned char *begin = malloc(HEAD + all + TAIL + 15), *whole;
    if (begin == NULL)
        return NULL;
    whole = begin + (16 - (uintptr_t)begin % 16) % 16;
    memcpy(whole + HEAD / 2, &begin, sizeof begin);
    return whole;
}

/* Gives back the memory of a block, of which nothing is left. */
static void give_whole(void *at, size_t size) {
    unsigned char *begin;
    memcpy(&begin, (unsigned char *)at - HEAD / 2, sizeof begin);
    memset((unsigned char *)at - HEAD, 0xEE, HEAD + size);
    free(begin);
}

static unsigned char *with_head(unsigned char *whole, size_t size, size_t new_from) {
    memcpy(whole, &size, sizeof size);
    if (new_from < size)
        memset(whole + HEAD + new_from, 0xA5, size - new_from);
    memset(whole + HEAD + size, 0x5A, TAIL);
    bytes_taken += size;
    if (bytes_taken > most_bytes)
        most_bytes = bytes_taken;
    return whole + HEAD;
}

static size_t size_of(const unsigned char *at) {
    size_t size, place;
    memcpy(&size, at - HEAD, sizeof size);
    for (place = 0; place < TAIL; place++)
        WANT(at[size + place] == 0x5A);
    return size;
}

fttcan_heap_block fttcan_heap_alloc(fttcan_size size, fttcan_size align) {
    fttcan_heap_block block = {1, NULL};
    size_t all = size ? size : align;
    unsigned char *whole;
    WANT(align == 1 || align == 2 || align == 4 || align == 8 || align == 16);
    if (is_refused() || (whole = new_whole(all)) == NULL)
        return refused_block();
    taken++;
    block.at = with_head(whole, all, 0);
    return block;
}

fttcan_heap_block fttcan_heap_realloc(void *at, fttcan_size kept, fttcan_size size, fttcan_size align) {
    fttcan_heap_block block = {1, NULL};
    size_t all = size ? size : align, old = size_of(at);
    unsigned char *whole;
    WANT(kept <= old && kept <= all);
    if (is_refused() || (whole = new_whole(all)) == NULL)
        return refused_block();
    memcpy(whole + HEAD, at, kept);
    bytes_taken -= old;
    give_whole(at, old);
    block.at = with_head(whole, all, kept);
    return block;
}

void fttcan_heap_free(void *at) {
    size_t old = size_of(at);
    taken--;
    bytes_taken -= old;
    give_whole(at, old);
}
#endif
