/* A program without any C library: an arena in place of a heap, its own memory functions, and calls of the kernel for its
 * end. It plays the first change and a thousand cycles, and refuses one more change. */
#include "fttcan.h"
#include "fttcan_heap.h"

enum { ARENA = 1 << 16 };

static _Alignas(16) unsigned char arena[ARENA];
static size_t used;

/* Blocks are given one after the other; the last one that was given can be given back, or grow. */
static unsigned char *last;

static size_t rounded(size_t size) { return (size + 15) / 16 * 16; }

void *memcpy(void *restrict to, const void *restrict from, size_t count) {
    unsigned char *at = to;
    const unsigned char *source = from;
    while (count--)
        *at++ = *source++;
    return to;
}

void *memmove(void *to, const void *from, size_t count) {
    unsigned char *at = to;
    const unsigned char *source = from;
    if (at < source)
        while (count--)
            *at++ = *source++;
    else
        while (count--)
            at[count] = source[count];
    return to;
}

void *memset(void *to, int byte, size_t count) {
    unsigned char *at = to;
    while (count--)
        *at++ = (unsigned char)byte;
    return to;
}

fttcan_heap_block fttcan_heap_alloc(fttcan_size size, fttcan_size align) {
    fttcan_heap_block block = {0, arena};
    const size_t all = rounded(size ? size : align);
    if (all > ARENA - used)
        return block;
    last = arena + used;
    used += all;
    block.ok = 1;
    block.at = last;
    return block;
}

fttcan_heap_block fttcan_heap_realloc(void *at, fttcan_size kept, fttcan_size size, fttcan_size align) {
    fttcan_heap_block block;
    if (at == last && rounded(size ? size : align) <= ARENA - (size_t)(last - arena)) {
        used = (size_t)(last - arena) + rounded(size ? size : align);
        block.ok = 1;
        block.at = at;
        return block;
    }
    block = fttcan_heap_alloc(size, align);
    if (block.ok)
        memcpy(block.at, at, kept);
    return block;
}

void fttcan_heap_free(void *at) {
    if (at == last)
        used = (size_t)(last - arena);
}

static void end(int status) {
#if defined(__x86_64__)
    __asm__ volatile("syscall" : : "a"(231L), "D"((long)status) : "rcx", "r11", "memory");
#elif defined(__aarch64__)
    register long number __asm__("x8") = 94, first __asm__("x0") = status;
    __asm__ volatile("svc 0" : : "r"(number), "r"(first) : "memory");
#endif
    for (;;)
        ;
}

static int play(void) {
    const fttcan_rules rules = {10000, 540, 5, 40, FTTCAN_RM, FTTCAN_PREFIX};
    const fttcan_op op = {FTTCAN_ADD, {0, 2, 1, 5, 1, 8, 0}};
    fttcan_master m = {0};
    fttcan_verdict v = {0, 0, 0, 0, 0, 0, 0};
    fttcan_order order = {0, {0, 0}, 0, 0};
    uint64_t cycle;
    uint32_t bits = 0;
    if (fttcan_master_new(&m, &rules) || fttcan_master_submit(&m, 1, 0, &op, 1, &v) || v.kind != FTTCAN_ACCEPTED)
        return 1;
    for (cycle = 0; cycle < 1000; cycle++)
        if (fttcan_master_open(&m, &order) || order.cycle != cycle || order.flags.low != (cycle % 2 ? 0 : 0x20))
            return 2;
    if (fttcan_master_submit(&m, 1, 2000, &op, 1, &v) || v.kind != FTTCAN_MALFORMED)
        return 3;
    if (fttcan_wire_length(0x105, arena, 0, &bits) || bits < 47)
        return 4;
    fttcan_master_free(&m);
    return m.at ? 5 : 0;
}

void start(void);
__attribute__((used)) void start(void) { end(play()); }

/* The stack is aligned as a call wants it. */
#if defined(__x86_64__)
__asm__(".globl _start\n_start: xor %ebp, %ebp\n and $-16, %rsp\n call start\n");
#elif defined(__aarch64__)
__asm__(".globl _start\n_start: mov x29, #0\n bl start\n");
#endif
