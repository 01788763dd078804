/* The memory functions that the library calls, for programs that are linked with no C library: libfttcan_memory.a. They are
 * plain: those of a C library are faster. */
#include <stddef.h>

void *memcpy(void *restrict to, const void *restrict from, size_t count);
void *memmove(void *to, const void *from, size_t count);
void *memset(void *to, int byte, size_t count);

void *memcpy(void *restrict to, const void *restrict from, size_t count) {
    unsigned char *at = to;
    const unsigned char *source = from;
    while (count--)
        *at++ = *source++;
    return to;
}

void *memmove(void *to, const void *from, size_t count) {
    unsigned char *at = to;
    const unsigned char *source = from;
    if (at < source)
        while (count--)
            *at++ = *source++;
    else
        while (count--)
            at[count] = source[count];
    return to;
}

void *memset(void *to, int byte, size_t count) {
    unsigned char *at = to;
    while (count--)
        *at++ = (unsigned char)byte;
    return to;
}

#if defined(__arm__)
/* The names that compilers for ARM use: those with a number may rely on that alignment. The byte comes last. */
#define COPIES(name) \
    void name(void *to, const void *from, size_t count); \
    void name(void *to, const void *from, size_t count) { memcpy(to, from, count); }
#define MOVES(name) \
    void name(void *to, const void *from, size_t count); \
    void name(void *to, const void *from, size_t count) { memmove(to, from, count); }
#define SETS(name) \
    void name(void *to, size_t count, int byte); \
    void name(void *to, size_t count, int byte) { memset(to, byte, count); }
#define CLEARS(name) \
    void name(void *to, size_t count); \
    void name(void *to, size_t count) { memset(to, 0, count); }
COPIES(__aeabi_memcpy) COPIES(__aeabi_memcpy4) COPIES(__aeabi_memcpy8)
MOVES(__aeabi_memmove) MOVES(__aeabi_memmove4) MOVES(__aeabi_memmove8)
SETS(__aeabi_memset) SETS(__aeabi_memset4) SETS(__aeabi_memset8)
CLEARS(__aeabi_memclr) CLEARS(__aeabi_memclr4) CLEARS(__aeabi_memclr8)
#endif
