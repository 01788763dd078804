/* What stands in front of main on a Cortex-M of qemu: the vectors, memory as C has it, and the words of the call, which
 * semihosting hands over. A fault ends with status 99. */
#include <stdint.h>
#include <stdlib.h>

extern uint32_t _stack_top, _data_from, _data_start, _data_end, _bss_start, _bss_end;
void initialise_monitor_handles(void);
void __libc_init_array(void);
int main(int, char **);
void reset(void);
void fault(void);
void _init(void);
void _fini(void);

static int semihosting(int call, void *block) {
    register int r0 __asm__("r0") = call;
    register void *r1 __asm__("r1") = block;
    __asm__ volatile("bkpt 0xab" : "+r"(r0) : "r"(r1) : "memory");
    return r0;
}

static char line[4096], *words[64];

void reset(void) {
    struct {
        char *at;
        int size;
    } block = {line, sizeof line};
    uint32_t *to = &_data_start, *from = &_data_from;
    char *at = line;
    int count = 0;
    while (to < &_data_end)
        *to++ = *from++;
    for (to = &_bss_start; to < &_bss_end;)
        *to++ = 0;
    initialise_monitor_handles();
    __libc_init_array();
    semihosting(0x15, &block);
    while (*at && count < 63) {
        while (*at == ' ')
            *at++ = 0;
        if (*at)
            words[count++] = at;
        while (*at && *at != ' ')
            at++;
    }
    exit(main(count, words));
}

void fault(void) {
    uint32_t block[2] = {0x20026, 99};
    semihosting(0x20, block);
    for (;;) {
    }
}

void _init(void) {}
void _fini(void) {}

/* The initial stack, and fifteen handlers. */
__attribute__((section(".vectors"), used)) static const struct {
    uint32_t *stack;
    void (*handlers[15])(void);
} vectors = {&_stack_top, {reset, fault, fault, fault, fault, fault, 0, 0, 0, 0, fault, fault, 0, fault, fault}};
