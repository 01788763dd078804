/* The board: its vectors, memory as C has it at the start, a timer, and a way to print. */
#include "board.h"

extern uint32_t stack_top, data_from, data_start, data_end, bss_start, bss_end;
int main(void);
void reset(void);
void tick(void);
void fault(void);

#define SYST_CSR (*(volatile uint32_t *)0xE000E010)
#define SYST_RVR (*(volatile uint32_t *)0xE000E014)
#define SYST_CVR (*(volatile uint32_t *)0xE000E018)

/* qemu and debuggers print what a program asks them to, by this instruction. */
static void semihosting(uint32_t call, const void *block) {
    register uint32_t r0 __asm__("r0") = call;
    register const void *r1 __asm__("r1") = block;
    __asm__ volatile("bkpt 0xab" : "+r"(r0) : "r"(r1) : "memory");
}

void print(const char *text) { semihosting(4, text); }

void stop(int status) {
    const uint32_t block[2] = {0x20026, (uint32_t)status};
    semihosting(0x20, block);
    for (;;) {
    }
}

void start_timer(uint32_t clocks) {
    SYST_RVR = clocks - 1;
    SYST_CVR = 0;
    SYST_CSR = 7;
}

void sleep_until_interrupt(void) { __asm__ volatile("wfi" : : : "memory"); }

void tick(void) { on_tick(); }

void fault(void) {
    print("a fault of the processor\n");
    stop(3);
}

void reset(void) {
    uint32_t *to = &data_start, *from = &data_from;
    while (to < &data_end)
        *to++ = *from++;
    for (to = &bss_start; to < &bss_end;)
        *to++ = 0;
    stop(main());
}

/* The initial stack, and fifteen handlers: reset, six faults, and the timer last. */
__attribute__((section(".vectors"), used)) static const struct {
    uint32_t *stack;
    void (*handlers[15])(void);
} vectors = {&stack_top, {reset, fault, fault, fault, fault, fault, 0, 0, 0, 0, fault, fault, 0, fault, tick}};
