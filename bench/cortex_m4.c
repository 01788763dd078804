/* Calls of the library on a Cortex-M4 of qemu, by its timer: with -icount shift=0 an instruction takes 1 ns there, and a tick 40 ns.
 * 40 entries with periods of 2 to 40 cycles, so that the plan repeats after 40, and changes that remove or add one of them.
 *
 * It prints for each call how often it was made, the ticks of all of them, and the most of one; and what heap and stack took. */
#include "fttcan_bare.h"
#include <stdio.h>
#include <stdlib.h>

enum { CHANGES = 100, OPENINGS = 4000, ENTRIES = 40, PAINTED = 1 << 16 };
#define SYST_CSR (*(volatile uint32_t *)0xE000E010)
#define SYST_RVR (*(volatile uint32_t *)0xE000E014)
#define SYST_CVR (*(volatile uint32_t *)0xE000E018)

extern uint32_t _stack_top;
static _Alignas(16) unsigned char arena[1 << 17];
static fttcan_master master, other;
static fttcan_standby standby;
static uint8_t state[1 << 13];

static uint32_t now(void) { return 0xFFFFFFu - SYST_CVR; }

typedef struct {
    const char *name;
    uint32_t count, sum, worst;
} times;

static times of_open = {"fttcan_master_open", 0, 0, 0}, of_submit = {"fttcan_master_submit", 0, 0, 0},
             of_save = {"fttcan_master_save", 0, 0, 0}, of_restore = {"fttcan_master_restore", 0, 0, 0},
             of_encode = {"fttcan_trigger_encode", 0, 0, 0}, of_change = {"fttcan_standby_change", 0, 0, 0},
             of_trigger = {"fttcan_standby_trigger", 0, 0, 0}, of_apart = {"fttcan_plan_apart", 0, 0, 0},
             of_settle = {"fttcan_master_settle", 0, 0, 0}, of_length = {"fttcan_wire_length", 0, 0, 0};
static uint32_t at;

static void begun(void) { at = now(); }

static void ended(times *of, uint32_t status) {
    const uint32_t ticks = (now() - at) & 0xFFFFFFu;
    if (status) {
        printf("%s: %s\n", of->name, fttcan_status_name(status));
        exit(1);
    }
    of->count++;
    of->sum += ticks;
    if (ticks > of->worst)
        of->worst = ticks;
}

static void tell(const times *of) { printf("%s %lu %lu %lu\n", of->name, (unsigned long)of->count, (unsigned long)of->sum, (unsigned long)of->worst); }

static void open_one(void) {
    fttcan_order order;
    fttcan_frame frame;
    fttcan_follow fault;
    fttcan_size count;
    uint32_t bits;
    begun();
    ended(&of_open, fttcan_master_open(&master, &order));
    const fttcan_trigger trigger = {order.flags, order.cycle, order.window};
    begun();
    ended(&of_encode, fttcan_trigger_encode(ENTRIES, &trigger, &frame, 1, &count));
    begun();
    ended(&of_length, fttcan_wire_length(frame.id, frame.bytes, frame.len, &bits));
    if (standby.at == NULL)
        return;
    begun();
    ended(&of_trigger, fttcan_standby_trigger(&standby, &frame, 1, &fault));
}

static void ask(uint64_t start, const fttcan_op *op, times *of) {
    fttcan_verdict verdict;
    const uint32_t status = (begun(), fttcan_master_submit(&master, 1, start, op, 1, &verdict));
    ended(of, status);
    if (verdict.kind != FTTCAN_ACCEPTED) {
        printf("refused: %s\n", fttcan_verdict_name(verdict.kind));
        exit(1);
    }
    if (standby.at == NULL)
        return;
    begun();
    ended(&of_change, fttcan_standby_change(&standby, 1, start, op, 1, &verdict));
}

static void apart(uint64_t start, const fttcan_op *op) {
    fttcan_snapshot snapshot = {0};
    fttcan_planned planned = {0};
    fttcan_verdict verdict;
    if (fttcan_master_snapshot(&other, &snapshot))
        exit(1);
    begun();
    ended(&of_apart, fttcan_plan_apart(&snapshot, start, op, 1, &planned));
    begun();
    ended(&of_settle, fttcan_master_settle(&other, 1, &planned, &verdict));
}

/* The entries, one change each. */
static void fill(times *adds) {
    static const uint16_t periods[7] = {2, 4, 5, 8, 10, 20, 40};
    for (int slot = 0; slot < ENTRIES; slot++) {
        fttcan_op op = {FTTCAN_ADD, {0, 0, 0, 0, 0, 0, 0}};
        op.entry.slot = (uint8_t)slot;
        op.entry.node = (uint8_t)(slot % 30);
        op.entry.period = op.entry.deadline = periods[slot % 7];
        op.entry.phase = (uint16_t)(slot % op.entry.period);
        op.entry.length = (uint8_t)(slot % 9);
        op.entry.priority = (uint8_t)slot;
        ask(0, &op, adds);
    }
}

/* A change that takes out the entry of slot 7, or adds one. */
static fttcan_op turned(int n) {
    fttcan_op op = {FTTCAN_REMOVE, {0, 0, 0, 0, 0, 0, 0}};
    if (n % 2) {
        op.kind = FTTCAN_ADD;
        op.entry.period = op.entry.deadline = 10;
        op.entry.node = 1;
        op.entry.length = 4;
        op.entry.priority = 9;
    }
    op.entry.slot = 7;
    return op;
}

/* What a master alone takes of the heap, with all entries and changes. */
static void alone(const fttcan_rules *rules) {
    times unused = {"alone", 0, 0, 0};
    uint64_t next = 0;
    if (!fttcan_heap_begin(arena, sizeof arena) || fttcan_master_new(&master, rules))
        exit(1);
    fill(&unused);
    for (int n = 0; n < 20; n++) {
        const fttcan_op op = turned(n);
        for (int c = 0; c < 14; c++)
            open_one();
        if (fttcan_master_next(&master, &next))
            exit(1);
        ask(next + 2, &op, &unused);
    }
    printf("held by a master %lu\n", (unsigned long)fttcan_heap_told().held);
    printf("heap of a master %lu\n", (unsigned long)fttcan_heap_told().most);
    fttcan_master_free(&master);
}

int main(void) {
    const fttcan_rules rules = {10000, 3000, 30, ENTRIES, FTTCAN_RM, FTTCAN_PREFIX};
    times adds = {"adds", 0, 0, 0};
    uint32_t *paint, *top = __builtin_frame_address(0), from;
    fttcan_size len;
    uint64_t next = 0;
    SYST_RVR = 0xFFFFFF;
    SYST_CVR = 0;
    SYST_CSR = 5;
    for (paint = top - PAINTED / 4; paint < top - 64; paint++)
        *paint = 0xA5A5A5A5u;
    from = now();
    {
        uint32_t turns = 500000;
        __asm__ volatile(".syntax unified\n1: subs %0, #1\n bne 1b" : "+l"(turns) : : "cc");
    }
    printf("million %lu\n", (unsigned long)((now() - from) & 0xFFFFFFu));
    alone(&rules);
    of_open.count = of_open.sum = of_open.worst = of_encode.count = of_encode.sum = of_length.count = of_length.sum = 0;
    if (!fttcan_heap_begin(arena, sizeof arena) || fttcan_master_new(&master, &rules) || fttcan_standby_new(&standby, &rules))
        return 1;
    fill(&adds);
    of_change.count = of_change.sum = of_change.worst = 0;
    for (int n = 0; n < OPENINGS; n++)
        open_one();
    for (int n = 0; n < CHANGES; n++) {
        const fttcan_op op = turned(n);
        open_one();
        if (fttcan_master_next(&master, &next))
            return 1;
        if (n % 10 == 0) {
            begun();
            ended(&of_save, fttcan_master_save(&master, state, sizeof state, &len));
            begun();
            ended(&of_restore, fttcan_master_restore(&other, state, len));
            apart(next + 2, &op);
            fttcan_master_free(&other);
        }
        ask(next + 2, &op, &of_submit);
        for (int c = 0; c < 14; c++)
            open_one();
    }
    tell(&of_open);
    tell(&of_submit);
    tell(&of_encode);
    tell(&of_length);
    tell(&of_trigger);
    tell(&of_change);
    tell(&of_save);
    tell(&of_restore);
    tell(&of_apart);
    tell(&of_settle);
    for (paint = top - PAINTED / 4; paint < top - 64 && *paint == 0xA5A5A5A5u; paint++) {
    }
    printf("stack %lu\n", (unsigned long)((char *)top - (char *)paint));
    fttcan_standby_free(&standby);
    fttcan_master_free(&master);
    printf("heap of all %lu\nleft %lu\n", (unsigned long)fttcan_heap_told().most, (unsigned long)fttcan_heap_told().held);
    return fttcan_heap_told().held != 0;
}
