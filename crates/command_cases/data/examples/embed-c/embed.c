/* A machine of three nodes: a loop of cycles, an emergency switch while it runs, a refusal in words, and a standby that takes
 * over. In place of a bus there is print_frame. */
#include <fttcan.h>
#include <inttypes.h>
#include <stdio.h>
#include <stdlib.h>

/* 40 slots, three nodes, synchronous windows of at most three frames of 8 bytes: 405 bit times. */
static const fttcan_rules rules = {.horizon = 10000, .window = 405, .nodes = 3, .slots = 40, .policy = FTTCAN_EDF, .fill = FTTCAN_SKIP};

enum { POSITION = 0, SPEED = 1, LOGGING = 2, STOP = 9 };

static fttcan_master master;
static fttcan_standby standby;

static void must(uint32_t status, const char *call) {
    if (status == FTTCAN_OK)
        return;
    printf("%s: %s\n", call, fttcan_status_name(status));
    exit(1);
}

/* Asks for a change, and tells the answer in words. The standby is told what was accepted. */
static void ask(const char *what, uint64_t start, const fttcan_op *ops, size_t count) {
    fttcan_verdict verdict;
    fttcan_mask trail[100];
    char words[160];
    fttcan_size cycles = 0;
    must(fttcan_master_submit(&master, 1, start, ops, count, &verdict), "submit");
    fttcan_verdict_words(&verdict, words, sizeof words);
    printf("%s: %s\n", what, words);
    if (verdict.kind == FTTCAN_ACCEPTED)
        must(fttcan_standby_change(&standby, 1, start, ops, count, &verdict), "standby");
    if (verdict.kind != FTTCAN_MISSED)
        return;
    must(fttcan_master_trail(&master, trail, 100, &cycles), "trail");
    for (fttcan_size n = 0; n < cycles; n++)
        printf("    cycle %" PRIu64 " would send %010" PRIx64 "\n", verdict.second + 1 - cycles + n, trail[n].low);
}

static void print_frame(const fttcan_frame *frame) {
    uint32_t bits;
    must(fttcan_wire_length(frame->id, frame->bytes, frame->len, &bits), "wire length");
    printf(" %03x#", frame->id);
    for (unsigned n = 0; n < frame->len; n++)
        printf("%02x", frame->bytes[n]);
    printf(" of %" PRIu32 " bits\n", bits);
}

/* Opens a cycle and sends its trigger, which the nodes hear, and the standby too. */
static void open_cycle(void) {
    fttcan_order order;
    fttcan_trigger trigger;
    fttcan_frame frame;
    fttcan_follow fault;
    fttcan_size count;
    must(fttcan_master_open(&master, &order), "open");
    trigger = (fttcan_trigger){order.flags, order.cycle, order.window};
    must(fttcan_trigger_encode(rules.slots, &trigger, &frame, 1, &count), "trigger");
    printf("cycle %" PRIu64 "%s:", order.cycle, order.learned ? ", new table" : "");
    print_frame(&frame);
    if (standby.at)
        must(fttcan_standby_trigger(&standby, &frame, 1, &fault), "follow");
}

int main(void) {
    const fttcan_op begin[] = {
        {FTTCAN_ADD, {.slot = POSITION, .node = 0, .length = 8, .period = 1, .deadline = 1}},
        {FTTCAN_ADD, {.slot = SPEED, .node = 1, .length = 8, .period = 2, .deadline = 1}},
        {FTTCAN_ADD, {.slot = LOGGING, .node = 2, .length = 8, .period = 4, .deadline = 4}},
    };
    const fttcan_op greedy[] = {
        {FTTCAN_ADD, {.slot = 5, .node = 2, .length = 8, .period = 2, .deadline = 1}},
        {FTTCAN_ADD, {.slot = 6, .node = 2, .length = 8, .period = 4, .deadline = 1}},
    };
    const fttcan_op emergency[] = {
        {FTTCAN_REMOVE, {.slot = LOGGING}},
        {FTTCAN_ADD, {.slot = STOP, .node = 0, .length = 2, .period = 1, .deadline = 1}},
    };
    must(fttcan_master_new(&master, &rules), "new");
    must(fttcan_standby_new(&standby, &rules), "new");
    ask("begin", 0, begin, 3);
    for (int n = 0; n < 3; n++)
        open_cycle();
    ask("greedy", 4, greedy, 2);
    ask("emergency", 4, emergency, 2);
    for (int n = 0; n < 3; n++)
        open_cycle();
    fttcan_master_free(&master);
    must(fttcan_standby_take_over(&standby, &master), "take over");
    printf("the standby takes over\n");
    for (int n = 0; n < 2; n++)
        open_cycle();
    ask("emergency again", 9, emergency, 2);
    fttcan_master_free(&master);
    return 0;
}
