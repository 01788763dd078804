/* Runs a node for a long time, and prints the times of its calls, and memory.
 *
 *     nodes CYCLES SLOTS
 *
 * The node has 8 entries, of which 2 are due in each cycle, and 4 identifiers. Each cycle it hears the trigger, is given bytes
 * and a request, and sends all three frames; every 1,000 cycles it learns its table again. */
#include "counted.h"

enum { ENTRIES = 8, BATCH = 20000, BATCHES = 9 };

/* The time of the processor that this program has taken, in microseconds: what else runs on the machine plays no part. */
static double processor(void) {
    struct timespec now;
    clock_gettime(CLOCK_PROCESS_CPUTIME_ID, &now);
    return (double)now.tv_sec * 1e6 + (double)now.tv_nsec / 1e3;
}

static fttcan_layout layout = {10000, 20, 5400, 40};
static const fttcan_settings settings = {4, ENTRIES, 1, 1, 0};
static const fttcan_owner owners[4] = {{0x210, 1}, {0x220, 1}, {0x230, 1}, {0x240, 1}};
static fttcan_placed table[ENTRIES];
static fttcan_frame frames[2];
static uint64_t sent;

/* The frames of the trigger of a cycle that flags all slots, with a window of 270. */
static void make_trigger(uint64_t cycle) {
    frames[0].bytes[0] = frames[1].bytes[0] = (uint8_t)cycle;
}

static void hear(fttcan_node *n, uint64_t cycle) {
    uint8_t heard = 9;
    unsigned place;
    make_trigger(cycle);
    for (place = 0; place < (layout.slots == 40 ? 1u : 2u); place++)
        must(fttcan_node_trigger(n, &frames[place], 0, &heard), "trigger");
    if (heard != FTTCAN_OPENED) {
        printf("cycle %" PRIu64 " is not opened\n", cycle);
        exit(1);
    }
}

static void send(fttcan_node *n, uint64_t into, uint16_t wanted) {
    fttcan_offer offer = {0, 0};
    fttcan_loaded loaded;
    must(fttcan_node_offer(n, into, &offer), "offer");
    must(fttcan_node_load(n, into, offer.id, &loaded), "load");
    must(fttcan_node_sent(n, &loaded.ticket), "sent");
    if (offer.id != wanted) {
        printf("%03x is offered, and not %03x\n", offer.id, wanted);
        exit(1);
    }
    sent++;
}

static void run(fttcan_node *n, uint64_t cycle) {
    fttcan_frame request = {0x210, 8, {0, 0, 0, 0, 0, 0, 0, 0}};
    const unsigned first = (unsigned)(cycle % 4);
    hear(n, cycle);
    request.id = (uint16_t)(0x210 + 0x10 * (cycle % 4));
    memcpy(request.bytes, &cycle, 8);
    must(fttcan_node_put(n, &request), "put");
    must(fttcan_node_set(n, (uint8_t)first, request.bytes, 8), "set");
    send(n, 300, request.id);
    send(n, 9730, (uint16_t)(0x100 + first));
    send(n, 9865, (uint16_t)(0x104 + first));
}

/* The least mean time of one call, of some batches. */
#define TIMED(name, call) \
    do { \
        double least = 1e9; \
        unsigned batch, at; \
        for (batch = 0; batch < BATCHES; batch++) { \
            const double began = processor(); \
            for (at = 0; at < BATCH; at++) { call; } \
            if ((processor() - began) / BATCH < least) \
                least = (processor() - began) / BATCH; \
        } \
        printf("%-22s %.3f us\n", name, least); \
    } while (0)

static void time_calls(fttcan_node *n, uint64_t *cycle) {
    fttcan_frame request = {0x220, 8, {0, 0, 0, 0, 0, 0, 0, 0}}, frame;
    fttcan_offer offer;
    fttcan_loaded loaded;
    fttcan_mask slots;
    fttcan_due due;
    uint64_t time;
    const uint8_t slot = (uint8_t)(*cycle % 4);
    TIMED("trigger", hear(n, (*cycle)++));
    while (*cycle % 4 != slot)
        hear(n, (*cycle)++);
    hear(n, *cycle);
    TIMED("set", must(fttcan_node_set(n, slot, request.bytes, 8), "set"));
    TIMED("put and drop", must(fttcan_node_put(n, &request), "put"); must(fttcan_node_drop(n, 0x220), "drop"));
    must(fttcan_node_put(n, &request), "put");
    TIMED("offer of a request", must(fttcan_node_offer(n, 300, &offer), "offer"));
    TIMED("offer of a slot", must(fttcan_node_offer(n, 9730, &offer), "offer"));
    TIMED("wake", must(fttcan_node_wake(n, 300, &time), "wake"));
    TIMED("frame", must(fttcan_node_frame(n, 9730, offer.id, &frame), "frame"));
    TIMED("load and withdrawn", must(fttcan_node_load(n, 9730, offer.id, &loaded), "load"); must(fttcan_node_withdrawn(n, &loaded.ticket), "withdrawn"));
    TIMED("due", must(fttcan_node_due(n, &slots), "due"));
    TIMED("slot_due", must(fttcan_node_slot_due(n, (uint8_t)(offer.id - 0x100), &due), "slot_due"));
    TIMED("slot_frame", must(fttcan_node_slot_frame(n, (uint8_t)(offer.id - 0x100), &frame), "slot_frame"));
    TIMED("learn", must(fttcan_node_learn(n, table, ENTRIES), "learn"));
    must(fttcan_node_drop(n, 0x220), "drop");
    ++*cycle;
}

int main(int count, char **words) {
    fttcan_node n = {0};
    uint64_t cycles, cycle, first;
    size_t early = 0, early_calls = 0;
    double began;
    unsigned place;
    if (count != 3)
        return 2;
    cycles = strtoull(words[1], NULL, 10);
    layout.slots = (uint8_t)atoi(words[2]);
    for (place = 0; place < ENTRIES; place++) {
        table[place].entry.slot = (uint8_t)place;
        table[place].entry.node = 1;
        table[place].entry.length = 8;
        table[place].entry.phase = (uint16_t)(place % 4);
        table[place].entry.period = 4;
        table[place].entry.deadline = 1;
    }
    frames[1].id = 1;
    frames[0].len = frames[1].len = 8;
    memset(frames[0].bytes + 3, 0xFF, 5);
    memset(frames[1].bytes + 1, 0xFF, 7);
    frames[0].bytes[1] = 270 >> 8;
    frames[0].bytes[2] = 270 & 0xFF;
    /* Phases count from cycle 0, so the first cycle is one of phase 0. */
    first = UINT64_C(1) << 41;
    must(fttcan_node_new(&n, &layout, &settings, owners, 4), "new");
    must(fttcan_node_learn(&n, table, ENTRIES), "learn");
    must(fttcan_node_go_to(&n, first), "go_to");
    began = processor();
    for (cycle = first; cycle < first + cycles; cycle++) {
        run(&n, cycle);
        if ((cycle - first) % 1000 == 999)
            must(fttcan_node_learn(&n, table, ENTRIES), "learn");
        if (cycle - first == 999) {
            early = most_held;
            most_held = held;
            early_calls = calls_of_heap;
        }
    }
    printf("node, %u slots, %" PRIu64 " cycles from 2^41 on, %" PRIu64 " frames: %.3f us a cycle\n", layout.slots, cycles, sent,
           (processor() - began) / (double)(cycles ? cycles : 1));
    printf("memory    most %zu bytes in the first 1000 cycles, most %zu bytes later; %zu and %zu calls of the heap, those of learn\n", early,
           most_held, early_calls, calls_of_heap - early_calls);
    time_calls(&n, &cycle);
    fttcan_node_free(&n);
    if (held) {
        printf("%zu bytes are not given back\n", held);
        return 1;
    }
    if (most_held > early) {
        printf("the memory grows\n");
        return 1;
    }
    return 0;
}
