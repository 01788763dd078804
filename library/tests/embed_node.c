/* The driver of examples/embed-node, on four kinds of simulated controllers, with latencies at random within their bounds:
 * whatever a run brings, no message is lost or doubled, and none lies outside its window by more than the clocks are off.
 *
 *     embed_node RUNS CYCLES SEED
 *
 * The master's orders are those of the library. What was asked for and what was on the bus is counted here. */
#include "../../examples/embed-node/driver.h"
#include "controllers.h"
#include "support.h"

enum { MOST_NODES = 6, MOST_WAITING = 4096, ROOM = 4, OWN_IDS = 3, MASTER = 0 };

static const controller_kind kinds[] = {
    {"one buffer", 1, 1, 4, 12, 4, 12, 6, 30},
    {"three buffers, slow", 3, 0, 10, 40, 10, 60, 10, 60},
    {"three buffers, sorted", 3, 1, 2, 6, 2, 8, 4, 20},
    {"eight buffers, sorted", 8, 1, 1, 3, 1, 4, 2, 10},
};
enum { KINDS = sizeof kinds / sizeof *kinds };

/* A request that was put, and not sent yet. */
typedef struct {
    uint16_t id;
    uint8_t bytes[8];
} waiting;

/* A board: its driver, its clock, and what was put and not sent. */
typedef struct {
    driver driver;
    simulated_board *board;
    int64_t offset;  /* its clock less the bus's at time 0 */
    int32_t ppm;     /* how fast it runs, in millionths */
    waiting waits[MOST_WAITING];
    unsigned first, count;
} node_board;

typedef struct {
    simulated_bus bus;
    node_board nodes[MOST_NODES];
    unsigned nodes_count;
    fttcan_layout layout;
    uint32_t reserve, slack; /* of the window; by how much a frame may lie outside of it */
    fttcan_order order;      /* of the open cycle */
    uint8_t sent[FTTCAN_MOST_SLOTS]; /* how often each slot was sent in it */
    uint64_t cycle_begins;
    fttcan_placed table[256]; /* of the last cycle in which nodes learnt one */
    fttcan_size table_count;
    int deaf;                 /* the node that hears no trigger in the open cycle, or -1 */
    uint64_t slots_sent, requests_sent, hits;
} run;

static run now;

static uint64_t clock_of(const node_board *n, uint64_t time) {
    return (uint64_t)((int64_t)time + n->offset + (int64_t)time / 1000000 * n->ppm + (int64_t)time % 1000000 * n->ppm / 1000000);
}

/* The bus's time of a time of the board's clock, not before it. */
static uint64_t time_of(const node_board *n, uint64_t clock) {
    uint64_t time = (uint64_t)((int64_t)clock - n->offset);
    uint64_t guess = (uint64_t)((int64_t)time - (int64_t)time / 1000000 * n->ppm);
    guess = guess > 1000 ? guess - 1000 : 0;
    while (clock_of(n, guess) < clock)
        guess++;
    return guess;
}

uint64_t controller_clock(void *controller) {
    const node_board *n = controller;
    return clock_of(n, now.bus.now);
}

int driver_load(void *controller, unsigned buffer, const fttcan_frame *frame) {
    node_board *n = controller;
    return controller_load(n->board, buffer, frame);
}

void driver_abort(void *controller, unsigned buffer) {
    node_board *n = controller;
    controller_abort(n->board, buffer);
}

void driver_timer(void *controller, uint64_t when) {
    node_board *n = controller;
    controller_timer(n->board, when == UINT64_MAX ? UINT64_MAX : time_of(n, when) + bus_random(&now.bus, 0, n->driver.board.timer_late));
}

static void hear(simulated_board *board, const fttcan_frame *frame, uint64_t began) {
    node_board *n = board->driver;
    if (frame->id <= 1) /* what an acceptance filter lets through */
        driver_on_trigger(&n->driver, frame, clock_of(n, began));
}

static void end_load(simulated_board *board, unsigned buffer, int sent) {
    node_board *n = board->driver;
    driver_on_done(&n->driver, buffer, sent);
}

static void wake(simulated_board *board) {
    node_board *n = board->driver;
    driver_on_timer(&n->driver);
}

/* What the board of the master does with what it is told: nothing. */
static void ignore_done(simulated_board *board, unsigned buffer, int sent) { (void)board, (void)buffer, (void)sent; }

static uint64_t window_begins(void) {
    return now.cycle_begins + now.layout.cycle - now.order.window - now.reserve;
}

/* A frame was sent whole: is it one that was to be sent, and where it may be? */
static void judge(simulated_bus *bus, unsigned from, const fttcan_frame *frame, uint64_t start, uint64_t end) {
    (void)bus;
    if (from == MASTER)
        return;
    node_board *n = &now.nodes[from - 1];
    if (frame->id >= 0x200) {
        unsigned k = 0;
        while (k < n->count && n->waits[(n->first + k) % MOST_WAITING].id != frame->id)
            k++;
        WANT(k < n->count); /* nothing of the identifier waits: it was doubled, or never put */
        if (k < n->count) {
            WANT(memcmp(n->waits[(n->first + k) % MOST_WAITING].bytes, frame->bytes, 8) == 0); /* the oldest one goes first */
            for (; k > 0; k--)
                n->waits[(n->first + k) % MOST_WAITING] = n->waits[(n->first + k - 1) % MOST_WAITING];
            n->first = (n->first + 1) % MOST_WAITING;
            n->count--;
        }
        uint64_t opens = now.cycle_begins + (now.layout.slots == 96 ? 270 : 135) + now.layout.turnaround;
        WANT(start + now.slack >= opens && end <= window_begins() + now.slack);
        now.requests_sent++;
        return;
    }
    unsigned slot = frame->id - 0x100u;
    WANT(slot < now.layout.slots);
    WANT((slot < 64 ? now.order.flags.low >> slot : now.order.flags.high >> (slot - 64)) & 1);
    WANT(start + now.slack >= window_begins() && end <= now.cycle_begins + now.layout.cycle + now.slack);
    for (unsigned b = 0; b < frame->len; b++)
        WANT(frame->bytes[b] == (uint8_t)(slot * 7 + b)); /* the bytes that were set for the slot */
    now.sent[slot]++;
    now.slots_sent++;
}

static const controller_kind master_kind = {"master", 2, 1, 0, 0, 0, 0, 0, 0};

static uint64_t pick(uint64_t least, uint64_t most) { return bus_random(&now.bus, least, most); }

static int is_flagged(unsigned slot) {
    return (int)((slot < 64 ? now.order.flags.low >> slot : now.order.flags.high >> (slot - 64)) & 1);
}

static uint16_t own_id(unsigned node, unsigned k) { return (uint16_t)(0x200 + k * 16 + node); }

/* Makes the boards: each has a controller, a clock, and asynchronous identifiers of its own. */
static void make_boards(uint8_t nodes, unsigned entries) {
    fttcan_owner owners[MOST_NODES * OWN_IDS];
    size_t owners_count = 0;
    for (uint8_t n = 0; n < nodes; n++)
        for (unsigned k = 0; k < OWN_IDS; k++)
            owners[owners_count++] = (fttcan_owner){.id = own_id(n, k), .node = n};
    for (uint8_t n = 0; n < nodes; n++) {
        node_board *it = &now.nodes[n];
        const controller_kind *kind = &kinds[pick(0, KINDS - 1)];
        unsigned board = bus_board(&now.bus, kind, it);
        it->board = &now.bus.boards[board];
        it->board->on_frame = hear;
        it->board->on_done = end_load;
        it->board->on_timer = wake;
        it->offset = (int64_t)pick(100000, 1000000000);
        it->ppm = (int32_t)pick(0, 200) - 100;
        it->driver.board = (driver_board){.cycle = now.layout.cycle, .turnaround = now.layout.turnaround, .buffers = kind->buffers, .sorts = kind->sorts,
                                          .load_least = kind->load_least, .load_most = kind->load_most,
                                          .abort_most = kind->abort_most, .timer_late = 6, .margin = 3, .drift = 2};
        it->driver.controller = it;
        fttcan_settings settings = {.room = ROOM, .entries = entries, .number = n, .tolerance = 2};
        STATUS(FTTCAN_OK, fttcan_node_new(&it->driver.node, &now.layout, &settings, owners, owners_count));
        STATUS(FTTCAN_OK, fttcan_node_go_to(&it->driver.node, 0));
    }
}

/* All nodes learn the master's table, and set the bytes of their slots. */
static void learn(fttcan_master *master) {
    fttcan_size count = 0;
    fttcan_placed *table = now.table;
    STATUS(FTTCAN_OK, fttcan_master_table(master, table, 256, &count));
    now.table_count = count;
    for (unsigned n = 0; n < now.nodes_count; n++)
        STATUS(FTTCAN_OK, fttcan_node_learn(&now.nodes[n].driver.node, table, count));
    for (fttcan_size k = 0; k < count; k++) {
        uint8_t bytes[8];
        for (unsigned b = 0; b < 8; b++)
            bytes[b] = (uint8_t)(table[k].entry.slot * 7 + b);
        STATUS(FTTCAN_OK, driver_set(&now.nodes[table[k].entry.node].driver, table[k].entry.slot, bytes, table[k].entry.length));
    }
}

/* Random operations of a change. */
static fttcan_size random_ops(fttcan_op *ops, uint8_t nodes, uint8_t slots) {
    fttcan_size count = pick(1, 3);
    for (fttcan_size k = 0; k < count; k++) {
        uint16_t period = (uint16_t)pick(1, 6);
        ops[k] = (fttcan_op){.kind = (uint8_t)(pick(0, 3) ? FTTCAN_ADD : FTTCAN_REMOVE),
                             .entry = {.slot = (uint8_t)pick(0, (uint64_t)slots - 1), .node = (uint8_t)pick(0, (uint64_t)nodes - 1),
                                       .length = (uint8_t)pick(0, 8), .period = period, .deadline = (uint16_t)pick(1, period),
                                       .phase = (uint16_t)pick(0, 3)}};
    }
    return count;
}

/* The node that has the slot in the open cycle: that of its newest entry. */
static int node_of(unsigned slot) {
    int node = -1;
    uint64_t newest = 0;
    for (fttcan_size k = 0; k < now.table_count; k++)
        if (now.table[k].entry.slot == slot && now.table[k].origin <= now.order.cycle && now.table[k].origin >= newest) {
            newest = now.table[k].origin;
            node = now.table[k].entry.node;
        }
    return node;
}

/* The cycle is over: each flagged slot was sent once, unless more was lost than planned for. */
static void judge_cycle(int whole) {
    for (unsigned slot = 0; slot < now.layout.slots; slot++) {
        int flagged = is_flagged(slot);
        int heard = node_of(slot) != now.deaf;
        if (whole)
            WANT(now.sent[slot] == (flagged && heard));
        if (!heard)
            WANT(now.sent[slot] == 0);
        WANT(now.sent[slot] <= flagged);
        now.sent[slot] = 0;
    }
}

/* Puts a request with bytes of its own under an identifier of a node. */
static void put_one(uint64_t serial) {
    node_board *n = &now.nodes[pick(0, now.nodes_count - 1)];
    fttcan_frame frame = {.id = own_id((unsigned)(n - now.nodes), (unsigned)pick(0, OWN_IDS - 1)), .len = (uint8_t)pick(4, 8)};
    for (unsigned b = 0; b < 4; b++)
        frame.bytes[b] = (uint8_t)(serial >> (8 * b));
    /* it is noted before, since it may start at once */
    waiting *w = &n->waits[(n->first + n->count) % MOST_WAITING];
    w->id = frame.id;
    memcpy(w->bytes, frame.bytes, 8);
    n->count++;
    uint32_t status = driver_put(&n->driver, &frame);
    WANT(status == FTTCAN_OK || status == FTTCAN_FULL);
    if (status == FTTCAN_FULL)
        n->count--;
}

/* One run: a table, nodes, controllers and clocks at random. `errors` is how many hits a window is made for. */
static void one_run(uint64_t seed, unsigned cycles, unsigned errors) {
    fttcan_master master = {0};
    memset(&now, 0, sizeof now);
    now.deaf = -1;
    bus_begin(&now.bus, seed);
    uint8_t nodes = (uint8_t)pick(1, MOST_NODES), slots = pick(0, 3) ? 40 : 96;
    fttcan_rules rules = {.horizon = 10000, .window = (uint32_t)pick(200, 800), .nodes = nodes, .slots = slots,
                          .policy = (uint8_t)pick(0, 2), .fill = (uint8_t)pick(0, 1)};
    uint32_t part = slots == 96 ? 270 : 135;
    STATUS(FTTCAN_OK, fttcan_master_new(&master, &rules));
    now.nodes_count = nodes;
    /* What latencies take of a window: before its first frame, and between two frames, of which the shortest has 55 bits. */
    uint32_t between = 100, first = 60;
    now.reserve = first + (rules.window / 55 + 1) * between + errors * (163 + between);
    now.layout = (fttcan_layout){.turnaround = 60 + errors * 163, .window = rules.window + now.reserve, .slots = slots};
    now.layout.cycle = part + now.layout.turnaround + now.layout.window + (uint32_t)pick(300, 900);
    now.slack = 6;
    now.bus.on_sent = judge;
    unsigned m = bus_board(&now.bus, &master_kind, NULL);
    now.bus.boards[m].on_done = ignore_done;
    make_boards(nodes, 256);
    uint64_t serial = 0, hits = 0, moved = 0; /* how far the master has moved its cycles */
    unsigned hears_at = 1;
    for (unsigned c = 0; c < cycles && wrong < 20; c++) {
        int moves = c > 0 && !pick(0, 29);
        if (moves) /* and then no trigger is hit, so that it says where the cycle begins */
            moved += pick(now.layout.turnaround + 20, now.layout.cycle / 2);
        uint64_t begins = (uint64_t)c * now.layout.cycle + moved;
        bus_run(&now.bus, begins);
        if (c > 0)
            judge_cycle(now.bus.hits - hits <= errors);
        hits = now.bus.hits;
        now.cycle_begins = begins;
        now.bus.cut_per_mille = errors && !moves ? 20 : 0;
        now.bus.last_per_mille = errors && !moves ? 20 : 0;
        if (c >= hears_at) { /* now and then a node hears nothing, for some cycles */
            if (now.deaf >= 0)
                now.bus.boards[now.deaf + 1].deaf = 0;
            now.deaf = pick(0, 9) ? -1 : (int)pick(0, (uint64_t)nodes - 1);
            if (now.deaf >= 0)
                now.bus.boards[now.deaf + 1].deaf = 1;
            hears_at = c + (now.deaf < 0 ? 1 : (unsigned)pick(1, 9));
        }
        if (c % 5 == 0) {
            fttcan_op ops[3];
            fttcan_verdict verdict;
            fttcan_size count = random_ops(ops, nodes, slots);
            STATUS(FTTCAN_OK, fttcan_master_submit(&master, 1, c + pick(0, 2), ops, count, &verdict));
        }
        STATUS(FTTCAN_OK, fttcan_master_open(&master, &now.order));
        if (now.order.learned)
            learn(&master);
        fttcan_trigger trigger = {now.order.flags, now.order.cycle, now.order.window + now.reserve};
        fttcan_frame frames[2];
        fttcan_size count = 0;
        STATUS(FTTCAN_OK, fttcan_trigger_encode(slots, &trigger, frames, 2, &count));
        for (unsigned k = 0; k < count; k++)
            WANT(controller_load(&now.bus.boards[m], k, &frames[k]));
        for (unsigned puts = (unsigned)pick(0, 3); puts > 0; puts--) {
            uint64_t when = begins + pick(0, now.layout.cycle - 1);
            if (pick(0, 1)) /* where a request may just end in time, or no longer */
                when = window_begins() - pick(0, 400);
            if (when > now.bus.now)
                bus_run(&now.bus, when);
            put_one(serial++);
        }
    }
    if (wrong < 20) {
        bus_run(&now.bus, now.cycle_begins + now.layout.cycle);
        judge_cycle(now.bus.hits - hits <= errors);
    }
    for (unsigned n = 0; n < nodes; n++)
        fttcan_node_free(&now.nodes[n].driver.node);
    fttcan_master_free(&master);
}

int main(int argc, char **argv) {
    uint64_t runs = argc > 1 ? strtoull(argv[1], NULL, 10) : 100, seed = argc > 3 ? strtoull(argv[3], NULL, 10) : 1;
    unsigned cycles = argc > 2 ? (unsigned)strtoul(argv[2], NULL, 10) : 200;
    uint64_t slots = 0, requests = 0, hits = 0;
    for (uint64_t k = 0; k < runs && wrong < 20; k++) {
        one_run(seed + k, cycles, (unsigned)(k % 3));
        slots += now.slots_sent;
        requests += now.requests_sent;
        hits += now.bus.hits;
        if (wrong)
            printf("run of seed %" PRIu64 ", %u cycles, %u errors\n", seed + k, cycles, (unsigned)(k % 3));
    }
    WANT(slots > 0 && requests > 0);
    printf("%" PRIu64 " runs, %" PRIu64 " slot frames, %" PRIu64 " requests, %" PRIu64 " hits, %d wrong\n", runs, slots, requests, hits, wrong);
    return ended("embed_node");
}
