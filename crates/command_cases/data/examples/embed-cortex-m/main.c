/* A master on a Cortex-M4 without an operating system: a timer opens the cycles, changes come by a queue, one is refused in
 * words, and a standby takes over. */
#include "board.h"
#include "fttcan.h"
#include "fttcan_bare.h"

enum { POSITION = 0, SPEED = 1, LOGGING = 2, STOP = 9, OPERATIONS = 2, WAITING = 4, CYCLES = 9, LOST = 6 };

/* The heap of the library. 24 KiB are more than these few messages need. */
static _Alignas(16) unsigned char arena[24 * 1024];

/* ---- Between the interrupt and the main loop. The interrupt alone writes `ticks` and `filled`, and the main loop `taken`. The
 *      interrupt calls nothing of the library. */

typedef struct {
    const char *what;
    uint32_t start; /* the cycle from which the change is asked for */
    uint8_t count;
    fttcan_op ops[OPERATIONS];
} request;

static volatile uint32_t ticks, filled, taken;
static request waiting[WAITING];

/* What an operator's panel would send: here it comes at fixed ticks. */
static const struct {
    uint32_t tick;
    request it;
} panel[] = {
    {1, {"begin", 1, 2, {{FTTCAN_ADD, {.slot = POSITION, .node = 0, .length = 8, .period = 1, .deadline = 1}},
                         {FTTCAN_ADD, {.slot = SPEED, .node = 1, .length = 8, .period = 2, .deadline = 1}}}}},
    {2, {"logging", 3, 1, {{FTTCAN_ADD, {.slot = LOGGING, .node = 2, .length = 8, .period = 4, .deadline = 4}}}}},
    {4, {"greedy", 5, 2, {{FTTCAN_ADD, {.slot = 5, .node = 2, .length = 8, .period = 2, .deadline = 1}},
                          {FTTCAN_ADD, {.slot = 6, .node = 2, .length = 8, .period = 4, .deadline = 1}}}}},
    {5, {"emergency", 6, 2, {{FTTCAN_REMOVE, {.slot = LOGGING}},
                             {FTTCAN_ADD, {.slot = STOP, .node = 0, .length = 1, .period = 1, .deadline = 1}}}}},
    {8, {"emergency again", 9, 1, {{FTTCAN_REMOVE, {.slot = LOGGING}}}}},
};
static uint32_t sent;

void on_tick(void) {
    ticks = ticks + 1;
    while (sent < sizeof panel / sizeof *panel && panel[sent].tick == ticks && filled - taken < WAITING) {
        waiting[filled % WAITING] = panel[sent++].it;
        filled = filled + 1;
    }
}

/* ---- Printing without a C library. */

static char line[200];
static uint32_t used;

static void text(const char *from) {
    while (*from && used < sizeof line - 2)
        line[used++] = *from++;
}

static void hexadecimal(uint64_t number, int digits) {
    while (digits--)
        line[used++] = "0123456789abcdef"[number >> 4 * digits & 15];
}

static void decimal(uint32_t number) {
    char digits[11];
    int at = 10;
    digits[at] = 0;
    do
        digits[--at] = (char)('0' + number % 10);
    while (number /= 10);
    text(digits + at);
}

static void end_of_line(void) {
    line[used++] = '\n';
    line[used] = 0;
    used = 0;
    print(line);
}

static void must(uint32_t status, const char *call) {
    if (status == FTTCAN_OK)
        return;
    text(call);
    text(": ");
    text(fttcan_status_name(status));
    end_of_line();
    stop(1);
}

/* ---- The master. */

static const fttcan_rules rules = {.horizon = 1000, .window = 405, .nodes = 3, .slots = 40, .policy = FTTCAN_EDF, .fill = FTTCAN_SKIP};
static fttcan_master master;
static fttcan_standby standby;

/* Answers a request. A change for which memory has run out may be asked for again: nothing has changed. */
static void answer(const request *it) {
    fttcan_verdict verdict;
    char words[160];
    const uint32_t status = fttcan_master_submit(&master, 1, it->start, it->ops, it->count, &verdict);
    text(it->what);
    text(": ");
    if (status == FTTCAN_MEMORY) {
        text("no memory now");
        end_of_line();
        return;
    }
    must(status, "submit");
    fttcan_verdict_words(&verdict, words, sizeof words);
    text(words);
    end_of_line();
    if (verdict.kind == FTTCAN_ACCEPTED && standby.at)
        must(fttcan_standby_change(&standby, 1, it->start, it->ops, it->count, &verdict), "standby");
}

/* Opens a cycle, and hands its trigger to the controller, which prints it here. The standby hears it too. */
static void open_cycle(void) {
    fttcan_order order;
    fttcan_frame frame;
    fttcan_follow fault;
    fttcan_size count;
    must(fttcan_master_open(&master, &order), "open");
    const fttcan_trigger trigger = {order.flags, order.cycle, order.window};
    must(fttcan_trigger_encode(rules.slots, &trigger, &frame, 1, &count), "trigger");
    text("cycle ");
    decimal((uint32_t)order.cycle);
    text(order.learned ? ", new table: " : ": ");
    hexadecimal(frame.id, 3);
    text("#");
    for (int n = 0; n < frame.len; n++)
        hexadecimal(frame.bytes[n], 2);
    end_of_line();
    if (standby.at)
        must(fttcan_standby_trigger(&standby, &frame, 1, &fault), "follow");
}

int main(void) {
    uint32_t done = 0;
    if (!fttcan_heap_begin(arena, sizeof arena))
        return 2;
    must(fttcan_master_new(&master, &rules), "new");
    must(fttcan_standby_new(&standby, &rules), "new");
    /* A cycle of 1 ms at 25 MHz. */
    start_timer(25000);
    while (done < CYCLES) {
        while (ticks == done)
            sleep_until_interrupt();
        if (done == LOST) {
            text("the standby takes over");
            end_of_line();
            fttcan_master_free(&master);
            must(fttcan_standby_take_over(&standby, &master), "take over");
        }
        open_cycle();
        done++;
        /* Requests are answered after the trigger has gone out: planning takes longer than an opening. */
        while (taken != filled) {
            answer(&waiting[taken % WAITING]);
            taken = taken + 1;
        }
    }
    fttcan_master_free(&master);
    text("heap: at most ");
    decimal((uint32_t)fttcan_heap_told().most);
    text(" bytes, held at the end ");
    decimal((uint32_t)fttcan_heap_told().held);
    end_of_line();
    return 0;
}
