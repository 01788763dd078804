/* Opens cycles by a master for a long time, with changes in between, and prints times and memory.
 *
 *     library CYCLES CHANGES ENTRIES SLOTS
 *
 * All memory of the library is counted by a heap of this program. */
#include "counted.h"

typedef struct {
    double sum, worst;
    uint64_t count;
} times;

static void add(times *all, double one) {
    all->sum += one;
    all->count++;
    if (one > all->worst)
        all->worst = one;
}

static fttcan_op entry(unsigned n) {
    static const uint16_t periods[] = {4, 5, 8, 10, 20, 40};
    fttcan_op op = {FTTCAN_ADD, {0, 0, 0, 0, 0, 0, 0}};
    op.entry.period = op.entry.deadline = periods[n % 6];
    op.entry.slot = (uint8_t)n;
    op.entry.node = (uint8_t)(n % 5);
    op.entry.length = (uint8_t)(n % 9);
    op.entry.priority = (uint8_t)n;
    return op;
}

static void submit(fttcan_master *m, uint64_t start, const fttcan_op *op, times *all) {
    fttcan_verdict v = {0, 0, 0, 0, 0, 0, 0};
    const double began = microseconds();
    must(fttcan_master_submit(m, 1, start, op, 1, &v), "submit");
    add(all, microseconds() - began);
    if (v.kind == FTTCAN_ACCEPTED)
        return;
    printf("submit: %s\n", fttcan_verdict_name(v.kind));
    exit(1);
}

/* Opens so many cycles; of every thousand the last one is timed alone. */
static void open_all(fttcan_master *m, uint64_t cycles, times *all, times *single) {
    fttcan_order order = {0, {0, 0}, 0, 0};
    while (cycles) {
        const uint64_t many = cycles < 1000 ? cycles : 1000;
        double began = microseconds();
        for (uint64_t n = 1; n < many; n++)
            must(fttcan_master_open(m, &order), "open");
        all->sum += microseconds() - began;
        all->count += many - 1;
        began = microseconds();
        must(fttcan_master_open(m, &order), "open");
        add(single, microseconds() - began);
        cycles -= many;
    }
}

int main(int count, char **words) {
    fttcan_rules rules = {10000, 4000, 5, 40, FTTCAN_EDF, FTTCAN_SKIP};
    fttcan_master m = {0};
    times adds = {0, 0, 0}, changes = {0, 0, 0}, opens = {0, 0, 0}, single = {0, 0, 0};
    uint64_t cycles, each, next = 0;
    size_t early, early_calls;
    unsigned many, entries, n;
    if (count != 5)
        return 2;
    cycles = strtoull(words[1], NULL, 10);
    many = (unsigned)atoi(words[2]);
    entries = (unsigned)atoi(words[3]);
    rules.slots = (uint8_t)atoi(words[4]);
    must(fttcan_master_new(&m, &rules), "new");
    for (n = 0; n < entries; n++) {
        const fttcan_op op = entry(n);
        submit(&m, 0, &op, &adds);
    }
    for (n = 0; n < 10; n++) {
        fttcan_op op = entry(3);
        op.kind = FTTCAN_CHANGE;
        op.entry.period = op.entry.deadline = n % 2 ? 10 : 20;
        submit(&m, 100 * n, &op, &adds);
        open_all(&m, 100, &opens, &single);
    }
    early = most_held;
    most_held = held;
    early_calls = calls_of_heap;
    opens = single = (times){0, 0, 0};
    each = (cycles - 1000) / (many ? many : 1);
    for (n = 0; n < many; n++) {
        fttcan_op op = entry(3);
        op.kind = FTTCAN_CHANGE;
        op.entry.period = op.entry.deadline = n % 2 ? 10 : 20;
        must(fttcan_master_next(&m, &next), "next");
        submit(&m, next, &op, &changes);
        open_all(&m, each, &opens, &single);
    }
    must(fttcan_master_next(&m, &next), "next");
    printf("entries %u, cycles %" PRIu64 ", changes %u\n", entries, next, many);
    printf("open      mean %.3f us; worst of %" PRIu64 " timed alone %.1f us\n", opens.sum / (double)opens.count, single.count, single.worst);
    printf("change    mean %.1f us; worst %.1f us\n", changes.sum / (double)changes.count, changes.worst);
    printf("adding    mean %.1f us; worst %.1f us, while the table fills\n", adds.sum / (double)adds.count, adds.worst);
    printf("memory    most %zu bytes in the first 1000 cycles, most %zu bytes later; %zu and %zu calls of the heap\n", early, most_held,
           early_calls, calls_of_heap - early_calls);
    fttcan_master_free(&m);
    if (held) {
        printf("%zu bytes are not given back\n", held);
        return 1;
    }
    if (most_held > early) {
        printf("the memory grows\n");
        return 1;
    }
    return 0;
}
