/* Random calls. Beside a master run one that is saved and restored again and again, one that plans each change apart, a
 * standby that follows and takes over, and the stateless pair over a table of its own. All answer the same.
 *
 *     random SEED ROUNDS */
#include "support.h"

enum { MOST = 4200 };

static uint64_t seed;

/* A number below an end, by a generator of 64 bits (xorshift). */
static uint32_t below(uint32_t end) {
    seed ^= seed << 13;
    seed ^= seed >> 7;
    seed ^= seed << 17;
    return (uint32_t)((seed >> 11) % end);
}

static fttcan_rules some_rules(void) {
    fttcan_rules rules = {1 + below(3000), 55 + below(2000), (uint8_t)(1 + below(30)), below(2) ? 40 : 96, (uint8_t)below(3), (uint8_t)below(2)};
    return rules;
}

static fttcan_op some_op(const fttcan_rules *rules) {
    static const uint16_t periods[] = {1, 2, 3, 4, 5, 6, 8, 10, 12, 20};
    fttcan_op op;
    memset(&op, 0, sizeof op);
    op.kind = (uint8_t)(below(5) ? FTTCAN_ADD : 1 + below(2));
    op.entry.period = below(20) ? periods[below(10)] : (uint16_t)below(70);
    op.entry.deadline = (uint16_t)(op.entry.period && below(20) ? 1 + below(op.entry.period) : below(9));
    op.entry.phase = (uint16_t)below(9);
    op.entry.slot = (uint8_t)(below(2) ? below(8) : below(rules->slots + 1u));
    op.entry.node = (uint8_t)below(rules->nodes + (below(20) ? 0u : 1u));
    op.entry.length = (uint8_t)below(below(20) ? 9 : 11);
    op.entry.priority = (uint8_t)below(256);
    return op;
}

typedef struct {
    fttcan_rules rules;
    fttcan_master master, saved, apart;
    fttcan_standby standby;
    fttcan_placed tables[2][MOST];
    fttcan_size count;
    int current;
    fttcan_state state;
} beside;

static beside all;
static unsigned kinds[5];

/* Whether a table has all of what another one has that is not over by a cycle; both in the order of their placing. */
static int covers(const fttcan_placed *whole, fttcan_size count, const fttcan_placed *part, fttcan_size parts, uint64_t cycle) {
    fttcan_size at = 0, place;
    for (place = 0; place < count; place++) {
        const fttcan_placed *p = &whole[place];
        if (at < parts && same_placed(p, &part[at]))
            at++;
        else if (!p->ended || p->end + p->entry.deadline > cycle + 1)
            return 0;
    }
    return at == parts;
}

static void submit(void) {
    fttcan_verdict verdict = {0, 0, 0, 0, 0, 0, 0}, other = verdict;
    fttcan_op ops[18];
    fttcan_size many = below(4) ? 1 : below(18), place, changed = 0;
    uint64_t start = all.state.cycle + below(6), next = 0;
    const uint8_t caller = (uint8_t)(1 + below(8));
    fttcan_snapshot apart = {0};
    fttcan_planned planned = {0};
    if (start && !below(9))
        start--;
    memset(ops, 0, sizeof ops);
    for (place = 0; place < many; place++)
        ops[place] = some_op(&all.rules);
    STATUS(FTTCAN_OK, fttcan_master_submit(&all.master, caller, start, ops, many, &verdict));
    STATUS(FTTCAN_OK, fttcan_master_submit(&all.saved, caller, start, ops, many, &other));
    WANT(same_verdict(&verdict, &other));
    STATUS(FTTCAN_OK, fttcan_decide(&all.rules, all.tables[all.current], all.count, &all.state, start, ops, many, &other,
                                    all.tables[!all.current], MOST, &changed));
    WANT(same_verdict(&verdict, &other));
    STATUS(FTTCAN_OK, fttcan_master_snapshot(&all.apart, &apart));
    STATUS(FTTCAN_OK, fttcan_plan_apart(&apart, start, ops, many, &planned));
    STATUS(FTTCAN_OK, fttcan_master_settle(&all.apart, caller, &planned, &other));
    WANT(same_verdict(&verdict, &other));
    kinds[verdict.kind < 5 ? verdict.kind : 0]++;
    if (verdict.kind == FTTCAN_ACCEPTED) {
        all.current = !all.current;
        all.count = changed;
    }
    if (all.standby.at == NULL)
        return;
    STATUS(verdict.kind == FTTCAN_ACCEPTED ? FTTCAN_OK : FTTCAN_NO, fttcan_standby_change(&all.standby, caller, start, ops, many, &other));
    WANT(same_verdict(&verdict, &other));
    STATUS(FTTCAN_OK, fttcan_standby_next(&all.standby, &next));
    WANT(next == all.state.cycle);
}

static void open_cycle(void) {
    fttcan_order order = {0, {0, 0}, 0, 0}, other;
    fttcan_plan plan = {{0, 0}, 0};
    const uint64_t cycle = all.state.cycle;
    STATUS(FTTCAN_OK, fttcan_master_open(&all.master, &order));
    STATUS(FTTCAN_OK, fttcan_open(&all.rules, all.tables[all.current], all.count, &all.state, &plan));
    WANT(order.cycle == cycle && same_mask(order.flags, plan.flags) && order.window == plan.window);
    STATUS(FTTCAN_OK, fttcan_master_open(&all.saved, &other));
    WANT(other.cycle == cycle && same_mask(order.flags, other.flags) && order.window == other.window && order.learned == other.learned);
    STATUS(FTTCAN_OK, fttcan_master_open(&all.apart, &other));
    WANT(other.cycle == cycle && same_mask(order.flags, other.flags) && order.window == other.window && order.learned == other.learned);
    if (all.standby.at != NULL) {
        fttcan_trigger trigger = {order.flags, order.cycle, order.window};
        fttcan_frame frames[2];
        fttcan_follow fault;
        fttcan_size count = 0;
        memset(frames, 0, sizeof frames);
        memset(&fault, 0, sizeof fault);
        STATUS(FTTCAN_OK, fttcan_trigger_encode(all.rules.slots, &trigger, frames, 2, &count));
        STATUS(FTTCAN_OK, fttcan_standby_trigger(&all.standby, frames, count, &fault));
    }
}

static void save(void) {
    static uint8_t bytes[1 << 18], again[1 << 18];
    fttcan_size len = 0, len_again = 0;
    STATUS(FTTCAN_OK, fttcan_master_save(&all.saved, bytes, sizeof bytes, &len));
    fttcan_master_free(&all.saved);
    STATUS(FTTCAN_OK, fttcan_master_restore(&all.saved, bytes, len));
    STATUS(FTTCAN_OK, fttcan_master_save(&all.saved, again, sizeof again, &len_again));
    WANT(len == len_again && memcmp(bytes, again, len) == 0);
}

/* The standby takes over: the first master goes. */
static void take_over(void) {
    if (all.standby.at == NULL)
        return;
    fttcan_master_free(&all.master);
    STATUS(FTTCAN_OK, fttcan_standby_take_over(&all.standby, &all.master));
}

static void compare(void) {
    static fttcan_placed table[MOST];
    fttcan_size count = 0;
    uint64_t next = 0;
    STATUS(FTTCAN_OK, fttcan_master_next(&all.master, &next));
    WANT(next == all.state.cycle);
    STATUS(FTTCAN_OK, fttcan_master_table(&all.master, table, MOST, &count));
    WANT(covers(all.tables[all.current], all.count, table, count, next));
}

static void play(void) {
    unsigned call;
    memset(&all, 0, sizeof all);
    all.rules = some_rules();
    STATUS(FTTCAN_OK, fttcan_master_new(&all.master, &all.rules));
    STATUS(FTTCAN_OK, fttcan_master_new(&all.saved, &all.rules));
    STATUS(FTTCAN_OK, fttcan_master_new(&all.apart, &all.rules));
    STATUS(FTTCAN_OK, fttcan_standby_new(&all.standby, &all.rules));
    for (call = 0; call < 150 && !wrong; call++) {
        switch (below(8)) {
        case 0:
        case 1:
        case 2: submit(); break;
        case 3: save(); break;
        case 4: compare(); break;
        default: open_cycle(); break;
        }
        if (call == 100)
            take_over();
    }
    compare();
    fttcan_master_free(&all.master);
    fttcan_master_free(&all.saved);
    fttcan_master_free(&all.apart);
    fttcan_standby_free(&all.standby);
}

int main(int count, char **words) {
    unsigned long rounds, round;
    if (count != 3)
        return 2;
    seed = strtoull(words[1], NULL, 10) * 0x9E3779B97F4A7C15u + 1;
    rounds = strtoul(words[2], NULL, 10);
    for (round = 0; round < rounds && !wrong; round++)
        play();
    if (wrong)
        printf("in round %lu\n", round);
    printf("malformed %u, passed %u, miss %u, horizon %u, accepted %u\n", kinds[0], kinds[1], kinds[2], kinds[3], kinds[4]);
    return ended("random");
}
