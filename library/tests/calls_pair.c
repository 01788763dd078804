/* The stateless pair and the checker: each call once where it is answered, and once for each status that it can answer but FTTCAN_MEMORY: refuse.c has that. */
#include "support.h"

static const fttcan_rules rules = {10000, 540, 5, 40, FTTCAN_RM, FTTCAN_PREFIX};
/* The entry of the first change: 8 bytes of node 1 in slot 5, in every second cycle. */
static const fttcan_op first = {FTTCAN_ADD, {0, 2, 1, 5, 1, 8, 0}};

static void is_accepted(const fttcan_verdict *verdict, uint64_t from, uint64_t length) {
    WANT(verdict->kind == FTTCAN_ACCEPTED && verdict->first == from && verdict->second == length);
}

/* The pair over a table that stays here. */
static void of_pair(void) {
    fttcan_state state = {0, {0, 0}}, bad;
    fttcan_verdict v = {0, 0, 0, 0, 0, 0, 0};
    fttcan_placed table[2], twice[2];
    fttcan_plan plan = {{0, 0}, 0};
    fttcan_op op = first;
    fttcan_size count = 9;
    memset(table, 0, sizeof table);
    STATUS(FTTCAN_ROOM, fttcan_decide(&rules, twice, 0, &state, 0, &first, 1, &v, table, 0, &count));
    WANT(count == 1);
    count = 9;
    STATUS(FTTCAN_OK, fttcan_decide(&rules, twice, 0, &state, 0, &first, 1, &v, table, 2, &count));
    is_accepted(&v, 0, 2);
    WANT(count == 1 && table[0].origin == 0 && !table[0].ended && same_entry(&table[0].entry, &first.entry));
    op.kind = 3;
    STATUS(FTTCAN_ARGUMENT, fttcan_decide(&rules, table, 1, &state, 0, &op, 1, &v, twice, 2, &count));
    STATUS(FTTCAN_OK, fttcan_decide(&rules, table, 1, &state, 0, &first, 1, &v, twice, 2, &count));
    WANT(v.kind == FTTCAN_MALFORMED && v.why == 10);
    STATUS(FTTCAN_OK, fttcan_open(&rules, table, 1, &state, &plan));
    WANT(plan.flags.low == 0x20 && plan.window == 135 && state.cycle == 1 && !state.pending.low);
    twice[0] = twice[1] = table[0];
    STATUS(FTTCAN_TABLE, fttcan_open(&rules, twice, 2, &state, &plan));
    STATUS(FTTCAN_TABLE, fttcan_decide(&rules, twice, 2, &state, 0, &first, 1, &v, table, 2, &count));
    /* What is out of its range comes before a table that is not well placed, and before a state. */
    STATUS(FTTCAN_ARGUMENT, fttcan_decide(&rules, twice, 2, &state, 0, &op, 1, &v, table, 2, &count));
    bad = state;
    bad.pending.low = 1u << 7;
    STATUS(FTTCAN_STATE, fttcan_open(&rules, table, 1, &bad, &plan));
    bad = state;
    bad.pending.high = (uint64_t)1 << 32;
    STATUS(FTTCAN_STATE, fttcan_open(&rules, table, 1, &bad, &plan));
    STATUS(FTTCAN_STATE, fttcan_decide(&rules, table, 1, &bad, 0, &first, 1, &v, twice, 2, &count));
    STATUS(FTTCAN_ARGUMENT, fttcan_decide(&rules, table, 1, &bad, 0, &op, 1, &v, twice, 2, &count));
    bad = state;
    bad.cycle = UINT64_MAX;
    STATUS(FTTCAN_STATE, fttcan_open(&rules, table, 1, &bad, &plan));
    WANT(state.cycle == 1);
}

static void of_miss(void) {
    static const fttcan_rules narrow = {10000, 135, 1, 40, FTTCAN_RM, FTTCAN_PREFIX};
    fttcan_state state = {0, {0, 0}};
    fttcan_plan plan = {{5, 5}, 5};
    fttcan_placed table[2];
    memset(table, 0, sizeof table);
    table[0].entry = (fttcan_entry){0, 1, 1, 0, 0, 8, 0};
    table[1].entry = (fttcan_entry){0, 2, 1, 1, 0, 8, 0};
    STATUS(FTTCAN_MISS, fttcan_open(&narrow, table, 2, &state, &plan));
    WANT(state.cycle == 0 && plan.window == 5);
}

/* Plan texts: one that keeps the table, and each breach. */
static void of_check(void) {
    static const struct {
        const char *text;
        uint32_t window, status;
        uint8_t kind, slot;
        uint64_t first, second;
    } cases[] = {
        {"fttcan plan 2\nfrom 0\npending 0000000000\nfirst 0\nlength 2\n0000000020 1\n0000000000 1\nend\n", 135, FTTCAN_OK, 0, 0, 0, 0},
        {"fttcan plan 2\nfrom 0\npending 0000000000\nfirst 0\nlength 2\n0000000020 1\n0000000000 1\nend\n", 134, FTTCAN_NO, 2, 0, 0, 135},
        {"fttcan plan 2\nfrom 0\npending 0000000000\nfirst 0\nlength 2\n0000000000 2\nend\n", 135, FTTCAN_NO, 3, 5, 0, 0},
        {"fttcan plan 2\nfrom 0\npending 0000000000\nfirst 0\nlength 2\n0000000020 2\nend\n", 135, FTTCAN_NO, 1, 5, 1, 0},
        {"fttcan plan 2\nfrom 0\npending 0000000000\nfirst 0\nlength 3\n0000000020 1\n0000000000 1\n0000000020 1\nend\n", 135, FTTCAN_NO, 0, 5, 0, 0},
        {"fttcan plan 2\nfrom 0\npending 0000000000\nfirst 0\nlength 2\nend\n", 135, FTTCAN_TEXT, 9, 9, 6, 9},
        {"", 135, FTTCAN_TEXT, 9, 9, 1, 9},
    };
    fttcan_placed table[1];
    fttcan_size place;
    memset(table, 0, sizeof table);
    table[0].entry = first.entry;
    for (place = 0; place < sizeof cases / sizeof cases[0]; place++) {
        fttcan_breach breach = {9, 9, 9, 9};
        const uint8_t *text = (const uint8_t *)cases[place].text;
        STATUS(cases[place].status, fttcan_check(table, 1, cases[place].window, text, strlen(cases[place].text), &breach));
        if (cases[place].status == FTTCAN_NO)
            WANT(breach.kind == cases[place].kind && (breach.slot == cases[place].slot || breach.kind == 2) && breach.first == cases[place].first
                 && breach.second == cases[place].second);
        if (cases[place].status == FTTCAN_TEXT)
            WANT(breach.first == cases[place].first);
    }
}

/* Rules out of their ranges. */
static void of_rules(void) {
    fttcan_rules bad[3];
    fttcan_state state = {0, {0, 0}};
    fttcan_plan plan = {{7, 7}, 7};
    fttcan_verdict v = {7, 7, 7, 7, 7, 7, 7};
    fttcan_placed room[1];
    fttcan_size place, count = 7;
    for (place = 0; place < 3; place++)
        bad[place] = rules;
    bad[0].window = 54;
    bad[1].policy = 3;
    bad[2].fill = 2;
    for (place = 0; place < 3; place++) {
        STATUS(FTTCAN_ARGUMENT, fttcan_open(&bad[place], room, 0, &state, &plan));
        STATUS(FTTCAN_ARGUMENT, fttcan_decide(&bad[place], room, 0, &state, 0, &first, 1, &v, room, 0, &count));
    }
    WANT(state.cycle == 0 && plan.window == 7 && v.kind == 7 && count == 7);
}

int main(void) {
    of_rules();
    of_pair();
    of_miss();
    of_check();
    return ended("calls_pair");
}
