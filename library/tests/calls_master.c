/* The calls on a master: each call once where it is answered, and once for each status that it can answer but FTTCAN_MEMORY: refuse.c has that. */
#include "support.h"

static const fttcan_rules rules = {10000, 540, 5, 40, FTTCAN_RM, FTTCAN_PREFIX};
/* The entry of the first change: 8 bytes of node 1 in slot 5, in every second cycle. */
static const fttcan_op first = {FTTCAN_ADD, {0, 2, 1, 5, 1, 8, 0}};

static void is_accepted(const fttcan_verdict *verdict, uint64_t from, uint64_t length) {
    WANT(verdict->kind == FTTCAN_ACCEPTED && verdict->first == from && verdict->second == length);
}

static void of_version(void) {
    WANT(fttcan_version() == FTTCAN_VERSION);
    WANT(strcmp(fttcan_status_name(FTTCAN_UNFINISHED), "unfinished") == 0);
    WANT(strcmp(fttcan_status_name(77), "unknown") == 0);
}

/* Each rule out of its range. */
static void of_rules(void) {
    fttcan_master m = {0};
    fttcan_size place;
    fttcan_rules bad[12];
    for (place = 0; place < 12; place++)
        bad[place] = rules;
    bad[0].horizon = 0;
    bad[1].horizon = 100001;
    bad[2].window = 54;
    bad[3].window = 16384;
    bad[4].nodes = 0;
    bad[5].nodes = 31;
    bad[6].slots = 41;
    bad[7].slots = 0;
    bad[8].policy = 3;
    bad[9].fill = 2;
    bad[10].slots = 97;
    bad[11].horizon = UINT64_MAX;
    for (place = 0; place < 12; place++) {
        STATUS(FTTCAN_ARGUMENT, fttcan_master_new(&m, &bad[place]));
        WANT(m.at == NULL);
    }
}

/* A handle that holds nothing. */
static void of_closed(void) {
    fttcan_master m = {0};
    fttcan_snapshot apart = {0};
    fttcan_planned planned = {0};
    fttcan_verdict v = {9, 9, 9, 9, 9, 9, 9};
    fttcan_order order = {9, {9, 9}, 9, 9};
    fttcan_mask mask = {9, 9};
    fttcan_placed room;
    fttcan_rules told = rules;
    uint64_t cycle = 9;
    fttcan_size count = 9;
    uint8_t byte = 9;
    STATUS(FTTCAN_CLOSED, fttcan_master_submit(&m, 1, 0, &first, 1, &v));
    STATUS(FTTCAN_CLOSED, fttcan_master_trail(&m, &mask, 1, &count));
    STATUS(FTTCAN_CLOSED, fttcan_master_submit(&m, 9, 0, &first, 1, &v));
    STATUS(FTTCAN_CLOSED, fttcan_master_look(&m, 1, &cycle));
    STATUS(FTTCAN_CLOSED, fttcan_master_look(&m, 9, &cycle));
    STATUS(FTTCAN_CLOSED, fttcan_master_open(&m, &order));
    STATUS(FTTCAN_CLOSED, fttcan_master_planned(&m, &mask));
    STATUS(FTTCAN_CLOSED, fttcan_master_next(&m, &cycle));
    STATUS(FTTCAN_CLOSED, fttcan_master_rules(&m, &told));
    WANT(told.window == 540);
    STATUS(FTTCAN_CLOSED, fttcan_master_table(&m, &room, 1, &count));
    STATUS(FTTCAN_CLOSED, fttcan_master_certificate(&m, &byte, 1, &count));
    STATUS(FTTCAN_CLOSED, fttcan_master_save(&m, &byte, 1, &count));
    STATUS(FTTCAN_CLOSED, fttcan_master_snapshot(&m, &apart));
    STATUS(FTTCAN_CLOSED, fttcan_plan_apart(&apart, 0, &first, 1, &planned));
    STATUS(FTTCAN_CLOSED, fttcan_planned_verdict(&planned, &v));
    STATUS(FTTCAN_CLOSED, fttcan_master_settle(&m, 1, &planned, &v));
    WANT(v.first == 9 && v.kind == 9 && order.cycle == 9 && mask.low == 9 && cycle == 9 && count == 9 && byte == 9);
    fttcan_master_free(&m);
    fttcan_snapshot_free(&apart);
    fttcan_planned_free(&planned);
    WANT(m.at == NULL && apart.at == NULL && planned.at == NULL);
}

/* The first three cycles of the first change, and refusals. */
static void of_master(void) {
    static const uint64_t flags[3] = {0x20, 0, 0x20};
    fttcan_master m = {0};
    fttcan_verdict v = {0, 0, 0, 0, 0, 0, 0};
    fttcan_order order = {0, {0, 0}, 0, 0};
    fttcan_placed room[2];
    fttcan_op op = first;
    uint64_t cycle = 0;
    fttcan_size count = 0;
    unsigned place;
    STATUS(FTTCAN_OK, fttcan_master_new(&m, &rules));
    STATUS(FTTCAN_OPEN, fttcan_master_new(&m, &rules));
    STATUS(FTTCAN_OK, fttcan_master_submit(&m, 1, 0, &first, 1, &v));
    is_accepted(&v, 0, 2);
    STATUS(FTTCAN_ROOM, fttcan_master_table(&m, room, 0, &count));
    WANT(count == 1);
    STATUS(FTTCAN_OK, fttcan_master_table(&m, room, 2, &count));
    WANT(count == 1 && room[0].origin == 0 && !room[0].ended && same_entry(&room[0].entry, &first.entry));
    for (place = 0; place < 3; place++) {
        STATUS(FTTCAN_OK, fttcan_master_open(&m, &order));
        WANT(order.cycle == place && order.flags.low == flags[place] && !order.flags.high);
        WANT(order.window == (flags[place] ? 135 : 0) && order.learned == (place == 0));
    }
    STATUS(FTTCAN_OK, fttcan_master_look(&m, 8, &cycle));
    WANT(cycle == 3);
    STATUS(FTTCAN_ARGUMENT, fttcan_master_look(&m, 0, &cycle));
    STATUS(FTTCAN_ARGUMENT, fttcan_master_look(&m, 9, &cycle));
    v.kind = 99;
    STATUS(FTTCAN_ARGUMENT, fttcan_master_submit(&m, 0, 9, &op, 1, &v));
    STATUS(FTTCAN_ARGUMENT, fttcan_master_submit(&m, 9, 9, &op, 1, &v));
    op.kind = 3;
    STATUS(FTTCAN_ARGUMENT, fttcan_master_submit(&m, 1, 9, &op, 1, &v));
    WANT(v.kind == 99);
    STATUS(FTTCAN_OK, fttcan_master_submit(&m, 1, 2, &first, 1, &v));
    WANT(v.kind == FTTCAN_MALFORMED && v.op == 0 && v.why == 10 && !v.known);
    op = first;
    op.entry.slot = 6;
    STATUS(FTTCAN_OK, fttcan_master_submit(&m, 1, 2, &op, 1, &v));
    WANT(v.kind == FTTCAN_PASSED && v.first == 2 && v.second == 3);
    STATUS(FTTCAN_OK, fttcan_master_submit(&m, 1, 9, &op, 0, &v));
    WANT(v.kind == FTTCAN_MALFORMED && v.why == 1);
    fttcan_master_free(&m);
    WANT(m.at == NULL);
    fttcan_master_free(&m);
    STATUS(FTTCAN_OK, fttcan_master_new(&m, &rules));
    fttcan_master_free(&m);
}

/* Four entries of 8 bytes in a window of one: the miss of FORMATS.md with its trail, and each other verdict in words. */
static void of_trail(void) {
    static const uint64_t wanted[6] = {1, 2, 4, 1, 2, 4};
    static const fttcan_rules narrow = {10000, 135, 1, 40, FTTCAN_RM, FTTCAN_PREFIX};
    fttcan_master m = {0};
    fttcan_verdict v = {0, 0, 0, 0, 0, 0, 0};
    fttcan_mask trail[6];
    fttcan_op ops[4];
    fttcan_size count = 1, place;
    char words[160];
    memset(ops, 0, sizeof ops);
    for (place = 0; place < 4; place++)
        ops[place].entry = (fttcan_entry){0, (uint16_t)(3 + place), (uint16_t)(3 + place), (uint8_t)place, 0, 8, 0};
    STATUS(FTTCAN_OK, fttcan_master_new(&m, &narrow));
    STATUS(FTTCAN_OK, fttcan_master_trail(&m, trail, 0, &count));
    WANT(count == 0);
    STATUS(FTTCAN_OK, fttcan_master_submit(&m, 1, 0, ops, 4, &v));
    WANT(v.kind == FTTCAN_MISSED && v.slot == 3 && v.first == 0 && v.second == 5);
    WANT(fttcan_verdict_words(&v, words, sizeof words) < sizeof words);
    WANT(strcmp(words, "miss: slot 3, released in cycle 0, would not be sent by cycle 5, its last one") == 0);
    WANT(fttcan_verdict_words(&v, words, 5) == strlen("miss: slot 3, released in cycle 0, would not be sent by cycle 5, its last one"));
    WANT(strcmp(words, "miss") == 0);
    STATUS(FTTCAN_ROOM, fttcan_master_trail(&m, trail, 5, &count));
    WANT(count == 6);
    STATUS(FTTCAN_OK, fttcan_master_trail(&m, trail, 6, &count));
    for (place = 0; place < 6; place++)
        WANT(trail[place].low == wanted[place] && trail[place].high == 0);
    ops[0].entry.period = 0;
    STATUS(FTTCAN_OK, fttcan_master_submit(&m, 1, 0, ops, 1, &v));
    WANT(v.kind == FTTCAN_MALFORMED && v.why == 8);
    STATUS(FTTCAN_OK, fttcan_master_trail(&m, trail, 6, &count));
    WANT(count == 0);
    fttcan_verdict_words(&v, words, sizeof words);
    WANT(strcmp(words, "malformed: operation 0: the period is 0") == 0);
    v = (fttcan_verdict){12, 0, FTTCAN_MALFORMED, 3, 10, 0, 1};
    fttcan_verdict_words(&v, words, sizeof words);
    WANT(strcmp(words, "malformed: operation 3: the slot is taken until cycle 12") == 0);
    v = (fttcan_verdict){0, 0, FTTCAN_MALFORMED, 3, 10, 0, 0};
    fttcan_verdict_words(&v, words, sizeof words);
    WANT(strcmp(words, "malformed: operation 3: the slot is taken by a live entry") == 0);
    ops[0].entry = (fttcan_entry){0, 101, 101, 0, 0, 0, 0};
    ops[1].entry = (fttcan_entry){0, 103, 103, 1, 0, 0, 0};
    STATUS(FTTCAN_OK, fttcan_master_submit(&m, 1, 0, ops, 2, &v));
    WANT(v.kind == FTTCAN_HORIZON && v.first == 0 && v.second == 10000);
    fttcan_verdict_words(&v, words, sizeof words);
    WANT(strcmp(words, "horizon: from cycle 0 on, no repeat of the plan within 10000 cycles") == 0);
    fttcan_master_free(&m);
}

static void of_certificate(void) {
    static const char wanted[] = "fttcan plan 2\nfrom 1\npending 0000000000\nfirst 1\nlength 2\n0000000000 1\n0000000020 1\nend\n";
    fttcan_master m = {0};
    fttcan_verdict v = {0, 0, 0, 0, 0, 0, 0};
    fttcan_order order;
    uint8_t text[256];
    fttcan_size len = 0;
    STATUS(FTTCAN_OK, fttcan_master_new(&m, &rules));
    STATUS(FTTCAN_OK, fttcan_master_submit(&m, 1, 0, &first, 1, &v));
    STATUS(FTTCAN_OK, fttcan_master_open(&m, &order));
    STATUS(FTTCAN_ROOM, fttcan_master_certificate(&m, text, 3, &len));
    WANT(len == sizeof wanted - 1);
    STATUS(FTTCAN_OK, fttcan_master_certificate(&m, text, sizeof text, &len));
    WANT(len == sizeof wanted - 1 && memcmp(text, wanted, len) == 0);
    fttcan_master_free(&m);
}

static void of_save(void) {
    fttcan_rules told;
    fttcan_master m = {0}, other = {0};
    fttcan_verdict v = {0, 0, 0, 0, 0, 0, 0};
    fttcan_order order, again;
    uint8_t bytes[4096];
    fttcan_size len = 0, place;
    STATUS(FTTCAN_OK, fttcan_master_new(&m, &rules));
    STATUS(FTTCAN_OK, fttcan_master_submit(&m, 1, 0, &first, 1, &v));
    STATUS(FTTCAN_OK, fttcan_master_open(&m, &order));
    STATUS(FTTCAN_ROOM, fttcan_master_save(&m, bytes, 0, &len));
    WANT(len > 0 && len < sizeof bytes);
    STATUS(FTTCAN_OK, fttcan_master_save(&m, bytes, sizeof bytes, &len));
    STATUS(FTTCAN_OPEN, fttcan_master_restore(&m, bytes, len));
    for (place = 0; place < len; place++) {
        STATUS(FTTCAN_TEXT, fttcan_master_restore(&other, bytes, place));
        WANT(other.at == NULL);
    }
    bytes[len] = 0;
    STATUS(FTTCAN_TEXT, fttcan_master_restore(&other, bytes, len + 1));
    STATUS(FTTCAN_OK, fttcan_master_restore(&other, bytes, len));
    memset(&told, 0xFF, sizeof told);
    STATUS(FTTCAN_OK, fttcan_master_rules(&other, &told));
    WANT(told.horizon == rules.horizon && told.window == rules.window && told.nodes == rules.nodes && told.slots == rules.slots
         && told.policy == rules.policy && told.fill == rules.fill);
    for (place = 0; place < 5; place++) {
        STATUS(FTTCAN_OK, fttcan_master_open(&m, &order));
        STATUS(FTTCAN_OK, fttcan_master_open(&other, &again));
        WANT(order.cycle == again.cycle && same_mask(order.flags, again.flags) && order.window == again.window);
    }
    fttcan_master_free(&m);
    fttcan_master_free(&other);
}

int main(void) {
    of_version();
    of_rules();
    of_closed();
    of_master();
    of_trail();
    of_certificate();
    of_save();
    return ended("calls_master");
}
