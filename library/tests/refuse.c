/* Plays every call that takes memory, with its first allocation refused, then its second, and so on. The call then answers
 * FTTCAN_MEMORY, all is as it was, and the same call once more gives what it gives with memory. At the end all memory has
 * been given back. What takes no memory by its contract takes none. */
#include "heap.h"

static const fttcan_rules rules = {1000, 540, 5, 40, FTTCAN_EDF, FTTCAN_SKIP};
static uint64_t sum;      /* of all that the calls answered */
static long takes;             /* allocations of a whole round */

static void add(const void *bytes, fttcan_size count) {
    const unsigned char *at = bytes;
    while (count--)
        sum = (sum ^ *at++) * UINT64_C(1099511628211);
}

static void add_verdict(const fttcan_verdict *v) {
    add(&v->first, 8);
    add(&v->second, 8);
    add(&v->kind, 1);
    add(&v->slot, 1);
    add(&v->why, 1);
}

/* The state of a master, as bytes, in a room of this test. Its own allocations are not refused. */
static fttcan_size state_of(fttcan_master *m, uint8_t *room, fttcan_size size) {
    const long kept = until_refusal;
    fttcan_size len = 0;
    until_refusal = -1;
    if (m->at != NULL)
        STATUS(FTTCAN_OK, fttcan_master_save(m, room, size, &len));
    until_refusal = kept;
    return len;
}

/* How many refusals changed nothing: what was refused was room that a call can do without. */
static long done_without;

/* Has a call that may lack memory answered. Where it lacks memory, the master has to be as it was, and the call is made
 * once more. */
#define TRY(wanted, master, call) \
    do { \
        static uint8_t before_[8192], after_[8192]; \
        const fttcan_size len_ = state_of((master), before_, sizeof before_); \
        const long refused_ = refusals; \
        const uint32_t status_ = (call); \
        if (refusals != refused_ && status_ == FTTCAN_MEMORY) { \
            WANT(state_of((master), after_, sizeof after_) == len_ && memcmp(before_, after_, len_) == 0); \
            STATUS((wanted), (call)); \
        } else { \
            done_without += refusals != refused_; \
            STATUS((wanted), status_); \
        } \
    } while (0)

/* Has a call answered that takes no memory. */
#define FREE(call) \
    do { \
        const long kept_ = until_refusal, before_ = refusals; \
        until_refusal = 0; \
        STATUS(FTTCAN_OK, (call)); \
        WANT(refusals == before_); \
        until_refusal = kept_; \
    } while (0)

static const fttcan_op ops[3] = {{FTTCAN_ADD, {0, 2, 1, 5, 1, 8, 0}}, {FTTCAN_ADD, {1, 6, 4, 6, 2, 8, 1}}, {FTTCAN_ADD, {0, 10, 9, 7, 0, 3, 2}}};

static void of_master(fttcan_master *m, fttcan_standby *s) {
    fttcan_verdict v = {0, 0, 0, 0, 0, 0, 0};
    fttcan_order order = {0, {0, 0}, 0, 0};
    fttcan_mask mask = {0, 0}, trail[64];
    fttcan_placed table[8];
    fttcan_op remove = {FTTCAN_REMOVE, {0, 0, 0, 6, 0, 0, 0}}, wide = {FTTCAN_ADD, {0, 1, 1, 9, 0, 8, 0}};
    uint64_t next = 0;
    fttcan_size count = 0, place;
    TRY(FTTCAN_OK, m, fttcan_master_new(m, &rules));
    TRY(FTTCAN_OK, m, fttcan_standby_new(s, &rules));
    TRY(FTTCAN_OK, m, fttcan_master_submit(m, 1, 0, ops, 2, &v));
    add_verdict(&v);
    WANT(v.kind == FTTCAN_ACCEPTED);
    TRY(FTTCAN_OK, m, fttcan_standby_change(s, 1, 0, ops, 2, &v));
    for (place = 0; place < 5; place++) {
        fttcan_trigger trigger = {{0, 0}, 0, 0};
        fttcan_frame frame;
        fttcan_follow fault;
        FREE(fttcan_master_planned(m, &mask));
        FREE(fttcan_master_open(m, &order));
        add(&order.flags, sizeof order.flags);
        trigger.flags = order.flags;
        trigger.cycle = order.cycle;
        trigger.window = order.window;
        FREE(fttcan_trigger_encode(40, &trigger, &frame, 1, &count));
        TRY(FTTCAN_OK, m, fttcan_standby_trigger(s, &frame, 1, &fault));
    }
    FREE(fttcan_master_look(m, 3, &next));
    FREE(fttcan_master_next(m, &next));
    add(&next, sizeof next);
    TRY(FTTCAN_OK, m, fttcan_master_submit(m, 2, 7, &remove, 1, &v));
    add_verdict(&v);
    TRY(FTTCAN_OK, m, fttcan_standby_change(s, 2, 7, &remove, 1, &v));
    wide.entry.length = 8;
    wide.entry.slot = 5;
    TRY(FTTCAN_OK, m, fttcan_master_submit(m, 2, 9, &wide, 1, &v));
    add_verdict(&v);
    TRY(FTTCAN_OK, m, fttcan_master_trail(m, trail, 64, &count));
    add(trail, count * sizeof trail[0]);
    TRY(FTTCAN_OK, m, fttcan_master_table(m, table, 8, &count));
    add(&count, sizeof count);
}

static void of_texts(fttcan_master *m) {
    static uint8_t text[4096], bytes[4096], bits[FTTCAN_MOST_FRAME_BITS];
    fttcan_placed table[8];
    fttcan_master other = {0};
    fttcan_breach breach = {0, 0, 0, 0};
    fttcan_size len = 0, saved = 0, count = 0;
    TRY(FTTCAN_OK, m, fttcan_master_certificate(m, text, sizeof text, &len));
    add(text, len);
    TRY(FTTCAN_OK, m, fttcan_master_save(m, bytes, sizeof bytes, &saved));
    add(bytes, saved);
    TRY(FTTCAN_OK, m, fttcan_master_table(m, table, 8, &count));
    TRY(FTTCAN_OK, m, fttcan_check(table, count, rules.window, text, len, &breach));
    TRY(FTTCAN_OK, &other, fttcan_master_restore(&other, bytes, saved));
    fttcan_master_free(&other);
    TRY(FTTCAN_OK, m, fttcan_wire_bits(0x105, text, 8, bits, sizeof bits, &count));
    add(bits, count);
}

/* Settles a change that begins in cycle 12, for operator 4. Where memory ran out before, the planned change was let go, and
 * it is planned anew. */
static uint32_t settled(fttcan_master *m, fttcan_planned *planned, const fttcan_op *op, fttcan_verdict *v) {
    fttcan_snapshot apart = {0};
    if (planned->at == NULL) {
        STATUS(FTTCAN_OK, fttcan_master_snapshot(m, &apart));
        STATUS(FTTCAN_OK, fttcan_plan_apart(&apart, 12, op, 1, planned));
    }
    return fttcan_master_settle(m, 4, planned, v);
}

static void of_apart(fttcan_master *m) {
    fttcan_snapshot apart = {0};
    fttcan_planned planned = {0};
    fttcan_verdict v = {0, 0, 0, 0, 0, 0, 0};
    fttcan_op last = ops[2];
    fttcan_order order;
    TRY(FTTCAN_OK, m, fttcan_master_snapshot(m, &apart));
    TRY(FTTCAN_OK, m, fttcan_plan_apart(&apart, 12, &last, 1, &planned));
    FREE(fttcan_master_open(m, &order));
    TRY(FTTCAN_OK, m, fttcan_planned_verdict(&planned, &v));
    TRY(FTTCAN_OK, m, settled(m, &planned, &last, &v));
    add_verdict(&v);
    WANT(planned.at == NULL && apart.at == NULL);
    TRY(FTTCAN_OK, m, fttcan_master_snapshot(m, &apart));
    fttcan_snapshot_free(&apart);
    TRY(FTTCAN_OK, m, fttcan_master_snapshot(m, &apart));
    TRY(FTTCAN_OK, m, fttcan_plan_apart(&apart, 12, &last, 1, &planned));
    fttcan_planned_free(&planned);
}

static void of_pair(void) {
    fttcan_state state = {0, {0, 0}};
    fttcan_plan plan = {{0, 0}, 0};
    fttcan_placed table[4], room[4];
    fttcan_verdict v = {0, 0, 0, 0, 0, 0, 0};
    fttcan_master none = {0};
    fttcan_size count = 0;
    memset(table, 0, sizeof table);
    memset(room, 0, sizeof room);
    TRY(FTTCAN_OK, &none, fttcan_decide(&rules, table, 0, &state, 0, ops, 2, &v, room, 4, &count));
    add_verdict(&v);
    add(&count, sizeof count);
    TRY(FTTCAN_OK, &none, fttcan_open(&rules, room, count, &state, &plan));
    add(&plan.flags, sizeof plan.flags);
}

/* A node. Only its making and its learning take memory; what the second takes it gives back. */
static void of_node(void) {
    static const fttcan_layout layout = {1000, 20, 400, 40};
    static const fttcan_settings settings = {3, 8, 1, 1, 0};
    static const fttcan_owner owners[2] = {{0x210, 1}, {0x220, 2}};
    fttcan_node n = {0};
    fttcan_master none = {0};
    fttcan_placed table[2] = {{0, 0, {0, 1, 1, 5, 1, 8, 0}, 0}, {0, 0, {0, 2, 1, 6, 1, 2, 0}, 0}}, room[4];
    fttcan_trigger trigger = {{0x60, 0}, 0, 210};
    fttcan_frame frame;
    fttcan_loaded loaded;
    fttcan_offer offer;
    fttcan_due due;
    fttcan_mask slots;
    fttcan_size count = 0;
    uint64_t number = 0;
    uint8_t heard = 0;
    long kept;
    TRY(FTTCAN_OK, &none, fttcan_node_new(&n, &layout, &settings, owners, 2));
    kept = taken;
    TRY(FTTCAN_OK, &none, fttcan_node_learn(&n, table, 2));
    WANT(taken == kept);
    FREE(fttcan_node_go_to(&n, 0));
    FREE(fttcan_trigger_encode_reserved(40, &trigger, 0, &frame, 1, &count));
    FREE(fttcan_node_trigger(&n, &frame, 0, &heard));
    FREE(fttcan_node_set(&n, 5, frame.bytes, 8));
    frame.id = 0x210;
    FREE(fttcan_node_put(&n, &frame));
    FREE(fttcan_node_put(&n, &frame));
    FREE(fttcan_node_put(&n, &frame));
    FREE(fttcan_node_waiting(&n, 0x210, &count));
    FREE(fttcan_node_wake(&n, 0, &number));
    FREE(fttcan_node_offer(&n, number, &offer));
    FREE(fttcan_node_frame(&n, number, offer.id, &frame));
    FREE(fttcan_node_load(&n, number, offer.id, &loaded));
    FREE(fttcan_node_withdrawn(&n, &loaded.ticket));
    FREE(fttcan_node_drop(&n, 0x210));
    FREE(fttcan_node_load(&n, number, offer.id, &loaded));
    FREE(fttcan_node_sent(&n, &loaded.ticket));
    FREE(fttcan_node_due(&n, &slots));
    FREE(fttcan_node_slot_due(&n, 5, &due));
    FREE(fttcan_node_slot_frame(&n, 5, &frame));
    FREE(fttcan_node_next(&n, &number));
    FREE(fttcan_node_opened(&n, &trigger));
    WANT(taken == kept && slots.low == 0x60 && loaded.ticket.number == 1);
    add(&loaded.ticket.number, 8);
    TRY(FTTCAN_OK, &none, fttcan_apply(table, 2, 9, ops + 2, 1, room, 4, &count));
    add(&room[2].origin, 8);
    fttcan_node_free(&n);
}

static void play(void) {
    fttcan_master m = {0};
    fttcan_standby s = {0};
    of_master(&m, &s);
    of_texts(&m);
    of_apart(&m);
    of_pair();
    of_node();
    fttcan_master_free(&m);
    TRY(FTTCAN_OK, &m, fttcan_standby_take_over(&s, &m));
    fttcan_master_free(&m);
    fttcan_standby_free(&s);
    WANT(taken == 0 && bytes_taken == 0);
}

int main(void) {
    uint64_t whole;
    until_refusal = 1 << 30;
    sum = UINT64_C(14695981039346656037);
    play();
    takes = (1 << 30) - until_refusal;
    whole = sum;
    for (long at = 0; at < takes && !wrong; at++) {
        refusals = 0;
        until_refusal = at;
        sum = UINT64_C(14695981039346656037);
        play();
        WANT(refusals == 1);
        WANT(sum == whole);
        if (wrong)
            printf("with allocation %ld refused\n", at);
    }
    until_refusal = -1;
    printf("%ld allocations, each refused once, %ld of them without a trace; at most %lu bytes\n", takes, done_without, (unsigned long)most_bytes);
    return ended("refuse");
}
