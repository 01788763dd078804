/* The calls on a standby: each call once where it is answered, and once for each status that it can answer but FTTCAN_MEMORY: refuse.c has that. */
#include "support.h"

static const fttcan_rules rules = {10000, 540, 5, 40, FTTCAN_RM, FTTCAN_PREFIX};
/* The entry of the first change: 8 bytes of node 1 in slot 5, in every second cycle. */
static const fttcan_op first = {FTTCAN_ADD, {0, 2, 1, 5, 1, 8, 0}};

static void is_accepted(const fttcan_verdict *verdict, uint64_t from, uint64_t length) {
    WANT(verdict->kind == FTTCAN_ACCEPTED && verdict->first == from && verdict->second == length);
}

static void of_closed_standby(void) {
    fttcan_standby s = {0};
    fttcan_master m = {0};
    fttcan_verdict v = {9, 9, 9, 9, 9, 9, 9};
    fttcan_follow fault;
    fttcan_frame frame;
    uint64_t cycle = 9;
    memset(&frame, 0, sizeof frame);
    memset(&fault, 0, sizeof fault);
    STATUS(FTTCAN_CLOSED, fttcan_standby_change(&s, 1, 0, &first, 1, &v));
    STATUS(FTTCAN_CLOSED, fttcan_standby_change(&s, 9, 0, &first, 1, &v));
    STATUS(FTTCAN_CLOSED, fttcan_standby_trigger(&s, &frame, 1, &fault));
    STATUS(FTTCAN_CLOSED, fttcan_standby_next(&s, &cycle));
    STATUS(FTTCAN_CLOSED, fttcan_standby_take_over(&s, &m));
    WANT(m.at == NULL && cycle == 9 && v.kind == 9);
    fttcan_standby_free(&s);
}

static void of_standby(void) {
    fttcan_standby s = {0}, other = {0};
    fttcan_rules bad = rules;
    fttcan_master m = {0};
    fttcan_verdict v = {0, 0, 0, 0, 0, 0, 0};
    fttcan_follow fault;
    fttcan_trigger trigger = {{0x20, 0}, 0, 135};
    fttcan_frame frame, three[3];
    fttcan_op op = first;
    fttcan_order order = {0, {0, 0}, 0, 0};
    fttcan_size count = 0;
    uint64_t next = 9;
    memset(&frame, 0, sizeof frame);
    memset(&fault, 0, sizeof fault);
    STATUS(FTTCAN_OK, fttcan_standby_new(&s, &rules));
    STATUS(FTTCAN_OPEN, fttcan_standby_new(&s, &rules));
    bad.nodes = 31;
    STATUS(FTTCAN_ARGUMENT, fttcan_standby_new(&other, &bad));
    WANT(other.at == NULL);
    STATUS(FTTCAN_ARGUMENT, fttcan_standby_change(&s, 9, 0, &first, 1, &v));
    op.kind = 200;
    STATUS(FTTCAN_ARGUMENT, fttcan_standby_change(&s, 1, 0, &op, 1, &v));
    STATUS(FTTCAN_OK, fttcan_standby_change(&s, 1, 0, &first, 1, &v));
    is_accepted(&v, 0, 2);
    STATUS(FTTCAN_NO, fttcan_standby_change(&s, 1, 0, &first, 1, &v));
    WANT(v.kind == FTTCAN_MALFORMED && v.why == 10);
    trigger.cycle = 1;
    STATUS(FTTCAN_OK, fttcan_trigger_encode(40, &trigger, &frame, 1, &count));
    STATUS(FTTCAN_NO, fttcan_standby_trigger(&s, &frame, 1, &fault));
    WANT(fault.kind == 0 && fault.first == 0);
    trigger.cycle = 0;
    trigger.flags.low = 0;
    trigger.window = 0;
    STATUS(FTTCAN_OK, fttcan_trigger_encode(40, &trigger, &frame, 1, &count));
    STATUS(FTTCAN_NO, fttcan_standby_trigger(&s, &frame, 1, &fault));
    WANT(fault.kind == 1 && fault.first == 0 && fault.heard.low == 0 && fault.planned.low == 0x20);
    trigger.flags.low = 0x20;
    trigger.window = 134;
    STATUS(FTTCAN_OK, fttcan_trigger_encode(40, &trigger, &frame, 1, &count));
    STATUS(FTTCAN_NO, fttcan_standby_trigger(&s, &frame, 1, &fault));
    WANT(fault.kind == 2 && fault.first == 134 && fault.second == 135);
    trigger.window = 135;
    STATUS(FTTCAN_OK, fttcan_trigger_encode(40, &trigger, &frame, 1, &count));
    STATUS(FTTCAN_NO, fttcan_standby_trigger(&s, &frame, 0, &fault));
    WANT(fault.kind == 0);
    STATUS(FTTCAN_OK, fttcan_standby_next(&s, &next));
    WANT(next == 0);
    STATUS(FTTCAN_OK, fttcan_standby_trigger(&s, &frame, 1, &fault));
    STATUS(FTTCAN_OK, fttcan_standby_next(&s, &next));
    WANT(next == 1);
    /* A change takes effect in a cycle that was not opened yet. */
    op = first;
    op.entry.slot = 6;
    STATUS(FTTCAN_NO, fttcan_standby_change(&s, 1, 0, &op, 1, &v));
    WANT(v.kind == FTTCAN_PASSED && v.first == 0 && v.second == 1);
    /* A frame that is none comes before all else that is wrong with frames. */
    frame.len = 9;
    STATUS(FTTCAN_ARGUMENT, fttcan_standby_trigger(&s, &frame, 1, &fault));
    three[0] = three[1] = three[2] = frame;
    STATUS(FTTCAN_ARGUMENT, fttcan_standby_trigger(&s, three, 3, &fault));
    three[0].len = three[1].len = three[2].len = 8;
    fault.kind = 9;
    STATUS(FTTCAN_NO, fttcan_standby_trigger(&s, three, 3, &fault));
    WANT(fault.kind == 0 && fault.first == 1);
    STATUS(FTTCAN_OK, fttcan_standby_take_over(&s, &m));
    WANT(s.at == NULL && m.at != NULL);
    STATUS(FTTCAN_OK, fttcan_master_open(&m, &order));
    WANT(order.cycle == 1 && order.flags.low == 0);
    STATUS(FTTCAN_OK, fttcan_standby_new(&s, &rules));
    STATUS(FTTCAN_OPEN, fttcan_standby_take_over(&s, &m));
    WANT(s.at != NULL);
    fttcan_standby_free(&s);
    fttcan_master_free(&m);
}

/* A master that adds a reserve of two disturbances to its windows, and a standby that takes it off. */
static void of_reserve(void) {
    fttcan_standby s = {0};
    fttcan_verdict v;
    fttcan_follow fault;
    fttcan_trigger trigger = {{0x20, 0}, 0, 135}, said;
    fttcan_frame frame, other, frames[2];
    fttcan_size count = 9;
    uint64_t next = 9;
    memset(&fault, 0, sizeof fault);
    memset(&frame, 0, sizeof frame);
    STATUS(FTTCAN_CLOSED, fttcan_standby_trigger_reserved(&s, 326, &frame, 1, &fault));
    STATUS(FTTCAN_OK, fttcan_standby_new(&s, &rules));
    STATUS(FTTCAN_OK, fttcan_standby_change(&s, 1, 0, &first, 1, &v));
    STATUS(FTTCAN_OK, fttcan_trigger_encode_reserved(40, &trigger, 326, &frame, 1, &count));
    WANT(count == 1);
    STATUS(FTTCAN_OK, fttcan_trigger_decode(40, &frame, 1, &said));
    WANT(said.window == 461 && said.flags.low == 0x20 && said.flags.high == 0 && said.cycle == 0);
    /* The reserve is missing, another one is expected, or there is none in the trigger. */
    STATUS(FTTCAN_NO, fttcan_standby_trigger(&s, &frame, 1, &fault));
    WANT(fault.kind == 2 && fault.first == 461 && fault.second == 135);
    STATUS(FTTCAN_NO, fttcan_standby_trigger_reserved(&s, 325, &frame, 1, &fault));
    WANT(fault.kind == 2 && fault.first == 461 && fault.second == 460);
    STATUS(FTTCAN_NO, fttcan_standby_trigger_reserved(&s, 327, &frame, 1, &fault));
    WANT(fault.second == 462);
    STATUS(FTTCAN_NO, fttcan_standby_trigger_reserved(&s, UINT32_MAX, &frame, 1, &fault));
    WANT(fault.kind == 2 && fault.second == UINT64_C(4294967430));
    STATUS(FTTCAN_OK, fttcan_trigger_encode(40, &trigger, &other, 1, &count));
    STATUS(FTTCAN_NO, fttcan_standby_trigger_reserved(&s, 326, &other, 1, &fault));
    WANT(fault.first == 135 && fault.second == 461);
    frames[0] = frames[1] = frame;
    STATUS(FTTCAN_NO, fttcan_standby_trigger_reserved(&s, 326, frames, 2, &fault));
    WANT(fault.kind == 0 && fault.first == 0);
    frames[0].len = 9;
    fault.kind = 9;
    STATUS(FTTCAN_ARGUMENT, fttcan_standby_trigger_reserved(&s, 326, frames, 1, &fault));
    STATUS(FTTCAN_OK, fttcan_standby_next(&s, &next));
    WANT(next == 0 && fault.kind == 9);
    STATUS(FTTCAN_OK, fttcan_standby_trigger_reserved(&s, 326, &frame, 1, &fault));
    STATUS(FTTCAN_OK, fttcan_standby_next(&s, &next));
    WANT(next == 1);
    /* A cycle without a flag has the reserve all the same, and without a reserve both calls are one. */
    trigger.cycle = 1;
    trigger.flags.low = 0;
    trigger.window = 0;
    STATUS(FTTCAN_OK, fttcan_trigger_encode_reserved(40, &trigger, 326, &frame, 1, &count));
    STATUS(FTTCAN_OK, fttcan_standby_trigger_reserved(&s, 326, &frame, 1, &fault));
    trigger.cycle = 2;
    trigger.flags.low = 0x20;
    trigger.window = 135;
    STATUS(FTTCAN_OK, fttcan_trigger_encode_reserved(40, &trigger, 0, &frame, 1, &count));
    STATUS(FTTCAN_OK, fttcan_standby_trigger_reserved(&s, 0, &frame, 1, &fault));
    /* Window and reserve together. */
    count = 9;
    trigger.window = 16383;
    STATUS(FTTCAN_ARGUMENT, fttcan_trigger_encode_reserved(40, &trigger, 1, &frame, 1, &count));
    STATUS(FTTCAN_ARGUMENT, fttcan_trigger_encode_reserved(40, &trigger, UINT32_MAX, &frame, 1, &count));
    trigger.window = UINT32_MAX;
    STATUS(FTTCAN_ARGUMENT, fttcan_trigger_encode_reserved(40, &trigger, 1, &frame, 1, &count));
    trigger.window = 0;
    STATUS(FTTCAN_ARGUMENT, fttcan_trigger_encode_reserved(40, &trigger, 16384, &frame, 1, &count));
    STATUS(FTTCAN_ARGUMENT, fttcan_trigger_encode_reserved(41, &trigger, 1, &frame, 1, &count));
    trigger.flags.high = 1;
    STATUS(FTTCAN_ARGUMENT, fttcan_trigger_encode_reserved(40, &trigger, 1, &frame, 1, &count));
    WANT(count == 9);
    STATUS(FTTCAN_ROOM, fttcan_trigger_encode_reserved(96, &trigger, 16383, &frame, 1, &count));
    WANT(count == 2);
    STATUS(FTTCAN_OK, fttcan_trigger_encode_reserved(96, &trigger, 16383, frames, 2, &count));
    STATUS(FTTCAN_OK, fttcan_trigger_decode(96, frames, 2, &said));
    WANT(said.window == 16383 && said.flags.high == 1 && said.cycle == 2);
    fttcan_standby_free(&s);
}

int main(void) {
    of_closed_standby();
    of_standby();
    of_reserve();
    return ended("calls_standby");
}
