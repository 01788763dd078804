/* The calls on a node: each call where it is answered, and once for each status that it can answer but FTTCAN_MEMORY:
 * refuse.c has that. The times are worked out by hand: a frame of n bytes has at most 55 + 10n bit times, a trigger part of one
 * frame 135. */
#include "support.h"

enum { CYCLE = 1000, ASYNC = 155, OWN = 0x210, LEAST = 0x205, OTHERS = 0x220 };

static const fttcan_layout layout = {CYCLE, 20, 400, 40};
static const fttcan_settings settings = {2, 3, 1, 1, 0};
static const fttcan_owner owners[3] = {{OWN, 1}, {OTHERS, 2}, {LEAST, 1}};
/* 8 bytes in slot 5 in each cycle, and 2 bytes in slot 6 in every second one, of node 1; slot 7 is node 2's. */
static const fttcan_placed table[3] = {{0, 0, {0, 1, 1, 5, 1, 8, 0}, 0}, {0, 0, {0, 2, 1, 6, 1, 2, 0}, 0}, {0, 0, {0, 1, 1, 7, 2, 1, 0}, 0}};

static fttcan_frame trigger_of(uint64_t cycle, uint64_t flags, uint32_t window) {
    fttcan_trigger trigger = {{0, 0}, 0, 0};
    fttcan_frame frame;
    fttcan_size count = 0;
    memset(&frame, 0, sizeof frame);
    trigger.flags.low = flags;
    trigger.cycle = cycle;
    trigger.window = window;
    STATUS(FTTCAN_OK, fttcan_trigger_encode(40, &trigger, &frame, 1, &count));
    return frame;
}

static fttcan_frame request(uint16_t id, uint8_t len, uint8_t first) {
    fttcan_frame frame;
    memset(&frame, 0, sizeof frame);
    frame.id = id;
    frame.len = len;
    frame.bytes[0] = first;
    return frame;
}

/* Tells a node a trigger of 40 slots, and answers what it heard. */
static unsigned told(fttcan_node *n, uint64_t cycle, uint64_t flags, uint32_t window, uint32_t passed) {
    fttcan_frame frame = trigger_of(cycle, flags, window);
    uint8_t heard = 99;
    STATUS(FTTCAN_OK, fttcan_node_trigger(n, &frame, passed, &heard));
    return heard;
}

/* What a node offers at a time; 0 for nothing. The last time is written. */
static unsigned offered(fttcan_node *n, uint64_t into, uint32_t *until) {
    fttcan_offer offer = {77, 7};
    uint32_t status = fttcan_node_offer(n, into, &offer);
    if (status == FTTCAN_NO) {
        WANT(offer.until == 77 && offer.id == 7);
        return 0;
    }
    STATUS(FTTCAN_OK, status);
    *until = offer.until;
    return offer.id;
}

static uint64_t woken(fttcan_node *n, uint64_t into) {
    uint64_t time = 77;
    uint32_t status = fttcan_node_wake(n, into, &time);
    WANT(status == FTTCAN_OK || (status == FTTCAN_NO && time == 77));
    return status == FTTCAN_OK ? time : 0;
}

static uint64_t next_of(fttcan_node *n) {
    uint64_t next = 77;
    STATUS(FTTCAN_OK, fttcan_node_next(n, &next));
    return next;
}

static uint64_t due_of(fttcan_node *n) {
    fttcan_mask slots = {7, 7};
    STATUS(FTTCAN_OK, fttcan_node_due(n, &slots));
    WANT(slots.high == 0);
    return slots.low;
}

static fttcan_node made(const fttcan_settings *as) {
    fttcan_node n = {0};
    STATUS(FTTCAN_OK, fttcan_node_new(&n, &layout, as, owners, 3));
    STATUS(FTTCAN_OK, fttcan_node_learn(&n, table, 3));
    STATUS(FTTCAN_OK, fttcan_node_go_to(&n, 0));
    return n;
}

static void of_closed_node(void) {
    fttcan_node n = {0};
    fttcan_frame frame = request(OWN, 1, 1);
    fttcan_mask mask = {7, 7};
    fttcan_offer offer = {7, 7};
    fttcan_ticket ticket = {7, 7, OWN};
    fttcan_loaded loaded;
    fttcan_due due = {7, 7, 7, 7};
    fttcan_trigger opened = {{7, 7}, 7, 7};
    fttcan_size count = 7;
    uint64_t number = 7;
    uint8_t heard = 7;
    memset(&loaded, 7, sizeof loaded);
    STATUS(FTTCAN_CLOSED, fttcan_node_learn(&n, table, 3));
    STATUS(FTTCAN_CLOSED, fttcan_node_go_to(&n, 0));
    STATUS(FTTCAN_CLOSED, fttcan_node_trigger(&n, &frame, 0, &heard));
    STATUS(FTTCAN_CLOSED, fttcan_node_set(&n, 5, frame.bytes, 8));
    STATUS(FTTCAN_CLOSED, fttcan_node_put(&n, &frame));
    STATUS(FTTCAN_CLOSED, fttcan_node_drop(&n, OWN));
    STATUS(FTTCAN_CLOSED, fttcan_node_waiting(&n, OWN, &count));
    STATUS(FTTCAN_CLOSED, fttcan_node_offer(&n, 0, &offer));
    STATUS(FTTCAN_CLOSED, fttcan_node_wake(&n, 0, &number));
    STATUS(FTTCAN_CLOSED, fttcan_node_frame(&n, 0, OWN, &frame));
    STATUS(FTTCAN_CLOSED, fttcan_node_load(&n, 0, OWN, &loaded));
    STATUS(FTTCAN_CLOSED, fttcan_node_sent(&n, &ticket));
    STATUS(FTTCAN_CLOSED, fttcan_node_withdrawn(&n, &ticket));
    STATUS(FTTCAN_CLOSED, fttcan_node_due(&n, &mask));
    STATUS(FTTCAN_CLOSED, fttcan_node_slot_due(&n, 5, &due));
    STATUS(FTTCAN_CLOSED, fttcan_node_slot_frame(&n, 5, &frame));
    STATUS(FTTCAN_CLOSED, fttcan_node_next(&n, &number));
    STATUS(FTTCAN_CLOSED, fttcan_node_opened(&n, &opened));
    /* An argument out of its range comes after that. */
    frame.len = 9;
    STATUS(FTTCAN_CLOSED, fttcan_node_trigger(&n, &frame, 0, &heard));
    STATUS(FTTCAN_CLOSED, fttcan_node_put(&n, &frame));
    STATUS(FTTCAN_CLOSED, fttcan_node_set(&n, 96, frame.bytes, 9));
    STATUS(FTTCAN_CLOSED, fttcan_node_go_to(&n, UINT64_MAX));
    WANT(n.at == NULL && mask.low == 7 && offer.id == 7 && loaded.users == 7 && due.start == 7 && opened.window == 7);
    WANT(count == 7 && number == 7 && heard == 7 && frame.id == OWN && frame.bytes[0] == 1);
    fttcan_node_free(&n);
}

static void of_new(void) {
    fttcan_node n = {0};
    fttcan_layout bad = layout;
    fttcan_settings as = settings;
    const fttcan_frame none = request(OWN, 0, 0);
    fttcan_owner who[3] = {{OWN, 1}, {OTHERS, 2}, {LEAST, 1}};
    bad.window = 16384;
    STATUS(FTTCAN_ARGUMENT, fttcan_node_new(&n, &bad, &settings, owners, 3));
    bad = layout;
    bad.slots = 41;
    STATUS(FTTCAN_ARGUMENT, fttcan_node_new(&n, &bad, &settings, owners, 3));
    as.number = 30;
    STATUS(FTTCAN_ARGUMENT, fttcan_node_new(&n, &layout, &as, owners, 3));
    as.number = 29;
    as.tolerance = 128;
    STATUS(FTTCAN_ARGUMENT, fttcan_node_new(&n, &layout, &as, owners, 3));
    who[2].id = 0x1FF;
    STATUS(FTTCAN_ARGUMENT, fttcan_node_new(&n, &layout, &settings, who, 3));
    who[2].id = 0x7F0;
    STATUS(FTTCAN_ARGUMENT, fttcan_node_new(&n, &layout, &settings, who, 3));
    who[2].id = OWN;
    STATUS(FTTCAN_ARGUMENT, fttcan_node_new(&n, &layout, &settings, who, 3));
    who[2].id = 0x7EF;
    who[1].node = 30;
    STATUS(FTTCAN_ARGUMENT, fttcan_node_new(&n, &layout, &settings, who, 3));
    WANT(n.at == NULL);
    who[1].node = 29;
    who[0].id = 0x200;
    as.tolerance = 127;
    STATUS(FTTCAN_OK, fttcan_node_new(&n, &layout, &as, who, 3));
    STATUS(FTTCAN_OPEN, fttcan_node_new(&n, &bad, &as, who, 3));
    WANT(n.at != NULL);
    fttcan_node_free(&n);
    WANT(n.at == NULL);
    fttcan_node_free(&n);
    STATUS(FTTCAN_OK, fttcan_node_new(&n, &layout, &settings, who, 0));
    fttcan_node_free(&n);
    /* Room for more than there can be is want of memory, and a node without any room takes nothing. */
    as.room = UINT64_MAX;
    STATUS(FTTCAN_MEMORY, fttcan_node_new(&n, &layout, &as, who, 3));
    as.room = 0;
    as.entries = UINT64_MAX;
    STATUS(FTTCAN_MEMORY, fttcan_node_new(&n, &layout, &as, who, 3));
    WANT(n.at == NULL);
    as.entries = 0;
    as.number = 1;
    STATUS(FTTCAN_OK, fttcan_node_new(&n, &layout, &as, owners, 3));
    STATUS(FTTCAN_FULL, fttcan_node_put(&n, &none));
    STATUS(FTTCAN_FULL, fttcan_node_learn(&n, table, 3));
    STATUS(FTTCAN_OK, fttcan_node_learn(&n, table + 2, 1));
    fttcan_node_free(&n);
}

static void of_triggers(void) {
    fttcan_node n = {0};
    fttcan_frame frame = trigger_of(0, 0x20, 135);
    fttcan_trigger opened = {{7, 7}, 7, 7};
    uint8_t heard = 99;
    STATUS(FTTCAN_OK, fttcan_node_new(&n, &layout, &settings, owners, 3));
    WANT(told(&n, 0, 0x20, 135, 0) == FTTCAN_NOT_TAKEN);
    STATUS(FTTCAN_NO, fttcan_node_opened(&n, &opened));
    WANT(opened.cycle == 7 && opened.flags.high == 7 && next_of(&n) == 0);
    STATUS(FTTCAN_ARGUMENT, fttcan_node_go_to(&n, (UINT64_C(1) << 42) + 1));
    WANT(told(&n, 0, 0x20, 135, 0) == FTTCAN_NOT_TAKEN);
    STATUS(FTTCAN_OK, fttcan_node_go_to(&n, 0));
    WANT(told(&n, 0, 0x20, 135, 0) == FTTCAN_OPENED);
    STATUS(FTTCAN_OK, fttcan_node_opened(&n, &opened));
    WANT(opened.cycle == 0 && opened.flags.low == 0x20 && opened.flags.high == 0 && opened.window == 135 && next_of(&n) == 1);
    WANT(told(&n, 0, 0x20, 135, 0) == FTTCAN_AGAIN);
    WANT(told(&n, 0, 0x20, 135, 1) == FTTCAN_AGAIN);
    STATUS(FTTCAN_OK, fttcan_node_opened(&n, &opened));
    frame = request(0x300, 8, 0);
    STATUS(FTTCAN_OK, fttcan_node_trigger(&n, &frame, 0, &heard));
    WANT(heard == FTTCAN_OTHER);
    frame = request(1, 8, 0);
    STATUS(FTTCAN_OK, fttcan_node_trigger(&n, &frame, 0, &heard));
    WANT(heard == FTTCAN_OTHER && next_of(&n) == 1);
    heard = 99;
    frame.len = 9;
    STATUS(FTTCAN_ARGUMENT, fttcan_node_trigger(&n, &frame, 0, &heard));
    frame = request(0x7F0, 8, 0);
    STATUS(FTTCAN_ARGUMENT, fttcan_node_trigger(&n, &frame, 0, &heard));
    WANT(heard == 99);
    STATUS(FTTCAN_OK, fttcan_node_opened(&n, &opened));
    /* Cycle 1 and 2 are missed, and the clock says two; then it says none, and one is missed. */
    WANT(told(&n, 3, 0, 0, 2) == FTTCAN_OPENED && next_of(&n) == 4);
    WANT(told(&n, 5, 0, 0, 0) == FTTCAN_OPENED && next_of(&n) == 6);
    /* A clock that says three and may be off by one: cycles 8, 9 and 10, and no other. */
    WANT(told(&n, 11, 0, 0, 3) == FTTCAN_NOT_TAKEN && next_of(&n) == 6);
    STATUS(FTTCAN_NO, fttcan_node_opened(&n, &opened));
    WANT(told(&n, 7, 0, 0, 3) == FTTCAN_NOT_TAKEN);
    WANT(told(&n, 8, 0, 0, 3) == FTTCAN_OPENED && next_of(&n) == 9);
    /* A window above the layout's, and a frame that is no trigger under the identifier of one. */
    WANT(told(&n, 9, 0, 401, 0) == FTTCAN_NOT_TAKEN && next_of(&n) == 9);
    WANT(told(&n, 9, 0, 400, 0) == FTTCAN_OPENED);
    frame = request(0, 7, 0);
    STATUS(FTTCAN_OK, fttcan_node_trigger(&n, &frame, 0, &heard));
    WANT(heard == FTTCAN_NOT_TAKEN && next_of(&n) == 10);
    /* It never goes back, and closes the open cycle when it goes on. */
    WANT(told(&n, 10, 0, 0, 0) == FTTCAN_OPENED);
    STATUS(FTTCAN_ARGUMENT, fttcan_node_go_to(&n, 10));
    STATUS(FTTCAN_OK, fttcan_node_opened(&n, &opened));
    STATUS(FTTCAN_OK, fttcan_node_go_to(&n, 11));
    STATUS(FTTCAN_NO, fttcan_node_opened(&n, &opened));
    STATUS(FTTCAN_OK, fttcan_node_go_to(&n, (UINT64_C(1) << 41) + 256));
    WANT(told(&n, 0, 0x20, 135, 0) == FTTCAN_OPENED && next_of(&n) == (UINT64_C(1) << 41) + 257);
    STATUS(FTTCAN_OK, fttcan_node_go_to(&n, UINT64_C(1) << 42));
    WANT(told(&n, 0, 0x20, 135, 0) == FTTCAN_NOT_TAKEN && next_of(&n) == UINT64_C(1) << 42);
    fttcan_node_free(&n);
}

static void of_two_frames(void) {
    fttcan_node n = {0};
    fttcan_layout wide = {1000, 20, 400, 96};
    fttcan_placed high = {0, 0, {0, 1, 1, 90, 1, 0, 0}, 0};
    fttcan_trigger trigger = {{0, 0}, 7, 55}, opened = {{7, 7}, 7, 7};
    fttcan_frame frames[2], other[2];
    fttcan_size count = 0;
    uint8_t heard = 99;
    uint32_t until = 0;
    fttcan_mask due = {0, 0};
    trigger.flags.high = UINT64_C(1) << 26;
    STATUS(FTTCAN_OK, fttcan_trigger_encode(96, &trigger, frames, 2, &count));
    trigger.cycle = 8;
    STATUS(FTTCAN_OK, fttcan_trigger_encode(96, &trigger, other, 2, &count));
    STATUS(FTTCAN_OK, fttcan_node_new(&n, &wide, &settings, owners, 3));
    STATUS(FTTCAN_OK, fttcan_node_learn(&n, &high, 1));
    STATUS(FTTCAN_OK, fttcan_node_go_to(&n, 7));
    STATUS(FTTCAN_OK, fttcan_node_trigger(&n, &frames[0], 0, &heard));
    WANT(heard == FTTCAN_NOTED);
    STATUS(FTTCAN_NO, fttcan_node_opened(&n, &opened));
    STATUS(FTTCAN_OK, fttcan_node_trigger(&n, &frames[1], 0, &heard));
    WANT(heard == FTTCAN_OPENED);
    STATUS(FTTCAN_OK, fttcan_node_opened(&n, &opened));
    WANT(opened.cycle == 7 && opened.flags.low == 0 && opened.flags.high == UINT64_C(1) << 26 && opened.window == 55);
    STATUS(FTTCAN_OK, fttcan_node_due(&n, &due));
    WANT(due.low == 0 && due.high == UINT64_C(1) << 26);
    /* The slot starts at 945, and an empty frame has 55 bits at most. */
    WANT(offered(&n, 945, &until) == 0x100 + 90 && until == 945 && offered(&n, 944, &until) == 0 && offered(&n, 946, &until) == 0);
    STATUS(FTTCAN_OK, fttcan_node_trigger(&n, &frames[1], 0, &heard));
    WANT(heard == FTTCAN_AGAIN && next_of(&n) == 8);
    STATUS(FTTCAN_OK, fttcan_node_trigger(&n, &frames[0], 0, &heard));
    WANT(heard == FTTCAN_AGAIN);
    STATUS(FTTCAN_OK, fttcan_node_opened(&n, &opened));
    /* A second frame of a cycle whose first one was not heard. */
    STATUS(FTTCAN_OK, fttcan_node_trigger(&n, &other[1], 0, &heard));
    WANT(heard == FTTCAN_NOT_TAKEN && next_of(&n) == 8);
    STATUS(FTTCAN_NO, fttcan_node_opened(&n, &opened));
    STATUS(FTTCAN_OK, fttcan_node_set(&n, 95, frames[0].bytes, 0));
    STATUS(FTTCAN_ARGUMENT, fttcan_node_set(&n, 96, frames[0].bytes, 0));
    fttcan_node_free(&n);
}

static void of_slots(void) {
    static const uint8_t bytes[9] = {1, 2, 3, 4, 5, 6, 7, 8, 9};
    fttcan_node n = made(&settings);
    fttcan_loaded loaded, other;
    fttcan_frame frame;
    fttcan_due due = {7, 7, 7, 7};
    uint32_t until = 0;
    memset(&loaded, 7, sizeof loaded);
    memset(&frame, 7, sizeof frame);
    WANT(due_of(&n) == 0 && offered(&n, 0, &until) == 0 && woken(&n, 0) == 0);
    /* Slots 5, 6 and 7 are flagged; 5 and 6 are its own: 135 + 75 + 65. The window begins at 725. */
    WANT(told(&n, 0, 0xE0, 275, 0) == FTTCAN_OPENED);
    WANT(due_of(&n) == 0x60);
    STATUS(FTTCAN_OK, fttcan_node_slot_due(&n, 5, &due));
    WANT(due.start == 725 && due.last == 865 && due.loaded == 0 && due.users == 0);
    STATUS(FTTCAN_OK, fttcan_node_slot_due(&n, 6, &due));
    WANT(due.start == 725 && due.last == 925);
    STATUS(FTTCAN_NO, fttcan_node_slot_due(&n, 7, &due));
    STATUS(FTTCAN_NO, fttcan_node_slot_due(&n, 96, &due));
    STATUS(FTTCAN_NO, fttcan_node_slot_frame(&n, 7, &frame));
    WANT(due.last == 925 && frame.len == 7);
    STATUS(FTTCAN_OK, fttcan_node_slot_frame(&n, 5, &frame));
    WANT(frame.id == 0x105 && frame.len == 8 && frame.bytes[0] == 0 && frame.bytes[7] == 0);
    WANT(offered(&n, 724, &until) == 0 && woken(&n, 0) == 725 && woken(&n, 724) == 725 && woken(&n, 725) == 726);
    WANT(offered(&n, 725, &until) == 0x105 && until == 865);
    WANT(offered(&n, 866, &until) == 0x106 && until == 925 && offered(&n, 926, &until) == 0 && woken(&n, 925) == 0);
    WANT(offered(&n, UINT64_C(1) << 32, &until) == 0 && offered(&n, (UINT64_C(1) << 32) + 800, &until) == 0);
    WANT(woken(&n, UINT64_C(1) << 32) == 0 && woken(&n, UINT64_MAX) == 0);
    /* Bytes of the wrong length are not sent; those of the right one are, from the next look on. */
    STATUS(FTTCAN_OK, fttcan_node_set(&n, 5, bytes, 7));
    STATUS(FTTCAN_OK, fttcan_node_frame(&n, 800, 0x105, &frame));
    WANT(frame.bytes[0] == 0);
    STATUS(FTTCAN_OK, fttcan_node_set(&n, 5, bytes, 8));
    STATUS(FTTCAN_ARGUMENT, fttcan_node_set(&n, 5, bytes, 9));
    STATUS(FTTCAN_ARGUMENT, fttcan_node_set(&n, 40, bytes, 8));
    STATUS(FTTCAN_OK, fttcan_node_set(&n, 39, bytes, 8));
    STATUS(FTTCAN_OK, fttcan_node_frame(&n, 800, 0x105, &frame));
    WANT(frame.id == 0x105 && frame.len == 8 && memcmp(frame.bytes, bytes, 8) == 0);
    frame.len = 77;
    STATUS(FTTCAN_NO, fttcan_node_frame(&n, 800, 0x106, &frame));
    STATUS(FTTCAN_NO, fttcan_node_frame(&n, 724, 0x105, &frame));
    STATUS(FTTCAN_NO, fttcan_node_frame(&n, UINT64_C(1) << 32 | 800, 0x105, &frame));
    STATUS(FTTCAN_NO, fttcan_node_load(&n, 800, 0x106, &loaded));
    STATUS(FTTCAN_NO, fttcan_node_load(&n, UINT64_C(1) << 32 | 800, 0x105, &loaded));
    WANT(frame.len == 77 && loaded.users == 7 && loaded.ticket.id == 0x707);
    /* In flight it is not offered, and its slot is still owed. */
    STATUS(FTTCAN_OK, fttcan_node_load(&n, 800, 0x105, &loaded));
    WANT(loaded.ticket.id == 0x105 && loaded.ticket.cycle == 0 && loaded.ticket.number == 0 && loaded.users == 1);
    WANT(loaded.frame.id == 0x105 && memcmp(loaded.frame.bytes, bytes, 8) == 0);
    WANT(offered(&n, 800, &until) == 0x106 && until == 925 && due_of(&n) == 0x60);
    STATUS(FTTCAN_OK, fttcan_node_slot_due(&n, 5, &due));
    WANT(due.loaded == 1 && due.users == 1);
    STATUS(FTTCAN_OK, fttcan_node_load(&n, 800, 0x106, &other));
    WANT(other.users == 0 && other.frame.len == 2 && other.frame.bytes[0] == 0 && offered(&n, 800, &until) == 0);
    /* Withdrawn it is offered again, once. */
    STATUS(FTTCAN_OK, fttcan_node_withdrawn(&n, &loaded.ticket));
    STATUS(FTTCAN_NO, fttcan_node_withdrawn(&n, &loaded.ticket));
    WANT(offered(&n, 800, &until) == 0x105);
    /* It was sent all the same: that counts, once. */
    STATUS(FTTCAN_OK, fttcan_node_sent(&n, &loaded.ticket));
    STATUS(FTTCAN_NO, fttcan_node_sent(&n, &loaded.ticket));
    STATUS(FTTCAN_NO, fttcan_node_withdrawn(&n, &loaded.ticket));
    WANT(due_of(&n) == 0x40 && offered(&n, 800, &until) == 0);
    STATUS(FTTCAN_OK, fttcan_node_sent(&n, &other.ticket));
    WANT(due_of(&n) == 0);
    /* What is told behind the next trigger counts for nothing there. */
    WANT(told(&n, 1, 0x20, 135, 0) == FTTCAN_OPENED);
    WANT(due_of(&n) == 0x20);
    STATUS(FTTCAN_NO, fttcan_node_sent(&n, &loaded.ticket));
    WANT(due_of(&n) == 0x20 && offered(&n, 865, &until) == 0x105 && until == 865);
    STATUS(FTTCAN_OK, fttcan_node_load(&n, 865, 0x105, &loaded));
    WANT(loaded.ticket.cycle == 1);
    /* A slot in flight is free again in the next cycle. Slot 6 has no instance in an odd cycle, and one of number 1 in cycle 2. */
    WANT(told(&n, 2, 0x60, 210, 0) == FTTCAN_OPENED);
    STATUS(FTTCAN_NO, fttcan_node_withdrawn(&n, &loaded.ticket));
    WANT(due_of(&n) == 0x60);
    STATUS(FTTCAN_OK, fttcan_node_slot_frame(&n, 6, &frame));
    WANT(frame.bytes[0] == 0 && frame.bytes[1] == 1);
    WANT(told(&n, 3, 0x60, 210, 0) == FTTCAN_OPENED);
    WANT(due_of(&n) == 0x20);
    /* Tickets of nobody, and those of the slots' and the triggers' identifiers. */
    loaded.ticket.cycle = 3;
    loaded.ticket.id = 0;
    STATUS(FTTCAN_NO, fttcan_node_sent(&n, &loaded.ticket));
    loaded.ticket.id = 0x106;
    STATUS(FTTCAN_NO, fttcan_node_withdrawn(&n, &loaded.ticket));
    loaded.ticket.id = 0xFFFF;
    STATUS(FTTCAN_NO, fttcan_node_sent(&n, &loaded.ticket));
    STATUS(FTTCAN_NO, fttcan_node_withdrawn(&n, &loaded.ticket));
    loaded.ticket.id = OTHERS;
    STATUS(FTTCAN_NO, fttcan_node_sent(&n, &loaded.ticket));
    WANT(due_of(&n) == 0x20 && offered(&n, 865, &until) == 0x105);
    fttcan_node_free(&n);
}

static void of_silent_slots(void) {
    fttcan_settings as = settings;
    fttcan_node n;
    fttcan_loaded loaded;
    uint32_t until = 0;
    uint8_t bytes[8] = {9, 0, 0, 0, 0, 0, 0, 0};
    as.silent = 255;
    n = made(&as);
    WANT(told(&n, 0, 0x20, 135, 0) == FTTCAN_OPENED);
    WANT(due_of(&n) == 0x20 && offered(&n, 865, &until) == 0);
    STATUS(FTTCAN_OK, fttcan_node_set(&n, 5, bytes, 8));
    WANT(offered(&n, 865, &until) == 0x105);
    STATUS(FTTCAN_OK, fttcan_node_load(&n, 865, 0x105, &loaded));
    WANT(loaded.users == 1 && loaded.frame.bytes[0] == 9);
    fttcan_node_free(&n);
}

static void of_requests(void) {
    fttcan_node n = made(&settings);
    fttcan_frame frame = request(OWN, 8, 1), none = request(OWN, 9, 1);
    fttcan_loaded loaded, again;
    fttcan_size count = 7;
    uint32_t until = 0;
    STATUS(FTTCAN_OK, fttcan_node_put(&n, &frame));
    frame.bytes[0] = 2;
    frame.len = 0;
    STATUS(FTTCAN_OK, fttcan_node_put(&n, &frame));
    STATUS(FTTCAN_FULL, fttcan_node_put(&n, &frame));
    frame = request(LEAST, 2, 3);
    STATUS(FTTCAN_OK, fttcan_node_put(&n, &frame));
    frame.id = OTHERS;
    STATUS(FTTCAN_ARGUMENT, fttcan_node_put(&n, &frame));
    frame.id = 0x105;
    STATUS(FTTCAN_ARGUMENT, fttcan_node_put(&n, &frame));
    frame.id = 0x7F0;
    STATUS(FTTCAN_ARGUMENT, fttcan_node_put(&n, &frame));
    STATUS(FTTCAN_ARGUMENT, fttcan_node_put(&n, &none));
    STATUS(FTTCAN_ARGUMENT, fttcan_node_waiting(&n, OTHERS, &count));
    WANT(count == 7);
    STATUS(FTTCAN_OK, fttcan_node_waiting(&n, OWN, &count));
    WANT(count == 2);
    STATUS(FTTCAN_OK, fttcan_node_waiting(&n, LEAST, &count));
    WANT(count == 1);
    WANT(offered(&n, 200, &until) == 0 && woken(&n, 0) == 0);
    WANT(told(&n, 0, 0x20, 135, 0) == FTTCAN_OPENED);
    /* The synchronous window begins at 865: 75 bits end there from 790 on, 135 from 730 on. */
    WANT(offered(&n, ASYNC - 1, &until) == 0 && woken(&n, 0) == ASYNC);
    WANT(offered(&n, ASYNC, &until) == LEAST && until == 790);
    WANT(offered(&n, 791, &until) == 0 && woken(&n, 790) == 865);
    STATUS(FTTCAN_OK, fttcan_node_load(&n, 200, LEAST, &loaded));
    WANT(loaded.users == 1 && loaded.ticket.number == 0 && loaded.frame.bytes[0] == 3 && loaded.frame.len == 2);
    WANT(offered(&n, 200, &until) == OWN && until == 730 && offered(&n, 731, &until) == 0);
    STATUS(FTTCAN_NO, fttcan_node_drop(&n, LEAST));
    STATUS(FTTCAN_OK, fttcan_node_waiting(&n, LEAST, &count));
    WANT(count == 1);
    STATUS(FTTCAN_OK, fttcan_node_load(&n, 200, OWN, &again));
    WANT(again.ticket.id == OWN && again.ticket.number == 0 && again.frame.bytes[0] == 1 && offered(&n, 200, &until) == 0);
    /* A request that is put behind one in flight is not sent before it, nor in its place. */
    STATUS(FTTCAN_FULL, fttcan_node_put(&n, &again.frame));
    STATUS(FTTCAN_OK, fttcan_node_sent(&n, &again.ticket));
    STATUS(FTTCAN_NO, fttcan_node_sent(&n, &again.ticket));
    STATUS(FTTCAN_NO, fttcan_node_withdrawn(&n, &again.ticket));
    STATUS(FTTCAN_OK, fttcan_node_waiting(&n, OWN, &count));
    WANT(count == 1 && offered(&n, 200, &until) == OWN && until == 810);
    /* What is in flight stays so over a trigger, and may be told then. */
    WANT(told(&n, 1, 0, 0, 0) == FTTCAN_OPENED);
    WANT(offered(&n, 200, &until) == OWN && until == 945);
    STATUS(FTTCAN_OK, fttcan_node_sent(&n, &loaded.ticket));
    STATUS(FTTCAN_OK, fttcan_node_waiting(&n, LEAST, &count));
    WANT(count == 0);
    STATUS(FTTCAN_NO, fttcan_node_drop(&n, LEAST));
    STATUS(FTTCAN_ARGUMENT, fttcan_node_drop(&n, OTHERS));
    STATUS(FTTCAN_OK, fttcan_node_drop(&n, OWN));
    WANT(offered(&n, 200, &until) == 0);
    frame = request(OWN, 0, 0);
    STATUS(FTTCAN_OK, fttcan_node_put(&n, &frame));
    STATUS(FTTCAN_OK, fttcan_node_load(&n, 200, OWN, &again));
    WANT(again.ticket.number == 2);
    STATUS(FTTCAN_OK, fttcan_node_withdrawn(&n, &again.ticket));
    WANT(offered(&n, 200, &until) == OWN);
    STATUS(FTTCAN_OK, fttcan_node_go_to(&n, 2));
    WANT(offered(&n, 200, &until) == 0);
    fttcan_node_free(&n);
}

static void of_tables(void) {
    static const uint8_t bytes[8] = {5, 5, 5, 5, 5, 5, 5, 5};
    fttcan_node n = made(&settings);
    fttcan_placed list[5], room[5];
    fttcan_op ops[2] = {{FTTCAN_CHANGE, {0, 3, 2, 5, 1, 4, 0}}, {FTTCAN_REMOVE, {0, 0, 0, 6, 0, 0, 0}}};
    fttcan_frame frame;
    fttcan_size count = 7;
    memset(room, 7, sizeof room);
    memcpy(list, table, sizeof table);
    list[3] = list[4] = list[0];
    list[3].entry.slot = 8;
    list[4].entry.slot = 9;
    STATUS(FTTCAN_OK, fttcan_node_set(&n, 5, bytes, 8));
    WANT(told(&n, 0, 0xFFFF, 400, 0) == FTTCAN_OPENED);
    WANT(due_of(&n) == 0x60);
    /* Four of its own are too many, three are not; what others have does not count. */
    STATUS(FTTCAN_FULL, fttcan_node_learn(&n, list, 5));
    WANT(due_of(&n) == 0x60);
    STATUS(FTTCAN_OK, fttcan_node_learn(&n, list, 4));
    WANT(due_of(&n) == 0x160);
    STATUS(FTTCAN_OK, fttcan_node_slot_frame(&n, 5, &frame));
    WANT(frame.bytes[0] == 5);
    list[0].entry.deadline = 2;
    STATUS(FTTCAN_TABLE, fttcan_node_learn(&n, list, 4));
    WANT(due_of(&n) == 0x160);
    /* Another entry in the slot: its bytes are forgotten. */
    list[0] = table[0];
    list[0].entry.phase = 0;
    list[0].origin = 0;
    list[0].entry.priority = 3;
    STATUS(FTTCAN_OK, fttcan_node_learn(&n, list, 4));
    STATUS(FTTCAN_OK, fttcan_node_slot_frame(&n, 5, &frame));
    WANT(frame.bytes[0] == 5);
    STATUS(FTTCAN_OK, fttcan_node_learn(&n, list, 0));
    WANT(due_of(&n) == 0);
    STATUS(FTTCAN_OK, fttcan_node_learn(&n, list, 4));
    STATUS(FTTCAN_OK, fttcan_node_slot_frame(&n, 5, &frame));
    WANT(frame.bytes[0] == 0);
    fttcan_node_free(&n);
    /* The table after a change: slot 5 ends at 10, and goes on at 10 + 1 - 1 with a period of 3; slot 6 ends. */
    STATUS(FTTCAN_OK, fttcan_apply(table, 3, 10, ops, 2, room, 5, &count));
    WANT(count == 4 && room[0].ended && room[0].end == 10 && room[1].ended && room[1].end == 10 && !room[2].ended);
    WANT(room[3].origin == 10 && !room[3].ended && same_entry(&room[3].entry, &ops[0].entry));
    memset(room, 7, sizeof room);
    count = 7;
    STATUS(FTTCAN_ROOM, fttcan_apply(table, 3, 10, ops, 2, room, 3, &count));
    WANT(count == 4 && room[0].ended == 7);
    count = 7;
    ops[1].kind = 3;
    STATUS(FTTCAN_ARGUMENT, fttcan_apply(table, 3, 10, ops, 2, room, 5, &count));
    ops[1].kind = FTTCAN_REMOVE;
    ops[1].entry.slot = 20;
    STATUS(FTTCAN_NO, fttcan_apply(table, 3, 10, ops, 2, room, 5, &count));
    ops[1].entry.slot = 96;
    STATUS(FTTCAN_NO, fttcan_apply(table, 3, 10, ops, 2, room, 5, &count));
    STATUS(FTTCAN_NO, fttcan_apply(table, 3, 10, ops, 0, room, 5, &count));
    STATUS(FTTCAN_NO, fttcan_apply(table, 3, UINT64_C(1) << 40, ops, 1, room, 5, &count));
    ops[0].entry.node = 30;
    STATUS(FTTCAN_NO, fttcan_apply(table, 3, 10, ops, 1, room, 5, &count));
    ops[0].entry.node = 29;
    list[0].entry.deadline = 0;
    STATUS(FTTCAN_TABLE, fttcan_apply(list, 3, 10, ops, 1, room, 5, &count));
    WANT(count == 7 && room[0].ended == 7);
    STATUS(FTTCAN_OK, fttcan_apply(table, 3, 10, ops, 1, room, 5, &count));
}

int main(void) {
    of_closed_node();
    of_new();
    of_triggers();
    of_two_frames();
    of_slots();
    of_silent_slots();
    of_requests();
    of_tables();
    return ended("calls_node");
}
