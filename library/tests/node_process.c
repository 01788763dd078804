/* One node in a process of its own, for tools/check-nodes: it carries out commands of standard input, each of 32 bytes and
 * what follows it, and answers each by 32 bytes. Its heap refuses the allocation that it is told to. Numbers are as the
 * machine has them. */
#include "heap.h"
#include <unistd.h>

enum { NEW, LEARN, GO_TO, TRIGGER, SET, PUT, OFFER, WAKE, LOAD, SENT, WITHDRAWN, DUE, DROP, TAKEN };
enum { MOST_PLACED = 4200, MOST_OWNERS = 2000, MOST_IDS = 0x7F0 };

typedef struct {
    uint64_t time;       /* a time, a cycle, or a number of bytes or elements that follow */
    uint32_t number;     /* cycles that have passed, or which allocation is refused: 0 for none */
    uint16_t id;         /* an identifier */
    uint8_t what, small; /* the command; a slot, or a number of bytes */
    uint8_t bytes[8];
    uint64_t more;
} command;

typedef struct {
    uint64_t number;
    uint32_t status, until;
    uint16_t id;
    uint8_t len, users;
    uint8_t bytes[8];
    uint32_t more;
} answer;

static fttcan_node node;
static fttcan_placed placed[MOST_PLACED];
static fttcan_owner owners[MOST_OWNERS];
/* By identifier the ticket that was loaded last. */
static fttcan_ticket tickets[MOST_IDS];

static void get(void *to, size_t size) {
    unsigned char *at = to;
    while (size) {
        const ssize_t got = read(0, at, size);
        if (got <= 0)
            exit(0);
        at += got;
        size -= (size_t)got;
    }
}

static void put(const void *from, size_t size) {
    const unsigned char *at = from;
    while (size) {
        const ssize_t done = write(1, at, size);
        if (done <= 0)
            exit(1);
        at += done;
        size -= (size_t)done;
    }
}

static void tell(answer *a, const fttcan_frame *frame) {
    a->id = frame->id;
    a->len = frame->len;
    memcpy(a->bytes, frame->bytes, 8);
}

static void make(const command *c, answer *a) {
    fttcan_layout layout;
    fttcan_settings settings;
    get(&layout, sizeof layout);
    get(&settings, sizeof settings);
    if (c->time > MOST_OWNERS)
        exit(2);
    get(owners, c->time * sizeof owners[0]);
    fttcan_node_free(&node);
    WANT(taken == 0 && bytes_taken == 0);
    until_refusal = (long)c->number - 1;
    a->status = fttcan_node_new(&node, &layout, &settings, owners, c->time);
    until_refusal = -1;
    a->number = bytes_taken;
    WANT(a->status == FTTCAN_OK || taken == 0);
}

static void learn(const command *c, answer *a) {
    const size_t before = bytes_taken;
    if (c->time > MOST_PLACED)
        exit(2);
    get(placed, c->time * sizeof placed[0]);
    until_refusal = (long)c->number - 1;
    a->status = fttcan_node_learn(&node, placed, c->time);
    until_refusal = -1;
    WANT(bytes_taken == before);
}

static void do_(const command *c, answer *a) {
    fttcan_frame frame = {0, 0, {0, 0, 0, 0, 0, 0, 0, 0}};
    fttcan_offer offer = {0, 0};
    fttcan_loaded loaded;
    fttcan_mask due = {0, 0};
    uint8_t heard = 0;
    frame.id = c->id;
    frame.len = c->small;
    memcpy(frame.bytes, c->bytes, 8);
    memset(&loaded, 0, sizeof loaded);
    switch (c->what) {
    case GO_TO: a->status = fttcan_node_go_to(&node, c->time); break;
    case TRIGGER:
        a->status = fttcan_node_trigger(&node, &frame, c->number, &heard);
        a->until = heard;
        break;
    case SET: a->status = fttcan_node_set(&node, (uint8_t)c->id, c->bytes, c->small); break;
    case PUT: a->status = fttcan_node_put(&node, &frame); break;
    case OFFER:
        a->status = fttcan_node_offer(&node, c->time, &offer);
        a->id = offer.id;
        a->until = offer.until;
        break;
    case WAKE: a->status = fttcan_node_wake(&node, c->time, &a->number); break;
    case LOAD:
        a->status = fttcan_node_load(&node, c->time, c->id, &loaded);
        tell(a, &loaded.frame);
        a->users = loaded.users;
        a->number = loaded.ticket.number;
        if (a->status == FTTCAN_OK && c->id < MOST_IDS)
            tickets[c->id] = loaded.ticket;
        break;
    case SENT: a->status = fttcan_node_sent(&node, &tickets[c->id % MOST_IDS]); break;
    case WITHDRAWN: a->status = fttcan_node_withdrawn(&node, &tickets[c->id % MOST_IDS]); break;
    case DUE:
        a->status = fttcan_node_due(&node, &due);
        a->number = due.low;
        a->until = (uint32_t)due.high;
        break;
    case DROP: a->status = fttcan_node_drop(&node, c->id); break;
    case TAKEN: a->number = most_bytes; break;
    default: exit(2);
    }
}

int main(void) {
    for (;;) {
        command c;
        answer a;
        get(&c, sizeof c);
        memset(&a, 0, sizeof a);
        until_refusal = -1;
        if (c.what == NEW) {
            make(&c, &a);
        } else if (c.what == LEARN) {
            learn(&c, &a);
        } else {
            /* No other call takes memory: the next allocation would be refused, and told. */
            const long before = refusals;
            until_refusal = 0;
            do_(&c, &a);
            WANT(refusals == before);
        }
        a.more = (uint32_t)wrong;
        put(&a, sizeof a);
    }
}
