/* The driver of driver.h. */
#include "driver.h"

enum { FIRST_ASYNCHRONOUS = 0x200 };

static int is_request(uint16_t id) { return id >= FIRST_ASYNCHRONOUS; }

/* How far behind the cycle's start a time is, `ahead` later; 0 before it. */
static uint64_t into(const driver *d, uint64_t ahead) {
    uint64_t now = controller_clock(d->controller) + ahead;
    return now > d->began ? now - d->began : 0;
}

/* A free buffer, or the number of buffers. A controller that does not sort has one request at a time, in buffer 0. */
static unsigned free_buffer(const driver *d, uint16_t id) {
    unsigned n = 0;
    unsigned count = is_request(id) && !d->board.sorts ? 1 : d->board.buffers;
    while (n < count && d->buffers[n].state != BUFFER_IDLE)
        n++;
    return n < count ? n : d->board.buffers;
}

/* Begins to take a frame back. It may start all the same until the controller says that it is gone. */
static void take_back(driver *d, unsigned n) {
    if (d->buffers[n].state != BUFFER_LOADED)
        return;
    d->buffers[n].state = BUFFER_ABORTING;
    driver_abort(d->controller, n);
}

/* Takes back a greater identifier, if there is one, to make room for a lesser one. */
static void make_room(driver *d, uint16_t id) {
    unsigned greatest = d->board.buffers;
    for (unsigned n = 0; n < d->board.buffers; n++) {
        if (d->buffers[n].state == BUFFER_ABORTING)
            return; /* room comes already */
        if (d->buffers[n].state == BUFFER_LOADED && d->buffers[n].id > id
            && (greatest == d->board.buffers || d->buffers[n].id > d->buffers[greatest].id))
            greatest = n;
    }
    if (greatest < d->board.buffers)
        take_back(d, greatest);
}

/* Loads the next frame that may be loaded now. 0: there is none, or no room for it. A frame is loaded only if it may start at
 * each time at which the controller can start it, and if there is time to take it back. */
static int load_one(driver *d) {
    uint32_t margin = d->board.margin;
    uint64_t soonest = into(d, d->board.load_least);
    uint64_t latest = into(d, (uint64_t)d->board.load_most + d->board.abort_most + d->board.timer_late + margin);
    fttcan_offer at_first, at_last;
    fttcan_loaded loaded;
    soonest = soonest > margin ? soonest - margin : 0;
    if (fttcan_node_offer(&d->node, latest, &at_last) != FTTCAN_OK)
        return 0;
    if (fttcan_node_offer(&d->node, soonest, &at_first) != FTTCAN_OK || is_request(at_first.id) != is_request(at_last.id))
        return 0; /* too early */
    unsigned n = free_buffer(d, at_last.id);
    if (n == d->board.buffers) {
        make_room(d, at_last.id);
        return 0;
    }
    driver_buffer *buffer = &d->buffers[n];
    if (fttcan_node_load(&d->node, latest, at_last.id, &loaded) != FTTCAN_OK)
        return 0;
    if (!driver_load(d->controller, n, &loaded.frame)) {
        (void)fttcan_node_withdrawn(&d->node, &loaded.ticket);
        return 0;
    }
    buffer->ticket = loaded.ticket;
    buffer->state = BUFFER_LOADED;
    buffer->id = at_last.id;
    buffer->last = d->began + at_last.until;
    return 1;
}

static uint64_t earlier(uint64_t a, uint64_t b) { return a < b ? a : b; }

/* Takes back what can't wait longer, and sets the timer to the next time at which there is something to do: a frame has to be
 * taken back, or something may be loaded. Both times stand, and the timer is the earlier one. */
static void look_ahead(driver *d) {
    uint64_t now = controller_clock(d->controller);
    uint64_t back = (uint64_t)d->board.abort_most + d->board.timer_late + d->board.margin;
    uint64_t timer = UINT64_MAX, next;
    uint64_t soonest = into(d, d->board.load_least);
    for (unsigned n = 0; n < d->board.buffers; n++) {
        if (d->buffers[n].state != BUFFER_LOADED)
            continue;
        if (d->buffers[n].last <= now + back)
            take_back(d, n);
        else
            timer = earlier(timer, d->buffers[n].last - back);
    }
    soonest = soonest > d->board.margin ? soonest - d->board.margin : 0;
    if (fttcan_node_wake(&d->node, soonest, &next) == FTTCAN_OK) {
        uint64_t when = d->began + next + d->board.margin;
        if (when > now + d->board.load_least)
            timer = earlier(timer, when - d->board.load_least);
    }
    driver_timer(d->controller, timer);
}

static void go_on(driver *d) {
    while (load_one(d))
        ;
    look_ahead(d);
}

/* How many cycles have begun since the one whose start is known, and where the new one begins by the driver's clock: where its
 * trigger was, unless that came late. A trigger that was sent again starts later than its cycle, and never earlier. So the
 * start is taken from it if that is earlier than what the clock says, and else from the clock, as far as that may drift. A
 * trigger that is later than the turnaround allows says that the master has moved its cycles. */
static uint64_t cycles_since(driver *d, uint64_t began, uint64_t *start) {
    uint64_t cycle = d->board.cycle;
    uint64_t cycles = began + cycle / 4 < d->began ? 0 : (began + cycle / 4 - d->began) / cycle;
    uint64_t latest = d->began + cycles * (cycle + d->board.drift);
    *start = began < latest || began > latest + d->board.turnaround ? began : latest;
    return cycles;
}

void driver_on_trigger(driver *d, const fttcan_frame *frame, uint64_t began) {
    uint64_t start = began, cycles = 1;
    uint8_t heard;
    if (frame->id == 0 && d->known)
        cycles = cycles_since(d, began, &start);
    uint32_t passed = frame->id == 0 && cycles > 1 ? (uint32_t)(cycles - 1) : 0;
    if (fttcan_node_trigger(&d->node, frame, passed, &heard) != FTTCAN_OK || heard == FTTCAN_OTHER || heard == FTTCAN_AGAIN)
        return;
    if (frame->id == 0 && heard != FTTCAN_NOT_TAKEN) {
        d->began = start;
        d->known = 1;
    }
    if (frame->id == 0 || heard == FTTCAN_NOT_TAKEN)
        for (unsigned n = 0; n < d->board.buffers; n++)
            take_back(d, n); /* nothing of the last cycle may start any more */
    go_on(d);
}

void driver_on_done(driver *d, unsigned n, int sent) {
    if (sent)
        (void)fttcan_node_sent(&d->node, &d->buffers[n].ticket);
    else
        (void)fttcan_node_withdrawn(&d->node, &d->buffers[n].ticket);
    d->buffers[n].state = BUFFER_IDLE;
    go_on(d);
}

void driver_on_timer(driver *d) { go_on(d); }

uint32_t driver_put(driver *d, const fttcan_frame *frame) {
    uint32_t status = fttcan_node_put(&d->node, frame);
    if (status == FTTCAN_OK)
        go_on(d);
    return status;
}

uint32_t driver_set(driver *d, uint8_t slot, const uint8_t *bytes, fttcan_size count) {
    return fttcan_node_set(&d->node, slot, bytes, count);
}
