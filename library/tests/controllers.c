/* The simulated bus of controllers.h. */
#include "controllers.h"
#include <stdio.h>
#include <stdlib.h>
#include <string.h>

enum { INTERMISSION = 3, LEAST_RECOVERY = 17, MOST_RECOVERY = 31 };

static uint64_t next_random(simulated_bus *bus) {
    bus->random ^= bus->random << 13;
    bus->random ^= bus->random >> 7;
    bus->random ^= bus->random << 17;
    return bus->random;
}

uint64_t bus_random(simulated_bus *bus, uint64_t least, uint64_t most) {
    return least + (next_random(bus) >> 11) % (most - least + 1);
}

void bus_begin(simulated_bus *bus, uint64_t seed) {
    memset(bus, 0, sizeof *bus);
    bus->random = seed * 2654435761u + 88172645463325252u;
    bus->sending = -1;
    for (int n = 0; n < 8; n++)
        next_random(bus);
}

unsigned bus_board(simulated_bus *bus, const controller_kind *kind, void *driver) {
    simulated_board *board = &bus->boards[bus->count];
    board->kind = kind;
    board->driver = driver;
    board->timer = UINT64_MAX;
    board->bus = bus;
    return bus->count++;
}

static void tell(simulated_board *board, board_event event) {
    if (board->events_count == MOST_EVENTS) {
        printf("%s: more than %d events wait\n", board->kind->name, MOST_EVENTS);
        exit(1);
    }
    event.when = board->bus->now + bus_random(board->bus, board->kind->event_least, board->kind->event_most);
    board->events[board->events_count++] = event;
}

int controller_load(simulated_board *board, unsigned number, const fttcan_frame *frame) {
    controller_buffer *buffer = &board->buffers[number];
    if (buffer->state != BUFFER_EMPTY)
        return 0;
    buffer->state = BUFFER_WAITS;
    buffer->frame = *frame;
    buffer->ready = board->bus->now + bus_random(board->bus, board->kind->load_least, board->kind->load_most);
    buffer->gone = UINT64_MAX;
    return 1;
}

void controller_abort(simulated_board *board, unsigned number) {
    controller_buffer *buffer = &board->buffers[number];
    if (buffer->state == BUFFER_EMPTY || buffer->gone != UINT64_MAX)
        return;
    buffer->gone = board->bus->now + bus_random(board->bus, board->kind->abort_least, board->kind->abort_most);
}

void controller_timer(simulated_board *board, uint64_t when) { board->timer = when; }

/* The buffer whose frame the controller offers at the time, or -1. */
static int offered(const simulated_board *board, uint64_t at) {
    int chosen = -1;
    for (unsigned n = 0; n < board->kind->buffers; n++) {
        const controller_buffer *buffer = &board->buffers[n];
        if (buffer->state != BUFFER_WAITS || at < buffer->ready)
            continue;
        if (chosen < 0 || (board->kind->sorts && buffer->frame.id < board->buffers[chosen].frame.id))
            chosen = (int)n;
    }
    return chosen;
}

static void done(simulated_board *board, unsigned buffer, int sent) {
    board->buffers[buffer].state = BUFFER_EMPTY;
    tell(board, (board_event){.kind = EVENT_DONE, .buffer = buffer, .sent = sent});
}

/* Aborts whose time has come, of frames that wait. */
static void take_back(simulated_bus *bus) {
    for (unsigned b = 0; b < bus->count; b++)
        for (unsigned n = 0; n < bus->boards[b].kind->buffers; n++) {
            controller_buffer *buffer = &bus->boards[b].buffers[n];
            if (buffer->state == BUFFER_WAITS && buffer->gone <= bus->now)
                done(&bus->boards[b], n, 0);
        }
}

/* Starts the least frame that is offered, where the bus is free. */
static void start(simulated_bus *bus) {
    int winner = -1, winning = -1, twice = 0;
    uint32_t bits;
    if (bus->sending >= 0 || bus->now < bus->free)
        return;
    for (unsigned b = 0; b < bus->count; b++) {
        int n = offered(&bus->boards[b], bus->now);
        if (n < 0)
            continue;
        if (winner >= 0 && bus->boards[b].buffers[n].frame.id == bus->boards[winner].buffers[winning].frame.id)
            twice = 1;
        if (winner < 0 || bus->boards[b].buffers[n].frame.id < bus->boards[winner].buffers[winning].frame.id) {
            winner = (int)b;
            winning = n;
            twice = 0;
        }
    }
    if (winner < 0)
        return;
    controller_buffer *buffer = &bus->boards[winner].buffers[winning];
    if (twice) {
        printf("two boards send identifier %03x at %llu\n", buffer->frame.id, (unsigned long long)bus->now);
        exit(1);
    }
    if (fttcan_wire_length(buffer->frame.id, buffer->frame.bytes, buffer->frame.len, &bits) != FTTCAN_OK) {
        printf("a frame that is none\n");
        exit(1);
    }
    uint32_t lot = (uint32_t)bus_random(bus, 0, 999);
    bus->sending = winner;
    bus->sending_buffer = (unsigned)winning;
    bus->started = bus->now;
    bus->hit = lot < bus->cut_per_mille ? HIT_CUT : lot < bus->cut_per_mille + bus->last_per_mille ? HIT_LAST : HIT_NONE;
    bus->ends = bus->now + (bus->hit == HIT_CUT ? bus_random(bus, 1, bits - INTERMISSION - 1) : bits - INTERMISSION);
    buffer->state = BUFFER_SENDS;
}

/* Ends the frame on the wire: it was sent, or hit. */
static void end(simulated_bus *bus) {
    simulated_board *board = &bus->boards[bus->sending];
    controller_buffer *buffer = &board->buffers[bus->sending_buffer];
    if (bus->hit != HIT_CUT)
        for (unsigned b = 0; b < bus->count; b++)
            if ((int)b != bus->sending && !bus->boards[b].deaf && bus->boards[b].on_frame)
                tell(&bus->boards[b], (board_event){.kind = EVENT_FRAME, .frame = buffer->frame, .began = bus->started});
    if (bus->hit == HIT_NONE) {
        bus->free = bus->ends + INTERMISSION;
        if (bus->on_sent)
            bus->on_sent(bus, (unsigned)bus->sending, &buffer->frame, bus->started, bus->free);
        done(board, bus->sending_buffer, 1);
    } else {
        bus->free = bus->ends + bus_random(bus, LEAST_RECOVERY, MOST_RECOVERY);
        bus->lost += bus->free - bus->started;
        bus->hits++;
        buffer->state = BUFFER_WAITS;
    }
    bus->sending = -1;
}

/* Tells one board one of the events whose time has come; 0 if none has. Of several any may come first. */
static int tell_one(simulated_bus *bus) {
    unsigned from = (unsigned)bus_random(bus, 0, bus->count - 1);
    for (unsigned k = 0; k < bus->count; k++) {
        simulated_board *board = &bus->boards[(from + k) % bus->count];
        unsigned first = board->events_count ? (unsigned)bus_random(bus, 0, board->events_count - 1) : 0;
        for (unsigned j = 0; j < board->events_count; j++) {
            unsigned n = (first + j) % board->events_count;
            board_event event = board->events[n];
            if (event.when > bus->now)
                continue;
            board->events[n] = board->events[--board->events_count];
            if (event.kind == EVENT_FRAME)
                board->on_frame(board, &event.frame, event.began);
            else
                board->on_done(board, event.buffer, event.sent);
            return 1;
        }
        if (board->timer <= bus->now) {
            board->timer = UINT64_MAX;
            board->on_timer(board);
            return 1;
        }
    }
    return 0;
}

static uint64_t least(uint64_t a, uint64_t b) { return a < b ? a : b; }

/* When something happens next. */
static uint64_t next_time(const simulated_bus *bus) {
    uint64_t when = UINT64_MAX;
    if (bus->sending >= 0)
        when = bus->ends;
    for (unsigned b = 0; b < bus->count; b++) {
        const simulated_board *board = &bus->boards[b];
        when = least(when, board->timer);
        for (unsigned n = 0; n < board->events_count; n++)
            when = least(when, board->events[n].when);
        for (unsigned n = 0; n < board->kind->buffers; n++) {
            const controller_buffer *buffer = &board->buffers[n];
            if (buffer->state != BUFFER_WAITS)
                continue;
            when = least(when, buffer->gone);
            if (bus->sending < 0) {
                uint64_t ready = buffer->ready < bus->free ? bus->free : buffer->ready;
                when = least(when, ready);
            }
        }
    }
    return when;
}

void bus_run(simulated_bus *bus, uint64_t until) {
    for (;;) {
        uint64_t when = next_time(bus);
        if (when >= until)
            break;
        if (when > bus->now)
            bus->now = when;
        if (bus->sending >= 0 && bus->ends <= bus->now)
            end(bus);
        take_back(bus);
        while (tell_one(bus))
            ;
        take_back(bus);
        start(bus);
    }
    bus->now = until;
}
