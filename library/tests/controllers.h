/* A simulated CAN bus with simulated controllers, for tests of drivers: which frame goes first, what an abort does, and when
 * the driver is told. Times are bit times. It is no model of a chip to the bit: it has what differs between controllers for a
 * driver, and takes all latencies at random within their bounds.
 *
 * Bus: where it is free, of the frames that stand in controllers the one with the least identifier starts (CAN 2.0 Part A,
 * arbitration); a frame that loses stays where it is, and is tried again. A frame takes its wire length, intermission included.
 * A frame that is hit is cut, the bus is busy for the recovery, and the controller tries it again. If the last bit before the
 * intermission is hit, receivers have the frame, and its sender sends it again.
 *
 * Controllers: a buffer is empty, waits, or is sent. A load into a buffer that is not empty is refused. Of the waiting frames the
 * controller offers the one with the least identifier, or that of the buffer with the lowest number. An abort takes effect
 * some time later: a frame that waits then is gone, and one that is on the wire goes on, and if it is cut it is not tried
 * again. The driver is told the end of each load once: sent, or not sent. Events of receive and transmit come late, each by a
 * time of its own, so in either order. */
#ifndef FTTCAN_TESTS_CONTROLLERS_H
#define FTTCAN_TESTS_CONTROLLERS_H
#include "fttcan.h"
#include <stdint.h>

enum { MOST_BUFFERS = 8, MOST_BOARDS = 32, MOST_EVENTS = 64 };

/* What a controller is like. Times are bit times, `least` to `most`. */
typedef struct {
    const char *name;
    unsigned buffers;        /* 1 to MOST_BUFFERS */
    int sorts;               /* 1: the least identifier of the waiting frames goes first; 0: that of the lowest buffer */
    uint32_t load_least, load_most;   /* from the load until the frame can start */
    uint32_t abort_least, abort_most; /* from the abort until it takes effect */
    uint32_t event_least, event_most; /* from what happens on the bus until the driver is told */
} controller_kind;

typedef enum { BUFFER_EMPTY, BUFFER_WAITS, BUFFER_SENDS } buffer_state;

typedef struct {
    buffer_state state;
    fttcan_frame frame;
    uint64_t ready;   /* from then on the frame can start */
    uint64_t gone;    /* when the abort takes effect; UINT64_MAX: none */
} controller_buffer;

typedef enum { EVENT_FRAME, EVENT_DONE, EVENT_TIMER } event_kind;

typedef struct {
    uint64_t when;
    event_kind kind;
    fttcan_frame frame;  /* EVENT_FRAME */
    uint64_t began;      /* EVENT_FRAME: the start of the frame on the bus */
    unsigned buffer;     /* EVENT_DONE */
    int sent;            /* EVENT_DONE */
} board_event;

struct simulated_bus;

/* A controller and who drives it. */
typedef struct simulated_board {
    const controller_kind *kind;
    controller_buffer buffers[MOST_BUFFERS];
    board_event events[MOST_EVENTS];
    unsigned events_count;
    uint64_t timer;      /* UINT64_MAX: none */
    void *driver;
    void (*on_frame)(struct simulated_board *, const fttcan_frame *, uint64_t began);
    void (*on_done)(struct simulated_board *, unsigned buffer, int sent);
    void (*on_timer)(struct simulated_board *);
    int deaf;            /* 1: it hears no frames of others */
    struct simulated_bus *bus;
} simulated_board;

typedef struct simulated_bus {
    simulated_board boards[MOST_BOARDS];
    unsigned count;
    uint64_t now, free;      /* the time, and when the bus is free again */
    int sending;             /* the board that sends, or -1 */
    unsigned sending_buffer;
    uint64_t started, ends;  /* of the frame on the wire: its start, and its end without intermission */
    enum { HIT_NONE, HIT_CUT, HIT_LAST } hit;
    uint64_t random;
    uint32_t cut_per_mille, last_per_mille; /* how many of 1,000 frames are cut, or hit in the last bit */
    uint64_t lost, hits;     /* bit times that were lost to hits, and how many these were */
    void (*on_sent)(struct simulated_bus *, unsigned board, const fttcan_frame *, uint64_t start, uint64_t end);
} simulated_bus;

void bus_begin(simulated_bus *, uint64_t seed);
unsigned bus_board(simulated_bus *, const controller_kind *, void *driver);
/* Runs until the time. */
void bus_run(simulated_bus *, uint64_t until);
uint64_t bus_random(simulated_bus *, uint64_t least, uint64_t most);

/* What a driver does with its controller. controller_load answers 0 if the buffer is not empty. */
int controller_load(simulated_board *, unsigned buffer, const fttcan_frame *);
void controller_abort(simulated_board *, unsigned buffer);
void controller_timer(simulated_board *, uint64_t when);
#endif
