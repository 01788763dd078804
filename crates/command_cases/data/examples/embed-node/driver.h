/* A driver of a node on a CAN controller. It stands between the controller's interrupts and the node of the library.
 *
 * All times are bit times of the driver's own clock, which never wraps here. One context calls it: a task, or one interrupt
 * level. No call of it takes memory, waits, or loops for long. README.md has the state machine and the numbers. */
#ifndef EMBED_NODE_DRIVER_H
#define EMBED_NODE_DRIVER_H
#include <fttcan.h>

enum { DRIVER_BUFFERS = 8 };

/* What the board is like. The driver keeps its promises if these numbers are right. */
typedef struct {
    uint32_t cycle;      /* bit times of a cycle */
    uint32_t turnaround; /* those after the trigger part: so late a trigger may be that was sent again */
    unsigned buffers;    /* transmit buffers of the controller that it may use: 1 to DRIVER_BUFFERS */
    int sorts;           /* 1: the controller sends the least identifier of its buffers first */
    uint32_t load_least; /* from controller_load until the frame can start */
    uint32_t load_most;
    uint32_t abort_most; /* from controller_abort until the frame can't start any more */
    uint32_t timer_late; /* how late a timer is at most */
    uint32_t margin;     /* by how much the driver's count of the cycle's start is off at most: stamps, and drift in a cycle */
    uint32_t drift;      /* bit times by which the clock may run ahead or behind in a cycle */
} driver_board;

/* A buffer of the controller. */
typedef struct {
    enum { BUFFER_IDLE, BUFFER_LOADED, BUFFER_ABORTING } state;
    fttcan_ticket ticket; /* what the node gave for the frame in it */
    uint16_t id;
    uint64_t last;        /* the last time at which the frame may start */
} driver_buffer;

typedef struct driver {
    fttcan_node node;
    driver_board board;
    driver_buffer buffers[DRIVER_BUFFERS];
    uint64_t began; /* when the cycle began of which the last trigger was heard */
    int known;      /* 1: a trigger was heard since the start, so `began` is known */
    void *controller;
} driver;

/* What the controller is to do, written by whoever knows it. */
uint64_t controller_clock(void *controller);
int driver_load(void *controller, unsigned buffer, const fttcan_frame *frame); /* 0: the buffer is not free */
void driver_abort(void *controller, unsigned buffer);
void driver_timer(void *controller, uint64_t when); /* takes the place of the timer before; UINT64_MAX: none */

/* What the controller tells. */
void driver_on_trigger(driver *d, const fttcan_frame *frame, uint64_t began); /* when its first bit was on the bus */
void driver_on_done(driver *d, unsigned buffer, int sent); /* the end of a load: sent whole, or taken back */
void driver_on_timer(driver *d);
/* What the program asks. Both answer what the node answers. */
uint32_t driver_put(driver *d, const fttcan_frame *frame);
uint32_t driver_set(driver *d, uint8_t slot, const uint8_t *bytes, fttcan_size count);
#endif
