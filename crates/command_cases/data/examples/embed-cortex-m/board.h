/* What the program needs of the board. On another controller only board.c and board.ld change. */
#ifndef BOARD_H
#define BOARD_H
#include <stdint.h>

/* The program's own: the interrupt of the timer calls this once a tick. */
void on_tick(void);

/* Starts a timer that ticks each so many processor clocks. */
void start_timer(uint32_t clocks);

/* Sleeps until an interrupt has come. */
void sleep_until_interrupt(void);

/* Writes a text where qemu shows it. */
void print(const char *text);

/* Ends the run. */
void stop(int status);
#endif
