/* What the firmware has of the board: a serial line, a clock, a journal's memory and a way to wait. */
#ifndef BOARD_H
#define BOARD_H

#include <stdint.h>

/* A register of the board. */
#define BOARD_REGISTER(address) (*(volatile uint32_t *)(address))

/* Cycles of the board's clock in a millisecond: 25 MHz. */
enum { BOARD_CYCLES = 25000 };

/* Begins the line at 115,200 bits a second. */
void uart_begin(void);

/* Takes a character where one has come; 0 where none has. */
int uart_take(char *character);

/* Puts text behind what waits to be sent, whole, or not at all where it finds no room. */
void uart_put(const char *text, unsigned length);

/* Sends what the line takes at once of what waits. */
void uart_send(void);

/* Begins to count. */
void clock_begin(void);

/* 1 for each millisecond that has passed, once. */
int clock_passed(void);

/* Marks as seen what has happened until now. */
void wake_seen(void);

/* Waits until the line or the clock has something that was not marked as seen. */
void wake_wait(void);

#endif
