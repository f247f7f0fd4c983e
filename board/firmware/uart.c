/* The serial line: the board's first UART, asked in the loop; lines that go out wait in memory of a fixed size. */
#include "board.h"

enum { DATA = 0x40004000, STATE = 0x40004004, CONTROL = 0x40004008, DIVISOR = 0x40004010 };
enum { SENDER_FULL = 1, RECEIVER_FULL = 2 };
enum { SENDER_ON = 1, RECEIVER_ON = 2, SENDER_WAKES = 4, RECEIVER_WAKES = 8 };
enum { BITS_A_SECOND = 115200 };

/* A power of two, so that places can be counted on for ever. */
enum { ROOM = 1024 };
static char waiting[ROOM];
static uint32_t put, sent;

void uart_begin(void)
{
    BOARD_REGISTER(DIVISOR) = BOARD_CYCLES * 1000 / BITS_A_SECOND;
    BOARD_REGISTER(CONTROL) = SENDER_ON | RECEIVER_ON | SENDER_WAKES | RECEIVER_WAKES;
}

int uart_take(char *character)
{
    if ((BOARD_REGISTER(STATE) & RECEIVER_FULL) == 0)
        return 0;
    *character = (char)BOARD_REGISTER(DATA);
    return 1;
}

void uart_put(const char *text, unsigned length)
{
    if (length > ROOM - (put - sent))
        return;
    for (unsigned i = 0; i < length; i++)
        waiting[put++ % ROOM] = text[i];
}

void uart_send(void)
{
    while (sent != put && (BOARD_REGISTER(STATE) & SENDER_FULL) == 0)
        BOARD_REGISTER(DATA) = (uint8_t)waiting[sent++ % ROOM];
}
