/* Waiting: interrupts of the line and the clock end a wait but are never taken, so that the firmware has no handler and no shared state. */
#include "board.h"

enum { UART_SEEN = 0x4000400C, CLOCK_SEEN = 0x4000100C };
enum { ENABLE = 0xE000E100, PENDING_SEEN = 0xE000E280 };

/* Numbers of the interrupts: the first UART has received, has sent; the second timer. */
enum { WAKING = 1 << 0 | 1 << 1 | 1 << 9 };

void wake_seen(void)
{
    BOARD_REGISTER(UART_SEEN) = 3;
    BOARD_REGISTER(CLOCK_SEEN) = 1;
    BOARD_REGISTER(PENDING_SEEN) = WAKING;
    BOARD_REGISTER(ENABLE) = WAKING;
}

void wake_wait(void)
{
    __asm volatile("dsb\n\twfi" ::: "memory");
}
