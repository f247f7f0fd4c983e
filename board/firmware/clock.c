/* The millisecond tick: one timer of the board counts cycles without end, so that no millisecond is lost; the other ends a wait. */
#include "board.h"

enum { COUNT = 0x40000000, WAKER = 0x40001000 };
enum { CONTROL = 0x0, VALUE = 0x4, RELOAD = 0x8 };
enum { ON = 1, WAKES = 8 };

/* The count down at the last millisecond that was given. */
static uint32_t given;

void clock_begin(void)
{
    BOARD_REGISTER(COUNT + RELOAD) = UINT32_MAX;
    BOARD_REGISTER(COUNT + VALUE) = UINT32_MAX;
    BOARD_REGISTER(COUNT + CONTROL) = ON;
    BOARD_REGISTER(WAKER + RELOAD) = BOARD_CYCLES - 1;
    BOARD_REGISTER(WAKER + CONTROL) = ON | WAKES;
    given = BOARD_REGISTER(COUNT + VALUE);
}

int clock_passed(void)
{
    if (given - BOARD_REGISTER(COUNT + VALUE) < BOARD_CYCLES)
        return 0;
    given -= BOARD_CYCLES;
    return 1;
}
