/* Start-up: the vectors, variables set as C wants them, interrupts held back, then main. The journal's memory is not touched. */
#include <stdint.h>

extern uint32_t stack_top[], data_load[], data_start[], data_end[], bss_start[], bss_end[];
int main(void);

/* Here ends what must not go on: a fault sends nothing more. */
static void stop(void)
{
    for (;;)
        __asm volatile("wfi");
}

void start(void)
{
    __asm volatile("cpsid i");
    for (uint32_t *from = data_load, *to = data_start; to < data_end;)
        *to++ = *from++;
    for (uint32_t *to = bss_start; to < bss_end;)
        *to++ = 0;
    main();
    stop();
}

/* Stack, start, and the faults; no interrupt is ever taken. */
__attribute__((section(".vectors"), used)) const void *const vectors[16] = {stack_top, start, stop, stop, stop, stop, stop};
