/* Start-up of a test program on the emulated board: variables, the words that board/emulate was given, main, and its result as exit status.
 *
 * Output, words and exit status go through semihosting, which the emulator answers. */
#include <stdint.h>
#include <stdlib.h>

enum { MOST_WORDS = 8, MOST_BYTES = 256, FAULTED = 99 };

/* Questions of semihosting, and the reason of a program that ends by itself. */
enum { GET_COMMAND_LINE = 0x15, EXIT_WITH_STATUS = 0x20, ENDED_BY_ITSELF = 0x20026 };

/* In the first register a bit makes accesses fault that are not aligned, as they always do on a Cortex-M0+; in the second four bits
 * switch the floating-point unit on. */
#define CONFIGURATION (*(volatile uint32_t *)0xE000ED14)
#define COPROCESSORS (*(volatile uint32_t *)0xE000ED88)
enum { UNALIGNED_FAULTS = 1 << 3, FLOATING_POINT = 0xF << 20 };

extern uint32_t stack_top[], data_load[], data_start[], data_end[], bss_start[], bss_end[];

int main(int count, char **words);
void initialise_monitor_handles(void);

static void prepare_variables(void)
{
    const uint32_t *from = data_load;
    for (uint32_t *to = data_start; to < data_end; to++)
        *to = *from++;
    for (uint32_t *to = bss_start; to < bss_end; to++)
        *to = 0;
}

/* One question to the emulator, and what it answers. */
static int semihost(int question, void *parameters)
{
    register int r0 __asm__("r0") = question;
    register void *r1 __asm__("r1") = parameters;
    __asm__ volatile("bkpt 0xAB" : "+r"(r0) : "r"(r1) : "memory");
    return r0;
}

/* Cuts the command line at its blanks. */
static int split(char *line, char **words)
{
    int count = 0;
    while (*line != 0 && count < MOST_WORDS) {
        words[count++] = line;
        while (*line != 0 && *line != ' ')
            line++;
        if (*line == ' ')
            *line++ = 0;
    }
    return count;
}

void reset(void)
{
    static char line[MOST_BYTES];
    static char *words[MOST_WORDS + 1];
    struct {
        char *line;
        int bytes;
    } asked = {line, MOST_BYTES};
#ifdef __ARM_ARCH_6M__
    CONFIGURATION |= UNALIGNED_FAULTS;
#endif
#ifdef __ARM_FP
    COPROCESSORS |= FLOATING_POINT;
#endif
    prepare_variables();
    initialise_monitor_handles();
    int count = semihost(GET_COMMAND_LINE, &asked) == 0 ? split(line, words) : 0;
    exit(main(count, words));
}

/* In place of the C library's, which drops the status. */
void _exit(int status)
{
    int asked[] = {ENDED_BY_ITSELF, status};
    semihost(EXIT_WITH_STATUS, asked);
    for (;;) {
    }
}

/* A fault ends the program with a status of its own, so that a test fails at once. */
static void fault(void)
{
    _exit(FAULTED);
}

__attribute__((section(".vectors"), used)) static void (*const vectors[16])(void) = {
    (void (*)(void))stack_top, reset, fault, fault, fault, fault, fault,
};
