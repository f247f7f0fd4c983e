/* The sensor's loop: power-on from the journal, then lines and milliseconds become events, and the frames go out as lines. */
#include "basintilt.h"
#include "board.h"
#include "slcan.h"

/* Constants of the build. */
#ifndef NODE
#define NODE 1
#endif
#ifndef JOURNAL_BYTES
#define JOURNAL_BYTES 65536
#endif
#ifndef IDENTITY
#define IDENTITY 0, 0, 0, 1
#endif
#define VERSION "V0101\r"

/* The journal's memory, which start-up leaves as it is. */
__attribute__((section(".journal"))) uint8_t journal[JOURNAL_BYTES];

static const struct basintilt_identity identity = {IDENTITY};
struct basintilt_device device;

/* The frames of power-on: they wait until the channel is opened, as a controller repeats its frame until another is on the bus. */
static struct basintilt_answer booted;

/* Whether the channel is open, whether frames are stamped, and the millisecond of the minute. */
static uint8_t open, stamped;
static uint16_t millisecond;

/* The refusal of an event after which the sensor stands still: 1 or 3. */
static uint16_t standing;

static void say(char character)
{
    uart_put(&character, 1);
}

/* A refusal, by number, in a line of its own. */
static void report(uint16_t refusal)
{
    const char line[] = {'!', (char)('0' + refusal), SLCAN_END};
    uart_put(line, sizeof line);
}

static void send_all(const struct basintilt_answer *answer)
{
    char line[SLCAN_MOST_WRITTEN];
    for (unsigned i = 0; open && i < answer->count; i++)
        uart_put(line, slcan_write(line, &answer->frames[i], stamped ? millisecond : SLCAN_MINUTE));
}

/* One event. A block that it filled is in the journal's memory when this returns, and nothing of the answer has gone out. */
static struct basintilt_answer take(struct basintilt_happening happening)
{
    struct basintilt_answer answer = basintilt_event(&device, journal, sizeof journal, happening);
    __asm volatile("dsb" ::: "memory");
    if (answer.refusal != BASINTILT_ACCEPTED && answer.refusal != BASINTILT_WRONG_FRAME) {
        standing = answer.refusal;
        report(standing);
    }
    return answer;
}

static void tick(uint16_t ms)
{
    struct basintilt_answer answer = take((struct basintilt_happening){.kind = BASINTILT_TICK, .ms = ms});
    send_all(&answer);
}

/* Power-on, its number in any case, and whether the record that it gave takes events. */
static void power_on(void)
{
    struct basintilt_stepped stepped = basintilt_power_on(NODE, identity, journal, sizeof journal);
    device = stepped.device;
    booted = stepped.answer;
    report(booted.refusal);
    tick(0);
}

/* A frame or a reading: refused, the bell; taken, the end of the line, behind z for a frame, and then what the sensor sends. */
static void give(const struct slcan_command *command)
{
    int frame = command->kind == SLCAN_FRAME;
    if (standing != BASINTILT_ACCEPTED || (frame && !open)) {
        say(SLCAN_BELL);
        return;
    }
    struct basintilt_answer answer = take(command->happening);
    if (answer.refusal != BASINTILT_ACCEPTED)
        say(SLCAN_BELL);
    else if (frame)
        uart_put("z\r", 2);
    else
        say(SLCAN_END);
    send_all(&answer);
}

/* O, S and Z are for a closed channel, C is for an open one. The bit rate has no meaning on this board. */
static void set(const struct slcan_command *command)
{
    if (open != (command->kind == SLCAN_CLOSE)) {
        say(SLCAN_BELL);
        return;
    }
    if (command->kind == SLCAN_STAMPS)
        stamped = command->digit;
    if (command->kind == SLCAN_OPEN || command->kind == SLCAN_CLOSE)
        open = !open;
    say(SLCAN_END);
    if (open) {
        send_all(&booted);
        booted.count = 0;
    }
}

/* The serial number: the low 16 bits of the identity's. */
static void say_serial(void)
{
    char line[] = {'N', '0', '0', '0', '0', SLCAN_END};
    slcan_hex(line + 1, 4, identity.serial);
    uart_put(line, sizeof line);
}

static void obey(const struct slcan_command *command)
{
    switch (command->kind) {
    case SLCAN_OPEN:
    case SLCAN_CLOSE:
    case SLCAN_BIT_RATE:
    case SLCAN_STAMPS:
        set(command);
        break;
    case SLCAN_FRAME:
    case SLCAN_READING:
        give(command);
        break;
    case SLCAN_VERSION:
        uart_put(VERSION, sizeof VERSION - 1);
        break;
    case SLCAN_SERIAL:
        say_serial();
        break;
    case SLCAN_EMPTY:
        say(SLCAN_END);
        break;
    default:
        say(SLCAN_BELL);
    }
}

/* Takes a character of the line, if one has come. */
static int listen(void)
{
    static struct slcan_line line;
    char character;
    if (!uart_take(&character))
        return 0;
    if (slcan_take(&line, character)) {
        struct slcan_command command = slcan_read(&line);
        obey(&command);
    }
    return 1;
}

/* Gives the sensor a millisecond, if one has passed. */
static int count(void)
{
    if (!clock_passed())
        return 0;
    millisecond = (uint16_t)((millisecond + 1) % SLCAN_MINUTE);
    if (standing == BASINTILT_ACCEPTED)
        tick(1);
    return 1;
}

int main(void)
{
    uart_begin();
    power_on();
    clock_begin();
    for (;;) {
        wake_seen();
        int busy = count();
        busy |= listen();
        uart_send();
        if (!busy)
            wake_wait();
    }
}
