/* Runs the paper's sample input through the C interface; then the sensor gets a number by LSS and a zero, and is asked who set it. */
#include "basintilt.h"

int printf(const char *, ...);
void *memset(void *, int, size_t);
void *memcpy(void *, const void *, size_t);
int memcmp(const void *, const void *, size_t);

enum { NODE = 1, FIRST = BASINTILT_REQUEST_ONE_AT + NODE, SECOND = BASINTILT_REQUEST_TWO_AT + NODE, NEW_NODE = 0x29 };

static uint8_t journal[3 * BASINTILT_BLOCK_BYTES];
static struct basintilt_device device;
static int failures;

static void check(int holds, const char *what)
{
    if (!holds) {
        failures++;
        printf("FAILED: %s\n", what);
    }
}

static int all_zero(const void *from, const void *to)
{
    const uint8_t *at = from;
    while (at != to && *at == 0)
        at++;
    return at == to;
}

static void show(struct basintilt_answer answer)
{
    if (answer.refusal != BASINTILT_ACCEPTED)
        printf("R %d\n", answer.refusal);
    for (int i = 0; i < answer.count; i++) {
        const struct basintilt_frame *frame = &answer.frames[i];
        printf("%03X ", frame->identifier);
        for (int k = 0; k < frame->length; k++)
            printf("%02X", frame->bytes[k]);
        printf("\n");
        check(all_zero(frame->bytes + frame->length, frame + 1), "the bytes past a frame's length are 0");
    }
    check(all_zero(answer.frames + answer.count, &answer + 1), "the frames past the count are all zero");
}

static void happens(struct basintilt_happening happening)
{
    show(basintilt_event(&device, journal, sizeof journal, happening));
}

static void commands(uint8_t command)
{
    happens((struct basintilt_happening){.kind = BASINTILT_FRAME, .identifier = BASINTILT_NMT_AT, .length = 2, .bytes = {command, NODE}});
}

static void configures(uint8_t command, uint8_t number)
{
    happens((struct basintilt_happening){.kind = BASINTILT_FRAME, .identifier = BASINTILT_LSS_REQUEST_AT, .length = 8, .bytes = {command, number}});
}

static void asks(uint32_t identifier, uint8_t first, uint16_t index, uint8_t subindex, uint32_t value)
{
    uint8_t low[4] = {(uint8_t)value, (uint8_t)(value >> 8), (uint8_t)(value >> 16), value >> 24};
    happens((struct basintilt_happening){.kind = BASINTILT_FRAME, .identifier = identifier, .length = 8,
                                         .bytes = {first, (uint8_t)index, index >> 8, subindex, low[0], low[1], low[2], low[3]}});
}

static void starts(uint32_t node)
{
    struct basintilt_stepped stepped = basintilt_power_on(node, (struct basintilt_identity){1, 2, 3, 4}, journal, sizeof journal);
    device = stepped.device;
    show(stepped.answer);
}

/* A number is set and stored, in force behind the reset, and behind a power-on that gives the old one. */
static void gets_number(void)
{
    const uint8_t *stored = journal + BASINTILT_BLOCK_BYTES;
    commands(0x02);
    configures(0x04, BASINTILT_CONFIGURATION);
    configures(0x11, NEW_NODE);
    configures(0x17, 0);
    configures(0x5E, 0);
    check(device.node == NODE && device.lss.node == NEW_NODE && device.saves.node == NEW_NODE, "the number is set and stored, not in force");
    check(basintilt_block(stored, BASINTILT_BLOCK_BYTES, 2) == BASINTILT_GOOD && stored[28] == NEW_NODE, "the stored block is good and has the number");
    commands(0x82);
    starts(NODE);
    check(device.node == NEW_NODE && device.lss.node == 0 && device.saves.filled == 2, "power-on goes by the stored number");
}

/* Prints what is found of a setting, over so many bytes of the journal. */
static void finds(size_t length, uint16_t index, uint8_t subindex)
{
    struct basintilt_finding finding = basintilt_origin(journal, length, index, subindex);
    if (finding.refusal == BASINTILT_ACCEPTED) {
        printf("%04X:%u is %d, block %u, channel %u, kind %u\n", index, subindex, (int)finding.value, (unsigned)finding.block,
               (unsigned)finding.channel, (unsigned)finding.kind);
    } else {
        printf("R %u\n", (unsigned)finding.refusal);
        check(all_zero(&finding.value, &finding + 1), "all else of a refused finding is 0");
    }
}

/* A zero is set and saved under the new number; the blocks before it carry the factory's values. */
static void asks_who_set_it(void)
{
    uint8_t before[sizeof journal];
    happens((struct basintilt_happening){.kind = BASINTILT_READING_X, .m = 12345});
    asks(BASINTILT_REQUEST_ONE_AT + NEW_NODE, 0x2B, 0x6012, 0, 0);
    asks(BASINTILT_REQUEST_ONE_AT + NEW_NODE, 0x23, 0x1010, 1, BASINTILT_SAVE);
    memcpy(before, journal, sizeof journal);
    finds(sizeof journal, 0x6013, 0);
    finds(sizeof journal, 0x6012, 0);
    finds(sizeof journal, 0x1800, 1);
    finds(2 * BASINTILT_BLOCK_BYTES, 0x6013, 0);
    finds(sizeof journal - 1, 0x1000, 0);
    finds(sizeof journal, 0x1000, 0);
    check(memcmp(before, journal, sizeof journal) == 0, "the journal is only read");
}

static void is_refused(void)
{
    struct basintilt_device lent = device;
    happens((struct basintilt_happening){.kind = BASINTILT_TICK, .ms = 1});
    check(memcmp(&device, &lent, sizeof lent) == 0, "each byte of a refused record is as it was");
}

int main(void)
{
    memset(journal, 0xFF, sizeof journal);
    check(basintilt_block(journal, BASINTILT_BLOCK_BYTES, 1) == BASINTILT_BLANK, "a fresh block is blank");
    starts(NODE);
    commands(0x01);
    happens((struct basintilt_happening){.kind = BASINTILT_READING_X, .m = 12345});
    asks(FIRST, 0x40, 0x6010, 0, 0);
    asks(SECOND, 0x40, 0x6010, 0, 0);
    asks(SECOND, 0x23, 0x1010, 1, BASINTILT_SAVE);
    happens((struct basintilt_happening){.kind = BASINTILT_TICK, .ms = 100});
    asks(FIRST, 0x2F, 0x6000, 0, 3);
    check(basintilt_block(journal, BASINTILT_BLOCK_BYTES, 1) == BASINTILT_GOOD, "the saved block is good at its place");
    check(basintilt_block(journal, BASINTILT_BLOCK_BYTES, 2) == BASINTILT_NEITHER, "and at no other");
    check(basintilt_block(journal + BASINTILT_BLOCK_BYTES, BASINTILT_BLOCK_BYTES, 2) == BASINTILT_BLANK, "the next block is blank still");
    check(device.saves.filled == 1 && device.identity.serial == 4 && device.x.m == 12345, "the record is updated");
    happens((struct basintilt_happening){.kind = 99, .identifier = 0xFFFF, .length = 200});
    gets_number();
    asks_who_set_it();
    device.x.state += 0x100; /* the low byte alone would be in range */
    is_refused();
    device.x.state -= 0x100;
    device.lss.mode += 0x100;
    is_refused();
    device.lss.mode -= 0x100;
    device.node = BASINTILT_MOST_NODE + 1;
    is_refused();
    starts(BASINTILT_MOST_NODE + 1);
    check(all_zero(&device, &device + 1), "a refused power-on gives the all-zero record");
    printf("%d failures\n", failures);
    return failures != 0;
}
