/* Makes the library say each constant of include/basintilt.h, or act on it, and compares the two. */
#include "basintilt.h"

#include <stdio.h>
#include <string.h>

enum { NODE = 5, BLOCKS = 2, READ = 0x40, FIRST_SEGMENT = 0x60, SECOND_SEGMENT = 0x70, WRITTEN = 0x60, ABORTED = 0x80 };
enum { SWITCHES = 0x04, SETS_NUMBER = 0x11, STORES = 0x17, SELECTS = 0x40, TELLS_NUMBER = 0x5E };

static const uint32_t request_at[BASINTILT_CHANNELS] = {BASINTILT_REQUEST_ONE_AT, BASINTILT_REQUEST_TWO_AT};
static const uint16_t reply_at[BASINTILT_CHANNELS] = {BASINTILT_REPLY_ONE_AT, BASINTILT_REPLY_TWO_AT};
static uint8_t journal[(BASINTILT_MOST_BLOCKS + 1) * BASINTILT_BLOCK_BYTES];
static size_t journal_length;
static struct basintilt_device device;
static struct basintilt_answer answer;
static int checks, failures;

/* What the library says beside what stands in the header. */
#define IS(said, expected) is((long long)(said), (long long)(expected), __LINE__, #said " is " #expected)

static void is(long long said, long long expected, int line, const char *what)
{
    checks++;
    if (said == expected)
        return;
    failures++;
    printf("FAILED: line %d, %s: %lld, and by the header %lld\n", line, what, said, expected);
}

static void power_on(uint32_t node, size_t length)
{
    struct basintilt_stepped stepped = basintilt_power_on(node, (struct basintilt_identity){0}, journal, length);
    journal_length = length;
    device = stepped.device;
    answer = stepped.answer;
}

static void start_blank(void)
{
    memset(journal, 0xFF, sizeof journal);
    power_on(NODE, BLOCKS * BASINTILT_BLOCK_BYTES);
}

static void start_spoiled(void)
{
    memset(journal, 0xFF, sizeof journal);
    journal[0] = 0;
    power_on(NODE, BLOCKS * BASINTILT_BLOCK_BYTES);
}

static void event(struct basintilt_happening happening)
{
    answer = basintilt_event(&device, journal, journal_length, happening);
}

static void network(uint8_t kind, uint8_t command)
{
    event((struct basintilt_happening){.kind = kind, .identifier = BASINTILT_NMT_AT, .length = 2, .bytes = {command, NODE}});
}

static void tick(uint16_t ms)
{
    event((struct basintilt_happening){.kind = BASINTILT_TICK, .ms = ms});
}

static void reading(uint8_t kind, int32_t m)
{
    event((struct basintilt_happening){.kind = kind, .m = m});
}

static uint32_t low_first(const uint8_t *at, int bytes)
{
    return bytes == 0 ? 0 : at[0] + ((uint32_t)low_first(at + 1, bytes - 1) << 8);
}

/* One request; its reply is the only frame, at the channel's identifier. The first byte of the reply comes back. */
static uint8_t request(int channel, uint8_t first, uint16_t index, uint8_t subindex, uint32_t value)
{
    struct basintilt_happening asked = {.kind = BASINTILT_FRAME, .identifier = request_at[channel] + NODE, .length = 8};
    uint8_t bytes[8] = {first, (uint8_t)index, index >> 8, subindex, (uint8_t)value, (uint8_t)(value >> 8), (uint8_t)(value >> 16), value >> 24};
    memcpy(asked.bytes, bytes, sizeof bytes);
    event(asked);
    IS(answer.count, 1);
    IS(answer.frames[0].identifier, reply_at[channel] + NODE);
    return answer.frames[0].bytes[0];
}

/* The code of the abort that a request gets. */
static uint32_t abort_of(int channel, uint8_t first, uint16_t index, uint8_t subindex, uint32_t value)
{
    IS(request(channel, first, index, subindex, value), ABORTED);
    return low_first(answer.frames[0].bytes + 4, 4);
}

/* A write with the object's own length: accepted at the end of its range and read back whole, refused beyond it. */
static void ends_at(uint16_t index, uint8_t subindex, uint32_t end, uint32_t beyond)
{
    for (int channel = 0; channel < BASINTILT_CHANNELS; channel++) {
        IS(request(channel, 0x22, index, subindex, end), WRITTEN);
        request(channel, READ, index, subindex, 0);
        IS(low_first(answer.frames[0].bytes + 4, 4), end);
        IS(abort_of(channel, 0x22, index, subindex, beyond), BASINTILT_ABORT_VALUE);
    }
}

static void refusals_of_power_on(void)
{
    start_blank();
    IS(answer.refusal, BASINTILT_ACCEPTED);
    power_on(BASINTILT_MOST_NODE, BASINTILT_BLOCK_BYTES);
    IS(answer.refusal, BASINTILT_ACCEPTED);
    IS(device.node, BASINTILT_MOST_NODE);
    power_on(BASINTILT_MOST_NODE + 1, BASINTILT_BLOCK_BYTES);
    IS(answer.refusal, BASINTILT_WRONG_NODE);
    power_on(NODE, BASINTILT_BLOCK_BYTES - 1);
    IS(answer.refusal, BASINTILT_WRONG_LENGTH);
    power_on(NODE, BASINTILT_MOST_BLOCKS * BASINTILT_BLOCK_BYTES);
    IS(answer.refusal, BASINTILT_ACCEPTED);
    IS(device.saves.blocks, BASINTILT_MOST_BLOCKS);
    power_on(NODE, (BASINTILT_MOST_BLOCKS + 1) * BASINTILT_BLOCK_BYTES);
    IS(answer.refusal, BASINTILT_WRONG_LENGTH);
}

static void refusals_of_events(void)
{
    start_blank();
    tick(0);
    IS(answer.refusal, BASINTILT_ACCEPTED);
    journal_length -= BASINTILT_BLOCK_BYTES;
    tick(0);
    IS(answer.refusal, BASINTILT_WRONG_LENGTH);
    journal_length += BASINTILT_BLOCK_BYTES;
    event((struct basintilt_happening){.kind = BASINTILT_FRAME, .identifier = 0x800});
    IS(answer.refusal, BASINTILT_WRONG_FRAME);
    event((struct basintilt_happening){.kind = BASINTILT_REMOTE_FRAME, .length = 9});
    IS(answer.refusal, BASINTILT_WRONG_FRAME);
    memset(&device, 0, sizeof device);
    tick(0);
    IS(answer.refusal, BASINTILT_OUT_OF_RANGE);
}

static void states_of_the_network(void)
{
    static const uint8_t commands[] = {0x01, 0x02, 0x80};
    static const int states[] = {BASINTILT_OPERATIONAL, BASINTILT_STOPPED, BASINTILT_PRE_OPERATIONAL};
    start_blank();
    IS(answer.frames[0].identifier, BASINTILT_HEARTBEAT_AT + NODE);
    IS(device.network, BASINTILT_PRE_OPERATIONAL);
    IS(request(0, 0x22, 0x1017, 0, BASINTILT_LEAST_PERIOD), WRITTEN);
    for (int i = 0; i < 3; i++) {
        network(BASINTILT_FRAME, commands[i]);
        IS(device.network, states[i]);
        tick(BASINTILT_LEAST_PERIOD);
        IS(answer.frames[0].identifier, BASINTILT_HEARTBEAT_AT + NODE);
        IS(answer.frames[0].bytes[0], states[i]);
    }
    network(BASINTILT_REMOTE_FRAME, 0x01);
    IS(device.network, BASINTILT_PRE_OPERATIONAL);
}

static void shown_angles(void)
{
    start_blank();
    network(BASINTILT_FRAME, 0x01);
    tick(100);
    IS(answer.count, 1);
    IS(answer.frames[0].identifier, BASINTILT_PDO_AT + NODE);
    IS((int16_t)low_first(answer.frames[0].bytes, 2), BASINTILT_NO_ANGLE);
    IS((int16_t)low_first(answer.frames[0].bytes + 2, 2), BASINTILT_NO_ANGLE);
    IS(request(0, 0x22, 0x1800, 2, 1), WRITTEN);
    event((struct basintilt_happening){.kind = BASINTILT_FRAME, .identifier = BASINTILT_SYNC_AT});
    IS(answer.count, 1);
    IS(answer.frames[0].identifier, BASINTILT_PDO_AT + NODE);
}

static void most_frames(void)
{
    start_blank();
    network(BASINTILT_FRAME, 0x01);
    IS(request(0, 0x22, 0x1017, 0, 100), WRITTEN);
    tick(100);
    IS(answer.count, BASINTILT_MOST_FRAMES);
}

/* One axis at the ends of the good readings and beyond them; the other stays as it was. */
static void axis(uint8_t kind, const struct basintilt_reading *own, const struct basintilt_reading *other, uint16_t code)
{
    start_blank();
    IS(own->state, BASINTILT_NONE);
    for (int sign = -1; sign <= 1; sign += 2) {
        reading(kind, sign * BASINTILT_FARTHEST);
        IS(own->state, BASINTILT_GOOD_AXIS);
        IS(own->m, sign * BASINTILT_FARTHEST);
        reading(kind, sign * (BASINTILT_FARTHEST + 1));
        IS(own->state, BASINTILT_FAULTY);
        IS(answer.frames[0].identifier, BASINTILT_EMERGENCY_AT + NODE);
        IS(low_first(answer.frames[0].bytes, 2), code);
        IS(device.errors.codes[0], code);
    }
    IS(other->state, BASINTILT_NONE);
}

static void error_list(void)
{
    start_spoiled();
    IS(answer.count, BASINTILT_MOST_FRAMES);
    IS(answer.frames[1].identifier, BASINTILT_EMERGENCY_AT + NODE);
    IS(low_first(answer.frames[1].bytes, 2), BASINTILT_JOURNAL_SPOILED);
    IS(device.errors.codes[0], BASINTILT_JOURNAL_SPOILED);
    for (int i = 1; i < BASINTILT_MOST_ERRORS + 2; i++) {
        IS(device.errors.length, i < BASINTILT_MOST_ERRORS ? i : BASINTILT_MOST_ERRORS);
        reading(BASINTILT_READING_X, BASINTILT_FARTHEST + 1);
        reading(BASINTILT_READING_X, 0);
    }
}

static void transfer(int channel)
{
    const uint8_t *stage = &device.transfers[channel].stage;
    start_blank();
    IS(*stage, BASINTILT_ABSENT);
    request(channel, READ, 0x1008, 0, 0);
    IS(*stage, BASINTILT_AT_START);
    request(channel, FIRST_SEGMENT, 0, 0, 0);
    IS(*stage, BASINTILT_AFTER_SEVEN);
    IS(abort_of(channel, FIRST_SEGMENT, 0, 0, 0), BASINTILT_ABORT_TOGGLE);
    IS(*stage, BASINTILT_ABSENT);
    IS(abort_of(channel, SECOND_SEGMENT, 0, 0, 0), BASINTILT_ABORT_COMMAND);
}

static void aborts(int channel)
{
    start_blank();
    IS(abort_of(channel, 0x00, 0x1000, 0, 0), BASINTILT_ABORT_COMMAND);
    IS(abort_of(channel, READ, 0x1006, 0, 0), BASINTILT_ABORT_OBJECT);
    IS(abort_of(channel, READ, 0x1000, 1, 0), BASINTILT_ABORT_SUBINDEX);
    IS(abort_of(channel, 0x23, 0x1000, 0, 0), BASINTILT_ABORT_READ_ONLY);
    IS(abort_of(channel, 0x23, 0x1017, 0, 0), BASINTILT_ABORT_TOO_LONG);
    IS(abort_of(channel, 0x2F, 0x1017, 0, 0), BASINTILT_ABORT_TOO_SHORT);
    IS(abort_of(channel, 0x2B, 0x6000, 0, 3), BASINTILT_ABORT_VALUE);
    IS(abort_of(channel, 0x23, 0x1010, 1, BASINTILT_LOAD), BASINTILT_ABORT_SIGNATURE);
    IS(abort_of(channel, 0x23, 0x1011, 1, BASINTILT_SAVE), BASINTILT_ABORT_SIGNATURE);
    IS(abort_of(channel, READ, 0x6010, 0, 0), BASINTILT_ABORT_AXIS);
    IS(abort_of(channel, READ, 0x1003, 1, 0), BASINTILT_ABORT_ENTRY);
    start_spoiled();
    IS(abort_of(channel, 0x23, 0x1010, 1, BASINTILT_SAVE), BASINTILT_ABORT_SPOILED);
}

/* A save and a load fill the two blocks; a third finds the journal full. */
static void saves(int channel)
{
    start_blank();
    IS(basintilt_block(journal, BASINTILT_BLOCK_BYTES, 1), BASINTILT_BLANK);
    IS(request(channel, 0x23, 0x1010, 1, BASINTILT_SAVE), WRITTEN);
    IS(request(channel, 0x23, 0x1011, 1, BASINTILT_LOAD), WRITTEN);
    IS(device.saves.filled, BLOCKS);
    for (uint32_t place = 1; place <= BLOCKS; place++) {
        const uint8_t *block = journal + (place - 1) * BASINTILT_BLOCK_BYTES;
        IS(basintilt_block(block, BASINTILT_BLOCK_BYTES, place), BASINTILT_GOOD);
        IS(basintilt_block(block, BASINTILT_BLOCK_BYTES, place + 1), BASINTILT_NEITHER);
        IS(basintilt_block(block, BASINTILT_BLOCK_BYTES - 1, place), BASINTILT_NEITHER);
    }
    IS(abort_of(channel, 0x23, 0x1010, 1, BASINTILT_SAVE), BASINTILT_ABORT_FULL);
}

/* One LSS request, and how many frames it brings. */
static int lss(uint8_t command, uint8_t number)
{
    event((struct basintilt_happening){.kind = BASINTILT_FRAME, .identifier = BASINTILT_LSS_REQUEST_AT, .length = 8, .bytes = {command, number}});
    return answer.count;
}

/* A reply of LSS with a number behind its command. */
static void lss_tells(uint8_t command, uint8_t given, uint8_t told)
{
    IS(lss(command, given), 1);
    IS(answer.frames[0].identifier, BASINTILT_LSS_REPLY_AT);
    IS(answer.frames[0].bytes[0], command);
    IS(answer.frames[0].bytes[1], told);
}

/* The identity is all zero, so that each of the first three matches only counts, and the fourth brings configuration. */
static void selection(void)
{
    start_blank();
    network(BASINTILT_FRAME, 0x02);
    IS(device.lss.mode, BASINTILT_WAITING);
    for (int place = 0; place < BASINTILT_MOST_MATCHES; place++) {
        IS(device.lss.matches, place);
        IS(lss(SELECTS + place, 0), 0);
    }
    IS(device.lss.matches, BASINTILT_MOST_MATCHES);
    device.lss.matches++;
    tick(0);
    IS(answer.refusal, BASINTILT_OUT_OF_RANGE);
    device.lss.matches--;
    IS(lss(SELECTS + BASINTILT_MOST_MATCHES, 0), 1);
    IS(answer.frames[0].identifier, BASINTILT_LSS_REPLY_AT);
    IS(device.lss.mode, BASINTILT_CONFIGURATION);
    IS(lss(SWITCHES, BASINTILT_WAITING), 0);
    IS(device.lss.mode, BASINTILT_WAITING);
}

/* A number is set, stored and in force behind a reset; in configuration, which the switch brings. */
static void node_number(void)
{
    start_blank();
    network(BASINTILT_FRAME, 0x02);
    IS(lss(SWITCHES, BASINTILT_CONFIGURATION), 0);
    IS(device.lss.mode, BASINTILT_CONFIGURATION);
    lss_tells(SETS_NUMBER, BASINTILT_MOST_NODE + 1, 1);
    lss_tells(SETS_NUMBER, BASINTILT_MOST_NODE, 0);
    lss_tells(TELLS_NUMBER, 0, NODE);
    lss_tells(STORES, 0, 0);
    IS(device.lss.node, BASINTILT_MOST_NODE);
    IS(device.saves.node, BASINTILT_MOST_NODE);
    IS(device.node, NODE);
    network(BASINTILT_FRAME, 0x82);
    IS(answer.frames[0].identifier, BASINTILT_HEARTBEAT_AT + BASINTILT_MOST_NODE);
    IS(device.lss.mode, BASINTILT_WAITING);
    power_on(NODE, BLOCKS * BASINTILT_BLOCK_BYTES);
    IS(device.node, BASINTILT_MOST_NODE);
}

/* Who set the resolution; the block's number is the last filled one's. */
static void brought_by(uint32_t value, uint32_t channel, uint32_t kind)
{
    struct basintilt_finding finding = basintilt_origin(journal, journal_length, 0x6000, 0);
    IS(finding.refusal, BASINTILT_ACCEPTED);
    IS(finding.value, value);
    IS(finding.block, device.saves.filled);
    IS(finding.channel, channel);
    IS(finding.kind, kind);
}

/* A save and a load by a channel, each of which brings another value. */
static void origins(int channel)
{
    start_blank();
    brought_by(10, 0, 0);
    IS(request(channel, 0x22, 0x6000, 0, 1000), WRITTEN);
    IS(request(channel, 0x23, 0x1010, 1, BASINTILT_SAVE), WRITTEN);
    brought_by(1000, channel + 1, BASINTILT_BLOCK_SAVE);
    IS(request(channel, 0x23, 0x1011, 1, BASINTILT_LOAD), WRITTEN);
    brought_by(10, channel + 1, BASINTILT_BLOCK_LOAD);
}

/* A store brings all that it has where it is the first block. */
static void origin_of_store(void)
{
    start_blank();
    network(BASINTILT_FRAME, 0x02);
    IS(lss(SWITCHES, BASINTILT_CONFIGURATION), 0);
    lss_tells(STORES, 0, 0);
    brought_by(10, BASINTILT_BLOCK_LSS_CHANNEL, BASINTILT_BLOCK_STORE);
}

static void refusals_of_origins(void)
{
    const size_t most = BASINTILT_MOST_BLOCKS * BASINTILT_BLOCK_BYTES;
    start_blank();
    IS(basintilt_origin(journal, journal_length, 0x1000, 0).refusal, BASINTILT_NO_SETTING);
    IS(basintilt_origin(journal, journal_length, 0x6000, 1).refusal, BASINTILT_NO_SETTING);
    IS(basintilt_origin(journal, BASINTILT_BLOCK_BYTES - 1, 0x1000, 0).refusal, BASINTILT_WRONG_LENGTH);
    IS(basintilt_origin(journal, most, 0x6000, 0).refusal, BASINTILT_ACCEPTED);
    IS(basintilt_origin(journal, most + BASINTILT_BLOCK_BYTES, 0x6000, 0).refusal, BASINTILT_WRONG_LENGTH);
}

int main(void)
{
    refusals_of_power_on();
    refusals_of_events();
    states_of_the_network();
    shown_angles();
    most_frames();
    axis(BASINTILT_READING_X, &device.x, &device.y, BASINTILT_X_FAULTY);
    axis(BASINTILT_READING_Y, &device.y, &device.x, BASINTILT_Y_FAULTY);
    error_list();
    for (int channel = 0; channel < BASINTILT_CHANNELS; channel++) {
        transfer(channel);
        aborts(channel);
        saves(channel);
        origins(channel);
    }
    selection();
    node_number();
    origin_of_store();
    refusals_of_origins();
    start_blank();
    ends_at(0x1017, 0, BASINTILT_LEAST_PERIOD, BASINTILT_LEAST_PERIOD - 1);
    ends_at(0x1800, 2, BASINTILT_MOST_SYNCHRONOUS, BASINTILT_MOST_SYNCHRONOUS + 1);
    ends_at(0x1800, 2, BASINTILT_LEAST_TIMED, BASINTILT_LEAST_TIMED - 1);
    ends_at(0x6011, 0, BASINTILT_MOST_OPERATING, BASINTILT_MOST_OPERATING + 1);
    printf("%d things said or done by the library, %d not as in the header\n", checks, failures);
    return failures != 0;
}
