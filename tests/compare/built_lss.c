/* Built cases of LSS and of the node number: every one of a kind, in order. */
#include "built_lss.h"

#include "happenings.h"
#include "lss.h"
#include "requests.h"
#include "steps.h"

static bool lss(uint32_t command, uint32_t value)
{
    return make_event(lss_request(command, value));
}

/* A fresh sensor in Stopped and in an LSS mode. */
static bool stopped_sensor(uint32_t mode)
{
    return fresh_sensor() && order(0x02) && lss(SWITCHES, mode);
}

/* The first matches of a selection; all four of them bring configuration. */
static bool match(uint32_t matches)
{
    bool same = true;
    for (uint32_t place = 0; place < matches && same; place++) {
        same = lss(SELECTS + place, identity_number(&pair.device.identity, place));
    }
    return same;
}

/* All that goes by the node number in force: objects, and every frame with the node in its identifier. */
static bool use_number(void)
{
    static const uint16_t objects_by_node[][2] = {{0x1014, 0}, {0x1200, 1}, {0x1200, 2}, {0x1201, 1}, {0x1201, 2}, {0x1800, 1}};
    bool same = order(0x01) && serve(0, 0x2B, 0x1017, 0, 25);
    for (unsigned i = 0; i < sizeof objects_by_node / sizeof objects_by_node[0] && same; i++) {
        same = serve(i % 2, READS, objects_by_node[i][0], objects_by_node[i][1], 0);
    }
    return same && serve(1, 0x23, 0x1800, 1, 0x40000180 + NODE) && serve(0, 0x23, 0x1800, 1, 0x40000180u + pair.device.node)
           && make_event(tick_of(UINT16_MAX)) && make_event(reading_of(BASINTILT_READING_X, BASINTILT_FARTHEST + 1))
           && make_event(reading_of(BASINTILT_READING_X, 0));
}

/* Every command in both modes and every state, with numbers that some command takes, and the node asked for behind it. */
static bool every_lss_command(void)
{
    static const uint8_t states[] = {0x02, 0x01, 0x80};
    bool same = true;
    for (uint32_t i = 0; i < 256 * 6 && same; i++) {
        uint32_t command = i / 6;
        same = stopped_sensor(i % 2) && order(states[i / 2 % 3]) && lss(command, 1) && lss(command, 0) && lss(command, 0x0302)
               && lss(command, UINT32_MAX) && lss(TELLS_NUMBER, 0);
    }
    return same;
}

/* Every length at LSS's own identifiers and beside them, as a frame and as a remote one, in configuration. */
static bool every_lss_head(void)
{
    bool same = stopped_sensor(BASINTILT_CONFIGURATION);
    for (uint32_t i = 0; i < 10 * 4 * 2 && same; i++) {
        struct basintilt_happening frame = lss_request(TELLS_NUMBER, 0);
        frame.identifier = BASINTILT_LSS_REPLY_AT - 1 + i / 10 % 4;
        frame.length = (uint8_t)(i % 10);
        frame.kind = i < 40 ? BASINTILT_FRAME : BASINTILT_REMOTE_FRAME;
        same = make_event(frame);
    }
    return same;
}

/* Every four matches one behind the other, each in or out of its order, with its own number or the identity's next: a wrong third among them. */
static bool every_selection(void)
{
    bool same = stopped_sensor(BASINTILT_WAITING);
    for (uint32_t i = 0; i < 8 * 8 * 8 * 8 && same; i++) {
        uint32_t rest = i;
        same = lss(SWITCHES, BASINTILT_WAITING);
        for (unsigned n = 0; n < IDENTITY_NUMBERS && same; n++) {
            same = lss(SELECTS + rest % 4, identity_number(&pair.device.identity, rest % 4) + rest / 4 % 2);
            rest /= 8;
        }
        same = same && lss(TELLS_NUMBER, 0);
    }
    return same;
}

/* Stopped left by every command, behind every number of matches and in configuration, with and without a number set; then LSS goes on. */
static bool every_leaving(void)
{
    static const uint8_t commands[] = {0x01, 0x80, 0x81, 0x82};
    bool same = true;
    for (uint32_t i = 0; i < 4 * 5 * 3 && same; i++) {
        same = stopped_sensor(BASINTILT_CONFIGURATION) && lss(STORES, 0) && (i < 20 || lss(SETS_NUMBER, i < 40 ? NODE : 5))
               && lss(SWITCHES, BASINTILT_WAITING) && match(i / 4 % 5) && order(commands[i % 4]) && lss(TELLS_NUMBER, 0) && order(0x02)
               && lss(SELECTS + 3, 4) && lss(TELLS_NUMBER, 0) && order(0x82);
    }
    return same;
}

/* Every number set, behind one that fits: not in force until a reset of either kind, and still in force behind the other one. */
static bool every_set_number(void)
{
    bool same = true;
    for (uint32_t i = 0; i < 2 * 256 && same; i++) {
        uint32_t reset = 0x81 + i % 2;
        same = stopped_sensor(BASINTILT_CONFIGURATION) && lss(SETS_NUMBER, 7) && lss(SETS_NUMBER, i / 2) && lss(TELLS_NUMBER, 0) && order(0x80)
               && use_number() && order(reset) && make_event(network_command(0x02, NODE)) && use_number() && order(0x81 + 0x82 - reset)
               && use_number() && power_on_over(4 * BLOCK);
    }
    return same;
}

/* Two stores into every shape of journal, with and without a number set and settings that were not saved; then a save, a load and power-on. */
static bool every_store(void)
{
    static const uint32_t blocks[] = {1, 2, 3, 8};
    bool same = true;
    for (uint32_t i = 0; i < 4 * 8 * JOURNAL_SHAPES && same; i++) {
        uint32_t length = BLOCK * blocks[i / 2 % 4];
        begin_history();
        same = make_shape((enum journal_shape)(i / 8 % JOURNAL_SHAPES), length, i) && power_on_over(length) && serve(0, 0x2B, 0x1017, 0, 500)
               && order(0x02) && lss(SWITCHES, BASINTILT_CONFIGURATION) && (i % 2 == 0 || lss(SETS_NUMBER, 5)) && lss(STORES, 0)
               && lss(STORES, UINT32_MAX) && order(0x80) && save() && load() && order(0x81) && order(0x82) && ask(0, BLOCK, 1)
               && power_on_over(length) && use_number();
    }
    return same;
}

/* Saves and loads carry the stored number on, or that there is none, while another one is in force and a third is set. */
static bool every_carrying(void)
{
    const uint32_t length = 16 * BLOCK;
    bool same = true;
    for (uint32_t stored = 0; stored <= BASINTILT_MOST_NODE && same; stored++) {
        begin_history();
        same = power_on_over(length) && order(0x02) && lss(SWITCHES, BASINTILT_CONFIGURATION)
               && (stored == 0 || (lss(SETS_NUMBER, stored) && lss(STORES, 0))) && lss(SETS_NUMBER, 9) && order(0x80) && save() && load()
               && order(0x81) && save() && load() && order(0x02) && lss(SWITCHES, BASINTILT_CONFIGURATION) && lss(SETS_NUMBER, 11) && order(0x80)
               && save() && load() && power_on_over(length) && save() && load() && power_on_as(0, length)
               && power_on_as(BASINTILT_MOST_NODE + 1, length) && power_on_as(1, length);
    }
    return same;
}

/* Every byte of a block with every number and the check made right again; behind the used ones a few numbers each. */
static bool every_rewritten_byte(void)
{
    bool same;
    begin_history();
    same = make_shape(FULL_JOURNAL, BLOCK, 1);
    for (uint32_t at = 0; at < BLOCK - 2 && same; at++) {
        uint8_t before = pair.journal[at];
        for (uint32_t number = 0; number < 256 && same; number += at < 30 ? 1 : 51) {
            same = rewrite_byte(1, at, number) && ask(0, BLOCK, 1) && power_on_as(1, BLOCK);
        }
        same = same && rewrite_byte(1, at, before);
    }
    return same;
}

/* The run's last block has each number behind one with a number, 0 among them: power-on, and what is carried on from there. */
static bool every_last_number(void)
{
    const uint32_t length = 4 * BLOCK;
    bool same = true;
    for (uint32_t last = 0; last < 256 && same; last++) {
        same = stopped_sensor(BASINTILT_CONFIGURATION) && lss(SETS_NUMBER, 5) && lss(STORES, 0) && lss(STORES, 0) && rewrite_byte(2, 28, last)
               && ask(BLOCK, BLOCK, 2) && power_on_over(length) && use_number() && save() && order(0x81) && power_on_as(1, length);
    }
    return same;
}

bool built_lss_cases(void)
{
    return every_lss_command() && every_lss_head() && every_selection() && every_leaving() && every_set_number() && every_store()
           && every_carrying() && every_rewritten_byte() && every_last_number();
}
