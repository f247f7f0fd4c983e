/* Calls that built cases are made of. */
#include "steps.h"

#include "happenings.h"
#include "lss.h"
#include "requests.h"

#include <string.h>

bool power_on_as(uint32_t node, uint32_t length)
{
    return make_call((struct call){.kind = POWER_ON, .length = length, .power_on = {node, {1, 2, 3, 4}}});
}

bool power_on_over(uint32_t length)
{
    return power_on_as(NODE, length);
}

bool make_shape(enum journal_shape shape, uint32_t length, uint64_t seed)
{
    return make_call((struct call){.kind = JOURNAL_MADE, .length = length, .made = {shape, seed}});
}

bool ask(uint32_t at, uint32_t length, uint32_t place)
{
    return make_call((struct call){.kind = BLOCK_QUERY, .length = length, .query = {at, place}});
}

bool ask_origin(uint32_t length, uint32_t index, uint32_t subindex)
{
    return make_call((struct call){.kind = ORIGIN_QUERY, .length = length, .asked = {(uint16_t)index, (uint8_t)subindex}});
}

bool write_byte(uint32_t at, uint32_t number)
{
    return make_call((struct call){.kind = BYTE_WRITTEN, .written = {at, number}});
}

bool rewrite_byte(uint32_t place, uint32_t at, uint32_t number)
{
    uint8_t block[BLOCK];
    uint32_t start = BLOCK * (place - 1);
    memcpy(block, pair.journal + start, BLOCK);
    block[at] = (uint8_t)number;
    seal_block(block);
    return write_byte(start + at, number) && write_byte(start + BLOCK - 2, block[BLOCK - 2]) && write_byte(start + BLOCK - 1, block[BLOCK - 1]);
}

bool fresh_sensor(void)
{
    begin_history();
    return power_on_over(4 * BLOCK) && order(0x01) && make_event(reading_of(BASINTILT_READING_X, 12345))
           && make_event(reading_of(BASINTILT_READING_Y, -54321));
}

bool order(uint32_t command)
{
    return make_event(network_command(command, pair.device.node));
}

bool serve(unsigned channel, uint8_t first, uint32_t index, uint32_t subindex, uint32_t value)
{
    return make_event(request(pair.device.node, channel, first, index, subindex, value));
}

bool save(void)
{
    return serve(0, 0x23, 0x1010, 1, BASINTILT_SAVE);
}

bool load(void)
{
    return serve(1, 0x23, 0x1011, 1, BASINTILT_LOAD);
}

bool store(void)
{
    return order(0x02) && make_event(lss_request(SWITCHES, BASINTILT_CONFIGURATION)) && make_event(lss_request(STORES, 0)) && order(0x80);
}
