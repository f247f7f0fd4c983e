/* Built cases: every one of a kind, in order. */
#include "built.h"

#include "built_angles.h"
#include "built_lss.h"
#include "built_origins.h"
#include "built_turns.h"
#include "happenings.h"
#include "requests.h"
#include "steps.h"

/* Of the longest rows (indices, values of two bytes, types) one in so many is made. */
static uint32_t stride = 1;

/* A fresh sensor with a SYNC counted and a full error list, so that more of its fields are not 0. */
static bool busy_sensor(void)
{
    bool same = fresh_sensor() && make_event(request(NODE, 0, 0x2F, 0x1800, 2, BASINTILT_MOST_SYNCHRONOUS)) && make_event(sync_frame());
    for (unsigned i = 0; i < BASINTILT_MOST_ERRORS && same; i++) {
        same = make_event(reading_of(BASINTILT_READING_X, BASINTILT_FARTHEST + 1)) && make_event(reading_of(BASINTILT_READING_X, 12345));
    }
    return same;
}

/* Every shape on every class of length: power-on, a save, a load, both resets, power-on again. */
static bool every_journal(void)
{
    static const uint32_t blocks[] = {1, 2, 3, 4, 16, 127, 128};
    bool same = true;
    for (unsigned i = 0; i < 4 * JOURNAL_SHAPES * 7 && same; i++) {
        uint32_t length = BLOCK * blocks[i % 7];
        begin_history();
        same = make_shape((enum journal_shape)(i / 7 % JOURNAL_SHAPES), length, i) && power_on_over(length) && save() && load()
               && make_event(network_command(0x81, 0)) && order(0x82) && power_on_over(length);
    }
    return same;
}

/* Every bit of a good block turned, and every length to which it was written. */
static bool every_bit_and_stop(void)
{
    bool same;
    begin_history();
    same = make_shape(FULL_JOURNAL, BLOCK, 1) && ask(0, BLOCK, 1) && power_on_over(BLOCK);
    for (uint32_t bit = 0; bit < 8 * BLOCK && same; bit++) {
        uint8_t byte = pair.journal[bit / 8];
        same = write_byte(bit / 8, byte ^ 1u << bit % 8) && ask(0, BLOCK, 1) && power_on_over(BLOCK) && write_byte(bit / 8, byte);
    }
    for (uint32_t at = BLOCK; at > 0 && same; at--) {
        same = write_byte(at - 1, 0xFF) && ask(0, BLOCK, 1) && power_on_over(BLOCK);
    }
    return same;
}

/* Blocks of every number, asked about at this number, at the next one and at its low byte. */
static bool every_number(void)
{
    bool same = true;
    for (uint32_t i = 0; i < 300 + 32 && same; i++) {
        uint32_t number = i < 300 ? i : 1u << (i - 300);
        begin_history();
        same = make_shape(NUMBERED, BLOCK, number) && ask(0, BLOCK, number) && ask(0, BLOCK, number + 1) && ask(0, BLOCK, number % 256)
               && power_on_over(BLOCK);
    }
    return same;
}

/* A good block at every place asked about, and at every length lent. */
static bool every_query(void)
{
    bool same;
    begin_history();
    same = make_shape(FULL_JOURNAL, MOST_JOURNAL, 1);
    for (uint32_t place = 0; place < 300 && same; place++) {
        same = ask(0, BLOCK, place) && ask(BLOCK * (place % BASINTILT_MOST_BLOCKS), BLOCK, place % BASINTILT_MOST_BLOCKS + 1);
    }
    for (uint32_t length = 0; length <= 2 * BLOCK && same; length++) {
        same = ask(0, length, 1);
    }
    return same;
}

/* Every number of blocks as the journal's length, and one byte less and more: at an event, at power-on and behind that. */
static bool every_length(void)
{
    bool same = true;
    for (uint32_t i = 2; i < 3 * LONGEST_SAID / BLOCK && same; i++) {
        uint32_t length = BLOCK * (i / 3) + i % 3 - 1;
        same = fresh_sensor() && make_call((struct call){.kind = EVENT, .length = length, .happening = tick_of(1)}) && power_on_over(length)
               && make_event(tick_of(1));
    }
    return same;
}

/* Every node at power-on, and the first ones that a byte would take for one of these. */
static bool every_node(void)
{
    bool same = true;
    begin_history();
    for (uint32_t node = 0; node < 600 && same; node++) {
        same = power_on_as(node, BLOCK) && make_event(network_command(0x01, node));
    }
    return same;
}

/* Every identifier and length, and identifiers beyond the last. */
static bool every_head(void)
{
    bool same = fresh_sensor();
    for (uint32_t i = 0; i < 10 * 0x900 && same; i++) {
        struct basintilt_happening frame = request(NODE, 0, READS, 0x1017, 0, 0);
        frame.identifier = i / 10;
        frame.length = (uint8_t)(i % 10);
        same = make_event(frame);
    }
    return same;
}

/* Every command of the network, to this node, to all and to another. */
static bool every_command(void)
{
    bool same = fresh_sensor();
    for (uint32_t i = 0; i < 3 * 256 && same; i++) {
        same = make_event(network_command(i / 3, i % 3 == 0 ? NODE : i % 3 == 1 ? 0 : NODE - 1)) && make_event(network_command(0x01, 0));
    }
    return same;
}

/* Every first byte to every object, on both channels, with and without a transfer. */
static bool every_first_byte(void)
{
    bool same = fresh_sensor();
    for (uint32_t i = 0; i < 256 * OBJECTS * 2 && same; i++) {
        const struct object *object = &objects[i / 2 % OBJECTS];
        uint8_t first = (uint8_t)(i / 2 / OBJECTS);
        same = make_event(request(NODE, i % 2, READS, 0x1008, 0, 0))
               && make_event(request(NODE, i % 2, first, object->index, object->subindex, 0))
               && make_event(request(NODE, i % 2, first, object->index, object->subindex, 0x01000001));
    }
    return same;
}

/* Every index of the stride, and every subindex of the indices that there are. */
static bool every_object(void)
{
    bool same = fresh_sensor();
    for (uint32_t index = 0; index < 0x10000 && same; index += stride) {
        same = make_event(request(NODE, index % 2, READS, index, 0, 0));
    }
    for (uint32_t i = 0; i < 256 * OBJECTS && same; i++) {
        same = make_event(request(NODE, i % 2, i % 3 == 0 ? WRITES_OWN_LENGTH : READS, objects[i / 256].index, i % 256, 0xFFFFFFFF));
    }
    return same;
}

/* Every number of its length to every object of one byte that can be written, and those of the stride to every object of two. */
static bool every_value(void)
{
    bool same = true;
    for (unsigned row = 0; row < OBJECTS && same; row++) {
        uint32_t end = objects[row].bytes == 1 ? 256 : 0x10000;
        uint32_t step = objects[row].bytes == 1 ? 1 : stride;
        if (!objects[row].writable || objects[row].bytes == 4) {
            continue;
        }
        same = fresh_sensor();
        for (uint32_t value = 0; value < end && same; value += step) {
            same = make_event(request(NODE, value % 2, WRITES_OWN_LENGTH, objects[row].index, objects[row].subindex, value));
        }
    }
    return same;
}

/* Ticks of one millisecond and SYNCs up to every type of the stride, each until the PDO went out twice. */
static bool every_type(void)
{
    bool same = fresh_sensor() && make_event(request(NODE, 0, 0x2B, 0x1017, 0, 25)) && make_event(request(NODE, 0, 0x2B, 0x1800, 5, 30));
    for (uint32_t type = 0; type < 256 && same; type += stride) {
        same = make_event(request(NODE, 0, 0x2F, 0x1800, 2, type));
        for (uint32_t i = 0; i < 2 * type + 1 && same; i++) {
            same = make_event(sync_frame()) && make_event(tick_of(i % 3));
        }
    }
    return same;
}

static bool write_number(uint32_t at, uint32_t number)
{
    return make_call((struct call){.kind = FIELD_WRITTEN, .written = {at, number}});
}

/* An event that does nothing, over a field that is changed and put back. */
static bool lend_changed(uint32_t at, uint32_t number)
{
    uint32_t before = (uint32_t)field_value(&pair.device, &fields[at]);
    return write_number(at, number) && make_event((struct basintilt_happening){.kind = UINT8_MAX}) && write_number(at, before);
}

/* Every bit of the record turned, and in every field every number of a byte with and without one bit more. */
static bool every_field(void)
{
    bool same = busy_sensor();
    for (uint32_t at = 0; at < FIELDS && same; at++) {
        uint32_t before = (uint32_t)field_value(&pair.device, &fields[at]);
        for (uint32_t bit = 0; bit < 8u * fields[at].size && same; bit++) {
            same = lend_changed(at, before ^ 1u << bit);
        }
        for (uint32_t number = 0; number < 0x200 && same; number++) {
            same = lend_changed(at, number);
        }
    }
    return same;
}

bool built_cases(uint32_t one_in_so_many)
{
    stride = one_in_so_many;
    return every_journal() && every_bit_and_stop() && every_number() && every_query() && every_length() && every_node()
           && every_head() && every_command() && every_first_byte() && every_object() && every_value() && every_type()
           && every_field() && built_lss_cases() && built_angle_cases(stride) && built_turn_cases() && built_origin_cases(stride);
}
