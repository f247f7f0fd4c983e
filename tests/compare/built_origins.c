/* Built cases of the origin query: every setting, every place of the block that brought it, every pair and every length. */
#include "built_origins.h"

#include "happenings.h"
#include "origins.h"
#include "requests.h"
#include "settings.h"
#include "steps.h"

#define COUNT(array) (sizeof(array) / sizeof(array)[0])
#define VALUES(array) {array, COUNT(array)}

/* Values that share a byte, are each other's bytes exchanged, or have the highest bit set. */
static const int32_t periods[] = {0, 25, 255, 256, 257, 0x1900, 32767, 32768, 65280, 65535};
static const int32_t marks[] = {0, 1};
static const int32_t types[] = {1, 2, 240, 254, 255};
static const int32_t timers[] = {0, 1, 100, 255, 256, 257, 32767, 32768, 65280, 65535};
static const int32_t operatings[] = {0, 1, 2, 3};
static const int32_t angles[] = {0, 1, 128, 255, 256, 257, 32767, -1, -129, -255, -256, -32767, -32768};

/* In the order of the settings. */
static const struct {
    const int32_t *values;
    uint32_t count;
} values_of[SETTING_PAIRS] = {
    VALUES(periods),
    VALUES(marks), VALUES(types), VALUES(timers),
    VALUES(resolutions),
    VALUES(operatings), VALUES(angles), VALUES(angles), VALUES(angles),
    VALUES(operatings), VALUES(angles), VALUES(angles), VALUES(angles),
};

/* Two sets of values that differ in every setting, as a client writes them over level axes: presets behind differentials, so that an offset is
 * another number than its preset. */
enum { WRITES = 11 };
static const struct {
    uint16_t index;
    uint8_t subindex;
    int32_t values[2];
} writes[WRITES] = {
    {0x1017, 0, {0x1234, 0x3412}},
    {0x1800, 1, {0, 1}}, {0x1800, 2, {1, 240}}, {0x1800, 5, {0x0201, 0x0102}},
    {0x6000, 0, {100, 1000}},
    {0x6011, 0, {1, 2}}, {0x6014, 0, {300, -5}}, {0x6012, 0, {1000, -2000}},
    {0x6021, 0, {3, 1}}, {0x6024, 0, {-256, 255}}, {0x6022, 0, {-300, 30000}},
};

static bool ask_every_setting(uint32_t length)
{
    bool same = true;
    for (unsigned i = 0; i < SETTING_PAIRS && same; i++) {
        same = ask_origin(length, setting_pairs[i].index, setting_pairs[i].subindex);
    }
    return same;
}

/* A sensor with level axes on a blank journal. */
static bool level_sensor(uint32_t length)
{
    begin_history();
    return power_on_over(length) && make_event(reading_of(BASINTILT_READING_X, 0)) && make_event(reading_of(BASINTILT_READING_Y, 0));
}

static bool write_value(uint32_t index, uint32_t subindex, int32_t value)
{
    uint32_t identifier = (value == 0 ? 0xC0000180u : 0x40000180u) + pair.device.node;
    bool is_mark = index == 0x1800 && subindex == 1;
    return serve(index % 2, WRITES_OWN_LENGTH, index, subindex, is_mark ? identifier : (uint32_t)value);
}

static bool write_set(unsigned set)
{
    bool same = true;
    for (unsigned i = 0; i < WRITES && same; i++) {
        same = write_value(writes[i].index, writes[i].subindex, writes[i].values[set]);
    }
    return same;
}

/* An offset and nothing else: the preset is written once more, over a reading from which this offset follows. */
static bool set_offset(unsigned axis, int32_t offset)
{
    struct basintilt_axis_settings now = axis == 0 ? pair.device.running.x : pair.device.running.y;
    unsigned reading = axis == 0 ? BASINTILT_READING_X : BASINTILT_READING_Y;
    int32_t resolution = pair.device.running.resolution;
    return write_value(0x6000, 0, 1) && make_event(reading_of(reading, now.preset - now.differential - offset))
           && write_value(0x6012 + 0x10 * axis, 0, now.preset) && write_value(0x6000, 0, resolution) && make_event(reading_of(reading, 0));
}

/* One running setting and no other, over level axes. */
static bool set_alone(unsigned setting, int32_t value)
{
    uint32_t index = setting_pairs[setting].index;
    unsigned axis = index >= 0x6020;
    int32_t offset = axis == 0 ? pair.device.running.x.offset : pair.device.running.y.offset;
    if (index == 0x6013 || index == 0x6023) {
        return set_offset(axis, value);
    }
    if (index == 0x6012 || index == 0x6022) {
        return write_value(index, 0, value) && set_offset(axis, offset);
    }
    return write_value(index, setting_pairs[setting].subindex, value);
}

/* Every setting goes from every one of its values to every other, or stays; all others stay. */
static bool every_change(void)
{
    bool same = true;
    for (unsigned setting = 0; setting < SETTING_PAIRS && same; setting++) {
        uint32_t count = values_of[setting].count;
        for (uint32_t i = 0; i < count * count && same; i++) {
            same = level_sensor(2 * BLOCK) && set_alone(setting, values_of[setting].values[i / count]) && save()
                   && set_alone(setting, values_of[setting].values[i % count]) && save() && ask_every_setting(2 * BLOCK);
        }
    }
    return same;
}

/* Either set saved, a load by either channel, a store by LSS. */
static bool fill_block(uint32_t which)
{
    switch (which) {
    case 0:
        return write_set(0) && save();
    case 1:
        return write_set(1) && serve(1, 0x23, 0x1010, 1, BASINTILT_SAVE);
    case 2:
        return serve(0, 0x23, 0x1011, 1, BASINTILT_LOAD);
    case 3:
        return load();
    default:
        return store();
    }
}

/* Every row of one to four fillings: values that come, stay, go and come again, factory values brought by a load, and stores that carry on. */
static bool every_filling(void)
{
    enum { FILLINGS = 5, MOST = 4 };
    uint32_t rows = 1;
    bool same = true;
    for (uint32_t filled = 1; filled <= MOST; filled++) {
        rows *= FILLINGS;
        for (uint32_t row = 0; row < rows && same; row++) {
            uint32_t rest = row;
            same = level_sensor(MOST * BLOCK);
            for (uint32_t i = 0; i < filled && same; i++) {
                same = fill_block(rest % FILLINGS);
                rest /= FILLINGS;
            }
            same = same && ask_every_setting(MOST * BLOCK);
        }
    }
    return same;
}

/* A journal filled from its first block to its last, in which every setting changes once, at each of these places in turn. */
static bool every_place(void)
{
    static const uint8_t places[SETTING_PAIRS] = {1, 2, 3, 16, 31, 32, 63, 64, 65, 100, 126, 127, 128};
    static const int32_t changed[SETTING_PAIRS] = {500, 0, 255, 0, 1000, 2, -1, 256, -32767, 2, 255, -256, 32767};
    bool same = true;
    for (unsigned turn = 0; turn < SETTING_PAIRS && same; turn++) {
        same = level_sensor(MOST_JOURNAL);
        for (uint32_t place = 1; place <= BASINTILT_MOST_BLOCKS && same; place++) {
            for (unsigned i = 0; i < SETTING_PAIRS && same; i++) {
                same = places[(i + turn) % SETTING_PAIRS] != place || set_alone(i, changed[i]);
            }
            same = same && save();
        }
        same = same && ask_every_setting(MOST_JOURNAL);
    }
    return same;
}

/* Blocks that hold the two sets by turns, and room behind them. */
static bool filled_by_turns(uint32_t filled, uint32_t length)
{
    bool same = level_sensor(length);
    for (uint32_t i = 0; i < filled && same; i++) {
        same = fill_block(i % 2);
    }
    return same;
}

/* Every block of a run broken, by its check alone and by a field with the check made right again: neither it nor what follows counts. */
static bool every_broken_block(void)
{
    static const uint16_t bytes[][2] = {{0, 9}, {4, 4}, {5, 0}, {8, 2}, {9, 0}, {12, 3}, {14, 4}, {15, 4}, {28, 48}, {29, 1}, {509, 1}};
    const uint32_t length = 5 * BLOCK;
    bool same = filled_by_turns(4, length);
    for (uint32_t i = 0; i < 4 * COUNT(bytes) && same; i++) {
        uint32_t place = i / COUNT(bytes) + 1;
        uint32_t at = bytes[i % COUNT(bytes)][0];
        uint32_t start = BLOCK * (place - 1);
        uint8_t before = pair.journal[start + at];
        same = write_byte(start + at, before ^ 1u) && ask_every_setting(length) && write_byte(start + at, before)
               && rewrite_byte(place, at, bytes[i % COUNT(bytes)][1]) && ask_every_setting(length) && rewrite_byte(place, at, before);
    }
    return same;
}

/* Every block of a run made blank byte by byte, from its end on: good ones stand behind it. */
static bool every_gap(void)
{
    bool same = true;
    for (uint32_t place = 1; place <= 4 && same; place++) {
        same = filled_by_turns(4, 5 * BLOCK);
        for (uint32_t at = BLOCK; at > 0 && same; at--) {
            same = write_byte(BLOCK * (place - 1) + at - 1, 0xFF) && (at % 64 != 1 || ask_every_setting(5 * BLOCK));
        }
    }
    return same;
}

/* Every channel and kind in the block that brought all values, between blocks of others. */
static bool every_bringer(void)
{
    const uint32_t length = 4 * BLOCK;
    bool same = filled_by_turns(2, length) && store();
    for (uint32_t i = 0; i < 3 * 3 && same; i++) {
        same = rewrite_byte(2, 4, i / 3 + 1) && rewrite_byte(2, 5, i % 3 + 1) && ask_every_setting(length);
    }
    return same;
}

/* Every shape of journal, and every setting asked at the length that was made, at one block less and at one more. */
static bool every_shape(void)
{
    static const uint32_t blocks[] = {1, 2, 3, 16, 128};
    bool same = true;
    for (uint32_t i = 0; i < 2 * JOURNAL_SHAPES * COUNT(blocks) && same; i++) {
        uint32_t length = BLOCK * blocks[i % COUNT(blocks)];
        begin_history();
        same = make_shape((enum journal_shape)(i / COUNT(blocks) % JOURNAL_SHAPES), length, i) && ask_every_setting(length);
        if (length < 16 * BLOCK) {
            same = same && ask_every_setting(length - BLOCK) && ask_every_setting(length + BLOCK);
        }
    }
    return same;
}

/* One block in which every value is another than the factory's. */
static bool one_block(void)
{
    return level_sensor(BLOCK) && fill_block(0);
}

/* Every index of the stride with the subindices that settings have and some beside, and every subindex of the indices that have settings. */
static bool every_pair(uint32_t stride)
{
    static const uint8_t subindices[] = {0, 1, 2, 5, 3, 255};
    bool same = true;
    for (unsigned i = 0; i < COUNT(subindices) && same; i++) {
        same = one_block();
        for (uint32_t index = 0; index < 0x10000 && same; index += stride) {
            same = ask_origin(BLOCK, index, subindices[i]);
        }
    }
    same = same && one_block();
    for (uint32_t i = 0; i < 256 * SETTING_PAIRS && same; i++) {
        same = ask_origin(BLOCK, setting_pairs[i / 256].index, i % 256);
    }
    return same;
}

/* Every number of blocks as the journal's length, none among them, and one byte less and more, for a setting and for a pair that is none. */
static bool every_said_length(void)
{
    bool same = one_block();
    for (uint32_t i = 1; i < 3 * LONGEST_SAID / BLOCK && same; i++) {
        uint32_t length = BLOCK * (i / 3) + i % 3 - 1;
        const struct setting_pair *setting = &setting_pairs[i % SETTING_PAIRS];
        same = ask_origin(length, setting->index, setting->subindex) && ask_origin(length, 0x1000, 0);
    }
    return same;
}

bool built_origin_cases(uint32_t one_in_so_many)
{
    return every_change() && every_filling() && every_place() && every_broken_block() && every_gap() && every_bringer() && every_shape()
           && every_pair(one_in_so_many) && every_said_length();
}
