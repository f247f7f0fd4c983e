/* Counts what was reached of the origin query: which block brought a value, in which journal, and what was refused. */
#include "counts.h"

enum { BLOCK = BASINTILT_BLOCK_BYTES };

/* A setting that was found, in the run of the journal that was asked. */
struct found {
    unsigned setting;
    const uint8_t *journal;
    uint32_t blocks;
    struct basintilt_saves saves; /* what a power-on counts */
    struct basintilt_finding finding;
};

static const uint8_t *block_at(const struct found *found, uint32_t place)
{
    return found->journal + (size_t)BLOCK * (place - 1);
}

static int32_t value_at(const struct found *found, uint32_t place)
{
    return value_held(block_at(found, place), found->setting);
}

static unsigned place_of_bringer(const struct found *found)
{
    uint32_t block = found->finding.block;
    if (found->saves.filled <= 1) {
        return found->saves.filled == 0 ? NO_BLOCK : ONLY_BLOCK;
    }
    return block == 1 ? FIRST_BLOCK : block == found->saves.filled ? LAST_BLOCK : MIDDLE_BLOCK;
}

static bool came_again(const struct found *found)
{
    for (uint32_t place = 1; place < found->finding.block; place++) {
        if (value_at(found, place) == found->finding.value) {
            return true;
        }
    }
    return false;
}

static bool never_the_same(const struct found *found)
{
    for (uint32_t place = 1; place < found->saves.filled; place++) {
        if (value_at(found, place) == value_at(found, place + 1)) {
            return false;
        }
    }
    return found->saves.filled > 2;
}

static void count_bringing(const struct found *found)
{
    const struct basintilt_finding *finding = &found->finding;
    uint64_t *kinds = counts.bringings + found->setting * BRINGINGS;
    kinds[place_of_bringer(found)]++;
    if (finding->block != 0) {
        bool as_factory = finding->value == setting_pairs[found->setting].factory;
        unsigned bringer = BLOCK_KINDS * (finding->channel - 1) + finding->kind - 1;
        kinds[CAME_AGAIN] += came_again(found);
        kinds[NEVER_THE_SAME] += never_the_same(found);
        kinds[FACTORY_BY_BLOCK] += as_factory && finding->kind != BASINTILT_BLOCK_LOAD;
        kinds[FACTORY_BY_LOAD] += as_factory && finding->kind == BASINTILT_BLOCK_LOAD;
        counts.bringers[found->setting * BLOCK_CHANNELS * BLOCK_KINDS + bringer % (BLOCK_CHANNELS * BLOCK_KINDS)]++;
    }
}

/* A good block behind the run that would tell another value. */
static bool other_behind(const struct found *found)
{
    for (uint32_t place = found->saves.filled + 2u; place <= found->blocks; place++) {
        bool good = basintilt_block(block_at(found, place), BLOCK, place) == BASINTILT_GOOD;
        if (good && value_at(found, place) != found->finding.value) {
            return true;
        }
    }
    return false;
}

static void count_journal(const struct found *found)
{
    const struct basintilt_saves *saves = &found->saves;
    uint64_t *kinds = counts.journals_asked + found->setting * ASKED_JOURNALS;
    if (saves->spoiled) {
        uint32_t next = saves->filled + 1u;
        bool blank = basintilt_block(block_at(found, next), BLOCK, next) == BASINTILT_BLANK;
        kinds[saves->filled == 0 ? ASKED_SPOILED_AT_ONCE : ASKED_SPOILED]++;
        kinds[OTHER_VALUE_NEXT] += !blank && value_at(found, next) != found->finding.value;
        kinds[OTHER_VALUE_BEHIND] += other_behind(found);
    } else if (saves->filled == found->blocks) {
        kinds[found->blocks == BASINTILT_MOST_BLOCKS ? ASKED_FULL_OF_MOST : ASKED_FULL]++;
    } else {
        kinds[saves->filled == 0 ? ASKED_BLANK : ASKED_WITH_ROOM]++;
    }
}

/* The two bytes of the value, and of the value that the block before the bringer held. */
static void count_value(const struct found *found)
{
    uint64_t *kinds = counts.values_found + found->setting * VALUE_KINDS;
    uint32_t value = (uint16_t)found->finding.value;
    kinds[HIGHEST_BIT] += value >= 0x8000;
    kinds[LOW_BYTE_ALONE] += value > 0 && value <= 0xFF;
    kinds[HIGH_BYTE_ALONE] += value > 0xFF && value % 0x100 == 0;
    if (found->finding.block > 1) {
        uint32_t before = (uint16_t)value_at(found, found->finding.block - 1);
        kinds[CHANGED_LOW_BYTE] += before >> 8 == value >> 8;
        kinds[CHANGED_HIGH_BYTE] += before % 0x100 == value % 0x100;
        kinds[EXCHANGED_BYTES] += before == (value >> 8 | value % 0x100 << 8);
    }
}

static void count_found(const struct pair *pair, uint32_t length, unsigned setting)
{
    struct basintilt_stepped stepped = basintilt_power_on(1, (struct basintilt_identity){0, 0, 0, 0}, pair->journal, length);
    const struct found found = {setting, pair->journal, length / BLOCK, stepped.device.saves, pair->finding};
    count_bringing(&found);
    count_journal(&found);
    count_value(&found);
}

static unsigned wrong_length(uint32_t length)
{
    bool between = length % BLOCK != 0;
    if (length < BLOCK) {
        return length == 0 ? LENGTH_ZERO : BELOW_A_BLOCK;
    }
    if (length > MOST_JOURNAL) {
        return between ? BETWEEN_TOO_MANY : TOO_MANY_BLOCKS;
    }
    return BETWEEN_BLOCKS;
}

static unsigned no_setting(uint16_t index, uint8_t subindex)
{
    const uint8_t named[] = {(uint8_t)index, (uint8_t)(index >> 8), subindex};
    for (unsigned row = 0; row < SETTING_PAIRS; row++) {
        if (setting_pairs[row].index == index) {
            return OTHER_SUBINDEX;
        }
    }
    return object_named(named) < OBJECTS ? OTHER_OBJECT : NO_OBJECT;
}

void count_origin(const struct pair *pair, const struct call *call)
{
    unsigned setting = setting_named(call->asked.index, call->asked.subindex);
    switch (pair->finding.refusal) {
    case BASINTILT_ACCEPTED:
        if (setting < SETTING_PAIRS) {
            count_found(pair, call->length, setting);
        }
        break;
    case BASINTILT_WRONG_LENGTH:
        counts.wrong_lengths[2 * wrong_length(call->length) + (setting == SETTING_PAIRS)]++;
        break;
    case BASINTILT_NO_SETTING:
        counts.no_settings[no_setting(call->asked.index, call->asked.subindex)]++;
        break;
    default:
        break;
    }
}
