/* Journals that are made: blank, good, full, half-written, spoiled, bit-flipped and more. */
#include "journals.h"

#include "origins.h"
#include "settings.h"

#include <string.h>

const char *const shape_names[JOURNAL_SHAPES] = {
    "blank", "good", "carrying", "full", "half-written", "spoiled", "bit-flipped", "field out of range", "zeroed", "numbered", "noise",
};

enum { BLOCK = BASINTILT_BLOCK_BYTES, CHECK_AT = 510 };

static void put(uint8_t *at, uint32_t number, unsigned bytes)
{
    for (unsigned i = 0; i < bytes; i++) {
        at[i] = (uint8_t)(number >> 8 * i);
    }
}

void seal_block(uint8_t *block)
{
    uint16_t check = 0;
    for (unsigned i = 0; i < CHECK_AT; i++) {
        check = (uint16_t)(check ^ block[i] << 8);
        for (unsigned bit = 0; bit < 8; bit++) {
            check = (uint16_t)(check & 0x8000 ? check << 1 ^ 0x1021 : check << 1);
        }
    }
    put(block + CHECK_AT, check, 2);
}

static void put_angles(uint8_t *at, const struct basintilt_axis_settings *axis)
{
    put(at, (uint16_t)axis->preset, 2);
    put(at + 2, (uint16_t)axis->offset, 2);
    put(at + 4, (uint16_t)axis->differential, 2);
}

void make_block(struct chance *chance, uint8_t *block, uint32_t place)
{
    struct basintilt_settings settings = any_settings(chance);
    memset(block, 0, BLOCK);
    put(block, place, 4);
    block[4] = (uint8_t)between(chance, 1, 3);
    block[5] = (uint8_t)between(chance, 1, 3);
    put(block + 6, settings.heartbeat, 2);
    block[8] = settings.pdo.on;
    block[9] = settings.pdo.transmission;
    put(block + 10, settings.pdo.timer, 2);
    put(block + 12, settings.resolution, 2);
    block[14] = (uint8_t)settings.x.operating;
    block[15] = (uint8_t)settings.y.operating;
    put_angles(block + 16, &settings.x);
    put_angles(block + 22, &settings.y);
    block[28] = any_stored_node(chance);
    seal_block(block);
}

/* At most two settings of the block are its own, all others those of the block before. */
static void carry_on(struct chance *chance, uint8_t *block)
{
    uint32_t own = below(chance, SETTING_PAIRS);
    uint32_t other = below(chance, SETTING_PAIRS);
    for (uint32_t i = 0; i < SETTING_PAIRS; i++) {
        if (i != own && i != other) {
            memcpy(block + setting_pairs[i].at, block - BLOCK + setting_pairs[i].at, setting_pairs[i].bytes);
        }
    }
    seal_block(block);
}

/* One byte ahead of the check is changed and the check made right again: mostly a field that is then out of range. */
static void make_wrong_block(struct chance *chance, uint8_t *block, uint32_t place)
{
    uint32_t at = PICK(chance, 0, 1, 3, 4, 5, 6, 7, 8, 9, 12, 13, 14, 15, 28, 28, 29, 509, between(chance, 29, 509));
    make_block(chance, block, place);
    block[at] = (uint8_t)PICK(chance, 0, 1, 2, 3, 4, 24, 47, 48, 240, 241, 253, 255, any32(chance));
    seal_block(block);
}

static void flip_bit(struct chance *chance, uint8_t *bytes, uint32_t length)
{
    uint32_t bit = below(chance, 8 * length);
    bytes[bit / 8] ^= (uint8_t)(1u << bit % 8);
}

/* What stands where only blank blocks should. */
static void make_stray(struct chance *chance, uint8_t *block, uint32_t place)
{
    switch (below(chance, 4)) {
    case 0:
        make_block(chance, block, place);
        break;
    case 1:
        make_wrong_block(chance, block, place);
        break;
    case 2:
        flip_bit(chance, block, BLOCK);
        break;
    default:
        for (unsigned i = 0; i < BLOCK; i++) {
            block[i] = (uint8_t)any32(chance);
        }
        break;
    }
}

static void make_half_written(struct chance *chance, uint8_t *block, uint32_t place)
{
    uint32_t written = PICK(chance, 1, 4, 27, 28, 29, 510, 511, below(chance, BLOCK));
    make_block(chance, block, place);
    memset(block + written, 0xFF, BLOCK - written);
}

static uint32_t run_of(struct chance *chance, enum journal_shape shape, uint32_t blocks)
{
    switch (shape) {
    case BLANK_JOURNAL:
    case NUMBERED:
    case NOISE:
        return 0;
    case FULL_JOURNAL:
        return blocks;
    case BIT_FLIPPED:
        return between(chance, 1, blocks);
    default:
        return one_in(chance, 2) ? blocks - 1 : below(chance, blocks);
    }
}

/* Does to a run of good blocks what its shape says; the block behind the run is there unless the run is full. */
static void spoil(struct chance *chance, uint8_t *journal, uint32_t blocks, uint32_t run, enum journal_shape shape)
{
    uint8_t *next = journal + (size_t)BLOCK * run;
    uint32_t later = between(chance, run, blocks - 1);
    switch (shape) {
    case HALF_WRITTEN:
        make_half_written(chance, next, run + 1);
        break;
    case SPOILED_JOURNAL:
        make_stray(chance, journal + (size_t)BLOCK * later, later + 1);
        break;
    case FIELD_OUT_OF_RANGE:
        make_wrong_block(chance, next, run + 1);
        break;
    case ZEROED:
        memset(next, 0, BLOCK);
        break;
    default:
        break;
    }
}

void make_journal(uint8_t *journal, uint32_t length, enum journal_shape shape, uint64_t seed)
{
    struct chance chance = {seed};
    uint32_t blocks = length / BLOCK;
    uint32_t run = run_of(&chance, shape, blocks);
    memset(journal, 0xFF, length);
    for (uint32_t i = 0; i < run; i++) {
        make_block(&chance, journal + (size_t)BLOCK * i, i + 1);
        if (shape == CARRYING_JOURNAL && i > 0) {
            carry_on(&chance, journal + (size_t)BLOCK * i);
        }
    }
    if (run < blocks) {
        spoil(&chance, journal, blocks, run, shape);
    }
    if (shape == BIT_FLIPPED) {
        flip_bit(&chance, journal, BLOCK * run);
    }
    if (shape == NUMBERED) {
        make_block(&chance, journal, (uint32_t)seed);
    }
    if (shape == NOISE) {
        for (uint32_t i = 0; i < length; i++) {
            journal[i] = (uint8_t)any32(&chance);
        }
    }
}
