/* Journals that are made: blank, good, full, half-written, spoiled, bit-flipped and more. */
#ifndef COMPARE_JOURNALS_H
#define COMPARE_JOURNALS_H

#include "basintilt.h"
#include "chance.h"

enum journal_shape {
    BLANK_JOURNAL,
    GOOD_JOURNAL,        /* a run of good blocks, then blank ones */
    CARRYING_JOURNAL,    /* the same, and most values are those of the block before */
    FULL_JOURNAL,
    HALF_WRITTEN,        /* the block behind the run stops short of its end */
    SPOILED_JOURNAL,     /* something stands behind the first blank block */
    BIT_FLIPPED,         /* one bit of the run is turned */
    FIELD_OUT_OF_RANGE,  /* a right check over a field that is out of range */
    ZEROED,              /* the block behind the run is all zero: its check is right */
    NUMBERED,            /* the first block is good but for its number, the seed's low half */
    NOISE,
    JOURNAL_SHAPES
};

extern const char *const shape_names[JOURNAL_SHAPES];

void make_journal(uint8_t *journal, uint32_t length, enum journal_shape shape, uint64_t seed);

/* A good block for its place, with any channel, kind, settings and stored node number that are in range. */
void make_block(struct chance *chance, uint8_t *block, uint32_t place);

/* Writes the check of the 510 bytes before it. */
void seal_block(uint8_t *block);

#endif
