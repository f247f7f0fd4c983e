/* Queries for a setting's origin: mostly of a setting's pair, and all others too. */
#ifndef COMPARE_ORIGINS_H
#define COMPARE_ORIGINS_H

#include "call.h"
#include "chance.h"

/* A setting's index and subindex, and where a block holds its value. */
struct setting_pair {
    uint16_t index;
    uint8_t subindex;
    uint8_t at;
    uint8_t bytes;
    uint8_t is_signed;
    uint8_t factory;
};

enum { SETTING_PAIRS = 13 };

extern const struct setting_pair setting_pairs[];

/* Which setting a pair names; SETTING_PAIRS where none. */
unsigned setting_named(uint16_t index, uint8_t subindex);

/* The value of a setting in a block. */
int32_t value_held(const uint8_t *block, unsigned setting);

struct call any_origin_query(struct chance *chance, uint32_t length);

#endif
