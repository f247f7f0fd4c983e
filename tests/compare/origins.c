/* Queries for a setting's origin: mostly of a setting's pair, and all others too. */
#include "origins.h"

#include "objects.h"

const struct setting_pair setting_pairs[] = {
    {0x1017, 0, 6, 2, 0, 0},
    {0x1800, 1, 8, 1, 0, 1}, {0x1800, 2, 9, 1, 0, 254}, {0x1800, 5, 10, 2, 0, 100},
    {0x6000, 0, 12, 2, 0, 10},
    {0x6011, 0, 14, 1, 0, 0}, {0x6012, 0, 16, 2, 1, 0}, {0x6013, 0, 18, 2, 1, 0}, {0x6014, 0, 20, 2, 1, 0},
    {0x6021, 0, 15, 1, 0, 0}, {0x6022, 0, 22, 2, 1, 0}, {0x6023, 0, 24, 2, 1, 0}, {0x6024, 0, 26, 2, 1, 0},
};

_Static_assert(sizeof setting_pairs / sizeof setting_pairs[0] == SETTING_PAIRS, "settings of the paper");

unsigned setting_named(uint16_t index, uint8_t subindex)
{
    unsigned row = 0;
    while (row < SETTING_PAIRS && (setting_pairs[row].index != index || setting_pairs[row].subindex != subindex)) {
        row++;
    }
    return row;
}

int32_t value_held(const uint8_t *block, unsigned setting)
{
    const struct setting_pair *row = &setting_pairs[setting];
    uint32_t number = block[row->at];
    if (row->bytes == 2) {
        number |= (uint32_t)block[row->at + 1] << 8;
    }
    return row->is_signed ? (int16_t)number : (int32_t)number;
}

/* A pair that is none is mostly next to one that is, or an object's. */
struct call any_origin_query(struct chance *chance, uint32_t length)
{
    const struct setting_pair *setting = &setting_pairs[below(chance, SETTING_PAIRS)];
    const struct object *object = &objects[below(chance, OBJECTS)];
    uint32_t index = setting->index;
    uint32_t subindex = setting->subindex;
    switch (below(chance, 20)) {
    case 0:
        index = PICK(chance, index + 1, index - 1, index ^ 1u << below(chance, 16), any32(chance));
        break;
    case 1:
        subindex = PICK(chance, subindex + 1, subindex - 1, 0, 1, 2, 5, any32(chance));
        break;
    case 2:
        index = object->index;
        subindex = object->subindex;
        break;
    default:
        break;
    }
    return (struct call){.kind = ORIGIN_QUERY, .length = length, .asked = {(uint16_t)index, (uint8_t)subindex}};
}
