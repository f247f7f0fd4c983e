/* The paper's object table, as far as making requests needs it. */
#include "objects.h"

const struct object objects[] = {
    {0x1000, 0, 4, 0}, {0x1001, 0, 1, 0},
    {0x1003, 0, 1, 1}, {0x1003, 1, 4, 0}, {0x1003, 2, 4, 0}, {0x1003, 3, 4, 0}, {0x1003, 4, 4, 0}, {0x1003, 5, 4, 0},
    {0x1005, 0, 4, 0}, {0x1008, 0, 0, 0},
    {0x1010, 0, 1, 0}, {0x1010, 1, 4, 1}, {0x1011, 0, 1, 0}, {0x1011, 1, 4, 1},
    {0x1014, 0, 4, 0}, {0x1017, 0, 2, 1},
    {0x1018, 0, 1, 0}, {0x1018, 1, 4, 0}, {0x1018, 2, 4, 0}, {0x1018, 3, 4, 0}, {0x1018, 4, 4, 0},
    {0x1200, 0, 1, 0}, {0x1200, 1, 4, 0}, {0x1200, 2, 4, 0}, {0x1201, 0, 1, 0}, {0x1201, 1, 4, 0}, {0x1201, 2, 4, 0},
    {0x1800, 0, 1, 0}, {0x1800, 1, 4, 1}, {0x1800, 2, 1, 1}, {0x1800, 5, 2, 1},
    {0x1A00, 0, 1, 0}, {0x1A00, 1, 4, 0}, {0x1A00, 2, 4, 0},
    {0x2100, 0, 2, 0}, {0x2101, 0, 2, 0}, {0x6000, 0, 2, 1},
    {0x6010, 0, 2, 0}, {0x6011, 0, 1, 1}, {0x6012, 0, 2, 1}, {0x6013, 0, 2, 0}, {0x6014, 0, 2, 1},
    {0x6020, 0, 2, 0}, {0x6021, 0, 1, 1}, {0x6022, 0, 2, 1}, {0x6023, 0, 2, 0}, {0x6024, 0, 2, 1},
};

_Static_assert(sizeof objects / sizeof objects[0] == OBJECTS, "objects of the paper");

unsigned object_named(const uint8_t *bytes)
{
    unsigned index = bytes[0] | (unsigned)bytes[1] << 8;
    unsigned row = 0;
    while (row < OBJECTS && (objects[row].index != index || objects[row].subindex != bytes[2])) {
        row++;
    }
    return row;
}
