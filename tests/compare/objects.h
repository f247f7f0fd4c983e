/* The paper's object table, as far as making requests needs it. */
#ifndef COMPARE_OBJECTS_H
#define COMPARE_OBJECTS_H

#include "basintilt.h"

struct object {
    uint16_t index;
    uint8_t subindex;
    uint8_t bytes; /* 0 for the string */
    uint8_t writable;
};

enum { OBJECTS = 47 };

extern const struct object objects[];

/* Which object three bytes of a request or reply name; OBJECTS where none. */
unsigned object_named(const uint8_t *bytes);

#endif
