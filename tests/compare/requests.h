/* Requests of the service channels: mostly such as are served, and all others too. */
#ifndef COMPARE_REQUESTS_H
#define COMPARE_REQUESTS_H

#include "basintilt.h"
#include "chance.h"
#include "objects.h"

enum { READS = 0x40, WRITES_OWN_LENGTH = 0x22, NEXT_SEGMENT = 0x60, NEXT_SEGMENT_TOGGLED = 0x70, ENDS = 0x80 };

/* A frame of 8 bytes to channel 0 or 1. */
struct basintilt_happening request(uint32_t node, unsigned channel, uint8_t first, uint32_t index, uint32_t subindex, uint32_t value);

struct basintilt_happening any_request(struct chance *chance, const struct basintilt_device *device);

/* A value that the object takes, as far as the value alone decides. */
uint32_t fitting_value(struct chance *chance, const struct basintilt_device *device, const struct object *object);

#endif
