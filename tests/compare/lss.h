/* LSS requests: mostly such as are served in the sensor's mode, and all others too. */
#ifndef COMPARE_LSS_H
#define COMPARE_LSS_H

#include "basintilt.h"
#include "chance.h"

enum { IDENTITY_NUMBERS = 4 };

/* Commands; the four of a selection and the four that tell the identity follow each other. */
enum { SWITCHES = 0x04, SETS_NUMBER = 0x11, STORES = 0x17, SELECTS = 0x40, SELECTED = 0x44, TELLS_IDENTITY = 0x5A, TELLS_NUMBER = 0x5E };

/* A frame of 8 bytes with a value from byte 1 on. */
struct basintilt_happening lss_request(uint32_t command, uint32_t value);

/* Vendor, product, revision or serial. */
uint32_t identity_number(const struct basintilt_identity *identity, unsigned place);

struct basintilt_happening any_lss_request(struct chance *chance, const struct basintilt_device *device);

#endif
