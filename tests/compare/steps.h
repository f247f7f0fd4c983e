/* Calls that built cases are made of; each is false where the two sensors differ. */
#ifndef COMPARE_STEPS_H
#define COMPARE_STEPS_H

#include "history.h"
#include "journals.h"

enum { BLOCK = BASINTILT_BLOCK_BYTES, NODE = BASINTILT_MOST_NODE };

bool power_on_as(uint32_t node, uint32_t length);
bool power_on_over(uint32_t length);
bool make_shape(enum journal_shape shape, uint32_t length, uint64_t seed);
bool ask(uint32_t at, uint32_t length, uint32_t place);
bool ask_origin(uint32_t length, uint32_t index, uint32_t subindex);
bool write_byte(uint32_t at, uint32_t number);

/* Writes one byte of a block and makes its check right again. */
bool rewrite_byte(uint32_t place, uint32_t at, uint32_t number);

/* An Operational sensor with two good axes on a blank journal of four blocks. */
bool fresh_sensor(void);

/* A command of the network or a service request to the node in force. */
bool order(uint32_t command);
bool serve(unsigned channel, uint8_t first, uint32_t index, uint32_t subindex, uint32_t value);

/* A save by channel 1, a load by channel 2; a store by LSS, behind which the sensor is Pre-Operational. */
bool save(void);
bool load(void);
bool store(void);

#endif
