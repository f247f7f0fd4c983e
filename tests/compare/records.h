/* Device records that are made: any in range, some of which only the low bytes are in range, and wholly random ones. */
#ifndef COMPARE_RECORDS_H
#define COMPARE_RECORDS_H

#include "basintilt.h"
#include "chance.h"
#include "fields.h"

enum record_shape { IN_RANGE, LOW_BYTES_IN_RANGE, WHOLLY_RANDOM, RECORD_SHAPES };

extern const char *const record_names[RECORD_SHAPES];

struct basintilt_device make_record(enum record_shape shape, uint64_t seed);

/* Mostly four numbers that are far apart, and some that are alike. */
struct basintilt_identity any_identity(struct chance *chance);

/* A number for a field: one bit turned, or the end of any range and one beyond, those that the record's own fields set among them. */
uint32_t number_for_field(struct chance *chance, const struct basintilt_device *device, const struct field *field);

#endif
