/* The fields of the device record, each with its place in either sensor's record. */
#ifndef COMPARE_FIELDS_H
#define COMPARE_FIELDS_H

#include "basintilt.h"
#include "sensor.h"

#include <stdbool.h>

struct field {
    const char *name;
    uint16_t in_library;
    uint16_t in_reference;
    uint8_t size;              /* in the library: 1, 2 or 4 bytes */
    uint8_t size_in_reference; /* as many or fewer */
    uint8_t is_signed;
};

enum { FIELDS = 54 };

/* In the order of the library's record. */
extern const struct field fields[];

/* Whether the fields follow each other without a gap from the library's first byte to its last. */
bool fields_are_all_bytes(void);

int64_t field_value(const struct basintilt_device *device, const struct field *field);

/* Writes the low bytes of a number into one field. */
void write_field(struct basintilt_device *device, const struct field *field, uint32_t number);

/* Whether the library's field holds numbers that are too wide for the reference's: all of them are out of range. */
bool is_wider(const struct field *field);

/* Gives the reference the record that the library has; false where a number is too wide for its field there. */
bool give_record(struct reference_record *record, const struct basintilt_device *device);

/* The reference's record in the library's bytes. */
struct basintilt_device record_of(const struct reference_record *record);

/* The field that a byte of the library's record is part of. */
const struct field *field_at(unsigned byte);

#endif
