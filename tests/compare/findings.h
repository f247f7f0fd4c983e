/* Findings of the origin query: the reference's in the library's bytes, and their fields. */
#ifndef COMPARE_FINDINGS_H
#define COMPARE_FINDINGS_H

#include "basintilt.h"
#include "sensor.h"

struct basintilt_finding finding_of(const struct reference_origin *said);

/* The field that a byte of the library's finding is part of, and the number there. */
const char *finding_field(unsigned byte);
int64_t finding_number(const struct basintilt_finding *finding, unsigned byte);

#endif
