/* Built cases of the angle: readings at and beside halves, and every step's first reading. */
#ifndef COMPARE_BUILT_ANGLES_H
#define COMPARE_BUILT_ANGLES_H

#include <stdbool.h>
#include <stdint.h>

/* Makes them, and one in so many of the short steps; false where the two sensors differ. */
bool built_angle_cases(uint32_t stride);

#endif
