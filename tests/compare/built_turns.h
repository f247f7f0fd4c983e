/* Built cases of turning: sums at both ends of the range and whole turns away, offsets at the ends of 16 bits, and presets past half a turn. */
#ifndef COMPARE_BUILT_TURNS_H
#define COMPARE_BUILT_TURNS_H

#include <stdbool.h>

/* Makes them; false where the two sensors differ. */
bool built_turn_cases(void);

#endif
