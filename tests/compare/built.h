/* Built cases: every one of a kind, in order. */
#ifndef COMPARE_BUILT_H
#define COMPARE_BUILT_H

#include <stdbool.h>
#include <stdint.h>

/* Makes them, all where the number is 1, and one in so many of the longest rows where it is more; false where the two sensors differ. */
bool built_cases(uint32_t one_in_so_many);

#endif
