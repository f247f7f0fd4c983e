/* Built cases of the origin query: every setting, every place of the block that brought it, every pair and every length. */
#ifndef COMPARE_BUILT_ORIGINS_H
#define COMPARE_BUILT_ORIGINS_H

#include <stdbool.h>
#include <stdint.h>

/* Makes them, of the indices one in so many; false where the two sensors differ. */
bool built_origin_cases(uint32_t one_in_so_many);

#endif
