/* Random histories, each of its own length, journal and leaning. */
#ifndef COMPARE_WANDER_H
#define COMPARE_WANDER_H

#include "chance.h"

/* Makes one history; false where the two sensors differ. */
bool wander(uint64_t seed);

#endif
