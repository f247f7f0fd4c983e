/* Built cases of LSS and of the node number: every one of a kind, in order. */
#ifndef COMPARE_BUILT_LSS_H
#define COMPARE_BUILT_LSS_H

#include <stdbool.h>

/* Makes them; false where the two sensors differ. */
bool built_lss_cases(void);

#endif
