/* Histories: calls that were made to both sensors, and the shortest one that shows a difference. */
#ifndef COMPARE_HISTORY_H
#define COMPARE_HISTORY_H

#include "pair.h"

enum { MOST_CALLS = 1 << 17 };

struct history {
    unsigned count;
    struct difference difference;
    struct call calls[MOST_CALLS];
};

/* One history at a time is made, on one pair. */
extern struct pair pair;
extern struct history history;

void begin_history(void);

/* Makes a call to both and keeps it, and counts it where they agree; false where they differ. */
bool make_call(struct call call);

bool make_event(struct basintilt_happening happening);

/* Leaves calls out as long as the two still differ. */
void shrink_history(void);

/* Prints each call of the history, and the difference. */
void show_history(void);

#endif
