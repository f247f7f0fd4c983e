/* Histories: calls that were made to both sensors, and the shortest one that shows a difference. */
#include "history.h"

#include "counts.h"

struct pair pair;
struct history history;

void begin_history(void)
{
    history.count = 0;
    history.difference.what = NULL;
    begin_pair(&pair);
}

bool make_call(struct call call)
{
    if (history.count == MOST_CALLS) {
        begin_history();
    }
    history.calls[history.count] = call;
    history.count++;
    history.difference = perform(&pair, &call);
    if (history.difference.what != NULL) {
        return false;
    }
    count_call(&pair, &call);
    return true;
}

/* The journal's length is said as the record has it. */
bool make_event(struct basintilt_happening happening)
{
    uint32_t length = (uint32_t)BASINTILT_BLOCK_BYTES * pair.device.saves.blocks;
    return make_call((struct call){.kind = EVENT, .length = length > LONGEST_SAID ? LONGEST_SAID : length, .happening = happening});
}

/* Plays the history without some of its calls. Where the two differ, the history becomes what was played up to there. */
static bool differs_without(unsigned first, unsigned count)
{
    static struct call kept[MOST_CALLS];
    struct difference difference = {0};
    unsigned played = 0;
    begin_pair(&pair);
    for (unsigned i = 0; i < history.count && difference.what == NULL; i++) {
        if (i < first || i >= first + count) {
            kept[played] = history.calls[i];
            difference = perform(&pair, &kept[played]);
            played++;
        }
    }
    if (difference.what == NULL) {
        return false;
    }
    for (unsigned i = 0; i < played; i++) {
        history.calls[i] = kept[i];
    }
    history.count = played;
    history.difference = difference;
    return true;
}

/* Long stretches first; single calls until none can be left out. */
void shrink_history(void)
{
    unsigned stretch = history.count / 2;
    while (stretch > 0) {
        bool shorter = false;
        unsigned first = 0;
        while (first < history.count) {
            if (differs_without(first, stretch)) {
                shorter = true;
            } else {
                first += stretch;
            }
        }
        if (!shorter || stretch > 1) {
            stretch /= 2;
        }
    }
}
