/* A class of things to be reached, with a count for each. */
#include "tally.h"

#include <stdio.h>

static bool is_needed(const struct tally *tally, unsigned which)
{
    return tally->needed == NULL || tally->needed(which);
}

static void show_each(const struct tally *tally)
{
    printf("%s:", tally->name);
    for (unsigned i = 0; i < tally->size; i++) {
        printf(i == 0 ? " " : ", ");
        tally->show_label(i);
        printf(" %llu", (unsigned long long)tally->counts[i]);
    }
    printf("\n");
}

static void show_least(const struct tally *tally)
{
    unsigned needed = 0;
    unsigned reached = 0;
    unsigned least = tally->size;
    for (unsigned i = 0; i < tally->size; i++) {
        if (is_needed(tally, i)) {
            needed++;
            reached += tally->counts[i] != 0;
            least = least == tally->size || tally->counts[i] < tally->counts[least] ? i : least;
        }
    }
    printf("%s: %u of %u, the least %llu times (", tally->name, reached, needed, (unsigned long long)tally->counts[least]);
    tally->show_label(least);
    printf(")\n");
}

static bool show_tally(const struct tally *tally)
{
    bool all = true;
    if (tally->in_full) {
        show_each(tally);
    } else {
        show_least(tally);
    }
    for (unsigned i = 0; i < tally->size; i++) {
        if (is_needed(tally, i) && tally->counts[i] == 0) {
            all = false;
            printf("FAILED: never reached: %s, ", tally->name);
            tally->show_label(i);
            printf("\n");
        }
    }
    return all;
}

bool show_tallies(const struct tally *tallies, unsigned count)
{
    bool all = true;
    for (unsigned i = 0; i < count; i++) {
        all = show_tally(&tallies[i]) && all;
    }
    return all;
}
