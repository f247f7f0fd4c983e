/* A class of things to be reached, with a count for each. */
#ifndef COMPARE_TALLY_H
#define COMPARE_TALLY_H

#include <stdbool.h>
#include <stddef.h>
#include <stdint.h>

struct tally {
    const char *name;
    uint64_t *counts;
    unsigned size;
    void (*show_label)(unsigned which);
    bool in_full; /* each count on the line, or only how many were reached and the least */
    bool (*needed)(unsigned which); /* NULL where all are */
};

/* A tally of one array of the counts. */
#define TALLY(title, array, label, each, some)                                                            \
    {                                                                                                     \
        .name = (title), .counts = counts.array, .size = sizeof counts.array / sizeof counts.array[0],    \
        .show_label = (label), .in_full = (each), .needed = (some)                                        \
    }

/* Prints a line for each; false where something needed was never reached. */
bool show_tallies(const struct tally *tallies, unsigned count);

#endif
