/* Prints what was reached of rounding. */
#include "counts.h"
#include "tally.h"

#include <stdio.h>

static void show_rounding(unsigned which)
{
    static const char *const uses[ANGLE_USES] = {"PDO", "read", "preset"};
    static const char *const places[PLACES] = {"a whole step", "below a half", "a half to an odd step", "a half to an even step", "above a half"};
    unsigned sign = which / PLACES % SIGNS;
    unsigned resolution = which / PLACES / SIGNS % RESOLUTIONS;
    unsigned axis = which / PLACES / SIGNS / RESOLUTIONS % AXES;
    unsigned use = which / PLACES / SIGNS / RESOLUTIONS / AXES;
    printf("%s of %c, 6000 is %d, %s, %s", uses[use], axis == 0 ? 'X' : 'Y', (int)resolutions[resolution],
           sign == 0 ? "from 0 up" : "below 0", places[which % PLACES]);
}

/* Every thousandth is a whole step where 6000 is 1. */
static bool can_be(unsigned which)
{
    return which / PLACES / SIGNS % RESOLUTIONS != 0 || which % PLACES == WHOLE_STEP;
}

static void show_edge(unsigned which)
{
    unsigned edge = which / TENS % EDGES;
    unsigned sign = which / TENS / EDGES % SIGNS;
    unsigned resolution = which / TENS / EDGES / SIGNS;
    printf("6000 is %d, %s, %s, from %u degrees on", (int)resolutions[resolution], sign == 0 ? "from 0 up" : "below 0",
           edge == FIRST_OF_STEP ? "a step's first reading" : "the last before a step", which % TENS * 10);
}

/* A step of one thousandth has one reading. */
static bool has_edges(unsigned which)
{
    return which / TENS / EDGES / SIGNS != 0;
}

static void show_sum(unsigned which)
{
    printf("%c, q %s", which / SIGNS == 0 ? 'X' : 'Y', which % SIGNS == 0 ? "above 0" : "below 0");
}

static void show_zero(unsigned which)
{
    printf("%c, %s", which / 2 == 0 ? 'X' : 'Y', which % 2 == 0 ? "refused" : "accepted");
}

bool show_angle_counts(void)
{
    const struct tally tallies[] = {
        TALLY("readings between two steps", roundings, show_rounding, false, can_be),
        TALLY("edges of steps", step_edges, show_edge, false, has_edges),
        TALLY("halves whose sum has the other sign", sums_at_halves, show_sum, true, NULL),
        TALLY("presets that the cut q would judge otherwise", zeros_by_rounding, show_zero, true, NULL),
    };
    return show_tallies(tallies, sizeof tallies / sizeof tallies[0]);
}
