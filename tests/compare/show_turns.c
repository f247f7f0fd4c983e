/* Prints what was reached of turning. */
#include "counts.h"
#include "tally.h"

#include <stdio.h>

static void show_shown(unsigned shown)
{
    printf("%s of %c, 6000 is %d", shown / RESOLUTIONS / AXES == IN_PDO ? "PDO" : "read", shown / RESOLUTIONS % AXES == 0 ? 'X' : 'Y',
           (int)resolutions[shown % RESOLUTIONS]);
}

static void show_moved(unsigned which)
{
    static const char *const moved[MOVED_KINDS] = {"not at all", "by one turn", "by some turns", "by the most turns"};
    static const char *const landings[LANDINGS] = {"on the lowest number", "next to the highest", "on the highest", "between"};
    unsigned kind = which / LANDINGS % MOVED_KINDS;
    show_shown(which / LANDINGS / MOVED_KINDS / SIGNS);
    printf(", %s%s, %s", moved[kind], kind == NOT_MOVED ? "" : which / LANDINGS / MOVED_KINDS % SIGNS == 0 ? " down" : " up",
           landings[which % LANDINGS]);
}

/* Not at all has no direction; the most turns are one or two where 6000 is 1 or 10, and reach the near end of the range alone. */
static bool can_move(unsigned which)
{
    unsigned landing = which % LANDINGS;
    unsigned kind = which / LANDINGS % MOVED_KINDS;
    bool up = which / LANDINGS / MOVED_KINDS % SIGNS == 1;
    int32_t most = most_turns[which / LANDINGS / MOVED_KINDS / SIGNS % RESOLUTIONS];
    if (kind == MOST_TURNS) {
        return landing == BETWEEN_THEM || (up ? landing != ON_LOWEST : landing == ON_LOWEST);
    }
    return kind == NOT_MOVED ? !up : kind == ONE_TURN ? most > 1 : most > 2;
}

static void show_end(unsigned which)
{
    static const char *const ends[TURN_ENDS] = {"at the lower end", "above the lower end", "at the upper end", "above the upper end"};
    show_shown(which / TURN_ENDS / SIGNS);
    printf(", bit 0 %s, %s", which / TURN_ENDS % SIGNS == 0 ? "clear" : "set", ends[which % TURN_ENDS]);
}

static void show_offsets(unsigned which)
{
    show_shown(which / 4);
    printf(", offset %s, differential %s", which % 4 < 2 ? "32,767" : "-32,768", which % 2 == 0 ? "32,767" : "-32,768");
}

static void show_clamped(unsigned which)
{
    show_shown(which / SIGNS);
    printf(", %s", which % SIGNS == 0 ? "down" : "up");
}

/* A turned sum passes 32,767 where 6000 is 1 alone, and there always. */
static bool can_clamp(unsigned which)
{
    return which / SIGNS % RESOLUTIONS == 0;
}

static void show_unturned(unsigned which)
{
    show_shown(which / SIGNS);
    printf(", bit 0 %s", which % SIGNS == 0 ? "clear" : "set");
}

static void show_preset(unsigned which)
{
    static const char *const kinds[PRESET_KINDS] = {"preset past half a turn", "offset past half a turn", "offset refused that would fit turned"};
    printf("%c, 6000 is %d, %s", which / PRESET_KINDS / RESOLUTIONS == 0 ? 'X' : 'Y', (int)resolutions[which / PRESET_KINDS % RESOLUTIONS],
           kinds[which % PRESET_KINDS]);
}

/* Where 6000 is 1 half a turn does not fit 16 bits, and no offset is so long that it would fit turned. */
static bool can_be_past(unsigned which)
{
    return which / PRESET_KINDS % RESOLUTIONS != 0;
}

bool show_turn_counts(void)
{
    const struct tally tallies[] = {
        TALLY("sums moved", turns, show_moved, false, can_move),
        TALLY("sums at the ends of the range", turn_ends, show_end, false, NULL),
        TALLY("offsets at the ends of 16 bits", offset_ends, show_offsets, false, NULL),
        TALLY("sums turned, then brought in", turned_and_clamped, show_clamped, false, can_clamp),
        TALLY("-180 degrees with bit 1 clear", unturned, show_unturned, false, NULL),
        TALLY("presets that a turn would change", turned_presets, show_preset, false, can_be_past),
    };
    return show_tallies(tallies, sizeof tallies / sizeof tallies[0]);
}
