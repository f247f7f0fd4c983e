/* Prints what was reached of the origin query. */
#include "counts.h"
#include "tally.h"

#include <stdio.h>

static void show_setting(unsigned which)
{
    printf("%04X:%u, ", setting_pairs[which].index, setting_pairs[which].subindex);
}

static void show_bringing(unsigned which)
{
    static const char *const names[BRINGINGS] = {
        "by no block", "by the only block",      "by the first block",                 "by a middle block",       "by the last block",
        "came again",  "changed at every block", "the factory's by a save or a store", "the factory's by a load",
    };
    show_setting(which / BRINGINGS);
    printf("%s", names[which % BRINGINGS]);
}

static void show_bringer(unsigned which)
{
    static const char *const names[BLOCK_KINDS] = {"save", "load", "store"};
    show_setting(which / BLOCK_KINDS / BLOCK_CHANNELS);
    printf("by a %s of channel %u", names[which % BLOCK_KINDS], which / BLOCK_KINDS % BLOCK_CHANNELS + 1);
}

static void show_journal(unsigned which)
{
    static const char *const names[ASKED_JOURNALS] = {
        "blank",
        "with room left",
        "full",
        "full of 128 blocks",
        "spoiled from the first block on",
        "spoiled behind a run",
        "another value in the next block",
        "another value in a good block behind",
    };
    show_setting(which / ASKED_JOURNALS);
    printf("%s", names[which % ASKED_JOURNALS]);
}

static void show_value(unsigned which)
{
    static const char *const names[VALUE_KINDS] = {
        "the highest bit", "the low byte alone", "the high byte alone", "changed in the low byte alone", "changed in the high byte alone",
        "the bytes exchanged",
    };
    show_setting(which / VALUE_KINDS);
    printf("%s", names[which % VALUE_KINDS]);
}

/* 6000 takes four numbers, three of them of one byte; 1000 shares neither byte with these. */
static bool has_value(unsigned which)
{
    const struct setting_pair *setting = &setting_pairs[which / VALUE_KINDS];
    unsigned kind = which % VALUE_KINDS;
    return setting->bytes == 2 && (setting->index != 0x6000 || kind == LOW_BYTE_ALONE || kind == CHANGED_LOW_BYTE);
}

static void show_length(unsigned which)
{
    static const char *const names[WRONG_LENGTHS] = {"0", "below a block", "between blocks", "too many blocks", "between too many"};
    printf("%s, %s", names[which / 2], which % 2 == 0 ? "a setting" : "no setting");
}

static void show_no_setting(unsigned which)
{
    static const char *const names[NO_SETTINGS] = {"another object", "another subindex", "no object"};
    printf("%s", names[which]);
}

bool show_origin_counts(void)
{
    const struct tally tallies[] = {
        TALLY("origins", bringings, show_bringing, false, NULL),
        TALLY("blocks that brought a value", bringers, show_bringer, false, NULL),
        TALLY("journals asked for an origin", journals_asked, show_journal, false, NULL),
        TALLY("values of two bytes found", values_found, show_value, false, has_value),
        TALLY("origins refused with 1", wrong_lengths, show_length, true, NULL),
        TALLY("origins refused with 6", no_settings, show_no_setting, true, NULL),
    };
    return show_tallies(tallies, sizeof tallies / sizeof tallies[0]);
}
