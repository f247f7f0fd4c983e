/* Prints what was reached of LSS and of the node number, a line for each class. */
#include "counts.h"
#include "tally.h"

#include <stdio.h>

static void show_state(unsigned which)
{
    static const char *const states[NETWORK_STATES] = {"Stopped", "Operational", "Pre-Operational"};
    static const char *const modes[LSS_MODES] = {"waiting", "configuration"};
    printf("%s in %s", modes[which % LSS_MODES], states[which / LSS_MODES]);
}

static void show_head(unsigned which)
{
    if (which == LSS_HEADS - 1) {
        printf("remote");
    } else {
        printf("length %u", which);
    }
}

static void show_command(unsigned which)
{
    printf("%02Xh in %s", which % BYTE_VALUES, which < BYTE_VALUES ? "waiting" : "configuration");
}

static void show_match(unsigned which)
{
    unsigned place = which / 2 % IDENTITY_NUMBERS;
    printf("%02Xh behind %u matches, %s", SELECTS + place, which / 2 / IDENTITY_NUMBERS, which % 2 == 0 ? "wrong" : "right");
}

static void show_number(unsigned which)
{
    printf("%u", which);
}

static void show_good_block(unsigned which)
{
    printf("channel %u kind %u", which / BLOCK_KINDS + 1, which % BLOCK_KINDS + 1);
}

static void show_byte_behind(unsigned which)
{
    printf("byte %u", ZEROS_AT + which);
}

static void show_reply(unsigned which)
{
    static const char *const names[LSS_REPLIES] = {
        "44h", "11h success", "11h error 1", "17h success", "17h error 2", "5Ah", "5Bh", "5Ch", "5Dh", "5Eh", "5Eh beside a number set",
    };
    printf("%s", names[which]);
}

static void show_store(unsigned which)
{
    static const char *const names[STORE_KINDS] = {
        "of a number set",  "of the running number", "over another number",   "beside changed settings",
        "into a spoiled journal", "into a full one",       "into one that is both",
    };
    printf("%s", names[which]);
}

static void show_leaving(unsigned which)
{
    static const char *const names[LEAVING_KINDS] = {
        "in configuration", "with matches", "with a number set", "with a number set in force", "with another one stored",
    };
    printf("%02Xh %s", leaving_commands[which / LEAVING_KINDS], names[which % LEAVING_KINDS]);
}

static void show_carrying(unsigned which)
{
    static const char *const origins[CARRYING_ORIGINS] = {"save", "load"};
    static const char *const names[CARRYING_KINDS] = {"neither in force nor set", "none, where one is set"};
    printf("%s, %s", origins[which / CARRYING_KINDS], names[which % CARRYING_KINDS]);
}

static void show_power_on(unsigned which)
{
    static const char *const names[NAMED_POWER_ONS] = {
        "the stored number holds",     "the given one holds", "the last block has none, the first has", "the last block is a store",
        "refused with 4 beside a stored one",
    };
    printf("%s", names[which]);
}

static void show_frame(unsigned which)
{
    static const char *const names[FRAMES_UNDER] = {"boot-up", "heartbeat", "PDO", "EMCY", "reply of channel 1", "reply of channel 2"};
    printf("%s under a number %s", names[which % FRAMES_UNDER], which < FRAMES_UNDER ? "set" : "stored");
}

static void show_object(unsigned which)
{
    printf("%04X:%u", objects[which].index, objects[which].subindex);
}

/* The objects whose value has the node in it. */
static bool goes_by_node(unsigned which)
{
    const struct object *object = &objects[which];
    bool of_channels = (object->index == 0x1200 || object->index == 0x1201) && object->subindex > 0;
    return of_channels || object->index == 0x1014 || (object->index == 0x1800 && object->subindex == 1);
}

bool show_lss_counts(void)
{
    const struct tally tallies[] = {
        TALLY("good blocks asked about", good_blocks, show_good_block, true, NULL),
        TALLY("stored numbers of blocks with a right check", stored_numbers, show_number, false, NULL),
        TALLY("bytes that are not zero in blocks with a right check", bytes_behind, show_byte_behind, false, NULL),
        TALLY("LSS requests", lss_states, show_state, true, NULL),
        TALLY("LSS frames in Stopped", lss_heads, show_head, true, NULL),
        TALLY("LSS commands in Stopped", lss_commands, show_command, false, NULL),
        TALLY("LSS matches", matches, show_match, false, NULL),
        TALLY("LSS numbers to set", numbers_to_set, show_number, false, NULL),
        TALLY("LSS replies", lss_replies, show_reply, true, NULL),
        TALLY("stores", stores, show_store, true, NULL),
        TALLY("Stopped left", leavings, show_leaving, true, NULL),
        TALLY("numbers carried on", carryings, show_carrying, true, NULL),
        TALLY("power-ons with filled blocks", named_power_ons, show_power_on, true, NULL),
        TALLY("frames under a number of LSS", frames_under, show_frame, true, NULL),
        TALLY("objects read under a number set", reads_under, show_object, false, goes_by_node),
    };
    return show_tallies(tallies, sizeof tallies / sizeof tallies[0]);
}
