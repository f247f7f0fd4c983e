/* Counts what was reached, so that the comparison cannot pass empty. */
#ifndef COMPARE_COUNTS_H
#define COMPARE_COUNTS_H

#include "journals.h"
#include "lss.h"
#include "objects.h"
#include "origins.h"
#include "pair.h"
#include "settings.h"

enum { CHANNELS = BASINTILT_CHANNELS, REFUSALS = 5, EVENT_KINDS = 6, ABORTS = 13, REPLIES = 8, LENGTH_CLASSES = 4 };

enum {
    BOOT_UP_AT_POWER_ON,
    BOOT_UP_AT_RESET,
    HEARTBEAT_STOPPED,
    HEARTBEAT_OPERATIONAL,
    HEARTBEAT_PRE_OPERATIONAL,
    PDO_AT_TICK,
    PDO_AT_SYNC,
    EMCY_ENDS,
    EMCY_SPOILED,
    EMCY_X,
    EMCY_Y,
    SENT_KINDS
};

/* What an angle was worked out for, and where its reading stood: at a step, or between two of them. */
enum { IN_PDO, IN_READ, IN_PRESET, ANGLE_USES };
enum { WHOLE_STEP, BELOW_HALF, HALF_TO_ODD, HALF_TO_EVEN, ABOVE_HALF, PLACES };
enum { AXES = 2, SIGNS = 2 };

/* A step's first reading and the last before it, by the ten degrees that they stand in. */
enum { LAST_BEFORE, FIRST_OF_STEP, EDGES, TEN_DEGREES = 10000, TENS = BASINTILT_FARTHEST / TEN_DEGREES };

/* What shows an angle: the PDO or a read, of an axis, at a resolution. */
enum { SHOWN = 2 * AXES * RESOLUTIONS };

/* How far a sum was moved and where it came to stand, where it stood before, and presets that a turn would change. */
enum { NOT_MOVED, ONE_TURN, SOME_TURNS, MOST_TURNS, MOVED_KINDS };
enum { ON_LOWEST, ON_NEXT_TO_HIGHEST, ON_HIGHEST, BETWEEN_THEM, LANDINGS };
enum { LOWER_END, ABOVE_LOWER_END, UPPER_END, ABOVE_UPPER_END, TURN_ENDS };
enum { PRESET_PAST_TURN, OFFSET_PAST_TURN, OFFSET_TOO_LONG, PRESET_KINDS };

enum { LSS_MODES = 2, NETWORK_STATES = 3, LSS_HEADS = 10, BYTE_VALUES = 256, MATCHES = 2 * IDENTITY_NUMBERS * (BASINTILT_MOST_MATCHES + 1) };

enum {
    LSS_SELECTED,
    NUMBER_TAKEN,
    NUMBER_REFUSED,
    STORE_DONE,
    STORE_REFUSED,
    VENDOR_TOLD,
    PRODUCT_TOLD,
    REVISION_TOLD,
    SERIAL_TOLD,
    NUMBER_TOLD,
    NUMBER_TOLD_BESIDE_SET, /* while another number waits for a reset */
    LSS_REPLIES
};

enum {
    STORES_NUMBER_SET,
    STORES_RUNNING_NUMBER,
    STORES_OVER_ANOTHER,
    STORES_BESIDE_CHANGED_SETTINGS,
    STORE_INTO_SPOILED,
    STORE_INTO_FULL,
    STORE_INTO_SPOILED_AND_FULL,
    STORE_KINDS
};

/* What LSS was doing when a command of the network ended Stopped. */
enum { IN_CONFIGURATION, WITH_MATCHES, WITH_NUMBER_SET, WITH_NUMBER_IN_FORCE, WITH_ANOTHER_STORED, LEAVING_KINDS };
enum { LEAVING_COMMANDS = 4 };

/* What a save or a load carries on: a number other than the one in force and the one set, or none where one is set. */
enum { CARRIES_ANOTHER, CARRIES_NONE, CARRYING_KINDS };
enum { CARRYING_ORIGINS = 2 };

enum {
    STORED_NUMBER_HOLDS,
    GIVEN_NUMBER_HOLDS,
    LAST_BLOCK_HAS_NONE, /* and the first has a number */
    LAST_BLOCK_IS_STORE,
    REFUSED_BESIDE_STORED,
    NAMED_POWER_ONS
};

/* Frames under a number that LSS set, and under a stored one. */
enum { BOOT_UP_UNDER, HEARTBEAT_UNDER, PDO_UNDER, EMCY_UNDER, REPLY_ONE_UNDER, REPLY_TWO_UNDER, FRAMES_UNDER };
enum { NUMBER_SOURCES = 2 };

/* Bytes of a block: the channel, the kind, the stored number, and the zeros behind it up to the check; channels and kinds are 1 to 3. */
enum { CHANNEL_AT = 4, KIND_AT = 5, NUMBER_AT = 28, ZEROS_AT = 29, CHECK_AT = 510, BLOCK_CHANNELS = 3, BLOCK_KINDS = 3 };

/* Which block of the run brought a setting's value, and what it was before. */
enum {
    NO_BLOCK,
    ONLY_BLOCK,
    FIRST_BLOCK,
    MIDDLE_BLOCK,
    LAST_BLOCK,
    CAME_AGAIN,       /* the value was there before, and went */
    NEVER_THE_SAME,   /* every block of the run changed it */
    FACTORY_BY_BLOCK, /* a block brought the value that the factory has, and it is no load */
    FACTORY_BY_LOAD,
    BRINGINGS
};

/* The journal that was asked: what stands in it, and what stands behind its run. */
enum {
    ASKED_BLANK,
    ASKED_WITH_ROOM,
    ASKED_FULL,
    ASKED_FULL_OF_MOST,
    ASKED_SPOILED_AT_ONCE, /* no block is filled */
    ASKED_SPOILED,
    OTHER_VALUE_NEXT,   /* in the block behind the run, which is neither good nor blank */
    OTHER_VALUE_BEHIND, /* in a good block behind that one, or behind a blank one */
    ASKED_JOURNALS
};

/* Values of two bytes: the highest bit is a sign or is none, and one byte alone tells a value from another. */
enum { HIGHEST_BIT, LOW_BYTE_ALONE, HIGH_BYTE_ALONE, CHANGED_LOW_BYTE, CHANGED_HIGH_BYTE, EXCHANGED_BYTES, VALUE_KINDS };

/* Lengths that are refused, of a journal asked for a setting and for a pair that is none. */
enum { LENGTH_ZERO, BELOW_A_BLOCK, BETWEEN_BLOCKS, TOO_MANY_BLOCKS, BETWEEN_TOO_MANY, WRONG_LENGTHS };

/* Pairs that are no setting: another object, another subindex of a setting's index, or no object at all. */
enum { OTHER_OBJECT, OTHER_SUBINDEX, NO_OBJECT, NO_SETTINGS };

struct counts {
    uint64_t calls[CALL_KINDS];
    uint64_t events[EVENT_KINDS];
    uint64_t power_on_refusals[REFUSALS];
    uint64_t event_refusals[REFUSALS];
    uint64_t frames_at_once[BASINTILT_MOST_FRAMES + 1];
    uint64_t sent[SENT_KINDS];
    uint64_t replies[CHANNELS * REPLIES];
    uint64_t aborts[CHANNELS * ABORTS];
    uint64_t saves[CHANNELS];
    uint64_t loads[CHANNELS];
    uint64_t reads[OBJECTS];
    uint64_t writes[OBJECTS];
    uint64_t queries[3];
    uint64_t journals[JOURNAL_SHAPES * LENGTH_CLASSES];
    uint64_t fields_refused[FIELDS];
    uint64_t fields_refused_as_wide[FIELDS];
    uint64_t good_blocks[BLOCK_CHANNELS * BLOCK_KINDS];
    uint64_t stored_numbers[BYTE_VALUES];
    uint64_t bytes_behind[CHECK_AT - ZEROS_AT];
    uint64_t lss_states[NETWORK_STATES * LSS_MODES];
    uint64_t lss_heads[LSS_HEADS];
    uint64_t lss_commands[LSS_MODES * BYTE_VALUES];
    uint64_t matches[MATCHES];
    uint64_t numbers_to_set[BYTE_VALUES];
    uint64_t lss_replies[LSS_REPLIES];
    uint64_t stores[STORE_KINDS];
    uint64_t leavings[LEAVING_COMMANDS * LEAVING_KINDS];
    uint64_t carryings[CARRYING_ORIGINS * CARRYING_KINDS];
    uint64_t named_power_ons[NAMED_POWER_ONS];
    uint64_t frames_under[NUMBER_SOURCES * FRAMES_UNDER];
    uint64_t reads_under[OBJECTS];
    uint64_t roundings[ANGLE_USES * AXES * RESOLUTIONS * SIGNS * PLACES];
    uint64_t step_edges[RESOLUTIONS * SIGNS * EDGES * TENS];
    uint64_t sums_at_halves[AXES * SIGNS];
    uint64_t zeros_by_rounding[AXES * 2];
    uint64_t turns[SHOWN * SIGNS * MOVED_KINDS * LANDINGS];
    uint64_t turn_ends[SHOWN * SIGNS * TURN_ENDS];
    uint64_t offset_ends[SHOWN * 4];
    uint64_t turned_and_clamped[SHOWN * SIGNS];
    uint64_t unturned[SHOWN * SIGNS];
    uint64_t turned_presets[AXES * RESOLUTIONS * PRESET_KINDS];
    uint64_t bringings[SETTING_PAIRS * BRINGINGS];
    uint64_t bringers[SETTING_PAIRS * BLOCK_CHANNELS * BLOCK_KINDS];
    uint64_t journals_asked[SETTING_PAIRS * ASKED_JOURNALS];
    uint64_t values_found[SETTING_PAIRS * VALUE_KINDS];
    uint64_t wrong_lengths[2 * WRONG_LENGTHS];
    uint64_t no_settings[NO_SETTINGS];
};

extern struct counts counts;
extern const uint32_t abort_codes[ABORTS];
extern const uint8_t reply_firsts[REPLIES];

extern const uint8_t leaving_commands[LEAVING_COMMANDS];
extern const int32_t most_turns[RESOLUTIONS];

void count_call(const struct pair *pair, const struct call *call);

/* The code of an abort's 8 bytes. */
uint32_t abort_code(const uint8_t *bytes);

/* What a power-on or an event says of LSS and of the node number. */
void count_lss(const struct pair *pair, const struct call *call);

/* What a frame of an answer says of an angle. */
void count_angles(const struct pair *pair, const struct call *call, const struct basintilt_frame *frame);

/* What an angle that is shown says of its sum, and a preset that was judged; whether an offset fits 16 bits. */
void count_turn(const struct basintilt_axis_settings *settings, int32_t q, unsigned resolution, unsigned shown);
void count_turned_preset(int32_t preset, int32_t offset, unsigned resolution, unsigned axis);
bool fits(int32_t offset);

/* What was found of a setting's origin, and in which journal. */
void count_origin(const struct pair *pair, const struct call *call);

/* The channel, the kind and the number of a block that was asked about. */
void count_block(const struct pair *pair, const struct call *call);

/* Prints all counts; false where something was never reached. */
bool show_counts(void);
bool show_lss_counts(void);
bool show_angle_counts(void);
bool show_turn_counts(void);
bool show_origin_counts(void);

#endif
