/* Counts what was reached of LSS and of the node number. */
#include "counts.h"

#include <string.h>

enum { BLOCK = BASINTILT_BLOCK_BYTES, STORE_KIND = 3 };

const uint8_t leaving_commands[LEAVING_COMMANDS] = {0x01, 0x80, 0x81, 0x82};

static unsigned state_place(uint8_t network)
{
    return network == BASINTILT_STOPPED ? 0 : network == BASINTILT_OPERATIONAL ? 1 : 2;
}

static uint32_t value_in(const uint8_t *bytes)
{
    return bytes[1] | (uint32_t)bytes[2] << 8 | (uint32_t)bytes[3] << 16 | (uint32_t)bytes[4] << 24;
}

static void count_match(const struct basintilt_device *lent, const uint8_t *bytes)
{
    unsigned place = bytes[0] - SELECTS;
    bool right = value_in(bytes) == identity_number(&lent->identity, place);
    counts.matches[2 * (IDENTITY_NUMBERS * lent->lss.matches + place) + right]++;
}

static void count_store(const struct basintilt_device *lent)
{
    const struct basintilt_saves *saves = &lent->saves;
    uint8_t number = lent->lss.node != 0 ? lent->lss.node : lent->node;
    bool full = saves->filled == saves->blocks;
    if (full || saves->spoiled) {
        counts.stores[!full ? STORE_INTO_SPOILED : saves->spoiled ? STORE_INTO_SPOILED_AND_FULL : STORE_INTO_FULL]++;
        return;
    }
    counts.stores[STORES_NUMBER_SET] += number != lent->node;
    counts.stores[STORES_RUNNING_NUMBER] += lent->lss.node == 0;
    counts.stores[STORES_OVER_ANOTHER] += saves->node != 0 && saves->node != number;
    counts.stores[STORES_BESIDE_CHANGED_SETTINGS] += memcmp(&lent->running, &saves->stored, sizeof lent->running) != 0;
}

/* A request of 8 bytes in Stopped. */
static void count_heard(const struct basintilt_device *lent, const uint8_t *bytes)
{
    bool waits = lent->lss.mode == BASINTILT_WAITING;
    counts.lss_commands[lent->lss.mode * BYTE_VALUES + bytes[0]]++;
    if (waits && bytes[0] >= SELECTS && bytes[0] < SELECTED) {
        count_match(lent, bytes);
    }
    if (!waits && bytes[0] == SETS_NUMBER) {
        counts.numbers_to_set[bytes[1]]++;
    }
    if (!waits && bytes[0] == STORES) {
        count_store(lent);
    }
}

static void count_lss_frame(const struct basintilt_device *lent, const struct basintilt_happening *frame)
{
    bool stopped = lent->network == BASINTILT_STOPPED;
    bool whole = frame->kind == BASINTILT_FRAME && frame->length == 8;
    if (whole) {
        counts.lss_states[LSS_MODES * state_place(lent->network) + lent->lss.mode]++;
    }
    if (stopped) {
        counts.lss_heads[frame->kind == BASINTILT_FRAME ? frame->length : LSS_HEADS - 1]++;
    }
    if (stopped && whole) {
        count_heard(lent, frame->bytes);
    }
}

static void count_leaving(const struct pair *pair, const struct basintilt_happening *frame)
{
    const struct basintilt_device *lent = &pair->lent;
    unsigned which = 0;
    bool obeyed = frame->length == 2 && (frame->bytes[1] == 0 || frame->bytes[1] == lent->node);
    while (which < LEAVING_COMMANDS && leaving_commands[which] != frame->bytes[0]) {
        which++;
    }
    if (obeyed && which < LEAVING_COMMANDS && lent->network == BASINTILT_STOPPED) {
        uint64_t *kinds = counts.leavings + which * LEAVING_KINDS;
        kinds[IN_CONFIGURATION] += lent->lss.mode == BASINTILT_CONFIGURATION;
        kinds[WITH_MATCHES] += lent->lss.matches != 0;
        kinds[WITH_NUMBER_SET] += lent->lss.node != 0 && lent->lss.node != lent->node;
        kinds[WITH_NUMBER_IN_FORCE] += lent->lss.node == lent->node;
        kinds[WITH_ANOTHER_STORED] += lent->saves.node != 0 && lent->saves.node != pair->device.node;
    }
}

/* The block that was filled, where a save or a load did it. */
static void count_carrying(const struct pair *pair)
{
    const struct basintilt_device *device = &pair->device;
    unsigned kind = pair->journal[BLOCK * (device->saves.filled - 1u) + KIND_AT];
    if (kind != STORE_KIND) {
        uint64_t *kinds = counts.carryings + (kind - 1) * CARRYING_KINDS;
        kinds[CARRIES_ANOTHER] += device->saves.node != 0 && device->saves.node != device->node && device->saves.node != device->lss.node;
        kinds[CARRIES_NONE] += device->saves.node == 0 && device->lss.node != 0;
    }
}

static void count_power_on(const struct pair *pair, const struct call *call)
{
    const struct basintilt_saves *saves = &pair->device.saves;
    bool named = pair->journal[NUMBER_AT] != 0 && basintilt_block(pair->journal, BLOCK, 1) == BASINTILT_GOOD;
    if (pair->answer.refusal != BASINTILT_ACCEPTED) {
        counts.named_power_ons[REFUSED_BESIDE_STORED] += named && pair->answer.refusal == BASINTILT_WRONG_NODE;
    } else if (saves->filled > 0) {
        counts.named_power_ons[STORED_NUMBER_HOLDS] += saves->node != 0 && saves->node != call->power_on.node;
        counts.named_power_ons[GIVEN_NUMBER_HOLDS] += saves->node == 0;
        counts.named_power_ons[LAST_BLOCK_HAS_NONE] += saves->node == 0 && named;
        counts.named_power_ons[LAST_BLOCK_IS_STORE] += pair->journal[BLOCK * (saves->filled - 1u) + KIND_AT] == STORE_KIND;
    }
}

/* Which of the frames it is that have a node in their identifier. */
static unsigned frame_under(const struct basintilt_frame *frame, unsigned node)
{
    switch (frame->identifier - node) {
    case BASINTILT_HEARTBEAT_AT:
        return frame->bytes[0] == 0 ? BOOT_UP_UNDER : HEARTBEAT_UNDER;
    case BASINTILT_PDO_AT:
        return PDO_UNDER;
    case BASINTILT_EMERGENCY_AT:
        return EMCY_UNDER;
    case BASINTILT_REPLY_ONE_AT:
        return REPLY_ONE_UNDER;
    case BASINTILT_REPLY_TWO_AT:
        return REPLY_TWO_UNDER;
    default:
        return FRAMES_UNDER;
    }
}

static void count_frame_under(const struct basintilt_device *device, const struct basintilt_frame *frame)
{
    unsigned which = frame_under(frame, device->node);
    unsigned object = object_named(frame->bytes + 1);
    bool set = device->lss.node == device->node;
    bool stored = device->saves.node == device->node && device->lss.node == 0;
    if (which < FRAMES_UNDER) {
        counts.frames_under[which] += set;
        counts.frames_under[FRAMES_UNDER + which] += stored;
    }
    if (set && (which == REPLY_ONE_UNDER || which == REPLY_TWO_UNDER) && frame->bytes[0] == 0x43 && object < OBJECTS) {
        counts.reads_under[object]++;
    }
}

static void count_lss_reply(const struct basintilt_device *device, const uint8_t *bytes)
{
    bool beside_set = device->lss.node != 0 && device->lss.node != device->node;
    counts.lss_replies[NUMBER_TOLD_BESIDE_SET] += bytes[0] == TELLS_NUMBER && beside_set;
    switch (bytes[0]) {
    case SELECTED:
        counts.lss_replies[LSS_SELECTED]++;
        break;
    case SETS_NUMBER:
        counts.lss_replies[bytes[1] == 0 ? NUMBER_TAKEN : NUMBER_REFUSED]++;
        break;
    case STORES:
        counts.lss_replies[bytes[1] == 0 ? STORE_DONE : STORE_REFUSED]++;
        break;
    default:
        counts.lss_replies[VENDOR_TOLD + (bytes[0] - TELLS_IDENTITY) % (NUMBER_TOLD - VENDOR_TOLD + 1)]++;
        break;
    }
}

static void count_event(const struct pair *pair, const struct basintilt_happening *happening)
{
    bool is_frame = happening->kind <= BASINTILT_REMOTE_FRAME;
    if (is_frame && happening->identifier == BASINTILT_LSS_REQUEST_AT) {
        count_lss_frame(&pair->lent, happening);
    }
    if (happening->kind == BASINTILT_FRAME && happening->identifier == BASINTILT_NMT_AT) {
        count_leaving(pair, happening);
    }
    if (pair->device.saves.filled > pair->lent.saves.filled) {
        count_carrying(pair);
    }
}

static bool check_is_right(const uint8_t *block)
{
    uint8_t sealed[BLOCK];
    memcpy(sealed, block, BLOCK);
    seal_block(sealed);
    return memcmp(sealed, block, BLOCK) == 0;
}

/* A block that is not good counts where nothing but its fields can be the reason: at its own place, with a right check. */
void count_block(const struct pair *pair, const struct call *call)
{
    const uint8_t *block = pair->journal + call->query.at;
    bool good = pair->block_answer == BASINTILT_GOOD;
    bool own_place = call->length == BLOCK && memcmp(block, &call->query.place, 4) == 0;
    if (good) {
        counts.good_blocks[BLOCK_KINDS * (block[CHANNEL_AT] - 1u) + block[KIND_AT] - 1u]++;
    }
    if (good || (own_place && check_is_right(block))) {
        counts.stored_numbers[block[NUMBER_AT]]++;
        for (unsigned at = ZEROS_AT; at < CHECK_AT; at++) {
            counts.bytes_behind[at - ZEROS_AT] += block[at] != 0;
        }
    }
}

void count_lss(const struct pair *pair, const struct call *call)
{
    const struct basintilt_answer *answer = &pair->answer;
    if (call->kind == POWER_ON) {
        count_power_on(pair, call);
    } else if (answer->refusal == BASINTILT_ACCEPTED) {
        count_event(pair, &call->happening);
    }
    for (unsigned i = 0; i < answer->count && i < BASINTILT_MOST_FRAMES; i++) {
        if (answer->frames[i].identifier == BASINTILT_LSS_REPLY_AT) {
            count_lss_reply(&pair->device, answer->frames[i].bytes);
        } else {
            count_frame_under(&pair->device, &answer->frames[i]);
        }
    }
}
