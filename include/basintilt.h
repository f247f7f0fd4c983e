/* The sensor's C interface: power-on, one event on the recorder's own record, the block query and the origin query (libbasintilt.a).
 *
 * Duties of the caller, at every call:
 *  - no pointer is null, also where its length is 0; each is aligned for its type;
 *  - device and journal do not overlap, and nothing else reads or writes them during the call;
 *  - a length is that of the memory behind its pointer.
 * Any number may stand in any field: what is out of range is refused, and then record and journal are untouched. */
#ifndef BASINTILT_H
#define BASINTILT_H

#include <stddef.h>
#include <stdint.h>

/* Refusals. */
enum {
    BASINTILT_ACCEPTED = 0,
    BASINTILT_WRONG_LENGTH = 1,   /* journal length not 512 times 1 to 128, or not the length at power-on */
    BASINTILT_WRONG_FRAME = 2,    /* identifier over 7FFh or length over 8 */
    BASINTILT_OUT_OF_RANGE = 3,   /* a field of the record outside its range */
    BASINTILT_WRONG_NODE = 4,     /* node not 1 to 47 */
    BASINTILT_NO_SETTING = 6      /* index and subindex of no setting */
};

/* Kinds of happenings; any other number does nothing. */
enum {
    BASINTILT_FRAME = 0,
    BASINTILT_REMOTE_FRAME = 1,
    BASINTILT_TICK = 2,
    BASINTILT_READING_X = 3,
    BASINTILT_READING_Y = 4
};

/* Answers of the block query. */
enum { BASINTILT_GOOD = 0, BASINTILT_BLANK = 1, BASINTILT_NEITHER = 2 };

/* What fills a block: a save or a load by channel 1 or 2, a store by LSS as channel 3. */
enum { BASINTILT_BLOCK_SAVE = 1, BASINTILT_BLOCK_LOAD = 2, BASINTILT_BLOCK_STORE = 3, BASINTILT_BLOCK_LSS_CHANNEL = 3 };

/* Numbers of the record: NMT states, transfers, axes, LSS modes and the most matches of an LSS selection that is not complete. */
enum { BASINTILT_STOPPED = 4, BASINTILT_OPERATIONAL = 5, BASINTILT_PRE_OPERATIONAL = 127 };
enum { BASINTILT_ABSENT = 0, BASINTILT_AT_START = 1, BASINTILT_AFTER_SEVEN = 2 };
enum { BASINTILT_NONE = 0, BASINTILT_GOOD_AXIS = 1, BASINTILT_FAULTY = 2 };
enum { BASINTILT_WAITING = 0, BASINTILT_CONFIGURATION = 1, BASINTILT_MOST_MATCHES = 3 };

/* Where frames come and go; each but NMT, SYNC and the two of LSS has the node added. */
enum {
    BASINTILT_NMT_AT = 0x000,
    BASINTILT_SYNC_AT = 0x080,
    BASINTILT_EMERGENCY_AT = 0x080,
    BASINTILT_PDO_AT = 0x180,
    BASINTILT_REPLY_ONE_AT = 0x580,
    BASINTILT_REQUEST_ONE_AT = 0x600,
    BASINTILT_REQUEST_TWO_AT = 0x680,
    BASINTILT_REPLY_TWO_AT = 0x6B0,
    BASINTILT_HEARTBEAT_AT = 0x700,
    BASINTILT_LSS_REPLY_AT = 0x7E4,
    BASINTILT_LSS_REQUEST_AT = 0x7E5
};

/* Codes of the error list and of EMCY. */
enum { BASINTILT_JOURNAL_SPOILED = 0xFF00, BASINTILT_X_FAULTY = 0xFF01, BASINTILT_Y_FAULTY = 0xFF02 };

/* Abort codes of the service channels. */
enum {
    BASINTILT_ABORT_TOGGLE = 0x05030000,
    BASINTILT_ABORT_COMMAND = 0x05040001,
    BASINTILT_ABORT_FULL = 0x05040005,
    BASINTILT_ABORT_READ_ONLY = 0x06010002,
    BASINTILT_ABORT_OBJECT = 0x06020000,
    BASINTILT_ABORT_SPOILED = 0x06060000,
    BASINTILT_ABORT_TOO_LONG = 0x06070012,
    BASINTILT_ABORT_TOO_SHORT = 0x06070013,
    BASINTILT_ABORT_SUBINDEX = 0x06090011,
    BASINTILT_ABORT_VALUE = 0x06090030,
    BASINTILT_ABORT_SIGNATURE = 0x08000020,
    BASINTILT_ABORT_AXIS = 0x08000022,
    BASINTILT_ABORT_ENTRY = 0x08000024
};

/* What a write of 1010:1 and 1011:1 carries, and the ends of the settings' ranges. */
#define BASINTILT_SAVE UINT32_C(0x65766173)
#define BASINTILT_LOAD UINT32_C(0x64616F6C)
enum { BASINTILT_LEAST_PERIOD = 25, BASINTILT_MOST_SYNCHRONOUS = 240, BASINTILT_LEAST_TIMED = 254, BASINTILT_MOST_OPERATING = 3 };

/* The farthest good reading either way, and what the PDO shows of an axis that is not good. */
enum { BASINTILT_FARTHEST = 180000, BASINTILT_NO_ANGLE = -32768 };

enum { BASINTILT_BLOCK_BYTES = 512, BASINTILT_MOST_BLOCKS = 128, BASINTILT_MOST_NODE = 47, BASINTILT_MOST_ERRORS = 5 };

/* The service channels, and the most frames of one answer. */
enum { BASINTILT_CHANNELS = 2 };
#define BASINTILT_MOST_FRAMES 2

/* 6011 to 6014, or 6021 to 6024. */
struct basintilt_axis_settings {
    uint16_t operating;
    int16_t preset;
    int16_t offset;
    int16_t differential;
};

/* 1800: on is 1 or 0, transmission is subindex 2, timer subindex 5. */
struct basintilt_pdo_settings {
    uint8_t on;
    uint8_t transmission;
    uint16_t timer;
};

struct basintilt_settings {
    uint16_t heartbeat; /* 1017 */
    struct basintilt_pdo_settings pdo;
    uint16_t resolution; /* 6000 */
    struct basintilt_axis_settings x;
    struct basintilt_axis_settings y;
};

/* 1018. */
struct basintilt_identity {
    uint32_t vendor;
    uint32_t product;
    uint32_t revision;
    uint32_t serial;
};

struct basintilt_pdo_counts {
    uint16_t elapsed;
    uint16_t syncs;
};

/* A channel's segmented transfer: absent, at the start or after seven bytes. */
struct basintilt_transfer {
    uint8_t stage;
};

/* What the record keeps of the journal; spoiled is 1 or 0, node the stored node number: 0 where none is, and then the one given at power-on holds. */
struct basintilt_saves {
    uint16_t blocks;
    uint16_t filled;
    uint8_t spoiled;
    uint8_t node;
    struct basintilt_settings stored;
};

/* The LSS slave: its mode, the matches so far, and the node number that was set, 0 where none was: a reset brings it into force. */
struct basintilt_lss {
    uint16_t mode;
    uint8_t matches;
    uint8_t node;
};

/* The error list, newest first; 0 past its length. */
struct basintilt_errors {
    uint16_t length;
    uint16_t codes[BASINTILT_MOST_ERRORS];
};

/* An axis and its last good reading m, in thousandths of a degree. Its angle is m over the resolution r, rounded to the nearest whole number,
 * halves away from zero, with the other sign where bit 0 of operating is set. Where bit 1 is set, offset and differential are added, and the sum
 * is moved by whole turns (360000 / r) until it is above -180000 / r and at most 180000 / r. What comes out, with bit 1 or without,
 * is brought into -32767 to 32767. */
struct basintilt_reading {
    uint32_t state;
    int32_t m;
};

/* The node is the number in force. */
struct basintilt_device {
    struct basintilt_identity identity;
    struct basintilt_reading x;
    struct basintilt_reading y;
    uint16_t heartbeat;
    struct basintilt_pdo_counts pdo;
    struct basintilt_saves saves;
    struct basintilt_settings running;
    struct basintilt_errors errors;
    struct basintilt_lss lss;
    uint8_t node;
    uint8_t network;
    struct basintilt_transfer transfers[BASINTILT_CHANNELS];
};

/* A sent frame; the bytes past its length are 0. */
struct basintilt_frame {
    uint16_t identifier;
    uint16_t length;
    uint8_t bytes[8];
};

/* The refusal, and as many frames as the count says, in their order; those past it are all zero. */
struct basintilt_answer {
    uint16_t refusal;
    uint16_t count;
    struct basintilt_frame frames[BASINTILT_MOST_FRAMES];
};

struct basintilt_stepped {
    struct basintilt_device device;
    struct basintilt_answer answer;
};

/* Where the value of a setting comes from: the value in force after a power-on, 1800:1 as 1 or 0, and the number, channel and kind of the block
 * that brought it, 0 each where it is the factory's. Where it is refused all else is 0. */
struct basintilt_finding {
    uint32_t refusal;
    int32_t value;
    uint32_t block;
    uint32_t channel;
    uint32_t kind;
};

/* A frame has identifier, length (9 can be said) and bytes; a tick ms; a reading m. What its kind does not use is ignored. */
struct basintilt_happening {
    uint8_t kind;
    uint8_t length;
    uint16_t ms;
    uint32_t identifier;
    int32_t m;
    uint8_t bytes[8];
};

/* No struct has a padding byte: each is as long as its fields together, and each field stands where the library has it. */
#define BASINTILT_BYTES(part, field) sizeof(((struct basintilt_##part *)0)->field)
#define BASINTILT_LONG(part, bytes, fields) \
    _Static_assert(sizeof(struct basintilt_##part) == (bytes) && (bytes) == (fields), "length of basintilt_" #part)
#define BASINTILT_AT(part, field, place) \
    _Static_assert(offsetof(struct basintilt_##part, field) == (place), "place of " #field " in basintilt_" #part)

BASINTILT_LONG(axis_settings, 8, BASINTILT_BYTES(axis_settings, operating) + BASINTILT_BYTES(axis_settings, preset)
               + BASINTILT_BYTES(axis_settings, offset) + BASINTILT_BYTES(axis_settings, differential));
BASINTILT_AT(axis_settings, operating, 0); BASINTILT_AT(axis_settings, preset, 2); BASINTILT_AT(axis_settings, offset, 4);
BASINTILT_AT(axis_settings, differential, 6);

BASINTILT_LONG(pdo_settings, 4, BASINTILT_BYTES(pdo_settings, on) + BASINTILT_BYTES(pdo_settings, transmission)
               + BASINTILT_BYTES(pdo_settings, timer));
BASINTILT_AT(pdo_settings, on, 0); BASINTILT_AT(pdo_settings, transmission, 1); BASINTILT_AT(pdo_settings, timer, 2);

BASINTILT_LONG(settings, 24, BASINTILT_BYTES(settings, heartbeat) + BASINTILT_BYTES(settings, pdo)
               + BASINTILT_BYTES(settings, resolution) + BASINTILT_BYTES(settings, x) + BASINTILT_BYTES(settings, y));
BASINTILT_AT(settings, heartbeat, 0); BASINTILT_AT(settings, pdo, 2); BASINTILT_AT(settings, resolution, 6); BASINTILT_AT(settings, x, 8);
BASINTILT_AT(settings, y, 16);

BASINTILT_LONG(identity, 16, BASINTILT_BYTES(identity, vendor) + BASINTILT_BYTES(identity, product) + BASINTILT_BYTES(identity, revision)
               + BASINTILT_BYTES(identity, serial));
BASINTILT_AT(identity, vendor, 0); BASINTILT_AT(identity, product, 4); BASINTILT_AT(identity, revision, 8);
BASINTILT_AT(identity, serial, 12);

BASINTILT_LONG(pdo_counts, 4, BASINTILT_BYTES(pdo_counts, elapsed) + BASINTILT_BYTES(pdo_counts, syncs));
BASINTILT_AT(pdo_counts, elapsed, 0); BASINTILT_AT(pdo_counts, syncs, 2);

BASINTILT_LONG(transfer, 1, BASINTILT_BYTES(transfer, stage));
BASINTILT_AT(transfer, stage, 0);

BASINTILT_LONG(saves, 30, BASINTILT_BYTES(saves, blocks) + BASINTILT_BYTES(saves, filled) + BASINTILT_BYTES(saves, spoiled)
               + BASINTILT_BYTES(saves, node) + BASINTILT_BYTES(saves, stored));
BASINTILT_AT(saves, blocks, 0); BASINTILT_AT(saves, filled, 2); BASINTILT_AT(saves, spoiled, 4); BASINTILT_AT(saves, node, 5);
BASINTILT_AT(saves, stored, 6);

BASINTILT_LONG(lss, 4, BASINTILT_BYTES(lss, mode) + BASINTILT_BYTES(lss, matches) + BASINTILT_BYTES(lss, node));
BASINTILT_AT(lss, mode, 0); BASINTILT_AT(lss, matches, 2); BASINTILT_AT(lss, node, 3);

BASINTILT_LONG(errors, 12, BASINTILT_BYTES(errors, length) + BASINTILT_BYTES(errors, codes));
BASINTILT_AT(errors, length, 0); BASINTILT_AT(errors, codes, 2);

BASINTILT_LONG(reading, 8, BASINTILT_BYTES(reading, state) + BASINTILT_BYTES(reading, m));
BASINTILT_AT(reading, state, 0); BASINTILT_AT(reading, m, 4);

BASINTILT_LONG(device, 112, BASINTILT_BYTES(device, identity) + BASINTILT_BYTES(device, x) + BASINTILT_BYTES(device, y)
               + BASINTILT_BYTES(device, heartbeat) + BASINTILT_BYTES(device, pdo) + BASINTILT_BYTES(device, saves)
               + BASINTILT_BYTES(device, running) + BASINTILT_BYTES(device, errors) + BASINTILT_BYTES(device, lss)
               + BASINTILT_BYTES(device, node) + BASINTILT_BYTES(device, network) + BASINTILT_BYTES(device, transfers));
BASINTILT_AT(device, identity, 0); BASINTILT_AT(device, x, 16); BASINTILT_AT(device, y, 24); BASINTILT_AT(device, heartbeat, 32);
BASINTILT_AT(device, pdo, 34); BASINTILT_AT(device, saves, 38); BASINTILT_AT(device, running, 68); BASINTILT_AT(device, errors, 92);
BASINTILT_AT(device, lss, 104); BASINTILT_AT(device, node, 108); BASINTILT_AT(device, network, 109); BASINTILT_AT(device, transfers, 110);

BASINTILT_LONG(frame, 12, BASINTILT_BYTES(frame, identifier) + BASINTILT_BYTES(frame, length) + BASINTILT_BYTES(frame, bytes));
BASINTILT_AT(frame, identifier, 0); BASINTILT_AT(frame, length, 2); BASINTILT_AT(frame, bytes, 4);

BASINTILT_LONG(answer, 28, BASINTILT_BYTES(answer, refusal) + BASINTILT_BYTES(answer, count) + BASINTILT_BYTES(answer, frames));
BASINTILT_AT(answer, refusal, 0); BASINTILT_AT(answer, count, 2); BASINTILT_AT(answer, frames, 4);

BASINTILT_LONG(stepped, 140, BASINTILT_BYTES(stepped, device) + BASINTILT_BYTES(stepped, answer));
BASINTILT_AT(stepped, device, 0); BASINTILT_AT(stepped, answer, 112);

BASINTILT_LONG(happening, 20, BASINTILT_BYTES(happening, kind) + BASINTILT_BYTES(happening, length) + BASINTILT_BYTES(happening, ms)
               + BASINTILT_BYTES(happening, identifier) + BASINTILT_BYTES(happening, m) + BASINTILT_BYTES(happening, bytes));
BASINTILT_AT(happening, kind, 0); BASINTILT_AT(happening, length, 1); BASINTILT_AT(happening, ms, 2);
BASINTILT_AT(happening, identifier, 4); BASINTILT_AT(happening, m, 8); BASINTILT_AT(happening, bytes, 12);

BASINTILT_LONG(finding, 20, BASINTILT_BYTES(finding, refusal) + BASINTILT_BYTES(finding, value) + BASINTILT_BYTES(finding, block)
               + BASINTILT_BYTES(finding, channel) + BASINTILT_BYTES(finding, kind));
BASINTILT_AT(finding, refusal, 0); BASINTILT_AT(finding, value, 4); BASINTILT_AT(finding, block, 8); BASINTILT_AT(finding, channel, 12);
BASINTILT_AT(finding, kind, 16);

#undef BASINTILT_BYTES
#undef BASINTILT_LONG
#undef BASINTILT_AT

/* The record that the journal gives, and boot-up; a refused power-on gives the all-zero record. The journal is only read.
 * The node given has to be 1 to 47, also where the journal has a stored one, which then holds. */
struct basintilt_stepped basintilt_power_on(uint32_t node, struct basintilt_identity identity, const uint8_t *journal, size_t journal_length);

/* One event: the record behind the pointer is updated; a save, a load or a store by LSS fills one block of the journal. */
struct basintilt_answer basintilt_event(struct basintilt_device *device, uint8_t *journal, size_t journal_length, struct basintilt_happening happening);

/* What a block is at the place it should have, counted from 1. */
uint32_t basintilt_block(const uint8_t *block, size_t block_length, uint32_t place);

/* Who set a setting, given by its index and subindex: the earliest block from which on every block of the run holds the value in force.
 * Refused with 1 for the journal's length and then with 6 for a pair that is no setting. The journal is only read, in one pass over its run. */
struct basintilt_finding basintilt_origin(const uint8_t *journal, size_t journal_length, uint16_t index, uint8_t subindex);

#endif
