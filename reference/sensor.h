/* The tilt sensor: its device record, its events and its answers. */
#ifndef REFERENCE_SENSOR_H
#define REFERENCE_SENSOR_H

#include <stddef.h>
#include <stdint.h>

enum {
    REFERENCE_BLOCK_SIZE = 512,
    REFERENCE_MOST_BLOCKS = 128,
    REFERENCE_CHANNELS = 2,
    REFERENCE_AXES = 2,
    REFERENCE_ERRORS = 5,
    REFERENCE_FRAME_BYTES = 8,
    REFERENCE_FRAMES = 2
};

enum reference_refusal {
    REFERENCE_ACCEPTED = 0,
    REFERENCE_BAD_JOURNAL_LENGTH = 1,
    REFERENCE_BAD_FRAME = 2,
    REFERENCE_BAD_RECORD = 3,
    REFERENCE_BAD_NODE = 4,
    REFERENCE_BAD_LINE = 5,
    REFERENCE_NO_SETTING = 6
};

enum reference_nmt_state {
    REFERENCE_STOPPED = 4,
    REFERENCE_OPERATIONAL = 5,
    REFERENCE_PRE_OPERATIONAL = 127
};

enum reference_transfer {
    REFERENCE_NO_TRANSFER = 0,
    REFERENCE_AT_START = 1,
    REFERENCE_AFTER_SEVEN = 2
};

enum reference_lss_mode {
    REFERENCE_LSS_WAITING = 0,
    REFERENCE_LSS_CONFIGURATION = 1
};

enum reference_axis_state {
    REFERENCE_AXIS_NONE = 0,
    REFERENCE_AXIS_GOOD = 1,
    REFERENCE_AXIS_FAULTY = 2
};

enum reference_event_kind {
    REFERENCE_FRAME = 0,
    REFERENCE_TICK = 1,
    REFERENCE_READING = 2
};

enum reference_axis_number {
    REFERENCE_X = 0,
    REFERENCE_Y = 1
};

enum reference_block_answer {
    REFERENCE_BLOCK_GOOD = 0,
    REFERENCE_BLOCK_BLANK = 1,
    REFERENCE_BLOCK_NEITHER = 2
};

enum reference_block_kind {
    REFERENCE_SAVE = 1,
    REFERENCE_LOAD = 2,
    REFERENCE_STORE = 3
};

struct reference_pdo_settings {
    uint8_t on;
    uint8_t transmission;
    uint16_t timer;
};

struct reference_axis_settings {
    uint8_t operating;
    int16_t preset;
    int16_t offset;
    int16_t differential;
};

struct reference_settings {
    uint16_t heartbeat;
    struct reference_pdo_settings pdo;
    uint16_t resolution;
    struct reference_axis_settings axes[REFERENCE_AXES];
};

struct reference_pdo_counts {
    uint16_t elapsed;
    uint8_t sync_count;
};

struct reference_identity {
    uint32_t vendor;
    uint32_t product;
    uint32_t revision;
    uint32_t serial;
};

struct reference_saves {
    uint16_t blocks;
    uint16_t filled;
    uint8_t spoiled;
    uint8_t stored_number;
    struct reference_settings stored;
};

struct reference_lss {
    uint8_t mode;
    uint8_t matches;
    uint8_t number_set;
};

struct reference_errors {
    uint8_t length;
    uint16_t codes[REFERENCE_ERRORS];
};

struct reference_axis {
    uint8_t state;
    int32_t m;
};

struct reference_record {
    uint8_t node;
    uint8_t nmt_state;
    uint8_t transfers[REFERENCE_CHANNELS];
    uint16_t heartbeat_elapsed;
    struct reference_pdo_counts pdo;
    struct reference_identity identity;
    struct reference_saves saves;
    struct reference_settings running;
    struct reference_errors errors;
    struct reference_axis axes[REFERENCE_AXES];
    struct reference_lss lss;
};

struct reference_received {
    uint32_t identifier;
    uint32_t remote;
    uint32_t length;
    uint8_t bytes[REFERENCE_FRAME_BYTES];
};

struct reference_reading {
    uint32_t axis;
    int32_t thousandths;
};

struct reference_event {
    uint32_t kind;
    union {
        struct reference_received frame;
        uint16_t tick;
        struct reference_reading reading;
    } data;
};

struct reference_sent {
    uint16_t identifier;
    uint8_t length;
    uint8_t bytes[REFERENCE_FRAME_BYTES];
};

struct reference_answer {
    uint8_t refusal;
    uint8_t count;
    struct reference_sent frames[REFERENCE_FRAMES];
};

/* Block 0, with channel and kind 0, says factory; all but the refusal is 0 on a refusal. */
struct reference_origin {
    uint8_t refusal;
    int32_t value;
    uint32_t block;
    uint8_t channel;
    uint8_t kind;
};

void reference_power_on(struct reference_record *record, uint32_t node,
                        struct reference_identity identity,
                        const uint8_t *journal, size_t length,
                        struct reference_answer *answer);

void reference_event(struct reference_record *record, uint8_t *journal, size_t length,
                     const struct reference_event *event, struct reference_answer *answer);

uint8_t reference_block(const uint8_t *block, size_t length, uint32_t place);

void reference_origin(const uint8_t *journal, size_t length, uint16_t index, uint8_t subindex,
                      struct reference_origin *origin);

#endif
