/* Device records that are made: any in range, some of which only the low bytes are in range, and wholly random ones. */
#include "records.h"

#include "settings.h"

#include <string.h>

const char *const record_names[RECORD_SHAPES] = {"any in range", "low bytes in range", "wholly random"};

static uint16_t elapsed_below(struct chance *chance, uint32_t period)
{
    if (period == 0) {
        return 0;
    }
    return (uint16_t)PICK(chance, 0, period - 1, below(chance, period));
}

static struct basintilt_saves any_saves(struct chance *chance)
{
    struct basintilt_saves saves;
    saves.blocks = (uint16_t)(one_in(chance, 100) ? between(chance, 1, BASINTILT_MOST_BLOCKS) : between(chance, 1, 4));
    saves.filled = (uint16_t)PICK(chance, 0, saves.blocks, saves.blocks - 1u, between(chance, 0, saves.blocks));
    saves.spoiled = one_in(chance, 5);
    saves.node = any_stored_node(chance);
    saves.stored = any_settings(chance);
    return saves;
}

static struct basintilt_errors any_errors(struct chance *chance)
{
    struct basintilt_errors errors;
    memset(&errors, 0, sizeof errors);
    errors.length = (uint16_t)between(chance, 0, BASINTILT_MOST_ERRORS);
    for (unsigned i = 0; i < errors.length; i++) {
        errors.codes[i] = (uint16_t)between(chance, BASINTILT_JOURNAL_SPOILED, BASINTILT_Y_FAULTY);
    }
    return errors;
}

static struct basintilt_reading any_reading(struct chance *chance)
{
    const uint32_t far = BASINTILT_FARTHEST;
    struct basintilt_reading reading;
    reading.state = PICK(chance, BASINTILT_NONE, BASINTILT_GOOD_AXIS, BASINTILT_GOOD_AXIS, BASINTILT_FAULTY);
    reading.m = (int32_t)PICK(chance, 0, 0u - far, far, below(chance, 2 * far + 1) - far);
    if (reading.state == BASINTILT_NONE) {
        reading.m = 0;
    }
    return reading;
}

static struct basintilt_lss any_lss(struct chance *chance)
{
    struct basintilt_lss lss;
    lss.mode = (uint16_t)PICK(chance, BASINTILT_WAITING, BASINTILT_CONFIGURATION);
    lss.matches = (uint8_t)below(chance, BASINTILT_MOST_MATCHES + 1);
    lss.node = any_stored_node(chance);
    return lss;
}

struct basintilt_identity any_identity(struct chance *chance)
{
    uint32_t number = PICK(chance, 0, 1, 0xFFFFFFFF, any32(chance));
    if (one_in(chance, 4)) {
        return (struct basintilt_identity){number, number, number + one_in(chance, 2), number};
    }
    return (struct basintilt_identity){any32(chance), any32(chance), any32(chance), any32(chance)};
}

static struct basintilt_device record_in_range(struct chance *chance)
{
    struct basintilt_device device;
    memset(&device, 0, sizeof device);
    device.node = (uint8_t)PICK(chance, 1, BASINTILT_MOST_NODE, between(chance, 1, BASINTILT_MOST_NODE));
    device.network = (uint8_t)PICK(chance, BASINTILT_STOPPED, BASINTILT_OPERATIONAL, BASINTILT_OPERATIONAL, BASINTILT_PRE_OPERATIONAL);
    device.transfers[0].stage = (uint8_t)below(chance, BASINTILT_AFTER_SEVEN + 1);
    device.transfers[1].stage = (uint8_t)below(chance, BASINTILT_AFTER_SEVEN + 1);
    device.identity = any_identity(chance);
    device.saves = any_saves(chance);
    device.running = any_settings(chance);
    device.heartbeat = elapsed_below(chance, device.running.heartbeat);
    device.pdo.elapsed = elapsed_below(chance, device.running.pdo.timer);
    if (device.running.pdo.transmission <= BASINTILT_MOST_SYNCHRONOUS) {
        device.pdo.syncs = elapsed_below(chance, device.running.pdo.transmission);
    }
    device.errors = any_errors(chance);
    device.lss = any_lss(chance);
    device.x = any_reading(chance);
    device.y = any_reading(chance);
    return device;
}

/* High bytes that the reference has no place for, in some fields. */
static void make_wide(struct chance *chance, struct basintilt_device *device)
{
    for (unsigned i = 0; i < FIELDS; i++) {
        if (is_wider(&fields[i]) && one_in(chance, 3)) {
            uint32_t high = PICK(chance, 1, 0x80, 0xFF, 0x100, 0xFFFFFF, any32(chance));
            write_field(device, &fields[i], (uint32_t)field_value(device, &fields[i]) | high << 8 * fields[i].size_in_reference);
        }
    }
}

struct basintilt_device make_record(enum record_shape shape, uint64_t seed)
{
    struct chance chance = {seed};
    struct basintilt_device device = record_in_range(&chance);
    if (shape == LOW_BYTES_IN_RANGE) {
        make_wide(&chance, &device);
    }
    if (shape == WHOLLY_RANDOM) {
        for (unsigned i = 0; i < sizeof device; i++) {
            ((uint8_t *)&device)[i] = (uint8_t)any32(&chance);
        }
    }
    return device;
}

static uint32_t end_by_record(struct chance *chance, const struct basintilt_device *device)
{
    uint32_t end = PICK(chance, device->running.heartbeat, device->running.pdo.timer, device->running.pdo.transmission,
                        device->saves.blocks, device->saves.filled, device->errors.length);
    return PICK(chance, end - 1, end, end + 1);
}

static uint32_t fixed_end(struct chance *chance)
{
    uint32_t end = PICK(chance, 0, 0, 2, 4, 5, 10, 24, 25, 47, 100, 127, 128, 240, 253, 254, 1000, 0xFF00, 0xFF02, 0xFFFF,
                        BASINTILT_FARTHEST, 0u - BASINTILT_FARTHEST, 0x80000000);
    return PICK(chance, end - 1, end, end + 1);
}

uint32_t number_for_field(struct chance *chance, const struct basintilt_device *device, const struct field *field)
{
    switch (below(chance, 5)) {
    case 0:
        return any32(chance);
    case 1:
        return end_by_record(chance, device);
    case 2:
        return (uint32_t)field_value(device, field) ^ 1u << below(chance, 8 * field->size);
    default:
        return fixed_end(chance);
    }
}
